"""What is told of a book: of the table of its rows, messages, stations and things."""
