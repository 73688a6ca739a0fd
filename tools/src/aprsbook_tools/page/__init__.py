"""The page of an event: its data, and what lies below its marks."""
