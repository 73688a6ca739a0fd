"""Logs and books as files, and how books are made of them."""
