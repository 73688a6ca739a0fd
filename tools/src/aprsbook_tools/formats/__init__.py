"""Formats of files and of the air: each module reads or writes one."""
