"""Logs, books and reports of APRS nets, around the programs aprsbook and aprsbook-table."""

VERSION = "0.3.0"
TYPE_CHECKING = False  # as of `typing`, whose import takes as long as a small report
