"""The limits of logs and books, written by build/limits.py of the definitions."""
STANDARD_GAP = 30  # seconds between neighbours of a transmission, if nothing says another
GREATEST_GAP = 3_600  # seconds of the widest gap
MOST_LINE = 8_192  # bytes of a log's line before its end
MOST_NAME = 16  # letters of a receiver's name
LAST_MILLISECOND = 4_102_444_799_999  # milliseconds since 1970 of the last moment
MOST_KISS_BYTES = 1_024  # bytes of a frame of KISS
MOST_INPUT = 1_073_741_824  # bytes of an input
