"""Writes the listing of logs and books under a gap of 30 seconds, by the library for C.

usage: python3 examples/clib/show.py LIBRARY FILE..     LIBRARY is such as out/libaprsbook.so
"""
import ctypes
import sys
from typing import List, Tuple

WORD = ctypes.c_uint64


class Region(ctypes.Structure):
    _fields_ = [("start", ctypes.c_void_p), ("units", ctypes.c_size_t)]


class Answer(ctypes.Structure):
    _fields_ = [(field, WORD) for field in ("status", "input", "line", "written", "named")]


def show(library: ctypes.CDLL, inputs: List[bytes], gap: int = 30) -> Tuple[Answer, bytes, str]:
    """The answer, what was written, and the name of the fault of an input."""
    library.aprs_show.restype = Answer
    every = b"".join(inputs)
    lengths = (ctypes.c_size_t * len(inputs))(*map(len, inputs))
    name = ctypes.create_string_buffer(16)
    size = 8 * len(every) + (4 << 20)
    while True:  # again with more memory where it was too little
        memory, output = ctypes.create_string_buffer(size + 16), ctypes.create_string_buffer(size)
        start = ctypes.addressof(memory)
        region = Region(start + -start % 16, size // 16)
        answer = library.aprs_show(
            region, WORD(gap), every, ctypes.c_size_t(len(every)), lengths,
            ctypes.c_size_t(len(inputs)), output, ctypes.c_size_t(size), name, ctypes.c_size_t(16))
        if answer.status not in (3, 4) and answer.written <= size:
            return answer, output.raw[:answer.written], name.raw[:answer.named].decode()
        size *= 2


if __name__ == "__main__":
    files = sys.argv[2:]
    answer, text, fault = show(ctypes.CDLL(sys.argv[1]), [open(it, "rb").read() for it in files])
    if answer.status == 1:
        print(f"{files[answer.input]}:{answer.line}: {fault}", file=sys.stderr)
    sys.stdout.buffer.write(text)
    sys.exit(answer.status)
