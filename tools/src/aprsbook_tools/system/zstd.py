"""Files that zstd packed, read by that program."""
import io
import subprocess
from typing import IO, Any, cast

BLOCK = 1 << 16  # bytes that are read at a time


class Unpacked(io.RawIOBase):
    """What a file has, unpacked; EOFError where that can't be done to its end."""

    def __init__(self, path: str) -> None:
        with open(path, "rb") as file:
            try:
                self.process = subprocess.Popen(
                    ["zstd", "-dcq"], stdin=file, stdout=subprocess.PIPE, stderr=subprocess.PIPE)
            except FileNotFoundError:
                raise EOFError("the program zstd isn't there: install zstd") from None

    def readable(self) -> bool:
        return True

    def readinto(self, buffer: Any) -> int:
        out, complaint = self.process.stdout, self.process.stderr
        assert out is not None and complaint is not None
        octets = out.read(len(buffer))
        buffer[:len(octets)] = octets
        if not octets and self.process.wait():
            words = complaint.read(1000).decode("utf-8", "backslashreplace").strip()
            raise EOFError(words or f"zstd ended with status {self.process.returncode}")
        return len(octets)

    def close(self) -> None:
        if not self.closed:
            if self.process.poll() is None:
                self.process.kill()
            for file in self.process.stdout, self.process.stderr:
                if file is not None:
                    file.close()
            self.process.wait()
        super().close()


def opened(path: str) -> IO[bytes]:
    """A file to read from, unpacked."""
    return cast(IO[bytes], io.BufferedReader(Unpacked(path), BLOCK))
