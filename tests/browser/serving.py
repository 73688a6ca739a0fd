"""A web server of a folder, which knows Range as most do, and can go away, or keep silent."""
import functools
import http.server
import pathlib
import re
import threading
from typing import Any, List


class Web(http.server.ThreadingHTTPServer):
    """What asked for a part, and whether it answers."""
    daemon_threads = True

    def __init__(self, *of: Any) -> None:
        super().__init__(*of)
        self.ranges: List[str] = []
        self.answers = threading.Event()
        self.answers.set()


class Handler(http.server.SimpleHTTPRequestHandler):
    server: Web

    def log_message(self, *_: Any) -> None:
        pass

    def do_GET(self) -> None:
        self.server.answers.wait()
        asked = re.fullmatch(r"bytes=(\d+)-", self.headers.get("Range", ""))
        path = pathlib.Path(self.translate_path(self.path))
        if not asked or not path.is_file():
            return super().do_GET()
        self.server.ranges.append(asked[0])
        rest = path.read_bytes()[int(asked[1]):]
        self.send_response(206)
        self.send_header("Content-Length", str(len(rest)))
        self.end_headers()
        self.wfile.write(rest)


class Server:
    def __init__(self, folder: pathlib.Path, port: int = 0) -> None:
        self.folder, self.port = folder, port

    def __enter__(self) -> "Server":
        self.server = Web(
            ("127.0.0.1", self.port), functools.partial(Handler, directory=str(self.folder)))
        self.ranges, self.answers = self.server.ranges, self.server.answers
        self.port = self.server.server_port
        threading.Thread(target=self.server.serve_forever, daemon=True).start()
        return self

    def __exit__(self, *_: Any) -> None:
        self.answers.set()
        self.server.shutdown()
        self.server.server_close()
