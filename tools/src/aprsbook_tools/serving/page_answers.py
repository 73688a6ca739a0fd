"""The page, the way into it, and the files that it asks for."""
import asyncio
import os
import re
import time
from typing import Tuple

import tornado.iostream
import tornado.web

from aprsbook_tools.serving.answers import COOKIE, Answer
from aprsbook_tools.serving.net import Net

SESSION = 2 * 86_400  # seconds: how long a cookie is good
SLOW = 30  # seconds that a listener may take for what it was sent
PART = 1 << 18  # bytes of a file that are in memory at once
PAGE = "aprsbook.html#logs=logs.txt"
POLICY = re.compile(rb'<meta http-equiv="Content-Security-Policy" content="([^"]*)">')
LOGIN = """<!DOCTYPE html><html lang="en"><head><meta charset="utf-8">
<meta name="viewport" content="width=device-width, initial-scale=1"><title>APRS net</title></head>
<body><h1>APRS net</h1><form method="post" action="login"><p><label>token
<input name="token" type="password" autocomplete="current-password" autofocus></label>
<button>enter</button></p></form></body></html>
"""


class Home(Answer):
    """Leads to the page, or asks for a token."""

    def prepare(self) -> None:
        self.check_host()

    def get(self) -> None:
        grant = self.grant()
        if grant is not None and grant.may_read:
            self.redirect(PAGE)
            return
        self.set_header("Content-Security-Policy", "default-src 'none'; form-action 'self'; "
                        "frame-ancestors 'none'; base-uri 'none'")
        # with `no-referrer` a browser doesn't say of what origin a form is
        self.set_header("Referrer-Policy", "same-origin")
        self.set_header("Content-Type", "text/html; charset=utf-8")
        self.finish(LOGIN)


class Login(Answer):
    """Gives a cookie for a token, so that the page itself asks as it always has."""

    def prepare(self) -> None:
        self.check_host()
        self.check_origin()

    def post(self) -> None:
        net = self.net
        grant = net.tokens.grant(self.get_body_argument("token", "") or "")
        if grant is None or not grant.may_read:
            raise self.wrong_token()
        value = net.tokens.cookie_of(grant, int(time.time()) + SESSION)
        secure = "; Secure" if net.is_secure else ""
        self.add_header("Set-Cookie", f"{COOKIE}={value}; Path=/; Max-Age={SESSION}; HttpOnly; "
                        f"SameSite=Strict{secure}")
        self.redirect(PAGE, status=303)


class Logout(Answer):
    """Takes the cookie back."""

    def post(self) -> None:
        self.clear_cookie(COOKIE)
        self.redirect("./", status=303)


class Page(Answer):
    """aprsbook.html, under its own policy, which it has in it."""

    def initialize(self, net: Net) -> None:
        super().initialize(net)
        found = POLICY.search(net.page[:20_000])
        self.policy = found[1].decode() if found else "default-src 'none'"

    def head(self) -> None:
        self.get()

    def get(self) -> None:
        self.set_header("Content-Security-Policy", f"{self.policy}; frame-ancestors 'none'")
        self.set_header("Content-Type", "text/html; charset=utf-8")
        self.finish(self.net.page)


class Names(Answer):
    """The names of the logs, one a line."""

    def get(self) -> None:
        names = sorted(it for it in self.net.hub.logs if it.endswith(".log"))
        self.set_header("Content-Type", "text/plain; charset=utf-8")
        self.finish("".join(f"logs/{it}\n" for it in names))


class FileAnswer(Answer):
    """A file, or a part of it, by a name that is looked up."""

    async def head(self, name: str) -> None:
        await self.get(name)

    async def get(self, name: str) -> None:
        raise NotImplementedError

    async def hand_out(self, path: str, size: int, kind: str) -> None:
        """Answers with the first bytes of a file, or with those of them that are asked for."""
        try:
            changed = os.stat(path).st_mtime_ns
        except OSError:
            raise tornado.web.HTTPError(404)
        begin, end = self.range(size)
        self.set_header("Content-Type", kind)
        self.set_header("Accept-Ranges", "bytes")
        self.set_header("ETag", f'"{size:x}-{changed:x}"')
        self.set_header("Content-Length", str(end - begin))
        if self.request.method == "HEAD":
            self.finish()
            return
        await self.send(path, begin, end)

    async def send(self, path: str, begin: int, end: int) -> None:
        with open(path, "rb") as file:
            file.seek(begin)
            while begin < end:
                octets = file.read(min(PART, end - begin))
                if not octets:  # it became shorter meanwhile
                    close(self)
                    return
                begin += len(octets)
                self.write(octets)
                if not await flushed(self):
                    return
        self.finish()

    def range(self, size: int) -> Tuple[int, int]:
        found = re.fullmatch(r"bytes=(\d{1,15})-(\d{1,15})?", self.request.headers.get("Range", ""),
                             re.ASCII)
        if not found:
            return 0, size
        begin, end = int(found[1]), min(size, int(found[2] or size) + 1)
        if begin >= size or end <= begin:
            self.set_header("Content-Range", f"bytes */{size}")
            raise tornado.web.HTTPError(416)
        self.set_status(206)
        self.set_header("Content-Range", f"bytes {begin}-{end - 1}/{size}")
        return begin, end


class LogFile(FileAnswer):
    """The whole lines of a log, or of them those from a place on."""

    async def get(self, name: str) -> None:
        log = self.net.hub.logs.get(name)
        if log is None:
            raise tornado.web.HTTPError(404)
        await self.hand_out(log.path, log.size, "text/plain; charset=us-ascii")


class TileArchive(FileAnswer):
    """A map of tiles, whose name the server has said."""

    async def get(self, name: str) -> None:
        path = self.net.settings.tiles.get(name)
        if path is None or not os.path.isfile(path):
            raise tornado.web.HTTPError(404)
        await self.hand_out(path, os.path.getsize(path), "application/octet-stream")


def close(answer: tornado.web.RequestHandler) -> None:
    # a request of a server has a connection, which Tornado's types leave out
    answer.request.connection.stream.close()  # type: ignore[union-attr]


async def flushed(answer: tornado.web.RequestHandler) -> bool:
    """Sends what was written; whether it was taken in time."""
    sending = answer.flush()
    try:
        if not sending.done():
            await asyncio.wait_for(sending, SLOW)
        else:
            await sending
        return True
    except asyncio.TimeoutError:
        close(answer)
    except tornado.iostream.StreamClosedError:
        pass
    return False
