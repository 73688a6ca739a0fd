"""What all answers have in common: who may ask, from where, and the headers."""
import json
import time
from typing import Any, Optional

import tornado.web

from aprsbook_tools.serving import signing
from aprsbook_tools.serving.net import Net
from aprsbook_tools.serving.tokens import ANYONE, Grant

COOKIE = "aprs-net"
NOTHING = ("default-src 'none'; frame-ancestors 'none'; base-uri 'none'; form-action 'none'")
HEADERS = {
    "X-Content-Type-Options": "nosniff",
    "Referrer-Policy": "no-referrer",
    "Cache-Control": "no-store",
    "Cross-Origin-Resource-Policy": "same-origin",
    "Cross-Origin-Opener-Policy": "same-origin",
    "Content-Security-Policy": NOTHING,
}


class Answer(tornado.web.RequestHandler):
    """An answer to who may ask for it."""

    def initialize(self, net: Net) -> None:
        self.net = net
        self.granted = ANYONE
        self.mark: Optional[signing.Mark] = None

    def set_default_headers(self) -> None:
        self.clear_header("Server")
        for name, value in HEADERS.items():
            self.set_header(name, value)

    def is_allowed(self, grant: Grant) -> bool:
        """Whether a grant is enough for this."""
        return grant.may_read

    def prepare(self) -> None:
        self.check_host()
        self.check_origin()
        grant = self.grant()
        if grant is None:
            raise self.refused()
        if not self.is_allowed(grant):
            raise tornado.web.HTTPError(403, reason="Not Yours")
        self.granted = grant
        if not self.net.know(self.request.connection, grant):
            self.net.say_hourly(f"{grant} has too many connections (--each-token)")
            raise tornado.web.HTTPError(429, reason="Too Many Connections Of One Token")
        self.net.meet(grant, self.address)

    @property
    def address(self) -> str:
        return str(self.request.remote_ip)

    def check_host(self) -> None:
        """A name that isn't this server's leads here where somebody else's name service says so."""
        hosts = self.request.headers.get_list("Host")
        if len(hosts) != 1 or hosts[0].lower() not in self.net.hosts:
            raise tornado.web.HTTPError(421, reason="No Such Host")

    def check_origin(self) -> None:
        """A page of elsewhere may neither change anything here nor read."""
        headers = self.request.headers
        origin = headers.get("Origin")
        own = f"{self.request.protocol}://{headers.get('Host', '').lower()}"
        if origin is not None and origin.lower() != own:
            raise tornado.web.HTTPError(403, reason="Other Origin")
        if headers.get("Sec-Fetch-Site", "none") not in ("none", "same-origin") and \
                headers.get("Sec-Fetch-Mode") != "navigate":
            raise tornado.web.HTTPError(403, reason="Other Site")

    def grant(self) -> Optional[Grant]:
        """What the asker may do, by a token, by a mark that a token makes, or by a cookie."""
        tokens = self.net.tokens
        if tokens.are_open:
            return ANYONE
        header = self.request.headers.get("Authorization", "")
        self.mark = signing.mark_in(header)
        if self.mark is not None:
            return tokens.grant_of_mark(self.mark, self.question())
        kind, _, token = header.partition(" ")
        if kind.lower() == "bearer":
            return tokens.grant(token.strip())
        return tokens.grant_of_cookie(self.get_cookie(COOKIE) or "", time.time())

    def question(self) -> signing.Question:
        request = self.request
        return signing.Question(str(request.method), str(request.uri),
                                request.headers.get("Aprs-After", ""), request.body)

    def refused(self) -> tornado.web.HTTPError:
        if not self.request.headers.get("Authorization"):
            return tornado.web.HTTPError(401)
        return self.wrong_token()

    def wrong_token(self) -> tornado.web.HTTPError:
        if self.net.wrong.is_often(self.address):
            return tornado.web.HTTPError(429)
        self.net.say(f"a wrong token from {self.address}")
        return tornado.web.HTTPError(401)

    def write_error(self, status_code: int, **_: Any) -> None:
        self.set_header("Content-Type", "text/plain; charset=utf-8")
        self.finish(f"{status_code} {self._reason}\n")

    def tell(self, value: Any, status: int = 200) -> None:
        """Answers with JSON, marked where the question was."""
        octets = (json.dumps(value) + "\n").encode()
        self.set_status(status)
        self.set_header("Content-Type", "application/json")
        if self.mark is not None:
            self.set_header(signing.SCHEME, signing.mark_of_answer(
                self.granted.token, self.mark, status, octets))
        self.finish(octets)


class Nothing(Answer):
    """What isn't there, without a word of what is."""

    def prepare(self) -> None:
        self.check_host()
        raise tornado.web.HTTPError(404)
