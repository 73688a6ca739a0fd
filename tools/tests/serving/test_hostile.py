"""Who means harm to a net that is served: paths, hosts, origins, floods, replays, smuggled requests
and what is too large. Nobody else is held up."""
import contextlib
import http.client
import json
import pathlib
import random
import socket
import time
from typing import Any, Dict, Iterator, List

import pytest

from aprsbook_tools.serving import entries, signing
from conftest import wait_for
from served import DAY, Served, line, serving

JSON_LINES = "application/x-ndjson"


@pytest.fixture(scope="module")
def net(tmp_path_factory: pytest.TempPathFactory) -> Iterator[Served]:
    with serving(tmp_path_factory.mktemp("net"), "--connections", "60", "--each", "50") as it:
        it.push(line(1))
        yield it


def raw(net: Served, octets: bytes, seconds: float = 2) -> bytes:
    """What is answered to bytes as they are."""
    with socket.create_connection(("127.0.0.1", net.port), timeout=seconds) as it:
        it.sendall(octets)
        parts: List[bytes] = []
        try:
            while not parts or parts[-1]:
                parts.append(it.recv(65536))
        except OSError:
            pass
        return b"".join(parts)


def head(net: Served, method: str, path: str, *more: str, token: str = "GUEST") -> bytes:
    host = f"127.0.0.1:{net.port}"
    lines = [f"{method} {path} HTTP/1.1", f"Host: {host}",
             f"Authorization: Bearer {net.tokens[token]}", *more]
    return "".join(f"{it}\r\n" for it in lines).encode() + b"\r\n"


@pytest.mark.parametrize("path", [
    "/logs/../tokens", "/logs/%2e%2e/tokens", "/logs//etc/passwd", "/logs/", "/logs/" + DAY,
    "/logs/" + DAY + "/HILL.log/", "/logs/./" + DAY + "/HILL.log", "/logs/.aprs-net-serve/lock",
    "/logs/.aprs-net-serve/journal-0", "/push/../x/" + DAY, "/states/..%2f", "/desks/../tokens",
    "/x", "//evil.example/", "/aprsbook.html/", "/logs/%00", "/logs/" + "x" * 300,
    "/logs/desks/BASE.jsonl/../../tokens",
])
def test_no_path_leads_elsewhere(net: Served, path: str) -> None:
    answer = net.ask("GET", path, token="BASE")
    assert answer.status in (403, 404) and "Location" not in answer.headers
    assert answer.headers["Content-Security-Policy"].startswith("default-src 'none'")


@pytest.mark.parametrize("headers, status", [
    ({"Host": "evil.example"}, 421),
    ({"Host": ""}, 421),
    ({"Origin": "https://evil.example"}, 403),
    ({"Origin": "null"}, 403),
    ({"Sec_Fetch_Site": "cross-site"}, 403),
    ({"Sec_Fetch_Site": "same-site", "Sec_Fetch_Mode": "no-cors"}, 403),
    ({"Sec_Fetch_Site": "same-origin"}, 200),
])
def test_pages_of_elsewhere(net: Served, headers: Dict[str, Any], status: int) -> None:
    assert net.ask("GET", "/logs.txt", token="GUEST", **headers).status == status
    if status != 200:
        assert net.ask("POST", "/login", b"token=x", **headers).status == status
    assert net.ask("POST", "/desks/BASE", b"{}\n", "BASE", Content_Type="text/plain",
                   **headers).status in (status, 415)


def test_two_hosts(net: Served) -> None:
    said = raw(net, head(net, "GET", "/logs.txt", "Host: evil.example", "Connection: close"))
    assert said.startswith((b"HTTP/1.1 421", b"HTTP/1.1 400"))


@pytest.mark.parametrize("more, body", [
    (["Content-Length: 5", "Transfer-Encoding: chunked"], b"0\r\n\r\nGET /who HTTP/1.1\r\n\r\n"),
    (["Content-Length: 5", "Content-Length: 6"], b"12345\n"),
    (["Content-Length: +5"], b"1234\n"),
    (["Content-Length: 5 5"], b"1234\n"),
    (["Content-Length: -1"], b""),
    (["Content-Length : 5"], b"1234\n"),
    (["Transfer-Encoding: xchunked"], b"5\r\n1234\n\r\n0\r\n\r\n"),
    (["Transfer-Encoding: chunked"], b"+5\r\n1234\n\r\n0\r\n\r\n"),
    (["Transfer-Encoding: chunked"], b"5_0\r\n1234\n\r\n0\r\n\r\n"),
    (["Transfer-Encoding: chunked"], b"5;x\r\n1234\nXX0\r\n\r\n"),
])
def test_smuggled_requests(net: Served, more: List[str], body: bytes) -> None:
    before = net.log()
    hidden = head(net, "GET", "/told")
    said = raw(net, head(net, "POST", f"/push/HILL/{DAY}", *more, token="HILL") + body + hidden)
    assert b'"listening"' not in said, said
    assert said.count(b"HTTP/1.1 200") <= 1 and net.log() == before
    assert net.ask("GET", "/who", token="GUEST").status == 200


@pytest.mark.parametrize("octets", [
    b"OPTIONS * HTTP/1.1\r\nHost: %s\r\n\r\n",
    b"CONNECT evil.example:443 HTTP/1.1\r\nHost: evil.example:443\r\n\r\n",
    b"TRACE /who HTTP/1.1\r\nHost: %s\r\n\r\n",
    b"PUT /logs/x HTTP/1.1\r\nHost: %s\r\nContent-Length: 1\r\n\r\nx",
    b"DELETE /logs.txt HTTP/1.1\r\nHost: %s\r\n\r\n",
    b"GET http://evil.example/who HTTP/1.1\r\nHost: %s\r\n\r\n",
    b"GET /who HTTP/1.0\r\n\r\n",
    b"GET /who\r\n\r\n",
    b"PRI * HTTP/2.0\r\n\r\nSM\r\n\r\n",
    b"GET /events HTTP/1.1\r\nHost: %s\r\nConnection: Upgrade\r\nUpgrade: websocket\r\n\r\n",
    b"GET /who HTTP/1.1\r\nHost: %s\r\nX: a\r\n folded: b\r\n\r\n",
    b"GET /who HTTP/1.1\nHost: %s\n\n",
    b"GET /who HTTP/1.1\r\nHost: %s\r\nCookie: aprs-net=desk.BASE.99999999999." + b"0" * 64
    + b"\r\n\r\n",
    b"GET /who HTTP/1.1\r\nHost: %s\r\nAuthorization: Aprs-Mark " + b"0" * 32 + b":" + b"0" * 64
    + b"\r\n\r\n",
    b"\x16\x03\x01\x02\x00\x01\x00\x01\xfc\x03\x03" + bytes(500),
])
def test_requests_that_no_page_makes(net: Served, octets: bytes) -> None:
    before = net.log()
    said = raw(net, octets.replace(b"%s", b"127.0.0.1:%d" % net.port), .3)
    assert b" 200 " not in said and b'"kind"' not in said, said
    assert net.ask("GET", "/who", token="GUEST").status == 200 and net.log() == before


def test_requests_of_any_bytes(net: Served) -> None:
    """Good requests in which bytes are changed, doubled or left out; who has no token gets nothing
    by them, and nothing is written."""
    chance, before = random.Random(89), net.log()
    good = [head(net, "GET", "/events?once=1", token="GUEST").replace(
        net.tokens["GUEST"].encode(), b"x" * 32),
        head(net, "POST", f"/push/HILL/{DAY}", f"Content-Length: {len(line(5))}", token="HILL"
             ).replace(net.tokens["HILL"].encode(), b"x" * 32) + line(5)]
    for _ in range(150):
        octets = bytearray(chance.choice(good))
        for _ in range(chance.randrange(1, 6)):
            at = chance.randrange(len(octets))
            octets[at:at + chance.randrange(3)] = chance.choice(
                [b"\r\n", b"\0", b"\xff", b" ", b":", b"", octets[:at], bytes([octets[at] ^ 1])])
        said = raw(net, bytes(octets), .05)
        assert b"200 OK" not in said, (octets, said)
    assert net.ask("GET", "/who", token="GUEST").status == 200 and net.log() == before


def test_places_that_no_listener_has(net: Served) -> None:
    for have in ("x:9", f"{DAY}/HILL.log:999999999999999", f"{DAY}/HILL.log:-1", "%ff:1", ":",
                 "&have=".join([f"{DAY}/HILL.log:3"] * 2000)):
        answer = net.ask("GET", f"/events?once=1&have={have}", token="GUEST")
        assert answer.status in (200, 400)
    assert net.ask("GET", "/who", token="GUEST").status == 200


def test_header_lines_cannot_be_put_in(net: Served) -> None:
    for path in (f"/events?once=1&have={DAY}/HILL.log%0d%0aevent:%20x:3", "/logs/%0d%0aX:%20y"):
        answer = net.ask("GET", path, token="GUEST")
        assert "X" not in answer.headers and b"event: x" not in answer.body


def test_a_question_that_is_repeated(net: Served) -> None:
    body, path = line(70) + line(71), f"/push/HILL/{DAY}"
    question = signing.Question("POST", path, "", body)
    header = signing.mark_of(net.tokens["HILL"], question).header
    before = len(net.log())
    for _ in range(3):
        assert net.ask("POST", path, body, Authorization=header).status == 200
    assert len(net.log()) == before + 2
    for other, of in [(path, line(72)), (path.replace("HILL", "COAST"), body), (path + "?x", body)]:
        assert net.ask("POST", other, of, Authorization=header).status in (401, 429)
    assert net.ask("GET", "/states/HILL", Authorization=header).status in (401, 429)


def test_wrong_tokens_are_slowed_down(net: Served) -> None:
    said = [net.ask("GET", "/who", token="x" * 32).status for _ in range(30)]
    assert set(said) <= {401, 429} and said.count(429) >= 19
    assert net.ask("GET", "/who", token="GUEST").status == 200


@pytest.mark.parametrize("size, what", [(10 << 20, "body"), (2 << 20, "body"), (1 << 20, "head")])
def test_what_is_too_large(net: Served, size: int, what: str) -> None:
    before = net.log()
    if what == "head":
        said = raw(net, b"GET / HTTP/1.1\r\nX: " + b"x" * size + b"\r\n\r\n")
    else:
        octets = head(net, "POST", f"/push/HILL/{DAY}", f"Content-Length: {size}", token="HILL")
        try:
            said = raw(net, octets + b"x" * size)
        except OSError:
            said = b""
    assert said == b"" or said.startswith((b"HTTP/1.1 400", b"HTTP/1.1 413", b"HTTP/1.1 431"))
    assert net.ask("GET", "/who", token="GUEST").status == 200 and net.log() == before


def test_lines_that_are_too_long_or_too_many(net: Served) -> None:
    long = b"%sT00:00:00Z HILL %s\n" % (DAY.encode(), b"c0" * 400_000)
    assert [it[1] for it in net.push(long).says["refused"]] == ["LongLine"]
    assert net.push(b"\n" * 40_001).status == 413
    entry = b'{"' + b"x" * 300_000 + b'"}\n'
    answer = net.ask("POST", "/desks/BASE", entry, "BASE", Content_Type=JSON_LINES)
    assert [it[1] for it in answer.says["refused"]] == ["LongLine"]
    assert net.push(line(3)[:-1]).status == 400
    assert net.push(line(3), Aprs_After="x").status == 400


@pytest.mark.parametrize("change, why", [
    ('"at":NaN', "Moment"), ('"at":1e400', "Spelling"), ('"at":true', "Moment"),
    ('"at":-1', "Moment"), ('"at":' + "9" * 200_000, "NoObject"),
    ('"at":' + "[" * 100_000, "NoObject"), ('"at":1,"at":2', "Spelling"),
    ('"at":"1"', "Moment"), ('"at":1.0', "Moment"), ('"at":Infinity', "Moment"),
], ids=range(10))
def test_entries_that_are_none(net: Served, change: str, why: str) -> None:
    good = json.dumps({"at": 1, "call": "Q1A", "desk": "BASE", "id": "0" * 32, "kind": "note",
                       "text": "x"}, sort_keys=True, separators=(",", ":"))
    entry = good.replace('"at":1', change)
    answer = net.ask("POST", "/desks/BASE", entry.encode() + b"\n", "BASE",
                     Content_Type=JSON_LINES)
    assert [it[1] for it in answer.says["refused"]] == [why] and answer.says["added"] == 0


def test_half_a_letter_is_no_text(net: Served, tmp_path: pathlib.Path) -> None:
    entry = {"at": 1, "desk": "GATE", "from": "A", "id": "0" * 32, "kind": "line", "number": "",
             "text": "\ud83d", "time": "1", "to": "B"}
    it = json.dumps(entry, sort_keys=True, separators=(",", ":")).encode()
    answer = net.ask("POST", "/desks/GATE", it + b"\n", "GATE", Content_Type=JSON_LINES)
    assert [of[1] for of in answer.says["refused"]] == ["Text"]
    # such a line of before, and what a spreadsheet or a terminal would take amiss
    texts = ["\U0001f600", "=1+1", "a\nb\0\x1b[2J\u202e"]
    lines = [json.dumps({**entry, "id": f"{k:032x}", "text": text}, sort_keys=True,
                        separators=(",", ":")) for k, text in enumerate(["\ud83d", *texts])]
    (tmp_path / "desks").mkdir()
    (tmp_path / "desks" / "GATE.jsonl").write_text("".join(f"{it}\n" for it in lines))
    journals, others = entries.read(str(tmp_path))
    assert [it.text for it in journals.lines] == sorted(texts) and others == 1


def test_idle_connections_do_not_keep_others_out(net: Served) -> None:
    idle = [socket.create_connection(("127.0.0.1", net.port)) for _ in range(120)]
    begun = time.monotonic()
    assert net.ask("GET", "/who", token="GUEST").status == 200
    assert time.monotonic() - begun < 5
    for it in idle:
        it.close()


def test_a_token_has_so_many_connections(net: Served) -> None:
    """One more of it is told so, and others aren't held up."""
    words = head(net, "GET", "/who")
    with contextlib.ExitStack() as stack:
        held = [stack.enter_context(socket.create_connection(("127.0.0.1", net.port), timeout=20))
                for _ in range(16)]
        for it in held * 2:  # a connection counts once, however often it shows the token
            it.sendall(words)
            assert it.recv(65536).startswith(b"HTTP/1.1 200")
        answer = net.ask("GET", "/who", token="GUEST")
        assert answer.status == 429
        assert answer.body == b"429 Too Many Connections Of One Token\n"
        assert net.said.count("read GUEST has too many connections (--each-token)") == 1
        assert net.ask("GET", "/who", token="BASE").status == 200
        # a connection that shows another token is that one's
        held[0].sendall(head(net, "GET", "/who", token="BASE"))
        assert held[0].recv(65536).startswith(b"HTTP/1.1 200")
        assert net.ask("GET", "/who", token="GUEST").status == 200
    wait_for(lambda: net.ask("GET", "/who", token="GUEST").status == 200, "room again")


def test_bodies_of_strangers_take_no_memory(tmp_path: pathlib.Path) -> None:
    with serving(tmp_path) as net, contextlib.ExitStack() as stack:
        assert net.process
        status = pathlib.Path(f"/proc/{net.process.pid}/status")
        before = memory_in(status)
        begin = (f"POST /push/HILL/{DAY} HTTP/1.1\r\nHost: 127.0.0.1:{net.port}\r\n"
                 "Content-Length: 1048576\r\n\r\n").encode() + b"x" * 1_048_000
        for _ in range(150):
            it = stack.enter_context(socket.create_connection(("127.0.0.1", net.port), timeout=5))
            with contextlib.suppress(OSError):
                it.sendall(begin)
        assert net.ask("GET", "/who", token="GUEST").status == 200
        assert memory_in(status) - before < 60
        # nobody is kept out, and a desk's lines are taken
        form = {"Content_Type": "application/x-www-form-urlencoded", "Origin": net.url[:-1]}
        entered = net.ask("POST", "/login", b"token=" + net.tokens["GATE"].encode(), **form)
        assert entered.status == 303
        assert net.ask("POST", "/desks/BASE", b"", "BASE", Content_Type=JSON_LINES).status == 200
        assert net.push(line(1)).status == 200
        # who has shown a token goes on, however large what it sends is
        known = http.client.HTTPConnection("127.0.0.1", net.port, timeout=20)
        known.request("GET", "/states/HILL",
                      headers={"Authorization": f"Bearer {net.tokens['HILL']}"})
        assert known.getresponse().read()
        lines = [line(number) for number in range(20_000)]
        known.request("POST", f"/push/HILL/{DAY}", b"".join(lines),
                      {"Authorization": f"Bearer {net.tokens['HILL']}"})
        assert json.loads(known.getresponse().read())["added"] == 19_999
        known.close()


def memory_in(status: pathlib.Path) -> float:
    """MiB that a process has."""
    [size] = [it.split()[1] for it in status.read_text().splitlines() if it.startswith("VmRSS")]
    return int(size) / 1024


def test_a_listener_that_reads_nothing(net: Served) -> None:
    big = net.logs / DAY / "BIG.log"
    big.write_bytes(b"".join(line(number, "BIG") for number in range(60_000)))
    with socket.socket() as slow:
        slow.setsockopt(socket.SOL_SOCKET, socket.SO_RCVBUF, 4096)
        slow.connect(("127.0.0.1", net.port))
        slow.sendall(head(net, "GET", "/events"))
        time.sleep(.5)
        connection = http.client.HTTPConnection("127.0.0.1", net.port, timeout=20)
        connection.request("GET", "/events",
                           headers={"Authorization": f"Bearer {net.tokens['GUEST']}"})
        answer, size = connection.getresponse(), 0
        begun = time.monotonic()
        while size < big.stat().st_size:
            size += len(answer.read1(1 << 20))
        assert time.monotonic() - begun < 10
        connection.close()
        assert net.push(line(80)).says["added"] == 1
    big.unlink()


def test_a_token_that_is_taken_away_ends_what_is_open(tmp_path: pathlib.Path) -> None:
    with serving(tmp_path) as net:
        connection = http.client.HTTPConnection("127.0.0.1", net.port, timeout=20)
        connection.request("GET", "/events",
                           headers={"Authorization": f"Bearer {net.tokens['GUEST']}"})
        answer = connection.getresponse()
        assert answer.readline() == b"retry: 2000\n"
        path = tmp_path / "tokens"
        path.write_text("".join(it for it in path.read_text().splitlines(keepends=True)
                                if "GUEST" not in it))
        wait_for(lambda: net.ask("GET", "/who", token="GUEST").status in (401, 429), "the end")
        assert net.ask("GET", "/who", token="BASE").status == 200
        with pytest.raises(http.client.IncompleteRead):
            answer.read()


def test_a_disk_without_room(tmp_path: pathlib.Path) -> None:
    with serving(tmp_path, "--quota", "1") as net:
        lines = [line(number) for number in range(30_000)]
        assert net.push(*lines[:20_000]).status == 200
        answer = net.push(*lines[20_000:])
        assert answer.status == 507 and net.log() == lines[:20_000]
        assert net.push(line(1)).says["known"] == 1
        assert net.push(line(1, "COAST"), name="COAST").status == 200
