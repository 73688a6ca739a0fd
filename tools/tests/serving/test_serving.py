"""A net that is served: sites that push, pages that listen, desks that write."""
import fcntl
import http.client
import json
import pathlib
import socket
import time
from typing import Iterator

import pytest

from aprsbook_tools.formats import kiss
from aprsbook_tools.serving import signing
from aprsbook_tools.serving.entries import spelling
from conftest import started, tried, wait_for
from served import DAY, POLICY, Listener, Served, line, serving

JSON_LINES = "application/x-ndjson"
TILES = b"PMTiles\3" + bytes(range(256)) * 4096


@pytest.fixture(scope="module")
def net(tmp_path_factory: pytest.TempPathFactory) -> Iterator[Served]:
    folder = tmp_path_factory.mktemp("net")
    (folder / "lakes.pmtiles").write_bytes(TILES)
    with serving(folder, "--title", "Fell race", "--tiles", folder / "lakes.pmtiles") as it:
        yield it


def entry(number: int, desk: str, text: str = "hello") -> bytes:
    return spelling({"at": 1, "desk": desk, "id": f"{number:032x}", "kind": "line", "time": "1",
                     "from": "A", "to": "B", "number": "", "text": text}) + b"\n"


def test_lines_are_taken_once(net: Served) -> None:
    first = net.push(line(1), line(2))
    assert first.status == 200 and first.says["added"] == 2
    again = net.push(line(2), line(3))
    assert (again.says["added"], again.says["known"]) == (1, 1)
    wrong = net.push(line(4), Aprs_After=first.says["state"])
    assert wrong.status == 409 and wrong.says["state"] == again.says["state"]
    right = net.push(line(4), Aprs_After=again.says["state"])
    assert right.status == 200 and net.log() == [line(1), line(2), line(3), line(4)]
    states = net.ask("GET", "/states/HILL", token="HILL").says
    assert states == {DAY: right.says["state"]}
    assert net.ask("GET", "/states/HILL?day=1999-01-01", token="HILL").says == {
        "1999-01-01": "0-" + "0" * 32}


def test_a_file_that_cannot_be_written_is_said(net: Served) -> None:
    (net.logs / "1999-01-02" / "HILL.log").mkdir(parents=True)
    answer = net.push(line(1, day="1999-01-02"), day="1999-01-02")
    assert (answer.status, answer.says) == (500, {"fault": "Is a directory"})
    assert "1999-01-02/HILL.log: Is a directory" in net.said


def test_lines_that_are_refused_are_named(net: Served) -> None:
    it = net.push(line(11), b"no line\n", line(12, "COAST"), line(13, day="2024-06-21"),
                  b"%sT00:00:00Z HILL c\n" % DAY.encode(), line(14),
                  b"%sT00:00:00Z HI.L c0\n" % DAY.encode(), line(15, "HILL-2"))
    assert it.status == 200 and it.says["added"] == 3
    assert [of[:2] for of in it.says["refused"]] == [
        [2, "Moment"], [3, "OtherReceiver"], [4, "OtherDay"], [5, "Hex"], [7, "Receiver"]]
    assert "lines refused: 5, the first of them 2, Moment" in net.said
    assert net.push(line(1, "ANY"), name="FEED").says["added"] == 1
    assert net.push(b"x\n" * 80, line(16)).says["judged"] == 50


def test_a_listener_has_each_line_once(net: Served) -> None:
    listener = Listener(net)
    name = f"{DAY}/COAST.log"
    net.push(line(1, "COAST"), name="COAST")
    for number in range(2, 5):
        net.push(line(number, "COAST"), name="COAST")
        listener.listen(lambda n=number: listener.files.get(name, b"").count(b"\n") == n)
    with open(net.logs / DAY / "COAST.log", "ab") as file:  # as `aprs-net log` or rsync
        file.write(line(9, "COAST") + b"torn")
    listener.listen(lambda: listener.files[name].endswith(line(9, "COAST")))
    assert listener.misfits == 0 and listener.told["title"] == "Fell race"
    assert bytes(listener.files[name]) == b"".join(net.log("COAST")[:-1])
    # what can't be said by an event is asked for
    net.push(line(10, "COAST"), name="COAST")
    path = net.logs / DAY / "WILD.log"
    path.write_bytes(line(1, "WILD") + b"\0\xff\r\n" + b"x" * 200_000 + b"\n" + line(2, "WILD"))
    listener.listen(lambda: any(kind == "grown" and "WILD" in it for kind, it in listener.events))
    whole = net.ask("GET", f"/logs/{DAY}/WILD.log", token="GUEST")
    assert whole.body == path.read_bytes() and whole.headers["Accept-Ranges"] == "bytes"
    # another file of that name, and then none
    path.write_bytes(line(3, "WILD"))
    listener.listen(lambda: listener.files.get(f"{DAY}/WILD.log") == line(3, "WILD"))
    path.unlink()
    listener.listen(lambda: ("gone", f"{DAY}/WILD.log\n") in listener.events)


def test_events_once_where_a_proxy_cuts_streams(net: Served) -> None:
    net.push(line(21))
    it = net.ask("GET", "/events?once=1", token="GUEST")
    assert it.status == 200 and line(21)[:-1] in it.body and b"event: beat" in it.body
    size = len(b"".join(net.log()))
    it = net.ask("GET", f"/events?once=1&have={DAY}/HILL.log:{size}", token="GUEST")
    assert it.body.count(b" HILL c000") == 1  # the last one, so that it is seen to be the same file


def test_ranges(net: Served) -> None:
    net.push(line(31))
    whole = b"".join(net.log())
    path = f"/logs/{DAY}/HILL.log"
    part = net.ask("GET", path, token="GUEST", Range="bytes=5-9")
    assert part.status == 206 and part.body == whole[5:10]
    assert part.headers["Content-Range"] == f"bytes 5-9/{len(whole)}"
    assert net.ask("GET", path, token="GUEST", Range="bytes=7-").body == whole[7:]
    assert net.ask("GET", path, token="GUEST", Range=f"bytes={len(whole)}-").status == 416
    head = net.ask("HEAD", path, token="GUEST")
    assert head.body == b"" and head.headers["Content-Length"] == str(len(whole))
    assert f"logs/{DAY}/HILL.log\n" in net.ask("GET", "/logs.txt", token="GUEST").body.decode()


def test_a_map_is_handed_out_by_slices(net: Served) -> None:
    assert net.ask("GET", "/who", token="GATE").says["net"]["tiles"] == ["lakes.pmtiles"]
    head = net.ask("HEAD", "/tiles/lakes.pmtiles", token="GATE")
    assert head.headers["Content-Length"] == str(len(TILES))
    part = net.ask("GET", "/tiles/lakes.pmtiles", token="GATE", Range="bytes=8-1007")
    assert part.status == 206 and part.body == TILES[8:1008]
    assert net.ask("GET", "/tiles/lakes.pmtiles", token="HILL").status == 403
    for path in ("/tiles/tokens", "/tiles/../tokens", "/tiles/%2e%2e/tokens", "/tiles/"):
        assert net.ask("GET", path, token="GATE").status == 404


def test_desks_write_journals(net: Served) -> None:
    taken = net.ask("POST", "/desks/BASE", entry(1, "BASE") * 2 + entry(2, "GATE"), "BASE",
                    Content_Type=JSON_LINES)
    assert taken.status == 200 and taken.says["added"] == 1
    assert [it[:2] for it in taken.says["refused"]] == [[3, "OtherDesk"]]
    net.ask("POST", "/desks/GATE", entry(3, "GATE"), "GATE", Content_Type=JSON_LINES)
    listener = Listener(net, "GUEST")
    listener.listen(lambda: {"desks/BASE.jsonl", "desks/GATE.jsonl"} <= set(listener.files))
    assert bytes(listener.files["desks/GATE.jsonl"]) == entry(3, "GATE")
    state = net.ask("GET", "/desks/BASE", token="BASE").says["state"]
    assert state == taken.says["state"]


def test_a_long_entry_comes_to_all(net: Served) -> None:
    course = spelling({"at": 1, "desk": "GATE", "id": f"{90:032x}", "kind": "setting",
                       "name": "course", "value": "x" * 200_000}) + b"\n"
    after = entry(91, "GATE")
    assert net.ask("POST", "/desks/GATE", course + after, "GATE",
                   Content_Type=JSON_LINES).says["added"] == 2
    listener = Listener(net, "GUEST")
    listener.listen(lambda: listener.files.get("desks/GATE.jsonl", b"").endswith(course + after))
    assert listener.misfits == 0


def test_who_may_do_what(net: Served) -> None:
    said = {it: net.ask("GET", "/who", token=it).status for it in [*net.tokens, "", "x" * 32]}
    assert said == {"HILL": 403, "COAST": 403, "BASE": 200, "GATE": 200, "GUEST": 200,
                    "FEED": 403, "": 401, "x" * 32: 401}
    who = net.ask("GET", "/who", token="BASE").says
    assert (who["kind"], who["name"], who["net"]["title"]) == ("desk", "BASE", "Fell race")
    for method, path, allowed in [
            ("POST", f"/push/HILL/{DAY}", "HILL"), ("GET", "/states/HILL", "HILL"),
            ("POST", "/desks/BASE", "BASE"), ("GET", "/desks/BASE", "BASE")]:
        for it in net.tokens:
            status = net.ask(method, path, token=it, Content_Type=JSON_LINES).status
            assert status == (200 if it == allowed else 403), (method, path, it)
    assert "desk BASE is there, from 127.0.0.1" in net.said


def test_a_browser_enters(net: Served) -> None:
    assert b"<form" in net.ask("GET", "/").body
    form = {"Content_Type": "application/x-www-form-urlencoded", "Origin": net.url[:-1]}
    wrong = net.ask("POST", "/login", b"token=wrong", **form)
    assert wrong.status == 401
    assert net.ask("POST", "/login", b"token=" + net.tokens["HILL"].encode(), **form).status == 401
    it = net.ask("POST", "/login", b"token=" + net.tokens["GATE"].encode(), **form)
    assert it.status == 303 and it.headers["Location"] == "aprsbook.html#logs=logs.txt"
    cookie, *marks = it.headers["Set-Cookie"].split("; ")
    assert {"HttpOnly", "SameSite=Strict"} <= set(marks) and net.tokens["GATE"] not in cookie
    page = net.ask("GET", "/aprsbook.html", Cookie=cookie)
    assert page.headers["Content-Security-Policy"] == f"{POLICY}; frame-ancestors 'none'"
    assert net.ask("GET", "/", Cookie=cookie).status == 302
    assert net.ask("GET", "/who", Cookie=cookie).says["name"] == "GATE"
    assert net.ask("POST", "/logout", Cookie=cookie).status == 303


def test_a_clock_that_is_wrong_is_told(net: Served) -> None:
    listener = Listener(net)
    net.push(line(41), Aprs_Clock=str(int(1000 * (time.time() + 3600))))
    listener.listen(lambda: listener.told and listener.told["sites"]["HILL"]["clock"] > 3500)
    assert "HILL: its clock is 3600 s ahead: set it" in net.said
    net.push(line(42), Aprs_Clock=str(int(1000 * time.time())))
    listener.listen(lambda: not listener.told["sites"]["HILL"]["clock"])
    assert "HILL: its clock is right again" in net.said
    for _ in range(2):  # one may have been long on its way
        assert "behind" not in net.said
        net.push(line(43), Aprs_Clock=str(int(1000 * (time.time() - 7200))))
    listener.listen(lambda: listener.told["sites"]["HILL"]["clock"] < -7100)
    assert "HILL: its clock is 7200 s behind: set it" in net.said
    net.push(line(44), Aprs_Clock=str(int(1000 * time.time())))
    net.push(line(1, day="2098-01-01"), day="2098-01-01")
    listener.listen(lambda: listener.told["sites"]["HILL"]["day"] == "2098-01-01")
    assert "HILL has lines of 2098-01-01, which is to come" in net.said
    # a clock that was never set: the lines that are heard now are of another day
    for _ in range(2):
        net.push(line(1, "COAST", "1970-01-01"), name="COAST", day="1970-01-01", Aprs_Clock="5000")
    listener.listen(lambda: listener.told["sites"].get("COAST", {}).get("day") == "1970-01-01")
    assert "COAST has lines of 1970-01-01, which is today by its clock" in net.said
    # a day that was missed is none of this
    net.push(line(1, day="2020-01-01"), day="2020-01-01", Aprs_Clock=str(int(1000 * time.time())))
    # and what others write here, as rsync
    (net.logs / "site" / "2097-05-06").mkdir(parents=True)
    (net.logs / "site" / "2097-05-06" / "FAR.log").write_bytes(line(1, "FAR", "2097-05-06"))
    listener.listen(lambda: "FAR" in listener.told["sites"], 40)
    assert listener.told["sites"]["FAR"]["day"] == "2097-05-06"
    assert "2020-01-01" not in net.said and net.said.count("which is to come") == 2
    assert f"logs/{DAY}" in net.ask("GET", "/logs.txt", token="GUEST").body.decode()


def test_a_pusher_follows_a_log(net: Served, tmp_path: pathlib.Path) -> None:
    folder = tmp_path / DAY
    folder.mkdir()
    lines = [line(number, "COAST") for number in range(100, 140)]
    log = folder / "COAST.log"
    log.write_bytes(b"".join(lines[:20]))
    (folder / "COAST-1.log").write_bytes(line(1, "COAST-1"))
    net.pusher("COAST", tmp_path)
    wait_for(lambda: lines[19] in net.log("COAST"), "the first lines")
    with open(log, "ab") as file:
        for it in lines[20:]:
            file.write(it[:30])
            file.flush()
            file.write(it[30:])
            file.flush()
    wait_for(lambda: lines[-1] in net.log("COAST"), "the last line")
    assert {*lines} <= {*net.log("COAST")}
    wait_for(lambda: net.log("COAST-1") == [line(1, "COAST-1")], "the other radio")


def test_a_logger_pushes(net: Served, tmp_path: pathlib.Path) -> None:
    frame = b"\xc0" + kiss.wrap(b"frame of HILL")
    with socket.socket() as tnc:
        tnc.bind(("127.0.0.1", 0))
        tnc.listen()
        env = {**net.env, "APRS_NET_TOKEN": net.tokens["HILL"]}
        logger = started("log", "--connect", f"127.0.0.1:{tnc.getsockname()[1]}", "--push", net.url,
                         "HILL", tmp_path, env=env)
        net.pushers.append(logger)
        tnc.settimeout(120)
        connection, _ = tnc.accept()
        connection.sendall(frame)
        wait_for(lambda: any(frame.hex().encode()[2:-2] in it for it in net.log()), "the frame")
        connection.close()


def test_push_says_what_is_wrong(net: Served, tmp_path: pathlib.Path) -> None:
    (tmp_path / DAY).mkdir()
    (tmp_path / DAY / "HILL.log").write_bytes(line(1))
    env = {**net.env, "APRS_NET_TOKEN": net.tokens["COAST"]}
    assert b"403 Not Yours" in tried("push", "--once", net.url, "HILL", tmp_path, env=env,
                                     status=1).stderr
    assert b"isn't an address" in tried("push", "ftp://x", "HILL", tmp_path, status=1).stderr
    wrong = tried("push", "--once", "http://127.0.0.1:9/", "HILL", tmp_path, status=1)
    assert b"refused" in wrong.stderr
    token = tmp_path / "token"
    token.write_text(f"receiver HILL {net.tokens['HILL']}\n")
    said = tried("push", "--once", "--token", token, net.url, "HILL", tmp_path).stderr
    assert b"lines pushed: " in said and b"not taken" not in said
    (tmp_path / DAY / "HILL.log").write_bytes(line(1) + line(2, "COAST") + line(3, "COAST"))
    said = tried("push", "--once", "--token", token, net.url, "HILL", tmp_path, status=1).stderr
    # the first line is there before, unless the server already says that it has it
    assert b"lines pushed: 0; " in said and said.endswith(b"; not taken: 2\n")


def test_an_answer_of_somebody_else_is_not_believed(net: Served, tmp_path: pathlib.Path) -> None:
    from aprsbook_tools.serving.pushing import Away, Server
    with pytest.raises(Exception, match="401"):
        Server(net.url, "x" * 32).ask("GET", "/states/HILL")
    net.push(line(51))
    its = Server(net.url, net.tokens["HILL"])
    status, says = its.ask("GET", "/states/HILL")
    assert status == 200 and DAY in says
    its.token = net.tokens["HILL"] + "x"
    with pytest.raises(Away, match="isn't of a server"):
        # what was repeated stands in for an answer of http.client
        mark = mark_of(its.token)
        its.read(Repeated(), json.dumps(says).encode(), mark)  # type: ignore[arg-type]


class Repeated:
    """An answer that somebody made up."""
    status, reason, will_close = 200, "OK", False

    def getheader(self, _: str) -> str:
        return "0" * 64


def mark_of(token: str) -> signing.Mark:
    return signing.mark_of(token, signing.Question("GET", "/", "", b""))


def test_it_logs_tncs_and_ends_well(tmp_path: pathlib.Path) -> None:
    with socket.socket() as tnc:
        tnc.bind(("127.0.0.1", 0))
        tnc.listen()
        tnc.settimeout(120)
        port = tnc.getsockname()[1]
        with serving(tmp_path, "--tnc", f"127.0.0.1:{port}=RX1", with_tokens=False) as net:
            connection, _ = tnc.accept()
            connection.sendall(b"\xc0" + kiss.wrap(b"frame of RX1"))
            wait_for(lambda: net.log("RX1"), "the line")
            body = net.ask("GET", "/events?once=1").body
            assert net.log("RX1")[0][:-1] in body
            assert net.ask("GET", "/who").says["name"] == "BASE"
            assert net.ask("GET", "/").status == 302
            assert "the page is at http://127.0.0.1" in net.said
            assert "anybody of this machine may do all" in net.said
            log = net.logs / DAY / "RX1.log"
            with open(log, "ab") as held:  # a write that waits, as for a slow disk
                fcntl.flock(held, fcntl.LOCK_EX)
                connection.sendall(b"".join(b"\xc0" + kiss.wrap(b"frame %d" % k)
                                            for k in range(300)))
                wait_for(lambda: "another program holds its lock" in net.said, "the wait")
                assert net.ask("GET", "/who").status == 200
            assert net.end() == 0
            assert len(net.log("RX1")) == 301


def test_two_servers_of_one_folder(tmp_path: pathlib.Path) -> None:
    with serving(tmp_path, with_tokens=False) as net:
        said = tried("serve", "--listen", "127.0.0.1:9999", "--page", tmp_path / "page.html",
                     net.logs, env=net.env, status=3).stderr
        assert b"another `aprs-net serve` serves these logs" in said
        assert net.push(line(1)).says["added"] == 1


@pytest.mark.parametrize("options, words, status", [
    (["--listen", "0.0.0.0:9998"], "--tokens FILE and --tls CERTIFICATE KEY, or --plain", 2),
    (["--listen", "[::]:9998", "--plain"], "give --tokens FILE", 2),
    (["--behind-proxy"], "through the proxy: give --tokens FILE", 2),
    (["--behind-proxy", "--listen", "10.0.0.1:9998"], "a proxy of this machine", 2),
    (["--listen", "127.0.0.1:0"], "not HOST:PORT", 2),
    (["--tnc", "localhost:8001"], "no =NAME", 2),
    (["--tls", "none", "none"], "none", 1),
    (["--page", "none.html"], "none.html", 1),
    (["--tiles", "none.pmtiles"], "none.pmtiles", 1),
    (["--tiles", __file__], "no PMTiles and no MBTiles", 1),
    (["--tokens", "none"], "none", 1),
])
def test_what_it_refuses(tmp_path: pathlib.Path, options: "list[str]", words: str,
                         status: int) -> None:
    its = Served(tmp_path, with_tokens=False)
    said = tried("serve", *options, tmp_path / "logs", env=its.env, status=status).stderr.decode()
    assert words in said


def test_without_tornado_it_says_what_to_install(tmp_path: pathlib.Path) -> None:
    (tmp_path / "tornado.py").write_text("raise ImportError")
    its = Served(tmp_path, with_tokens=False)
    env = {**its.env, "PYTHONPATH": f"{tmp_path}:{its.env['PYTHONPATH']}"}
    said = tried("serve", tmp_path / "logs", env=env, status=6).stderr
    assert b"apt install python3-tornado" in said
    assert b"is no log of HILL" in tried("push", "--once", "http://127.0.0.1:9/", "HILL", tmp_path,
                                         status=1, env=env).stderr


def test_by_tls_with_a_certificate_of_its_own(tmp_path: pathlib.Path) -> None:
    import ssl
    import subprocess
    key, certificate = tmp_path / "key.pem", tmp_path / "cert.pem"
    made = subprocess.run(["openssl", "req", "-x509", "-newkey", "rsa:2048", "-nodes", "-days", "9",
                           "-subj", "/CN=net", "-addext", "subjectAltName=IP:127.0.0.1", "-keyout",
                           key, "-out", certificate], capture_output=True)
    if made.returncode:
        pytest.skip("needs openssl")
    with serving(tmp_path, "--tls", certificate, key) as net:
        (tmp_path / "src" / DAY).mkdir(parents=True)
        (tmp_path / "src" / DAY / "HILL.log").write_bytes(line(1))
        url = net.url.replace("http:", "https:")
        env = {**net.env, "APRS_NET_TOKEN": net.tokens["HILL"]}
        words = ["push", "--once", url, "HILL", tmp_path / "src"]
        assert b"CERTIFICATE_VERIFY_FAILED" in tried(*words, env=env, status=1).stderr
        assert b"pushed: 1" in tried(*words, "--ca", certificate, env=env).stderr
        context = ssl.create_default_context(cafile=str(certificate))
        connection = http.client.HTTPSConnection("127.0.0.1", net.port, context=context)
        connection.request("GET", "/who", headers={
            "Authorization": f"Bearer {net.tokens['GUEST']}", "Origin": url[:-1]})
        assert connection.getresponse().status == 200


