"""A net behind nginx and behind Caddy, as the cookbook has them, with a certificate of its own."""
import contextlib
import http.client
import pathlib
import re
import shutil
import ssl
import subprocess
import time
from typing import Any, Dict, Iterator, List

import pytest

from conftest import EXAMPLES, tried, wait_for
from served import DAY, Served, free_port, line, serving

COOKBOOK = (EXAMPLES.parent / "docs/cookbook.md").read_text(encoding="utf-8")
NGINX = """daemon off; master_process off; pid {folder}/pid; error_log stderr;
events {{}}
http {{
    access_log off;
    client_body_temp_path {folder}/a; proxy_temp_path {folder}/b; fastcgi_temp_path {folder}/c;
    uwsgi_temp_path {folder}/d; scgi_temp_path {folder}/e;
    server {{
        listen 127.0.0.1:{port} ssl; server_name localhost;
        ssl_certificate {folder}/cert.pem; ssl_certificate_key {folder}/key.pem;
        {block}
    }}
}}
"""


def block_of(begin: str) -> str:
    """What the cookbook has for a proxy."""
    found = re.search(r"```text\n(%s.*?\n\})\n```" % re.escape(begin), COOKBOOK, re.DOTALL)
    assert found
    return found[1]


def certified(folder: pathlib.Path) -> None:
    made = subprocess.run(["openssl", "req", "-x509", "-newkey", "rsa:2048", "-nodes", "-days", "9",
                           "-subj", "/CN=net", "-addext",
                           "subjectAltName=DNS:localhost", "-keyout",
                           folder / "key.pem", "-out", folder / "cert.pem"], capture_output=True)
    if made.returncode:
        pytest.skip("needs openssl")


def nginx(folder: pathlib.Path, port: int, upstream: int) -> List[str]:
    block = block_of("location / {").replace("8080", str(upstream))
    (folder / "nginx.conf").write_text(NGINX.format(folder=folder, port=port, block=block))
    return ["nginx", "-e", "stderr", "-p", str(folder), "-c", str(folder / "nginx.conf")]


def caddy(folder: pathlib.Path, port: int, upstream: int) -> List[str]:
    block = block_of("net.example {").replace("8080", str(upstream))
    block = block.replace("net.example {", f"https://localhost:{port} {{\n    bind 127.0.0.1\n"
                          f"    tls {folder}/cert.pem {folder}/key.pem")
    (folder / "Caddyfile").write_text("{\n    admin off\n    auto_https disable_redirects\n}\n"
                                      + block + "\n")
    return ["caddy", "run", "--adapter", "caddyfile", "--config", str(folder / "Caddyfile")]


class Behind:
    """A net behind a proxy, and who asks it through that."""

    def __init__(self, net: Served, port: int, folder: pathlib.Path, origin: str) -> None:
        self.net, self.port, self.origin = net, port, origin
        self.context = ssl.create_default_context(cafile=str(folder / "cert.pem"))

    def connection(self) -> http.client.HTTPSConnection:
        return http.client.HTTPSConnection("localhost", self.port, timeout=20, context=self.context)

    def ask(self, method: str, path: str, body: bytes = b"", **headers: str
            ) -> http.client.HTTPResponse:
        connection = self.connection()
        connection.request(method, path, body,
                           {name.replace("_", "-"): it for name, it in headers.items()})
        return connection.getresponse()


@pytest.fixture(params=["nginx", "caddy"])
def behind(request: pytest.FixtureRequest, tmp_path: pathlib.Path) -> Iterator[Behind]:
    if not shutil.which(request.param):
        pytest.skip(f"needs {request.param}")
    certified(tmp_path)
    port = free_port()
    with serving(tmp_path, "--behind-proxy", "--host", "localhost", "--host",
                 f"localhost:{port}") as net:
        words = {"nginx": nginx, "caddy": caddy}[request.param](tmp_path, port, net.port)
        env = {**net.env, "HOME": str(tmp_path), "XDG_DATA_HOME": str(tmp_path)}
        with open(tmp_path / "proxy", "wb") as said:
            proxy = subprocess.Popen(words, env=env, stdout=said, stderr=said)
        try:
            # nginx hands the name on without the port, which is none where it is 443
            name = "localhost" if request.param == "nginx" else f"localhost:{port}"
            it = Behind(net, port, tmp_path, f"https://{name}")
            wait_for(lambda: is_there(it) or proxy.poll() is not None, "the proxy", 60)
            assert proxy.poll() is None, (tmp_path / "proxy").read_text()
            yield it
        finally:
            proxy.terminate()
            proxy.wait()


def is_there(it: Behind) -> bool:
    with contextlib.suppress(OSError):
        it.connection().connect()
        return True
    return False


def test_the_net_behind_a_proxy(behind: Behind) -> None:
    net = behind.net
    token = {"Authorization": f"Bearer {net.tokens['GUEST']}"}
    form: Dict[str, Any] = {"Content_Type": "application/x-www-form-urlencoded",
                            "Origin": behind.origin, "Sec_Fetch_Site": "same-origin"}
    entered = behind.ask("POST", "/login", b"token=" + net.tokens["GATE"].encode(), **form)
    assert entered.status == 303 and "; Secure" in str(entered.getheader("Set-Cookie"))
    form["Origin"] = "https://evil.example"
    assert behind.ask("POST", "/login", b"token=x", **form).status == 403
    strange = behind.ask("GET", "/who", b"", Host="evil.example", **token)
    assert strange.status == 421 or strange.read() == b""  # Caddy answers what it has no site for
    # each line comes at once, through a stream that stays open
    connection = behind.connection()
    connection.request("GET", "/events", headers=token)
    stream = connection.getresponse()
    assert stream.status == 200
    for number in range(1, 4):
        begun = time.monotonic()
        assert behind.ask("POST", f"/push/HILL/{DAY}", line(number),
                          Authorization=f"Bearer {net.tokens['HILL']}").status == 200
        while line(number)[:-1] not in stream.readline():
            pass
        assert time.monotonic() - begun < 5
    connection.close()


def test_who_asks_through_a_proxy(behind: Behind) -> None:
    net = behind.net
    statuses = [behind.ask("GET", "/who", Authorization=f"Bearer {'x' * 32}",
                           X_Real_IP=f"10.1.1.{k}", X_Forwarded_For=f"10.1.2.{k}",
                           X_Scheme="http").status for k in range(20)]
    assert statuses.count(429) == 10  # whoever says to be somebody else each time
    assert "10.1." not in net.said


def test_a_site_pushes_through_a_proxy(behind: Behind, tmp_path: pathlib.Path) -> None:
    (tmp_path / "src" / DAY).mkdir(parents=True)
    lines = [line(number) for number in range(20_000)]
    (tmp_path / "src" / DAY / "HILL.log").write_bytes(b"".join(lines))
    env = {**behind.net.env, "APRS_NET_TOKEN": behind.net.tokens["HILL"]}
    said = tried("push", "--once", "--ca", tmp_path / "cert.pem",
                 f"https://localhost:{behind.port}/", "HILL", tmp_path / "src", env=env).stderr
    assert b"pushed: 20000" in said and behind.net.log() == lines
