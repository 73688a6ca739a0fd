"""A log, a course and a title full of texts that would like to be more than text, for the tests of
aprs-net page."""
import datetime
import pathlib
import sys
from typing import List

sys.path.append(str(pathlib.Path(__file__).resolve().parents[2] / "tools/src"))
from aprsbook_tools.reports.table import is_readable  # noqa: E402

TITLE = "</title><script>window.ran=1</script>"
TEXTS = [
    "</script><script>window.ran=2</script>", "<img src=x onerror=\"window.ran=3\">",
    "\"'><svg onload=window.ran=4>", "&lt;b&gt; &amp; &#60;", "\\x3cscript>", "<!--<script>",
    "]]>-->", "{{7*7}} ${7*7} %s %(x)s {0}", "\u202egnp.exe", "\u2067right\u2069", "a\0b\7",
    "javascript:alert(1)", "x" * 200, "  two  spaces ", "\u2028\u2029", "\\\\", "tab\there",
    "\u00dcn\u00efc\u00f6d\u00e9 \u2602", "\ufffe\U0001f600", "<style>*{display:none}</style>",
    "<meta http-equiv=refresh content=0>",
]
NAMES = ["<img src>", "\"'&<>`\\", "--><b>", "&lt;b&gt;", "'+alert+'", "</script", "constructo",
         "__proto__"]


def address(call: str, flags: int, last: int = 0) -> bytes:
    name, _, ssid = call.partition("-")
    return bytes(2 * b for b in name.ljust(6).encode()) + bytes([flags + 2 * int(ssid or 0) + last])


def line(moment: str, receiver: str, frame: bytes) -> str:
    """A line of a log."""
    escaped = frame.replace(b"\xdb", b"\xdb\xdd").replace(b"\xc0", b"\xdb\xdc").hex()
    return f"{moment} {receiver} c000{escaped}c0\n"


def log() -> List[str]:
    """The lines of the log."""
    start = datetime.datetime(2024, 6, 21, 18)
    lines: List[str] = []

    def put(source: str, information: bytes, receiver: str = "RX1") -> None:
        frame = address("APRS", 0xE0) + address(source, 0x60, 1) + b"\x03\xf0" + information
        moment = start + datetime.timedelta(seconds=61 * len(lines))
        lines.append(line(f"{moment:%Y-%m-%dT%H:%M:%S}Z", receiver, frame))

    for n, text in enumerate(TEXTS):
        octets = text.encode()
        put(f"Q1T{n}", b"!5432.58N/00327.36W>" + octets)
        put(f"Q1T{n}", b">" + octets, "RX-2_")
        put(f"Q1T{n}", b":Q1ZZ     :" + octets + b"{%d" % n)
    put("Q1LAT", b"!5433.58N/00328.36W>caf\xe9 \xff\x80")
    for n, name in enumerate(NAMES):
        place = b"543%d.58N/0032%d.36W>" % (n, n) + name.encode()
        put("Q1OBJ", b";" + name.encode()[:9].ljust(9) + b"*211800z" + place)
        put("Q1OBJ", b")" + name.encode().replace(b"_", b"-")[:9] + b"!" + place)
        put("Q1MSG", b":" + name.encode()[:9].ljust(9) + b":" + name.encode() + b"{9%d" % n)
    return lines


def course() -> str:
    """A GPX file, with a name in it that is no markup there."""
    name = TEXTS[0].replace("&", "&amp;").replace("<", "&lt;")
    return ('<gpx xmlns="http://www.topografix.com/GPX/1/1">'
            f'<wpt lat="54.5" lon="-3.5"><name>{name}</name></wpt><trk><trkseg>'
            '<trkpt lat="54.5" lon="-3.5"/><trkpt lat="54.6" lon="-3.4"/></trkseg></trk></gpx>')


def shown(text: str) -> str:
    """How the page shows a text: what can't be read stays in hexadecimal, after a backslash."""
    return "".join(it if is_readable(it) else "".join(f"\\x{octet:02x}" for octet in it.encode())
                   for it in text)
