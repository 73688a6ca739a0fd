"""The layers of the map, each painted alone, beside small pictures of them in layers/.

A picture is as before where no more than a few of its spots differ: fonts and the smoothing of
lines are those of a machine. LAYERS=write in the environment writes the pictures anew; look at them
then.
"""
import base64
import json
import os
import pathlib

import pytest

from browser import Chromium
from by_hand import page_of, place, row

pytestmark = pytest.mark.browsers("Chromium")
PICTURES = pathlib.Path(__file__).resolve().parent / "layers"
SIZE = 200, 140
# a spot is four pixels by four, and differs by so much of 255; so many of a thousand may
FAR, MOST = 12, 15

# paints some layers alone, in a view, and gives the picture as a link to its data
PAINT = """(() => { const { map } = aprsbook;
    window.all ||= map.layers;
    map.node.style.cssText = 'position: fixed; left: 0; top: 0; width: %dpx; height: %dpx';
    map.measure();
    map.layers = %s;
    map.look(%s);
    map.paint();
    return map.canvas.toDataURL() })()"""
# how many of a thousand spots of two pictures differ
COMPARE = """(async () => {
    const spotsOf = async url => {
        const image = await createImageBitmap(await (await fetch(url)).blob());
        const canvas = new OffscreenCanvas(image.width / 4, image.height / 4);
        const pen = canvas.getContext('2d');
        pen.imageSmoothingQuality = 'high';
        pen.drawImage(image, 0, 0, canvas.width, canvas.height);
        return pen.getImageData(0, 0, canvas.width, canvas.height).data;
    };
    const [a, b] = await Promise.all([%s, %s].map(spotsOf));
    if (a.length !== b.length) return 1000;
    let far = 0;
    for (let at = 0; at < a.length; at += 4)
        if ([0, 1, 2].some(k => Math.abs(a[at + k] - b[at + k]) > %d)) far++;
    return 1000 * far / (a.length / 4) })()"""
# what stands in the layers beside what was heard
PUT = """(async () => { const { layers, map } = aprsbook;
    const chequered = async side => {
        const canvas = new OffscreenCanvas(side, side), pen = canvas.getContext('2d');
        for (const [x, y, colour] of [[0, 0, '#c81e1e'], [1, 0, '#1e8c1e'], [0, 1, '#1e1ec8'],
            [1, 1, '#e0c020']]) {
            pen.fillStyle = colour;
            pen.fillRect(x * side / 2, y * side / 2, side / 2, side / 2);
        }
        return canvas.convertToBlob();
    };
    const blob = await chequered(256);
    for (const x of [2007, 2008]) for (const y of [1304, 1305, 1306])
        layers.tiles.take({ z: 12, x, y }, blob);
    const corner = (north, east) => { map.view.look(north, east);
        return map.view.at(map.view.width / 2, map.view.height / 2); };
    layers.images.all = [{ name: 'sheet', picture: await createImageBitmap(blob),
        corners: [corner(54.53, -3.56), corner(54.54, -3.46), corner(54.47, -3.55)] }];
    return true })()"""
COURSE = ('<gpx><wpt lat="54.51" lon="-3.52"><name>Summit</name></wpt><rte>'
          '<rtept lat="54.48" lon="-3.56"/><rtept lat="54.52" lon="-3.5"/>'
          '<rtept lat="54.49" lon="-3.45"/></rte></gpx>')
NEAR = "54.5,-3.5,14"
CASES = {
    "coast": ("[all[0]]", "54.5,-3.5,0.4"), "bay": ("[all[0]]", "54.1,-3,2.5"),
    "globe": ("[all[0]]", "20,10,0.01"),
    "tiles": ("[all[1]]", NEAR), "image": ("[all[2]]", NEAR), "grid": ("[all[3]]", NEAR),
    "course": ("[all[4]]", NEAR), "stations": ("[all[5]]", NEAR), "measure": ("[all[6]]", NEAR),
    "degrees": ("[all[7]]", NEAR), "scale": ("[all[8]]", NEAR)}


def rows() -> str:
    """Stations with tracks, an object, one that was killed, one without all digits."""
    lines = [place(k, "Q1RUN", 54.48 + k / 150, -3.56 + k / 60, symbol="/[") for k in range(6)]
    lines += [place(k, "Q1VAN", 54.53 - k / 100, -3.47 - k / 200) for k in range(5)]
    where = {"latitude": "54.5000000", "compressed": "no", "symbol": "//"}
    lines.append(row("object", 1, "Q1NET", name="CP1", state="live", longitude="-3.5200000",
                     ambiguity=0, **where))
    lines.append(row("object", 1, "Q1NET", name="CP2", state="killed", longitude="-3.4700000",
                     ambiguity=0, **where))
    lines.append(place(2, "Q1FAR", 54.47, -3.55, symbol="/-", ambiguity=2))
    return "".join(lines)


def opened(page: Chromium, folder: pathlib.Path, lines: str) -> None:
    page.open(page_of(folder / "layers.html", lines, maps=[COURSE]), 800, 600)
    page.call("Page.setBypassCSP", enabled=True)
    page.reload()
    page.settle()
    page.wait("aprsbook.net !== null && aprsbook.layers.coast.land.rings.length > 0")


def compared(page: Chromium, name: str, layers: str, view: str) -> float:
    """How many of a thousand spots differ; writes the picture where that is wanted."""
    page.js(PAINT % (*SIZE, layers, json.dumps(view)))
    # what is unpacked is there with the next picture
    page.settle()
    got = page.js(PAINT % (*SIZE, layers, json.dumps(view)))
    path = PICTURES / f"{name}.png"
    if os.environ.get("LAYERS") == "write":
        PICTURES.mkdir(exist_ok=True)
        path.write_bytes(base64.b64decode(got.split(",")[1]))
    wanted = "data:image/png;base64," + base64.b64encode(path.read_bytes()).decode()
    found: float = page.js(COMPARE % (json.dumps(got), json.dumps(wanted), FAR))
    return found


def test_layers(page: Chromium, folder: pathlib.Path) -> None:
    """Each layer alone looks as it did."""
    opened(page, folder, rows())
    page.js(PAINT % (*SIZE, "[]", json.dumps(NEAR)))
    page.js(PUT)
    page.js("(({ measure }, map) => { measure.turn(true); map.look('%s');"
            "for (const [x, y] of [[40, 30], [120, 90], [170, 40]]) measure.tap(x, y, map); })"
            "(aprsbook.layers, aprsbook.map)" % NEAR)
    differ = {name: compared(page, name, *case) for name, case in CASES.items()}
    assert all(it <= MOST for it in differ.values()), differ


def test_density(page: Chromium, folder: pathlib.Path) -> None:
    """Very many marks are painted by how dense they are."""
    opened(page, folder, "".join(place(k / 60, f"Q{k}", 54.5 + k % 40 / 4000, -3.5 + k // 40 / 900)
                                 for k in range(1200)))
    assert compared(page, "density", "[all[5]]", "54.505,-3.48,30") <= MOST


def test_a_layer_that_changed(page: Chromium, folder: pathlib.Path) -> None:
    """A picture of something else is told from what it was: a station less, a coast turned."""
    opened(page, folder, rows())
    assert compared(page, "coast", "[all[0]]", "54.5,-3.9,0.4") > MOST
    page.js("aprsbook.layers.stations.things = aprsbook.layers.stations.things.slice(1)")
    assert compared(page, "stations", "[all[5]]", NEAR) > MOST
