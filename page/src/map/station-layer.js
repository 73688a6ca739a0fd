// @ts-check
// Stations, objects and items on the map: tracks, marks, names, and what is picked. Where marks are
// too many to be told from each other, how dense they are.

import { Colouring } from "./colours.js";
import { densityOf, densityText, isDense, paintDensity } from "./density.js";
import { nameOnMap, Room, Sides } from "./label-placement.js";
import { dot, isInView, line } from "./layers/drawing.js";
import { rankOf } from "./mark.js";
import { MarkPainter, RING } from "./markers.js";
import { Fan, MOST, pilesOf } from "./spiderfy.js";
import { symbolOf } from "./symbols.js";
import { Tracks } from "./tracks.js";
import { NEAREST } from "../geo/projection.js";
import { wordsOf } from "../net/details.js";
import { make } from "../util/dom.js";
import { timeText } from "../util/time.js";

/** @typedef {import("../net/things.js").Thing} Thing */
/** @typedef {import("../geo/projection.js").Projection} Projection */
/** @typedef {import("./layers/layer.js").Context} Context */
/** @typedef {import("./layers/layer.js").Surface} Surface */
/** @typedef {import("./mark.js").Mark} Mark */
/** Of more marks than these, all are dots; of so many names are looked for a place. */
export const SMALL = 250;
const NAMED = 600;

/** What is shown of the net, and how. */
class Shown {
  constructor() {
    /** All that may be shown; `things` are those of them that the reader looks for. */
    /** @type {Thing[]} */
    this.placed = [];
    /** @type {Thing[]} */
    this.things = [];
    /** @type {string | null} */
    this.picked = null;
    /** @type {string | null} */
    this.from = null;
    this.until = Infinity;
    /** The moment to which ages count, where the map shows all. */
    this.present = () => -Infinity;
    this.colouring = new Colouring("own");
    this.fan = new Fan();
    this.sides = new Sides(1, 1);
    this.isDense = false;
    /** @type {Mark[]} */
    this.marks = [];
    /** @type {{ things: Thing[] | null, of: string, list: Mark[] }} */
    this.shown = { things: null, of: "", list: [] };
  }
}
export class StationLayer extends Shown {
  /**
   * @param {{ onPick: (key: string) => void, onDense: (text: string) => void }} hears
   */
  constructor({ onPick, onDense }) {
    super();
    this.onPick = onPick;
    this.onDense = onDense;
    this.leads = true;
  }
  /** The tracks of all that may be shown. */
  places() {
    return this.placed.map(it => it.track);
  }
  /** Whether the last picture was of these things. */
  get isPainted() {
    return this.shown.things === this.things;
  }
  /** Takes it that colours mean something else, or are others. */
  recolour() {
    this.shown.things = null;
  }
  /** @param {Context} context @param {Projection} view */
  paint(context, view) {
    new StationPainter(this, context, view).paint();
  }
  /**
   * The mark that is near a pixel.
   * @param {number} x
   * @param {number} y
   * @returns {Mark | null}
   */
  markAt(x, y) {
    let best = null, least = 16 * 16;
    for (const mark of this.marks) {
      const off = (mark.x - x) ** 2 + (mark.y - y) ** 2;
      if (off <= least) [best, least] = [mark, off];
    }
    return best;
  }
  /**
   * What is said of the mark below a pixel.
   * @param {number} x
   * @param {number} y
   * @param {import("../net/settings.js").Settings} settings
   */
  tip(x, y, settings) {
    const thing = this.markAt(x, y)?.thing, place = thing?.at(this.until);
    if (!thing || !place) return [];
    return [make("b", { textContent: thing.label }), ` ${timeText(place.last, settings)}`,
      ...[place.state === "killed" ? "killed" : "", symbolOf(place).word,
        ...wordsOf(place, settings)].filter(Boolean).map(it => make("div", { textContent: it }))];
  }
  /**
   * Picks what is tapped on; what is covered by it fans out first, or comes closer.
   * @param {number} x
   * @param {number} y
   * @param {Surface} map
   */
  tap(x, y, map) {
    const mark = this.markAt(x, y), { fan } = this;
    if (!mark && this.isDense) map.closer(x, y);
    else if (!mark) this.unfold(map);
    else if (fan.keys.includes(mark.thing.key)) this.onPick(mark.thing.key);
    else this.tapPile(mark, [x, y], map);
    return true;
  }
  /** @param {Mark} mark @param {[number, number]} at @param {Surface} map */
  tapPile(mark, at, map) {
    const piles = pilesOf(this.marks, this.marks.length > SMALL);
    const pile = piles.find(it => it.includes(mark)) || [];
    if (pile.length === 1) return this.onPick(mark.thing.key);
    if (pile.length > MOST && map.view.scale < NEAREST) return map.closer(...at);
    this.fan.open(pile);
    map.paintSoon();
  }
  /**
   * Puts what was fanned out together again.
   * @param {Surface} map
   */
  unfold(map) {
    this.fan.close();
    map.paintSoon();
  }
}
/** Paints a picture of stations. */
export class StationPainter {
  /** @param {StationLayer} of @param {Context} context @param {Projection} view */
  constructor(of, context, view) {
    this.of = of;
    this.view = view;
    this.pen = context.pen;
    this.colours = context.colours;
    this.settings = context.settings;
    this.writer = context.writer;
    this.painter = new MarkPainter(context.pen, view, context.colours, context.writer);
  }
  paint() {
    const { of, pen, view, colours } = this, shown = this.shownNow(), density = this.place(shown);
    const tracks = new Tracks(pen, view, { until: of.until, isAnyPicked: of.picked !== null });
    tracks.paint(density ? shown.filter(it => it.picked) : shown);
    this.paintRuler();
    if (density) paintDensity(pen, density, colours.station);
    of.onDense(density ? densityText(density) : "");
    of.isDense = density !== null;
    this.writeTimes(tracks, shown, this.paintMarks());
  }
  /** What is on the map, in the order in which it is drawn. */
  shownNow() {
    const { things, until, picked, shown, colouring, present } = this.of, { colours } = this;
    const now = until === Infinity ? present() : until;
    const key = [until, picked, colouring.way, Math.floor(now / 10)].join();
    if (shown.things === things && shown.of === key) return shown.list;
    /** @type {Mark[]} */
    const list = [];
    for (const thing of things) {
      const place = thing.at(until);
      if (!place) continue;
      const last = until === Infinity ? thing.last : place.last;
      const colour = place.state === "killed" ? colours.soft
        : colours[colouring.of(thing, now - last)];
      list.push({ thing, place, picked: thing.key === picked, colour, x: 0, y: 0 });
    }
    list.sort((a, b) => rankOf(a) - rankOf(b));
    this.of.shown = { things, of: key, list };
    return list;
  }
  /**
   * Puts marks in their places; gives how many stand in each square, where these say more.
   * @param {Mark[]} shown
   */
  place(shown) {
    const { of, view } = this;
    of.marks = [];
    for (const it of shown) {
      if (!isInView(view, it.place.vector)) continue;
      it.x = view.x;
      it.y = view.y;
      of.marks.push(it);
    }
    if (of.marks.length <= SMALL) return null;
    const density = densityOf(of.marks, view, this.anchor());
    return isDense(of.marks.length, density) ? density : null;
  }
  /** The line between what was picked before and what is picked. */
  paintRuler() {
    const { of, pen, view, colours } = this, [a, b] = [of.from, of.picked].map(key =>
      of.things.find(it => it.key === key)?.at(of.until));
    if (!a || !b || a === b) return;
    Object.assign(pen, { strokeStyle: colours.ink, lineWidth: 1.5 });
    pen.setLineDash([2, 4]);
    line(pen, view, [...a.vector, ...b.vector]);
    pen.setLineDash([]);
  }
  /** Draws marks and names; gives the room that is left. In density, what matters most alone. */
  paintMarks() {
    const { of, painter, writer } = this;
    if (of.isDense) of.marks = of.marks.filter(it => it.picked || it.thing.urgent);
    const small = of.marks.length > SMALL, reach = small ? 4 : 10, room = this.room();
    const spread = this.spread(), urgent = of.marks.filter(it => it.thing.urgent);
    // nobody can fill the map by sending many of them
    const ringed = new Set(urgent.length > SMALL ? [] : urgent);
    const isWhole = (/** @type {Mark} */ it) =>
      !small || it.picked || ringed.has(it) || spread.has(it);
    if (small) painter.paintDots(of.marks.filter(it => !isWhole(it)));
    for (const mark of of.marks) {
      if (isWhole(mark)) painter.paint(mark);
      room.take(mark.x - reach, mark.y - reach, mark.x + reach, mark.y + reach);
    }
    if (!small)
      for (const it of pilesOf(of.marks, small))
        if (it.length > 1) writer.writeCount(it.length, it[0]);
    // the picked one comes first, so that its name has room, then those that are fanned out, and
    // then those that had a side before
    const named = of.marks.slice(small ? -NAMED : 0).reverse(), { by } = of.sides;
    const turnOf = (/** @type {Mark} */ it) =>
      it.picked || spread.has(it) ? 0 : by.has(it.thing.key) ? 1 : 2;
    for (const turn of [0, 1, 2])
      for (const mark of named) if (turnOf(mark) === turn) this.name(mark, room, reach, small);
    return room;
  }
  /**
   * Puts the marks that are fanned out in their places, above all others.
   * @returns {Set<Mark>}
   */
  spread() {
    const { of, pen, view, colours } = this, { at } = of.fan;
    if (!at || !view.put(at)) return new Set();
    const { x, y } = view, spread = of.fan.spread(of.marks, view);
    Object.assign(pen, { strokeStyle: colours.soft, lineWidth: 1 });
    pen.beginPath();
    for (const it of spread) {
      pen.moveTo(x, y);
      pen.lineTo(it.x, it.y);
    }
    pen.stroke();
    const mine = new Set(spread);
    of.marks = [...of.marks.filter(it => !mine.has(it)), ...spread];
    return mine;
  }
  /**
   * When what is picked was where.
   * @param {Tracks} tracks
   * @param {Mark[]} shown
   * @param {Room} room
   */
  writeTimes(tracks, shown, room) {
    const { colours, pen, writer } = this, thing = shown.find(it => it.picked)?.thing;
    if (!thing) return;
    tracks.writeTimes(thing, this.settings, (text, x, y) => {
      const width = writer.widthOf(text);
      if (!room.isFree(x + 5, y - 6, x + 5 + width, y + 8)) return;
      room.take(x + 5, y - 6, x + 5 + width, y + 8);
      pen.fillStyle = colours.ink;
      dot(pen, x, y, 2.5);
      writer.write(text, x + 6, y + 4, colours.ink, 11);
    });
  }
  /** A place of the map, in pixels, so that what is in squares moves with it. */
  anchor() {
    const anchor = this.of.placed[0]?.now, { view } = this;
    if (anchor) view.put(anchor.vector);
    return anchor ? { x: view.x, y: view.y } : { x: 0, y: 0 };
  }
  /** Room for names, in squares that move with the map. */
  room() {
    const { width, height } = this.view, room = new Room(width, height, this.anchor());
    const { sides } = this.of;
    // of another size, names may stand half beside it
    if (sides.width !== width || sides.height !== height) sides.by.clear();
    Object.assign(sides, { width, height });
    // the scale stands there
    room.take(width - 130, height - 52, width, height);
    return room;
  }
  /**
   * Puts a name beside its mark, where there is room.
   * @param {Mark} mark
   * @param {Room} room
   * @param {number} reach
   * @param {boolean} small
   */
  name({ thing, place, picked, x, y }, room, reach, small) {
    const { of, colours, writer } = this, isUrgent = thing.urgent !== "";
    const isWanted = picked || isUrgent;
    const label = nameOnMap(thing.label), width = writer.widthOf(label, isWanted) + 2;
    const spot = of.sides.place(thing.key, { x, y },
      { width, reach: isUrgent ? RING : reach, isWanted }, room);
    if (!spot) return;
    const colour = place.state === "killed" ? colours.soft
      : isUrgent ? colours.bad : colours.ink;
    if (small && !isWanted) writer.writeOnSheet(label, spot.left, spot.base, colour);
    else writer.write(label, spot.left, spot.base, colour, 12, isWanted);
  }
}
