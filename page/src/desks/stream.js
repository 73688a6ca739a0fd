// @ts-check
// The stream of a server that tells at once what is new in logs and in the journals of desks. Who
// listens says how far each was read, so nothing is lost or doubled where it ends and begins again.

import { accepted } from "../util/refused.js";

/**
 * After how many milliseconds it is listened again; after how many without the first word, and
 * without a word then, the server is away; and how often it is asked where no stream comes through.
 */
export const patience = { again: 2000, first: 8000, silent: 40000, ask: 5000 };
/** An answer of fewer letters is whole: the server cuts off what has four times as many. */
const WHOLE = 2 ** 20;
/** After so many streams without a word it is asked instead. */
const VAIN = 2;

/**
 * What the server says of the net: its title, silence in minutes, roster and courses, its maps of
 * tiles, which days it shows, and of sites by how many seconds the clock is ahead, how many lines
 * were refused, a day that its lines are of and no page shows.
 * @typedef {{ title: string, silent: number, roster: string, courses: string[],
 *   tiles: string[], days: string[],
 *   sites: Record<string, { clock: number, refused: number, day: string }> }} NetTold
 */
/**
 * Lines of a file: its name, where they begin, and their bytes; null where an event can't say them.
 * @typedef {{ name: string, begin: number, bytes: Uint8Array | null }} Told
 */
/**
 * Who listens: how far each file was read; what takes what is told; what hears that a file begins
 * anew or is gone, what is told of the net, and whether the server is there.
 * @typedef {{ sizes: () => Map<string, number>, take: (told: Told) => void,
 *   anew: (name: string) => void, gone: (name: string) => void, net: (text: string) => void,
 *   alive: (isThere: boolean) => void }} Listener
 */
/**
 * What an event says.
 * @param {string} data
 * @returns {Told}
 */
export function toldBy(data, hasLines = true) {
  const end = data.indexOf("\n"), head = end < 0 ? data : data.slice(0, end);
  const [, name, begin] = /^(.*) (\d+) \d+$/.exec(head) || ["", "", "0"];
  return { name, begin: Number(begin),
    bytes: hasLines ? new TextEncoder().encode(data.slice(end + 1) + "\n") : null };
}
/**
 * Bytes that go on with lines that were told, or null where they don't.
 * @param {Uint8Array} had
 * @param {Told} told
 */
export function goneOn(had, { begin, bytes }) {
  if (!bytes || begin > had.length) return null;
  const over = Math.min(had.length - begin, bytes.length);
  for (let k = 0; k < over; k++) if (had[begin + k] !== bytes[k]) return null;
  const all = new Uint8Array(had.length + bytes.length - over);
  all.set(had);
  all.set(bytes.subarray(over), had.length);
  return all;
}
/**
 * The events of a text: kinds and data.
 * @param {string} text
 * @returns {[string, string][]}
 */
export const eventsIn = text => text.split("\n\n").map(it => it.split("\n")).flatMap(lines => {
  const of = (/** @type {string} */ name) =>
    lines.filter(it => it.startsWith(name)).map(it => it.slice(name.length));
  const [kind] = of("event: ");
  return kind ? [/** @type {[string, string]} */ ([kind, of("data: ").join("\n")])] : [];
});

/** Listens to a server, again and again. */
export class Stream {
  /**
   * @param {Listener} listener
   * @param {(url: string) => EventSource} open
   * @param {(url: string) => Promise<string>} ask
   */
  constructor(listener, open = url => new EventSource(url), ask = textOf) {
    this.listener = listener;
    this.open = open;
    this.ask = ask;
    /** Hears each event, before it is taken. */
    this.onTold = (/** @type {string} */ _kind, /** @type {string} */ _data) => {};
    /** How many streams ended one after another without a word; -1 while one has words. */
    this.vain = 0;
    /** Whether the server, asked last, answered, with no word of a stream since. */
    this.answers = false;
    /** @type {ReturnType<typeof setTimeout> | undefined} */
    this.timer = undefined;
    /** @type {Record<string, (data: string) => void>} */
    this.kinds = {
      lines: data => listener.take(toldBy(data)),
      grown: data => listener.take(toldBy(data, false)),
      anew: name => listener.anew(name),
      gone: name => listener.gone(name),
      net: text => listener.net(text),
      beat: () => {},
    };
  }
  /** The address of what is new. */
  url(isOnce = false) {
    const have = [...this.listener.sizes()].map(([name, size]) =>
      `have=${encodeURIComponent(`${name}:${size}`)}`);
    const all = [...isOnce ? ["once=1"] : [], ...have].join("&");
    return `events${all ? "?" : ""}${all}`;
  }
  /**
   * Takes an event.
   * @param {string} kind
   * @param {string} data
   */
  tell(kind, data) {
    this.onTold(kind, data);
    this.kinds[kind]?.(data);
  }
  begin() {
    if (this.vain >= VAIN) return this.askOnce();
    const source = this.open(this.url());
    const end = () => {
      source.close();
      this.vain++;
      this.end();
    };
    const hear = () => {
      this.hear();
      this.timer = setTimeout(end, patience.silent);
    };
    for (const kind of Object.keys(this.kinds))
      source.addEventListener(kind, event => {
        this.vain = -1;
        this.answers = false;
        hear();
        this.tell(kind, /** @type {MessageEvent<string>} */ (event).data);
      });
    this.timer = setTimeout(end, patience.first);
    source.onerror = end; // what the browser would do by itself doesn't say how far it has read
  }
  /** The server is there. */
  hear() {
    clearTimeout(this.timer);
    this.listener.alive(true);
  }
  /** The server is away; it is listened again. */
  end() {
    clearTimeout(this.timer);
    this.listener.alive(false);
    this.timer = setTimeout(() => this.begin(), patience.again * (0.5 + Math.random()));
  }
  /** Takes what is new now, as far as an answer has room for it; how long that was. */
  async takeOnce() {
    const text = await this.ask(this.url(true));
    this.hear();
    for (const [kind, data] of eventsIn(text)) this.tell(kind, data);
    return text.length;
  }
  /** Takes all that is new now. */
  async takeAll() {
    for (let isWhole = false; !isWhole;) {
      const before = this.url();
      isWhole = await this.takeOnce() < WHOLE || this.url() === before;
    }
  }
  /** Asks for what is new, as a stream says it, and again after a while. */
  async askOnce() {
    try {
      await this.takeOnce();
      // it may have been away before, so that one stream more says whether any comes through
      if (!this.answers) this.vain--;
      this.answers = true;
      this.timer = setTimeout(() => this.begin(), patience.ask);
    } catch {
      this.answers = false;
      this.end();
    }
  }
}
/** @param {string} url */
async function textOf(url) {
  return accepted(await fetch(url, { cache: "no-store" })).text();
}
