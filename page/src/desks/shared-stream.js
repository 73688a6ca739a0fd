// @ts-check
// One stream of a server for all tabs of a browser, which opens six connections to it at most. The
// tab that leads listens, and says to the others what it hears. Where the browser has no locks, as
// in a page that isn't encrypted, or the leading tab hangs, a tab has a stream of its own.

import { patience, Stream } from "./stream.js";

/** @typedef {import("./stream.js").Listener} Listener */
/**
 * What tabs say to each other: an event of the stream and its data, whether the server is there, or
 * that a tab wants to know whether one leads.
 * @typedef {["event", string, string] | ["alive", boolean] | ["who leads"]} Word
 */
/**
 * The tabs of a browser that show one net: what says something to the others, what hears them, and
 * what runs once this tab leads, until it is closed.
 * @typedef {{ say: (word: Word) => void, listen: (run: (word: Word) => void) => void,
 *   lead: (run: () => void) => void }} Tabs
 */
/**
 * The tabs that show what is at an address; null where this browser can't say.
 * @param {string} address
 * @returns {Tabs | null}
 */
export function tabsAt(address) {
  const { navigator, BroadcastChannel } = globalThis, locks = navigator?.locks;
  if (!locks || !BroadcastChannel) return null;
  const name = `aprsbook ${address}`, channel = new BroadcastChannel(name);
  return {
    say: word => channel.postMessage(word),
    listen: run => { channel.onmessage = ({ data }) => run(data); },
    lead: run => {
      locks.request(name, () => {
        run();
        return new Promise(() => {}); // a tab that is closed leads no more
      }).catch(run);
    },
  };
}

/** A stream that the tabs of a browser have in common. */
export class SharedStream {
  /**
   * @param {Listener} listener
   * @param {Tabs | null} tabs
   * @param {(listener: Listener) => Stream} streamOf
   */
  constructor(listener, tabs, streamOf = it => new Stream(it)) {
    this.listener = listener;
    this.tabs = tabs;
    this.stream = streamOf({ ...listener, alive: isThere => this.alive(isThere) });
    this.stream.onTold = (kind, data) => this.leads && this.tabs?.say(["event", kind, data]);
    /** Whether this tab leads, and whether it listens to the server itself. */
    this.leads = false;
    this.listens = false;
    this.isThere = false;
    /** Whether this tab has all that the leading one had before it. */
    this.isLevel = false;
    /**
     * What is said while this tab asks for what it lacks.
     * @type {[string, string][] | null}
     */
    this.early = null;
    /** @type {ReturnType<typeof setTimeout> | undefined} */
    this.timer = undefined;
  }
  begin() {
    if (!this.tabs) return this.listen();
    this.tabs.listen(word => this.hear(word));
    this.tabs.lead(() => this.lead());
    this.askWhoLeads();
  }
  /** Listens to the server itself. */
  listen() {
    if (this.listens) return;
    this.listens = true;
    this.stream.begin();
  }
  lead() {
    this.leads = true;
    this.listen();
  }
  /** Asks for the tab that leads; where none answers, this one listens itself. */
  askWhoLeads() {
    if (this.listens) return;
    this.tabs?.say(["who leads"]);
    this.timer = setTimeout(() => this.listen(), patience.first);
  }
  /**
   * The server is there, or away, as this tab or the leading one finds.
   * @param {boolean} isThere
   */
  alive(isThere) {
    if (this.leads && isThere !== this.isThere) this.tabs?.say(["alive", isThere]);
    this.isThere = isThere;
    this.listener.alive(isThere);
  }
  /**
   * Hears another tab.
   * @param {Word} word
   */
  hear(word) {
    if (word[0] === "who leads") {
      if (this.leads) this.tabs?.say(["alive", this.isThere]);
      return;
    }
    if (this.listens) return;
    clearTimeout(this.timer);
    this.timer = setTimeout(() => this.askWhoLeads(), patience.silent);
    this.alive(word[0] === "event" || word[1]);
    if (word[0] === "event") this.take(word[1], word[2]);
    if (this.isThere && !this.isLevel && !this.early) this.level();
  }
  /**
   * Takes an event of the leading tab, once what was before it is here.
   * @param {string} kind
   * @param {string} data
   */
  take(kind, data) {
    if (this.early) this.early.push([kind, data]);
    else if (this.isLevel) this.stream.tell(kind, data);
  }
  /** Asks the server for all that the leading tab had before this one was there. */
  async level() {
    this.early = [];
    const { early } = this;
    this.isLevel = await this.stream.takeAll().then(() => true, () => false);
    this.early = null;
    if (this.isLevel) for (const [kind, data] of early) this.stream.tell(kind, data);
  }
}
