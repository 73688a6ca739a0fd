// A stand-in for the module and its host, for tests of the page without a program: it knows logs of
// plain positions and messages, and its book is its lines.

const LINE = /^(\d{4}-\d\d-\d\dT\d\d:\d\d:\d\d)(\.\d{3})?Z ([\w-]{1,16}) ((?:[0-9a-f]{2})*)$/;
const FUNCTIONS = { check: 1, merge: 1, show: 1, history: 1, "table rows": 1, "table messages": 1 };
class OutOfMemory extends Error {}
const COLUMNS = ("kind first last receivers receiver source destination via gate name state id " +
  "latitude longitude ambiguity compressed symbol stamp says text").split(" ");
const MESSAGES = "source addressee id text state first last".split(" ");

const textOf = bytes => new TextDecoder("latin1").decode(bytes);
const bytesOf = text => Uint8Array.from(text, it => it.charCodeAt(0));
/** What a line lacks, as the program names it. */
function faultOf(line) {
  if (line.length > 8192) return "LongLine";
  if (!/^\d{4}-\d\d-\d\dT\d\d:\d\d:\d\d(\.\d{3})?Z /.test(line)) return "Moment";
  if (!/^\S+ [\w-]{1,16} /.test(line)) return "Receiver";
  return LINE.test(line) ? "" : "Hex";
}
/** The lines of a log or a book, or the first fault. */
function linesOf(bytes) {
  const text = textOf(bytes), lines = text.split("\n"), rest = lines.pop();
  if (text.startsWith("APRSBOOK")) return { lines: lines.slice(1, -1) };
  for (const [n, line] of lines.entries()) {
    const fault = faultOf(line);
    if (fault) return { fault, line: n + 1 };
  }
  if (rest) return { fault: rest.length > 8192 ? "LongLine" : "NoNewline", line: lines.length + 1 };
  return { lines };
}
function callOf(bytes, at) {
  const name = String.fromCharCode(...bytes.subarray(at, at + 6).map(it => it >> 1)).trim();
  const ssid = bytes[at + 6] >> 1 & 15;
  return name + (ssid ? `-${ssid}` : "");
}
function rowOf(line) {
  const [, seconds, millis, receiver, hex] = LINE.exec(line);
  const first = `${seconds}${millis || ".000"}Z`;
  const bytes = Uint8Array.from(hex.match(/../g) || [], it => parseInt(it, 16)).subarray(2, -1);
  const text = textOf(bytes.subarray(16)), row = { kind: "raw", first, last: first,
    receivers: receiver, receiver, source: callOf(bytes, 7), destination: callOf(bytes, 0), text };
  const place = /^!(\d\d)([\d.]{5})([NS])(.)(\d{3})([\d.]{5})([EW])(.)(.*)$/.exec(text);
  const message = /^:(.{9}):([^{]*)(?:\{(\w+))?$/.exec(text);
  if (place) {
    const degrees = (d, m, mark) => ((+d + m / 60) * (/[SW]/.test(mark) ? -1 : 1)).toFixed(7);
    Object.assign(row, { kind: "position", latitude: degrees(...place.slice(1, 4)),
      longitude: degrees(...place.slice(5, 8)), ambiguity: 0, compressed: "no",
      symbol: place[4] + place[8], text: place[9] });
  } else if (message) {
    const [, to, said, id] = message, answer = /^(ack|rej)(\w+)$/.exec(said);
    Object.assign(row, { kind: answer?.[1] || "message", name: to.trim(),
      id: answer?.[2] || id || "", text: answer ? "" : said });
  }
  return row;
}
/** One row for what several heard within a minute. */
function rowsOf(lines) {
  const rows = [];
  for (const it of lines.map(rowOf)) {
    const same = rows.find(one => one.source === it.source && one.text === it.text &&
      one.kind === it.kind && Math.abs(Date.parse(one.first) - Date.parse(it.first)) <= 30000);
    if (!same) rows.push(it);
    else if (!same.receivers.split(",").includes(it.receiver)) same.receivers += "," + it.receiver;
  }
  return rows;
}
const table = (columns, rows) => [columns, ...rows.map(it => columns.map(name => it[name] ?? ""))]
  .map(it => it.join("\t") + "\n").join("");
function messagesOf(rows) {
  return rows.filter(it => it.kind === "message").map(it => {
    const answer = rows.find(one => one.source === it.name && one.name === it.source &&
      one.id === it.id && /ack|rej/.test(one.kind));
    return { ...it, addressee: it.name, state: !it.id ? "unnumbered" : !answer ? "unanswered"
      : answer.kind === "ack" ? "acknowledged" : "rejected" };
  });
}
function run(module, command, options, inputs) {
  const all = [];
  for (const [input, bytes] of inputs.entries()) {
    const { lines, fault, line } = linesOf(bytes);
    if (fault) return { status: 1, input, line, fault, written: 0, bytes: new Uint8Array() };
    all.push(...lines);
  }
  // as slow as a test wants it, by a line of a log
  const slow = Math.max(0, ...all.map(it => Number(/ SLOW(\d+) /.exec(it)?.[1] || 0)));
  for (const until = Date.now() + slow; command === "merge" && Date.now() < until;);
  // a worker that stops, and doesn't answer any more
  if (all.some(it => it.includes(" CRASH "))) {
    globalThis.postMessage = () => {};
    setTimeout(() => { throw new Error("no more"); });
  }
  const lines = [...new Set(all)].sort(), rows = rowsOf(lines);
  const texts = { check: `heard ${all.length} passed 0\n`,
    merge: `APRSBOOK stand-in\n${lines.map(it => it + "\n").join("")}END ${rows.length}\n`,
    "table rows": table(COLUMNS, rows), "table messages": table(MESSAGES, messagesOf(rows)),
    show: "", history: "" };
  return { status: 0, input: 0, line: 0, fault: "", written: 0, bytes: bytesOf(texts[command]) };
}

export { FUNCTIONS, OutOfMemory, attempt, run };
function attempt() {}
