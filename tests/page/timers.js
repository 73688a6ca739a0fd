// What waits long, or goes on for ever, doesn't keep a test from its end. It stands before the
// modules that wait.

const LONG = 5000;
const { setInterval, setTimeout } = globalThis;
globalThis.setInterval = (...of) => setInterval(...of).unref();
globalThis.setTimeout = (run, wait, ...of) => {
  const timer = setTimeout(run, wait, ...of);
  return wait >= LONG ? timer.unref() : timer;
};
