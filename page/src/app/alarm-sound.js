// @ts-check
// A sound for who is in need, which the reader switches on.

/** @type {AudioContext | null} */
let context = null;
/** Browsers play nothing before somebody clicks in a page or presses a key. */
export const isMute = () => navigator.userActivation?.hasBeenActive === false;
/** Three short tones. */
export function ring() {
  context ||= new AudioContext();
  // one that was made before the first click
  if (context.state === "suspended") context.resume();
  const begin = context.currentTime;
  for (const k of [0, 1, 2]) {
    const tone = context.createOscillator(), volume = context.createGain();
    tone.frequency.value = 880;
    volume.gain.value = 0.2;
    tone.connect(volume).connect(context.destination);
    tone.start(begin + 0.3 * k);
    tone.stop(begin + 0.3 * k + 0.2);
  }
}
/** Rings for what wasn't there before: who is in need, and since which of their transmissions. */
export class Alarm {
  constructor(play = ring) {
    this.play = play;
    this.isOn = false;
    /** @type {Set<string>} */
    this.known = new Set();
  }
  /**
   * Gives what is new; what is away for a while and there again isn't.
   * @template {{ id: string }} Need
   * @param {Need[]} needs
   */
  hear(needs) {
    const fresh = needs.filter(({ id }) => !this.known.has(id));
    for (const { id } of fresh) this.known.add(id);
    if (fresh.length && this.isOn) this.play();
    return fresh;
  }
  /**
   * Switches it on or off; on, it is heard once, so that one knows it works.
   * @param {boolean} on
   */
  turn(on, isHeard = true) {
    this.isOn = on;
    if (on && isHeard) this.play();
  }
}
