// Functions for the times and texts of lines. They do not use the page.

export const STEP = 0.05;

/** A time in the format of LRC, as 01:02.50. */
export function formatTime(seconds) {
  const hundredths = Math.max(0, Math.round(seconds * 100));
  const pad = (number) => String(number).padStart(2, "0");
  return `${pad(Math.floor(hundredths / 6000))}:${pad(Math.floor(hundredths / 100) % 60)}.${pad(hundredths % 100)}`;
}

/** The seconds of a text like 1:02.5 or 62.5, or null if it is not a time. */
export function parseTime(text) {
  const found = /^\s*(?:(\d{1,3}):)?(\d{1,4})(?:[.,](\d{1,3}))?\s*$/.exec(text);
  return found ? 60 * Number(found[1] ?? 0) + Number(found[2]) + Number(`0.${found[3] ?? 0}`) : null;
}

/** The words of a line as one text, with | between two syllables of a word. */
export function joinSyllables(words) {
  return words.map((word, at) => {
    const joins = at + 1 < words.length && !/\s$/.test(word.text) && !/^\s/.test(words[at + 1].text);
    return joins ? `${word.text}|` : word.text;
  }).join("").trim();
}

/** The syllables of such a text. Blanks belong to the syllable in front of them. */
export function splitSyllables(text) {
  return text.trim().split("|").flatMap((part) => part.match(/\s*\S+\s*/g) ?? []);
}

/** The number of taps for a line. A line with one time for all its words is tapped word by word too. */
export function tapCount(line) {
  return line.whole ? Math.max(1, splitSyllables(line.words.map((word) => word.text).join("")).length) : line.words.length;
}

/** The target of the tap after a word or a line: the number of its line, and the place of its word. After the last target, the line
 * number equals the number of lines. */
export function nextTarget(lines, line, word, unit) {
  if (unit === "word" && word + 1 < tapCount(lines[line])) return { line, word: word + 1 };
  return { line: line + 1, word: 0 };
}

/** The first word without a time, or the first word of the song if all have times. */
export function firstTarget(lines) {
  for (let line = 0; line < lines.length; line++) {
    const word = lines[line].words.findIndex((one) => one.start === null);
    if (word >= 0) return { line, word };
  }
  return { line: 0, word: 0 };
}

/** The number of the line that began last before a time, or -1. */
export function lineAt(lines, now) {
  let last = -1, latest = -1;
  lines.forEach((line, number) => {
    const start = line.words[0].start;
    if (start !== null && start <= now && start >= latest) [last, latest] = [number, start];
  });
  return last;
}

/** The start and the end of the singing of a line, or null if the line has no times. */
export function span(line) {
  const timed = line.words.filter((word) => word.start !== null);
  return timed.length ? { start: timed[0].start, end: timed[timed.length - 1].end } : null;
}

// The number of positions that the clock keeps, and the number that it needs for a median. A position that differs from the median
// by more than JUMP seconds is a jump of the sound.
const SAMPLES = 30, LEAST_SAMPLES = 5, JUMP = 0.06;

/** A clock that estimates the position of the sound. Browsers report the position in steps, and late if the machine is busy. The
 * clock therefore uses the median of many reports from the time since the last jump. */
export class SoundClock {
  #offsets = [];
  #rate = 1;

  /** Discards the positions from before a jump of the sound. */
  clear() {
    this.#offsets = [];
  }

  /** Adds a report: at `now` milliseconds, the sound is at `current` seconds and plays at speed `rate`. */
  add(now, current, rate) {
    if (rate !== this.#rate) this.clear();
    this.#rate = rate;
    this.#offsets.push(current - rate * now / 1000);
    if (this.#offsets.length > SAMPLES) this.#offsets.shift();
  }

  /** The position of the sound, in seconds, at a time in milliseconds. */
  at(stamp) {
    const count = this.#offsets.length, last = this.#offsets[count - 1];
    const middle = [...this.#offsets].sort((one, other) => one - other)[count >> 1];
    const offset = count < LEAST_SAMPLES || Math.abs(last - middle) > JUMP ? last : middle;
    return offset + this.#rate * stamp / 1000;
  }
}

/** The time that a tap sets, rounded to hundredths of a second as in LRC. */
export function tappedAt(clock, stamp, lateness) {
  return Math.max(0, Math.round(100 * clock.at(stamp - lateness)) / 100);
}

/** The message about a late line. */
export function lateText({ what, seconds }) {
  const number = seconds.toFixed(2);
  return {
    cut: "does not change its whole colour before the sound ends",
    lost: "is still sung when another line needs its place",
    drawn: `is drawn ${number} seconds after it begins`,
    lit: `has words whose colour changes up to ${number} seconds late`,
  }[what];
}

/** Whether the focused element uses a key itself. */
export function isOwnKey(event) {
  const target = event.target;
  if (!target || !target.closest) return false;
  if (target.closest("input[type=text], input[type=number], select, textarea")) return true;
  if (event.key === " " || event.key === "Enter") return target.closest("button, a, input, audio, summary") !== null;
  return event.key.startsWith("Arrow") && target.closest("input, audio") !== null;
}
