// Changes of a text: at `at`, `count` characters go, and behind them `text` comes. Places and counts are Unicode scalar values where the session
// tells them, and UTF-16 units, as JavaScript counts, where an editor does.
import { compared } from './compare.js';

const sizeOf = (text) => {
  let count = 0;
  for (const _ of text) count += 1;
  return count;
};

/** How long a text is, and where so many of its characters end that begin at a unit. */
export const CHARACTERS = {
  size: sizeOf,
  end(text, from, count) {
    let at = from;
    for (let k = 0; k < count; k += 1) at += text.codePointAt(at) > 0xffff ? 2 : 1;
    return at;
  },
};
export const UNITS = { size: (text) => text.length, end: (_, from, count) => from + count };

/** The changes that make one string of another, in characters, from the last to the first, so that no place moves (examples/COMPARE.md). */
export const changesOf = (old, now) => changesTold(old, now).changes;

/** The same as `changes`, and in `isCut` whether some part was compared by cheaper means: then what others wrote in it may stand beside its place. */
export function changesTold(old, now) {
  const found = [];
  let [unit, before] = [0, 0];
  const { found: replacements, isCut } = compared(old, now);
  for (const { at, count, text } of replacements) {
    before += sizeOf(old.slice(unit, at));
    const gone = sizeOf(old.slice(at, at + count));
    found.push({ at: before, count: gone, text });
    before += gone;
    unit = at + count;
  }
  return { changes: found.reverse(), isCut };
}

// --- What a list of changes does to a text, as parts of it from its beginning on: so many characters stay, or go, or a text comes. What
// follows the last part stays. Two such lists are put together, or crossed, in one pass over both.

const STAYS = 0;
const GOES = 1;
const COMES = 2;

class Parts {
  list = [];

  push(kind, count, text = '') {
    const last = this.list.at(-1);
    if (count === 0) return;
    if (last?.kind !== kind) this.list.push({ kind, count, text });
    else [last.count, last.text] = [last.count + count, last.text + text];
  }
}

/** Goes through the parts of a list, also by a part of one. */
class Walk {
  #parts;
  #k = 0;
  #used = 0; // of the part that is next
  #unit = 0; // the same, in its text

  constructor(parts) {
    this.#parts = parts.list;
  }

  get isOver() {
    return this.#k >= this.#parts.length;
  }

  get kind() {
    return this.#parts[this.#k]?.kind ?? STAYS;
  }

  get left() {
    return this.isOver ? Infinity : this.#parts[this.#k].count - this.#used;
  }

  /** The text of so many characters of the part that is next; it goes on behind them. */
  take(count, measure) {
    if (this.isOver) return '';
    const { text } = this.#parts[this.#k];
    const [from, isAll] = [this.#unit, count === this.left];
    this.#unit = isAll || !text ? text.length : measure.end(text, from, count);
    const taken = text.slice(from, this.#unit);
    if (isAll) [this.#k, this.#used, this.#unit] = [this.#k + 1, 0, 0];
    else this.#used += count;
    return taken;
  }
}

/** What the first list does and then the second one, whose places are those of the text after the first. */
function composition(first, second, measure) {
  const [found, a, b] = [new Parts(), new Walk(first), new Walk(second)];
  while (!a.isOver || !b.isOver) {
    if (a.kind === GOES) {
      const count = a.left;
      found.push(GOES, count, a.take(count, measure));
    } else if (b.kind === COMES) {
      const count = b.left;
      found.push(COMES, count, b.take(count, measure));
    } else {
      const [count, was, then] = [Math.min(a.left, b.left), a.kind, b.kind];
      const text = a.take(count, measure);
      b.take(count, measure);
      if (then === STAYS) found.push(was, count, text);
      else if (was === STAYS) found.push(GOES, count);
    }
  }
  return found;
}

function partsOf(changes, measure, from = 0, to = changes.length) {
  if (to - from > 1) {
    const middle = (from + to) >> 1;
    return composition(partsOf(changes, measure, from, middle), partsOf(changes, measure, middle, to), measure);
  }
  const found = new Parts();
  if (to > from) {
    const { at, count = 0, text = '' } = changes[from];
    found.push(STAYS, at);
    found.push(GOES, count);
    found.push(COMES, measure.size(text), text);
  }
  return found;
}

/** The changes that do what these parts say, from the last to the first. */
function changesIn({ list }) {
  const found = [];
  let at = 0;
  let isOpen = false;
  for (const { kind, count, text } of list) {
    if (kind !== STAYS && !isOpen) found.push({ at, count: 0, text: '' });
    if (kind === GOES) found.at(-1).count += count;
    if (kind === COMES) found.at(-1).text += text;
    if (kind !== COMES) at += count;
    isOpen = kind !== STAYS;
  }
  return found.reverse();
}

/**
 * Two lists of changes that were made to one text at once: each as it is after the other one, so that the first and then the second's answer
 * give the text that the second and then the first's answer give. Where both put something at one place, the first's comes first. The time is
 * that of both lists together, and what they put in, with the logarithm of how many they are.
 */
export function crossed(first, second, measure = UNITS) {
  const [mine, theirs] = [new Parts(), new Parts()];
  const [a, b] = [first, second].map((changes) => new Walk(partsOf(changes, measure)));
  while (!a.isOver || !b.isOver) {
    if (a.kind === COMES || b.kind === COMES) {
      const [from, to, other] = a.kind === COMES ? [a, mine, theirs] : [b, theirs, mine];
      const count = from.left;
      to.push(COMES, count, from.take(count, measure));
      other.push(STAYS, count);
    } else {
      const [count, x, y] = [Math.min(a.left, b.left), a.kind, b.kind];
      a.take(count, measure);
      b.take(count, measure);
      if (y === STAYS) mine.push(x, count);
      if (x === STAYS) theirs.push(y, count);
    }
  }
  return [changesIn(mine), changesIn(theirs)];
}

/** Where a place is after some changes, one after another; what comes in exactly there comes behind it, or in front of it. */
export function placeAfter(place, changes, { behind = false, measure = UNITS } = {}) {
  let now = place;
  for (const { at, count = 0, text = '' } of changes) {
    const end = at + count;
    if (now > end || (now === end && behind)) now += measure.size(text) - count;
    else if (now > at) now = at;
  }
  return now;
}
