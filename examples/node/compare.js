// Where two texts differ, so that what others write in between keeps its place: examples/COMPARE.md.
import { isHigh, isLow } from './text.js';

const STEPS = 128; // members that go or come, after which it looks back and goes on from where it is
const WORK = [300_000, 1_500_000]; // steps of the search, after which STEPS is 16, and then 4
const DEPTH = 12; // anchors within anchors
const BACK = 1000; // units back for which a better place is looked for
const LINES = /[^\n]*\n|[^\n]+/g;
const SPACE = '\\t-\\r ';
const LETTER = '0-9A-Za-z_\\u00aa\\u00b5\\u00ba\\u00c0-\\u00d6\\u00d8-\\u00f6\\u00f8-\\u0dff\\u10a0-\\u1fff';
const MARK =
  '\\u0300-\\u036f\\u1ab0-\\u1aff\\u1dc0-\\u1dff\\u200c\\u200d\\u20d0-\\u20ff\\ufe00-\\ufe0f\\ufe20-\\ufe2f\\u{1f3fb}-\\u{1f3ff}';
const TOKENS = new RegExp(`[${LETTER}][${LETTER}${MARK}]*|[^${SPACE}](?:[${MARK}]|(?<=\\u200d)[^${SPACE}])*`, 'gu');
const JOINED = new RegExp(`[${MARK}]`, 'u');
const WORDS_AND_SPACES = new RegExp(`[${SPACE}]+|[^${SPACE}]+`, 'g');
const isSpace = (unit) => unit === 32 || (unit >= 9 && unit <= 13);
const linesOf = (text) => text.match(LINES) ?? [];
const sizeOf = (parts, from, to) => {
  let size = 0;
  for (let k = from; k < to; k += 1) size += parts[k].length;
  return size;
};
const stripped = (text) => {
  let [from, to] = [0, text.length];
  while (from < to && isSpace(text.charCodeAt(from))) from += 1;
  while (to > from && isSpace(text.charCodeAt(to - 1))) to -= 1;
  return { from, text: text.slice(from, to) };
};
const frontOf = (old, now) => {
  const least = Math.min(old.length, now.length);
  let front = 0;
  while (front < least && old.charCodeAt(front) === now.charCodeAt(front)) front += 1;
  return front;
};

const endOf = (old, now, most) => {
  let end = 0;
  while (end < most && old.charCodeAt(old.length - 1 - end) === now.charCodeAt(now.length - 1 - end)) end += 1;
  return end;
};
const hasSpace = (text, from, to) => {
  for (let k = from; k < to; k += 1) if (isSpace(text.charCodeAt(k))) return true;
  return false;
};

/** The longest part of these pairs, which rise on the left, that rises on the right too. */
function rising(pairs) {
  const [tops, at, before] = [[], [], []];
  pairs.forEach(([, j], k) => {
    let [low, high] = [0, tops.length];
    while (low < high) {
      const middle = (low + high) >> 1;
      if (tops[middle] < j) low = middle + 1;
      else high = middle;
    }
    before.push(low > 0 ? at[low - 1] : -1);
    tops[low] = j;
    at[low] = k;
  });
  const found = [];
  for (let k = at.at(-1) ?? -1; k >= 0; k = before[k]) found.push(pairs[k]);
  return found.reverse();
}

/** Four members in a row of each list as one number, from each place on where there are four; equal rows have equal numbers. */
function rowsOfFour(lists) {
  const most = 1 + Math.max(0, ...lists.map((list) => list.reduce((x, y) => Math.max(x, y), 0)));
  const paired = (numbers, gap, least) => {
    const found = new Map();
    return numbers.map((list) =>
      list.slice(0, Math.max(0, list.length - gap)).map((x, k) => {
        const key = x * least + list[k + gap];
        if (!found.has(key)) found.set(key, found.size);
        return found.get(key);
      }),
    );
  };
  const twos = paired(lists, 1, most);
  return paired(twos, 2, 1 + twos[0].length + twos[1].length);
}

/** Where members of two lists are equal that are once in each, between these places. Members are numbers below `size`. */
class Anchors {
  #lists;
  #places;

  constructor(lists) {
    const size = lists.reduce((most, list) => list.reduce((x, y) => Math.max(x, y + 1), most), 0);
    this.#lists = lists;
    this.#places = lists.map(() => new Int32Array(size)); // 0 if it isn't there, -1 if it is there twice, else its place and 1
  }

  between(i, m, j, n) {
    const [[a, b], [mine, other]] = [this.#lists, this.#places];
    for (let k = i; k < m; k += 1) mine[a[k]] = mine[a[k]] === 0 ? k + 1 : -1;
    for (let k = j; k < n; k += 1) other[b[k]] = other[b[k]] === 0 ? k + 1 : -1;
    const pairs = [];
    for (let k = i; k < m; k += 1) if (mine[a[k]] > 0 && other[a[k]] > 0) pairs.push([k, other[a[k]] - 1]);
    for (let k = i; k < m; k += 1) mine[a[k]] = 0;
    for (let k = j; k < n; k += 1) other[b[k]] = 0;
    return rising(pairs);
  }
}

/** Where members, or for words four in a row, are equal that are once in each. */
function anchorsOf(a, b, byAnchors) {
  const ones = new Anchors([a, b]);
  let fours = null;
  return (i, m, j, n) => {
    if (byAnchors) return ones.between(i, m, j, n);
    fours ??= new Anchors(rowsOfFour([a, b]));
    const found = fours.between(i, Math.max(i, m - 3), j, Math.max(j, n - 3));
    return found.length > 0 ? found : ones.between(i, m, j, n);
  };
}

/** The least members that go and come, by Myers' greedy search; if it takes more than so many steps, the way that got furthest. */
function search(a, b, i, m, j, n, steps, work) {
  const [wide, high, off] = [m - i, n - j, steps + 1];
  const far = new Int32Array(2 * steps + 3);
  const trace = [];
  const comesAt = (was, base, k, d) => k === -d || (k !== d && was[base + k - 1] < was[base + k + 1]);
  let [x, y, d, isDone] = [0, 0, 0, false];
  for (; ; d += 1) {
    trace.push(far.slice(off - d - 1, off + d + 2));
    for (let k = -d; k <= d && !isDone; k += 2) {
      x = comesAt(far, off, k, d) ? far[off + k + 1] : far[off + k - 1] + 1;
      y = x - k;
      while (x < wide && y < high && a[i + x] === b[j + y]) {
        x += 1;
        y += 1;
      }
      far[off + k] = x;
      isDone = x >= wide && y >= high;
    }
    work.spent += d + 1;
    if (isDone || d === steps) break;
  }
  if (!isDone) {
    let best = -1;
    for (let k = -steps; k <= steps; k += 2) {
      const to = far[off + k];
      if (to <= wide && to - k <= high && 2 * to - k > best) [best, x, y] = [2 * to - k, to, to - k];
    }
  }
  const runs = [];
  for (; d > 0; d -= 1) {
    const [was, k] = [trace[d], x - y]; // was[d + 1 + k] is diagonal k
    const comes = comesAt(was, d + 1, k, d);
    const p = was[d + 1 + (comes ? k + 1 : k - 1)];
    const start = comes ? p : p + 1;
    if (x > start) runs.push([i + start, j + start - k, x - start]);
    [x, y] = [p, p - (comes ? k + 1 : k - 1)];
  }
  if (x > 0) runs.push([i, j, x]);
  return { isDone, runs: runs.reverse() };
}

/** Which members stay, as runs (place, place, count). */
function runsOf(a, b, byAnchors, work) {
  const found = [];
  const anchorsBetween = anchorsOf(a, b, byAnchors);
  const todo = [[0, a.length, 0, b.length, 0]];
  while (todo.length > 0) {
    let [i, m, j, n, depth] = todo.pop();
    if (depth < 0) {
      found.push([i, j, m - i]);
      continue;
    }
    let k = i;
    for (; i < m && j < n && a[i] === b[j]; j += 1) i += 1;
    if (i > k) found.push([k, j - i + k, i - k]);
    k = m;
    for (; m > i && n > j && a[m - 1] === b[n - 1]; n -= 1) m -= 1;
    if (k > m) todo.push([m, k, n, n + k - m, -1]);
    if (i === m || j === n) continue;
    if (!byAnchors) {
      const { isDone, runs } = search(a, b, i, m, j, n, 16, work);
      if (isDone) {
        for (const run of runs) found.push(run);
        continue;
      }
    }
    const anchors = depth < DEPTH ? anchorsBetween(i, m, j, n) : [];
    if (anchors.length > 0) {
      let end = [m, n];
      for (const anchor of anchors.reverse()) {
        todo.push([anchor[0], end[0], anchor[1], end[1], depth + 1]);
        end = anchor;
      }
      todo.push([i, end[0], j, end[1], depth + 1]);
      continue;
    }
    for (const run of longSearch(a, b, i, m, j, n, work)) found.push(run);
  }
  return found;
}

/** What stays of two parts without anchors. What the other part doesn't have is left out first. */
function longSearch(a, b, i, m, j, n, work) {
  const [mine, others] = [new Set(a.slice(i, m)), new Set(b.slice(j, n))];
  const [x, y] = [[], []];
  for (let k = i; k < m; k += 1) if (others.has(a[k])) x.push(k);
  for (let k = j; k < n; k += 1) if (mine.has(b[k])) y.push(k);
  const runs = [];
  const found = onward(x.map((k) => a[k]), y.map((k) => b[k]), work);
  if (x.length === m - i && y.length === n - j) return found.map(([p, q, count]) => [i + p, j + q, count]);
  for (const [p, q, count] of found) for (let k = 0; k < count; k += 1) runs.push([x[p + k], y[q + k], 1]);
  return runs;
}

/** What stays of two lists, by searches that go on where the last one ended. */
function onward(a, b, work) {
  const found = [];
  const [m, n] = [a.length, b.length];
  for (let i = 0, j = 0; i < m && j < n; ) {
    const result = search(a, b, i, m, j, n, work.spent < WORK[0] ? STEPS : work.spent < WORK[1] ? 16 : 4, work);
    let { runs } = result;
    if (result.isDone) {
      for (const run of runs) found.push(run);
      break;
    }
    work.isCut = true;
    const reach = ([x, y, count]) => x + y + 2 * count - i - j;
    let keep = runs.length;
    while (keep > 0 && runs[keep - 1][2] < 3) keep -= 1; // what it ends with may be chance
    if (keep > 0 && 2 * reach(runs[keep - 1]) > reach(runs.at(-1))) runs = runs.slice(0, keep);
    for (const run of runs) found.push(run);
    [i, j] = runs.length > 0 ? [runs.at(-1)[0] + runs.at(-1)[2], runs.at(-1)[1] + runs.at(-1)[2]] : [i + 1, j + 1];
  }
  return found;
}

/** Which members of two lists stay, as pairs of places that rise. What the other list doesn't have is left out first. */
function align(old, now, byAnchors, work) {
  const numbers = new Map(now.map((x, k) => [x, k]));
  const olds = new Set(old);
  if (!now.some((x) => olds.has(x))) return [];
  const placesOf = (list, isThere) => list.map((_, k) => k).filter((k) => isThere(list[k]));
  const places = [placesOf(old, (x) => numbers.has(x)), placesOf(now, (x) => olds.has(x))];
  const [a, b] = [places[0].map((k) => numbers.get(old[k])), places[1].map((k) => numbers.get(now[k]))];
  const pairs = [];
  for (const [i, j, count] of runsOf(a, b, byAnchors, work)) {
    for (let k = 0; k < count; k += 1) pairs.push([places[0][i + k], places[1][j + k]]);
  }
  return pairs;
}

/** Whether three of four lines (of 32 that it looks at) begin and end as the other one does, for half of the shorter. */
function isLineByLine(old, now) {
  const looks = Math.min(old.length, 32);
  let alike = 0;
  for (let k = 0; k < looks; k += 1) {
    const at = Math.floor((k * old.length) / looks);
    const [x, y] = [stripped(old[at]).text, stripped(now[at]).text];
    const least = Math.min(x.length, y.length);
    const front = frontOf(x, y);
    if (2 * (front + endOf(x, y, least - front)) >= least) alike += 1;
  }
  return 4 * alike >= 3 * looks;
}

const isJoined = (text, at) => {
  if (at <= 0 || at >= text.length) return false;
  if (text[at - 1] === '\u200d' || (isLow(text.charCodeAt(at)) && isHigh(text.charCodeAt(at - 1)))) return true;
  return text.charCodeAt(at) >= 0x300 && JOINED.test(String.fromCodePoint(text.codePointAt(at)));
};

const hasWord = (text, from, to) => {
  let at = from;
  while (at < to && isSpace(text.charCodeAt(at))) at += 1;
  return at < to;
};

/** Whether a line feed goes that stands after the last word that goes, and none comes. */
const losesLine = (old, a, m, now, b, n) => {
  let at = m;
  while (at > a && isSpace(old.charCodeAt(at - 1))) at -= 1;
  return old.slice(at, m).includes('\n') && !now.slice(b, n).includes('\n');
};

const withoutSpaces = (text) => text.replace(/[\t-\r ]+/g, '');

const sizesBefore = (parts) => {
  let size = 0;
  return parts.map((part) => {
    size += part.length;
    return size - part.length;
  });
};

class Comparison {
  #at = 0; // what is before is done, in the old and in the new text
  #to = 0;
  #low = 0; // the old text stays from here to #at, and after a piece to #high
  #high = 0;
  found = [];
  work = { spent: 0, isCut: false };

  constructor(old, now) {
    this.old = old;
    this.now = now;
  }

  /** What goes and what comes. White space that is left between two words keeps its last character, or gets a new one behind all of it. */
  #put(a, m, b, n) {
    const { old, now } = this;
    const isBlank = !hasWord(old, a, m);
    if (a === 0 || a === m || m === old.length || b === n || hasWord(now, b, n)) this.#replace(a, m, b, n);
    else if (losesLine(old, a, m, now, b, n) || (isBlank && old[m - 1] !== now[n - 1])) {
      let front = 0;
      if (isBlank) while (a + front < m && b + front < n - 1 && old[a + front] === now[b + front]) front += 1;
      this.found.push({ at: a + front, count: m - a - front, text: now.slice(b + front, n) });
    } else if (isBlank) this.#replace(a, m - 1, b, n - 1);
    else this.#replace(a, m, b, n);
  }

  /** What goes and what comes, less what is equal at the front and at the end. */
  #replace(a, m, b, n) {
    const { old, now } = this;
    let [p, q, s, t] = [a, b, m, n];
    while (p < m && q < n && old.charCodeAt(p) === now.charCodeAt(q)) [p, q] = [p + 1, q + 1];
    if (p < m || q < n) while (p > a && (isJoined(old, p) || isJoined(now, q))) [p, q] = [p - 1, q - 1];
    while (s > p && t > q && old.charCodeAt(s - 1) === now.charCodeAt(t - 1)) [s, t] = [s - 1, t - 1];
    while (s < m && (isJoined(old, s) || isJoined(now, t))) [s, t] = [s + 1, t + 1];
    if (s > p || t > q) this.#place(p, s, q, t);
  }

  /** What goes and what comes. Where one of them is nothing, it may have several places, and one that isn't within a word is taken. */
  #place(p, s, q, t) {
    const { old, now } = this;
    let back = 0;
    if (p === s || q === t) {
      const last = this.found.at(-1);
      const least = last ? last.at + last.count : 0;
      const [side, end] = p === s ? [now, t] : [old, s];
      let isWithin = this.#isWithinWord(p, s, q, t);
      for (let k = 1; isWithin && k <= BACK && p - k >= least && old.charCodeAt(p - k) === side.charCodeAt(end - k); k += 1) {
        isWithin = this.#isWithinWord(p - k, s - k, q - k, t - k);
        if (!isWithin) back = k;
      }
    }
    this.found.push({ at: p - back, count: s - p, text: now.slice(q - back, t - back) });
  }

  /** Whether a place is within a word, or between a character and what belongs to it. */
  #isWithinWord(p, s, q, t) {
    const { old, now } = this;
    if (isJoined(old, p) || isJoined(old, s) || isJoined(now, q) || isJoined(now, t)) return true;
    return p > 0 && s < old.length && !isSpace(old.charCodeAt(p - 1)) && !isSpace(old.charCodeAt(s));
  }

  /** Parts of both lists, one with one. */
  #inProportion(a, old, b, now, parts, put) {
    let [i, j] = [0, 0];
    for (let k = 1; k <= parts; k += 1) {
      const [p, q] = [Math.floor((k * old.length) / parts), Math.floor((k * now.length) / parts)];
      const [m, n] = [a + sizeOf(old, i, p), b + sizeOf(now, j, q)];
      put(a, m, b, n);
      [i, j, a, b] = [p, q, m, n];
    }
  }

  /** What has nothing in common: line with line, and word with word where there are as many; otherwise in proportion. */
  #pair(a, m, b, n) {
    if (!hasSpace(this.old, a, m) && !hasSpace(this.now, b, n)) {
      this.#put(a, m, b, n);
      return;
    }
    const [gone, come] = [this.old.slice(a, m), this.now.slice(b, n)];
    if (!stripped(gone).text || !stripped(come).text) {
      this.#put(...this.#withSpacesBeside(a, m, b, n));
      return;
    }
    const [old, now] = [linesOf(gone), linesOf(come)];
    this.#inProportion(a, old, b, now, Math.min(old.length, now.length), (...ends) => this.#pairWords(...ends));
  }

  #pairWords(a, m, b, n) {
    const old = this.old.slice(a, m).match(WORDS_AND_SPACES);
    const now = this.now.slice(b, n).match(WORDS_AND_SPACES);
    const parts = old.length === now.length ? old.length : Math.max(1, Math.floor(Math.min(old.length, now.length) / 16));
    this.#inProportion(a, old, b, now, parts, (...ends) => this.#put(...ends));
  }

  /** If only white space goes, or a line feed, and no word comes: the white space beside it that stays belongs to it. */
  #withSpacesBeside(a, m, b, n) {
    const { old, now } = this;
    const isBlank = !hasWord(old, a, m);
    if (a === m || hasWord(now, b, n) || !(isBlank || old.slice(a, m).includes('\n'))) return [a, m, b, n];
    let [p, s] = [a, m];
    while (p > this.#low && isSpace(old.charCodeAt(p - 1))) p -= 1;
    while (s < this.#high && isSpace(old.charCodeAt(s))) s += 1;
    const [q, t] = [b - a + p, n - m + s];
    return isBlank || losesLine(old, p, s, now, q, t) ? [p, s, q, t] : [a, m, b, n];
  }

  /** So many units stay; what is before them is done now. White space between white space that differs is a part of that. */
  #stays(a, b, count) {
    const isSame = a - this.#at === b - this.#to && this.old.slice(this.#at, a) === this.now.slice(this.#to, b);
    if (!isSame) {
      if (count > 0 && !hasWord(this.old, this.#at, a + count) && !hasWord(this.now, this.#to, b)) return;
      this.#high = a + count;
      this.#pair(this.#at, a, this.#to, b);
      this.#low = a;
    }
    [this.#at, this.#to] = [a + count, b + count];
  }

  #sameButSpaces(a, old, b, now) {
    if (old === now) {
      this.#stays(a, b, old.length);
      return;
    }
    const [x, y] = [stripped(old), stripped(now)];
    if (x.text && x.text === y.text) {
      this.#stays(a + x.from, b + y.from, x.text.length);
      return;
    }
    for (let p = 0, q = 0; ; ) {
      while (p < old.length && isSpace(old.charCodeAt(p))) p += 1;
      while (q < now.length && isSpace(now.charCodeAt(q))) q += 1;
      let size = 0;
      while (p + size < old.length && q + size < now.length && !isSpace(old.charCodeAt(p + size)) && !isSpace(now.charCodeAt(q + size))) size += 1;
      if (size === 0) return;
      this.#stays(a + p, b + q, size);
      [p, q] = [p + size, q + size];
    }
  }

  /** Lines that aren't the same: by words, whatever is between them. The equal front and the equal end stay, back or on to a space. */
  #words(a, gone, b, come) {
    let front = frontOf(gone, come);
    while (front > 0 && !isSpace(gone.charCodeAt(front - 1))) front -= 1;
    let end = endOf(gone, come, Math.min(gone.length, come.length) - front);
    while (end > 0 && !isSpace(gone.charCodeAt(gone.length - end))) end -= 1;
    this.#stays(a, b, front);
    this.#byWords(a + front, gone.slice(front, gone.length - end), b + front, come.slice(front, come.length - end));
    this.#stays(a + gone.length - end, b + come.length - end, end);
  }

  #byWords(a, gone, b, come) {
    const sides = [gone, come].map((text) => [...text.matchAll(TOKENS)]);
    const texts = sides.map((side) => side.map(([text]) => text));
    if (texts.some((side) => side.length === 0) || texts.every((side) => side.length === 1)) return;
    const pairs = align(...texts, false, this.work);
    let same = 0;
    for (const [i] of pairs) same += texts[0][i].length;
    if (5 * same < Math.min(...texts.map((side) => sizeOf(side, 0, side.length)))) return;
    for (const [i, j] of pairs) this.#stays(a + sides[0][i].index, b + sides[1][j].index, texts[0][i].length);
  }

  #changedLines(a, old, b, now) {
    const [gone, come] = [old.join(''), now.join('')];
    if (withoutSpaces(gone) === withoutSpaces(come)) {
      this.#sameButSpaces(a, gone, b, come);
      return;
    }
    const [olds, nows] = old.length === now.length && isLineByLine(old, now) ? [old, now] : [[gone], [come]];
    olds.forEach((line, k) => {
      this.#words(a, line, b, nows[k]);
      a += line.length;
      b += nows[k].length;
    });
  }

  compare() {
    const [old, now] = [linesOf(this.old), linesOf(this.now)];
    const keysOf = (text, count) => text.replace(/[\t\v\f\r ]+/g, '').split('\n').slice(0, count);
    const [olds, nows] = [keysOf(this.old, old.length), keysOf(this.now, now.length)];
    let pairs = align(olds, nows, true, this.work);
    if (olds.join('') === nows.join('')) {
      // White space alone differs, so lines stay only where as much is before them.
      const [x, y] = [olds, nows].map(sizesBefore);
      pairs = pairs.filter(([p, q]) => x[p] === y[q]);
    }
    let [a, b, i, j] = [0, 0, 0, 0];
    for (const [x, y] of [...pairs, [old.length, now.length]]) {
      if (x > i && y > j) this.#changedLines(a, old.slice(i, x), b, now.slice(j, y));
      if (x === old.length) break;
      const [p, q] = [a + sizeOf(old, i, x), b + sizeOf(now, j, y)];
      this.#sameButSpaces(p, old[x], q, now[y]);
      [a, b, i, j] = [p + old[x].length, q + now[y].length, x + 1, y + 1];
    }
    this.#stays(this.old.length, this.now.length, 0);
    return this;
  }
}

/**
 * The replacements `{ at, count, text }` that make one string of another, from the first to the last, in units of the old one; and whether
 * some parts were compared by cheaper means.
 */
export function compared(old, now) {
  const { found, work } = new Comparison(old, now).compare();
  return { found, isCut: work.isCut };
}
