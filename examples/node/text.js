// A text in pieces, each with its count of characters, so that a place in UTF-16 units, as JavaScript counts, and one in characters, as
// `rls` counts, are found without going through the whole text.

const MOST = 4096; // units of a piece, before it is cut

export const isHigh = (unit) => unit >= 0xd800 && unit < 0xdc00;
export const isLow = (unit) => unit >= 0xdc00 && unit < 0xe000;

const charactersOf = (string) => {
  let count = string.length;
  for (let k = 1; k < string.length; k += 1) if (isLow(string.charCodeAt(k)) && isHigh(string.charCodeAt(k - 1))) count -= 1;
  return count;
};

const pieceOf = (string) => ({ string, characters: charactersOf(string) });

/** The pieces of a string, none of which ends within a pair of surrogates. */
function piecesOf(string) {
  const pieces = [];
  for (let from = 0; from < string.length; ) {
    let to = Math.min(from + MOST / 2, string.length);
    if (to < string.length && isHigh(string.charCodeAt(to - 1))) to += 1;
    pieces.push(pieceOf(string.slice(from, to)));
    from = to;
  }
  return pieces;
}

/** Where a unit is within a piece, in characters; or where a character is, in units. */
const inCharacters = (string, unit) => charactersOf(string.slice(0, unit));

function inUnits(string, character) {
  if (charactersOf(string) === string.length) return character;
  let unit = 0;
  for (let left = character; left > 0; left -= 1) unit += string.codePointAt(unit) > 0xffff ? 2 : 1;
  return unit;
}

export class Text {
  #pieces;

  constructor(string = '') {
    this.#pieces = piecesOf(string);
  }

  /** How many UTF-16 units it has. */
  get length() {
    return this.#pieces.reduce((sum, piece) => sum + piece.string.length, 0);
  }

  /** How many characters it has. */
  get characters() {
    return this.#pieces.reduce((sum, piece) => sum + piece.characters, 0);
  }

  toString() {
    return this.#pieces.map((piece) => piece.string).join('');
  }

  /** The piece with a place, and how far into it; `sizeOf` says what is counted. */
  #find(place, sizeOf) {
    let left = place;
    let before = { units: 0, characters: 0 };
    for (let k = 0; k < this.#pieces.length; k += 1) {
      const piece = this.#pieces[k];
      if (left <= sizeOf(piece)) return { k, left, before };
      left -= sizeOf(piece);
      before = { units: before.units + piece.string.length, characters: before.characters + piece.characters };
    }
    if (left > 0 || place < 0) throw new RangeError(`there is no place ${place} in the text`);
    return { k: this.#pieces.length, left: 0, before };
  }

  /** The characters before a place in units. A RangeError if there is none, or if it is within a pair of surrogates. */
  toCharacters(unit) {
    if (!Number.isInteger(unit) || unit < 0) throw new RangeError(`${unit} is no place`);
    const { k, left, before } = this.#find(unit, (piece) => piece.string.length);
    const string = this.#pieces[k]?.string ?? '';
    if (left > 0 && left < string.length && isLow(string.charCodeAt(left)) && isHigh(string.charCodeAt(left - 1))) {
      throw new RangeError(`place ${unit} is within a character`);
    }
    return before.characters + inCharacters(string, left);
  }

  /** The units before a place in characters. */
  toUnits(character) {
    const { k, left, before } = this.#find(character, (piece) => piece.characters);
    return before.units + inUnits(this.#pieces[k]?.string ?? '', left);
  }

  /** Takes so many units away from a place on, and puts a string there. */
  splice(unit, count, string) {
    const start = this.#find(unit, (piece) => piece.string.length);
    const end = this.#find(unit + count, (piece) => piece.string.length);
    const front = this.#pieces[start.k]?.string.slice(0, start.left) ?? '';
    const back = this.#pieces[end.k]?.string.slice(end.left) ?? '';
    const now = front + string + back;
    const pieces = now.length <= MOST ? (now ? [pieceOf(now)] : []) : piecesOf(now);
    if (pieces.length < 100) this.#pieces.splice(start.k, end.k - start.k + 1, ...pieces);
    else this.#pieces = this.#pieces.slice(0, start.k).concat(pieces, this.#pieces.slice(end.k + 1));
  }

  /** Makes a change whose places count characters, and answers it in units: `{ at, count, text }`. */
  apply(change) {
    const at = this.toUnits(change.at);
    const count = change.count ? this.toUnits(change.at + change.count) - at : 0;
    const text = change.text ?? '';
    this.splice(at, count, text);
    return { at, count, text };
  }
}

/** What changes, one after another, make of a string. */
export function applied(string, changes) {
  const text = new Text(string);
  for (const change of changes) text.apply(change);
  return text.toString();
}
