// Changes `{ at, count, text }` as requests of a session, whose places count characters.

const MOST_CHARACTERS = 1_048_576; // of one insertion
const MOST_DELETED = 4_194_304; // of one deletion

const escaped = (text) => text.replace(/[\\\n\r]/g, (x) => ({ '\\': '\\\\', '\n': '\\n', '\r': '\\r' })[x]);

const unescaped = (text) => text.replace(/\\(.)/g, (_, x) => ({ n: '\n', r: '\r' })[x] ?? x);

/** The request that makes a change. A program without the third version of the session knows no change that puts something in place of something. */
export function lineOf({ at, count, text }, version) {
  if (version >= 3) return `e ${at} ${count} ${escaped(text)}`;
  return text ? `i ${at} ${escaped(text)}` : `d ${at} ${count}`;
}

/** The change that a line `i AT TEXT` or `d AT COUNT` tells. */
export function changeOf(line) {
  const end = line.indexOf(' ', 2);
  const [at, rest] = [Number(line.slice(2, end)), line.slice(end + 1)];
  return line[0] === 'd' ? { at, count: Number(rest), text: '' } : { at, count: 0, text: unescaped(rest) };
}

/** A string that the text may have; otherwise it is a RangeError. */
export function validText(string) {
  if (/\p{Surrogate}/u.test(string)) throw new RangeError('a lone surrogate can not be in the text');
  return string;
}

/** A string as insertions that the program takes, each of which ends between two characters. */
function insertions(at, text) {
  const characters = text.length > MOST_CHARACTERS ? [...text] : null;
  if (!characters) return text ? [{ at, count: 0, text }] : [];
  const found = [];
  for (let k = 0; k < characters.length; k += MOST_CHARACTERS) {
    found.push({ at: at + k, count: 0, text: characters.slice(k, k + MOST_CHARACTERS).join('') });
  }
  return found;
}

function deletions(at, count) {
  const found = [];
  for (let left = count; left > 0; left -= MOST_DELETED) found.push({ at, count: Math.min(left, MOST_DELETED), text: '' });
  return found;
}

/**
 * The changes that are asked for one by one. A program with the third version takes a replacement as it is. An older one is told first what
 * comes, behind what goes, and then what goes: so the run of identifiers that ends there goes on (examples/COMPARE.md).
 */
export function editsOf({ at, count, text }, version) {
  if (count === 0 && !text) return [];
  if (version >= 3 && count <= MOST_DELETED && text.length <= MOST_CHARACTERS) return [{ at, count, text }];
  return [...insertions(at + count, text), ...deletions(at, count)];
}
