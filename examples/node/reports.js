// What a program says of a replica.

/** What `rls stat` prints: a word, and its numbers. */
export const statOf = (printed) =>
  Object.fromEntries(
    printed
      .toString()
      .trim()
      .split('\n')
      .map((line) => line.split(' '))
      .map(([word, ...numbers]) => [word, numbers.map((x) => (word === 'group' ? BigInt(x) : Number(x)))]),
  );

/** The head of a message: docs/FORMATS.md. A RangeError if there is none. */
export function headOf(message) {
  if (message.length < 21 || message.toString('latin1', 0, 4) !== 'RLSM') throw new RangeError('no message');
  const members = message.readUInt32BE(13);
  if (members > 64 || message.length < 21 + 4 * members) throw new RangeError('no message');
  const accepted = Array.from({ length: members }, (_, k) => message.readUInt32BE(21 + 4 * k));
  return { group: message.readBigUInt64BE(5), members, me: message.readUInt32BE(17), accepted };
}
