// What a user is told before a limit is met: once, in plain words, with the command that helps (docs/USE.md, "Where a limit is met").
import { promises as fs } from 'node:fs';
import path from 'node:path';

const NEARLY_FULL = 241_591_911; // nine tenths of what a stored file may have
const MOST_KEPT = 4_194_304; // so many bytes for one member, of whom nothing came for so many milliseconds
const MOST_SILENT = 7 * 86_400_000;

/** The size of the replica that a slot tells, in its first eight bytes; 0 if that can't be read. */
async function sizeTold(file) {
  try {
    const handle = await fs.open(file);
    try {
      const { buffer, bytesRead } = await handle.read(Buffer.alloc(8), 0, 8, 0);
      return bytesRead === 8 ? Number(buffer.readBigUInt64BE()) : 0;
    } finally {
      await handle.close();
    }
  } catch {
    return 0;
  }
}

/** If the stored file is nearly full; null if it isn't. Both slots are asked, since the last store may have made it shorter. */
export async function toldOfFile(folder) {
  const size = Math.min(...(await Promise.all(['replica.0', 'replica.1'].map((name) => sizeTold(path.join(folder, name))))));
  if (size < NEARLY_FULL) return null;
  return (
    `the stored file in ${folder} has ${size} bytes of the 268435456 that it may have. When it is full, nothing can be stored any more. It gets shorter ` +
    `once messages show that the others have what is in it. If that doesn't help, \`rls restart\` begins anew with the text`
  );
}

/** If a message to this member has become long, and nothing has come from it for long: its last message is in this file. Null otherwise. */
export async function toldOfMember(to, size, file) {
  if (size < MOST_KEPT) return null;
  const came = await fs.stat(file).then((told) => told.mtime, () => null);
  if (came && Date.now() - came < MOST_SILENT) return null;
  const since = came ? `of whom nothing has come since ${came.toISOString().slice(0, 10)}` : 'of whom nothing ever came';
  const help = came
    ? `if that member won't come back, \`rls restart\` goes on in a new group with the text`
    : `\`rls retire ${to}\` ends that, if nobody will use the number`;
  return `each file keeps ${size} bytes for member ${to}, ${since}; each message to it has them again: ${help}`;
}
