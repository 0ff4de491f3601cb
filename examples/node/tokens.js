// How a replica sees that another one has its number (examples/README.md, "When a number is used twice"). In its own folder it keeps a token
// that nobody else has, and what it wrote last into a shared folder; there it keeps a file whose name has its number and the token.
import { randomBytes } from 'node:crypto';
import { constants, promises as fs } from 'node:fs';
import path from 'node:path';
import { RlsError, UsedTwice } from './errors.js';
import { regular, replace } from './files.js';

const LINE = /^([0-9a-f]{16}) ([0-9]{20}) ([0-9a-f]{16})\n$/;
const SHOWN = /^([0-9]{1,20}) ([0-9a-f]{16})/;
const MOST = 4096; // bytes of a file that shows a token

const word = () => randomBytes(8).toString('hex');
let before = Promise.resolve(); // one after another within this program; a session holds the folder against others

async function readRecord(folder, isMore) {
  const flags = constants.O_RDWR | constants.O_CREAT | constants.O_NOFOLLOW;
  const handle = await fs.open(path.join(folder, 'replica.token'), flags, 0o666).catch(() => null);
  if (!handle) return null;
  try {
    const { bytesRead, buffer } = await handle.read(Buffer.alloc(MOST), 0, MOST, 0);
    const [, token = '', count = '0', last = ''] = LINE.exec(buffer.toString('latin1', 0, bytesRead)) ?? [];
    const was = { token, count: BigInt(count), last };
    if (token && !isMore) return was;
    const now = token ? { token, count: was.count + 1n, last: word() } : { token: word(), count: 0n, last: word() };
    await handle.write(Buffer.from(`${now.token} ${now.count.toString().padStart(20, '0')} ${now.last}\n`), 0, 55, 0);
    await handle.sync();
    return now;
  } catch {
    return null;
  } finally {
    await handle.close();
  }
}

/** What this replica wrote: its token, how many times, and what it called the last time; or, with `isMore`, what it is about to write. */
function ownRecord(folder, isMore = false) {
  before = before.then(() => readRecord(folder, isMore));
  return before;
}

const nameOf = (head, token) => `${head.group}-${head.me}-${token}.member`;

/** Says in the shared folder that this replica writes, before it does. */
export async function show(shared, head, folder) {
  const now = await ownRecord(folder, true);
  if (now) await replace(path.join(shared, nameOf(head, now.token)), `${now.count} ${now.last}\n`);
}

/** A UsedTwice if another replica with this one's number wrote into the shared folder, or a copy of this one. */
export async function look(shared, head, folder, names) {
  const own = await ownRecord(folder);
  const shape = new RegExp(`^${nameOf(head, '([0-9a-f]{16})').replace('.', '\\.')}$`);
  for (const name of own ? names : []) {
    const [, token] = shape.exec(name) ?? [];
    if (!token) continue;
    const file = path.join(shared, name);
    if (token !== own.token) throw new UsedTwice(file, head, 'another replica has this number');
    const data = await regular(file, MOST).catch((error) => {
      if (error instanceof RlsError) return null;
      throw error;
    });
    const [, count, last] = SHOWN.exec(data?.toString('latin1') ?? '') ?? [];
    if (count && (BigInt(count) > own.count || (BigInt(count) === own.count && last !== own.last))) {
      throw new UsedTwice(file, head, 'a copy of this replica wrote there, or its files were put back from one');
    }
  }
}
