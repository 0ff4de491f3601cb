// Files in a folder that others write into.
import { randomBytes } from 'node:crypto';
import { constants, promises as fs } from 'node:fs';
import path from 'node:path';
import { RlsError } from './errors.js';

/**
 * The bytes of a regular file, or the first of them; null if nothing is there. A folder that others write into may have a link, a pipe or a folder at a name, or a
 * file that fills the memory: those are an RlsError.
 */
export async function regular(file, most, first = most) {
  let handle;
  try {
    handle = await fs.open(file, constants.O_RDONLY | constants.O_NONBLOCK | constants.O_NOFOLLOW);
  } catch (error) {
    if (error.code === 'ENOENT') return null;
    throw new RlsError(8, error.code === 'ELOOP' ? `${file} is a link` : error.message);
  }
  try {
    const told = await handle.stat();
    if (!told.isFile()) throw new RlsError(8, `${file} is no file`);
    if (told.size > most) throw new RlsError(11, `${file} has more than ${most} bytes`);
    const data = Buffer.alloc(Math.min(told.size, first));
    const { bytesRead } = data.length > 0 ? await handle.read(data, 0, data.length, 0) : { bytesRead: 0 };
    return data.subarray(0, bytesRead);
  } catch (error) {
    throw error instanceof RlsError ? error : new RlsError(8, error.message);
  } finally {
    await handle.close();
  }
}

/** How many bytes a regular file has; null if there is none at this name. */
export async function sizeOf(file) {
  const told = await fs.lstat(file).catch(() => null);
  return told?.isFile() ? told.size : null;
}

/**
 * Writes a file so that whoever reads it sees the old one or the new one. It is made under a name that nobody can know before, and a link at
 * its own name is replaced, and not written through. What can't be written or replaced is an RlsError, and nothing of it is left.
 */
export async function replace(file, data) {
  const made = path.join(path.dirname(file), `.new-${randomBytes(16).toString('hex')}`);
  const handle = await fs.open(made, 'wx');
  try {
    try {
      await handle.writeFile(data);
      await handle.sync();
    } finally {
      await handle.close();
    }
    await fs.rename(made, file);
  } catch (error) {
    await fs.unlink(made);
    throw new RlsError(9, error.message);
  }
}

/** What names, sizes and times of these files are, in one look; those that aren't there are left out. */
export async function timesOf(folder, names) {
  const told = await Promise.all(names.map((name) => fs.lstat(path.join(folder, name), { bigint: true }).catch(() => null)));
  return names.map((name, k) => (told[k] ? `${name} ${told[k].ino} ${told[k].size} ${told[k].mtimeNs}` : '')).join('\n');
}
