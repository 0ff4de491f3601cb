// What the tests need: replicas in folders of their own, and sessions that show their text. RLS names the program; it is bin/rls of this
// checkout otherwise.
import { execFileSync } from 'node:child_process';
import fs from 'node:fs';
import os from 'node:os';
import path from 'node:path';
import { after } from 'node:test';
import { fileURLToPath } from 'node:url';
import { Session } from './rls.js';

process.env.RLS ??= fileURLToPath(new URL('../../bin/rls', import.meta.url));
export const rls = path.resolve(process.env.RLS);
export const room = fs.mkdtempSync(path.join(os.tmpdir(), 'rls-node-'));
let rooms = 0;
after(() => fs.rmSync(room, { recursive: true }));

/** Folders of fresh members of one text, in a folder whose name has what names may have. */
export function folders(count, members = count) {
  rooms += 1;
  const top = path.join(room, `a b\n'${rooms}`);
  return Array.from({ length: count }, (_, k) => {
    const folder = path.join(top, String(k));
    fs.mkdirSync(folder, { recursive: true });
    execFileSync(rls, ['new', '18446744073709551615', String(k), String(members)], { cwd: folder });
    return folder;
  });
}

export const stored = (folder) => execFileSync(rls, ['text'], { cwd: folder }).toString();

export async function opened(t, count, members) {
  const all = [];
  for (const folder of folders(count, members)) {
    const session = await Session.open(folder, { program: rls });
    t.after(() => session.kill());
    session.shown = '';
    session.on('change', (changes) => {
      for (const { at, count: gone, text } of changes) session.shown = session.shown.slice(0, at) + text + session.shown.slice(at + gone);
    });
    all.push(session);
  }
  return all;
}

/** Types as an editor does: what it shows has the edit at once. */
export function type(session, at, count, string) {
  session.shown = session.shown.slice(0, at) + string + session.shown.slice(at + count);
  return session.replace(at, count, string);
}

export const exchange = async (a, b) => {
  await b.take(await a.message(1));
  await a.take(await b.message(0));
};

let seed = 7;
export const random = (below) => {
  seed = (Math.imul(seed, 1_103_515_245) + 12_345) >>> 0;
  return Math.floor((seed / 4_294_967_296) * below);
};
export const pick = (list) => list[random(list.length)];

const [first] = folders(1);
const session = await Session.open(first, { program: rls });
await session.close();

/** Which version of the session the program has. */
export const { version } = session;
