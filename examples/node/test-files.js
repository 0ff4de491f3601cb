// Tests of files in a folder that others write into; test.js runs them too.
import assert from 'node:assert/strict';
import fs from 'node:fs';
import path from 'node:path';
import { test } from 'node:test';
import { RlsError } from './errors.js';
import { regular, replace } from './files.js';
import { room } from './room.js';
import * as tokens from './tokens.js';

const HEAD = { group: 7n, members: 2, me: 0, accepted: [0, 0] };
const isOf = (status) => (error) => error instanceof RlsError && error.status === status;
let made = 0;
function folder() {
  made += 1;
  const name = path.join(room, `files${made}`);
  fs.mkdirSync(name);
  return name;
}

/** What a function syncs and renames, in order; each file by its name, or its first five letters. */
async function callsOf(work, change = {}) {
  const calls = [];
  const real = { open: fs.promises.open, rename: fs.promises.rename };
  fs.promises.open = async (file, ...words) => {
    const handle = await real.open(file, ...words);
    const sync = handle.sync.bind(handle);
    handle.sync = () => {
      calls.push(`sync ${path.basename(file).slice(0, 5)}`);
      return (change.sync ?? sync)();
    };
    return handle;
  };
  fs.promises.rename = (old, file) => {
    calls.push(`rename ${path.basename(file)}`);
    return real.rename(old, file);
  };
  try {
    await work();
  } finally {
    Object.assign(fs.promises, real);
  }
  return calls;
}

test('a file is on the disk before it has its name', async () => {
  const top = folder();
  assert.deepEqual(await callsOf(() => replace(path.join(top, 'x'), 'new')), ['sync .new-', 'rename x']);
  assert.equal(String(await regular(path.join(top, 'x'), 3)), 'new');
  const calls = await callsOf(() => tokens.show(top, HEAD, top));
  const [name] = fs.readdirSync(top).filter((found) => found.endsWith('.member'));
  assert.deepEqual(calls, ['sync repli', 'sync .new-', `rename ${name}`]);
});

test('what can not be replaced leaves nothing', async () => {
  const top = folder();
  fs.mkdirSync(path.join(top, 'x'));
  await assert.rejects(replace(path.join(top, 'x'), 'new'), isOf(9));
  assert.deepEqual(fs.readdirSync(top), ['x']);
  const noRoom = { sync: () => Promise.reject(new Error('no room')) };
  await assert.rejects(callsOf(() => replace(path.join(top, 'y'), 'new'), noRoom), isOf(9));
  assert.deepEqual(fs.readdirSync(top), ['x']);
});

test('the limit of a file', async () => {
  const file = path.join(folder(), 'x');
  fs.writeFileSync(file, '1234567890');
  assert.equal(String(await regular(file, 10)), '1234567890');
  await assert.rejects(regular(file, 9), isOf(11));
});
