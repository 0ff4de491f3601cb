// Tests of messages, cursors and tokens in a shared folder; test.js runs them too.
import assert from 'node:assert/strict';
import { execFileSync } from 'node:child_process';
import fs from 'node:fs';
import path from 'node:path';
import { test } from 'node:test';
import { Mailbox, RlsError, Session, Stale, UsedTwice } from './rls.js';
import { folders, opened, random, rls, type, version } from './room.js';

test('messages through a folder', async (t) => {
  const all = await opened(t, 2, 3);
  const shared = path.join(path.dirname(all[0].folder), 'shared');
  const boxes = [await Mailbox.open(shared, all[0]), await Mailbox.open(shared, all[1])];
  const sizes = new Set();
  for (let step = 0; step < 30; step += 1) {
    const k = random(2);
    await type(all[k], random(all[k].shown.length + 1), 0, 'word');
    await boxes[k].sync(all[k]);
    sizes.add(fs.statSync(boxes[0].path(0, 2), { throwIfNoEntry: false })?.size);
  }
  for (let round = 0; round < 2; round += 1) for (const k of [0, 1]) await boxes[k].sync(all[k]);
  assert.equal(all[0].text, all[1].text);
  assert.equal(all[0].shown, all[0].text);
  assert.ok(sizes.size < 8, 'a number that nobody uses gets few messages');
  assert.deepEqual(await boxes[0].sync(all[0]), { received: [], failed: [] });
  assert.deepEqual(fs.readdirSync(shared).filter((name) => name.startsWith('.new')), []);
});

test('a folder that comes back as it was before', async (t) => {
  const [a, b] = await opened(t, 2, 2);
  const shared = path.join(path.dirname(a.folder), 'shared');
  const boxes = [await Mailbox.open(shared, a), await Mailbox.open(shared, b)];
  await type(a, 0, 0, 'one');
  for (const [box, member] of [[boxes[0], a], [boxes[1], b], [boxes[0], a]]) await box.sync(member);
  fs.cpSync(shared, `${shared}-before`, { recursive: true });
  await type(a, 3, 0, ' two');
  await boxes[0].sync(a);
  fs.rmSync(shared, { recursive: true });
  fs.renameSync(`${shared}-before`, shared);
  await boxes[0].sync(a);
  await boxes[1].sync(b);
  assert.equal(b.text, 'one two');
});

test('what others put into the folder', { timeout: 60_000 }, async (t) => {
  const [a, b] = await opened(t, 2, 8);
  const shared = path.join(path.dirname(a.folder), 'shared');
  const box = await Mailbox.open(shared, a);
  await b.insert(0, 'hello');
  await (await Mailbox.open(shared, b)).send(b);
  const victim = path.join(path.dirname(shared), 'victim');
  fs.writeFileSync(victim, 'mine');
  fs.symlinkSync(box.path(1, 0), box.path(2, 0));
  execFileSync('mkfifo', [box.path(3, 0)]);
  fs.mkdirSync(box.path(4, 0));
  fs.writeFileSync(box.path(5, 0), '');
  fs.truncateSync(box.path(5, 0), 67_108_865);
  fs.writeFileSync(box.path(6, 0), fs.readFileSync(box.path(1, 0)).subarray(0, 40));
  fs.writeFileSync(box.path(7, 0), 'RLSM and more than a head of a message has');
  fs.rmSync(box.path(0, 1), { force: true });
  fs.symlinkSync(victim, box.path(0, 1));
  fs.mkdirSync(box.path(0, 2));
  const { received, failed } = await box.sync(a);
  assert.equal(a.text, 'hello');
  assert.deepEqual(received.map(({ from, error }) => [from, error?.status]), [[1, undefined], [2, 8], [3, 8], [4, 8], [5, 11], [6, 6], [7, 6]]);
  assert.deepEqual(failed.map(({ to }) => to), [2]);
  assert.equal(fs.readFileSync(victim, 'utf8'), 'mine');
  assert.ok(fs.lstatSync(box.path(0, 1)).isFile());
});

test('a message that a full replica can not take is taken once there is room, though its file is as it was', async (t) => {
  const [a, b] = await opened(t, 2);
  const shared = path.join(path.dirname(a.folder), 'shared');
  const box = await Mailbox.open(shared, b);
  await a.insert(0, 'one');
  await (await Mailbox.open(shared, a)).send(a);
  const take = t.mock.method(b, 'take', () => Promise.reject(new RlsError(11, 'too large')));
  assert.deepEqual((await box.receive(b)).map(({ from, error }) => [from, error.status]), [[0, 11]]);
  take.mock.restore();
  assert.deepEqual((await box.receive(b)).map(({ from }) => from), [0]);
  assert.equal(b.text, 'one');
});

test('files that were put back from a copy', async (t) => {
  const [a, b] = await opened(t, 2);
  await a.insert(0, 'x');
  await b.take(await a.message(1));
  await a.close();
  for (const name of fs.readdirSync(a.folder)) fs.rmSync(path.join(a.folder, name));
  execFileSync(rls, ['new', '18446744073709551615', '0', '2'], { cwd: a.folder });
  const again = await Session.open(a.folder, { program: rls });
  t.after(() => again.kill());
  const shared = path.join(path.dirname(a.folder), 'shared');
  const box = await Mailbox.open(shared, again);
  fs.writeFileSync(box.path(1, 0), await b.message(0));
  await assert.rejects(box.sync(again), Stale);
});

test('heads that are not what the names of their files say', async (t) => {
  const [a, b, c] = await opened(t, 3, 7);
  const shared = path.join(path.dirname(a.folder), 'shared');
  const boxes = [await Mailbox.open(shared, a), await Mailbox.open(shared, b)];
  const forged = boxes[0].path(2, 0);
  const cases = [[12, 9, /is of another text/], [16, 4, /is of another text/], [20, 1, /says that it is of member 1/], [24, 200, /counts 200 operations of member 0/]];
  for (const [at, byte, told] of cases) {
    const message = await c.message(0);
    message[at] = byte;
    fs.writeFileSync(forged, message);
    await a.insert(0, 'a');
    await b.insert(0, 'b');
    await boxes[1].sync(b);
    let found;
    if (at === 24) {
      await assert.rejects(boxes[0].sync(a), (error) => {
        found = error.received;
        return error instanceof Stale && told.test(error.message);
      });
    } else {
      found = (await boxes[0].sync(a)).received;
    }
    assert.deepEqual(found.map(({ from }) => from), [1, 2]);
    assert.match(found[1].error.line, told);
    assert.deepEqual(await boxes[0].receive(a), []); // said once
    assert.deepEqual(fs.readFileSync(forged), message);
  }
  assert.equal([...a.text].sort().join(''), 'aaaabbbb');
  const { group, members } = await a.head();
  fs.writeFileSync(path.join(a.folder, 'replica.doubted'), `${group}-${members}-0 2\n`);
  await (await Mailbox.open(shared, a)).sync(a);
  fs.rmSync(path.join(a.folder, 'replica.doubted'));
  await a.insert(0, 'a');
  await assert.rejects((await Mailbox.open(shared, a)).sync(a), Stale);
  fs.rmSync(forged);
  await boxes[0].sync(a);
  await boxes[1].sync(b);
  assert.equal(b.text, a.text);
});

test('cursors of others', async (t) => {
  if (version === 1) return t.skip('the program has the first version of the session');
  const [a, b] = await opened(t, 2, 5);
  const shared = path.join(path.dirname(a.folder), 'shared');
  const boxes = [await Mailbox.open(shared, a), await Mailbox.open(shared, b)];
  await a.insert(0, '\u{1F600}text');
  await boxes[0].sync(a);
  await boxes[0].showCursor(a, 4, 'Ada\u001b[2J');
  await boxes[1].sync(b);
  await b.insert(0, 'one ');
  fs.writeFileSync(boxes[1].cursorPath(2), 'q\nq\n');
  execFileSync('mkfifo', [boxes[1].cursorPath(3)]);
  fs.writeFileSync(boxes[1].cursorPath(4), ' \n');
  assert.deepEqual(await boxes[1].cursors(b), [{ from: 0, at: 8, name: 'Ada[2J' }]);
  await b.putCursor(4, { cursor: 5, before: true });
  await b.insert(4, 'two ');
  assert.equal(await b.cursor(5), 8);
  return undefined;
});

/** Two replicas with number 0, and a mailbox for each. */
async function twoWithOneNumber(t, folderOf) {
  const sessions = [];
  for (const k of [0, 1]) {
    const session = await Session.open(folders(1, 3)[0], { program: rls });
    t.after(() => session.kill());
    await session.insert(0, `by ${k}`);
    sessions.push(session);
  }
  const shared = path.join(path.dirname(sessions[0].folder), 'shared');
  const boxes = [];
  for (const [k, session] of sessions.entries()) boxes.push(await Mailbox.open(folderOf(shared, k), session));
  return { sessions, boxes };
}

test('a number that two replicas use is told at once', async (t) => {
  const { sessions: [a, b], boxes } = await twoWithOneNumber(t, (shared) => shared);
  await boxes[0].sync(a);
  const there = fs.readdirSync(boxes[0].folder).sort();
  for (const call of ['sync', 'send', 'receive']) await assert.rejects(boxes[1][call](b), /is used twice: another replica has this number/);
  assert.deepEqual(fs.readdirSync(boxes[0].folder).sort(), there);
  assert.deepEqual(await boxes[0].sync(a), { received: [], failed: [] });
});

test('whoever can not show its token writes no message', async (t) => {
  const [a] = await opened(t, 1, 3);
  const box = await Mailbox.open(path.join(path.dirname(a.folder), 'shared'), a);
  await box.receive(a); // it has a token from here on
  const token = fs.readFileSync(path.join(a.folder, 'replica.token'), 'latin1').slice(0, 16);
  const name = path.join(box.folder, `${box.head.group}-0-${token}.member`);
  fs.mkdirSync(path.join(name, 'taken'), { recursive: true });
  await a.insert(0, 'x');
  assert.deepEqual((await box.send(a)).map(({ to }) => to), [1, 2]);
  assert.deepEqual(fs.readdirSync(box.folder), [path.basename(name)]);
  fs.rmSync(name, { recursive: true });
  assert.deepEqual(await box.send(a), []);
  assert.equal(fs.readdirSync(box.folder).length, 3);
});

test('a number that two machines use, which see each other by the shared folder alone', async (t) => {
  const { sessions, boxes } = await twoWithOneNumber(t, (shared, k) => `${shared}${k}`);
  for (const k of [0, 1]) await boxes[k].sync(sessions[k]);
  const [one, other] = boxes.map(({ folder }) => folder);
  fs.cpSync(one, other, { recursive: true, force: false, errorOnExist: false });
  fs.cpSync(other, one, { recursive: true });
  for (const k of [0, 1]) await assert.rejects(boxes[k].sync(sessions[k]), UsedTwice);
  const own = fs.readFileSync(path.join(sessions[0].folder, 'replica.token'), 'latin1').slice(0, 16);
  const another = fs.readdirSync(one).find((name) => name.endsWith('.member') && !name.includes(own));
  fs.rmSync(path.join(one, another));
  await sessions[0].insert(0, 'more '.repeat(40));
  await boxes[0].sync(sessions[0]);
});

test('a copy of a replica, and a message by a client that shows no token', async (t) => {
  const [folder] = folders(1, 3);
  const copy = path.join(path.dirname(folder), 'copy');
  const shared = path.join(path.dirname(folder), 'shared');
  const write = async (from, string) => {
    const session = await Session.open(from, { program: rls });
    t.after(() => session.kill());
    await session.insert(0, string);
    try {
      const box = await Mailbox.open(shared, session);
      await box.sync(session);
      return { box, message: await session.message(1) };
    } finally {
      await session.close();
    }
  };
  await write(folder, 'one ');
  fs.cpSync(folder, copy, { recursive: true });
  const { box, message } = await write(folder, 'two '.repeat(40));
  await assert.rejects(write(copy, 'three '), /a copy of this replica wrote there/);
  // A copy that wrote as often, elsewhere.
  const note = path.join(copy, 'replica.token');
  const [token, count] = fs.readFileSync(note, 'latin1').split(' ');
  fs.writeFileSync(note, `${token} ${(BigInt(count) + 1n).toString().padStart(20, '0')} 0000000000000007\n`);
  await assert.rejects(write(copy, 'three '), /a copy of this replica wrote there/);
  for (const name of fs.readdirSync(shared)) fs.rmSync(path.join(shared, name));
  fs.writeFileSync(box.path(0, 1), message);
  await assert.rejects(write(folders(1, 3)[0], 'four '), /more operations of this number/);
});

test('a round in which nothing has changed asks nothing, and writes nothing', async (t) => {
  const [a] = await opened(t, 1, 3);
  const box = await Mailbox.open(path.join(path.dirname(a.folder), 'shared'), a);
  await a.insert(0, 'x');
  for (let round = 0; round < 3; round += 1) await box.sync(a);
  const inode = fs.statSync(box.path(0, 1)).ino;
  const message = t.mock.method(a, 'message');
  await box.sync(a);
  assert.equal(message.mock.callCount(), 0);
  await (await Mailbox.open(box.folder, a)).sync(a);
  assert.equal(fs.statSync(box.path(0, 1)).ino, inode);
  await a.insert(0, 'more '.repeat(40));
  await box.sync(a);
  assert.notEqual(fs.statSync(box.path(0, 1)).ino, inode);
});

test('what could not be taken or written is told by each round', async (t) => {
  const [a] = await opened(t, 1, 3);
  const box = await Mailbox.open(path.join(path.dirname(a.folder), 'shared'), a);
  const rounds = async () => {
    const found = [];
    for (let round = 0; round < 3; round += 1) found.push(await box.sync(a));
    return found.map(({ received, failed }) => [received.map(({ from }) => from), failed.map(({ to }) => to)]);
  };
  await rounds();
  fs.writeFileSync(box.path(1, 0), 'junk');
  assert.deepEqual(await rounds(), Array(3).fill([[1], []]));
  fs.rmSync(box.path(1, 0));
  fs.rmSync(box.path(0, 2));
  fs.mkdirSync(box.path(0, 2));
  assert.deepEqual(await rounds(), Array(3).fill([[], [2]]));
});
