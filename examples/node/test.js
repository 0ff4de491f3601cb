// Tests of texts, changes and sessions, and those of test-files.js, test-mailbox.js and test-reflow.js: `node --test test.js` in this folder.
import assert from 'node:assert/strict';
import { execFileSync, spawn } from 'node:child_process';
import fs from 'node:fs';
import path from 'node:path';
import { test } from 'node:test';
import { changesOf, CHARACTERS } from './changes.js';
import { applied, compared, crossed, placeAfter, Refused, RlsError, Session, Text } from './rls.js';
import { costsOf, Renaming } from './renaming.js';
import { exchange, folders, opened, pick, random, rls, room, stored, type, version } from './room.js';
import './test-files.js';
import './test-mailbox.js';
import './test-reflow.js';

test('a rename is due when it pays', async () => {
  const asks = (renaming) => async (rename, epochs, own, bytes) => {
    const costs = costsOf(`rename ${rename} limit 16777216 runs 1 tuples 1 epochs ${epochs} own ${own} bytes ${bytes}`);
    return renaming.isDue(500, async () => costs, async () => ({ members: [2], runs: [1], epochs: [1] }));
  };
  const renaming = new Renaming();
  const due = asks(renaming);
  // What all members did is looked at first of all, and after 63 changes.
  assert.equal(await due(32_001, 1, 0, 0), true);
  assert.equal(await due(32_001, 1, 1, 32_001), false);
  renaming.changed(63);
  assert.equal(await due(32_000, 1, 1, 32_001), false);
  renaming.changed(63);
  assert.equal(await due(4_194_304, 2, 1, 32_001), false);
  renaming.changed(63);
  assert.equal(await due(4_194_305, 2, 1, 32_001), true);
  // What this one spent, always: beside the text, and 208 bytes for each operation.
  renaming.put(500);
  assert.equal(await due(1_000, 2, 4, 4_226_306 + 500 + 2 * 208 + 1_000), false);
  assert.equal(await due(1_000, 2, 5, 4_226_306 + 500 + 3 * 208 + 1_001), true);
  // What an undo puts in nobody knows; and where others have taken some, what is left is new.
  renaming.put(NaN);
  assert.equal(await due(1_000, 2, 9, 9_000_000), false);
  assert.equal(await due(1_000, 2, 1, 1_208), false);
  assert.equal(await due(1_000, 2, 2, 1_208 + 209), true);
});

test('places in units and in characters', () => {
  let string = '';
  const text = new Text();
  for (let step = 0; step < 2_000; step += 1) {
    const characters = [...string];
    const at = random(characters.length + 1);
    const count = step % 40 === 0 ? Math.min(characters.length - at, 3_000) : random(2) && Math.min(characters.length - at, random(4));
    const come = step % 25 === 0 ? '\u{1F600}x'.repeat(random(3_000)) : pick(['', 'a', '\u{1F600}', 'e\u0301\n']);
    const unit = characters.slice(0, at).join('').length;
    assert.equal(text.toCharacters(unit), at);
    assert.equal(text.toUnits(at), unit);
    text.splice(unit, characters.slice(at, at + count).join('').length, come);
    characters.splice(at, count, ...come);
    string = characters.join('');
  }
  assert.equal(text.toString(), string);
  assert.equal(text.length, string.length);
  assert.equal(text.characters, [...string].length);
  assert.throws(() => new Text('a\u{1F600}').toCharacters(2), RangeError);
  assert.throws(() => new Text('a').toCharacters(2), RangeError);
});

const inUnits = (string, changes) => changes.reduce((now, { at, count = 0, text = '' }) => now.slice(0, at) + text + now.slice(at + count), string);

test('what two changed at once', () => {
  const some = (string, play, length) => {
    const found = [];
    let now = string;
    for (let k = random(5); k > 0; k -= 1) {
      const at = random(length(now) + 1);
      found.push({ at, count: Math.min(random(5), length(now) - at), text: pick(['', '', 'x', 'yz', '\u{1F600}']) });
      now = play(now, found.slice(-1));
    }
    return found;
  };
  for (let step = 0; step < 3_000; step += 1) {
    for (const [play, length, measure] of [[applied, (x) => [...x].length, CHARACTERS], [inUnits, (x) => x.length, undefined]]) {
      const [first, second] = [0, 1].map(() => some('abcdefgh', play, length));
      const [firstThen, secondThen] = crossed(first, second, measure);
      assert.equal(play(play('abcdefgh', first), secondThen), play(play('abcdefgh', second), firstThen));
      const place = random(length(play('abcdefgh', first)) + 1);
      assert.ok(placeAfter(place, secondThen, { measure }) <= placeAfter(place, secondThen, { measure, behind: true }));
    }
  }
});

/** How many seconds of a processor something takes. */
function secondsOf(what) {
  const began = process.cpuUsage();
  what();
  const { user, system } = process.cpuUsage(began);
  return (user + system) / 1e6;
}

test('what two changed at once: 20,000 changes at each side take seconds', () => {
  const some = (text) => Array.from({ length: 20_000 }, (_, k) => ({ at: random(40_000 + k), count: 0, text }));
  let firstThen;
  assert.ok(secondsOf(() => [firstThen] = crossed(some('a'), some('b'))) < 5);
  assert.equal(firstThen.reduce((sum, { text }) => sum + text.length, 0), 20_000);
});

test('what differs', () => {
  for (let step = 0; step < 2_000; step += 1) {
    const [old, now] = [0, 1].map(() => Array.from({ length: random(8) }, () => pick(['a', 'b', ' ', '\n', '\0', '\u{1F600}', '\u{1F601}', '\u{1FA00}'])).join(''));
    assert.equal(applied(old, changesOf(old, now)), now);
  }
});

test('what differs in 20,000 lines with a word changed in each takes less than two seconds, and no line goes as a whole', () => {
  const words = 'lorem ipsum dolor sit amet consectetur adipiscing elit'.split(' ');
  const lines = Array.from({ length: 20_000 }, () => Array.from({ length: 8 }, () => pick(words)));
  const old = lines.map((x) => x.join(' ')).join('\n');
  for (const line of lines) line[random(8)] = 'changed';
  const now = lines.map((x) => x.join(' ')).join('\n');
  let found;
  assert.ok(secondsOf(() => ({ found } = compared(old, now))) < 2);
  assert.ok(found.every(({ count, text }) => count < 12 && text.length < 8));
});

test('editing, and what is stored', async (t) => {
  const [a] = await opened(t, 1);
  const text = 'one\r\ntwo \\ three\n\tsmile \u{1F600} e\u0301 \0 end';
  await a.setText(text);
  await a.insert(text.indexOf(' e\u0301'), '!');
  await a.delete(0, 3);
  assert.equal(a.text, text.replace('\u{1F600}', '\u{1F600}!').slice(3));
  await a.save();
  assert.equal(stored(a.folder), a.text);
  await a.putCursor(a.text.indexOf('!'));
  await a.insert(0, '\u{1F600}\u{1F600}');
  assert.equal(a.text[await a.cursor()], '!');
  await a.close();
  assert.equal(stored(a.folder), a.text);
  await assert.rejects(a.save(), RlsError);
});

test('what is refused', async (t) => {
  const [a] = await opened(t, 1);
  await a.insert(0, 'a\u{1F600}');
  for (const call of [() => a.insert(9, 'x'), () => a.insert(2, 'x'), () => a.insert(0, '\ud800'), () => a.delete(0, 9), () => a.putCursor(9)]) {
    await assert.rejects(call(), RangeError);
  }
  for (const call of [() => a.take(Buffer.from('junk\nq\n')), () => a.message(5)]) await assert.rejects(call(), Refused);
  await a.insert(0, 'x');
  assert.equal(a.text, 'xa\u{1F600}');
  await assert.rejects(Session.open(path.join(room, 'nowhere'), { program: rls }), RlsError);
  await assert.rejects(Session.open(room, { program: rls }), { status: 2 });
});

test('a folder that is in use', async (t) => {
  const [a] = await opened(t, 1);
  await a.insert(0, 'x');
  await assert.rejects(Session.open(a.folder, { program: rls }), { status: 7 });
  await a.insert(1, 'y');
  await a.close();
  const again = await Session.open(a.folder, { program: rls });
  assert.equal(again.text, 'xy');
  await again.close();
});

test('a long text', async (t) => {
  const [a] = await opened(t, 1);
  const [old, now] = [1, 2].map(() => Array.from({ length: 900 }, () => pick(['a', 'b'])).join(' '));
  assert.deepEqual(await a.setText(old), { isCut: false });
  assert.deepEqual(await a.setText(now), { isCut: true });
  await a.setText('x\u{1F600}'.repeat(700_000));
  assert.equal(a.text.length, 2_100_000);
  await a.setText('y');
  await a.close();
  assert.equal(stored(a.folder), 'y');
});

test('two type at once, and what each shows is the text', async (t) => {
  const all = await opened(t, 2);
  const waiting = [];
  for (let step = 0; step < 400; step += 1) {
    const a = pick(all);
    const characters = [...a.shown];
    const at = random(characters.length + 1);
    const unit = characters.slice(0, at).join('').length;
    const gone = characters.slice(at, at + (random(3) === 0 ? random(4) : 0)).join('').length;
    waiting.push(type(a, unit, gone, pick(['ab', '\u{1F600}', '\n', '\\n', ''])));
    if (random(6) === 0) waiting.push(a.undo());
    if (random(10) === 0 && version >= 2) waiting.push(a.redo());
    if (random(12) === 0) waiting.push(exchange(...all));
    if (random(25) === 0) await Promise.all(waiting);
  }
  await Promise.all(waiting);
  for (let round = 0; round < 2; round += 1) await exchange(...all);
  assert.equal(all[0].text, all[1].text);
  for (const a of all) {
    assert.equal(a.shown, a.text);
    await a.close();
    assert.equal(stored(a.folder), a.text);
  }
});

/** A program that also writes down what it is asked, and the lines that were asked since. */
function listened() {
  const [folder] = folders(1);
  const [program, log] = [path.join(folder, '../program'), path.join(folder, '../asked')];
  fs.writeFileSync(program, `#!/bin/bash\ntee "$(dirname "$0")/asked" | "${rls}" session\n`, { mode: 0o755 });
  return { folder, program, asked: () => fs.readFileSync(log, 'utf8').split('\n').filter((line) => /^[eid] /.test(line)) };
}

test('a change is one request with the third version, and otherwise what comes is asked for first', async (t) => {
  const { folder, program, asked } = listened();
  const a = await Session.open(folder, { program });
  t.after(() => a.kill());
  await a.insert(0, 'one \u{1F600} three\n');
  await a.replace(4, 2, 'two');
  await a.setText('One two THREE\n');
  await a.close();
  assert.equal(stored(folder), 'One two THREE\n');
  assert.deepEqual(
    asked(),
    a.version >= 3
      ? ['e 0 0 one \u{1F600} three\\n', 'e 4 1 two', 'e 8 5 THREE', 'e 0 1 O']
      : ['i 0 one \u{1F600} three\\n', 'i 5 two', 'd 4 1', 'i 13 THREE', 'd 8 5', 'i 1 O', 'd 0 1'],
  );
});

test('passages that two members type at one place, with corrections, stay whole', async (t) => {
  const all = await opened(t, 2);
  if (all[0].version < 3) return t.skip('the program has no third version of the session');
  await all[0].insert(0, 'Report: ');
  await exchange(...all);
  const passages = ['ada', 'ben'].map((name) => `${name} `.repeat(60));
  for (const [k, a] of all.entries()) {
    for (const c of passages[k]) {
      a.insert(a.length, c);
      if (random(8) === 0) {
        a.insert(a.length, 'QX');
        a.delete(a.length - 1, 1);
        a.delete(a.length - 1, 1);
        if (random(3) === 0) await a.insert(a.length, '');
      }
    }
    await a.save();
  }
  const [mine, theirs] = [await all[0].message(1), await all[1].message(0)];
  await all[0].take(theirs);
  await all[1].take(mine);
  assert.equal(all[0].text, all[1].text);
  for (const passage of passages) assert.ok(all[0].text.includes(passage), 'a passage is whole');
  assert.ok(mine.length < 3_000);
  return undefined;
});

test('when to store', async (t) => {
  const [a] = await opened(t, 1);
  let now = 0;
  a.clock = () => now;
  assert.equal(a.storeDueIn(), null);
  await a.insert(0, 'word');
  assert.equal(a.storeDueIn(), 1_000);
  now = 500;
  await a.delete(3, 1);
  assert.equal(a.storeDueIn(), 3_000);
  now = 2_500;
  await a.insert(3, 'k');
  assert.equal(a.storeDueIn(), 500);
  now = 2_750;
  await a.delete(3, 1);
  now = 5_000;
  await a.delete(2, 1);
  assert.equal(a.storeDueIn(), 1_000);
  now = 7_000;
  assert.equal(a.storeDueIn(), 0);
  await a.save();
  assert.equal(a.storeDueIn(), null);
});

test('a text of 3,000 changes is handed on, and others change it meanwhile', async (t) => {
  const [a, b] = await opened(t, 2);
  await a.setText('lorem ipsum\n'.repeat(3_000));
  await exchange(a, b);
  await b.insert(0, 'first\n');
  const message = await b.message(0);
  const taking = a.take(message);
  await Promise.all([taking, a.setText('lorem Ipsum\n'.repeat(3_000))]);
  assert.equal(a.text, `first\n${'lorem Ipsum\n'.repeat(3_000)}`);
});

test('an edit that is refused leaves the text of the program', async (t) => {
  const [a] = await opened(t, 1);
  await type(a, 0, 0, 'kept');
  const leaving = await Session.open(folders(1)[0], { program: rls });
  await leaving.close();
  execFileSync(rls, ['leave'], { cwd: leaving.folder, stdio: 'ignore' });
  const left = await Session.open(leaving.folder, { program: rls });
  t.after(() => left.kill());
  const both = [left.insert(0, 'x'), left.insert(1, 'y')].map((x) => assert.rejects(x, Refused));
  await Promise.all(both);
  assert.equal(left.text, '');
});

test('undo', async (t) => {
  const [a] = await opened(t, 1);
  await type(a, 0, 0, 'hello');
  assert.equal(await a.undo(), true);
  assert.equal(await a.undo(), false);
  assert.equal(a.shown + a.text, '');
  if (version === 1) {
    for (const call of [() => a.redo(), () => a.endGroup(), () => a.place(0), () => a.putCursor(0, { cursor: 1 })]) {
      await assert.rejects(call(), { status: 4 });
    }
    await a.insert(0, 'it goes on');
  }
});

test('undo and redo after storing, beside others', async (t) => {
  if (version === 1) return t.skip('the program has the first version of the session');
  const [a, b] = await opened(t, 2);
  await type(a, 0, 0, 'hello');
  assert.deepEqual(await a.endGroup(), { undoable: 1, redoable: 0 });
  await a.save();
  await type(a, 0, 3, '');
  await exchange(a, b);
  await type(b, 2, 0, ' from another');
  await exchange(a, b);
  await a.undo();
  assert.equal(a.text, 'hello from another');
  await a.undo();
  assert.equal(a.text, ' from another');
  assert.equal(await a.undo(), false);
  await a.redo();
  await a.redo();
  assert.equal(a.text, 'lo from another');
  assert.equal(a.shown, a.text);
  return undefined;
});

test('a client that is killed leaves the text of its last store, and the folder is free', async () => {
  const [folder] = folders(1);
  const program = `
    import { Session } from ${JSON.stringify(new URL('./rls.js', import.meta.url).href)};
    const a = await Session.open(${JSON.stringify(folder)}, { program: ${JSON.stringify(rls)} });
    await a.insert(0, 'stored');
    await a.save();
    await a.insert(0, 'and more ');
    console.log('now');
    setTimeout(() => {}, 100_000);`;
  const child = spawn(process.execPath, ['--input-type=module', '-e', program], { stdio: ['ignore', 'pipe', 'inherit'] });
  await new Promise((resolve) => child.stdout.once('data', resolve));
  child.kill('SIGKILL');
  await new Promise((resolve) => child.once('close', resolve));
  const again = await Session.open(folder, { program: rls, wait: 20_000 });
  assert.match(again.text, /stored$/);
  await again.close();
});
