// Tests of what two and three do to the white space of one text at once: no words are joined by it, nor lost. test.js runs them.
import assert from 'node:assert/strict';
import { test } from 'node:test';
import { opened, pick, random } from './room.js';

const WORDS = Array.from({ length: 40 }, (_, k) => 'abcdefghijklm'.slice(k % 7, (k % 7) + 1 + ((k * 5) % 6)) + k);
const BETWEEN = [' ', '\n', '  ', '\n\n', ' \n', '\n ', '\n    ', '\t', '\r\n'];
const wordsOf = (string) => string.split(/\s+/).filter(Boolean);

/** The words of a text in lines of so many characters. */
function filled(string, width) {
  const lines = [''];
  for (const word of wordsOf(string)) {
    const line = lines.at(-1);
    if (line && line.length + 1 + word.length > width) lines.push(word);
    else lines[lines.length - 1] = line ? `${line} ${word}` : word;
  }
  return `${lines.join('\n')}\n`;
}

async function areTakenByAll(all) {
  for (let round = 0; round < 2; round += 1) {
    for (const [k, from] of all.entries()) {
      for (const [j, to] of all.entries()) if (j !== k) await to.take(await from.message(j));
    }
  }
  for (const session of all) assert.deepEqual(wordsOf(session.text), WORDS);
}

async function begun(t, count) {
  const all = await opened(t, count);
  await all[0].setText(filled(WORDS.join(' '), 60));
  await areTakenByAll(all);
  return all;
}

test('two fill a paragraph at once', async (t) => {
  const both = await begun(t, 2);
  for (let round = 0; round < 200; round += 1) {
    for (const session of both) await session.setText(filled(session.text, pick([40, 47, 55, 63, 70])));
    await areTakenByAll(both);
  }
});

test('three change white space, and take messages in any order', async (t) => {
  const three = await begun(t, 3);
  for (let round = 0; round < 15; round += 1) {
    for (let step = 0; step < 10; step += 1) {
      const k = random(3);
      const j = (k + 1 + random(2)) % 3;
      const string = three[k].text;
      if (random(2)) await three[j].take(await three[k].message(j));
      else if (random(2)) await three[k].setText(filled(string, pick([40, 55, 70])));
      else await three[k].setText(wordsOf(string).map((word) => word + (random(4) ? ' ' : pick(BETWEEN))).join(''));
    }
    await areTakenByAll(three);
  }
});
