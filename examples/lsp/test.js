// Two editors, each with a language server of its own, type 2,000 keys each into one text at once: `node --test test.js`. RLS names the program.
import assert from 'node:assert/strict';
import { execFileSync, spawn } from 'node:child_process';
import fs from 'node:fs';
import os from 'node:os';
import path from 'node:path';
import { test } from 'node:test';
import { fileURLToPath, pathToFileURL } from 'node:url';
import { Wire } from './wire.js';

const RLS = path.resolve(process.env.RLS ?? fileURLToPath(new URL('../../bin/rls', import.meta.url)));
const SERVER = fileURLToPath(new URL('rls-lsp.js', import.meta.url));
const KEYS = Number(process.env.KEYS ?? 2_000);
const pause = (ms) => new Promise((resolve) => setTimeout(resolve, ms));

let seed = 11;
const random = (below) => {
  seed = (Math.imul(seed, 1_103_515_245) + 12_345) >>> 0;
  return Math.floor((seed / 4_294_967_296) * below);
};

const position = (text, at) => {
  const front = text.slice(0, at).split('\n');
  return { line: front.length - 1, character: front.at(-1).length };
};
const offset = (text, { line, character }) => text.split('\n').slice(0, line).reduce((sum, x) => sum + x.length + 1, 0) + character;

/** An editor as the protocol wants it: it makes an edit if its text is still of that version, and may tell changes late and several at once. */
class Editor {
  text = '';
  version = 1;
  untold = [];

  constructor(folder, shared) {
    this.uri = pathToFileURL(path.join(folder, 'notes.txt')).href;
    this.server = spawn(process.execPath, [SERVER], { env: { ...process.env, RLS, RLS_SHARED: shared }, stdio: ['pipe', 'pipe', 'inherit'] });
    this.wire = new Wire(this.server.stdout, this.server.stdin, {
      'workspace/applyEdit': ({ edit: { documentChanges: [{ textDocument, edits }] } }) => {
        if (textDocument.version !== this.version) return { applied: false };
        for (const { range, newText } of edits) this.change(offset(this.text, range.start), offset(this.text, range.end), newText);
        if (random(2)) this.flush();
        return { applied: true };
      },
      'window/showMessage': ({ message }) => console.error(message),
    });
  }

  async open() {
    await this.wire.ask('initialize', {});
    this.wire.notify('textDocument/didOpen', { textDocument: { uri: this.uri, version: this.version, text: '' } });
  }

  change(from, to, text) {
    this.untold.push({ range: { start: position(this.text, from), end: position(this.text, to) }, text });
    this.text = this.text.slice(0, from) + text + this.text.slice(to);
    this.version += 1;
    setTimeout(() => this.flush(), random(4) * 5);
  }

  flush() {
    if (this.untold.length === 0) return;
    const contentChanges = this.untold;
    this.untold = [];
    this.wire.notify('textDocument/didChange', { textDocument: { uri: this.uri, version: this.version }, contentChanges });
  }
}

test(`two editors type ${KEYS} keys each at once, and both show all of them`, { timeout: 280_000 }, async (t) => {
  const room = fs.mkdtempSync(path.join(os.tmpdir(), 'rls-lsp-'));
  t.after(() => fs.rmSync(room, { recursive: true }));
  const editors = [];
  for (const k of [0, 1]) {
    const folder = path.join(room, `member ${k}`);
    fs.mkdirSync(path.join(folder, '.rls', 'notes.txt'), { recursive: true });
    execFileSync(RLS, ['new', '7', String(k), '2'], { cwd: path.join(folder, '.rls', 'notes.txt') });
    editors.push(new Editor(folder, path.join(room, 'shared')));
  }
  t.after(() => editors.forEach(({ server }) => server.kill()));
  await Promise.all(editors.map((editor) => editor.open()));
  const wanted = ['', ''];
  await Promise.all(
    editors.map(async (editor, k) => {
      // A writer goes on where it is, and goes elsewhere now and then.
      const letters = ['abcdefgh', 'mnopqrst'][k];
      let before = '';
      for (let key = 0; key < KEYS; key += 1) {
        let at = before ? editor.text.lastIndexOf(before) + before.length : random(editor.text.length + 1);
        if (/[\udc00-\udfff]/.test(editor.text[at] ?? '')) at += 1;
        const letter = random(12) === 0 ? '\u{1F600}\n' : letters[random(8)];
        editor.change(at, at, letter);
        wanted[k] += letter;
        before = random(10) === 0 ? '' : before.slice(-3) + letter;
        await pause(random(3) * 3);
      }
    }),
  );
  const count = wanted.join('').length;
  for (let k = 0; k < 600 && !(editors[0].text === editors[1].text && editors[0].text.length === count); k += 1) await pause(100);
  assert.equal(editors[0].text, editors[1].text);
  assert.equal([...editors[0].text].sort().join(''), [...wanted.join('')].sort().join(''));
  for (const editor of editors) {
    await editor.wire.ask('shutdown', null);
    const folder = path.join(path.dirname(fileURLToPath(editor.uri)), '.rls', 'notes.txt');
    assert.equal(execFileSync(RLS, ['text'], { cwd: folder }).toString(), editor.text);
  }
});
