#!/usr/bin/env node
// A language server that keeps documents equal among members. A document FOLDER/NAME whose folder has a replica .rls/NAME is shared by the folder
// that RLS_SHARED names. What the editor tells goes to the replica, and what others change goes to the editor.
import path from 'node:path';
import { fileURLToPath } from 'node:url';
import { compared, crossed, Mailbox, Session } from '../node/rls.js';
import { Wire } from './wire.js';

const ROUND = 300; // milliseconds between two looks into the shared folder
const AGAIN = 30; // milliseconds until an editor is asked again that had changed its text meanwhile

const textAfter = (text, changes) => changes.reduce((now, { at, count, text: come }) => now.slice(0, at) + come + now.slice(at + count), text);

const sizeOf = (changes) => changes.reduce((sum, { count, text }) => sum + count + text.length, 0);

/** Where a place `{ line, character }` is in a text, in units, and the other way round. */
function offsetOf(text, { line, character }) {
  let at = 0;
  for (let k = 0; k < line; k += 1) {
    const end = text.indexOf('\n', at);
    if (end < 0) return text.length;
    at = end + 1;
  }
  return Math.min(at + character, text.length);
}
function positionOf(text, at) {
  const front = text.slice(0, at).split('\n');
  return { line: front.length - 1, character: front.at(-1).length };
}

/** What the editor tells as changes of its text, one after another. */
function changesOf(text, told) {
  const changes = [];
  let now = text;
  for (const { range, text: come } of told) {
    const at = range ? offsetOf(now, range.start) : 0;
    changes.push({ at, count: (range ? offsetOf(now, range.end) : now.length) - at, text: come });
    now = textAfter(now, changes.slice(-1));
  }
  return changes;
}

/**
 * One document. `shown` is the editor's text as far as it told. `pending` are changes of others that lead from there to the replica's text.
 * `asked` are those of them that the editor was asked to make; until it has answered, what it tells is held.
 */
class Document {
  shown = '';
  pending = [];
  asked = null;
  held = null;

  static async open(wire, uri, version, text) {
    const file = fileURLToPath(uri);
    const document = Object.assign(new Document(), { wire, uri, version, shown: text });
    document.session = await Session.open(path.join(path.dirname(file), '.rls', path.basename(file)));
    document.mailbox = await Mailbox.open(process.env.RLS_SHARED, document.session);
    document.pending = compared(text, document.session.text).found.reverse();
    document.session.on('change', (changes) => {
      document.pending.push(...changes);
      document.ask();
    });
    document.timer = setInterval(() => document.round(), ROUND);
    document.ask();
    return document;
  }

  /** Takes and sends, unless something is being typed: what goes on with it is then one change. */
  async round() {
    if (this.isBusy || this.session.storeDueIn() > 0) return;
    this.isBusy = true;
    await this.mailbox.sync(this.session).catch((error) => this.wire.tell(error.message));
    this.isBusy = false;
  }

  /** Asks the editor to make what others changed. It does so if its text is still the one of this version, and says whether it has. */
  async ask() {
    if (this.asked || this.pending.length === 0) return;
    // Crossed with nothing, they are from the last to the first, with places of the text that the editor shows.
    [this.asked] = crossed(this.pending, []);
    [this.pending, this.held] = [[], []];
    const edits = this.asked.map(({ at, count, text }) => ({
      range: { start: positionOf(this.shown, at), end: positionOf(this.shown, at + count) },
      newText: text,
    }));
    const textDocument = { uri: this.uri, version: this.version };
    const answer = await this.wire.ask('workspace/applyEdit', { edit: { documentChanges: [{ textDocument, edits }] } });
    if (answer?.applied !== true) this.giveUp();
    const { held } = this;
    this.held = null;
    for (const told of held) this.accept(told);
    if (!this.asked) setTimeout(() => this.ask(), AGAIN);
  }

  /** What was asked for isn't made: it is still to come. */
  giveUp() {
    this.pending = [...this.asked, ...this.pending];
    this.asked = null;
  }

  /** What the editor tells. While it is asked for something, it isn't known yet whether this comes before it. */
  hear(version, told) {
    this.version = version;
    if (this.asked && this.held) this.held.push(told);
    else this.accept(told);
    if (!this.asked) this.ask();
  }

  accept(told) {
    let typed = changesOf(this.shown, told);
    if (this.asked) typed = this.withoutAsked(typed);
    this.shown = textAfter(this.shown, typed);
    [typed, this.pending] = crossed(typed, this.pending);
    for (const { at, count, text } of typed) this.session.replace(at, count, text).catch((error) => this.wire.tell(error.message));
  }

  /**
   * The editor tells what it was asked for first, by itself or with what was typed after it; the rest is on the text after it. Neovim says that
   * it has made what it was asked for also where it hasn't, since its text had gone on. Then what it tells is nearer to the text from before.
   */
  withoutAsked(changes) {
    const made = textAfter(this.shown, this.asked);
    let now = this.shown;
    for (let k = 0; k < changes.length; k += 1) {
      now = textAfter(now, [changes[k]]);
      if (now === made) return this.goOn(made, changes.slice(k + 1));
    }
    const [since, before] = [made, this.shown].map((text) => compared(text, now).found);
    if (sizeOf(since) <= sizeOf(before)) return this.goOn(made, since.reverse());
    this.giveUp();
    return changes;
  }

  goOn(text, rest) {
    [this.shown, this.asked] = [text, null];
    return rest;
  }

  async close() {
    clearInterval(this.timer);
    await this.mailbox.sync(this.session).catch((error) => this.wire.tell(error.message));
    await this.session.close();
  }
}

const documents = new Map();
const wire = new Wire(process.stdin, process.stdout, {
  initialize: () => ({ capabilities: { textDocumentSync: { openClose: true, change: 2 } }, serverInfo: { name: 'rls-lsp' } }),
  'textDocument/didOpen': async ({ textDocument: { uri, version, text } }) => {
    documents.set(uri, await Document.open(wire, uri, version, text));
  },
  'textDocument/didChange': ({ textDocument: { uri, version }, contentChanges }) => documents.get(uri)?.hear(version, contentChanges),
  'textDocument/didClose': async ({ textDocument: { uri } }) => {
    await documents.get(uri)?.close();
    documents.delete(uri);
  },
  shutdown: async () => {
    for (const document of documents.values()) await document.close();
    documents.clear();
    return null;
  },
  exit: () => process.exit(0),
});
