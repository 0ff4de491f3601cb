// A replica in a folder, by one running `rls session` (docs/SESSION.md). Places are UTF-16 units, as JavaScript and most editors count.
import { execFile } from 'node:child_process';
import { EventEmitter } from 'node:events';
import { promisify } from 'node:util';
import { changesOf, changesTold, CHARACTERS, crossed, placeAfter } from './changes.js';
import { changeOf, validText, editsOf, lineOf } from './edits.js';
import { Refused, RlsError } from './errors.js';
import { Program } from './program.js';
import { costsOf, MOST_RUNS, Renaming } from './renaming.js';
import { headOf, statOf } from './reports.js';
import { Text } from './text.js';

const MOST_INPUT = 67_108_864 - 4_096; // bytes that a session reads before it stores, less some
const AT_ONCE = 256; // changes that are handed on before their replies are read, with version 3
const REST = [1000, 3000]; // milliseconds from the last change to a store, and at most from the first one
const HOLD = 3000; // the same, if the last change took something away: what is put in its place comes then

/**
 * Emits `change` with a list of changes `{ at, count, text }`, in units, to be played one after another over the text as the caller has it:
 * what others changed, and what `undo` and `redo` did. Own edits aren't told. `failed`, with the error, says that the program has ended.
 */
export class Session extends EventEmitter {
  #program;
  #command;
  #wait;
  #text = new Text();
  #queue = []; // what is still to be asked, in order; edits are made in #text already
  #isAsking = false;
  #version = 1;
  #given = 0;
  #renaming = new Renaming();
  #failure = null;
  #isEnding = false;
  #typed = null; // when the first and the last change were made that aren't stored yet, and whether the last one only took something away

  /** The clock by which `storeDueIn` counts, in milliseconds. */
  clock = () => performance.now();

  /**
   * Opens the replica of a folder. `program` is `rls` or what the environment's RLS names. If another program holds the folder for longer than
   * `wait` milliseconds, it is an RlsError with status 7. `renameAt` is the number of runs from which it renames when it stores; 0 for never.
   */
  static async open(folder, { program = process.env.RLS ?? 'rls', wait = 0, renameAt = MOST_RUNS } = {}) {
    const session = new Session();
    session.folder = folder;
    session.renameAt = renameAt;
    session.#command = program;
    session.#wait = wait;
    await session.#begin();
    session.#text = new Text(await session.#askText());
    return session;
  }

  /** What the program speaks: 1, 2, 3 or 4. */
  get version() {
    return this.#version;
  }

  /** Whether something isn't stored yet. */
  isUnsaved = false;

  /** The text, with the edits that were asked for and aren't answered yet. */
  get text() {
    return this.#text.toString();
  }

  get length() {
    return this.#text.length;
  }

  // --- One request, one reply

  async #begin() {
    this.#program = new Program(this.#command, this.folder, this.#wait);
    this.#given = 0;
    this.#version = 1;
    for (const version of [4, 3, 2]) this.#put(version > 2 ? `v ${version}` : 'v');
    for (const version of [4, 3, 2]) if ((await this.#program.line()) === `version ${version}`) this.#version = Math.max(this.#version, version);
    if (this.#version >= 2 && (await this.#line('c 1')) !== 'telling 1') this.#version = 1;
    this.isUnsaved = false;
  }

  #put(line, data) {
    this.#given += Buffer.byteLength(line) + 1 + (data?.length ?? 0);
    this.#program.write(line, data);
  }

  async #line(line, data) {
    this.#put(line, data);
    return this.#program.line();
  }

  /** The words of a reply. Changes that it tells are made here. */
  async #ask(line, data) {
    const reply = await this.#line(line, data);
    if (reply === 'bad') throw new RlsError(4, `bad: ${line.slice(0, 60)}`);
    if (this.#version >= 2 && /^[idbruzym]( |$)/.test(line)) await this.#readChanges(/^[id] /.test(line) && !reply.startsWith('no '));
    if (reply.startsWith('no ')) throw new Refused(reply.slice(3));
    return reply.split(' ');
  }

  async #readChanges(isOwn) {
    const count = Number((await this.#program.line()).split(' ')[1]);
    const found = [];
    for (let k = 0; k < count; k += 1) {
      const line = await this.#program.line();
      if (k > 0 || !isOwn) found.push(changeOf(line));
    }
    this.#accept(found);
  }

  async #askText() {
    const [, count] = await this.#ask('t');
    return (await this.#program.bytes(Number(count))).toString();
  }

  #need(what) {
    if (this.#version < 2) throw new RlsError(4, `${what}: this program has the first version of the session`);
  }

  // --- The text

  /** Makes changes of the program's text here: they were made without the edits that aren't asked for yet, and so are these without them. */
  #accept(changes) {
    if (changes.length === 0) return;
    let news = changes;
    for (const entry of this.#queue) {
      if (entry.place !== undefined) entry.place = placeAfter(entry.place, news, { measure: CHARACTERS });
      if (!entry.edits) continue;
      const [edits, then] = crossed(entry.edits, news, CHARACTERS);
      entry.edits = edits.flatMap((change) => editsOf(change, this.#version));
      news = then;
    }
    if (news.length === 0) return;
    this.emit('change', news.map((change) => this.#text.apply(change)));
  }

  /** Makes the text here that of the program: after a refusal, or where the program doesn't tell what changed. */
  async #compare(before) {
    this.#accept(changesOf(before, await this.#askText()));
  }

  /** Performs what is asked for, one after another. What is at work stays the first of the queue, so its places move too. */
  async #work() {
    if (this.#isAsking) return;
    this.#isAsking = true;
    while (this.#queue.length > 0) {
      const entry = this.#queue[0];
      let finish;
      try {
        if (this.#failure) throw this.#failure;
        const answer = await (entry.what ? entry.what(entry.place) : this.#perform(entry));
        finish = () => entry.resolve(answer);
      } catch (error) {
        if (!(error instanceof Refused) && !(error instanceof RangeError)) this.#fail(error);
        finish = () => entry.reject(error);
      }
      this.#queue.shift();
      finish();
    }
    this.#isAsking = false;
  }

  #fail(error) {
    if (this.#failure || (error instanceof RlsError && error.status === 4)) return;
    this.#failure = error;
    this.#program.end();
    if (!this.#isEnding) this.emit('failed', error);
  }

  #asked(entry) {
    return new Promise((resolve, reject) => {
      this.#queue.push({ ...entry, resolve, reject });
      this.#work();
    });
  }

  /** Sends edits that are made here already. If one is refused, those that are still to be sent are given up, and the text is the program's. */
  async #perform(entry) {
    try {
      while (entry.edits.length > 0) await (this.#version >= 3 ? this.#handOn(entry.edits) : this.#edit(entry.edits.shift()));
    } catch (error) {
      if (!(error instanceof Refused)) throw error;
      const isGiven = (other) => other !== entry && other.edits;
      const given = this.#queue.filter(isGiven);
      entry.edits = [];
      this.#queue = this.#queue.filter((other) => !isGiven(other));
      for (const other of given) other.reject(error);
      await this.#compare(this.text);
      throw error;
    }
  }

  async #edit(change) {
    const line = lineOf(change, this.#version);
    await this.#roomFor(Buffer.byteLength(line) + 64);
    await this.#ask(line);
    this.#edited(1);
    this.#renaming.put(Buffer.byteLength(line));
  }

  /** Hands changes on without waiting for a reply to each: nothing of others happens in the session between them. */
  async #handOn(edits) {
    const lines = edits.splice(0, AT_ONCE).map((change) => lineOf(change, this.#version));
    await this.#roomFor(lines.reduce((sum, line) => sum + Buffer.byteLength(line) + 1, 64));
    for (const line of lines) {
      this.#put(line);
      this.#renaming.put(Buffer.byteLength(line));
    }
    let refused = null;
    for (const line of lines) {
      const reply = await this.#program.line();
      if (reply === 'bad') throw new RlsError(4, `bad: ${line.slice(0, 60)}`);
      if (reply.startsWith('no ')) refused ??= new Refused(reply.slice(3));
      else this.#edited(1);
    }
    if (refused) throw refused;
  }

  #edited(count) {
    this.#renaming.changed(count);
    this.isUnsaved = true;
  }

  /** Takes `count` units away from `at` on, and puts `string` there. The text here has it at once; the answer comes when the program has it. */
  async replace(at, count, string) {
    if (this.#failure) throw this.#failure;
    const [from, to] = [this.#text.toCharacters(at), this.#text.toCharacters(at + count)];
    const edits = editsOf({ at: from, count: to - from, text: validText(string) }, this.#version);
    this.#text.splice(at, count, string);
    this.#noteTyped(count > 0 && !string);
    if (edits.length > 0) await this.#asked({ edits });
  }

  insert(at, string) {
    return this.replace(at, 0, string);
  }

  delete(at, count) {
    return this.replace(at, count, '');
  }

  /**
   * Makes the text this one, and where it stays as it is, what others write there keeps its place (examples/COMPARE.md). It answers
   * `{ isCut }`: whether some part was so different that it was compared by cheaper means. Then what others wrote in it meanwhile may stand
   * beside its place.
   */
  async setText(string) {
    if (this.#failure) throw this.#failure;
    const { changes, isCut } = changesTold(this.text, validText(string));
    const edits = changes.flatMap((change) => editsOf(change, this.#version));
    this.#text = new Text(string);
    this.#noteTyped(false);
    if (edits.length > 0) await this.#asked({ edits });
    return { isCut };
  }

  // --- When to store

  #noteTyped(isTaken) {
    const now = this.clock();
    this.#typed = { first: this.#typed?.first ?? now, last: now, isTaken };
  }

  /**
   * In how many milliseconds it is well to store and to send, if nothing more is typed: 0 is now, and null says that nothing was. It is a second
   * after the last change, and three after the first one at the latest; three after a change that took something away, so that what is put in
   * its place becomes one change with it (docs/SESSION.md).
   */
  storeDueIn() {
    if (!this.#typed) return null;
    const { first, last, isTaken } = this.#typed;
    const due = Math.min(last + (isTaken ? HOLD : REST[0]), first + REST[1] + (isTaken ? HOLD : 0));
    return Math.max(0, due - this.clock());
  }

  // --- Undo

  /**
   * Takes own edits back, whatever others did since: since version 2 the last group (see `endGroup`), also after it was stored; with version 1
   * the last edit that isn't stored. The answer is whether there was anything.
   */
  undo() {
    return this.#undo(() => (this.#version >= 2 ? 'z' : 'u'));
  }

  /** Does the group again that was taken back last. With version 1 it is an RlsError with status 4. */
  redo() {
    return this.#undo(() => {
      this.#need('redo');
      return 'y';
    });
  }

  #undo(lineFor) {
    return this.#asked({
      what: async () => {
        const before = this.#version < 2 ? await this.#askText() : '';
        try {
          await this.#ask(lineFor());
        } catch (error) {
          if (error instanceof Refused && error.line === 'nothing') return false;
          throw error;
        }
        if (this.#version < 2) await this.#compare(before);
        this.#edited(1);
        this.#renaming.put(NaN);
        return true;
      },
    });
  }

  /** Ends the group of own edits that is open. The answer is how many can be undone, and how many redone: `{ undoable, redoable }`. */
  endGroup() {
    return this.#asked({
      what: async () => {
        this.#need('endGroup');
        const [, undoable, redoable] = await this.#ask('g');
        return { undoable: Number(undoable), redoable: Number(redoable) };
      },
    });
  }

  // --- Messages

  /** Takes a message. The answer has the counts `applied`, `released`, `repeated`, `held` and `refused`. */
  take(message) {
    return this.#asked({
      what: async () => {
        if (message.length > MOST_INPUT - 64) throw new Refused('no session reads a message of so many bytes');
        await this.#roomFor(message.length + 64);
        const before = this.#version < 2 ? await this.#askText() : '';
        const words = await this.#ask(`m ${message.length}`, message);
        if (this.#version < 2) await this.#compare(before);
        const report = {};
        for (let k = 0; k + 1 < words.length; k += 2) report[words[k]] = Number(words[k + 1]);
        this.#edited(report.applied + report.released);
        return report;
      },
    });
  }

  /**
   * The message for a member; since version 4 without what it told that it has, by the counts of its last message, and without its own. What isn't
   * stored may be sent to nobody, since a crash would give its numbers to other edits: so it stores first.
   */
  message(to, told = null) {
    return this.#asked({
      what: async () => {
        if (this.isUnsaved) await this.#store();
        return this.#message(to, this.#version >= 4 ? told : null);
      },
    });
  }

  async #message(to, told = null) {
    const [, count] = await this.#ask(`s ${[to, ...(told ?? [])].join(' ')}`);
    return Buffer.from(await this.#program.bytes(Number(count)));
  }

  /** Who this is: `{ group, members, me, accepted }`, of which the last one counts the accepted operations of each member. */
  head() {
    return this.#asked({
      what: async () => {
        if (this.#version < 2) return headOf(await this.#message(0));
        const { group, members, me, accepted } = await this.#stat();
        return { group: group[0], members: members[0], me: me[0], accepted };
      },
    });
  }

  async #stat() {
    const [, count] = await this.#ask('n');
    return statOf(await this.#program.bytes(Number(count)));
  }

  // --- Cursors

  /** Puts one of the cursors 0 to 63 (with version 1 there is 0 alone), which moves with the character before it or, with `before`, the one after it. */
  putCursor(at, { cursor = 0, before = false } = {}) {
    return this.#askedAt(at, async (place) => {
      if (cursor > 0 || before) this.#need('putCursor');
      await this.#ask(`${before ? 'j' : 'k'} ${place}${cursor > 0 ? ` ${cursor}` : ''}`);
    });
  }

  /** Asks for something at a place of the text as it is here now; others may change the text before it is asked. */
  async #askedAt(at, what) {
    return this.#asked({ what, place: this.#text.toCharacters(at) });
  }

  /** Where that cursor is now. */
  cursor(cursor = 0) {
    return this.#asked({
      what: async () => {
        if (cursor > 0) this.#need('cursor');
        return this.#unitOf((await this.#ask(cursor > 0 ? `p ${cursor}` : 'p'))[1]);
      },
    });
  }

  /** A place as one word, for other members. Needs version 2. */
  place(at) {
    return this.#askedAt(at, async (place) => {
      this.#need('place');
      return (await this.#ask(`a ${place}`))[1];
    });
  }

  /** Where a place that a member told is here, now; Refused if its epoch isn't known here. Needs version 2. */
  located(place) {
    return this.#asked({
      what: async () => {
        this.#need('located');
        if (!/^[!-~]+$/.test(place)) throw new RangeError('no place');
        return this.#unitOf((await this.#ask(`l ${place}`))[1]);
      },
    });
  }

  /** Where a character of the program's text is in the text here, which has edits that aren't asked for yet. */
  #unitOf(character) {
    let place = Number(character);
    for (const { edits } of this.#queue) if (edits) place = placeAfter(place, edits, { behind: true, measure: CHARACTERS });
    return this.#text.toUnits(place);
  }

  // --- Storing

  /** Stores, and goes on. It renames if the text has many runs of identifiers (docs/USE.md, "When to rename"). */
  save() {
    return this.#asked({ what: () => this.#store() });
  }

  async #roomFor(bytes) {
    if (this.#given + bytes > MOST_INPUT) await this.#store();
  }

  async #store() {
    await (this.#version >= 2 ? this.#storeAndGoOn() : this.#beginAgain());
    if (!(await this.#renaming.isDue(this.renameAt, async () => (this.#version < 4 ? null : costsOf(await this.#line('o'))), () => this.#numbers())) || !(await this.#rename())) return;
    await (this.#version >= 2 ? this.#storeAndGoOn() : this.#beginAgain());
  }

  async #numbers() {
    if (this.#version >= 2) return this.#stat();
    return statOf((await promisify(execFile)(this.#command, ['stat'], { cwd: this.folder })).stdout);
  }

  /** Whether the rename was accepted. */
  async #rename() {
    try {
      await this.#ask('r');
    } catch (error) {
      if (!(error instanceof Refused)) throw error;
      this.#renaming.refused(error.line);
      return false;
    }
    return true;
  }

  async #storeAndGoOn() {
    if (!this.#queue.some((entry, k) => k > 0 && entry.edits)) this.#typed = null;
    if ((await this.#line('w')) !== 'saved') throw new RlsError(7, 'not stored');
    this.#given = 0;
    this.isUnsaved = false;
  }

  /** With version 1 only the end of a session stores, so another one begins. */
  async #beginAgain() {
    const [, at] = await this.#ask('p');
    await this.#quit();
    await this.#begin();
    await this.#ask(`k ${at}`);
  }

  async #quit() {
    const reply = await this.#line('q');
    this.#program.end();
    const { status, line } = await this.#program.ended;
    if (reply !== 'saved' || status !== 0) throw new RlsError(status, line);
    this.isUnsaved = false;
  }

  /** Stores, and ends the session. */
  async close() {
    this.#isEnding = true;
    if (this.#failure) return;
    await this.#asked({ what: () => this.#quit() });
    this.#failure = new RlsError(9, 'the session has ended');
  }

  /** Stops the program as a crash would: what isn't stored is lost. */
  async kill() {
    this.#isEnding = true;
    this.#program.kill();
    await this.#program.ended;
  }
}
