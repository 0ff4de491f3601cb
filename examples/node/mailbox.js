// Messages through a folder that all members see: a file `GROUP-FROM-TO.rlsm` from each member to each other one, which has all that its
// receiver isn't known to have, so only the latest is kept. It may be replaced, lost, or come late or twice.
import { createHash } from 'node:crypto';
import { promises as fs } from 'node:fs';
import path from 'node:path';
import { Refused, RlsError, Stale, UsedTwice } from './errors.js';
import { regular, replace, sizeOf, timesOf } from './files.js';
import { headOf } from './reports.js';
import { toldOfFile, toldOfMember } from './telling.js';
import * as tokens from './tokens.js';

const MOST_MESSAGE = 67_108_864;
const MOST_HEAD = 277; // bytes of the head of a message, where there are 64 members
const MOST_CURSOR = 65_536; // bytes of a file with a cursor
const MOST_NAME = 40; // characters of a name beside a cursor

/** A name as it may be shown: without what a screen would take for more than a letter, and not too long. */
const shown = (name) =>
  [...name.replace(/[\p{C}\p{Zl}\p{Zp}]/gu, '')].slice(0, MOST_NAME).join('').trim();

/** The members in whose name, as somebody has told the launcher by RLS_FORCE=1, what they count of this member's operations isn't so. */
const doubted = async (folder, own) => {
  const lines = (await fs.readFile(path.join(folder, 'replica.doubted'), 'latin1').catch(() => '')).split('\n');
  const start = `${own.group}-${own.members}-${own.me} `;
  return new Set(lines.filter((line) => line.startsWith(start)).map((line) => Number(line.slice(start.length))));
};

/**
 * A mailbox of one member. What shows that another replica writes with its number is a UsedTwice, from every call, until its file is gone.
 *
 * A message that counts more of this member's operations than it has made isn't taken, and those of others are. As long as its file is there
 * `send`, and so `sync`, rejects with a Stale: if this replica's files are old, what it sends would part the texts for ever. If somebody
 * forged it, delete it; or tell the launcher to doubt that member, by RLS_FORCE=1 (docs/USE.md, "Rules").
 */
export class Mailbox {
  #taken = new Map();
  #sent = new Map();
  #limitsTold = new Set(); // members, and the own one for the stored file
  #refused = new Map(); // messages whose heads aren't what their names say: each is told once
  #ahead = new Map(); // what is said of each member whose message counts what wasn't made here
  #shownCursor = '';
  #quiet = ''; // what both folders were like in a round in which nothing came and nothing went

  /** A mailbox in a folder, for the member that `session.head()` answers. */
  static async open(folder, session) {
    const box = new Mailbox();
    box.folder = folder;
    box.head = await session.head();
    await fs.mkdir(folder, { recursive: true });
    return box;
  }

  path(from, to) {
    return path.join(this.folder, `${this.head.group}-${from}-${to}.rlsm`);
  }

  #others() {
    return Array.from({ length: this.head.members }, (_, k) => k).filter((k) => k !== this.head.me);
  }

  /** The names in the folder that are of this text. */
  async #names() {
    return (await fs.readdir(this.folder)).filter((name) => name.startsWith(`${this.head.group}-`)).sort();
  }

  async #look(session) {
    await tokens.look(this.folder, this.head, session.folder, await this.#names());
  }

  /**
   * Takes what is new. The answer is a list of `{ from, report }`, or `{ from, error }` for what couldn't be taken, which stops no other
   * member's message.
   */
  async receive(session) {
    await this.#look(session);
    const found = [];
    for (const from of this.#others()) {
      try {
        const message = await regular(this.path(from, this.head.me), MOST_MESSAGE);
        const mark = message && createHash('sha256').update(message).digest('hex');
        if (!message || this.#taken.get(from) === mark) {
          this.#ahead.delete(from);
          continue;
        }
        const fault = await this.#faultOf(session, from, message);
        if (fault) {
          if (this.#refused.get(from) !== mark) found.push({ from, error: new Refused(fault) });
          this.#refused.set(from, mark);
          continue;
        }
        const report = await session.take(message);
        this.#taken.set(from, mark);
        found.push({ from, report });
      } catch (error) {
        if (!(error instanceof Refused) && ![8, 11].includes(error.status)) throw error;
        found.push({ from, error });
      }
    }
    return found;
  }

  /** Why the head of a message isn't what it has to be at this name; '' if it is, or if this is no head, which `take` says then. */
  async #faultOf(session, from, message) {
    this.#ahead.delete(from);
    let head;
    try {
      head = headOf(message);
    } catch {
      return '';
    }
    const own = await session.head();
    const { me } = own;
    const name = path.basename(this.path(from, me));
    if (head.group !== own.group || head.members !== own.members) return `${name} is of another text; it stays where it is`;
    if (head.me !== from) return `${name} says that it is of member ${head.me}; it stays where it is`;
    if (head.accepted[me] <= own.accepted[me]) return '';
    const line = `${name} counts ${head.accepted[me]} operations of member ${me}, who has made ${own.accepted[me]}`;
    if (!(await doubted(session.folder, own)).has(from)) this.#ahead.set(from, line);
    return line;
  }

  /**
   * Whether nothing ever came from this number and the message that it has already has more than half the bytes of this one. Each of them has
   * the whole history. Whoever begins with the number takes the one that is there and answers, and gets the rest.
   */
  async #isEnough(to, message) {
    const there = await sizeOf(this.path(this.head.me, to));
    return there !== null && 2 * there > message.length && headOf(message).accepted[to] === 0 && (await sizeOf(this.path(to, this.head.me))) === null;
  }

  /**
   * Whether this message is in the folder already. One of an older state of the folder has another size. It is a UsedTwice if what is there
   * was written with this number, and not by this replica.
   */
  async #isThere(session, to, message, mark) {
    const file = this.path(this.head.me, to);
    if (this.#sent.get(to) === mark && (await sizeOf(file)) === message.length) return true;
    const there = await regular(file, MOST_MESSAGE).catch(() => null);
    if (!there) return false;
    if (there.equals(message)) {
      this.#sent.set(to, mark);
      return true;
    }
    let head;
    try {
      head = headOf(there);
    } catch {
      return false;
    }
    const own = await session.head();
    const isOwn = head.group === own.group && head.members === own.members && head.me === own.me;
    if (isOwn && head.accepted[own.me] > own.accepted[own.me]) {
      throw new UsedTwice(file, own, 'it has more operations of this number than this replica has made');
    }
    return false;
  }

  /** What the last message of this member, if it is there, says that it has. */
  async #told(to) {
    try {
      const head = headOf(await regular(this.path(to, this.head.me), MOST_MESSAGE, MOST_HEAD));
      return head.group === this.head.group && head.members === this.head.members && head.me === to ? head.accepted : null;
    } catch {
      return null;
    }
  }

  /**
   * Stores, and writes what is new. The answer is a list of `{ to, error }` for what couldn't be written, which stops no other member's. It
   * rejects with a Stale while there is a message that counts more of this member's operations than it has made.
   */
  async send(session) {
    return (await this.#send(session)).failed;
  }

  async #send(session) {
    await this.#look(session);
    for (const line of this.#ahead.values()) {
      throw new Stale(`${line}. The files in ${session.folder} are old, or the number is used twice: nothing is sent. Or somebody forged it: then delete it`);
    }
    this.#tellOnce(this.head.me, await toldOfFile(session.folder));
    const failed = [];
    let count = 0;
    for (const to of this.#others()) {
      const message = await session.message(to, await this.#told(to));
      this.#tellOnce(to, await toldOfMember(to, message.length, this.path(to, this.head.me)));
      const mark = createHash('sha256').update(message).digest('hex');
      if ((await this.#isThere(session, to, message, mark)) || (await this.#isEnough(to, message))) continue;
      try {
        if (count === 0) await tokens.show(this.folder, this.head, session.folder);
        await replace(this.path(this.head.me, to), message);
        this.#sent.set(to, mark);
        count += 1;
      } catch (error) {
        failed.push({ to, error });
      }
    }
    return { failed, count };
  }

  #tellOnce(member, line) {
    if (line && !this.#limitsTold.has(member)) process.emitWarning(line);
    if (line) this.#limitsTold.add(member);
  }

  /** What names, sizes and times in both folders are. The gate's time says nothing: what only reads renews it. */
  async #mark(session) {
    return `${await timesOf(session.folder, ['replica.0', 'replica.1', 'replica.rls'])}\n\n${await timesOf(this.folder, await this.#names())}`;
  }

  /**
   * Takes what came, and sends what is new: `{ received, failed }`. Where nothing has changed, it looks at names and times alone. A Stale has
   * what came in `received`: what others sent was taken.
   */
  async sync(session) {
    const before = await this.#mark(session);
    if (!session.isUnsaved && before === this.#quiet) return { received: [], failed: [] };
    const received = await this.receive(session);
    const { failed, count } = await this.#send(session).catch((error) => {
      throw Object.assign(error, { received });
    });
    this.#quiet = received.length + failed.length + count === 0 ? before : '';
    return { received, failed };
  }

  // --- Cursors, which no message has: a file for each member

  cursorPath(member) {
    return path.join(this.folder, `${this.head.group}-${member}.cursor`);
  }

  /** Tells the others where this member's cursor is, and a name to show beside it. */
  async showCursor(session, at, name = '') {
    const line = `${await session.place(at)} ${shown(name)}`.trim();
    if (line === this.#shownCursor) return;
    await this.#look(session);
    await replace(this.cursorPath(this.head.me), `${line}\n`);
    this.#shownCursor = line;
  }

  /** Where the others' cursors are now: a list of `{ from, at, name }`. What can't be read as a cursor is left out. */
  async cursors(session) {
    const found = [];
    for (const from of this.#others()) {
      try {
        const data = await regular(this.cursorPath(from), MOST_CURSOR);
        const [, place, name] = /^([!-~]+)(?: (.*))?$/m.exec((data ?? '').toString().split('\n')[0]) ?? [];
        if (place) found.push({ from, at: await session.located(place), name: shown(name ?? '') });
      } catch (error) {
        if (!(error instanceof RlsError)) throw error;
      }
    }
    return found;
  }
}
