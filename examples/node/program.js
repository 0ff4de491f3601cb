// One running `rls session`: lines and bytes through pipes in both directions.
import { spawn } from 'node:child_process';
import { RlsError } from './errors.js';

const WAITING = /waiting for it/; // what the launcher says if another program holds the folder

export class Program {
  #child;
  #have = [];
  #size = 0;
  #wake = () => {};
  #isOver = false;
  #said = '';

  /** Begins a session. If another program holds the folder for longer than `wait` milliseconds, it is given up. */
  constructor(command, folder, wait) {
    // In a group of its own, so that Ctrl-C in a terminal doesn't reach it: at the end of its input it stores.
    this.#child = spawn(command, ['session'], { cwd: folder, stdio: 'pipe', detached: true });
    this.#child.stdin.on('error', () => {});
    this.#child.stdout.on('data', (data) => {
      this.#have.push(data);
      this.#size += data.length;
      this.#wake();
    });
    this.#child.stderr.setEncoding('utf8').on('data', (text) => {
      if (this.#said.length < 10_000) this.#said += text;
      if (WAITING.test(text)) this.#giveUpAfter(wait);
    });
    this.ended = new Promise((resolve) => {
      this.#child.on('error', (error) => this.#over(resolve, 70, error.message));
      this.#child.on('close', (status, signal) => this.#over(resolve, status ?? 70, signal ? `killed by ${signal}` : this.#said.trim()));
    });
  }

  #over(resolve, status, line) {
    this.#isOver = true;
    resolve({ status, line });
    this.#wake();
  }

  #giveUpAfter(wait) {
    this.isWaiting = true;
    this.timer = setTimeout(() => {
      if (!this.isWaiting) return;
      this.isInUse = true;
      this.kill();
    }, wait);
    this.timer.unref();
  }

  /** Stops it as a crash would, and what it has started. */
  kill() {
    try {
      process.kill(-this.#child.pid, 'SIGKILL');
    } catch {
      // It has ended.
    }
  }

  write(line, data) {
    this.#child.stdin.write(`${line}\n`);
    if (data) this.#child.stdin.write(data);
  }

  end() {
    this.#child.stdin.end();
  }

  async #more() {
    if (this.#isOver) {
      const { status, line } = await this.ended;
      throw this.isInUse ? new RlsError(7, 'another program uses this replica') : new RlsError(status, line || 'the session has ended');
    }
    await new Promise((resolve) => {
      this.#wake = resolve;
    });
    this.isWaiting = false;
  }

  #taken(count) {
    const all = this.#have.length === 1 ? this.#have[0] : Buffer.concat(this.#have);
    this.#have = [all.subarray(count)];
    this.#size = all.length - count;
    return all.subarray(0, count);
  }

  /** The next line of a reply, without its line feed. */
  async line() {
    for (let seen = 0, before = 0; ; ) {
      while (seen < this.#have.length) {
        const at = this.#have[seen].indexOf(10);
        if (at >= 0) return this.#taken(before + at + 1).toString('utf8', 0, before + at);
        before += this.#have[seen].length;
        seen += 1;
      }
      await this.#more();
    }
  }

  /** The next bytes of a reply, after which a line feed comes. */
  async bytes(count) {
    while (this.#size < count + 1) await this.#more();
    return this.#taken(count + 1).subarray(0, count);
  }
}
