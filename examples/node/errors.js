// What a call may throw.

/** A session or a command that ended, or a request that isn't known; `status` is as docs/USE.md has it. */
export class RlsError extends Error {
  constructor(status, line) {
    super(`rls: ${line || 'no line'} (status ${status})`);
    this.name = new.target.name;
    this.status = status;
    this.line = line;
  }
}

/** An edit, a cursor or a message that was refused; `line` says why. */
export class Refused extends RlsError {
  constructor(line) {
    super(6, line);
  }
}

/**
 * Another member knows more of this member's operations than this replica has: its files were put back from a copy, or two members have
 * one number. Going on would part the texts for ever.
 */
export class Stale extends RlsError {
  constructor(line) {
    super(71, line);
  }
}

/** Two replicas write with one number, or two copies of one. Nothing more is written into the shared folder. */
export class UsedTwice extends Stale {
  constructor(file, { group, me }, why) {
    super(
      `number ${me} of text ${group} is used twice: ${why}, as ${file} shows. Nothing more is sent from here. Keep what \`rls text\` prints, and ` +
        'begin in a new folder with a number that nobody has used; the other one goes on. If there is no other one, delete that file ' +
        '(docs/USE.md, "A number used twice")',
    );
  }
}
