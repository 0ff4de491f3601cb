// When a session renames (docs/USE.md, "When to rename").

/** Runs of identifiers from which a rename is due. */
export const MOST_RUNS = 500;

const RUN_BYTES = 64; // so many bytes of a rename's operation count as a run
const PLAIN_BYTES = 200; // an own operation may have so many beside its text, and 4 for each member; more than that was spent
const LATEST = 4; // a rename is due in any case from one part in so many of the greatest operation on

/** What a reply to `o` tells (docs/SESSION.md); null if the program doesn't know that line. */
export function costsOf(reply) {
  if (reply === 'bad') return null;
  const words = reply.split(' ');
  return Object.fromEntries(words.flatMap((word, k) => (k % 2 ? [] : [[word, Number(words[k + 1])]])));
}

/** What was spent since the last rename: the bytes of own operations that no plain text needs. */
export class Renaming {
  #put = 0; // bytes of text that was put in since the last look; NaN if nobody knows
  #spent = 0;
  #seen = null; // own operations and their bytes at the last look
  #changed = MOST_RUNS;
  #members = 0;
  #isRefusalTold = false;

  /** So much was changed, by whomever. */
  changed(count) {
    this.#changed += count;
  }

  /** So many bytes of text were put in; NaN if nobody knows. */
  put(bytes) {
    this.#put += bytes;
  }

  /**
   * Whether to rename now; it is done then. `costs` and `numbers` ask the session for what `o` and `n` tell. Where a program has no line `o`, or
   * somebody else may have changed what is long, it looks only if an eighth of `renameAt` has changed since it looked last.
   */
  async isDue(renameAt, costs, numbers) {
    if (renameAt <= 0) return false;
    const isLongAgo = this.#changed * 8 >= renameAt;
    if (isLongAgo) this.#changed = 0;
    const told = await costs();
    if (told) {
      this.#members ||= (await numbers()).members[0];
      return this.#pays(told, renameAt, isLongAgo);
    }
    if (!isLongAgo) return false;
    const { runs, epochs } = await numbers();
    return runs[0] > renameAt * Math.min(8, epochs[0]);
  }

  /** The rename was refused for this reason. It is a warning, once. */
  refused(reason) {
    const told = `the text can't be renamed any more (${reason}), so files and messages stay large`;
    if (!this.#isRefusalTold) process.emitWarning(`${told}: \`rls restart\` begins anew with the text (docs/USE.md, "Where a limit is met")`);
    this.#isRefusalTold = true;
  }

  #pays(costs, renameAt, isLongAgo) {
    this.#spend(costs);
    const isLarge = costs.rename * LATEST > costs.limit || (costs.epochs === 1 && costs.rename > RUN_BYTES * renameAt);
    if (this.#spent <= costs.rename && !(isLongAgo && isLarge)) return false;
    this.#spent = 0;
    this.#seen = [costs.own + 1, costs.bytes + costs.rename]; // with the rename, which is one more operation, of that size
    return true;
  }

  #spend({ own, bytes }) {
    if (this.#seen) {
      const [seen, size] = own >= this.#seen[0] ? this.#seen : [0, 0]; // (else others have taken some of them)
      const more = bytes - size - this.#put - (own - seen) * (PLAIN_BYTES + 4 * this.#members);
      if (more > 0) this.#spent += more;
    }
    this.#seen = [own, bytes];
    this.#put = 0;
  }
}
