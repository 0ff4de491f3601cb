#!/usr/bin/env python3
"""Writes a message to member 0 of a group of three, group 7, that costs as much as it can: NAME N > MESSAGE. docs/FORMATS.md tells the
bytes. Member 1 has made the operations of a message, and member 2 those that meet them or are refused."""
import struct
import sys

GROUP, MEMBERS, SENDER = 7, 3, 1
MIDDLE = 0x7FFFFFFF  # the position of the first identifier of an empty text
ORIGIN, LEAVE = b"\0", b"\3"


def u32(*numbers):
    return struct.pack(f">{len(numbers)}I", *numbers)


def ident(seq, offset, pos=MIDDLE, replica=1):
    """An identifier of one tuple."""
    return u32(1) + b"\1" + u32(pos, replica, seq) + struct.pack(">i", offset)


def between(offset, replica, seq):
    """The first identifier of a run that stands between two identifiers of the first insertion."""
    return u32(2) + b"\1" + u32(MIDDLE, 1, 1) + struct.pack(">i", offset) + b"\1" + u32(MIDDLE, replica, seq) + struct.pack(">i", 0)


def runs(*parts):
    """Runs of the first insertion's identifiers, each told by its first offset and its length."""
    return u32(len(parts)) + b"".join(ident(1, offset) + u32(length) for offset, length in parts)


def elsewhere(offset):
    """A run of one identifier that nobody inserted: it differs from one of the first insertion's only in its position."""
    return u32(1) + ident(1, offset, pos=1) + u32(1)


def op(author, seq, context, body, epoch=ORIGIN):
    return u32(author, seq, *context) + epoch + body


def insertion(first, text):
    return b"\0" + first + u32(len(text)) + text


def deletion(*parts):
    return b"\1" + runs(*parts)


def message(ops):
    head = b"RLSM\3" + struct.pack(">QII", GROUP, MEMBERS, SENDER) + u32(*[0] * MEMBERS)
    return head + u32(len(ops)) + b"".join(ops)


def text(count):
    """The first operation: one run."""
    return op(1, 1, (0, 0, 0), insertion(ident(1, 0), b"a" * count))


def later(k, body, epoch=ORIGIN):
    """Operation k of member 1, who knows only its own."""
    return op(1, k, (0, k - 1, 0), body, epoch)


def in_order(n):
    return [later(k, insertion(ident(1, k - 1), b"a")) for k in range(1, n + 1)]


def reverse(n):
    """Each operation waits for the next one in the message."""
    return in_order(n)[::-1]


def shuffled(n):
    """They come in an order that has no long runs."""
    return [op for _, op in sorted((k * 0x9E3779B1 % 2**32, op) for k, op in enumerate(in_order(n)))]


def waiting(n):
    """Each waits for an operation of member 2 that never comes."""
    return [op(1, k, (0, k - 1, 1), LEAVE) for k in range(1, n + 1)]


def waiting_reverse(n):
    return waiting(n)[::-1]


def colliding(n):
    """They wait too, under numbers that a hash by multiplication takes to the same low bits."""
    return [op(1, k << 16, (0, (k << 16) - 1, 1), LEAVE) for k in range(1, n + 1)]


def forked(n):
    """A deletion of n characters, each alone, waits, and n times another operation comes under its number."""
    held = op(1, 2, (0, 1, 1), deletion(*[(2 * k, 1) for k in range(n)]))
    return [held, *[op(1, 2, (0, 1, 1), LEAVE)] * n]


def gone(n):
    """Member 1 deletes every second character, each alone; member 2 deletes the same, at once."""
    alone = [later(k + 2, deletion((2 * k + 1, 1))) for k in range(n)]
    return [text(2 * n), *alone, op(2, 1, (0, 1, 0), deletion(*[(2 * k + 1, 1) for k in range(n)]))]


def same(n):
    """After n deletions both delete the rest, at once."""
    alone = [later(k + 2, deletion((2 * k, 1))) for k in range(n)]
    rest = deletion(*[(2 * k + 1, 1) for k in range(n - 1)], (2 * n - 1, 8 * n))
    return [text(10 * n), *alone, later(n + 2, rest), op(2, 1, (0, n + 1, 0), rest)]


def each(n):
    """Two members delete the same characters at once, each alone."""
    alone = [later(k + 2, deletion((2 * k + 1, 1))) for k in range(n)]
    return [text(2 * n), *alone, *[op(2, k + 1, (0, 1, k), deletion((2 * k + 1, 1))) for k in range(n)]]


def again(n):
    """An operation that is refused for its last target, whose others are gone, n times."""
    alone = [later(k + 2, deletion((100 * k, 100))) for k in range(100)]
    return [text(10_000), *alone, *[op(2, 1, (0, 1, 0), deletion((0, 10_001)))] * n]


def refused_standing(n):
    """A run of n characters with another character after each; n operations that are refused for the last target, whose others are there."""
    others = [later(k + 2, insertion(between(k, 1, k + 2), b"b")) for k in range(n)]
    return [text(n), *others, *[op(2, 1, (0, 1, 0), deletion((0, n + 1)))] * n]


def refused_gone(n):
    """n deletions of one character each; n operations that are refused for the last target, whose others are gone."""
    alone = [later(k + 2, deletion((k, 1))) for k in range(n)]
    return [text(n), *alone, *[op(2, 1, (0, 1, 0), deletion((0, n + 1)))] * n]


def refused_between(n):
    """As refused_standing, and before each refused operation one that is accepted, far from there."""
    first, *others = refused_standing(n)
    inserted, deleted = others[:n], others[n:]
    far = [later(k, insertion(ident(k, 0, pos=k), b"c")) for k in range(n + 2, 2 * n + 2)]
    return [first, *inserted, *[one for pair in zip(far, deleted) for one in pair]]


def refused(n):
    """After n deletions of one character each come 2n operations that are refused for their one target: in turn one that nobody
    inserted, and one that differs from a deleted one only in its position."""
    alone = [later(k + 2, deletion((k, 1))) for k in range(n)]
    unknown = [op(2, 1, (0, 1, 0), body) for k in range(n) for body in (deletion((n + k, 1)), b"\1" + elsewhere(k))]
    return [text(n), *alone, *unknown]


def refused_in_turn(n):
    """n deletions of one character each, and after each an operation that is refused for its target."""
    pairs = [(later(k + 2, deletion((k, 1))), op(2, 1, (0, 1, 0), deletion((n + k, 1)))) for k in range(n)]
    return [text(n), *[one for pair in pairs for one in pair]]


def apart(n):
    """n runs of one character, each an insertion of its own."""
    return [later(k, insertion(ident(k, 0, pos=1000 * k), b"a")) for k in range(1, n + 1)]


def opened(replica, seq):
    """The name of the epoch that this rename opens."""
    return b"\1" + u32(replica, seq)


def renamed_one(n, count):
    """n runs, and renames of one identifier: each makes all others longer."""
    ops, epoch = apart(n), ORIGIN
    for k in range(n + 1, n + 1 + count):
        ops.append(later(k, b"\2" + u32(1) + ident(1, 0, pos=1) + u32(1), epoch))
        epoch = opened(1, k)
    return ops


def small_renames(n):
    return renamed_one(n, 20)


def wide(n):
    return renamed_one(1000, n)


def chain_of(author, first, count, former, length, pos=MIDDLE):
    """So many renames by one member, which knows of no others, from this number on: the first is of these runs, told as bytes, and of so
    many identifiers, of which the first has this position; each other is of the one before."""
    ops, epoch = [], ORIGIN
    for k in range(first, first + count):
        context = (0, k - 1, 0) if author == 1 else (0, 1, k - 1)
        ops.append(op(author, k, context, b"\2" + former, epoch))
        epoch, former = opened(author, k), u32(1) + ident(k, 0, pos, author) + u32(length)
    return ops


def renames(n):
    """A text of one run, and n renames of it: the operations, and the epoch that the last one opens."""
    return [text(2 * n), *chain_of(1, 2, n, runs((0, 2 * n)), 2 * n)], opened(1, n + 1)


def two_chains(n):
    """Two members rename n times each, alone; the renames that open the greater epochs come first."""
    return [text(2), *chain_of(2, 1, n, runs((0, 2)), 2), *chain_of(1, 2, n, runs((0, 2)), 2)]


def two_chains_lesser_first(n):
    return [text(2), *chain_of(1, 2, n, runs((0, 2)), 2), *chain_of(2, 1, n, runs((0, 2)), 2)]


def two_chains_in_turn(n):
    pairs = zip(chain_of(2, 1, n, runs((0, 2)), 2), chain_of(1, 2, n, runs((0, 2)), 2))
    return [text(2), *[one for pair in pairs for one in pair]]


def rename_each(n):
    """In turn a rename and an insertion, whose author knows of no rename, between two characters: n times."""
    renamings = chain_of(1, 2, n, runs((0, 2 * n)), 2 * n)
    pairs = [(renaming, op(2, k + 1, (0, 1, k), insertion(between(2 * k, 2, k + 1), b"b"))) for k, renaming in enumerate(renamings)]
    return [text(2 * n), *[one for pair in pairs for one in pair]]


def gone_deep(n):
    """n renames, n deletions of one character each, and a deletion of the same whose author knew of none of them."""
    ops, epoch = renames(n)
    alone = [later(n + 2 + k, b"\1" + u32(1) + ident(n + 1, 2 * k) + u32(1), epoch) for k in range(n)]
    return [*ops, *alone, op(2, 1, (0, 1, 0), deletion(*[(2 * k, 1) for k in range(n)]))]


def wrong_epoch(n):
    """After n renames comes an operation n times that knows of none of them, but names the epoch of the last one, and is refused."""
    ops, epoch = renames(n)
    return [*ops, *[op(2, 1, (0, 1, 0), deletion((0, 1)), epoch)] * n]


def old_deletions(n):
    """After n renames come n deletions of one character each whose author knew of none of them."""
    ops, _ = renames(n)
    return [*ops, *[op(2, k + 1, (0, 1, k), deletion((2 * k, 1))) for k in range(n)]]


def old_deletions_apart(n):
    """The same, each in another run."""
    former = u32(n) + b"".join(ident(k, 0, pos=1000 * k) + u32(1) for k in range(1, n + 1))
    old = [op(2, k, (0, n, k - 1), b"\1" + u32(1) + ident(k, 0, pos=1000 * k) + u32(1)) for k in range(1, n + 1)]
    return [*apart(n), *chain_of(1, n + 1, n, former, n, pos=1000), *old]


def scattered(n):
    """20 deletions of two characters that aren't adjacent, out of n."""
    return [text(n), *[later(k + 2, deletion((10 * k, 1), (10 * k + 5, 1))) for k in range(20)]]


def scattered_each(n):
    """n such deletions, out of 20 n characters."""
    return [text(20 * n), *[later(k + 2, deletion((10 * k, 1), (10 * k + 5, 1))) for k in range(n)]]


if __name__ == "__main__":
    sys.stdout.buffer.write(message(globals()[sys.argv[1]](int(sys.argv[2]))))
