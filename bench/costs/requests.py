#!/usr/bin/env python3
"""Writes the requests of a session of member 0 of 2, group 7, that cost as much as they can: NAME N > REQUESTS. docs/SESSION.md tells the
requests, docs/FORMATS.md the bytes of the messages in them, which are member 1's."""
import struct
import sys

from make import ORIGIN, ident, u32

GROUP, MEMBERS, SENDER = 7, 2, 1
MARK, FLAG = "\u0301", "\U0001f1e9\U0001f1ea"


def line(*words):
    return (" ".join(map(str, words)) + "\n").encode()


def taking(counts, ops=()):
    """The request that takes a message with these counts and operations."""
    told = b"RLSM\3" + struct.pack(">QII", GROUP, MEMBERS, SENDER) + u32(*counts) + u32(len(ops)) + b"".join(ops)
    return line("m", len(told)) + told


def deletion(seq, known, offset):
    """Member 1's deletion of one of the characters that member 0 inserted first, after it knew so many operations of member 0."""
    return u32(1, seq, known, seq - 1) + ORIGIN + b"\1" + u32(1) + ident(1, offset, replica=0) + u32(1)


def deletions(n):
    """2n characters, of which every second one is deleted, each alone."""
    return [line("i", 0, "a" * 2 * n), *[line("d", k, 1) for k in range(n)]]


def acked_refused(n):
    """Each message tells of one more deletion that it is known, and deletes what the first one took out: that is stable, so it is refused."""
    return [*deletions(n), taking((2, 0)), *[taking((k + 1, 0), [deletion(1, k + 1, 0)]) for k in range(2, n + 1)]]


def acked_gone(n):
    """The same, and each message also deletes what an unstable deletion took out."""
    last = 2 * n
    both = [[deletion(k - 1, k + 1, last), deletion(k, k + 1, 0)] for k in range(2, n + 1)]
    return [*deletions(n + 1), taking((2, 0)), *[taking((k + 1, k - 1), ops) for k, ops in enumerate(both, 2)]]


def acked_each(n):
    """Each message tells of one more deletion that it is known, and deletes what the one before took out."""
    return [*deletions(n), taking((2, 0)), *[taking((k + 1, 0), [deletion(1, k, 2 * (k - 2))]) for k in range(2, n + 1)]]


def acked_sends(n):
    """n insertions, which the other member knows, and n times a message for it, which has no operation."""
    return [*[line("i", k, "a") for k in range(n)], taking((n, 0)), *[line("s", 1)] * n]


def marks(n):
    """A letter with n marks, and n times the deletion of the cluster that ends within them, which is refused."""
    return [line("i", 0, "a" + MARK * n), *[line("b", n // 2)] * n]


def flags(n):
    """n flags in a row, of which the last is deleted, n times."""
    return [line("i", 0, FLAG * n), *[line("b", 2 * k) for k in range(n, 0, -1)]]


def cursor_renames(n):
    """The cursor is put, n renames, and n times it is asked for."""
    return [line("i", 0, "abc"), line("k", 1), *[line("r")] * n, *[line("p")] * n]


def undo_renames(n):
    """n insertions, n renames, and all insertions are undone."""
    return [*[line("i", k, "a") for k in range(n)], *[line("r")] * n, *[line("u")] * n]


def step_again(n):
    """n characters at places that look random, and one step is undone and redone n times."""
    text = [line("i", 7919 * k % (k + 1), "a") for k in range(n)]
    return [*text, line("g"), line("i", n // 2, "b"), line("g"), *[line("z"), line("y")] * n]


def typed(n):
    """n keys of an editor at the end of a text, each sixth a character that is taken back; after each 15 keys somebody asks where the cursor is,
    so that an operation is made of them."""
    requests, at = [], 0
    for key in range(n):
        taken = key % 6 == 5
        at -= taken
        requests.append(line("e", at, int(taken), "" if taken else "a"))
        at += not taken
        if key % 15 == 14:
            requests.append(line("p"))
    return requests


def replaced(n):
    """A text of n lines, in each of which an editor puts two characters in place of one."""
    return [line("i", 0, "ab\\n" * n), *[line("e", 4 * k + 1, 1, "cd") for k in range(n)], line("w")]


if __name__ == "__main__":
    sys.stdout.buffer.write(b"".join(globals()[sys.argv[1]](int(sys.argv[2]))))
