#!/usr/bin/env python3
"""Writes a trace, a script of `rls edit`, of N edits that a seed decides: make.py NAME N [SEED] > SCRIPT.

    typing    one types at a cursor that moves elsewhere at one of 200 edits; every fifth edit takes out the character before the cursor
    renames   the same, with a rename after every 5,000 edits
    random    single characters at random places
    prepend   single characters at the front
    pastes    1 to 40 characters at a cursor that moves a little at one of 50 edits; every tenth edit takes out up to 20 before the cursor

A letter of 50 isn't ASCII.
"""
import random
import sys

EVERY = 5000     # edits between two renames
ROUNDS = 20      # how often the four members of `four` exchange
COMMON, RARE = "etaoinshrdlu ", "éßжλ–€"


def letter(chance):
    return chance.choice(RARE if chance.random() < 0.02 else COMMON)


class Typist:
    """One who types at a cursor into a text of some length, which may also be lengthened by others between two of its turns."""

    def __init__(self, seed, length=0):
        self.chance, self.length, self.cursor, self.done = random.Random(seed), length, 0, 0

    def edit(self):
        """The next edit. What it takes out is always what it typed just before."""
        self.done += 1
        if self.done % 5 == 0:
            self.cursor, self.length = self.cursor - 1, self.length - 1
            return f"d {self.cursor} 1"
        if self.chance.random() < 0.005 or self.cursor > self.length:
            self.cursor = self.chance.randrange(self.length + 1)
        line = f"i {self.cursor} {letter(self.chance)}"
        self.cursor, self.length = self.cursor + 1, self.length + 1
        return line


def typing(count, seed):
    typist = Typist(seed)
    return [typist.edit() for _ in range(count)]


def renames(count, seed):
    lines = []
    for at, line in enumerate(typing(count, seed)):
        lines.append(line)
        if at % EVERY == EVERY - 1:
            lines.append("r")
    return lines


def at_random(count, seed):
    chance = random.Random(seed)
    return [f"i {chance.randrange(length + 1)} {letter(chance)}" for length in range(count)]


def prepend(count, seed):
    chance = random.Random(seed)
    return [f"i 0 {letter(chance)}" for _ in range(count)]


def pastes(count, seed):
    chance = random.Random(seed)
    lines, length, cursor = [], 0, 0
    for at in range(count):
        if at % 10 == 9 and cursor > 0:
            gone = min(cursor, chance.randrange(1, 21))
            cursor, length = cursor - gone, length - gone
            lines.append(f"d {cursor} {gone}")
            continue
        if chance.random() < 0.02:
            cursor = min(length, max(0, cursor + chance.randrange(-10_000, 10_001)))
        text = "".join(letter(chance) for _ in range(chance.randrange(1, 41)))
        lines.append(f"i {cursor} {text}")
        cursor, length = cursor + len(text), length + len(text)
    return lines


def four(count, seed):
    """The turns of four members who type at once: in each of ROUNDS rounds each has a script for its own replica, and then all exchange.
    What one takes out it typed in the same turn, so the length of the common text is known."""
    typists = [Typist(seed + member) for member in range(4)]
    rounds, length = [], 0
    turn = max(5, count // (4 * ROUNDS) // 5 * 5)
    for _ in range(ROUNDS):
        scripts = []
        for typist in typists:
            typist.length = length
            scripts.append([typist.edit() for _ in range(turn)])
        rounds.append(scripts)
        length += sum(typist.length - length for typist in typists)
    return rounds


MADE = {"typing": typing, "renames": renames, "random": at_random, "prepend": prepend, "pastes": pastes}


def script(name, count, seed=1):
    return ("\n".join(MADE[name](count, seed)) + "\n").encode()


if __name__ == "__main__":
    if len(sys.argv) < 3 or sys.argv[1] not in MADE:
        sys.exit(__doc__)
    sys.stdout.buffer.write(script(sys.argv[1], int(sys.argv[2]), int(sys.argv[3]) if len(sys.argv) > 3 else 1))
