"""How people type, as a list of keys: changes of a text, each with the second at which it comes. Nobody was measured; the times are a guess.

A key comes 0.18 s after the one before (median). Of 100 characters `errors` begin with one to three wrong ones, which are typed and taken back; after
that the writer thinks for a moment, whose median is `thinks`."""
import math
import random
from dataclasses import dataclass

# Each member types other letters, so that a text tells who wrote it: small ones are meant, and capitals are the wrong ones.
LETTERS = ["abcdefgh", "klmnopqr", "stuvwxyz"]


@dataclass
class Key:
    """`count` characters from `at` on became `text`."""

    second: float
    at: int
    count: int
    text: str


class Writer:
    """Somebody who types at a place of a text."""

    def __init__(self, seed, member, at, errors=0.06, thinks=0.7):
        self.random, self.letters = random.Random(f"{seed} {member}"), LETTERS[member]
        self.errors, self.thinks = errors, thinks
        self.at = self.start = at
        self.second, self.keys = 0.0, []

    def type(self, text):
        self.second += 0.18 * math.exp(0.4 * self.random.gauss(0, 1))
        self.keys.append(Key(self.second, self.at, 0, text))
        self.at += len(text)

    def take_back(self, count):
        for _ in range(min(count, self.at - self.start)):
            self.second += 0.15
            self.at -= 1
            self.keys.append(Key(self.second, self.at, 1, ""))
        self.second += self.thinks * math.exp(self.random.gauss(0, 1))

    def letter(self):
        if self.random.random() < self.errors:
            wrong = self.random.choice([1, 1, 1, 2, 3])
            for _ in range(wrong):
                self.type(self.random.choice(self.letters).upper())
            self.take_back(wrong)
        self.type(self.random.choice(self.letters))

    def word(self):
        for _ in range(self.random.choice([2, 3, 4, 5, 6, 7, 8])):
            self.letter()
        self.type(" ")
        if self.random.random() < 0.12:
            self.second += self.random.expovariate(1 / 2.0)


def passage(writer, characters):
    """Types straight on."""
    end = writer.at + characters
    while writer.at < end:
        writer.word()


def lines(writer, characters):
    """Each third line is taken back whole and typed anew."""
    end = writer.at + characters
    while writer.at < end:
        begin = writer.at
        for anew in [True, False] if writer.random.random() < 0.33 else [False]:
            for _ in range(5):
                writer.word()
            if anew:
                writer.take_back(writer.at - begin)
        writer.type("\n")


def upwards(writer, characters):
    """Opens each line above the one before."""
    typed = 0
    while typed < characters:
        writer.at = writer.start
        writer.type("\n")
        writer.at = writer.start
        for _ in range(5):
            writer.word()
        typed += writer.at - writer.start


def day(seed, count):
    """The keys of somebody who writes a text for long: bursts, wrong characters taken back, jumps to other places, and ranges that are cut."""
    writer = Writer(seed, 0, 0)
    size = 0
    while len(writer.keys) < count:
        before = len(writer.keys)
        writer.start = writer.at
        for _ in range(writer.random.choice([1, 3, 8, 20])):
            writer.word()
        size += sum(len(key.text) - key.count for key in writer.keys[before:])
        if size > 2000 and writer.random.random() < 0.1:
            cut = writer.random.randrange(10, 200)
            writer.at = writer.random.randrange(size - cut)
            writer.second += 1.0
            writer.keys.append(Key(writer.second, writer.at, cut, ""))
            size -= cut
        if writer.random.random() < 0.2:
            writer.at = writer.random.randrange(size + 1)
            writer.second += 2.0
    return writer.keys[:count]


def stores(keys, hold=3.0):
    """The numbers of the keys before which a client's timer stores and sends: 1 s after the last key, at the latest 3 s after the first that isn't
    sent; `hold` seconds after one that took something away and put nothing in its place."""
    first = last = None
    takes_away = False
    for number, key in enumerate(keys):
        if first is not None:
            due = min(last + 1.0, first + 3.0)
            if takes_away:
                due = max(due, min(last + hold, first + 3.0 + hold))
            if due <= key.second:
                yield number
                first = None
        if first is None:
            first = key.second
        last, takes_away = key.second, key.count > 0 and not key.text
