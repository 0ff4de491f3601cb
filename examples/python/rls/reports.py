"""What calls answer."""
import struct
from typing import Dict, NamedTuple, Tuple

Stat = Dict[str, Tuple[int, ...]]


class Report(NamedTuple):
    """What became of a message: how many of its operations were applied, and so on (docs/USE.md)."""
    applied: int
    released: int
    repeated: int
    held: int
    refused: int
    refusals: Tuple[str, ...] = ()


class Groups(NamedTuple):
    """How many groups of own edits can be undone, and how many can be done again."""
    undoable: int
    redoable: int


class Head(NamedTuple):
    """Who made a message or has a replica, and how many operations of each member it knows."""
    group: int
    members: int
    sender: int
    counts: Tuple[int, ...]

    @classmethod
    def of(cls, message: bytes) -> "Head":
        """The head of a message: `25 + 4 members` bytes of docs/FORMATS.md."""
        if message[:4] != b"RLSM" or len(message) < 21:
            raise ValueError("no message")
        group, members, sender = struct.unpack(">QII", message[5:21])
        return cls(group, members, sender, struct.unpack(f">{members}I", message[21:21 + 4 * members]))

    @classmethod
    def told(cls, stat: Stat) -> "Head":
        return cls(stat["group"][0], stat["members"][0], stat["me"][0], stat["accepted"])


def stat_of(printed: bytes) -> Stat:
    """What `rls stat` prints: a word, and its numbers."""
    lines = (line.split() for line in printed.decode().splitlines())
    return {word: tuple(map(int, numbers)) for word, *numbers in lines}
