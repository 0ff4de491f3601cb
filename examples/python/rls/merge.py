"""A save that was made from one state of a text, over a state that has gone on meanwhile."""
from bisect import bisect_left
from typing import List, NamedTuple, Tuple

from .compare import replacements
from .edits import Change, deletion, insertion

Span = Tuple[int, int, int, int]        # the characters from..to of the old text became those from..to of the new one


class Block(NamedTuple):
    """`count` characters from `old` on in the one text are those from `new` on in the other."""
    old: int
    new: int
    count: int


def spans(old: str, new: str) -> List[Span]:
    """What differs, in order (examples/COMPARE.md)."""
    found: List[Span] = []
    moved = 0
    for at, count, text in replacements(old, new):
        found.append((at, at + count, at + moved, at + moved + len(text)))
        moved += len(text) - count
    return found


def distance(found: List[Span]) -> int:
    """How many characters go and come."""
    return sum(i1 - i0 + j1 - j0 for i0, i1, j0, j1 in found)


def equal_blocks(found: List[Span], old: str) -> List[Block]:
    """What is between the differences."""
    blocks: List[Block] = []
    i = j = 0
    for i0, i1, j0, j1 in found + [(len(old), len(old), 0, 0)]:
        if i0 > i:
            blocks.append(Block(i, j, i0 - i))
        i, j = i1, j1
    return blocks


class Kept:
    """What of an old text stands in a new one still, and where."""

    def __init__(self, blocks: List[Block]) -> None:
        self.blocks, self.starts = blocks, [x.old for x in blocks]

    def place(self, p: int) -> int:
        """Where a place of the old text is: right after the character before it; or, if that went, where that was."""
        k = bisect_left(self.starts, p) - 1
        if k >= 0 and p <= self.blocks[k].old + self.blocks[k].count:
            return self.blocks[k].new + p - self.blocks[k].old
        if k + 1 < len(self.blocks) and self.starts[k + 1] == p:
            return self.blocks[k + 1].new
        return self.blocks[k].new + self.blocks[k].count if k >= 0 else 0

    def deletions(self, i0: int, i1: int) -> List[Change]:
        """The deletions of what is left of the characters i0 to i1, the last first."""
        found: List[Change] = []
        k = bisect_left(self.starts, i1) - 1
        while k >= 0 and self.blocks[k].old + self.blocks[k].count > i0:
            low, high = max(i0, self.blocks[k].old), min(i1, self.blocks[k].old + self.blocks[k].count)
            found.append(Change(self.blocks[k].new + low - self.blocks[k].old, high - low, ""))
            k -= 1
        return found


def carried(base: str, mine: str, theirs: str, is_apart: bool = False) -> List[Change]:
    """The changes that made `mine` of `base`, over `theirs`, which was made of the same base: only what stands there yet is deleted, and what
    both did alike is done once, unless it `is_apart`, by two who each meant their own. They are in the order in which they can be performed, the last place first; what comes stands behind what
    goes."""
    other = spans(base, theirs)
    kept = Kept(equal_blocks(other, base))
    done = {(i0, i1, theirs[j0:j1]) for i0, i1, j0, j1 in other}
    found: List[Change] = []
    for i0, i1, j0, j1 in reversed(spans(base, mine)):
        if not is_apart and (i0, i1, mine[j0:j1]) in done:
            continue
        if j1 > j0:
            found.append(Change(kept.place(i1), 0, mine[j0:j1]))
        found += kept.deletions(i0, i1)
    return found


def lines_of(found: List[Change]) -> List[str]:
    """The lines of the program that perform these changes."""
    lines: List[str] = []
    for at, count, text in found:
        lines += insertion(at + count, text) + deletion(at, count)
    return lines
