"""Two lists of changes that were made to one text at once: each as it is after the other one."""
import sys
from typing import Iterable, List, NamedTuple, Optional, Sequence, Tuple

from .edits import Change

STAYS, GOES, COMES = range(3)
END = sys.maxsize


class Part(NamedTuple):
    """So many characters of a text stay, or go, or come; what comes is a text."""
    kind: int
    count: int
    text: str = ""


# What a list of changes does to a text is a list of parts of it, from its beginning on; what follows the last one stays.
Parts = List[Part]


def _push(parts: Parts, part: Part) -> None:
    if not part.count:
        return
    if parts and parts[-1].kind == part.kind:
        last = parts.pop()
        part = Part(part.kind, last.count + part.count, last.text + part.text)
    parts.append(part)


class _Walk:
    """Goes through parts, also by a part of one."""

    def __init__(self, parts: Parts) -> None:
        self.parts, self.k, self.used = parts, 0, 0

    @property
    def part(self) -> Optional[Part]:
        return self.parts[self.k] if self.k < len(self.parts) else None

    @property
    def kind(self) -> int:
        return self.part.kind if self.part else STAYS

    @property
    def left(self) -> int:
        return self.part.count - self.used if self.part else END

    def take(self, count: int) -> str:
        """The text of so many characters of this part; it goes on behind them."""
        if not self.part:
            return ""
        text = self.part.text[self.used:self.used + count]
        self.used += count
        if self.used == self.part.count:
            self.k, self.used = self.k + 1, 0
        return text


def _composition(first: Parts, second: Parts) -> Parts:
    """What the first does and then the second, whose places are those of the text after the first."""
    found: Parts = []
    a, b = _Walk(first), _Walk(second)
    while a.part or b.part:
        if a.kind == GOES:
            _push(found, Part(GOES, a.left, a.take(a.left)))
        elif b.kind == COMES:
            _push(found, Part(COMES, b.left, b.take(b.left)))
        else:
            count, was, then = min(a.left, b.left), a.kind, b.kind
            text = a.take(count)
            b.take(count)
            if then == STAYS:
                _push(found, Part(was, count, text))
            elif was == STAYS:
                _push(found, Part(GOES, count))
    return found


def _parts(changes: Sequence[Change]) -> Parts:
    """By halves, so that the time isn't the square of how many they are."""
    if len(changes) > 1:
        middle = len(changes) // 2
        return _composition(_parts(changes[:middle]), _parts(changes[middle:]))
    found: Parts = []
    for at, count, text in changes:
        for part in Part(STAYS, at), Part(GOES, count), Part(COMES, len(text), text):
            _push(found, part)
    return found


def _changes(parts: Parts) -> List[Change]:
    """The changes that do what these parts say, from the last to the first."""
    found: List[Change] = []
    at, is_open = 0, False
    for kind, count, text in parts:
        if kind == STAYS:
            at, is_open = at + count, False
            continue
        here = found.pop() if is_open else Change(at, 0, "")
        found.append(Change(here.at, here.count + count * (kind == GOES), here.text + text))
        at, is_open = at + count * (kind == GOES), True
    return found[::-1]


def crossed(first: Iterable[Change], second: Iterable[Change]) -> Tuple[List[Change], List[Change]]:
    """Each of two lists of changes of one text as it is after the other one: the first and then the second's answer give the text that the
    second and then the first's answer give. Where both put something at one place, the first's comes first. So an edit that was made on the
    text as of an earlier change becomes one of the text as it is now: cross it with the changes since (docs/SESSION.md)."""
    mine: Parts = []
    theirs: Parts = []
    a, b = (_Walk(_parts(list(changes))) for changes in (first, second))
    while a.part or b.part:
        if COMES in (a.kind, b.kind):
            walk, to, other = (a, mine, theirs) if a.kind == COMES else (b, theirs, mine)
            count = walk.left
            _push(to, Part(COMES, count, walk.take(count)))
            _push(other, Part(STAYS, count))
        else:
            count, x, y = min(a.left, b.left), a.kind, b.kind
            a.take(count)
            b.take(count)
            if y == STAYS:
                _push(mine, Part(x, count))
            if x == STAYS:
                _push(theirs, Part(y, count))
    return _changes(mine), _changes(theirs)


def place_after(place: int, changes: Iterable[Change], behind: bool = False) -> int:
    """Where a place is after some changes, one after another. What comes in exactly there comes behind it, or with `behind` in front of it."""
    for at, count, text in changes:
        end = at + count
        if place > end or place == end and behind:
            place += len(text) - count
        elif place > at:
            place = at
    return place
