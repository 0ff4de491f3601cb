"""Edits as lines of the program, and the least edits that make one text of another."""
import re
from typing import Iterable, List, NamedTuple, Tuple

from . import limits
from .compare import compared, replacements


class Change(NamedTuple):
    """At `at`, `count` characters go and `text` comes."""
    at: int
    count: int
    text: str


def escaped(text: str) -> str:
    return text.replace("\\", "\\\\").replace("\n", "\\n").replace("\r", "\\r")


def unescaped(text: str) -> str:
    return re.sub(r"\\(.)", lambda found: {"n": "\n", "r": "\r"}.get(found[1], found[1]), text)


def insertion(at: int, text: str) -> List[str]:
    """The lines that insert a text, which may be longer than one insertion may be."""
    most = limits.MOST_CHARACTERS
    return [f"i {at + k} {escaped(text[k:k + most])}" for k in range(0, len(text), most)]


def deletion(at: int, count: int) -> List[str]:
    """The lines that delete so many characters, which may be more than one deletion may take."""
    most = limits.MOST_DELETED
    return [f"d {at} {min(most, count - k)}" for k in range(0, count, most)]


def change_of(line: str) -> Change:
    """The change that a line `i AT TEXT` or `d AT COUNT` tells."""
    kind, at, rest = line.split(" ", 2)
    return Change(int(at), int(rest), "") if kind == "d" else Change(int(at), 0, unescaped(rest))


def applied(text: str, found: Iterable[Change]) -> str:
    """What these changes, one after another, make of a text."""
    for at, count, come in found:
        text = text[:at] + come + text[at + count:]
    return text


def changes(old: str, new: str) -> List[Change]:
    """The changes that make `new` of `old`, one after another, from the end to the front so that places stay (examples/COMPARE.md)."""
    return [Change(*found) for found in reversed(replacements(old, new))]


def replacement(at: int, count: int, text: str) -> List[str]:
    """The lines that put a text in place of so many characters. What comes is put behind what goes, and then that goes: so the run of
    identifiers that ends there goes on (examples/COMPARE.md)."""
    return insertion(at + count, text) + deletion(at, count)


def changes_told(old: str, new: str) -> Tuple[List[Change], bool]:
    """The same, and whether some part was compared by cheaper means: then what others wrote in it meanwhile may stand beside its place."""
    found, is_cut = compared(old, new)
    return [Change(*x) for x in reversed(found)], is_cut


def script(old: str, new: str) -> List[str]:
    """The lines that make one text of another."""
    return lines_of(changes(old, new))


def lines_of(found: Iterable[Change]) -> List[str]:
    """The lines that make these changes, one after another."""
    return [line for change in found for line in replacement(*change)]


def no_surrogates(text: str) -> str:
    """Python's str may hold lone surrogates, which no text of rls has."""
    text.encode("utf-8")
    return text
