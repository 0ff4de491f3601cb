"""Which circles of one shared folder were begun after which others (docs/SHARING.md, "A new circle in the same folder"), and in which of them this
machine works."""
import os
import re
from typing import Dict, List, Optional, Tuple

from .home import Home, homes
from .notices import Notice

IDENT = re.compile(r"[0-9a-f]{16}")
MOST_LINE = 1000                # circles one after another; longer lines were forged

# Each circle that was ever seen, and the one after which it was begun; the empty string if it was the first one.
Family = Dict[str, str]


def after(notice: Notice) -> str:
    """After which circle the one with this notice was begun."""
    found = notice.get("after", "")
    return found if IDENT.fullmatch(found) else ""


def line(family: Family, ident: str) -> List[str]:
    """The circles one after another from the first one to this one."""
    found = [ident]
    while family.get(found[-1]) and family[found[-1]] not in found and len(found) < MOST_LINE:
        found.append(family[found[-1]])
    return found[::-1]


def counts_before(family: Family, one: str, other: str) -> bool:
    """Whether of two circles, neither of which was begun after the other, the first one counts: where their lines part, the smaller number does.
    No two count before each other, and no time is asked."""
    ways = list(zip(line(family, one), line(family, other)))
    x, y = next(((x, y) for x, y in ways if x != y), ("", ""))
    return x < y and (x, y) != ways[0]


def tip(family: Family) -> Optional[str]:
    """The circle that counts: from the first one on always the smallest of those that were begun after it. None if they have no common first one."""
    firsts = {line(family, x)[0] for x in family}
    if len(firsts) != 1:
        return None
    found = firsts.pop()
    while True:
        following = sorted(x for x, before in family.items() if before == found and x != found)
        if not following:
            return found
        found = following[0]


def idents() -> List[str]:
    """The circles of which this machine has a folder. What was set aside has a point in its name."""
    return sorted(x for x in os.listdir(homes()) if IDENT.fullmatch(x)) if os.path.isdir(homes()) else []


def is_active(ident: str) -> bool:
    """Whether this machine's files are in this circle: it has a part in it, hasn't gone over to another, and isn't waiting to come from one."""
    home = Home(ident)
    if not os.path.exists(home.path("seat")) or home.kept("over"):
        return False
    waits: Optional[str] = home.kept("waits")
    return waits is None or Home(waits).kept("over") == ident


def counts_of_word(word: str) -> Tuple[int, ...]:
    """Counts with a space between; none if that is something else."""
    parts = word.split(" ")
    return tuple(map(int, parts)) if all(x.isascii() and x.isdecimal() and len(x) < 11 for x in parts) else ()
