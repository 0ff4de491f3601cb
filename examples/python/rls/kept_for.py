"""For whom operations are kept: who has what, by the heads of messages alone."""
import time
from typing import Callable, Dict, List, Optional, Tuple

from .circle import Circle, Text
from .commands import Commands
from .notices import name_of, number
from .packs import stored_size

MOST_KEPT = 1_000_000           # bytes of a replica from which it is told for whom they are kept
LARGE = 32                      # bytes of a replica for each character of its text that are much
DAY = 86_400


def behind(circle: Circle, text: Text, k: int, mine: Tuple[int, ...]) -> Optional[int]:
    """How many edits that this replica has member k isn't known to have; None if nothing ever came from it."""
    counts = circle.counts_of(text.group, k, circle.me)
    return None if counts is None else sum(max(0, a - b) for a, b in zip(mine, counts))


def sent_counts(circle: Circle, text: Text) -> Tuple[int, ...]:
    """What this member has said last that it has, by its own messages."""
    found = [circle.counts_of(text.group, circle.me, k) for k in range(circle.members) if k != circle.me]
    return max((x for x in found if x), key=sum, default=(0,) * circle.members)


def rows(circle: Circle) -> List[str]:
    """A line for each number that was given: who has it, when that machine was seen last, and what it has."""
    own = {text: sent_counts(circle, text) for text in circle.texts()}
    return [row(circle, own, k, notice) for k, notice in sorted(circle.names().items())]


def row(circle: Circle, own: Dict[Text, Tuple[int, ...]], k: int, notice: Dict[str, str]) -> str:
    seen = number(notice.get("seen"))
    day = time.strftime("%d %b %H:%M", time.localtime(seen)) if seen else "never"
    has = [behind(circle, text, k, mine) for text, mine in own.items()] if k != circle.me else []
    edits = sum(x or 0 for x in has)
    state = "this machine" if k == circle.me else "not begun" if not seen else f"{edits} edits behind" if edits else "has all"
    return f"{k:2} {name_of(notice):20} {day:14} {state}"


def tell_kept(circle: Circle, text: Text, say: Callable[[str], None]) -> None:
    """Says once a day for whom a replica has become much larger than its text."""
    size, group = stored_size(circle.replica(text.group)), str(text.group)
    told = circle.home.kept("told") or {} if size >= MOST_KEPT else {}
    if size < MOST_KEPT or time.time() - float(told.get(group, 0)) < DAY:
        return
    stat = Commands(circle.replica(text.group)).stat()
    found = [(behind(circle, text, k, stat["accepted"]), k) for k in range(circle.members) if k != circle.me]
    most, k = max((10**9 if x is None else x, k) for x, k in found)
    if size >= LARGE * stat["total"][0] and most > 0:
        name = name_of(circle.names().get(k, {"name": f"number {k}"}))
        say(f"{text.name}: the replica has {size / 1e6:.0f} MB for {stat['total'][0]} characters, since {stat['unstable'][0]} edits are kept, most of them for {name}: `rls who` shows who has what, and when each was last seen.")
        circle.home.keep("told", {**told, group: time.time()})
