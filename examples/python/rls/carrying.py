"""Late edits of an older circle come into a newer one: whoever began the newer one takes what still comes in the older one, and puts the
difference in as edits of the newer one. One machine does that for each pair of circles, from one replica, so nothing goes in twice
(docs/SHARING.md, "A new circle in the same folder")."""
import json
from contextlib import ExitStack
from typing import Any, Callable, Dict, List, NamedTuple, Optional, Sequence, Tuple

from .circle import Circle, Quiet, Text, begin, look_of, look_of_replica
from .errors import RlsError, Stale, Trouble
from .family import counts_before, counts_of_word
from .files import Look
from .home import Home
from .notices import number, write_notice
from .session import Session
from .stored import head_of
from .told import group_after

Kept = Optional[Dict[str, Any]]
Say = Callable[[str], None]


class Over(NamedTuple):
    """What a circle tells of a text that came from another: its number here; what of the other circle is in it (`counts`); and how many operations
    of member `number` bring that."""
    group: int
    counts: Tuple[int, ...]
    number: int
    own: int

    def covers(self, counts: Sequence[int]) -> bool:
        return len(counts) == len(self.counts) and all(x <= y for x, y in zip(counts, self.counts))

    def has_come(self, new: Circle) -> bool:
        """Whether this machine's replica has those operations."""
        head = head_of(new.replica(self.group)) if new.has(self.group) else None
        return head is not None and self.number < len(head.counts) and head.counts[self.number] >= self.own


class Read(NamedTuple):
    """The text of an older circle, as it was when it was brought over last and as it is now."""
    before: str
    text: str
    counts: List[int]
    taken: Dict[str, str]


class Watched(Session):
    """A session that looks at the replica's files before it lets go of their lock: whatever changes them later is somebody else."""

    replica_look: List[Look] = []

    def _release(self) -> None:
        if self.stored.held is not None:
            self.replica_look = look_of_replica(self.folder)
        super()._release()


class Source:
    """A text of an older circle that this machine brings over. `base` is what of it is in the newer one without its help."""

    def __init__(self, old: Circle, text: Text, new: Circle, base: str = "") -> None:
        self.old, self.text, self.new, self.base = old, text, new, base
        self.key, self.folder = f"{old.id}-{text.group}", old.replica(text.group)
        self.replica_look: List[Look] = []
        self.name = f"{new.id}-{group_after(new.id, text.root)}-{old.id}.over"

    def signature(self) -> str:
        """Changes when there is something to be brought over, or to be told again."""
        told = self.new.listing().get(self.name)
        return f"{self.old.signature(self.text.group, self.old.me)}{told and look_of(told)}"

    def read(self, kept: Kept) -> Optional[Read]:
        """Takes and sends in the older circle, whose replica is stored when this returns. None if another program holds it: what that one writes
        comes later."""
        taken = {int(k): bytes.fromhex(v) for k, v in kept["taken"].items()} if kept else {}
        try:
            with Watched(self.folder) as session:
                box = Quiet(self.old, self.text.group, self.old.me)
                box.taken = taken
                box.receive(session)
                session.save()
                text, counts = session.text(), list(session.head().counts)
                box.send(session)
        except RlsError as e:
            if e.status == 7 and "another program" in e.line:
                return None
            raise
        except Stale as e:
            raise Trouble(f"{e}. The files in {self.folder} were put back from a copy: nothing is brought over from there any more.") from None
        self.replica_look = session.replica_look
        if kept and any(x < y for x, y in zip(counts, kept["counts"])):
            raise Trouble(f"{self.folder} lacks what was brought over from it: it was put back from a copy. Nothing is brought over from there any more.")
        return Read(kept["text"] if kept else self.base, text, counts, {str(k): v.hex() for k, v in box.taken.items()})

    def tell(self, kept: Kept) -> None:
        """Says what has come over, once the operations that bring it are stored."""
        if kept:
            words = {"from": self.text.group, "number": self.new.me, "own": kept["own"], "counts": " ".join(map(str, kept["counts"]))}
            write_notice(self.new.path(self.name), **words)


def told_over(new: Circle, old: str) -> Dict[int, Over]:
    """What the newer circle tells of the texts of the older one, by their numbers there."""
    found = {}
    for match in new.own_names(rf"(0|[1-9][0-9]{{0,18}})-{old}\.over"):
        notice = new.notice(match[0][len(new.id) + 1:])
        if notice:
            found[number(notice.get("from"), 19)] = Over(int(match[1]), counts_of_word(notice.get("counts", "")), number(notice.get("number")), number(notice.get("own")))
    return found


def is_begun_here(ident: str) -> bool:
    """Whether this machine began this circle after another."""
    home = Home(ident)
    return bool(home.kept("after")) and (home.kept("seat") or {}).get("number") == 0


# -- what was written in a circle that doesn't count
def state_of(circle: Circle, group: int) -> Dict[str, Any]:
    """What this machine keeps of a text (note.py)."""
    try:
        with open(circle.home.path("texts", f"{group}.json"), encoding="utf-8") as f:
            found: Dict[str, Any] = json.load(f)
    except FileNotFoundError:
        return {}
    return found


def kept_of(old: Circle, text: Text) -> Kept:
    """What was brought over into this text of a circle from the one before it; None if it was begun in it."""
    before, over = old.home.kept("after"), state_of(old, text.group).get("over", {})
    return next(({**row, "from": int(key.split("-")[1])} for key, row in over.items() if key.startswith(f"{before}-")), None)


def goes_into(old: Circle, new: Circle) -> bool:
    """Whether this machine brings what was written in a circle that it began, and that doesn't count, into this one. It begins once all that
    came into the one from before it is in the other already; that is written down, and from then on nothing more comes into the one."""
    if old.home.kept("into"):
        return True
    told, gone = told_over(new, old.home.kept("after")), new.gone()
    for text in old.texts():
        kept = None if str(group_after(new.id, text.root)) in gone else kept_of(old, text)
        over = told.get(kept["from"]) if kept else None
        if state_of(old, text.group).get("pending"):
            return False                                # whether that was brought over isn't known yet
        if kept and not (over and over.covers(kept["counts"]) and over.has_come(new)):
            return False
    old.home.keep("into", new.id)
    return True


# -- all texts
def older(new: Circle) -> List[str]:
    """The circles from which this machine may have to bring something into this one."""
    before = new.home.kept("after")
    found = [before] if before and new.me == 0 and not new.home.kept("into") else []
    return found + [x for x in sorted(new.family()) if is_begun_here(x) and may_go_into(x, new)]


def may_go_into(old: str, new: Circle) -> bool:
    """Whether what was written in a circle that this machine began comes into this one, as far as the circles tell."""
    into: Optional[str] = Home(old).kept("into")
    return counts_before(new.family(), new.id, old) if into is None else into == new.id


def sources(new: Circle, stack: ExitStack, say: Say) -> Dict[int, List[Source]]:
    """The texts of older circles that this machine brings into this one, each of which is begun here. The older circles are held meanwhile."""
    found: Dict[int, List[Source]] = {}
    for ident in older(new):
        old = Circle(new.shared, ident)
        if not old.has_number:
            continue
        try:
            stack.enter_context(old.hold(bare=True))
            is_before = ident == new.home.kept("after")
            if not is_before and not goes_into(old, new):
                continue
            old.look()
            lost = [x.group for x in old.begin_texts()]
            for text in bring_names(old, new):
                base = "" if is_before else (kept_of(old, text) or {"text": ""})["text"]
                if text.group not in lost:
                    found.setdefault(group_after(new.id, text.root), []).append(Source(old, text, new, base))
        except Trouble as e:
            say(f"the circle before this one: {e}")
    return found


def bring_names(old: Circle, new: Circle) -> List[Text]:
    """Begins the texts of an older circle in the newer one, and says there which of them got another name, and which were dropped. Answers
    those that are exchanged."""
    names: Dict[str, str] = new.home.kept("names-over") or {}
    now, there = dict(names), new.texts_told()
    for text in old.texts():
        group, key = group_after(new.id, text.root), f"{old.id}-{text.group}"
        if str(group) not in there:
            begin(new.replica(group), group, new.me, new.members)
            new.say_text(group, text.name, begun=True, root=text.root)
        elif names.get(key, text.name) != text.name:
            new.say_text(group, text.name)
        now[key] = text.name
    if now != names:
        new.home.keep("names-over", now)
    for key, told in old.texts_told().items():
        group = group_after(new.id, int(key) if told.root is None else told.root)
        if told.gone and str(group) in there and not there[str(group)].gone:
            new.say_text(group, there[str(group)].path, gone=True)
    return old.texts()


__all__ = ["Over", "Read", "Source", "Watched", "is_begun_here", "older", "sources", "state_of", "told_over"]
