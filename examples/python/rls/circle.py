"""A circle: people who share texts through one folder, each machine with a number that is its own in all of the texts.

Every file in the shared folder has one writer and a name that nobody else takes, so a carrier that makes copies of files in conflict has nothing
to make them of. docs/SHARING.md says why no two machines ever have one number, whatever the carrier does; examples/README.md lists the files."""
import hashlib
import os
import re
import secrets
import struct
import time
from contextlib import contextmanager
from typing import Any, Dict, Iterator, List, NamedTuple, Optional, Tuple

from . import limits
from .commands import Commands
from .errors import Trouble
from .files import look
from .family import Family, after, idents, is_active, tip
from .home import HELD, Home
from .mailbox import Mailbox, Replica, shown
from .notices import Notice, name_of, number, read_notice, regular_or_none, sync_folder, write_notice
from .reports import Head
from .told import Place, Text, Told, first, split, texts_of

FORM, LATER_FORM = "1", "2"     # of the files of a circle, and of one that was begun after another: versions before 0.12 pass that by
CIRCLE = re.compile(r"([0-9a-f]{16})\.circle")
SEEN_EACH = 3600                # seconds after which a member that has nothing to send says that it was here


class Seat(NamedTuple):
    """Whose number it is, and which. A machine that has asked and got none yet has no number."""
    token: str
    name: str
    shared: str
    members: int
    number: Optional[int] = None
    packed: List[int] = []          # the texts whose replicas came with the number


def circles_in(shared: str) -> Dict[str, Notice]:
    """The circles that a folder has, and what each says of itself."""
    try:
        names = os.listdir(shared)
    except OSError as e:
        raise Trouble(f"{shared}: {e.strerror}", 8) from None
    found = {match[1]: read_notice(os.path.join(shared, match[0])) for match in map(CIRCLE.fullmatch, names) if match}
    return {ident: notice for ident, notice in found.items() if notice and notice.get("circle") in (FORM, LATER_FORM)}


class Circle:
    """What the shared folder says, and what this machine keeps of it."""

    def __init__(self, shared: str, ident: str) -> None:
        self.shared, self.id, self.home = os.path.abspath(os.path.expanduser(shared)), ident, Home(ident)
        self.read_again()

    def read_again(self) -> None:
        kept = self.home.kept("seat")
        self.seat: Optional[Seat] = Seat(**kept) if kept else None
        self.told: Optional[Dict[str, Told]] = None
        self.named: Optional[List[Text]] = None         # the texts as they are told
        self.list_again()
        self.has_marked = False
        self.ends: Dict[int, List[str]] = {}

    @classmethod
    def of(cls, shared: str) -> "Circle":
        """The circle of a folder; if there are several, that in which this machine has a part."""
        full = os.path.abspath(os.path.expanduser(shared))
        found = circles_in(full)
        names = os.listdir(full)
        mine = [x for x in idents() if is_active(x) and (x in found or any(name.startswith(f"{x}-") for name in names))]
        counting = tip({x: after(notice) for x, notice in found.items()})
        if len(mine) == 1 or not mine and counting:
            return cls(full, mine[0] if mine else str(counting))
        if not found:
            raise Trouble(f"{full} has no circle, or what says so hasn't come whole yet. `rls share {shared} FILE` begins one.", 2)
        told = ", ".join(f"{x} of {name_of(notice)}" for x, notice in sorted(found.items()))
        raise Trouble(f"{full} has {len(found)} circles: {told}. Two began here before either saw the other's. Agree on one; who began the other takes its files (those whose names begin with its number) out of the folder.")

    @classmethod
    def begin(cls, shared: str, name: str, members: int, before: Optional[str] = None) -> "Circle":
        """Begins one, if `before` is given after that one. Whoever does is member 0, and gives the numbers."""
        if not 2 <= members <= 64:
            raise Trouble(f"a circle has 2 to 64 numbers, and not {members}.", 1)
        full = os.path.abspath(os.path.expanduser(shared))
        os.makedirs(full, exist_ok=True)
        circle = cls(full, secrets.token_hex(8))
        circle.home.make()
        circle.home.tell_place()
        if before:
            circle.home.keep("after", before)
            circle.home.keep("waits", before)
        circle.keep_seat(Seat(secrets.token_hex(8), shown(name) or "?", full, members, 0))
        circle.repair()
        return circle

    def repair(self) -> None:
        """The file that says that there is a circle is written anew if it is away."""
        if self.seat and self.seat.number == 0:
            before = self.home.kept("after")
            words = {"circle": LATER_FORM, "after": before} if before else {"circle": FORM}
            write_notice(self.path(f"{self.id}.circle"), **words, members=self.seat.members, name=self.seat.name)

    def keep_seat(self, seat: Seat) -> None:
        self.home.keep("seat", seat._asdict())
        self.seat = seat

    @contextmanager
    def hold(self, wait: float = 0, bare: bool = False) -> Iterator[None]:
        """One command at a time works on it on this machine. What it knows is read anew then. With `bare` this machine's files may be in another
        circle of the folder."""
        if not os.path.isdir(self.home.folder):
            raise Trouble(f"this machine has no part in the circle of {self.shared}: rls join {self.shared}", 2)
        with self.home.hold(wait):
            self.read_again()
            if not bare and self.home.kept("over"):
                raise Trouble(f"the texts of {self.shared} went over to a new circle just now: once more, please.", HELD)
            if not bare and self.home.kept("parts"):
                raise Trouble(f"this machine is leaving {self.shared}: `rls part {self.shared}` goes on with that.")
            yield

    # -- the shared folder
    def path(self, name: str) -> str:
        return os.path.join(self.shared, name)

    def notice(self, name: str) -> Optional[Notice]:
        """The notice `CIRCLE-NAME`."""
        return read_notice(self.path(f"{self.id}-{name}"))

    def listing(self) -> Dict[str, "os.DirEntry[str]"]:
        """The names in the shared folder as they were when this was asked first. A round looks once."""
        if self.entries is None:
            try:
                with os.scandir(self.shared) as found:
                    self.entries = {x.name: x for x in found}
            except OSError as e:
                raise Trouble(f"{self.shared}: {e.strerror}", 8) from None
        return self.entries

    def list_again(self) -> None:
        """The next question after names looks at the shared folder."""
        self.entries: Optional[Dict[str, os.DirEntry[str]]] = None
        self.own: Optional[List[str]] = None

    def own_names(self, pattern: str) -> List["re.Match[str]"]:
        """The names in the shared folder that are `CIRCLE-` and then match."""
        if self.own is None:
            self.own = sorted(x for x in self.listing() if x.startswith(self.id))
        whole = re.compile(f"{self.id}-{pattern}")
        return [x for x in map(whole.fullmatch, self.own) if x]

    def family(self) -> Family:
        """The circles that were ever seen in the shared folder: what says that there is one may be away at any moment."""
        known: Family = self.home.kept("family") or {}
        names = [x for x in self.listing() if x.endswith(".circle")]
        new = {x[1]: read_notice(self.path(x[0])) for x in map(CIRCLE.fullmatch, names) if x and x[1] not in known}
        found = {**known, **{x: after(notice) for x, notice in new.items() if notice and notice.get("circle") in (FORM, LATER_FORM)}}
        if found != known and os.path.isdir(self.home.folder):
            self.home.keep("family", found)
        return found

    # -- who is who
    @property
    def members(self) -> int:
        if self.seat:
            return self.seat.members
        told = number(circles_in(self.shared).get(self.id, {}).get("members"))
        if not 2 <= told <= 64:
            raise Trouble(f"the circle {self.id} of {self.shared} says that it has {told} members.", 4)
        return told

    @property
    def me(self) -> int:
        if self.seat is None or self.seat.number is None:
            raise Trouble(f"this machine has no number in the circle of {self.shared} yet: rls join {self.shared}", 2)
        return self.seat.number

    @property
    def has_number(self) -> bool:
        return self.seat is not None and self.seat.number is not None

    def names(self) -> Dict[int, Notice]:
        """What each number that was given says of itself, or what the giver says of it."""
        found = {k: self.notice(f"{k}.here") or self.notice(f"{k}.seat") for k in range(self.members)}
        return {k: notice for k, notice in found.items() if notice}

    # -- the looks before anything is taken or sent
    def look(self) -> None:
        """Trouble 71 if there is, or was, a second replica of this number: the folder was copied, or its number was used by other files."""
        there = self.notice(f"{self.me}.here")
        assert self.seat
        self.home.look_at_place(self.shared)
        if there and (there.get("token") != self.seat.token or not self.home.is_own_mark(there.get("mark", ""))):
            when = time.strftime("%d %b %H:%M", time.localtime(number(there.get("seen"))))
            raise Trouble(f"number {self.me} was used {when} by files that aren't these: by a copy of {self.home.folder}, or these were put back from one. With two, the texts would differ for ever, so nothing is taken or sent here any more. If the other one goes on, `rls join --anew {self.shared}` gets a new number for this machine, and puts in again what its files have and nobody is known to have got.")

    def mark(self) -> None:
        """Comes before the first message of a round: a new mark, which only this replica of the number knows to be its own."""
        if not self.has_marked:
            assert self.seat
            mark, over = self.home.new_mark(), self.home.kept("over")
            words = {"over": over} if over else {}
            write_notice(self.path(f"{self.id}-{self.me}.here"), name=self.seat.name, seen=int(time.time()), token=self.seat.token, mark=mark, **words)
            self.has_marked = True

    def mark_gone(self) -> None:
        """Says in a circle from which this machine's files went over to another that they did."""
        there, over = self.notice(f"{self.me}.here"), self.home.kept("over")
        if not there or there.get("over") != over:
            assert self.seat
            write_notice(self.path(f"{self.id}-{self.me}.here"), name=self.seat.name, seen=int(time.time()), token=self.seat.token, mark=self.home.new_mark(), over=over)

    def mark_if_due(self) -> None:
        """A member that has nothing to send says now and then that it was here."""
        there = self.notice(f"{self.me}.here")
        if not there or time.time() - number(there.get("seen")) >= SEEN_EACH:
            self.mark()

    # -- texts
    def texts_told(self) -> Dict[str, Told]:
        """What was ever said of each text. It is remembered, since a file that says so may be away, or half written, at any moment; and each
        file is read again only when it has changed."""
        if self.told is not None:
            return self.told
        kept = self._kept_told()
        self.told = {group: Told.kept(row) for group, row in kept["texts"].items()}
        files: Dict[str, List[int]] = {}
        for match in self.own_names(r"(0|[1-9][0-9]{0,18})-([0-9]{1,2})\.text"):
            sign = look_of(self.listing()[match[0]])
            notice = None if kept["files"].get(match[0]) == sign else read_notice(self.path(match[0]))
            said = Told.said(notice, int(match[2])) if notice else None
            if said:
                old = self.told.get(match[1])
                self.told[match[1]] = old.joined(said) if old else said
            if notice or kept["files"].get(match[0]) == sign:
                files[match[0]] = sign
        if files != kept["files"] and self.has_number:
            self._keep_told(files)
        return self.told

    def _kept_told(self) -> Dict[str, Any]:
        """What was kept of the texts; versions before 0.12 kept less, under another name."""
        found: Dict[str, Any] = self.home.kept("texts-said") or {**(self.home.kept("texts-told") or {"texts": {}}), "files": {}}
        return found

    def _keep_told(self, files: Dict[str, List[int]]) -> None:
        self.home.keep("texts-said", {"texts": self.texts_told(), "files": files})

    def gone(self) -> List[str]:
        return [group for group, told in self.texts_told().items() if told.gone]

    def texts(self) -> List[Text]:
        """The texts of the circle, each under the name that was said last."""
        if self.named is None:
            self.named = texts_of(self.texts_told())
        return self.named

    def say_text(self, group: int, path: str, begun: bool = False, gone: bool = False, root: Optional[int] = None) -> None:
        """Says what this member calls a text, with the folders that it is in, from now on for all; or that it is dropped."""
        told = self.texts_told()
        old = told.get(str(group), Told(0, 0, ""))
        folders, name = split(path)
        stamp = old.stamp + 1
        said = Told(stamp, self.me, name, gone or old.gone, self.me if begun or old.begun == self.me else None, Place(stamp, self.me, folders), first(old.root, root))
        write_notice(self.path(f"{self.id}-{group}-{self.me}.text"), **said.words())
        told[str(group)] = old.joined(said)
        self.named = None
        self._keep_told(self._kept_told()["files"])

    # -- replicas
    def replica(self, group: int) -> str:
        return self.home.path("texts", str(group))

    def has(self, group: int) -> bool:
        return has_replica(self.replica(group))

    def begin_texts(self) -> List[Text]:
        """This member begins each text that it hasn't yet, with its own number, once: a replica that was here and is away isn't begun anew,
        since its number was used. Answers those."""
        assert self.seat
        begun, lost, is_new = set(self.home.kept("begun") or []), [], False
        for text in self.texts():
            if text.group in begun or text.group in self.seat.packed:
                lost += [] if self.has(text.group) else [text]
                continue
            begin(self.replica(text.group), text.group, self.me, self.members)
            begun.add(text.group)
            is_new = True
        if is_new:
            sync_folder(self.home.path("texts"))
            self.home.keep("begun", sorted(begun))
        return lost

    def signature(self, group: int, me: int) -> str:
        """Changes when a message for or from this member does. It reads no message."""
        there, ends = self.listing(), self._ends(me)
        found = [there.get(f"{group}{end}") for end in ends]
        return hashlib.sha256(repr([x and look_of(x) for x in found]).encode()).hexdigest()

    def _ends(self, me: int) -> List[str]:
        """What comes after the text in the names of its messages for and from this member."""
        if me not in self.ends:
            self.ends[me] = [end for k in range(self.members) for end in (f"-{k}-{me}.rlsm", f"-{me}-{k}.rlsm") if k != me]
        return self.ends[me]

    def counts_of(self, group: int, sender: int, to: int) -> Optional[Tuple[int, ...]]:
        """How many operations of each member the sender of the message that is there has; None if there is none."""
        return counts_of(self.path(f"{group}-{sender}-{to}.rlsm"), self.members)


class Quiet(Mailbox):
    """A mailbox of a program that runs for a moment: it writes no message that is there already, and a mark before the first one."""

    def __init__(self, circle: Circle, group: int, me: int) -> None:
        if not os.path.isdir(circle.shared):
            raise Trouble(f"{circle.shared} went away.", 8)
        super().__init__(circle.shared, Head(group, circle.members, me, ()))
        self.circle = circle

    goes_on = False             # nothing is taken either: a giver whose files are old mustn't acknowledge anything for a spare number

    # A circle sees a number that is used twice by its own looks (docs/SHARING.md, "What breaks it"): a spare number is its giver's first and
    # another machine's then, so no token of a folder belongs to it.
    def look(self, replica: Replica) -> None:
        """Nothing is looked for."""

    def show(self, replica: Replica) -> None:
        """Nothing is said."""

    def is_enough(self, to: int, message: bytes) -> bool:
        if regular_or_none(self.path(self.me, to), limits.MOST_INPUT) == message or super().is_enough(to, message):
            return True
        self.circle.mark()
        return False


def look_of(entry: "os.DirEntry[str]") -> List[int]:
    """What changes when a file is written: its size, time and number. Nothing if it went meanwhile."""
    try:
        look = entry.stat(follow_symlinks=False)
    except OSError:
        return []
    return [look.st_size, look.st_mtime_ns, look.st_ino]


def counts_of(path: str, members: int) -> Optional[Tuple[int, ...]]:
    """The counts in the head of a message."""
    try:
        with open(os.open(path, os.O_RDONLY | os.O_NONBLOCK | os.O_NOFOLLOW | os.O_CLOEXEC), "rb") as f:
            counts = Head.of(f.read(21 + 4 * members)).counts
    except (OSError, ValueError, struct.error):
        return None
    return counts if len(counts) == members else None


def has_replica(folder: str) -> bool:
    try:
        return os.path.getsize(os.path.join(folder, "replica.gate")) > 0
    except OSError:
        return False


def look_of_replica(folder: str) -> List[List[int]]:
    """What changes when a replica is stored."""
    return [look(os.path.join(folder, x)) for x in ("replica.gate", "replica.0", "replica.1")]


def begin(folder: str, group: int, me: int, members: int) -> None:
    """A replica in a folder that has none."""
    if not has_replica(folder):
        Commands.new(folder, group, me, members)


__all__ = ["Circle", "Quiet", "Seat", "Text", "begin", "circles_in", "counts_of", "has_replica", "look_of", "look_of_replica"]
