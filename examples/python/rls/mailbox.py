"""Messages through a folder that all members see."""
import hashlib
import json
import os
import struct
import warnings
from typing import Any, Dict, List, Optional, Set, Tuple, Union

from . import limits, tokens
from .commands import Commands
from .errors import RlsError, Stale, UsedTwice
from .folders import regular, replace, size_of
from .reports import Head, Report
from .session import Session
from .stored import state_of
from .telling import told_of_file, told_of_member

Replica = Union[Commands, Session]
Found = List[Tuple[int, Union[Report, RlsError]]]
MOST_CURSOR = 65_536        # bytes of a file with a cursor
MOST_HEAD = 277             # bytes of the head of a message, where there are 64 members
MOST_NAME = 40              # characters of a name beside a cursor
SYNCED = "replica.synced"   # what both folders were like when all was taken and sent


class Mailbox:
    """A folder that all members see (Dropbox, Syncthing, a network drive, a clone of git, a stick).  A message holds all that its
    receiver isn't known to have, so only the latest from each member to each other is kept: `GROUP-FROM-TO.rlsm`.  It may be
    replaced, lost, or come late or twice.

    What shows that another replica writes with this number is UsedTwice, from every call, until its file is gone.

    A message that counts more of this member's operations than it has made isn't taken, and those of others are. As long as its file is there
    `send`, and so `sync`, is Stale: if this replica's files are old, what it sends would part the texts for ever. If somebody forged it,
    delete it; or tell the launcher to doubt that member, by RLS_FORCE=1 (docs/USE.md, "Rules")."""

    goes_on = True              # whether what others sent is taken beside a message that counts what wasn't made here

    def __init__(self, folder: str, head: Head) -> None:
        self.folder, self.me, self.members = os.path.expanduser(folder), head.sender, head.members
        self.head, self.group = head, head.group
        self.taken: Dict[int, bytes] = {}
        self.sent: Dict[int, bytes] = {}
        self.warned: Set[int] = set()
        self.limits_told: Set[int] = set()              # members, and the own one for the stored file
        self.refused: Dict[int, bytes] = {}         # messages whose heads aren't what their names say: each is told once
        self.ahead: Dict[int, str] = {}             # what is said of each member whose message counts what wasn't made here
        self.shown: Optional[str] = None
        os.makedirs(self.folder, exist_ok=True)

    def path(self, sender: int, to: int) -> str:
        return os.path.join(self.folder, f"{self.group}-{sender}-{to}.rlsm")

    def names(self) -> List[str]:
        """The names in the folder that are of this text."""
        return [name for name in os.listdir(self.folder) if name.startswith(f"{self.group}-")]

    def look(self, replica: Replica) -> None:
        """UsedTwice if another replica writes with this number."""
        tokens.look(self.folder, self.head, replica.folder, self.names())

    def show(self, replica: Replica) -> None:
        """Says in the folder that this replica writes there with this number, before it does."""
        tokens.show(self.folder, self.head, replica.folder)

    def receive(self, replica: Replica) -> Found:
        """The reports of all messages that are new here. What one member's name has that is no message stops no other's."""
        self.look(replica)
        reports: Found = []
        own: Optional[Head] = None
        for sender in range(self.members):
            if sender == self.me:
                continue
            try:
                message = regular(self.path(sender, self.me), limits.MOST_INPUT)
            except RlsError as e:
                reports.append((sender, e))
                continue
            mark = hashlib.sha256(message).digest() if message is not None else b""
            if message is None or self.taken.get(sender) == mark:
                self.ahead.pop(sender, None)
                continue
            own = own or replica.head()
            fault = self._fault_of(sender, message, own, replica)
            if fault:
                if not self.goes_on:
                    self._refuse_ahead(replica)
                if self.refused.get(sender) != mark:
                    reports.append((sender, RlsError(4, fault)))
                self.refused[sender] = mark
                continue
            try:
                reports.append((sender, replica.take(message)))
            except RlsError as e:
                if e.status not in (4, 6, 11):
                    raise
                reports.append((sender, e))     # half written by the folder's own program: it comes again whole
                continue
            self.taken[sender] = mark
        return reports

    def _fault_of(self, sender: int, message: bytes, own: Head, replica: Replica) -> str:
        """Why the head of a message isn't what it has to be at this name; nothing if it is, or if this is no head, which `take` says then."""
        self.ahead.pop(sender, None)
        try:
            head = Head.of(message)
        except (ValueError, struct.error):
            return ""
        name = os.path.basename(self.path(sender, self.me))
        if (head.group, head.members) != (own.group, own.members):
            return f"{name} is of another text; it stays where it is"
        if head.sender != sender:
            return f"{name} says that it is of member {head.sender}; it stays where it is"
        if head.counts[self.me] <= own.counts[self.me]:
            return ""
        line = f"{name} counts {head.counts[self.me]} operations of member {self.me}, who has made {own.counts[self.me]}"
        if sender not in doubted(replica.folder, own):
            self.ahead[sender] = line
        return line

    def _refuse_ahead(self, replica: Replica) -> None:
        for line in self.ahead.values():
            raise Stale(f"{line}. The files in {replica.folder} are old, or the number is used twice: nothing is sent. Or somebody forged it: then delete it")

    def is_enough(self, to: int, message: bytes) -> bool:
        """Whether nothing ever came from this number and the message that it has already has more than half the bytes of this one. Each of
        them has the whole history, so not every one is written for a number that nobody may use. Whoever begins with the number takes the
        one that is there and answers, and gets the rest."""
        there = size_of(self.path(self.me, to))
        return there is not None and 2 * there > len(message) and not Head.of(message).counts[to] and size_of(self.path(to, self.me)) is None

    def _is_there(self, to: int, message: bytes, mark: bytes, own: Head) -> bool:
        """Whether this message is in the folder already. One of an older state of the folder has another size. UsedTwice if what is there was
        written with this number, and not by this replica."""
        path = self.path(self.me, to)
        if self.sent.get(to) == mark and size_of(path) == len(message):
            return True
        try:
            there = regular(path, limits.MOST_INPUT) or b""
            head = Head.of(there)
        except (RlsError, ValueError, struct.error):
            return False
        if there == message:
            self.sent[to] = mark
            return True
        if (head.group, head.members, head.sender) == own[:3] and head.counts[self.me] > own.counts[self.me]:
            raise UsedTwice.by(path, own, "it has more operations of this number than this replica has made")
        return False

    def _told(self, to: int) -> Optional[Tuple[int, ...]]:
        """What the last message of this member, if it is there, says that it has."""
        try:
            head = Head.of(regular(self.path(to, self.me), limits.MOST_INPUT, MOST_HEAD) or b"")
        except (RlsError, ValueError, struct.error):
            return None
        return head.counts if (head.group, head.members, head.sender) == (self.group, self.members, to) else None

    def send(self, replica: Replica) -> int:
        """To how many members something new was written. What one member's name has that can't be replaced stops no other's: a warning
        says so once."""
        self.look(replica)
        self._refuse_ahead(replica)
        count = 0
        own: Optional[Head] = None
        for to in range(self.members):
            if to == self.me:
                continue
            message = replica.message(to, self._told(to))
            self._tell_once(to, told_of_member(to, len(message), self.path(to, self.me)))
            mark = hashlib.sha256(message).digest()
            own = own or replica.head()
            if self._is_there(to, message, mark, own) or self.is_enough(to, message):
                continue
            try:
                if not count:
                    self.show(replica)
                replace(self.path(self.me, to), message)
            except RlsError as e:
                if to not in self.warned:
                    self.warned.add(to)
                    warnings.warn(f"the message to member {to} can't be written: {e.line}")
                continue
            self.sent[to] = mark
            count += 1
        return count

    def _tell_once(self, member: int, line: Optional[str]) -> None:
        if line and member not in self.limits_told:
            self.limits_told.add(member)
            warnings.warn(line)

    def _mark(self, replica: Replica) -> str:
        """What the names, sizes and times in both folders are: one look, which starts no program."""
        found = []
        for name in sorted(self.names()):
            try:
                told = os.lstat(os.path.join(self.folder, name))
                found.append((name, told.st_ino, told.st_size, told.st_mtime_ns))
            except OSError:
                continue
        return sum_of((os.path.abspath(self.folder), limits.RENAME_AT, state_of(replica.folder), found))

    def is_idle(self, replica: Replica) -> bool:
        """Whether nothing has changed here or there since all was taken and sent, also by an earlier program."""
        is_stored = not isinstance(replica, Session) or not replica.unsaved
        return is_stored and note_in(replica.folder).get("mark") == self._mark(replica)

    def sync(self, replica: Replica) -> Tuple[Found, int]:
        """Takes what came, renames if that is due, and sends what is new. Answers the reports, each a pair of the sender and a Report, or
        the RlsError if its message couldn't be taken, and to how many members something was written. Where nothing has changed it looks at
        names and times alone, and starts no program. A Stale has the reports in `found`: what others sent was taken."""
        if self.is_idle(replica):
            return [], 0
        # A round in which nothing came and nothing went is what the next are compared with, as it was before it.
        before, note = self._mark(replica), note_in(replica.folder)
        if note.get("state") == sum_of(state_of(replica.folder)):
            for sender, mark in note.get("taken", {}).items():
                self.taken.setdefault(int(sender), bytes.fromhex(mark))
        reports = self.receive(replica)
        try:
            if not self.ahead:
                replica.rename_if_due()
            sent = self.send(replica)
        except Stale as e:
            e.found = reports
            raise
        self._tell_once(self.me, told_of_file(replica.folder))
        taken = {sender: mark.hex() for sender, mark in self.taken.items()}
        is_quiet = not reports and not sent and not self.warned
        write_note(replica.folder, {"mark": before if is_quiet else "", "state": sum_of(state_of(replica.folder)), "taken": taken})
        return reports, sent

    # -- cursors, which no message has: a file for each member
    def cursor_path(self, member: int) -> str:
        return os.path.join(self.folder, f"{self.group}-{member}.cursor")

    def show_cursor(self, session: Session, at: int, name: str = "") -> None:
        """Tells the others where this member's cursor is, and a name to show beside it."""
        line = f"{session.place(at)} {shown(name)}".rstrip() + "\n"
        if line != self.shown:
            self.look(session)
            replace(self.cursor_path(self.me), line.encode("utf-8"))
            self.shown = line

    def cursors(self, session: Session) -> Dict[int, Tuple[int, str]]:
        """Where the others' cursors are in this replica now, and their names. What can't be read as a cursor is left out."""
        found: Dict[int, Tuple[int, str]] = {}
        for member in range(self.members):
            if member == self.me:
                continue
            try:
                place, _, name = (regular(self.cursor_path(member), MOST_CURSOR) or b"").decode("utf-8").partition("\n")[0].partition(" ")
                found[member] = session.located(place), shown(name)
            except (RlsError, ValueError):
                continue
        return found


def shown(name: str) -> str:
    """A name as it may be shown: without what a terminal would take for more than a letter, and not too long."""
    return "".join(x for x in name if x.isprintable())[:MOST_NAME].strip()


def sum_of(value: object) -> str:
    return hashlib.sha256(repr(value).encode("utf-8", "surrogateescape")).hexdigest()


def doubted(folder: str, own: Head) -> Set[int]:
    """The members in whose name, as somebody has told the launcher, what they count of this member's operations isn't so."""
    try:
        lines = (regular(os.path.join(folder, "replica.doubted"), MOST_CURSOR) or b"").decode("ascii").splitlines()
    except (RlsError, ValueError):
        return set()
    start = f"{own.group}-{own.members}-{own.sender} "
    return {int(line[len(start):]) for line in lines if line.startswith(start) and line[len(start):].isdecimal()}


def note_in(folder: str) -> Dict[str, Any]:
    """What a round noted in the replica's folder."""
    try:
        with open(os.path.join(folder, SYNCED), encoding="ascii") as file:
            found = json.load(file)
    except (OSError, ValueError):
        return {}
    return found if isinstance(found, dict) else {}


def write_note(folder: str, note: Dict[str, Any]) -> None:
    try:
        with open(os.path.join(folder, SYNCED), "w", encoding="ascii") as file:
            json.dump(note, file)
    except OSError:
        pass                                # then the next round looks again
