"""A text of a circle as a plain file: what was changed in the file goes into the replica by words, messages are taken and written, and the
file gets what came."""
import hashlib
import json
import os
from typing import Any, Callable, Dict, List, Optional, Sequence, Tuple

from .carrying import Source, Watched
from .circle import Circle, Quiet, Text, look_of_replica
from .errors import RlsError, Trouble
from .files import Content, Found, Look, left_over, put, read_whole, understood
from .folders import replace
from .mailbox import Mailbox
from .merge import carried, distance, lines_of, spans
from .reports import Head
from .session import Session

MOST_VERSIONS = 12
MOST_CHARACTERS = 4_000_000     # of all versions that are kept
MOST_SAVES = 10                 # that may come between in one round
SHORT = 200                     # characters of a text that may go as a whole
Say = Callable[[str], None]
BaseOf = Callable[[str, Look], str]
Versions = Sequence[str]
Seen = Tuple[str, List[Look], Look]     # the looks of a text's messages, of its replicas and of its file


def signature(circle: Circle, text: Text, sources: Sequence[Source]) -> str:
    """Changes when a message for or from this member does, here or in a circle from which this machine brings something over."""
    return "".join([circle.signature(text.group, circle.me), *(x.signature() for x in sources)])


def replica_looks(circle: Circle, text: Text, sources: Sequence[Source]) -> List[Look]:
    """Change when one of the replicas is stored."""
    return [x for folder in (circle.replica(text.group), *(x.folder for x in sources)) for x in look_of_replica(folder)]


class Note:
    """One text. What is kept of it:
    `versions`, the states from which a save may have been made, the last one last: what was saved last, and what was written over that since;
    `asked`, sums of saves about which somebody was asked, and the looks of these files;
    `pending`, what is going in just now; `taken`, sums of the messages that were taken;
    `sent`, texts that were sent, with the count of own operations in them, and `known`, the last one whose own operations another member has;
    `over`, what was brought over from circles before this one (carrying.py)."""

    def __init__(self, circle: Circle, text: Text, path: Optional[str], say: Say, sources: Sequence[Source] = ()) -> None:
        self.circle, self.text, self.path, self.say, self.sources = circle, text, path, say, sources
        self.is_all_over, self.trouble = True, ""       # whether all was brought over, and what is in the way
        self.folder = circle.replica(text.group)
        self.kept = circle.home.path("texts", f"{text.group}.json")
        self.state: Dict[str, Any] = {"versions": [], "asked": [], "taken": {}, "sent": [], "known": None, "pending": None, "over": {}}
        if os.path.exists(self.kept):
            with open(self.kept, encoding="utf-8") as f:
                self.state.update(json.load(f))

    @property
    def versions(self) -> List[str]:
        versions: List[str] = self.state["versions"]
        return versions

    def round(self, mine: bool = False) -> Seen:
        """One round. What it has looked at: as long as all of this looks so, there is nothing to do. RlsError 7 if another program holds the
        replica, Busy if one has the file open for writing."""
        messages = signature(self.circle, self.text, self.sources)
        with Watched(self.folder) as session:
            file_look = self._round(session, mine)
        if self.trouble:
            raise Trouble(self.trouble)
        looks = [x for y in (session.replica_look, *(x.replica_look for x in self.sources)) for x in y]
        return messages if self.is_all_over else "", looks, file_look

    def _round(self, session: Session, mine: bool) -> Look:
        self._look_at(session.head())
        box = Quiet(self.circle, self.text.group, self.circle.me)
        box.taken = {int(k): bytes.fromhex(v) for k, v in self.state["taken"].items()}
        if any(self.versions) and not self.state["sent"] and not any(session.head().counts):
            # Begun anew under another number: the file's changes go into the text, so that has to be there first.
            box.receive(session)
            if not any(session.head().counts):
                box.send(session)
                self.say(f"{self.text.name}: waits for the text, which others send once they have seen this number.")
                return []
        self._go_on(session)
        found = read_whole(self.path) if self.path else None
        if found:
            self._bring_in(session, self._understood(found.data).text, found.look, self._base_of(mine))
        for source in self.sources:
            self._bring_over(session, source)
        for sender, report in box.receive(session):
            if isinstance(report, RlsError):
                self.say(f"{self.text.name}: the message of member {sender} isn't whole yet, or none: {report.line}")
        session.rename_if_due()
        file_look = self._write(session, box, found, mine) if self.path else []
        self._send(box, session)
        self._store(box)
        for source in self.sources:
            source.tell(self.state["over"].get(source.key))
        return file_look

    def _look_at(self, head: Head) -> None:
        if (head.group, head.members, head.sender) != (self.text.group, self.circle.members, self.circle.me):
            raise Trouble(f"{self.folder} has the replica of member {head.sender} of {head.members} of text {head.group}, and this is number {self.circle.me}: nothing was taken or sent.")

    def _understood(self, data: bytes, path: Optional[str] = None) -> Content:
        try:
            return understood(data)
        except UnicodeDecodeError:
            raise RlsError(4, f"{path or self.path} is no text in UTF-8; nothing of it was taken") from None

    # -- from the file into the replica
    def _bring_in(self, session: Session, new: str, file_look: Look, base_of: BaseOf, over: Versions = ()) -> None:
        """What a save has changed goes into the replica, whose text may have gone on since. `over` is what was written over the save."""
        text = session.text()
        if new != text and new != self.last():
            lines = lines_of(carried(base_of(new, file_look), new, text))
            # If this is stopped, the count of own operations tells the next round whether the edits were stored: all of them are at once.
            self.state["pending"] = [[new, *over], session.head().counts[self.circle.me] + len(lines)]
            self._store(None)
            session.edit(lines)
        if new != self.last():
            self._saved(new, over)

    def _bring_over(self, session: Session, source: Source) -> None:
        """What came late in a circle before this one goes in, at its place, once: it is written down before, like what goes in from a file."""
        try:
            found = source.read(self.state["over"].get(source.key))
        except (RlsError, Trouble) as e:
            self.trouble = str(e)                       # what is exchanged in this circle goes on
            return
        if found is None:
            self.is_all_over = False
            return
        session.rename_if_due()                     # what the file had is stored now
        self.state["pending"] = None
        lines = lines_of(carried(found.before, found.text, session.text(), is_apart=True))
        count = session.head().counts[self.circle.me] + len(lines)
        over = {**self.state["over"], source.key: {"text": found.text, "counts": found.counts, "own": count, "taken": found.taken}}
        if lines:
            self.state["pending"] = [self.versions, count, over]
            self._store(None)
            session.edit(lines)
            session.save()
        self.state["over"], self.state["pending"] = over, None
        self._store(None)

    def _base_of(self, mine: bool) -> BaseOf:
        """The state that a save in the file was made from: the last version, or an older one."""
        versions = list(self.versions)
        if mine or not versions:
            return lambda new, at: versions[-1] if versions else ""
        return lambda new, at: self._asked_base(versions, new, at)

    def _asked_base(self, versions: List[str], new: str, at: Look) -> str:
        """Where it isn't clear that somebody means what would be deleted, he is asked: by the same save once more he says so."""
        mark, last = hashlib.sha256(new.encode()).hexdigest(), versions[-1]
        if any(x == mark and was != at for x, was in self.state["asked"]):
            return last
        if len(new) * 2 < len(last) and len(last) > SHORT and at:
            self._asked(mark, at)
            raise RlsError(71, f"{self.path} has lost more than half of its text. Perhaps it is being written, or was saved empty; nothing was deleted. Save it once more, or `rls sync --mine {self.path}`, and it is taken as it is")
        older = older_base(versions, new)
        if older is None:
            return last
        self._asked(mark, at)
        self.say(f"{self.path} was saved from an older state, without what has come since: that stays. If you meant to delete it: rls sync --mine {self.path}")
        return older

    def _asked(self, mark: str, at: Look) -> None:
        if [mark, at] not in self.state["asked"]:
            self.state["asked"] = (self.state["asked"] + [[mark, at]])[-20:]
            self._store(None)

    def _go_on(self, session: Session) -> None:
        """After a round that was stopped: what it had brought in is a state that a save may have begun from."""
        pending = self.state["pending"]
        if pending and session.head().counts[self.circle.me] >= pending[1]:
            self.state["versions"] = pending[0]
            self.state["over"] = pending[2] if len(pending) > 2 else self.state["over"]
        self.state["pending"] = None
        self._take_left_over(session, self.versions[:-1] or self.versions)

    def _take_left_over(self, session: Session, versions: List[str]) -> None:
        """What lost its place to the last version goes in, too, if somebody has saved it: it was made from one of the versions before that."""
        for left in left_over(self.path) if self.path else []:
            found = read_whole(left)
            text = self._understood(found.data, left).text if found else ""
            if found and text not in self.versions:
                base, last = older_base(versions, text) if versions else "", self.versions[-1:]
                self._bring_in(session, text, [], lambda new, at: versions[-1] if base is None else base, last)
                session.rename_if_due()
                self.state["pending"] = None
            self._store(None)
            os.unlink(left)

    # -- from the replica into the file
    def _write(self, session: Session, box: Mailbox, found: Optional[Found], mine: bool) -> Look:
        """Gives the file the text of the replica, and takes what is saved meanwhile. What it looks like then; nothing if that isn't known."""
        assert self.path
        for _ in range(MOST_SAVES):
            text, content = session.text(), self._understood(found.data) if found else Content("")
            earlier = list(self.versions)
            self._written(text)
            self._store(box)                        # what the file gets is a state that the next save may have begun from
            data = content.spelled(text)
            if found and data == found.data:
                return found.look
            done = put(self.path, data, found.data if found else None)
            if not done.has_come:
                return done.look
            self.say(f"{self.text.name} was saved just now; that goes in, too.")
            if not done.look:
                self.state["versions"] = earlier    # the file never had this one
                self._store(box)
                return []
            self._take_left_over(session, earlier)
            self._written(text)
            found = read_whole(self.path)
            if found and found.data != data:
                self._bring_in(session, self._understood(found.data).text, found.look, self._base_of(mine))
                session.rename_if_due()
        return []

    def _saved(self, text: str, over: Versions = ()) -> None:
        """Somebody has saved this, and it is in the replica: whatever is saved next was made from it, or from what was written over it."""
        self.state["versions"] = [text, *over]

    def _written(self, text: str) -> None:
        versions = self.versions
        if not versions or text != versions[-1]:
            versions.append(text)
        while len(versions) > 2 and (len(versions) > MOST_VERSIONS or sum(map(len, versions)) > MOST_CHARACTERS):
            del versions[1]

    def last(self) -> str:
        return self.versions[-1] if self.versions else ""

    # -- to the others
    def _send(self, box: Mailbox, session: Session) -> None:
        """Sends what is new, and remembers what another member is known to have, for a machine that has to begin anew."""
        own, text = session.head().counts[self.circle.me], session.text()
        others = [self.circle.counts_of(self.text.group, k, self.circle.me) for k in range(self.circle.members) if k != self.circle.me]
        for count, sent in self.state["sent"]:
            if any(x and x[self.circle.me] >= count for x in others):
                self.state["known"] = sent
        self.state["sent"] = ([x for x in self.state["sent"] if x[0] != own] + [[own, text]])[-4:]
        box.send(session)

    def _store(self, box: Optional[Mailbox]) -> None:
        """Keeps the state. With a mailbox the replica is stored, so nothing is going in any more."""
        if box is not None:
            self.state["taken"] = {str(k): v.hex() for k, v in box.taken.items()}
            self.state["pending"] = None
        replace(self.kept, json.dumps(self.state).encode())

    # -- for those who look
    def settle(self) -> None:
        """After a round that was stopped, before an editor opens the replica: whether the file's changes went in can be told now, and not after
        the editor has made operations."""
        with Session(self.folder) as session:
            self._go_on(session)
            self._store(None)


def older_base(versions: List[str], new: str) -> Optional[str]:
    """The state that a save was made from, if that isn't the last one: it is nearer to it, keeps more than half of it, and lacks all that has
    come since, so that from the last state it is as far as both ways together. A save that deletes nothing was made from the last one."""
    last = spans(versions[-1], new)
    if len(versions) < 2 or not any(i1 > i0 for i0, i1, _, _ in last):
        return None
    ways = [spans(x, new) for x in versions[:-1]]
    k = min(range(len(ways)), key=lambda k: (distance(ways[k]), -k))
    old, far = versions[k], distance(ways[k])
    kept = len(old) - sum(i1 - i0 for i0, i1, _, _ in ways[k])
    is_apart = 10 * distance(last) >= 9 * (far + distance(spans(old, versions[-1])))
    return old if far < distance(last) and 2 * kept > len(old) and is_apart else None


__all__ = ["Note", "Seen", "older_base", "replica_looks", "signature"]
