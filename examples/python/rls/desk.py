"""Which files on this machine have which texts of a circle, and the rounds that keep both alike."""
import os
import sys
import time
from contextlib import ExitStack
from typing import Any, Dict, List, Optional, Set

from .carrying import Source, sources
from .circle import Circle, Text, begin
from .errors import RlsError, Stale, Trouble
from .family import idents
from .files import Busy, look, read_whole, understood
from .giver import Giver
from .handing import hand_part, take_part
from .home import HELD, Home, holder, homes
from .kept_for import tell_kept
from .note import Note, replica_looks, signature
from .places import free_path, is_plain, make_room, move_within, notes_in, within

UNREAD = 8                      # the status if a file can't be read or written
MOST_NAMES = 5                  # of files that are shared at once, in one line
RENAMED = 0.7                   # the part of the words that a file under another name has to have of the one that is missing


def say(line: str) -> None:
    print(f"rls: {line}", file=sys.stderr, flush=True)


class Desk:
    """What is bound: each text's file, and a folder whose files are texts; with `adds` new files in it become texts, too, and if it `is_deep`
    those of the folders in it. A desk that is `bare` has no files: this machine's are in another circle."""

    def __init__(self, circle: Circle, bare: bool = False) -> None:
        self.circle, self.home, self.bare = circle, circle.home, bare
        kept: Dict[str, Any] = {} if bare else self.home.kept("bound") or {}
        self.files: Dict[str, str] = kept.get("files", {})
        self.folder: Optional[str] = kept.get("folder")
        self.adds, self.is_deep = bool(kept.get("adds")), bool(kept.get("deep"))
        self.moving: List[str] = kept.get("moving", [])         # from where to where a file is moved just now
        self.left: List[str] = kept.get("left", [])             # files whose texts were dropped: they aren't added anew by themselves
        self.idle: Dict[str, Any] = self.home.kept("idle") or {}
        self.passed_by: Optional[Set[str]] = None       # folders in which no text has a file

    def keep(self) -> None:
        self.home.keep("bound", {"files": self.files, "folder": self.folder, "adds": self.adds, "deep": self.is_deep, "moving": self.moving, "left": self.left})

    def bind(self, group: int, path: str) -> None:
        self.files[str(group)] = os.path.abspath(path)
        self.keep()

    def name(self, path: str) -> str:
        """What a file is called for all: its path in the folder of the texts, or its name if it is elsewhere."""
        return within(self.folder, path) or os.path.basename(path)

    # -- which files there are
    def settle(self) -> None:
        """Binds new texts to files, new files to texts, and files that got another name to the texts that they were."""
        self._finish_moving()
        self._finish_adding()
        self._part_with_gone()
        if not self.folder:
            return
        if not os.path.isdir(self.folder):
            raise Trouble(f"the folder of the texts, {self.folder}, isn't there. Perhaps its disk isn't mounted; nothing was taken or sent.")
        new = self._new_files()
        self._follow_renames(new)
        texts = self.circle.texts()
        for text in texts:
            self._name_as_told(text)
        for text in texts:
            if str(text.group) not in self.files:
                self.bind(text.group, free_path(self.folder, text.name, set(self.files.values()), self._left_out()))
        if self.adds:
            bound = set(self.files.values())
            self.add_all([x for x in new if x not in bound])

    def _finish_moving(self) -> None:
        """A stop came while a file was moved: it is under one of the two names, or under both."""
        if self.moving:
            group, old, new = self.moving
            if not os.path.lexists(new) and os.path.lexists(old):
                move_within(str(self.folder), old, new)
            elif os.path.lexists(old) and os.path.samefile(old, new):
                os.unlink(old)
            self.moving = []
            self.bind(int(group), new)

    def _finish_adding(self) -> None:
        """A stop came while a text was added: its file is bound, and nobody was told of it."""
        told = self.circle.texts_told()
        for group, path in self.files.items():
            if group not in told:
                self._begin_text(int(group), path)

    def _begin_text(self, group: int, path: str) -> None:
        begin(self.circle.replica(group), group, self.circle.me, self.circle.members)
        self.circle.say_text(group, self.name(path), begun=True)

    def _part_with_gone(self) -> None:
        gone = [x for x in self.circle.gone() if x in self.files]
        for group in gone:
            say(f"{self.files[group]} was dropped from the circle: the file stays, and nothing is exchanged for it any more.")
            self.part_with(group)

    def part_with(self, group: str) -> None:
        """The file of a text that was dropped stays, and is bound no longer."""
        self.left = [x for x in self.left if os.path.exists(x)] + [self.files.pop(group)]
        self.keep()

    def _new_files(self) -> List[str]:
        assert self.folder
        bound = {*self.files.values(), *self.left}
        return [x for x in notes_in(self.folder, self.is_deep, self._left_out()) if x not in bound]

    def _left_out(self) -> Set[str]:
        """Folders in which no file is anybody's note, or is one of another circle."""
        if self.passed_by is not None:
            return self.passed_by
        found = {os.path.realpath(x) for x in (self.circle.shared, homes())}
        for ident in idents():
            seat, bound = Home(ident).kept("seat") or {}, Home(ident).kept("bound") or {}
            found |= {os.path.realpath(x) for x in (seat.get("shared"), bound.get("folder")) if x and x != self.folder}
        self.passed_by = found
        return found

    def _follow_renames(self, new: List[str]) -> None:
        """A file that is missing, and a new one with most of its words, are one: somebody has given it another name, or put it into another
        folder. One whose own name is the same comes first."""
        lost = {group: Note(self.circle, Text(int(group), ""), None, say).last() for group, x in self.files.items() if not os.path.exists(x)} if new else {}
        for path in new if lost else []:
            words, last = words_of(path), os.path.basename(path)
            likely = sorted(lost, key=lambda x: os.path.basename(self.files[x]) != last)
            group = next((x for x in likely if are_alike(words, lost[x])), None)
            if group is not None:
                del lost[group]
                say(f"{self.name(self.files[group])} is {self.name(path)} now.")
                self.bind(int(group), path)
                self.circle.say_text(int(group), self.name(path))

    def _name_as_told(self, text: Text) -> None:
        """Somebody has given a text another name: its file gets it, if it is in the folder of the texts and nothing else has it."""
        old = self.files.get(str(text.group))
        if not self.folder or old is None or within(self.folder, old) in ("", text.name):
            return
        new = os.path.join(self.folder, text.name)
        if os.path.lexists(new) or new in self.files.values() or not all(is_plain(self.folder, x, self._left_out()) for x in (old, new)):
            return
        if os.path.exists(old):
            self.moving = [str(text.group), old, new]
            self.keep()                                 # so that a stop in the middle makes no new file of it
            move_within(self.folder, old, new)
            self.moving = []
        say(f"{self.name(old)} is {text.name} now.")
        self.bind(text.group, new)

    def add(self, path: str) -> None:
        """Makes a text of a file. It is bound first: if this is stopped, the next round goes on."""
        group = new_group()
        self.left = [x for x in self.left if x != os.path.abspath(path)]
        self.bind(group, path)
        self._begin_text(group, path)

    def add_all(self, paths: List[str]) -> None:
        """Makes texts of files, and says so."""
        for path in paths:
            self.add(path)
        names = [self.name(os.path.abspath(x)) for x in paths]
        if names:
            say(f"{', '.join(names[:MOST_NAMES])}{f' and {len(names) - MOST_NAMES} others' * (len(names) > MOST_NAMES)} {'is' if len(names) == 1 else 'are'} shared now.")

    # -- one round
    def once(self, only: Optional[str] = None, wait: float = 0, mine: bool = False, tend: bool = False) -> int:
        """Files and messages, then what the giver does. With `tend` no text is looked at: an editor that exchanges by itself runs that now and
        then. The status."""
        with ExitStack() as stack:
            self.circle.look()
            return self._once(sources(self.circle, stack, say), only, wait, mine, tend)

    def _once(self, late: Dict[int, List[Source]], only: Optional[str], wait: float, mine: bool, tend: bool) -> int:
        status, self.late = 0, late
        if not tend and not self.bare:
            self.settle()
        lost = self.circle.begin_texts()
        for text in lost:
            say(f"{text.name}: its replica is away from {self.circle.replica(text.group)}. Its number was used, so none is begun anew: `rls join --anew {self.circle.shared}` gets a new number.")
            status = 71
        if not tend:
            status = max(status, self._rounds({x.group for x in lost}, only, wait, mine))
        for line in [take_part(self.circle)] + Giver(self.circle).work():
            if line:
                say(line)
        hand_part(self.circle)
        self.circle.mark_if_due()
        return status

    def _rounds(self, left_out: Set[int], only: Optional[str], wait: float, mine: bool) -> int:
        status, kept = 0, dict(self.idle)
        for text in self.circle.texts():
            path = self.files.get(str(text.group))
            if text.group not in left_out and only in (None, path) and (mine and only or not self.is_idle(text, path)):
                late = self.late.get(text.group, ())
                found = self._round(Note(self.circle, text, path, say, late), time.monotonic() + wait, mine)
                if found and path and late:             # others wait for what comes over, and not for this machine's file
                    self._round(Note(self.circle, text, None, say, late), time.monotonic(), False)
                status = max(status, found)
        if self.idle != kept:
            self.home.keep("idle", self.idle)
        return status

    def is_idle(self, text: Text, path: Optional[str]) -> bool:
        """Whether neither the messages nor the file nor the replica have changed since a round looked at them. It starts no program."""
        seen = self.idle.get(str(text.group))
        if not seen or path and not seen[2] or seen[2] != (look(path) if path else []):
            return False
        late = self.late.get(text.group, ())
        return bool(seen[0] == signature(self.circle, text, late) and seen[1] == replica_looks(self.circle, text, late))

    def _round(self, note: Note, end: float, mine: bool) -> int:
        """One round of one text. The status."""
        name = note.text.name
        if note.path and self.folder and not is_plain(self.folder, note.path, self._left_out()):
            say(f"{name}: a folder of {note.path} is a link, or a file, or is kept for something else, and isn't followed: nothing was taken or sent.")
            return UNREAD
        while True:
            try:
                make_room(self.folder, note.path or "")
                self.idle[str(note.text.group)] = note.round(mine)
                tell_kept(self.circle, note.text, say)
                return 0
            except RlsError as e:
                if e.status != 7 or "another program" not in e.line:
                    say(f"{name}: {e.line}")
                    return e.status if e.status in (4, 71) else 71
                if time.monotonic() >= end:
                    return self._told_held(note)
                time.sleep(0.1)
            except Stale as e:
                say(f"{name}: {e}. The files in {note.folder} were put back from a copy, or this number is used twice: nothing was taken or sent (docs/SHARING.md, \"What breaks it\").")
                return 71
            except Busy:
                say(f"{name}: another program is writing {note.path}; it goes in at the next round.")
                return HELD
            except Trouble as e:
                say(f"{name}: {e}")
                return e.status
            except OSError as e:
                say(f"{name}: {e.filename if isinstance(e.filename, str) else note.path}: {e.strerror}")
                return UNREAD

    def _told_held(self, note: Note) -> int:
        """An editor that has the text open exchanges by itself. If its file was changed, too, somebody has to know."""
        seen = self.idle.get(str(note.text.group))
        if not note.path or not os.path.exists(note.path) or seen and seen[2] == look(note.path):
            return 0
        say(f"{note.text.name}: {holder(note.folder)} has its replica open; what was changed in {note.path} goes in when that ends. --wait SECONDS waits for it.")
        return HELD


def new_group() -> int:
    """The number of a new text."""
    return int.from_bytes(os.urandom(8), "big") >> 1


def words_of(path: str) -> Set[str]:
    """The words of a file; none if it can't be read."""
    try:
        found = read_whole(path)
        return set(understood(found.data if found else b"").text.split())
    except (Busy, OSError, UnicodeDecodeError):
        return set()


def are_alike(words: Set[str], text: str) -> bool:
    """Whether these are most of a text's words, and not many others."""
    old = set(text.split())
    return len(words) > 0 and len(words & old) >= RENAMED * max(len(words), len(old))
