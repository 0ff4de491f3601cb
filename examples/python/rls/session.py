"""A replica by one running `rls session` (docs/SESSION.md)."""
import os
import subprocess
import time
from types import TracebackType
from typing import List, NoReturn, Optional, Sequence, Tuple, Type

from . import limits
from .commands import Commands, Editing
from .edits import Change, change_of, changes_told, escaped, no_surrogates
from .errors import Refused, RlsError
from .folders import locked
from .renaming import Costs, Renaming
from .reports import Groups, Head, Report, Stat, stat_of

TELLING = set("idbruzym")        # the requests whose replies tell what changed, if that is asked for


class Session(Editing):
    """A replica in a folder, held by one running `rls session`. Use it in `with`.

    What isn't stored may be handed to nobody: a crash would make this member forget its operations, and it would then give their numbers
    to other edits, which no member can tell. So `message` stores first if something was edited or taken since.

    `version` says what the program speaks. With 3 `replace` and `set_text` hand each change on as it is: of those that go on with each other
    the session makes one operation, or none, as soon as anything else is asked (docs/SESSION.md). With 1 it stores only at the end of a session: `save` ends one and begins another, and what
    `undo` could take back is gone. With 2 it stores and goes on, and there are groups of undo and redo, changes and more cursors; with 1
    those calls are an RlsError with status 4."""

    def __init__(self, folder: str, program: Optional[str] = None, timeout: float = 30, safe: bool = True) -> None:
        self.folder, self.program = os.path.expanduser(folder), program or limits.PROGRAM
        self.timeout, self.safe = timeout, safe
        self.saving, self.unsaved, self.telling = False, False, False
        self.stored, self.changed = Commands(folder, program), limits.RENAME_AT
        self.typed: Optional[Tuple[float, float, bool]] = None
        self.renaming, self.members = Renaming(), 0
        self._news: List[Change] = []
        # One lock for the whole life of this object: `save` ends one program and begins another, and nobody may come in between.
        self.stored.held = locked(self.folder, 0, ("session",))
        try:
            self._start()
            self.version = self._asked_version()
        except BaseException:
            self._release()
            raise

    def _start(self) -> None:
        env = {**os.environ, "RLS_LOCKED": "1"}
        assert self.stored.held is not None
        self.process = subprocess.Popen([self.program, "session"], cwd=self.folder, env=env, stdin=subprocess.PIPE, stdout=subprocess.PIPE,
                                        stderr=subprocess.PIPE, pass_fds=(self.stored.held,))
        assert self.process.stdin and self.process.stdout and self.process.stderr
        self.input, self.output, self.errors = self.process.stdin, self.process.stdout, self.process.stderr
        self.given, self.unsaved = 0, False

    def _asked_version(self) -> int:
        self._put(b"v 4\nv 3\nv\n")
        newest, third, old = self._line(), self._line(), self._line()
        return 4 if newest == "version 4" else 3 if third == "version 3" else 2 if old == "version 2" else 1

    def _release(self) -> None:
        if self.stored.held is not None:
            os.close(self.stored.held)
            self.stored.held = None

    # -- one line out, one reply in
    def _put(self, data: bytes) -> None:
        """What a session reads before it stores may have 64 MiB, or everything since then is lost: it stores in time."""
        if not self.saving and self.given and self.given + len(data) > limits.MOST_INPUT - 64:
            self.save()
        self.given += len(data)
        if self.input.closed:
            raise RlsError(9, "the session has ended", ("session",))
        try:
            self.input.write(data)
            self.input.flush()
        except BrokenPipeError:
            self._ended()

    def _line(self) -> str:
        line = self.output.readline()
        if not line.endswith(b"\n"):
            self._ended()
        return line[:-1].decode("utf-8")

    def _bytes(self, n: int) -> bytes:
        data = self.output.read(n + 1)
        if len(data) != n + 1:
            self._ended()
        return data[:-1]

    def kill(self) -> None:
        """Stops the program as a crash would: what was edited since the last save is lost."""
        self.process.kill()
        if not self.input.closed:
            self._finish()
        self._release()

    def _finish(self) -> Tuple[int, str]:
        """Waits for the end of the program, whose status and line it answers. The lock stays."""
        status = self.process.wait(self.timeout)
        line = self.errors.read().decode("utf-8", "replace").strip()
        for pipe in self.input, self.output, self.errors:
            try:
                pipe.close()
            except OSError:
                pass
        return status, line

    def _ended(self) -> NoReturn:
        status, line = self._finish()
        self._release()
        raise RlsError(status, line + "; what was edited since the last save is lost" * self.unsaved, ("session",))

    def _ask(self, line: str, data: bytes = b"") -> List[str]:
        if "\n" in line:
            raise ValueError("a line feed in a line")
        self._put(line.encode("utf-8") + b"\n" + data)
        reply = self._line()
        if reply == "bad":
            raise RlsError(4, f"bad: {line[:60]}", ("session",))
        if self.telling and line[0] in TELLING:
            self._told(line[0] in "id" and not reply.startswith("no "))
        if reply.startswith("no "):
            raise Refused(6, reply[3:], ("session", line[:20]))
        return reply.split(" ")

    def _ask_new(self, line: str) -> List[str]:
        """Asks what only the second version knows."""
        if self.version < 2:
            raise RlsError(4, f"{line.split(' ')[0]}: this program has the first version of the session", ("session",))
        return self._ask(line)

    def _told(self, is_own: bool) -> None:
        """Reads the changes after a reply. The first of an edit is the edit itself, which whoever made it knows."""
        lines = [self._line() for _ in range(int(self._line().split(" ")[1]))]
        self._news += map(change_of, lines[1:] if is_own else lines)

    # -- edits
    def edit(self, lines: Sequence[str]) -> None:
        for line in lines:
            self._ask(line)
            self._edited()
            self.renaming.note(len(line.encode("utf-8")))
            self._note_typed(False)

    def replace(self, at: int, count: int, text: str) -> None:
        """A change of an editor: in place of so many characters from a place on comes this text. Each key may be one."""
        if self.version < 3 or count > limits.MOST_DELETED or len(text) > limits.MOST_CHARACTERS:
            super().replace(at, count, text)
        elif count or text:
            self._ask(f"e {at} {count} {escaped(no_surrogates(text))}")
            self._edited()
            self.renaming.note(len(text.encode("utf-8")))
        self._note_typed(count > 0 and not text)

    def set_text(self, new: str) -> bool:
        found, is_cut = changes_told(self.text(), no_surrogates(new))
        for change in found:
            self.replace(*change)
            self._note_typed(False)
        return is_cut

    def _note_typed(self, is_taken: bool) -> None:
        now = time.monotonic()
        self.typed = (self.typed[0] if self.typed else now, now, is_taken)

    def store_due_in(self) -> Optional[float]:
        """In how many seconds it is well to store and to send, if nothing more is typed: 0 is now, and None says that nothing was. It is a
        second after the last change, and three after the first one at the latest; three after a change that took something away, so that what
        is put in its place becomes one change with it (docs/SESSION.md). Nothing else should be asked until then."""
        if not self.typed:
            return None
        first, last, is_taken = self.typed
        due = min(last + (limits.HOLD if is_taken else limits.REST), first + limits.MOST_REST + limits.HOLD * is_taken)
        return max(0.0, due - time.monotonic())

    def _edited(self, count: int = 1) -> None:
        self.changed += count
        self.unsaved = True

    def _ask_undo(self, line: str) -> Optional[List[str]]:
        """The reply to a request of undo; None if there is nothing to take back, or to do again."""
        try:
            reply = self._ask(line) if line == "u" else self._ask_new(line)
        except Refused as e:
            if e.line == "nothing":
                return None
            raise
        self._edited()
        self.renaming.note(None)
        return reply

    def undo(self) -> int:
        """Takes back the last own edit of this session. How many characters came or went; 0 if nothing was to be taken back."""
        reply = self._ask_undo("u")
        return int(reply[2]) if reply else 0

    def undo_group(self) -> int:
        """Takes back the last group of own edits, whatever others did since. How many steps it had; 0 if there is none. Version 2."""
        reply = self._ask_undo("z")
        return int(reply[1]) if reply else 0

    def redo_group(self) -> int:
        """Does again the group that was taken back last. How many steps it had; 0 if there is none. Version 2."""
        reply = self._ask_undo("y")
        return int(reply[1]) if reply else 0

    def end_group(self) -> Groups:
        """Ends the group of own edits that is open. `undo_group` and `redo_group` do so too. Version 2."""
        return Groups(*map(int, self._ask_new("g")[1:]))

    def tell_changes(self, on: bool = True) -> None:
        """From now on `news` has what changes. Version 2."""
        self._ask_new(f"c {int(on)}")
        self.telling = on

    def news(self) -> List[Change]:
        """What changed since this was asked last, but for the edits that `insert`, `delete`, `replace`, `edit` and `set_text` made themselves. Played in
        order over the text as the caller has it, after those edits, they give the text. So ask after each call that edits or takes."""
        news, self._news = self._news, []
        return news

    # -- cursors
    @property
    def cursor(self) -> int:
        return int(self._ask("p")[1])

    @cursor.setter
    def cursor(self, at: int) -> None:
        self._ask(f"k {at}")

    def put_cursor(self, number: int, at: int, before: bool = False) -> None:
        """Puts one of the cursors 0 to 63. It moves with the character before it, or with `before` it stays before the character after it:
        what comes in at a cursor then comes before it. Version 2."""
        self._ask_new(f"{'j' if before else 'k'} {at} {number}")

    def cursor_at(self, number: int) -> int:
        """Where that cursor is now. Version 2."""
        return int(self._ask_new(f"p {number}")[1])

    def place(self, at: int) -> str:
        """A place in the text as one word, for other members. Version 2."""
        return self._ask_new(f"a {at}")[1]

    def located(self, place: str) -> int:
        """Where a place that a member told is here, now; Refused if this replica doesn't know its epoch. Version 2."""
        if not place or not place.isascii() or any(x.isspace() for x in place):
            raise ValueError("no place")
        return int(self._ask_new(f"l {place}")[1])

    # -- what it has
    def text(self) -> str:
        return self._bytes(int(self._ask("t")[1])).decode("utf-8")

    def take(self, message: bytes) -> Report:
        if len(message) > limits.MOST_INPUT - 64:
            raise RlsError(11, "a session reads no message of so many bytes, and a command may", ("session", "m"))
        report = Report(*map(int, self._ask(f"m {len(message)}", message)[1::2]))
        self._edited(report.applied + report.released)
        return report

    def message(self, to: int, told: Optional[Sequence[int]] = None) -> bytes:
        """The message for a member: all that it isn't known to have; since version 4 without what it told that it has, by the counts of its
        last message, and without its own. It stores first if that is needed."""
        if self.safe and self.unsaved:
            self.save()
        words = [to, *told] if told and self.version >= 4 else [to]
        return self._bytes(int(self._ask("s " + " ".join(map(str, words)))[1]))

    def stat(self) -> Stat:
        """What `rls stat` prints, of the replica as it is now. Version 2."""
        return stat_of(self._bytes(int(self._ask_new("n")[1])))

    def costs(self) -> Costs:
        """What a rename would bring. Version 4."""
        if self.version < 4:
            raise RlsError(4, "o: this program has an older version of the session", ("session",))
        return Costs.told(self._ask("o"))

    def head(self) -> Head:
        """Who this is. In the first version no line asks it, so it is read from a message."""
        if self.version < 2:
            return Head.of(self._bytes(int(self._ask("s 0")[1])))
        return Head.told(self.stat())

    # -- storing
    def rename_if_due(self) -> None:
        """Renaming is part of saving."""
        if self.unsaved:
            self.save()

    def save(self) -> None:
        """Stores. It renames if that is due."""
        self.saving, self.typed = True, None
        try:
            if self.version < 2:
                self._begin_again()
            else:
                was_edited = self.unsaved
                self._store()
                if was_edited and limits.RENAME_AT > 0:
                    self._rename_if_due()
                    if self.unsaved:
                        self._store()
        except BaseException:
            if self.version < 2:
                self._release()
            raise
        finally:
            self.saving = False

    def _rename_if_due(self) -> None:
        """Where a program has no line `o`, it looks only if an eighth of RENAME_AT has changed since it looked last."""
        is_long_ago = self._is_look_due()
        try:
            costs = self.costs()
        except RlsError as e:
            if e.status != 4:
                raise
            if is_long_ago:
                self.rename_by(self.stat())
            return
        self.members = self.members or self.head().members
        if self.renaming.is_due(costs, self.members, is_long_ago):
            self.rename_now()
            self.renaming.renamed(costs)

    def _is_look_due(self) -> bool:
        is_due = limits.RENAME_AT > 0 and self.changed * 8 >= limits.RENAME_AT
        if is_due:
            self.changed = 0
        return is_due

    def _store(self) -> None:
        self._put(b"w\n")
        if self._line() != "saved":
            self._ended()
        self.given, self.unsaved = 0, False

    def _begin_again(self) -> None:
        """Ends the session, which stores, and starts another. The cursor is carried over; undo isn't."""
        at = self.cursor
        self._quit()
        if self._is_look_due():
            self.stored.rename_if_due()
        self._start()
        self.cursor = at

    def _quit(self) -> None:
        """Ends the program, which stores. The lock stays."""
        self._put(b"q\n")
        if self._line() != "saved":
            self._ended()
        status, line = self._finish()
        if status:
            raise RlsError(status, line, ("session",))
        self.unsaved = False

    def close(self) -> None:
        self.saving = True              # nothing is saved before this, which saves
        try:
            self._quit()
        finally:
            self.saving = False
            self._release()

    def __enter__(self) -> "Session":
        return self

    def __exit__(self, kind: Optional[Type[BaseException]], fault: Optional[BaseException], trace: Optional[TracebackType]) -> None:
        # After a fault that ended the program there is nothing to close, and its error is the one to see.
        if fault is None or not self.input.closed:
            self.close()
