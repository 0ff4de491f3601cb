"""A replica by commands."""
import json
import os
import subprocess
import warnings
from contextlib import contextmanager
from typing import Any, Iterator, Optional, Sequence, Tuple

from . import limits
from .edits import changes_told, deletion, insertion, lines_of, no_surrogates, replacement
from .errors import Refused, RlsError
from .folders import locked
from .program import told
from .reports import Head, Report, Stat, stat_of
from .stored import State, head_of, state_of

READING = "text", "ids", "stat", "send"      # the commands that store nothing, and so need no lock


class Editing:
    """What a replica by commands and one by a session have in common."""

    warned = False

    def edit(self, lines: Sequence[str]) -> None:
        """Performs lines `i AT TEXT`, `d AT COUNT`, `b AT` and `r` (docs/USE.md)."""
        raise NotImplementedError

    def text(self) -> str:
        raise NotImplementedError

    def insert(self, at: int, text: str) -> None:
        self.edit(insertion(at, no_surrogates(text)))

    def delete(self, at: int, count: int) -> None:
        self.edit(deletion(at, count))

    def replace(self, at: int, count: int, text: str) -> None:
        """Puts a text in place of so many characters."""
        self.edit(replacement(at, count, no_surrogates(text)))

    def set_text(self, new: str) -> bool:
        """Makes the least edits after which the text is this one. Whether some part was so different that it was compared by cheaper means: then
        what others wrote in it meanwhile may stand beside its place (examples/COMPARE.md)."""
        found, is_cut = changes_told(self.text(), no_surrogates(new))
        self.edit(lines_of(found))
        return is_cut

    def rename(self) -> None:
        self.edit(["r"])

    def rename_by(self, told: Stat) -> None:
        """Renames if there are more runs than RENAME_AT for each epoch that is kept, of which 8 count (docs/USE.md, "When to rename")."""
        if limits.RENAME_AT > 0 and told["runs"][0] > limits.RENAME_AT * min(8, told["epochs"][0]):
            self.rename_now()

    def rename_now(self) -> None:
        """Renames. If that is refused, it is a warning, once."""
        try:
            self.rename()
        except Refused as e:
            if not self.warned:
                warnings.warn(f"the text can't be renamed any more ({e.line.splitlines()[0]}), so files and messages stay large: `rls restart` "
                              "begins anew with the text (docs/USE.md, \"Where a limit is met\")")
            self.warned = True


class Commands(Editing):
    """A replica in a folder.  Each call is one run of the program; what it stored is on the disk when it returns."""

    def __init__(self, folder: str, program: Optional[str] = None) -> None:
        self.folder, self.program = os.path.expanduser(folder), program or limits.PROGRAM
        self.held: Optional[int] = None             # the locked folder, if a Session holds it for these commands

    @classmethod
    def new(cls, folder: str, group: int, me: int, members: int, program: Optional[str] = None) -> "Commands":
        """Begins a replica, with a number that nobody has used. If the folder has one already, this is an RlsError with status 2;
        then Commands(folder) is that replica."""
        self = cls(folder, program)
        os.makedirs(self.folder, exist_ok=True)
        self._run("new", str(group), str(me), str(members))
        return self

    @contextmanager
    def _locked(self, words: Sequence[str]) -> Iterator[Tuple[int, ...]]:
        """Two programs may not use one folder at once, and the program doesn't look. So each call that stores holds the folder, as the
        launcher does, which is told so by RLS_LOCKED. It waits for another program, but not for ever: that may be a Session of this one.
        Answers what the program is to hold as well."""
        if self.held is not None:
            yield (self.held,)
            return
        if words[0] in READING:
            if not os.path.isdir(self.folder):
                raise RlsError(2, f"there is no folder {self.folder}")
            yield ()
            return
        fd = locked(self.folder, limits.MOST_WAIT, words)
        try:
            yield (fd,)
        finally:
            os.close(fd)

    def _run(self, *words: str, data: bytes = b"", fine: Tuple[int, ...] = (0,)) -> Tuple[bytes, str]:
        # Whoever reads while another program stores twice may see half of each, so it reads again.
        for _ in range(5 if words[0] in READING else 1):
            with self._locked(words) as held:
                env = {**os.environ, "RLS_LOCKED": "1"}
                p = subprocess.run([self.program, *words], cwd=self.folder, input=data, capture_output=True, env=env, pass_fds=held)
            if p.returncode != 3:
                break
        line = p.stderr.decode("utf-8", "replace").strip()
        if p.returncode not in fine:
            raise (Refused if p.returncode == 6 else RlsError)(p.returncode, told(self.program, p.returncode, line), words)
        return p.stdout, line

    def edit(self, lines: Sequence[str]) -> None:
        if lines:
            self._run("edit", data="".join(x + "\n" for x in lines).encode("utf-8"), fine=(0, 5))

    def rename_if_due(self) -> None:
        """`Mailbox.sync` and `Session.save` call this."""
        if limits.RENAME_AT > 0:
            self.rename_by(self.stat())

    def text(self) -> str:
        return self._run("text")[0].decode("utf-8")

    def ids(self) -> Any:
        return json.loads(self._run("ids")[0])

    def message(self, to: int, told: Optional[Sequence[int]] = None) -> bytes:
        """The message for a member: all that it isn't known to have. If that may be cut off at the greatest size, then without what the member
        told that it has, by the counts of its last message, and without its own; a session makes that, which stores."""
        message = self._run("send", str(to))[0]
        if not told or len(message) < limits.MAY_BE_CUT:
            return message
        replies = self._run("session", data=f"v 4\ns {to} {' '.join(map(str, told))}\nq\n".encode("ascii"))[0]
        version, line, rest = (replies.split(b"\n", 2) + [b"", b""])[:3]
        return rest[:int(line[8:])] if version == b"version 4" and line.startswith(b"message ") else message

    def stat(self) -> Stat:
        """What `rls stat` prints: a word, and its numbers."""
        return stat_of(self._run("stat")[0])

    def head(self) -> Head:
        """Who this is, and how many operations of each member were accepted. It is read from the stored file, and starts no program."""
        return head_of(self.folder) or Head.told(self.stat())

    def state(self) -> State:
        """Another value once anything was stored in this folder, by whomever. It starts no program, so a caller that keeps what `text` or
        `stat` answered asks this first."""
        return state_of(self.folder)

    def take(self, message: bytes) -> Report:
        out, line = self._run("take", data=message, fine=(0, 5))
        numbers = out.decode().split()[1::2]
        return Report(*map(int, numbers), refusals=tuple(x for x in line.splitlines() if x.startswith("refused ")))

    def leave(self) -> None:
        """Ends this member's part for ever: it can't edit any more, and nobody keeps anything for it."""
        self._run("leave")

    def save(self) -> None:
        """Nothing to do: each command has stored the file."""

    def close(self) -> None:
        """Nothing to do."""
