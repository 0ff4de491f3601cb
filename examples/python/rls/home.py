"""What one machine keeps of a circle: the folder ~/.local/share/rls/CIRCLE, which has to be there once. A copy of it would be a second replica
under one number, and so would an old state of it; two looks find that (docs/SHARING.md, "What breaks it")."""
import fcntl
import hashlib
import json
import os
import secrets
import time
from contextlib import contextmanager
from typing import Any, Iterator, List, Optional, Set

from .errors import Trouble
from .folders import replace
from .notices import number, regular_or_none, sync_folder

HELD = 73                       # the status if another program holds what was asked for
MOST_MARKS = 100_000
HOLDING: Set[str] = set()       # the folders whose lock this program has


def homes() -> str:
    """The folder that has those of all circles."""
    return os.environ.get("RLS_HOME") or os.path.join(os.environ.get("XDG_DATA_HOME") or os.path.expanduser("~/.local/share"), "rls")


class Home:
    def __init__(self, ident: str) -> None:
        self.folder = os.path.join(homes(), ident)

    def path(self, *names: str) -> str:
        return os.path.join(self.folder, *names)

    def make(self) -> None:
        """Makes the folder, which from now on knows where it is."""
        os.makedirs(homes(), exist_ok=True)
        if not os.path.isdir(self.path("texts")):
            for folder in self.folder, self.path("texts"):
                os.makedirs(folder, mode=0o700, exist_ok=True)
            sync_folder(homes())

    # -- what is kept
    def kept(self, name: str) -> Any:
        """What was kept last under this name; None if nothing was."""
        try:
            with open(self.path(name), encoding="utf-8") as f:
                return json.load(f)
        except FileNotFoundError:
            return None
        except ValueError:
            raise Trouble(f"{self.path(name)} is damaged: nothing was taken or sent. `rls join --anew SHARED` gets a new number for this machine.") from None

    def keep(self, name: str, value: object) -> None:
        """Keeps it: it is on the disk when this returns, and a stop leaves the old one or this one."""
        replace(self.path(name), json.dumps(value).encode())
        sync_folder(self.folder)

    # -- one round at a time
    @contextmanager
    def hold(self, wait: float) -> Iterator[None]:
        """Nobody else on this machine works in this folder meanwhile: two would write the same files. Who holds it already goes on."""
        if self.folder in HOLDING:
            yield
            return
        fd = self._locked(time.monotonic() + max(wait, 10))
        HOLDING.add(self.folder)
        try:
            self._sweep()
            yield
        finally:
            HOLDING.remove(self.folder)
            os.close(fd)

    def _locked(self, end: float) -> int:
        while True:
            fd = os.open(self.folder, os.O_RDONLY | os.O_DIRECTORY | os.O_CLOEXEC)
            try:
                fcntl.flock(fd, fcntl.LOCK_EX | fcntl.LOCK_NB)
                if os.path.isdir(self.folder) and os.path.samestat(os.fstat(fd), os.stat(self.folder)):
                    return fd                           # it wasn't set aside meanwhile
            except BlockingIOError:
                if time.monotonic() >= end:
                    os.close(fd)
                    raise Trouble(f"another `rls sync` of this circle goes on ({holder(self.folder)}); --wait SECONDS waits for it.", HELD) from None
            os.close(fd)
            time.sleep(0.05)

    def _sweep(self) -> None:
        """What a stop has left half written goes: nobody else writes here now."""
        for folder in self.folder, self.path("texts"):
            for x in os.listdir(folder) if os.path.isdir(folder) else []:
                if x.startswith(".new-"):
                    os.unlink(os.path.join(folder, x))

    # -- the first look: where it is
    def tell_place(self) -> None:
        """Writes down which file this is, on which machine. A copy of it is another file."""
        path = self.path("place")
        with open(path + ".new", "w", encoding="utf-8") as f:
            f.write(f"{os.fstat(f.fileno()).st_ino} {machine()}\n")
            f.flush()
            os.fsync(f.fileno())
        os.replace(path + ".new", path)
        sync_folder(self.folder)

    def look_at_place(self, shared: str) -> None:
        """Trouble 71 if this folder was copied here. What is copied bit by bit with its file system, such as a snapshot of a whole disk, isn't
        seen here."""
        try:
            with open(self.path("place"), encoding="utf-8") as f:
                told, here = f.read().split(), [str(os.fstat(f.fileno()).st_ino), machine()]
        except FileNotFoundError:
            told, here = [], ["", machine()]
        if told != here:
            where = "on this machine, in another place" if told[1:] == here[1:] else "on another machine"
            raise Trouble(f"{self.folder} is a copy: it was made {where}. One number has one folder: with two, or with an older one, the texts would differ for ever. If it was moved and the other one is gone, `rls sync --moved {shared}`; otherwise move it away, and `rls join {shared}` again.")

    # -- the second look: what it has told
    def marks(self) -> List[str]:
        """The marks that were made here, a number and random digits each, the last one last. What was half written when the power failed is no
        mark."""
        data = regular_or_none(self.path("marks"), 100 * MOST_MARKS) or b""
        return data.decode("ascii", "replace").split("\n")[:-1]

    def new_mark(self) -> str:
        """Makes the next mark, which is on the disk when this returns."""
        marks = self.marks()
        mark = f"{number(marks[-1].partition('-')[0]) + 1 if marks else 1}-{secrets.token_hex(4)}"
        data = "".join(x + "\n" for x in marks[-MOST_MARKS // 2:]) if len(marks) >= MOST_MARKS else ""
        if data or not marks:
            replace(self.path("marks"), f"{data}{mark}\n".encode())
            sync_folder(self.folder)
        else:
            with open(self.path("marks"), "r+b") as f:
                f.seek(sum(len(x) + 1 for x in marks))
                f.truncate()
                f.write(f"{mark}\n".encode())
                f.flush()
                os.fsync(f.fileno())
        return mark

    def is_own_mark(self, mark: str) -> bool:
        """Whether it was made here. One that is older than all that are remembered came late."""
        marks = self.marks()
        if marks and marks[-1] == mark or mark in marks:
            return True
        return bool(marks) and 0 < number(mark.partition("-")[0]) < number(marks[0].partition("-")[0])

    def set_aside(self, number_was: Optional[int]) -> str:
        """Makes room for a new number; what was here stays under the name that this answers."""
        aside = f"{self.folder}.{time.strftime('%Y%m%d-%H%M%S')}-{'none' if number_was is None else number_was}"
        os.rename(self.folder, aside)
        sync_folder(homes())
        return aside


def machine() -> str:
    """A sum of what names this machine."""
    for path in "/etc/machine-id", "/var/lib/dbus/machine-id":
        data = regular_or_none(path)
        if data:
            return hashlib.sha256(b"rls" + data).hexdigest()[:16]
    return hashlib.sha256(b"rls" + os.uname().nodename.encode()).hexdigest()[:16]


def holder(folder: str) -> str:
    """Which program holds the lock of a folder, as Linux tells it."""
    try:
        told = os.stat(folder)
        sign = f"{os.major(told.st_dev):02x}:{os.minor(told.st_dev):02x}:{told.st_ino}"
        with open("/proc/locks", encoding="ascii") as f:
            for line in f:
                words = line.split()
                if sign in words and "->" not in words:
                    pid = words[words.index(sign) - 1]
                    with open(f"/proc/{pid}/comm", encoding="utf-8", errors="replace") as g:
                        return f"{g.read().strip()}, process {pid}"
    except (OSError, ValueError):
        pass
    return "unknown"
