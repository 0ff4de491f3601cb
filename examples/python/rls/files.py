"""A plain file that any editor may write at any moment: read when it is whole, and replaced so that no save is lost."""
import ctypes
import errno
import fcntl
import os
import signal
import stat
import time
from typing import List, NamedTuple, Optional

MOST_FILE = 60_000_000          # bytes
MOST_OPEN = 2.0                 # seconds that a writer is waited for
STILL = 0.3                     # seconds without a change after which a file is whole, where the system doesn't tell who has it open
BOM = b"\xef\xbb\xbf"
AT_FDCWD, NO_REPLACE, EXCHANGE = -100, 1, 2     # of renameat2
Look = List[int]


class Busy(Exception):
    """Somebody writes it just now."""


class Content(NamedTuple):
    """The text of a file, and how the file spells it."""
    text: str
    has_bom: bool = False
    has_returns: bool = False

    def spelled(self, text: str) -> bytes:
        if self.has_returns:
            text = text.replace("\n", "\r\n")
        return BOM * self.has_bom + text.encode("utf-8")


class Found(NamedTuple):
    """The bytes of a file, and what its look was then."""
    data: bytes
    look: Look


def understood(data: bytes) -> Content:
    """A byte order mark, and line ends of Windows if each line has them, belong to the file and not to the text."""
    has_bom = data.startswith(BOM)
    text = data[len(BOM) * has_bom:].decode("utf-8")
    lines, returns = text.count("\n"), text.count("\r\n")
    has_returns = lines > 0 and lines == returns and text.count("\r") == returns
    return Content(text.replace("\r\n", "\n") if has_returns else text, has_bom, has_returns)


def is_alone(fd: int) -> Optional[bool]:
    """Whether no other program has the file open for writing; None if the system doesn't tell."""
    signal.signal(signal.SIGIO, signal.SIG_IGN)
    try:
        fcntl.fcntl(fd, fcntl.F_SETLEASE, fcntl.F_RDLCK)
        fcntl.fcntl(fd, fcntl.F_SETLEASE, fcntl.F_UNLCK)
        return True
    except OSError as e:
        return False if e.errno in (errno.EAGAIN, errno.EBUSY) else None


def look_of(told: os.stat_result) -> Look:
    return [told.st_ino, told.st_size, told.st_mtime_ns]


def look(path: str) -> Look:
    """What changes when a file is saved; nothing if there is none."""
    try:
        return look_of(os.stat(path))
    except OSError:
        return []


def read_whole(path: str) -> Optional[Found]:
    """The file once nobody has it open for writing; None if there is none. Busy after a while."""
    end = time.monotonic() + MOST_OPEN
    before, since = [], time.monotonic()
    while True:
        try:
            fd = os.open(path, os.O_RDONLY | os.O_NONBLOCK | os.O_CLOEXEC)
        except FileNotFoundError:
            return None
        with open(fd, "rb") as f:
            told = os.fstat(fd)
            if not stat.S_ISREG(told.st_mode) or told.st_size > MOST_FILE:
                raise OSError(errno.EINVAL, "no file, or too large", path)
            alone, now = is_alone(fd), time.monotonic()
            if look_of(told) != before:
                before, since = look_of(told), now
            if alone is None and 0 <= time.time() - told.st_mtime < STILL and now - since < STILL:
                alone = False                           # no leases here: it has to be still for a moment
            data = f.read()
            if alone is not False and look_of(os.fstat(fd)) == before:
                return Found(data, before)
        if now > end:
            raise Busy(path)
        time.sleep(0.05)


def renamed(a: str, b: str, how: int) -> bool:
    """Gives a file another name in one step, with a flag of renameat2; False if the file system can't."""
    try:
        renameat2 = ctypes.CDLL(None, use_errno=True).renameat2
    except (OSError, AttributeError):
        return False
    if renameat2(AT_FDCWD, os.fsencode(a), AT_FDCWD, os.fsencode(b), how) == 0:
        return True
    if ctypes.get_errno() in (errno.EINVAL, errno.ENOSYS, errno.EPERM, errno.EOPNOTSUPP):
        return False
    raise OSError(ctypes.get_errno(), os.strerror(ctypes.get_errno()), b)


def move(a: str, b: str) -> None:
    """Gives a file another name that nobody has; FileExistsError otherwise."""
    if renamed(a, b, NO_REPLACE):
        return
    try:
        os.link(a, b)
        os.unlink(a)
    except FileExistsError:
        raise
    except OSError:                                     # no hard links here
        if os.path.lexists(b):
            raise FileExistsError(errno.EEXIST, os.strerror(errno.EEXIST), b) from None
        os.rename(a, b)


def beside(path: str, end: str) -> str:
    """A hidden name beside a file. `new` is what is being written, and nobody's save; `next` is the whole new file before it has its name, and
    the old one, with whatever was saved meanwhile, after it has lost it; `old` is the old one where names can't be exchanged."""
    path = os.path.realpath(path)
    return os.path.join(os.path.dirname(path), f".{os.path.basename(path)}.rls-{end}")


def left_over(path: str) -> List[str]:
    """What a round that was stopped has left, which may be somebody's save."""
    return [x for x in (beside(path, "old"), beside(path, "next")) if os.path.lexists(x)]


class Put(NamedTuple):
    """What became of a file that was to be replaced: the look of what is there now, if that is known, and whether somebody has saved between."""
    look: Look
    has_come: bool = False


def put(path: str, data: bytes, expected: Optional[bytes]) -> Put:
    """Puts these bytes there if the file has what is expected (None: there is none). No save is lost: what has lost its name is looked at after
    that, once no program has it open for writing; and if it isn't what was expected, it stays beside the file (`left_over`). Where there
    is a file that wasn't expected, that stays."""
    path, following = os.path.realpath(path), beside(path, "next")
    told = written(path, data)
    try:
        if expected is None:
            move(following, path)
            return Put(told)
        left = exchange(path, following)
    except FileExistsError:
        os.unlink(following)
        return Put([], True)
    except FileNotFoundError:
        os.unlink(following)
        return Put([])                                  # it was deleted: it is made anew in the next round
    saved = read_whole(left)                            # Busy leaves it where it is, for a later round
    if saved and saved.data != expected:
        return Put(told, True)
    os.unlink(left)
    return Put(told)


def written(path: str, data: bytes) -> Look:
    """Writes the new file beside the old one, with its permissions, under a name that says that it is whole."""
    new, following = beside(path, "new"), beside(path, "next")
    if os.path.lexists(new):
        os.unlink(new)                                  # half of one; nobody else writes there
    fd = os.open(new, os.O_WRONLY | os.O_CREAT | os.O_EXCL | os.O_CLOEXEC, 0o666)
    with open(fd, "wb") as f:
        f.write(data)
        f.flush()
        if os.path.exists(path):
            os.fchmod(fd, stat.S_IMODE(os.stat(path).st_mode))
        os.fsync(fd)
        told = look_of(os.fstat(fd))
    move(new, following)
    return told


def exchange(path: str, following: str) -> str:
    """Gives the new file its name. Answers where the old one is now. On a file system that can't exchange names there is no file for a moment,
    and if somebody makes one then, that stays: FileExistsError."""
    if renamed(following, path, EXCHANGE):
        return following
    old = beside(path, "old")
    os.rename(path, old)
    move(following, path)
    return old


__all__ = ["Busy", "Content", "Found", "Put", "left_over", "look", "move", "put", "read_whole", "understood"]
