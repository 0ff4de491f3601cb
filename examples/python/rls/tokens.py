"""How a replica sees that another one has its number (examples/README.md, "When a number is used twice"). In its own folder it keeps a token
that nobody else has, and what it wrote last into a shared folder; there it keeps a file whose name has its number and the token."""
import fcntl
import os
import re
import secrets
from typing import Iterable, NamedTuple, Optional

from .errors import RlsError, UsedTwice
from .folders import regular, replace
from .reports import Head

NOTE = "replica.token"
LINE = re.compile(r"([0-9a-f]{16}) ([0-9]{20}) ([0-9a-f]{16})\n")
SHOWN = re.compile(r"([0-9]{1,20}) ([0-9a-f]{16})")
MOST = 4_096                # bytes of a file that shows a token


class Record(NamedTuple):
    """The token of a replica; how many times it wrote into shared folders, and what it called the last time."""
    token: str
    count: int
    last: str


def _read(fd: int) -> Optional[Record]:
    found = LINE.fullmatch(os.pread(fd, MOST, 0).decode("ascii", "replace"))
    return Record(found[1], int(found[2]), found[3]) if found else None


def own_record(folder: str, more: bool = False) -> Optional[Record]:
    """What this replica wrote; with `more` it is about to write once more. None if its folder may not be written. One line of one length is
    written in place, so that it is whole at each moment."""
    try:
        fd = os.open(os.path.join(folder, NOTE), os.O_RDWR | os.O_CREAT | os.O_CLOEXEC | os.O_NOFOLLOW, 0o666)
    except OSError:
        return None
    try:
        fcntl.flock(fd, fcntl.LOCK_EX)
        was = _read(fd)
        if was and not more:
            return was
        now = Record(was.token, was.count + 1, secrets.token_hex(8)) if was else Record(secrets.token_hex(8), 0, secrets.token_hex(8))
        os.pwrite(fd, f"{now.token} {now.count:020d} {now.last}\n".encode(), 0)
        os.fsync(fd)
        return now
    except OSError:
        return None
    finally:
        os.close(fd)


def path_of(shared: str, head: Head, token: str) -> str:
    return os.path.join(shared, f"{head.group}-{head.sender}-{token}.member")


def show(shared: str, head: Head, folder: str) -> None:
    """Says in the shared folder that this replica writes, before it does."""
    now = own_record(folder, more=True)
    if now:
        replace(path_of(shared, head, now.token), f"{now.count} {now.last}\n".encode())


def look(shared: str, head: Head, folder: str, names: Iterable[str]) -> None:
    """UsedTwice if another replica with this one's number wrote into the shared folder, or a copy of this one."""
    own = own_record(folder)
    name_of = re.compile(rf"{head.group}-{head.sender}-([0-9a-f]{{16}})\.member")
    for name in sorted(names):
        found = name_of.fullmatch(name)
        if not found or not own:
            continue
        path = os.path.join(shared, name)
        if found[1] != own.token:
            raise UsedTwice.by(path, head, "another replica has this number")
        try:
            shown = SHOWN.match((regular(path, MOST) or b"").decode("ascii", "replace"))
        except RlsError:
            continue
        if shown and (int(shown[1]) > own.count or int(shown[1]) == own.count and shown[2] != own.last):
            raise UsedTwice.by(path, head, "a copy of this replica wrote there, or its files were put back from one")
