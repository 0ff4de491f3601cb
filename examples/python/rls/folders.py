"""The lock of a replica's folder, and files in a folder that others write into."""
import errno
import fcntl
import os
import secrets
import stat
import time
from typing import Optional, Sequence

from .errors import RlsError


def locked(folder: str, wait: float, words: Sequence[str]) -> int:
    """The folder of a replica, opened and locked, or an RlsError if another program holds it for longer than so many seconds. What is
    started with `pass_fds` holds the lock too, so it lasts as long as the program, also if this one is killed. The descriptor has a high
    number, since a program that is a script uses the low ones for itself."""
    try:
        low = os.open(folder, os.O_RDONLY | os.O_DIRECTORY)
    except (FileNotFoundError, NotADirectoryError):
        raise RlsError(2, f"there is no folder {folder}") from None
    try:
        fd = fcntl.fcntl(low, fcntl.F_DUPFD_CLOEXEC, 64)
    finally:
        os.close(low)
    end = time.monotonic() + wait
    while True:
        try:
            fcntl.flock(fd, fcntl.LOCK_EX | fcntl.LOCK_NB)
            return fd
        except BlockingIOError:
            if time.monotonic() >= end:
                os.close(fd)
                raise RlsError(7, "another program uses this replica", words) from None
            time.sleep(0.02)
        except OSError as e:
            os.close(fd)
            raise RlsError(7, f"{folder} can't be locked: {e.strerror}", words) from None


def regular(path: str, most: int, first: Optional[int] = None) -> Optional[bytes]:
    """The bytes of a regular file, or the first of them, or None if nothing is there. A folder that others write into may have anything at a name: a link to
    a file elsewhere, a pipe from which nothing ever comes, a folder, a file that fills the memory. Those are an RlsError."""
    try:
        fd = os.open(path, os.O_RDONLY | os.O_NONBLOCK | os.O_NOFOLLOW | os.O_CLOEXEC)
    except FileNotFoundError:
        return None
    except OSError as e:
        raise RlsError(8, f"{path} is a link" if e.errno == errno.ELOOP else f"{path}: {e.strerror}", ("take",)) from None
    try:
        told = os.fstat(fd)
        if not stat.S_ISREG(told.st_mode):
            raise RlsError(8, f"{path} is no file", ("take",))
        data = bytearray()
        while told.st_size <= most and len(data) <= most:
            more = os.read(fd, (most + 1 if first is None else first) - len(data))
            if not more:
                return bytes(data)
            data += more
        raise RlsError(11, f"{path} has more than {most} bytes", ("take",))
    except OSError as e:
        raise RlsError(8, f"{path}: {e.strerror}", ("take",)) from None
    finally:
        os.close(fd)


def size_of(path: str) -> Optional[int]:
    """How many bytes a regular file has; None if there is none at this name."""
    try:
        told = os.lstat(path)
    except OSError:
        return None
    return told.st_size if stat.S_ISREG(told.st_mode) else None


def replace(path: str, data: bytes) -> None:
    """Writes a file so that whoever reads it sees the old one or the new one. It is made under a name that nobody can know before, with
    the permissions that the umask gives. A link at its own name is replaced, and not written through; if a folder is there, or what else
    can't be replaced, it is an RlsError."""
    new = os.path.join(os.path.dirname(path), f".new-{secrets.token_hex(16)}")
    fd = os.open(new, os.O_WRONLY | os.O_CREAT | os.O_EXCL | os.O_NOFOLLOW | os.O_CLOEXEC, 0o666)
    try:
        with open(fd, "wb") as f:
            f.write(data)
            f.flush()
            os.fsync(fd)
        try:
            os.replace(new, path)
        except OSError as e:
            raise RlsError(9, f"{path}: {e.strerror}", ("send",)) from None
    except BaseException:
        os.unlink(new)
        raise
