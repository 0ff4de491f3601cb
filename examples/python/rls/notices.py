"""What members of a circle tell each other beside messages: small files in the shared folder, of lines `WORD VALUE`, whose last line is `end`.
One that doesn't end so isn't whole, and isn't there yet. Whoever may write into the folder may have written anything into them."""
import os
from typing import Dict, Optional

from .errors import RlsError
from .folders import regular, replace
from .mailbox import shown

MOST_NOTICE = 65_536            # bytes
MOST_FILE_NAME = 200            # bytes in UTF-8

Notice = Dict[str, str]


def regular_or_none(path: str, most: int = MOST_NOTICE) -> Optional[bytes]:
    """The bytes of a regular file of at most so many; None if there is none, or something else."""
    try:
        return regular(path, most)
    except RlsError:
        return None


def read_notice(path: str) -> Optional[Notice]:
    """The words and values of a whole notice; None if it isn't there or isn't whole."""
    data = regular_or_none(path)
    try:
        lines = data.decode("utf-8").split("\n") if data else []
    except UnicodeDecodeError:
        return None
    if lines[-2:] != ["end", ""]:
        return None
    return {word: value for word, _, value in (x.partition(" ") for x in lines[:-2])}


def write_notice(path: str, **values: object) -> None:
    """Writes it, unless it says so already: a synchroniser would carry it for nothing."""
    data = ("".join(f"{word} {value}\n" for word, value in values.items()) + "end\n").encode()
    if regular_or_none(path) != data:
        replace(path, data)


def number(word: Optional[str], digits: int = 18) -> int:
    """A number of at most so many digits, which is 19 for that of a text; 0 for what is none."""
    return int(word) if word and word.isascii() and word.isdecimal() and len(word) <= digits else 0


def name_of(notice: Optional[Notice]) -> str:
    return shown((notice or {}).get("name", "")) or "?"


def file_name(name: str) -> str:
    """The name of a text as it may be a file's here: no path, no hidden file, nothing that a terminal would take for more than a letter."""
    plain = "".join(x for x in os.path.basename(name) if x.isprintable() and x not in "/\\").strip().lstrip(".").strip()
    stem, end = os.path.splitext(plain)
    end = end if len(end.encode()) < MOST_FILE_NAME else ""
    return (stem.encode()[:MOST_FILE_NAME - len(end.encode())].decode("utf-8", "ignore").strip() + end).lstrip(".") or "text"


def sync_folder(path: str) -> None:
    """After this the names in a folder are on the disk."""
    fd = os.open(path, os.O_RDONLY | os.O_DIRECTORY)
    try:
        os.fsync(fd)
    finally:
        os.close(fd)
