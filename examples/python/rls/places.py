"""Files in a folder of notes and the folders in it: no name leads out of it, and no link is followed."""
import os
from typing import Callable, Iterator, Optional, Set

from .files import move

KINDS = ".md", ".txt", ".text", ".markdown", ".rst", ".org", ".tex"


def within(folder: Optional[str], path: str) -> str:
    """The path of a file as seen from the folder; the empty string if it is elsewhere."""
    return path[len(folder) + 1:] if folder and path.startswith(folder.rstrip("/") + "/") else ""


def may_hold(folder: str, left_out: Set[str]) -> bool:
    """Whether texts may have their files in this folder: it isn't there yet, or it is one, and no link, and not one that is left out."""
    return (not os.path.lexists(folder) or not os.path.islink(folder) and os.path.isdir(folder)) and os.path.realpath(folder) not in left_out


def is_plain(folder: str, path: str, left_out: Set[str]) -> bool:
    """Whether all folders between the folder and a file in it may hold texts."""
    at = folder
    for part in within(folder, path).split("/")[:-1]:
        at = os.path.join(at, part)
        if not may_hold(at, left_out):
            return False
    return True


def free(path: str, fits: Callable[[str], bool]) -> str:
    """This name, or the next one that fits."""
    stem, end = os.path.splitext(path)
    k, name = 2, path
    while not fits(name):
        name, k = f"{stem}-{k}{end}", k + 1
    return name


def free_path(folder: str, name: str, taken: Set[str], left_out: Set[str]) -> str:
    """Where a new text has its file: a file of this machine isn't given away because somebody has named a text so, and nothing is put through a
    link. What stands in the way is passed by with a number."""
    *folders, last = name.split("/")
    for part in folders:
        folder = free(os.path.join(folder, part), lambda x: may_hold(x, left_out))
    return free(os.path.join(folder, last), lambda x: not os.path.lexists(x) and x not in taken)


def notes_in(folder: str, is_deep: bool, left_out: Set[str]) -> Iterator[str]:
    """The notes in a folder and, if it `is_deep`, in the folders in it. Hidden names, links, and what can't be read are passed over."""
    waiting = [folder]
    while waiting:
        try:
            with os.scandir(waiting.pop()) as found:
                there = sorted(found, key=lambda x: x.name)
        except OSError:
            continue
        for x in there:
            if x.name.startswith("."):
                continue
            if x.is_dir(follow_symlinks=False):
                if is_deep and os.path.realpath(x.path) not in left_out:
                    waiting.append(x.path)
            elif x.name.endswith(KINDS) and x.is_file(follow_symlinks=False):
                yield x.path


def make_room(folder: Optional[str], path: str) -> None:
    """Makes the folders in which a file of the folder is."""
    if within(folder, path):
        os.makedirs(os.path.dirname(path), exist_ok=True)


def move_within(folder: str, old: str, new: str) -> None:
    """Gives a file another name in the folder. A folder in it that has nothing any more goes."""
    make_room(folder, new)
    move(old, new)
    at = os.path.dirname(old)
    while within(folder, at):
        try:
            os.rmdir(at)
        except OSError:
            return
        at = os.path.dirname(at)
