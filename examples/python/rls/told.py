"""What the shared folder says of the texts of a circle: the name of each, the folders that it is in, who began it, and whether it was dropped."""
import hashlib
import os
from typing import Dict, List, NamedTuple, Optional, Sequence, Set, Tuple

from .notices import Notice, file_name, number

MOST_STAMP = 10 ** 12           # one that is greater was forged, and would leave no room for others
MOST_FOLDERS = 12               # in which a text is, one in the other


class Text(NamedTuple):
    group: int
    name: str                   # with the folders that it is in: a/b.md
    root: int = -1              # its number in the circle in which it was begun; a circle that was begun after that one has another


class Place(NamedTuple):
    """The folders that a text is in, with a slash between, as was said with this stamp by this number."""
    stamp: int
    by: int
    folders: str


class Told(NamedTuple):
    """What was said of a text: its name, by the greatest stamp and then the greatest number, and likewise its folders; who began it; whether
    anybody dropped it; and its number in the circle in which it was begun, if that is another."""
    stamp: int
    by: int
    name: str
    gone: bool = False
    begun: Optional[int] = None
    place: Optional[Place] = None
    root: Optional[int] = None

    @classmethod
    def kept(cls, row: Sequence[object]) -> "Told":
        """As it was kept in JSON."""
        told = cls(*row)        # type: ignore[arg-type]
        return told._replace(place=Place(*told.place)) if told.place else told

    @classmethod
    def said(cls, notice: Notice, by: int) -> Optional["Told"]:
        """What member `by` says; None if it says no name. Members of versions before 0.12 say no folders, and change none by a new name."""
        if "name" not in notice:
            return None
        stamp = number(notice.get("stamp")) % MOST_STAMP
        place = Place(stamp, by, folder_names(notice["folder"])) if "folder" in notice else None
        root = number(notice["of"], 19) if "of" in notice else None
        return cls(stamp, by, file_name(notice["name"]), "gone" in notice, by if "begun" in notice else None, place, root)

    def words(self) -> Dict[str, object]:
        """The words of the notice in which the member that has said it says it."""
        found: Dict[str, object] = {"stamp": self.stamp, "name": self.name}
        if self.place:
            found["folder"] = self.place.folders
        if self.root is not None:
            found["of"] = self.root
        return {**found, **{word: 1 for word, on in (("begun", self.begun == self.by), ("gone", self.gone)) if on}}

    def joined(self, other: "Told") -> "Told":
        last = max(self, other, key=lambda x: (x.stamp, x.by))
        places = [x.place for x in (self, other) if x.place]
        return Told(last.stamp, last.by, last.name, self.gone or other.gone, first(self.begun, other.begun),
                    max(places, key=lambda x: x[:2]) if places else None, first(self.root, other.root))

    @property
    def path(self) -> str:
        return f"{self.place.folders}/{self.name}" if self.place and self.place.folders else self.name


def first(one: Optional[int], other: Optional[int]) -> Optional[int]:
    return other if one is None else one


def folder_names(told: str) -> str:
    """Folders as they may be here, whatever somebody has written: each a plain name, none that leads elsewhere, and not too many."""
    parts = [x for x in told.split("/") if x.strip(" .")]
    return "/".join(file_name(x) for x in parts[:MOST_FOLDERS])


def split(path: str) -> Tuple[str, str]:
    """The folders and the name of a path within the folder of the texts, as they are said."""
    folders, name = os.path.split(path)
    return folder_names(folders), file_name(name)


def texts_of(told: Dict[str, Told]) -> List[Text]:
    """The texts, each under a path of its own, the same for all: where a path is that of an earlier text, or a folder has the name of an earlier
    text or the other way round, the later one gets some digits of its number there."""
    files: Set[str] = set()
    folders: Set[str] = set()
    found = []
    for group, row in sorted((int(x), y) for x, y in told.items() if y.begun is not None and not y.gone):
        parts, turn = row.path.split("/"), 0
        while True:
            at = clash(parts, files, folders)
            if at is None:
                break
            turn += 1
            parts[at] = numbered(row.path.split("/")[at], group, turn)
        files.add("/".join(parts))
        folders.update("/".join(parts[:k]) for k in range(1, len(parts)))
        found.append(Text(group, "/".join(parts), group if row.root is None else row.root))
    return found


def clash(parts: List[str], files: Set[str], folders: Set[str]) -> Optional[int]:
    """Which part of a path can't be as it is; None if all can."""
    for k in range(1, len(parts)):
        if "/".join(parts[:k]) in files:
            return k - 1
    whole = "/".join(parts)
    return len(parts) - 1 if whole in files or whole in folders else None


def numbered(name: str, group: int, turn: int) -> str:
    """A name with the last digits of a number, more of them each time, and then a count."""
    stem, end = os.path.splitext(name)
    return f"{stem}-{str(group).zfill(4)[-4 * turn:]}{f'-{turn}' if turn > 5 else ''}{end}"


def group_after(circle: str, root: int) -> int:
    """The number that a text has in a circle that was begun after the one in which the text was begun: the same, whoever works it out."""
    return int.from_bytes(hashlib.sha256(f"{circle} {root}".encode()).digest()[:8], "big") >> 1
