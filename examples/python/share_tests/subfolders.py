"""Folders in a folder of notes: no name leads out of it, and no link is followed."""
import json
import os
from typing import Dict, List

from rls import Commands

from .people import Person, all_sync, joins, room, started


def tree(folder: str) -> List[str]:
    """The files in a folder and in those in it; links by their names."""
    found = []
    for at, folders, files in os.walk(folder):
        found += [os.path.relpath(os.path.join(at, x), folder) for x in files + [x for x in folders if os.path.islink(os.path.join(at, x))]]
    return sorted(found)


def writes(p: Person, name: str, text: str) -> None:
    os.makedirs(os.path.dirname(os.path.join(p.folder, name)), exist_ok=True)
    p.write(text, name)


def both(name: str, notes: Dict[str, str]) -> "tuple[Person, Person]":
    """Ada shares her folder with these notes; Ben has joined, and adds."""
    where = room(name)
    ada = Person(where, "Ada")
    ben = Person(where, "Ben", ada.shared)
    for path, text in notes.items():
        writes(ada, path, text)
    assert ada.rls("share", ada.shared, ".") == 0, ada.said
    assert ben.rls("join", ben.shared, ".", "--adds", "--wait", "0") == 75
    all_sync([ada])
    assert ben.rls("join", ben.shared, ".", "--adds", "--wait", "0") == 0, ben.said
    return ada, ben


def test_folders_in_folders() -> None:
    """Notes in folders, of one name in two; new ones, and a folder that gets another name while both write into a note in it."""
    where = room("outside")
    for x in "secret.md", "linked.md":
        with open(os.path.join(where, x), "w", encoding="utf-8") as f:
            f.write("nobody's business\n")
    notes = {"top.md": "at the top\n", "a/b.md": "the first b of some words\n", "c/b.md": "another b with other contents\n", "c/d/e.txt": "deep in there\n"}
    ada = Person(room("subfolders"), "Ada")
    ada.shared = os.path.join(ada.folder, "shared")         # within the notes: its files are nobody's notes
    ben = Person(os.path.dirname(os.path.dirname(ada.home)), "Ben", ada.shared)
    for path, text in notes.items():
        writes(ada, path, text)
    os.makedirs(os.path.join(ada.folder, ".git"))
    writes(ada, ".git/hidden.md", "not shared\n")
    os.symlink(where, os.path.join(ada.folder, "link"))
    os.symlink(os.path.join(where, "linked.md"), os.path.join(ada.folder, "linked.md"))
    assert ada.rls("share", ada.shared, ".") == 0, ada.said
    assert ben.rls("join", ben.shared, ".", "--adds", "--wait", "0") == 75
    all_sync([ada])
    assert ben.rls("join", ben.shared, ".", "--adds", "--wait", "0") == 0, ben.said
    assert tree(ben.folder) == sorted(notes), tree(ben.folder)
    writes(ben, "a/new/f.md", "a new one\n")
    os.rename(os.path.join(ben.folder, "c"), os.path.join(ben.folder, "g"))
    writes(ben, "g/b.md", "another b with other good contents\n")
    writes(ada, "c/b.md", "another fine b with other contents\n")
    all_sync([ben, ada, ben, ada])
    wanted = sorted(["top.md", "a/b.md", "g/b.md", "g/d/e.txt", "a/new/f.md"])
    assert tree(ben.folder) == wanted, tree(ben.folder)
    assert [x for x in tree(ada.folder) if not x.startswith((".git", "link", "shared/"))] == wanted, (tree(ada.folder), ada.said)
    assert not os.path.exists(os.path.join(ada.folder, "c")), "the empty folder stays"
    assert ada.read("g/b.md") == ben.read("g/b.md") == "another fine b with other good contents\n"
    writes(ben, "shared/x.seat.md", "in a folder that Ada has for something else\n")
    all_sync([ben, ada])
    assert ada.read("shared-2/x.seat.md") == ben.read("shared/x.seat.md") and "x.seat.md" not in os.listdir(ada.shared), tree(ada.folder)
    assert ben.rls("drop", "g/d/e.txt") == 0
    all_sync([ada])
    assert "g/d/e.txt" in ada.said and "was dropped" in ada.said, ada.said


def test_hostile_folders() -> None:
    """Folders that somebody has written: none leads out of the folder, none is hidden, and none is too deep."""
    ada, ben = started("hostile-folders")
    circle = ben.circle()
    told = ["../../evil", "/etc", "a/../../b", ".git/hooks", "x" * 500 + "/y", "/".join("z" * 100), "a\x1b[31m/b", "./.", "a\\..\\b", "note.md", "..."]
    for k, folder in enumerate(told):
        group = 700 + k
        Commands.new(circle.replica(group), group, circle.me, circle.members)
        Commands(circle.replica(group)).edit(["i 0 hostile"])
        with open(os.path.join(ada.shared, f"{circle.id}-{group}-1.text"), "w", encoding="utf-8") as f:
            f.write(f"stamp 1\nname n{k}.md\nfolder {folder}\nbegun 1\nend\n")
    for group, name in (5, "note.md"), (6, "x.md"), (7, "x-0077.md"), (77, "x.md"):     # a file that others have as a folder; all digits are taken
        with open(os.path.join(ada.shared, f"{circle.id}-{group}-1.text"), "w", encoding="utf-8") as f:
            f.write(f"stamp 1\nname {name}\nfolder \nbegun 1\nend\n")
    cleo = Person(os.path.dirname(os.path.dirname(ada.home)), "Cleo", ada.shared)
    all_sync([ben])
    joins(cleo, ada)
    all_sync([ben, cleo, ben, cleo])
    there = tree(cleo.folder)
    assert len([x for x in there if "n" in os.path.basename(x) and x.endswith(".md") and cleo.read(x) == "hostile"]) == len(told), there
    assert not any("\x1b" in x or x.startswith((".", "/")) or "/." in x or x.count("/") > 12 for x in there), there
    assert sorted(os.listdir(os.path.dirname(cleo.folder))) == ["home", "notes"] and not os.path.exists("/etc/n1.md")
    assert len({x.name for x in cleo.circle().texts()}) == len(cleo.circle().texts()) == len(told) + 5


def test_file_against_folder() -> None:
    """Ben has a file, and a link, where others have a folder: both stay as they are, and what came is beside them. A folder that becomes a link
    later isn't followed either."""
    where = room("elsewhere")
    ada, ben = both("file-against-folder", {"a/b.md": "in a folder\n", "l/c.md": "in another\n", "m/d.md": "in a third\n"})
    cleo = Person(os.path.dirname(os.path.dirname(ada.home)), "Cleo", ada.shared)
    with open(os.path.join(cleo.folder, "a"), "w", encoding="utf-8") as f:
        f.write("my own")
    os.symlink(where, os.path.join(cleo.folder, "l"))
    joins(cleo, ada)
    assert tree(cleo.folder) == ["a", "a-2/b.md", "l", "l-2/c.md", "m/d.md"] and os.listdir(where) == [], tree(cleo.folder)
    assert cleo.read("a") == "my own"
    os.rename(os.path.join(cleo.folder, "m"), os.path.join(where, "m"))
    os.symlink(os.path.join(where, "m"), os.path.join(cleo.folder, "m"))
    writes(ada, "m/d.md", "in a third of Ada's\n")
    writes(ada, "a/b.md", "in a folder of Ada's\n")
    all_sync([ada])
    assert cleo.rls("sync") == 8 and "m/d.md" in cleo.said and "isn't followed" in cleo.said, cleo.said
    with open(os.path.join(where, "m", "d.md"), encoding="utf-8") as f:
        assert f.read() == "in a third\n"
    assert cleo.read("a-2/b.md") == "in a folder of Ada's\n"


def test_flat_folder() -> None:
    """A folder that was shared by a version that shared no folders in it stays so, until it is shared once more. Members of such a version give
    names without folders: the text stays in its folder."""
    ada, ben = both("flat", {"a.md": "at the top of it all\n"})
    path = os.path.join(ada.circle().home.folder, "bound")
    with open(path, encoding="utf-8") as f:
        bound = json.load(f)
    del bound["deep"]
    with open(path, "w", encoding="utf-8") as f:
        json.dump(bound, f)
    writes(ada, "private/diary.md", "nobody's business\n")
    all_sync([ada, ben])
    assert tree(ben.folder) == ["a.md"] and len(ada.circle().texts()) == 1
    assert ada.rls("share", ada.shared, ".") == 0 and "private/diary.md is shared now" in ada.said, ada.said
    all_sync([ben])
    assert tree(ben.folder) == ["a.md", "private/diary.md"], tree(ben.folder)
    group = next(x.group for x in ada.circle().texts() if x.name == "private/diary.md")
    with open(os.path.join(ada.shared, f"{ada.circle().id}-{group}-1.text"), "w", encoding="utf-8") as f:
        f.write("stamp 9\nname journal.md\nend\n")
    all_sync([ada, ben])
    assert tree(ada.folder) == tree(ben.folder) == ["a.md", "private/journal.md"], (tree(ada.folder), ada.said)
