"""A folder of notes, and names that anybody may have written."""
import os
import resource
import subprocess
import sys

from rls import Commands, RlsError
from rls import __main__ as cli

from . import TOP
from .people import Moment, Person, all_sync, room, started, stat


def test_folder_of_notes() -> None:
    where = room("folder")
    ada = Person(where, "Ada")
    ben = Person(where, "Ben", ada.shared)
    for k in range(3):
        ada.write(f"note {k} of Ada is a text of some words\n", f"n{k}.md")
    assert ada.rls("share", ada.shared, ".") == 0
    ben.rls("join", ben.shared, ".", "--adds", "--wait", "0")
    ada.rls("sync")
    assert ben.rls("join", ben.shared, ".", "--adds") == 0, ben.said
    assert sorted(os.listdir(ben.folder)) == ["n0.md", "n1.md", "n2.md"], os.listdir(ben.folder)
    ben.write("new of Ben\n", "ben.md")
    os.rename(os.path.join(ben.folder, "n1.md"), os.path.join(ben.folder, "one.md"))
    ben.write("note 1 of Ada is a text of some more words\n", "one.md")
    ada.write("note 1 of Ada is truly a text of some words\n", "n1.md")
    for p in ben, ada, ben, ada:
        assert p.rls("sync") == 0, p.said
    for p in ada, ben:
        assert sorted(x for x in os.listdir(p.folder)) == ["ben.md", "n0.md", "n2.md", "one.md"], (p.name, os.listdir(p.folder), p.said)
        assert p.read("one.md") == "note 1 of Ada is truly a text of some more words\n", p.read("one.md")
    # Both make a note of one name, offline.
    ada.write("of Ada\n", "same.md")
    ben.write("of Ben\n", "same.md")
    for p in ben, ada, ben, ada, ben:
        assert p.rls("sync") == 0, p.said
    same = [{p.read(x) for x in os.listdir(p.folder) if x.startswith("same")} for p in (ada, ben)]
    assert same[0] == same[1] == {"of Ada\n", "of Ben\n"}, (same, os.listdir(ada.folder), os.listdir(ben.folder))
    assert ada.rls("drop", "n2.md") == 0
    ada.rls("sync"), ben.rls("sync")
    assert "n2.md was dropped" in ben.said and os.path.exists(os.path.join(ben.folder, "n2.md")), ben.said
    os.unlink(os.path.join(ben.folder, "n0.md"))
    ben.rls("sync")
    assert ben.read("n0.md") == "note 0 of Ada is a text of some words\n"       # no deletion by accident


def test_half_a_name() -> None:
    """What says the name of a text is away, or half written, for a moment: nothing happens to the file."""
    ada, ben = started("half-name")
    path, = [os.path.join(ada.shared, x) for x in os.listdir(ada.shared) if x.endswith(".text")]
    with open(path, "rb") as f:
        data = f.read()
    for k in range(len(data)):
        with open(path, "wb") as f:
            f.write(data[:k])
        ben.write(f"Bread and {k}\n")
        assert ben.rls("sync") == 0 and ben.said == "", ben.said
    os.unlink(path)
    assert ben.rls("sync") == 0 and ben.said == "" and ada.rls("sync") == 0, ben.said
    assert os.listdir(ben.folder) == ["a.md"] and ada.read() == ben.read() == f"Bread and {k}\n", os.listdir(ben.folder)


def test_hostile_names() -> None:
    """Names of texts and of people are whatever somebody has written."""
    ada, ben = started("names")
    circle = ben.circle()
    for name in "99999999999999999999", "007", "18446744073709551616":      # no texts
        with open(os.path.join(ada.shared, f"{circle.id}-{name}-1.text"), "w", encoding="utf-8") as f:
            f.write("stamp 1\nname n.md\nbegun 1\nend\n")
    for k, name in enumerate(("../../evil.md", "/etc/passwd", ".bashrc", "Makefile", "a\x1b[31mb.md", "", "x" * 500 + ".md", "\U0001f600" * 200 + ".md", "x." + "y" * 500)):
        group = 77 + k
        Commands.new(circle.replica(group), group, circle.me, circle.members)
        Commands(circle.replica(group)).edit(["i 0 hostile"])
        with open(os.path.join(ada.shared, f"{circle.id}-{group}-1.text"), "w", encoding="utf-8") as f:
            f.write(f"stamp 1\nname {name}\nbegun 1\nend\n")
    cleo = Person(os.path.dirname(os.path.dirname(ada.home)), "Cleo", ada.shared)
    with open(os.path.join(cleo.folder, "Makefile"), "w", encoding="utf-8") as f:
        f.write("my own")
    assert ben.rls("sync") == 0
    cleo.rls("join", cleo.shared, cleo.folder, "--wait", "0")
    ada.rls("sync")
    assert cleo.rls("join", cleo.shared, cleo.folder, "--name", "\x1b[2JCleo") == 0, cleo.said
    for p in ben, cleo, ben, cleo:
        assert p.rls("sync") == 0, p.said
    there = os.listdir(cleo.folder)
    assert cleo.read("Makefile") == "my own" and cleo.read("Makefile-2") == "hostile", there
    assert not any(x.startswith(".") or "\x1b" in x or len(x.encode()) > 220 for x in there), there
    assert sorted(os.listdir(os.path.dirname(cleo.folder))) == ["home", "notes"], os.listdir(os.path.dirname(cleo.folder))


def test_stopped_while_a_text_is_added() -> None:
    """A new note, and a rename that another has made, and the sync of both is stopped at each step: in the end there is each note once, under one
    name."""
    ada, ben = started("adding", "first note of all\n")
    assert ada.rls("share", ada.shared, ".") == 0, ada.said
    ada.write("the second note is this\n", "b.md")
    os.rename(os.path.join(ben.folder, "a.md"), os.path.join(ben.folder, "renamed.md"))
    all_sync([ben])
    for step, how, died in Moment(ada, ben).at_each_step(6):
        died(ada.dies(step, how, "sync"))
        all_sync([ada, ada, ben, ada, ben])
        for p in ada, ben:
            assert sorted(os.listdir(p.folder)) == ["b.md", "renamed.md"], (how, step, p.name, os.listdir(p.folder))
            assert p.read("b.md") == "the second note is this\n" and p.read("renamed.md") == "first note of all\n"


def test_dropped_and_renamed() -> None:
    """One drops a text while another renames it: it is dropped, for both."""
    ada, ben = started("drop-rename", "a note of some words\n")
    assert ada.rls("share", ada.shared, ".") == 0
    os.rename(os.path.join(ben.folder, "a.md"), os.path.join(ben.folder, "z.md"))
    said = os.listdir(ada.shared)
    all_sync([ben])
    moved = [os.path.join(ada.shared, x) for x in os.listdir(ada.shared) if x not in said and x.endswith(".text")]
    kept = {x: open(x, "rb").read() for x in moved}
    for x in moved:
        os.unlink(x)
    assert ada.rls("drop", "a.md") == 0
    for x, data in kept.items():
        with open(x, "wb") as f:
            f.write(data)
    ada.rls("sync"), ben.rls("sync"), ada.rls("sync")
    assert not ada.circle().texts() and not ben.circle().texts()


def test_folder_away() -> None:
    """The folder of the notes isn't there: perhaps its disk isn't mounted. Nothing is dropped or written."""
    ada, ben = started("folder-away")
    assert ada.rls("share", ada.shared, ".") == 0
    os.rename(ada.folder, ada.folder + ".away")
    os.makedirs(ada.folder)
    os.rmdir(ada.folder)
    os.environ["RLS_HOME"] = ada.home
    os.chdir("/")
    assert cli.main(["sync", ada.shared]) == 71
    os.rename(ada.folder + ".away", ada.folder)
    all_sync([ada, ben])


def test_dropped_for_ever() -> None:
    """A text stays dropped, though what says so goes away."""
    ada, ben = started("drop-ever", "a note of some words\n")
    ben.write("a note of Ben's\n", "b.md")
    assert ben.rls("share", ben.shared, "b.md") == 0
    assert ada.rls("share", ada.shared, ".") == 0 and ada.rls("drop", "b.md") == 0, ada.said
    all_sync([ben])
    assert "b.md was dropped" in ben.said, ben.said
    for x in os.listdir(ada.shared):
        if x.endswith("-0.text"):
            with open(os.path.join(ada.shared, x), "rb") as f:
                if b"gone" in f.read():
                    os.unlink(os.path.join(ada.shared, x))
    all_sync([ben, ada])
    assert [x.name for x in ben.circle().texts()] == ["a.md"] and sorted(os.listdir(ben.folder)) == ["a.md", "b.md"]


def test_parts() -> None:
    """Ben leaves: nothing is kept for his number any more, and his files stay. His machine stops at each step."""
    ada, ben = started("parts", "begin\n", members="2")
    ada.write("the second note of all\n", "b.md")
    assert ada.rls("share", ada.shared, "b.md") == 0
    all_sync([ben])
    assert ada.rls("part", ada.shared) == 71 and "gives the numbers" in ada.said, ada.said
    ben.write("begin of Ben\n")
    for step, how, died in Moment(ada, ben).at_each_step(13):
        died(ben.dies(step, how, "part", ben.shared))
        status = ben.rls("part", ben.shared, "--wait", "20")
        assert status == 0 or status == 2 and "has no part" in ben.said, (status, ben.said)
        assert ben.rls("sync") == 2 and ben.read() == "begin of Ben\n" and os.path.exists(os.path.join(ben.folder, "b.md")), ben.said
        ada.write("begin of Ben and Ada\n")
        all_sync([ada, ada])
        assert stat(ada)["accepted"] in ((2, 2), (1, 1)) and stat(ada)["unstable"] == (0,), stat(ada)


def test_another_program() -> None:
    """A program that has the name and isn't this one is told, and not its words."""
    path = os.path.join(room("another"), "rls")
    with open(path, "w", encoding="utf-8") as f:
        f.write(f"#!/bin/sh\necho $1 >>{path}.asked; echo rls 1.41.0 of something else; exit 1\n")
    os.chmod(path, 0o755)
    try:
        Commands.new(os.path.join(os.path.dirname(path), "replica"), 7, 0, 2, path)
        raise AssertionError("nothing was told")
    except RlsError as e:
        assert "another program" in e.line, e.line
    try:
        Commands(os.path.join(os.path.dirname(path), "replica")).text()
    except RlsError as e:
        assert "another program" not in e.line, e.line
    for _ in range(3):
        try:
            Commands.new(os.path.join(os.path.dirname(path), "replica"), 7, 0, 2, path)
        except RlsError:
            pass
    with open(path + ".asked", encoding="utf-8") as f:
        assert f.read().split().count("--version") == 1, "it is asked once"


def test_thousand_notes() -> None:
    """An idle round over 1,000 notes starts no program, and takes less than half a second of a processor, Python's own start with it."""
    ada = Person(room("thousand"), "Ada")
    for k in range(1000):
        ada.write(f"note {k} has some words\n", f"n{k}.md")
    assert ada.rls("share", ada.shared, ".") == 0 and "and 995 others are shared" in ada.said, ada.said
    all_sync([ada])
    real, subprocess.Popen = subprocess.Popen, None         # type: ignore[misc, assignment]
    try:
        all_sync([ada])
    finally:
        subprocess.Popen = real                             # type: ignore[misc]
    env, before = {**os.environ, "RLS_HOME": ada.home, "PYTHONPATH": TOP}, resource.getrusage(resource.RUSAGE_CHILDREN)
    env.pop("PYTHONDONTWRITEBYTECODE", None)
    env["PYTHONPYCACHEPREFIX"] = os.path.join(ada.home, "cache")
    for _ in range(5):
        subprocess.run([sys.executable, "-S", "-m", "rls", "sync"], env=env, cwd=ada.folder, check=True)
    after = resource.getrusage(resource.RUSAGE_CHILDREN)
    took = (after.ru_utime + after.ru_stime - before.ru_utime - before.ru_stime) / 5
    assert took < 0.5, took
    print(f"  {took:.2f} s")
