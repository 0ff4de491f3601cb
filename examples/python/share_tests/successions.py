"""A new circle in the same folder: nobody loses a word, and nothing comes twice."""
import os
import random
import shutil
import subprocess
from typing import List

import rls.circle
from rls import Session

from .carrier import Carrier
from .people import Moment, Person, all_sync, joins, room, started


def words_in(p: Person, name: str = "a.md") -> List[str]:
    return sorted(p.read(name).split())


def circles(*people: Person) -> List[str]:
    return [p.circle().id for p in people]


def three(name: str) -> "tuple[Person, Person, Person]":
    """Ada, who gives the numbers, Ben and Cleo."""
    ada, ben = started(name, "begin\n", members="5")
    cleo = Person(os.path.dirname(os.path.dirname(ada.home)), "Cleo", ada.shared)
    joins(cleo, ada)
    all_sync([ada, ben, cleo])
    ada.keeps = ben.keeps = cleo.keeps = "a.md"
    return ada, ben, cleo


def test_again() -> None:
    """Ada's machine is lost. Ben begins a new circle; Cleo goes over with her file, and Dora joins. What Cleo saves meanwhile is there once."""
    ada, ben, cleo = three("again-new")
    ben.add("BEN", random.Random(1))
    cleo.add("CLEO", random.Random(2))
    assert ben.rls("share", ben.shared, "--again", "--members", "5") == 0, ben.said
    assert "member 0" not in ben.said and ben.circle().members == 5 and ben.circle().me == 0, ben.said
    for k in range(3):
        cleo.add(f"late{k}", random.Random(k))
        all_sync([cleo, ben])
    all_sync([cleo, ben, cleo])
    assert cleo.circle().id == ben.circle().id and cleo.circle().me == 1
    assert ben.read() == cleo.read() and words_in(ben) == sorted("begin BEN CLEO late0 late1 late2".split()), ben.read()
    assert os.listdir(cleo.folder) == ["a.md"] and os.listdir(ben.folder) == ["a.md"]
    dora = Person(os.path.dirname(os.path.dirname(ada.home)), "Dora", ada.shared)
    joins(dora, ben)
    all_sync([ben, dora])
    assert dora.read() == ben.read() and dora.circle().id == ben.circle().id
    assert ben.rls("who") == 0 and "older circle: Ada" in ben.out and "Cleo," not in ben.out, ben.out
    # Ada is back: what she wrote comes over, and so does she.
    ada.add("ADA", random.Random(3))
    all_sync([ada, ben, ada, ben, ada, cleo])
    assert len(set(circles(ada, ben, cleo, dora))) == 1 and ada.circle().me == 3, ada.said
    all_sync([ada, ben])
    assert ben.rls("who") == 0 and "older circle" not in ben.out, ben.out
    cleo.add("LAST", random.Random(4))
    all_sync([cleo, ben, ada, dora])
    assert len({p.read() for p in (ada, ben, cleo, dora)}) == 1 and words_in(ada) == sorted("begin BEN CLEO late0 late1 late2 ADA LAST".split()), ada.read()


def bring(source: Person, to: Person) -> None:
    """All files of a copy of the shared folder come into another one."""
    for x in os.listdir(source.shared):
        shutil.copy(os.path.join(source.shared, x), to.shared)


def apart(name: str) -> List[Person]:
    """Ada, Ben, Cleo, Dora and Emil in one circle, each with a copy of the folder of its own."""
    where = room(name)
    people = [Person(where, x) for x in ("Ada", "Ben", "Cleo", "Dora", "Emil")]
    ada = people[0]
    ada.write("begin\n")
    assert ada.rls("share", ada.shared, "a.md", "--members", "5") == 0
    for p in people[1:]:
        bring(ada, p)
        assert p.rls("join", p.shared, p.folder, "--wait", "0") == 75
        bring(p, ada)
        all_sync([ada])
        bring(ada, p)
        assert p.rls("join", p.shared, p.folder, "--wait", "0") == 0, p.said
    together(people, 3)
    for p in people:
        p.keeps = "a.md"
    return people


def together(people: List[Person], rounds: int) -> None:
    """All see what each has written itself."""
    carrier = Carrier(people, random.Random(1), 0)
    for _ in range(rounds):
        carrier.step()
        for p in people:
            p.rls("sync", "--wait", "20")


def test_two_begin_again() -> None:
    """Ada and Ben begin a new circle each, apart; Cleo goes over to Ada's, Dora to Ben's, and all write there. When all see all, one of the two
    counts, whichever that is, and each word is there once: also those of the first circle that only one of the two had got, and those of Emil,
    who writes in the first one when all others have gone over. No file loses a word at any moment."""
    for first in 0, 1:
        everybody = apart(f"two-again-{first}")
        ada, ben, cleo, dora, emil = everybody
        people = everybody[:4]
        for k, (p, other) in enumerate([(ada, cleo), (ben, dora)]):
            other.add(f"OLD{other.name}", random.Random(k))
            all_sync([other])                           # in the first circle, and nobody but the one who begins gets it
            bring(other, p)
            ident = f"{k ^ first}" * 16
            begin_as(p, ident)
            together([p, other], 10)
            assert p.circle().id == other.circle().id == ident, (other.said, other.circle().id)
            for q in p, other:
                q.add(f"NEW{q.name}", random.Random(k))
            together([p, other], 2)
        together(people, 20)
        assert len(set(circles(*people))) == 1 and ada.circle().id == "0" * 16, [p.said for p in people]
        emil.add("EMIL", random.Random(5))
        all_sync([emil])
        together(everybody, 20)
        assert circles(emil) == circles(ada) and len({p.read() for p in everybody}) == 1, [p.read() for p in everybody]
        assert words_in(ada) == sorted("begin OLDCleo OLDDora NEWAda NEWBen NEWCleo NEWDora EMIL".split()), ada.read()
        assert len({p.circle().me for p in everybody}) == 5 and all(os.listdir(p.folder) == ["a.md"] for p in everybody)


def again_in(name: str) -> "tuple[Person, Person]":
    """Ada and Ben, and words of Ben's that Ada hasn't got."""
    ada, ben = started(name, "one two three\n", members="2")
    all_sync([ada, ben, ada])
    ben.write("one BEN two three\n")
    return ada, ben


def test_beginner_dies() -> None:
    """Ada's machine stops at each step of beginning a new circle, and goes on after that. There is one new circle, and each word once."""
    ada, ben = again_in("beginner-dies")
    words = "share", ada.shared, "--again", "--members", "4"
    for step, how, died in Moment(ada, ben).at_each_step(11):
        died(ada.dies(step, how, *words))
        all_sync([ben])                                 # he takes what is there, whole or not
        assert ada.rls(*words, "--wait", "20") in (0, 71), ada.said
        all_sync([ada, ben] * 4)
        there = [x for x in os.listdir(ada.shared) if x.endswith(".circle")]
        assert len(there) == 2 and circles(ada) == circles(ben), (how, step, there)
        assert words_in(ada) == words_in(ben) == ["BEN", "one", "three", "two"] and ada.circle().members == 4, (how, step, ada.read())
        assert os.listdir(ada.folder) == os.listdir(ben.folder) == ["a.md"]


def test_late_edits_once() -> None:
    """Ben writes in the old circle after Ada has begun a new one. Her machine stops at each step of bringing that over: it is there once."""
    ada, ben = again_in("late-edits")
    assert ada.rls("share", ada.shared, "--again", "--members", "4") == 0
    all_sync([ben])
    assert circles(ada) != circles(ben)
    ada.write("one two ADA three\n")
    for step, how, died in Moment(ada, ben).at_each_step(9):
        died(ada.dies(step, how, "sync"))
        all_sync([ben, ada] * 3 + [ben])
        assert circles(ada) == circles(ben) and ada.read() == ben.read() == "one BEN two ADA three\n", (how, step, ada.read(), ben.read())


def test_going_over_dies() -> None:
    """Ben's machine stops at each step of going over, with a save that nobody has got. It goes in once, into his one file."""
    ada, ben = again_in("going-over")
    assert ada.rls("share", ada.shared, "--again", "--members", "4") == 0
    all_sync([ben, ada, ben, ada])
    for step, how, died in Moment(ada, ben).at_each_step(11):
        died(ben.dies(step, how, "sync"))
        ben.write(ben.read().replace("three", "three LAST"))
        all_sync([ben, ada] * 3 + [ben])
        assert circles(ada) == circles(ben) and ada.read() == ben.read() == "one BEN two three LAST\n", (how, step, ada.read(), ben.read())
        assert os.listdir(ben.folder) == ["a.md"]


def test_waits_for_what_it_has() -> None:
    """Cleo's edit has come to Ben alone. He doesn't go over before it is in the new circle: his file would lose it."""
    people = apart("waits")
    ada, ben, cleo = people[:3]
    cleo.add("CLEO", random.Random(1))
    all_sync([cleo])
    bring(cleo, ben)
    all_sync([ben])
    assert ada.rls("share", ada.shared, "--again", "--members", "6") == 0, ada.said
    for _ in range(4):
        for x in os.listdir(ben.shared):                # he tells of himself, and what he has sent doesn't come
            if not x.endswith(".rlsm") or not x.startswith(str(cleo.circle().texts()[0].group)):
                shutil.copy(os.path.join(ben.shared, x), ada.shared)
        all_sync([ada])
        bring(ada, ben)
        all_sync([ben])
        assert "CLEO" in ben.read() and circles(ben) != circles(ada)
    together(people, 14)
    assert len(set(circles(*people))) == 1 and all(words_in(p) == ["CLEO", "begin"] for p in people), [p.read() for p in people]


def test_waits_for_the_messages() -> None:
    """What Ben wrote in the old circle is in the new one, as Ada tells; the messages that bring it there haven't come. He stays until they have."""
    people = apart("waits-messages")
    ada, ben = people[:2]
    assert ada.rls("share", ada.shared, "--again", "--members", "6") == 0, ada.said
    together([ada, ben], 1)
    ben.add("BEN", random.Random(1))
    late = str(ada.circle().texts()[0].group)
    for _ in range(6):
        all_sync([ben])
        bring(ben, ada)
        all_sync([ada])
        for x in os.listdir(ada.shared):
            if not x.startswith(f"{late}-0-"):
                shutil.copy(os.path.join(ada.shared, x), ben.shared)
    assert "BEN" in ada.read() and circles(ben) != circles(ada) and ben.circle().me == 1
    together(people, 14)
    assert len(set(circles(*people))) == 1 and all(words_in(p) == ["BEN", "begin"] for p in people), [p.read() for p in people]


def begin_as(p: Person, ident: str) -> None:
    """Begins a new circle with this number."""
    real, rls.circle.secrets.token_hex = rls.circle.secrets.token_hex, lambda n: ident      # type: ignore[misc, assignment]
    try:
        assert p.rls("share", p.shared, "--again", "--members", "6") == 0, p.said
    finally:
        rls.circle.secrets.token_hex = real             # type: ignore[misc]


def test_waits_in_the_other() -> None:
    """Ada and Ben begin a new circle each, and Ada's counts. Ben's has an edit of Cleo's in the first one that Ada hasn't got: what was written in
    Ben's doesn't come into hers before that is there."""
    people = apart("waits-other")
    ada, ben, cleo = people[:3]
    first = str(ada.circle().texts()[0].group)
    cleo.add("CLEO", random.Random(1))
    all_sync([cleo])
    bring(cleo, ben)
    all_sync([ben])
    begin_as(ada, "0" * 16)
    begin_as(ben, "1" * 16)
    ben.add("BEN", random.Random(1))
    for _ in range(6):
        for p, other in (ben, ada), (ada, ben):
            for x in os.listdir(p.shared):
                if not x.startswith(f"{first}-"):       # no message of the first circle
                    shutil.copy(os.path.join(p.shared, x), other.shared)
            all_sync([other])
    assert circles(ben) == ["1" * 16] and words_in(ben) == ["BEN", "CLEO", "begin"] and words_in(ada) == ["begin"]
    together(people, 20)
    assert circles(*people) == ["0" * 16] * 5 and all(words_in(p) == ["BEN", "CLEO", "begin"] for p in people), [p.read() for p in people]


def test_both_meant_it() -> None:
    """Ada in the new circle and Ben in the old one put the same word at the same place: each meant his own, as in one circle."""
    ada, ben = started("both-meant-it", "one two three\n", members="2")
    assert ada.rls("share", ada.shared, "--again", "--members", "4") == 0
    ada.write("one SAME two three\n")
    ben.write("one SAME two three\n")
    all_sync([ben, ada] * 4)
    assert circles(ada) == circles(ben) and ada.read() == ben.read() and words_in(ben) == ["SAME", "SAME", "one", "three", "two"], ben.read()


def test_beginner_put_back() -> None:
    """The beginner's replica of the old circle comes back from a copy: nothing is brought over from it any more, and nothing is deleted."""
    ada, ben = again_in("put-back-again")
    all_sync([ben, ada])
    old = ada.circle()
    folder = old.replica(old.texts()[0].group)
    shutil.copytree(folder, folder + ".copy")
    ben.write("one BEN two three BEN\n")
    all_sync([ben, ada])
    assert ada.rls("share", ada.shared, "--again", "--members", "4") == 0, ada.said
    shutil.rmtree(folder)
    os.rename(folder + ".copy", folder)
    for x in os.listdir(ada.shared):
        if x.startswith(f"{old.texts()[0].group}-1-0"):
            os.unlink(os.path.join(ada.shared, x))
    assert ada.rls("sync") == 71 and "put back from a copy" in ada.said, ada.said
    assert ada.read() == "one BEN two three BEN\n"


def test_bad_file_of_the_beginner() -> None:
    """The beginner's file is no text: she is told, and what came late is brought over all the same."""
    ada, ben = again_in("bad-file-again")
    assert ada.rls("share", ada.shared, "--again", "--members", "4") == 0
    with open(os.path.join(ada.folder, "a.md"), "wb") as f:
        f.write(b"\xff no text")
    for p in (ben, ada) * 3 + (ben,):
        assert p.rls("sync") == (4 if p is ada else 0), p.said
    assert circles(ada) == circles(ben) and ben.read() == "one BEN two three\n"
    ada.write("one two three ADA\n")
    all_sync([ada, ben])
    assert ada.read() == ben.read() == "one BEN two three ADA\n", (ada.read(), ada.said)


def test_open_in_an_editor() -> None:
    """A program has Ben's text open: he goes over when that ends, with what was typed there."""
    ada, ben = again_in("open-again")
    all_sync([ben, ada])
    with Session(ben.circle().replica(ben.circle().texts()[0].group)) as session:
        assert ada.rls("share", ada.shared, "--again", "--members", "4") == 0
        for p in (ben, ada) * 3:
            assert p.rls("sync") == 0
        assert circles(ada) != circles(ben)
        session.insert(0, "typed ")
    all_sync([ben, ada] * 3 + [ben])
    assert circles(ada) == circles(ben) and ada.read() == ben.read() == "typed one BEN two three\n", (ada.read(), ben.said)


def test_names_come_over() -> None:
    """After Ada has begun a new circle Ben renames one note in the old one, drops one, and adds one; one is empty, and one is dropped in the new
    circle while he writes in the old one."""
    ada, ben = started("names-over", "a note of some words\n", members="2")
    for name in "b.md", "c.md", "empty.md", "g.md":
        ada.write("" if name == "empty.md" else f"the note {name} of more words\n", name)
    assert ada.rls("share", ada.shared, ".") == 0
    all_sync([ben, ada])
    assert ada.rls("share", ada.shared, "--again") == 0, ada.said
    os.rename(os.path.join(ben.folder, "a.md"), os.path.join(ben.folder, "z.md"))
    assert ben.rls("drop", "b.md") == 0
    assert ada.rls("drop", "g.md") == 0
    ben.write("of Ben, who doesn't know it\n", "g.md")
    ben.write("of Ben\n", "d.md")
    assert ben.rls("share", ben.shared, "d.md") == 0, ben.said
    all_sync([ben, ada] * 4)
    assert circles(ada) == circles(ben), ben.said
    for p in ada, ben:
        assert sorted(x.name for x in p.circle().texts()) == ["c.md", "d.md", "empty.md", "z.md"], [x.name for x in p.circle().texts()]
        assert sorted(os.listdir(p.folder)) == ["b.md", "c.md", "d.md", "empty.md", "g.md", "z.md"], os.listdir(p.folder)
    assert ben.read("g.md") == "of Ben, who doesn't know it\n"
    ada.write("not empty any more\n", "empty.md")
    all_sync([ada, ben])
    assert ben.read("empty.md") == "not empty any more\n"


def test_moved_after_again() -> None:
    """The beginner moves all that her machine keeps, and the shared folder too: what is late is brought over all the same."""
    ada, ben = again_in("moved-again")
    assert ada.rls("share", ada.shared, "--again", "--members", "4") == 0
    shutil.copytree(ada.home, ada.home + ".moved")
    shutil.rmtree(ada.home)
    os.rename(ada.shared, ada.shared + ".moved")
    ada.home, ada.shared = ada.home + ".moved", ada.shared + ".moved"
    ben.shared = ada.shared
    assert ada.rls("sync", ada.shared) == 71 and "is a copy" in ada.said, ada.said
    assert ada.rls("sync", "--moved", ada.shared) == 0, ada.said
    for p in (ben, ada) * 4:
        assert p.rls("sync", p.shared) == 0, p.said
    assert circles(ada) == circles(ben) and ada.read() == ben.read() == "one BEN two three\n", (ada.said, ben.said)


def test_idle_after_again() -> None:
    """Once nobody writes, a round of the beginner, who looks after the old circle as well, starts no program."""
    ada, ben = again_in("idle-again")
    assert ada.rls("share", ada.shared, "--again", "--members", "4") == 0
    all_sync([ben, ada] * 5)
    assert circles(ada) == circles(ben)
    real, subprocess.Popen = subprocess.Popen, None         # type: ignore[misc, assignment]
    try:
        all_sync([ada, ben])
    finally:
        subprocess.Popen = real                             # type: ignore[misc]


def test_one_after_another() -> None:
    """Three circles one after another; Cleo was away, and comes to the last one with what she wrote in the first."""
    ada, ben, cleo = three("one-after-another")
    cleo.add("CLEO", random.Random(1))
    for p, other in (ben, ada), (ada, ben):
        assert p.rls("share", p.shared, "--again", "--members", "4") == 0, p.said
        assert other.rls("share", p.shared, "--again") == 71 and "was begun here already" in other.said, other.said
        all_sync([other, p] * 3)
        p.add(f"NEW{p.name}", random.Random(2))
        all_sync([p, other])
    all_sync([cleo, ben, ada] * 6)
    assert len(set(circles(ada, ben, cleo))) == 1, cleo.said
    assert ada.read() == ben.read() == cleo.read() and words_in(cleo) == ["CLEO", "NEWAda", "NEWBen", "begin"], (cleo.read(), ada.read())


def test_beginner_lost() -> None:
    """The beginner's machine is lost before Ben has gone over. He exchanges in the old circle as before; by --anew he is in the new one, and his
    files stay as they are, with the others beside them."""
    ada, ben, cleo = three("beginner-lost")
    ben.add("BEN", random.Random(1))
    assert ada.rls("share", ada.shared, "--again", "--members", "6") == 0
    all_sync([cleo, ada, cleo, ada, cleo])
    assert circles(ada) == circles(cleo) and ada.rls("give", "1") == 0, ada.said
    all_sync([cleo])
    shutil.rmtree(ada.home)
    all_sync([ben, cleo, ben])
    assert circles(ben) != circles(cleo) and "BEN" in ben.read()
    assert ben.rls("join", "--anew", ben.shared, ben.folder, "--wait", "0") in (0, 75), ben.said
    all_sync([cleo])
    assert ben.rls("join", ben.shared, ben.folder, "--wait", "0") == 0, ben.said
    all_sync([cleo, ben, cleo, ben])
    assert circles(ben) == circles(cleo) and "BEN" in ben.read() and ben.read("a-2.md") == cleo.read(), (os.listdir(ben.folder), ben.read("a-2.md"))
