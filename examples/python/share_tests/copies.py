"""A folder of a machine that is there twice, or as it was before."""

import os
import random
import shutil
from typing import Tuple

from rls.giver import Giver

from .people import Moment, Person, all_sync, room, spares, started


def only_home(p: Person) -> str:
    return os.path.join(p.home, next(x for x in os.listdir(p.home) if "." not in x))


def test_copied_home() -> None:
    """A copy of a machine's folder is refused, until it is said that it was moved."""
    ada, ben = started("copied")
    shutil.copytree(ben.home, ben.home + ".copy")
    old, ben.home = ben.home, ben.home + ".copy"
    ben.write("Bread\n")
    assert ben.rls("sync") == 71 and "is a copy" in ben.said, ben.said
    assert ben.rls("sync", ben.shared) == 71
    shutil.rmtree(old)
    assert ben.rls("sync", "--moved") == 0 and ben.rls("sync") == 0, ben.said
    ada.rls("sync")
    assert ada.read() == "Bread\n"


def test_copied_before_the_number() -> None:
    """A machine has asked, and its folder is copied before a number came: only one of the two gets it."""
    where = room("copied-before")
    ada = Person(where, "Ada")
    ben, double = Person(where, "Ben", ada.shared), Person(where, "Double", ada.shared)
    ada.write("x\n")
    ada.rls("share", ada.shared, "a.md")
    assert ben.rls("join", ben.shared, ben.folder, "--wait", "0") == 75
    shutil.rmtree(double.home)
    shutil.copytree(ben.home, double.home)
    ada.rls("sync")
    assert double.rls("join", double.shared, double.folder, "--wait", "0") == 71 and "is a copy" in double.said, double.said
    assert ben.rls("join", ben.shared, ben.folder, "--wait", "0") == 0, ben.said


def same_disk(of: Person, p: Person) -> None:
    """As if the disk of the one were a copy of the other's, bit by bit: nothing in the folder tells them apart."""
    p.circle().home.tell_place()
    bound = os.path.join(only_home(p), "bound")
    if os.path.exists(bound):
        with open(bound, encoding="utf-8") as f:
            told = f.read().replace(of.folder, p.folder)
        with open(bound, "w", encoding="utf-8") as f:
            f.write(told)


def doubled(name: str) -> Tuple[Person, Person, Person]:
    ada, ben = started(name, "Bread and tea\n")
    all_sync([ben, ada, ben])
    double = Person(os.path.dirname(os.path.dirname(ben.home)), "Double", ben.shared)
    shutil.rmtree(double.home)
    shutil.copytree(ben.home, double.home)
    same_disk(ben, double)
    return ada, ben, double


def test_copied_disk() -> None:
    """A machine and its double, which no look at the folder tells apart, both go on. The first sees that the second was there, before it sends;
    it gets a new number, and what it has written goes in again."""
    ada, ben, double = doubled("double")
    double.write("Bread and tea\nfrom the double\n")
    ben.write("Bread and green tea\n")
    assert double.rls("sync") == 0, double.said
    assert ben.rls("sync") == 71 and "used" in ben.said and "--anew" in ben.said, ben.said
    assert ben.rls("join", "--anew", ben.shared, "--wait", "0") == 75
    ada.rls("sync")
    assert ben.rls("join", ben.shared, "--wait", "0") == 0, ben.said
    all_sync([ada, double, ben, ada, double])
    assert [p.circle().me for p in (ada, ben, double)] == [0, 2, 1]
    assert ada.read() == ben.read() == double.read() == "Bread and green tea\nfrom the double\n", (ada.read(), ben.read(), double.read())


def test_overwritten_message() -> None:
    """What the one has sent was written over by the double before anybody took it. It isn't known to be anywhere, so it goes in again."""
    ada, ben, double = doubled("overwritten")
    ben.write("Bread and green tea\n")
    assert ben.rls("sync") == 0
    os.unlink(os.path.join(ada.shared, ada.circle().id + "-1.here"))    # the mark has not come yet
    double.write("Bread and tea\nfrom the double\n")
    assert double.rls("sync") == 0, double.said
    all_sync([ada])
    assert "green" not in ada.read() and "double" in ada.read(), ada.read()
    assert ben.rls("sync") == 71 and ben.rls("join", "--anew", ben.shared, "--wait", "0") == 75, ben.said
    ada.rls("sync")
    assert ben.rls("join", ben.shared, "--wait", "0") == 0, ben.said
    all_sync([ada, double, ben, ada, double])
    assert ada.read() == ben.read() == double.read() == "Bread and green tea\nfrom the double\n", (ada.read(), ben.read(), double.read())


def test_mark_comes_first() -> None:
    """A machine says that it goes on before its first message is there: so its double can't miss it, wherever it stops."""
    ada, ben, double = doubled("mark-first")
    mark = ada.circle().notice("1.here")
    assert mark
    double.write("Bread and tea\nfrom the double\n")
    sent = {x: os.stat(os.path.join(ada.shared, x)).st_mtime_ns for x in os.listdir(ada.shared) if "-1-" in x and x.endswith(".rlsm")}
    for step in range(1, 300):
        died = double.dies(step, "all", "sync")
        now = {x: os.stat(os.path.join(ada.shared, x)).st_mtime_ns for x in os.listdir(ada.shared) if "-1-" in x and x.endswith(".rlsm")}
        if now != sent:
            assert ada.circle().notice("1.here") != mark, step
            assert ben.rls("sync") == 71, ben.said
            return
        assert died, "nothing was sent"


def test_put_back_before_the_number() -> None:
    """A disk is put back to the moment before its number came, and nothing on it tells so. The number was begun with: it isn't taken again."""
    with spares():
        where = room("before-number")
        ada = Person(where, "Ada")
        ben = Person(where, "Ben", ada.shared)
        ada.write("x\n" * 20)
        ada.rls("share", ada.shared, "a.md")
        ben.rls("join", ben.shared, ben.folder, "--wait", "0")
        shutil.copytree(ben.home, ben.home + ".old")
        ada.rls("sync")
        pack = {x: open(os.path.join(ada.shared, x), "rb").read() for x in os.listdir(ada.shared) if x.endswith((".pack", ".seat"))}
        assert ben.rls("join", ben.shared, ben.folder, "--wait", "0") == 0
        ben.add("word", random.Random(1))
        all_sync([ben])
        shutil.rmtree(ben.home)
        os.rename(ben.home + ".old", ben.home)
        ben.circle().home.tell_place()
        for x, data in pack.items():                        # the giver has not taken it away yet
            with open(os.path.join(ada.shared, x), "wb") as f:
                f.write(data)
        assert ben.rls("join", ben.shared, ben.folder, "--wait", "0") == 71 and "begun with it before" in ben.said, ben.said
        os.unlink(os.path.join(ada.shared, ada.circle().id + "-1.here"))
        assert ben.rls("join", ben.shared, ben.folder, "--wait", "0") == 71 and "begun with it before" in ben.said, ben.said
        assert ben.rls("join", "--anew", ben.shared, "--wait", "0") == 75, ben.said
        all_sync([ada])
        assert ben.rls("join", ben.shared, ben.folder, "--wait", "0") == 0 and ben.circle().me == 2, ben.said


def test_replica_is_away() -> None:
    """A replica whose number was used is away: none is begun anew. A spare one that is away is nobody's any more."""
    with spares():
        ada, ben = started("away", "begin\n" * 9)
        circle = ben.circle()
        shutil.rmtree(circle.replica(circle.texts()[0].group))
        ben.write("other\n")
        assert ben.rls("sync") == 71 and "its replica is away" in ben.said, ben.said
        assert not ben.circle().has(circle.texts()[0].group)
        ada.add("word", random.Random(1))
        all_sync([ada, ada])
        shutil.rmtree(Giver(ada.circle()).spare(2))
        cleo = Person(os.path.dirname(os.path.dirname(ada.home)), "Cleo", ada.shared)
        assert cleo.rls("join", cleo.shared, cleo.folder, "--wait", "0") == 75
        assert ada.rls("sync") == 0 and "can't be given" in ada.said, ada.said
        assert cleo.rls("join", cleo.shared, cleo.folder, "--wait", "0") == 0 and cleo.circle().me == 3, cleo.said


def test_other_number() -> None:
    """A folder that has the replica of another number, whatever put it there."""
    ada, ben = started("other-number")
    group = ben.circle().texts()[0].group
    shutil.rmtree(ben.circle().replica(group))
    shutil.copytree(ada.circle().replica(group), ben.circle().replica(group))
    assert ben.rls("sync") == 71 and "has the replica of member 0" in ben.said, ben.said


def test_two_circles() -> None:
    where = room("two-circles")
    ada, ben = Person(where, "Ada"), Person(where, "Ben")
    for p in ada, ben:
        p.write(p.name)
        p.rls("share", p.shared, "a.md")
    for x in os.listdir(ada.shared):
        shutil.copy(os.path.join(ada.shared, x), ben.shared)
    cleo = Person(where, "Cleo", ben.shared)
    assert cleo.rls("join", cleo.shared, "--wait", "0") == 71 and "2 circles" in cleo.said and "Ada" in cleo.said, cleo.said
    assert ben.rls("sync", ben.shared) == 0, ben.said


def test_no_circle_file() -> None:
    """What says that there is a circle is away: those who are in it go on, and the giver writes it anew."""
    ada, ben = started("no-file")
    path = os.path.join(ada.shared, ada.circle().id + ".circle")
    with open(path, "rb") as f:
        told = f.read()
    os.unlink(path)
    ben.add("word", random.Random(1))
    all_sync([ben, ada])
    assert ben.rls("sync", ben.shared) == 0, ben.said
    with open(path, "rb") as f:
        assert f.read() == told
    assert ada.read() == ben.read()


def test_no_part() -> None:
    """Whoever has no part in a circle is told, whatever he asks; and the folder of the numbers is never in the shared one."""
    ada, ben = started("no-part")
    cleo = Person(os.path.dirname(os.path.dirname(ada.home)), "Cleo", ada.shared)
    for words in ("sync", ada.shared), ("who", ada.shared), ("where", ada.shared), ("drop", ada.shared), ("give", "1", ada.shared), ("share", ada.shared):
        assert cleo.rls(*words) in (1, 2) and cleo.said, (words, cleo.said)
    cleo.home = os.path.join(ada.shared, "home")
    assert cleo.rls("join", ada.shared) == 71 and "is in the shared folder" in cleo.said, cleo.said
    assert cleo.rls("share", ada.shared) == 71, cleo.said


def test_share_is_stopped() -> None:
    """`rls share` of two notes is stopped at each step, and then repeated: there is one circle, and each note in it once."""
    ada = Person(room("share-stopped"), "Ada")
    ada.write("one\n"), ada.write("two\n", "b.md")
    for step, how, died in Moment(ada).at_each_step(5):
        died(ada.dies(step, how, "share", ada.shared, "a.md", "b.md"))
        assert ada.rls("share", ada.shared, "a.md", "b.md", "--wait", "20") == 0, ada.said
        all_sync([ada])
        assert len([x for x in os.listdir(ada.shared) if x.endswith(".circle")]) == 1
        assert sorted(x.name for x in ada.circle().texts()) == ["a.md", "b.md"] and sorted(os.listdir(ada.folder)) == ["a.md", "b.md"]
