"""No two have one number, whatever the carrier does."""
import os
import random
import shutil
from typing import List

from rls import Commands, limits
from rls.circle import Circle
from rls.giver import Giver
from rls.newcomer import ask, take_seat

from .carrier import Carrier
from .game import play
from .people import Moment, Person, all_sync, joins, room, spares, started, stat


def test_hostile_carrier() -> None:
    """Four people over a carrier that does all that carriers do; three ask for a number at once, offline. Nothing is lost or comes twice."""
    for seed in range(int(os.environ.get("SEEDS", "2"))):
        print(f"  seed {seed}: {play(room(f'hostile-{seed}'), seed)}")


def test_two_at_once() -> None:
    """Three ask before anybody's question is seen; two numbers are free. Two get one each, whichever is seen first, and the third is told."""
    where = room("at-once")
    ada = Person(where, "Ada")
    ada.write("x\n")
    ada.rls("share", ada.shared, "a.md", "--members", "3")
    others = [Person(where, x) for x in ("Ben", "Cleo", "Dora")]
    carrier = Carrier([ada] + others, random.Random(1), 0)
    carrier.step(), carrier.step()
    for p in others:
        assert p.rls("join", p.shared, p.folder, "--wait", "0") == 75
    for _ in range(4):
        carrier.step()
        ada.rls("sync")
        for p in others:
            p.rls("join", p.shared, p.folder, "--wait", "0")
    got = [p for p in others if p.circle().has_number]
    assert sorted(p.circle().me for p in got) == [1, 2]
    left, = [p for p in others if p not in got]
    ada.rls("sync")
    assert "all 3 are given" in ada.said, ada.said
    assert left.rls("join", left.shared, left.folder, "--wait", "0") == 75


def test_two_joins_of_one_machine() -> None:
    """Two commands on one machine at once are one who asks: one number, whose replicas came with it."""
    with spares():
        where = room("one-machine")
        ada, ben = Person(where, "Ada"), Person(where, "Ben")
        ben.shared = ada.shared
        ada.write("x\n" * 9)
        ada.rls("share", ada.shared, "a.md")
        os.environ["RLS_HOME"] = ben.home
        first, second = Circle.of(ben.shared), Circle.of(ben.shared)
        for circle in first, second:
            circle.home.make()
            with circle.hold():
                ask(circle, "Ben")
        assert first.seat and second.seat and first.seat.token == second.seat.token
        ada.rls("sync")
        os.environ["RLS_HOME"] = ben.home
        for circle in first, second:
            with circle.hold():
                assert take_seat(circle) and circle.me == 1
        assert ben.rls("sync") == 0 and len(ada.circle().names()) == 2


def test_half_pack() -> None:
    """A number with half of its replicas isn't there yet."""
    with spares():
        where = room("half")
        ada = Person(where, "Ada")
        ben = Person(where, "Ben", ada.shared)
        ada.write("x\n" * 50)
        ada.rls("share", ada.shared, "a.md")
        ben.rls("join", ben.shared, ben.folder, "--wait", "0")
        ada.rls("sync")
        pack, = [os.path.join(ada.shared, x) for x in os.listdir(ada.shared) if x.endswith(".pack")]
        with open(pack, "rb") as f:
            data = f.read()
        assert len(data) > 50
        for k in 0, 1, len(data) // 2, len(data) - 1:
            with open(pack, "wb") as f:
                f.write(data[:k])
            assert ben.rls("join", ben.shared, ben.folder, "--wait", "0") == 75
        ada.rls("sync")
        assert ben.rls("join", ben.shared, ben.folder, "--wait", "0") == 0 and ben.read() == "x\n" * 50


def write_on(people: List[Person], r: random.Random, word: str, rounds: int) -> None:
    for k in range(rounds):
        for p in people:
            p.add(f"{word}{k}{p.name}", r)
            assert p.rls("sync") == 0, p.said


def test_handed_over() -> None:
    """Ada and Ben write much while number 2 is spare, and nothing is kept for it. Then it is Cleo's, whose pack is on its way while the two write
    on. From that moment Ada says nothing for number 2 any more; if she did, both would let go of what the pack hasn't."""
    with spares():
        where = room("over")
        ada, ben, cleo = [Person(where, x) for x in ("Ada", "Ben", "Cleo")]
        ben.shared = ada.shared
        ada.write("begin\n")
        assert ada.rls("share", ada.shared, "a.md", "--members", "4") == 0
        joins(ben, ada)
        r = random.Random(2)
        write_on([ada, ben], r, "w", 6)
        all_sync([ada, ben] * 3)
        assert stat(ada)["unstable"][0] < 5, stat(ada)          # though two numbers of four are spare
        circle, = [x for x in os.listdir(ada.shared) if x.endswith(".circle")]
        shutil.copy(os.path.join(ada.shared, circle), cleo.shared)
        assert cleo.rls("join", cleo.shared, cleo.folder, "--wait", "0") == 75
        for x in os.listdir(cleo.shared):
            if x.endswith(".ask"):
                shutil.copy(os.path.join(cleo.shared, x), ada.shared)
        assert ada.rls("sync") == 0 and "number 2 is Cleo's" in ada.said, ada.said
        for x in os.listdir(ada.shared):                        # the carrier brings the pack as it is now, and nothing that is made of it later
            if x.endswith("-2.seat") or x.endswith("-2.pack"):
                shutil.copy(os.path.join(ada.shared, x), cleo.shared)
        write_on([ada, ben], r, "meanwhile", 4)
        all_sync([ada, ben] * 3)
        assert stat(ada)["unstable"][0] >= 8, stat(ada)         # for Cleo
        for x in os.listdir(ada.shared):
            if not x.endswith("-2.seat") and not x.endswith("-2.pack"):
                shutil.copy(os.path.join(ada.shared, x), cleo.shared)
        assert cleo.rls("join", cleo.shared, cleo.folder, "--wait", "0") == 0, cleo.said
        assert cleo.read() == ada.read(), (cleo.read(), stat(cleo), stat(ada))


def test_no_operation_of_a_spare_number() -> None:
    """A text of many runs: whoever writes renames, and a spare number doesn't. Its first operation is its owner's."""
    with spares():
        before, limits.RENAME_AT = limits.RENAME_AT, 0
        try:
            ada, ben = started("no-rename", "one two three four five six seven eight\n" * 3)
            write_on([ada, ben], random.Random(4), "w", 8)
            limits.RENAME_AT = 4
            assert ada.rls("sync", "--tend") == 0, ada.said
            spare = Commands(Giver(ada.circle()).spare(2, str(ada.circle().texts()[0].group))).stat()
            assert spare["runs"][0] > 4 and spare["accepted"][1] > 0 and spare["accepted"][2] == 0, spare
            all_sync([ada, ben] * 2)
            assert stat(ada)["accepted"][2:] == (0, 0), stat(ada)
        finally:
            limits.RENAME_AT = before


def test_pack_is_made_once() -> None:
    """After Ben was here, what says so may go away, be half, or be an old one: no other pack is made, and no other number given to him."""
    with spares():
        ada, ben = started("once", "begin\n" * 9)
        ada.rls("sync")
        here, = [os.path.join(ada.shared, x) for x in os.listdir(ada.shared) if x.endswith("-1.here")]
        os.unlink(here)
        os.environ["RLS_HOME"] = ada.home
        all_sync([ada, ada])
        assert not [x for x in os.listdir(ada.shared) if x.endswith(".pack")]
        ben.add("word", random.Random(1))
        all_sync([ben, ada])
        assert ada.read() == ben.read()


def test_giver_put_back() -> None:
    """The giver's files come back from a copy: it sees by the folder that it has given a number of which it doesn't know, gives none, and says
    nothing for that number."""
    with spares():
        where = room("put-back")
        ada = Person(where, "Ada")
        ben, cleo = Person(where, "Ben", ada.shared), Person(where, "Cleo", ada.shared)
        ada.write("x\n")
        ada.rls("share", ada.shared, "a.md")
        shutil.copytree(ada.home, ada.home + ".copy")
        joins(ben, ada)
        shutil.rmtree(ada.home)
        os.rename(ada.home + ".copy", ada.home)
        assert cleo.rls("join", cleo.shared, cleo.folder, "--wait", "0") == 75
        assert ada.rls("sync") == 71 and "is a copy" in ada.said, ada.said
        assert ada.rls("sync", "--moved") == 71 and "put back from one" in ada.said, ada.said
        os.unlink(os.path.join(ada.shared, ada.circle().id + "-0.here"))
        sent = {x: os.stat(os.path.join(ada.shared, x)).st_mtime_ns for x in os.listdir(ada.shared) if "-1-" in x}
        assert ada.rls("sync", "--moved") == 71 and "were put back from a copy" in ada.said, ada.said
        assert sent == {x: os.stat(os.path.join(ada.shared, x)).st_mtime_ns for x in os.listdir(ada.shared) if "-1-" in x}
        assert cleo.rls("join", cleo.shared, cleo.folder, "--wait", "0") == 75


def test_giver_dies() -> None:
    """Ada's machine stops at each step of giving numbers to two who ask. Each gets one number, once, and all that was written."""
    with spares():
        where = room("giver-dies")
        ada = Person(where, "Ada")
        ada.write("begin\n" * 3)
        assert ada.rls("share", ada.shared, "a.md", "--members", "3") == 0
        others = [Person(where, x, ada.shared) for x in ("Ben", "Cleo")]
        for p in others:
            assert p.rls("join", p.shared, p.folder, "--wait", "0") == 75
        for step, how, died in Moment(ada, *others).at_each_step(7):
            died(ada.dies(step, how, "sync"))
            for p in others:                                # they take what is there, whole or not
                assert p.rls("join", p.shared, p.folder, "--wait", "0") in (0, 75), p.said
            all_sync([ada])
            for p in others:
                assert p.rls("join", p.shared, p.folder, "--wait", "0") == 0, p.said
            assert sorted(p.circle().me for p in others) == [1, 2]
            write_on(others, random.Random(step), "w", 1)
            all_sync([ada] + others + [ada] + others)
            assert len({p.read() for p in [ada] + others}) == 1 and "w0Ben" in ada.read() and "w0Cleo" in ada.read()


def test_newcomer_dies() -> None:
    """Ben's `rls join` stops at each of its steps, with replicas that come with the number. He has the number in the end, and all texts."""
    with spares():
        where = room("newcomer-dies")
        ada = Person(where, "Ada")
        ben = Person(where, "Ben", ada.shared)
        ada.write("begin\n" * 3)
        ada.write("a second note\n", "b.md")
        assert ada.rls("share", ada.shared, "a.md", "b.md") == 0
        assert ben.rls("join", ben.shared, ben.folder, "--wait", "0") == 75
        all_sync([ada])
        for step, how, died in Moment(ada, ben).at_each_step(7):
            died(ben.dies(step, how, "join", ben.shared, ben.folder, "--wait", "0"))
            write_on([ada], random.Random(step), "w", 2)
            assert ben.rls("join", ben.shared, ben.folder, "--wait", "0") == 0 and ben.circle().me == 1, ben.said
            all_sync([ben, ada, ben])
            assert ben.read() == ada.read() and ben.read("b.md") == "a second note\n" and len(os.listdir(ben.folder)) == 2, os.listdir(ben.folder)


def test_part_goes_on() -> None:
    """Ada hands the giver's part on to Ben; Ada's machine, or Ben's, stops at each step. One of them gives at each moment: Cleo and Dora, who ask
    before and after, get different numbers, and the spare ones have moved with all that they had acknowledged."""
    with spares():
        ada, ben = started("part", "begin\n", members="5")
        cleo, dora = [Person(os.path.dirname(os.path.dirname(ada.home)), x, ada.shared) for x in ("Cleo", "Dora")]
        write_on([ada, ben], random.Random(1), "w", 2)
        all_sync([ada, ben] * 2)
        assert cleo.rls("join", cleo.shared, cleo.folder, "--wait", "0") == 75
        moment = Moment(ada, ben, cleo, dora)
        for stopped in ada, ben:
            for step, how, died in moment.at_each_step(9):
                if stopped is ada and ada.dies(step, how, "give", "1"):
                    died(True)
                    assert ada.rls("give", "1") in (0, 71), ada.said
                elif stopped is ben:
                    assert ada.rls("give", "1") == 0, ada.said
                    died(ben.dies(step, how, "sync"))
                else:
                    died(False)
                all_sync([ada])
                assert "is Cleo's" not in ada.said
                all_sync([ben, ada, ben])
                assert cleo.rls("join", cleo.shared, cleo.folder, "--wait", "0") == 0, cleo.said
                joins(dora, ben)
                write_on([cleo, dora, ada, ben], random.Random(step), "v", 1)
                all_sync([ada, ben, cleo, dora] * 2)
                assert len({p.read() for p in (ada, ben, cleo, dora)}) == 1 and {cleo.circle().me, dora.circle().me} == {2, 3}
                assert ada.rls("give", "1") == 71 and ben.rls("who") == 0 and "number 1, Ben, gives" in ben.out, ben.out


def test_old_giver_put_back() -> None:
    """Ada has handed the giver's part on, and her files come back from before that: she gives no number."""
    with spares():
        ada, ben = started("old-giver", "begin\n" * 9)
        shutil.copytree(ada.home, ada.home + ".old")
        assert ada.rls("give", "1") == 0, ada.said
        all_sync([ben, ada])
        shutil.rmtree(ada.home)
        os.rename(ada.home + ".old", ada.home)
        ada.circle().home.tell_place()
        os.unlink(os.path.join(ada.shared, ada.circle().id + "-0.here"))
        cleo = Person(os.path.dirname(os.path.dirname(ada.home)), "Cleo", ada.shared)
        assert cleo.rls("join", cleo.shared, cleo.folder, "--wait", "0") == 75
        assert ada.rls("sync") == 71 and "another member gives" in ada.said, ada.said
        all_sync([ben])
        assert "is Cleo's" in ben.said
