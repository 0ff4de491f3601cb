"""A game of people and a carrier, all of which follows from its seed."""
import os
import random
import re
import shutil
from typing import Dict, List, Set

from rls import limits

from .carrier import Carrier
from .people import Person, spares, stat

NAMES = "Ada", "Ben", "Cleo", "Dora", "Emil"


class Game:
    """Ada begins; the others ask when they see the circle, some late. All write words into a.md at random places, by saves, and sync; now and then
    a sync is stopped, the giver's part is handed on, or somebody begins a new circle in the folder, perhaps two at once. At last the carrier brings
    all that there is. Then all are in one circle, with different numbers and the same text, each word once. No word ever goes from anybody's file."""

    def __init__(self, where: str, seed: int) -> None:
        self.r = random.Random(seed)
        self.people = [Person(where, x) for x in NAMES[:self.r.randint(3, 5)]]
        for p in self.people:
            p.keeps = "a.md"
        self.carrier = Carrier(self.people, self.r, self.r.choice([0.2, 0.5, 0.7]))
        self.dies = self.r.choice([0, 0, 0.04])
        self.gives = self.r.choice([0, 0.1])
        self.begins_again = self.r.choice([0, 0.03, 0.1])
        self.joined: Set[str] = {"Ada"}
        self.late = {p.name: self.r.choice([0, 0, 30, 60]) for p in self.people}
        self.written: List[str] = []
        self.did: Dict[str, int] = self.carrier.did
        ada = self.people[0]
        ada.write("one two three\nfour five six\n")
        assert ada.rls("share", ada.shared, "a.md", "--members", "6") == 0, ada.said

    def count(self, what: str) -> None:
        self.did[what] = self.did.get(what, 0) + 1

    def tries_to_join(self, p: Person, now: int) -> None:
        if now >= self.late[p.name] and any(x.endswith(".circle") for x in os.listdir(p.shared)):
            if self.r.random() < self.dies and p.dies(self.r.randint(1, 60), self.r.choice(["all", "half", "alone"]), "join", p.shared, p.folder, "--wait", "0"):
                self.count("a join that was stopped")
                return
            status = p.rls("join", p.shared, p.folder, "--wait", "0")
            assert status in (0, 2, 75), (status, p.said)
            if status == 0:
                self.joined.add(p.name)

    def writes(self, p: Person) -> None:
        if self.r.random() < 0.6 and os.path.exists(os.path.join(p.folder, "a.md")):
            self.written.append(f"w{len(self.written)}x")
            p.add(self.written[-1], self.r)
        if self.r.random() < self.dies:
            if p.dies(self.r.randint(1, 90), self.r.choice(["all", "half", "alone"]), "sync"):
                self.count("a sync that was stopped")
                return
        status = p.rls("sync", "--wait", "20")
        assert status == 0, (p.name, status, p.said)

    def begins_anew(self, p: Person) -> None:
        words = "share", p.shared, "--again", "--members", "6"
        if self.r.random() < 5 * self.dies and p.dies(self.r.randint(1, 90), self.r.choice(["all", "half", "alone"]), *words):
            self.count("a new circle whose beginner was stopped")
            return
        status = p.rls(*words, "--wait", "20")
        assert status in (0, 71), (status, p.said)
        if status == 0:
            self.count("a new circle")

    def step(self, now: int) -> None:
        self.carrier.step()
        p = self.r.choice(self.people)
        if p.name in self.joined and self.r.random() < self.gives:
            status = p.rls("give", str(self.r.randrange(6)), p.shared)
            assert status in (0, 1, 71), (status, p.said)
            if status == 0:
                self.count("the giver's part handed on")
        elif p.name in self.joined and self.did.get("a new circle", 0) < 3 and self.r.random() < self.begins_again:
            self.begins_anew(p)
        elif p.name in self.joined:
            self.writes(p)
        else:
            self.tries_to_join(p, now)

    def end(self) -> None:
        for k in range(40):
            if k == 10:
                self.carrier.bring_all()
            if k > 10 and self.carrier.now > self.carrier.last_change + 8 and len(self.joined) == len(self.people):
                break
            self.carrier.step(0)
            for p in self.people:
                if p.name in self.joined:
                    p.rls("sync")
                else:
                    self.tries_to_join(p, 1000)
        self.carrier.settle()
        assert self.joined == {p.name for p in self.people}, self.joined
        assert len({p.circle().id for p in self.people}) == 1, {p.name: p.circle().id for p in self.people}
        numbers = [p.circle().me for p in self.people]
        assert len(set(numbers)) == len(numbers), numbers
        texts = {p.name: p.read() for p in self.people}
        assert len(set(texts.values())) == 1, (texts, [stat(p) for p in self.people])
        found = re.findall(r"w\d+x", texts["Ada"])
        assert sorted(found) == sorted(self.written), ("lost", set(self.written) - set(found), "twice", [x for x in found if found.count(x) > 1])
        counts = [stat(p)["accepted"] for p in self.people]
        assert len(set(counts)) == 1 and all(n == 0 for k, n in enumerate(counts[0]) if k not in numbers), (counts, numbers)


def play(where: str, seed: int, steps: int = 120) -> str:
    """Plays one. Answers what happened, in words."""
    at_least, each, rename_at = random.Random(seed).choice([(0, 0, 500), (65_536, 0, 500), (0, 0.5, 500), (0, 0, 12), (0, 60, 30)])
    before, limits.RENAME_AT = limits.RENAME_AT, rename_at
    os.environ["RLS_RENAME_AT"] = str(rename_at)
    try:
        with spares(at_least, each):
            game = Game(where, seed)
            for now in range(steps):
                game.step(now)
            game.end()
    finally:
        limits.RENAME_AT = before
        del os.environ["RLS_RENAME_AT"]
    shutil.rmtree(where)
    return f"{len(game.written)} words of {len(game.people)} people, {', '.join(f'{what}: {n}' for what, n in sorted(game.did.items()))}"
