"""A carrier of files as bad as they come."""
import os
import random
from typing import Dict, List, Optional, Tuple

from .people import Person


class Carrier:
    """Carries files between copies of a folder: late, in any order, old ones after new ones, half first, with copies in conflict, and files that
    were deleted come back."""

    def __init__(self, people: List[Person], r: random.Random, bad: float) -> None:
        self.people, self.r, self.bad = people, r, bad
        self.seen: Dict[Tuple[str, str], Optional[bytes]] = {}
        self.late: List[Tuple[int, Person, str, Optional[bytes]]] = []
        self.old: List[Tuple[str, bytes]] = []
        self.newest: Dict[str, Tuple[Person, Optional[bytes]]] = {}
        self.now = self.last_change = 0
        self.did: Dict[str, int] = {}

    def count(self, what: str) -> None:
        self.did[what] = self.did.get(what, 0) + 1

    def files(self, p: Person) -> Dict[str, bytes]:
        found = {}
        for name in os.listdir(p.shared):
            if not name.startswith(".") and "conflict" not in name:
                with open(os.path.join(p.shared, name), "rb") as f:
                    found[name] = f.read()
        return found

    def step(self, bad: Optional[float] = None) -> None:
        bad = self.bad if bad is None else bad
        self.now += 1
        for p in self.people:
            there = self.files(p)
            for name in set(there) | {n for q, n in self.seen if q == p.name}:
                data = there.get(name)
                if self.seen.get((p.name, name)) != data:
                    self.seen[p.name, name] = data
                    self.newest[name], self.last_change = (p, data), self.now
                    for q in self.people:
                        if q is not p:
                            self.late.append((self.now + (self.r.randint(1, 12) if self.r.random() < bad else 1), q, name, data))
                    if data is not None and self.r.random() < bad:
                        self.old.append((name, data))
        if self.old and self.r.random() < bad / 3:
            name, data = self.r.choice(self.old)
            self.late.append((self.now, self.r.choice(self.people), name, data))
            self.count("an old file after a newer one")
        due = [x for x in self.late if x[0] <= self.now]
        self.late = [x for x in self.late if x[0] > self.now]
        self.r.shuffle(due)
        for _, q, name, data in due:
            self.put(q, name, data, bad)

    def put(self, q: Person, name: str, data: Optional[bytes], bad: float) -> None:
        path = os.path.join(q.shared, name)
        if data is None:
            if os.path.exists(path) and self.r.random() >= bad:
                os.unlink(path)
                self.seen[q.name, name] = None
            return
        if self.r.random() < bad / 3:
            with open(path, "wb") as f:
                f.write(data[:self.r.randint(0, len(data))])
            with open(path, "rb") as f:
                self.seen[q.name, name] = f.read()
            self.late.append((self.now + self.r.randint(1, 4), q, name, data))
            self.count("half a file first")
            return
        if self.r.random() < bad / 4:
            with open(path + ".sync-conflict-20261201", "wb") as f:
                f.write(data)
            self.count("a copy in conflict")
            self.late.append((self.now + 3, q, name, data))
            return
        with open(path, "wb") as f:
            f.write(data)
        self.seen[q.name, name] = data

    def bring_all(self) -> None:
        """All get each file as it was written last, also those to whom an old one came after that."""
        self.late += [(self.now, q, name, data) for name, (p, data) in self.newest.items() for q in self.people if q is not p]

    def settle(self) -> None:
        """What each has written itself comes to all others at last."""
        begun = self.now
        for k in range(60):
            if k % 20 == 0:
                self.bring_all()
            if self.now > max(begun + 22, self.last_change + 6):
                break                                   # nobody has written anything for long
            self.step(0)
            for p in self.people:
                p.rls("sync", "--wait", "20")
        for p in self.people:
            assert p.rls("sync", "--wait", "20") == 0, p.said
