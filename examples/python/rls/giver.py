"""The member who gives the numbers. One machine decides alone, so that no two have one number; and until it gives a number it is that member:
it keeps its replicas ("spare"), takes messages for it and says what it has, so that no file grows for a number that nobody has yet."""
import hashlib
import os
import shutil
import time
from contextlib import ExitStack
from typing import Dict, List, Sequence

from .circle import Circle, Quiet, begin, has_replica
from .errors import Stale, Trouble
from .notices import name_of, regular_or_none, sync_folder, write_notice
from .folders import replace
from .packs import MOST_PACK, packed, stored_size
from .reports import Stat
from .session import Session

SPARE_FROM = int(os.environ.get("RLS_SPARE_FROM", "65536"))     # bytes of a replica from which spare numbers have one, too
TEND = float(os.environ.get("RLS_TEND", "60"))                  # seconds between two looks after the spare numbers


class Holding(Session):
    """A session of a number that nobody has yet. It makes no operation, not even a rename: the first one is its owner's."""

    def edit(self, lines: Sequence[str]) -> None:
        raise AssertionError("a spare number makes no operation")

    def rename_now(self) -> None:
        """Whoever writes renames."""


class SpareBox(Quiet):
    """The messages of a number that nobody has yet: it writes none to the others of its kind, which are on the same machine."""

    def __init__(self, circle: Circle, group: int, me: int, spares: List[int]) -> None:
        super().__init__(circle, group, me)
        self.spares = spares

    def is_enough(self, to: int, message: bytes) -> bool:
        return to in self.spares or super().is_enough(to, message)


class Giver:
    """What this machine keeps as the giver: whose the numbers are that it gave (`given`), which of them have moved (`handed`), and which nobody can
    have (`lost`)."""

    def __init__(self, circle: Circle) -> None:
        self.circle, self.home = circle, circle.home
        self.given: Dict[str, Dict[str, str]] = self.home.kept("given") or {}
        self.handed: List[int] = self.home.kept("handed") or []
        self.lost: List[int] = self.home.kept("lost") or []
        self.said: List[str] = []

    @property
    def is_giver(self) -> bool:
        part = self.home.kept("part")
        return part["to"] is None if part else self.circle.me == 0

    @property
    def turn(self) -> int:
        """How often the part was handed on until this machine got it, or handed it on."""
        part = self.home.kept("part")
        return int(part["turn"]) if part else 0

    def free(self) -> List[int]:
        """The numbers that nobody has, and that this machine holds."""
        return [k for k in range(1, self.circle.members) if str(k) not in self.given and k != self.circle.me and k not in self.lost]

    def work(self) -> List[str]:
        """What the giver does at each round: it answers who asked, and keeps the spare numbers up to date. It takes no lock of a replica that an
        editor may have open. Answers what is to be said."""
        if self.is_giver:
            self.look_at_numbers()
            self.circle.repair()
            asking = [x[1] for x in self.circle.own_names(r"([0-9a-f]{16})\.ask") if not self._has(x[1])]
            if asking:
                self.tend()                             # so whoever comes has the texts at once
            for token in asking:
                self._answer(token)
        for k, to in self.given.items():
            if int(k) not in self.handed:
                self._hand_over(int(k), to)
        if self.is_giver and not 0 <= time.time() - float(self.home.kept("tended") or 0) < TEND:
            self.tend()
            self.home.keep("tended", time.time())       # what waits for the spare numbers waits for the giver as well
        return self.said

    def look_at_numbers(self) -> None:
        """Trouble 71 if somebody has a number of which this machine doesn't know that it gave it: then its files are old. This comes before it
        gives a number, and before it takes or sends for one."""
        for match in self.circle.own_names(r"([0-9]{1,2})\.(?:seat|pack|here)"):
            k = int(match[1])
            if k not in (0, self.circle.me) and str(k) not in self.given:
                raise Trouble(f"number {k} was given to {name_of(self.circle.notice(f'{k}.seat'))}, and this machine, which gives the numbers, doesn't know it: its files in {self.home.folder} were put back from a copy. It gives no numbers any more.")
        if any(int(x[1]) > self.turn for x in self.circle.own_names(r"([0-9]{1,9})\.(?:part|gives|spares)")):
            raise Trouble(f"another member gives the numbers, and this machine, which did, doesn't know it: its files in {self.home.folder} were put back from a copy. It gives no numbers any more.")

    def _has(self, token: str) -> bool:
        return any(token == to["token"] for to in self.given.values())

    def _answer(self, token: str) -> None:
        """Gives a number to whoever asks, once for each token."""
        asked = self.circle.notice(f"{token}.ask")
        if not asked:
            return
        free = self.free()
        if not free:
            self.said.append(f"{name_of(asked)} asks for a number, and all {self.circle.members} are given: docs/SHARING.md, \"More members\".")
            return
        self.circle.mark()
        self.given[str(free[0])] = {"token": token, "name": name_of(asked)}
        # From here on this machine never takes, sends or gives for this number again, whatever happens.
        self.home.keep("given", self.given)
        self.said.append(f"number {free[0]} is {name_of(asked)}'s now.")

    def _hand_over(self, k: int, to: Dict[str, str]) -> None:
        """Moves the replicas of a number to its owner. Repeated until the owner was here; then the pack goes."""
        pack = self.circle.path(f"{self.circle.id}-{k}.pack")
        here = self.circle.notice(f"{k}.here")
        if here and here.get("token") == to["token"]:
            self.handed.append(k)
            self.home.keep("handed", self.handed)       # before anything goes: half of a pack is never made
            if os.path.lexists(pack):
                os.unlink(pack)
            shutil.rmtree(self.spare(k), ignore_errors=True)
            return
        data = packed(self.spare(k))
        if len(data) > MOST_PACK:
            raise Trouble(f"the replicas of number {k} have more than {MOST_PACK} bytes, and can't be handed over.", 11)
        if regular_or_none(pack, MOST_PACK) != data:
            replace(pack, data)
        write_notice(self.circle.path(f"{self.circle.id}-{k}.seat"), token=to["token"], name=to["name"], bytes=len(data), sum=hashlib.sha256(data).hexdigest())

    # -- numbers that nobody has yet
    def spare(self, k: int, *names: str) -> str:
        return self.home.path("spare", str(k), *names)

    def tend(self) -> None:
        """Brings the spare numbers up to date, in each text of which messages came for them. As long as a text has few edits nobody minds that
        all are kept, and whoever gets a number begins it."""
        signs: Dict[str, str] = self.home.kept("spares") or {}
        now = dict(signs)
        for text in self.circle.texts():
            group = str(text.group)
            if group not in signs and stored_size(self.circle.replica(text.group)) < SPARE_FROM:
                continue
            sign = self._sign(text.group)
            if signs.get(group) == sign:
                continue
            held = self._begun(text.group)
            try:
                self._exchange(text.group, held)
            except Stale as e:
                raise Trouble(f"{text.name}: {e}. This machine, which gives the numbers, doesn't know that this one was given: its files in {self.home.folder} were put back from a copy. It gives no numbers any more.") from None
            now[group] = sign
        if now != signs:
            self.home.keep("spares", now)

    def _sign(self, group: int) -> str:
        return hashlib.sha256("".join(self.circle.signature(group, k) for k in self.free()).encode()).hexdigest()

    def _begun(self, group: int) -> List[int]:
        """The spare numbers, each with a replica of the text. One that had a replica, which is away now, is nobody's any more: others may have
        let go of what only that replica had."""
        begun: Dict[str, List[int]] = self.home.kept("spares-begun") or {}
        had = begun.get(str(group), [])
        lost = [k for k in self.free() if k in had and not has_replica(self.spare(k, str(group)))]
        if lost:
            self.lost += lost
            self.home.keep("lost", self.lost)
            self.said.append(f"the replicas of the spare numbers {', '.join(map(str, lost))} are away from {self.home.folder}: these numbers can't be given any more.")
        free = self.free()
        if set(free) - set(had):
            for k in free:
                begin(self.spare(k, str(group)), group, k, self.circle.members)
                sync_folder(self.spare(k))
            sync_folder(self.home.path("spare"))
            sync_folder(self.home.folder)
            self.home.keep("spares-begun", {**begun, str(group): free})
        return free

    def _exchange(self, group: int, spares: List[int]) -> None:
        """Among themselves the spare numbers exchange here; the shared folder has only what goes to and from members."""
        with ExitStack() as stack:
            live = {k: stack.enter_context(Holding(self.spare(k, str(group)))) for k in spares}
            boxes = {k: SpareBox(self.circle, group, k, spares) for k in spares}
            for k in spares:
                boxes[k].receive(live[k])
            for k in spares:
                for j in spares:
                    if j != k:
                        live[j].take(live[k].message(j))
            for k in spares:
                boxes[k].send(live[k])              # which stores first: nothing is said that a stop could make untrue


__all__ = ["Giver", "Holding"]
