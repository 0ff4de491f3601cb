"""People with machines of their own, which are folders here."""
import contextlib
import io
import os
import random
import re
import shutil
import subprocess
import sys
import tempfile
from functools import lru_cache
from typing import Callable, Iterable, Iterator, Optional, Set, Tuple

from rls import Commands
from rls import __main__ as cli
from rls import giver
from rls.circle import Circle
from rls.home import Home
from rls.reports import Stat

from . import TOP


@lru_cache(maxsize=None)
def base() -> str:
    """The folder of all tests. Everything is synced all the time, so a disk would make this slow."""
    return tempfile.mkdtemp(dir=None if "TMPDIR" in os.environ or not os.access("/dev/shm", os.W_OK) else "/dev/shm")


class Person:
    """A machine: its own home, its own copy of the shared folder, its own files."""

    def __init__(self, room: str, name: str, shared: Optional[str] = None) -> None:
        self.name, self.home = name, os.path.join(room, name, "home")
        self.shared = shared or os.path.join(room, name, "shared")
        self.folder = os.path.join(room, name, "notes")
        for x in self.home, self.shared, self.folder:
            os.makedirs(x, exist_ok=True)
        self.said, self.keeps = "", ""          # the name of a file that never loses a word, if nobody deletes any

    def rls(self, *words: str) -> int:
        before = self.words()
        status = self.runs(*words)
        assert not before - self.words(), (self.name, words, "lost", before - self.words(), self.said)
        return status

    def words(self) -> Set[str]:
        return set(self.read(self.keeps).split()) if self.keeps and os.path.exists(os.path.join(self.folder, self.keeps)) else set()

    def runs(self, *words: str) -> int:
        os.environ["RLS_HOME"], os.environ["USER"] = self.home, self.name
        os.chdir(self.folder)
        out, err = io.StringIO(), io.StringIO()
        with contextlib.redirect_stdout(out), contextlib.redirect_stderr(err):
            status = cli.main(list(words))
        self.out, self.said = out.getvalue(), err.getvalue()
        return status

    def dies(self, step: int, how: str, *words: str, **more: str) -> bool:
        """Whether the command was stopped at this step (dying.py); it has ended before otherwise. `more` is for its environment."""
        env = {**os.environ, **more, "RLS_HOME": self.home, "USER": self.name, "PYTHONPATH": TOP, "PYTHONDONTWRITEBYTECODE": "1"}
        p = subprocess.run([sys.executable, "-m", "share_tests.dying", str(step), how, *words], env=env, cwd=self.folder, capture_output=True, start_new_session=True)
        self.said = p.stderr.decode()
        assert "Traceback" not in self.said, self.said
        return p.returncode in (9, -9)

    def circle(self) -> Circle:
        os.environ["RLS_HOME"] = self.home
        return Circle.of(self.shared)

    def read(self, name: str = "a.md") -> str:
        with open(os.path.join(self.folder, name), encoding="utf-8", newline="") as f:
            return f.read()

    def write(self, text: str, name: str = "a.md") -> None:
        path = os.path.join(self.folder, name)
        with open(path + ".tmp", "w", encoding="utf-8", newline="") as f:
            f.write(text)
        os.replace(path + ".tmp", path)

    def add(self, word: str, r: random.Random, name: str = "a.md") -> None:
        """Puts a word into the file at some place, as an editor does that saves."""
        text = self.read(name)
        at = r.choice([0, len(text)] + [m.end() for m in re.finditer(r"\s", text)])
        self.write(text[:at] + word + r.choice([" ", "\n"]) + text[at:], name)


def room(name: str) -> str:
    path = os.path.join(base(), name)
    os.makedirs(path)
    return path


def started(name: str, text: str = "Bread and tea\n", members: str = "4") -> Tuple[Person, Person]:
    """Ada began with a.md, and Ben has joined; both see one folder."""
    where = room(name)
    ada = Person(where, "Ada")
    ben = Person(where, "Ben", ada.shared)
    ada.write(text)
    assert ada.rls("share", ada.shared, "a.md", "--members", members) == 0, ada.said
    joins(ben, ada)
    assert ben.read() == text, ben.read()
    return ada, ben


def joins(who: Person, giver_is: Person) -> None:
    """A number for somebody who sees the giver's folder."""
    assert who.rls("join", who.shared, who.folder, "--wait", "0") == 75, who.said
    assert giver_is.rls("sync") == 0, giver_is.said
    assert who.rls("join", who.shared, who.folder, "--wait", "0") == 0, who.said


class Moment:
    """All machines as they are now, to which one can go back as often as one likes. That they are copies then, nobody sees."""

    def __init__(self, *people: Person) -> None:
        self.people, self.where = people, os.path.dirname(os.path.dirname(people[0].home))
        os.chdir("/")
        shutil.copytree(self.where, self.where + ".kept")

    def back(self) -> None:
        os.chdir("/")
        shutil.rmtree(self.where)
        shutil.copytree(self.where + ".kept", self.where)
        for p in self.people:
            for ident in os.listdir(p.home):
                os.environ["RLS_HOME"] = p.home
                Home(ident).tell_place()

    def at_each_step(self, each: int) -> Iterator[Tuple[int, str, Callable[[bool], None]]]:
        """Goes back, and names a step and a way to stop there (dying.py), until the caller has said for each way that nothing was stopped."""
        for how in "all", "half", "alone":
            died, step = [True], 0
            while died[-1]:
                step += int(os.environ.get("EACH", each))
                self.back()
                yield step, how, died.append


@contextlib.contextmanager
def spares(at_least: int = 0, each: float = 0) -> Iterator[None]:
    """The giver holds replicas of spare numbers from so many bytes on, and looks after them each so many seconds."""
    before = giver.SPARE_FROM, giver.TEND
    giver.SPARE_FROM, giver.TEND = at_least, each
    os.environ["RLS_SPARE_FROM"], os.environ["RLS_TEND"] = str(at_least), str(each)
    try:
        yield
    finally:
        giver.SPARE_FROM, giver.TEND = before
        del os.environ["RLS_SPARE_FROM"], os.environ["RLS_TEND"]


def all_sync(people: Iterable[Person]) -> None:
    for p in people:
        assert p.rls("sync", "--wait", "20") == 0, (p.name, p.said)         # what was stopped may still store


def stat(p: Person) -> Stat:
    """The numbers of the replica of the first text."""
    circle = p.circle()
    return Commands(circle.replica(circle.texts()[0].group)).stat()
