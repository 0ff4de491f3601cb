"""What the tests of the package rls need: a folder for each test, and replicas in it.  Test modules read this first, since it says which program is
meant: RLS names it, and otherwise it is bin/rls of this checkout."""
import fcntl
import os
import shutil
import subprocess
import sys
import tempfile
import time
import unittest

HERE = os.path.dirname(os.path.abspath(__file__))
os.environ.setdefault("RLS", os.path.join(HERE, "..", "..", "bin", "rls"))
from rls import Commands, limits  # noqa: E402


class Room(unittest.TestCase):
    """A folder whose name has what names may have."""

    def setUp(self):
        top = tempfile.mkdtemp()
        self.addCleanup(shutil.rmtree, top)
        self.room = os.path.join(top, " a b\n'*")
        os.mkdir(self.room)

    def path(self, *names):
        return os.path.join(self.room, *names)

    def is_locked(self, folder):
        fd = os.open(folder, os.O_RDONLY)
        try:
            fcntl.flock(fd, fcntl.LOCK_EX | fcntl.LOCK_NB)
            return False
        except BlockingIOError:
            return True
        finally:
            os.close(fd)

    def wait_for(self, test):
        end = time.monotonic() + 20
        while not test():
            self.assertLess(time.monotonic(), end)
            time.sleep(0.02)

    def killed(self, code):
        """Runs code in another Python, with a program that goes on for a second after its work, and kills that Python in the middle."""
        slow = self.path("slow")
        with open(slow, "w") as f:
            begun = f': >"{self.path("begun")}"'
            f.write(f'#!/bin/sh\n[ "$1" != session ] || {begun}\n"{os.environ["RLS"]}" "$@"\nstatus=$?\n{begun}\nsleep 1\nexit $status\n')
        os.chmod(slow, 0o755)
        p = subprocess.Popen([sys.executable, "-c", f"import rls, time\n{code}"], env={**os.environ, "RLS": slow, "PYTHONPATH": HERE})
        self.wait_for(lambda: os.path.exists(self.path("begun")))
        p.kill()
        p.wait()

    def two(self, members=2):
        return [Commands.new(self.path(f"m{k}"), 7, k, members) for k in range(members)]

    def many_runs(self, replica):
        """Makes some 25 runs, and has a limit of 10."""
        self.addCleanup(setattr, limits, "RENAME_AT", limits.RENAME_AT)
        limits.RENAME_AT = 10
        replica.insert(0, "abcdefghijklmnopqrstuvwxyz")
        for k in range(12):
            replica.insert(1 + 3 * k, "X")
