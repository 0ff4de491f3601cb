"""Runs `rls WORDS ..` and stops it at its Nth step, as a loss of power or `kill -9` would: python3 -m share_tests.dying N HOW WORDS ..

A step is a change of a name, a sync, a program that is started, or a line to a session. HOW is `alone` (the programs that it started see the end of
their input, and store), `all` (they are stopped, too) or `half` (so are they, and what was being written is cut in half). The status is 9 if it was
stopped, and otherwise that of the command. The environment's BETWEEN is what somebody saves just before the first file is replaced; then there is
a file `saved` beside RLS_HOME."""
import os
import signal
import subprocess
import sys
from typing import Any, Optional

from rls import __main__ as cli
from rls import files, note
from rls.session import Session


class Dying:
    def __init__(self, last: int, how: str) -> None:
        self.left, self.how = last, how

    def step(self, name: str, fd: Any) -> None:
        self.left -= 1
        if self.left == 0:
            if self.how == "half" and name == "fsync":
                size, path = os.fstat(fd).st_size, os.readlink(f"/proc/self/fd/{fd}")
                if not os.path.isdir(path):             # what was synced before stays: of the marks only the last one is new
                    os.ftruncate(fd, size - 5 if path.endswith("/marks") else size // 2)
            if self.how == "alone":
                os._exit(9)
            os.killpg(0, signal.SIGKILL)

    def dying(self, of: Any, name: str) -> None:
        real = getattr(of, name)

        def call(*words: Any, **more: Any) -> Any:
            self.step(name, words[0] if words else None)
            return real(*words, **more)
        setattr(of, name, call)


def save_between(text: str) -> None:
    """Somebody saves this when a file is about to be replaced."""
    real, put, done = os.replace, note.put, []

    def call(path: str, data: bytes, expected: Optional[bytes]) -> files.Put:
        if not done:
            done.append(1)
            with open(path + ".editor", "w", encoding="utf-8") as f:
                f.write(text)
            real(path + ".editor", path)
            open(os.path.join(os.environ["RLS_HOME"], "..", "saved"), "w", encoding="utf-8").close()
        return put(path, data, expected)
    note.put = call


if __name__ == "__main__":
    if "BETWEEN" in os.environ:
        save_between(os.environ["BETWEEN"])
    dying = Dying(int(sys.argv[1]), sys.argv[2])
    for of, name in [(os, "replace"), (os, "rename"), (os, "link"), (os, "unlink"), (os, "fsync"), (os, "makedirs"), (subprocess, "run"), (files, "renamed"), (Session, "_put")]:
        dying.dying(of, name)
    sys.exit(cli.main(sys.argv[3:]))
