"""Runs programs and measures them: processor seconds, the greatest memory, instructions."""
import os
import re
import shutil
import subprocess
import sys

HERE = os.path.dirname(os.path.abspath(__file__))
NODE = {"NODE_PATH": ":".join([*filter(None, [os.environ.get("NODE_PATH")]), "/usr/share/nodejs", "/usr/local/lib/node_modules"])}


class Bench:
    """Programs that are measured, and the room in which they run."""

    def __init__(self, room, program, times, counts):
        self.room, self.program, self.times = room, program, times
        self.measure, self.floor, self.empty, self.rival = (os.path.join(room, name) for name in ("measure", "floor", "empty", "rival-program"))
        subprocess.run(["gcc", "-O2", "-o", self.measure, f"{HERE}/measure.c"], check=True)
        subprocess.run(["gcc", "-O2", "-o", self.empty, f"{HERE}/empty.c"], check=True)
        subprocess.run(["rustc", "-O", "--edition", "2021", "-o", self.floor, f"{HERE}/floor.rs"], check=True)
        subprocess.run(["rustc", "-O", "--edition", "2021", "-o", self.rival, f"{HERE}/rival/main.rs"], check=True)
        self.counts = counts and shutil.which("valgrind") is not None
        self.node = shutil.which("node")
        if self.node and subprocess.run([self.node, "-e", "require('yjs')"], env={**os.environ, **NODE}, capture_output=True).returncode:
            self.node = None
        # What was measured, for --json. Without seconds, if the machine does other work.
        self.rows, self.is_timed = [], True

    # --- Running

    def run(self, words, folder, given=os.devnull):
        """Runs a command: its processor seconds and its greatest memory in bytes. Its output is in the file `out` of the room."""
        told = os.path.join(self.room, "told")
        with open(given, "rb") as source, open(os.path.join(self.room, "out"), "wb") as output:
            status = subprocess.run([self.measure, told, *words], cwd=folder, stdin=source, stdout=output, env={**os.environ, **NODE}).returncode
        if status:
            sys.exit(f"{' '.join(words)} ended with status {status}")
        with open(told, encoding="ascii") as file:
            user, system, memory = file.read().split()
        return float(user) + float(system), 1024 * int(memory)

    def output(self):
        with open(os.path.join(self.room, "out"), "rb") as file:
            return file.read()

    def instructions(self, words, folder, given=os.devnull):
        with open(given, "rb") as source:
            ran = subprocess.run(["valgrind", "--tool=callgrind", "--callgrind-out-file=/dev/null", *words], cwd=folder, stdin=source,
                                 stdout=subprocess.DEVNULL, stderr=subprocess.PIPE)
        found = re.search(rb"Collected : (\d+)", ran.stderr)
        if not found:
            sys.exit(f"valgrind doesn't count {' '.join(words)}: {ran.stderr.decode(errors='replace')[-500:]}")
        return int(found.group(1))

    def file(self, name, data):
        path = os.path.join(self.room, name)
        with open(path, "wb") as file:
            file.write(data)
        return path

    def fresh(self, name, like=None):
        """An empty folder of this name, or a copy of another."""
        path = os.path.join(self.room, name)
        shutil.rmtree(path, ignore_errors=True)
        if like:
            shutil.copytree(like, path)
        else:
            os.mkdir(path)
        return path

    def member(self, name, number, members, program=None):
        folder = self.fresh(name)
        self.run([program or self.program, "new", "7", str(number), str(members)], folder)
        return folder

    # --- Telling

    def note(self, **row):
        if not self.is_timed:
            row.pop("seconds", None)
        self.rows.append(row)


def stored(folder):
    """The bytes of the newer of the two files that a replica has."""
    return max(os.path.getsize(os.path.join(folder, name)) for name in os.listdir(folder))


def read(path):
    with open(path, "rb") as file:
        return file.read()


def kept(folder):
    """The stored file of a replica: `replica.rls`, or the slot that the gate names, which begins with its length."""
    if os.path.exists(os.path.join(folder, "replica.rls")):
        return read(os.path.join(folder, "replica.rls"))
    slot = read(os.path.join(folder, f"replica.{read(os.path.join(folder, 'replica.gate'))[0] % 2}"))
    return slot[8 : 8 + int.from_bytes(slot[:8], "big")]


def same_bytes(one, other, what):
    if one != other:
        sys.exit(f"{what} of the program and of the rival differ: {len(one):,} and {len(other):,} bytes")
