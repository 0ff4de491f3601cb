"""What the tests share: folders with a replica, runs of the program, and what was found."""
import ctypes
import os
import shutil
import signal
import subprocess
import tempfile
from forms import u64

KINDS = ("slots", "file")
NAMES = ("replica.0", "replica.1", "replica.gate", "replica.rls", "replica.rls.new")
CALL_NAMES = ("malloc", "realloc", "open", "read", "write", "lseek", "fsync", "rename", "close", "statx", "ftruncate", "memory")
USAGE = b"usage: new GROUP ME MEMBERS | edit | text | ids | stat | send TO | take | leave | trial SEED STEPS\n"
SECONDS = 300


class Hangs(Exception):
    """A program didn't end."""


class Skip(Exception):
    """A test that can't run here, and why."""


class Result:
    """How a program ended: its status, or 1000 and a signal's number, and what it wrote."""

    def __init__(self, status, out, err):
        self.status, self.out, self.err = status, out, err

    def __eq__(self, other):
        return (self.status, self.out, self.err) == (other.status, other.out, other.err)

    def __repr__(self):
        return "status %d, output %s, errors %s" % (self.status, short(self.out), short(self.err))


def short(value):
    """A value as a line of a report."""
    if isinstance(value, (bytes, bytearray)) and len(value) > 200:
        return "%d bytes %r .. %r" % (len(value), bytes(value[:60]), bytes(value[-20:]))
    shown = repr(value)
    return shown if len(shown) < 600 else shown[:560] + ".."


def ending(wait_status):
    return 1000 + os.WTERMSIG(wait_status) if os.WIFSIGNALED(wait_status) else os.WEXITSTATUS(wait_status)


def put(folder, kind, content, leftover=None):
    """Makes a folder anew, with a replica of this content, or without one if it is None. The slots are those of a first store and a load, as
    docs/DURABILITY.md has them."""
    shutil.rmtree(folder, ignore_errors=True)
    os.makedirs(folder)
    files = {}
    if content is not None and kind == "file":
        files["replica.rls"] = content
    elif content is not None:
        files = {"replica.0": u64(len(content)) + content, "replica.1": u64(len(content)) + content, "replica.gate": b"\0\0"}
    files.update(leftover or {})
    for name, data in files.items():
        with open(os.path.join(folder, name), "wb") as file:
            file.write(data)


def files_of(folder):
    """The names of a folder with what the files hold."""
    found = {}
    for name in sorted(os.listdir(folder)):
        with open(os.path.join(folder, name), "rb") as file:
            found[name] = file.read()
    return found


def kept_in(files):
    """The stored file by docs/DURABILITY.md, or None where there is none."""
    if "replica.rls" in files:
        return files["replica.rls"]
    gate = files.get("replica.gate", b"")
    if not gate:
        return None
    slot = files.get("replica.%d" % (gate[0] % 2), b"")
    return slot[8:8 + int.from_bytes(slot[:8], "big")] if len(slot) >= 8 else b""


def kept(folder):
    return kept_in(files_of(folder))


class Room:
    """A folder of its own for some tests, and what they found. `names` are the tests that are wanted, or none for all."""

    def __init__(self, program, library, top):
        self.program, self.library, self.top = program, library, top
        os.makedirs(top)
        self.passed, self.failures, self.skips = 0, [], []
        self.title = ""
        self.in_path, self.out_path, self.err_path = (os.path.join(top, name) for name in ("in", "out", "err"))
        self.counts_path, self.record_path = os.path.join(top, "counts"), os.path.join(top, "record")
        with open(self.counts_path, "wb") as file:
            file.write(bytes(512))
        open(self.in_path, "wb").close()
        self.plain = {name: value for name, value in os.environ.items() if name in ("PATH", "HOME", "TMPDIR")}
        signal.signal(signal.SIGALRM, self._hangs)

    def _hangs(self, _signal, _frame):
        raise Hangs

    def folder(self, name="work"):
        return os.path.join(self.top, name)

    def replica(self, kind, content, name="work", leftover=None):
        """A folder with a replica."""
        path = self.folder(name)
        put(path, kind, content, leftover)
        return path

    # --- What was found.

    def check(self, what, is_right, *shown):
        if is_right:
            self.passed += 1
        else:
            self.failures.append("%s: %s%s" % (self.title, what, "".join("\n    " + short(one) for one in shown)))
        return is_right

    def equal(self, what, found, wanted):
        if found == wanted:
            return self.check(what, True)
        if isinstance(found, Result) and isinstance(wanted, Result) and len(found.out) + len(wanted.out) > 200:
            same = len(os.path.commonprefix([found.out, wanted.out]))
            begin = max(0, same - 20)
            return self.check(what, False, "the output differs from byte %d on" % same, *(
                "%s status %d, .. %r .., %r" % (name, one.status, one.out[begin:same + 40], one.err) for name, one in (("wanted", wanted), ("found ", found))))
        return self.check(what, False, "wanted " + short(wanted), "found  " + short(found))

    def skip(self, what, why):
        self.skips.append("%s: %s: %s" % (self.title, what, why))

    # --- Runs of the program.

    def run(self, folder, words=(), given=b"", calls=None, close=(), output=None, errors=None, program=None, seconds=SECONDS):
        """Runs the program with these words in a folder. `given` is its input, or the path of a file with it. `calls` are variables of
        the preloaded library, and `close` standard streams that it starts without."""
        env = dict(self.plain)
        if calls is not None:
            env["LD_PRELOAD"] = self.library
            env["CALLS_COUNTS"] = self.counts_path
            env.update({"CALLS_" + name: str(value) for name, value in calls.items()})
        path = given
        if isinstance(given, (bytes, bytearray)):
            path = self.in_path
            with open(path, "wb") as file:
                file.write(given)
        write = os.O_WRONLY | os.O_CREAT | os.O_TRUNC
        actions = [
            (os.POSIX_SPAWN_OPEN, 0, path, os.O_RDONLY, 0),
            (os.POSIX_SPAWN_OPEN, 1, output or self.out_path, write, 0o600),
            (os.POSIX_SPAWN_OPEN, 2, errors or self.err_path, write, 0o600),
        ] + [(os.POSIX_SPAWN_CLOSE, number) for number in close]
        command = list(program or [self.program]) + list(words)
        for stale in (self.out_path, self.err_path):
            open(stale, "wb").close()
        os.chdir(folder)
        pid = os.posix_spawn(command[0], command, env, file_actions=actions, setsigdef=[signal.SIGPIPE])
        try:
            signal.setitimer(signal.ITIMER_REAL, seconds)
            status = os.waitpid(pid, 0)[1]
            signal.setitimer(signal.ITIMER_REAL, 0)
        except Hangs:
            os.kill(pid, signal.SIGKILL)
            os.waitpid(pid, 0)
            return Result(-1, b"", b"didn't end within %d seconds" % seconds)
        with open(self.out_path, "rb") as out, open(self.err_path, "rb") as err:
            return Result(ending(status), out.read(), err.read())

    def limited(self, folder, words, limits, given=b"", seconds=SECONDS):
        """The same under limits of `ulimit`, such as `-v 300000`."""
        shell = ["/bin/sh", "-c", "ulimit %s && exec \"$0\" \"$@\"" % " && ulimit ".join(limits), self.program]
        return self.run(folder, words, given, program=shell, seconds=seconds)

    def counts(self):
        """How often the last run made each call, and what the first that failed was about: 0 to 2 a standard stream, 3 anything else,
        None if none failed."""
        with open(self.counts_path, "rb") as file:
            numbers = memoryview(file.read()).cast("Q")
        return dict(zip(CALL_NAMES, numbers)), numbers[63] - 1 if numbers[63] else None

    def record(self):
        """What the last run did to files, and forgets it."""
        with open(self.record_path, "r", encoding="utf-8") as file:
            lines = [line.split(" ") for line in file.read().splitlines()]
        os.unlink(self.record_path)
        return lines

    def text(self, folder):
        """What `text` shows, as one value: its status, output and line."""
        result = self.run(folder, ["text"])
        return (result.status, result.out, result.err)


def build_library(top):
    """Compiles the preloaded library."""
    library = os.path.join(top, "calls.so")
    here = os.path.dirname(os.path.abspath(__file__))
    subprocess.run(["gcc", "-O1", "-shared", "-fPIC", "-o", library, os.path.join(here, "calls.c")], check=True)
    return library


def temporary_folder():
    """A folder in memory if there is room, since the tests sync files many thousand times, and otherwise one on the disk."""
    try:
        room = os.statvfs("/dev/shm")
        if room.f_bavail * room.f_frsize > 4 << 30 and os.access("/dev/shm", os.W_OK):
            return tempfile.mkdtemp(prefix="rls-test-", dir="/dev/shm")
    except OSError:
        pass
    return tempfile.mkdtemp(prefix="rls-test-")


def memory_available():
    """Bytes of memory that are free for programs."""
    with open("/proc/meminfo", encoding="ascii") as file:
        for line in file:
            if line.startswith("MemAvailable:"):
                return int(line.split()[1]) * 1024
    return 0


def set_death_signal():
    """Lets this process end with the one that began it."""
    ctypes.CDLL(None).prctl(1, signal.SIGKILL)
