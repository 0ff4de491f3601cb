"""Each call of the system fails in turn, with each error that it may give; reads and writes that are short or interrupted; a disk that is full
after each byte; folders that may not be written; closed streams. After each the stored file is the old one or the new one, whole, the status
is the one that docs/USE.md names, and the next command goes as if nothing had been."""
import errno
import os
import subprocess
from commands import HELLO_1, edits, took
from forms import FRESH, HELLO, HELLO_MESSAGE, fresh
from room import KINDS, NAMES, Result, files_of, kept, kept_in, put

SCRIPT = b"i 0 hello\n"
LONGER = {"replica.rls.new": b"left over " * 3000}
LONGER_SLOT = {"replica.1": (9000).to_bytes(8, "big") + b"left over " * 900}

# What is run: a name, the file before, the words, the input, the file after and the output. The first of `new` begins with nothing.
COMMANDS = [
    ("new", None, ["new", "7", "0", "2"], b"", FRESH, b"new 7 0 2\n"),
    ("edit", FRESH, ["edit"], SCRIPT, HELLO, edits(1)),
    ("take", fresh(1), ["take"], HELLO_MESSAGE, HELLO_1, took(1)),
    ("session", FRESH, ["session"], SCRIPT + b"t\n", HELLO, b"ok 1\ntext 5\nhello\nsaved\n"),
    ("text", HELLO, ["text"], b"", HELLO, b"hello"),
    ("send", HELLO, ["send", "1"], b"", HELLO, HELLO_MESSAGE),
    ("stat", HELLO, ["stat"], b"", HELLO, None),
    ("no member", HELLO, ["send", "9"], b"", HELLO, b""),
    ("leave", HELLO, ["leave"], b"", None, edits(1)),
]

# The errors of each call. A file that isn't there is no fault, so ENOENT is no error here.
ERRORS = {
    "open": (errno.EIO, errno.EACCES, errno.EMFILE, errno.ENFILE, errno.ENOMEM, errno.EROFS, errno.ELOOP, errno.EINTR, errno.ENOSPC, errno.EDQUOT, errno.ENOTDIR),
    "read": (errno.EIO, errno.EINTR, errno.EAGAIN, errno.EISDIR, errno.ESTALE, errno.ENOMEM),
    "write": (errno.EIO, errno.ENOSPC, errno.EDQUOT, errno.EFBIG, errno.EINTR, errno.EPIPE, errno.EAGAIN, 0),
    "lseek": (errno.EIO, errno.EINVAL, errno.EOVERFLOW),
    "fsync": (errno.EIO, errno.ENOSPC, errno.EDQUOT, errno.EINTR, errno.EROFS),
    "rename": (errno.EIO, errno.ENOSPC, errno.EACCES, errno.EPERM, errno.EROFS),
    "close": (errno.EIO, errno.ENOSPC),
    "statx": (errno.EIO, errno.EACCES, errno.ENOMEM),
    "ftruncate": (errno.EIO,),
}


def before(room, kind, content, first):
    """The folder before a command. The first store has no file; `replica.rls` is never begun by `new`."""
    leftover = LONGER if kind == "file" else (LONGER_SLOT if content is not None and not first else None)
    return room.replica(kind, content, leftover=leftover)


def plain(room, kind, row):
    """The command without any failure: how it ends, the file after, and how often it makes each call."""
    name, content, words, given, after, out = row
    folder = before(room, kind, content, name == "new")
    result = room.run(folder, words, given, calls={})
    counts, _ = room.counts()
    new = kept(folder)
    status, errors = (4, b"not a member 9\n") if name == "no member" else (0, b"")
    room.equal("%s: %s without a failure" % (kind, name), result, Result(status, result.out if out is None else out, errors))
    if after is not None:
        room.equal("%s: %s without a failure: what is stored" % (kind, name), new, after)
    names = set(os.listdir(folder))
    room.check("%s: %s: no file is left over" % (kind, name), "replica.rls.new" not in names or content == new, names)
    return result, new, counts


def judge(what, error, about, result, usual, old, now, new):
    """What is wrong with a run in which one call failed, or an empty text. `about` is the stream that the first one was about, 3 for
    anything else, and None if none failed."""
    if now not in (old, new):
        return "the stored file is neither the old one nor the new one: %r" % (now if now is None else now[:300],)
    if about is None or about == 2:
        if (result.status, result.out) != (usual.status, usual.out) or now != new:
            return "wanted as without the failure"
        return ""
    if about == 0 and what != "lseek":
        wanted = (8, b"source fault\n", old)
    elif about == 1:
        wanted = (9, b"sink fault\n", new)
    else:
        wanted = (7, b"keeper fault\n", now)
    if (result.status, result.err, now) == wanted:
        return "" if result.out == b"" or about == 1 else "something was printed"
    is_as_usual = result == usual and now == new
    # A call that is made again, that another one stands in for, or whose answer nobody needs.
    if is_as_usual and (error in (errno.EINTR, errno.EACCES, errno.EROFS) or what in ("close", "lseek")):
        return ""
    if error == errno.ENOMEM and (result.status, result.out, result.err, now) == (10, b"", b"out of memory\n", old):
        return ""
    return "wanted status %d, line %r" % wanted[:2]


def session_judge(what, error, about, result, usual, old, now, new):
    """The same for a session, whose replies before the failure are there."""
    if not usual.out.startswith(result.out):
        return "replies that are none"
    if result == usual:
        return judge(what, error, about, result, usual, old, now, new)
    if about == 1 and now == old:
        new = old
    elif about == 1 and not result.out.endswith(b"hello\n"):
        return "stored, and an earlier reply failed"
    if result.status in (7, 8, 10):
        result = Result(result.status, b"", result.err)
    return judge(what, error, about, result, usual, old, now, new)


def one(room, kind, row, usual, new, what, calls):
    """Runs a command with a failure; judges it; and repeats it without one if the old file is left."""
    name, content, words, given, _, _ = row
    folder = before(room, kind, content, name == "new")
    result = room.run(folder, words, given, calls=calls)
    about = room.counts()[1]
    now = kept(folder)
    call, error = what
    judged = (session_judge if name == "session" else judge)(call, error, about, result, usual, content, now, new)
    where = "%s: %s, %s" % (kind, name, calls)
    room.check(where, not judged, judged, result)
    strange = set(os.listdir(folder)) - set(NAMES)
    room.check(where + ": other files", not strange, strange)
    if now == content and content != new and error in (errno.EIO, errno.ENOSPC):
        again = room.run(folder, words, given)
        room.check(where + ": the next time", (again, kept(folder)) == (usual, new), again, kept(folder))


def commands_of(kind):
    """The commands over a kind of folder: `new` makes no `replica.rls`."""
    return [row for row in COMMANDS if row[1] is not None or kind == "slots"]


def each_call(room, kind):
    """Each call fails in turn, once with each error, and from there on with one."""
    for row in commands_of(kind):
        usual, new, counts = plain(room, kind, row)
        for call, errors in ERRORS.items():
            for number in range(1, counts[call] + 1):
                for error in errors:
                    one(room, kind, row, usual, new, (call, error), {"FAIL": "%s:%d:%d" % (call, number, error)})
                if call not in ("close", "lseek", "statx"):
                    folder = before(room, kind, row[1], row[0] == "new")
                    result = room.run(folder, row[2], row[3], calls={"FAIL": "%s:%d+:%d" % (call, number, errno.EIO)})
                    now = kept(folder)
                    about = room.counts()[1]
                    statuses = {0: (8,), 1: (9,), 2: (usual.status,)}.get(about, (7,))
                    room.check("%s: %s, every %s from number %d on" % (kind, row[0], call, number), result.status in statuses and now in (row[1], new), result, now)


# What the program calls that tells nobody of files or streams and asks for no memory; and `__write`, by which its start says that the processor is too
# old.
HARMLESS = {"free", "memcpy", "memmove", "memset", "memcmp", "strlen", "__errno_location", "__libc_start_main", "__sysv_signal", "__x86_get_cpuid_feature_leaf", "__write",
            "__cxa_finalize", "__gmon_start__", "_ITM_deregisterTMCloneTable", "_ITM_registerTMCloneTable"}


def known_calls(room):
    """The preloaded library stands between the program and each function of the C library that it calls. One that it doesn't take would be neither
    failed nor recorded, and no test here would see it."""

    def names(path, kinds):
        lines = subprocess.run(["nm", "-D", path], capture_output=True, text=True, check=True).stdout.splitlines()
        return {line.split()[-1].split("@")[0] for line in lines if line.split()[-2] in kinds}

    called, taken = names(room.program, "Uw"), names(room.library, "TW")
    room.check("the program calls what writes", {"open", "write", "fsync", "rename", "malloc"} <= called, called)
    room.equal("calls of the program that the library doesn't take", called - taken - HARMLESS, set())


def short_calls(room):
    """Reads and writes that pass few bytes, and calls that a signal interrupts, change nothing."""
    for kind in KINDS:
        for row in commands_of(kind):
            usual, new, _ = plain(room, kind, row)
            for calls in ({"SHORT": 1}, {"SHORT": 3}, {"SHORT": 7}, {"INTERRUPT": 1}, {"INTERRUPT": 1, "SHORT": 1}):
                folder = before(room, kind, row[1], row[0] == "new")
                result = room.run(folder, row[2], row[3], calls=calls)
                room.equal("%s: %s, %s" % (kind, row[0], calls), (result, kept(folder)), (usual, new))


def full_disk(room):
    """The disk takes n more bytes, for each n."""
    for kind in KINDS:
        for row in commands_of(kind):
            name, content, words, given, _, _ = row
            usual, new, _ = plain(room, kind, row)
            if content == new:
                continue
            for free in range(1000):
                folder = before(room, kind, content, name == "new")
                result = room.run(folder, words, given, calls={"FULL": free})
                if room.counts()[1] is None:
                    break
                now = kept(folder)
                # A load of the slots renews the gate.
                out = usual.out[:-len(b"saved\n")] if name == "session" and (kind, free) != ("slots", 0) else b""
                room.equal("%s: %s, room for %d bytes" % (kind, name, free), (result, now), (Result(7, out, b"keeper fault\n"), content))
                if free % 5 == 0:
                    again = room.run(folder, words, given)
                    room.check("%s: %s, room for %d bytes: the next time" % (kind, name, free), (again, kept(folder)) == (usual, new), again)
            room.check("%s: %s was tried on a full disk" % (kind, name), 66 < free < 999, free)


def leftovers(room):
    """What an earlier store left behind, longer than the new file, stays nowhere in it."""
    for rest in (b"", b"x", HELLO + b"more", b"y" * 100000):
        folder = room.replica("file", FRESH, leftover={"replica.rls.new": rest})
        room.equal("replica.rls.new of %d bytes" % len(rest), (room.run(folder, ["edit"], SCRIPT), files_of(folder)), (Result(0, edits(1), b""), {"replica.rls": HELLO}))
        folder = room.replica("slots", FRESH, leftover={"replica.1": rest})
        room.equal("a slot of %d bytes" % len(rest), (room.run(folder, ["edit"], SCRIPT), kept(folder), room.text(folder)), (Result(0, edits(1), b""), HELLO, (0, b"hello", b"")))
        folder = room.replica("slots", None, leftover={"replica.0": rest, "replica.1": rest})
        room.equal("slots of %d bytes, and no gate" % len(rest), (room.text(folder), room.run(folder, ["new", "7", "0", "2"]), kept(folder)),
                   ((2, b"", b"no replica\n"), Result(0, b"new 7 0 2\n", b""), FRESH))
    for gate in range(256):
        files = {"replica.%d" % (gate % 2): len(HELLO).to_bytes(8, "big") + HELLO, "replica.%d" % (1 - gate % 2): b"torn", "replica.gate": bytes([gate])}
        folder = room.replica("slots", None, leftover=files)
        room.equal("gate %d" % gate, room.text(folder), (0, b"hello", b""))
        if gate % 16 < 2:
            room.equal("gate %d: stored" % gate, (room.run(folder, ["edit"], b"d 0 1\n").status, room.text(folder)), (0, (0, b"ello", b"")))
    # The three files aren't looked at where the folder has `replica.rls`.
    folder = room.replica("file", HELLO, leftover={"replica.0": b"", "replica.1": b"", "replica.gate": b"\0"})
    room.equal("both replicas", (room.text(folder), room.run(folder, ["edit"], b"d 0 5\n").status, files_of(folder)["replica.gate"]), ((0, b"hello", b""), 0, b"\0"))


def streams(room):
    """Closed streams, and devices that fail."""
    full, closed_all = "/dev/full", (0, 1, 2)
    rows = [
        ("text", b"", {"close": (1,)}, 9, b"sink fault\n", False), ("edit", SCRIPT, {"close": (0,)}, 8, b"source fault\n", False),
        ("edit", SCRIPT, {"close": (1,)}, 9, b"sink fault\n", True), ("edit", SCRIPT, {"output": full}, 9, b"sink fault\n", True),
        ("edit", SCRIPT, {"close": (2,)}, 0, b"", True), ("edit", SCRIPT, {"errors": full}, 0, b"", True),
        ("edit", b"bad", {"close": (2,)}, 4, b"", False), ("edit", b"bad", {"errors": full}, 4, b"", False),
        ("edit", b"i 9 x", {"close": (2,)}, 6, b"", False), ("text more", b"", {"errors": full}, 1, b"", False),
        ("take", HELLO_MESSAGE, {"close": (0,)}, 8, b"source fault\n", False), ("send 9", b"", {"close": (2,)}, 4, b"", False),
        ("text", b"", {"close": closed_all}, 9, b"", False), ("edit", SCRIPT, {"close": closed_all}, 8, b"", False),
        ("leave", b"", {"close": closed_all}, 9, b"", True), ("leave", b"", {"close": (0,)}, 0, b"", True),
        ("session", SCRIPT, {"close": (0,)}, 8, b"source fault\n", False), ("session", SCRIPT, {"close": (1,)}, 9, b"sink fault\n", False),
        ("session", SCRIPT, {"output": full}, 9, b"sink fault\n", False), ("session", SCRIPT, {"close": (2,)}, 0, b"", True),
        ("session", b"", {"output": full}, 9, b"sink fault\n", None), ("stat", b"", {"output": full}, 9, b"sink fault\n", False),
        ("ids", b"", {"output": full}, 9, b"sink fault\n", False), ("send 1", b"", {"output": full}, 9, b"sink fault\n", False),
        ("trial 42 1", b"", {"output": full}, 9, b"sink fault\n", False), ("trial 42 1", b"", {"close": (0, 2)}, 0, b"", False),
        ("new 7 2 2", b"", {"close": (0, 1)}, 4, b"bad me 2\n", False),
    ]
    for kind in KINDS:
        for words, given, how, status, errors, is_stored in rows:
            content = HELLO if words == "text" else FRESH
            folder = room.replica(kind, content)
            was = files_of(folder)
            result = room.run(folder, words.split(" "), given, **how)
            room.equal("%s: %s with %s" % (kind, words, how), (result.status, result.err), (status, errors))
            files = files_of(folder)
            room.check("%s: %s with %s: stored" % (kind, words, how), (kept_in(files) != content) if is_stored else files == was or is_stored is None and kept(folder) == content, files)
        folder = room.replica(kind, FRESH)
        room.run(folder, ["edit"], SCRIPT, close=closed_all[:2])
        room.check(kind + ": no output in the files", not any(b"edits" in data for data in files_of(folder).values()))
        # Where the numbers of closed streams can't be taken no file of the folder is opened: it would get such a number.
        for closed in ((0,), (1,), (2,), closed_all):
            for number in (1, 2, 3):
                for words in ("text", "edit", "leave"):
                    folder = room.replica(kind, HELLO)
                    was = files_of(folder)
                    result = room.run(folder, [words], SCRIPT, calls={"FAIL": "open:%d:%d" % (number, errno.EMFILE)}, close=closed)
                    room.check("%s: %s without %s, and no file can be opened" % (kind, words, closed), result.status == 7 and files_of(folder) == was, result)
    for how, status in (({"close": (1,)}, 9), ({"output": full}, 9), ({"close": closed_all}, 9), ({"close": (0,)}, 0), ({"close": (2,)}, 0)):
        folder = room.replica("slots", None)
        room.equal("new with %s" % how, (room.run(folder, ["new", "7", "0", "2"], **how).status, kept(folder)), (status, FRESH))


def others(room):
    """Who may read a replica and not write it reads it, and changes nothing. So in a folder that may not be written. Root becomes another
    user for that; anyone else takes the rights from its own files."""
    is_root = os.getuid() == 0

    def become_nobody():
        os.setgroups([])
        os.setgid(65534)
        os.setuid(65534)

    def by_nobody(folder, words, given=b""):
        done = subprocess.run([room.program] + words, input=given, capture_output=True, cwd=folder, check=False,
                              preexec_fn=become_nobody if is_root else None)
        return Result(done.returncode, done.stdout, done.stderr)

    os.chmod(room.top, 0o755)
    fault = Result(7, b"", b"keeper fault\n")
    for kind in KINDS:
        for folder_mode in (0o755, 0o555) if is_root else (0o555,):
            for file_mode, reads in ((0o644, True), (0o600, False)) if is_root else ((0o444, True), (0, False)):
                folder = room.replica(kind, HELLO)
                was = files_of(folder)
                for name in was:
                    os.chmod(os.path.join(folder, name), file_mode)
                os.chmod(folder, folder_mode)
                what = "%s, folder %o, files %o" % (kind, folder_mode, file_mode)
                room.equal(what + ": text", by_nobody(folder, ["text"]), Result(0, b"hello", b"") if reads else fault)
                room.equal(what + ": edit", by_nobody(folder, ["edit"], b"d 0 1\n"), fault)
                room.equal(what + ": leave", by_nobody(folder, ["leave"]), fault)
                room.equal(what + ": new", by_nobody(folder, ["new", "7", "0", "2"]), Result(2, b"", b"replica exists\n") if reads else fault)
                room.equal(what + ": session", by_nobody(folder, ["session"], b"i 0 x\n").status, 7)
                os.chmod(folder, 0o755)
                for name in was:
                    os.chmod(os.path.join(folder, name), 0o600)
                room.equal(what + ": the files", files_of(folder), was)
                put(folder, kind, None)
                os.chmod(folder, folder_mode)
                room.equal(what + ": an empty folder", (by_nobody(folder, ["new", "7", "0", "2"]), by_nobody(folder, ["text"]), files_of(folder)),
                           (fault, Result(2, b"", b"no replica\n"), {}))
                os.chmod(folder, 0o755)
    folder = room.replica("file", None)
    os.mkdir(os.path.join(folder, "replica.rls"))
    room.equal("a folder in place of replica.rls", (room.run(folder, ["text"]).status, room.run(folder, ["new", "7", "0", "2"]).status), (7, 7))
    folder = room.replica("slots", None)
    os.mkdir(os.path.join(folder, "replica.gate"))
    room.equal("a folder in place of the gate", (room.run(folder, ["text"]).status, room.run(folder, ["new", "7", "0", "2"]).status), (7, 7))


TESTS = [("calls-known", known_calls), ("calls-slots", lambda room: each_call(room, "slots")), ("calls-file", lambda room: each_call(room, "file")), ("short-calls", short_calls),
         ("full-disk", full_disk), ("leftovers", leftovers), ("streams", streams), ("other-users", others)]
