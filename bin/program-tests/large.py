"""Large sessions, and large files that fail. Insertions of one character and of 1,048,576, thousands of edits with undo and redo, replies and messages
of 60 MB, and 100,000 runs, each in one session with stores in between; and stores of files of 1, 20 and 200 MB whose calls fail, that are killed, or
that a power failure stops."""
import errno
import random
from commands import edits, took
from forms import FRESH, LIMIT_INPUT, LIMIT_INSERTION, fresh, insertion, message, run, text, typed
from room import KINDS, Result, Skip, files_of, kept, memory_available
from sizes import FOUR, apart, sole
from stops import TEXTS, Disk, Opener, follow, judged

SAVED = b"saved\n"


def shown(text_):
    """The reply to `t`."""
    return b"text %d\n%s\n" % (len(text_), text_)


class Talk:
    """A session of a sole member: its input and its replies, and the texts before each of its groups. Positions count characters."""

    def __init__(self):
        self.given, self.out, self.text, self.seq, self.back, self.again = [], [], "", 0, [], []

    def ask(self, line, reply):
        self.given.append(line + b"\n")
        self.out.append(reply if reply.endswith(b"\n") else reply + b"\n")

    def edit(self, at, count, new):
        """A deletion or an insertion, which is a step of the open group."""
        self.seq += 1
        self.text = self.text[:at] + new + self.text[at + count:]
        self.ask(b"i %d %s" % (at, new.encode()) if new else b"d %d %d" % (at, count), b"ok %d" % self.seq)

    def group(self, *changes):
        """A group of edits, as one press of the undo key takes it back."""
        self.back.append((self.text, len(changes)))
        for change in changes:
            self.edit(*change)
        self.again = []
        self.ask(b"g", b"groups %d 0" % len(self.back))

    def _turn(self, line, word, from_, to):
        before, steps = from_.pop()
        to.append((self.text, steps))
        self.text = before
        self.ask(line, b"%s %d" % (word, steps))

    def undo(self):
        self._turn(b"z", b"back", self.back, self.again)

    def redo(self):
        self._turn(b"y", b"again", self.again, self.back)

    def show(self):
        self.ask(b"t", shown(self.text.encode()))

    def store(self):
        self.ask(b"w", SAVED)

    def play(self, room, what, folder):
        given, out = b"".join(self.given), b"".join(self.out) + SAVED
        room.equal(what + ": the replies", room.run(folder, ["session"], given), Result(0, out, b""))
        room.equal(what + ": the text after it", room.run(folder, ["text"]), Result(0, self.text.encode(), b""))


def long_edits(room):
    """Insertions of 1, 10,000 and 1,048,576 characters and deletions of as many, taken back and made again, over stores."""
    for kind in KINDS:
        talk, most = Talk(), LIMIT_INSERTION
        talk.group((0, 0, "a"))
        talk.group((1, 0, "b" * 10000), (5000, 0, "c"))
        talk.group((5000, 0, "\U0001f600" * most))
        talk.store()
        talk.show()
        talk.group((0, 1, ""), (2000, 10000, ""))
        talk.group((100, most - 20000, ""))
        talk.show()
        talk.store()
        talk.group((0, 0, "d" * most))
        for number in range(3):
            talk.undo()
            talk.show()
            talk.store()
        for number in range(3):
            talk.undo()
        talk.ask(b"z", b"no nothing")
        talk.show()
        for number in range(6):
            talk.redo()
            if number % 2:
                talk.store()
        talk.ask(b"y", b"no nothing")
        talk.show()
        talk.play(room, kind, room.replica(kind, fresh(0, 1)))


def many_edits(room):
    """20,000 edits with stores in between; then 990 groups of ten are taken back and made again."""
    seeded = random.Random(20000)
    for kind in KINDS:
        talk = Talk()

        def change():
            length = len(talk.text)
            at = seeded.randrange(length + 1)
            if length > 3000 or (length and seeded.random() < 0.4):
                at = min(at, length - 1)
                return at, min(1 + seeded.randrange(8), length - at), ""
            return at, 0, "abcdefghij\u00e9\U0001f600"[seeded.randrange(8):][:1 + seeded.randrange(6)]

        for number in range(2000):
            # Each edit of a group is one of the text that the ones before it leave.
            talk.back.append((talk.text, 10))
            for _ in range(10):
                talk.edit(*change())
            talk.given.append(b"g\n")
            talk.out.append(None)
            if number % 400 == 399:
                talk.store()
        before = len(talk.out)
        for number in range(990):
            talk.undo()
            if number % 330 == 329:
                talk.show()
                talk.store()
        for number in range(990):
            talk.redo()
        talk.show()
        given = b"".join(talk.given)
        folder = room.replica(kind, fresh(0, 1))
        found = room.run(folder, ["session"], given)
        # How many groups are kept isn't promised but for the newest: those replies are looked at by their first word.
        lines, wanted = found.out.split(b"\n"), b"".join(b"groups\n" if one is None else one for one in talk.out) + SAVED
        out = b"\n".join(b"groups" if line.startswith(b"groups ") else line for line in lines)
        room.equal(kind + ": 20,000 edits and their undo", Result(found.status, out, found.err), Result(0, wanted, b""))
        room.equal(kind + ": the text after them", room.run(folder, ["text"]), Result(0, talk.text.encode(), b""))
        room.check(kind + ": they were many", before > 22000 and talk.seq == 20000, before)


def messages(room):
    """Messages and replies of 1, 5 and 60 MB, each in one session of each member, with stores in between."""
    blocks = [b"x" * LIMIT_INSERTION] + [FOUR * LIMIT_INSERTION] * 14
    operations = [insertion(0, 1 + k, (k, 0), typed(0, 1, LIMIT_INSERTION * k), block) for k, block in enumerate(blocks)]
    ada, ben, ada_out, ben_out = b"", b"", b"", b""
    for count, known in ((1, 0), (2, 1), (15, 2)):
        sent = message(7, 2, 0, (count, 0), operations[:count])
        for k in range(known, count):
            ada += b"i %d %s\n" % (LIMIT_INSERTION * k, blocks[k])
            ada_out += b"ok %d\n" % (1 + k)
        ada, ada_out = ada + b"s 1\nw\n", ada_out + b"message %d\n" % len(sent) + sent + b"\n" + SAVED
        ben, ben_out = ben + b"m %d\n" % len(sent) + sent + b"t\nw\n", ben_out + took(count - known, repeated=known) + shown(b"".join(blocks[:count])) + SAVED
    room.check("the greatest message has 60 MB", 60000000 > len(sent) > 55000000 and len(sent) < LIMIT_INPUT, len(sent))
    for kind, other in (KINDS, KINDS[::-1]):
        folders = room.replica(kind, FRESH, "ada"), room.replica(other, fresh(1), "ben")
        room.equal(kind + ": messages of 1, 5 and 60 MB are made", room.run(folders[0], ["session"], ada), Result(0, ada_out + SAVED, b""))
        room.equal(other + ": and taken", room.run(folders[1], ["session"], ben), Result(0, ben_out + SAVED, b""))
        room.equal(other + ": they are stored", room.run(folders[1], ["text"]).out == b"".join(blocks), True)


def many_runs(room):
    """100,000 runs: `ids`, `stat`, and in one session `n`, `t`, edits with undo and redo, and stores."""
    lots, letters = 100000, b"abcdefghij"
    content, all_ = sole(1, 20 * lots, apart(lots, letters, 20), lots), letters * lots
    ids = b'{"epoch":null,"runs":[%s]}\n' % b",".join(b'{"first":[[2147483647,0,1,%d]],"length":10}' % (20 * k) for k in range(lots))
    stat = b"group 7\nme 0\nmembers 1\naccepted %d\ntotal %d\nruns %d\nheld 0\nunstable 0\nepochs 1\nformer 0\n"
    rest = all_[:5] + all_[400005:]
    asked = [
        (b"n", stat % (1, 10 * lots, lots)), (b"t", None), (b"d 5 400000", b"ok 2\n"), (b"w", SAVED), (b"n", stat % (2, 10 * lots - 400000, lots - 40000 + 1)),
        (b"t", rest), (b"z", b"back 1\n"), (b"t", all_), (b"w", SAVED), (b"y", b"again 1\n"), (b"w", SAVED), (b"r", b"ok 5\n"), (b"t", rest),
        (b"n", stat % (5, 10 * lots - 400000, 1)), (b"i 7 xy", b"ok 6\n"), (b"u", b"undone 1 2\n"),
    ]
    given, out = b"", b""
    for line, reply in asked:
        given += line + b"\n"
        if line == b"n":
            reply = b"stat %d\n%s\n" % (len(reply), reply)
        out += shown(reply or all_) if line == b"t" else reply
    for kind in KINDS:
        folder = room.replica(kind, content)
        room.equal(kind + ": ids of 100,000 runs", room.run(folder, ["ids"]), Result(0, ids, b""))
        room.equal(kind + ": stat of 100,000 runs", room.run(folder, ["stat"]), Result(0, stat % (1, 10 * lots, lots), b""))
        room.equal(kind + ": a session of 100,000 runs", room.run(folder, ["session"], given), Result(0, out + SAVED, b""))
        room.equal(kind + ": its text", room.run(folder, ["text"]), Result(0, rest, b""))


# --- Large files that fail

def file_of(size):
    """A stored file with a text of so many bytes in one run, and what is in it."""
    letters = b"abcdefgh" * (size // 8)
    return sole(1, len(letters), [run(typed(0, 1, 0), len(letters)) + text(letters)]), letters


SCRIPT = b"i 3 more\n"


def failures(room):
    """A store of 1, 20 and 200 MB is killed in the middle of each call, or the call fails, or the disk is full: the old file is there or the new one."""
    for size, is_every in ((1 << 20, True), (20 << 20, True), (200 << 20, False)):
        if memory_available() < 16 * size:
            raise Skip("a file of %d MB takes %d MB of memory here" % (size >> 20, 16 * size >> 20))
        content, letters = file_of(size)
        for kind in KINDS:
            folder = room.replica(kind, content)
            room.equal("%s: %d MB" % (kind, size >> 20), room.run(folder, ["edit"], SCRIPT, calls={}), Result(0, edits(1), b""))
            counts, new = room.counts()[0], kept(folder)
            room.equal("%s: %d MB: the text" % (kind, size >> 20), room.run(folder, ["text"]), Result(0, letters[:3] + b"more" + letters[3:], b""))
            ways = [{"KILL": "write:%d:half" % number} for number in range(1, counts["write"] + 1)]
            ways += [{"FAIL": "%s:%d:%d" % (call, number, errno.EIO)} for call in ("write", "fsync", "rename") for number in range(1, counts[call] + 1)]
            ways += [{"FULL": len(content) // 2}, {"FULL": len(content) - 1}]
            # (of slots the fourth write is the one of the file)
            for way in ways if is_every else [ways[number] for number in (3 if kind == "slots" else 0, len(ways) // 2, -1)]:
                fails(room, kind, content, new, way)


def fails(room, kind, content, new, way):
    folder = room.replica(kind, content)
    result = room.run(folder, ["edit"], SCRIPT, calls=way)
    about, now = room.counts()[1], kept(folder)
    what = "%s: %d bytes, %s" % (kind, len(content), way)
    if "KILL" in way:
        room.check(what, result.status == 1009 and now in (content, new), result.status, now == content)
    elif about == 1:
        room.check(what, (result.status, result.err) == (9, b"sink fault\n") and now == new, result)
    else:
        room.check(what, result == Result(7, b"", b"keeper fault\n") and now in (content, new), result)
        room.check(what + ": no new file on a full disk", "FULL" not in way or now == content)


def stops(room):
    """Power failures in a store of 1 MB and of 20 MB, after each call."""
    for size in (1 << 20, 20 << 20):
        content, letters = file_of(size)
        for kind in KINDS:
            opener = Opener(room)
            folder = room.replica(kind, content)
            disk = Disk(files_of(folder))
            result = room.run(folder, ["edit"], SCRIPT, calls={"RECORD": room.record_path})
            new = kept(folder)
            TEXTS[content], TEXTS[new] = (0, letters, b""), (0, letters[:3] + b"more" + letters[3:], b"")
            what = "%s: %d MB" % (kind, size >> 20)
            room.equal(what, (result, room.text(folder)), (Result(0, edits(1), b""), TEXTS[new]))
            right = follow(room, opener, disk, room.record(), {content}, {content, new}, what)
            room.check(what + ": each stop", right)
            room.check(what + ": a stop after it", judged(room, opener, disk, {new}, what + ": a stop after status 0"))
            room.check(what + ": many states", opener.count > 5, opener.count)
            opener.shown.clear()


TESTS = [("long-edits", long_edits), ("many-edits", many_edits), ("large-messages", messages), ("session-runs", many_runs), ("large-failures", failures),
         ("large-stops", stops)]
