"""Sessions that store again and again, as editors do: after each `saved` the stored file is the one that was to be stored. Each call of the system
fails in turn, is short or interrupted, or is the last one before a kill; the disk is full after each byte; each request for memory is refused; and
after each call every state that a power failure may leave is opened. What is allowed goes on with each store: the file of the last `saved`, and from
the first call of a store on the next one too. What a session left is then worked on by a second one, over the same disk."""
import errno
import os
import subprocess
from failing import ERRORS
from forms import FRESH
from lost import LossyDisk
from room import KINDS, Result, kept, kept_in
from sessions import Model
from stops import TEXTS, Disk, Opener, begin, begins, judged

SAVED = b"saved\n"
LONGER = b"i 3 " + b"abcdefgh" * 10
# A line that is no request, and longer than what is read at a time: so input is read between stores, too. The last store is the one at the end.
NOTHING = b"x" * 5000
FIRST = [b"i 0 hello", b"t", b"w", b"d 0 2", NOTHING, LONGER, b"w", b"w", b"d 3 80", b"t", b"w", b"u", b"x", b"w", b"i 0 last"]
SECOND = [b"t", b"i 0 A", b"w", b"i 1 " + b"B" * 40, b"w", b"u", b"w"]


class Story:
    """A session: its input, its replies, and for each store the length of the replies before it, the text and the stored file after it. The first
    text and file are those from before; `seqs` counts this member's operations. Each file is what a session that ends there stores, so it comes of one store."""

    def __init__(self, room, kind, content, text, seq, requests):
        model = Model(text, seq)
        self.given, self.out, self.marks, self.texts, self.seqs, self.files = b"", b"", [], [text], [seq], [content]
        for request in requests:
            if request == b"w":
                self._store(room, kind, content, model)
            self.given += request + b"\n"
            self.out += model.reply(request) + b"\n"
        self._store(room, kind, content, model)
        self.out += SAVED

    def _store(self, room, kind, content, model):
        folder = room.replica(kind, content, "once")
        result = room.run(folder, ["session"], self.given.replace(b"w\n", b""))
        room.equal("a session of one store", result, Result(0, self.out.replace(SAVED, b"") + SAVED, b""))
        self.marks.append(len(self.out))
        self.texts.append(model.text)
        self.seqs.append(model.seq)
        self.files.append(kept(folder))
        TEXTS[self.files[-1]] = (0, model.text.encode(), b"")


def first(room, kind):
    return Story(room, kind, FRESH, "", 0, FIRST)


def next_to(done, story):
    """The files that may be there while the store after so many is made."""
    return set(story.files[done:done + 2])


# --- After each reply

def after_each(room):
    """What is stored is looked at after each `saved`, while the session goes on."""
    for kind in KINDS:
        story = first(room, kind)
        folder, out, done = room.replica(kind, FRESH), b"", 0
        os.chdir(folder)
        with subprocess.Popen([room.program, "session"], stdin=subprocess.PIPE, stdout=subprocess.PIPE, bufsize=0) as process:
            for line in story.given.splitlines(True):
                process.stdin.write(line)
                before, wanted = len(out), 1 + (line == b"t\n")
                while out[before:].count(b"\n") < wanted:
                    more = process.stdout.read(1)
                    if not room.check("%s: a reply to %r" % (kind, line[:40]), more, out[before:]):
                        process.kill()
                        return
                    out += more
                done += out[before:] == SAVED
                room.equal("%s: stored after %d bytes of replies" % (kind, len(out)), kept(folder), story.files[done])
                room.equal("%s: shown after %d bytes of replies" % (kind, len(out)), room.text(folder), (0, story.texts[done].encode(), b""))
            process.stdin.close()
            out += process.stdout.read()
            status = process.wait()
        room.equal(kind + ": the replies", (status, out), (0, story.out))
        room.equal(kind + ": the end", (kept(folder), done), (story.files[-1], len(story.files) - 2))
        names = {"replica.rls"} if kind == "file" else {"replica.0", "replica.1", "replica.gate"}
        room.equal(kind + ": the folder", set(os.listdir(folder)), names)


# --- Calls that fail

def wrong(story, result, now, about, what, error, plus=""):
    """What is wrong with a session of which a call failed, or an empty text. `about` is the stream of that call, 3 for anything else, and None if
    none failed. With a `plus` all later ones failed too, so that no line can be written."""
    if not story.out.startswith(result.out):
        return "replies that are none"
    if result == Result(0, story.out, b"") and now == story.files[-1]:
        # A call that is made again, that another one stands in for, or whose answer nobody needs.
        is_needed = about in (0, 1, 3) and error not in (errno.EINTR, errno.EACCES, errno.EROFS) and what not in ("close", "lseek")
        return "nothing was said of it" if is_needed else ""
    if about is None or about == 2:
        return "wanted as without the failure"
    done, out = result.out.count(SAVED), result.out
    if done == len(story.marks):
        return "all was stored, and it failed"
    all_before = len(out) >= story.marks[done]
    if (result.status, result.err) == (10, b"out of memory\n"):
        return "" if error == errno.ENOMEM and now == story.files[done] else "out of memory"
    if about == 0 and what != "lseek":
        wanted = (8, b"source fault\n", {story.files[done]})
    elif about == 1:
        wanted = (9, b"sink fault\n", {story.files[done + all_before]})
    else:
        wanted = (7, b"keeper fault\n", next_to(done, story))
        if out != story.out[:story.marks[done]] and (out, now) != (b"", story.files[0]):
            return "not all replies before the store"
    is_silent = plus and what == "write" and result.err == b""
    return "" if result.status == wanted[0] and (is_silent or result.err == wanted[1]) and now in wanted[2] else "wanted status %d, line %r, and the file of its store" % wanted[:2]


def goes_on(room, folder, story, now, what):
    """The next command works on the file that is there."""
    was = story.texts[story.files.index(now)].encode()
    done = room.run(folder, ["edit"], b"i 0 X\n")
    room.equal(what + ": the next command", (done.status, room.text(folder)), (0, (0, b"X" + was, b"")))


def plain(room, kind, story):
    """The session without a failure, and how often it makes each call."""
    folder = room.replica(kind, FRESH)
    result = room.run(folder, ["session"], story.given, calls={})
    counts = room.counts()[0]
    room.equal(kind + ": without a failure", (result, kept(folder)), (Result(0, story.out, b""), story.files[-1]))
    return counts


def each_call(room, kind):
    """Each call of each store fails in turn, with each error, and from there on with one."""
    story = first(room, kind)
    counts = plain(room, kind, story)
    for call, errors in ERRORS.items():
        for number in range(1, counts[call] + 1):
            for error, plus in [(error, "") for error in errors] + [(errno.EIO, "+")] * (call not in ("close", "lseek", "statx")):
                folder = room.replica(kind, FRESH)
                result = room.run(folder, ["session"], story.given, calls={"FAIL": "%s:%d%s:%d" % (call, number, plus, error)})
                about, now = room.counts()[1], kept(folder)
                what = "%s: %s %d%s, error %d" % (kind, call, number, plus, error)
                why = wrong(story, result, now, about, call, error, plus)
                if room.check(what, not why, why, result) and error in (errno.EIO, errno.ENOSPC):
                    goes_on(room, folder, story, now, what)


def pieces(room):
    """Calls that pass few bytes or are interrupted change nothing; a disk that is full after n bytes ends the session with the store that meets it."""
    for kind in KINDS:
        story = first(room, kind)
        for calls in ({"SHORT": 1}, {"SHORT": 3}, {"SHORT": 7}, {"INTERRUPT": 1}, {"INTERRUPT": 1, "SHORT": 1}):
            folder = room.replica(kind, FRESH)
            result = room.run(folder, ["session"], story.given, calls=calls)
            room.equal("%s: %s" % (kind, calls), (result, kept(folder)), (Result(0, story.out, b""), story.files[-1]))
        stores = set()
        for free in range(9000):
            folder = room.replica(kind, FRESH)
            result = room.run(folder, ["session"], story.given, calls={"FULL": free})
            about, now = room.counts()[1], kept(folder)
            if about is None:
                break
            done = result.out.count(SAVED)
            stores.add(done)
            why = wrong(story, result, now, about, "write", errno.ENOSPC)
            room.check("%s: room for %d bytes" % (kind, free), not why and now == story.files[done], why, result)
            if free % 50 == 0:
                goes_on(room, folder, story, now, "%s: room for %d bytes" % (kind, free))
        room.equal(kind + ": the disk was full in each store", stores, set(range(len(story.marks))))


def memory(room):
    """Each request for memory is refused: the file is the one of the last `saved`."""
    for kind in KINDS:
        story = first(room, kind)
        count = plain(room, kind, story)["memory"]
        last_silent = 7
        for number in range(1, count + 1):
            for plus in ("", "+") if number % 3 == 0 else ("",):
                folder = room.replica(kind, FRESH)
                result = room.run(folder, ["session"], story.given, calls={"FAIL": "memory:%d%s:12" % (number, plus)})
                now, done = kept(folder), result.out.count(SAVED)
                is_usual = result == Result(0, story.out, b"") and now == story.files[-1]
                is_silent = result == Result(10, b"", b"") and now == FRESH and number <= last_silent
                is_refused = (result.status, result.err) == (10, b"out of memory\n") and story.out.startswith(result.out) and now == story.files[done]
                room.check("%s: request %d%s is refused" % (kind, number, plus), is_usual or is_silent or is_refused, result)


# --- Power failures

class Player:
    """Plays what a session did to a disk, and stops after each call. `before` are the files that may be there until its first reply."""

    def __init__(self, room, opener, disk, story, before, what):
        self.room, self.opener, self.disk, self.story, self.what = room, opener, disk, story, what
        self.out, self.allowed = b"", set(before)

    def line(self, line):
        """One call. Answers whether what a stop may leave may have changed."""
        if line[0] == "reply":
            # The first reply comes after the load, and the first byte of `saved` after the store.
            was, is_first = self.out.count(SAVED), not self.out
            self.out += bytes.fromhex(line[1])
            done = self.out.count(SAVED)
            done += done < len(self.story.marks) and len(self.out) > self.story.marks[done]
            if is_first or done > was:
                self.allowed = {self.story.files[done]}
            return is_first or done > was
        if begins(line):
            self.allowed = next_to(self.out.count(SAVED), self.story)
        return self.disk.play(line)

    def is_right(self, what):
        return judged(self.room, self.opener, self.disk, self.allowed, "%s: %s" % (self.what, what))

    def play(self, lines, looks=True):
        """All calls. Answers whether each state that a stop leaves is allowed, or only the last ones."""
        for number, line in enumerate(lines):
            if self.line(line) and looks and not self.is_right("after call %d, %s" % (number, " ".join(line)[:60])):
                return False
        self.disk.open_files = {}
        return looks or self.is_right("at the end")


def ways(counts):
    """Each call after which the process is killed, or which fails."""
    for call, hows, error in (("write", ("half", "after"), 28), ("fsync", ("after",), 5), ("rename", ("after",), 5), ("open", ("after",), 5)):
        for number in range(1, counts[call] + 1):
            for how in hows:
                yield {"KILL": "%s:%d:%s" % (call, number, how)}
            yield {"FAIL": "%s:%d:%d" % (call, number, error)}


def stops(room, kind, make):
    """The whole session with a stop after each call; and then sessions that are killed at each call, or of which it fails, and after each another one
    over the disk that is left."""
    story, opener, others = first(room, kind), Opener(room), {}
    folder, disk = begin(room, kind, FRESH, {}, make)
    room.run(folder, ["session"], story.given, calls={"RECORD": room.record_path})
    counts, lines = room.counts()[0], room.record()
    room.check("each stop", Player(room, opener, disk, story, {FRESH}, "the first session").play(lines))
    if make is Disk:
        sees(room, kind, story, lines)
    for number, way in enumerate(ways(counts)):
        if len(room.failures) > 5:
            return
        folder, disk = begin(room, kind, FRESH, {}, make)
        room.run(folder, ["session"], story.given, calls=dict(way, RECORD=room.record_path))
        player = Player(room, opener, disk, story, {FRESH}, str(way))
        now = kept(folder)
        if not room.check("%s: a stop at once" % way, player.play(room.record(), False) and now in player.allowed, now):
            continue
        if now not in others:
            at = story.files.index(now)
            others[now] = Story(room, kind, now, story.texts[at], story.seqs[at], SECOND)
        again(room, opener, folder, disk, others[now], player.allowed, "%s, then another session" % way, number)
    room.check("many states were looked at", opener.count > 200, opener.count)


def again(room, opener, folder, disk, story, before, what, number):
    """Another session over what the first one left. Its stops are looked at after each call, if the number is one in three, and otherwise at its end."""
    result = room.run(folder, ["session"], story.given, calls={"RECORD": room.record_path})
    room.equal(what, (result, kept(folder)), (Result(0, story.out, b""), story.files[-1]))
    player = Player(room, opener, disk, story, before, what)
    room.check(what + ": each stop", player.play(room.record(), number % 3 == 0))


def sees(room, kind, story, lines):
    """Without one of the syncs of a later store the model finds a state that isn't allowed: so it sees what a store forgets. Two syncs of a load are
    there for what an earlier process left, and a store that follows another one finds nothing of that."""
    syncs = [number for number, line in enumerate(lines) if line[0] == "fsync"]
    noticed = []
    for number in syncs:
        _, disk = begin(room, kind, FRESH, {})
        player, found = Player(room, None, disk, story, {FRESH}, ""), False
        for at, line in enumerate(lines):
            if at != number and player.line(line) and any(image_content not in player.allowed for image_content in contents(disk)):
                found = True
                break
        noticed.append(found)
    # A store of the slots needs those of its slot and of its gate, and one of the file that of the file and that of the folder. Which of two equal
    # files is there doesn't matter.
    needed = sum(2 - (old == new) for old, new in zip(story.files, story.files[1:]))
    room.check("the syncs that are missed", sum(noticed) >= needed, noticed, needed)


def contents(disk):
    return (kept_in(image) for image in disk.images())


TESTS = [("stores-replies", after_each), ("stores-calls-slots", lambda room: each_call(room, "slots")), ("stores-calls-file", lambda room: each_call(room, "file")),
         ("stores-pieces", pieces), ("stores-memory", memory),
         ("stores-stops-slots", lambda room: stops(room, "slots", Disk)), ("stores-stops-file", lambda room: stops(room, "file", Disk)),
         ("stores-lost-slots", lambda room: stops(room, "slots", LossyDisk)), ("stores-lost-file", lambda room: stops(room, "file", LossyDisk))]
