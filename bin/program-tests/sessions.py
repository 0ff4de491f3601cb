"""Sessions through pipes: in pieces of 1, 7 and 4,096 bytes, ended at each byte, and with a peer that goes away. What is wanted is reckoned
by a small model of docs/SESSION.md, which knows the text, the cursor and the session's own edits, and no identifiers."""
import os
import random
import re
import select
import subprocess
import time
from forms import FRESH, HELLO, HELLO_MESSAGE, HELLO_OPERATION, at, fresh, ident, insertion, message, typed
from room import KINDS, Result, kept, short

NUMBER = "(0|[1-9][0-9]*)"
REQUESTS = [(re.compile(pattern + r"\Z", re.S), name) for pattern, name in (
    ("i %s (.*)" % NUMBER, "insert"), ("d %s %s" % (NUMBER, NUMBER), "delete"), ("k %s" % NUMBER, "cursor"), ("p", "place"), ("t", "text"),
    ("u", "undo"), ("s %s" % NUMBER, "send"), ("r", "rename"), ("w", "store"))]


class Model:
    """A session on the file HELLO of member 0 of 2."""

    def __init__(self, text="hello", seq=1):
        self.text, self.seq, self.cursor, self.entries = text, seq, 0, []

    def _insert(self, at_, text):
        self.text = self.text[:at_] + text + self.text[at_:]
        self.seq += 1
        if at_ < self.cursor:
            self.cursor += len(text)

    def _delete(self, at_, count):
        self.text = self.text[:at_] + self.text[at_ + count:]
        self.seq += 1
        if at_ < self.cursor:
            self.cursor = max(at_, self.cursor - count)

    def reply(self, line):
        """What a line is answered, without its line feed."""
        try:
            line = line.decode("utf-8")
        except UnicodeDecodeError:
            return b"bad"
        for pattern, name in REQUESTS:
            match = pattern.match(line)
            if match:
                return getattr(self, "on_" + name)(*match.groups())
        return b"bad"

    def on_insert(self, at_, text):
        if re.search(r"\\(?![nr\\])", re.sub(r"\\[nr\\]", "", text)) or "\n" in text:
            return b"bad"
        text = re.sub(r"\\([nr\\])", lambda found: {"n": "\n", "r": "\r", "\\": "\\"}[found.group(1)], text)
        if not text:
            return b"no empty edit"
        if int(at_) > len(self.text):
            return b"no range %d %d" % (int(at_), len(self.text))
        self._insert(int(at_), text)
        self.entries.append(("inserted", int(at_), text))
        return b"ok %d" % self.seq

    def on_delete(self, at_, count):
        at_, count = int(at_), int(count)
        if not count:
            return b"no empty edit"
        if at_ + count > len(self.text):
            return b"no range %d %d" % (at_, len(self.text))
        self.entries.append(("deleted", at_, self.text[at_:at_ + count]))
        self._delete(at_, count)
        return b"ok %d" % self.seq

    def on_rename(self):
        if not self.text:
            return b"no empty document"
        self.seq += 1
        return b"ok %d" % self.seq

    def on_cursor(self, at_):
        if int(at_) > len(self.text):
            return b"no range %d %d" % (int(at_), len(self.text))
        self.cursor = int(at_)
        return b"cursor %d" % self.cursor

    def on_place(self):
        return b"cursor %d" % self.cursor

    def on_text(self):
        bytes_ = self.text.encode()
        return b"text %d\n" % len(bytes_) + bytes_

    def on_undo(self):
        if not self.entries:
            return b"no nothing"
        what, at_, text = self.entries.pop()
        if what == "inserted":
            self._delete(at_, len(text))
        else:
            self._insert(at_, text)
        return b"undone 1 %d" % len(text)

    def on_store(self):
        return b"saved"

    def on_send(self, to):
        return b"no not a member %d" % int(to) if int(to) > 1 else None


SECOND = insertion(0, 2, (1, 0), typed(0, 1, -1), b"A")
SENT = message(7, 2, 0, (2, 0), [HELLO_OPERATION, SECOND])
THEIRS = message(7, 2, 1, (1, 1), [insertion(1, 1, (1, 0), ident(at(3221225471, 1, 1, 0)), "\u00e9Z".encode())])
WAITS = message(7, 2, 1, (1, 3), [insertion(1, 3, (1, 2), typed(1, 1, 0), b"w")])

# Requests, with the reply where the model has none, and what a message does to the text.
LONG = [
    (b"k 3", None, ""), (b"i 0 A", None, ""), (b"w", None, ""), (b"p", None, ""), (b"s 1", b"message %d\n" % len(SENT) + SENT, ""), (b"u", None, ""), (b"t", None, ""),
    (b"x", None, ""), (b"", None, ""), (b"p ", None, ""), (b"k 99", None, ""), (b"u", None, ""), (b"d 1 2", None, ""), (b"u", None, ""), (b"t", None, ""),
    ("i 5 \u00e9\\n\\\\".encode(), None, ""), (b"i 6 \\t", None, ""), (b"i 0 ", None, ""), (b"i 50 x", None, ""), (b"d 3 0", None, ""),
    (b"d 2 9", None, ""), (b"s 2", None, ""),
    (b"m %d\n" % len(THEIRS) + THEIRS, b"applied 1 released 0 repeated 0 held 0 refused 0", "\u00e9Z"),
    (b"m %d\n" % len(HELLO_MESSAGE) + HELLO_MESSAGE, b"applied 0 released 0 repeated 1 held 0 refused 0", ""),
    (b"m %d\n" % len(WAITS) + WAITS, b"applied 0 released 0 repeated 0 held 1 refused 0", ""), (b"w", None, ""), (b"w ", None, ""),
    (b"m 3\nabc", b"no malformed at 0", ""), (b"m 0\n", b"no malformed at 0", ""), (b"r", None, ""), (b"w", None, ""), (b"t", None, ""), (b"i 0 last", None, ""),
]
EXAMPLE = [(line, None, "") for line in (b"k 3", b"i 0 A", b"p", b"u", b"t")]
EXAMPLE_REPLIES = b"cursor 3\nok 2\ncursor 4\nundone 1 1\ntext 5\nhello\nsaved\n"


def is_message(request):
    return re.match(rb"m (0|[1-9][0-9]*)\n", request) is not None


def played(requests):
    """The input of some requests, and for each the length of the input and the output after it, and the text."""
    model, given, wanted, steps = Model(), b"", b"", []
    for request, reply, appended in requests:
        given += request if is_message(request) else request + b"\n"
        if reply is None:
            reply = model.reply(request)
        model.text += appended
        wanted += reply + b"\n"
        steps.append((len(given), len(wanted), model.text))
    return given, wanted, steps


def talk(room, folder, given, wanted, steps, piece):
    """Talks to a session in pieces: each request that was sent whole has its reply before more is sent. Answers what went otherwise."""
    os.chdir(folder)
    with subprocess.Popen([room.program, "session"], stdin=subprocess.PIPE, stdout=subprocess.PIPE, stderr=subprocess.PIPE, bufsize=0) as process:
        out = b""
        try:
            for begin in range(0, len(given), piece):
                try:
                    process.stdin.write(given[begin:begin + piece])
                except BrokenPipeError:
                    # It may have ended once all was answered: what comes after `q` has no reader.
                    if out != wanted:
                        raise
                    break
                sent = min(begin + piece, len(given))
                due = max([length for end, length, _ in steps if end <= sent], default=0)
                while len(out) < due:
                    if not select.select([process.stdout], [], [], 30)[0]:
                        process.kill()
                        return "%d bytes of input have no reply: %s" % (sent, short(out[-40:]))
                    more = os.read(process.stdout.fileno(), 65536)
                    if not more:
                        return "it ended after %d bytes: %s" % (sent, process.stderr.read())
                    out += more
                if out != wanted[:due]:
                    return "after %d bytes: wanted %s, found %s" % (sent, short(wanted[:due][-60:]), short(out[-60:]))
            process.stdin.close()
            rest = process.stdout.read()
            errors = process.stderr.read()
            status = process.wait(60)
        except (BrokenPipeError, subprocess.TimeoutExpired) as error:
            process.kill()
            return repr(error)
    found = Result(status, out + rest, errors)
    return "" if found == Result(0, wanted, b"") else short(found)


def pieces(room):
    """The same conversation in pieces of several sizes."""
    many = LONG[:-1] + [(b"i %d some words of a text that is typed" % k, None, "") for k in range(200)] + [(b"t", None, "")] * 3
    for kind in KINDS:
        for requests, sizes in ((EXAMPLE, (1, 7, 4096)), (LONG, (1, 7, 4096)), (many, (1, 7, 512, 4095, 4096, 4097, 65536))):
            given, wanted, steps = played(requests)
            for size in sizes:
                for end in (b"", b"q\n", b"q\ni 0 lost\n"):
                    if end and size not in (7, 4096):
                        continue
                    folder = room.replica(kind, HELLO)
                    saved = [(len(given) + 2, len(wanted) + 6, "")] if end else []
                    wrong = talk(room, folder, given + end, wanted + b"saved\n", steps + saved, size)
                    if not room.check("%s: %d requests in pieces of %d bytes, end %r" % (kind, len(requests), size, end), not wrong, wrong):
                        break
                    room.equal("%s: the text after it" % kind, room.text(folder), (0, steps[-1][2].encode(), b""))
    given, wanted, _ = played(EXAMPLE)
    room.equal("the page's conversation", wanted + b"saved\n", EXAMPLE_REPLIES)


def ended(room):
    """The input ends at each byte: each whole request has its reply, the rest is a line too, and what was edited is stored."""
    given, wanted, steps = played(LONG)
    for kind in KINDS:
        for length in range(len(given) + 1):
            whole = [request for request, (end, _, _) in zip(LONG, steps) if end <= length]
            begin = steps[len(whole) - 1][0] if whole else 0
            rest = given[begin:length]
            model = Model()
            out = b""
            for request, reply, appended in whole:
                out += (model.reply(request) if reply is None else reply) + b"\n"
                model.text += appended
            if rest:
                next_one = LONG[len(whole)]
                if rest == b"m 0":
                    out += b"no malformed at 0\n"
                elif rest == next_one[0] and next_one[1] is not None and not is_message(rest):
                    out += next_one[1] + b"\n"
                else:
                    out += model.reply(rest) + b"\n"
            folder = room.replica(kind, HELLO)
            found = room.run(folder, ["session"], given[:length])
            room.equal("%s: ended after %d bytes" % (kind, length), found, Result(0, out + b"saved\n", b""))
            if kind == "slots" or length % 7 == 0:
                room.equal("%s: ended after %d bytes: the text" % (kind, length), room.text(folder), (0, model.text.encode(), b""))


def edges(room):
    """What is read, what isn't, and what a peer that goes away leaves."""
    folder = room.replica("slots", HELLO)
    with open(room.in_path, "wb") as file:
        file.write(b"i 0 x\nq\n" + b"y" * 20000)
    shared = os.open(room.in_path, os.O_RDONLY)
    os.chdir(folder)
    done = subprocess.run([room.program, "session"], stdin=shared, capture_output=True)
    room.check("at most 4,096 bytes are read, and none after q", (done.returncode, done.stdout) == (0, b"ok 2\nsaved\n") and 0 < os.lseek(shared, 0, 1) <= 4096,
               (done, os.lseek(shared, 0, 1)))
    os.close(shared)

    for kind in KINDS:
        # Nobody reads the replies any more.
        folder = room.replica(kind, HELLO)
        os.chdir(folder)
        reader, writer = os.pipe()
        os.close(reader)
        done = subprocess.run([room.program, "session"], input=b"i 0 x\nq\n", stdout=writer, stderr=subprocess.PIPE, check=False)
        os.close(writer)
        room.equal(kind + ": a reply that nobody reads", (done.returncode, done.stderr, kept(folder)), (9, b"sink fault\n", HELLO))
        # A command's report that nobody reads.
        reader, writer = os.pipe()
        os.close(reader)
        done = subprocess.run([room.program, "edit"], input=b"d 0 5\n", stdout=writer, stderr=subprocess.PIPE, check=False)
        os.close(writer)
        room.equal(kind + ": a report that nobody reads", (done.returncode, done.stderr, room.text(folder)), (9, b"sink fault\n", (0, b"", b"")))
        # A session that is killed before its end has stored nothing.
        folder = room.replica(kind, HELLO)
        os.chdir(folder)
        with subprocess.Popen([room.program, "session"], stdin=subprocess.PIPE, stdout=subprocess.PIPE, bufsize=0) as process:
            process.stdin.write(b"i 0 lost\n")
            reply = process.stdout.readline()
            process.kill()
        room.equal(kind + ": a session that is killed", (reply, kept(folder)), (b"ok 2\n", HELLO))
        # What was answered isn't stored before the end.
        with subprocess.Popen([room.program, "session"], stdin=subprocess.PIPE, stdout=subprocess.PIPE, bufsize=0) as process:
            process.stdin.write(b"i 5 !\n")
            reply = process.stdout.readline()
            before = kept(folder)
            process.stdin.close()
            rest = process.stdout.read()
        room.equal(kind + ": stored at the end alone", (reply, before, rest, room.text(folder)), (b"ok 2\n", HELLO, b"saved\n", (0, b"hello!", b"")))
        folder = room.replica(kind, FRESH)
        room.equal(kind + ": a text of no character", room.run(folder, ["session"], b"t\nq"), Result(0, b"text 0\n\nsaved\n", b""))


def stored(room):
    """What `w` stored is there after a kill, whenever it comes: the file of the last `saved`, or the one that was being stored."""
    seeded = random.Random(42)
    for kind in KINDS:
        for turn in range(40):
            folder = room.replica(kind, HELLO)
            os.chdir(folder)
            with subprocess.Popen([room.program, "session"], stdin=subprocess.PIPE, stdout=subprocess.PIPE, bufsize=0) as process:
                stores = seeded.randrange(6)
                for _ in range(stores):
                    process.stdin.write(b"i 0 A\nw\n")
                    process.stdout.readline()
                    process.stdout.readline()
                process.stdin.write(b"i 0 A\n" if turn % 2 else b"i 0 A\nw\n")
                time.sleep(seeded.random() * 0.004)
                process.kill()
            most = stores if turn % 2 else stores + 1
            found = room.text(folder)
            room.check("%s: killed after %d stores, turn %d" % (kind, stores, turn), found[0] == 0 and found[1] in {b"A" * n + b"hello" for n in (stores, most)}, found)
        # The numbers are those of `stat`, and a store leaves what the end leaves.
        folder = room.replica(kind, HELLO)
        numbers = room.run(folder, ["stat"], b"").out
        room.equal(kind + ": the numbers", room.run(folder, ["session"], b"n\n"), Result(0, b"stat %d\n%s\nsaved\n" % (len(numbers), numbers), b""))
        room.run(folder, ["session"], b"i 2 x\nr\nd 0 1\n")
        at_end = kept(folder)
        folder = room.replica(kind, HELLO)
        os.chdir(folder)
        with subprocess.Popen([room.program, "session"], stdin=subprocess.PIPE, stdout=subprocess.PIPE, bufsize=0) as process:
            process.stdin.write(b"i 2 x\nr\nd 0 1\nw\n")
            replies = [process.stdout.readline() for _ in range(4)]
            at_store = kept(folder)
            process.kill()
        room.equal(kind + ": a store leaves what the end leaves", (replies, at_store), ([b"ok 2\n", b"ok 3\n", b"ok 4\n", b"saved\n"], at_end))


def piped(room):
    """`edit` and `take` read a pipe to its end, in whatever pieces it comes, and a file from where it stands."""
    script = b"".join(b"i %d some words %d;\n" % (0, k) for k in range(400))
    wanted = b"".join(b"some words %d;" % k for k in reversed(range(400)))
    for kind in KINDS:
        for words, given, content, text, report in ((["edit"], script, FRESH, wanted, b"edits 400 released 0 refused 0\n"),
                                                    (["take"], HELLO_MESSAGE, fresh(1), b"hello", b"applied 1 released 0 repeated 0 held 0 refused 0\n")):
            for piece in (1, 7, 4096):
                folder = room.replica(kind, content)
                os.chdir(folder)
                with subprocess.Popen([room.program] + words, stdin=subprocess.PIPE, stdout=subprocess.PIPE, stderr=subprocess.PIPE, bufsize=0) as process:
                    for begin in range(0, len(given), piece):
                        process.stdin.write(given[begin:begin + piece])
                    process.stdin.close()
                    found = Result(0, process.stdout.read(), process.stderr.read())
                    found.status = process.wait()
                room.equal("%s: %s in pieces of %d bytes" % (kind, words[0], piece), (found, room.text(folder)), (Result(0, report, b""), (0, text, b"")))
            folder = room.replica(kind, content)
            with open(room.in_path, "wb") as file:
                file.write(b"what stands before it\n" + given)
            with open(room.in_path, "rb", buffering=0) as file:
                file.seek(22)
                done = subprocess.run([room.program] + words, stdin=file, capture_output=True, cwd=folder, check=False)
            room.equal("%s: %s behind other input" % (kind, words[0]), (done.returncode, done.stdout, room.text(folder)), (0, report, (0, text, b"")))


TESTS = [("piped", piped), ("session-pieces", pieces), ("session-ended", ended), ("session-edges", edges), ("session-stores", stored)]
