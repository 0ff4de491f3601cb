"""Want of memory. Each request of a command for memory is refused in turn, alone or with all after it: the status is 10 and nothing was printed
or stored, or all is as without it. And requests that nothing justifies: a few bytes that tell large numbers, data as deep as it is long."""
import random
from commands import HELLO_1, IDS, STAT, TRIAL_12, edits, took
from forms import (FRESH, HELLO, HELLO_MESSAGE, HELLO_OPERATION, JOURNAL, ORIGIN, at, deletion, epoch, file4, fresh, head, i32, ident, insertion, message,
                   operation, run, runs, text, typed, u32, u64, vector)
from room import KINDS, USAGE, Result, kept

HUGE = 4000000000
MANY = 0xFFFFFFFF
SESSION = b"k 3\ni 0 A\np\nu\nt\nd 1 2\nr\ns 1\nm 81\n" + HELLO_MESSAGE + b"i 9 z\nu\nx\n"


def refused(room, what, kind, content, words, given, usual, numbers=None, is_session=False):
    """Lets each request be refused, or those with these numbers. Without that the command ends as `usual` says; then a refusal leaves that, or the
    status 10."""
    folder = room.replica(kind, content)
    found = room.run(folder, words, given, calls={})
    if not room.equal("%s: %s without a refusal" % (kind, what), found, usual):
        return
    count, new = room.counts()[0]["memory"], kept(folder)
    room.check("%s: %s asks for memory" % (kind, what), count > 2, count)
    # Where there is no memory for the words, nothing at all is written: that takes some requests for each word, which are the first.
    wrong, last_silent = 0, 3 + 4 * len(words)
    for number in numbers(count) if numbers else range(1, count + 1):
        for plus in ("", "+") if number % 3 == 0 else ("",):
            folder = room.replica(kind, content)
            result = room.run(folder, words, given, calls={"FAIL": "memory:%d%s:12" % (number, plus)})
            now = kept(folder)
            if result == usual and now == new:
                right = True
            elif result == Result(10, b"", b"") and now == content and number <= last_silent:
                right = True
            else:
                last_silent = 0
                out_is_right = usual.out.startswith(result.out) and b"saved" not in result.out if is_session else result.out == b""
                right = (result.status, result.err, now) == (10, b"out of memory\n", content) and out_is_right
            if not room.check("%s: %s, request %d%s is refused" % (kind, what, number, plus), right, result):
                wrong += 1
                if wrong > 5:
                    return


def small(room):
    """All requests of small commands."""
    in_groups = takes_in_groups(room)
    for kind in KINDS:
        # No keeper takes memory for a store, so most commands are tried over one of them.
        rows = [
            ("edit", HELLO, ["edit"], b"i 2 XY\nr\nd 0 1\nb 3\ni 0 A\n", done(edits(5))), ("text", HELLO, ["text"], b"", done(b"hello")),
            ("ids", HELLO, ["ids"], b"", done(IDS)), ("stat", HELLO, ["stat"], b"", done(STAT)),
            ("send", HELLO, ["send", "1"], b"", done(HELLO_MESSAGE)), ("take", fresh(1), ["take"], HELLO_MESSAGE, done(took(1))),
            ("take again", HELLO_1, ["take"], HELLO_MESSAGE, done(took(repeated=1))), ("leave", HELLO, ["leave"], b"", done(edits(1))),
            ("a journal", JOURNAL, ["edit"], b"i 5 !\n", done(edits(1))), ("a bad line", HELLO, ["edit"], b"i 0 A\nq\n", Result(4, b"", b"bad line 2\n")),
            ("a refused line", HELLO, ["edit"], b"i 0 A\ni 9 x\n", Result(6, b"", b"line 2: range 9 6\n")),
            ("a damaged file", HELLO[:90], ["text"], b"", Result(3, b"", b"damaged at 87\n")),
            ("no message", HELLO, ["take"], b"hello", Result(4, b"", b"malformed at 0\n")), ("trial", HELLO, ["trial", "42", "12"], b"", done(TRIAL_12)),
        ] + in_groups
        for what, content, words, given, usual in rows if kind == "file" else rows[1:2] + rows[5:6]:
            refused(room, what, kind, content, words, given, usual)
        given, out = (SESSION, replies(room)) if kind == "file" else (b"i 0 A\nu\n", b"ok 2\nundone 1 1\nsaved\n")
        refused(room, "session", kind, HELLO, ["session"], given, done(out), is_session=True)
    refused(room, "new", "slots", None, ["new", "7", "0", "2"], b"", done(b"new 7 0 2\n"))
    refused(room, "no replica", "slots", None, ["text"], b"", Result(2, b"", b"no replica\n"))
    refused(room, "no command", "slots", None, ["nonsense"], b"", Result(1, b"", USAGE))


def done(out):
    return Result(0, out, b"")


def replies(room):
    """The replies to SESSION. The message is the one that `send` writes of the same text."""
    folder = room.replica("file", HELLO, "other")
    room.run(folder, ["edit"], b"i 0 A\nd 0 1\nd 1 2\nr\n")
    sent = room.run(folder, ["send", "1"]).out
    return (b"cursor 3\nok 2\ncursor 4\nundone 1 1\ntext 5\nhello\nok 4\nok 5\nmessage %d\n" % len(sent) + sent + b"\n" + took(repeated=1)
            + b"no range 9 3\nundone 1 2\nbad\nsaved\n")


def takes_in_groups(room):
    """Two members who rename at the same time, and three of whom two acknowledge: the last take of each."""
    folders = [room.replica("slots", HELLO, "ada"), room.replica("slots", HELLO_1, "ben")]
    room.run(folders[0], ["edit"], b"r\n")
    room.run(folders[1], ["edit"], b"r\n")
    room.run(folders[0], ["edit"], b"i 2 A\n")
    room.run(folders[1], ["edit"], b"i 2 B\n")
    from_ben = room.run(folders[1], ["send", "0"]).out
    rows = [("concurrent renames", kept(folders[0]), ["take"], from_ben, done(took(2)))]
    room.run(folders[0], ["take"], from_ben)
    # (what both wrote at one place comes in the order of their numbers)
    rows.append(("text after them", kept(folders[0]), ["text"], b"", done(b"heABllo")))
    three = [room.replica("slots", fresh(k, 3), "of3-%d" % k) for k in range(3)]
    room.run(three[0], ["edit"], b"i 0 hello\ni 2 XY\nr\n")
    for member in (1, 2):
        room.run(three[member], ["take"], room.run(three[0], ["send", str(member)]).out)
    room.run(three[0], ["take"], room.run(three[1], ["send", "0"]).out)
    rows.append(("the last acknowledgement", kept(three[0]), ["take"], room.run(three[2], ["send", "0"]).out, done(took())))
    return rows


def large(room):
    """A sample of the requests of larger commands."""
    lots = 5000
    many = file4(7, 1, 0, (1,), [], [[(1, 0, 20 * lots)]], b"".join(run(typed(0, 1, 20 * k), 10) + text(b"abcdefghij") for k in range(lots)), count_of_runs=lots)
    letters = b"abcdefghij" * lots
    ids = b'{"epoch":null,"runs":[%s]}\n' % b",".join(b'{"first":[[2147483647,0,1,%d]],"length":10}' % (20 * k) for k in range(lots))
    seeded = random.Random(7)

    def sample(count):
        return sorted(set(range(1, 6)) | set(range(count - 6, count + 1)) | set(seeded.sample(range(1, count + 1), min(count, 15))))

    for kind in KINDS:
        refused(room, "text of 5,000 runs", kind, many, ["text"], b"", done(letters), sample)
        refused(room, "a rename of 5,000 runs", kind, many, ["edit"], b"r\n", done(edits(1)), sample)
        refused(room, "ids of 5,000 runs", kind, many, ["ids"], b"", done(ids), sample)
        refused(room, "an insertion of 300,000 characters", kind, FRESH, ["edit"], b"i 0 " + b"x" * 300000 + b"\n", done(edits(1)), sample)
        rest = (letters[:7] + b"x" + letters[7:])[4000:]
        out = b"ok 2\nok 3\ntext %d\n%s\nundone 1 4000\nsaved\n" % (len(rest), rest)
        refused(room, "a session with 5,000 runs", kind, many, ["session"], b"i 7 x\nd 0 4000\nt\nu\n", done(out), sample, is_session=True)


# Few bytes that tell large numbers: what they are, the bytes, and the place of the field that is cut off or breaks its rule.
def messages():
    front = b"RLSM\3" + u64(7) + u32(2) + u32(1) + vector((0, 1))
    op = u32(1) + u32(1) + vector((0, 0)) + ORIGIN
    for count in (MANY, HUGE, 1 << 31, 1000000):
        yield "operations", front + u32(count), 33
        yield "tuples", front + u32(1) + op + b"\0" + u32(count), 55
        yield "tuples, of which one is there", front + u32(1) + op + b"\0" + u32(count) + b"\0", 56
        yield "bytes of a text", front + u32(1) + op + b"\0" + typed(1, 1, 0) + u32(count), 76
        yield "runs of a deletion", front + u32(1) + op + b"\1" + u32(count), 55
        yield "runs of a rename", front + u32(1) + op + b"\2" + u32(count), 55
        yield "tuples of a run", front + u32(1) + op + b"\1" + u32(1) + u32(count), 59
        yield "tuples of a former run", front + u32(1) + op + b"\2" + u32(2) + run(typed(0, 1, 0), 1) + u32(count), 84
    yield "members", b"RLSM\3" + u64(7) + u32(MANY) + u32(0), 13


def files():
    front = head(4, 7, 2, 0) + vector((1, 0)) + vector((0, 0))
    for count in (MANY, HUGE, 1 << 31, 1000000):
        rest = front + u32(0)
        yield "members that have left", front + u32(count), 41
        yield "stems", rest + u32(count), 45
        rest += u32(1) + u32(1) + i32(0) + u32(5) + u32(0)
        yield "epochs", rest + u32(count), 65
        yield "text runs", rest + u32(1) + ORIGIN + u32(count), 70
        yield "tuples of a text run", rest + u32(1) + ORIGIN + u32(1) + u32(count), 74
        yield "bytes of a text run", rest + u32(1) + ORIGIN + u32(1) + run(typed(0, 1, 0), 5) + u32(count), 99
        rest += u32(1) + ORIGIN + u32(1) + run(typed(0, 1, 0), 5) + text(b"hello")
        yield "unstable operations", rest + u32(count), 108
        yield "waiting operations", rest + u32(1) + HELLO_OPERATION + u32(count), 160
        yield "tuples of an operation", rest + u32(1) + HELLO_OPERATION[:18] + u32(count), 130
        yield "former runs", front + u32(0) + u32(0) + u32(0) + u32(2) + ORIGIN + epoch(0, 1) + u32(0) + u32(count), 71
        yield "entries of a journal", JOURNAL[:21] + u32(count), 25
        yield "waiting operations of a journal", JOURNAL[:70] + u32(count), 74
    yield "members", head(4, 7, MANY, 0), 13


def counts(room):
    """A few bytes that tell large numbers ask for no large memory: under a limit of 100 MB they are malformed or damaged."""
    limits = ["-v 100000"]
    folder = room.replica("file", FRESH)
    for what, bytes_, place in messages():
        found = room.limited(folder, ["take"], limits, bytes_)
        room.equal("a message of %d bytes with many %s" % (len(bytes_), what), found, Result(4, b"", b"malformed at %d\n" % place))
        found = room.limited(folder, ["session"], limits, b"m %d\n" % len(bytes_) + bytes_)
        room.equal("in a session, many %s" % what, found, Result(0, b"no malformed at %d\nsaved\n" % place, b""))
    for what, bytes_, place in files():
        for kind in KINDS:
            folder = room.replica(kind, bytes_)
            room.equal("%s: a file of %d bytes with many %s" % (kind, len(bytes_), what), room.limited(folder, ["text"], limits), Result(3, b"", b"damaged at %d\n" % place))
    folder = room.replica("slots", HELLO)
    for words, given, wanted in (
            (["edit"], b"i 0 x\ni 18446744073709551615 y\n", Result(6, b"", b"line 2: range 18446744073709551615 6\n")),
            (["edit"], b"d 0 18446744073709551615\n", Result(6, b"", b"line 1: range 0 5\n")),
            (["edit"], b"b 18446744073709551615\n", Result(6, b"", b"line 1: range 18446744073709551615 5\n")),
            (["session"], b"m 18446744073709551615\nx", Result(0, b"bad\nsaved\n", b"")),
            (["session"], b"m 4000000000\nabc", Result(0, b"bad\nsaved\n", b"")),
            (["session"], b"k 18446744073709551615\n", Result(0, b"no range 18446744073709551615 5\nsaved\n", b"")),
            (["new", "7", "0", "4294967295"], b"", Result(4, b"", b"bad members 4294967295\n"))):
        room.equal("large numbers: %r" % given[:40], room.limited(folder, words, limits, given), wanted)
    # A slot whose number is larger than the slot.
    for number in (1 << 63, (1 << 64) - 1, 1 << 40):
        folder = room.replica("slots", None, leftover={"replica.0": number.to_bytes(8, "big") + HELLO, "replica.gate": b"\0"})
        room.equal("a slot of 160 bytes that tells %d" % number, room.limited(folder, ["text"], limits), Result(0, b"hello", b""))


def depth(room):
    """Nothing goes as deep as the data is long, with a stack of 256 kB. (`many-runs` tries the runs of a text.)"""
    limits = ["-s 256"]
    wide = ident(*[at(1, 1, 1, 0)] * 200000)
    waiting = message(7, 2, 1, (0, 300000), [insertion(1, 300000, (0, 299999), wide, b"x")] + [insertion(1, 2 + k, (0, 1 + k), typed(1, 1, 1 + k), b"y") for k in range(50000)])
    folder = room.replica("slots", FRESH)
    room.equal("50,001 waiting operations", room.limited(folder, ["take"], limits, waiting), Result(0, b"applied 0 released 0 repeated 0 held 50001 refused 0\n", b""))
    room.equal("and what they wait for", room.limited(folder, ["take"], limits, message(7, 2, 1, (0, 1), [insertion(1, 1, (0, 0), typed(1, 1, 0), b"y")])),
               Result(0, b"applied 1 released 50000 repeated 0 held 0 refused 0\n", b""))
    room.equal("their text", room.limited(folder, ["text"], limits), Result(0, b"y" * 50001, b""))
    apart = message(7, 2, 1, (0, 1), [deletion(1, 1, (0, 0), runs(*(run(ident(at(9, 1, 1, 3 * k)), 1) for k in range(100000))))])
    room.equal("a deletion of 100,000 runs that aren't there", room.limited(room.replica("slots", FRESH), ["take"], limits, apart).status, 5)
    unused = operation(1, 1, (0, 0), 3, b"")
    room.equal("a leave", room.limited(room.replica("slots", FRESH), ["take"], limits, message(7, 2, 1, (0, 1), [unused])).status, 0)


def multiple(room):
    """20 MB in 150,000 runs take at most the multiple of the file and the text together that docs/SPEED.md tells: 7 for `text` and 4 for others."""
    lots, letters = 150000, b"abcdefghij" * 13
    many = file4(7, 1, 0, (1,), [], [[(1, 0, 200 * lots)]], b"".join(run(typed(0, 1, 200 * k), 130) + text(letters) for k in range(lots)), count_of_runs=lots)
    for kind in KINDS:
        for words, given, times in ((["text"], b"", 7), (["stat"], b"", 4), (["edit"], b"i 7 x\n", 4), (["send", "0"], b"", 4)):
            folder = room.replica(kind, many)
            # The program and its libraries take some room of their own.
            most = times * (len(many) + lots * len(letters)) // 1024 + 8000
            room.equal("%s: %s in %d kB" % (kind, words[0], most), room.limited(folder, words, ["-v %d" % most], given).status, 0)
            low = room.limited(folder, words, ["-v 20000"], given)
            room.equal("%s: %s in 20,000 kB" % (kind, words[0]), (low.status, low.out, low.err), (10, b"", b"out of memory\n"))


TESTS = [("memory-large", large), ("memory-small", small), ("large-counts", counts), ("depth", depth), ("memory-multiple", multiple)]
