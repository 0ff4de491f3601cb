"""Large files, texts, messages and operations over both keepers: stored, read and equal; and each limit of docs/USE.md at its last good number
and one beyond."""
import os
from commands import edits, took
from forms import (FRESH, HELLO, LIMIT_FILE, LIMIT_INPUT, LIMIT_INSERTION, LIMIT_OPERATION, LIMIT_TARGETS, SPENT, at, deletion, file4, fresh, ident,
                   insertion, message, run, runs, text, typed, u32)
from room import KINDS, Result, kept, memory_available

FOUR = "\U0001f600".encode()


def sole(number, used, parts, count=None):
    """The file of a sole member with these runs of its text."""
    return file4(7, 1, 0, (number,), [], [[(1, 0, used)]], parts, count_of_runs=count)


def apart(count, letters, step):
    """So many runs of the same letters."""
    return b"".join(run(typed(0, 1, step * k), len(letters)) + text(letters) for k in range(count))


def texts(room):
    """Texts of 0 bytes to 20 MB in one run: typed by commands, stored in both slots one after another, read, and sent to another member."""
    for kind in KINDS:
        for lines, unit in ((0, b""), (1, b"a"), (1, b"b" * 4096), (1, b"c" * 65520), (1, b"d" * 65550), (1, b"e" * 300000), (3, FOUR * 300000), (5, FOUR * LIMIT_INSERTION)):
            count = len(unit) // 4 if unit[:1] == FOUR[:1] else len(unit)
            folder = room.replica(kind, fresh(0, 1))
            script = b"".join(b"i %d %s\n" % (count * k, unit) for k in range(lines))
            what = "%s: %d bytes" % (kind, lines * len(unit))
            room.equal(what + ": edit", room.run(folder, ["edit"], script), Result(0, edits(lines), b""))
            used = [[(1, 0, lines * count)]] if lines else [[]]
            parts = [run(typed(0, 1, 0), lines * count) + text(unit * lines)] if lines else []
            room.equal(what + ": what is stored", kept(folder), file4(7, 1, 0, (lines,), [], used, parts))
            room.equal(what + ": text", room.run(folder, ["text"]), Result(0, unit * lines, b""))
            # Into the other slot, and back.
            for turn, letter in ((1, b"x"), (2, b"y")):
                room.equal(what + ": one more", room.run(folder, ["edit"], b"i 0 " + letter + b"\n"), Result(0, edits(1), b""))
                room.equal(what + ": text after it", room.run(folder, ["text"]), Result(0, b"yx"[2 - turn:] + unit * lines, b""))
            length = 2 + lines * count
            script = b"".join(b"d 0 %d\n" % min(LIMIT_TARGETS, length - begin) for begin in range(0, length, LIMIT_TARGETS))
            room.equal(what + ": shorter", room.run(folder, ["edit"], script).status, 0)
            room.equal(what + ": the empty text", room.run(folder, ["text"]), Result(0, b"", b""))
    # An insertion of 4 MB reaches the other member, by a message and by a session.
    ada, ben = room.replica("slots", FRESH, "ada"), room.replica("file", fresh(1), "ben")
    room.equal("4 MB are inserted", room.run(ada, ["edit"], b"i 0 " + FOUR * LIMIT_INSERTION), Result(0, edits(1), b""))
    sent = room.run(ada, ["send", "1"])
    wanted = message(7, 2, 0, (1, 0), [insertion(0, 1, (0, 0), typed(0, 1, 0), FOUR * LIMIT_INSERTION)])
    room.equal("4 MB are sent", sent, Result(0, wanted, b""))
    room.equal("4 MB are taken", room.run(ben, ["take"], sent.out), Result(0, took(1), b""))
    room.equal("4 MB are the same", room.run(ben, ["text"]).out, FOUR * LIMIT_INSERTION)
    ben = room.replica("slots", fresh(1), "ben")
    shown = b"text %d\n" % (4 * LIMIT_INSERTION) + FOUR * LIMIT_INSERTION + b"\n"
    room.equal("4 MB in a session", room.run(ben, ["session"], b"m %d\n" % len(wanted) + wanted + b"t\nq\n"), Result(0, took(1) + shown + b"saved\n", b""))


def many_runs(room):
    """20 MB in 150,000 runs. The stack has 256 kB, so nothing goes as deep as there are runs."""
    lots, letters, stack = 150000, b"abcdefghij" * 13, ["-s 256"]
    content, all_ = sole(1, 200 * lots, apart(lots, letters, 200), lots), letters * lots
    for kind in KINDS:
        folder = room.replica(kind, content)
        room.equal(kind + ": text of 150,000 runs", room.limited(folder, ["text"], stack), Result(0, all_, b""))
        room.equal(kind + ": stat of 150,000 runs", room.limited(folder, ["stat"], stack).out.splitlines()[4:6], [b"total 19500000", b"runs 150000"])
        room.equal(kind + ": stored anew", (room.limited(folder, ["edit"], stack), kept(folder) == content), (Result(0, edits(0), b""), True))
        room.equal(kind + ": edits", room.limited(folder, ["edit"], stack, b"d 10000000 1000\ni 7 x\nb 8\n"), Result(0, edits(3), b""))
        room.equal(kind + ": a session", room.limited(folder, ["session"], stack, b"k 5\np\ni 7 y\nq\n"), Result(0, b"cursor 5\ncursor 5\nok 5\nsaved\n", b""))
        room.equal(kind + ": text after it", room.limited(folder, ["text"], stack), Result(0, all_[:7] + b"y" + all_[7:10000000] + all_[10001000:], b""))


def operations(room):
    """An operation of nearly 16,777,216 bytes, and one byte and one run more; the two deletions that make a rename too large."""
    most = (LIMIT_OPERATION - 18) // 25
    for runs_, line in ((most, b""), (most + 1, b"line 1: operation too large %d\n" % (18 + 25 * (most + 1)))):
        folder = room.replica("file", sole(1, 2 * runs_, apart(runs_, b"a", 2), runs_))
        room.equal("a rename of %d runs" % runs_, room.run(folder, ["edit"], b"r\n"), Result(6, b"", line) if line else Result(0, edits(1), b""))
        room.equal("the text after it", room.run(folder, ["text"]).out, b"a" * runs_)
    # Taken: a deletion by a long identifier that isn't known. One byte more is malformed, at the operation.
    for size, wanted in ((LIMIT_OPERATION, Result(0, took(held=1), b"")), (LIMIT_OPERATION + 1, Result(4, b"", b"malformed at 33\n"))):
        long = padded(size)
        folder = room.replica("slots", FRESH)
        room.equal("an operation of %d bytes is taken" % size, room.run(folder, ["take"], message(7, 2, 1, (0, 2), [long])), wanted)
        if not wanted.status:
            room.equal("it is stored", (room.run(folder, ["stat"]).out.splitlines()[6], kept(folder)[-size:] == long), (b"held 1", True))
    ada = room.replica("slots", FRESH, "ada")
    block = b"i %d " + b"z" * LIMIT_INSERTION + b"\n"
    room.equal("twice 1,048,576 characters", room.run(ada, ["edit"], block % 0 + block % LIMIT_INSERTION), Result(0, edits(2), b""))
    for number in (1, 2):
        first = LIMIT_INSERTION * (number - 1)
        targets = runs(*(run(typed(0, 1, first + k), 1) for k in range(1, LIMIT_INSERTION, 2)))
        sent = message(7, 2, 1, (2, number), [deletion(1, number, (2, number - 1), targets)])
        room.equal("a deletion of 524,288 targets", room.run(ada, ["take"], sent), Result(0, took(1), b""))
    room.equal("a rename of what is left", room.run(ada, ["edit"], b"r\n"), Result(6, b"", b"line 1: operation too large 26214422\n"))
    room.equal("the text stays", room.run(ada, ["text"]).out, b"z" * LIMIT_INSERTION)


def padded(size, number=2):
    """An operation of member 1 of this many bytes, which waits: a deletion of one identifier, of as many tuples as fit."""
    bare = deletion(1, number, (0, number - 1), runs(run(ident(at(1, 1, 1, 0)), 1)))
    inner, low = divmod(size - len(bare), len(at(1, 1, 1, 0)))
    tuples = u32(1 + low + inner) + bytes(low) + at(1, 1, 1, 0) * inner
    return deletion(1, number, (0, number - 1), u32(1) + tuples + at(1, 1, 1, 0) + u32(1))


def lists(room):
    """200,000 operations that wait, and 10,000 epochs."""
    lots = 200000
    waiting = message(7, 2, 1, (0, lots + 1), [insertion(1, 2 + k, (0, 1 + k), typed(1, 1, 1 + k), b"%d" % (k % 10)) for k in range(lots)])
    wanted = b"x" + b"0123456789" * (lots // 10)
    for kind in KINDS:
        folder = room.replica(kind, FRESH)
        room.equal(kind + ": 200,000 operations wait", room.run(folder, ["take"], waiting), Result(0, took(held=lots), b""))
        room.equal(kind + ": they are stored", room.run(folder, ["stat"]).out.splitlines()[6], b"held 200000")
        room.equal(kind + ": what they wait for", room.run(folder, ["take"], message(7, 2, 1, (0, 1), [insertion(1, 1, (0, 0), typed(1, 1, 0), b"x")])), Result(0, took(1, lots), b""))
        room.equal(kind + ": their text", room.run(folder, ["text"]), Result(0, wanted, b""))
        sent = room.run(folder, ["send", "1"])
        room.equal(kind + ": they are sent, each in 44 bytes", (sent.status, len(sent.out)), (0, 33 + 44 * lots))
        folder = room.replica(kind, HELLO)
        epochs = 10000
        room.equal(kind + ": 10,000 renames", room.run(folder, ["edit"], b"r\n" * epochs), Result(0, edits(epochs), b""))
        room.equal(kind + ": 10,000 epochs", room.run(folder, ["stat"]).out.splitlines()[8:], [b"epochs %d" % (epochs + 1), b"former %d" % (5 * epochs)])
        old = message(7, 2, 1, (1, 1), [insertion(1, 1, (1, 0), ident(at(3221225471, 1, 1, 0)), b"!")])
        room.equal(kind + ": an operation of the first epoch", room.run(folder, ["take"], old), Result(0, took(1), b""))
        room.equal(kind + ": text in the last epoch", room.run(folder, ["text"]), Result(0, b"hello!", b""))
        room.equal(kind + ": ids in the last epoch", room.run(folder, ["ids"]).out[:19], b'{"epoch":[0,%d],' % (epochs + 1))


def inputs(room):
    """The greatest input, 67,108,864 bytes, and one byte more."""
    line = b"i 0 " + b"x" * LIMIT_INSERTION + b"\n"
    full = line * (LIMIT_INPUT // len(line))
    full += b"i 0 " + b"y" * (LIMIT_INPUT - len(full) - 5) + b"\n"
    number = full.count(b"\n")
    too_large = Result(11, b"", b"too large\n")
    folder = room.replica("slots", fresh(0, 1))
    was = kept(folder)
    room.equal("a script of one byte more", (room.run(folder, ["edit"], full + b"r"), kept(folder)), (too_large, was))
    room.equal("a session of one byte more", (room.run(folder, ["session"], b"x" * (LIMIT_INPUT + 1)), kept(folder)), (Result(11, b"", b"too large\n"), was))
    room.equal("a session of one byte more, after a request", room.run(folder, ["session"], b"p\n" + b"x" * (LIMIT_INPUT - 1)), Result(11, b"cursor 0\n", b"too large\n"))
    room.equal("the greatest script", room.run(folder, ["edit"], full), Result(0, edits(number), b""))
    room.equal("its text", room.run(folder, ["text"]).out, b"y" * (len(full) - full.rfind(b"\ni") - 6) + b"x" * (LIMIT_INSERTION * (number - 1)))
    folder = room.replica("slots", FRESH)
    room.equal("the greatest session, of one line", room.run(folder, ["session"], b"x" * (LIMIT_INPUT - 1) + b"\n"), Result(0, b"bad\nsaved\n", b""))
    room.equal("the greatest session with q", room.run(folder, ["session"], b"x" * (LIMIT_INPUT - 3) + b"\nq\n"), Result(0, b"bad\nsaved\n", b""))
    sizes = [LIMIT_OPERATION] * 3
    sizes.append(LIMIT_INPUT - 33 - sum(sizes))
    greatest = message(7, 2, 1, (0, 9), [padded(size, 2 + k) for k, size in enumerate(sizes)])
    room.equal("a message of one byte more", room.run(folder, ["take"], greatest + b"\0"), too_large)
    room.equal("the message has the greatest size", len(greatest), LIMIT_INPUT)
    room.equal("the greatest message", room.run(folder, ["take"], greatest), Result(0, took(held=4), b""))


def sparse(path, length, front=b""):
    with open(path, "wb") as file:
        file.write(front)
        file.truncate(length)


def stored_files(room):
    """The greatest stored file, 268,435,456 bytes, and one byte more: as kept, and as to be stored."""
    too_large = Result(11, b"", b"too large\n")
    for length, wanted in ((LIMIT_FILE, Result(3, b"", b"damaged at 66\n")), (LIMIT_FILE + 1, too_large), (1 << 40, too_large)):
        folder = room.replica("file", None)
        sparse(os.path.join(folder, "replica.rls"), length, FRESH)
        for words in (["text"], ["edit"], ["send", "1"], ["session"]):
            if words != ["text"] and wanted != too_large:
                continue
            room.equal("replica.rls of %d bytes, %s" % (length, words[0]), room.run(folder, words), wanted)
        folder = room.replica("slots", None, leftover={"replica.gate": b"\1"})
        sparse(os.path.join(folder, "replica.1"), length + 8, length.to_bytes(8, "big") + FRESH)
        room.equal("a slot with %d bytes" % length, room.run(folder, ["text"]), wanted)
    if memory_available() < 4 << 30:
        room.skip("a file that is full", "it takes 4 GB of memory, and the machine has %d MB free" % (memory_available() >> 20))
        return
    # What `i 0 x` adds to such a file: a stem, a run with its text, and the operation.
    added = len(HELLO) - len(FRESH) - 2 * len(b"hello") + 2 * len(b"x")
    for missing, wanted in ((added, Result(0, edits(1), b"")), (added - 1, too_large), (0, too_large)):
        sizes = [LIMIT_OPERATION] * (LIMIT_FILE // LIMIT_OPERATION - 1)
        sizes += [LIMIT_FILE - missing - len(FRESH) - sum(sizes)]
        content = file4(7, 2, 0, (0, 0), [(0, 0)], [[], []], [], (), [padded(size, 2 + k) for k, size in enumerate(sizes)])
        room.equal("the file lacks %d bytes" % missing, len(content), LIMIT_FILE - missing)
        folder = room.replica("slots" if missing != added - 1 else "file", content)
        room.equal("an edit where %d bytes are free" % missing, room.run(folder, ["edit"], b"i 0 x\n"), wanted)
        room.equal("the length of the file after it", len(kept(folder)), LIMIT_FILE - (0 if missing == added else missing))
        if missing != added - 1:
            room.equal("a full file is read", room.run(folder, ["text"]), Result(0, b"x" if missing else b"", b""))


def limits(room):
    """The other limits of docs/USE.md: the last good number, and the next."""
    folder = room.replica("slots", fresh(0, 1))
    block = b"i 0 " + b"x" * LIMIT_INSERTION + b"\n"
    room.equal("1,048,576 characters", room.run(folder, ["edit"], block), Result(0, edits(1), b""))
    room.equal("1,048,577 characters", room.run(folder, ["edit"], block[:-1] + b"x\n"), Result(6, b"", b"line 1: too many characters 1048577\n"))
    room.equal("4,194,305 characters", room.run(folder, ["edit"], block * 3 + b"i 0 x\n"), Result(0, edits(4), b""))
    room.equal("a rename of one too many", room.run(folder, ["edit"], b"r\n"), Result(6, b"", b"line 1: too many characters 4194305\n"))
    room.equal("a deletion of one too many", room.run(folder, ["edit"], b"d 0 4194305\n"), Result(6, b"", b"line 1: too many characters 4194305\n"))
    room.equal("a rename of the most", room.run(folder, ["edit"], b"d 0 1\nr\n"), Result(0, edits(2), b""))
    room.equal("a deletion of the most", room.run(folder, ["edit"], b"d 0 %d\n" % LIMIT_TARGETS), Result(0, edits(1), b""))
    room.equal("nothing is left", room.run(folder, ["text"]), Result(0, b"", b""))
    last = SPENT[:21] + b"\xff\xff\xff\xfe" + SPENT[25:]
    for kind in KINDS:
        folder = room.replica(kind, last)
        room.equal(kind + ": the last number", room.run(folder, ["edit"], b"i 0 a\n"), Result(0, edits(1), b""))
        room.equal(kind + ": no number is left", room.run(folder, ["edit"], b"i 0 a\n"), Result(6, b"", b"line 1: numbers spent\n"))
        room.equal(kind + ": nor in a session", room.run(folder, ["session"], b"i 0 a\n"), Result(0, b"no numbers spent\nsaved\n", b""))
    for members, status in ((64, 0), (65, 4)):
        room.equal("%d members" % members, room.run(room.replica("slots", None), ["new", "7", "0", str(members)]).status, status)
    too_long = insertion(1, 1, (0, 0), typed(1, 1, 0), b"x" * (LIMIT_INSERTION + 1))
    room.equal("an insertion of one too many is refused", room.run(room.replica("slots", FRESH), ["take"], message(7, 2, 1, (0, 1), [too_long])),
               Result(5, took(refused=1), b"refused 1 1 too long 1048577\n"))
    far = deletion(1, 1, (0, 0), runs(run(typed(0, 1, 0), LIMIT_TARGETS + 1)))
    room.equal("a deletion of one too many is refused", room.run(room.replica("slots", FRESH), ["take"], message(7, 2, 1, (0, 1), [far])),
               Result(5, took(refused=1), b"refused 1 1 too long 4194305\n"))
    end = insertion(1, 1, (0, 0), ident(at(9, 1, 1, 1073741823)), b"xy")
    room.equal("an insertion past the last offset is refused", room.run(room.replica("slots", FRESH), ["take"], message(7, 2, 1, (0, 1), [end])),
               Result(5, took(refused=1), b"refused 1 1 offset end\n"))
    # What doesn't fit into a message comes with the next one.
    ada, ben = room.replica("slots", FRESH, "ada"), room.replica("slots", fresh(1), "ben")
    lines = b"".join(b"i %d " % (LIMIT_INSERTION * k) + FOUR * LIMIT_INSERTION + b"\n" for k in range(15))
    room.equal("60 MB are inserted", room.run(ada, ["edit"], lines), Result(0, edits(15), b""))
    room.equal("8 MB more", room.run(ada, ["edit"], lines[:lines.find(b"\n") + 1] * 2), Result(0, edits(2), b""))
    sent = room.run(ada, ["send", "1"]).out
    room.equal("the message has as many as fit", (len(sent), room.run(ben, ["take"], sent)), (33 + 15 * (4 * LIMIT_INSERTION + 43), Result(0, took(15), b"")))
    room.run(ada, ["take"], room.run(ben, ["send", "0"]).out)
    room.equal("and the next one the rest", room.run(ben, ["take"], room.run(ada, ["send", "1"]).out), Result(0, took(2), b""))


TESTS = [("lists", lists), ("texts", texts), ("many-runs", many_runs), ("operations", operations), ("inputs", inputs), ("stored-files", stored_files),
         ("limits", limits)]
