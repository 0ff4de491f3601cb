"""Every command with all its words: its status, its output, its line on standard error and the stored file, against tables whose values
are from docs/USE.md and docs/FORMATS.md or were worked out by hand, over both keepers."""
import os
from forms import (EMPTY_MESSAGE, FRESH, FRESH_2, HELLO, HELLO_2, HELLO_3, HELLO_MESSAGE, JOURNAL, JOURNAL_2, LIMIT_INSERTION, MIDDLE, SPENT,
                   SPENT_2, at, deletion, epoch, file4, fresh, ident, insertion, message, run, runs, text, typed)
from room import KINDS, USAGE, Result, files_of, kept

BIG = "18446744073709551615"
TRIAL_0 = b"trial 42 0\naccepted 0 0 0\nmember 0 total 0 runs 0\nmember 1 total 0 runs 0\nmember 2 total 0 runs 0\nepochs 1 former 0\n"
TRIAL_1 = b"trial 42 1\naccepted 0 1 0\nmember 0 total 8 runs 1\nmember 1 total 8 runs 1\nmember 2 total 8 runs 1\nepochs 1 former 0\n"
# The same on every computer, as docs/USE.md says: what 0.10.0 printed.
TRIAL_12 = b"trial 42 12\naccepted 2 3 3\nmember 0 total 33 runs 8\nmember 1 total 33 runs 8\nmember 2 total 33 runs 8\nepochs 1 former 0\n"
TRIAL_100000 = (b"trial 1 100000\naccepted 27021 27243 27098\nmember 0 total 166911 runs 86\nmember 1 total 166911 runs 86\n"
                b"member 2 total 166911 runs 86\nepochs 1 former 0\n")
STAT = b"group 7\nme 0\nmembers 2\naccepted 1 0\ntotal 5\nruns 1\nheld 0\nunstable 1\nepochs 1\nformer 0\n"
STAT_FRESH = b"group 7\nme 0\nmembers 2\naccepted 0 0\ntotal 0\nruns 0\nheld 0\nunstable 0\nepochs 1\nformer 0\n"
IDS = b'{"epoch":null,"runs":[{"first":[[2147483647,0,1,0]],"length":5}]}\n'
LEFT = HELLO[:21] + b"\0\0\0\2" + HELLO[25:37] + b"\0\0\0\1\0\0\0\0" + HELLO[41:104] + b"\0\0\0\2" + HELLO[108:156] \
    + b"\0\0\0\0\0\0\0\2\0\0\0\1\0\0\0\0\0\3" + b"\0\0\0\0"
HELLO_1 = file4(7, 2, 1, (1, 0), [(1, 0)], [[(1, 0, 5)], []], [run(typed(0, 1, 0), 5) + text(b"hello")])


def edits(number, released=0, refused=0):
    return b"edits %d released %d refused %d\n" % (number, released, refused)


def took(applied=0, released=0, repeated=0, held=0, refused=0):
    return b"applied %d released %d repeated %d held %d refused %d\n" % (applied, released, repeated, held, refused)


# Words that are no command, each with an empty folder.
NO_COMMAND = [
    [], [""], ["", ""], ["", "text"], ["text", ""], [" text"], ["text "], ["Text"], ["TEXT"], ["tex"], ["texts"], ["text", "text"], ["text", "1"],
    ["help"], ["--help"], ["-h"], ["--version"], ["--", "text"], ["edit", "x"], ["edit", ""], ["ids", "x"], ["stat", "x"], ["take", "x"], ["take", ""],
    ["leave", "x"], ["leave", "leave"], ["session", "x"], ["session", ""], ["Session"], ["check"], ["retire", "1"],
    ["send"], ["send", ""], ["send", "x"], ["send", "1", "1"], ["send", "01"], ["send", "+1"], ["send", "-1"], ["send", "4294967296"], ["send", " 1"],
    ["send", "1 "], ["send", "1\n"], ["send", "0x1"], ["send", "\u0661"], ["new"], ["new", "7"], ["new", "7", "0"], ["new", "7", "0", "2", "2"],
    ["new", "7", "0", ""], ["new", "", "0", "2"], ["new", "7", "", "2"], ["new", "07", "0", "2"], ["new", "7", "00", "2"], ["new", "7", "0", "02"],
    ["new", "+7", "0", "2"], ["new", "-7", "0", "2"], ["new", "18446744073709551616", "0", "2"], ["new", "99999999999999999999", "0", "2"],
    ["new", "7", "4294967296", "2"], ["new", "7", "0", "4294967296"], ["new", "7", "0", "2.0"], ["new", "7,0,2"], ["new 7 0 2"], ["new", "7 0", "2"],
    ["trial"], ["trial", "42"], ["trial", "42", "0", "0"], ["trial", "2147483648", "0"], ["trial", "42", "100001"], ["trial", "042", "0"],
    ["trial", "42", "00"], ["trial", "", "0"], ["trial", "-1", "0"], ["7", "0", "2"],
    # Long, many, and not UTF-8.
    ["x" * 65536], ["text", "x" * 65536], ["new", "1" * 65536, "0", "2"], ["send", "0" * 65536], ["text"] * 20000, ["x"] * 60000,
    [b"\xff"], [b"text\xff"], [b"text", b"\xff"], [b"\xc3"], [b"session", b"\xff"], [b"new", b"\xff", b"0", b"2"], [b"send", b"\xed\xa0\x80"],
    [b"\xff", b"text"], [b"trial", b"42", b"0", b"\x80"],
]

# Stored file, words, input, status, output, errors. Nothing is stored.
STORES_NOTHING = [
    (None, ["text"], b"", 2, b"", b"no replica\n"),
    (None, ["ids"], b"", 2, b"", b"no replica\n"),
    (None, ["stat"], b"", 2, b"", b"no replica\n"),
    (None, ["send", "1"], b"", 2, b"", b"no replica\n"),
    (None, ["edit"], b"i 0 x", 2, b"", b"no replica\n"),
    (None, ["take"], EMPTY_MESSAGE, 2, b"", b"no replica\n"),
    (None, ["leave"], b"", 2, b"", b"no replica\n"),
    (None, ["session"], b"t\n", 2, b"", b"no replica\n"),
    (None, ["new", "7", "0", "0"], b"", 4, b"", b"bad members 0\n"),
    (None, ["new", "7", "0", "65"], b"", 4, b"", b"bad members 65\n"),
    (None, ["new", "7", "0", "4294967295"], b"", 4, b"", b"bad members 4294967295\n"),
    (None, ["new", "7", "2", "2"], b"", 4, b"", b"bad me 2\n"),
    (None, ["new", "7", "4294967295", "64"], b"", 4, b"", b"bad me 4294967295\n"),
    (None, ["new", "7", "70", "70"], b"", 4, b"", b"bad members 70\n"),
    (None, ["trial", "42", "0"], b"", 0, TRIAL_0, b""),
    (None, ["trial", "42", "1"], b"", 0, TRIAL_1, b""),
    (HELLO, ["trial", "42", "1"], b"", 0, TRIAL_1, b""),
    (b"junk", ["trial", "42", "1"], b"", 0, TRIAL_1, b""),
    (HELLO, ["new", "7", "0", "2"], b"", 2, b"", b"replica exists\n"),
    (b"", ["new", "7", "0", "2"], b"", 2, b"", b"replica exists\n"),
    (HELLO, ["new", "7", "2", "2"], b"", 4, b"", b"bad me 2\n"),
    (HELLO, ["text"], b"", 0, b"hello", b""),
    (HELLO, ["text"], b"i 0 x\n", 0, b"hello", b""),
    (HELLO_3, ["text"], b"", 0, b"hello", b""),
    (HELLO_2, ["text"], b"", 0, b"hello", b""),
    (JOURNAL, ["text"], b"", 0, b"hello", b""),
    (JOURNAL_2, ["text"], b"", 0, b"hello!", b""),
    (JOURNAL_2[:105] + b"\4" + JOURNAL_2[106:], ["text"], b"", 3, b"", b"damaged at 71\n"),
    (FRESH, ["text"], b"", 0, b"", b""),
    (FRESH_2, ["text"], b"", 0, b"", b""),
    (HELLO, ["ids"], b"", 0, IDS, b""),
    (FRESH, ["ids"], b"", 0, b'{"epoch":null,"runs":[]}\n', b""),
    (HELLO, ["stat"], b"", 0, STAT, b""),
    (FRESH, ["stat"], b"", 0, STAT_FRESH, b""),
    (FRESH, ["send", "1"], b"", 0, EMPTY_MESSAGE, b""),
    (FRESH, ["send", "0"], b"", 0, EMPTY_MESSAGE, b""),
    (HELLO, ["send", "1"], b"", 0, HELLO_MESSAGE, b""),
    (HELLO, ["send", "2"], b"", 4, b"", b"not a member 2\n"),
    (HELLO, ["send", "4294967295"], b"", 4, b"", b"not a member 4294967295\n"),
    (b"", ["text"], b"", 3, b"", b"damaged at 0\n"),
    (b"", ["session"], b"t\n", 3, b"", b"damaged at 0\n"),
    (b"RLSF\5" + FRESH[5:], ["stat"], b"", 3, b"", b"damaged at 4\n"),
    (FRESH[:30], ["edit"], b"i 0 x", 3, b"", b"damaged at 29\n"),
    (FRESH_2[:30], ["send", "9"], b"", 3, b"", b"damaged at 29\n"),
    (FRESH + b"\0", ["leave"], b"", 3, b"", b"damaged at 66\n"),
    (HELLO[:56] + b"\4" + HELLO[57:], ["ids"], b"", 3, b"", b"damaged at 70\n"),
    (HELLO[:56] + b"\0" + HELLO[57:], ["take"], HELLO_MESSAGE, 3, b"", b"damaged at 45\n"),
    (HELLO, ["edit"], b"i 0 A\nq\n", 4, b"", b"bad line 2\n"),
    (HELLO, ["edit"], b"\n", 4, b"", b"bad line 1\n"),
    (HELLO, ["edit"], b"i 0 a\n\n", 4, b"", b"bad line 2\n"),
    (HELLO, ["edit"], b"r\r\n", 4, b"", b"bad line 1\n"),
    (HELLO, ["edit"], b"i 0 C:\\temp\n", 4, b"", b"bad line 1\n"),
    (HELLO, ["edit"], b"i 0 \xff\n", 4, b"", b"bad line 1\n"),
    (HELLO, ["edit"], b"i 18446744073709551616 a\n", 4, b"", b"bad line 1\n"),
    (HELLO, ["edit"], b"i 18446744073709551615 a\n", 6, b"", b"line 1: range 18446744073709551615 5\n"),
    (HELLO, ["edit"], b"i 0 A\ni 9 x\n", 6, b"", b"line 2: range 9 6\n"),
    (HELLO, ["edit"], b"d 9 0\n", 6, b"", b"line 1: empty edit\n"),
    (HELLO, ["edit"], b"i 0 \n", 6, b"", b"line 1: empty edit\n"),
    (HELLO, ["edit"], b"d 0 5\nr\n", 6, b"", b"line 2: empty document\n"),
    (HELLO, ["edit"], b"b 0\n", 6, b"", b"line 1: range 0 5\n"),
    (HELLO, ["edit"], "i 0 a\U0001f1eb\U0001f1f7\nb 2\n".encode(), 6, b"", b"line 2: not a boundary 2\n"),
    (HELLO, ["edit"], b"i 0 " + b"x" * (LIMIT_INSERTION + 1) + b"\n", 6, b"", b"line 1: too many characters 1048577\n"),
    (SPENT, ["edit"], b"i 0 a\n", 6, b"", b"line 1: numbers spent\n"),
    (SPENT_2, ["edit"], b"i 0 a\n", 6, b"", b"line 1: numbers spent\n"),
    (SPENT, ["leave"], b"", 6, b"", b"line 1: numbers spent\n"),
    (LEFT, ["edit"], b"i 0 x\n", 6, b"", b"line 1: left\n"),
    (LEFT, ["leave"], b"", 6, b"", b"line 1: left\n"),
    (LEFT, ["stat"], b"", 0, STAT.replace(b"accepted 1", b"accepted 2").replace(b"unstable 1", b"unstable 2"), b""),
    (fresh(1), ["take"], b"", 4, b"", b"malformed at 0\n"),
    (fresh(1), ["take"], b"hello\n", 4, b"", b"malformed at 0\n"),
    (fresh(1), ["take"], HELLO_MESSAGE[:80], 4, b"", b"malformed at 76\n"),
    (fresh(1), ["take"], HELLO_MESSAGE + b"\0", 4, b"", b"malformed at 81\n"),
    (fresh(1), ["take"], HELLO_MESSAGE[:50] + b"\4" + HELLO_MESSAGE[51:], 4, b"", b"malformed at 50\n"),
    (fresh(1), ["take"], message(8, 2, 0, (0, 0)), 4, b"", b"other group 8 2\n"),
    (fresh(1), ["take"], message(7, 3, 0, (0, 0, 0)), 4, b"", b"other group 7 3\n"),
]

UNKNOWN = message(7, 2, 1, (0, 1), [deletion(1, 1, (0, 0), runs(run(ident(at(5, 1, 1, 0)), 1)))])
BACKWARD = message(7, 2, 1, (1, 1), [insertion(1, 1, (0, 0), typed(1, 1, 0), b"x")])
STEM = message(7, 2, 1, (0, 1), [insertion(1, 1, (0, 0), ident(at(9, 1, 1, 3)), b"x")])
EPOCH = message(7, 2, 1, (0, 1), [insertion(1, 1, (0, 0), ident(at(9, 1, 1, 3)), b"x", epoch(0, 1))])
NEXT = insertion(0, 2, (1, 0), typed(0, 1, 5), b"!")
FORKED = insertion(0, 2, (1, 0), typed(0, 1, 5), b"?")
OF_0_2 = '{"epoch":[0,2],"runs":[{"first":[[%d,0,2,0]],"length":2},{"first":[[%d,0,2,1],[%d,0,1,1],[%d,1,1,0]],"length":1},{"first":[[%d,0,2,2]],"length":3}]}\n'

# Stored file, and one command after another on it, each with words, input, status, output and errors.
PLAYS = [
    (None, [(["new", "7", "0", "2"], b"", 0, b"new 7 0 2\n", b""), (["edit"], b"i 0 hello\n", 0, edits(1), b""), (["text"], b"", 0, b"hello", b""),
            (["ids"], b"", 0, IDS, b""), (["stat"], b"", 0, STAT, b""), (["send", "1"], b"", 0, HELLO_MESSAGE, b"")]),
    (None, [(["new", BIG, "63", "64"], b"", 0, b"new " + BIG.encode() + b" 63 64\n", b""), (["text"], b"", 0, b"", b""),
            (["new", BIG, "63", "64"], b"", 2, b"", b"replica exists\n")]),
    (None, [(["new", "0", "0", "1"], b"i 0 x\n", 0, b"new 0 0 1\n", b""), (["edit"], b"i 0 x\n", 0, edits(1), b""), (["text"], b"", 0, b"x", b""),
            (["stat"], b"", 0, b"group 0\nme 0\nmembers 1\naccepted 1\ntotal 1\nruns 1\nheld 0\nunstable 0\nepochs 1\nformer 0\n", b"")]),
    (HELLO, [(["edit"], b"i 2 XY", 0, edits(1), b""), (["text"], b"", 0, b"heXYllo", b""),
             (["ids"], b"", 0, b'{"epoch":null,"runs":[{"first":[[2147483647,0,1,0]],"length":2},{"first":[[2147483647,0,1,1],[2147483647,0,2,0]],'
              b'"length":2},{"first":[[2147483647,0,1,2]],"length":3}]}\n', b""),
             (["edit"], b"r\n", 0, edits(1), b""), (["edit"], b"i 7 !\n", 0, edits(1), b""),
             (["ids"], b"", 0, b'{"epoch":[0,3],"runs":[{"first":[[2147483647,0,3,0]],"length":8}]}\n', b"")]),
    (HELLO, [(["edit"], b"i 0 A\n", 0, edits(1), b""), (["ids"], b"", 0, IDS.replace(b"1,0]", b"1,-1]").replace(b"5", b"6"), b"")]),
    (HELLO, [(["edit"], b"d 1 3\n", 0, edits(1), b""), (["text"], b"", 0, b"ho", b""), (["edit"], b"d 0 2\n", 0, edits(1), b""), (["text"], b"", 0, b"", b""),
             (["ids"], b"", 0, b'{"epoch":null,"runs":[]}\n', b""), (["edit"], b"r\n", 6, b"", b"line 1: empty document\n")]),
    (HELLO, [(["edit"], "d 0 5\ni 0 a\U0001f1eb\U0001f1f7\nb 3\n".encode(), 0, edits(3), b""), (["text"], b"", 0, b"a", b""),
             (["edit"], b"i 1 \\n\\r\\\\\t \x00\n", 0, edits(1), b""), (["text"], b"", 0, b"a\n\r\\\t \0", b"")]),
    (HELLO, [(["edit"], b"", 0, edits(0), b""), (["text"], b"", 0, b"hello", b"")]),
    (fresh(1), [(["take"], HELLO_MESSAGE, 0, took(1), b""), (["take"], HELLO_MESSAGE, 0, took(repeated=1), b""), (["text"], b"", 0, b"hello", b""),
                (["take"], HELLO_MESSAGE[:4] + b"\1" + HELLO_MESSAGE[5:], 0, took(repeated=1), b"")]),
    (fresh(1), [(["take"], message(7, 2, 0, (2, 0), [NEXT]), 0, took(held=1), b""), (["text"], b"", 0, b"", b""),
                (["take"], message(7, 2, 0, (2, 0), [FORKED]), 5, took(refused=1), b"refused 0 2 forked\n"),
                (["take"], HELLO_MESSAGE, 0, took(1, 1), b""), (["text"], b"", 0, b"hello!", b"")]),
    (FRESH, [(["take"], UNKNOWN, 5, took(refused=1), b"refused 1 1 unknown target 5.1.1.0\n"), (["stat"], b"", 0, STAT_FRESH, b"")]),
    (FRESH, [(["take"], STEM, 5, took(refused=1), b"refused 1 1 wrong stem 0\n"), (["take"], EPOCH, 5, took(refused=1), b"refused 1 1 wrong epoch origin\n")]),
    (HELLO, [(["take"], message(7, 2, 1, (1, 0)), 0, took(), b""), (["take"], BACKWARD, 5, took(refused=1), b"refused 1 1 backward 1 0\n"), (["text"], b"", 0, b"hello", b"")]),
    (HELLO, [(["leave"], b"i 0 x\n", 0, edits(1), b""), (["leave"], b"", 6, b"", b"line 1: left\n"), (["edit"], b"i 0 x\n", 6, b"", b"line 1: left\n"),
             (["text"], b"", 0, b"hello", b"")]),
    (HELLO_1, [(["edit"], b"i 2 x\n", 0, edits(1), b""), (["text"], b"", 0, b"hexllo", b"")]),
    (JOURNAL, [(["edit"], b"", 0, edits(0), b""), (["text"], b"", 0, b"hello", b"")]),
]


def words_of(words):
    return " ".join(word.decode("latin-1") if isinstance(word, bytes) else word for word in words)[:60]


def no_command(room):
    """Words that are no command are status 1, whatever the folder holds."""
    for words in NO_COMMAND:
        folder = room.replica("slots", None)
        found = room.run(folder, words, b"i 0 x\n")
        room.equal("%d words, %s" % (len(words), words_of(words)), (found, files_of(folder)), (Result(1, b"", USAGE), {}))
    for kind in KINDS:
        folder = room.replica(kind, HELLO)
        before = files_of(folder)
        found = room.run(folder, ["edit", "x"], b"i 0 x\n")
        room.equal(kind + ": a replica stays", (found, files_of(folder)), (Result(1, b"", USAGE), before))


def stores_nothing(room):
    """Commands that print or refuse, and leave the folder as it is to the byte."""
    for kind in KINDS:
        for content, words, given, status, out, err in STORES_NOTHING:
            folder = room.replica(kind, content)
            before = files_of(folder)
            found = room.run(folder, words, given)
            room.equal("%s: %s on %d bytes" % (kind, words_of(words), len(content or b"")), (found, files_of(folder)), (Result(status, out, err), before))
    folder = room.replica("slots", HELLO, leftover={"replica.gate": b"\1"})
    before = files_of(folder)
    room.equal("text, and a gate of one byte", (room.text(folder), files_of(folder)), ((0, b"hello", b""), {**before, "replica.gate": b"\1\0"}))


def plays(room):
    """One command after another."""
    for kind in KINDS:
        for number, (content, steps) in enumerate(PLAYS):
            if content is None and kind == "file":
                continue
            folder = room.replica(kind, content)
            for words, given, status, out, err in steps:
                found = room.run(folder, words, given)
                if not room.equal("%s, play %d: %s" % (kind, number, words_of(words)), found, Result(status, out, err)):
                    break
            names = {"replica.rls"} if kind == "file" else {"replica.0", "replica.1", "replica.gate"}
            room.equal("%s, play %d: the folder" % (kind, number), set(os.listdir(folder)), names)


def stored_bytes(room):
    """What a command stores, to the byte."""
    rows = [
        ("new", None, ["new", "7", "0", "2"], b"", FRESH),
        ("i 0 hello", FRESH, ["edit"], b"i 0 hello\n", HELLO),
        ("an empty script", HELLO, ["edit"], b"", HELLO),
        ("an empty script on form 3", HELLO_3, ["edit"], b"", HELLO),
        ("an empty script on form 2", HELLO_2, ["edit"], b"", HELLO),
        ("leave", HELLO, ["leave"], b"", LEFT),
        ("take", fresh(1), ["take"], HELLO_MESSAGE, HELLO_1),
        ("take again", HELLO_1, ["take"], HELLO_MESSAGE, HELLO_1),
        ("a session", FRESH, ["session"], b"i 0 hello\nq\n", HELLO),
        ("a session without an edit", HELLO, ["session"], b"t\n", HELLO),
    ]
    for kind in KINDS:
        for what, before, words, given, after in rows:
            if before is None and kind == "file":
                continue
            folder = room.replica(kind, before)
            room.equal("%s: %s, its status" % (kind, what), room.run(folder, words, given).status, 0)
            room.equal("%s: %s" % (kind, what), kept(folder), after)
        folder = room.replica(kind, JOURNAL)
        room.run(folder, ["edit"])
        room.equal(kind + ": a journal becomes a snapshot", (kept(folder)[:5], len(kept(folder))), (b"RLSF\4", 96))


def cuts(room):
    """A file and a message that are cut off at each byte."""
    message_fields = [0, 4, 5, 13, 17, 21, 25, 29, 33, 37, 41, 45, 49, 50, 51, 55, 56, 60, 64, 68, 72, 76]
    folder = room.replica("file", fresh(1))
    for length in range(81):
        place = max(field for field in message_fields if field <= length)
        room.equal("a message of %d bytes" % length, room.run(folder, ["take"], HELLO_MESSAGE[:length]), Result(4, b"", b"malformed at %d\n" % place))
    file_fields = [0, 4, 5, 13, 17, 21, 25, 29, 33, 37, 41, 45, 49, 53, 57, 61, 65, 66, 70, 74, 75, 79, 83, 87, 91, 95, 99, 104, 108, 112, 116, 120,
                   124, 125, 126, 130, 131, 135, 139, 143, 147, 151, 156]
    for kind in KINDS:
        for length in range(160):
            folder = room.replica(kind, HELLO[:length])
            place = max(field for field in file_fields if field <= length)
            room.equal("%s: a file of %d bytes" % (kind, length), room.run(folder, ["text"]), Result(3, b"", b"damaged at %d\n" % place))


def exchange(room):
    """Renames at the same time, messages in both directions, and a member that leaves, worked out by hand."""
    folders = [room.replica("slots", HELLO, "ada"), room.replica("file", HELLO_1, "ben")]

    def step(member, words, given=b""):
        return room.run(folders[member], words, given)

    step(0, ["edit"], b"r\n")
    step(1, ["edit"], b"i 2 x\n")
    for sender in (0, 1, 0):
        room.equal("a message is taken", step(1 - sender, ["take"], step(sender, ["send", str(1 - sender)]).out).status, 0)
    for member in (0, 1):
        room.equal("text of member %d" % member, step(member, ["text"]), Result(0, b"hexllo", b""))
        room.equal("ids of member %d" % member, step(member, ["ids"]).out, (OF_0_2 % ((MIDDLE,) * 5)).encode())
    folders = [room.replica("slots", fresh(k, 3), "of3-%d" % k) for k in range(3)]
    step(0, ["edit"], b"i 0 hello\ni 2 XY\nr\n")
    room.equal("three members", step(0, ["stat"]).out.splitlines()[8:], [b"epochs 2", b"former 7"])
    for member in (1, 2):
        step(member, ["take"], step(0, ["send", str(member)]).out)
    step(0, ["take"], step(1, ["send", "0"]).out)
    room.equal("one acknowledges", step(0, ["stat"]).out.splitlines()[9], b"former 7")
    step(0, ["take"], step(2, ["send", "0"]).out)
    room.equal("both acknowledge", step(0, ["stat"]).out.splitlines()[7:], [b"unstable 0", b"epochs 1", b"former 0"])


def trials(room):
    """The trial is the same on every computer; it needs no replica, and no folder that may be read."""
    folder = room.replica("slots", None)
    found = room.run(folder, ["trial", "42", "20000"])
    lines = found.out.decode().splitlines()
    room.check("20,000 steps", found.status == 0 and len(lines) == 6 and len({tuple(line.split(" ")[2:]) for line in lines[2:5]}) == 1
               and lines[5] == "epochs 1 former 0", found)
    room.equal("the same again", room.run(folder, ["trial", "42", "20000"]), found)
    room.equal("the greatest seed", room.run(folder, ["trial", "2147483647", "0"]), Result(0, TRIAL_0.replace(b"42", b"2147483647"), b""))
    room.equal("the most steps", room.run(folder, ["trial", "1", "100000"]), Result(0, TRIAL_100000, b""))
    room.equal("nothing was made", files_of(folder), {})


TESTS = [("no-command", no_command), ("stores-nothing", stores_nothing), ("plays", plays), ("stored-bytes", stored_bytes), ("cuts", cuts),
         ("exchange", exchange), ("trials", trials)]
