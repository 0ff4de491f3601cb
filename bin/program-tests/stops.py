"""Power failures. What a command does to its files is recorded, call by call, and played to a model of a disk; after each call every state that
the disk may have after a stop is put into a folder and opened by the program: it shows the old text or the new one.

The disk is the one that docs/DURABILITY.md assumes. A write that isn't synced may be there, be missing, be there in part, or be something else,
whatever became of the writes before and after it; so may the cutting off of a file that is opened anew. A name that is made or changed is there
for sure once the folder is synced, and may be missing before. A sync that fails leaves everything as unsure as it was; on the disk of `lost.py`
what it hasn't written is written by no later one, as on Linux."""
import itertools
import os
from commands import HELLO_1, LEFT
from forms import FRESH, HELLO, HELLO_2, HELLO_3, HELLO_MESSAGE, JOURNAL, file4, fresh, run, text, typed
from room import files_of, kept, kept_in


class Inode:
    """A file: what was synced, what isn't yet, and what a read gives."""

    def __init__(self, synced=b""):
        self.synced, self.pending, self.seen = synced, [], synced

    def change(self, what):
        self.pending.append(what)
        self.seen = apply(self.seen, what)

    def sync(self):
        self.synced, self.pending = self.seen, []

    def sync_fails(self):
        """All stays pending."""

    def variants(self):
        """All that a stop may leave."""
        found = {self.synced}
        for chosen in chosen_of(self.pending):
            content = self.synced
            for what in chosen:
                content = apply(content, what)
            found.add(content)
        return found


def chosen_of(pending):
    """What may be there of changes that aren't synced: of each any part, whatever of the others. A program that doesn't sync has many, and so many
    states that a few tell it: all changes but one are there then, or none."""
    if len(pending) <= 6:
        yield from itertools.product(*(torn(what) for what in pending))
        return
    for others in (pending, [None] * len(pending)):
        for number, what in enumerate(pending):
            for part in torn(what):
                yield [*others[:number], part, *others[number + 1:]]


def apply(content, what):
    if what is None:
        return content
    kind, at, data = what
    if kind == "size":
        return content[:at] + bytes(max(0, at - len(content)))
    return content[:at] + bytes(max(0, at - len(content))) + data + content[at + len(data):]


def torn(what):
    """What a stop may leave of one change: nothing, all, one half, or other bytes."""
    kind, at, data = what
    if kind == "size":
        return [None, what]
    if len(data) == 1:
        return [None, what] + [(kind, at, bytes([byte])) for byte in (0, 1, 254, 255)]
    half = len(data) // 2
    return [None, what, (kind, at, data[:half]), (kind, at + half, data[half:]), (kind, at, bytes(len(data))), (kind, at, b"\xff" * len(data))]


class Disk:
    """A folder on a disk."""
    inode = Inode

    def __init__(self, files):
        self.names = {name: self.inode(content) for name, content in files.items()}
        self.synced_names, self.pending_names, self.open_files = dict(self.names), [], {}

    def play(self, line):
        """One call. Answers whether it may change what a stop leaves."""
        call = line[0]
        if call == "reply":
            return False
        if call == "open":
            number, is_new, is_cut, name = int(line[1]), line[2] == "1", line[3] == "1", line[4]
            if name == ".":
                self.open_files[number] = "folder"
            elif "/" not in name:
                if is_new:
                    self.names[name] = self.inode()
                    self.pending_names.append(("make", name, self.names[name]))
                self.open_files[number] = self.names[name]
                if is_cut and self.names[name].seen:
                    self.names[name].change(("size", 0, b""))
            return is_new or is_cut
        if call == "rename":
            self.pending_names.append(("rename", line[1], line[2]))
            rename(self.names, line[1], line[2])
            return True
        file = self.open_files.get(int(line[1]))
        if call == "close":
            self.open_files.pop(int(line[1]), None)
        elif call == "write" and file is not None:
            file.change(("write", int(line[2]), bytes.fromhex(line[3])))
        elif call == "truncate" and file is not None:
            file.change(("size", int(line[2]), b""))
        elif call == "fsync" and file == "folder":
            self.synced_names, self.pending_names = dict(self.names), []
        elif call == "fsync" and file is not None:
            file.sync()
        elif call == "unsynced" and file not in (None, "folder"):
            file.sync_fails()
        return call in ("write", "truncate", "fsync")

    def images(self):
        """Each folder that a stop may leave now."""
        seen = set()
        for chosen in itertools.product((False, True), repeat=len(self.pending_names)):
            names = dict(self.synced_names)
            for is_there, (what, first, second) in zip(chosen, self.pending_names):
                if is_there and what == "make":
                    names[first] = second
                elif is_there:
                    rename(names, first, second, self.names)
            key = tuple(sorted((name, id(inode)) for name, inode in names.items()))
            if key in seen:
                continue
            seen.add(key)
            order = sorted(names)
            for contents in itertools.product(*(names[name].variants() for name in order)):
                yield dict(zip(order, contents))


def rename(names, first, second, all_names=None):
    """Renames. A name that is renamed may be missing on the disk, where the new one came without it."""
    inode = names.pop(first, None) or (all_names or names).get(second)
    if inode is not None:
        names[second] = inode


class Opener:
    """Opens images by the program, each once."""

    def __init__(self, room):
        self.room, self.shown, self.count = room, {}, 0

    def text(self, image):
        key = tuple(sorted((name, content if len(content) < 100 else (len(content), hash(content))) for name, content in image.items()))
        if key not in self.shown:
            self.count += 1
            folder = self.room.replica("slots", None, "image", image)
            result = self.room.run(folder, ["text"], calls={})
            self.shown[key] = (result.status, result.out, result.err)
            if self.count % 20 == 0:
                self.goes_on(folder, self.shown[key], image)
        return self.shown[key]

    def goes_on(self, folder, shown, image):
        """What a stop left can be worked with."""
        if shown[0] == 2:
            done, wanted = self.room.run(folder, ["new", "7", "0", "2"]).status, b""
        else:
            has_left = kept_in(image) == LEFT
            done, wanted = self.room.run(folder, ["edit"], b"i 0 X\n").status - 6 * has_left, b"X" * (not has_left) + shown[1]
        self.room.equal("it goes on after a stop", (done, self.room.text(folder)), (0, (0, wanted, b"")))


NOTHING = (2, b"", b"no replica\n")


def shows(content):
    """What `text` has to show of a stored file of these tests."""
    return NOTHING if content is None else TEXTS[content]


def sole(number, used, size):
    """The file of a sole member after so many operations, whose text is one run of this many letters; `used` were ever in it."""
    return file4(7, 1, 0, (number,), [], [[(1, 0, used)]], [run(typed(0, 1, 0), size) + text(b"abcdefgh" * (size // 8))])


SMALL, BIG = sole(1, 16, 16), sole(1, 300000, 300000)
# What the oldest form becomes: `hello` of a sole member.
JOURNAL_4 = file4(7, 1, 0, (1,), [], [[(1, 0, 5)]], [run(typed(0, 1, 0), 5) + text(b"hello")])
TEXTS = {FRESH: (0, b"", b""), fresh(1): (0, b"", b""), HELLO: (0, b"hello", b""), HELLO_1: (0, b"hello", b""), LEFT: (0, b"hello", b""),
         SMALL: (0, b"abcdefgh" * 2, b""), BIG: (0, b"abcdefgh" * 37500, b""), sole(2, 300000, 16): (0, b"abcdefgh" * 2, b""),
         sole(2, 300000, 300000): (0, b"abcdefgh" * 37500, b""), **{content: (0, b"hello", b"") for content in (HELLO_2, HELLO_3, JOURNAL, JOURNAL_4)}}

# A name, the kind of folder, the files at first, the words and the input.
SLOT_STORES = [
    ("new", None, {}, ["new", "7", "0", "2"], b""),
    ("new over what a stopped one left", None, {"replica.0": b"\0\0\0\0\0\0\0\x42RLSF", "replica.1": b""}, ["new", "7", "0", "2"], b""),
    ("new over an empty gate", None, {"replica.0": b"", "replica.gate": b""}, ["new", "7", "0", "2"], b""),
    ("edit", FRESH, {}, ["edit"], b"i 0 hello\n"),
    ("edit over a longer slot", FRESH, {"replica.1": b"\0\0\0\0\0\0\1\0" + b"z" * 256}, ["edit"], b"i 0 hello\n"),
    ("edit over a missing slot", FRESH, {"replica.1": None}, ["edit"], b"i 0 hello\n"),
    ("edit into slot 0", FRESH, {"replica.gate": b"\1"}, ["edit"], b"i 0 hello\n"),
    ("take", fresh(1), {}, ["take"], HELLO_MESSAGE),
    ("leave", HELLO, {}, ["leave"], b""),
    ("session", FRESH, {}, ["session"], b"i 0 hello\nt\n"),
    ("shorter", BIG, {}, ["edit"], b"d 16 299984\n"),
    ("longer", SMALL, {}, ["edit"], b"i 16 " + b"abcdefgh" * 37498 + b"\n"),
    ("a file of form 1 becomes one of form 4", JOURNAL, {}, ["edit"], b""),
    ("a file of form 2 becomes one of form 4", HELLO_2, {}, ["edit"], b""),
    ("a file of form 3 becomes one of form 4", HELLO_3, {}, ["edit"], b""),
]
FILE_STORES = [(name, content, {}, words, given) for name, content, _, words, given in SLOT_STORES if content is not None and "slot" not in name] + [
    ("edit over what was left over", FRESH, {"replica.rls.new": b"z" * 500}, ["edit"], b"i 0 hello\n")]


def begin(room, kind, content, extra, make=Disk):
    folder = room.replica(kind, content)
    for name, data in extra.items():
        path = os.path.join(folder, name)
        if data is None:
            os.unlink(path)
            continue
        with open(path, "wb") as file:
            file.write(data)
    return folder, make(files_of(folder))


def judged(room, opener, disk, allowed, what):
    """Whether each state that a stop leaves now is allowed: what is stored by docs/DURABILITY.md, and what the program shows of it."""
    wanted = {shows(content) for content in allowed}
    for image in disk.images():
        content, shown = kept_in(image), opener.text(image)
        if content not in allowed or shown not in wanted:
            room.check(what, False, {name: data[:200] for name, data in image.items()}, shown)
            return False
    return True


def begins(line):
    """Whether a call begins to store. The second byte of the gate is written by loads too."""
    return line[0] == "rename" or (line[0] == "open" and line[2:4] != ["0", "0"]) or (line[0] == "write" and line[2:] != ["1", "00"])


def follow(room, opener, disk, lines, before_write, after_write, what):
    """Plays recorded calls to the disk, and stops after each. Until the first write one set of stored files may be left, from then on another."""
    allowed = before_write
    right = judged(room, opener, disk, allowed, what + ": at first")
    for number, line in enumerate(lines):
        if begins(line):
            allowed = after_write
        if disk.play(line) and not judged(room, opener, disk, allowed, "%s: after call %d, %s" % (what, number, " ".join(line)[:60])):
            right = False
            break
    return right


def stores(room, kind, rows):
    """One store from a disk where all is synced."""
    opener = Opener(room)
    for name, content, extra, words, given in rows:
        folder, disk = begin(room, kind, content, extra)
        result = room.run(folder, words, given, calls={"RECORD": room.record_path})
        new = kept(folder)
        if room.equal(name + ": its status, and what it stored", (result.status, shows(new)[0]), (0, 0)) and new != content:
            lines = room.record()
            right = follow(room, opener, disk, lines, {content}, {content, new}, name)
            room.check(name + ": each stop", right)
            room.check(name + ": a stop after it", judged(room, opener, disk, {new}, name + ": a stop after status 0"))
            sees(room, kind, content, extra, lines, new, name)
    room.check("many states were looked at", opener.count > 40, opener.count)


def sees(room, kind, content, extra, lines, new, name):
    """Without one of the syncs after the first write the model finds a wrong state: so it sees what a store forgets. (The slots of a first
    store are synced twice over: their names, and what they hold.)"""
    first = [line[0] == "write" and begins(line) for line in lines].index(True)
    for number in range(first, len(lines)):
        if lines[number][0] != "fsync":
            continue
        _, disk = begin(room, kind, content, extra)
        found = False
        for at, line in enumerate(lines):
            if at != number:
                disk.play(line)
                found = found or (at > first and any(kept_in(image) not in (content, new) for image in disk.images()))
        found = found or any(kept_in(image) != new for image in disk.images())
        room.check("%s: a store without sync %d is refused" % (name, number), found)


def chains(room, kind, make=Disk):
    """A command that is killed at each call, or whose call fails, and then another one: over what the first left unsynced."""
    opener = Opener(room)
    commands = [(FRESH, ["edit"], b"i 0 hello\n")] + ([(None, ["new", "7", "0", "2"], b"")] if kind == "slots" else [])
    for content, words, given in commands:
        folder, _ = begin(room, kind, content, {})
        room.run(folder, words, given, calls={})
        new, (counts, _) = kept(folder), room.counts()
        ways = [{"KILL": "%s:%d:%s" % (call, number, how)} for call, hows in (("write", ("half", "after")), ("fsync", ("after",)), ("rename", ("after",)), ("open", ("after",)))
                for number in range(1, counts[call] + 1) for how in hows]
        ways += [{"FAIL": "%s:%d:%d" % (call, number, error)} for call, error in (("write", 28), ("fsync", 5), ("rename", 5), ("open", 5))
                 for number in range(1, counts[call] + 1)]
        for way in ways:
            folder, disk = begin(room, kind, content, {}, make)
            room.run(folder, words, given, calls=dict(way, RECORD=room.record_path))
            for line in room.record():
                disk.play(line)
            disk.open_files = {}
            what = "%s, %s" % (words[0], way)
            kept_now = kept(folder)
            if not room.check(what + ": old or new", kept_now in (content, new) and judged(room, opener, disk, {content, new}, what + ": a stop at once")):
                continue
            second(room, opener, folder, disk, {content, new}, kept_now, what)


def second(room, opener, folder, disk, before, kept_now, what):
    """Looks at the text, or stores, over what a command left."""
    words, given = (["new", "7", "0", "2"], b"") if kept_now is None else (["edit"], b"d 0 1\n" if kept_now == HELLO else b"i 0 hello\n")
    shown = room.run(folder, ["text"], calls={"RECORD": room.record_path})
    lines = room.record()
    room.equal(what + ", then text", (shown.status, shown.out, shown.err), shows(kept_now))
    right = follow(room, opener, disk, lines, before, before, what + ", then text")
    # From then on a stop leaves what was shown.
    room.check(what + ", then text, and a stop", right and judged(room, opener, disk, {kept_now}, what + ": a stop after the text was shown"))
    disk.open_files = {}
    result = room.run(folder, words, given, calls={"RECORD": room.record_path})
    newest = kept(folder)
    TEXTS.setdefault(newest, (0, b"ello" if kept_now == HELLO else b"hello" if kept_now == FRESH else b"", b""))
    right = room.equal(what + ", then " + words[0], (result.status, room.text(folder)), (0, TEXTS[newest]))
    right = right and follow(room, opener, disk, room.record(), {kept_now}, {kept_now, newest}, "%s, then %s" % (what, words[0]))
    room.check("%s, then %s, and a stop" % (what, words[0]), right and judged(room, opener, disk, {newest}, what + ": a stop after the second"))


TESTS = [("stops-slots", lambda room: stores(room, "slots", SLOT_STORES)), ("stops-file", lambda room: stores(room, "file", FILE_STORES)),
         ("stops-chains-slots", lambda room: chains(room, "slots")), ("stops-chains-file", lambda room: chains(room, "file"))]
