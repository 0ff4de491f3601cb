"""Power failures after a sync that failed, as Linux does it: the error is told once, what wasn't written is taken for written, and reads go on to
give it. So a later sync answers Ok and writes nothing of it, and a stop leaves what the disk had, or any part of it. Whatever is written anew
makes its whole block dirty: the next sync that succeeds writes the block as it is read. Names of files aren't lost so; they are the
journal's, without which a file system is written no more; `ForgetfulDisk` is one that loses them too."""
from forms import FRESH, HELLO, fresh
from room import KINDS, kept
from stops import TEXTS, Disk, Inode, Opener, apply, begin, chains, chosen_of, judged, rename, shows

BLOCK = 512


class LossyInode(Inode):
    """A file. `lost` is what syncs that failed took for written."""

    def __init__(self, synced=b""):
        super().__init__(synced)
        self.lost = []

    def sync(self):
        blocks = {at // BLOCK for _, start, data in self.pending for at in range(start, start + max(1, len(data)))}
        content = bytearray(self.synced[:len(self.seen)].ljust(len(self.seen), b"\0"))
        for block in blocks:
            content[block * BLOCK:(block + 1) * BLOCK] = self.seen[block * BLOCK:(block + 1) * BLOCK]
        self.lost = [part for what in self.lost for part in outside(what, blocks)]
        self.synced, self.pending = bytes(content), []

    def sync_fails(self):
        self.lost, self.pending = self.lost + self.pending, []

    def variants(self):
        found = {self.synced}
        for chosen in chosen_of(self.lost + self.pending):
            content = self.synced
            for part in chosen:
                content = apply(content, part)
            found.add(content)
        return found


def outside(what, blocks):
    """The parts of a change that lie in none of these blocks."""
    kind, at, data = what
    if kind == "size":
        return []
    ends = range(at - at % BLOCK, at + len(data), BLOCK)
    return [(kind, max(at, start), data[max(at, start) - at:start + BLOCK - at]) for start in ends if start // BLOCK not in blocks]


class LossyDisk(Disk):
    inode = LossyInode


class ForgetfulDisk(LossyDisk):
    """A folder of a file system that is worse than the one that is assumed: what a sync of the folder that failed hasn't written of its names, no later
    one writes, though it answers Ok. So there are two sets of names, with these and without, and each later change is one of both."""

    def __init__(self, files):
        super().__init__(files)
        self.other_names = None

    def play(self, line):
        if line[0] in ("fsync", "unsynced") and self.open_files.get(int(line[1])) == "folder":
            if line[0] == "unsynced" and self.pending_names and self.other_names is None:
                self.other_names = dict(self.synced_names)
            elif self.other_names is not None:
                replay(self.other_names, self.pending_names)
            if line[0] == "unsynced":
                self.synced_names, self.pending_names = dict(self.names), []
        return super().play(line)

    def images(self):
        yield from super().images()
        if self.other_names is not None:
            known, self.synced_names = self.synced_names, self.other_names
            yield from super().images()
            self.synced_names = known


def replay(names, changes):
    for what, first, second in changes:
        if what == "make":
            names[first] = second
        else:
            rename(names, first, second)


def forgets(room):
    """On such a disk a store of the slots, which changes no name, is as safe as ever. After one of `replica.rls` that failed either file may be there,
    also once the text was shown; the next store that succeeds decides."""
    for kind in KINDS:
        opener = Opener(room)
        folder, _ = begin(room, kind, FRESH, {})
        room.run(folder, ["edit"], b"i 0 hello\n", calls={})
        for first in range(1, room.counts()[0]["fsync"] + 1):
            folder, disk = begin(room, kind, FRESH, {}, ForgetfulDisk)
            what = "%s: edit without sync %d" % (kind, first)
            room.equal(what, played(room, folder, disk, ["edit"], b"i 0 hello\n", first), 7)
            room.check(what + ": a stop", judged(room, opener, disk, {FRESH, HELLO}, what))
            room.equal(what + ", then text", played(room, folder, disk, ["text"], b"", 0), 0)
            left = {kept(folder)} if kind == "slots" else {FRESH, HELLO}
            room.check(what + ", then text, and a stop", judged(room, opener, disk, left, what + ", then text"))
            shown = room.text(folder)[1]
            room.equal(what + ", then edit", played(room, folder, disk, ["edit"], b"i 0 X\n", 0), 0)
            TEXTS.setdefault(kept(folder), (0, b"X" + shown, b""))
            room.check(what + ", then edit, and a stop", judged(room, opener, disk, {kept(folder)}, what + ", then edit"))


def fails_again(room, kind):
    """A store whose sync fails, then a text, an edit or both whose syncs fail too, and then one of which all goes well."""
    opener = Opener(room)
    folder, _ = begin(room, kind, FRESH, {})
    room.run(folder, ["edit"], b"i 0 hello\n", calls={})
    number = room.counts()[0]["fsync"]
    for first in range(1, number + 1):
        for words, given in ((["text"], b""), (["edit"], b"i 0 hello\n")):
            for second in range(1, number + 1):
                again(room, opener, kind, first, words, given, second)


def again(room, opener, kind, first, words, given, second):
    folder, disk = begin(room, kind, FRESH, {}, LossyDisk)
    what = "edit without sync %d, %s without sync %d" % (first, words[0], second)
    played(room, folder, disk, ["edit"], b"i 0 hello\n", first)
    before = {FRESH, HELLO}
    shown = room.text(folder)
    played(room, folder, disk, words, given, second)
    after = kept(folder)
    TEXTS.setdefault(after, (0, shown[1] if words == ["text"] else b"hello" + shown[1], b""))
    room.check(what + ": a stop", judged(room, opener, disk, before | {after}, what))
    status = played(room, folder, disk, ["text"], b"", 0)
    room.equal(what + ", then text", (status, kept(folder)), (0, after))
    room.check(what + ", then text, and a stop", judged(room, opener, disk, {after}, what + ", then text"))


def played(room, folder, disk, words, given, failing):
    """Runs a command of which this sync fails, and plays it to the disk. Answers its status."""
    calls = {"RECORD": room.record_path}
    if failing:
        calls["FAIL"] = "fsync:%d:5" % failing
    result = room.run(folder, words, given, calls=calls)
    for line in room.record():
        disk.play(line)
    disk.open_files = {}
    return result.status


TESTS = [("lost-chains-slots", lambda room: chains(room, "slots", LossyDisk)), ("lost-chains-file", lambda room: chains(room, "file", LossyDisk)),
         ("lost-again-slots", lambda room: fails_again(room, "slots")), ("lost-again-file", lambda room: fails_again(room, "file")),
         ("lost-names", forgets)]
