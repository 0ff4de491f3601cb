"""Plays the traces with the program, the rival, the floor and Yjs, and compares what they print and store."""
import os
import sys

import make
from measuring import HERE, kept, read, same_bytes, stored

# The commands that the rival has too.
SHARED = ("edit", "text", "send", "take")


# --- One who types, and one who takes the whole history

def commands(bench, script):
    """What is timed of a trace by one member, each by a name: words, folder, input. Each is ready to run once those before it have run."""
    program, floor, room = bench.program, bench.floor, bench.room
    writer, session, reader = (os.path.join(room, name) for name in ("writer", "session", "reader"))
    message, lines = os.path.join(room, "message"), os.path.join(room, "lines")
    plain = os.path.join(room, "plain")
    listed = {
        "edit": ([program, "edit"], writer, script),
        "floor edit": ([floor, "edit", plain], room, script),
        "session": ([program, "session"], session, lines),
        "text": ([program, "text"], writer, os.devnull),
        "floor copy of the stored file": ([floor, "copy", os.path.join(room, "stored")], room, os.devnull),
        "floor copy of the text": ([floor, "copy", plain], room, os.devnull),
        "send": ([program, "send", "1"], writer, os.devnull),
        "take": ([program, "take"], reader, message),
        "rival edit": ([bench.rival, "edit"], os.path.join(room, "rival"), script),
        "rival text": ([bench.rival, "text"], os.path.join(room, "rival"), os.devnull),
        "rival send": ([bench.rival, "send", "1"], os.path.join(room, "rival"), os.devnull),
        "rival take": ([bench.rival, "take"], os.path.join(room, "rival-reader"), message),
    }
    if bench.node:
        yjs, first, second = [bench.node, f"{HERE}/yjs.js"], os.path.join(room, "yjs"), os.path.join(room, "yjs-taken")
        listed["Yjs edit"] = ([*yjs, "edit", first], room, script)
        listed["Yjs text"] = ([*yjs, "text", first], room, os.devnull)
        listed["Yjs take"] = ([*yjs, "take", second], room, first)
    return listed


def begin(bench, script):
    """Fresh replicas, and no text of the floor's."""
    bench.member("writer", 0, 2)
    bench.member("session", 0, 2)
    bench.member("reader", 1, 2)
    bench.member("rival", 0, 2, bench.rival)
    bench.member("rival-reader", 1, 2, bench.rival)
    for name in ("plain", "yjs", "yjs-taken"):
        if os.path.exists(os.path.join(bench.room, name)):
            os.remove(os.path.join(bench.room, name))
    bench.file("lines", read(script) + b"q\n")


def keep(bench, name):
    """Keeps what a command has printed or stored, if a later one needs it, and compares it with what it has to be."""
    folder = {what: os.path.join(bench.room, what) for what in ("writer", "reader", "rival", "rival-reader")}
    if name == "edit":
        bench.file("stored", kept(folder["writer"]))
    elif name in ("text", "rival text", "Yjs text"):
        if bench.output() != read(os.path.join(bench.room, "plain")):
            sys.exit(f"{name} isn't the floor's text")
    elif name == "send":
        bench.file("message", bench.output())
    elif name == "rival send":
        same_bytes(read(os.path.join(bench.room, "message")), bench.output(), "messages")
    elif name == "rival edit":
        same_bytes(kept(folder["writer"]), kept(folder["rival"]), "files")
    elif name == "rival take":
        same_bytes(kept(folder["reader"]), kept(folder["rival-reader"]), "files after the message")


def same_text(bench, folder):
    bench.run([bench.program, "text"], os.path.join(bench.room, folder))
    return bench.output() == read(os.path.join(bench.room, "plain"))


def counted(bench, name, edits):
    """The instructions of each command of the program and of the rival for a trace of so many edits."""
    script = bench.file("script", make.script(name, edits))
    begin(bench, script)
    told = {}
    for what, (words, folder, given) in commands(bench, script).items():
        if words[0] in (bench.program, bench.rival):
            told[what] = bench.instructions(words, bench.fresh("copy", folder), given)
            bench.note(trace=name, edits=edits, what=what, instructions=told[what])
        if not what.startswith("Yjs"):
            bench.run(words, folder, given)
            keep(bench, what)
    return told


def timed(bench, name, edits):
    """The seconds and the greatest memory of each command for a trace of so many edits."""
    script = bench.file("script", make.script(name, edits))
    seconds, memory = {}, {}
    for _ in range(bench.times):
        begin(bench, script)
        for what, (words, folder, given) in commands(bench, script).items():
            spent, most = bench.run(words, folder, given)
            seconds[what] = min(spent, seconds.get(what, spent))
            memory[what] = max(most, memory.get(what, 0))
            keep(bench, what)
        if not same_text(bench, "session") or not same_text(bench, "reader"):
            sys.exit(f"{name}: the texts differ")
    for what in seconds:
        bench.note(trace=name, edits=edits, what=what, seconds=seconds[what], memory=memory[what])
    sizes = {"stored": stored(os.path.join(bench.room, "writer")), "sent": os.path.getsize(os.path.join(bench.room, "message")),
             "text": os.path.getsize(os.path.join(bench.room, "plain"))}
    if bench.node:
        sizes["Yjs stored"] = os.path.getsize(os.path.join(bench.room, "yjs"))
    for what, size in sizes.items():
        bench.note(trace=name, edits=edits, what=what, bytes=size)
    return seconds, memory, sizes


# --- Four who type at once

class Exchange:
    """Rounds of four members: the sums of the seconds of each command, the greatest memory, the bytes sent, and the instructions of the last round."""

    def __init__(self, bench):
        self.bench, self.seconds, self.work, self.memory, self.sent, self.counts = bench, {}, {}, {}, 0, False
        self.folders = [bench.member(f"member{k}", k, 4) for k in range(4)]
        self.rivals = [bench.member(f"rival{k}", k, 4, bench.rival) for k in range(4)]
        self.plain = bench.file("plain", b"")

    def spend(self, what, words, folder, given=os.devnull, counted=False):
        if self.counts and counted:
            self.work[what] = self.work.get(what, 0) + self.bench.instructions(words, self.bench.fresh("copy", folder), given)
        spent, memory = self.bench.run(words, folder, given)
        self.seconds[what] = self.seconds.get(what, 0) + spent
        self.memory[what] = max(memory, self.memory.get(what, 0))
        return self.bench.output()

    def both(self, command, words, k, given=os.devnull):
        """A command of member k by the program and by the rival, which print and store the same."""
        bench = self.bench
        printed = self.spend(command, [bench.program, command, *words], self.folders[k], given, True)
        same_bytes(printed, self.spend(f"rival {command}", [bench.rival, command, *words], self.rivals[k], given, True), f"what `{command}` prints")
        same_bytes(kept(self.folders[k]), kept(self.rivals[k]), f"files after `{command}`")
        return printed

    def round(self, scripts):
        bench, messages = self.bench, {}
        for k, script in enumerate(scripts):
            given = bench.file("script", ("\n".join(script) + "\n").encode())
            self.both("edit", [], k, given)
            self.spend("floor edit", [bench.floor, "edit", bench.file("own", read(self.plain))], bench.room, given)
        for k in range(4):
            for to in (to for to in range(4) if to != k):
                messages[k, to] = bench.file(f"message{k}{to}", self.both("send", [str(to)], k))
                self.sent += os.path.getsize(messages[k, to])
        for (_, to), message in messages.items():
            self.both("take", [], to, message)
        bench.run([bench.program, "text"], self.folders[0])
        bench.file("plain", bench.output())

    def end(self):
        for k in range(4):
            if self.both("text", [], k) != read(self.plain):
                sys.exit("four: the texts differ")
        newest = self.bench.file("stored", kept(self.folders[0]))
        for _ in self.folders:
            self.spend("floor copy of the stored file", [self.bench.floor, "copy", newest], self.bench.room)


def exchange(bench, turns, count_last=False):
    played = Exchange(bench)
    for number, scripts in enumerate(turns):
        played.counts = count_last and number == len(turns) - 1
        played.round(scripts)
    played.end()
    return played
