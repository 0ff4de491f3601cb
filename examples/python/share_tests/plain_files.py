"""A plain file that any editor writes while it is synced: no save is lost, and nothing goes in twice."""
import os
import random
import re
import shutil
import signal
import subprocess
import sys
import textwrap
import time
from typing import Callable, Optional
from unittest import mock

from rls import Mailbox, Session
from rls import __main__ as program
from rls import files, kept_for, note
from rls.edits import applied
from rls.errors import RlsError
from rls.merge import carried

from . import TOP
from .people import Moment, Person, all_sync, started


def test_words() -> None:
    """Both change one line; one reflows a paragraph meanwhile."""
    ada, ben = started("words", "The quick brown fox jumps over the lazy dog, and the dog sleeps on. " * 12 + "\n")
    ada.write(textwrap.fill(ada.read(), 60) + "\n")
    text = ben.read()
    for k in range(5):
        at = text.index("lazy", 150 * k)
        text = text[:at] + f"very{k} " + text[at:]
    ben.write(text)
    for p in ada, ben, ada, ben:
        assert p.rls("sync") == 0, p.said
    assert ada.read() == ben.read() and all(f"very{k} lazy" in ada.read().replace("\n", " ") for k in range(5)), ada.read()
    assert len(ada.read().split()) == 14 * 12 + 5, ada.read()


def test_stale_save() -> None:
    """An editor that doesn't see that the file has changed saves what it has: what came meanwhile stays, and is deleted only if that is said."""
    ada, ben = started("stale-save", "alpha beta gamma\n")
    ben.write("alpha BEN beta gamma\n")
    ben.rls("sync")
    ada.rls("sync")
    assert ada.read() == "alpha BEN beta gamma\n"
    ada.write("alpha beta gamma ADA\n")                  # from the old state
    assert ada.rls("sync") == 0 and "older state" in ada.said, ada.said
    assert ada.read() == "alpha BEN beta gamma ADA\n", ada.read()
    ada.write("alpha beta gamma ADA\n")                  # the same again: she means it
    assert ada.rls("sync") == 0 and ada.read() == "alpha beta gamma ADA\n", (ada.read(), ada.said)
    ben.rls("sync")
    assert ben.read() == ada.read()
    for text in "one\n", "one two\n", "one\n", "two\n", "one two three\n", "one two\n":
        ben.write(text)                                 # what one has written oneself goes when one deletes it
        assert ben.rls("sync") == 0 and ben.read() == text and ben.said == "", (text, ben.said)
    ben.write("")
    assert ben.rls("sync") == 0 and ben.read() == "", ben.said       # a short text may go as a whole
    ben.write("long text\n" * 60)
    ben.rls("sync")
    ben.write("")
    assert ben.rls("sync") == 71 and "more than half" in ben.said, ben.said
    assert ben.rls("sync", "--mine", "a.md") == 0 and ben.read() == "", ben.said


def test_empty_file() -> None:
    """A file that is shared while it is empty: what is written into it later goes in, from whichever side."""
    ada, ben = started("empty", "")
    all_sync([ada, ben, ada])
    assert ada.said == "", ada.said
    ada.write("Bread\n")
    all_sync([ada, ben])
    assert ben.read() == "Bread\n", (ben.read(), ada.said)


def test_save_in_between() -> None:
    """An editor saves just when the file is to be replaced; and one that writes in place has it open."""
    real_renamed = files.renamed
    for kind, can in [("rename", True), ("in place", True), ("in two steps", True), ("rename", False), ("in place", False), ("in two steps", False)]:
        files.renamed = real_renamed if can else lambda a, b, how: False
        ada, ben = started(f"between-{kind.replace(' ', '-')}-{can}", "alpha beta gamma\n")
        ben.write("alpha BEN beta gamma\n")
        ben.rls("sync")
        ada.write("alpha beta gamma ADA\n")
        real, done = note.put, []

        def put(path: str, data: bytes, expected: Optional[bytes]) -> Optional[bytes]:
            if not done:
                done.append(1)
                if kind == "rename":
                    ada.write("alpha beta gamma ADA AGAIN\n")
                elif kind == "in place":
                    with open(path, "w", encoding="utf-8") as f:
                        f.write("alpha beta gamma ADA AGAIN\n")
                else:
                    # It has the old file open, and writes after that has lost its name.
                    subprocess.Popen([sys.executable, "-c", "import sys, time; f = open(sys.argv[1], 'w'); f.write('alpha beta '); f.flush(); time.sleep(.4); f.write('gamma ADA AGAIN\\n'); f.close()", path])
                    while os.path.getsize(path) != 11:
                        time.sleep(.01)
            return real(path, data, expected)
        note.put = put
        try:
            assert ada.rls("sync") == 0, ada.said
        finally:
            note.put, files.renamed = real, real_renamed
        ada.rls("sync")
        assert ada.read() == "alpha BEN beta gamma ADA AGAIN\n", (kind, ada.read(), ada.said)


def test_held_by_an_editor() -> None:
    ada, ben = started("held")
    with Session(ada.circle().replica(ada.circle().texts()[0].group)):
        ada.write("Bread and green tea\n")
        assert ada.rls("sync") == 73 and "has its replica open" in ada.said and "process" in ada.said, ada.said
    assert ada.rls("sync") == 0 and ben.rls("sync") == 0 and ben.read() == "Bread and green tea\n"


def test_kept() -> None:
    """A replica that has become large says for whom, once; and `who` shows it."""
    ada, ben = started("kept", members="3")
    kept_for.MOST_KEPT = 30_000
    ada.rls("sync")
    circle = ada.circle()
    with Session(circle.replica(circle.texts()[0].group)) as session:
        for _ in range(600):
            session.edit(["i 0 x", "i 0 y", "d 0 1"])
    ada.rls("sync")
    assert "kept, most of them for" in ada.said, ada.said
    ada.rls("sync")
    assert "kept" not in ada.said
    assert ada.rls("who") == 0 and re.search(r"1 Ben .* edits behind", ada.out), ada.out
    kept_for.MOST_KEPT = 1_000_000


def test_other_client() -> None:
    """A client with a mailbox of its own, as the plugins have, works in the replica of a circle, and others sync."""
    ada, ben = started("client")
    circle = ben.circle()
    folder = circle.replica(circle.texts()[0].group)
    with Session(folder) as session:
        box = Mailbox(ben.shared, session.head())
        ada.write("Bread and green tea\n")
        ada.rls("sync")
        box.sync(session)
        assert session.text() == "Bread and green tea\n"
        session.insert(0, "Brown ")
        box.sync(session)
    ada.rls("sync")
    assert ada.read() == "Brown Bread and green tea\n"
    assert ben.rls("sync") == 0 and ben.read() == ada.read()


def test_messages_stay() -> None:
    """A round in which there is something to be looked at, and nothing new to be sent, writes no message that is there."""
    ada, ben = started("stay")
    all_sync([ada, ben] * 3)

    def messages() -> "dict[str, int]":
        return {x: os.stat(os.path.join(ada.shared, x)).st_ino for x in os.listdir(ada.shared) if x.endswith(".rlsm")}
    before = messages()
    for p in ada, ben:
        for x in before:
            os.utime(os.path.join(ada.shared, x))
        os.utime(os.path.join(p.folder, "a.md"))
        all_sync([p, p])
    assert messages() == before


def test_killed() -> None:
    """`rls sync` is killed at any moment. No word is lost, and none comes twice."""
    ada, ben = started("killed")
    r, words = random.Random(5), []
    for k in range(int(os.environ.get("KILLS", "25"))):
        for p in ada, ben:
            p.add(f"k{k}{p.name}", r)
            words.append(f"k{k}{p.name}")
            env = {**os.environ, "RLS_HOME": p.home, "PYTHONPATH": TOP}
            process = subprocess.Popen([sys.executable, "-m", "rls", "sync"], env=env, cwd=p.folder, stderr=subprocess.DEVNULL, start_new_session=True)
            try:
                process.wait(r.uniform(0.05, float(os.environ.get("LATEST", "0.5"))))
            except subprocess.TimeoutExpired:
                os.killpg(process.pid, signal.SIGKILL)
                process.wait()
    for p in ada, ben, ada, ben:
        assert p.rls("sync", "--wait", "5") == 0, p.said
    assert ada.read() == ben.read()
    found = re.findall(r"k\d+(?:Ada|Ben)", ada.read())
    assert sorted(found) == sorted(words), ("lost", set(words) - set(found), "twice", [x for x in found if found.count(x) > 1])


def test_windows_file() -> None:
    """Line ends of Windows and a byte order mark stay in the file, and out of the text."""
    ada, ben = started("windows", "one\ntwo\n")
    ada.write("\ufeffone\r\n2\r\nthree\r\n")
    ada.rls("sync")
    ben.rls("sync")
    assert ben.read() == "one\n2\nthree\n", repr(ben.read())
    ben.write("zero\none\n2\nthree\n")
    ben.rls("sync")
    ada.rls("sync")
    assert ada.read() == "\ufeffzero\r\none\r\n2\r\nthree\r\n", repr(ada.read())


def test_carried() -> None:
    r = random.Random(1)

    def changed(s: str) -> str:
        for _ in range(r.randint(0, 4)):
            k = r.randint(0, len(s))
            s = s[:k] + r.choice(["X", "new words ", "\n", ""]) + s[k + r.choice([0, 0, 3, 9]):]
        return s
    for _ in range(600):
        base = "".join(r.choice("one two three four five".split()) + r.choice(" \n") for _ in range(r.randint(0, 30)))
        mine, theirs = changed(base), changed(base)
        assert applied(base, carried(base, mine, base)) == mine
        assert applied(mine, carried(base, mine, mine)) == mine
        assert applied(theirs, carried(base, base, theirs)) == theirs
        applied(theirs, carried(base, mine, theirs))


def test_dies_at_each_step() -> None:
    """Ben's `rls sync` stops at each of its steps, with something of his to go in and something of Ada's to come, at one place. No word is lost
    and none comes twice, and what he saves right after that goes in, too."""
    ada, ben = started("each", "one two three four\n")
    ada.write("one two ADA three four\n")
    all_sync([ada])
    ben.write("one two BEN three four\n")
    for step, how, died in Moment(ada, ben).at_each_step(5):
        died(ben.dies(step, how, "sync"))
        there = ben.read() if os.path.exists(os.path.join(ben.folder, "a.md")) else None
        if there is not None:
            ben.write(there.replace("four", "four LATER"))
        all_sync([ben, ada, ben, ada])
        wanted = ["ADA", "BEN"] + ["LATER"] * (there is not None) + ["four", "one", "three", "two"]
        assert ada.read() == ben.read() and sorted(ada.read().split()) == wanted, (how, step, there, ben.read())
        assert os.listdir(ben.folder) == ["a.md"], os.listdir(ben.folder)
        home = ben.circle().home
        assert not [x for x in os.listdir(home.folder) + os.listdir(home.path("texts")) if x.startswith(".new-")]


def test_dies_with_a_save_in_between() -> None:
    """The same, and an editor saves just when the file is to be replaced: from what was there before, and at the place of Ada's word."""
    ada, ben = started("each-between", "one two three four\n")
    ada.write("one two ADA three four\n")
    all_sync([ada])
    ben.write("one two BEN three four\n")
    for step, how, died in Moment(ada, ben).at_each_step(5):
        died(ben.dies(step, how, "sync", BETWEEN="one two BEN AGAIN three four\n"))
        all_sync([ben, ada, ben, ada])
        has_saved = os.path.exists(os.path.join(ben.home, "..", "saved"))
        wanted = ["ADA"] + ["AGAIN"] * has_saved + ["BEN", "four", "one", "three", "two"]
        assert ada.read() == ben.read() and sorted(ada.read().split()) == wanted, (how, step, ben.read())
        assert os.listdir(ben.folder) == ["a.md"], os.listdir(ben.folder)


def test_same_file_again() -> None:
    """A file that has lost most of its text isn't taken because somebody looks at it again: it has to be saved again."""
    ada, ben = started("again", "a long text of many words\n" * 20)
    ben.write("")
    for _ in range(4):
        assert ben.rls("sync") == 71 and "more than half" in ben.said, ben.said
    ben.write("")
    assert ben.rls("sync") == 0 and ben.read() == "", ben.said
    all_sync([ada])
    assert ada.read() == ""


def at_the_end_of_a_round(ben: Person, call: Callable[[], None]) -> None:
    """Something happens when a round has read and written all, and before it writes down what it has looked at."""
    real, done = note.Watched.close, []

    def close(self: note.Watched) -> None:
        if not done:
            done.append(1)
            home = os.environ["RLS_HOME"]
            call()
            os.environ["RLS_HOME"] = home
        real(self)
    note.Watched.close = close          # type: ignore[method-assign]
    try:
        all_sync([ben])
    finally:
        note.Watched.close = real       # type: ignore[method-assign]
    assert done


def test_message_in_between() -> None:
    """A message comes at the end of a round that has read the folder already: the next round sees it, though nothing changes any more."""
    ada, ben = started("message-between")
    all_sync([ada, ben] * 3)
    ada.write("Bread and green tea\n")
    ben.add("word", random.Random(1))
    at_the_end_of_a_round(ben, lambda: all_sync([ada]))
    assert "green" not in ben.read()
    all_sync([ben, ben])
    assert "green" in ben.read(), ben.read()


def test_save_at_the_end() -> None:
    """A save comes right after the file was looked at or written: the next round sees it, though nothing changes any more."""
    ada, ben = started("save-at-the-end")
    all_sync([ada, ben] * 3)
    message = os.path.join(ada.shared, f"{ada.circle().texts()[0].group}-0-1.rlsm")
    for text in None, "Bread and green tea\n":     # with nothing to be written into the file, and with something
        if text:
            ada.write(text)
            all_sync([ada])
        else:
            os.utime(message)
        at_the_end_of_a_round(ben, lambda: ben.add(f"word{text is None}", random.Random(1)))
        all_sync([ben, ada, ben])
        assert f"word{text is None}" in ada.read(), (text, ada.read())


def test_deleted_in_between() -> None:
    """A short file is deleted just when it is to be replaced: that deletes nothing of the text."""
    ada, ben = started("deleted-between", "alpha beta\n")
    ben.write("alpha BEN beta\n")
    all_sync([ben])
    real, done = note.put, []

    def put(path: str, data: bytes, expected: Optional[bytes]) -> files.Put:
        if not done:
            done.append(1)
            os.unlink(path)
        return real(path, data, expected)
    note.put = put
    try:
        all_sync([ada])
    finally:
        note.put = real
    all_sync([ada, ben])
    assert ada.read() == ben.read() == "alpha BEN beta\n", (ada.read(), ben.read())


def test_stopped_before_an_editor() -> None:
    """A round was stopped before its edits were stored; then an editor opens the text, as `rls where` tells, and makes operations. What the file
    had goes in still, once."""
    ada, ben = started("before-editor", "one two three\n")
    ben.write("one two BEN three\n")
    step = 1
    while ben.dies(step, "all", "sync"):
        with open(note_of(ben).kept, encoding="utf-8") as f:
            pending = '"pending": [' in f.read()
        if pending:
            break
        step += 1
    assert pending
    assert ben.rls("where", ben.shared) == 0
    folder = ben.out.split("\t")[0]
    with Session(folder) as session:
        for k in range(5):
            session.insert(0, f"editor{k} ")
    all_sync([ben, ada, ben])
    assert ada.read() == ben.read() and ada.read().count("BEN") == 1 and ada.read().count("editor") == 5, ada.read()


def test_stopped_before_a_client() -> None:
    """The same with a client that opens the replica by itself and makes fewer operations than were to go in."""
    ada, ben = started("before-client", "one two three four five\n")
    ben.write("one BEN two three BEN four five\n")
    step = 1
    while ben.dies(step, "all", "sync"):
        with open(note_of(ben).kept, encoding="utf-8") as f:
            if '"pending": [' in f.read():
                break
        step += 1
    with Session(ben.circle().replica(ben.circle().texts()[0].group)) as session:
        session.insert(0, "client ")
    all_sync([ben, ada, ben])
    assert ada.read() == ben.read() == "client one BEN two three BEN four five\n", ada.read()


def note_of(p: Person) -> note.Note:
    circle = p.circle()
    return note.Note(circle, circle.texts()[0], None, print)


def test_long_writer() -> None:
    """A program opens the file just before it is replaced, and writes for longer than anybody waits. What it writes goes in once it has closed it."""
    ada, ben = started("long-writer", "alpha beta gamma\n")
    ben.write("alpha BEN beta gamma\n")
    all_sync([ben])
    real, done, before = note.put, [], files.MOST_OPEN
    files.MOST_OPEN = 0.3

    def put(path: str, data: bytes, expected: Optional[bytes]) -> files.Put:
        if not done:
            done.append(open(path, "r+", encoding="utf-8"))
        return real(path, data, expected)
    note.put = put
    try:
        assert ada.rls("sync") == 73 and "another program is writing" in ada.said, ada.said
        assert ada.rls("sync") == 73, ada.said
        done[0].write("alpha beta gamma LATER\n")
        done[0].close()
        all_sync([ada, ben, ada])
    finally:
        note.put, files.MOST_OPEN = real, before
    assert ada.read() == ben.read() == "alpha BEN beta gamma LATER\n", ada.read()
    assert os.listdir(ada.folder) == ["a.md"]


def test_one_bad_file() -> None:
    """One file is no text, and one is a folder: they are told, and all others are exchanged."""
    ada, ben = started("bad-file")
    ben.write("one\n", "b.md"), ben.write("two\n", "c.md")
    assert ben.rls("share", ben.shared, "b.md", "c.md") == 0
    with open(os.path.join(ben.folder, "a.md"), "wb") as f:
        f.write(b"\xff\xfe no text")
    os.unlink(os.path.join(ben.folder, "b.md"))
    os.mkdir(os.path.join(ben.folder, "b.md"))
    ben.write("two and three\n", "c.md")
    status = ben.rls("sync")
    assert status in (4, 8) and "a.md: " in ben.said and "b.md: " in ben.said and "UTF-8" in ben.said, (status, ben.said)
    assert ada.rls("share", ada.shared, ".") == 0 and ben.rls("sync") in (4, 8) and ada.rls("sync") == 0, ada.said
    assert ada.read("c.md") == "two and three\n", (ada.read("c.md"), ben.said, os.listdir(ada.folder))


def test_watch() -> None:
    """`rls sync --watch` goes on until it is ended, over a folder that is away for a moment."""
    ada, ben = started("watch")
    env = {**os.environ, "RLS_HOME": ben.home, "PYTHONPATH": TOP}
    p = subprocess.Popen([sys.executable, "-m", "rls", "sync", "--watch", "--every", "0.05"], env=env, cwd=ben.folder, stderr=subprocess.DEVNULL)
    try:
        for k in range(3):
            ada.write(f"Bread and {k}\n")
            all_sync([ada])
            os.rename(ada.shared, ada.shared + ".away")
            time.sleep(0.2)
            shutil.rmtree(ada.shared, ignore_errors=True)       # made anew, if it went in the middle of a round
            os.rename(ada.shared + ".away", ada.shared)
            end = time.monotonic() + 60
            while ben.read() != ada.read() and time.monotonic() < end:
                time.sleep(0.05)
            assert ben.read() == ada.read() and p.poll() is None, k
    finally:
        p.kill()
        p.wait()


def test_watch_ends() -> None:
    """A Ctrl-C ends `rls sync --watch`, also if leaving the round fails, since what it started was ended too."""
    def interrupted(*words: object) -> None:
        try:
            raise KeyboardInterrupt
        finally:
            raise RlsError(130, "the session ended")

    _, ben = started("ends")
    with mock.patch.dict(os.environ, {"RLS_HOME": ben.home}), mock.patch.object(program, "one_round", interrupted):
        assert program.main(["sync", "--watch", ben.shared]) == 130
