"""Kills at random moments, two programs at once behind the launcher, and a `new` that was stopped and is begun again there."""
import os
import random
import shutil
import signal
import subprocess
import time
from commands import HELLO_1, edits, took
from forms import FRESH, HELLO, HELLO_MESSAGE, file4, fresh, run, text, typed
from room import KINDS, files_of, kept
from stops import begin

LETTERS = b"abcdefgh" * 250000
LARGE = file4(7, 1, 0, (1,), [], [[(1, 0, 2000000)]], [run(typed(0, 1, 0), 2000000) + text(LETTERS)])
ROWS = [("new", None, ["new", "7", "0", "2"], b""), ("edit", FRESH, ["edit"], b"i 0 hello\n"), ("take", fresh(1), ["take"], HELLO_MESSAGE),
        ("session", FRESH, ["session"], b"i 0 hello\nt\n"), ("leave", HELLO, ["leave"], b""), ("a large edit", LARGE, ["edit"], b"d 0 1000000\ni 5 x\n")]


def at_random(room):
    """200 kills with `kill -9`: the old file or the new one is there, and the next command goes on."""
    seeded, kills, landed = random.Random(38), 0, 0
    rows = [(kind, row) for kind in KINDS for row in ROWS if row[1] is not None or kind == "slots"]
    seconds = {}
    while kills < 200:
        kind, (name, content, words, given) = rows[kills % len(rows)]
        with open(room.in_path, "wb") as file:
            file.write(given)
        folder = room.replica(kind, content)
        if (kind, name) not in seconds:
            began = time.monotonic()
            room.run(folder, words, given)
            seconds[kind, name] = (time.monotonic() - began, kept(folder))
            folder = room.replica(kind, content)
        usual, new = seconds[kind, name]
        with open(room.in_path, "rb") as file, open(room.out_path, "wb") as out:
            os.chdir(folder)
            process = subprocess.Popen([room.program] + words, stdin=file, stdout=out, stderr=out)
            time.sleep(seeded.random() * usual * 1.2)
            process.send_signal(signal.SIGKILL)
            status = process.wait()
        kills += 1
        landed += status == -signal.SIGKILL
        now = kept(folder)
        what = "%s: %s, kill %d" % (kind, name, kills)
        room.check(what, now == new if status == 0 else status == -signal.SIGKILL and now in (content, new), status, now)
        if now == content:
            room.equal(what + ": the next time", (room.run(folder, words, given).status, kept(folder)), (0, new))
    room.check("some kills met a running program", landed > 20, landed)


def launched(room):
    """The launcher lets one program at a time into a folder, and none is lost; a killed one keeps no lock."""
    launcher = os.path.join(os.path.dirname(os.path.dirname(os.path.abspath(__file__))), "rls")
    if shutil.which("flock") is None:
        room.skip("two at once", "flock isn't there")
        return
    environment = dict(room.plain, RLS_PROGRAM=room.program, RLS_RENAME_AT="0")
    folder = room.replica("slots", fresh(0, 1))
    os.chdir(folder)

    def start(words, given):
        process = subprocess.Popen([launcher] + words, stdin=subprocess.PIPE, stdout=subprocess.PIPE, stderr=subprocess.PIPE, env=environment, cwd=folder)
        process.stdin.write(given)
        process.stdin.close()
        return process

    for turn in range(20):
        both = [start(["edit"], b"i 0 %c\n" % letter) for letter in b"ab"]
        outs = [(process.stdout.read(), process.wait()) for process in both]
        for process in both:
            process.stdout.close()
            process.stderr.close()
        room.equal("two edits at once, turn %d" % turn, outs, [(edits(1), 0)] * 2)
    room.equal("none is lost", sorted(room.text(folder)[1]), sorted(b"ab" * 20))
    # A session holds the lock until it ends, and a killed one no longer.
    for is_killed in (False, True):
        folder = room.replica("slots", fresh(0, 1))
        with subprocess.Popen([launcher, "session"], stdin=subprocess.PIPE, stdout=subprocess.PIPE, env=environment, cwd=folder, bufsize=0,
                              start_new_session=True) as session:
            session.stdin.write(b"i 0 s\n")
            reply = session.stdout.readline()
            other = start(["edit"], b"i 0 e\n")
            time.sleep(0.3)
            waits = other.poll() is None
            if is_killed:
                os.killpg(session.pid, signal.SIGKILL)
            session.stdin.close()
            session.wait()
            done = (other.stdout.read(), other.wait())
            other.stdout.close()
            other.stderr.close()
        room.equal("a session, %s" % ("killed" if is_killed else "ended"), (reply, waits, done, room.text(folder)),
                   (b"ok 1\n", True, (edits(1), 0), (0, b"e" if is_killed else b"es", b"")))
    # The launcher hands on words, streams and statuses.
    folder = room.replica("slots", HELLO_1)
    rows = [(["text"], b"", 0, b"hello"), (["take"], HELLO_MESSAGE, 0, took(repeated=1)), (["edit"], b"i 9 x\n", 6, b""), (["edit"], b"x\n", 4, b""),
            (["send", "7"], b"", 4, b""), (["new", "7", "1", "2"], b"", 2, b""), (["session"], b"t\n", 0, b"text 5\nhello\nsaved\n")]
    for words, given, status, out in rows:
        process = start(words, given)
        room.equal("behind the launcher: %s" % words, (process.stdout.read(), process.wait()), (out, status))
        process.stdout.close()
        process.stderr.close()


def begun(room):
    """A `new` that a power failure stopped after any of its calls: the launcher goes on with it, or refuses it and changes nothing."""
    launcher = os.path.join(os.path.dirname(os.path.dirname(os.path.abspath(__file__))), "rls")
    environment = dict(room.plain, RLS_PROGRAM=room.program, RLS_LOCKED="1")
    folder, disk = begin(room, "slots", None, {})
    room.run(folder, ["new", "7", "0", "2"], calls={"RECORD": room.record_path})
    images = {}
    for line in [["close", "0"]] + room.record():
        if disk.play(line) or not images:
            images.update({tuple(sorted(image.items())): image for image in disk.images()})
    statuses = []
    # (each third of some hundred, since the launcher takes its time)
    for image in list(images.values())[::3]:
        folder = room.replica("slots", None, "begun", image)
        done = subprocess.run([launcher, "new", "7", "0", "2"], capture_output=True, cwd=folder, env=environment, check=False)
        statuses.append(done.returncode)
        if done.returncode == 71:
            right = files_of(folder) == image and not image.get("replica.gate") and b"rm replica.0 replica.1" in done.stderr
            for name in image:
                os.unlink(os.path.join(folder, name))
            done = subprocess.run([launcher, "new", "7", "0", "2"], capture_output=True, cwd=folder, env=environment, check=False)
            right = right and done.returncode == 0
        else:
            right = done.returncode == 0 or (done.returncode == 2 and bool(image.get("replica.gate")))
        room.check("new over what a stop left", right and room.text(folder) == (0, b"", b""), {name: data[:100] for name, data in image.items()}, done)
    room.check("it goes on, is refused, or was done", {0, 2, 71} == set(statuses), set(statuses), len(statuses))


TESTS = [("kills", at_random), ("launcher", launched), ("new-again", begun)]
