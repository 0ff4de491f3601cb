"""Tests of the package rls: `python3 -m unittest` in this folder, or this file, runs those of test_session.py too.  Here are edits, replicas by
commands, messages through a shared folder, and how the package is installed."""
import importlib.util
import os
import random
import shutil
import signal
import subprocess
import sys
import time
import unittest
import warnings
from unittest import mock

from room import HERE, Room
import rls.stored
import rls.tokens
from rls import Change, Commands, Head, Mailbox, Refused, RlsError, Session, Stale, UsedTwice, applied, changes, crossed, limits, place_after, script


class Changes(unittest.TestCase):
    def test_random(self):
        r = random.Random(1)
        for _ in range(500):
            old = "".join(r.choice("ab\n😀") for _ in range(r.randrange(12)))
            new = "".join(r.choice("ab\n😀") for _ in range(r.randrange(12)))
            self.assertEqual(applied(old, changes(old, new)), new)

    def test_least(self):
        self.assertEqual(changes("hello", "hello!"), [(5, 0, "!")])
        self.assertEqual(changes("aaa", "aaaa"), [(3, 0, "a")])
        self.assertEqual(changes("x", "x"), [])
        self.assertEqual(script("ab", "a\\\nb"), ["i 1 \\\\\\n"])


    def some(self, r, text):
        found = []
        for _ in range(r.randrange(5)):
            at = r.randrange(len(text) + 1)
            found.append(Change(at, min(r.randrange(5), len(text) - at), r.choice(["", "", "x", "yz", "😀"])))
            text = applied(text, found[-1:])
        return found

    def test_what_two_changed_at_once(self):
        r = random.Random(4)
        for _ in range(2000):
            first, second = self.some(r, "abcdefgh"), self.some(r, "abcdefgh")
            first_then, second_then = crossed(first, second)
            both = applied(applied("abcdefgh", first), second_then)
            self.assertEqual(both, applied(applied("abcdefgh", second), first_then))
            place = r.randrange(len(applied("abcdefgh", first)) + 1)
            self.assertLessEqual(0, place_after(place, second_then))
            self.assertLessEqual(place_after(place, second_then), place_after(place, second_then, behind=True))
            self.assertLessEqual(place_after(place, second_then, behind=True), len(both))

    def test_what_two_changed_at_once_in_time(self):
        """The time of 8,000 changes on each side isn't the square of it."""
        r = random.Random(5)
        first, second = ([Change(r.randrange(20_000 + k), 0, x) for k in range(8_000)] for x in "ab")
        began = time.process_time()
        self.assertEqual(sum(len(x.text) for x in crossed(first, second)[0]), 8_000)
        self.assertLess(time.process_time() - began, 8)


class ByCommands(Room):
    def test_editing(self):
        a, b = self.two()
        text = "one\r\ntwo \\ three\n\tsmile 😀 e\u0301 \0 end"
        a.set_text(text)
        self.assertEqual(a.text(), text)
        b.take(a.message(1))
        self.assertEqual(b.text(), text)
        a.set_text("")
        self.assertEqual(a.text(), "")

    def test_what_is_compared_by_cheaper_means(self):
        """Whoever replaces a text by one that has nothing but words of it, in another order, is told."""
        r = random.Random(1)
        old, new = [" ".join(r.choice("ab") for _ in range(900)) for _ in range(2)]
        a = self.two()[0]
        self.assertFalse(a.set_text(old))
        self.assertTrue(a.set_text(new))
        self.assertFalse(a.set_text(new + " c"))
        self.assertEqual(a.text(), new + " c")

    def test_no_folder(self):
        for begin in (lambda: Commands(self.path("nowhere")).text(), lambda: Session(self.path("nowhere"))):
            with self.assertRaises(RlsError) as caught:
                begin()
            self.assertEqual(caught.exception.status, 2)

    def test_head(self):
        self.assertEqual(self.two()[1].head(), Head(7, 2, 1, (0, 0)))

    def test_errors(self):
        a, _ = self.two()
        for call, kind, status in [
            (lambda: Commands.new(a.folder, 7, 0, 2), RlsError, 2), (lambda: Commands.new(self.path("x"), 7, 2, 2), RlsError, 4),
            (lambda: a.message(5), RlsError, 4), (lambda: a.take(b"junk"), RlsError, 4), (lambda: a.insert(9, "x"), Refused, 6),
            (lambda: Commands(self.room).text(), RlsError, 2),
        ]:
            with self.assertRaises(kind) as e:
                call()
            self.assertEqual(e.exception.status, status)

    def test_long(self):
        a, _ = self.two()
        a.set_text("x" * 1_500_000)
        self.assertEqual(len(a.text()), 1_500_000)
        a.set_text("y")
        self.assertEqual(a.text(), "y")

    def test_mailbox(self):
        three = self.two(3)
        boxes = [Mailbox(self.path("shared"), x.head()) for x in three]
        r = random.Random(2)
        for step in range(25):
            k = r.randrange(3)
            text = three[k].text()
            at = r.randrange(len(text) + 1)
            three[k].insert(at, r.choice(["ab", "😀", "\n"]))
            if r.random() < 0.2:
                three[k].rename()
            if r.random() < 0.5:
                boxes[k].sync(three[k])
        for _ in range(3):
            for k in range(3):
                for _, report in boxes[k].sync(three[k])[0]:
                    self.assertEqual(report.refused, 0)
        self.assertEqual(len({x.text() for x in three}), 1)
        self.assertEqual(len({str(x.ids()) for x in three}), 1)
        # Quiet now: nothing is taken or sent any more.
        for k in range(3):
            boxes[k].sync(three[k])
        self.assertEqual([boxes[k].sync(three[k]) for k in range(3)], [([], 0)] * 3)

    def test_put_back(self):
        """A replica that is put back from a copy is told so before it does harm; `rls take` alone says status 0."""
        a, b = self.two()
        boxes = [Mailbox(self.path("shared"), x.head()) for x in (a, b)]
        a.insert(0, "one")
        shutil.copytree(a.folder, self.path("copy"))
        a.insert(3, "two")
        boxes[0].sync(a), boxes[1].sync(b)
        shutil.rmtree(a.folder)
        shutil.copytree(self.path("copy"), a.folder)
        with self.assertRaises(Stale):
            boxes[0].sync(a)

    def test_forged_heads(self):
        """A message whose head isn't what its name says is told once, and stays where it is. Those of others are taken. If it counts edits that
        were not made here, nothing is sent until it is gone, or somebody has told the launcher to doubt that member."""
        all_three = [Commands.new(self.path(f"m{k}"), 7, k, 3) for k in range(3)]
        boxes = [Mailbox(self.path("shared"), x.head()) for x in all_three]
        a, b, c = all_three
        forged = boxes[2].path(2, 0)
        for k, (at, byte, told, is_ahead) in enumerate([(12, 9, "is of another text", False), (16, 4, "is of another text", False),
                                                        (20, 1, "says that it is of member 1", False), (24, 5, "counts 5 operations of member 0, who has made 4", True),
                                                        (24, 200, "counts 200 operations of member 0", True)]):
            message = bytearray(c.message(0))
            message[at] = byte
            with open(forged, "wb") as f:
                f.write(message)
            a.insert(0, "a"), b.insert(0, "b")
            boxes[1].sync(b)
            if is_ahead:
                with self.assertRaises(Stale) as raised:
                    boxes[0].sync(a)
                found = raised.exception.found
                self.assertIn("7-2-0.rlsm " + told, str(raised.exception))
            else:
                found, sent = boxes[0].sync(a)
                self.assertEqual(sent, 2)
            self.assertEqual([sender for sender, _ in found], [1, 2])
            self.assertIn(told, found[1][1].line)
            self.assertEqual(sorted(a.text()), sorted("ab" * (k + 1)))
            self.assertEqual(boxes[0].receive(a), [])       # said once
            with open(forged, "rb") as f:
                self.assertEqual(f.read(), message)
        with self.assertRaises(Stale):
            boxes[0].sync(a)
        with open(os.path.join(a.folder, "replica.doubted"), "w", encoding="ascii") as f:
            f.write("7-3-0 1\n7-3-0 2\n")
        self.assertEqual(Mailbox(self.path("shared"), a.head()).sync(a)[1], 2)
        os.unlink(os.path.join(a.folder, "replica.doubted"))
        a.insert(0, "a")
        with self.assertRaises(Stale):
            Mailbox(self.path("shared"), a.head()).sync(a)
        os.unlink(forged)
        self.assertEqual(boxes[0].sync(a)[1], 1)                # number 2, from which nothing came, has most of it already
        boxes[1].sync(b)
        self.assertEqual(b.text(), a.text())

    def test_no_room_for_a_message(self):
        """A message that a full replica can't take is taken once there is room, though its file is as it was."""
        a, b = self.two()
        boxes = [Mailbox(self.path("shared"), x.head()) for x in (a, b)]
        a.insert(0, "one")
        boxes[0].sync(a)
        with mock.patch.object(b, "take", side_effect=RlsError(11, "too large")):
            self.assertEqual([(sender, e.status) for sender, e in boxes[1].receive(b)], [(0, 11)])
        self.assertEqual([sender for sender, _ in boxes[1].receive(b)], [0])
        self.assertEqual(b.text(), "one")

    def test_older_folder(self):
        """A message is written again if the folder comes back as it was before, or empty."""
        a, b = self.two()
        boxes = [Mailbox(self.path("shared"), x.head()) for x in (a, b)]
        a.insert(0, "one")
        boxes[0].sync(a), boxes[1].sync(b), boxes[0].sync(a)
        shutil.copytree(self.path("shared"), self.path("before"))
        a.insert(3, " two")
        self.assertEqual(boxes[0].sync(a)[1], 1)
        self.assertEqual(boxes[0].sync(a)[1], 0)
        shutil.rmtree(self.path("shared"))
        shutil.copytree(self.path("before"), self.path("shared"))
        self.assertEqual(boxes[0].sync(a)[1], 1)
        boxes[1].sync(b)
        self.assertEqual(b.text(), "one two")

    def test_made_again(self):
        a, b = self.two()
        boxes = [Mailbox(self.path("shared"), x.head()) for x in (a, b)]
        a.insert(0, "one")
        boxes[0].sync(a), boxes[1].sync(b)
        shutil.rmtree(a.folder)
        a = Commands.new(a.folder, 7, 0, 2)
        with self.assertRaises(Stale):
            Mailbox(self.path("shared"), a.head()).sync(a)

    def test_renames(self):
        a, b = self.two()
        boxes = [Mailbox(self.path("shared"), x.head()) for x in (a, b)]
        self.many_runs(a)
        text, runs = a.text(), a.stat()["runs"][0]
        self.assertGreater(runs, 20)
        boxes[0].sync(a)
        self.assertEqual(a.stat()["runs"], (1,))
        boxes[1].sync(b)
        self.assertEqual((b.text(), b.stat()["runs"]), (text, (1,)))

    def test_renames_nothing(self):
        a, _ = self.two()
        self.many_runs(a)
        limits.RENAME_AT = 0
        Mailbox(self.path("shared"), a.head()).sync(a)
        self.assertGreater(a.stat()["runs"][0], 20)

    def test_rename_refused(self):
        """It is said once."""
        a, _ = self.two()
        self.many_runs(a)

        def too_large():
            raise Refused(6, "line 1: operation too large 17000000", ("edit",))
        a.rename = too_large
        with self.assertWarnsRegex(UserWarning, "operation too large"):
            a.rename_if_due()
        with warnings.catch_warnings():
            warnings.simplefilter("error")
            a.rename_if_due()

    def test_limits_are_told_before_they_are_met(self):
        """Once: how much is kept for a member of whom nothing comes, and a file that is nearly full."""
        a, b = self.two(3)[:2]
        boxes = [Mailbox(self.path("shared"), x.head()) for x in (a, b)]
        b.insert(0, "bb")
        boxes[1].sync(b)
        old = time.time() - 8 * 86400
        os.utime(boxes[1].path(1, 0), (old, old))
        a.insert(0, "aa")
        with mock.patch.object(limits, "MOST_KEPT", 40), mock.patch.object(limits, "NEARLY_FULL", 100):
            with warnings.catch_warnings(record=True) as said:
                warnings.simplefilter("always")
                for _ in range(2):
                    boxes[0].sync(a)
                    a.insert(0, "more")
        told = [str(x.message) for x in said]
        self.assertEqual(len(told), 3, told)
        self.assertRegex(told[0], f"for member 1, of whom nothing has come since {time.strftime('%Y-%m-%d', time.localtime(old))}.*`rls restart`")
        self.assertRegex(told[1], "for member 2, of whom nothing ever came.*`rls retire 2`")
        self.assertRegex(told[2], "has [0-9]+ bytes of the 268,435,456 that it may have")

    def test_number_that_nobody_uses(self):
        """It doesn't get every message, and whoever begins with it later gets all."""
        a, b = self.two(3)[:2]
        boxes = [Mailbox(self.path("shared"), x.head()) for x in (a, b)]
        sizes = set()
        for k in range(40):
            a.insert(0, "more ")
            for box, replica in zip(boxes, (a, b)):
                box.sync(replica)
            sizes.add(os.path.getsize(boxes[0].path(0, 2)))
        self.assertLess(len(sizes), 8)
        c = Commands(self.path("m2"))
        late = Mailbox(self.path("shared"), c.head())
        late.sync(c)
        for box, replica in zip(boxes, (a, b)):
            box.sync(replica)
        late.sync(c)
        self.assertEqual(c.text(), "more " * 40)
        self.assertEqual(c.head().counts, a.head().counts)

    def test_the_lock_outlives_a_client_that_is_killed(self):
        """What the program of a killed client stores would otherwise be written over by the next one, or write over it."""
        a, _ = self.two()
        self.killed(f"rls.Commands({a.folder!r}).insert(0, 'kept')")
        self.assertTrue(self.is_locked(a.folder))
        a.insert(0, "also ")
        self.assertEqual(a.text(), "also kept")

    def test_beside_a_session(self):
        """Whoever stores is told that the folder is in use, and doesn't wait for ever; whoever reads is answered."""
        a, _ = self.two()
        a.insert(0, "text")
        self.addCleanup(setattr, limits, "MOST_WAIT", limits.MOST_WAIT)
        limits.MOST_WAIT = 0.2
        self.addCleanup(signal.alarm, 0)
        signal.alarm(20)
        with Session(a.folder):
            with self.assertRaises(RlsError) as caught:
                a.insert(0, "x")
            self.assertEqual(caught.exception.status, 7)
            self.assertEqual((a.text(), a.head().members), ("text", 2))
        a.insert(0, "x")

    def test_what_is_sent_may_be_read_by_whom_the_umask_lets(self):
        a, _ = self.two()
        box = Mailbox(self.path("shared"), a.head())
        for umask, mode in (0o022, 0o644), (0o077, 0o600), (0o002, 0o664):
            a.insert(0, "x")
            old = os.umask(umask)
            try:
                box.send(a)
            finally:
                os.umask(old)
            self.assertEqual(os.stat(box.path(0, 1)).st_mode & 0o777, mode)
            os.unlink(box.path(0, 1))
        self.assertEqual([x for x in os.listdir(self.path("shared")) if not x.endswith(".member")], [])

    def test_what_is_no_message(self):
        """A link, a pipe, a folder, a file that is too large, one of another text and one that may not be read, each at a member's name:
        they are told, and stop no other member's message."""
        members = [Commands.new(self.path(f"m{k}"), 7, k, 9) for k in range(2)]
        a, b = members
        box = Mailbox(self.path("shared"), a.head())
        b.insert(0, "hello")
        Mailbox(self.path("shared"), b.head()).send(b)
        os.symlink(box.path(1, 0), box.path(2, 0))
        os.mkfifo(box.path(3, 0))
        os.mkdir(box.path(4, 0))
        with open(box.path(5, 0), "wb") as f:
            f.truncate(67_108_865)
        other = Commands.new(self.path("other"), 8, 0, 9)
        other.insert(0, "x")
        with open(box.path(6, 0), "wb") as f:
            f.write(other.message(1))
        with open(box.path(7, 0), "wb") as f:
            f.write(b.message(0)[:40])
        self.addCleanup(signal.alarm, 0)
        signal.alarm(20)                    # a pipe would keep it waiting for ever
        found = dict(box.receive(a))
        self.assertEqual(a.text(), "hello")
        self.assertEqual(found.pop(1).refused, 0)
        self.assertEqual({k: e.status for k, e in found.items()}, {2: 8, 3: 8, 4: 8, 5: 11, 6: 4, 7: 4})

    def test_names_that_others_have_taken(self):
        """A link at the name of an own message isn't written through, nor does its target count as a message that is there; a folder
        at a name is told once, and the others get theirs."""
        a = self.two(4)[0]
        box = Mailbox(self.path("shared"), a.head())
        victim = self.path("victim")
        with open(victim, "w") as f:
            f.write("mine" * 1000)
        os.symlink(victim, box.path(0, 1))
        os.mkdir(box.path(0, 2))
        a.insert(0, "x")
        with self.assertWarnsRegex(UserWarning, "member 2 can't be written"):
            self.assertEqual(box.send(a), 2)
        with open(victim) as f:
            self.assertEqual(f.read(), "mine" * 1000)
        self.assertEqual([os.path.islink(box.path(0, k)) for k in (1, 3)], [False, False])
        with warnings.catch_warnings():
            warnings.simplefilter("error")
            self.assertEqual(box.send(a), 0)
        self.assertEqual(len([x for x in os.listdir(self.path("shared")) if x.endswith(".rlsm")]), 3)

    def test_half_written(self):
        a, b = self.two()
        box = Mailbox(self.path("shared"), b.head())
        a.set_text("hello")
        with open(box.path(0, 1), "wb") as f:
            f.write(a.message(1)[:50])
        self.assertIsInstance(box.receive(b)[0][1], RlsError)
        with open(box.path(0, 1), "wb") as f:
            f.write(a.message(1))
        box.receive(b)
        self.assertEqual(b.text(), "hello")


class Twice(Room):
    """A number that two replicas use."""

    def two_with_one_number(self):
        """They don't see each other but by the shared folder."""
        pair = [Commands.new(self.path(f"machine{k}"), 7, 0, 3) for k in range(2)]
        for k, x in enumerate(pair):
            x.insert(0, f"by {k}")
        return pair

    def test_told_at_once(self):
        a, b = self.two_with_one_number()
        boxes = [Mailbox(self.path("shared"), x.head()) for x in (a, b)]
        boxes[0].sync(a)
        there = sorted(os.listdir(self.path("shared")))
        for call in boxes[1].sync, boxes[1].send, boxes[1].receive:
            with self.assertRaisesRegex(UsedTwice, "number 0 of text 7 is used twice: another replica"):
                call(b)
        self.assertEqual(sorted(os.listdir(self.path("shared"))), there)
        boxes[0].sync(a)
        self.assertEqual(boxes[0].sync(a), ([], 0))

    def test_token_first(self):
        """The token is in the shared folder before the first message: whoever is stopped between the two has shown who uses the number."""
        a, _ = self.two_with_one_number()
        box, there = Mailbox(self.path("shared"), a.head()), []
        with mock.patch("rls.mailbox.replace", side_effect=lambda path, _: there.append((path, os.listdir(box.folder)))):
            box.send(a)
        path, names = there[0]
        self.assertEqual(os.path.basename(path), "7-0-1.rlsm")
        self.assertEqual([name.endswith(".member") for name in names], [True])

    def test_between_machines(self):
        """Each has a folder of its own, and a synchroniser copies files between them later: both are told."""
        pair = self.two_with_one_number()
        boxes = [Mailbox(self.path(f"shared{k}"), x.head()) for k, x in enumerate(pair)]
        for box, x in zip(boxes, pair):
            box.sync(x)
        for name in os.listdir(boxes[0].folder):
            if not os.path.exists(os.path.join(boxes[1].folder, name)):
                shutil.copy2(os.path.join(boxes[0].folder, name), boxes[1].folder)
        for name in os.listdir(boxes[1].folder):
            shutil.copy2(os.path.join(boxes[1].folder, name), boxes[0].folder)
        for box, x in zip(boxes, pair):
            with self.assertRaises(UsedTwice):
                box.sync(x)
        # The way out: one of them goes on, once the file of the other one is gone.
        found = [x for x in os.listdir(boxes[0].folder) if x.endswith(".member")]
        os.unlink(os.path.join(boxes[0].folder, next(x for x in found if rls.tokens.own_record(pair[1].folder).token in x)))
        pair[0].insert(0, "more " * 40)
        self.assertEqual(boxes[0].sync(pair[0])[1], 2)

    def test_copies(self):
        """Two copies of one replica: the one that writes when the other has written is told."""
        a = self.two()[0]
        Mailbox(self.path("shared"), a.head()).sync(a)
        shutil.copytree(a.folder, self.path("copy"))
        b = Commands(self.path("copy"))
        for x in (a, b):
            x.insert(0, "mine")
        Mailbox(self.path("shared"), a.head()).sync(a)
        with self.assertRaisesRegex(UsedTwice, "a copy of this replica wrote there"):
            Mailbox(self.path("shared"), b.head()).sync(b)
        # One that wrote as often, elsewhere.
        with open(os.path.join(b.folder, rls.tokens.NOTE), "r+", encoding="ascii") as note:
            token, count, _ = note.read().split()
            note.seek(0)
            note.write(f"{token} {int(count) + 1:020d} {7:016x}\n")
        with self.assertRaisesRegex(UsedTwice, "a copy of this replica wrote there"):
            Mailbox(self.path("shared"), b.head()).sync(b)

    def test_by_a_message(self):
        """An older client shows no token, but what it writes at the names of this number has too many operations."""
        a, b = self.two_with_one_number()
        b.insert(0, "more")
        os.mkdir(self.path("shared"))
        with open(self.path("shared", "7-0-1.rlsm"), "wb") as f:
            f.write(b.message(1))
        with self.assertRaisesRegex(UsedTwice, "more operations of this number"):
            Mailbox(self.path("shared"), a.head()).sync(a)

    def test_no_false_alarm(self):
        """Several shared folders, an older state of one, and many programs at once."""
        a, b = self.two()
        for k in range(3):
            a.insert(0, "x")
            for shared in "one", "other":
                Mailbox(self.path(shared), a.head()).sync(a)
            if k == 0:
                shutil.copytree(self.path("one"), self.path("before"))
        shutil.rmtree(self.path("one"))
        shutil.copytree(self.path("before"), self.path("one"))
        self.assertEqual(Mailbox(self.path("one"), a.head()).sync(a)[1], 1)
        code = f"for _ in range(4): rls.tokens.show({self.path('one')!r}, rls.Commands({a.folder!r}).head(), {a.folder!r})"
        each = [subprocess.Popen([sys.executable, "-c", f"import rls, rls.tokens\n{code}"], env={**os.environ, "PYTHONPATH": HERE}) for _ in range(3)]
        self.assertEqual([p.wait() for p in each], [0, 0, 0])
        Mailbox(self.path("one"), a.head()).sync(a)


class Idle(Room):
    """A round in which nothing has changed starts no program."""

    def test_forty_notes(self):
        program = os.environ.get("RLS_PROGRAM") or None         # without the launcher it is a matter of seconds
        notes = [Commands.new(self.path("notes", str(k)), 100 + k, 0, 4, program) for k in range(40)]
        for k, note in enumerate(notes):
            note.set_text(f"note {k}")

        def round_of(folders):
            return [Mailbox(self.path("shared"), note.head()).sync(note) for note in (Commands(x, program) for x in folders)]
        folders = [note.folder for note in notes]
        with mock.patch("subprocess.run", wraps=subprocess.run) as run:
            for _ in range(3):
                round_of(folders)
            run.reset_mock()
            self.assertEqual(round_of(folders), [([], 0)] * 40)
            self.assertEqual(run.call_count, 0)
            # What changes here or there is seen.
            notes[3].insert(0, "my own words " * 20)
            run.reset_mock()
            self.assertEqual([sent for _, sent in round_of(folders)], [0] * 3 + [3] + [0] * 36)
            self.assertLess(run.call_count, 8)
            other = Commands.new(self.path("other"), 107, 1, 4, program)
            other.insert(0, "theirs ")
            Mailbox(self.path("shared"), other.head()).sync(other)
            self.assertEqual([len(found) for found, _ in round_of(folders)], [0] * 7 + [1] + [0] * 32)
        self.assertIn("theirs", notes[7].text())

    def test_what_could_not_be_taken_is_told_by_each_round(self):
        a, b = self.two()
        box = Mailbox(self.path("shared"), a.head())
        for _ in range(3):
            box.sync(a)
        with open(box.path(1, 0), "wb") as f:
            f.write(b"junk")
        self.assertEqual([[sender for sender, _ in box.sync(a)[0]] for _ in range(3)], [[1]] * 3)

    def test_the_gate_counts(self):
        """A store that was stopped has written its slot; the next one that names it may write nothing else."""
        a, _ = self.two()
        before = rls.stored.state_of(a.folder)
        with open(os.path.join(a.folder, "replica.gate"), "r+b") as gate:
            byte = gate.read(1)[0]
            gate.seek(0)
            gate.write(bytes([byte ^ 1]))
        self.assertNotEqual(rls.stored.state_of(a.folder), before)

    def test_what_is_there_is_not_written_again(self):
        a, b = self.two()
        a.insert(0, "x")
        box = Mailbox(self.path("shared"), a.head())
        box.sync(a)
        told = os.stat(box.path(0, 1))
        again = Mailbox(self.path("shared"), a.head())
        self.assertEqual(again.send(a), 0)
        self.assertEqual(os.stat(box.path(0, 1)).st_ino, told.st_ino)

    def test_a_session_that_is_not_stored(self):
        a, b = self.two()
        with Session(a.folder) as s:
            box = Mailbox(self.path("shared"), s.head())
            for _ in range(3):
                box.sync(s)
            self.assertTrue(box.is_idle(s))
            s.insert(0, "x")
            self.assertFalse(box.is_idle(s))
            self.assertEqual(box.sync(s)[1], 1)


class Package(Room):
    def test_install(self):
        """By pip, without a network."""
        shutil.copytree(HERE, self.path("python"), ignore=shutil.ignore_patterns("__pycache__"))
        command = [sys.executable, "-m", "pip", "install", "--quiet", "--no-build-isolation", "--no-index", "--target", self.path("site"), self.path("python")]
        if any(importlib.util.find_spec(x) is None for x in ("pip", "setuptools", "wheel")):
            self.skipTest("pip, setuptools or wheel isn't installed")
        subprocess.run(command, check=True, stdout=subprocess.DEVNULL, stderr=subprocess.DEVNULL)
        found = os.path.join(self.path("site"), "rls")
        self.assertTrue(os.path.isfile(os.path.join(found, "py.typed")))
        code = "import rls; print(rls.__file__)"
        told = subprocess.run([sys.executable, "-c", code], cwd=self.room, env={**os.environ, "PYTHONPATH": self.path("site")}, stdout=subprocess.PIPE, check=True)
        self.assertEqual(told.stdout.decode().strip(), os.path.join(found, "__init__.py"))


if __name__ == "__main__":
    unittest.main(module=None, argv=[sys.argv[0], "discover", "-s", HERE, *sys.argv[1:]])
