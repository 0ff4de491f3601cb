"""Tests of sessions: `python3 -m unittest` in this folder.  First what all versions of the session have, then what the second and the third add."""
import os
import random
import signal
import struct
import unittest
from unittest import mock

from room import Room
from rls import Change, Commands, Groups, Head, Mailbox, Refused, RlsError, Session, applied, limits


class BySession(Room):
    def test_an_edit_is_undone(self):
        a, _ = self.two()
        a.set_text("hello")
        with Session(a.folder) as s:
            s.cursor = 3
            s.insert(0, "A")
            self.assertEqual(s.cursor, 4)
            self.assertEqual(s.undo(), 1)
            self.assertEqual(s.undo(), 0)
            self.assertEqual(s.text(), "hello")
        self.assertEqual(a.text(), "hello")

    def test_refusals(self):
        a, _ = self.two()
        with Session(a.folder) as s:
            with self.assertRaises(Refused):
                s.delete(0, 1)
            with self.assertRaises(Refused):
                s.cursor = 5
            with self.assertRaises(Refused):
                s.message(2)
            with self.assertRaises(Refused):
                s.take(b"junk\nq\nq\n")
            self.assertEqual(s.text(), "")

    def test_renames(self):
        a, _ = self.two()
        with Session(a.folder) as s:
            self.many_runs(s)
            s.cursor = 5
            s.save()
            self.assertEqual(s.cursor, 5)
        self.assertEqual(a.stat()["runs"], (1,))

    def test_two_sessions_on_one_folder(self):
        a, _ = self.two()
        with Session(a.folder):
            with self.assertRaises(RlsError):
                Session(a.folder)

    def test_nobody_comes_in_between_while_it_saves(self):
        a, _ = self.two()
        with Session(a.folder) as s:
            s.changed = limits.RENAME_AT
            s.stored.rename_if_due = lambda: self.assertTrue(self.is_locked(a.folder))
            s.insert(0, "x")
            s.save()
            self.assertTrue(self.is_locked(a.folder))
        self.assertFalse(self.is_locked(a.folder))

    def test_the_lock_outlives_a_client_that_is_killed(self):
        a, _ = self.two()
        self.killed(f"s = rls.Session({a.folder!r}); s.insert(0, 'x'); time.sleep(100)")
        self.assertTrue(self.is_locked(a.folder))
        self.wait_for(lambda: not self.is_locked(a.folder))

    def test_after_the_end(self):
        """Each call of a session that has ended is an RlsError, and its folder is free."""
        a, _ = self.two()
        s = Session(a.folder)
        s.process.kill()
        for call in (lambda: s.insert(0, "x"), lambda: s.insert(0, "x"), s.text, s.save, s.close):
            with self.assertRaises(RlsError):
                call()
            self.assertFalse(self.is_locked(a.folder))
        s.kill()
        with self.assertRaises(ZeroDivisionError):
            with Session(a.folder) as s:
                s.kill()
                s.insert(1 // 0, "x")

    def test_a_message_that_no_session_reads(self):
        """It is told, and the session goes on."""
        a, _ = self.two()
        with Session(a.folder) as s:
            s.insert(0, "x")
            with self.assertRaises(RlsError) as caught:
                s.take(bytes(limits.MOST_INPUT))
            self.assertEqual(caught.exception.status, 11)
            self.assertEqual(s.text(), "x")

    def test_limit_of_input(self):
        """The client begins a new session in time; the program alone would end with status 11 and forget the session."""
        a, _ = self.two()
        most, limits.MOST_INPUT = limits.MOST_INPUT, 200
        try:
            with Session(a.folder) as s:
                for k in range(40):
                    s.insert(k, "x")
        finally:
            limits.MOST_INPUT = most
        self.assertEqual(a.text(), "x" * 40)

    def test_mailbox(self):
        folders = [x.folder for x in self.two()]
        sessions = [Session(f) for f in folders]
        boxes = [Mailbox(self.path("shared"), s.head()) for s in sessions]
        r = random.Random(3)
        for step in range(30):
            k = r.randrange(2)
            s = sessions[k]
            text = s.text()
            at = r.randrange(len(text) + 1)
            s.set_text(text[:at] + r.choice(["ab", "😀", "\n"]) + text[at + r.randrange(2):])
            if r.random() < 0.2 and text:
                s.rename()
            boxes[k].sync(s)
        for _ in range(2):
            for k in range(2):
                boxes[k].sync(sessions[k])
        self.assertEqual(sessions[0].text(), sessions[1].text())
        for s in sessions:
            s.close()
        self.assertEqual(Commands(folders[0]).text(), Commands(folders[1]).text())

    def crash(self, safe):
        """A message is handed out, and the machine of its author stops.  What the two members show in the end."""
        a, b = self.two()
        s = Session(a.folder, safe=safe)
        s.insert(0, "first")
        message = s.message(1)
        s.kill()
        b.take(message)
        with Session(a.folder, safe=safe) as s:
            s.insert(0, "second ")
            b.take(s.message(1))
            s.take(b.message(0))
            s.save()
            b.take(s.message(1))
        return Commands(a.folder).text(), b.text()

    def test_crash_when_saved_first(self):
        self.assertEqual(*self.crash(True))

    def test_crash_as_the_protocol_is(self):
        """What docs/SESSION.md warns of: both show status 0 throughout, and they differ for ever."""
        self.assertEqual(self.crash(False), ("second ", "first"))


class SecondVersion(Room):
    """What only a program with the second version of the session has."""

    def setUp(self):
        super().setUp()
        self.a, self.b = self.two()
        with Session(self.a.folder) as s:
            if s.version < 2:
                for call in (s.undo_group, s.redo_group, s.end_group, s.tell_changes, s.stat, lambda: s.cursor_at(1), lambda: s.place(0)):
                    with self.assertRaises(RlsError) as caught:
                        call()
                    self.assertEqual(caught.exception.status, 4)
                self.assertEqual(s.text(), "")
                self.skipTest("the program has the first version of the session")

    def both(self):
        sessions = [Session(x.folder) for x in (self.a, self.b)]
        for s in sessions:
            self.addCleanup(s.kill)
        return sessions

    def exchange(self, s, t):
        t.take(s.message(1))
        s.take(t.message(0))

    def test_undo_and_redo_after_storing(self):
        """It takes back own edits alone, all the way, and stores without beginning again."""
        s, t = self.both()
        pid = s.process.pid
        s.insert(0, "hello")
        self.assertEqual(s.end_group(), Groups(1, 0))
        s.save()
        s.delete(0, 3)
        s.save()
        self.exchange(s, t)
        t.insert(2, " from another")
        t.save()
        s.take(t.message(0))
        self.assertEqual(s.undo_group(), 1)
        self.assertEqual(s.text(), "hello from another")
        self.assertEqual(s.undo_group(), 1)
        self.assertEqual(s.text(), " from another")
        self.assertEqual(s.undo_group(), 0)
        self.assertEqual((s.redo_group(), s.redo_group(), s.redo_group()), (1, 1, 0))
        self.assertEqual(s.text(), "lo from another")
        self.assertEqual(s.end_group(), Groups(2, 0))
        self.assertEqual(s.process.pid, pid)
        s.close()
        self.assertEqual(self.a.text(), "lo from another")

    def test_what_is_stored(self):
        s, _ = self.both()
        s.insert(0, "stored")
        s.save()
        s.insert(0, "not ")
        s.kill()
        self.assertEqual(self.a.text(), "stored")

    def test_changes(self):
        """Whoever keeps the text plays the changes over it, and has the text."""
        sessions = self.both()
        shown = ["", ""]
        for s in sessions:
            s.tell_changes()
        r = random.Random(5)
        for step in range(120):
            k = r.randrange(2)
            s = sessions[k]
            what = r.randrange(8)
            if what == 0:
                self.exchange(*sessions) if k == 0 else sessions[1].take(sessions[0].message(1))
            elif what == 1:
                (s.undo_group if r.random() < 0.6 else s.redo_group)()
            elif what == 2 and shown[k]:
                s.edit([f"b {len(shown[k])}"])
            elif what == 3 and shown[k]:
                s.rename()
            elif what == 4:
                with self.assertRaises(Refused):
                    s.insert(len(shown[k]) + 1, "x")
            else:
                at = r.randrange(len(shown[k]) + 1)
                count = r.randrange(len(shown[k]) - at + 1) if what == 5 else 0
                text = r.choice(["ab", "\U0001F600", "\n", "\\n\r"])
                if count:
                    s.delete(at, count)
                s.insert(at, text)
                shown[k] = applied(shown[k], [Change(at, count, text)])
            for n, t in enumerate(sessions):
                shown[n] = applied(shown[n], t.news())
                self.assertEqual(shown[n], t.text(), (step, what))
        s, t = sessions
        self.exchange(s, t)
        self.exchange(s, t)
        self.assertEqual(s.text(), t.text())

    def test_cursors(self):
        s, t = self.both()
        s.insert(0, "one\ntwo")
        s.put_cursor(1, 4)
        s.put_cursor(2, 4, before=True)
        s.cursor = 7
        s.insert(4, "new\n")
        self.assertEqual((s.cursor_at(1), s.cursor_at(2), s.cursor), (4, 8, 11))
        with self.assertRaises(Refused):
            s.cursor_at(3)
        for call in (lambda: s.put_cursor(1, 99), lambda: s.place(99)):
            with self.assertRaises(Refused):
                call()
        self.exchange(s, t)
        t.insert(0, "zero\n")
        self.assertEqual(t.located(s.place(8)), 13)

    def test_cursors_of_others(self):
        """They go beside the messages. What isn't a cursor there is left out."""
        members = [Commands.new(self.path(f"n{k}"), 7, k, 8) for k in range(2)]
        s, t = (Session(x.folder) for x in members)
        self.addCleanup(s.kill)
        self.addCleanup(t.kill)
        boxes = [Mailbox(self.path("shared"), x.head()) for x in (s, t)]
        s.insert(0, "text")
        boxes[0].sync(s)
        boxes[0].show_cursor(s, 2, "Ada\x1b[2J\n")
        boxes[1].sync(t)
        t.insert(0, "a ")
        for member, line in (2, b"0 x\nq\n"), (3, b"q\n"), (4, b"\xff"), (5, b"5.1.1.0" * 90_000), (6, b""):
            with open(boxes[1].cursor_path(member), "wb") as f:
                f.write(line)
        os.mkfifo(boxes[1].cursor_path(7))
        self.addCleanup(signal.alarm, 0)
        signal.alarm(20)
        found = boxes[1].cursors(t)
        self.assertEqual(found.pop(0), (4, "Ada[2J"))
        self.assertLessEqual(set(found), {2})
        self.assertEqual(t.text(), "a text")

    def test_who_this_is(self):
        s, _ = self.both()
        s.insert(0, "x")
        self.assertEqual(s.head(), Head(7, 2, 0, (1, 0)))
        self.assertEqual(s.stat()["total"], (1,))

    def test_limit_of_input(self):
        """It stores in time, and goes on."""
        s, _ = self.both()
        self.addCleanup(setattr, limits, "MOST_INPUT", limits.MOST_INPUT)
        limits.MOST_INPUT = 200
        pid = s.process.pid
        for k in range(100):
            s.insert(k, "x")
        self.assertEqual((s.text(), s.process.pid), ("x" * 100, pid))

    def test_renames_and_undoes_all_the_same(self):
        s, _ = self.both()
        self.many_runs(s)
        s.end_group()
        s.insert(0, "last ")
        s.save()
        self.assertEqual(s.stat()["runs"], (1,))
        s.undo_group()
        self.assertEqual(s.text()[:3], "aXb")


class ByCosts(Room):
    """When a session renames."""

    def one(self):
        a, _ = self.two()
        s = Session(a.folder)
        self.addCleanup(s.kill)
        try:
            s.costs()
        except RlsError:
            self.skipTest("the program has no line `o`")
        return s

    def long_end(self, tuples):
        """A message of member 1 that puts one character at the very end, under an identifier of so many tuples."""
        ident = struct.pack(">I", tuples + 1) + b"\2" * tuples + b"\1" + struct.pack(">IIIi", 5, 1, 1, 0)
        op = struct.pack(">IIII", 1, 1, 1, 0) + b"\0" + b"\0" + ident + struct.pack(">I", 1) + b"!"
        return b"RLSM\3" + struct.pack(">QIIIII", 7, 2, 1, 1, 1, 1) + op

    def test_what_is_told_is_what_a_rename_has(self):
        s = self.one()
        self.many_runs(s)
        before = s.costs()
        self.assertGreater(before.tuples, before.runs)
        s.rename()
        after = s.costs()
        self.assertEqual((after.own, after.bytes, after.runs, after.tuples), (before.own + 1, before.bytes + before.rename, 1, 1))

    def test_edits_that_have_become_dear(self):
        s = self.one()
        s.insert(0, "hello")
        s.save()
        s.take(self.long_end(10_000))
        sizes = []
        for k in range(6):
            before = s.costs().bytes
            s.insert(6 + k, "x")
            sizes.append(s.costs().bytes - before)
            s.save()
        self.assertGreater(sizes[0], 10_000)
        self.assertLess(sizes[-1], 100)
        self.assertEqual((s.stat()["epochs"], s.text()), ((2,), "hello!xxxxxx"))

    def test_while_somebody_is_away(self):
        """It renames once, until the text could soon not be renamed any more."""
        s = self.one()
        for _ in range(3):
            self.many_runs(s)
            s.save()
        self.assertEqual(s.stat()["epochs"], (2,))
        self.assertGreater(s.stat()["runs"][0], 40)
        with mock.patch.object(limits, "LATEST", 10_000):
            self.many_runs(s)
            s.save()
        self.assertEqual((s.stat()["epochs"], s.stat()["runs"]), ((3,), (1,)))

    def test_what_an_undo_puts_in_is_not_spent(self):
        s = self.one()
        s.insert(0, "x" * 100_000)
        s.delete(0, 100_000)
        s.save()
        s.undo()
        s.save()
        s.insert(0, "y")
        s.save()
        self.assertEqual(s.stat()["epochs"], (1,))


class ByChanges(Room):
    """What only the third version has: an editor's changes, of which the session makes operations when it has to."""

    def both(self):
        a, b = self.two()
        s, t = Session(a.folder), Session(b.folder)
        self.addCleanup(t.kill)
        self.addCleanup(s.kill)
        if s.version < 3:
            self.skipTest("the program has no third version of the session")
        return s, t

    def type_by_keys(self, s, rng, words):
        """Types at the end, with errors that are taken back, and saves now and then, but not right after a deletion. The text as the writer sees it."""
        text = s.text()
        for word in words:
            for c in word + " ":
                if rng.random() < 0.1:
                    wrong = "".join(rng.choice("QXZ") for _ in range(rng.choice([1, 1, 2, 3])))
                    for k, d in enumerate(wrong):
                        s.replace(len(text) + k, 0, d)
                    for k in reversed(range(len(wrong))):
                        if rng.random() < 0.2:
                            s.replace(len(text) + k, 1, "")
                        else:
                            s.replace(len(text), k + 1, "")
                            break
                s.replace(len(text), 0, c)
                text += c
                if rng.random() < 0.05:
                    s.save()
        return text

    def test_passages_at_one_place_stay_whole(self):
        s, t = self.both()
        s.insert(0, "Report: ")
        t.take(s.message(1))
        s.take(t.message(0))
        one = self.type_by_keys(s, random.Random(1), ["ada"] * 100)
        other = self.type_by_keys(t, random.Random(2), ["ben"] * 100)
        self.assertEqual((s.text(), t.text()), (one, other))
        mine, theirs = s.message(1), t.message(0)
        s.take(theirs)
        t.take(mine)
        self.assertEqual(s.text(), t.text())
        self.assertIn(one[8:], s.text())
        self.assertIn(other[8:], s.text())
        self.assertLess(len(mine), 3000)

    def test_what_comes_to_nothing_is_no_operation(self):
        s, _ = self.both()
        for k, c in enumerate("word"):
            s.replace(k, 0, c)
        s.replace(2, 2, "")
        s.replace(0, 2, "")
        self.assertEqual((s.text(), s.head().counts), ("", (0, 0)))
        s.replace(0, 0, "a")
        s.replace(1, 0, "b")
        s.replace(1, 1, "c")
        self.assertEqual((s.text(), s.head().counts), ("ac", (1, 0)))

    def test_refused_and_undone(self):
        s, _ = self.both()
        s.tell_changes()
        s.replace(0, 0, "hello")
        with self.assertRaises(Refused):
            s.replace(5, 1, "x")
        s.end_group()
        s.replace(4, 1, "X")
        self.assertEqual((s.undo_group(), s.text()), (2, "hello"))
        self.assertEqual(applied("hellX", s.news()), "hello")

    def test_a_client_that_goes_away_loses_nothing(self):
        s, _ = self.both()
        s.replace(0, 0, "abcX")
        s.replace(3, 1, "")
        s.input.close()
        self.assertEqual(s.output.read(), b"saved\n")
        s._finish()
        self.assertEqual(s.stored.text(), "abc")

    def asked(self, session):
        """The lines that are asked from now on."""
        lines, put = [], session._put
        session._put = lambda data: (lines.append(data.decode().rstrip("\n")), put(data))[1]
        return lines

    def test_a_change_is_one_request(self):
        s, _ = self.both()
        lines = self.asked(s)
        s.replace(0, 0, "one two three\n")
        s.replace(4, 3, "")
        s.set_text("One  THREE\n")
        self.assertEqual([x for x in lines if x != "t"], ["e 0 0 one two three\\n", "e 4 3 ", "e 5 5 THREE", "e 0 1 O"])
        self.assertEqual(s.text(), "One  THREE\n")


class WithAnyProgram(Room):
    def test_what_comes_is_put_behind_what_goes(self):
        """A program without the third version is told two edits, in this order, so the run of identifiers goes on."""
        a, _ = self.two()
        with Session(a.folder) as s:
            s.version = min(s.version, 2)
            s.insert(0, "hello")
            before = s.stat()["runs"] if s.version == 2 else None
            for letter in "abcdefgh":
                s.replace(4, 1, letter)
            self.assertEqual(s.text(), "hellh")
            if before:
                self.assertLessEqual(s.stat()["runs"][0], before[0] + 1)
            s.set_text("hell on earth")
        self.assertEqual(a.text(), "hell on earth")
        a.replace(5, 2, "in")
        self.assertEqual(a.text(), "hell in earth")

    def test_when_to_store(self):
        """A second after the last change, and three after one that took something away; but not for ever."""
        a, _ = self.two()
        with Session(a.folder) as s, mock.patch("time.monotonic") as clock:
            clock.return_value = 100.0
            self.assertIsNone(s.store_due_in())
            s.replace(0, 0, "word")
            self.assertEqual(s.store_due_in(), 1.0)
            clock.return_value = 100.5
            s.replace(3, 1, "")
            self.assertEqual(s.store_due_in(), 3.0)
            clock.return_value = 102.5
            s.replace(3, 0, "k")
            self.assertEqual(s.store_due_in(), 0.5)
            clock.return_value = 102.75
            s.replace(3, 1, "")
            self.assertEqual(s.store_due_in(), 3.0)
            clock.return_value = 105.0
            s.replace(2, 1, "")
            self.assertEqual(s.store_due_in(), 1.0)
            clock.return_value = 107.0
            self.assertEqual(s.store_due_in(), 0.0)
            s.save()
            self.assertIsNone(s.store_due_in())


if __name__ == "__main__":
    unittest.main()


class ByTold(Room):
    """Messages by the counts that their receiver told, which the fourth version makes."""

    def both(self):
        s, t = (self.enterContext(Session(member.folder)) for member in self.two())
        if s.version < 4:
            self.skipTest("this program has an older version of the session")
        return s, t

    def test_what_was_told_is_left_out(self):
        s, t = self.both()
        s.insert(0, "one")
        t.take(s.message(1))
        s.insert(3, " two")
        head = Head.of(t.message(0))
        self.assertEqual(head.counts, (1, 0))
        self.assertEqual(s.message(1, head.counts), s.message(1, (1, 9)))
        self.assertLess(len(s.message(1, head.counts)), len(s.message(1)))
        t.take(s.message(1, head.counts))
        self.assertEqual(t.text(), "one two")
        self.assertEqual(Head.of(s.message(1, (9, 0))), Head.of(s.message(1)))
        for told in (1,), (1, 0, 0):
            with self.assertRaises(RlsError) as e:
                s.message(1, told)
            self.assertEqual(e.exception.status, 4)

    def test_counts_that_are_not_true_lose_nothing(self):
        s, t = self.both()
        for k in range(3):
            s.insert(k, "abc"[k])
            s.save()
        self.assertEqual(t.take(s.message(1, (2, 0)))[:4], (0, 0, 0, 1))
        self.assertEqual(t.take(s.message(1, (0, 0)))[:2], (2, 1))
        self.assertEqual(t.text(), "abc")

    def test_more_for_each_other_than_a_message_holds(self):
        with mock.patch.object(limits, "RENAME_AT", 0):
            s, t = self.both()
            for member in s, t:
                for _ in range(65):
                    member.insert(0, "x" * limits.MOST_CHARACTERS)
                    member.delete(0, limits.MOST_CHARACTERS)
            boxes = [(Mailbox(self.path("shared"), member.head()), member) for member in (s, t)]
            for _ in range(3):
                for box, member in boxes:
                    self.assertEqual([report for _, report in box.sync(member)[0] if not hasattr(report, "applied")], [])
            self.assertEqual((s.head().counts, t.head().counts), ((130, 130), (130, 130)))
