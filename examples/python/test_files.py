"""Tests of what the package rls does with files of folders into which others write: python3 test_files.py."""
import fcntl
import os
import threading
import unittest
from unittest import mock

from room import Room
import rls.tokens
from rls import Head, RlsError
from rls.folders import regular, replace

HEAD = Head(7, 2, 0, (0, 0))


class Files(Room):
    def written(self, name, data):
        with open(self.path(name), "wb") as f:
            f.write(data)
        return self.path(name)

    def calls_of(self, function):
        """What the function syncs, writes and renames, in order; each file by its name, or its first four characters."""
        calls, sync, rename, pwrite = [], os.fsync, os.replace, os.pwrite

        def name_of(fd):
            return os.path.basename(os.readlink(f"/proc/self/fd/{fd}"))[:13]
        with mock.patch("os.fsync", lambda fd: (calls.append(f"sync {name_of(fd)[:5]}"), sync(fd))), \
                mock.patch("os.replace", lambda old, new: (calls.append(f"rename {os.path.basename(new)}"), rename(old, new))), \
                mock.patch("os.pwrite", lambda fd, data, at: (calls.append(f"write {name_of(fd)}"), pwrite(fd, data, at))):
            function()
        return calls

    def test_a_file_is_on_the_disk_before_it_has_its_name(self):
        path = self.written("x", b"old")
        self.assertEqual(self.calls_of(lambda: replace(path, b"new")), ["sync .new-", "rename x"])
        self.assertEqual(regular(path, 3), b"new")

    def test_a_token_is_on_the_disk_before_it_is_shown(self):
        self.assertEqual(self.calls_of(lambda: rls.tokens.show(self.room, HEAD, self.room)),
                         ["write replica.token", "sync repli", "sync .new-", f"rename 7-0-{rls.tokens.own_record(self.room).token}.member"])

    def test_nobody_reads_a_token_while_another_writes_it(self):
        before = rls.tokens.own_record(self.room)
        found = []
        with open(self.path(rls.tokens.NOTE), "rb") as held:
            fcntl.flock(held, fcntl.LOCK_EX)
            reader = threading.Thread(target=lambda: found.append(rls.tokens.own_record(self.room, more=True)))
            reader.start()
            reader.join(0.3)
            self.assertEqual(found, [])
        reader.join(20)
        self.assertEqual([(x.token, x.count) for x in found], [(before.token, 1)])

    def test_what_can_not_be_replaced_leaves_nothing(self):
        os.mkdir(self.path("folder"))
        with self.assertRaises(RlsError) as e:
            replace(self.path("folder"), b"new")
        self.assertEqual((e.exception.status, os.listdir(self.room)), (9, ["folder"]))
        with mock.patch("os.fsync", side_effect=OSError(28, "no room")), self.assertRaises(OSError):
            replace(self.path("other"), b"new")
        self.assertEqual(os.listdir(self.room), ["folder"])

    def test_the_limit(self):
        self.assertEqual(regular(self.written("x", b"1234567890"), 10), b"1234567890")
        with mock.patch("os.read", side_effect=AssertionError("it was read")), self.assertRaises(RlsError) as e:
            regular(self.written("y", b"12345678901"), 10)
        self.assertEqual(e.exception.status, 11)
        # One that grows while it is read.
        told = os.stat(self.path("x"))
        with mock.patch("os.fstat", return_value=told), self.assertRaises(RlsError) as e:
            regular(self.path("y"), 10)
        self.assertEqual(e.exception.status, 11)


if __name__ == "__main__":
    unittest.main()
