"""Tests of the lock of a radio that tools/live takes: who can hold it, and who is kept from the radio by whom."""
import contextlib
import fcntl
import io
import json
import os
import stat
import subprocess
import sys
import unittest
from unittest import mock

from common import ToolTest
from live import locks
from live.changes import Changes
from live.faults import Fault
from live.processes import start_of

# Opens a file to read it, takes its lock by this descriptor, and holds it until its standard input ends.
HOLDER = """import fcntl, os, sys
opened = os.open(sys.argv[1], os.O_RDONLY)
os.dup2(opened, int(sys.argv[2]))
os.close(opened)
fcntl.flock(int(sys.argv[2]), fcntl.LOCK_EX)
print("held", flush=True)
sys.stdin.read()
"""
TAKEN = "^phy9: another tools/live serves this radio$"
needs_root = unittest.skipUnless(os.geteuid() == 0, "only root can be another user")


def setUpModule():
    """Lines are told by the name of what is tested."""
    called_so = mock.patch.object(sys, "argv", ["tools/live"])
    called_so.start()
    unittest.addModuleCleanup(called_so.stop)


class LockOfARadio(ToolTest):
    """The files of a radio that are locked as long as its access point runs."""

    def setUp(self):
        super().setUp()
        os.chmod(self.folder, 0o755)  # as /run/waltigon is
        self.addCleanup(os.umask, os.umask(0o022))

    def hold(self, name, user=None, descriptor=9):
        """A process holds the lock of a file that others may read, as earlier versions make it."""
        if not os.path.exists(self.path(name)):
            self.write(name, "", 0o644)
        words = [sys.executable, "-c", HOLDER, self.path(name), str(descriptor)]
        holder = subprocess.Popen(words, user=user, text=True, stdin=subprocess.PIPE, stdout=subprocess.PIPE)
        self.addCleanup(self.release, holder)
        self.assertEqual(holder.stdout.readline(), "held\n")
        return holder

    @staticmethod
    def release(holder):
        """It ends."""
        holder.communicate()

    def begin(self):
        """A start takes the radio; what it told."""
        with contextlib.redirect_stderr(io.StringIO()) as told:
            made = Changes("phy9", self.folder)
        self.addCleanup(made.close)
        return made, told.getvalue()

    def test_nobody_but_root_can_open_it(self):
        """Whoever could open it, be it to read, could keep all access points from this radio."""
        self.write("phy9.lock", "", 0o644)
        made, told = self.begin()
        self.assertEqual(told, "")
        modes = {name: stat.S_IMODE(os.stat(self.path(name)).st_mode) for name in os.listdir(self.folder)}
        self.assertEqual(modes, {"phy9.held": 0o600, "phy9.lock": 0o600})
        for name in modes:
            with open(self.path(name), encoding="ascii") as file, self.assertRaises(BlockingIOError):
                fcntl.flock(file, fcntl.LOCK_EX | fcntl.LOCK_NB)
        made.close()
        self.begin()

    @needs_root
    def test_another_user_keeps_nobody_from_it(self):
        """Who holds the file that earlier versions lock is told of, and all goes on."""
        self.hold("phy9.lock", "nobody")
        made, told = self.begin()
        self.assertIn("a user other than root holds the lock of ", told)
        with self.assertRaisesRegex(Fault, TAKEN):
            Changes("phy9", self.folder)
        made.close()
        self.begin()

    @needs_root
    def test_what_another_user_has_root_hold(self):
        """A program that runs as root for any user has its standard streams from them."""
        self.hold("phy9.lock", descriptor=2)
        self.assertIn("a user other than root holds", self.begin()[1])

    @needs_root
    def test_an_earlier_version_that_runs(self):
        """It is root's, and keeps this one from its radio until it ends."""
        before = self.hold("phy9.lock")
        with self.assertRaisesRegex(Fault, TAKEN):
            Changes("phy9", self.folder)
        self.release(before)
        self.begin()

    def test_an_earlier_version_that_shows_nothing(self):
        """A service can't look at another's descriptors: the file PHY.run tells of it, which root alone writes."""
        before = self.hold("phy9.lock")
        self.patch((locks, "holds", lambda *_: False))
        started = start_of(before.pid)
        for told, is_taken in (({"pid": before.pid, "started": started}, True),
                               ({"pid": before.pid, "started": started - 1}, False), ({}, False), ([], False)):
            self.write("phy9.run", json.dumps(told))
            with self.subTest(told=told):
                if is_taken:
                    with self.assertRaisesRegex(Fault, TAKEN):
                        Changes("phy9", self.folder)
                else:
                    self.begin()[0].close()

    def test_an_earlier_version_that_begins(self):
        """It finds its file locked, as it does where one of its own runs."""
        self.begin()
        with open(self.path("phy9.lock"), "a", encoding="ascii") as file, self.assertRaises(BlockingIOError):
            fcntl.flock(file, fcntl.LOCK_EX | fcntl.LOCK_NB)

    def test_a_link_is_not_followed(self):
        """Nor is anything behind it changed."""
        other = self.write("other", "", 0o644)
        os.symlink(other, self.path("phy9.lock"))
        with self.assertRaisesRegex(Fault, "Too many levels of symbolic links"):
            Changes("phy9", self.folder)
        self.assertEqual(stat.S_IMODE(os.stat(other).st_mode), 0o644)
        os.unlink(self.path("phy9.lock"))
        self.begin()


if __name__ == "__main__":
    unittest.main()
