"""Tests of what the bridge and the program may do: both run as `tools/live` starts them, with packet sockets of a network
namespace, and somebody who has taken one of them over tries what it shouldn't. They take root, the built bridge and the
built program; the bridge's own tests try each call of the system without these."""
import json
import os
import platform
import shutil
import subprocess
import sys
import unittest

from common import PROGRAM, ROOT, TOOLS, ToolTest, run_to_end
from live.machine import PACKAGES

BRIDGE = os.path.join(ROOT, "build", "bridge", "release", "bridge")
SCRIPT = os.path.join(TOOLS, "tests", "confined.py")
NONE = "0000000000000000"
REFUSED = -13  # EACCES
USER = 930
MISSING = [f"{name} (package {package})" for name, package in PACKAGES.items() if shutil.which(name) is None]
NEEDS_COMMANDS = unittest.skipIf(MISSING, f"not on this machine: {', '.join(MISSING)}")


def can_try():
    """Whether this machine lets a process have namespaces of its own."""
    return subprocess.run(["unshare", "--net", "--mount", "true"], capture_output=True, check=False).returncode == 0


@unittest.skipUnless(os.environ.get("ATTACKS"), "ATTACKS isn't set, as make test-live sets it")
@unittest.skipUnless(os.geteuid() == 0 and can_try(), "it takes root, and namespaces")
@unittest.skipUnless(os.path.exists(BRIDGE), "the bridge isn't there (make bridge builds it)")
@unittest.skipUnless(os.path.exists(PROGRAM), "build/apctl isn't there (make apctl builds it)")
@unittest.skipUnless(platform.machine() in ("x86_64", "aarch64"), "calls are made as on x86-64 and arm64 alone")
@NEEDS_COMMANDS
class Confined(ToolTest):
    """An access point whose parts are attacked."""

    def attack(self, case):
        """What came of a case."""
        folder = self.path(case)
        os.makedirs(folder)
        for path in (self.folder, folder):
            os.chmod(path, 0o755)
        # whatever is left of it ends with it, so that nothing is waited for after the time is over
        words = ["unshare", "--net", "--mount", "--pid", "--fork", "--kill-child", "--mount-proc",
                 sys.executable, SCRIPT, BRIDGE, PROGRAM, folder, case]
        done = run_to_end(words, timeout=120)
        self.assertEqual(done.returncode, 0, done.stderr)
        found = json.loads(done.stdout)
        self.assertEqual((found["left"], found["made"]), ([], ["phy0.held", "phy0.lock"]), found["log"])
        return found

    def test_rights(self):
        """No capability, no new privileges, a list of calls, the user; the program has its two pipes and no other
        descriptor. The record is its owner's alone."""
        found = self.attack("look")
        self.assertIsNone(found["fault"], found["log"])
        for name, part in found["outcome"].items():
            self.assertEqual({part[key] for key in ("CapInh", "CapPrm", "CapEff", "CapBnd", "CapAmb")}, {NONE}, name)
            self.assertEqual((part["NoNewPrivs"], part["Seccomp"], part["Groups"].strip()), ("1", "2", ""), name)
            self.assertEqual(set(part["Uid"].split() + part["Gid"].split()), {str(USER)}, name)
        self.assertEqual([what for what in found["outcome"]["program"]["descriptors"] if not what.endswith("log")],
                         ["pipe", "pipe"])
        self.assertEqual(found["record"], "0o600")
        self.assertNotIn("--as-root", found["log"])

    def test_wire(self):
        """A wire that is deleted and made again is taken again, also under a new index."""
        found = self.attack("wire")
        self.assertEqual((found["outcome"], found["fault"]), ("there again", None), found["log"])

    def test_bridge_is_killed(self):
        """One that runs a program or makes a socket; all is taken down then."""
        for case in ("bridge-runs", "bridge-connects"):
            found = self.attack(case)
            self.assertEqual(found["outcome"], "killed by SIGSYS", case)
            self.assertIn("the bridge ended by itself, by the signal SIGSYS", found["fault"], case)

    def test_bridge_is_refused(self):
        """One that opens a file; it goes on."""
        found = self.attack("bridge-writes")
        self.assertEqual((found["outcome"], found["fault"]), (REFUSED, None), found["log"])
        self.assertFalse(os.path.exists(self.path("bridge-writes/written")))

    def test_program_is_refused(self):
        """One that opens another file than its configuration, or that to write, or runs another program."""
        for case in ("program-reads-another", "program-writes-its-own", "program-runs"):
            found = self.attack(case)
            self.assertEqual((found["outcome"], found["fault"]), (REFUSED, None), f"{case}: {found['log']}")
        self.assertGreater(self.attack("program-reads-its-own")["outcome"], 2)

    def test_program_is_killed(self):
        """One that makes a socket; all is taken down then."""
        found = self.attack("program-connects")
        self.assertEqual((found["outcome"], found["fault"]), ("killed by SIGSYS", "the program ended by itself"))
