"""Tests of the role that brings one configuration to the access points of a site (share/ansible, docs/SITES.md). Where
ansible is there, its syntax is looked at. With ROLE=yes it is tried over ssh against two network namespaces; that takes
root, Debian's packages ansible and openssh-server, and the built program."""
import json
import os
import shutil
import sys
import unittest

from common import PROGRAM, ROOT, TOOLS, ToolTest, run_to_end

ANSIBLE = os.path.join(ROOT, "share", "ansible")
SCRIPT = os.path.join(TOOLS, "tests", "site_role.py")
FILES = ("toml", "wires", "environment")
UNIT = "waltigon@phy0"


@unittest.skipUnless(shutil.which("ansible-playbook"), "ansible isn't there (Debian's package ansible)")
class SiteRole(ToolTest):
    """What ansible says of it."""

    def test_syntax(self):
        """The playbook and its sample of a site are read without a fault."""
        words = ["ansible-playbook", "--syntax-check", "-i", os.path.join(ANSIBLE, "my-site.yml"),
                 os.path.join(ANSIBLE, "site.yml")]
        surroundings = {**os.environ, "ANSIBLE_NOCOLOR": "1", "ANSIBLE_LOCAL_TEMP": self.path("local")}
        done = run_to_end(words, env=surroundings)
        self.assertEqual(done.returncode, 0, done.stdout + done.stderr)
        self.assertNotIn("WARNING", done.stderr)

    @unittest.skipUnless(os.environ.get("ROLE"), "ROLE isn't set")
    @unittest.skipUnless(os.geteuid() == 0 and os.path.exists("/usr/sbin/sshd"), "it takes root, and openssh-server")
    @unittest.skipUnless(os.path.exists(PROGRAM), "build/apctl isn't there (make apctl builds it)")
    def test_two_machines(self):
        """What each play does, and that a fault changes nothing."""
        done = run_to_end(["unshare", "--net", "--mount", sys.executable, SCRIPT, PROGRAM], timeout=900)
        self.assertEqual(done.returncode, 0, done.stderr)
        found = json.loads(done.stdout)
        self.first(found)
        self.later(found)
        self.refused(found)

    def first(self, found):
        """The first play enables and starts both, one after the other; the second one changes nothing."""
        first = found["first"]
        self.assertEqual(first["status"], 0, first["said"] + str(found["logs"]))
        for name, channel, bssid in (("ap1", 1, "02:00:00:00:01:02"), ("ap2", 6, "02:00:00:00:02:02")):
            files = first[name]["files"]
            self.assertIn(f"\nchannel = {channel}\n", files["toml"])
            self.assertEqual(files["wires"].splitlines()[2], f"{bssid}=wire-office")
            self.assertEqual(files["environment"].splitlines()[1:],
                             [f"WORDS=--status 9617 --country DE --share {bssid}=2"])
            self.assertEqual(sorted(first[name]["calls"]), [["enable", UNIT], ["start", UNIT]])
        self.assertLess(max(first["ap1"]["times"]), min(first["ap2"]["times"]))
        self.assertEqual(found["again"]["status"], 0, found["again"]["said"])
        self.assertEqual(found["again"]["said"].count("changed=0 "), 2, found["again"]["said"])
        self.assertEqual([found["again"][name]["calls"] for name in ("ap1", "ap2")], [[], []])

    def later(self, found):
        """A changed network is read again, and changed words begin the service anew."""
        for play, call in (("renamed", "reload"), ("words", "restart")):
            self.assertEqual(found[play]["status"], 0, found[play]["said"])
            for name in ("ap1", "ap2"):
                self.assertEqual(found[play][name]["calls"], [[call, UNIT]], play)
                self.assertIn('ssid = "visitors"', found[play][name]["files"]["toml"])

    def refused(self, found):
        """A fault is named, and nothing changes; the second machine isn't touched where the first one doesn't serve."""
        before = {name: found["words"][name]["files"] for name in ("ap1", "ap2")}
        for play, said in (("fault", "fault C"), ("twice", "have one BSSID: 02:00:00:00:01:01 02:00:00:00:01:01"),
                           ("lacking", "waltigon_bssids of ap2 has guests office")):
            self.assertNotEqual(found[play]["status"], 0, play)
            self.assertIn(said, found[play]["said"])
            self.assertEqual({name: found[play][name]["files"] for name in before}, before, play)
            self.assertEqual([found[play][name]["calls"] for name in before], [[], []], play)
        broken = found["broken"]
        self.assertNotEqual(broken["status"], 0)
        self.assertIn('ssid = "guests"', broken["ap1"]["files"]["toml"])
        self.assertEqual(broken["ap2"]["files"], before["ap2"])
