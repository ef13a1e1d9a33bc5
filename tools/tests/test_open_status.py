"""Tests of tools/open-status, which lets a unit of systemd take requests for the page from elsewhere: what it asks of
systemctl, for which a script stands."""
import os
from unittest import mock

from common import TOOLS, ToolTest, module_of, run_to_end

PATH = os.path.join(TOOLS, "open-status")
UNIT = "waltigon@phy0.service"
open_status = module_of("open-status")


class OpenStatus(ToolTest):
    """What it does by the words of an access point."""

    def setUp(self):
        super().setUp()
        self.write("systemctl", f'#!/bin/sh\nfor word; do echo "$word"; done >{self.folder}/asked\n'
                                f'exit $(cat {self.folder}/ends)\n', 0o755)
        self.ends(0)

    def ends(self, status):
        """With which status systemctl ends."""
        self.write("ends", f"{status}")

    def begin(self, *words):
        """What it asks for, and how it ends."""
        path = f"{self.folder}:{os.environ['PATH']}"
        done = run_to_end([PATH, UNIT, *words], env={**os.environ, "PATH": path})
        return self.asked(), done.returncode, done.stdout + done.stderr

    def asked(self):
        """What systemctl was asked for."""
        try:
            asked = self.read("asked").splitlines()
        except FileNotFoundError:
            return None
        os.unlink(self.path("asked"))
        return asked

    def test_nothing_is_changed_where_the_page_is_for_this_machine(self):
        for words in ((), ("--country", "DE"), ("--status", "9617"), ("--status", "127.0.0.1:9617"),
                      ("--status", "[::1]:9617", "--names", "/etc/ethers"), ("--idle", "60", "--status=9617")):
            self.assertEqual(self.begin(*words), (None, 0, ""), words)

    def test_who_may_ask_is_let_in(self):
        """Beside this machine, by both of its addresses; all where nobody is named."""
        for words, wanted in (
                (("--status", "192.0.2.7:9617"), "127.0.0.0/8 ::1/128 192.0.2.7 0.0.0.0/0 ::/0"),
                (("--idle", "0", "--status=192.0.2.7:9617", "--status-from", "192.0.2.10", "--status-from=2001:db8::/32",
                  "--status-host", "ap1"), "127.0.0.0/8 ::1/128 192.0.2.7 192.0.2.10/32 2001:db8::/32"),
                (("--status", "[2001:db8::7]:9617", "--status-from", "2001:db8::9"),
                 "127.0.0.0/8 ::1/128 2001:db8::7 2001:db8::9/128")):
            asked = ["set-property", "--runtime", UNIT, "IPAddressAllow=", f"IPAddressAllow={wanted}"]
            self.assertEqual(self.begin(*words), (asked, 0, ""), words)

    def test_what_was_changed_is_taken_back(self):
        changed = self.path("changed")
        command = [UNIT, "--status", "9617"]
        with mock.patch.object(open_status, "CHANGED", changed), mock.patch("sys.argv", [PATH, *command]), \
                mock.patch.dict(os.environ, {"PATH": f"{self.folder}:{os.environ['PATH']}"}):
            self.assertEqual((open_status.main(), self.asked()), (0, None))
            self.write(changed)
            self.assertEqual(open_status.main(), 0)
        self.assertEqual(self.asked(), ["set-property", "--runtime", UNIT, "IPAddressAllow=",
                                        "IPAddressAllow=127.0.0.0/8 ::1/128"])

    def test_wrong_words_and_a_systemd_that_refuses(self):
        """Nothing is changed by words that waltigon-live refuses; whoever began it sees that systemd refused."""
        for words, says in ((("--status", "0.0.0.0:9617"), "argument --status"), (("--status",), "expected one argument"),
                            (("--status", "192.0.2.7:9617", "--status-from", "192.0.2.1/24"), "argument --status-from")):
            asked, status, said = self.begin(*words)
            self.assertEqual((asked, status), (None, 2), words)
            self.assertIn(says, said)
        self.ends(4)
        self.assertEqual(self.begin("--status", "192.0.2.7:9617")[1], 4)
