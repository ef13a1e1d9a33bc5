"""Tests of `tools/live events`: what is written of a bridge that only has its socket, as its events grow, another one
takes its place, or none answers."""
import io
import json
import os
import subprocess
import unittest
from contextlib import redirect_stdout
from datetime import datetime, timedelta, timezone
from unittest import mock

from common import TOOLS, ToolTest, tool, wait_until
from live import changes, events
from live.events import Follower, moment_of, text_of
from live.faults import Fault
from statuses import FakeBridge

BEGAN = 1795645850.0  # 2026-11-25T22:30:50Z


def event(number, seconds, name="joined"):
    """An event so many seconds behind the bridge's begin."""
    time_text = text_of(datetime.fromtimestamp(BEGAN + seconds, timezone.utc))
    return {"number": number, "time": time_text, "event": name, "bssid": "02:00:00:00:01:01"}


class Following(ToolTest):
    """A follower of a bridge whose events a test gives."""

    def setUp(self):
        super().setUp()
        self.patch((changes, "RUN", self.folder))
        self.began, self.events, self.dropped, self.asked = BEGAN, [event(1, 10), event(2, 20)], [], []
        self.most = 1000  # of an answer
        self.bridge = self.start()

    def start(self):
        """The bridge's socket."""
        return FakeBridge(self.path("phy0.sock"), self.answer)

    def answer(self, line):
        """What the bridge answers; of `dropped` events there is no room any more."""
        self.asked.append(line.decode().split())
        first = int(self.asked[-1][1])
        dropped = [one["time"] for one in self.dropped if one["number"] >= first]
        numbers = [one["number"] for one in self.dropped + self.events]
        found = [one for one in self.events if one["number"] >= first]
        return json.dumps({"began": self.began,
                           "next": found[self.most]["number"] if len(found) > self.most else max(numbers, default=0) + 1,
                           "dropped": max(dropped, default=None), "events": found[:self.most]}).encode() + b"\n"

    def followed(self):
        """One that follows the bridge from now on."""
        follower = Follower("phy0", None)
        list(follower.begin())
        return follower

    def names(self, told):
        """The numbers of the bridge's events, and the names of the others."""
        return [one.get("number", one["event"]) for one in told]

    def test_what_is_new_is_told_once(self):
        follower = Follower("phy0", None)
        told = list(follower.begin())
        self.assertEqual([{**one, "time": ""} for one in told],
                         [{"time": "", "event": "following", "format": 1, "phy": "phy0"}])
        self.assertEqual(list(follower.look()), [])
        self.events.append(event(3, 30))
        self.assertEqual(list(follower.look()), [event(3, 30)])
        self.assertEqual(list(follower.look()), [])
        self.assertEqual(self.asked, [["events", str(events.LAST)], ["events", "3"], ["events", "3"], ["events", "4"]])

    def test_what_happened_since_a_time_is_told_first(self):
        for since, wanted in ((15, [2]), (10, [1, 2]), (21, []), (-5, ["missing", 1, 2])):
            moment = text_of(datetime.fromtimestamp(BEGAN + since, timezone.utc))
            told = list(Follower("phy0", moment).begin())
            self.assertEqual(self.names(told), ["following", *wanted], since)

    def test_what_has_no_room_in_an_answer_is_asked_for(self):
        self.most, self.events = 2, [event(number, 10) for number in range(1, 6)]
        follower = Follower("phy0", moment_of("2026-11-25T22:30:51Z"))
        self.assertEqual(self.names(follower.begin()), ["following", 1, 2, 3, 4, 5])
        self.events += [event(number, 20) for number in range(6, 10)]
        told = [self.names(follower.look()) for _ in range(3)]
        self.assertEqual(told, [[6, 7], [8, 9], []])

    def test_what_is_not_kept_any_more_is_told_as_missing(self):
        self.dropped, self.events = [event(1, 10), event(3, 30)], [event(2, 20), event(4, 40)]
        for since, wanted in ((35, [4]), (25, ["missing", 4])):
            moment = text_of(datetime.fromtimestamp(BEGAN + since, timezone.utc))
            told = list(Follower("phy0", moment).begin())
            self.assertEqual(self.names(told), ["following", *wanted], since)
        self.assertEqual(told[1]["until"], event(3, 30)["time"])
        follower = self.followed()
        self.dropped.append(event(5, 50))
        self.events.append(event(6, 60))
        self.assertEqual(self.names(follower.look()), ["missing", 6])

    def test_another_bridge_is_followed_from_its_first_event(self):
        follower = self.followed()
        self.began, self.events = BEGAN + 100, [event(1, 101)]
        self.assertEqual(self.names(follower.look()), ["restarted", 1])
        self.assertEqual(self.names(follower.look()), [])

    def test_that_none_answers_is_told_once_until_one_does(self):
        follower = self.followed()
        self.bridge.close()
        self.assertEqual(self.names(follower.look()), ["unreachable"])
        self.assertEqual(self.names(follower.look()), [])
        self.began, self.events = BEGAN + 100, [event(1, 101)]
        self.bridge = self.start()
        self.assertEqual(self.names(follower.look()), ["restarted", 1])
        self.bridge.close()
        self.assertEqual(self.names(follower.look()), ["unreachable"])
        with self.assertRaises(Fault):
            list(Follower("phy0", None).begin())

    def test_lines_come_as_they_happen_until_nobody_reads(self):
        """By the command, which finds the one bridge that runs by itself."""
        script = ("import sys; sys.path.insert(0, {lib!r}); from live import changes; changes.RUN = {run!r};"
                  "from live.events import tell_events; tell_events(None, None)").format(
                      lib=os.path.join(TOOLS, "lib"), run=self.folder)
        with subprocess.Popen(["python3", "-c", script], stdout=subprocess.PIPE, stderr=subprocess.PIPE,
                              text=True) as process:
            self.assertEqual(json.loads(process.stdout.readline())["event"], "following")
            wait_until(lambda: len(self.asked) >= 2)
            self.events.append(event(3, 30))
            self.assertEqual(json.loads(process.stdout.readline()), event(3, 30))
            process.stdout.close()
            self.events.append(event(4, 40))
            process.wait(20)
            self.assertEqual(process.stderr.read(), "")

    def test_ctrl_c_ends_it(self):
        with mock.patch.object(events.time, "sleep", side_effect=KeyboardInterrupt), \
                redirect_stdout(io.StringIO()) as told:
            events.tell_events("phy0", None)
        self.assertEqual(told.getvalue().count("\n"), 1)


class Moments(unittest.TestCase):
    """The words of --since."""

    def test_times(self):
        for text, wanted in (("2026-11-29T16:30:00Z", "2026-11-29T16:30:00.000Z"),
                             ("2026-11-29T16:30:00.25+02:00", "2026-11-29T14:30:00.250Z")):
            self.assertEqual(moment_of(text), wanted)
        for text, seconds in (("90s", 90), ("10min", 600), ("2h", 7200)):
            ago = datetime.now(timezone.utc) - datetime.fromisoformat(moment_of(text))
            self.assertAlmostEqual(ago / timedelta(seconds=1), seconds, delta=20)

    def test_what_is_no_time(self):
        for text in ("", "10", "10m", "yesterday", "-5s", "1.5h"):
            with self.assertRaises(ValueError, msg=text):
                moment_of(text)
        status, _, told = tool("live", "events", "--since", "10m")
        self.assertEqual(status, 2)
        self.assertIn("10m is neither a time as 2026-11-29T16:30:00Z nor as 90s, 10min or 2h ago", told)
