"""Tests of share/prometheus/: its files name metrics that there are, each alert is tested by a case beside it, and
Debian's promtool finds no fault where it is there. tools/dev/test-prometheus tries them with a real Prometheus."""
import os
import re
import shutil
import unittest

from common import ROOT, run_to_end, text_of
from status.demo import demo_of
from status.document import complete
from status.metrics import metrics_of
from statuses import whole_document

FOLDER = os.path.join(ROOT, "share", "prometheus")
RULES, CASES = "waltigon.rules.yml", "waltigon.rules.test.yml"
NAME = re.compile(r"waltigon_[a-z_]+")
ENDINGS = ("_bucket", "_sum", "_count")
WHERE = "promtool isn't there: Debian's package prometheus has it"


def families():
    """The kind of each metric, by its name, where all of them are known."""
    told = metrics_of(complete(whole_document(), 0), of_each_station=True)
    return dict(re.findall(r"^# TYPE (\w+) (\w+)", told, re.M))


def rust(name, *path):
    """A file of the bridge's sources."""
    return text_of("tools", "bridge", "src", *path, name)


class Files(unittest.TestCase):
    """What the files name."""

    def test_each_metric_is_one(self):
        known = families()
        histograms = {f"{name}{ending}" for name, kind in known.items() if kind == "histogram" for ending in ENDINGS}
        for name in (RULES, CASES, "waltigon.html"):
            found = set(NAME.findall(text_of(FOLDER, name)))
            self.assertGreater(len(found), 10, name)
            self.assertEqual(found - set(known) - histograms, set(), name)

    def test_counters_are_read_by_how_fast_they_grow(self):
        """A count alone says nothing, since it begins anew with each start."""
        for name in (RULES, "waltigon.html"):
            text = re.sub(r"\s+", " ", text_of(FOLDER, name))
            for found in re.finditer(r"(.{12})waltigon_[a-z_]+_(?:total|bucket|count)\b", text):
                self.assertRegex(found[1], r"(rate|increase)\($", found[0])

    def test_labels_that_rules_ask_for_are_told(self):
        """The reasons for which a frame never went, and a bound of the histogram, stand in the bridge's sources."""
        rules = text_of(FOLDER, RULES)
        reasons = re.search(r'reason=~"([^"]+)"', rules)[1].split("|")
        told = re.findall(r'Unsent::\w+ => "([^"]+)"', rust("account.rs", "outbound", "air"))
        self.assertEqual([reason for reason in reasons if reason not in told], [])
        bounds = re.search(r"LATE_UP_TO: \[u32; \d\] = \[([\d, ]+)\]", rust("intervals.rs", "run"))[1]
        for name in (RULES, "waltigon.html"):
            bound = float(re.search(r"le=[\"']([\d.]+)[\"']", text_of(FOLDER, name))[1])
            self.assertIn(bound, [int(each) / 1000 for each in bounds.split(",")], name)
        demo = metrics_of(complete(demo_of(0.0, 1.0), 0))
        self.assertIn('waltigon_beacon_lateness_seconds_bucket{le="0.02"}', demo)

    def test_each_alert_is_tested(self):
        """It is seen to fire and not to fire by the cases beside it."""
        alerts = re.findall(r"- alert: (\w+)", text_of(FOLDER, RULES))
        self.assertEqual(len(set(alerts)), len(alerts))
        cases = re.findall(r"- alertname: (\w+)\n +eval_time: \w+\n +exp_alerts:( \[\])?", text_of(FOLDER, CASES))
        self.assertEqual({name for name, quiet in cases if not quiet}, set(alerts))
        self.assertEqual({name for name, quiet in cases if quiet}, set(alerts))

    @unittest.skipUnless(shutil.which("promtool"), WHERE)
    def test_promtool_finds_nothing(self):
        """It checks the rules and the sample, and runs the cases."""
        for words, says in ((("check", "rules", RULES), "SUCCESS: 14 rules found"),
                            (("check", "config", "prometheus.yml"), "SUCCESS: 1 rule files found"),
                            (("test", "rules", CASES), "SUCCESS")):
            done = run_to_end(["promtool", *words], cwd=FOLDER)
            self.assertEqual(done.returncode, 0, done.stdout + done.stderr)
            self.assertIn(says, done.stdout)

    @unittest.skipUnless(shutil.which("promtool"), WHERE)
    def test_promtool_finds_nothing_in_the_metrics(self):
        """Nor in those of the page that shows made-up networks, nor with stations of their own."""
        for each in (False, True):
            text = metrics_of(complete(demo_of(0.0, 100.0), 0), each)
            done = run_to_end(["promtool", "check", "metrics"], input=text)
            self.assertEqual((done.returncode, done.stdout + done.stderr), (0, ""))
