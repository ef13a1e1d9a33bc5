"""Tests of docs/FORMATS.md, "JSON and metrics": it names each member of the documents, each event and each metric, and
no other metric."""
import re
import unittest

from common import text_of
from status.demo import demo_of
from status.document import complete
from status.history import NETWORK_SERIES, STATION_SERIES
from status.metrics import metrics_of
from statuses import document, network, station, whole_document


def members(value):
    """The names of all members, but for those that a count has by its reason."""
    if isinstance(value, list):
        return set().union(*map(members, value))
    if isinstance(value, dict):
        inner = [members(one) for name, one in value.items()
                 if name not in ("drops", "left_out", "unsent", "refusals") or one is None]
        return set(value).union(*inner)
    return set()


class JsonPage(unittest.TestCase):
    """The page for whoever writes scripts."""

    def setUp(self):
        self.page = text_of("docs", "FORMATS.md").partition("\n## JSON and metrics\n")[2]

    def named(self, names):
        """Each of these names stands on the page."""
        self.assertEqual([name for name in sorted(names) if f"`{name}`" not in self.page], [])

    def test_members_of_the_status(self):
        """Those that the bridge writes, by the names in its source, and those that the page adds."""
        folder = ("tools", "bridge", "src", "control")
        source = text_of(*folder, "status.rs").partition("#[cfg(test)]")[0] + text_of(*folder, "network_part.rs")
        written = set(re.findall(r'serialize_entry\("(\w+)"|^ +"(\w+)": ', source, re.M))
        written = {one or other for one, other in written}
        self.assertGreater(len(written), 60)
        self.named(written)
        made = complete(document(network(1, b"guests", [station(1)])), 0, {station(1)["address"]: "x"})
        self.named(members(made))
        self.assertEqual(demo_of(0.0, 1.0)["format"], 1)

    def test_history_and_events(self):
        self.named({"seconds", *NETWORK_SERIES, *STATION_SERIES})
        source = text_of("tools", "bridge", "src", "control", "events.rs").partition("#[cfg(test)]")[0]
        kinds = set(re.findall(r'=> "([a-z-]+)",\n', source))
        self.assertGreaterEqual(len(kinds), 10)
        own = set(re.findall(r'own_event\("([a-z-]+)"', text_of("tools", "lib", "live", "events.py")))
        self.assertEqual(len(own), 4)
        written = set(re.findall(r'serialize_entry\("(\w+)"', source))
        self.named(kinds | own | written - {"began", "next", "dropped", "events"})  # of the bridge's answer alone

    def test_metrics(self):
        told = set(re.findall(r"^# TYPE (\w+)", metrics_of(complete(whole_document(), 0), of_each_station=True), re.M))
        self.assertEqual(told, set(re.findall(r"`(waltigon_\w+)`", self.page)))
