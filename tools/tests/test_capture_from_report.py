"""Tests of tools/capture-from-report: what it writes is what the report says, and Wireshark reads all of it."""
import glob
import os
import subprocess
import tempfile

from captures.files import read_capture
from common import DEVICES, GUEST, THREE, ToolTest, input_of, report_of, tool, with_report
from frames import Frame
from reading import unit_from_wire, wired_form
from texts import read_text


def tshark(path, *words):
    """What tshark says of a capture."""
    return subprocess.run(["tshark", "-r", path, *words], capture_output=True, text=True, check=True).stdout


def fields(path, *names):
    """The values of some fields, a list for each frame. Of a bit the tshark of Debian 13 says True or False."""
    words = [word for name in names for word in ("-e", name)]
    bits = {"True": "1", "False": "0"}
    return [[bits.get(value, value) for value in line.split("\t")]
            for line in tshark(path, "-T", "fields", *words).splitlines()]


def units_of(lines):
    """The units that a trace brings to the networks, as on the air and on the wire, without addresses."""
    heard = [Frame(line.octets).body for line in lines if line.kind == "A"]
    came = [unit_from_wire(line.octets).body for line in lines if line.kind == "W" and unit_from_wire(line.octets)]
    return set(heard + came)


class CaptureFromReport(ToolTest):
    """The captures of reports."""

    @classmethod
    def setUpClass(cls):
        """Writes the captures of each example's report."""
        cls.work = tempfile.TemporaryDirectory()
        cls.addClassCleanup(cls.work.cleanup)
        for folder in with_report():
            done = tool("capture-from-report", os.path.join(folder, "stdout"), "--out", cls.out(folder))
            if done[0] or done[2]:
                raise AssertionError(f"{folder}: {done}")

    @classmethod
    def out(cls, folder):
        """Where an example's captures stand."""
        return os.path.join(cls.work.name, os.path.basename(folder))

    def captures(self, folder):
        """The captures of an example's report."""
        return sorted(glob.glob(os.path.join(self.out(folder), "*.pcap")))

    def test_captures_have_the_reports_frames(self):
        """The frames of each example's report stand in its captures, in order, whole."""
        for folder in with_report():
            files = self.captures(folder)
            for section in report_of(folder):
                for kind, link, wanted in (("air", 105, section.air), ("wire", 1, section.wire)):
                    path = os.path.join(self.out(folder), f"{section.bssid.hex()}.{kind}.pcap")
                    self.assertEqual(path in files, bool(wanted), path)
                    found = read_capture(path) if wanted else []
                    found = [(frame.link, frame.octets, frame.is_whole) for frame in found]
                    self.assertEqual(found, [(link, octets, True) for octets in wanted], path)

    def test_tshark_finds_nothing_malformed(self):
        """Of all examples' reports no frame is malformed. What a station put into a unit is its own: where that isn't
        whole, it came so in the trace."""
        files = [(path, folder) for folder in with_report() for path in self.captures(folder)]
        merged = self.path("all.pcapng")
        subprocess.run(["mergecap", "-a", "-w", merged, *(path for path, _ in files)], check=True)
        frames = [(frame, folder) for path, folder in files for frame in read_capture(path)]
        self.assertEqual([frame.octets for frame in read_capture(merged)], [frame.octets for frame, _ in frames])
        self.assertGreater(len(frames), 250)
        own = tshark(merged, "-q", "-z", "expert", "--disable-protocol", "llc", "--disable-protocol", "ip")
        self.assertNotIn("Malformed", own)
        numbers = [int(words[0]) for words in fields(merged, "frame.number", "_ws.malformed") if words[1]]
        for frame, folder in (frames[number - 1] for number in numbers):
            body = Frame(frame.octets).body if frame.link == 105 else unit_from_wire(frame.octets).body
            self.assertIn(body, units_of(input_of(folder)[1]), folder)
        self.assertLess(len(numbers), 5)

    def test_tshark_reads_what_the_networks_wrote(self):
        """Wireshark's own reader finds the answers, the TIM's bits and More Data of the example of three networks."""
        files = self.captures(THREE)
        devices = next(path for path in files if path.endswith(f"{DEVICES.hex()}.air.pcap"))
        names = ("wlan.fc.type_subtype", "wlan.fc.moredata", "wlan.fixed.status_code", "wlan.fixed.aid",
                 "wlan.tim.dtim_count", "wlan.tim.bmapctl.multicast", "wlan.tim.partial_virtual_bitmap",
                 "frame.time_epoch")
        self.assertEqual(fields(devices, *names), [
            ["0x000b", "0", "0x0000", "", "", "", "", "0.000000000"],
            ["0x0001", "0", "0x0000", "0x0001", "", "", "", "0.000001000"],
            ["0x0008", "0", "", "", "0", "0", "00", "0.102400000"],
            ["0x0008", "0", "", "", "2", "0", "02", "0.204800000"],
            ["0x0020", "1", "", "", "", "", "", "0.204801000"],
            ["0x0020", "0", "", "", "", "", "", "0.204802000"],
            ["0x0008", "0", "", "", "1", "0", "00", "0.307200000"],
            ["0x0008", "0", "", "", "0", "1", "00", "0.409600000"],
            ["0x0020", "0", "", "", "", "", "", "0.409601000"]])

    def test_one_network_alone(self):
        """--network writes the captures of that network alone."""
        out = self.path("out")
        status, stdout, _ = tool("capture-from-report", os.path.join(THREE, "stdout"), "--out", out, "--network",
                                 GUEST.hex(":"))
        self.assertEqual(status, 0)
        self.assertEqual(sorted(os.listdir(out)), [f"{GUEST.hex()}.air.pcap", f"{GUEST.hex()}.wire.pcap"])
        self.assertEqual(len(stdout.splitlines()), 2)

    def test_changed_octet_is_seen(self):
        """Where one octet of a report is changed, that frame of its capture differs, and no other."""
        text = read_text(os.path.join(THREE, "stdout"))
        lines = text.split("\n")
        place = next(place for place, line in enumerate(lines) if line.startswith("air 0802") and line.endswith("01"))
        lines[place] = lines[place][:-2] + "fe"
        self.write("changed", "\n".join(lines))
        tool("capture-from-report", self.path("changed"), "--out", self.path("out"))
        section = report_of(THREE)[1]
        path = os.path.join(self.path("out"), f"{section.bssid.hex()}.air.pcap")
        found = [frame.octets for frame in read_capture(path)]
        self.assertEqual([place for place, octets in enumerate(found) if octets != section.air[place]], [5])

    def test_refusals(self):
        """What is no report is refused, and a network that it doesn't have."""
        report = os.path.join(THREE, "stdout")
        self.refused("capture-from-report", self.path("none"), says="No such file")
        self.refused("capture-from-report", os.path.join(THREE, "input"), says="that begins in line 1 can't be read")
        self.refused("capture-from-report", report, "--out", self.path("out"), "--network", "02:00:00:00:00:09",
                     says="no section of it is of the network 02:00:00:00:00:09")
        for cut in (40, 1):
            self.write("cut", read_text(report)[:-cut])
            self.refused("capture-from-report", self.path("cut"), "--out", self.path("out"), says="report")
        self.write("short", "network 02:00:00:00:00:01 ssid 6c6162\nevents 1 clock 0 unread 0 lost 0 kept 0\n"
                            "air 5000\nend\n")
        self.refused("capture-from-report", self.path("short"), "--out", self.path("out"), says="header alone has 24")


class WiredForm(ToolTest):
    """The wired form of a unit comes back as it was."""

    def test_wired_frames_come_back(self):
        """Each wired frame of the examples that is read is its unit's wired form, but for padding."""
        count = 0
        for folder in with_report():
            for line in input_of(folder)[1]:
                unit = unit_from_wire(line.octets) if line.kind == "W" else None
                if unit:
                    count += 1
                    self.assertTrue(line.octets.startswith(wired_form(unit)), line)
        self.assertGreater(count, 10)
