"""Tests of tools/trace-from-capture, over captures that tools/capture-from-run made of the examples."""
import glob
import os
import subprocess
import tomllib

from captures.files import (PLAIN_80211, RADIOTAP, RadioTap, fcs_of, read_air, read_capture, read_wire, write_pcap,
                            write_pcapng)
from captures.hearing import beacon_ticks, even_ticks, interval_length
from common import (DEVICES, GUEST, OFFICE, THREE, ToolTest, input_of, needs_program, run_program, tool, with_report)
from frames import BEACON, CONTROL, PS_POLL, Frame
from texts import read_origins, read_text, read_trace

SAMPLE = os.path.join(THREE, "air.pcapng")
WIRES = [word for place, bssid in enumerate((GUEST, OFFICE, DEVICES), 1)
         for word in ("--wire", f"{bssid.hex(':')}={os.path.join(THREE, f'wire.{place}.pcapng')}")]
TOLD = """air.pcapng: 59 frames, 16 of them lines of the trace
  14 left out: control frames other than PS-Poll
  1 left out: cut by the capture
  1 left out: sent again, with the sequence number that came before
  25 left out: sent by the access point itself
  1 left out: with a wrong frame check sequence, or damaged
  1 left out: with several units in one (A-MSDU)
wire.1.pcapng, of 02:00:00:00:01:01: 1 frame, 0 of them lines of the trace
  1 left out: passed on by the access point, from a station on the air
wire.2.pcapng, of 02:00:00:00:01:02: 2 frames, 0 of them lines of the trace
  2 left out: passed on by the access point, from a station on the air
wire.3.pcapng, of 02:00:00:00:01:03: 3 frames, 3 of them lines of the trace
beacon intervals: 4, by the beacons of 02:00:00:00:01:01; 0 lines T were made, where no beacon was captured
"""
# The one example with beacon intervals of which no beacon tells: the network's history is full by then.
SILENT = ["full_history_refuses_the_third_tick"]


def essence(lines):
    """A trace without the numbers of its lines."""
    return [(line.kind, line.bssid, line.octets) for line in lines]


def is_left_out(line):
    """Whether it is a control frame other than PS-Poll."""
    frame = Frame(line.octets)
    return line.kind == "A" and frame.type == CONTROL and frame.subtype != PS_POLL


def beacon(bssid, elements, interval=100):
    """A captured beacon: its header, fixed fields and elements."""
    header = bytes.fromhex("80000000ffffffffffff") + bssid * 2 + bytes(2)
    return header + bytes(8) + interval.to_bytes(2, "little") + b"\1\0" + elements


def bssid_of(place):
    """The address of one of many networks."""
    return bytes([2, 0, 0, 0, 2, place])


def beacons_of(count):
    """The beacons of so many networks of one radio."""
    return [beacon(bssid_of(place), bytes.fromhex("000161010182030106")) for place in range(count)]


def named(count):
    """The words that name so many networks."""
    return [word for place in range(count) for word in ("--network", bssid_of(place).hex(":"))]


class Sample(ToolTest):
    """The small captures beside the example of three networks."""

    def trace(self, *words):
        """The trace of a capture, and what was told of it."""
        status, stdout, stderr = tool("trace-from-capture", *words)
        self.assertEqual(status, 0, stderr)
        return read_trace(stdout), stderr

    def sample_frames(self):
        """The frames of the sample without radiotap, those that are whole and have no fault."""
        for frame in read_air(SAMPLE):
            if frame.is_whole and frame.octets[-4:] == fcs_of(frame.octets[:-4]):
                yield int(frame.time * 1_000_000), frame.octets[:-4]

    def test_sample_is_what_the_script_makes(self):
        """The stored captures are those that tools/capture-from-run makes of the example, frame by frame."""
        status, _, stderr = tool("capture-from-run", os.path.join(THREE, "input"), os.path.join(THREE, "stdout"),
                                 "--clutter", "--out", self.path("made"))
        self.assertEqual((status, stderr), (0, ""))
        stored = sorted(glob.glob(os.path.join(THREE, "*.pcapng")))
        self.assertEqual([os.path.basename(path) for path in stored], sorted(os.listdir(self.path("made"))))
        for path in stored:
            made = os.path.join(self.path("made"), os.path.basename(path))
            self.assertEqual(list(read_capture(path)), list(read_capture(made)), path)

    def test_trace_is_the_examples(self):
        """The trace of the sample has the example's lines, and each frame that was left out is counted."""
        found, told = self.trace(SAMPLE, *WIRES)
        self.assertEqual(essence(found), essence(input_of(THREE)[1]))
        self.assertEqual(told, TOLD)

    def test_config_is_the_examples(self):
        """The configuration of the sample's beacons has the example's values, but for the limits."""
        self.trace(SAMPLE, "--config", self.path("my.toml"))
        found = tomllib.loads(read_text(self.path("my.toml")))
        wanted = tomllib.loads(input_of(THREE)[0].split("\n---\n")[0])
        told = ("bssid", "ssid", "rates", "dtim")
        for config in (found, wanted):
            config["network"] = [{key: network[key] for key in told} for network in config["network"]]
        self.assertEqual(found, wanted)

    @needs_program
    def test_report_is_the_examples(self):
        """The program answers the sample's trace with the example's report."""
        status, trace, _ = tool("trace-from-capture", SAMPLE, *WIRES, "--config", self.path("my.toml"))
        self.assertEqual(status, 0)
        report = run_program("run", self.path("my.toml"), self.write("my.trace", trace))
        self.assertEqual(report, read_text(os.path.join(THREE, "stdout")))

    def test_each_header_gives_the_same_trace(self):
        """Radiotap or plain 802.11, with or without check sequences, pcap or pcapng: the same lines."""
        frames = list(self.sample_frames())
        silent, without = bytes(RadioTap(present="Channel")), bytes(RadioTap(present="Flags", Flags=0))
        variants = {"plain": (PLAIN_80211, [(time, octets) for time, octets in frames]),
                    "plain-fcs": (PLAIN_80211, [(time, octets + fcs_of(octets)) for time, octets in frames]),
                    "radiotap": (RADIOTAP, [(time, without + octets) for time, octets in frames]),
                    "radiotap-silent": (RADIOTAP, [(time, silent + octets) for time, octets in frames]),
                    "radiotap-fcs": (RADIOTAP, [(time, silent + octets + fcs_of(octets)) for time, octets in frames])}
        for name, (link, made) in variants.items():
            write_pcap(self.path(name), link, made)
            write_pcapng(self.path(f"{name}.ng"), link, [(time, octets, len(octets)) for time, octets in made])
        subprocess.run(["editcap", "-F", "nsecpcap", SAMPLE, self.path("nanoseconds")], check=True)
        wanted = essence(input_of(THREE)[1])
        for name in [*variants, *(f"{name}.ng" for name in variants), "nanoseconds"]:
            self.assertEqual(essence(self.trace(self.path(name), *WIRES)[0]), wanted, name)

    def test_captures_of_several_interfaces(self):
        """A pcapng of two interfaces with different headers gives the same trace."""
        frames = list(self.sample_frames())
        write_pcap(self.path("plain"), PLAIN_80211, frames[::2])
        write_pcap(self.path("radiotap"), RADIOTAP, [(time, bytes(RadioTap(present="Flags", Flags=0)) + octets)
                                                     for time, octets in frames[1::2]])
        subprocess.run(["mergecap", "-w", self.path("both"), self.path("plain"), self.path("radiotap")], check=True)
        self.assertEqual(essence(self.trace(self.path("both"), *WIRES)[0]), essence(input_of(THREE)[1]))

    def test_changed_octet_is_seen(self):
        """Where one octet of a frame is changed, its line differs and no other; with its old check sequence it is left
        out."""
        frames = list(self.sample_frames())
        place = next(place for place, (_, octets) in enumerate(frames) if octets.endswith(bytes.fromhex("080002")))
        time, octets = frames[place]
        changed = octets[:-1] + b"\xfe"
        wanted = essence(self.trace(SAMPLE)[0])
        for fcs, lines in ((fcs_of(changed), len(wanted)), (fcs_of(octets), len(wanted) - 1)):
            made = [(when, other + fcs_of(other)) for when, other in frames]
            made[place] = (time, changed + fcs)
            write_pcap(self.path("changed"), PLAIN_80211, made)
            found, told = self.trace(self.path("changed"))
            self.assertEqual(len(found), lines)
            self.assertEqual("1 left out: with a wrong frame check sequence" in told, lines < len(wanted))
            if lines == len(wanted):
                different = [new for old, new in zip(wanted, essence(found)) if old != new]
                self.assertEqual(different, [("A", None, changed)])

    def test_beacon_that_was_not_captured(self):
        """A beacon interval whose beacon wasn't captured begins all the same."""
        beacons = [time for time, octets in self.sample_frames() if Frame(octets).is_management(BEACON)
                   and Frame(octets).transmitter == GUEST]
        frames = [(time, octets) for time, octets in self.sample_frames() if time != beacons[1]]
        write_pcap(self.path("missing"), PLAIN_80211, frames)
        found, told = self.trace(self.path("missing"), *WIRES)
        self.assertEqual(essence(found), essence(input_of(THREE)[1]))
        self.assertIn("beacon intervals: 4, by the beacons of 02:00:00:00:01:01; 1 line T was made, where no beacon "
                      "was captured", told)

    def test_choices(self):
        """--beacons-of, --every, --network and --heard-only do what they say."""
        by_office, told = self.trace(SAMPLE, *WIRES, "--beacons-of", OFFICE.hex(":"))
        self.assertEqual(essence(by_office), essence(input_of(THREE)[1]))
        self.assertIn("by the beacons of 02:00:00:00:01:02", told)
        ticks = [line.kind for line in self.trace(SAMPLE, "--every", "50")[0]].count("T")
        self.assertEqual(ticks, 9)
        alone, told = self.trace(SAMPLE, "--network", GUEST.hex(":"), "--heard-only")
        heard = [line for line in input_of(THREE)[1] if line.kind == "A" and line.octets[4:10] == GUEST]
        others = [line.octets for line in alone if line.kind == "A" and line.octets[4:10] != GUEST]
        self.assertEqual([line.octets for line in alone if line.octets[4:10] == GUEST], [line.octets for line in heard])
        self.assertTrue(all(octets[4:10] == bytes([255] * 6) for octets in others))
        self.assertIn("left out: for a receiver that is no network here", told)


class Origins(ToolTest):
    """The remarks that lead back to the capture."""

    def test_remarks_lead_back(self):
        """Before each line stands the number of its frame in its capture, and its time: that frame is the line's."""
        _, stdout, _ = tool("trace-from-capture", SAMPLE, *WIRES)
        origins, lines = read_origins(stdout), read_trace(stdout)
        self.assertEqual(sorted(origins), [line.number for line in lines])
        frames = {frame.number: frame for frame in read_capture(SAMPLE)}
        first = min(frame.time for frame in frames.values())
        for line in lines:
            origin, remark = origins[line.number], stdout.split("\n")[line.number - 2]
            frame = frames[origin.frame]
            if " of " in remark:
                path = os.path.join(THREE, remark.split(" of ")[1].split(",")[0])
                frame = list(read_capture(path))[origin.frame - 1]
            self.assertAlmostEqual(origin.seconds, float(frame.time - first), delta=0.001)
            self.assertIn(line.octets, frame.octets)
            if line.kind == "T":
                beacon = next(heard for heard in read_air(SAMPLE) if heard.number == origin.frame)
                self.assertTrue(Frame(beacon.octets).is_management(BEACON))
                self.assertEqual(Frame(beacon.octets).transmitter, GUEST)

    def test_made_ticks_say_so(self):
        """A line `T` that no captured beacon began is said to be made, in the trace and in the counts."""
        _, stdout, stderr = tool("trace-from-capture", SAMPLE, "--every", "100")
        self.assertIn("all lines T were made", stderr)
        remarks = [before for before, line in zip(stdout.split("\n"), stdout.split("\n")[1:]) if line == "T"]
        self.assertGreater(len(remarks), 3)
        self.assertTrue(all(remark.startswith("# made, no frame, ") for remark in remarks), remarks)

    @needs_program
    def test_program_reads_the_remarks(self):
        """The program skips them, and the picture takes its times from them."""
        _, stdout, _ = tool("trace-from-capture", SAMPLE, *WIRES, "--config", self.path("my.toml"))
        trace, report = self.files_of_run(f"{self.read('my.toml')}---\n{stdout}")
        self.assertEqual(read_text(report), read_text(os.path.join(THREE, "stdout")))
        status, picture, stderr = tool("picture", trace, report)
        self.assertEqual((status, stderr), (0, ""))
        self.assertIn("time, s", picture)


class Examples(ToolTest):
    """Other examples, there and back."""

    def test_traces_come_back(self):
        """Of each example with beacons captures are made, and of these its trace, but for what is left out."""
        same, different = 0, []
        for folder in with_report():
            text, lines = input_of(folder)
            if any(line.kind == "T" for line in lines):
                wanted = [line for line in lines if not is_left_out(line)]
                if essence(self.there_and_back(folder, text)) == essence(wanted):
                    same += 1
                else:
                    different.append(os.path.basename(folder))
        self.assertEqual(different, SILENT)
        self.assertGreater(same, 10)

    def test_what_a_new_program_was_told_is_left_out(self):
        """Nobody sent it, nor what was answered to it."""
        text, lines = input_of(THREE)
        config, _, trace = text.partition("\n---\n")
        before, behind = trace.split("\n")[:6], trace.split("\n")[6:]
        told = ["# restored: of the lines from here on the answers were not sent", *before, "# restored: up to here", *behind]
        marked = self.write("input", f"{config}\n---\n" + "\n".join(told))
        count = len(read_trace("\n".join(before)))
        wanted = [line for line in lines[count:] if not is_left_out(line)]
        self.assertGreater(count, 2)
        self.assertEqual(essence(self.there_and_back(THREE, text, marked)), essence(wanted))
        folder = self.path(os.path.basename(THREE))
        sent = [len(list(read_air(f"{place}/air.pcapng"))) for place in (folder, self.captured(THREE, "whole"))]
        self.assertLess(sent[0], sent[1] - count)

    def test_what_came_back_to_the_program_came_by_no_wire(self):
        """A record marks it: the captures of wires don't have it."""
        text, lines = input_of(THREE)
        config, _, trace = text.partition("\n---\n")
        told = []
        for line in trace.split("\n"):
            is_wired = line.startswith("W ")
            told += ["# handed back: the lines from here on are units"] * is_wired + [line]
            told += ["# handed back: up to here"] * is_wired
        marked = self.write("input", f"{config}\n---\n" + "\n".join(told))
        self.assertGreater(sum(line.kind == "W" for line in lines), 1)
        wanted = [line for line in lines if not is_left_out(line) and line.kind != "W"]
        self.assertEqual(essence(self.there_and_back(THREE, text, marked)), essence(wanted))

    def captured(self, folder, name):
        """The captures of an example, in a folder of this name."""
        out = self.path(name)
        self.assertEqual(tool("capture-from-run", os.path.join(folder, "input"), os.path.join(folder, "stdout"), "--out",
                              out)[0], 0)
        return out

    def there_and_back(self, folder, text, path=None):
        """The trace of the captures of an example, or of the text at this path with its report."""
        out = self.path(os.path.basename(folder))
        status, _, stderr = tool("capture-from-run", path or os.path.join(folder, "input"), os.path.join(folder, "stdout"),
                                 "--out", out)
        self.assertEqual((status, stderr), (0, ""), folder)
        bssids = [network["bssid"] for network in tomllib.loads(text.split("\n---\n")[0])["network"]]
        wires = []
        for place, bssid in enumerate(bssids, 1):
            if os.path.exists(f"{out}/wire.{place}.pcapng"):
                wires += ["--wire", f"{bssid}={out}/wire.{place}.pcapng"]
        status, stdout, stderr = tool("trace-from-capture", f"{out}/air.pcapng", *wires)
        self.assertEqual(status, 0, stderr)
        return read_trace(stdout)


class Beacons(ToolTest):
    """A first configuration, of beacons that differ."""

    def config(self, frames, *words):
        """The configuration that comes of captured frames."""
        write_pcap(self.path("air"), PLAIN_80211, [(1000 * place, octets) for place, octets in enumerate(frames)])
        status, _, stderr = tool("trace-from-capture", self.path("air"), "--config", self.path("my.toml"), *words)
        self.assertEqual(status, 0, stderr)
        return tomllib.loads(read_text(self.path("my.toml")))

    def test_hidden_name_and_other_elements(self):
        """The SSID of a network that hides it is that of its probe response, the channel may be told by HT Operation,
        and selectors among the rates are left out."""
        hidden = beacon(GUEST, bytes.fromhex("00050000000000 010482848bff 050400030000 3d160b") + bytes(21))
        answer = bytes.fromhex("50000000ffffffffffff") + GUEST * 2 + bytes(10)
        answer += bytes.fromhex("64000100 00056775657374")
        config = self.config([hidden, answer])
        self.assertEqual((config["channel"], config["interval"]), (11, 100))
        network = config["network"][0]
        self.assertEqual((network["ssid"], network["rates"], network["dtim"]), ("guest", "82848b", 3))

    def test_as_many_networks_as_there_may_be(self):
        """Of nine and of sixteen networks that beacon, that are named, or that a configuration has, a trace is made,
        and a configuration of version 2, which says how they are in version 1."""
        for count in (8, 9, 16):
            config = self.config(beacons_of(count))
            self.assertEqual((config["version"], len(config["network"])), (1 if count == 8 else 2, count))
            for network in config["network"]:
                self.assertEqual((network.get("relay"), network.get("aging")),
                                 (None, None) if count == 8 else (True, False))
            for words in (named(count), named(count) * 2, ["--networks-of", self.path("my.toml")]):
                self.assertEqual(self.config(beacons_of(count), *words), config)
            self.assertEqual(len(self.config(beacons_of(17), *named(count))["network"]), count)

    @needs_program
    def test_program_takes_as_many_networks(self):
        """The program reads the configuration that is written."""
        for count in (8, 9, 16):
            self.config(beacons_of(count))
            self.assertEqual(run_program("check", self.path("my.toml")), f"ok {count}\n")

    def test_configurations_of_more_networks_are_refused(self):
        """One of seventeen networks is named with their number, however few of them beacon."""
        text = "version = 2\nchannel = 6\ninterval = 100\nqueue = 64\n"
        text += "".join(f'[[network]]\nbssid = "{bssid}"\n' for bssid in named(17)[1::2])
        many = self.write("many.toml", text)
        write_pcap(self.path("air"), PLAIN_80211, list(enumerate(beacons_of(3))))
        self.refused("trace-from-capture", self.path("air"), "--networks-of", many,
                     says="many.toml has 17 networks, and an access point has at most 16")

    def test_names_that_need_care(self):
        """An SSID with quotes, a line end or letters beyond ASCII is written so that it is read again."""
        name = 'a"b\\\n\x7fé'
        octets = name.encode()
        made = beacon(GUEST, bytes([0, len(octets)]) + octets + bytes.fromhex("010182030106"))
        self.assertEqual(self.config([made])["network"][0]["ssid"], name)

    def test_refusals(self):
        """What can't be is refused, with a message."""
        one = beacon(GUEST, bytes.fromhex("000161010182030106"))
        other = beacon(OFFICE, bytes.fromhex("000162010182030101"))
        many = beacons_of(17)
        nameless, silent = (beacon(GUEST, bytes.fromhex(octets)) for octets in ("0000010182030106", "000161010182"))
        config = ["--config", self.path("my.toml")]
        cases = {"different channels": ([one, other], config),
                 "17 networks beacon, and an access point has at most 16: name yours by --network\n": (many, []),
                 "--network names 17 networks, and an access point has at most 16": ([one], named(17)),
                 "no beacon of 15 of these 16 networks": ([one], [*config, "--network", GUEST.hex(":"), *named(15)]),
                 "no beacon was captured": ([b"\x40" + one[1:]], []),
                 "tells its SSID": ([nameless], config),
                 "choose one by --channel": ([silent], config),
                 "no network of the access point": ([one], ["--wire", f"02:00:00:00:00:09={SAMPLE}"]),
                 "no capture of an Ethernet port": ([one], ["--wire", f"{GUEST.hex(':')}={SAMPLE}"])}
        for says, (frames, words) in cases.items():
            write_pcap(self.path("air"), PLAIN_80211, list(enumerate(frames)))
            self.refused("trace-from-capture", self.path("air"), *words, says=says)


class Ticks(ToolTest):
    """When beacon intervals begin."""

    def test_beacons_that_are_late_and_missing(self):
        """A beacon that is late begins its interval then; where some are missing, so many are put between."""
        length = interval_length(100)
        times = [10 * length, 11 * length + length / 5, 15 * length]
        ticks, missed = beacon_ticks(times, 100)
        self.assertEqual(missed, 3)
        self.assertEqual(ticks, [times[0], times[1], 12 * length, 13 * length, 14 * length, times[2]])
        self.assertEqual(beacon_ticks([], 100), ([], 0))

    def test_even_ticks(self):
        """From the first frame to the last."""
        length = interval_length(100)
        self.assertEqual(even_ticks(5, 5 + 2 * length, 100), [5, 5 + length, 5 + 2 * length])

    def test_wire_of_the_sample(self):
        """The sample's wired captures are of Ethernet, with the frames of both ways."""
        wires = sorted(glob.glob(os.path.join(THREE, "wire.*")))
        self.assertEqual([len(list(read_wire(path))) for path in wires], [1, 2, 3])
