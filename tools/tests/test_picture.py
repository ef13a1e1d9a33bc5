"""Tests of tools/picture: which shapes a picture has and where, that no labels overlap, and that a report of another
trace is refused."""
import json
import os
import re
import xml.etree.ElementTree as tree
import zlib
from collections import Counter
from pathlib import Path
from typing import NamedTuple

import configurations
import long_run
from PIL import Image, ImageFont
from common import (CASES, DEVICES, GUEST, OFFICE, PROGRAM, ROOT, THREE, ToolTest, heard, input_of, needs_program,
                    report_of, run_program, run_to_end, tool, with_report)
from drawing.columns import Clock
from fields import fields_on_air, fields_on_wire
from drawing.overview import stretches_of
from story import stories
from texts import Line, Origin, read_config, read_report, read_text, read_trace

INPUT, REPORT = os.path.join(THREE, "input"), os.path.join(THREE, "stdout")
STORED = os.path.join(ROOT, "docs", "three_networks.svg")
SVG = "{http://www.w3.org/2000/svg}"
PHONE, LAPTOP, PRINTER, SENSOR = (f"02aa0000000{number}" for number in (1, 2, 3, 4))
WIDTH = 1000
# What has to stand in the picture of the example of three networks: states with the lines from which and up to which
# they hold, marks with the lines that brought them about, their letters and their words.
STATES = {GUEST: [(PHONE, "authenticated", "2-3"), (PHONE, "associated", "3-37")],
          OFFICE: [(LAPTOP, "authenticated", "5-6"), (LAPTOP, "associated", "6-end"),
                   (PRINTER, "authenticated", "7-8"), (PRINTER, "associated", "8-end")],
          DEVICES: [(SENSOR, "authenticated", "10-11"), (SENSOR, "associated", "11-15"), (SENSOR, "dozing", "15-end")]}
KEPT = {(SENSOR, "20-28"), (SENSOR, "21-32"), ("group", "22-35")}
MARKS = {GUEST: [("answered", PHONE, 2, "A"), ("answered", PHONE, 3, "J"), ("left", PHONE, 37, "D"),
                 ("wired", "wire", 24, PHONE)],
         OFFICE: [("answered", LAPTOP, 5, "A"), ("answered", LAPTOP, 6, "J"), ("answered", PRINTER, 7, "A"),
                  ("answered", PRINTER, 8, "J"), ("sent", PRINTER, 17, LAPTOP), ("sent", "group", 30, PRINTER),
                  ("wired", "wire", 18, LAPTOP), ("wired", "wire", 30, PRINTER)],
         DEVICES: [("answered", SENSOR, 10, "A"), ("answered", SENSOR, 11, "J"), ("kept", SENSOR, 20, "wire"),
                   ("kept", SENSOR, 21, "wire"), ("kept", "group", 22, "wire"), ("delivered", SENSOR, 28, ""),
                   ("delivered", SENSOR, 32, ""), ("answered", SENSOR, 28, "S"), ("answered", SENSOR, 32, "S"),
                   ("delivered", "group", 35, ""), ("beacon", "beacons", 26, ""),
                   ("DTIM beacon", "beacons", 35, "")]}
WORDS = {(OFFICE, 6): "aid 1", (OFFICE, 8): "aid 2", (GUEST, 3): "aid 1", (DEVICES, 11): "aid 1",
         (DEVICES, 26): "aid 1", (DEVICES, 35): "group"}
# The unit behind which another one waits.
MORE_DATA = (DEVICES, 28)


class Box(NamedTuple):
    """Where a text stands."""

    left: float
    top: float
    right: float
    bottom: float
    text: str

    def overlaps(self, other):
        """Whether two texts share a place."""
        return (self.left < other.right and other.left < self.right and self.top < other.bottom and
                other.top < self.bottom)


def box_of(element):
    """The box of a text, by its font, of the capital letters' height."""
    size, text = float(element.get("font-size")), "".join(element.itertext())
    name = "DejaVuSans-Bold.ttf" if element.get("font-weight") == "bold" else "DejaVuSans.ttf"
    width = ImageFont.truetype(name, 200).getlength(text) * size / 200
    x, y = float(element.get("x")), float(element.get("y"))
    left = {"start": 0, "middle": -width / 2, "end": -width}[element.get("text-anchor")]
    if element.get("transform"):
        # upright, from its first letter upwards
        return Box(x - 0.73 * size, y - left - width, x + 0.2 * size, y - left, text)
    return Box(x + left, y - 0.73 * size, x + left + width, y + 0.2 * size, text)


class Shapes:
    """What a picture has, by the attributes of its groups."""

    def __init__(self, text):
        self.root = tree.fromstring(text)
        self.groups = [(group.attrib, group) for group in self.root.iter(f"{SVG}g")]
        self.texts = list(self.root.iter(f"{SVG}text"))

    def of(self, **wanted):
        """The groups with these attributes, `data-` left out of their names."""
        return [group for attributes, group in self.groups
                if all(attributes.get(f"data-{name}") == value for name, value in wanted.items())]

    def marks(self):
        """The groups of marks."""
        return [group for attributes, group in self.groups if "data-lines" in attributes
                and attributes["data-what"] != "quiet"]

    def words(self):
        """All texts."""
        return {"".join(element.itertext()) for element in self.texts}

    def overlapping(self, width=WIDTH):
        """Pairs of texts that overlap, and those that stand outside a picture of this width."""
        boxes = sorted(map(box_of, self.texts), key=lambda box: box.top)
        found = [(box.text, "outside") for box in boxes if box.left < 0 or box.right > width]
        for place, box in enumerate(boxes):
            for other in boxes[place + 1:]:
                if other.top >= box.bottom:
                    break
                if box.overlaps(other):
                    found.append((box.text, other.text))
        return found


def middle_of(group):
    """Where the last shape of a mark stands, its words left out."""
    shape = [child for child in group if child.tag.removeprefix(SVG) in ("circle", "rect", "path")][-1]
    if shape.get("cx"):
        return float(shape.get("cx")), float(shape.get("cy"))
    if shape.get("width"):
        return (float(shape.get("x")) + float(shape.get("width")) / 2,
                float(shape.get("y")) + float(shape.get("height")) / 2)
    points = [(float(x), float(y)) for x, y in re.findall(r"[ML]([\d.]+) ([\d.]+)", shape.get("d"))]
    xs, ys = [x for x, _ in points], [y for _, y in points]
    return (min(xs) + max(xs)) / 2, (min(ys) + max(ys)) / 2


def ends_of(group):
    """The left end, the right end and the middle's height of a bar."""
    bar = group.find(f"{SVG}rect")
    x, y, width, height = (float(bar.get(name)) for name in ("x", "y", "width", "height"))
    return x, x + width, y + height / 2


def numbers_of(stretches):
    """The numbers of all lines of some stretches."""
    return [number for stretch in stretches for number in range(stretch.first, stretch.last + 1)]


class PictureTest(ToolTest):
    """What tests of pictures share."""

    def drawn(self, trace, report, *words, name="made.svg"):
        """A picture that is made now: the file's path."""
        status, stdout, stderr = tool("picture", trace, report, "--out", self.path(name), *words)
        self.assertEqual((status, stdout, stderr), (0, "", ""))
        return self.path(name)

    def shapes(self, trace, report, *words):
        """The shapes of a picture that is made now."""
        return Shapes(read_text(self.drawn(trace, report, *words)))

    def of_example(self, name, *words):
        """The shapes of an example's picture."""
        folder = CASES[name]
        return self.shapes(os.path.join(folder, "input"), os.path.join(folder, "stdout"), *words)

    def of_three(self, *words):
        """The shapes of the example of three networks."""
        return self.of_example("three_networks_over_some_intervals", *words)

    def restored(self):
        """The example of three networks as a record in which the phone had joined before: the file's path."""
        config, _, trace = input_of(THREE)[0].partition("\n---\n")
        lines = trace.split("\n")
        told = ["# restored: of the lines from here on the answers were not sent", *lines[:4], "# restored: up to here"]
        return self.write("restored", "\n".join([config, "---", *told, *lines[4:]]))

    def long_run(self, count):
        """The files of a long run: its configuration and trace, and its report."""
        return self.files_of_run(f"{long_run.config()}---\n{long_run.trace(count)}")


class Picture(PictureTest):
    """The pictures of runs."""

    def test_shapes_of_the_example(self):
        """Each state, request, unit, beacon with news and departure of the example has its shape, and nothing else
        has one."""
        shapes = self.of_three()
        states = {(group.get("data-network"), group.get("data-row"), group.get("data-what"), group.get("data-span"))
                  for what in ("authenticated", "associated", "dozing") for group in shapes.of(what=what)}
        self.assertEqual(states, {(bssid.hex(), *state) for bssid, found in STATES.items() for state in found})
        marks = {(group.get("data-network"), group.get("data-what"), group.get("data-row"),
                  int(group.get("data-lines")), group.get("data-letter") or group.get("data-sender"))
                 for group in shapes.marks()}
        self.assertEqual(marks, {(bssid.hex(), *mark) for bssid, found in MARKS.items() for mark in found})
        kept = {(group.get("data-row"), group.get("data-span")) for group in shapes.of(what="keeping")}
        self.assertEqual(kept, KEPT)

    def test_words_and_letters_of_the_example(self):
        """Identifiers, whom a TIM tells of, and the letters of requests stand beside and in their marks."""
        shapes = self.of_three()
        for group in shapes.marks():
            words = ["".join(text.itertext()) for text in group.iter(f"{SVG}text")]
            wanted = [group.get("data-letter")] if group.get("data-letter") else []
            place = bytes.fromhex(group.get("data-network")), int(group.get("data-lines"))
            if group.get("data-what") == "delivered":
                wanted += ["more"] * (place == MORE_DATA)
            elif WORDS.get(place):
                wanted.append(WORDS[place])
            self.assertEqual(words, wanted, group.attrib)
        self.assertIn("more: its frame says More Data", shapes.words())
        self.assertNotIn("more: its frame says More Data", self.of_example("probe_is_answered").words())

    def test_more_data_is_what_frames_say(self):
        """A unit says `more` where its frame has More Data, in each example with units that were kept."""
        count = Counter()
        for name in ("station_dozes_and_polls", "station_wakes", "group_units_at_the_dtim", "units_over_the_quota"):
            folder = CASES[name]
            lines, sections = input_of(folder)[1], report_of(folder)
            for story in stories(sections, lines, read_config(read_text(os.path.join(folder, "input")))):
                frames = {}
                for number, octets in story.frames:
                    if octets[0] == 0x08:
                        frames.setdefault(number, []).append(bool(octets[1] & 0x20))
                delivered = {}
                for mark in story.marks:
                    if mark.what == "delivered":
                        delivered.setdefault(mark.line, []).append(mark.text == "more")
                for number, marks in delivered.items():
                    self.assertEqual(marks, frames[number][:len(marks)], (name, number))
                    count.update(marks)
        self.assertGreaterEqual(min(count[True], count[False]), 2)

    def test_shapes_stand_where_their_lines_do(self):
        """Marks of a line are right of those of the lines before, below its number; bars go from their first line to
        their last; a row has one height; arrows go from the sender's row to the receiver's."""
        shapes = self.of_three()
        places, heights = {}, {}
        for group in shapes.marks():
            x, y = middle_of(group)
            places.setdefault(int(group.get("data-lines")), []).append(x)
            heights.setdefault((group.get("data-network"), group.get("data-row")), set()).add(round(y))
        lines = sorted(places)
        for before, after in zip(lines, lines[1:]):
            self.assertLess(max(places[before]), min(places[after]))
        numbers = {element.text: float(element.get("x")) for element in shapes.texts if (element.text or "").isdigit()}
        for line, xs in places.items():
            self.assertLess(abs(min(xs) - numbers[str(line)]), 9, line)
        self.assertTrue(all(len(found) == 1 for found in heights.values()), heights)
        for bssid, found in STATES.items():
            for station, what, span in found:
                [group] = shapes.of(network=bssid.hex(), row=station, what=what)
                left, right, height = ends_of(group)
                begins, ends = span.split("-")
                self.assertEqual(round(height), next(iter(heights[bssid.hex(), station])))
                if begins in map(str, places):
                    self.assertAlmostEqual(left, min(places[int(begins)]), delta=4)
                if ends in map(str, places):
                    self.assertAlmostEqual(right, min(places[int(ends)]), delta=4)
        self.arrows(shapes, heights)

    def arrows(self, shapes, heights):
        """Each arrow of a picture begins in its sender's row, and ends at its receiver's mark."""
        count = 0
        for group in shapes.marks():
            sender, bssid = group.get("data-sender"), group.get("data-network")
            if not sender:
                continue
            line = group.find(f"{SVG}line")
            known = heights.get((bssid, sender))
            if known:
                self.assertEqual(round(float(line.get("y1"))), next(iter(known)))
            x, y = middle_of(group)
            self.assertAlmostEqual(float(line.get("x1")), x, delta=1)
            self.assertLess(abs(float(line.get("y2")) - y), 6)
            count += 1
        self.assertEqual(count, 8)

    def test_kept_units_are_bars(self):
        """A kept unit's bar goes from its mark to that of its delivery, below its row."""
        shapes = self.of_three()
        for row, span in KEPT:
            [bar] = shapes.of(what="keeping", row=row, span=span)
            begins, ends = span.split("-")
            [kept], [delivered] = (shapes.of(what=what, row=row, lines=line, network=DEVICES.hex())
                                   for what, line in (("kept", begins), ("delivered", ends)))
            left, right, height = ends_of(bar)
            self.assertAlmostEqual(left, middle_of(kept)[0], delta=3)
            self.assertAlmostEqual(right, middle_of(delivered)[0], delta=3)
            self.assertGreater(height, middle_of(kept)[1] + 4)

    def test_stored_pictures_are_those_of_the_examples(self):
        """The pictures of the documents are those that are made now."""
        names = [name for name in os.listdir(os.path.join(ROOT, "docs")) if name.endswith(".svg")
                 and (name == "three_networks.svg" or name.removesuffix(".svg") in CASES)]
        self.assertGreaterEqual(len(names), 3)
        for name in names:
            stored = Shapes(read_text(os.path.join(ROOT, "docs", name)))
            made = self.of_three() if name == "three_networks.svg" else self.of_example(name.removesuffix(".svg"))
            self.assertEqual([attributes for attributes, _ in stored.groups],
                             [attributes for attributes, _ in made.groups])
            self.assertEqual(stored.words(), made.words())
            self.assertEqual([[round(part) for part in middle_of(group)] for group in stored.marks()],
                             [[round(part) for part in middle_of(group)] for group in made.marks()])

    def test_refusals_are_shown(self):
        """Refused requests stand with their status, and those of a class that isn't allowed with their reason."""
        found = [(int(group.get("data-lines")), group.get("data-letter"), group.findall(f"{SVG}text")[1].text)
                 for group in self.of_example("statuses_in_order").of(what="refused")]
        self.assertEqual([row[1:] for row in sorted(found)],
                         [("A", "13"), ("A", "14"), ("A", "1"), ("J", "1"), ("J", "18"), ("J", "17"), ("J", "1"),
                          ("J", "1")])
        found = self.of_example("frames_of_unknown_stations").of(what="turned away")
        self.assertEqual({group.findall(f"{SVG}text")[1].text for group in found}, {"6", "7"})

    def test_polls_are_told_from_waking(self):
        """A poll that brings a unit has its letter beside it; units that a station gets since it wakes have none."""
        shapes = self.of_example("station_dozes_and_polls")
        polls = {group.get("data-lines") for group in shapes.of(what="answered", letter="S")}
        self.assertEqual(polls, {group.get("data-lines") for group in shapes.of(what="delivered")})
        for line in polls:
            [poll], [unit] = shapes.of(lines=line, letter="S"), shapes.of(lines=line, what="delivered")
            self.assertGreater(middle_of(unit)[0], middle_of(poll)[0] + 10)
        shapes = self.of_example("station_wakes")
        self.assertEqual(shapes.of(what="answered", letter="S"), [])
        self.assertNotEqual(shapes.of(what="delivered"), [])

    def test_frames_that_bring_nothing_are_rings(self):
        """A poll, a departure and a frame of the wire that bring nothing have an empty ring in their row; so has a
        probe that nobody answers, within a quiet stretch."""
        for name, rings in (("station_dozes_and_polls", {("10", "S"), ("13", "S")}),
                            ("frames_of_unknown_stations", {("8", "D"), ("14", "D")}),
                            ("wired_frames_without_a_station", {("4", ""), ("5", "")}),
                            ("probe_for_another_name_is_not", {("1", "P")})):
            shapes = self.of_example(name)
            found = shapes.of(what="nothing")
            self.assertEqual({(group.get("data-lines"), group.get("data-letter")) for group in found}, rings, name)
            for group in found:
                self.assertEqual(group.find(f"{SVG}circle").get("fill"), "none")
                self.assertIn("brings nothing", group.find(f"{SVG}title").text)
            self.assertEqual(shapes.overlapping(), [])
            self.assertIn("brings nothing", shapes.words())

    def test_frame_to_all_is_for_one_network(self):
        """What one network answers is no silence of the others, which heard it too."""
        shapes = self.of_example("guest_office_and_devices")
        self.assertEqual({group.get("data-lines") for group in shapes.of(what="nothing")} & {
            group.get("data-lines") for group in shapes.of(what="answered")}, set())

    def test_short_runs_fill_the_width(self):
        """The last mark of a run of one strip stands near the right end, and the bars of states end there."""
        for name in ("three_networks_over_some_intervals", "first_trace", "station_dozes_and_polls"):
            shapes = self.of_example(name)
            self.assertGreater(max(middle_of(group)[0] for group in shapes.marks()), 0.9 * WIDTH, name)
            self.assertEqual(shapes.overlapping(), [], name)

    def test_tooltips_are_words(self):
        """What a pointer shows of a mark says who did what, and what came of it."""
        shapes = self.of_three()
        for wanted, title in (({"lines": "3", "what": "answered"}, "line 3: 02:aa:00:00:00:01 asks to associate, and "
                               "is answered: identifier 1"),
                              ({"lines": "20", "what": "kept"}, "line 20: a unit from the wire for 02:aa:00:00:00:04 "
                               "is kept"),
                              ({"lines": "28", "what": "answered"}, "line 28: 02:aa:00:00:00:04 polls for a unit that "
                               "is kept, and is answered"),
                              ({"lines": "35", "what": "delivered"}, "line 35: a unit for the group that was kept is "
                               "sent"),
                              ({"lines": "26", "what": "beacon"}, "line 26: a beacon says that units wait for "
                               "identifier 1")):
            [group] = shapes.of(**wanted)
            self.assertEqual(group.find(f"{SVG}title").text, title)
        group = self.of_example("statuses_in_order").of(what="refused", letter="J")[0]
        self.assertRegex(group.find(f"{SVG}title").text, r"asks to associate, and is refused: status \d+ \(")
        for group in self.of_example("frames_of_unknown_stations").of(what="turned away"):
            self.assertRegex(group.find(f"{SVG}title").text, r", and isn't associated: reason [67] \(class ")

    def test_dark_ground(self):
        """Each colour of the ground, of texts and of lines has another one on a dark ground, and a picture says so."""
        shapes = self.of_three()
        [style] = shapes.root.iter(f"{SVG}style")
        self.assertTrue(style.text.startswith("@media (prefers-color-scheme: dark){"))
        for element in shapes.root.iter():
            for kind in ("fill", "stroke"):
                colour = element.get(kind, "none")
                is_ink = element.tag == f"{SVG}text" and kind == "fill" and colour != "white"
                if is_ink or colour in ("#c9ced6", "#e6e8eb", "#f0f0f0"):
                    self.assertIn(f'[{kind}="{colour}"]{{', style.text)

    def test_station_of_two_networks_is_joined(self):
        """A station that is associated in two networks has its rows joined by a line, and its mark names the other
        network; one that left the first has not."""
        shapes = self.of_example("station_roams_between_two_networks")
        [group] = shapes.of(what="roaming")
        self.assertEqual((group.get("data-row"), group.get("data-span")), ("02aa00000001", "7-end"))
        heights = {middle_of(mark)[1] for mark in shapes.of(row="02aa00000001", what="answered")}
        beside, at_the_join = group.findall(f"{SVG}line")
        self.assertEqual({float(beside.get("y1")), float(beside.get("y2"))}, heights)
        [joined] = shapes.of(what="answered", letter="R")
        self.assertAlmostEqual(float(at_the_join.get("x1")), middle_of(joined)[0], delta=3)
        self.assertIn("aid 1, also in guest", shapes.words())
        shapes = self.of_example("station_leaves_before_it_roams")
        self.assertEqual(shapes.of(what="roaming"), [])

    def test_networks_of_one_name_are_told_apart(self):
        """Networks with the same SSID are named with their BSSIDs."""
        texts = [read_text(os.path.join(CASES["station_roams_between_two_networks"], name))
                 for name in ("input", "stdout")]
        office, guest = "office".encode().hex(), "guest".encode().hex()
        for name, text in zip(("input", "report"), texts):
            text = text.replace('"office"', '"guest"').replace(f"0006{office}", f"0005{guest}")
            self.write(name, text.replace(f"ssid {office}", f"ssid {guest}"))
        words = self.shapes(self.path("input"), self.path("report")).words()
        self.assertLessEqual({"guest 02:00:00:00:00:01", "guest 02:00:00:00:00:02",
                              "aid 1, also in guest 02:00:00:00:00:01"}, words)

    def test_changed_octet_is_seen(self):
        """Where an octet of the report or the trace is changed, the pair is refused, or the picture another one."""
        texts = {name: read_text(os.path.join(THREE, name)) for name in ("input", "stdout")}
        cases = [("stdout", "aaaa03000000080004", "aaaa03000000080044", False),
                 ("stdout", "b000000002aa00000004", "b000000002aa00000005", False),
                 ("input", "A 48110000", "A 48010000", False), ("stdout", "clock 4", "clock 5", False),
                 ("stdout", "050402030002", "050402030004", True)]
        for name, old, new, is_drawn in cases:
            self.assertIn(old, texts[name])
            changed = {**texts, name: texts[name].replace(old, new, 1)}
            for other, text in changed.items():
                self.write(other, text)
            if is_drawn:
                [beacon] = self.shapes(self.path("input"), self.path("stdout")).of(what="beacon")
                self.assertEqual(beacon.find(f"{SVG}text").text, "aid 2")
            else:
                self.refused("picture", self.path("input"), self.path("stdout"), says="network 02:")

    def test_three_texts(self):
        """A configuration, a trace and a report in files of their own are drawn as the first two in one, wherever the
        options stand; a configuration alone is no trace."""
        config, trace = input_of(THREE)[0].split("---\n")
        my_config, my_trace = self.write("my.toml", config), self.write("my.trace", trace)
        wanted = tool("picture", INPUT, REPORT)[1]
        self.assertEqual(tool("picture", my_config, my_trace, REPORT), (0, wanted, ""))
        self.assertEqual(tool("picture", my_config, "--out", self.path("x.svg"), my_trace, REPORT), (0, "", ""))
        self.assertEqual(read_text(self.path("x.svg")), wanted)
        self.refused("picture", my_config, REPORT,
                     says=f"is a configuration, and no trace: say `picture {my_config} TRACE REPORT`")
        for both in ((my_config, INPUT), (INPUT, my_trace)):
            self.refused("picture", *both, REPORT, says="one of them has a line ---")
        self.refused("picture", my_config.replace("toml", "none"), my_trace, REPORT, says="No such file")
        self.refused("picture", my_trace, says="has no configuration before a line ---")
        self.assertEqual(tool("picture")[0], 2)

    def test_what_is_no_run_is_refused(self):
        """A file that isn't there, what is no report, a trace without a line, and names that aren't in the run."""
        self.refused("picture", self.path("none"), REPORT, says="No such file")
        self.refused("picture", INPUT, INPUT, says="can't be read")
        self.refused("picture", REPORT, REPORT, says="line 1 of the trace is none")
        empty = CASES["empty_trace"]
        self.refused("picture", os.path.join(empty, "input"), os.path.join(empty, "stdout"), says="no line to show")
        self.refused("picture", INPUT, REPORT, "--from", "100", says="no line to show")
        self.refused("picture", INPUT, REPORT, "--station", "02:aa:00:00:00:99", says="nothing in this run is of")
        self.refused("picture", INPUT, REPORT, "--network", "02:aa:00:00:00:99", says="no section of the report is of")
        for words in (["--out", self.path("x.gif")], ["--from", "x"], ["--to", "1.5"], ["--station", "phone"]):
            self.assertEqual(tool("picture", INPUT, REPORT, *words)[0], 2, words)


class Choices(PictureTest):
    """What is left out when a part of a run is asked for, and the times."""

    def test_from_and_to(self):
        """--from and --to show these lines alone, with the states in which they begin; seconds are those of the
        clock."""
        shapes = self.of_three("--from", "13", "--to", "26")
        lines = {int(group.get("data-lines")) for group in shapes.marks()}
        self.assertEqual((min(lines), max(lines)), (17, 26))
        self.assertEqual(len(shapes.of(row=PHONE, what="associated")), 1)
        self.assertEqual(shapes.of(legend="authenticated"), [])
        by_time = self.of_three("--from", "0.1s", "--to", "0.21s")
        self.assertEqual({int(group.get("data-lines")) for group in by_time.marks()}, lines | {28, 30, 32})

    def test_station_and_network(self):
        """--station and --network show these alone; the rest is folded."""
        shapes = self.of_three("--station", "02:aa:00:00:00:04")
        self.assertEqual({group.get("data-row") for group in shapes.marks()}, {SENSOR})
        self.assertGreater(len(shapes.of(what="quiet")), 2)
        shapes = self.of_three("--network", OFFICE.hex(":"))
        self.assertEqual({group.get("data-network") for group in shapes.marks()}, {OFFICE.hex()})
        self.assertNotIn(PHONE, {group.get("data-row") for group in shapes.marks()})

    @needs_program
    def test_quiet_stretches_are_folded(self):
        """Beacons without news and frames that aren't read are one stretch, which says how long it is."""
        config, trace = input_of(THREE)[0].split("---\n")
        shapes = self.shapes(*self.files_of_run(f"{config}---\n{trace}" + "T\n" * 50))
        last = shapes.of(what="quiet")[-1]
        first, end = map(int, last.get("data-lines").split("-"))
        self.assertGreaterEqual(end - first, 45)
        self.assertTrue({"⋯ 4.6 s", f"{end - first + 1} lines"} & shapes.words(), shapes.words())

    def test_what_a_new_program_was_told_is_left_out(self):
        """Nobody sent it. The states that came of it stay, and a station that is there by it alone can be chosen."""
        words = self.restored(), REPORT
        shapes = self.shapes(*words)
        self.assertEqual(min(int(group.get("data-lines")) for group in shapes.marks()), 7)
        self.assertEqual(len(shapes.of(row=PHONE, what="associated", span="4-39")), 1)
        self.assertEqual(shapes.of(row=PHONE, what="authenticated") + shapes.of(row=PHONE, what="answered"), [])
        self.assertNotIn("02aa00000001 020000000101 0000 0000", read_text(self.drawn(*words, name="made.html")))
        self.assertEqual(len(self.shapes(*words, "--station", "02:aa:00:00:00:01", "--to", "8").of(what="associated")),
                         1)

    def test_a_unit_that_went_back_is_told(self):
        """It is drawn once for each line that stands between the remarks, and of no other unit that is told."""
        folder = os.path.join(ROOT, "examples/group_units_at_the_dtim")
        text = read_text(os.path.join(folder, "input"))
        line = next(line for line in text.split("\n") if line.startswith("W ") and line.endswith(" 06"))
        told = ["# handed back: the lines from here on are units", line, "# handed back: up to here"]
        trace = self.write("input", text.replace(line, "\n".join(told)))
        shapes = self.shapes(trace, os.path.join(folder, "stdout"))
        titles = [group.findtext("{*}title") for group in shapes.marks()]
        for words in ("a unit that went back to the program for the group is kept", "a unit from the wire for the group"):
            self.assertEqual(sum(words in title for title in titles), 1)
        self.assertEqual(sum("went back" in title for title in titles), 1)

    def test_times(self):
        """Times are those of the beacon clock, or the capture's own where the trace tells them."""
        words = self.of_three().words()
        self.assertLessEqual({"0.000", "0.102", "0.205", "0.410", "time, s"}, words)
        text = input_of(THREE)[0].replace("\nA ", "\n# frame 7, 12.345 s\nA ", 1)
        words = self.shapes(self.write("input", text), REPORT).words()
        self.assertLessEqual({"12.345", "time, s"}, words)


class Crowds(PictureTest):
    """Networks with more stations than a strip has rows for."""

    def crowd(self, idle, acting):
        """The shapes of a picture in which so many stations join and so many others, of higher addresses, send units to
        each other and to the wire afterwards, from there on; and the addresses of the others."""
        bssid = long_run.bssid_of(0)
        stations = [f"02aa0000{number:04x}" for number in range(1, idle + acting + 1)]
        lines = []
        for station in stations:
            to = {"receiver": bssid, "sender": station}
            lines += [heard("b0000000", "0000 0100 0000", **to),
                      heard("00000000", "0100 0300 00056775657374 010482840b16", **to)]
        others = stations[idle:]
        for station, other in zip(others, [*others[1:], "02bb00000001"]):
            lines.append(heard("08010000", long_run.UNIT, bssid, station, other))
        text = long_run.config().replace("max_stations = 20\nmax_known = 40", "max_stations = 200\nmax_known = 400")
        text = f"{text}---\n" + "".join(f"{line}\n" for line in lines)
        first = str(len(lines) - len(others) + 1)
        return self.shapes(*self.files_of_run(text), "--from", first), others

    @needs_program
    def test_stations_that_act_have_rows(self):
        """However many stations stand idle, of lower addresses, each that acts has a row, above theirs, and each arrow
        both its ends."""
        for idle in (30, 60, 150):
            shapes, others = self.crowd(idle, 12)
            heights = {group.get("data-row"): middle_of(group)[1] for group in shapes.of(what="sent")}
            self.assertEqual(set(heights), set(others[1:]))
            self.assertEqual({group.get("data-sender") for group in shapes.of(what="sent")}, set(others[:-1]))
            self.assertEqual({group.get("data-sender") for group in shapes.of(what="wired")}, {others[-1]})
            rows = {group.get("data-row"): ends_of(group)[2] for group in shapes.of(what="associated")}
            self.assertEqual(len(rows), min(40, idle + 12))
            self.assertLess(max(rows[other] for other in others),
                            min(height for row, height in rows.items() if row not in others))
            self.assertEqual("others" in shapes.words(), False)
            self.assertEqual(f"{idle - 28} stations not shown" in shapes.words(), idle > 28)
            self.assertEqual(shapes.overlapping(), [])

    @needs_program
    def test_more_act_than_there_is_room_for(self):
        """No idle station has a row where one that acts has none; its marks stand among the others."""
        shapes, others = self.crowd(60, 38)
        few = self.shapes(self.path("input"), self.path("report"), "--from", "197", "--stations", "20")
        self.assertIn("others", few.words())
        for found, most in ((shapes, 40), (few, 20)):
            rows = [group.get("data-row") for group in found.of(what="associated")]
            self.assertLessEqual(len(set(rows)), most)
            acting = {group.get("data-row") for group in found.marks()} | {
                group.get("data-sender") for group in found.marks()}
            idle = set(rows) - acting
            self.assertTrue(not idle or acting & set(others) <= set(rows), idle)


class Overviews(PictureTest):
    """The overview of a long run."""

    def stretches(self, shapes):
        """What the overview says: of each network and each stretch, by its first line and its last, the numbers of each
        row and kind."""
        found = {}
        for group in (group for attributes, group in shapes.groups if "data-overview" in attributes):
            said = group.find(f"{SVG}title").text
            rows = dict(row.split(": ") for row in re.sub(r"^.*?: (?=heard)", "", said).split("; "))
            counts = {row: {kind: int(number) for number, kind in re.findall(r"(\d+) ([a-z ]+)", words)}
                      for row, words in rows.items()}
            ends = tuple(map(int, group.get("data-stretch").split("-")))
            found.setdefault(group.get("data-overview"), {})[ends] = counts
        return found

    def test_what_a_new_program_was_told_is_not_counted(self):
        """Two requests of the phone and their answers are not among what its network heard and sent."""
        sums = []
        for trace in (INPUT, self.restored()):
            found = self.stretches(self.shapes(trace, REPORT, "--overview"))[GUEST.hex()].values()
            sums.append({row: sum((Counter(counts[row]) for counts in found), Counter()) for row in ("heard", "sent")})
        self.assertEqual(sums[0]["heard"] - sums[1]["heard"], Counter({"requests": 2}))
        self.assertEqual(sums[0]["sent"] - sums[1]["sent"], Counter({"answers": 2}))

    def test_stretches(self):
        """They are of the same time, or of the same number of lines where one would have more than a fourth of all, and
        have all lines in order."""
        ticks = [Line(number, "T", None, b"") for number in range(1, 1001)]
        frames = [Line(number, "A", None, bytes(10)) for number in range(1, 1001)]
        cases = [(ticks, 100, "5 s", 21), (frames, 100, "50 lines", 20), (ticks, 0, "50 lines", 20),
                 ([*frames[:900], *ticks[900:]], 100, "50 lines", 20), (ticks[:7], 0, "1 line", 7)]
        for lines, interval, each, count in cases:
            stretches, said = stretches_of(lines, Clock(lines, {}, interval))
            self.assertEqual((said, [stretch.column for stretch in stretches]), (each, list(range(count))))
            self.assertEqual(numbers_of(stretches), [line.number for line in lines])

    def test_clocks_that_go_back(self):
        """A line whose time is before that of the line before stands in the same stretch."""
        frames = [Line(number, "A", None, bytes(10)) for number in range(1, 1001)]
        origins = {line.number: Origin(line.number, line.number / 10 - 30 * (line.number % 100 == 1))
                   for line in frames}
        stretches, said = stretches_of(frames, Clock(frames, origins, 0))
        self.assertEqual(said, "5 s")
        self.assertEqual(numbers_of(stretches), [line.number for line in frames])
        columns = [stretch.column for stretch in stretches]
        self.assertEqual(columns, sorted(set(columns)))
        self.assertEqual(columns[0], 0)

    @needs_program
    def test_run_that_is_too_long_for_strips(self):
        """It has the overview alone, of all lines, and the tool says so before it draws; a part of it has strips."""
        text = long_run.config().split("[[network]]")
        trace, report = self.files_of_run(f"{text[0]}[[network]]{text[1]}---\n" + "T\n" * 50_001)
        status, stdout, stderr = tool("picture", trace, report, "--out", self.path("x.svg"))
        self.assertEqual((status, stdout), (0, ""))
        self.assertRegex(stderr, r"^\S*x.svg: the overview alone, since 50,001 lines .* room for 50,000: .*\n$")
        stretches = self.stretches(Shapes(read_text(self.path("x.svg"))))
        self.assertEqual(sum(counts["sent"]["beacons"] for found in stretches.values() for counts in found.values()),
                         50_001)
        self.assertIn('data-what="quiet"', read_text(self.drawn(trace, report, "--from", "50000")))
        status, _, stderr = tool("picture", trace, trace, "--out", self.path("x.svg"))
        self.assertEqual(status, 1)
        self.assertRegex(stderr, r"^\S*x.svg: the overview alone, .*\npicture: .*\n$", "it isn't told at once")

    @needs_program
    def test_counts_are_those_of_the_run(self):
        """Over all stretches the numbers are those of the trace and the report, and in the last one there are as many
        stations and kept units at a time as the report has in the end, or more."""
        trace, report = self.long_run(5000)
        found = self.stretches(self.shapes(trace, report, "--overview"))
        lines = read_trace(read_text(trace))
        for section in read_report(read_text(report)):
            stretches = found[section.bssid.hex()]
            ends = sorted(stretches)
            self.assertEqual((ends[0][0], ends[-1][1]), (lines[0].number, lines[-1].number))
            self.assertTrue(all(last + 1 == first for (_, last), (first, _) in zip(ends, ends[1:])))
            sums = {row: sum((Counter(counts[row]) for counts in stretches.values()), Counter())
                    for row in ("heard", "sent", "units")}
            ticks = sum(line.kind == "T" for line in lines)
            self.assertEqual(sums["heard"].total(), section.events - ticks)
            self.assertEqual(sums["heard"]["unread"], section.unread)
            self.assertEqual(sums["sent"]["on the wire"], len(section.wire))
            self.assertEqual(sums["sent"].total(), len(section.air) + len(section.wire))
            self.assertEqual(sums["sent"]["beacons"], ticks)
            self.assertEqual(sums["units"]["lost"], section.lost)
            last = stretches[ends[-1]]
            self.assertGreaterEqual(last["stations"]["associated"],
                                    sum(row.aid is not None for row in section.stations))
            self.assertGreaterEqual(last["units"].get("kept", 0), section.kept)

    @needs_program
    def test_counts_of_a_part_are_those_between(self):
        """A stretch that is drawn alone has the numbers that it had in the overview of all."""
        trace, report = self.long_run(5000)
        whole = self.stretches(self.shapes(trace, report, "--overview"))
        ends = sorted(next(iter(whole.values())))[3]
        part = self.stretches(self.shapes(trace, report, "--overview", "--from", str(ends[0]), "--to", str(ends[1])))
        for bssid, stretches in part.items():
            for row in ("heard", "sent"):
                sums = sum((Counter(counts[row]) for counts in stretches.values()), Counter())
                self.assertEqual(sums, Counter(whole[bssid][ends][row]), bssid)
            for row, kind in (("stations", "associated"), ("stations", "dozing"), ("units", "kept")):
                most = max(counts[row].get(kind, 0) for counts in stretches.values())
                self.assertEqual(most, whole[bssid][ends][row].get(kind, 0), (bssid, kind))

    @needs_program
    def test_it_is_one_screen_high(self):
        """With the words of each stretch below it and without labels that overlap, of few networks and of sixteen."""
        trace, report = self.long_run(5000)
        for shapes in (self.shapes(trace, report, "--overview"), self.of_sixteen("--overview")):
            self.assertLess(float(shapes.root.get("height")), 960)
            self.assertEqual(shapes.overlapping(), [])
            self.assertEqual(shapes.marks(), [])
            for first, last in sorted(next(iter(self.stretches(shapes).values()))):
                self.assertIn(f"--from {first} --to {last}", shapes.words())

    def of_sixteen(self, *words):
        """The picture of sixteen networks of one name, in which stations ask and beacons are sent."""
        bssids = (long_run.with_colons(long_run.bssid_of(place)) for place in range(16))
        text = configurations.configuration(
            *(configurations.network(bssid, "a network of a long name 32 W", relay=True, aging=True, **long_run.SETTINGS)
              for bssid in bssids), version=2)
        text += "---\n" + f"T\n{heard('40000000', '0000 010402040b16', 'ffffffffffff')}\nT\n" * 500
        return self.shapes(*self.files_of_run(text), *words)

    @needs_program
    def test_links_lead_to_strips(self):
        """In a long picture each stretch of each network leads to the strip in which it begins; a short picture has no
        overview."""
        trace, report = self.long_run(2500)
        shapes = self.shapes(trace, report)
        self.assertEqual(shapes.overlapping(), [])
        strips = sorted(int(group.get("id").removeprefix("strip-")) for attributes, group in shapes.groups
                        if attributes.get("id", "").startswith("strip-"))
        links = list(shapes.root.iter(f"{SVG}a"))
        self.assertEqual(len(links), sum(map(len, self.stretches(shapes).values())))
        for link in links:
            first = int(link.find(f"{SVG}g").get("data-stretch").split("-")[0])
            strip = int(link.get("href").removeprefix("#strip-"))
            self.assertEqual(strip, max(other for other in strips if other <= first))
        self.assertEqual(self.stretches(self.of_three()), {})
        self.assertEqual(len(self.stretches(self.of_three("--overview"))), 3)

    def test_bars_are_as_high_as_their_numbers(self):
        """Of each row the highest bar has the row's height, and each is as high as its number says."""
        shapes = self.of_three("--overview")
        numbers = self.stretches(shapes)
        heights = {}
        for group in (group for attributes, group in shapes.groups if "data-overview" in attributes):
            ends = tuple(map(int, group.get("data-stretch").split("-")))
            counts = numbers[group.get("data-overview")][ends]
            kinds = {kind: number for row in counts.values() for kind, number in row.items()}
            bars = {bar.get("data-kind"): float(bar.get("height")) for bar in group.iter(f"{SVG}rect")
                    if bar.get("data-kind")}
            self.assertEqual(set(bars), set(kinds))
            for row in ("heard", "sent"):
                for kind, number in counts[row].items():
                    heights.setdefault((group.get("data-overview"), row), set()).add(round(bars[kind] / number, 0))
        self.assertTrue(all(max(found) - min(found) <= 1 for found in heights.values()), heights)
        self.assertGreater(len(heights), 4)


class Labels(PictureTest):
    """No two labels overlap at a page's width."""

    def test_examples(self):
        """In the picture of each example."""
        count = 0
        for folder in with_report():
            if input_of(folder)[1]:
                shapes = self.of_example(os.path.basename(folder))
                self.assertEqual(shapes.overlapping(), [], folder)
                self.assertEqual(shapes.root.get("width"), str(WIDTH))
                count += 1
        self.assertGreater(count, 70)

    def test_overlap_is_seen(self):
        """Where two labels are put on one place, the test sees it."""
        text = read_text(STORED)
        again = re.search(r'<text [^>]*>devices</text>', text)[0]
        self.assertEqual(Shapes(text).overlapping(), [])
        self.assertEqual(Shapes(text.replace(again, again + again, 1)).overlapping(), [("devices", "devices")])

    @needs_program
    def test_run_of_2500_lines(self):
        """In the picture of 2,500 lines, in each of its forms."""
        trace, report = self.long_run(2500)
        shapes = self.shapes(trace, report)
        self.assertEqual(shapes.overlapping(), [])
        self.assertGreater(len(shapes.marks()), 700)
        self.assertGreater(len(shapes.of(what="roaming")), 10)
        numbers = [tuple(map(int, group.get("data-lines").split("-"))) for group in shapes.of(what="quiet")]
        lines = {line for first, *last in numbers for line in range(first, (last or [first])[0] + 1)}
        shown = {int(group.get("data-lines").split("-")[0]) for group in shapes.marks()}
        self.assertGreater(len(lines | shown), 2250)
        for network in (0, 1):
            address = long_run.with_colons(long_run.bssid_of(network))
            self.assertEqual(self.shapes(trace, report, "--network", address).overlapping(), [])


class Forms(PictureTest):
    """PNG, PDF, and the page that can be asked."""

    def test_png_and_pdf(self):
        """By the name's ending: a PNG of a page's width, and a PDF."""
        svg = Shapes(read_text(self.drawn(INPUT, REPORT)))
        with Image.open(self.drawn(INPUT, REPORT, name="x.png")) as picture:
            self.assertEqual((picture.format, picture.width), ("PNG", WIDTH))
            self.assertAlmostEqual(picture.height, float(svg.root.get("height")), delta=1)
            self.assertGreater(len(picture.convert("RGB").getcolors(1 << 24)), 50)
        with open(self.drawn(INPUT, REPORT, name="x.pdf"), "rb") as file:
            self.assertEqual(file.read(5), b"%PDF-")
        status, stdout, _ = tool("picture", INPUT, REPORT)
        self.assertEqual((status, Shapes(stdout).words()), (0, svg.words()))

    @needs_program
    def test_pdf_has_pages(self):
        """A long run's PDF has several pages, the first of which is the overview."""
        trace, report = self.long_run(2000)
        pages = [self.pages_of(self.drawn(trace, report, *words, name="x.pdf")) for words in ([], ["--overview"])]
        self.assertGreater(pages[0], 4)
        self.assertEqual(pages[1], 1)

    def pages_of(self, path):
        """How many pages a PDF has. On Debian 13 the object that says so is in a packed stream of objects."""
        text = Path(path).read_bytes()
        for packed in re.findall(rb"/ObjStm.*?>>\s*stream\r?\n(.*?)endstream", text, re.DOTALL):
            text += zlib.decompressobj().decompress(packed)
        return int(re.search(rb"/Count (\d+)", text)[1])

    @needs_program
    def test_run_in_pages(self):
        """Of 18,000 lines an SVG is an overview, each column of which leads to the page that has its first line; pages
        lead to each other and back. A converter takes each of these."""
        trace, report = self.long_run(18_000)
        status, stdout, stderr = tool("picture", trace, report, "--out", self.path("my run.svg"))
        self.assertEqual((status, stdout), (0, ""))
        names = sorted(os.listdir(self.path("my run.pages")))
        self.assertRegex(stderr, rf"my run.svg: an overview; {len(names)} pages of detail are in \S.*my run.pages\n$")
        self.assertGreater(len(names), 50)
        overview = Shapes(self.read("my run.svg"))
        self.assertLess(os.path.getsize(self.path("my run.svg")), 1 << 20)
        pages = [Shapes(self.read(os.path.join("my run.pages", name))) for name in names]
        begins = [min(int(attributes["id"].removeprefix("strip-")) for attributes, _ in page.groups
                      if attributes.get("id", "").startswith("strip-")) for page in pages]
        self.assertEqual(begins, sorted(begins))
        links = list(overview.root.iter(f"{SVG}a"))
        self.assertGreater(len(links), 60)
        for link in links:
            first = int(link.find(f"{SVG}g").get("data-stretch").split("-")[0])
            page = max(place for place, begin in enumerate(begins) if begin <= max(first, begins[0]))
            self.assertEqual(link.get("href"), f"my%20run.pages/{names[page]}")
        for place, page in enumerate(pages):
            self.assertEqual(page.overlapping(), [], names[place])
            wanted = ["../my%20run.svg", *names[max(place - 1, 0):place], *names[place + 1:place + 2]]
            self.assertEqual([link.get("href") for link in page.root.iter(f"{SVG}a")], wanted)
            self.assertLess(float(page.root.get("height")), 2 * 1414)
        shown = {int(group.get("data-lines").split("-")[0]) for page in pages for group in page.marks()}
        self.assertGreater(len(shown), 5000)
        for name in (self.path("my run.svg"), self.path("my run.pages", names[-1])):
            done = run_to_end(["rsvg-convert", "--output", self.path("x.png"), name])
            self.assertEqual((done.returncode, done.stderr), (0, ""))
        status, stdout, stderr = tool("picture", trace, report)
        self.assertIn("the overview alone, since all would be more than 32767 pixels high", stderr)
        self.assertEqual(Shapes(stdout).marks(), [])

    @needs_program
    def test_png_that_would_be_too_high(self):
        """It has the overview alone, and the tool says so."""
        trace, report = self.long_run(20000)
        status, stdout, stderr = tool("picture", trace, report, "--out", self.path("x.png"))
        self.assertEqual((status, stdout), (0, ""))
        self.assertRegex(stderr, r"^\S*x.png: the overview alone, .* choose a part by --from and --to")
        with Image.open(self.path("x.png")) as picture, Image.open(
                self.drawn(trace, report, "--overview", name="y.png")) as alone:
            self.assertEqual(picture.size, alone.size)
            self.assertEqual(picture.tobytes(), alone.tobytes())
            self.assertLess(picture.height, 960)

    def test_page(self):
        """The page needs nothing from elsewhere, has the picture, and of each line its octets field by field."""
        path = self.drawn(INPUT, REPORT, name="x.html")
        text = read_text(path)
        self.assertEqual(set(re.findall(r"[a-z]+://[^\"' <]*", text)), {"http://www.w3.org/2000/svg"})
        self.assertEqual(re.findall(r"<(?:link|img|iframe|object)|\ssrc=|@import|url\(", text), [])
        wide, narrow = map(Shapes, re.findall(r"<svg.*?</svg>", text, re.DOTALL))
        self.assertEqual(wide.words(), self.of_three().words())
        self.assertEqual(narrow.overlapping(374), [])
        of_marks = [Counter(tuple(group.get(f"data-{name}") for name in ("network", "lines", "what", "row"))
                            for group in shapes.marks()) for shapes in (wide, narrow)]
        self.assertEqual(of_marks[0], of_marks[1])
        words, lines = (json.loads(re.search(rf"const {name} = (.*);\n", text)[1]) for name in ("WORDS", "LINES"))
        trace = input_of(THREE)[1]
        self.assertEqual(list(lines), [str(line.number) for line in trace])
        for line in trace:
            told = lines[str(line.number)]
            self.assertEqual(told["came"]["octets"], line.octets.hex())
            for frame in [told["came"], *told["sent"]]:
                self.assertEqual(sum(frame["fields"][1::3]), len(frame["octets"]), line)
                self.assertLess(max([0, *frame["fields"][::3], *frame["fields"][2::3]]), len(words))
        sent = [frame["octets"] for told in lines.values() for frame in told["sent"]]
        self.assertEqual(sorted(sent), sorted(octets.hex() for section in report_of(THREE)
                                              for octets in [*section.air, *section.wire]))
        self.assertIn("DTIM count 2 of 3, units wait for identifier 1", words)

    def test_no_text_of_a_run_ends_the_script(self):
        """A name that would end the page's script doesn't."""
        folder = CASES["probe_is_answered"]
        name = "</script><b>".encode()
        text = read_text(os.path.join(folder, "input")).replace('"lab"', '"</script><b>"')
        report = read_text(os.path.join(folder, "stdout")).replace("ssid 6c6162", f"ssid {name.hex()}").replace(
            "00036c6162", f"00{len(name):02x}{name.hex()}")
        page = read_text(self.drawn(self.write("input", text), self.write("report", report), name="x.html"))
        self.assertEqual(page.count("</script>"), 1)
        self.assertNotIn("<b>", page)

    def test_fields_of_all_examples(self):
        """The fields of each frame of the examples are its octets, in order."""
        count = 0
        for folder in with_report():
            heard = [line.octets for line in input_of(folder)[1] if line.kind == "A"]
            wired = [line.octets for line in input_of(folder)[1] if line.kind == "W"]
            sections = report_of(folder)
            for frames, fields in ((heard + [octets for section in sections for octets in section.air], fields_on_air),
                                   (wired + [octets for section in sections for octets in section.wire],
                                    fields_on_wire)):
                for octets in frames:
                    self.assertEqual(b"".join(field.octets for field in fields(octets)), octets, folder)
                    count += 1
        self.assertGreater(count, 900)


class Stories(ToolTest):
    """What is told of the lines of a trace."""

    def test_stories_of_all_examples(self):
        """Each example's report is explained by its configuration and trace, to its last frame, count and row, and
        without the configuration too."""
        count = 0
        for folder in with_report():
            text, lines = input_of(folder)
            sections = report_of(folder)
            count += len(sections)
            for config in (read_config(text), None):
                for story in stories(sections, lines, config):
                    self.assertEqual([octets for _, octets in story.frames], story.section.air, folder)
        self.assertGreater(count, 60)

    def test_options_are_followed(self):
        """A report is refused where the configuration is changed: the quota, relaying or aging."""
        for name, old, new in (("guests_are_kept_apart", "relay = false", "relay = true"),
                               ("guests_are_kept_apart", "relay = true", "relay = false"),
                               ("units_of_stations_that_doze_too_long", "aging = true", "aging = false"),
                               ("units_over_the_quota", "quota = ", "quota = 1")):
            text = self.with_change(name, old, new)
            self.refused_with(name, text, says="network 02:")

    def test_other_configurations_are_refused(self):
        """One of other networks, that is no TOML, or that lacks what it has to say."""
        for old, new, says in (('"02:00:00:00:00:02"', '"02:00:00:00:00:03"', "aren't those of the configuration"),
                               ("channel = 6", "channel 6", "is no TOML"), ("quota = 8", "", "'quota'"),
                               ("quota = 8", 'quota = "8"', "is a number"), ("relay = true", "relay = 1", "truth")):
            text = self.with_change("guests_are_kept_apart", old, new)
            self.refused_with("guests_are_kept_apart", text, says=says)

    def with_change(self, name, old, new):
        """The input of an example with another text in it."""
        text = input_of(CASES[name])[0]
        self.assertIn(old, text)
        return text.replace(old, new)

    def refused_with(self, name, text, says):
        """The tools refuse the report of an example with this input."""
        trace, report = self.write("input", text), os.path.join(CASES[name], "stdout")
        self.refused("picture", trace, report, says=says)
        self.refused("capture-from-run", trace, report, "--out", self.path("out"), says=says)

    def test_units_that_age_are_lost_in_their_interval(self):
        """Of units that are kept for too long the loss stands at the beacon interval that ends their time."""
        folder = CASES["units_of_stations_that_doze_too_long"]
        text, lines = input_of(folder)
        ticks = {line.number for line in lines if line.kind == "T"}
        told = stories(report_of(folder), lines, read_config(text))
        lost = [mark.line for story in told for mark in story.marks if mark.what == "lost"]
        self.assertTrue(lost)
        self.assertLessEqual(set(lost), ticks)

    @needs_program
    def test_each_line_brings_what_the_program_says(self):
        """What each line brings about is by how much the report of the lines up to it is longer than that of those
        before."""
        for name in ("three_networks_over_some_intervals", "leaving_drops_kept_units", "one_event_loses_two",
                     "waking_makes_room_for_the_group", "station_roams_between_two_networks", "guests_are_kept_apart",
                     "units_of_stations_that_doze_too_long", "keeping_between_two_networks_where_units_age"):
            folder = CASES[name]
            text, lines = input_of(folder)
            told = stories(report_of(folder), lines, read_config(text))
            config, trace = text.split("\n---\n")
            for number in [line.number for line in lines]:
                begun = "\n".join([config, "---", *trace.split("\n")[:number], ""])
                for story, section in zip(told, read_report(run_program(program_input=begun))):
                    wanted = [octets for line, octets in story.frames if line <= number]
                    self.assertEqual(section.air, wanted, f"{PROGRAM} {name} up to line {number}")
                    lost = [mark for mark in story.marks if mark.what == "lost" and mark.line <= number]
                    self.assertEqual(section.lost, len(lost), f"{name} up to line {number}")
                    held = {span.station: span.state for span in story.spans
                            if span.begins <= number and (span.ends is None or number < span.ends)}
                    rows = {row.address: "authenticated" if row.aid is None else "dozing" if row.doze else "associated"
                            for row in section.stations}
                    self.assertEqual(held, rows, f"{name} up to line {number}")
