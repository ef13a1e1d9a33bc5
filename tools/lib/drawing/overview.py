"""An overview of a long run, one screen high: for each network and stretch of time how many frames of which kind it
heard and sent, how many stations it had, and how many units it kept and lost."""
import bisect
import math
from collections import Counter
from dataclasses import dataclass, field
from typing import NamedTuple

from drawing.colours import BLUE, DARK, GREEN, GREY, GRID, LIGHT, LILAC, ORANGE, PALE, PURPLE, RED, STATES, YELLOW
from drawing.svg import text_width, wrapped
from frames import BEACON, DATA, Frame
from story import ASSOCIATED, DATA_FRAMES, DOZING, FROM_WIRE, POLLS, REQUESTS, UNREAD

MARGIN, LEFT = 12, 230
# Where the picture is narrow, names have less room, and columns stay as wide as words below them need.
NARROW, NARROW_LEFT, LEAST_WIDE = 700, 186, 18
SCREEN, MOST_STRETCHES, MOST_SHARE = 880, 40, 4
HEAD, TEXT, SMALL, LEAST = 13, 10.5, 9.5, 8
AXIS, GAP, MOST_BLOCK, NAME_GAP = 16, 7, 220, 110
# A lower network has rows that are all of one height.
LOW = 70
BEACONS, ANSWERS, UNITS, ON_WIRE = "beacons", "answers", "units", "on the wire"
KEPT, LOST = "kept", "lost"
# The rows of a network: what each counts, of which kinds in which colours, and how high it is beside the others.
ROWS = (("heard", ((REQUESTS, PURPLE), (DATA_FRAMES, BLUE), (POLLS, STATES[DOZING]), (FROM_WIRE, GREEN),
                   (UNREAD, LIGHT)), 3),
        ("sent", ((BEACONS, GREY), (ANSWERS, LILAC), (UNITS, YELLOW), (ON_WIRE, GREEN)), 3),
        ("stations", ((ASSOCIATED, STATES[ASSOCIATED]), (DOZING, STATES[DOZING])), 2),
        ("units", ((KEPT, ORANGE), (LOST, RED)), 2))


class Stretch(NamedTuple):
    """Some lines of the trace, in which column they stand, and from when on."""

    column: int
    first: int
    last: int
    time: str


@dataclass
class Counts:
    """What a network did in a stretch: of each row of the overview how many of which kind."""

    heard: Counter = field(default_factory=Counter)
    sent: Counter = field(default_factory=Counter)
    stations: Counter = field(default_factory=Counter)
    units: Counter = field(default_factory=Counter)

    def text(self):
        """All of it, in words."""
        rows = [(name, getattr(self, name), kinds) for name, kinds, _ in ROWS]
        said = [f"{name}: " + (", ".join(f"{counts[kind]} {kind}" for kind, _ in kinds if counts[kind]) or "none")
                for name, counts, kinds in rows]
        return "; ".join(said)


def step_of(length, most):
    """The least of 1, 2, 5, 10 and so on, or a thousandth of these, that a length has at most so many times."""
    exponent = -3
    while True:
        for digit in (1, 2, 5):
            if length <= digit * 10.0 ** exponent * most:
                return digit * 10.0 ** exponent
        exponent += 1


def stretches_of(lines, clock, most=MOST_STRETCHES):
    """Lines as at most one more than so many stretches, and how long each is, in words: of the same time where no
    stretch has more than a fourth of all lines then, else of the same number of lines."""
    length = clock.length(lines) if clock.is_known else 0
    if length > 0:
        step = step_of(length, most)
        columns = by_time(lines, clock, step)
        if MOST_SHARE * max(map(len, columns.values())) <= len(lines):
            begins = column_at(lines[0], clock, step)
            return [stretch_of(column - begins, group, f"{column * step:.10g}")
                    for column, group in columns.items()], f"{step:g} s"
    step = max(1, round(step_of(len(lines), most)))
    groups = [lines[at:at + step] for at in range(0, len(lines), step)]
    return [stretch_of(column, group, clock.text(group[0])) for column, group in enumerate(groups)], (
        "1 line" if step == 1 else f"{step} lines")


def column_at(line, clock, step):
    """In which of the columns of some seconds, from that of the second 0 on, a line stands."""
    return math.floor(clock.seconds[line.number] / step + 1e-9)


def by_time(lines, clock, step):
    """The lines of each column of some seconds; one whose time is before that of the line before stands with that."""
    columns, last = {}, -math.inf
    for line in lines:
        last = max(last, column_at(line, clock, step))
        columns.setdefault(last, []).append(line)
    return columns


def stretch_of(column, lines, time):
    """A stretch of these lines."""
    return Stretch(column, lines[0].number, lines[-1].number, time)


def counts_of(lane, stretches):
    """What a network did in each stretch."""
    found = [Counts() for _ in stretches]
    lasts = [stretch.last for stretch in stretches]
    for number, row, kind in happenings(lane):
        place = bisect.bisect_left(lasts, number)
        if place < len(stretches) and stretches[place].first <= number:
            getattr(found[place], row)[kind] += 1
    together = [span for span in lane.spans if span.state in (ASSOCIATED, DOZING)]
    levels = {("stations", ASSOCIATED): together, ("units", KEPT): lane.keepings,
              ("stations", DOZING): [span for span in together if span.state == DOZING]}
    for (row, kind), spans in levels.items():
        for counts, most in zip(found, most_at_once(spans, stretches)):
            getattr(counts, row)[kind] = most
    return found


def happenings(lane):
    """All that a network heard, sent and lost: triples of the line, the row of the overview, and the kind."""
    story, chosen = lane.story, lane.chosen
    for heard in story.heard:
        if not chosen or heard.whom in chosen:
            yield heard.line, "heard", heard.kind
    for number, octets in story.frames:
        if not chosen or octets[4:10] in chosen:
            frame = Frame(octets)
            kind = BEACONS if frame.is_management(BEACON) else UNITS if frame.type == DATA else ANSWERS
            yield number, "sent", kind
    for number, octets in story.wires:
        if not chosen or octets[6:12] in chosen:
            yield number, "sent", ON_WIRE
    for marks in lane.marks.values():
        for mark in marks:
            if mark.what == "lost":
                yield mark.line, "units", LOST


def most_at_once(spans, stretches):
    """Of things that hold from one line up to another how many there were at most at a time, in each stretch."""
    changes = Counter()
    for span in spans:
        changes[span.begins] += 1
        if span.ends is not None:
            changes[span.ends] -= 1
    steps, at, level, found = sorted(changes.items()), 0, 0, []
    for stretch in stretches:
        while at < len(steps) and steps[at][0] < stretch.first:
            level, at = level + steps[at][1], at + 1
        most = level
        while at < len(steps) and steps[at][0] <= stretch.last:
            level, at = level + steps[at][1], at + 1
            most = max(most, level)
        found.append(most)
    return found


class Overview:
    """The overview of some lines in the networks of these lanes, in a picture of this width."""

    def __init__(self, lanes, lines, clock, width):
        self.lanes, self.clock, self.width = lanes, clock, width
        self.left_edge = LEFT if width > NARROW else NARROW_LEFT
        body = width - self.left_edge - MARGIN
        self.stretches, self.each = stretches_of(lines, clock, min(MOST_STRETCHES, int(body / LEAST_WIDE)))
        self.counts = [counts_of(lane, self.stretches) for lane in lanes]
        self.wide = body / (self.stretches[-1].column + 1)
        self.words_height = max(text_width(words_of(stretch), LEAST) for stretch in self.stretches) + 8

    def draw(self, canvas, y, title, link_of=None):
        """Draws it from this height on, and answers where it ends. `link_of` gives what a stretch leads to."""
        begun = y
        room = self.width - 2 * MARGIN
        for text in wrapped(title, HEAD, room, "bold"):
            canvas.text(MARGIN, y + HEAD, text, HEAD, weight="bold")
            y += HEAD + 4
        leads = "a click on it leads there" if link_of else "the words below it draw it alone"
        for text in wrapped(f"Overview: a column is {self.each} of the trace; {leads}", TEXT, room):
            canvas.text(MARGIN, y + 13, text, TEXT)
            y += 13
        y = self.legend(canvas, y + 10)
        self.axis(canvas, y)
        y += AXIS
        room = SCREEN - (y - begun) - self.words_height
        block = min(MOST_BLOCK, room / len(self.lanes)) - GAP
        for lane, counts in zip(self.lanes, self.counts):
            self.block(canvas, y, block, lane, counts, link_of)
            y += block + GAP
        self.words(canvas, y)
        return y + self.words_height

    def legend(self, canvas, y):
        """What the colours mean: those that occur."""
        x = float(MARGIN)
        for row, kinds, _ in ROWS:
            used = [(kind, colour) for kind, colour in kinds
                    if any(getattr(counts, row)[kind] for network in self.counts for counts in network)]
            if not used:
                continue
            width = sum(text_width(kind, SMALL) + 26 for kind, _ in used) + text_width(row, SMALL, "bold") + 16
            if x > MARGIN and x + width > self.width - MARGIN:
                x, y = float(MARGIN), y + 17
            canvas.text(x, y + 10, row, SMALL, weight="bold")
            x += text_width(row, SMALL, "bold") + 8
            for kind, colour in used:
                canvas.rectangle(x, y + 2, 11, 9, colour)
                canvas.text(x + 15, y + 10, kind, SMALL)
                x += text_width(kind, SMALL) + 26
            x += 8
        return y + 21

    def left(self, stretch):
        """Where a stretch begins."""
        return self.left_edge + self.wide * stretch.column

    def axis(self, canvas, y):
        """When stretches begin, as many as have room."""
        name = self.clock.name if self.clock.is_known else ""
        canvas.text(self.left_edge - 6, y + 11, name, SMALL, anchor="end", fill=PALE)
        free = 0.0
        for stretch in self.stretches:
            x = self.left(stretch)
            end = x + text_width(stretch.time, SMALL)
            if x >= free and end <= self.width - 2:
                canvas.text(x, y + 11, stretch.time, SMALL)
                free = end + 6

    def block(self, canvas, y, height, lane, counts, link_of):
        """One network: its names, and of each row a bar for each stretch."""
        canvas.line(MARGIN, y, self.width - MARGIN, y, GRID)
        size = TEXT if height >= LOW else SMALL
        name = shortened(lane.section.name, size, self.left_edge - NAME_GAP)
        canvas.text(MARGIN, y + 11, name, size, weight="bold")
        canvas.text(MARGIN, y + 22, lane.section.bssid.hex(":"), LEAST, fill=PALE)
        rows = self.rows(canvas, y + 2, height - 2, counts)
        for stretch, each in zip(self.stretches, counts):
            with canvas.link(link_of(stretch) if link_of else ""):
                self.cell(canvas, y + 2, height - 2, lane, stretch, each, rows)

    def rows(self, canvas, top, height, counts):
        """The names of a network's rows, with the most of each: where each row stands, and how high it is."""
        weights = [weight if height >= LOW else 1 for _, _, weight in ROWS]
        found = []
        for (row, kinds, _), weight in zip(ROWS, weights):
            room, most = height * weight / sum(weights), max(height_of(row, each) for each in counts)
            found.append((row, kinds, most, top, room - 2))
            label = f"{row}, up to {most:,}" if most else f"{row}: none"
            size = SMALL if height >= LOW else LEAST
            canvas.text(self.left_edge - 6, top + room - 3, label, size, anchor="end", fill=PALE)
            canvas.line(self.left_edge, top + room - 2, self.width - MARGIN, top + room - 2, GRID)
            top += room
        return found

    def cell(self, canvas, y, height, lane, stretch, counts, rows):
        """What one network did in one stretch."""
        time = f", from {stretch.time} s on" if stretch.time else ""
        title = f"{lane.name}, lines {stretch.first} to {stretch.last}{time}: {counts.text()}"
        with canvas.group(title, data_overview=lane.section.bssid.hex(),
                          data_stretch=f"{stretch.first}-{stretch.last}"):
            x = self.left(stretch)
            canvas.rectangle(x, y, self.wide, height, "white", fill_opacity=0.01)
            for row, kinds, most, top, room in rows:
                self.bars(canvas, x, top, room, getattr(counts, row), kinds, most, row in ("heard", "sent"))

    def bars(self, canvas, x, top, room, counts, kinds, most, is_stacked):
        """The bar of a row: kinds above each other, or each from the ground, narrower than the one before."""
        below = 0
        for place, (kind, colour) in enumerate(kinds):
            if counts[kind]:
                high = room * counts[kind] / most
                inset = 1 + (0 if is_stacked else place * self.wide / 4)
                ground = top + room - (room * below / most if is_stacked else 0)
                wide = max(self.wide - 2 * inset, 1.5)
                canvas.rectangle(x + inset, ground - high, wide, high, colour, data_kind=kind)
                below += counts[kind]

    def words(self, canvas, y):
        """Below each stretch the words that draw it alone."""
        for stretch in self.stretches:
            x = self.left(stretch) + self.wide / 2 + LEAST * 0.35
            canvas.text(x, y + 4, words_of(stretch), LEAST, anchor="end", fill=DARK, upright=True)


def words_of(stretch):
    """The words that draw a stretch alone."""
    return f"--from {stretch.first} --to {stretch.last}"


def height_of(row, counts):
    """How high the bar of a row is in a stretch."""
    kinds = getattr(counts, row)
    return sum(kinds.values()) if row in ("heard", "sent") else max(kinds.values(), default=0)


def shortened(name, size, room):
    """As much of a name as has room."""
    if text_width(name, size, "bold") <= room:
        return name
    while text_width(f"{name}…", size, "bold") > room:
        name = name[:-1]
    return f"{name}…"
