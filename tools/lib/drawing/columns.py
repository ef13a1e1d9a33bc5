"""What stands beside each other in a picture: the lines of a trace as columns, quiet stretches of them as one, with the
time at which they happened, and columns as strips of a page's width."""
import bisect
from collections import Counter
from dataclasses import dataclass, field

from drawing.svg import text_width
from frames import TIME_UNIT
from story import GROUP, NOTHING, WIRE

BEACONS, OTHERS = "beacons", "others"
SMALL, LETTER_SIZE = 9.5, 10
SLOT, CIRCLE_SLOT, PAD, LEAST_COLUMN, LEAST_QUIET = 13, 18, 4, 18, 6
# How much further apart the columns of a short run stand at most.
MOST_GAP = 120
# Shorter quiet stretches have no words.
LEAST_NAMED = 4
CIRCLED = ("answered", "refused", "turned away", "left", NOTHING)
# Lines that brought nothing and that stations send all the time: probes for other networks, and Nulls.
USUAL = ("P", "U")
BEACON_KINDS = ("beacon", "DTIM beacon")


@dataclass
class Item:
    """Something that lines brought about in a network: a mark in a row, perhaps with an arrow from another row to it.
    `x` is where it stands in its column, from the left."""

    what: str
    row: object
    sender: object
    letter: str
    text: str
    count: int
    x: float = 0.0

    @property
    def label(self):
        """The words beside it."""
        return " ".join(filter(None, [self.text, f"{self.count}×" if self.count > 1 else ""]))

    @property
    def slot(self):
        """How much room its mark takes."""
        return CIRCLE_SLOT if self.what in CIRCLED else SLOT

    @property
    def width(self):
        """How much room it takes with its words."""
        return self.slot + (text_width(self.label, SMALL) + 3 if self.label else 0)


@dataclass
class Column:
    """One line, or a quiet stretch of several; `items` by the place of the network."""

    lines: list
    is_quiet: bool
    items: dict = field(default_factory=dict)
    labels: tuple = ()
    x: float = 0.0

    @property
    def width(self):
        """How wide it is, but for words, which may reach over the columns behind it."""
        marks = [item.x + item.slot for items in self.items.values() for item in items]
        names = [text_width(label, SMALL) + 6 for label in self.labels]
        return max([LEAST_QUIET if self.is_quiet else LEAST_COLUMN, *marks, *names]) + PAD

    @property
    def numbers(self):
        """The numbers of its first line and its last, or of its one."""
        first, last = self.lines[0].number, self.lines[-1].number
        return str(first) if first == last else f"{first}-{last}"

    @property
    def end(self):
        """Where its last word ends, from the strip's left."""
        ends = [item.x + item.width + PAD for items in self.items.values() for item in items]
        return self.x + max([self.width, *ends])


class Clock:
    """When each line happened: by the capture's own time where the trace tells it, else by the beacon clock. `name` is
    what stands before the times."""

    name = "time, s"

    def __init__(self, lines, origins, interval):
        self.seconds, self.by_capture = {}, bool(origins)
        clock, last = 0, min((origin.seconds for origin in origins.values()), default=0.0)
        for line in lines:
            clock += line.kind == "T"
            last = origins[line.number].seconds if line.number in origins else last
            self.seconds[line.number] = last if self.by_capture else clock * interval * TIME_UNIT / 1e6
        self.is_known = self.by_capture or interval > 0

    def text(self, line):
        """The time of a line."""
        return f"{self.seconds[line.number]:.3f}" if self.is_known else ""

    def length(self, lines):
        """How long a stretch of lines took."""
        return self.seconds[lines[-1].number] - self.seconds[lines[0].number]


def place_items(items):
    """Places items of one column and network: beside each other those of one row, and each with an arrow beside all
    before it."""
    taken, every = {}, 0.0
    for item in items:
        item.x = every if item.sender is None else max([every, *taken.values()])
        item.x = max(item.x, taken.get(item.row, 0.0))
        taken[item.row] = item.x + item.width
        if item.sender is not None:
            every = item.x + SLOT
    return items


def items_of(marks, rows_of):
    """The items of one line in one network: marks of one kind for one row are one."""
    counts = Counter()
    for mark in marks:
        if mark.what in BEACON_KINDS and not mark.text:
            continue
        row, sender = rows_of(mark)
        counts[mark.what, row, sender, mark.letter, mark.text] += 1
    return [Item(*key, count) for key, count in counts.items()]


def row_of(mark):
    """In which row a mark stands."""
    if mark.what in BEACON_KINDS:
        return BEACONS
    if mark.what == "wired" or mark.what == "lost" and mark.whom is None:
        return WIRE
    return OTHERS if mark.what == "unread" or mark.whom is None else mark.whom


def is_silent(mark):
    """Whether a mark is of a frame that did nothing, and that isn't worth a column."""
    return mark.what == "unread" or mark.what == NOTHING and mark.letter in USUAL


def is_quiet(mark):
    """Whether a mark says nothing new: a beacon without units that wait, or that says what the one before said; a frame
    that isn't read, or that does nothing as many do."""
    return is_silent(mark) or mark.what in BEACON_KINDS and not mark.text


def drop_silences(lanes):
    """Takes the marks of frames that brought nothing off lines that brought something in another network: a frame
    to all is heard by each, and meant for one."""
    busy = {number for lane in lanes for number, marks in lane.marks.items()
            if any(mark.what not in (NOTHING, "unread") for mark in marks)}
    busy |= {number for lane in lanes for number in lane.changes}
    for lane in lanes:
        for number in busy & lane.marks.keys():
            lane.marks[number] = [mark for mark in lane.marks[number] if mark.what != NOTHING]


def columns_of(lanes, lines, clock):
    """The columns of these lines. `lanes` have the marks of each line and know which lines change a state."""
    columns, stretch = [], []
    for line in lines:
        if any(lane.is_lively(line.number) for lane in lanes):
            columns += quiet_column(lanes, stretch, clock)
            stretch = []
            items = {place: place_items(items_of(lane.marks_at(line.number), lane.rows_of))
                     for place, lane in enumerate(lanes)}
            columns.append(Column([line], False, {place: found for place, found in items.items() if found}))
        else:
            stretch.append(line)
    return columns + quiet_column(lanes, stretch, clock)


def quiet_column(lanes, lines, clock):
    """A stretch of lines in which nothing happens that a person looks for: none, or one column."""
    if not lines:
        return []
    items = {}
    for place, lane in enumerate(lanes):
        counts = Counter((mark.what, mark.letter) for line in lines for mark in lane.marks_at(line.number)
                         if is_silent(mark))
        if counts:
            items[place] = place_items([Item(what, OTHERS, None, letter, "", count)
                                        for (what, letter), count in counts.items()])
    taken = clock.length(lines) if clock.is_known else 0
    labels = (f"⋯ {taken:.1f} s" if taken >= 0.05 else "⋯", f"{len(lines)} lines")
    labels = labels if len(lines) >= LEAST_NAMED else ()
    return [Column(lines, True, items, labels)]


def strips_of(columns, width):
    """Columns as strips that are at most so wide; within each, `x` of each column from the left."""
    strips, free = [], {}
    for column in columns:
        if strips:
            column.x = left_of(column, strips[-1][-1], free)
        if not strips or column.end > width:
            strips.append([])
            column.x, free = 0.0, {}
        for place, items in column.items.items():
            rows = free.setdefault(place, {})
            for item in items:
                rows[item.row] = column.x + item.x + item.width + PAD
        strips[-1].append(column)
    return [Strip(filled(strip, width) if len(strips) == 1 else strip) for strip in strips]


def filled(strip, width):
    """A strip whose columns stand further apart, so that it is as wide as this; within reason."""
    gaps = len(strip) - 1
    room = width - max(column.end for column in strip)
    each = min(room / gaps, MOST_GAP) if gaps else 0.0
    for place, column in enumerate(strip):
        column.x += each * place
    return strip


def left_of(column, before, free):
    """Where a column begins: after the one before it, and so that none of its marks, nor an arrow, stands in words of
    an earlier one. `free` has for each row of each network where its words end."""
    x = before.x + before.width
    for place, items in column.items.items():
        rows = free.get(place, {})
        for item in items:
            ends = rows.values() if item.sender is not None else [rows.get(item.row, 0.0)]
            x = max([x, *(end - item.x for end in ends)])
    return x


class Strip:
    """Some columns beside each other."""

    def __init__(self, columns):
        self.columns = columns
        self.firsts = [column.lines[0].number for column in columns]
        self.first, self.last = columns[0].lines[0].number, columns[-1].lines[-1].number
        self.width = max(column.end for column in columns)

    def x_of(self, number):
        """How far from the left a line stands: those before at the left edge, those after at the right, as is the
        end."""
        if number is None or number > self.last:
            return self.width
        if number < self.first:
            return 0.0
        column = self.columns[bisect.bisect_right(self.firsts, number) - 1]
        return column.x + (0.0 if column.is_quiet else PAD / 2 + SLOT / 2)

    def x_of_mark(self, number, place, what, row):
        """How far from the left the mark of a line stands that a network has in a row; where there is none, the
        line."""
        column = self.columns[bisect.bisect_right(self.firsts, number) - 1] if self.has(number) else None
        items = column.items.get(place, ()) if column and not column.is_quiet else ()
        item = next((item for item in items if item.what == what and item.row == row), None)
        return self.x_of(number) + (item.x if item else 0.0)

    def has(self, number):
        """Whether a line stands here."""
        return number is not None and self.first <= number <= self.last

    def overlaps(self, begins, ends):
        """Whether something that holds from one line up to another is seen here."""
        return begins <= self.last and (ends is None or ends > self.first)


class Lane:
    """One network in a picture: its story, of which stations it is shown (all where none are chosen), and whether its
    SSID names it alone."""

    def __init__(self, story, chosen, has_own_name=True):
        self.story, self.section, self.chosen = story, story.section, chosen
        self.name = story.section.name if has_own_name else f"{story.section.name} {story.section.bssid.hex(':')}"
        self.spans = [span for span in story.spans if self.shows(span.station)]
        self.keepings = [kept for kept in story.keepings if not chosen or kept.whom in chosen or kept.sender in chosen]
        self.marks = {}
        for mark in story.marks:
            if not chosen or mark.whom in chosen or mark.sender in chosen:
                self.marks.setdefault(mark.line, []).append(mark)
        self.drop_old_news()
        self.changes = {span.begins for span in self.spans} | {span.ends for span in self.spans}
        refused = {mark.whom for mark in story.marks if mark.what in ("refused", "turned away")}
        self.own = {span.station for span in story.spans} | {whom for whom in refused if whom != GROUP}

    def drop_old_news(self):
        """Takes the words off beacons that say what the one before said, while nothing is delivered after them."""
        before = None
        for line in sorted(self.marks):
            marks = self.marks[line]
            beacon = next((mark for mark in marks if mark.what in BEACON_KINDS), None)
            if beacon is not None:
                if beacon.text == before and len(marks) == 1:
                    self.marks[line] = [beacon._replace(text="")]
                before = beacon.text

    def shows(self, station):
        """Whether a station is shown."""
        return not self.chosen or station in self.chosen

    def marks_at(self, number):
        """What a line brought about here."""
        return self.marks.get(number, [])

    def is_lively(self, number):
        """Whether something happened here that a person looks for."""
        return number in self.changes or any(not is_quiet(mark) for mark in self.marks_at(number))

    def rows_of(self, mark):
        """The row of a mark, and that of the sender."""
        row = row_of(mark)
        known = self.own | {GROUP, WIRE, BEACONS}
        sender = mark.sender if mark.sender in known else None
        return (row if row in known else OTHERS), (None if sender == row else sender)
