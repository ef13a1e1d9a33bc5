"""The picture of a run: strips of a page's width, in each a lane for each network and a row for each station, and the
lines of the trace from left to right. Each shape says what it is by attributes, so that a program can read the picture
as well."""
import bisect
import itertools
from contextlib import nullcontext

from drawing.colours import (DARK, GREEN, GREY, GRID, GROUND, LINK, ORANGE, PALE, PURPLE, QUIET, RED, RULE, STATES,
                             YELLOW)
from drawing.columns import (BEACON_KINDS, BEACONS, CIRCLE_SLOT, CIRCLED, OTHERS, PAD, SLOT, SMALL, Lane, columns_of,
                             drop_silences, strips_of)
from drawing.overview import Overview
from drawing.svg import MOST_HEIGHT, Canvas, text_width, wrapped
from drawing.words import mark_text
from story import ASSOCIATED, DOZING, GROUP, MORE, NOTHING, WIRE

WIDTH, MARGIN, LEFT = 1000, 12, 146
# Of a picture for a telephone, beside which nothing stands.
NARROW = 374
ROW, TITLE, AXIS, STRIP_GAP, LANE_GAP = 24, 17, 27, 18, 4
MIDDLE, BAR, KEPT_AT, KEPT_BAR, KEPT_PITCH, TRACKS = 8, 11, 14.5, 2.4, 3.0, 3
TEXT, HEAD, RADIUS, MARK = 10.5, 13, 7, 4.5
NAME_END, BRACKETS = 14, 3
PAGE_HEIGHT = 1414
# Strips that are higher together have an overview before them.
LONG = 3 * PAGE_HEIGHT
ARROWS = {"sent": DARK, "kept": ORANGE, "lost": RED, "wired": GREEN}
LETTERS = (("P", "probe request"), ("A", "authentication"), ("J", "association (joins)"), ("R", "reassociation"),
           ("D", "departure"), ("U", "data"), ("S", "PS-Poll"))
MEANINGS = {
    "answered": "request answered", "refused": "refused: its status", "turned away": "refused: not associated",
    "left": "station leaves", "beacon": "beacon, for whom units wait", "DTIM beacon": "beacon with a DTIM",
    "sent": "unit sent at once, from whom to whom", "kept": "unit kept", "delivered": "kept unit delivered",
    "dropped": "kept unit dropped", "lost": "unit lost", "wired": "unit put on the wire", "unread": "frames not read",
    NOTHING: "brings nothing"}
FIXED_ROWS = {BEACONS: "beacons", GROUP: "for the group", WIRE: "the wire", OTHERS: "others"}


class Roaming:
    """A station that is associated in two networks, from one line up to another."""

    def __init__(self, station, places, begins, ends):
        self.station, self.places, self.begins, self.ends = station, places, begins, ends


def joined_spans(lanes):
    """From which line up to which each station was associated in each network, dozing or not: by station, triples of
    the network's place and both lines."""
    found = {}
    for place, lane in enumerate(lanes):
        for span in lane.spans:
            if span.state in (ASSOCIATED, DOZING):
                mine = found.setdefault(span.station, [])
                if mine and mine[-1][0] == place and mine[-1][2] == span.begins:
                    mine[-1] = place, mine[-1][1], span.ends
                else:
                    mine.append((place, span.begins, span.ends))
    return found


def roaming_of(lanes):
    """Each time at which a station is associated in two of these networks."""
    found = []
    for station, spans in joined_spans(lanes).items():
        here, pairs = [], {}
        for number, (place, begins, ends) in sorted(enumerate(spans), key=lambda numbered: numbered[1][1]):
            here = [other for other in here if spans[other][2] is None or spans[other][2] > begins]
            for other in (other for other in here if spans[other][0] != place):
                last = min((end for end in (ends, spans[other][2]) if end is not None), default=None)
                if last is None or begins < last:
                    pair = min(number, other), max(number, other)
                    pairs[pair] = Roaming(station, tuple(spans[each][0] for each in pair), begins, last)
            here.append(number)
        found += [pairs[pair] for pair in sorted(pairs)]
    return found


class Picture:
    """All that is asked for of a run. `chosen` are the stations that are shown, all where it is empty. Strips are as
    wide as the picture, and `name` stands before what links find."""

    def __init__(self, stories, clock, chosen=(), most_stations=40, width=WIDTH):
        self.width, self.name = width, "" if width == WIDTH else f"width-{width}-"
        names = [story.section.name for story in stories]
        self.lanes = [Lane(story, frozenset(chosen), names.count(story.section.name) == 1) for story in stories]
        drop_silences(self.lanes)
        self.most_stations = most_stations
        self.roaming = roaming_of(self.lanes)
        self.name_roaming()
        self.clock = clock
        self.lines, self.strips = [], []
        self.canvas, self.y, self.height = None, 0.0, 0.0

    def show(self, lines, in_strips=True):
        """Chooses these lines of the trace alone; states are those that the lines before left. Without strips there is
        an overview alone."""
        self.lines = lines
        columns = columns_of(self.lanes, lines, self.clock) if in_strips else []
        self.strips = strips_of(columns, self.width - LEFT - MARGIN)

    def name_roaming(self):
        """Where a station joins a second network, its mark says so."""
        for roaming in self.roaming:
            for place, other in (roaming.places, roaming.places[::-1]):
                lane = self.lanes[place]
                lane.marks[roaming.begins] = [
                    mark._replace(text=f"{mark.text}, also in {self.lanes[other].name}")
                    if mark.letter in ("J", "R") and mark.what == "answered" and mark.whom == roaming.station and
                    "also in" not in mark.text else mark for mark in lane.marks_at(roaming.begins)]

    @property
    def is_long(self):
        """Whether an overview stands before the strips."""
        return sum(map(self.height_of, self.strips)) > LONG

    @property
    def is_too_high(self):
        """Whether no converter takes it in one piece."""
        return sum(map(self.height_of, self.strips)) + LONG > MOST_HEIGHT

    def whole(self):
        """One picture, as an SVG; an overview leads to the strips."""
        self.begin(with_legend=False)
        is_long = self.is_long
        if is_long:
            self.overview(self.strip_of)
        self.headline()
        self.legend()
        for strip in self.strips:
            with self.canvas.group(id=self.name + strip_name(strip)) if is_long else nullcontext():
                self.strip(strip)
        self.height = self.y + MARGIN
        return self.canvas.written(self.height)

    def overview_alone(self, link_of=None):
        """The overview, as an SVG. `link_of` gives what a stretch leads to."""
        self.begin(with_legend=False)
        self.overview(link_of)
        return self.canvas.written(self.y + MARGIN)

    def overview(self, link_of):
        """Draws the overview."""
        found = Overview(self.lanes, self.lines, self.clock, self.width)
        with self.canvas.group(id=f"{self.name}overview"):
            self.y = found.draw(self.canvas, self.y, self.title(), link_of) + STRIP_GAP

    def place_of(self, stretch):
        """In which strip a stretch begins."""
        return bisect.bisect_right([strip.first for strip in self.strips], stretch.first) - 1

    def strip_of(self, stretch):
        """What leads to the strip in which a stretch begins."""
        return f"#{self.name}{strip_name(self.strips[self.place_of(stretch)])}"

    def sheets(self):
        """The strips of each page of a sheet's form, as many as fit; the legend stands on the first."""
        self.begin()
        found, y = [], self.y
        for strip in self.strips:
            height = self.height_of(strip)
            if not found or y + height > PAGE_HEIGHT:
                y = float(MARGIN) if found else y
                found.append([])
            found[-1].append(strip)
            y += height
        return found

    def pages(self, lead=None):
        """These pages; above the strips of each stands what `lead` gives for its place, pairs of words and the names
        that they lead to, where there is one."""
        for place, strips in enumerate(self.sheets()):
            self.begin(with_legend=place == 0)
            if lead is not None:
                self.lead(lead(place))
            for strip in strips:
                with self.canvas.group(id=self.name + strip_name(strip)):
                    self.strip(strip)
            yield self.canvas.written(max(self.y + MARGIN, PAGE_HEIGHT))

    def lead(self, words):
        """Words beside each other that lead elsewhere."""
        x = float(MARGIN)
        for text, target in words:
            with self.canvas.link(target):
                self.canvas.text(x, self.y + TEXT, text, TEXT, fill=LINK if target else PALE)
            x += text_width(text, TEXT) + 18
        self.y += TEXT + 10

    def page_of(self, sheets, stretch):
        """The place of the page on which a stretch begins."""
        ends = list(itertools.accumulate(map(len, sheets)))
        return bisect.bisect_right(ends, self.place_of(stretch))

    def begin(self, with_legend=True):
        """A new canvas, with the words above all."""
        self.canvas, self.y = Canvas(self.width), float(MARGIN)
        self.canvas.rectangle(0, 0, self.width, 1_000_000, GROUND)
        if with_legend:
            self.headline()
            self.legend()

    def title(self):
        """Of how much of the trace the picture is."""
        ticks = sum(line.kind == "T" for line in self.lines)
        length = self.clock.length(self.lines) if self.clock.is_known else 0
        taken = f", {length:.1f} s" if length else ""
        begun = "1 beacon interval" if ticks == 1 else f"{ticks} beacon intervals"
        return f"Lines {self.lines[0].number} to {self.lines[-1].number} of the trace{taken}, {begun}"

    def headline(self):
        """What the picture is of."""
        for text in wrapped(self.title(), HEAD, self.width - 2 * MARGIN, "bold"):
            self.canvas.text(MARGIN, self.y + HEAD, text, HEAD, weight="bold")
            self.y += HEAD + 5
        self.y += 5
        for lane in self.lanes:
            section = lane.section
            told = (f"{section.name} · {section.bssid.hex(':')} · events {section.events}, clock {section.clock}, "
                    f"unread {section.unread}, lost {section.lost}, kept {section.kept}")
            for text in wrapped(told, TEXT, self.width - 2 * MARGIN):
                self.canvas.text(MARGIN, self.y + TEXT, text, TEXT)
                self.y += TEXT + 5
        self.y += 4

    def legend(self):
        """What the shapes mean: those that occur."""
        used = {mark.what for lane in self.lanes for line in self.lines for mark in lane.marks_at(line.number)}
        letters = {mark.letter for lane in self.lanes for line in self.lines for mark in lane.marks_at(line.number)}
        states = {span.state for lane in self.lanes for span in lane.spans
                  if any(strip.overlaps(span.begins, span.ends) for strip in self.strips)}
        entries = [("state", state, state) for state in STATES if state in states]
        entries += [("letter", letter, name) for letter, name in LETTERS if letter in letters]
        entries += [("mark", what, name) for what, name in MEANINGS.items()
                    if what in used and what not in ("answered", "left")]
        texts = {mark.text for lane in self.lanes for line in self.lines for mark in lane.marks_at(line.number)
                 if mark.what == "delivered"}
        entries += [("mark", "delivered", "more: its frame says More Data")] * (MORE in texts)
        entries += [("kept bar", "", "as long as it is kept")] * ("kept" in used)
        entries += [("roaming", "", "in two networks")] * any(
            strip.overlaps(roaming.begins, roaming.ends) for roaming in self.roaming for strip in self.strips)
        entries += [("quiet", "", "quiet: nothing new")] * any(column.is_quiet for strip in self.strips
                                                               for column in strip.columns)
        x = float(MARGIN)
        for kind, what, name in entries:
            width = 22 + text_width(name, SMALL) + 14
            if x > MARGIN and x + width > self.width - MARGIN:
                x, self.y = float(MARGIN), self.y + 19
            self.legend_entry(x, self.y + 8, kind, what)
            self.canvas.text(x + 22, self.y + 11.5, name, SMALL)
            x += width
        self.y += 19 + STRIP_GAP

    def legend_entry(self, x, y, kind, what):
        """One shape of the legend."""
        with self.canvas.group(data_legend=what or kind):
            if kind == "state":
                self.canvas.rectangle(x, y - BAR / 2, 17, BAR, STATES[what])
            elif kind == "letter":
                self.circle(x + 8, y, what, "left" if what == "D" else "answered")
            elif kind == "kept bar":
                self.canvas.rectangle(x, y - 1.5, 17, KEPT_BAR, ORANGE)
            elif kind == "roaming":
                self.canvas.line(x + 8, y - 7, x + 8, y + 7, PURPLE, 1.6, stroke_dasharray="3 2")
            elif kind == "quiet":
                self.canvas.rectangle(x, y - 7, 17, 14, QUIET)
            elif what in CIRCLED:
                self.circle(x + 8, y, {"turned away": "U", NOTHING: ""}.get(what, "A"), what)
            else:
                if what in ARROWS:
                    self.canvas.line(x, y, x + 8, y, ARROWS[what], 1.2)
                self.shape(x + 9, y, what, 0)

    def rows_of(self, lane, place, strip):
        """The rows of a network in a strip, from top to bottom: those in which something happens, then other stations;
        how many stations have none though they are known, and how many more have none for want of room."""
        acting = {row for column in strip.columns for item in column.items.get(place, ())
                  for row in (item.row, item.sender) if row is not None}
        here = [span for span in lane.spans if strip.overlaps(span.begins, span.ends)]
        waiting = {kept.whom for kept in lane.keepings
                   if lane.shows(kept.whom) and strip.overlaps(kept.begins, kept.ends)}
        waiting |= {span.station for span in here if strip.has(span.begins) or strip.has(span.ends)}
        standing = {span.station for span in here}
        idle = standing if strip is self.strips[0] or lane.chosen else set()
        ranks = {row: rank for rank, rows in ((2, idle), (1, waiting), (0, acting)) for row in rows}
        stations = sorted((row for row in ranks if isinstance(row, bytes)), key=lambda row: (ranks[row], row))
        shown, left_out = stations[:self.most_stations], stations[self.most_stations:]
        has_others = OTHERS in acting or any(ranks[row] < 2 for row in left_out)
        with_news = [BEACONS] * (BEACONS in acting) + [row for row in shown if ranks[row] < 2]
        with_news += [row for row in (GROUP, WIRE) if row in ranks] + [OTHERS] * has_others
        rows = with_news + [row for row in shown if ranks[row] == 2]
        return rows, len(standing - ranks.keys()), len(left_out)

    def height_of(self, strip):
        """How high a strip is."""
        rows = [len(self.rows_of(lane, place, strip)[0]) for place, lane in enumerate(self.lanes)]
        return AXIS + sum(TITLE + ROW * count + LANE_GAP for count in rows) + STRIP_GAP

    def strip(self, strip):
        """One strip: its axis, its lanes, and what joins them."""
        top = self.y
        self.axis(strip)
        self.y += AXIS
        where = []
        heights = [TITLE + ROW * len(self.rows_of(lane, place, strip)[0]) + LANE_GAP
                   for place, lane in enumerate(self.lanes)]
        self.background(strip, top + AXIS, sum(heights))
        for place, lane in enumerate(self.lanes):
            where.append(self.lane(lane, place, strip))
        for number, roaming in enumerate(self.roaming):
            self.join(roaming, strip, where, LEFT - 4 - 3 * (number % BRACKETS))
        self.y += STRIP_GAP

    def axis(self, strip):
        """Times, and the numbers of lines, as many as have room; a quiet stretch says how long it is."""
        y = self.y
        name = self.clock.name if self.clock.is_known else ""
        for baseline, label in ((y + 9, name), (y + 20, "line"))[not name:]:
            self.canvas.text(LEFT - NAME_END, baseline, label, SMALL, anchor="end", fill=PALE)
        taken = [[], []]
        for column in strip.columns:
            if column.is_quiet:
                x = LEFT + column.x + column.width / 2
                for place, label in enumerate(column.labels):
                    half = text_width(label, SMALL) / 2
                    taken[place].append((x - half - 4, x + half + 4))
                    self.canvas.text(x, y + 9 + 11 * place, label, SMALL, anchor="middle", fill=PALE)
        before = None
        for column in strip.columns:
            if column.is_quiet:
                continue
            x, time = LEFT + column.x + 2, self.clock.text(column.lines[0])
            if time != before and self.label(x, y + 9, time, taken[0]):
                before = time
            self.label(x, y + 20, str(column.lines[0].number), taken[1])

    def label(self, x, y, text, taken):
        """A label of the axis, where there is room for it."""
        end = x + text_width(text, SMALL)
        if not text or end > self.width - 2 or any(begin < end + 4 and x < other for begin, other in taken):
            return False
        taken.append((x, end + 4))
        self.canvas.text(x, y, text, SMALL)
        return True

    def background(self, strip, top, height):
        """Quiet stretches, and where beacon intervals begin."""
        for column in strip.columns:
            x = LEFT + column.x
            if column.is_quiet:
                with self.canvas.group(f"lines {column.numbers}: nothing new", data_lines=column.numbers,
                                       data_what="quiet"):
                    self.canvas.rectangle(x + 1, top, column.width - 2, height, QUIET)
            elif column.lines[0].kind == "T":
                x += PAD / 2 + SLOT / 2
                self.canvas.line(x, top, x, top + height, RULE, 0.8)

    def lane(self, lane, place, strip):
        """One network in a strip: the height of the middle of each of its rows."""
        rows, without_news, left_out = self.rows_of(lane, place, strip)
        self.canvas.text(MARGIN, self.y + 12, lane.name, TEXT, weight="bold", of="name")
        more = [f"{without_news} station{'s' * (without_news > 1)} without news"] * (without_news > 0)
        more += [f"{left_out} stations not shown"] * (left_out > 0)
        more = ", ".join(more or ["nothing here"] * (not rows))
        if more:
            x = max(LEFT + 6, MARGIN + text_width(lane.name, TEXT, "bold") + 10)
            self.canvas.text(x, self.y + 12, more, SMALL, fill=PALE)
        self.canvas.line(MARGIN, self.y + 0.5, self.width - MARGIN, self.y + 0.5, RULE, 0.8)
        middles = {row: self.y + TITLE + ROW * number + MIDDLE for number, row in enumerate(rows)}
        roaming = {other.station for other in self.roaming if strip.overlaps(other.begins, other.ends)
                   and place in other.places}
        for row, y in middles.items():
            self.canvas.line(LEFT, y, LEFT + strip.width, y, GRID)
            name = FIXED_ROWS.get(row) or row.hex(":")
            self.canvas.text(LEFT - NAME_END, y + 4, name, TEXT, anchor="end", fill=PURPLE if row in roaming else DARK,
                             of="name")
        for span in lane.spans:
            if span.station in middles and strip.overlaps(span.begins, span.ends):
                self.state(lane, span, strip, middles[span.station])
        self.kept_bars(lane, place, strip, middles)
        for column in strip.columns:
            for item in column.items.get(place, ()):
                self.item(lane, column, item, middles)
        self.y += TITLE + ROW * len(rows) + LANE_GAP
        return middles

    def state(self, lane, span, strip, y):
        """A station's state, from one line up to another."""
        begins, ends = strip.x_of(span.begins), strip.x_of(span.ends)
        until = span.ends or "the end"
        with self.canvas.group(f"{span.station.hex(':')}: {span.state}, lines {span.begins} to {until}",
                               data_network=lane.section.bssid.hex(), data_what=span.state,
                               data_row=span.station.hex(), data_span=f"{span.begins}-{span.ends or 'end'}"):
            self.canvas.rectangle(LEFT + begins, y - BAR / 2, ends - begins, BAR, STATES[span.state])

    def kept_bars(self, lane, place, strip, middles):
        """A bar for each unit that is kept, below its row's middle, in a few tracks."""
        free = {}
        for kept in lane.keepings:
            if not strip.overlaps(kept.begins, kept.ends):
                continue
            row = kept.whom if kept.whom in middles else OTHERS
            if row not in middles:
                continue
            tracks = free.setdefault(row, [0.0] * TRACKS)
            begins, ends = strip.x_of(kept.begins), strip.x_of_mark(kept.ends, place, kept.how, row)
            track = next((place for place, end in enumerate(tracks) if end <= begins), TRACKS - 1)
            tracks[track] = max(tracks[track], ends)
            y = middles[row] - MIDDLE + KEPT_AT + KEPT_PITCH * track
            sender = kept.sender.hex(":") if isinstance(kept.sender, bytes) else kept.sender
            with self.canvas.group(f"unit from {sender}, kept from line {kept.begins} to {kept.ends or 'the end'}"
                                   f"{', then ' + kept.how if kept.how else ''}",
                                   data_network=lane.section.bssid.hex(), data_what="keeping",
                                   data_row=name_of(kept.whom), data_span=f"{kept.begins}-{kept.ends or 'end'}"):
                self.canvas.rectangle(LEFT + begins, y, max(ends - begins, 2), KEPT_BAR, ORANGE)

    def item(self, lane, column, item, middles):
        """A mark, the arrow to it, and the words beside it."""
        row = item.row if item.row in middles else OTHERS
        y, left = middles[row], LEFT + column.x + PAD / 2 + item.x
        x = left + (SLOT if item.what not in CIRCLED else CIRCLE_SLOT - 2) / 2
        title = f"{'lines' if len(column.lines) > 1 else 'line'} {column.numbers}: {mark_text(item)}"
        sender = item.sender if item.sender in middles and item.sender != row else None
        with self.canvas.group(title, data_network=lane.section.bssid.hex(), data_what=item.what,
                               data_row=name_of(item.row), data_lines=column.numbers, data_letter=item.letter,
                               data_sender=name_of(sender) if sender is not None else ""):
            from_above = 0
            if sender is not None and item.what in ARROWS:
                from_above = 1 if middles[sender] < y else -1
                self.canvas.line(x, middles[sender], x, y - from_above * MARK, ARROWS[item.what], 1.2)
                self.canvas.add("circle", cx=x, cy=middles[sender], r=2.2, fill=ARROWS[item.what])
            if item.what in CIRCLED:
                self.circle(x, y, item.letter, item.what)
            else:
                self.shape(x, y, item.what, from_above)
            if item.label:
                place = left + item.width - text_width(item.label, SMALL) - 2
                self.canvas.text(place, y + 3.5, item.label, SMALL,
                                 fill={"refused": RED, "turned away": PURPLE}.get(item.what, DARK))

    def circle(self, x, y, letter, what):
        """A request, by its letter."""
        face, edge = {"refused": (RED, RED), "turned away": (PURPLE, PURPLE), "left": ("white", RED),
                      NOTHING: ("none", DARK)}.get(what, ("white", DARK))
        dashes = {"stroke_dasharray": "2.5 2"} if what == NOTHING else {}
        self.canvas.add("circle", cx=x, cy=y, r=RADIUS, fill=face, stroke=edge, stroke_width=1.2, **dashes)
        if letter:
            self.canvas.text(x, y + 3.5, letter, 9.5, anchor="middle", weight="bold",
                             fill="white" if face not in ("white", "none") else edge)

    def shape(self, x, y, what, from_above):
        """A mark that isn't a circle."""
        m = MARK
        corners = (x, y - m - 1), (x + m + 1, y), (x, y + m + 1), (x - m - 1, y)
        diamond = f"M{' L'.join(f'{across:.1f} {down:.1f}' for across, down in corners)} Z"
        tip = y + (m if from_above >= 0 else -m)
        base = y - (m if from_above >= 0 else -m)
        triangle = f"M{x - m:.1f} {base:.1f} L{x + m:.1f} {base:.1f} L{x:.1f} {tip:.1f} Z"
        if what in BEACON_KINDS:
            self.canvas.path(diamond, DARK if what == "DTIM beacon" else "white", DARK)
        elif what in ("sent", "wired"):
            self.canvas.path(triangle, YELLOW if what == "sent" else GREEN, DARK, stroke_width=0.8)
        elif what in ("kept", "delivered"):
            self.canvas.rectangle(x - m + 0.5, y - m + 0.5, 2 * m - 1, 2 * m - 1,
                                  "white" if what == "kept" else ORANGE, stroke=ORANGE, stroke_width=1.4)
        elif what in ("lost", "dropped"):
            self.canvas.path(f"M{x - 4:.1f} {y - 4:.1f} L{x + 4:.1f} {y + 4:.1f} M{x - 4:.1f} {y + 4:.1f} "
                             f"L{x + 4:.1f} {y - 4:.1f}", "none", RED if what == "lost" else GREY, stroke_width=2.4)
        else:
            self.canvas.path(f"M{x - 4:.1f} {y:.1f} H{x + 4:.1f} M{x - 2:.1f} {y - 3.5:.1f} L{x + 2:.1f} {y + 3.5:.1f} "
                             f"M{x - 2:.1f} {y + 3.5:.1f} L{x + 2:.1f} {y - 3.5:.1f}", "none", GREY, stroke_width=1.3)

    def join(self, roaming, strip, where, left):
        """A station's rows in two networks, as long as it is associated in both; `left` is where this is shown beside
        their names."""
        rows = [where[place].get(roaming.station) for place in roaming.places]
        if None in rows or not strip.overlaps(roaming.begins, roaming.ends):
            return
        top, bottom = min(rows), max(rows)
        title = f"{roaming.station.hex(':')} is associated in both networks from line {roaming.begins}"
        with self.canvas.group(title, data_what="roaming", data_row=roaming.station.hex(),
                               data_span=f"{roaming.begins}-{roaming.ends or 'end'}"):
            self.canvas.line(left, top, left, bottom, PURPLE, 1.6, stroke_dasharray="3 2")
            if strip.has(roaming.begins):
                x = LEFT + strip.x_of(roaming.begins)
                self.canvas.line(x, top + RADIUS, x, bottom - RADIUS, PURPLE, 1.6, stroke_dasharray="3 2")


def name_of(row):
    """A row, as an attribute has it."""
    return row.hex() if isinstance(row, bytes) else str(row)


def strip_name(strip):
    """What a strip is called, so that links find it."""
    return f"strip-{strip.first}"
