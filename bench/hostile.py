"""What bench/fuzz gives to the program: traces that are made to break it. All of it is drawn from a seed, or
enumerated, so that each run is the same."""
import random
from typing import NamedTuple

from lines import (BROADCAST, HOST, RATES, SNAP, TICK, Line, air, association, authentication, data, deauthentication,
                   disassociation, element, management, null, poll, probe, reassociation, typed, wired)
from model import MOST_AID, MOST_OCTETS, NetworkConfig, Radio, RadioConfig, elements
from records import HEADER_LEN as RECORD_HEADER_LEN
from records import NOBODY, cut, record

BSSID, STATION, OTHER = (bytes.fromhex(digits) for digits in ("020000000001", "02aa00000001", "02aa00000002"))
NAME = b"lab"
ASSOCIATION_FIELDS = bytes.fromhex("01000a00")
FIXED_FIELDS = {4: b"", 0: ASSOCIATION_FIELDS, 2: ASSOCIATION_FIELDS + HOST}
MOST_BODY, MOST_ELEMENT, UNKNOWN_ELEMENT = 2304, 255, 221
HEADER_LEN = 24
# the first octets of Frame Control of the frames that are read
READ = {0x00, 0x20, 0x40, 0xA0, 0xB0, 0xC0, 0xA4, 0x08, 0x48}
EDGE_SIZES = (*range(10), 45, 46, 47, *range(254, 258), *range(1498, 1510), *range(2294, 2307))
EDGE_KINDS = (0, 1, 2, 3, 4, 45, 46, 1499, 1500, 1501, 1535, 1536, 1537, 0x0800, 0xFFFF)


class Case(NamedTuple):
    """A run: a configuration, a trace text or records, and how many lines, texts or records they are."""

    config: RadioConfig
    text: bytes
    count: int
    is_records: bool = False


def case_of(config, lines):
    """A run that counts for its lines."""
    return Case(config, "".join(f"{line.text()}\n" for line in lines).encode(), len(lines))


def records_case(config, octets):
    """A run over octets as records, that counts for these, and for one that is cut."""
    whole, rest = cut(octets)
    return Case(config, octets, len(whole) + bool(rest), True)


def one_network(**limits):
    """A configuration of one network."""
    return RadioConfig([NetworkConfig(BSSID, **limits)])


def joined(station):
    """The lines of a station that joins the one network."""
    return [air(authentication(BSSID, station)), air(association(BSSID, station, NAME))]


def frame_controls():
    """Every Frame Control over one header and one body, which is right for each kind of frame. Those that are read come
    from a station that is associated and dozes, for which a unit is kept, whatever came before."""
    body = bytes.fromhex("0000 0100") + element(UNKNOWN_ELEMENT, bytes(4)) + element(0, NAME) + RATES
    rest = bytes.fromhex("01c0") + BSSID + STATION + BSSID + bytes(2) + body
    before = [*joined(STATION), air(null(BSSID, STATION, True)), wired(BSSID, STATION)]
    for first in range(256):
        lines = list(before)
        for second in range(256):
            lines += before if first in READ else []
            lines.append(air(bytes([first, second]) + rest))
        yield case_of(one_network(), lines)


def filler(size):
    """Elements without meaning that take exactly this many octets: none, or at least two."""
    octets = b""
    while size:
        part = min(size, MOST_ELEMENT + 2)
        part -= size - part == 1
        octets += element(UNKNOWN_ELEMENT, bytes(part - 2))
        size -= part
    return octets


def edge_elements(name, most):
    """Elements and what is nearly elements, with lengths at the edges: of one element, and of this many octets."""
    good = element(0, name) + RATES
    for identifier in (0, 1, 3, 5, 50, UNKNOWN_ELEMENT):
        for length in (0, 1, 2, 3, 31, 32, 33, 254, 255):
            for there in range(max(length - 1, 0), length + 2):
                octets = bytes([identifier, length]) + (name * 8)[:there]
                yield from (octets, octets + good, good + octets)
    for size in range(most - 2, most + 3):
        for length in (0, 5, 253, 254):
            for told in range(max(length - 1, 0), length + 2):
                last = bytes([UNKNOWN_ELEMENT, told]) + bytes(length)
                between = filler(size - len(good) - len(last))
                yield from (good + between + last, between + good + last)


def elements_at_edges():
    """Each kind of request that has elements, over such elements."""
    for name in (NAME, b"x" * 32):
        for subtype, fixed in FIXED_FIELDS.items():
            lines = [air(authentication(BSSID, STATION))]
            for octets in edge_elements(name, MOST_BODY - len(fixed)):
                to = BROADCAST if subtype == 4 else BSSID
                lines.append(air(management(subtype, to, STATION, fixed + octets)))
            yield case_of(one_network(ssid=name.decode()), lines)


def cut_frames():
    """Each kind of request, cut at each length and with an octet more; and so a wired frame."""
    of_all = [probe(STATION, NAME), authentication(BSSID, STATION), association(BSSID, STATION, NAME),
              reassociation(BSSID, STATION, NAME), null(BSSID, STATION, True), poll(BSSID, STATION, 1),
              data(BSSID, STATION, OTHER, typed(b"\x5a"), True), disassociation(BSSID, STATION),
              deauthentication(BSSID, STATION)]
    for octets in of_all:
        cut = [air(octets[:size]) for size in range(len(octets))]
        yield case_of(one_network(), joined(STATION) + joined(OTHER) + cut + [air(octets), air(octets + b"\0")])
    frame = wired(BSSID, STATION, payload=b"\x5a", kind=bytes([0, 1])).octets
    yield case_of(one_network(), joined(STATION) + [Line("W", frame[:size], BSSID) for size in range(len(frame) + 1)])


def edge_bodies():
    """Bodies of units with sizes at the edges, with and without a type."""
    for size in EDGE_SIZES:
        yield bytes([0x5A] * size)
        for kind in (0x05FF, 0x0600, 0x0800):
            if size >= len(SNAP) + 2:
                yield typed(bytes(size - len(SNAP) - 2), kind.to_bytes(2, "big"))
        yield (SNAP + bytes([0x5A] * size))[:size]


def edge_frames(to):
    """Lines of wired frames whose types, lengths and payloads are at the edges."""
    for kind in EDGE_KINDS:
        sizes = {*EDGE_SIZES, kind - 1, kind, kind + 1, MOST_OCTETS - 14}
        for size in sorted(size for size in sizes if 0 <= size <= MOST_OCTETS - 14):
            yield wired(BSSID, to, payload=bytes([0x5A] * size), kind=kind.to_bytes(2, "big"))


def units_at_edges():
    """Units with such bodies, from a station and from the wire, to a station that dozes, to one that is active, to all
    and to the host; then those that were kept leave."""
    wakes = [air(null(BSSID, OTHER, False)), TICK]
    for doze in (False, True):
        before = joined(STATION) + joined(OTHER) + [air(null(BSSID, OTHER, doze))]
        for to in (HOST, STATION, OTHER, BROADCAST):
            units = [air(data(BSSID, STATION, to, body)) for body in edge_bodies()]
            yield case_of(one_network(quota=100_000), before + units + wakes)
            yield case_of(one_network(quota=100_000), before + list(edge_frames(to)) + wakes)


def crowds():
    """Beacons that tell of units for stations all over the bitmap, in a full network; and more beacons than there are
    sequence numbers, with timestamps of more than 32 bits."""
    draw = random.Random("crowds")
    stations = [bytes([2, 0xAA, 0, 0]) + aid.to_bytes(2, "big") for aid in range(1, MOST_AID + 1)]
    lines = [line for station in stations for line in joined(station)]
    edges = [{1}, {7}, {8}, {15}, {16}, {17}, {31}, {32}, {255, 256}, {2000}, {2006}, {2007}, {1, 2007}, {16, 2007}]
    sizes = (2, 2, 2, 2, 3, 3, 3, 3, 10, 50)
    for aids in [*edges, *(set(draw.sample(range(1, MOST_AID + 1), size)) for size in sizes)]:
        dozing = [stations[aid - 1] for aid in sorted(aids)]
        lines += [air(null(BSSID, station, True)) for station in dozing]
        lines += [wired(BSSID, station, payload=b"\x5a") for station in (*dozing, BROADCAST)]
        lines += [TICK, TICK, *(air(null(BSSID, station, False)) for station in dozing)]
    yield case_of(one_network(max_stations=MOST_AID, max_known=MOST_AID, quota=100_000, dtim=3), lines)
    config = one_network(dtim=255)
    config.interval = 65_535
    yield case_of(config, [TICK] * 5_000)


def drawn_config(draw):
    """A configuration without a fault: limits that are small, so that they are met, or as large as they may be."""
    shared = draw.choice(("lab", "Caf\u00e9"))
    names = (shared, "x", "y" * 32, "\u4e2d" * 10, 'a"b\\c\n', shared)
    networks = []
    for number in range(draw.choice((1, 1, 1, 1, 1, 2, 2, 3, 8, 16))):
        most = draw.choice((1, 2, 8, 8, 2007))
        rates = draw.sample(range(1, 109), draw.choice((1, 4, 8, 9, 16)))
        basic = draw.sample(range(len(rates)), min(draw.choice((0, 1, 2)), len(rates)))
        networks.append(NetworkConfig(
            bytes([2, 0, 0, 0, draw.choice((0, 1, 2)), number + 1]), draw.choice(names),
            bytes(rate | (0x80 if place in basic else 0) for place, rate in enumerate(rates)),
            draw.choice((1, 1, 2, 3, 255)), most, max(most, draw.choice((2, 4, 10_000, 10_000))),
            draw.choice((0, 1, 2, 8, 8, 100_000)), draw.choice((1, 10, 30, *[1_000_000] * 9)),
            draw.random() < 0.8, draw.random() < 0.3))
    return RadioConfig(networks, draw.choice((1, 6, 14)), draw.choice((1, 100, 65535)), draw.choice((1, 2, 64, 4096)))


class Story:
    """A trace while it is drawn. The model takes each line, so that stations know their identifiers and modes."""

    def __init__(self, draw):
        self.draw = draw
        self.config = drawn_config(draw)
        self.radio = Radio(self.config)
        self.stations = [bytes([2, 0xAA, 0, 0, 0, number]) for number in range(1, draw.choice((2, 3, 5)) + 1)]
        self.addresses = [HOST, BROADCAST, bytes.fromhex("01005e000001"), bytes(6), *self.stations,
                          *(network.bssid for network in self.config.networks)]

    def line(self, hostile):
        """The next line, taken by the radio; it is made to break by this chance."""
        line = self.valid()
        if line.word != "T" and self.draw.random() < hostile:
            line = line._replace(octets=self.mutated(line))
        self.radio.take(line)
        return line

    def valid(self):
        """A line of a well-behaved sender: stations that are not associated mostly try to be."""
        draw = self.draw
        network, address = draw.choice(self.radio.networks), draw.choice(self.stations)
        station = network.stations.get(address)
        if draw.random() < 0.06:
            return TICK
        if draw.random() < 0.25:
            return wired(network.bssid, self.destination(), draw.choice((HOST, address)),
                         draw.randbytes(draw.randrange(20)), draw.choice((1, 5, 0x0600, 0x0800)).to_bytes(2, "big"))
        if draw.random() < 0.8 and (station is None or station.aid is None):
            return air(self.join(network, address, station))
        return air(self.request(network, address, station))

    def destination(self):
        """Where a unit goes: mostly to a station."""
        return self.draw.choice(self.stations if self.draw.random() < 0.6 else self.addresses)

    def join(self, network, address, station):
        """What a station sends that is to be associated."""
        if station is None:
            return authentication(network.bssid, address)
        ask = self.draw.choice((association, association, reassociation))
        return ask(network.bssid, address, network.name, self.rates(network), self.draw.choice((0, 10, 65535)))

    def rates(self, network):
        """The elements of a station's rates: mostly those of the network."""
        rates = network.config.rates if self.draw.random() < 0.9 else bytes(self.draw.sample(range(1, 109), 8))
        return element(1, rates[:8]) + (element(50, rates[8:]) if rates[8:] else b"")

    def request(self, network, address, station):
        """Any request of a station."""
        draw, bssid = self.draw, network.bssid
        doze = draw.random() < (0.9 if station and station.doze else 0.3)
        aid = station.aid if station and station.aid and draw.random() < 0.9 else draw.choice((0, 1, 2, 2007, 2008))
        body = draw.choice((typed(draw.randbytes(draw.randrange(9))), draw.randbytes(draw.randrange(9)), b""))
        drawn = draw.randrange(100)
        if drawn < 10:
            return probe(address, draw.choice((b"", network.name, b"other")), self.rates(network))
        if drawn < 16:
            return authentication(bssid, address, draw.choice((0, 0, 0, 1)), draw.choice((1, 1, 1, 2)))
        if drawn < 20:
            return self.join(network, address, station)
        if drawn < 23:
            return disassociation(bssid, address)
        if drawn < 26:
            return deauthentication(bssid, address)
        if drawn < 45:
            return null(bssid, address, doze)
        if drawn < 65:
            return poll(bssid, address, aid)
        return data(bssid, address, self.destination(), body, doze)

    def mutated(self, line):
        """The octets of a line after one to three changes."""
        octets = line.octets
        for _ in range(self.draw.choice((1, 1, 2, 3))):
            octets = self.draw.choice((self.by_bit, self.by_bit, self.by_octet, self.by_length, self.by_address,
                                       self.by_element if line.word == "A" else self.by_kind))(octets, line.word)
        return octets[:MOST_OCTETS]

    def by_bit(self, octets, _word):
        """With one bit the other way."""
        if not octets:
            return octets
        place = self.draw.randrange(len(octets))
        return put(octets, place, bytes([octets[place] ^ 1 << self.draw.randrange(8)]))

    def by_octet(self, octets, _word):
        """With another octet somewhere."""
        if not octets:
            return octets
        return put(octets, self.draw.randrange(len(octets)), bytes([self.draw.choice((0, 1, 127, 128, 254, 255))]))

    def by_length(self, octets, _word):
        """Cut, or longer, by a little or up to the limits."""
        draw = self.draw
        if draw.random() < 0.5:
            return octets[:draw.randrange(len(octets) + 1)]
        most = draw.choice((len(octets) + draw.randrange(40), HEADER_LEN + MOST_BODY - 1, HEADER_LEN + MOST_BODY,
                            HEADER_LEN + MOST_BODY + 1, 14 + 1500, 14 + 2296, 14 + 2297, MOST_OCTETS))
        return octets + draw.randbytes(max(most - len(octets), 0))

    def by_address(self, octets, word):
        """With another address in one of its places."""
        return put(octets, self.draw.choice((4, 10, 16) if word == "A" else (0, 6)), self.draw.choice(self.addresses))

    def by_kind(self, octets, _word):
        """A wired frame with another type or length: at the edges, or near the one that it has."""
        kind = self.draw.choice((*EDGE_KINDS, *(max(len(octets) - 14 + more, 0) for more in (-1, 0, 1))))
        return put(octets, 12, kind.to_bytes(2, "big"))

    def by_element(self, octets, _word):
        """With one of its elements changed, where it has some."""
        draw = self.draw
        start = HEADER_LEN + len(FIXED_FIELDS.get(octets[0] >> 4, b"")) if octets else 0
        listed = elements(octets[start:])
        if not listed:
            return octets
        parts = [element(*pair) for pair in listed]
        place = draw.randrange(len(parts))
        identifier, body = listed[place]
        longer = draw.choice((body + draw.randbytes(draw.randrange(40)), draw.randbytes(draw.choice((32, 33, 255)))))
        parts[place] = draw.choice((
            b"", parts[place] * 2, element(draw.choice((0, 1, 3, 5, 50, UNKNOWN_ELEMENT)), body),
            bytes([identifier, max(len(body) - 1, 0)]) + body, bytes([identifier, len(body) + 1 & 255]) + body,
            element(identifier, longer[:MOST_ELEMENT]), element(identifier, b""), parts[place] + parts[0]))
        if draw.random() < 0.3:
            draw.shuffle(parts)
        return octets[:start] + b"".join(parts)


def put(octets, place, others):
    """Octets with others in the place of those that stood there, as far as they reach."""
    if place >= len(octets):
        return octets
    return (octets[:place] + others + octets[place + len(others):])[:len(octets)]


def drawn_lines(seed, count):
    """This many lines in traces of up to 200, of which about half are made to break."""
    draw = random.Random(f"lines {seed}")
    while count > 0:
        story = Story(draw)
        hostile = draw.choice((0, 0.3, 0.5, 0.9))
        lines = [story.line(hostile) for _ in range(min(count, draw.randint(1, 200)))]
        count -= len(lines)
        yield case_of(story.config, lines)


PIECES = (b" ", b"  ", b"\t", b"\r", b"\n", b"\r\n", b"#", b"A", b"W ", b"T", b"-", b":", b"0", b"f", b"F", b"g", b"\0",
          b"\x80", b"\xff", b"\xc3\xa9", b"\xef\xbb\xbf")
HOSTILE_LINES = (
    b"", b" ", b"A", b"A ", b"A  ", b"W", b"W ", b"T ", b"T  \r", b"T \r ", b"T\r\r", b" T", b"T T", b"TT", b"t",
    b"#\r", b"a 00", b"A00", b"A\t00", b"A 00\t", b"A 0", b"A 0 0", b"A 0g", b"A 0x00", b"A 00 # remark", b"---", b"#",
    b" #", b"W 02:00:00:00:00:01", b"W  02:00:00:00:00:01  00", b"W 02:00:00:00:00:01 0", b"W 02:00:00:00:00:01\t00",
    b"W 02:00:00:00:00:1 00", b"W 02-00-00-00-00-01 00", b"W 020000000001 00", b"W 02:00:00:00:00:0g 00",
    b"W 02:00:00:00:00:01: 00", b"W 02:00:00:00:00:f9 0", b"W +2:00:00:00:00:01 00", b"A " + b"00" * MOST_OCTETS,
    b"A " + b"00" * (MOST_OCTETS + 1), b"A " + b"0" * (2 * MOST_OCTETS + 1), b"A " + b" 0" * (2 * MOST_OCTETS),
    b"W 02:00:00:00:00:01 " + b"00" * (MOST_OCTETS + 1), b"W 02:00:00:00:00:01 " + b"5a" * MOST_OCTETS)


def changed_text(draw, text):
    """A trace text after a change that its lines know nothing of."""
    place = draw.randrange(len(text) + 1)
    end = min(place + draw.choice((1, 1, 2, 30)), len(text))
    lines = text.split(b"\n")
    line = draw.randrange(len(lines))
    hostile = draw.choice(HOSTILE_LINES)
    return draw.choice((
        lambda: text[:place] + draw.choice(PIECES) + text[place:],
        lambda: text[:place] + text[end:],
        lambda: text[:place] + bytes([draw.randrange(256)]) + text[end:],
        lambda: text[:place] + text[place:end] * 2 + text[end:],
        lambda: text[:place],
        lambda: text.removesuffix(b"\n"),
        lambda: text.replace(b"\n", draw.choice((b"\r\n", b" \r\n", b"\r", b"\n\n", b"  \n"))),
        lambda: text.upper(),
        lambda: b"\n".join(lines[:line] + [hostile] + lines[line:]),
        lambda: b"\n".join(lines[:line] + [hostile] + lines[line + 1:]),
        lambda: b"\n".join(lines[:line] + [lines[line].replace(b"0", b"0 ")] + lines[line + 1:]),
    ))()


def drawn_texts(seed, count):
    """This many short trace texts, each changed as a text."""
    draw = random.Random(f"texts {seed}")
    for _ in range(count):
        story = Story(draw)
        lines = [story.line(0.1) for _ in range(draw.randint(0, 12))]
        text = case_of(story.config, lines).text
        for _ in range(draw.choice((1, 1, 2, 3))):
            text = changed_text(draw, text)
        yield Case(story.config, text, 1)


def record_kinds():
    """All kinds of record, with each BSSID that a record may have and others, and with lengths at the edges; and each
    kind that is known, cut at each length."""
    frame = probe(STATION, NAME)
    for bssid in (NOBODY, BSSID, OTHER, BROADCAST):
        for octets in (b"", b"\0", frame, bytes(MOST_OCTETS), bytes(MOST_OCTETS + 1), bytes(0xFFFF)):
            kinds = b"AWTI" if len(octets) > MOST_OCTETS + 1 else bytes(range(256))
            records = [record(bytes([kind]), bssid, octets) for kind in kinds]
            yield records_case(one_network(), b"".join([*records, record(b"I")]))
    wired_frame = wired(BSSID, STATION, payload=b"\x5a").octets
    of_all = record(b"A", NOBODY, frame) + record(b"W", BSSID, wired_frame) + record(b"T") + record(b"I")
    for size in range(len(of_all) + 1):
        yield records_case(one_network(), of_all[:size])


def drawn_records(seed, count):
    """This many lines as records, in inputs of up to 200, with questions for tables among them; of about half of the
    inputs the frames are made to break, of some the records, and some are changed as octets."""
    draw = random.Random(f"records {seed}")
    while count > 0:
        story = Story(draw)
        hostile, broken, changes = draw.choice((0, 0.3, 0.9)), draw.choice((0, 0.05, 0.3)), draw.choice((0, 0, 1, 2))
        size = min(count, draw.randint(1, 200))
        octets = b"".join(drawn_record(story, hostile, broken) for _ in range(size))
        for _ in range(changes):
            octets = changed_octets(draw, octets)
        count -= size
        yield records_case(story.config, octets)


def drawn_record(story, hostile, broken):
    """The record of a line, or the question for the tables; it is broken by this chance."""
    if story.draw.random() < 0.02:
        said = (b"I", NOBODY, b"")
    else:
        line = story.line(hostile)
        said = (line.word.encode(), line.bssid or NOBODY, line.octets)
    return broken_record(story, *said) if story.draw.random() < broken else record(*said)


def broken_record(story, kind, bssid, octets):
    """A record with another kind, BSSID, length or string of octets, or cut."""
    draw = story.draw
    whole = record(kind, bssid, octets)
    told = draw.choice((0, 1, max(len(octets) - 1, 0), len(octets) + 1, len(octets) + RECORD_HEADER_LEN, 0xFFFF))
    return draw.choice((
        lambda: record(draw.choice((b"A", b"W", b"T", b"I", b"O", b"N", b"a", bytes([draw.randrange(256)]))), bssid,
                       octets),
        lambda: record(kind, draw.choice((NOBODY, bytes(5) + b"\1", *story.addresses)), octets),
        lambda: record(kind, bssid, b"\x5a" * draw.choice((0, 1, MOST_OCTETS, MOST_OCTETS + 1, 0xFFFF))),
        lambda: kind + bssid + (told & 0xFFFF).to_bytes(2, "little") + octets,
        lambda: whole[:draw.randrange(len(whole) + 1)],
        lambda: whole * 2,
        lambda: whole + draw.randbytes(draw.randrange(12)),
    ))()


def changed_octets(draw, octets):
    """Octets of records after a change that these know nothing of."""
    place = draw.randrange(len(octets) + 1)
    end = min(place + draw.choice((1, 1, 2, RECORD_HEADER_LEN, 30)), len(octets))
    return draw.choice((
        lambda: octets[:place],
        lambda: octets[:place] + octets[end:],
        lambda: octets[:place] + draw.randbytes(end - place) + octets[end:],
        lambda: octets[:place] + octets[place:end] * 2 + octets[end:],
        lambda: octets[:place] + draw.randbytes(draw.choice((1, 2, RECORD_HEADER_LEN))) + octets[place:],
    ))()
