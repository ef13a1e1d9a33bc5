"""Tests of the status page in a real browser, as a telephone and a desk show it. Where STATUS_PICTURES names a folder,
its pictures are put there."""
import os
import time

from browser import Browser, needs_chromium
from common import ToolTest
from status.demo import demo_of, make_history
from status.document import Untold, complete
from status.history import History
from status.names import Names
from status.server import serve
from statuses import busy, document, network, only_known, station

TELEPHONE, DESK = (390, 844), (1280, 800)
MARKUP = b'<img src=x onerror="x=1"></h2>&amp;'
PICTURES = os.environ.get("STATUS_PICTURES")
IS_WIDER = "document.documentElement.scrollWidth > document.documentElement.clientWidth"
TEXT = "document.body.innerText"
YEAR, DAYS = 365 * 86400.0, 86400.0
NEVER = 3600.0  # so many seconds lie between points of the history: a test adds them itself
WIDTHS = (360, 390, 600, 768, 1024, 1238, 1240, 1280, 1920, 2560)
# Where a text leaves the box that it belongs to or the window, or covers another text of its row; and where cells of a
# row cover each other or leave it.
OVERFLOWS = """(() => {
  const found = [], rows = new Map(), wide = document.documentElement.clientWidth;
  const leaves = (box, room) => box.left < room.left - 1 || box.right > room.right + 1 || box.top < room.top - 1 ||
    box.bottom > room.bottom + 1;
  const covers = (one, other) => one.left < other.right - 1 && other.left < one.right - 1 &&
    one.top < other.bottom - 1 && other.top < one.bottom - 1;
  const apart = (boxes, what) => boxes.forEach((one, place) => boxes.slice(place + 1).forEach(other => {
    if (covers(one[0], other[0])) found.push(what + ': ' + one[1] + ' over ' + other[1]);
  }));
  const walker = document.createTreeWalker(document.body, NodeFilter.SHOW_TEXT);
  for (let node = walker.nextNode(); node; node = walker.nextNode()) {
    const parent = node.parentElement, text = node.textContent.trim();
    if (!text || parent.closest('script, select, noscript') || !parent.checkVisibility()) continue;
    const range = document.createRange();
    range.selectNodeContents(node);
    const room = parent.closest(
      'td, .card, #figures div, #places a, label, header, footer, #lost').getBoundingClientRect();
    const row = parent.closest('tr, #figures div, #find, #places, header, .card > p, li, footer');
    for (const box of Array.from(range.getClientRects()).filter(box => box.width)) {
      if (leaves(box, room) || box.right > wide + 1 || box.left < -1) found.push('leaves its box: ' + text);
      if (row) rows.set(row, [...rows.get(row) || [], [box, text]]);
    }
  }
  for (const boxes of rows.values()) apart(boxes, 'text');
  for (const row of document.querySelectorAll('tbody tr')) {
    if (!row.checkVisibility()) continue;
    const cells = Array.from(row.children, cell => [cell.getBoundingClientRect(), cell.innerText]);
    for (const [box, text] of cells) if (leaves(box, row.getBoundingClientRect())) found.push('leaves its row: ' + text);
    apart(cells, 'cell');
  }
  return found.slice(0, 8);
})()"""


def twenty():
    """Three networks with twenty stations, as a busy evening has."""
    stations = []
    for number in range(1, 21):
        dozes, frames = number % 3 == 0, 3 * 5 ** (number % 7)
        stations.append(station(
            number, since=37.0 * number ** 2, heard=0.1 * number, signal=-28 - 2 * number, dozes=dozes,
            kept=number % 4 if dozes else 0, rate_to=(108, 96, 22, 11)[number % 4], rate_from=(108, 72, 48)[number % 3],
            frames_to=frames, frames_from=frames * 2 // 3, octets_to=frames * 917, octets_from=frames * 71))
    return document(
        network(1, "Gäste ☕".encode(), stations[:12], refusals={"1": 5, "18": 1}),
        network(2, b"office", stations[12:19]),
        network(3, b"devices", [stations[19], *map(only_known, range(300, 318))], wire=None),
        since=93784.5, drops={"the air: frames of data that had waited 50 ms": 3},
        left_out={"the air: sent again, and taken before": 12, "wire1: with a VLAN's tag": 4})


def worst(number):
    """A station with long texts in each column, of another kind for each number."""
    ages = (0.4, 59.0, 280.0, 599.0, 3599.0, 86399.0, 12 * DAYS + 82800, 364 * DAYS + 82800)
    counts = (0, 1, 375, 469_699, 999_999, 1_999_999, 4_930_000_000, 10 ** 9)
    octets = (0, 1, 999, 2_700, 999_949, 10 ** 12, 999_949_999, 10 ** 12)
    place = number % 8
    return station(number, since=ages[7 - place], heard=ages[place], signal=(-30, -100, None)[number % 3],
                   dozes=number % 2 == 0, kept=(0, 12, 99_999)[number % 3], rate_to=(108, 11, 2)[number % 3],
                   rate_from=(11, 96, 108)[number % 3], octets_to=octets[place], octets_from=octets[7 - place],
                   frames_to=counts[place], frames_from=counts[7 - place])


def year(networks, stations):
    """So many networks with so many stations each, after a year."""
    names = (b"guests", "Gäste ☕".encode(), b"W" * 32, b"\xff" * 32)
    counts = {"events": 10 ** 12, "clock": 307_968_750, "unread": 10 ** 9, "lost": 10 ** 9, "kept": 99_999}
    return document(*(network(
        place + 1, names[place % 4], [*(worst(1 + 7 * place + number) for number in range(stations)),
                                      only_known(5000 + place)], counts=counts, refusals={"1": 10 ** 9, "17": 10 ** 9},
        wire=("w" * 15, "eth0.100", None)[place % 3], wire_down=(None, 90_000.0)[place % 2],
        air={"weight": 100, "seconds": 3e6, "waiting": 9_999, "unsent": {"frames of data that had waited 50 ms": 10 ** 9}})
        for place in range(networks)), since=YEAR,
        beacons={"sent": 4_927_500_000, "late_ms_mean": 412.4, "late_ms_worst": 79_000.5, "missed": 10 ** 9},
        drops={"the air: frames of data before 32 younger ones of the same sender": 10 ** 12},
        left_out={"the air: sent again, and taken before": 10 ** 12},
        faults=[{"seconds": 12 * DAYS, "text": "fault " + "line " * 40}])


@needs_chromium
class Shown(ToolTest):
    """The page."""

    @classmethod
    def setUpClass(cls):
        cls.browser = Browser()
        cls.addClassCleanup(cls.browser.close)

    def setUp(self):
        super().setUp()
        self.told = twenty()
        self.server = self.serve(0)
        self.browser.size(*DESK)
        self.browser.open("about:blank")  # the page of the test before asks a server that is closed
        self.browser.faults.clear()

    def serve(self, port):
        """Serves what is told."""
        server = serve(port, self.ask, each=NEVER)
        self.addCleanup(server.close)
        return server

    def ask(self):
        """What is told, or why nothing is."""
        if isinstance(self.told, Exception):
            raise self.told
        return self.told

    def open(self, told=None):
        """Opens the page of what is told from now on, and answers its text once something is told."""
        self.told = told or self.told
        self.browser.open(self.server.url)
        self.browser.wait("document.getElementById('touch')?.textContent.startsWith('in touch')")
        return self.browser.value(TEXT)

    def look(self, name):
        """On a telephone and on a desk the page isn't wider than the window, in light and in dark."""
        for kind, size in (("telephone", TELEPHONE), ("desk", DESK)):
            for is_dark in (False, True):
                self.browser.size(*size, is_dark)
                self.assertFalse(self.browser.value(IS_WIDER), f"{name} is wider than a {kind}")
                self.keep(f"{name}_{kind}{'_dark' * is_dark}")

    def fit(self, widths, name=None):
        """In windows of these widths, in light and in dark, no text leaves its box; the pictures are kept by a name."""
        for width in widths:
            for is_dark in (False, True):
                self.browser.size(width, 900, is_dark)
                self.assertEqual(self.browser.value(OVERFLOWS), [], f"{width} pixels")
                self.assertFalse(self.browser.value(IS_WIDER), f"{width} pixels")
                if name:
                    self.keep(f"{name}_{width}{'_dark' * is_dark}")

    def keep(self, name):
        """Keeps a picture, where they are wanted."""
        if PICTURES:
            with open(os.path.join(PICTURES, f"{name}.png"), "wb") as file:
                file.write(self.browser.picture())

    def test_twenty_stations(self):
        self.open()
        self.look("twenty")
        text = self.browser.value(TEXT)
        for one in self.told["networks"]:
            self.assertIn(one["bssid"], text)
            for told in one["stations"]:
                self.assertEqual(told["address"] in text, told["state"] == "associated", told)
        for words in ("Gäste ☕", "20 (6 doze)", "e4965d3, channel 6, phy0", "1 d 2 h", "0.4 ms, 7.9 ms", "no wire",
                      "−30 dBm", "54 Mb/s", "5.5 Mb/s", "2.8 kB",
                      "5 by status 1 (max_known reached, or another SSID)",
                      "18 stations that only authenticated", "Proved of the program", "Not proved, only tested: "):
            self.assertIn(words, text)
        self.assertEqual(self.browser.faults, [])

    def test_each_column_has_a_head(self):
        """In a wide window two groups of four columns, apart from each other; in a narrow one the four heads stand
        above the first group of each station. Each group's numbers stand in one row."""
        self.open()
        ways = "[...document.querySelectorAll('{}')].map(way => [...way.children].map(cell => {}))"
        heads = self.browser.value(ways.format("section:first-child thead .way", "cell.textContent"))
        self.assertEqual(heads, [["rate", "octets", "frames", "now"]] * 2)
        third = "section:first-child tbody tr:nth-child(3) .way"
        self.assertEqual(self.browser.value(ways.format(third, "cell.textContent")),
                         [["5.5 Mb/s", "343.9 kB", "375", "–"], ["54 Mb/s", "26.6 kB", "250", "–"]])
        edge = "Math.round(cell.getBoundingClientRect().{})"
        self.assertEqual(self.browser.value(ways.format(third, edge.format("right"))),
                         self.browser.value(ways.format("section:first-child thead .way", edge.format("right"))))
        [to, back] = self.browser.value(ways.format(third, edge.format("left")))
        self.assertGreater(back[0] - to[3], 2 * (to[3] - to[2]) * 0.6, "the groups run together")
        shown = "getComputedStyle(cell, '::before').content"
        for width in (390, 1024):
            self.browser.size(width, 900)
            self.assertEqual(self.browser.value(ways.format(third, shown)),
                             [[f'"{head}"' for head in heads[0]], ["none"] * 4])
            tops = self.browser.value(ways.format(third, edge.format("bottom")))
            self.assertEqual([len(set(each)) for each in tops], [1, 1], "a rate stands in a row of its own")

    def test_figures_fill_their_rows(self):
        """Of one network and of several none stands alone in a row, unless it is as wide as the row."""
        lefts = "[...document.querySelectorAll('#figures div')].map(it => [it.offsetTop, it.offsetWidth])"
        for told in (twenty(), document(network(1, b"guests", [station(1)]))):
            self.open(told)
            for width in (390, 1024, 1280, 1920):
                self.browser.size(width, 900)
                found = self.browser.value(lefts)
                rows = [[wide for top, wide in found if top == row] for row in sorted({top for top, _ in found})]
                ends = {sum(row) + 8 * (len(row) - 1) for row in rows}
                self.assertLessEqual(max(ends) - min(ends), 2, (width, rows))

    def test_links_lead_to_networks(self):
        """On a telephone too: a link for each of several, and back. One network has none, and no sums of its own."""
        self.open(busy(16, 100))
        self.browser.size(*TELEPHONE)
        links = ("[...document.querySelectorAll('#places a')].filter(it => it.checkVisibility())"
                 ".map(it => it.textContent)")
        self.assertEqual(self.browser.value(links), [f"network {number}" for number in range(1, 17)])
        self.browser.value("document.querySelectorAll('#places a')[11].click()")
        top = "document.querySelectorAll('#networks section')[11].getBoundingClientRect().top"
        self.browser.wait(f"Math.abs({top}) < 20")
        self.browser.value("document.querySelectorAll('#networks .up')[11].click()")
        self.browser.wait("window.scrollY < 200")
        self.open(busy(1, 100))
        self.browser.wait(f"{links}.length === 0")
        text = self.browser.value(TEXT)
        for words in ("to the top", "networks\n1", "air\n"):
            self.assertNotIn(words, text.replace("share of the air\n", ""))
        self.fit((390, 1024, 1280, 1920), "one")

    def test_a_refusal_is_no_fault(self):
        """It stands in the colour of all counts."""
        self.open()
        colour = ("getComputedStyle([...document.querySelectorAll('.card > p')]"
                  ".find(it => it.textContent.includes('{}'))).color")
        self.assertEqual(self.browser.value(colour.format("by status 1")), self.browser.value(colour.format("unread")))

    def test_no_text_leaves_its_box_after_a_year(self):
        """In windows of 360 to 2,560 pixels, in light and in dark, no text covers another or leaves its box."""
        self.open(year(16, 9))
        self.browser.value("document.querySelectorAll('details').forEach(node => { node.open = true })")
        self.fit(WIDTHS)
        self.look("year")

    def test_many_stations_are_found_and_sorted(self):
        """Of 2,007 stations in each of 16 networks one is found by a part of its address, and the first ones come first
        in the order that is asked for."""
        self.open(year(16, 2007))
        last = self.told["networks"][15]["stations"][2006]["address"]
        addresses = "[...document.querySelectorAll('#networks table:not(.only) td.address')].map(it => it.textContent)"
        self.assertEqual(len(self.browser.value(addresses)), 16 * 100)
        self.assertNotIn(last, self.browser.value(addresses))
        self.assertIn("and 1,907 stations more", self.browser.value(TEXT))
        for width in (360, 1280, 2560):
            self.browser.size(width, 900)
            self.assertEqual(self.browser.value(OVERFLOWS), [], f"{width} pixels")
        self.choose("search", last[6:].upper())
        self.assertEqual(set(self.browser.value(addresses)), {last})
        self.choose("search", "zz")
        self.assertEqual(self.browser.value(addresses), [])
        self.assertIn("No station here has such an address or name.", self.browser.value(TEXT))
        self.choose("search", "")
        self.choose("sort", "most sent to it")
        first = [max(one["stations"], key=lambda told: (told["octets_to"], [-ord(it) for it in told["address"]]))["address"]
                 for one in self.told["networks"]]
        found = self.browser.value("[...document.querySelectorAll('#networks section')].map(card => "
                                   "card.querySelector('td.address').textContent)")
        self.assertEqual(found, first)
        self.assertEqual(self.browser.faults, [])

    def choose(self, name, value):
        """Writes into a box of the page, or chooses from it."""
        self.browser.value(f"box = document.getElementById('{name}'); box.value = '{value}';"
                           "box.dispatchEvent(new Event('input')); box.dispatchEvent(new Event('change')); 0")

    def test_made_up_networks_move(self):
        """What `tools/status --demo` shows is a document as of an access point, and another one a moment later."""
        self.assertNotEqual(demo_of(0.0, 10.0), demo_of(0.0, 12.0))
        self.open(demo_of(0.0, 10.0))
        for is_dark in (False, True):
            self.browser.size(*DESK, is_dark)
            self.assertEqual(self.browser.value(OVERFLOWS), [])
        self.look("demo")
        before = self.browser.value(TEXT)
        self.told = demo_of(0.0, 700.0)
        self.browser.wait(f"{TEXT}.includes('1 h 11 min')")
        self.assertNotEqual(self.browser.value(TEXT), before)
        self.assertEqual(self.browser.faults, [])

    def remember(self, moments):
        """Gives the server a history: a point each five seconds until now, where `moments` tells of each the document."""
        now = time.monotonic()
        for place, told in enumerate(moments):
            age = 5.0 * (len(moments) - 1 - place)
            self.server.history.take(told and complete(told, 0), now - age)

    def graphs(self, of):
        """What the graphs below an element say, and how many pieces each line has."""
        return [tuple(each) for each in self.browser.value(
            f"[...document.querySelectorAll('{of} .graph')].map(graph => [graph.innerText.replace(/\\n+/g, '|'), "
            "(graph.querySelector('.line').getAttribute('d').match(/M/g) || []).length])")]

    def test_ten_minutes_of_sixteen_networks_are_lines(self):
        """Each network has a line of its share of the air, of what goes to its stations and comes from them, of its
        stations and its losses; each is cut where the access point told nothing. A station has lines where it is opened."""
        moments = [busy(16, 1000 + 5 * place) for place in range(121)]
        moments[60] = moments[61] = None
        self.remember(moments)
        self.open(busy(16, 1600))
        self.browser.wait("document.querySelectorAll('.graph .line')[79]?.getAttribute('d')")
        found = self.graphs("#networks section:nth-child(2)")
        self.assertEqual([text for text, _ in found],
                         ["share of the air|4.0 %|at most 4.0 %", "to stations|16.0 kb/s|at most 16.0 kb/s",
                          "from stations|3.2 kb/s|at most 3.2 kb/s", "stations|2|at most 2",
                          "lost|0.4/s|at most 0.4/s, 640 in all"])
        self.assertEqual([count for _, count in found], [2] * 5)
        self.fit((390, 1280, 2560), "sixteen")
        self.browser.value("document.querySelector('td.address button').click()")
        self.browser.wait("document.querySelector('td.opened .line')?.getAttribute('d')")
        self.assertEqual([text for text, _ in self.graphs("td.opened")],
                         ["to it|8.0 kb/s|at most 8.0 kb/s", "from it|1.6 kb/s|at most 1.6 kb/s",
                          "signal|−30 dBm|−30 dBm to −30 dBm", "units kept|0|at most 0"])
        self.browser.value("document.querySelector('td.address button').click()")
        self.assertEqual(self.graphs("td.opened"), [])
        self.assertEqual(self.browser.faults, [])

    def test_rates_of_now_stand_beside_counts(self):
        """By two answers: how fast counts grow. What the graphs tell stands there alone, and the share of all networks
        is the sum of theirs; it is unused only where nobody sends."""
        text = self.open(busy(2, 100))
        for words in ("air\n–", "share of the air\n–\n\nnot known yet", "stations\n2\n\nnot known yet", "40 in all"):
            self.assertIn(words, text)
        self.remember([busy(2, 100), busy(2, 105)])
        self.told = busy(2, 110)
        self.browser.wait(f"{TEXT}.includes('% used')")
        text = self.browser.value(TEXT)
        for words in ("6.0 % used", "share of the air\n2.0 %", "share of the air\n4.0 %", "33,000 events (300/s)",
                      "44 in all", "8.0 kb/s"):
            self.assertIn(words, text)
        self.assertEqual([text.count(words) for words in ("of the air", "lost")], [2, 2])
        quiet = busy(2, 120)
        for one, before in zip(quiet["networks"], busy(2, 105)["networks"]):
            one["air"] = before["air"]
        self.remember([quiet])
        self.told = quiet
        self.browser.wait(f"{TEXT}.includes('unused')")

    def test_ten_minutes_are_made_up(self):
        """The graphs of the demonstration are full at its start, and vary; its counts never fall."""
        history = History()
        make_history(history, 0.0)
        told = history.document(0.0)
        self.assertEqual((told["seconds"][0], told["seconds"][-1], len(told["seconds"])), (600.0, 5.0, 120))
        for one in told["networks"]:
            for name in ("air", "to", "from"):
                known = [number for number in one[name] if number is not None]
                self.assertGreaterEqual(len(known), 118, name)
                self.assertGreater(max(known), 1.5 * min(known), name)
                self.assertGreaterEqual(min(known), 0, name)
            self.assertGreater(len(set(one["stations"])), 2)
        self.assertGreater(max(number for number in told["networks"][1]["lost"] if number is not None), 0)
        before, later = ({one["bssid"]: one for one in demo_of(0.0, now)["networks"]} for now in (10.0, 250.0))
        for bssid, one in before.items():
            for name in ("events", "clock", "unread", "lost"):
                self.assertLessEqual(one["counts"][name], later[bssid]["counts"][name])
            left = sum(later[bssid]["leaves"].values())
            self.assertEqual(later[bssid]["joins"] - left, len(later[bssid]["stations"]))

    def test_names_that_the_operator_gave(self):
        """They stand below the addresses, as text, and stations are found by them."""
        self.server.status.names = Names(self.write("names", "02:aa:00:00:00:01 Küche <b>printer</b>\n"))
        self.open()
        cell = "document.querySelector('td.address').innerText"
        self.assertEqual(self.browser.value(cell), "02:aa:00:00:00:01\nKüche <b>printer</b>")
        self.choose("search", "küche")
        self.assertEqual(self.browser.value("document.querySelectorAll('td.address').length"), 1)
        self.write("names", "02:aa:00:00:00:01 scanner\n")
        self.browser.wait("document.querySelectorAll('td.address').length === 0")
        self.choose("search", "")
        self.browser.wait(f"{cell}.endsWith('scanner')")

    def test_those_that_only_authenticated_unfold_and_stay_so(self):
        self.open()
        self.browser.value("document.querySelectorAll('#networks details')[2].open = true")
        self.assertIn("02:aa:00:00:01:2c", self.browser.value(TEXT))
        self.told["networks"][2]["stations"].append(only_known(400))
        self.browser.wait(f"{TEXT}.includes('19 stations that only authenticated')")
        self.assertIn("02:aa:00:00:01:90", self.browser.value(TEXT))
        self.look("unfolded")

    def test_no_station(self):
        self.told = document(network(1, b"guests", wire_down=90.5), {**network(2, b"office", counts=None), "ssid": None},
                             record={"octets": 65536, "fault": "No space left on device"}, by="active-monitors",
                             radio={"down": None, "unsent": 65.0, "elsewhere": 2412, "heard_elsewhere": 3})
        self.open()
        self.look("none")
        text = self.browser.value(TEXT)
        self.assertEqual(text.count("No station is here."), 2)
        self.assertIn("02:00:00:00:01:01, wire wire1, which went down 1 min 30 s ago", text)
        self.assertNotIn("wire wire2, which", text)
        self.assertIn("no counts yet", text)
        self.assertIn("the recording stopped: No space left on device", text)
        self.assertIn("channel 6, phy0, by active monitors", text)
        self.assertIn("the radio has told no beacon as sent for 1 min 5 s", text)
        self.assertIn("the radio is on 2412 MHz", text)
        self.assertNotIn("the monitor interface is down", text)
        self.assertIn("(name not told yet)", text)
        self.assertEqual(self.browser.faults, [])

    def test_a_name_that_is_markup_is_shown_as_it_is(self):
        long = b"W" * 32
        self.told = document(
            network(1, MARKUP, [station(1, address="<b>02:aa</b>", state="<i>")], wire="<u>"), network(2, long),
            network(3, b"\xff<b>"), network(4, "\u202eevil\n".encode()), version="<b>1</b>", drops={"<b>": 1},
            faults=[{"seconds": 3.2, "text": "fault <b>"}])
        self.open()
        self.look("markup")
        names = self.browser.value("[...document.querySelectorAll('#networks h2')].map(node => node.textContent)")
        self.assertEqual(names, [MARKUP.decode(), long.decode(), "hex ff3c623e", "\\u{202e}evil\\x0a"])
        self.assertEqual(self.browser.value("document.querySelectorAll('main b, main i, main u, main img').length"), 0)
        self.assertEqual(self.browser.value("typeof x"), "undefined")
        self.assertEqual(self.browser.value("getComputedStyle(document.body).margin"), "0px", "its style holds")
        self.assertEqual(self.browser.faults, [])
        for change in ("document.body.innerHTML = '<b>x</b>'", "document.createElement('script').text = 'x = 1'"):
            self.assertEqual(self.browser.value(f"try {{ {change}; 'taken' }} catch (fault) {{ fault.name }}"),
                             "TypeError", "nothing may become markup or a script")

    def test_the_bridge_ended_and_is_there_again(self):
        self.open()
        self.told = Untold("no access point runs at /run/waltigon/phy0.sock")
        self.browser.wait(f"{TEXT}.includes('no access point runs at /run/waltigon/phy0.sock')")
        self.assertRegex(self.browser.value(TEXT), r"Lost touch \d+\.\d s ago, and what is shown is of \d\d:\d\d:\d\d")
        self.look("ended")
        port = self.server.server_address[1]
        self.server.close()
        self.browser.wait(f"{TEXT}.includes('nobody answers here')")
        self.assertIn("02:aa:00:00:00:01", self.browser.value(TEXT), "what was known is still shown")
        self.assertTrue(self.browser.value("document.title.startsWith('lost touch')"))
        self.told = document(network(1, b"guests", [station(77)]))
        self.server = self.serve(port)
        self.browser.wait("document.getElementById('touch').textContent.startsWith('in touch')")
        text = self.browser.value(TEXT)
        self.assertIn("02:aa:00:00:00:4d", text)
        self.assertNotIn("02:aa:00:00:00:01", text)
        self.assertNotIn("Lost touch", text)

    def test_nobody_answered_yet(self):
        self.told = Untold("the bridge doesn't answer")
        self.browser.open(self.server.url)
        self.browser.wait(f"{TEXT}.includes('No answer yet: the bridge doesn')")
        self.look("nothing_yet")

    def test_what_is_there_stays_the_same_while_it_is_refreshed(self):
        self.open()
        self.browser.value("marked = [...document.querySelectorAll('td.address')]; marked[3].scrollIntoView(); 0")
        stations = self.told["networks"][0]["stations"]
        gone, first = stations.pop(2), station(500, since=0.5)
        stations.insert(0, first)
        stations[4]["octets_to"] = 5_000_000
        self.browser.wait(f"{TEXT}.includes('{first['address']}')")
        text = self.browser.value(TEXT)
        self.assertIn("5.0 MB", text)
        self.assertNotIn(gone["address"], text)
        self.assertEqual(self.browser.value(
            "[...document.querySelectorAll('td.address')].filter(cell => marked.includes(cell)).length"), 37)
        self.assertEqual(self.browser.value(
            "[...document.querySelectorAll('#networks table:not(.only) td.address')].map(cell => cell.textContent)"),
            [told["address"] for one in self.told["networks"] for told in one["stations"] if told["aid"] is not None])

    def test_stations_that_are_not_listed_are_counted(self):
        crowded = network(1, b"guests", map(station, range(1, 1001)), known=3000, associated=2007, dozing=7)
        text = self.open(document(crowded, network(2, b"office", [station(1, dozes=True)])))
        self.assertIn("2,008 (8 doze)", text)
        self.assertIn("993 stations that only authenticated", text)
        self.assertIn("and 2,500 stations more", text)

    def test_who_holds_most_of_a_quota(self):
        holder = {"address": "02:aa:00:00:00:01", "kept": 450, "listen": 65535}
        text = self.open(document(network(1, b"guests", [station(1)], quota=500, holder=holder),
                                  network(2, b"office", [station(2)], quota=1000, holder=holder)))
        self.assertIn("1 unit kept, 450 of the quota of 500 for 02:aa:00:00:00:01", text)
        self.assertEqual(text.count("of the quota"), 1)

    def test_ten_thousand_strangers_are_counted(self):
        text = self.open(document(network(1, b"guests", [station(1), *map(only_known, range(2, 1001))], known=10001)))
        self.assertIn("10,000 stations that only authenticated", text)
        self.assertIn("and 9,500 stations more", text)
        self.browser.wait("document.querySelectorAll('.only tbody tr').length === 500")

    def test_a_page_of_elsewhere_is_told_nothing(self):
        self.browser.open("about:blank")
        self.assertEqual(self.browser.value(f"fetch('{self.server.url}status.json').then(() => 'read', () => 'kept')"),
                         "kept")
