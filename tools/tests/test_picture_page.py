"""Tests of the page that tools/picture writes, in a real browser."""
import os

import long_run
from browser import Browser, needs_chromium
from common import THREE, ToolTest, needs_program, tool

TOLD = "document.getElementById('lines').innerText"


@needs_chromium
class Asked(ToolTest):
    """The page of the example of three networks."""

    def setUp(self):
        super().setUp()
        page = self.path("three.html")
        told = tool("picture", os.path.join(THREE, "input"), os.path.join(THREE, "stdout"), "--out", page)
        self.assertEqual(told, (0, "", ""))
        self.browser = Browser()
        self.addCleanup(self.browser.close)
        self.browser.size(1500, 900)
        self.browser.open(f"file://{page}")

    def do(self, kind, shape):
        """What a pointer does on a shape."""
        self.browser.value(f"{shape}.dispatchEvent(new MouseEvent('{kind}', {{ bubbles: true }})); 0")

    def test_pointer_shows_a_line_and_its_frames(self):
        """A shape that is pointed at shows its line field by field; a click holds it, a second one lets go."""
        first, other = ("document.querySelector('g[data-lines=\"2\"]')",
                        "document.querySelector('g[data-lines=\"5\"]')")
        self.do("mouseover", first)
        told = self.browser.value(TOLD)
        for words in ("line 2, 0.000 s: authentication on the air", "Frame Control", "Open System",
                      "guest sent on the air: authentication"):
            self.assertIn(words, told)
        self.do("click", first)
        self.do("mouseover", other)
        self.assertIn("line 2,", self.browser.value(TOLD))
        self.do("click", first)
        self.do("mouseover", other)
        self.assertIn("line 5,", self.browser.value(TOLD))
        self.assertEqual(self.browser.faults, [])

    def test_narrow_windows_have_both_parts(self):
        """In a window of any width the picture and what is told stand in the window, beside each other or one above the
        other, and the words of a shape that is pointed at can be read."""
        for width, height in ((1920, 1080), (1400, 900), (1300, 800), (1024, 768), (700, 900), (390, 844)):
            self.browser.size(width, height)
            self.do("mouseover", "document.querySelector('g[data-lines=\"2\"]')")
            boxes = self.browser.value(
                "['picture', 'told'].map(name => document.getElementById(name).getBoundingClientRect())"
                ".map(box => [box.left, box.top, box.right, box.bottom].map(Math.round))")
            for left, top, right, bottom in boxes:
                self.assertGreaterEqual(min(left, top, width - right, height - bottom), 0, (width, boxes))
                self.assertGreaterEqual(min(right - left, bottom - top), 300, (width, boxes))
            (_, _, right, bottom), (left, top, _, _) = boxes
            self.assertTrue(left >= right or top >= bottom, (width, boxes))
            table = "document.querySelector('#told table').getBoundingClientRect().right"
            self.assertLessEqual(self.browser.value(table), width)
        self.assertEqual(self.browser.faults, [])

    def test_it_uses_the_width(self):
        """The search stands above all. In a window of any width the picture is as wide as its box, and no text of it is
        cut or smaller than nine pixels; a telephone has a picture of its own."""
        for width in (390, 760, 1024, 1280, 1920):
            self.browser.size(width, 900)
            found = self.browser.value("""(() => {
                const box = document.getElementById('picture').getBoundingClientRect();
                const [picture] = [...document.querySelectorAll('#picture svg')].filter(it => it.checkVisibility());
                const wide = picture.getBoundingClientRect(), scale = wide.width / picture.viewBox.baseVal.width;
                const texts = [...picture.querySelectorAll('text')];
                return [box.width - wide.width, document.getElementById('ask').getBoundingClientRect().bottom - box.top,
                        Math.max(...texts.map(it => it.getBoundingClientRect().right)) - box.right,
                        Math.min(...texts.map(it => it.getAttribute('font-size') * scale)), box.width / innerWidth];
            })()""")
            self.assertLess(abs(found[0]), 20, width)
            self.assertLessEqual(found[1], 0, width)
            self.assertLessEqual(found[2], 0, width)
            self.assertGreater(found[3], 7, width)
            self.assertGreater(found[4], 0.7, width)
        self.assertEqual(self.browser.faults, [])

    def test_it_is_dark_where_the_reader_is(self):
        """Page and picture have a dark ground, with light texts, where the browser asks for that, and else a light
        one."""
        ground = "getComputedStyle(document.querySelector('#picture svg > rect')).fill"
        text = "getComputedStyle(document.querySelector('#picture svg > text')).fill"
        page = "getComputedStyle(document.body).backgroundColor + getComputedStyle(document.body).color"
        for width in (390, 1280):
            self.browser.size(width, 844, True)
            self.assertEqual([self.browser.value(asked) for asked in (ground, text, page)],
                             ["rgb(21, 24, 29)", "rgb(228, 230, 234)", "rgb(21, 24, 29)rgb(228, 230, 234)"])
            self.browser.size(width, 844, False)
            self.assertEqual([self.browser.value(asked) for asked in (ground, text)],
                             ["rgb(255, 255, 255)", "rgb(34, 34, 34)"])

    def test_it_finds_what_is_asked_for(self):
        """An address is found from one line to the next, and what isn't there is not."""
        ask = ("box = document.getElementById('ask'); box.value = '{}';"
               "box.dispatchEvent(new KeyboardEvent('keydown', {{ key: 'Enter' }}));"
               "document.getElementById('found').textContent")
        self.assertRegex(self.browser.value(ask.format("02:aa:00:00:00:04")), r"^find 1 of \d+$")
        self.assertRegex(self.browser.value(ask.format("02:aa:00:00:00:04")), r"^find 2 of \d+$")
        self.assertEqual(self.browser.value(ask.format("02:aa:00:00:00:99")), "nothing found")
        self.assertEqual(self.browser.value("document.querySelectorAll('g.asked').length"), 1)
        self.assertEqual(self.browser.faults, [])


@needs_chromium
class Long(ToolTest):
    """The page of a long run."""

    @needs_program
    def test_overview_leads_to_the_strips(self):
        """A click on a stretch of the overview shows its strip, and there is a way back. What it counts is told of the
        stretch that is pointed at."""
        trace, report = self.files_of_run(f"{long_run.config()}---\n{long_run.trace(3000)}")
        told = tool("picture", trace, report, "--out", self.path("long.html"))
        self.assertEqual(told, (0, "", ""))
        browser = Browser()
        self.addCleanup(browser.close)
        for width, height in ((1500, 950), (1000, 900)):
            browser.size(width, height)
            browser.open(f"file://{self.path('long.html')}")
            for place in (7, 20, 11):
                link = f"document.querySelectorAll('#picture a')[{place}]"
                browser.value(f"{link}.querySelector('g').dispatchEvent(new MouseEvent('mouseover', "
                              "{ bubbles: true })); 0")
                self.assertRegex(browser.value(TOLD), r"lines \d+ to \d+, from [^$]*\nheard: \d[^$]*\nstations: \d")
                browser.value(f"{link}.dispatchEvent(new MouseEvent('click', "
                              "{ bubbles: true, cancelable: true })); 0")
                browser.wait(f"location.hash === {link}.getAttribute('href')")
                top, bottom = browser.value("(box => [box.top, box.bottom])(document.querySelector(location.hash)"
                                            ".getBoundingClientRect())")
                window = browser.value("document.getElementById('picture').clientHeight")
                self.assertTrue(-5 <= top < window / 2 and bottom > 0, (width, place, top, bottom))
                browser.value("document.querySelector('header a').click(); 0")
                browser.wait("document.getElementById('picture').scrollTop < 40")
        self.assertEqual(browser.faults, [])

    @needs_program
    def test_pages_of_detail(self):
        """Of 6,000 lines there are an overview, one for each kind of window, and pages below it to which it leads. In a
        narrow window these are wider, and names of rows stay at their left, above the shapes."""
        trace, report = self.files_of_run(f"{long_run.config()}---\n{long_run.trace(6000)}")
        self.assertEqual(tool("picture", trace, report, "--out", self.path("long.html")), (0, "", ""))
        browser = Browser()
        self.addCleanup(browser.close)
        browser.size(390, 844)
        browser.open(f"file://{self.path('long.html')}")
        self.assertGreater(browser.value("document.querySelectorAll('.detail svg').length"), 20)
        link = "document.querySelectorAll('.narrow a')[5]"
        browser.value(f"{link}.dispatchEvent(new MouseEvent('click', {{ bubbles: true, cancelable: true }})); 0")
        browser.wait(f"location.hash === {link}.getAttribute('href')")
        browser.wait("document.getElementById('picture').scrollTop > 900")
        browser.value("document.getElementById('picture').scrollLeft = 400")
        in_sight = ("[...document.querySelectorAll('.detail text.name')]"
                    ".map(name => [name, name.getBoundingClientRect()])"
                    ".filter(([, box]) => box.top > 120 && box.bottom < 450)")
        browser.wait(f"(it => it.length && it.every(([, box]) => box.left >= 0 && box.left < 150))({in_sight})")
        top = ("(([name, box]) => document.elementFromPoint((box.left + box.right) / 2, (box.top + box.bottom) / 2)"
               f" === name)({in_sight}[0])")
        self.assertTrue(browser.value(top))
        self.assertEqual(browser.faults, [])
