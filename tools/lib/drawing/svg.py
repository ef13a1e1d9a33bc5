"""An SVG that is written shape by shape, and how wide its texts are; PNG and PDF are made of it by rsvg-convert."""
import functools
import os
import shutil
import subprocess
import tempfile
import xml.etree.ElementTree as tree
from contextlib import contextmanager

from drawing.colours import INK, dark_style

FAMILY = "DejaVu Sans, Verdana, sans-serif"
FONTS = {"normal": "DejaVuSans.ttf", "bold": "DejaVuSans-Bold.ttf"}
MEASURED_AT = 100
CONVERTER = "rsvg-convert"
# The most pixels that a picture of the library behind the converter may be high.
MOST_HEIGHT = 32767


class NoConversion(Exception):
    """PNG or PDF can't be made."""


@functools.cache
def font(weight):
    """The font by which texts are measured. What reads it is looked for here, so that `--help` answers without it."""
    try:
        from PIL import ImageFont
        return ImageFont.truetype(FONTS[weight], MEASURED_AT)
    except ImportError:
        raise SystemExit("python3-pil is missing: `sudo apt install python3-pil` installs it") from None
    except OSError:
        raise SystemExit("fonts-dejavu-core is missing: `sudo apt install fonts-dejavu-core` installs it") from None


@functools.cache
def text_width(text, size, weight="normal"):
    """The width of a text of this size."""
    return font(weight).getlength(text) * size / MEASURED_AT


def wrapped(text, size, width, weight="normal"):
    """A text in lines that are at most so wide, broken between words."""
    lines = [""]
    for word in text.split(" "):
        longer = f"{lines[-1]} {word}".lstrip()
        if lines[-1] and text_width(longer, size, weight) > width:
            lines.append(word)
        else:
            lines[-1] = longer
    return lines


def number(value):
    """A coordinate, short."""
    return f"{value:.1f}".removesuffix(".0")


class Canvas:
    """A picture of this width; its height is told at the end."""

    def __init__(self, width):
        self.width = width
        self.root = tree.Element("svg", xmlns="http://www.w3.org/2000/svg")
        self.into = self.root
        self.add("style").text = dark_style()

    def add(self, kind, **attributes):
        """One shape; `_` in a name stands for `-`."""
        named = {name.replace("_", "-"): value if isinstance(value, str) else number(value)
                 for name, value in attributes.items()}
        return tree.SubElement(self.into, kind, named)

    @contextmanager
    def group(self, title="", **attributes):
        """What is added within is one group, with words that a browser shows above it."""
        before, self.into = self.into, self.add("g", **attributes)
        if title:
            self.add("title").text = title
        yield
        self.into = before

    @contextmanager
    def link(self, target):
        """What is added within leads to a target, where there is one."""
        before = self.into
        if target:
            self.into = self.add("a", href=target)
        yield
        self.into = before

    def rectangle(self, x, y, width, height, fill, **more):
        """A rectangle."""
        self.add("rect", x=x, y=y, width=max(width, 0.0), height=height, fill=fill, **more)

    def line(self, x1, y1, x2, y2, stroke, width=1.0, **more):
        """A line."""
        self.add("line", x1=x1, y1=y1, x2=x2, y2=y2, stroke=stroke, stroke_width=width, **more)

    def path(self, d, fill, stroke="none", **more):
        """A path."""
        self.add("path", d=d, fill=fill, stroke=stroke, **more)

    def text(self, x, y, text, size, anchor="start", weight="normal", fill=INK, upright=False, of=""):
        """A text, whose baseline is at `y`; where it stands upright it goes up from there. `of` names texts of one kind
        for who shows the picture."""
        more = {"font_weight": "bold"} if weight == "bold" else {}
        if of:
            more["class"] = of
        if upright:
            more["transform"] = f"rotate(-90 {number(x)} {number(y)})"
        self.add("text", x=x, y=y, font_size=size, text_anchor=anchor, fill=fill, **more).text = text

    def written(self, height):
        """The picture of this height, as a text."""
        self.root.set("width", number(self.width))
        self.root.set("height", number(height))
        self.root.set("viewBox", f"0 0 {number(self.width)} {number(height)}")
        self.root.set("font-family", FAMILY)
        return tree.tostring(self.root, encoding="unicode")


def convert(pages, kind, path):
    """Writes pictures into one file, `png` or `pdf`, the pages of a PDF in order."""
    if shutil.which(CONVERTER) is None:
        raise NoConversion(f"{CONVERTER} is missing: `sudo apt install librsvg2-bin` installs it")
    with tempfile.TemporaryDirectory() as folder:
        files = []
        for place, page in enumerate(pages):
            files.append(os.path.join(folder, f"{place}.svg"))
            with open(files[-1], "w", encoding="utf-8") as file:
                file.write(page)
        done = subprocess.run([CONVERTER, "--format", kind, "--background-color", "white", "--output", path, *files],
                              capture_output=True, text=True, check=False)
    if done.returncode != 0:
        raise NoConversion(f"{path}: {done.stderr.strip().splitlines()[-1] if done.stderr.strip() else CONVERTER}")
