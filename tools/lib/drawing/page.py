"""A picture as one HTML page that needs nothing from elsewhere: it scrolls, and a pointer on a shape shows the lines of
the trace that it is of, and the frames that came and went with them, field by field."""
import json
from typing import NamedTuple

from fields import fields_on_air, fields_on_wire, kind_of

PAGE = """<!DOCTYPE html>
<html lang="en"><head><meta charset="utf-8">
<meta name="viewport" content="width=device-width, initial-scale=1"><title>{title}</title><style>
body {{ margin: 0; font: 14px "DejaVu Sans", Verdana, sans-serif; color: #222; display: flex; flex-direction: column;
  height: 100vh; }}
header {{ display: flex; flex-wrap: wrap; align-items: center; gap: 4px 14px; padding: 8px 12px;
  border-bottom: 1px solid #c9ced6; }}
#ask {{ flex: 0 1 420px; min-width: 0; box-sizing: border-box; font: inherit; padding: 4px 8px; }}
main {{ flex: 1; min-height: 0; display: flex; }}
#picture {{ flex: 1; min-width: 0; overflow: auto; }}
#picture svg {{ display: block; width: 100%; height: auto; }}
.narrow {{ display: none; }}
.detail svg {{ min-width: 900px; content-visibility: auto; }}
#told {{ flex: 0 0 clamp(360px, 26vw, 520px); overflow: auto; border-left: 1px solid #c9ced6; padding: 0 12px;
  box-sizing: border-box; }}
#told h2 {{ font-size: 14px; margin: 14px 0 4px; }}
#told h3 {{ font-size: 13px; margin: 10px 0 2px; font-weight: normal; color: #555; }}
#told table {{ border-collapse: collapse; font-size: 12px; width: 100%; }}
#told td {{ border-top: 1px solid #e6e8eb; padding: 2px 8px 2px 0; vertical-align: top; }}
#told td:nth-child(2) {{ font-family: "DejaVu Sans Mono", monospace; word-break: break-all; max-width: 220px; }}
#told code {{ word-break: break-all; font-size: 12px; }}
a {{ color: #1f5fa8; }}
@media (max-width: 1399px) {{
  main {{ flex-direction: column; }}
  #picture {{ min-height: 0; }}
  #told {{ flex: none; max-height: 40vh; border-left: none; border-top: 1px solid #c9ced6; }}
}}
@media (max-width: 759px) {{
  .wide {{ display: none; }}
  .narrow {{ display: block; max-width: 560px; }}
}}
text.name {{ paint-order: stroke; stroke: white; stroke-width: 5px; stroke-linejoin: round; }}
@media (prefers-color-scheme: dark) {{
  text.name {{ stroke: #15181d; }}
  :root {{ color-scheme: dark; }}
  body {{ background: #15181d; color: #e4e6ea; }}
  header, #told, #told td {{ border-color: #3c434d; }}
  #told h3 {{ color: #9aa0a8; }}
  a {{ color: #7db7f0; }}
}}
g[data-lines], g[data-span] {{ cursor: pointer; }}
g.asked > circle, g.asked > rect, g.asked > path {{ stroke: #c8202d; stroke-width: 3; }}
</style></head><body>
<header><input id="ask" type="search" placeholder="a line's number, or an address or digits"><span id="found"></span>
{overview}</header>
<main><div id="picture"><div id="top"></div><div class="wide">{wide}</div><div class="narrow">{narrow}</div>
<div class="detail">{detail}</div></div><div id="told">
<p>Point at a shape: its line and its frames are shown here. A click holds them, a second one lets go. In the search
Enter goes from one find to the next.</p><div id="lines"></div></div></main>
<script>
"use strict";
const WORDS = {words};
const LINES = {lines};
const MOST = 40;
const told = document.getElementById("lines"), found = document.getElementById("found");
let held = false, at = -1, asked = "";
function add(into, kind, text) {{
  const made = document.createElement(kind);
  if (text !== undefined) made.textContent = text;
  into.appendChild(made);
  return made;
}}
function frame(into, head, told) {{
  add(into, "h3", head);
  const table = add(into, "table");
  let at = 0;
  for (let place = 0; place < told.fields.length; place += 3) {{
    const [name, digits, meaning] = told.fields.slice(place, place + 3);
    const row = add(table, "tr");
    for (const cell of [WORDS[name], told.octets.slice(at, at + digits), WORDS[meaning]]) add(row, "td", cell);
    at += digits;
  }}
}}
function show(first, last) {{
  told.replaceChildren();
  const numbers = Object.keys(LINES).map(Number).filter(number => number >= first && number <= last);
  for (const number of numbers.slice(0, MOST)) {{
    const line = LINES[number];
    add(told, "h2", "line " + number + (line.time ? ", " + line.time + " s" : "") + ": " + WORDS[line.kind]);
    add(told, "code", [line.word, line.bssid, line.came.octets].filter(Boolean).join(" "));
    if (line.came.octets) frame(told, "came in", line.came);
    for (const answer of line.sent) frame(told, WORDS[answer.by], answer);
  }}
  if (numbers.length > MOST) add(told, "p", "and " + (numbers.length - MOST) + " lines more");
}}
function count(group) {{
  told.replaceChildren();
  for (const words of group.querySelector("title").textContent.split(/; |: (?=heard)/)) add(told, "p", words);
}}
function range(group) {{
  const words = (group.dataset.lines || group.dataset.span).split("-").map(Number);
  const last = group.dataset.span ? words[0] : words[words.length - 1];
  return [words[0], last];
}}
function point(event) {{
  const stretch = event.target.closest("g[data-stretch]");
  if (stretch && event.type !== "click") count(stretch);
  const group = event.target.closest("g[data-lines], g[data-span]");
  if (!group) {{ if (event.type === "click") held = false; return; }}
  if (event.type === "click") held = !held;
  else if (held) return;
  show(...range(group));
}}
function mark(group) {{
  document.querySelectorAll("g.asked").forEach(other => other.classList.remove("asked"));
  group.classList.add("asked");
  group.scrollIntoView({{ block: "center", inline: "center" }});
  show(...range(group));
  held = true;
}}
// Of the pictures for wide and for narrow windows one is shown.
const isShown = shape => shape.closest(".wide, .narrow, .detail").offsetParent !== null;
function matches(group, words) {{
  const [first, last] = range(group);
  if (/^[0-9]{{1,7}}$/.test(words)) return first <= Number(words) && Number(words) <= last;
  const digits = words.toLowerCase().replace(/[^0-9a-f]/g, "");
  for (let number = first; number <= last; number++) {{
    const line = LINES[number];
    if (line && digits && [line.came, ...line.sent].some(told => told.octets.includes(digits))) return true;
  }}
  return false;
}}
document.getElementById("ask").addEventListener("keydown", event => {{
  if (event.key !== "Enter") return;
  const words = event.target.value.trim();
  const groups = [...document.querySelectorAll("g[data-lines]")].filter(
    group => isShown(group) && matches(group, words));
  at = words === asked ? at + 1 : 0;
  asked = words;
  found.textContent = groups.length ? "find " + (at % groups.length + 1) + " of " + groups.length : "nothing found";
  if (groups.length) mark(groups[at % groups.length]);
}});
const shown = document.getElementById("picture"), names = [...document.querySelectorAll("#picture text.name")];
// Names stay in sight where the picture is wider than its window, above the shapes.
names.forEach(name => name.ownerSVGElement.appendChild(name));
let moved = 0;
function move() {{
  if (shown.scrollLeft === moved) return;
  moved = shown.scrollLeft;
  const scales = new Map();
  for (const name of names) {{
    const picture = name.ownerSVGElement;
    if (!scales.has(picture)) scales.set(picture, picture.viewBox.baseVal.width / (picture.clientWidth || 1));
    name.setAttribute("transform", "translate(" + moved * scales.get(picture) + " 0)");
  }}
}}
shown.addEventListener("scroll", move);
shown.addEventListener("mouseover", point);
shown.addEventListener("click", point);
</script></body></html>
"""

# What leads back to the overview of a long run.
OVERVIEW = '<a href="#top">Overview</a>'


class Words:
    """Words that occur often, each of which a page has once: by their places."""

    def __init__(self):
        self.places = {}

    def place(self, text):
        """The place of some words."""
        return self.places.setdefault(text, len(self.places))

    def frame(self, octets, fields):
        """A frame: its octets, and of each field its name's place, how many digits it has, and its meaning's place."""
        flat = [part for field in fields
                for part in (self.place(field.name), 2 * len(field.octets), self.place(field.meaning))]
        return {"octets": octets.hex(), "fields": flat}


class Pictures(NamedTuple):
    """The pictures of a page: for a wide window, for a narrow one, and pages of detail that stand below either."""

    wide: str
    narrow: str
    detail: tuple


def page_of(pictures, lines, stories, clock, title):
    """The page of pictures, of these lines and of what the networks sent for them."""
    words = Words()
    told = {line.number: line_told(line, clock, words) for line in lines}
    for story in stories:
        for number, octets in story.frames:
            if number in told:
                by = words.place(f"{story.section.name} sent on the air: {kind_of(octets)}")
                told[number]["sent"].append({"by": by, **words.frame(octets, fields_on_air(octets))})
        for number, octets in story.wires:
            if number in told:
                by = words.place(f"{story.section.name} put on the wire")
                told[number]["sent"].append({"by": by, **words.frame(octets, fields_on_wire(octets))})
    overview = OVERVIEW if 'id="overview"' in pictures.wide else ""
    title = title.replace("&", "&amp;").replace("<", "&lt;")
    return PAGE.format(wide=pictures.wide, narrow=pictures.narrow, detail="\n".join(pictures.detail), title=title,
                       overview=overview, lines=as_script(told), words=as_script(list(words.places)))


def as_script(data):
    """Data as a script has it; no text in it ends the script."""
    return json.dumps(data, separators=(",", ":")).replace("<", "\\u003c")


def line_told(line, clock, words):
    """A line of the trace, for the page."""
    if line.kind == "T":
        kind, fields = "a beacon interval begins", []
    elif line.kind == "A":
        kind, fields = f"{kind_of(line.octets)} on the air", fields_on_air(line.octets)
    else:
        kind, fields = "a frame on the wire", fields_on_wire(line.octets)
    return {"word": line.kind, "kind": words.place(kind), "bssid": line.bssid.hex(":") if line.bssid else "",
            "time": clock.text(line), "came": words.frame(line.octets, fields), "sent": []}
