"""What the page of tools/journal tells, read from its HTML, and what is wrong with its form and its drawings."""
import html.parser
import math
import re
from typing import NamedTuple

from told import PLAIN, SETTINGS, Told, behind_in, channel_words, counts_in, follows_in

VOID = {"meta", "br"}
PANEL_TITLE = re.compile(r"\w+ of [XY] \(([0-9A-F]{4}:\d)\)")
ZEROS = ["6013:0", "6012:0", "6023:0", "6022:0"]
OUTSIDE = re.compile(r"https?:|//|url\(|@import|<(?:script|link|img|iframe|object|embed)|\b(?:src|href|srcset|data|action|on\w+)=", re.IGNORECASE)


class Element(NamedTuple):
    name: str
    attributes: dict
    inside: list  # elements and texts

    def all(self, name):
        """Every element of a name below this one, in order."""
        for part in self.inside:
            if isinstance(part, Element):
                yield from [part] if part.name == name else []
                yield from part.all(name)

    def text(self):
        return "".join(part if isinstance(part, str) else part.text() for part in self.inside)

    def has(self, kind):
        return kind in self.attributes.get("class", "").split()


class Reader(html.parser.HTMLParser):
    """A page as elements; each has to be closed in its order."""

    def __init__(self):
        super().__init__()
        self.top = Element("", {}, [])
        self.open, self.faults = [self.top], []

    def handle_starttag(self, tag, attrs):
        element = Element(tag, dict(attrs), [])
        self.open[-1].inside.append(element)
        if len(dict(attrs)) != len(attrs):
            self.faults.append(f"an attribute twice in {tag}")
        if tag not in VOID:
            self.open.append(element)

    def handle_startendtag(self, tag, attrs):
        self.open[-1].inside.append(Element(tag, dict(attrs), []))

    def handle_endtag(self, tag):
        if self.open[-1].name == tag:
            self.open.pop()
        else:
            self.faults.append(f"{tag} is closed inside {self.open[-1].name}")

    def handle_data(self, data):
        self.open[-1].inside.append(data)


def read(text):
    reader = Reader()
    reader.feed(text)
    reader.close()
    return reader.top, reader.faults + [f"{element.name} is not closed" for element in reader.open[1:]]


def table(top, name):
    """The cells of a table's body, with their elements."""
    found = [element for element in top.all("table") if element.attributes.get("id") == name]
    return [list(line.all("td")) for element in found for line in list(element.all("tbody"))[0].all("tr")]


def run_columns(top):
    """The names of the columns: plain ones, and the pair that stands small in a head."""
    heads = [head for element in top.all("table") if element.attributes.get("id") == "run" for head in element.all("th")]
    return [small.text() for head in heads for small in head.all("small")]


def told_by_page(top):
    title = next(top.all("h1")).text().removeprefix("Journal ")
    columns = PLAIN + run_columns(top)
    rows = [[cell.text() for cell in line] for line in table(top, "run")]
    lines = [[cell.text() for cell in line] for line in table(top, "in-force")]
    follows = next(element for element in top.all("div") if element.has("follows"))
    return Told(counts_in(f"{title}: {next(top.all('p')).text()}"),
                [dict(zip(columns, row)) if len(row) == len(columns) else {"other cells": row} for row in rows],
                {line[0]: (line[2], line[3]) for line in lines},
                follows_in(next(follows.all("p")).text()), behind_in(item.text() for item in follows.all("li")))


def form_faults(text, top, right):
    """Needs nothing from outside, says its encoding, and what is marked is so in more than one way."""
    follows = [element for element in top.all("div") if element.has("follows")]
    if len(list(top.all("h1"))) != 1 or len(follows) != 1 or not list(follows[0].all("p")):
        yield "no title, or nothing on what follows"
    yield from (f"something from outside: {found}" for found in OUTSIDE.findall(text))
    if not text.startswith("<!DOCTYPE html>\n") or [meta.attributes for meta in top.all("meta")] != [{"charset": "utf-8"}]:
        yield "no type or no encoding"
    cells = [cell for line in table(top, "run") for cell in line]
    yield from (f"marked in one way only: {cell.text()}" for cell in cells if cell.has("brought") != cell.text().endswith("*"))
    if bool(right.rows) != ("brought by this block" in top.text()):
        yield "the mark is not explained"
    wanted = {"full": False, "room": False, "spoiled": True}[right.follows[0]]
    if any(element.has("spoiled") != wanted for element in follows):
        yield "spoiled or not is shown otherwise"


def numbers(element):
    """The places that an element of a drawing names, as x and y with what it reaches around them."""
    values = element.attributes
    if element.name == "polyline":
        return [(*map(float, point.split(",")), 0) for point in values["points"].split()]
    if element.name == "circle":
        return [(float(values["cx"]), float(values["cy"]), float(values["r"]))]
    moved = re.fullmatch(r"translate\((\S+) (\S+)\) rotate\(-90\)", values.get("transform", "translate(0 0) rotate(-90)"))
    return [(float(values["x"]) + float(moved[1]), float(values["y"]) + float(moved[2]), 0)]


def outside_faults(drawing):
    """Every place is a finite number inside the view box."""
    left, top, width, height = map(float, drawing.attributes["viewbox"].split())
    for element in (element for name in ("polyline", "circle", "text") for element in drawing.all(name)):
        for x, y, around in numbers(element):
            is_inside = left <= x - around and x + around <= left + width and top <= y - around and y + around <= top + height
            if not (math.isfinite(x) and math.isfinite(y) and is_inside):
                yield f"outside the view box: {element.attributes}"


def panels(drawing):
    """The parts of a drawing, by the pair in their titles."""
    parts, last = {}, None
    for element in (part for part in drawing.inside if isinstance(part, Element)):
        title = PANEL_TITLE.fullmatch(element.text()) if element.name == "text" and element.has("title") else None
        last = title[1] if title else last
        parts.setdefault(last, []).append(element)
    parts.pop(None, None)
    return parts


def scale(parts):
    """From a height to a value, by the two outer numbers at the axis; what a point is worth; and whether all numbers there fit."""
    ticks = [(float(part.text()), numbers(part)[0][1] - 4) for part in parts if part.name == "text" and part.has("end")]
    (low, low_y), (high, high_y) = ticks[0], ticks[-1]
    one_point = abs((high - low) / (high_y - low_y))

    def value_at(y):
        return low + (y - low_y) * (high - low) / (high_y - low_y)
    is_even = low < high and high_y < low_y and all(abs(value_at(y) - value) <= one_point / 4 for value, y in ticks)
    return value_at, one_point, is_even


def bringer(row, pair):
    """The words at a dot."""
    return f"block {row['block']}: {row[pair].rstrip('*')}, {channel_words(row['by'])}, {row['kind']}"


def line_faults(line, values, value_at, slack):
    """The step line has each block's value over its band, and the bands are side by side."""
    drawn = [value_at(y) for _, y, _ in line]
    if len(line) != 2 * len(values) or any(abs(drawn[2 * at + end] - value) > slack for at, value in enumerate(values) for end in (0, 1)):
        yield f"another line than {values[:4]}: {drawn[:8]}"
    left, width = line[0][0], (line[-1][0] - line[0][0]) / len(values)
    if any(abs(x - left - (at + 1) // 2 * width) > 0.2 for at, (x, _, _) in enumerate(line)):
        yield "the blocks are not side by side"


def panel_faults(pair, parts, right):
    """The line, a dot with its words in the middle of each band that brought a value, and the words at the axes."""
    value_at, one_point, is_even = scale(parts)
    if not is_even:
        yield "other numbers at the axis"
    values = [int(row[pair].rstrip("*")) for row in right.rows]
    line = [point for part in parts if part.has("values") for point in numbers(part)]
    yield from line_faults(line, values, value_at, one_point / 4)
    dots = [(part.text(), *numbers(part)[0][:2]) for part in parts if part.name == "circle"]
    brought = [(at, row) for at, row in enumerate(right.rows) if row[pair].endswith("*")]
    if [words for words, _, _ in dots] != [bringer(row, pair) for _, row in brought]:
        yield "other dots"
    middles = [((line[2 * at][0] + line[2 * at + 1][0]) / 2, line[2 * at][1]) for at, _ in brought if 2 * at + 1 < len(line)]
    if any(math.dist(middle, dot[1:]) > 0.2 for middle, dot in zip(middles, dots)):
        yield "dots beside the line"
    written = {numbers(part)[0][0]: part.text() for part in parts if part.has("number")}
    if not written or not written.items() <= {dot[1]: row[pair].rstrip("*") for dot, (_, row) in zip(dots, brought)}.items():
        yield "other numbers at the dots"
    labels = [part.text() for part in parts if part.name == "text"]
    if "steps" not in labels or "1" not in labels or f"{values[-1]} in force" not in labels:
        yield "axes or the value in force without words"


def drawing_faults(top, right):
    drawings = list(top.all("svg"))
    parts = [(pair, part) for drawing in drawings for pair, part in panels(drawing).items()]
    if [pair for pair, _ in parts] != (ZEROS if right.rows else []):
        yield f"other drawings: {[pair for pair, _ in parts]}"
        return
    for drawing in drawings:
        yield from outside_faults(drawing)
        if "block" not in [text.text() for text in drawing.all("text")]:
            yield "the axis of the blocks has no name"
    for pair, part in parts:
        yield from (f"{pair}: {fault}" for fault in panel_faults(pair, part, right))


def faults(text, right):
    """All that is wrong with a page's form, beside what it tells."""
    top, found = read(text)
    yield from found
    if not found:
        yield from form_faults(text, top, right)
        yield from drawing_faults(top, right)
        if right.rows and run_columns(top) != SETTINGS:
            yield f"other columns: {run_columns(top)}"
