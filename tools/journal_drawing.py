"""The zeros of an axis over the saves as a drawing (SVG): a step line each for offset and preset, block by block."""
import html

WIDTH, HEIGHT = 900, 456
LEFT, RIGHT, TOP = 84, 112, 34
PANEL, GAP = 150, 60
# Left free above and below the values; a digit's width; how near and far over and under a dot its number stands; the most numbers at an axis.
MARGIN, DIGIT, NEAR, FAR = 24, 9, 6, 21
MOST_ACROSS, MOST_UP = 16, 5
STYLE = """
svg { max-width: 100%; height: auto; font: 13px sans-serif; }
svg polyline { fill: none; } svg .grid { stroke: #d5d9dd; } svg .axis { stroke: #4a5159; }
svg .values { stroke: #14559c; stroke-width: 2; }
svg .brought { fill: #14559c; }
svg text { fill: #22272c; } svg .end { text-anchor: end; } svg .middle { text-anchor: middle; }
svg .number { text-anchor: middle; font-weight: bold; }
svg .title { font-weight: bold; }
"""


def nice_step(span, most):
    """The smallest of 1, 2, 5, 10, 20 .. with which a span has no more than so many steps."""
    step = 1
    while span > step * most:
        step = step * 5 // 2 if str(step).startswith("2") else step * 2
    return step


def whole_numbers(low, high, most):
    """Whole numbers for an axis, all of one distance."""
    step = nice_step(high - low, most)
    return range(-(-low // step) * step, high + 1, step)


def text(x, y, words, kind=""):
    return f'<text x="{x:.1f}" y="{y:.1f}" class="{kind}">{html.escape(words)}</text>'


def line(kind, *points):
    return f'<polyline class="{kind}" points="{" ".join(f"{x:.1f},{y:.1f}" for x, y in points)}"/>'


class Panel:
    """One setting's values: where a block and a value stand in the drawing."""

    def __init__(self, top, values):
        self.top, self.bottom, self.values = top, top + PANEL, values
        self.low, self.high = min(values), max(values)
        if self.low == self.high:
            self.low, self.high = self.low - 1, self.high + 1
        self.band = (WIDTH - LEFT - RIGHT) / len(values)

    def start(self, block):
        """The left end of a block's band; its values hold over the whole band."""
        return LEFT + (block - 1) * self.band

    def middle(self, block):
        return self.start(block) + self.band / 2

    def height(self, value):
        return self.bottom - MARGIN - (value - self.low) * (PANEL - 2 * MARGIN) / (self.high - self.low)

    def brought(self):
        """The blocks that brought a value, and the value."""
        return [(block, value) for block, value in enumerate(self.values, 1) if block == 1 or value != self.values[block - 2]]


def axes(panel, title, unit):
    yield text(LEFT, panel.top - 8, title, "title")
    for value in whole_numbers(panel.low, panel.high, MOST_UP):
        y = panel.height(value)
        yield line("grid", (LEFT, y), (WIDTH - RIGHT, y))
        yield text(LEFT - 8, y + 4, str(value), "end")
    yield line("axis", (LEFT, panel.top), (LEFT, panel.bottom), (WIDTH - RIGHT, panel.bottom))
    middle = (panel.top + panel.bottom) / 2
    yield f'<text transform="translate(18 {middle:.1f}) rotate(-90)" x="0" y="0" class="middle">{unit}</text>'


def block_numbers(panel):
    """Block 1, then numbers at one distance; where each has its place, under its band."""
    count = len(panel.values)
    for block in sorted({1, *whole_numbers(1, count, MOST_ACROSS)}):
        yield line("axis", (panel.middle(block), panel.bottom), (panel.middle(block), panel.bottom + 5))
        yield text(panel.middle(block), panel.bottom + 19, str(block), "middle")


def steps(panel):
    """The values as one line, flat over a block's band."""
    points = [(x, panel.height(value)) for block, value in enumerate(panel.values, 1) for x in (panel.start(block), panel.start(block + 1))]
    return line("values", *points)


def marks(panel, blocks):
    """A dot at each block that brought a value; a browser says who did where one points at it."""
    size = 4 if panel.band > 12 else 3
    for block, value in panel.brought():
        said = f"block {block}: {value}, {blocks[block - 1]}"
        place = f'cx="{panel.middle(block):.1f}" cy="{panel.height(value):.1f}" r="{size}"'
        yield f'<circle class="brought" {place}><title>{html.escape(said)}</title></circle>'


def is_free(panel, left, right, top, bottom):
    """Whether the line keeps out of a box."""
    blocks = [block for block in range(1, len(panel.values) + 1) if panel.start(block) <= right and left <= panel.start(block + 1)]
    heights = [panel.height(panel.values[block - 1]) for block in blocks]
    return not any(min(one, next_one) <= bottom and top <= max(one, next_one) for one, next_one in zip(heights, [*heights[1:], heights[-1]]))


def numbers(panel):
    """Values beside their dots where neither the line nor another number is in the way; the one in force at the end."""
    free_from = 0
    for block, value in panel.brought():
        x, y = panel.middle(block), panel.height(value)
        half = DIGIT * (len(str(value)) + 1) / 2
        over_and_under = ((y - NEAR - 3, y - FAR), (y + FAR - 2, y + NEAR))
        bases = [base for base, top in over_and_under if is_free(panel, x - half, x + half, top, top + FAR - NEAR)]
        if bases and free_from <= x - half:
            yield text(x, bases[0], str(value), "number")
            free_from = x + half
    yield text(WIDTH - RIGHT + 8, panel.height(panel.values[-1]) + 4, f"{panel.values[-1]} in force")


def drawing(axis, curves, blocks):
    """An axis: each curve has a name and a value a block; blocks are who filled them, in words."""
    title = f"Axis {axis}: {' and '.join(head for head, _ in curves)} over the blocks of the run"
    parts = [f'<svg viewBox="0 0 {WIDTH} {HEIGHT}" width="{WIDTH}" height="{HEIGHT}" role="img">', f"<title>{html.escape(title)}</title>"]
    panels = [Panel(TOP + at * (PANEL + GAP), values) for at, (_, values) in enumerate(curves)]
    for panel, (head, _) in zip(panels, curves):
        parts += [*axes(panel, head, "steps"), steps(panel), *marks(panel, blocks), *numbers(panel), *block_numbers(panel)]
    parts.append(text((LEFT + WIDTH - RIGHT) / 2, panels[-1].bottom + 40, "block", "middle"))
    return "\n".join([*parts, "</svg>"])
