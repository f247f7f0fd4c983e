"""Wrong on purpose: tools/journal over a stand-in for run_table with one thing changed, and what it wrote with one thing changed."""
import re
import shutil

from told import ROOT, SETTINGS


class StandIn:
    """A copy of the tool, whose run_table prints the lines that it is given for a journal's name."""

    def __init__(self, folder):
        self.folder, self.tool = folder, folder / "tools" / "journal"
        (folder / "tools").mkdir(parents=True)
        for file in (ROOT / "tools").glob("journal*"):
            shutil.copy(file, folder / "tools")
        program = folder / "tools" / "program"
        program.write_text('#!/bin/sh\ncat "$(dirname "$0")/../$2"\ntest "$2" != broken\n', encoding="ascii")
        program.chmod(0o755)

    def say(self, name, lines):
        (self.folder / name).write_text("".join(f"{line}\n" for line in lines), encoding="ascii")


def edited(lines, form, to):
    """The lines with the first that has this form changed there."""
    at = next(at for at, line in enumerate(lines) if re.search(form, line))
    return [*lines[:at], re.sub(form, to, lines[at], count=1), *lines[at + 1:]]


def with_value(lines, pair, block, value):
    at = next(at for at, line in enumerate(lines) if line.startswith(f"values {pair} "))
    words = lines[at].split()
    return [*lines[:at], " ".join([*words[:1 + block], value, *words[2 + block:]]), *lines[at + 1:]]


def judged(lines, block, what):
    """The lines with another judgement of a block, and no values there."""
    lines = edited(lines, rf"^\w+ block {block}\b.*", f"{what} block {block}")
    for pair in SETTINGS:
        lines = with_value(lines, pair, block, "-")
    return lines


def shortened(lines):
    """The lines without the last block."""
    last = max(int(found[1]) for line in lines if (found := re.match(r"\w+ block (\d+)", line)))
    return [re.sub(r" \S+$", "", line) if line.startswith("values") else line for line in lines if not re.match(rf"\w+ block {last}\b", line)]


def exchanged(lines, first, second):
    """The lines with the values of two settings exchanged."""
    values = {pair: next(line.split()[2:] for line in lines if line.startswith(f"values {pair} ")) for pair in (first, second)}
    said = {f"values {first} ": values[second], f"values {second} ": values[first]}
    return [line[:14] + " ".join(said[line[:14]]) if line[:14] in said else line for line in lines]


def wrong_origins(lines, pair):
    """Each part of who brought a value."""
    yield f"the origin's value of {pair}", edited(lines, f"(origin {pair} )-?[0-9]+", r"\g<1>78")
    yield f"the origin's block of {pair}", edited(lines, f"(origin {pair} .* block )[0-9]+", r"\g<1>7")
    yield f"the origin's channel of {pair}", edited(lines, f"(origin {pair} .* channel )[12]", r"\g<1>3")
    yield f"the origin's kind of {pair}", edited(lines, f"(origin {pair} .* )save", r"\1load")
    yield f"factory for {pair}", edited(lines, f"(origin {pair} -?[0-9]+) .*", r"\1 factory")


def wrong_lines(lines):
    """Label and lines, for the journal in which a zero comes and goes: eight good blocks and two blank ones."""
    for at, pair in enumerate(SETTINGS):
        origins = list(wrong_origins(lines, pair))
        yield f"the value of {pair} in block 3", with_value(lines, pair, 3, "77")
        yield from origins if pair == "6013:0" else [origins[at % len(origins)]]
    yield "a mark less", with_value(lines, "6013:0", 2, "-100")
    yield "a mark more", with_value(lines, "6013:0", 4, "-101")
    yield "another sign", with_value(lines, "6013:0", 6, "100")
    yield "two settings exchanged", exchanged(lines, "6012:0", "6013:0")
    for block in (1, 4, 8):
        yield f"the channel of block {block}", edited(lines, f"(good block {block} channel )1", r"\g<1>2")
        yield f"LSS for block {block}", edited(lines, f"(good block {block} channel )1", r"\g<1>3")
        yield f"the kind of block {block}", edited(lines, f"(good block {block} channel 1) save", r"\1 load")
        yield f"the node of block {block}", edited(lines, f"(good block {block} .* node) [0-9]+", r"\1 47")
    yield "the kind of a load", edited(lines, "channel 1 load", "channel 1 save")
    yield "no node", edited(lines, "(good block 8 .* node) 9", r"\1 0")
    yield "a block behind the run that is not blank", judged(lines, 10, "neither")
    yield "the first behind the run", judged(lines, 9, "neither")
    yield "a run that ends early", judged(lines, 8, "blank")
    yield "a run that ends in the middle", judged(lines, 3, "neither")
    yield "a block less", shortened(lines)


def broken_lines(lines):
    """Name and lines that are not those of a whole journal; of the last, that the program ends with 1."""
    yield "a line more", [*lines, "good"]
    yield "a line less", lines[:-1]
    yield "no block", [line for line in lines if line.startswith(("values", "origin"))]
    yield "blocks only", lines[:10]
    yield "a block twice", [lines[0], *lines]
    yield "blocks exchanged", [lines[1], lines[0], *lines[2:]]
    yield "a value less", [line.removesuffix(" -") for line in lines]
    yield "a setting twice", [*lines, *lines[-2:]]
    yield "settings exchanged", [*lines[:-4], *lines[-2:], *lines[-4:-2]]
    yield "another setting", [line.replace("6024:0", "6025:0") for line in lines]
    yield "no value", with_value(lines, "6013:0", 2, "-")
    yield "a value of a blank block", with_value(lines, "6013:0", 9, "0")
    yield "no number", with_value(lines, "6013:0", 2, "x")
    yield "an answer", ["R 6"]
    yield "broken", lines


def wrong_texts(text):
    """Label and text: what the tool would print with one thing wrong in it."""
    yield "a mark left out", text.replace("-200*", "-200 ")
    yield "a mark put in", text.replace("-100 ", "-100*", 1)
    yield "a value beside its head", text.replace("-200*", " -200*")
    yield "heads exchanged", text.replace("6012   6013", "6013   6012")
    yield "a line in force left out", re.sub(r"\n6013:0 .*", "", text)
    yield "a row left out", re.sub(r"\n +5 .*", "", text)
    yield "a row left out of one table", re.sub(r"\n +5 .*", "", text, count=1)
    yield "more room", text.replace("Room for 2", "Room for 3")
    yield "other blocks behind", text.replace("blocks 9 to 10: blank", "block 9: blank")
    yield "spoiled", text.replace("has 8\n", "has 8; spoiled\n")


def wrong_pages(page):
    """Label and page."""
    yield "a value", page.replace(">-200*<", ">-201*<")
    yield "a mark left out", page.replace(">-200*<", ">-200<")
    yield "a mark by colour alone", page.replace('<td class="brought">-200*<', '<td class="brought">-200<')
    yield "a mark without colour", page.replace('<td class="brought">-200*<', "<td>-200*<")
    yield "a head", page.replace("<small>6013:0</small>", "<small>6014:0</small>")
    yield "an element left open", page.replace("</tbody>", "", 1)
    yield "an element closed twice", page.replace("</h1>", "</h1></h1>")
    yield "a picture from outside", page.replace("<h1>", '<img src="x.png"><h1>')
    yield "a style from outside", page.replace("<style>", "<style>@import 'x.css';")
    yield "no encoding", page.replace('<meta charset="utf-8">', "")
    yield "no number", re.sub(r'cx="[^"]*"', 'cx="nan"', page, count=1)
    yield "no end", re.sub(r'cy="[^"]*"', 'cy="inf"', page, count=1)
    yield "outside the view box", re.sub(r'(<text x=")[^"]*', r"\g<1>9000", page, count=1)
    yield "a dot left out", re.sub(r"<circle.*?</circle>", "", page, count=1)
    yield "a dot with other words", page.replace("block 2: -200, channel 2, save", "block 2: -200, channel 1, save")
    yield "a dot beside its place", re.sub(r'cx="[^"]*"', 'cx="400.0"', page, count=1)
    yield "another line", re.sub(r'(<polyline class="values" points="[^,]*),[^ ]*', r"\g<1>,60.0", page, count=1)
    yield "another scale", re.sub(r'(class="end">)-100<', r"\1-90<", page, count=1)
    yield "upside down", re.sub(r'(y="[0-9.]+" class="end">)(-?[0-9]+)<', lambda found: f"{found[1]}{-int(found[2])}<", page)
    yield "no title", re.sub("<h1>.*</h1>", "", page)
    yield "a drawing left out", re.sub(r"<svg.*?</svg>", "", page, count=1, flags=re.DOTALL)
    yield "another number at a dot", page.replace('class="number">-200<', 'class="number">-201<')
    yield "no number at a dot", re.sub(r'<text [^>]* class="number">.*</text>', "", page)
    yield "no name of an axis", page.replace(">steps<", "><", 1)
    yield "shown as spoiled", page.replace('class="follows"', 'class="follows spoiled"')
    yield "the mark not explained", page.replace("brought by this block", "")
