"""What tools/journal tells of a journal, from its text; and what it should tell, from the reference and from what filled and damaged the journal."""
import itertools
import pathlib
import re
import subprocess
import tempfile
from typing import NamedTuple

ROOT = pathlib.Path(__file__).resolve().parents[2]
REFERENCE = ROOT / "target" / "reference" / "origin"
BLOCK = 512
SETTINGS = "1017:0 1800:1 1800:2 1800:5 6000:0 6011:0 6012:0 6013:0 6014:0 6021:0 6022:0 6023:0 6024:0".split()
PLAIN = ["block", "by", "kind", "node"]
JUDGED = {"good": "good, but behind the run", "blank": "blank", "neither": "neither good nor blank"}
FIRST_LINE = re.compile(r"(.*): (\d+) blocks?; the run, by which the sensor goes, has (none|\d+)(; spoiled)?")
IN_FORCE = re.compile(r"([0-9A-F]{4}:\d) .* +(-?\d+)  (.*)")
STRETCH = re.compile(r"blocks? (\d+)(?: to (\d+))?: (.*)")
FOLLOWS = {
    "full": re.compile(r"The journal is full: the sensor takes no more saves, loads or stores\."),
    "room": re.compile(r"Room for (\d+) more: each save, load or store takes one block\."),
    "spoiled": re.compile(r"Spoiled: block (\d+) is the first behind the run that is not blank\. "
                          r"The sensor goes by the run and takes no more saves, loads or stores\."),
}


class Told(NamedTuple):
    counts: tuple  # blocks, those of the run, whether it is spoiled
    rows: list  # the run: a dictionary a block, from a column's name to its cell
    in_force: dict  # from a pair to its value and who brought it
    follows: tuple  # full, room or spoiled, and the number there
    behind: dict  # from a place behind the run to what its block is


def counts_in(words):
    found = FIRST_LINE.fullmatch(words)
    return found and (int(found[2]), 0 if found[3] == "none" else int(found[3]), bool(found[4]))


def follows_in(sentences):
    """Which of the three it is; nothing where it is none of them."""
    for name, form in FOLLOWS.items():
        if found := form.fullmatch(sentences):
            return name, int(found[1]) if found.groups() else 0
    return None


def behind_in(stretches):
    """What each block behind the run is; a line that is no stretch stands for itself."""
    behind = {}
    for line in stretches:
        found = STRETCH.fullmatch(line)
        last = int(found[2] or found[1]) if found else 0
        behind |= {place: found[3] for place in range(int(found[1]), last + 1)} if found else {line: "no stretch"}
    return behind


def under(heads_line, line):
    """The cells of a line by name, each setting under its head: a marked one ends with it, another one a place before."""
    heads, cells = list(re.finditer(r"\S+", heads_line)), list(re.finditer(r"\S+", line))
    settings = cells[len(PLAIN):]
    ends = [head.end() - (not cell[0].endswith("*")) for head, cell in zip(heads, settings)]
    if len(settings) != len(heads) or [cell.end() for cell in settings] != ends:
        return {"not under its head": line}
    names = [*PLAIN, *(head[0] if ":" in head[0] else f"{head[0]}:0" for head in heads)]
    return dict(zip(names, [cell[0] for cell in cells]))


def text_rows(sections):
    """The rows of the tables, side by side."""
    with_rows = [section for section in sections if len(section) > 3 and section[1].split()[:len(PLAIN)] == PLAIN]
    tables = [[under(section[2], line) for line in section[3:]] for section in with_rows]
    rows = []
    for parts in itertools.zip_longest(*tables, fillvalue={}):
        blocks = [[part.get(name) for name in PLAIN] for part in parts]
        is_one = all(block == blocks[0] for block in blocks)
        rows.append({name: cell for part in parts for name, cell in part.items()} if is_one else {"other blocks": blocks})
    return rows


def told_by_text(text):
    sections = [section.split("\n") for section in text.removesuffix("\n").split("\n\n")]
    in_force = [IN_FORCE.fullmatch(line) for section in sections if section[0].startswith("In force") for line in section[1:]]
    behind = sections[-1][1:]
    stretches = [line for line in behind if line.startswith("block")]
    sentences = " ".join(line for line in behind if line not in stretches)
    return Told(counts_in(sections[0][0]), text_rows(sections), {line[1]: (line[2], line[3]) for line in in_force if line},
                follows_in(sentences), behind_in(stretches))


KNOWN = {}  # what the reference said, by the bytes of a cut-off journal


def ask_reference(beginnings):
    """Keeps what the reference says of every setting of these journals."""
    with tempfile.TemporaryDirectory() as folder:
        for number, contents in enumerate(beginnings):
            (pathlib.Path(folder) / str(number)).write_bytes(contents)
        script = f'for file in $(seq 0 {len(beginnings) - 1}); do for pair in {" ".join(SETTINGS)}; do "$0" $file $pair; done; done'
        said = iter(subprocess.run(["sh", "-c", script, REFERENCE], cwd=folder, capture_output=True, text=True, check=True).stdout.splitlines())
    KNOWN.update({contents: {pair: next(said) for pair in SETTINGS} for contents in beginnings})


def reference_lines(contents, places):
    """What the reference says of each setting of a journal that is cut off behind each place."""
    beginnings = {place: contents[:place * BLOCK] for place in places}
    ask_reference([beginning for beginning in beginnings.values() if beginning not in KNOWN])
    return {place: KNOWN[beginning] for place, beginning in beginnings.items()}


def channel_words(number):
    return "LSS" if number in ("3", "LSS") else f"channel {number}"


def who(line):
    """Value and bringer in the tool's words."""
    words = line.split()
    return words[0], "factory" if words[1] == "factory" else f"block {words[2]}, {channel_words(words[4])}, {words[5]}"


def row(place, block, before, lines):
    """A block's row: what the cut-off journal brings in this very block is marked; so is a node number that is not the one before."""
    _, channel, kind, node = block
    number = f"{node or '-'}{'*' if node != before else ''}"
    cells = {pair: line.split()[0] + ("*" if line.split()[1:3] == ["block", str(place)] else "") for pair, line in lines.items()}
    return {"block": str(place), "by": "LSS" if channel == 3 else str(channel), "kind": kind, "node": number} | cells


def expected(contents, blocks):
    """What is to be told of a journal whose blocks are known."""
    run = list(itertools.takewhile(lambda block: block[0] == "good", blocks))
    lines = reference_lines(contents, sorted({*range(1, len(run) + 1), len(blocks)}))
    nodes = [0, *(block[3] for block in run)]
    rows = [row(place, block, nodes[place - 1], lines[place]) for place, block in enumerate(run, 1)]
    behind = dict(enumerate((JUDGED[block[0]] for block in blocks[len(run):]), len(run) + 1))
    bad = [place for place, judged in behind.items() if judged != "blank"]
    follows = ("spoiled", bad[0]) if bad else ("room", len(behind)) if behind else ("full", 0)
    return Told((len(blocks), len(run), bool(bad)), rows, {pair: who(line) for pair, line in lines[len(blocks)].items()}, follows, behind)


def differences(told, right):
    for what, said, wanted in zip(Told._fields, told, right):
        if said != wanted:
            places = [(a, b) for a, b in itertools.zip_longest(said, wanted) if a != b] if isinstance(said, list) else [(said, wanted)]
            yield f"{what}: {places[0][0]}, not {places[0][1]}"
