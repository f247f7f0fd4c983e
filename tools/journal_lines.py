"""A journal as crates/run_table prints it: its blocks, the value of each setting in each of them, and who brought the one in force."""
import itertools
import pathlib
import re
import subprocess
from typing import NamedTuple

PROGRAM = pathlib.Path(__file__).resolve().parent / "program"
GOOD = re.compile(r"good block (\d+) channel ([123]) (save|load|store) node (\d+)")
NOT_GOOD = re.compile(r"(blank|neither) block (\d+)")
VALUES = re.compile(r"values ([0-9A-F]{4}:\d+)((?: -?\d+| -)+)")
ORIGIN = re.compile(r"origin ([0-9A-F]{4}:\d+) (-?\d+) (?:factory|block (\d+) channel ([123]) (save|load|store))")
WRONG_LENGTH = "R 1"
BY = {"1": "1", "2": "2", "3": "LSS"}
# For each setting the head of its column and what it is; the groups are as wide as a terminal.
OF_AXIS = {
    1: ("oper", "operating of {}: 1 sign, 2 offsets"),
    2: ("preset", "preset of {}"),
    3: ("offset", "offset of {}"),
    4: ("differ", "differential of {}"),
}
GROUPS = {
    "Heartbeat, PDO and resolution": {
        "1017:0": ("heartbeat", "heartbeat, ms"),
        "1800:1": ("PDO on", "PDO on (1) or off (0)"),
        "1800:2": ("PDO type", "PDO type: SYNCs; 254, 255 timer"),
        "1800:5": ("PDO timer", "PDO timer, ms"),
        "6000:0": ("resolution", "resolution, 0.001 degrees a step"),
    },
    "Axis X (601x) and axis Y (602x)": {
        f"60{tens}{ones}:0": (head, what.format(axis)) for tens, axis in ((1, "X"), (2, "Y")) for ones, (head, what) in OF_AXIS.items()
    },
}
SETTINGS = {pair: names for group in GROUPS.values() for pair, names in group.items()}
MARK = "*"
LEGEND = (
    f"{MARK} brought by this block: the block before has another value. Block 1 brings all.",
    "by: channel 1 (600h and node) or 2 (680h and node), or LSS.",
    "node: the stored number; - for none, then the one given at power-on holds.",
)
JUDGED = {"good": "good, but behind the run", "blank": "blank", "neither": "neither good nor blank"}


class Block(NamedTuple):
    place: int
    judged: str
    by: str = "-"
    kind: str = "-"
    node: str = "-"


class Journal(NamedTuple):
    name: str
    blocks: list
    values: dict  # by pair, one a block
    origins: dict  # by pair: the value in force and who brought it

    def run(self):
        """The leading good blocks, by which the sensor goes."""
        return list(itertools.takewhile(lambda block: block.judged == "good", self.blocks))

    def behind(self):
        return self.blocks[len(self.run()):]

    def is_spoiled(self):
        return any(block.judged != "blank" for block in self.behind())


def printed(name):
    """What run_table prints for a file; nothing where it has said why on standard error."""
    ran = subprocess.run([PROGRAM, "run_table", name], stdout=subprocess.PIPE, encoding="ascii", check=False)
    if ran.returncode:
        raise ValueError(f"no table, and ends with {ran.returncode}")
    return ran.stdout.splitlines()


def who(block, number, kind):
    """Who brought a value: a block with its channel and kind, or the factory."""
    return (block, BY[number], kind) if block else ("factory",)


def read(name, lines):
    """The journal in the lines; ValueError where they are not what run_table prints for a whole journal."""
    journal = Journal(name, [], {}, {})
    for line in lines:
        if found := GOOD.fullmatch(line):
            journal.blocks.append(Block(int(found[1]), "good", BY[found[2]], found[3], "-" if found[4] == "0" else found[4]))
        elif found := NOT_GOOD.fullmatch(line):
            journal.blocks.append(Block(int(found[2]), found[1]))
        elif found := VALUES.fullmatch(line):
            journal.values[found[1]] = found[2].split()
        elif found := ORIGIN.fullmatch(line):
            journal.origins[found[1]] = (found[2], who(*found.groups()[2:]))
        else:
            raise ValueError(f"a line that is not known: {line}")
    if [block.place for block in journal.blocks] != list(range(1, len(journal.blocks) + 1)) or not journal.blocks:
        raise ValueError("blocks out of order")
    if not list(journal.values) == list(journal.origins) == list(SETTINGS) or len(lines) != len(journal.blocks) + 2 * len(SETTINGS):
        raise ValueError("other settings than are known")
    good = [block.judged == "good" for block in journal.blocks]
    if any([value != "-" for value in values] != good for values in journal.values.values()):
        raise ValueError("other values than one for each good block")
    return journal


def marked(cells, before):
    """Cells of a column, marked where one is other than the one above it."""
    return [cell + MARK * (cell != above) for cell, above in zip(cells, [before, *cells])]


def columns(journal):
    """The table of the run, by column: block, by, kind, node, then each setting under its pair."""
    run = journal.run()
    table = {"block": [str(block.place) for block in run], "by": [block.by for block in run], "kind": [block.kind for block in run],
             "node": marked([block.node for block in run], "-")}
    return table | {pair: marked(values[:len(run)], None) for pair, values in journal.values.items()}


def summary(journal):
    blocks = len(journal.blocks)
    spoiled = "; spoiled" if journal.is_spoiled() else ""
    return f"{blocks} block{'s' * (blocks != 1)}; the run, by which the sensor goes, has {len(journal.run()) or 'none'}{spoiled}"


def channel(by):
    return by if by == BY["3"] else f"channel {by}"


def brought_by(origin):
    """Who brought a value, in words."""
    if len(origin) == 1:
        return origin[0]
    block, by, kind = origin
    return f"block {block}, {channel(by)}, {kind}"


def stretches(blocks):
    """Blocks in words, neighbours that are judged alike together."""
    for judged, alike in itertools.groupby(blocks, lambda block: block.judged):
        places = [block.place for block in alike]
        name = f"block {places[0]}" if len(places) == 1 else f"blocks {places[0]} to {places[-1]}"
        yield f"{name}: {JUDGED[judged]}"


def what_follows(journal):
    """What stands behind the run: sentences, then each stretch of blocks."""
    behind = journal.behind()
    if not behind:
        return ["The journal is full: the sensor takes no more saves, loads or stores."], []
    if not journal.is_spoiled():
        return [f"Room for {len(behind)} more: each save, load or store takes one block."], list(stretches(behind))
    first = next(block for block in behind if block.judged != "blank")
    return [f"Spoiled: block {first.place} is the first behind the run that is not blank.",
            "The sensor goes by the run and takes no more saves, loads or stores."], list(stretches(behind))
