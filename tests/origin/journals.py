#!/usr/bin/env python3
"""Journals for the tests of ./origin and tools/journal: tests/origin/journals.py FOLDER; tests/origin/build comes first.

The sensor fills them (examples/recorder.c), then some are damaged. FOLDER gets a file a journal, and blocks.json, what each of its blocks
is: good with channel, kind and stored number, blank or neither. That comes from log and damage, not from the bytes. Where the length is
wrong there are no blocks."""
import binascii
import json
import pathlib
import random
import re
import subprocess
import sys

ROOT = pathlib.Path(__file__).resolve().parents[2]
RECORDER = ROOT / "target" / "recorder"
BLOCK, MOST_BLOCKS = 512, 128
BLANK = b"\xff" * BLOCK
BASE = {1: 0x600, 2: 0x680}
WRITE = {1: 0x2F, 2: 0x2B, 4: 0x23}
GIVEN_NODE = 1
FILLED = re.compile(r"(\d+) of (\d+) blocks filled(, spoiled)?,")
# Settings with values among which a random history goes to and fro: index, subindex, bytes. A zero is set by reading and preset.
CHOICES = [(0x1017, 0, 2, (0, 25, 1000, 65535)), (0x1800, 2, 1, (1, 240, 254, 255)), (0x1800, 5, 2, (0, 100, 65535)),
           (0x6000, 0, 2, (1, 10, 100, 1000)), (0x6011, 0, 1, (0, 1, 2, 3)), (0x6021, 0, 1, (0, 1, 2, 3)),
           (0x6014, 0, 2, (0, 7, -32768, 32767)), (0x6024, 0, 2, (0, -2, -32768, 32767))]
PRESETS = (0, -5, 300, -32768, 32767)
READINGS = (0, 12345, 12400, -300, -180000, 180000)


class Sensor:
    """A sensor at its recorder: the log of a run, and what each block is that it fills."""

    def __init__(self, folder, blocks):
        self.path = folder / "filling"
        self.path.write_bytes(BLANK * blocks)
        self.lines, self.filled, self.room = [], [], blocks
        self.node, self.stored = GIVEN_NODE, 0

    def request(self, channel, data):
        self.lines.append(f"F {BASE[channel] + self.node:03X} {data.hex()}")

    def write(self, channel, index, sub, size, value):
        number = (value % (1 << 8 * size)).to_bytes(4, "little")
        self.request(channel, bytes([WRITE[size]]) + index.to_bytes(2, "little") + bytes([sub]) + number)

    def switch_pdo(self, channel, on):
        self.write(channel, 0x1800, 1, 4, (0x40000180 if on else 0xC0000180) + self.node)

    def set_zero(self, channel, axis, reading, preset):
        self.lines.append(f"{axis} {reading}")
        self.write(channel, {"X": 0x6012, "Y": 0x6022}[axis], 0, 2, preset)

    def save(self, channel):
        self.request(channel, b"\x23\x10\x10\x01save")
        self.filled.append(("good", channel, "save", self.stored))

    def load(self, channel):
        self.request(channel, b"\x23\x11\x10\x01load")
        self.filled.append(("good", channel, "load", self.stored))

    def store(self, number):
        """By LSS in Stopped, and back; the number runs from the next power-on."""
        self.lines += ["F 000 0200", "F 7E5 0401000000000000", f"F 7E5 11{number:02X}000000000000", "F 7E5 1700000000000000",
                       "F 000 8000"]
        self.stored = number
        self.filled.append(("good", 3, "store", number))

    def play(self, log):
        self.lines += (ROOT / "examples" / f"{log}.log").read_text(encoding="ascii").splitlines()

    def power_off(self):
        """Runs the log, from power-on; the next one starts over the same journal."""
        log = "".join(f"{line}\n" for line in self.lines)
        ran = subprocess.run([RECORDER, str(GIVEN_NODE), self.path], input=log, capture_output=True, text=True, check=False)
        said = FILLED.search(ran.stdout)
        if not said or said.groups() != (str(len(self.filled)), str(self.room), None):
            sys.exit(f"FAILED: {len(self.filled)} of {self.room} blocks should be filled, the recorder says {ran.stdout[-200:]}{ran.stderr}")
        self.lines, self.node = [], self.stored or GIVEN_NODE

    def journal(self):
        self.power_off()
        return self.path.read_bytes(), self.filled + [("blank",)] * (self.room - len(self.filled))


def change_something(sensor, chance):
    channel = chance.choice((1, 2))
    kind = chance.randrange(4)
    if kind == 0:
        index, sub, size, values = chance.choice(CHOICES)
        sensor.write(channel, index, sub, size, chance.choice(values))
    elif kind == 1:
        sensor.switch_pdo(channel, chance.choice((True, False)))
    else:
        sensor.set_zero(channel, chance.choice("XY"), chance.choice(READINGS), chance.choice(PRESETS))


def random_history(folder, blocks, filled, seed):
    """Saves mostly, with loads and stores among them, and a power-on every few blocks."""
    sensor, chance = Sensor(folder, blocks), random.Random(seed)
    while len(sensor.filled) < filled:
        for _ in range(chance.randrange(5)):
            change_something(sensor, chance)
        kind = chance.randrange(10)
        if kind == 0:
            sensor.store(chance.randint(1, 47))
        elif kind == 1:
            sensor.load(chance.choice((1, 2)))
        else:
            sensor.save(chance.choice((1, 2)))
        if chance.randrange(12) == 0:
            sensor.power_off()
    return sensor.journal()


def come_and_go(folder):
    """The zero -100 of X comes, goes, comes again, goes by a load, comes a third time in block 6 and is carried on, over three runs."""
    sensor = Sensor(folder, 10)
    sensor.set_zero(1, "X", 1000, 0)
    sensor.save(1)
    sensor.set_zero(2, "X", 2000, 0)
    sensor.save(2)
    sensor.power_off()
    sensor.set_zero(2, "X", 1000, 0)
    sensor.save(2)
    sensor.write(1, 0x1017, 0, 2, 1000)
    sensor.save(1)
    sensor.load(1)
    sensor.save(2)
    sensor.store(9)
    sensor.power_off()
    sensor.switch_pdo(2, False)
    sensor.save(1)
    return sensor.journal()


def played(folder, blocks, log, filled):
    sensor = Sensor(folder, blocks)
    sensor.play(log)
    sensor.filled = filled
    return sensor.journal()


def saved_only(folder, blocks, channel):
    sensor = Sensor(folder, blocks)
    for _ in range(blocks):
        sensor.save(channel)
    return sensor.journal()


def by_the_sensor(folder):
    zeros = [("good", 1, "save", 0), ("good", 2, "save", 0), ("good", 1, "save", 0), ("good", 3, "store", 5)]
    settings = [("good", 1, "load", 0), ("good", 2, "save", 0), ("good", 3, "store", 5)]
    return {
        "blank": Sensor(folder, 8).journal(),
        "one blank": Sensor(folder, 1).journal(),
        "one filled": saved_only(folder, 1, 2),
        "all alike": saved_only(folder, MOST_BLOCKS, 1),
        "zeros": played(folder, 8, "zeros", zeros),
        "settings": played(folder, 3, "settings", settings),
        "come and go": come_and_go(folder),
        "forty": random_history(folder, 64, 40, 40),
        "full": random_history(folder, MOST_BLOCKS, MOST_BLOCKS, 128),
    }


def block(journal, place):
    return journal[0][(place - 1) * BLOCK:place * BLOCK]


def first(journal, blocks):
    return journal[0][:blocks * BLOCK], journal[1][:blocks]


def put(journal, place, data, what):
    """A journal with other bytes at a place, and what the block there is then."""
    contents, blocks = journal
    return contents[:(place - 1) * BLOCK] + data + contents[place * BLOCK:], [*blocks[:place - 1], what, *blocks[place:]]


def edited(data, at, *numbers, sealed=True):
    """A block with other bytes from one on; sealed, its check is right again."""
    data = data[:at] + bytes(numbers) + data[at + len(numbers):]
    return data[:510] + binascii.crc_hqx(data[:510], 0).to_bytes(2, "little") if sealed else data


def flipped(journal, place, at, bit):
    data = block(journal, place)
    return put(journal, place, edited(data, at, data[at] ^ 1 << bit, sealed=False), ("neither",))


def not_made(zeros):
    """Blocks that no sensor fills and that are good still, since channel, kind and number are judged each by itself; one with number 48."""
    journal = put(zeros, 3, edited(block(zeros, 3), 4, 3, 2), ("good", 3, "load", 0))
    journal = put(journal, 4, edited(block(zeros, 4), 28, 47), ("good", 3, "store", 47))
    return put(journal, 5, edited(edited(block(zeros, 4), 28, 48), 0, 5), ("neither",))


def damaged(made):
    neither = ("neither",)
    zeros, again, forty, full = made["zeros"], made["come and go"], made["forty"], made["full"]
    return {
        "a bit in the middle": flipped(first(forty, 12), 6, 18, 3),
        "a bit in the first": flipped(again, 1, 509, 7),
        "a bit in the last": flipped(full, 128, 510, 0),
        "a stray block": put(zeros, 7, block(zeros, 2), neither),
        "a gap": put(again, 3, BLANK, ("blank",)),
        "zeros behind": put(zeros, 5, bytes(BLOCK), neither),
        "half written": put(first(forty, 16), 13, block(forty, 13)[:256] + BLANK[256:], neither),
        "one byte not blank": put(zeros, 8, BLANK[1:] + b"\x7f", neither),
        "not made": not_made(zeros),
        "out of range": put(again, 4, edited(block(again, 4), 12, 20), neither),
        "exchanged": put(put(again, 2, block(again, 3), neither), 3, block(again, 2), neither),
        "a byte behind": put(zeros, 2, edited(block(zeros, 2), 100, 1), neither),
        "noise": (random.Random(1).randbytes(4 * BLOCK), [neither] * 4),
    }


def wrong_lengths(full):
    return {f"{length} bytes": ((full + BLANK + BLANK)[:length], []) for length in (0, 1, 511, 513, 1025, 65535, 65537, 65536 + 512)}


def main():
    folder = pathlib.Path(sys.argv[1])
    made = by_the_sensor(folder)
    made |= damaged(made)
    made |= wrong_lengths(made["full"][0])
    (folder / "filling").unlink()
    for name, (contents, _) in made.items():
        (folder / name).write_bytes(contents)
    (folder / "blocks.json").write_text(json.dumps({name: blocks for name, (_, blocks) in made.items()}), encoding="ascii")


if __name__ == "__main__":
    main()
