#!/usr/bin/env python3
"""Prints a long, always equal input for the trace program."""
import sys

READ, SEGMENT, TOGGLED, ABORT = 0x40, 0x60, 0x70, 0x80
WRITES = (0x22, 0x23, 0x27, 0x2B, 0x2F)
EXACT = {1: 0x2F, 2: 0x2B, 4: 0x23}
SAVE, LOAD = 0x65766173, 0x64616F6C
NAME = (0x1008, 0)
LSS = 0x7E5
SWITCH, SET_NUMBER, STORE, INQUIRE_NUMBER = 0x04, 0x11, 0x17, 0x5E
SELECT = (0x40, 0x41, 0x42, 0x43)
INQUIRE = (0x5A, 0x5B, 0x5C, 0x5D, INQUIRE_NUMBER)
NO_LSS = (0x00, 0x03, 0x05, 0x10, 0x12, 0x13, 0x15, 0x18, 0x3F, 0x44, 0x46, 0x4C, 0x59, 0x5F, 0xC0)

# Index, subindex and size of every object; the text has size 0.
OBJECTS = (
    [(0x1000, 0, 4), (0x1001, 0, 1), (0x1003, 0, 1)]
    + [(0x1003, n, 4) for n in range(1, 6)]
    + [(0x1005, 0, 4), (0x1008, 0, 0), (0x1010, 0, 1), (0x1010, 1, 4),
       (0x1011, 0, 1), (0x1011, 1, 4), (0x1014, 0, 4), (0x1017, 0, 2), (0x1018, 0, 1)]
    + [(0x1018, n, 4) for n in range(1, 5)]
    + [(0x1200, 0, 1), (0x1200, 1, 4), (0x1200, 2, 4),
       (0x1201, 0, 1), (0x1201, 1, 4), (0x1201, 2, 4),
       (0x1800, 0, 1), (0x1800, 1, 4), (0x1800, 2, 1), (0x1800, 5, 2),
       (0x1A00, 0, 1), (0x1A00, 1, 4), (0x1A00, 2, 4),
       (0x2100, 0, 2), (0x2101, 0, 2), (0x6000, 0, 2)]
    + [(base + n, 0, size) for base in (0x6010, 0x6020)
       for n, size in enumerate((2, 1, 2, 2, 2))]
)


def pdo_identifier(node, on):
    return (0x40000180 if on else 0xC0000180) + node


def writable_values(node):
    """Accepted and refused values of each object that can be written."""
    angles = [0, 1, 0xFFFF, 0x7FFF, 0x8000, 0x1234]
    return {
        (0x1003, 0): (1, [0], [1, 5, 0xFF]),
        (0x1010, 1): (4, [SAVE], [LOAD, 0, SAVE + 1, SAVE ^ 0x80000000, 0x73617665]),
        (0x1011, 1): (4, [LOAD], [SAVE, 0, LOAD + 1, LOAD ^ 0x80000000, 0x6C6F6164]),
        (0x1017, 0): (2, [25, 26, 100, 65535, 0], [1, 24, 10]),
        (0x1800, 1): (4, [pdo_identifier(node, False), pdo_identifier(node, True)],
                      [0, 0x180 + node, 0x80000180 + node, pdo_identifier(node, True) + 1,
                       pdo_identifier(node, False) - 1, 0x60000180 + node]),
        (0x1800, 2): (1, [1, 2, 239, 240, 255, 254], [0, 241, 252, 253]),
        (0x1800, 5): (2, [0, 1, 65535, 100], []),
        (0x6000, 0): (2, [1, 100, 1000, 10], [0, 2, 9, 11, 999, 1001, 10000, 0xFFFF]),
        (0x6011, 0): (1, [1, 2, 3, 0], [4, 0x80, 0xFF]),
        (0x6021, 0): (1, [1, 2, 3, 0], [4, 0x80, 0xFF]),
        (0x6012, 0): (2, angles, []),
        (0x6022, 0): (2, angles, []),
        (0x6014, 0): (2, angles + [0], []),
        (0x6024, 0): (2, angles + [0], []),
    }


class Chance:
    """A small fixed generator, equal on every machine."""

    def __init__(self, seed):
        self.state = seed

    def number(self, below):
        state = self.state
        state ^= (state << 13) & 0xFFFFFFFF
        state ^= state >> 17
        state ^= (state << 5) & 0xFFFFFFFF
        self.state = state
        return (state >> 3) % below

    def pick(self, things):
        return things[self.number(len(things))]

    def one_in(self, count):
        return self.number(count) == 0


class Trace:
    """Writes lines and knows the node in force."""

    def __init__(self, output):
        self.output = output
        self.node = 1
        self.number_set = 0

    def raw(self, data):
        self.output.write(data)

    def line(self, text):
        self.raw(text.encode("ascii") + b"\n")

    def power_on(self, node):
        if 1 <= node <= 47:
            self.node = node
        self.number_set = 0
        self.line("P %02X" % node)

    def frame(self, identifier, data=b"", digits=3):
        text = "F %0*X" % (digits, identifier)
        self.line(text + " " + data.hex().upper() if data else text)

    def tick(self, ms):
        self.line("T %d" % ms)

    def reading(self, axis, value):
        self.line("%s %d" % (axis, value))

    def network(self, command, node=None):
        named = self.node if node is None else node
        self.frame(0, bytes([command, named]))
        if command in (0x81, 0x82) and named in (0, self.node) and self.number_set:
            self.node = self.number_set

    def start(self):
        self.network(0x01)

    def stop(self):
        self.network(0x02)

    def pre_operational(self):
        self.network(0x80)

    def sync(self):
        self.frame(0x80)

    def request(self, channel, first, index=0, sub=0, value=0):
        data = bytes([first, index & 0xFF, index >> 8, sub]) + value.to_bytes(4, "little")
        self.frame((0x600, 0x680)[channel] + self.node, data)

    def read(self, channel, index, sub=0):
        self.request(channel, READ, index, sub)

    def write(self, channel, index, sub, size, value):
        self.request(channel, EXACT[size], index, sub, value)

    def both_read(self, index, sub=0):
        self.read(0, index, sub)
        self.read(1, index, sub)

    def pdo_type(self, kind):
        self.write(0, 0x1800, 2, 1, kind)

    def pdo_timer(self, ms):
        self.write(0, 0x1800, 5, 2, ms)

    def heartbeat(self, ms):
        self.write(0, 0x1017, 0, 2, ms)

    def lss(self, command, value=0, unused=0):
        self.frame(LSS, bytes([command]) + value.to_bytes(4, "little") + unused.to_bytes(3, "little"))

    def several_lss(self, commands):
        for command in commands:
            self.lss(command)

    def configuration(self):
        self.stop()
        self.lss(SWITCH, 1)

    def waiting(self):
        self.stop()
        self.lss(SWITCH, 0)

    def set_number(self, number):
        """Only for a sensor in configuration, where a fitting number is taken at the next reset."""
        self.lss(SET_NUMBER, number)
        if 1 <= number <= 47:
            self.number_set = number


def before_power_on(t):
    t.line("T 0")
    t.line("T 65536")
    t.line("X 5")
    t.line("Y -200000")
    t.line("F 000 0101")
    t.line("F 800")
    t.line("F 601 112233445566778899")
    t.line("")
    for node in (0x00, 0x30, 0xFF):
        t.power_on(node)
        t.tick(1)


def sample(t):
    t.power_on(1)
    t.start()
    t.reading("X", 12345)
    t.read(0, 0x6010)
    t.read(1, 0x6010)
    t.write(1, 0x1010, 1, 4, SAVE)
    t.tick(100)
    t.write(0, 0x6000, 0, 1, 3)


def refused_power_ons(t):
    t.power_on(0x2F)
    t.both_read(0x1014)
    for node in (0x00, 0x30, 0xFF):
        t.power_on(0x2F)
        t.power_on(node)
        t.frame(0, bytes([0x81, 0]))
        t.tick(100)
    t.line("P 0a")
    t.line("F 60a 4014100000000000")
    t.line("F 0000060A 4014100000000000")
    t.line("P 2f")
    t.line("F 62F 4000120100000000")
    t.line("f 62F 4000120100000000")
    t.line("F 6af 4001120200000000")


def every_read(t):
    t.power_on(0x2F)
    for index, sub, _ in OBJECTS:
        t.read(0, index, sub)
    t.start()
    t.reading("X", -12345)
    t.reading("Y", 54321)
    for index, sub, _ in OBJECTS:
        t.request(1, READ, index, sub, 0xFFFFFFFF)
    t.reading("X", 180001)
    t.reading("Y", -180001)
    for index, sub, _ in OBJECTS:
        if index < 0x1005 or index > 0x2000:
            t.read(0, index, sub)


def every_write_length(t):
    for channel in (0, 1):
        t.power_on(5 + channel)
        t.reading("X", 1000)
        t.reading("Y", -1000)
        values = writable_values(t.node)
        for place, (index, sub, _) in enumerate(OBJECTS):
            if (index, sub) in values:
                for first in WRITES:
                    t.request(channel, first, index, sub, values[index, sub][1][0])
            else:
                for first in WRITES[(place + channel) % 2::2]:
                    t.request(channel, first, index, sub)


def every_written_value(t):
    for channel in (0, 1):
        t.power_on(0x10 + channel)
        t.reading("X", 200)
        t.reading("Y", 300)
        for (index, sub), (size, good, bad) in writable_values(t.node).items():
            for value in good + bad:
                t.write(channel, index, sub, size, value)
            t.read(1 - channel, index, sub)
            t.request(channel, 0x22, index, sub, good[-1] | (0xA5A5A5A5 << 8 * size) & 0xFFFFFFFF)
        t.both_read(0x6013)
        t.both_read(0x6023)


def first_bytes(t):
    t.power_on(7)
    for first in sorted(set(range(0, 256, 16)) | set(range(0x20, 0x31)) | {0x5F, 0x7F, 0xA1, 0xFF}):
        t.request(0, first, 0x1000, 0, 0x12345678)
    for first in (0x00, 0x21, 0x26, 0x2A, 0x41, 0x61, 0x71, 0x81, 0xA0):
        t.read(1, *NAME)
        t.request(1, first, 0x6543, 0x21, 0xFFFFFFFF)
        t.request(1, SEGMENT)


def unknown_objects(t):
    t.power_on(8)
    known = {index for index, _, _ in OBJECTS}
    near = sorted({index + step for index in known for step in (-1, 1)} - known)
    for step, index in enumerate(near + [0x0000, 0x0010, 0x1400, 0x1F00, 0x6FFF, 0x7010, 0xFFFF]):
        t.request(step % 2, (READ, 0x23, 0x27)[step % 3], index, 0xFF)
    for index in sorted(known):
        above = max(sub for one, sub, _ in OBJECTS if one == index) + 1
        t.read(1, index, above)
        t.request(0, 0x27, index, above)
        t.request(index % 2, READ, index, 0xFF)
    for sub in (3, 4):
        t.both_read(0x1800, sub)
        t.write(0, 0x1800, sub, 2, 1)


def network_commands(t):
    t.power_on(9)
    t.heartbeat(25)
    t.write(1, 0x1010, 1, 4, SAVE)
    for node in (9, 0, 8, 0x89):
        for command in (0x01, 0x02, 0x80, 0x81, 0x82, 0x03):
            t.network(command, node)
            t.tick(25)
            t.network(0x80)
    for command in (0x00, 0x7F, 0x83, 0xFF):
        t.network(command)
        t.tick(25)
    for length in range(0, 10):
        t.frame(0, bytes([0x02, 0x09] + [0] * 7)[:length])
        t.tick(25)
        t.network(0x80, 0)
    for first in (0x01, 0x02):
        for second in (0x01, 0x02, 0x80, 0x81, 0x82):
            t.heartbeat(50)
            t.network(first)
            t.tick(30)
            t.network(second)
            t.read(0, 0x1017)
            t.tick(20)
            t.network(0x80)


def segments(t):
    t.power_on(0x0B)
    for channel in (0, 1):
        t.request(channel, SEGMENT)
        t.request(channel, TOGGLED)
    steps = [(0, READ), (1, READ), (0, SEGMENT), (1, SEGMENT), (1, TOGGLED), (0, TOGGLED),
             (0, SEGMENT), (1, TOGGLED),
             (0, READ), (1, READ), (0, TOGGLED), (1, SEGMENT), (0, SEGMENT), (1, SEGMENT),
             (1, TOGGLED),
             (0, READ), (0, SEGMENT), (0, SEGMENT), (0, TOGGLED),
             (1, READ), (0, READ), (0, ABORT), (0, SEGMENT), (1, SEGMENT), (1, ABORT),
             (1, TOGGLED),
             (0, READ), (0, SEGMENT), (0, READ), (0, SEGMENT), (0, TOGGLED), (0, TOGGLED),
             (1, READ), (1, SEGMENT), (0, 0x61), (1, 0x71), (1, TOGGLED)]
    for channel, first in steps:
        index = 0x1008 if first == READ else 0
        t.request(channel, first, index)
    for first, index, sub, value in (
            (READ, 0x1000, 0, 0), (READ, 0x9999, 0, 0), (0x2B, 0x1017, 0, 0), (0x2B, 0x1017, 0, 1),
            (0x23, 0x1008, 0, 0), (ABORT, 0x6010, 0, 0x08000000), (0x41, 0x1008, 0, 0)):
        for channel in (0, 1):
            t.read(0, *NAME)
            t.read(1, *NAME)
            t.request(channel, first, index, sub, value)
            t.request(0, SEGMENT, 0x5555, 5, 0x55555555)
            t.request(1, SEGMENT)
    segments_across_commands(t)
    t.read(0, *NAME)
    for length in range(1, 8):
        t.frame(0x600 + t.node, bytes([ABORT, 0, 0, 0, 0, 0, 0])[:length])
    t.request(0, SEGMENT)


def segments_across_commands(t):
    for command in (0x01, 0x02, 0x80, 0x81, 0x82):
        t.read(0, *NAME)
        t.read(1, *NAME)
        t.request(1, SEGMENT)
        t.network(command)
        t.request(0, SEGMENT)
        t.request(1, TOGGLED)
        t.request(1, ABORT)
        t.pre_operational()
        t.request(0, SEGMENT)
        t.request(1, TOGGLED)


def saves_until_full(t):
    for words in ((SAVE, SAVE, SAVE), (LOAD, LOAD, LOAD), (SAVE, LOAD, SAVE), (LOAD, SAVE, LOAD)):
        t.power_on(0x0C)
        t.start()
        t.reading("X", 4321)
        t.reading("Y", -4321)
        for step, word in enumerate(words):
            channel = step % 2
            t.heartbeat(1000 + step)
            t.pdo_type(2 + step)
            t.write(0, 0x6000, 0, 2, (1, 100, 1000)[step])
            t.write(1, 0x6014, 0, 2, 50 + step)
            t.write(1, 0x6012, 0, 2, 7 + step)
            t.write(0, 0x6021, 0, 1, 1 + step)
            t.request(channel, 0x2B, 0x1010, 1, word)
            t.write(channel, 0x1010, 1, 4, SAVE if word == SAVE else SAVE ^ 1)
            t.write(channel, 0x1011, 1, 4, LOAD if word == LOAD else LOAD ^ 1)
            t.read(channel, 0x2100)
            t.network((0x82, 0x81, 0x82)[step])
            for index, sub in ((0x1017, 0), (0x1800, 2), (0x6000, 0), (0x6013, 0), (0x6021, 0)):
                t.read(channel, index, sub)
            t.reading("X", 4321)
        t.request(0, 0x22, 0x1010, 1, SAVE)
        t.request(1, 0x22, 0x1011, 1, LOAD)
        t.read(0, 0x2100)
    t.power_on(0x0C)
    t.read(0, 0x2100)
    t.read(0, 0x1017)


def readings(t):
    for command in (0x01, 0x02, 0x80):
        t.power_on(0x0D)
        t.heartbeat(30)
        t.network(command)
        for axis, value in (("X", 180000), ("X", 180001), ("X", 2147483647), ("Y", -180001),
                            ("X", -180000), ("Y", -180000), ("Y", 0), ("X", -2147483648),
                            ("X", 1), ("X", 200000), ("Y", 200000), ("Y", 5), ("X", 6)):
            t.reading(axis, value)
            t.read(0, 0x1001)
        t.tick(100)
        t.pre_operational()
        for sub in range(0, 6):
            t.read(sub % 2, 0x1003, sub)
        t.write(0, 0x1003, 0, 1, 1)
        t.write(0, 0x1003, 0, 1, 0)
        t.write(0, 0x1003, 0, 1, 0)
        t.read(0, 0x1003, 1)
        t.reading("Y", 999999)
        t.write(0, 0x1003, 0, 1, 0)
        t.read(0, 0x1001)
        t.read(0, 0x6020)
        t.write(0, 0x6022, 0, 2, 0)
        t.network(0x82)
        t.read(0, 0x1001)
        t.reading("Y", 999999)
        t.reading("X", 180001)
        t.read(0, 0x1003, 1)
        t.read(0, 0x1003, 2)
        t.stop()
        t.network(0x81)
        t.read(0, 0x1001)
        t.read(0, 0x1003)
        t.read(0, 0x6010)


def angles(t):
    t.power_on(0x0E)
    t.start()
    for resolution in (1, 10, 100, 1000):
        t.write(0, 0x6000, 0, 2, resolution)
        for axis, base in (("X", 0x6010), ("Y", 0x6020)):
            for step, value in enumerate((-180000, 180000, -19, 12345)):
                t.reading(axis, value)
                t.write(1, base + 1, 0, 1, step)
                t.read(0, base)
            t.write(0, base + 4, 0, 2, 0xFF38)
            t.write(1, base + 2, 0, 2, 0x1FFF)
            t.read(0, base + 3)
            t.read(0, base)
        t.tick(100)


def zeros(t):
    t.power_on(0x0E)
    t.write(0, 0x6000, 0, 2, 1)
    for axis, base in (("X", 0x6010), ("Y", 0x6020)):
        t.write(0, base + 2, 0, 2, 0)
        t.reading(axis, 32000)
        for preset in (-768, -769, -767, 32767, -32768):
            t.write(0, base + 2, 0, 2, preset & 0xFFFF)
            t.read(0, base + 2)
            t.read(0, base + 3)
        t.write(0, base + 1, 0, 1, 1)
        for preset in (767, 768):
            t.write(0, base + 2, 0, 2, preset)
            t.read(0, base + 3)
        for value, preset in ((40000, 0x8000), (-40000, 0x7FFF), (60000, 0)):
            t.reading(axis, value)
            t.write(1, base + 2, 0, 2, preset)
            t.read(0, base + 3)
        t.write(0, base + 4, 0, 2, 0x7FFF)
        t.write(0, base + 1, 0, 1, 2)
        t.read(0, base)
        t.write(0, base + 2, 0, 2, 0)
        t.write(0, base + 4, 0, 2, 0x8000)
        t.read(0, base)
    t.start()
    t.tick(100)


def ticks(t):
    t.power_on(0x0F)
    t.tick(65535)
    t.heartbeat(25)
    for ms in (0, 24, 0, 1, 24, 2, 24, 1, 65535, 25, 26, 0, 12, 12, 1):
        t.tick(ms)
    t.start()
    for ms in (99, 1, 100, 101, 65535, 50, 49, 0, 1):
        t.tick(ms)
    t.heartbeat(0)
    t.tick(65535)
    t.heartbeat(65535)
    t.pdo_timer(65535)
    for ms in (65534, 1, 65534, 65535, 0, 65535, 65535):
        t.tick(ms)
    t.pdo_timer(1)
    for ms in (0, 1, 2):
        t.tick(ms)
    t.pdo_timer(0)
    t.tick(65535)


def writes_between_ticks(t):
    t.pdo_timer(100)
    t.tick(60)
    t.start()
    t.tick(60)
    t.tick(40)
    t.tick(60)
    t.pdo_timer(100)
    t.tick(60)
    t.write(0, 0x1800, 1, 4, pdo_identifier(t.node, True))
    t.tick(60)
    t.pdo_type(255)
    t.tick(60)
    t.pdo_type(253)
    t.tick(40)
    t.write(0, 0x1800, 1, 4, pdo_identifier(t.node, False))
    t.tick(1000)
    t.write(0, 0x1800, 1, 4, pdo_identifier(t.node, True))
    t.tick(60)
    t.pre_operational()
    t.tick(1000)
    t.stop()
    t.heartbeat(25)
    t.tick(65535)
    t.start()
    t.tick(60)
    t.heartbeat(40)
    t.tick(30)
    t.heartbeat(24)
    t.tick(10)
    t.tick(30)
    t.heartbeat(40)
    t.tick(10)
    t.tick(30)
    t.network(0x82)
    t.start()
    t.tick(99)
    t.tick(1)


def syncs(t):
    t.power_on(0x11)
    t.reading("X", 1110)
    t.start()
    for kind, count in ((1, 3), (2, 5), (240, 245), (254, 3), (255, 3)):
        t.pdo_type(kind)
        for _ in range(count):
            t.sync()
        t.tick(99)
        t.tick(1)
    t.pdo_type(3)
    t.sync()
    t.sync()
    t.pdo_type(0)
    t.sync()
    for change in (lambda: t.pdo_type(3), t.start, lambda: t.pdo_timer(5),
                   lambda: t.write(1, 0x1800, 1, 4, pdo_identifier(t.node, True))):
        t.sync()
        t.sync()
        change()
        t.sync()
    t.pre_operational()
    t.sync()
    t.stop()
    t.sync()
    t.start()
    t.sync()
    t.write(0, 0x1800, 1, 4, pdo_identifier(t.node, False))
    t.pdo_type(1)
    t.sync()
    t.tick(65535)
    t.write(0, 0x1800, 1, 4, pdo_identifier(t.node, True))
    for length in range(0, 10):
        t.frame(0x80, bytes(9)[:length])


def frame_lengths(t):
    t.power_on(0x12)
    t.start()
    request = bytes([READ, 0x00, 0x10, 0, 0, 0, 0, 0, 0])
    for identifier in (0x600 + t.node, 0x680 + t.node, 0x601, 0x580 + t.node, 0x7FF):
        for length in range(0, 10):
            t.frame(identifier, request[:length])
    for identifier in (0x800, 0xFFF, 0x1000, 0x10612, 0x80000612, 0xFFFFFFFF, 0x800000):
        t.frame(identifier)
        t.frame(identifier, request[:8])
        t.frame(identifier, request)
    for digits in range(1, 9):
        t.frame(0x80, digits=max(digits, 2))
        t.frame(0, bytes([0x01, 0x00]), digits=digits)
        t.frame(0x612, request[:8], digits=max(digits, 3))
    for identifier in (0x1, 0x7F, 0x81, 0x80 + t.node, 0x180 + t.node, 0x700 + t.node, 0x200 + t.node,
                       0x6B0 + t.node, 0x100):
        t.frame(identifier)
        t.frame(identifier, bytes([0x01, 0x00]))
        t.frame(identifier, request[:8])


def malformed_lines(t):
    t.power_on(0x13)
    t.start()
    texts = [
        "", " ", "P", "P ", "P 1", "P 001", "P 0g", "P  01", "P 01 ", " P 01", "p 01", "P 01 00",
        "P0 1", "P01", "P\t01", "P 0x", "P -1", "P 1 ", "P +1", "PP 01", "P_01",
        "F", "F ", "F  080", "F 080 ", "F 080  00", "F 080 0", "F 080 000", "F 080 0G", "F 080 00 00",
        "f 080", "F080", "F 000000080", "F 123456789", "F 080 00112233445566778899",
        "F 613 40001000000000000", "F 613 400010000000000G", "F 613 40 00 10 00", "F 08G", "F -80",
        "F 0x80", "F 80h", "F\t080", "F 080\t00", " F 080", "F 080 00112233445566778", "F  ",
        "F 000 0101 ", "F 00000000 00112233445566778899", "F 12345678 001122334455667788AA",
        "F " + "0" * 300 + " 0101", "F 613 " + "40" * 200,
        "T", "T ", "T  1", "T 1 ", "t 1", "T1", "T 00", "T 01", "T -0", "T -1", "T +1", "T 65536",
        "T 99999", "T 4294967296", "T 18446744073709551616", "T 1a", "T a", "T 1.0", "T 0x1",
        "T 1 1", "T -", "T --1", "T 1-", "T " + "9" * 400, "T " + "0" * 50, " T 1", "T\t1",
        "X", "X ", "X  1", "X 1 ", "x 1", "X1", "X 00", "X 01", "X -0", "X -01", "X +1", "X 2147483648",
        "X -2147483649", "X 4294967295", "X 99999999999999999999", "X -99999999999999999999",
        "X 1,5", "X -", "X - 1", "X --1", "X 1e3", "X 0x10", "X 12345678901", "X -" + "1" * 300,
        "Y", "Y ", "Y  1", "Y 1 ", "y 1", "Y1", "Y 00", "Y 007", "Y -0", "Y +0", "Y 2147483648",
        "Y -2147483649", "Y 1 2", "Y abc", "Y -" + "0" * 20,
        "Z 1", "R 5", "0", "#", "A", "XY 1", "T X", "-1", "701 00", "X" * 5000,
    ]
    for text in texts:
        t.line(text)
    for data in (b"\r\n", b"P 01\r\n", b"T 1\r\n", b"F 080\r\n", b"\0\n", b"T \0\n", b"T 1\0\n",
                 b"\0T 1\n", b"F 080 0\0\n", b"\xff\n", b"T \xb2\n", b"X \xe2\x88\x921\n", b"T 1\x0b\n",
                 b"T\xa01\n", b"F 0\x008\n", b"\xef\xbb\xbfT 1\n", b"X 1\x7f\n", b"T 1;\n"):
        t.raw(data)
    t.read(0, 0x1000)
    t.tick(100)
    t.line("X -2147483648")
    t.line("X 2147483647")
    t.line("T 65535")
    t.line("F 12345678 001122334455667788")


def lss_switches(t):
    t.power_on(0x14)
    t.stop()
    for mode in (1, 0, 1, 2, 0xFF, 0x81, 0, 3, 0x80, 0x101, 0x100, 0):
        t.lss(SWITCH, mode, 0x010101)
        t.lss(INQUIRE_NUMBER)
    t.several_lss((SET_NUMBER, STORE) + INQUIRE + NO_LSS)
    t.lss(SET_NUMBER, 0x15)
    t.several_lss(SELECT + INQUIRE + SELECT + NO_LSS)
    for command in INQUIRE:
        t.lss(command, 0xFFFFFFFF, 0xFFFFFF)
    t.network(0x81)
    t.both_read(0x2100)
    t.stop()
    t.lss(INQUIRE_NUMBER)


def lss_selections(t):
    t.power_on(0x15)
    t.stop()
    for places in ("0123", "00123", "01123", "01223", "01233", "123", "023", "013", "3210", "01203",
                   "0120123", "0101", "02123", "012123"):
        t.lss(SWITCH, 0)
        t.several_lss(SELECT[int(place)] for place in places)
        t.lss(INQUIRE_NUMBER)
    for wrong in SELECT:
        for value in (1, 0x80000000):
            t.lss(SWITCH, 0)
            for command in SELECT:
                t.lss(command, value if command == wrong else 0, 0xFFFFFF)
            t.several_lss(command for command in SELECT if command >= wrong)
            t.lss(INQUIRE_NUMBER)


def lss_between_matches(t):
    t.power_on(0x16)
    t.stop()
    for command in (SET_NUMBER, STORE, INQUIRE_NUMBER, 0x13, 0x44, 0x46):
        t.lss(SWITCH, 0)
        t.several_lss(SELECT[:3] + (command, SELECT[3], INQUIRE_NUMBER))
    for mode in (0, 1, 2, 0xFF):
        t.lss(SWITCH, 0)
        t.several_lss(SELECT[:3])
        t.lss(SWITCH, mode)
        t.several_lss((SELECT[3], INQUIRE_NUMBER))
    for command in (0x01, 0x80, 0x81, 0x82):
        t.waiting()
        t.several_lss(SELECT[:3])
        t.network(command)
        t.several_lss((SELECT[0], SELECT[3]))
        t.stop()
        t.several_lss((SELECT[3], INQUIRE_NUMBER))
        t.network(command)
        t.stop()
        t.lss(INQUIRE_NUMBER)


def lss_numbers(t):
    t.power_on(0x17)
    t.configuration()
    for number in (1, 0, 47, 48, 49, 0x7F, 0x80, 0xFF, 0x11, 0, 0xFF, 48):
        t.set_number(number)
        t.lss(INQUIRE_NUMBER)
    t.lss(SET_NUMBER, 0x00FFFF30)
    t.network(0x81)
    t.read(0, 0x1014)
    for number, first, second in ((1, 0x82, 0x81), (46, 0x81, 0x82), (47, 0x82, 0x82)):
        t.configuration()
        t.lss(SET_NUMBER, 0xAAAAAA00, 0xAAAAAA)
        t.set_number(number)
        t.lss(SWITCH, 0)
        t.start()
        t.pre_operational()
        t.network(first, 0)
        t.read(1, 0x1014)
        t.network(second)
        t.read(0, 0x1014)
    t.power_on(0x17)
    t.network(0x82)
    t.read(0, 0x1014)


def identifiers_of_node(t, node):
    """Uses what belongs to this node; the sensor obeys only where the node is its own."""
    for place, (index, sub) in enumerate(((0x1014, 0), (0x1200, 1), (0x1200, 2),
                                          (0x1201, 1), (0x1201, 2), (0x1800, 1))):
        data = bytes([READ, index & 0xFF, index >> 8, sub, 0, 0, 0, 0])
        t.frame((0x600, 0x680)[place % 2] + node, data)
    for on in (False, True):
        t.write(0, 0x1800, 1, 4, pdo_identifier(node, on))
    t.network(0x01, node)
    t.reading("X", 180001)
    t.tick(100)
    t.reading("X", 1234)
    t.network(0x80, node)
    t.tick(100)
    t.network(0x02, node)
    t.lss(SWITCH, 1)
    t.lss(INQUIRE_NUMBER)
    t.network(0x80)


def lss_resets(t):
    for first, second in ((0x81, 0x82), (0x82, 0x81)):
        t.power_on(0x18)
        t.heartbeat(100)
        t.write(1, 0x1010, 1, 4, SAVE)
        t.configuration()
        t.set_number(0x29)
        t.network(first, 0x29)
        t.tick(100)
        t.network(first)
        identifiers_of_node(t, 0x18)
        identifiers_of_node(t, 0x29)
        t.network(second, 0x18)
        t.network(second, 0x29)
        t.read(0, 0x1014)


def lss_outside_stopped(t):
    t.power_on(0x19)
    for command in (0x80, 0x01):
        t.waiting()
        t.network(command)
        t.lss(SWITCH, 1)
        t.several_lss(SELECT + INQUIRE)
        t.configuration()
        t.network(command)
        t.lss(SET_NUMBER, 0x2A)
        t.several_lss((STORE, SWITCH) + INQUIRE)
        t.stop()
        t.several_lss((INQUIRE_NUMBER, SET_NUMBER))
        t.network(0x82)
        t.read(1, 0x2100)
    t.configuration()
    for command in (SWITCH, SET_NUMBER, STORE, INQUIRE_NUMBER):
        for length in (1, 2, 7, 9):
            t.frame(LSS, bytes([command] + [0] * 8)[:length])
    t.frame(LSS)
    for identifier in (LSS - 1, LSS + 1, 0x5E5, 0x600 + t.node, LSS + 0x800):
        t.frame(identifier, bytes([INQUIRE_NUMBER] + [0] * 7))
    t.frame(LSS, bytes([INQUIRE_NUMBER] + [0xFF] * 7), digits=8)


def journal_step(t, step):
    if step == STORE:
        t.configuration()
        t.lss(STORE, 0xFFFFFFFF, 0xFFFFFF)
        t.lss(INQUIRE_NUMBER)
        t.pre_operational()
    elif step == SAVE:
        t.write(0, 0x1010, 1, 4, SAVE)
    else:
        t.write(1, 0x1011, 1, 4, LOAD)
    t.read(0, 0x2100)


def lss_stores(t):
    for number, steps in ((0, (STORE, STORE, STORE)), (0x1B, (SAVE, STORE, STORE)),
                          (0, (LOAD, STORE, SAVE)), (0x1B, (STORE, SAVE, LOAD)),
                          (0x1B, (STORE, LOAD, STORE))):
        t.power_on(0x1A)
        for place, step in enumerate(steps):
            t.heartbeat(1000 + place)
            t.write(1, 0x6014, 0, 2, 60 + place)
            if place == 1:
                t.configuration()
                t.set_number(number)
                t.pre_operational()
            journal_step(t, step)
        for command in (0x82, 0x81):
            t.network(command)
            t.read(0, 0x1017)
            t.read(0, 0x6014)
        t.read(1, 0x2100)


def operate(t, x, y):
    t.write(0, 0x6011, 0, 1, x)
    t.write(1, 0x6021, 0, 1, y)


def opposite_readings(t, value):
    t.reading("X", value)
    t.reading("Y", -value)


def opposite_presets(t, value, preset):
    """Y gets the complement of X's preset, which is as far from the other end of 16 bits."""
    for axis, base, m, number in (("X", 0x6010, value, preset), ("Y", 0x6020, -value, ~preset)):
        t.reading(axis, m)
        t.write(1, base + 2, 0, 2, number & 0xFFFF)
        t.read(0, base + 3)


def angles_at_halves(t, resolution):
    """Shows readings at and beside two halves and at the ends, then reads the halves inverted."""
    first, second = resolution // 2, resolution + resolution // 2
    near = {sign * (half + step)
            for sign in (-1, 1) for half in (first, second) for step in (-1, 0, 1)}
    t.write(0, 0x6000, 0, 2, resolution)
    operate(t, 0, 1)
    for value in sorted(near | {-180000, 180000 - first}):
        opposite_readings(t, value)
        t.sync()
    operate(t, 1, 0)
    for value in (first, -second):
        opposite_readings(t, value)
        t.read(0, 0x6010)
        t.read(1, 0x6020)


def presets_at_halves(t):
    for operating in (2, 3):
        operate(t, operating, operating)
        for value, preset in ((12345, 0), (-19, 0), (5, 3), (5, -32768)):
            opposite_presets(t, value, preset)
        t.sync()


def sums_at_halves(t):
    """A half against the sign of offset and differential would round otherwise in the sum."""
    operate(t, 2, 2)
    t.write(0, 0x6014, 0, 2, 2)
    t.write(0, 0x6024, 0, 2, 0xFFFE)
    opposite_presets(t, 5, -2)
    for x, y in ((2, 3), (3, 2)):
        operate(t, x, y)
        for value in (-5, 15):
            opposite_readings(t, value)
            t.sync()
    operate(t, 2, 2)
    opposite_presets(t, -5, -32767)


def near_level(t):
    """Rounding of q: halves at every resolution, under presets, in sums and after a reset."""
    t.power_on(0x1C)
    t.pdo_type(1)
    t.start()
    for resolution in (1, 10, 100, 1000):
        angles_at_halves(t, resolution)
    t.write(0, 0x6000, 0, 2, 10)
    presets_at_halves(t)
    sums_at_halves(t)
    t.write(0, 0x6000, 0, 2, 100)
    t.write(0, 0x1010, 1, 4, SAVE)
    t.network(0x81)
    opposite_readings(t, 90)
    for index in (0x6010, 0x6013, 0x6020, 0x6023):
        t.read(1, index)


def set_offsets(t, offset, differential):
    """A preset at level and without a differential is the offset; both axes get the same numbers."""
    opposite_readings(t, 0)
    for value, index in ((0, 4), (offset, 2), (differential, 4)):
        t.write(0, 0x6010 + index, 0, 2, value & 0xFFFF)
        t.write(1, 0x6020 + index, 0, 2, value & 0xFFFF)


def turned_sum(t, resolution, operating, offset, differential, value):
    """Y has the opposite reading and the other sign, so that both axes have one sum."""
    t.write(0, 0x6000, 0, 2, resolution)
    operate(t, operating, operating ^ 1)
    set_offsets(t, offset, differential)
    opposite_readings(t, value)
    t.sync()
    t.read(0, 0x6010)
    t.read(1, 0x6020)


def turned_ends(t, resolution):
    """Both ends of the range, the next number above each, and the farthest sums; bit 1 set or not."""
    low, high = -180000, 180000
    for operating, offset, differential, value in (
            (2, 0, 0, low), (2, 1, 0, low), (2, 0, 0, high), (2, 1, 0, high), (3, 0, 0, high),
            (0, 1, 0, low), (2, 32767, 32767, high), (2, -32768, -32768, low),
            (3, 32767, 32767, low), (1, -32768, -32768, high)):
        turned_sum(t, resolution, operating, offset, differential, value)


def turned_presets(t):
    """Neither a preset past half a turn nor its offset is turned."""
    for resolution, value, preset in (
            (10, 12345, 0), (10, 0, 20000), (10, -170000, 10000), (10, -180000, 20000),
            (10, -180000, 0), (100, 0, 1801), (1000, 1000, -32767), (1000, -180000, 32767)):
        t.write(0, 0x6000, 0, 2, resolution)
        set_offsets(t, 0, 0)
        opposite_presets(t, value, preset)
        t.sync()
        for index in (0x6010, 0x6012, 0x6020, 0x6022):
            t.read(1, index)


def turning_over(t):
    """Sums past half a turn under bit 1 of 6011: at each resolution, under presets, after a reset."""
    t.power_on(0x1D)
    t.pdo_type(1)
    t.start()
    for resolution in (1, 10, 100, 1000):
        turned_ends(t, resolution)
    turned_sum(t, 10, 2, 9000, 9001, 0)
    turned_sum(t, 10, 2, 2000, 0, 170000)
    turned_sum(t, 10, 2, 0, 0, -179995)
    operate(t, 2, 2)
    turned_presets(t)
    t.write(0, 0x1010, 1, 4, SAVE)
    t.network(0x81)
    opposite_readings(t, 180000)
    for index in (0x6010, 0x6011, 0x6013, 0x6020, 0x6021, 0x6023):
        t.read(1, index)


def random_request(t, chance):
    channel = chance.number(2)
    kind = chance.number(20)
    values = writable_values(t.node)
    if kind < 6:
        index, sub, _ = chance.pick(OBJECTS)
        t.read(channel, index, sub)
    elif kind < 13:
        (index, sub), (size, good, bad) = chance.pick(list(values.items()))
        value = chance.pick(bad) if bad and chance.one_in(5) else chance.pick(good)
        first = chance.pick(WRITES) if chance.one_in(5) else EXACT[size]
        t.request(channel, first, index, sub, value)
    elif kind < 15:
        t.read(channel, *NAME)
    elif kind < 19:
        t.request(channel, chance.pick((SEGMENT, SEGMENT, TOGGLED, TOGGLED, ABORT)))
    else:
        t.request(channel, chance.number(256), chance.pick((0x1003, 0x1800, 0x6010, 0x6025)),
                  chance.number(7), chance.number(1 << 29))


def random_reading(t, chance):
    size = chance.pick((300, 40000, 180003, 400000, 1 << 29))
    t.reading(chance.pick("XY"), chance.number(2 * size + 1) - size)


def random_frame(t, chance):
    identifier = chance.pick((0, 0x80, 0x600 + t.node, 0x680 + t.node, chance.number(0x900)))
    t.frame(identifier, bytes(chance.number(256) for _ in range(chance.number(10))))


def random_lss(t, chance):
    """Sets a fitting number only where the sensor is known to be in configuration."""
    kind = chance.number(8)
    if kind < 2:
        t.several_lss(SELECT)
    elif kind < 4:
        t.lss(chance.pick(SELECT), chance.number(2) * chance.number(3))
    elif kind < 6:
        t.lss(chance.pick((SWITCH, SWITCH, STORE) + INQUIRE + NO_LSS), chance.number(3))
    else:
        t.configuration()
        for _ in range(chance.number(3)):
            t.set_number(chance.number(56))
            t.lss(chance.pick(INQUIRE + (STORE, STORE)))


def random_line(t, chance):
    kind = chance.number(106)
    if kind < 55:
        random_request(t, chance)
    elif kind < 68:
        random_reading(t, chance)
    elif kind < 78:
        t.tick(chance.number(chance.pick((30, 120, 300, 65536))))
    elif kind < 84:
        t.sync()
    elif kind < 93:
        t.network(chance.pick((0x01, 0x01, 0x01, 0x01, 0x80, 0x02, 0x81, 0x82)),
                  chance.pick((t.node, t.node, 0, 48)))
    elif kind < 96:
        random_frame(t, chance)
    elif kind < 98:
        t.line(chance.pick(("T", "X 1 ", "F 80 0", "P", "P 1", "T 65536", "", "Y -0", "q")))
    elif kind < 100:
        t.power_on(1 + chance.number(47))
    else:
        random_lss(t, chance)


def main():
    t = Trace(sys.stdout.buffer)
    for section in (before_power_on, sample, refused_power_ons, every_read, every_write_length,
                    every_written_value, first_bytes, unknown_objects, network_commands, segments,
                    saves_until_full, readings, angles, zeros, ticks, writes_between_ticks, syncs,
                    frame_lengths, malformed_lines, lss_switches, lss_selections,
                    lss_between_matches, lss_numbers, lss_resets, lss_outside_stopped, lss_stores,
                    near_level, turning_over):
        section(t)
    chance = Chance(0x54494C54)
    t.power_on(0x01)
    for _ in range(1000):
        random_line(t, chance)
    t.raw(b"P 2A")


if __name__ == "__main__":
    main()
