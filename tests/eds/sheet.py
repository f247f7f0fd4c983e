"""The electronic data sheet as read from its text, and the objects in it."""
import configparser
import re

UNSIGNED = {0x0005: 1, 0x0006: 2, 0x0007: 4}
SIGNED = {0x0003: 2}
STRING = 0x0009
NUMBER = re.compile(r"-?(?:0x[0-9A-Fa-f]+|0|[1-9][0-9]*)")
SECTION = re.compile(r"([0-9A-F]{4})(?:sub([0-9A-F]{1,2}))?")


class Entry:
    """One object: one index with one subindex."""

    def __init__(self, index, subindex, section):
        self.index, self.subindex, self.section = index, subindex, section
        kind = int(section["DataType"], 0)
        self.is_string = kind == STRING
        self.signed = kind in SIGNED
        self.size = None if self.is_string else {**UNSIGNED, **SIGNED}[kind]
        self.access = section["AccessType"]
        self.name = f"{index:04X}:{subindex:X}"

    def said(self, key, node=0):
        """The number that a key has, or None where it has none."""
        text = self.section.get(key, "")
        return at_node(number(text), node) if text else None

    def text(self):
        return self.section["DefaultValue"]

    def type_ends(self):
        bits = 8 * self.size
        return (-(1 << bits - 1), (1 << bits - 1) - 1) if self.signed else (0, (1 << bits) - 1)

    def accepted(self, node):
        """The accepted values as (first, last) ranges: the comment line Values, else the limits, else the whole type."""
        values = self.section.get(";Values")
        if values:
            return [(at_node(first, node), at_node(last, node)) for first, last in ranges(values)]
        low, high = self.type_ends()
        given_low, given_high = self.said("LowLimit", node), self.said("HighLimit", node)
        return [(low if given_low is None else given_low, high if given_high is None else given_high)]


def number(text):
    """A number of the sheet, and whether the node is added."""
    formula = text.removeprefix("$NODEID+")
    if not NUMBER.fullmatch(formula):
        raise ValueError(f"{text} is no number")
    return int(formula, 0), formula != text


def ranges(text):
    """The values 0, 25..65535 as pairs of ends."""
    return [(number(part[0]), number(part[-1])) for part in (values.split("..") for values in text.split(", "))]


def at_node(said, node):
    value, with_node = said
    return value + node if with_node else value


def parsed(text):
    # Comment lines that say more than CiA 306 can are read as keys, so only "; " begins a comment here.
    parser = configparser.ConfigParser(comment_prefixes=("; ",), delimiters=("=",), interpolation=None, default_section="", strict=True)
    parser.optionxform = str
    parser.read_string(text)
    return parser


def entries(sheet):
    found = []
    for name in sheet.sections():
        match = SECTION.fullmatch(name)
        if match and "DataType" in sheet[name]:
            found.append(Entry(int(match[1], 16), int(match[2] or "0", 16), sheet[name]))
    return sorted(found, key=lambda e: (e.index, e.subindex))
