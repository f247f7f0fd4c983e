"""What every field of the data sheet has to be, from objects.txt and fields.txt, and where a sheet differs."""
import datetime
import functools
import pathlib
import re

from sheet import number, ranges

HERE = pathlib.Path(__file__).resolve().parent
TYPES = {"u8": "0x0005", "u16": "0x0006", "u32": "0x0007", "i16": "0x0003", "string": "0x0009"}
VAR, GROUPS = "0x7", {"array": "0x8", "record": "0x9"}
LISTS = ("MandatoryObjects", "OptionalObjects", "ManufacturerObjects")
EXPLAINED = ("Values: ", "WrongValue: ", "ReadAtFirst, WriteAtFirst: ", "ObjFlags 0x1: ")


def rows(file):
    lines = (HERE / file).read_text(encoding="ascii").splitlines()
    return [["" if field == "-" else field for field in line.split(" | ")] for line in lines if not line.startswith("#")]


def in_sheet_words(text):
    """Numbers as document 01 writes them, 80h+node, in the words of the sheet."""
    return re.sub(r"\b([0-9A-F]+)h", r"0x\1", re.sub(r"(\w+)\+node", r"$NODEID+\1", text))


def limits(accepted, default):
    """The ends of the accepted values; none where these are not what is read, as with a signature."""
    if not accepted or default and not any(low <= number(default) <= high for low, high in ranges(accepted)):
        return "", ""
    return re.split(r", |\.\.", accepted)[0], re.split(r", |\.\.", accepted)[-1]


def object_fields(kind, access, accepted, default, besides, name):
    accepted, default = in_sheet_words(accepted), in_sheet_words(default) if kind != "string" else default
    low, high = limits(accepted, default)
    fields = {"ParameterName": name, "ObjectType": VAR, "DataType": TYPES[kind], "LowLimit": low, "HighLimit": high, "AccessType": access,
              "DefaultValue": default, "PDOMapping": str(int("mapped" in besides))}
    if "acts" in besides:
        fields["ObjFlags"] = "0x1"
    if accepted and accepted not in (low, f"{low}..{high}"):
        fields[";Values"] = accepted
    for key, code in re.findall(r"(\w+) (\w+h)", besides):
        fields[";" + key] = in_sheet_words(code)
    return fields


def home(index):
    """The list in which CiA 306 wants an index."""
    if index in ("1000", "1001", "1018"):
        return "MandatoryObjects"
    return "ManufacturerObjects" if "2000" <= index < "6000" else "OptionalObjects"


@functools.cache
def expected():
    """Every section but [Comments], with every key and its value."""
    sections = {name: {} for name in LISTS}
    for section, key, value, _ in rows("fields.txt"):
        sections.setdefault(section, {})[key] = value
    for place, *columns in rows("objects.txt"):
        index, _, sub = place.partition(":")
        if not sub:
            sections[index] = {"ParameterName": columns[1], "ObjectType": GROUPS[columns[0]], "SubNumber": "0"}
        elif index in sections:
            sections[f"{index}sub{sub}"] = object_fields(*columns)
            sections[index]["SubNumber"] = str(int(sections[index]["SubNumber"]) + 1)
        else:
            sections[index] = object_fields(*columns)
        members = sections[home(index)]
        if f"0x{index}" not in members.values():
            members[str(len(members) + 1)] = f"0x{index}"
    for name in LISTS:
        sections[name]["SupportedObjects"] = str(len(sections[name]))
    return sections


def agrees(said, wanted):
    """Whether a field has its value: as its form, by the letter, or as the same numbers otherwise written."""
    if wanted.startswith("/"):
        return re.fullmatch(wanted.strip("/"), said) is not None
    try:
        return said == wanted or ranges(said) == ranges(wanted)
    except ValueError:
        return False


def comment_faults(comments):
    """[Comments] is free words, but counted, and it explains the keys that CiA 306 does not have."""
    lines = [f"Line{n + 1}" for n in range(len(comments) - 1)]
    if list(comments) != ["Lines", *lines] or comments["Lines"] != str(len(lines)) or not all(comments.values()):
        yield "[Comments] is not Lines, Line1, Line2, ... with as many lines as it says"
    yield from (f"[Comments] has no line “{key}...”" for key in EXPLAINED if not any(text.startswith(key) for text in comments.values()))


def date_faults(info):
    try:
        created, modified = (datetime.datetime.strptime(info[f"{what}Date"] + info[f"{what}Time"], "%m-%d-%Y%I:%M%p")
                             for what in ("Creation", "Modification"))
    except (KeyError, ValueError):
        yield "[FileInfo] has a date that is none"
    else:
        if modified < created:
            yield "[FileInfo] is modified before it is created"


def faults(sheet):
    """Where a sheet has another field than the table, one more or one less."""
    wanted = expected()
    yield from comment_faults(dict(sheet["Comments"]) if "Comments" in sheet else {})
    yield from date_faults(dict(sheet["FileInfo"]) if "FileInfo" in sheet else {})
    yield from (f"[{name}] is not in the sheet" for name in wanted if name not in sheet)
    for name in sheet.sections():
        if name == "Comments":
            continue
        said, keys = dict(sheet[name]), wanted.get(name, {})
        yield from (f"[{name}] {key}={said[key]} is not known" for key in said if key not in keys)
        yield from (f"[{name}] has no {key}" for key in keys if key not in said)
        yield from (f"[{name}] {key}={said[key]}, expected {keys[key]}" for key in said if key in keys and not agrees(said[key], keys[key]))
