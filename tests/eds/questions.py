"""What the data sheet says of each object, as questions to the trace program."""
from sensor import Questions, abort_reply, frame, read_request, value_reply, write_request, written_reply

NO_OBJECT, NO_SUBINDEX, READ_ONLY = 0x06020000, 0x06090011, 0x06010002
TOO_LONG, TOO_SHORT, WRONG_VALUE = 0x06070012, 0x06070013, 0x06090030
NODES = range(1, 48)
SEGMENT = 7
FAULT_AND_BACK = ["X 180001", "X 0"]
LSS, TELL_NODE = (0x7E5, 0x7E4), "5E00000000000000"
TO_CONFIGURATION = ["F 000 0200", "F 7E5 0401000000000000"]


def power_on(questions, node):
    questions.line(f"P {node:02X}")


def in_use(questions, node):
    """Both axes good at 0, and five faults in the error list."""
    power_on(questions, node)
    for line in FAULT_AND_BACK * 5 + ["Y 0"]:
        questions.line(line)


def ask_text(questions, entry):
    at, text = (entry.index, entry.subindex), entry.text().encode("ascii")
    questions.ask(read_request(*at), frame(0x41, *at, len(text).to_bytes(4, "little")), f"{entry.name} size")
    for toggle, start in enumerate(range(0, len(text), SEGMENT)):
        part = text[start : start + SEGMENT]
        last = start + SEGMENT >= len(text)
        first = 16 * (toggle % 2) + 2 * (SEGMENT - len(part)) + last
        request = bytes([0x60 + 16 * (toggle % 2)]) + bytes(7)
        questions.ask(request, bytes([first]) + part.ljust(SEGMENT, b"\0"), f"{entry.name} text from byte {start}")


def within(entry, node):
    """A reply with the entry's size and a value within its limits."""

    def will_do(reply):
        value = int.from_bytes(reply[4 : 4 + entry.size], "little", signed=entry.signed)
        fits = any(first <= value <= last for first, last in entry.accepted(node))
        return fits and reply == value_reply(entry.index, entry.subindex, value, entry.size)

    return will_do


def ask_default(questions, entry, node):
    at, default = (entry.index, entry.subindex), entry.said("DefaultValue", node) if not entry.is_string else None
    at_first = entry.said(";ReadAtFirst")
    if entry.is_string:
        ask_text(questions, entry)
    elif at_first is not None:
        questions.ask(read_request(*at), abort_reply(*at, at_first), f"{entry.name} read at first")
    elif default is not None:
        questions.ask(read_request(*at), value_reply(*at, default, entry.size), f"{entry.name} default at node {node}")
    else:
        questions.ask(read_request(*at), within(entry, node), f"{entry.name} without default")


def ask_read_only(questions, entry):
    at = entry.index, entry.subindex
    for size in (1, 2, 3, 4):
        questions.ask(write_request(*at, 0, size), abort_reply(*at, READ_ONLY), f"{entry.name} written with {size} bytes")


def ask_lengths(questions, entry):
    at = entry.index, entry.subindex
    for size in {1, 2, 3, 4} - {entry.size}:
        code = TOO_LONG if size > entry.size else TOO_SHORT
        questions.ask(write_request(*at, 0, size), abort_reply(*at, code), f"{entry.name} written with {size} bytes")


def near_values(entry, node):
    """The ends of the accepted ranges and of the type, and their neighbours."""
    low, high = entry.type_ends()
    near = {end + d for r in entry.accepted(node) for end in r for d in (-1, 0, 1)} | {low, high}
    return sorted(v for v in near if low <= v <= high)


def all_values(entry, node):
    """At the first node every value where one or two bytes have one to refuse; else those near the ends."""
    low, high = entry.type_ends()
    if node == NODES[0] and entry.size < 4 and entry.accepted(node) != [(low, high)]:
        return range(low, high + 1)
    return near_values(entry, node)


def ask_values(questions, entry, node, values):
    """A value within the limits is accepted and read back, another one is refused and leaves what was there."""
    at, default = (entry.index, entry.subindex), entry.said("DefaultValue", node)
    accepted = entry.accepted(node)
    is_kept = default is not None and any(first <= default <= last for first, last in accepted)
    held, wrong = default, entry.said(";WrongValue") or WRONG_VALUE
    in_use(questions, node)
    if is_kept:
        questions.ask(write_request(*at, default, entry.size), written_reply(*at), f"{entry.name} = default")
    for value in values(entry, node):
        fits = any(first <= value <= last for first, last in accepted)
        reply = written_reply(*at) if fits else abort_reply(*at, wrong)
        questions.ask(write_request(*at, value, entry.size), reply, f"{entry.name} = {value}")
        held = value if fits and is_kept else held
        if held is not None:
            questions.ask(read_request(*at), value_reply(*at, held, entry.size), f"{entry.name} after {value}")


def ask_access(questions, entry, node, values):
    at, at_first = (entry.index, entry.subindex), entry.said(";WriteAtFirst")
    power_on(questions, node)
    if entry.access == "ro":
        ask_read_only(questions, entry)
        return
    if at_first is not None:
        questions.ask(write_request(*at, 0, entry.size), abort_reply(*at, at_first), f"{entry.name} written at first")
    ask_lengths(questions, entry)
    ask_values(questions, entry, node, values)


def ask_others(questions, objects, node):
    """Every other index, and every other subindex of the indices that are there."""
    there = {(e.index, e.subindex) for e in objects}
    indices = {index for index, _ in there}
    power_on(questions, node)
    for index in range(0x10000):
        if index not in indices:
            questions.ask(read_request(index, 0), abort_reply(index, 0, NO_OBJECT), f"{index:04X}:0, which is not in the sheet")
    for index in sorted(indices):
        for sub in range(0x100):
            if (index, sub) not in there:
                for request in (read_request(index, sub), write_request(index, sub, 0, 1)):
                    questions.ask(request, abort_reply(index, sub, NO_SUBINDEX), f"{index:04X}:{sub:X}, which is not in the sheet")


def ask_in_use(questions, objects, node):
    """What had no value at first has one within its limits."""
    in_use(questions, node)
    for entry in objects:
        if entry.said(";ReadAtFirst") is not None:
            questions.ask(read_request(entry.index, entry.subindex), within(entry, node), f"{entry.name} in use")


def channels(objects, node):
    """The service channels by the data sheet: request and reply identifiers."""
    by_name = {e.name: e for e in objects}
    return [tuple(by_name[f"{i}:{s}"].said("DefaultValue", node) for s in (1, 2)) for i in ("1200", "1201")]


def questions_on(objects, asked, nodes, values):
    """On those of the sheet's objects that are asked for: read at each of the nodes through both channels, written at the first and the last."""
    questions = Questions()
    for node in nodes:
        for channel in channels(objects, node):
            questions.through(channel)
            power_on(questions, node)
            for entry in asked:
                ask_default(questions, entry, node)
            ask_in_use(questions, asked, node)
    for node, channel in ((nodes[0], 0), (nodes[-1], 1)):
        questions.through(channels(objects, node)[channel])
        for entry in asked:
            ask_access(questions, entry, node, values)
    return questions


def lss_questions(sheet, nodes):
    """Whether the sensor tells its number by LSS: it does where the sheet has LSS, and there is no reply where it has not."""
    questions = Questions()
    questions.through(LSS)
    for node in nodes:
        power_on(questions, node)
        for line in TO_CONFIGURATION:
            questions.line(line)
        if sheet["DeviceInfo"]["LSS_Supported"] == "1":
            questions.ask(bytes.fromhex(TELL_NODE), bytes([0x5E, node]) + bytes(6), f"node {node} by LSS")
        else:
            questions.line(f"F 7E5 {TELL_NODE}")
    return questions


def all_questions(objects):
    questions = questions_on(objects, objects, NODES, all_values)
    ask_others(questions, objects, NODES[-1])
    return questions
