# What a plant desk does with the emulated board, held against documents 01 and 02: plant.py FOLDER, which has the firmwares that run builds.
import binascii
import os
import random
import re
import sys
import time

from desk import Desk
from emulator import BLOCK, BLOCKS, Board, Debugger

SAVE, LOAD = 0x65766173, 0x64616F6C
folder = sys.argv[1]
firmware, journal = f"{folder}/firmware.elf", f"{folder}/journal"
checks, failures, depths = 0, [], []


def check(what, got, wanted):
    global checks
    checks += 1
    if got != wanted:
        failures.append(what)
        print(f"FAILED: {what}: {got}, not {wanted}", flush=True)
        if "FIRST" in os.environ:
            sys.exit(1)


def tell(what):
    """Says what was seen, where nothing differed until here."""
    if not failures:
        print(what)


def powered(program=firmware, said=b"!0\r", file=journal, node=1):
    """A board that has started and has said so, and a desk at its line."""
    board = Board(program, file)
    with board.line() as line:
        board.go()
        check("the line at start", line.read(len(said)), said)
        desk = Desk(board.terminal, node)
    check("boot-up behind the first O", desk.wait(0x700 + node), "00")
    return board, desk


def good(block, place, channel, kind):
    """Whether a block is good at its place, and from this channel and of this kind."""
    number = place.to_bytes(4, "little")
    return block[:6] == number + bytes([channel, kind]) and block[510:] == binascii.crc_hqx(block[:510], 0).to_bytes(2, "little")


def saved(board, place, channel, kind):
    """The reply is here, so the block is: looked at before anything else."""
    block = board.blocks()[(place - 1) * BLOCK:place * BLOCK]
    check(f"block {place} behind its reply", good(block, place, channel, kind), True)


def stack(board):
    """The stack of the whole firmware is not deeper than the linker's script says."""
    used, room = board.stack(), board.named("stack_bytes")[0]
    check(f"{used} bytes of stack, where {room} are enough", used <= room, True)
    depths.append(used)


def sample(board, desk):
    """The paper's sample, with the board's own clock for its tick of 100 ms."""
    check("python-can reads the version", desk.bus.get_version(8), (1, 1))
    check("python-can reads the serial number", desk.bus.get_serial_number(8), "0001")
    desk.send(0x000, "8101")
    check("boot-up", desk.wait(0x701), "00")
    desk.send(0x000, "0101")
    desk.line("x12345")
    check("angle X by channel 1", desk.request(1, "4010600000000000"), "4B106000D3040000")
    check("angle X by channel 2", desk.request(2, "4010600000000000"), "4B106000D3040000")
    check("save by channel 2", desk.request(2, "2310100173617665"), "6010100100000000")
    saved(board, 1, 2, 1)
    check("the PDO of the timer", desk.wait(0x181), "D3040080")
    check("a write that is too short", desk.request(1, "2F00600003000000"), "8000600013000706")


def angles(desk):
    desk.line("y-19")
    for channel in 1, 2:
        check(f"angle X by channel {channel}", desk.read(channel, 0x6010), 1235)
        check(f"angle Y by channel {channel}", desk.read(channel, 0x6020), -2)
    check("the segmented string", [desk.request(1, text) for text in ("4008100000000000", "6000000000000000", "7000000000000000")],
          ["410810000A000000", "00424153494E5449", "194C543200000000"])
    check("a bit set", desk.write(2, 0x6011, 0, 1, 1), "written")
    check("angle X, turned", desk.read(1, 0x6010), -1235)
    check("a bit cleared", desk.write(2, 0x6011, 0, 0, 1), "written")


def zero(board, desk):
    check("preset 0", desk.write(1, 0x6012, 0, 0, 2), "written")
    check("the offset", desk.read(2, 0x6013), -1235)
    check("offset counted", desk.write(1, 0x6011, 0, 2, 1), "written")
    check("the angle at zero", desk.read(2, 0x6010), 0)
    check("save by channel 1", desk.write(1, 0x1010, 1, SAVE, 4), "written")
    saved(board, 2, 1, 1)
    check("filled blocks", desk.read(1, 0x2100), 2)
    check("blocks", desk.read(2, 0x2101), BLOCKS)
    check("a wrong signature", desk.write(1, 0x1010, 1, LOAD, 4), "abort 08000020")


def sync(desk):
    check("type 3", desk.write(1, 0x1800, 2, 3, 1), "written")
    desk.settled()
    for _ in range(7):
        desk.send(0x080)
    check("7 SYNCs with type 3", desk.settled(), 2 * [(0x181, "0000FEFF")])
    check("type 253", desk.write(1, 0x1800, 2, 253, 1), "abort 06090030")


def heartbeat(desk):
    check("24 ms", desk.write(1, 0x1017, 0, 24, 2), "abort 06090030")
    check("25 ms", desk.write(1, 0x1017, 0, 25, 2), "written")
    check("a heartbeat", desk.wait(0x701), "05")
    began = time.monotonic()
    for _ in range(40):
        desk.wait(0x701)
    took = time.monotonic() - began
    check("40 heartbeats take about a second", 0.7 < took < 2, True)
    for command, state in ("0201", "04"), ("8000", "7F"), ("0101", "05"):
        desk.send(0x000, command)
        check(f"a heartbeat behind NMT {command}", desk.until(0x701, state), state)
        check(f"the next heartbeat behind NMT {command}", desk.wait(0x701), state)
    return took / 40


def stamps(board, desk):
    """Time stamps are the board's own: heartbeats stand exactly 25 ms apart, over the end of a minute too."""
    debugger = Debugger(board)
    # 1.5 s before the minute's end: time to open the channel on a busy machine too.
    debugger.write("millisecond", 0, 58500, 2)
    debugger.go()
    desk.line("C")
    time.sleep(0.2)
    desk.port.reset_input_buffer()
    time.sleep(0.2)
    check("a closed channel is silent", desk.port.in_waiting, 0)
    desk.line("Z1")
    desk.line("O")
    desk.port.timeout = 8
    times = []
    while len(times) < 20 or (min(times) == times[0] and len(times) < 100):
        found = re.fullmatch(rb".*t701105([0-9A-F]{4})\r", desk.port.read_until(b"\r"), re.DOTALL)
        times += [int(found[1], 16)] if found else []
    check("the stamps", {(later - earlier) % 60000 for earlier, later in zip(times, times[1:])}, {25})
    check("a minute's end", (max(times) < 60000, min(times) < times[0]), (True, True))
    desk.line("C")
    desk.line("Z0")
    desk.line("O")
    check("boot-up is not sent again", (0x701, "00") in desk.settled(), False)


def errors(desk):
    desk.line("x180001")
    check("EMCY of X", desk.wait(0x081), "01FF210000000000")
    check("the angle of a faulty axis", desk.read(1, 0x6010), "abort 08000022")
    check("the register", desk.read(2, 0x1001), 0x21)
    desk.line("x12345")
    check("EMCY without error", desk.wait(0x081), "0000000000000000")
    check("the error list", (desk.read(1, 0x1003), desk.read(1, 0x1003, 1)), (1, 0xFF01))


def resets(desk):
    check("heartbeat before", desk.read(1, 0x1017), 25)
    desk.send(0x000, "8200")
    check("boot-up behind 82h", desk.until(0x701, "00"), "00")
    check("1017 is the saved one", desk.read(1, 0x1017), 0)
    check("the list stays", desk.read(1, 0x1003), 1)
    check("the angle stays", desk.read(1, 0x6010), 0)
    desk.send(0x000, "8101")
    check("boot-up behind 81h", desk.wait(0x701), "00")
    check("the list is empty", desk.read(1, 0x1003), 0)
    check("the axis is none", desk.read(2, 0x6010), "abort 08000022")


def session(desk, number):
    """LSS by identity: that of another board first, which is not answered; a number that is none; the number, and its store."""
    desk.send(0x000, "0200")
    for serial in 2, 1:
        for command, value in zip(range(0x40, 0x44), (0, 0, 0, serial)):
            desk.lss(command, value)
    replies = [(0x5E, 0, f"5E{desk.node:02X}"), (0x11, 48, "1101"), (0x11, number, "1100"), (0x5E, 0, f"5E{desk.node:02X}"), (0x17, 0, "1700")]
    check("this board is selected", desk.wait(0x7E4), "4400000000000000")
    for command, value, reply in replies:
        desk.lss(command, value)
        check(f"the reply to LSS {command:02X} {value}", desk.wait(0x7E4), reply.ljust(16, "0"))


def numbered():
    """A number by LSS on a journal of its own: it is stored behind the reply, taken at the reset, kept over a power cut, carried on by a save."""
    file, number = f"{folder}/numbered", 5
    board, desk = powered(file=file)
    session(desk, number)
    saved(board, 1, 3, 3)
    desk.lss(0x04, 0)
    desk.send(0x000, "8200")
    check("boot-up under the new number", desk.wait(0x700 + number), "00")
    desk.send(0x601, "4000100000000000")
    desk.node = number
    check("the old number is silent", desk.settled(), [])
    check("1014 of the new number", desk.read(2, 0x1014), 0x80 + number)
    stack(board)
    board.cut()
    desk.port.close()
    board, desk = powered(file=file, node=number)
    check("1014 of the stored number", desk.read(1, 0x1014), 0x80 + number)
    check("a save under it", desk.write(2, 0x1010, 1, SAVE, 4), "written")
    saved(board, 2, 2, 1)
    check("byte 28 of both blocks", (board.blocks()[28], board.blocks()[BLOCK + 28]), (number, number))
    desk.leave()
    board.cut()


def kept(desk, filled):
    """What a board has that was started on this journal."""
    check("filled blocks at start", desk.read(1, 0x2100), filled)
    check("the saved offset at start", desk.read(2, 0x6013), -1235)
    desk.line("x12345")
    check("the angle at start", desk.read(1, 0x6010), 0)


def restarts(board, desk):
    """A reset of the board, and its power cut behind a reply: the journal's memory holds both times."""
    check("a setting that is not saved", desk.write(1, 0x1017, 0, 1000, 2), "written")
    desk.settled()
    before = board.blocks()
    board.reset()
    desk.port.timeout = 8
    check("the line at a reset", desk.port.read(3), b"!0\r")
    check("a frame on a closed channel", desk.answer("t6018" + "4000100000000000"), b"\a")
    desk.bus.open()
    check("boot-up behind a reset", desk.wait(0x701), "00")
    kept(desk, 2)
    check("what was not saved", desk.read(1, 0x1017), 0)
    check("the journal over a reset", board.blocks(), before)
    check("a save, then a power cut", desk.write(2, 0x1010, 1, SAVE, 4), "written")
    board.cut()
    saved(board, 3, 2, 1)
    desk.port.close()
    board, desk = powered()
    kept(desk, 3)
    return board, desk


def moments(board, desk):
    """The power goes within a save: before its event nothing is kept; where the answer's first character is put, the block is."""
    for function, filled in ("slcan_read", 3), ("uart_put", 4):
        check("no timed PDO", desk.write(1, 0x1800, 2, 1, 1), "written")
        desk.settled()
        before, debugger = board.blocks(), Debugger(board)
        debugger.halt_at(function)
        debugger.go()
        desk.send(0x681, "2310100173617665")
        check(f"the halt at {function}", debugger.halted(), True)
        if filled == 4:
            saved(board, 4, 2, 1)
        else:
            check("the journal before the event", board.blocks() == before, True)
        check("nothing has gone out", desk.port.in_waiting, 0)
        board.cut()
        desk.port.close()
        board, desk = powered()
        kept(desk, filled)
    return board, desk


def well_formed(line):
    """The lines that the firmware's README names, said once more."""
    forms = [r"[OCVN]?", r"S[0-8]", r"Z[01]", r"r[0-7][\dA-Fa-f]{2}[0-8]", r"R[01][\dA-Fa-f]{7}[0-8]", r"[xy](0|-?[1-9]\d{0,9})"]
    forms += [rf"(t[0-7][\dA-Fa-f]{{2}}|T[01][\dA-Fa-f]{{7}}){length}[\dA-Fa-f]{{{2 * length}}}" for length in range(9)]
    if not any(re.fullmatch(form, line, re.ASCII) for form in forms):
        return False
    return line[:1] not in ("x", "y") or -2 ** 31 <= int(line[1:]) < 2 ** 31


def malformed_lines():
    """Every well-formed line cut short, with a character more, less and other; numbers that do not fit; noise."""
    lines = ["O", "C", "V", "N", "S4", "Z1", "t6018" + "4010600000000000", "t0800", "T000006018" + "2310100173617665", "r6010", "R000006010",
             "x12345", "y-2147483648", "t6018" + "2310100173617665", "t0002" + "8101"]
    made = ["x2147483648", "y-2147483649", "x01", "x-0", "t6019" + "00" * 9, "t8000", "\n", "O\n", "\0", "tt6010", "s031C", "F", "M00000000", "A", "!0"]
    for line in lines:
        made += [line[:end] for end in range(1, len(line))] + [line + more for more in "0G \n\0"]
        made += [line[:place] + line[place + 1:] for place in range(len(line))]
        made += [line[:place] + other + line[place + 1:] for place in range(len(line)) for other in "9Gz-"]
    noise = random.Random(12)
    made += ["".join(chr(noise.choice([*range(13), *range(14, 256)])) for _ in range(noise.randrange(1, 60))) for _ in range(200)]
    return [line for line in dict.fromkeys(made) if not well_formed(line)]


def malformed(board, desk):
    """Each malformed line gets one bell; record and journal keep every byte."""
    check("no timed PDO", desk.write(1, 0x1800, 2, 1, 1), "written")
    desk.settled()
    record, blocks, lines = board.record(), board.blocks(), malformed_lines()
    for line in lines:
        check(f"the answer to {line!r}", desk.answer(line), b"\a")
    long = 20000 * "t6018" + "2310100173617665"
    check("the answer to a line of 100,016 characters", desk.answer(long), b"\a")
    check("an extended frame", desk.answer("T000006018" + "2310100173617665"), b"\a")
    for more in {"is_extended_id": True}, {"is_extended_id": True, "is_remote_frame": True}:
        desk.send(0x601, "", dlc=8 if len(more) == 2 else 0, **more)
        check(f"python-can's frame with {more}", desk.port.read(1), b"\a")
    desk.send(0x601, "", is_remote_frame=True, dlc=8)
    check("a remote frame", desk.port.read(2), b"z\r")
    check("O on an open channel", desk.answer("O"), b"\a")
    check("S on an open channel", desk.answer("S4"), b"\a")
    check("an empty line", desk.answer(""), b"\r")
    time.sleep(0.2)
    check("nothing more is said", desk.port.in_waiting, 0)
    check("the record", board.record().hex(), record.hex())
    check("the journal", board.blocks() == blocks, True)
    check("the next line is taken", desk.read(1, 0x6010), 0)
    return len(lines)


def unread(desk):
    """A desk that sends without reading: whole lines are lost, no part of one, and the sensor goes on."""
    desk.send(0x000, "0101")
    desk.settled()
    for _ in range(60):
        desk.port.write(50 * b"t0800\rV\rt0800\r")
    time.sleep(1)
    text = b""
    while True:
        desk.port.timeout = 0.5
        more = desk.port.read(65536)
        text += more
        if not more:
            break
    lines = text.split(b"\r")
    check("every line is whole", sorted(set(lines)), [b"", b"V0101", b"t181400000080", b"z"])
    check("angle X behind it", desk.read(1, 0x6010), 0)
    return lines.count(b"t181400000080")


def overwritten(board, desk):
    """Someone writes into the record: its number is said once, and until the next start the sensor stands still."""
    for offset, size, value, said in (109, 1, 7, b"!3\r"), (38, 2, BLOCKS - 1, b"!1\r"):
        desk.settled()
        blocks, debugger = board.blocks(), Debugger(board)
        debugger.write("device", offset, value, size)
        debugger.go()
        check("an overwritten record", desk.port.read(3), said)
        for line in "t6018" + "2310100173617665", "t0002" + "8101", "x1", "y1":
            check(f"the answer to {line} then", desk.answer(line), b"\a")
        check("the journal then", board.blocks() == blocks, True)
        board.reset()
        check("the line at the next start", desk.port.read(3), b"!0\r")
        desk.bus.open()
        check("filled blocks then", desk.read(1, 0x2100), 4)


def full(board, desk):
    """Saves until the journal is full, then refused; the memory keeps what it has."""
    for place in range(5, BLOCKS + 1):
        channel, kind = 1 + place % 2, 1 + place % 3 % 2
        index, word = ((0x1010, SAVE), (0x1011, LOAD))[kind - 1]
        check(f"block {place}", desk.write(channel, index, 1, word, 4), "written")
        saved(board, place, channel, kind)
    before = board.blocks()
    for channel in 1, 2:
        check("a save too many", desk.write(channel, 0x1010, 1, SAVE, 4), "abort 05040005")
        check("a load too many", desk.write(channel, 0x1011, 1, LOAD, 4), "abort 05040005")
    check("filled blocks", desk.read(1, 0x2100), BLOCKS)
    check("the full journal", board.blocks() == before, True)
    stack(board)
    desk.leave()
    board.cut()
    board, desk = powered()
    check("a full journal at start", desk.read(2, 0x2100), BLOCKS)
    check("a save on it", desk.write(2, 0x1010, 1, SAVE, 4), "abort 05040005")
    stack(board)
    desk.leave()
    board.cut()


def spoiled():
    """Someone else wrote into the memory: the blocks before hold, EMCY FF00h follows boot-up."""
    with open(journal, "r+b") as file:
        file.seek(100 * BLOCK + 9)
        file.write(b"\0")
    board, desk = powered()
    check("EMCY of the journal at power-on", desk.wait(0x081), "00FF810000000000")
    desk.send(0x000, "8101")
    check("boot-up on a spoiled journal", desk.wait(0x701), "00")
    check("EMCY of the journal behind 81h", desk.wait(0x081), "00FF810000000000")
    check("the blocks before", desk.read(1, 0x2100), 100)
    check("a save on it", desk.write(1, 0x1010, 1, SAVE, 4), "abort 06060000")
    stack(board)
    desk.leave()
    board.cut()


def refused(program, said):
    """A power-on that is refused says its number, and that the record takes no events: 3. Frames and readings then get the bell."""
    file = f"{folder}/refused"
    board = Board(program, file)
    before = board.blocks()
    with board.line() as line:
        board.go()
        check("the lines at start", line.read(6), said)
        for text, answer in (b"O\r", b"\r"), (b"t00020101\r", b"\a"), (b"x1\r", b"\a"), (b"V\r", b"V0101\r"):
            line.write(text)
            check(f"the answer to {text}", line.read(len(answer)), answer)
    check("the journal of a refused power-on", board.blocks() == before, True)
    board.cut()


def day():
    """All of it, one behind the other."""
    for name, said in ("part_of_a_block", b"!1\r!3\r"), ("too_many_blocks", b"!1\r!3\r"), ("wrong_node", b"!4\r!3\r"):
        refused(f"{folder}/{name}.elf", said)
    tell("a journal of a wrong size says !1 !3 at start, a wrong node !4 !3")
    board, desk = powered()
    sample(board, desk)
    angles(desk)
    zero(board, desk)
    sync(desk)
    period = heartbeat(desk)
    stamps(board, desk)
    errors(desk)
    resets(desk)
    tell(f"a plant desk by python-can: the paper's sample, angles, zero, saves, SYNC, heartbeat every {1000 * period:.1f} ms, errors, resets")
    stack(board)
    numbered()
    tell("a number by LSS: stored, taken at a reset, kept by the journal over a power cut")
    board, desk = restarts(board, desk)
    board, desk = moments(board, desk)
    tell("a reset, a power cut behind a reply, before the save's event and before its reply: the journal has what it should")
    lines = malformed(board, desk)
    tell(f"{lines} malformed lines and one of 100,016 characters: a bell each, no byte of record and journal changed")
    came = unread(desk)
    tell(f"a desk that does not read: {came} of 6000 PDOs came, each whole")
    overwritten(board, desk)
    tell("a record that someone wrote into: !3 or !1 once, then it stands still until the next start")
    full(board, desk)
    spoiled()
    tell("a full journal and a spoiled one: saves refused, nothing changed")
    tell(f"the firmware's stack: {max(depths)} bytes at most")


def main():
    try:
        day()
    finally:
        for board in Board.started:
            board.process.kill()
    print(f"{checks} checks, {len(failures)} failures")
    sys.exit(1 if failures else 0)


if __name__ == "__main__":
    main()
