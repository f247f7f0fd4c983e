# A plant desk at the board's line: frames by python-can's slcan interface, readings and malformed lines past it.
import time

import can

LONGEST = 8  # seconds that a frame is waited for


class Desk:
    """A desk for the sensor of one node."""

    def __init__(self, terminal, node):
        self.node = node
        self.bus = can.interface.Bus(interface="slcan", channel=terminal, ttyBaudrate=115200, bitrate=125000, sleep_after_open=0)
        self.port = self.bus.serialPortOrig

    def leave(self):
        self.bus.shutdown()

    def send(self, identifier, text="", **more):
        data = bytes.fromhex(text)
        self.bus.send(can.Message(arbitration_id=identifier, data=data, **{"is_extended_id": False, **more}))

    def wait(self, identifier, seconds=LONGEST):
        """The next frame with this identifier: its bytes in hex."""
        end = time.monotonic() + seconds
        while time.monotonic() < end:
            frame = self.bus.recv(end - time.monotonic())
            if frame is not None and frame.arbitration_id == identifier:
                return frame.data.hex().upper()
        return "no frame"

    def until(self, identifier, text):
        """Waits for this very frame past others: its bytes, or what came last instead."""
        end, last = time.monotonic() + LONGEST, "no frame"
        while last != text and time.monotonic() < end:
            last = self.wait(identifier, end - time.monotonic())
        return last

    def settled(self):
        """The frames that come before the reply to one more request: the board takes lines in their order, so nothing is on its way then."""
        self.send(0x600 + self.node, "4000100000000000")
        end, found = time.monotonic() + LONGEST, []
        while time.monotonic() < end:
            frame = self.bus.recv(end - time.monotonic())
            if frame is not None and frame.arbitration_id == 0x580 + self.node:
                return found
            found += [] if frame is None else [(frame.arbitration_id, frame.data.hex().upper())]
        return found + ["no reply"]

    def line(self, text):
        """A line that python-can has no word for."""
        self.port.write(text.encode("latin-1") + b"\r")

    def answer(self, text):
        """A line, and the one character that answers it; nothing else may be on its way."""
        self.line(text)
        self.port.timeout = LONGEST
        return self.port.read(1)

    def request(self, channel, text):
        """A request of a service channel, and its reply."""
        self.send({1: 0x600, 2: 0x680}[channel] + self.node, text)
        return self.wait({1: 0x580, 2: 0x6B0}[channel] + self.node)

    def lss(self, command, number=0):
        """An LSS request, of which not every one is answered."""
        self.send(0x7E5, f"{command:02x}" + number.to_bytes(4, "little").hex() + "000000")

    def read(self, channel, index, sub=0):
        """An object's number, or the abort code, or that no frame came."""
        reply = self.request(channel, "40" + index.to_bytes(2, "little").hex() + f"{sub:02x}" + "00000000")
        if reply == "no frame":
            return reply
        said = bytes.fromhex(reply)
        sizes = {0x4F: 1, 0x4B: 2, 0x43: 4, 0x80: 4}
        if said[1:4] != index.to_bytes(2, "little") + bytes([sub]) or said[0] not in sizes:
            return said.hex()
        number = said[4:4 + sizes[said[0]]]
        return abort(number) if said[0] == 0x80 else int.from_bytes(number, "little", signed=index >= 0x6010)

    def write(self, channel, index, sub, value, size):
        """Writes a number: written, or the abort code."""
        first = {1: "2f", 2: "2b", 4: "23"}[size]
        number = (value % 256 ** size).to_bytes(4, "little").hex()
        place = index.to_bytes(2, "little").hex() + f"{sub:02x}"
        said = self.request(channel, first + place + number).lower()
        if said == "60" + place + "00000000":
            return "written"
        return abort(bytes.fromhex(said[8:])) if said.startswith("80" + place) else said


def abort(code):
    return f"abort {int.from_bytes(code, 'little'):08X}"
