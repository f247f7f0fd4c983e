# The emulated board as a test has it: started on a journal file, asked by the emulator's monitor, reset, cut from its power.
import json
import os
import socket
import subprocess

import serial

TOP = os.path.dirname(os.path.dirname(os.path.dirname(os.path.abspath(__file__))))
BLOCK = 512
BLOCKS = 128
PAINT, PAINTED = b"\xA5", 16384


class Board:
    """A board that stands still until `go`; `terminal` is the name of its line, `started` has all boards."""

    started = []

    def __init__(self, program, journal):
        self.program, self.journal = program, journal
        with open(journal + ".paint", "wb") as file:
            file.write(PAINTED * PAINT)
        # Start and reset have the emulator paint the memory that the stack grows into.
        paint = f"loader,file={file.name},addr={self.named('stack_top')[0] - PAINTED},force-raw=on"
        self.process = subprocess.Popen([f"{TOP}/board/firmware/run", journal, program, "-S", "-qmp", "stdio", "-device", paint],
                                        stdin=subprocess.PIPE, stdout=subprocess.PIPE, text=True)
        Board.started.append(self)
        self.ask("qmp_capabilities")
        lines = {line["label"]: line["filename"] for line in self.ask("query-chardev")}
        self.terminal = lines["serial0"].removeprefix("pty:")

    def ask(self, command, **arguments):
        """Asks the emulator's monitor and gives what it returns."""
        self.process.stdin.write(json.dumps({"execute": command, "arguments": arguments}) + "\n")
        self.process.stdin.flush()
        for line in self.process.stdout:
            said = json.loads(line) if line.startswith("{") else {}
            if "error" in said:
                raise RuntimeError(said["error"]["desc"])
            if "return" in said:
                return said["return"]
        raise RuntimeError("the emulator has ended")

    def line(self):
        """Its line, as a serial port without python-can."""
        return serial.Serial(self.terminal, 115200, timeout=5)

    def go(self):
        self.ask("cont")

    def reset(self):
        """The reset line: what memory holds is kept, all but the stack, which is painted anew."""
        self.ask("system_reset")

    def cut(self):
        """The power goes, at once; only the journal's file is left."""
        self.process.kill()
        self.process.wait()
        self.process.stdin.close()
        self.process.stdout.close()

    def named(self, name):
        """The numbers that the program has for a name: of a function or variable its address and size, of a word of the linker's script its value."""
        names = subprocess.run(["arm-none-eabi-nm", "-S", self.program], check=True, capture_output=True, text=True).stdout.split("\n")
        return [int(number, 16) for number in next(line for line in names if line.endswith(" " + name)).split()[:-2]]

    def memory(self, at, size):
        """Bytes of its memory."""
        file = self.journal + ".memory"
        self.ask("stop")
        self.ask("pmemsave", val=at, size=size, filename=file)
        self.ask("cont")
        with open(file, "rb") as saved:
            return saved.read()

    def record(self):
        """The bytes of the sensor's record."""
        return self.memory(*self.named("device"))

    def stack(self):
        """The bytes of stack that were used since start or reset: up to the deepest that is not as it was painted."""
        return len(self.memory(self.named("stack_top")[0] - PAINTED, PAINTED).lstrip(PAINT))

    def blocks(self):
        """The bytes of the journal's memory, as its file has them now."""
        with open(self.journal, "rb") as file:
            return file.read(BLOCK * BLOCKS)


class Debugger:
    """The emulator's port for debuggers: the board halts when it is opened, and runs on with `go`."""

    def __init__(self, board):
        self.board = board
        path = board.journal + ".debug"
        board.ask("human-monitor-command", **{"command-line": f"gdbserver unix:{path},server=on,wait=off"})
        self.port = socket.socket(socket.AF_UNIX)
        self.port.settimeout(8)
        self.port.connect(path)

    def tell(self, text):
        self.port.sendall(f"${text}#{sum(text.encode()) % 256:02x}".encode())

    def heard(self):
        """What the emulator says next, without acknowledgements."""
        said = b""
        while b"#" not in said[:-2]:
            said += self.port.recv(1)
        self.port.sendall(b"+")
        return said[said.index(b"$") + 1:said.index(b"#")].decode()

    def do(self, text):
        """A command; before its answer stands the halt that the connection makes."""
        self.tell(text)
        while self.heard() != "OK":
            pass

    def halt_at(self, function):
        """Has the board halt where it next enters the function."""
        self.do(f"Z1,{self.board.named(function)[0] & ~1:x},2")

    def write(self, variable, offset, value, size):
        """Writes into a variable of the program."""
        self.do(f"M{self.board.named(variable)[0] + offset:x},{size:x}:{value.to_bytes(size, 'little').hex()}")

    def go(self):
        self.tell("c")

    def halted(self):
        """Waits for the halt."""
        return self.heard().startswith("T05")
