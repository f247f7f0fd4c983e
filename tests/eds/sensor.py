"""Questions to the trace program: all lines in one run, one service reply a question."""
import pathlib
import subprocess

ROOT = pathlib.Path(__file__).resolve().parents[2]
SHORT_READ = {1: 0x4F, 2: 0x4B, 4: 0x43}
SHORT_WRITE = {1: 0x2F, 2: 0x2B, 3: 0x27, 4: 0x23}


def multiplexer(index, subindex):
    return index.to_bytes(2, "little") + bytes([subindex])


def low_bytes(value, size):
    return (value % (1 << 8 * size)).to_bytes(size, "little")


def frame(first, index, subindex, rest=b""):
    return bytes([first]) + multiplexer(index, subindex) + rest.ljust(4, b"\0")


def read_request(index, subindex):
    return frame(0x40, index, subindex)


def write_request(index, subindex, value, size):
    return frame(SHORT_WRITE[size], index, subindex, low_bytes(value, size))


def value_reply(index, subindex, value, size):
    return frame(SHORT_READ[size], index, subindex, low_bytes(value, size))


def written_reply(index, subindex):
    return frame(0x60, index, subindex)


def abort_reply(index, subindex, code):
    return frame(0x80, index, subindex, low_bytes(code, 4))


class Questions:
    """Lines for the trace program and, for each service request among them, the reply that the data sheet leads to."""

    def __init__(self):
        self.channel, self.replies_at = None, set()
        self.lines, self.expected = [], []

    def through(self, channel):
        """The channel of the next questions: the identifiers of request and reply."""
        self.channel = channel
        self.replies_at.add(f"{channel[1]:03X}")

    def line(self, text):
        self.lines.append(text)

    def ask(self, request, reply, what):
        """A reply is its 8 bytes, or a function that says whether they will do."""
        request_at, reply_at = self.channel
        self.lines.append(f"F {request_at:X} {request.hex().upper()}")
        self.expected.append((f"{reply_at:03X}", reply, what))

    def faults(self):
        text = "\n".join(self.lines) + "\n"
        run = subprocess.run([ROOT / "trace"], input=text, capture_output=True, text=True, check=False)
        printed = run.stdout.splitlines()
        replies = [line.split() for line in printed if line[:3] in self.replies_at]
        yield from (f"the trace program refused a line: {line}" for line in printed if line.startswith("R "))
        if run.returncode or len(replies) != len(self.expected):
            yield f"{len(self.expected)} questions, {len(replies)} answers, exit {run.returncode} {run.stderr}"
        for (identifier, reply), (wanted_at, wanted, what) in zip(replies, self.expected):
            got = bytes.fromhex(reply)
            if identifier != wanted_at or not (wanted(got) if callable(wanted) else got == wanted):
                ending = "" if callable(wanted) else f", expected {wanted_at} {wanted.hex().upper()}"
                yield f"{what}: {identifier} {reply}{ending}"
