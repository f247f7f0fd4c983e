#!/usr/bin/env python3
"""Writes the lines that the program crc_vectors is run on, and the checks that Python's binascii works out for them."""
import binascii
import pathlib
import random

crate = pathlib.Path(__file__).resolve().parent.parent / "crates" / "crc_vectors"
draw = random.Random(301)
lines = [b"123456789", b"", b"\x00", b"\xff", b"A", b"BASINTILT2", bytes(510), b"\xff" * 510]
for length in (1, 2, 3, 7, 8, 28, 255, 256, 509, 510, 511, 512, 1000):
    lines.append(bytes(draw.choice([b for b in range(256) if b != 10]) for _ in range(length)))
(crate / "stdin").write_bytes(b"".join(line + b"\n" for line in lines))
(crate / "stdout").write_text("".join(f"{binascii.crc_hqx(line, 0):04x}\n" for line in lines))
