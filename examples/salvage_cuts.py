#!/usr/bin/env python3
"""Feeds the program salvage-print: a file cut at every length, random bytes, records about every border, words that are no sizes.

salvage_cuts.py COMMAND..: COMMAND runs the program. What it writes to both outputs is held to the rule, written here a second time (docs/RULES.md).
The last line says how many runs there were; the status is 1 where one differs. With SALVAGE_CUTS_SPOIL=1 the rule keeps 640 on a width of 640, and a run must differ.
"""
import math
import os
import random
import struct
import subprocess
import sys

MOST = 4096
EDGE = 0 if os.environ.get("SALVAGE_CUTS_SPOIL") == "1" else 1


def fault_of(record, width, height):
    x, y, strength = struct.unpack("<fff", record)
    if not all(map(math.isfinite, (x, y, strength))):
        return "not finite"
    if not (0 <= x <= width - EDGE and 0 <= y <= height - EDGE):
        return "outside"
    return None


def expected(data, width, height):
    """Standard output and standard error."""
    if not (1 <= width <= 4096 and 1 <= height <= 4096):
        return b"", "refused 10\n"
    whole = len(data) // 12
    if whole > MOST:
        return b"", "refused 16\n"
    kept, lines = b"", ""
    for i in range(whole):
        record = data[12 * i : 12 * i + 12]
        fault = fault_of(record, width, height)
        if fault is None:
            kept += record
        else:
            lines += f"{i} {fault}\n"
    if len(data) % 12:
        lines += f"{whole} cut\n"
    return kept, lines + f"kept {len(kept) // 12} dropped {lines.count(chr(10))}\n"


def cases(stored):
    for n in range(len(stored) + 1):
        yield stored[:n], "640", "480"
    chance = random.Random(214)
    edges = [0.0, -0.0, -1e-45, 639.0, 639.00006, 640.0, 479.0, 479.00003, 1e-45, math.nan, math.inf, -math.inf, 3.4e38]
    for _ in range(60):
        numbers = [chance.choice(edges) for _ in range(3 * chance.randrange(1, 30))]
        cut = chance.randrange(12)
        yield struct.pack(f"<{len(numbers)}f", *numbers)[: 4 * len(numbers) - cut], "640", "480"
    for _ in range(60):
        yield chance.randbytes(chance.randrange(400)), str(chance.randrange(4097)), str(chance.randrange(4099))
    full = struct.pack("<fff", 1.0, 2.0, 3.0) * MOST
    yield full, "640", "480"
    yield full + b"\x00" * 11, "640", "480"
    yield full + b"\x00" * 12, "640", "480"


def main(command):
    with open(os.path.join(os.path.dirname(__file__), "..", "crates", "salvage_print", "stdin"), "rb") as stored:
        stored = stored.read()
    runs = 0
    for data, width, height in cases(stored):
        ran = subprocess.run([*command, width, height], input=data, capture_output=True, check=False)
        out, err = expected(data, int(width), int(height))
        if ran.stdout != out or ran.stderr.decode() != err:
            print(f"salvage: {len(data)} bytes on {width} by {height}: {data[:60].hex()}")
            print(f"  expected {out[:36].hex()} and {err!r}\n  got {ran.stdout[:36].hex()} and {ran.stderr.decode()!r}")
            return 1
        runs += 1
    for words in ([], ["640"], ["640", "480", "1"], ["", "480"], ["x", "480"], ["6 4", "480"], ["-1", "480"]):
        ran = subprocess.run([*command, *words], input=stored, capture_output=True, check=False)
        if ran.stdout or not ran.stderr.startswith(b"usage: "):
            print(f"salvage: words {words}: {ran.stderr!r}")
            return 1
        runs += 1
    print(f"salvage: {runs} runs, all as the rule says")
    return 0


if __name__ == "__main__":
    sys.exit(main(sys.argv[1:]))
