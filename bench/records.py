#!/usr/bin/env python3
"""records.py LINES [SEED]: instructions for the bench that together append just under LINES lines, as input lines of the listing.

Both halves of the bench read this one list. Every kind is as likely as any other; the fields are those of differential/generate.py, refused
records left out; the addresses rise by 4 from 65536. The same LINES and SEED (default 1) give the same list. A list of the port holds
1,048,576 lines, its start's 39 included.
"""
import pathlib
import random
import sys

ROOT = pathlib.Path(__file__).resolve().parent.parent
sys.path[:0] = [str(ROOT / "differential"), str(ROOT / "tools")]

import generate
import refusal


def records(lines, seed):
    rng, address = random.Random(seed), 65536
    while True:
        _, kind, rd, rs1, rs2, imm = refusal.fields(generate.line(rng, False).encode())
        if refusal.refusal(kind, rd, rs1, rs2, imm):
            continue
        lines -= refusal.appended(kind, rd, rs1, imm)
        if lines < 0:
            return
        yield f"{address} {kind} {rd} {rs1} {rs2} {imm}"
        address += 4


if __name__ == "__main__":
    if len(sys.argv) not in (2, 3):
        sys.exit("usage: records.py LINES [SEED]")
    for record in records(int(sys.argv[1]), int(sys.argv[2]) if sys.argv[2:] else 1):
        print(record)
