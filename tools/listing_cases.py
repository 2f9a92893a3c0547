#!/usr/bin/env python3
"""listing_cases.py: writes crates/listing_cases/stdin, and stdout, which the listing must write for it.

The lines: an accepted one of every kind, all the malformed forms of a line, every refusal from 0 to 6, a line for every flow, then every
kind again with rd, rs1 and rs2 alike until the list is full, and lines that append nothing. What is to be written comes from the unchanged
Rust (differential/, which is built first) for the accepted lines, and from refusal.py for the others.
"""
import collections
import pathlib
import subprocess
import sys

HERE = pathlib.Path(__file__).resolve().parent
ROOT = HERE.parent
sys.path[:0] = [str(HERE), str(ROOT / "differential")]

import compare
import generate

REFUSED = """65536 Lwu 5 6 7 0
65536 addi 5 6 7 0
65536 Addi 5 32 7 0
65536 Addi 5 6 7 2048
65536 Beq 0 5 6 3
65536 Jal 1 0 0 1048576
65536 Lui 5 0 0 -1
65536 Slli 5 6 0 64
65536 Slli 5 6 0 -1
65536 Sraiw 5 6 0 32
65536 Srliw 5 5 0 0
65536 Srliw 0 5 0 0
65536 Lui 0 0 0 1
65536 Ecall 255 255 255 -2147483648
65536 Jalr 0 1 0 4
65536 Jalr 1 1 0 -4
65536 Jalr 0 0 0 8
18446744073709551612 Jal 0 0 0 4
18446744073709551615 Jalr 1 0 0 0
65536 Jalr 1 2 0 0""".encode().splitlines()
NOTHING = [b"65536 Addi 0 1 2 5", b"65536 Jal 0 0 0 -1048576", b"65536 Jalr 0 31 0 0", b"65536 Ecall 0 0 0 0"]


def lines():
    for kind, form in generate.KINDS:
        yield f"65536 {kind} 5 6 7 {0 if form == 'jalr' else 2}".encode()
    yield from generate.malformed_bytes("65536 Addi 5 6 7 2")
    yield from REFUSED
    yield from compare.PROBES
    for kind, form in generate.KINDS:
        yield f"18446744073709551612 {kind} 31 31 31 {0 if form == 'jalr' else 4}".encode()
    yield from NOTHING


def main():
    subprocess.run([ROOT / "differential" / "build.sh"], check=True, stdout=sys.stderr)
    oracle = compare.Oracle(ROOT / "differential" / "target" / "oracle")
    counts = collections.Counter()
    given = list(lines())
    written = list(compare.expected(given, oracle, counts))
    missing = [kind for kind, _ in generate.KINDS if not counts["accepted", kind]] + [n for n in (0, 1, 2, 3, 4, 5, 6, 8) if not counts["refused", n]]
    if missing:
        sys.exit(f"not reached: {missing}")
    crate = ROOT / "crates" / "listing_cases"
    (crate / "stdin").write_bytes(b"".join(line + b"\n" for line in given))
    (crate / "stdout").write_text("".join(text + "\n" for block in written for text in block))


if __name__ == "__main__":
    main()
