#!/usr/bin/env python3
"""Cases for the instruction check, with the refusals that document 01 gives them.

    tools/riscv_cases.py stdin    crates/riscv_cases/stdin: a record to a line
    tools/riscv_cases.py stdout   crates/riscv_cases/stdout: each record, and its refusal

The refusals are read off document 01 by refusal.py, which shares nothing with the project's definitions and code.
"""
import sys

from refusal import KINDS, refusal

def cases():
    n = {k: i for i, k in enumerate(KINDS)}
    for number in (50, 51, 2**64 - 1):
        yield number, 1, 2, 3, 4
    for k in KINDS:  # each kind once plain, once with rd x0, and with each register one past the last
        imm = 0 if k == "Jalr" else 2
        yield n[k], 31, 31, 31, imm
        yield n[k], 0, 2, 3, imm
        yield n[k], 32, 2, 3, imm
        yield n[k], 1, 32, 3, imm
        yield n[k], 1, 2, 2**64 - 1, imm
    for k, limits in (
        ("Addi", (-2049, -2048, 2047, 2048)),
        ("Sd", (-2049, -2048, 2047, 2048)),
        ("Beq", (-4098, -4096, -1, 1, 4094, 4095, 4096)),
        ("Jal", (-1_048_578, -1_048_576, -1, 1, 1_048_574, 1_048_575, 1_048_576)),
        ("Lui", (-1, 0, 1_048_575, 1_048_576)),
        ("Auipc", (-1, 0, 1_048_575, 1_048_576)),
        ("Add", (-1, 2**63 - 1)),
        ("Ecall", (-1, 2**63 - 1)),
        ("Slli", (-2049, -1, 0, 63, 64, 2048)),
        ("Srli", (-1, 0, 63, 64)),
        ("Srai", (-2049, -1, 63, 64, 1024, 2047, 2048)),
        ("Slliw", (-1, 0, 31, 32)),
        ("Srliw", (-1, 0, 1, 31, 32)),
        ("Sraiw", (-33, -32, -1, 0, 31, 32, 63, 64, 1024, 1055, 1056)),
    ):
        for imm in limits:
            yield n[k], 1, 2, 3, imm
    yield n["Srliw"], 0, 2, 3, 0  # 4 comes before 5
    yield n["Srliw"], 0, 2, 3, 32  # and 3 before both
    yield n["Slli"], 32, 2, 3, 64  # 2 before 3
    for rd, rs1, imm in ((0, 0, 8), (0, 1, 4), (1, 0, -4), (1, 1, 0), (1, 1, -1), (1, 1, 2048)):
        yield n["Jalr"], rd, rs1, 0, imm
    yield n["Jal"], 0, 99, 99, 4


def kind(number):
    return KINDS[number] if number < len(KINDS) else None


def word(imm):
    return imm % 2**64


if __name__ == "__main__":
    for c in cases():
        fields = (*c[:4], word(c[4]))
        print(*fields, *([] if sys.argv[1:] == ["stdin"] else [refusal(kind(c[0]), *c[1:])]))
