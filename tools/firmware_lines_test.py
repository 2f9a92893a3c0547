#!/usr/bin/env python3
"""Tests of tools/firmware_lines.py, and the making of samples/firmware.*. Run it from anywhere; its last line says how many tests passed.

    tools/firmware_lines_test.py              the tests; samples/firmware.* must be what they make
    tools/firmware_lines_test.py --samples    writes samples/firmware.bin, assembled below, and samples/firmware.txt, its lines

The words of WORDS were taken once from LLVM's assembler, for the text after `#`, and each line was written by hand after that text.
`encode` puts a line's fields where the RISC-V manual's formats have them, for the sample; it must give the same words.
"""
import collections
import os
import pathlib
import random
import struct
import subprocess
import sys
import tempfile

import firmware_lines
from refusal import KINDS, Listing

HERE = pathlib.Path(__file__).resolve().parent
SAMPLES = HERE.parent / "samples"
BASE = 65536

WORDS = """
000000b7  Lui 1 0 0 0                # lui x1, 0
ffffffb7  Lui 31 0 0 1048575         # lui x31, 1048575
800002b7  Lui 5 0 0 524288           # lui x5, 524288
00001097  Auipc 1 0 0 1              # auipc x1, 1
ffffff17  Auipc 30 0 0 1048575       # auipc x30, 1048575
80010083  Lb 1 2 0 -2048             # lb x1, -2048(x2)
000f8003  Lb 0 31 0 0                # lb x0, 0(x31)
7fff1f83  Lh 31 30 0 2047            # lh x31, 2047(x30)
fff32283  Lw 5 6 0 -1                # lw x5, -1(x6)
00043383  Ld 7 8 0 0                 # ld x7, 0(x8)
4007b803  Ld 16 15 0 1024            # ld x16, 1024(x15)
00154483  Lbu 9 10 0 1               # lbu x9, 1(x10)
7fe65583  Lhu 11 12 0 2046           # lhu x11, 2046(x12)
80208023  Sb 0 1 2 -2048             # sb x2, -2048(x1)
7fff1fa3  Sh 0 30 31 2047            # sh x31, 2047(x30)
fe532fa3  Sw 0 6 5 -1                # sw x5, -1(x6)
00743fa3  Sd 0 8 7 31                # sd x7, 31(x8)
020fb023  Sd 0 31 0 32               # sd x0, 32(x31)
80010093  Addi 1 2 0 -2048           # addi x1, x2, -2048
00000013  Addi 0 0 0 0               # addi x0, x0, 0
7ff00f93  Addi 31 0 0 2047           # addi x31, x0, 2047
fff23193  Sltiu 3 4 0 -1             # sltiu x3, x4, -1
00123193  Sltiu 3 4 0 1              # sltiu x3, x4, 1
fff34293  Xori 5 6 0 -1              # xori x5, x6, -1
7ff46393  Ori 7 8 0 2047             # ori x7, x8, 2047
80057493  Andi 9 10 0 -2048          # andi x9, x10, -2048
00011093  Slli 1 2 0 0               # slli x1, x2, 0
01f11093  Slli 1 2 0 31              # slli x1, x2, 31
02011093  Slli 1 2 0 32              # slli x1, x2, 32
03ff1f93  Slli 31 30 0 63            # slli x31, x30, 63
00115093  Srli 1 2 0 1               # srli x1, x2, 1
03ff5f93  Srli 31 30 0 63            # srli x31, x30, 63
40015093  Srai 1 2 0 0               # srai x1, x2, 0
42015093  Srai 1 2 0 32              # srai x1, x2, 32
43ff5f93  Srai 31 30 0 63            # srai x31, x30, 63
8001009b  Addiw 1 2 0 -2048          # addiw x1, x2, -2048
7fff0f9b  Addiw 31 30 0 2047         # addiw x31, x30, 2047
0001109b  Slliw 1 2 0 0              # slliw x1, x2, 0
01ff1f9b  Slliw 31 30 0 31           # slliw x31, x30, 31
0001509b  Srliw 1 2 0 0              # srliw x1, x2, 0
01ff5f9b  Srliw 31 30 0 31           # srliw x31, x30, 31
4001509b  Sraiw 1 2 0 0              # sraiw x1, x2, 0
41ff5f9b  Sraiw 31 30 0 31           # sraiw x31, x30, 31
003100b3  Add 1 2 3 0                # add x1, x2, x3
41df0fb3  Sub 31 30 29 0             # sub x31, x30, x29
00629233  Sll 4 5 6 0                # sll x4, x5, x6
009433b3  Sltu 7 8 9 0               # sltu x7, x8, x9
00c5d533  Srl 10 11 12 0             # srl x10, x11, x12
40f756b3  Sra 13 14 15 0             # sra x13, x14, x15
0128e833  Or 16 17 18 0              # or x16, x17, x18
015a79b3  And 19 20 21 0             # and x19, x20, x21
038b8b33  Mul 22 23 24 0             # mul x22, x23, x24
03bd4cb3  Div 25 26 27 0             # div x25, x26, x27
03eede33  Divu 28 29 30 0            # divu x28, x29, x30
02107fb3  Remu 31 0 1 0              # remu x31, x0, x1
003100bb  Addw 1 2 3 0               # addw x1, x2, x3
0262c23b  Divw 4 5 6 0               # divw x4, x5, x6
409403bb  Subw 7 8 9 0               # subw x7, x8, x9
00c5953b  Sllw 10 11 12 0            # sllw x10, x11, x12
03df0fbb  Mulw 31 30 29 0            # mulw x31, x30, x29
80208063  Beq 0 1 2 -4096            # beq x1, x2, -4096
7fef9fe3  Bne 0 31 30 4094           # bne x31, x30, 4094
fe41cfe3  Blt 0 3 4 -2               # blt x3, x4, -2
0062d163  Bge 0 5 6 2                # bge x5, x6, 2
0083e0e3  Bltu 0 7 8 2048            # bltu x7, x8, 2048
0083e063  Bltu 0 7 8 0               # bltu x7, x8, 0
00a4ff63  Bgeu 0 9 10 30             # bgeu x9, x10, 30
fea4ff63  Bgeu 0 9 10 -2050          # bgeu x9, x10, -2050
800000ef  Jal 1 0 0 -1048576         # jal x1, -1048576
7ffff06f  Jal 0 0 0 1048574          # jal x0, 1048574
00100fef  Jal 31 0 0 2048            # jal x31, 2048
00001fef  Jal 31 0 0 4096            # jal x31, 4096
fffff2ef  Jal 5 0 0 -2               # jal x5, -2
800100e7  Jalr 1 2 0 -2048           # jalr x1, -2048(x2)
00008067  Jalr 0 1 0 0               # jalr x0, 0(x1)
00000073  Ecall 0 0 0 0              # ecall
00416083  Lwu 1 2 0 4                # lwu x1, 4(x2)
fff12093  Slti 1 2 0 -1              # slti x1, x2, -1
003140b3  Xor 1 2 3 0                # xor x1, x2, x3
0062a233  Slt 4 5 6 0                # slt x4, x5, x6
003150bb  Srlw 1 2 3 0               # srlw x1, x2, x3
403150bb  Sraw 1 2 3 0               # sraw x1, x2, x3
023160b3  Rem 1 2 3 0                # rem x1, x2, x3
023160bb  Remw 1 2 3 0               # remw x1, x2, x3
023170bb  Remuw 1 2 3 0              # remuw x1, x2, x3
023150bb  Divuw 1 2 3 0              # divuw x1, x2, x3
023110b3  Mulh 1 2 3 0               # mulh x1, x2, x3
023130b3  Mulhu 1 2 3 0              # mulhu x1, x2, x3
023120b3  Mulhsu 1 2 3 0             # mulhsu x1, x2, x3
0ff0000f  Fence 0 0 0 0              # fence
0000100f  FenceI 0 0 0 0             # fence.i
00100073  Ebreak 0 0 0 0             # ebreak
300110f3  Csrrw 0 0 0 0              # csrrw x1, 0x300, x2
c00ff0f3  Csrrci 0 0 0 0             # csrrci x1, 0xc00, 31
30200073  Unknown 0 0 0 0            # mret
"""

NOT_INSTRUCTIONS = {  # reserved or not of RV64IM: what is wrong with each
    0x0000000B: "custom-0", 0x00007003: "load with funct3 7", 0x00004023: "store with funct3 4", 0x00002063: "branch with funct3 2",
    0x00001067: "jalr with funct3 1", 0x04001013: "slli with bit 26 set", 0x80005013: "srli with bit 31 set", 0x0200101B: "slliw by 32",
    0x4200501B: "sraiw by 32", 0x0000201B: "addiw with funct3 2", 0x40001033: "sll with sub's funct7", 0x0400003B: "addw with funct7 2",
    0x0200103B: "mulw with funct3 1", 0x00000053: "fadd.s", 0x1000202F: "lr.w", 0x00002007: "flw", 0x00200073: "ecall with imm 2",
    0x000000F3: "ecall with rd x1", 0xFFFFFFFF: "all ones", 0x0000001F: "an encoding of 48 bits",
}  # fmt: skip

#
# The encodings, from the manual's formats
#

OPCODE = {
    0x37: "Lui", 0x17: "Auipc", 0x6F: "Jal", 0x67: "Jalr", 0x63: "Beq Bne . . Blt Bge Bltu Bgeu", 0x03: "Lb Lh Lw Ld Lbu Lhu Lwu",
    0x23: "Sb Sh Sw Sd", 0x13: "Addi Slli Slti Sltiu Xori Srli Ori Andi", 0x1B: "Addiw Slliw . . . Srliw",
    0x33: "Add Sll Slt Sltu Xor Srl Or And", 0x3B: "Addw Sllw . . . Srlw", 0x0F: "Fence FenceI", 0x73: "Ecall",
}  # fmt: skip
CODES = {kind: (opcode, funct3, 0) for opcode, kinds in OPCODE.items() for funct3, kind in enumerate(kinds.split())}
CODES |= {"Sub": (0x33, 0, 32), "Sra": (0x33, 5, 32), "Srai": (0x13, 5, 32)}
CODES |= {"Subw": (0x3B, 0, 32), "Sraw": (0x3B, 5, 32), "Sraiw": (0x1B, 5, 32)}
CODES |= {kind: (0x33, n, 1) for n, kind in enumerate("Mul Mulh Mulhsu Mulhu Div Divu Rem Remu".split())}
CODES |= {kind: (0x3B, n, 1) for n, kind in zip((0, 4, 5, 6, 7), "Mulw Divw Divuw Remw Remuw".split())}


def encode(kind, rd, rs1, rs2, imm):
    if kind == "Fence":
        return 0x0FF0000F  # of all, before and after
    opcode, funct3, funct7 = CODES[kind]
    word = opcode | rd << 7 | funct3 << 12 | rs1 << 15
    if opcode in (0x37, 0x17):  # U
        return opcode | rd << 7 | imm << 12
    if opcode in (0x33, 0x3B):  # R
        return word | rs2 << 20 | funct7 << 25
    if opcode == 0x23:  # S
        return word | rs2 << 20 | (imm & 31) << 7 | (imm >> 5 & 127) << 25
    if opcode == 0x63:  # B
        return word | rs2 << 20 | (imm >> 11 & 1) << 7 | (imm >> 1 & 15) << 8 | (imm >> 5 & 63) << 25 | (imm >> 12 & 1) << 31
    if opcode == 0x6F:  # J
        return opcode | rd << 7 | (imm >> 12 & 255) << 12 | (imm >> 11 & 1) << 20 | (imm >> 1 & 1023) << 21 | (imm >> 20 & 1) << 31
    return word | (imm & 4095) << 20 | funct7 << 25  # I; funct7 marks Srai and Sraiw


#
# The sample: a reset routine that calls a copy with a checksum
#

SAMPLE = """
reset:  Lui 2 0 0 32
        Addi 2 2 0 -16
        Auipc 11 0 0 1
        Lui 10 0 0 24
        Addi 12 0 0 37
        Jal 1 0 0 copy
        Sw 0 2 10 8
        Lui 11 0 0 17
        Lwu 13 11 0 40
        Lw 13 11 0 40
        Bne 0 10 13 fail
        Addi 10 0 0 0
        Jal 0 0 0 exit
fail:   Addi 10 0 0 1
exit:   Addi 17 0 0 93
        Ecall 0 0 0 0
halt:   Jal 0 0 0 halt

copy:   Addi 2 2 0 -32
        Sd 0 2 1 24
        Sd 0 2 8 16
        Addi 8 0 0 0
        Andi 5 12 0 -8
        Add 6 11 5 0
        Bgeu 0 11 6 tail
words:  Ld 7 11 0 0
        Sd 0 10 7 0
        Srli 28 7 0 32
        Addw 8 8 7 0
        Addw 8 8 28 0
        Slliw 29 8 0 1
        Srliw 30 8 0 31
        Or 8 29 30 0
        Addi 11 11 0 8
        Addi 10 10 0 8
        Bltu 0 11 6 words
tail:   Andi 5 12 0 7
        Beq 0 5 0 done
bytes:  Lbu 7 11 0 0
        Sb 0 10 7 0
        Addw 8 8 7 0
        Addi 11 11 0 1
        Addi 10 10 0 1
        Addi 5 5 0 -1
        Bne 0 5 0 bytes
done:   Fence 0 0 0 0
        Xori 10 8 0 -1
        Addiw 10 10 0 0
        Ld 1 2 0 24
        Ld 8 2 0 16
        Addi 2 2 0 32
        Jalr 0 1 0 0
"""


def assembled(text, base):
    """The instructions' words, and the input lines that they must give. A label is a distance."""
    labels, lines = {}, []
    for line in text.split("\n"):
        *label, line = line.split(":")
        if label:
            labels[label[0]] = 4 * len(lines)
        if line.strip():
            lines.append(line.split())
    image, wanted = b"", []
    for n, (kind, rd, rs1, rs2, imm) in enumerate(lines):
        imm = labels[imm] - 4 * n if imm in labels else int(imm)
        image += struct.pack("<I", encode(kind, int(rd), int(rs1), int(rs2), imm))
        wanted.append(f"{base + 4 * n} {kind} {rd} {rs1} {rs2} {imm}")
    return image, wanted


#
# ELF files
#


def elf(parts, segments=(), kind=2, machine=243, begin=b"\x7fELF\x02\x01\x01"):
    """A file with these sections and segments: type, flags, address, bytes."""
    at, bodies, section_rows, segment_rows = 64, b"", [(0,) * 10] if parts else [], []
    for type, flags, address, body in parts:
        section_rows.append((0, type, flags, address, at + len(bodies), len(body), 0, 0, 4, 0))
        bodies += body if type != 8 else b""
    for type, flags, address, body in segments:
        segment_rows.append((type, flags, at + len(bodies), address, address, len(body), len(body), 4))
        bodies += body
    segments_at = at + len(bodies)
    sections_at = segments_at + 56 * len(segment_rows)
    header = struct.pack(
        "<16sHHIQQQIHHHHHH", begin, kind, machine, 1, 0, segments_at, sections_at, 0, 64, 56, len(segment_rows), 64, len(section_rows), 0
    )
    rows = [struct.pack("<IIQQQQQQ", *row) for row in segment_rows] + [struct.pack("<IIQQQQIIQQ", *row) for row in section_rows]
    return header + bodies + b"".join(rows)


#
# The tests
#

passed = failed = 0


def test(name, got, wanted):
    global passed, failed
    if got == wanted:
        passed += 1
    else:
        failed += 1
        print(f"{name}\n  got    {got}\n  wanted {wanted}")


def called(*arguments, **words):
    """The script's exit status, output and standard error. What it is given may not bring it to a traceback, or to more than one sentence."""
    words = {"stdin": subprocess.DEVNULL, "stdout": subprocess.PIPE} | words
    done = subprocess.run([sys.executable, HERE / "firmware_lines.py", *arguments], stderr=subprocess.PIPE, **words)
    said = done.stderr.decode()
    if done.returncode and (said.count("\n") != 1 or not said.startswith("firmware_lines.py: ")):
        test(f"one sentence for {arguments}", said, "one sentence")
    return done.returncode, (done.stdout or b"").decode(), said


def run(file, *arguments):
    """What the script prints for a file of these bytes; its message where it fails."""
    with tempfile.TemporaryDirectory() as folder:
        path = pathlib.Path(folder) / "file"
        path.write_bytes(file)
        status, out, said = called(path, *arguments)
    return out.splitlines() if status == 0 else (status, out, said.strip().rsplit(": ", 1)[-1])


def word_tests():
    kinds = set()
    for row in WORDS.strip().split("\n"):
        word, line = row.split("#")[0].split(maxsplit=1)
        kind, *numbers = line.split()
        fields = (kind, *map(int, numbers))
        test(row, firmware_lines.decode(int(word, 16)), fields)
        if kind in CODES:
            test("encoded: " + row, f"{encode(*fields):08x}", word)
        kinds.add(kind)
    test("kinds tried", [kind for kind in KINDS if kind not in kinds], [])
    for word, why in NOT_INSTRUCTIONS.items():
        test(why, firmware_lines.decode(word), ("Unknown", 0, 0, 0, 0))


def image_tests(image, lines):
    test("raw image", run(image, "--raw", "--base", "65536"), lines)
    test("hexadecimal base", run(image, "--raw", "--base", "0x10000"), lines)
    test("empty image", run(b"", "--raw", "--base", "0"), [])
    mixed = bytes.fromhex("0100 93000000 0000 6f000000 93")
    wanted = ["8 Compressed 0 0 0 0", "10 Addi 1 0 0 0", "14 Compressed 0 0 0 0", "16 Jal 0 0 0 0", "20 Unknown 0 0 0 0"]
    test("16 bits, and a cut end", run(mixed, "--raw", "--base", "8"), wanted)
    test("the last address", run(image[:4], "--raw", "--base", str(2**64 - 4)), ["18446744073709551612 Lui 2 0 0 32"])
    test("past the last address", run(image[:4], "--raw", "--base", str(2**64 - 3))[:2], (1, ""))
    test("no base", run(image, "--raw")[:2], (2, ""))
    test("base without --raw", run(image, "--base", "0")[:2], (2, ""))


def elf_tests(image, lines):
    data, code, more = (1, 3, BASE + 4096, b"data"), (1, 6, BASE, image), (1, 6, 16, bytes.fromhex("73000000"))
    sections = [(8, 3, 0, b"none"), data, code, (3, 0, 0, b"names"), more]  # also one of zeros, one of strings
    wanted = ["16 Ecall 0 0 0 0"] + lines
    test("ELF, its sections", run(elf(sections, [(1, 5, 0, image)])), wanted)
    segments = [(1, 6, BASE + 4096, b"data"), (1, 5, BASE, image), (2, 5, 0, b"more"), (1, 1, 16, more[3])]
    test("ELF, its segments", run(elf([], segments)), wanted)
    test("ELF without code", run(elf([data])), [])
    whole = elf(sections)
    test("no ELF", run(image)[:2], (1, ""))
    test("32 bits", run(elf(sections, begin=b"\x7fELF\x01\x01\x01"))[:2], (1, ""))
    test("big-endian", run(elf(sections, begin=b"\x7fELF\x02\x02\x01"))[:2], (1, ""))
    test("another machine", run(elf(sections, machine=62)), (1, "", "machine 62 is not RISC-V"))
    test("not linked", run(elf(sections, kind=1))[:2], (1, ""))
    for length in (6, 16, 63, 64, 200, len(whole) - 1):
        test(f"cut to {length} bytes", run(whole[:length]), (1, "", "the ELF file is cut short"))
    beyond = elf([(1, 6, BASE, image)]).replace(struct.pack("<Q", len(image)), struct.pack("<Q", 2**63))
    test("a section beyond the file", run(beyond), (1, "", "the ELF file is cut short"))
    overlapping = elf([code, (1, 6, BASE + 4, image[4:8])])
    test("sections that overlap", run(overlapping), lines + [lines[1]])
    test("many sections over one part of the file", run(folded(image))[:2], (1, ""))
    test("the end of memory", run(elf([(1, 6, 2**64 - 4, image)]))[:2], (1, ""))


def folded(image):
    """An ELF file of which every section is the whole file, so that it would be listed a thousand times."""
    file = bytearray(elf([(1, 6, BASE, image)] * 1000))
    sections_at = struct.unpack_from("<Q", file, 40)[0]
    for n in range(1, 1001):
        struct.pack_into("<QQ", file, sections_at + 64 * n + 24, 0, len(file))
    return bytes(file)


# Fields of an ELF file that lead out of it: their place and width, where the sections' table begins at S and the segments' at P.
FIELDS = {
    "type": (16, 2), "machine": (18, 2), "segments' offset": (32, 8), "sections' offset": (40, 8), "segment size": (54, 2), "segments": (56, 2),
    "section size": (58, 2), "sections": (60, 2), "a section's type": ("S", 4, 4), "its flags": ("S", 8, 8), "its address": ("S", 16, 8),
    "its offset": ("S", 24, 8), "its size": ("S", 32, 8), "a segment's offset": ("P", 8, 8), "its length": ("P", 32, 8),
}  # fmt: skip


def field_tests(image):
    """Every field at values that no file has, as a sentence or as lines; and fields of any value."""
    code, segment = (1, 6, BASE, image), (1, 5, BASE, image)
    for shape, whole in (("sections", elf([code, code], [segment])), ("segments", elf([], [segment, segment]))):
        tables = {"P": struct.unpack_from("<Q", whole, 32)[0], "S": struct.unpack_from("<Q", whole, 40)[0] + 64}
        for name, (*place, width) in FIELDS.items():
            at = place[0] if len(place) == 1 else tables[place[0]] + place[1]
            if at + width > len(whole):
                continue  # without sections there is no section's field
            for value in (0, 1, 2 ** (8 * width - 1), 2 ** (8 * width) - 1):
                file = bytearray(whole)
                file[at : at + width] = value.to_bytes(width, "little")
                found = run(bytes(file))
                test(f"{shape}, {name} {value}", isinstance(found, list) or found[:2] == (1, ""), True)
    rng = random.Random("fields")
    whole = elf([code, code], [segment])
    outcomes = collections.Counter()
    for _ in range(3000):
        file = bytearray(whole[: rng.choice((len(whole), len(whole), rng.randrange(len(whole))))])
        for _ in range(rng.randrange(1, 6)):
            at = rng.choice((rng.randrange(len(file) or 1), rng.randrange(16, 64), len(file) - rng.randrange(1, 193)))
            if 0 <= at < len(file):
                file[at] = rng.choice((0, 1, 127, 128, 255, rng.randrange(256)))
        try:
            outcomes["code"] += bool(firmware_lines.code_of(bytes(file)))
        except firmware_lines.NotFirmware:
            outcomes["a sentence"] += 1
    test("fields of any value", outcomes["code"] > 0 and outcomes["a sentence"] > 0, True)


def command_tests(image, lines):
    """Options, standard input, files that are no firmware, outputs that take nothing."""
    sample, base = SAMPLES / "firmware.bin", ("--raw", "--base", str(BASE))
    text = "".join(line + "\n" for line in lines)
    test("standard input", called("-", *base, input=image, stdin=None), (0, text, ""))
    test("standard input, ELF", called("-", input=elf([(1, 6, BASE, image)]), stdin=None), (0, text, ""))
    test("standard input that is empty", called("-")[:2], (1, ""))
    test("standard input that is closed", called("-", stdin=None, preexec_fn=lambda: os.close(0)), (1, "", "firmware_lines.py: standard input is closed\n"))
    for value in ("zz", "", "-1", "0x", "1_0", "1e3", " 1", "0x1g", str(2**64), "9" * 5000, "\u0663"):
        test(f"--base {value[:20]!r}", called(sample, "--raw", "--base", value)[:2], (2, ""))
    for options in ([], ["--raw"], ["--base", "0"], ["--zz"], ["--raw=1", "--base", "0"], ["--ra", "--ba", "0"], ["more"], ["--base"]):
        test(f"options {options}", called(*([sample] if options else []), *options)[:2], (2, ""))
    test("help", called("--help")[0::2], (0, ""))
    for name in (SAMPLES, SAMPLES / "missing", "", b"\xff\xfe"):
        test(f"file {name!r}", called(name)[:2], (1, ""))
    crlf = text.replace("\n", "\r\n").encode()
    for name, file, hints in (("lines", text.encode(), ["input lines"]), ("CR LF", crlf, ["input lines", "CR LF"]), ("text", b"a\r\nb\r\n", ["CR LF"])):
        said = run(file)
        test(f"a file of {name}", said[:2], (1, ""))
        with tempfile.TemporaryDirectory() as folder:
            path = pathlib.Path(folder) / "file"
            path.write_bytes(file)
            said = called(path)[2]
        test(f"the hint for {name}", [hint for hint in hints if hint not in said], [])
    for name, file in (("lines", image), ("no line", b""), ("many lines", image * 3000)):
        with open("/dev/full", "wb") as full:
            done = called("-", *base, input=file, stdin=None, stdout=full)
            if file:
                test(f"a full device, {name}", done, (2, "", "firmware_lines.py: the output can't be written: No space left on device\n"))
        closed, into = os.pipe()
        os.close(closed)
        wanted = (0, "", "") if not file else (2, "", "firmware_lines.py: the output can't be written: Broken pipe\n")
        test(f"a pipe without a reader, {name}", called("-", *base, input=file, stdin=None, stdout=into), wanted)
        os.close(into)
        shut = called("-", *base, input=file, stdin=None, stdout=None, preexec_fn=lambda: os.close(1))
        test(f"a closed output, {name}", shut, (2, "", "firmware_lines.py: standard output is closed\n"))
    with open("/dev/full", "wb") as full:
        test("help on a full device", called("--help", stdout=full)[0], 2)


def separator_tests():
    """The separator scan: its kinds were counted with GNU's objdump, which gives the same lines."""
    status, out, _ = called(SAMPLES / "separators.elf")
    listing, lines = Listing(), out.splitlines()
    kinds = collections.Counter(line.split()[1] for line in lines)
    test("separators.elf", (status, len(lines), lines[0], lines[-1]), (0, 360, "65536 Auipc 3 0 0 1", "66972 Jal 0 0 0 -8"))
    test("its kinds that are refused", {kind: count for kind, count in kinds.items() if kind not in KINDS}, {"Xor": 9, "Fence": 1})
    test("its first refusal with 8", next(n for n, line in enumerate(lines, 1) if listing.take(line.encode()) == 8), 120)



def main():
    image, lines = assembled(SAMPLE, BASE)
    text = "".join(line + "\n" for line in lines)
    if sys.argv[1:] == ["--samples"]:
        SAMPLES.mkdir(exist_ok=True)
        (SAMPLES / "firmware.bin").write_bytes(image)
        (SAMPLES / "firmware.txt").write_text(text)
        return 0
    word_tests()
    image_tests(image, lines)
    elf_tests(image, lines)
    field_tests(image)
    command_tests(image, lines)
    separator_tests()
    test("samples/firmware.bin", (SAMPLES / "firmware.bin").read_bytes(), image)
    test("samples/firmware.txt", (SAMPLES / "firmware.txt").read_text(), text)
    listing = Listing()
    numbers = [listing.take(line.encode()) for line in lines]
    test("the sample's refusals", {n + 1: number for n, number in enumerate(numbers) if number is not None}, {9: 1, 45: 1})  # Lwu, Fence
    print(f"{passed} passed, {failed} failed")
    return failed != 0


if __name__ == "__main__":
    sys.exit(main())
