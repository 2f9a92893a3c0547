#!/usr/bin/env python3
"""Firmware as input lines of the listing program.

    tools/firmware_lines.py FILE                        an RV64 ELF file, linked, little-endian
    tools/firmware_lines.py FILE --raw --base ADDRESS   an image of code alone that is loaded at ADDRESS (decimal, or hexadecimal after 0x)

FILE is standard input where it is `-`. Prints a line for each instruction, `address kind rd rs1 rs2 imm`, in the order of addresses, so that

    tools/firmware_lines.py firmware.elf | tools/listing.sh

lists the BTOR2 lines of the firmware. The listing holds 1,024 lines: longer firmware goes in parts (`| sed -n 1,60p |`), and
differential/compare.py takes it whole.

- Of an ELF file the executable sections are taken; of one without sections the executable segments, whose data then reads as code.
- The numbers are decimal. Fields that a kind doesn't use are 0. imm is the signed immediate; for Lui and Auipc the field of 20 bits, 0 to
  1048575; for branches and Jal the distance in bytes; for shifts by an immediate, Srai and Sraiw too, the amount.
- Kinds are spelt as in the Rust's `translate_to_model`. What the listing doesn't take is a line all the same, which it refuses with 1: the
  rest of RV64IM, Fence, FenceI, Ebreak and the CSR instructions under their names, `Compressed` for an instruction of 16 bits, `Unknown`
  for every other encoding, reserved ones and data among them (longer ones go in steps of 4 bytes), and for what is cut short at the end.

The decoder is written from the RISC-V Unprivileged ISA (RV32/64G Instruction Set Listings) and needs no other tool. Whatever is wrong is
one sentence on standard error: a file that is not what it should be or can't be read gives exit status 1 and no line, a wrong option or an
output that can't be written 2. Sections that overlap are listed one after the other, with a sentence. Test: tools/firmware_lines_test.py.
"""
import itertools
import re
import struct

import command

#
# The decoder
#

LOAD = {0: "Lb", 1: "Lh", 2: "Lw", 3: "Ld", 4: "Lbu", 5: "Lhu", 6: "Lwu"}
STORE = {0: "Sb", 1: "Sh", 2: "Sw", 3: "Sd"}
BRANCH = {0: "Beq", 1: "Bne", 4: "Blt", 5: "Bge", 6: "Bltu", 7: "Bgeu"}
OP_IMM = {0: "Addi", 2: "Slti", 3: "Sltiu", 4: "Xori", 6: "Ori", 7: "Andi"}
SHIFT_IMM = {(0, 1): "Slli", (0, 5): "Srli", (16, 5): "Srai"}  # by the six bits above the amount, and funct3
SHIFT_IMM_32 = {(0, 1): "Slliw", (0, 5): "Srliw", (32, 5): "Sraiw"}  # by funct7 and funct3
OP = dict(zip([(0, f) for f in range(8)], "Add Sll Slt Sltu Xor Srl Or And".split()))
OP |= {(32, 0): "Sub", (32, 5): "Sra"}
OP |= dict(zip([(1, f) for f in range(8)], "Mul Mulh Mulhsu Mulhu Div Divu Rem Remu".split()))
OP_32 = {(0, 0): "Addw", (0, 1): "Sllw", (0, 5): "Srlw", (32, 0): "Subw", (32, 5): "Sraw"}
OP_32 |= {(1, 0): "Mulw", (1, 4): "Divw", (1, 5): "Divuw", (1, 6): "Remw", (1, 7): "Remuw"}
MISC_MEM = {0: "Fence", 1: "FenceI"}
CSR = {1: "Csrrw", 2: "Csrrs", 3: "Csrrc", 5: "Csrrwi", 6: "Csrrsi", 7: "Csrrci"}
WHOLE = {0x00000073: "Ecall", 0x00100073: "Ebreak"}
UNKNOWN = ("Unknown", 0, 0, 0, 0)


def signed(value, bits):
    return value - (1 << bits) if value >> (bits - 1) else value


def bits(word, high, low):
    return word >> low & (1 << (high - low + 1)) - 1


def imm_s(word):
    return signed(bits(word, 31, 25) << 5 | bits(word, 11, 7), 12)


def imm_b(word):
    return signed(bits(word, 31, 31) << 12 | bits(word, 7, 7) << 11 | bits(word, 30, 25) << 5 | bits(word, 11, 8) << 1, 13)


def imm_j(word):
    return signed(bits(word, 31, 31) << 20 | bits(word, 19, 12) << 12 | bits(word, 20, 20) << 11 | bits(word, 30, 21) << 1, 21)


def fields(word):
    """The kind, or None, and the fields of an instruction of 32 bits."""
    opcode, rd, funct3, rs1, rs2, funct7 = (
        bits(word, 6, 0), bits(word, 11, 7), bits(word, 14, 12), bits(word, 19, 15), bits(word, 24, 20), bits(word, 31, 25)
    )  # fmt: skip
    imm_i = signed(bits(word, 31, 20), 12)
    if opcode == 0b0110111:
        return "Lui", rd, 0, 0, bits(word, 31, 12)
    if opcode == 0b0010111:
        return "Auipc", rd, 0, 0, bits(word, 31, 12)
    if opcode == 0b1101111:
        return "Jal", rd, 0, 0, imm_j(word)
    if opcode == 0b1100111:
        return "Jalr" if funct3 == 0 else None, rd, rs1, 0, imm_i
    if opcode == 0b1100011:
        return BRANCH.get(funct3), 0, rs1, rs2, imm_b(word)
    if opcode == 0b0000011:
        return LOAD.get(funct3), rd, rs1, 0, imm_i
    if opcode == 0b0100011:
        return STORE.get(funct3), 0, rs1, rs2, imm_s(word)
    if opcode == 0b0010011 and funct3 in (1, 5):
        return SHIFT_IMM.get((bits(word, 31, 26), funct3)), rd, rs1, 0, bits(word, 25, 20)
    if opcode == 0b0010011:
        return OP_IMM[funct3], rd, rs1, 0, imm_i
    if opcode == 0b0011011 and funct3 == 0:
        return "Addiw", rd, rs1, 0, imm_i
    if opcode == 0b0011011:
        return SHIFT_IMM_32.get((funct7, funct3)), rd, rs1, 0, rs2
    if opcode == 0b0110011:
        return OP.get((funct7, funct3)), rd, rs1, rs2, 0
    if opcode == 0b0111011:
        return OP_32.get((funct7, funct3)), rd, rs1, rs2, 0
    if opcode == 0b0001111:
        return MISC_MEM.get(funct3), 0, 0, 0, 0
    if opcode == 0b1110011:
        return WHOLE.get(word) or CSR.get(funct3), 0, 0, 0, 0
    return UNKNOWN


def decode(word):
    found = fields(word)
    return found if found[0] else UNKNOWN


def lines(code, address):
    """The input lines of the code that is loaded at this address."""
    place = 0
    while place < len(code):
        size = 4 if code[place] & 3 == 3 else 2
        part = code[place : place + size]
        if len(part) < size:
            found = UNKNOWN
        elif size == 2:
            found = ("Compressed", 0, 0, 0, 0)
        else:
            found = decode(int.from_bytes(part, "little"))
        yield " ".join(map(str, (address + place, *found)))
        place += size


#
# The file
#

ELF, ELF_64_LITTLE = b"\x7fELF", b"\x7fELF\x02\x01"
PROGBITS, ALLOCATED_CODE = 1, 0x2 | 0x4  # a section's type and flags
LOADED, EXECUTABLE = 1, 0x1  # a segment's type and flag
RELOCATABLE, RISCV = 1, 243
HEADER, SEGMENT, SECTION = "<HHIQQQIHHHHHH", "<IIQQQQQQ", "<IIQQQQIIQQ"
INPUT_LINE = re.compile(rb"[0-9]+ [A-Za-z]+ [0-9]+ [0-9]+ [0-9]+ -?[0-9]+\r?\n")
CR_LF = "it has lines that end with CR LF, which the listing refuses with 0 (tr -d '\\r' takes the CR off)"


class NotFirmware(Exception):
    """What is wrong with a file, as the end of a sentence about it."""


def entries(file, form, offset, size, count):
    """The rows of a table of the ELF file."""
    if count and size != struct.calcsize(form):
        raise NotFirmware("the ELF file has a table of an unknown kind: its rows are not of the size of ELF's")
    if count and offset + count * size > len(file):
        raise NotFirmware("the ELF file is cut short")
    return [struct.unpack_from(form, file, offset + n * size) for n in range(count)]


def not_elf(file):
    """Why a file is not taken for an ELF file, with what it may be."""
    if INPUT_LINE.match(file):
        lines_already = "not an ELF file: it has input lines already, which tools/listing.sh and differential/compare.py take as they are"
        return lines_already + ("; and " + CR_LF if b"\r\n" in file else "")
    if file[:4] == ELF:
        return "an ELF file, but not of 64 bits and little-endian"
    return "not an ELF file of 64 bits, little-endian (for an image: --raw --base ADDRESS)" + ("; " + CR_LF if b"\r\n" in file[:4096] else "")


def executable_parts(file):
    """Address, offset in the file and size of each part that has code."""
    if file[:6] != ELF_64_LITTLE:
        raise NotFirmware(not_elf(file))
    if len(file) < 16 + struct.calcsize(HEADER):
        raise NotFirmware("the ELF file is cut short")
    kind, machine, _, _, segments_at, sections_at, _, _, *counts = struct.unpack_from(HEADER, file, 16)
    if machine != RISCV:
        raise NotFirmware(f"machine {machine} is not RISC-V")
    segments = entries(file, SEGMENT, segments_at, *counts[:2])
    sections = entries(file, SECTION, sections_at, *counts[2:4])
    if kind == RELOCATABLE:
        raise NotFirmware("the file is not linked: its addresses are not known")
    if sections:
        return sorted(s[3:6] for s in sections if s[1] == PROGBITS and s[2] & ALLOCATED_CODE == ALLOCATED_CODE)
    return sorted((s[3], s[2], s[5]) for s in segments if s[0] == LOADED and s[1] & EXECUTABLE)


def code_of(file, base=None):
    """Pairs of an address and the code there: of an image that is loaded at a base, else of an ELF file. What is wrong is found here."""
    found = executable_parts(file) if base is None else [(base, 0, len(file))]
    for address, offset, size in found:
        if offset + size > len(file):
            raise NotFirmware("the ELF file is cut short")
        if address + size > 2**64:
            raise NotFirmware(f"{size} bytes at {address} pass the end of memory")
    # Parts may overlap, but a file of a few bytes must not give lines without end.
    if sum(size for _, _, size in found) > len(file):
        raise NotFirmware("the parts of the ELF file that have code are longer together than the file")
    return [(address, file[offset : offset + size]) for address, offset, size in found]


def overlap(parts):
    """A sentence where a part begins before one before it ends, or None."""
    end, found = 0, []
    for address, code in parts:
        if code and address < end:
            found.append(address)
        end = max(end, address + len(code))
    if not found:
        return None
    others = f", and so does that at {len(found) - 1} more addresses" if len(found) > 1 else ""
    return f"the code at {found[0]} overlaps code before it{others}: what overlaps is listed more than once"


IN_A_WRITE = 10_000  # lines


def main():
    parser = command.Parser(description="Firmware as input lines of the listing program.")
    parser.add_argument("file", help="an RV64 ELF file, linked; - is standard input")
    parser.add_argument("--raw", action="store_true", help="FILE is an image of code")
    parser.add_argument("--base", type=command.address, metavar="ADDRESS", help="where an image is loaded")
    chosen = parser.parse_args()
    if chosen.raw != (chosen.base is not None):
        parser.error("--raw and --base ADDRESS go together")
    name = "standard input" if chosen.file == "-" else chosen.file
    file = command.read(chosen.file, status=1)
    try:
        parts = code_of(file, chosen.base)
    except NotFirmware as reason:
        raise command.Failed(f"{name}: {reason}", 1) from None
    if overlap(parts):
        command.complain(f"{name}: {overlap(parts)}")
    rest = (line + "\n" for address, code in parts for line in lines(code, address))
    while some := "".join(itertools.islice(rest, IN_A_WRITE)):
        command.put(some)
    return 0


if __name__ == "__main__":
    command.run(main)
