"""The fifty kinds, the listing's grammar and its refusals, read off document 01. Shares nothing with the project's definitions and code.

`refusal` gives 1 to 6, which an instruction has by itself; `Listing` every number that the listing program can give, in document 01's
order: 0, 1 to 6, 8. Its flag, 58, is always good (no 7), and its start too (no 9 to 13). `WORDS` says what each of them means.
"""
import pathlib
import re

KINDS = (
    "Lui Auipc Lb Lh Lw Ld Lbu Lhu Sb Sh Sw Sd Addi Sltiu Xori Ori Andi Slli Srli Srai Addiw Slliw Srliw Sraiw "
    "Add Sub Sll Sltu Srl Sra Or And Mul Div Divu Remu Addw Divw Subw Sllw Mulw Beq Bne Blt Bge Bltu Bgeu Jal Jalr Ecall"
).split()
LOADS = {"Lb", "Lh", "Lw", "Ld", "Lbu", "Lhu"}
STORES = {"Sb", "Sh", "Sw", "Sd"}
BRANCHES = {"Beq", "Bne", "Blt", "Bge", "Bltu", "Bgeu"}
UPPER = {"Lui", "Auipc"}
REGISTERS = set(KINDS[KINDS.index("Add") : KINDS.index("Mulw") + 1])
NO_RD = STORES | BRANCHES | {"Ecall"}

HOLDS = 1024  # lines of the listing's list
START = 39  # those of its start, 20 to 58

# In a file of their own, a number and its words to a line, which tools/listing.sh reads too.
REFUSALS = pathlib.Path(__file__).resolve().parent / "refusals.txt"
WORDS = {int(number): words for number, words in (line.split(" ", 1) for line in REFUSALS.read_text().splitlines())}


def refusal(kind, rd, rs1, rs2, imm):
    """The first of 1 to 6 that document 01 gives, or 0."""
    if kind not in KINDS:
        return 1
    used = [] if kind in NO_RD else [rd]
    if kind not in UPPER | {"Jal", "Ecall"}:
        used.append(rs1)
    if kind in REGISTERS | STORES | BRANCHES:
        used.append(rs2)
    if any(r > 31 for r in used):
        return 2
    if kind in UPPER:
        fits = 0 <= imm <= 1_048_575
    elif kind in BRANCHES:
        fits = imm % 2 == 0 and -4096 <= imm <= 4094
    elif kind == "Jal":
        fits = imm % 2 == 0 and -1_048_576 <= imm <= 1_048_574
    elif kind in REGISTERS or kind == "Ecall":
        fits = True
    else:
        fits = -2048 <= imm <= 2047
    if not fits:
        return 2
    if kind in ("Slli", "Srli") and not 0 <= imm <= 63:
        return 3
    if kind in ("Slliw", "Srliw") and not 0 <= imm <= 31:
        return 3
    if kind == "Sraiw" and imm % 64 > 31:
        return 3
    if kind == "Srliw" and imm == 0:
        return 4
    if kind not in NO_RD and rd == 0 and kind not in ("Addi", "Jal", "Jalr"):
        return 5
    if kind == "Jalr" and rs1 != 0 and imm != 0:
        return 6
    return 0


# Document 01, "Lines appended"; a load or store has two more where imm is not 0.
APPENDED = {
    1: "Ecall", 2: "Lui Auipc And Beq Bltu", 3: "Andi Slli Srli Sltu Div Divu Remu Bne Bgeu", 4: "Sltiu Sll Srl", 5: "Or Srliw Sd Blt",
    6: "Ori Bge", 7: "Srai", 8: "Xori Sra", 9: "Slliw Sraiw", 10: "Addiw Ld", 11: "Add Sub Sllw", 13: "Lbu Lhu", 15: "Divw", 16: "Mul",
    17: "Lb Lh Lw", 18: "Addw Subw", 27: "Sb Sh Sw", 35: "Mulw",
}  # fmt: skip
COUNT = {kind: count for count, kinds in APPENDED.items() for kind in kinds.split()}


def appended(kind, rd, rs1, imm):
    """How many lines an instruction appends that is not refused with 1 to 6."""
    if kind in ("Jal", "Jalr"):
        return (2 if rd else 0) + (kind == "Jalr" and rs1 == 0)
    if kind == "Addi":
        return 0 if rd == 0 else 11 if imm == 0 else 12
    return COUNT[kind] + (2 if kind in LOADS | STORES and imm != 0 else 0)


NUMBER = rb"(0|[1-9][0-9]*)"
GRAMMAR = re.compile(b" ".join([NUMBER, rb"([A-Za-z]+)", NUMBER, NUMBER, NUMBER, rb"(0|-?[1-9][0-9]*)"]))


def fields(line):
    """The six fields of an input line, given as bytes without its newline, or None for number 0."""
    found = GRAMMAR.fullmatch(line) if len(line) <= 256 else None
    if not found:
        return None
    kind = found[2].decode("ascii")
    address, rd, rs1, rs2, imm = (int(found[n]) for n in (1, 3, 4, 5, 6))
    if address >= 2**64 or max(rd, rs1, rs2) >= 256 or not -(2**31) <= imm < 2**31:
        return None
    return address, kind, rd, rs1, rs2, imm


class Listing:
    """The listing program's refusals. `left` is the room that its list still has, all that its numbers depend on between lines."""

    def __init__(self):
        self.left = HOLDS - START

    def take(self, line):
        """The number with which the next input line is refused, or None where it is accepted."""
        record = fields(line)
        if record is None:
            return 0
        number = refusal(*record[1:])
        if number:
            return number
        _, kind, rd, rs1, _, imm = record
        needs = appended(kind, rd, rs1, imm)
        if needs > self.left:
            return 8
        self.left -= needs
        return None


def left_after(lines):
    """The room that these lines leave."""
    listing = Listing()
    for line in lines:
        listing.take(line)
    return listing.left
