"""The fifty kinds as the RISC-V Unprivileged ISA (20191213) has them, on registers as numbers below 2^64 and bytes of memory.

Written from the manual's chapters RV32I, RV64I and M; shares nothing with the project's definitions and code.
"""

WORD = 2**64


def signed(value, bits=64):
    value %= 1 << bits
    return value - (1 << bits) if value >> (bits - 1) else value


def sext(value, bits):
    """The low bits of a value, sign-extended to a register."""
    return signed(value, bits) % WORD


def quotient(a, b, bits):
    """DIV and DIVW: round towards zero; by zero -1; what overflows is the dividend."""
    a, b = signed(a, bits), signed(b, bits)
    if b == 0:
        return -1
    return a // b if (a < 0) == (b < 0) else -(-a // b)  # -2^(bits-1) / -1 wraps back to itself where it is cut to bits


SIZE = {"b": 1, "h": 2, "w": 4, "d": 8}  # by the letter of a load or store


def accessed(kind, a, imm):
    """The bytes' addresses."""
    return [(a + imm + n) % WORD for n in range(SIZE[kind[1]])]


def loaded(kind, addresses, byte):
    value = sum(byte(address) << 8 * n for n, address in enumerate(addresses))
    return value if kind.endswith("u") else sext(value, 8 * len(addresses))


MANUAL = {  # rd of pc, rs1, rs2 and imm
    "Lui": lambda pc, a, b, imm: sext(imm << 12, 32),
    "Auipc": lambda pc, a, b, imm: pc + sext(imm << 12, 32),
    "Jal": lambda pc, a, b, imm: pc + 4,
    "Jalr": lambda pc, a, b, imm: pc + 4,
    "Addi": lambda pc, a, b, imm: a + imm,
    "Sltiu": lambda pc, a, b, imm: int(a < imm % WORD),
    "Xori": lambda pc, a, b, imm: a ^ imm % WORD,
    "Ori": lambda pc, a, b, imm: a | imm % WORD,
    "Andi": lambda pc, a, b, imm: a & imm % WORD,
    "Slli": lambda pc, a, b, imm: a << imm % 64,
    "Srli": lambda pc, a, b, imm: a >> imm % 64,
    "Srai": lambda pc, a, b, imm: signed(a) >> imm % 64,
    "Addiw": lambda pc, a, b, imm: sext(a + imm, 32),
    "Slliw": lambda pc, a, b, imm: sext(a << imm % 32, 32),
    "Srliw": lambda pc, a, b, imm: sext(a % 2**32 >> imm % 32, 32),
    "Sraiw": lambda pc, a, b, imm: signed(a, 32) >> imm % 32,
    "Add": lambda pc, a, b, imm: a + b,
    "Sub": lambda pc, a, b, imm: a - b,
    "Sll": lambda pc, a, b, imm: a << b % 64,
    "Sltu": lambda pc, a, b, imm: int(a < b),
    "Srl": lambda pc, a, b, imm: a >> b % 64,
    "Sra": lambda pc, a, b, imm: signed(a) >> b % 64,
    "Or": lambda pc, a, b, imm: a | b,
    "And": lambda pc, a, b, imm: a & b,
    "Mul": lambda pc, a, b, imm: a * b,
    "Div": lambda pc, a, b, imm: quotient(a, b, 64),
    "Divu": lambda pc, a, b, imm: a // b if b else -1,
    "Remu": lambda pc, a, b, imm: a % b if b else a,
    "Addw": lambda pc, a, b, imm: sext(a + b, 32),
    "Divw": lambda pc, a, b, imm: sext(quotient(a, b, 32), 32),
    "Subw": lambda pc, a, b, imm: sext(a - b, 32),
    "Sllw": lambda pc, a, b, imm: sext(a << b % 32, 32),
    "Mulw": lambda pc, a, b, imm: sext(a * b, 32),
}
TAKEN = {
    "Beq": lambda a, b: a == b,
    "Bne": lambda a, b: a != b,
    "Blt": lambda a, b: signed(a) < signed(b),
    "Bge": lambda a, b: signed(a) >= signed(b),
    "Bltu": lambda a, b: a < b,
    "Bgeu": lambda a, b: a >= b,
}
