#!/usr/bin/env python3
"""generate.py SEED COUNT [--negative-amounts | --any]: COUNT input lines for the listing and the oracle, boundary-heavy.

The same seed gives the same lines. Every line keeps the listing's grammar. With --negative-amounts Slli, Srli, Slliw and
Srliw get negative amounts too: the port refuses them, the Rust lowers them, and all later identifiers drift apart.
With --any lines that break the grammar and unknown kinds of every sort come too.

compare.py takes `any_line` and `sweep`, every kind at every boundary of every field, from here.
"""
import random
import sys

FORMATS = {
    "U": "Lui Auipc",
    "load": "Lb Lh Lw Ld Lbu Lhu",
    "S": "Sb Sh Sw Sd",
    "I": "Addi Sltiu Xori Ori Andi Addiw",
    "shift": "Slli Srli Slliw Srliw",
    "shift-any": "Srai Sraiw",
    "R": "Add Sub Sll Sltu Srl Sra Or And Mul Div Divu Remu Addw Divw Subw Sllw Mulw",
    "B": "Beq Bne Blt Bge Bltu Bgeu",
    "J": "Jal",
    "jalr": "Jalr",
    "none": "Ecall",
}
KINDS = [(kind, form) for form, kinds in FORMATS.items() for kind in kinds.split()]
REFUSED = "Lwu Xor Slt Fence addi".split()  # the last is misspelt

# The fields that a format looks at.
USED = {
    "U": "rd imm", "load": "rd rs1 imm", "S": "rs1 rs2 imm", "I": "rd rs1 imm", "shift": "rd rs1 imm",
    "shift-any": "rd rs1 imm", "R": "rd rs1 rs2", "B": "rs1 rs2 imm", "J": "rd imm", "jalr": "rd rs1 imm", "none": "",
}

ADDRESSES = [0, 4, 65536, 2**32, 2**63, 2**64 - 4]
NEAR = [2, 8, 65532, 65540, 2**32 - 4, 2**32 + 4, 2**63 - 4, 2**63 + 4, 2**64 - 8, 2**64 - 1]


def limits(low, high, step):
    """A format's immediates at and around its limits, then those just outside."""
    inside = [low, low + step, -step, 0, step, high - step, high]
    outside = [low - step, low - 1, high + 1, high + step, -2**31, 2**31 - 1] + ([1, -1, 3] if step == 2 else [])
    return [i for i in inside if low <= i <= high], outside


RANGE = {"U": (0, 1048575, 1), "B": (-4096, 4094, 2), "J": (-1048576, 1048574, 2)}  # all others I and S
AMOUNTS = [0, 1, 31, 32, 63, 64]


def address(rng):
    roll = rng.random()
    if roll < 0.6:
        return rng.choice(ADDRESSES)
    if roll < 0.75:
        return rng.choice(NEAR)
    if roll < 0.9:
        return 4 * rng.randrange(2**62)
    return rng.randrange(2**64)


def register(rng):
    roll = rng.random()
    if roll < 0.08:
        return 0
    if roll < 0.44:
        return rng.choice([1, 2, 31])
    if roll < 0.985:
        return rng.randrange(1, 32)
    return rng.choice([32, 255])


def immediate(rng, form, negative_amounts):
    low, high, step = RANGE.get(form, (-2048, 2047, 1))
    inside, outside = limits(low, high, step)
    if form == "shift":
        low = -2048 if negative_amounts else 0
        inside = AMOUNTS + ([-1, -32, -33, -2048] if negative_amounts else [])
        outside = [2048, 2**31 - 1]
    elif form == "shift-any":
        inside += AMOUNTS + [1024, 1024 + 31, 1024 + 32, 1024 + 63]
    elif form == "U":
        inside += [15, 524287, 524288, 524289]
    elif form in ("B", "J"):
        inside += [4, 4, 4, -4, 8]
    roll = rng.random()
    if form in ("load", "S") and roll < 0.3 or form == "jalr" and roll < 0.6:
        return 0
    if rng.random() < 0.03:
        return rng.choice(outside)
    if rng.random() < 0.7:
        return rng.choice(inside)
    if form == "shift":
        return rng.randrange(low, 66)
    return rng.randrange(low, high + 1, step)


def line(rng, negative_amounts):
    if rng.random() < 0.03:
        kind, form = rng.choice(REFUSED), "R"
    else:
        kind, form = rng.choice(KINDS)
    used = USED[form].split()
    fields = []
    for name in ("rd", "rs1", "rs2"):
        # A field that is not used may hold anything.
        fields.append(register(rng) if name in used else rng.choice([0, 0, 0, 1, 31, 32, 255]))
    if "imm" in used:
        imm = immediate(rng, form, negative_amounts)
    else:
        imm = rng.choice([0, 0, 0, 0, 1, -1, 4, 2**31 - 1, -2**31])
    return " ".join(str(x) for x in [address(rng), kind] + fields + [imm])


#
# Lines beyond the grammar, and the sweep. A line is bytes without its newline.
#

# Not among the fifty: the rest of RV64IM and more, other cases, parts of names, names run on, one letter, long ones.
UNKNOWN = (
    "Lwu Xor Slt Fence Slti Srlw Sraw Rem Remw Remuw Divuw Mulh Mulhu Mulhsu FenceI Ebreak Other Unknown "
    "lui addi LUI aDDI mulW ecall Ad Addii Lu Luii Jalrr Jalrx Ecal A z".split() + ["Addi" * 20, "A" * 240]
)


# In no field a number, and none a kind; the bytes around the digits and the letters among them.
NO_NUMBERS = ["", "00", "+1", "--1", "-", "-0", "-00", "-01", "1-", "0x10", "1e1", "1_0", "1.0", "/", ":", "1:", "/1", "１", "²", "1\x00"]
NO_NUMBERS += ["one", "9" * 200, str(2**128), str(2**64 + 4), str(2**64)]
NO_KINDS = ["", "5", "Addi5", "5Addi", "Add-i", "Ad_di", "Addi.", "@ddi", "Add[", "`ddi", "Add{", "Add\x00", "Addé", "Ａddi", "\ufeffAddi"]


def malformed(text):
    """Every way in which this line, one of the grammar's, is made one that is not."""
    fields = text.split(" ")

    def put(place, field):
        return " ".join(fields[:place] + [field] + fields[place + 1 :])

    for n in (0, 2, 3, 4, 5):
        for wrong in NO_NUMBERS + ["0" + fields[n]]:
            yield put(n, wrong)
    for n in (0, 2, 3, 4):
        yield put(n, "-1")
    for n in (2, 3, 4):
        for wrong in (256, 257, 260, 511, 512, 1000, 2**32, 2**32 + 1):
            yield put(n, str(wrong))
    for wrong in (2**31, 2**31 + 1, 2**32, 2**32 + 4, 2**63, -(2**31) - 1, -(2**32), -(2**32) + 4, -(2**63), -(2**64), -(2**64) + 4):
        yield put(5, str(wrong))
    for wrong in NO_KINDS:
        yield put(1, wrong)
    for n in range(6):
        yield " ".join(fields[:n])  # the first n fields, none among them
        yield " ".join(fields[:n] + fields[n + 1 :])
        yield " ".join(fields[:n] + ["0"] + fields[n:])
        yield " ".join(fields[:n] + [""] + fields[n:])  # two spaces, or one at the beginning
    for more in (" ", " 0", "\t", "\r", "\x00", ";", " ;", "\v", "\u00a0", "\x7f", "\r\r"):
        yield text + more
        yield more + text
        yield text.replace(" ", more + " ", 1)
    for other in ("\t", "\r", "\v", "\f", "\u00a0", ",", "  ", "\x00", ""):
        yield text.replace(" ", other)
        yield other.join(text.rsplit(" ", 1))
    for alone in (" ", "     ", "\t", "\r", "-", "0", ";", "; refused 1 0", "\x00", "\ufeff" + text):
        yield alone
    for place, letter in ((0, "1"), (1, "A"), (5, "1")):  # 257 bytes and far more
        for length in (257, 300, 513, 5000):
            yield put(place, letter * (length - len(text) + len(fields[place])))
    yield text + " " * (257 - len(text))


def malformed_bytes(text):
    return [broken.encode() for broken in malformed(text)] + [text.encode() + b"\xff", text.encode().replace(b" ", b"\xa0", 1)]


def any_line(rng):
    text = line(rng, True)
    roll = rng.random()
    if roll < 0.1:
        return rng.choice(malformed_bytes(text))
    if roll < 0.13:
        fields = text.split(" ")
        return " ".join([fields[0], rng.choice(UNKNOWN)] + fields[2:]).encode()
    return text.encode()


def immediates(form):
    low, high, step = RANGE.get(form, (-2048, 2047, 1))
    inside, outside = limits(low, high, step)
    both = inside + outside + [4, 8, -4, 7, -8]
    if form == "U":
        both += [15, 16, 524287, 524288, 524289, 1048574]
    if form in ("shift", "shift-any"):
        both += [n + m for n in (-2048, -64, -32, 0, 32, 64, 1024, 1056, 2016) for m in (-1, 0, 1, 31)]
    return sorted(set(both))


def boundaries():
    """Every kind, plain, and with each field in turn at each of its boundaries; unknown kinds."""
    for kind, form in KINDS:
        imm = 0 if form == "jalr" else 2
        yield f"65536 {kind} 5 6 7 {imm}"
        for at in ADDRESSES + NEAR + [1, 9, 10, 15, 16, 99, 100, 2**31, 2**32 - 1, 2**63 - 1, 2**64 - 2, 2**64 - 3, 10**19 - 1, 10**19]:
            yield f"{at} {kind} 5 6 7 {imm}"
        for r in (0, 1, 30, 31, 32, 33, 63, 64, 128, 255):
            yield f"65536 {kind} {r} 6 7 {imm}"
            yield f"65536 {kind} 5 {r} 7 {imm}"
            yield f"65536 {kind} 5 6 {r} {imm}"
            yield f"65536 {kind} {r} {r} {r} {imm}"
        for i in immediates(form):
            yield f"65536 {kind} 5 6 7 {i}"
            yield f"65536 {kind} 5 0 7 {i}"
            yield f"65536 {kind} 0 6 7 {i}"  # which refusal comes first
            yield f"65536 {kind} 32 6 32 {i}"
    for r in range(32):
        yield f"65536 Lui {r} 0 0 1"
        yield f"65536 Beq 0 {r} {31 - r} 8"
        yield f"65536 Jalr {31 - r} {r} 0 0"
    for kind in UNKNOWN:
        yield f"65536 {kind} 5 6 7 2"
        yield f"65536 {kind} 32 255 0 -2147483648"
    for length in (255, 256, 257):  # the longest line that isn't number 0
        yield f"0 {'A' * (length - 10)} 1 1 1 0"


def sweep():
    """The boundaries, and every malformed line of two lines, one of a known kind and one not."""
    yield from (text.encode() for text in boundaries())
    for text in ("65536 Addi 5 6 7 2", "18446744073709551615 Xor 0 255 32 -2147483648"):
        yield from malformed_bytes(text)


def main(arguments):
    option = arguments[2:]
    if len(arguments) < 2 or option not in ([], ["--negative-amounts"], ["--any"]):
        sys.exit("usage: generate.py SEED COUNT [--negative-amounts | --any]")
    rng = random.Random(int(arguments[0]))
    for _ in range(int(arguments[1])):
        text = any_line(rng) if option == ["--any"] else line(rng, bool(option)).encode()
        sys.stdout.buffer.write(text + b"\n")


if __name__ == "__main__":
    main(sys.argv[1:])
