#!/usr/bin/env python3
"""values.py [--listing PROGRAM] [--self-test]: what the listing's lines come to, against the RISC-V manual.

Gives instructions of all fifty kinds to PROGRAM (default: crates/listing/out/listing), evaluates every line that it prints by
BTOR2's operators as SMT-LIB defines them, on boundary-heavy registers and memory, and compares

- rd's flow with the manual's value and the memory flow with the manual's store, byte by byte, where the flag (58) is 1;
- both with what the registers and the memory held at the start, where the flag is 0;
- the conditions of a branch's two edges with the manual's, and where edges and dispatches go.

All instructions of a listing read the start's nodes, so each is compared by itself, in a long listing as in a short one. Which line is a
flow is read off the structure: the start's flows are the nodes 24 to 54 (x1 to x31) and 55 (memory); an instruction that writes rd has, as
its last line `ite 2 58 RESULT OLD`, the new flow of rd, and a store, as its last line `ite 3 58 RESULT OLD`, that of the memory. OLD must be
the flow before it. An empty input line stands after each instruction; its refusal shows where the instruction's lines end.

Exceptions, those of docs/DIFFERENCES.md, each tested to be exactly this one and counted:
- Mul, Mulw: three lines are ill-sorted and have no value; the product is right. No line of another kind is ill-sorted;
- Div, Divw: a negative dividend over zero gives 1; Divw of -2^31 by -1 gives 2^31. No other pair of registers is an exception, and no ordinary
  one (document 02, R-4);
- accesses that leave an aligned word of 8 bytes are not compared (Ld and Sd: that are not aligned).

Then the bench cases about values of document 01 and of document 02, R-4. Prints counts, then 'no difference' or the differences; the exit status
is 0 only without any. --self-test alters the lines, one at a time, wherever what is compared depends on them: each must be found.
btor2_values.py evaluates, and riscv_manual.py is the manual; nothing is shared with the project's definitions and code.
differential/target/oracle (differential/README.md) can take PROGRAM's place.
"""
import argparse
import collections
import itertools
import pathlib
import random
import re
import subprocess
import sys

import command
from btor2_values import ARRAY, COUNTER, COUNTER_MAX, FLAG, MEMORY, WORD, WORDS, Array, Node, evaluate, ill_sorted
from refusal import BRANCHES, KINDS, LOADS, REGISTERS, STORES, UPPER, Listing, refusal
from riscv_manual import MANUAL, TAKEN, accessed, loaded, signed

SHOWN = 10  # differences

#
# A listing: its instructions, their lines, flows and edges
#


class Instruction:
    """An input line and what the listing prints for it. `flow` is the identifier of the flow that it sets, and `old` the one before."""

    def __init__(self, line, block, flows):
        self.line = line
        address, self.kind, *numbers = line.split()
        self.pc = int(address)
        self.rd, self.rs1, self.rs2, self.imm = map(int, numbers)
        self.nodes = [Node(text) for text in block if not text.startswith(";")]
        self.beside = [text for text in block if text.startswith(";")]
        self.flow = None
        self.wrong = self.misfits(flows)

    def misfits(self, flows):
        """What is wrong with its shape; sets its flow."""
        written = None  # the flow that the manual lets it write: a register's, or the memory's at 0
        if self.kind in STORES:
            written = 0
        elif self.kind not in BRANCHES | {"Ecall"} and self.rd != 0:
            written = self.rd
        if written is not None:
            sort = WORDS if written else ARRAY
            found = [node for node in self.nodes if node.operator == "ite" and node.sort == sort and node.operands[0] == FLAG]
            if not found or found[-1].operands[2] != flows[written]:
                return "its flow isn't an ite over the flow before"
            self.flow = flows[written] = found[-1].nid
        return None if self.beside == self.edges() else f"edges or dispatches {self.beside}"

    def edges(self):
        """What must stand beside its lines; a branch's conditions are its own, their values are compared later."""
        after, target = (self.pc + 4) % WORD, (self.pc + self.imm) % WORD
        if self.kind in BRANCHES:
            conditions = [text.split()[-1] for text in self.beside]
            return [f"; in {to} from {self.pc} branch {c}" for to, c in zip((target, after), conditions)] if len(conditions) == 2 else None
        if self.kind == "Jalr":
            return [f"; dyn {self.rs1} {self.pc}"] if self.rs1 else []
        if self.kind == "Ecall":
            return [f"; in {after} from {self.pc} syscall -"]
        return [f"; in {target if self.kind == 'Jal' else after} from {self.pc} regular -"]

    def conditions(self):
        return [int(text.split()[-1]) for text in self.beside]


def printed(program, lines):
    """What the program prints for each line: an empty line, refused with 0, parts them (the oracle says `; malformed`)."""
    text = "".join(line + "\n\n" for line in lines)
    out = subprocess.run([program], input=text, stdout=subprocess.PIPE, text=True, check=True).stdout
    blocks = re.split(r"; (?:refused \d+ 0|malformed)\n", out)
    if len(blocks) != len(lines) + 1 or blocks.pop():
        sys.exit(f"values.py: {program} doesn't answer each line")
    return [block.splitlines() for block in blocks]


#
# Values to begin with
#

BOUNDARIES = [
    0, 1, 2, 3, 4, 5, 6, 7, 8, 31, 32, 63, 64, 2**31 - 1, 2**31, 2**32 - 1, 2**32, 2**62, 2**63 - 1, 2**63, WORD - 2**31, WORD - 2**31 - 1,
    WORD - 8, WORD - 7, WORD - 4, WORD - 2, WORD - 1, 0x0123456789ABCDEF, 0xFEDCBA9876543210, 0x5555555555555555, 0xAAAAAAAAAAAAAAAA,
    0x0123456780000000, 0x01234567FFFFFFFF, 0xFEDCBA9800000000,
]  # fmt: skip


def cells(salt):
    """A state of an array: at each address one of the boundaries, or bytes that all differ."""

    def cell(address):
        mixed = (address + salt) * 0x9E3779B97F4A7C15 % WORD
        mixed ^= mixed >> 29
        return BOUNDARIES[mixed % len(BOUNDARIES)] if mixed % 3 == 0 else mixed * 0xBF58476D1CE4E5B9 % WORD

    return cell


def start(registers, memory, flag, salt):
    values = {20: 0, 21: 1, 22: 0, 23: 1, FLAG: flag, COUNTER: Array(cells(salt + 1), {}), COUNTER_MAX: salt % WORD, MEMORY: memory}
    return values | {23 + r: value for r, value in registers.items()}


def starts():
    """Every pair of boundaries in x1 and x2, with the flag 1 and 0; in the other registers anything."""
    rng = random.Random("values")
    for salt, (a, b) in enumerate(itertools.product(BOUNDARIES, repeat=2)):
        registers = {r: rng.choice(BOUNDARIES) if rng.random() < 0.7 else rng.randrange(WORD) for r in range(3, 32)}
        for flag in (1, 0):
            yield start({1: a, 2: b, **registers}, Array(cells(salt), {}), flag, salt)


#
# The comparison
#


DIVISIONS = {"Div": 64, "Divw": 32}  # the bits of the operands


def ordinary(kind, a, b):
    """Document 02, R-4: the divisor isn't zero and, for Divw, the pair isn't -2^31 by -1, for Divw both on the low 32 bits."""
    if kind == "Div":
        return b != 0
    return b % 2**32 != 0 and (a % 2**32, b % 2**32) != (2**31, 2**32 - 1)


def exception(kind, a, b):
    """The value that the lines give where docs/DIFFERENCES.md says that it isn't the manual's, and the entry's name."""
    bits = DIVISIONS.get(kind)
    if bits and signed(b, bits) == 0 and signed(a, bits) < 0:
        return 1, f"{kind} of a negative number by 0"
    if kind == "Divw" and (signed(a, 32), signed(b, 32)) == (-(2**31), -1):
        return 2**31, "Divw of -2^31 by -1"
    return None, None


def divided(kind, a, b, manual, counts):
    """What the lines of a division must give, by the manual's value; its case is counted. An exception isn't ordinary, nor has it that value."""
    other, name = exception(kind, a, b)
    usual = ordinary(kind, a, b)
    assert name is None or (not usual and other != manual)
    counts[name or (f"{kind}, ordinary" if usual else f"{kind} of another number by 0")] += 1
    return other if name else manual


def byte_of(array):
    return lambda address: array.read(address - address % 8) >> 8 * (address % 8) & 255


def outside(instruction, values, a):
    """Whether an access is made that leaves its word."""
    if not values[FLAG] or instruction.kind not in LOADS | STORES:
        return False
    addresses = accessed(instruction.kind, a, instruction.imm)
    return addresses[0] % 8 + len(addresses) > 8


def compare_store(instruction, values, a, b):
    addresses = accessed(instruction.kind, a, instruction.imm)
    flow, memory = values[instruction.flow], values[MEMORY]
    stored = {address: b >> 8 * n & 255 for n, address in enumerate(addresses)} if values[FLAG] else {}
    got, held = byte_of(flow), byte_of(memory)
    for n in range(-16, 24):
        address = (addresses[0] + n) % WORD
        if got(address) != stored.get(address, held(address)):
            return f"byte {address} of the memory flow is {got(address)}"
    cell = addresses[0] - addresses[0] % 8
    if flow.state is not memory.state or any(value != memory.read(address) for address, value in flow.written.items() if address != cell):
        return "the memory flow has another cell changed"
    return None


def compare_rd(instruction, values, a, b, counts):
    kind, got = instruction.kind, values[instruction.flow]
    if not values[FLAG]:
        return None if got == values[23 + instruction.rd] else f"with flag 0 the flow is {got}"
    if kind in LOADS:
        wanted = loaded(kind, accessed(kind, a, instruction.imm), byte_of(values[MEMORY]))
    else:
        wanted = MANUAL[kind](instruction.pc, a, b, instruction.imm) % WORD
        if kind in DIVISIONS:
            wanted = divided(kind, a, b, wanted, counts)
    return None if got == wanted else f"the flow of x{instruction.rd} is {got}, not {wanted}"


def compare(instruction, values, counts):
    """What differs for this instruction, or None."""
    a, b = (values[23 + r] if r else 0 for r in (instruction.rs1, instruction.rs2))
    if outside(instruction, values, a):
        counts["outside one word"] += 1
        return None
    if instruction.kind in BRANCHES:
        taken = int(TAKEN[instruction.kind](a, b))
        got = [values[nid] for nid in instruction.conditions()]
        found = None if got == [taken, 1 - taken] else f"conditions {got}"
    elif instruction.kind in STORES:
        found = compare_store(instruction, values, a, b)
    elif instruction.flow is not None:
        found = compare_rd(instruction, values, a, b, counts)
    else:
        return None  # Ecall, and rd x0
    counts[instruction.kind] += 1
    return f"{instruction.line!r}, rs1 {a}, rs2 {b}, flag {values[FLAG]}: {found}" if found else None


def differences(lines, blocks, environments, counts):
    """The first difference of each instruction of a listing."""
    flows = {0: MEMORY, **{r: 23 + r for r in range(1, 32)}}
    instructions = [Instruction(line, block, flows) for line, block in zip(lines, blocks)]
    nodes = [node for instruction in instructions for node in instruction.nodes]
    ill = ill_sorted(nodes)
    found = {}
    for instruction in instructions:
        faulty = sum(node.nid in ill for node in instruction.nodes)
        counts["ill-sorted lines of Mul and Mulw"] += faulty
        if instruction.wrong:
            found[instruction] = f"{instruction.line!r}: {instruction.wrong}"
        elif faulty != (3 if instruction.kind in ("Mul", "Mulw") else 0):
            found[instruction] = f"{instruction.line!r}: {faulty} ill-sorted lines"
    if [node.nid for node in nodes] != list(range(59, 59 + len(nodes))):
        return ["identifiers don't rise by one from 59"]
    for values in environments:
        values = evaluate(nodes, ill, values)
        for instruction in instructions:
            if instruction not in found:
                wrong = compare(instruction, values, counts)
                if wrong:
                    found[instruction] = wrong
    return list(found.values())


#
# The instructions
#


def immediates(kind):
    if kind in UPPER:
        return [0, 1, 15, 16, 524287, 524288, 524289, 1048575]
    if kind in BRANCHES:
        return [4, 0, -4096, 4094]
    if kind == "Jal":
        return [4, 0, -1048576, 1048574, 2]
    if kind in REGISTERS | {"Jalr", "Ecall"}:
        return [0]
    if kind in LOADS | STORES:
        return [0, 1, 2, 3, 4, 5, 6, 7, 8, -1, -8, -2048, 2047, 2040]
    if kind in ("Slli", "Srli", "Srai", "Slliw", "Srliw", "Sraiw"):
        return [n for n in (0, 1, 5, 31, 32, 33, 63, 64, 1024, 1055, 1087, -1, -64, -33) if not refusal(kind, 1, 1, 1, n)]
    return [0, 1, -1, 5, 31, -32, 2047, -2048]


def instructions():
    """Each kind with each immediate, then with x0, with equal registers and with others."""
    pcs = itertools.cycle([65536, 0, 2**64 - 4, 2**31 - 4, 2**32, 2**63, 2**64 - 4096, 1])
    for kind in KINDS:
        cases = [(3, 1, 2, imm) for imm in immediates(kind)]
        others = (1, 1, 2), (2, 1, 2), (3, 1, 1), (3, 0, 2), (3, 1, 0), (31, 30, 29), (0, 1, 2)
        cases += [(*registers, immediates(kind)[-1]) for registers in others]
        for rd, rs1, rs2, imm in cases:
            if not refusal(kind, rd, rs1, rs2, imm):
                yield f"{next(pcs)} {kind} {rd} {rs1} {rs2} {imm}"


def listings(lines):
    """The lines in as many listings as it takes."""
    part, listing = [], Listing()
    for line in lines:
        if listing.take(line.encode()) is not None:
            yield part
            part, listing = [], Listing()
            listing.take(line.encode())
        part.append(line)
    yield part


def bench_cases():
    """Document 01's cases about values, and document 02's (R-4): an input line, registers, cells, and the value of the line with this place from the
    end."""
    yield "0 Lh 1 2 0 6", {2: 64}, {64: 2**63}, -1, -32768
    yield "0 Lh 1 2 0 7", {2: 64}, {64: WORD - 1, 72: WORD - 1}, -1, 0  # across 8 bytes
    yield "0 Div 1 2 3 0", {2: -7, 3: 0}, {}, -1, 1
    yield "0 Div 1 2 3 0", {2: -1, 3: 0}, {}, -1, 1
    yield "0 Divw 1 2 3 0", {2: -1, 3: 0}, {}, -1, 1
    yield "0 Divw 1 2 3 0", {2: 2**32 - 1, 3: 2**32}, {}, -1, 1  # the low words are those of the line before
    yield "0 Divw 1 2 3 0", {2: -(2**31), 3: -1}, {}, -1, 2**31
    yield "0 Divw 1 2 3 0", {2: 2**31, 3: 2**32 - 1}, {}, -1, 2**31  # the low words are those of the line before
    yield "0 Div 1 2 3 0", {2: -(2**63), 3: -1}, {}, -1, -(2**63)
    yield "0 Sub 1 2 3 0", {2: 1, 3: 2}, {}, -2, 1  # flagged by the addition's test
    yield "0 Srliw 1 2 0 31", {2: -1}, {}, -1, 1
    yield "65536 Auipc 1 0 0 1048575", {}, {}, -2, 61440
    yield "0 Lui 1 0 0 524288", {}, {}, -2, 18446744071562067968
    yield "0 Addi 1 0 0 0", {}, {}, -1, 0
    yield "0 Mulw 1 2 3 0", {2: 2**31, 3: 2}, {}, -1, 0


def bench_differences(program):
    cases = list(bench_cases())
    for (line, registers, held, place, wanted), block in zip(cases, printed_each(program, [case[0] for case in cases])):
        nodes = [Node(text) for text in block if not text.startswith(";")]
        zeros = {r: 0 for r in range(1, 32)}
        memory = Array(lambda address: 0, held)
        values = evaluate(nodes, ill_sorted(nodes), start(zeros | {r: v % WORD for r, v in registers.items()}, memory, 1, 0))
        got = values[nodes[place].nid]
        if got != wanted % WORD:
            yield f"bench case {line!r}: {got}, not {wanted % WORD}"


def printed_each(program, lines):
    for line in lines:
        yield from printed(program, [line])


#
# The self test
#

# Another operator for each. Not sub or or for add: they give the same with 2^63, and with bits that don't meet.
ANOTHER = {
    "add": "mul", "sub": "or", "mul": "add", "udiv": "urem", "sdiv": "udiv", "urem": "udiv", "sll": "srl", "srl": "sll", "ult": "eq",
    "eq": "ult", "and": "or", "or": "and",
}  # fmt: skip


def alterations(text):
    """The line with another operator, constant, operand or width. Not another 2^63: most sign extensions have it shifted out."""
    nid, operator, sort, *operands = text.split()
    if operator in ANOTHER:
        yield [nid, ANOTHER[operator], sort, *operands]
    if operator == "constd" and int(operands[0]) != 2**63:
        yield [nid, operator, sort, str(int(operands[0]) ^ 1)]
    if operator == "not":
        yield [nid, "and", sort, *operands, *operands]
    if operator == "ite":
        yield [nid, operator, sort, operands[0], operands[2], operands[1]]
    if operator in ("sub", "sll", "srl", "ult", "udiv", "sdiv", "urem"):
        yield [nid, operator, sort, operands[1], operands[0]]
    if operator in ("read", "write"):
        yield [nid, operator, sort, str(COUNTER), *operands[1:]]
        yield [nid, operator, sort, operands[0], "54", *operands[2:]]
    if operator == "write":
        yield [nid, operator, sort, *operands[:2], "54"]
    if operator == "uext":
        yield [nid, "constd", sort, "1"]
        yield [nid, operator, sort, operands[0], "62"]


def needed(instruction):
    """The lines that rd's flow, the memory flow or the conditions depend on."""
    nodes = {node.nid: node for node in instruction.nodes}
    found, open_ones = set(), [instruction.flow] if instruction.flow else instruction.conditions() if instruction.kind in BRANCHES else []
    while open_ones:
        nid = open_ones.pop()
        if nid in nodes and nid not in found:
            found.add(nid)
            open_ones += nodes[nid].operands
    return found


def self_test(program):
    """Each kind by itself, unaltered and with each alteration, which must be found."""
    tried = missed = 0
    environments = list(starts())
    for kind in KINDS:
        line = f"65536 {kind} 3 1 2 {0 if kind == 'Jalr' else 4}"
        (block,) = printed(program, [line])
        nodes = needed(Instruction(line, block, {0: MEMORY, 3: 26}))
        if differences([line], [block], environments, collections.Counter()):
            print(f"{line!r} differs before any alteration")
            missed += 1
        for place, text in enumerate(block):
            if text.startswith(";") or int(text.split()[0]) not in nodes:
                continue
            for altered in alterations(text):
                changed = block[:place] + [" ".join(altered)] + block[place + 1 :]
                tried += 1
                if not differences([line], [changed], environments, collections.Counter()):
                    missed += 1
                    print(f"{line!r}: not found: {changed[place]!r} for {text!r}")
    print(f"{tried} alterations, {missed} not found")
    return missed != 0


def main():
    parser = argparse.ArgumentParser(description="What the listing's lines come to, against the RISC-V manual.")
    parser.add_argument("--listing", default=command.program("listing"), type=pathlib.Path)
    parser.add_argument("--self-test", action="store_true")
    chosen = parser.parse_args()
    program = chosen.listing.resolve()
    if not program.is_file():
        print(f"values.py: {program} is missing", file=sys.stderr)
        return 2
    if chosen.self_test:
        return self_test(program)
    counts, found = collections.Counter(), []
    for lines in listings(instructions()):
        found += differences(lines, printed(program, lines), starts(), counts)
    print("compared:", ", ".join(f"{kind} {counts.pop(kind, 0)}" for kind in KINDS if kind != "Ecall"))
    print("; ".join(f"{name}: {count}" for name, count in sorted(counts.items())))
    found += bench_differences(program)
    for difference in found[:SHOWN]:
        print(difference)
    print(f"{len(found)} differences" if found else "no difference")
    return len(found) != 0


if __name__ == "__main__":
    sys.exit(main())
