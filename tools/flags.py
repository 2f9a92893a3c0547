#!/usr/bin/env python3
"""flags.py [--program PROGRAM] [--self-test]: lists of calls under several flags, on random values: what demand 3 says of them.

The listing lowers every instruction under one flag. Here PROGRAM (default: crates/lowering_cases/out/lowering_cases,
which `rt run` in that crate makes) lowers lists of calls, each under a flag of its own: the state `flag`, the bits 0 and 1, or a Bit line that an
earlier call appended, such as a branch's condition. Flows start elsewhere than at their nodes. Among the calls are such as must be refused:
a record of 1 to 6 (also Mul and Mulw, which are in no list otherwise), a flag that is absent or no Bit (7), and in long lists those for which
there is no room (8).

The lines' records are read, every line is evaluated by BTOR2's operators, on random states, and it must hold that

- each call is accepted or refused with document 01's number, and lines stand under identifiers that go up by one and have their call's address;
- no line is ill-sorted;
- where at most one accepted call that needs a flag has it at 1, and its load or store stays in one aligned word of 8 bytes: each flow of x1 to
  x31 has the manual's value where that call writes it, and else its starting value; the memory flow is the memory node with the bytes that
  it stores, and else what it was at the start. A Div or Divw that isn't ordinary (document 02, R-4) has the value of docs/DIFFERENCES.md.

Prints counts, then 'no difference' or the differences; the exit status is 0 only without any. --self-test alters lines, addresses, flags and
flows, one at a time, in a list of all 48 kinds, each under a flag of its own: each must be found. btor2_values.py evaluates, riscv_manual.py is
the manual, and refusal.py document 01's numbers; nothing is shared with the project's definitions and code but the layout of the records.
"""
import argparse
import collections
import pathlib
import random
import subprocess
import sys

import command
from btor2_values import BIT, COUNTER, COUNTER_MAX, FLAG, MEMORY, START_SORTS, WORD, WORDS, Array, Node, evaluate, ill_sorted
from lowering_cases import FIRST, HOLDS, OPERATORS, START
from refusal import BRANCHES, KINDS, LOADS, NO_RD, REGISTERS, STORES, UPPER, appended, refusal
from riscv_manual import MANUAL, SIZE, accessed, loaded
from values import BOUNDARIES, DIVISIONS, alterations, byte_of, cells, divided

SHOWN = 10  # differences
TOP = 2**64 - 1  # a place that no list reaches
EXCLUDED = {"Mul", "Mulw"}
INCLUDED = [kind for kind in KINDS if kind not in EXCLUDED]
BITS = [nid - FIRST for nid, sort in START_SORTS.items() if sort == BIT]  # the places of the start's
OPERANDS = {"not": 1, "bad": 1, "constd": 0, "uext": 1, "write": 3, "ite": 3}  # the others have two


#
# Calls, and what the program writes for them
#


class Call:
    """An instruction at an address under a flag, a place. `nodes` are its lines, `marks` the mark and the address of each, `number` its refusal or
    0."""

    def __init__(self, kind, rd, rs1, rs2, imm, flag, pc=65536):
        self.kind, self.rd, self.rs1, self.rs2, self.imm, self.flag, self.pc = kind, rd, rs1, rs2, imm, flag, pc
        self.number, self.nodes, self.marks = None, [], []

    def __str__(self):
        return f"{self.pc} {self.kind} {self.rd} {self.rs1} {self.rs2} {self.imm} under {self.flag}"

    def command(self):
        return f"1 {self.pc} {KINDS.index(self.kind)} {self.rd} {self.rs1} {self.rs2} {self.imm % WORD} {self.flag}"

    def needs_flag(self):
        if self.kind == "Jalr":
            return self.rd != 0 or self.rs1 == 0
        return self.kind not in BRANCHES and (self.rd != 0 or self.kind not in ("Addi", "Jal"))

    def writes(self):
        """The register whose flow it writes, 0 for memory's, or None."""
        if self.kind in STORES:
            return 0
        return self.rd if self.kind not in NO_RD and self.rd else None


def node_text(record):
    """A record of twelve numbers as the line that it stands for."""
    nid, kind, sort, *operands, imm = record[:7]
    operator = OPERATORS[kind - 1]
    words = [FIRST + place for place in operands[: OPERANDS.get(operator, 2)]]
    if operator == "constd":
        words.append(imm)
    if operator == "uext":  # the record has the sort that is extended, here always a Bit
        sort, words = WORDS, words + [63 if sort == BIT else 0]
    return " ".join(map(str, [nid, operator, *([] if operator == "bad" else [sort]), *words]))


class Run:
    """Calls from the listing's start with some roles set, as the program lowered them: `flows` are the places of x1 to x31's flows and of
    memory's, `first` those at the start."""

    def __init__(self, program, roles, calls):
        self.calls = [*calls, Call("Addi", 0, 0, 0, 0, TOP)]  # the last shows the flows, and appends nothing
        commands = ["2"] + [f"4 {role} {place}" for role, place in roles.items()] + [call.command() for call in self.calls]
        text = "".join(command + "\n" for command in commands)
        assert len(text) < 65536
        out = subprocess.run([program], input=text, stdout=subprocess.PIPE, text=True, check=True).stdout.splitlines()
        self.first = [roles.get(39 + n, place) for n, place in enumerate([*range(4, 35), 35])]
        self.read(iter(out))

    def read(self, out):
        for call in self.calls:
            call.number, call.nodes, call.marks = 0, [], []
            for line in out:
                word, *rest = line.split()
                if word.isdigit():
                    record = [int(word), *map(int, rest)]
                    call.nodes.append(Node(node_text(record)))
                    call.marks.append(record[10:])
                    if call.nodes[-1].operator == "bad":
                        next(out)  # its name
                elif word == "refused":
                    call.number = int(rest[0])
                    break
                elif word == "flows":
                    self.flows = [int(place) for place in rest[:32]]
                    break
        assert next(out, None) is None

    def nodes(self):
        return [node for call in self.calls for node in call.nodes]

    def bits(self):
        """The places of Bit lines with a value."""
        return BITS + [node.nid - FIRST for node in self.nodes() if node.sort == BIT]

    def expected(self):
        """Each call's number by document 01."""
        bits, lines = set(BITS), START - FIRST
        for call in self.calls:
            number = refusal(call.kind, call.rd, call.rs1, call.rs2, call.imm)
            if not number and call.needs_flag() and call.flag not in bits:
                number = 7
            if not number and lines + appended(call.kind, call.rd, call.rs1, call.imm) > HOLDS:
                number = 8
            yield number
            lines += len(call.nodes)
            bits |= {node.nid - FIRST for node in call.nodes if node.sort == BIT}


#
# States
#


def word(rng):
    """A boundary, an address of a word, or anything."""
    return rng.choice([rng.choice(BOUNDARIES), rng.randrange(0, WORD, 8), rng.randrange(WORD)])


def state(rng, flag):
    """A value for each line of the start; no two registers are equal."""
    registers = {}
    while len(registers) < 31:
        value = word(rng)
        if value not in registers.values() and value:
            registers[len(registers) + 1] = value
    salt = rng.randrange(WORD)
    memories = {MEMORY: Array(cells(salt), {}), COUNTER: Array(cells(salt + 1), {}), COUNTER_MAX: word(rng)}
    return {20: 0, 21: 1, 22: 0, 23: 1, FLAG: flag} | memories | {23 + r: value for r, value in registers.items()}


# Dividends and divisors, some by their low 32 bits alone.
LEAST_AND_NEGATIVE = [WORD - 2**63, WORD - 2**31, 2**31, 0x0123456780000000, WORD - 1, 2**32 - 1, 7]
ZERO_AND_MINUS_ONE = [0, 2**32, WORD - 1, 2**32 - 1, 0x01234567FFFFFFFF]


def moved(values, r, value):
    """The state with another value in a register and in those equal to it, so that the same comparisons hold."""
    return values | {23 + n: value for n in range(1, 32) if values[23 + n] == values[23 + r]} if r else values


def made_true(rng, run, values, call):
    """The state with the call's flag made true, where that is a comparison of two registers or the state `flag`, and with operands that are
    boundaries, or an address at which the access stays in one word, or a pair of which a division may not be ordinary."""
    if FIRST + call.flag == FLAG:
        values = values | {FLAG: 1}
    node = next((node for node in run.nodes() if node.nid == FIRST + call.flag), None)
    if node and node.operator == "eq" and all(24 <= o <= 54 for o in node.operands):
        values = values | {node.operands[0]: values[node.operands[1]]}
    for r in (call.rs1, call.rs2):
        if rng.random() < 0.5:
            values = moved(values, r, rng.choice(BOUNDARIES))
    if call.kind in LOADS | STORES:
        start = rng.randrange(0, WORD, 8) + rng.randrange(9 - SIZE[call.kind[1]])
        values = moved(values, call.rs1, (start - call.imm) % WORD)
    if call.kind in DIVISIONS and rng.random() < 0.5:
        for r, choices in ((call.rs1, LEAST_AND_NEGATIVE), (call.rs2, ZERO_AND_MINUS_ONE)):
            values = moved(values, r, rng.choice(choices))
    return values


#
# What demand 3 says
#


def true_calls(run, values):
    return [call for call in run.calls if not call.number and call.needs_flag() and values[FIRST + call.flag] == 1]


def in_one_word(call, a):
    if call.kind not in LOADS | STORES:
        return True
    addresses = accessed(call.kind, a, call.imm)
    return addresses[0] % 8 + len(addresses) <= 8


def operands(call, values):
    return [values[23 + r] if r else 0 for r in (call.rs1, call.rs2)]


def result(call, values, counts):
    """The manual's value of rd, or what docs/DIFFERENCES.md says of a division."""
    a, b = operands(call, values)
    if call.kind in LOADS:
        return loaded(call.kind, accessed(call.kind, a, call.imm), byte_of(values[MEMORY]))
    manual = MANUAL[call.kind](call.pc, a, b, call.imm) % WORD
    return divided(call.kind, a, b, manual, counts) if call.kind in DIVISIONS else manual


def stored(call, values):
    """The memory node with the bytes of a store."""
    a, b = operands(call, values)
    addresses, memory = accessed(call.kind, a, call.imm), values[MEMORY]
    cell = addresses[0] - addresses[0] % 8
    value = memory.read(cell)
    for n, address in enumerate(addresses):
        shift = 8 * (address - cell)
        value = value & ~(255 << shift) | (b >> 8 * n & 255) << shift
    return memory.write(cell, value)


def differs(run, nodes, ill, values, counts):
    """What differs in this state, or None."""
    start = values
    values = evaluate(nodes, ill, values)
    ones = true_calls(run, values)
    if len(ones) > 1:
        counts["two true flags"] += 1
        return None
    if ones and not in_one_word(ones[0], operands(ones[0], start)[0]):
        counts["outside one word"] += 1
        return None
    written = ones[0].writes() if ones else None
    counts["one true flag" if ones else "no true flag"] += 1
    if ones:
        counts[ones[0].kind] += 1
        counts["the flag is " + flag_name(nodes, ones[0].flag)] += 1
    counts["a true flag that isn't needed"] += any(not call.number and not call.needs_flag() and values.get(FIRST + call.flag) == 1 for call in run.calls)
    under = f", the true one being {ones[0]}" if ones else ", no flag being true"
    for r in range(1, 32):
        wanted = result(ones[0], start, counts) if written == r else start[FIRST + run.first[r - 1]]
        got = values[FIRST + run.flows[r - 1]]
        if got != wanted:
            return f"the flow of x{r} is {got}, not {wanted}{under}"
    wanted = stored(ones[0], start) if written == 0 else start[FIRST + run.first[31]]
    got = values[FIRST + run.flows[31]]
    if got is None or got.state is not wanted.state or any(got.read(a) != wanted.read(a) for a in got.written | wanted.written):
        return f"the memory flow is another{under}"
    return None


def flag_name(nodes, place):
    if FIRST + place < START:
        return {20: "the bit 0", 21: "the bit 1", FLAG: "the state"}[FIRST + place]
    return "a line " + nodes[FIRST + place - START].operator


def differences(run, states, counts):
    for call, number in zip(run.calls, run.expected()):
        if call.number != number:
            return [f"{call}: refusal {call.number}, not {number}"]
        counts[f"refused with {number}"] += number != 0
        if any(mark != [1, call.pc] for mark in call.marks):
            return [f"{call}: its lines have the marks and addresses {call.marks}"]
    nodes = run.nodes()
    if [node.nid for node in nodes] != list(range(START, START + len(nodes))):
        return ["identifiers don't rise by one from 59"]
    ill = ill_sorted(nodes)
    if ill:
        return [f"{len(ill)} ill-sorted lines"]
    for values in states:
        found = differs(run, nodes, ill, values, counts)
        if found:
            return [found]
    return []


#
# Lists of calls
#


def immediate(rng, kind):
    if kind in UPPER:
        return rng.randrange(2**20)
    if kind in BRANCHES:
        return 2 * rng.randrange(-2048, 2048)
    if kind == "Jal":
        return 2 * rng.randrange(-(2**19), 2**19)
    if kind in ("Slli", "Srli"):
        return rng.randrange(64)
    if kind in ("Slliw", "Srliw", "Sraiw"):
        return rng.randrange(1, 32)
    if kind == "Jalr" or kind in REGISTERS:
        return 0
    return rng.choice([0, 1, -1, 8, rng.randrange(-2048, 2048)])


def accepted_call(rng, kind, flag):
    rd = rng.choice([5, 6, 7, 8, rng.randrange(1, 32)])  # a few flows, so that calls stand over one another
    if kind in ("Addi", "Jal", "Jalr") and rng.random() < 0.3:
        rd = 0  # most of these need no flag, and theirs isn't counted
    pc = rng.choice([65536, rng.randrange(0, WORD, 4)])
    return Call(kind, rd, rng.randrange(32), rng.randrange(32), immediate(rng, kind), flag, pc)


def refused_call(rng, flag):
    """A call that is refused by its record or by its flag."""
    which = rng.randrange(5)
    if which == 0:
        return Call(rng.choice(sorted(EXCLUDED)), 0, 1, 2, 0, flag)  # 5
    if which == 1:
        return Call("Srliw", 1, 2, 0, 0, flag)  # 4
    if which == 2:
        return Call("Addi", 1, 2, 0, 2048, flag)  # 2
    return Call("Lui", 6, 0, 0, 1, rng.choice([2, 4, 35, TOP]))  # 7: Words, the memory, absent


def roles(rng):
    """Some flows of registers start at another register's node or at a word, and memory's at the counter."""
    found = {38 + r: rng.choice([2, 3, 37, rng.randrange(4, 35)]) for r in range(1, 32) if rng.random() < 0.7}
    return found | ({70: 36} if rng.random() < 0.7 else {})


def pairs(rng, count):
    """Comparisons of two registers, no pair twice: at most one holds where two registers are equal and no others."""
    found = set()
    while len(found) < count:
        found.add(tuple(sorted(rng.sample(range(1, 32), 2))))
    return [Call("Beq", 0, a, b, 4, TOP) for a, b in sorted(found)]


def compared_list(rng, program, kinds, make=accepted_call):
    """A call of each kind under a comparison of its own, and refused calls between."""
    given, before = roles(rng), pairs(rng, len(kinds))
    eqs = [node.nid - FIRST for node in Run(program, given, before).nodes() if node.operator == "eq"]
    calls = [make(rng, kind, flag) for kind, flag in zip(kinds, eqs)]
    refused = [refused_call(rng, flag) for flag in rng.sample(eqs, len(eqs) // 4)]
    for call in refused:
        calls.insert(rng.randrange(len(calls) + 1), call)
    return Run(program, given, before + calls)


def mixed_list(rng, program):
    """A few calls under flags of any sort: the start's, comparisons, and Bit lines of other calls."""
    given = roles(rng)
    before = [accepted_call(rng, rng.choice(sorted(BRANCHES)), TOP) for _ in range(3)]
    before += [accepted_call(rng, kind, 0) for kind in rng.sample(["Add", "Addi", "Sub", "Sltu", "Ld", "Sb"], 3)]
    bits = Run(program, given, before).bits()
    calls = [accepted_call(rng, rng.choice(INCLUDED), rng.choice(bits)) for _ in range(rng.randrange(1, 5))]
    return Run(program, given, before + calls + [refused_call(rng, 38)])


def full_list(rng, program):
    """More calls than there is room for."""
    return compared_list(rng, program, [rng.choice(INCLUDED) for _ in range(80)])


def states(rng, run, count):
    """With no flag made true, and with each call's."""
    for n in range(count):
        yield state(rng, n % 2)
    for call in run.calls:
        if not call.number and call.needs_flag():
            for _ in range(4):
                yield made_true(rng, run, state(rng, 0), call)


def lists(program):
    rng = random.Random("flags")
    for _ in range(30):
        yield compared_list(rng, program, rng.sample(INCLUDED, 20)), rng, 8
    for _ in range(200):
        yield mixed_list(rng, program), rng, 24
    for _ in range(6):
        yield full_list(rng, program), rng, 4


#
# The self test
#


def needed(nodes, flow):
    """The lines of a call that its flow depends on, the flow before it and the flag left out."""
    by_nid = {node.nid: node for node in nodes}
    found, open_ones = set(), [flow]
    while open_ones:
        nid = open_ones.pop()
        if nid in by_nid and nid not in found:
            found.add(nid)
            open_ones += by_nid[nid].operands
    return found


def line_text(node):
    return " ".join(map(str, [node.nid, node.operator, node.sort, *node.operands, *([] if node.number is None else [node.number])]))


def plain_call(rng, kind, flag):
    """With operands and an immediate whose every bit counts."""
    rs1, rs2 = rng.sample(range(9, 32), 2)
    return Call(kind, rng.choice([5, 6, 7, 8]), rs1, rs2, 0 if kind == "Jalr" else 4, flag)


def altered_calls(run):
    """Pairs of a call and another text of one of its lines; those of values.py, and of the flow's line another flag or another old flow."""
    flags = [call.flag for call in run.calls if not call.number and call.needs_flag()]
    for call in run.calls:
        if call.number or call.writes() is None:
            continue
        flow = call.nodes[-1]
        assert flow.operator == "ite" and flow.operands[0] == FIRST + call.flag
        for node in call.nodes:
            if node.nid in needed(call.nodes, flow.nid):
                for altered in alterations(line_text(node)):
                    yield call, node, " ".join(altered)
                registers = {23 + r: FIRST + run.first[r - 1] for r in range(1, 32)} | {MEMORY: FIRST + run.first[31]}
                for place, operand in enumerate(node.operands):
                    if node is not flow and registers.get(operand, operand) != operand:  # an operand from a flow
                        read = [*node.operands[:place], registers[operand], *node.operands[place + 1 :]]
                        yield call, node, " ".join(map(str, [node.nid, node.operator, node.sort, *read]))
        other = next(flag for flag in flags if flag != call.flag)
        yield call, flow, f"{flow.nid} ite {flow.sort} {FIRST + other} {flow.operands[1]} {flow.operands[2]}"
        start = FIRST + run.first[(call.writes() or 32) - 1]
        if flow.operands[2] != start:
            yield call, flow, f"{flow.nid} ite {flow.sort} {flow.operands[0]} {flow.operands[1]} {start}"


def self_test(program):
    rng = random.Random("self-test")
    run = compared_list(rng, program, INCLUDED, plain_call)
    nodes, counts = run.nodes(), collections.Counter()
    flagged = [call for call in run.calls if not call.number and call.needs_flag()]
    by_call = {call: [made_true(rng, run, state(rng, 0), call) for _ in range(60)] for call in flagged}
    a_few = [values for few in by_call.values() for values in few[:3]]
    tried, missed = 0, []
    for found in differences(run, [values for few in by_call.values() for values in few], counts):
        missed.append(f"before any alteration: {found}")
    for call, node, text in altered_calls(run):
        changed = nodes[: node.nid - START] + [Node(text)] + nodes[node.nid - START + 1 :]
        ill = ill_sorted(changed)
        tried += 1
        if not ill and not any(differs(run, changed, ill, values, counts) for values in by_call[call] + a_few):
            missed.append(f"{call}: not found: {text!r} for {line_text(node)!r}")
    for n, kept in enumerate(run.flows):  # another place
        places = range(4, 35) if n < 31 else (35, 36)
        run.flows[n] = next(place for place in places if place not in (kept, run.first[n]))
        tried += 1
        if not any(differs(run, nodes, set(), values, counts) for values in a_few):
            missed.append(f"not found: flow {n + 1} at {run.flows[n]} for {kept}")
        run.flows[n] = kept
    for call in run.calls:  # another address, or none
        for mark in ([1, call.pc ^ 1], [0, 0]) if call.marks else ():
            kept, call.marks[-1] = call.marks[-1], mark
            tried += 1
            if not differences(run, [], counts):
                missed.append(f"{call}: not found: {mark}")
            call.marks[-1] = kept
    for call in flagged:  # another answer
        call.number = 4
        tried += 1
        if not differences(run, [], counts):
            missed.append(f"{call}: not found: refused")
        call.number = 0
    print(*missed, f"{tried} alterations, {len(missed)} not found", sep="\n")
    return len(missed) != 0


def main():
    parser = argparse.ArgumentParser(description="Lists of calls under several flags: what demand 3 says of them.")
    parser.add_argument("--program", default=command.program("lowering_cases"), type=pathlib.Path)
    parser.add_argument("--self-test", action="store_true")
    chosen = parser.parse_args()
    program = chosen.program.resolve()
    if not program.is_file():
        print(f"flags.py: {program} is missing", file=sys.stderr)
        return 2
    if chosen.self_test:
        return self_test(program)
    counts, found, made = collections.Counter(), [], 0
    for run, rng, count in lists(program):
        found += differences(run, states(rng, run, count), counts)
        made += 1
    print(f"{made} lists; the true call:", ", ".join(f"{kind} {counts.pop(kind, 0)}" for kind in INCLUDED if kind not in BRANCHES))
    print("; ".join(f"{name}: {count}" for name, count in sorted(counts.items()) if count))
    for difference in found[:SHOWN]:
        print(difference)
    print(f"{len(found)} differences" if found else "no difference")
    return len(found) != 0


if __name__ == "__main__":
    sys.exit(main())
