#!/usr/bin/env python3
"""Instructions for the lowering, with what they must append.

    tools/lowering_cases.py stdin    crates/lowering_cases/stdin: a command to a line
    tools/lowering_cases.py stdout   crates/lowering_cases/stdout: what each lowering appends, or its refusal
    tools/lowering_cases.py check    makes both anew and compares them with the stored ones: exit status 1 where they differ

There are two starts: the listing's, and the oracle's start apart, in which no two roles are one line and identifiers drift from places
(differential/oracle/driver.rs). Both are read off what the oracle prints of them. The program has the first by itself and is handed the
second, record by record and role by role. The Rust's nodes have no addresses (document 02, R-3): each line that a call appends has the call's,
and of the second start, whose lines may have any, every third has one.

The instructions are hand-picked boundary lines and lines of differential/generate.py. What they append is read off the text that the
unchanged Rust prints for them (differential/target/oracle, which differential/build.sh makes): its node lines, edges, dispatches and
flows, turned back into numbers. The Rust has no refusal numbers: where it panics, or where the oracle says that no instruction word holds
the record, the number is document 01's, as refusal.py reads it, and both must agree on whether there is one. Negative amounts of
Slli, Srli, Slliw and Srliw, which the Rust lowers, are left to tools/riscv_cases.py. The refusals 7, 8, 9 and 13 are not the Rust's: their
numbers are written by hand after document 01. Where set counts leave just enough room, the Rust's lines are given the places and
identifiers that those counts make of them. Nothing here is shared with the project's definitions and code; the layout of the records and
the numbers of kinds and origins are the crates'.
"""
import functools
import pathlib
import subprocess
import sys

from refusal import BRANCHES, KINDS, refusal

REPOSITORY = pathlib.Path(__file__).resolve().parent.parent
DIFFERENTIAL = REPOSITORY / "differential"

# The printed operators in the order of unicorn's `Node`.
OPERATORS = "constd read write add sub mul udiv sdiv urem sll srl ult uext ite eq and or not state next input bad".split()
ORIGINS = "regular branch syscall".split()
SORT_OF_WIDTH = {1: 1, 8: 11, 16: 12, 24: 13, 32: 14, 40: 15, 48: 16, 56: 17}

# The listing's start: no State of it has an init, so that places and identifiers keep their distance.
FIRST = 20  # the identifier at place 0
START = 59  # the first identifier that is appended
FLAG = 58 - FIRST
HOLDS, NAME_BYTES, EDGES, DISPATCHES, BADS = 800, 1024, 3, 2, 32  # what the program lends
TOP = 2**64 - 1
NO_CONDITION = TOP
LOWER = 1  # the program's command
IN_A_BATCH = 20
FLOWS = 39  # the role of x1's flow, the first that a lowering changes
NO_NAME = (0, 0, 0)  # area, place and length
NO_ADDRESS = (0, 0)  # mark and address
ADDRESSES = [0, 1, 65536, 2**63, TOP]  # of lines that are handed over
OURS = 2  # the area of names that a call puts


#
# The Rust's answers
#


def oracle(arguments, lines=()):
    """What the Rust prints for these input lines together."""
    text = "".join(" ".join(map(str, line)) + "\n" for line in lines)
    run = subprocess.run([DIFFERENTIAL / "target" / "oracle", *arguments], input=text, capture_output=True, text=True, check=True)
    return run.stdout.splitlines()


def record_numbers(text, place, name=NO_NAME, address=NO_ADDRESS):
    """The twelve numbers of a printed node line as its record is read. `place` gives the place of an identifier, `name` says where its name lies,
    `address` is its mark and the address of its instruction, neither of which is printed."""
    nid, operator, *rest = text.split()
    sort = 0 if operator == "bad" else int(rest.pop(0))
    if operator == "uext":  # printed with the bits that it adds; the record has the sort that it extends
        sort = SORT_OF_WIDTH[64 - int(rest.pop())]
    # a constant, and the place and the length of a name, stand where other lines have operands
    if operator == "constd":
        operands = [int(rest[0])]
    elif operator in ("state", "input"):
        operands = []
    else:
        operands = [place(o) for o in (rest[:1] if operator == "bad" else rest)]
    first, *others = operands + [0] * (3 - len(operands))
    others = others if name == NO_NAME else name[1:]
    return (int(nid), OPERATORS.index(operator) + 1, sort, first, *others, first, name[0], *others, *address)


def some_address(place):
    """For a line that may have any: every third one has one."""
    return (1, ADDRESSES[place % len(ADDRESSES)]) if place % 3 == 0 else NO_ADDRESS


def shown(place, record):
    """The program's command that shows a Const, a State or a line of operands alone that was put there without a name, and its answer."""
    nid, kind, sort, *operands, imm, _, _, _, mark, address = record
    operator = OPERATORS[kind - 1]
    first, *others = [imm, 0, 0] if operator == "constd" else operands
    read = (nid, kind, sort, first, *others, imm if operator == "state" else first, 0, *others, mark, address)
    return (6, place), [" ".join(map(str, read))] + [""] * (operator == "state")


class Start:
    """A start of the oracle: the place of each identifier, the records, the places of the roles and of the flag, the next identifier."""

    def __init__(self, *chosen):
        self.chosen = chosen
        self.places, self.records = {}, []
        *lines, roles, flag = oracle([*chosen, "--start"])
        for line in lines:
            self.take(line.split())
        self.roles = [self.places[int(nid)] for nid in roles.removeprefix("; roles ").split()]
        self.flag = self.places[int(flag.removeprefix("; flag "))]
        self.lines, self.next = len(self.records), int(lines[-1].split()[0]) + 1

    def take(self, fields):
        nid, operator, sort, *rest = fields
        if operator == "init":  # the second line of the State before it
            state, value = map(int, rest)
            assert self.places[state] == len(self.records) - 1
            self.records[-1][3], self.records[-1][6] = self.places[value], 1
            return
        assert operator in ("constd", "state")
        imm = int(rest[0]) if operator == "constd" else 0
        self.places[int(nid)] = len(self.records)
        self.records.append([int(nid), OPERATORS.index(operator) + 1, int(sort), 0, 0, 0, imm, *NO_NAME, *self.address_at(len(self.records))])

    def address_at(self, place):
        """What a line of the start has; the listing's lines have none."""
        return some_address(place) if self.chosen else NO_ADDRESS

    def put(self):
        """The program's commands that make this start: every record, the counts, every role."""
        for place, record in enumerate(self.records):
            yield (5, place, *record), []
        yield from self.put_again()
        for role, place in enumerate(self.roles[:FLOWS]):
            yield (4, role, place), []

    def put_again(self):
        """Those that make it anew where its records still stand: a lowering appends lines and changes flows."""
        yield counts(lines=self.lines, nid=self.next)
        for role, place in enumerate(self.roles[FLOWS:], FLOWS):
            yield (4, role, place), []

    def show(self):
        """The program's commands that show every line of this start, which no call changes."""
        for place, record in enumerate(self.records):
            yield shown(place, record)

    def answers(self, lines):
        """For each line what the Rust prints for it, and the flows after it."""
        printed = []
        for text in oracle([*self.chosen, "--each"], lines):
            if text.startswith("; flows "):
                yield printed, text.split()[2:]
                printed = []
            else:
                printed.append(text)

    def lowered(self, instructions, **counted):
        """Pairs of a command and its answer, from this start with these counts."""
        batch = Batch(self, **counted)
        for line, (printed, flows) in zip(instructions, self.answers(instructions)):
            yield lower(line, self.flag), batch.answer(line, printed, flows)


class Batch:
    """The program's state as far as its output shows it, and the answers in its format. The Rust's lines start where the start ends; where
    the program's counts were set to others, the lines stand at those."""

    def __init__(self, start, lines=None, nid=None, names=0, edges=0, dispatches=0, bads=0):
        self.start = start
        self.lines = start.lines if lines is None else lines
        self.nid = start.next if nid is None else nid
        self.names, self.edges, self.dispatches, self.bads = names, edges, dispatches, bads
        self.first = self.lines
        self.rust = start.next

    def place(self, nid):
        nid = int(nid)
        return self.start.places[nid] if nid < self.start.next else self.first + nid - self.start.next

    def record(self, text, address):
        """The numbers of a node line of a call at this address as its record is read, and its name where it is bad."""
        nid, operator, *rest = text.split()
        assert int(nid) == self.rust and self.lines < HOLDS and operator not in ("state", "next", "input")
        label = rest[1] if operator == "bad" else ""
        name = (OURS, self.names, len(label)) if label else NO_NAME
        numbers = (self.nid, *record_numbers(text, self.place, name, (1, address))[1:])
        self.names += len(label)
        self.lines += 1
        self.nid += 1
        self.rust += 1
        return [" ".join(map(str, numbers))] + [label] * (operator == "bad")

    def accepted(self, address, printed, flows):
        out, edges, dispatches, bads = [], self.edges, self.dispatches, 0
        for text in printed:
            if text.startswith("; in "):
                to, _, source, origin, condition = text.split()[2:]
                met = NO_CONDITION if condition == "-" else self.place(condition)
                out.append(f"edge {to} {source} {ORIGINS.index(origin)} {met}")
                edges += 1
            elif text.startswith("; dyn "):
                out.append(text[2:])
                dispatches += 1
            else:
                assert not text.startswith(";")
                bads += text.split()[1] == "bad"
                out += self.record(text, address)
        # A bad is the call's last line, and has no edge nor dispatch beside it.
        out += [f"bad {self.lines - 1}"] * bads
        self.bads += bads
        out.append(f"counts {self.lines} {self.nid} {self.names} {edges} {dispatches} {self.bads}")
        out.append("flows " + " ".join(str(self.place(nid)) for nid in flows))
        self.edges = self.dispatches = 0
        return out

    def answer(self, line, printed, flows):
        number = refusal(*line[1:])
        expected = {0: None, 2: "; unencodable"}.get(number, "; panic")
        assert (printed[0] if printed[:1] in (["; panic"], ["; unencodable"]) else None) == expected, (line, printed)
        return [f"refused {number}"] if number else self.accepted(line[0], printed, flows)


@functools.cache
def listing():
    return Start()


@functools.cache
def apart():
    return Start("--apart")


#
# The instructions
#


def lower(line, flag=FLAG):
    address, kind, rd, rs1, rs2, imm = line
    number = KINDS.index(kind) if kind in KINDS else 255 if kind == "Lwu" else len(KINDS)
    return LOWER, address, number, rd, rs1, rs2, imm % 2**64, flag


def boundary_lines():
    for n, kind in enumerate(KINDS):  # each kind with plain fields, with all registers the same, and with rd and rs1 x0
        shift = {"Jalr": 0}.get(kind, 2)
        yield 65536 + 4 * n, kind, 5, 6, 7, shift
        yield 2**64 - 4 * n - 4, kind, 31, 31, 31, 0
        yield 4 * n, kind, 0, 0, 1, shift
    for kind in ("Lb", "Lh", "Lw", "Ld", "Lbu", "Lhu", "Sb", "Sh", "Sw", "Sd"):  # imm at its limits, from x0
        yield 0, kind, 1, 0, 0, -2048
        yield 0, kind, 1, 2, 3, 2047
    for address in (0, 15, 16, 0xDEADBEEF, 2**63, TOP):  # the bad line's name, and link addresses that wrap
        yield address, "Jalr", 0, 0, 9, 8
        yield address, "Jalr", 1, 0, 9, -4
        yield address, "Jalr", 1, 31, 9, 0
        yield address, "Jal", 31, 9, 9, -1048576
    yield 0, "Jalr", 0, 1, 0, 4
    for kind in sorted(BRANCHES):  # to itself, to the next, and around 2^64
        yield 65536, kind, 0, 1, 2, 0
        yield 65536, kind, 0, 1, 2, 4
        yield 2**64 - 4, kind, 255, 31, 0, 4
        yield 0, kind, 0, 1, 1, -4096
        yield TOP, kind, 0, 0, 0, 4094
    yield 2**64 - 4, "Jal", 0, 0, 0, 4
    for imm in (0, 1, 524287, 524288, 1048575):
        yield 65536, "Lui", 1, 0, 0, imm
        yield 65536, "Auipc", 1, 0, 0, imm
        yield TOP, "Auipc", 1, 0, 0, imm
    for kind in ("Slli", "Srli", "Srai", "Slliw", "Srliw", "Sraiw"):
        for imm in (0, 1, 31, 32, 63, 64):
            yield 0, kind, 1, 2, 0, imm
    for imm in (-1, -64, 1024, 1055, 1056):
        yield 0, "Srai", 1, 2, 0, imm
        yield 0, "Sraiw", 1, 2, 0, imm
    yield 0, "Srliw", 0, 2, 0, 0
    for kind in ("Addi", "Addiw", "Sltiu", "Xori", "Ori", "Andi"):
        for imm in (-2048, -1, 0, 1, 2047, 2048):
            yield 0, kind, 3, 4, 0, imm
    yield 0, "Addi", 0, 1, 0, 5
    for fields in ((32, 1, 1), (1, 32, 1), (1, 1, 32)):
        yield 0, "Add", *fields, 0
        yield 0, "Sd", *fields, 0
        yield 0, "Beq", *fields, 4
        yield 0, "Lui", *fields, 4
        yield 0, "Ecall", *fields, 4
    yield 0, "Lwu", 1, 2, 3, 4
    yield 0, "Xor", 1, 2, 3, 4


def fields(text):
    address, kind, *rest = text.split()
    return (int(address), kind, *map(int, rest))


def generated_lines(seed, count):
    run = subprocess.run([DIFFERENTIAL / "generate.py", str(seed), str(count)], capture_output=True, text=True, check=True)
    yield from map(fields, run.stdout.splitlines())


def batches():
    """Boundary lines, each seed's lines, a batch a start: a list holds what twenty instructions append at most."""
    lines = list(boundary_lines())
    for n in range(0, len(lines), IN_A_BATCH):
        yield lines[n : n + IN_A_BATCH]
    for seed in (1, 2, 3, 4, 5):
        yield list(generated_lines(seed, IN_A_BATCH))


def lowered(instructions, **counted):
    """From the listing's start."""
    return listing().lowered(instructions, **counted)


#
# The start apart
#


def apart_lines():
    """From the start in which no two roles are one line: every kind with registers and with x0, and chains."""
    for n, kind in enumerate(KINDS):  # each rd is set again, each register is read again
        yield 65536 + 4 * n, kind, 5 + n % 3, 6, 5, {"Jalr": 0}.get(kind, 4)
    for n, kind in enumerate(KINDS):  # from x0 alone, and without an offset
        yield 2**64 - 4 * n - 4, kind, 31, 0, 0, {"Srliw": 31}.get(kind, 0)
    for kind in ("Lb", "Lh", "Lw", "Ld", "Lbu", "Lhu", "Sb", "Sh", "Sw", "Sd"):
        yield 0, kind, 1, 2, 3, 0
        yield 4, kind, 1, 0, 1, -2048
    for rd, rs1 in ((0, 0), (0, 31), (1, 0), (1, 1)):
        yield 43981, "Jalr", rd, rs1, 0, 0
    yield 43985, "Jalr", 0, 0, 0, 8
    yield 43989, "Jalr", 0, 1, 0, 8  # 6
    yield 0, "Addi", 0, 1, 0, 5
    yield 0, "Addi", 0, 0, 0, 0
    yield 0, "Jal", 0, 0, 0, 8
    yield 0, "Lui", 0, 0, 0, 1  # 5
    # every flow that a call can set, twice or more
    for n in range(2):
        for kind in ("Ld", "Sd", "Add", "Mul", "Mulw", "Div", "Divu", "Remu", "Divw", "Sb", "Ecall", "Sub", "Addw", "Sw"):
            yield 4 * n, kind, 7, 7, 7, 8
    yield from generated_lines(6, IN_A_BATCH)


def from_apart(lines):
    """Commands and answers for these lines, so many a start: the start's records are put once."""
    yield from apart().put()
    for n in range(0, len(lines), IN_A_BATCH):
        if n:
            yield from apart().put_again()
        yield from apart().lowered(lines[n : n + IN_A_BATCH])


#
# The refusals that are not the Rust's
#


def refused(command, number):
    return command, [f"refused {number}"]


def counts(lines=START - FIRST, nid=START, names=0, edges=0, dispatches=0, bads=0):
    return (3, lines, nid, names, edges, dispatches, bads), []


def just_enough(line, **counted):
    yield counts(**counted)
    yield from lowered([line], **counted)
    yield FRESH


LUI = (65536, "Lui", 5, 0, 0, 1)  # two lines, an edge
BEQ = (65536, "Beq", 0, 1, 2, 8)  # two lines, two edges
BAD = (65536, "Jalr", 0, 0, 0, 0)  # a bad line and its name of 22 bytes
LINKED_BAD = (65536, "Jalr", 1, 0, 0, 0)
DYN = (65536, "Jalr", 0, 1, 0, 0)  # a dispatch, no line
FRESH = (2,), []


def flag_cases():
    """7: where a flag is needed, it must be a value line of sort Bit."""
    for flag in (2, 4, 35, 39, TOP):  # a Word, a state of sort Word, the memory, past the last line, absent
        for line in (LUI, LINKED_BAD, BAD, (0, "Ecall", 0, 0, 0, 0), (0, "Sd", 0, 1, 2, 0)):
            yield refused(lower(line, flag), 7)
        yield refused(lower((0, "Lui", 0, 0, 0, 1), flag), 5)  # the first match wins
    yield from lowered([BAD])
    yield refused(lower(LUI, 39), 7)  # a bad line is no value line
    yield FRESH
    # These need none.
    lines = [BEQ, (0, "Addi", 0, 1, 0, 5), (0, "Jal", 0, 0, 0, 8), DYN]
    for (command, answer), line in zip(lowered(lines), lines):
        yield lower(line, TOP), answer
    yield FRESH


def room_cases():
    """8: with one too few of what the call appends to, refused; with just enough, not."""
    for line, needs in (
        (LUI, 2), (BEQ, 2), (BAD, 1), (LINKED_BAD, 3), (DYN, 0), ((0, "Mulw", 1, 2, 3, 0), 35), ((0, "Sb", 0, 2, 3, 8), 29),
    ):  # fmt: skip
        if needs:
            yield counts(lines=HOLDS - needs + 1)
            yield refused(lower(line), 8)
        yield from just_enough(line, lines=HOLDS - needs)
    for line, enough, short in (
        (LUI, dict(edges=EDGES - 1), dict(edges=EDGES)),
        (BEQ, dict(edges=EDGES - 2), dict(edges=EDGES - 1)),
        (DYN, dict(dispatches=DISPATCHES - 1), dict(dispatches=DISPATCHES)),
        (BAD, dict(names=NAME_BYTES - 22), dict(names=NAME_BYTES - 21)),
        (BAD, dict(bads=BADS - 1), dict(bads=BADS)),
    ):
        yield counts(**short)
        yield refused(lower(line), 8)
        yield counts(**short)  # each call empties edges and dispatches
        yield refused(lower(line, TOP), 8 if line in (BEQ, DYN) else 7)  # the first match wins
        yield from just_enough(line, **enough)
    # What a call does not append to may be full.
    yield from just_enough(BAD, edges=EDGES, dispatches=DISPATCHES)
    yield from just_enough(LUI, names=NAME_BYTES, dispatches=DISPATCHES, bads=BADS)
    yield from just_enough(DYN, lines=HOLDS, names=NAME_BYTES, edges=EDGES, bads=BADS)


def count_cases():
    """9: counts above their storage, and the largest identifier."""
    most = 2**31 + 2_097_152
    for over in (
        dict(lines=HOLDS + 1), dict(lines=1_048_577), dict(lines=TOP), dict(nid=most + 1), dict(nid=TOP), dict(names=NAME_BYTES + 1),
        dict(edges=EDGES + 1), dict(dispatches=DISPATCHES + 1), dict(bads=BADS + 1),
    ):  # fmt: skip
        yield counts(**over)
        yield refused(lower(LUI), 9)
        yield counts(**over)
        yield refused(lower((0, "Lwu", 1, 2, 3, 4), TOP), 9)  # 9 comes before 1 and 7
    yield counts(nid=most)
    yield from lowered([LUI], nid=most)
    yield refused(lower(LUI), 9)  # the call before passed it
    yield FRESH


def role_cases():
    """13: each role in turn outside the list, at a line of no value, and of a wrong sort."""
    sorts = [1, 1, 2, 2, 3, 3, 2] + [2] * 63 + [3, 3, 2, 2, 2, 2, 1, 1, 1]
    of_sort = {1: 0, 2: 2, 3: 35}
    for role, sort in enumerate(sorts):
        yield FRESH
        for wrong in (START - FIRST, of_sort[sort % 3 + 1]):
            yield (4, role, wrong), []
            yield refused(lower(LUI), 13)
    yield FRESH
    yield (4, 78, TOP), []
    yield refused(lower((0, "Lwu", 1, 2, 3, 4), TOP), 13)  # 13 comes before 1 and 7
    yield counts(bads=BADS + 1)
    yield refused(lower(LUI), 9)  # and 9 before 13
    yield FRESH
    yield from lowered([BAD])
    yield (4, 0, START - FIRST), []
    yield refused(lower(LUI), 13)  # a bad line is no value line
    yield FRESH


def other_lines():
    """A call changes no line but those that it appends: those of the start, with an address or without, and one after the list's end stay as they
    are, and so do all where it is refused."""
    start = apart()
    after = start.lines + 2  # two lines are appended
    for address in (NO_ADDRESS, (1, TOP)):
        record = [7, OPERATORS.index("not") + 1, 1, 0, 0, 0, 0, *NO_NAME, *address]
        yield from start.put_again()
        yield (5, after, *record), []
        yield from start.lowered([LUI])
        yield shown(after, record)
        yield refused(lower(LUI, TOP), 7)
        yield refused(lower((0, "Lwu", 1, 2, 3, 4), start.flag), 1)
        yield shown(after, record)
    yield from start.show()


def commands():
    for lines in batches():
        yield FRESH
        yield from lowered(lines)
    yield FRESH
    yield from flag_cases()
    yield from room_cases()
    yield from count_cases()
    yield from role_cases()
    yield from from_apart(list(apart_lines()))
    yield from other_lines()
    yield FRESH


def main(arguments, crate, commands, usage):
    """Writes what a crate's stdin or stdout is to hold, or compares both with the stored ones."""
    made = list(commands())
    texts = {
        "stdin": "".join(" ".join(map(str, command)) + "\n" for command, _ in made),
        "stdout": "".join(text + "\n" for _, answer in made for text in answer),
    }
    if arguments in (["stdin"], ["stdout"]):
        sys.stdout.write(texts[arguments[0]])
        return 0
    if arguments != ["check"]:
        sys.exit(usage)
    differing = [name for name, text in texts.items() if (REPOSITORY / "crates" / crate / name).read_text() != text]
    print(*[f"crates/{crate}/{name} is not what is made now" for name in differing] or ["no difference"], sep="\n")
    return len(differing) != 0


if __name__ == "__main__":
    sys.exit(main(sys.argv[1:], "lowering_cases", commands, __doc__))
