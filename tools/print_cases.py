#!/usr/bin/env python3
"""Lists of lines for printing, with the text that they must give.

    tools/print_cases.py stdin    crates/print_cases/stdin: a command to a line
    tools/print_cases.py stdout   crates/print_cases/stdout: what each print writes, or its refusal

The text of a run is what the unchanged Rust's write_model prints for the same nodes (differential/target/oracle --nodes, which
differential/build.sh makes). The Rust has no refusals here and no missing name of an Input, for which it is given the name `?`. Nor do its
nodes have the addresses that some of the records have, which change no text and no answer (document 02, R-3). The refusals are read off
document 01 below. Nothing here is shared with the project's definitions and code but the layout of a record, the numbers of kinds and the
bytes of the name areas.
"""
import pathlib
import random
import subprocess
import sys

ORACLE = pathlib.Path(__file__).resolve().parent.parent / "differential" / "target" / "oracle"

KINDS = "Const Read Write Add Sub Mul Divu Div Rem Sll Srl Ult Ext Ite Eq And Or Not State Next Input Bad".split()
NUMBER = {name: n for n, name in enumerate(KINDS, 1)}
SORTS = (1, 2, 3, *range(11, 18))
OWN_SORT = {"Const", "Ext", "Ite", "And", "Or", "Not", "State", "Next", "Input"}
NAMED = {"State", "Input", "Bad"}
OPERANDS = {"Const": 0, "Write": 3, "Ext": 1, "Ite": 3, "Not": 1, "State": 0, "Input": 0, "Bad": 1}  # two for the others
AREAS = {1: "x1x31 counter-maxλ".encode(), 2: b"flagunimplemented-pc-10000"}
HOLDS = 128
MOST_LINES = 1_048_576
MOST_NID = 2**31 + 2_097_152
TOP = 2**64 - 1
ROOM = 16384  # the longest output that the program lends

MISSING = (0, 0, 0)
EMPTY, WHOLE_HOST, WHOLE_OURS = (1, 0, 0), (1, 0, len(AREAS[1])), (2, 0, len(AREAS[2]))
# The mark of an address, which any number but 0 is, and the address; where the mark is 0 there is none.
NO_ADDRESS = (0, 0)
ADDRESSES = (NO_ADDRESS, (1, 0), (0, TOP), (1, TOP), (16, 65536), (TOP, 2**63), (2, 1))
NAMES = (MISSING, (0, 7, TOP), EMPTY, (1, 19, 0), (2, 26, 0), (1, 0, 2), (1, 2, 3), (1, 5, 12), (1, 17, 2), WHOLE_HOST, (2, 0, 4), (2, 4, 22), WHOLE_OURS)


def record(nid, kind, sort=0, ops=(), imm=0, name=MISSING, address=NO_ADDRESS):
    ops = (*ops, 0, 0, 0)[:3]
    return [nid, NUMBER.get(kind, kind), sort, *ops, imm, *name, *address]


def with_address(fields, address):
    """The same record with another mark and address."""
    return [*fields[:-2], *address]


#
# Document 01
#


def has_name(kind):
    return kind in NAMED


def operands(kind, imm):
    return 1 if kind == "State" and imm != 0 else OPERANDS.get(kind, 2)


def unformed(records, p):
    """Refusal 11 of the line at place p."""
    nid, number, sort, *ops, imm, area, at, length, _, _ = records[p]
    if not 1 <= number <= len(KINDS):
        return True
    kind = KINDS[number - 1]
    if kind in OWN_SORT and sort not in SORTS or kind == "Ext" and sort == 3:
        return True
    for q in ops[: operands(kind, imm)]:
        if q >= p or KINDS[records[q][1] - 1] in ("Next", "Bad"):
            return True
    return has_name(kind) and area != 0 and (area not in AREAS or at + length > len(AREAS[area]))


def refusal(records, lines, start, count):
    """9 or 11, which are of the whole list, or 0."""
    if lines > MOST_LINES or lines > HOLDS or start + count > lines or any(r[0] > MOST_NID for r in records[:lines]):
        return 9
    if any(unformed(records, p) for p in range(lines)):
        return 11
    return 0


#
# The Rust's text
#


def node(fields):
    nid, number, sort, *ops, imm, area, at, length, _, _ = fields
    name = "-"
    if has_name(KINDS[number - 1]) and area != 0:
        name = "=" + AREAS[area][at : at + length].decode()
    elif KINDS[number - 1] == "Input":
        name = "=?"
    return " ".join(map(str, (nid, number, sort, *ops, imm, name))) + "\n"


def text(records, lines, start, count):
    nodes = "".join(map(node, records[:lines]))
    run = subprocess.run([ORACLE, "--nodes", str(start), str(count)], input=nodes.encode(), capture_output=True, check=True)
    return run.stdout


#
# Commands
#


class Cases:
    def __init__(self):
        self.records = [[0] * 12 for _ in range(HOLDS)]
        self.commands = []
        self.answers = []

    def put(self, place, fields):
        self.records[place] = list(fields)
        self.commands.append((1, place, *fields))

    def fill(self, records):
        for place, fields in enumerate(records):
            self.put(place, fields)

    def print(self, lines, start, count, room=ROOM):
        self.commands.append((2, lines, start, count, room))
        number = refusal(self.records, lines, start, count)
        found = b"" if number else text(self.records, lines, start, count)
        if not number and len(found) > room:
            number = 14
        if number:
            self.answers.append(b"refused %d\nleft %d\n" % (number, room))
        else:
            self.answers.append(b"written %d\n%sleft %d\n" % (len(found), found, room - len(found)))
        return found

    def limits(self, lines, start, count):
        """A run with all the room there is, just enough, one byte short, and none."""
        found = self.print(lines, start, count)
        self.print(lines, start, count, len(found))
        if found:
            self.print(lines, start, count, len(found) - 1)
            self.print(lines, start, count, 0)

    def with_line(self, place, fields):
        """A list in which one line is another, and then the old one again."""
        old = self.records[place]
        self.put(place, fields)
        yield
        self.put(place, old)


def every_kind():
    """A list with every kind, every sort and every name, under identifiers up to the largest."""
    start = [
        record(20, "Const", 1, imm=0),
        record(21, "Const", 2, imm=TOP),
        record(22, "State", 3, name=(1, 5, 12)),
        record(23, "Const", 2, imm=10),
    ]
    lines = list(start)
    for number, kind in enumerate(KINDS, 1):
        for sort in [s for s in SORTS if not (kind == "Ext" and s == 3)] if kind in OWN_SORT else (0, TOP):
            ops = [p % 4 for p in range(number, number + operands(kind, 0))]
            lines.append(record(0, kind, sort, ops, TOP - sort if kind == "Const" else 0, NAMES[len(lines) % len(NAMES)]))
    lines = lines[:HOLDS]
    for place, line in enumerate(lines[4:], 4):
        line[0] = MOST_NID - len(lines) + 1 + place
    return lines


def names_and_inits():
    """Every name on every named kind, with and without an init, whose row has the identifier after the state's."""
    lines = [record(1, "Const", 1, imm=1), record(MOST_NID, "State", 3, name=(2, 0, 4))]
    for name in NAMES:
        for kind, sort, ops, imm in (("State", 2, (), 0), ("State", 17, (1, 5, TOP), 1), ("State", 1, (0,), TOP), ("Input", 14, (), 0), ("Bad", 0, (0,), 0)):
            nid = (0, 9, 10, 99, 100, 2**31, MOST_NID - 1, MOST_NID)[len(lines) % 8]
            lines.append(record(nid, kind, sort, ops, imm, name))
    return lines


def drawn(seed):
    """A list of drawn lines that refusals 9 and 11 pass."""
    draw, addresses = random.Random(seed), random.Random(f"addresses {seed}")
    lines = []
    values = []
    while len(lines) < 40:
        kind = draw.choice(KINDS)
        imm = draw.choice((0, 1, 10**draw.randrange(20), draw.randrange(2**64)))
        if operands(kind, imm) and not values:
            continue
        sort = draw.choice([s for s in SORTS if not (kind == "Ext" and s == 3)] if kind in OWN_SORT else (0, 5, draw.randrange(2**64)))
        used = [draw.choice(values) for _ in range(operands(kind, imm))]
        unused = [draw.randrange(2**64) for _ in range(3)]
        name = draw.choice(NAMES) if has_name(kind) else (draw.randrange(4), draw.randrange(2**64), draw.randrange(2**64))
        if kind not in ("Next", "Bad"):
            values.append(len(lines))
        nid = draw.choice((draw.randrange(1000), draw.randrange(MOST_NID + 1)))
        lines.append(record(nid, kind, sort, used + unused, imm, name, addresses.choice(ADDRESSES)))
    return lines


def cases():
    c = Cases()
    # no lines
    for lines, start, count, room in ((0, 0, 0, 0), (0, 0, 0, 5), (0, 0, 1, 5), (0, 1, 0, 5)):
        c.print(lines, start, count, room)
    # every kind and every name
    for lines in (every_kind(), names_and_inits()):
        c.fill(lines)
        c.limits(len(lines), 0, len(lines))
        for start, count in ((0, 1), (len(lines) - 1, 1), (3, 0), (len(lines), 0), (2, 7)):
            c.limits(len(lines), start, count)
    # the same names and inits on lines with addresses: the same text
    lines = [with_address(line, ADDRESSES[place % len(ADDRESSES)]) for place, line in enumerate(names_and_inits())]
    c.fill(lines)
    c.limits(len(lines), 0, len(lines))
    # drawn lists, and runs of them
    for seed in range(8):
        lines = drawn(seed)
        c.fill(lines)
        c.limits(len(lines), 0, len(lines))
        c.print(len(lines), seed, 2 * seed)
    # 9: runs outside, counts above the storage, identifiers
    lines = drawn(0)
    n = len(lines)
    c.fill(lines)
    for start, count in ((0, n + 1), (n, 1), (n + 1, 0), (1, n), (TOP, 0), (TOP, TOP), (1, TOP), (0, TOP), (TOP, 1)):
        c.print(n, start, count)
    for count in (HOLDS + 1, MOST_LINES, MOST_LINES + 1, TOP):
        c.print(count, 0, 1)
        c.print(count, 0, count)
    for place in (0, n - 1, n):  # the last is no line of the list
        for nid in (MOST_NID, MOST_NID + 1, 2**32 + 20, TOP):
            for _ in c.with_line(place, [nid, *c.records[place][1:]]):
                c.print(n, 2, 3)
    # 11: kinds and sorts
    for kind in (0, *range(1, 23), 23, 257, TOP):
        for sort in (0, 1, 2, 3, 4, 10, 11, 17, 18, 257, TOP):
            for _ in c.with_line(n, record(500, kind, sort, (0, 0, 0), 0)):
                c.print(n + 1, n, 1)
    # 11: operands, each in turn at its own line, a later one, one that carries no value, outside; and the same where it is not looked at
    first_value = next(p for p in range(n) if KINDS[lines[p][1] - 1] not in ("Next", "Bad"))
    no_value = next(p for p in range(n) if KINDS[lines[p][1] - 1] in ("Next", "Bad"))
    for kind in KINDS:
        for imm in (0, 1) if kind == "State" else (0,):
            for operand in range(3):
                for q in (first_value, no_value, n, n + 1, TOP):
                    ops = [first_value] * 3
                    ops[operand] = q
                    for _ in c.with_line(n, record(500, kind, 2, ops, imm)):
                        c.print(n + 1, n, 1)
    # 11: names
    for kind in ("State", "Input", "Bad", "Not"):
        for area in (0, 1, 2, 3, 257, TOP):
            for at, length in ((0, 19), (0, 20), (19, 0), (20, 0), (1, 18), (1, 19), (26, 0), (27, 0), (0, 26), (0, 27), (TOP, 1), (1, TOP), (TOP, TOP)):
                for _ in c.with_line(n, record(500, kind, 2, (first_value,) * 3, 0, (area, at, length))):
                    c.print(n + 1, n, 1)
    # an address, or none, of a line that is good and of one that is not
    for address in ADDRESSES:
        for fields in (record(500, "State", 2, (first_value,) * 3, 0), record(500, "State", 2, (first_value,) * 3, 1), record(500, "State", 4)):
            for _ in c.with_line(n, with_address(fields, address)):
                c.print(n + 1, n, 1)
    # the order: 9 before 11 before 14, over the whole list whatever the run is
    bad_line, high_nid = record(500, 0), record(MOST_NID + 1, "Const", 2)
    for place, fields in ((n, bad_line), (n, high_nid), (0, bad_line), (0, high_nid)):
        for _ in c.with_line(place, fields):
            for start, count in ((2, 3), (0, 0), (2, n)):
                c.print(n + 1, start, count)
                c.print(n + 1, start, count, 0)
            c.print(n, 2, 3, 0)
    for _ in c.with_line(0, bad_line):
        for _ in c.with_line(n - 1, high_nid):
            c.print(n, 2, 3, 0)
    return c


if __name__ == "__main__":
    made = cases()
    if sys.argv[1:] == ["stdin"]:
        sys.stdout.write("".join(" ".join(map(str, command)) + "\n" for command in made.commands))
    elif sys.argv[1:] == ["stdout"]:
        sys.stdout.buffer.write(b"".join(made.answers))
    else:
        sys.exit(__doc__)
