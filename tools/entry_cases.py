#!/usr/bin/env python3
"""Instructions for the lowering with the in-edges in a slice of records, with all that each call must leave.

    tools/entry_cases.py stdin    crates/entry_cases/stdin: a command to a line
    tools/entry_cases.py stdout   crates/entry_cases/stdout: what each call leaves
    tools/entry_cases.py check    makes both anew and compares them with the stored ones: exit status 1 where they differ

What an accepted call appends is read off the text that the unchanged Rust prints (differential/target/oracle), by lowering_cases.py. Which calls
are refused, and with what number, is decided here after document 01: the room for edges is what a call is lent less what is in use. A call puts
its edges after those in use and leaves every other record as it was, those that it is not lent too. Nothing here is shared with the project's
definitions and code; the layout of the records and the numbers of kinds and origins are the crates'.
"""
import functools
import sys

import lowering_cases
from lowering_cases import TOP
from refusal import refusal

RECORDS = 5
BAD_LINE = 22  # its kind
UNUSED = [[10 * n + 1, 10 * n + 2, 10 * n + 3, 10 * n + 4] for n in range(RECORDS)]

LUI = (65536, "Lui", 5, 0, 0, 1)
BEQ = (65536, "Beq", 0, 1, 2, 8)
BGEU = (2**64 - 4, "Bgeu", 0, 1, 2, 4)  # both edges lead to 0
BACK = (0, "Blt", 0, 3, 4, -4096)
JAL = (2**64 - 4, "Jal", 0, 0, 0, 4)  # no line
LINK = (8, "Jal", 1, 0, 0, -1048576)
NOTHING = (16, "Addi", 0, 1, 0, 5)  # no line
STORE = (24, "Sd", 0, 1, 2, 8)
ECALL = (32, "Ecall", 0, 0, 0, 0)
DYN = (40, "Jalr", 0, 7, 0, 0)  # a dispatch and no edge
BAD = (43981, "Jalr", 0, 0, 0, 8)  # a bad line and no edge
EDGES = {LUI: 1, BEQ: 2, BGEU: 2, BACK: 2, JAL: 1, LINK: 1, NOTHING: 1, STORE: 1, ECALL: 1, DYN: 0, BAD: 0}
NEEDS_NO_FLAG = {BEQ, BGEU, BACK, JAL, NOTHING, DYN}


@functools.cache
def of_the_rust(lines):
    """What the Rust gives for the last of these lines, which it lowers one after the other."""
    return list(lowering_cases.listing().answers(lines))[-1]


def words_of(numbers):
    """The words of a record as it is read: identifier, kind, sort, operands, constant, area, place and length of a name, mark and address."""
    nid, kind, sort, first, second, third, _, area, _, _, mark, address = map(int, numbers)
    return nid << 32 | mark << 28 | area << 16 | sort << 8 | kind, first, second, third, address


class Driver:
    """The program's state, and the commands and answers that it makes."""

    def __init__(self):
        self.made = []
        self.fresh()

    def fresh(self):
        start = lowering_cases.listing()
        self.batch = lowering_cases.Batch(start)
        self.roles = list(start.roles)
        self.records = [list(record) for record in UNUSED]
        self.accepted = ()
        self.edges = self.dispatches = self.bads = self.names = 0
        self.made.append(((2,), []))

    def use(self, edges):
        """Sets the count of edges in use."""
        self.edges = edges
        b = self.batch
        self.made.append(((3, b.lines, b.nid, self.names, edges, self.dispatches, self.bads), []))

    def role(self, role, place):
        self.roles[role] = place
        self.made.append(((4, role, place), []))

    def number(self, line, room, flag):
        """9, 13, 1 to 6, 7, 8: document 01's order. The lists other than that of edges have room for what the cases append."""
        if self.edges > room:
            return 9
        if any(place >= self.batch.lines for place in self.roles):
            return 13
        own = refusal(*line[1:])
        if own:
            return own
        if flag != lowering_cases.FLAG and line not in NEEDS_NO_FLAG:
            return 7
        return 8 if self.edges + EDGES[line] > room else 0

    def lower(self, line, room, flag=lowering_cases.FLAG):
        number = self.number(line, room, flag)
        lines, dispatches, bads, names = [], [], [], ""
        if number == 0:
            self.accepted += (line,)
            shown = iter(self.batch.accepted(line[0], *of_the_rust(self.accepted)))
            for text in shown:
                word, *rest = text.split()
                if word == "edge":
                    self.records[self.edges] = [int(n) for n in rest]
                    self.edges += 1
                elif word == "dyn":
                    dispatches += rest
                elif word == "bad":
                    bads += rest
                elif word == "flows":
                    self.roles[lowering_cases.FLOWS :] = [int(n) for n in rest]
                elif word != "counts":
                    words = words_of([word, *rest])
                    lines += words
                    if words[0] % 256 == BAD_LINE:
                        names += next(shown)
            self.dispatches += len(dispatches) // 2
            self.bads += len(bads)
            self.names += len(names)
        b = self.batch
        answer = [f"refusal {number}"]
        answer += [" ".join([title, *map(str, words)]) for title, words in (("lines", lines), ("dispatches", dispatches), ("bads", bads))]
        answer += [f"names {names}", f"counts {b.lines} {b.nid} {self.names} {self.edges} {self.dispatches} {self.bads}"]
        answer += [" ".join(["roles", *map(str, self.roles)])]
        answer += [" ".join(["record", *map(str, record)]) for record in self.records]
        self.made.append(((1, room, *lowering_cases.lower(line, flag)[1:]), answer))


def every_room(d):
    """Each kind of edge with each room and each count in use, up to one above the room."""
    for line in EDGES:
        for room in range(RECORDS + 1):
            for used in range(room + 2):
                d.fresh()
                d.use(used)
                d.lower(line, room)


def large_counts(d):
    for used in (RECORDS + 2, 2**32, 2**62, 2**63, TOP - 1, TOP):
        for room in (0, 1, RECORDS):
            for line in (LUI, BEQ, DYN):
                d.fresh()
                d.use(used)
                d.lower(line, room)


def refused_for_others(d):
    """1 to 7 and 13 with and without room for edges, and with more in use than is lent: 9 and 13 come first, 8 comes last."""
    wrong = [(0, "Lwu", 1, 2, 3, 4), (0, "Add", 32, 1, 1, 0), (0, "Slli", 1, 1, 0, 64), (0, "Srliw", 1, 1, 0, 0), (0, "Lui", 0, 0, 0, 1), (0, "Jalr", 0, 1, 0, 4)]
    for room, used in ((RECORDS, 0), (RECORDS, 4), (0, 0), (2, 2), (2, 3)):
        for line in wrong:
            d.fresh()
            d.use(used)
            d.lower(line, room)
        for line in EDGES:
            d.fresh()
            d.use(used)
            d.lower(line, room, flag=TOP)
        d.fresh()
        d.use(used)
        d.role(78, TOP)
        d.lower(LUI, room)


def chains(d):
    """Edges one after the other until no record is left, with refused calls in between, and less and more room from call to call."""
    d.fresh()
    for line in (LUI, BEQ, BACK, LUI, BEQ, DYN, NOTHING, BAD):  # the third fills the records
        d.lower(line, RECORDS)
    d.lower(DYN, RECORDS - 1)  # more in use than is lent
    d.lower(DYN, RECORDS)
    d.use(0)
    d.lower(ECALL, 1)
    d.lower(ECALL, 1)
    d.lower(BGEU, 2)
    d.lower(BGEU, 3)
    d.lower(JAL, 3)
    d.lower(JAL, 4)
    d.fresh()
    for room in range(RECORDS + 1):
        d.lower(STORE if room % 2 else JAL, room)
        d.lower(BEQ, room)
    d.use(3)
    d.lower(BGEU, RECORDS, flag=TOP)
    d.lower(LUI, RECORDS, flag=TOP)


def commands():
    d = Driver()
    for cases in every_room, large_counts, refused_for_others, chains:
        cases(d)
    return d.made


if __name__ == "__main__":
    sys.exit(lowering_cases.main(sys.argv[1:], "entry_cases", commands, __doc__))
