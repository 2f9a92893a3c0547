#!/usr/bin/env python3
"""Starts for the start's check, with what each is refused with.

    tools/start_cases.py stdin    crates/start_cases/stdin: a command to a line
    tools/start_cases.py stdout   crates/start_cases/stdout: the refusal of each start that is checked, 0 for none

The answers are read off document 01 by `refusal` below, which shares nothing with the project's definitions and code but the layout of the
records, the numbers of the kinds and the order of the roles. Where a start is made for one rule, its number is written beside it as well,
and both must agree. One start is the one that crates/lowering_cases/stdin hands over, in which no two roles are one line. Some lines have
addresses: a start keeps them as they are, and no check looks at them (document 02, R-3).
"""
import itertools
import pathlib
import random
import sys

HANDED = pathlib.Path(__file__).resolve().parent.parent / "crates" / "lowering_cases" / "stdin"

TOP = 2**64 - 1
NAMES = "Const Read Write Add Sub Mul Divu Div Rem Sll Srl Ult Ext Ite Eq And Or Not State Next Input Bad".split()
KIND = {name: n for n, name in enumerate(NAMES, 1)}
ARITHMETIC = NAMES[3:12]
BIT, WORD, MEMORY = 1, 2, 3
WIDTH = {BIT: 1, WORD: 64, **{10 + n: 8 * n for n in range(1, 8)}}
SORTS = (*WIDTH, MEMORY)
SORTED = {"Const", "Ext", "Ite", "And", "Or", "Not", "State", "Next", "Input"}  # the kinds that have a sort in the Rust's `Node`
OPERANDS = {"Read": 2, "Write": 3, "Ext": 1, "Ite": 3, "Eq": 2, "And": 2, "Or": 2, "Not": 1, "Next": 2, "Bad": 1, **dict.fromkeys(ARITHMETIC, 2)}
ROLE_SORTS = (
    [BIT] * 2 + [WORD] * 2  # zero and one
    + [MEMORY] * 2 + [WORD]  # memory, counter, counter maximum
    + [WORD] * (32 + 31)  # register nodes and flows
    + [MEMORY] * 2 + [WORD]  # their flows
    + [WORD] * 3  # division, remainder, access
    + [BIT] * 3  # two overflows, ecall
)
assert len(ROLE_SORTS) == 79

# The words of a record. What the program has: words of the list, and the most that it lends of the rest.
RECORD = 5
WORDS, AREA, NUMBERS = 100 * RECORD, 64, 64

# The mark of an address, which any number but 0 is, and the address; where the mark is 0 there is none.
NO_ADDRESS = (0, 0)
ADDRESSES = (1, 0), (1, TOP), (0, TOP), (2, 65536), (16, 2**63), (TOP, 1)
ADDRESS_OR_NONE = NO_ADDRESS, *ADDRESSES
NO_RECORD = (0,) * 12


class Line:
    """A record: identifier, kind, sort, operands, constant, name, and the mark of an address and the address, which nothing here looks at."""

    def __init__(self, kind, nid, sort=0, operands=(), imm=0, name=(0, 0, 0), address=NO_ADDRESS):
        number = KIND[kind] if isinstance(kind, str) else kind
        ops = (*operands, 0, 0, 0)[:3]
        self.given = (nid, number, sort, *ops, imm, *name, *address)
        # the record has four bytes for the identifier and one each for the kind, the sort and the area of a name: what does not fit is stored
        # as the largest that does. The init of a State is marked by 1
        area, *part = name
        self.words = (min(nid, 2**32 - 1), min(number, 255), min(sort, 255), *ops, min(imm, 1) if number == KIND["State"] else imm, min(area, 255), *part)

    @property
    def nid(self):
        return self.words[0]

    @property
    def name(self):
        """Its kind's name, or None where kind or sort is unknown."""
        _, kind, sort, *_ = self.words
        known = NAMES[kind - 1] if 1 <= kind <= len(NAMES) else None
        return None if known in SORTED and sort not in SORTS else known

    @property
    def sort(self):
        return self.words[2]

    @property
    def imm(self):
        return self.words[6]

    @property
    def label(self):
        return self.words[7:]

    @property
    def has_init(self):
        return self.name == "State" and self.imm != 0

    @property
    def operands(self):
        return self.words[3 : 3 + (1 if self.has_init else OPERANDS.get(self.name, 0))]

    @property
    def value(self):
        """The sort of its value, or None for a line that is no value."""
        if self.name in ("Next", "Bad", None):
            return None
        if self.name in ("Ult", "Eq"):
            return BIT
        if self.name == "Write":
            return MEMORY
        return WORD if self.name in ("Read", "Ext", *ARITHMETIC) else self.sort

    def at(self, nid):
        """The same with another identifier."""
        return Line.of(nid, *self.given[1:])

    def addressed(self, address):
        """The same with another mark and address."""
        return Line.of(*self.given[:-2], *address)

    @staticmethod
    def of(nid, kind, sort, op1, op2, op3, imm, area, at, length, mark, address):
        """The line of a record's numbers."""
        return Line(kind, nid, sort, (op1, op2, op3), imm, (area, at, length), (mark, address))


class Start:
    """Records and roles, the next identifier, the counts, and how much of each list and area is lent."""

    def __init__(self, records, roles, next_nid=None, **given):
        self.stored = list(records)
        self.lines = len(records)
        self.roles = list(roles)
        self.next = records[-1].nid + 1 + records[-1].has_init if next_nid is None else next_nid
        self.names = self.edges = self.dispatches = self.bads = 0
        self.words, self.host, self.area = WORDS, 16, 16
        self.edge_words, self.dispatch_words, self.bad_words = 8, 4, 2
        for field, value in given.items():
            assert hasattr(self, field)
            setattr(self, field, value)

    def line(self, place):
        return self.stored[place] if place < len(self.stored) else Line(0, 0)


#
# Document 01
#


def counts_out(s):
    return (
        s.lines > 1048576
        or s.next > 2**31
        or s.lines > s.words // RECORD
        or s.names > s.area
        or s.edges > s.edge_words // 4
        or s.dispatches > s.dispatch_words // 2
        or s.bads > s.bad_words
    )


def identifiers_out(s):
    taken = []
    for place in range(s.lines):
        line = s.line(place)
        taken += [line.nid, line.nid + 1] if line.has_init else [line.nid]
    rise = all(a < b for a, b in zip(taken, taken[1:]))
    reserved = {0, 1, 2, 3, *range(11, 18)}
    return not rise or any(t in reserved for t in taken) or not all(s.next > t for t in [17, *taken])


def unformed(s, place):
    line = s.line(place)
    if line.name is None or line.name == "Ext" and line.sort == MEMORY:
        return True
    if any(o >= place or s.line(o).value is None for o in line.operands):
        return True
    area, at, length = line.label
    if line.name not in ("State", "Input", "Bad") or area == 0:
        return False
    return at + length > {1: s.host, 2: s.area}.get(area, -1)


def sort_broken(s, place):
    line = s.line(place)
    name, sort = line.name, line.sort
    has = [s.line(o).value for o in line.operands]
    if name == "Const":
        return sort == MEMORY or line.imm >= 2 ** WIDTH[sort]
    if name == "Read":
        return has != [MEMORY, WORD]
    if name == "Write":
        return has != [MEMORY, WORD, WORD]
    if name == "Ext":
        return sort in (WORD, MEMORY) or has != [sort]
    if name == "Ite":
        return has != [BIT, sort, sort]
    if name == "Eq":
        return has not in ([BIT, BIT], [WORD, WORD])
    if name in ("And", "Or", "Not"):
        return sort not in (BIT, WORD) or any(h != sort for h in has)
    if name == "State":
        return line.has_init and has[0] != sort and not (sort == MEMORY and has[0] == WORD)
    if name == "Next":
        return s.line(line.operands[0]).name != "State" or has != [sort, sort]
    if name == "Bad":
        return has != [BIT]
    return name != "Input" and has != [WORD, WORD]


def role_out(s, role):
    place = s.roles[role]
    return place >= s.lines or s.line(place).value != ROLE_SORTS[role]


def refusal(s):
    if counts_out(s):
        return 9
    if identifiers_out(s):
        return 10
    if any(unformed(s, place) for place in range(s.lines)):
        return 11
    if any(sort_broken(s, place) for place in range(s.lines)):
        return 12
    return 13 if any(role_out(s, role) for role in range(79)) else 0


#
# The starts
#


def roles_at(bit, word, memory):
    return [{BIT: bit, WORD: word, MEMORY: memory}[sort] for sort in ROLE_SORTS]


def listing(**given):
    """The listing program's start: document 01, "Bench cases"."""
    lines = [Line("Const", 20 + n, BIT, imm=n) for n in (0, 1)] + [Line("Const", 22 + n, WORD, imm=n) for n in (0, 1)]
    lines += [Line("State", 24 + n, WORD, name=(1, n % 15, 1)) for n in range(31)]
    lines += [Line("State", 55 + n, sort, name=(1, n, 6)) for n, sort in enumerate((MEMORY, MEMORY, WORD, BIT))]
    registers = list(range(4, 35))
    roles = [0, 1, 2, 3, 35, 36, 37, 2, *registers, *registers, 35, 36, 37, 3, 3, 2, 0, 0, 0]
    return Start(lines, roles, **given)


def handed(**given):
    """The start that the program of lowerings is handed: its lines (5), counts (3) and roles (4), up to the first call (1)."""
    lines, roles, counts = [], [None] * 79, None
    for command in HANDED.read_text().splitlines():
        which, *numbers = map(int, command.split())
        if which == 5:
            place, *record = numbers
            assert place == len(lines)
            lines.append(Line.of(*record))
        elif which == 3 and lines:
            counts = numbers
        elif which == 4 and lines:
            roles[numbers[0]] = numbers[1]
        elif which == 1 and lines:
            break
    assert None not in roles and counts[0] == len(lines)
    return Start(lines, roles, **{"next_nid": counts[1], **given})


def small(*more, nids=(20, 21, 22), **given):
    """A Bit, a Word and a Memory, and lines after them."""
    a, b, c = nids
    return Start([Line("Const", a, BIT), Line("Const", b, WORD), Line("State", c, MEMORY), *more], roles_at(0, 1, 2), **given)


def one_more(kind, *args, **kwargs):
    return small(Line(kind, 23, *args, **kwargs))


# Every sort of value that the rule tells apart, at place PLACE: once a State, once not.
STATES = {BIT: 3, WORD: 4, MEMORY: 2, 11: 5}
OTHERS = {BIT: 0, WORD: 1, MEMORY: 7, 11: 6}
NO_VALUES = {"Next": 8, "Bad": 9}


def with_sorts(*more, **given):
    first = [
        Line("State", 23, BIT), Line("State", 24, WORD), Line("State", 25, 11), Line("Input", 26, 11),
        Line("Write", 27, operands=(2, 1, 1)), Line("Next", 28, WORD, (4, 1)), Line("Bad", 29, operands=(0,)),
    ]
    return small(*first, *more, **given)


def accepted():
    yield listing()
    yield small()
    yield small(next_nid=2**31)
    yield with_sorts()
    yield small(nids=(4, 5, 6), next_nid=18)
    yield small(nids=(8, 9, 10), next_nid=18)
    yield small(nids=(10, 18, 19))
    yield small(nids=(4, 10, 2**31 - 1))
    yield handed()
    yield handed(words=82 * RECORD)
    yield listing(words=39 * RECORD)
    yield listing(words=40 * RECORD - 1)
    yield listing(area=0, edge_words=0, dispatch_words=0, bad_words=0)
    yield small(names=16, edges=2, dispatches=2, bads=2)
    yield small(edge_words=7, edges=1)
    yield small(dispatch_words=3, dispatches=1)
    yield small(Line(0, 0), lines=3, next_nid=23)  # past the count
    for place, length in ((0, 16), (16, 0), (15, 1), (1, 15)):
        for area in (1, 2):
            yield one_more("State", WORD, name=(area, place, length))
            yield one_more("Input", WORD, name=(area, place, length))
            yield one_more("Bad", operands=(0,), name=(area, place, length))
    yield one_more("State", WORD, name=(0, TOP, TOP))
    yield one_more("Bad", operands=(0,), name=(0, 17, 1))
    for kind in ("Add", "Eq"):  # fields that a kind does not use
        yield one_more(kind, 99, (1, 1, TOP), imm=TOP, name=(TOP, TOP, TOP))
    yield one_more("Const", WORD, (TOP, TOP, TOP), imm=TOP, name=(3, 0, 0))
    yield one_more("State", WORD, (TOP, TOP, TOP))
    yield one_more("State", WORD, (1, TOP, TOP), imm=TOP, name=(1, 0, 1))
    yield small(Line("State", 23, WORD, (1,), 1), Line("Const", 25, BIT))
    yield small(Line("State", 23, WORD, (1,), 1), next_nid=25)
    yield small(Line("State", 23, WORD, (1,)), next_nid=24)
    yield small(Line("State", 23, WORD, (1,)), Line("Const", 24, BIT))
    for mark in (2, 255, 256, 2**32, TOP):  # any but 0 is an init
        yield small(Line("State", 23, WORD, (1,), mark), Line("Const", 25, BIT))
    for sort, width in WIDTH.items():
        yield one_more("Const", sort, imm=2**width - 1)


def refused_9():
    yield small(next_nid=2**31 + 1)
    yield small(next_nid=TOP)
    yield small(lines=1048577)
    yield small(lines=TOP)
    yield small(lines=WORDS // RECORD + 1)
    yield handed(words=82 * RECORD - 1)
    yield listing(words=39 * RECORD - 1)
    yield listing(words=0)
    for count in (17, TOP):
        yield small(names=count)
    for field in ("edges", "dispatches", "bads"):
        for count in (3, TOP):
            yield small(**{field: count})
    yield small(edge_words=7, edges=2)
    yield small(dispatch_words=3, dispatches=2)
    yield small(bad_words=0, bads=1)
    yield small(area=0, names=1)


def refused_10():
    for nid in (0, 1, 2, 3, *range(11, 18)):
        yield small(nids=(nid, 21, 22))
    yield listing(stored=[Line("Const", 11, BIT), *listing().stored[1:]])
    yield small(next_nid=22)
    yield small(next_nid=0)
    yield small(nids=(8, 9, 10), next_nid=17)
    yield small(nids=(8, 9, 10), next_nid=11)
    yield small(lines=0, next_nid=17)
    yield small(nids=(21, 21, 22))
    yield small(nids=(22, 21, 23))
    yield small(nids=(20, 22, 22))
    yield small(nids=(20, 21, TOP), next_nid=23)
    yield Start([Line("Const", 4, WORD), Line("State", 10, WORD, (0,), 1)], roles_at(0, 0, 0), 18)  # its second is 11
    yield small(Line("State", 23, WORD, (1,), 1), next_nid=24)
    yield small(Line("State", 23, WORD, (1,), 1), Line("Const", 24, BIT))
    yield small(Line("State", TOP, WORD, (1,), 1), next_nid=2**31)
    yield small(Line(0, 22), next_nid=23)
    yield handed(next_nid=handed().next - 1)
    for place, line in enumerate(handed().stored):  # the identifier after a State's init is taken again
        if line.has_init:
            s = handed()
            s.stored[place + 1] = s.stored[place + 1].at(line.nid + 1)
            yield s
    for mark in (2, 255, 256, 2**32, TOP):
        yield small(Line("State", 23, WORD, (1,), mark), Line("Const", 24, BIT))
    for nid in (2**32 - 1, 2**32, 2**32 + 23, TOP):
        yield small(Line("Const", nid, BIT), next_nid=24)
        yield small(Line("Const", nid, BIT), next_nid=2**31)
    yield small(Line("State", 23, 4, (1,), 1), Line(23, 23), next_nid=24)


def refused_11():
    for kind in (0, 23, TOP):
        yield one_more(kind, WORD)
        yield small(Line(kind, 23, WORD, (1, 1), 1), Line("Const", 24, BIT))  # takes one identifier
    for kind in sorted(SORTED):
        for sort in (0, 4, 10, 18, TOP):
            yield one_more(kind, sort, (1, 1, 1))
    yield small(Line("State", 23, 4, (1,), 1), Line("Const", 24, BIT))  # of an unknown sort, it takes one identifier
    yield one_more("Ext", MEMORY, (2,))
    for over in (256, 512, 2**32, TOP - 255):  # what does not fit its byte is no other kind, sort or area
        for kind in KIND.values():
            yield one_more(kind + over, WORD, (1, 1, 1))
        for sort in (BIT, WORD, MEMORY):
            yield one_more("State", sort + over)
        for area in (0, 1, 2):
            yield one_more("State", WORD, name=(area + over, 0, 0))
    for kind in [*OPERANDS, "State"]:
        count = OPERANDS.get(kind, 1)
        for n in range(count):
            for place in (*NO_VALUES.values(), 10, 11, 12, TOP):  # a Next, a Bad, itself, the next line, outside
                operands = [4] * count
                operands[n] = place
                yield with_sorts(Line(kind, 30, WORD, operands, imm=1), Line("Const", 32, WORD))
    for kind, fields in (("State", (WORD,)), ("State", (WORD, (1,), 1)), ("Input", (WORD,)), ("Bad", (0, (0,)))):
        for name in ((1, 0, 17), (1, 17, 0), (1, 16, 1), (1, 1, TOP), (1, TOP, 1), (2, 0, 17), (2, TOP, TOP), (3, 0, 0), (TOP, 0, 0)):
            yield one_more(kind, *fields, name=name)
    yield small(Line("Input", 23, WORD, name=(1, 0, 9)), host=8)
    yield small(Line("Input", 23, WORD, name=(2, 0, 9)), area=8)


def refused_12():
    for sort, width in WIDTH.items():
        if width < 64:
            yield one_more("Const", sort, imm=2**width)
            yield one_more("Const", sort, imm=TOP)
    yield one_more("Const", MEMORY)
    yield one_more("Read", operands=(1, 1))
    yield one_more("Write", operands=(2, 1, 0))
    yield one_more("Ult", operands=(1, 0))
    yield one_more("Add", operands=(0, 1))
    yield one_more("Ext", WORD, (1,))
    yield one_more("Ext", 11, (0,))
    yield one_more("Ite", WORD, (1, 1, 1))
    yield one_more("Ite", BIT, (0, 0, 1))
    yield one_more("Eq", operands=(0, 1))
    yield one_more("Eq", operands=(2, 2))
    yield one_more("And", WORD, (0, 0))
    yield one_more("Or", BIT, (0, 1))
    yield one_more("Not", MEMORY, (2,))
    yield one_more("State", WORD, (0,), imm=1)
    yield one_more("State", MEMORY, (0,), imm=1)
    yield one_more("State", WORD, (0,), imm=256)
    yield one_more("State", WORD, (0,), imm=TOP)
    yield one_more("Next", WORD, (1, 1))
    yield one_more("Next", MEMORY, (2, 1))
    yield one_more("Bad", operands=(1,))


def refused_13():
    for role in range(79):
        for place in (10, TOP, *NO_VALUES.values(), *OTHERS.values()):
            s = with_sorts()
            if place >= s.lines or s.line(place).value != ROLE_SORTS[role]:
                s.roles[role] = place
                yield s
    yield small(lines=0, next_nid=18)


def with_addresses(number, *starts):
    """Each of these starts with addresses on its lines, and the number that all of them have."""
    for s in starts:
        s.stored = [line.addressed(ADDRESSES[place % len(ADDRESSES)]) for place, line in enumerate(s.stored)]
        yield number, s


def addressed():
    """Starts of every number whose lines have addresses, and States with the mark of an address, which is none of an init: such a State has
    an operand and takes two identifiers only where it has an init."""
    yield from with_addresses(0, with_sorts(), small())
    yield from with_addresses(9, small(bads=3))
    yield from with_addresses(10, small(nids=(21, 21, 22)), small(next_nid=22))
    yield from with_addresses(11, one_more(0), one_more("State", 4), one_more("Not", WORD, (3,)))
    yield from with_addresses(12, one_more("Const", BIT, imm=2), one_more("Bad", operands=(1,)))
    yield from with_addresses(13, Start(small().stored, [*roles_at(0, 1, 2)[:78], 1]))
    for address in ADDRESSES:
        plain, init = Line("State", 23, WORD, (TOP,), 0, address=address), Line("State", 23, WORD, (1,), 1, address=address)
        yield 0, small(plain, Line("Const", 24, BIT))
        yield 0, small(plain, next_nid=24)
        yield 0, small(init, Line("Const", 25, BIT))
        yield 10, small(init, Line("Const", 24, BIT))
        yield 10, small(init, next_nid=24)
        yield 11, small(Line("State", 23, WORD, (TOP,), 1, address=address))
    yield from with_addresses(0, listing(words=39 * RECORD))
    yield from with_addresses(9, listing(words=39 * RECORD - 1))


BREAKS = {
    9: lambda s: setattr(s, "bads", 3),
    10: lambda s: setattr(s, "next", 17),
    11: lambda s: s.stored.__setitem__(3, Line("Bad", 23, operands=(3,))),
    12: lambda s: s.stored.__setitem__(4, Line("Const", 24, BIT, imm=2)),
    13: lambda s: s.roles.__setitem__(78, 1),
}


def several_broken():
    """The earlier check's number wins, wherever in the list the lines stand: a later rule's line comes first as well."""
    for count in range(1, 6):
        for numbers in itertools.combinations(BREAKS, count):
            s = small(Line("Const", 23, BIT), Line("Const", 24, BIT))
            for number in numbers:
                BREAKS[number](s)
            yield numbers[0], s
    yield 11, small(Line("Const", 23, BIT, imm=2), Line(0, 24))
    yield 10, small(Line("Const", 23, BIT, imm=2), Line(0, 23), next_nid=24)
    yield 11, small(Line("Bad", 23, operands=(1,)), Line("Input", 24, WORD, name=(3, 0, 0)))


def every_sort():
    """Every kind with operands and a sort of its own from the four that the rule tells apart, and Ext and Const from all ten."""
    for kind in [*OPERANDS, "State"]:
        count = OPERANDS.get(kind, 1)
        for sort in STATES if kind in SORTED else (0,):
            for sorts in itertools.product(STATES, repeat=count):
                yield with_sorts(Line(kind, 30, sort, [STATES[x] for x in sorts], imm=1))
                if kind == "Next":
                    yield with_sorts(Line(kind, 30, sort, [OTHERS[x] for x in sorts]))
    for sort in SORTS:
        yield small(Line("Input", 23, sort), Line("Ext", 24, sort, (3,)))
        for imm in (0, 1, 2, 255, 256, 2**56 - 1, 2**56):
            yield one_more("Const", sort, imm=imm)


ALLOWED = {"Const": (BIT, WORD, 11), "Ext": (BIT, 11), **dict.fromkeys(("And", "Or", "Not"), (BIT, WORD))}


def wanted(kind, sort):
    """Sorts of operands that fit a line."""
    if kind in ARITHMETIC or kind == "Eq":
        return [WORD, WORD]
    fixed = {"Read": [MEMORY, WORD], "Write": [MEMORY, WORD, WORD], "Ite": [BIT, sort, sort], "Bad": [BIT]}
    return fixed.get(kind, [sort] * OPERANDS.get(kind, 1))


def drawn(seed, count):
    """Starts whose lines, identifiers and roles are drawn, most of each so that they fit."""
    draw = random.Random(seed)
    seldom = lambda: draw.random() < 0.03
    for _ in range(count):
        s = with_sorts()
        nid = 30
        for place in range(10, 10 + draw.randrange(1, 8)):
            kind = draw.choice(NAMES)
            sort = draw.choice(ALLOWED.get(kind, (BIT, WORD, 11, MEMORY)))
            fit = [[p for p in range(place) if s.line(p).value == x] for x in wanted(kind, sort)]
            if kind == "Next":
                fit[0] = [p for p in fit[0] if s.line(p).name == "State"]
            operands = [draw.randrange(place + 2) if seldom() else draw.choice(places) for places in fit]
            init = kind == "State" and draw.random() < 0.5
            name = (draw.choice((0, 1, 2)), draw.randrange(12), draw.randrange(7) if seldom() else draw.randrange(5))
            line = Line(kind, nid, 4 if seldom() else sort, operands, int(init) if kind == "State" else draw.randrange(2), name)
            s.stored.append(line.addressed(ADDRESS_OR_NONE[nid % len(ADDRESS_OR_NONE)]))
            nid += 1 if seldom() else 2 if init else draw.choice((1, 1, 3))
        s.lines = len(s.stored)
        s.next = nid - seldom()
        if seldom():
            s.roles[draw.randrange(79)] = draw.randrange(s.lines)
        if seldom():
            s.words = RECORD * draw.randrange(8, 18)
        yield s


def cases():
    for number, starts in ((0, accepted), (9, refused_9), (10, refused_10), (11, refused_11), (12, refused_12), (13, refused_13)):
        for s in starts():
            assert refusal(s) == number, (number, refusal(s), [line.words for line in s.stored], vars(s))
            yield s
    for number, s in several_broken():
        assert refusal(s) == number
        yield s
    yield from every_sort()
    yield from drawn(1, 300)
    for number, s in addressed():
        assert refusal(s) == number, (number, refusal(s), [line.given for line in s.stored])
        yield s


#
# The commands
#


def commands():
    """Pairs of a command and its answer, None where it has none. Only what differs from the start before is set."""
    records, counts, roles = {}, None, [0] * 79
    for s in cases():
        for place, line in enumerate(s.stored):
            if records.get(place, NO_RECORD) != line.given:
                records[place] = line.given
                yield (1, place, *line.given), None
        # What stands after a start's records is left by those before it: `Start.line` reads 0 there, so no count may reach it.
        for place in range(len(s.stored), min(s.lines, WORDS // RECORD)):
            if records.get(place, NO_RECORD) != NO_RECORD:
                records[place] = NO_RECORD
                yield (1, place, *NO_RECORD), None
        wanted = (s.lines, s.next, s.names, s.edges, s.dispatches, s.bads)
        if counts != wanted:
            counts = wanted
            yield (2, *wanted), None
        for role, place in enumerate(s.roles):
            if roles[role] != place:
                roles[role] = place
                yield (3, role, place), None
        yield (4, s.words, s.host, s.area, s.edge_words, s.dispatch_words, s.bad_words), refusal(s)


def main():
    made = list(commands())
    if sys.argv[1:] == ["stdin"]:
        for command, _ in made:
            print(*command)
    elif sys.argv[1:] == ["stdout"]:
        for _, answer in made:
            if answer is not None:
                print(answer)
    else:
        sys.exit(__doc__)


if __name__ == "__main__":
    main()
