#!/usr/bin/env python3
"""Questions for the bench that runs the lines: lists, values and nodes that are asked for, with the value and the visits of each.

    tools/evaluation_cases.py stdin      crates/evaluation_cases/stdin: a command to a line
    tools/evaluation_cases.py stdout     crates/evaluation_cases/stdout: the value and the visits of each node that is asked for, or the refusal
    tools/evaluation_cases.py write      writes both into the crate's folder and prints counts
    tools/evaluation_cases.py check      makes both anew and compares them with the stored ones: exit status 1 where they differ
    tools/evaluation_cases.py variants   how many of the questions each wrong reading (evaluation_variants.py) answers in another way: exit status
                                         1 where one is not found
    tools/evaluation_cases.py answer [VARIANT] < commands   answers commands as the program must; VARIANT is the name of a wrong reading

    --folder FOLDER     instead of crates/evaluation_cases, for `write` and `check`
    --listing PROGRAM   instead of crates/listing/out/listing, for all but `answer`

The answers are evaluator.py's, a reading of R-2 of its own. Beside most cases stands what it must be, worked by hand. The operators are compared
with those of btor2_values.py, and rd's flow, the conditions of a branch and the cells of a store, over the lines that the listing prints for all
fifty kinds, with riscv_manual.py. Nothing here is shared with the project's definitions and code; the layout of a record and the numbers of kinds
and sorts are those of host/lanthanumbat.h.
"""
import argparse
import collections
import contextlib
import itertools
import pathlib
import random
import sys

import btor2_values
import command
import evaluation_variants
import values as listing_values
from btor2_values import COUNTER, COUNTER_MAX, FLAG, START_SORTS
from evaluator import BIT, FREE, KINDS, MEMORY, MEMORY_RECORD, MOST_VISITS, NO_VALUE, ON_WORDS, OWN_SORT, RECORD, SORTS, VALUE_RECORD, WIDTH, WORD
from evaluator import evaluate, line_of
from lowering_cases import SORT_OF_WIDTH
from refusal import BRANCHES, LOADS, STORES
from refusal import KINDS as INSTRUCTIONS
from riscv_manual import MANUAL, TAKEN, accessed, loaded

REPOSITORY = pathlib.Path(__file__).resolve().parent.parent
LISTING = command.program("listing")
ALL = 2**64
TOP = ALL - 1
BYTES = tuple(range(11, 18))  # the sorts of inputs of 1 to 7 bytes

#
# The program
#

LINES, RUN, VALUE, CELL, ASK, KEEP = range(1, 7)  # the commands
LIST, VALUES, CELLS = range(3)  # the areas
NO_ADDRESS = 0  # the last word of each line; a line whose mark says that it has an address was lowered for 0
WORDS_OF = (20_500, 256, 384)


class Desk:
    """The storage of the program crates/evaluation_cases, and what its commands do to it: crates/evaluation_cases/src/main.rt says what they are.
    What a question comes to is not decided here but by the function that the desk is made with."""

    def __init__(self, decide=evaluate):
        self.decide = decide
        self.areas = [[0] * words for words in WORDS_OF]
        self.used = [0, 0, 0]

    def do(self, command):
        """The lines of text that the program writes for a command."""
        which, *numbers = command
        if which in (LINES, RUN):
            self.append_lines(which == RUN, *numbers)
        elif which in (VALUE, CELL):
            self.append(VALUES if which == VALUE else CELLS, numbers)
        elif which == ASK:
            return [text(self.decide(*self.question(*numbers)))]
        elif which == KEEP:
            self.used = list(map(min, self.used, numbers))
        else:
            raise ValueError(f"no command: {command}")
        return []

    def append_lines(self, from_its_place, count, head, *words):
        for _ in range(min(count, WORDS_OF[LIST] // RECORD)):
            place = self.used[LIST] // RECORD if from_its_place else 0
            self.append(LIST, [head, *((word + place) % ALL for word in words), NO_ADDRESS])

    def append(self, area, record):
        """What doesn't fit is dropped; what stood after the words in use before stays."""
        at = self.used[area]
        if at + len(record) <= WORDS_OF[area]:
            self.areas[area][at : at + len(record)] = record
            self.used[area] += len(record)

    def question(self, words, values, memory, lines, place):
        """What `evaluate` is given. More words than an area has are the whole of it."""
        return self.areas[LIST][:words], lines, self.areas[VALUES][:values], self.areas[CELLS][:memory], place


def text(answer):
    kind, *numbers = answer
    return " ".join(map(str, (["refused"] if kind == "refused" else []) + numbers))


def head(kind, sort=0, init=0, area=0, nid=0, mark=0):
    """The first word; `init` and `mark`, which is that of an address, have half a byte each."""
    number = KINDS.index(kind) + 1 if isinstance(kind, str) else kind
    assert init < 16 and mark < 16
    return nid << 32 | mark << 28 | init << 24 | area << 16 | sort << 8 | number


def fields_of(kind, sort=0, *words, **marks):
    """The words of a line but the last, which the program puts."""
    return head(kind, sort, **marks), *(*words, 0, 0, 0)[:3]


class Cases:
    """Commands with their answers. `tried` sees every question with its group and its answer; `program` is the listing."""

    def __init__(self, program, tried=lambda group, question, right: None):
        self.desk, self.tried, self.program = Desk(), tried, program
        self.made, self.counts = [], collections.Counter()

    def do(self, *command):
        answer = self.desk.do(command)
        self.made.append((command, answer))
        return answer

    def group(self, make):
        """One group of cases, from an empty list and without records; what stood there before is still stored after the end."""
        if any(self.desk.used):
            self.do(KEEP, 0, 0, 0)
        self.name = make.__name__
        make(self)

    @property
    def lines(self):
        return self.desk.used[LIST] // RECORD

    def add(self, kind, *fields, count=1, **marks):
        """Appends equal lines and gives the place of the last. The sort is a field of its own for the kinds whose sort is read, and is 0 for the
        others unless `sort` says something else."""
        sort, *words = fields if kind in OWN_SORT else (marks.pop("sort", 0), *fields)
        self.do(LINES, count, *fields_of(kind, sort, *words, **marks))
        return self.lines - 1

    def run(self, count, kind, *fields):
        """Appends lines whose words are counted from their own places, and gives the place of the last."""
        sort, *words = fields if kind in OWN_SORT else (0, *fields)
        first, *others = fields_of(kind, sort, *words)
        self.do(RUN, count, first, *(word % ALL for word in others))
        return self.lines - 1

    def on(self, sort, kind, *operands):
        """Appends an operator on operands of this sort."""
        return self.add(kind, *([sort] if kind in OWN_SORT else []), *operands)

    def run_on(self, sort, count, kind, *operands):
        return self.run(count, kind, *([sort] if kind in OWN_SORT else []), *operands)

    def words(self, *numbers):
        """Constants, one after the other, and the place of the first."""
        for number in numbers:
            self.add("const", WORD, number % ALL)
        return self.lines - len(numbers)

    def give(self, place, value):
        self.do(VALUE, place, value % ALL)

    def give_cell(self, place, address, word):
        self.do(CELL, place, address % ALL, word % ALL)

    @contextlib.contextmanager
    def further(self):
        """What is appended inside is dropped at the end."""
        used = list(self.desk.used)
        yield
        if self.desk.used != used:
            self.do(KEEP, *used)

    def ask(self, place, lines=None, words=None, values=None, memory=None):
        """Lends all that is in use, and nothing else, where nothing else is said."""
        used = self.desk.used
        given = (words, values, memory)
        lent = [in_use if number is None else number for number, in_use in zip(given, used)]
        numbers = (*lent, self.lines if lines is None else lines, place)
        question = self.desk.question(*numbers)
        answer = evaluate(*question)
        self.made.append(((ASK, *numbers), [text(answer)]))
        self.counts[self.name] += 1
        self.tried(self.name, question, answer)
        return answer

    def value(self, place, value, visits=None, **lent):
        """A question whose value, and visits where they are given, are written beside it."""
        kind, *found = self.ask(place, **lent)
        assert kind == "value" and found[0] == value % ALL and visits in (None, found[1]), (place, kind, found, value, visits)

    def has_value(self, place):
        assert self.ask(place)[0] == "value"

    def refused(self, number, place, **lent):
        answer = self.ask(place, **lent)
        assert answer == ("refused", number), (place, answer, number)


#
# Values of the kinds
#


def each_kind(c):
    """A line of every kind, worked by hand: its value and its visits."""
    no, yes = c.add("const", BIT, 0), c.add("const", BIT, 1)
    seven = c.words(7, 3)
    three = seven + 1
    x, byte, memory = c.add("state", WORD), c.add("input", 11), c.add("state", MEMORY)
    c.give(x, -6)
    c.give(byte, 0x1FE)
    c.give_cell(memory, 7, 21)
    for place, value in ((no, 0), (yes, 1), (seven, 7), (x, -6)):
        c.value(place, value, 1)
    for kind, value in dict(add=10, sub=4, mul=21, udiv=2, sdiv=2, urem=1, sll=56, srl=0, ult=0, eq=0).items():
        c.value(c.add(kind, seven, three), value, 3)
    c.value(c.add("and", WORD, seven, three), 3, 3)
    c.value(c.add("or", WORD, seven, three), 7, 3)
    c.value(c.add("sdiv", x, three), -2, 3)
    c.value(c.add("not", WORD, seven), -8, 2)
    c.value(c.add("not", BIT, no), 1, 2)
    c.value(c.add("uext", 11, byte), 0xFE, 2)
    c.value(c.add("ite", WORD, yes, seven, x), 7, 3)
    c.value(c.add("ite", WORD, no, seven, x), -6, 3)
    written = c.add("write", memory, three, x)
    c.value(c.add("read", memory, seven), 21, 3)
    c.value(c.add("read", written, three), -6, 5)  # the read, 3, the write, its address, its value
    c.value(c.add("read", written, seven), 21, 5)  # the read, 7, the write, its address, the memory
    for place in (c.add("next", WORD, x, seven), c.add("bad", yes)):
        c.refused(19, place)


BOUNDARIES = [0, 1, 2, 31, 32, 63, 64, 65, 2**31 - 1, 2**31, 2**31 + 1, 2**32 - 1, 2**32, 2**32 + 1, 2**63 - 1, 2**63, 2**63 + 1, TOP]
AT = {value: n for n, value in enumerate(BOUNDARIES)}
SIGNS = [0, 1, 2**32, 2**63, TOP]
ENDS = [0, 1, 2, 2**63 - 1, 2**63, TOP]
ORDERED = [0, 2**31, 2**32, 2**63 - 1, 2**63, TOP]
SHIFTED = [1, 2**63, TOP], [0, 1, 31, 32, 63, 64, 65, 2**32, 2**63, TOP]
ASKED_PAIRS = {  # those that are asked for one by one
    **dict.fromkeys(("add", "sub", "mul", "and", "or"), (SIGNS, SIGNS)), **dict.fromkeys(("udiv", "sdiv", "urem"), (ENDS, ENDS)),
    **dict.fromkeys(("ult", "eq"), (ORDERED, ORDERED)), **dict.fromkeys(("sll", "srl"), SHIFTED),
}  # fmt: skip


def operators(c):
    """Every operator on two Words, on chosen pairs of boundaries one by one, and on all of them in one sum, each result times a number of its own."""
    count = len(BOUNDARIES)
    pairs = [(n, (n + shift) % count) for shift in range(count) for n in range(count)]
    c.words(*BOUNDARIES, *BOUNDARIES)
    for kind, (firsts, seconds) in ASKED_PAIRS.items():
        wanted = btor2_values.OPERATORS[kind]
        with c.further():
            for shift in range(count):  # the pairs at this distance, from the table of the boundaries, which stands there twice
                c.run_on(WORD, count, kind, -2 * count - count * shift, -2 * count - count * shift + shift)
            for first, second in itertools.product(firsts, seconds):
                c.value(2 * count + pairs.index((AT[first], AT[second])), wanted(first, second), 3)
            sum_of_results(c, kind in ("ult", "eq"), [wanted(BOUNDARIES[a], BOUNDARIES[b]) for a, b in pairs])


def sum_of_results(c, bits, results):
    """The last lines of the list have these results, Bits or Words. Each is taken times its number, a product takes two visits more than it, and the
    first addition has the last product for the sum before it."""
    count, visits = len(results), 5
    if bits:
        c.run(count, "uext", BIT, -count)
        visits += 1
    numbers = range(c.lines + 1000, c.lines + 1000 + count)
    c.run(count, "const", WORD, 1000)
    c.run(count, "mul", -2 * count, -count)
    total = c.run(count, "add", -count, -1)
    c.value(total, sum(map(int.__mul__, results, numbers)) + results[-1] * numbers[-1], count * (visits + 1) + visits)


def not_on_words(c):
    first = c.words(*BOUNDARIES)
    c.run(len(BOUNDARIES), "not", WORD, -len(BOUNDARIES))
    for n, value in enumerate(BOUNDARIES):
        c.value(first + len(BOUNDARIES) + n, TOP - value, 2)


def sdiv_by_signs(c):
    """7 and 2 in both signs: SMT-LIB rounds towards zero, and over zero gives -1 for what is not negative and 1 for what is."""
    first = c.words(7, -7, 2, -2, 0, -(2**63), -1)
    seven, minus_seven, two, minus_two, zero, least, minus_one = range(first, first + 7)
    for a, b, value in (
        (seven, two, 3), (minus_seven, two, -3), (seven, minus_two, -3), (minus_seven, minus_two, 3), (seven, zero, -1), (minus_seven, zero, 1),
        (zero, zero, -1), (least, minus_one, 2**63), (least, zero, 1), (minus_one, least, 0), (least, two, -(2**62)), (two, least, 0),
    ):  # fmt: skip
        c.value(c.add("sdiv", a, b), value, 3)


def bits(c):
    """And, Or, Eq, Not and Ite on Bits, all values; And, Or and Eq of the same node twice."""
    p, q, r = (c.add("state", BIT) for _ in range(3))
    lines = {
        c.add("and", BIT, p, q): lambda p, q, r: p & q, c.add("or", BIT, p, q): lambda p, q, r: p | q, c.add("eq", p, q): lambda p, q, r: int(p == q),
        c.add("not", BIT, p): lambda p, q, r: 1 - p, c.add("ite", BIT, r, p, q): lambda p, q, r: p if r else q, c.add("eq", p, p): lambda p, q, r: 1,
        c.add("and", BIT, q, p): lambda p, q, r: p & q, c.add("uext", BIT, p): lambda p, q, r: p, c.add("or", BIT, r, r): lambda p, q, r: r,
    }  # fmt: skip
    for given in itertools.product((0, 1), repeat=3):
        with c.further():
            for place, value in zip((p, q, r), given):
                c.give(place, value)
            for place, wanted in lines.items():
                c.value(place, wanted(*given))


def branches(c):
    """An ite of every sort takes its condition and the chosen branch, whatever stands in the other."""
    condition = c.add("input", BIT)
    for sort in (BIT, WORD, *BYTES):
        first, second = c.add("const", sort, 1), c.add("const", sort, 0)
        taken = c.add("ite", sort, condition, first, second)
        asked = taken if sort in (BIT, WORD) else c.add("uext", sort, taken)
        for bit in (0, 1, 2, 3, TOP):  # reduced to its lowest bit
            with c.further():
                c.give(condition, bit)
                c.value(asked, bit % 2, 3 if asked == taken else 4)
    nested = c.add("ite", BIT, condition, condition, condition)
    c.value(nested, 0, 3)
    c.give(condition, 1)
    c.value(nested, 1, 3)
    deep, shallow = c.add("not", WORD, c.add("not", WORD, c.words(5))), c.words(6)
    c.value(c.add("ite", WORD, condition, deep, shallow), 5, 5)
    c.value(c.add("ite", WORD, condition, shallow, deep), 6, 3)


def constants(c):
    """The largest and the smallest of every sort; of a byte sort under an Ext."""
    for sort, width in WIDTH.items():
        for number in (0, 1, 2 ** (width - 1), 2**width - 1):
            place = c.add("const", sort, number)
            if sort in (BIT, WORD):
                c.value(place, number, 1)
            if sort != WORD:
                c.value(c.add("uext", sort, place), number, 2)


def no_short_cuts(c):
    """Both operands are looked at, where one of them decides alone and where both are the same node."""
    zero = c.words(0, TOP, 5, 64)
    ones, five, long_shift = zero + 1, zero + 2, zero + 3
    deep = c.add("not", WORD, c.add("not", WORD, five))
    no, yes = c.add("const", BIT, 0), c.add("const", BIT, 1)
    deep_bit = c.add("eq", deep, deep)
    for kind, first, second, value in (
        ("and", zero, deep, 0), ("and", deep, zero, 0), ("or", ones, deep, TOP), ("or", deep, ones, TOP), ("mul", zero, deep, 0),
        ("mul", deep, zero, 0), ("udiv", zero, deep, 0), ("udiv", deep, zero, TOP), ("sdiv", deep, zero, TOP), ("sdiv", zero, deep, 0),
        ("urem", deep, zero, 5), ("urem", zero, deep, 0), ("sll", zero, deep, 0), ("sll", deep, long_shift, 0), ("srl", deep, ones, 0),
        ("srl", zero, deep, 0), ("ult", deep, zero, 0), ("ult", ones, deep, 0), ("add", zero, deep, 5), ("sub", deep, zero, 5), ("eq", deep, zero, 0),
    ):  # fmt: skip
        c.value(c.on(WORD, kind, first, second), value, 5)
    for kind, value in (("sub", 0), ("eq", 1), ("and", 5), ("or", 5), ("ult", 0), ("add", 10), ("udiv", 1), ("urem", 0), ("mul", 25)):
        c.value(c.on(WORD, kind, deep, deep), value, 7)
    for kind, bit, value in (("and", no, 0), ("or", yes, 1)):
        c.value(c.add(kind, BIT, bit, deep_bit), value, 9)
        c.value(c.add(kind, BIT, deep_bit, bit), value, 9)
    c.value(c.add("ite", WORD, deep_bit, five, five), 5, 9)
    c.value(c.add("not", BIT, c.add("not", BIT, deep_bit)), 1, 9)


#
# What is given
#


def reductions(c):
    """A value too wide is taken modulo 2 to its width, for states and inputs of every sort."""
    for kind in sorted(FREE):
        for sort, width in WIDTH.items():
            numbers = [2**width - 1, 2**width, 2**width + 1, 3 * 2**width - 2, TOP - 1] if width < 64 else [0, 1, 2**63, TOP]
            with c.further():
                first = c.add(kind, sort, count=len(numbers)) - len(numbers) + 1
                if sort != WORD:
                    c.run(len(numbers), "uext", sort, -len(numbers))
                for place, number in enumerate(numbers, first):
                    c.give(place, number)
                    if sort in (BIT, WORD):
                        c.value(place, number % 2**width, 1)
                    if sort != WORD:
                        c.value(place + len(numbers), number % 2**width, 2)


def first_records(c):
    """The first record for a node counts, whatever it says; a missing one reads 0; other nodes' records are others'."""
    x, y, z, p = (c.add(kind, sort) for kind, sort in (("state", WORD), ("input", WORD), ("state", WORD), ("state", BIT)))
    same, sum_of = c.add("not", WORD, x), c.add("add", x, y)
    c.value(x, 0, 1)
    c.value(sum_of, 0, 3)
    for place, value in ((y, 10), (x, 1), (x, 2), (y, 20), (TOP, 9), (same, 77), (2**32 + z, 5), (2**63 + z, 6), (p, 2), (p, 1)):
        c.give(place, value)
    c.value(x, 1, 1)
    c.value(y, 10, 1)
    c.value(z, 0, 1)
    c.value(p, 0, 1)  # 2 modulo 2, not the record after it
    c.value(same, TOP - 1, 2)  # a record for a line that is no state or input
    c.value(sum_of, 11, 3)
    for words, wanted in ((0, 0), (1, 0), (2, 0), (3, 0), (4, 1), (5, 1), (6, 1), (20, 1), (256, 1), (257, 1), (TOP, 1)):  # of the records' words
        c.value(x, wanted, 1, values=words)
    c.value(y, 0, 1, values=1)
    c.value(y, 10, 1, values=2)
    with c.further():
        c.give(z, 0)
        c.give(z, 3)
        c.value(z, 0, 1)
        c.value(z, 0, 1, values=23)
    c.value(z, 0, 1, values=24)  # what the records before left there
    c.value(c.add("state", WORD), 0, 1, values=0)
    c.give(c.lines - 1, 8)
    c.value(c.lines - 1, 8, 1)


def zeros_after_the_records(c):
    """Words that no command has set yet are records of node 0."""
    x = c.add("state", WORD)
    memory = c.add("state", MEMORY)
    zero = c.words(0)
    read = c.add("read", memory, zero)
    c.value(x, 0, 1, values=256)
    c.give(x, 4)
    c.value(x, 4, 1, values=256)
    c.value(read, 0, 3, memory=384)
    c.give_cell(memory, 0, 6)
    c.value(read, 6, 3, memory=384)


def cells(c):
    """The first record for a node and an address counts: equal nodes, equal addresses, neither and both."""
    m, n, free = c.add("state", MEMORY), c.add("state", MEMORY), c.add("input", MEMORY)
    x = c.add("state", WORD)
    addresses = [0, 8, 1, 2**31, 2**32, 2**32 + 8, 2**63, 2**63 + 8, TOP]
    first = c.words(*addresses)
    reads = {memory: c.lines + index * len(addresses) for index, memory in enumerate((m, n, free))}
    for memory, at in itertools.product(reads, range(first, first + len(addresses))):
        c.add("read", memory, at)
    given = [
        (m, 8, 80), (n, 8, 81), (m, 8, 82), (m, 0, 83), (free, 8, 84), (free, 8, 85), (m, 2**32 + 8, 86), (n, 2**63, 87), (free, TOP, TOP),
        (x, 8, 88), (2**32 + m, 1, 89), (TOP, 0, 90), (first, 1, 91), (reads[m], 1, 92), (n, 2**32, 0), (n, 2**32, 93), (c.lines, 1, 94),
        (m, 2**31, 2**63), (2**63 + n, 1, 95),
    ]  # fmt: skip
    for memory in reads:
        c.value(reads[memory], 0, 3)
    for record in given:
        c.give_cell(*record)
    held = {}
    for place, address, word in given:
        held.setdefault((place, address), word)
    for memory, at in reads.items():
        for place, address in enumerate(addresses, at):
            c.value(place, held.get((memory, address), 0), 3)
    for words, wanted in ((0, 0), (1, 0), (2, 0), (3, 80), (4, 80)):
        c.value(reads[m] + 1, wanted, 3, memory=words)
    for words, wanted in ((9, 0), (10, 0), (11, 0), (12, 83), (385, 83), (TOP, 83)):
        c.value(reads[m], wanted, 3, memory=words)
    c.give(m, 5)  # a value for a Memory, and cells for a Word
    c.give(x, 6)
    c.value(reads[m] + 1, 80, 3)
    c.value(x, 6, 1)
    c.value(c.add("read", free, x), 0, 3)
    c.value(c.add("read", m, reads[m] + 2), 83, 5)  # a cell whose address is a cell


def inits(c):
    """An init isn't used and isn't looked at, and may be of a line that breaks the sort rule; the mark is any half byte but 0."""
    five, yes, byte = c.words(5), c.add("const", BIT, 1), c.add("const", 12, 513)
    broken = c.add("not", WORD, yes)
    memory = c.add("state", MEMORY)
    zero = c.words(0)
    x = c.add("state", WORD, five, init=1)
    c.value(x, 0, 1)
    for mark in (1, 2, 8, 15):
        with c.further():
            c.value(c.add("state", WORD, five, init=mark), 0, 1)
            c.value(c.add("state", WORD, broken, init=mark), 0, 1)
            c.value(c.add("state", BIT, yes, init=mark), 0, 1)
            c.value(c.add("uext", 12, c.add("state", 12, byte, init=mark)), 0, 2)
            for init in (five, memory):  # a Memory has its own sort or a Word
                c.value(c.add("read", c.add("state", MEMORY, init, init=mark), zero), 0, 3)
            with c.further():
                c.refused(19, c.add("state", WORD, c.lines, init=mark))  # but it must be an earlier line
    c.give(x, 9)
    c.value(x, 9, 1)
    for word in (0, five, c.lines, c.lines + 1, 2**32, TOP):  # without the mark the word is no operand
        with c.further():
            c.value(c.add("state", WORD, word, word, word), 0, 1)
    c.value(c.add("input", WORD, TOP, TOP, TOP, init=1), 0, 1)  # only a state has an init


def writes(c):
    """The newest write that covers a cell; addresses count in all 64 bits."""
    memory = c.add("state", MEMORY)
    addresses = [64, 65, 66, 64 + 2**31, 64 + 2**32, 64 + 2**63, 0, TOP]
    first = c.words(*addresses)
    c.give_cell(memory, 64, 640)
    c.give_cell(memory, TOP, 641)
    words = c.words(*range(100, 109))
    for n, address in enumerate(addresses):  # one write, and a read at every address
        with c.further():
            written = c.add("write", memory, first + n, words + n)
            for at, asked in enumerate(addresses):
                covered = asked == address
                c.value(c.add("read", written, first + at), 100 + n if covered else {64: 640, TOP: 641}.get(asked, 0), 5)
    top = memory
    for n in range(len(addresses)):  # a write at each, the later ones in front
        top = c.add("write", top, first + n, words + n)
    for n in range(len(addresses)):
        c.value(c.add("read", top, first + n), 100 + n, 2 + 2 * (len(addresses) - n) + 1)
    for n in (0, 3, 7):  # a second write to the same address: the newest
        with c.further():
            again = c.add("write", top, first + n, words + 8)
            c.value(c.add("read", again, first + n), 108, 5)
            over = c.add("write", again, first + (n + 1) % 8, words)
            c.value(c.add("read", over, first + n), 108, 7)
            c.value(c.add("read", top, first + n), 100 + n, 2 + 2 * (len(addresses) - n) + 1)
    missing = c.words(63)
    c.value(c.add("read", top, missing), 0, 2 + 2 * len(addresses) + 1)
    # an address and a value that are reads themselves: through the same memory
    at = c.add("read", top, first)
    itself = c.add("write", top, at, at)
    c.value(at, 100, 19)
    c.value(c.add("read", itself, at), 100, 1 + 19 + 1 + 19 + 19)
    c.value(c.add("read", itself, first), 100, 1 + 1 + 1 + 19 + 17)  # 64 is not 100: the write is passed


def memory_choices(c):
    """Ites over memories: the condition at each read, then one side alone."""
    m, n, condition, other = c.add("state", MEMORY), c.add("input", MEMORY), c.add("state", BIT), c.add("input", BIT)
    a = c.words(8, 16)
    b = a + 1
    for place, address, word in ((m, 8, 1), (m, 16, 2), (n, 8, 3), (n, 16, 4)):
        c.give_cell(place, address, word)
    one = c.add("ite", MEMORY, condition, m, n)
    written = c.add("write", n, a, b)
    over = c.add("ite", MEMORY, other, one, written)
    wall = c.add("write", over, b, a)
    reads = [c.add("read", memory, address) for memory in (one, over, wall) for address in (a, b)]
    answers = {  # by the two conditions: values and visits
        (0, 0): [(3, 5), (4, 5), (16, 7), (4, 7), (16, 9), (8, 5)],
        (1, 0): [(1, 5), (2, 5), (16, 7), (4, 7), (16, 9), (8, 5)],
        (0, 1): [(3, 5), (4, 5), (3, 7), (4, 7), (3, 9), (8, 5)],
        (1, 1): [(1, 5), (2, 5), (1, 7), (2, 7), (1, 9), (8, 5)],
    }
    for (first, second), wanted in answers.items():
        with c.further():
            c.give(condition, first)
            c.give(other, second)
            for place, (value, visits) in zip(reads, wanted):
                c.value(place, value, visits)
    again = c.add("ite", MEMORY, c.add("eq", reads[0], reads[1]), one, over)  # a condition that reads memory
    c.value(c.add("read", again, a), 16, 2 + 1 + (1 + 5 + 5) + 5)


#
# Words and Bits in turn, deep lists
#


def words_and_bits(c):
    """A Word that needs a Bit that needs two Words, a hundred times."""
    x, five = c.add("state", WORD), c.words(5)
    c.give(x, 5)
    place, value, visits = x, 5, 1
    for n in range(100):
        c.add("eq" if n % 3 else "ult", place, five)
        value, visits = int(value == 5 if n % 3 else value < 5), visits + 2
        if n % 2:
            place, visits = c.add("uext", BIT, c.lines - 1), visits + 1
        else:
            place = c.add("ite", WORD, c.lines - 1, five, x)
            value, visits = 5, visits + 2
        if n % 20 in (0, 1):
            c.value(place, value, visits)
    c.value(place, value, visits)
    c.value(place - 1, value, visits - 1)


HALF = 2048


def deep_lists(c):
    """Lists of 4,096 lines in which each line takes the one before it."""
    for sort, ones in ((BIT, 1), (WORD, TOP)):
        with c.further():
            c.add("const", sort, 1)
            last = c.run(4095, "not", sort, -1)
            for place in (last, last - 1, HALF):
                c.value(place, 1 ^ ones * (place % 2), place + 1)
    for kind, wanted in (("add", sum(range(HALF)) + HALF - 1), ("sub", HALF - 1 - sum(range(HALF))), ("or", HALF - 1), ("mul", 0)):
        with c.further():
            c.run(HALF, "const", WORD, 0)  # each its own place
            c.value(c.run_on(WORD, HALF, kind, -1, -HALF), wanted, 2 * HALF + 1)
    for kind, operands in (("eq", [-1, -HALF]), ("ite", [-HALF, -HALF, -1]), ("or", [-HALF, -1])):
        with c.further():
            c.add("const", BIT, 0, count=HALF)
            c.value(c.run_on(BIT, HALF, kind, *operands), 0, 2 * HALF + 1)
    deep_memories(c)
    c.do(KEEP, 0, 0, 0)
    deep_reads(c)


def deep_memories(c):
    """A cell after 2,000 writes, and after 2,000 ites."""
    memory, bit = c.add("state", MEMORY), c.add("state", BIT)
    c.give_cell(memory, 7777, 5)
    count = 2000
    c.run(count, "const", WORD, 0)  # addresses 2 to 2001
    missing = c.words(7777)
    c.add("write", memory, missing, missing)
    writes = c.run(count, "write", -1, -count - 2, -count - 2)
    first = writes - count + 1
    nearest = missing - 1  # the address that the last write covers
    c.value(c.add("read", writes, nearest), nearest, 5)
    c.value(c.add("read", writes, nearest - count + 1), nearest - count + 1, 2 + 2 * count + 1)
    c.value(c.add("read", writes, missing), 7777, 2 + 2 * count + 2 + 1)
    c.value(c.add("read", first, missing), 7777, 2 + 2 + 2 + 1)
    c.do(KEEP, RECORD * 2, 0, MEMORY_RECORD)
    missing = c.words(7777)
    c.add("state", BIT, count=count)
    c.add("ite", MEMORY, bit, memory, memory)
    ites = c.run(count, "ite", MEMORY, -count - 1, -1, -1)
    c.value(c.add("read", ites, missing), 5, 2 + 2 * (count + 1) + 1)


def deep_reads(c):
    """A cell whose address is a cell, whose address is a cell, and so on."""
    count = 2000
    memory = c.add("input", MEMORY, count=count) - count + 1
    zero = c.words(0)
    for place in (memory, memory + 1, memory + count - 1):
        c.give_cell(place, 0, 5)
    last = c.run(count, "read", -count - 1, -1)
    c.value(last, 5, 2 * count + 1)
    c.value(zero + 1, 5, 3)
    c.value(zero + 2, 0, 5)


def shared_nodes(c):
    """Towers of a node that takes the one below twice: no look is remembered. The k-th takes 2^(k+1) - 1 visits."""
    values = {"add": lambda k: 3 << k, "and": lambda k: 3, "sub": lambda k: 0, "mul": lambda k: pow(3, 2**k, ALL), "urem": lambda k: 0}
    for kind, value in values.items():
        with c.further():
            ground = c.words(3)
            c.run_on(WORD, 12, kind, -1, -1)
            for k in (1, 2, 5, 12):
                c.value(ground + k, value(k), 2 ** (k + 1) - 1)
    with c.further():
        ground = c.add("const", BIT, 0)
        c.run(10, "eq", -1, -1)
        c.value(ground + 1, 1, 3)
        c.value(ground + 10, 1, 2**11 - 1)
        c.run(5, "ite", BIT, -1, -1, -1)  # twice: the condition and a branch
        c.value(ground + 13, 1, 8 * 2**11 - 1)
    memory, zero = c.add("state", MEMORY), c.words(0)
    c.add("write", memory, zero, zero)
    visits = 5  # of a read of the memory so far
    for _ in range(5):  # the address and the value are reads of the memory below
        c.add("read", c.lines - 1, zero)
        c.add("write", c.lines - 2, c.lines - 1, c.lines - 1)
        visits = 3 + 2 * visits
    c.value(c.add("read", c.lines - 1, zero), 0, visits)


#
# The limit
#

LIMIT = MOST_VISITS
assert LIMIT == 100_000


class Filler:
    """Words that take a given number of visits: a tower of adds, then adds of its floors, each of which takes one less than a power of two."""

    def __init__(self, c):
        self.c = c
        self.two = c.add("uext", BIT, c.add("const", BIT, 0))
        self.ground = c.words(0)
        self.top = c.run(16, "add", -1, -1)

    def visits(self, count):
        """The place of a line whose value is 0 and that takes so many visits."""
        c, place = self.c, self.ground if count % 2 else self.two
        count -= 1 if count % 2 else 2
        for power in range(1, 17):  # an add of the floor below it takes 2^power more
            if count >> power & 1:
                place = c.add("add", self.ground + power - 1, place)
        return place


def limit_cases(c):
    """Exactly 100,000 visits are given; the one after them is 18, before its node is looked at: one that breaks the sort rule too."""
    filler = Filler(c)
    c.value(filler.top - 1, 0, 2**16 - 1)
    c.refused(18, filler.top)  # 2^17 - 1 visits
    most = filler.visits(LIMIT - 2)
    full = c.add("sub", most, filler.ground)
    memory, five, bit, byte = c.add("state", MEMORY), c.words(5), c.add("input", BIT), c.add("state", 11)
    c.give_cell(memory, 0, 50)
    c.give(bit, 1)
    broken, no_memory = c.add("and", WORD, bit, five), c.add("not", MEMORY, memory)
    c.value(full, 0, LIMIT)
    c.refused(18, c.add("not", WORD, full))
    c.refused(18, c.add("add", full, five))
    # with `most` as the first operand, or as the address, the other one is the 100,000th visit
    c.value(c.add("sub", most, five), -5, LIMIT)
    c.refused(17, c.add("sub", most, broken))
    c.value(c.add("read", memory, most), 50, LIMIT)
    c.refused(17, c.add("read", no_memory, most))
    # with `later` it is the 100,001st
    later = c.add("not", WORD, most)
    for last in (five, broken):
        c.refused(18, c.add("sub", later, last))
    for last in (memory, no_memory):
        c.refused(18, c.add("read", last, later))
    # the operand of an Ext as the 100,000th, and as the 100,001st
    extended = c.add("uext", 11, byte)
    less = filler.visits(LIMIT - 3)
    c.value(c.add("or", WORD, less, extended), 0, LIMIT)
    c.refused(18, c.add("or", WORD, most, extended))
    # the value and the memory of a write, after its address: the read, its address and the write come before that
    written = c.add("write", no_memory, filler.visits(LIMIT - 4), five)
    c.value(c.add("read", written, filler.ground), 5, LIMIT)
    c.refused(17, c.add("read", written, five))
    written = c.add("write", no_memory, less, broken)
    c.refused(18, c.add("read", written, filler.ground))
    c.refused(18, c.add("read", written, five))
    # a branch, after the condition: the ite, the comparison and its second operand are counted too
    condition = c.add("ult", filler.visits(LIMIT - 4), five)
    c.value(c.add("ite", WORD, condition, five, broken), 5, LIMIT)
    c.refused(17, c.add("ite", WORD, condition, broken, five))
    c.refused(18, c.add("ite", WORD, c.add("ult", less, five), broken, five))


def endless_towers(c):
    """Far more looks than could ever be made: refused all the same."""
    ground = c.words(1)
    c.run(4095, "add", -1, -1)
    c.refused(18, 4095)
    c.refused(18, ground + 16)
    c.value(ground + 15, 2**15, 2**16 - 1)
    c.do(KEEP, 0, 0, 0)
    bit = c.add("input", BIT)
    c.run(4095, "ite", BIT, -1, -1, -1)
    c.refused(18, 4095)
    c.value(bit + 3, 0, 15)


#
# The order of looks
#


def orders(c):
    """What comes first is told by the refusal: one operand breaks the sort rule (17), another takes more than 100,000 visits (18)."""
    filler = Filler(c)
    long, word, bit, memory = filler.top, filler.ground, c.add("state", BIT), c.add("state", MEMORY)
    broken, broken_bit, broken_memory = c.add("not", WORD, bit), c.add("not", BIT, word), c.add("and", MEMORY, memory, memory)
    long_bit, long_memory = c.add("ult", long, word), c.add("write", memory, long, word)
    for kind in (*sorted(ON_WORDS), "eq", "and", "or"):
        c.refused(17, c.on(WORD, kind, broken, long))
    for kind in ("eq", "and", "or"):
        c.refused(17, c.on(BIT, kind, broken_bit, long_bit))
    for kind in ("add", "eq", "and"):
        c.refused(18, c.on(WORD, kind, long, broken))
    # an ite: its condition before its branches
    c.refused(17, c.add("ite", WORD, broken_bit, long, long))
    c.refused(18, c.add("ite", WORD, long_bit, broken, broken))
    c.value(c.add("ite", WORD, bit, broken, word), 0, 3)
    c.refused(17, c.add("ite", WORD, bit, word, broken))
    c.value(c.add("ite", WORD, bit, long, word), 0, 3)
    # a read: its address before its memory
    c.refused(17, c.add("read", long_memory, broken))
    c.refused(18, c.add("read", broken_memory, long))
    c.refused(17, c.add("read", broken_memory, word))
    # a write: its address, then its value where it covers the cell, its memory where it doesn't
    five = c.words(5)
    c.refused(17, c.add("read", c.add("write", long_memory, broken, long), word))
    c.refused(18, c.add("read", c.add("write", broken_memory, long, broken), word))
    for memory_below, value, at_zero, elsewhere in (
        (memory, broken, 17, 0), (memory, long, 18, 0), (broken_memory, word, 0, 17), (long_memory, word, 0, 18), (broken_memory, broken, 17, 17),
        (long_memory, broken, 17, 18), (broken_memory, long, 18, 17),
    ):  # fmt: skip
        written = c.add("write", memory_below, word, value)
        for address, number in ((word, at_zero), (five, elsewhere)):
            place = c.add("read", written, address)
            c.refused(number, place) if number else c.value(place, 0, 5)
    # a memory's ite: its condition, then one side
    c.refused(17, c.add("read", c.add("ite", MEMORY, broken_bit, long_memory, long_memory), word))
    c.value(c.add("read", c.add("ite", MEMORY, bit, broken_memory, memory), word), 0, 5)
    c.refused(17, c.add("read", c.add("ite", MEMORY, bit, memory, broken_memory), word))


#
# The sort rule
#

TOLD_APART = (BIT, WORD, MEMORY, 11, 12)


def fitting():
    """Lines that keep the sort rule: kind, sort and the sorts of the operands."""
    yield "read", 0, [MEMORY, WORD]
    yield "write", 0, [MEMORY, WORD, WORD]
    for kind in sorted(ON_WORDS):
        yield kind, 0, [WORD, WORD]
    for sort in (BIT, *BYTES):
        yield "uext", sort, [sort]
    for sort in TOLD_APART:
        yield "ite", sort, [BIT, sort, sort]
        yield "state", sort, [sort]
    yield "state", MEMORY, [WORD]
    for sort in (BIT, WORD):
        yield "eq", 0, [sort, sort]
        yield "not", sort, [sort]
        for kind in ("and", "or"):
            yield kind, sort, [sort, sort]


def alike_but_broken():
    """Lines that break it although their operands are alike, and of the line's sort where it has one."""
    for sort in (WORD, MEMORY):
        yield "uext", sort, [sort]
    for sort in (MEMORY, 11, 12, 17):
        yield "eq", 0, [sort, sort]
        yield "not", sort, [sort]
        for kind in ("and", "or"):
            yield kind, sort, [sort, sort]
    for sort, other in ((BIT, WORD), (WORD, BIT)):
        for kind in ("and", "or"):
            yield kind, sort, [other, other]
        yield "ite", sort, [BIT, other, other]
    yield "ite", 11, [BIT, 12, 12]
    yield "ite", MEMORY, [BIT, WORD, WORD]
    yield "ite", WORD, [BIT, MEMORY, MEMORY]
    yield "write", 0, [WORD, WORD, MEMORY]
    yield "read", 0, [WORD, MEMORY]


def one_off():
    """Each of the fitting lines with one operand of another sort, where that breaks the rule."""
    kept, found = list(fitting()), []
    for kind, sort, sorts in kept:
        for n, other in itertools.product(range(len(sorts)), TOLD_APART):
            line = kind, sort, sorts[:n] + [other] + sorts[n + 1 :]
            if line not in kept + found:
                found.append(line)
    return found


class Sorted:
    """A list with a state of every sort, and for every sort a chain of ites that never takes what breaks the rule."""

    def __init__(self, c):
        self.c = c
        self.at = {sort: c.add("state", sort) for sort in sorted(SORTS)}
        self.passed = dict(self.at)  # by sort the last of a chain of ites

    def add(self, kind, sort, sorts):
        words = [self.at[s] for s in sorts]
        marks = {"init": 1} if kind == "state" else {}
        return self.c.add(kind, *([sort] if kind in OWN_SORT else []), *words, **marks)

    def asked(self, place):
        """A line of sort Bit or Word that looks at this one."""
        carried = self.carried(place)
        if carried == MEMORY:
            return self.c.add("read", place, self.at[WORD])
        return place if carried in (BIT, WORD) else self.c.add("uext", carried, place)

    def carried(self, place):
        return line_of(*self.c.desk.areas[LIST][RECORD * place : RECORD * (place + 1)]).carries

    def pass_by(self, place):
        """An ite of its sort that takes the other branch, whose condition is 0."""
        carried = self.carried(place)
        self.passed[carried] = self.c.add("ite", carried, self.at[BIT], place, self.passed[carried])


def sorts_kept(c):
    """Lines that keep the rule have a value; all states are 0."""
    lines = Sorted(c)
    for kind, sort, sorts in fitting():
        ones = 2 ** WIDTH[sort] - 1 if kind == "not" else TOP
        c.value(lines.asked(lines.add(kind, sort, sorts)), {"eq": 1, "udiv": ones, "sdiv": ones, "not": ones}.get(kind, 0))


def sorts_broken(c):
    """17 where such a line is visited; where it stands in the branch that is not taken, or nowhere, it does no harm."""
    lines = Sorted(c)
    for line in (*one_off(), *alike_but_broken()):
        place = lines.add(*line)
        c.refused(17, lines.asked(place))
        lines.pass_by(place)
    for sort, width in (*WIDTH.items(), (MEMORY, 0)):
        for number in (2**width, 2**width + 1, TOP) if 0 < width < 64 else (0,) if sort == MEMORY else ():
            place = c.add("const", sort, number)
            c.refused(17, lines.asked(place))
            lines.pass_by(place)
    for sort, place in lines.passed.items():
        if place != lines.at[sort]:
            c.value(lines.asked(place), 0)
    c.value(lines.at[WORD], 0, 1)
    # Only the visited line's own rule counts: operands that carry the right sorts may break theirs, one look later.
    broken = c.add("not", WORD, lines.at[BIT])
    c.refused(17, broken)
    c.refused(17, c.add("add", lines.at[WORD], broken))
    c.value(c.add("state", WORD, broken, init=1), 0, 1)
    c.refused(17, c.add("uext", WORD, broken))
    c.value(c.add("ite", WORD, lines.at[BIT], broken, lines.at[WORD]), 0, 3)


def rules_without_a_visit(c):
    """Next and Bad are never visited, whatever their sorts are."""
    bit, word, byte, memory = c.add("state", BIT), c.add("const", WORD, 4), c.add("input", 13), c.add("state", MEMORY)
    c.add("next", BIT, word, bit)
    c.add("next", 13, word, memory)
    c.add("bad", word)
    c.add("bad", memory)
    c.add("bad", byte, sort=77)
    c.value(word, 4, 1)
    c.value(c.add("not", WORD, word), -5, 2)


#
# 19
#


def list_sizes(c):
    """4,096 lines and no more, and no more than the lent words hold; the lines after them are none."""
    c.add("const", WORD, 9)
    last = c.run(4095, "not", WORD, -1)
    c.value(last, ~9, 4096)
    c.value(0, 9, 1)
    all_words = WORDS_OF[LIST]
    for words in (RECORD * 4096, RECORD * 4096 + 1, all_words - 1, all_words, all_words + 1, TOP):
        c.value(0, 9, 1, words=words)
    for words in (0, RECORD - 1, RECORD, RECORD * 4095, RECORD * 4096 - 1):
        c.refused(19, 0, words=words)
    c.run(4, "not", WORD, -1)
    c.value(last, ~9, 4096, lines=4096)
    for lines in (4097, 4098, 4100, 4101, 2**16 + 1, 2**32 + 1, 2**62, 2**62 + 1, 2**63, TOP, TOP // RECORD + 1):  # the last one's words are 2^64 + 4
        c.refused(19, 0, lines=lines)
        c.refused(19, 0, lines=lines, words=RECORD * 4097)
    c.refused(19, 4096, lines=4096)
    c.do(KEEP, 0, 0, 0)
    c.refused(19, 0)  # no line at all
    c.refused(19, 0, words=all_words, lines=0)
    c.words(9, 8, 7)
    c.value(2, 7, 1)
    for lines, words in ((1, 5), (1, 9), (2, 10), (2, 14), (3, 15), (3, 16), (1, TOP)):
        c.value(lines - 1, 10 - lines, 1, lines=lines, words=words)
    for lines, words in ((1, 0), (1, 4), (2, 9), (2, 5), (3, 14), (4, 16), (4, 19)):
        c.refused(19, 0, lines=lines, words=words)


def stored_before(c):
    """Words after those in use keep what stood there, and what doesn't fit is dropped."""
    c.words(1, 2, 3)
    c.do(KEEP, RECORD, TOP, TOP)
    c.value(2, 3, 1, lines=3, words=3 * RECORD)
    c.add("const", WORD, 5)
    c.value(2, 3, 1, lines=3, words=3 * RECORD)
    c.value(1, 5, 1, lines=3, words=3 * RECORD)
    c.do(KEEP, 0, 0, 0)
    c.add("const", WORD, 6, count=5000)  # 4,100 of them
    c.add("const", WORD, 7)  # none of it
    c.value(4095, 6, 1, lines=4096, words=TOP)
    c.refused(19, 0, lines=4097, words=TOP)
    c.do(KEEP, 0, 0, 0)
    x, memory, zero = c.add("state", WORD), c.add("state", MEMORY), c.words(0)
    y, read = c.add("state", WORD), c.add("read", memory, zero)
    for n in range(127):
        c.give(x, 100 + n)
        c.give_cell(memory, 8, n)
    c.value(y, 0, 1)
    c.value(read, 0, 3)
    c.give(y, 5)
    c.give_cell(memory, 0, 6)
    c.value(y, 5, 1)
    c.value(read, 6, 3)
    c.do(KEEP, TOP, 254, 381)
    c.give(x, 0)
    c.give_cell(memory, 8, 0)
    c.give(y, 5)  # the 129th record of each
    c.give_cell(memory, 0, 6)
    c.value(y, 0, 1)
    c.value(read, 0, 3)
    c.value(x, 100, 1, values=TOP, memory=TOP)
    c.do(KEEP, TOP, 2, 3)
    c.value(x, 100, 1)
    c.value(x, 100, 1, values=256)


class Every:
    """A list with a Bit, a Word, a Memory, bytes, Next and Bad, and a Word that is asked for."""

    def __init__(self, c):
        self.c = c
        self.bit, self.word, self.memory, self.state = c.add("const", BIT, 1), c.words(6), c.add("state", MEMORY), c.add("state", WORD)
        self.next, self.bad = c.add("next", WORD, self.state, self.word), c.add("bad", self.bit)
        self.asked = c.add("not", WORD, self.word)
        self.byte = c.add("input", 11)

    def good(self, kind):
        """Operands of a line of this kind and its usual sort, a state's init too."""
        bit, word, memory = self.bit, self.word, self.memory
        others = {"read": [memory, word], "write": [memory, word, word], "uext": [bit], "ite": [bit, word, word], "bad": [bit], "not": [word]}
        return {**others, "state": [word], "next": [self.state, word], "const": [], "input": []}.get(kind, [word, word])

    def line(self, kind, sort, operands):
        return self.c.do(LINES, 1, *fields_of(kind, sort, *operands, init=int(kind == "state")))


def usual_sort(kind):
    return BIT if kind == "uext" else WORD if kind in OWN_SORT else 0


def unknown_kinds_and_sorts(c):
    """19 for an unknown kind anywhere, and for an unknown sort of a kind whose sort is read; the others' is not."""
    every = Every(c)
    for kind in (0, 23, 24, 127, 128, 255):
        for sort in (0, WORD):
            with c.further():
                every.line(kind, sort, [])
                c.refused(19, every.asked)
                c.value(every.asked, ~6, 2, lines=c.lines - 1)
    for kind in KINDS:
        read = kind in OWN_SORT
        for sort in (0, 4, 10, 18, 255) if read else (0, 4, 255, BIT, MEMORY):
            with c.further():
                every.line(kind, sort, every.good(kind))
                if read:
                    c.refused(19, every.asked)
                elif kind in NO_VALUE | {"write"}:
                    c.value(every.asked, ~6, 2)
                else:
                    c.has_value(c.lines - 1)
    for sort, kind in zip((5, 9, 19, 127, 129, 130, 131, 139, 145), sorted(OWN_SORT)):
        with c.further():
            every.line(kind, sort, every.good(kind))
            c.refused(19, every.asked)
    for sort in (0, 4, 10, 18, 255):
        with c.further():
            c.add("state", sort)  # without an init
            c.refused(19, every.asked)
    for sort, kind in itertools.product(sorted(SORTS), sorted(OWN_SORT)):  # every known sort is known for every kind
        every.line(kind, sort, every.good(kind))
    c.value(every.asked, ~6, 2)


def broken_operands(c):
    """19 for an operand that isn't an earlier line with a value, in every place of every kind, wherever the line stands."""
    every = Every(c)
    for kind in KINDS:
        good = every.good(kind)
        place = c.lines
        with c.further():
            every.line(kind, usual_sort(kind), good)
            c.value(every.asked, ~6, 2)
        for n in range(len(good)):
            for wrong in (place, every.next, every.bad, 2**32, TOP):
                with c.further():
                    every.line(kind, usual_sort(kind), good[:n] + [wrong] + good[n + 1 :])
                    c.refused(19, every.asked)
    later = c.lines + 1
    for kind, operands in (("not", [later]), ("add", [every.word, later]), ("state", [later]), ("bad", [later]), ("next", [every.state, later])):
        with c.further():  # a line with a value, but a later one
            every.line(kind, usual_sort(kind), operands)
            c.words(1)
            c.refused(19, every.asked)
            c.refused(19, later)
            c.refused(19, later, lines=later)
            c.value(every.asked, ~6, 2, lines=later - 1)  # the broken line is after the list's end
    for wrong in (2**63 + every.word, 2**63, 2**8, 2**16, c.lines + 2, 4096, 2**62):
        with c.further():
            c.add("not", WORD, wrong)
            c.refused(19, every.asked)
    with c.further():
        first = c.add("not", WORD, 0)  # an operand of another sort is no broken one
        c.value(every.asked, ~6, 2)
        c.refused(17, first)
    c.do(KEEP, 0, 0, 0)
    for kind in ("not", "uext", "bad", "read", "next"):  # the first line has nothing before it
        with c.further():
            c.do(LINES, 1, *fields_of(kind, usual_sort(kind)))
            c.words(5)
            c.refused(19, 1)


def asked_nodes(c):
    """19 for a node outside the list, one without a value, and one of another sort than Bit or Word."""
    every = Every(c)
    c.value(every.bit, 1, 1)
    c.value(every.word, 6, 1)
    for place in (c.lines, c.lines + 1, 4096, 2**16, 2**32, 2**32 + every.word, 2**62 + every.word, 2**63, TOP - 1, TOP):
        c.refused(19, place)
    for place in (every.next, every.bad, every.memory):
        c.refused(19, place)
    c.refused(19, c.add("next", BIT, every.bit, every.bit))
    for sort in (MEMORY, *BYTES):
        same = c.add("input", sort)
        c.refused(19, same)
        c.refused(19, c.add("ite", sort, every.bit, same, same))
        c.refused(19, c.add("state", sort))
        for kind in ("and", "or"):
            c.refused(19, c.add(kind, sort, same, same))
        c.refused(19, c.add("not", sort, same))
        c.refused(19, c.add("const", sort, 1))
    c.refused(19, c.add("write", every.memory, every.word, every.word))
    c.refused(19, c.add("write", every.memory, every.word, every.word, sort=WORD))
    for sort in (MEMORY, 11, 0):  # the sort that these records have is not theirs
        c.value(c.add("add", every.word, every.word, sort=sort), 12, 3)
        c.value(c.add("ult", every.word, every.word, sort=sort), 0, 3)
        c.value(c.add("eq", every.word, every.word, sort=sort), 1, 3)
        c.value(c.add("read", every.memory, every.word, sort=sort), 0, 3)
    c.value(c.add("uext", 11, every.byte), 0, 2)  # a Word, although its record has the byte's sort
    c.refused(17, c.add("uext", MEMORY, every.memory))
    c.value(every.word, 6, 1, lines=every.word + 1)
    c.refused(19, every.word, lines=every.word)


def unread(c):
    """Names, identifiers, marks, those of addresses too, and words that a kind doesn't use."""
    every = Every(c)
    for kind in KINDS:
        used = [5] if kind == "const" else every.good(kind)
        with c.further():
            for area, nid, init, mark in ((3, 0, 0, 0), (255, 2**32 - 1, 0, 0), (1, 1, 15, 15), (2, 17, 0, 8)):
                words = [] if kind == "state" and not init else used  # a state without the mark has no operand
                marks = dict(area=area, nid=nid, init=init, mark=mark)
                c.do(LINES, 1, *fields_of(kind, usual_sort(kind), *words, *[TOP] * (3 - len(words)), **marks))
                if kind not in NO_VALUE | {"write"}:
                    c.has_value(c.lines - 1)
            c.value(every.asked, ~6, 2)


def addresses(c):
    """A line has the same value, takes the same visits and is refused alike with an address and without one: the mark of an address is not looked
    at, and is none of an init."""
    x, memory, bit = c.add("state", WORD), c.add("state", MEMORY), c.add("const", BIT, 1)
    c.give(x, 5)
    c.give_cell(memory, 5, 6)
    for mark in (0, 1, 2, 8, 15):
        with c.further():
            seven = c.add("const", WORD, 7, mark=mark)
            c.value(seven, 7, 1)
            c.value(c.add("sub", seven, x, mark=mark), 2, 3)
            c.value(c.add("ite", WORD, c.add("ult", x, seven, mark=mark), x, seven, mark=mark), 5, 5)
            written = c.add("write", memory, seven, x, mark=mark)
            c.value(c.add("read", written, seven, mark=mark), 5, 5)
            c.value(c.add("read", written, x, mark=mark), 6, 5)
            c.value(c.add("state", WORD, TOP, TOP, TOP, mark=mark), 0, 1)
            c.value(c.add("state", WORD, x, init=1, mark=mark), 0, 1)
            c.refused(17, c.add("not", WORD, bit, mark=mark))
            c.refused(19, c.add("next", WORD, x, seven, mark=mark))
            with c.further():
                c.refused(19, c.add("state", WORD, TOP, init=1, mark=mark))
            with c.further():
                c.refused(19, c.add("not", WORD, c.lines, mark=mark))
            c.refused(19, c.add("const", 4, 0, mark=mark))


#
# Drawn lists
#

EDGE_WORDS = BOUNDARIES + [3, 5, 7, 8, 255, 256, 0x0123456789ABCDEF, 0xFEDCBA9876543210, 2**64 - 2, 2**64 - 7]
WEIGHTS = {"const": 3, "state": 2, "input": 2, "ite": 5, "read": 4, "write": 4, "eq": 3, "ult": 3, "uext": 3, "next": 1, "bad": 1}


class Drawn:
    """A list whose lines are drawn, most so that they keep the sort rule, records for its states and inputs, and places to ask for. `seldom` is
    how often an operand is of any sort, `never` how often it is none at all, which refuses every question about the list."""

    def __init__(self, seed, count, seldom=0.02, never=0.0):
        self.draw = random.Random(seed)
        self.seldom, self.never = seldom, never
        self.lines, self.by_sort, self.values = [], collections.defaultdict(list), []
        for sort in (BIT, WORD, MEMORY, self.draw.choice(BYTES)):
            self.put(self.draw.choice(("state", "input")), sort)
        while len(self.lines) < count:
            self.put_drawn()
        few = min(count // 3, WORDS_OF[VALUES] // VALUE_RECORD)
        self.given_values = [self.value_record() for _ in range(few)]
        self.given_cells = [self.cell_record() for _ in range(few)]
        self.places = self.asked()

    def word(self):
        pick = self.draw.random()
        return self.draw.choice(EDGE_WORDS) if pick < 0.5 else self.draw.randrange(16) if pick < 0.8 else self.draw.randrange(ALL)

    def put(self, kind, sort, *words, **marks):
        place = len(self.lines)
        if kind not in NO_VALUE:
            carried = line_of(*fields_of(kind, sort, *words, **marks)).carries
            self.by_sort[carried].append(place)
            self.values.append(place)
        self.lines.append(fields_of(kind, sort, *words, **marks))

    def near(self, places):
        """One of these places, the last ones more often."""
        return places[-1 - min(int(self.draw.expovariate(0.25)), len(places) - 1)]

    def operand(self, sort):
        pick = self.draw.random()
        if pick < self.never:
            return self.draw.choice((len(self.lines), len(self.lines) + 1, TOP, self.draw.randrange(2 * len(self.lines))))
        return self.near(self.values if pick < self.never + self.seldom else self.by_sort[sort])

    def put_drawn(self):
        kind = self.draw.choices(KINDS, [WEIGHTS.get(kind, 2) for kind in KINDS])[0]
        held = [sort for sort in self.by_sort if self.by_sort[sort]]
        sort = self.draw.choice(held)
        if kind in ("and", "or", "not"):
            sort = self.draw.choice((BIT, WORD))
        elif kind in ("const", "uext"):
            sort = self.draw.choice([s for s in held if s not in (MEMORY, WORD)] + [WORD] * (kind == "const"))
        elif kind == "ite":
            sort = self.draw.choice((sort, WORD, MEMORY))
        if kind == "const":
            number = self.word() % 2 ** WIDTH[sort] if self.draw.random() > self.seldom else self.word()
            return self.put(kind, sort, number)
        if kind == "state":
            init = self.draw.random() < 0.3
            return self.put(kind, sort, self.operand(sort) if init else self.word(), init=int(init))
        two = self.draw.choice((BIT, WORD))
        sorts = {
            "read": [MEMORY, WORD], "write": [MEMORY, WORD, WORD], "ite": [BIT, sort, sort], "eq": [two, two], "uext": [sort], "not": [sort],
            "and": [sort, sort], "or": [sort, sort], "next": [sort, sort], "bad": [BIT], "input": [],
        }.get(kind, [WORD, WORD])  # fmt: skip
        self.put(kind, sort if kind in OWN_SORT else 0, *map(self.operand, sorts))

    def free(self, wanted):
        """Places of states and inputs, of Memory or of the other sorts, and now and then any place."""
        places = [n for n, line in enumerate(self.lines) if line_of(*line).kind in FREE and (line_of(*line).sort == MEMORY) == wanted]
        return places if places and self.draw.random() < 0.95 else [self.draw.randrange(len(self.lines) + 2)]

    def value_record(self):
        return self.draw.choice(self.free(False)), self.word()

    def cell_record(self):
        return self.draw.choice(self.free(True)), self.word(), self.word()

    def asked(self, count=8):
        """Bits and Words, the later ones more often, and one place of any line."""
        good = sorted(self.by_sort[BIT] + self.by_sort[WORD])
        return list(dict.fromkeys([self.near(good) for _ in range(count)] + [self.draw.randrange(len(self.lines))]))

    def put_into(self, c):
        for line in self.lines:
            c.do(LINES, 1, *line)
        for record in self.given_values:
            c.give(*record)
        for record in self.given_cells:
            c.give_cell(*record)


def drawn_lists(c):
    """Drawn lists; in every fourth a few of the operands are none at all."""
    for seed in range(14):
        drawn = Drawn(f"list {seed}", 18 + seed, never=0.02 if seed % 4 == 3 else 0)
        drawn.put_into(c)
        for place in drawn.places:
            c.ask(place)
        c.do(KEEP, 0, 0, 0)


#
# The lines of the fifty kinds
#

FIRST = min(START_SORTS)  # the identifier at place 0 of the listing's start
REGISTER = 23 - FIRST  # x0 would stand one before x1
FLAG_PLACE, MEMORY_PLACE, COUNTER_PLACE, MAXIMUM_PLACE = FLAG - FIRST, btor2_values.MEMORY - FIRST, COUNTER - FIRST, COUNTER_MAX - FIRST


def start_lines():
    """Document 01: the bits 0 and 1, the words 0 and 1, and states."""
    for nid, sort in START_SORTS.items():
        yield fields_of("const", sort, nid % 2) if nid < 24 else fields_of("state", sort)


def line_words(node):
    """The words of a node line's text but the last, with the identifiers as places and without its own."""
    operands = [operand - FIRST for operand in node.operands]
    if node.operator == "constd":
        return fields_of("const", node.sort, node.number)
    if node.operator == "uext":  # the printed sort is a Word; the record has the sort that it comes from
        return fields_of("uext", SORT_OF_WIDTH[64 - node.number], *operands)
    return fields_of(node.operator, node.sort if node.operator in OWN_SORT else 0, *operands)


class Lowered:
    """The lines that the listing prints for instructions, as a list, and after them an input for an address and, for every store, a read of its
    memory flow there."""

    def __init__(self, program, input_lines):
        flows = {0: btor2_values.MEMORY, **{r: 23 + r for r in range(1, 32)}}
        blocks = listing_values.printed(program, input_lines)
        self.instructions = [listing_values.Instruction(line, block, flows) for line, block in zip(input_lines, blocks)]
        wrong = [i.wrong for i in self.instructions if i.wrong]
        assert not wrong, wrong
        self.nodes = [node for i in self.instructions for node in i.nodes]
        self.lines = [*start_lines(), *map(line_words, self.nodes)]
        self.ill = {nid - FIRST for nid in btor2_values.ill_sorted(self.nodes)}
        self.reads = {}
        self.address = len(self.lines)
        self.lines.append(fields_of("input", WORD))
        for instruction in self.instructions:
            if instruction.kind in STORES:
                self.reads[instruction] = len(self.lines)
                self.lines.append(fields_of("read", 0, instruction.flow - FIRST, self.address))

    def places(self, instruction):
        """What is asked for of an instruction: rd's flow, both conditions, a cell of the memory flow, or Ecall's line; nothing where rd is x0."""
        if instruction.kind in BRANCHES:
            return [nid - FIRST for nid in instruction.conditions()]
        if instruction.kind in STORES:
            return [self.reads[instruction]]
        if instruction.kind == "Ecall":
            return [instruction.nodes[0].nid - FIRST]
        return [instruction.flow - FIRST] if instruction.flow else []

    def put_into(self, c, mark=0):
        """The list; `mark` is that of an address, for the lines after the start."""
        start = len(START_SORTS)
        lines = self.lines[:start] + [(first | mark << 28, *words) for first, *words in self.lines[start:]]
        for words, same in itertools.groupby(lines):
            c.do(LINES, len(list(same)), *words)


class Given:
    """Values to begin with: registers, cells of the memory and of the counters by address, the flag, the counters' maximum, and the address that a
    store's memory flow is read at."""

    def __init__(self, registers, held, flag=1, address=0, counted={}, maximum=0):
        self.registers, self.held, self.flag, self.address, self.counted, self.maximum = registers, held, flag, address, counted, maximum

    def register(self, r):
        return self.registers.get(r, 0) % ALL

    def byte(self, address):
        return self.held.get(address - address % 8, 0) >> 8 * (address % 8) & 255

    def put_into(self, c, lowered):
        """The records; those of 0 that come last are left out."""
        c.give(FLAG_PLACE, self.flag)
        for r, value in self.registers.items():
            c.give(REGISTER + r, value)
        for place, value in ((lowered.address, self.address), (MAXIMUM_PLACE, self.maximum)):
            if value:
                c.give(place, value)
        for place, held in ((MEMORY_PLACE, self.held), (COUNTER_PLACE, self.counted)):
            for address, word in held.items():
                c.give_cell(place, address, word)


def manual_values(instruction, given):
    """What the manual, or an entry of docs/DIFFERENCES.md, says that the asked places come to; none where an access leaves a word of 8 bytes."""
    kind, rd, imm = instruction.kind, instruction.rd, instruction.imm
    a, b = (given.register(r) if r else 0 for r in (instruction.rs1, instruction.rs2))
    if kind in BRANCHES:
        taken = int(TAKEN[kind](a, b))
        return [taken, 1 - taken]
    if kind in LOADS | STORES and given.flag:
        addresses = accessed(kind, a, imm)
        if addresses[0] % 8 + len(addresses) > 8:
            return []
    if kind in STORES:
        stored = {address: b >> 8 * n & 255 for n, address in enumerate(addresses)} if given.flag else {}
        return [sum(stored.get(at, given.byte(at)) << 8 * n for n, at in enumerate(range(given.address, given.address + 8)))]
    if kind == "Ecall":
        return [given.flag]
    if not given.flag:
        return [given.register(rd)]
    if kind in LOADS:
        return [loaded(kind, addresses, given.byte)]
    wanted = MANUAL[kind](instruction.pc, a, b, imm) % ALL
    other, name = listing_values.exception(kind, a, b)
    return [other if name else wanted]


ONE_OF_EACH = {
    "Lui": 524289, "Auipc": 1048575, "Jal": 8, "Beq": 8, "Bne": -4, "Blt": 8, "Bge": -8, "Bltu": 4, "Bgeu": 8, "Lb": 5, "Lbu": -3, "Lh": 6, "Lhu": 2,
    "Lw": 4, "Ld": 8, "Sb": 7, "Sh": -2, "Sw": 4, "Sd": -8, "Addi": -5, "Sltiu": -1, "Xori": -1, "Ori": 2047, "Andi": -16, "Slli": 63, "Srli": 33,
    "Srai": 31, "Addiw": 1, "Slliw": 31, "Srliw": 5, "Sraiw": 31,
}  # fmt: skip
PAIRS = [(0, 0), (1, -1), (-7, 0), (-(2**63), -1), (2**31, 2**63), (-(2**31), 2**32 - 1)]


def lowered_lines(c):
    """The lines of an instruction of every kind, on boundary registers and memory: the flow that it sets, against the manual."""
    lowered = Lowered(c.program, [f"65536 {kind} 3 1 2 {ONE_OF_EACH.get(kind, 0)}" for kind in INSTRUCTIONS])
    lowered.put_into(c)
    for n, (a, b) in enumerate(PAIRS):
        a, b = a % ALL, b % ALL
        ask_lowered(c, lowered, Given({1: a, 2: b, 3: 33 + n}, {}), set(INSTRUCTIONS) - LOADS - STORES)
    for base in (64, 0, 2**63):
        held = {(base + offset) % ALL: word for offset, word in ((-8, 0x8182838485868788), (0, 0x7172F37475767778), (8, 2**63))}
        ask_lowered(c, lowered, Given({1: base, 2: 0xA1A2A3A4A5A6A7A8, 3: 3}, held, address=base), LOADS | STORES)
        ask_lowered(c, lowered, Given({1: base, 2: 0xA1A2A3A4A5A6A7A8}, held, address=(base - 8) % ALL), STORES)
    held = {64: 0x0807060504030201}
    ask_lowered(c, lowered, Given({1: 64, 2: 6, 3: 9}, held, flag=0, address=64), set(INSTRUCTIONS))
    other_lowered_lines(c, lowered, Given({1: 64, 2: 6, 3: 9}, held))


# 0, 1, 2 and their negatives; the least and the greatest of 64 bits and of 32 bits; and words whose high halves are not the sign of the low ones.
DIVIDED = [0, 1, -1, 2, -2, -(2**63), 2**63 - 1, -(2**31), 2**31 - 1, 2**31, 2**32 - 1, 2**32, 0x0123456780000000, 0x01234567FFFFFFFF]


def divisions(c):
    """Div and Divw of every pair of these: the manual's quotient, or what docs/DIFFERENCES.md says of the pair."""
    lowered = Lowered(c.program, ["65536 Div 3 1 2 0", "65540 Divw 4 1 2 0"])
    lowered.put_into(c)
    for a, b in itertools.product(DIVIDED, repeat=2):
        ask_lowered(c, lowered, Given({1: a, 2: b}, {}), {"Div", "Divw"})


def ask_lowered(c, lowered, given, kinds):
    with c.further():
        given.put_into(c, lowered)
        for instruction in lowered.instructions:
            if instruction.kind in kinds:
                for place, value in zip(lowered.places(instruction), manual_values(instruction, given), strict=True):
                    c.value(place, value)


def other_lowered_lines(c, lowered, given):
    """Every ite of a Bit or a Word, which are all flows, and every line of Mul and Mulw: those that break the sort rule, or look at one that does,
    are 17. The others are btor2_values.py's."""
    with c.further():
        given.put_into(c, lowered)
        memory, zero = (btor2_values.Array(lambda address, held=held: held.get(address, 0), {}) for held in (given.held, {}))
        start = {nid: 0 for nid in START_SORTS} | {nid: nid % 2 for nid in range(20, 24)} | {23 + r: v for r, v in given.registers.items()}
        start |= {FLAG: given.flag, btor2_values.MEMORY: memory, COUNTER: zero}
        found = btor2_values.evaluate(lowered.nodes, {place + FIRST for place in lowered.ill}, start)
        for instruction in lowered.instructions:
            for node in instruction.nodes:
                if node.sort in (BIT, WORD) and (node.operator == "ite" or instruction.kind in ("Mul", "Mulw")):
                    answer, value = c.ask(node.nid - FIRST), found[node.nid]
                    assert answer == ("refused", 17) if value is None else answer[:2] == ("value", value), (node.nid, answer, value)


#
# All of them
#

GROUPS = [
    zeros_after_the_records, each_kind, operators, not_on_words, sdiv_by_signs, bits, branches, constants, no_short_cuts, reductions, first_records,
    cells, inits, writes, memory_choices, words_and_bits, deep_lists, shared_nodes, limit_cases, endless_towers, orders, sorts_kept, sorts_broken,
    rules_without_a_visit, list_sizes, stored_before, unknown_kinds_and_sorts, broken_operands, asked_nodes, unread, drawn_lists, lowered_lines,
    divisions, addresses,
]  # fmt: skip


def cases(program, **tried):
    c = Cases(program, **tried)
    for make in GROUPS:
        c.group(make)
    return c


def texts(made):
    return {
        "stdin": "".join(" ".join(map(str, command)) + "\n" for command, _ in made),
        "stdout": "".join(line + "\n" for _, answer in made for line in answer),
    }


def counts(c):
    for name, count in c.counts.items():
        yield f"{name}: {count}"
    answers = [answer[0] for _, answer in c.made if answer]
    kinds = collections.Counter(answer if answer.startswith("refused") else "values" for answer in answers)
    yield f"{len(answers)} questions: " + ", ".join(f"{count} {kind}" for kind, count in sorted(kinds.items(), reverse=True))
    yield "visits of those with a value: " + str(sum(int(answer.split()[1]) for answer in answers if not answer.startswith("refused")))
    yield ", ".join(f"{name} {len(made.encode())} bytes" for name, made in texts(c.made).items())


def answer_commands(variant):
    """Stands in for the program."""
    evaluation = evaluation_variants.BY_NAME[variant] if variant else None
    decide = (lambda *question: evaluation_variants.answer(evaluation, question)) if evaluation else evaluate
    desk = Desk(decide)
    for command in sys.stdin:
        for line in desk.do(tuple(map(int, command.split()))):
            print(line)
    return 0


def main():
    parser = argparse.ArgumentParser(description=__doc__, formatter_class=argparse.RawDescriptionHelpFormatter)
    parser.add_argument("what", choices=["stdin", "stdout", "write", "check", "variants", "answer"])
    parser.add_argument("variant", nargs="?", choices=list(evaluation_variants.BY_NAME), metavar="VARIANT")
    parser.add_argument("--folder", type=pathlib.Path, default=REPOSITORY / "crates" / "evaluation_cases")
    parser.add_argument("--listing", type=pathlib.Path, default=LISTING)
    chosen = parser.parse_args()
    if chosen.what == "answer":
        return answer_commands(chosen.variant)
    program = chosen.listing.resolve()
    if not program.is_file():
        sys.exit(f"evaluation_cases.py: {program} is missing")
    if chosen.what == "variants":
        return evaluation_variants.told_apart(lambda tried: cases(program, tried=tried))
    made = cases(program)
    stored = texts(made.made)
    if chosen.what in stored:
        sys.stdout.write(stored[chosen.what])
        return 0
    if chosen.what == "write":
        chosen.folder.mkdir(exist_ok=True)
        for name, content in stored.items():
            (chosen.folder / name).write_text(content)
        print(*counts(made), sep="\n")
        return 0
    differing = [name for name, content in stored.items() if (chosen.folder / name).read_text() != content]
    print(*[f"{chosen.folder / name} is not what is made now" for name in differing] or ["no difference"], sep="\n")
    return len(differing) != 0


if __name__ == "__main__":
    sys.exit(main())
