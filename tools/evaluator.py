"""Request R-2, a bench that runs the lines: the value of one node of a list on given values, and how many looks at nodes it takes.

Written from document 02 (R-2), document 01 (the sort rule, "Start, storage, evaluation"), the BTOR2 paper, and SMT-LIB's FixedSizeBitVectors
and ArraysEx for the operators. Shares nothing with the project's definitions and code; the layout of a record and the numbers of kinds and
sorts are those of host/lanthanumbat.h.

    evaluate(words, lines, values, memory, asked)   ("value", the value, the visits) or ("refused", the number)

`words` are the words of the list that are lent, five a line, and `lines` is how many lines it has; `values` are the words of records (node,
value), `memory` those of records (node, address, word). The address that a line was lowered for, its last word, and its mark are not looked at
(document 02, R-3). A look at a node is a generator that yields the looks it needs and is sent what they come to. `run` keeps those that wait in
a list, so that a chain of 4,096 lines is no deeper for Python than a short one.
"""
import functools

MOST_LINES, MOST_VISITS = 4096, 100_000
RECORD, VALUE_RECORD, MEMORY_RECORD = 5, 2, 3  # words

KINDS = "const read write add sub mul udiv sdiv urem sll srl ult uext ite eq and or not state next input bad".split()
BIT, WORD, MEMORY = 1, 2, 3
WIDTH = {BIT: 1, WORD: 64, **{10 + n: 8 * n for n in range(1, 8)}}
SORTS = {*WIDTH, MEMORY}
OWN_SORT = {"const", "uext", "ite", "and", "or", "not", "state", "next", "input"}  # those whose sort is read off the record
ON_WORDS = {"add", "sub", "mul", "udiv", "sdiv", "urem", "sll", "srl", "ult"}
OPERANDS = {**dict.fromkeys(ON_WORDS, 2), "read": 2, "write": 3, "uext": 1, "ite": 3, "eq": 2, "and": 2, "or": 2, "not": 1, "next": 2, "bad": 1}
FREE = {"state", "input"}  # their values are given
NO_VALUE = {"next", "bad"}

#
# SMT-LIB's operators at 64 bits
#

ALL = 2**64


def bvudiv(a, b):
    return a // b if b else ALL - 1


def bvneg(a):
    return -a % ALL


def bvsdiv(a, b):
    """By bvudiv of the magnitudes, case by case of the two sign bits."""
    if a >> 63 == 0 and b >> 63 == 0:
        return bvudiv(a, b)
    if a >> 63 == 1 and b >> 63 == 0:
        return bvneg(bvudiv(bvneg(a), b))
    if a >> 63 == 0 and b >> 63 == 1:
        return bvneg(bvudiv(a, bvneg(b)))
    return bvudiv(bvneg(a), bvneg(b))


OPERATORS = {  # of the operands' values; And, Or and Eq on Bits too
    "add": lambda a, b: (a + b) % ALL,
    "sub": lambda a, b: (a - b) % ALL,
    "mul": lambda a, b: a * b % ALL,
    "udiv": bvudiv,
    "sdiv": bvsdiv,
    "urem": lambda a, b: a % b if b else a,
    "sll": lambda a, b: (a << b) % ALL if b < 64 else 0,
    "srl": lambda a, b: a >> b if b < 64 else 0,
    "ult": lambda a, b: int(a < b),
    "eq": lambda a, b: int(a == b),
    "and": lambda a, b: a & b,
    "or": lambda a, b: a | b,
    "uext": lambda a: a,
}

#
# A line
#


class Line:
    """What five words say. `kind` is None where the number is no kind's; `carries` is the sort of its value, None for a line that has none."""

    def __init__(self, head, first, second, third, address=0):
        kind, self.sort = head & 255, head >> 8 & 255
        self.kind = KINDS[kind - 1] if 1 <= kind <= len(KINDS) else None
        self.number = first  # of a const
        has_init = self.kind == "state" and head >> 24 & 15 != 0
        self.operands = (first, second, third)[: 1 if has_init else OPERANDS.get(self.kind, 0)]
        self.known = self.kind is not None and (self.kind not in OWN_SORT or self.sort in SORTS)
        self.carries = self.value_sort() if self.known else None

    def value_sort(self):
        if self.kind in NO_VALUE:
            return None
        if self.kind in ("ult", "eq"):
            return BIT
        if self.kind == "write":
            return MEMORY
        return self.sort if self.kind in OWN_SORT - {"uext"} else WORD


line_of = functools.lru_cache(1 << 16)(Line)  # equal words say the same


#
# The answer to one question
#


class Refused(Exception):
    def __init__(self, number):
        self.number = number


class Evaluation:
    def __init__(self, words, lines, values, memory, limit=MOST_VISITS):
        self.words, self.count, self.values, self.memory, self.limit = words, lines, values, memory, limit
        self.lines, self.visits = [], 0

    def answer(self, asked):
        try:
            self.check(asked)
            value = run(self.value(asked))
        except Refused as refused:
            return "refused", refused.number
        return "value", value, self.visits

    # "It refuses with 19 a longer list or one above its storage, an unknown kind or sort or a broken operand anywhere in it, or an asked node
    # that isn't a value line of sort Bit or Word": all of it before the first visit

    def check(self, asked):
        if self.too_long():
            raise Refused(19)
        self.lines = [line_of(*self.words[at : at + RECORD]) for at in range(0, RECORD * self.count, RECORD)]
        if any(map(self.broken, range(self.count))) or self.no_answer(asked):
            raise Refused(19)

    def too_long(self):
        return self.count > MOST_LINES or self.count > len(self.words) // RECORD

    def broken(self, place):
        """An operand is an earlier line other than Next and Bad: those of every kind, an init too."""
        line = self.lines[place]
        return not line.known or any(operand >= place or self.lines[operand].carries is None for operand in line.operands)

    def no_answer(self, asked):
        return asked >= self.count or self.lines[asked].carries not in (BIT, WORD)

    # "with 18 when a visit would pass the limit, tested before that node is looked at, and with 17 when that node breaks the sort rule"

    def visit(self, place):
        if self.visits == self.limit:
            raise Refused(18)
        self.visits += 1
        line = self.lines[place]
        if not self.well_sorted(line):
            raise Refused(17)
        return line

    def well_sorted(self, line):
        """Document 01's sort rule for a line that has a value, from the sorts that its operands carry."""
        sort, has = line.sort, [self.lines[operand].carries for operand in line.operands]
        if line.kind == "const":  # "Const fits its sort and isn't Memory"
            return sort != MEMORY and line.number < 2 ** WIDTH[sort]
        if line.kind == "state":  # "State's init has its sort, or Word for Memory"
            return has in ([], [sort]) or sort == MEMORY and has == [WORD]
        if line.kind == "uext":  # "Ext takes a value of its `from`, Bit or an input sort"
            return sort not in (WORD, MEMORY) and has == [sort]
        if line.kind in ("and", "or", "not"):  # "on Bit or Word, operands and result alike"
            return sort in (BIT, WORD) and set(has) == {sort}
        if line.kind == "eq":  # "on two Bits or two Words, itself Bit"
            return has in ([BIT, BIT], [WORD, WORD])
        if line.kind == "ite":  # "a Bit condition and branches of its sort"
            return has == [BIT, sort, sort]
        if line.kind == "read":  # "reads and writes on a Memory with Word addresses and values"
            return has == [MEMORY, WORD]
        if line.kind == "write":
            return has == [MEMORY, WORD, WORD]
        return line.kind == "input" or has == [WORD, WORD]  # "Ult on Words, itself Bit; other operators on Words"

    # "Operands are looked at in printed order, but an ite takes only the chosen branch, a read or write its address before its memory, and a
    # write its value only where it covers the cell"

    def value(self, place):
        """A look at a Bit, a Word or an input of bytes."""
        line = self.visit(place)
        if line.kind == "const":
            return line.number
        if line.kind in FREE:
            return self.given_value(place, line)
        if line.kind == "read":
            return (yield from self.read(*line.operands))
        if line.kind == "ite":
            return (yield self.value((yield from self.branch(*line.operands))))
        return self.operator(line, *(yield from self.operands(line)))

    def operands(self, line):
        found = []
        for operand in line.operands:
            found.append((yield self.value(operand)))
        return found

    def operator(self, line, *operands):
        if line.kind == "not":
            return operands[0] ^ 2 ** WIDTH[line.sort] - 1
        return OPERATORS[line.kind](*operands)

    def branch(self, condition, first, second):
        """The place of the branch that an ite takes."""
        return first if (yield self.value(condition)) == 1 else second

    def read(self, memory, address):
        return (yield self.cell(memory, (yield self.value(address))))

    # "A memory cell is found by walking back to the newest write that covers it"

    def cell(self, place, asked):
        """A look at a Memory, for its cell at an address. By the sort rule it is a state, an input, an ite or a write."""
        line = self.visit(place)
        if line.kind in FREE:
            return self.given_cell(place, asked)
        if line.kind == "ite":
            return (yield self.cell((yield from self.branch(*line.operands)), asked))
        return (yield from self.written(asked, *line.operands))

    def written(self, asked, memory, address, value):
        if (yield self.value(address)) == asked:
            return (yield self.value(value))
        return (yield self.cell(memory, asked))

    # "the first for a node, or node and address, counts, a missing one reads 0, an init isn't used", "a value too wide is taken modulo 2 to
    # its width"; words after the last whole record are none

    def given_value(self, place, line):
        found = (value for node, value in records(self.values, VALUE_RECORD) if node == place)
        return next(found, 0) % 2 ** WIDTH[line.sort]

    def given_cell(self, place, address):
        found = (word for node, at, word in records(self.memory, MEMORY_RECORD) if (node, at) == (place, address))
        return next(found, 0)


def records(words, size):
    """The whole records of words that are lent."""
    return zip(*[iter(words)] * size)


def run(look):
    """What a look comes to."""
    waiting, result = [look], None
    while waiting:
        try:
            needed = waiting[-1].send(result)
        except StopIteration as done:
            waiting.pop()
            result = done.value
        else:
            waiting.append(needed)
            result = None
    return result


def evaluate(words, lines, values, memory, asked, limit=MOST_VISITS, evaluation=Evaluation):
    return evaluation(words, lines, values, memory, limit).answer(asked)
