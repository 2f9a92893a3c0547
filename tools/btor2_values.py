"""BTOR2's node lines as text: their sorts, and their values by the operators of SMT-LIB's FixedSizeBitVectors and ArraysEx.

Written from the BTOR2 paper and SMT-LIB; shares nothing with the project's definitions and code. Only what the lowering prints is read:
sorts 1 (Bit), 2 (Word of 64 bits) and 3 (Memory), over the listing's start, lines 20 to 58.
"""

WORD = 2**64
BIT, WORDS, ARRAY = 1, 2, 3
MEMORY, COUNTER, COUNTER_MAX, FLAG = 55, 56, 57, 58
START_SORTS = {20: BIT, 21: BIT, **{n: WORDS for n in range(22, 55)}, MEMORY: ARRAY, COUNTER: ARRAY, COUNTER_MAX: WORDS, FLAG: BIT}


class Array:
    """What an array holds: the cells that were written, over those of a state."""

    def __init__(self, state, written):
        self.state, self.written = state, written

    def read(self, address):
        return self.written[address] if address in self.written else self.state(address)

    def write(self, address, value):
        return Array(self.state, {**self.written, address: value})


def negative(a):
    return a >> 63 == 1


def sdiv(a, b):
    """SMT-LIB's bvsdiv, case by case."""
    quotient = udiv(-a % WORD if negative(a) else a, -b % WORD if negative(b) else b)
    return quotient if negative(a) == negative(b) else -quotient % WORD


def udiv(a, b):
    return a // b if b else WORD - 1


WORD_OPERATORS = {
    "add": lambda a, b: (a + b) % WORD,
    "sub": lambda a, b: (a - b) % WORD,
    "mul": lambda a, b: a * b % WORD,
    "udiv": udiv,
    "sdiv": sdiv,
    "urem": lambda a, b: a % b if b else a,
    "sll": lambda a, b: (a << b) % WORD if b < 64 else 0,
    "srl": lambda a, b: a >> b if b < 64 else 0,
}
OPERATORS = {  # of operands' values
    **WORD_OPERATORS,
    "read": Array.read,
    "write": Array.write,
    "ult": lambda a, b: int(a < b),
    "eq": lambda a, b: int(a == b),
    "and": lambda a, b: a & b,
    "or": lambda a, b: a | b,
    "ite": lambda c, a, b: a if c else b,
    "uext": lambda a: a,
}


def well_sorted(operator, sort, operands, number):
    """Whether BTOR2 lets an operator give this sort from operands of these sorts; number is uext's width or constd's constant."""
    if operator == "constd":
        return sort == BIT and number < 2 or sort == WORDS and number < WORD
    if operator in WORD_OPERATORS:
        return (sort, operands) == (WORDS, [WORDS, WORDS])
    if operator in ("and", "or"):
        return sort in (BIT, WORDS) and operands == [sort, sort]
    return (operator, sort, operands) in (
        ("not", BIT, [BIT]), ("not", WORDS, [WORDS]), ("ult", BIT, [WORDS, WORDS]), ("eq", BIT, [BIT, BIT]), ("eq", BIT, [WORDS, WORDS]),
        ("ite", BIT, [BIT, BIT, BIT]), ("ite", WORDS, [BIT, WORDS, WORDS]), ("ite", ARRAY, [BIT, ARRAY, ARRAY]),
        ("read", WORDS, [ARRAY, WORDS]), ("write", ARRAY, [ARRAY, WORDS, WORDS]), ("bad", None, [BIT]),
    ) or (operator, sort, operands, number) == ("uext", WORDS, [BIT], 63)  # fmt: skip


class Node:
    """A node line: identifier, operator, sort, operands' identifiers, and a constant's value or the width that uext adds."""

    def __init__(self, text):
        nid, self.operator, *rest = text.split()
        self.nid, self.sort, self.number = int(nid), None, None
        if self.operator == "bad":
            rest = rest[:1]  # its name goes
        else:
            self.sort = int(rest.pop(0))
        if self.operator in ("constd", "uext"):
            self.number = int(rest.pop())
        self.operands = [int(word) for word in rest]


def ill_sorted(nodes):
    """The identifiers of lines that break BTOR2's sorts."""
    sorts, ill = dict(START_SORTS), set()
    for node in nodes:
        if not well_sorted(node.operator, node.sort, [sorts.get(o) for o in node.operands], node.number):
            ill.add(node.nid)
        sorts[node.nid] = node.sort
    return ill


def evaluate(nodes, ill, start):
    """Every line's value, None where it is ill-sorted or made of what has none."""
    values = dict(start)
    for node in nodes:
        operands = [values.get(o) for o in node.operands]
        if node.nid in ill or None in operands:
            value = None
        elif node.operator == "constd":
            value = node.number
        elif node.operator == "not":
            value = operands[0] ^ (1 if node.sort == BIT else WORD - 1)
        elif node.operator == "bad":
            value = None
        else:
            value = OPERATORS[node.operator](*operands)
        values[node.nid] = value
    return values
