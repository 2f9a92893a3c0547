"""Lists to join on: the two starts of the oracle, each with further lines after it, and calls on them as commands of crates/join_cases.

The further lines are the kernel nodes, 31 dynamic flags, flags, and a line of every kind and sort: Bits and Words that a join may be given, and
lines that it may not. States with an init stand among them, so that identifiers drift from places. Some have an address, as lines of a lowering
have, which a join leaves as it is.
"""
import lowering_cases
import start_cases
from join_desk import AREA_WORDS, AREAS, LIST_WORDS, NAME_BYTES, SCRATCH_WORDS, SEQUENTIALS, Desk
from join_desk import COUNTS, DISPATCHES, DYNAMICS, EDGES, FLAGS, JOIN, KERNEL, LENT, LINE, ROLE, SCRATCH
from join_reading import DISPATCH, DYNAMIC_FLAGS, EDGE, FLAG, RECORD, Reading
from start_cases import BIT, KIND, MEMORY, WORD

ALL = (LIST_WORDS, NAME_BYTES, SEQUENTIALS)
RECORD_WORDS = {EDGES: EDGE, DISPATCHES: DISPATCH, FLAGS: FLAG, DYNAMICS: 1}
assert tuple(RECORD_WORDS) == AREAS


class Lines:
    """A start of the oracle and the further lines: `records`, the next identifier, `at` the places of lines by name, and lists of places:
    `bits` and `words` of lines with such a value, `others` of lines that are neither."""

    def __init__(self, start):
        self.start = start
        self.records = [list(record) for record in start.records]
        self.next = start.next
        self.roles = list(start.roles)
        self.zero, self.one = self.roles[:2]
        self.at = {}
        self.add_flags()
        self.add_bits()
        self.add_words()
        self.add_others()
        assert start_cases.refusal(self.as_start()) == 0

    def as_start(self):
        """The list as a start, which document 01's check of a start must accept."""
        records = [start_cases.Line.of(*record) for record in self.records]
        return start_cases.Start(records, self.roles, self.next, words=RECORD * len(records))

    def add(self, name, kind, sort, operands=(), imm=0):
        first, second, third = (*operands, 0, 0, 0)[:3]
        self.at[name] = len(self.records)
        address = lowering_cases.some_address(len(self.records))
        self.records.append([self.next, KIND[kind], sort, first, second, third, imm, *lowering_cases.NO_NAME, *address])
        self.next += 2 if kind == "State" and imm else 1
        return self.at[name]

    def add_flags(self):
        """As the Rust has them: the kernel nodes, and dynamic flags, every other one with an init."""
        self.mode = self.add("mode", "State", BIT, (self.zero,), 1)
        self.none = self.add("not", "Not", BIT, (self.mode,))
        self.dynamics = [self.add(f"dynamic {r}", "State", BIT, (self.zero,), r % 2) for r in range(1, DYNAMIC_FLAGS + 1)]
        self.flags = [self.add(f"flag {n}", "State", BIT, (self.one,), n % 2) for n in range(6)]

    def add_bits(self):
        """A Bit of every kind that has one. Two are equal to the zero and the one bit, and are not these."""
        a, b, c = self.flags[:3]
        x, y = self.roles[8:10]
        self.bits = [
            self.add("another 0", "Const", BIT), self.add("another 1", "Const", BIT, imm=1), self.add("input", "Input", BIT),
            self.add("eq", "Eq", BIT, (x, y)), self.add("eq of bits", "Eq", BIT, (a, b)), self.add("ult", "Ult", BIT, (x, y)),
            self.add("and", "And", BIT, (a, b)), self.add("or", "Or", BIT, (a, b)), self.add("not a flag", "Not", BIT, (a,)),
            self.add("ite", "Ite", BIT, (a, b, c)),
        ]  # fmt: skip
        self.bits += [self.zero, self.one, self.mode, self.dynamics[0], *self.flags[:2]]

    def add_words(self):
        a, x, y, memory = self.flags[0], self.roles[8], self.roles[9], self.roles[4]
        self.words = [self.add("address", "Const", WORD, imm=65536), self.add("word state", "State", WORD, (x,), 1)]
        self.words.append(self.add("word input", "Input", WORD))
        for kind in ("Add", "Sub", "Mul", "Divu", "Div", "Rem", "Sll", "Srl"):
            self.words.append(self.add(kind, kind, WORD, (x, y)))
        self.words += [
            self.add("read", "Read", WORD, (memory, x)), self.add("ext", "Ext", BIT, (a,)), self.add("word ite", "Ite", WORD, (a, x, y)),
            self.add("word and", "And", WORD, (x, y)), self.add("word or", "Or", WORD, (x, y)), self.add("word not", "Not", WORD, (x,)), x,
        ]  # fmt: skip

    def add_others(self):
        """Inputs of 1 to 7 bytes, memories, and lines without a value."""
        a, b, x, memory = *self.flags[:2], self.roles[8], self.roles[4]
        self.others = [self.add(f"{n} bytes", "Input", 10 + n) for n in range(1, 8)]
        self.others += [memory, self.add("write", "Write", MEMORY, (memory, x, x)), self.add("memory ite", "Ite", MEMORY, (a, memory, memory))]
        self.others += [self.add("next", "Next", BIT, (a, b)), self.add("word next", "Next", WORD, (x, x)), self.add("bad", "Bad", 0, (a,))]

    def put(self):
        """The commands that make the list."""
        for place, record in enumerate(self.records):
            yield LINE, place, *record
        for role, place in enumerate(self.roles):
            yield ROLE, role, place


class Calls:
    """Calls on a list, as pairs of a command and its answer. What a call is given is handed over only where it isn't there already."""

    def __init__(self, lines, decide, desk=None):
        self.lines = lines
        self.desk = desk or Desk(decide)
        self.desk.decide = decide
        self.made = []
        for command in lines.put():
            self.do(*command)
        self.reset()

    def do(self, *command):
        answer = self.desk.do(command)
        self.made.append((command, answer))
        return answer

    def reset(self):
        """The list without the lines of joins."""
        self.tally(lines=len(self.lines.records), nid=self.lines.next, names=0)
        self.set(LENT, [*self.desk.lent, self.desk.listed], [*ALL, 0])
        self.lend_scratch()

    def tally(self, lines=None, nid=None, names=None, others=(0, 0, 0)):
        """Sets counts of the state; those that are not given stay."""
        now = self.desk.counts
        self.set(COUNTS, now, [n if n is not None else old for n, old in zip((lines, nid, names), now)] + list(others))

    def set(self, command, now, wanted):
        if list(now) != list(wanted):
            self.do(command, *wanted)

    def role(self, role, place):
        self.set(ROLE, [role, self.desk.roles.numbers[role]], [role, place])

    def lend(self, list_words=None, name_bytes=None, sequential_words=None, listed=None):
        """Lends so much of each, and all where nothing is said; `listed` sequentials are then in use, or as many as were."""
        lent = [all_of if n is None else n for n, all_of in zip((list_words, name_bytes, sequential_words), ALL)]
        self.set(LENT, [*self.desk.lent, self.desk.listed], [*lent, self.desk.listed if listed is None else listed])

    def lend_scratch(self, words=SCRATCH_WORDS):
        """Lends so many of the words that a call may use."""
        self.set(SCRATCH, [self.desk.scratch_lent], [words])

    def give(self, area, records, count=None, words=None):
        """Hands over records; `count` of them are in use, and `words` words lent where that is not all of them."""
        flat = [word for record in records for word in record][:words]
        assert len(flat) <= AREA_WORDS
        now, held = self.desk.given[area]
        self.set(area, [now, len(held), *held], [len(flat) // RECORD_WORDS[area] if count is None else count, len(flat), *flat])

    def given(self, flow=None, edges=(), dispatches=(), flags=None, dynamics=None, mode=None, none=None, counts=None, words=None):
        """Hands over all that a call is given, and returns its flow. Where nothing else is said the flow is the zero bit, and the flags are those
        of `ADDRESSES`; `counts` and `words` say of an area how many records are in use and how many words are lent, where not all are."""
        lines, counts, words = self.lines, counts or {}, words or {}
        flags = zip(ADDRESSES, lines.flags) if flags is None else flags
        for area, records in ((EDGES, edges), (DISPATCHES, dispatches), (FLAGS, flags)):
            self.give(area, records, counts.get(area), words.get(area))
        self.give(DYNAMICS, [(place,) for place in (lines.dynamics if dynamics is None else dynamics)])
        self.set(KERNEL, self.desk.kernel, [lines.mode if mode is None else mode, lines.none if none is None else none])
        return lines.zero if flow is None else flow

    def join(self, flow=None, **given):
        """The answer to a call."""
        return self.do(JOIN, self.given(flow, **given))

    def needs(self, flow=None, **given):
        """The lines, bytes of names and sequentials that a call appends, None where it is refused for something else than the room for them."""
        reading = Reading(self.desk.call(self.given(flow, **given)))
        if any(applies() for number, applies in reading.tests() if number != 8):
            return None
        joined = reading.joined()
        return len(joined.lines), len(joined.names), len(joined.sequentials)


ADDRESSES = [0, 9, 10, 65536, 65540, 2**64 - 1]  # as many as there are flags


def listing():
    return Lines(lowering_cases.listing())


def apart():
    return Lines(lowering_cases.apart())
