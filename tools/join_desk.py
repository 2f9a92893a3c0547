"""The storage of the program crates/join_cases, and what its commands do to it: crates/join_cases/src/main.rt says what they are.

A `Desk` answers a command as the program must, in its lines of text. What a call gives is not decided here but by the function that the desk
is made with: it takes a `Join` and gives the refusal, what an accepted call leaves, and the words that it puts of its edges. The desk puts
that where the contract of a call has it: after what is in use, the edges' words in front of those that a call may use, and nowhere else. So
what it shows of the whole storage after each call is what an accepted call may write and what a refused one must leave alone. The layout of
the records is the crates'.
"""
from join_reading import RECORD, Join
from start_cases import KIND, NO_ADDRESS, ROLE_SORTS

JOIN, LINE, COUNTS, ROLE, EDGES, DISPATCHES, FLAGS, DYNAMICS, KERNEL, LENT, SCRATCH = range(1, 12)  # the commands
AREAS = (EDGES, DISPATCHES, FLAGS, DYNAMICS)
LIST_WORDS, NAME_BYTES, SEQUENTIALS, AREA_WORDS = 4000, 2048, 64, 64
SCRATCH_WORDS = 68  # those that a call may use
BEFORE = 46  # every word and byte of them, the list, our area and the sequentials, so that a 0 which a call puts anywhere shows
NAMED = {KIND["State"], KIND["Input"], KIND["Bad"]}


def words_of(record):
    """A record's five words. A constant stands in the first operand's place, the place and the length of a name in those of the others. The last
    is the address; where there is none it is 0."""
    nid, kind, sort, first, second, third, imm, area, at, length, mark, address = record
    init = kind == KIND["State"] and imm != 0
    if kind in NAMED:
        second, third = at, length
    head = nid << 32 | (mark != 0) << 28 | init << 24 | area << 16 | sort << 8 | kind
    return [head, imm if kind == KIND["Const"] else first, second, third, address if mark else 0]


def record_of(words):
    """The twelve numbers of five words, as they are read."""
    head, first, second, third, address = words
    kind = head % 256
    imm = head >> 24 & 15 if kind == KIND["State"] else first
    said = (1, address) if head >> 28 & 15 else NO_ADDRESS
    return [head >> 32, kind, head >> 8 & 255, first, second, third, imm, head >> 16 & 255, second, third, *said]


class Digested:
    """Numbers with one number for all of them: each counts five times the one after it, modulo 2^64."""

    def __init__(self, numbers):
        self.numbers = list(numbers)
        self.weights = [pow(5, len(self.numbers) - 1 - place, 2**64) for place in range(len(self.numbers))]
        self.digest = sum(map(int.__mul__, self.numbers, self.weights)) % 2**64

    def put(self, place, numbers):
        for n, number in enumerate(numbers, place):
            self.digest = (self.digest + (number - self.numbers[n]) * self.weights[n]) % 2**64
            self.numbers[n] = number


class Desk:
    def __init__(self, decide):
        self.decide = decide
        self.list = Digested([BEFORE] * LIST_WORDS)
        self.records = [record_of([BEFORE] * RECORD)] * (LIST_WORDS // RECORD)
        self.names = Digested([BEFORE] * NAME_BYTES)
        self.sequentials = Digested([BEFORE] * SEQUENTIALS)
        self.scratch = Digested([BEFORE] * SCRATCH_WORDS)
        self.roles = Digested([0] * len(ROLE_SORTS))
        self.counts = [0] * 6  # lines, next identifier, names, edges, dispatches, bads
        self.given = {area: (0, []) for area in AREAS}
        self.kernel = [0, 0]
        self.lent = [0, 0, 0]
        self.scratch_lent = SCRATCH_WORDS
        self.listed = 0

    def put_line(self, place, record):
        words = words_of(record)
        self.list.put(place * RECORD, words)
        self.records[place] = record_of(words)

    def do(self, command):
        """The lines of text that the program writes for a command."""
        which, *numbers = command
        if which == JOIN:
            return self.join(*numbers)
        if which == COUNTS:
            self.counts = numbers
        elif which == ROLE:
            self.roles.put(numbers[0], numbers[1:])
        elif which == LINE:
            self.put_line(numbers[0], numbers[1:])
        elif which in AREAS:
            count, words, *given = numbers
            assert len(given) == words <= AREA_WORDS
            self.given[which] = count, given
        elif which == KERNEL:
            self.kernel = numbers
        elif which == LENT:
            *self.lent, self.listed = numbers
        elif which == SCRATCH:
            (self.scratch_lent,) = numbers
            assert self.scratch_lent <= SCRATCH_WORDS
        else:
            raise ValueError(f"no command: {command}")
        return []

    def call(self, flow):
        """All that a join is given now."""
        list_words, name_bytes, sequential_words = self.lent
        lines, nid, names, *_ = self.counts
        edges, dispatches, flags, dynamics = (self.given[area] for area in AREAS)
        return Join(
            self.records, list_words, name_bytes, sequential_words, self.scratch_lent, lines, nid, names, self.listed, self.roles.numbers,
            edges[1], edges[0], dispatches[1], dispatches[0], flags[1], flags[0], dynamics[1], *self.kernel, flow,
        )  # fmt: skip

    def join(self, flow):
        number, joined, words = self.decide(self.call(flow))
        self.scratch.put(0, words)
        return [f"refusal {number}", *([] if number else self.accept(joined)), self.in_use(), self.left()]

    def accept(self, joined):
        lines, nid, names, *others = self.counts
        for place, record in enumerate(joined.lines, lines):
            self.put_line(place, record)
        self.names.put(names, joined.names)
        self.sequentials.put(self.listed, joined.sequentials)
        self.counts = [lines + len(joined.lines), joined.nid, names + len(joined.names), *others]
        self.listed += len(joined.sequentials)
        for place in range(lines, self.counts[0]):
            yield from self.shown(self.records[place])
        yield texts("sequentials", joined.sequentials)
        yield f"flow {joined.flow}"

    def shown(self, record):
        """A line of the list, and after a State its name."""
        yield " ".join(map(str, record))
        if record[1] == KIND["State"]:
            at, length = record[8:10]
            yield bytes(self.names.numbers[at : at + length]).decode()

    def in_use(self):
        return texts("counts", [*self.counts, self.listed])

    def left(self):
        return texts("left", [part.digest for part in (self.list, self.names, self.sequentials, self.roles, self.scratch)])


def texts(title, numbers):
    return " ".join([title, *map(str, numbers)])
