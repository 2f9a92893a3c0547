#!/usr/bin/env python3
"""Request R-1, the edges joined into flags, read off document 02 and document 01. Shares nothing with the project's definitions and code.

    tools/join_reading.py [VARIANT] < commands      answers the commands of crates/join_cases as the program must, by this reading;
                                                    VARIANT is the name of a wrong one (join_variants.py)

`Join` is all that one call is lent and given, with the state before it; `Reading` answers it: `refusal` gives the first of 9, 13, 15, 16 and
8 that applies, or 0, `joined` what an accepted call appends, and `put_words` what any call leaves of its edges in the words that it may use.
Document 02 has no such words: four an edge are the project's own (docs/DECISIONS.md), and fewer are 9. A record is twelve numbers: identifier,
kind, sort, three operands, constant, area, place and length of a name, mark and address, as crates/lowering_cases/stdout has them. A line that
comes "from the joining of edges" has no address (document 02, R-3), and those of other lines are not looked at. Which lines have a value, and of
what sort, and the sorts of the roles, are start_cases.py's reading of document 01.
"""
import dataclasses
import functools
import sys

from start_cases import BIT, KIND, NO_ADDRESS, ROLE_SORTS, WORD, Line

MOST_LINES = 1_048_576
MOST_NID = 2**31 + 2_097_152
REGULAR, BRANCH, SYSCALL = range(3)  # an edge's origin
EDGE, DISPATCH, FLAG, RECORD = 4, 2, 2, 5  # words
REGISTER_NODES = 7  # the role of x0's node
DYNAMIC_FLAGS = 31
OURS = 2  # the area of names that we put


@functools.cache
def value_sort(kind, sort):
    """The sort of the value of a line of this kind and sort, None for a line that has none."""
    return Line(kind, 0, sort).value


@dataclasses.dataclass
class Join:
    """One call. `records` are the list's records, `list_words` the words that are lent of it, `scratch_words` those that the call may use;
    edges, dispatches, flags and dynamics are the words that are lent, beside them how many records are in use."""

    records: list
    list_words: int
    name_bytes: int
    sequential_words: int
    scratch_words: int
    lines: int
    nid: int
    names: int
    sequentials: int
    roles: list
    edges: list
    edge_count: int
    dispatches: list
    dispatch_count: int
    flags: list
    flag_count: int
    dynamics: list
    mode: int
    none: int
    flow: int

    def given_edges(self):
        """FROM, ORIGIN and CONDITION of each edge; where it leads to is not read."""
        e = self.edges
        return [(e[n * EDGE + 1], e[n * EDGE + 2], e[n * EDGE + 3]) for n in range(self.edge_count)]

    def given_dispatches(self):
        return pairs(self.dispatches, self.dispatch_count)

    def given_flags(self):
        return pairs(self.flags, self.flag_count)

    def sort_at(self, place):
        """The sort of the value line at a place of the list, None where there is no such line."""
        return value_sort(*self.records[place][1:3]) if place < self.lines else None


def pairs(words, count):
    return [(words[2 * n], words[2 * n + 1]) for n in range(count)]


@dataclasses.dataclass
class Joined:
    """What an accepted call leaves: records after the others, bytes after the names, places after the sequentials."""

    lines: list
    names: bytes
    sequentials: list
    flow: int
    nid: int


class Reading:
    def __init__(self, join):
        self.join = join
        self.zero, self.one = join.roles[:2]

    #
    # Refusals: "It refuses as 9 and 13, then with 15 .., then with 16 .., then as 8"
    #

    def refusal(self):
        for number, applies in self.tests():
            if applies():
                return number
        return 0

    def tests(self):
        return (9, self.counts_out), (13, self.roles_out), (15, self.flags_out), (16, self.records_out), (8, self.room_out)

    def counts_out(self):
        j = self.join
        return (
            j.lines > MOST_LINES
            or j.nid > MOST_NID
            or j.lines > j.list_words // RECORD
            or j.names > j.name_bytes
            or j.sequentials > j.sequential_words
            or self.edges_over()
            or j.dispatch_count > len(j.dispatches) // DISPATCH
            or j.flag_count > len(j.flags) // FLAG
        )

    def edges_over(self):
        """More edges than there are records, or than the words that the call may use hold."""
        j = self.join
        return j.edge_count > len(j.edges) // EDGE or j.edge_count > j.scratch_words // EDGE

    def roles_out(self):
        return any(self.join.sort_at(place) != sort for place, sort in zip(self.join.roles, ROLE_SORTS))

    def no_bit(self, place):
        return self.join.sort_at(place) != BIT

    def no_word(self, place):
        return self.join.sort_at(place) != WORD

    def flags_out(self):
        j = self.join
        return self.source_without_flag() or any(map(self.no_bit, [*self.table_places(), j.mode, j.none, j.flow])) or self.dynamics_out()

    def source_without_flag(self):
        return any(self.flag_of(source) is None for source, _, _ in self.join.given_edges())

    def table_places(self):
        return [place for _, place in self.join.given_flags()]

    def dynamics_out(self):
        flags = self.join.dynamics[:DYNAMIC_FLAGS]
        return len(flags) < DYNAMIC_FLAGS or any(map(self.no_bit, flags))

    def records_out(self):
        return any(self.edge_out(*edge) for edge in self.join.given_edges()) or any(
            self.dispatch_out(*dispatch) for dispatch in self.join.given_dispatches()
        )

    def edge_out(self, source, origin, condition):
        return origin not in (REGULAR, BRANCH, SYSCALL) or origin == BRANCH and self.no_bit(condition)

    def dispatch_out(self, register, place):
        return not 1 <= register <= 31 or self.no_word(place)

    def room_out(self):
        j, appended = self.join, self.joined()
        lines = j.lines + len(appended.lines)
        return (
            lines > MOST_LINES
            or lines > j.list_words // RECORD
            or j.names + len(appended.names) > j.name_bytes
            or j.sequentials + len(appended.sequentials) > j.sequential_words
        )

    #
    # Words of the edges
    #

    def put_words(self):
        """Those of all edges in use, whatever else the call is refused for."""
        j = self.join
        return [] if self.edges_over() else j.edges[: EDGE * j.edge_count]

    #
    # Lines: edges first, then dispatches, each in the order given
    #

    def joined(self):
        self.made = Joined([], b"", [], self.join.flow, self.join.nid)
        for take, record in self.steps():
            take(*record)
        return self.made

    def steps(self):
        return [(self.take_edge, edge) for edge in self.join.given_edges()] + [(self.take_dispatch, d) for d in self.join.given_dispatches()]

    def take_edge(self, source, origin, condition):
        flag = self.flag_of(source)
        if origin == BRANCH:
            self.from_branch(flag, condition)
        elif origin == SYSCALL:
            self.from_ecall(flag, source)
        else:
            self.from_any(flag)

    def take_dispatch(self, register, place):
        self.from_jalr(self.join.roles[REGISTER_NODES + register], self.join.dynamics[register - 1], place)

    def flag_of(self, source):
        """The first flag given for an address, None where there is none."""
        return next((place for address, place in self.join.given_flags() if address == source), None)

    def from_branch(self, flag, condition):
        self.from_any(self.append("And", BIT, flag, condition))

    def from_ecall(self, flag, source):
        state = self.append_state(self.name(source))
        follows = self.append("Ite", BIT, state, self.join.mode, flag)
        self.made.sequentials.append(self.append("Next", BIT, state, follows))
        self.from_any(self.append("And", BIT, state, self.join.none))

    def name(self, source):
        return b"kernel-mode-pc-flag-%d" % source

    def from_jalr(self, register, dynamic, place):
        equal = self.append("Eq", BIT, register, place)
        self.from_any(self.append("And", BIT, dynamic, equal))

    def from_any(self, activate):
        """"A flow that is the zero-bit node itself is replaced without an ite": by its place, not by its value."""
        if self.made.flow == self.zero:
            self.made.flow = activate
        else:
            self.made.flow = self.append("Ite", BIT, activate, self.one, self.made.flow)

    def append(self, kind, sort, first, second, third=0):
        """A line without a constant or a name, whose words are read as those of any line."""
        return self.put([self.made.nid, KIND[kind], sort, first, second, third, first, 0, second, third, *NO_ADDRESS], 1)

    def append_state(self, name):
        """A Bit with the zero bit as init, which takes two identifiers."""
        at = self.join.names + len(self.made.names)
        self.made.names += name
        return self.put([self.made.nid, KIND["State"], BIT, self.zero, at, len(name), 1, OURS, at, len(name), *NO_ADDRESS], 2)

    def put(self, record, identifiers):
        self.made.lines.append(record)
        self.made.nid += identifiers
        return self.join.lines + len(self.made.lines) - 1


def answer(join, reading=Reading):
    """The refusal, 0 for none; what an accepted call leaves, None for a refused one; and the words that the call puts."""
    read = reading(join)
    number = read.refusal()
    return number, None if number else read.joined(), read.put_words()


def main():
    # They build on this module; only the stand-in for the program needs them.
    import join_desk
    import join_variants

    if len(sys.argv) > 2 or sys.argv[1:] and sys.argv[1] not in join_variants.BY_NAME:
        sys.exit(f"{__doc__}\nVariants: {', '.join(join_variants.BY_NAME)}")
    reading = join_variants.BY_NAME[sys.argv[1]] if sys.argv[1:] else Reading
    desk = join_desk.Desk(lambda join: answer(join, reading))
    try:
        for line in sys.stdin:
            for text in desk.do(tuple(map(int, line.split()))):
                print(text)
    except (IndexError, TypeError):
        if reading is Reading:
            raise
        print("no answer")  # a wrong reading may take what there is no line for


if __name__ == "__main__":
    main()
