#!/usr/bin/env python3
"""Joins of an address's edges and dispatches into a flow, with all that each call must leave.

    tools/join_cases.py stdin      crates/join_cases/stdin: a command to a line
    tools/join_cases.py stdout     crates/join_cases/stdout: what each call leaves, or its refusal
    tools/join_cases.py check      makes both anew and compares them with the stored ones: exit status 1 where they differ
    tools/join_cases.py variants   how many of the stored joins each wrong reading (join_variants.py) answers in another way: exit status 1
                                   where one is not found

What an accepted join appends is read off the text that the unchanged Rust's five functions print (differential/target/oracle --join, which
differential/build.sh makes), by join_rust.py; join_reading.py, a reading of R-1 of its own, must give the same. The Rust has no refusals:
their numbers are the reading's, and are written beside each case here too. Nor has it the words that a call may use for its edges: what a call
leaves in them is the reading's. The new flow of every accepted join is evaluated on random values (join_values.py). join_lists.py says what
the lists are, join_desk.py what the program writes. Nothing here is shared with the project's definitions and code; the layout of the records
and the numbers of kinds and origins are the crates'.
"""
import collections
import itertools
import sys

import join_lists
import join_rust
import join_variants
import lowering_cases
from join_desk import DISPATCHES, EDGES, FLAGS, Desk
from join_lists import ADDRESSES
from join_reading import BRANCH, EDGE, MOST_LINES, MOST_NID, RECORD, REGULAR, SYSCALL
from lowering_cases import NO_NAME, TOP
from start_cases import BIT, KIND, ROLE_SORTS

LONG, SHORT = 2**64 - 1, 9  # a source's address of twenty digits, and of one
NAME = len("kernel-mode-pc-flag-")


def regular(source, condition=TOP, to=0):
    return to, source, REGULAR, condition


def branch(source, condition, to=0):
    return to, source, BRANCH, condition


def syscall(source, condition=TOP, to=0):
    return to, source, SYSCALL, condition


class Cases(join_lists.Calls):
    """Calls whose answers are the Rust's, each with the number that is written beside it."""

    def refused(self, number, flow=None, **given):
        answer = self.join(flow, **given)
        assert answer[0] == f"refusal {number}", (answer, number, given)
        return answer

    def accepted(self, flow=None, **given):
        """The place of the new flow."""
        answer = self.refused(0, flow, **given)
        return int(next(text for text in answer if text.startswith("flow ")).split()[1])

    def one_of_each(self, source=65536):
        """A join with one edge of an origin, or one dispatch."""
        yield dict(edges=[regular(source)])
        yield dict(edges=[branch(source, self.lines.at["ult"])])
        yield dict(edges=[syscall(source)])
        yield dict(dispatches=[(5, self.lines.at["address"])])

    def each_part(self):
        """The parts of `one_of_each`, to be put together."""
        for given in self.one_of_each():
            yield given.get("edges", []), given.get("dispatches", [])


#
# Accepted: lines, names, sequentials and flow
#


def empty_joins(c):
    """The flow comes back, whatever it is."""
    for name in ("another 0", "another 1", "input", "ult", "not a flag", "ite", "mode"):
        c.accepted(c.lines.at[name])
    c.accepted(c.lines.zero)
    c.accepted(c.lines.one)


def single_joins(c):
    """Each origin and a dispatch from the zero bit, from another line of value 0, and from a flow of any other sort."""
    for flow in (c.lines.zero, c.lines.one, c.lines.at["another 0"], c.lines.flags[0]):
        for given in c.one_of_each():
            c.accepted(flow, **given)


def zero_bit_on_the_way(c):
    """A regular edge whose flag is the zero bit leaves the zero bit, and whatever comes after replaces it; another 0 is no zero bit."""
    zero, another, flag = c.lines.zero, c.lines.at["another 0"], c.lines.flags[0]
    table = [(65536, flag), (4, zero), (8, another)]
    for first in (4, 8):
        for edges, dispatches in c.each_part():
            c.accepted(edges=[regular(first), *edges], dispatches=dispatches, flags=table)
            c.accepted(edges=[*edges, regular(first)], dispatches=dispatches, flags=table)
        c.accepted(edges=[branch(first, c.lines.at["ult"]), regular(65536)], flags=table)
        c.accepted(edges=[syscall(first), regular(65536)], flags=table)
        c.accepted(edges=[regular(first)] * 3, flags=table)
        c.accepted(edges=[regular(first)] * 3 + [regular(65536)], flags=table)
        c.accepted(flag, edges=[regular(first)], flags=table)
    c.accepted(dispatches=[(1, c.lines.at["address"])], dynamics=[zero] * 31)
    c.accepted(edges=[branch(4, zero)], flags=table, none=zero, mode=zero)
    c.accepted(edges=[regular(65536), regular(4), regular(8)], flags=table)


def orders(c):
    """Edges and dispatches in every order."""
    kinds = [regular(0), branch(10, c.lines.at["eq"]), syscall(65540)]
    dispatches = [(1, c.lines.at["address"]), (31, c.lines.at["word state"])]
    for n, edges in enumerate(itertools.permutations(kinds)):
        c.accepted(edges=edges, dispatches=dispatches[n % 3 :])
    c.accepted(edges=[regular(0), regular(10)])
    c.accepted(edges=[regular(10), regular(0)])
    c.accepted(dispatches=dispatches[::-1])
    c.reset()


def first_flags(c):
    """Of equal addresses the first counts, wherever the others stand."""
    a, b, d = c.lines.flags[:3]
    for table in ([(8, a), (8, b)], [(8, b), (8, a)], [(4, d), (8, a), (8, b), (8, d)], [(8, a), (4, b), (8, d), (4, a)], [(8, d), (8, d)]):
        c.accepted(edges=[regular(8)], flags=table)
        c.accepted(d, edges=[branch(8, a), syscall(8)], flags=table)


def equal_sources(c):
    """States of equal sources have equal names and places of their own, in one join and over two."""
    flow = c.accepted(edges=[syscall(10), syscall(10)])
    flow = c.accepted(flow, edges=[syscall(10), regular(10), branch(10, flow), syscall(10)])
    c.accepted(flow, edges=[regular(10), regular(10)])
    c.accepted(edges=[branch(10, flow), branch(10, flow)])
    c.reset()


def addresses(c):
    """Names of every length, and addresses that a machine word only just holds."""
    for address in (0, 9, 10, 99, 100, 2**32, 2**63, 10**18 - 1, 10**18, 10**19 - 1, 10**19, TOP):
        c.accepted(edges=[syscall(address)], flags=[(address, c.lines.flags[0])])
    for address in (0, TOP):
        c.accepted(c.lines.one, edges=[regular(address), branch(address, c.lines.at["or"])], flags=[(address, c.lines.flags[1])])
    c.reset()


def many(c):
    """None, one, two, seven and sixteen edges of one origin and of all; as many dispatches."""
    condition, address = c.lines.at["and"], c.lines.at["address"]
    for count in (0, 2, 7, 16):
        for edge in (regular(65536), branch(65536, condition), syscall(65536)):
            c.accepted(edges=[edge] * count)
        mixed = [(regular, branch, syscall)[n % 3](ADDRESSES[n % 6], condition) for n in range(count)]
        c.accepted(c.lines.flags[1], edges=mixed, dispatches=[(1 + n, address) for n in range(count)])
        c.reset()


def registers(c):
    """Dispatches of x1 and x31, the same twice, and all of them."""
    address = c.lines.at["address"]
    for register in (1, 2, 16, 30, 31):
        c.accepted(dispatches=[(register, address)])
    c.accepted(dispatches=[(31, address), (31, address)])
    c.accepted(c.lines.flags[0], dispatches=[(1, address), (1, c.lines.at["Add"])])
    c.accepted(dispatches=[(register, address) for register in range(1, 32)])
    c.reset()


def address_nodes(c):
    """A Word of every kind as address node, among them the node of x0 and the dispatched register's own."""
    for n, word in enumerate(c.lines.words):
        c.accepted(dispatches=[(1 + n, word)])
    for place in c.lines.roles[7:9]:
        c.accepted(dispatches=[(1, place)])
    c.reset()


def every_bit(c):
    """A Bit line of every kind as flag, condition, kernel node, dynamic flag and flow."""
    address = c.lines.at["address"]
    for bit in c.lines.bits:
        given = dict(edges=[regular(8), branch(8, bit), syscall(8)], dispatches=[(7, address)], flags=[(8, bit)])
        c.accepted(bit, **given, dynamics=[bit] * 31, mode=bit, none=bit)
    c.reset()
    for mode, none in ((c.lines.none, c.lines.mode), (c.lines.flags[0], c.lines.one)):
        c.accepted(edges=[syscall(10)], mode=mode, none=none)
    c.reset()


def chains(c):
    """The flow of one join as flow, flag, condition, kernel node or dynamic flag of the next, each on the same list."""
    flow = c.lines.zero
    address = c.lines.at["word ite"]
    for n in range(5):
        flow = c.accepted(flow, edges=[regular(ADDRESSES[n])])
        flow = c.accepted(edges=[branch(10, flow), regular(0)], flags=[(10, c.lines.flags[n]), (0, flow)])
        flow = c.accepted(flow, edges=[syscall(65540)], mode=flow, none=flow)
        flow = c.accepted(flow, dispatches=[(31 - n, address)], dynamics=[flow] * 31)
    c.accepted(flow)
    c.reset()


def unread(c):
    """Where an edge leads to, the condition of a regular or a syscall edge, and what is lent after the records in use is not looked at."""
    for junk in (0, c.lines.at["word state"], c.lines.at["next"], c.desk.counts[0], TOP - 1, TOP):
        c.accepted(edges=[regular(10, junk, to=junk), syscall(10, junk, to=junk), branch(10, c.lines.at["eq"], to=junk)])
    c.reset()
    edges, dispatches, flags = [regular(10), (TOP,) * 4], [(1, c.lines.at["address"]), (TOP, TOP)], [(10, c.lines.flags[0]), (10, TOP)]
    for words in (7, 8, 5):
        c.accepted(edges=edges, counts={EDGES: 1}, words={EDGES: words})
    for words in (3, 4):
        c.accepted(dispatches=dispatches, counts={DISPATCHES: 1}, words={DISPATCHES: words})
        c.accepted(edges=edges[:1], flags=flags, counts={FLAGS: 1}, words={FLAGS: words})
    c.accepted(edges=edges, dispatches=dispatches, flags=flags, counts={EDGES: 0, DISPATCHES: 0, FLAGS: 0})
    for others in ((1, 0, 0), (0, 1, 0), (0, 0, 1), (TOP, TOP, TOP)):  # the state's counts of lists that are not lent
        c.tally(others=others)
        c.accepted(edges=[regular(10), syscall(10)], dispatches=[(1, c.lines.at["address"])])
    c.reset()


def other_roles(c):
    """The zero bit, the one bit and a register's node at other places: what is a role's own place goes by the role."""
    zero, one, flag = c.lines.zero, c.lines.one, c.lines.flags[0]
    edges, table = [regular(8), regular(10), syscall(12)], [(8, zero), (10, flag), (12, c.lines.flags[1])]
    for at, bit in ((0, flag), (0, c.lines.at["another 0"]), (1, flag), (1, c.lines.at["another 1"]), (0, one), (1, zero)):
        c.role(at, bit)
        c.accepted(zero, edges=edges, flags=table)
        c.accepted(bit, edges=edges, flags=table)
        c.role(at, (zero, one)[at])
    c.role(7 + 5, c.lines.at["word input"])
    c.accepted(dispatches=[(5, c.lines.at["address"]), (6, c.lines.at["word input"])])
    c.role(7 + 5, c.lines.roles[7 + 5])
    c.reset()


#
# Refused
#


def counts_at_their_limits(c):
    """9: with as much as is lent in use accepted, with one more refused; and the largest next identifier."""
    flag, lines = [regular(10)], len(c.lines.records)
    address = c.lines.at["address"]
    for words in (RECORD * lines, RECORD * lines + RECORD - 1):
        c.lend(list_words=words)
        c.accepted(c.lines.flags[2])
        c.accepted(edges=flag)  # no line: the flag is the flow
    for words in (RECORD * lines - 1, RECORD * (lines - 1), 0):
        c.lend(list_words=words)
        c.refused(9)
        c.refused(9, edges=flag)
    c.lend()
    for over in (join_lists.LIST_WORDS // RECORD + 1, MOST_LINES, MOST_LINES + 1, TOP):
        c.tally(lines=over)
        c.refused(9, edges=flag)
    c.reset()
    for given in c.one_of_each():
        c.tally(nid=MOST_NID)
        c.accepted(c.lines.one, **given)
        c.refused(9, **given)  # the call before passed it
        c.tally(nid=MOST_NID + 1)
        c.refused(9, **given)
        c.reset()
    c.tally(nid=TOP)
    c.refused(9)
    c.reset()
    c.tally(names=7)
    c.lend(name_bytes=7)
    c.accepted(c.lines.one, edges=flag)
    c.lend(name_bytes=6)
    c.refused(9, edges=flag)
    c.tally(names=TOP)
    c.refused(9)
    c.reset()
    c.lend(sequential_words=2, listed=2)
    c.accepted(c.lines.one, edges=flag)
    for lent, listed in ((2, 3), (0, 1), (2, TOP)):
        c.lend(sequential_words=lent, listed=listed)
        c.refused(9, edges=flag)
    c.reset()
    twice = {
        EDGES: dict(edges=[regular(10)] * 2),
        DISPATCHES: dict(dispatches=[(1, address)] * 2),
        FLAGS: dict(edges=flag, flags=[(10, c.lines.one)] * 2),
    }
    for area, given in twice.items():
        size = join_lists.RECORD_WORDS[area]
        c.accepted(**given, counts={area: 2})
        for count, words in ((3, 2 * size), (2, 2 * size - 1), (1, 0), (TOP, 2 * size), (2**62 + 1, 2 * size)):
            c.refused(9, **given, counts={area: count}, words={area: words})
    c.reset()


def roles_in_turn(c):
    """13: each role outside the list, at a line of another sort or of no value."""
    lines, at = len(c.lines.records), c.lines.at
    sorts = ROLE_SORTS
    wrong = {1: [at["address"], lines, at["next"]], 2: [at["and"], TOP, at["word next"]], 3: [at["word state"], at["7 bytes"], at["bad"]]}
    for role, place in enumerate(c.lines.roles):
        c.role(role, wrong[sorts[role]][role % 3])
        c.refused(13, edges=[regular(10)])
        c.role(role, place)


def no_bits(c):
    """Places of no Bit value line: a Word, Next, Bad, the first that is no line of the list, one that no list reaches."""
    at = c.lines.at
    return [at["address"], at["next"], at["bad"], c.desk.counts[0], TOP]


def flags_in_turn(c):
    """15: each flag, node and flow in turn at a line that is no Bit value line."""
    good, lines = c.lines.flags, len(c.lines.records)
    edges = [branch(10, c.lines.at["eq"]), syscall(9)]  # a Bit stands where the list ends, once this join has begun
    for bad in no_bits(c):
        c.refused(15, edges=edges, flags=[(10, bad), (9, good[0])])
        c.refused(15, edges=edges, flags=[(10, good[0]), (9, bad)])
        c.refused(15, edges=edges, flags=[(10, good[0]), (9, good[0]), (11, bad)])  # not used
        c.refused(15, edges=edges, flags=[(10, good[0]), (9, good[0]), (10, bad), (12, good[1])])  # after the one that counts
        c.refused(15, edges=edges, mode=bad)
        c.refused(15, edges=edges, none=bad)
        c.refused(15, bad, edges=edges)
        for register in (1, 31):
            c.refused(15, edges=edges, dynamics=[bad if r == register else flag for r, flag in enumerate(c.lines.dynamics, 1)])
    for name in ("write", "1 bytes"):
        c.refused(15, c.lines.at[name], edges=edges)
        c.refused(15, edges=edges, flags=[(10, c.lines.at[name]), (9, good[0])])
    for bad in (c.lines.at["word and"], lines):  # with nothing to join as well
        c.refused(15, bad)
        c.refused(15, mode=bad)
        c.refused(15, none=bad)
        c.refused(15, flags=[(10, bad)])
        c.refused(15, dynamics=[bad] * 31)
    # a Bit that is stored after the list's end is none of its lines; nor is its address that of a line which a later join puts there
    for place in (lines, lines + 1):
        c.do(join_lists.LINE, place, c.lines.next + place, KIND["State"], BIT, 0, 0, 0, 0, *NO_NAME, 1, TOP)
    c.refused(15, lines)
    c.refused(15, edges=edges, flags=[(10, lines + 1), (9, good[0])])
    c.refused(15, edges=edges, none=lines)


def sources_without_a_flag(c):
    """15: an edge's source that has no entry, whatever its origin and wherever it stands."""
    flag, condition = c.lines.flags[0], c.lines.at["ult"]
    for edge in (regular(8), branch(8, condition), syscall(8)):
        c.refused(15, edges=[edge], flags=[])
        c.refused(15, edges=[edge], flags=[(9, flag), (7, flag), (TOP, flag)])
        c.refused(15, edges=[regular(9), edge, regular(9)], flags=[(9, flag)])
        c.refused(15, edges=[edge], flags=[(9, flag), (8, flag)], counts={FLAGS: 1})
    c.refused(15, edges=[regular(0)], flags=[])


def more_or_fewer_dynamic_flags(c):
    """15 where fewer than 31 are lent, whether they are used or not; after the 31 nothing is looked at."""
    flags, dispatches = c.lines.dynamics, [(1, c.lines.at["address"])]
    for count in (0, 1, 30):
        c.refused(15, dynamics=flags[:count])
        c.refused(15, edges=[regular(9)], dispatches=dispatches, dynamics=flags[:count])
    c.accepted(edges=[regular(10)], dispatches=dispatches, dynamics=[*flags, TOP])
    c.accepted(edges=[syscall(10)], dynamics=[*flags, c.lines.at["bad"], c.lines.at["address"]])
    c.reset()


def records_in_turn(c):
    """16: an unknown origin, a branch without a Bit condition, a register or an address node that is none."""
    good, condition = [regular(10), syscall(9)], c.lines.at["ult"]
    at = c.lines.at
    for origin in (3, 255, 256, 257, TOP):
        c.refused(16, edges=[(0, 10, origin, condition)])
    c.refused(16, edges=[*good, (0, 10, 3, condition)])
    c.refused(16, edges=[(0, 10, 3, condition), *good])
    for bad in [*no_bits(c), at["memory ite"], at["2 bytes"]]:
        c.refused(16, edges=[branch(10, bad)])
        c.refused(16, edges=[*good, branch(10, condition), branch(10, bad)])
    for register in (0, 32, 256, 257, 2**32 + 1, TOP):
        c.refused(16, dispatches=[(register, at["address"])])
    c.refused(16, edges=good, dispatches=[(1, at["address"]), (31, at["address"]), (0, at["address"])])
    for bad in (c.lines.zero, at["and"], at["write"], at["7 bytes"], at["word next"], at["bad"], len(c.lines.records), TOP):
        c.refused(16, dispatches=[(1, bad)])
    c.refused(16, edges=good, dispatches=[(1, at["address"]), (2, at["and"])])


def room(c):
    """8: with just as much room as the whole join needs accepted, with one less refused."""
    condition, address = c.lines.at["ult"], c.lines.at["address"]
    zero_then = dict(flags=[(4, c.lines.zero), (65536, c.lines.flags[0])], edges=[regular(4), regular(65536), syscall(4)])
    mixed = dict(edges=[syscall(SHORT), branch(LONG, condition), regular(SHORT), syscall(LONG)], dispatches=[(1, address), (2, address)])
    for given in [*c.one_of_each(), zero_then, mixed, dict(edges=[syscall(LONG)] * 7)]:
        for flow in (c.lines.zero, c.lines.flags[3]):
            lines, names, sequentials = c.needs(flow, **given)
            full = RECORD * (len(c.lines.records) + lines)
            c.lend(full, names, sequentials)
            c.accepted(flow, **given)
            c.reset()
            short = [dict(list_words=full - 1)] if lines else []
            short += [dict(name_bytes=names - 1), dict(sequential_words=sequentials - 1)] if names else []
            for lent in short:
                c.lend(**lent)
                c.refused(8, flow, **given)
                c.reset()
    # after what is in use
    c.tally(names=100)
    c.lend(name_bytes=100 + NAME + 1, sequential_words=4, listed=3)
    c.accepted(edges=[syscall(SHORT)])
    c.refused(8, edges=[syscall(SHORT)])
    c.lend(name_bytes=1000, sequential_words=4)
    c.refused(8, edges=[syscall(SHORT)])
    c.lend(name_bytes=100 + 2 * (NAME + 1) - 1)
    c.refused(8, edges=[syscall(SHORT)])
    c.lend(name_bytes=100 + 2 * (NAME + 1), sequential_words=5)
    c.accepted(edges=[syscall(SHORT)])
    # what a join does not append to may be full
    c.lend(name_bytes=100 + 2 * (NAME + 1), sequential_words=5)
    c.accepted(c.lines.one, edges=[regular(10), branch(10, condition)], dispatches=[(1, address)])
    c.lend(RECORD * c.desk.counts[0], 100 + 2 * (NAME + 1), 5)
    c.accepted(c.lines.one)
    c.accepted(edges=[regular(10)])
    c.refused(8, c.lines.one, edges=[regular(10)])
    c.reset()


def faults(c):
    """For each number a fault that has it; they can be put together."""
    bad, address = c.lines.at["word not"], c.lines.at["address"]
    yield 9, lambda g: c.tally(nid=MOST_NID + 1)
    yield 13, lambda g: c.role(78, bad)
    yield 15, lambda g: g.update(mode=bad)
    yield 16, lambda g: g.update(dispatches=[(0, address)])
    yield 8, lambda g: c.lend(list_words=RECORD * len(c.lines.records) + 1)


def several_faults(c):
    """The first number of 9, 13, 15, 16 and 8 wins, each over the whole call: a later edge's fault may be the first that counts."""
    all_faults = list(faults(c))
    for count in (1, 2, len(all_faults)):
        for chosen in itertools.combinations(all_faults, count):
            given = dict(edges=[syscall(10)])
            for _, fault in chosen:
                fault(given)
            c.refused(chosen[0][0], **given)
            c.role(78, c.lines.roles[78])
            c.reset()
    no_flag, unknown, condition = regular(8), (0, 10, 3, TOP), c.lines.at["ult"]
    for edges in itertools.permutations([no_flag, unknown, regular(10)]):
        c.refused(15, edges=edges)
    c.refused(15, edges=[(0, 8, 3, TOP)])  # one record with both faults
    c.refused(15, edges=[branch(8, TOP)])
    c.refused(16, edges=[branch(10, TOP)])
    c.refused(15, edges=[no_flag], dispatches=[(0, TOP)])
    c.refused(15, TOP, edges=[unknown])
    c.refused(16, edges=[branch(10, condition)], dispatches=[(32, c.lines.at["address"])])
    c.lend(list_words=RECORD * len(c.lines.records), name_bytes=0, sequential_words=0)
    for edges in ([syscall(10), unknown], [unknown, syscall(10)], [syscall(10), branch(10, TOP)]):
        c.refused(16, edges=edges)
    c.refused(15, edges=[syscall(10), no_flag])
    c.refused(8, edges=[syscall(10), regular(10)])
    c.reset()


#
# The words that a call may use
#


def other_edges(c, count):
    """Edges of all origins, whose words no call before had: where they lead to is counted up."""
    kinds = [regular, branch, syscall]
    first = len(c.made) * join_lists.AREA_WORDS
    return [kinds[n % 3](ADDRESSES[n % 6], c.lines.at["ult"], to=first + n) for n in range(count)]


def words_at_their_limit(c):
    """9 with fewer than four words an edge, which stay as they were; with just as many, or some more, accepted."""
    for count in (1, 2, 7, 16):
        for words in sorted({0, EDGE * (count - 1), EDGE * count - 1}):
            c.lend_scratch(words)
            c.refused(9, edges=other_edges(c, count))
        for words in (EDGE * count, EDGE * count + 3):
            c.lend_scratch(words)
            c.accepted(edges=other_edges(c, count))
            c.reset()
    for words in (0, 3):  # none are needed where no edge is in use
        c.lend_scratch(words)
        c.accepted()
        c.accepted(dispatches=[(1, c.lines.at["address"])])
        c.accepted(edges=other_edges(c, 2), counts={EDGES: 0})
        c.reset()


def words_of_the_edges_in_use(c):
    """Of the records that are lent, those in use count; more than there are, or than any storage holds, are 9 with any words."""
    for used, words in ((1, EDGE), (2, 2 * EDGE), (2, 3 * EDGE), (3, 3 * EDGE)):
        c.lend_scratch(words)
        c.accepted(edges=other_edges(c, 3), counts={EDGES: used})
        c.lend_scratch(EDGE * used - 1)
        c.refused(9, edges=other_edges(c, 3), counts={EDGES: used})
    c.lend_scratch()
    for used in (4, 2**62, 2**62 + 1, TOP):
        c.refused(9, edges=other_edges(c, 3), counts={EDGES: used})
    c.refused(9, edges=other_edges(c, 3), words={EDGES: 3 * EDGE - 1}, counts={EDGES: 3})
    c.reset()


def words_of_refused_joins(c):
    """A call that is refused for anything else leaves its edges' words; with too few words it is 9 and leaves none."""
    for number, fault in faults(c):
        for count in (2, 3):
            given = dict(edges=other_edges(c, count))
            fault(given)
            c.refused(number, **given)
            c.lend_scratch(EDGE * count - 1)
            c.refused(9, **given | dict(edges=other_edges(c, count)))
            c.role(78, c.lines.roles[78])
            c.reset()
    c.refused(15, edges=[*other_edges(c, 1), regular(8)])  # a source without a flag, an unknown origin and a branch without a Bit
    c.refused(16, edges=[*other_edges(c, 1), (TOP, 10, TOP, TOP)])
    c.refused(16, edges=[branch(10, TOP), *other_edges(c, 2)])
    c.reset()


LINES = [single_joins, orders, equal_sources, registers, chains]
ACCEPTED = [*LINES, empty_joins, zero_bit_on_the_way, first_flags, addresses, many, address_nodes, every_bit, unread, other_roles]
REFUSED = [counts_at_their_limits, flags_in_turn, sources_without_a_flag, more_or_fewer_dynamic_flags, records_in_turn, room, several_faults]
WORDS = [words_at_their_limit, words_of_the_edges_in_use, words_of_refused_joins]
ON_LISTING, ON_APART = ACCEPTED + REFUSED, LINES + [roles_in_turn] + WORDS


def commands(counts=None, tried=lambda join, right: None):
    """Pairs of a command and its answer; `tried` sees every call and its answer."""
    counts = collections.Counter() if counts is None else counts
    desk, made = Desk(None), []
    for lines, groups in ((join_lists.listing(), ON_LISTING), (join_lists.apart(), ON_APART)):
        rust = join_rust.Rust(lines.start)
        cases = Cases(lines, join_rust.Judge(rust, counts, tried), desk)
        for group in groups:
            group(cases)
            cases.reset()
        rust.close()
        made += cases.made
    return made


def variants():
    """How many of the joins each wrong reading answers in another way than the Rust and the reading."""
    found = dict.fromkeys(join_variants.BY_NAME, 0)
    tried = 0

    def answers(join, right):
        nonlocal tried
        tried += 1
        for name, reading in join_variants.BY_NAME.items():
            found[name] += join_variants.differs(reading, join, right)

    commands(tried=answers)
    for name, count in found.items():
        print(f"{name}: {count} of {tried}")
    missed = [name for name, count in found.items() if not count]
    print(f"not found: {', '.join(missed)}" if missed else f"all {len(found)} found")
    return len(missed) != 0


if __name__ == "__main__":
    sys.exit(variants() if sys.argv[1:] == ["variants"] else lowering_cases.main(sys.argv[1:], "join_cases", commands, __doc__))
