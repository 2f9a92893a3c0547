"""What the lines of a join come to on random values, against request R-1: where the zero-bit and the one-bit node evaluate to 0 and 1, the
new flow is 1 exactly where an edge or a dispatch is active or the starting flow was 1.

A regular edge is active where its source's flag is 1, a branch where its condition is 1 too, a syscall where its State and the kernel-not
node are 1, a dispatch where the dynamic flag is 1 and the register's node equals the address node. Lines are evaluated by btor2_values.py;
states and inputs, those that a join makes too, have any value, and inits and Nexts are not used. The lines must meet BTOR2's sorts.
"""
import random

from btor2_values import ARRAY, BIT, WORDS, Array, evaluate, well_sorted
from join_reading import BRANCH, REGISTER_NODES, SYSCALL, Reading, value_sort
from lowering_cases import OPERATORS
from start_cases import KIND, OPERANDS

INPUT_BITS = {BIT: 1, WORDS: 64, **{10 + n: 8 * n for n in range(1, 8)}}
FREE = {KIND["State"], KIND["Input"]}
KIND_NAMES = {number: name for name, number in KIND.items()}
WORD_VALUES = [0, 1, 65536, 65540, 2**64 - 1]  # few, so that a register's node and an address node are often equal


class Node:
    """A record as btor2_values.py evaluates it, with its place for an identifier."""

    def __init__(self, place, record):
        _, kind, sort, first, second, third, imm, *_ = record
        self.nid, self.operator, self.sort = place, OPERATORS[kind - 1], sort
        self.operands = [first, second, third][: OPERANDS.get(KIND_NAMES[kind], 0)]
        self.number = imm


def ill_sorted(join, records):
    """The places of the join's lines that break BTOR2's sorts."""
    return [place for place in range(join.lines, len(records)) if not line_is_well_sorted(records, place)]


def line_is_well_sorted(records, place):
    node = Node(place, records[place])
    has = [value_sort(*records[o][1:3]) if o < place else None for o in node.operands]
    if node.operator == "state":
        init = records[place][3]
        return init < place and value_sort(*records[init][1:3]) == node.sort
    if node.operator == "next":
        return has == [node.sort] * 2 and records[node.operands[0]][1] == KIND["State"]
    return well_sorted(node.operator, node.sort, has, node.number)


def looked_at(records, roots):
    """The places that these places' values depend on, in rising order."""
    found, open_ones = set(), list(roots)
    while open_ones:
        place = open_ones.pop()
        if place not in found:
            found.add(place)
            if records[place][1] not in FREE:
                open_ones += Node(place, records[place]).operands
    return sorted(found)


def roots(join, made):
    """All whose values the claim speaks of."""
    reading = Reading(join)
    yield from (join.flow, made.flow, join.none, *join.roles[:2], *(made.lines[place - join.lines][3] for place in made.sequentials))
    for source, origin, condition in join.given_edges():
        yield from (reading.flag_of(source), *([condition] if origin == BRANCH else []))
    for register, place in join.given_dispatches():
        yield from (join.roles[REGISTER_NODES + register], join.dynamics[register - 1], place)


def free_values(rng, records, places):
    """A value for every state and input; flags are rare in some draws, so that a flow is 0 as well as 1."""
    likely = rng.choice((0.03, 0.3, 0.7, 1))
    values = {}
    for place in places:
        _, kind, sort, *_ = records[place]
        if kind not in FREE:
            continue
        if sort == ARRAY:
            values[place] = Array(lambda address, salt=rng.randrange(8): (address + salt) % 5, {})
        elif sort == BIT:
            values[place] = int(rng.random() < likely)
        else:
            values[place] = rng.choice(WORD_VALUES) % 2 ** INPUT_BITS[sort]
    return values


def active(join, made, values):
    """How many edges of each origin, and dispatches, are active."""
    reading, states = Reading(join), iter(made.sequentials)
    found = []
    for source, origin, condition in join.given_edges():
        if origin == SYSCALL:
            state = made.lines[next(states) - join.lines][3]  # that of the edge's own Next, which is the join's line
            found.append((origin, values[state] and values[join.none]))
        else:
            found.append((origin, values[reading.flag_of(source)] and (origin != BRANCH or values[condition])))
    for register, place in join.given_dispatches():
        equal = values[join.roles[REGISTER_NODES + register]] == values[place]
        found.append(("dispatch", values[join.dynamics[register - 1]] and equal))
    return [which for which, one in found if one]


def difference(join, made, counts, seed, draws=4):
    """What is wrong with the lines of an accepted join, or None; counts what was compared."""
    records = join.records[: join.lines] + made.lines
    ill = ill_sorted(join, records)
    if ill:
        return f"ill-sorted lines at {ill}"
    rng = random.Random(seed)
    places = looked_at(records, roots(join, made))
    nodes = [Node(place, records[place]) for place in places if records[place][1] not in FREE]
    for _ in range(draws):
        free = free_values(rng, records, places)
        # where the zero or the one bit is a state, it has its value
        free |= {place: bit for bit, place in enumerate(join.roles[:2]) if place in free}
        values = evaluate(nodes, set(), free)
        if (values[join.roles[0]], values[join.roles[1]]) != (0, 1):
            counts["values", "the bits are not 0 and 1"] += 1
            continue
        ones = active(join, made, values)
        wanted = int(bool(ones) or values[join.flow] == 1)
        if values[made.flow] != wanted:
            return f"the flow comes to {values[made.flow]}, not {wanted}"
        counts["values", wanted] += 1
        if len({*ones}) == 1 and values[join.flow] != 1:  # what makes the flow 1
            counts["values", "by", ones[0]] += 1
    return None
