#!/usr/bin/env python3
"""Wrong readings of R-2, each wrong in one place. The stored questions must tell each of them from the right one.

    tools/evaluation_variants.py [NAME..]   for each of them, or each that is named, the group of the first question that it answers in another
                                            way: exit status 1 where there is none

`tools/evaluation_cases.py variants` is the same for all of them. Questions that take long are put only to a reading that the others don't find.
"""
import collections
import sys

from evaluator import ALL, BIT, FREE, KINDS, MEMORY, MEMORY_RECORD, MOST_LINES, NO_VALUE, ON_WORDS, OPERATORS, OWN_SORT, RECORD, SORTS, VALUE_RECORD
from evaluator import WIDTH, WORD, Evaluation, Refused, bvneg, bvudiv, evaluate, line_of, records

BY_NAME = {}


def wrong(reading):
    BY_NAME[reading.__name__.replace("_", "-")] = reading
    return reading


def made(name, base=Evaluation, **methods):
    BY_NAME[name] = type(name.replace("-", "_"), (base,), methods)


#
# The limit and what is counted
#


@wrong
class limit_one_lower(Evaluation):
    def __init__(self, words, lines, values, memory, limit):
        super().__init__(words, lines, values, memory, limit - 1)


@wrong
class limit_one_higher(Evaluation):
    def __init__(self, words, lines, values, memory, limit):
        super().__init__(words, lines, values, memory, limit + 1)


@wrong
class limit_of_16_bits(Evaluation):
    def __init__(self, words, lines, values, memory, limit):
        super().__init__(words, lines, values, memory, 2**16)


@wrong
class sort_rule_before_the_limit(Evaluation):
    def visit(self, place):
        if not self.well_sorted(self.lines[place]):
            raise Refused(17)
        return super().visit(place)


@wrong
class seventeen_at_the_limit_is_18(Evaluation):
    def visit(self, place):
        if self.visits == self.limit - 1 and not self.well_sorted(self.lines[place]):
            raise Refused(18)
        return super().visit(place)


@wrong
class counted_when_a_look_is_done(Evaluation):
    def visit(self, place):
        if not self.well_sorted(self.lines[place]):
            raise Refused(17)
        return self.lines[place]

    def value(self, place):
        return self.done((yield from super().value(place)))

    def cell(self, place, asked):
        return self.done((yield from super().cell(place, asked)))

    def done(self, result):
        if self.visits == self.limit:
            raise Refused(18)
        self.visits += 1
        return result


@wrong
class the_asked_node_is_no_visit(Evaluation):
    def answer(self, asked):
        self.visits = -1
        return super().answer(asked)


@wrong
class one_visit_too_many(Evaluation):
    def answer(self, asked):
        self.visits = 1
        return super().answer(asked)


class Uncounted(Evaluation):
    """Visits of some lines are not counted."""

    def visit(self, place):
        line = super().visit(place)
        self.visits -= self.uncounted(line)
        return line


for kind in KINDS:
    if kind not in NO_VALUE | {"write"}:
        made(f"{kind}-is-not-counted", Uncounted, uncounted=lambda self, line, kind=kind: line.kind == kind and line.carries != MEMORY)
for kind in ("state", "input", "ite", "write"):
    made(f"{kind}-of-memory-is-not-counted", Uncounted, uncounted=lambda self, line, kind=kind: line.kind == kind and line.carries == MEMORY)
made("bytes-are-not-counted", Uncounted, uncounted=lambda self, line: line.carries > MEMORY)


@wrong
class the_operand_of_an_ext_is_not_counted(Evaluation):
    def operator(self, line, *operands):
        self.visits -= line.kind == "uext"
        return super().operator(line, *operands)


@wrong
class conditions_are_not_counted(Evaluation):
    def branch(self, condition, first, second):
        before = self.visits
        taken = yield from super().branch(condition, first, second)
        self.visits = before
        return taken


@wrong
class the_address_of_a_read_is_not_counted(Evaluation):
    def read(self, memory, address):
        before = self.visits
        asked = yield self.value(address)
        self.visits = before
        return (yield self.cell(memory, asked))


@wrong
class the_address_of_a_write_is_not_counted(Evaluation):
    def written(self, asked, memory, address, value):
        before = self.visits
        at = yield self.value(address)
        self.visits = before
        return (yield self.value(value)) if at == asked else (yield self.cell(memory, asked))


@wrong
class a_write_that_covers_is_not_counted(Evaluation):
    def written(self, asked, memory, address, value):
        if (yield self.value(address)) == asked:
            self.visits -= 1
            return (yield self.value(value))
        return (yield self.cell(memory, asked))


@wrong
class a_write_that_does_not_cover_is_not_counted(Evaluation):
    def written(self, asked, memory, address, value):
        if (yield self.value(address)) == asked:
            return (yield self.value(value))
        self.visits -= 1
        return (yield self.cell(memory, asked))


#
# Looks that are remembered, left out or made for nothing
#


class Remembered(Evaluation):
    def __init__(self, *given):
        super().__init__(*given)
        self.seen = {}


@wrong
class looks_are_remembered(Remembered):
    def value(self, place):
        if place not in self.seen:
            self.seen[place] = yield from super().value(place)
        return self.seen[place]


@wrong
class a_repeated_look_is_one_visit(Remembered):
    def value(self, place):
        if place not in self.seen:
            self.seen[place] = yield from super().value(place)
        else:
            self.visit(place)
        return self.seen[place]


@wrong
class cells_are_remembered(Remembered):
    def cell(self, place, asked):
        if (place, asked) not in self.seen:
            self.seen[place, asked] = yield from super().cell(place, asked)
        return self.seen[place, asked]


@wrong
class states_and_inputs_are_counted_once(Remembered):
    def visit(self, place):
        line = super().visit(place)
        if line.kind in FREE:
            self.visits -= place in self.seen
            self.seen[place] = True
        return line


@wrong
class equal_operands_are_looked_at_once(Evaluation):
    def operands(self, line):
        if len(line.operands) == 2 and line.operands[0] == line.operands[1]:
            return [(yield self.value(line.operands[0]))] * 2
        return (yield from super().operands(line))


@wrong
class equal_branches_without_the_condition(Evaluation):
    def branch(self, condition, first, second):
        return first if first == second else (yield from super().branch(condition, first, second))


def stops(kind, enough):
    """The second operand isn't looked at where the first is enough: the result is then the same with a second of 0."""

    def operands(self, line):
        if line.kind != kind:
            return (yield from Evaluation.operands(self, line))
        first = yield self.value(line.operands[0])
        return [first, 0 if enough(first, line) else (yield self.value(line.operands[1]))]

    return operands


made("and-with-0-stops", operands=stops("and", lambda first, line: first == 0))
made("mul-with-0-stops", operands=stops("mul", lambda first, line: first == 0))
made("or-with-ones-stops", operands=stops("or", lambda first, line: first == 2 ** WIDTH[line.sort] - 1))
made("sll-of-0-stops", operands=stops("sll", lambda first, line: first == 0))
made("srl-of-0-stops", operands=stops("srl", lambda first, line: first == 0))
made("ult-of-ones-stops", operands=stops("ult", lambda first, line: first == ALL - 1))


def second_first(kind, enough):
    """The second operand is looked at first, and the first isn't where that is enough."""

    def operands(self, line):
        if line.kind != kind:
            return (yield from Evaluation.operands(self, line))
        second = yield self.value(line.operands[1])
        if not enough(second):
            return [(yield self.value(line.operands[0])), second]
        before = self.visits
        first = yield self.value(line.operands[0])
        self.visits = before
        return [first, second]

    return operands


for kind in ("udiv", "sdiv", "urem", "and", "mul"):
    made(f"{kind}-with-a-second-of-0-stops", operands=second_first(kind, lambda second: second == 0))
for kind in ("sll", "srl"):
    made(f"{kind}-by-64-or-more-stops", operands=second_first(kind, lambda second: second >= 64))
for kind in (*sorted(ON_WORDS), "eq", "and", "or"):
    made(f"{kind}-from-the-last-operand", operands=second_first(kind, lambda second: False))


@wrong
class both_branches_are_looked_at(Evaluation):
    def value(self, place):
        result = yield from super().value(place)
        if self.lines[place].kind == "ite":
            condition, *both = self.lines[place].operands
            before = self.visits
            taken = yield self.value(condition)
            self.visits = before
            yield self.value(both[taken])  # the other one
        return result


@wrong
class both_memories_are_looked_at(Evaluation):
    def cell(self, place, asked):
        result = yield from super().cell(place, asked)
        if self.lines[place].kind == "ite":
            condition, *both = self.lines[place].operands
            before = self.visits
            taken = yield self.value(condition)
            self.visits = before
            yield self.cell(both[taken], asked)
        return result


@wrong
class the_first_branch_before_the_condition(Evaluation):
    def branch(self, condition, first, second):
        before = self.visits
        self.visit(first)
        self.visits = before
        return (yield from super().branch(condition, first, second))


@wrong
class memory_before_the_address_of_a_read(Evaluation):
    def read(self, memory, address):
        before = self.visits
        self.visit(memory)
        self.visits = before
        return (yield from super().read(memory, address))


@wrong
class memory_before_the_address_of_a_write(Evaluation):
    def written(self, asked, memory, address, value):
        before = self.visits
        self.visit(memory)
        self.visits = before
        return (yield from super().written(asked, memory, address, value))


@wrong
class value_before_the_address_of_a_write(Evaluation):
    def written(self, asked, memory, address, value):
        before = self.visits
        self.visit(value)
        self.visits = before
        return (yield from super().written(asked, memory, address, value))


@wrong
class the_value_of_a_write_that_does_not_cover(Evaluation):
    def written(self, asked, memory, address, value):
        at, word = (yield self.value(address)), (yield self.value(value))
        return word if at == asked else (yield self.cell(memory, asked))


@wrong
class the_memory_of_a_write_that_covers(Evaluation):
    def written(self, asked, memory, address, value):
        at, below = (yield self.value(address)), (yield self.cell(memory, asked))
        return (yield self.value(value)) if at == asked else below


@wrong
class the_address_of_a_read_at_every_write(Evaluation):
    """Looked at anew, wherever it is compared."""

    def read(self, memory, address):
        self.anew = address
        return (yield from super().read(memory, address))

    def written(self, asked, memory, address, value):
        at = self.anew
        yield self.value(at)
        self.anew = at
        return (yield from super().written(asked, memory, address, value))


@wrong
class the_init_is_visited(Evaluation):
    def value(self, place):
        line = self.lines[place]
        result = yield from super().value(place)
        if line.kind == "state" and line.operands:
            yield self.value(line.operands[0])
        return result


@wrong
class the_init_of_a_memory_is_visited(Evaluation):
    def given_cell(self, place, asked):
        if self.lines[place].operands:
            self.visit(self.lines[place].operands[0])
        return super().given_cell(place, asked)


#
# Writes, records and inits
#


@wrong
class the_oldest_write_counts(Evaluation):
    def written(self, asked, memory, address, value):
        covers = (yield self.value(address)) == asked
        below = self.lines[memory]
        if covers and below.kind != "write":
            return (yield self.value(value))
        return (yield self.cell(memory, asked))


def covers_by(same):
    def written(self, asked, memory, address, value):
        if same((yield self.value(address)), asked):
            return (yield self.value(value))
        return (yield self.cell(memory, asked))

    return written


made("writes-cover-by-the-low-31-bits", written=covers_by(lambda a, b: a % 2**31 == b % 2**31))
made("writes-cover-by-the-low-32-bits", written=covers_by(lambda a, b: a % 2**32 == b % 2**32))
made("writes-cover-by-the-low-63-bits", written=covers_by(lambda a, b: a % 2**63 == b % 2**63))
made("writes-cover-8-bytes", written=covers_by(lambda a, b: a // 8 == b // 8))
made("writes-cover-2-bytes", written=covers_by(lambda a, b: a // 2 == b // 2))
made("every-write-covers", written=covers_by(lambda a, b: True))


@wrong
class the_last_value_counts(Evaluation):
    def given_value(self, place, line):
        found = [value for node, value in records(self.values, VALUE_RECORD) if node == place]
        return (found or [0])[-1] % 2 ** WIDTH[line.sort]


@wrong
class the_last_cell_counts(Evaluation):
    def given_cell(self, place, asked):
        found = [word for node, at, word in records(self.memory, MEMORY_RECORD) if (node, at) == (place, asked)]
        return (found or [0])[-1]


@wrong
class a_value_of_0_is_missing(Evaluation):
    def given_value(self, place, line):
        found = [value for node, value in records(self.values, VALUE_RECORD) if node == place and value]
        return (found or [0])[0] % 2 ** WIDTH[line.sort]


@wrong
class a_value_that_is_reduced_to_0_is_missing(Evaluation):
    def given_value(self, place, line):
        width = 2 ** WIDTH[line.sort]
        return next((value % width for node, value in records(self.values, VALUE_RECORD) if node == place and value % width), 0)


@wrong
class a_cell_of_0_is_missing(Evaluation):
    def given_cell(self, place, asked):
        return next((word for node, at, word in records(self.memory, MEMORY_RECORD) if (node, at) == (place, asked) and word), 0)


def values_by(same, size=VALUE_RECORD, after=()):
    def given_value(self, place, line):
        found = (value for node, value in records([*self.values, *after], size) if same(node, place))
        return next(found, 0) % 2 ** WIDTH[line.sort]

    return given_value


def cells_by(same, after=()):
    def given_cell(self, place, asked):
        return next((word for node, at, word in records([*self.memory, *after], MEMORY_RECORD) if same(node, place, at, asked)), 0)

    return given_cell


made("values-by-the-low-32-bits-of-a-node", given_value=values_by(lambda node, place: node % 2**32 == place))
made("values-by-the-low-63-bits-of-a-node", given_value=values_by(lambda node, place: node % 2**63 == place))
made("values-of-any-node", given_value=values_by(lambda node, place: True))
made("a-value-record-begun-counts", given_value=values_by(lambda node, place: node == place, after=[1]))
made("cells-of-any-address", given_cell=cells_by(lambda node, place, at, asked: node == place))
made("cells-of-any-node", given_cell=cells_by(lambda node, place, at, asked: at == asked))
made("cells-by-the-low-32-bits-of-a-node", given_cell=cells_by(lambda node, place, at, asked: (node % 2**32, at) == (place, asked)))
made("cells-by-the-low-32-bits-of-an-address", given_cell=cells_by(lambda node, place, at, asked: (node, at % 2**32) == (place, asked % 2**32)))
made("cells-by-the-low-63-bits-of-an-address", given_cell=cells_by(lambda node, place, at, asked: (node, at % 2**63) == (place, asked % 2**63)))
made("cells-by-8-bytes", given_cell=cells_by(lambda node, place, at, asked: (node, at // 8) == (place, asked // 8)))
made("a-cell-record-begun-counts", given_cell=cells_by(lambda node, place, at, asked: (node, at) == (place, asked), after=[1]))


@wrong
class the_first_record_of_a_node_hides_its_other_addresses(Evaluation):
    def given_cell(self, place, asked):
        node, at, word = next((record for record in records(self.memory, MEMORY_RECORD) if record[0] == place), (place, asked, 0))
        return word if at == asked else 0


@wrong
class the_first_value_record_is_for_node_0(Evaluation):
    """A record is the value of the state or input that comes as many lines after the first."""

    def given_value(self, place, line):
        free = [n for n, other in enumerate(self.lines) if other.kind in FREE]
        n = VALUE_RECORD * free.index(place) + 1
        return (self.values[n] if n < len(self.values) else 0) % 2 ** WIDTH[line.sort]


@wrong
class inputs_have_no_values(Evaluation):
    def given_value(self, place, line):
        return 0 if line.kind == "input" else super().given_value(place, line)


@wrong
class memory_inputs_have_no_cells(Evaluation):
    def given_cell(self, place, asked):
        return 0 if self.lines[place].kind == "input" else super().given_cell(place, asked)


@wrong
class a_missing_value_is_1(Evaluation):
    def given_value(self, place, line):
        return super().given_value(place, line) if place in self.values[::VALUE_RECORD] else 1


@wrong
class a_missing_cell_is_its_address(Evaluation):
    def given_cell(self, place, asked):
        held = any((node, at) == (place, asked) for node, at, _ in records(self.memory, MEMORY_RECORD))
        return super().given_cell(place, asked) if held else asked


@wrong
class a_value_for_a_memory_fills_it(Evaluation):
    def given_cell(self, place, asked):
        found = super().given_cell(place, asked)
        return found or next((value for node, value in records(self.values, VALUE_RECORD) if node == place), 0)


@wrong
class values_for_any_line(Evaluation):
    def value(self, place):
        given = dict(reversed(list(records(self.values, VALUE_RECORD))))
        if place in given and self.lines[place].kind not in FREE:
            self.visit(place)
            return given[place]
        return (yield from super().value(place))


@wrong
class a_record_for_another_line_is_refused(Evaluation):
    def check(self, asked):
        super().check(asked)
        if any(node >= self.count or self.lines[node].kind not in FREE for node, _ in records(self.values, VALUE_RECORD)):
            raise Refused(19)


@wrong
class a_cell_record_for_no_memory_is_refused(Evaluation):
    def check(self, asked):
        super().check(asked)
        if any(node >= self.count or self.lines[node].carries != MEMORY for node, _, _ in records(self.memory, MEMORY_RECORD)):
            raise Refused(19)


@wrong
class words_that_fill_no_record_are_refused(Evaluation):
    def check(self, asked):
        super().check(asked)
        if len(self.values) % VALUE_RECORD or len(self.memory) % MEMORY_RECORD:
            raise Refused(19)


def reduced_by(reduce):
    def given_value(self, place, line):
        return reduce(next((value for node, value in records(self.values, VALUE_RECORD) if node == place), 0), line.sort)

    return given_value


made("values-are-not-reduced", given_value=reduced_by(lambda value, sort: value))
made("bits-are-not-reduced", given_value=reduced_by(lambda value, sort: value if sort == BIT else value % 2 ** WIDTH[sort]))
made("bytes-are-not-reduced", given_value=reduced_by(lambda value, sort: value % 2 if sort == BIT else value))
made("a-bit-is-1-where-it-is-not-0", given_value=reduced_by(lambda value, sort: min(value, 1) if sort == BIT else value % 2 ** WIDTH[sort]))
made("a-value-too-wide-is-the-largest", given_value=reduced_by(lambda value, sort: min(value, 2 ** WIDTH[sort] - 1)))
made("a-value-too-wide-is-0", given_value=reduced_by(lambda value, sort: value if value < 2 ** WIDTH[sort] else 0))
made("all-bytes-are-one", given_value=reduced_by(lambda value, sort: value % 2**8 if sort > MEMORY else value % 2 ** WIDTH[sort]))
made("bytes-by-twos", given_value=reduced_by(lambda value, sort: value % 2 ** {13: 32, 15: 64, 16: 64, 17: 64}.get(sort, WIDTH[sort])))
made("bytes-modulo-one-less", given_value=reduced_by(lambda value, sort: value % (2 ** WIDTH[sort] - (sort > MEMORY))))


def init_value(always, counted):
    """An init gives the value of a state, where there is no record or always, and its look is counted or not."""

    def value(self, place):
        line, result = self.lines[place], (yield from Evaluation.value(self, place))
        if line.kind == "state" and line.operands and (always or place not in self.values[::VALUE_RECORD]):
            before = self.visits
            result = yield self.value(line.operands[0])
            self.visits = self.visits if counted else before
        return result

    return value


made("a-missing-value-is-the-init", value=init_value(False, False))
made("a-missing-value-is-the-init-which-is-visited", value=init_value(False, True))
made("the-init-is-the-value", value=init_value(True, False))


@wrong
class a_missing_cell_is_the_init(Evaluation):
    def given_cell(self, place, asked):
        line = self.lines[place]
        init = line.operands and self.lines[line.operands[0]]
        return super().given_cell(place, asked) or (init.number if init and init.kind == "const" else 0)


#
# The sort rule
#


def rule_for(kind, rule):
    """Another rule for a kind: from the line and the sorts of its operands."""

    def well_sorted(self, line):
        if line.kind not in kind.split():
            return Evaluation.well_sorted(self, line)
        return rule(line, [self.lines[operand].carries for operand in line.operands])

    return well_sorted


made("no-sort-rule", well_sorted=lambda self, line: True)
for kind in (*sorted(ON_WORDS), *"const read write uext ite eq and or not state".split()):
    made(f"no-sort-rule-for-{kind}", well_sorted=rule_for(kind, lambda line, has: True))
for kind in (*sorted(ON_WORDS), *"read eq and or".split()):
    made(f"{kind}-looks-at-its-first-operand-alone", well_sorted=rule_for(kind, lambda line, has: has[0] in (
        {"read": [MEMORY], "eq": [BIT, WORD], "and": [line.sort], "or": [line.sort]}.get(line.kind, [WORD]))))
    made(f"{kind}-looks-at-its-second-operand-alone", well_sorted=rule_for(kind, lambda line, has: has[1] in (
        {"read": [WORD], "eq": [BIT, WORD], "and": [line.sort], "or": [line.sort]}.get(line.kind, [WORD]))))
made("const-may-be-too-large", well_sorted=rule_for("const", lambda line, has: line.sort != MEMORY))
made("const-may-be-one-too-large", well_sorted=rule_for("const", lambda line, has: line.sort != MEMORY and line.number <= 2 ** WIDTH[line.sort]))
made("const-may-not-be-the-largest", well_sorted=rule_for("const", lambda line, has: line.sort != MEMORY and line.number < 2 ** WIDTH[line.sort] - 1))
made("const-of-bytes-is-17", well_sorted=rule_for("const", lambda line, has: line.sort in (BIT, WORD) and line.number < 2 ** WIDTH[line.sort]))
made("ext-from-word", well_sorted=rule_for("uext", lambda line, has: line.sort != MEMORY and has == [line.sort]))
made("ext-from-memory", well_sorted=rule_for("uext", lambda line, has: line.sort != WORD and has == [line.sort]))
made("ext-from-any-sort", well_sorted=rule_for("uext", lambda line, has: line.sort not in (WORD, MEMORY)))
made("ext-from-bit-alone", well_sorted=rule_for("uext", lambda line, has: line.sort == BIT and has == [BIT]))
made("ext-from-any-bytes", well_sorted=rule_for("uext", lambda line, has: line.sort > MEMORY and has[0] > MEMORY or [line.sort] == has == [BIT]))
made("and-or-not-on-bytes", well_sorted=rule_for("and or not", lambda line, has: line.sort != MEMORY and {*has} == {line.sort}))
made("and-or-not-on-memory", well_sorted=rule_for("and or not", lambda line, has: line.sort in (BIT, WORD, MEMORY) and {*has} == {line.sort}))
made("and-or-not-by-their-operands", well_sorted=rule_for("and or not", lambda line, has: {*has} in ({BIT}, {WORD})))
made("eq-of-any-two-alike", well_sorted=rule_for("eq", lambda line, has: has[0] == has[1]))
made("eq-of-bytes", well_sorted=rule_for("eq", lambda line, has: has[0] == has[1] != MEMORY))
made("eq-of-memories", well_sorted=rule_for("eq", lambda line, has: has[0] == has[1] <= MEMORY))
made("eq-of-words-alone", well_sorted=rule_for("eq", lambda line, has: has == [WORD, WORD]))
made("eq-of-a-bit-and-a-word", well_sorted=rule_for("eq", lambda line, has: {*has} <= {BIT, WORD}))
made("ite-with-any-condition", well_sorted=rule_for("ite", lambda line, has: has[1:] == [line.sort] * 2))
made("ite-with-a-word-as-condition", well_sorted=rule_for("ite", lambda line, has: has[0] in (BIT, WORD) and has[1:] == [line.sort] * 2))
made("ite-by-its-first-branch", well_sorted=rule_for("ite", lambda line, has: has[:2] == [BIT, line.sort]))
made("ite-by-its-second-branch", well_sorted=rule_for("ite", lambda line, has: has[::2] == [BIT, line.sort]))
made("ite-of-branches-alike", well_sorted=rule_for("ite", lambda line, has: has[0] == BIT and has[1] == has[2]))
made("ite-of-bytes-is-17", well_sorted=rule_for("ite", lambda line, has: has == [BIT, line.sort, line.sort] and line.sort <= MEMORY))
made("write-of-any-value", well_sorted=rule_for("write", lambda line, has: has[:2] == [MEMORY, WORD]))
made("write-at-any-address", well_sorted=rule_for("write", lambda line, has: has[::2] == [MEMORY, WORD]))
made("write-to-any-memory", well_sorted=rule_for("write", lambda line, has: has[1:] == [WORD, WORD]))
made("init-of-a-memory-is-a-word", well_sorted=rule_for("state", lambda line, has: has in ([], [WORD if line.sort == MEMORY else line.sort])))
made("init-of-a-memory-is-a-memory", well_sorted=rule_for("state", lambda line, has: has in ([], [line.sort])))
made("init-of-a-memory-is-anything", well_sorted=rule_for("state", lambda line, has: line.sort == MEMORY or has in ([], [line.sort])))
made("a-word-is-an-init-of-all", well_sorted=rule_for("state", lambda line, has: has in ([], [line.sort], [WORD])))
made("input-of-bytes-is-17", well_sorted=rule_for("input", lambda line, has: line.sort <= MEMORY))


@wrong
class sort_rule_of_all_lines(Evaluation):
    def check(self, asked):
        super().check(asked)
        if not all(map(self.well_sorted, (line for line in self.lines if line.kind not in NO_VALUE))):
            raise Refused(17)


@wrong
class sort_rule_of_next_and_bad(Evaluation):
    def check(self, asked):
        super().check(asked)
        for line in self.lines:
            has = [self.lines[operand].carries for operand in line.operands]
            if line.kind == "bad" and has != [BIT] or line.kind == "next" and has != [line.sort] * 2:
                raise Refused(17)


@wrong
class sort_rule_of_the_asked_node_alone(Evaluation):
    def visit(self, place):
        return super().visit(place) if self.visits == 0 else self.counted(place)

    def counted(self, place):
        if self.visits == self.limit:
            raise Refused(18)
        self.visits += 1
        return self.lines[place]


@wrong
class sort_rule_of_the_operands_too(Evaluation):
    def well_sorted(self, line):
        return super().well_sorted(line) and all(super(type(self), self).well_sorted(self.lines[operand]) for operand in line.operands)


@wrong
class no_sort_rule_for_cells(Evaluation):
    def well_sorted(self, line):
        return line.carries == MEMORY or super().well_sorted(line)


@wrong
class a_broken_rule_is_19(Evaluation):
    def visit(self, place):
        try:
            return super().visit(place)
        except Refused as refused:
            raise Refused(19 if refused.number == 17 else refused.number)


#
# 19
#


def with_lines(change):
    """The same with another count of lines."""

    def __init__(self, words, lines, values, memory, limit):
        Evaluation.__init__(self, words, change(lines, words), values, memory, limit)

    return __init__


made("4096-lines-are-refused", too_long=lambda self: self.count >= MOST_LINES or Evaluation.too_long(self))
made("4097-lines-are-accepted", too_long=lambda self: self.count > MOST_LINES + 1 or self.count > len(self.words) // RECORD)
made("any-lines-that-fit-are-accepted", too_long=lambda self: self.count > len(self.words) // RECORD)
made("lines-that-fill-the-words-are-refused", too_long=lambda self: Evaluation.too_long(self) or self.count == len(self.words) // RECORD)
made("words-beside-the-lines-are-refused", too_long=lambda self: Evaluation.too_long(self) or RECORD * self.count != len(self.words))
made("lines-are-counted-by-the-words", __init__=with_lines(lambda lines, words: min(len(words) // RECORD, MOST_LINES)))
made("no-more-lines-than-the-words-hold", __init__=with_lines(lambda lines, words: min(lines, len(words) // RECORD)))
made("lines-of-32-bits", __init__=with_lines(lambda lines, words: lines % 2**32))
made("lines-of-16-bits", __init__=with_lines(lambda lines, words: lines % 2**16))
made("words-of-a-line-begun-are-enough", too_long=lambda self: self.count > MOST_LINES or self.count > -(-len(self.words) // RECORD))
made("lines-times-5-wrap", too_long=lambda self: RECORD * self.count % ALL > len(self.words) or self.count in range(4097, 2**40))


def broken_also(test):
    """More lines are broken: by the line and its first word."""
    return lambda self, place: Evaluation.broken(self, place) or test(self.lines[place], self.words[RECORD * place])


def broken_but(test):
    """Some broken lines are accepted."""
    return lambda self, place: Evaluation.broken(self, place) and not test(self.lines[place], self.words[RECORD * place])


def reads_also(which):
    """More words are operands: which of the line's words, by the line and its first word."""

    def broken(self, place):
        at = RECORD * place
        more = [self.words[at + n] for n in which(self.lines[place], self.words[at])]
        return Evaluation.broken(self, place) or any(no_operand(self, place, operand) for operand in more)

    return broken


def no_operand(self, place, operand):
    return operand >= place or self.lines[operand].carries is None


def area(head):
    return head >> 16 & 255


def mark(head):
    return head >> 24 & 15


def address_mark(head):
    return head >> 28 & 15


made("an-unknown-sort-of-any-kind-is-19", broken=broken_also(lambda line, head: line.sort not in SORTS))
for kind in KINDS:
    if kind not in OWN_SORT:
        made(f"an-unknown-sort-of-{kind}-is-19", broken=broken_also(lambda line, head, kind=kind: line.kind == kind and line.sort not in SORTS))
made("names-are-read", broken=broken_also(lambda line, head: line.kind in ("state", "input", "bad") and area(head) > 2))
made("areas-of-any-kind-are-read", broken=broken_also(lambda line, head: area(head) > 2))
made("identifiers-are-read", broken=broken_also(lambda line, head: head >> 32 > 2**31 + 2_097_152))
made("ext-from-memory-is-19", broken=broken_also(lambda line, head: line.kind == "uext" and line.sort == MEMORY))
made("ext-from-word-is-19", broken=broken_also(lambda line, head: line.kind == "uext" and line.sort == WORD))
made("a-const-too-large-is-19", broken=broken_also(lambda line, head: line.kind == "const" and line.number >= 2 ** WIDTH.get(line.sort, 64)))
made("a-const-of-memory-is-19", broken=broken_also(lambda line, head: line.kind == "const" and line.sort == MEMORY))
made("init-marks-are-1", broken=broken_also(lambda line, head: line.kind == "state" and mark(head) > 1))
made("the-lowest-bit-marks-an-init", broken=broken_but(lambda line, head: line.kind == "state" and line.known and mark(head) % 2 == 0))
made("the-highest-bit-marks-no-init", broken=broken_but(lambda line, head: line.kind == "state" and line.known and mark(head) == 8))
made("address-marks-are-1", broken=broken_also(lambda line, head: address_mark(head) > 1))
made("address-marks-are-read", broken=broken_also(lambda line, head: address_mark(head) > 0))
made("an-address-mark-is-an-init", broken=reads_also(lambda line, head: [1] if line.kind == "state" and address_mark(head) else []))
made("init-marks-of-other-kinds-are-read", broken=broken_also(lambda line, head: line.kind != "state" and mark(head) > 0))
made("an-init-without-its-mark-is-read", broken=reads_also(lambda line, head: [1] if line.kind == "state" else []))
made("an-init-of-an-input-is-read", broken=reads_also(lambda line, head: [1] if line.kind == "input" and mark(head) else []))
made("three-operands-of-every-kind", broken=reads_also(lambda line, head: [1, 2, 3] if line.operands and line.kind != "state" else []))
made("three-words-of-an-init", broken=reads_also(lambda line, head: [1, 2, 3] if line.operands and line.kind == "state" else []))
made("inits-may-be-broken", broken=broken_but(lambda line, head: line.kind == "state" and line.known))
made("operands-of-next-may-be-broken", broken=broken_but(lambda line, head: line.kind == "next" and line.known))
made("operands-of-bad-may-be-broken", broken=broken_but(lambda line, head: line.kind == "bad"))
for number in (0, 23, 255):
    made(f"kind-{number}-is-known", broken=broken_but(lambda line, head, number=number: head % 256 == number))
for number in (0, 4, 10, 18, 255):
    made(f"sort-{number}-is-known", broken=broken_but(lambda line, head, number=number: line.kind in OWN_SORT and line.sort == number))
for kind in sorted(OWN_SORT):
    made(f"any-sort-of-{kind}-is-known", broken=broken_but(lambda line, head, kind=kind: line.kind == kind and not line.known))


@wrong
class identifiers_must_rise(Evaluation):
    def broken(self, place):
        before, own = self.words[RECORD * max(place - 1, 0)] >> 32, self.words[RECORD * place] >> 32
        return super().broken(place) or own < before


def operands_may_be(allowed):
    """Some operands that are none are accepted."""

    def broken(self, place):
        line = self.lines[place]
        return not line.known or any(no_operand(self, place, operand) and not allowed(self, place, operand) for operand in line.operands)

    return broken


made("a-line-may-take-itself", broken=operands_may_be(lambda self, place, operand: operand == place))
made("a-line-may-take-later-ones", broken=operands_may_be(lambda self, place, operand: place < operand < self.count and self.lines[operand].carries))
made("a-next-is-a-value", broken=operands_may_be(lambda self, place, operand: operand < place and self.lines[operand].kind == "next"))
made("a-bad-is-a-value", broken=operands_may_be(lambda self, place, operand: operand < place and self.lines[operand].kind == "bad"))
made("the-largest-place-is-no-operand-at-all", broken=operands_may_be(lambda self, place, operand: operand == ALL - 1))
for n, name in enumerate(("first", "second", "third")):
    made(f"the-{name}-operand-is-not-looked-at", broken=lambda self, place, n=n: not self.lines[place].known or any(
        no_operand(self, place, operand) for at, operand in enumerate(self.lines[place].operands) if at != n))


class Narrow(Evaluation):
    """Places are taken modulo a power of 2."""

    def __init__(self, words, *given):
        heads = [words[at - at % RECORD] for at in range(len(words))]
        narrow = lambda at, word: word if at % RECORD == 0 or heads[at] % 256 == 1 else word % self.modulus
        super().__init__([narrow(at, word) for at, word in enumerate(words)], *given)


for bits in (8, 16, 32, 63):
    made(f"places-of-{bits}-bits", Narrow, modulus=2**bits)


def only(chosen):
    """Only some lines are looked at before the first visit."""

    def check(self, asked):
        if self.too_long():
            raise Refused(19)
        self.lines = [line_of(*self.words[at : at + RECORD]) for at in range(0, RECORD * self.count, RECORD)]
        if any(self.broken(place) for place in range(self.count) if chosen(self, place, asked)) or self.no_answer(asked):
            raise Refused(19)

    return check


made("nineteen-for-lines-up-to-the-asked-one", check=only(lambda self, place, asked: place <= asked))
made("nineteen-for-all-but-the-last-line", check=only(lambda self, place, asked: place < self.count - 1))
made("nineteen-for-all-but-the-first-line", check=only(lambda self, place, asked: place > 0))
made("nineteen-for-the-asked-line-alone", check=only(lambda self, place, asked: place == asked))


@wrong
class nineteen_for_visited_lines(Evaluation):
    check = only(lambda self, place, asked: False)

    def visit(self, place):
        if place < self.count and self.broken(place):
            raise Refused(19)
        return super().visit(place)


@wrong
class the_node_is_asked_for_before_the_list_is_checked(Evaluation):
    """No other number than 19 comes first; but a list that is too long is no list."""

    def check(self, asked):
        if asked < len(self.words) // RECORD and line_of(*self.words[RECORD * asked : RECORD * asked + RECORD]).carries in (BIT, WORD):
            self.count = min(max(self.count, asked + 1), len(self.words) // RECORD)
        super().check(asked)


made("any-value-line-is-asked-for", no_answer=lambda self, asked: asked >= self.count or self.lines[asked].carries in (None, MEMORY))
made("words-alone-are-asked-for", no_answer=lambda self, asked: asked >= self.count or self.lines[asked].carries != WORD)
made("bits-alone-are-asked-for", no_answer=lambda self, asked: asked >= self.count or self.lines[asked].carries != BIT)
made("a-node-is-asked-for-by-its-low-32-bits", answer=lambda self, asked: Evaluation.answer(self, asked % 2**32))
made("a-node-is-asked-for-by-its-low-62-bits", answer=lambda self, asked: Evaluation.answer(self, asked % 2**62))
made("a-node-is-asked-for-by-its-sort-byte", no_answer=lambda self, asked: asked >= self.count or self.lines[asked].sort not in (BIT, WORD))


@wrong
class a_memory_that_is_asked_for_is_17(Evaluation):
    def no_answer(self, asked):
        if asked < self.count and self.lines[asked].carries == MEMORY:
            raise Refused(17)
        return super().no_answer(asked)


@wrong
class bytes_that_are_asked_for_are_17(Evaluation):
    def no_answer(self, asked):
        if asked < self.count and (self.lines[asked].carries or 0) > MEMORY:
            raise Refused(17)
        return super().no_answer(asked)


@wrong
class a_next_that_is_asked_for_is_17(Evaluation):
    def no_answer(self, asked):
        if asked < self.count and self.lines[asked].kind == "next":
            raise Refused(17)
        return super().no_answer(asked)


#
# Operators
#


def signed(a):
    return a - ALL if a >> 63 else a


def truncated(a, b):
    """The manual's division."""
    if b == 0:
        return ALL - 1
    quotient = abs(signed(a)) // abs(signed(b))
    return (quotient if (a >> 63) == (b >> 63) else -quotient) % ALL


def floored(a, b):
    return signed(a) // signed(b) % ALL if b else OPERATORS["sdiv"](a, b)


OTHERS = {
    "udiv-by-0-is-0": ("udiv", lambda a, b: a // b if b else 0),
    "udiv-by-0-is-the-dividend": ("udiv", lambda a, b: a // b if b else a),
    "udiv-is-signed": ("udiv", OPERATORS["sdiv"]),
    "sdiv-is-unsigned": ("sdiv", bvudiv),
    "sdiv-by-0-is-all-ones": ("sdiv", truncated),
    "sdiv-by-0-is-0": ("sdiv", lambda a, b: OPERATORS["sdiv"](a, b) if b else 0),
    "sdiv-rounds-down": ("sdiv", floored),
    "sdiv-of-the-least-by-minus-one-is-0": ("sdiv", lambda a, b: 0 if (a, b) == (2**63, ALL - 1) else OPERATORS["sdiv"](a, b)),
    "sdiv-has-the-sign-of-the-dividend": ("sdiv", lambda a, b: bvneg(bvudiv(bvneg(a), b)) if a >> 63 else bvudiv(a, b)),
    "urem-by-0-is-0": ("urem", lambda a, b: a % b if b else 0),
    "urem-by-0-is-all-ones": ("urem", lambda a, b: a % b if b else ALL - 1),
    "urem-is-signed": ("urem", lambda a, b: (abs(signed(a)) % abs(signed(b)) * (-1 if a >> 63 else 1)) % ALL if b else a),
    "sll-by-the-low-6-bits": ("sll", lambda a, b: (a << b % 64) % ALL),
    "srl-by-the-low-6-bits": ("srl", lambda a, b: a >> b % 64),
    "sll-by-the-low-32-bits": ("sll", lambda a, b: OPERATORS["sll"](a, b % 2**32)),
    "srl-by-the-low-32-bits": ("srl", lambda a, b: OPERATORS["srl"](a, b % 2**32)),
    "srl-by-the-low-63-bits": ("srl", lambda a, b: OPERATORS["srl"](a, b % 2**63)),
    "sll-by-63-is-0": ("sll", lambda a, b: (a << b) % ALL if b < 63 else 0),
    "srl-by-64-is-the-value": ("srl", lambda a, b: a if b == 64 else OPERATORS["srl"](a, b)),
    "srl-keeps-the-sign": ("srl", lambda a, b: (signed(a) >> min(b, 63)) % ALL),
    "ult-is-signed": ("ult", lambda a, b: int(signed(a) < signed(b))),
    "ult-or-equal": ("ult", lambda a, b: int(a <= b)),
    "eq-by-the-low-32-bits": ("eq", lambda a, b: int(a % 2**32 == b % 2**32)),
    "eq-by-the-low-63-bits": ("eq", lambda a, b: int(a % 2**63 == b % 2**63)),
    "mul-of-32-bits": ("mul", lambda a, b: a % 2**32 * (b % 2**32)),
    "mul-is-the-largest-where-it-is-too-large": ("mul", lambda a, b: min(a * b, ALL - 1)),
    "add-of-63-bits": ("add", lambda a, b: (a + b) % 2**63),
    "add-is-the-largest-where-it-is-too-large": ("add", lambda a, b: min(a + b, ALL - 1)),
    "sub-is-swapped": ("sub", lambda a, b: (b - a) % ALL),
    "sub-stops-at-0": ("sub", lambda a, b: max(a - b, 0)),
    "or-is-exclusive": ("or", lambda a, b: a ^ b),
    "or-is-a-sum": ("or", lambda a, b: (a + b) % ALL),
    "ext-of-63-bits": ("uext", lambda a: a % 2**31),
    "ext-keeps-the-sign-of-a-byte": ("uext", lambda a: a | ALL - 256 if 128 <= a < 256 else a),
}


def instead(kind, other):
    return lambda self, line, *operands: other(*operands) if line.kind == kind else Evaluation.operator(self, line, *operands)


for name, (kind, other) in OTHERS.items():
    made(name, operator=instead(kind, other))
ANOTHER = {
    "add": "or", "sub": "add", "mul": "add", "udiv": "urem", "sdiv": "udiv", "urem": "udiv", "sll": "mul", "srl": "udiv", "ult": "eq", "eq": "ult",
    "and": "mul", "or": "add",
}  # fmt: skip
for kind, another in ANOTHER.items():
    made(f"{kind}-is-{another}", operator=instead(kind, OPERATORS[another]))
made("not-of-a-bit-has-64-bits", operator=lambda self, line, *operands: (
    operands[0] ^ ALL - 1 if line.kind == "not" else Evaluation.operator(self, line, *operands)))
made("not-of-a-word-is-of-its-lowest-bit", operator=lambda self, line, *operands: (
    operands[0] ^ 1 if line.kind == "not" else Evaluation.operator(self, line, *operands)))
made("not-is-negation", operator=lambda self, line, *operands: (
    -operands[0] % 2 ** WIDTH[line.sort] if line.kind == "not" else Evaluation.operator(self, line, *operands)))


@wrong
class branches_are_swapped(Evaluation):
    def branch(self, condition, first, second):
        return (yield from super().branch(condition, second, first))


@wrong
class the_first_branch_always(Evaluation):
    def branch(self, condition, first, second):
        yield self.value(condition)
        return first


#
# The run
#

LONG = 20_000  # visits


def answer(reading, question):
    """What a reading says; one that can't answer says something else than the right one."""
    try:
        return evaluate(*question, evaluation=reading)
    except (IndexError, KeyError, TypeError, ValueError, ZeroDivisionError):
        return "none", 0


def cost(asked):
    """Questions about short lists come first, those that take many visits last."""
    _, (words, *_), right = asked
    return right == ("refused", 18) or right[0] == "value" and right[2] > LONG, len(words)


def told_apart(put, names=tuple(BY_NAME)):
    """Whether one of these readings gives the right answer to every question. `put` makes the questions and hands on each with its answer."""
    questions = []
    put(lambda *question: questions.append(question))
    questions.sort(key=cost)
    missed, found = [], collections.Counter()
    for name in names:
        group = next((group for group, question, right in questions if answer(BY_NAME[name], question) != right), None)
        print(f"{name}: {group or 'not found'}", flush=True)
        if group is None:
            missed.append(name)
        found[group] += 1
    print("found first by:", ", ".join(f"{group} {count}" for group, count in found.most_common() if group))
    print(f"{len(missed)} of {len(names)} not found: {', '.join(missed)}" if missed else f"all {len(names)} found")
    return len(missed) != 0


def main():
    import evaluation_cases  # it builds on this module

    unknown = [name for name in sys.argv[1:] if name not in BY_NAME]
    if unknown:
        sys.exit(f"{__doc__}\nNo such reading: {', '.join(unknown)}")
    return told_apart(lambda tried: evaluation_cases.cases(evaluation_cases.LISTING, tried=tried), sys.argv[1:] or tuple(BY_NAME))


if __name__ == "__main__":
    sys.exit(main())
