"""Wrong readings of R-1 and of the words that a call may use for its edges, each wrong in one place. The stored joins (tools/join_cases.py
variants) must tell each of them from the right one, and those of the lines must be found by the comparison with the Rust
(differential/compare_joins_selftest.py)."""
import dataclasses

from join_reading import BRANCH, DISPATCH, DYNAMIC_FLAGS, EDGE, FLAG, MOST_NID, OURS, RECORD, REGISTER_NODES, SYSCALL, Reading, answer
from start_cases import BIT, KIND, ROLE_SORTS, WORD

LINES, REFUSALS, WORDS = {}, {}, {}  # by name


def lines(reading):
    LINES[named(reading)] = reading
    return reading


def refusals(reading):
    REFUSALS[named(reading)] = reading
    return reading


def words(reading):
    WORDS[named(reading)] = reading
    return reading


def named(reading):
    return reading.__name__.replace("_", "-")


def differs(reading, join, right):
    """Whether it answers a call in another way; one that can't answer at all does so too."""
    try:
        return answer(join, reading) != right
    except (IndexError, TypeError):
        return True


def changed(reading, **fields):
    """The right reading of the same call with other fields."""
    return Reading(dataclasses.replace(reading.join, **fields))


#
# Wrong lines
#


@lines
class swapped_ite(Reading):
    def from_any(self, activate):
        if self.made.flow == self.zero:
            self.made.flow = activate
        else:
            self.made.flow = self.append("Ite", BIT, activate, self.made.flow, self.one)


@lines
class no_zero_bit_case(Reading):
    def from_any(self, activate):
        self.made.flow = self.append("Ite", BIT, activate, self.one, self.made.flow)


@lines
class zero_bit_only_at_the_start(Reading):
    def from_any(self, activate):
        if self.made.flow == self.zero and self.made.flow == self.join.flow and not self.started:
            self.made.flow = activate
        else:
            self.made.flow = self.append("Ite", BIT, activate, self.one, self.made.flow)
        self.started = True

    def joined(self):
        self.started = False
        return super().joined()


@lines
class zero_bit_by_value(Reading):
    def from_any(self, activate):
        flow = self.made.flow
        constant = self.join.records[flow][1:4] == [KIND["Const"], BIT, 0] if flow < self.join.lines else False
        self.made.flow = activate if constant or flow == self.zero else self.append("Ite", BIT, activate, self.one, flow)


@lines
class zero_bit_at_place_0(Reading):
    def from_any(self, activate):
        self.made.flow = activate if self.made.flow == 0 else self.append("Ite", BIT, activate, self.one, self.made.flow)


@lines
class a_flag_that_is_the_zero_bit_is_skipped(Reading):
    def from_any(self, activate):
        if activate != self.zero:
            super().from_any(activate)


@lines
class dispatches_first(Reading):
    def steps(self):
        steps = super().steps()
        return steps[self.join.edge_count :] + steps[: self.join.edge_count]


@lines
class edges_from_the_last(Reading):
    def steps(self):
        steps, edges = super().steps(), self.join.edge_count
        return steps[:edges][::-1] + steps[edges:]


@lines
class dispatches_from_the_last(Reading):
    def steps(self):
        steps, edges = super().steps(), self.join.edge_count
        return steps[:edges] + steps[edges:][::-1]


@lines
class edges_by_origin(Reading):
    def steps(self):
        steps, edges = super().steps(), self.join.edge_count
        return sorted(steps[:edges], key=lambda step: step[1][1]) + steps[edges:]


@lines
class last_flag_counts(Reading):
    def flag_of(self, source):
        return next((place for address, place in reversed(self.join.given_flags()) if address == source), None)


@lines
class flag_by_the_target(Reading):
    def take_edge(self, source, origin, condition):
        super().take_edge(self.join.edges[0], origin, condition)


@lines
class ecall_with_one_identifier(Reading):
    def put(self, record, identifiers):
        return super().put(record, 1)


@lines
class ecall_without_its_next(Reading):
    def from_ecall(self, flag, source):
        state = self.append_state(self.name(source))
        self.append("Ite", BIT, state, self.join.mode, flag)
        self.from_any(self.append("And", BIT, state, self.join.none))


@lines
class next_that_is_not_listed(Reading):
    def from_ecall(self, flag, source):
        super().from_ecall(flag, source)
        self.made.sequentials.clear()


@lines
class state_listed_for_its_next(Reading):
    def from_ecall(self, flag, source):
        super().from_ecall(flag, source)
        self.made.sequentials[-1] -= 2


@lines
class next_of_a_plain_word(Reading):
    def append(self, kind, sort, first, second, third=0):
        return super().append(kind, WORD if kind == "Next" else sort, first, second, third)


@lines
class state_without_its_init(Reading):
    def put(self, record, identifiers):
        if record[1] == KIND["State"]:
            record[3], record[6], identifiers = 0, 0, 1
        return super().put(record, identifiers)


@lines
class init_is_the_one_bit(Reading):
    def put(self, record, identifiers):
        if record[1] == KIND["State"]:
            record[3] = self.one
        return super().put(record, identifiers)


@lines
class equal_sources_share_a_state(Reading):
    def joined(self):
        self.states = {}
        return super().joined()

    def from_ecall(self, flag, source):
        if source not in self.states:
            self.states[source] = self.join.lines + len(self.made.lines)
            return super().from_ecall(flag, source)
        self.from_any(self.append("And", BIT, self.states[source], self.join.none))


@lines
class hexadecimal_name(Reading):
    def name(self, source):
        return b"kernel-mode-pc-flag-%x" % source


@lines
class short_name(Reading):
    def name(self, source):
        return b"kernel-mode-pc-flag-%d" % (source % 10**19)


@lines
class name_in_the_host_s_area(Reading):
    def put(self, record, identifiers):
        if record[7] == OURS:
            record[7] = 1
        return super().put(record, identifiers)


@lines
class name_from_the_front(Reading):
    def put(self, record, identifiers):
        if record[1] == KIND["State"]:
            record[4] = record[8] = record[4] - self.join.names
        return super().put(record, identifiers)


@lines
class kernel_nodes_swapped(Reading):
    def __init__(self, join):
        super().__init__(dataclasses.replace(join, mode=join.none, none=join.mode))


@lines
class next_value_swapped(Reading):
    def append(self, kind, sort, first, second, third=0):
        own = kind == "Ite" and second == self.join.mode and self.made.lines[-1][1] == KIND["State"]
        return super().append(kind, sort, first, *((third, second) if own else (second, third)))


@lines
class and_swapped(Reading):
    def append(self, kind, sort, first, second, third=0):
        return super().append(kind, sort, *((second, first) if kind == "And" else (first, second)), third)


@lines
class and_of_a_dispatch_swapped(Reading):
    def from_jalr(self, register, dynamic, place):
        self.from_any(self.append("And", BIT, self.append("Eq", BIT, register, place), dynamic))


@lines
class eq_swapped(Reading):
    def append(self, kind, sort, first, second, third=0):
        return super().append(kind, sort, *((second, first) if kind == "Eq" else (first, second)), third)


@lines
class branch_as_regular(Reading):
    def from_branch(self, flag, condition):
        self.from_any(flag)


@lines
class syscall_as_regular(Reading):
    def from_ecall(self, flag, source):
        self.from_any(flag)


@lines
class dynamic_flag_of_the_next_register(Reading):
    def take_dispatch(self, register, place):
        self.from_jalr(self.join.roles[REGISTER_NODES + register], self.join.dynamics[register % DYNAMIC_FLAGS], place)


@lines
class register_one_below(Reading):
    def take_dispatch(self, register, place):
        self.from_jalr(self.join.roles[REGISTER_NODES + register - 1], self.join.dynamics[register - 1], place)


@lines
class register_flow_for_its_node(Reading):
    def take_dispatch(self, register, place):
        self.from_jalr(self.join.roles[38 + register], self.join.dynamics[register - 1], place)


@lines
class address_constant_for_dispatches(Reading):
    def take_dispatch(self, register, place):
        self.append("Const", WORD, 0, 0)
        super().take_dispatch(register, place)


@lines
class lines_with_the_source_s_address(Reading):
    def take_edge(self, source, origin, condition):
        first = len(self.made.lines)
        super().take_edge(source, origin, condition)
        for record in self.made.lines[first:]:
            record[-2:] = 1, source


@lines
class states_with_the_source_s_address(Reading):
    def from_ecall(self, flag, source):
        state = len(self.made.lines)
        super().from_ecall(flag, source)
        self.made.lines[state][-2:] = 1, source


@lines
class address_0_for_none(Reading):
    def put(self, record, identifiers):
        return super().put([*record[:-2], 1, 0], identifiers)


@lines
class zero_for_the_one_bit(Reading):
    def __init__(self, join):
        super().__init__(join)
        self.one = self.zero


#
# Wrong refusals
#


def without(number):
    """The tests without one of them."""

    def tests(self):
        return tuple(test for test in Reading.tests(self) if test[0] != number)

    return tests


for n in (9, 13, 15, 16, 8):
    REFUSALS[f"no-refusal-{n}"] = type(f"no_refusal_{n}", (Reading,), {"tests": without(n)})


def in_order(*order):
    def tests(self):
        found = dict(Reading.tests(self))
        return tuple((number, found[number]) for number in order)

    return tests


for order in ((13, 9, 15, 16, 8), (9, 15, 13, 16, 8), (9, 13, 16, 15, 8), (9, 13, 15, 8, 16), (9, 8, 13, 15, 16)):
    name = "tested-in-the-order-" + "-".join(map(str, order))
    REFUSALS[name] = type(name, (Reading,), {"tests": in_order(*order)})


# The tests of 9, one left out in each: how a call is changed so that the test can't apply.
COUNTED = {
    "the-list": lambda j: dict(list_words=max(j.list_words, RECORD * j.lines)),
    "the-identifier": lambda j: dict(nid=0),
    "names": lambda j: dict(names=0),
    "sequentials": lambda j: dict(sequentials=0),
    "edges": lambda j: dict(edge_count=0),
    "dispatches": lambda j: dict(dispatch_count=0),
    "flags": lambda j: dict(flag_count=0),
}


def count_not_looked_at(change):
    return lambda self: changed(self, **change(self.join)).counts_out()


for part, change in COUNTED.items():
    name = f"9-without-{part}"
    REFUSALS[name] = type(name, (Reading,), {"counts_out": count_not_looked_at(change)})


@refusals
class identifier_limit_one_lower(Reading):
    def counts_out(self):
        return changed(self, nid=self.join.nid + 1).counts_out()


@refusals
class identifier_limit_one_higher(Reading):
    def counts_out(self):
        return changed(self, nid=max(self.join.nid, 1) - 1).counts_out()


@refusals
class identifier_after_the_join(Reading):
    def counts_out(self):
        return super().counts_out() or self.join.nid + self.join.edge_count > MOST_NID


@refusals
class a_count_that_fills_its_storage_is_out(Reading):
    def counts_out(self):
        j = self.join
        return super().counts_out() or j.edge_count and j.edge_count == len(j.edges) // EDGE


@refusals
class dispatches_that_fill_their_storage_are_out(Reading):
    def counts_out(self):
        j = self.join
        return super().counts_out() or j.dispatch_count and j.dispatch_count == len(j.dispatches) // DISPATCH


@refusals
class flags_that_fill_their_storage_are_out(Reading):
    def counts_out(self):
        j = self.join
        return super().counts_out() or j.flag_count and j.flag_count == len(j.flags) // FLAG


@refusals
class a_list_that_is_full_is_out(Reading):
    def counts_out(self):
        return super().counts_out() or self.join.lines == self.join.list_words // RECORD


@refusals
class names_that_are_full_are_out(Reading):
    def counts_out(self):
        return super().counts_out() or self.join.names == self.join.name_bytes


@refusals
class sequentials_that_are_full_are_out(Reading):
    def counts_out(self):
        return super().counts_out() or self.join.sequentials == self.join.sequential_words


@refusals
class words_of_a_record_begun_count(Reading):
    def counts_out(self):
        return changed(self, edges=self.join.edges + [0] * (EDGE - 1)).counts_out()


@refusals
class only_roles_that_a_join_reads(Reading):
    def roles_out(self):
        j = self.join
        return any(j.sort_at(j.roles[role]) != ROLE_SORTS[role] for role in (0, 1, *range(7, 39)))


@refusals
class roles_may_have_any_sort(Reading):
    def roles_out(self):
        return any(self.join.sort_at(place) is None for place in self.join.roles)


@refusals
class last_role_is_not_looked_at(Reading):
    def roles_out(self):
        return any(self.join.sort_at(place) != sort for place, sort in zip(self.join.roles[:-1], ROLE_SORTS))


@refusals
class flags_may_be_words(Reading):
    def no_bit(self, place):
        return super().no_bit(place) and self.no_word(place)


@refusals
class a_next_is_a_value(Reading):
    def no_bit(self, place):
        return super().no_bit(place) and not self.is_next(place)

    def is_next(self, place):
        return place < self.join.lines and self.join.records[place][1:3] == [KIND["Next"], BIT]


@refusals
class a_bad_is_a_value(Reading):
    def no_bit(self, place):
        return super().no_bit(place) and not (place < self.join.lines and self.join.records[place][1] == KIND["Bad"])


@refusals
class lines_after_the_list_s_end_count(Reading):
    def no_bit(self, place):
        return changed(self, lines=self.join.list_words // RECORD).no_bit(place)


@refusals
class lines_of_the_join_itself_count(Reading):
    def no_bit(self, place):
        return super().no_bit(place) and place != self.join.lines


@refusals
class unused_flags_are_not_looked_at(Reading):
    def table_places(self):
        return [self.flag_of(source) for source, _, _ in self.join.given_edges()]


@refusals
class shadowed_flags_are_not_looked_at(Reading):
    def table_places(self):
        return [self.flag_of(address) for address, _ in self.join.given_flags()]


@refusals
class unused_entries_before_the_last_used_alone(Reading):
    def table_places(self):
        sources = [source for source, _, _ in self.join.given_edges()]
        used = [n for n, (address, _) in enumerate(self.join.given_flags(), 1) if address in sources]
        return super().table_places()[: max(used, default=0)]


def good_node(field):
    """A call's node taken as good."""
    return lambda self: changed(self, **{field: self.zero}).flags_out()


for field in ("mode", "none", "flow"):
    REFUSALS[f"15-without-{field}"] = type(f"without_{field}", (Reading,), {"flags_out": good_node(field)})


def dynamics_between(first, last):
    def dynamics_out(self):
        flags = self.join.dynamics[:DYNAMIC_FLAGS]
        return len(flags) < DYNAMIC_FLAGS or any(map(self.no_bit, flags[first:last]))

    return dynamics_out


REFUSALS["15-without-x1"] = type("without_x1", (Reading,), {"dynamics_out": dynamics_between(1, 31)})
REFUSALS["15-without-x31"] = type("without_x31", (Reading,), {"dynamics_out": dynamics_between(0, 30)})


@refusals
class only_dynamic_flags_of_dispatches(Reading):
    def dynamics_out(self):
        flags = self.join.dynamics
        used = [register for register, _ in self.join.given_dispatches() if 1 <= register <= 31]
        return len(flags) < DYNAMIC_FLAGS or any(self.no_bit(flags[register - 1]) for register in used)


@refusals
class thirty_dynamic_flags(Reading):
    def dynamics_out(self):
        flags = self.join.dynamics[: DYNAMIC_FLAGS - 1]
        return len(flags) < DYNAMIC_FLAGS - 1 or any(map(self.no_bit, self.join.dynamics[:DYNAMIC_FLAGS]))


@refusals
class all_dynamic_words_are_looked_at(Reading):
    def dynamics_out(self):
        return super().dynamics_out() or any(map(self.no_bit, self.join.dynamics))


@refusals
class a_source_without_a_flag_is_16(Reading):
    def source_without_flag(self):
        return False

    def edge_out(self, source, origin, condition):
        return super().edge_out(source, origin, condition) or self.flag_of(source) is None


@refusals
class only_kernel_nodes_of_syscalls(Reading):
    def flags_out(self):
        used = any(origin == SYSCALL for _, origin, _ in self.join.given_edges())
        return super().flags_out() if used else changed(self, mode=self.zero, none=self.zero).flags_out()


@refusals
class other_origins_are_regular(Reading):
    def edge_out(self, source, origin, condition):
        return origin == BRANCH and self.no_bit(condition)


@refusals
class origins_by_their_low_byte(Reading):
    def edge_out(self, source, origin, condition):
        return super().edge_out(source, origin % 256, condition)


@refusals
class every_condition_is_read(Reading):
    def edge_out(self, source, origin, condition):
        return super().edge_out(source, origin, condition) or self.no_bit(condition)


@refusals
class conditions_of_syscalls_are_read(Reading):
    def edge_out(self, source, origin, condition):
        return super().edge_out(source, origin, condition) or origin == SYSCALL and self.no_bit(condition)


@refusals
class conditions_are_not_read(Reading):
    def edge_out(self, source, origin, condition):
        return not 0 <= origin <= 2


@refusals
class only_the_first_edge_s_record(Reading):
    def records_out(self):
        return changed(self, edge_count=min(self.join.edge_count, 1)).records_out()


@refusals
class only_the_first_dispatch(Reading):
    def records_out(self):
        return changed(self, dispatch_count=min(self.join.dispatch_count, 1)).records_out()


@refusals
class x0_is_dispatched(Reading):
    def dispatch_out(self, register, place):
        return register > 31 or self.no_word(place)


@refusals
class x32_is_dispatched(Reading):
    def dispatch_out(self, register, place):
        return not 1 <= register <= 32 or self.no_word(place)


@refusals
class registers_by_their_low_byte(Reading):
    def dispatch_out(self, register, place):
        return super().dispatch_out(register % 256, place)


@refusals
class address_nodes_are_not_looked_at(Reading):
    def dispatch_out(self, register, place):
        return not 1 <= register <= 31


@refusals
class address_nodes_may_be_bits(Reading):
    def dispatch_out(self, register, place):
        return super().dispatch_out(register, place) and not (1 <= register <= 31 and not self.no_bit(place))


@refusals
class faults_edge_by_edge(Reading):
    """The first faulty edge's number, not the first number over all edges."""

    def flags_out(self):
        for edge in self.join.given_edges():
            if self.flag_of(edge[0]) is None:
                return True
            if self.edge_out(*edge):
                return False
        return super().flags_out()


def room_changed(field, change):
    return lambda self: changed(self, **{field: getattr(self.join, field) + change}).room_out()


for field, size in (("list_words", RECORD), ("name_bytes", 1), ("sequential_words", 1)):
    REFUSALS[f"8-with-one-more-of-{field}"] = type(f"more_{field}", (Reading,), {"room_out": room_changed(field, size)})
    REFUSALS[f"8-with-one-less-of-{field}"] = type(f"less_{field}", (Reading,), {"room_out": room_changed(field, -size)})


@refusals
class room_as_if_no_flow_were_the_zero_bit(Reading):
    def room_out(self):
        return no_zero_bit_case(self.join).room_out()


@refusals
class room_of_the_edges_alone(Reading):
    def room_out(self):
        return changed(self, dispatch_count=0).room_out()


@refusals
class room_of_a_record_begun(Reading):
    def room_out(self):
        return changed(self, list_words=self.join.list_words + RECORD - 1).room_out()


#
# Wrong words
#


@words
class nine_without_the_words(Reading):
    def edges_over(self):
        return changed(self, scratch_words=EDGE * self.join.edge_count).edges_over()


@words
class words_that_are_full_are_out(Reading):
    def edges_over(self):
        j = self.join
        return super().edges_over() or j.edge_count > 0 and j.edge_count == j.scratch_words // EDGE


@words
class words_for_an_edge_begun_are_enough(Reading):
    def edges_over(self):
        return changed(self, scratch_words=self.join.scratch_words + EDGE - 1).edges_over()


@words
class words_for_all_records(Reading):
    def edges_over(self):
        j = self.join
        return super().edges_over() or len(j.edges) // EDGE > j.scratch_words // EDGE


@words
class no_words_are_too_few(Reading):
    def edges_over(self):
        return super().edges_over() or self.join.scratch_words == 0


@words
class words_of_the_records_that_fit(Reading):
    def put_words(self):
        j = self.join
        return j.edges[: EDGE * min(j.edge_count, len(j.edges) // EDGE, j.scratch_words // EDGE)]


@words
class words_of_all_records(Reading):
    def put_words(self):
        j = self.join
        return [] if self.edges_over() else j.edges[: EDGE * min(len(j.edges) // EDGE, j.scratch_words // EDGE)]


@words
class words_of_accepted_joins_alone(Reading):
    def put_words(self):
        return [] if self.refusal() else super().put_words()


@words
class words_of_joins_that_are_not_9(Reading):
    def put_words(self):
        return [] if self.counts_out() else super().put_words()


@words
class no_words(Reading):
    def put_words(self):
        return []


@words
class words_without_where_an_edge_leads_to(Reading):
    def put_words(self):
        return [0 if n % EDGE == 0 else word for n, word in enumerate(super().put_words())]


@words
class words_with_source_and_target_swapped(Reading):
    def put_words(self):
        put = super().put_words()
        return [word for n in range(0, len(put), EDGE) for word in (put[n + 1], put[n], *put[n + 2 : n + EDGE])]


BY_NAME = {**LINES, **REFUSALS, **WORDS}
