"""The unchanged Rust's answer to a join: `differential/target/oracle --join` (differential/README.md), which differential/build.sh makes.

`Rust` keeps one oracle at work. It hands it the lines of a call's list that it hasn't got, with the roles, the table of flags and the nodes,
asks for the join and turns the text that the Rust prints back into records, names, sequentials and places. `Judge` decides calls: the number
is join_reading.py's, since the Rust has none, as are the words that it puts of its edges; what an accepted call leaves is the Rust's, with
which the reading must agree.
"""
import subprocess

import join_reading
import join_values
from join_desk import NAMED, record_of, words_of
from join_reading import BRANCH, DYNAMIC_FLAGS, REGISTER_NODES, SYSCALL, Joined
from lowering_cases import DIFFERENTIAL, NO_CONDITION, ORIGINS, OURS, record_numbers

ROLES = [0, 1, *range(REGISTER_NODES, REGISTER_NODES + 32)]  # those that a join looks at: the zero and the one bit, and register nodes


class Disagree(Exception):
    """The Rust and the reading don't fit together, or the oracle's answer is none."""


def known(record):
    """What the oracle knows of a record: its nodes have no address."""
    return tuple(record[:10])


class Rust:
    """An oracle at work from one of its starts, a `lowering_cases.Start`."""

    def __init__(self, start):
        command = [DIFFERENTIAL / "target" / "oracle", *start.chosen, "--join"]
        self.process = subprocess.Popen(command, stdin=subprocess.PIPE, stdout=subprocess.PIPE, text=True)
        self.lines = [known(record_of(words_of(record))) for record in start.records]  # those that the oracle has

    def close(self):
        self.process.stdin.close()
        if self.process.wait():
            raise Disagree(f"the oracle failed: its exit status is {self.process.returncode}")

    def say(self, *words):
        self.process.stdin.write(" ".join(map(str, words)) + "\n")

    def join(self, join):
        """What the Rust leaves for a call, or None where it panics."""
        self.follow(join)
        edges = [("edge", source, ORIGINS[origin], "-" if condition == NO_CONDITION else condition) for source, origin, condition in self.edges(join)]
        dispatches = [("dispatch", *dispatch) for dispatch in join.given_dispatches()]
        self.say("join", join.flow, *[word for words in edges + dispatches for word in words])
        self.process.stdin.flush()
        printed = self.printed()
        return None if printed is None else self.read(join, printed)

    def edges(self, join):
        """The edges with the conditions that the Rust has: only a branch has one."""
        return [(source, origin, condition if origin == BRANCH else NO_CONDITION) for source, origin, condition in join.given_edges()]

    def follow(self, join):
        """Hands over the list and all that the call is given beside its edges and dispatches."""
        lines = [known(record) for record in join.records[: join.lines]]
        same = next((n for n, (has, given) in enumerate(zip(self.lines, lines)) if has != given), min(len(self.lines), len(lines)))
        self.say("cut", same, join.nid)
        for record in lines[same:]:
            self.say("node", *record[:7], "=" if record[1] in NAMED else "-")
        self.lines = lines
        for role in ROLES:
            self.say("role", role, join.roles[role])
        self.say("kernel", join.mode, join.none)
        self.say("dynamics", *join.dynamics[:DYNAMIC_FLAGS])
        self.say("flags", *join.flags[: 2 * join.flag_count])

    def printed(self):
        """The lines of an answer; None for a panic."""
        lines = []
        for line in self.process.stdout:
            lines.append(line.rstrip("\n"))
            if line.startswith("; next "):
                return lines
            if line == "; panic\n":
                return None
        raise Disagree("the oracle ended before it answered")

    def read(self, join, printed):
        places = {record[0]: place for place, record in enumerate(join.records[: join.lines])}
        *texts, sequentials, flow, following = printed
        made = Joined([], b"", [], None, int(following.removeprefix("; next ")))
        for text in texts:
            nid, operator, _, *rest = text.split()
            if operator == "init":  # the second line of the State before it, whose identifier is one less
                assert int(rest[0]) == int(nid) - 1 == made.lines[-1][0]
                made.lines[-1][3], made.lines[-1][6] = places[int(rest[1])], 1
                continue
            name = rest[0].encode() if operator == "state" else b""
            at = (OURS, join.names + len(made.names), len(name)) if name else (0, 0, 0)
            made.names += name
            places[int(nid)] = join.lines + len(made.lines)
            made.lines.append(list(record_numbers(text, lambda o: places[int(o)], at)))
        made.sequentials = [places[int(nid)] for nid in sequentials.removeprefix("; sequentials").split()]
        made.flow = places[int(flow.removeprefix("; flow "))]
        self.lines += [known(record) for record in made.lines]
        return made


class Judge:
    """Decides a call; `tried` sees each call and its answer. Raises `Disagree` where the Rust, the reading and the claim on values don't fit."""

    def __init__(self, rust, counts, tried=lambda join, answer: None):
        self.rust, self.counts, self.tried = rust, counts, tried

    def __call__(self, join):
        number, expected, words = join_reading.answer(join)
        self.counts["joins"] += 1
        self.counts["refused" if number else "accepted", number] += 1
        made = None
        if number:
            self.look_for_a_panic(number, join)
        else:
            made = self.rust.join(join)
            if made != expected:
                raise Disagree(f"the Rust leaves {made}, the reading {expected}")
            self.count(join, made)
            wrong = join_values.difference(join, made, self.counts, seed=self.counts["joins"])
            if wrong:
                raise Disagree(wrong)
        self.tried(join, (number, made, words))
        return number, made, words

    def count(self, join, made):
        for _, origin, _ in join.given_edges():
            self.counts["edges", ORIGINS[origin]] += 1
        self.counts["dispatches"] += join.dispatch_count
        self.counts["from the zero bit"] += join.flow == join.roles[0] and join.edge_count + join.dispatch_count > 0
        self.counts["empty"] += join.edge_count + join.dispatch_count == 0
        self.counts["node lines"] += len(made.lines)
        self.counts["sequentials"] += len(made.sequentials)

    def look_for_a_panic(self, number, join):
        """A source without a flag, a branch without a condition and a dispatch of x0 are panics in the Rust; the other refusals are added."""
        if number not in (15, 16) or not can_be_asked(join):
            return
        without_flag = join_reading.Reading(join).source_without_flag()
        without_condition = any(origin == BRANCH and condition == NO_CONDITION for _, origin, condition in join.given_edges())
        panics = without_flag or without_condition or any(register == 0 for register, _ in join.given_dispatches())
        if (self.rust.join(join) is None) != panics:
            raise Disagree(f"the Rust {'does not panic' if panics else 'panics'} where the reading gives {number}")
        self.counts["the Rust panics" if panics else "the Rust goes on", number] += 1


def can_be_asked(join):
    """Whether the Rust has a record for each edge and dispatch, and a node at each place."""
    places = [join.mode, join.none, join.flow, *join.dynamics[:DYNAMIC_FLAGS], *(place for _, place in join.given_flags() + join.given_dispatches())]
    places += [condition for _, origin, condition in join.given_edges() if origin == BRANCH and condition != NO_CONDITION]
    known = all(origin <= SYSCALL for _, origin, _ in join.given_edges()) and all(register <= 31 for register, _ in join.given_dispatches())
    return known and len(join.dynamics) >= DYNAMIC_FLAGS and all(place < join.lines for place in places)
