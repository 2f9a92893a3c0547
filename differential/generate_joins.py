"""Random joins for compare_joins.py: most are accepted, and each refusal has its share, at its boundary.

A run of joins goes on one list, from either start of the oracle (tools/join_lists.py): the lines of earlier joins are flags, conditions, nodes
and flows of later ones. The same seed gives the same joins.
"""
import random

import join_lists
from join_desk import DISPATCHES, EDGES, FLAGS
from join_reading import BRANCH, MOST_NID, RECORD, REGULAR, SYSCALL
from lowering_cases import TOP
from start_cases import BIT, ROLE_SORTS, WORD

ADDRESSES = [0, 4, 9, 10, 65536, 65540, 2**32, 2**63, 10**19, TOP]  # few, so that sources and entries are often equal

# No join that is drawn appends more than eleven syscalls and eleven dispatches would.
MOST_LINES = join_lists.LIST_WORDS // RECORD - 11 * (5 + 3)
MOST_NAMES = join_lists.NAME_BYTES - 11 * 40
MOST_NEXTS = join_lists.SEQUENTIALS - 11


def list_of(seed):
    """The list that a seed's joins go on: every other one begins with the start apart."""
    return join_lists.apart() if seed % 2 else join_lists.listing()


class Joins(join_lists.Calls):
    def __init__(self, seed, lines, judge):
        super().__init__(lines, judge)
        self.rng = random.Random(seed)
        self.dynamics = self.lines.dynamics

    def run(self, count):
        for _ in range(count):
            self.one()

    def one(self):
        rng = self.rng
        if self.nearly_full() or rng.random() < 0.01:
            self.reset()
        given, lent, role = self.drawn(), {}, None
        before = list(self.desk.counts)
        for _ in range(rng.choice((0, 0, 0, 0, 0, 0, 0, 1, 1, 1, 2))):
            which = rng.randrange(8)
            if which:
                (self.count_over, self.flag_wrong, self.record_wrong, self.little_room)[which // 2](given, lent)
            elif role is None:
                role = self.role_wrong()
        self.lend(**lent)
        accepted = self.join(**given)[0] == "refusal 0"
        # what a fault changed is put back; what an accepted call changed stays
        if role is not None:
            self.role(role, self.lines.roles[role])
        if not accepted:
            self.tally(*before[:3], others=before[3:])
        self.lend()

    def nearly_full(self):
        """Whether a list has no room for the largest join, or a fault left the identifiers at their end."""
        lines, nid, names, *_ = self.desk.counts
        return lines > MOST_LINES or names > MOST_NAMES or self.desk.listed > MOST_NEXTS or nid > MOST_NID // 2

    #
    # A good call
    #

    def place_of(self, sort):
        """Any value line of a sort, one of the last more often."""
        desk, rng = self.desk, self.rng
        while True:
            lines = desk.counts[0]
            place = rng.randrange(lines) if rng.random() < 0.5 else lines - 1 - min(int(rng.expovariate(0.1)), lines - 1)
            if self.sort_at(place) == sort:
                return place

    def sort_at(self, place):
        return self.desk.call(0).sort_at(place)

    def bit(self):
        rng = self.rng
        return rng.choice(self.lines.bits) if rng.random() < 0.4 else self.place_of(BIT)

    def flag(self):
        """A Bit, now and then the zero bit, which a regular edge then leaves."""
        return self.lines.zero if self.rng.random() < 0.15 else self.bit()

    def drawn(self):
        """What an accepted join may be given."""
        rng = self.rng
        flags = [(rng.choice(ADDRESSES), self.flag()) for _ in range(rng.choice((0, 1, 2, 3, 4, 8)))]
        edges = [self.edge(rng.choice(flags)[0]) for _ in range(rng.choice((0, 1, 1, 2, 2, 3, 5, 7)))] if flags else []
        dispatches = [(rng.choice((1, 31, rng.randrange(1, 32))), self.place_of(WORD)) for _ in range(rng.choice((0, 0, 0, 1, 1, 2, 3)))]
        if rng.random() < 0.1:
            self.dynamics = rng.choice((self.lines.dynamics, [self.bit() for _ in range(31)]))
        given = dict(edges=edges, dispatches=dispatches, flags=flags, dynamics=self.dynamics)
        if rng.random() < 0.1:
            given |= dict(mode=self.bit(), none=self.bit())
        return given | dict(flow=self.lines.zero if rng.random() < 0.4 else self.bit())

    def edge(self, source):
        rng = self.rng
        origin = rng.choice((REGULAR, BRANCH, SYSCALL))
        condition = self.bit() if origin == BRANCH else rng.choice((TOP, TOP, 0, rng.randrange(2**64)))
        return rng.choice((0, rng.choice(ADDRESSES), rng.randrange(2**64))), source, origin, condition

    #
    # Faults
    #

    def no_value_of(self, sort):
        """A place that is no value line of a sort."""
        rng, lines, at = self.rng, self.desk.counts[0], self.lines.at
        while True:
            others = rng.choice(self.lines.others), rng.choice(self.lines.bits), rng.choice(self.lines.words), at["next"], at["bad"]
            place = rng.choice((*others, rng.randrange(lines), lines, lines + 1, TOP))
            if place >= lines or self.sort_at(place) != sort:
                return place

    def count_over(self, given, lent):
        """9, at and around each limit: what is in use, or one less, is lent."""
        rng, (lines, nid, names, *_) = self.rng, self.desk.counts
        which = rng.randrange(5)
        if which == 0:
            lent["list_words"] = RECORD * lines - rng.choice((0, 1, RECORD))
        elif which == 1:
            self.tally(nid=MOST_NID + rng.choice((-1, 0, 0, 1, 1)) if nid <= MOST_NID - 1 else nid, names=names)
        elif which == 2:
            lent["name_bytes"] = max(names - rng.choice((0, 1)), 0)
        elif which == 3:
            lent["sequential_words"] = max(self.desk.listed - rng.choice((0, 1)), 0)
        else:
            area, records = rng.choice(((EDGES, given["edges"]), (DISPATCHES, given["dispatches"]), (FLAGS, given["flags"])))
            words = join_lists.RECORD_WORDS[area] * len(records)
            given.setdefault("counts", {})[area] = len(records) + rng.choice((0, 1, 1, TOP - len(records)))
            given.setdefault("words", {})[area] = max(words - rng.choice((0, 0, 1)), 0)

    def role_wrong(self):
        """13: which role."""
        role = self.rng.randrange(len(ROLE_SORTS))
        self.role(role, self.no_value_of(ROLE_SORTS[role]))
        return role

    def flag_wrong(self, given, lent):
        """15, by each of its sources."""
        rng, bad = self.rng, self.no_value_of(BIT)
        which = rng.choice(("flow", "mode", "none", "dynamics", "few", "table", "more", "source", "source"))
        if which in ("flow", "mode", "none"):
            given[which] = bad
        elif which == "dynamics":
            given[which] = [*given[which], bad]  # after the 31 it isn't looked at
            last = len(given[which]) - 1
            given[which][rng.choice((0, min(30, last), rng.randrange(last + 1)))] = bad
        elif which == "few":
            given["dynamics"] = given["dynamics"][: rng.choice((0, 30, rng.randrange(31)))]
        elif which == "more":
            given["flags"] = given["flags"] + [(rng.choice(ADDRESSES), bad)]
        elif which == "table" and given["flags"]:
            given["flags"] = list(given["flags"])
            n = rng.randrange(len(given["flags"]))
            given["flags"][n] = (given["flags"][n][0], bad)
        else:
            self.insert(given, "edges", self.edge(rng.choice((*ADDRESSES, 8))))

    def insert(self, given, which, record):
        given[which] = list(given[which])
        given[which].insert(self.rng.randrange(len(given[which]) + 1), record)

    def record_wrong(self, given, lent):
        """16, by each of its sources."""
        rng = self.rng
        source = rng.choice(given["flags"])[0] if given["flags"] else 4
        which = rng.randrange(4)
        if which == 0:
            self.insert(given, "edges", (0, source, rng.choice((3, 3, 4, 255, 256, 257, 258, TOP)), self.bit()))
        elif which == 1:
            self.insert(given, "edges", (0, source, BRANCH, rng.choice((TOP, self.no_value_of(BIT)))))
        elif which == 2:
            self.insert(given, "dispatches", (rng.choice((0, 0, 32, 32, 33, 256, 257, 2**32 + 1, TOP)), self.place_of(WORD)))
        else:
            self.insert(given, "dispatches", (rng.randrange(1, 32), self.no_value_of(WORD)))

    def little_room(self, given, lent):
        """8: just as much as the whole join needs, or less."""
        rng, (lines, _, names, *_) = self.rng, self.desk.counts
        needs = self.needs(**given)
        if needs is None:
            return
        which, less = rng.randrange(3), rng.choice((0, 0, 1, 1, 2))
        if which == 0:
            lent["list_words"] = max(RECORD * (lines + needs[0]) - less, RECORD * lines) + rng.choice((0, 0, RECORD - 1)) * (less == 0)
        elif which == 1:
            lent["name_bytes"] = max(names + needs[1] - less, names)
        else:
            lent["sequential_words"] = max(self.desk.listed + needs[2] - less, self.desk.listed)
