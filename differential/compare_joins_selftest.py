#!/usr/bin/env python3
"""compare_joins_selftest.py: compare_joins.py must find wrong programs of joins, and nothing in the right one. Needs target/oracle (build.sh).

First each wrong reading of R-1 (tools/join_variants.py) is held to the Rust on generated joins: it prints how many it answers in another way, and
of how many the values or sorts alone give it away. Each that has wrong lines must be found; wrong refusals are the stored joins' to find
(tools/join_cases.py variants). Then some of them, as tools/join_reading.py runs them, and the right answer with one alteration, take the
program's place. The limit of 1,048,576 lines, which the program can't reach, is tried on the reading. The last line says how many tests passed.
"""
import collections
import dataclasses
import pathlib
import sys
import tempfile

import compare_joins
import join_lists
import join_reading
import join_values
import join_variants

SEEDS, COUNT = (1, 2, 3, 4), 400
READING = compare_joins.HERE.parent / "tools" / "join_reading.py"
PROGRAMS = ["swapped-ite", "dispatches-first", "last-flag-counts", "no-zero-bit-case", "ecall-with-one-identifier", "no-refusal-15",
            "8-with-one-more-of-name_bytes"]  # fmt: skip
BY_VALUES = ["swapped-ite", "last-flag-counts", "kernel-nodes-swapped", "branch-as-regular", "syscall-as-regular", "register-one-below",
             "dynamic-flag-of-the-next-register", "zero-for-the-one-bit"]  # fmt: skip

# A name, and a pattern that is replaced where it first stands.
ALTERED = [
    ("a refusal's number", r"refusal 15\n", r"refusal 16\n"),
    ("a refusal that is none", r"refusal 8\n", r"refusal 0\n"),
    ("an operand", r"( 14 1 \d+) \d+ ", r"\1 7 "),
    ("an identifier", r"\n\d+( 14 1 )", r"\n9\1"),
    ("a State's name", r"kernel-mode-pc-flag-", r"kernel-mode-pc-flag"),
    ("a State's init", r"( 19 1 \d+ \d+ \d+) 1 ", r"\1 0 "),
    ("an address", r"(\n\d+ 14 1 [^\n]*) 0 0\n", r"\1 1 0\n"),
    ("a sequential", r"sequentials (\d)", r"sequentials 1\1"),
    ("a sequential missing", r"sequentials \d+", r"sequentials"),
    ("a flow", r"flow (\d)", r"flow 1\1"),
    ("the next identifier", r"(counts \d+) (\d+)", r"\1 1\2"),
    ("names in use", r"(counts \d+ \d+) (\d+)", r"\1 1\2"),
    ("sequentials in use", r"(counts.*) (\d+)\n", r"\1 1\2\n"),
    ("a word of the list", r"left (\d)", r"left 1\1"),
    ("a byte of our area", r"(left \d+) (\d)", r"\1 1\2"),
    ("a word of the sequentials", r"(left \d+ \d+) (\d)", r"\1 1\2"),
    ("a role", r"(left \d+ \d+ \d+) (\d)", r"\1 1\2"),
    ("a word of the edges' own", r"(left \d+ \d+ \d+ \d+) (\d)", r"\1 1\2"),
    ("a line missing", r"\n\d+ 16 1 [^\n]*", r""),
    ("no last newline", r"\n\Z", r""),
    ("nothing", r"(?s).*", r""),
]


class Found:
    """How many of the joins each wrong reading answers in another way than the Rust, and how many its values or sorts give away."""

    def __init__(self):
        self.joins = 0
        self.differ, self.by_values = collections.Counter(), collections.Counter()

    def __call__(self, join, right):
        self.joins += 1
        for name, reading in join_variants.BY_NAME.items():
            if join_variants.differs(reading, join, right):
                self.differ[name] += 1
                self.by_values[name] += name in join_variants.LINES and not right[0] and self.wrong_in_value(join, reading)

    def wrong_in_value(self, join, reading):
        try:
            return join_values.difference(join, reading(join).joined(), collections.Counter(), self.joins) is not None
        except (IndexError, TypeError, KeyError, StopIteration):  # a line that has no value, or an edge that has no State
            return True


def reading_tests(folder, kept):
    found, counts = Found(), collections.Counter()
    for seed in SEEDS:
        wrong = compare_joins.compare_seed(READING, seed, COUNT, counts, kept, found)
        yield f"the reading, seed {seed}", wrong is None, wrong
    for name in join_variants.BY_NAME:
        lines = name in join_variants.LINES
        print(f"{name}: {found.differ[name]} of {found.joins} joins differ" + f", {found.by_values[name]} of them in values or sorts" * lines)
        if lines:
            yield f"{name} is found", found.differ[name] > 0, None
    for name in BY_VALUES:
        yield f"{name} is found by values", found.by_values[name] > 0, None


def program(folder, text):
    path = folder / "program"
    path.write_text(text)
    path.chmod(0o755)
    return path


def altered(folder, pattern, replacement):
    """The right answer with one alteration."""
    return program(folder, f"""#!{sys.executable}
import re, subprocess, sys
out = subprocess.run([{str(READING)!r}], stdin=sys.stdin, capture_output=True, text=True, check=True).stdout
sys.stdout.write(re.sub({pattern!r}, {replacement!r}, out, count=1))
""")  # fmt: skip


def program_tests(folder, kept):
    """What is found of a wrong program must say where its input is kept."""
    wrong = [(name, lambda name=name: program(folder, f"#!/bin/sh\nexec {sys.executable} {READING} {name}\n")) for name in PROGRAMS]
    wrong += [(name, lambda edit=edit: altered(folder, *edit)) for name, *edit in ALTERED]
    wrong += [("a failure", lambda: program(folder, "#!/bin/sh\ncat >/dev/null\nexit 3\n"))]
    for name, make in wrong:
        found = compare_joins.compare_seed(make(), SEEDS[0], COUNT, collections.Counter(), kept)
        yield f"a program with {name}", found is not None and "input: " in found, found


def limit_tests(folder, kept):
    """9 and 8 at the most lines that a list holds: a regular edge to a flow appends one, to the zero bit none."""
    calls = join_lists.Calls(join_lists.listing(), None)
    edge = [(0, 10, join_reading.REGULAR, 0)]
    for lines, flow, number in (
        (1_048_575, calls.lines.one, 0), (1_048_576, calls.lines.one, 8), (1_048_576, calls.lines.zero, 0), (1_048_577, calls.lines.zero, 9),
    ):  # fmt: skip
        call = calls.desk.call(calls.given(flow, edges=edge))
        long = call.records + call.records[-1:] * (1_048_600 - len(call.records))
        call = dataclasses.replace(call, lines=lines, records=long, list_words=join_reading.RECORD * len(long))
        got, *_ = join_reading.answer(call)
        yield f"{lines} lines from {flow}", got == number, got


def main():
    passed = failed = 0
    with tempfile.TemporaryDirectory() as name:
        folder = pathlib.Path(name)
        for tests in reading_tests, program_tests, limit_tests:
            for what, good, seen in tests(folder, folder / "kept"):
                passed, failed = passed + bool(good), failed + (not good)
                if not good:
                    print(f"FAILED: {what}" + (f": {seen}" if seen else ""))
    print(f"{passed} passed, {failed} failed")
    return failed != 0


if __name__ == "__main__":
    sys.exit(main())
