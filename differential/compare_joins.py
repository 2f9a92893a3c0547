#!/usr/bin/env python3
"""The join against the unchanged Rust.

    compare_joins.py [--cases PROGRAM] [--source FOLDER] [--seeds A B] [--joins N]

Builds the oracle (README.md) from FOLDER (default as build.sh's: ../shared/docs/src beside the repository) and, for each seed from A to B (1 to
60), draws N (700) joins (generate_joins.py), which it gives to PROGRAM (default: crates/join_cases/out/join_cases, which
`rt run` in that crate makes) as commands. All that PROGRAM writes must be

- for an accepted join what the Rust's five control_flow_from_* functions append, turned into records: lines, names, sequentials, flow and
  next identifier. tools/join_reading.py, a reading of R-1 of its own, must give the same, and on random values the flow must be 1 exactly where
  R-1 says (tools/join_values.py);
- for the others the number of that reading; the Rust must panic where a source has no flag, a branch no condition or a dispatch is of x0;
- the counts, and numbers for the whole of the storage: a call writes after what is in use, and a refused one nowhere, but for the words of its
  edges, which any call leaves in front of the words that it may use. Here all of these are lent.

tools/join_reading.py can take PROGRAM's place. Prints counts by origin and by refusal. The last line is 'no difference', or how many there are,
one for each seed that differs, after the first 10 of them; their commands are kept in target/differences here. Exit status: 0 no difference,
1 differences, 2 it could not be run.
"""
import collections
import pathlib
import subprocess
import sys

HERE = pathlib.Path(__file__).resolve().parent
sys.path[:0] = [str(HERE), str(HERE.parent / "tools")]

import command
import compare
import generate_joins
import join_rust
from lowering_cases import ORIGINS

TAKES = 262_144  # bytes of the program's input
REFUSALS = (9, 13, 15, 16, 8)


def answered(seed, count, counts, tried=lambda join, answer: None):
    """The commands of a seed's joins, and the lines of text that each must be answered with."""
    lines = generate_joins.list_of(seed)
    rust = join_rust.Rust(lines.start)
    joins = generate_joins.Joins(seed, lines, join_rust.Judge(rust, counts, tried))
    joins.run(count)
    rust.close()
    return [" ".join(map(str, words)).encode() for words, _ in joins.made], [answer for _, answer in joins.made]


def compare_seed(program, seed, count, counts, kept=compare.KEPT, tried=lambda join, answer: None):
    """What differs for a seed, or None."""
    name = f"joins, seed {seed}"
    try:
        commands, blocks = answered(seed, count, counts, tried)
    except join_rust.Disagree as reason:
        return f"{name}: {reason}"
    text = compare.joined(commands, True)
    if len(text) > TAKES:
        raise command.Failed(f"the commands of seed {seed} are {len(text)} bytes, and the program takes {TAKES}: give fewer joins")
    counts["command bytes"] += len(text)
    return compare.kept_where_found(name, text, kept, lambda: compare.difference(commands, blocks, compare.whole(program, text)))


def summary(counts, seeds):
    """Prints what was compared; returns what no join reached."""
    say = compare.say
    appended = f"{counts['node lines']} node lines, {counts['sequentials']} sequentials"
    say(f"{counts['joins']} joins in {seeds} runs: {counts['accepted', 0]} accepted, {appended}")
    say("edges of accepted joins: " + ", ".join(f"{origin} {counts['edges', origin]}" for origin in ORIGINS) + f"; dispatches {counts['dispatches']}")
    say(f"of them empty {counts['empty']}, from the zero bit {counts['from the zero bit']}")
    say("refused: " + ", ".join(f"with {number} {counts['refused', number]}" for number in REFUSALS))
    asked = [f"with {n} it panics at {counts['the Rust panics', n]} and goes on at {counts['the Rust goes on', n]}" for n in (15, 16)]
    say(f"of those asked of the Rust: {'; '.join(asked)}")
    by = [(origin, counts["values", "by", n]) for n, origin in enumerate(ORIGINS)] + [("dispatch", counts["values", "by", "dispatch"])]
    alone = ", ".join(f"{kind} {n}" for kind, n in by)
    say(f"values: the flow is 0 in {counts['values', 0]} draws and 1 in {counts['values', 1]}; by one kind alone: {alone}")
    missing = [f"refusal {number}" for number in REFUSALS if not counts["refused", number]]
    missing += [f"{origin} edges" for origin in ORIGINS if not counts["edges", origin]] + [kind for kind, n in by if not n]
    return [f"not reached by any join: {', '.join(missing)}"] if missing else []


def on_seeds(program, first, last, count):
    counts, differences = collections.Counter(), []
    for seed in range(first, last + 1):
        differences.append(compare_seed(program, seed, count, counts))
    differences = [found for found in differences if found] + summary(counts, last + 1 - first)
    return compare.verdict(differences, f"{len(differences)} differences")


def arguments():
    parser = command.Parser(description="The join against the unchanged Rust, on generated joins.")
    parser.add_argument("--cases", default=command.program("join_cases"), type=pathlib.Path, metavar="PROGRAM")
    parser.add_argument("--source", type=pathlib.Path, metavar="FOLDER", help="where the Rust is (default: ../shared/docs/src beside the repository)")
    parser.add_argument("--seeds", nargs=2, type=command.count, default=(1, 60), metavar=("A", "B"), help="default: 1 60")
    parser.add_argument("--joins", type=command.count, default=700, metavar="N", help="default: 700")
    return parser.parse_args()


def main():
    chosen = arguments()
    program = compare.found_program(chosen.cases, "rt run in crates/join_cases")
    if subprocess.run([HERE / "build.sh"] + ([chosen.source] if chosen.source else [])).returncode:
        raise command.Failed("the oracle was not built")
    return on_seeds(program, *chosen.seeds, chosen.joins)


if __name__ == "__main__":
    command.run(main)
