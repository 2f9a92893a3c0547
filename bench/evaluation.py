#!/usr/bin/env python3
"""evaluation.py QUESTIONS [REPETITIONS]: tools/evaluator.py on the questions that bench/target/evaluation wrote, visits a second.

Its answers must be the stored ones, or it stops with status 1. The best of the repetitions (default 9) is printed.
"""
import pathlib
import sys
import time

ROOT = pathlib.Path(__file__).resolve().parent.parent
sys.path.append(str(ROOT / "tools"))

import evaluator


def numbers(row):
    """Those after the row's word."""
    return [int(number) for number in row.split()[1:]]


def questions(text):
    """Name, list, values, memory, and place, value and visits of each question."""
    for block in text.split("\n\n")[:-1]:
        name, words, values, memory, *asked = block.split("\n")
        yield name, numbers(words), numbers(values), numbers(memory), [numbers(row) for row in asked]


def answers(words, values, memory, asked):
    return [evaluator.evaluate(words, len(words) // evaluator.RECORD, values, memory, place) for place, _, _ in asked]


def best(repetitions, work):
    times = []
    for _ in range(repetitions):
        clock = time.perf_counter()
        work()
        times.append(time.perf_counter() - clock)
    return min(times)


def measure(name, words, values, memory, asked, repetitions):
    for (place, value, visits), answer in zip(asked, answers(words, values, memory, asked)):
        if answer != ("value", value, visits):
            sys.exit(f"evaluation.py: {name}, line {place}: {value} after {visits} visits, and here {answer}")
    seconds, visits = best(repetitions, lambda: answers(words, values, memory, asked)), sum(visits for _, _, visits in asked)
    print(f"{name}: {visits} visits, {visits / seconds:.0f} visits/s, {seconds * 1e6 / len(asked):.0f} us a call", flush=True)


if __name__ == "__main__":
    if len(sys.argv) not in (2, 3):
        sys.exit("usage: evaluation.py QUESTIONS [REPETITIONS]")
    for question in questions(pathlib.Path(sys.argv[1]).read_text()):
        measure(*question, int(sys.argv[2]) if sys.argv[2:] else 9)
