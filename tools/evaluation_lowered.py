#!/usr/bin/env python3
"""evaluation_lowered.py [--program PROGRAM] [--listing PROGRAM] [--draws N] [--lists N]: what the bench says of lowered and of drawn lines.

Gives instructions of all fifty kinds to the listing (default: crates/listing/out/listing), turns the lines that it prints into records,
hands them with boundary-heavy and drawn registers, memory, counters and flags to the program of crates/evaluation_cases (default:
crates/evaluation_cases/out/evaluation_cases, which `rt run` there makes), asks for rd's flow, a branch's conditions and cells of a store's memory
flow, and compares

- value and visits with evaluator.py;
- the value with riscv_manual.py, but for the entries of docs/DIFFERENCES.md that values.py names; accesses that leave a word of 8 bytes are
  compared with evaluator.py alone.

For some of the values every Bit and Word of the list is asked for, the lines of Mul and Mulw that break the sort rule (17) too. Then lists whose
lines are drawn, among them some of 4,096 lines, lists with words of which bits are turned over, and chains of 4,096 lines in which Words and Bits,
or reads and writes, take turns: value, visits and refusals are compared with evaluator.py. --draws says how many values each listing is tried on,
--lists how many lists are drawn.

Prints counts, then 'no difference' or the first differences. Exit status 0: no difference, 1: differences, 2: it could not be run.
"""
import collections
import pathlib
import random
import subprocess

import command
import values as listing_values
from evaluation_cases import ALL, FIRST, KEEP, LISTING, Cases, Drawn, Given, Lowered, manual_values
from evaluator import BIT, MEMORY, MOST_LINES, WORD
from refusal import KINDS as INSTRUCTIONS
from refusal import LOADS, STORES

PROGRAM = command.program("evaluation_cases")
MOST_BYTES = 262_144  # of the program's input
SHOWN = 10  # differences
AT_ONCE = 10  # values that a listing is tried on in one unit


class Unit(Cases):
    """A list and questions about it, with evaluator.py's answers. Only what is in use is lent: what an earlier unit left doesn't matter."""

    def __init__(self, name, about=""):
        super().__init__(None)
        self.name, self.subject, self.asked = name, about, []
        self.do(KEEP, 0, 0, 0)

    def ask(self, place, about="", **lent):
        answer = super().ask(place, **lent)
        self.asked.append((self.subject + about, *self.made[-1]))
        return answer

    def commands(self):
        return "".join(" ".join(map(str, words)) + "\n" for words, _ in self.made)


class Comparison:
    """Runs the program on units, as many at once as its input takes."""

    def __init__(self, program):
        self.program, self.counts, self.found = program, collections.Counter(), []
        self.commands, self.asked = "", []

    def take(self, unit):
        commands = unit.commands()
        if len(commands) > MOST_BYTES:
            raise command.Failed("a list with its questions is too long for the program's input")
        if len(self.commands) + len(commands) > MOST_BYTES:
            self.run()
        self.commands += commands
        self.asked += unit.asked
        self.counts.update(unit.counts)

    def run(self):
        """Runs the program on the units that there are."""
        done = subprocess.run([self.program], input=self.commands, stdout=subprocess.PIPE, text=True)
        if done.returncode:
            raise command.Failed(f"{self.program} ended with status {done.returncode}")
        got = done.stdout.splitlines()
        if len(got) != len(self.asked):
            raise command.Failed(f"{self.program} doesn't answer each question: it wrote {len(got)} lines for {len(self.asked)}")
        for (about, words, (wanted,)), answer in zip(self.asked, got):
            self.counts["refused" if wanted.startswith("refused") else "value"] += 1
            if answer != wanted:
                self.found.append(f"{about}: {' '.join(map(str, words))} is {answer!r}, not {wanted!r}")
        self.counts["runs of the program"] += 1
        self.commands, self.asked = "", []


#
# Lowered lines
#

EDGES = listing_values.BOUNDARIES


def draw_word(draw):
    return draw.choice(EDGES) if draw.random() < 0.7 else draw.randrange(ALL)


def draw_given(draw, lowered):
    """Registers, and the cells that the list's loads and stores of these registers reach."""
    registers = {r: draw_word(draw) for r in range(1, 32)}
    if draw.random() < 0.5:  # an aligned word, so that accesses stay inside it
        registers[1] -= registers[1] % 8
    at = [registers.get(i.rs1, 0) + i.imm for i in lowered.instructions if i.kind in LOADS | STORES]
    aligned = [(address - address % 8) % ALL for address in at] or [0]
    held = {address: draw_word(draw) for address in draw.sample(aligned, min(len(aligned), 40))}
    counted = {draw.choice([*aligned, *EDGES]): draw_word(draw) for _ in range(4)}
    return Given(registers, held, int(draw.random() < 0.8), draw.choice(aligned), counted, draw_word(draw))


def ask_flows(comparison, lowered, drawn):
    unit = Unit("flows")
    lowered.put_into(unit, mark=1)
    for given in drawn:
        with unit.further():
            given.put_into(unit, lowered)
            for instruction in lowered.instructions:
                ask_instruction(comparison, unit, lowered, instruction, given)
    comparison.take(unit)


def ask_instruction(comparison, unit, lowered, instruction, given):
    a, b = (given.register(r) if r else 0 for r in (instruction.rs1, instruction.rs2))
    about = f"{instruction.line!r}, rs1 {a}, rs2 {b}, flag {given.flag}"
    places, wanted = lowered.places(instruction), manual_values(instruction, given) or [None]
    for place, value in zip(places, wanted):
        answer = unit.ask(place, about)
        comparison.counts[instruction.kind] += 1
        if value is None:
            comparison.counts["outside one word"] += 1
        elif answer[:2] != ("value", value):
            comparison.found.append(f"{about}: evaluator.py gives {answer}, and the manual {value}")


def ask_every_line(comparison, lowered, given):
    unit = Unit("every lowered line")
    lowered.put_into(unit, mark=1)
    given.put_into(unit, lowered)
    for node in lowered.nodes:
        if node.sort in (BIT, WORD):
            unit.ask(node.nid - FIRST, f"{node.nid} {node.operator}, registers {given.registers}, flag {given.flag}")
    comparison.take(unit)


def listed(listing, lines):
    try:
        return Lowered(listing, lines)
    except (SystemExit, AssertionError, subprocess.CalledProcessError) as error:
        raise command.Failed(f"{listing} doesn't list what it is given: {error}") from None


def compare_lowered(comparison, listing, draws):
    for number, lines in enumerate(listing_values.listings(listing_values.instructions())):
        lowered, draw = listed(listing, lines), random.Random(f"lowered {number}")
        for first in range(0, draws, AT_ONCE):
            ask_flows(comparison, lowered, [draw_given(draw, lowered) for _ in range(min(AT_ONCE, draws - first))])
        for _ in range(min(draws, 2)):
            ask_every_line(comparison, lowered, draw_given(draw, lowered))


#
# Drawn lists
#


def ask_drawn(comparison, drawn, about):
    unit = Unit("drawn lists", about)
    drawn.put_into(unit)
    for place in drawn.places:
        unit.ask(place)
    comparison.take(unit)


def turn_over(lines, draw):
    """Lines with a few bits of their words turned over, most of them low ones, or with words of other lines."""
    lines = [list(line) for line in lines]
    for _ in range(draw.choice((1, 1, 1, 2, 3))):
        line, word = draw.choice(lines), draw.randrange(4)
        if draw.random() < 0.2:
            line[word] = draw.choice(lines)[word]
        else:
            line[word] ^= 1 << draw.choice((draw.randrange(6), draw.randrange(32), draw.randrange(64)))
    return lines


def ask_turned_over(comparison, drawn, draw, about):
    """The same with bits turned over, and with a part of the words."""
    unit = Unit("lists with bits turned over", about)
    drawn.lines = turn_over(drawn.lines, draw)
    drawn.put_into(unit)
    for place in drawn.places:
        unit.ask(place)
        words, values, memory = unit.desk.used
        part = {"values": draw.randrange(values + 1), "memory": draw.randrange(memory + 1)}
        unit.ask(place, words=words - draw.randrange(2), **part)
    comparison.take(unit)


def compare_drawn(comparison, lists):
    for n in range(lists):
        ask_drawn(comparison, Drawn(f"drawn {n}", 5 + n % 120, seldom=(0, 0.005, 0.03)[n % 3]), f"drawn {n}")
        ask_turned_over(comparison, Drawn(f"turned over {n}", 5 + n % 40), random.Random(n), f"turned over {n}")
        if n % 100 == 0:
            ask_drawn(comparison, Drawn(f"long {n}", MOST_LINES, seldom=0), f"long {n}")


#
# Chains in which kinds take turns
#


def words_and_bits(unit, draw):
    """A Word needs a Bit, which needs two Words, in all of 4,096 lines."""
    x, five = unit.add("state", WORD), unit.words(5)
    unit.give(x, 5)
    word = x
    while unit.lines < MOST_LINES:
        bit = unit.add(draw.choice(("eq", "ult")), *draw.choice(((word, five), (five, word))))
        word = unit.add("uext", BIT, bit) if draw.random() < 0.6 else unit.add("ite", WORD, bit, five, x)
    for place in (unit.lines - 1, unit.lines - 2, unit.lines // 2):
        unit.ask(place)


def reads_and_writes(unit, draw):
    """A write takes a read of the memory below it as its value, in all of 4,096 lines."""
    memory, zero = unit.add("state", MEMORY), unit.words(0)
    unit.give_cell(memory, 0, 7)
    top = memory
    while unit.lines < MOST_LINES - 1:
        read = unit.add("read", top, zero)
        top = unit.add("write", top if draw.random() < 0.95 else memory, zero, read)
    unit.add("read", top, zero)
    for place in (unit.lines - 1, unit.lines - 3, unit.lines // 2):
        unit.ask(place)


def conditions(unit, draw):
    """The condition of an ite of a Memory is a read of the Memory below it: each takes twice the visits of the one before."""
    memory, zero = unit.add("input", MEMORY), unit.words(0)
    top = memory
    for _ in range(40):
        bit = unit.add("eq", unit.add("read", top, zero), zero)
        top = unit.add("ite", MEMORY, bit, top, memory)
        unit.ask(bit)


def compare_chains(comparison):
    for put in (words_and_bits, reads_and_writes, conditions):
        unit = Unit("chains", put.__name__)
        put(unit, random.Random("chains"))
        comparison.take(unit)


def main():
    parser = command.Parser(description=__doc__.split("\n")[0].split(": ")[1])
    parser.add_argument("--program", type=pathlib.Path, default=PROGRAM)
    parser.add_argument("--listing", type=pathlib.Path, default=LISTING)
    parser.add_argument("--draws", type=command.count, default=60, help="values to begin with for each listing")
    parser.add_argument("--lists", type=command.count, default=400, help="lists that are drawn")
    chosen = parser.parse_args()
    for program in (chosen.program, chosen.listing):
        if not program.is_file():
            raise command.Failed(f"{program} is missing")
    comparison = Comparison(chosen.program.resolve())
    compare_lowered(comparison, chosen.listing.resolve(), chosen.draws)
    compare_drawn(comparison, chosen.lists)
    compare_chains(comparison)
    comparison.run()
    counts, found = comparison.counts, comparison.found
    command.put("compared: " + ", ".join(f"{kind} {counts.pop(kind, 0)}" for kind in INSTRUCTIONS) + "\n")
    command.put("; ".join(f"{name}: {count}" for name, count in sorted(counts.items())) + "\n")
    for difference in found[:SHOWN]:
        command.put(difference + "\n")
    command.put(f"{len(found)} differences\n" if found else "no difference\n")
    return int(bool(found))


if __name__ == "__main__":
    command.run(main)
