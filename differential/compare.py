#!/usr/bin/env python3
"""The lowering against the unchanged Rust.

    compare.py [--listing PROGRAM] [--source FOLDER] [--raw --base ADDRESS] [--all-refused] FIRMWARE...    on given firmware
    compare.py [--listing PROGRAM] [--source FOLDER] [--cases PROGRAM] [--seeds A B] [--lines N]           on generated inputs

Builds the oracle (README.md) from FOLDER (default as build.sh's: ../shared/docs/src beside the repository), gives inputs to PROGRAM
(default: crates/listing/out/listing) and compares all that it writes, byte by byte, with

- what the Rust prints, for the lines that are accepted: node lines, edges, dispatches. Flows show in the node lines that follow: most
  generated inputs end with lines that name every flow;
- `; refused LINE NUMBER` for the others. Which are refused, and with what number, is tools/refusal.py's reading of document 01, with the
  listing's 1,024 lines. Where the Rust panics or has no such record, the oracle must say so too (negative shift amounts apart, which the
  Rust lowers), and its node lines must be as many as document 01's table says.

FIRMWARE is an RV64 ELF file, an image of code that is loaded at ADDRESS (--raw --base ADDRESS), or a file of input lines, of any size; `-`
is standard input. It is cut into runs: a run ends before the instruction that the listing would refuse with 8, because its 1,024 lines are
full, and after 10,000 instructions; each run has a listing and a Rust of its own. For each FIRMWARE it prints the numbers of instructions,
runs and lines, counts by kind, what was refused, by number and words and, for the first 20 (--all-refused: for all), by address and
instruction, and apart from these how many were `Compressed` or `Unknown`, which tools/firmware_lines.py makes of what it can't decode.

The generated inputs: generate.py's sweep (every kind, each field at each boundary, malformed lines of every sort), the list filled so that
each kind has just enough room and one line too few, odd ends and sizes of input, and for each seed from A to B (1 to 40) N (60) mixed lines
and a list that fills up.

The listing has one start, on which x0's node is the zero word and flows are nodes. So the lowering is compared from the oracle's start apart
too, on generated inputs, where no two roles are one line: --cases (default: crates/lowering_cases/out/lowering_cases) is handed that
start and, for each seed, N mixed lines. What it writes, the numbers of records, edges, dispatches, bads, counts and all flows after each
call, must be what tools/lowering_cases.py makes of the Rust's text. On generated inputs it prints counts for each kind and refusal.

The last line is 'no difference', or how many there are, after the first 10 of them; their inputs are kept in target/differences here. Of a
run or input the first line that differs is given. Exit status: 0 no difference (an instruction that both refuse is none), 1 differences, 2 it
could not be run, or its output can't be written.
"""
import collections
import os
import pathlib
import random
import subprocess
import sys
import time

HERE = pathlib.Path(__file__).resolve().parent
sys.path[:0] = [str(HERE), str(HERE.parent / "tools")]

import command
import firmware
import generate
import lowering_cases
import refusal

SHOWN = 10  # differences
KEPT = HERE / "target" / "differences"


#
# What the listing must write
#


class Oracle:
    def __init__(self, program):
        self.program = program

    def run(self, lines):
        text = b"".join(line + b"\n" for line in lines)
        done = subprocess.run([self.program], input=text, stdout=subprocess.PIPE)
        if done.returncode:
            raise command.Failed(f"the oracle, {self.program}, failed: its exit status is {done.returncode}")
        return done.stdout.decode().splitlines()

    def blocks(self, accepted):
        """What the Rust prints for each of these lines. An empty line, answered `; malformed`, parts them."""
        block = []
        for text in self.run([part for line in accepted for part in (line, b"")]):
            if text == "; malformed":
                yield block
                block = []
            else:
                block.append(text)


def lowered_by_the_rust(record):
    """Negative amounts, refused with 3, which the Rust's tests `imm < 64` and `imm < 32` pass."""
    _, kind, rd, _, _, imm = record
    return kind in ("Slli", "Srli", "Slliw", "Srliw") and imm < 0 and rd != 0


def oracle_says(number):
    return "; malformed" if number == 0 else "; unencodable" if number == 2 else "; panic"


def expected(lines, oracle, counts):
    """The listing's output, a list of lines for each input line. Raises Disagree where oracle and document 01 don't fit together."""
    listing = refusal.Listing()
    numbers = [listing.take(line) for line in lines]
    blocks = oracle.blocks([line for line, number in zip(lines, numbers) if number is None])
    refused = []
    for n, (line, number) in enumerate(zip(lines, numbers), 1):
        record = refusal.fields(line)
        if number is not None:
            counts["refused", number] += 1
            if number != 8 and not (number == 3 and lowered_by_the_rust(record)):
                refused.append((line, oracle_says(number)))
            yield [f"; refused {n} {number}"]
            continue
        block = next(blocks, None)
        if block is None:
            raise Disagree(f"the oracle's answers end before that of {line.decode()!r}")
        _, kind, rd, rs1, _, imm = record
        nodes = sum(not text.startswith(";") for text in block)
        if nodes != refusal.appended(kind, rd, rs1, imm) or set(block) & {"; panic", "; unencodable"}:
            raise Disagree(f"the Rust lowers {line.decode()!r} to {nodes} lines: {block}")
        counts["accepted", kind] += 1
        counts["node lines"] += nodes
        counts["edges"] += sum(text.startswith("; in ") for text in block)
        counts["dispatches"] += sum(text.startswith("; dyn ") for text in block)
        yield block
    answers = oracle.run([line for line, _ in refused]) if refused else []
    for (line, wanted), answer in zip(refused, answers):
        if answer != wanted:
            raise Disagree(f"the oracle answers {line!r} with {answer!r} where document 01 gives {wanted!r}")
    if len(answers) != len(refused):
        raise Disagree("the oracle answers a refused line with more than a line")


class Disagree(Exception):
    pass


#
# The inputs: a name, lines, and whether the last one has its newline
#

# Every flow is named by one of their node lines: registers, memory, counter, access, counter-max, division, remainder, overflows, ecall.
PROBES = [f"0 Lui {r} 0 0 1".encode() for r in range(1, 32)] + [
    b"0 Sd 0 1 2 0", b"0 Ld 1 2 0 0", b"0 Divu 1 2 3 0", b"0 Remu 1 2 3 0", b"0 Add 1 2 3 0", b"0 Mul 1 2 3 0", b"0 Ecall 0 0 0 0"
]  # fmt: skip
PROBE_LINES = refusal.HOLDS - refusal.START - refusal.left_after(PROBES)


def in_parts(lines):
    """The lines in as many inputs as it takes that no list fills up, each with the probes after them."""
    part, listing = [], refusal.Listing()
    for line in lines:
        listing.take(line)
        part.append(line)
        if listing.left < PROBE_LINES + 35:
            yield part + PROBES
            part, listing = [], refusal.Listing()
    yield part + PROBES


def filled_to(left):
    """Lines that leave this much room."""
    room = refusal.HOLDS - refusal.START - left
    for count, line in ((35, b"0 Mulw 1 2 3 0"), (2, b"0 Lui 4 0 0 1"), (1, b"0 Ecall 0 0 0 0")):
        yield from [line] * (room // count)
        room %= count


ON_A_FULL_LIST = [b"0 Addi 0 1 0 5", b"0 Jal 0 0 0 8", b"0 Jalr 0 1 0 0"]  # they append nothing


def brims():
    """For each kind the list with one line too few, and with just enough; then what a full list still takes."""
    for kind in refusal.KINDS:
        for rd, rs1, imm in (5, 6, 0 if kind == "Jalr" else 4), (5, 0, 0), (0, 6, 0):
            record = kind, rd, rs1, 7, imm
            if refusal.refusal(*record):
                continue
            line = f"65536 {kind} {rd} {rs1} 7 {imm}".encode()
            needs = refusal.appended(kind, rd, rs1, imm)
            after = ON_A_FULL_LIST + [line, b"0 Lui 0 0 0 1", b"0 Xor 1 2 3 0", b"", b"0 Ecall 0 0 0 0"]
            if needs:
                yield f"brim {kind} {rd} {rs1} {imm} short", list(filled_to(needs - 1)) + [line] + after
            yield f"brim {kind} {rd} {rs1} {imm} enough", list(filled_to(needs)) + [line] + after


def filling(rng, lines):
    """Mixed lines until the list is full, and as many more."""
    listing, out = refusal.Listing(), []
    while listing.left and len(out) < 1000:
        out.append(generate.any_line(rng))
        listing.take(out[-1])
    return out + [generate.any_line(rng) for _ in range(lines)] + ON_A_FULL_LIST


def odd_inputs():
    good = b"65536 Lui 5 0 0 1"
    yield "empty", [], True
    yield "an empty line", [b""], True
    yield "three empty lines", [b"", b"", b""], True
    for name, line in ("one line", good), ("a long line", b"7" * 100_000), ("only spaces", b"     "):
        yield name, [line], True
        yield name + " without its newline", [line], False
    for length in (255, 256, 257, 258, 511, 512, 513, 1023, 1024, 4096, 65535, 65536, 65537):
        yield f"a line of {length} bytes", [good, b"A" * length, good, b" " * length, good], False
    yield "document 01's example", [good, b"65540 Bltu 0 5 6 -4", b"65544 Srliw 5 5 0 0"], True
    rng = random.Random("long")
    yield "a long input", [generate.any_line(rng) for _ in range(20_000)] + PROBES, True
    yield "a long input of nothing accepted", [b"65536 Fence 0 0 0 0"] * 20_000 + PROBES, True


def inputs(first, last, count):
    for n, part in enumerate(in_parts(generate.sweep()), 1):
        yield f"sweep {n}", part, n % 2 == 0
    for name, part in brims():
        yield name, part, True
    yield from odd_inputs()
    for seed in range(first, last + 1):
        rng = random.Random(seed)
        yield f"seed {seed}, mixed", [generate.any_line(rng) for _ in range(count)] + PROBES, True
        yield f"seed {seed}, filling", filling(rng, count), False


def apart_inputs(first, last, count):
    """What the start apart is tried on: every kind and each field at each boundary, then mixed lines for each seed."""
    swept = [line for line in map(as_fields, generate.sweep()) if line]
    for n in range(0, len(swept), IN_AN_INPUT):
        yield f"apart, sweep {n // IN_AN_INPUT + 1}", swept[n : n + IN_AN_INPUT]
    for seed in range(first, last + 1):
        rng = random.Random(seed)
        yield f"apart, seed {seed}", [lowering_cases.fields(generate.line(rng, False)) for _ in range(count)]


IN_AN_INPUT = 400  # lines: the program of cases takes 65,536 bytes


def as_fields(line):
    """A line of the listing's grammar as fields, None for others and for negative amounts, which the Rust lowers."""
    record = refusal.fields(line)
    return record if record and not (refusal.refusal(*record[1:]) == 3 and lowered_by_the_rust(record)) else None


#
# The comparison
#


def joined(lines, newline):
    """The input's bytes. An empty last line is none without its newline."""
    return b"\n".join(lines) + (b"\n" if lines and (newline or not lines[-1]) else b"")


def whole(program, text):
    return subprocess.run([program], input=text, stdout=subprocess.PIPE, timeout=120)


def in_pieces(program, text):
    """As above, but the input comes a few bytes at a time."""
    process = subprocess.Popen([program], stdin=subprocess.PIPE, stdout=subprocess.PIPE)
    for n in range(0, len(text), 7):
        process.stdin.write(text[n : n + 7])
        process.stdin.flush()
        time.sleep(0.0002)
    out, _ = process.communicate(timeout=120)
    return subprocess.CompletedProcess(program, process.returncode, out)


def input_line(n, line):
    return f"input line {n}, {line[:100]!r}"


def at_address(_, line):
    return firmware.instruction(line)


def difference(lines, blocks, done, where=input_line):
    """The first place where the output isn't the blocks, or None."""
    got = done.stdout.split(b"\n")
    wanted = [(n, text) for n, block in enumerate(blocks, 1) for text in block]
    for place, (n, text) in enumerate(wanted):
        if place + 1 >= len(got) or got[place] != text.encode():
            found = repr(got[place]) + ("" if place + 1 < len(got) else ", without a newline") if place < len(got) else "nothing"
            return f"{where(n, lines[n - 1])}: expected {text!r}, got {found}"
    if got[len(wanted) :] != [b""]:
        return f"after the last expected line: {got[len(wanted):][:3]}"
    return f"exit status {done.returncode}" if done.returncode else None


def compare(program, oracle, name, lines, newline, counts, run, kept=KEPT, where=input_line):
    """What differs for this input, which then is kept, or None."""
    text = joined(lines, newline)
    return kept_where_found(name, text, kept, lambda: difference(lines, list(expected(lines, oracle, counts)), run(program, text), where))


def compare_apart(program, name, instructions, counts, kept=KEPT):
    """The same from the start apart, by the program of cases."""
    made = list(lowering_cases.from_apart(instructions))
    commands, blocks = [" ".join(map(str, command)).encode() for command, _ in made], [answer for _, answer in made]
    text = joined(commands, True)
    for line, answer in zip(instructions, [answer for command, answer in made if command[0] == lowering_cases.LOWER]):
        refused = answer[0].startswith("refused ")
        counts["apart", "refused" if refused else line[1]] += 1
        counts["apart lines"] += sum(word[0].isdigit() for word in answer)
    return kept_where_found(name, text, kept, lambda: difference(commands, blocks, whole(program, text)))


def kept_where_found(name, text, kept, find):
    try:
        found = find()
    except Disagree as reason:
        found = str(reason)
    except subprocess.TimeoutExpired:
        found = "no end after 120 seconds"
    except BrokenPipeError:
        found = "it ended before its input did"
    return f"{name}: {found}\n    input: {keep(name, text, kept)}" if found else None


def keep(name, text, kept):
    """Where the input is kept, or why it is not: a difference is told in any case."""
    path = kept / (name.replace(" ", "-").replace(",", "") + ".txt")
    try:
        kept.mkdir(parents=True, exist_ok=True)
        path.write_bytes(text)
    except OSError as error:
        return f"not kept, {path}: {error.strerror}"
    return path


def summary(counts, inputs_run):
    say(f"{inputs_run} inputs: {counts['node lines']} node lines, {counts['edges']} edges, {counts['dispatches']} dispatches")
    say("accepted: " + ", ".join(f"{kind} {counts['accepted', kind]}" for kind in refusal.KINDS))
    say("refused: " + ", ".join(f"with {number} {counts['refused', number]}" for number in refusal.WORDS))
    kinds = sorted(counts["apart", kind] for kind in refusal.KINDS)
    say(f"from the start apart: {sum(kinds)} lowered, each kind {kinds[0]} to {kinds[-1]} times, {counts['apart', 'refused']} refused, "
        f"{counts['apart lines']} node lines")  # fmt: skip
    missing = [kind for kind in refusal.KINDS if not counts["accepted", kind]]
    missing += [f"{kind} from the start apart" for kind in refusal.KINDS if not counts["apart", kind]]
    missing += [number for number in refusal.WORDS if not counts["refused", number]]
    return [f"not reached by any input: {missing}"] if missing else []


def say(line):
    command.put(line + "\n")


def verdict(differences, counted):
    """The last lines and the exit status."""
    if not differences:
        say("no difference")
        return 0
    for found in differences[:SHOWN]:
        say(found)
    say(counted)
    return 1


def on_generated(listing, cases, oracle, seeds, lines_each):
    counts, differences, run = collections.Counter(), [], 0
    for name, lines, newline in inputs(*seeds, lines_each):
        differences.append(compare(listing, oracle, name, lines, newline, counts, whole))
        run += 1
    rng = random.Random("pieces")
    pieces = [generate.any_line(rng) for _ in range(100)]
    differences.append(compare(listing, oracle, "in small pieces", pieces, False, counts, in_pieces))
    for name, instructions in apart_inputs(*seeds, lines_each):
        differences.append(compare_apart(cases, name, instructions, counts))
    differences = [found for found in differences if found] + summary(counts, run + 1)
    return verdict(differences, f"{len(differences)} differences")


def on_firmware(listing, oracle, given, show_all, kept=KEPT):
    differences, runs = [], 0
    for number, one in enumerate(given, 1):
        account = firmware.Account(one.name, show_all)
        for run, numbers in firmware.runs(one.lines()):
            account.take(run, numbers)
            name = firmware.file_name(number, one.name, account.runs)
            differences.append(compare(listing, oracle, name, run, True, account.counts, whole, kept, at_address))
        runs += account.runs
        for line in account.text():
            say(line)
        if one.hint():
            command.complain(f"{one.name}: {one.hint()}")
    differences = [found for found in differences if found]
    number, all_runs = firmware.several(len(differences), "difference"), firmware.several(runs, "run")
    return verdict(differences, f"{number}, one for each run that differs, of {all_runs}")


#
# The command
#

FOR_FIRMWARE = ("raw", "base", "all_refused")
FOR_GENERATED = ("cases", "seeds", "lines")


def arguments():
    parser = command.Parser(description="The listing program against the unchanged Rust, on given firmware or on generated inputs.")
    parser.add_argument("firmware", nargs="*", metavar="FIRMWARE", help="an RV64 ELF file, an image or a file of input lines; - is standard input")
    parser.add_argument("--listing", default=command.program("listing"), type=pathlib.Path, metavar="PROGRAM")
    parser.add_argument("--source", type=pathlib.Path, metavar="FOLDER", help="where the Rust is (default: ../shared/docs/src beside the repository)")
    parser.add_argument("--raw", action="store_true", default=None, help="FIRMWARE is an image of code")
    parser.add_argument("--base", type=command.address, metavar="ADDRESS", help="where an image is loaded")
    parser.add_argument("--all-refused", action="store_true", default=None, help="show every instruction that is refused")
    parser.add_argument("--cases", type=pathlib.Path, metavar="PROGRAM", help="default: crates/lowering_cases/out/lowering_cases")
    parser.add_argument("--seeds", nargs=2, type=int, metavar=("A", "B"), help="default: 1 40")
    parser.add_argument("--lines", type=command.count, metavar="N", help="default: 60")
    chosen = parser.parse_args()
    others, mode = (FOR_GENERATED, "on given firmware") if chosen.firmware else (FOR_FIRMWARE, "without FIRMWARE")
    wrong = ["--" + name.replace("_", "-") for name in others if getattr(chosen, name) is not None]
    if wrong:
        parser.error(f"{', '.join(wrong)} can't be used {mode}")
    if bool(chosen.raw) != (chosen.base is not None):
        parser.error("--raw and --base ADDRESS go together")
    return chosen


def found_program(path, made_by):
    if not path.is_file():
        raise command.Failed(f"{path} is missing: {made_by} makes it")
    if not os.access(path, os.X_OK):
        raise command.Failed(f"{path} can't be run: it is not executable")
    return path.resolve()


def main():
    chosen = arguments()
    given = [firmware.Firmware(path, chosen.base) for path in chosen.firmware]
    listing = found_program(chosen.listing, "tools/listing.sh")
    cases = None if given else found_program(chosen.cases or command.program("lowering_cases"), "rt run in crates/lowering_cases")
    if subprocess.run([HERE / "build.sh"] + ([chosen.source] if chosen.source else [])).returncode:
        raise command.Failed("the oracle was not built")
    oracle = Oracle(HERE / "target" / "oracle")
    try:
        if given:
            return on_firmware(listing, oracle, given, bool(chosen.all_refused))
        return on_generated(listing, cases, oracle, chosen.seeds or (1, 40), 60 if chosen.lines is None else chosen.lines)
    except subprocess.CalledProcessError as error:
        raise command.Failed(f"the oracle failed: {error}") from None


if __name__ == "__main__":
    command.run(main)
