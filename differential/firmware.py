"""Given firmware for compare.py: its input lines, the runs that they are cut into, and the account of what was accepted and refused."""
import collections
import itertools
import re

import command
import firmware_lines
import refusal

IN_A_RUN = 10_000  # input lines at most: refused ones and those that append nothing take no room, and a run's text is held in memory
SHOWN = 20  # refused instructions
APART = {
    "Compressed": "instructions of 16 bits, refused with 1: compile without the C extension (-march=rv64im), libraries too",
    "Unknown": "words that are no instruction of RV64IM, refused with 1: another extension (compile with -march=rv64im), or data among the code",
}


class Firmware:
    """A file that was read and found to be firmware: an image where it has a base, an ELF file, or input lines."""

    def __init__(self, path, base=None):
        self.name = "standard input" if path == "-" else path
        self.file = command.read(path)
        try:
            self.parts = self.code(base)
        except firmware_lines.NotFirmware as reason:
            raise command.Failed(f"{self.name}: {reason}") from None
        if next(self.lines(), None) is None:
            raise command.Failed(f"{self.name} has no instruction: there is nothing to compare")

    def code(self, base):
        """Pairs of an address and the code there, None for input lines."""
        if base is not None or self.file[:4] == firmware_lines.ELF:
            return firmware_lines.code_of(self.file, base)
        if b"\0" in self.file:
            raise firmware_lines.NotFirmware("neither an ELF file nor a text of input lines (for an image: --raw --base ADDRESS)")
        return None

    def hint(self):
        """What the person at the desk should know of the file besides, or None."""
        if self.parts is not None:
            return firmware_lines.overlap(self.parts)
        return firmware_lines.CR_LF if b"\r\n" in self.file else None

    def lines(self):
        """The input lines, as bytes without their newline."""
        if self.parts is not None:
            return (line.encode() for address, code in self.parts for line in firmware_lines.lines(code, address))
        lines = self.file.split(b"\n")
        return itertools.islice(lines, len(lines) - (not lines[-1]))  # nothing follows the last newline


def runs(lines):
    """The lines in runs, each with the numbers of its refusals (None: accepted). A run ends before the line that would be refused with 8,
    so that none is: what one instruction appends always fits a list of its own."""
    run, numbers, listing = [], [], refusal.Listing()
    for line in lines:
        number = listing.take(line)
        if number == 8 or len(run) == IN_A_RUN:
            yield run, numbers
            run, numbers, listing = [], [], refusal.Listing()
            number = listing.take(line)
        run.append(line)
        numbers.append(number)
    if run:
        yield run, numbers


def kind_of(line):
    record = refusal.fields(line)
    return record[1] if record else "no instruction"


def instruction(line):
    """The address and the instruction of an input line, for a person to read."""
    record = refusal.fields(line)
    if record is None:
        return f"the line {line[:100]!r}"
    address, *fields = record
    return f"address {address} ({address:#x}), {' '.join(map(str, fields))}"


class Account:
    """What was compared of a firmware. compare.py counts node lines, edges, dispatches and accepted kinds in `counts`."""

    def __init__(self, name, show_all):
        self.name, self.show_all = name, show_all
        self.counts = collections.Counter()
        self.instructions = self.runs = 0
        self.refused, self.listed = collections.Counter(), []

    def take(self, run, numbers):
        self.runs += 1
        self.instructions += len(run)
        for line, number in zip(run, numbers):
            if number is None:
                continue
            kind = kind_of(line)
            self.refused[number, kind] += 1
            if kind not in APART and (self.show_all or len(self.listed) < SHOWN):
                self.listed.append(f"    {instruction(line)}: {number}, {refusal.WORDS[number]}")

    def text(self):
        counts, refused = self.counts, self.refused
        accepted = {kind: counts["accepted", kind] for kind in refusal.KINDS if counts["accepted", kind]}
        yield f"{self.name}: {several(self.instructions, 'instruction')} in {several(self.runs, 'run')}"
        lines = several(counts["node lines"], "node line"), several(counts["edges"], "edge"), several(counts["dispatches"], "dispatch")
        yield "compared: " + ", ".join(lines)
        yield f"accepted {sum(accepted.values())}" + (": " + by_count(accepted) if accepted else "")
        yield f"refused {sum(refused.values())}" + (":" if refused else "")
        for number in refusal.WORDS:
            kinds = {kind: count for (other, kind), count in refused.items() if other == number and kind not in APART}
            if kinds:
                yield f"  {sum(kinds.values())} with {number}, {refusal.WORDS[number]}: {by_count(kinds)}"
        yield from self.listed
        more = sum(count for (_, kind), count in refused.items() if kind not in APART) - len(self.listed)
        if more:
            yield f"    and {more} more (--all-refused shows them)"
        for kind, words in APART.items():
            if refused[1, kind]:
                yield f"  {kind} {refused[1, kind]}: {words}"


def several(count, word):
    return f"{count} {word}" if count == 1 else f"{count} {word}{'es' if word.endswith('ch') else 's'}"


def by_count(counts):
    return ", ".join(f"{kind} {count}" for kind, count in sorted(counts.items(), key=lambda item: (-item[1], item[0])))


def file_name(number, name, run):
    """A name for what is kept of a run, whatever the firmware's name is."""
    return f"firmware-{number}-{re.sub('[^A-Za-z0-9._]+', '-', name)[-80:].strip('-.')}-run-{run}"
