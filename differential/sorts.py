#!/usr/bin/env python3
"""The table of docs/SORTS.md against the unchanged Rust.

    sorts.py [--source FOLDER]

Builds the oracle (README.md) from FOLDER (default as build.sh's: ../shared/docs/src beside the repository) and compares, sort by sort,

- the sort lines with those that the Rust's write_model puts in front of a file's nodes, their order and remarks too;
- the number with that of the sort line, and with what the Rust prints in a line of each kind that has a sort of its own;
- the bits with the width of the sort line, 0 for an array;
- the padding with the last number of a uext from the sort; from an array the Rust must panic;

and that a uext, which prints the number of the sort with 64 bits, has as many bits as that sort: those of its operand and its padding. Then it
alters each cell of the table in turn, which must be found. The last line is 'no difference' or how many there are. Exit status: 0 no
difference, 1 differences, 2 it could not be run.
"""
import collections
import pathlib
import subprocess
import sys

HERE = pathlib.Path(__file__).resolve().parent
sys.path.insert(0, str(HERE.parent / "tools"))

import command

TABLE = HERE.parent / "docs" / "SORTS.md"
WORDS = ["constd", "ite", "and", "or", "not", "state", "init", "next", "input", "uext"]  # in the oracle's order


def rows(text):
    """The cells of each row of the table: sort line, sort, number, bits, padding."""
    lines = (line.strip("| ").split(" | ") for line in text.splitlines() if line.startswith("| "))
    return [cells for cells in lines if " sort " in cells[0]]


def said(text):
    """What the Rust says: its sort lines, and by sort the fields of its node lines."""
    sort_lines, nodes = [], collections.defaultdict(list)
    for line in text.splitlines():
        fields = line.split()
        if fields[1] == "sort":
            sort_lines.append(line)
        else:
            nodes[fields[0]].append(fields[1:])
    return sort_lines, nodes


def width(sort_line):
    """The bits of a value, None for an array."""
    _, _, kind, number, *_ = sort_line.split()
    return int(number) if kind == "bitvec" else None


def differences(table, sort_lines, nodes):
    if [row[0] for row in table] != sort_lines:
        yield "the sort lines differ"
    if [row[1] for row in table] != list(nodes):
        yield "the sorts differ"
    word = max(sort_lines, key=lambda line: width(line) or 0)
    for sort_line, sort, number, bits, padding in table:
        lines, wide = nodes.get(sort, []), width(sort_line)
        if [fields[1] for fields in lines if fields != ["panic"]] != WORDS[: None if wide else -1]:
            yield f"{sort}: not a line of each kind"
        if {sort_line.split()[0], *(fields[2] for fields in lines if fields[1:2] not in ([], ["uext"]))} != {number}:
            yield f"{sort}: another number is printed"
        if bits != str(wide or 0):
            yield f"{sort}: another width"
        if wide is None:
            if lines[-1:] != [["panic"]]:
                yield f"{sort}: the Rust does not panic"
        elif lines[-1:] != [["7", "uext", word.split()[0], "5", padding]]:
            yield f"{sort}: another uext is printed"
        if int(bits) + int(padding) != width(word):
            yield f"{sort}: bits and padding are not those of a word"


def altered(table):
    """The table with one cell altered, for each cell."""
    for row in range(len(table)):
        for cell, text in enumerate(table[row]):
            other = str(int(text) + 8) if text.isdecimal() else text + "s"
            yield [[*line[:cell], other, *line[cell + 1 :]] if at == row else line for at, line in enumerate(table)]


def rust_says(source):
    """What the oracle, built from the Rust's files, says of the sorts."""
    if subprocess.run([HERE / "build.sh", *source]).returncode:
        raise command.Failed("the oracle was not built")
    done = subprocess.run([HERE / "target" / "oracle", "--sorts"], capture_output=True, text=True)
    if done.returncode:
        raise command.Failed(f"the oracle failed: {done.stderr.strip()}")
    return said(done.stdout)


def main():
    parser = command.Parser(description="The table of docs/SORTS.md against the unchanged Rust.")
    parser.add_argument("--source", metavar="FOLDER", help="the Rust's files; default: as build.sh's")
    source = parser.parse_args().source
    sort_lines, nodes = rust_says([source] if source else [])
    table = rows(TABLE.read_text())
    found = list(differences(table, sort_lines, nodes))
    missed = sum(not list(differences(one, sort_lines, nodes)) for one in altered(table))
    found += [f"{missed} of the alterations were not found"] if missed else []
    lines = sum(fields != ["panic"] for of_sort in nodes.values() for fields in of_sort)
    command.put(f"{len(table)} sorts, {lines} node lines of the Rust's, {sum(map(len, table))} alterations of a cell\n")
    command.put("".join(line + "\n" for line in found))
    command.put(f"differences: {len(found)}\n" if found else "no difference\n")
    return 1 if found else 0


if __name__ == "__main__":
    command.run(main)
