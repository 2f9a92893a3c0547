#!/usr/bin/env python3
"""Brings this repository's definitions and lemmas to the spelling of today's Rattle: words in snake case, facts in camel case.

usage: python3 tools/respell.py            at the top of a checkout that port.py has turned; respelled.tsv beside this script has the names

Turned are whole names in .antt and .rt files and in edits, but not in strings; in comments and in Markdown only names in
backticks, and those with a capital inside, which are no English words. Functions of src/, exported names and strings keep
their spelling. A second run changes nothing but some names that the table swaps, so it is run once.
"""

import os
import re
import subprocess
import sys

WORD = re.compile(r'[^\s(){}.;,@"«»\[\]]+')
STRING = re.compile(r'"(?:[^"\\\n]|\\.)*"')
CAPITAL_INSIDE = re.compile(r"[a-z0-9][A-Z]")
SPAN = re.compile(r"`[^`\n]+`")


def table(path):
    with open(path, encoding="utf-8") as f:
        return dict(line.rstrip("\n").split("\t") for line in f if line.strip())


def words(text, rows):
    return WORD.sub(lambda m: rows.get(m.group(0), m.group(0)), text)


def prose(text, rows):
    """A comment: names in backticks, and names that cannot be English."""
    text = SPAN.sub(lambda m: "`" + words(m.group(0)[1:-1], rows) + "`", text)
    sure = {a: b for a, b in rows.items() if CAPITAL_INSIDE.search(a)}
    return re.sub(r"[A-Za-z0-9_]+", lambda m: sure.get(m.group(0), m.group(0)), text)


def code(text, rows):
    """A piece of a line without a comment: everything but strings."""
    out, at = [], 0
    for m in STRING.finditer(text):
        out += [words(text[at : m.start()], rows), m.group(0)]
        at = m.end()
    return "".join(out + [words(text[at:], rows)])


def split(line, mark):
    """Where a line's comment begins, outside strings."""
    at = 0
    while True:
        found = line.find(mark, at)
        if found < 0:
            return len(line)
        if not any(m.start() < found < m.end() for m in STRING.finditer(line)):
            return found
        at = found + len(mark)


def lines(text, rows, mark):
    done = []
    for line in text.split("\n"):
        cut = split(line, mark)
        done.append(code(line[:cut], rows) + prose(line[cut:], rows))
    return "\n".join(done)


def edit(text, rows):
    return "\n".join(
        line if line.startswith("file:") else prose(line, rows) if line.startswith("#") else code(line, rows)
        for line in text.split("\n")
    )


def turned(path, text, rows):
    if path.endswith(".antt"):
        return lines(text, rows, "--")
    if path.endswith(".rt"):
        return lines(text, rows, "//")
    if path.endswith(".edit"):
        return edit(text, rows)
    return prose(text, rows)


def main():
    here = os.path.dirname(os.path.realpath(__file__))
    rows = table(os.path.join(here, "respelled.tsv"))
    top = sys.argv[1] if len(sys.argv) > 1 else "."
    listed = subprocess.run(["git", "ls-files", "-z"], cwd=top, capture_output=True, check=True).stdout.decode().split("\0")
    changed = 0
    for path in listed:
        full = os.path.join(top, path)
        if not path.endswith((".antt", ".rt", ".edit", ".md")) or not os.path.isfile(full):
            continue
        with open(full, encoding="utf-8") as f:
            old = f.read()
        new = turned(path, old, rows)
        if new != old:
            with open(full, "w", encoding="utf-8") as f:
                f.write(new)
            changed += 1
    print(f"respell: {len(rows)} names, {changed} files changed")


main()
