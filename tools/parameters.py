#!/usr/bin/env python3
"""parameters.py [MOST]: the functions in crates/*/src with more than so many parameters (seven), and how many functions there are."""
import glob
import re
import sys

OPEN, CLOSE = "([{<", ")]}>"


def parameters(text, start):
    """How many parameters the list has whose first character is at start."""
    depth, commas, last = 1, 0, ""
    for i in range(start, len(text)):
        c = text[i]
        if c in OPEN:
            depth += 1
        elif c in CLOSE and not (c == ">" and text[i - 1] == "-"):
            depth -= 1
            if depth == 0:
                return 0 if not text[start:i].strip() else commas + (last != ",")
        elif c == "," and depth == 1:
            commas += 1
        if not c.isspace():
            last = c
    raise ValueError("a list of parameters does not end")


def main():
    most = int(sys.argv[1]) if len(sys.argv) > 1 else 7
    functions = long = 0
    for path in sorted(glob.glob("crates/*/src/**/*.rt", recursive=True)):
        with open(path) as f:
            text = re.sub(r"//[^\n]*", "", f.read())
        for m in re.finditer(r"\bfn\s+(\w+)\s*(<[^>(]*>)?\s*\(", text):
            functions += 1
            n = parameters(text, m.end())
            if n > most:
                long += 1
                print(path, m.group(1), n)
    print(f"{long} of {functions} functions have more than {most} parameters")


if __name__ == "__main__":
    main()
