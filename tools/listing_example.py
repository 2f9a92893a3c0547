#!/usr/bin/env python3
"""listing_example.py: writes crates/listing/stdin, and stdout, which the listing must write for it, read off document 01.

First document 01's example with its output. Then bad lines until the list is full, and after: "Jalr x0, x0, 8: one bad line, no edge", whose name
is `unimplemented-pc-` and the address in hexadecimal. "It holds 1,024 lines, its start included, with room for their bads and names": so as many
are accepted as the start and the example leave room for, all with the longest names, and from the next on refusal 8 comes, but not for a line that
appends nothing.
"""
import pathlib

INPUT = """65536 Lui 5 0 0 1
65540 Bltu 0 5 6 -4
65544 Srliw 5 5 0 0""".splitlines()
OUTPUT = """59 constd 2 4096
60 ite 2 58 59 28
; in 65540 from 65536 regular -
61 ult 1 28 29
62 not 1 61
; in 65536 from 65540 branch 61
; in 65544 from 65540 branch 62
; refused 3 4""".splitlines()
HOLDS = 1024
FIRST = 20  # the start's first identifier; each line has the one after that of the line before
FLAG = 58
NEXT = 1 + max(int(text.split()[0]) for text in OUTPUT if text[0] != ";")  # after the example's
MORE = 15  # past the last that has room
CRATE = pathlib.Path(__file__).resolve().parent.parent / "crates" / "listing"


def bad(k):
    """The k-th bad line's input, and its text: addresses downwards from the last, of 16 digits all."""
    address = 2**64 - 4 - 4 * k
    return f"{address} Jalr 0 0 0 {k % 4096 - 2048}", f"{NEXT + k} bad {FLAG} unimplemented-pc-{address:x}"


def nothing(k):
    """Addi with rd x0 appends no line, and has one edge."""
    return f"{4 * k} Addi 0 0 0 0", f"; in {4 * k + 4} from {4 * k} regular -"


def main():
    given, wanted = list(INPUT), list(OUTPUT)
    room = HOLDS - (NEXT - FIRST)
    for k in range(room):
        line, text = bad(k)
        given.append(line)
        wanted.append(text)
    for k in range(MORE):
        given.append(bad(room + k)[0])
        wanted.append(f"; refused {len(given)} 8")
        line, text = nothing(k)
        given.append(line)
        wanted.append(text)
    (CRATE / "stdin").write_text("\n".join(given))  # the last newline is missing
    (CRATE / "stdout").write_text("".join(text + "\n" for text in wanted))


if __name__ == "__main__":
    main()
