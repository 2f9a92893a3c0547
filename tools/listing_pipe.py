#!/usr/bin/env python3
"""listing_pipe.py [LISTING]: what the listing writes where a write fails is the beginning of what it should write.

Its output is a pipe of 4,096 bytes that does not block and that nobody reads while it runs, so a text that does not fit fails, and a shorter
one after it would fit. The program must stop at the first that fails, must not take an unfinished last line after it, and must end with status 1;
with 0 where all was written.
"""
import fcntl
import os
import subprocess
import sys

import command

LISTING = command.program("listing")
PIPE = 4096
LONG = b"65536 Mulw 5 6 7 0"  # 35 lines
SHORT = b"65536 Lwu 0 0 0 0"  # refused


def inputs():
    for long in range(1, 9):
        for end in (b"", b"\n"):
            yield b"\n".join([LONG] * long + [SHORT]) + end
            yield b"\n".join(([LONG] * long + [SHORT] * 100) * 2) + end


def into_full_pipe(listing, given):
    out, into = os.pipe2(os.O_NONBLOCK)
    fcntl.fcntl(into, fcntl.F_SETPIPE_SZ, PIPE)
    status = subprocess.run([listing], input=given, stdout=into, stderr=subprocess.DEVNULL, timeout=60).returncode
    os.close(into)
    got = os.read(out, 2 * PIPE)
    os.close(out)
    return got, status


def main():
    listing = sys.argv[1] if len(sys.argv) > 1 else LISTING
    whole = cut = faulty = 0
    for given in inputs():
        wanted = subprocess.run([listing], input=given, stdout=subprocess.PIPE, check=True).stdout
        got, status = into_full_pipe(listing, given)
        if not wanted.startswith(got) or status != (got != wanted):
            faulty += 1
        elif got == wanted:
            whole += 1
        else:
            cut += 1
    print(f"{whole} whole, {cut} cut short, {faulty} with a part missing or another status")
    sys.exit(0 if whole and cut and not faulty else 1)


if __name__ == "__main__":
    main()
