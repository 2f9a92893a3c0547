"""What the commands for a desk share: options, numbers, input files, the output and sentences where something is wrong.

A command never ends with a traceback for what it was given: it raises `Failed` with a sentence and an exit status, and `run` writes the
sentence to standard error after the command's name.
"""
import argparse
import os
import pathlib
import re
import sys

NAME = pathlib.Path(sys.argv[0]).name
COULD_NOT_RUN = 2


def program(crate):
    """Where `rt run` in a crate's folder puts the program."""
    return pathlib.Path(__file__).resolve().parent.parent / "crates" / crate / "out" / crate


class Failed(Exception):
    """A sentence for the person at the desk, and the exit status."""

    def __init__(self, sentence, status=COULD_NOT_RUN):
        super().__init__(sentence)
        self.status = status


class Parser(argparse.ArgumentParser):
    """Options whose errors are one sentence. A name is given in full, so that a later option can't change what an earlier call meant."""

    def __init__(self, **words):
        super().__init__(prog=NAME, allow_abbrev=False, **words)

    def error(self, message):
        raise Failed(f"{message} (--help says how it is called)")

    def print_help(self, file=None):
        put(self.format_help())


def number(text, least, limit):
    """A decimal number, or a hexadecimal one after 0x, from least to below limit. None for any other text."""
    found = re.fullmatch("([0-9]{1,40})|0[xX]([0-9a-fA-F]{1,40})", text)
    if not found:
        return None
    value = int(found[1]) if found[1] else int(found[2], 16)
    return value if least <= value < limit else None


def address(text):
    """An option's type: an address of 64 bits."""
    value = number(text, 0, 2**64)
    if value is None:
        raise argparse.ArgumentTypeError(f"{text!r} is no address: decimal, or hexadecimal after 0x, and below 2^64")
    return value


def count(text):
    """An option's type: a number that is not negative and that a loop can reach."""
    value = number(text, 0, 2**31)
    if value is None:
        raise argparse.ArgumentTypeError(f"{text!r} is no number from 0 to {2**31 - 1}")
    return value


def read(path, status=COULD_NOT_RUN):
    """The bytes of a file, of standard input for `-`."""
    try:
        if path != "-":
            with open(path, "rb") as opened:
                return opened.read()
        if sys.stdin is None:
            raise Failed("standard input is closed", status)
        return sys.stdin.buffer.read()
    except OSError as error:
        name = "standard input" if path == "-" else path
        raise Failed(f"{name} can't be read: {error.strerror}", status) from None


def put(text):
    """Writes to standard output at once, so that an output that takes no more is seen where it happens."""
    try:
        sys.stdout.write(text)
        sys.stdout.flush()
    except OSError as error:
        raise Failed(f"the output can't be written: {error.strerror}") from None


def complain(sentence):
    """Writes a sentence to standard error. Where that can't be written either, the exit status is all that is left."""
    try:
        if sys.stderr is not None:
            sys.stderr.write(f"{NAME}: {sentence}\n")
            sys.stderr.flush()
    except OSError:
        pass


def run(main):
    """Ends the program with main's exit status, or with a sentence."""
    for stream in sys.stdout, sys.stderr:
        if stream is not None:
            stream.reconfigure(errors="backslashreplace")  # a file's name may be no text
    try:
        if sys.stdout is None:  # a file that is opened would take its place, and other programs would write into that
            raise Failed("standard output is closed")
        status = main()
    except Failed as failure:
        complain(failure)
        status = failure.status
    except OSError as error:
        complain(f"{error.filename}: {error.strerror}" if error.filename else str(error))
        status = COULD_NOT_RUN
    except MemoryError:
        complain("there is not enough memory")
        status = COULD_NOT_RUN
    except KeyboardInterrupt:
        complain("interrupted")
        status = 130
    # What is left in the buffers was complained of; the interpreter would try to write it once more.
    os._exit(status)
