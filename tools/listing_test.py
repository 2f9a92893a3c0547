#!/usr/bin/env python3
"""listing_test.py: tests of tools/listing.sh. Nothing is proved: the script is copied into a tree of its own, where an `rt` that stands first on
the path makes a listing that writes what the test wants. Its last line says how many tests passed.

Right listings are the stored ones of crates/listing and listing_cases.
"""
import collections
import os
import pathlib
import pty
import re
import shutil
import signal
import subprocess
import sys
import tempfile

import firmware_lines_test
import refusal

REPOSITORY = pathlib.Path(__file__).resolve().parent.parent
COPIED = ("tools/listing.sh", "tools/refusals.txt", "samples/firmware.txt", "crates.txt")


def needed(crate):
    """A crate of crates.txt and what it depends on, without the kit's own."""
    depends = dict(re.findall(r"^(\w+):(.*)", (REPOSITORY / "crates.txt").read_text(), re.M))
    found, more = set(), {crate}
    while more:
        found |= more
        more = {name for one in more for name in depends[one].split() if name in depends} - found
    return found


CRATES = len(needed("listing"))
WAIT = 60  # seconds: a test that takes longer has failed

# What the `rt` of a test does: it notes where and how it was called, says what a test wants and makes a listing.
RT = """#!/bin/sh
crate=${PWD##*/}
cd ../..
echo "$crate: $*" >>called
cat says >&2
mkdir -p crates/listing/out
[ ! -f listing ] || cp listing crates/listing/out/listing
exit "$(cat status)"
"""
PROVED = "".join(f"crate crate_{n}: modules loaded=0 checked={n}\nlogic=proved functions={n}\n" for n in range(1, CRATES + 1))
OK = f"some words of the prover\n{PROVED}rt: running out/listing\n"
UNCHANGED = "rt: nothing has changed since the last proved build\nrt: running out/listing\n"
COUNTED = f"listing.sh: {CRATES} of {CRATES} crates proved\n"


def stored(crate):
    """The lines and the listing of a crate. A line with a CR, which would bring a hint, is malformed with another byte in its place too."""
    folder = REPOSITORY / "crates" / crate
    return (folder / "stdin").read_bytes().replace(b"\r", b"?"), (folder / "stdout").read_bytes()


def line_count(text):
    return text.count(b"\n") + (text[-1:] not in (b"", b"\n"))


class Tree:
    """A folder with the script and what it reads, the `rt` of the test, and a listing that writes `output`."""

    def __init__(self, folder, output=b"", does="", says=OK, status=0):
        self.root = pathlib.Path(folder)
        for name in COPIED:
            (self.root / name).parent.mkdir(exist_ok=True)
            shutil.copy(REPOSITORY / name, self.root / name)
        (self.root / "path").mkdir()
        (self.root / "crates" / "listing").mkdir(parents=True)
        self.program("path/rt", RT)
        (self.root / "says").write_text(says)
        (self.root / "status").write_text(str(status))
        (self.root / "output").write_bytes(output)
        if does is not None:
            self.program("listing", f"#!/bin/sh\ncat >given\ncat output\n{does}\n")

    def program(self, name, text):
        (self.root / name).write_text(text)
        (self.root / name).chmod(0o755)

    def run(self, *arguments, path=None, **words):
        """The exit status, standard output and standard error."""
        words = {"stdin": subprocess.DEVNULL, "stdout": subprocess.PIPE, "stderr": subprocess.PIPE, "timeout": WAIT} | words
        environment = os.environ | {"PATH": path or f"{self.root / 'path'}:{os.environ['PATH']}"}
        done = subprocess.run(["tools/listing.sh", *arguments], cwd=self.root, env=environment, **words)
        return done.returncode, done.stdout or b"", (done.stderr or b"").decode().replace(str(self.root), "ROOT")

    def called(self):
        return (self.root / "called").read_text() if (self.root / "called").exists() else ""


passed = failed = 0


def test(name, got, wanted):
    global passed, failed
    if got == wanted:
        passed += 1
    else:
        failed += 1
        print(f"{name}\n  got    {got}\n  wanted {wanted}")


def within(make):
    """Calls a test with a function that makes a tree."""
    with tempfile.TemporaryDirectory() as folder:
        count = iter(range(1000))

        def tree(*arguments, **words):
            path = pathlib.Path(folder) / str(next(count))
            path.mkdir()
            return Tree(path, *arguments, **words)

        make(tree)


#
# The tests
#

# Document 01's example, with which the stored run of the listing begins: three lines, and eight of output.
EXAMPLE, EXAMPLE_LISTED = (b"".join(text.splitlines(True)[:count]) for text, count in zip(stored("listing"), (3, 8)))
EXAMPLE_SAID = COUNTED + "listing.sh: 1 of 3 lines was refused: 1 with 4 (Srliw by 0)\n"


def right_tests(tree):
    """Every way to hand the lines in, and the exit statuses 0 and 1."""
    whole = (1, EXAMPLE_LISTED, EXAMPLE_SAID)
    one = tree(EXAMPLE_LISTED)
    (one.root / "lines.txt").write_bytes(EXAMPLE)
    test("a file", one.run("lines.txt"), whole)
    test("what rt was called with", one.called(), "listing: run\n")
    test("what the listing was given", (one.root / "given").read_bytes(), EXAMPLE)
    test("the log", (one.root / "crates" / "listing" / "out" / "listing.log").read_text(), OK)
    test("nothing has changed", tree(EXAMPLE_LISTED, says=UNCHANGED).run(stdin=None, input=EXAMPLE), whole)
    test("a file by its whole path", one.run(one.root / "lines.txt"), whole)
    test("- for standard input", one.run("-", stdin=None, input=EXAMPLE), whole)
    test("standard input", one.run(stdin=None, input=EXAMPLE), whole)
    test("no last newline", one.run(stdin=None, input=EXAMPLE[:-1]), whole)
    with open(one.root / "lines.txt", "rb") as opened:
        test("standard input that is a file", one.run(stdin=opened), whole)
    (one.root / "-x y").write_bytes(EXAMPLE)
    test("a name with a space", one.run("./-x y"), whole)
    test("no line", tree().run(), (0, b"", COUNTED + "listing.sh: none of 0 lines was refused\n"))
    accepted, listed = EXAMPLE.splitlines(True)[:2], EXAMPLE_LISTED.splitlines(True)[:-1]
    wanted = (0, b"".join(listed), COUNTED + "listing.sh: none of 2 lines was refused\n")
    test("nothing refused", tree(b"".join(listed)).run(stdin=None, input=b"".join(accepted)), wanted)
    from_elsewhere = subprocess.run([one.root / "tools/listing.sh", "lines.txt"], cwd=one.root / "samples", capture_output=True)
    test("a name is looked up where the command is called", (from_elsewhere.returncode, from_elsewhere.stdout), (2, b""))


def stored_tests(tree):
    """The stored listings: every kind, every refusal, and a list that is full."""
    for crate in ("listing_cases", "listing"):
        lines, listed = stored(crate)
        numbers = collections.Counter(int(line.split()[3]) for line in listed.splitlines() if line.startswith(b"; refused"))
        words = ", ".join(f"{numbers[n]} with {n} ({refusal.WORDS[n]})" for n in refusal.WORDS if numbers[n])
        said = f"listing.sh: {sum(numbers.values())} of {line_count(lines)} lines were refused: {words}\n"
        test(crate, tree(listed).run(stdin=None, input=lines), (1, listed, COUNTED + said))
    crlf = EXAMPLE.replace(b"\n", b"\r\n")
    status, _, said = tree(b"; refused 1 0\n; refused 2 0\n; refused 3 0\n").run(stdin=None, input=crlf)
    test("CR LF", (status, "listing.sh: standard input: 3 of 3 lines end with CR LF" in said, "3 with 0 (over" in said), (1, True, True))


def cut(listed, *places):
    """The lines of a listing without those at these places."""
    lines = listed.splitlines(True)
    return b"".join(line for n, line in enumerate(lines) if n not in places and n - len(lines) not in places)


def wrong_tests(tree):
    """Listings that are cut, or that fail."""
    lines, listed = stored("listing_cases")
    count, short = line_count(lines), "listing.sh: the output is cut: "
    for name, output, does, said in (
        ("nothing", b"", "", f"it answers 0 of {count} lines"),
        ("the last line missing", cut(listed, -1), "", f"it answers {count - 1} of {count} lines"),
        ("half", listed[: listed.index(b"\n", len(listed) // 2) + 1], "", None),
        ("a line cut in two", listed[:-3], "", "its last line has no end"),
        ("an exit status", listed, "exit 3", "the listing ended with status 3"),
        ("a signal", listed, "kill -9 $$", "the listing ended with status 137"),
        ("an error", listed, "echo no more >&2; exit 1", "the listing ended with status 1: no more"),
    ):
        status, out, heard = tree(output, does).run(stdin=None, input=lines)
        test(f"cut: {name}", (status, out), (2, output))
        test(f"cut: {name}, said", heard.startswith(COUNTED + short + (said or "it answers ")), True)
    twice = tree(EXAMPLE_LISTED * 2).run(stdin=None, input=EXAMPLE)
    test("an answer too many", (twice[0], "the output is not that of the input: it answers 6 of 3 lines" in twice[2]), (2, True))
    for n, line in enumerate(EXAMPLE_LISTED.splitlines()):
        ends = line.startswith(b";")  # a node line that is dropped from the middle is not seen here: compare.py sees it
        test(f"dropped: {line}", tree(cut(EXAMPLE_LISTED, n)).run(stdin=None, input=EXAMPLE)[0], 2 if ends else 1)
    odd = tree(b"; refused 1 7\n").run(stdin=None, input=b"0 Ecall 0 0 0 0\n")
    test("a number that the listing has not", (odd[0], "1 with 7 (not a number of the listing)" in odd[2]), (1, True))


def sentence(done, name):
    """A call that was wrong: status 2, no output and one sentence."""
    status, out, said = done
    test(name, (status, out, said.count("\n"), said.startswith("listing.sh: "), "line " in said.split(":")[1]), (2, b"", 1, True, False))


def bad_call_tests(tree):
    """What is said before anything is proved."""
    one = tree(EXAMPLE_LISTED)
    (one.root / "firmware.elf").write_bytes(firmware_lines_test.elf([(1, 6, 65536, b"s\0\0\0")]))
    for name, arguments in {
        "a missing file": ["missing"], "a directory": ["samples"], "an ELF file": ["firmware.elf"], "an empty name": [""],
        "an unknown option": ["--zz"], "two files": ["samples/firmware.txt", "samples/firmware.txt"], "a file and an option": ["-", "--help"],
        "a file below a file": ["crates.txt/x"], "a name that is too long": ["x" * 300],
    }.items():  # fmt: skip
        sentence(one.run(*arguments), name)
    with open(one.root / "firmware.elf", "rb") as opened:
        sentence(one.run(stdin=opened), "an ELF file as standard input")
    folder = os.open(one.root, os.O_RDONLY)
    sentence(one.run(stdin=folder), "a directory as standard input")
    os.close(folder)
    sentence(one.run(stdin=None, preexec_fn=lambda: os.close(0)), "a closed standard input")
    sentence(one.run("samples/firmware.txt", stdout=None, preexec_fn=lambda: os.close(1)), "a closed output")
    for option in ("--help", "-h"):
        status, out, said = one.run(option)
        test(option, (status, out.startswith(b"listing.sh [FILE|-]: "), b"Exit status: 0" in out, b"set -u" in out, said), (0, True, True, False, ""))
    with open("/dev/full", "wb") as full:
        sentence(one.run("--help", stdout=full), "--help on a full device")
    test("nothing was proved", one.called(), "")
    sentence(tree(EXAMPLE_LISTED).run(path=str(without_rt(tree))), "no rt")


def without_rt(tree):
    """A path with the commands that the script needs and without rt."""
    folder = tree().root / "commands"
    folder.mkdir()
    for name in "env bash cat sed dirname head tail od tr wc grep awk mktemp mkdir rm tee".split():
        (folder / name).symlink_to(shutil.which(name))
    return folder


def proof_tests(tree):
    """A proof that fails, and what stands in its way."""
    failing = PROVED.splitlines(True)[:6] + ["crate listing: modules loaded=0 checked=2\n", "logic=not-proved functions=1\n"]
    for status in (1, 2, 3):
        done = tree(EXAMPLE_LISTED, says="".join(failing), status=status).run(stdin=None, input=EXAMPLE)
        log = "ROOT/crates/listing/out/listing.log"
        said = f"listing.sh: 3 of {CRATES} crates proved now\nlisting.sh: the listing is not proved: {log} has what the prover said\n"
        test(f"a proof that fails with {status}", done, (2, b"", said))
    test("a run that fails", tree(says=UNCHANGED, status=1).run()[2].startswith(f"listing.sh: 0 of {CRATES} crates proved now\n"), True)
    done = tree(does=None).run()
    test("no program", (done[0], done[1], "the prover made no crates/listing/out/listing" in done[2]), (2, b"", True))
    one = tree(EXAMPLE_LISTED)
    (one.root / "crates" / "listing" / "out").write_text("")
    sentence(one.run(stdin=None, input=EXAMPLE), "out is a file")
    one = tree(EXAMPLE_LISTED)
    os.environ["TMPDIR"] = str(one.root / "missing")
    sentence(one.run(stdin=None, input=EXAMPLE), "no folder for a copy")
    del os.environ["TMPDIR"]
    (one.root / "tools" / "refusals.txt").unlink()
    sentence(one.run(stdin=None, input=EXAMPLE), "no table of refusals")


def output_tests(tree):
    """Outputs that take nothing, or not all."""
    cut_short = (2, b"", COUNTED + "listing.sh: the output is cut: it can't be written whole\n")
    lines, listed = stored("listing_cases")
    with open("/dev/full", "wb") as full:
        test("a full device", tree(listed).run(stdin=None, input=lines, stdout=full), cut_short)
    closed, into = os.pipe()
    os.close(closed)
    test("a pipe without a reader", tree(listed).run(stdin=None, input=lines, stdout=into), cut_short)
    os.close(into)
    # A reader that goes away after the first line, of more than a pipe holds.
    one = tree(listed * 20)
    (one.root / "lines.txt").write_bytes(lines * 20)
    done = subprocess.run("tools/listing.sh lines.txt | head -n 1 >first; exit ${PIPESTATUS[0]}", shell=True, executable="bash", cwd=one.root,
        env=os.environ | {"PATH": f"{one.root / 'path'}:{os.environ['PATH']}"}, stderr=subprocess.PIPE, timeout=WAIT)  # fmt: skip
    test("a reader that goes away", (done.returncode, done.stderr.decode()), (2, cut_short[2]))
    for name, words in {"a closed": {"preexec_fn": lambda: os.close(2)}, "a full": {}}.items():
        with open("/dev/full", "wb") as full:
            done = tree(EXAMPLE_LISTED).run(stdin=None, input=EXAMPLE, **({"stderr": full} | words))
        test(f"{name} standard error", done[:2], (1, EXAMPLE_LISTED))


def terminal_tests(tree):
    """At a terminal the sample is listed, and the count of crates goes on in one line."""
    sample = (REPOSITORY / "samples" / "firmware.txt").read_bytes()
    listed = b"".join(b"; in %d from %d regular -\n" % (n, n) for n in range(line_count(sample)))
    one = tree(listed)
    terminal, ours = pty.openpty()
    status, out, said = one.run(stdin=ours)
    test("a terminal as standard input", (status, out, (one.root / "given").read_bytes()), (0, listed, sample))
    status, out, _ = one.run(stdin=None, input=sample, stderr=ours)
    heard = os.read(terminal, 65536).decode().replace("\r\n", "\n")
    counts = re.findall(rf"\rlisting\.sh: (\d+) of {CRATES} crates proved", heard)
    test("a terminal as standard error", (status, counts[-1], heard.count("\n")), (0, str(CRATES), 2))
    test("the counts rise", [int(n) for n in counts], sorted(map(int, counts)))
    os.close(ours)
    os.close(terminal)


def word_tests():
    """One table of refusals, and README's is the same."""
    rows = re.findall(r"^\| (\d+) \| (.*) \|$", (REPOSITORY / "README.md").read_text(), re.M)
    test("README's table of refusals", {int(number): words for number, words in rows}, refusal.WORDS)
    test("the numbers that the listing gives", list(refusal.WORDS), [0, 1, 2, 3, 4, 5, 6, 8])


def main():
    signal.alarm(600)
    for tests in (right_tests, stored_tests, wrong_tests, bad_call_tests, proof_tests, output_tests, terminal_tests):
        within(tests)
    word_tests()
    print(f"{passed} passed, {failed} failed")
    return failed != 0


if __name__ == "__main__":
    sys.exit(main())
