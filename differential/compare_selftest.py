#!/usr/bin/env python3
"""compare_selftest.py: compare.py must find each of these wrong listings, and nothing in the right one; the same for the program of cases on
the start apart, and for given firmware of several runs. Options, files and outputs that are no good must give a sentence and exit status 2.
Needs target/oracle (build.sh).

A wrong program writes what a right one would for one input, with one alteration; on firmware of several runs a stand-in for the listing
writes what compare.py expects, but for one run. The last line says how many tests passed.
"""
import collections
import contextlib
import io
import os
import pathlib
import re
import shutil
import subprocess
import sys
import tempfile

import compare
import firmware
import firmware_lines_test
import generate
import lowering_cases
import refusal

LINES = [
    b"65536 Lui 5 0 0 1", b"65540 Bltu 0 5 6 -4", b"65544 Srliw 5 5 0 0", b"65548 Lui 5 0 0 2", b"65552 Sd 0 1 2 8", b"65556 Sra 7 8 9 0",
    b"43981 Jalr 1 0 0 8", b"8 Jalr 0 31 0 0", b"12 Beq 0 1 2 4", b"16 Ecall 0 0 0 0", b"20 Jal 0 0 0 -4", b"24 Sltu 1 2 3 0", b"",
    b"0 Xor 1 2 3 0", b"0 Lui 32 0 0 1", b"0 Slli 1 1 0 -1", b"0 Lui 0 0 0 1", b"0 Jalr 0 1 0 4",
] + compare.PROBES + [b"0 Mulw 1 2 3 0"] * 30  # fmt: skip

# A name, and a pattern that is replaced where it first stands.
ALTERED = [
    ("an operand", r"write 3 55 (\d+) 25", r"write 3 55 \1 26"),
    ("operands swapped", r"ult 1 28 29", r"ult 1 29 28"),
    ("an operator", r" srl ", r" sll "),
    ("a constant", r"constd 2 4096", r"constd 2 4095"),
    ("a sort", r"ite 3 58", r"ite 2 58"),
    ("an identifier", r"\n60 ", r"\n61 "),
    ("the flow not replaced", r"ite 2 58 63 60", r"ite 2 58 63 28"),
    ("the flow's branches swapped", r"ite 2 58 59 28", r"ite 2 58 28 59"),
    ("padding of uext", r"uext 2 (\d+) 63", r"uext 2 \1 64"),
    ("a node line missing", r"\n60 [^\n]*", r""),
    ("a node line twice", r"(\n60 [^\n]*)", r"\1\1"),
    ("an edge's target", r"in 65540 from", r"in 65541 from"),
    ("an edge's source", r"from 65536 regular", r"from 65540 regular"),
    ("an edge's kind", r"syscall -", r"regular -"),
    ("an edge's condition", r"branch 61", r"branch 62"),
    ("a branch's edges swapped", r"(; in 65536 from 65540 branch 61\n)(; in 65544 from 65540 branch 62\n)", r"\2\1"),
    ("an edge missing", r"; in 65536 from 65540[^\n]*\n", r""),
    ("an edge before the node lines", r"(60 ite[^\n]*\n)(; in 65540[^\n]*\n)", r"\2\1"),
    ("a dispatch's register", r"dyn 31 8", r"dyn 30 8"),
    ("a dispatch's address", r"dyn 31 8", r"dyn 31 4"),
    ("a dispatch missing", r"; dyn 31 8\n", r""),
    ("a bad line's name", r"unimplemented-pc-abcd", r"unimplemented-pc-ABCD"),
    ("a bad line's name with riscu's text", r"unimplemented-pc-abcd", r"unimplemented-pc-abcd ; Jalr"),
    ("a refused line's place", r"refused 3 4", r"refused 2 4"),
    *((f"refusal {n}", rf"(refused \d+) {n}\n", rf"\1 {(n + 1) % 9}\n") for n in (0, 1, 2, 3, 4, 5, 6, 8)),
    ("a refusal with lines", r"(; refused 3 4\n)", r"63 constd 2 0\n\1"),
    ("a full list that takes more", r"; refused \d+ 8\n\Z", r"1044 constd 2 32\n"),
    ("carriage returns", r"\n", r"\r\n"),
    ("two spaces", r"constd 2 ", r"constd 2  "),
    ("no last newline", r"\n\Z", r""),
    ("an empty line after it", r"\Z", r"\n"),
    ("nothing", r"(?s).*", r""),
]  # fmt: skip


# From the start apart: the role that stands where another should, by their places, and what else the numbers show.
APART_LINES = [(0, "Sd", 0, 0, 1, 0), (4, "Ld", 1, 0, 0, 8), (8, "Mul", 1, 2, 0, 0), (12, "Jalr", 0, 0, 0, 8), (16, "Jalr", 0, 5, 0, 0), (20, "Beq", 0, 0, 1, 8)]


def apart_alterations(right):
    roles = lowering_cases.apart().roles
    zero, x0 = roles[2], roles[7]
    yield "zero for x0", re.sub(rf"( 14 2 2) {x0} ", rf"\1 {zero} ", right, count=1)
    yield "x0 for zero", re.sub(rf" {zero} (\d+ 0 \d+) {zero}( 1 \d+)\n", rf" {x0} \1 {x0}\2\n", right, count=1)
    yield "x0 for zero, one field", re.sub(rf" {zero}( 1 \d+)\n", rf" {x0}\1\n", right, count=1)
    yield "another address", re.sub(r" 1 4\n", r" 1 0\n", right, count=1)
    yield "no address", re.sub(r" 1 0\n", r" 0 0\n", right, count=1)
    yield "a flow", re.sub(r"(flows \d+) ", r"\1 1", right, count=1)
    yield "a count", re.sub(r"counts (\d+)", r"counts 1\1", right, count=1)
    yield "an identifier", re.sub(r"\A\d+", "1", right)
    yield "a dispatch", right.replace("dyn 5 16", "dyn 5 17")
    yield "a bad", re.sub(r"bad (\d+)", r"bad 1\1", right, count=1)
    yield "a bad's name", right.replace("unimplemented-pc-c", "unimplemented-pc-d")
    yield "an edge's condition", re.sub(r"(edge 28 20 1) ", r"\1 1", right, count=1)
    yield "nothing", ""


def program(folder, text, status=0, name="listing"):
    path, out = folder / name, folder / f"{name}.out"
    out.write_text(text, newline="")
    path.write_text(f"#!/bin/sh\ncat >/dev/null\ncat {out}\nexit {status}\n")
    path.chmod(0o755)
    return path


#
# Given firmware
#

FULL_RUN = [f"{4 * n} Mulw 5 6 7 0".encode() for n in range(28)]  # 980 lines of the 985
FIRMWARE = FULL_RUN + [b"112 Ecall 0 0 0 0"] * 5 + [b"116 Ecall 0 0 0 0"] + FULL_RUN + [
    b"200 Addi 1 1 0 1", b"204 Addi 0 0 0 0", b"208 Xor 1 2 3 0", b"212 Lui 32 0 0 1", b"216 Slli 1 1 0 64", b"220 Srliw 1 1 0 0",
    b"224 Lui 0 0 0 1", b"228 Jalr 0 1 0 4", b"232 Compressed 0 0 0 0", b"234 Compressed 0 0 0 0", b"236 Unknown 0 0 0 0", b"240 Beq 0 1 2 8",
    b"244 Jalr 0 0 0 8", b"no line", b"248 Jalr 0 1 0 0",
]  # fmt: skip
RUNS = [33, 29, 15]  # full to the last line; one that Addi's 12 lines don't fit any more
ACCOUNT = """\
in a test: 77 instructions in 3 runs
compared: 1981 node lines, 66 edges, 1 dispatch
accepted 67: Mulw 56, Ecall 6, Addi 2, Jalr 2, Beq 1
refused 10:
  1 with 0, over 256 bytes, or not six fields parted by one space each: no instruction 1
  1 with 1, the kind is not among the fifty: Xor 1
  1 with 2, a register that the kind uses is above 31, or imm is outside its format: Lui 1
  1 with 3, a shift by more bits than the kind shifts, or by fewer than 0: Slli 1
  1 with 4, Srliw by 0: Srliw 1
  1 with 5, rd is x0, for a kind that writes rd and is not Addi, Jal or Jalr: Lui 1
  1 with 6, Jalr with a register other than x0 and an offset other than 0: Jalr 1
    address 208 (0xd0), Xor 1 2 3 0: 1, the kind is not among the fifty
    address 212 (0xd4), Lui 32 0 0 1: 2, a register that the kind uses is above 31, or imm is outside its format
    address 216 (0xd8), Slli 1 1 0 64: 3, a shift by more bits than the kind shifts, or by fewer than 0
    address 220 (0xdc), Srliw 1 1 0 0: 4, Srliw by 0
    address 224 (0xe0), Lui 0 0 0 1: 5, rd is x0, for a kind that writes rd and is not Addi, Jal or Jalr
    address 228 (0xe4), Jalr 0 1 0 4: 6, Jalr with a register other than x0 and an offset other than 0
    the line b'no line': 0, over 256 bytes, or not six fields parted by one space each
"""

# What a stand-in does to the second run, in which the first line is at address 116, and what the difference must say of it.
WRONG_RUNS = [
    ("a line dropped", "lines.pop(0)", "address 116 (0x74), Ecall 0 0 0 0: expected '59 ite"),
    ("a byte changed", "lines[-1] = lines[-1].replace('regular', 'regulaR')", "address 108 (0x6c), Mulw 5 6 7 0: expected '; in 112"),
    ("an early stop", "del lines[40:]", "address 4 (0x4), Mulw 5 6 7 0: expected "),
    ("a line too many", "lines.append('; dyn 1 8')", "after the last expected line: "),
    ("an exit status", "status = 3", "exit status 3"),
    ("a signal", "os.kill(os.getpid(), 9)", "address 116 (0x74), Ecall 0 0 0 0: expected '59 ite"),
]


def stand_in(folder, alteration="pass"):
    """A listing that answers as compare.py expects, apart from an alteration of the second run of FIRMWARE."""
    path = folder / "stand-in"
    path.write_text(f"""#!{sys.executable}
import collections, os, sys
sys.path.insert(0, {str(compare.HERE)!r})
import compare
given = sys.stdin.buffer.read().removesuffix(b"\\n").split(b"\\n")
blocks = compare.expected(given, compare.Oracle({str(compare.HERE / "target" / "oracle")!r}), collections.Counter())
lines, status = [text for block in blocks for text in block], 0
if given[0].startswith(b"116 "):
    {alteration}
sys.stdout.write("".join(line + "\\n" for line in lines))
sys.stdout.flush()
os._exit(status)
""")
    path.chmod(0o755)
    return path


def given(folder, content, name="in-a-test"):
    path = folder / name
    path.write_bytes(content)
    one = firmware.Firmware(str(path))
    one.name = name.replace("-", " ")
    return one


def on_firmware(listing, oracle, ones, kept, show_all=False):
    out = io.StringIO()
    with contextlib.redirect_stdout(out):
        status = compare.on_firmware(listing, oracle, ones, show_all, kept)
    return status, out.getvalue()


def run_tests():
    """The runs are the lines, in order, none is refused with 8, and none could have been longer."""
    rng_lines = [generate.any_line(generate.random.Random(n)) for n in range(4000)]
    for name, lines in ("firmware", FIRMWARE), ("mixed", rng_lines), ("refused", [b"0 Xor 1 2 3 0"] * 25_000), ("none", []):
        found = list(firmware.runs(lines))
        yield f"runs, {name}: the lines", [line for run, _ in found for line in run] == lines, None
        yield f"runs, {name}: none with 8", all(8 not in numbers for _, numbers in found), None
        tight = (after[0] for (_, _), (after, _) in zip(found, found[1:]))
        room = (refusal.left_after(run) for run, _ in found)
        full = all(needs(line) > left or len(run) == firmware.IN_A_RUN for line, left, (run, _) in zip(tight, room, found))
        yield f"runs, {name}: as long as they can be", full, None
    yield "runs, their lengths", [len(run) for run, _ in firmware.runs(FIRMWARE)] == RUNS, [len(run) for run, _ in firmware.runs(FIRMWARE)]


def needs(line):
    record = refusal.fields(line)
    return refusal.appended(record[1], record[2], record[3], record[5]) if record and not refusal.refusal(*record[1:]) else 0


def firmware_tests(folder, oracle):
    kept = folder / "kept"
    content = b"\n".join(FIRMWARE)
    apart = f"  Compressed 2: {firmware.APART['Compressed']}\n  Unknown 1: {firmware.APART['Unknown']}\n"
    done = on_firmware(stand_in(folder), oracle, [given(folder, content)], kept)
    yield "firmware, right", done == (0, ACCOUNT + apart + "no difference\n"), done
    yield "firmware, nothing kept", not kept.exists(), None
    for name, alteration, words in WRONG_RUNS:
        status, out = on_firmware(stand_in(folder, alteration), oracle, [given(folder, content)], kept)
        file = kept / "firmware-1-in-a-test-run-2.txt"
        good = status == 1 and words in out and out.endswith("1 difference, one for each run that differs, of 3 runs\n")
        good = good and file.read_bytes().splitlines() == FIRMWARE[33:62]
        yield f"firmware, {name}", good, (status, out)
        file.unlink(missing_ok=True)
    status, out = on_firmware(program(folder, ""), oracle, [given(folder, b"\n".join(FULL_RUN * 30))], kept)
    good = status == 1 and out.count(": address") == compare.SHOWN and "30 differences, one for each run that differs, of 30 runs\n" in out
    yield "firmware, more differences than are shown", good, (status, out)
    many = b"\n".join(b"%d Xor 1 2 3 0" % n for n in range(50))
    refused = "".join(f"; refused {n} 1\n" for n in range(1, 51))
    for show_all, shown in (False, firmware.SHOWN), (True, 50):
        status, out = on_firmware(program(folder, refused), oracle, [given(folder, many)], kept, show_all)
        good = status == 0 and out.count(": 1, the kind") == shown and ("and 30 more" in out) != show_all
        yield f"firmware, {shown} refusals shown", good, (status, out)
    file = folder / "no folder"
    file.write_bytes(b"")
    status, out = on_firmware(program(folder, ""), oracle, [given(folder, b"0 Ecall 0 0 0 0")], file)
    yield "firmware, a difference that can't be kept", status == 1 and "not kept" in out, (status, out)


def command(arguments, env=None, **words):
    """The command's exit status, what it wrote and what it said."""
    words = {"stdin": subprocess.DEVNULL, "stdout": subprocess.PIPE} | words
    run = [sys.executable, compare.HERE / "compare.py", *arguments]
    done = subprocess.run(run, env={**os.environ, **(env or {})}, stderr=subprocess.PIPE, **words)
    return done.returncode, (done.stdout or b"").decode(), done.stderr.decode()


def sentence(done):
    """Whether the command could not be run, and said so in one sentence."""
    status, out, said = done
    return status == 2 and out == "" and said.startswith("compare.py: ") and said.count("\n") == 1


def bad_call_tests(folder):
    """What is found before anything is built."""
    lines, image = folder / "lines.txt", folder / "image.bin"
    lines.write_bytes(b"0 Ecall 0 0 0 0\n")
    image.write_bytes(bytes.fromhex("730000006f000000"))
    code = (1, 6, 65536, image.read_bytes())
    whole = firmware_lines_test.elf([code])
    files = {
        "missing": None, "empty": b"", "an image": image.read_bytes(), "an ELF file without code": firmware_lines_test.elf([(1, 3, 0, b"data")]),
        "an ELF file of 32 bits": firmware_lines_test.elf([code], begin=b"\x7fELF\x01\x01\x01"), "an ELF file that is cut": whole[:100],
        "another machine": firmware_lines_test.elf([code], machine=62), "not linked": firmware_lines_test.elf([code], kind=1),
        "an offset of 2^64 - 1": whole[:40] + b"\xff" * 8 + whole[48:], "rows of another size": whole[:58] + b"\x41\0" + whole[60:],
    }  # fmt: skip
    for name, content in files.items():
        path = folder / "file"
        path.unlink(missing_ok=True)
        if content is not None:
            path.write_bytes(content)
        done = command([path])
        yield f"file, {name}", sentence(done), done
    for name, arguments in {
        "a directory": [folder], "one good file and a missing one": [lines, folder / "missing"], "an unknown option": [lines, "--zz"],
        "--seeds with firmware": [lines, "--seeds", "1", "1"], "--lines with firmware": [lines, "--lines", "1"],
        "--cases with firmware": [lines, "--cases", lines], "--raw without firmware": ["--raw", "--base", "0"],
        "--all-refused without firmware": ["--all-refused"], "--raw without --base": [image, "--raw"], "--base without --raw": [image, "--base", "0"],
        "--base zz": [image, "--raw", "--base", "zz"], "--base -1": [image, "--raw", "--base", "-1"], "--base 2^64": [image, "--raw", "--base", str(2**64)],
        "an image past memory": [image, "--raw", "--base", str(2**64 - 4)], "--seeds x": ["--seeds", "x", "1"], "--seeds alone": ["--seeds", "1"],
        "--lines -1": ["--lines", "-1"], "--listing of no program": [lines, "--listing", lines], "--listing of a folder": [lines, "--listing", folder],
        "no listing": [lines, "--listing", folder / "missing"], "an option cut short": [lines, "--listin", lines],
    }.items():  # fmt: skip
        done = command(arguments)
        yield f"call, {name}", sentence(done), done
    done = command(["-"], stdin=None, preexec_fn=lambda: os.close(0))
    yield "call, standard input that is closed", sentence(done), done
    done = command(["--help"])
    yield "call, --help", done[0] == 0 and "FIRMWARE" in done[1] and not done[2], done
    with open("/dev/full", "wb") as full:
        done = command(["--help"], stdout=full)
    yield "call, --help on a full device", sentence(done), done


def good_call_tests(folder):
    """The command as a whole, with the oracle built."""
    listing = ["--listing", stand_in(folder)]
    done = command(["-", *listing], stdin=None, input=b"0 Ecall 0 0 0 0\r\n4 Ecall 0 0 0 0")
    yield "call, CR LF on standard input", done[0] == 0 and "CR LF" in done[2] and "1 with 0" in done[1] and done[1].endswith("no difference\n"), done
    samples = compare.HERE.parent / "samples"
    done = command([samples / "separators.elf", *listing])
    good = done[0] == 0 and "360 instructions in 4 runs\n" in done[1] and "Xor 9, Fence 1\n" in done[1] and done[1].endswith("no difference\n")
    yield "call, the separator scan", good, done
    done = command([samples / "firmware.bin", "--raw", "--base", "0x10000", *listing])
    yield "call, an image", done[0] == 0 and ": 51 instructions in 1 run\n" in done[1], done
    with open("/dev/full", "wb") as full:
        done = command([samples / "firmware.txt", *listing], stdout=full)
    yield "call, a full device", sentence(done), done
    closed, into = os.pipe()
    os.close(closed)
    done = command([samples / "firmware.txt", *listing], stdout=into)
    os.close(into)
    yield "call, a pipe without a reader", sentence(done), done
    done = command([samples / "firmware.txt", *listing], stdout=None, preexec_fn=lambda: os.close(1))
    yield "call, a closed output", sentence(done), done


def main():
    oracle = compare.Oracle(compare.HERE / "target" / "oracle")
    right = "".join(text + "\n" for block in compare.expected(LINES, oracle, collections.Counter()) for text in block)
    refused_all = "".join(f"; refused {n} 8\n" for n in range(1, len(LINES) + 1))
    cases = [("right", right, 0, False), ("an exit status", right, 1, True), ("refuses all", refused_all, 0, True)]
    for name, pattern, replacement in ALTERED:
        altered = re.sub(pattern, replacement, right, count=1)
        assert altered != right, name
        cases.append((name, altered, 0, True))
    right_apart = "".join(text + "\n" for _, answer in lowering_cases.from_apart(APART_LINES) for text in answer)
    apart = [("right", right_apart, False)]
    for name, altered in apart_alterations(right_apart):
        assert altered != right_apart, name
        apart.append((name, altered, True))
    of_grammar = [line for text in ("65536 Addi 5 6 7 2", "0 Xor 0 0 0 -1") for line in generate.malformed_bytes(text) if refusal.fields(line)]
    results = [("malformed lines are", not of_grammar, of_grammar)]
    with tempfile.TemporaryDirectory() as folder:
        folder = pathlib.Path(folder)
        for name, text, status, wrong in cases:
            found = compare.compare(
                program(folder, text, status), oracle, "selftest", LINES, True, collections.Counter(), compare.whole, kept=folder
            )
            results.append((name, bool(found) == wrong, found))
        for name, text, wrong in apart:
            found = compare.compare_apart(program(folder, text), "selftest apart", APART_LINES, collections.Counter(), kept=folder)
            results.append((f"apart, {name}", bool(found) == wrong, found))
        # The command itself: its exit status with a wrong listing, without one, and without rustc (a path on which build.sh finds no more).
        (folder / "path").mkdir()
        (folder / "path" / "dirname").symlink_to(shutil.which("dirname"))
        for name, path, listing, status in (
            ("command, wrong listing", os.environ["PATH"], program(folder, refused_all), 1),
            ("command, no listing", os.environ["PATH"], folder / "missing", 2),
            ("command, no rustc", str(folder / "path"), program(folder, right), 2),
        ):
            done = command(["--listing", listing, "--cases", program(folder, "", name="cases"), "--seeds", "1", "1"], {"PATH": path})
            results.append((name, done[0] == status and "Traceback" not in done[2], done))
        results += run_tests()
        results += firmware_tests(folder, oracle)
        results += bad_call_tests(folder)
        results += good_call_tests(folder)
    for name, good, found in results:
        if not good:
            print(f"{name}: {found}")
    failed = sum(not good for _, good, _ in results)
    print(f"{len(results) - failed} passed, {failed} failed")
    return failed != 0


if __name__ == "__main__":
    sys.exit(main())
