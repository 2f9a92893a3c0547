#!/usr/bin/env python3
"""selftest.py [ORACLE]: tries the oracle on what document 01 states. The last line says how many tests passed."""
import os
import subprocess
import sys

HERE = os.path.dirname(os.path.abspath(__file__))
ORACLE = sys.argv[1] if len(sys.argv) > 1 else os.path.join(HERE, "target", "oracle")
passed = failed = 0


def run(lines, *flags):
    text = "".join(line + "\n" for line in lines)
    done = subprocess.run([ORACLE, *flags], input=text, capture_output=True, text=True, check=True)
    return done.stdout.splitlines()


def blocks(lines):
    """The output line by line of input: an empty input line, answered `; malformed`, parts them."""
    out = [[]]
    for line in run([part for line in lines for part in (line, "")]):
        if line == "; malformed":
            out.append([])
        else:
            out[-1].append(line)
    return out[:-1]


def test(name, got, wanted):
    global passed, failed
    if got == wanted:
        passed += 1
    else:
        failed += 1
        print(f"{name}\n  got    {got}\n  wanted {wanted}")


test("the example of document 01", run(["65536 Lui 5 0 0 1", "65540 Bltu 0 5 6 -4", "65544 Srliw 5 5 0 0"]), [
    "59 constd 2 4096", "60 ite 2 58 59 28", "; in 65540 from 65536 regular -", "61 ult 1 28 29", "62 not 1 61",
    "; in 65536 from 65540 branch 61", "; in 65544 from 65540 branch 62", "; panic"])

# "Lines appended", with imm 4 and with imm 0 (Srliw by 0 panics).
SAME = {2: "Lui Auipc And", 3: "Andi Slli Srli Sltu Div Divu Remu", 4: "Sltiu Sll Srl", 5: "Or", 6: "Ori", 7: "Srai",
        8: "Xori Sra", 9: "Slliw Sraiw", 10: "Addiw", 11: "Add Sub Sllw", 15: "Divw", 16: "Mul", 18: "Addw Subw",
        35: "Mulw"}
ADDRESS = {13: "Lbu Lhu", 17: "Lb Lh Lw", 10: "Ld", 27: "Sb Sh Sw", 5: "Sd"}
NO_RD = {2: "Beq Bltu", 3: "Bne Bgeu", 5: "Blt", 6: "Bge", 1: "Ecall"}
cases = []  # (kind, rd, rs1, imm, lines), None for a panic
for table, imm_adds in ((SAME, 0), (ADDRESS, 2), (NO_RD, 0)):
    for count, kinds in table.items():
        for kind in kinds.split():
            cases += [(kind, 5, 6, 4, count + imm_adds), (kind, 5, 6, 0, count)]
            no_panic = table is NO_RD or kind in "Sb Sh Sw Sd".split()
            cases.append((kind, 0, 6, 4, count + imm_adds if no_panic else None))
cases += [("Srliw", 5, 6, 4, 5), ("Srliw", 5, 6, 0, None), ("Srliw", 0, 6, 0, None),
          ("Addi", 5, 6, 4, 12), ("Addi", 5, 0, 4, 12), ("Addi", 5, 6, 0, 11), ("Addi", 5, 0, 0, 11),
          ("Addi", 0, 6, 4, 0), ("Addi", 0, 6, 0, 0), ("Jal", 5, 6, 4, 2), ("Jal", 5, 6, 0, 2), ("Jal", 0, 6, 4, 0),
          ("Jalr", 5, 6, 0, 2), ("Jalr", 0, 6, 0, 0), ("Jalr", 5, 0, 0, 3), ("Jalr", 0, 0, 0, 1), ("Jalr", 5, 0, 8, 3),
          ("Jalr", 0, 0, 8, 1), ("Jalr", 5, 6, 4, None), ("Jalr", 0, 6, 4, None)]
for kind, rd, rs1, imm, count in cases:
    out = run([f"65536 {kind} {rd} {rs1} 7 {imm}"])
    got = None if out == ["; panic"] else sum(not line.startswith(";") for line in out)
    test(f"lines of {kind} rd {rd} rs1 {rs1} imm {imm}", got, count)
test("kinds counted", len({case[0] for case in cases}), 50)

# The start, seen through operands: x0 to x31, memory, counter, counter-max, one, zero, flag.
for r in range(32):
    test(f"x{r}", run([f"0 Beq 0 {r} {r} 8"])[0], "59 eq 1 {0} {0}".format(23 + r if r else 22))
    if r:
        test(f"flow of x{r}", run([f"0 Lui {r} 0 0 1"])[1], f"60 ite 2 58 59 {23 + r}")
        test(f"dispatch x{r}", run([f"8 Jalr 0 {r} 0 0"]), [f"; dyn {r} 8"])
test("Ld", run(["0 Ld 1 2 0 0"])[:10], [
    "59 ite 2 58 25 22", "60 read 2 56 25", "61 add 2 60 23", "62 ult 1 57 61", "63 ite 2 62 61 57", "64 ite 2 58 63 57",
    "65 write 3 56 25 61", "66 ite 3 58 65 56", "67 read 2 55 25", "68 ite 2 58 67 24"])
test("Sd", run(["0 Sd 0 2 3 0"])[:5], [
    "59 ite 2 58 25 22", "60 write 3 56 25 22", "61 ite 3 58 60 56", "62 write 3 55 25 26", "63 ite 3 58 62 55"])
test("flows of the start", run([], "--flows"), ["; flows " + " ".join(
    [str(n) for n in range(24, 58)] + "23 23 22 20 20 20".split())])

# The starts as they are shown, and the one in which nothing coincides.
*shown, roles, flag = run([], "--start")
test("the listing's start", (len(shown), shown[0], shown[-1], flag), (39, "20 constd 1 0", "58 state 1 flag", "; flag 58"))
test("its roles", roles, "; roles " + " ".join(map(str, [20, 21, 22, 23, 55, 56, 57, 22, *range(24, 55), *range(24, 58), 23, 23, 22, 20, 20, 20])))
*shown, roles, flag = run([], "--apart", "--start")
nids = [int(nid) for nid in roles.split()[2:]]
sorts = {int(line.split()[0]): line.split()[2] for line in shown if line.split()[1] in ("state", "constd")}
test("79 roles, no two one line", (len(nids), len(set(nids))), (79, 79))
test("their sorts", [sorts[nid] for nid in nids], list("1122332") + ["2"] * 63 + list("332222111"))
test("identifiers of the start apart", [int(line.split()[0]) for line in shown], list(range(20, 20 + len(shown))))
test("states with an init", (shown[2], sum(line.split()[1] == "init" for line in shown)), ("22 init 2 21 20", 24))
test("flows of the start apart", run([], "--apart", "--flows"), ["; flows " + " ".join(map(str, nids[39:]))])
zero, one, memory, counter, maximum, x0, x1, x2 = nids[2:9] + nids[9:10]
new = len(shown) + 20
test("Sd from x0 on it", run(["0 Sd 0 0 1 0"], "--apart")[:5], [
    f"{new} ite 2 {flag[7:]} {x0} {nids[75]}", f"{new + 1} write 3 {counter} {x0} {zero}", f"{new + 2} ite 3 {flag[7:]} {new + 1} {nids[71]}",
    f"{new + 3} write 3 {memory} {x0} {x1}", f"{new + 4} ite 3 {flag[7:]} {new + 3} {nids[70]}"])
test("flows after each line", run(["0 Lui 1 0 0 1", "", "0 Lui 1 0 0 1"], "--apart", "--each")[3::2], [
    "; flows " + " ".join(map(str, [new + 1, *nids[40:]])), "; flows " + " ".join(map(str, [new + 1, *nids[40:]])),
    f"{new + 3} ite 2 {flag[7:]} {new + 2} {new + 1}", "; flows " + " ".join(map(str, [new + 3, *nids[40:]]))])

# Bench cases.
test("Slli 63", len(run(["0 Slli 1 1 0 63"])), 4)
test("Slli 64", run(["0 Slli 1 1 0 64"]), ["; panic"])
test("Srliw 31", len(run(["0 Srliw 1 1 0 31"])), 6)
test("Srliw 32", run(["0 Srliw 1 1 0 32"]), ["; panic"])
test("Addi x0", run(["0 Addi 0 1 0 5"]), ["; in 4 from 0 regular -"])
test("Auipc", run(["65536 Auipc 1 0 0 1048575"])[0], "59 constd 2 61440")
test("Auipc past 2^64", run(["18446744073709551612 Auipc 1 0 0 1"])[0], "59 constd 2 4092")
test("Lui", run(["0 Lui 1 0 0 524288"])[0], "59 constd 2 18446744071562067968")
test("Jal", run(["18446744073709551612 Jal 0 0 0 4"]), ["; in 0 from 18446744073709551612 regular -"])
test("Bgeu 4", run(["0 Bgeu 0 1 2 4"]), [
    "59 ult 1 24 25", "60 not 1 59", "61 not 1 60", "; in 4 from 0 branch 60", "; in 4 from 0 branch 61"])
test("Beq back", run(["0 Beq 0 1 2 -4096"])[2:], [
    "; in 18446744073709547520 from 0 branch 59", "; in 4 from 0 branch 60"])
test("Ecall", run(["0 Ecall 255 255 255 -1"]), ["59 ite 1 58 21 20", "; in 4 from 0 syscall -"])
test("Jalr x0, x0", run(["43981 Jalr 0 0 0 8"]), ["59 bad 58 unimplemented-pc-abcd"])
for kind in "Lwu Xor Slt Fence addi".split():
    test(kind, run([f"0 {kind} 255 1 1 9999"]), ["; panic"])
test("negative amount, lowered by the Rust", run(["0 Slli 1 1 0 -1"])[0], "59 constd 2 18446744073709551615")
for line in ["0 Add 32 1 1 0", "0 Add 1 255 1 0", "0 Add 1 1 32 0", "0 Addi 0 32 0 0", "0 Addi 1 1 0 2048",
             "0 Sd 0 1 1 -2049", "0 Beq 0 1 1 3", "0 Beq 0 1 1 4096", "0 Jal 1 0 0 1048576", "0 Lui 1 0 0 -1",
             "0 Lui 1 0 0 1048576"]:
    test(line, run([line]), ["; unencodable"])
for line in ["", "0", "0 Add 1 1 1", "0 Add 1 1 1 0 ", " 0 Add 1 1 1 0", "0  Add 1 1 1 0", "00 Add 1 1 1 0",
             "18446744073709551616 Add 1 1 1 0", "0 Add1 1 1 1 0", "0 Add 256 1 1 0", "0 Add 01 1 1 0", "0 Add -1 1 1 0",
             "0 Addi 1 1 1 -0", "0 Addi 1 1 1 +1", "0 Addi 1 1 1 01", "0 Addi 1 1 1 2147483648", "0 Addi 1 1 1 -2147483649",
             "0 Addi 1 1 1 4\r", "0 " + "A" * 247 + " 1 1 1 0", "0 Addi 1 1 1 " + "9" * 60]:
    test(f"malformed {line[:40]!r}", run([line]), ["; malformed"])
test("256 bytes", run(["0 " + "A" * 246 + " 1 1 1 0"]), ["; panic"])
test("no last newline", subprocess.run([ORACLE], input=b"0 Lui 1 0 0 1", capture_output=True).stdout,
     b"59 constd 2 4096\n60 ite 2 58 59 24\n; in 4 from 0 regular -\n")

# A node of each kind, from its record.
NODES = ["20 1 1 0 0 0 1 -", "21 1 2 0 0 0 18446744073709551615 -", "22 19 3 0 0 0 0 =memory", "23 2 0 2 1 0 0 -", "24 3 0 2 1 3 0 -"]
NODES += [f"{21 + kind} {kind} 0 1 3 0 0 -" for kind in range(4, 12)] + ["33 12 0 1 3 0 0 -", "34 13 11 1 0 0 0 -", "35 14 2 0 1 3 0 -"]
NODES += ["36 15 0 1 3 0 0 -", "37 16 1 0 0 0 0 -", "38 17 2 1 3 0 0 -", "39 18 1 0 0 0 0 -", "40 19 2 1 0 0 1 -", "42 19 17 0 0 0 0 =",
          "43 20 2 20 3 0 0 -", "44 21 12 0 0 0 0 =two bytes", "45 22 0 0 0 0 0 -", "46 22 0 0 0 0 0 =b"]
TEXT = ["20 constd 1 1", "21 constd 2 18446744073709551615", "22 state 3 memory", "23 read 2 22 21", "24 write 3 22 21 23"]
TEXT += [f"{25 + n} {word} 2 21 23" for n, word in enumerate("add sub mul udiv sdiv urem sll srl".split())]
TEXT += ["33 ult 1 21 23", "34 uext 2 21 56", "35 ite 2 20 21 23", "36 eq 1 21 23", "37 and 1 20 20", "38 or 2 21 23", "39 not 1 20",
         "40 state 2 ?", "41 init 2 40 21", "42 state 17 ", "43 next 2 40 23", "44 input 12 two bytes", "45 bad 20 ?", "46 bad 20 b"]
test("nodes", run(NODES, "--nodes", "0", str(len(NODES))), TEXT)
test("a run of nodes", run(NODES, "--nodes", "19", "3"), TEXT[19:23])
test("no nodes", run(NODES, "--nodes", "25", "0"), [])

# Joins: the Rust's control_flow_from_* functions, by the commands of joins.rs. On the listing's start 0 and 1 are the places of the bits, 2 and 3
# those of the words, 38 is the flag's, and 39 to 41 are Bit states that stand after it.
FLAGS = [f"node {59 + n} 19 1 0 0 0 0 =" for n in range(3)]
FLAGS += ["cut 42 62", "kernel 39 40", "dynamics " + " ".join(["38"] * 30 + ["41"]), "flags 8 38 12 39 8 40 16 0"]


def joins(*lines):
    return run([*FLAGS, *lines], "--join")


test("an empty join", joins("join 41"), ["; sequentials", "; flow 61", "; next 62"])
test("a regular edge for the zero bit", joins("join 0 edge 8 regular -"), ["; sequentials", "; flow 58", "; next 62"])
test("a regular edge", joins("join 1 edge 8 regular -"), ["62 ite 1 58 21 21", "; sequentials", "; flow 62", "; next 63"])
test("a branch", joins("join 0 edge 12 branch 41"), ["62 and 1 59 61", "; sequentials", "; flow 62", "; next 63"])
test("a syscall", joins("join 41 edge 12 syscall -"), [
    "62 state 1 kernel-mode-pc-flag-12", "63 init 1 62 20", "64 ite 1 62 59 59", "65 next 1 62 64", "66 and 1 62 60", "67 ite 1 66 21 61",
    "; sequentials 65", "; flow 67", "; next 68"])
test("a dispatch", joins("join 41 dispatch 31 2"), [
    "62 eq 1 54 22", "63 and 1 61 62", "64 ite 1 63 21 61", "; sequentials", "; flow 64", "; next 65"])
test("the first flag counts", joins("flags 8 41 8 38", "join 0 edge 8 regular -")[1], "; flow 61")
test("the zero bit's own line, on the way", joins("join 0 edge 16 regular - edge 8 regular - edge 12 regular -")[:1], ["62 ite 1 59 21 58"])
another_zero = ["node 62 1 1 0 0 0 0 -", "cut 43 63", "flags 4 42 8 38"]
test("another line of value 0", joins(*another_zero, "join 0 edge 4 regular - edge 8 regular -")[:1], ["63 ite 1 58 21 62"])
test("edges, then dispatches", joins("join 0 dispatch 1 2 edge 8 regular -")[-4:-3], ["64 ite 1 63 21 58"])
test("equal sources", [line for line in joins("join 0 edge 8 syscall - edge 8 syscall -") if "state" in line or line[0] == ";"], [
    "62 state 1 kernel-mode-pc-flag-8", "67 state 1 kernel-mode-pc-flag-8", "; sequentials 65 70", "; flow 72", "; next 73"])
test("the flow of a join in the next", joins("join 1 edge 8 regular -", "join 42 edge 12 branch 42")[-5:-3], ["63 and 1 59 62", "64 ite 1 63 21 62"])
test("lines cut off", joins("join 1 edge 8 regular -", "cut 42 62", "join 1 edge 12 regular -")[-4], "62 ite 1 59 21 21")
top = 2**64 - 1
test("the largest address", joins(f"flags {top} 38", f"join 0 edge {top} syscall -")[0], f"62 state 1 kernel-mode-pc-flag-{top}")
test("another zero bit and register", joins("role 0 41", "role 8 2", "join 41 edge 8 regular - dispatch 1 3")[0], "62 eq 1 22 23")
PANICS = {"a source without a flag": "edge 4 regular -", "a branch without a condition": "edge 8 branch -", "a dispatch of x0": "dispatch 0 2"}
for name, words in PANICS.items():
    test(f"{name} panics, and leaves no trace", joins(f"join 1 edge 8 syscall - {words}", "join 1 edge 8 regular -"), [
        "; panic", "62 ite 1 58 21 21", "; sequentials", "; flow 62", "; next 63"])
# The start apart ends with the one bit, at 80, and the zero bit, at 81; its flag stands at 2.
one, zero = new - 2, new - 1
test("bits of the start apart", nids[:2], [zero, one])
test("the zero bit of the start apart", run(["flags 8 2", "join 81 edge 8 regular -", "join 80 edge 8 regular -"], "--apart", "--join"), [
    "; sequentials", f"; flow {flag[7:]}", f"; next {new}",
    f"{new} ite 1 {flag[7:]} {one} {one}", "; sequentials", f"; flow {new}", f"; next {new + 1}"])
for line in ["", "join", "join 42", "join 0 edge 8", "join 0 edge 8 other -", "join 0 dispatch 32 2", "join 0 dispatch 1 99", "role 2 0",
             "role 0", "kernel 0", "kernel 0 1 2", "flags 8", "cut 43 62", "node 62", "else 0"]:
    done = subprocess.run([ORACLE, "--join"], input="".join(text + "\n" for text in [*FLAGS, line]), capture_output=True, text=True)
    test(f"no command: {line!r}", (done.returncode, done.stdout, done.stderr), (2, "", f"oracle: no command: {line}\n"))

# Generated lines: identifiers rise by one, and a refused line leaves no trace.
for seed in range(1, 6):
    more = [] if seed < 5 else ["--negative-amounts"]
    lines = subprocess.run([sys.executable, os.path.join(HERE, "generate.py"), str(seed), "1000", *more],
                           capture_output=True, text=True, check=True).stdout.splitlines()
    out = run(lines, "--flows")
    refused = ("; panic", "; unencodable")
    each = blocks(lines)
    test(f"seed {seed}, blocks", [line for block in each for line in block], out[:-1])
    test(f"seed {seed}, a refusal stands alone", [b for b in each if set(b) & set(refused) and len(b) > 1], [])
    numbers = [int(line.split()[0]) for line in out if not line.startswith(";")]
    test(f"seed {seed}, identifiers", numbers, list(range(59, 59 + len(numbers))))
    kept = [line for line, block in zip(lines, each) if block[0] not in refused]
    test(f"seed {seed}, without the refused lines", run(kept, "--flows"), [line for line in out if line not in refused])
    test(f"seed {seed}, kinds accepted", len({line.split()[1] for line in kept}), 50)

print(f"{passed} passed, {failed} failed")
sys.exit(failed != 0)
