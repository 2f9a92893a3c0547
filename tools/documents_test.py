#!/usr/bin/env python3
"""Tests of tools/documents.py: a small tree whose documents are true, and then each of them made false in one way. Run it from anywhere; its
last line says how many tests passed."""
import contextlib
import io
import pathlib
import sys
import tempfile
from unittest import mock

import documents

FOREIGN = {"write_model", "QF_BV"}

FILES = {
    "crates.txt": "lines: \ncase_line: lines\ncalls_made: lines\nlisting: calls_made lines io\nline_cases: case_line lines\n",
    "README.md": """# A tree

`tools/show.py 3` shows it, `rt ci listing` proves it: the listing and what
it rests on, 3 crates. See [the Rust](https://example.org/no/file) and ../elsewhere/no_file.

## The crates

The 5 crates:

| crate | what it holds |
|---|---|
| lines | a line |
| **calls_made** | **`call`** |
| listing | the program |
| case_line, line_cases | cases |

Edits that the prover must refuse, 3 in all.

1. `crates/lines/specs`: Line, under the Rust's name;
2. `crates/calls_made/specs`: a call
   (Call).
""",
    "docs/CLAIMS.md": """# Claims

A name is the file's (crates/CRATE/must-fail).

| entry | promise | edits |
|---|---|---|
| calls_made: `call`; lines: `put_line`, `_line` | `called` (calls_made/specs/Call), `Line`, its `text` (lines/specs), `Short` | call_lost; of lines line_lost |
| (`kept`, lines/proofs/Kept) | `calls_made::call`, `put_*` | calls_made/line_lost |
""",
    "docs/TRUST.md": """# Trust

7 lines in 2 files; a contract cites nothing else. (2 more files, 4 lines, hold what only private contracts cite: calls_made/Inside, case_line/Text. Nothing else.)

| file | lines |
|---|---|
| lines/Line | 4 |
| calls_made/Call | 3 |
""",
    "docs/DIFFERENCES.md": "`write_model` and QF_BV are not ours; nor is target/none.\n",
    "docs/DECISIONS.md": "docs/TRUST.md, lines/src/lib.rt and `MOST_LINES`.\n",
    "docs/SPEED.md": "line_cases runs.\n",
    "docs/SORTS.md": "| sort line | sort | number |\n|---|---|---|\n| 1 sort bitvec 1 ; a bit | Bit | 1 | 1 | 63 |\n| 3 sort array 2 2 | Memory | 3 | 0 | 64 |\n",
    "crates/lines/proofs/Table.antt": "sort_row Bit = row 1 1 63  -- 1 sort bitvec 1\nsort_row Memory = row 3 0 64  -- 3 sort array 2 2\n",
    "tools/show.py": "def show():\n    pass\n",
    "crates/lines/specs/Lib.antt": "pub mod Line\n",
    "crates/lines/specs/Line.antt": "pub record Line : Type 0 where\n  pub text : ℕ\nabbrev step : ℕ\nstep = 0\n",
    "crates/lines/proofs/Kept.antt": "pub data Kind : Type 0 where\n  Short\n      Long : Kind\n\npub kept : (l : Line) → l ≡ l\n",
    "crates/lines/src/lib.rt": "pub const MOST_LINES: usize = 4;\n\npub fn put_line(n: u64)\n    ensures { n ≡ n }\n{\n}\n",
    "crates/lines/must-fail/line_lost.edit": "",
    "crates/calls_made/specs/Call.antt": "use Rattle.lines.specs.Line.{Line}\nunfoldable pub called : Line → Line\ncalled l = l\n",
    "crates/calls_made/specs/Inside.antt": "abbrev pub inside : ℕ\ninside = 0\n",
    "crates/calls_made/src/lib.rt": """ghost use Rattle.calls_made.specs.Inside.{inside};

pub fn call(n: u64)
    ensures { called n ≡ n }
{
}

fn part(n: u64)
    ensures { inside ≡ n }
{
}
""",
    "crates/calls_made/must-fail/call_lost.edit": "",
    "crates/calls_made/must-fail/line_lost.edit": "",
    "crates/case_line/specs/Text.antt": "abbrev pub text : ℕ\ntext = 0\n",
    "crates/case_line/src/lib.rt": """ghost use Rattle.case_line.specs.Text.{text};

pub fn read(n: u64)
    ensures { n ≡ text }
{
}
""",
    "crates/listing/src/main.rt": "fn main() {\n}\n",
    "crates/line_cases/src/main.rt": "fn main() {\n}\n",
}

SORT_FILES = {"SORTS_DEFINED": "crates/lines/proofs/Table.antt"}

NONE = "is no name of the tree, and no foreign one that tools/documents.py lists"

# What is changed, in which file, and what is said of it.
WRONG = [
    ("a definition's name", "docs/CLAIMS.md", "`Line`", "`Lime`", [f"docs/CLAIMS.md:7: `Lime` {NONE}"]),
    ("a constant's name", "docs/DECISIONS.md", "MOST_LINES", "MOST_LIMES", [f"docs/DECISIONS.md:1: `MOST_LIMES` {NONE}"]),
    ("a suffix", "docs/CLAIMS.md", "`_line`", "`_lime`",
     ["docs/CLAIMS.md:7: `_lime` is no function of lines", f"docs/CLAIMS.md:7: `_lime` {NONE}"]),
    ("a beginning", "docs/CLAIMS.md", "`put_*`", "`get_*`", [f"docs/CLAIMS.md:8: `get_*` {NONE}"]),
    ("a function of another crate", "docs/CLAIMS.md", "`calls_made::call`", "`lines::call`",
     ["docs/CLAIMS.md:8: there is no `lines::call`"]),
    ("a definition of another file", "docs/CLAIMS.md", "(calls_made/specs/Call)", "(lines/specs/Line)",
     ["docs/CLAIMS.md:7: `called` is not in lines/specs/Line"]),
    ("a field of another crate", "docs/CLAIMS.md", "(lines/specs)", "(calls_made)", ["docs/CLAIMS.md:7: `text` is not in calls_made"]),
    ("a law of another file", "docs/CLAIMS.md", "lines/proofs/Kept", "lines/specs/Line",
     ["docs/CLAIMS.md:8: `kept` is not in lines/specs/Line"]),
    ("an entry of another crate", "docs/CLAIMS.md", "lines: `put_line`", "listing: `put_line`",
     ["docs/CLAIMS.md:7: `_line` is no function of listing", "docs/CLAIMS.md:7: `put_line` is no function of listing"]),
    ("an entry of no crate", "docs/CLAIMS.md", "calls_made: `call`", "calls: `call`", ["docs/CLAIMS.md:7: calls is no crate"]),
    ("a file that is gone", "docs/DECISIONS.md", "lines/src/lib.rt", "lines/src/words.rt",
     ["docs/DECISIONS.md:1: there is no lines/src/words.rt"]),
    ("a script that is gone", "README.md", "tools/show.py 3", "tools/hide.py 3", ["README.md:3: there is no tools/hide.py"]),
    ("a command for no crate", "README.md", "rt ci listing", "rt ci lasting", ["README.md:3: lasting is no crate"]),
    ("a command that rt has not", "README.md", "rt ci listing", "rt co listing",
     ["README.md:3: rt has no command co that is known here"]),
    ("a file to read of another crate", "README.md", "(Call)", "(Line)", ["README.md:21: Line is no file of definitions of calls_made"]),
    ("a word that is no crate", "docs/SPEED.md", "line_cases", "lime_cases", ["docs/SPEED.md:1: lime_cases is no crate, edit or file"]),
    ("an edit that is gone", "docs/CLAIMS.md", "call_lost;", "call_kept;",
     ["docs/CLAIMS.md: the edit calls_made/call_lost is not named", "docs/CLAIMS.md:7: call_kept is no crate, edit or file"]),
    ("an edit of two crates, named for one", "docs/CLAIMS.md", "calls_made/line_lost", "none",
     ["docs/CLAIMS.md: the edit line_lost is not named for each of calls_made and lines"]),
    ("an edit by its crate that has none such", "docs/CLAIMS.md", "calls_made/line_lost", "calls_made/line_lost, lines/call_lost",
     ["docs/CLAIMS.md:8: there is no lines/call_lost"]),
    ("a foreign name that no document has", "docs/DIFFERENCES.md", "QF_BV", "others",
     ["tools/documents.py: no document has the foreign name 'QF_BV'"]),
    ("a crate that the map lacks", "README.md", "| case_line, line_cases |", "| line_cases |",
     ["README.md: the map does not name the crate case_line"]),
    ("a crate twice in the map", "README.md", "| case_line, line_cases |", "| case_line, lines, line_cases |",
     ["README.md:13: calls_made depends on lines, which stands below it",
      "README.md:14: listing depends on lines, which stands below it",
      "README.md:15: the map names lines again"]),
    ("no crate in the map", "README.md", "| listing |", "| listing, labels |", ["README.md:14: the map names labels, which is no crate"]),
    ("a crate before what it depends on", "README.md", "| lines | a line |\n| **calls_made** | **`call`** |\n",
     "| **calls_made** | **`call`** |\n| lines | a line |\n",
     ["README.md:12: calls_made depends on lines, which stands below it"]),
    ("a crate without a line", "crates.txt", "case_line: lines\n", "",
     ["crates.txt: there is no line for the crate case_line",
      "crates/case_line/src/lib.rt:4: a public contract cites text of case_line/Text, which is private by docs/TRUST.md"]),
    ("a line without a crate", "crates.txt", "lines: \n", "lines: \nlabels: lines\n", ["crates.txt: labels is no crate"]),
    ("a definition in two files", "crates/calls_made/specs/Call.antt", "called l = l", "called l = l\nabbrev pub inside : ℕ",
     ["crates/calls_made/specs/Inside.antt: inside is defined in crates/calls_made/specs/Call.antt too",
      "docs/TRUST.md:3: it says 7 and should say 8",
      "docs/TRUST.md:8: it says 3 and should say 4"]),
    ("a sort's padding", "docs/SORTS.md", "| 63 |", "| 64 |",
     ["docs/SORTS.md:3: the row is Bit | 1 | 1 | 64 | 1 sort bitvec 1 and should be Bit | 1 | 1 | 63 | 1 sort bitvec 1"]),
    ("a sort line", "docs/SORTS.md", "| 1 sort bitvec 1 ; a bit |", "| 1 sort bitvec 2 ; a bit |",
     ["docs/SORTS.md:3: the row is Bit | 1 | 1 | 63 | 1 sort bitvec 2 and should be Bit | 1 | 1 | 63 | 1 sort bitvec 1"]),
    ("a sort's number in the definition", "crates/lines/proofs/Table.antt", "row 3 0 64", "row 4 0 64",
     ["docs/SORTS.md:4: the row is Memory | 3 | 0 | 64 | 3 sort array 2 2 and should be Memory | 4 | 0 | 64 | 3 sort array 2 2"]),
    ("a sort without a row", "docs/SORTS.md", "| 3 sort array 2 2 | Memory | 3 | 0 | 64 |\n", "",
     ["docs/SORTS.md: there are 1 sorts, and 2 in crates/lines/proofs/Table.antt"]),
    ("no table in the definition", "crates/lines/proofs/Table.antt", "sort_row Bit = row 1 1 63  -- 1 sort bitvec 1\nsort_row Memory = row 3 0 64  -- 3 sort array 2 2\n", "",
     ["docs/SORTS.md: there are 2 sorts, and 0 in crates/lines/proofs/Table.antt"]),
    ("the lines of a file", "docs/TRUST.md", "| lines/Line | 4 |", "| lines/Line | 5 |", ["docs/TRUST.md:7: it says 5 and should say 4"]),
    ("the lines in all", "docs/TRUST.md", "7 lines in 2", "8 lines in 2", ["docs/TRUST.md:3: it says 8 and should say 7"]),
    ("the files in all", "docs/TRUST.md", "7 lines in 2", "7 lines in 3", ["docs/TRUST.md:3: it says 3 and should say 2"]),
    ("the private files", "docs/TRUST.md", "2 more files", "3 more files", ["docs/TRUST.md:3: it says 3 and should say 2"]),
    ("the private lines", "docs/TRUST.md", "4 lines, hold", "5 lines, hold", ["docs/TRUST.md:3: it says 5 and should say 4"]),
    ("no sentence of lines", "docs/TRUST.md", "7 lines in 2 files; a", "A",
     [r"docs/TRUST.md: there is no sentence '^([\d,]+) lines in ([\d,]+) files;'"]),
    ("the crates", "README.md", "The 5 crates", "The 6 crates", ["README.md:8: it says 6 and should say 5"]),
    ("the crates below the listing", "README.md", "on, 3 crates", "on, 4 crates", ["README.md:4: it says 4 and should say 3"]),
    ("the edits", "README.md", "refuse, 3 in all", "refuse, 2 in all", ["README.md:17: it says 2 and should say 3"]),
    ("a file in no row", "docs/TRUST.md", "| calls_made/Call | 3 |\n", "",
     ["docs/TRUST.md: calls_made/Call stands neither in the table nor among the private files",
      "docs/TRUST.md:3: it says 2 and should say 1",
      "docs/TRUST.md:3: it says 7 and should say 4"]),
    ("a row without a file", "docs/TRUST.md", "| calls_made/Call | 3 |\n", "| calls/Call | 3 |\n",
     ["docs/TRUST.md: calls_made/Call stands neither in the table nor among the private files",
      "docs/TRUST.md:3: it says 2 and should say 1",
      "docs/TRUST.md:3: it says 7 and should say 4",
      "docs/TRUST.md:8: there is no calls/Call",
      "docs/TRUST.md:8: there is no calls/Call; calls_made/Call has no row"]),
    ("a private file in a row", "docs/TRUST.md", "| calls_made/Call | 3 |\n", "| calls_made/Call | 3 |\n| calls_made/Inside | 2 |\n",
     ["docs/TRUST.md:3: it says 2 and should say 3",
      "docs/TRUST.md:3: it says 7 and should say 9",
      "docs/TRUST.md:9: calls_made/Inside stands in the table and among the private files"]),
    ("a private file that definitions use", "crates/calls_made/specs/Call.antt", "use Rattle.lines.specs.Line.{Line}",
     "use Rattle.calls_made.specs.Inside as I",
     ["crates/calls_made/specs/Call.antt:1: calls_made/Inside is used here and is private by docs/TRUST.md"]),
    ("a private file that a public contract cites", "crates/calls_made/src/lib.rt", "fn part", "pub fn part",
     ["crates/calls_made/src/lib.rt:9: a public contract cites inside of calls_made/Inside, which is private by docs/TRUST.md"]),
    ("a private file that a public method's contract cites", "crates/calls_made/src/lib.rt", "fn part(n: u64)\n    ensures { inside ≡ n }\n{\n}\n",
     "impl Call {\n    pub fn part(n: u64)\n        ensures { inside ≡ n }\n    {\n    }\n}\n",
     ["crates/calls_made/src/lib.rt:10: a public contract cites inside of calls_made/Inside, which is private by docs/TRUST.md"]),
    ("a private file that a public contract cites under another name", "crates/calls_made/src/lib.rt",
     "ghost use Rattle.calls_made.specs.Inside.{inside};\n\npub fn call(n: u64)\n    ensures { called n ≡ n }", "ghost use Rattle.calls_made.specs.Inside as I;\n\npub fn call(n: u64)\n    ensures { I.inside ≡ n }",
     ["crates/calls_made/src/lib.rt:4: a public contract cites I of calls_made/Inside, which is private by docs/TRUST.md"]),
    ("a private file that an entry's contract cites", "README.md", "| case_line, line_cases | cases |", "| **case_line** | an entry |\n| line_cases | cases |",
     ["crates/case_line/src/lib.rt:4: a public contract cites text of case_line/Text, which is private by docs/TRUST.md"]),
]

# What --write mends: in which file, what stands there, and what a wrong document has in its place.
WRITTEN = [
    ("docs/TRUST.md", "7 lines in 2", "6 lines in 1,000"),
    ("docs/TRUST.md", "| 4 |", "| 44 |"),
    ("README.md", "5 crates", "6 crates"),
    ("README.md", "3 in all", "12 in all"),
]

passed = failed = 0


def test(name, got, wanted):
    global passed, failed
    if got == wanted:
        passed += 1
    else:
        failed += 1
        print(f"{name}\n  got    {got}\n  wanted {wanted}")


def put(root, files):
    for name, text in files.items():
        path = root / name
        path.parent.mkdir(parents=True, exist_ok=True)
        path.write_text(text)


def run(root, *arguments):
    """What the command says of a tree, without its last line, and its exit status."""
    said = io.StringIO()
    with mock.patch.multiple(documents, ROOT=root, FOREIGN={"": FOREIGN}, TWICE=set(), **SORT_FILES), mock.patch.object(sys, "argv", ["documents.py", *arguments]):
        with contextlib.redirect_stdout(said):
            status = documents.main()
    return said.getvalue().splitlines()[:-1], status


def main():
    with tempfile.TemporaryDirectory() as folder:
        root = pathlib.Path(folder)
        put(root, FILES)
        test("a tree that is right", run(root), ([], 0))
        for name, file, old, new, said in WRONG:
            test(f"{name}: the text stands once", FILES[file].count(old), 1)
            put(root, {file: FILES[file].replace(old, new)})
            test(name, run(root), (said, 1))
            put(root, {file: FILES[file]})
        for file, said, wrong in WRITTEN:
            put(root, {file: FILES[file].replace(said, wrong)})
            test(f"--write after {wrong}", run(root, "--write"), ([], 0))
            test(f"what is written after {wrong}", (root / file).read_text(), FILES[file])
        with mock.patch.multiple(documents, TWICE={"step"}, **SORT_FILES):
            errors, _ = documents.check(root, FOREIGN)
        test("a name that is not defined twice", errors, [("tools/documents.py", 0, "step is not defined twice")])
    print(f"{passed} passed, {failed} failed")
    return failed != 0


if __name__ == "__main__":
    sys.exit(main())
