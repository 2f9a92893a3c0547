#!/usr/bin/env python3
"""Whether the documents are true of the tree: what they name exists, and what they count is so many.

    tools/documents.py            says what is wrong, a line each with file and line number; exit status 1 where something is
    tools/documents.py --write    first puts the right numbers into docs/TRUST.md and README.md

Of README.md and docs/ (CLAIMS, TRUST, SORTS, DIFFERENCES, DECISIONS and SPEED; LANDINGS tells what was) it checks that
- a name in backquotes is that of a definition, field, function, type, constant, crate, edit or file, or stands in FOREIGN below;
- a name with its place (`name` (crate/specs/File), crate: `name`, `crate::name`) is defined at that place;
- a word with an underscore or a slash outside backquotes is a crate, an edit or a file, and so is a capitalised one in README's list of
  what to read;
- docs/CLAIMS.md names every edit, and README's map every crate, each after those that it depends on;
- the table of docs/SORTS.md is that of the definition;
- docs/TRUST.md lists every file of definitions once, with its lines; the files that it calls private are used by no other file of
  definitions and by no contract of a public function or method, but for the programs that run cases;
and of the definitions that no name is defined in two files, but for those of TWICE. It proves nothing and needs Python alone.
"""
import collections
import functools
import pathlib
import re
import sys

ROOT = pathlib.Path(__file__).resolve().parent.parent
README, CLAIMS, TRUST, SORTS = "README.md", "docs/CLAIMS.md", "docs/TRUST.md", "docs/SORTS.md"
DOCUMENTS = (README, CLAIMS, TRUST, SORTS, "docs/DIFFERENCES.md", "docs/DECISIONS.md", "docs/SPEED.md")

# What the documents name and is not of this tree. Each must stand in a document.
FOREIGN = {
    "unicorn": (
        "cksystemsgroup/unicorn", "src/unicorn/builder.rs", "src/unicorn/mod.rs",
        "Comment", "generate_model", "new_add", "new_ult", "translate_to_model", "write_model",
    ),
    "Rust": ("FnOnce", "Rc::ptr_eq", "format!", "match"),
    "Rattle and its library": (
        "==", "cond t a b", "elim t [ true ↦ a | false ↦ b ]", "eqb", "leb", "ltb", "nat_le", "nat_lt", "pub(crate)",
        "rattle-kit-13f logic dac8208d650f15bf", "requires", "result", "slice_index_or l p d", "x.new", "x.now", "x.old",
    ),
    "shell, and what tools say": (
        "GLIBC_TUNABLES=glibc.malloc.hugetlb=1", "axioms=4", "libraries-built=trusted", "logic-built=trusted", "native=nat,char,string",
        "statements=trusted", "tee", "valgrind --tool=callgrind",
    ),
    "text that is read or written": (
        " ; ", "; dyn REGISTER", "; refused LINE NUMBER", "< 32", "?", "Compressed", "add x x", "imm < 64",
        "kernel-mode-pc-flag-", "not 2", "unimplemented-pc-",
    ),
    "other documents": ("QF_BV",),
}

# Names that two files of definitions have, each for what is called so where it comes from.
TWICE = {"step", "◌>>=◌", "Lists"}

# Capitalised words in README's list of what to read that are no files.
PROPER = {"Rust"}

# The definition that has the table of SORTS.
SORTS_DEFINED = "crates/btor2/specs/SortTable.antt"

# What is made by a command and not stored.
MADE = re.compile(r"(\w+/)*(out|target)/")

# What `rt` is called with.
COMMANDS = ("all", "check", "ci", "fmt", "lemma", "lib", "must-fail", "run", "test", "tidy", "try", "version")

# Where names are defined.
SOURCES = (
    "crates/*/specs/*.antt", "crates/*/proofs/**/*.antt", "crates/*/src/*.rt",
    "host/*.h", "host/rust/src/*.rs", "bench/src/*.rs", "tools/*.py", "differential/*.py",
)


#
# The tree
#

SPECIAL = set("(){};,.\"")
MODIFIERS = {"pub", "abbrev", "unfoldable"}


def antt_names(text):
    """The names that a file of definitions or proofs gives, each with whether it is a definition that other files see."""
    members = None  # how far the record or data type is indented whose members follow
    for line in text.splitlines():
        words = line.split()
        if not words or words[0].startswith("--"):
            continue
        indented = len(line) - len(line.lstrip())
        if members is not None and indented <= members:
            members = None
        public = "pub" in words
        while words and words[0] in MODIFIERS:
            words.pop(0)
        if len(words) > 2 and words[0] in ("record", "data") and not SPECIAL & set(words[1]):
            yield words[1], public
            members = indented
        elif ":" in words:
            names = words[: words.index(":")]
            if not any(SPECIAL & set(name) for name in names):
                yield from ((name, public and members is None) for name in names)
        elif members is not None and all(re.fullmatch(r"[\w'-]+", word) for word in words):  # constructors that go on in the next line
            yield from ((name, False) for name in words)


def code_names(text):
    """The functions, types, constants, fields and variants of Rattle, Rust, C and Python."""
    yield from re.findall(r"\b(?:fn|struct|enum|const|type|mod|def|class|define)\s+(\w+)", text)
    yield from re.findall(r"^\s+(?:pub )?(\w+): [^=;{]*,$", text, re.M)
    yield from re.findall(r"^    ([A-Z]\w*)(?:\([^()]*\))?,$", text, re.M)
    yield from re.findall(r"^([A-Z_0-9]+) = ", text, re.M)
    yield from re.findall(r"^[\w ]+\b(lanthanumbat_\w+)\(", text, re.M)


class Tree:
    """What a root folder holds, by name."""

    def __init__(self, root):
        self.root = pathlib.Path(root)
        self.places = collections.defaultdict(set)  # of a name, the files that define it
        self.defined = collections.defaultdict(set)  # of a definition, the files of specs/ that have it
        for pattern in SOURCES:
            for path in sorted(self.root.glob(pattern)):
                self.read(path)
        self.crates = {path.name for path in self.root.glob("crates/*") if path.is_dir()}
        self.uses = {}
        for line in self.text("crates.txt").splitlines():
            crate, colon, used = line.partition("#")[0].partition(":")
            if colon:
                self.uses[crate.split()[0]] = used.split()
        self.edits = collections.defaultdict(set)  # of an edit, the crates that have it
        for path in self.root.glob("crates/*/must-fail/*.edit"):
            self.edits[path.stem].add(path.parent.parent.name)
        self.files = {path.stem for folder in ("tools", "differential") for path in self.root.glob(f"{folder}/*.*")}
        self.lines = {  # of a file of definitions, crate/File, its lines
            f"{path.parent.parent.name}/{path.stem}": len(path.read_text().splitlines())
            for path in self.root.glob("crates/*/specs/*.antt")
            if path.stem != "Lib"
        }

    def text(self, name):
        return (self.root / name).read_text()

    def read(self, path):
        name = str(path.relative_to(self.root))
        if path.suffix == ".antt":
            for word, definition in antt_names(path.read_text()):
                self.places[word].add(name)
                if definition and path.parent.name == "specs":
                    self.defined[word].add(name)
        else:
            for word in code_names(path.read_text()):
                self.places[word].add(name)

    def knows(self, word):
        return word in self.places or word in self.crates or word in self.edits or word in self.files

    def crates_like(self, pattern):
        """The crates that a name means, `models_*` those that begin so."""
        return {crate for crate in self.crates if crate == pattern or pattern.endswith("*") and crate.startswith(pattern[:-1])}

    @functools.cache
    def found(self, path):
        """The files that a path means: as it stands, within crates/ or a crate, or the definitions or the edit of a crate.

        Capitals stand for any name."""
        path = re.sub(r"\b[A-Z]+(?=/|$)", "*", path)
        crate, _, rest = path.partition("/")
        forms = [path, f"crates/{path}", f"crates/{crate}/specs/{rest}.antt", f"crates/{crate}/must-fail/{rest}.edit"]
        forms += [f"crates/*/{path}"] if crate in ("specs", "proofs", "src", "must-fail") else []
        forms += [form + suffix for form in forms[:2] for suffix in (".antt", ".rt", ".py")]
        return [str(one.relative_to(self.root)) for form in forms for one in self.root.glob(form.rstrip("/"))]

    def has(self, word, place):
        """Whether a name is defined at a place: a crate, a folder of it or a file."""
        within = self.found(place)
        return any(path == one or path.startswith(one + "/") for path in self.places[word] for one in within)

    def below(self, crate):
        """A crate and all that it rests on."""
        seen, left = set(), [crate]
        while left:
            one = left.pop()
            if one not in seen:
                seen.add(one)
                left += self.uses.get(one, ())
        return seen & self.crates

    def case_crates(self, entries):
        """The programs that run cases, and the crates that only they use, but for the entries."""
        cases = {crate for crate in self.uses if crate.endswith("_cases")}
        while True:
            more = {
                crate
                for crate in self.uses
                if crate not in cases and crate not in entries and (users := {one for one in self.uses if crate in self.uses[one]}) and users <= cases
            }
            if not more:
                return cases
            cases |= more


#
# The checks. Each gives what is wrong, (file, line number, words), and adds to `counted` what it looked at.
#

QUOTED = re.compile(r"`([^`]+)`")
PATH = re.compile(r"(?<![\w./*-])\.?[\w*-]+(?:[/.][\w*-]+)*/[\w.*-]*[\w*]")
PLACED = re.compile(r"`([\w'-]+)`(,? \(?)(\w+(?:/(?:specs|proofs|src)(?:/\w+)?)?)\b(?![\w*/]|: `)(?=(.?))")


def lines_of(tree, name):
    return enumerate(tree.text(name).splitlines(), 1)


def command_error(tree, words):
    """What is wrong with a command whose first word is rt's or a path."""
    if words[0] == "rt":
        if words[1:2] and words[1] not in COMMANDS:
            return f"rt has no command {words[1]} that is known here"
        named = words[2:3] if words[1:2] == ["ci"] else ()
        return next((f"{word} is no crate" for word in named if word not in tree.crates), None)
    return None if MADE.match(words[0]) or tree.found(words[0]) else f"there is no {words[0]}"


def name_error(tree, token, foreign):
    """What is wrong with what stands in backquotes, or None."""
    if tree.knows(token) or token in foreign:
        return None
    words = token.split()
    if words and (words[0] == "rt" or "/" in words[0]):
        return command_error(tree, words)
    if "::" in token:
        crate, _, name = token.partition("::")
        return None if tree.has(name, f"{crate}/src") else f"there is no `{token}`"
    if token.startswith("_") and any(name.endswith(token) for name in tree.places):
        return None
    if token.endswith("*") and any(name.startswith(token[:-1]) for name in tree.places):
        return None
    return f"`{token}` is no name of the tree, and no foreign one that tools/documents.py lists"


def name_errors(tree, foreign, counted):
    for name in DOCUMENTS:
        for number, line in lines_of(tree, name):
            for token in QUOTED.findall(line):
                counted["names"] += 1
                if error := name_error(tree, token, foreign):
                    yield name, number, error
    texts = [tree.text(name) for name in DOCUMENTS]
    for token in sorted(foreign):
        if not any(token in text for text in texts):
            yield "tools/documents.py", 0, f"no document has the foreign name '{token}'"


def place_errors(tree, counted):
    """Names with their places: `name` (crate/specs/File), and in a table's first cell crate: `name`, `name`."""
    for document in DOCUMENTS:
        for number, line in lines_of(tree, document):
            for name, before, place, after in PLACED.findall(line):
                if place.partition("/")[0] in tree.crates and ("/" in place or before == " (" or after == ")"):
                    counted["places"] += 1
                    if not tree.has(name, place):
                        yield document, number, f"`{name}` is not in {place}"
            if not line.startswith("| "):
                continue
            cell = line.split(" | ")[0]
            for within, names in re.findall(r"((?:[\w*]+, )*[\w*]+): (`.*?)(?=[,;] (?:[\w*]+, )*[\w*]+: `|$)", cell):
                crates = set().union(*(tree.crates_like(crate) for crate in within.split(", ")))
                if not crates:
                    yield document, number, f"{within} is no crate"
                for name in QUOTED.findall(names):
                    counted["places"] += 1
                    known = [one for one in tree.places if one == name or name.startswith("_") and one.endswith(name)]
                    if crates and not any(tree.has(one, f"{crate}/src") for one in known for crate in crates):
                        yield document, number, f"`{name}` is no function of {within}"


def word_errors(tree, foreign, counted):
    """Paths, and words with an underscore, outside backquotes."""
    for document in DOCUMENTS:
        for number, line in lines_of(tree, document):
            plain = re.sub(r"https?://[^\s)]+|\.\./[\w./-]+|\*\*", "", QUOTED.sub("", line))
            for path in PATH.findall(plain):
                if not MADE.match(path) and path not in foreign:
                    counted["paths"] += 1
                    if not tree.found(path):
                        yield document, number, f"there is no {path}"
            for word in re.findall(r"\w*_[\w*]*", PATH.sub("", plain)):
                counted["words"] += 1
                if not tree.knows(word) and not tree.crates_like(word) and word not in foreign:
                    yield document, number, f"{word} is no crate, edit or file"


def reading_errors(tree, counted):
    """In README's numbered list of what to read a capitalised word is a file of definitions of a crate that its item names."""
    text = tree.text(README)
    for item in re.finditer(r"^\d+\. .*(?:\n {3}.*)*", text, re.M):
        crates = re.findall(r"`crates/(\w+)/specs", item[0])
        for word in re.finditer(r"(?<![\w/])[A-Z]\w+", item[0]) if crates else ():
            counted["files to read"] += 1
            if word[0] not in PROPER and not any(f"{crate}/{word[0]}" in tree.lines for crate in crates):
                yield README, number_at(text, item.start() + word.start()), f"{word[0]} is no file of definitions of {' or '.join(crates)}"


def edit_errors(tree, counted):
    """Every edit is named in the claims; one that several crates have, as often, and for each of them in a line with the crate's name."""
    lines = [re.findall(r"\w+", line) for _, line in lines_of(tree, CLAIMS)]
    for edit, crates in sorted(tree.edits.items()):
        counted["edits"] += len(crates)
        named = [words for words in lines if edit in words]
        if not named:
            yield CLAIMS, 0, f"the edit {' and '.join(sorted(crates))}/{edit} is not named"
        elif len(crates) > 1:
            if sum(words.count(edit) for words in named) < len(crates) or any(all(crate not in words for words in named) for crate in crates):
                yield CLAIMS, 0, f"the edit {edit} is not named for each of {' and '.join(sorted(crates))}"


def entry_crates(tree):
    """The crates that README's map has in bold."""
    return set(re.findall(r"^\| \*\*(\w+)\*\* \|", tree.text(README), re.M))


def map_rows(tree):
    """The crates of each row of README's map, with its line number."""
    inside = False
    for number, line in lines_of(tree, README):
        if line.startswith("## "):
            inside = line == "## The crates"
        elif inside and line.startswith("| ") and not line.startswith("| crate |"):
            yield number, line.split(" | ")[0].removeprefix("| ").replace("*", "").split(", ")


def map_errors(tree, counted):
    named = {}
    for number, crates in map_rows(tree):
        for crate in crates:
            if crate not in tree.crates:
                yield README, number, f"the map names {crate}, which is no crate"
            elif crate in named:
                yield README, number, f"the map names {crate} again"
            named[crate] = number
    for crate in sorted(tree.crates):
        counted["crates"] += 1
        if crate not in named:
            yield README, 0, f"the map does not name the crate {crate}"
        if crate not in tree.uses:
            yield "crates.txt", 0, f"there is no line for the crate {crate}"
    for crate, used in tree.uses.items():
        if crate not in tree.crates:
            yield "crates.txt", 0, f"{crate} is no crate"
        for one in used:
            if named.get(one, 0) > named.get(crate, len(tree.text(README))):
                yield README, named[crate], f"{crate} depends on {one}, which stands below it"


def twice_errors(tree, counted):
    for name, files in sorted(tree.defined.items()):
        counted["definitions"] += 1
        if len(files) > 1 and name not in TWICE:
            first, *others = sorted(files)
            yield others[0], 0, f"{name} is defined in {first} too"
    for name in sorted(TWICE):
        if len(tree.defined[name]) < 2:
            yield "tools/documents.py", 0, f"{name} is not defined twice"


def sort_errors(tree, counted):
    """The rows of SORTS: a sort line without its remark, and then what the definition says beside that line."""
    defined = re.findall(r"^sort_row (\w+) = row (\d+) (\d+) (\d+) +-- (.*)$", tree.text(SORTS_DEFINED), re.M)
    rows = []
    for number, line in lines_of(tree, SORTS):
        if re.match(r"\| \d+ sort ", line):
            sort_line, *cells = line.strip("| ").split(" | ")
            rows.append((number, (*cells, sort_line.split(" ;")[0])))
    for (number, row), right in zip(rows, defined):
        counted["sorts"] += 1
        if row != right:
            yield SORTS, number, f"the row is {' | '.join(row)} and should be {' | '.join(right)}"
    if not defined or len(rows) != len(defined):
        yield SORTS, 0, f"there are {len(rows)} sorts, and {len(defined)} in {SORTS_DEFINED}"


PRIVATE = re.compile(r"\(([\d,]+) more files, ([\d,]+) lines, [^:]*: ([^.]*)\.")
ROW = re.compile(r"^\| (\w+/\w+) \| ([\d,]+) \|", re.M)


def number_at(text, place):
    return text.count("\n", 0, place) + 1


def file_errors(tree, counted):
    """Every file of definitions stands in TRUST once, and a private one is nobody else's."""
    text = tree.text(TRUST)
    rows = {match[1]: number_at(text, match.start()) for match in ROW.finditer(text)}
    private = {}
    if listed := PRIVATE.search(text):
        private = {file: number_at(text, listed.start(3)) for file in re.split(r",\s+", listed[3])}
    for file, number in [*rows.items(), *private.items()]:
        if file not in tree.lines:
            alike = [one for one in sorted(tree.lines) if one.split("/")[1] == file.split("/")[-1] and one not in rows and one not in private]
            yield TRUST, number, f"there is no {file}" + (f"; {' or '.join(alike)} has no row" if alike else "")
    for file in sorted(tree.lines):
        counted["files"] += 1
        if file not in rows and file not in private:
            yield TRUST, 0, f"{file} stands neither in the table nor among the private files"
        if file in rows and file in private:
            yield TRUST, rows[file], f"{file} stands in the table and among the private files"
    for file in rows:
        crate, _, stem = file.partition("/")
        path = f"crates/{crate}/specs/{stem}.antt"
        if file in tree.lines:
            for number, line in lines_of(tree, path):
                if (used := used_file(line)) in private:
                    yield path, number, f"{used} is used here and is private by {TRUST}"
    yield from contract_errors(tree, private, counted)


def used_file(line):
    """The file of definitions, crate/File, that a line of a file takes names from, or None."""
    match = re.match(r"(?:ghost )?(?:pub )?use Rattle\.(\w+)\.specs\.(\w+)(?=[. ;]|$)", line)
    return f"{match[1]}/{match[2]}" if match else None


def contract_errors(tree, private, counted):
    """The contracts of public functions and methods that take a name from a private file."""
    cases = tree.case_crates(entry_crates(tree))
    for path in sorted(tree.root.glob("crates/*/src/*.rt")):
        if path.parent.parent.name in cases:
            continue
        name = str(path.relative_to(tree.root))
        taken, public, indent = {}, False, ""
        for number, line in lines_of(tree, name):
            if (file := used_file(line)) in private:
                taken |= {word: file for word in re.findall(r"[\w'-]+", line.partition("{")[2] or line.partition(" as ")[2])}
            if head := re.match(r'( *)(pub(?:\(crate\))? )?(?:extern "C" )?fn ', line):
                indent, public = head[1], head[2] == "pub "
                counted["contracts"] += public
            if line in (indent + "{", indent + "}"):
                public = False
            for word in re.findall(r"[\w'-]+", line) if public else ():
                if word in taken:
                    yield name, number, f"a public contract cites {word} of {taken[word]}, which is private by {TRUST}"


def counts(tree):
    """What TRUST and README count: (document, where in its text, what is said, what is right).

    What is said is None where the sentence is missing, and what is right is then its pattern."""
    text = tree.text(TRUST)
    rows = [match for match in ROW.finditer(text) if match[1] in tree.lines]
    for match in rows:
        yield TRUST, match.span(2), match[2], f"{tree.lines[match[1]]:,}"
    shown = sum(tree.lines[match[1]] for match in rows)
    private = PRIVATE.search(text)
    files = [file for file in re.split(r",\s+", private[3]) if file in tree.lines] if private else []
    yield from sentence(TRUST, text, r"^([\d,]+) lines in ([\d,]+) files;", (shown, len(rows)))
    yield from sentence(TRUST, text, PRIVATE.pattern, (len(files), sum(tree.lines[file] for file in files)))
    text = tree.text(README)
    yield from sentence(README, text, r"the listing and what\s+it rests on, (\d+) crates", (len(tree.below("listing")),))
    yield from sentence(README, text, r"^The (\d+) crates", (len(tree.crates),))
    yield from sentence(README, text, r"the prover must refuse, ([\d,]+) in all", (sum(map(len, tree.edits.values())),))


def sentence(document, text, pattern, right):
    match = re.search(pattern, text, re.M)
    if not match:
        yield document, (0, 0), None, pattern
        return
    for group, number in enumerate(right, 1):
        yield document, match.span(group), match[group], f"{number:,}"


def count_errors(tree, counted):
    for document, (start, _), said, right in counts(tree):
        counted["counts"] += 1
        number = number_at(tree.text(document), start)
        if said is None:
            yield document, 0, f"there is no sentence '{right}'"
        elif said != right:
            yield document, number, f"it says {said} and should say {right}"


def check(root, foreign):
    """All that is wrong, in order, and how much was looked at, by what it is."""
    tree, counted = Tree(root), collections.Counter()
    errors = [*name_errors(tree, foreign, counted), *word_errors(tree, foreign, counted)]
    for errors_of in (place_errors, reading_errors, edit_errors, map_errors, twice_errors, sort_errors, file_errors, count_errors):
        errors += errors_of(tree, counted)
    return sorted(errors), counted


def write(root):
    """Puts the right numbers where TRUST and README count."""
    tree = Tree(root)
    wrong = [count for count in counts(tree) if count[2] not in (None, count[3])]
    for document, (start, end), _, right in sorted(wrong, key=lambda count: -count[1][0]):
        text = tree.text(document)
        (tree.root / document).write_text(text[:start] + right + text[end:])


def main():
    if sys.argv[1:] not in ([], ["--write"]):
        print(__doc__.strip())
        return 2
    if sys.argv[1:]:
        write(ROOT)
    errors, counted = check(ROOT, {token for tokens in FOREIGN.values() for token in tokens})
    for document, number, words in errors:
        print(f"{document}:{number}: {words}" if number else f"{document}: {words}")
    print("looked at " + ", ".join(f"{count:,} {what}" for what, count in counted.items()) + f": {len(errors)} wrong")
    return 1 if errors else 0


if __name__ == "__main__":
    sys.exit(main())
