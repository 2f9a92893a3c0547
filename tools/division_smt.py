#!/usr/bin/env python3
"""division_smt.py [--listing PROGRAM] [--solver PROGRAM] [--queries FOLDER] [--self-test]: Div and Divw against the manual, for all values.

Takes the lines that the listing (default: crates/listing/out/listing) prints for `0 Div 3 1 2 0` and `0 Divw 3 1 2 0`, translates
every one of them into SMT-LIB, and asks the solver (default: z3 on the path; it must take z3's options -T:60 and -in) about rd's flow, which is
the last line `ite 2 58 RESULT OLD`. x1, x2, the old flow of x3 and the flag are any values. The manual is the RISC-V Unprivileged ISA
(20191213), section 7.2, written below case by case. A division is ordinary (document 02, R-4) when its divisor isn't zero and, for Divw, the pair
isn't -2^31 by -1, for Divw both on the low 32 bits. What is asked of each kind:

- flag 0: the flow is the old flow, whatever the operands are;
- flag 1, a negative dividend over zero: the flow is 1, the manual's quotient is -1, and the two are never the same;
- flag 1, a dividend that isn't negative over zero: both are -1;
- flag 1, -2^63 by -1 for Div: both are -2^63; -2^31 by -1 for Divw, whatever the high halves are: the flow is +2^31, the manual's is -2^31;
- flag 1, ordinary: the flow is the manual's quotient;
- every pair is in one of these cases, and with flag 1 the flow differs from the manual's exactly for a negative dividend over zero and, for
  Divw, for -2^31 by -1.

How an answer reads. A query asserts its assumptions and that its claim does not hold: `unsat` says that the claim holds for all values that meet
the assumptions. A query whose name ends in `there are such values` asserts the same assumptions and no claim: `sat` says that some values meet
them, so that no `unsat` comes from assumptions that contradict each other.

How the queries compose. All of Div, and of Divw the first four questions, are asked of the lines as they are translated. Whether a quotient of
64 bits is the sign-extended one of 32 bits is too hard to be asked at once. So Divw's comparisons with the manual, for ordinary pairs and for all,
stand at the end of a chain of cuts. A cut is a query, without assumptions, that a constant of the SMT-LIB text equals another term; after it that
term takes the place of the constant's definition. Nothing else is ever replaced, and after a cut that fails nothing more is asked. Where a cut
says `for any`, the constants that it names are free in it, so that what it shows holds for their definitions too. In order:

1. the line of the division's dividend is the low word of x1, sign-extended, and that of its divisor the low word of x2 (two cuts);
2. the line of the division, for any values of these two lines, is the quotient of their magnitudes, with its sign turned where their signs
   differ. This is where the line's own operator is asked about;
3. the magnitudes at 64 bits are the manual's magnitudes at 32 bits, zero-extended (two cuts);
4. the quotient of the magnitudes at 64 bits, for any magnitudes of 32 bits, is the manual's quotient of them at 32 bits, zero-extended, or all
   ones where the divisor's is zero;
5. the manual's quotient of the magnitudes, for any magnitudes, is the dividend's where the divisor's is 1, and at most half of the dividend's
   where the divisor's is 2 or more (two queries).

Then rd's flow and the manual's quotient are terms over one and the same quotient of magnitudes. It is made a free constant of which 5 is
assumed, and both comparisons are asked of any such constant. The quotient is one of these, so an `unsat` says of it what it says of all. (A `sat`
there needs a look: its constant may be no quotient.)

What isn't asked: other registers than x1, x2 and x3, whose lines differ in identifiers alone (values.py compares some); the line of Div that keeps
the divisor for a later test, which is translated, but which rd's flow doesn't depend on; and whether the manual below is the manual. Its negation
is the complement and one, since z3 finds that form again in what it makes of bvsdiv; that it is bvneg is asked, and that the cases come to
bvsdiv where the divisor isn't zero.

Prints a line for each query, its name and the solver's answer, then `N queries, as expected` or the queries that differ; a query that isn't
answered in 60 seconds differs (z3 4.8.12 answers all of them in about two seconds). --queries FOLDER writes the text of each query into FOLDER, in
the order of asking: n59 and up are the listing's lines, each beside its translation, names that begin with wide_ are the cuts', and the other ones
are the manual's. --self-test alters the lines that rd's flow depends on, one at a time, then the conditions of the cases: each part left out, and
the whole register read instead of its low word. Each must be found: by lines that can't be translated, or by another answer than expected, for
which no answer in time doesn't count. Exit status 0: as expected, 1: differences, 2: it could not be run.
"""
import pathlib
import re
import shutil
import subprocess
from typing import NamedTuple

import command
import values
from btor2_values import BIT, FLAG, START_SORTS, WORDS, Node, ill_sorted

LISTING = command.program("listing")
SECONDS = 60  # for a query
X1, X2, X3 = 24, 25, 26  # the start's lines of these registers
KINDS = {"Div": 64, "Divw": 32}  # the bits of the operands


class Unfit(Exception):
    """What is wrong with lines that can't be translated, or in which the division isn't found."""


#
# Terms and texts of SMT-LIB
#


def constant(value, bits):
    return f"(_ bv{value % 2**bits} {bits})"


def minus(term, bits):
    """Two's complement: the complement and one."""
    return f"(bvadd (bvnot {term}) {constant(1, bits)})"


def extended(extension, term):
    """zero_extend or sign_extend, of 32 bits to 64."""
    return f"((_ {extension} 32) {term})"


class Named(NamedTuple):
    """A constant's name and its bits, and terms about it."""

    name: str
    bits: int

    def equals(self, value):
        return f"(= {self.name} {constant(value, self.bits)})"

    def negative(self):
        return f"(bvslt {self.name} {constant(0, self.bits)})"

    def magnitude(self):
        return f"(ite {self.negative()} {minus(self.name, self.bits)} {self.name})"


def signed_quotient(dividend, divisor, magnitude):
    """The magnitude, negated where the signs of dividend and divisor differ."""
    return f"(ite (= {dividend.negative()} {divisor.negative()}) {magnitude.name} {minus(*magnitude)})"


INSTEAD = "instead of "


class Model:
    """SMT-LIB constants: the bits of each, the term that defines it, None where it is any value, and a remark."""

    def __init__(self, bits=(), terms=(), remarks=()):
        self.bits, self.terms, self.remarks = dict(bits), dict(terms), dict(remarks)

    def define(self, name, bits, term=None, remark=None):
        self.bits[name], self.terms[name], self.remarks[name] = bits, term, remark
        return Named(name, bits)

    def replaced(self, terms):
        """The same with other terms, or None, for some of the constants. The remark is what stood there at first."""
        remarks = {name: self.remarks[name] or self.terms[name] for name in terms}
        remarks = {name: remark if remark.startswith(INSTEAD) else INSTEAD + remark for name, remark in remarks.items()}
        return Model(self.bits, self.terms | terms, self.remarks | remarks)

    def text(self, roots):
        """What the roots use, each constant after those that it uses itself."""
        written = {}

        def write(term):
            for name in re.findall("[a-z][a-z0-9_]*", term):
                if name in self.terms and name not in written:
                    write(self.terms[name] or "")
                    written[name] = self.declaration(name)

        for root in roots:
            write(root)
        return "".join(written.values())

    def declaration(self, name):
        sort, term, remark = f"(_ BitVec {self.bits[name]})", self.terms[name], self.remarks[name]
        written = f"(declare-const {name} {sort})" if term is None else f"(define-fun {name} () {sort} {term})"
        return f"{written} ; {remark}\n" if remark else f"{written}\n"


CUT = "cut"


class Query(NamedTuple):
    """A claim under assumptions, or, without a claim, whether the assumptions can be met. `shown` is what the text has in any case."""

    kind: str
    about: str
    says: str
    model: Model
    assumptions: tuple[str, ...]
    claim: str | None
    shown: tuple[str, ...] = ()

    @property
    def name(self):
        return f"{self.kind}, {self.about}: {self.says}"

    @property
    def is_cut(self):
        return self.about == CUT

    @property
    def expected(self):
        return "sat" if self.claim is None else "unsat"

    def text(self):
        asserted = [*self.assumptions] if self.claim is None else [*self.assumptions, f"(not {self.claim})"]
        asserts = "".join(f"(assert {term})\n" for term in asserted)
        return f"; {self.name}\n(set-logic QF_BV)\n{self.model.text([*self.shown, *asserted])}{asserts}(check-sat)\n"


def ask(solver, query):
    """What the solver answers: `unsat`, `sat`, or anything else that it writes."""
    try:
        done = subprocess.run(
            [solver, f"-T:{SECONDS}", "-in"], input=query.text(), stdout=subprocess.PIPE, text=True, errors="replace", timeout=SECONDS + 10
        )
    except subprocess.TimeoutExpired:
        return "timeout"
    return " ".join(done.stdout.split()) or f"nothing, with exit status {done.returncode}"


#
# The lines
#

WIDTH = {BIT: 1, WORDS: 64}
OPERATORS = {"add": "bvadd", "sub": "bvsub", "sll": "bvshl", "srl": "bvlshr", "sdiv": "bvsdiv"}  # those of the lines of Div and Divw on words
FURTHER_OPERATORS = {"mul": "bvmul", "udiv": "bvudiv", "or": "bvor"}  # those that the self test puts in their place
START_CONSTANTS = {20: 0, 21: 1, 22: 0, 23: 1}


def line_name(nid):
    return f"n{nid}"


def read_nodes(lines, operators):
    """The lines as nodes: their identifiers rise by one, their operators are known, and their sorts are right, those of bits and words."""
    try:
        nodes = [Node(line) for line in lines]
    except (ValueError, IndexError):
        raise Unfit("a line isn't a node line") from None
    if [node.nid for node in nodes] != list(range(59, 59 + len(nodes))):
        raise Unfit("identifiers don't rise by one from 59")
    ill = ill_sorted(nodes)
    for node in nodes:
        if node.operator not in {"constd", "ite", *operators}:
            raise Unfit(f"line {node.nid}: the operator {node.operator} isn't one of the lines of Div and Divw")
        if node.nid in ill or node.sort not in WIDTH:
            raise Unfit(f"line {node.nid}: it breaks BTOR2's sorts, or is no bit and no word")
    return nodes


def translated(node, operators):
    """The term of a line."""
    operands = [line_name(operand) for operand in node.operands]
    if node.operator == "constd":
        return constant(node.number, WIDTH[node.sort])
    if node.operator == "ite":
        return f"(ite {Named(operands[0], 1).equals(1)} {operands[1]} {operands[2]})"
    return f"({operators[node.operator]} {' '.join(operands)})"


def translate(lines, operators):
    """The nodes, and a model of the start's bits and words and of every line."""
    model = Model()
    for nid, sort in START_SORTS.items():
        if sort in WIDTH:
            value = START_CONSTANTS.get(nid)
            remark = {X1: "x1", X2: "x2", X3: "the old flow of x3", FLAG: "the flag"}.get(nid)
            model.define(line_name(nid), WIDTH[sort], None if value is None else constant(value, WIDTH[sort]), remark)
    nodes = read_nodes(lines, operators)
    for node, line in zip(nodes, lines):
        model.define(line_name(node.nid), WIDTH[node.sort], translated(node, operators), line)
    return nodes, model


#
# The manual, and the cases
#


def define_manual(model, bits):
    """DIV and DIVW of section 7.2. The quotient of division by zero has all bits set; where the most negative integer is divided by -1, it is
    the dividend; else it is rounded towards zero: the quotient of the magnitudes, negative where the signs differ. DIVW divides the lower 32 bits
    of rs1 by those of rs2, treating them as signed, and sign-extends the quotient of 32 bits."""

    def operand(register):
        return line_name(register) if bits == 64 else f"((_ extract 31 0) {line_name(register)})"

    dividend = model.define("dividend", bits, operand(X1))
    divisor = model.define("divisor", bits, operand(X2))
    model.define("dividend_magnitude", bits, dividend.magnitude())
    model.define("divisor_magnitude", bits, divisor.magnitude())
    magnitude = model.define("quotient_magnitude", bits, "(bvudiv dividend_magnitude divisor_magnitude)")
    overflow = f"(and {dividend.equals(least(bits))} {divisor.equals(-1)})"
    rounded = signed_quotient(dividend, divisor, magnitude)
    model.define("quotient", bits, f"(ite {divisor.equals(0)} {constant(-1, bits)} (ite {overflow} dividend {rounded}))")
    model.define("manual", 64, "quotient" if bits == 64 else extended("sign_extend", "quotient"))


def least(bits):
    return -(2 ** (bits - 1))


FLAG_SET, FLAG_CLEAR, FACTS = "flag 1", "flag 0", "the quotient of the magnitudes"
ORDINARY, NEGATIVE, OTHER = "ordinary", "a negative dividend over zero", "a dividend that isn't negative over zero"


def overflow_name(bits):
    return f"-2^{bits - 1} by -1"


def conditions(bits):
    """The parts of each case's condition: a term of each, made of the dividend and of the divisor."""
    flag, quotient = Named(line_name(FLAG), 1), Named("quotient_magnitude", bits)
    by = Named("divisor_magnitude", bits)  # the magnitudes are those of the manual
    cases = {
        FLAG_SET: {"the flag is 1": lambda a, b: flag.equals(1)},
        FLAG_CLEAR: {"the flag is 0": lambda a, b: flag.equals(0)},
        ORDINARY: {"the divisor isn't zero": lambda a, b: f"(not {b.equals(0)})"},
        NEGATIVE: {"the dividend is negative": lambda a, b: a.negative(), "the divisor is zero": lambda a, b: b.equals(0)},
        OTHER: {"the dividend isn't negative": lambda a, b: f"(not {a.negative()})", "the divisor is zero": lambda a, b: b.equals(0)},
        overflow_name(bits): {"the dividend is the least": lambda a, b: a.equals(least(bits)), "the divisor is -1": lambda a, b: b.equals(-1)},
    }
    if bits == 32:
        cases[ORDINARY][f"the pair isn't {overflow_name(32)}"] = lambda a, b: f"(not (and {a.equals(least(32))} {b.equals(-1)}))"
        half = f"(bvlshr dividend_magnitude {constant(1, 32)})"
        cases[FACTS] = {
            "over 1 it is the dividend's": lambda a, b: f"(=> {by.equals(1)} (= {quotient.name} dividend_magnitude))",
            "over 2 and more it is at most half of the dividend's":
                lambda a, b: f"(=> (bvuge {by.name} {constant(2, 32)}) (bvule {quotient.name} {half}))",
        }  # fmt: skip
    return cases


def condition_terms(bits):
    """The terms of the parts of each case's condition."""
    a, b = Named("dividend", bits), Named("divisor", bits)
    return {case: {part: term(a, b) for part, term in parts.items()} for case, parts in conditions(bits).items()}


#
# The queries
#


class Division:
    """The lines of Div or Divw, the manual, and what is asked."""

    def __init__(self, kind, lines, cases, operators):
        self.kind, self.bits, self.cases = kind, KINDS[kind], cases
        nodes, self.model = translate(lines, operators)
        self.nodes = {node.nid: node for node in nodes}
        self.shown = tuple(map(line_name, self.nodes))
        define_manual(self.model, self.bits)
        flows = [node for node in nodes if (node.operator, node.sort) == ("ite", WORDS) and node.operands[0] == FLAG]
        if not flows:
            raise Unfit("no line is an ite over the flag")
        self.flow, self.result = line_name(flows[-1].nid), flows[-1].operands[1]

    def term(self, *names):
        """That one of these cases holds."""
        held = [f"(and true {' '.join(self.cases[name].values())})" for name in names]
        return f"(or false {' '.join(held)})"

    def query(self, about, says, claim, *assumed, model=None):
        """A claim where all parts of the assumed cases hold."""
        assumptions = tuple(term for name in assumed for term in self.cases[name].values())
        return Query(self.kind, about, says, model or self.model, assumptions, claim, self.shown)

    def queries(self):
        """All of them, and after each whose assumptions are others than those before, whether these can be met."""
        asked = {()}
        for query in self.claims():
            yield query
            if query.assumptions not in asked:
                asked.add(query.assumptions)
                yield query._replace(says="there are such values", claim=None)

    def claims(self):
        by_zero = f"(ite {Named('divisor', self.bits).equals(0)} {constant(-1, self.bits)} (bvsdiv dividend divisor))"
        yield self.query("any value", "the manual's negation is bvneg", f"(= {minus('dividend', self.bits)} (bvneg dividend))")
        yield self.query("any pair", "the manual's quotient is bvsdiv, or all ones over zero", f"(= quotient {by_zero})")
        yield self.query(FLAG_CLEAR, "the flow is the old flow", f"(= {self.flow} {line_name(X3)})", FLAG_CLEAR)
        yield from self.corner(NEGATIVE, 1, -1)
        yield from self.corner(OTHER, -1, -1)
        yield from self.corner(overflow_name(self.bits), -least(self.bits), least(self.bits))
        cases = [ORDINARY, NEGATIVE, OTHER] if self.bits == 64 else [ORDINARY, NEGATIVE, OTHER, overflow_name(32)]
        yield self.query("any pair", f"it is {', or '.join(cases)}", self.term(*cases))
        if self.bits == 64:
            yield from self.comparison(self.model)
        else:
            cuts = Cuts(self)
            yield from cuts.queries()
            yield from self.comparison(cuts.model, FACTS)

    def corner(self, case, of_flow, of_manual):
        """What the flow and the manual come to, as numbers of 64 bits, and that they aren't the same where the numbers aren't."""
        flow, manual = Named(self.flow, 64), Named("manual", 64)
        yield self.query(case, f"the flow is {power(of_flow)}", flow.equals(of_flow), FLAG_SET, case)
        yield self.query(case, f"the manual's quotient is {power(of_manual)}", manual.equals(of_manual), FLAG_SET, case)
        if of_flow % 2**64 != of_manual % 2**64:
            yield self.query(case, "the flow is never the manual's quotient", f"(not {self.agrees()})", FLAG_SET, case)

    def agrees(self):
        return f"(= {self.flow} manual)"

    def comparison(self, model, *facts):
        """The flow against the manual: for ordinary pairs, and for all."""
        differing = [NEGATIVE] if self.bits == 64 else [NEGATIVE, overflow_name(32)]
        exactly = f"(= (not {self.agrees()}) {self.term(*differing)})"
        yield self.query(ORDINARY, "the flow is the manual's quotient", self.agrees(), FLAG_SET, ORDINARY, *facts, model=model)
        says = f"the flow differs from the manual's quotient exactly for {', and '.join(differing)}"
        yield self.query("any pair", says, exactly, FLAG_SET, *facts, model=model)


def power(value):
    """A number of 64 bits in words; 2^63 and -2^63 are the same."""
    value = value if value < 2**63 else value - 2**64
    large = abs(value).bit_length() - 1
    return f"{'-' if value < 0 else '+'}2^{large}" if large else str(value)


class Cuts:
    """The chain of cuts of Divw. `model` is the lines and the manual, with what was cut so far replaced."""

    def __init__(self, division):
        self.division, self.model = division, division.model
        node = division.nodes.get(division.result)
        if node is None or len(node.operands) != 2 or not set(node.operands) <= set(division.nodes):
            raise Unfit("what rd's flow takes with flag 1 isn't a line over two other lines")
        self.result = line_name(node.nid)
        self.dividend, self.divisor = (Named(line_name(operand), 64) for operand in node.operands)

    def cut(self, says, name, term, free=()):
        """Asks, for any values of the free constants, whether the constant of this name equals the term, which takes its place."""
        asked = self.model.replaced(dict.fromkeys(free))
        yield self.division.query(CUT, says, f"(= {name} {term})", model=asked)
        self.model = self.model.replaced({name: term})

    def queries(self):
        operands = (self.dividend, "dividend"), (self.divisor, "divisor")
        for line, operand in operands:
            yield from self.cut(f"{line.name} is the {operand}'s low word, sign-extended", line.name, extended("sign_extend", operand))
        yield from self.quotient_line()
        for _, operand in operands:
            narrow = extended("zero_extend", f"{operand}_magnitude")
            yield from self.cut(f"the magnitude of the {operand} at 64 bits is that at 32 bits", f"wide_{operand}_magnitude", narrow)
        yield from self.quotient_of_magnitudes()

    def quotient_line(self):
        """The line of the division over any operands; the names that its new term takes are new."""
        model = Model(self.model.bits, self.model.terms, self.model.remarks)
        model.define("wide_dividend_magnitude", 64, self.dividend.magnitude())
        model.define("wide_divisor_magnitude", 64, self.divisor.magnitude())
        magnitude = model.define("wide_quotient_magnitude", 64, "(bvudiv wide_dividend_magnitude wide_divisor_magnitude)")
        self.model = model
        says = f"{self.result} is the magnitudes' quotient with the sign, for any {self.dividend.name} and {self.divisor.name}"
        term = signed_quotient(self.dividend, self.divisor, magnitude)
        yield from self.cut(says, self.result, term, free=(self.dividend.name, self.divisor.name))

    def quotient_of_magnitudes(self):
        """The magnitudes' quotient at 64 bits by that at 32 bits, then that one by any constant that has what is shown of it."""
        free = "dividend_magnitude", "divisor_magnitude"
        term = f"(ite {Named(free[1], 32).equals(0)} {constant(-1, 64)} {extended('zero_extend', 'quotient_magnitude')})"
        says = "the quotient of the magnitudes at 64 bits is that at 32 bits, or all ones over zero, for any magnitudes"
        yield from self.cut(says, "wide_quotient_magnitude", term, free)
        asked = self.model.replaced(dict.fromkeys(free))
        for says, fact in self.division.cases[FACTS].items():
            yield self.division.query(CUT, f"{FACTS}: {says}, for any magnitudes", fact, model=asked)
        self.model = self.model.replaced({"quotient_magnitude": None})


#
# Asking
#


def listed(listing, kind):
    """The input line and what the listing prints for it."""
    line = f"0 {kind} 3 1 2 0"
    try:
        (block,) = values.printed(listing, [line])
    except (SystemExit, subprocess.CalledProcessError) as error:
        raise command.Failed(f"{listing} doesn't list what it is given: {error}") from None
    return line, block


def node_lines(block):
    return [text for text in block if not text.startswith(";")]


def answers(solver, division):
    """Each query and its answer. What follows a cut rests on it: after one that fails nothing more is asked."""
    for query in division.queries():
        answer = ask(solver, query)
        yield query, answer
        if query.is_cut and answer != query.expected:
            return


def compare(solver, listing, folder):
    """Asks all queries, and prints them with their answers. Returns how many there are, and what differs."""
    asked, differing = 0, []
    for kind, bits in KINDS.items():
        _, block = listed(listing, kind)
        try:
            for query, answer in answers(solver, Division(kind, node_lines(block), condition_terms(bits), OPERATORS)):
                asked += 1
                if folder:
                    (folder / f"{asked:02}.smt2").write_text(query.text())
                command.put(f"{query.name}: {answer}\n")
                if answer != query.expected:
                    differing.append(f"{query.name}: {answer}, not {query.expected}")
        except Unfit as unfit:
            differing.append(f"{kind}: {unfit}")
    return asked, differing


#
# The self test
#


def altered_line(text):
    """The line in other ways: those of values.py, the constant that it leaves out, other registers, and the other sort."""
    yield from map(" ".join, values.alterations(text))
    nid, operator, sort, *operands = text.split()
    if operator == "constd" and int(operands[0]) == 2**63:
        yield f"{nid} {operator} {sort} {2**62}"
    for place, operand in enumerate(operands) if operator != "constd" else ():
        for register in {X1, X2, X3} - {int(operand)} if int(operand) in (X1, X2, X3) else ():
            yield " ".join([nid, operator, sort, *operands[:place], str(register), *operands[place + 1 :]])
    yield " ".join([nid, operator, "1" if sort == "2" else "2", *operands])


def altered_lines(line, block):
    """All lines with one that rd's flow depends on altered."""
    lines = node_lines(block)
    needed = values.needed(values.Instruction(line, block, {3: X3}))
    for place, text in enumerate(lines):
        if int(text.split()[0]) in needed:
            for changed in altered_line(text):
                yield f"{changed!r} for {text!r}", [*lines[:place], changed, *lines[place + 1 :]]


def altered_conditions(bits):
    """The cases' conditions with one part left out, or with one operand read as the whole register."""
    a, b = Named("dividend", bits), Named("divisor", bits)
    whole_a, whole_b = (Named(line_name(register), 64) for register in (X1, X2))
    for case, parts in conditions(bits).items():
        for part, term in parts.items():
            terms = condition_terms(bits)
            del terms[case][part]
            yield f"{case}, without: {part}", terms
            whole = {"x1": term(whole_a, b), "x2": term(a, whole_b)}
            for register, read in whole.items():
                if bits == 32 and read != term(a, b):
                    terms = condition_terms(bits)
                    terms[case][part] = read
                    yield f"{case}, {part}, by the whole of {register}", terms


OPPOSITE = {"sat": "unsat", "unsat": "sat"}


def found(solver, kind, lines, cases):
    """What finds an alteration: the translation, or a query with another answer than expected; None where nothing does."""
    try:
        for query, answer in answers(solver, Division(kind, lines, cases, OPERATORS | FURTHER_OPERATORS)):
            if answer == OPPOSITE[query.expected]:
                return query.name
    except Unfit as unfit:
        return unfit
    return None


def alterations(line, block, bits):
    """What is altered, the lines and the conditions."""
    for says, lines in altered_lines(line, block):
        yield says, lines, condition_terms(bits)
    for says, cases in altered_conditions(bits):
        yield says, node_lines(block), cases


def self_test(solver, listing):
    """Div and Divw, unaltered and with each alteration, which must be found."""
    tried = untranslated = missed = 0
    for kind, bits in KINDS.items():
        line, block = listed(listing, kind)
        if found(solver, kind, node_lines(block), condition_terms(bits)):
            command.put(f"{kind} differs before any alteration\n")
            missed += 1
        for says, lines, cases in alterations(line, block, bits):
            finder = found(solver, kind, lines, cases)
            tried += 1
            untranslated += isinstance(finder, Unfit)
            if finder is None:
                missed += 1
                command.put(f"{kind}: not found: {says}\n")
    command.put(f"{tried} alterations, {untranslated} of them not translated, {missed} not found\n")
    return int(missed != 0)


def main():
    parser = command.Parser(description="Div and Divw against the manual, for all values.")
    parser.add_argument("--listing", type=pathlib.Path, default=LISTING)
    parser.add_argument("--solver", default="z3", help="z3, or a program that takes its options")
    parser.add_argument("--queries", type=pathlib.Path, metavar="FOLDER", help="where the texts of the queries are written")
    parser.add_argument("--self-test", action="store_true")
    chosen = parser.parse_args()
    solver = shutil.which(chosen.solver)
    if solver is None:
        raise command.Failed(f"the solver {chosen.solver} is missing")
    if not chosen.listing.is_file():
        raise command.Failed(f"{chosen.listing} is missing")
    listing = chosen.listing.resolve()
    if chosen.self_test:
        return self_test(solver, listing)
    if chosen.queries:
        chosen.queries.mkdir(parents=True, exist_ok=True)
    asked, differing = compare(solver, listing, chosen.queries)
    for difference in differing:
        command.put(f"differs: {difference}\n")
    command.put(f"{len(differing)} differences\n" if differing else f"{asked} queries, as expected\n")
    return int(bool(differing))


if __name__ == "__main__":
    command.run(main)
