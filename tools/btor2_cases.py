#!/usr/bin/env python3
"""Commands for the lent list, the lookup and the names, with what they must answer.

    tools/btor2_cases.py stdin    crates/btor2_cases/stdin: a command to a line
    tools/btor2_cases.py stdout   crates/btor2_cases/stdout: the answers

The answers are read off document 01, document 02 (R-3) and unicorn's mod.rs below, and share nothing with the project's definitions and code.
"""
import itertools
import sys

KINDS = (
    "Const Read Write Add Sub Mul Divu Div Rem Sll Srl Ult Ext Ite Eq And Or Not State Next Input Bad".split()
)
SORTS = (1, 2, 3, *range(11, 18))
WORD_RESULT = {"Read", "Add", "Sub", "Mul", "Divu", "Div", "Rem", "Sll", "Srl"}
NAMED = {"State", "Input", "Bad"}
HOLDS = 4
WORDS = 5  # of a record
TOP = 2**64 - 1
NO_ADDRESS = (0, 0)  # mark and address where there is none
PLACES = (0, 0), (1, 1), (2, 1), (4, 3), (5, 4), (TOP, 4), (TOP, TOP)  # each after the count of lines that there are


def carried(kind, sort):
    """The sort of the value that a record carries, or None."""
    if not 1 <= kind <= len(KINDS):
        return None
    name = KINDS[kind - 1]
    if name in WORD_RESULT:
        return 2
    if name == "Write":
        return 3
    if name in ("Ult", "Eq"):
        return 1
    if name in ("Next", "Bad") or sort not in SORTS:
        return None
    return 2 if name == "Ext" else sort


def commands():
    """Pairs of a command and its answer."""
    records = [[0] * 12 for _ in range(HOLDS)]

    def put(place, *fields, mark=0, address=0):
        if place < HOLDS:
            nid, kind, sort, op1, op2, op3, imm, area, at, length = fields
            name = KINDS[kind - 1] if 1 <= kind <= len(KINDS) else None
            # the value of a Const, and the place and the length of a name, stand where other lines have operands; kind, sort and area
            # have a byte each and the identifier has four: what does not fit is stored as the largest that does. An init is marked by 1
            first = imm if name == "Const" else op1
            others = [at, length] if name in NAMED else [op2, op3]
            last = (1 if imm else 0) if name == "State" else first
            # any mark but 0 says that there is an address, of which all 64 bits are kept; without one it is not looked at
            said = (1, address) if mark else NO_ADDRESS
            records[place] = [min(nid, 2**32 - 1), min(kind, 255), min(sort, 255), first, *others, last, min(area, 255), *others, *said]
        return (1, place, *fields, mark, address), "put" if place < HOLDS else "outside"

    def get(place):
        return (2, place), " ".join(map(str, records[place])) if place < HOLDS else "outside"

    def look(lines, place):
        if not (place < lines and place < HOLDS):
            return (3, lines, place), "0 no value"
        nid, kind, sort = records[place][:3]
        s = carried(kind, sort)
        return (3, lines, place), f"{nid} no value" if s is None else f"{nid} value of sort {s}"

    def name(area, at, length):
        text = {1: "host", 2: "own area"}.get(area, "")
        return (4, area, at, length), "[" + (text[at : at + length] if at + length <= len(text) else "") + "]"

    def address_of(lines, place):
        mark, address = records[place][-2:] if place < lines and place < HOLDS else NO_ADDRESS
        return (5, lines, place), str(address) if mark else "no address"

    yield get(0)
    yield look(1, 0)
    yield address_of(1, 0)
    # the last one that fits, and past it, up to places whose words are counted past 2^64; all words as large as can be
    for place in (3, 0, 2, 4, 5, TOP // 4, TOP, TOP // WORDS, TOP // WORDS + 1):
        yield put(place, *(TOP - i for i in range(10)), mark=TOP - 10, address=TOP - 11)
        yield get(place)
        for other in range(HOLDS):
            yield get(other)
    for kind in (*range(0, 24), TOP):
        for sort in (0, 1, 2, 3, 4, 10, 11, 17, 18, TOP):
            yield put(1, 100 + kind % 100, kind, sort, 0, 0, 0, 0, 0, 0, 0)
            yield look(4, 1)
    for kind in (254, 255, 256, 257, 256 + 19, TOP):  # 257 is not 1, a Const, and 275 is not a State
        yield put(1, 55, kind, 2, 7, 8, 9, 6, 1, 0, 4)
        yield get(1)
        yield look(2, 1)
    for sort in (254, 255, 256, 257, TOP):  # 257 is not 1, a Bit
        yield put(1, 55, 1, sort, 7, 8, 9, 6, 1, 0, 4)
        yield get(1)
        yield look(2, 1)
    for area in (254, 255, 256, 257, TOP):  # 257 is not 1, the host's
        yield put(1, 55, 21, 2, 7, 8, 9, 6, area, 0, 4)
        yield get(1)
    for nid in (2**32 - 2, 2**32 - 1, 2**32, 2**32 + 20, TOP):
        yield put(1, nid, 1, 2, 7, 8, 9, 6, 0, 0, 0)
        yield get(1)
        yield look(2, 1)
    for init in (0, 1, 2, 255, 256, TOP):
        yield put(1, 55, 19, 2, 7, 8, 9, init, 1, 0, 4)
        yield get(1)
        yield look(2, 1)
    for lines, place in PLACES:
        yield look(lines, place)
    for area in (0, 1, 2, 3, TOP):
        for at, length in ((0, 0), (0, 4), (1, 3), (1, 4), (4, 0), (4, 4), (5, 0), (0, 8), (0, 9), (8, 0), (9, 0), (TOP, 1), (1, TOP), (TOP, TOP)):
            yield name(area, at, length)
    yield from with_addresses(put, get, look, address_of)


def with_addresses(put, get, look, address_of):
    for mark, address in itertools.product((0, 1, 2, 15, 16, TOP), (0, 1, 2**63, TOP)):
        yield put(1, 55, 4, 2, 7, 8, 9, 6, 1, 0, 4, mark=mark, address=address)
        yield get(1)
        yield address_of(2, 1)
    for init, mark in itertools.product((0, 1, 15, 16, TOP), (0, 1, TOP)):  # of a State's init and of an address: neither mark is the other
        yield put(1, TOP, 19, 2, 7, 8, 9, init, TOP, 0, 4, mark=mark, address=TOP)
        yield get(1)
        yield address_of(2, 1)
        yield look(2, 1)
    for kind in (0, 1, 13, 19, 21, 22, TOP):  # all words but the last as large as can be, which is no address; then one of a line of zeros
        yield put(2, TOP, kind, TOP, TOP, TOP, TOP, TOP, TOP, TOP, TOP)
        yield get(2)
        yield address_of(3, 2)
        yield put(2, 0, kind, 0, 0, 0, 0, 0, 0, 0, 0, mark=1, address=TOP - 1)
        yield get(2)
        yield address_of(3, 2)
    yield get(1)  # those beside it keep theirs
    yield get(3)
    for place in range(HOLDS):
        yield put(place, *[0] * 10, mark=1, address=place)
        yield address_of(place, place)
        yield address_of(place + 1, place)
    for lines, place in (*PLACES, (TOP, TOP // WORDS), (TOP, TOP // WORDS + 1)):
        yield address_of(lines, place)


if __name__ == "__main__":
    for command, answer in commands():
        print(*command) if sys.argv[1:] == ["stdin"] else print(answer)
