// Div and Divw by the library, evaluated by its bench, against Rust's own division: the manual's quotient where the division is ordinary, and
// where it is not, what docs/DIFFERENCES.md says of the pair.
mod common;

use common::*;
use lanthanumbat::{evaluate, Given};

const DIV: u64 = 33;
const DIVW: u64 = 37;
const X1: u64 = 4; // places of the start
const X2: u64 = 5;
const DIVISION_FLOW: usize = FIRST_ROLE + 73;
const DRAWN: usize = 100_000;

// 0, 1, 2 and their negatives; the least and the greatest of 64 bits and of 32 bits; and words whose high halves are not the sign of the low ones.
#[rustfmt::skip]
const BOUNDARIES: [i64; 17] = [
    0, 1, -1, 2, -2, 7, -7, i64::MIN, i64::MAX, i32::MIN as i64, i32::MAX as i64, 1 << 31, u32::MAX as i64, 1 << 32, 0x0123_4567_8000_0000,
    0x0123_4567_ffff_ffff, -1 << 32,
];

// The manual: by zero all bits are set, and what overflows wraps.
fn manual_div(a: i64, b: i64) -> i64 {
    if b == 0 {
        -1
    } else {
        a.wrapping_div(b)
    }
}

fn manual_divw(a: i64, b: i64) -> i64 {
    if b as i32 == 0 {
        -1
    } else {
        (a as i32).wrapping_div(b as i32).into()
    }
}

// Document 02, R-4.
fn ordinary(kind: u64, a: i64, b: i64) -> bool {
    match kind {
        DIV => b != 0,
        _ => b as i32 != 0 && (a as i32, b as i32) != (i32::MIN, -1),
    }
}

// What docs/DIFFERENCES.md says of a pair that is not ordinary.
fn entry(kind: u64, a: i64, b: i64) -> i64 {
    let dividend = if kind == DIV { a } else { (a as i32).into() };
    if kind == DIVW && b as i32 == -1 {
        1 << 31
    } else if dividend < 0 {
        1
    } else {
        -1
    }
}

fn manual(kind: u64, a: i64, b: i64) -> i64 {
    if kind == DIV {
        manual_div(a, b)
    } else {
        manual_divw(a, b)
    }
}

// What a place comes to where x1 and x2 are these, under a true flag.
fn asked(s: &Storage, place: u64, a: i64, b: i64) -> i64 {
    let values = [[X1, a as u64], [X2, b as u64], [FLAG as u64, 1]];
    evaluate(&s.list, s.state[LINES_USED] as usize, Given { values: &values, memory: &[] }, place as usize).unwrap().value as i64
}

// x3 is x1 by x2.
fn divided(kind: u64) -> Storage {
    let mut s = start(60, 1);
    assert_eq!(lent(&mut s).lower(instruction(kind, 3, 1, 2, 0), 65536, FLAG), Ok(()));
    s
}

fn pairs() -> Vec<(i64, i64)> {
    let mut draws = Draws(0x9e37_79b9_7f4a_7c15);
    let mut pairs: Vec<_> = BOUNDARIES.iter().flat_map(|a| BOUNDARIES.map(|b| (*a, b))).collect();
    pairs.extend((0..DRAWN).map(|_| {
        let shift = draws.any() % 64; // divisors of every length
        (draws.any() as i64, draws.any() as i64 >> shift)
    }));
    pairs
}

// How many of the pairs are ordinary.
fn compare(kind: u64) -> usize {
    let s = divided(kind);
    let flow = s.state[FLOWS + 3];
    let mut count = 0;
    for (a, b) in pairs() {
        let usual = ordinary(kind, a, b);
        let wanted = if usual { manual(kind, a, b) } else { entry(kind, a, b) };
        assert_eq!(asked(&s, flow, a, b), wanted, "kind {kind}, {a} by {b}");
        count += usize::from(usual);
    }
    count
}

#[test]
fn div() {
    assert_eq!((compare(DIV), pairs().len()), (98_688, 100_289));
}

#[test]
fn divw() {
    assert_eq!((compare(DIVW), pairs().len()), (98_625, 100_289));
}

// The smallest inputs of docs/DIFFERENCES.md.
#[test]
fn corners() {
    let (div, divw) = (divided(DIV), divided(DIVW));
    let quotient = |s: &Storage, a, b| asked(s, s.state[FLOWS + 3], a, b);
    assert_eq!((quotient(&div, -1, 0), manual_div(-1, 0)), (1, -1));
    assert_eq!((quotient(&divw, -1, 0), manual_divw(-1, 0)), (1, -1));
    assert_eq!((quotient(&divw, -1 << 31, -1), manual_divw(-1 << 31, -1)), (1 << 31, -1 << 31));
    assert_eq!((quotient(&div, i64::MIN, -1), manual_div(i64::MIN, -1)), (i64::MIN, i64::MIN));
    assert_eq!((quotient(&div, 0, 0), quotient(&divw, 0, 0)), (-1, -1));
}

// Div's divisor is in the division flow, where a model checker looks for zero; Divw's is not.
#[test]
fn the_division_flow() {
    let (before, div, divw) = (start(60, 1).state[DIVISION_FLOW], divided(DIV), divided(DIVW));
    assert_eq!(asked(&div, div.state[DIVISION_FLOW], 0, 0), 0);
    assert_eq!(asked(&div, div.state[DIVISION_FLOW], 7, 2), 2);
    assert_eq!(divw.state[DIVISION_FLOW], before);
    assert_eq!(asked(&divw, before, 0, 0), 1); // the word 1, with which the flow starts
}
