// The first word of a line: no number runs over into another field, and one that does not fit is refused by a start's check. The mark of an
// address is not looked at there, and is no mark of an init.
mod common;

use common::*;
use lanthanumbat::{head, Refusal, LINE};

// Each number, and what a field of one byte, of four bytes and the mark of an init or of an address make of it.
const FIELDS: [(u64, u64, u64, u64); 12] = [
    (0, 0, 0, 0),
    (1, 1, 1, 1),
    (2, 2, 2, 1),
    (254, 254, 254, 1),
    (255, 255, 255, 1),
    (256, 255, 256, 1),
    (257, 255, 257, 1),
    (65_536, 255, 65_536, 1),
    ((1 << 32) - 2, 255, (1 << 32) - 2, 1),
    ((1 << 32) - 1, 255, (1 << 32) - 1, 1),
    (1 << 32, 255, (1 << 32) - 1, 1),
    (u64::MAX, 255, (1 << 32) - 1, 1),
];

#[test]
fn every_field_at_its_boundaries() {
    for (n, byte, nid, mark) in FIELDS {
        assert_eq!(head(n, 0, 0, 0, 0, 0), nid << 32);
        assert_eq!(head(0, n, 0, 0, 0, 0), byte);
        assert_eq!(head(0, 0, n, 0, 0, 0), byte << 8);
        assert_eq!(head(0, 0, 0, n, 0, 0), byte << 16);
        assert_eq!(head(0, 0, 0, 0, n, 0), mark << 24);
        assert_eq!(head(0, 0, 0, 0, 0, n), mark << 28);
        assert_eq!(head(n, n, n, n, n, 0), nid << 32 | mark << 24 | byte << 16 | byte << 8 | byte);
        assert_eq!(head(n, n, n, n, 0, n), nid << 32 | mark << 28 | byte << 16 | byte << 8 | byte);
        assert_eq!(head(n, n, n, n, n, n), nid << 32 | mark << 28 | mark << 24 | byte << 16 | byte << 8 | byte);
    }
}

// One line after a start's, with this first word, these operands and this last word.
fn with_last_word(first: u64, [a, b, c]: [u64; 3], last: u64) -> Result<(), Refusal> {
    let mut s = start(64, 8);
    s.list[START * LINE..(START + 1) * LINE].copy_from_slice(&[first, a, b, c, last]);
    s.state[LINES_USED] += 1;
    s.state[NEXT_NID] += 2;
    lent(&mut s).check_start(b"host")
}

fn one_more(first: u64, operands: [u64; 3]) -> Result<(), Refusal> {
    with_last_word(first, operands, 0)
}

#[test]
fn what_does_not_fit_is_refused() {
    let nid = FIRST + START as u64;
    assert_eq!(one_more(head(nid, CONST, WORD, 0, 0, 0), [7, 0, 0]), Ok(()));
    assert_eq!(one_more(head(nid, STATE_LINE, WORD, 1, 1, 0), [2, 0, 4]), Ok(()));
    for over in [256, 1 << 32, u64::MAX - 255] {
        assert_eq!(one_more(head(nid, CONST + over, WORD, 0, 0, 0), [7, 0, 0]), Err(Refusal(11)));
        assert_eq!(one_more(head(nid, CONST, WORD + over, 0, 0, 0), [7, 0, 0]), Err(Refusal(11)));
        assert_eq!(one_more(head(nid, STATE_LINE, WORD, 1 + over, 0, 0), [0, 0, 4]), Err(Refusal(11)));
        // an init is not lost: it is a line of another sort, or none
        assert_eq!(one_more(head(nid, STATE_LINE, WORD, 0, over, 0), [0, 0, 0]), Err(Refusal(12)));
        assert_eq!(one_more(head(nid, STATE_LINE, WORD, 0, over, 0), [START as u64, 0, 0]), Err(Refusal(11)));
    }
    assert_eq!(one_more(head((1 << 32) + nid, CONST, WORD, 0, 0, 0), [7, 0, 0]), Err(Refusal(10)));
}

// Each half of byte 3 is a mark of its own, whatever it is but 0. A state without an init may have any first operand.
#[test]
fn an_address_is_no_init() {
    let (nid, no_line) = (FIRST + START as u64, START as u64);
    let state = |marks: u64, first| one_more(head(nid, STATE_LINE, WORD, 0, 0, 0) | marks << 24, [first, 0, 0]);
    for half in 1..16 {
        for other in [0, half << 4, 15 << 4] {
            assert_eq!(state(half | other, 2), Ok(()));
            assert_eq!(state(half | other, no_line), Err(Refusal(11)));
            assert_eq!(state(other, no_line), Ok(()));
        }
    }
}

#[test]
fn no_check_looks_at_an_address() {
    let nid = FIRST + START as u64;
    for address in [0, 1, 1 << 32, 1 << 63, u64::MAX] {
        for mark in [0, 1, 256, u64::MAX] {
            assert_eq!(with_last_word(head(nid, CONST, WORD, 0, 0, mark), [7, 0, 0], address), Ok(()));
            assert_eq!(with_last_word(head(nid, STATE_LINE, WORD, 1, 1, mark), [2, 0, 4], address), Ok(()));
            assert_eq!(with_last_word(head(nid, CONST, 4, 0, 0, mark), [7, 0, 0], address), Err(Refusal(11)));
        }
    }
}
