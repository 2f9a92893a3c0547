// The table of docs/SORTS.md, seen through the library: what is printed for each sort and for a uext from it, which numbers are sorts at all, and how
// large a constant of each may be.
mod common;

use common::*;
use lanthanumbat::{evaluate, head, Evaluated, Given, Refusal};

const EXT: u64 = 13;
const ITE: u64 = 14;
const AND: u64 = 16;
const OR: u64 = 17;
const NOT: u64 = 18;
const NEXT: u64 = 20;

const UNFORMED: Refusal = Refusal(11);
const SORT_RULE: Refusal = Refusal(17);

// A row: the number of the sort, the bits of a value, none for an array, and the padding of a uext.
struct Row {
    number: u64,
    bits: Option<u64>,
    padding: u64,
}

fn table() -> Vec<Row> {
    let rows = include_str!("../../../docs/SORTS.md").lines().filter_map(|line| line.strip_prefix("| "));
    let row = |line: &str| {
        let cells: Vec<&str> = line.trim_end_matches(" |").split(" | ").collect();
        let number = |cell: usize| cells[cell].parse().unwrap();
        Row { number: number(2), bits: cells[0].contains("bitvec").then(|| number(3)), padding: number(4) }
    };
    let rows: Vec<Row> = rows.filter(|line| line.starts_with(char::is_numeric)).map(row).collect();
    assert_eq!(rows.len(), 10);
    rows
}

// A line of a kind, after the start's.
fn line(s: &mut Storage, kind: u64, sort: u64, operands: [u64; 3]) -> usize {
    let nid = FIRST + s.state[LINES_USED];
    push(s, head(nid, kind, sort, 0, 0, 0), operands)
}

// A list with an input of a sort and a uext from it, whose place is given.
fn extended(sort: u64) -> (Storage, usize) {
    let mut s = start(START + 2, 1);
    let input = line(&mut s, INPUT, sort, [0; 3]);
    let place = line(&mut s, EXT, sort, [input as u64, 0, 0]);
    (s, place)
}

#[test]
fn numbers_and_paddings_as_printed() {
    for row in table() {
        let (mut s, place) = extended(row.number);
        let (input, uext) = (FIRST + place as u64 - 1, FIRST + place as u64);
        let l = lent(&mut s);
        if row.bits.is_none() {
            assert_eq!(l.print(b"", place, 1, &mut [0; 64]), Err(UNFORMED));
            continue;
        }
        assert_eq!(text(&l, place - 1), format!("{input} input {} ?\n{uext} uext 2 {input} {}\n", row.number, row.padding));
    }
}

#[test]
fn a_uext_is_a_word() {
    for row in table() {
        let Some(bits) = row.bits else { continue };
        let (s, place) = extended(row.number);
        let values = [[place as u64 - 1, u64::MAX]];
        let value = evaluate(&s.list, place + 1, Given { values: &values, memory: &[] }, place);
        // A uext from a Word breaks the sort rule, though it is printed.
        let wanted = if bits == 64 { Err(SORT_RULE) } else { Ok(Evaluated { value: u64::MAX >> row.padding, visits: 2 }) };
        assert_eq!(value, wanted);
        assert_eq!(bits + row.padding, 64);
    }
}

#[test]
fn no_other_number_is_a_sort() {
    let sorts: Vec<u64> = table().iter().map(|row| row.number).collect();
    for number in 0..256 {
        for kind in [CONST, EXT, ITE, AND, OR, NOT, STATE_LINE, NEXT, INPUT] {
            let mut s = start(START + 1, 1);
            let place = line(&mut s, kind, number, [0; 3]);
            let from_memory = kind == EXT && number == MEMORY;
            let printed = lent(&mut s).print(b"", place, 1, &mut [0; 64]);
            assert_eq!(printed.err(), (!sorts.contains(&number) || from_memory).then_some(UNFORMED), "kind {kind}, sort {number}");
        }
    }
}

#[test]
fn constants_up_to_their_width() {
    for row in table() {
        let Some(bits) = row.bits else { continue };
        let largest = u64::MAX >> (64 - bits);
        for (value, fits) in [(0, true), (largest, true), (largest.wrapping_add(1), bits == 64), (u64::MAX, bits == 64)] {
            let mut s = start(START + 2, 1);
            let constant = line(&mut s, CONST, row.number, [value, 0, 0]);
            let asked = if [BIT, WORD].contains(&row.number) { constant } else { line(&mut s, EXT, row.number, [constant as u64, 0, 0]) };
            let visits = (asked - constant) as u64 + 1;
            let wanted = if fits { Ok(Evaluated { value, visits }) } else { Err(SORT_RULE) };
            assert_eq!(evaluate(&s.list, asked + 1, Given::default(), asked), wanted, "sort {}, value {value}", row.number);
        }
    }
}
