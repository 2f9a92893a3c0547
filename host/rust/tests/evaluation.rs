// Lines evaluated on given values: lowered ones, what the records say, every refusal, the deepest list, and the calls of crates/evaluation_cases,
// whose stored answers tools/evaluation_cases.py worked out in another way.
mod common;

use common::*;
use lanthanumbat::{evaluate, head, Evaluated, Given, Refusal, BENCH_LINES, CELL, LINE, MOST_VISITS, VALUE};
use std::fmt::Write;
use std::thread;

const LB: u64 = 2;
const SB: u64 = 8;
const READ: u64 = 2;
const ADD: u64 = 4;
const UEXT: u64 = 13;
const ITE: u64 = 14;
const EQ: u64 = 15;
const NOT: u64 = 18;
const NEXT: u64 = 20;
const BYTE: u64 = 11;

// Places of the start, and where the state has those of flows.
const ONE_WORD: u64 = 3;
const X5: usize = 8;
const X6: usize = 9;
const MEMORY_STATE: usize = 35;
const FLOW_OF_MEMORY: usize = FIRST_ROLE + 70;

type Answer = Result<Evaluated, Refusal>;

fn value(value: u64, visits: u64) -> Answer {
    Ok(Evaluated { value, visits })
}

// What a line of the storage's list comes to where states and inputs are these.
fn asked(s: &Storage, place: usize, values: &[[u64; VALUE]], memory: &[[u64; CELL]]) -> Answer {
    evaluate(&s.list, s.state[LINES_USED] as usize, Given { values, memory }, place)
}

fn line(kind: u64, sort: u64) -> u64 {
    head(0, kind, sort, 0, 0, 0)
}

// The start, and what two instructions append.
fn example() -> Storage {
    let mut s = start(200, 8);
    let mut l = lent(&mut s);
    assert_eq!(l.lower(instruction(LUI, 5, 0, 0, 1), 65536, FLAG), Ok(()));
    assert_eq!(l.lower(instruction(BLTU, 0, 5, 6, -4), 65540, FLAG), Ok(()));
    s
}

// Waiting visits take up to 432 bytes of stack each, 1.8 MB for the deepest list, and the thread of a test has 2 MiB, of which the test takes some: deep
// lists get a larger one.
fn with_stack(work: impl FnOnce() + Send + 'static) {
    thread::Builder::new().stack_size(4 << 20).spawn(work).unwrap().join().unwrap();
}

#[test]
fn a_flow_and_a_branch() {
    let s = example();
    let flow = s.state[FLOWS + 5] as usize;
    let (x5, x6, flag) = ([X5 as u64, 7], [X6 as u64, 8], [FLAG as u64, 1]);
    assert_eq!(asked(&s, flow, &[x5, flag], &[]), value(4096, 3));
    assert_eq!(asked(&s, flow, &[x5], &[]), value(7, 3));
    assert_eq!(asked(&s, START + 2, &[x5], &[]), value(0, 3));
    assert_eq!(asked(&s, START + 2, &[x5, x6], &[]), value(1, 3));
    assert_eq!(asked(&s, START + 3, &[x5, x6], &[]), value(0, 4));
}

// A load reads what was there before the step: what a store leaves is given for the next one.
#[test]
fn a_byte_stored_and_loaded() {
    let mut s = start(200, 8);
    let mut l = lent(&mut s);
    assert_eq!(l.lower(instruction(SB, 0, 5, 6, 9), 65536, FLAG), Ok(()));
    assert_eq!(l.lower(instruction(LB, 7, 5, 0, 9), 65540, FLAG), Ok(()));
    let address = push(&mut s, line(CONST, WORD), [1008, 0, 0]) as u64;
    let memory = s.state[FLOW_OF_MEMORY];
    let stored = push(&mut s, line(READ, WORD), [memory, address, 0]);
    let loaded = s.state[FLOWS + 7] as usize;
    let values = [[X5 as u64, 1000], [X6 as u64, 0xabcdf0], [FLAG as u64, 1]];
    let cell = |word| [MEMORY_STATE as u64, 1008, word];
    let (old, new) = (0x1122_3344_5566_7788, 0x1122_3344_5566_f088);
    assert_eq!(asked(&s, stored, &values, &[cell(old)]), value(new, 51));
    assert_eq!(asked(&s, stored, &values[..2], &[cell(old)]), value(old, 5));
    assert_eq!(asked(&s, loaded, &values, &[cell(old)]), value(0x77, 27));
    assert_eq!(asked(&s, loaded, &values, &[cell(new), cell(old)]), value(-16_i64 as u64, 27));
}

#[test]
fn records() {
    let mut s = example();
    let flow = s.state[FLOWS + 5] as usize;
    let byte = push(&mut s, line(INPUT, BYTE), [0; 3]);
    let word = push(&mut s, line(UEXT, BYTE), [byte as u64, 0, 0]);
    let with_init = push(&mut s, head(0, STATE_LINE, WORD, 0, 1, 0), [ONE_WORD, 0, 0]);
    assert_eq!(asked(&s, flow, &[[X5 as u64, 7], [X5 as u64, 8]], &[]), value(7, 3)); // the first counts
    assert_eq!(asked(&s, flow, &[[X5 as u64, 7], [FLAG as u64, 6]], &[]), value(7, 3)); // a flag has one bit
    assert_eq!(asked(&s, FLAG, &[[FLAG as u64, u64::MAX]], &[]), value(1, 1));
    assert_eq!(asked(&s, X5, &[[u64::MAX, 7]], &[[X5 as u64, 0, 7]]), value(0, 1)); // for no line, and for a memory
    assert_eq!(asked(&s, word, &[[byte as u64, 511]], &[]), value(255, 2));
    assert_eq!(asked(&s, with_init, &[], &[]), value(0, 1)); // no init is used
}

//
// Refusals
//

#[test]
fn ill_sorted_where_it_is_visited() {
    let mut s = example();
    let wrong = push(&mut s, line(ADD, WORD), [X5 as u64, FLAG as u64, 0]);
    let chosen = push(&mut s, line(ITE, WORD), [FLAG as u64, X5 as u64, wrong as u64]);
    assert_eq!(asked(&s, wrong, &[], &[]), Err(Refusal(17)));
    assert_eq!(asked(&s, chosen, &[], &[]), Err(Refusal(17)));
    assert_eq!(asked(&s, chosen, &[[FLAG as u64, 1]], &[]), value(0, 3));
}

// Each sum takes twice the visits of the one before and one more.
#[test]
fn too_many_visits() {
    let mut s = example();
    let mut sum = X5;
    for _ in 0..15 {
        sum = push(&mut s, line(ADD, WORD), [sum as u64, sum as u64, 0]);
    }
    let most = push(&mut s, line(ADD, WORD), [sum as u64, sum as u64 - 1, 0]);
    let past = push(&mut s, line(ADD, WORD), [sum as u64, sum as u64, 0]);
    assert_eq!(asked(&s, sum, &[[X5 as u64, 3]], &[]), value(3 << 15, 65_535));
    assert_eq!(asked(&s, most, &[[X5 as u64, 3]], &[]), value((3 << 15) + (3 << 14), 98_303));
    assert_eq!(asked(&s, past, &[], &[]), Err(Refusal(18)));
}

// The last visit that is allowed: each negation of the sums takes one more.
#[test]
fn the_100_000th_visit() {
    let mut s = start(2000, 8);
    let mut sum = X5;
    for _ in 0..15 {
        sum = push(&mut s, line(ADD, WORD), [sum as u64, sum as u64, 0]);
    }
    let mut top = push(&mut s, line(ADD, WORD), [sum as u64, sum as u64 - 1, 0]);
    for _ in 0..MOST_VISITS - 98_303 {
        top = push(&mut s, line(NOT, WORD), [top as u64, 0, 0]);
    }
    assert_eq!(asked(&s, top, &[], &[]), value(u64::MAX, MOST_VISITS));
    top = push(&mut s, line(NOT, WORD), [top as u64, 0, 0]);
    assert_eq!(asked(&s, top, &[], &[]), Err(Refusal(18)));
}

// The answer for x5 of the example with one line more.
fn with(first: u64, operands: [u64; 3]) -> Answer {
    let mut s = example();
    push(&mut s, first, operands);
    asked(&s, X5, &[], &[])
}

#[test]
fn lists_that_are_not_fit() {
    let (last, flag) = (START as u64 + 4, FLAG as u64);
    assert_eq!(with(line(NOT, BIT), [flag, 0, 0]), value(0, 1));
    assert_eq!(with(line(0, WORD), [0; 3]), Err(Refusal(19)));
    assert_eq!(with(line(23, WORD), [0; 3]), Err(Refusal(19)));
    assert_eq!(with(line(CONST, 4), [0; 3]), Err(Refusal(19)));
    assert_eq!(with(line(NOT, BIT), [last, 0, 0]), Err(Refusal(19))); // its own place
    assert_eq!(with(head(0, STATE_LINE, WORD, 0, 1, 0), [u64::MAX, 0, 0]), Err(Refusal(19)));
    assert_eq!(with(head(0, STATE_LINE, WORD, 0, 0, 1), [u64::MAX, 0, 0]), value(0, 1)); // an address is no init
    let mut s = example();
    let next = push(&mut s, line(NEXT, BIT), [flag, flag, 0]);
    assert_eq!(asked(&s, X5, &[], &[]), value(0, 1));
    push(&mut s, line(NOT, BIT), [next as u64, 0, 0]); // of a line without a value
    assert_eq!(asked(&s, X5, &[], &[]), Err(Refusal(19)));
}

#[test]
fn lines_that_are_not_there() {
    let list = [line(STATE_LINE, WORD), 0, 0, 0, 0].repeat(BENCH_LINES + 1);
    let first = |words: usize, lines, place| evaluate(&list[..words], lines, Given::default(), place);
    assert_eq!(first(list.len(), BENCH_LINES, BENCH_LINES - 1), value(0, 1));
    assert_eq!(first(list.len(), BENCH_LINES + 1, 0), Err(Refusal(19)));
    assert_eq!(first(list.len(), usize::MAX, 0), Err(Refusal(19)));
    assert_eq!(first(3 * LINE, 3, 2), value(0, 1));
    assert_eq!(first(3 * LINE - 1, 3, 0), Err(Refusal(19))); // above its storage
    assert_eq!(first(3 * LINE, 3, 3), Err(Refusal(19)));
    assert_eq!(first(3 * LINE, 3, usize::MAX), Err(Refusal(19)));
    assert_eq!(first(0, 0, 0), Err(Refusal(19)));
}

#[test]
fn lines_that_cannot_be_asked_for() {
    let mut s = example();
    let byte = push(&mut s, line(INPUT, BYTE), [0; 3]);
    let next = push(&mut s, line(NEXT, BIT), [FLAG as u64, FLAG as u64, 0]);
    let bad = push(&mut s, line(BAD, 0), [FLAG as u64, 0, 0]);
    for place in [MEMORY_STATE, byte, next, bad] {
        assert_eq!(asked(&s, place, &[], &[]), Err(Refusal(19)));
    }
}

// All three apply; as one after the other is taken away, the next answers.
#[test]
fn the_first_refusal_is_given() {
    let mut s = example();
    let wrong = push(&mut s, line(NOT, WORD), [FLAG as u64, 0, 0]);
    let mut sum = X5;
    for _ in 0..16 {
        sum = push(&mut s, line(ADD, WORD), [sum as u64, sum as u64, 0]);
    }
    let all = push(&mut s, line(ADD, WORD), [sum as u64, wrong as u64, 0]);
    let broken = push(&mut s, 0, [0; 3]);
    assert_eq!(asked(&s, all, &[], &[]), Err(Refusal(19)));
    s.list[broken * LINE] = line(CONST, BIT);
    assert_eq!(asked(&s, all, &[], &[]), Err(Refusal(18)));
    s.list[all * LINE + 1] = sum as u64 - 1;
    assert_eq!(asked(&s, all, &[], &[]), Err(Refusal(17)));
    s.list[all * LINE + 2] = X5 as u64;
    assert_eq!(asked(&s, all, &[], &[]), value(0, 65_537));
}

// The kind whose visits take the most stack, as deep as a list may be (host/c/stack_test.c measures it).
#[test]
fn the_deepest_list() {
    with_stack(|| {
        let mut list = vec![line(STATE_LINE, BIT), 0, 0, 0, 0];
        for last in 0..BENCH_LINES as u64 - 1 {
            list.extend([line(EQ, BIT), last, 0, 0, 0]);
        }
        let visits = 2 * BENCH_LINES as u64 - 1;
        assert_eq!(evaluate(&list, BENCH_LINES, Given::default(), BENCH_LINES - 1), value(1, visits));
        assert_eq!(evaluate(&list, BENCH_LINES, Given { values: &[[0, 1]], memory: &[] }, BENCH_LINES - 1), value(1, visits));
    });
}

//
// The stored cases
//

const CASES: &str = "evaluation_cases";

// An area of the program: its words, all 0 at first, and how many are in use.
struct Area {
    words: Vec<u64>,
    used: usize,
}

impl Area {
    fn new(words: usize) -> Area {
        Area { words: vec![0; words], used: 0 }
    }

    // What does not fit is dropped whole.
    fn append(&mut self, words: &[u64]) {
        if let Some(room) = self.words.get_mut(self.used..self.used + words.len()) {
            room.copy_from_slice(words);
            self.used += words.len();
        }
    }

    fn keep(&mut self, words: u64) {
        self.used = self.used.min(words as usize);
    }

    // As many words as are asked for, or all: those that are not in use too.
    fn first(&self, words: u64) -> &[u64] {
        self.words.get(..words as usize).unwrap_or(&self.words)
    }

    // The records in the first words. Words after them, which fill none, cannot be handed to the wrapper; the library does not look at them.
    fn records<const N: usize>(&self, words: u64) -> Vec<[u64; N]> {
        self.first(words).chunks_exact(N).map(|record| record.try_into().unwrap()).collect()
    }
}

struct Desk {
    list: Area,
    values: Area,
    memory: Area,
}

impl Desk {
    // Lines, whose last word is 0; `placed` tells whether each one's own place is added to its operands.
    fn append_lines(&mut self, placed: bool, numbers: &[u64]) {
        let [count, first, a, b, c] = *numbers else { panic!() };
        for _ in 0..count {
            let place = if placed { (self.list.used / LINE) as u64 } else { 0 };
            self.list.append(&[first, a.wrapping_add(place), b.wrapping_add(place), c.wrapping_add(place), 0]);
        }
    }

    fn keep(&mut self, numbers: &[u64]) {
        for (area, words) in [&mut self.list, &mut self.values, &mut self.memory].into_iter().zip(numbers) {
            area.keep(*words);
        }
    }

    fn ask(&self, numbers: &[u64]) -> String {
        let [words, values, memory, lines, place] = *numbers else { panic!() };
        let (values, memory) = (self.values.records(values), self.memory.records(memory));
        match evaluate(self.list.first(words), lines as usize, Given { values: &values, memory: &memory }, place as usize) {
            Ok(Evaluated { value, visits }) => format!("{value} {visits}"),
            Err(Refusal(number)) => format!("refused {number}"),
        }
    }
}

fn stored_evaluations() {
    let mut desk = Desk { list: Area::new(4_100 * LINE), values: Area::new(256), memory: Area::new(384) };
    let (mut out, mut calls) = (String::new(), 0);
    for command in stored(CASES, "stdin").lines() {
        let numbers: Vec<u64> = command.split(' ').map(|number| number.parse().unwrap()).collect();
        match numbers[0] {
            1 | 2 => desk.append_lines(numbers[0] == 2, &numbers[1..]),
            3 => desk.values.append(&numbers[1..]),
            4 => desk.memory.append(&numbers[1..]),
            5 => {
                writeln!(out, "{}", desk.ask(&numbers[1..])).unwrap();
                calls += 1;
            }
            _ => desk.keep(&numbers[1..]),
        }
    }
    let wanted = stored(CASES, "stdout");
    for (n, (got, wanted)) in out.lines().zip(wanted.lines()).enumerate() {
        assert_eq!(got, wanted, "line {}", n + 1);
    }
    assert_eq!(out.len(), wanted.len());
    println!("{calls} evaluations");
    assert!(calls > 2000, "{calls}");
}

#[test]
fn stored_evaluations_through_the_library() {
    with_stack(stored_evaluations);
}
