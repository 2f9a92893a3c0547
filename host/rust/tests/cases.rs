// The calls of crates/lowering_cases, whose stored answers are the unchanged Rust's, through the library: one by one, and many in one.
mod common;

use common::*;
use lanthanumbat::{Refusal, CALL, DISPATCH, EDGE, LINE};
use std::fmt::Write;

const DISPATCHES_USED: usize = 4;
const BADS_USED: usize = 5;
const FIRST_FLOW: usize = FIRST_ROLE + 39;
const OUR_AREA: u64 = 2;
const CASES: &str = "lowering_cases";

// What that program lends.
fn storage() -> Storage {
    let mut s = start(800, 3);
    s.names = vec![0; 1024];
    s.bads = vec![0; 32];
    s
}

// The line at a place, and its name where lines of its kind have one, in that program's words.
fn shown_line(s: &Storage, place: usize) -> String {
    let line = &s.list[place * LINE..(place + 1) * LINE];
    let [first, a, b, c, _] = *line else { panic!() };
    let (kind, sort, area) = (first & 255, first >> 8 & 255, first >> 16 & 255);
    let imm = if kind == STATE_LINE { first >> 24 & 15 } else { a };
    let mut out = format!("{} {kind} {sort} {a} {b} {c} {imm} {area} {b} {c} {}\n", first >> 32, shown_address(line));
    if [STATE_LINE, INPUT, BAD].contains(&kind) {
        let name = if area == OUR_AREA { &s.names[b as usize..(b + c) as usize] } else { b"" };
        out += std::str::from_utf8(name).unwrap();
        out.push('\n');
    }
    out
}

// What a call appended, in that program's words.
fn shown(s: &Storage, before: &Storage) -> String {
    let mut out = String::new();
    let run = |count: usize| before.state[count] as usize..s.state[count] as usize;
    for place in run(LINES_USED) {
        out += &shown_line(s, place);
    }
    for e in run(EDGES_USED).map(|place| &s.edges[place * EDGE..(place + 1) * EDGE]) {
        writeln!(out, "edge {} {} {} {}", e[0], e[1], e[2], e[3]).unwrap();
    }
    for d in run(DISPATCHES_USED).map(|place| &s.dispatches[place * DISPATCH..(place + 1) * DISPATCH]) {
        writeln!(out, "dyn {} {}", d[0], d[1]).unwrap();
    }
    for place in run(BADS_USED) {
        writeln!(out, "bad {}", s.bads[place]).unwrap();
    }
    let words = |words: &[u64]| words.iter().map(|word| format!(" {word}")).collect::<String>();
    writeln!(out, "counts{}", words(&s.state[..FIRST_ROLE])).unwrap();
    writeln!(out, "flows{}", words(&s.state[FIRST_FLOW..])).unwrap();
    out
}

#[test]
fn one_by_one() {
    let (mut s, mut out, mut calls) = (storage(), String::new(), 0);
    for command in stored(CASES, "stdin").lines() {
        let numbers: Vec<u64> = command.split(' ').map(|number| number.parse().unwrap()).collect();
        match numbers[0] {
            1 => {
                let before = s.clone();
                let i = instruction(numbers[2], numbers[3], numbers[4], numbers[5], numbers[6] as i64);
                match lent(&mut s).lower(i, numbers[1], numbers[7] as usize) {
                    Ok(()) => out += &shown(&s, &before),
                    Err(Refusal(number)) => {
                        assert!(s == before);
                        writeln!(out, "refused {number}").unwrap();
                    }
                }
                s.state[EDGES_USED] = 0;
                s.state[DISPATCHES_USED] = 0;
                calls += 1;
            }
            2 => s.restart(),
            3 => s.state[..FIRST_ROLE].copy_from_slice(&numbers[1..]),
            4 => s.state[FIRST_ROLE + numbers[1] as usize] = numbers[2],
            5 => put(&mut s.list, &numbers[1..]),
            6 => out += &shown_line(&s, numbers[1] as usize),
            other => panic!("{other}"),
        }
    }
    let wanted = stored(CASES, "stdout");
    for (n, (got, wanted)) in out.lines().zip(wanted.lines()).enumerate() {
        assert_eq!(got, wanted, "line {}", n + 1);
    }
    assert_eq!(out.len(), wanted.len());
    assert!(calls > 600, "{calls}");
}

// The accepted calls of each start in one call, with room for all that they append: the list and the flows are as one by one.
#[test]
fn many_in_one() {
    let (mut one, mut calls, mut runs): (Storage, Vec<[u64; CALL]>, usize) = (roomy(), vec![], 0);
    let mut first = one.clone();
    for command in stored(CASES, "stdin").lines().chain(["2"]) {
        let numbers: Vec<u64> = command.split(' ').map(|number| number.parse().unwrap()).collect();
        if numbers[0] == 1 {
            let call: [u64; CALL] = numbers[1..].try_into().unwrap();
            if lower(&mut lent(&mut one), call).is_ok() {
                calls.push(call);
            }
            continue;
        }
        if !calls.is_empty() {
            let mut all = first.clone();
            assert_eq!(lent(&mut all).lower_all(&calls), (calls.len(), Ok(())));
            assert!(all == one);
            runs += 1;
        }
        match numbers[0] {
            2 => one.restart(),
            3 => one.state[..FIRST_ROLE].copy_from_slice(&numbers[1..]),
            4 => one.state[FIRST_ROLE + numbers[1] as usize] = numbers[2],
            5 => put(&mut one.list, &numbers[1..]),
            _ => (), // a line is shown, and nothing changes
        }
        first = one.clone();
        calls.clear();
    }
    assert!(runs > 30, "{runs}");
}

fn roomy() -> Storage {
    let mut s = start(2000, 200);
    s.names = vec![0; 4096];
    s.dispatches = vec![0; 100 * DISPATCH];
    s.bads = vec![0; 100];
    s
}
