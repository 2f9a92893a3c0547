// The calls of crates/join_cases, whose stored answers are the unchanged Rust's, through the library. Its src/main.rt says what each command and
// each line of the answers is. The program has the edges in records and lends words for theirs; the library takes the words themselves. So a
// call that is refused for too few such words is not made here, and the number for them is not looked at.
mod common;

use common::*;
use lanthanumbat::{Join, Lent, Refusal, Sequentials, DYNAMICS, EDGE, LINE, STATE};
use std::fmt::Write;

// The words and bytes that the program has, and what each of them is before.
const LIST: usize = 800 * LINE;
const NAMES: usize = 2048;
const SEQUENTIALS: usize = 64;
const SCRATCH: usize = 68;
const BEFORE: u8 = 46;
const CASES: &str = "join_cases";

// What is given of one kind: how many records the call says, and the words that are lent of them.
#[derive(Clone, Default)]
struct Given {
    count: usize,
    words: Vec<u64>,
}

impl Given {
    fn new(numbers: &[u64]) -> Given {
        assert_eq!(numbers[1] as usize, numbers.len() - 2);
        Given { count: numbers[0] as usize, words: numbers[2..].to_vec() }
    }

    // The records that the call says there are, None where the words hold fewer: no slice of records is like that.
    fn records<const N: usize>(&self) -> Option<Vec<[u64; N]>> {
        let all: Vec<[u64; N]> = self.words.chunks_exact(N).map(|record| record.try_into().unwrap()).collect();
        all.get(..self.count).map(<[_]>::to_vec)
    }

    // The dynamic flags; one that is not given is no place.
    fn dynamics(&self) -> [u64; DYNAMICS] {
        std::array::from_fn(|n| self.words.get(n).copied().unwrap_or(u64::MAX))
    }
}

// What the program holds between commands.
struct Desk {
    list: Vec<u64>,
    names: Vec<u8>,
    places: Vec<u64>,
    state: [u64; STATE],
    edges: Given,
    dispatches: Given,
    flags: Given,
    dynamics: Given,
    kernel: [usize; 2],
    lent: [usize; 3],
    used: usize,
    scratch: usize,
}

impl Desk {
    fn new() -> Desk {
        Desk {
            list: vec![BEFORE as u64; LIST],
            names: vec![BEFORE; NAMES],
            places: vec![BEFORE as u64; SEQUENTIALS],
            state: [0; STATE],
            edges: Given::default(),
            dispatches: Given::default(),
            flags: Given::default(),
            dynamics: Given::default(),
            kernel: [0; 2],
            lent: [0; 3],
            used: 0,
            scratch: SCRATCH,
        }
    }

    fn set(&mut self, command: u64, numbers: &[u64]) {
        match command {
            2 => put(&mut self.list, numbers),
            3 => self.state[..FIRST_ROLE].copy_from_slice(numbers),
            4 => self.state[FIRST_ROLE + numbers[0] as usize] = numbers[1],
            5 => self.edges = Given::new(numbers),
            6 => self.dispatches = Given::new(numbers),
            7 => self.flags = Given::new(numbers),
            8 => self.dynamics = Given::new(numbers),
            9 => self.kernel = [numbers[0] as usize, numbers[1] as usize],
            10 => {
                self.lent = [numbers[0] as usize, numbers[1] as usize, numbers[2] as usize];
                self.used = numbers[3] as usize;
            }
            11 => self.scratch = numbers[0] as usize,
            other => panic!("{other}"),
        }
    }

    // Whether the words that are lent for the edges' own hold fewer than the call says there are.
    fn short(&self) -> bool {
        self.scratch / EDGE < self.edges.count
    }

    // None where more edges, dispatches or flags are said to be given than there are.
    fn join(&mut self, flow: usize) -> Option<Result<usize, Refusal>> {
        let (edges, dispatches, flags) = (self.edges.records()?, self.dispatches.records()?, self.flags.records()?);
        let [mode, none] = self.kernel;
        let dynamics = self.dynamics.dynamics();
        let j = Join { edges: &edges, dispatches: &dispatches, flags: &flags, dynamics: &dynamics, mode, none, flow };
        let [words, bytes, places] = self.lent;
        let mut sequentials = Sequentials { places: &mut self.places[..places], used: self.used };
        let (list, names, state) = (&mut self.list[..words], &mut self.names[..bytes], &mut self.state);
        let answer = Lent { list, names, edges: &mut [], dispatches: &mut [], bads: &mut [], state }.join(&mut sequentials, j);
        self.used = sequentials.used;
        Some(answer)
    }

    // The lines, names and sequentials from these counts on, and the flow.
    fn appended(&self, lines: usize, used: usize, flow: usize) -> String {
        let mut out = String::new();
        for line in self.list[lines * LINE..self.state[LINES_USED] as usize * LINE].chunks(LINE) {
            let (kind, sort, area, init) = (line[0] & 255, line[0] >> 8 & 255, line[0] >> 16 & 255, line[0] >> 24 & 15);
            let [_, a, b, c, _] = *line else { panic!() };
            let imm = if kind == STATE_LINE { init } else { a };
            writeln!(out, "{} {kind} {sort} {a} {b} {c} {imm} {area} {b} {c} {}", line[0] >> 32, shown_address(line)).unwrap();
            if kind == STATE_LINE {
                writeln!(out, "{}", std::str::from_utf8(&self.names[b as usize..(b + c) as usize]).unwrap()).unwrap();
            }
        }
        writeln!(out, "sequentials{}\nflow {flow}", spaced(&self.places[used..self.used])).unwrap();
        out
    }

    // What is in use, and a number each for all words and bytes that the library has too, lent or not.
    fn left(&self) -> String {
        let names: Vec<u64> = self.names.iter().map(|byte| u64::from(*byte)).collect();
        let digests = [&self.list[..], &names, &self.places, &self.state[FIRST_ROLE..]].map(digest);
        format!("counts{} {}\nleft{}\n", spaced(&self.state[..FIRST_ROLE]), self.used, spaced(&digests))
    }
}

fn spaced(numbers: &[u64]) -> String {
    numbers.iter().map(|number| format!(" {number}")).collect()
}

fn digest(numbers: &[u64]) -> u64 {
    numbers.iter().fold(0, |all: u64, number| all.wrapping_mul(5).wrapping_add(*number))
}

// The answers without the last number of what is left.
fn without_last(answers: &str) -> String {
    let mut out = String::new();
    for line in answers.lines() {
        let shown = if line.starts_with("left ") { line.rsplit_once(' ').unwrap().0 } else { line };
        writeln!(out, "{shown}").unwrap();
    }
    out
}

#[test]
fn stored_joins() {
    let (mut desk, mut out) = (Desk::new(), String::new());
    let (mut calls, mut unsaid, mut short) = (0, 0, 0);
    for command in stored(CASES, "stdin").lines() {
        let numbers: Vec<u64> = command.split(' ').map(|number| number.parse().unwrap()).collect();
        if numbers[0] != 1 {
            desk.set(numbers[0], &numbers[1..]);
            continue;
        }
        let (lines, used) = (desk.state[LINES_USED] as usize, desk.used);
        let answer = if desk.short() { None } else { desk.join(numbers[1] as usize) };
        match answer {
            Some(Ok(flow)) => write!(out, "refusal 0\n{}", desk.appended(lines, used, flow)).unwrap(),
            Some(Err(Refusal(number))) => writeln!(out, "refusal {number}").unwrap(),
            None => {
                writeln!(out, "refusal 9").unwrap();
                if desk.short() { short += 1 } else { unsaid += 1 }
            }
        }
        out += &desk.left();
        calls += 1;
    }
    let wanted = without_last(&stored(CASES, "stdout"));
    for (n, (got, wanted)) in out.lines().zip(wanted.lines()).enumerate() {
        assert_eq!(got, wanted, "line {}", n + 1);
    }
    assert_eq!(out.len(), wanted.len());
    println!("{calls} joins, {unsaid} of them with a count that no slice has, {short} with too few words for the edges");
    assert!(calls > 500 && unsaid < 20 && short < 40, "{calls} {unsaid} {short}");
}
