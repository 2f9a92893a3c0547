// The address of every line: of those that a lowering appends the address of its call, of a join's none, and of the start's what the host gave
// them. A long run is compared line by line, once lowered by a call for each instruction, with joins between, and once by one call for all.
mod common;

use common::*;
use lanthanumbat::{evaluate, Given, Join, Refusal, Sequentials, CALL, DISPATCH, DYNAMICS, LINE};
use std::ops::RangeInclusive;

const KINDS: usize = 50;
const INSTRUCTIONS: usize = 25_000;
const JOIN_EVERY: usize = 50;
const JOIN_LINES: usize = 11;

// Addresses that many calls have, and marks of the start's lines: none, ours, and others that say the same as ours.
const ADDRESSES: [u64; 6] = [0, 4, 1 << 32, 1 << 63, u64::MAX - 3, u64::MAX];
const MARKS: [u64; 4] = [0, 1, 8, 15];

//
// The calls
//

const UPPER: RangeInclusive<u64> = LUI..=1;
const ADDI: u64 = 12;
const SHIFTS: RangeInclusive<u64> = 17..=19;
const SLLIW: u64 = 21;
const SRAIW: u64 = 23;
const BRANCHES: RangeInclusive<u64> = BEQ..=46;

impl Draws {
    // Most are one of a few, some are the last call's again.
    fn address(&mut self, last: u64) -> u64 {
        match self.below(6) {
            0 => self.any(),
            1 => last,
            _ => ADDRESSES[self.below(6) as usize],
        }
    }

    // An immediate that the kind takes.
    fn imm(&mut self, kind: u64) -> i64 {
        let around_zero = |n: u64, most: u64| n as i64 - most as i64;
        match kind {
            _ if UPPER.contains(&kind) => self.below(1 << 20) as i64,
            _ if SHIFTS.contains(&kind) => self.below(64) as i64,
            SLLIW | SRAIW => self.below(32) as i64,
            SRLIW => 1 + self.below(31) as i64,
            _ if BRANCHES.contains(&kind) => around_zero(2 * self.below(4096), 4096),
            JAL => around_zero(2 * self.below(1 << 20), 1 << 20),
            JALR => 0,
            _ if self.one_in(4) => 0,
            _ => around_zero(self.below(4096), 2048),
        }
    }

    // An instruction of any kind that is not refused, at an address.
    fn call(&mut self, last: u64) -> [u64; CALL] {
        let kind = self.below(KINDS as u64);
        let x0 = [ADDI, JAL, JALR].contains(&kind) && self.one_in(4);
        let rd = if x0 { 0 } else { 1 + self.below(31) };
        let (rs1, rs2) = (self.below(32), self.below(32));
        let rs1 = if kind == JALR && self.one_in(2) { 0 } else { rs1 };
        instruction(kind, rd, rs1, rs2, self.imm(kind)).call(self.address(last), FLAG)
    }

    fn calls(&mut self, count: usize) -> Vec<[u64; CALL]> {
        let mut last = 0;
        let next = |_| {
            let call = self.call(last);
            last = call[0];
            call
        };
        (0..count).map(next).collect()
    }
}

fn calls(count: usize) -> Vec<[u64; CALL]> {
    Draws(88_172_645_463_325_252).calls(count)
}

//
// A run
//

// What is lent, the words of the list at first, and the mark and the last word that each line in use must have; how many lines each kind and the
// joins have appended.
struct Run {
    storage: Storage,
    first: Vec<u64>,
    sequentials: Vec<u64>,
    used: usize,
    wanted: Vec<[u64; 2]>,
    by_kind: [usize; KINDS],
    joined: usize,
}

impl Run {
    // Room for so many instructions, over what was there before: random words, marks of addresses among them.
    fn new(instructions: usize) -> Run {
        let mut storage = start(16 * instructions, 2 * instructions);
        let mut draws = Draws(7);
        storage.list[START * LINE..].fill_with(|| draws.any());
        storage.names = vec![0; 40 * instructions];
        storage.dispatches = vec![0; instructions * DISPATCH];
        storage.bads = vec![0; instructions];
        let (first, wanted) = (storage.list.clone(), vec![[0, 0]; START]);
        Run { storage, first, sequentials: vec![0; instructions], used: 0, wanted, by_kind: [0; KINDS], joined: 0 }
    }

    // The same on a start whose lines have addresses, under each mark. A last word without a mark stays as well.
    fn on_addressed_start(instructions: usize) -> Run {
        let mut run = Run::new(instructions);
        for place in 0..START {
            let [mark, address] = [MARKS[place % 4], ADDRESSES[place / 4 % 6]];
            run.storage.list[place * LINE] |= mark << 28;
            run.storage.list[place * LINE + 4] = address;
            run.wanted[place] = [mark, address];
        }
        run.first = run.storage.list.clone();
        assert_eq!(lent(&mut run.storage).check_start(b""), Ok(()));
        run
    }

    fn lines(&self) -> usize {
        self.storage.state[LINES_USED] as usize
    }

    // The lines that are in use now and were not before have this mark and this last word.
    fn want(&mut self, mark_and_address: [u64; 2]) -> usize {
        let appended = self.lines() - self.wanted.len();
        self.wanted.resize(self.lines(), mark_and_address);
        appended
    }

    fn lower(&mut self, call: [u64; CALL]) {
        assert_eq!(lower(&mut lent(&mut self.storage), call), Ok(()), "{call:?}");
        self.by_kind[call[1] as usize] += self.want([1, call[0]]);
    }

    // An edge of each origin and a dispatch of x5, whose address node is the word 0.
    fn join(&mut self) {
        let flag = FLAG as u64;
        let edges = [[0, 4, REGULAR, u64::MAX], [0, 4, BRANCH, flag], [0, 4, SYSCALL, u64::MAX]];
        let (flags, dynamics) = ([[4, flag]], [flag; DYNAMICS]);
        let j = Join { edges: &edges, dispatches: &[[5, 2]], flags: &flags, dynamics: &dynamics, mode: FLAG, none: FLAG, flow: FLAG };
        let mut sequentials = Sequentials { places: &mut self.sequentials, used: self.used };
        assert!(lent(&mut self.storage).join(&mut sequentials, j).is_ok());
        self.used = sequentials.used;
        self.joined += self.want([0, 0]);
    }

    fn lower_and_join(&mut self, calls: &[[u64; CALL]]) {
        for (n, call) in calls.iter().enumerate() {
            self.lower(*call);
            if n % JOIN_EVERY == 0 {
                self.join();
            }
        }
    }

    // Compares every line in use, by its words and by the library. The start's lines and what stands after the lines in use must be as they were at
    // first. Gives how many lines there were.
    fn compare(&mut self) -> usize {
        let l = lent(&mut self.storage);
        let (start, end, words) = (START * LINE, l.lines() * LINE, l.list.len());
        assert!(l.list[..start] == self.first[..start] && l.list[end..] == self.first[end..words]);
        assert_eq!(l.lines(), self.wanted.len());
        let mut compared = 0;
        for (place, (line, wanted)) in l.list[..end].chunks_exact(LINE).zip(&self.wanted).enumerate() {
            let [mark, address] = *wanted;
            assert_eq!(mark_and_address(line), *wanted, "line {place}");
            assert_eq!(l.address(place), (mark != 0).then_some(address), "line {place}");
            compared += 1;
        }
        compared
    }

    // How many lines that a lowering appended must have this address.
    fn lowered_at(&self, address: u64) -> usize {
        self.wanted[START..].iter().filter(|wanted| **wanted == [1, address]).count()
    }

    // Each kind has appended lines, and each of the few addresses has many.
    fn has_seen_all(&self) {
        assert!(self.by_kind.iter().all(|lines| *lines > INSTRUCTIONS / KINDS / 2), "{:?}", self.by_kind);
        assert!(ADDRESSES.iter().all(|address| self.lowered_at(*address) > INSTRUCTIONS / 2));
        assert!(self.by_kind.iter().sum::<usize>() > 8 * INSTRUCTIONS);
    }

    fn text(&mut self) -> String {
        let l = lent(&mut self.storage);
        let mut out = vec![0; 80 * l.lines()];
        let bytes = l.print(b"", 0, l.lines(), &mut out).unwrap();
        String::from_utf8(out[..bytes].to_vec()).unwrap()
    }
}

//
// The long run
//

#[test]
fn one_by_one_with_joins_between() {
    let mut run = Run::on_addressed_start(INSTRUCTIONS);
    run.lower_and_join(&calls(INSTRUCTIONS));
    run.has_seen_all();
    assert_eq!(run.joined, INSTRUCTIONS / JOIN_EVERY * JOIN_LINES);
    let compared = run.compare();
    println!("{compared} lines, {} of them of joins", run.joined);
    assert_eq!(compared, START + run.by_kind.iter().sum::<usize>() + run.joined);
}

// How many lines each call appends is known from the calls one by one.
#[test]
fn many_in_one() {
    let (mut one, mut all) = (Run::on_addressed_start(INSTRUCTIONS), Run::on_addressed_start(INSTRUCTIONS));
    let calls = calls(INSTRUCTIONS);
    for call in &calls {
        one.lower(*call);
    }
    one.has_seen_all();
    assert_eq!(lent(&mut all.storage).lower_all(&calls), (INSTRUCTIONS, Ok(())));
    all.wanted = one.wanted;
    let compared = all.compare();
    println!("{compared} lines");
    assert_eq!(compared, START + one.by_kind.iter().sum::<usize>());
    assert!(all.storage == one.storage);
}

//
// What has nothing to do with addresses
//

const FEW: usize = 2_000;

// The same on a start with addresses and on one without: only the start's own marks and last words differ.
#[test]
fn nothing_depends_on_the_addresses_of_a_start() {
    let (mut with, mut without) = (Run::on_addressed_start(FEW), Run::new(FEW));
    assert_eq!(with.text(), without.text());
    for run in [&mut with, &mut without] {
        run.lower_and_join(&calls(FEW));
        assert_eq!(run.compare(), run.lines());
        // Mul and Mulw append lines that break the sort rule, as the Rust does
        assert_eq!(lent(&mut run.storage).check_start(b""), Err(Refusal(12)));
    }
    assert_eq!(with.text(), without.text());
    assert_eq!(evaluations(&with.storage), evaluations(&without.storage));
    assert!(with.storage != without.storage);
    with.storage.list[..START * LINE].copy_from_slice(&without.storage.list[..START * LINE]);
    assert!(with.storage == without.storage && with.sequentials == without.sequentials);
}

// What each line of the first few hundred comes to where the states are small numbers, or its refusal.
fn evaluations(s: &Storage) -> Vec<Result<u64, Refusal>> {
    const ASKED: usize = 400;
    let values: Vec<[u64; 2]> = (4..START as u64).map(|place| [place, place % 7]).collect();
    let given = Given { values: &values, memory: &[] };
    let answers: Vec<_> = (0..ASKED).map(|place| evaluate(&s.list, ASKED, given, place).map(|answer| answer.value)).collect();
    assert!(answers.iter().filter(|answer| answer.is_ok()).count() > ASKED / 2);
    answers
}

// A call that is refused leaves all words, those of lines that are not in use too.
#[test]
fn a_refused_call_writes_no_address() {
    let (addi, jal) = (instruction(ADDI, 5, 6, 0, 1), instruction(JAL, 1, 0, 0, 8));
    let refused = [
        (instruction(50, 5, 6, 0, 1).call(0, FLAG), 1),
        (instruction(ADDI, 32, 6, 0, 1).call(1, FLAG), 2),
        (instruction(SRLIW, 5, 6, 0, 0).call(2, FLAG), 4),
        (instruction(ADDW, 0, 6, 7, 0).call(3, FLAG), 5),
        (addi.call(u64::MAX, 2), 7),
        (addi.call(u64::MAX, FLAG), 8),
    ];
    let mut run = Run::on_addressed_start(FEW);
    run.storage.list.truncate((START + 13) * LINE); // an addi takes 12 lines, and a jal 2
    run.lower(addi.call(4, FLAG));
    let before = run.storage.clone();
    for (call, number) in refused {
        assert_eq!(lower(&mut lent(&mut run.storage), call), Err(Refusal(number)));
        assert_eq!(lent(&mut run.storage).lower_all(&[call, jal.call(0, FLAG)]), (0, Err(Refusal(number))));
        assert!(run.storage == before);
    }
    assert_eq!(run.compare(), START + 12);
}

// The lines of the calls before the one that is refused have their addresses, and no other line has changed.
#[test]
fn many_up_to_one_that_is_refused() {
    let (mut one, mut all) = (Run::on_addressed_start(FEW), Run::on_addressed_start(FEW));
    let mut calls = calls(FEW);
    calls[FEW / 2] = instruction(ADDW, 0, 6, 7, 0).call(4, FLAG);
    for call in &calls[..FEW / 2] {
        one.lower(*call);
    }
    assert_eq!(lent(&mut all.storage).lower_all(&calls), (FEW / 2, Err(Refusal(5))));
    all.wanted = one.wanted;
    assert!(all.compare() > 4 * FEW);
    assert!(all.storage == one.storage);
}

//
// Places that are none
//

// Where there is no line in use, or the words do not reach over it, there is no address, even where the words there have a mark.
#[test]
fn outside_the_list() {
    let mut run = Run::on_addressed_start(FEW);
    for words in run.storage.list.chunks_exact_mut(LINE) {
        words[0] |= 1 << 28;
    }
    let last = START - 1;
    let l = lent(&mut run.storage);
    assert!(l.address(last).is_some());
    // the last multiplied by the words of a line is 4 modulo 2^64
    for place in [START, START + 1, 16 * FEW, usize::MAX, usize::MAX / LINE, usize::MAX / LINE + 1] {
        assert_eq!(l.address(place), None);
    }
    run.storage.state[LINES_USED] = u64::MAX;
    let l = lent(&mut run.storage);
    assert!(l.address(START).is_some() && l.address(16 * FEW - 1).is_some());
    for place in [16 * FEW, usize::MAX - 1, usize::MAX / LINE, usize::MAX / LINE + 1] {
        assert_eq!(l.address(place), None);
    }
    run.storage.list.truncate(START * LINE - 1);
    let l = lent(&mut run.storage);
    assert!(l.address(last - 1).is_some());
    assert_eq!(l.address(last), None);
    run.storage.list.clear();
    assert_eq!(lent(&mut run.storage).address(0), None);
    run.storage.state[LINES_USED] = 0;
    assert_eq!(lent(&mut run.storage).address(0), None);
}
