// evaluation RECORDS [REPETITIONS [QUESTIONS]]: our evaluation and a plain recursion on the same lists. QUESTIONS is a file that is written for
// bench/evaluation.py: every list, what is asked of it, and the answers.
mod measure;
mod ours;
mod plain;

use measure::{fail, read};
use std::fmt::Write;
use std::time::Instant;

extern "C" {
    #[rustfmt::skip]
    fn lanthanumbat_evaluate(
        list: *const u64, list_len: usize, lines: usize, values: *const u64, values_len: usize, memory: *const u64, memory_len: usize,
        asked: usize, value: *mut u64, visits: *mut u64,
    ) -> u64;
}

const LINE: usize = 5; // words
const MOST_LINES: usize = 4096;
const ROUNDS: usize = 20; // of all questions in one measurement, since a call may take microseconds
const FLAG: usize = 38;
const ONE_VISIT: usize = 1; // a constant or a state in each list: a call for it takes the check and one visit

const BIT: u64 = 1;
const WORD: u64 = 2;
const MEMORY: u64 = 3;
const CONST: u64 = 1;
const READ: u64 = 2;
const WRITE: u64 = 3;
const ADD: u64 = 4;
const ITE: u64 = 14;
const EQ: u64 = 15;
const NOT: u64 = 18;
const STATE: u64 = 19;

type Answer = Result<(u64, u64), u64>;

// A list, what its states and inputs are, and the places that are asked for, one call each.
struct Questions {
    name: &'static str,
    list: Vec<u64>,
    values: Vec<[u64; 2]>,
    memory: Vec<[u64; 3]>,
    asked: Vec<usize>,
}

impl Questions {
    fn new(name: &'static str) -> Self {
        Self { name, list: vec![], values: vec![], memory: vec![], asked: vec![] }
    }

    fn lines(&self) -> usize {
        self.list.len() / LINE
    }

    // Gives the place of a line that is put last, without an address.
    fn push(&mut self, kind: u64, sort: u64, [a, b, c]: [u64; 3]) -> u64 {
        self.list.extend([kind | sort << 8, a, b, c, 0]);
        self.lines() as u64 - 1
    }

    fn ask_last(mut self) -> Self {
        self.asked.push(self.lines() - 1);
        self
    }

    fn ours(&self, asked: usize) -> Answer {
        let (list, values, memory) = (&self.list, self.values.as_flattened(), self.memory.as_flattened());
        let (mut value, mut visits) = (0, 0);
        #[rustfmt::skip]
        let refusal = unsafe {
            lanthanumbat_evaluate(
                list.as_ptr(), list.len(), self.lines(), values.as_ptr(), values.len(), memory.as_ptr(), memory.len(),
                asked, &mut value, &mut visits,
            )
        };
        if refusal == 0 {
            Ok((value, visits))
        } else {
            Err(refusal)
        }
    }

    fn plain(&self, lines: &[plain::Line], asked: usize) -> Answer {
        plain::evaluate(lines, &self.values, &self.memory, asked)
    }
}

// The flows of x1 to x31 once the instructions are lowered, all of them under one flag. The flag is the last of the states that are given.
fn lowered(name: &'static str, list: &[u64], flows: &[u64], flag: u64) -> Questions {
    let mut values: Vec<[u64; 2]> = (4..35).map(|place| [place, place * 0x0123_4567_89ab_cdef]).collect();
    values.push([FLAG as u64, flag]);
    let asked = flows.iter().map(|place| *place as usize).collect();
    Questions { name, list: list.to_vec(), values, memory: vec![], asked }
}

// Each sum is of the two lines before it, and takes the visits of both and one more.
fn tower() -> Questions {
    let mut q = Questions::new("tower of sums");
    q.values = vec![[0, 3], [1, 5]];
    q.push(STATE, WORD, [0; 3]);
    q.push(STATE, WORD, [0; 3]);
    for last in 1..23 {
        q.push(ADD, WORD, [last, last - 1, 0]);
    }
    q.ask_last()
}

// A list as deep as it may be: each line of a kind has the one before among its operands. Place 0 is a bit, place 1 is of the sort.
fn chain(name: &'static str, kind: u64, sort: u64, operands: fn(u64) -> [u64; 3]) -> Questions {
    let mut q = Questions::new(name);
    q.values = vec![[0, 1], [1, 5]];
    q.push(STATE, BIT, [0; 3]);
    let mut last = q.push(STATE, sort, [0; 3]);
    while q.lines() < MOST_LINES {
        last = q.push(kind, sort, operands(last));
    }
    q.ask_last()
}

// Reads of words that the first, a middle and the last of the writes cover, and of one that none does.
fn writes(count: u64) -> Questions {
    let mut q = Questions::new("writes and reads");
    q.values = vec![[1, 7]];
    q.memory = vec![[0, 8 * count, 9]];
    let mut memory = q.push(STATE, MEMORY, [0; 3]);
    let value = q.push(STATE, WORD, [0; 3]);
    for n in 0..count {
        let address = q.push(CONST, WORD, [8 * n, 0, 0]);
        memory = q.push(WRITE, 0, [memory, address, value]);
    }
    for n in [0, count / 2, count - 1, count] {
        let address = q.push(CONST, WORD, [8 * n, 0, 0]);
        q.push(READ, 0, [memory, address, 0]);
        q = q.ask_last();
    }
    q
}

fn questions(path: &str) -> Vec<Questions> {
    let records = read(path);
    let mut ours = ours::Ours::new(&records, false);
    let (list, flows) = ours.lowered();
    if list.len() > MOST_LINES * LINE {
        fail("the records append more lines than an evaluation takes")
    }
    vec![
        lowered("lowered lines, flags 0", list, flows, 0),
        lowered("lowered lines, flags 1", list, flows, 1),
        tower(),
        chain("chain of negations", NOT, WORD, |last| [last, 0, 0]),
        chain("chain of sums", ADD, WORD, |last| [last, 1, 0]),
        chain("chain of choices", ITE, WORD, |last| [0, last, 1]),
        chain("chain of equal bits", EQ, BIT, |last| [last, 0, 0]),
        writes(2000),
    ]
}

// The time of each way to do it, in turns, best of the repetitions.
fn best<const N: usize>(repetitions: usize, ways: [&dyn Fn(); N]) -> [f64; N] {
    let mut best = [f64::INFINITY; N];
    for _ in 0..repetitions {
        for (way, best) in ways.iter().zip(&mut best) {
            let clock = Instant::now();
            way();
            *best = best.min(clock.elapsed().as_secs_f64());
        }
    }
    best
}

// The answers, which must be the same. Gives ours.
fn answers(q: &Questions, lines: &[plain::Line]) -> Vec<(u64, u64)> {
    let answer = |place: &usize| match (q.ours(*place), q.plain(lines, *place)) {
        (Ok(ours), Ok(plain)) if ours == plain => ours,
        (ours, plain) => fail(&format!("{}, line {place}: ours {ours:?}, plain {plain:?}", q.name)),
    };
    q.asked.iter().map(answer).collect()
}

fn all(q: &Questions, ask: impl Fn(usize) -> Answer) {
    for place in (0..ROUNDS).flat_map(|_| &q.asked) {
        std::hint::black_box(ask(std::hint::black_box(*place))).ok();
    }
}

fn measure_questions(q: &Questions, repetitions: usize, written: &mut String) {
    let read = || plain::read(&q.list, q.lines()).unwrap_or_else(|number| fail(&format!("{} is refused with {number}", q.name)));
    let lines = read();
    let answers = answers(q, &lines);
    #[rustfmt::skip]
    let [ours, check, once, each] = best(repetitions, [
        &|| all(q, |place| q.ours(place)),
        &|| all(q, |_| q.ours(ONE_VISIT)),
        &|| all(q, |place| q.plain(&lines, place)),
        &|| all(q, |place| q.plain(&read(), place)),
    ]);
    let (calls, visits) = (answers.len(), answers.iter().map(|(_, visits)| visits).sum::<u64>());
    let rate = |time: f64| (visits as f64 * ROUNDS as f64 / time).round();
    let call = |time: f64| time * 1e6 / (ROUNDS * calls) as f64;
    println!("{}: {} lines, {calls} calls, {visits} visits", q.name, q.lines());
    println!("  ours                     {:>10} visits/s, {:.1} us a call, {:.1} of them for the check", rate(ours), call(ours), call(check));
    println!("  plain, lines read once   {:>10} visits/s: ours takes {:.2} times as long", rate(once), ours / once);
    println!("  plain, lines read again  {:>10} visits/s: ours takes {:.2} times as long", rate(each), ours / each);
    write_questions(q, &answers, written);
}

// A row each: the name; list, values and memory; place, value and visits of each question. Then an empty row.
fn write_questions(q: &Questions, answers: &[(u64, u64)], out: &mut String) {
    let spaced = |numbers: &[u64]| numbers.iter().map(|number| format!(" {number}")).collect::<String>();
    let (values, memory) = (spaced(q.values.as_flattened()), spaced(q.memory.as_flattened()));
    writeln!(out, "{}\nlist{}\nvalues{values}\nmemory{memory}", q.name, spaced(&q.list)).unwrap();
    for (place, (value, visits)) in q.asked.iter().zip(answers) {
        writeln!(out, "ask {place} {value} {visits}").unwrap();
    }
    out.push('\n');
}

fn main() {
    let arguments: Vec<String> = std::env::args().collect();
    let repetitions = arguments.get(2).map_or(Ok(9), |text| text.parse());
    let (Some(path), Ok(repetitions @ 1..), 2..=4) = (arguments.get(1), repetitions, arguments.len()) else {
        fail("usage: evaluation RECORDS [REPETITIONS [QUESTIONS]]")
    };
    let mut written = String::new();
    for q in questions(path) {
        measure_questions(&q, repetitions, &mut written);
    }
    if arguments.get(3).is_some_and(|path| std::fs::write(path, written).is_err()) {
        fail("the questions cannot be written")
    }
}
