// What a host lends, with the listing program's start in it.
#![allow(dead_code)]
use lanthanumbat::{head, Instruction, Lent, Refusal, CALL, DISPATCH, EDGE, LINE, STATE};
use std::{fs, path::Path};

pub const FLAG: usize = 38;
pub const START: usize = 39;
pub const FIRST: u64 = 20;

pub const LUI: u64 = 0;
pub const SRLIW: u64 = 22;
pub const ADDW: u64 = 36;
pub const MULW: u64 = 40;
pub const BEQ: u64 = 41;
pub const BLTU: u64 = 45;
pub const JAL: u64 = 47;
pub const JALR: u64 = 48;
pub const ECALL: u64 = 49;

// Kinds and sorts of a line, and the words of the state that are not roles.
pub const CONST: u64 = 1;
pub const STATE_LINE: u64 = 19;
pub const INPUT: u64 = 21;
pub const BAD: u64 = 22;
pub const BIT: u64 = 1;
pub const WORD: u64 = 2;
pub const MEMORY: u64 = 3;
pub const LINES_USED: usize = 0;
pub const NEXT_NID: usize = 1;
pub const NAMES_USED: usize = 2;
pub const EDGES_USED: usize = 3;
pub const FIRST_ROLE: usize = 6;
pub const FLOWS: usize = FIRST_ROLE + 38; // that of x1 is one after

// Origins of an edge.
pub const REGULAR: u64 = 0;
pub const BRANCH: u64 = 1;
pub const SYSCALL: u64 = 2;

#[derive(Clone, PartialEq)]
pub struct Storage {
    pub list: Vec<u64>,
    pub names: Vec<u8>,
    pub edges: Vec<u64>,
    pub dispatches: Vec<u64>,
    pub bads: Vec<u64>,
    pub state: [u64; STATE],
}

// Room for this many lines and edges.
pub fn start(lines: usize, edges: usize) -> Storage {
    let mut s = Storage {
        list: vec![0; lines * LINE],
        names: vec![0; 33],
        edges: vec![0; edges * EDGE],
        dispatches: vec![0; 2 * DISPATCH],
        bads: vec![0; 2],
        state: [0; STATE],
    };
    s.restart();
    s
}

impl Storage {
    // The bits and words 0 and 1; the states x1 to x31, memory, counter, counter-max and flag, without names.
    pub fn restart(&mut self) {
        let constants = [(CONST, BIT, 0), (CONST, BIT, 1), (CONST, WORD, 0), (CONST, WORD, 1)];
        let states = [WORD; 31].into_iter().chain([MEMORY, MEMORY, WORD, BIT]).map(|sort| (STATE_LINE, sort, 0));
        for (place, (kind, sort, imm)) in constants.into_iter().chain(states).enumerate() {
            let line = [head(FIRST + place as u64, kind, sort, 0, 0, 0), imm, 0, 0, 0];
            self.list[place * LINE..(place + 1) * LINE].copy_from_slice(&line);
        }
        let counts = [START as u64, FIRST + START as u64, 0, 0, 0, 0];
        let nodes = [0, 1, 2, 3, 35, 36, 37, 2].into_iter().chain(4..35);
        let flows = (4..35).chain([35, 36, 37, 3, 3, 2, 0, 0, 0]);
        let words: Vec<u64> = counts.into_iter().chain(nodes).chain(flows).collect();
        self.state.copy_from_slice(&words);
    }
}

pub fn lent(s: &mut Storage) -> Lent<'_> {
    Lent {
        list: &mut s.list,
        names: &mut s.names,
        edges: &mut s.edges,
        dispatches: &mut s.dispatches,
        bads: &mut s.bads,
        state: &mut s.state,
    }
}

// Puts a line after those in use. Gives its place.
pub fn push(s: &mut Storage, first: u64, [a, b, c]: [u64; 3]) -> usize {
    let place = s.state[LINES_USED] as usize;
    s.list[place * LINE..(place + 1) * LINE].copy_from_slice(&[first, a, b, c, 0]);
    s.state[LINES_USED] += 1;
    place
}

// Random numbers, the same at each run.
pub struct Draws(pub u64);

impl Draws {
    pub fn any(&mut self) -> u64 {
        self.0 ^= self.0 << 13;
        self.0 ^= self.0 >> 7;
        self.0 ^= self.0 << 17;
        self.0
    }

    pub fn below(&mut self, n: u64) -> u64 {
        self.any() % n
    }

    pub fn one_in(&mut self, n: u64) -> bool {
        self.below(n) == 0
    }
}

// The lines from a place on.
pub fn text(l: &Lent, from: usize) -> String {
    let mut out = [0; 1024];
    let n = l.print(b"", from, l.lines() - from, &mut out).unwrap();
    String::from_utf8(out[..n].to_vec()).unwrap()
}

pub fn instruction(kind: u64, rd: u64, rs1: u64, rs2: u64, imm: i64) -> Instruction {
    Instruction { kind, rd, rs1, rs2, imm }
}

// Lowers the instruction of a call's words.
pub fn lower(l: &mut Lent, [address, kind, rd, rs1, rs2, imm, flag]: [u64; CALL]) -> Result<(), Refusal> {
    l.lower(instruction(kind, rd, rs1, rs2, imm as i64), address, flag as usize)
}

// The mark of an address in a line's words, and the word that is the address where the mark is not 0: read off the words, not by the library.
pub fn mark_and_address(line: &[u64]) -> [u64; 2] {
    [line[0] >> 28 & 15, line[4]]
}

// What a crate of cases has stored.
pub fn stored(cases: &str, name: &str) -> String {
    fs::read_to_string(Path::new(env!("CARGO_MANIFEST_DIR")).join("../../crates").join(cases).join(name)).unwrap()
}

// Puts the line of a record's thirteen numbers there, its place first. A line without a mark has no address, and its last word is 0.
pub fn put(list: &mut [u64], numbers: &[u64]) {
    let [place, nid, kind, sort, op1, op2, op3, imm, area, at, len, mark, address] = *numbers else { panic!() };
    let init = if kind == STATE_LINE { imm } else { 0 };
    let first = if kind == CONST { imm } else { op1 };
    let others = if [STATE_LINE, INPUT, BAD].contains(&kind) { [at, len] } else { [op2, op3] };
    let address = if mark == 0 { 0 } else { address };
    let from = place as usize * LINE;
    list[from..from + LINE].copy_from_slice(&[head(nid, kind, sort, area, init, mark), first, others[0], others[1], address]);
}

// The last two numbers of a record that is shown: 1 and the address, or 0 and 0 where there is none.
pub fn shown_address(line: &[u64]) -> String {
    match mark_and_address(line) {
        [0, _] => "0 0".into(),
        [_, address] => format!("1 {address}"),
    }
}
