// Our library, linked from libhost.a and called by the functions of host/lanthanumbat.h. The host lends all storage; it is taken untouched, so
// that what a lowering writes is what it is seen to need.
use crate::measure::{fail, Half, Record};

extern "C" {
    #[rustfmt::skip]
    fn lanthanumbat_lower(
        list: *mut u64, list_len: usize, names: *mut u8, names_len: usize, edges: *mut u64, edges_len: usize,
        dispatches: *mut u64, dispatches_len: usize, bads: *mut u64, bads_len: usize, state: *mut u64, state_len: usize,
        address: u64, kind: u64, rd: u64, rs1: u64, rs2: u64, imm: u64, flag: usize,
    ) -> u64;
    #[rustfmt::skip]
    fn lanthanumbat_lower_all(
        list: *mut u64, list_len: usize, names: *mut u8, names_len: usize, edges: *mut u64, edges_len: usize,
        dispatches: *mut u64, dispatches_len: usize, bads: *mut u64, bads_len: usize, state: *mut u64, state_len: usize,
        calls: *const u64, calls_len: usize, refusal: *mut u64,
    ) -> usize;
    #[rustfmt::skip]
    fn lanthanumbat_print(
        list: *const u64, list_len: usize, lines: usize, host: *const u8, host_len: usize, ours: *const u8, ours_len: usize,
        from: usize, count: usize, out: *mut u8, out_len: usize, written: *mut u64,
    ) -> u64;
}

const MOST_LINES: usize = 1_048_576;
const LINE: usize = 5; // words
const MOST_TEXT: usize = 60; // bytes of a line
const MOST_NAME: usize = 33; // bytes of a bad line's name
const FIRST: u64 = 20; // the identifier at place 0
const START: usize = 39; // lines
const FLAG: usize = 38;
const FLOWS: usize = 45; // the state's word for x1
const CONST: u64 = 1;
const STATE: u64 = 19;

#[derive(Default)]
struct Lent {
    list: Vec<u64>,
    names: Vec<u8>,
    edges: Vec<u64>,
    dispatches: Vec<u64>,
    bads: Vec<u64>,
    state: Vec<u64>,
    calls: Vec<u64>,
    text: Vec<u8>,
    printed: usize,
}

pub struct Ours<'a> {
    records: &'a [Record],
    each: bool, // a call for each instruction, and not one for all
    lent: Lent,
}

impl<'a> Ours<'a> {
    pub fn new(records: &'a [Record], each: bool) -> Self {
        Self { records, each, lent: Lent::default() }
    }

    // The list with the lines of all records, and the flows of x1 to x31.
    pub fn lowered(&mut self) -> (&[u64], &[u64]) {
        self.begin();
        let lines = START + self.lower();
        (&self.lent.list[..lines * LINE], &self.lent.state[FLOWS..FLOWS + 31])
    }

    fn lower_each(&mut self) -> usize {
        let Lent { list, names, edges, dispatches, bads, state, .. } = &mut self.lent;
        for r in self.records {
            #[rustfmt::skip]
            let refusal = unsafe {
                lanthanumbat_lower(
                    list.as_mut_ptr(), list.len(), names.as_mut_ptr(), names.len(), edges.as_mut_ptr(), edges.len(),
                    dispatches.as_mut_ptr(), dispatches.len(), bads.as_mut_ptr(), bads.len(), state.as_mut_ptr(), state.len(),
                    r.address, r.kind, r.rd, r.rs1, r.rs2, r.imm, FLAG,
                )
            };
            if refusal != 0 {
                fail(&format!("ours refuses {:?} with {}", r.text, refusal))
            }
        }
        state[0] as usize - START
    }
}

// The start's lines: the bits and words 0 and 1, x1 to x31, memory, counter, counter-max and flag. No name is printed.
fn start(list: &mut [u64]) {
    let constants = [(CONST, 1, 0), (CONST, 1, 1), (CONST, 2, 0), (CONST, 2, 1)];
    let states = [2; 31].into_iter().chain([3, 3, 2, 1]).map(|sort| (STATE, sort, 0));
    for (place, (kind, sort, imm)) in constants.into_iter().chain(states).enumerate() {
        let line = [(FIRST + place as u64) << 32 | sort << 8 | kind, imm, 0, 0, 0];
        list[place * LINE..(place + 1) * LINE].copy_from_slice(&line);
    }
}

// The tally, the counts and the roles, in the order of crates/state.
fn state() -> Vec<u64> {
    let tally_and_counts = [START as u64, FIRST + START as u64, 0, 0, 0, 0];
    let nodes = [0, 1, 2, 3, 35, 36, 37];
    let registers = std::iter::once(2).chain(4..35);
    let other_flows = [35, 36, 37, 3, 3, 2, 0, 0, 0];
    tally_and_counts.into_iter().chain(nodes).chain(registers).chain(4..35).chain(other_flows).collect()
}

impl Half for Ours<'_> {
    fn name(&self) -> &'static str {
        "ours"
    }

    // The storage of a repetition is lent again to the next, as freed memory is taken again in the Rust's half.
    fn begin(&mut self) {
        let count = self.records.len();
        if self.lent.list.is_empty() {
            self.lent = Lent {
                list: vec![0; MOST_LINES * LINE],
                names: vec![0; count * MOST_NAME],
                edges: vec![0; count * 8],
                dispatches: vec![0; count * 2],
                bads: vec![0; count],
                state: Vec::new(),
                calls: self.records.iter().flat_map(|r| [r.address, r.kind, r.rd, r.rs1, r.rs2, r.imm, FLAG as u64]).collect(),
                text: vec![0; MOST_LINES * MOST_TEXT],
                printed: 0,
            };
        }
        self.lent.state = state();
        start(&mut self.lent.list);
    }

    fn lower(&mut self) -> usize {
        if self.each {
            return self.lower_each();
        }
        let Lent { list, names, edges, dispatches, bads, state, calls, .. } = &mut self.lent;
        let mut refusal = 0;
        #[rustfmt::skip]
        let done = unsafe {
            lanthanumbat_lower_all(
                list.as_mut_ptr(), list.len(), names.as_mut_ptr(), names.len(), edges.as_mut_ptr(), edges.len(),
                dispatches.as_mut_ptr(), dispatches.len(), bads.as_mut_ptr(), bads.len(), state.as_mut_ptr(), state.len(),
                calls.as_ptr(), calls.len(), &mut refusal,
            )
        };
        if done != self.records.len() {
            fail(&format!("ours refuses {:?} with {}", self.records[done].text, refusal))
        }
        state[0] as usize - START
    }

    fn print(&mut self) {
        let Lent { list, names, state, text, .. } = &mut self.lent;
        let (lines, mut written) = (state[0] as usize, 0);
        #[rustfmt::skip]
        let refusal = unsafe {
            lanthanumbat_print(
                list.as_ptr(), list.len(), lines, names.as_ptr(), 0, names.as_ptr(), names.len(),
                START, lines - START, text.as_mut_ptr(), text.len(), &mut written,
            )
        };
        if refusal != 0 || written as usize > text.len() {
            fail(&format!("ours refuses to print with {}", refusal))
        }
        self.lent.printed = written as usize;
    }

    fn text(&self) -> &[u8] {
        &self.lent.text[..self.lent.printed]
    }

    fn end(&mut self) {
        self.lent.printed = 0;
    }
}
