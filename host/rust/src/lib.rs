//! Lowering RV64 instructions to BTOR2 lines, each with the address of its instruction, joining their edges into flags and evaluating lines on
//! given values: safe calls of libhost.a. The layout of lines, edges, dispatches, bads, flags, the state's words and the records of values stands
//! in host/lanthanumbat.h.

mod ffi {
    extern "C" {
        #[rustfmt::skip]
        pub fn lanthanumbat_lower(
            list: *mut u64, list_words: usize, names: *mut u8, names_bytes: usize, edges: *mut u64, edges_words: usize,
            dispatches: *mut u64, dispatches_words: usize, bads: *mut u64, bads_words: usize, state: *mut u64, state_words: usize,
            address: u64, kind: u64, rd: u64, rs1: u64, rs2: u64, imm: u64, flag: usize,
        ) -> u64;
        #[rustfmt::skip]
        pub fn lanthanumbat_lower_all(
            list: *mut u64, list_words: usize, names: *mut u8, names_bytes: usize, edges: *mut u64, edges_words: usize,
            dispatches: *mut u64, dispatches_words: usize, bads: *mut u64, bads_words: usize, state: *mut u64, state_words: usize,
            calls: *const u64, calls_words: usize, refusal: *mut u64,
        ) -> usize;
        #[rustfmt::skip]
        pub fn lanthanumbat_join(
            list: *mut u64, list_words: usize, names: *mut u8, names_bytes: usize, sequentials: *mut u64, sequentials_words: usize,
            state: *mut u64, state_words: usize, edges: *const u64, edges_words: usize, dispatches: *const u64, dispatches_words: usize,
            flags: *const u64, flags_words: usize, dynamics: *const u64, count: usize, dispatched: usize, flagged: usize,
            mode: usize, none: usize, used: *mut usize, flow: *mut usize,
        ) -> u64;
        #[rustfmt::skip]
        pub fn lanthanumbat_print(
            list: *const u64, list_words: usize, lines: usize, host: *const u8, host_bytes: usize, ours: *const u8, ours_bytes: usize,
            from: usize, count: usize, out: *mut u8, out_bytes: usize, written: *mut u64,
        ) -> u64;
        #[rustfmt::skip]
        pub fn lanthanumbat_check_start(
            list: *const u64, list_words: usize, host: *const u8, host_bytes: usize, names: *const u8, names_bytes: usize,
            edges: *const u64, edges_words: usize, dispatches: *const u64, dispatches_words: usize, bads: *const u64, bads_words: usize,
            state: *const u64, state_words: usize,
        ) -> u64;
        #[rustfmt::skip]
        pub fn lanthanumbat_evaluate(
            list: *const u64, list_words: usize, lines: usize, values: *const u64, values_words: usize,
            memory: *const u64, memory_words: usize, asked: usize, value: *mut u64, visits: *mut u64,
        ) -> u64;
        pub fn lanthanumbat_address(list: *const u64, list_words: usize, lines: usize, place: usize, address: *mut u64) -> u64;
    }
}

/// The first word of a line. `area` is that of its name, `init` not 0 for a state that has one, `addressed` not 0 for a line that has an address,
/// which is its last word. A number that its field cannot hold becomes the largest that it can, 255 or 2^32 - 1, which no start that is accepted
/// has.
pub const fn head(identifier: u64, kind: u64, sort: u64, area: u64, init: u64, addressed: u64) -> u64 {
    const fn at_most(number: u64, most: u64) -> u64 {
        if number < most {
            number
        } else {
            most
        }
    }
    const BYTE: u64 = u8::MAX as u64;
    at_most(identifier, u32::MAX as u64) << 32
        | at_most(addressed, 1) << 28
        | at_most(init, 1) << 24
        | at_most(area, BYTE) << 16
        | at_most(sort, BYTE) << 8
        | at_most(kind, BYTE)
}

/// A flag that is absent: the largest place, which no list reaches.
pub const NO_FLAG: usize = usize::MAX;

/// The most lines that a list holds.
pub const MOST_LINES: usize = 1_048_576;

/// The most lines of a list that is evaluated, and the most visits.
pub const BENCH_LINES: usize = 4096;
pub const MOST_VISITS: u64 = 100_000;

/// The words of a line, an edge, a dispatch, a flag, the state, a call, and the records of a value and of a memory's word.
pub const LINE: usize = 5;
pub const EDGE: usize = 4;
pub const DISPATCH: usize = 2;
pub const FLAG: usize = 2;
pub const STATE: usize = 85;
pub const CALL: usize = 7;
pub const VALUE: usize = 2;
pub const CELL: usize = 3;

/// How many dynamic flags there are: those of x1 to x31.
pub const DYNAMICS: usize = 31;

/// The number of a refusal, 1 to 19.
#[derive(Clone, Copy, Debug, PartialEq, Eq)]
pub struct Refusal(pub u64);

fn refused(number: u64) -> Result<(), Refusal> {
    match number {
        0 => Ok(()),
        _ => Err(Refusal(number)),
    }
}

/// An instruction: its kind, 0 to 49, its registers, and its immediate.
#[derive(Clone, Copy, Debug)]
pub struct Instruction {
    pub kind: u64,
    pub rd: u64,
    pub rs1: u64,
    pub rs2: u64,
    pub imm: i64,
}

impl Instruction {
    /// The words of a call: this instruction at an address under the flag at a place.
    pub fn call(self, address: u64, flag: usize) -> [u64; CALL] {
        [address, self.kind, self.rd, self.rs1, self.rs2, self.imm as u64, flag as u64]
    }
}

/// The storage that the host lends, and the state.
pub struct Lent<'a> {
    pub list: &'a mut [u64],
    pub names: &'a mut [u8],
    pub edges: &'a mut [u64],
    pub dispatches: &'a mut [u64],
    pub bads: &'a mut [u64],
    pub state: &'a mut [u64; STATE],
}

/// What a join is given: one address's edges and dispatches, in their order, and the places of the nodes that they go by.
#[derive(Clone, Copy, Debug)]
pub struct Join<'a> {
    /// As a lowering gives them; where an edge leads to is not read.
    pub edges: &'a [[u64; EDGE]],
    /// A register and the place of the address node each. A lowering's dispatches have the address from in its stead, and cannot be handed on.
    pub dispatches: &'a [[u64; DISPATCH]],
    /// An address and the place of its flag each; the first for an address counts. The cost is linear in the edges times these.
    pub flags: &'a [[u64; FLAG]],
    /// The dynamic flags of x1 to x31.
    pub dynamics: &'a [u64; DYNAMICS],
    /// The nodes that are 1 in kernel mode, and outside it.
    pub mode: usize,
    pub none: usize,
    /// The starting flow.
    pub flow: usize,
}

/// The places of the next lines that joins append: what the host lends for them, and how many are in use.
pub struct Sequentials<'a> {
    pub places: &'a mut [u64],
    pub used: usize,
}

impl Lent<'_> {
    /// How many lines are in use.
    pub fn lines(&self) -> usize {
        self.state[0] as usize
    }

    /// Lowers an instruction at an address under the flag at a place, or under [`NO_FLAG`]. Each line that it appends has the address.
    pub fn lower(&mut self, i: Instruction, address: u64, flag: usize) -> Result<(), Refusal> {
        // The slices are borrowed apart from each other, and the library keeps no pointer.
        #[rustfmt::skip]
        let number = unsafe {
            ffi::lanthanumbat_lower(
                self.list.as_mut_ptr(), self.list.len(), self.names.as_mut_ptr(), self.names.len(),
                self.edges.as_mut_ptr(), self.edges.len(), self.dispatches.as_mut_ptr(), self.dispatches.len(),
                self.bads.as_mut_ptr(), self.bads.len(), self.state.as_mut_ptr(), self.state.len(),
                address, i.kind, i.rd, i.rs1, i.rs2, i.imm as u64, flag,
            )
        };
        refused(number)
    }

    /// Lowers call after call, up to the first that is refused. Each line has the address of the call that appended it. Gives how many were
    /// accepted, and that one's refusal.
    pub fn lower_all(&mut self, calls: &[[u64; CALL]]) -> (usize, Result<(), Refusal>) {
        let calls = calls.as_flattened();
        let mut number = 0;
        #[rustfmt::skip]
        let done = unsafe {
            ffi::lanthanumbat_lower_all(
                self.list.as_mut_ptr(), self.list.len(), self.names.as_mut_ptr(), self.names.len(),
                self.edges.as_mut_ptr(), self.edges.len(), self.dispatches.as_mut_ptr(), self.dispatches.len(),
                self.bads.as_mut_ptr(), self.bads.len(), self.state.as_mut_ptr(), self.state.len(),
                calls.as_ptr(), calls.len(), &mut number,
            )
        };
        (done, refused(number))
    }

    /// Joins edges, then dispatches, into the starting flow. The lines that it appends have no address. Gives the place of the new flow.
    pub fn join(&mut self, sequentials: &mut Sequentials, j: Join) -> Result<usize, Refusal> {
        let (edges, dispatches, flags) = (j.edges.as_flattened(), j.dispatches.as_flattened(), j.flags.as_flattened());
        let mut flow = j.flow;
        #[rustfmt::skip]
        let number = unsafe {
            ffi::lanthanumbat_join(
                self.list.as_mut_ptr(), self.list.len(), self.names.as_mut_ptr(), self.names.len(),
                sequentials.places.as_mut_ptr(), sequentials.places.len(), self.state.as_mut_ptr(), self.state.len(),
                edges.as_ptr(), edges.len(), dispatches.as_ptr(), dispatches.len(), flags.as_ptr(), flags.len(), j.dynamics.as_ptr(),
                j.edges.len(), j.dispatches.len(), j.flags.len(), j.mode, j.none, &mut sequentials.used, &mut flow,
            )
        };
        refused(number)?;
        Ok(flow)
    }

    /// Checks a start, with the host's area of names.
    pub fn check_start(&self, host: &[u8]) -> Result<(), Refusal> {
        #[rustfmt::skip]
        let number = unsafe {
            ffi::lanthanumbat_check_start(
                self.list.as_ptr(), self.list.len(), host.as_ptr(), host.len(), self.names.as_ptr(), self.names.len(),
                self.edges.as_ptr(), self.edges.len(), self.dispatches.as_ptr(), self.dispatches.len(),
                self.bads.as_ptr(), self.bads.len(), self.state.as_ptr(), self.state.len(),
            )
        };
        refused(number)
    }

    /// Prints `count` lines from a place on; gives the text's length in `out`.
    pub fn print(&self, host: &[u8], from: usize, count: usize, out: &mut [u8]) -> Result<usize, Refusal> {
        let mut written = 0;
        #[rustfmt::skip]
        let number = unsafe {
            ffi::lanthanumbat_print(
                self.list.as_ptr(), self.list.len(), self.lines(), host.as_ptr(), host.len(), self.names.as_ptr(), self.names.len(),
                from, count, out.as_mut_ptr(), out.len(), &mut written,
            )
        };
        refused(number)?;
        Ok(written as usize)
    }

    /// The address of the instruction that the line at a place was lowered for. None where there is no such line in use, or it has none.
    pub fn address(&self, place: usize) -> Option<u64> {
        let mut address = 0;
        // The slice is borrowed, and the library writes to `address` alone.
        let found = unsafe { ffi::lanthanumbat_address(self.list.as_ptr(), self.list.len(), self.lines(), place, &mut address) };
        (found == 1).then_some(address)
    }
}

/// What states and inputs are: a place and a value each, and a place, an address and a word each. The first for a place, or for a place and an
/// address, counts; a missing one is 0.
#[derive(Clone, Copy, Debug, Default)]
pub struct Given<'a> {
    pub values: &'a [[u64; VALUE]],
    pub memory: &'a [[u64; CELL]],
}

/// What a line comes to, and the visits that it took.
#[derive(Clone, Copy, Debug, PartialEq, Eq)]
pub struct Evaluated {
    pub value: u64,
    pub visits: u64,
}

/// Evaluates the line at a place of a list of `lines` lines, at most [`BENCH_LINES`].
pub fn evaluate(list: &[u64], lines: usize, given: Given, asked: usize) -> Result<Evaluated, Refusal> {
    let (values, memory) = (given.values.as_flattened(), given.memory.as_flattened());
    let (mut value, mut visits) = (0, 0);
    #[rustfmt::skip]
    let number = unsafe {
        ffi::lanthanumbat_evaluate(
            list.as_ptr(), list.len(), lines, values.as_ptr(), values.len(), memory.as_ptr(), memory.len(), asked, &mut value, &mut visits,
        )
    };
    refused(number)?;
    Ok(Evaluated { value, visits })
}
