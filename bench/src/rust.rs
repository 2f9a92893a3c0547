// The unchanged Rust: translate_to_model over the records, write_model over the lines that they append. As generate_model does, it has a
// flag for every address beforehand, and gathers the edges of all instructions.
use super::driver::{parse, single_flows, start};
use super::*;
use crate::measure::{fail, Half, Record};
use crate::unicorn::write_model;

pub struct Rust {
    instructions: Vec<(u64, Instruction)>,
    builder: Option<ModelBuilder>,
    text: Vec<u8>,
}

impl Rust {
    pub fn new(records: &[Record]) -> Self {
        let decoded = records.iter().map(|record| match parse(record.text.as_bytes()) {
            Ok(line) => (line.address, line.inst),
            Err(answer) => fail(answer),
        });
        Self { instructions: decoded.collect(), builder: None, text: vec![] }
    }
}

impl Half for Rust {
    fn name(&self) -> &'static str {
        "the Rust"
    }

    fn begin(&mut self) {
        let (mut builder, flag) = start();
        builder.pc_flags = self.instructions.iter().map(|(address, _)| (*address, flag.clone())).collect();
        self.builder = Some(builder);
        self.text = Vec::with_capacity(1 << 26);
    }

    fn lower(&mut self) -> usize {
        let builder = self.builder.as_mut().unwrap();
        let before = builder.lines.len();
        for (address, instruction) in &self.instructions {
            builder.pc = *address;
            builder.translate_to_model(*instruction);
        }
        builder.lines.len() - before
    }

    // The header and the start's lines, which are printed too, are a few hundred bytes.
    fn print(&mut self) {
        let builder = self.builder.as_mut().unwrap();
        let model = Model {
            lines: std::mem::take(&mut builder.lines),
            sequentials: vec![],
            bad_states_initial: vec![],
            bad_states_sequential: vec![],
            data_range: 0..0,
            heap_range: 0..0,
            stack_range: 0..0,
            memory_size: 0,
        };
        if write_model(&model, &mut self.text, true).is_err() {
            fail("write_model failed")
        }
        builder.lines = model.lines;
    }

    fn text(&self) -> &[u8] {
        &self.text
    }

    // The last line first: a node's drop would otherwise recurse along a whole flow.
    fn end(&mut self) {
        let mut builder = self.builder.take().unwrap();
        let first = builder.lines[0].clone();
        builder.register_flow.clear();
        for flow in single_flows(&mut builder) {
            *flow = first.clone();
        }
        builder.control_in.clear();
        builder.bad_states.clear();
        while builder.lines.pop().is_some() {}
    }
}
