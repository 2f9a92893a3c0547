// The listing's loop around the Rust's translate_to_model and write_model.
use super::*;
use crate::unicorn::{get_nid, write_model};
use riscu::types::NoFields;
use std::io::{self, BufRead, Write};
use std::panic::{catch_unwind, set_hook, take_hook, AssertUnwindSafe};
use std::sync::atomic::{AtomicBool, Ordering::Relaxed};

pub(super) type Answer<T> = std::result::Result<T, &'static str>;

const MALFORMED: &str = "; malformed"; // not the listing's grammar
const UNENCODABLE: &str = "; unencodable"; // a record that no instruction word holds, so that riscu never hands it on
pub(super) const PANIC: &str = "; panic"; // the Rust panics

pub(super) struct Line {
    pub(super) address: u64,
    pub(super) inst: Instruction,
    imm: i32,
}

//
// Input
//

fn number(text: &[u8], limit: u128) -> Answer<u64> {
    let plain = !text.is_empty()
        && text.len() <= 20
        && text.iter().all(u8::is_ascii_digit)
        && (text == b"0" || text[0] != b'0');
    if !plain {
        return Err(MALFORMED);
    }
    let value = text.iter().fold(0, |n, digit| 10 * n + u128::from(digit - b'0'));
    if value < limit {
        Ok(value as u64)
    } else {
        Err(MALFORMED)
    }
}

fn immediate(text: &[u8]) -> Answer<i32> {
    match text {
        b"-0" => Err(MALFORMED),
        [b'-', digits @ ..] => Ok(-(number(digits, (1 << 31) + 1)? as i64) as i32),
        digits => Ok(number(digits, 1 << 31)? as i32),
    }
}

pub(super) fn parse(line: &[u8]) -> Answer<Line> {
    let fields: Vec<&[u8]> = line.split(|byte| *byte == b' ').collect();
    if line.len() > 256 || fields.len() != 6 {
        return Err(MALFORMED);
    }
    let address = number(fields[0], 1 << 64)?;
    let kind = fields[1];
    if kind.is_empty() || !kind.iter().all(u8::is_ascii_alphabetic) {
        return Err(MALFORMED);
    }
    let record = Record {
        rd: number(fields[2], 256)? as u32,
        rs1: number(fields[3], 256)? as u32,
        rs2: number(fields[4], 256)? as u32,
        imm: immediate(fields[5])?,
    };
    let inst = record.instruction(std::str::from_utf8(kind).unwrap())?;
    Ok(Line { address, inst, imm: record.imm })
}

struct Record {
    rd: u32,
    rs1: u32,
    rs2: u32,
    imm: i32,
}

fn reg(number: u32) -> Answer<Register> {
    if number < 32 {
        Ok(Register::from(number))
    } else {
        Err(UNENCODABLE)
    }
}

// Each format takes the fields that it has and looks at no other.
impl Record {
    fn imm(&self, low: i32, high: i32, step: i32) -> Answer<i32> {
        if low <= self.imm && self.imm <= high && self.imm % step == 0 {
            Ok(self.imm)
        } else {
            Err(UNENCODABLE)
        }
    }
    fn r(&self) -> Answer<RType> {
        Ok(RType::new(reg(self.rd)?, reg(self.rs1)?, reg(self.rs2)?))
    }
    fn i(&self) -> Answer<IType> {
        Ok(IType::new(reg(self.rd)?, reg(self.rs1)?, self.imm(-2048, 2047, 1)?))
    }
    fn s(&self) -> Answer<SType> {
        Ok(SType::new(reg(self.rs1)?, reg(self.rs2)?, self.imm(-2048, 2047, 1)?))
    }
    fn b(&self) -> Answer<BType> {
        Ok(BType::new(reg(self.rs1)?, reg(self.rs2)?, self.imm(-4096, 4094, 2)?))
    }
    fn u(&self) -> Answer<UType> {
        Ok(UType::new(reg(self.rd)?, self.imm(0, 1048575, 1)? as u32))
    }
    fn j(&self) -> Answer<JType> {
        Ok(JType::new(reg(self.rd)?, self.imm(-1048576, 1048574, 2)?))
    }
    fn none(&self) -> Answer<NoFields> {
        Ok(NoFields::new())
    }

    fn instruction(&self, kind: &str) -> Answer<Instruction> {
        macro_rules! kinds {
            ($($form:ident: $($name:ident)*;)*) => {
                match kind {
                    $($(stringify!($name) => Instruction::$name(self.$form()?),)*)*
                    _ => Instruction::Other(self.none()?),
                }
            };
        }
        Ok(kinds! {
            u: Lui Auipc;
            i: Lb Lh Lw Ld Lbu Lhu Addi Sltiu Xori Ori Andi Slli Srli Srai Addiw Slliw Srliw Sraiw Jalr;
            s: Sb Sh Sw Sd;
            r: Add Sub Sll Sltu Srl Sra Or And Mul Div Divu Remu Addw Divw Subw Sllw Mulw;
            b: Beq Bne Blt Bge Bltu Bgeu;
            j: Jal;
            none: Ecall Lwu;
        })
    }
}

//
// The starts: each with its flag
//

fn empty() -> ModelBuilder {
    let model_values = ModelValues {
        is_64bit: true,
        run_32bit: false,
        word_size_mask: riscu::WORD_SIZE as u64 - 1,
        bits_per_byte: 8,
        size_of: size_of::<u64>(),
        bits: 64,
    };
    let mut b = ModelBuilder::new(0, 0, 0, model_values);
    b.current_nid = 20;
    for _ in 1..NUMBER_OF_REGISTERS {
        b.dynamic.push(vec![]);
    }
    b
}

fn bit(b: &mut ModelBuilder, imm: u64) -> NodeRef {
    b.add_node(Node::Const { nid: b.current_nid, sort: NodeType::Bit, imm })
}

// The listing's, identifiers 20 to 58.
pub(super) fn start() -> (ModelBuilder, NodeRef) {
    let mut b = empty();
    b.zero_bit = bit(&mut b, 0);
    b.one_bit = bit(&mut b, 1);
    b.zero_word = b.new_const(0);
    b.one_word = b.new_const(1);
    b.register_nodes.push(b.zero_word.clone());
    for r in 1..NUMBER_OF_REGISTERS {
        let node = b.new_state(None, format!("x{}", r), NodeType::Word);
        b.register_nodes.push(node.clone());
        b.register_flow.push(node);
    }
    b.memory_node = b.new_state(None, "memory".to_string(), NodeType::Memory);
    b.memory_counter_node = b.new_state(None, "counter".to_string(), NodeType::Memory);
    b.memory_counter_max_node = b.new_state(None, "counter-max".to_string(), NodeType::Word);
    let flag = b.new_state(None, "flag".to_string(), NodeType::Bit);
    b.memory_flow = b.memory_node.clone();
    b.memory_counter_flow = b.memory_counter_node.clone();
    b.memory_counter_max_flow = b.memory_counter_max_node.clone();
    b.division_flow = b.one_word.clone();
    b.remainder_flow = b.one_word.clone();
    b.access_flow = b.zero_word.clone();
    b.addition_overflow = b.zero_bit.clone();
    b.multiplication = b.zero_bit.clone();
    b.ecall_flow = b.zero_bit.clone();
    assert_eq!((get_nid(&flag), b.current_nid), (58, 59));
    (b, flag)
}

// One in which no two roles are one line: x0 and every flow have lines of their own. Lines stand in another order than the roles, and
// states with an init, which take two identifiers, stand before the roles and among them: identifiers and places drift apart on the way.
fn start_apart() -> (ModelBuilder, NodeRef) {
    let mut b = empty();
    let init = b.new_const(41);
    b.new_state(Some(init.clone()), "before".to_string(), NodeType::Word);
    let flag = b.new_state(None, "flag".to_string(), NodeType::Bit);
    for r in (1..NUMBER_OF_REGISTERS).rev() {
        let flow = b.new_state((r % 3 == 0).then(|| init.clone()), format!("x{}-flow", r), NodeType::Word);
        b.register_flow.insert(0, flow);
    }
    b.ecall_flow = b.new_state(None, "ecall-flow".to_string(), NodeType::Bit);
    b.multiplication = b.new_state(None, "multiplication-flow".to_string(), NodeType::Bit);
    b.addition_overflow = b.new_state(None, "addition-flow".to_string(), NodeType::Bit);
    b.access_flow = b.new_state(Some(init.clone()), "access-flow".to_string(), NodeType::Word);
    b.remainder_flow = b.new_state(None, "remainder-flow".to_string(), NodeType::Word);
    b.division_flow = b.new_state(Some(init.clone()), "division-flow".to_string(), NodeType::Word);
    b.memory_counter_max_flow = b.new_state(None, "counter-max-flow".to_string(), NodeType::Word);
    b.memory_counter_flow = b.new_state(Some(init.clone()), "counter-flow".to_string(), NodeType::Memory);
    b.memory_flow = b.new_state(None, "memory-flow".to_string(), NodeType::Memory);
    for r in (1..NUMBER_OF_REGISTERS).rev() {
        let node = b.new_state((r % 4 == 1).then(|| init.clone()), format!("x{}", r), NodeType::Word);
        b.register_nodes.insert(0, node);
    }
    let x0 = b.new_const(0);
    b.register_nodes.insert(0, x0);
    b.memory_counter_max_node = b.new_state(Some(init.clone()), "counter-max".to_string(), NodeType::Word);
    b.memory_counter_node = b.new_state(None, "counter".to_string(), NodeType::Memory);
    b.memory_node = b.new_state(Some(init), "memory".to_string(), NodeType::Memory);
    b.one_word = b.new_const(1);
    b.zero_word = b.new_const(0);
    b.one_bit = bit(&mut b, 1);
    b.zero_bit = bit(&mut b, 0);
    (b, flag)
}

pub(super) fn chosen(apart: bool) -> (ModelBuilder, NodeRef) {
    if apart {
        start_apart()
    } else {
        start()
    }
}

//
// What a lowering changes: saved before it, put back where it panics
//

pub(super) fn single_flows(b: &mut ModelBuilder) -> [&mut NodeRef; 9] {
    [
        &mut b.memory_flow,
        &mut b.memory_counter_flow,
        &mut b.memory_counter_max_flow,
        &mut b.division_flow,
        &mut b.remainder_flow,
        &mut b.access_flow,
        &mut b.addition_overflow,
        &mut b.multiplication,
        &mut b.ecall_flow,
    ]
}

pub(super) struct Saved {
    lines: usize,
    sequentials: usize,
    bad_states: usize,
    current_nid: Nid,
    register_flow: Vec<NodeRef>,
    single_flows: Vec<NodeRef>,
}

pub(super) fn save(b: &mut ModelBuilder) -> Saved {
    Saved {
        lines: b.lines.len(),
        sequentials: b.sequentials.len(),
        bad_states: b.bad_states.len(),
        current_nid: b.current_nid,
        register_flow: b.register_flow.clone(),
        single_flows: single_flows(b).into_iter().map(|flow| flow.clone()).collect(),
    }
}

pub(super) fn put_back(b: &mut ModelBuilder, saved: Saved) {
    b.lines.truncate(saved.lines);
    b.sequentials.truncate(saved.sequentials);
    b.bad_states.truncate(saved.bad_states);
    b.current_nid = saved.current_nid;
    b.register_flow = saved.register_flow;
    for (flow, old) in single_flows(b).into_iter().zip(saved.single_flows) {
        *flow = old;
    }
}

//
// Output
//

// What write_model prints for these nodes, header and trailer included.
fn printed(nodes: &[NodeRef]) -> io::Result<String> {
    let model = Model {
        lines: nodes.to_vec(),
        sequentials: vec![],
        bad_states_initial: vec![],
        bad_states_sequential: vec![],
        data_range: 0..0,
        heap_range: 0..0,
        stack_range: 0..0,
        memory_size: 0,
    };
    let mut out = Vec::new();
    write_model(&model, &mut out, true).map_err(|error| io::Error::other(error.to_string()))?;
    Ok(String::from_utf8(out).unwrap())
}

const TRAILER: &str = "\n; end of BTOR2 file\n";

fn node_lines<'a>(text: &'a str, header: &str) -> io::Result<&'a str> {
    text.strip_prefix(header)
        .and_then(|rest| rest.strip_suffix(TRAILER))
        .ok_or(io::Error::other("write_model: unknown header or trailer"))
}

// The lines that write_model prints for these nodes alone.
pub fn node_lines_of(nodes: &[NodeRef]) -> io::Result<String> {
    let empty = printed(&[])?;
    let header = empty.strip_suffix(TRAILER).ok_or(io::Error::other("write_model: unknown trailer"))?;
    Ok(node_lines(&printed(nodes)?, header)?.to_string())
}

// The sort lines of write_model's header.
pub fn sort_lines() -> io::Result<String> {
    Ok(printed(&[])?.split_inclusive('\n').filter(|line| line.contains(" sort ")).collect())
}

static QUIET: AtomicBool = AtomicBool::new(false); // while the Rust runs, a panic's message is not written

pub fn panics(rust: impl FnOnce()) -> bool {
    QUIET.store(true, Relaxed);
    let outcome = catch_unwind(AssertUnwindSafe(rust));
    QUIET.store(false, Relaxed);
    outcome.is_err()
}

pub fn hide_panics() {
    let usual = take_hook();
    set_hook(Box::new(move |info| {
        if !QUIET.load(Relaxed) {
            usual(info)
        }
    }));
}

fn lower<W: Write>(b: &mut ModelBuilder, flag: &NodeRef, header: &str, line: &Line, out: &mut W) -> io::Result<()> {
    let saved = save(b);
    let before = saved.lines;
    b.pc = line.address;
    b.pc_flags = HashMap::from([(line.address, flag.clone())]);
    b.control_in.clear();
    b.dynamic.iter_mut().for_each(Vec::clear);

    if panics(|| b.translate_to_model(line.inst)) {
        put_back(b, saved);
        return writeln!(out, "{}", PANIC);
    }

    let text = printed(&b.lines[before..])?;
    for node_line in node_lines(&text, header)?.lines() {
        // Only a bad line's name has this: what follows is riscu's debug text.
        writeln!(out, "{}", node_line.split(" ; ").next().unwrap())?;
    }
    // A lowering pushes edges to pc + imm (first) and to pc + 4 only; edges to one address stand in the order pushed.
    for to in [b.pc_add(line.imm as u64), b.pc_add(INSTRUCTION_SIZE)] {
        for edge in b.control_in.remove(&to).unwrap_or_default() {
            let kind = match edge.from_instruction {
                FromInstruction::Regular => "regular",
                FromInstruction::Branch => "branch",
                FromInstruction::SystemCall => "syscall",
            };
            let condition = edge.condition.map_or("-".to_string(), |node| get_nid(&node).to_string());
            writeln!(out, "; in {} from {} {} {}", to, edge.from_address, kind, condition)?;
        }
    }
    if !b.control_in.is_empty() {
        return Err(io::Error::other("an edge to an address other than pc + imm and pc + 4"));
    }
    for (place, dispatches) in b.dynamic.iter().enumerate() {
        for dispatch in dispatches {
            writeln!(out, "; dyn {} {}", place + 1, dispatch.dispatch_address)?;
        }
    }
    Ok(())
}

// When the flows are written: not, after the last input line, after each.
#[derive(PartialEq)]
pub enum Flows {
    No,
    Last,
    Each,
}

pub fn run(apart: bool, flows: Flows) -> io::Result<()> {
    let (mut b, flag) = chosen(apart);
    let mut out = io::BufWriter::new(io::stdout().lock());
    let empty = printed(&[])?;
    let header = empty.strip_suffix(TRAILER).ok_or(io::Error::other("write_model: unknown trailer"))?;

    hide_panics();
    for line in io::stdin().lock().split(b'\n') {
        match parse(&line?) {
            Ok(line) => lower(&mut b, &flag, header, &line, &mut out)?,
            Err(answer) => writeln!(out, "{}", answer)?,
        }
        if flows == Flows::Each {
            named_nids(&mut out, "flows", &flows_of(&mut b))?;
        }
    }
    if flows == Flows::Last {
        named_nids(&mut out, "flows", &flows_of(&mut b))?;
    }
    out.flush()?;
    std::mem::forget(b);
    Ok(())
}

// A start by itself: its node lines, then the identifiers of its roles in the order of document 01, and of its flag.
pub fn show_start(apart: bool) -> io::Result<()> {
    let (mut b, flag) = chosen(apart);
    let mut out = io::stdout().lock();
    write!(out, "{}", node_lines_of(&b.lines)?)?;
    let mut roles: Vec<NodeRef> = [
        &b.zero_bit, &b.one_bit, &b.zero_word, &b.one_word, &b.memory_node, &b.memory_counter_node, &b.memory_counter_max_node,
    ]
    .into_iter()
    .chain(&b.register_nodes)
    .cloned()
    .collect();
    roles.extend(flows_of(&mut b));
    named_nids(&mut out, "roles", &roles)?;
    named_nids(&mut out, "flag", &[flag])?;
    std::mem::forget(b);
    Ok(())
}

fn flows_of(b: &mut ModelBuilder) -> Vec<NodeRef> {
    let registers = b.register_flow.clone();
    registers.into_iter().chain(single_flows(b).into_iter().map(|flow| flow.clone())).collect()
}

pub(super) fn named_nids<W: Write>(out: &mut W, name: &str, nodes: &[NodeRef]) -> io::Result<()> {
    write!(out, "; {}", name)?;
    for node in nodes {
        write!(out, " {}", get_nid(node))?;
    }
    writeln!(out)
}
