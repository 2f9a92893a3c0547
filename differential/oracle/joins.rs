// One address's edges and dispatches made into a flow by the Rust's control_flow_from_* functions, in the loop of its generate_model.
// A command a line; places are those of the list of lines:
//   node NID KIND SORT OP1 OP2 OP3 IMM NAME   appends a line as --nodes reads it, and leaves the next identifier as it is
//   cut LINES NEXT                            keeps the first LINES lines, and sets the next identifier
//   role ROLE PLACE                           sets the zero bit (0), the one bit (1) or the node of a register (7 for x0 to 38 for x31)
//   kernel MODE NOT                           sets the kernel-mode and the kernel-not node
//   dynamics PLACE...                         sets the dynamic flags, from x1 on
//   flags ADDRESS PLACE ...                   sets the table of flags: the first entry for an address counts
//   join FLOW WORDS...                        joins; WORDS are `edge FROM ORIGIN CONDITION` (ORIGIN regular, branch or syscall, CONDITION
//                                             a place or `-`) and `dispatch REGISTER PLACE`
// A join is answered at once, by its node lines and `; sequentials NID...` (those that it added), `; flow NID` and `; next NID`. Where the
// Rust panics the answer is `; panic`, and the list stays as it was. The other commands have no answer.
use super::driver::{chosen, hide_panics, named_nids, node_lines_of, panics, put_back, save, PANIC};
use super::*;
use crate::nodes;
use std::io::{self, BufRead, Write};
use std::str::SplitWhitespace;

struct Join {
    flow: NodeRef,
    edges: Vec<InEdge>,
    dispatches: Vec<(Register, NodeRef)>,
}

//
// Input: None where a line is no command
//

fn number(words: &mut SplitWhitespace) -> Option<u64> {
    words.next()?.parse().ok()
}

fn node_at(b: &ModelBuilder, place: u64) -> Option<NodeRef> {
    b.lines.get(usize::try_from(place).ok()?).cloned()
}

fn place(b: &ModelBuilder, words: &mut SplitWhitespace) -> Option<NodeRef> {
    node_at(b, number(words)?)
}

fn edge(b: &ModelBuilder, words: &mut SplitWhitespace) -> Option<InEdge> {
    let from_address = number(words)?;
    let from_instruction = match words.next()? {
        "regular" => FromInstruction::Regular,
        "branch" => FromInstruction::Branch,
        "syscall" => FromInstruction::SystemCall,
        _ => return None,
    };
    let condition = match words.next()? {
        "-" => None,
        place => Some(node_at(b, place.parse().ok()?)?),
    };
    Some(InEdge { from_instruction, from_address, condition })
}

fn dispatch(b: &ModelBuilder, words: &mut SplitWhitespace) -> Option<(Register, NodeRef)> {
    let register = u32::try_from(number(words)?).ok().filter(|register| *register < NUMBER_OF_REGISTERS as u32)?;
    Some((Register::from(register), place(b, words)?))
}

fn parse_join(b: &ModelBuilder, words: &mut SplitWhitespace) -> Option<Join> {
    let mut join = Join { flow: place(b, words)?, edges: vec![], dispatches: vec![] };
    while let Some(word) = words.next() {
        match word {
            "edge" => join.edges.push(edge(b, words)?),
            "dispatch" => join.dispatches.push(dispatch(b, words)?),
            _ => return None,
        }
    }
    Some(join)
}

fn set_role(b: &mut ModelBuilder, role: u64, node: NodeRef) -> Option<()> {
    match role {
        0 => b.zero_bit = node,
        1 => b.one_bit = node,
        7..=38 => b.register_nodes[role as usize - 7] = node,
        _ => return None,
    }
    Some(())
}

fn all_places(b: &ModelBuilder, words: &mut SplitWhitespace) -> Option<Vec<NodeRef>> {
    words.map(|word| node_at(b, word.parse().ok()?)).collect()
}

fn set_flags(b: &mut ModelBuilder, words: &mut SplitWhitespace) -> Option<()> {
    let mut flags = HashMap::new();
    while let Some(word) = words.next() {
        flags.entry(word.parse().ok()?).or_insert(place(b, words)?);
    }
    b.pc_flags = flags;
    Some(())
}

fn cut(b: &mut ModelBuilder, lines: u64, next: Nid) -> Option<()> {
    let lines = usize::try_from(lines).ok().filter(|lines| *lines <= b.lines.len())?;
    b.lines.truncate(lines);
    b.sequentials.clear();
    b.current_nid = next;
    Some(())
}

// A command that is no join; the rest of its line is read whole.
fn set(b: &mut ModelBuilder, command: &str, rest: &str) -> Option<()> {
    let words = &mut rest.split_whitespace();
    match command {
        "node" => {
            let node = nodes::node(nodes::parse(rest)?, &b.lines)?;
            b.lines.push(node.into());
            return Some(());
        }
        "cut" => cut(b, number(words)?, number(words)?)?,
        "role" => set_role(b, number(words)?, place(b, words)?)?,
        "kernel" => (b.kernel_mode, b.kernel_not) = (place(b, words)?, place(b, words)?),
        "dynamics" => b.dynamic_flags = all_places(b, words)?,
        "flags" => set_flags(b, words)?,
        _ => return None,
    }
    words.next().is_none().then_some(())
}

//
// The loop of generate_model, without the address constant and the Next of the address's own flag, which are not the join's
//

fn run_join(b: &mut ModelBuilder, join: &Join) -> NodeRef {
    let mut control_flow = join.flow.clone();
    for in_edge in &join.edges {
        control_flow = match in_edge.from_instruction {
            FromInstruction::Branch => b.control_flow_from_branch(in_edge, control_flow),
            FromInstruction::SystemCall => b.control_flow_from_ecall(in_edge, control_flow),
            FromInstruction::Regular => b.control_flow_from_regular(in_edge, control_flow),
        }
    }
    for (reg, pc) in &join.dispatches {
        control_flow = b.control_flow_from_jalr(*reg, pc.clone(), control_flow);
    }
    control_flow
}

fn answer<W: Write>(b: &mut ModelBuilder, join: &Join, out: &mut W) -> io::Result<()> {
    let (lines, sequentials) = (b.lines.len(), b.sequentials.len());
    let saved = save(b);
    let mut flow = None;
    if panics(|| flow = Some(run_join(b, join))) {
        put_back(b, saved);
        writeln!(out, "{}", PANIC)?;
    } else {
        write!(out, "{}", node_lines_of(&b.lines[lines..])?)?;
        named_nids(out, "sequentials", &b.sequentials[sequentials..])?;
        named_nids(out, "flow", flow.as_slice())?;
        writeln!(out, "; next {}", b.current_nid)?;
    }
    // Whoever drives the oracle may wait for this answer before the next command.
    out.flush()
}

pub fn run_joins(apart: bool) -> io::Result<()> {
    let (mut b, _) = chosen(apart);
    let mut out = io::BufWriter::new(io::stdout().lock());
    hide_panics();
    for line in io::stdin().lock().lines() {
        let line = line?;
        let no_command = || io::Error::other(format!("no command: {}", line));
        let (command, rest) = line.split_once(' ').unwrap_or((&line, ""));
        if command == "join" {
            let join = parse_join(&b, &mut rest.split_whitespace()).ok_or_else(no_command)?;
            answer(&mut b, &join, &mut out)?;
        } else {
            set(&mut b, command, rest).ok_or_else(no_command)?;
        }
    }
    std::mem::forget(b);
    Ok(())
}
