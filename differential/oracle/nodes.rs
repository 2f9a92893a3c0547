// Nodes built from records, a line each, and printed by the Rust's write_model:
//   NID KIND SORT OP1 OP2 OP3 IMM NAME
// KIND is the place of the kind in `Node`, from 1; SORT its printed number (for Ext that of `from`); OP1 to OP3 are places in printed order,
// a State's init OP1 where IMM is not 0; NAME is `-` for a missing name and else `=` and the name. Fields that a kind lacks are not looked at.
use crate::unicorn::builder::node_lines_of;
use crate::unicorn::{Nid, Node, NodeRef, NodeType};
use std::io::{self, BufRead, Write};

pub struct Record {
    nid: Nid,
    kind: u64,
    sort: u64,
    places: [u64; 3],
    imm: u64,
    name: Option<String>,
}

pub fn parse(line: &str) -> Option<Record> {
    let mut fields = line.splitn(8, ' ');
    let mut number = || fields.next()?.parse::<u64>().ok();
    let (nid, kind, sort) = (number()?, number()?, number()?);
    let places = [number()?, number()?, number()?];
    let imm = number()?;
    let name = match fields.next()? {
        "-" => None,
        text => Some(text.strip_prefix('=')?.to_string()),
    };
    Some(Record { nid, kind, sort, places, imm, name })
}

fn sort(number: u64) -> Option<NodeType> {
    Some(match number {
        1 => NodeType::Bit,
        2 => NodeType::Word,
        3 => NodeType::Memory,
        11 => NodeType::Input1Byte,
        12 => NodeType::Input2Byte,
        13 => NodeType::Input3Byte,
        14 => NodeType::Input4Byte,
        15 => NodeType::Input5Byte,
        16 => NodeType::Input6Byte,
        17 => NodeType::Input7Byte,
        _ => return None,
    })
}

pub fn node(record: Record, before: &[NodeRef]) -> Option<Node> {
    let nid = record.nid;
    let own = || sort(record.sort);
    let op = |n: usize| before.get(record.places[n] as usize).cloned();
    macro_rules! binary {
        ($name:ident) => {
            Node::$name { nid, left: op(0)?, right: op(1)? }
        };
    }
    Some(match record.kind {
        1 => Node::Const { nid, sort: own()?, imm: record.imm },
        2 => Node::Read { nid, memory: op(0)?, address: op(1)? },
        3 => Node::Write { nid, memory: op(0)?, address: op(1)?, value: op(2)? },
        4 => binary!(Add),
        5 => binary!(Sub),
        6 => binary!(Mul),
        7 => binary!(Divu),
        8 => binary!(Div),
        9 => binary!(Rem),
        10 => binary!(Sll),
        11 => binary!(Srl),
        12 => binary!(Ult),
        13 => Node::Ext { nid, from: own()?, value: op(0)? },
        14 => Node::Ite { nid, sort: own()?, cond: op(0)?, left: op(1)?, right: op(2)? },
        15 => binary!(Eq),
        16 => Node::And { nid, sort: own()?, left: op(0)?, right: op(1)? },
        17 => Node::Or { nid, sort: own()?, left: op(0)?, right: op(1)? },
        18 => Node::Not { nid, sort: own()?, value: op(0)? },
        19 => Node::State { nid, sort: own()?, init: if record.imm == 0 { None } else { Some(op(0)?) }, name: record.name },
        20 => Node::Next { nid, sort: own()?, state: op(0)?, next: op(1)? },
        21 => Node::Input { nid, sort: own()?, name: record.name? },
        22 => Node::Bad { nid, cond: op(0)?, name: record.name },
        _ => return None,
    })
}

// The `count` nodes from place `from` on, of all that are read.
pub fn run(from: usize, count: usize) -> io::Result<()> {
    let mut nodes: Vec<NodeRef> = vec![];
    for line in io::stdin().lock().lines() {
        let line = line?;
        let made = parse(&line).and_then(|record| node(record, &nodes));
        nodes.push(made.ok_or_else(|| io::Error::other(format!("no node: {}", line)))?.into());
    }
    let run = nodes.get(from..from + count).ok_or(io::Error::other("a run outside the nodes"))?;
    io::stdout().write_all(node_lines_of(run)?.as_bytes())
}
