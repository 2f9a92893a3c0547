// What the Rust prints of each sort: first the sort lines of write_model's header, then for each `NodeType` by its name a line of each kind that has
// a sort of its own, `NAME LINE`, the last a uext from the sort, or `NAME panic` where the Rust panics.
use crate::unicorn::builder::{hide_panics, node_lines_of, panics, sort_lines};
use crate::unicorn::{Node, NodeRef, NodeType};
use std::io::{self, Write};

fn types() -> Vec<(&'static str, NodeType)> {
    macro_rules! named {
        ($($name:ident)*) => { vec![$((stringify!($name), NodeType::$name)),*] };
    }
    named!(Bit Word Memory Input1Byte Input2Byte Input3Byte Input4Byte Input5Byte Input6Byte Input7Byte)
}

// An operand, with the identifier 5.
fn operand() -> NodeRef {
    Node::Input { nid: 5, sort: NodeType::Bit, name: "operand".to_string() }.into()
}

fn nodes(sort: &NodeType) -> Vec<NodeRef> {
    let (nid, name, sort) = (7, || "name".to_string(), || sort.clone());
    let made = [
        Node::Const { nid, sort: sort(), imm: 1 },
        Node::Ite { nid, sort: sort(), cond: operand(), left: operand(), right: operand() },
        Node::And { nid, sort: sort(), left: operand(), right: operand() },
        Node::Or { nid, sort: sort(), left: operand(), right: operand() },
        Node::Not { nid, sort: sort(), value: operand() },
        Node::State { nid, sort: sort(), init: Some(operand()), name: Some(name()) },
        Node::Next { nid, sort: sort(), state: operand(), next: operand() },
        Node::Input { nid, sort: sort(), name: name() },
        Node::Ext { nid, from: sort(), value: operand() },
    ];
    made.into_iter().map(NodeRef::from).collect()
}

pub fn show() -> io::Result<()> {
    hide_panics();
    let mut out = io::stdout().lock();
    out.write_all(sort_lines()?.as_bytes())?;
    for (name, sort) in types() {
        for node in nodes(&sort) {
            let mut text = Ok(String::new());
            if panics(|| text = node_lines_of(&[node])) {
                writeln!(out, "{} panic", name)?;
            }
            for line in text?.lines() {
                writeln!(out, "{} {}", name, line)?;
            }
        }
    }
    Ok(())
}
