// The scope document's example, from the listing program's start: lowered, printed, checked and refused.
mod common;

use common::*;
use lanthanumbat::{Instruction, Refusal, EDGE, NO_FLAG};

fn lui() -> Instruction {
    instruction(LUI, 5, 0, 0, 1)
}

#[test]
fn the_example() {
    let mut s = start(1024, 8);
    let mut l = lent(&mut s);
    assert_eq!(l.check_start(b""), Ok(()));
    assert_eq!(l.lower(lui(), 65536, FLAG), Ok(()));
    assert_eq!(l.lower(instruction(BLTU, 0, 5, 6, -4), 65540, FLAG), Ok(()));
    let before = (l.list.to_vec(), *l.state);
    assert_eq!(l.lower(instruction(SRLIW, 5, 5, 0, 0), 65544, FLAG), Err(Refusal(4)));
    assert_eq!((l.list.to_vec(), *l.state), before);
    assert_eq!(text(&l, START), "59 constd 2 4096\n60 ite 2 58 59 28\n61 ult 1 28 29\n62 not 1 61\n");
    let edges = [65540, 65536, 0, u64::MAX, 65536, 65540, 1, 41, 65544, 65540, 1, 42];
    assert_eq!((l.state[3], &l.edges[..12]), (3, &edges[..]));
    let addresses: Vec<_> = (START - 1..START + 5).map(|place| l.address(place)).collect();
    assert_eq!(addresses, [None, Some(65536), Some(65536), Some(65540), Some(65540), None]);
}

#[test]
fn many_at_once() {
    let branch = instruction(BLTU, 0, 5, 6, -4);
    let shift = instruction(SRLIW, 5, 5, 0, 0);
    let calls = [lui().call(65536, FLAG), branch.call(65540, FLAG), shift.call(65544, FLAG), lui().call(65548, FLAG)];
    let (mut one, mut all) = (start(1024, 8), start(1024, 8));
    assert_eq!(lent(&mut one).lower(lui(), 65536, FLAG), Ok(()));
    assert_eq!(lent(&mut one).lower(branch, 65540, FLAG), Ok(()));
    assert_eq!(lent(&mut all).lower_all(&calls), (2, Err(Refusal(4))));
    assert_eq!((&all.list, &all.edges, all.state), (&one.list, &one.edges, one.state));
    assert_eq!(lent(&mut all).lower_all(&calls[..2]), (2, Ok(())));
    assert_eq!(lent(&mut all).lower_all(&[]), (0, Ok(())));
    all.state[84] = 5000;
    assert_eq!(lent(&mut all).lower_all(&calls), (0, Err(Refusal(13))));
}

#[test]
fn an_indirect_jump() {
    let mut s = start(1024, 8);
    let mut l = lent(&mut s);
    assert_eq!(l.lower(instruction(JALR, 0, 0, 0, 8), 65536, FLAG), Ok(()));
    assert_eq!(l.lower(instruction(JALR, 0, 1, 0, 0), 65540, FLAG), Ok(()));
    assert_eq!(text(&l, START), "59 bad 58 unimplemented-pc-10000\n");
    assert_eq!((l.state[4], &l.dispatches[..2], l.state[5], l.bads[0]), (1, &[1, 65540][..], 1, 39));
}

#[test]
fn refusals_of_storage() {
    let mut s = start(1024, 8);
    s.edges.truncate(EDGE - 1);
    let mut l = lent(&mut s);
    assert_eq!(l.lower(lui(), 65536, FLAG), Err(Refusal(8)));
    assert_eq!(l.lower(lui(), 65536, NO_FLAG), Err(Refusal(7)));
    assert_eq!(l.print(b"", 0, 1, &mut [0; 3]), Err(Refusal(14)));
    l.state[84] = 5000;
    assert_eq!(l.check_start(b""), Err(Refusal(13)));
    l.state[0] = u64::MAX;
    assert_eq!(l.lower(lui(), 65536, FLAG), Err(Refusal(9)));
    assert_eq!(l.print(b"", 0, 1, &mut [0; 100]), Err(Refusal(9)));
}
