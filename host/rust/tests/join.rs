// Edges and dispatches joined into flags: each kind alone and all of them, their text, every refusal, and joins between lowerings.
mod common;

use common::*;
use lanthanumbat::{head, Join, Lent, Refusal, Sequentials, DISPATCH, DYNAMICS, EDGE, LINE};

// What stands after the listing's start: the kernel nodes, the dynamic flags of x1 to x31, a flag for each of four addresses, and the word that
// is the first of them. The identifier of a line is its place and FIRST.
const MODE: usize = 39;
const NONE: usize = 40;
const DYNAMIC: usize = 41;
const FLAGS: usize = 72;
const ADDRESS: usize = 76;
const READY: usize = 77;

const ZERO_BIT: usize = 0;
const ONE_BIT: usize = 1;
const ZERO_WORD: usize = 2;
const NOT: u64 = 18;
const NEXT: u64 = 20;
const NOWHERE: u64 = u64::MAX;

const TABLE: [[u64; 2]; 4] = [[65536, 72], [65540, 73], [65544, 74], [65548, 75]];

fn dynamics() -> [u64; DYNAMICS] {
    std::array::from_fn(|n| (DYNAMIC + n) as u64)
}

// All that is lent for joins.
#[derive(Clone, PartialEq)]
struct Desk {
    storage: Storage,
    places: Vec<u64>,
    used: usize,
}

// The same that a `Join` has, to be changed.
#[derive(Clone)]
struct Given {
    edges: Vec<[u64; EDGE]>,
    dispatches: Vec<[u64; DISPATCH]>,
    flags: Vec<[u64; 2]>,
    dynamics: [u64; DYNAMICS],
    mode: usize,
    none: usize,
    flow: usize,
}

fn given(edges: &[[u64; EDGE]], dispatches: &[[u64; DISPATCH]], flow: usize) -> Given {
    let flags = TABLE.to_vec();
    Given { edges: edges.to_vec(), dispatches: dispatches.to_vec(), flags, dynamics: dynamics(), mode: MODE, none: NONE, flow }
}

impl Desk {
    fn new() -> Desk {
        let mut storage = start(200, 8);
        storage.names = vec![0; 100];
        let kernel = [(STATE_LINE, BIT, 0), (NOT, BIT, MODE as u64)];
        let flags = [(STATE_LINE, BIT, 0); DYNAMICS + TABLE.len()];
        for (kind, sort, first) in kernel.into_iter().chain(flags).chain([(CONST, WORD, 65536)]) {
            push(&mut storage, [head(0, kind, sort, 0, 0, 0), first, 0, 0, 0]);
        }
        assert_eq!(storage.state[LINES_USED], READY as u64);
        assert_eq!(lent(&mut storage).check_start(b""), Ok(()));
        Desk { storage, places: vec![0; 3], used: 0 }
    }

    fn lent(&mut self) -> Lent<'_> {
        lent(&mut self.storage)
    }

    fn join(&mut self, g: &Given) -> Result<usize, Refusal> {
        let mut sequentials = Sequentials { places: &mut self.places, used: self.used };
        let Given { mode, none, flow, .. } = *g;
        let j = Join { edges: &g.edges, dispatches: &g.dispatches, flags: &g.flags, dynamics: &g.dynamics, mode, none, flow };
        let flow = lent(&mut self.storage).join(&mut sequentials, j);
        self.used = sequentials.used;
        flow
    }

    // The new flow, and the text of the lines that a join from what is ready appends.
    fn joined(&mut self, g: &Given) -> (usize, String) {
        let flow = self.join(g).unwrap();
        let l = self.lent();
        assert_eq!(l.check_start(b""), Ok(()));
        (flow, text(&l, READY))
    }

    fn sequentials(&self) -> &[u64] {
        &self.places[..self.used]
    }
}

// Puts a line after those in use, under the next identifier.
fn push(s: &mut Storage, line: [u64; LINE]) {
    let place = s.state[LINES_USED] as usize;
    s.list[place * LINE..(place + 1) * LINE].copy_from_slice(&line);
    s.list[place * LINE] += s.state[NEXT_NID] << 32;
    s.state[LINES_USED] += 1;
    s.state[NEXT_NID] += 1;
}

// Where an edge leads to is not read: NOWHERE is no address that a lowering gives here.
fn regular(from: u64) -> [u64; EDGE] {
    [NOWHERE, from, REGULAR, NOWHERE]
}

fn branch(from: u64, condition: usize) -> [u64; EDGE] {
    [NOWHERE, from, BRANCH, condition as u64]
}

fn syscall(from: u64) -> [u64; EDGE] {
    [NOWHERE, from, SYSCALL, NOWHERE]
}

fn dispatch(register: u64) -> [u64; DISPATCH] {
    [register, ADDRESS as u64]
}

const SYSCALL_TEXT: &str = "97 state 1 kernel-mode-pc-flag-65544\n98 init 1 97 20\n99 ite 1 97 59 94\n100 next 1 97 99\n101 and 1 97 60\n";

#[test]
fn each_kind_alone_replaces_the_zero_bit() {
    let joined = |edges: &[_], dispatches: &[_]| Desk::new().joined(&given(edges, dispatches, ZERO_BIT));
    assert_eq!(joined(&[], &[]), (ZERO_BIT, String::new()));
    assert_eq!(joined(&[regular(65536)], &[]), (FLAGS, String::new()));
    assert_eq!(joined(&[branch(65540, FLAG)], &[]), (READY, "97 and 1 93 58\n".into()));
    assert_eq!(joined(&[syscall(65544)], &[]), (READY + 3, SYSCALL_TEXT.into()));
    assert_eq!(joined(&[], &[dispatch(5)]), (READY + 1, "97 eq 1 28 96\n98 and 1 65 97\n".into()));
    assert_eq!(joined(&[], &[dispatch(31)]), (READY + 1, "97 eq 1 54 96\n98 and 1 91 97\n".into()));
}

#[test]
fn each_kind_alone_goes_before_another_flow() {
    let joined = |edges: &[_], dispatches: &[_]| Desk::new().joined(&given(edges, dispatches, FLAG));
    assert_eq!(joined(&[], &[]), (FLAG, String::new()));
    assert_eq!(joined(&[regular(65536)], &[]), (READY, "97 ite 1 92 21 58\n".into()));
    assert_eq!(joined(&[branch(65540, FLAG)], &[]), (READY + 1, "97 and 1 93 58\n98 ite 1 97 21 58\n".into()));
    assert_eq!(joined(&[syscall(65544)], &[]), (READY + 4, SYSCALL_TEXT.to_string() + "102 ite 1 101 21 58\n"));
    assert_eq!(joined(&[], &[dispatch(5)]), (READY + 2, "97 eq 1 28 96\n98 and 1 65 97\n99 ite 1 98 21 58\n".into()));
}

#[test]
fn edges_then_dispatches_in_their_order() {
    let mut desk = Desk::new();
    let edges = [syscall(65544), regular(65536), branch(65540, FLAG), syscall(65544)];
    let (flow, lines) = desk.joined(&given(&edges, &[dispatch(5), dispatch(1)], ZERO_BIT));
    let wanted = SYSCALL_TEXT.to_string()
        + "102 ite 1 92 21 101\n"
        + "103 and 1 93 58\n104 ite 1 103 21 102\n"
        + "105 state 1 kernel-mode-pc-flag-65544\n106 init 1 105 20\n107 ite 1 105 59 94\n108 next 1 105 107\n109 and 1 105 60\n"
        + "110 ite 1 109 21 104\n"
        + "111 eq 1 28 96\n112 and 1 65 111\n113 ite 1 112 21 110\n"
        + "114 eq 1 24 96\n115 and 1 61 114\n116 ite 1 115 21 113\n";
    assert_eq!(lines, wanted);
    assert_eq!(flow, READY + 17);
    assert_eq!(desk.sequentials(), [READY as u64 + 2, READY as u64 + 9]);
    assert_eq!(desk.storage.names[..50], *b"kernel-mode-pc-flag-65544kernel-mode-pc-flag-65544");
    assert_eq!(desk.storage.state[..3], [READY as u64 + 18, 117, 50]);
}

// Its place decides, not its value: a constant 0 elsewhere is a flow as any other.
#[test]
fn another_zero_is_not_the_zero_bit() {
    let mut desk = Desk::new();
    push(&mut desk.storage, [head(0, CONST, BIT, 0, 0, 0), 0, 0, 0, 0]);
    assert_eq!(desk.joined(&given(&[regular(65536)], &[], READY)), (READY + 1, "97 constd 1 0\n98 ite 1 92 21 97\n".into()));
}

#[test]
fn the_first_flag_counts() {
    let mut g = given(&[regular(65540)], &[], ZERO_BIT);
    g.flags.insert(0, [65540, FLAG as u64]);
    assert_eq!(Desk::new().join(&g), Ok(FLAG));
    g.flags.swap(0, 2);
    assert_eq!(Desk::new().join(&g), Ok(FLAGS + 1));
}

#[test]
fn the_longest_name_has_40_bytes() {
    let mut desk = Desk::new();
    let mut g = given(&[syscall(u64::MAX)], &[], ZERO_BIT);
    g.flags = vec![[u64::MAX, FLAG as u64]];
    desk.storage.names.truncate(39);
    assert_eq!(desk.join(&g), Err(Refusal(8)));
    desk.storage.names.push(0);
    let (_, lines) = desk.joined(&g);
    assert!(lines.starts_with("97 state 1 kernel-mode-pc-flag-18446744073709551615\n"), "{lines}");
}

//
// Refusals
//

// Of every kind one, under what is lent to the last line, byte and sequential.
fn full() -> (Desk, Given) {
    let mut desk = Desk::new();
    let g = given(&[regular(65536), branch(65540, FLAG), syscall(65544)], &[dispatch(31)], FLAG);
    desk.storage.list.truncate((READY + 11) * LINE);
    desk.storage.names.truncate(25);
    desk.places.truncate(1);
    (desk, g)
}

// The answer after a change, which must leave all as it was where it is a refusal.
fn after(change: impl FnOnce(&mut Desk, &mut Given)) -> Result<usize, Refusal> {
    let (mut desk, mut g) = full();
    change(&mut desk, &mut g);
    let before = desk.clone();
    let answer = desk.join(&g);
    assert!(answer.is_ok() || desk == before);
    answer
}

#[test]
fn nothing_changed_is_accepted() {
    assert_eq!(after(|_, _| ()), Ok(READY + 10));
}

#[test]
fn counts_above_their_storage() {
    let state = |word, number| after(move |desk, _| desk.storage.state[word] = number);
    assert_eq!(state(LINES_USED, READY as u64 + 12), Err(Refusal(9)));
    assert_eq!(state(LINES_USED, u64::MAX), Err(Refusal(9)));
    assert_eq!(state(NEXT_NID, (1 << 31) + 2_097_152 + 1), Err(Refusal(9)));
    assert_eq!(state(NEXT_NID, (1 << 31) + 2_097_152), Ok(READY + 10));
    assert_eq!(state(NAMES_USED, 26), Err(Refusal(9)));
    assert_eq!(after(|desk, _| desk.used = 2), Err(Refusal(9)));
    // those of lists that are not lent here don't matter
    assert_eq!(after(|desk, _| desk.storage.state[EDGES_USED..FIRST_ROLE].fill(u64::MAX)), Ok(READY + 10));
}

#[test]
fn roles() {
    let role = |n, place| after(move |desk, _| desk.storage.state[FIRST_ROLE + n] = place);
    assert_eq!(role(0, ZERO_WORD as u64), Err(Refusal(13)));
    assert_eq!(role(78, READY as u64), Err(Refusal(13)));
    assert_eq!(role(78, NOWHERE), Err(Refusal(13)));
    assert_eq!(role(78, ONE_BIT as u64), Ok(READY + 10));
}

#[test]
fn flags_of_another_sort_or_none() {
    for place in [ZERO_WORD, READY, READY + 11, usize::MAX] {
        assert_eq!(after(|_, g| g.flags[0][1] = place as u64), Err(Refusal(15)));
        assert_eq!(after(|_, g| g.flags[3][1] = place as u64), Err(Refusal(15))); // which no edge needs
        assert_eq!(after(|_, g| g.flags.push([65536, place as u64])), Err(Refusal(15))); // which another comes before
        assert_eq!(after(|_, g| g.mode = place), Err(Refusal(15)));
        assert_eq!(after(|_, g| g.none = place), Err(Refusal(15)));
        assert_eq!(after(|_, g| g.dynamics[0] = place as u64), Err(Refusal(15)));
        assert_eq!(after(|_, g| g.dynamics[30] = place as u64), Err(Refusal(15)));
        assert_eq!(after(|_, g| g.flow = place), Err(Refusal(15)));
    }
    assert_eq!(after(|_, g| g.edges[2][1] = 65552), Err(Refusal(15)));
    assert_eq!(after(|_, g| g.flags.clear()), Err(Refusal(15)));
}

#[test]
fn a_next_line_is_no_flow() {
    let flow_at_next = |desk: &mut Desk, g: &mut Given| {
        push(&mut desk.storage, [head(0, NEXT, BIT, 0, 0, 0), FLAG as u64, FLAG as u64, 0, 0]);
        g.flow = READY;
    };
    assert_eq!(after(flow_at_next), Err(Refusal(15)));
}

#[test]
fn records_that_are_no_edge_or_dispatch() {
    assert_eq!(after(|_, g| g.edges[0][2] = 3), Err(Refusal(16)));
    assert_eq!(after(|_, g| g.edges[2][2] = NOWHERE), Err(Refusal(16)));
    for place in [ZERO_WORD as u64, READY as u64, NOWHERE] {
        assert_eq!(after(|_, g| g.edges[1][3] = place), Err(Refusal(16)));
        assert_eq!(after(|_, g| g.edges[0][3] = place), Ok(READY + 10)); // no branch
    }
    assert_eq!(after(|_, g| g.dispatches[0][0] = 0), Err(Refusal(16)));
    assert_eq!(after(|_, g| g.dispatches[0][0] = 32), Err(Refusal(16)));
    for place in [ZERO_BIT as u64, READY as u64, 65536] {
        assert_eq!(after(|_, g| g.dispatches[0][1] = place), Err(Refusal(16)));
    }
}

#[test]
fn room_for_one_less() {
    assert_eq!(after(|desk, _| desk.storage.list.truncate((READY + 11) * LINE - 1)), Err(Refusal(8)));
    assert_eq!(after(|desk, _| desk.storage.names.truncate(24)), Err(Refusal(8)));
    assert_eq!(after(|desk, _| desk.storage.state[NAMES_USED] = 1), Err(Refusal(8)));
    assert_eq!(after(|desk, _| desk.places.clear()), Err(Refusal(8)));
    assert_eq!(after(|desk, _| desk.used = 1), Err(Refusal(8)));
}

// All five apply; as one after the other is taken away, the next answers.
#[test]
fn the_first_refusal_is_given() {
    let (mut desk, mut g) = full();
    desk.used = 2;
    desk.storage.state[FIRST_ROLE] = NOWHERE;
    g.flow = usize::MAX;
    g.dispatches[0][0] = 0;
    assert_eq!(desk.join(&g), Err(Refusal(9)));
    desk.used = 1;
    assert_eq!(desk.join(&g), Err(Refusal(13)));
    desk.storage.state[FIRST_ROLE] = ZERO_BIT as u64;
    assert_eq!(desk.join(&g), Err(Refusal(15)));
    g.flow = FLAG;
    assert_eq!(desk.join(&g), Err(Refusal(16)));
    g.dispatches[0][0] = 31;
    assert_eq!(desk.join(&g), Err(Refusal(8)));
    desk.used = 0;
    assert_eq!(desk.join(&g), Ok(READY + 10));
}

//
// Joins between lowerings
//

// Lowers the instructions of the four addresses under their flags. Gives their edges.
fn lowered(desk: &mut Desk) -> Vec<[u64; EDGE]> {
    let (lui, branch) = (instruction(LUI, 5, 0, 0, 1), instruction(BLTU, 0, 5, 6, -4));
    let program = [lui, branch, instruction(ECALL, 0, 0, 0, 0), instruction(JALR, 0, 1, 0, 0)];
    let calls: Vec<_> = program.iter().zip(TABLE).map(|(i, [address, flag])| i.call(address, flag as usize)).collect();
    let mut l = desk.lent();
    assert_eq!(l.lower_all(&calls), (4, Ok(())));
    assert_eq!(text(&l, READY), "97 constd 2 4096\n98 ite 2 92 97 28\n99 ult 1 28 29\n100 not 1 99\n101 ite 1 94 21 20\n");
    assert_eq!((&l.state[EDGES_USED..FIRST_ROLE], &l.dispatches[..DISPATCH]), (&[4, 1, 0][..], &[1, 65548][..]));
    l.edges[..4 * EDGE].chunks(EDGE).map(|edge| edge.try_into().unwrap()).collect()
}

// What a host does: it joins for an address the edges that lead there, and for each register with a dispatch one with the node of that address in
// place of the address from; then it lowers on under what was joined, and joins the new edges.
#[test]
fn lowered_joined_and_lowered_again() {
    let mut desk = Desk::new();
    let edges = lowered(&mut desk);
    let to = |address: u64| edges.iter().copied().filter(|edge| edge[0] == address).collect::<Vec<_>>();
    let first = desk.join(&given(&to(65536), &[dispatch(1)], ZERO_BIT)).unwrap();
    let third = desk.join(&given(&to(65544), &[], ZERO_BIT)).unwrap();
    let fourth = desk.join(&given(&to(65548), &[], ZERO_BIT)).unwrap();
    let joined = READY + 5;
    assert_eq!((first, third, fourth), (joined + 3, joined + 4, joined + 8));
    assert_eq!(desk.sequentials(), [joined as u64 + 7]);
    let wanted = "102 and 1 93 99\n103 eq 1 24 96\n104 and 1 61 103\n105 ite 1 104 21 102\n".to_string()
        + "106 and 1 93 100\n"
        + "107 state 1 kernel-mode-pc-flag-65544\n108 init 1 107 20\n109 ite 1 107 59 94\n110 next 1 107 109\n111 and 1 107 60\n";
    assert_eq!(text(&desk.lent(), joined), wanted);

    let mut l = desk.lent();
    assert_eq!(l.lower(instruction(LUI, 5, 0, 0, 2), 65552, first), Ok(()));
    assert_eq!(l.lower(instruction(JAL, 0, 0, 0, -4), 65556, fourth), Ok(()));
    assert_eq!(text(&l, joined + 9), "112 constd 2 8192\n113 ite 2 105 112 98\n");
    let edge = l.edges[5 * EDGE..6 * EDGE].try_into().unwrap();
    assert_eq!(edge, [65552, 65556, REGULAR, NOWHERE]);
    let mut g = given(&[edge], &[], third);
    g.flags = vec![[65556, fourth as u64]];
    assert_eq!(desk.join(&g), Ok(joined + 11));
    assert_eq!(text(&desk.lent(), joined + 11), "114 ite 1 111 21 106\n");
    assert_eq!(desk.lent().check_start(b""), Ok(()));
}
