// A list holds at most 1,048,576 lines: the last one is taken, the next is refused, and a start with one line more is no start. The storage
// has room for more, so that it is the limit that refuses.
mod common;

use common::*;
use lanthanumbat::{head, Join, Lent, Refusal, Sequentials, DYNAMICS, LINE, MOST_LINES, NO_FLAG};

const ADDW_LINES: usize = 18;

#[test]
fn up_to_the_limit_and_past_it() {
    let full = (MOST_LINES - START) / ADDW_LINES;
    assert_eq!(START + full * ADDW_LINES + 1, MOST_LINES);
    let mut s = start(MOST_LINES + 100, full + 100);
    let mut l = lent(&mut s);
    let addw = |n: usize| instruction(ADDW, 1 + n as u64 % 31, 2, 3, 0).call(4 * n as u64, FLAG);
    let calls: Vec<_> = (0..full).map(addw).collect();
    assert_eq!(l.lower_all(&calls), (full, Ok(())));
    assert_eq!(l.lines(), MOST_LINES - 1);

    let ecall = instruction(ECALL, 0, 0, 0, 0);
    let two_lines = instruction(BEQ, 0, 1, 2, 8);
    let no_line = instruction(JAL, 0, 0, 0, 8);
    assert_eq!(l.lower(two_lines, 0, NO_FLAG), Err(Refusal(8)));
    assert_eq!(l.lower_all(&[two_lines.call(0, NO_FLAG)]), (0, Err(Refusal(8))));
    assert_eq!(l.lower(ecall, u64::MAX, FLAG), Ok(()));
    assert_eq!(l.lines(), MOST_LINES);
    let last = [head(FIRST + MOST_LINES as u64 - 1, 14, BIT, 0, 0, 1), FLAG as u64, 1, 0, u64::MAX];
    assert_eq!(&l.list[(MOST_LINES - 1) * LINE..MOST_LINES * LINE], &last);
    let last_addw = 4 * (full as u64 - 1);
    let around = [MOST_LINES - 2, MOST_LINES - 1, MOST_LINES].map(|place| l.address(place));
    assert_eq!(around, [Some(last_addw), Some(u64::MAX), None]);
    assert_eq!(l.check_start(b""), Ok(()));

    let (list, state) = (l.list.to_vec(), *l.state);
    assert_eq!(l.lower(ecall, 4, FLAG), Err(Refusal(8)));
    assert_eq!(l.lower_all(&[ecall.call(4, FLAG)]), (0, Err(Refusal(8))));
    assert!(*l.list == list && *l.state == state);
    assert_eq!(l.lower(no_line, 4, NO_FLAG), Ok(()));
    assert_eq!(l.lines(), MOST_LINES);

    // One line more, well formed.
    l.list[MOST_LINES * LINE..(MOST_LINES + 1) * LINE].copy_from_slice(&[head(l.state[NEXT_NID], CONST, BIT, 0, 0, 0), 0, 0, 0, 0]);
    l.state[LINES_USED] += 1;
    l.state[NEXT_NID] += 1;
    assert_eq!(l.check_start(b""), Err(Refusal(9)));
    assert_eq!(l.lower(no_line, 4, NO_FLAG), Err(Refusal(9)));
    assert_eq!(l.lower_all(&[no_line.call(4, NO_FLAG)]), (0, Err(Refusal(9))));
    assert_eq!(l.print(b"", 0, 1, &mut [0; 100]), Err(Refusal(9)));
    l.state[LINES_USED] -= 1;
    l.state[NEXT_NID] -= 1;
    assert_eq!(l.check_start(b""), Ok(()));
    assert_eq!(l.print(b"", MOST_LINES - 1, 1, &mut [0; 100]), Ok("1048595 ite 1 58 21 20\n".len()));

    // All of it as text, with just enough output and with a byte less.
    let mut out = vec![0; 53 * MOST_LINES];
    let bytes = l.print(b"", 0, MOST_LINES, &mut out).unwrap();
    assert_eq!(out[..bytes].iter().filter(|byte| **byte == b'\n').count(), MOST_LINES);
    assert!(out[..bytes].ends_with(b"\n1048595 ite 1 58 21 20\n"));
    let mut short = vec![b'.'; bytes];
    assert_eq!(l.print(b"", 0, MOST_LINES, &mut short[1..]), Err(Refusal(14)));
    assert!(short.iter().all(|byte| *byte == b'.'));
    assert_eq!(l.print(b"", 0, MOST_LINES, &mut short), Ok(bytes));
    assert!(short == out[..bytes]);
}

// The most identifiers that lines take: every line after the start's is a state with an init, and takes two.
#[test]
fn states_with_an_init_up_to_the_limit() {
    let mut s = start(MOST_LINES + 1, 8);
    for place in START..MOST_LINES {
        let nid = FIRST + START as u64 + 2 * (place - START) as u64;
        s.list[place * LINE..(place + 1) * LINE].copy_from_slice(&[head(nid, STATE_LINE, WORD, 0, 1, 0), 2, 0, 0, 0]);
    }
    s.state[LINES_USED] = MOST_LINES as u64;
    s.state[NEXT_NID] = FIRST + START as u64 + 2 * (MOST_LINES - START) as u64;
    let mut l = lent(&mut s);
    assert_eq!(l.check_start(b""), Ok(()));
    assert_eq!(l.lower(instruction(ECALL, 0, 0, 0, 0), 0, FLAG), Err(Refusal(8)));
    assert_eq!(l.lower(instruction(JAL, 0, 0, 0, 8), 0, NO_FLAG), Ok(()));
    let mut out = [0; 100];
    let bytes = l.print(b"", MOST_LINES - 1, 1, &mut out).unwrap();
    assert_eq!(std::str::from_utf8(&out[..bytes]).unwrap(), "2097131 state 2 ?\n2097132 init 2 2097131 22\n");
    l.state[NEXT_NID] -= 1;
    assert_eq!(l.check_start(b""), Err(Refusal(10)));
    l.state[NEXT_NID] = (1 << 31) + 1;
    assert_eq!(l.check_start(b""), Err(Refusal(9)));
    l.state[NEXT_NID] = 1 << 31;
    assert_eq!(l.check_start(b""), Ok(()));
    l.state[NEXT_NID] += 2_097_152;
    assert_eq!(l.lower(instruction(JAL, 0, 0, 0, 8), 4, NO_FLAG), Ok(()));
    l.state[NEXT_NID] += 1;
    assert_eq!(l.lower(instruction(JAL, 0, 0, 0, 8), 8, NO_FLAG), Err(Refusal(9)));
}

// A syscall edge appends five lines before a flow, a regular one a line; in the zero bit's place a regular one appends none.
#[test]
fn joins_up_to_the_limit_and_past_it() {
    let mut s = start(MOST_LINES + 100, 8);
    s.names = vec![0; 100];
    for place in START..MOST_LINES + 1 {
        s.list[place * LINE..(place + 1) * LINE].copy_from_slice(&[head(FIRST + place as u64, CONST, BIT, 0, 0, 0), 0, 0, 0, 0]);
    }
    let mut l = lent(&mut s);
    let mut sequentials = Sequentials { places: &mut [0; 9], used: 0 };
    let nothing = Join { edges: &[], dispatches: &[], flags: &[[0, FLAG as u64]], dynamics: &DYNAMIC, mode: FLAG, none: FLAG, flow: FLAG };
    let syscall = Join { edges: &[[0, 0, SYSCALL, u64::MAX]], ..nothing };
    let regular = Join { edges: &[[0, 0, REGULAR, u64::MAX]], ..nothing };

    use_lines(&mut l, MOST_LINES - 4);
    let (list, state) = (l.list.to_vec(), *l.state);
    assert_eq!(l.join(&mut sequentials, syscall), Err(Refusal(8)));
    assert!(*l.list == list && *l.state == state && sequentials.used == 0);

    use_lines(&mut l, MOST_LINES - 5);
    assert_eq!(l.join(&mut sequentials, syscall), Ok(MOST_LINES - 1));
    assert_eq!((l.lines(), l.state[NEXT_NID]), (MOST_LINES, FIRST + MOST_LINES as u64 + 1));
    assert_eq!((sequentials.used, sequentials.places[0]), (1, MOST_LINES as u64 - 3));
    assert_eq!(l.address(MOST_LINES - 1), None);
    assert_eq!(l.check_start(b""), Ok(()));
    assert!(text(&l, MOST_LINES - 5).starts_with("1048591 state 1 kernel-mode-pc-flag-0\n1048592 init 1 1048591 20\n"));
    assert!(text(&l, MOST_LINES - 5).ends_with("\n1048596 ite 1 1048595 21 58\n"));

    assert_eq!(l.join(&mut sequentials, syscall), Err(Refusal(8)));
    assert_eq!(l.join(&mut sequentials, regular), Err(Refusal(8)));
    assert_eq!(l.join(&mut sequentials, Join { flow: 0, ..regular }), Ok(FLAG));
    assert_eq!(l.join(&mut sequentials, nothing), Ok(FLAG));
    assert_eq!(l.lines(), MOST_LINES);

    use_lines(&mut l, MOST_LINES + 1);
    assert_eq!(l.join(&mut sequentials, nothing), Err(Refusal(9)));
}

// The dynamic flags: all are FLAG.
const DYNAMIC: [u64; DYNAMICS] = [FLAG as u64; DYNAMICS];

// Says that so many lines are in use, each with one identifier.
fn use_lines(l: &mut Lent, lines: usize) {
    l.state[LINES_USED] = lines as u64;
    l.state[NEXT_NID] = FIRST + lines as u64;
}
