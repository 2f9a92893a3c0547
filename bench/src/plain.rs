// The evaluation as one would write it in Rust with no proof in mind: the lines are read into records once, and a recursion goes over these. It
// counts visits, tests the sort rule at each of them and looks through the given records as ours does, so that it has the same answers.
use Operator::*;
use Sort::*;

const MOST_LINES: usize = 4096;
const MOST_VISITS: u64 = 100_000;
const LINE: usize = 5; // words
const ILL_SORTED: u64 = 17;
const TOO_MANY_VISITS: u64 = 18;
const UNFIT: u64 = 19;

#[derive(Clone, Copy, PartialEq)]
enum Sort {
    Bit,
    Word,
    Memory,
    Bytes(u32),
}

impl Sort {
    fn of(number: u64) -> Option<Sort> {
        match number {
            1 => Some(Bit),
            2 => Some(Word),
            3 => Some(Memory),
            11..=17 => Some(Bytes(number as u32 - 10)),
            _ => None,
        }
    }

    // The largest value; a memory has none.
    fn most(self) -> u64 {
        match self {
            Bit => 1,
            Word => u64::MAX,
            Memory => 0,
            Bytes(n) => (1 << (8 * n)) - 1,
        }
    }
}

// What a line does with the lines at these places.
#[derive(Clone, Copy)]
enum Operator {
    Const(u64),
    Read(usize, usize),
    Write(usize, usize, usize),
    Binary(fn(u64, u64) -> u64, usize, usize),
    Ult(usize, usize),
    Uext(usize),
    Ite(usize, usize, usize),
    Eq(usize, usize),
    And(usize, usize),
    Or(usize, usize),
    Not(usize),
    State(Option<usize>),
    Next(usize, usize),
    Input,
    Bad(usize),
}

// A line: `sort` is the one that it names, Word where it names none, `carries` that of its value.
pub struct Line {
    operator: Operator,
    sort: Sort,
    carries: Option<Sort>,
}

fn udiv(a: u64, b: u64) -> u64 {
    a.checked_div(b).unwrap_or(u64::MAX)
}

fn urem(a: u64, b: u64) -> u64 {
    a.checked_rem(b).unwrap_or(a)
}

fn sdiv(a: u64, b: u64) -> u64 {
    let (a, b) = (a as i64, b as i64);
    match b {
        0 if a < 0 => 1,
        0 => u64::MAX,
        _ => a.wrapping_div(b) as u64,
    }
}

fn sll(a: u64, b: u64) -> u64 {
    if b < 64 {
        a << b
    } else {
        0
    }
}

fn srl(a: u64, b: u64) -> u64 {
    if b < 64 {
        a >> b
    } else {
        0
    }
}

impl Line {
    fn of(words: &[u64]) -> Option<Line> {
        let (kind, sort, init) = (words[0] & 255, Sort::of(words[0] >> 8 & 255), words[0] >> 24 & 15 != 0);
        let (a, b, c) = (words[1] as usize, words[2] as usize, words[3] as usize);
        let unsorted = |operator, carries| Some(Line { operator, sort: Word, carries });
        let sorted = |operator| sort.map(|sort| Line { operator, sort, carries: Some(sort) });
        match kind {
            1 => sorted(Const(words[1])),
            2 => unsorted(Read(a, b), Some(Word)),
            3 => unsorted(Write(a, b, c), Some(Memory)),
            4..=11 => {
                let operator = [u64::wrapping_add, u64::wrapping_sub, u64::wrapping_mul, udiv, sdiv, urem, sll, srl][kind as usize - 4];
                unsorted(Binary(operator, a, b), Some(Word))
            }
            12 => unsorted(Ult(a, b), Some(Bit)),
            13 => sort.map(|sort| Line { operator: Uext(a), sort, carries: Some(Word) }),
            14 => sorted(Ite(a, b, c)),
            15 => unsorted(Eq(a, b), Some(Bit)),
            16 => sorted(And(a, b)),
            17 => sorted(Or(a, b)),
            18 => sorted(Not(a)),
            19 => sorted(State(init.then_some(a))),
            20 => sort.map(|sort| Line { operator: Next(a, b), sort, carries: None }),
            21 => sorted(Input),
            22 => unsorted(Bad(a), None),
            _ => None,
        }
    }

    // Whether all operands pass a test.
    fn operands(&self, test: impl Fn(usize) -> bool) -> bool {
        match self.operator {
            Const(_) | State(None) | Input => true,
            Uext(a) | Not(a) | State(Some(a)) | Bad(a) => test(a),
            Read(a, b) | Binary(_, a, b) | Ult(a, b) | Eq(a, b) | And(a, b) | Or(a, b) | Next(a, b) => test(a) && test(b),
            Write(a, b, c) | Ite(a, b, c) => test(a) && test(b) && test(c),
        }
    }
}

// The lines, where each is known and its operands are earlier ones with a value.
pub fn read(list: &[u64], count: usize) -> Result<Vec<Line>, u64> {
    if count > MOST_LINES || count > list.len() / LINE {
        return Err(UNFIT);
    }
    let mut lines: Vec<Line> = Vec::with_capacity(count);
    for words in list[..count * LINE].chunks(LINE) {
        let line = Line::of(words).ok_or(UNFIT)?;
        if !line.operands(|place| lines.get(place).is_some_and(|line| line.carries.is_some())) {
            return Err(UNFIT);
        }
        lines.push(line);
    }
    Ok(lines)
}

struct Evaluation<'a> {
    lines: &'a [Line],
    values: &'a [[u64; 2]],
    memory: &'a [[u64; 3]],
    visits: u64,
}

// The value of a line and the visits that it takes, or the number of a refusal.
pub fn evaluate(lines: &[Line], values: &[[u64; 2]], memory: &[[u64; 3]], asked: usize) -> Result<(u64, u64), u64> {
    if !lines.get(asked).is_some_and(|line| matches!(line.carries, Some(Bit | Word))) {
        return Err(UNFIT);
    }
    let mut evaluation = Evaluation { lines, values, memory, visits: 0 };
    let value = evaluation.number(asked)?;
    Ok((value, evaluation.visits))
}

impl<'a> Evaluation<'a> {
    fn visit(&mut self, place: usize) -> Result<&'a Line, u64> {
        if self.visits == MOST_VISITS {
            return Err(TOO_MANY_VISITS);
        }
        self.visits += 1;
        let line = &self.lines[place];
        if self.well_sorted(line) {
            Ok(line)
        } else {
            Err(ILL_SORTED)
        }
    }

    fn well_sorted(&self, line: &Line) -> bool {
        let is = |place: usize, sort| self.lines[place].carries == Some(sort);
        let own = matches!(line.sort, Bit | Word);
        match line.operator {
            Const(number) => line.sort != Memory && number <= line.sort.most(),
            Read(memory, address) => is(memory, Memory) && is(address, Word),
            Write(memory, address, value) => is(memory, Memory) && is(address, Word) && is(value, Word),
            Binary(_, a, b) | Ult(a, b) => is(a, Word) && is(b, Word),
            Uext(a) => !matches!(line.sort, Word | Memory) && is(a, line.sort),
            Ite(condition, a, b) => is(condition, Bit) && is(a, line.sort) && is(b, line.sort),
            Eq(a, b) => is(a, Bit) && is(b, Bit) || is(a, Word) && is(b, Word),
            And(a, b) | Or(a, b) => own && is(a, line.sort) && is(b, line.sort),
            Not(a) => own && is(a, line.sort),
            State(Some(init)) => is(init, line.sort) || line.sort == Memory && is(init, Word),
            State(None) | Input => true,
            Next(..) | Bad(_) => false, // no line names them, and they cannot be asked for
        }
    }

    fn number(&mut self, place: usize) -> Result<u64, u64> {
        let line = self.visit(place)?;
        Ok(match line.operator {
            Const(number) => number,
            Read(memory, address) => {
                let address = self.number(address)?;
                self.cell(memory, address)?
            }
            Binary(operator, a, b) => operator(self.number(a)?, self.number(b)?),
            Ult(a, b) => (self.number(a)? < self.number(b)?) as u64,
            Uext(a) => self.number(a)?,
            Ite(condition, a, b) => {
                let chosen = if self.number(condition)? == 1 { a } else { b };
                self.number(chosen)?
            }
            Eq(a, b) => (self.number(a)? == self.number(b)?) as u64,
            And(a, b) => self.number(a)? & self.number(b)?,
            Or(a, b) => self.number(a)? | self.number(b)?,
            Not(a) => self.number(a)? ^ line.sort.most(),
            State(_) | Input => self.values.iter().find(|[node, _]| *node == place as u64).map_or(0, |[_, value]| value & line.sort.most()),
            Write(..) | Next(..) | Bad(_) => return Err(ILL_SORTED),
        })
    }

    fn cell(&mut self, place: usize, asked: u64) -> Result<u64, u64> {
        match self.visit(place)?.operator {
            Write(memory, address, value) => {
                if self.number(address)? == asked {
                    self.number(value)
                } else {
                    self.cell(memory, asked)
                }
            }
            Ite(condition, a, b) => {
                let chosen = if self.number(condition)? == 1 { a } else { b };
                self.cell(chosen, asked)
            }
            State(_) | Input => {
                let found = self.memory.iter().find(|[node, address, _]| *node == place as u64 && *address == asked);
                Ok(found.map_or(0, |[_, _, word]| *word))
            }
            _ => Err(ILL_SORTED),
        }
    }
}
