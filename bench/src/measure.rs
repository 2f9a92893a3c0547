// The instructions, what a half of the bench does with them, and how it is measured.
use std::time::Instant;

// The kinds in the order of the Rust's first `match`, which numbers them for our library.
const KINDS: &str = "Lui Auipc Lb Lh Lw Ld Lbu Lhu Sb Sh Sw Sd Addi Sltiu Xori Ori Andi Slli Srli Srai Addiw Slliw Srliw Sraiw \
    Add Sub Sll Sltu Srl Sra Or And Mul Div Divu Remu Addw Divw Subw Sllw Mulw Beq Bne Blt Bge Bltu Bgeu Jal Jalr Ecall";

// An instruction: as an input line of the listing, and as numbers.
#[allow(dead_code)]
pub struct Record {
    pub text: String,
    pub address: u64,
    pub kind: u64,
    pub rd: u64,
    pub rs1: u64,
    pub rs2: u64,
    pub imm: u64,
}

fn record(text: &str) -> Option<Record> {
    let fields: Vec<&str> = text.split(' ').collect();
    let [address, kind, rd, rs1, rs2, imm] = fields[..] else { return None };
    Some(Record {
        text: text.to_string(),
        address: address.parse().ok()?,
        kind: KINDS.split(' ').position(|name| name == kind)? as u64,
        rd: rd.parse().ok()?,
        rs1: rs1.parse().ok()?,
        rs2: rs2.parse().ok()?,
        imm: imm.parse::<i64>().ok()? as u64,
    })
}

pub fn read(path: &str) -> Vec<Record> {
    let Ok(text) = std::fs::read_to_string(path) else { fail("the records cannot be read") };
    text.lines().map(|line| record(line).unwrap_or_else(|| fail("a record is not an input line"))).collect()
}

// One half. Only `lower` and `print` are measured.
pub trait Half {
    fn name(&self) -> &'static str;
    // Makes a fresh start, and takes what storage is lent.
    fn begin(&mut self);
    // Lowers all records; gives how many lines they appended.
    fn lower(&mut self) -> usize;
    // Prints the lines into storage of its own.
    fn print(&mut self);
    fn text(&self) -> &[u8];
    // Gives everything back.
    fn end(&mut self);
}

#[derive(Default)]
struct Figures {
    lines: usize,
    grown: i64,
    lowering: Vec<f64>,
    printing: Vec<f64>,
    text: Vec<u8>,
}

// One repetition.
fn repeat(half: &mut dyn Half, figures: &mut Figures) {
    half.begin();
    let before = resident();
    let clock = Instant::now();
    figures.lines = half.lower();
    figures.lowering.push(clock.elapsed().as_secs_f64());
    if figures.lowering.len() == 1 {
        figures.grown = resident() - before; // later ones find memory that was taken before
    }
    let clock = Instant::now();
    half.print();
    figures.printing.push(clock.elapsed().as_secs_f64());
    figures.text = half.text().to_vec();
    half.end();
}

// Measures the halves in turn, prints their figures, and gives the text of the node lines of each.
pub fn measure(halves: &mut [&mut dyn Half], repetitions: usize) -> Vec<Vec<String>> {
    let mut all: Vec<Figures> = halves.iter().map(|_| Figures::default()).collect();
    for _ in 0..repetitions {
        for (half, figures) in halves.iter_mut().zip(&mut all) {
            repeat(*half, figures);
        }
    }
    for (half, f) in halves.iter().zip(&mut all) {
        println!("{}: {} lines, {} bytes of text", half.name(), f.lines, f.text.len());
        figure("lowering", "lines", f.lines, &mut f.lowering);
        figure("printing", "bytes", f.text.len(), &mut f.printing);
        println!("  memory    {:.1} bytes a line", f.grown as f64 / f.lines as f64);
    }
    if let ([a, b], [f, g]) = (&*halves, &all[..]) {
        println!("{} to {}:", b.name(), a.name());
        ratio("lowering", &f.lowering, &g.lowering);
        ratio("printing", &f.printing, &g.printing);
        println!("  memory    {:.2} of the bytes a line", g.grown as f64 / f.grown as f64);
    }
    all.iter().map(|figures| node_lines(&figures.text)).collect()
}

// How many times as fast as the first the second is; both did the same, and their times are sorted.
fn ratio(what: &str, first: &[f64], second: &[f64]) {
    let median = first.len() / 2;
    println!("  {}  best {:.2}, median {:.2} times as fast", what, first[0] / second[0], first[median] / second[median]);
}

fn figure(what: &str, unit: &str, amount: usize, seconds: &mut [f64]) {
    seconds.sort_by(f64::total_cmp);
    let rate = |time: f64| (amount as f64 / time).round();
    let median = seconds[seconds.len() / 2];
    println!("  {}  best {} {unit}/s, median {} {unit}/s", what, rate(seconds[0]), rate(median));
}

// Bytes of this process that are in memory.
fn resident() -> i64 {
    let text = std::fs::read_to_string("/proc/self/statm").unwrap_or_else(|_| fail("/proc/self/statm cannot be read"));
    let pages: i64 = text.split(' ').nth(1).and_then(|pages| pages.parse().ok()).unwrap_or_else(|| fail("/proc/self/statm"));
    pages * 4096
}

// What begins with an identifier above the sorts' and the start's; the Rust's bad names without riscu's debug text.
fn node_lines(text: &[u8]) -> Vec<String> {
    let own = |line: &&str| line.split(' ').next().and_then(|nid| nid.parse::<u64>().ok()).is_some_and(|nid| nid > 58);
    let text = String::from_utf8_lossy(text);
    text.lines().filter(own).map(|line| line.split(" ; ").next().unwrap().to_string()).collect()
}

pub fn fail(text: &str) -> ! {
    eprintln!("bench: {}", text);
    std::process::exit(1)
}
