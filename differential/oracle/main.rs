mod nodes;
mod sorts;
mod unicorn;

use unicorn::builder::{run, run_joins, show_start, Flows};

const USAGE: &str = "usage: oracle [--apart] [--flows | --each] < lines, or oracle [--apart] --start, or oracle [--apart] --join < commands, or oracle --nodes FROM COUNT < records, or oracle --sorts";

fn usage() -> ! {
    eprintln!("{}", USAGE);
    std::process::exit(2)
}

fn main() {
    let arguments: Vec<String> = std::env::args().skip(1).collect();
    let words: Vec<&str> = arguments.iter().map(String::as_str).collect();
    let (apart, rest) = match &words[..] {
        ["--apart", rest @ ..] => (true, rest),
        rest => (false, rest),
    };
    let outcome = match *rest {
        [] => run(apart, Flows::No),
        ["--flows"] => run(apart, Flows::Last),
        ["--each"] => run(apart, Flows::Each),
        ["--start"] => show_start(apart),
        ["--join"] => run_joins(apart),
        ["--nodes", from, count] if !apart => match (from.parse(), count.parse()) {
            (Ok(from), Ok(count)) => nodes::run(from, count),
            _ => usage(),
        },
        ["--sorts"] if !apart => sorts::show(),
        _ => usage(),
    };
    if let Err(error) = outcome {
        eprintln!("oracle: {}", error);
        std::process::exit(2)
    }
    // Not through the nodes' drop, which would recurse along a whole flow.
    std::process::exit(0)
}
