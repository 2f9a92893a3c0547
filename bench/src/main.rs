// bench RECORDS [REPETITIONS [each]]: the unchanged Rust, and our library where it is linked, on one list of instructions; `each` has ours
// lower by a call for each instruction.
mod measure;
#[cfg(host)]
mod ours;
mod unicorn;

use measure::{fail, measure, read};

fn main() {
    let arguments: Vec<String> = std::env::args().collect();
    let repetitions = arguments.get(2).map_or(Ok(5), |text| text.parse());
    let each = arguments.get(3).map_or(Some(false), |text| (text == "each").then_some(true));
    let (Some(path), Ok(repetitions @ 1..), Some(_each), 2..=4) = (arguments.get(1), repetitions, each, arguments.len()) else {
        fail("usage: bench RECORDS [REPETITIONS [each]]")
    };
    let records = read(path);
    println!("{}: {} instructions, {} repetitions", path, records.len(), repetitions);
    let mut rust = unicorn::builder::rust::Rust::new(&records);
    #[cfg(host)]
    let mut ours = ours::Ours::new(&records, _each);
    #[rustfmt::skip]
    let texts = measure(&mut [&mut rust, #[cfg(host)] &mut ours], repetitions);
    if texts.iter().any(|text| *text != texts[0]) {
        fail("the two printed different lines")
    }
}
