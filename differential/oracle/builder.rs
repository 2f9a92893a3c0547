// Stands where mod.rs looks for its builder: the Rust file as it is, and after it what drives it, which must be in the
// same module to reach the builder's private items.
include!(concat!(env!("UNICORN_SRC"), "/src/unicorn/builder.rs"));

mod driver;
mod joins;
pub use driver::{hide_panics, node_lines_of, panics, run, show_start, sort_lines, Flows};
pub use joins::run_joins;
