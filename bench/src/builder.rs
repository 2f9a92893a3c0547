// Stands where mod.rs looks for its builder: the Rust file as it is, after it the oracle's driver (input lines, the start) and the bench's
// half, which must be in the same module to reach the builder's private items.
include!(concat!(env!("UNICORN_SRC"), "/src/unicorn/builder.rs"));

mod driver;
pub mod rust;
