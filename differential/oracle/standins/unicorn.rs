// unicorn: the library half of the Rust project. The file system.rs is the project's own; util is a stand-in.
pub mod engine {
    pub mod system {
        include!(concat!(env!("UNICORN_SRC"), "/src/engine/system.rs"));
    }
}

pub mod util {
    pub fn next_multiple_of(value: u64, align: u64) -> u64 {
        value.next_multiple_of(align)
    }
}
