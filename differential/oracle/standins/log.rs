// log: messages go nowhere.
#[macro_export]
macro_rules! debug {
    ($($arg:tt)*) => {};
}
#[macro_export]
macro_rules! trace {
    ($($arg:tt)*) => {};
}
#[macro_export]
macro_rules! warn {
    ($($arg:tt)*) => {};
}
