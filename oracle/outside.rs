// What the given files name outside themselves: the crates, and the log. Included at the root of each crate that takes them in, which
// says by `logged` whether log lines are made. The arguments of a line are computed only then, as the crate `log` does it.
extern crate alloc;
// The crates that the given files name. Of each, what they use of it is in stand_ins.rs.
extern crate self as axaddrspace;
extern crate self as axvm;
extern crate self as fdt_parser;
extern crate self as hashbrown;
extern crate self as memory_addr;

macro_rules! log_line {
    ($($t:tt)*) => { if crate::logged() { let _ = format!($($t)*); } };
}
macro_rules! trace { ($($t:tt)*) => { log_line!($($t)*) }; }
macro_rules! debug { ($($t:tt)*) => { log_line!($($t)*) }; }
macro_rules! info { ($($t:tt)*) => { log_line!($($t)*) }; }
macro_rules! warn { ($($t:tt)*) => { log_line!($($t)*) }; }
macro_rules! error { ($($t:tt)*) => { log_line!($($t)*) }; }
