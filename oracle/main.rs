// Runs the given Rust beside this library and compares the two; see README.md here. The given files are read unchanged: `run`
// lays copies of them into `shared` beside copies of these files before it calls the compiler.
include!("outside.rs");

use std::sync::atomic::{AtomicBool, Ordering};

// Whether the given files' log lines are made.
pub static LOGGED: AtomicBool = AtomicBool::new(false);

pub fn logged() -> bool {
    LOGGED.load(Ordering::Relaxed)
}

mod ask;
mod derivations;
mod deriving;
mod differences;
mod drawing;
mod given;
mod guests;
mod kinds;
mod names;
mod readers;
mod reading;
mod references;
mod stand_ins;
mod trees;
mod writing;

pub use stand_ins::*;

fn main() {
    let words: Vec<String> = std::env::args().collect();
    let code = kinds::run(&words[1..]);
    std::process::exit(code);
}
