//! `sheets time ROUNDS`: times the program `sitting` against the Rust source, which prints the same sheets in two ways, on 40 sittings of 30 seconds, one process to
//! a sitting.
//! `sheets write N` and `sheets hand N` print the sheet of sitting N by `write!` and by hand, `sheets sitting N` writes its bytes.
#![allow(dead_code)]

include!(concat!(env!("OUT_DIR"), "/source.rs"));
#[path = "../../../../src/progress.rs"]
mod progress;
#[path = "../../../../src/simd.rs"]
pub mod simd;

mod items;
mod printed;
mod timed;

use std::io::Write;

fn usage() -> ! {
    eprintln!("usage: sheets time ROUNDS | write N | hand N | sitting N");
    std::process::exit(2)
}

fn main() {
    let words: Vec<String> = std::env::args().skip(1).collect();
    let [what, n] = &words[..] else { usage() };
    let n: usize = n.parse().unwrap_or_else(|_| usage());
    let done = match what.as_str() {
        "time" => return timed::time(n),
        _ if n >= items::SITTINGS => usage(),
        "write" => printed::by_write(n),
        "hand" => printed::by_hand(n),
        "sitting" => std::io::stdout().write_all(&items::sitting(n)),
        _ => usage(),
    };
    done.expect("an output to write to");
}
