//! Holds the Rattle crates to the Rust source, bit by bit, any two NaN being equal, and what reads and writes items to items.rs; and writes the
//! vectors that programs of the repository are held to. `run` beside this folder builds it, with the libraries that it links:
//!
//!     harness/run compare all
//!     harness/run compare floats 100000000 7
//!     harness/run compare runs 1000000 11 300000000
//!     harness/run compare ensembles 1000000 1 300000000
//!     harness/run compare items 10000000 1
//!     harness/run compare sittings 100000 1
//!     harness/run vectors chaos
//!
//! Only a release build compares: Rust leaves open which zero `max` gives for −0 and 0, and a debug build gives another one than a release
//! build. Ours gives 0 (document 01).
include!(concat!(env!("OUT_DIR"), "/source.rs"));

mod adverse;
mod bend;
mod choices;
mod drawn;
mod ends;
mod ensemble_adverse;
mod ensemble_figures;
mod ensemble_player;
mod ensemble_questions;
mod ensemble_reference;
mod ensemble_run;
mod ensemble_stored;
mod ensemble_voices;
mod ensembles;
mod ffi;
mod figures;
mod floats;
mod item_compare;
mod item_examples;
mod item_figures;
mod item_values;
mod items;
mod legs;
mod player;
mod programs;
mod progress;
mod questions;
mod reading;
mod reference;
mod refused;
mod run;
mod runs;
mod shrunk;
mod simd;
mod sitting_compare;
mod sitting_examples;
mod sitting_faults;
mod sitting_figures;
mod sitting_stored;
mod sitting_stored_faults;
mod sitting_values;
mod sittings;
mod spoiled;
mod stored;
mod stored_items;
mod tally;
mod values;
mod vectors;
mod written;

use runs::Wanted;
use std::path::Path;
use tally::Tally;
use values::Values;

type Compare = fn(&mut Tally, &mut Values);

/// Each subject with the number of values of a short run.
const SUBJECTS: [(&str, Compare, u64); 4] = [
    ("floats", floats::compare, 50_000_000),
    ("bend", bend::compare, 50_000_000),
    ("legs", legs::compare, 20_000_000),
    ("choices", choices::compare, 50_000_000),
];

const USAGE: &str = "usage: harness/run vectors chaos|curves
       harness/run vectors runs|ensembles|sittings DIR
       harness/run show [ensemble] BYTES
       harness/run items examples DIR
       harness/run items show FILE
       harness/run sittings examples DIR
       harness/run sittings show FILE
       harness/run compare SUBJECT|all [COUNT] [SEED]
       harness/run compare runs [COUNT] [SEED] [FRAMES]
       harness/run compare runs ends [COUNT] [SEED]
       harness/run compare ensembles [COUNT] [SEED] [VALUES]
       harness/run compare items [COUNT] [SEED]
       harness/run compare sittings [COUNT] [SEED]
       harness/run compare bend long
       harness/run compare legs long
       harness/run compare runs long
SUBJECT is floats, bend, legs or choices; COUNT the least number of values of each.
BYTES are those of a run, of a player or of an ensemble, in hexadecimal.
Of items, COUNT is the least number of records; `items show` writes the fields of the record in FILE beside its bytes.
Of runs, COUNT is the least number of runs and FRAMES of frames; run i has the seed SEED + i.
Of ensembles the same, VALUES being the least number of values of x and y.
Of sittings, COUNT is their number and sitting i has the seed SEED + i; `vectors sittings` writes to two folders of DIR, and `sittings show` is as `items show`.";

/// The runs of a short comparison.
const RUNS: u64 = 100_000;

/// The runs about the end of a One-shot of a short comparison.
const ENDS: u64 = 10_000;

/// The runs of ensembles of a short comparison.
const ENSEMBLES: u64 = 30_000;

/// The records of a short comparison.
const RECORDS: u64 = 1_000_000;

/// The sittings of a comparison of them alone, and of one of all subjects.
const SITTINGS: u64 = 5_000;
const FEW_SITTINGS: u64 = 2_000;

fn number(word: &str) -> u64 {
    word.replace('_', "").parse().unwrap_or_else(|_| usage())
}

fn usage() -> ! {
    eprintln!("{USAGE}");
    std::process::exit(2)
}

fn is_release() -> bool {
    if cfg!(debug_assertions) {
        eprintln!("build with --release");
    }
    !cfg!(debug_assertions)
}

/// Compares a subject, or all, and answers whether every difference is a known one.
fn compare(subject: &str, count: Option<u64>, seed: u64) -> bool {
    if !is_release() {
        return false;
    }
    let mut right = true;
    let mut compared = 0;
    for (name, compare, short) in SUBJECTS {
        if subject == name || subject == "all" {
            let mut tally = Tally::new(name, seed, count.unwrap_or(short));
            compare(&mut tally, &mut Values::new(seed));
            right &= tally.show();
            compared += tally.compared;
        }
    }
    if compared == 0 {
        usage();
    }
    if subject == "all" {
        right &= items(&[]);
        right &= runs(&[]);
        right &= ends(&[]);
        right &= ensembles(&[]);
        right &= sittings(&[], FEW_SITTINGS);
    }
    println!(
        "{compared} values compared: {}",
        if right {
            "equal, but for known differences"
        } else {
            "THERE ARE DIFFERENCES"
        }
    );
    right
}

/// Compares `bend` on all 2^32 curves.
fn every_curve() -> bool {
    let mut tally = Tally::new("bend", 0, 1 << 32);
    bend::compare_all(&mut tally);
    tally.show()
}

/// Compares `leg` on all 2^32 coordinates, and many legs.
fn every_coordinate() -> bool {
    let mut tally = Tally::new("legs", 1, 1 << 32);
    legs::compare_all(&mut tally, &mut Values::new(1));
    tally.show()
}

/// Compares whole runs: COUNT, SEED, FRAMES.
fn runs(words: &[&str]) -> bool {
    if !is_release() {
        return false;
    }
    if words.len() > 3 {
        usage();
    }
    let word = |i: usize, other: u64| words.get(i).map_or(other, |w| number(w));
    let wanted = Wanted {
        runs: word(0, RUNS),
        seed: word(1, 1),
        frames: word(2, 0),
    };
    runs::compare(&wanted)
}

/// Compares runs about the end of a One-shot: COUNT, SEED.
fn ends(words: &[&str]) -> bool {
    if words.len() > 2 {
        usage();
    }
    let word = |i: usize, other: u64| words.get(i).map_or(other, |w| number(w));
    is_release() && runs::compare_ends(word(0, ENDS), word(1, 1))
}

/// Compares runs of ensembles: COUNT, SEED, VALUES.
fn ensembles(words: &[&str]) -> bool {
    if words.len() > 3 {
        usage();
    }
    let word = |i: usize, other: u64| words.get(i).map_or(other, |w| number(w));
    let wanted = ensembles::Wanted {
        runs: word(0, ENSEMBLES),
        seed: word(1, 1),
        values: word(2, 0),
    };
    is_release() && ensembles::compare(&wanted)
}

/// Compares items: COUNT, SEED.
fn items(words: &[&str]) -> bool {
    if words.len() > 2 {
        usage();
    }
    let word = |i: usize, other: u64| words.get(i).map_or(other, |w| number(w));
    is_release() && item_compare::compare(word(0, RECORDS), word(1, 1))
}

/// Compares sittings: COUNT, SEED.
fn sittings(words: &[&str], count: u64) -> bool {
    if words.len() > 2 {
        usage();
    }
    let word = |i: usize, other: u64| words.get(i).map_or(other, |w| number(w));
    is_release() && sitting_compare::compare(word(0, count), word(1, 1))
}

/// Shows the run of some bytes.
fn shown(hex: &str, show: fn(&[u8])) -> bool {
    show(&shrunk::unhex(hex).unwrap_or_else(|| usage()));
    true
}

fn stored_runs(dir: &str, write: fn(&Path)) -> bool {
    let release = is_release();
    if release {
        write(Path::new(dir));
    }
    release
}

fn main() {
    let words: Vec<String> = std::env::args().skip(1).collect();
    let words: Vec<&str> = words.iter().map(String::as_str).collect();
    let right = match words[..] {
        ["vectors", "chaos"] => {
            vectors::chaos();
            true
        }
        ["vectors", "curves"] => {
            vectors::curves();
            true
        }
        ["vectors", "runs", dir] => stored_runs(dir, stored::runs),
        ["vectors", "ensembles", dir] => stored_runs(dir, ensemble_stored::runs),
        ["vectors", "sittings", dir] => stored_runs(dir, sitting_stored::sittings),
        ["show", hex] => shown(hex, shrunk::show),
        ["show", "ensemble", hex] => shown(hex, ensembles::show),
        ["compare", "bend", "long"] => every_curve(),
        ["compare", "legs", "long"] => every_coordinate(),
        ["compare", "runs", "long"] => runs::compare_long(),
        ["compare", "runs", "ends", ref rest @ ..] => ends(rest),
        ["compare", "runs", ref rest @ ..] => runs(rest),
        ["compare", "ensembles", ref rest @ ..] => ensembles(rest),
        ["compare", "items", ref rest @ ..] => items(rest),
        ["compare", "sittings", ref rest @ ..] => sittings(rest, SITTINGS),
        ["items", "examples", dir] => item_examples::write(Path::new(dir)),
        ["items", "show", file] => item_examples::show(Path::new(file)),
        ["sittings", "examples", dir] => sitting_examples::write(Path::new(dir)),
        ["sittings", "show", file] => sitting_examples::show(Path::new(file)),
        ["compare", subject] => compare(subject, None, 1),
        ["compare", subject, count] => compare(subject, Some(number(count)), 1),
        ["compare", subject, count, seed] => compare(subject, Some(number(count)), number(seed)),
        _ => usage(),
    };
    std::process::exit(if right { 0 } else { 1 });
}
