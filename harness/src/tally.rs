//! Counts what was compared and what differed, and shows the first differences with what they came from.
use crate::progress::Progress;
use std::fmt::Display;

/// The one difference that document 01 lets stand. Rust leaves open which zero it is; ours is 0.
pub const ZERO_OF_MAX: &str = "the zero that `max` gives for −0 and 0";

pub struct Tally {
    subject: &'static str,
    seed: u64,
    /// As many values are wanted.
    wanted: u64,
    pub compared: u64,
    pub differed: u64,
    /// How many of the differences are known ones, and what gave the first of them.
    pub known: u64,
    first_known: String,
    progress: Progress,
}

/// The bits of a float as crates/exports gives them: every NaN has one pattern.
pub fn bits32(x: f32) -> u64 {
    if x.is_nan() {
        0x7fc0_0000
    } else {
        u64::from(x.to_bits())
    }
}

pub fn bits64(x: f64) -> u64 {
    if x.is_nan() {
        0x7ff8_0000_0000_0000
    } else {
        x.to_bits()
    }
}

impl Tally {
    pub fn new(subject: &'static str, seed: u64, wanted: u64) -> Self {
        Self {
            subject,
            seed,
            wanted,
            compared: 0,
            differed: 0,
            known: 0,
            first_known: String::new(),
            progress: Progress::new(),
        }
    }

    /// Whether more values are wanted. Shows how far it is.
    pub fn goes_on(&mut self) -> bool {
        let (subject, compared, wanted) = (self.subject, self.compared, self.wanted);
        self.progress
            .show(|| format!("{subject:<10} {compared:>11} of {wanted}"));
        compared < wanted
    }

    /// Compares two words; `input` says what gave them.
    pub fn word<D: Display>(&mut self, ours: u64, rust: u64, input: impl FnOnce() -> D) {
        self.compared += 1;
        if ours != rust {
            self.differed += 1;
            if self.differed - self.known <= 20 {
                println!("{} differs (seed {}): {}", self.subject, self.seed, input());
                println!("    ours {ours:x}, Rust {rust:x}");
            }
        }
    }

    pub fn f32<D: Display>(&mut self, ours: f32, rust: f32, input: impl FnOnce() -> D) {
        self.word(bits32(ours), bits32(rust), || {
            format!("{} (ours {ours:e}, Rust {rust:e})", input())
        });
    }

    pub fn f64<D: Display>(&mut self, ours: f64, rust: f64, input: impl FnOnce() -> D) {
        self.word(bits64(ours), bits64(rust), || {
            format!("{} (ours {ours:e}, Rust {rust:e})", input())
        });
    }

    /// Compares a value that comes of a `max` whose operands are known at run time only: of two zeros ours must be 0, and the Rust's may be
    /// either one.
    pub fn max_f32<D: Display>(&mut self, ours: f32, rust: f32, input: impl FnOnce() -> D) {
        self.max_f64(f64::from(ours), f64::from(rust), input);
    }

    pub fn max_f64<D: Display>(&mut self, ours: f64, rust: f64, input: impl FnOnce() -> D) {
        if bits64(ours) == 0 && bits64(rust) == bits64(-0.0) {
            self.compared += 1;
            self.differed += 1;
            self.known += 1;
            if self.known == 1 {
                self.first_known = input().to_string();
            }
        } else {
            self.f64(ours, rust, input);
        }
    }

    /// One line: how many were compared, how many differed. Answers whether all of these are known.
    pub fn show(&self) -> bool {
        let seconds = self.progress.seconds();
        print!(
            "{:<10} {:>11} compared, {} differed",
            self.subject, self.compared, self.differed
        );
        if self.known > 0 {
            print!(
                " ({} by {ZERO_OF_MAX}, first {})",
                self.known, self.first_known
            );
        }
        println!(
            ", {:.1} s, {:.2} million a second",
            seconds,
            self.compared as f64 / seconds / 1e6
        );
        self.differed == self.known
    }
}
