//! Whole runs against the Rust source: the bytes that `lfo_run` of crates/runner gives against those of reference.rs, every byte of `out`.
//! A run is made from its seed (adverse.rs); run i of a comparison has the seed SEED + i, so that `compare runs 1 S` plays the run of seed S alone.
use crate::adverse::{Made, made};
use crate::ends;
use crate::ffi::lfo_run;
use crate::figures::{CALLS, Figures};
use crate::progress::Progress;
use crate::reference::{Entry, Played, play};
use crate::run::Run;
use crate::shrunk::{show_run, shrunk};
use crate::tally::ZERO_OF_MAX;
use crate::values::Values;
use crate::written::long_runs;

/// What a comparison is to play: so many runs, and more until so many frames.
pub struct Wanted {
    pub runs: u64,
    pub frames: u64,
    pub seed: u64,
}

struct Comparison {
    /// What is compared, as the command names it.
    name: &'static str,
    progress: Progress,
    figures: Figures,
    differed: u64,
    known: u64,
}

/// Numbers as they stand in bytes.
pub fn numbers(bytes: &[u8]) -> Vec<u64> {
    let groups = bytes.split_inclusive(|b| *b < 128);
    let value = |group: &[u8]| {
        let groups = group.iter().take(10).enumerate();
        groups.fold(0u128, |sum, (i, b)| sum | u128::from(b & 127) << (7 * i)) as u64
    };
    groups.map(value).collect()
}

// What stands at a place of a call's numbers.
fn place(e: &Entry, i: usize) -> String {
    let before = usize::from(e.tag == 5 && e.answer == 0);
    let first = 1 + before;
    let x_len = e.x_len as usize;
    match i {
        0 => "the answer".into(),
        1 if before == 1 => "finished".into(),
        1 if e.tag == 8 => "the count of legs".into(),
        _ if e.tag == 8 => format!("leg {}", i - 2),
        _ if e.tag != 5 => format!("value {i}"),
        _ if i - first < x_len => format!("x of frame {}", i - first),
        _ => format!("y of frame {}", i - first - x_len),
    }
}

// The first number that differs: its call, what it is, and both.
fn first_difference(played: &Played, ours: &[u8]) -> String {
    let mut start = 0;
    for (i, e) in played.entries.iter().enumerate() {
        let rust = &played.out[start..e.end];
        if ours.get(start..e.end) != Some(rust) {
            let (ours, rust) = (numbers(&ours[start.min(ours.len())..]), numbers(rust));
            let at = (0..rust.len())
                .find(|k| ours.get(*k) != Some(&rust[*k]))
                .unwrap_or(0);
            let ours = ours.get(at).map_or("nothing".into(), |n| format!("{n:x}"));
            let name = CALLS[e.tag];
            let what = place(e, at);
            return format!(
                "call {i} ({name}), {what}: ours {ours}, Rust {:x}",
                rust[at]
            );
        }
        start = e.end;
    }
    format!(
        "after call {}: ours {:02x?}, Rust {:02x?} ({:?})",
        played.entries.len(),
        &ours[start.min(ours.len())..],
        &played.out[start..],
        played.ending
    )
}

/// Whether each difference is a 0 of ours where the Rust has −0, in a run where `max` was put both.
pub fn is_zero_of_max(played: &Played, ours: &[u8]) -> bool {
    let (ours, rust) = (numbers(ours), numbers(&played.out));
    played.zeros
        && ours.len() == rust.len()
        && ours
            .iter()
            .zip(&rust)
            .all(|(a, b)| a == b || (*a == 0 && *b == 0x8000_0000))
}

/// What a function gives with room for all, and more than that to spare.
pub fn whole(bytes: &[u8], played: &Played) -> Vec<u8> {
    let mut out = vec![0; played.out.len() + 65_536];
    let n = lfo_run(bytes, &mut out) as usize;
    out.truncate(n);
    out
}

pub fn hex(bytes: &[u8]) -> String {
    bytes.iter().map(|b| format!("{b:02x}")).collect()
}

// Whether a run differs, but for the zero of `max`.
fn differs(run: &Run) -> bool {
    let bytes = run.bytes();
    let played = play(&bytes, &[], &mut Figures::default());
    let ours = whole(&bytes, &played);
    ours != played.out && !is_zero_of_max(&played, &ours)
}

/// A length of `out`: room for all in most runs; now and then about the end of some call's bytes, or any shorter one.
pub fn out_len(v: &mut Values, played: &Played) -> usize {
    let full = played.out.len();
    if !v.one_in(12) {
        return full + v.index(24);
    }
    if played.entries.is_empty() || v.one_in(4) {
        return v.index(full + 1);
    }
    let end = played.entries[v.index(played.entries.len())].end;
    (end + v.index(3)).saturating_sub(1)
}

impl Comparison {
    fn new(name: &'static str) -> Self {
        Self {
            name,
            progress: Progress::new(),
            figures: Figures::default(),
            differed: 0,
            known: 0,
        }
    }

    // Says how many runs and frames were compared, and answers whether all differences are known.
    fn right(&self) -> bool {
        let seconds = self.progress.seconds();
        println!(
            "{:<10} {:>11} compared, {} frames, {} differed ({} by {ZERO_OF_MAX}), {seconds:.1} s",
            self.name, self.figures.runs, self.figures.frames, self.differed, self.known
        );
        self.differed == self.known && self.figures.bank_differed == 0
    }

    fn show_difference(&mut self, seed: u64, made: &Made, played: &Played) {
        let ours = whole(&made.bytes, played);
        if is_zero_of_max(played, &ours) {
            self.known += 1;
            if self.known == 1 {
                let what = first_difference(played, &ours);
                println!("known: {ZERO_OF_MAX}, first in the run of seed {seed}, {what}");
            }
            return;
        }
        if self.differed - self.known > 10 {
            return;
        }
        println!(
            "{} differ, seed {seed}: {}",
            self.name,
            first_difference(played, &ours)
        );
        if made.spoiled {
            println!("    spoiled bytes {}", hex(&made.bytes));
        }
        if made.spoiled || made.run.calls.len() > 100 {
            return;
        }
        let run = shrunk(&made.run, differs);
        let bytes = run.bytes();
        let played = play(&bytes, &[], &mut Figures::default());
        let ours = whole(&bytes, &played);
        let what = first_difference(&played, &ours);
        println!("    with {} calls: {what}", run.calls.len());
        println!("    bytes {}", hex(&bytes));
        if bytes.len() <= 1000 {
            show_run(&run);
        }
    }

    // How far it is; `frames` is 0 where any number will do.
    fn show_progress(&mut self, runs: u64, frames: u64) {
        let f = &self.figures;
        let wanted = if frames > 0 {
            format!(" of {frames}")
        } else {
            String::new()
        };
        self.progress.show(|| {
            format!(
                "{:<10} {:>11} of {runs}, {}{wanted} frames",
                self.name, f.runs, f.frames
            )
        });
    }

    fn run(&mut self, seed: u64, made: &Made) {
        let played = play(&made.bytes, &made.smooths, &mut self.figures);
        self.figures.runs += 1;
        let mut v = Values::new(!seed);
        let out_len = out_len(&mut v, &played);
        let written = played.fits(out_len);
        self.figures.short += u64::from(written < played.out.len());
        let fill = v.word() as u8;
        let mut out = vec![fill; out_len];
        let n = lfo_run(&made.bytes, &mut out);
        let same = n == written as u64
            && out[..written] == played.out[..written]
            && out[written..].iter().all(|b| *b == fill);
        if !same {
            self.differed += 1;
            if whole(&made.bytes, &played) != played.out {
                self.show_difference(seed, made, &played);
            } else if self.differed - self.known <= 10 {
                println!(
                    "{} differ, seed {seed}: `out` of {out_len} bytes, wrote {n}, by RUN.md {written}; bytes {}",
                    self.name,
                    hex(&made.bytes)
                );
            }
        }
    }
}

/// Compares runs and answers whether every difference is a known one.
pub fn compare(wanted: &Wanted) -> bool {
    let mut c = Comparison::new("runs");
    let mut i = 0;
    while i < wanted.runs || c.figures.frames < wanted.frames {
        let seed = wanted.seed.wrapping_add(i);
        c.show_progress(wanted.runs, wanted.frames);
        c.run(seed, &made(seed));
        i += 1;
    }
    c.figures.show();
    c.right()
}

// A run as it is, with no setting that gave a coefficient.
fn plain(run: Run) -> Made {
    Made {
        bytes: run.bytes(),
        run,
        smooths: vec![],
        spoiled: false,
    }
}

/// Compares the long runs (written.rs).
pub fn compare_long() -> bool {
    let mut c = Comparison::new("runs long");
    let runs = long_runs();
    let count = runs.len() as u64;
    for (i, run) in runs.into_iter().enumerate() {
        c.show_progress(count, 0);
        c.run(i as u64, &plain(run));
    }
    c.right()
}

/// Compares runs about the end of a One-shot (ends.rs).
pub fn compare_ends(count: u64, seed: u64) -> bool {
    let mut c = Comparison::new("runs ends");
    for i in 0..count {
        let seed = seed.wrapping_add(i);
        c.show_progress(count, 0);
        c.run(seed, &plain(ends::made(seed)));
    }
    print!("{}{}", c.figures, c.figures.ends);
    c.right()
}
