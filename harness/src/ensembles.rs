//! Whole runs of ensembles against the Rust source: the bytes that `lfo_ensemble_run` of crates/ensemble_runner gives against those of
//! ensemble_reference.rs, every byte of `out`. Run i of a comparison has the seed SEED + i. In every run the reference's blocks and phases are held
//! to `LfoBank`, the bytes are read back to the run that they were written from, and a voice is held to the reference of a player.
use crate::ensemble_adverse::{Made, made};
use crate::ensemble_figures::{CALLS, Figures};
use crate::ensemble_reference::play;
use crate::ensemble_run::{Call, Run, read, read_make};
use crate::ensemble_voices::is_a_player;
use crate::ffi::lfo_ensemble_run;
use crate::figures;
use crate::progress::Progress;
use crate::reading::Reader;
use crate::reference::{Entry, Played};
use crate::runs::{hex, is_zero_of_max, numbers, out_len};
use crate::shrunk::{Shrinks, shrunk, smaller};
use crate::tally::ZERO_OF_MAX;
use crate::values::Values;

/// What a comparison is to play: so many runs, and more until so many values of x and y.
pub struct Wanted {
    pub runs: u64,
    pub values: u64,
    pub seed: u64,
}

#[derive(Default)]
struct Comparison {
    figures: Figures,
    differed: u64,
    known: u64,
    /// Runs whose bytes were read back to another run, or with a voice that is no player: faults of the harness.
    faults: u64,
    players: figures::Figures,
}

// ---- a run that differs

impl Shrinks for Run {
    type Call = Call;
    fn calls(&mut self) -> &mut Vec<Call> {
        &mut self.calls
    }
    fn smaller(&self, i: usize) -> Option<Call> {
        match &self.calls[i] {
            Call::Edit(edit) => smaller(edit).map(Call::Edit),
            Call::Block(b) if b.frames > 1 && b.frames <= 4096 => {
                let mut b = *b;
                b.frames = b.frames.div_ceil(2);
                (b.x_len, b.y_len) = (b.frames * self.make.count, b.frames * self.make.count);
                Some(Call::Block(b))
            }
            _ => None,
        }
    }
}

/// What the function gives with room for all, and more than that to spare.
fn whole(bytes: &[u8], played: &Played) -> Vec<u8> {
    let mut out = vec![0; played.out.len() + 700_000];
    let n = lfo_ensemble_run(bytes, &mut out) as usize;
    out.truncate(n);
    out
}

// Whether a run differs, but for the zero of `max`.
fn differs(run: &Run) -> bool {
    let bytes = run.bytes();
    let played = play(&bytes, &[], &mut Figures::default());
    let ours = whole(&bytes, &played);
    ours != played.out && !is_zero_of_max(&played, &ours)
}

// What stands at a place of a call's numbers.
fn place(e: &Entry, i: usize, count: usize) -> String {
    let before = if e.answer == 0 { count } else { 0 };
    let first = 1 + before;
    let x_len = e.x_len as usize;
    let value = |i: usize| format!("of frame {}, voice {}", i / count, i % count);
    match i {
        0 => "the answer".into(),
        _ if e.tag != 5 => format!("value {i}"),
        _ if i < first => format!("finished of voice {}", i - 1),
        _ if i - first < x_len => format!("x {}", value(i - first)),
        _ => format!("y {}", value(i - first - x_len)),
    }
}

// The first number that differs: its call, what it is, and both.
fn first_difference(bytes: &[u8], played: &Played, ours: &[u8]) -> String {
    let made = read_make(&mut Reader::new(bytes));
    let count = made.map_or(1, |make| make.count.clamp(1, 16) as usize);
    let mut start = 0;
    for (i, e) in played.entries.iter().enumerate() {
        let rust = &played.out[start..e.end];
        if ours.get(start..e.end) != Some(rust) {
            let (ours, rust) = (numbers(&ours[start.min(ours.len())..]), numbers(rust));
            let other = |k: &usize| ours.get(*k) != Some(&rust[*k]);
            let at = (0..rust.len()).find(other).unwrap_or(0);
            // answers and finished in decimal, floats by their bits
            let show = |n: &u64| {
                if *n < 256 {
                    format!("{n}")
                } else {
                    format!("{n:x}")
                }
            };
            let ours = ours.get(at).map_or("nothing".into(), show);
            let (name, what) = (CALLS[e.tag], place(e, at, count));
            let rust = show(&rust[at]);
            return format!("call {i} ({name}), {what}: ours {ours}, Rust {rust}");
        }
        start = e.end;
    }
    let (ours, rust) = (&ours[start.min(ours.len())..], &played.out[start..]);
    let (i, ending) = (played.entries.len(), played.ending);
    format!("after call {i}: ours {ours:02x?}, Rust {rust:02x?} ({ending:?})")
}

fn show_shrunk(run: &Run) {
    let run = shrunk(run, differs);
    let bytes = run.bytes();
    let played = play(&bytes, &[], &mut Figures::default());
    let ours = whole(&bytes, &played);
    let what = first_difference(&bytes, &played, &ours);
    println!("    with {} calls: {what}", run.calls.len());
    println!("    bytes {}", hex(&bytes));
    if bytes.len() <= 1000 {
        show_run(&run);
    }
}

fn show_run(run: &Run) {
    println!("  made with {:x?}", run.make);
    for (i, call) in run.calls.iter().enumerate() {
        println!("  call {}: {call:x?}", i + 1);
    }
}

/// Shows a run by its bytes: its calls, what the reference gives to each, and all that `lfo_ensemble_run` gives.
pub fn show(bytes: &[u8]) {
    if let Some(run) = read(bytes) {
        show_run(&run);
    }
    let played = play(bytes, &[], &mut Figures::default());
    let mut start = 0;
    for (i, e) in played.entries.iter().enumerate() {
        println!("  call {i} gives {:x?}", numbers(&played.out[start..e.end]));
        start = e.end;
    }
    println!("  then {:?}; in all {}", played.ending, hex(&played.out));
    println!("  lfo_ensemble_run gives {}", hex(&whole(bytes, &played)));
}

// ---- the comparison

impl Comparison {
    fn show_difference(&mut self, seed: u64, made: &Made, played: &Played) {
        let ours = whole(&made.bytes, played);
        if is_zero_of_max(played, &ours) {
            self.known += 1;
            if self.known == 1 {
                let what = first_difference(&made.bytes, played, &ours);
                println!("known: {ZERO_OF_MAX}, first in the run of seed {seed}, {what}");
            }
            return;
        }
        if self.differed - self.known > 10 {
            return;
        }
        let what = first_difference(&made.bytes, played, &ours);
        println!("ensembles differ, seed {seed}: {what}");
        if made.spoiled {
            println!("    spoiled bytes {}", hex(&made.bytes));
        } else {
            show_shrunk(&made.run);
        }
    }

    // Whether `lfo_ensemble_run` gives the bytes of the reference in an `out` of some length, and leaves what is behind them as it was.
    fn compare(&mut self, seed: u64, made: &Made, played: &Played) {
        let mut v = Values::new(!seed);
        let out_len = out_len(&mut v, played);
        let written = played.fits(out_len);
        self.figures.short += u64::from(written < played.out.len());
        let fill = v.word() as u8;
        let mut out = vec![fill; out_len];
        let n = lfo_ensemble_run(&made.bytes, &mut out);
        let same = n == written as u64
            && out[..written] == played.out[..written]
            && out[written..].iter().all(|b| *b == fill);
        if same {
            return;
        }
        self.differed += 1;
        if whole(&made.bytes, played) != played.out {
            self.show_difference(seed, made, played);
        } else if self.differed - self.known <= 10 {
            println!(
                "ensembles differ, seed {seed}: `out` of {out_len} bytes, wrote {n}, by RUN.md {written}; bytes {}",
                hex(&made.bytes)
            );
        }
    }

    fn run(&mut self, seed: u64) {
        let made = made(seed);
        let before = self.figures.bank_differed;
        let played = play(&made.bytes, &made.smooths, &mut self.figures);
        if self.figures.bank_differed > before && before < 10 {
            println!("ensembles: the reference differs from LfoBank, seed {seed}");
        }
        self.figures.runs += 1;
        if !made.spoiled {
            self.check(seed, &made.run, &made.bytes, &played);
        }
        self.compare(seed, &made, &played);
    }

    // The harness against itself: the bytes read back, and a voice as a player.
    fn check(&mut self, seed: u64, run: &Run, bytes: &[u8], played: &Played) {
        self.figures.read_back += 1;
        if read(bytes).as_ref() != Some(run) {
            self.faults += 1;
            println!("ensembles: read back to another run, seed {seed}");
        }
        let v = seed % run.make.count.clamp(1, 16);
        let same = is_a_player(run, v, played, &mut self.players);
        self.figures.as_players += u64::from(same.is_some());
        if same == Some(false) {
            self.faults += 1;
            println!("ensembles: voice {v} is no player, seed {seed}");
        }
    }

    // Says how many runs and values were compared, and answers whether all differences are known.
    fn right(&self, seconds: f64) -> bool {
        println!(
            "ensembles  {:>11} compared, {} values, {} differed ({} by {ZERO_OF_MAX}), {seconds:.1} s",
            self.figures.runs, self.figures.values, self.differed, self.known
        );
        self.differed == self.known && self.figures.bank_differed == 0 && self.faults == 0
    }
}

/// Compares runs and answers whether every difference is a known one.
pub fn compare(wanted: &Wanted) -> bool {
    let mut c = Comparison::default();
    let mut progress = Progress::new();
    let mut i = 0;
    while i < wanted.runs || c.figures.values < wanted.values {
        progress.show(|| {
            let values = c.figures.values;
            format!("ensembles  {i:>11} of {}, {values} values", wanted.runs)
        });
        c.run(wanted.seed.wrapping_add(i));
        i += 1;
    }
    c.figures.show();
    c.right(progress.seconds())
}
