//! The three ways to print a sheet in turns: one process to a sitting, its output thrown away once all sheets are known to be equal.
use crate::items::{FRAMES, ITEMS, SITTINGS, sitting};
use crate::progress::Progress;
use std::fs::{self, File};
use std::path::{Path, PathBuf};
use std::process::{Command, Stdio};
use std::time::Instant;
use std::{array, env};

const WAYS: [&str; 3] = ["write!", "by hand", "sitting"];
const OURS: usize = 2;
const OUR_PROGRAM: &str = concat!(
    env!("CARGO_MANIFEST_DIR"),
    "/../../crates/sitting/out/sitting"
);

/// Processor time in user mode, and time on the clock, in seconds.
#[derive(Clone, Copy, Default)]
struct Time {
    user: f64,
    wall: f64,
}

#[repr(C)]
#[derive(Default)]
struct Usage {
    user: [i64; 2],
    others: [i64; 16],
}

unsafe extern "C" {
    fn getrusage(who: i32, usage: *mut Usage) -> i32;
}

/// The user time of all processes that have ended.
fn user() -> f64 {
    let mut usage = Usage::default();
    unsafe { getrusage(-1, &mut usage) };
    usage.user[0] as f64 + usage.user[1] as f64 / 1e6
}

// ---- one sheet

fn file(work: &Path, n: usize) -> PathBuf {
    work.join(format!("{n}.sitting"))
}

fn ours(work: &Path, n: usize) -> Command {
    let mut command = Command::new(OUR_PROGRAM);
    command.stdin(File::open(file(work, n)).expect("a sitting"));
    command
}

fn rust(way: usize, n: usize) -> Command {
    let mut command = Command::new(env::current_exe().expect("this program"));
    command.args([["write", "hand"][way], &n.to_string()]);
    command
}

fn print(way: usize, work: &Path, n: usize, to: Stdio) {
    let mut command = match way {
        OURS => ours(work, n),
        _ => rust(way, n),
    };
    let status = command.stdout(to).status().expect("a program that runs");
    assert!(status.success(), "{} of sitting {n}: {status}", WAYS[way]);
}

/// Stops where the sheets of a sitting are not the same to the byte.
fn check(work: &Path, n: usize) {
    let sheets: [PathBuf; 3] = array::from_fn(|way| work.join(format!("{way}.sheet")));
    for (way, sheet) in sheets.iter().enumerate() {
        let to = File::create(sheet).expect("a file to write");
        print(way, work, n, to.into());
    }
    for other in &sheets[1..] {
        let same = Command::new("cmp").arg(&sheets[0]).arg(other).status();
        assert!(same.expect("cmp").success(), "sitting {n} differs");
    }
}

fn timed(way: usize, work: &Path, n: usize) -> Time {
    let (before, at) = (user(), Instant::now());
    print(way, work, n, Stdio::null());
    Time {
        wall: at.elapsed().as_secs_f64(),
        user: user() - before,
    }
}

// ---- all of them

/// Of each item and of all, by way: the time of a round.
type Round = [[Time; 3]; ITEMS.len() + 1];

fn round(work: &Path) -> Round {
    let mut times = Round::default();
    for n in 0..SITTINGS {
        for way in 0..WAYS.len() {
            let time = timed(way, work, n);
            for place in [n % ITEMS.len(), ITEMS.len()] {
                times[place][way].user += time.user;
                times[place][way].wall += time.wall;
            }
        }
    }
    times
}

fn median(mut list: Vec<f64>) -> f64 {
    list.sort_by(f64::total_cmp);
    list[list.len() / 2]
}

// A row: millions of frames a second of each way, and how many times the Rust's time ours takes.
fn row(name: &str, sittings: usize, rounds: &[Round], time: impl Fn(&Round, usize) -> f64) {
    let medians: [f64; 3] =
        array::from_fn(|way| median(rounds.iter().map(|r| time(r, way)).collect()));
    let frames = (sittings * FRAMES) as f64 / 1e6;
    let [write, hand, ours] = medians;
    let [a, b, c] = medians.map(|t| frames / t);
    let (to_write, to_hand) = (ours / write, ours / hand);
    println!("| {name} | {a:.1} | {b:.1} | {c:.1} | {to_write:.2} | {to_hand:.2} |");
}

fn show(rounds: &[Round]) {
    println!(
        "| item | Rust, `write!` | Rust, by hand | sitting | to `write!` | to by hand |\n|---|---|---|---|---|---|"
    );
    for (i, (name, _)) in ITEMS.iter().enumerate() {
        let name = format!("{name}, user");
        row(&name, SITTINGS / ITEMS.len(), rounds, |r, way| {
            r[i][way].user
        });
    }
    let all = ITEMS.len();
    row("all, user", SITTINGS, rounds, |r, way| r[all][way].user);
    row("all, clock", SITTINGS, rounds, |r, way| r[all][way].wall);
}

/// Compares the sheets, times them in so many rounds, and writes the medians.
pub fn time(rounds: usize) {
    let work = env::temp_dir().join(format!("sheets-{}", std::process::id()));
    fs::create_dir_all(&work).expect("a folder to write to");
    let mut progress = Progress::new();
    for n in 0..SITTINGS {
        progress.show(|| format!("bench: {n} of {SITTINGS} sheets compared"));
        fs::write(file(&work, n), sitting(n)).expect("a file to write");
        check(&work, n);
    }
    let one = |i: usize| {
        progress.show(|| format!("bench: {i} of {rounds} rounds"));
        round(&work)
    };
    let times: Vec<Round> = (0..rounds.max(1)).map(one).collect();
    fs::remove_dir_all(&work).expect("the folder of before");
    show(&times);
}
