//! `bench PLAYER ENSEMBLE [ROUNDS]`: times `process_scalar` of the Rust source, of one voice and of several, against the Rattle programs, in turns, and writes
//! the least times with their ratio, and the ratio of the medians.
#![allow(dead_code)]

include!(concat!(env!("OUT_DIR"), "/source.rs"));
#[path = "../../src/progress.rs"]
mod progress;
#[path = "../../src/simd.rs"]
pub mod simd;

use lfo::{Lfo, LfoBank, LfoType, Mode, Point, Rate, Settings, Transport};
use progress::Progress;
use std::hint::black_box;
use std::io::Write;
use std::process::{Command, Stdio};

const FRAMES: usize = 512_000;
/// Voices and frames a block.
const CASES: [(usize, usize); 9] = [(1, 512), (1, 64), (1, 16), (2, 512), (8, 512), (16, 512), (2, 64), (8, 64), (16, 64)];
const ITEMS: [(&str, LfoType); 5] = [
    ("Drawn, default shape", LfoType::Drawn),
    ("Drawn, 16 bent points", LfoType::Drawn),
    ("Path, default path", LfoType::Path),
    ("Lorenz", LfoType::Lorenz),
    ("Sample-and-Hold", LfoType::SampleAndHold),
];

#[repr(C)]
struct Timespec {
    seconds: i64,
    nanos: i64,
}

unsafe extern "C" {
    fn clock_gettime(clock: i32, time: *mut Timespec) -> i32;
}

/// The processor time of this process, in nanoseconds.
fn now() -> f64 {
    let mut t = Timespec { seconds: 0, nanos: 0 };
    unsafe { clock_gettime(2, &mut t) };
    t.seconds as f64 * 1e9 + t.nanos as f64
}

/// 16 points at uneven x, bent, one of them a step. The Rattle program has them by their bits. The bends are multiples of 1/1024 whose
/// strengths the source's exp2 gives too.
fn bent16() -> Vec<Point> {
    (0..16u32)
        .map(|i| {
            let x = i as f32 / 16.0 + (i % 3) as f32 / 64.0;
            let y = ((i * 7) % 16) as f32 / 15.0;
            let p = Point::new(x, y).curve((((i * 5) % 13) as f32 - 6.0) * 154.0 / 1024.0);
            if i == 9 { p.step() } else { p }
        })
        .collect()
}

fn bank(item: usize, voices: usize) -> LfoBank {
    let settings = Settings {
        kind: ITEMS[item].1,
        rate: Rate::Hz { hz: 5.0, x10: false },
        mode: Mode::Restart,
        ..Settings::default()
    };
    let mut lfo = Lfo::new(settings, 7);
    if item == 1 {
        lfo.shape_mut().set_points(&bent16());
    }
    LfoBank::new(lfo, voices)
}

/// Nanoseconds a frame and voice, the output not read.
fn time(item: usize, voices: usize, size: usize) -> f64 {
    let mut bank = bank(item, voices);
    let transport = Transport::new(48000.0);
    let (mut x, mut y) = ([0f32; 8192], [0f32; 8192]);
    let blocks = FRAMES / (size * voices);
    let at = now();
    for _ in 0..blocks {
        bank.process_scalar(black_box(&transport), size, &mut x, Some(&mut y));
        black_box((&x, &y));
    }
    (now() - at) / (blocks * size * voices) as f64
}

/// A number made of every bit that came out.
fn bits(item: usize, voices: usize, size: usize) -> u64 {
    let mut bank = bank(item, voices);
    let transport = Transport::new(48000.0);
    let (mut x, mut y) = ([0f32; 8192], [0f32; 8192]);
    let mut h = 0u64;
    for _ in 0..FRAMES / (size * voices) {
        bank.process_scalar(&transport, size, &mut x, Some(&mut y));
        for k in 0..size * voices {
            let word = u64::from(x[k].to_bits()) << 32 | u64::from(y[k].to_bits());
            h = (h ^ word).rotate_left(7).wrapping_add(0x9E37_79B9_7F4A_7C15);
        }
    }
    h
}

/// By the program for one voice or the one for several.
fn ours(programs: &[String], item: usize, voices: usize, size: usize, bits: bool) -> String {
    let program = &programs[usize::from(voices > 1)];
    let mut child = Command::new(program).stdin(Stdio::piped()).stdout(Stdio::piped()).spawn().expect("the Rattle program");
    writeln!(child.stdin.take().unwrap(), "{item} {FRAMES} {size} {} {voices}", u8::from(bits)).unwrap();
    String::from_utf8(child.wait_with_output().unwrap().stdout).unwrap().trim().to_string()
}

/// The least and the median.
fn least_and_median(mut v: Vec<f64>) -> (f64, f64) {
    v.sort_by(f64::total_cmp);
    (v[0], v[v.len() / 2])
}

fn main() {
    let args: Vec<String> = std::env::args().collect();
    let programs = args.get(1..3).expect("bench PLAYER ENSEMBLE [ROUNDS]");
    let rounds: usize = args.get(3).map_or(31, |n| n.parse().unwrap());
    for item in 0..ITEMS.len() {
        for (voices, size) in CASES {
            assert_eq!(ours(programs, item, voices, size, true), format!("{:016x}", bits(item, voices, size)), "{} differs, {voices} voices", ITEMS[item].0);
        }
    }
    let mut times = vec![vec![(Vec::new(), Vec::new()); ITEMS.len()]; CASES.len()];
    let mut progress = Progress::new();
    for round in 0..rounds {
        progress.show(|| format!("bench: {round} of {rounds} rounds"));
        for (c, (voices, size)) in CASES.into_iter().enumerate() {
            for item in 0..ITEMS.len() {
                times[c][item].0.push(time(item, voices, size));
                times[c][item].1.push(ours(programs, item, voices, size, false).parse::<f64>().unwrap() / 1000.0);
            }
        }
    }
    println!("| item | voices | frames a block | Rust | ours | ratio | of medians |\n|---|---|---|---|---|---|---|");
    for (c, (voices, size)) in CASES.into_iter().enumerate() {
        for item in 0..ITEMS.len() {
            let (rust, rust_median) = least_and_median(times[c][item].0.clone());
            let (ours, our_median) = least_and_median(times[c][item].1.clone());
            println!("| {} | {voices} | {size} | {rust:.1} | {ours:.1} | {:.2} | {:.2} |", ITEMS[item].0, ours / rust, our_median / rust_median);
        }
    }
}
