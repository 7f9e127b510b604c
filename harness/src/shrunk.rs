//! A run that differs, made shorter; and a run as a reader can read it.
use crate::bend::strengths;
use crate::figures::{CALLS, Figures};
use crate::legs::{self, legs};
use crate::player::{path_of, path_points, settings_of, shape_of, transport_of};
use crate::questions;
use crate::reading::Reader;
use crate::reference::play;
use crate::run::{Call, Run, Settings};
use crate::runs::{hex, numbers, whole};

/// A list of calls that can be made smaller.
pub trait Shrinks: Clone {
    type Call;
    fn calls(&mut self) -> &mut Vec<Self::Call>;
    /// The call made smaller, if it can be.
    fn smaller(&self, i: usize) -> Option<Self::Call>;
}

impl Shrinks for Run {
    type Call = Call;
    fn calls(&mut self) -> &mut Vec<Call> {
        &mut self.calls
    }
    fn smaller(&self, i: usize) -> Option<Call> {
        smaller(&self.calls[i])
    }
}

/// Drops calls and points and halves blocks as long as the run still differs.
pub fn shrunk<R: Shrinks>(run: &R, differs: impl Fn(&R) -> bool) -> R {
    let mut run = run.clone();
    let mut i = run.calls().len();
    while i > 0 {
        i -= 1;
        let mut shorter = run.clone();
        shorter.calls().remove(i);
        if differs(&shorter) {
            run = shorter;
        }
    }
    for i in 0..run.calls().len() {
        while let Some(call) = run.smaller(i) {
            let mut other = run.clone();
            other.calls()[i] = call;
            if !differs(&other) {
                break;
            }
            run = other;
        }
    }
    run
}

/// Half a block, without what its buffers have more; a curve without its last point.
pub fn smaller(call: &Call) -> Option<Call> {
    let mut call = call.clone();
    match &mut call {
        Call::Block(b) if b.frames > 1 && b.frames <= 4096 => {
            b.frames = b.frames.div_ceil(2);
            (b.x_len, b.y_len) = (b.frames, b.frames);
        }
        Call::Shape(s) | Call::ShapeAt { shape: s, .. } => {
            s.points.pop()?;
        }
        Call::Path(p) | Call::PathAt { path: p, .. } | Call::Legs(p) => {
            p.points.pop()?;
        }
        _ => return None,
    }
    Some(call)
}

fn show_settings(s: &Settings) {
    if questions::settings(s) == 0 {
        println!("    {:?}", settings_of(s, 0.0));
        println!("    coefficient {:x?}", s.smooth);
    } else {
        println!("    {s:x?}");
    }
}

// An accepted call by the source's types, a refused one by its numbers.
fn show_call(i: usize, call: &Call) {
    println!("  call {i}: {}", CALLS[call.tag()]);
    if questions::answer(call, 0) > 0 {
        println!("    {call:x?}");
        return;
    }
    match call {
        Call::Settings(s) => show_settings(s),
        Call::Shape(s) | Call::ShapeAt { shape: s, .. } => {
            let shape = shape_of(s);
            for (p, e) in shape.points().iter().zip(strengths(&shape)) {
                println!("    {p:?}, strength {e:e}");
            }
            println!("    loopback {:?}", shape.loopback());
        }
        Call::Path(p) | Call::PathAt { path: p, .. } | Call::Legs(p) => {
            for point in path_of(p).path.points() {
                println!("    {point:?}");
            }
            let legs = legs(&path_points(p), p.closed == 1, legs::ours);
            println!("    closed {}, legs {legs:?}", p.closed);
        }
        Call::Bus { bus, value } => println!("    {bus} to {:e}", f32::from_bits(*value)),
        Call::Phase(t) => println!("    {:?}", transport_of(t)),
        Call::Block(b) => {
            println!("    {:?}", transport_of(&b.transport));
            let (frames, restart) = (b.frames, b.restart);
            println!(
                "    {frames} frames, restart {restart:?}, buffers {} and {}",
                b.x_len, b.y_len
            );
        }
    }
    match call {
        Call::ShapeAt { x, .. } => println!("    at {:e}", f32::from_bits(*x)),
        Call::PathAt { t, .. } => println!("    at {:e}", f32::from_bits(*t)),
        _ => {}
    }
}

pub fn show_run(run: &Run) {
    println!("  seed {:x}, made with", run.seed);
    show_settings(&run.settings);
    for (i, call) in run.calls.iter().enumerate() {
        show_call(i + 1, call);
    }
}

/// Shows a run by its bytes: its calls as far as they can be read, what the reference gives to each, and all that `lfo_run` gives.
pub fn show(bytes: &[u8]) {
    let mut reader = Reader::new(bytes);
    if let Some((settings, seed)) = reader.make() {
        let mut calls = vec![];
        while !reader.at_end()
            && let Some(call) = reader.call()
        {
            calls.push(call);
        }
        show_run(&Run {
            settings,
            seed,
            calls,
        });
    }
    let played = play(bytes, &[], &mut Figures::default());
    let mut start = 0;
    for (i, e) in played.entries.iter().enumerate() {
        println!("  call {i} gives {:x?}", numbers(&played.out[start..e.end]));
        start = e.end;
    }
    println!("  then {:?}; in all {}", played.ending, hex(&played.out));
    println!("  lfo_run gives {}", hex(&whole(bytes, &played)));
}

/// The bytes of hexadecimal digits.
pub fn unhex(word: &str) -> Option<Vec<u8>> {
    let digits: Option<Vec<u8>> = (word.chars())
        .map(|c| c.to_digit(16).map(|d| d as u8))
        .collect();
    let digits = digits.filter(|d| d.len() % 2 == 0)?;
    Some(digits.chunks(2).map(|d| d[0] * 16 + d[1]).collect())
}
