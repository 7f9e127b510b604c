//! The legs of a path by document 02's rule, worked out here by whole numbers alone; and `leg` against them. The Rust's own leg is its `hypot`, of
//! which the C library decides the last bit: how many of ours have other bits is said, and these are listed in a file.
use crate::bend::nearest;
use crate::ffi;
use crate::lfo::{MAX_POINTS, PathPoint};
use crate::questions;
use crate::tally::Tally;
use crate::values::Values;
use std::fs;
use std::hint::black_box;

/// The squares of a side of the paper.
const SIDE: u64 = 4096;

/// The legs between random points that the long comparison tries.
const RANDOM: u64 = 20_000_000;

/// Where the legs go that the Rust has otherwise: a line for each, its differences in squares and the bits of both.
const LIST: &str = concat!(env!("CARGO_MANIFEST_DIR"), "/../target/legs.txt");

/// A point by its x and y.
type Place = [f32; 2];

// ---- one leg

/// "the f32 nearest to the root of the sum of squares, ties to even, judged by integer squares": the root of n, over 4,096.
fn nearest_root(n: u64) -> f32 {
    if n == 0 {
        return 0.0;
    }
    // the whole part of the root with 40 binary places more, and a last digit for what is left
    let scaled = u128::from(n) << 80;
    let root = scaled.isqrt();
    let left = u64::from(root * root < scaled);
    nearest(2 * root as u64 + left, 41 + 12)
}

/// How many squares from the edge a coordinate lies that is on the paper.
fn squares(c: f32) -> u64 {
    (f64::from(c) * SIDE as f64) as u64
}

/// A leg on the paper by whole numbers.
pub fn exact(a: Place, b: Place) -> f32 {
    let gap = |i: usize| squares(a[i]).abs_diff(squares(b[i]));
    nearest_root(gap(0).pow(2) + gap(1).pow(2))
}

pub fn ours(a: Place, b: Place) -> f32 {
    ffi::path_leg(a[0], a[1], b[0], b[1])
}

/// The leg that the source computes.
pub fn source(a: Place, b: Place) -> f32 {
    black_box(b[0] - a[0]).hypot(black_box(b[1] - a[1]))
}

// ---- the legs of a path

/// How many legs there are between the kept points of a path.
fn count(points: usize, closed: bool) -> usize {
    match points {
        0 | 1 => 0,
        n if closed => n,
        n => n - 1,
    }
}

/// One for each segment between the kept points, before any modulation, the closing one of a closed path last.
pub fn legs(points: &[PathPoint], closed: bool, leg: fn(Place, Place) -> f32) -> Vec<f32> {
    let kept: Vec<Place> = points
        .iter()
        .take(MAX_POINTS)
        .map(|p| [p.x.clamp(0.0, 1.0), p.y.clamp(0.0, 1.0)])
        .collect();
    (0..count(kept.len(), closed))
        .map(|j| leg(kept[j], kept[(j + 1) % kept.len()]))
        .collect()
}

// ---- the comparison

/// Whether no other f32 is as near to the root of n, over 4,096: it lies between the middles with the f32s on both sides of the leg. In quarters of the
/// leg's last digit the leg is 4 times its digits; below a power of two the next one lies half as far. Twice the root is compared with sums of two f32s.
fn is_nearest(n: u64, leg: f32) -> bool {
    let bits = leg.to_bits();
    let field = bits >> 23;
    if n == 0 || !(115..=127).contains(&field) {
        return n == 0 && bits == 0;
    }
    let digits = u128::from(bits & 0x7f_ffff | 0x80_0000);
    let down = if digits == 0x80_0000 { 2 } else { 4 };
    let twice = u128::from(n) << (2 * (141 - field));
    (8 * digits - down).pow(2) < twice && twice < (8 * digits + 4).pow(2)
}

#[cfg(target_env = "gnu")]
fn library() -> String {
    unsafe extern "C" {
        fn gnu_get_libc_version() -> *const std::ffi::c_char;
    }
    let version = unsafe { std::ffi::CStr::from_ptr(gnu_get_libc_version()) };
    format!("glibc {}", version.to_string_lossy())
}

#[cfg(not(target_env = "gnu"))]
fn library() -> String {
    "a C library that says no version".into()
}

/// Says how many legs the Rust has otherwise, and writes the list of them where there are any.
fn say_others(others: &[String], pairs: u64) {
    println!(
        "legs       {} of {pairs} legs have other bits than the Rust's hypot ({})",
        others.len(),
        library()
    );
    if others.is_empty() {
        // nor may an older list stay
        let _ = fs::remove_file(LIST);
        return;
    }
    fs::write(LIST, others.concat()).expect("the list of legs");
    let list = fs::canonicalize(LIST).expect("the list of legs");
    println!(
        "legs       listed as dx dy ours theirs in {}",
        list.display()
    );
}

/// Every leg that there is, by its differences of 0 to 4,096 squares, the smaller one first.
fn compare_pairs(t: &mut Tally) {
    let mut others = vec![];
    let mut pairs = 0;
    for dy in 0..=SIDE {
        for dx in 0..=dy {
            let to = [dx, dy].map(|d| d as f32 / SIDE as f32);
            let (n, leg, rust) = (dx * dx + dy * dy, ours([0.0; 2], to), source([0.0; 2], to));
            let what = || format!("leg of {dx} and {dy} squares");
            t.f32(leg, nearest_root(n), || {
                format!("{} against 02's rule", what())
            });
            t.word(is_nearest(n, leg).into(), 1, || {
                format!("{}, {leg:e}, by the middles", what())
            });
            let (bits, rust) = (leg.to_bits(), rust.to_bits());
            if bits != rust {
                others.push(format!("{dx} {dy} {bits:08x} {rust:08x}\n"));
            }
            pairs += 1;
        }
        t.goes_on();
    }
    say_others(&others, pairs);
}

/// A leg between any two points of the paper, the zeros of either sign. Answers whether the Rust has it otherwise.
fn compare_leg(t: &mut Tally, v: &mut Values) -> bool {
    let (a, b) = ([v.on_paper(), v.on_paper()], [v.on_paper(), v.on_paper()]);
    let leg = ours(a, b);
    t.f32(leg, exact(a, b), || format!("leg from {a:?} to {b:?}"));
    leg.to_bits() != source(a, b).to_bits()
}

/// Whether the coordinate is a multiple of 1/4096 within 0 to 1, by the fields of its bits.
fn on_paper_by_fields(bits: u32) -> bool {
    let (field, fraction) = (bits >> 23, bits & 0x7f_ffff);
    match field {
        // 0 and -0, and 1
        0 | 256 | 127 => fraction == 0,
        // 2^-12 and above: the leading digit and so many of the fraction may be set
        115..127 => fraction & (0x7f_ffff >> (field - 115)) == 0,
        _ => false,
    }
}

fn compare_paper(t: &mut Tally, bits: u32) {
    let (c, right) = (f32::from_bits(bits), on_paper_by_fields(bits));
    t.word(ffi::path_on_paper(c).into(), right.into(), || {
        format!("on the paper, {bits:08x}")
    });
    if questions::on_paper(bits) != right {
        t.word(0, 1, || {
            format!("the harness's own question 11, {bits:08x}")
        });
    }
}

/// All legs; then legs between any points, and coordinates of any bits: the paper's own, 8 patterns on both sides of each, and random ones.
pub fn compare(t: &mut Tally, v: &mut Values) {
    compare_pairs(t);
    for i in 0..=SIDE {
        let on = (i as f32 / SIDE as f32).to_bits();
        for step in 0..=8 {
            for bits in [on.wrapping_add(step), on.wrapping_sub(step)] {
                compare_paper(t, bits);
                compare_paper(t, bits ^ 0x8000_0000);
            }
        }
    }
    while t.goes_on() {
        compare_leg(t, v);
        compare_paper(t, v.word() as u32);
        compare_paper(t, v.off_paper().to_bits());
    }
}

/// All legs, many between any points, and every coordinate that there is.
pub fn compare_all(t: &mut Tally, v: &mut Values) {
    compare_pairs(t);
    let mut others = 0;
    for i in 0..RANDOM {
        others += u64::from(compare_leg(t, v));
        if i % (1 << 20) == 0 {
            t.goes_on();
        }
    }
    println!(
        "legs       {others} of {RANDOM} legs between random points have other bits than hypot"
    );
    for bits in 0..=u32::MAX {
        compare_paper(t, bits);
        if bits % (1 << 20) == 0 {
            t.goes_on();
        }
    }
}
