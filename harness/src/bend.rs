//! The strength of a bend by document 02's rule, worked out here by whole numbers alone; and `bend` against it. The Rust's own strength is its
//! `exp2`, of which the C library decides the last bit: how many of ours have other bits is said, and none may be further off than one unit.
use crate::ffi;
use crate::lfo::{CURVE_RANGE, Shape};
use crate::questions;
use crate::tally::Tally;
use crate::values::Values;
use std::cmp::Ordering;
use std::hint::black_box;
use std::sync::LazyLock;

// ---- whole numbers of any size

/// Its digits to the base 2^64, the lowest first, the last one not 0.
#[derive(PartialEq)]
struct Whole(Vec<u64>);

impl Whole {
    fn cut(mut digits: Vec<u64>) -> Self {
        while digits.last() == Some(&0) {
            digits.pop();
        }
        Self(digits)
    }

    fn squared(&self) -> Self {
        let n = self.0.len();
        let mut digits = vec![0; 2 * n];
        for (i, a) in self.0.iter().enumerate() {
            let mut carry = 0u128;
            for (j, b) in self.0.iter().enumerate() {
                carry += u128::from(*a) * u128::from(*b) + u128::from(digits[i + j]);
                digits[i + j] = carry as u64;
                carry >>= 64;
            }
            digits[i + n] = carry as u64;
        }
        Self::cut(digits)
    }

    /// n^256
    fn power(n: u64) -> Self {
        (0..8).fold(Self::cut(vec![n]), |x, _| x.squared())
    }

    /// Times 2^by.
    fn doubled(&self, by: usize) -> Self {
        let mut digits = vec![0; by / 64];
        let mut carry = 0u128;
        for digit in &self.0 {
            carry |= u128::from(*digit) << (by % 64);
            digits.push(carry as u64);
            carry >>= 64;
        }
        digits.push(carry as u64);
        Self::cut(digits)
    }
}

impl PartialOrd for Whole {
    fn partial_cmp(&self, other: &Self) -> Option<Ordering> {
        let size = self.0.len().cmp(&other.0.len());
        Some(size.then_with(|| self.0.iter().rev().cmp(other.0.iter().rev())))
    }
}

// ---- "257 entries, entry k being the whole part of 2^(30 + k/256)"

/// The greatest e whose 256th power is at most 2^(30 × 256 + k).
fn entry(k: usize) -> u64 {
    let top = Whole::power(1 << 30).doubled(k);
    let mut e = 0;
    for bit in (0..32).rev() {
        if Whole::power(e | 1 << bit) <= top {
            e |= 1 << bit;
        }
    }
    e
}

/// The f32 nearest to n / 2^s, ties to even, for an n of more than 24 binary digits and a normal result.
pub fn nearest(n: u64, s: u32) -> f32 {
    let cut = n.ilog2() - 23;
    let (digits, rest, half) = (n >> cut, n % (1 << cut), 1 << (cut - 1));
    let up = rest > half || (rest == half && digits % 2 == 1);
    // the leading digit counts into the exponent's field, and so does a carry
    let field = u64::from(149 + cut - s);
    f32::from_bits(((field << 23) + digits + u64::from(up)) as u32)
}

/// "the entry divided by a power of two, rounded to the nearest f32, ties to even": of the curve (i - 1024) / 1024. The octaves begin with 1/16;
/// the last one has its upper end too.
fn strength_at(entries: &[u64], i: usize) -> f32 {
    let octave = (i / 256).min(7);
    nearest(entries[i - 256 * octave], 34 - octave as u32)
}

static STRENGTHS: LazyLock<Vec<f32>> = LazyLock::new(|| {
    let entries: Vec<u64> = (0..=256).map(entry).collect();
    (0..=2048).map(|i| strength_at(&entries, i)).collect()
});

/// Of a curve, which is clamped. Off the grid it is that of the next multiple of 1/1024 towards 0, as crates/bend has it.
pub fn strength(curve: f32) -> f32 {
    let multiple = (curve.clamp(-1.0, 1.0) * 1024.0) as i32;
    STRENGTHS[(1024 + multiple) as usize]
}

/// Of a shape's points in their order.
pub fn strengths(shape: &Shape) -> Vec<f32> {
    shape.points().iter().map(|p| strength(p.curve)).collect()
}

/// The strength that the source computes for a clamped curve.
pub fn source_strength(curve: f32) -> f32 {
    (black_box(curve) * CURVE_RANGE).exp2()
}

// ---- the comparison

/// The curve of an index, 0 to 2048.
fn curve_at(i: usize) -> f32 {
    (i as f32 - 1024.0) / 1024.0
}

/// "The strength differs from 2^(4 × curve) by less than one part in 2^23": 2^23 times the strength lies between 2^23 - 1 and 2^23 + 1 times
/// 2^(4 × curve), all to the 256th power. The strength is digits × 2^(field - 150), the curve (i - 1024) / 1024.
fn is_close(i: usize, strength: f32, [less, more]: &[Whole; 2]) -> bool {
    let bits = strength.to_bits();
    let (field, digits) = (
        (bits >> 23) as usize,
        u64::from(bits & 0x7f_ffff | 0x80_0000),
    );
    // the powers of two of both sides, made whole by 2^(256 × 150 + 1024)
    let ours = Whole::power(digits).doubled(256 * (23 + field) + 1024);
    let limit = |side: &Whole| side.doubled(256 * 150 + i);
    strength > 0.0 && limit(less) < ours && ours < limit(more)
}

fn compare_strengths(t: &mut Tally) {
    let limits = [(1 << 23) - 1, (1 << 23) + 1].map(Whole::power);
    let mut others: [Vec<usize>; 8] = Default::default();
    for i in 0..=2048 {
        let (curve, exact) = (curve_at(i), STRENGTHS[i]);
        let ours = ffi::bend_strength(curve);
        t.f32(ours, exact, || {
            format!("strength of {curve:e} against 02's rule")
        });
        t.word(is_close(i, ours, &limits).into(), 1, || {
            format!("one part in 2^23 at {curve:e}, strength {ours:e}")
        });
        let source = source_strength(curve);
        let off = u64::from(ours.to_bits().abs_diff(source.to_bits()));
        t.word((off <= 1).into(), 1, || {
            format!("strength of {curve:e} is {off} units off the Rust's (ours {ours:e}, Rust {source:e})")
        });
        if off > 0 {
            let octave = (i / 256).min(7);
            others[octave].push(i - 256 * octave);
        }
    }
    let count: usize = others.iter().map(Vec::len).sum();
    println!(
        "bend       {count} of 2049 strengths have other bits than the Rust's exp2; k by octave, from 1/16 on: {others:?}"
    );
    // any curve: clamped, NaN and the zeros
    for curve in [
        1.5,
        -1.5,
        f32::INFINITY,
        f32::NEG_INFINITY,
        f32::MAX,
        f32::NAN,
        -0.0,
    ] {
        t.f32(ffi::bend_strength(curve), strength(curve), || {
            format!("strength of {curve:e}")
        });
    }
}

/// Whether the clamped curve is a multiple of 1/1024, by the fields of its bits.
fn on_grid_by_fields(bits: u32) -> bool {
    let (field, fraction) = (bits >> 23 & 0xff, bits & 0x7f_ffff);
    match field {
        // an infinity counts as 1 or -1, a NaN is no multiple
        255 => fraction == 0,
        127.. => true,
        // 2^-10 and above: the leading digit and so many of the fraction may be set
        117.. => fraction & (0x7f_ffff >> (field - 117)) == 0,
        _ => field == 0 && fraction == 0,
    }
}

fn compare_grid(t: &mut Tally, bits: u32) {
    let (curve, right) = (f32::from_bits(bits), on_grid_by_fields(bits));
    t.word(ffi::bend_on_grid(curve).into(), right.into(), || {
        format!("on the grid, {bits:08x}")
    });
    if questions::on_grid(bits) != right {
        t.word(0, 1, || {
            format!("the harness's own question 10, {bits:08x}")
        });
    }
}

/// All 2,049 strengths; then curves of any bits: the grid's own, 64 patterns on both sides of each, and random ones.
pub fn compare(t: &mut Tally, v: &mut Values) {
    compare_strengths(t);
    for i in 0..=2048 {
        let on = curve_at(i).to_bits();
        for step in 0..=64 {
            compare_grid(t, on.wrapping_add(step));
            compare_grid(t, on.wrapping_sub(step));
        }
    }
    while t.goes_on() {
        compare_grid(t, v.word() as u32);
        let (curve, shift) = (curve_at(v.index(2049)), v.below(24));
        compare_grid(t, curve.to_bits() ^ 1 << shift);
        compare_grid(t, v.any_f32().to_bits());
    }
}

/// All strengths, and every curve that there is.
pub fn compare_all(t: &mut Tally) {
    compare_strengths(t);
    for bits in 0..=u32::MAX {
        compare_grid(t, bits);
        if bits % (1 << 20) == 0 {
            t.goes_on();
        }
    }
}
