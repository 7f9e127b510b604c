//! The functions on floats against Rust's own: of every limit, of every pair and triple of limits, then of any floats.
use crate::ffi;
use crate::tally::Tally;
use crate::values::{Values, limits_f32, limits_f64};

fn one_f64(t: &mut Tally, x: f64) {
    let input = |name: &'static str| move || format!("{name} of {x:e} ({:016x})", x.to_bits());
    t.f64(ffi::float_trunc(x), x.trunc(), input("trunc"));
    t.f64(ffi::float_floor(x), x.floor(), input("floor"));
    t.f64(ffi::float_ceil(x), x.ceil(), input("ceil"));
    t.f64(ffi::float_round(x), x.round(), input("round"));
    t.f32(ffi::float_f64_to_f32(x), x as f32, input("f64_to_f32"));
    t.word(ffi::float_f64_to_u64(x), x as u64, input("f64_to_u64"));
    t.word(
        ffi::float_f64_to_u32(x).into(),
        (x as u32).into(),
        input("f64_to_u32"),
    );
    t.word(
        ffi::float_f64_to_i64(x) as u64,
        x as i64 as u64,
        input("f64_to_i64"),
    );
}

fn one_f32(t: &mut Tally, x: f32) {
    let input = |name: &'static str| move || format!("{name} of {x:e} ({:08x})", x.to_bits());
    t.f32(ffi::float_round_f32(x), x.round(), input("round_f32"));
}

fn one_number(t: &mut Tally, n: u64) {
    t.f32(ffi::float_u64_to_f32(n), n as f32, || {
        format!("u64_to_f32 of {n}")
    });
}

fn two_f64(t: &mut Tally, x: f64, y: f64) {
    let input = |name: &'static str| move || format!("{name} of {x:e} and {y:e}");
    t.max_f64(ffi::float_max_f64(x, y), x.max(y), input("max_f64"));
    let rest = x.rem_euclid(y);
    t.f64(
        ffi::float_rem_euclid_f64(x, y),
        rest,
        input("rem_euclid_f64"),
    );
}

// Rust leaves open which zero `min` gives for −0 and 0 too: ours is −0. No `min` of the LFO meets them, as its bounds are above 0.
fn two_f32(t: &mut Tally, x: f32, y: f32) {
    let input = |name: &'static str| move || format!("{name} of {x:e} and {y:e}");
    t.max_f32(ffi::float_max_f32(x, y), x.max(y), input("max_f32"));
    let min = if x == 0.0 && y == 0.0 {
        f32::from_bits(x.to_bits() | y.to_bits())
    } else {
        x.min(y)
    };
    t.f32(ffi::float_min_f32(x, y), min, input("min_f32"));
}

// Rust asks that lo ≤ hi.
fn clamps_f64(t: &mut Tally, x: f64, lo: f64, hi: f64) {
    if lo <= hi {
        t.f64(ffi::float_clamp_f64(x, lo, hi), x.clamp(lo, hi), || {
            format!("clamp of {x:e} to {lo:e}, {hi:e}")
        });
    }
}

fn clamps_f32(t: &mut Tally, x: f32, lo: f32, hi: f32) {
    if lo <= hi {
        t.f32(ffi::float_clamp_f32(x, lo, hi), x.clamp(lo, hi), || {
            format!("clamp_f32 of {x:e} to {lo:e}, {hi:e}")
        });
    }
}

fn limits(t: &mut Tally) {
    let (doubles, singles) = (limits_f64(), limits_f32());
    for &x in &doubles {
        one_f64(t, x);
        for &y in &doubles {
            two_f64(t, x, y);
        }
    }
    for &x in &singles {
        one_f32(t, x);
        for &y in &singles {
            two_f32(t, x, y);
        }
    }
    for &x in doubles.iter().step_by(3) {
        for &lo in doubles.iter().step_by(4) {
            for &hi in doubles.iter().step_by(5) {
                clamps_f64(t, x, lo, hi);
            }
        }
    }
    for k in 0..64 {
        for n in 0..8 {
            one_number(t, (1u64 << k).wrapping_add(n).wrapping_sub(4));
            one_number(t, (n << k) | ((1u64 << k) >> 1));
        }
    }
}

pub fn compare(t: &mut Tally, v: &mut Values) {
    limits(t);
    while t.goes_on() {
        let (x, y, z) = (v.any_f64(), v.any_f64(), v.any_f64());
        one_f64(t, x);
        two_f64(t, x, y);
        clamps_f64(t, x, y, z);
        let (a, b, c) = (v.any_f32(), v.any_f32(), v.any_f32());
        one_f32(t, a);
        two_f32(t, a, b);
        clamps_f32(t, a, b, c);
        let n = v.number();
        one_number(t, n);
        one_number(t, (n & !0xff) | 0x80);
        one_number(t, u64::MAX - (n >> 20));
    }
}
