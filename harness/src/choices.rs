//! What no run reaches of `settings` against lfo/mod.rs: knobs, indices, the song position moved on.
use crate::ffi;
use crate::lfo::{Division, Rate, Span, Transport};
use crate::tally::Tally;
use crate::values::{KINDS, Values, limits_f32, limits_f64};

/// What crates/exports answers where a code or an index is not known.
const UNKNOWN: u64 = 255;

fn kind(t: &mut Tally, code: u64) {
    let known = usize::try_from(code).ok().and_then(|k| KINDS.get(k));
    let rust = known.map_or(UNKNOWN, |k| k.is_generator().into());
    t.word(ffi::kind_is_generator(code), rust, || {
        format!("is_generator of {code}")
    });
}

/// A span as crates/exports gives it: 0, or 1 more than its division's index.
fn span_number(span: Span) -> u64 {
    match span {
        Span::Off => 0,
        Span::Synced(d) => 1 + u64::from(d.index()),
        Span::Seconds(_) => UNKNOWN,
    }
}

fn index(t: &mut Tally, k: u8) {
    let input = |name: &'static str| move || format!("{name} of {k}");
    let d = Division::new(k);
    let number = d.map_or(UNKNOWN, |d| d.index().into());
    t.word(ffi::division_new(k), number, input("Division::new"));
    let normalised = d.map_or(f32::NAN, Division::normalised);
    t.f32(ffi::division_normalised(k), normalised, input("normalised"));
    let stored = d.map_or(f32::NAN, Division::stored);
    t.f32(ffi::division_stored(k), stored, input("stored"));
    let span = span_number(Span::from_index(k));
    t.word(ffi::span_from_index(k), span, input("Span::from_index"));
}

fn knob(t: &mut Tally, n: f32) {
    let input = |name: &'static str| move || format!("{name} of {n:e} ({:08x})", n.to_bits());
    let division = Division::from_normalised(n).index().into();
    t.word(
        ffi::division_from_normalised(n),
        division,
        input("from_normalised"),
    );
    for x10 in [false, true] {
        let Rate::Hz { hz, .. } = Rate::hz_from_normalised(n, x10) else {
            unreachable!()
        };
        t.f32(
            ffi::rate_hz_from_normalised(n, x10),
            hz,
            input("hz_from_normalised"),
        );
    }
}

fn advance(t: &mut Tally, [sample_rate, tempo, beats, seconds]: [f64; 4], frames: usize) {
    let mut song = Transport {
        tempo,
        beats,
        seconds,
        ..Transport::new(sample_rate)
    };
    song.advance(frames);
    let input = || {
        format!(
            "{frames} frames at {sample_rate:e} after {beats:e} beats at {tempo:e} a minute, {seconds:e} s"
        )
    };
    let n = frames as u64;
    t.f64(
        ffi::transport_beats_after(sample_rate, tempo, beats, n),
        song.beats,
        input,
    );
    t.f64(
        ffi::transport_seconds_after(sample_rate, seconds, n),
        song.seconds,
        input,
    );
}

fn limits(t: &mut Tally) {
    for code in (0..1000)
        .chain((0..64).map(|k| 1 << k))
        .chain([u64::MAX, u64::MAX - 1])
    {
        kind(t, code);
    }
    for k in 0..=u8::MAX {
        index(t, k);
    }
    // every place of the knob, and halfway between two, with the floats around
    for k in 0..=28 {
        let bits = (k as f32 / 28.0).to_bits();
        for n in bits.saturating_sub(64)..=bits + 64 {
            knob(t, f32::from_bits(n));
        }
    }
    for &n in &limits_f32() {
        knob(t, n);
    }
    for &x in &limits_f64() {
        for frames in [0, 1, 8192, usize::MAX] {
            advance(t, [x, 120.0, 1.0, x], frames);
            advance(t, [48_000.0, x, -x, 0.5], frames);
        }
    }
}

pub fn compare(t: &mut Tally, v: &mut Values) {
    limits(t);
    while t.goes_on() {
        for _ in 0..4 {
            knob(t, v.about(1.0));
        }
        knob(t, v.any_f32());
        kind(t, v.number());
        let frames = v.number() as usize;
        advance(t, [(); 4].map(|()| v.any_f64()), frames);
        let [rate, tempo] = [v.unit() * 768_000.0, v.unit() * 1000.0];
        advance(
            t,
            [rate, tempo, v.song_position(), v.song_position()],
            v.index(8193),
        );
    }
}
