//! Runs about the end of a One-shot, the same for the same seed: mostly blocks of one frame, so that a last frame is at, just before and just after 1 and
//! 2 cycles, swung and not, counted and song-locked. Between blocks a bus moves the loopback point, and settings and shapes are changed.
use crate::lfo::{Feel, LfoType, Mode, Settings};
use crate::run::{Call, Present, Run, Shape};
use crate::values::{DIRECTIONS, KINDS, MODES, Values};
use crate::written::{Written, bowed, hertz, moved, point, synced};

/// What bus 0 adds to the x of a point at 0, as f32: about 10^−9 and about 1, where a loopback comes in force.
const MOVES: [u32; 9] = [
    0,
    0x3089_705e,
    0x3089_705f,
    0x3089_7060,
    0x3089_7061,
    0x3f00_0000,
    0x3f7f_fffe,
    0x3f7f_ffff,
    0x3f80_0000,
];

/// Cycles a second.
const HZ: f32 = 600.0;
/// Cycles a beat of division 12.
const PER_BEAT: f64 = 32.0;

/// A number or a float next to it.
fn about(v: &mut Values, x: f64) -> f64 {
    v.of(&[x, x, x.next_up(), x.next_down()])
}

fn choose(v: &mut Values, s: &mut Settings) {
    s.kind = if v.yes() {
        LfoType::Drawn
    } else {
        v.of(&KINDS)
    };
    s.mode = if v.one_in(8) {
        v.of(&MODES)
    } else {
        Mode::OneShot
    };
    s.direction = v.of(&DIRECTIONS);
}

/// Bus 0 moves the first point, which keeps the second at or after it.
fn shape(v: &mut Values) -> Shape {
    let mut points = vec![point(0.0, 1.0, 0.0)];
    points[0].mods[0] = moved(0, 1.0);
    if v.yes() {
        points.push(point(v.of(&[0.0, 0.5, 1.0]), 0.25, 0.0));
    }
    let loopback = if v.one_in(4) {
        Present::No
    } else {
        Present::Yes(v.below(points.len() as u64))
    };
    Shape { points, loopback }
}

/// A song position where a song-locked player of phase 0 is at 1 or 2 cycles, next to them or anywhere up to 3.
fn seek(v: &mut Values, w: Written) -> Written {
    // with swing, the first cycle of a pair ends here
    let first = 1.0 + 0.5 * f64::from(w.transport.swing);
    let count = match v.below(4) {
        0 => v.unit() * 3.0,
        1 => 2.0,
        _ if w.run.settings.swing == 1 => first,
        _ => 1.0,
    };
    w.at(|t| {
        t.beats = about(v, count / PER_BEAT);
        t.seconds = about(v, count / f64::from(HZ));
    })
}

/// An edit between two blocks.
fn edit(v: &mut Values, s: &mut Settings, w: Written) -> Written {
    match v.below(12) {
        0..4 => w.bus(0, f32::from_bits(v.of(&MOVES))),
        4 => {
            choose(v, s);
            w.settings(s)
        }
        5 => w.with(Call::Shape(shape(v))),
        6 => w.at(|t| t.playing = !t.playing),
        _ => w,
    }
}

/// The run of a seed.
pub fn made(seed: u64) -> Run {
    let mut v = Values::new(seed);
    let per_cycle = v.of(&[2, 3, 5, 7, 8, 10, 16]);
    let swing = v.one_in(3);
    let mut s = Settings {
        rate: if swing {
            synced(12, Feel::Straight)
        } else {
            hertz(HZ)
        },
        swing,
        song_lock: v.one_in(4),
        phase: v.of(&[0.0, 0.0, 0.0, 90.0, 360.0f32.next_down(), 360.0]),
        ..Settings::default()
    };
    choose(&mut v, &mut s);
    let mut w = Written::new(&s).at(|t| {
        // `per_cycle` samples a cycle, or the next float
        let samples = per_cycle as f64;
        if swing {
            t.tempo = about(&mut v, 60.0 * t.sample_rate / PER_BEAT / samples);
        } else {
            t.sample_rate = about(&mut v, f64::from(HZ) * samples);
        }
        let any = v.unit_f32();
        t.swing = v.of(&[0.0, 0.25, 0.5, 1.0, any]);
        t.playing = s.song_lock;
    });
    w = w.with(Call::Shape(shape(&mut v)));
    w = w.with(Call::Path(bowed(v.yes())));
    w = w.bus(0, f32::from_bits(v.of(&MOVES)));
    w = w.block(0, Present::Yes(0));
    let mut left = 2 * per_cycle + 3;
    while left > 0 {
        w = edit(&mut v, &mut s, w);
        if s.song_lock {
            w = seek(&mut v, w);
        }
        let frames = if v.one_in(6) {
            v.below(per_cycle + 1).min(left)
        } else {
            1
        };
        let restart = if v.one_in(16) {
            Present::Yes(v.below(frames + 2))
        } else {
            Present::No
        };
        w = w.block(frames, restart);
        left -= frames;
    }
    w.run
}
