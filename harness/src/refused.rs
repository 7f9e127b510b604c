//! Makes a call one that some question refuses: an unknown code, a float that is not finite, a number out of range, a curve off the grid, a path off
//! the paper. One fault, or two, so that the order of the questions shows.
use crate::player::bits;
use crate::questions;
use crate::run::{Block, Call, Mod, Path, Present, Rate, Scale, Settings, Shape, Span, Transport};
use crate::values::Values;

const NOT_FINITE: [u32; 6] = [
    0x7f80_0000,
    0xff80_0000,
    0x7fc0_0000,
    0x7f80_0001,
    0xffff_ffff,
    0xffc0_0000,
];

pub fn not_finite(v: &mut Values) -> u32 {
    v.of(&NOT_FINITE)
}

pub fn not_finite_f64(v: &mut Values) -> u64 {
    let nan = 0x7ff0_0000_0000_0000 | v.word() >> 12;
    v.of(&[0x7ff0_0000_0000_0000, 0xfff0_0000_0000_0000, nan])
}

// Just past the known codes; known but for bits above the 8th, the 16th or the 32nd; any other.
pub fn unknown(v: &mut Values, count: u64) -> u64 {
    let low = v.below(count);
    let any = v.number().max(count);
    v.of(&[
        count,
        count + 1,
        256 + low,
        65_536 + low,
        (1 << 32) + low,
        u64::MAX,
        any,
    ])
}

fn span(v: &mut Values, seconds: bool) -> Span {
    match v.below(2) {
        _ if seconds => Span::Seconds(not_finite(v)),
        0 => Span::Unknown(unknown(v, 3)),
        _ => Span::Synced(unknown(v, 15)),
    }
}

fn settings_code(v: &mut Values, s: &mut Settings) {
    match v.below(10) {
        0 => s.kind = unknown(v, 5),
        1 => s.mode = unknown(v, 3),
        2 => s.direction = unknown(v, 3),
        3 => {
            let (division, feel) = (v.below(15), v.below(3));
            s.rate = match v.below(4) {
                0 => Rate::Unknown(unknown(v, 2)),
                1 => Rate::Hz {
                    hz: 0,
                    x10: unknown(v, 2),
                },
                2 => Rate::Synced {
                    division: unknown(v, 15),
                    feel,
                },
                _ => Rate::Synced {
                    division,
                    feel: unknown(v, 3),
                },
            }
        }
        4 => s.song_lock = unknown(v, 2),
        5 => s.swing = unknown(v, 2),
        6 => s.fade_in = span(v, false),
        7 => s.delay = span(v, false),
        8 => s.smooth = Present::Unknown(unknown(v, 2)),
        _ => s.phase_snap = unknown(v, 2),
    }
}

pub fn settings(v: &mut Values, s: &mut Settings) {
    match v.below(3) {
        0 => settings_code(v, s),
        1 => match v.below(5) {
            0 => s.phase = not_finite(v),
            1 => s.fade_in = span(v, true),
            2 => s.delay = span(v, true),
            3 => s.smooth = Present::Yes(not_finite(v)),
            _ => {
                s.rate = Rate::Hz {
                    hz: not_finite(v),
                    x10: v.below(2),
                }
            }
        },
        _ => {
            let out = [1.0f32.next_up(), -1e-45, 2.0, -1.0, f32::MAX, f32::MIN];
            s.smooth = Present::Yes(bits(v.of(&out)));
        }
    }
}

fn mods(v: &mut Values, mods: &mut [Present<Mod>; 2], code: bool) {
    let bus = v.word() as u8;
    mods[v.index(2)] = if code {
        Present::Unknown(unknown(v, 2))
    } else {
        let depth = not_finite(v);
        Present::Yes(Mod { bus, depth })
    };
}

// Any kept point, often the first or the last; now and then the points are made more than 64, at most by `more`.
fn any_kept<'a, P: Copy>(v: &mut Values, points: &'a mut Vec<P>, more: usize) -> &'a mut P {
    if v.one_in(6) {
        let last = points[points.len() - 1];
        points.resize(points.len().max(65 + v.index(more)), last);
    }
    let kept = points.len().min(64);
    let any = v.index(kept);
    &mut points[v.of(&[any, any, 0, kept - 1])]
}

// A curve off the grid, of any kept point; with a step too.
fn off_grid(v: &mut Values, s: &mut Shape) {
    let p = any_kept(v, &mut s.points, 4);
    p.curve = bits(v.off_grid());
    if v.one_in(4) {
        p.step = 1;
    }
}

pub fn shape(v: &mut Values, s: &mut Shape) {
    let kept = s.points.len().min(64);
    let at = v.index(kept.max(1));
    match v.below(8) {
        0 => s.loopback = Present::Unknown(unknown(v, 2)),
        1..4 if kept > 0 => {
            let p = &mut s.points[at];
            match v.below(6) {
                0 => p.step = unknown(v, 2),
                1 => mods(v, &mut p.mods, true),
                2 => p.x = not_finite(v),
                3 => p.y = not_finite(v),
                4 => p.curve = not_finite(v),
                _ => mods(v, &mut p.mods, false),
            }
        }
        4..7 if kept > 0 => off_grid(v, s),
        _ => {
            let any = (kept as u64).max(v.number());
            let past = kept as u64 + v.below(2);
            s.loopback = Present::Yes(v.of(&[past, 64 + past, any, u64::MAX]));
        }
    }
}

// A coordinate off the paper, of any kept point, in x, in y or in both.
fn off_paper(v: &mut Values, p: &mut Path) {
    let point = any_kept(v, &mut p.points, 6);
    let (x, y) = (bits(v.off_paper()), bits(v.off_paper()));
    (point.x, point.y) = v.of(&[
        (x, point.y),
        (x, point.y),
        (point.x, y),
        (point.x, y),
        (x, y),
    ]);
}

pub fn path(v: &mut Values, p: &mut Path) {
    let kept = p.points.len().min(64);
    let at = v.index(kept.max(1));
    match v.below(7) {
        0 => p.closed = unknown(v, 2),
        1..4 if kept > 0 => {
            let point = &mut p.points[at];
            match v.below(5) {
                0 => mods(v, &mut point.mods, true),
                1 => point.x = not_finite(v),
                2 => point.y = not_finite(v),
                3 => point.bend = not_finite(v),
                _ => mods(v, &mut point.mods, false),
            }
        }
        _ if kept > 0 => off_paper(v, p),
        _ => {}
    }
}

pub fn transport(v: &mut Values, t: &mut Transport) {
    match v.below(3) {
        0 => match v.below(2) {
            0 => t.playing = unknown(v, 2),
            _ => t.scale = Scale::Unknown(unknown(v, 2)),
        },
        1 => match v.below(7) {
            0 => t.sample_rate = not_finite_f64(v),
            1 => t.tempo = not_finite_f64(v),
            2 => t.beats_per_bar = not_finite_f64(v),
            3 => t.beats = not_finite_f64(v),
            4 => t.seconds = not_finite_f64(v),
            5 => t.swing = not_finite(v),
            _ => {
                let p = not_finite(v);
                t.scale = v.of(&[Scale::Percent(p), Scale::Rate(p)]);
            }
        },
        _ => {
            let (place, lo, hi) = match v.below(5) {
                0 => (&mut t.sample_rate, 1_000.0, 768_000.0),
                1 => (&mut t.tempo, 0.0, 1_000.0),
                2 => (&mut t.beats_per_bar, 0.25, 64.0),
                3 => (&mut t.beats, -2_147_483_648.0, 2_147_483_647.0),
                _ => (&mut t.seconds, -2_147_483_648.0, 2_147_483_647.0),
            };
            let (lo, hi): (f64, f64) = (lo, hi);
            let out = [lo.next_down(), hi.next_up(), -1e300, 1e300];
            *place = v.of(&out).to_bits();
        }
    }
}

fn block(v: &mut Values, b: &mut Block) {
    match v.below(6) {
        0 => b.restart = Present::Unknown(unknown(v, 2)),
        1 => {
            b.frames = v.of(&[4097, 4098, 8192, 65_536, 1 << 40, u64::MAX]);
            (b.x_len, b.y_len) = (v.of(&[16, 4097, b.x_len]), v.of(&[16, 4097, b.y_len]));
        }
        2 => {
            b.frames = b.frames.clamp(1, 40);
            let short = v.of(&[b.frames - 1, 0]);
            let long = b.frames + v.below(3);
            (b.x_len, b.y_len) = v.of(&[(short, long), (long, short), (short, short)]);
        }
        _ => {
            transport(v, &mut b.transport);
            b.frames = b.frames.min(40);
            (b.x_len, b.y_len) = (b.x_len.min(48), b.y_len.min(48));
        }
    }
}

fn fault(v: &mut Values, call: &mut Call) {
    match call {
        Call::Settings(s) => settings(v, s),
        Call::Shape(s) => shape(v, s),
        Call::Path(p) | Call::Legs(p) => path(v, p),
        Call::Bus { bus, value } => {
            if v.yes() {
                let any = v.number().max(16);
                *bus = v.of(&[16, 17, 255, 256, 1 << 32, u64::MAX, any]);
            } else {
                *value = not_finite(v);
            }
        }
        Call::Phase(t) => transport(v, t),
        Call::Block(b) => block(v, b),
        Call::ShapeAt { shape: s, x } => match v.below(6) {
            0 => *x = not_finite(v),
            _ => shape(v, s),
        },
        Call::PathAt { path: p, t } => match v.below(6) {
            0 => *t = not_finite(v),
            _ => path(v, p),
        },
    }
}

/// Makes the call one that is refused.
pub fn refuse(v: &mut Values, call: &mut Call) {
    fault(v, call);
    if v.one_in(3) {
        fault(v, call);
    }
    while questions::answer(call, 0) == 0 {
        fault(v, call);
    }
}

/// Settings with which making a player is refused.
pub fn make(v: &mut Values, s: Settings) -> Settings {
    let mut call = Call::Settings(s);
    refuse(v, &mut call);
    match call {
        Call::Settings(s) => s,
        _ => s,
    }
}
