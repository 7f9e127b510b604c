//! The 40 sittings: their items, as the source has them and as records.
use crate::lfo::{
    Lfo, LfoBank, LfoType, Mode, PathPoint, Point, PointMod, Rate, Scale, Settings, Transport,
};

pub const SITTINGS: usize = 40;
pub const RATE: f64 = 48_000.0;
/// The frames of a sitting, 30 seconds, and of a block; the last block is shorter.
pub const FRAMES: usize = 1_440_000;
pub const BLOCK: usize = 512;

/// The items, in turn.
pub const ITEMS: [(&str, LfoType); 5] = [
    ("Drawn, default shape", LfoType::Drawn),
    ("Drawn, 16 bent points", LfoType::Drawn),
    ("Path, default path", LfoType::Path),
    ("Lorenz", LfoType::Lorenz),
    ("Sample-and-Hold", LfoType::SampleAndHold),
];

/// What `LfoBank` adds to the seed of voice 0.
const GOLDEN: u64 = 0x9E37_79B9_7F4A_7C15;

fn seed(n: usize) -> u64 {
    1_000 + n as u64
}

// Bends are multiples of 1/1024 whose strengths the source's exp2 gives too.
fn bent16() -> Vec<Point> {
    (0..16u32)
        .map(|i| {
            let x = i as f32 / 16.0 + (i % 3) as f32 / 64.0;
            let y = ((i * 7) % 16) as f32 / 15.0;
            let p = Point::new(x, y).curve((((i * 5) % 13) as f32 - 6.0) * 154.0 / 1024.0);
            if i == 9 { p.step() } else { p }
        })
        .collect()
}

fn lfo(n: usize) -> Lfo {
    let item = n % ITEMS.len();
    let settings = Settings {
        kind: ITEMS[item].1,
        rate: Rate::Hz {
            hz: 2.5 * (1 + n / ITEMS.len()) as f32,
            x10: false,
        },
        mode: Mode::Restart,
        ..Settings::default()
    };
    let mut lfo = Lfo::new(settings, seed(n).wrapping_sub(GOLDEN));
    if item == 1 {
        lfo.shape_mut().set_points(&bent16());
    }
    lfo
}

pub fn bank(n: usize) -> LfoBank {
    LfoBank::new(lfo(n), 1)
}

/// It plays from the start of the song.
pub fn transport() -> Transport {
    Transport {
        playing: true,
        ..Transport::new(RATE)
    }
}

// ---- as bytes

fn number(bytes: &mut Vec<u8>, mut n: u64) {
    while n > 127 {
        bytes.push(n as u8 | 128);
        n >>= 7;
    }
    bytes.push(n as u8);
}

fn numbers(bytes: &mut Vec<u8>, list: &[u64]) {
    for n in list {
        number(bytes, *n);
    }
}

fn bits(x: f32) -> u64 {
    x.to_bits().into()
}

fn modulation(bytes: &mut Vec<u8>, m: Option<PointMod>) {
    match m {
        None => number(bytes, 0),
        Some(m) => numbers(bytes, &[1, m.bus.into(), bits(m.depth)]),
    }
}

fn point(bytes: &mut Vec<u8>, p: &Point) {
    numbers(bytes, &[bits(p.x), bits(p.y), bits(p.curve), p.step.into()]);
    modulation(bytes, p.x_mod);
    modulation(bytes, p.y_mod);
}

fn path_point(bytes: &mut Vec<u8>, p: &PathPoint) {
    numbers(bytes, &[bits(p.x), bits(p.y), bits(p.bend)]);
    modulation(bytes, p.x_mod);
    modulation(bytes, p.y_mod);
}

// Settings with a rate in hertz, no span and no smoothing.
fn settings(bytes: &mut Vec<u8>, s: &Settings) {
    let Rate::Hz { hz, x10 } = s.rate else {
        unreachable!("a rate in hertz")
    };
    let choices = [s.kind as u64, s.mode as u64, s.direction as u64];
    numbers(bytes, &choices);
    numbers(bytes, &[1, bits(hz), x10.into()]);
    numbers(bytes, &[s.song_lock.into(), s.swing.into(), 0, 0, 0]);
    let snap = [bits(s.phase), s.phase_snap.into(), s.grid_x.into()];
    numbers(bytes, &snap);
}

fn record(n: usize) -> Vec<u8> {
    let (lfo, t) = (lfo(n), transport());
    let (shape, path) = (lfo.shape(), lfo.path());
    let mut bytes = vec![];
    settings(&mut bytes, &lfo.settings);
    number(&mut bytes, shape.points().len() as u64);
    shape.points().iter().for_each(|p| point(&mut bytes, p));
    number(&mut bytes, 0);
    let points = path.points();
    numbers(&mut bytes, &[points.len() as u64, path.closed().into()]);
    points.iter().for_each(|p| path_point(&mut bytes, p));
    numbers(&mut bytes, &[0; 16]);
    let song = [seed(n), t.tempo.to_bits(), t.beats_per_bar.to_bits()];
    numbers(&mut bytes, &song);
    let (code, percent) = match t.scale {
        Scale::Percent(p) => (0, p),
        Scale::Rate(p) => (1, p),
    };
    numbers(&mut bytes, &[bits(t.swing), code, bits(percent)]);
    bytes
}

/// The frames of each block.
pub fn blocks() -> impl Iterator<Item = usize> {
    (0..FRAMES.div_ceil(BLOCK)).map(|i| BLOCK.min(FRAMES - i * BLOCK))
}

pub fn sitting(n: usize) -> Vec<u8> {
    let mut bytes = record(n);
    for frames in blocks() {
        numbers(&mut bytes, &[0, frames as u64]);
    }
    number(&mut bytes, 3);
    bytes
}
