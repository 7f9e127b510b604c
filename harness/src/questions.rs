//! The questions of documents 01 and 02 to each call, in their order, written from their words. The first "no" gives the number; success is 0.
use crate::items::Item;
use crate::lfo::MAX_POINTS;
use crate::run::{Block, Call, Mod, Path, Present, Rate, Scale, Settings, Shape, Span, Transport};

/// The frames that a player may play in all.
pub const FRAMES: u128 = 1 << 40;

/// The numbers of the questions to a call, each with its answer.
pub type Asked = Vec<(u64, bool)>;

fn first_no(asked: &Asked) -> u64 {
    asked.iter().find(|q| !q.1).map_or(0, |q| q.0)
}

// ---- 1: is each code known?

pub fn yes_or_no(code: u64) -> bool {
    code <= 1
}

fn division(code: u64) -> bool {
    code <= 14
}

fn is_known<T>(value: &Present<T>) -> bool {
    !matches!(value, Present::Unknown(_))
}

fn span_known(span: Span) -> bool {
    match span {
        Span::Off | Span::Seconds(_) => true,
        Span::Synced(d) => division(d),
        Span::Unknown(_) => false,
    }
}

fn settings_known(s: &Settings) -> bool {
    let rate = match s.rate {
        Rate::Synced { division: d, feel } => division(d) && feel <= 2,
        Rate::Hz { x10, .. } => yes_or_no(x10),
        Rate::Unknown(_) => false,
    };
    s.kind <= 4
        && s.mode <= 2
        && s.direction <= 2
        && rate
        && [s.song_lock, s.swing, s.phase_snap]
            .into_iter()
            .all(yes_or_no)
        && span_known(s.fade_in)
        && span_known(s.delay)
        && is_known(&s.smooth)
}

fn transport_known(t: &Transport) -> bool {
    yes_or_no(t.playing) && !matches!(t.scale, Scale::Unknown(_))
}

// ---- 2: is each float finite?

fn finite(bits: u32) -> bool {
    f32::from_bits(bits).is_finite()
}

fn all_finite(list: &[u32]) -> bool {
    list.iter().copied().all(finite)
}

fn span_finite(span: Span) -> bool {
    match span {
        Span::Seconds(s) => finite(s),
        _ => true,
    }
}

fn settings_finite(s: &Settings) -> bool {
    let rate = match s.rate {
        Rate::Hz { hz, .. } => finite(hz),
        _ => true,
    };
    let smooth = match s.smooth {
        Present::Yes(a) => finite(a),
        _ => true,
    };
    rate && span_finite(s.fade_in) && span_finite(s.delay) && smooth && finite(s.phase)
}

fn mods_finite(mods: &[Present<Mod>; 2]) -> bool {
    mods.iter().all(|m| match m {
        Present::Yes(m) => finite(m.depth),
        _ => true,
    })
}

fn transport_finite(t: &Transport) -> bool {
    let percent = match t.scale {
        Scale::Percent(p) | Scale::Rate(p) => finite(p),
        Scale::Unknown(_) => true,
    };
    let doubles = [t.sample_rate, t.tempo, t.beats_per_bar, t.beats, t.seconds];
    doubles.iter().all(|x| f64::from_bits(*x).is_finite()) && finite(t.swing) && percent
}

// ---- 11: is each path coordinate a multiple of 1/4096 within 0 to 1?

/// Of a coordinate's bits, as it is handed in; −0 is 0, and a NaN is not one.
pub fn on_paper(bits: u32) -> bool {
    // the product is exact
    let squares = f64::from(f32::from_bits(bits)) * 4096.0;
    (0.0..=4096.0).contains(&squares) && squares == squares.trunc()
}

// ---- 10: is the clamped curve on the grid of 1/1024?

/// Of a curve's bits; a NaN is not.
pub fn on_grid(bits: u32) -> bool {
    // the product is exact
    let steps = f32::from_bits(bits).clamp(-1.0, 1.0) * 1024.0;
    steps == steps.trunc()
}

// ---- 5 and 6: is it in range?

fn within(bits: u32, lo: f32, hi: f32) -> bool {
    (lo..=hi).contains(&f32::from_bits(bits))
}

fn in_range(t: &Transport) -> bool {
    let within = |bits: u64, lo: f64, hi: f64| (lo..=hi).contains(&f64::from_bits(bits));
    within(t.sample_rate, 1_000.0, 768_000.0)
        && within(t.tempo, 0.0, 1_000.0)
        && within(t.beats_per_bar, 0.25, 64.0)
        && within(t.beats, -2_147_483_648.0, 2_147_483_647.0)
        && within(t.seconds, -2_147_483_648.0, 2_147_483_647.0)
}

// ---- the calls

pub fn settings_asked(s: &Settings) -> Asked {
    let coefficient = match s.smooth {
        Present::Yes(a) => within(a, 0.0, 1.0),
        _ => true,
    };
    vec![
        (1, settings_known(s)),
        (2, settings_finite(s)),
        (5, coefficient),
    ]
}

pub fn settings(s: &Settings) -> u64 {
    first_no(&settings_asked(s))
}

/// A shape, and a further float of the call.
fn shape(s: &Shape, x: u32) -> Asked {
    let kept = &s.points[..s.points.len().min(MAX_POINTS)];
    let codes = kept
        .iter()
        .all(|p| yes_or_no(p.step) && p.mods.iter().all(is_known))
        && is_known(&s.loopback);
    let floats = kept
        .iter()
        .all(|p| all_finite(&[p.x, p.y, p.curve]) && mods_finite(&p.mods));
    let loopback = match s.loopback {
        Present::Yes(i) => i < kept.len() as u64,
        _ => true,
    };
    vec![
        (1, codes),
        (2, floats && finite(x)),
        (4, loopback),
        (10, kept.iter().all(|p| on_grid(p.curve))),
    ]
}

/// A path, and a further float of the call.
fn path(p: &Path, t: u32) -> Asked {
    let kept = &p.points[..p.points.len().min(MAX_POINTS)];
    let codes = yes_or_no(p.closed) && kept.iter().all(|p| p.mods.iter().all(is_known));
    let floats = kept
        .iter()
        .all(|p| all_finite(&[p.x, p.y, p.bend]) && mods_finite(&p.mods));
    vec![
        (1, codes),
        (2, floats && finite(t)),
        (11, kept.iter().all(|p| on_paper(p.x) && on_paper(p.y))),
    ]
}

pub fn phase(t: &Transport) -> Asked {
    vec![
        (1, transport_known(t)),
        (2, transport_finite(t)),
        (6, in_range(t)),
    ]
}

fn block(b: &Block, played: u64) -> Asked {
    let t = &b.transport;
    vec![
        (1, transport_known(t) && is_known(&b.restart)),
        (2, transport_finite(t)),
        (6, in_range(t)),
        (
            7,
            b.frames <= 4096 && b.x_len >= b.frames && b.y_len >= b.frames,
        ),
        (8, u128::from(played) + u128::from(b.frames) <= FRAMES),
    ]
}

pub fn asked(call: &Call, played: u64) -> Asked {
    match call {
        Call::Settings(s) => settings_asked(s),
        Call::Shape(s) => shape(s, 0),
        Call::Path(p) | Call::Legs(p) => path(p, 0),
        Call::Bus { bus, value } => vec![(2, finite(*value)), (9, *bus < 16)],
        Call::Phase(t) => phase(t),
        Call::Block(b) => block(b, played),
        Call::ShapeAt { shape: s, x } => shape(s, *x),
        Call::PathAt { path: p, t } => path(p, *t),
    }
}

/// The answer to a call on a player that has played so many frames.
pub fn answer(call: &Call, played: u64) -> u64 {
    first_no(&asked(call, played))
}

/// Every question that the call fails, in their order.
pub fn failed(call: &Call, played: u64) -> Vec<u64> {
    let asked = asked(call, played);
    asked.iter().filter(|q| !q.1).map(|q| q.0).collect()
}

// ---- a whole item, as one call

/// The questions that are put to an item, in their order.
pub const ITEM: [u64; 7] = [1, 2, 4, 11, 10, 5, 6];

/// Its transport: 48,000 samples a second, at the start of the song.
pub fn item_transport(i: &Item) -> Transport {
    Transport {
        sample_rate: 48_000f64.to_bits(),
        tempo: i.tempo,
        beats_per_bar: i.beats_per_bar,
        playing: 0,
        beats: 0,
        seconds: 0,
        swing: i.swing,
        scale: i.scale,
    }
}

/// Every question that the item fails, in their order: each is put to all its parts before the next one.
pub fn item_failed(i: &Item) -> Vec<u64> {
    let parts = [
        settings_asked(&i.settings),
        shape(&i.shape, 0),
        path(&i.path, 0),
        vec![(2, all_finite(&i.buses))],
        phase(&item_transport(i)),
    ];
    let fails = |n: &u64| parts.iter().flatten().any(|q| q.0 == *n && !q.1);
    ITEM.into_iter().filter(fails).collect()
}

pub fn item(i: &Item) -> u64 {
    item_failed(i).first().copied().unwrap_or(0)
}

/// The questions that apply to making a player (place 9) and to the call of each tag.
pub const APPLY: [&[u64]; 10] = [
    &[1, 2, 5],
    &[1, 2, 4, 10],
    &[1, 2, 11],
    &[2, 9],
    &[1, 2, 6],
    &[1, 2, 6, 7, 8],
    &[1, 2, 4, 10],
    &[1, 2, 11],
    &[1, 2, 11],
    &[1, 2, 5],
];
