//! Adverse items and damaged records, the same for the same seed. Of a damaged record it is known how it was damaged, and so what must come of it.
use crate::adverse::Adverse;
use crate::items::{self, Cause, Field, Holds, Item, Placed, SHORTEST, holds};
use crate::lfo::MAX_POINTS;
use crate::player::bits;
use crate::questions::{self, item_transport};
use crate::refused::{self, not_finite, not_finite_f64, unknown};
use crate::run::{
    Mod, Numbers, Path, PathPoint, Point, Present, Rate, Scale, Settings, Shape, Span, bytes_of,
};
use crate::values::Values;
use Effect::{Asks, Bad};

// ---- items

// The number of points: mostly few, so that there are many records; all from 0 to 70.
fn resized<P: Copy>(v: &mut Values, points: &mut Vec<P>) {
    match v.below(16) {
        0 => {
            let count = v.index(71);
            if let Some(last) = points.last().copied() {
                points.resize(count, last);
            }
        }
        1..4 => {}
        _ => points.truncate(v.index(5)),
    }
}

fn bus(v: &mut Values) -> u32 {
    bits(match v.below(8) {
        0..3 => 0.0,
        3 => -0.0,
        4 => v.of(&[f32::MAX, f32::MIN, 1e-45, -1e-45, 1.0, -1.0]),
        5 => v.finite_f32(),
        _ => v.unit_f32() * 2.0 - 1.0,
    })
}

fn seed(v: &mut Values) -> u64 {
    match v.below(4) {
        0 => v.of(&[0, 1, 127, 128, u64::MAX, 1 << 63]),
        1 => v.number(),
        _ => v.word(),
    }
}

fn coefficient(v: &mut Values) -> Present<u32> {
    let any = v.unit_f32();
    match v.below(3) {
        0 => Present::No,
        _ => Present::Yes(bits(v.of(&[0.0, -0.0, 1.0, 1e-45, any, any, 0.5]))),
    }
}

fn scale(v: &mut Values) -> Scale {
    let any = v.finite_f32();
    let percent = bits(match v.below(3) {
        0 => v.of(&[10.0, 100.0, 1000.0, 0.0, -0.0, -5.0, 1e-45, f32::MAX, any]),
        _ => v.about(1000.0),
    });
    v.of(&[Scale::Percent(percent), Scale::Rate(percent)])
}

// Settings and curves as of runs; every field at and about its limits.
fn any_item(a: &mut Adverse) -> Item {
    let (mut settings, _) = a.settings();
    let (mut shape, mut path) = (a.shape(), a.path());
    let v = &mut a.v;
    settings.smooth = coefficient(v);
    settings.phase = bits(v.about(360.0));
    settings.grid_x = v.of(&[0, 1, 8, 127, 128, 16_383, 16_384, u16::MAX]);
    resized(v, &mut shape.points);
    resized(v, &mut path.points);
    let kept = shape.points.len().min(MAX_POINTS) as u64;
    if let Present::Yes(i) = shape.loopback {
        let last = kept.saturating_sub(1);
        shape.loopback = match kept {
            0 => Present::No,
            _ => Present::Yes(v.of(&[i.min(last), last])),
        };
    }
    let (tempo, any) = (v.unit() * 1000.0, v.unit());
    let bar = v.of(&[4.0, 3.0, 0.25, 64.0, 0.25f64.next_up(), 0.25 + any * 63.75]);
    Item {
        settings,
        shape,
        path,
        buses: std::array::from_fn(|_| bus(v)),
        seed: seed(v),
        tempo: f64::to_bits(v.of(&[tempo, tempo, 0.0, -0.0, 1000.0, 120.0, 5e-324, 1e-310])),
        beats_per_bar: bar.to_bits(),
        swing: bits(v.about(1.0)),
        scale: scale(v),
    }
}

/// An item that the writer accepts: its points may be out of order, out of range and more than 64.
pub fn accepted(seed: u64) -> Item {
    let mut a = Adverse::new(seed);
    loop {
        let item = any_item(&mut a);
        if questions::item(&item) == 0 {
            return item;
        }
    }
}

/// The item of the shortest record, and how long it is.
pub fn shortest() -> (Item, usize) {
    let settings = Settings {
        kind: 0,
        mode: 0,
        direction: 0,
        rate: Rate::Hz { hz: 0, x10: 0 },
        song_lock: 0,
        swing: 0,
        fade_in: Span::Off,
        delay: Span::Off,
        smooth: Present::No,
        phase: 0,
        phase_snap: 0,
        grid_x: 0,
    };
    let item = Item {
        settings,
        shape: Shape {
            points: vec![],
            loopback: Present::No,
        },
        path: Path {
            closed: 0,
            points: vec![],
        },
        buses: [0; items::BUSES],
        seed: 0,
        tempo: 0,
        beats_per_bar: 0.25f64.to_bits(),
        swing: 0,
        scale: Scale::Percent(0),
    };
    (item, SHORTEST)
}

/// An item of the longest record, and how long it is: every float −0 where it may be, 64 points a curve, everything there.
pub fn longest() -> (Item, usize) {
    let minus = bits(-0.0);
    let depth = minus;
    let mods = [Present::Yes(Mod { bus: 255, depth }); 2];
    let point = Point {
        x: minus,
        y: minus,
        curve: minus,
        step: 1,
        mods,
    };
    let path_point = PathPoint {
        x: minus,
        y: minus,
        bend: minus,
        mods,
    };
    let (mut item, _) = shortest();
    item.settings = Settings {
        rate: Rate::Hz { hz: minus, x10: 1 },
        fade_in: Span::Seconds(minus),
        delay: Span::Seconds(minus),
        smooth: Present::Yes(minus),
        phase: minus,
        grid_x: u16::MAX,
        ..item.settings
    };
    item.shape.points = vec![point; MAX_POINTS];
    item.shape.loopback = Present::Yes(63);
    item.path.points = vec![path_point; MAX_POINTS];
    item.buses = [minus; items::BUSES];
    (item.seed, item.tempo) = (u64::MAX, (-0.0f64).to_bits());
    (item.swing, item.scale) = (minus, Scale::Rate(minus));
    (item, 4196)
}

fn fault(v: &mut Values, item: &mut Item) {
    match v.below(6) {
        0 => refused::settings(v, &mut item.settings),
        1 => refused::shape(v, &mut item.shape),
        2 => refused::path(v, &mut item.path),
        3 => item.buses[v.index(items::BUSES)] = not_finite(v),
        _ => {
            let mut t = item_transport(item);
            refused::transport(v, &mut t);
            (item.tempo, item.beats_per_bar) = (t.tempo, t.beats_per_bar);
            (item.swing, item.scale) = (t.swing, t.scale);
        }
    }
}

/// The item with one to three faults, so that the order of the questions shows.
pub fn refuse(v: &mut Values, item: &mut Item) {
    for _ in 0..1 + v.below(3) {
        fault(v, item);
    }
    while questions::item(item) == 0 {
        fault(v, item);
    }
}

// ---- items as bytes

/// The length of a buffer too short for so many bytes: one byte less, none, any.
pub fn too_short(v: &mut Values, needed: usize) -> usize {
    let any = v.index(needed);
    v.of(&[needed - 1, needed - 1, 0, 1, any])
}

/// The length of a buffer for so many bytes: just as long, a byte longer, longer, now and then much longer.
pub fn long_enough(v: &mut Values, needed: usize) -> usize {
    match v.below(64) {
        0..16 => needed,
        16..20 => needed + 1,
        20 => needed + 16_384,
        _ => needed + 40,
    }
}

/// The length of a buffer for so many bytes, of eight one too short.
pub fn room(v: &mut Values, needed: usize) -> usize {
    match v.one_in(8) {
        true => too_short(v, needed),
        false => long_enough(v, needed),
    }
}

fn bits_of(field: Field) -> u32 {
    match holds(field) {
        Holds::F32 => 32,
        Holds::Number(bits) => bits,
        _ => 64,
    }
}

/// A number in a longer form: groups of 0 behind its last.
pub fn longer(v: &mut Values, n: u64) -> Vec<u8> {
    let mut bytes = bytes_of(&[n]);
    for _ in 0..v.of(&[1, 1, 2, 9, 12]) {
        let last = bytes.len() - 1;
        bytes[last] |= 128;
        bytes.push(0);
    }
    bytes
}

/// A number of more bits than the field has.
pub fn larger(v: &mut Values, n: u64, bits: u32) -> Vec<u8> {
    if bits < 64 {
        let over = 1u64 << bits;
        return bytes_of(&[v.of(&[over, over | n, over * 2, over | 1 << 33, u64::MAX])]);
    }
    let mut bytes = vec![v.of(&[0x80, 0xff, 0x80 | n as u8]); v.of(&[9, 9, 10, 11, 20])];
    bytes.push(match bytes.len() {
        9 => v.of(&[2, 3, 4, 64, 127]),
        _ => v.of(&[1, 2, 127]),
    });
    bytes
}

/// Bytes that hand no item to the writer: cut short, longer than they end, a number not in shortest form or too large, a count over 4,096.
pub fn malformed(v: &mut Values, item: &Item) -> Vec<u8> {
    let mut numbers = Numbers::item(item);
    let mut fields = vec![];
    items::each_field(item, &mut |field, _| fields.push(field));
    let i = v.index(numbers.len());
    match v.below(5) {
        0 => {
            let mut bytes = bytes_of(&numbers);
            bytes.truncate(v.index(bytes.len()));
            return bytes;
        }
        1 => numbers.extend((0..1 + v.below(3)).map(|_| v.number())),
        2 => {
            let count = v.of(&[Field::ShapeCount, Field::PathCount]);
            let at = fields.iter().position(|f| *f == count).unwrap_or(0);
            numbers[at] = v.of(&[4097, 4098, 65_536, 1 << 32, u64::MAX]);
        }
        way => {
            let there = match way {
                3 => longer(v, numbers[i]),
                _ => larger(v, numbers[i], bits_of(fields[i])),
            };
            let (before, behind) = (bytes_of(&numbers[..i]), bytes_of(&numbers[i + 1..]));
            return [before, there, behind].concat();
        }
    }
    bytes_of(&numbers)
}

// ---- damaged records

/// What must come of a number that was changed: a fault of its field, or a question that is answered "no".
#[derive(Clone, Copy, Debug, PartialEq)]
pub enum Effect {
    Bad(Cause),
    Asks(u64),
}

pub struct Change {
    pub there: Vec<u8>,
    pub effect: Effect,
}

fn is_of_point(field: Field) -> bool {
    use Field::*;
    matches!(
        field,
        X | Y | Curve | XDepth | YDepth | PathX | PathY | Bend | PathXDepth | PathYDepth
    )
}

fn out_of(v: &mut Values, lo: f64, hi: f64) -> u64 {
    v.of(&[lo.next_down(), hi.next_up(), -1e300, 1e300])
        .to_bits()
}

fn out_of_f32(v: &mut Values, lo: f32, hi: f32) -> u64 {
    let any = lo - 1.0 - v.unit_f32();
    let out = [lo.next_down(), hi.next_up(), f32::MAX, f32::MIN, any, 2.0];
    bits(v.of(&out)).into()
}

// An x below the one before it: the float just below, 0, or any between.
fn below_x(v: &mut Values, before: f32) -> u64 {
    let any = before * 0.75;
    let below = if any < before { any } else { 0.0 };
    bits(v.of(&[before.next_down(), 0.0, -0.0, below])).into()
}

/// Number i of an accepted record and what stands before it.
struct At<'a> {
    numbers: &'a [Placed],
    i: usize,
}

impl At<'_> {
    fn last(&self, field: Field) -> Option<u64> {
        let before = self.numbers[..self.i].iter();
        before.rev().find(|n| n.field == field).map(|n| n.value)
    }

    // What a field refuses by what it holds: an unknown code, a float that is not finite.
    fn by_kind(&self, v: &mut Values) -> Option<(u64, Effect)> {
        let field = self.numbers[self.i].field;
        Some(match (holds(field), is_of_point(field)) {
            (Holds::Choice(count), _) => (unknown(v, count), Bad(Cause::NoChoice)),
            (Holds::F32, true) => (not_finite(v).into(), Bad(Cause::NotFinite)),
            (Holds::F32, false) => (not_finite(v).into(), Asks(2)),
            (Holds::F64, _) => (not_finite_f64(v), Asks(2)),
            _ => return None,
        })
    }

    // What this field alone refuses.
    fn by_field(&self, v: &mut Values) -> Vec<(u64, Effect)> {
        match self.numbers[self.i].field {
            Field::ShapeCount | Field::PathCount => {
                let any = v.number().max(65);
                let count = v.of(&[65, 66, 127, 128, 4096, 1 << 32, u64::MAX, any]);
                vec![(count, Bad(Cause::Count))]
            }
            Field::X | Field::Y => vec![(out_of_f32(v, 0.0, 1.0), Bad(Cause::Clamped))],
            Field::Bend => vec![(out_of_f32(v, -1.0, 1.0), Bad(Cause::Clamped))],
            Field::Curve => vec![
                (out_of_f32(v, -1.0, 1.0), Bad(Cause::Clamped)),
                (bits(v.off_grid()).into(), Asks(10)),
            ],
            Field::PathX | Field::PathY => vec![(bits(v.off_paper()).into(), Asks(11))],
            Field::LoopbackIndex => {
                let kept = self.last(Field::ShapeCount).unwrap_or(0);
                let any = v.number().max(kept);
                vec![(v.of(&[kept, kept + 1, 64, u64::MAX, any]), Asks(4))]
            }
            Field::Coefficient => vec![(out_of_f32(v, 0.0, 1.0), Asks(5))],
            Field::Tempo => vec![(out_of(v, 0.0, 1_000.0), Asks(6))],
            Field::BeatsPerBar => vec![(out_of(v, 0.25, 64.0), Asks(6))],
            _ => vec![],
        }
    }

    // An x that the player would move.
    fn moved(&self, v: &mut Values) -> Option<(u64, Effect)> {
        let before = f32::from_bits(self.last(Field::X)? as u32);
        let moves = self.numbers[self.i].field == Field::X && before > 0.0;
        moves.then(|| (below_x(v, before), Bad(Cause::Moved)))
    }

    // The values that the field refuses by itself, each with what comes of it.
    fn values(&self, v: &mut Values) -> Vec<(u64, Effect)> {
        let mut list = self.by_field(v);
        list.extend(self.by_kind(v));
        list.extend(self.moved(v));
        list
    }
}

/// Every way of making number i of an accepted record a wrong one.
pub fn changes(v: &mut Values, numbers: &[Placed], i: usize) -> Vec<Change> {
    let Placed { field, value, .. } = numbers[i];
    let values = At { numbers, i }.values(v);
    let mut list: Vec<Change> = values
        .into_iter()
        .map(|(n, effect)| Change {
            there: bytes_of(&[n]),
            effect,
        })
        .collect();
    list.push(Change {
        there: longer(v, value),
        effect: Bad(Cause::Long),
    });
    list.push(Change {
        there: larger(v, value, bits_of(field)),
        effect: Bad(Cause::Large),
    });
    list
}

/// The record with some of its numbers replaced, given by place in rising order.
pub fn replaced(record: &[u8], numbers: &[Placed], changes: &[(usize, &Change)]) -> Vec<u8> {
    let (mut bytes, mut from) = (vec![], 0);
    for (i, change) in changes {
        bytes.extend(&record[from..numbers[*i].at]);
        bytes.extend(&change.there);
        from = numbers[*i].end;
    }
    bytes.extend(&record[from..]);
    bytes
}
