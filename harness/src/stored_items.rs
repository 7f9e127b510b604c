//! The records and items that the program `replay` reads and writes with no Rust at hand. Each is made here for what it shows; the answers are those of
//! items.rs.
use crate::item_examples;
use crate::item_values::{longest, shortest};
use crate::items::{self, Field, Given, Item, bytes, handed, kept, numbers_of};
use crate::player::bits;
use crate::questions::{ITEM, item_failed};
use crate::run::{Present, Rate, Scale, Span, bytes_of};
use crate::runs::hex;
use crate::stored::Stored;
use crate::written::{bent, moved, path, point};

/// A buffer that is long enough for any record.
const ROOM: usize = 4200;

/// The kinds of a stored record and of a stored item, as crates/replay knows them.
const TO_READ: u8 = 1;
const TO_WRITE: u8 = 2;

/// Each with what comes out: the number, one byte, and the bytes given.
type List = Vec<(Stored, Vec<u8>)>;

fn add(list: &mut List, stored: Stored, given: Given, number: u64) {
    let given = items::within(stored.room, given);
    let own = given.as_ref().err().copied().unwrap_or(0);
    assert_eq!(own, number, "{}", hex(&stored.bytes));
    let mut out = vec![number as u8];
    out.extend(given.unwrap_or_default());
    list.push((stored, out));
}

fn read_in(list: &mut List, room: usize, record: &[u8], number: u64) {
    let given = items::read_given(&items::read(record));
    add(list, Stored::new(TO_READ, record, room), given, number);
}

fn write_in(list: &mut List, room: usize, item: &[u8], number: u64) {
    let given = items::written(item);
    add(list, Stored::new(TO_WRITE, item, room), given, number);
}

fn read(list: &mut List, record: &[u8], number: u64) {
    read_in(list, ROOM, record, number);
}

fn write(list: &mut List, item: &Item, number: u64) {
    write_in(list, ROOM, &handed(item), number);
}

/// An item with everything in it: the drawn example with the path of the second.
pub fn full() -> Item {
    let [(_, drawn), (_, travelled), _] = item_examples::all();
    Item {
        path: travelled.path,
        ..drawn
    }
}

/// The record of `full` with some bytes in the place of a number, the nth of its field.
fn with(field: Field, nth: usize, there: &[u8]) -> Vec<u8> {
    let record = bytes(&full());
    let numbers = numbers_of(&record);
    let mut of_field = numbers.iter().filter(|n| n.field == field);
    let number = of_field.nth(nth).expect("a number of the field");
    [&record[..number.at], there, &record[number.end..]].concat()
}

fn number_at(field: Field, n: u64) -> Vec<u8> {
    with(field, 0, &bytes_of(&[n]))
}

fn float_at(field: Field, nth: usize, x: f32) -> Vec<u8> {
    with(field, nth, &bytes_of(&[bits(x).into()]))
}

// ---- accepted

// Read and written back, in a buffer that is just long enough.
fn both_ways(list: &mut List, item: &Item) {
    let record = bytes(item);
    read_in(list, record.len(), &record, 0);
    write_in(list, record.len(), &handed(item), 0);
}

fn accepted(list: &mut List) {
    for (_, item) in item_examples::all() {
        both_ways(list, &item);
    }
    both_ways(list, &full());
    both_ways(list, &shortest().0);
    both_ways(list, &longest().0);
    // at their limits: equal x, −0 after 0, the end of a bend, a bus that moves nothing, the last point
    for (field, nth, x) in [
        (Field::X, 2, 0.25),
        (Field::X, 1, -0.0),
        (Field::Y, 0, -0.0),
        (Field::Bend, 0, 1.0),
    ] {
        read(list, &float_at(field, nth, x), 0);
    }
    for (field, n) in [
        (Field::XBus, 255),
        (Field::GridX, 65_535),
        (Field::LoopbackIndex, 3),
        (Field::Seed, u64::MAX),
    ] {
        read(list, &number_at(field, n), 0);
    }
}

// So many points a curve, the shape's from right to left, so that the writer puts the first 64 in order.
fn many(count: usize) -> Item {
    let mut item = full();
    let shape = (0..count).rev();
    item.shape.points = shape.map(|i| point(i as f32 / 128.0, 0.5, 0.25)).collect();
    item.shape.loopback = Present::Yes(count.min(64) as u64 - 1);
    let places: Vec<_> = (0..count).map(|i| (i as f32 / 128.0, 1.0, -0.5)).collect();
    item.path = path(&places, true);
    for point in &mut item.path.points {
        point.mods = [Present::No; 2];
    }
    item
}

// Points as the player keeps them: in order, clamped, at most 64, and what is past the 64th is no point's.
fn points(list: &mut List) {
    let mut item = full();
    item.shape = bent();
    write(list, &item, 0);
    item.shape.points = vec![
        point(2.0, -3.0, 1.5),
        point(-1.0, 7.0, -9.0),
        point(1.0f32.next_up(), -1e-45, 1.0f32.next_up()),
        point(-0.0, f32::MAX, f32::MIN),
    ];
    item.path.points[0].bend = bits(7.0);
    item.path.points[1].bend = bits(-1.5);
    write(list, &item, 0);
    read(list, &bytes(&item), 13);
    for count in [64, 65, 70] {
        write(list, &many(count), 0);
    }
    read(list, &bytes(&kept(&many(70))), 0);
    let mut over = kept(&many(64));
    over.shape.points.push(over.shape.points[63]);
    read(list, &bytes(&over), 13);
    let mut over = kept(&many(64));
    over.path.points.push(over.path.points[63]);
    read(list, &bytes(&over), 13);
    for (i, number) in [(63, 1), (64, 0)] {
        let mut item = many(65);
        item.shape.points[i].step = 2;
        write(list, &item, number);
        let mut item = many(65);
        item.path.points[i].mods[1] = Present::Unknown(2);
        write(list, &item, number);
    }
}

// ---- faults of records

// 12: at an end of a number and within one, with a number that never ends, and of no byte.
fn cut(list: &mut List) {
    let record = bytes(&full());
    for end in [0, 1, 12, 20, record.len() / 2, record.len() - 1] {
        read(list, &record[..end], 12);
    }
    for many in [1, 9, 12] {
        read(list, &[&record[..3], &vec![0x80; many]].concat(), 12);
    }
}

// 13: not in shortest form, and too large for its field.
fn long_and_large(list: &mut List) {
    // so many groups, all but the last alike
    let groups = |many: usize, each: u8, last: u8| {
        let mut bytes = vec![each; many - 1];
        bytes.push(last);
        bytes
    };
    for (field, there) in [
        (Field::Kind, groups(2, 0x80, 0)),
        (Field::ShapeCount, groups(2, 0x84, 0)),
        (Field::Phase, groups(6, 0x80, 0)),
        (Field::Seed, groups(12, 0x80, 0)),
        (Field::Seed, groups(10, 0xff, 2)),
        (Field::Tempo, groups(11, 0x80, 1)),
    ] {
        read(list, &with(field, 0, &there), 13);
    }
    for (field, over) in [
        (Field::GridX, 65_536),
        (Field::XBus, 256),
        (Field::Phase, 1 << 32),
        (Field::Curve, 1 << 32),
        (Field::Bus, u64::MAX),
    ] {
        read(list, &number_at(field, over), 13);
    }
}

// 13: no choice, and more than 64 points.
fn codes_and_counts(list: &mut List) {
    for (field, n) in [
        (Field::Kind, 5),
        (Field::Mode, 3),
        (Field::Rate, 2),
        (Field::RateDivision, 15),
        (Field::Feel, 3),
        (Field::SongLock, 2),
        (Field::FadeIn, 3),
        (Field::Smooth, 2),
        (Field::Step, 2),
        (Field::XMod, 2),
        (Field::Loopback, 3),
        (Field::Closed, 2),
        (Field::PathYMod, u64::MAX),
        (Field::Scale, 2),
        (Field::ShapeCount, 65),
        (Field::PathCount, 65),
        (Field::PathCount, u64::MAX),
    ] {
        read(list, &number_at(field, n), 13);
    }
}

// 13: of a point, not finite, clamped, or moved.
fn of_points(list: &mut List) {
    for (field, nth, x) in [
        (Field::X, 0, f32::NAN),
        (Field::Curve, 3, f32::NEG_INFINITY),
        (Field::XDepth, 0, f32::INFINITY),
        (Field::PathX, 0, f32::INFINITY),
        (Field::PathY, 2, f32::NAN),
        (Field::Bend, 1, f32::NAN),
        (Field::PathYDepth, 0, f32::NAN),
        (Field::X, 3, 1.0f32.next_up()),
        (Field::X, 0, -1e-45),
        (Field::Y, 2, -1e-45),
        (Field::Curve, 0, 1.5),
        (Field::Bend, 2, -(1.0f32.next_up())),
        (Field::X, 2, 0.25f32.next_down()),
        (Field::X, 3, 0.0),
    ] {
        read(list, &float_at(field, nth, x), 13);
    }
}

// 14, and which of two faults comes first: the one in front, judged at its last byte; a fault before a question.
fn left_over(list: &mut List) {
    let record = bytes(&full());
    for more in [&[0][..], &[0x80], &record] {
        read(list, &[&record, more].concat(), 14);
    }
    read(list, &[5], 13);
    read(list, &[0x85], 12);
    read(list, &[0x80, 0], 13);
    let asks = number_at(Field::LoopbackIndex, 4);
    read(list, &asks[..asks.len() - 1], 12);
    read(list, &[&asks[..], &[0]].concat(), 14);
}

// ---- questions

type Change = fn(&mut Item);

/// Of each question changes that make `full` fail it alone. Those of the first list a record can hold too, with the same number.
fn failing(number: u64) -> (&'static [Change], &'static [Change]) {
    match number {
        1 => (&[], &UNKNOWN),
        2 => (&NOT_FINITE, &NOT_FINITE_OF_POINTS),
        4 => (&[|i| i.shape.loopback = Present::Yes(4)], &[]),
        11 => (
            &[
                |i| i.path.points[2].x = bits(0.3),
                |i| i.path.points[0].y = bits(2.0),
            ],
            &[],
        ),
        10 => (&[|i| i.shape.points[0].curve = bits(0.3)], &[]),
        5 => (
            &[
                |i| i.settings.smooth = Present::Yes(bits(1.0f32.next_up())),
                |i| i.settings.smooth = Present::Yes(bits(-1e-45)),
            ],
            &[],
        ),
        _ => (
            &[
                |i| i.tempo = 1000f64.next_up().to_bits(),
                |i| i.beats_per_bar = 0.25f64.next_down().to_bits(),
            ],
            &[],
        ),
    }
}

const UNKNOWN: [Change; 7] = [
    |i| i.settings.kind = 5,
    |i| i.settings.rate = Rate::Unknown(2),
    |i| i.settings.fade_in = Span::Synced(15),
    |i| i.shape.points[3].step = 2,
    |i| i.shape.loopback = Present::Unknown(2),
    |i| i.path.closed = 2,
    |i| i.scale = Scale::Unknown(2),
];

const NOT_FINITE: [Change; 5] = [
    |i| i.settings.phase = bits(f32::NAN),
    |i| i.settings.delay = Span::Seconds(bits(f32::INFINITY)),
    |i| i.buses[15] = bits(f32::NEG_INFINITY),
    |i| i.tempo = f64::NAN.to_bits(),
    |i| i.scale = Scale::Rate(bits(f32::INFINITY)),
];

const NOT_FINITE_OF_POINTS: [Change; 3] = [
    |i| i.shape.points[3].y = bits(f32::NAN),
    |i| i.shape.points[1].mods[0] = moved(0, f32::INFINITY),
    |i| i.path.points[2].bend = bits(f32::NAN),
];

// Each question alone.
fn questions(list: &mut List) {
    for number in ITEM {
        let (held, others) = failing(number);
        for change in held.iter().chain(others) {
            let mut item = full();
            change(&mut item);
            write(list, &item, number);
        }
        for change in held {
            let mut item = full();
            change(&mut item);
            read(list, &bytes(&item), number);
        }
    }
}

/// `full`, failing each of these questions.
pub fn failing_all(numbers: &[u64]) -> Item {
    let mut item = full();
    for number in numbers {
        let (held, others) = failing(*number);
        let change = held.first().or(others.first()).expect("a change");
        change(&mut item);
    }
    assert_eq!(item_failed(&item), numbers);
    item
}

// Each question with the next one, and all at once, wherever they stand in the record.
fn orders(list: &mut List) {
    for numbers in ITEM.windows(2).chain([&ITEM[..], &ITEM[1..]]) {
        let item = failing_all(numbers);
        write(list, &item, numbers[0]);
        if numbers[0] != 1 {
            read(list, &bytes(&item), numbers[0]);
        }
    }
}

// ---- bytes that hand no item in, and short buffers

fn malformed(list: &mut List) {
    let item = handed(&full());
    write_in(list, ROOM, &[], 255);
    write_in(list, ROOM, &item[..item.len() - 1], 255);
    write_in(list, ROOM, &[&item[..], &[0]].concat(), 255);
    write_in(list, ROOM, &with(Field::Kind, 0, &[0x80, 0]), 255);
    for (field, n) in [
        (Field::GridX, 65_536),
        (Field::Phase, 1 << 32),
        (Field::ShapeCount, 4097),
    ] {
        write_in(list, ROOM, &number_at(field, n), 255);
    }
    // before the questions and before 21
    let mut asks = number_at(Field::Kind, 5);
    asks.push(0);
    write_in(list, ROOM, &asks, 255);
    write_in(list, 0, &asks, 255);
}

// 21 by one byte too few and by none at all, of a record and of an item that is longer than its record; every other number comes before it.
fn short(list: &mut List) {
    let record = bytes(&full());
    let long = record.len();
    for (room, number) in [(long + 1, 0), (long - 1, 21), (0, 21)] {
        read_in(list, room, &record, number);
        write_in(list, room, &handed(&full()), number);
    }
    let long = bytes(&kept(&many(70))).len();
    for (room, number) in [(long, 0), (long - 1, 21)] {
        write_in(list, room, &handed(&many(70)), number);
    }
    read_in(list, 0, &record[..9], 12);
    read_in(list, 0, &number_at(Field::Kind, 5), 13);
    read_in(list, 0, &[&record[..], &[0]].concat(), 14);
    for number in [1, 6] {
        write_in(list, 0, &handed(&failing_all(&[number])), number);
    }
    for number in [2, 6] {
        read_in(list, 0, &bytes(&failing_all(&[number])), number);
    }
}

/// All stored records and items, with what comes out.
pub fn all() -> List {
    let mut list = vec![];
    accepted(&mut list);
    points(&mut list);
    cut(&mut list);
    long_and_large(&mut list);
    codes_and_counts(&mut list);
    of_points(&mut list);
    left_over(&mut list);
    questions(&mut list);
    orders(&mut list);
    malformed(&mut list);
    short(&mut list);
    list
}
