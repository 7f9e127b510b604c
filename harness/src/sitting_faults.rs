//! Events that fail, each with its number: cut short, not in shortest form, too large, unknown, missing, refused by a question, or with bytes after the end.
use crate::item_values::{larger, longer};
use crate::player::bits;
use crate::refused::{not_finite, unknown};
use crate::run::bytes_of;
use crate::sittings::{BITS, Event, LEFT, MISSING, UNKNOWN};
use crate::values::Values;

/// The bytes of an event that fails, and its number.
pub struct Failing {
    pub bytes: Vec<u8>,
    pub number: u64,
    /// Whether it fails whatever bytes follow.
    pub ends: bool,
}

fn with(bytes: Vec<u8>, number: u64) -> Failing {
    Failing {
        bytes,
        number,
        ends: true,
    }
}

// One of the three events that have fields.
fn event(v: &mut Values) -> Event {
    let (small, any) = (v.below(40), v.number());
    let value = bits(v.finite_f32());
    v.of(&[
        Event::Block(small),
        Event::Restart(any),
        Event::Bus { bus: any, value },
        Event::Bus {
            bus: small % 16,
            value,
        },
    ])
}

/// A number that does not end, or that ends after more than ten bytes; with the number of its fault.
pub fn endless(v: &mut Values) -> (Vec<u8>, u64) {
    let few = v.of(&[11, 12, 13, 20]);
    let many = 11 + v.index(5000);
    let mut bytes = vec![v.of(&[0x80, 0xff]); v.of(&[few, few, few, many])];
    let (last, number) = v.of(&[(None, 12), (Some(0), 13), (Some(1), 13), (Some(127), 13)]);
    bytes.extend(last);
    (bytes, number)
}

// An event with other bytes in the place of one of its numbers; those behind it stay.
fn replaced(
    v: &mut Values,
    event: Event,
    there: impl FnOnce(&mut Values, u64, u32) -> Vec<u8>,
) -> Vec<u8> {
    let numbers = event.numbers();
    let i = v.index(numbers.len());
    let (before, behind) = (bytes_of(&numbers[..i]), bytes_of(&numbers[i + 1..]));
    let there = there(v, numbers[i], BITS[i]);
    [before, there, behind].concat()
}

// Its own number or a field cut short.
fn cut(v: &mut Values) -> Failing {
    let mut bytes = event(v).bytes();
    if v.one_in(3) {
        bytes = vec![v.of(&[0x80, 0x81, 0x83, 0xff]); v.of(&[1, 1, 2, 9, 10])];
    } else {
        bytes.truncate(1 + v.index(bytes.len() - 1));
    }
    Failing {
        bytes,
        number: 12,
        ends: false,
    }
}

// A number that does not end counts as cut short, so nothing may follow.
fn very_long(v: &mut Values) -> Failing {
    let numbers = event(v).numbers();
    let i = v.index(numbers.len());
    let (long, number) = endless(v);
    Failing {
        bytes: [bytes_of(&numbers[..i]), long].concat(),
        number,
        ends: number != 12,
    }
}

fn too_many_frames(v: &mut Values) -> Failing {
    let any = v.number().max(4097);
    let frames = v.of(&[
        4097,
        4098,
        8192,
        65_536,
        1 << 32,
        (1 << 32) + 5,
        1 << 40,
        (1 << 40) + 1,
        u64::MAX,
        any,
    ]);
    with(Event::Block(frames).bytes(), 7)
}

// A value that is not finite comes first, whatever the bus.
fn refused_bus(v: &mut Values) -> Failing {
    let any = v.number().max(16);
    let above = v.of(&[16, 17, 127, 128, 255, 256, 1 << 32, u64::MAX, any]);
    let (below, bad, good) = (v.below(16), not_finite(v), bits(v.finite_f32()));
    let (bus, value, number) = v.of(&[
        (below, bad, 2),
        (above, bad, 2),
        (above, good, 9),
        (above, good, 9),
    ]);
    with(Event::Bus { bus, value }.bytes(), number)
}

fn left_over(v: &mut Values) -> Failing {
    let next = event(v).bytes();
    let any = [v.word() as u8];
    let more = v.of(&[&[0][..], &[3], &[0x80], &any, &next]);
    with([&Event::End.bytes(), more].concat(), LEFT)
}

/// Any event that fails.
pub fn failing(v: &mut Values) -> Failing {
    match v.below(9) {
        0 => Failing {
            bytes: vec![],
            number: MISSING,
            ends: false,
        },
        1 => cut(v),
        2 => {
            let any = event(v);
            let event = v.of(&[Event::End, any, any]);
            with(replaced(v, event, |v, n, _| longer(v, n)), 13)
        }
        3 => {
            let event = event(v);
            with(replaced(v, event, larger), 13)
        }
        4 => very_long(v),
        5 => with(bytes_of(&[unknown(v, 4)]), UNKNOWN),
        6 => too_many_frames(v),
        7 => refused_bus(v),
        _ => left_over(v),
    }
}
