//! Adverse sittings, the same for the same seed: items of every kind and mode, events at and about every limit, and endings of every number. Of all but those with changed bytes
//! it is known how they end.
use crate::item_values::{Change, Effect, accepted, changes, refuse, replaced};
use crate::items::{self, Item, Placed, kept, numbers_of};
use crate::player::bits;
use crate::run::{Mod, Present, Rate, Scale, Span};
use crate::sitting_faults::{endless, failing};
use crate::sittings::{Ending, Event};
use crate::values::Values;

/// A sitting's bytes and how it must end, where that is known.
pub struct Made {
    pub bytes: Vec<u8>,
    pub ending: Option<Ending>,
}

// ---- items

// Fast enough for some cycles in some tens of frames, and with spans as short.
fn quicken(v: &mut Values, item: &mut Item) {
    let s = &mut item.settings;
    s.rate = match v.yes() {
        true => Rate::Synced {
            division: 8 + v.below(7),
            feel: v.below(3),
        },
        false => Rate::Hz {
            hz: bits(100.0 + v.unit_f32() * 900.0),
            x10: 1,
        },
    };
    for span in [&mut s.fade_in, &mut s.delay] {
        if let Span::Seconds(seconds) = span {
            *seconds = bits(v.unit_f32() * 0.002);
        }
    }
    item.tempo = v.of(&[1000.0, 500.0, 120.0f64]).to_bits();
    item.scale = Scale::Rate(bits(v.of(&[1000.0, 700.0, 100.0])));
}

// The first two points so close that there is a NaN at 0.
fn close(item: &mut Item) {
    item.settings.kind = 0;
    let near = 1e-40f32;
    for (i, p) in item.shape.points.iter_mut().enumerate() {
        let x = f32::from_bits(p.x).max(near);
        p.x = bits(if i == 0 { 0.0 } else { x });
    }
    if let Some(p) = item.shape.points.get_mut(1) {
        p.x = bits(near);
    }
}

// An accepted item as it is kept, in most cases a fast one.
fn item(v: &mut Values) -> Item {
    let mut item = kept(&accepted(v.word()));
    if !v.one_in(4) {
        quicken(v, &mut item);
    }
    if v.one_in(32) {
        close(&mut item);
    }
    item
}

// The buses that move points of the item.
fn buses(item: &Item) -> Vec<u64> {
    let shape = item.shape.points.iter().flat_map(|p| p.mods);
    let path = item.path.points.iter().flat_map(|p| p.mods);
    let bus = |m: Present<Mod>| match m {
        Present::Yes(m) => Some(u64::from(m.bus)),
        _ => None,
    };
    let named = shape.chain(path).filter_map(bus);
    named.filter(|bus| *bus < 16).collect()
}

// ---- events

struct Making {
    v: Values,
    buses: Vec<u64>,
    bytes: Vec<u8>,
    events: u64,
}

impl Making {
    fn put(&mut self, event: Event) {
        self.bytes.extend(event.bytes());
        self.events += 1;
    }

    fn frames(&mut self) -> u64 {
        match self.v.below(128) {
            0..10 => 0,
            10..18 => 1,
            18..84 => 1 + self.v.below(24),
            84..124 => self.v.below(120),
            124 | 125 => 512,
            126 => self.v.below(1024),
            _ => self.v.of(&[512, 512, 4095, 4096]),
        }
    }

    fn restart(&mut self, frames: u64) {
        let frame = match self.v.below(8) {
            0 | 1 => 0,
            2 => frames,
            3 => frames + 1 + self.v.below(3),
            4 => self.v.number(),
            _ => self.v.below(frames + 1),
        };
        self.put(Event::Restart(frame));
    }

    fn bus(&mut self) {
        let any = self.v.below(16);
        let bus = match self.buses.len() {
            0 => any,
            many => {
                let named = self.buses[self.v.index(many)];
                self.v.of(&[named, named, named, any])
            }
        };
        let value = match self.v.below(8) {
            0 => self.v.of(&[0.0, -0.0, -0.0]),
            1 => self.v.of(&[f32::MAX, f32::MIN, 1e-45, -1e-45, 1.0, -1.0]),
            2 => self.v.finite_f32(),
            _ => self.v.unit_f32() * 2.0 - 1.0,
        };
        let value = bits(value);
        self.put(Event::Bus { bus, value });
    }

    // A block, and what comes before it: restarts, of which the last counts, and buses in any order with them.
    fn turn(&mut self, frames: u64) {
        for _ in 0..self.v.of(&[0, 0, 0, 1, 1, 2, 3]) {
            match self.v.below(3) {
                0 => self.bus(),
                _ => self.restart(frames),
            }
        }
        if self.v.one_in(3) {
            self.bus();
        }
        self.put(Event::Block(frames));
    }

    fn turns(&mut self) {
        match self.v.below(64) {
            0 => {
                for _ in 0..40 + self.v.below(80) {
                    let frames = self.v.below(3);
                    self.turn(frames);
                }
            }
            1 | 2 => {}
            _ => {
                for _ in 0..1 + self.v.below(7) {
                    let frames = self.frames();
                    self.turn(frames);
                }
            }
        }
    }

    // The end or an event that fails; behind one that fails at its last byte anything may follow.
    fn end(&mut self) -> Ending {
        if self.v.one_in(4) {
            self.restart(10);
        }
        if self.v.one_in(3) {
            self.put(Event::End);
            return Ending::Ended;
        }
        let failing = failing(&mut self.v);
        self.bytes.extend(failing.bytes);
        if failing.ends && self.v.yes() {
            let any = self.v.word().to_le_bytes();
            let events = [Event::Block(3).bytes(), Event::End.bytes()].concat();
            let many = 1 + self.v.index(8);
            let behind = self.v.of(&[&any[..many], &events[..], &[0x80], &[0]]);
            self.bytes.extend(behind);
        }
        Ending::Failed(self.events, failing.number)
    }
}

// ---- sittings

fn making(v: &mut Values) -> Making {
    let item = item(v);
    Making {
        v: Values::new(v.word()),
        buses: buses(&item),
        bytes: items::bytes(&item),
        events: 0,
    }
}

fn whole(v: &mut Values) -> Made {
    let mut making = making(v);
    making.turns();
    let ending = Some(making.end());
    let bytes = making.bytes;
    Made { bytes, ending }
}

fn events(v: &mut Values) -> Vec<u8> {
    let frames = v.below(9);
    [Event::Block(frames).bytes(), Event::End.bytes()].concat()
}

// The changes of a record's numbers that one question refuses.
fn asking(v: &mut Values, numbers: &[Placed], question: u64) -> Vec<(usize, Change)> {
    let mut list = vec![];
    for i in 0..numbers.len() {
        let all = changes(v, numbers, i).into_iter();
        let asks = all.filter(|c| c.effect == Effect::Asks(question));
        list.extend(asks.map(|c| (i, c)));
    }
    list
}

// A number of the item made a wrong one, for a question or for any cause: what comes of it is known.
fn wrong_number(v: &mut Values, record: &[u8], numbers: &[Placed]) -> (Vec<u8>, u64) {
    let question = v.of(&[2, 4, 11, 10, 5, 6]);
    let mut list = asking(v, numbers, question);
    if list.is_empty() || v.one_in(3) {
        let i = v.index(numbers.len());
        list = changes(v, numbers, i).into_iter().map(|c| (i, c)).collect();
    }
    let (i, change) = &list[v.index(list.len())];
    let number = match change.effect {
        Effect::Bad(cause) => cause.number(),
        Effect::Asks(number) => number,
    };
    (replaced(record, numbers, &[(*i, change)]), number)
}

// An item cut short, with no byte too; with a number that does not end or ends too late; with a wrong number.
fn refused(v: &mut Values) -> Made {
    let record = items::bytes(&item(v));
    let numbers = numbers_of(&record);
    let at = numbers[v.index(numbers.len())].at;
    let (mut bytes, number) = match v.below(8) {
        0 => (record[..v.of(&[0, 1, at, record.len() - 1])].to_vec(), 12),
        1 => (record[..v.index(record.len())].to_vec(), 12),
        2 => {
            let (long, number) = endless(v);
            ([&record[..at], &long].concat(), number)
        }
        _ => wrong_number(v, &record, &numbers),
    };
    if number != 12 {
        bytes.extend(events(v));
    }
    Made {
        bytes,
        ending: Some(Ending::Refused(number)),
    }
}

// An item with one to three faults, of which questions refuse all but those that no record holds.
fn questioned(v: &mut Values) -> Made {
    let mut item = kept(&accepted(v.word()));
    refuse(v, &mut item);
    item.shape.points.truncate(64);
    item.path.points.truncate(64);
    let bytes = [items::bytes(&item), events(v)].concat();
    let ending = None;
    Made { bytes, ending }
}

// A byte changed, taken away or put in, or the sitting cut, once or more.
fn damaged(v: &mut Values) -> Made {
    let mut bytes = whole(v).bytes;
    for _ in 0..v.of(&[1, 1, 2, 3]) {
        let (i, any) = (v.index(bytes.len()), v.word() as u8);
        match v.below(8) {
            0 => {
                bytes.remove(i);
            }
            1 => bytes.insert(i, any),
            2 => bytes.truncate(i + 1),
            _ => bytes[i] = v.of(&[0, 1, 2, 3, 0x7f, 0x80, 0xff, any, bytes[i] ^ 0x80]),
        }
        if bytes.is_empty() {
            break;
        }
    }
    Made {
        bytes,
        ending: None,
    }
}

/// The sitting of a seed.
pub fn made(seed: u64) -> Made {
    let v = &mut Values::new(seed);
    match v.below(16) {
        0 | 1 => refused(v),
        2 => questioned(v),
        3..6 => damaged(v),
        _ => whole(v),
    }
}

// ---- long ones

/// A number of very many bytes in an item and in each place of an event: one that never ends is cut short, one that ends is not in shortest form or too large.
pub fn very_long(many: usize) -> Vec<(String, Made)> {
    let record = items::bytes(&kept(&accepted(1)));
    let block = Event::Block(5).bytes();
    let front = [&record[..], &block].concat();
    let mut list = vec![];
    for (name, front, place) in [
        ("an item's number", &record[..9], None),
        ("an event's own number", &front, Some(&[][..])),
        ("a block's frames", &front, Some(&[0])),
        ("a bus's value", &front, Some(&[2, 7])),
    ] {
        for (last, number) in [(None, 12), (Some(1), 13), (Some(0), 13)] {
            let mut bytes = [front, place.unwrap_or(&[])].concat();
            bytes.extend(vec![0x80 | last.unwrap_or(0x7f); many]);
            bytes.extend(last);
            let ending = match place {
                None => Ending::Refused(number),
                Some(_) => Ending::Failed(1, number),
            };
            let ending = Some(ending);
            list.push((format!("{name} of {many} bytes"), Made { bytes, ending }));
        }
    }
    list
}

/// So many events, most of them blocks of up to 4 frames.
pub fn many_events(many: u64) -> Made {
    let v = &mut Values::new(many);
    let mut making = making(v);
    while making.events < many - 4 {
        let frames = making.v.below(5);
        making.turn(frames);
    }
    while making.events < many {
        making.put(Event::Restart(1));
    }
    making.bytes.push(4);
    Made {
        bytes: making.bytes,
        ending: Some(Ending::Failed(many, 17)),
    }
}

/// So many blocks of 4,096 frames.
pub fn many_frames(many: u64) -> Made {
    let v = &mut Values::new(many);
    let mut making = making(v);
    for _ in 0..many {
        making.turn(4096);
    }
    making.put(Event::End);
    Made {
        bytes: making.bytes,
        ending: Some(Ending::Ended),
    }
}
