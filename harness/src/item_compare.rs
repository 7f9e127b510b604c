//! Reading and writing of items by the C functions against items.rs, every byte of `out`; and items.rs against what a record was made for.
use crate::ffi::{lfo_item_read, lfo_item_write};
use crate::item_examples;
use crate::item_figures::{Figures, failing};
use crate::item_values::{
    Change, Effect, accepted, changes, long_enough, longest, malformed, refuse, replaced, room,
    shortest, too_short,
};
use crate::items::{
    self, Cause, Fault, Given, Item, MALFORMED, NO_ROOM, Placed, Read, SHORTEST, answered, bytes,
    handed, kept, numbers_of,
};
use crate::progress::Progress;
use crate::questions::{self, ITEM};
use crate::runs::hex;
use crate::values::Values;
use std::collections::BTreeMap;

/// One of the two C functions.
type Function = fn(&[u8], &mut [u8]) -> u64;

/// What an element of `out` holds before a call.
const BEFORE: u8 = 0xa5;
/// The most bytes that are shown of a record, of an item and of `out`.
const SHOWN: usize = 2000;
/// The items of a round.
const ITEMS: u64 = 20;
/// As many records have every byte changed: one for so many records that are wanted.
const WHOLE: u64 = 100;
const WHOLE_IN: u64 = 100_000;
/// From so many records on every kind must occur.
const ALL_KINDS: u64 = 1_000_000;

struct Comparison {
    /// Of the round, with the values that it is made of.
    seed: u64,
    v: Values,
    figures: Figures,
    progress: Progress,
    out: Vec<u8>,
    /// Records read, and items written.
    records: u64,
    items: u64,
    differed: u64,
}

// ---- one call

/// The length of `out` that a function needs. Of a refused item it is any that a record may have.
fn needed(given: &Given) -> usize {
    given.as_ref().map_or(100, Vec::len)
}

impl Comparison {
    fn differs(&mut self, what: &str, input: &[u8], other: &str) {
        self.differed += 1;
        if self.differed <= 20 {
            let shown = hex(&input[..input.len().min(SHOWN)]);
            let (seed, long) = (self.seed, input.len());
            println!("items: {what} differs (seed {seed}), {long} bytes: {shown}");
            println!("    {other}");
        }
    }

    /// Calls a function with an `out` of `room` bytes; `given` is what must come of a long one. Answers the number that must come.
    fn call(&mut self, f: Function, what: &str, input: &[u8], room: usize, given: Given) -> u64 {
        let wanted = items::within(room, given);
        let (answer, bytes) = (answered(&wanted), wanted.unwrap_or_default());
        self.figures.short += u64::from(answer == NO_ROOM);
        self.out.resize(self.out.len().max(room), 0);
        let out = &mut self.out[..room];
        out.fill(BEFORE);
        let got = f(input, out);
        let (front, behind) = out.split_at(bytes.len());
        if got != answer || front != bytes || behind.iter().any(|b| *b != BEFORE) {
            let left = hex(&out[..room.min(SHOWN)]);
            let wanted = hex(&bytes[..bytes.len().min(SHOWN)]);
            let other = format!("answers {got}, out {left}; wanted {answer} and in front {wanted}");
            self.differs(what, input, &other);
        }
        answer % 256
    }

    /// Reads a record on both sides, and writes it again where it is accepted.
    fn read(&mut self, record: &[u8]) -> Read {
        self.records += 1;
        let read = items::read(record);
        let room = match &read {
            Read::Item(_) => long_enough(&mut self.v, record.len()),
            _ => room(&mut self.v, record.len().max(SHORTEST)),
        };
        let given = items::read_given(&read);
        let number = self.call(lfo_item_read, "read", record, room, given);
        self.figures.read.answer(number);
        let short = room < SHORTEST;
        match &read {
            Read::Item(item) => self.accepted(item, record),
            Read::Fault(fault) => {
                self.figures.fault(*fault);
                self.figures.read.failed(number, &[], short);
            }
            Read::Refused(_, item) => self.figures.read.failed(number, &failing(item), short),
        }
        read
    }

    // Writes an accepted record again; now and then reads and writes it with an `out` that is too short.
    fn accepted(&mut self, item: &Item, record: &[u8]) {
        self.figures.again += 1;
        if &kept(item) != item || bytes(item) != record {
            self.differs("own record", record, "not the one record of its item");
        }
        let (input, given) = (handed(item), || Ok(record.to_vec()));
        let room = long_enough(&mut self.v, record.len());
        self.call(lfo_item_write, "write again", &input, room, given());
        if self.v.one_in(16) {
            let room = too_short(&mut self.v, record.len());
            self.call(lfo_item_write, "write again", &input, room, given());
            let room = too_short(&mut self.v, record.len());
            let number = self.call(lfo_item_read, "read", record, room, given());
            self.figures.read.answer(number);
        }
    }

    /// Hands an item to both writers; its record, where there is one.
    fn write(&mut self, item: &Item) -> Option<Vec<u8>> {
        self.items += 1;
        let (input, given) = (handed(item), items::write(item));
        let room = room(&mut self.v, needed(&given));
        let number = self.call(lfo_item_write, "write", &input, room, given.clone());
        self.figures.handed(item);
        self.figures.written.answer(number);
        let failing = failing(item);
        let first = ITEM.into_iter().find(|n| failing.iter().any(|f| f.0 == *n));
        if first.unwrap_or(0) != questions::item(item) {
            self.differs("own questions", &input, &format!("{failing:?}"));
        }
        if number == 0 {
            self.figures.accepted(item);
        } else if number != NO_ROOM {
            let short = room < SHORTEST;
            self.figures.written.failed(number, &failing, short);
        }
        given.ok()
    }

    /// Bytes that are made of an item and may hand one in or not.
    fn hand(&mut self, input: &[u8], item: &Item) {
        self.items += 1;
        let given = items::written(input);
        let room = room(&mut self.v, needed(&given));
        let number = self.call(lfo_item_write, "write", input, room, given);
        self.figures.written.answer(number);
        if number == MALFORMED {
            let short = room < SHORTEST;
            self.figures.written.failed(number, &failing(item), short);
        }
    }
}

// ---- records damaged in a known way

/// What must come of a record: its number and, where it is a fault, the fault.
type Wanted = (u64, Option<Fault>);

fn wanted_fault(field: items::Field, cause: Cause) -> Wanted {
    let fault = Fault { cause, field };
    (fault.number(), Some(fault))
}

/// What must come of a record with these changes, in rising order: the first fault, else the first of the questions.
fn wanted_of(numbers: &[Placed], list: &[(usize, &Change)]) -> Wanted {
    let fault = |(i, change): &(usize, &Change)| match change.effect {
        Effect::Bad(cause) => Some(wanted_fault(numbers[*i].field, cause)),
        Effect::Asks(_) => None,
    };
    let asks = |n: &u64| list.iter().any(|c| c.1.effect == Effect::Asks(*n));
    let first = list.iter().find_map(fault);
    first.unwrap_or_else(|| (ITEM.into_iter().find(asks).unwrap_or(0), None))
}

impl Comparison {
    fn known(&mut self, record: &[u8], wanted: Wanted) {
        self.figures.known += 1;
        let read = self.read(record);
        let fault = match &read {
            Read::Fault(fault) => Some(*fault),
            _ => None,
        };
        if (read.answer(), fault) != wanted {
            let other = format!("{} {fault:?}; wanted {wanted:?}", read.answer());
            self.differs("own reading", record, &other);
        }
    }

    // Cut at every byte, and at the same places with a number that does not end.
    fn cut(&mut self, record: &[u8], numbers: &[Placed]) {
        for number in numbers {
            let wanted = wanted_fault(number.field, Cause::Cut);
            for end in number.at..number.end {
                self.known(&record[..end], wanted);
            }
            if self.v.one_in(4) {
                let mut endless = record[..number.at].to_vec();
                let many = self.v.of(&[1, 2, 9, 10, 11, 30]);
                endless.extend(vec![self.v.of(&[0x80, 0xff]); many]);
                self.known(&endless, wanted);
            }
        }
    }

    fn lengthened(&mut self, record: &[u8]) {
        let any = self.v.word().to_le_bytes();
        let many = 1 + self.v.index(8);
        for more in [&[0][..], &[0x80], &any[..many], &record[..many], record] {
            let wanted = wanted_fault(items::Field::Percent, Cause::Left);
            self.known(&[record, more].concat(), wanted);
        }
    }

    fn each_number(&mut self, record: &[u8], numbers: &[Placed]) {
        for i in 0..numbers.len() {
            for change in changes(&mut self.v, numbers, i) {
                let list = [(i, &change)];
                let wanted = wanted_of(numbers, &list);
                let mut damaged = replaced(record, numbers, &list);
                self.known(&damaged, wanted);
                // judged once its last byte is read: what follows does not count, and without that byte it is cut short
                if wanted.1.is_some() && self.v.one_in(4) {
                    damaged.truncate(numbers[i].at + change.there.len());
                    self.known(&damaged, wanted);
                    damaged.pop();
                    self.known(&damaged, wanted_fault(numbers[i].field, Cause::Cut));
                }
            }
        }
    }

    fn any_change(&mut self, numbers: &[Placed], i: usize) -> Change {
        let mut list = changes(&mut self.v, numbers, i);
        list.swap_remove(self.v.index(list.len()))
    }

    // Two wrong numbers; behind them now and then a cut or bytes left over.
    fn two_faults(&mut self, record: &[u8], numbers: &[Placed]) {
        let (a, b) = (self.v.index(numbers.len()), self.v.index(numbers.len()));
        if a == b {
            return;
        }
        self.figures.two += 1;
        let (i, j) = (a.min(b), a.max(b));
        let (first, second) = (self.any_change(numbers, i), self.any_change(numbers, j));
        let list = [(i, &first), (j, &second)];
        let mut wanted = wanted_of(numbers, &list);
        let mut damaged = replaced(record, numbers, &list);
        match self.v.below(4) {
            0 if wanted.1.is_none() => {
                damaged.push(self.v.word() as u8);
                wanted = wanted_fault(items::Field::Percent, Cause::Left);
            }
            1 if wanted.1.is_none() => {
                damaged.pop();
                wanted = wanted_fault(items::Field::Percent, Cause::Cut);
            }
            _ => {}
        }
        self.known(&damaged, wanted);
    }

    // Two or three numbers wrong for different questions: their order alone counts, and not where they stand.
    fn two_questions(&mut self, record: &[u8], numbers: &[Placed]) {
        let mut asking: BTreeMap<u64, Vec<(usize, Change)>> = BTreeMap::new();
        for i in 0..numbers.len() {
            for change in changes(&mut self.v, numbers, i) {
                if let Effect::Asks(n) = change.effect {
                    asking.entry(n).or_default().push((i, change));
                }
            }
        }
        let asking: Vec<Vec<(usize, Change)>> = asking.into_values().collect();
        for _ in 0..10 {
            let mut list: BTreeMap<usize, &Change> = BTreeMap::new();
            for _ in 0..2 + self.v.below(2) {
                let of = &asking[self.v.index(asking.len())];
                let (i, change) = &of[self.v.index(of.len())];
                list.insert(*i, change);
            }
            let list: Vec<(usize, &Change)> = list.into_iter().collect();
            self.figures.two += 1;
            let damaged = replaced(record, numbers, &list);
            self.known(&damaged, wanted_of(numbers, &list));
        }
    }

    // A number of very many bytes: one that does not end is cut short, one that ends is too large or not in shortest form.
    fn endless(&mut self, record: &[u8], numbers: &[Placed]) {
        for number in numbers.iter().step_by(5) {
            for (last, cause) in [
                (None, Cause::Cut),
                (Some(1), Cause::Large),
                (Some(0), Cause::Long),
            ] {
                let mut bytes = record[..number.at].to_vec();
                bytes.extend([0x80; 70_000]);
                bytes.extend(last);
                self.known(&bytes, wanted_fault(number.field, cause));
            }
        }
    }

    // Every byte of the record changed to every other value.
    fn every_byte(&mut self, record: &[u8]) {
        self.figures.whole += 1;
        let mut changed = record.to_vec();
        for i in 0..record.len() {
            for by in 1..=255 {
                changed[i] = record[i] ^ by;
                self.figures.changed += 1;
                self.read(&changed);
            }
            changed[i] = record[i];
        }
    }
}

// ---- rounds

impl Comparison {
    // An item that is accepted and what comes of its record; one that is refused; bytes that hand no item in.
    fn item(&mut self, seed: u64) {
        let item = accepted(seed);
        if let Some(record) = self.write(&item) {
            match self.read(&record) {
                Read::Item(back) if back == kept(&item) => {}
                _ => self.differs("own round trip", &record, "not read back as kept"),
            }
        }
        // as the numbers of a record, its points may be out of order or out of range
        self.read(&bytes(&item));
        self.spoil(&item);
        let mut wrong = item;
        refuse(&mut self.v, &mut wrong);
        self.write(&wrong);
        self.read(&bytes(&wrong));
        let input = malformed(&mut self.v, &wrong);
        if items::written(&input) != Err(MALFORMED) {
            self.differs("own item", &input, "not malformed");
        }
        self.hand(&input, &wrong);
        self.spoil(&wrong);
    }

    // Lists of many points: of an item the first 64 count, up to 4,096; a record has no more than 64.
    fn many_points(&mut self, seed: u64) {
        let mut item = accepted(seed);
        let (Some(p), Some(q)) = (item.shape.points.last(), item.path.points.last()) else {
            return;
        };
        let (p, q) = (*p, *q);
        let many = self.v.of(&[71, 127, 128, 4095, 4096]);
        item.shape.points.resize(many, p);
        item.path.points.resize(self.v.of(&[many, 65]), q);
        self.write(&item);
        let mut over = item.clone();
        match self.v.yes() {
            true => over.shape.points.resize(4097, p),
            false => over.path.points.resize(4097, q),
        }
        self.hand(&handed(&over), &over);
        self.past_64(kept(&item));
    }

    // One point more than a record may have, in order and in range.
    fn past_64(&mut self, full: Item) {
        self.known(&bytes(&full), (0, None));
        let mut over = full.clone();
        over.shape.points.push(over.shape.points[63]);
        self.known(
            &bytes(&over),
            wanted_fault(items::Field::ShapeCount, Cause::Count),
        );
        let mut over = full;
        over.path.points.push(over.path.points[63]);
        self.known(
            &bytes(&over),
            wanted_fault(items::Field::PathCount, Cause::Count),
        );
    }

    // A byte changed, taken away or put in.
    fn spoil(&mut self, item: &Item) {
        let mut input = handed(item);
        let (i, any) = (self.v.index(input.len()), self.v.word() as u8);
        match self.v.below(4) {
            0 => {
                input.remove(i);
            }
            1 => input.insert(i, any),
            _ => {
                input[i] = self
                    .v
                    .of(&[0, 1, 2, 0x7f, 0x80, 0xff, any, input[i] ^ 0x80])
            }
        }
        self.hand(&input, item);
    }

    fn damage(&mut self, seed: u64, whole: bool) {
        let record = bytes(&kept(&accepted(seed)));
        let numbers = numbers_of(&record);
        self.known(&record, (0, None));
        if record.len() > 400 && !self.v.one_in(8) {
            return;
        }
        self.cut(&record, &numbers);
        self.lengthened(&record);
        self.each_number(&record, &numbers);
        for _ in 0..20 {
            self.two_faults(&record, &numbers);
        }
        self.two_questions(&record, &numbers);
        if whole {
            self.endless(&record, &numbers);
            self.every_byte(&record);
        }
    }

    fn short_record(&mut self, mut seed: u64) -> u64 {
        while bytes(&kept(&accepted(seed))).len() > 220 {
            seed = Values::new(seed).word();
        }
        seed
    }

    // The records of examples/, docs/RECORD.md, the shortest and the longest record.
    fn examples(&mut self) {
        for (_, item) in item_examples::all() {
            if let Some(record) = self.write(&item) {
                self.known(&record, (0, None));
            }
        }
        for (item, size) in [shortest(), longest()] {
            let record = bytes(&item);
            self.known(&record, (0, None));
            if record.len() != size {
                self.differs("own length", &record, &format!("not {size} bytes"));
            }
        }
        for wrong in item_examples::wrong() {
            self.differs("an example", &[], &wrong);
        }
    }

    fn round(&mut self, seed: u64, whole: bool) {
        (self.seed, self.v) = (seed, Values::new(seed));
        for _ in 0..ITEMS {
            let seed = self.v.word();
            self.item(seed);
        }
        let seed = self.v.word();
        self.many_points(seed);
        let seed = self.v.word();
        let seed = if whole { self.short_record(seed) } else { seed };
        self.damage(seed, whole);
    }

    fn show(&self, wanted: u64) -> bool {
        let seconds = self.progress.seconds();
        println!(
            "items      {} records read and {} items written, {} differed, {seconds:.1} s, {:.0} records a second",
            self.records,
            self.items,
            self.differed,
            self.records as f64 / seconds
        );
        print!("{}", self.figures);
        let missing = self.figures.missing();
        if !missing.is_empty() {
            println!("  what did not occur: {}", missing.join(", "));
        }
        self.differed == 0 && (missing.is_empty() || wanted < ALL_KINDS)
    }
}

/// Compares at least so many records; round i has the seed SEED + i, so that `compare items 1 S` makes the round of seed S alone. Answers whether all
/// is equal and, of 1,000,000 records or more, every kind occurred.
pub fn compare(wanted: u64, seed: u64) -> bool {
    let mut c = Comparison {
        seed,
        v: Values::new(seed),
        figures: Figures::default(),
        progress: Progress::new(),
        out: vec![],
        records: 0,
        items: 0,
        differed: 0,
    };
    c.examples();
    let whole = WHOLE.min(wanted / WHOLE_IN);
    for i in 0.. {
        c.round(seed.wrapping_add(i), i < whole);
        if c.records >= wanted {
            break;
        }
        let records = c.records;
        c.progress
            .show(|| format!("items      {records:>11} of {wanted}"));
    }
    c.show(wanted)
}
