//! What a comparison of items tried: each answer, each fault by its field, each pair of questions, so that a reader sees that everything was tried.
use crate::items::{CAUSES, Cause, FIELDS, Fault, Field, Holds, Item, each_field, holds};
use crate::lfo::MAX_POINTS;
use crate::questions::{ITEM, on_grid, on_paper};
use crate::run::Present;
use std::collections::BTreeMap;
use std::fmt;

/// The most points of a list that are counted one by one.
const COUNTED: usize = 70;

// ---- the questions a second time, field by field

fn finite(field: Field, n: u64) -> bool {
    match holds(field) {
        Holds::F32 => f32::from_bits(n as u32).is_finite(),
        Holds::F64 => f64::from_bits(n).is_finite(),
        _ => true,
    }
}

fn known(field: Field, n: u64) -> bool {
    !matches!(holds(field), Holds::Choice(count) if n >= count)
}

fn within(n: u64, lo: f64, hi: f64) -> bool {
    (lo..=hi).contains(&f64::from_bits(n))
}

// The questions beyond 1 and 2 that a field fails by itself; `kept` is the number of kept points of the shape.
fn other(field: Field, n: u64, kept: u64) -> Option<u64> {
    let bits = n as u32;
    let (number, right) = match field {
        Field::LoopbackIndex => (4, n < kept),
        Field::PathX | Field::PathY => (11, on_paper(bits)),
        Field::Curve => (10, on_grid(bits)),
        Field::Coefficient => (5, (0.0..=1.0).contains(&f32::from_bits(bits))),
        Field::Tempo => (6, within(n, 0.0, 1_000.0)),
        Field::BeatsPerBar => (6, within(n, 0.25, 64.0)),
        _ => return None,
    };
    (!right).then_some(number)
}

/// The item with no more points than are kept, as they are handed in.
pub fn first_points(item: &Item) -> Item {
    let mut item = item.clone();
    item.shape.points.truncate(MAX_POINTS);
    item.path.points.truncate(MAX_POINTS);
    item
}

/// The questions that the item fails, each with the fields that fail it.
pub fn failing(item: &Item) -> Vec<(u64, Field)> {
    let item = first_points(item);
    let kept = item.shape.points.len() as u64;
    let mut list = vec![];
    each_field(&item, &mut |field, n| {
        if !known(field, n) {
            list.push((1, field));
        }
        if !finite(field, n) {
            list.push((2, field));
        }
        if let Some(number) = other(field, n, kept) {
            list.push((number, field));
        }
    });
    list
}

// ---- what must occur

fn of_point(field: Field) -> bool {
    use Field::*;
    let floats = [X, Y, Curve, XDepth, YDepth, PathX, PathY, Bend];
    floats.contains(&field) || matches!(field, PathXDepth | PathYDepth)
}

fn may_fault(field: Field, cause: Cause) -> bool {
    use Field::*;
    match cause {
        Cause::Cut | Cause::Long | Cause::Large => true,
        Cause::NoChoice => matches!(holds(field), Holds::Choice(_)),
        Cause::Count => matches!(field, ShapeCount | PathCount),
        Cause::NotFinite => of_point(field),
        Cause::Clamped => matches!(field, X | Y | Curve | Bend),
        Cause::Moved => field == X,
        Cause::Left => field == Percent,
    }
}

// In a record codes are known and a point's floats finite once it is read.
fn may_fail(field: Field, number: u64, read: bool) -> bool {
    use Field::*;
    match number {
        1 => !read && matches!(holds(field), Holds::Choice(_)),
        2 => matches!(holds(field), Holds::F32 | Holds::F64) && !(read && of_point(field)),
        4 => field == LoopbackIndex,
        11 => matches!(field, PathX | PathY),
        10 => field == Curve,
        5 => field == Coefficient,
        6 => matches!(field, Tempo | BeatsPerBar),
        _ => false,
    }
}

// ---- the counts

/// Of reading or of writing: answers; those that a later question or 21 would give too, of 255 by the item that the bytes were made of; fields that fail
/// the question answered.
#[derive(Default)]
pub struct Asked {
    answers: BTreeMap<u64, u64>,
    pairs: BTreeMap<(u64, u64), u64>,
    fields: BTreeMap<(u64, usize), u64>,
}

impl Asked {
    pub fn answer(&mut self, number: u64) {
        *self.answers.entry(number).or_default() += 1;
    }

    /// The questions that a refused item fails, by field; `short`, where `out` is too short too, whatever the item.
    pub fn failed(&mut self, answer: u64, failing: &[(u64, Field)], short: bool) {
        for n in ITEM {
            if n != answer && failing.iter().any(|f| f.0 == n) {
                *self.pairs.entry((answer, n)).or_default() += 1;
            }
        }
        if short {
            *self.pairs.entry((answer, 21)).or_default() += 1;
        }
        for (_, field) in failing.iter().filter(|f| f.0 == answer) {
            *self.fields.entry((answer, *field as usize)).or_default() += 1;
        }
    }

    // In the order in which they come: the numbers by the bytes, those of the questions, 21. Bytes that are no record have no item to fail a question.
    fn missing(&self, name: &str, read: bool) -> Vec<String> {
        let by_bytes: &[u64] = if read { &[12, 13, 14] } else { &[255] };
        let order = [by_bytes, &ITEM[usize::from(read)..], &[21]].concat();
        let mut missing = vec![];
        for n in order.iter().chain(&[0]) {
            if !self.answers.contains_key(n) {
                missing.push(format!("{name} {n}"));
            }
        }
        for (i, n) in order.iter().enumerate() {
            for later in &order[i + 1..] {
                let no_item = read && by_bytes.contains(n) && *later != 21;
                if !no_item && !self.pairs.contains_key(&(*n, *later)) {
                    missing.push(format!("{name} {n} with {later}"));
                }
            }
            for field in FIELDS.into_iter().filter(|f| may_fail(*f, *n, read)) {
                if !self.fields.contains_key(&(*n, field as usize)) {
                    missing.push(format!("{name} {n} by {field:?}"));
                }
            }
        }
        missing
    }

    // Each answer with the later ones that the same items would give, and, of those by a question, the rarest field.
    fn show(&self, f: &mut fmt::Formatter) -> fmt::Result {
        for (n, count) in &self.answers {
            write!(f, "    {n}: {count}")?;
            let later = self.pairs.iter().filter(|p| p.0.0 == *n);
            let later: Vec<String> = later.map(|((_, l), c)| format!("{l}: {c}")).collect();
            if !later.is_empty() {
                write!(f, "; with {}", later.join(", "))?;
            }
            let fields = self.fields.iter().filter(|p| p.0.0 == *n);
            let fields: Vec<(u64, usize)> = fields.map(|((_, i), c)| (*c, *i)).collect();
            if let Some((least, i)) = fields.iter().min() {
                let many = fields.len();
                write!(f, "; by {many} fields, least {:?} {least}", FIELDS[*i])?;
            }
            writeln!(f)?;
        }
        Ok(())
    }
}

/// What is seen of items that the writer accepts.
const KEPT: [&str; 9] = [
    "points out of order",
    "x clamped",
    "y clamped",
    "curve clamped",
    "bend clamped",
    "points dropped",
    "−0 in a point",
    "subnormal in a point",
    "wrong dropped point",
];

#[derive(Default)]
pub struct Figures {
    pub read: Asked,
    pub written: Asked,
    /// Faults of records by field and cause.
    causes: BTreeMap<(usize, usize), u64>,
    /// Items handed to the writer by the number of points of their shape and of their path.
    counts: [BTreeMap<usize, u64>; 2],
    kept: [u64; KEPT.len()],
    /// Records in which every byte was changed to every other value, and records of that kind.
    pub whole: u64,
    pub changed: u64,
    /// Records of which it was known beforehand what must come of them, and those with two faults.
    pub known: u64,
    pub two: u64,
    /// Accepted records, each written again.
    pub again: u64,
    /// Calls that answer 21.
    pub short: u64,
}

impl Figures {
    pub fn fault(&mut self, fault: Fault) {
        let place = (fault.field as usize, fault.cause as usize);
        *self.causes.entry(place).or_default() += 1;
    }

    pub fn handed(&mut self, item: &Item) {
        let counts = [item.shape.points.len(), item.path.points.len()];
        for (to, count) in self.counts.iter_mut().zip(counts) {
            *to.entry(count.min(COUNTED + 1)).or_default() += 1;
        }
    }

    /// An accepted item, as handed in.
    pub fn accepted(&mut self, item: &Item) {
        let first = first_points(item);
        let float = |bits: &u32| f32::from_bits(*bits);
        let (shape, path) = (&first.shape.points, &first.path.points);
        let out = |bits: u32, lo: f32| !(lo..=1.0).contains(&f32::from_bits(bits));
        let floats: Vec<f32> = shape
            .iter()
            .flat_map(|p| [p.x, p.y, p.curve])
            .chain(path.iter().flat_map(|p| [p.x, p.y, p.bend]))
            .map(|bits| float(&bits))
            .collect();
        let seen = [
            !shape.is_sorted_by(|a, b| float(&a.x) <= float(&b.x)),
            shape.iter().any(|p| out(p.x, 0.0)),
            shape.iter().any(|p| out(p.y, 0.0)),
            shape.iter().any(|p| out(p.curve, -1.0)),
            path.iter().any(|p| out(p.bend, -1.0)),
            &first != item,
            floats.iter().any(|x| x.to_bits() == 1 << 31),
            floats.iter().any(|x| x.is_subnormal()),
            item.shape
                .points
                .iter()
                .skip(MAX_POINTS)
                .any(|p| p.step > 1)
                || (item.path.points.iter().skip(MAX_POINTS))
                    .any(|p| matches!(p.mods[1], Present::Unknown(_))),
        ];
        for (to, seen) in self.kept.iter_mut().zip(seen) {
            *to += u64::from(seen);
        }
    }

    /// Every kind that should have occurred and did not.
    pub fn missing(&self) -> Vec<String> {
        let mut missing = self.read.missing("read", true);
        missing.extend(self.written.missing("write", false));
        for field in FIELDS {
            for cause in CAUSES.into_iter().filter(|c| may_fault(field, *c)) {
                if !self.causes.contains_key(&(field as usize, cause as usize)) {
                    missing.push(format!("{cause:?} in {field:?}"));
                }
            }
        }
        for (name, counts) in ["shape", "path"].iter().zip(&self.counts) {
            for n in (0..=COUNTED + 1).filter(|n| !counts.contains_key(n)) {
                missing.push(format!("{name} of {n} points"));
            }
        }
        for (name, count) in KEPT.iter().zip(self.kept) {
            if count == 0 {
                missing.push(name.to_string());
            }
        }
        missing
    }

    fn causes(&self, f: &mut fmt::Formatter) -> fmt::Result {
        for cause in CAUSES {
            let of = self.causes.iter().filter(|c| c.0.1 == cause as usize);
            let of: Vec<(u64, usize)> = of.map(|((field, _), n)| (*n, *field)).collect();
            let all: u64 = of.iter().map(|c| c.0).sum();
            let Some((least, field)) = of.iter().min() else {
                continue;
            };
            let (many, field) = (of.len(), FIELDS[*field]);
            writeln!(
                f,
                "    {cause:?}: {all}, in {many} fields, least {field:?} {least}"
            )?;
        }
        Ok(())
    }
}

impl fmt::Display for Figures {
    fn fmt(&self, f: &mut fmt::Formatter) -> fmt::Result {
        writeln!(f, "  reading, by answer:")?;
        self.read.show(f)?;
        writeln!(f, "  faults of records, by cause:")?;
        self.causes(f)?;
        writeln!(f, "  writing, by answer:")?;
        self.written.show(f)?;
        writeln!(
            f,
            "  accepted records written again {}; records damaged in a known way {}, with two faults {}; every byte changed in {} records, {} in all; `out` too short {}",
            self.again, self.known, self.two, self.whole, self.changed, self.short
        )?;
        let least = self
            .counts
            .each_ref()
            .map(|c| c.values().min().copied().unwrap_or(0));
        let kept: Vec<String> = KEPT
            .iter()
            .zip(self.kept)
            .map(|(name, n)| format!("{name} {n}"))
            .collect();
        writeln!(
            f,
            "  items handed in: of 0 to {COUNTED} points and more the least often {} (shape), {} (path); accepted with {}",
            least[0],
            least[1],
            kept.join(", ")
        )
    }
}
