//! An item and its record (document 02, W-203): a reader and a writer of our own, written from 02's words alone. `read_given`, `written` and
//! `within` say what the two C functions must give.
use crate::lfo;
use crate::player::{path_points, shape_of};
use crate::questions;
use crate::reading;
use crate::run::{
    Mod, Numbers, Path, PathPoint, Point, Present, Rate, Scale, Settings, Shape, Span, bytes_of,
    put_number,
};
use Cause::*;
use Field::*;

pub const BUSES: usize = 16;
/// The length of the shortest record.
pub const SHORTEST: usize = 48;
/// The number of bytes that hand no item to the writer.
pub const MALFORMED: u64 = 255;
/// The number of a buffer that is too short.
pub const NO_ROOM: u64 = 21;

/// Codes are any numbers and floats their bits, so that an item can hold what no record has.
#[derive(Clone, Debug, PartialEq)]
pub struct Item {
    pub settings: Settings,
    pub shape: Shape,
    pub path: Path,
    pub buses: [u32; BUSES],
    pub seed: u64,
    pub tempo: u64,
    pub beats_per_bar: u64,
    pub swing: u32,
    pub scale: Scale,
}

/// The fields of a record, in its order. Those of a point, and of a bus, stand there more than once.
#[rustfmt::skip]
#[derive(Clone, Copy, Debug, PartialEq, Eq)]
pub enum Field {
    Kind, Mode, Direction, Rate, RateDivision, Feel, Hz, X10, SongLock, Swing,
    FadeIn, FadeInDivision, FadeInSeconds, Delay, DelayDivision, DelaySeconds,
    Smooth, Coefficient, Phase, PhaseSnap, GridX,
    ShapeCount, X, Y, Curve, Step, XMod, XBus, XDepth, YMod, YBus, YDepth, Loopback, LoopbackIndex,
    PathCount, Closed, PathX, PathY, Bend, PathXMod, PathXBus, PathXDepth, PathYMod, PathYBus, PathYDepth,
    Bus, Seed, Tempo, BeatsPerBar, SwingAmount, Scale, Percent,
}

#[rustfmt::skip]
pub const FIELDS: [Field; 52] = [
    Kind, Mode, Direction, Field::Rate, RateDivision, Feel, Hz, X10, SongLock, Swing,
    FadeIn, FadeInDivision, FadeInSeconds, Delay, DelayDivision, DelaySeconds,
    Smooth, Coefficient, Phase, PhaseSnap, GridX,
    ShapeCount, X, Y, Curve, Step, XMod, XBus, XDepth, YMod, YBus, YDepth, Loopback, LoopbackIndex,
    PathCount, Closed, PathX, PathY, Bend, PathXMod, PathXBus, PathXDepth, PathYMod, PathYBus, PathYDepth,
    Bus, Seed, Tempo, BeatsPerBar, SwingAmount, Field::Scale, Percent,
];

const SHAPE_MODS: [[Field; 3]; 2] = [[XMod, XBus, XDepth], [YMod, YBus, YDepth]];
const PATH_MODS: [[Field; 3]; 2] = [
    [PathXMod, PathXBus, PathXDepth],
    [PathYMod, PathYBus, PathYDepth],
];

// ---- reading

/// Why a record is none.
#[derive(Clone, Copy, Debug, PartialEq, Eq)]
pub enum Cause {
    Cut,
    Long,
    Large,
    NoChoice,
    Count,
    NotFinite,
    Clamped,
    Moved,
    Left,
}

pub const CAUSES: [Cause; 9] = [
    Cut, Long, Large, NoChoice, Count, NotFinite, Clamped, Moved, Left,
];

impl Cause {
    pub fn number(self) -> u64 {
        match self {
            Cut => 12,
            Left => 14,
            _ => 13,
        }
    }
}

/// The first fault of a record, with the field that it is in; bytes left over count as behind the last field.
#[derive(Clone, Copy, Debug, PartialEq)]
pub struct Fault {
    pub cause: Cause,
    pub field: Field,
}

impl Fault {
    pub fn number(self) -> u64 {
        self.cause.number()
    }
}

type Got<T> = Result<T, Fault>;

/// A number of a record: its field, its bytes from `at` up to `end`, its value.
#[derive(Clone, Copy, Debug)]
pub struct Placed {
    pub field: Field,
    pub at: usize,
    pub end: usize,
    pub value: u64,
}

/// The number of at most so many bits at the front of some bytes, and how many it takes. It is judged once its last byte is read: a number that never ends
/// is cut short, however long it is.
pub fn front_number(bytes: &[u8], bits: u32) -> Result<(u64, usize), Cause> {
    let last = bytes.iter().position(|b| *b < 128).ok_or(Cut)?;
    if last > 0 && bytes[last] == 0 {
        return Err(Long);
    }
    // ten groups hold 64 bits, and the last group is not 0
    if last > 9 {
        return Err(Large);
    }
    let groups = bytes[..=last].iter().enumerate();
    let value = groups.fold(0u128, |n, (i, b)| n | u128::from(b & 127) << (7 * i));
    match value >> bits {
        0 => Ok((value as u64, last + 1)),
        _ => Err(Large),
    }
}

struct Reader<'a> {
    bytes: &'a [u8],
    at: usize,
    /// The numbers read so far, where they are wanted.
    placed: Option<Vec<Placed>>,
}

impl Reader<'_> {
    fn number(&mut self, field: Field, bits: u32) -> Got<u64> {
        let front = front_number(&self.bytes[self.at..], bits);
        let (value, size) = front.map_err(|cause| Fault { cause, field })?;
        let (at, end) = (self.at, self.at + size);
        self.at = end;
        if let Some(list) = &mut self.placed {
            list.push(Placed {
                field,
                at,
                end,
                value,
            });
        }
        Ok(value)
    }

    fn below(&mut self, field: Field, count: u64, cause: Cause) -> Got<u64> {
        let n = self.number(field, 64)?;
        if n < count {
            Ok(n)
        } else {
            Err(Fault { cause, field })
        }
    }

    fn choice(&mut self, field: Field, count: u64) -> Got<u64> {
        self.below(field, count, NoChoice)
    }

    fn float(&mut self, field: Field) -> Got<u32> {
        Ok(self.number(field, 32)? as u32)
    }

    // A point's float that the player keeps as it is: finite and, where it is clamped, within its limits. −0 is within 0 and stays.
    fn kept(&mut self, field: Field, lo: f32, hi: f32) -> Got<u32> {
        let bits = self.float(field)?;
        let value = f32::from_bits(bits);
        let fault = |cause| Err(Fault { cause, field });
        if !value.is_finite() {
            fault(NotFinite)
        } else if value < lo || value > hi {
            fault(Clamped)
        } else {
            Ok(bits)
        }
    }

    fn finite(&mut self, field: Field) -> Got<u32> {
        self.kept(field, f32::MIN, f32::MAX)
    }

    fn present<T>(
        &mut self,
        field: Field,
        read: impl FnOnce(&mut Self) -> Got<T>,
    ) -> Got<Present<T>> {
        Ok(match self.choice(field, 2)? {
            0 => Present::No,
            _ => Present::Yes(read(self)?),
        })
    }

    fn rate(&mut self) -> Got<Rate> {
        Ok(match self.choice(Field::Rate, 2)? {
            0 => Rate::Synced {
                division: self.choice(RateDivision, 15)?,
                feel: self.choice(Feel, 3)?,
            },
            _ => Rate::Hz {
                hz: self.float(Hz)?,
                x10: self.choice(X10, 2)?,
            },
        })
    }

    fn span(&mut self, [own, division, seconds]: [Field; 3]) -> Got<Span> {
        Ok(match self.choice(own, 3)? {
            0 => Span::Off,
            1 => Span::Synced(self.choice(division, 15)?),
            _ => Span::Seconds(self.float(seconds)?),
        })
    }

    fn settings(&mut self) -> Got<Settings> {
        Ok(Settings {
            kind: self.choice(Kind, 5)?,
            mode: self.choice(Mode, 3)?,
            direction: self.choice(Direction, 3)?,
            rate: self.rate()?,
            song_lock: self.choice(SongLock, 2)?,
            swing: self.choice(Swing, 2)?,
            fade_in: self.span([FadeIn, FadeInDivision, FadeInSeconds])?,
            delay: self.span([Delay, DelayDivision, DelaySeconds])?,
            smooth: self.present(Smooth, |r| r.float(Coefficient))?,
            phase: self.float(Phase)?,
            phase_snap: self.choice(PhaseSnap, 2)?,
            grid_x: self.number(GridX, 16)? as u16,
        })
    }

    fn modulation(&mut self, [own, bus, depth]: [Field; 3]) -> Got<Present<Mod>> {
        self.present(own, |r| {
            Ok(Mod {
                bus: r.number(bus, 8)? as u8,
                depth: r.finite(depth)?,
            })
        })
    }

    fn mods(&mut self, [x, y]: [[Field; 3]; 2]) -> Got<[Present<Mod>; 2]> {
        Ok([self.modulation(x)?, self.modulation(y)?])
    }

    // The player moves a point whose x is below the one before it.
    fn point(&mut self, before: f32) -> Got<Point> {
        let x = self.kept(X, 0.0, 1.0)?;
        if f32::from_bits(x) < before {
            return Err(Fault {
                cause: Moved,
                field: X,
            });
        }
        Ok(Point {
            x,
            y: self.kept(Y, 0.0, 1.0)?,
            curve: self.kept(Curve, -1.0, 1.0)?,
            step: self.choice(Step, 2)?,
            mods: self.mods(SHAPE_MODS)?,
        })
    }

    fn shape(&mut self) -> Got<Shape> {
        let count = self.below(ShapeCount, 65, Count)?;
        let mut points: Vec<Point> = Vec::with_capacity(count as usize);
        for _ in 0..count {
            let before = points.last().map_or(0.0, |p| f32::from_bits(p.x));
            points.push(self.point(before)?);
        }
        let loopback = self.present(Loopback, |r| r.number(LoopbackIndex, 64))?;
        Ok(Shape { points, loopback })
    }

    // A finite coordinate outside 0 to 1 is left to question 11.
    fn path_point(&mut self) -> Got<PathPoint> {
        Ok(PathPoint {
            x: self.finite(PathX)?,
            y: self.finite(PathY)?,
            bend: self.kept(Bend, -1.0, 1.0)?,
            mods: self.mods(PATH_MODS)?,
        })
    }

    fn path(&mut self) -> Got<Path> {
        let count = self.below(PathCount, 65, Count)?;
        let closed = self.choice(Closed, 2)?;
        let points: Got<Vec<PathPoint>> = (0..count).map(|_| self.path_point()).collect();
        Ok(Path {
            closed,
            points: points?,
        })
    }

    fn item(&mut self) -> Got<Item> {
        let (settings, shape, path) = (self.settings()?, self.shape()?, self.path()?);
        let mut buses = [0; BUSES];
        for bus in &mut buses {
            *bus = self.float(Bus)?;
        }
        Ok(Item {
            settings,
            shape,
            path,
            buses,
            seed: self.number(Seed, 64)?,
            tempo: self.number(Tempo, 64)?,
            beats_per_bar: self.number(BeatsPerBar, 64)?,
            swing: self.float(SwingAmount)?,
            scale: match self.choice(Field::Scale, 2)? {
                0 => Scale::Percent(self.float(Percent)?),
                _ => Scale::Rate(self.float(Percent)?),
            },
        })
    }

    fn whole(&mut self) -> Got<Item> {
        let item = self.item()?;
        if self.at < self.bytes.len() {
            return Err(Fault {
                cause: Left,
                field: Percent,
            });
        }
        Ok(item)
    }
}

/// The item whose numbers the bytes are, before any question, or the first fault.
pub fn parsed(record: &[u8]) -> Got<Item> {
    let mut reader = Reader {
        bytes: record,
        at: 0,
        placed: None,
    };
    reader.whole()
}

/// The numbers of a record, up to its first fault.
pub fn numbers_of(record: &[u8]) -> Vec<Placed> {
    let mut reader = Reader {
        bytes: record,
        at: 0,
        placed: Some(vec![]),
    };
    let _ = reader.whole();
    reader.placed.unwrap_or_default()
}

/// What a record gives: an item, the fault that makes it none, or the item that a question refuses with its number.
pub enum Read {
    Item(Item),
    Fault(Fault),
    Refused(u64, Item),
}

impl Read {
    pub fn answer(&self) -> u64 {
        match self {
            Self::Item(_) => 0,
            Self::Fault(fault) => fault.number(),
            Self::Refused(number, _) => *number,
        }
    }
}

fn asked(got: Got<Item>) -> Read {
    match got {
        Err(fault) => Read::Fault(fault),
        Ok(item) => match questions::item(&item) {
            0 => Read::Item(item),
            number => Read::Refused(number, item),
        },
    }
}

pub fn read(record: &[u8]) -> Read {
    asked(parsed(record))
}

/// What the record at the front of some bytes gives, and how many it takes up to its end or its fault. Others may follow.
pub fn read_front(bytes: &[u8]) -> (Read, usize) {
    let mut reader = Reader {
        bytes,
        at: 0,
        placed: None,
    };
    let got = reader.item();
    (asked(got), reader.at)
}

// ---- writing

/// What a field holds: a choice of so many, a float, or a number of so many bits.
#[derive(Clone, Copy, Debug, PartialEq)]
pub enum Holds {
    Choice(u64),
    F32,
    F64,
    Number(u32),
}

pub fn holds(field: Field) -> Holds {
    match field {
        Kind => Holds::Choice(5),
        Mode | Direction | Feel | FadeIn | Delay => Holds::Choice(3),
        RateDivision | FadeInDivision | DelayDivision => Holds::Choice(15),
        Field::Rate | X10 | SongLock | Swing | Smooth | PhaseSnap => Holds::Choice(2),
        Step | XMod | YMod | Loopback | Closed | PathXMod | PathYMod | Field::Scale => {
            Holds::Choice(2)
        }
        XBus | YBus | PathXBus | PathYBus => Holds::Number(8),
        GridX => Holds::Number(16),
        ShapeCount | PathCount | LoopbackIndex | Seed => Holds::Number(64),
        Tempo | BeatsPerBar => Holds::F64,
        _ => Holds::F32,
    }
}

/// Hands out the fields of an item, each with its number, in the order of 02. An unknown code has no fields.
struct Fields<'a, F: FnMut(Field, u64)> {
    hand: &'a mut F,
}

impl<F: FnMut(Field, u64)> Fields<'_, F> {
    fn put(&mut self, field: Field, n: impl Into<u64>) {
        (self.hand)(field, n.into());
    }

    // Answers the value where it is present.
    fn present<T: Copy>(&mut self, field: Field, value: Present<T>) -> Option<T> {
        let (code, value) = match value {
            Present::No => (0, None),
            Present::Yes(value) => (1, Some(value)),
            Present::Unknown(code) => (code, None),
        };
        self.put(field, code);
        value
    }

    fn rate(&mut self, rate: Rate) {
        match rate {
            Rate::Synced { division, feel } => {
                self.put(Field::Rate, 0u64);
                self.put(RateDivision, division);
                self.put(Feel, feel);
            }
            Rate::Hz { hz, x10 } => {
                self.put(Field::Rate, 1u64);
                self.put(Hz, hz);
                self.put(X10, x10);
            }
            Rate::Unknown(code) => self.put(Field::Rate, code),
        }
    }

    fn span(&mut self, [own, division, seconds]: [Field; 3], span: Span) {
        match span {
            Span::Off => self.put(own, 0u64),
            Span::Synced(d) => {
                self.put(own, 1u64);
                self.put(division, d);
            }
            Span::Seconds(s) => {
                self.put(own, 2u64);
                self.put(seconds, s);
            }
            Span::Unknown(code) => self.put(own, code),
        }
    }

    fn settings(&mut self, s: &Settings) {
        self.put(Kind, s.kind);
        self.put(Mode, s.mode);
        self.put(Direction, s.direction);
        self.rate(s.rate);
        self.put(SongLock, s.song_lock);
        self.put(Swing, s.swing);
        self.span([FadeIn, FadeInDivision, FadeInSeconds], s.fade_in);
        self.span([Delay, DelayDivision, DelaySeconds], s.delay);
        if let Some(a) = self.present(Smooth, s.smooth) {
            self.put(Coefficient, a);
        }
        self.put(Phase, s.phase);
        self.put(PhaseSnap, s.phase_snap);
        self.put(GridX, s.grid_x);
    }

    fn mods(&mut self, fields: [[Field; 3]; 2], mods: [Present<Mod>; 2]) {
        for ([own, bus, depth], m) in fields.into_iter().zip(mods) {
            if let Some(m) = self.present(own, m) {
                self.put(bus, m.bus);
                self.put(depth, m.depth);
            }
        }
    }

    fn shape(&mut self, s: &Shape) {
        self.put(ShapeCount, s.points.len() as u64);
        for p in &s.points {
            self.put(X, p.x);
            self.put(Y, p.y);
            self.put(Curve, p.curve);
            self.put(Step, p.step);
            self.mods(SHAPE_MODS, p.mods);
        }
        if let Some(i) = self.present(Loopback, s.loopback) {
            self.put(LoopbackIndex, i);
        }
    }

    fn path(&mut self, path: &Path) {
        self.put(PathCount, path.points.len() as u64);
        self.put(Closed, path.closed);
        for p in &path.points {
            self.put(PathX, p.x);
            self.put(PathY, p.y);
            self.put(Bend, p.bend);
            self.mods(PATH_MODS, p.mods);
        }
    }

    fn scale(&mut self, scale: Scale) {
        let (code, percent) = match scale {
            Scale::Percent(p) => (0, Some(p)),
            Scale::Rate(p) => (1, Some(p)),
            Scale::Unknown(code) => (code, None),
        };
        self.put(Field::Scale, code);
        if let Some(p) = percent {
            self.put(Percent, p);
        }
    }
}

/// Hands out every field of an item as it is, in the order of 02.
pub fn each_field(item: &Item, hand: &mut impl FnMut(Field, u64)) {
    let mut fields = Fields { hand };
    fields.settings(&item.settings);
    fields.shape(&item.shape);
    fields.path(&item.path);
    for bus in item.buses {
        fields.put(Bus, bus);
    }
    fields.put(Seed, item.seed);
    fields.put(Tempo, item.tempo);
    fields.put(BeatsPerBar, item.beats_per_bar);
    fields.put(SwingAmount, item.swing);
    fields.scale(item.scale);
}

/// The bytes of an item's fields as they are.
pub fn bytes(item: &Item) -> Vec<u8> {
    let mut bytes = Vec::with_capacity(256);
    each_field(item, &mut |_, n| put_number(&mut bytes, n));
    bytes
}

fn mods_bits(mods: [Option<lfo::PointMod>; 2]) -> [Present<Mod>; 2] {
    mods.map(|m| match m {
        None => Present::No,
        Some(m) => Present::Yes(Mod {
            bus: m.bus,
            depth: m.depth.to_bits(),
        }),
    })
}

/// An accepted item with its points as the player keeps them: the source itself says how.
pub fn kept(item: &Item) -> Item {
    let shape = shape_of(&item.shape);
    let path = lfo::Path::new(&path_points(&item.path), item.path.closed == 1);
    let point = |p: &lfo::Point| Point {
        x: p.x.to_bits(),
        y: p.y.to_bits(),
        curve: p.curve.to_bits(),
        step: p.step.into(),
        mods: mods_bits([p.x_mod, p.y_mod]),
    };
    let path_point = |p: &lfo::PathPoint| PathPoint {
        x: p.x.to_bits(),
        y: p.y.to_bits(),
        bend: p.bend.to_bits(),
        mods: mods_bits([p.x_mod, p.y_mod]),
    };
    Item {
        shape: Shape {
            points: shape.points().iter().map(point).collect(),
            loopback: item.shape.loopback,
        },
        path: Path {
            closed: item.path.closed,
            points: path.points().iter().map(path_point).collect(),
        },
        ..item.clone()
    }
}

/// The record of an item, or the number of the question that refuses it.
pub fn write(item: &Item) -> Given {
    match questions::item(item) {
        0 => Ok(bytes(&kept(item))),
        number => Err(number),
    }
}

// ---- the two C functions

/// What a function gives: the bytes at the front of its buffer or, with no byte written, a number that is not 0.
pub type Given = Result<Vec<u8>, u64>;

/// An item as its numbers, in the form of docs/RUN.md.
pub fn handed(item: &Item) -> Vec<u8> {
    bytes_of(&Numbers::item(item))
}

/// What reading gives with a buffer that is long enough: the item's numbers.
pub fn read_given(read: &Read) -> Given {
    match read {
        Read::Item(item) => Ok(handed(item)),
        _ => Err(read.answer()),
    }
}

/// What comes, with a buffer that is long enough, of bytes that hand an item to the writer or fail to.
pub fn written(bytes: &[u8]) -> Given {
    match reading::handed(bytes) {
        None => Err(MALFORMED),
        Some(item) => write(&item),
    }
}

/// The same with a buffer of so many bytes: 21 comes after every other number.
pub fn within(room: usize, given: Given) -> Given {
    match given {
        Ok(bytes) if bytes.len() > room => Err(NO_ROOM),
        _ => given,
    }
}

/// The number that a function answers: that of what it gives, and 256 times the length of its bytes.
pub fn answered(given: &Given) -> u64 {
    match given {
        Ok(bytes) => 256 * bytes.len() as u64,
        Err(number) => *number,
    }
}
