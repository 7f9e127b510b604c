//! A run as docs/RUN.md has it: making a player, then calls. A code is any number and a float is its bits, so that every field can hold what
//! no player accepts.
use crate::items::Item;
use crate::lfo;

/// 0, or 1 and then the value; any other number is an unknown code.
#[derive(Clone, Copy, Debug, PartialEq)]
pub enum Present<T> {
    No,
    Yes(T),
    Unknown(u64),
}

#[derive(Clone, Copy, Debug, PartialEq)]
pub enum Rate {
    Synced { division: u64, feel: u64 },
    Hz { hz: u32, x10: u64 },
    Unknown(u64),
}

#[derive(Clone, Copy, Debug, PartialEq)]
pub enum Span {
    Off,
    Synced(u64),
    Seconds(u32),
    Unknown(u64),
}

#[derive(Clone, Copy, Debug, PartialEq)]
pub enum Scale {
    Percent(u32),
    Rate(u32),
    Unknown(u64),
}

#[derive(Clone, Copy, Debug, PartialEq)]
pub struct Settings {
    pub kind: u64,
    pub mode: u64,
    pub direction: u64,
    pub rate: Rate,
    pub song_lock: u64,
    pub swing: u64,
    pub fade_in: Span,
    pub delay: Span,
    /// The coefficient.
    pub smooth: Present<u32>,
    pub phase: u32,
    pub phase_snap: u64,
    pub grid_x: u16,
}

#[derive(Clone, Copy, Debug, PartialEq)]
pub struct Mod {
    pub bus: u8,
    pub depth: u32,
}

#[derive(Clone, Copy, Debug, PartialEq)]
pub struct Point {
    pub x: u32,
    pub y: u32,
    pub curve: u32,
    pub step: u64,
    /// Of x, then of y.
    pub mods: [Present<Mod>; 2],
}

#[derive(Clone, Debug, PartialEq)]
pub struct Shape {
    pub points: Vec<Point>,
    pub loopback: Present<u64>,
}

#[derive(Clone, Copy, Debug, PartialEq)]
pub struct PathPoint {
    pub x: u32,
    pub y: u32,
    pub bend: u32,
    pub mods: [Present<Mod>; 2],
}

#[derive(Clone, Debug, PartialEq)]
pub struct Path {
    pub closed: u64,
    pub points: Vec<PathPoint>,
}

#[derive(Clone, Copy, Debug, PartialEq)]
pub struct Transport {
    pub sample_rate: u64,
    pub tempo: u64,
    pub beats_per_bar: u64,
    pub playing: u64,
    pub beats: u64,
    pub seconds: u64,
    pub swing: u32,
    pub scale: Scale,
}

#[derive(Clone, Copy, Debug, PartialEq)]
pub struct Block {
    pub transport: Transport,
    pub frames: u64,
    pub restart: Present<u64>,
    pub x_len: u64,
    pub y_len: u64,
}

#[derive(Clone, Debug, PartialEq)]
pub enum Call {
    Settings(Settings),
    Shape(Shape),
    Path(Path),
    Bus { bus: u64, value: u32 },
    Phase(Transport),
    Block(Block),
    ShapeAt { shape: Shape, x: u32 },
    PathAt { path: Path, t: u32 },
    Legs(Path),
}

impl Call {
    pub fn tag(&self) -> usize {
        match self {
            Self::Settings(_) => 0,
            Self::Shape(_) => 1,
            Self::Path(_) => 2,
            Self::Bus { .. } => 3,
            Self::Phase(_) => 4,
            Self::Block(_) => 5,
            Self::ShapeAt { .. } => 6,
            Self::PathAt { .. } => 7,
            Self::Legs(_) => 8,
        }
    }
}

#[derive(Clone, Debug, PartialEq)]
pub struct Run {
    pub settings: Settings,
    pub seed: u64,
    pub calls: Vec<Call>,
}

// ---- a run as numbers

/// The numbers of a run, one a field.
#[derive(Default)]
pub struct Numbers(pub Vec<u64>);

impl Numbers {
    pub fn put(&mut self, n: impl Into<u64>) {
        self.0.push(n.into());
    }

    pub fn all<const N: usize>(&mut self, list: [u64; N]) {
        self.0.extend(list);
    }

    fn present<T>(&mut self, value: &Present<T>, put: impl FnOnce(&mut Self, &T)) {
        match value {
            Present::No => self.put(0u64),
            Present::Yes(value) => {
                self.put(1u64);
                put(self, value);
            }
            Present::Unknown(code) => self.put(*code),
        }
    }

    fn span(&mut self, span: Span) {
        match span {
            Span::Off => self.put(0u64),
            Span::Synced(division) => self.all([1, division]),
            Span::Seconds(seconds) => self.all([2, seconds.into()]),
            Span::Unknown(code) => self.put(code),
        }
    }

    pub fn settings(&mut self, s: &Settings) {
        self.all([s.kind, s.mode, s.direction]);
        match s.rate {
            Rate::Synced { division, feel } => self.all([0, division, feel]),
            Rate::Hz { hz, x10 } => self.all([1, hz.into(), x10]),
            Rate::Unknown(code) => self.put(code),
        }
        self.all([s.song_lock, s.swing]);
        self.span(s.fade_in);
        self.span(s.delay);
        self.present(&s.smooth, |n, a| n.put(*a));
        self.all([s.phase.into(), s.phase_snap, s.grid_x.into()]);
    }

    fn mods(&mut self, mods: &[Present<Mod>; 2]) {
        for m in mods {
            self.present(m, |n, m| n.all([m.bus.into(), m.depth.into()]));
        }
    }

    fn shape(&mut self, s: &Shape) {
        self.put(s.points.len() as u64);
        for p in &s.points {
            self.all([p.x.into(), p.y.into(), p.curve.into(), p.step]);
            self.mods(&p.mods);
        }
        self.present(&s.loopback, |n, i| n.put(*i));
    }

    fn path(&mut self, path: &Path) {
        self.all([path.points.len() as u64, path.closed]);
        for p in &path.points {
            self.all([p.x, p.y, p.bend].map(u64::from));
            self.mods(&p.mods);
        }
    }

    pub fn transport(&mut self, t: &Transport) {
        self.all([t.sample_rate, t.tempo, t.beats_per_bar]);
        self.all([t.playing, t.beats, t.seconds, t.swing.into()]);
        self.scale(t.scale);
    }

    fn scale(&mut self, scale: Scale) {
        match scale {
            Scale::Percent(p) => self.all([0, p.into()]),
            Scale::Rate(p) => self.all([1, p.into()]),
            Scale::Unknown(code) => self.put(code),
        }
    }

    pub fn call(&mut self, call: &Call) {
        self.put(call.tag() as u64);
        match call {
            Call::Settings(s) => self.settings(s),
            Call::Shape(s) => self.shape(s),
            Call::Path(p) | Call::Legs(p) => self.path(p),
            Call::Bus { bus, value } => self.all([*bus, (*value).into()]),
            Call::Phase(t) => self.transport(t),
            Call::Block(b) => {
                self.transport(&b.transport);
                self.put(b.frames);
                self.present(&b.restart, |n, at| n.put(*at));
                self.all([b.x_len, b.y_len]);
            }
            Call::ShapeAt { shape, x } => {
                self.shape(shape);
                self.put(*x);
            }
            Call::PathAt { path, t } => {
                self.path(path);
                self.put(*t);
            }
        }
    }

    pub fn run(run: &Run) -> Self {
        let mut numbers = Self::default();
        numbers.settings(&run.settings);
        numbers.put(run.seed);
        for call in &run.calls {
            numbers.call(call);
        }
        numbers
    }

    /// The numbers of an item.
    pub fn item(item: &Item) -> Vec<u64> {
        let mut numbers = Self::default();
        numbers.settings(&item.settings);
        numbers.shape(&item.shape);
        numbers.path(&item.path);
        numbers.all(item.buses.map(u64::from));
        numbers.all([item.seed, item.tempo, item.beats_per_bar]);
        numbers.put(item.swing);
        numbers.scale(item.scale);
        numbers.0
    }
}

// ---- numbers as bytes

/// Puts a number in groups of seven bits, lowest first, the top bit set on all bytes but the last.
pub fn put_number(bytes: &mut Vec<u8>, mut n: u64) {
    while n > 127 {
        bytes.push(n as u8 | 128);
        n >>= 7;
    }
    bytes.push(n as u8);
}

pub fn bytes_of(numbers: &[u64]) -> Vec<u8> {
    let mut bytes = vec![];
    for n in numbers {
        put_number(&mut bytes, *n);
    }
    bytes
}

impl Run {
    pub fn bytes(&self) -> Vec<u8> {
        bytes_of(&Numbers::run(self).0)
    }
}

// ---- from the source's types

pub fn transport_bits(t: &lfo::Transport) -> Transport {
    Transport {
        sample_rate: f64::to_bits(t.sample_rate),
        tempo: f64::to_bits(t.tempo),
        beats_per_bar: f64::to_bits(t.beats_per_bar),
        playing: t.playing.into(),
        beats: f64::to_bits(t.beats),
        seconds: f64::to_bits(t.seconds),
        swing: f32::to_bits(t.swing),
        scale: match t.scale {
            lfo::Scale::Percent(p) => Scale::Percent(f32::to_bits(p)),
            lfo::Scale::Rate(p) => Scale::Rate(f32::to_bits(p)),
        },
    }
}

fn span_bits(s: lfo::Span) -> Span {
    match s {
        lfo::Span::Off => Span::Off,
        lfo::Span::Synced(d) => Span::Synced(d.index().into()),
        lfo::Span::Seconds(s) => Span::Seconds(f32::to_bits(s)),
    }
}

/// Settings with no coefficient.
pub fn settings_bits(s: &lfo::Settings) -> Settings {
    Settings {
        kind: s.kind as u64,
        mode: s.mode as u64,
        direction: s.direction as u64,
        rate: match s.rate {
            lfo::Rate::Synced { division, feel } => Rate::Synced {
                division: division.index().into(),
                feel: feel as u64,
            },
            lfo::Rate::Hz { hz, x10 } => Rate::Hz {
                hz: f32::to_bits(hz),
                x10: x10.into(),
            },
        },
        song_lock: s.song_lock.into(),
        swing: s.swing.into(),
        fade_in: span_bits(s.fade_in),
        delay: span_bits(s.delay),
        smooth: Present::No,
        phase: f32::to_bits(s.phase),
        phase_snap: s.phase_snap.into(),
        grid_x: s.grid_x,
    }
}
