//! The player by the Rust source: an `Lfo` and an `LfoVoice`, played by `Lfo::play_` (opened.rs), which takes our strengths (bend.rs), the times that
//! our legs give (legs.rs), and a coefficient as it is handed in. As long as these are what the source computes itself, an `LfoBank` with one voice
//! gets the same calls and plays the same blocks by `process_scalar`, and both must give the same bits.
use crate::bend::{source_strength, strengths};
use crate::legs::{self, legs};
use crate::lfo::{
    Division, Lfo, LfoBank, LfoVoice, Path, PathPoint, Point, PointMod, Rate, Scale, Settings,
    Shape, Span, Transport,
};
use crate::run::{self, Present};
use crate::tally::bits32;
use crate::values::{DIRECTIONS, FEELS, KINDS, MODES};

/// `LfoBank::new` adds it to the slot's seed for voice 0, twice for voice 1, and so on.
pub const GOLDEN: u64 = 0x9E37_79B9_7F4A_7C15;

/// What stands in for numbers that the source computes.
#[derive(Clone)]
pub struct Supplied {
    pub smooth: Option<f32>,
    /// Ours, one to each point of the shape, as the points are sorted.
    pub strengths: Vec<f32>,
    /// By our legs, when each point of the path is reached.
    pub times: Vec<f32>,
}

/// What was heard of a block.
#[derive(Clone, Copy)]
pub struct Heard {
    /// The last frame's count with swing; nothing where there is no frame.
    pub last: Option<f64>,
    /// Of a Drawn curve, the x of the loopback point as the last frame has it, moved by the buses.
    pub loopback: Option<f64>,
    /// Whether `max` was put the zeros −0 and 0.
    pub zeros: bool,
}

pub fn bits(x: f32) -> u32 {
    x.to_bits()
}

/// Whether a tempo is the zero that `max` is put beside 0.
pub fn is_minus_zero(tempo: f64) -> bool {
    tempo == 0.0 && tempo.is_sign_negative()
}

// ---- from numbers to the source's types; only known codes get here

fn division(code: u64) -> Division {
    Division::new(code as u8).expect("a known division")
}

fn span(s: run::Span) -> Span {
    match s {
        run::Span::Synced(d) => Span::Synced(division(d)),
        run::Span::Seconds(s) => Span::Seconds(f32::from_bits(s)),
        _ => Span::Off,
    }
}

/// The settings, with `smooth` as the source has it.
pub fn settings_of(s: &run::Settings, smooth: f32) -> Settings {
    Settings {
        kind: KINDS[s.kind as usize],
        mode: MODES[s.mode as usize],
        direction: DIRECTIONS[s.direction as usize],
        rate: match s.rate {
            run::Rate::Synced { division: d, feel } => Rate::Synced {
                division: division(d),
                feel: FEELS[feel as usize],
            },
            run::Rate::Hz { hz, x10 } => Rate::Hz {
                hz: f32::from_bits(hz),
                x10: x10 == 1,
            },
            run::Rate::Unknown(_) => Rate::default(),
        },
        song_lock: s.song_lock == 1,
        swing: s.swing == 1,
        fade_in: span(s.fade_in),
        delay: span(s.delay),
        smooth,
        phase: f32::from_bits(s.phase),
        phase_snap: s.phase_snap == 1,
        grid_x: s.grid_x,
        ..Settings::default()
    }
}

fn coefficient(s: &run::Settings) -> Option<f32> {
    match s.smooth {
        Present::Yes(a) => Some(f32::from_bits(a)),
        _ => None,
    }
}

fn modulation(m: &Present<run::Mod>) -> Option<PointMod> {
    match m {
        Present::Yes(m) => Some(PointMod {
            bus: m.bus,
            depth: f32::from_bits(m.depth),
        }),
        _ => None,
    }
}

pub fn shape_of(s: &run::Shape) -> Shape {
    let points: Vec<Point> = s
        .points
        .iter()
        .map(|p| Point {
            x: f32::from_bits(p.x),
            y: f32::from_bits(p.y),
            curve: f32::from_bits(p.curve),
            step: p.step == 1,
            x_mod: modulation(&p.mods[0]),
            y_mod: modulation(&p.mods[1]),
        })
        .collect();
    let mut shape = Shape::new(&points);
    if let Present::Yes(i) = s.loopback {
        shape.set_loopback(Some(i as usize));
    }
    shape
}

/// A path with the times that our legs give to its points.
pub struct TimedPath {
    pub path: Path,
    pub times: Vec<f32>,
    /// Whether the source has the bits of each leg too.
    pub own: bool,
}

impl TimedPath {
    pub fn new(points: &[PathPoint], closed: bool) -> Self {
        let ours = legs(points, closed, legs::ours);
        let source = legs(points, closed, legs::source);
        Self {
            path: Path::new(points, closed),
            times: times(&ours),
            own: ours.into_iter().map(bits).eq(source.into_iter().map(bits)),
        }
    }
}

pub fn path_points(path: &run::Path) -> Vec<PathPoint> {
    let point = |p: &run::PathPoint| PathPoint {
        x: f32::from_bits(p.x),
        y: f32::from_bits(p.y),
        bend: f32::from_bits(p.bend),
        x_mod: modulation(&p.mods[0]),
        y_mod: modulation(&p.mods[1]),
    };
    path.points.iter().map(point).collect()
}

pub fn path_of(path: &run::Path) -> TimedPath {
    TimedPath::new(&path_points(path), path.closed == 1)
}

/// Running sums of the legs over their total; with total 0, j / segments.
fn times(legs: &[f32]) -> Vec<f32> {
    let mut sums = vec![0.0f32];
    for leg in legs {
        sums.push(sums[sums.len() - 1] + leg);
    }
    let total = sums[legs.len()];
    let spread = |j: usize, sum: f32| {
        if total > 0.0 {
            sum / total
        } else {
            j as f32 / (legs.len() as f32).max(1.0)
        }
    };
    sums.iter()
        .enumerate()
        .map(|(j, s)| spread(j, *s))
        .collect()
}

pub fn transport_of(t: &run::Transport) -> Transport {
    Transport {
        sample_rate: f64::from_bits(t.sample_rate),
        tempo: f64::from_bits(t.tempo),
        beats_per_bar: f64::from_bits(t.beats_per_bar),
        playing: t.playing == 1,
        beats: f64::from_bits(t.beats),
        seconds: f64::from_bits(t.seconds),
        swing: f32::from_bits(t.swing),
        scale: match t.scale {
            run::Scale::Rate(p) => Scale::Rate(f32::from_bits(p)),
            run::Scale::Percent(p) => Scale::Percent(f32::from_bits(p)),
            run::Scale::Unknown(_) => Scale::default(),
        },
    }
}

// ---- what all voices play from

/// Settings and curves with the numbers that stand in, and the bank that gets the same.
pub struct Page {
    pub lfo: Lfo,
    pub supplied: Supplied,
    /// While strengths, legs and coefficients are the source's own.
    pub bank: Option<LfoBank>,
    /// Blocks that the bank played too.
    pub by_bank: u64,
    /// Blocks in which it gave other bits: a fault of the harness.
    pub bank_differed: u64,
}

impl Page {
    /// The page of so many voices; `smooth` is the setting that gave the coefficient, 0 where that is not known.
    pub fn new(s: &run::Settings, smooth: f32, seed: u64, voices: usize) -> Self {
        let slot = Lfo::new(settings_of(s, smooth), seed);
        let lfo = Lfo::new(settings_of(s, 0.0), seed);
        let default = TimedPath::new(lfo.path().points(), lfo.path().closed());
        let supplied = Supplied {
            smooth: coefficient(s),
            strengths: strengths(lfo.shape()),
            times: default.times,
        };
        Self {
            lfo,
            supplied,
            bank: default.own.then(|| LfoBank::new(slot, voices)),
            by_bank: 0,
            bank_differed: 0,
        }
    }

    pub fn set_settings(&mut self, s: &run::Settings, smooth: f32) {
        self.lfo.settings = settings_of(s, 0.0);
        self.supplied.smooth = coefficient(s);
        if let Some(bank) = &mut self.bank {
            bank.lfo.settings = settings_of(s, smooth);
        }
    }

    pub fn set_shape(&mut self, s: &run::Shape) {
        let shape = shape_of(s);
        let ours = strengths(&shape);
        let own = shape.points().iter().map(|p| source_strength(p.curve));
        if own.map(bits).ne(ours.iter().copied().map(bits)) {
            self.bank = None;
        }
        if let Some(bank) = &mut self.bank {
            *bank.lfo.shape_mut() = shape.clone();
        }
        *self.lfo.shape_mut() = shape;
        self.supplied.strengths = ours;
    }

    pub fn set_path(&mut self, p: &run::Path) {
        let TimedPath { path, times, own } = path_of(p);
        if !own {
            self.bank = None;
        }
        if let Some(bank) = &mut self.bank {
            *bank.lfo.path_mut() = path.clone();
        }
        *self.lfo.path_mut() = path;
        self.supplied.times = times;
    }

    pub fn smoothed(&self) -> bool {
        self.supplied.smooth.is_some()
    }

    /// The bank ends where its own coefficient for the block is not the one handed in.
    pub fn check_bank(&mut self, transport: &Transport, frames: usize) {
        let Some(bank) = &self.bank else { return };
        let handed = self.supplied.smooth.map(bits);
        if bank.lfo.settings.smooth == 0.0 && handed.is_none() {
            return;
        }
        let own = bank.lfo.clone().prepare(transport, frames).smooth_();
        if own.map(bits) != handed {
            self.bank = None;
        }
    }

    /// The bank plays the block too, where it still can.
    pub fn play_bank(&mut self, transport: &Transport, frames: usize, x: &[f32], y: &[f32]) {
        let Some(bank) = &mut self.bank else { return };
        let (mut own_x, mut own_y) = (vec![0.0; x.len()], vec![0.0; y.len()]);
        bank.process_scalar(transport, frames, &mut own_x, Some(&mut own_y));
        let same = |a: &[f32], b: &[f32]| a.iter().zip(b).all(|(a, b)| bits32(*a) == bits32(*b));
        self.by_bank += 1;
        if !same(&own_x, x) || !same(&own_y, y) {
            self.bank_differed += 1;
        }
    }
}

// ---- the player

pub struct Player {
    pub page: Page,
    voice: LfoVoice,
}

impl Player {
    /// A player; `smooth` is the setting that gave the coefficient, 0 where that is not known.
    pub fn new(s: &run::Settings, seed: u64, smooth: f32) -> Self {
        Self {
            page: Page::new(s, smooth, seed.wrapping_sub(GOLDEN), 1),
            voice: LfoVoice::new(seed),
        }
    }

    pub fn set_bus(&mut self, bus: u64, value: u32) {
        let (bus, value) = (bus as usize, f32::from_bits(value));
        self.voice.set_bus(bus, value);
        if let Some(bank) = &mut self.page.bank {
            bank.voice_mut(0).set_bus(bus, value);
        }
    }

    pub fn phase(&self, t: &run::Transport) -> f32 {
        self.page.lfo.phase(&self.voice, &transport_of(t))
    }

    /// Plays a block; says its cycles a sample and what was heard.
    pub fn block(&mut self, b: &run::Block, x: &mut [f32], y: &mut [f32]) -> (f64, Heard) {
        let transport = transport_of(&b.transport);
        let frames = b.frames as usize;
        let restart = match b.restart {
            Present::Yes(at) => Some(at as usize),
            _ => None,
        };
        let page = &mut self.page;
        page.check_bank(&transport, frames);
        let (block, heard) = page.lfo.play_(
            &mut self.voice,
            &transport,
            (frames, restart),
            &page.supplied,
            |k, a, b| {
                x[k] = a;
                y[k] = b;
            },
        );
        if let (Some(bank), Some(at)) = (&mut page.bank, restart) {
            bank.trigger(0, at);
        }
        page.play_bank(&transport, frames, &x[..frames], &y[..frames]);
        (block.cycles_per_sample(), heard)
    }
}
