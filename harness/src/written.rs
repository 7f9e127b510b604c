//! Runs written by hand, call by call, and the curves that they set.
use crate::lfo::{Division, Feel, LfoType, Mode, Rate, Settings, Span, Transport};
use crate::player::bits;
use crate::run::{
    Block, Call, Mod, Path, PathPoint, Point, Present, Run, Shape, settings_bits, transport_bits,
};
use crate::values::MODES;

/// A run that is being written, with the transport of its next block.
#[derive(Clone)]
pub struct Written {
    pub run: Run,
    pub transport: Transport,
}

pub fn hertz(hz: f32) -> Rate {
    Rate::Hz { hz, x10: true }
}

pub fn synced(division: u8, feel: Feel) -> Rate {
    let division = Division::new(division).expect("a division");
    Rate::Synced { division, feel }
}

/// Settings that move on by an eighth of a cycle a sample.
pub fn eighth(kind: LfoType, mode: Mode) -> Settings {
    Settings {
        kind,
        mode,
        rate: hertz(125.0),
        ..Settings::default()
    }
}

pub fn moved(bus: u8, depth: f32) -> Present<Mod> {
    let depth = bits(depth);
    Present::Yes(Mod { bus, depth })
}

pub fn point(x: f32, y: f32, curve: f32) -> Point {
    Point {
        x: bits(x),
        y: bits(y),
        curve: bits(curve),
        step: 0,
        mods: [Present::No; 2],
    }
}

/// Out of order, with equal x, zeros of both signs, bends, a step, and points that buses 0 and 1 move.
pub fn bent() -> Shape {
    let mut points = vec![
        point(0.75, 0.25, -0.5),
        point(-0.0, 1.0, 0.5),
        point(0.25, 0.5, 0.0),
        point(0.25, 0.125, 1.0),
        point(0.0, -0.0, 0.25),
    ];
    points[0].mods[0] = moved(0, 0.5);
    points[2].step = 1;
    points[3].mods[1] = moved(1, -0.5);
    let loopback = Present::Yes(3);
    Shape { points, loopback }
}

pub fn path(places: &[(f32, f32, f32)], closed: bool) -> Path {
    let points = places.iter().map(|(x, y, bend)| PathPoint {
        x: bits(*x),
        y: bits(*y),
        bend: bits(*bend),
        mods: [moved(0, 0.25), Present::No],
    });
    Path {
        closed: closed.into(),
        points: points.collect(),
    }
}

pub fn bowed(closed: bool) -> Path {
    let places = [(0.125, 0.0, 0.5), (1.0, 0.5, -1.0), (0.25, 1.0, 0.0)];
    path(&places, closed)
}

impl Written {
    pub fn new(s: &Settings) -> Self {
        let settings = settings_bits(s);
        Self {
            run: Run {
                settings,
                seed: 0x1234_5678,
                calls: vec![],
            },
            transport: Transport {
                tempo: 1000.0,
                ..Transport::new(1000.0)
            },
        }
    }

    pub fn with(mut self, call: Call) -> Self {
        self.run.calls.push(call);
        self
    }

    pub fn settings(self, s: &Settings) -> Self {
        self.with(Call::Settings(settings_bits(s)))
    }

    pub fn bus(self, bus: u64, value: f32) -> Self {
        let value = bits(value);
        self.with(Call::Bus { bus, value })
    }

    pub fn at(mut self, change: impl FnOnce(&mut Transport)) -> Self {
        change(&mut self.transport);
        self
    }

    pub fn phase(self) -> Self {
        let t = transport_bits(&self.transport);
        self.with(Call::Phase(t))
    }

    /// A block, in buffers of its length or a little longer; the song moves on.
    pub fn block(mut self, frames: u64, restart: Present<u64>) -> Self {
        let before = self.run.calls.len();
        let block = Block {
            transport: transport_bits(&self.transport),
            frames,
            restart,
            x_len: frames + u64::from(before == 1),
            y_len: frames + u64::from(before == 2) * 2,
        };
        self.transport.advance(frames as usize);
        self.with(Call::Block(block))
    }
}

/// Runs of so many frames that the samples since the delay, of which an f32 is made, need more than 24 bits.
pub fn long_runs() -> Vec<Run> {
    let kinds = [LfoType::Drawn, LfoType::Path, LfoType::SampleAndHold];
    let long = |(i, kind): (usize, LfoType)| {
        let s = Settings {
            rate: hertz([0.5, 0.3, 200.0][i]),
            fade_in: Span::Seconds(32.0),
            delay: Span::Seconds([0.0, 0.001, 0.5][i]),
            ..eighth(kind, MODES[i])
        };
        let mut w = Written::new(&s).at(|t| t.sample_rate = 768_000.0);
        w = w.with(Call::Shape(bent()));
        w = w.block(4096, Present::Yes(17 * i as u64));
        for _ in 0..4300 {
            w = w.block(4096, Present::No);
        }
        w.run
    };
    kinds.into_iter().enumerate().map(long).collect()
}
