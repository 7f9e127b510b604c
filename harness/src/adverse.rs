//! Adverse runs, the same for the same seed: mostly accepted calls at and about every limit, with edits between any two, and now and then a call
//! that some question refuses (refused.rs) or bytes that are no run (spoiled.rs).
use crate::lfo::{self, Lfo, Transport};
use crate::player::{bits, path_of, settings_of};
use crate::questions;
use crate::run::{Block, Call, Present, Run, Settings, settings_bits, transport_bits};
use crate::values::{FEELS, KINDS, Values};
use crate::{refused, spoiled};

/// A run with its bytes.
pub struct Made {
    pub run: Run,
    /// For making and for each call, the setting that gave its coefficient; 0 where it has none or the coefficient is any number.
    pub smooths: Vec<f32>,
    pub bytes: Vec<u8>,
    /// Whether the bytes are no longer those of the run.
    pub spoiled: bool,
}

pub struct Adverse {
    pub v: Values,
    kind: lfo::LfoType,
    pub buses: [u8; 2],
    /// As the last accepted call left them, with the setting that gave the coefficient.
    pub settings: Settings,
    pub smooth: f32,
    pub transport: Transport,
    calls: Vec<Call>,
    smooths: Vec<f32>,
}

/// The coefficient that the source computes for the increment of these settings.
pub fn coefficient(s: &Settings, smooth: f32, t: &Transport) -> Present<u32> {
    let own = Lfo::new(settings_of(s, smooth), 0).prepare(t, 0).smooth_();
    own.map_or(Present::No, |a| Present::Yes(bits(a)))
}

// ---- settings and transport

impl Adverse {
    pub fn new(seed: u64) -> Self {
        let mut v = Values::new(seed);
        let kind = v.of(&KINDS);
        let buses = [v.below(16) as u8, v.below(20) as u8];
        let settings = settings_bits(&lfo::Settings::default());
        let transport = Transport::new(1000.0);
        let mut a = Self {
            v,
            kind,
            buses,
            settings,
            smooth: 0.0,
            transport,
            calls: vec![],
            smooths: vec![],
        };
        a.transport = a.transport();
        a
    }

    // A few samples long as often as not.
    fn span(&mut self) -> lfo::Span {
        match self.v.below(8) {
            0..4 => lfo::Span::Off,
            4 => lfo::Span::Synced(self.v.division()),
            5 => self.v.span(),
            _ => lfo::Span::Seconds(self.v.unit_f32() * 0.03),
        }
    }

    fn rate(&mut self) -> lfo::Rate {
        if self.v.yes() {
            return self.v.rate();
        }
        match self.v.below(4) {
            0 => lfo::Rate::Synced {
                division: lfo::Division::new(6 + self.v.below(9) as u8).unwrap(),
                feel: self.v.of(&FEELS),
            },
            1 => lfo::Rate::Hz {
                hz: self.v.of(&[250.0, 500.0, 1000.0, 0.0, -0.0, 125.0]),
                x10: true,
            },
            _ => lfo::Rate::Hz {
                hz: self.v.unit_f32() * 200.0,
                x10: self.v.yes(),
            },
        }
    }

    /// Settings, with the setting that gave the coefficient.
    pub fn settings(&mut self) -> (Settings, f32) {
        let mut s = self.v.settings();
        if !self.v.one_in(4) {
            s.kind = self.kind;
        }
        s.rate = self.rate();
        s.song_lock = self.v.one_in(4);
        (s.fade_in, s.delay) = (self.span(), self.span());
        if !self.v.one_in(4) {
            s.phase = self.v.of(&[0.0, 0.0, -0.0, 90.0, 360.0]);
        }
        let mut settings = settings_bits(&s);
        let smooth = self.smoothing(&mut settings);
        (settings, smooth)
    }

    fn smoothing(&mut self, s: &mut Settings) -> f32 {
        match self.v.below(12) {
            0..3 => {
                let smooth = self.v.about(100.0);
                s.smooth = coefficient(s, smooth, &self.transport);
                smooth
            }
            3 => {
                let any = self.v.unit_f32();
                s.smooth = Present::Yes(bits(self.v.of(&[any, any, 0.0, -0.0, 1.0, 1e-45])));
                0.0
            }
            _ => 0.0,
        }
    }

    /// A transport that question 6 accepts, with its limits.
    pub fn transport(&mut self) -> Transport {
        let v = &mut self.v;
        let sample_rate = match v.below(8) {
            0..3 => 1000.0,
            3 | 4 => 1000.0 + v.unit() * 1500.0,
            5 => v.of(&[2000.0, 1999.0, 2001.0, 768_000.0, 1000.0f64.next_up()]),
            6 => v.of(&[44_100.0, 48_000.0, 96_000.0]),
            _ => 1000.0 + v.unit() * 100_000.0,
        };
        let tempo = match v.below(12) {
            0 => 0.0,
            1 => v.of(&[-0.0, 1e-300, 5e-324, 1e-9]),
            2..5 => 1000.0,
            5 => 120.0,
            _ => v.unit() * 1000.0,
        };
        Transport {
            sample_rate,
            tempo,
            beats_per_bar: v.of(&[4.0, 3.0, 0.25, 64.0, 7.0 / 3.0, 0.25f64.next_up()]),
            playing: v.yes(),
            beats: v.song_position(),
            seconds: v.song_position(),
            swing: v.about(1.0),
            scale: match v.below(3) {
                0 => lfo::Scale::Percent(100.0),
                1 => lfo::Scale::Rate(v.of(&[1000.0, 500.0, 100.0])),
                _ => v.scale(),
            },
        }
    }

    /// Between two blocks most hosts only move on.
    pub fn change_transport(&mut self) {
        match self.v.below(16) {
            0 => self.transport = self.transport(),
            1 | 2 => self.transport.playing = !self.transport.playing,
            3 => self.transport.tempo = self.transport().tempo,
            4 => self.transport.scale = self.v.scale(),
            5 => self.transport.beats = self.v.song_position(),
            6 => self.transport.seconds = self.v.song_position(),
            7 => self.transport.swing = self.v.about(1.0),
            8 => self.transport.beats_per_bar = self.transport().beats_per_bar,
            _ => {}
        }
        if self.transport.beats.abs() > 2e9 && self.v.yes() {
            self.transport.beats = 0.0;
        }
    }
}

// ---- blocks and runs

impl Adverse {
    fn frames(&mut self) -> u64 {
        match self.v.below(32) {
            0 | 1 => 0,
            2 | 3 => 1,
            4..20 => 1 + self.v.below(24),
            20..29 => self.v.below(160),
            29 | 30 => self.v.below(512),
            _ if self.v.one_in(16) => 4096,
            _ => self.v.below(1024),
        }
    }

    fn restart(&mut self, frames: u64) -> Present<u64> {
        match self.v.below(12) {
            0 | 1 => Present::Yes(0),
            2 => Present::Yes(frames),
            3 => Present::Yes(frames + 1 + self.v.below(3)),
            4 if self.v.one_in(4) => Present::Yes(self.v.number()),
            5..8 => Present::Yes(self.v.below(frames + 1)),
            _ => Present::No,
        }
    }

    fn length(&mut self, frames: u64) -> u64 {
        match self.v.below(64) {
            0 => 8192,
            1..16 => (frames + self.v.below(5)).min(8192),
            _ => frames,
        }
    }

    /// Whether the next block's increment asks for another coefficient, which the settings then have; now and then it is left as it was.
    pub fn has_other_coefficient(&mut self) -> bool {
        if self.smooth <= 0.0 || self.v.one_in(8) {
            return false;
        }
        let own = coefficient(&self.settings, self.smooth, &self.transport);
        let other = own != self.settings.smooth;
        self.settings.smooth = own;
        other
    }

    /// A block of so many frames, after the settings that its increment asks for; the song position moves on.
    pub fn block(&mut self, frames: u64) {
        self.change_transport();
        if self.has_other_coefficient() {
            self.push(Call::Settings(self.settings), self.smooth);
        }
        let restart = self.restart(frames);
        let block = Block {
            transport: transport_bits(&self.transport),
            frames,
            restart,
            x_len: self.length(frames),
            y_len: self.length(frames),
        };
        self.push(Call::Block(block), 0.0);
        self.transport.advance(frames as usize);
    }

    fn bus(&mut self) -> Call {
        let any = self.v.below(16);
        let bus = self
            .v
            .of(&[self.buses[0].into(), self.buses[1].into(), any]);
        let value = match self.v.below(8) {
            0 => self.v.of(&[0.0, -0.0]),
            1 => self.v.of(&[f32::MAX, f32::MIN, 1e-45, 1.0, -1.0]),
            2 => self.v.finite_f32(),
            3..5 => -self.v.unit_f32(),
            _ => self.v.unit_f32(),
        };
        Call::Bus {
            bus: bus % 16,
            value: bits(value),
        }
    }

    fn push(&mut self, call: Call, smooth: f32) {
        if let Call::Settings(s) = &call
            && questions::settings(s) == 0
        {
            (self.settings, self.smooth) = (*s, smooth);
        }
        self.calls.push(call);
        self.smooths.push(smooth);
    }

    /// A call by its tag, accepted unless the song has gone out of range, a curve is off the grid or a path off the paper.
    pub fn call(&mut self, tag: usize) -> (Call, f32) {
        let call = match tag {
            0 => {
                let (s, smooth) = self.settings();
                return (Call::Settings(s), smooth);
            }
            1 => Call::Shape(self.shape()),
            2 => Call::Path(self.path()),
            3 => self.bus(),
            4 => {
                let other = self.transport();
                Call::Phase(transport_bits(&self.v.of(&[self.transport, other])))
            }
            6 => {
                let shape = self.shape();
                let xs: Vec<f32> = shape.points.iter().map(|p| f32::from_bits(p.x)).collect();
                let x = self.place(&xs);
                Call::ShapeAt { shape, x }
            }
            7 => {
                let path = self.path();
                let t = self.place(&path_of(&path).times);
                Call::PathAt { path, t }
            }
            _ => Call::Legs(self.path()),
        };
        (call, 0.0)
    }

    fn next(&mut self) {
        let tag = match self.v.below(32) {
            0..4 => 0,
            4..7 => 1,
            7 | 8 => 2,
            9..14 => 3,
            14 | 15 => 4,
            16 => 6,
            17 => 7,
            18 => 8,
            _ => 5,
        };
        if tag == 5 {
            let frames = self.frames();
            self.block(frames);
        } else {
            let (call, smooth) = self.call(tag);
            self.push(call, smooth);
        }
    }

    // A call of its own that is refused: were anything of it kept, the next block would show it.
    fn refused(&mut self) {
        let tag = match self.v.below(11) {
            9 | 10 => 5,
            tag => tag as usize,
        };
        let mut call = if tag == 5 {
            let frames = self.v.below(40);
            Call::Block(Block {
                transport: transport_bits(&self.transport()),
                frames,
                restart: self.restart(frames),
                x_len: frames,
                y_len: frames + self.v.below(3),
            })
        } else {
            self.call(tag).0
        };
        refused::refuse(&mut self.v, &mut call);
        self.push(call, 0.0);
    }
}

/// The run of a seed.
pub fn made(seed: u64) -> Made {
    let mut a = Adverse::new(seed);
    let (mut settings, smooth) = a.settings();
    (a.settings, a.smooth) = (settings, smooth);
    for _ in 0..3 + a.v.below(16) {
        a.next();
        if a.v.one_in(8) {
            a.refused();
        }
    }
    if a.v.one_in(40) {
        settings = refused::make(&mut a.v, settings);
    }
    a.smooths.insert(0, smooth);
    let seed = match a.v.below(8) {
        0 => a.v.of(&[0, 1, u64::MAX, 0x61C8_8646_80B5_83EB]),
        _ => a.v.word(),
    };
    let run = Run {
        settings,
        seed,
        calls: a.calls,
    };
    let is_spoiled = a.v.one_in(24);
    let bytes = if is_spoiled {
        spoiled::bytes(&mut a.v, &run)
    } else {
        run.bytes()
    };
    Made {
        run,
        smooths: a.smooths,
        bytes,
        spoiled: is_spoiled,
    }
}
