//! Adverse runs of ensembles, the same for the same seed: mostly accepted calls, with requests and edits between any two blocks and shared switched;
//! now and then a call that some question refuses, or bytes that are no run.
use crate::adverse::Adverse;
use crate::ensemble_questions::{BLOCK, failed, make_failed};
use crate::ensemble_run::{Block, Call, LENGTH, Make, Run};
use crate::lfo::Transport;
use crate::run::{Settings, transport_bits};
use crate::values::Values;
use crate::{refused, spoiled};

/// A run with its bytes.
pub struct Made {
    pub run: Run,
    /// For making and for each call, the setting that gave its coefficient; 0 where it has none or the coefficient is any number.
    pub smooths: Vec<f32>,
    pub bytes: Vec<u8>,
    /// Whether the bytes are no longer those of the run.
    pub spoiled: bool,
}

pub struct Ensembles {
    pub a: Adverse,
    pub count: u64,
    pub shared: u64,
    calls: Vec<Call>,
    smooths: Vec<f32>,
}

// ---- accepted calls

impl Ensembles {
    pub fn new(seed: u64) -> Self {
        let mut a = Adverse::new(seed);
        let count = 2 + a.v.below(15);
        let shared = a.v.one_in(3).into();
        Self {
            a,
            count,
            shared,
            calls: vec![],
            smooths: vec![],
        }
    }

    fn push(&mut self, call: Call, smooth: f32) {
        self.calls.push(call);
        self.smooths.push(smooth);
    }

    /// Settings, shared switched as often as not; now and then nothing but shared changes.
    fn settings(&mut self) {
        if self.a.v.yes() {
            self.shared ^= 1;
        }
        if !self.a.v.one_in(3) {
            (self.a.settings, self.a.smooth) = self.a.settings();
        }
        self.same_settings();
    }

    fn same_settings(&mut self) {
        let settings = self.a.settings;
        let shared = self.shared;
        self.push(Call::Settings { settings, shared }, self.a.smooth);
    }

    fn transport(&mut self) -> Transport {
        let other = self.a.transport();
        self.a.v.of(&[self.a.transport, other])
    }

    fn phase(&mut self) -> Call {
        Call::Phase {
            voice: self.a.v.below(self.count),
            transport: transport_bits(&self.transport()),
        }
    }

    /// A frame within a short block, at its ends or beyond, or any number.
    fn frame(&mut self) -> u64 {
        let v = &mut self.a.v;
        match v.below(16) {
            0 => v.number(),
            1 | 2 => 0,
            3 => v.of(&[4095, 4096, 4097, u64::MAX]),
            4..8 => v.below(16),
            _ => v.below(5),
        }
    }

    /// Requests of some voices, now and then of the same again.
    fn triggers(&mut self) {
        let mut voice = self.a.v.below(self.count);
        for _ in 0..1 + self.a.v.below(4) {
            if !self.a.v.one_in(3) {
                voice = self.a.v.below(self.count);
            }
            let frame = self.frame();
            self.push(Call::Trigger { voice, frame }, 0.0);
        }
    }

    /// Few frames; now and then many, so that the values stay few in most runs.
    fn frames(&mut self) -> u64 {
        let v = &mut self.a.v;
        match v.below(64) {
            0..6 => 0,
            6..14 => 1,
            14..56 => 2 + v.below(5),
            56..62 => v.below(24),
            62 => v.below(80),
            _ if v.one_in(32) => BLOCK - v.below(2),
            _ => v.below(200),
        }
    }

    fn length(&mut self, all: u64) -> u64 {
        let v = &mut self.a.v;
        match v.below(48) {
            0 if v.one_in(128) => LENGTH,
            0..12 => (all + v.below(5)).min(LENGTH),
            _ => all,
        }
    }

    fn block_of(&mut self, frames: u64) -> Block {
        let all = frames * self.count;
        Block {
            transport: transport_bits(&self.a.transport),
            frames,
            x_len: self.length(all),
            y_len: self.length(all),
        }
    }

    /// A block, after the settings that its increment asks for; the song position moves on.
    fn block(&mut self) {
        self.a.change_transport();
        if self.a.has_other_coefficient() {
            self.same_settings();
        }
        let frames = self.frames();
        let block = self.block_of(frames);
        self.push(Call::Block(block), 0.0);
        self.a.transport.advance(frames as usize);
    }

    fn edit(&mut self, tag: usize) -> Call {
        Call::Edit(self.a.call(tag).0)
    }

    fn edited(&mut self, tag: usize) {
        let edit = self.edit(tag);
        self.push(edit, 0.0);
    }

    fn next(&mut self) {
        match self.a.v.below(32) {
            0..4 => self.settings(),
            4 | 5 => self.edited(1),
            6 => self.edited(2),
            7..10 => self.edited(3),
            10..13 => {
                let phase = self.phase();
                self.push(phase, 0.0);
            }
            13..19 => self.triggers(),
            _ => self.block(),
        }
    }
}

// ---- refused calls

/// A voice that is not there: just past the last, a known one but for its high bits, any.
fn no_voice(v: &mut Values, count: u64) -> u64 {
    let any = v.number().max(count);
    let low = v.below(count);
    v.of(&[
        count,
        count,
        count + 1,
        16.max(count),
        256 + low,
        (1 << 32) + low,
        u64::MAX,
        any,
    ])
}

/// A count outside 2 to 16.
fn no_count(v: &mut Values) -> u64 {
    let any = v.number().max(17);
    let low = 2 + v.below(15);
    let far = [256 + low, (1 << 32) + low, u64::MAX, any];
    v.of(&[0, 1, 17, far[0], far[1], far[2], far[3]])
}

fn settings_fault(v: &mut Values, settings: &mut Settings, shared: &mut u64) {
    if v.one_in(4) {
        *shared = refused::unknown(v, 2);
    } else {
        refused::settings(v, settings);
    }
}

/// Too many frames, in buffers that are long enough or short; or one value too few, or just enough for the frames of one voice.
fn block_fault(v: &mut Values, b: &mut Block, count: u64) {
    match v.below(6) {
        0 => {
            b.frames = v.of(&[1 << 40, (1 << 40) + 1, u64::MAX, 65_536, 1 << 60]);
            (b.x_len, b.y_len) = (v.below(20), v.below(20));
        }
        1 => {
            b.frames = BLOCK + 1;
            let all = if count < 4 { b.frames * count } else { 20 };
            (b.x_len, b.y_len) = (all, all + v.below(2));
        }
        2 | 3 => {
            b.frames = 1 + b.frames % 12;
            let all = b.frames * count;
            let short = v.of(&[all - 1, all - 1, all - 1, b.frames, b.frames - 1, 0]);
            let long = all + v.below(3);
            (b.x_len, b.y_len) = v.of(&[(short, long), (long, short), (short, short)]);
        }
        _ => refused::transport(v, &mut b.transport),
    }
}

fn fault(v: &mut Values, call: &mut Call, count: u64) {
    match call {
        Call::Settings { settings, shared } => settings_fault(v, settings, shared),
        Call::Edit(edit) => refused::refuse(v, edit),
        Call::Phase { voice, transport } => {
            if v.one_in(3) {
                *voice = no_voice(v, count);
            } else {
                refused::transport(v, transport);
            }
        }
        Call::Block(b) => block_fault(v, b, count),
        Call::Trigger { voice, .. } => *voice = no_voice(v, count),
    }
}

/// Makes the call one that is refused, by one fault or two.
pub fn refuse(v: &mut Values, call: &mut Call, count: u64) {
    fault(v, call, count);
    if v.one_in(2) {
        fault(v, call, count);
    }
    while failed(call, count, 0).is_empty() {
        fault(v, call, count);
    }
}

/// Makes it one that is refused, by one fault or two.
pub fn refuse_make(v: &mut Values, make: &mut Make) {
    loop {
        if v.yes() {
            make.count = no_count(v);
        } else {
            settings_fault(v, &mut make.settings, &mut make.shared);
        }
        if v.yes() && !make_failed(make).is_empty() {
            return;
        }
    }
}

impl Ensembles {
    /// A call by its tag.
    pub fn call(&mut self, tag: usize) -> Call {
        match tag {
            0 => Call::Settings {
                settings: self.a.settings().0,
                // were it kept, the next block would show it
                shared: self.shared ^ 1,
            },
            4 => self.phase(),
            5 => {
                let frames = self.a.v.below(8);
                self.block_of(frames).into()
            }
            9 => Call::Trigger {
                voice: 0,
                frame: self.frame(),
            },
            tag => self.edit(tag),
        }
    }

    /// A call that is refused.
    pub fn refused(&mut self, tag: usize) -> Call {
        let mut call = self.call(tag);
        refuse(&mut self.a.v, &mut call, self.count);
        call
    }
}

impl From<Block> for Call {
    fn from(b: Block) -> Self {
        Self::Block(b)
    }
}

// ---- malformed bytes

/// A call that is malformed: a tag that no ensemble knows, a list or a buffer too long.
pub fn behind(v: &mut Values, way: u64) -> Vec<u64> {
    match way {
        0 => {
            let own = v.of(&[6, 7, 8]);
            let high = [10, 127, 128, 256, 265, (1 << 32) + 9, u64::MAX];
            vec![if v.yes() { own } else { v.of(&high) }]
        }
        1 => vec![1, v.of(&[4097, 5000, 1 << 32])],
        2 => vec![2, v.of(&[4097, 65_536, 1 << 40]), 0],
        _ => {
            let one = 1.0f64.to_bits();
            let long = LENGTH + 1;
            let (x_len, y_len) = v.of(&[(long, 0), (0, long), (1 << 32, 4), (4, u64::MAX)]);
            vec![5, one, one, one, 0, 0, 0, 0, 0, 0, 0, x_len, y_len]
        }
    }
}

// ---- runs

fn make(e: &mut Ensembles) -> Make {
    let v = &mut e.a.v;
    let seed = match v.below(8) {
        0 => v.of(&[0, 1, u64::MAX, 0x61C8_8646_80B5_83EB, 0x9E37_79B9_7F4A_7C15]),
        _ => v.word(),
    };
    Make {
        settings: e.a.settings,
        shared: e.shared,
        count: e.count,
        seed,
    }
}

/// The run of a seed.
pub fn made(seed: u64) -> Made {
    let mut e = Ensembles::new(seed);
    (e.a.settings, e.a.smooth) = e.a.settings();
    let mut make = make(&mut e);
    e.smooths.push(e.a.smooth);
    // curves that buses move, from the start
    if e.a.v.one_in(3) {
        (1..=3).for_each(|tag| e.edited(tag));
    }
    for _ in 0..4 + e.a.v.below(14) {
        e.next();
        if e.a.v.one_in(8) {
            let tag = e.a.v.of(&[0, 0, 1, 2, 3, 4, 4, 5, 5, 5, 5, 9]);
            let call = e.refused(tag);
            e.push(call, 0.0);
        }
    }
    if e.a.v.one_in(40) {
        refuse_make(&mut e.a.v, &mut make);
    }
    let run = Run {
        make,
        calls: e.calls,
    };
    let is_spoiled = e.a.v.one_in(24);
    let bytes = if is_spoiled {
        let way = e.a.v.below(spoiled::WAYS);
        spoiled::spoil(&mut e.a.v, &run.numbers(), behind, way)
    } else {
        run.bytes()
    };
    Made {
        run,
        smooths: e.smooths,
        bytes,
        spoiled: is_spoiled,
    }
}
