//! The ensemble by the Rust source: one slot, a voice for each number and one that serves all. Each voice plays by the lines that a player has
//! (`Lfo::play_voice_` of opened.rs), which take our strengths, times and coefficient. As long as these are the source's own, an `LfoBank` gets the
//! same calls and plays the same blocks by `process_scalar`, and both must give the same bits; its phases too.
use crate::ensemble_run::{Block, Make};
use crate::lfo::{self, LfoBank, LfoVoice};
use crate::player::{GOLDEN, Heard, Page, is_minus_zero, transport_of};
use crate::run::{Settings, Transport};
use crate::tally::bits32;

pub struct Ensemble {
    pub page: Page,
    pub shared: bool,
    voices: Vec<LfoVoice>,
    /// Plays for all with shared on.
    server: LfoVoice,
    /// The restart asked of each voice since the last block.
    pub asked: Vec<Option<u64>>,
    /// The greatest frame asked of any voice since the last block, replaced ones included.
    pub greatest: Option<u64>,
}

/// What came of a block.
pub struct AllHeard {
    /// Cycles a sample.
    pub inc: f64,
    /// Of each voice, with shared on the serving one's for all.
    pub voices: Vec<Heard>,
}

fn seeded(seed: u64, times: u64) -> LfoVoice {
    LfoVoice::new(seed.wrapping_add(times.wrapping_mul(GOLDEN)))
}

impl Ensemble {
    /// `smooth` is the setting that gave the coefficient, 0 where that is not known.
    pub fn new(make: &Make, smooth: f32) -> Self {
        let count = make.count as usize;
        let mut page = Page::new(&make.settings, smooth, make.seed, count);
        if let Some(bank) = &mut page.bank {
            bank.lfo.settings.shared = make.shared == 1;
        }
        Self {
            page,
            shared: make.shared == 1,
            voices: (1..=make.count).map(|i| seeded(make.seed, i)).collect(),
            server: LfoVoice::new(make.seed.wrapping_sub(GOLDEN)),
            asked: vec![None; count],
            greatest: None,
        }
    }

    pub fn set_settings(&mut self, s: &Settings, shared: bool, smooth: f32) {
        self.page.set_settings(s, smooth);
        self.shared = shared;
        if let Some(bank) = &mut self.page.bank {
            bank.lfo.settings.shared = shared;
        }
    }

    /// A bus is common: it is set in every voice and in the one that serves all.
    pub fn set_bus(&mut self, bus: u64, value: u32) {
        let (bus, value) = (bus as usize, f32::from_bits(value));
        let all = self.voices.iter_mut().chain([&mut self.server]);
        all.for_each(|voice| voice.set_bus(bus, value));
        if let Some(bank) = &mut self.page.bank {
            for v in 0..self.voices.len() {
                bank.voice_mut(v).set_bus(bus, value);
            }
            bank.shared_mut().set_bus(bus, value);
        }
    }

    /// Asks a restart of a voice: in place of the one asked before, if there is one.
    pub fn trigger(&mut self, voice: u64, frame: u64) {
        self.asked[voice as usize] = Some(frame);
        self.greatest = self.greatest.max(Some(frame));
        if let Some(bank) = &mut self.page.bank {
            bank.trigger(voice as usize, frame as usize);
        }
    }

    pub fn phase(&mut self, voice: u64, t: &Transport) -> f32 {
        let transport = transport_of(t);
        let v = voice as usize;
        let record = if self.shared {
            &self.server
        } else {
            &self.voices[v]
        };
        let phase = self.page.lfo.phase(record, &transport);
        let own = |bank: &LfoBank| bits32(bank.phase(v, &transport)) == bits32(phase);
        if !self.page.bank.as_ref().is_none_or(own) {
            self.page.bank_differed += 1;
        }
        phase
    }

    /// Plays a block: voice v's frame k goes to place k × voices + v.
    pub fn block(&mut self, b: &Block, x: &mut [f32], y: &mut [f32]) -> AllHeard {
        let transport = transport_of(&b.transport);
        let frames = b.frames as usize;
        self.page.check_bank(&transport, frames);
        let page = &mut self.page;
        let block = page.lfo.prepare_(&transport, frames, &page.supplied);
        let mut voices = if self.shared {
            self.play_server(&block, x, y)
        } else {
            self.play_voices(&block, x, y)
        };
        self.asked.fill(None);
        self.greatest = None;
        for heard in &mut voices {
            heard.zeros |= is_minus_zero(transport.tempo);
        }
        let all = frames * self.voices.len();
        self.page
            .play_bank(&transport, frames, &x[..all], &y[..all]);
        let inc = block.cycles_per_sample();
        AllHeard { inc, voices }
    }

    fn play_voices(&mut self, block: &lfo::Block, x: &mut [f32], y: &mut [f32]) -> Vec<Heard> {
        let count = self.voices.len();
        let Page { lfo, supplied, .. } = &self.page;
        let voices = self.voices.iter_mut().zip(&self.asked).enumerate();
        let play = |(v, (voice, asked)): (usize, (&mut LfoVoice, &Option<u64>))| {
            let restart = asked.map(|at| at as usize);
            lfo.play_voice_(block, voice, restart, supplied, |k, a, b| {
                x[k * count + v] = a;
                y[k * count + v] = b;
            })
        };
        voices.map(play).collect()
    }

    fn play_server(&mut self, block: &lfo::Block, x: &mut [f32], y: &mut [f32]) -> Vec<Heard> {
        let count = self.voices.len();
        let Page { lfo, supplied, .. } = &self.page;
        let restart = self.greatest.map(|at| at as usize);
        let heard = lfo.play_voice_(block, &mut self.server, restart, supplied, |k, a, b| {
            x[k * count..][..count].fill(a);
            y[k * count..][..count].fill(b);
        });
        vec![heard; count]
    }
}
