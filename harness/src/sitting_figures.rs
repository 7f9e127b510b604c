//! What a comparison of sittings tried, so that a reader sees that everything was tried.
use crate::items::Read;
use crate::lfo::Settings;
use crate::player::{Heard, Page};
use crate::reference::finished;
use crate::run::{Block, Present};
use crate::sittings::{Ending, Event};
use crate::values::{KINDS, MODES};
use std::collections::BTreeMap;
use std::fmt;

/// The numbers that an item is refused with, and those that an event fails with. A block's 6 and 8 are out of reach: within 2^40 frames the
/// song stays in range, and so many take hours.
const OF_ITEMS: [u64; 8] = [12, 13, 2, 4, 11, 10, 5, 6];
const OF_EVENTS: [u64; 8] = [18, 12, 13, 17, 7, 2, 9, 14];

/// The cases of events and blocks that are counted.
#[derive(Clone, Copy)]
enum Case {
    Replaced,
    OverABus,
    IntoNoFrames,
    AtTheEnd,
    BeyondTheEnd,
    LeftWaiting,
    SongLock,
    Finished,
    MinusZero,
    NoFrames,
    OneFrame,
    MostFrames,
    NanPrinted,
}

/// Each case in the order of `Case`.
const CASES: [&str; 13] = [
    "restarts replaced",
    "restarts that wait over a bus event",
    "restarts taken by a block of no frames",
    "restarts at the end of their block",
    "restarts beyond the end of their block",
    "restarts that wait at the end",
    "blocks with song lock in force",
    "blocks that finish a One-shot",
    "buses moved to −0",
    "blocks of no frames",
    "blocks of one frame",
    "blocks of 4,096 frames",
    "lines with a NaN",
];

#[derive(Default)]
pub struct Figures {
    pub sittings: u64,
    pub frames: u64,
    pub lines: u64,
    /// Blocks, restarts, buses and ends.
    events: [u64; 4],
    refused: BTreeMap<u64, u64>,
    failed: BTreeMap<u64, u64>,
    ended: u64,
    /// In the order of `CASES`.
    cases: [u64; CASES.len()],
    /// Accepted items by kind and mode.
    kinds: [[u64; 3]; 5],
    /// The greatest index of an event that failed.
    last_index: u64,
    /// Blocks that the bank of the source played too, and those in which it gave other bits: a fault of the harness.
    by_bank: u64,
    pub bank_differed: u64,
}

impl Figures {
    fn count(&mut self, case: Case, is_so: bool) {
        self.cases[case as usize] += u64::from(is_so);
    }

    pub fn item(&mut self, read: &Read) {
        self.sittings += 1;
        self.lines += 1;
        match read {
            Read::Item(item) => {
                let s = &item.settings;
                self.kinds[s.kind as usize][s.mode as usize] += 1;
            }
            _ => *self.refused.entry(read.answer()).or_default() += 1,
        }
    }

    /// An event that was read, with the restart that waits for the next block.
    pub fn event(&mut self, event: Event, waiting: Present<u64>) {
        let waits = waiting != Present::No;
        self.events[event.numbers()[0] as usize] += 1;
        match event {
            Event::Restart(_) => self.count(Case::Replaced, waits),
            Event::Bus { value, .. } => {
                self.count(Case::OverABus, waits);
                self.count(Case::MinusZero, value == (-0f32).to_bits());
            }
            Event::Block(_) => {}
            Event::End => self.count(Case::LeftWaiting, waits),
        }
    }

    /// An accepted block.
    pub fn block(&mut self, block: &Block, settings: &Settings, heard: &Heard) {
        let frames = block.frames;
        self.count(Case::SongLock, settings.song_lock);
        self.count(Case::Finished, finished(settings, heard));
        self.count(Case::NoFrames, frames == 0);
        self.count(Case::OneFrame, frames == 1);
        self.count(Case::MostFrames, frames == 4096);
        if let Present::Yes(at) = block.restart {
            self.count(Case::IntoNoFrames, frames == 0);
            self.count(Case::AtTheEnd, at == frames);
            self.count(Case::BeyondTheEnd, at > frames);
        }
    }

    pub fn line(&mut self, x: u64, y: u64) {
        self.frames += 1;
        self.lines += 1;
        self.count(Case::NanPrinted, x == 0x7fc0_0000 || y == 0x7fc0_0000);
    }

    /// The end of a sitting whose item is accepted.
    pub fn ended(&mut self, ending: Ending, page: &Page) {
        self.by_bank += page.by_bank;
        self.bank_differed += page.bank_differed;
        if let Ending::Failed(index, number) = ending {
            self.lines += 1;
            self.last_index = self.last_index.max(index);
            *self.failed.entry(number).or_default() += 1;
        } else {
            self.ended += 1;
        }
    }
}

// ---- shown

fn listed(numbers: &[u64], counts: &BTreeMap<u64, u64>) -> String {
    let count = |n: &u64| format!("{n}: {}", counts.get(n).unwrap_or(&0));
    let list: Vec<String> = numbers.iter().map(count).collect();
    list.join(", ")
}

impl Figures {
    /// What did not occur.
    pub fn missing(&self) -> Vec<String> {
        let mut list = vec![];
        for (what, numbers, counts) in [
            ("an item refused with", OF_ITEMS, &self.refused),
            ("an event that fails with", OF_EVENTS, &self.failed),
        ] {
            let missing = numbers.iter().filter(|n| !counts.contains_key(n));
            list.extend(missing.map(|n| format!("{what} {n}")));
        }
        let cases = CASES.iter().zip(self.cases).filter(|c| c.1 == 0);
        list.extend(cases.map(|c| c.0.to_string()));
        for (kind, modes) in KINDS.iter().zip(self.kinds) {
            let missing = MODES.iter().zip(modes).filter(|m| m.1 == 0);
            list.extend(missing.map(|m| format!("{kind:?} {:?}", m.0)));
        }
        list
    }
}

impl fmt::Display for Figures {
    fn fmt(&self, f: &mut fmt::Formatter) -> fmt::Result {
        let [blocks, restarts, buses, ends] = self.events;
        writeln!(f, "  {} frames, {} lines", self.frames, self.lines)?;
        let refused = listed(&OF_ITEMS, &self.refused);
        writeln!(f, "  items refused, by number: {refused}")?;
        let failed = listed(&OF_EVENTS, &self.failed);
        let last = self.last_index;
        writeln!(
            f,
            "  events that fail, by number: {failed}; at index {last} at most"
        )?;
        writeln!(
            f,
            "  events: {blocks} blocks, {restarts} restarts, {buses} buses, {ends} ends; {} sittings end by it",
            self.ended
        )?;
        let cases = CASES.iter().zip(self.cases);
        let cases: Vec<String> = cases.map(|(name, n)| format!("{n} {name}")).collect();
        writeln!(f, "  {}", cases.join(", "))?;
        for (kind, modes) in KINDS.iter().zip(self.kinds) {
            let [free, restart, one_shot] = modes;
            writeln!(
                f,
                "  {kind:?}: {free} Free, {restart} Restart, {one_shot} OneShot"
            )?;
        }
        writeln!(
            f,
            "  the source's own bank played {} blocks too and differed in {}",
            self.by_bank, self.bank_differed
        )
    }
}
