//! The questions to the calls of an ensemble, in their order, written from W-205 of document 02: 15 and 16 stand before question 1, 7 wants frames
//! times voices in x and y, and 8 counts frames. The rest is as for a player (questions.rs).
use crate::ensemble_run::{Block, Call, Make};
use crate::figures::MAKE;
use crate::questions::{self, Asked, FRAMES, yes_or_no};
use crate::run::Settings;

/// How many voices there may be.
pub const VOICES: std::ops::RangeInclusive<u64> = 2..=16;

/// The most frames of a block.
pub const BLOCK: u64 = 4096;

/// The questions that apply to the call of each tag, and to making an ensemble (last).
pub const APPLY: [(usize, &[u64]); 8] = [
    (0, &[1, 2, 5]),
    (1, &[1, 2, 4, 10]),
    (2, &[1, 2, 11]),
    (3, &[2, 9]),
    (4, &[16, 1, 2, 6]),
    (5, &[1, 2, 6, 7, 8]),
    (9, &[16]),
    (MAKING, &[15, 1, 2, 5]),
];

/// The place of making an ensemble in lists by tag; a player's place is that of tag 9 here.
pub const MAKING: usize = MAKE + 1;

fn settings(s: &Settings, shared: u64) -> Asked {
    let mut asked = questions::settings_asked(s);
    for question in asked.iter_mut().filter(|q| q.0 == 1) {
        question.1 &= yes_or_no(shared);
    }
    asked
}

fn block(b: &Block, count: u64, played: u64) -> Asked {
    let mut asked = questions::phase(&b.transport);
    let wanted = u128::from(b.frames) * u128::from(count);
    let long = |len: u64| u128::from(len) >= wanted;
    asked.push((7, b.frames <= BLOCK && long(b.x_len) && long(b.y_len)));
    asked.push((8, u128::from(played) + u128::from(b.frames) <= FRAMES));
    asked
}

fn asked(call: &Call, count: u64, played: u64) -> Asked {
    let is_there = |voice: &u64| (16, *voice < count);
    match call {
        Call::Settings {
            settings: s,
            shared,
        } => settings(s, *shared),
        Call::Edit(edit) => questions::asked(edit, played),
        Call::Phase { voice, transport } => {
            let mut asked = vec![is_there(voice)];
            asked.extend(questions::phase(transport));
            asked
        }
        Call::Block(b) => block(b, count, played),
        Call::Trigger { voice, .. } => vec![is_there(voice)],
    }
}

fn noes(asked: &Asked) -> Vec<u64> {
    asked.iter().filter(|q| !q.1).map(|q| q.0).collect()
}

/// Every question that the call fails, in their order, on an ensemble of so many voices that has played so many frames.
pub fn failed(call: &Call, count: u64, played: u64) -> Vec<u64> {
    noes(&asked(call, count, played))
}

/// Every question that making an ensemble fails.
pub fn make_failed(make: &Make) -> Vec<u64> {
    let mut asked = vec![(15, VOICES.contains(&make.count))];
    asked.extend(settings(&make.settings, make.shared));
    noes(&asked)
}
