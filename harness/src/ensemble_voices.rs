//! A voice of an ensemble is a player: of a run in which shared is never switched, the calls that one voice gets, as a run of a player of that
//! voice's seed. What the reference of a player (reference.rs) gives must be the voice's phases, finished and column. With shared on it is the
//! serving voice's.
use crate::ensemble_questions::{failed, make_failed};
use crate::ensemble_run::{Block, Call, Make, Run};
use crate::figures::Figures;
use crate::player::GOLDEN;
use crate::reference::{self, Played};
use crate::run::{self, Present};
use crate::runs::numbers;

/// The calls of a player, each with its place in the run of the ensemble.
#[derive(Default)]
struct Voice {
    calls: Vec<run::Call>,
    places: Vec<usize>,
    /// The greatest frame asked since the last block of any voice with shared on, else the last one asked of this voice.
    asked: Option<u64>,
}

impl Voice {
    fn ask(&mut self, frame: u64, shared: bool) {
        let before = self.asked.filter(|_| shared);
        self.asked = before.max(Some(frame));
    }

    fn block(&mut self, b: &Block) -> run::Call {
        run::Call::Block(run::Block {
            transport: b.transport,
            frames: b.frames,
            restart: self.asked.take().map_or(Present::No, Present::Yes),
            x_len: b.frames,
            y_len: b.frames,
        })
    }

    /// What the voice gets of an accepted call.
    fn part(&mut self, call: &Call, v: u64, shared: bool) -> Option<run::Call> {
        match call {
            Call::Settings { settings, .. } => Some(run::Call::Settings(*settings)),
            Call::Edit(edit) => Some(edit.clone()),
            Call::Block(b) => Some(self.block(b)),
            Call::Phase { voice, .. } | Call::Trigger { voice, .. } if !shared && *voice != v => {
                None
            }
            Call::Phase { transport, .. } => Some(run::Call::Phase(*transport)),
            Call::Trigger { frame, .. } => {
                self.ask(*frame, shared);
                None
            }
        }
    }
}

/// What voice v gets, of a run that never switches shared.
fn voice_of(run: &Run, v: u64) -> Option<Voice> {
    let make = &run.make;
    let (mut voice, mut frames) = (Voice::default(), 0);
    for (i, call) in run.calls.iter().enumerate() {
        if !failed(call, make.count, frames).is_empty() {
            continue;
        }
        match call {
            Call::Settings { shared, .. } if *shared != make.shared => return None,
            Call::Block(b) => frames += b.frames,
            _ => {}
        }
        if let Some(call) = voice.part(call, v, make.shared == 1) {
            voice.calls.push(call);
            voice.places.push(i + 1);
        }
    }
    Some(voice)
}

/// The player of voice v, or of the serving one.
fn player(make: &Make, v: u64, calls: Vec<run::Call>) -> run::Run {
    let times = if make.shared == 1 { u64::MAX } else { v + 1 };
    run::Run {
        settings: make.settings,
        seed: make.seed.wrapping_add(times.wrapping_mul(GOLDEN)),
        calls,
    }
}

/// The numbers that a call gave.
fn given(played: &Played, i: usize) -> Vec<u64> {
    let start = if i == 0 { 0 } else { played.entries[i - 1].end };
    numbers(&played.out[start..played.entries[i].end])
}

/// Of what a block of an ensemble gave, the part of voice v.
fn column(all: &[u64], count: usize, v: usize, x_len: usize, frames: usize) -> Vec<u64> {
    let (finished, values) = all[1..].split_at(count);
    let mut part = vec![all[0], finished[v]];
    for buffer in [&values[..x_len], &values[x_len..]] {
        part.extend((0..frames).map(|k| buffer[k * count + v]));
    }
    part
}

/// Whether voice v of the run gave what a player gives; nothing where the run is not one that a player can get.
pub fn is_a_player(run: &Run, v: u64, played: &Played, figures: &mut Figures) -> Option<bool> {
    if !make_failed(&run.make).is_empty() {
        return None;
    }
    let Voice { calls, places, .. } = voice_of(run, v)?;
    let bytes = player(&run.make, v, calls).bytes();
    let own = reference::play(&bytes, &[], figures);
    let count = run.make.count as usize;
    let same = |(j, i): (usize, &usize)| {
        let (player, mut all) = (given(&own, j + 1), given(played, *i));
        if let Call::Block(b) = &run.calls[*i - 1] {
            let (x_len, frames) = (b.x_len as usize, b.frames as usize);
            all = column(&all, count, v as usize, x_len, frames);
        }
        player == all
    };
    Some(places.iter().enumerate().all(same))
}
