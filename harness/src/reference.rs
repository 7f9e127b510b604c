//! What `lfo_run` is to give: the bytes of a run read by RUN.md (reading.rs), the questions (questions.rs) and the player by the Rust source
//! (player.rs).
use crate::figures::{Ending, Figures, MAKE};
use crate::legs::{self, legs};
use crate::lfo::{self, Direction, Lfo, LfoType, Mode};
use crate::player::{Heard, Player, path_of, path_points, shape_of, transport_of};
use crate::questions;
use crate::reading::Reader;
use crate::run::{Block, Call, Path, Settings, Shape, put_number};
use crate::tally::bits32;

pub const MALFORMED: u64 = 255;

/// What one call gave: the end of its bytes in the output.
#[derive(Clone, Debug)]
pub struct Entry {
    pub tag: usize,
    pub answer: u64,
    pub end: usize,
    pub x_len: u64,
}

/// The output of a run where `out` has room for all of it.
pub struct Played {
    pub out: Vec<u8>,
    /// Making a player first, then the calls that were read.
    pub entries: Vec<Entry>,
    pub ending: Ending,
    /// Whether `max` was put the zeros −0 and 0.
    pub zeros: bool,
}

impl Played {
    /// How many bytes are written to an `out` of this length: a call that has no room ends the output.
    pub fn fits(&self, out_len: usize) -> usize {
        let malformed = (self.ending == Ending::Malformed).then_some(self.out.len());
        let ends = self.entries.iter().map(|e| e.end).chain(malformed);
        ends.take_while(|end| *end <= out_len).last().unwrap_or(0)
    }
}

fn shape_at(shape: &Shape, x: u32) -> f32 {
    Lfo::shape_at_(&shape_of(shape), f32::from_bits(x))
}

fn path_at(path: &Path, t: u32) -> (f32, f32) {
    Lfo::path_at_(&path_of(path), f32::from_bits(t))
}

/// By whole numbers.
fn legs_of(path: &Path) -> Vec<f32> {
    legs(&path_points(path), path.closed == 1, legs::exact)
}

/// Whether a loopback is in force, by the x of the loopback point, which only a Drawn curve has.
pub fn in_force(direction: Direction, heard: &Heard) -> bool {
    heard.loopback.is_some_and(|l| match direction {
        Direction::Forward | Direction::PingPong => 1.0 - l > 1e-9,
        Direction::Reverse => l > 1e-9,
    })
}

/// Whether a One-shot has finished with the last frame of a block: never with a loopback in force, else at 2 cycles where a curve goes there and back,
/// and at 1 in every other case.
pub fn finished(s: &lfo::Settings, heard: &Heard) -> bool {
    let there_and_back =
        s.direction == Direction::PingPong && matches!(s.kind, LfoType::Drawn | LfoType::Path);
    let end = if there_and_back { 2.0 } else { 1.0 };
    s.mode == Mode::OneShot
        && !in_force(s.direction, heard)
        && heard.last.is_some_and(|count| count >= end)
}

struct Playing<'a> {
    player: Player,
    played: Played,
    frames: u64,
    blocks: u64,
    figures: &'a mut Figures,
}

impl Playing<'_> {
    fn put(&mut self, n: u64) {
        put_number(&mut self.played.out, n);
    }

    fn float(&mut self, x: f32) {
        self.put(bits32(x));
    }

    fn entry(&mut self, tag: usize, answer: u64, x_len: u64) {
        self.figures.answers[tag][answer as usize] += 1;
        let end = self.played.out.len();
        self.played.entries.push(Entry {
            tag,
            answer,
            end,
            x_len,
        });
    }

    /// Makes a call; `smooth` is the setting that gave its coefficient, 0 where that is not known.
    fn call(&mut self, call: &Call, smooth: f32) {
        let failed = questions::failed(call, self.frames);
        let answer = failed.first().copied().unwrap_or(0);
        self.figures.failed(call.tag(), &failed);
        match call {
            Call::Shape(s) | Call::ShapeAt { shape: s, .. } => self.figures.shape(s, answer),
            Call::Path(p) | Call::PathAt { path: p, .. } | Call::Legs(p) => {
                self.figures.path(p, answer);
            }
            _ => {}
        }
        self.put(answer);
        if let Call::Block(b) = call {
            self.block(b, answer);
            self.entry(call.tag(), answer, b.x_len);
            return;
        }
        if answer == 0 {
            match call {
                Call::Settings(s) => self.player.page.set_settings(s, smooth),
                Call::Shape(s) => self.player.page.set_shape(s),
                Call::Path(p) => self.player.page.set_path(p),
                Call::Bus { bus, value } => self.player.set_bus(*bus, *value),
                Call::Phase(t) => {
                    let phase = self.player.phase(t);
                    self.figures.phase(phase);
                    self.float(phase);
                }
                Call::Block(_) => {}
                Call::ShapeAt { shape, x } => self.float(shape_at(shape, *x)),
                Call::PathAt { path, t } => {
                    let (x, y) = path_at(path, *t);
                    self.float(x);
                    self.float(y);
                }
                Call::Legs(path) => {
                    let legs = legs_of(path);
                    self.put(legs.len() as u64);
                    for leg in legs {
                        self.float(leg);
                    }
                }
            }
        }
        self.entry(call.tag(), answer, 0);
    }

    fn block(&mut self, b: &Block, answer: u64) {
        let mut x = vec![7.0; b.x_len as usize];
        let mut y = vec![7.0; b.y_len as usize];
        if answer == 0 {
            let (inc, heard) = self.player.block(b, &mut x, &mut y);
            let s = self.player.page.lfo.settings;
            let finished = finished(&s, &heard);
            self.put(finished.into());
            if let (Mode::OneShot, Some(count)) = (s.mode, heard.last) {
                let in_force = in_force(s.direction, &heard);
                self.figures.ends.block(&s, in_force, count, finished);
            }
            self.frames += b.frames;
            self.blocks += 1;
            self.played.zeros |= heard.zeros;
            let looped = self.player.page.lfo.shape().loopback().is_some();
            let transport = transport_of(&b.transport);
            self.figures.block(&s, looped, &transport, b, inc);
            let n = b.frames as usize;
            let smoothed = self.player.page.smoothed();
            self.figures
                .heard(&[&x[..n], &y[..n]], smoothed, finished, heard);
        }
        for value in x.into_iter().chain(y) {
            self.float(value);
        }
    }
}

/// Making a player: nothing where that is refused.
fn make<'a>(
    (settings, seed): (&Settings, u64),
    smooth: f32,
    figures: &'a mut Figures,
) -> Result<Playing<'a>, Played> {
    let failed = questions::failed(&Call::Settings(*settings), 0);
    let answer = failed.first().copied().unwrap_or(0);
    figures.answers[MAKE][answer as usize] += 1;
    figures.failed(MAKE, &failed);
    let entry = Entry {
        tag: MAKE,
        answer,
        end: 1,
        x_len: 0,
    };
    let played = Played {
        out: vec![answer as u8],
        entries: vec![entry],
        ending: Ending::AtEnd,
        zeros: false,
    };
    if answer > 0 {
        figures.endings[1] += 1;
        return Err(Played {
            ending: Ending::Refused,
            ..played
        });
    }
    Ok(Playing {
        player: Player::new(settings, seed, smooth),
        played,
        frames: 0,
        blocks: 0,
        figures,
    })
}

fn malformed(mut played: Played, figures: &mut Figures) -> Played {
    figures.endings[2] += 1;
    put_number(&mut played.out, MALFORMED);
    played.ending = Ending::Malformed;
    played
}

fn ended(playing: Playing<'_>) -> (Played, &mut Figures) {
    let p = &playing.player.page;
    playing
        .figures
        .bank(playing.blocks, p.by_bank, p.bank_differed);
    (playing.played, playing.figures)
}

/// Plays the bytes of a run. `smooths` has for making and for each call the setting that gave its coefficient.
pub fn play(bytes: &[u8], smooths: &[f32], figures: &mut Figures) -> Played {
    let smooth = |i: usize| smooths.get(i).copied().unwrap_or(0.0);
    let mut reader = Reader::new(bytes);
    let Some((settings, seed)) = reader.make() else {
        let nothing = Played {
            out: vec![],
            entries: vec![],
            ending: Ending::Malformed,
            zeros: false,
        };
        return malformed(nothing, figures);
    };
    let mut playing = match make((&settings, seed), smooth(0), figures) {
        Ok(playing) => playing,
        Err(played) => return played,
    };
    while !reader.at_end() {
        let Some(call) = reader.call() else {
            let (played, figures) = ended(playing);
            return malformed(played, figures);
        };
        let i = playing.played.entries.len();
        playing.call(&call, smooth(i));
    }
    let (played, figures) = ended(playing);
    figures.endings[0] += 1;
    played
}
