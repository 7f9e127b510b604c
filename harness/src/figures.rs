//! What the runs of a comparison tried, so that a reader sees that everything was tried.
use crate::bend::{source_strength, strength};
use crate::lfo::{LfoType, MAX_POINTS, Mode, Rate, Settings, Span, Transport};
use crate::player::{Heard, path_of};
use crate::questions::{self, APPLY};
use crate::run::{Block, Path, PathPoint, Point, Present, Shape};
use std::fmt;

pub const CALLS: [&str; 10] = [
    "settings", "shape", "path", "bus", "phase", "block", "shape at", "path at", "legs", "make",
];
/// The place of making a player in lists by tag.
pub const MAKE: usize = 9;
/// One more than the greatest number of a question.
const NUMBERS: usize = 12;

/// How a run's output ends.
#[derive(Clone, Copy, Debug, PartialEq)]
pub enum Ending {
    AtEnd,
    Refused,
    Malformed,
}

const KINDS: [&str; 5] = ["Drawn", "Path", "Lorenz", "Rössler", "Sample-and-Hold"];
const DIRECTIONS: [&str; 3] = ["Forward", "Reverse", "PingPong"];

/// Blocks of some kind and direction, with a loopback in force or with none.
#[derive(Clone, Copy, Default)]
struct End {
    /// Not finished, and finished.
    finished: [u64; 2],
    /// By the last frame's count (`Ends::place`).
    counts: [u64; 7],
}

/// Blocks of a One-shot with a frame, by kind and direction, with no loopback in force and with one.
#[derive(Default)]
pub struct Ends([[[End; 2]; 3]; 5]);

impl Ends {
    /// Which of the ranges a count is in: about 1 and 2, on either side of them and between.
    fn place(count: f64) -> usize {
        let near = 2f64.powi(-20);
        match count {
            c if c < 1.0 - near => 0,
            c if c < 1.0 => 1,
            1.0 => 2,
            c if c < 2.0 - near => 3,
            c if c < 2.0 => 4,
            2.0 => 5,
            _ => 6,
        }
    }

    /// A block of a One-shot and the count of its last frame.
    pub fn block(&mut self, s: &Settings, in_force: bool, count: f64, finished: bool) {
        let end = &mut self.0[s.kind as usize][s.direction as usize][usize::from(in_force)];
        end.finished[usize::from(finished)] += 1;
        end.counts[Self::place(count)] += 1;
    }
}

impl fmt::Display for Ends {
    fn fmt(&self, f: &mut fmt::Formatter) -> fmt::Result {
        writeln!(
            f,
            "  blocks of a One-shot: finished, not, and by the last frame's count (d is 2^−20):"
        )?;
        writeln!(
            f,
            "    {:<34} {:>8} {:>8} {:>8} {:>8} {:>8} {:>8} {:>8} {:>8} {:>8}",
            "", "finished", "not", "< 1−d", "[1−d, 1)", "1", "(1, 2−d)", "[2−d, 2)", "2", "> 2"
        )?;
        for (kind, by_direction) in KINDS.iter().zip(&self.0) {
            for (direction, [free, looped]) in DIRECTIONS.iter().zip(by_direction) {
                for (end, loops) in [(free, ""), (looped, ", loopback in force")] {
                    let [not, finished] = end.finished;
                    if not + finished > 0 {
                        write!(f, "    {:<34}", format!("{kind} {direction}{loops}"))?;
                        for n in [finished, not].into_iter().chain(end.counts) {
                            write!(f, " {n:>8}")?;
                        }
                        writeln!(f)?;
                    }
                }
            }
        }
        Ok(())
    }
}

#[derive(Default)]
pub struct Figures {
    pub runs: u64,
    pub frames: u64,
    /// Runs by their ending, and those whose `out` was too short.
    pub endings: [u64; 3],
    pub short: u64,
    /// Calls by tag and answer.
    pub answers: [[u64; NUMBERS]; 10],
    /// Calls by tag, answer and a later question that they fail too.
    pairs: [[[u64; NUMBERS]; NUMBERS]; 10],
    /// Accepted shapes with a curve that is clamped, with a strength that is not the source's, with a dropped point off the grid; refused ones of which
    /// the 64th of more points alone is off it.
    shapes: [u64; 4],
    /// Accepted paths with a coordinate of −0, with one of 1, with a leg that is not the source's, with a dropped point off the paper; refused ones that are
    /// off it in x alone, in y alone, at the 64th of more points alone.
    paths: [u64; 7],
    /// Of paths that are off the paper at one point alone, by its place among those that are kept: off it in x, in y.
    places: Vec<[u64; 2]>,
    /// Paths by how many points they have, 70 or more in the last place.
    counts: Vec<u64>,
    /// Frames by kind and mode.
    kinds: [[u64; 3]; 5],
    /// Frames of shapes and paths by direction.
    directions: [u64; 3],
    /// Frames at synced rates and in hertz, at half a cycle a sample, and at rest.
    rates: [u64; 4],
    song_locked: u64,
    swung: u64,
    smoothed: u64,
    looped: u64,
    /// Frames after a restart with a delay or a fade.
    faded: u64,
    /// Blocks with no restart, with one at 0, within, at the end, beyond it.
    restarts: [u64; 5],
    /// Blocks of no frame, of one, of less than 64, less than 4,096, of 4,096.
    lengths: [u64; 5],
    finished: u64,
    /// Shown by the runs about the end of a One-shot.
    pub ends: Ends,
    nan: u64,
    /// Blocks that `process_scalar` itself played too, and those with other strengths, legs or coefficients than the source's.
    by_bank: u64,
    supplied: u64,
    pub bank_differed: u64,
    /// Phases read that are 1, and that are −0.
    phases: [u64; 2],
    /// Blocks in which `max` was put the zeros −0 and 0.
    zeros: u64,
}

fn count(to: &mut u64, when: bool, many: u64) {
    *to += if when { many } else { 0 };
}

impl Figures {
    /// An accepted block.
    pub fn block(&mut self, s: &Settings, looped: bool, t: &Transport, b: &Block, inc: f64) {
        let n = b.frames;
        self.frames += n;
        self.kinds[s.kind as usize][s.mode as usize] += n;
        if !s.kind.is_generator() {
            self.directions[s.direction as usize] += n;
        }
        let synced = matches!(s.rate, Rate::Synced { .. });
        self.rates[usize::from(!synced)] += n;
        count(&mut self.rates[2], inc == 0.5, n);
        count(&mut self.rates[3], inc == 0.0, n);
        count(&mut self.song_locked, s.song_lock && t.playing, n);
        count(&mut self.swung, s.swing && synced && t.swing > 0.0, n);
        let loops = looped && s.kind == LfoType::Drawn && s.mode == Mode::OneShot;
        count(&mut self.looped, loops, n);
        let restarted = matches!(b.restart, Present::Yes(_));
        let fades = s.delay != Span::Off || s.fade_in != Span::Off;
        count(&mut self.faded, restarted && fades, n);
        self.restarts[match b.restart {
            Present::Yes(0) => 1,
            Present::Yes(at) if at < n => 2,
            Present::Yes(at) if at == n => 3,
            Present::Yes(_) => 4,
            _ => 0,
        }] += 1;
        self.lengths[match n {
            0 => 0,
            1 => 1,
            2..64 => 2,
            64..4096 => 3,
            _ => 4,
        }] += 1;
    }

    /// What an accepted block gave.
    pub fn heard(&mut self, values: &[&[f32]], smoothed: bool, finished: bool, heard: Heard) {
        let nan = |list: &[f32]| list.iter().filter(|x| x.is_nan()).count() as u64;
        self.nan += values.iter().map(|list| nan(list)).sum::<u64>();
        count(&mut self.smoothed, smoothed, values[0].len() as u64);
        count(&mut self.finished, finished, 1);
        count(&mut self.zeros, heard.zeros, 1);
    }

    pub fn phase(&mut self, phase: f32) {
        count(&mut self.phases[0], phase == 1.0, 1);
        count(
            &mut self.phases[1],
            phase == 0.0 && phase.is_sign_negative(),
            1,
        );
    }

    /// The questions that a call fails, in their order.
    pub fn failed(&mut self, tag: usize, failed: &[u64]) {
        if let [answer, later @ ..] = failed {
            for n in later {
                self.pairs[tag][*answer as usize][*n as usize] += 1;
            }
        }
    }

    /// A shape handed in, and the answer.
    pub fn shape(&mut self, s: &Shape, answer: u64) {
        let (kept, dropped) = s.points.split_at(s.points.len().min(MAX_POINTS));
        let off = |p: &Point| !questions::on_grid(p.curve);
        let curve = |p: &Point| f32::from_bits(p.curve);
        let other = |p: &Point| {
            let curve = curve(p).clamp(-1.0, 1.0);
            strength(curve) != source_strength(curve)
        };
        let accepted = answer == 0;
        let clamped = kept.iter().any(|p| curve(p).abs() > 1.0);
        count(&mut self.shapes[0], accepted && clamped, 1);
        count(&mut self.shapes[1], accepted && kept.iter().any(other), 1);
        count(&mut self.shapes[2], accepted && dropped.iter().any(off), 1);
        let last = !dropped.is_empty() && !kept[..MAX_POINTS - 1].iter().any(off);
        count(&mut self.shapes[3], answer == 10 && last, 1);
    }

    /// A path handed in, and the answer.
    pub fn path(&mut self, path: &Path, answer: u64) {
        let (kept, dropped) = path.points.split_at(path.points.len().min(MAX_POINTS));
        let (x_off, y_off) = (
            |p: &PathPoint| !questions::on_paper(p.x),
            |p: &PathPoint| !questions::on_paper(p.y),
        );
        let off = |p: &PathPoint| x_off(p) || y_off(p);
        self.places.resize(MAX_POINTS, [0; 2]);
        self.counts.resize(71, 0);
        self.counts[path.points.len().min(70)] += 1;
        let has = |c: f32| {
            kept.iter()
                .any(|p| p.x == c.to_bits() || p.y == c.to_bits())
        };
        if answer == 0 {
            count(&mut self.paths[0], has(-0.0), 1);
            count(&mut self.paths[1], has(1.0), 1);
            count(&mut self.paths[2], !path_of(path).own, 1);
            count(&mut self.paths[3], dropped.iter().any(off), 1);
        }
        if answer == 11 {
            count(&mut self.paths[4], !kept.iter().any(y_off), 1);
            count(&mut self.paths[5], !kept.iter().any(x_off), 1);
            let last = !dropped.is_empty() && !kept[..MAX_POINTS - 1].iter().any(off);
            count(&mut self.paths[6], last, 1);
            let places: Vec<usize> = (0..kept.len()).filter(|i| off(&kept[*i])).collect();
            if let [i] = places[..] {
                count(&mut self.places[i][0], x_off(&kept[i]), 1);
                count(&mut self.places[i][1], y_off(&kept[i]), 1);
            }
        }
    }

    /// How many of a player's blocks the bank played too, and how often it gave other bits.
    pub fn bank(&mut self, blocks: u64, by_bank: u64, differed: u64) {
        self.by_bank += by_bank;
        self.supplied += blocks - by_bank;
        self.bank_differed += differed;
    }

    /// Answers that did not come, and pairs of questions that no call failed both; question 8 is out of a run's reach.
    fn missing(&self) -> Vec<String> {
        let mut missing = vec![];
        for (tag, numbers) in APPLY.iter().enumerate() {
            let name = CALLS[tag];
            let numbers: Vec<usize> = numbers.iter().map(|n| *n as usize).collect();
            for (i, n) in numbers.iter().enumerate().filter(|q| *q.1 != 8) {
                if self.answers[tag][*n] == 0 {
                    missing.push(format!("{name} {n}"));
                }
                for later in numbers[i + 1..].iter().filter(|n| **n != 8) {
                    if self.pairs[tag][*n][*later] == 0 {
                        missing.push(format!("{name} {n} with {later}"));
                    }
                }
            }
            if self.answers[tag][0] == 0 {
                missing.push(format!("{name} 0"));
            }
        }
        missing
    }

    /// How often an answer came, and which later questions these calls fail too.
    fn answer(&self, tag: usize, n: usize) -> String {
        let also = |later: &usize| self.pairs[tag][n][*later] > 0;
        let later: Vec<String> = (0..NUMBERS)
            .filter(also)
            .map(|later| format!("{later}: {}", self.pairs[tag][n][later]))
            .collect();
        let count = self.answers[tag][n];
        if later.is_empty() {
            format!("{n}: {count}")
        } else {
            format!("{n}: {count} ({})", later.join(", "))
        }
    }

    pub fn show(&self) {
        print!("{self}");
        let missing = self.missing();
        if !missing.is_empty() {
            println!("  answers that did not come: {}", missing.join(", "));
        }
    }
}

impl fmt::Display for Figures {
    fn fmt(&self, f: &mut fmt::Formatter) -> fmt::Result {
        let [at_end, refused, malformed] = self.endings;
        writeln!(
            f,
            "  runs {}: played to the end {at_end}, making refused {refused}, malformed {malformed}; `out` too short in {}",
            self.runs, self.short
        )?;
        writeln!(
            f,
            "  answers by call (0, then the number of the question, with the later ones that these calls fail too):"
        )?;
        for (tag, name) in CALLS.iter().enumerate() {
            let counts: Vec<String> = (0..NUMBERS)
                .filter(|n| self.answers[tag][*n] > 0)
                .map(|n| self.answer(tag, n))
                .collect();
            writeln!(f, "    {name:<9} {}", counts.join(", "))?;
        }
        let [clamped, other, dropped, last] = self.shapes;
        writeln!(
            f,
            "  shapes: curve clamped {clamped}, strength not the source's {other}, dropped point off the grid {dropped}, refused by the 64th of more points alone {last}"
        )?;
        let [minus, one, other, dropped, x, y, last] = self.paths;
        writeln!(
            f,
            "  paths: coordinate −0 {minus}, 1 {one}, leg not the source's {other}, dropped point off the paper {dropped}; refused by x alone {x}, by y alone {y}, by the 64th of more points alone {last}"
        )?;
        let least = |side: usize| self.places.iter().map(|p| p[side]).min().unwrap_or(0);
        writeln!(
            f,
            "  off the paper at one point alone, of the 64 places the least often: x {}, y {}; of 0 to 70 points the least often {}",
            least(0),
            least(1),
            self.counts.iter().min().unwrap_or(&0)
        )?;
        writeln!(f, "  frames by kind (Free, Restart, One-shot):")?;
        for (name, row) in KINDS.iter().zip(self.kinds) {
            writeln!(
                f,
                "    {name:<15} {:>11} {:>11} {:>11}",
                row[0], row[1], row[2]
            )?;
        }
        let [forward, reverse, ping_pong] = self.directions;
        writeln!(
            f,
            "  frames of curves: Forward {forward}, Reverse {reverse}, PingPong {ping_pong}; One-shot with loopback {}",
            self.looped
        )?;
        let [synced, hz, limit, rest] = self.rates;
        writeln!(
            f,
            "  frames: synced {synced}, in hertz {hz}, at the limit of 0.5 {limit}, at rate 0 {rest}, song lock in force {}, swung {}, smoothed {}, in blocks with a restart and delay or fade {}",
            self.song_locked, self.swung, self.smoothed, self.faded
        )?;
        let [none, first, within, end, beyond] = self.restarts;
        writeln!(
            f,
            "  blocks: no restart {none}, at 0 {first}, within {within}, at the end {end}, beyond {beyond}; finished {}",
            self.finished
        )?;
        let [empty, one, few, many, most] = self.lengths;
        writeln!(
            f,
            "  blocks of 0 frames {empty}, 1 {one}, 2 to 63 {few}, 64 to 4,095 {many}, 4,096 {most}"
        )?;
        let [whole, minus] = self.phases;
        writeln!(
            f,
            "  NaN values {}; phases that are 1: {whole}, −0: {minus}; blocks where `max` is put −0 and 0: {}",
            self.nan, self.zeros
        )?;
        writeln!(
            f,
            "  blocks that process_scalar itself played {} (other bits than the reference's: {}), with strengths, legs or a coefficient not its own {}",
            self.by_bank, self.bank_differed, self.supplied
        )
    }
}
