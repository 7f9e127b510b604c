//! What the runs of ensembles tried, so that a reader sees that everything was tried.
use crate::ensemble_player::Ensemble;
use crate::ensemble_questions::{APPLY, BLOCK, MAKING, VOICES};
use crate::ensemble_run::{Block, Call, LENGTH, Make};
use crate::lfo::{LfoType, Mode, Rate, Settings, Span};
use std::fmt;

/// One more than the greatest number of a question.
const NUMBERS: usize = 17;
/// By tag, making last.
pub const CALLS: [&str; MAKING + 1] = [
    "settings", "shape", "path", "bus", "phase", "block", "", "", "", "trigger", "make",
];
const KINDS: [&str; 5] = ["Drawn", "Path", "Lorenz", "Rössler", "Sample-and-Hold"];

/// Each thing to be tried, with its words.
macro_rules! things {
    ($($name:ident $words:literal,)*) => {
        #[derive(Clone, Copy)]
        enum Thing { $($name),* }
        const THINGS: &[&str] = &[$($words),*];
    };
}

things! {
    SwitchedOn "shared switched on between two blocks",
    SwitchedOff "shared switched off between two blocks",
    Back "shared off, on and off again",
    Replaced "a request replaced",
    ReplacedGreatest "with shared on the greatest frame asked is a replaced one, within the block",
    SeveralAsked "with shared on several frames asked, all within the block",
    AskedOff "a request made with shared off is played with it on",
    AskedOn "a request made with shared on is played with it off",
    OverRefused "a request waits over a refused block",
    OverEdit "a request waits over an edit",
    OverPhase "a request waits over a phase read",
    TakenByNone "a block of no frames takes a voice's request",
    TakenByNoneOn "a block of no frames takes a request with shared on",
    AtStart "a voice restarted at 0",
    Within "a voice restarted within its block",
    AtEnd "a voice restarted at the end",
    Beyond "a voice's frame beyond the end",
    AtStartOn "restarted at 0 with shared on",
    WithinOn "restarted within the block with shared on",
    AtEndOn "restarted at the end with shared on",
    BeyondOn "a frame beyond the end with shared on",
    OneOnly "some voices restarted and others not",
    FinishedSome "finished in some voices and not in others",
    FinishedAll "finished in all voices",
    FinishedOn "finished with shared on",
    PhaseOff "a phase read",
    PhaseOn "a phase read with shared on",
    NoFrames "blocks of 0 frames",
    OneFrame "blocks of 1 frame",
    Few "blocks of 2 to 63 frames",
    Many "blocks of 64 to 4,095 frames",
    Most "blocks of 4,096 frames",
    MostOfAll "blocks of 4,096 frames and 16 voices",
    Exact "x and y of frames × voices exactly",
    Unequal "x longer or shorter than y, accepted",
    Longest "x or y of 65,600",
    LessX "refused by one value too few in x alone",
    LessY "refused by one value too few in y alone",
    FramesOnly "refused with room for the frames and not for frames × voices",
    Long "4,097 frames refused with room for all",
    Hz "rate in hertz",
    Synced "rate by the song",
    Locked "song lock in force",
    Swung "swing in force",
    Smoothed "smoothed",
    Faded "delay or fade with a restart",
    Looped "a One-shot with a loopback",
    Reverse "a curve in Reverse",
    PingPong "a curve in PingPong",
    Nan "NaN among the values",
}

/// Where a request may lie in its block, with shared off and on.
const PLACES: [Thing; 4] = [Thing::AtStart, Thing::Within, Thing::AtEnd, Thing::Beyond];
const PLACES_ON: [Thing; 4] = [
    Thing::AtStartOn,
    Thing::WithinOn,
    Thing::AtEndOn,
    Thing::BeyondOn,
];

/// What has happened since the last block, and how the blocks before it went.
#[derive(Default)]
struct Since {
    /// Shared in the last block.
    last: Option<bool>,
    /// Whether a block with shared off, and then one with it on, has been played.
    there: bool,
    /// Shared as it was when requests were made.
    asked: [bool; 2],
    /// How many there were.
    requests: u64,
    /// The greatest of those that were replaced.
    replaced: Option<u64>,
}

#[derive(Default)]
pub struct Figures {
    pub runs: u64,
    /// Values of x and of y that accepted blocks gave.
    pub values: u64,
    /// By `Ending`.
    pub endings: [u64; 3],
    /// Runs with an `out` too short.
    pub short: u64,
    /// Runs whose bytes were read back to the same run.
    pub read_back: u64,
    /// Runs of which a voice was held to a player.
    pub as_players: u64,
    answers: [[u64; NUMBERS]; MAKING + 1],
    pairs: [[[u64; NUMBERS]; NUMBERS]; MAKING + 1],
    /// Ensembles made, by their count.
    counts: [u64; 17],
    /// Counts refused: 0, 1, 17, more.
    no_counts: [u64; 4],
    /// Values by shared, kind and mode.
    kinds: [[[u64; 3]; 5]; 2],
    seen: Seen,
    since: Since,
    blocks: u64,
    by_bank: u64,
    pub bank_differed: u64,
}

/// How often each thing was seen.
struct Seen([u64; THINGS.len()]);

impl Default for Seen {
    fn default() -> Self {
        Self([0; THINGS.len()])
    }
}

// ---- what is counted

impl Figures {
    fn saw(&mut self, thing: Thing, when: bool) {
        self.seen.0[thing as usize] += u64::from(when);
    }

    fn failed(&mut self, tag: usize, failed: &[u64]) {
        let answer = failed.first().copied().unwrap_or(0) as usize;
        self.answers[tag][answer] += 1;
        for later in failed.iter().skip(1) {
            self.pairs[tag][answer][*later as usize] += 1;
        }
    }

    pub fn make(&mut self, make: &Make, failed: &[u64]) {
        self.since = Since::default();
        self.failed(MAKING, failed);
        match make.count {
            0 => self.no_counts[0] += 1,
            1 => self.no_counts[1] += 1,
            17 => self.no_counts[2] += 1,
            n if n > 17 => self.no_counts[3] += 1,
            n if failed.is_empty() => self.counts[n as usize] += 1,
            _ => {}
        }
    }

    /// A call, with the questions that it fails, before it is made.
    pub fn call(&mut self, call: &Call, failed: &[u64], e: &Ensemble) {
        self.failed(call.tag(), failed);
        let (waits, accepted) = (e.greatest.is_some(), failed.is_empty());
        match call {
            Call::Trigger { voice, .. } if accepted => self.request(*voice, e),
            Call::Block(b) if accepted => self.requests(b, e),
            Call::Block(b) => {
                self.saw(Thing::OverRefused, waits);
                if failed == [7] {
                    self.refused_by_7(b, e.asked.len() as u64);
                }
            }
            Call::Phase { .. } if accepted => {
                self.saw(Thing::OverPhase, waits);
                self.saw(Thing::PhaseOff, !e.shared);
                self.saw(Thing::PhaseOn, e.shared);
            }
            Call::Settings { .. } | Call::Edit(_) if accepted => self.saw(Thing::OverEdit, waits),
            _ => {}
        }
    }

    fn request(&mut self, voice: u64, e: &Ensemble) {
        let replaced = e.asked[voice as usize];
        self.saw(Thing::Replaced, replaced.is_some());
        let since = &mut self.since;
        since.replaced = since.replaced.max(replaced);
        since.asked[usize::from(e.shared)] = true;
        since.requests += 1;
    }

    fn refused_by_7(&mut self, b: &Block, count: u64) {
        let (x, y) = (b.x_len, b.y_len);
        if b.frames > BLOCK {
            let all = b.frames.saturating_mul(count);
            self.saw(Thing::Long, b.frames == BLOCK + 1 && x >= all && y >= all);
            return;
        }
        let all = b.frames * count;
        self.saw(Thing::LessX, x + 1 == all && y >= all);
        self.saw(Thing::LessY, y + 1 == all && x >= all);
        self.saw(Thing::FramesOnly, x >= b.frames && y >= b.frames);
    }

    /// The requests that an accepted block is about to take.
    fn requests(&mut self, b: &Block, e: &Ensemble) {
        let n = b.frames;
        let since = std::mem::take(&mut self.since);
        let (waits, s) = (e.greatest.is_some(), &e.page.lfo.settings);
        let fades = s.delay != Span::Off || s.fade_in != Span::Off;
        self.saw(Thing::Faded, waits && fades && n > 0);
        if e.shared {
            self.taken(PLACES_ON, n, e.greatest);
            let within = e.greatest.is_some_and(|at| at < n);
            let held = e.asked.iter().copied().max().flatten();
            self.saw(Thing::ReplacedGreatest, within && since.replaced > held);
            self.saw(Thing::SeveralAsked, within && since.requests > 1);
            self.saw(Thing::TakenByNoneOn, waits && n == 0);
        } else {
            for asked in &e.asked {
                self.taken(PLACES, n, *asked);
            }
            let asked = e.asked.iter().filter(|at| at.is_some()).count();
            self.saw(Thing::OneOnly, asked > 0 && asked < e.asked.len());
            self.saw(Thing::TakenByNone, waits && n == 0);
        }
        self.switched(&since, e);
    }

    fn switched(&mut self, since: &Since, e: &Ensemble) {
        self.saw(Thing::AskedOff, e.shared && since.asked[0]);
        self.saw(Thing::AskedOn, !e.shared && since.asked[1]);
        self.saw(Thing::SwitchedOn, e.shared && since.last == Some(false));
        self.saw(Thing::SwitchedOff, !e.shared && since.last == Some(true));
        self.saw(Thing::Back, !e.shared && since.there);
        let there = since.there || (e.shared && since.last == Some(false));
        self.since = Since {
            last: Some(e.shared),
            there,
            ..Since::default()
        };
    }

    /// Where a request lies in its block.
    fn taken(&mut self, places: [Thing; 4], frames: u64, at: Option<u64>) {
        let place = match at {
            None => return,
            Some(0) => 0,
            Some(at) if at < frames => 1,
            Some(at) if at == frames => 2,
            Some(_) => 3,
        };
        self.saw(places[place], true);
    }

    /// An accepted block, and what it gave.
    pub fn played(
        &mut self,
        e: &Ensemble,
        b: &Block,
        inc: f64,
        ends: &[bool],
        values: [&[f32]; 2],
    ) {
        let s = &e.page.lfo.settings;
        let many = (values[0].len() + values[1].len()) as u64;
        self.values += many;
        self.blocks += 1;
        self.kinds[usize::from(e.shared)][s.kind as usize][s.mode as usize] += many;
        let some = ends.contains(&true);
        let all = !ends.contains(&false);
        self.saw(Thing::FinishedSome, some && !all);
        self.saw(Thing::FinishedAll, all && !e.shared);
        self.saw(Thing::FinishedOn, all && e.shared);
        self.length(b, ends.len() as u64);
        let nan = values.iter().any(|list| list.iter().any(|x| x.is_nan()));
        self.saw(Thing::Nan, nan);
        if many > 0 && inc > 0.0 {
            self.playing(s, b, e);
        }
    }

    fn length(&mut self, b: &Block, count: u64) {
        let n = b.frames;
        self.saw(Thing::NoFrames, n == 0);
        self.saw(Thing::OneFrame, n == 1);
        self.saw(Thing::Few, (2..64).contains(&n));
        self.saw(Thing::Many, (64..BLOCK).contains(&n));
        self.saw(Thing::Most, n == BLOCK);
        self.saw(Thing::MostOfAll, n == BLOCK && count == 16);
        let all = n * count;
        self.saw(Thing::Exact, n > 0 && b.x_len == all && b.y_len == all);
        self.saw(Thing::Unequal, b.x_len != b.y_len);
        self.saw(Thing::Longest, b.x_len.max(b.y_len) == LENGTH);
    }

    fn playing(&mut self, s: &Settings, b: &Block, e: &Ensemble) {
        let synced = matches!(s.rate, Rate::Synced { .. });
        self.saw(Thing::Synced, synced);
        self.saw(Thing::Hz, !synced);
        self.saw(Thing::Locked, s.song_lock && b.transport.playing == 1);
        let swing = f32::from_bits(b.transport.swing) > 0.0;
        self.saw(Thing::Swung, s.swing && synced && swing);
        self.saw(Thing::Smoothed, e.page.smoothed());
        let drawn = s.kind == LfoType::Drawn;
        let looped = drawn && s.mode == Mode::OneShot && e.page.lfo.shape().loopback().is_some();
        self.saw(Thing::Looped, looped);
        if !s.kind.is_generator() {
            self.saw(Thing::Reverse, s.direction as u64 == 1);
            self.saw(Thing::PingPong, s.direction as u64 == 2);
        }
    }

    /// How many of a run's blocks the bank played too, and how often it gave other bits.
    pub fn ended(&mut self, e: &Ensemble) {
        self.by_bank += e.page.by_bank;
        self.bank_differed += e.page.bank_differed;
    }
}

// ---- what is shown

impl Figures {
    /// Answers that did not come, pairs of questions that no call failed both, and things that were not tried. Answer 8 is out of a run's reach.
    pub fn missing(&self) -> Vec<String> {
        let mut missing = vec![];
        for (tag, numbers) in APPLY {
            let name = CALLS[tag];
            let none = |n: usize| (self.answers[tag][n] == 0).then(|| format!("{name} {n}"));
            missing.extend(none(0));
            for (i, n) in numbers.iter().enumerate().filter(|q| *q.1 != 8) {
                missing.extend(none(*n as usize));
                let later = numbers[i + 1..].iter();
                let no = later.filter(|later| self.pairs[tag][*n as usize][**later as usize] == 0);
                missing.extend(no.map(|later| format!("{name} {n} with {later}")));
            }
        }
        let no_count = VOICES.filter(|n| self.counts[*n as usize] == 0);
        missing.extend(no_count.map(|n| format!("{n} voices")));
        for (n, words) in self.no_counts.iter().zip(["0", "1", "17", "more"]) {
            if *n == 0 {
                missing.push(format!("count {words} refused"));
            }
        }
        let kinds = self.kinds.iter().flatten().flatten();
        missing.extend(kinds.filter(|n| **n == 0).map(|_| "a kind and mode".into()));
        let no_thing = (self.seen.0.iter().zip(THINGS)).filter(|(n, _)| **n == 0);
        missing.extend(no_thing.map(|(_, words)| (*words).into()));
        missing
    }

    /// How often an answer came, and which later questions these calls fail too.
    fn answer(&self, tag: usize, n: usize) -> String {
        let count = self.answers[tag][n];
        let later: Vec<String> = (0..NUMBERS)
            .filter(|later| self.pairs[tag][n][*later] > 0)
            .map(|later| format!("{later}: {}", self.pairs[tag][n][later]))
            .collect();
        if later.is_empty() {
            format!("{n}: {count}")
        } else {
            format!("{n}: {count} ({})", later.join(", "))
        }
    }

    pub fn show(&self) {
        print!("{self}");
        let missing = self.missing();
        if !missing.is_empty() {
            println!("  did not come: {}", missing.join(", "));
        }
    }
}

impl fmt::Display for Figures {
    fn fmt(&self, f: &mut fmt::Formatter) -> fmt::Result {
        let [at_end, refused, malformed] = self.endings;
        writeln!(
            f,
            "  runs {}: played to the end {at_end}, making refused {refused}, malformed {malformed}; `out` too short in {}; read back {}, a voice held to a player in {}",
            self.runs, self.short, self.read_back, self.as_players
        )?;
        writeln!(
            f,
            "  answers by call (0, then the number of the question, with the later ones that these calls fail too):"
        )?;
        for (tag, _) in APPLY {
            let counts: Vec<String> = (0..NUMBERS)
                .filter(|n| self.answers[tag][*n] > 0)
                .map(|n| self.answer(tag, n))
                .collect();
            writeln!(f, "    {:<9} {}", CALLS[tag], counts.join(", "))?;
        }
        let [none, one, seventeen, more] = self.no_counts;
        writeln!(
            f,
            "  ensembles of 2 to 16 voices {:?}; counts refused: 0 {none}, 1 {one}, 17 {seventeen}, more {more}",
            &self.counts[2..]
        )?;
        for (shared, kinds) in ["off", "on"].iter().zip(self.kinds) {
            writeln!(
                f,
                "  values by kind (Free, Restart, One-shot), shared {shared}:"
            )?;
            for (name, row) in KINDS.iter().zip(kinds) {
                let [free, restart, one] = row;
                writeln!(f, "    {name:<15} {free:>11} {restart:>11} {one:>11}")?;
            }
        }
        for (n, words) in self.seen.0.iter().zip(THINGS) {
            writeln!(f, "  {n:>11} {words}")?;
        }
        writeln!(
            f,
            "  blocks that process_scalar of LfoBank itself played {} (blocks and phases with other bits than the reference's: {}), with strengths, legs or a coefficient not its own {}",
            self.by_bank,
            self.bank_differed,
            self.blocks - self.by_bank
        )
    }
}
