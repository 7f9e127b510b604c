//! The runs that the program `replay_ensembles` plays with no Rust at hand: `harness vectors ensembles DIR` writes its files `stdin` and `stdout`,
//! in the form of those of `replay` (stored.rs). Each run is made here for what it shows; the answers are the reference's (ensemble_reference.rs).
use crate::ensemble_adverse::{Ensembles, behind, made, refuse_make};
use crate::ensemble_figures::Figures;
use crate::ensemble_questions::{APPLY, BLOCK, MAKING, failed, make_failed};
use crate::ensemble_reference::play;
use crate::ensemble_run::{Block, Call, LENGTH, Make, Run};
use crate::lfo::{Direction, Feel, LfoType, Mode, Settings, Span, Transport};
use crate::player::bits;
use crate::run::{self, Present, Shape, bytes_of, settings_bits, transport_bits};
use crate::stored::{self, Stored, in_room, with_room};
use crate::values::{DIRECTIONS, KINDS, MODES, Values};
use crate::written::{bent, bowed, eighth, hertz, moved, point, synced};
use crate::{reference, spoiled};
use std::path::Path;

type List = Vec<Vec<u8>>;

/// A run that is being written, with the transport of its next block.
#[derive(Clone)]
struct Written {
    run: Run,
    transport: Transport,
}

const OFF: u64 = 0;
const ON: u64 = 1;

impl Written {
    fn new(s: &Settings, shared: u64, count: u64) -> Self {
        let make = Make {
            settings: settings_bits(s),
            shared,
            count,
            seed: 0x1234_5678,
        };
        let calls = vec![];
        Self {
            run: Run { make, calls },
            transport: Transport {
                tempo: 1000.0,
                ..Transport::new(1000.0)
            },
        }
    }

    fn with(mut self, call: Call) -> Self {
        self.run.calls.push(call);
        self
    }

    fn settings(self, s: &Settings, shared: u64) -> Self {
        let settings = settings_bits(s);
        self.with(Call::Settings { settings, shared })
    }

    fn shape(self, shape: Shape) -> Self {
        self.with(Call::Edit(run::Call::Shape(shape)))
    }

    fn path(self, closed: bool) -> Self {
        self.with(Call::Edit(run::Call::Path(bowed(closed))))
    }

    fn bus(self, bus: u64, value: f32) -> Self {
        let value = bits(value);
        self.with(Call::Edit(run::Call::Bus { bus, value }))
    }

    fn at(mut self, change: impl FnOnce(&mut Transport)) -> Self {
        change(&mut self.transport);
        self
    }

    fn ask(self, voice: u64, frame: u64) -> Self {
        self.with(Call::Trigger { voice, frame })
    }

    fn phase(self, voice: u64) -> Self {
        let transport = transport_bits(&self.transport);
        self.with(Call::Phase { voice, transport })
    }

    fn phases(self) -> Self {
        (0..self.run.make.count).fold(self, Self::phase)
    }

    /// A block in buffers of these lengths, at the transport of the next one.
    fn lengths(self, frames: u64, x_len: u64, y_len: u64) -> Self {
        let transport = transport_bits(&self.transport);
        self.with(Call::Block(Block {
            transport,
            frames,
            x_len,
            y_len,
        }))
    }

    /// A block, in buffers of its length or a little longer; the song moves on.
    fn block(self, frames: u64) -> Self {
        let (all, before) = (frames * self.run.make.count, self.run.calls.len());
        let x_len = all + u64::from(before == 1);
        let y_len = all + u64::from(before == 2) * 2;
        let mut w = self.lengths(frames, x_len, y_len);
        w.transport.advance(frames as usize);
        w
    }

    /// A block that is refused with 7.
    fn short(self) -> Self {
        self.lengths(1, 1, 1)
    }
}

fn add(list: &mut List, written: Written) {
    list.push(written.run.bytes());
}

// ---- what is played

fn counts(list: &mut List) {
    for count in [2, 3, 8, 16] {
        for shared in [OFF, ON] {
            let w = Written::new(
                &eighth(LfoType::SampleAndHold, Mode::Restart),
                shared,
                count,
            );
            let w = w.ask(count - 1, 1).block(2);
            let last = eighth(LfoType::SampleAndHold, Mode::Free);
            add(list, w.settings(&last, shared ^ 1).block(1));
        }
    }
    for count in [5, 15] {
        let s = eighth(LfoType::SampleAndHold, Mode::Restart);
        add(list, Written::new(&s, OFF, count).phase(count - 1).block(1));
    }
}

// Each kind in each mode, the voices restarted apart, shared switched on and off again.
fn kinds(list: &mut List) {
    for (i, kind) in KINDS.into_iter().enumerate() {
        let s = |mode: Mode| Settings {
            direction: DIRECTIONS[i % 3],
            ..eighth(kind, mode)
        };
        for mode in MODES {
            let mut w = Written::new(&s(mode), OFF, 2);
            w = match kind {
                LfoType::Drawn => w.shape(bent()).bus(1, 0.5),
                LfoType::Path => w.path(mode == Mode::Free),
                _ => w,
            };
            w = w.ask(0, 1).ask(1, 2).block(3).bus(0, 0.25).block(2);
            w = w.settings(&s(mode), ON).block(2).ask(1, 1).block(2);
            add(list, w.settings(&s(mode), OFF).block(2));
        }
    }
}

// What stands still while shared is on or off, and what moves: the clock, the song, the type last begun for, the fade.
fn switched(list: &mut List) {
    let lorenz = eighth(LfoType::Lorenz, Mode::Restart);
    let drawn = eighth(LfoType::Drawn, Mode::Restart);
    let w = Written::new(&lorenz, OFF, 2).block(2).settings(&drawn, ON);
    add(list, w.block(1).settings(&lorenz, OFF).block(2));
    let w = Written::new(&lorenz, ON, 2).block(2).settings(&drawn, OFF);
    add(list, w.block(1).settings(&lorenz, ON).block(2));
    let slow = Settings {
        rate: hertz(60.0),
        ..drawn
    };
    let w = Written::new(&drawn, OFF, 2).block(2).settings(&slow, ON);
    let w = w.block(3).settings(&drawn, OFF).block(2);
    add(list, w.settings(&slow, OFF).phases().block(1));
    let faded = Settings {
        delay: Span::Seconds(0.001),
        fade_in: Span::Seconds(0.006),
        ..eighth(LfoType::SampleAndHold, Mode::Restart)
    };
    let w = Written::new(&faded, OFF, 3).block(1).ask(0, 0).ask(2, 1);
    let w = w.block(3).settings(&faded, ON).block(2).ask(0, 0).block(3);
    add(list, w.settings(&faded, OFF).block(3));
    let locked = Settings {
        rate: synced(9, Feel::Straight),
        song_lock: true,
        swing: true,
        phase: 90.0,
        ..drawn
    };
    let w = Written::new(&locked, OFF, 2).at(|t| (t.playing, t.swing) = (true, 0.5));
    let w = w.block(2).ask(1, 1).block(2).settings(&locked, ON).block(2);
    let w = w.at(|t| t.playing = false).settings(&locked, OFF).block(2);
    add(list, w.phases());
    for shared in [OFF, ON] {
        let mut w = Written::new(&eighth(LfoType::Path, Mode::Restart), shared, 3);
        w.run.make.settings.smooth = Present::Yes(bits(0.3));
        add(list, w.block(2).ask(0, 1).ask(1, 2).block(3).block(1));
    }
}

// ---- requests

fn voices(shared: u64) -> Written {
    Written::new(&eighth(LfoType::Drawn, Mode::Restart), shared, 3).block(3)
}

fn requests(list: &mut List) {
    let s = eighth(LfoType::Drawn, Mode::Restart);
    // replaced by a smaller and by a greater frame; the blocks behind have no restart
    for (voice, first, second) in [(0, 3, 1), (1, 1, 3), (2, u64::MAX, 2)] {
        for shared in [OFF, ON] {
            let w = voices(shared).ask(voice, first).ask(voice, second);
            add(list, w.block(5).block(2).settings(&s, shared ^ 1).block(2));
        }
    }
    // the greatest is the first, the one in the middle, the last
    for frames in [[3, 1, 2], [1, 3, 0], [0, 2, 3]] {
        let asked = [(2, frames[0]), (0, frames[1]), (1, frames[2])];
        let w = asked
            .into_iter()
            .fold(voices(ON), |w, (v, at)| w.ask(v, at));
        add(list, w.block(5).block(1).settings(&s, OFF).block(1));
    }
    // made before shared is switched, either way
    for shared in [OFF, ON] {
        let w = voices(shared).ask(1, 1).ask(0, 2).settings(&s, shared ^ 1);
        add(list, w.block(4).settings(&s, shared).block(2));
    }
    // a request waits over all else
    for shared in [OFF, ON] {
        let w = voices(shared).ask(1, 2).short().bus(0, 0.5).phase(1);
        let w = w
            .shape(bent())
            .path(true)
            .ask(3, 9)
            .ask(256, 1)
            .settings(&s, shared);
        add(list, w.at(|t| t.tempo = 500.0).short().block(3).block(1));
    }
    // a block of no frames takes it
    for (shared, at) in [(OFF, 0), (OFF, 1), (ON, 0), (ON, u64::MAX)] {
        let w = voices(shared).ask(2, at).block(0).phases();
        add(list, w.block(2));
    }
    // at the end and beyond
    for (shared, frames) in [(OFF, [2, 3, 4]), (ON, [2, 3, 4]), (ON, [1, 3, 0])] {
        let [a, b, c] = frames;
        let w = voices(shared).ask(0, a).ask(1, b).ask(2, c).block(3);
        let w = w.phases().block(1).ask(0, 1).ask(1, 1 << 32).block(1);
        add(list, w.block(1));
    }
}

// ---- finished

fn ends(list: &mut List) {
    let one = |direction: Direction| Settings {
        direction,
        ..eighth(LfoType::Drawn, Mode::OneShot)
    };
    let forward = one(Direction::Forward);
    for (i, s) in [forward, one(Direction::PingPong)].iter().enumerate() {
        // voice 0 is restarted and the others go on to their end
        let n = 6 * (i as u64 + 1);
        for voice in [0, 2] {
            let w = Written::new(s, OFF, 3).at(|t| t.sample_rate = 2000.0);
            let w = w.block(n).ask(voice, 0).block(n).block(n).block(n);
            add(list, w.block(0).ask(voice, 0).block(1));
        }
        // the serving voice is not as far as the others, then it ends and they do not
        let w = Written::new(s, OFF, 2)
            .block(n + 4)
            .settings(s, ON)
            .block(2);
        let w = w.block(n + 1).block(n).ask(0, 9).settings(s, OFF).block(3);
        add(list, w.settings(s, ON).ask(1, 0).block(2).block(0));
    }
    // a loopback that bus 0 moves is in force for all
    let mut loopback = point(0.0, 1.0, 0.0);
    loopback.mods[0] = moved(0, 1.0);
    let shape = Shape {
        points: vec![loopback, point(1.0, 0.25, 0.0)],
        loopback: Present::Yes(0),
    };
    let w = Written::new(&forward, OFF, 2).shape(shape).block(9);
    let w = w.bus(0, 1.0).block(1).settings(&forward, ON).block(9);
    let w = w.bus(0, 0.5).block(1).settings(&forward, OFF).block(1);
    add(list, w);
}

// ---- buses and phases

fn buses(list: &mut List) {
    let s = eighth(LfoType::Drawn, Mode::Restart);
    for shared in [OFF, ON] {
        let w = Written::new(&s, shared, 2).shape(bent()).block(2);
        let w = w.bus(0, 0.25).bus(1, 0.75).bus(1, -0.0).block(3);
        add(
            list,
            w.settings(&s, shared ^ 1).block(2).bus(15, 1.0).block(1),
        );
    }
}

fn phases(list: &mut List) {
    for mode in MODES {
        let s = Settings {
            phase: 45.0,
            ..eighth(LfoType::SampleAndHold, mode)
        };
        let w = Written::new(&s, OFF, 3)
            .phases()
            .block(1)
            .ask(0, 1)
            .ask(2, 2);
        let w = w
            .block(3)
            .phases()
            .settings(&s, ON)
            .phases()
            .phase(3)
            .block(2);
        add(list, w.phases().settings(&s, OFF).phases());
    }
}

// ---- what is refused

/// Whether a call fails a question first and another one too, or just the first.
fn fails(failed: &[u64], answer: u64, later: Option<u64>) -> bool {
    failed.first() == Some(&answer)
        && match later {
            Some(later) => failed.contains(&later),
            None => failed.len() == 1,
        }
}

/// Each answer that a call can get, alone and with each later question failed too.
fn wanted(numbers: &[u64]) -> Vec<(u64, Option<u64>)> {
    let mut wanted = vec![];
    for (i, n) in numbers.iter().enumerate().filter(|q| *q.1 != 8) {
        wanted.push((*n, None));
        wanted.extend(numbers[i + 1..].iter().map(|later| (*n, Some(*later))));
    }
    wanted
}

/// A short call that is refused so.
fn refusal(e: &mut Ensembles, tag: usize, answer: u64, later: Option<u64>) -> Call {
    loop {
        let call = e.refused(tag);
        let room = match &call {
            Call::Block(b) => b.x_len + b.y_len,
            Call::Edit(run::Call::Shape(s)) => s.points.len() as u64,
            Call::Edit(run::Call::Path(p)) => p.points.len() as u64,
            _ => 0,
        };
        let failed = failed(&call, e.count, 0);
        if room <= 12 && fails(&failed, answer, later) {
            return call;
        }
    }
}

fn refusals(list: &mut List) {
    let mut e = Ensembles::new(4);
    (e.count, e.shared) = (2, OFF);
    for (tag, numbers) in APPLY.iter().filter(|q| q.0 != MAKING) {
        let s = eighth(LfoType::SampleAndHold, Mode::Restart);
        let mut w = Written::new(&s, OFF, 2).ask(1, 0);
        for (answer, later) in wanted(numbers) {
            w = w.with(refusal(&mut e, *tag, answer, later));
        }
        add(list, w.block(2));
    }
}

fn refused_making(list: &mut List) {
    let s = eighth(LfoType::Drawn, Mode::Restart);
    for count in [0, 1, 17, 256 + 4, u64::MAX] {
        let mut run = Written::new(&s, OFF, 2).block(1).run;
        run.make.count = count;
        list.push(run.bytes());
    }
    let mut v = Values::new(3);
    for (answer, later) in wanted(&[15, 1, 2, 5]) {
        let mut run = Written::new(&s, ON, 2).block(1).run;
        let right = run.make;
        while !fails(&make_failed(&run.make), answer, later) {
            run.make = right;
            refuse_make(&mut v, &mut run.make);
        }
        list.push(run.bytes());
    }
    add(list, Written::new(&s, 2, 2).block(1));
}

// Buffers of frames × voices, of one value less, of enough for the frames alone.
fn lengths(list: &mut List) {
    // were anything of a refused block played, the clock would have moved
    let s = Settings {
        rate: hertz(60.0),
        ..eighth(LfoType::Drawn, Mode::Free)
    };
    for shared in [OFF, ON] {
        let w = Written::new(&s, shared, 3).ask(0, 0).lengths(2, 5, 6);
        let w = w.lengths(2, 6, 5).lengths(2, 2, 2).lengths(2, 0, 9);
        let w = w.lengths(0, 0, 2).lengths(BLOCK + 1, 4, 4);
        add(list, w.lengths(2, 6, 6).lengths(2, 7, 9).lengths(1, 3, 4));
    }
}

fn malformed(list: &mut List) {
    let w = || {
        let s = eighth(LfoType::Path, Mode::Free);
        Written::new(&s, OFF, 2).ask(1, 1).block(2)
    };
    let mut v = Values::new(11);
    for way in [0, 1, 2, 3, 4, 9, 10] {
        let numbers = w().run.numbers();
        list.push(spoiled::spoil(&mut v, &numbers, behind, way));
    }
    // a tag that a player knows, with a call of its; a voice of more than 64 bits; a frame cut short
    for tail in [
        vec![8, 0, 0],
        vec![7, 0, 0, 0],
        vec![6, 0, 0, 0],
        vec![10, 0, 0],
        [vec![9], vec![0xff; 9], vec![2, 0]].concat(),
        vec![9, 1],
    ] {
        let bytes = w().bus(3, 0.5).run.bytes();
        list.push([bytes, tail].concat());
    }
    add(list, w().lengths(1, LENGTH + 1, 2));
    add(list, w().lengths(1, 2, LENGTH + 1));
    let mut bytes = w().run.bytes();
    bytes.extend(bytes_of(&[1, 4097]));
    bytes.extend([0; 20]);
    list.push(bytes);
}

// ---- long ones

/// What is long, in so much room that the right answer does not fit and a wrong one does, or that it just fits: 4,096 frames, 4,097, buffers of 65,600.
fn long() -> Vec<(Stored, Vec<u8>)> {
    let flat = Shape {
        points: vec![],
        loopback: Present::No,
    };
    let s = eighth(LfoType::Drawn, Mode::Free);
    let w = || Written::new(&s, OFF, 2).shape(flat.clone());
    let played = |w: Written, room: usize| {
        let bytes = w.run.bytes();
        in_room(&bytes, &play(&bytes, &[], &mut Figures::default()), room)
    };
    let all = (BLOCK + 1) * 2;
    vec![
        played(w().lengths(BLOCK + 1, all, all), 20_000),
        played(w().block(BLOCK), 20_000),
        played(w().lengths(1, LENGTH, 2).block(1), 2_000),
        played(w().lengths(1, 2, LENGTH).block(1), 2_000),
    ]
}

// Adverse runs as they are compared, those that are short.
fn adverse(list: &mut List) {
    let mut wanted = 6;
    for seed in 0.. {
        let m = made(seed);
        let played: reference::Played = play(&m.bytes, &m.smooths, &mut Figures::default());
        let blocks = played.entries.iter();
        let blocks = blocks.filter(|e| e.tag == 5 && e.answer == 0).count();
        if m.bytes.len() + played.out.len() <= 700 && blocks >= 4 {
            list.push(m.bytes);
            wanted -= 1;
        }
        if wanted == 0 {
            return;
        }
    }
}

/// All of them, with what comes out.
pub fn all(figures: &mut Figures) -> Vec<(Stored, Vec<u8>)> {
    let mut list = vec![];
    counts(&mut list);
    kinds(&mut list);
    switched(&mut list);
    requests(&mut list);
    ends(&mut list);
    buses(&mut list);
    phases(&mut list);
    refusals(&mut list);
    refused_making(&mut list);
    lengths(&mut list);
    malformed(&mut list);
    adverse(&mut list);
    let mut stored = with_room(&list, 25, |bytes| {
        figures.runs += 1;
        play(bytes, &[], figures)
    });
    stored.extend(long());
    stored
}

/// Writes the two files into `dir`.
pub fn runs(dir: &Path) {
    let mut figures = Figures::default();
    let stored = all(&mut figures);
    let (stdin, stdout) = stored::write(dir, &stored);
    let runs = stored.len();
    eprintln!("{runs} runs, {stdin} and {stdout} bytes");
    eprint!("{figures}");
    eprintln!("  did not come: {}", figures.missing().join(", "));
}
