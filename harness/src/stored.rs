//! The runs that the program `replay` plays with no Rust at hand: `harness vectors runs ../crates/replay` writes its files `stdin`, the runs and behind
//! them records and items (stored_items.rs), and `stdout`, what comes out. Each run is made here for what it shows; the answers are the reference's
//! (reference.rs).
use crate::adverse::{Adverse, coefficient, made};
use crate::figures::{Figures, MAKE};
use crate::lfo::{Direction, Division, Feel, LfoType, Mode, Rate, Scale, Settings, Span};
use crate::player::bits;
use crate::questions::{self, APPLY};
use crate::reference::{Played, play};
use crate::run::{Call, Path as RunPath, Point, Present, Shape, settings_bits};
use crate::runs::hex;
use crate::values::{DIRECTIONS, FEELS, KINDS, MODES, Values};
use crate::written::{Written, bent, bowed, eighth, hertz, moved, path, point, synced};
use crate::{refused, spoiled, stored_items};
use std::fs;
use std::path::Path;

type List = Vec<Vec<u8>>;

fn add(list: &mut List, written: Written) {
    list.push(written.run.bytes());
}

const NONE: Present<u64> = Present::No;

// ---- what is played

// Document 01's sheet.
fn sheet(list: &mut List) {
    let s = Settings {
        rate: hertz(250.0),
        ..Settings::default()
    };
    add(
        list,
        Written::new(&s).at(|t| t.tempo = 120.0).block(4, NONE),
    );
}

fn kinds(list: &mut List) {
    for kind in KINDS {
        for mode in MODES {
            for direction in DIRECTIONS {
                let s = Settings {
                    direction,
                    ..eighth(kind, mode)
                };
                let mut w = Written::new(&s);
                if kind == LfoType::Drawn {
                    w = w.with(Call::Shape(bent())).bus(1, 0.5);
                } else if kind == LfoType::Path {
                    let open = direction == Direction::Reverse;
                    w = w.with(Call::Path(bowed(!open)));
                }
                w = w.block(2, NONE).block(5, Present::Yes(1)).bus(0, 0.25);
                add(list, w.block(4, NONE));
            }
        }
    }
}

fn rates(list: &mut List) {
    for i in 0..15 {
        let s = Settings {
            rate: synced(i, FEELS[usize::from(i % 3)]),
            mode: MODES[usize::from(i % 2)],
            ..Settings::default()
        };
        let w = Written::new(&s).at(|t| t.scale = Scale::Rate(1000.0));
        add(list, w.block(3, Present::Yes(1)).block(2, NONE));
    }
    for (hz, x10) in [
        (0.0, false),
        (-0.0, false),
        (100.0, false),
        (100.5, false),
        (250.0, true),
        (1000.0, true),
        (1500.0, true),
        (-3.0, true),
    ] {
        let s = Settings {
            rate: Rate::Hz { hz, x10 },
            ..Settings::default()
        };
        add(list, Written::new(&s).block(5, Present::Yes(1)));
    }
    for scale in [
        Scale::Percent(10.0),
        Scale::Percent(1000.0),
        Scale::Percent(5.0),
        Scale::Rate(10.0),
        Scale::Rate(2000.0),
    ] {
        let w = Written::new(&eighth(LfoType::Drawn, Mode::Restart));
        add(list, w.at(|t| t.scale = scale).block(4, NONE));
    }
    for tempo in [0.0, -0.0, 1e-300] {
        let s = Settings {
            rate: synced(9, Feel::Straight),
            fade_in: Span::Synced(Division::N256),
            ..Settings::default()
        };
        let w = Written::new(&s).at(|t| t.tempo = tempo);
        let w = w.block(3, Present::Yes(0)).at(|t| t.tempo = 500.0);
        add(list, w.block(3, NONE));
    }
}

fn lasting(division: u8) -> Span {
    Span::Synced(Division::new(division).expect("a division"))
}

// Each division in bars of three and of five beats: as a rate, which stays below half a cycle a sample, and as a fade in.
fn divisions(list: &mut List) {
    for i in 0..15 {
        let s = Settings {
            rate: synced(i, Feel::Straight),
            fade_in: lasting(i),
            ..Settings::default()
        };
        for beats_per_bar in [3.0, 5.0] {
            let w = Written::new(&s).at(|t| (t.tempo, t.beats_per_bar) = (60.0, beats_per_bar));
            add(list, w.block(4, Present::Yes(1)));
        }
    }
}

fn spans(list: &mut List) {
    for (delay, fade_in) in [
        (Span::Seconds(0.002), Span::Seconds(0.004)),
        (Span::Off, Span::Seconds(0.0034)),
        (Span::Seconds(0.0025), Span::Off),
        (Span::Seconds(-1.0), Span::Seconds(-0.0)),
        (Span::Seconds(40.0), Span::Off),
        (lasting(13), lasting(14)),
        (lasting(12), Span::Off),
        (Span::Off, lasting(6)),
        (Span::Off, lasting(0)),
    ] {
        let s = Settings {
            delay,
            fade_in,
            ..eighth(LfoType::Drawn, Mode::Restart)
        };
        let w = Written::new(&s).block(2, NONE);
        add(list, w.block(9, Present::Yes(1)));
    }
}

fn locked(list: &mut List) {
    for mode in MODES {
        for rate in [hertz(60.0), synced(9, Feel::Dotted)] {
            let s = Settings {
                mode,
                rate,
                song_lock: true,
                phase: 90.0,
                ..Settings::default()
            };
            let w = Written::new(&s).at(|t| (t.beats, t.seconds) = (-0.125, -0.003));
            let w = w.at(|t| t.playing = true).block(4, NONE);
            let w = w.at(|t| t.playing = false).block(2, NONE);
            let w = w.at(|t| t.playing = true).block(3, Present::Yes(1));
            add(list, w);
        }
    }
    for swing in [0.0, 0.5, 1.0, 2.0, -0.0] {
        let s = Settings {
            rate: synced(10, Feel::Straight),
            swing: true,
            kind: if swing == 1.0 {
                LfoType::SampleAndHold
            } else {
                LfoType::Drawn
            },
            ..Settings::default()
        };
        let w = Written::new(&s).at(|t| t.swing = swing);
        add(list, w.block(12, Present::Yes(0)));
    }
}

fn smoothing(list: &mut List) {
    for (kind, smooth) in [
        (LfoType::Drawn, 50.0),
        (LfoType::Path, 100.0),
        (LfoType::SampleAndHold, 1.0),
    ] {
        let mut w = Written::new(&eighth(kind, Mode::Restart));
        w.run.settings.smooth = coefficient(&w.run.settings, smooth, &w.transport);
        add(list, w.block(4, NONE).block(4, Present::Yes(2)));
    }
    for a in [0.0, -0.0, 1.0, 0.3] {
        let mut w = Written::new(&eighth(LfoType::Path, Mode::Restart));
        w.run.settings.smooth = Present::Yes(bits(a));
        let off = eighth(LfoType::Drawn, Mode::Restart);
        add(list, w.block(4, NONE).settings(&off).block(2, NONE));
    }
}

fn starts(list: &mut List) {
    for (phase, phase_snap, grid_x) in [
        (0.0, false, 8),
        (-0.0, false, 8),
        (90.0, false, 8),
        (360.0, false, 8),
        (400.0, false, 8),
        (-10.0, false, 8),
        (100.0, true, 3),
        (100.0, true, 0),
        (179.9, true, 65_535),
        (359.0, true, 1),
    ] {
        let kind = if grid_x == 3 {
            LfoType::Lorenz
        } else {
            LfoType::Drawn
        };
        let s = Settings {
            phase,
            phase_snap,
            grid_x,
            ..eighth(kind, Mode::Restart)
        };
        add(list, Written::new(&s).block(3, Present::Yes(0)));
    }
    for (frames, at) in [
        (0, 0),
        (0, 1),
        (1, 0),
        (1, 1),
        (4, 4),
        (4, 5),
        (4, u64::MAX),
    ] {
        let w = Written::new(&eighth(LfoType::SampleAndHold, Mode::Restart));
        let w = w.block(3, NONE).block(frames, Present::Yes(at));
        add(list, w.block(2, NONE));
    }
}

// Blocks of a One-shot whose last frames are at 7/8, 1, 15/8, 2 and 17/8 cycles.
fn to_the_end(w: Written) -> Written {
    let w = w.block(0, Present::Yes(0));
    let frames = [8, 1, 7, 1, 1];
    frames.into_iter().fold(w, |w, n| w.block(n, NONE))
}

fn ends(list: &mut List) {
    for kind in KINDS {
        for direction in DIRECTIONS {
            let s = Settings {
                direction,
                ..eighth(kind, Mode::OneShot)
            };
            let mut w = Written::new(&s);
            if kind != LfoType::Drawn {
                // a loopback that this kind does not read
                w = w.with(Call::Shape(bent()));
            }
            add(list, to_the_end(w).block(0, NONE));
        }
    }
    // a loopback that bus 0 moves from 0: about 10^−9, and about 1
    let mut loopback = point(0.0, 1.0, 0.0);
    loopback.mods[0] = moved(0, 1.0);
    let shape = Shape {
        points: vec![loopback, point(1.0, 0.25, 0.0)],
        loopback: Present::Yes(0),
    };
    for direction in DIRECTIONS {
        let s = Settings {
            direction,
            ..eighth(LfoType::Drawn, Mode::OneShot)
        };
        for to in [0, 0x3089_705f, 0x3089_7060, 0x3f7f_ffff, 0x3f80_0000] {
            let w = Written::new(&s).with(Call::Shape(shape.clone()));
            let w = to_the_end(w.bus(0, f32::from_bits(to)));
            add(list, w.bus(0, 0.0).block(1, NONE));
        }
    }
}

// 65 points.
fn many() -> Shape {
    Shape {
        points: (0..65).map(|i| point(i as f32 / 64.0, 0.5, 0.0)).collect(),
        loopback: Present::No,
    }
}

fn curves(list: &mut List) {
    for (i, mode) in [Mode::OneShot, Mode::Restart].into_iter().enumerate() {
        for index in 0..3 {
            let mut s = bent();
            s.loopback = Present::Yes(index + i as u64);
            let direction = DIRECTIONS[index as usize];
            let rate = hertz(300.0);
            let settings = Settings {
                direction,
                rate,
                ..eighth(LfoType::Drawn, mode)
            };
            let w = Written::new(&settings).with(Call::Shape(s));
            add(list, w.block(8, Present::Yes(0)));
        }
    }
    for count in [0, 1, 2] {
        let points: Vec<Point> = (0..count).map(|i| point(0.5, i as f32, 0.5)).collect();
        let w = Written::new(&eighth(LfoType::Drawn, Mode::Restart));
        let loopback = Present::No;
        let w = w.with(Call::Shape(Shape { points, loopback }));
        add(list, w.block(6, NONE));
        let places = [(0.25, 0.75, 1.0), (0.25, 0.75, 1.0)];
        let w = Written::new(&eighth(LfoType::Path, Mode::Restart));
        let w = w.with(Call::Path(path(&places[..count], count == 2)));
        add(list, w.block(4, NONE));
    }
    // buses: equal zeros, far out, one above 15
    for (bus, value) in [(0, -0.0), (0, f32::MAX), (1, -1e30), (2, 1.0)] {
        let mut s = bent();
        s.points[4].mods[1] = moved(16, -1.0);
        s.points[1].mods[0] = moved(2, 0.3);
        let w = Written::new(&eighth(LfoType::Drawn, Mode::Restart)).with(Call::Shape(s));
        add(list, w.block(3, NONE).bus(bus, value).block(5, NONE));
    }
    // more than 64 points, what is past them being no point's
    let mut s = many();
    s.points[64].step = 2;
    s.points[64].x = bits(f32::NAN);
    s.loopback = Present::Yes(63);
    let w = Written::new(&eighth(LfoType::Drawn, Mode::Restart)).with(Call::Shape(s));
    add(list, w.block(3, NONE));
    // a gap of 2^-128 gives NaN
    let s = Shape {
        points: vec![point(0.0, 0.0, 0.0), point(1e-40, 1.0, 0.0)],
        loopback: Present::No,
    };
    let x = bits(1e-41);
    let at = Call::ShapeAt {
        shape: s.clone(),
        x,
    };
    let w = Written::new(&eighth(LfoType::Drawn, Mode::Restart)).with(at);
    add(list, w.with(Call::Shape(s)).block(2, NONE));
}

fn changes(list: &mut List) {
    let lorenz = eighth(LfoType::Lorenz, Mode::Restart);
    let drawn = eighth(LfoType::Drawn, Mode::Restart);
    let w = Written::new(&lorenz).block(3, NONE).settings(&drawn);
    add(list, w.clone().settings(&lorenz).block(2, NONE));
    add(list, w.block(0, NONE).settings(&lorenz).block(2, NONE));
    let w = Written::new(&lorenz).block(2, NONE).bus(3, 1.0);
    add(list, w.block(2, NONE));
    let free = eighth(LfoType::Drawn, Mode::Free);
    let w = Written::new(&free)
        .block(3, Present::Yes(1))
        .settings(&drawn);
    add(list, w.block(3, NONE));
    let w = Written::new(&drawn)
        .block(3, NONE)
        .with(Call::Shape(bent()));
    let slow = Settings {
        rate: hertz(-0.0),
        ..drawn
    };
    add(list, w.block(3, NONE).settings(&slow).block(2, NONE));
}

fn evaluations(list: &mut List) {
    let w = || Written::new(&Settings::default());
    for xs in [[0.0, 0.25], [-0.0, 0.75], [-1.0, 2.0], [0.1, 0.6]] {
        let at = |x: f32| Call::ShapeAt {
            shape: bent(),
            x: bits(x),
        };
        add(list, w().with(at(xs[0])).with(at(xs[1])));
    }
    for ts in [[0.0, 1.0], [-0.0, 0.5], [-1.0, 2.0], [0.9, 0.2]] {
        let at = |closed: bool, t: f32| Call::PathAt {
            path: bowed(closed),
            t: bits(t),
        };
        add(list, w().with(at(true, ts[0])).with(at(false, ts[1])));
    }
}

// ---- bends

const STEP: f32 = 1.0 / 1024.0;

// The value at x of a line from 0 to 1 that is bent.
fn on_line(curve: f32, x: f32) -> Call {
    let shape = Shape {
        points: vec![point(0.0, 0.0, curve), point(1.0, 1.0, 0.0)],
        loopback: Present::No,
    };
    Call::ShapeAt { shape, x: bits(x) }
}

fn bends(list: &mut List) {
    let w = || Written::new(&eighth(LfoType::Drawn, Mode::Restart));
    // in each octave the strengths that are not the source's: at 12/1024 one unit of each shows in the value
    for k in [22.0, 24.0, 165.0] {
        let curves = (0..8).map(|octave| (k + 256.0 * octave as f32) * STEP - 1.0);
        add(
            list,
            curves.fold(w(), |w, c| w.with(on_line(c, 12.0 * STEP))),
        );
    }
    // the ends and beyond them, about 0, and where octaves meet
    for curves in [
        [1.0, 1.5, 1.0f32.next_up(), f32::MAX, 1.0 - STEP],
        [-1.0, -1.5, -(1.0f32.next_up()), f32::MIN, STEP - 1.0],
        [0.0, -0.0, STEP, -STEP, 0.25],
        [0.25 - STEP, 0.25 + STEP, -0.75, -0.75 - STEP, 0.5 + STEP],
    ] {
        let calls = curves.map(|c| on_line(c, 0.375));
        add(list, calls.into_iter().fold(w(), Written::with));
    }
    // played, by each of its segments
    for multiples in [
        [24.0, 165.0, 1024.0, -1024.0],
        [1023.0, -859.0, 1.0, 600.0],
        [1536.0, -1.0, -345.0, 421.0],
    ] {
        let mut points = vec![point(1.0, 0.125, 0.0)];
        for (i, n) in multiples.into_iter().enumerate() {
            points.push(point(i as f32 * 0.25, 1.0 - i as f32 * 0.3, n * STEP));
        }
        let loopback = Present::No;
        let w = w().with(Call::Shape(Shape { points, loopback }));
        add(list, w.block(9, Present::Yes(0)));
    }
}

// A curve off the grid: of the first point, of one with a step, of the last; near the grid; with what another question asks before; of the 64th point
// and of the 65th.
fn off_the_grid(list: &mut List) {
    let w = || Written::new(&eighth(LfoType::Drawn, Mode::Restart));
    let both = |shape: Shape| {
        let w = w().with(Call::Shape(shape.clone())).block(2, NONE);
        w.with(Call::ShapeAt { shape, x: 0 })
    };
    let off = |i: usize| {
        let mut s = bent();
        s.points[i].curve = bits(0.3);
        s
    };
    for i in [0, 2, 4] {
        add(list, both(off(i)));
    }
    let near = 24.0f32 * STEP;
    for curves in [
        [near.next_up(), near.next_down(), STEP / 2.0, -1.5 * STEP],
        [1e-45, -1e-45, 1.0f32.next_down(), -(1.0f32.next_down())],
        [f32::INFINITY, f32::NEG_INFINITY, f32::NAN, 0.0],
    ] {
        let calls = curves.map(|c| on_line(c, 0.375));
        add(list, calls.into_iter().fold(w(), Written::with));
    }
    let earlier: [fn(&mut Shape); 6] = [
        |s| s.points[1].step = 2,
        |s| s.loopback = Present::Unknown(2),
        |s| s.points[3].mods[0] = Present::Unknown(3),
        |s| s.points[1].y = bits(f32::NAN),
        |s| s.points[3].mods[1] = moved(1, f32::INFINITY),
        |s| s.loopback = Present::Yes(5),
    ];
    for fault in earlier {
        let mut s = off(0);
        fault(&mut s);
        add(list, both(s));
    }
    for i in [63, 64] {
        let mut s = many();
        s.points[i].curve = bits(0.3);
        add(list, both(s));
    }
}

// ---- legs

const SQUARE: f32 = 1.0 / 4096.0;

// A path through squares of the paper.
fn through(squares: &[(u32, u32)], closed: bool) -> RunPath {
    let place = |s: &(u32, u32)| (s.0 as f32 * SQUARE, s.1 as f32 * SQUARE, 0.0);
    let places: Vec<_> = squares.iter().map(place).collect();
    path(&places, closed)
}

// A path of so many points all over the paper, which no bus moves.
fn scattered(count: u32, closed: bool) -> RunPath {
    let squares: Vec<_> = (0..count)
        .map(|i| (i * i * 37 % 4097, i * 1009 % 4097))
        .collect();
    let mut p = through(&squares, closed);
    for point in &mut p.points {
        point.mods = [Present::No; 2];
    }
    p
}

fn legs(list: &mut List) {
    let w = || Written::new(&eighth(LfoType::Path, Mode::Restart));
    // of no point, of one and of two, of 64 and of more, of which the first 64 count
    for count in [0, 1, 2, 3, 64, 70] {
        for closed in [false, true] {
            let p = scattered(count, closed);
            let w = w().with(Call::Legs(p.clone())).with(Call::Path(p));
            add(list, w.block(2, NONE));
        }
    }
    // one square, its diagonal, 3 and 4 squares; corners; what a float formula gets wrong in the last digit; the same point again
    for squares in [
        [(0, 0), (1, 0), (2, 1), (5, 5)],
        [(0, 0), (4096, 4096), (4096, 0), (1, 4096)],
        [(0, 0), (2897, 2898), (2897, 2898), (4096, 4095)],
    ] {
        let p = through(&squares, true);
        let at = Call::PathAt {
            path: p.clone(),
            t: bits(0.6),
        };
        let w = w().with(Call::Legs(p.clone())).with(at);
        add(list, w.with(Call::Path(p)).block(6, NONE));
    }
}

// A path and the legs of a path, handed in one after the other, and the path at its start.
fn by_each(p: RunPath) -> Written {
    let w = Written::new(&eighth(LfoType::Path, Mode::Restart));
    let at = Call::PathAt {
        path: p.clone(),
        t: 0,
    };
    let w = w.with(Call::Path(p.clone())).block(2, NONE);
    w.with(at).with(Call::Legs(p))
}

fn set_coordinate(p: &mut RunPath, i: usize, y: bool, c: f32) {
    let point = &mut p.points[i];
    *(if y { &mut point.y } else { &mut point.x }) = bits(c);
}

fn with_coordinate(i: usize, y: bool, c: f32) -> RunPath {
    let mut p = bowed(i != 1);
    set_coordinate(&mut p, i, y, c);
    p
}

// Coordinates on the paper and about it: of a square and next to it, between two, at the edges and past them.
fn about_the_paper(list: &mut List) {
    let square = 24.0 * SQUARE;
    for c in [
        square,
        square.next_up(),
        square.next_down(),
        SQUARE / 2.0,
        1.0 - SQUARE,
        1.0 - SQUARE / 2.0,
        1.0,
        1.0f32.next_up(),
        1.0f32.next_down(),
        1.0 + SQUARE,
        1.5,
        f32::MAX,
        0.0,
        -0.0,
        1e-45,
        -1e-45,
        -SQUARE,
        -1.0,
        f32::MIN,
    ] {
        let call = |y: bool| Call::Legs(with_coordinate(2, y, c));
        let w = by_each(with_coordinate(1, false, c));
        add(list, w.with(call(false)).with(call(true)));
    }
}

// A coordinate off the paper: of each point, in x and in y; with what another question asks before; of the 64th point and of the 65th.
fn off_the_paper(list: &mut List) {
    for i in [0, 1, 2] {
        for y in [false, true] {
            add(list, by_each(with_coordinate(i, y, 0.3)));
        }
    }
    let earlier: [fn(&mut RunPath); 6] = [
        |p| p.closed = 2,
        |p| p.points[1].mods[0] = Present::Unknown(3),
        |p| p.points[0].x = bits(f32::NAN),
        |p| p.points[2].y = bits(f32::INFINITY),
        |p| p.points[2].bend = bits(f32::NEG_INFINITY),
        |p| p.points[1].mods[1] = moved(1, f32::NAN),
    ];
    for fault in earlier {
        let mut p = with_coordinate(1, true, 0.3);
        fault(&mut p);
        add(list, by_each(p));
    }
    for (count, i) in [(64, 63), (70, 63), (70, 64), (65, 64)] {
        for y in [false, true] {
            let mut p = scattered(count, y);
            set_coordinate(&mut p, i, y, -SQUARE);
            add(list, by_each(p));
        }
    }
}

fn phases(list: &mut List) {
    for mode in MODES {
        let s = Settings {
            phase: 45.0,
            ..eighth(LfoType::Drawn, mode)
        };
        let w = Written::new(&s).phase().block(3, Present::Yes(1)).phase();
        add(list, w.settings(&Settings::default()).phase());
    }
    for (phase, beats) in [(-0.0, 0.0), (0.0, -1e-20), (360.0, 2_147_483_647.0)] {
        let s = Settings {
            phase,
            song_lock: beats != 0.0,
            rate: if beats == 0.0 {
                hertz(-0.0)
            } else {
                synced(7, Feel::Triplet)
            },
            ..Settings::default()
        };
        let w = Written::new(&s).at(|t| (t.beats, t.playing) = (beats, true));
        add(
            list,
            w.block(0, Present::Yes(0)).at(|t| t.beats = beats).phase(),
        );
    }
}

// ---- what is refused

// Each number that can be the answer to each call, twice.
fn refusals(list: &mut List) {
    let mut a = Adverse::new(4);
    for (tag, numbers) in APPLY.iter().enumerate() {
        for number in numbers.iter().filter(|n| **n != 8) {
            for _ in 0..2 {
                add(list, refusal(&mut a, tag, *number));
            }
        }
    }
}

fn refusal(a: &mut Adverse, tag: usize, number: u64) -> Written {
    let w = Written::new(&eighth(LfoType::Drawn, Mode::Restart));
    loop {
        let mut call = match tag {
            0 | MAKE => Call::Settings(settings_bits(&Settings::default())),
            1 => Call::Shape(bent()),
            2 => Call::Path(bowed(false)),
            5 => w.clone().block(3, NONE).run.calls.remove(0),
            6 => Call::ShapeAt {
                shape: bent(),
                x: 0,
            },
            7 => Call::PathAt {
                path: bowed(true),
                t: 0,
            },
            8 => Call::Legs(bowed(true)),
            _ => a.call(tag).0,
        };
        refused::refuse(&mut a.v, &mut call);
        if let Call::Block(b) = &mut call {
            (b.x_len, b.y_len) = (b.x_len.min(4), b.y_len.min(4));
        }
        if questions::answer(&call, 0) != number {
            continue;
        }
        let mut w = w.clone();
        return match call {
            Call::Settings(s) if tag == MAKE => {
                w.run.settings = s;
                w
            }
            _ => w.with(call).block(1, NONE),
        };
    }
}

fn malformed(list: &mut List) {
    let mut v = Values::new(11);
    for way in (0..spoiled::WAYS).chain([5, 6, 5, 6, 5, 6, 0, 0, 2, 3, 3, 4, 9, 10]) {
        let w = Written::new(&eighth(LfoType::Path, Mode::Free)).block(2, Present::Yes(1));
        list.push(spoiled::by(&mut v, &w.bus(3, 0.5).run, way));
    }
}

// Adverse runs as they are compared, those that are short.
fn adverse(list: &mut List) {
    let mut wanted = 40;
    for seed in 0.. {
        let m = made(seed);
        let played = play(&m.bytes, &m.smooths, &mut Figures::default());
        let blocks = played
            .entries
            .iter()
            .filter(|e| e.tag == 5 && e.answer == 0);
        if m.bytes.len() + played.out.len() <= 500 && blocks.count() >= 2 {
            list.push(m.bytes);
            wanted -= 1;
        }
        if wanted == 0 {
            return;
        }
    }
}

/// The kind of a stored run, of a player or of an ensemble.
const RUN: u8 = 0;

/// A run, a record or an item, with the length of the output that it is given.
pub struct Stored {
    kind: u8,
    pub bytes: Vec<u8>,
    pub room: usize,
}

impl Stored {
    pub fn new(kind: u8, bytes: &[u8], room: usize) -> Self {
        let bytes = bytes.to_vec();
        Self { kind, bytes, room }
    }

    /// Both lengths, two bytes each, lower first, the kind and the bytes.
    fn stdin(&self) -> Vec<u8> {
        let length = |n: usize| u16::try_from(n).unwrap().to_le_bytes();
        [
            &length(self.bytes.len())[..],
            &length(self.room)[..],
            &[self.kind],
            &self.bytes[..],
        ]
        .concat()
    }
}

/// Every run with just enough room, and of one in so many the same with one byte too few and with half.
pub fn with_room(
    list: &[Vec<u8>],
    one_in: usize,
    mut play: impl FnMut(&[u8]) -> Played,
) -> Vec<(Stored, Vec<u8>)> {
    let mut stored = vec![];
    for (i, bytes) in list.iter().enumerate() {
        let played = play(bytes);
        let all = played.out.len();
        let rooms = if i % one_in == 0 && all > 1 {
            vec![all, all - 1, all / 2]
        } else {
            vec![all]
        };
        for room in rooms {
            stored.push(in_room(bytes, &played, room));
        }
    }
    stored
}

/// A run in so much room.
pub fn in_room(bytes: &[u8], played: &Played, room: usize) -> (Stored, Vec<u8>) {
    let out = played.out[..played.fits(room)].to_vec();
    (Stored::new(RUN, bytes, room), out)
}

/// Writes the two files into `dir`, and answers how long they are.
pub fn write(dir: &Path, stored: &[(Stored, Vec<u8>)]) -> (usize, usize) {
    let stdin: Vec<u8> = stored.iter().flat_map(|(s, _)| s.stdin()).collect();
    let stdout: String = stored.iter().map(|(_, out)| hex(out) + "\n").collect();
    fs::write(dir.join("stdin"), &stdin).unwrap();
    fs::write(dir.join("stdout"), &stdout).unwrap();
    (stdin.len(), stdout.len())
}

/// Writes the runs of `replay` into `dir`.
pub fn runs(dir: &Path) {
    let mut list = vec![];
    sheet(&mut list);
    kinds(&mut list);
    rates(&mut list);
    divisions(&mut list);
    spans(&mut list);
    locked(&mut list);
    smoothing(&mut list);
    starts(&mut list);
    ends(&mut list);
    curves(&mut list);
    changes(&mut list);
    evaluations(&mut list);
    bends(&mut list);
    off_the_grid(&mut list);
    legs(&mut list);
    about_the_paper(&mut list);
    off_the_paper(&mut list);
    phases(&mut list);
    refusals(&mut list);
    malformed(&mut list);
    adverse(&mut list);
    let mut figures = Figures::default();
    let mut stored = with_room(&list, 10, |bytes| {
        figures.runs += 1;
        play(bytes, &[], &mut figures)
    });
    let runs = stored.len();
    stored.extend(stored_items::all());
    let (items, sizes) = (stored.len() - runs, write(dir, &stored));
    eprintln!(
        "{runs} runs, {items} records and items, {} and {} bytes",
        sizes.0, sizes.1
    );
    eprint!("{figures}");
}
