//! The sittings that the programs `replay_sittings` and `sitting` play with no Rust at hand: `harness vectors sittings ../crates` writes the files `stdin` and
//! `stdout` of both. Each sitting is made here for what it shows and for how it ends; the sheets are those of sittings.rs.
use crate::items::{self, Item, kept};
use crate::lfo::{Feel, LfoType, Mode, Rate, Settings, Span};
use crate::player::bits;
use crate::run::{self, Present, Scale, put_number, settings_bits};
use crate::runs::hex;
use crate::sitting_examples::{self, bus};
use crate::sitting_figures::Figures;
use crate::sitting_stored_faults;
use crate::sittings::{Ending, Event, sheet};
use crate::values::{DIRECTIONS, KINDS, MODES};
use crate::written::{bent, bowed, eighth, hertz, moved, point, synced};
use Ending::{Ended, Failed};
use Event::{Block, End, Restart};
use std::fs;
use std::path::Path;

/// Sittings with how they end.
pub type List = Vec<(Vec<u8>, Ending)>;

// ---- items

// It moves on by an eighth of a cycle a sample.
fn item(settings: &Settings) -> Item {
    let settings = Settings {
        rate: hertz(1000.0),
        ..*settings
    };
    kept(&Item {
        settings: settings_bits(&settings),
        shape: bent(),
        path: bowed(true),
        buses: [0; items::BUSES],
        seed: 0x1234_5678,
        tempo: 1000f64.to_bits(),
        beats_per_bar: 4f64.to_bits(),
        swing: 0,
        scale: Scale::Rate(bits(600.0)),
    })
}

/// A drawn curve in Restart.
pub fn drawn() -> Item {
    item(&eighth(LfoType::Drawn, Mode::Restart))
}

pub fn sitting(item: &Item, events: &[Event]) -> Vec<u8> {
    let events = events.iter().flat_map(|e| e.bytes());
    items::bytes(item).into_iter().chain(events).collect()
}

pub fn add(list: &mut List, item: &Item, events: &[Event], ending: Ending) {
    list.push((sitting(item, events), ending));
}

// ---- what is played

fn kinds(list: &mut List) {
    for (i, kind) in KINDS.into_iter().enumerate() {
        for (j, mode) in MODES.into_iter().enumerate() {
            let settings = Settings {
                direction: DIRECTIONS[(i + j) % 3],
                ..eighth(kind, mode)
            };
            let events = [Block(3), Restart(1), Block(7), bus(0, 0.5), Block(9), End];
            add(list, &item(&settings), &events, Ended);
        }
    }
}

// Replaced, waiting over a bus event, in a block of no frames, at the end and beyond, waiting at the end.
fn restarts(list: &mut List) {
    let most = u64::MAX;
    let faded = Settings {
        delay: Span::Seconds(2.0 / 48_000.0),
        fade_in: Span::Seconds(4.0 / 48_000.0),
        ..eighth(LfoType::Drawn, Mode::Restart)
    };
    #[rustfmt::skip]
    let lists = [
        &[Block(4), Restart(1), Restart(3), Block(9), End][..],
        &[Block(4), Restart(3), Restart(most), Restart(1), Block(9), End],
        &[Block(2), Restart(2), bus(0, 0.5), Block(5), Block(8), End],
        &[Block(2), Restart(2), Block(0), Block(5), End],
        &[Block(3), Restart(5), Block(5), Block(9), End],
        &[Block(3), Restart(6), Block(5), Restart(most), Block(2), Block(9), End],
        &[Block(3), Restart(0), End],
        &[Restart(0), Restart(1), Restart(2), End],
    ];
    for events in lists {
        add(list, &item(&faded), events, Ended);
    }
}

// The transport plays from the start of the song and moves on after each block.
fn locked(list: &mut List) {
    for mode in MODES {
        for rate in [
            synced(10, Feel::Dotted),
            Rate::Hz {
                hz: 700.0,
                x10: true,
            },
        ] {
            let mut locked = item(&eighth(LfoType::Drawn, mode));
            let settings = Settings {
                song_lock: true,
                swing: true,
                phase: 90.0,
                rate,
                ..eighth(LfoType::Drawn, mode)
            };
            locked.settings = settings_bits(&settings);
            (locked.swing, locked.tempo) = (bits(0.5), 977.5f64.to_bits());
            #[rustfmt::skip]
            let events = [Block(5), Block(0), Block(31), Restart(1), Block(7), Block(2), End];
            add(list, &locked, &events, Ended);
        }
    }
}

// Of a bus that moves points, of −0 beside 0, of the last one, of one that moves nothing; the item's own buses first.
fn buses(list: &mut List) {
    let b = Block(3);
    let mut item = drawn();
    item.buses = [bits(-0.0); items::BUSES];
    item.shape.points[1].mods = [moved(15, 0.25), moved(16, 1.0)];
    #[rustfmt::skip]
    let lists = [
        &[b, bus(0, -0.0), b, bus(0, 0.5), bus(1, 1.0), b, bus(0, -0.0), b, End][..],
        &[b, bus(15, 1.0), b, bus(15, -1.0), bus(15, f32::MAX), b, End],
        &[bus(7, 1e-45), b, bus(0, f32::MIN), b, bus(0, 0.25), bus(0, 0.25), b, End],
    ];
    for events in lists {
        add(list, &item, events, Ended);
    }
}

fn blocks(list: &mut List) {
    let path = item(&eighth(LfoType::Path, Mode::Free));
    for (item, events) in [
        (path, &[Restart(4095), Block(4096), Block(1), End][..]),
        (drawn(), &[Block(0), Block(1), Block(0), Block(1), End]),
        (drawn(), &[End]),
    ] {
        add(list, &item, events, Ended);
    }
}

// A One-shot that ends and is restarted, one with a loopback, and one there and back.
fn ended(list: &mut List) {
    for (i, direction) in DIRECTIONS.into_iter().enumerate() {
        let settings = Settings {
            direction,
            ..eighth(LfoType::Drawn, Mode::OneShot)
        };
        let mut item = item(&settings);
        if i != 1 {
            item.shape.loopback = Present::No;
        }
        let events = [Block(12), Block(9), Restart(2), Block(12), End];
        add(list, &item, &events, Ended);
    }
}

// A NaN where two points are next to each other, smoothing, and no point at all.
fn values(list: &mut List) {
    let mut near = drawn();
    near.shape.points = vec![point(0.0, 0.0, 0.0), point(1e-40, 1.0, 0.0)];
    near.shape.loopback = Present::No;
    add(list, &near, &[Block(9), End], Ended);
    let mut smooth = drawn();
    smooth.settings.smooth = Present::Yes(bits(0.25));
    add(list, &smooth, &[Block(5), Restart(2), Block(7), End], Ended);
    smooth.shape.points.clear();
    smooth.shape.loopback = Present::No;
    add(list, &smooth, &[Block(2), End], Ended);
}

// ---- the files

fn all() -> List {
    let mut list = vec![];
    for (name, bytes) in sitting_examples::all() {
        let ending = if name.starts_with("path") {
            Failed(10, 7)
        } else {
            Ended
        };
        list.push((bytes, ending));
    }
    kinds(&mut list);
    restarts(&mut list);
    locked(&mut list);
    buses(&mut list);
    blocks(&mut list);
    ended(&mut list);
    values(&mut list);
    sitting_stored_faults::all(&mut list);
    list
}

// The one of `sitting`: a curve with delay, fade and smoothing, restarts replaced and waiting, buses moved, and a block too long.
fn alone() -> (Vec<u8>, Ending) {
    let settings = Settings {
        direction: DIRECTIONS[2],
        delay: Span::Seconds(0.0005),
        fade_in: Span::Seconds(0.002),
        ..eighth(LfoType::Drawn, Mode::Restart)
    };
    let mut item = item(&settings);
    let (hz, x10) = (bits(37.5), 0);
    item.settings.rate = run::Rate::Hz { hz, x10 };
    item.settings.smooth = Present::Yes(bits(0.75));
    #[rustfmt::skip]
    let events = [
        Block(64), bus(0, 0.5), Block(512), Restart(10), Restart(300), Block(400),
        Restart(0), bus(1, -0.75), Restart(40), Block(120), Block(0), Block(1),
        bus(0, -0.0), Restart(5), Block(0), Block(200),
        bus(1, 0.25), Restart(999), Block(150), Restart(7), Block(4097),
    ];
    (sitting(&item, &events), Failed(events.len() as u64 - 1, 7))
}

fn text((bytes, ending): &(Vec<u8>, Ending), figures: &mut Figures) -> String {
    let sheet = sheet(bytes, figures);
    assert_eq!(sheet.ending, *ending, "{}", hex(bytes));
    sheet.text
}

fn write(dir: &Path, stdin: &[u8], stdout: &str) {
    fs::create_dir_all(dir).expect("a folder to write to");
    fs::write(dir.join("stdin"), stdin).expect("a file to write");
    fs::write(dir.join("stdout"), stdout).expect("a file to write");
    let (dir, long) = (dir.display(), stdout.len());
    eprintln!("{dir}: {} and {long} bytes", stdin.len());
}

/// Writes the files of both programs into their folders in `dir`.
pub fn sittings(dir: &Path) {
    let (list, mut figures) = (all(), Figures::default());
    let (mut stdin, mut stdout) = (vec![], String::new());
    for stored in &list {
        put_number(&mut stdin, stored.0.len() as u64);
        stdin.extend(&stored.0);
        stdout += &(text(stored, &mut figures) + "\n");
    }
    write(&dir.join("replay_sittings"), &stdin, &stdout);
    let alone = alone();
    let text = text(&alone, &mut Figures::default());
    write(&dir.join("sitting"), &alone.0, &text);
    eprintln!("{} sittings", list.len());
    eprint!("{figures}");
}
