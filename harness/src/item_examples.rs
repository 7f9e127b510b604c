//! The records of examples/, and the fields of a record beside its bytes as docs/RECORD.md has them.
use crate::items::{self, Field, Holds, Item, Placed, Read, holds, kept, numbers_of};
use crate::lfo::{Direction, Division, Feel, LfoType, Mode, Rate, Settings, Span};
use crate::player::bits;
use crate::run::{self, Present, Scale, Shape, settings_bits};
use crate::written::{moved, path, point, synced};
use std::fs;
use std::path::Path;

fn item(settings: &Settings, shape: Shape, path: run::Path) -> Item {
    Item {
        settings: settings_bits(settings),
        shape,
        path,
        buses: [0; items::BUSES],
        seed: 0,
        tempo: 120f64.to_bits(),
        beats_per_bar: 4f64.to_bits(),
        swing: 0,
        scale: Scale::Percent(bits(100.0)),
    }
}

fn no_shape() -> Shape {
    Shape {
        points: vec![],
        loopback: Present::No,
    }
}

fn no_path() -> run::Path {
    path(&[], false)
}

// A One-shot of a drawn curve with bends, a step, a loopback and a point that bus 0 moves.
fn drawn() -> Item {
    let settings = Settings {
        mode: Mode::OneShot,
        rate: synced(5, Feel::Dotted),
        fade_in: Span::Synced(Division::QUARTER),
        delay: Span::Seconds(0.25),
        phase: 90.0,
        phase_snap: true,
        ..Settings::default()
    };
    let mut points = vec![
        point(0.0, 0.0, 0.5),
        point(0.25, 1.0, -0.25),
        point(0.5, 0.5, 0.0),
        point(1.0, 0.125, 0.0),
    ];
    points[1].mods[0] = moved(0, -0.125);
    points[2].step = 1;
    let loopback = Present::Yes(1);
    let mut item = item(&settings, Shape { points, loopback }, no_path());
    item.settings.smooth = Present::Yes(bits(0.5));
    item.buses[0] = bits(0.75);
    item
}

// An open path of three points with bends, there and back at 2.5 Hz.
fn travelled() -> Item {
    let settings = Settings {
        kind: LfoType::Path,
        direction: Direction::PingPong,
        rate: Rate::Hz {
            hz: 2.5,
            x10: false,
        },
        ..Settings::default()
    };
    let places = [
        (0.125, 0.0, 0.5),
        (1.0, 0.5, -1.0),
        (1.0 / 4096.0, 1.0, 0.0),
    ];
    let mut open = path(&places, false);
    for (i, p) in open.points.iter_mut().enumerate() {
        p.mods = [Present::No; 2];
        if i == 1 {
            p.mods[1] = moved(15, -0.25);
        }
    }
    let mut item = item(&settings, no_shape(), open);
    item.buses[15] = bits(1.0);
    item
}

// Random steps with swing, in a bar of three beats, twice as fast.
fn held() -> Item {
    let settings = Settings {
        kind: LfoType::SampleAndHold,
        mode: Mode::Free,
        rate: synced(9, Feel::Straight),
        swing: true,
        song_lock: true,
        ..Settings::default()
    };
    let mut item = item(&settings, no_shape(), no_path());
    item.seed = 0x1234_5678_9abc_def0;
    (item.tempo, item.beats_per_bar) = (97.5f64.to_bits(), 3f64.to_bits());
    item.swing = bits(0.5);
    item.scale = Scale::Rate(bits(200.0));
    item
}

/// The examples, each with the name of its file.
pub fn all() -> [(&'static str, Item); 3] {
    [
        ("drawn.item", drawn()),
        ("path.item", travelled()),
        ("sample-and-hold.item", held()),
    ]
}

fn record(item: &Item) -> Vec<u8> {
    items::write(item).expect("an item that is accepted")
}

/// Writes the three records. Answers whether each is read back as its item.
pub fn write(dir: &Path) -> bool {
    fs::create_dir_all(dir).expect("a folder to write to");
    all().iter().all(|(name, item)| {
        let record = record(item);
        fs::write(dir.join(name), &record).expect("a file to write");
        println!("{name}: {} bytes", record.len());
        matches!(items::read(&record), Read::Item(back) if back == kept(item))
    })
}

/// What is wrong with examples/ and docs/RECORD.md: a file that is not its item's record, or whose fields are not there beside its bytes.
pub fn wrong() -> Vec<String> {
    let top = Path::new(env!("CARGO_MANIFEST_DIR")).join("..");
    let page = fs::read_to_string(top.join("docs/RECORD.md")).unwrap_or_default();
    let mut wrong = vec![];
    for (name, item) in all() {
        let record = record(&item);
        if fs::read(top.join("examples").join(name)).ok().as_ref() != Some(&record) {
            wrong.push(format!("examples/{name} is not the record of its item"));
        }
        if !page.contains(&table(&record)) {
            wrong.push(format!("docs/RECORD.md has not the fields of {name}"));
        }
    }
    wrong
}

// ---- a record beside its fields

#[rustfmt::skip]
const DIVISIONS: [&str; 15] = [
    "32 bars", "16 bars", "8 bars", "4 bars", "2 bars", "1 bar", "2 beats", "1 beat",
    "1/2 beat", "1/4 beat", "1/8 beat", "1/16 beat", "1/32 beat", "1/64 beat", "1/128 beat",
];

fn choices(field: Field) -> &'static [&'static str] {
    use Field::*;
    match field {
        Kind => &["Drawn", "Path", "Lorenz", "Rössler", "Sample-and-Hold"],
        Mode => &["Free", "Restart", "One-shot"],
        Direction => &["Forward", "Reverse", "PingPong"],
        Rate => &["synced", "hertz"],
        RateDivision | FadeInDivision | DelayDivision => &DIVISIONS,
        Feel => &["straight", "triplet", "dotted"],
        FadeIn | Delay => &["none", "synced", "seconds"],
        Smooth | Loopback | XMod | YMod | PathXMod | PathYMod => &["absent", "present"],
        Scale => &["percent", "rate"],
        X10 | SongLock | Swing | PhaseSnap | Step | Closed => &["no", "yes"],
        _ => &[],
    }
}

fn value(field: Field, n: u64) -> String {
    match holds(field) {
        Holds::Choice(_) => match choices(field).get(n as usize) {
            Some(name) => format!("{n}, {name}"),
            None => n.to_string(),
        },
        Holds::F32 => format!("{}, bits {n:08x}", f64::from(f32::from_bits(n as u32))),
        Holds::F64 => format!("{}, bits {n:016x}", f64::from_bits(n)),
        Holds::Number(_) => n.to_string(),
    }
}

// In the words of docs/RECORD.md.
fn name(field: Field) -> &'static str {
    use Field::*;
    match field {
        Kind => "kind",
        Mode => "mode",
        Direction => "direction",
        Rate => "rate",
        RateDivision => "rate's division",
        Feel => "feel",
        Hz => "hz",
        X10 => "x10",
        SongLock => "song_lock",
        Swing => "swing",
        FadeIn => "fade_in",
        FadeInDivision => "fade_in's division",
        FadeInSeconds => "fade_in's seconds",
        Delay => "delay",
        DelayDivision => "delay's division",
        DelaySeconds => "delay's seconds",
        Smooth => "coefficient there",
        Coefficient => "coefficient",
        Phase => "phase",
        PhaseSnap => "phase_snap",
        GridX => "grid_x",
        ShapeCount => "shape's count",
        X | PathX => "x",
        Y | PathY => "y",
        Curve => "curve",
        Step => "step",
        XMod | PathXMod => "x_mod",
        XBus | PathXBus => "x_mod's bus",
        XDepth | PathXDepth => "x_mod's depth",
        YMod | PathYMod => "y_mod",
        YBus | PathYBus => "y_mod's bus",
        YDepth | PathYDepth => "y_mod's depth",
        Loopback => "loopback",
        LoopbackIndex => "loopback's point",
        PathCount => "path's count",
        Closed => "closed",
        Bend => "bend",
        Bus => "bus",
        Seed => "seed",
        Tempo => "tempo",
        BeatsPerBar => "beats per bar",
        SwingAmount => "swing amount",
        Scale => "scale",
        Percent => "percent",
    }
}

/// A row: a field, its bytes, its value.
pub fn row(name: &str, bytes: &[u8], value: &str) -> String {
    let bytes: Vec<String> = bytes.iter().map(|b| format!("{b:02x}")).collect();
    format!("| {name} | {} | {value} |", bytes.join(" "))
}

/// The rows of a record, one a number. Points and buses are counted from 0; buses that follow each other with equal numbers are one row.
fn rows(record: &[u8]) -> Vec<String> {
    let of = |n: &Placed| &record[n.at..n.end];
    let text = |n: &Placed| value(n.field, n.value);
    let numbers = numbers_of(record);
    let (mut rows, mut points) = (vec![], 0);
    let (buses, others): (Vec<Placed>, _) = numbers.iter().partition(|n| n.field == Field::Bus);
    for n in others {
        match n.field {
            Field::ShapeCount | Field::PathCount => points = 0,
            Field::X | Field::PathX => points += 1,
            Field::Seed => rows.extend(bus_rows(&buses, &of, &text)),
            _ => {}
        }
        let name = match is_of_point(n.field) {
            true => format!("point {}: {}", points - 1, name(n.field)),
            false => name(n.field).to_string(),
        };
        rows.push(row(&name, of(&n), &text(&n)));
    }
    rows
}

fn bus_rows<'a>(
    buses: &[Placed],
    of: &impl Fn(&Placed) -> &'a [u8],
    text: &impl Fn(&Placed) -> String,
) -> Vec<String> {
    let (mut rows, mut at) = (vec![], 0);
    for same in buses.chunk_by(|a, b| a.value == b.value) {
        let last = at + same.len() - 1;
        let (name, value) = match same.len() {
            1 => (format!("bus {at}"), text(&same[0])),
            _ => (
                format!("buses {at} to {last}"),
                format!("each {}", text(&same[0])),
            ),
        };
        let bytes: Vec<u8> = same.iter().flat_map(of).copied().collect();
        rows.push(row(&name, &bytes, &value));
        at = last + 1;
    }
    rows
}

fn is_of_point(field: Field) -> bool {
    let at = field as usize;
    (Field::X as usize..=Field::YDepth as usize).contains(&at)
        || (Field::PathX as usize..=Field::PathYDepth as usize).contains(&at)
}

/// The rows of a record under their head.
pub fn table(record: &[u8]) -> String {
    let head = "| field | bytes | value |\n|---|---|---|";
    format!("{head}\n{}\n", rows(record).join("\n"))
}

/// Writes the fields of a record and what reading it gives. Answers whether it is accepted.
pub fn show(file: &Path) -> bool {
    let record = fs::read(file).expect("a record to read");
    let answer = items::read(&record).answer();
    println!("{}", table(&record));
    println!("{} bytes; reading gives {answer}", record.len());
    answer == 0
}
