//! The sittings of examples/, and the fields of a sitting beside its bytes.
use crate::item_examples::{self, row, table};
use crate::items::{self, kept};
use crate::player::bits;
use crate::run::bytes_of;
use crate::sitting_figures::Figures;
use crate::sittings::{Ending, Event, Events, sheet};
use Event::{Block, End, Restart};
use std::fs;
use std::path::Path;

pub fn bus(bus: u64, value: f32) -> Event {
    let value = bits(value);
    Event::Bus { bus, value }
}

// Bus 0 moves the second point; of two restarts the later one counts.
fn drawn() -> Vec<Event> {
    vec![
        Block(8),
        bus(0, -0.5),
        Block(16),
        Restart(2),
        Restart(6),
        Block(16),
        bus(0, 1.0),
        Block(1),
        Block(0),
        Block(24),
        Restart(3),
        End,
    ]
}

// A restart waits over a bus event and a refused block ends the sitting.
fn travelled() -> Vec<Event> {
    vec![
        Block(12),
        Restart(0),
        bus(15, 0.25),
        Block(20),
        bus(15, -0.0),
        Block(8),
        Restart(100),
        Block(30),
        Block(10),
        Restart(5),
        Block(4097),
        Block(1),
        End,
    ]
}

// With song lock in force, a restart in a block of 20 frames and one behind a block of none.
fn held() -> Vec<Event> {
    vec![
        Block(4),
        Block(30),
        Restart(10),
        Block(20),
        bus(3, 0.5),
        Block(0),
        Restart(0),
        Block(1),
        Block(30),
        Block(5),
        End,
    ]
}

/// The examples, each with the name of its file.
pub fn all() -> Vec<(String, Vec<u8>)> {
    let events = [drawn(), travelled(), held()];
    let example = |((name, item), events): ((&str, items::Item), Vec<Event>)| {
        let mut bytes = items::bytes(&kept(&item));
        bytes.extend(events.into_iter().flat_map(Event::bytes));
        (name.replace(".item", ".sitting"), bytes)
    };
    let items = item_examples::all().into_iter();
    items.zip(events).map(example).collect()
}

/// Writes the three sittings.
pub fn write(dir: &Path) -> bool {
    fs::create_dir_all(dir).expect("a folder to write to");
    for (name, bytes) in all() {
        fs::write(dir.join(&name), &bytes).expect("a file to write");
        println!("{name}: {} bytes", bytes.len());
    }
    true
}

/// What is wrong with examples/: a file that is not its sitting.
pub fn wrong() -> Vec<String> {
    let dir = Path::new(env!("CARGO_MANIFEST_DIR")).join("../examples");
    let is_wrong =
        |(name, bytes): &(String, Vec<u8>)| fs::read(dir.join(name)).ok().as_ref() != Some(bytes);
    let wrong = all().into_iter().filter(is_wrong);
    wrong
        .map(|(name, _)| format!("examples/{name} is not its sitting"))
        .collect()
}

// ---- a sitting beside its fields

// The names of an event and of its fields.
fn names(event: Event) -> &'static [&'static str] {
    match event {
        Block(_) => &["block", "frames"],
        Restart(_) => &["restart", "frame"],
        Event::Bus { .. } => &["bus", "bus", "value"],
        End => &["end"],
    }
}

fn rows_of(index: u64, event: Event) -> Vec<String> {
    let each = names(event).iter().zip(event.numbers()).enumerate();
    let row = |(i, (name, n)): (usize, (&&str, u64))| {
        let field = format!("event {index}: {name}");
        let (name, value) = match i {
            0 => (format!("event {index}"), format!("{n}, {name}")),
            1 => (field, n.to_string()),
            _ => {
                let x = f64::from(f32::from_bits(n as u32));
                (field, format!("{x}, bits {n:08x}"))
            }
        };
        row(&name, &bytes_of(&[n]), &value)
    };
    each.map(row).collect()
}

/// The most bytes that are shown of an event that cannot be read.
const SHOWN: usize = 12;

// The rows of the events up to the end, or up to the one that fails.
fn rows(bytes: &[u8], ending: Ending) -> Vec<String> {
    let (mut events, mut rows) = (Events::new(bytes), vec![]);
    for index in 0.. {
        let rest = &bytes[bytes.len() - events.left()..];
        match events.next() {
            Ok(event) => {
                rows.extend(rows_of(index, event));
                if event == End || matches!(ending, Ending::Failed(i, _) if i == index) {
                    break;
                }
            }
            Err(number) => {
                let (there, value) = (
                    &rest[..rest.len().min(SHOWN)],
                    format!("fails with {number}"),
                );
                rows.push(row(&format!("event {index}"), there, &value));
                break;
            }
        }
    }
    rows
}

/// Writes the fields of a sitting and how it ends. Answers whether it does so by its end.
pub fn show(file: &Path) -> bool {
    let bytes = fs::read(file).expect("a sitting to read");
    let (_, end) = items::read_front(&bytes);
    let sheet = sheet(&bytes, &mut Figures::default());
    print!("{}", table(&bytes[..end]));
    if !matches!(sheet.ending, Ending::Refused(_)) {
        println!("{}", rows(&bytes[end..], sheet.ending).join("\n"));
    }
    let lines = sheet.text.lines().count();
    let ending = match sheet.ending {
        Ending::Refused(number) => format!("the item is refused with {number}"),
        Ending::Failed(index, number) => format!("event {index} fails with {number}"),
        Ending::Ended => "it ends by its end".to_string(),
    };
    println!(
        "\n{} bytes, a sheet of {lines} lines; {ending}",
        bytes.len()
    );
    sheet.ending == Ending::Ended
}
