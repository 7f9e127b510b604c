//! The programs `replay_sittings` and `sitting` against sittings.rs, every byte of their standard output; and sittings.rs against what a sitting was made for.
//! Sitting i of a comparison has the seed SEED + i, so that `compare sittings 1 S` plays the sitting of seed S, and the long ones, alone.
use crate::programs::{Pieces, Running, missing, start};
use crate::progress::Progress;
use crate::run::put_number;
use crate::runs::hex;
use crate::sitting_examples;
use crate::sitting_figures::Figures;
use crate::sitting_values::{Made, made, many_events, many_frames, very_long};
use crate::sittings::{Sheet, sheet};
use crate::tally::ZERO_OF_MAX;
use std::{fs, mem};

/// The sittings of a list.
const LIST: u64 = 300;
/// One sitting of so many goes to `sitting` too.
const ALONE: u64 = 100;
/// The most bytes that are shown of a sitting.
const SHOWN: usize = 400;
/// Where the first sitting goes that differs.
const KEPT: &str = concat!(env!("CARGO_MANIFEST_DIR"), "/../target/differs.sitting");
/// From so many sittings on every kind must occur.
const ALL_KINDS: u64 = 5_000;

/// A sitting, what it is called and the sheet that must come of it.
struct Played {
    name: String,
    seed: u64,
    bytes: Vec<u8>,
    sheet: Sheet,
}

struct Comparison {
    figures: Figures,
    /// Those of the examples and of the long sittings, which come first.
    first: Figures,
    progress: Progress,
    /// Sittings that went to `sitting`.
    alone: u64,
    differed: u64,
    known: u64,
}

// ---- texts

// The first line that differs: its number from 0, ours and the Rust's.
fn first_difference(ours: &[u8], rust: &[u8]) -> String {
    let line = |text: &[u8], i: usize| {
        let line = text.split_inclusive(|b| *b == b'\n').nth(i);
        line.map_or("nothing".into(), |l| {
            format!("{:?}", String::from_utf8_lossy(l))
        })
    };
    let same = ours.iter().zip(rust).take_while(|(a, b)| a == b).count();
    let i = rust[..same].iter().filter(|b| **b == b'\n').count();
    format!("line {i}: ours {}, Rust {}", line(ours, i), line(rust, i))
}

// Whether each difference is a 0 of ours where the Rust has −0, in a sitting where `max` was put both.
fn is_zero_of_max(ours: &[u8], sheet: &Sheet) -> bool {
    let ours = String::from_utf8_lossy(ours);
    let words = |text: &str| -> Vec<String> { text.split(' ').map(str::to_string).collect() };
    let (ours, rust) = (
        words(&ours.replace('\n', " \n ")),
        words(&sheet.text.replace('\n', " \n ")),
    );
    let same = |(a, b): (&String, &String)| a == b || (a == "00000000" && b == "80000000");
    sheet.zeros && ours.len() == rust.len() && ours.iter().zip(&rust).all(same)
}

// The sheets of a list's output, each without the empty line behind it.
fn parted(output: &[u8]) -> Vec<&[u8]> {
    let mut sheets = vec![];
    let mut rest = output;
    while let Some(at) = rest.windows(2).position(|w| w == b"\n\n") {
        sheets.push(&rest[..=at]);
        rest = &rest[at + 2..];
    }
    if !rest.is_empty() {
        sheets.push(rest);
    }
    sheets
}

fn shown(bytes: &[u8]) -> String {
    match bytes.len() {
        0..=SHOWN => hex(bytes),
        _ => format!("{} ..", hex(&bytes[..SHOWN])),
    }
}

// ---- one list, one sitting

impl Comparison {
    // Makes the sheet, and looks whether the sitting ends as it was made to.
    fn played(&mut self, name: String, seed: u64, made: Made) -> Played {
        let Made { bytes, ending } = made;
        let sheet = sheet(&bytes, &mut self.figures);
        if let Some(ending) = ending
            && ending != sheet.ending
        {
            let other = format!("ends with {:?}; wanted {ending:?}", sheet.ending);
            self.differs("own reading", &name, &bytes, &other);
        }
        Played {
            name,
            seed,
            bytes,
            sheet,
        }
    }

    fn differs(&mut self, what: &str, name: &str, bytes: &[u8], other: &str) {
        self.differed += 1;
        let count = self.differed - self.known;
        if count <= 20 {
            let (long, shown) = (bytes.len(), shown(bytes));
            println!("sittings: {what} differs ({name}), {long} bytes: {shown}");
            println!("    {other}");
        }
        if count == 1 && !bytes.is_empty() && fs::write(KEPT, bytes).is_ok() {
            println!("    these bytes are in {KEPT}");
        }
    }

    // What a program printed of a sitting, and how it ended where that is not with success.
    fn sheet(&mut self, program: &str, ours: &[u8], played: &Played, failed: Option<&str>) {
        let rust = played.sheet.text.as_bytes();
        if ours == rust && failed.is_none() {
            return;
        }
        let other = match (failed, ours == rust) {
            (None, _) => first_difference(ours, rust),
            (Some(status), true) => status.to_string(),
            (Some(status), false) => format!("{status}, {}", first_difference(ours, rust)),
        };
        if failed.is_none() && is_zero_of_max(ours, &played.sheet) {
            (self.differed, self.known) = (self.differed + 1, self.known + 1);
            if self.known == 1 {
                println!("known: {ZERO_OF_MAX}, first of {}, {other}", played.name);
            }
            return;
        }
        self.differs(program, &played.name, &played.bytes, &other);
    }

    fn list(&mut self, running: Running, list: &[Played]) {
        let program = "replay_sittings";
        let (output, failed) = running.ended();
        let rust: String = list.iter().map(|p| p.sheet.text.clone() + "\n").collect();
        if output == rust.as_bytes() && failed.is_none() {
            return;
        }
        let (sheets, before) = (parted(&output), self.differed);
        for (i, played) in list.iter().enumerate() {
            self.sheet(program, sheets.get(i).unwrap_or(&&[][..]), played, None);
        }
        if self.differed == before || failed.is_some() {
            let name = format!("the list from {} on", list[0].name);
            let line = first_difference(&output, rust.as_bytes());
            self.differs(program, &name, &[], &failed.unwrap_or(line));
        }
    }

    fn alone(&mut self, played: &Played) {
        let program = "sitting";
        self.alone += 1;
        let running = start(program, played.bytes.clone(), Pieces::Of(played.seed));
        let (output, failed) = running.ended();
        self.sheet(program, &output, played, failed.as_deref());
    }
}

// ---- all of them

impl Comparison {
    // The sittings from this seed on as one list, and some of them alone.
    fn seeds(&mut self, seed: u64, first: u64, count: u64) {
        let mut input = vec![];
        let all: Vec<(u64, Made)> = (first..first + count)
            .map(|i| (seed.wrapping_add(i), made(seed.wrapping_add(i))))
            .collect();
        for (_, made) in &all {
            put_number(&mut input, made.bytes.len() as u64);
            input.extend(&made.bytes);
        }
        let pieces = match first / LIST % 4 {
            0 => Pieces::Of(seed),
            _ => Pieces::Whole,
        };
        let running = start("replay_sittings", input, pieces);
        let list: Vec<Played> = all
            .into_iter()
            .map(|(seed, made)| self.played(format!("seed {seed}"), seed, made))
            .collect();
        self.list(running, &list);
        for (_, played) in (first..).zip(&list).filter(|(i, _)| i % ALONE == 0) {
            self.alone(played);
        }
    }

    fn long(&mut self) {
        let mut list = very_long(20_000);
        list.extend(very_long(200_000));
        list.push(("50,000 events".into(), many_events(50_000)));
        list.push(("300 blocks of 4,096 frames".into(), many_frames(300)));
        for (i, (name, made)) in list.into_iter().enumerate() {
            let played = self.played(name, i as u64, made);
            self.alone(&played);
        }
    }

    fn examples(&mut self) {
        for wrong in sitting_examples::wrong() {
            self.differs("an example", &wrong, &[], "");
        }
        for (name, bytes) in sitting_examples::all() {
            let ending = None;
            let played = self.played(name.to_string(), 0, Made { bytes, ending });
            self.alone(&played);
        }
    }

    fn show(&self, wanted: u64) -> bool {
        let (seconds, f, first) = (self.progress.seconds(), &self.figures, &self.first);
        println!(
            "sittings   {} compared by replay_sittings and {} by sitting, {} differed ({} by {ZERO_OF_MAX}), {seconds:.1} s",
            f.sittings, self.alone, self.differed, self.known
        );
        println!(
            "  {} of sitting's are examples and long ones of {} frames; of those made from seeds:",
            first.sittings, first.frames
        );
        print!("{f}");
        let missing = f.missing();
        if !missing.is_empty() {
            println!("  what did not occur: {}", missing.join(", "));
        }
        self.differed == self.known
            && f.bank_differed + first.bank_differed == 0
            && (missing.is_empty() || wanted < ALL_KINDS)
    }
}

/// Compares so many sittings, and long ones. Answers whether every difference is a known one and, of 5,000 sittings or more, every kind occurred.
pub fn compare(wanted: u64, seed: u64) -> bool {
    for program in ["sitting", "replay_sittings"] {
        if let Some(path) = missing(program) {
            println!("sittings   there is no program {}", path.display());
            return false;
        }
    }
    let mut c = Comparison {
        figures: Figures::default(),
        first: Figures::default(),
        progress: Progress::new(),
        alone: 0,
        differed: 0,
        known: 0,
    };
    c.examples();
    c.long();
    c.first = mem::take(&mut c.figures);
    let mut first = 0;
    while first < wanted {
        let count = LIST.min(wanted - first);
        c.seeds(seed, first, count);
        first += count;
        c.progress
            .show(|| format!("sittings   {first:>11} of {wanted}"));
    }
    c.show(wanted)
}
