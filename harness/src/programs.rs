//! Programs of the repository, fed and read by threads of their own, so that no pipe fills up.
use crate::values::Values;
use std::io::{Read, Write};
use std::path::{Path, PathBuf};
use std::process::{Child, ChildStdin, Command, Stdio};
use std::thread::{self, JoinHandle};
use std::time::Duration;

/// Where the programs' crates are.
const PROGRAMS: &str = concat!(env!("CARGO_MANIFEST_DIR"), "/../crates");

/// What the input is written in.
pub enum Pieces {
    Whole,
    /// Pieces of one byte and more, the sizes from this seed.
    Of(u64),
}

pub struct Running {
    child: Child,
    feeds: JoinHandle<()>,
    reads: JoinHandle<Vec<u8>>,
}

fn program(name: &str) -> PathBuf {
    Path::new(PROGRAMS).join(name).join("out").join(name)
}

/// Where a program should be that is not there.
pub fn missing(name: &str) -> Option<PathBuf> {
    let program = program(name);
    (!program.exists()).then_some(program)
}

fn size(v: &mut Values) -> usize {
    match v.below(4) {
        0 => 1,
        1 => 1 + v.index(8),
        2 => 1 + v.index(200),
        _ => 1 + v.index(5000),
    }
}

// Some pauses let the program read each piece by itself. A program that has ended reads no more.
fn feed(mut to: ChildStdin, input: &[u8], pieces: Pieces) {
    let Pieces::Of(seed) = pieces else {
        let _ = to.write_all(input);
        return;
    };
    let (mut v, mut rest) = (Values::new(seed), input);
    while !rest.is_empty() {
        let (piece, others) = rest.split_at(size(&mut v).min(rest.len()));
        if to.write_all(piece).is_err() {
            return;
        }
        rest = others;
        if v.one_in(4) {
            thread::sleep(Duration::from_micros(50));
        }
    }
}

/// Starts a program on an input.
pub fn start(name: &str, input: Vec<u8>, pieces: Pieces) -> Running {
    let piped = Command::new(program(name))
        .stdin(Stdio::piped())
        .stdout(Stdio::piped())
        .stderr(Stdio::null())
        .spawn();
    let mut child = piped.unwrap_or_else(|e| panic!("the program {name}: {e}"));
    let (to, from) = (child.stdin.take(), child.stdout.take());
    let (to, mut from) = (to.expect("a pipe"), from.expect("a pipe"));
    Running {
        child,
        feeds: thread::spawn(move || feed(to, &input, pieces)),
        reads: thread::spawn(move || {
            let mut output = vec![];
            let _ = from.read_to_end(&mut output);
            output
        }),
    }
}

impl Running {
    /// All that the program wrote, and how it ended where that is not with success.
    pub fn ended(mut self) -> (Vec<u8>, Option<String>) {
        let output = self.reads.join().expect("a thread that reads");
        let status = self.child.wait().expect("a program that ends");
        self.feeds.join().expect("a thread that writes");
        let failed = !status.success();
        (output, failed.then(|| status.to_string()))
    }
}
