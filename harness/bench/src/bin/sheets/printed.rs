//! A sheet by the Rust source, printed in two ways.
use crate::items::{BLOCK, bank, blocks, transport};
use std::fs::File;
use std::io::{self, BufWriter, Write};
use std::os::fd::AsFd;

const ROOM: usize = 1 << 16;

// Standard output without the line buffer that the library puts before it.
fn output() -> io::Result<File> {
    Ok(File::from(io::stdout().as_fd().try_clone_to_owned()?))
}

fn bits(x: f32) -> u32 {
    if x.is_nan() { 0x7fc0_0000 } else { x.to_bits() }
}

// Plays a sitting and hands out its lines.
fn play(n: usize, mut line: impl FnMut(u64, u32, u32) -> io::Result<()>) -> io::Result<()> {
    let (mut bank, mut transport, mut index) = (bank(n), transport(), 0);
    let (mut x, mut y) = ([0f32; BLOCK], [0f32; BLOCK]);
    for frames in blocks() {
        bank.process_scalar(&transport, frames, &mut x[..frames], Some(&mut y[..frames]));
        transport.advance(frames);
        for (x, y) in x[..frames].iter().zip(&y[..frames]) {
            line(index, bits(*x), bits(*y))?;
            index += 1;
        }
    }
    Ok(())
}

/// By `write!` into a `BufWriter`.
pub fn by_write(n: usize) -> io::Result<()> {
    let mut out = BufWriter::with_capacity(ROOM, output()?);
    writeln!(out, "frame x y")?;
    play(n, |i, x, y| writeln!(out, "{i} {x:08x} {y:08x}"))?;
    out.flush()
}

// ---- by hand

const fn decimal_pairs() -> [[u8; 2]; 100] {
    let (mut pairs, mut i) = ([[0; 2]; 100], 0);
    while i < 100 {
        pairs[i] = [b'0' + i as u8 / 10, b'0' + i as u8 % 10];
        i += 1;
    }
    pairs
}

const fn hex_pairs() -> [[u8; 2]; 256] {
    let (digits, mut pairs, mut i) = (b"0123456789abcdef", [[0; 2]; 256], 0);
    while i < 256 {
        pairs[i] = [digits[i >> 4], digits[i & 15]];
        i += 1;
    }
    pairs
}

static DECIMAL: [[u8; 2]; 100] = decimal_pairs();
static HEX: [[u8; 2]; 256] = hex_pairs();

/// The longest line: 20 digits, twice 8, two blanks and a line feed.
const LINE: usize = 39;

struct Buffer {
    bytes: Box<[u8; ROOM]>,
    len: usize,
    out: File,
}

impl Buffer {
    fn put(&mut self, bytes: &[u8]) {
        self.bytes[self.len..self.len + bytes.len()].copy_from_slice(bytes);
        self.len += bytes.len();
    }

    fn decimal(&mut self, mut n: u64) {
        let (mut digits, mut at) = ([0; 20], 20);
        while n >= 100 {
            at -= 2;
            digits[at..at + 2].copy_from_slice(&DECIMAL[(n % 100) as usize]);
            n /= 100;
        }
        at -= 2;
        digits[at..at + 2].copy_from_slice(&DECIMAL[n as usize]);
        at += usize::from(n < 10);
        self.put(&digits[at..]);
    }

    fn hex(&mut self, n: u32) {
        for byte in n.to_be_bytes() {
            self.put(&HEX[usize::from(byte)]);
        }
    }

    fn line(&mut self, index: u64, x: u32, y: u32) -> io::Result<()> {
        if self.len + LINE > ROOM {
            self.flush()?;
        }
        self.decimal(index);
        self.put(b" ");
        self.hex(x);
        self.put(b" ");
        self.hex(y);
        self.put(b"\n");
        Ok(())
    }

    fn flush(&mut self) -> io::Result<()> {
        self.out.write_all(&self.bytes[..self.len])?;
        self.len = 0;
        Ok(())
    }
}

/// By hand: two digits at a time from tables, into a buffer of its own.
pub fn by_hand(n: usize) -> io::Result<()> {
    let mut buffer = Buffer {
        bytes: Box::new([0; ROOM]),
        len: 0,
        out: output()?,
    };
    buffer.put(b"frame x y\n");
    play(n, |i, x, y| buffer.line(i, x, y))?;
    buffer.flush()
}
