//! Bytes that are no run, or hardly one: cut short, not in shortest form, too large for their field, with an unknown tag or a long list, with
//! bytes behind the last call, with a byte changed. RUN.md alone says what comes of them.
use crate::run::{Numbers, Run, bytes_of, put_number};
use crate::values::Values;

/// The ways of spoiling a run.
pub const WAYS: u64 = 12;

// The numbers before place i, then what stands there, then the rest.
fn with(numbers: &[u64], i: usize, there: &[u8]) -> Vec<u8> {
    let mut bytes = bytes_of(&numbers[..i]);
    bytes.extend(there);
    bytes.extend(bytes_of(&numbers[i + 1..]));
    bytes
}

// A number followed by groups of 0.
fn longer(v: &mut Values, n: u64) -> Vec<u8> {
    let mut bytes = bytes_of(&[n]);
    for _ in 0..1 + v.below(3) {
        let last = bytes.len() - 1;
        bytes[last] |= 128;
        bytes.push(0);
    }
    bytes
}

fn too_large(v: &mut Values, n: u64) -> Vec<u8> {
    let any = v.number();
    let large = [
        1 << 8,
        1 << 16,
        1 << 32,
        u64::MAX,
        n | 1 << 32,
        n | 1 << 8,
        any,
    ];
    bytes_of(&[v.of(&large)])
}

// Ten bytes of more than 64 bits, or eleven.
fn past_64_bits(v: &mut Values) -> Vec<u8> {
    let mut bytes = vec![v.of(&[0x80, 0xff]); 9 + v.index(2)];
    bytes.push(v.of(&[2, 3, 0x7f]));
    bytes
}

// A call whose tag or list is too long, or a buffer too long.
fn behind(v: &mut Values, way: u64) -> Vec<u64> {
    match way {
        0 => vec![v.of(&[9, 10, 127, 128, 255, 256, 1 << 32, u64::MAX])],
        1 => vec![v.of(&[1, 6]), v.of(&[4097, 5000, 1 << 32])],
        2 => vec![v.of(&[2, 7, 8]), v.of(&[4097, 65_536, 1 << 40]), 0],
        _ => {
            let one = 1.0f64.to_bits();
            let (x_len, y_len) = v.of(&[(8193, 0), (0, 8193), (1 << 32, 4), (4, u64::MAX)]);
            vec![5, one, one, one, 0, 0, 0, 0, 0, 0, 0, 0, x_len, y_len]
        }
    }
}

/// The bytes of the run, spoiled in one of the ways.
pub fn by(v: &mut Values, run: &Run, way: u64) -> Vec<u8> {
    spoil(v, &Numbers::run(run).0, behind, way)
}

/// The bytes of a run's numbers, spoiled in one of the ways; `behind` has calls that are malformed.
pub fn spoil(
    v: &mut Values,
    numbers: &[u64],
    behind: fn(&mut Values, u64) -> Vec<u64>,
    way: u64,
) -> Vec<u8> {
    let mut bytes = bytes_of(numbers);
    let i = v.index(numbers.len());
    match way {
        0 => bytes.truncate(v.index(bytes.len())),
        1 => bytes.clear(),
        2 => bytes = with(numbers, i, &longer(v, numbers[i])),
        3 => bytes = with(numbers, i, &too_large(v, numbers[i])),
        4 => bytes = with(numbers, i, &past_64_bits(v)),
        5 | 6 => {
            let way = v.below(4);
            for n in behind(v, way) {
                put_number(&mut bytes, n);
            }
            // zeros enough for a call that is long and not malformed
            bytes.extend(vec![0; v.index(40)]);
        }
        7 => bytes.extend((0..1 + v.below(12)).map(|_| v.word() as u8)),
        8 => bytes.extend(vec![0x80; 1 + v.index(12)]),
        9 => {
            bytes.remove(v.index(bytes.len()));
        }
        10 => bytes.insert(v.index(bytes.len() + 1), v.word() as u8),
        _ => {
            let (i, any) = (v.index(bytes.len()), v.word() as u8);
            bytes[i] = v.of(&[0, 1, 2, 0x7f, 0x80, 0xff, any, bytes[i] ^ 0x80]);
        }
    }
    bytes
}

pub fn bytes(v: &mut Values, run: &Run) -> Vec<u8> {
    let way = v.below(WAYS);
    by(v, run, way)
}
