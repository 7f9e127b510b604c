//! Adverse values, the same for the same seed: limits, zeros of both signs, subnormals, neighbours of round numbers, ties, any bits.
use crate::lfo::{Direction, Division, Feel, LfoType, Mode, Rate, Scale, Settings, Span};
use crate::questions::{on_grid, on_paper};

/// SplitMix64.
pub struct Values(u64);

impl Values {
    pub fn new(seed: u64) -> Self {
        Self(seed)
    }

    pub fn word(&mut self) -> u64 {
        self.0 = self.0.wrapping_add(0x9E37_79B9_7F4A_7C15);
        let mut z = self.0;
        z = (z ^ (z >> 30)).wrapping_mul(0xBF58_476D_1CE4_E5B9);
        z = (z ^ (z >> 27)).wrapping_mul(0x94D0_49BB_1331_11EB);
        z ^ (z >> 31)
    }

    pub fn below(&mut self, k: u64) -> u64 {
        ((u128::from(self.word()) * u128::from(k)) >> 64) as u64
    }

    pub fn index(&mut self, k: usize) -> usize {
        self.below(k as u64) as usize
    }

    pub fn one_in(&mut self, k: u64) -> bool {
        self.below(k) == 0
    }

    pub fn yes(&mut self) -> bool {
        self.one_in(2)
    }

    pub fn of<T: Copy>(&mut self, list: &[T]) -> T {
        list[self.index(list.len())]
    }

    /// 0 up to 1.
    pub fn unit(&mut self) -> f64 {
        (self.word() >> 11) as f64 / (1u64 << 53) as f64
    }

    pub fn unit_f32(&mut self) -> f32 {
        (self.word() >> 40) as f32 / (1u32 << 24) as f32
    }

    /// A number of any size: few bits as often as many; powers of two and their neighbours.
    pub fn number(&mut self) -> u64 {
        let shift = self.below(64);
        match self.below(4) {
            0 => 1 << shift,
            1 => (1u64 << shift).wrapping_sub(1),
            2 => (1u64 << shift).wrapping_add(1),
            _ => self.word() >> shift,
        }
    }

    /// A code: known, just past the known ones, or far off.
    pub fn code(&mut self, count: u64) -> u64 {
        match self.below(4) {
            0 | 1 => self.below(count),
            2 => count + self.below(3),
            _ => self.number(),
        }
    }
}

// ---- floats

/// Both signs, and the floats next to them, of limits and round numbers; infinities and NaN.
pub fn limits_f64() -> Vec<f64> {
    let mut sizes = vec![
        0.0,
        5e-324,
        f64::MIN_POSITIVE,
        1e-300,
        1e-20,
        1e-9,
        f64::MAX,
        f64::INFINITY,
    ];
    sizes.extend([
        0.25, 0.5, 0.75, 1.0, 1.5, 2.0, 2.5, 3.0, 4.0, 5.0, 10.0, 60.0, 100.0, 1000.0, 768_000.0,
        1e15,
    ]);
    sizes.extend([23, 24, 31, 32, 40, 51, 52, 53, 62, 63, 64, 127, 128].map(|k| 2f64.powi(k)));
    sizes.extend([126, 127, 149, 150, 1022].map(|k| 2f64.powi(-k)));
    let mut all = vec![f64::NAN];
    for size in sizes {
        for x in [size, size.next_up(), size.next_down()] {
            all.extend([x, -x]);
        }
    }
    all
}

pub fn limits_f32() -> Vec<f32> {
    let mut sizes = vec![
        0.0,
        1e-45,
        f32::MIN_POSITIVE,
        1e-30,
        1e-9,
        f32::MAX,
        f32::INFINITY,
    ];
    sizes.extend([
        0.25, 0.5, 0.75, 1.0, 1.5, 2.0, 2.5, 3.0, 10.0, 32.0, 100.0, 360.0, 1000.0,
    ]);
    sizes.extend([22, 23, 24, 31, 32, 63, 64].map(|k| 2f32.powi(k)));
    let mut all = vec![f32::NAN];
    for size in sizes {
        for x in [size, size.next_up(), size.next_down()] {
            all.extend([x, -x]);
        }
    }
    all
}

impl Values {
    /// Any float: any bits, near whole numbers and halves, near ties between two f32, where an f32 is subnormal or overflows.
    pub fn any_f64(&mut self) -> f64 {
        let b = self.word();
        let near = |b: u64, from: u64, many: u64, e: u64| {
            f64::from_bits((b & 0x800f_ffff_ffff_ffff) | ((from + e % many) << 52))
        };
        match self.below(11) {
            0 => f64::from_bits(b),
            1 => b as i64 as f64 / 1024.0,
            2 => ((b as i64) >> 40) as f64 / 4.0,
            3 => ((b as i64) >> 8) as f64 / 2.0,
            4 => near(b, 0x370, 0x30, self.word()),
            5 => near(b, 0x470, 0x20, self.word()),
            6 => f64::from_bits(b & 0xffff_ffff_e000_0000),
            7 => f64::from_bits((b & 0xffff_ffff_c000_0000) | 0x1000_0000),
            8 => {
                let x = f64::from(f32::from_bits(b as u32));
                let y = f64::from(f32::from_bits((b as u32).wrapping_add(1)));
                (x + y) / 2.0
            }
            9 => (b % 2_000_001) as f64 / 2.0 - 500_000.0,
            _ => near(b, 0x3f0, 0x60, self.word()),
        }
    }

    pub fn any_f32(&mut self) -> f32 {
        let b = (self.word() >> 32) as u32;
        match self.below(6) {
            0 | 1 => f32::from_bits(b),
            2 => (b as i32 >> 8) as f32 / 4.0,
            3 => f32::from_bits((b & 0x807f_ffff) | ((0x70 + b % 0x20) << 23)),
            4 => self.unit_f32() * 2.0 - 0.5,
            _ => self.any_f64() as f32,
        }
    }

    pub fn finite_f32(&mut self) -> f32 {
        loop {
            let x = self.any_f32();
            if x.is_finite() {
                return x;
            }
        }
    }

    /// A value about 0 to `top`: its ends, their neighbours, zeros of both signs, subnormals, within, out of range.
    pub fn about(&mut self, top: f32) -> f32 {
        match self.below(16) {
            0 => 0.0,
            1 => -0.0,
            2 => top,
            3 => self.of(&[1e-45, -1e-45, 1e-40, -1e-40, f32::MIN_POSITIVE]),
            4 => self.of(&[top.next_up(), top.next_down(), top / 2.0, -top, top * 2.0]),
            5 => self.finite_f32(),
            6 => self.below(15) as f32 / 14.0 * top,
            7 => -self.unit_f32() * top,
            8 => (1.0 + self.unit_f32()) * top,
            _ => self.unit_f32() * top,
        }
    }

    /// A multiple of 1/1024 from -1 to 1.
    pub fn knob(&mut self) -> f32 {
        (self.below(2049) as f32 - 1024.0) / 1024.0
    }

    /// A curve that is a multiple of 1/1024 once it is clamped: any, zeros of both signs, the ends and beyond them, and those whose strength is
    /// not the source's.
    pub fn curve(&mut self) -> f32 {
        match self.below(16) {
            0 | 1 => 0.0,
            2 => -0.0,
            3 => self.of(&[1.0, -1.0]),
            4 => self.of(&[1.5, -1.5, 1.0f32.next_up(), -7.3, f32::MAX, f32::MIN]),
            5 => (self.of(&[22.0, 24.0, 165.0]) + 256.0 * self.below(8) as f32) / 1024.0 - 1.0,
            _ => self.knob(),
        }
    }

    /// A curve that is none: next to one, halfway between two, next to the ends, near 0, any.
    pub fn off_grid(&mut self) -> f32 {
        loop {
            let (on, any) = (self.knob(), self.unit_f32() * 2.0 - 1.0);
            let curve = match self.below(4) {
                0 => self.of(&[on.next_up(), on.next_down()]),
                1 => on + self.of(&[1.0, -1.0]) / 2048.0,
                2 => self.of(&[
                    1.0f32.next_down(),
                    (-1.0f32).next_up(),
                    1e-45,
                    -1e-45,
                    1e-40,
                ]),
                _ => any,
            };
            if !on_grid(curve.to_bits()) {
                return curve;
            }
        }
    }

    /// A coordinate that is a multiple of 1/4096 from 0 to 1: its ends and the zeros of both signs, squares next to the ends, few squares and many.
    pub fn on_paper(&mut self) -> f32 {
        let squares = match self.below(16) {
            0 => 0,
            1 => return -0.0,
            2 => 4096,
            3 => self.of(&[1, 2, 3, 4095, 4094, 2048]),
            4 => self.below(17) * 256,
            5 => self.below(64),
            _ => self.below(4097),
        };
        squares as f32 / 4096.0
    }

    /// A finite coordinate that is not: next to a multiple, between two, below 0, above 1, tiny, any.
    pub fn off_paper(&mut self) -> f32 {
        loop {
            let (on, any) = (self.on_paper(), self.about(1.0));
            let c = match self.below(6) {
                0 => self.of(&[on.next_up(), on.next_down()]),
                1 => on + self.of(&[1.0, -1.0]) / 8192.0,
                2 => -on,
                3 => 1.0 + on,
                4 => self.of(&[1e-45, -1e-45, 1e-40, 1.0f32.next_up(), 1.0f32.next_down()]),
                _ => any,
            };
            if !on_paper(c.to_bits()) {
                return c;
            }
        }
    }
}

// ---- choices

pub const KINDS: [LfoType; 5] = [
    LfoType::Drawn,
    LfoType::Path,
    LfoType::Lorenz,
    LfoType::Rossler,
    LfoType::SampleAndHold,
];
pub const MODES: [Mode; 3] = [Mode::Free, Mode::Restart, Mode::OneShot];
pub const DIRECTIONS: [Direction; 3] =
    [Direction::Forward, Direction::Reverse, Direction::PingPong];
pub const FEELS: [Feel; 3] = [Feel::Straight, Feel::Triplet, Feel::Dotted];

impl Values {
    pub fn division(&mut self) -> Division {
        Division::new(self.below(15) as u8).unwrap()
    }

    pub fn rate(&mut self) -> Rate {
        if self.yes() {
            return Rate::Synced {
                division: self.division(),
                feel: self.of(&FEELS),
            };
        }
        let x10 = self.yes();
        let top = if x10 { 1000.0 } else { 100.0 };
        Rate::Hz {
            hz: self.about(top),
            x10,
        }
    }

    pub fn span(&mut self) -> Span {
        match self.below(3) {
            0 => Span::Off,
            1 => Span::Synced(self.division()),
            _ => Span::Seconds(self.about(32.0)),
        }
    }

    pub fn settings(&mut self) -> Settings {
        Settings {
            kind: self.of(&KINDS),
            mode: self.of(&MODES),
            direction: self.of(&DIRECTIONS),
            rate: self.rate(),
            song_lock: self.yes(),
            swing: self.yes(),
            fade_in: self.span(),
            delay: self.span(),
            smooth: if self.yes() { 0.0 } else { self.about(100.0) },
            phase: self.about(360.0),
            phase_snap: self.yes(),
            grid_x: if self.one_in(8) {
                self.word() as u16
            } else {
                self.below(20) as u16
            },
            ..Settings::default()
        }
    }

    pub fn song_position(&mut self) -> f64 {
        match self.below(6) {
            0 => self.of(&[
                0.0,
                -0.0,
                -2_147_483_648.0,
                2_147_483_647.0,
                -1e-20,
                1.0f64.next_down(),
            ]),
            1 => self.below(4096) as f64 / 4.0 - 512.0,
            2 => self.unit() * 4_294_967_295.0 - 2_147_483_648.0,
            _ => self.unit() * 1000.0 - 500.0,
        }
    }

    pub fn scale(&mut self) -> Scale {
        let percent = match self.below(4) {
            0 => self.of(&[10.0, 100.0, 1000.0, 0.0, -0.0, 9.999_999, 1000.0001, 5000.0]),
            _ => 10.0 + self.unit_f32() * 990.0,
        };
        if self.yes() {
            Scale::Percent(percent)
        } else {
            Scale::Rate(percent)
        }
    }
}
