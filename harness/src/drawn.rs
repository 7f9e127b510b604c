//! Adverse shapes and paths: no point to more than are kept, equal and nearly equal coordinates, zeros of both signs, modulation of any bus,
//! bends on the grid of 1/1024 and paths on the paper of 4,096 squares a side, and now and then off it.
use crate::adverse::Adverse;
use crate::player::bits;
use crate::run::{Mod, Path, PathPoint, Point, Present, Shape};

impl Adverse {
    fn points(&mut self) -> usize {
        match self.v.below(32) {
            0..3 => self.v.index(3),
            3 => self.v.of(&[63, 64, 65, 70]),
            4 => 8 + self.v.index(56),
            _ => 2 + self.v.index(6),
        }
    }

    // Often the same as another one, or next to it.
    fn coordinate(&mut self, before: &[f32]) -> f32 {
        if before.is_empty() || !self.v.one_in(3) {
            return if self.v.yes() {
                self.v.unit_f32()
            } else {
                self.v.about(1.0)
            };
        }
        let x = self.v.of(before);
        self.v
            .of(&[x, x, -x, x.next_up(), x.next_down(), x + 1e-40])
    }

    fn modulation(&mut self) -> Present<Mod> {
        if !self.v.one_in(3) {
            return Present::No;
        }
        let any = self.v.word() as u8;
        let bus = self
            .v
            .of(&[self.buses[0], self.buses[0], self.buses[1], any]);
        let depth = match self.v.below(8) {
            0 => self.v.of(&[f32::MAX, f32::MIN, 0.0, -0.0, 1e-45]),
            1 | 2 => self.v.about(1.0),
            3..5 => -self.v.unit_f32(),
            _ => self.v.unit_f32(),
        };
        let depth = bits(depth);
        Present::Yes(Mod { bus, depth })
    }

    fn mods(&mut self) -> [Present<Mod>; 2] {
        [self.modulation(), self.modulation()]
    }

    /// A shape, which is refused where a curve is off the grid.
    pub fn shape(&mut self) -> Shape {
        let (mut xs, mut ys): (Vec<f32>, Vec<f32>) = (vec![], vec![]);
        let mut points = vec![];
        let off = self.v.one_in(24);
        for _ in 0..self.points() {
            let (x, y) = (self.coordinate(&xs), self.coordinate(&ys));
            xs.push(x);
            ys.push(y);
            let curve = if off && self.v.one_in(4) {
                self.v.off_grid()
            } else {
                self.v.curve()
            };
            points.push(Point {
                x: bits(x),
                y: bits(y),
                curve: bits(curve),
                step: self.v.one_in(6).into(),
                mods: self.mods(),
            });
        }
        let kept = points.len().min(64);
        if self.v.yes() {
            self.past_the_last(&mut points);
        }
        let loopback = if kept > 0 && self.v.yes() {
            Present::Yes(self.v.below(kept as u64))
        } else {
            Present::No
        };
        Shape { points, loopback }
    }

    // No question looks at what is not kept.
    fn past_the_last(&mut self, points: &mut [Point]) {
        for p in points.iter_mut().skip(64) {
            p.step = self.v.code(2);
            p.x = self.v.word() as u32;
            let off = bits(self.v.off_grid());
            p.curve = self
                .v
                .of(&[bits(f32::NAN), bits(f32::INFINITY), off, p.curve]);
            p.mods[0] = Present::Unknown(2 + self.v.below(9));
        }
    }

    // On the paper; often the same as another one, or a square from it.
    fn square(&mut self, before: &[f32]) -> f32 {
        if before.is_empty() || !self.v.one_in(3) {
            return self.v.on_paper();
        }
        let c = self.v.of(before);
        let step = 1.0 / 4096.0;
        self.v.of(&[c, c, (c + step).min(1.0), (c - step).max(0.0)])
    }

    /// A path, now and then of no length, which is refused where a point is off the paper.
    pub fn path(&mut self) -> Path {
        let (mut xs, mut ys): (Vec<f32>, Vec<f32>) = (vec![], vec![]);
        let mut points = vec![];
        let (off, still) = (self.v.one_in(24), self.v.one_in(24));
        for _ in 0..self.points() {
            let (mut x, mut y) = match (still, xs.first(), ys.first()) {
                (true, Some(x), Some(y)) => (*x, *y),
                _ => (self.square(&xs), self.square(&ys)),
            };
            if off && self.v.one_in(4) {
                let place = if self.v.yes() { &mut x } else { &mut y };
                *place = self.v.off_paper();
            }
            xs.push(x);
            ys.push(y);
            let bend = self.v.about(1.0);
            points.push(PathPoint {
                x: bits(x),
                y: bits(y),
                bend: bits(self.v.of(&[0.0, bend, -bend])),
                mods: self.mods(),
            });
        }
        if self.v.yes() {
            self.past_the_last_square(&mut points);
        }
        Path {
            closed: self.v.yes().into(),
            points,
        }
    }

    fn past_the_last_square(&mut self, points: &mut [PathPoint]) {
        for p in points.iter_mut().skip(64) {
            let (off, any) = (bits(self.v.off_paper()), self.v.word() as u32);
            let other = self
                .v
                .of(&[bits(f32::NAN), bits(f32::INFINITY), off, off, any]);
            (p.x, p.y) = self.v.of(&[(other, p.y), (p.x, other), (other, off)]);
            p.bend = self.v.of(&[bits(f32::NAN), p.bend]);
            p.mods[1] = self.v.of(&[Present::Unknown(2), p.mods[1]]);
        }
    }

    /// Where a curve is evaluated: at or next to the x of a point, at the ends, past them, within.
    pub fn place(&mut self, xs: &[f32]) -> u32 {
        let any = self.v.finite_f32();
        let x = match self.v.below(8) {
            0..3 if !xs.is_empty() => {
                let x = self.v.of(xs);
                self.v.of(&[x, x.next_up(), x.next_down()])
            }
            3 => self
                .v
                .of(&[0.0, -0.0, 1.0, 1.0f32.next_down(), -1e-45, any]),
            4 => self.v.about(1.0),
            _ => self.v.unit_f32(),
        };
        bits(if x.is_finite() { x } else { 0.5 })
    }
}
