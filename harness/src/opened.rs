//! Stands as the module `tests` inside lfo/mod.rs (build.rs), where private items can be named: opens what the comparison calls. Inherent
//! functions, because the module itself cannot be named from outside.
use super::*;
use crate::bend::strengths;
use crate::player::{Heard, Supplied, TimedPath, is_minus_zero};

// chaos.rs
impl Lfo {
    pub fn chaos_start_(lorenz: bool) -> [f32; 3] {
        chaos::law(lorenz).start
    }
    pub fn chaos_advance_(lorenz: bool, s: [f32; 3], h: f32, steps: u32) -> [f32; 3] {
        chaos::advance(lorenz, s, h, steps)
    }
    pub fn chaos_output_(lorenz: bool, x: f32) -> f32 {
        chaos::output(lorenz, x)
    }
    pub fn chaos_start_at_(lorenz: bool, cycles: f64) -> [f32; 3] {
        chaos::start_at(lorenz, cycles)
    }
}

// mod.rs: the coefficient of a block
impl Block {
    pub fn smooth_(&self) -> Option<f32> {
        self.smooth
    }
}

// shape.rs: the values at a position, with the points moved by the buses
impl Lfo {
    pub fn shape_moved_(shape: &Shape, buses: &[f32], x: f32) -> f32 {
        let (mut xs, mut ys) = ([0.0; MAX_POINTS], [0.0; MAX_POINTS]);
        shape.modulated(buses, &mut xs, &mut ys);
        let n = shape.len();
        strong_segment(shape, &xs[..n], &ys[..n], x).eval(x)
    }
    pub fn path_moved_(path: &TimedPath, buses: &[f32], t: f32) -> (f32, f32) {
        let (mut xs, mut ys) = ([0.0; MAX_POINTS], [0.0; MAX_POINTS]);
        path.path.modulated(buses, &mut xs, &mut ys);
        segment_of(path, &xs, &ys, t).eval(t)
    }
}

// ---- a block with our strengths and times, and with a supplied coefficient
//
// The source computes the coefficient in `prepare`, a strength where a segment is found, and keeps the times of a path private to shape.rs. So
// the block's coefficient is set, a segment found takes our strength, and a path's segment is found by our times here.

// A path's segment at t by the times that our legs give. What holds a value does not depend on them; of the others, the source gives the
// coefficients, by a path of the segment's two points.
fn timed_segment(path: &Path, times: &[f32], xs: &[f32], ys: &[f32], t: f32) -> PathSegment {
    let found = path_segment(path, xs, ys, t);
    if found.inv_w == 0.0 {
        return found;
    }
    let a = times.iter().rposition(|at| *at <= t).unwrap_or(0);
    let b = (a + 1) % path.len();
    let two = Path::new(&[path.points()[a], path.points()[b]], false);
    PathSegment {
        lo: times[a],
        hi: times[a + 1],
        t0: times[a],
        inv_w: 1.0 / (times[a + 1] - times[a]),
        c: path_segment(&two, &[xs[a], xs[b]], &[ys[a], ys[b]], 0.0).c,
    }
}

// `path_segment`, with our times where the source has others.
fn segment_of(path: &TimedPath, xs: &[f32], ys: &[f32], t: f32) -> PathSegment {
    if path.own {
        return path_segment(&path.path, xs, ys, t);
    }
    timed_segment(&path.path, &path.times, xs, ys, t)
}

// Our strength of the segment's first point, where the segment is a curve.
fn strengthen(segment: &mut Segment, xs: &[f32], strengths: &[f32]) {
    if segment.inv_w != 0.0
        && let Some(i) = xs.iter().rposition(|x| *x <= segment.lo)
    {
        segment.e = strengths[i];
    }
}

// `drawn_segment` with our strength.
fn strong_segment(shape: &Shape, xs: &[f32], ys: &[f32], x: f32) -> Segment {
    let mut segment = drawn_segment(shape, xs, ys, x);
    strengthen(&mut segment, xs, &strengths(shape));
    segment
}

impl Lfo {
    // `render_with`, the segments taking their strengths and times from ours.
    fn stretch(
        &self,
        block: &Block,
        voice: &mut LfoVoice,
        (from, to): (usize, usize),
        supplied: &Supplied,
        heard: &mut Heard,
        emit: &mut impl FnMut(usize, f32, f32),
    ) {
        self.begin(block, voice, from);
        let s = &self.settings;
        let one_shot = s.mode == Mode::OneShot;
        for k in from..to {
            let mut c = self.cycles(block, voice, k);
            if let Some(first) = block.swing {
                c = swung(c, first);
            }
            heard.last = Some(c);
            heard.loopback = match s.kind {
                LfoType::Drawn => self.shape.loopback().map(|i| f64::from(voice.xs[i])),
                _ => None,
            };
            heard.zeros |= one_shot && c == 0.0 && c.is_sign_negative();
            if s.kind == LfoType::Path {
                let p = position(s.mode, s.direction, c, None) as f32;
                if !voice.path_seg.contains(p) {
                    voice.path_seg =
                        timed_segment(&self.path, &supplied.times, &voice.xs, &voice.ys, p);
                }
            }
            let stage = self.stage(block, voice, k);
            if s.kind == LfoType::Drawn && stage.changed {
                let n = self.shape.len();
                strengthen(&mut voice.seg, &voice.xs[..n], &supplied.strengths);
            }
            let (x, y) = self.raw(block, voice, stage);
            let (x, y) = post(block, voice, stage, x, y, s.kind == LfoType::Path);
            heard.zeros |= voice.chaos[2] == 0.0 && voice.chaos[2].is_sign_negative();
            emit(k, x, y);
        }
    }

    /// `process_scalar` with one voice, its few lines and those of `render_parts` written anew, so that other numbers can stand in for
    /// computed ones: the block's coefficient, each segment's strength and the times of the path.
    pub fn play_(
        &mut self,
        voice: &mut LfoVoice,
        transport: &Transport,
        (frames, restart): (usize, Option<usize>),
        supplied: &Supplied,
        emit: impl FnMut(usize, f32, f32),
    ) -> (Block, Heard) {
        let block = self.prepare_(transport, frames, supplied);
        let mut heard = self.play_voice_(&block, voice, restart, supplied, emit);
        heard.zeros |= is_minus_zero(transport.tempo);
        (block, heard)
    }

    /// `prepare`, with the coefficient handed in.
    pub fn prepare_(
        &mut self,
        transport: &Transport,
        frames: usize,
        supplied: &Supplied,
    ) -> Block {
        let mut block = self.prepare(transport, frames);
        block.smooth = supplied.smooth;
        block
    }

    /// One voice's part of a block that is prepared.
    pub fn play_voice_(
        &self,
        block: &Block,
        voice: &mut LfoVoice,
        restart: Option<usize>,
        supplied: &Supplied,
        mut emit: impl FnMut(usize, f32, f32),
    ) -> Heard {
        let frames = block.frames;
        let mut heard = Heard {
            last: None,
            loopback: None,
            zeros: false,
        };
        let at = restart.map(|at| at.min(frames));
        let first = (0, at.unwrap_or(frames));
        self.stretch(block, voice, first, supplied, &mut heard, &mut emit);
        if let Some(at) = at {
            self.trigger(block, voice);
            self.stretch(block, voice, (at, frames), supplied, &mut heard, &mut emit);
        }
        heard
    }

    /// `Shape::value` with our strengths.
    pub fn shape_at_(shape: &Shape, x: f32) -> f32 {
        let xs: Vec<f32> = shape.points().iter().map(|p| p.x).collect();
        let ys: Vec<f32> = shape.points().iter().map(|p| p.y).collect();
        strong_segment(shape, &xs, &ys, x).eval(x)
    }

    /// `Path::value`, with our times where the source has others.
    pub fn path_at_(path: &TimedPath, t: f32) -> (f32, f32) {
        if path.own {
            return path.path.value(t);
        }
        Self::path_moved_(path, &[], t)
    }
}
