//! How far a comparison is, on standard error: a line every few seconds.
use std::time::{Duration, Instant};

const EVERY: Duration = Duration::from_secs(5);

pub struct Progress {
    start: Instant,
    next: Duration,
}

impl Progress {
    pub fn new() -> Self {
        Self {
            start: Instant::now(),
            next: EVERY,
        }
    }

    pub fn seconds(&self) -> f64 {
        self.start.elapsed().as_secs_f64()
    }

    /// Where a line is due, writes it: `far` says how far it is.
    pub fn show(&mut self, far: impl FnOnce() -> String) {
        let now = self.start.elapsed();
        if now >= self.next {
            eprintln!("{}, {:.0} s", far(), now.as_secs_f64());
            self.next = now + EVERY;
        }
    }
}
