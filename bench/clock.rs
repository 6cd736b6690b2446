//! Time, side by side.
use std::time::{Duration, Instant};

/// One of those that are timed on the same calls.
pub trait Side {
    /// Makes one call that is not timed, since the others have had the processor meanwhile; then all calls of a sample,
    /// each on what it is to begin with, and returns the time of one of them, in ns.
    fn sample(&mut self) -> f64;
}

/// A row of the table: the same calls by each side.
pub struct Row {
    pub name: String,
    pub stack: &'static str,
    pub is_bound: bool,
    pub rust: Box<dyn Side>,
    pub ours: Box<dyn Side>,
    pub by_value: Option<Box<dyn Side>>,
}

pub struct Timed {
    pub name: String,
    pub stack: &'static str,
    pub is_bound: bool,
    pub rust: f64,
    pub ours: f64,
    pub by_value: Option<f64>,
}

/// How long the work takes.
pub fn time(work: impl FnOnce()) -> Duration {
    let begun = Instant::now();
    work();
    begun.elapsed()
}

/// Of one of so many calls, in ns.
pub fn each(all: Duration, calls: usize) -> f64 {
    all.as_nanos() as f64 / calls as f64
}

/// One in ten is faster: other work on the machine makes some samples slow, and none fast.
fn tenth(mut samples: Vec<f64>) -> f64 {
    samples.sort_by(f64::total_cmp);
    samples[samples.len() / 10]
}

impl Row {
    /// Round by round each side takes a sample, so that other work on the machine slows all of them alike.
    pub fn timed(mut self, rounds: usize) -> Timed {
        let (mut rust, mut ours, mut by_value) = (vec![], vec![], vec![]);
        for _ in 0..rounds {
            rust.push(self.rust.sample());
            ours.push(self.ours.sample());
            by_value.extend(self.by_value.as_mut().map(|side| side.sample()));
        }
        let by_value = self.by_value.map(|_| tenth(by_value));
        let Row { name, stack, is_bound, .. } = self;
        Timed { name, stack, is_bound, rust: tenth(rust), ours: tenth(ours), by_value }
    }
}
