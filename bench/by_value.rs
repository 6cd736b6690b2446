//! The entries by value: one event on one table, again and again, by the function of crates/bench_values.
use crate::clock::{Side, each, time};
use crate::events::Case;
use crate::tables::CONFIG;
use crate::{encode, image};
use std::hint::black_box;

unsafe extern "C" {
    fn njb_step(image: *const u8, image_length: u64, trace: *const u8, trace_length: u64, times: u64) -> u64;
}

/// The table is read from its image once in a sample, so that much work makes few times enough.
const TIMES: u64 = 512;
const TIMES_OF_MUCH: u64 = 64;

pub struct ByValue {
    image: Vec<u8>,
    trace: Vec<u8>,
    times: u64,
}

impl ByValue {
    /// With the event in the middle.
    pub fn new(case: &Case) -> Self {
        let trace = encode::event(&case.events[case.events.len() / 2]);
        let times = if case.ran > 1 { TIMES_OF_MUCH } else { TIMES };
        ByValue { image: image::of(&CONFIG, &case.table), trace, times }
    }

    /// The number that the event is answered after so many times.
    pub fn number(&self, times: u64) -> u64 {
        let [image, trace] = [&self.image, &self.trace];
        unsafe { njb_step(image.as_ptr(), image.len() as u64, trace.as_ptr(), trace.len() as u64, times) }
    }
}

impl Side for ByValue {
    fn sample(&mut self) -> f64 {
        self.number(1);
        let all = time(|| {
            black_box(self.number(self.times));
        });
        each(all, self.times as usize)
    }
}
