//! Time: the median of many short lots of calls, spread over the whole run.

use std::time::{Duration, Instant};

use crate::items::{Call, Item};

const LOTS: usize = 51;
const LOT: Duration = Duration::from_micros(200);

/// Nanoseconds of each item's calls by library, nothing subtracted.
pub fn per_call(items: &[Item]) -> Vec<Vec<f64>> {
    let mut timers: Vec<Vec<Timer>> = items.iter().map(Timer::of_item).collect();
    // Item after item and again, so that a busy moment of the machine is few lots of each.
    for _ in 0..LOTS {
        timers.iter_mut().flatten().for_each(Timer::lot);
    }
    timers.into_iter().map(|timers| timers.into_iter().map(Timer::median).collect()).collect()
}

struct Timer<'a> {
    call: &'a Call,
    out: Vec<u8>,
    /// How many calls make a lot.
    size: u32,
    /// Nanoseconds a call, of each lot.
    times: Vec<f64>,
}

impl Timer<'_> {
    fn of_item(item: &Item) -> Vec<Timer<'_>> {
        item.calls.by_library.iter().map(|call| Timer::new(call, item.lent.clone())).collect()
    }

    fn new(call: &Call, out: Vec<u8>) -> Timer<'_> {
        let mut timer = Timer { call, out, size: 1, times: Vec::new() };
        while timer.time() < LOT {
            timer.size *= 2;
        }
        timer
    }

    fn time(&mut self) -> Duration {
        let start = Instant::now();
        for _ in 0..self.size {
            (self.call)(&mut self.out);
        }
        start.elapsed()
    }

    fn lot(&mut self) {
        let time = self.time().as_nanos() as f64 / self.size as f64;
        self.times.push(time);
    }

    fn median(mut self) -> f64 {
        self.times.sort_by(f64::total_cmp);
        self.times[self.times.len() / 2]
    }
}
