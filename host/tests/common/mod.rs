//! What the comparisons share: drawn numbers, the number of calls, and a line now and then.

// Each comparison takes its own part of this.
#![allow(dead_code)]

pub mod block;
pub mod hpel;
pub mod limits;
pub mod plane;
pub mod tally;
pub mod twin;

use std::io::Write;
use std::time::{Duration, Instant};

/// A small generator with a fixed start, so that a difference can be found again (xorshift64*).
pub struct Rng(u64);

impl Rng {
    pub fn new(seed: u64) -> Rng {
        Rng(seed.wrapping_mul(0x9e37_79b9_7f4a_7c15) | 1)
    }

    pub fn next(&mut self) -> u64 {
        self.0 ^= self.0 >> 12;
        self.0 ^= self.0 << 25;
        self.0 ^= self.0 >> 27;
        self.0.wrapping_mul(0x2545_f491_4f6c_dd1d)
    }

    /// Any 32-bit value.
    pub fn any_i32(&mut self) -> i32 {
        (self.next() >> 32) as i32
    }

    /// A number from `low` to `high`, both included.
    pub fn within(&mut self, low: i64, high: i64) -> i64 {
        let count = (high - low + 1) as u64;
        low + (((self.next() >> 32) * count) >> 32) as i64
    }

    /// A width and a height, from 1 up to those given.
    pub fn sides(&mut self, w: usize, h: usize) -> (usize, usize) {
        (self.within(1, w as i64) as usize, self.within(1, h as i64) as usize)
    }

    /// A number that a range from 1 to `most` leaves out.
    pub fn outside(&mut self, most: usize) -> usize {
        match self.within(0, 4) {
            0 => 0,
            1 => most + 1,
            2 => most + self.within(1, 300) as usize,
            3 => usize::MAX - self.within(0, 9) as usize,
            // Inside again if only 32 bits are looked at.
            _ => (1 << 32) + self.within(0, most as i64) as usize,
        }
    }

    pub fn pick<T: Copy>(&mut self, list: &[T]) -> T {
        list[self.within(0, list.len() as i64 - 1) as usize]
    }
}

/// Every pair from one list.
pub fn pairs<T: Copy>(list: impl IntoIterator<Item = T> + Clone) -> impl Iterator<Item = (T, T)> {
    let inner = list.clone();
    list.into_iter().flat_map(move |a| inner.clone().into_iter().map(move |b| (a, b)))
}

/// The number of drawn calls of one comparison: INTER_CALLS where it is set, else `standing`.
pub fn drawn_calls(standing: u64) -> u64 {
    match std::env::var("INTER_CALLS") {
        Ok(text) => text
            .replace('_', "")
            .parse()
            .unwrap_or_else(|_| panic!("INTER_CALLS is a number of calls, not {text:?}")),
        Err(_) => standing,
    }
}

/// A line that is seen without `--nocapture` too.
pub fn say(line: &str) {
    writeln!(std::io::stdout().lock(), "{line}").expect("stdout takes a line");
}

/// The calls of one comparison, counted; a long one says now and then how far it is.
pub struct Progress {
    name: &'static str,
    calls: u64,
    said: Instant,
}

impl Progress {
    pub fn new(name: &'static str) -> Progress {
        Progress { name, calls: 0, said: Instant::now() }
    }

    pub fn step(&mut self) {
        self.calls += 1;
        // The clock is read seldom, because a call takes less time than reading it.
        if self.calls % 4096 == 0 && self.said.elapsed() > Duration::from_secs(15) {
            self.said = Instant::now();
            say(&format!("{}: {} calls so far", self.name, self.calls));
        }
    }

    /// To be called once every answer was found equal.
    pub fn finish(self) {
        say(&format!("{}: {} calls, 0 differences", self.name, self.calls));
    }
}
