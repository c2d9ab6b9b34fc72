//! Drawn numbers from a fixed start, so that the list can be made again (xorshift64*).

pub struct Rng(u64);

impl Rng {
    pub fn new(seed: u64) -> Rng {
        Rng(seed.wrapping_mul(0x9e37_79b9_7f4a_7c15) | 1)
    }

    pub fn next(&mut self) -> u64 {
        self.0 ^= self.0 >> 12;
        self.0 ^= self.0 << 25;
        self.0 ^= self.0 >> 27;
        self.0.wrapping_mul(0x2545_f491_4f6c_dd1d)
    }

    /// A number from `low` to `high`, both included.
    pub fn within(&mut self, low: i64, high: i64) -> i64 {
        let count = (high - low + 1) as u64;
        low + (((self.next() >> 32) * count) >> 32) as i64
    }

    pub fn pick<T: Copy>(&mut self, list: &[T]) -> T {
        list[self.within(0, list.len() as i64 - 1) as usize]
    }

    /// Any 32-bit value, the ends and small ones often.
    pub fn component(&mut self) -> i64 {
        match self.within(0, 5) {
            0 => self.pick(&[i32::MIN, i32::MIN + 1, i32::MAX - 1, i32::MAX, 0, -1]) as i64,
            1 => (self.next() >> 32) as i32 as i64,
            _ => self.within(-40, 40),
        }
    }
}
