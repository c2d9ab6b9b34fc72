//! Lent buffers, twice over.

use super::Rng;

const GUARD: usize = 64;

/// A buffer that both sides are lent, a copy each inside a larger allocation.
/// Afterwards the copies must agree, down to the bytes around what was lent.
pub struct Twin {
    ours: Vec<u8>,
    theirs: Vec<u8>,
    len: usize,
}

impl Twin {
    /// A buffer with room for `room` bytes, all of them drawn and all lent.
    pub fn drawn(rng: &mut Rng, room: usize) -> Twin {
        let bytes: Vec<u8> =
            std::iter::repeat_with(|| rng.next() as u8).take(room + 2 * GUARD).collect();
        Twin { theirs: bytes.clone(), ours: bytes, len: room }
    }

    /// A buffer that begins with `bytes`, and has drawn ones in the `more` after them.
    pub fn holding(rng: &mut Rng, bytes: &[u8], more: usize) -> Twin {
        let mut twin = Twin::drawn(rng, bytes.len() + more);
        for copy in [&mut twin.ours, &mut twin.theirs] {
            copy[GUARD..][..bytes.len()].copy_from_slice(bytes);
        }
        twin
    }

    /// The most that can be lent.
    pub fn room(&self) -> usize {
        self.ours.len() - 2 * GUARD
    }

    /// From now on only the first `len` bytes are lent.
    pub fn lend(&mut self, len: usize) {
        assert!(len <= self.room());
        self.len = len;
    }

    /// Puts `byte` everywhere, around what is lent too.
    pub fn fill(&mut self, byte: u8) {
        self.ours.fill(byte);
        self.theirs.fill(byte);
    }

    pub fn len(&self) -> usize {
        self.len
    }

    pub fn ours(&self) -> &[u8] {
        &self.ours[GUARD..][..self.len]
    }

    pub fn ours_mut(&mut self) -> &mut [u8] {
        &mut self.ours[GUARD..][..self.len]
    }

    pub fn theirs(&self) -> &[u8] {
        &self.theirs[GUARD..][..self.len]
    }

    pub fn theirs_mut(&mut self) -> &mut [u8] {
        &mut self.theirs[GUARD..][..self.len]
    }

    /// What ours holds now holds on both sides: only the bytes around it must agree.
    pub fn let_ours_hold(&mut self) {
        let held = GUARD..GUARD + self.len;
        self.theirs[held.clone()].copy_from_slice(&self.ours[held]);
    }

    pub fn agree(&self) -> bool {
        self.ours == self.theirs
    }
}
