//! A block to predict.

use crate::Mv;

/// Where a block stands in the picture, how large it is, and where it is read from.
///
/// A luma block has 1 to 16 samples a side, and its vector counts quarter samples. A chroma block has
/// 1 to 8, and its vector counts eighths of a chroma sample. A position is 0 to 65535 and may lie
/// outside the picture; every vector may be asked for (docs/ORDER.md, Limits).
#[derive(Clone, Copy, Debug, PartialEq, Eq, Hash)]
pub struct Block {
    /// The column of its first sample.
    pub x: usize,
    /// The row of its first sample.
    pub y: usize,
    /// How many columns it has.
    pub w: usize,
    /// How many rows it has.
    pub h: usize,
    /// From there to the place that it is read from.
    pub mv: Mv,
}

impl Block {
    /// The samples of the block, packed by rows: what an output must hold at least.
    ///
    /// ```
    /// use inter::{Block, Mv};
    ///
    /// let block = Block { x: 16, y: 0, w: 16, h: 8, mv: Mv { x: 0, y: 0 } };
    /// assert_eq!(block.needed(), 128);
    /// ```
    #[inline]
    pub const fn needed(self) -> usize {
        // Sides that cannot be multiplied are refused before an output is looked at.
        self.w.saturating_mul(self.h)
    }
}
