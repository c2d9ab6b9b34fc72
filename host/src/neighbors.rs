//! The neighbours of a block, from which its vector is predicted.

use crate::{predict_mv, predict_partition_mv, Mv, MvNeighbor, Refusal};

impl MvNeighbor {
    /// A neighbour that is not available.
    pub const NONE: MvNeighbor =
        MvNeighbor { available: false, mv: Mv { x: 0, y: 0 }, ref_idx: -1 };

    /// An intra block: available, and without a vector.
    ///
    /// ```
    /// use inter::{Mv, MvNeighbor, Neighbors};
    ///
    /// let left = MvNeighbor::inter(Mv { x: 4, y: 8 }, 0);
    /// let alone = Neighbors { left, above: MvNeighbor::NONE, above_right: MvNeighbor::NONE };
    /// // With nothing above, the left one stands for all three; under an intra block it does not.
    /// assert_eq!(alone.predict(1), Ok(Mv { x: 4, y: 8 }));
    /// assert_eq!(Neighbors { above: MvNeighbor::INTRA, ..alone }.predict(1), Ok(Mv { x: 0, y: 0 }));
    /// ```
    pub const INTRA: MvNeighbor =
        MvNeighbor { available: true, mv: Mv { x: 0, y: 0 }, ref_idx: -1 };

    /// A neighbour that is predicted with the vector `mv` from the reference `ref_idx`.
    #[inline]
    pub const fn inter(mv: Mv, ref_idx: i32) -> MvNeighbor {
        MvNeighbor { available: true, mv, ref_idx }
    }
}

/// The three neighbours of a block that its vector is predicted from, A, B and C in the standard.
/// Who they are is the caller's to say (docs/ORDER.md, Vectors).
#[derive(Clone, Copy, Debug, PartialEq, Eq, Hash)]
pub struct Neighbors {
    /// A.
    pub left: MvNeighbor,
    /// B.
    pub above: MvNeighbor,
    /// C, or what stands in for it.
    pub above_right: MvNeighbor,
}

impl Neighbors {
    /// The vector predicted for the reference `cur_ref`, 0 to 31: [`predict_mv`].
    ///
    /// ```
    /// use inter::{Mv, MvNeighbor, Neighbors, Refusal};
    ///
    /// let neighbors = Neighbors {
    ///     left: MvNeighbor::inter(Mv { x: 4, y: 8 }, 0),
    ///     above: MvNeighbor::inter(Mv { x: 0, y: 0 }, 1),
    ///     above_right: MvNeighbor::inter(Mv { x: 12, y: -4 }, 1),
    /// };
    /// // Only the left one has reference 0; for reference 1 it is the median.
    /// assert_eq!(neighbors.predict(0), Ok(Mv { x: 4, y: 8 }));
    /// assert_eq!(neighbors.predict(1), Ok(Mv { x: 4, y: 0 }));
    /// assert_eq!(neighbors.predict(32), Err(Refusal::Reference));
    /// ```
    #[inline]
    pub fn predict(self, cur_ref: i32) -> Result<Mv, Refusal> {
        predict_mv(self.left, self.above, self.above_right, cur_ref)
    }

    /// The vector predicted for part `part` of a macroblock of mode `mode`, which has these
    /// neighbours: [`predict_partition_mv`].
    ///
    /// ```
    /// use inter::{Mv, MvNeighbor, Neighbors};
    ///
    /// let neighbors = Neighbors {
    ///     left: MvNeighbor::inter(Mv { x: 4, y: 8 }, 0),
    ///     above: MvNeighbor::inter(Mv { x: 6, y: 6 }, 0),
    ///     above_right: MvNeighbor::NONE,
    /// };
    /// // Of two parts one above the other, the upper looks up and the lower looks left.
    /// assert_eq!(neighbors.predict_part(1, 0, 0), Ok(Mv { x: 6, y: 6 }));
    /// assert_eq!(neighbors.predict_part(1, 1, 0), Ok(Mv { x: 4, y: 8 }));
    /// ```
    #[inline]
    pub fn predict_part(self, mode: u8, part: usize, cur_ref: i32) -> Result<Mv, Refusal> {
        predict_partition_mv(mode, part, self.left, self.above, self.above_right, cur_ref)
    }
}
