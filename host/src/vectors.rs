//! Motion vectors predicted from neighbours, and the parts of a macroblock.

use crate::ffi::{self, MvAnswer};
use crate::Refusal;

pub use crate::ffi::{Mv, MvNeighbor, Partitions, Rect};

impl Partitions {
    /// The parts, in decoding order: one, two or four.
    pub fn parts(&self) -> &[Rect] {
        &self.parts[..self.count]
    }
}

/// The middle one of three values; it answers for all of them.
///
/// ```
/// assert_eq!(inter::median3(7, -3, 5), 5);
/// assert_eq!(inter::median3(i32::MAX, i32::MAX, i32::MAX - 1), i32::MAX);
/// ```
#[inline]
pub fn median3(a: i32, b: i32, c: i32) -> i32 {
    ffi::inter_median3(a, b, c)
}

/// The vector predicted from the left, upper and upper right neighbours for the reference
/// `cur_ref`, 0 to 31 (clause 8.4.1.3.1).
///
/// ```
/// use inter::{predict_mv, Mv, MvNeighbor, Refusal};
///
/// let left = MvNeighbor { available: true, mv: Mv { x: 4, y: 8 }, ref_idx: 0 };
/// let above = MvNeighbor { available: true, mv: Mv { x: 0, y: 0 }, ref_idx: 1 };
/// let above_right = MvNeighbor { available: true, mv: Mv { x: 12, y: -4 }, ref_idx: 1 };
/// // Only the left one has reference 0; for reference 1 it is the median.
/// assert_eq!(predict_mv(left, above, above_right, 0), Ok(Mv { x: 4, y: 8 }));
/// assert_eq!(predict_mv(left, above, above_right, 1), Ok(Mv { x: 4, y: 0 }));
/// assert_eq!(predict_mv(left, above, above_right, 32), Err(Refusal::Reference));
/// ```
#[inline]
pub fn predict_mv(
    a: MvNeighbor,
    b: MvNeighbor,
    c: MvNeighbor,
    cur_ref: i32,
) -> Result<Mv, Refusal> {
    predicted(ffi::inter_predict_mv(a, b, c, cur_ref))
}

/// The vector predicted for part `part` of a macroblock of mode `mode`: a neighbour's own where
/// the mode points at one, else that of [`predict_mv`].
///
/// ```
/// use inter::{predict_partition_mv, Mv, MvNeighbor};
///
/// let left = MvNeighbor { available: true, mv: Mv { x: 4, y: 8 }, ref_idx: 0 };
/// let above = MvNeighbor { available: true, mv: Mv { x: 6, y: 6 }, ref_idx: 0 };
/// let none = MvNeighbor::NONE;
/// // Of two parts one above the other, the upper looks up and the lower looks left.
/// assert_eq!(predict_partition_mv(1, 0, left, above, none, 0), Ok(Mv { x: 6, y: 6 }));
/// assert_eq!(predict_partition_mv(1, 1, left, above, none, 0), Ok(Mv { x: 4, y: 8 }));
/// ```
#[inline]
pub fn predict_partition_mv(
    mode: u8,
    part: usize,
    a: MvNeighbor,
    b: MvNeighbor,
    c: MvNeighbor,
    cur_ref: i32,
) -> Result<Mv, Refusal> {
    predicted(ffi::inter_predict_partition_mv(mode, part, a, b, c, cur_ref))
}

/// The parts of a macroblock of mode `mode`.
///
/// ```
/// let halves = inter::inter_partitions(2);
/// assert_eq!(halves.parts().len(), 2);
/// assert_eq!(halves.parts()[1], inter::Rect { x: 8, y: 0, w: 8, h: 16 });
/// ```
#[inline]
pub fn inter_partitions(mode: u8) -> Partitions {
    ffi::inter_inter_partitions(mode)
}

fn predicted(answer: MvAnswer) -> Result<Mv, Refusal> {
    Refusal::check(answer.refusal)?;
    Ok(answer.mv)
}
