//! A picture without margins, and the calls that read it.

use crate::{edge_count, mc_chroma, mc_luma, pad_plane, Block, Geometry, PaddedPlane, Refusal};

/// One sample of a plane, a grey level or a part of a colour.
pub type Sample = u8;

/// One plane of a picture, luma or chroma: `w` by `h` samples by rows from the top, without a gap.
///
/// Sides are 1 to 8192 (docs/ORDER.md, Limits). Where a block lies outside, the plane's nearest row
/// or column stands in (docs/ORDER.md, Sample rules).
#[derive(Clone, Copy, Debug, PartialEq, Eq)]
pub struct Plane<'a> {
    pub samples: &'a [Sample],
    pub w: usize,
    pub h: usize,
}

impl<'a> Plane<'a> {
    /// The samples that the plane must have at least: `w` by `h`.
    ///
    /// ```
    /// assert_eq!(inter::Plane { samples: &[], w: 352, h: 288 }.needed(), 352 * 288);
    /// ```
    #[inline]
    pub const fn needed(self) -> usize {
        self.w.saturating_mul(self.h)
    }

    /// Predicts a luma block into `out`, packed by rows: [`mc_luma`].
    ///
    /// ```
    /// use inter::{Block, Mv, Plane, Refusal};
    ///
    /// let row = Plane { samples: &[10, 20, 30, 40, 50, 60], w: 6, h: 1 };
    /// let third = Block { x: 2, y: 0, w: 1, h: 1, mv: Mv { x: 0, y: 0 } };
    /// let mut out = [0];
    /// // A quarter, a half and three quarters to its right, and a quarter to its left.
    /// for (x, sample) in [(1, 33), (2, 35), (3, 38), (-1, 28)] {
    ///     row.luma(Block { mv: Mv { x, y: 0 }, ..third }, &mut out)?;
    ///     assert_eq!(out, [sample]);
    /// }
    /// // A plane that is too short is refused, and nothing is written.
    /// let short = Plane { h: 2, ..row };
    /// assert_eq!((short.luma(third, &mut out), out), (Err(Refusal::Source), [28]));
    /// # Ok::<(), inter::Refusal>(())
    /// ```
    #[inline]
    pub fn luma(self, block: Block, out: &mut [Sample]) -> Result<(), Refusal> {
        let Block { x, y, w, h, mv } = block;
        mc_luma(self.samples, self.w, self.h, x, y, w, h, mv.x, mv.y, out)
    }

    /// Predicts a chroma block into `out`, packed by rows: [`mc_chroma`].
    ///
    /// ```
    /// use inter::{Block, Mv, Plane};
    ///
    /// let square = Plane { samples: &[0, 64, 128, 192], w: 2, h: 2 };
    /// let mut out = [0];
    /// for (mv, sample) in [(Mv { x: 4, y: 4 }, 96), (Mv { x: 1, y: 0 }, 8)] {
    ///     square.chroma(Block { x: 0, y: 0, w: 1, h: 1, mv }, &mut out)?;
    ///     assert_eq!(out, [sample]);
    /// }
    /// # Ok::<(), inter::Refusal>(())
    /// ```
    #[inline]
    pub fn chroma(self, block: Block, out: &mut [Sample]) -> Result<(), Refusal> {
        let Block { x, y, w, h, mv } = block;
        mc_chroma(self.samples, self.w, self.h, x, y, w, h, mv.x, mv.y, out)
    }

    /// Counts the samples of a luma block whose place lies outside the plane (docs/ORDER.md, Edge
    /// count). Only the plane's sides are looked at: [`edge_count`].
    ///
    /// ```
    /// use inter::{Block, Mv, Plane};
    ///
    /// let plane = Plane { samples: &[0; 256], w: 16, h: 16 };
    /// // One column hangs over the left edge.
    /// let block = Block { x: 0, y: 0, w: 16, h: 16, mv: Mv { x: -4, y: 0 } };
    /// assert_eq!(plane.edge_count(block), Ok(16));
    /// ```
    #[inline]
    pub fn edge_count(self, block: Block) -> Result<u32, Refusal> {
        let Block { x, y, w, h, mv } = block;
        edge_count(self.w, self.h, x, y, w, h, mv.x, mv.y)
    }

    /// Puts the plane inside margins of `pad` that hold its nearest samples, into `out`, and lends it
    /// back as a plane with margins: [`pad_plane`].
    ///
    /// ```
    /// use inter::{Block, Geometry, Mv, Plane};
    ///
    /// let row = Plane { samples: &[10, 20, 30, 40, 50, 60], w: 6, h: 1 };
    /// let mut buffer = vec![0; Geometry::tight(6, 1, 3).needed()];
    /// let padded = row.pad_into(3, &mut buffer)?;
    /// assert_eq!(padded.samples[..12], [10, 10, 10, 10, 20, 30, 40, 50, 60, 60, 60, 60]);
    /// let mut out = [0];
    /// padded.luma(Block { x: 5, y: 0, w: 1, h: 1, mv: Mv { x: 2, y: 0 } }, &mut out)?;
    /// assert_eq!(out, [61]);
    /// # Ok::<(), inter::Refusal>(())
    /// ```
    #[inline]
    pub fn pad_into(self, pad: usize, out: &mut [Sample]) -> Result<PaddedPlane<'_>, Refusal> {
        pad_plane(self.samples, self.w, self.h, pad, out)?;
        Ok(PaddedPlane { samples: out, geometry: Geometry::tight(self.w, self.h, pad) })
    }
}
