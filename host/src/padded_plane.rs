//! Pictures with margins, and the calls that read them.

use crate::{expand_plane, mc_chroma_padded, mc_chroma_padded_pair};
use crate::{mc_luma_padded, mc_luma_padded_pre, Block, Geometry, McScratch, Refusal, Sample};

/// One plane of a picture inside margins, luma or chroma, and how it lies in its samples.
///
/// A block is read as the samples stand, margins and all, where it lies inside of them together with
/// the neighbours that it is made of; else the picture's nearest row or column stands in. Once the
/// margins are filled both give the same (docs/ORDER.md, Planes with margins).
#[derive(Clone, Copy, Debug, PartialEq, Eq)]
pub struct PaddedPlane<'a> {
    pub samples: &'a [Sample],
    pub geometry: Geometry,
}

impl<'a> PaddedPlane<'a> {
    /// Fills the margins of the picture that stands in `samples`, and lends it as a plane:
    /// [`expand_plane`].
    ///
    /// ```
    /// use inter::{Geometry, PaddedPlane, Refusal};
    ///
    /// // Two samples with margins of one, and a gap of one after each row.
    /// let g = Geometry::tight(2, 1, 1).with_stride(5);
    /// let mut buffer = *b"....x.12.y....z";
    /// assert_eq!(PaddedPlane::expand(&mut buffer, g)?.samples, b"1122y1122y1122y");
    /// // A buffer that is too short is refused, and nothing is written.
    /// assert_eq!(PaddedPlane::expand(&mut buffer[..14], g), Err(Refusal::Source));
    /// # Ok::<(), inter::Refusal>(())
    /// ```
    #[inline]
    pub fn expand(samples: &'a mut [Sample], geometry: Geometry) -> Result<Self, Refusal> {
        expand_plane(samples, geometry)?;
        Ok(PaddedPlane { samples, geometry })
    }

    /// Predicts a luma block into `out`, packed by rows: [`mc_luma_padded`].
    ///
    /// ```
    /// use inter::{Block, Geometry, Mv, PaddedPlane};
    ///
    /// let g = Geometry::tight(6, 1, 3);
    /// let mut buffer = vec![0; g.needed()];
    /// buffer[g.row(0)].copy_from_slice(&[10, 20, 30, 40, 50, 60]);
    /// let row = PaddedPlane::expand(&mut buffer, g)?;
    /// let mut out = [0];
    /// for (x, sample) in [(0, 14), (2, 35), (5, 61)] {
    ///     row.luma(Block { x, y: 0, w: 1, h: 1, mv: Mv { x: 2, y: 0 } }, &mut out)?;
    ///     assert_eq!(out, [sample]);
    /// }
    /// # Ok::<(), inter::Refusal>(())
    /// ```
    #[inline]
    pub fn luma(self, block: Block, out: &mut [Sample]) -> Result<(), Refusal> {
        let Block { x, y, w, h, mv } = block;
        mc_luma_padded(self.samples, self.geometry, x, y, w, h, mv.x, mv.y, out)
    }

    /// [`luma`](PaddedPlane::luma) with a scratch that the caller lends, one for any number of
    /// calls: [`mc_luma_padded_pre`].
    ///
    /// ```
    /// use inter::{Block, Geometry, McScratch, Mv, PaddedPlane};
    ///
    /// let samples = &[10, 20, 30, 40, 50, 60];
    /// let row = PaddedPlane { samples, geometry: Geometry::tight(6, 1, 0) };
    /// let mut scratch = McScratch::new();
    /// let mut out = [0];
    /// for (x, sample) in [(1, 33), (2, 35), (3, 38), (-1, 28)] {
    ///     let block = Block { x: 2, y: 0, w: 1, h: 1, mv: Mv { x, y: 0 } };
    ///     row.luma_with(&mut scratch, block, &mut out)?;
    ///     assert_eq!(out, [sample]);
    /// }
    /// # Ok::<(), inter::Refusal>(())
    /// ```
    #[inline]
    pub fn luma_with(
        self,
        scratch: &mut McScratch,
        block: Block,
        out: &mut [Sample],
    ) -> Result<(), Refusal> {
        let Block { x, y, w, h, mv } = block;
        mc_luma_padded_pre(scratch, self.samples, self.geometry, x, y, w, h, mv.x, mv.y, out)
    }

    /// Predicts a chroma block into `out`, packed by rows: [`mc_chroma_padded`].
    ///
    /// ```
    /// use inter::{Block, Geometry, Mv, PaddedPlane};
    ///
    /// let samples = &[0, 64, 128, 192];
    /// let square = PaddedPlane { samples, geometry: Geometry::tight(2, 2, 0) };
    /// let mut out = [0];
    /// square.chroma(Block { x: 0, y: 0, w: 1, h: 1, mv: Mv { x: 4, y: 4 } }, &mut out)?;
    /// assert_eq!(out, [96]);
    /// # Ok::<(), inter::Refusal>(())
    /// ```
    #[inline]
    pub fn chroma(self, block: Block, out: &mut [Sample]) -> Result<(), Refusal> {
        let Block { x, y, w, h, mv } = block;
        mc_chroma_padded(self.samples, self.geometry, x, y, w, h, mv.x, mv.y, out)
    }
}

/// The two chroma planes of a picture inside margins, which lie alike.
#[derive(Clone, Copy, Debug, PartialEq, Eq)]
pub struct PaddedPair<'a> {
    pub u: &'a [Sample],
    pub v: &'a [Sample],
    pub geometry: Geometry,
}

impl PaddedPair<'_> {
    /// Predicts the same block of both planes, each into its output. Where a plane or an output is
    /// too short neither is written: [`mc_chroma_padded_pair`].
    ///
    /// ```
    /// use inter::{Block, Geometry, Mv, PaddedPair, Refusal};
    ///
    /// let (u, v) = (&[0, 64, 128, 192], &[77; 4]);
    /// let pair = PaddedPair { u, v, geometry: Geometry::tight(2, 2, 0) };
    /// let block = Block { x: 0, y: 0, w: 1, h: 1, mv: Mv { x: 4, y: 4 } };
    /// let (mut out_u, mut out_v) = ([0], [0]);
    /// pair.chroma(block, &mut out_u, &mut out_v)?;
    /// assert_eq!((out_u, out_v), ([96], [77]));
    /// let short = PaddedPair { v: &v[1..], ..pair };
    /// assert_eq!(short.chroma(block, &mut out_u, &mut out_v), Err(Refusal::Source));
    /// # Ok::<(), inter::Refusal>(())
    /// ```
    #[inline]
    pub fn chroma(
        self,
        block: Block,
        out_u: &mut [Sample],
        out_v: &mut [Sample],
    ) -> Result<(), Refusal> {
        let Block { x, y, w, h, mv } = block;
        mc_chroma_padded_pair(self.u, self.v, self.geometry, x, y, w, h, mv.x, mv.y, out_u, out_v)
    }
}
