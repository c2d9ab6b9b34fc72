//! The half-sample planes of a picture as one bundle, and the calls that read it.

use crate::{build_hpel_planes, hpel_block, hpel_qpel_refs, hpel_qpel_refs_at, hpel_ref};
use crate::{hpel_ref_at, Block, Geometry, HpelSpot, Plane, Refusal, Sample, View};

/// Four planes of one picture of `cw` by `ch` samples, lent together: the picture inside margins of
/// `pad`, and its half samples across, down and at the centre, at each place of the first.
///
/// Sides are 1 to 8192 and the pad 0 to 128. Each plane holds at least `cw` + 2·`pad` by
/// `ch` + 2·`pad` samples, without a gap between rows, read or not (docs/ORDER.md, Limits). The calls
/// read what the planes hold, whether [`build`](HpelPlanes::build) has written it or not.
///
/// A block is served where it lies inside the planes with one more column and one more row after it;
/// which phases are served is said with each call (docs/ORDER.md, Half-sample planes).
#[derive(Clone, Copy, Debug)]
pub struct HpelPlanes<'a> {
    pub f: &'a [Sample],
    pub h: &'a [Sample],
    pub v: &'a [Sample],
    pub c: &'a [Sample],
    pub cw: usize,
    pub ch: usize,
    pub pad: usize,
}

impl<'a> HpelPlanes<'a> {
    /// The planes f, h, v and c of a picture of `w` by `h` samples inside margins of `pad`, as they
    /// stand.
    ///
    /// ```
    /// use inter::{Geometry, HpelPlanes};
    ///
    /// let zeros = vec![0; Geometry::tight(16, 16, 32).needed()];
    /// let planes = HpelPlanes::new([&zeros; 4], 16, 16, 32);
    /// assert_eq!((planes.cw, planes.ch, planes.pad), (16, 16, 32));
    /// ```
    #[inline]
    pub const fn new(
        [f, across, v, c]: [&'a [Sample]; 4],
        w: usize,
        h: usize,
        pad: usize,
    ) -> HpelPlanes<'a> {
        HpelPlanes { f, h: across, v, c, cw: w, ch: h, pad }
    }

    /// Builds the planes f, h, v and c of `plane`, with margins of `pad`, into the four of `into`. Where
    /// one is too short none is written: [`build_hpel_planes`].
    ///
    /// ```
    /// use inter::{Geometry, HpelPlanes, Plane, Refusal};
    ///
    /// let row = Plane { samples: &[10, 20, 30, 40, 50, 60], w: 6, h: 1 };
    /// let g = Geometry::tight(6, 1, 4);
    /// let mut buffers = [(); 4].map(|()| vec![0; g.needed()]);
    /// let [f, h, v, c] = &mut buffers;
    /// let planes = HpelPlanes::build(row, 4, [f, h, v, c])?;
    /// // Half a sample to the right of the first, the third and the sixth.
    /// let h = &planes.h[g.row(0)];
    /// assert_eq!((h[0], h[2], h[5]), (14, 35, 61));
    /// let short = HpelPlanes::build(row, 4, [&mut [], &mut [], &mut [], &mut []]);
    /// assert_eq!(short.err(), Some(Refusal::Output));
    /// # Ok::<(), inter::Refusal>(())
    /// ```
    #[inline]
    pub fn build(
        plane: Plane<'_>,
        pad: usize,
        into: [&'a mut [Sample]; 4],
    ) -> Result<HpelPlanes<'a>, Refusal> {
        let [f, h, v, c] = into;
        build_hpel_planes(plane.samples, plane.w, plane.h, pad, f, h, v, c)
    }

    /// How each of the four planes lies.
    ///
    /// ```
    /// use inter::{Geometry, HpelPlanes};
    ///
    /// let planes = HpelPlanes::new([&[]; 4], 16, 16, 32);
    /// assert_eq!(planes.geometry(), Geometry { stride: 80, pad: 32, pw: 16, ph: 16 });
    /// ```
    #[inline]
    pub const fn geometry(self) -> Geometry {
        Geometry::tight(self.cw, self.ch, self.pad)
    }

    /// Predicts a luma block into `out`, packed by rows. The full phase is not served, nor a quarter
    /// phase of a block that is not 4, 8 or 16 wide: [`hpel_block`].
    ///
    /// ```
    /// use inter::{Block, HpelBuffers, Mv, Plane, Refusal};
    ///
    /// let buffers = HpelBuffers::build(Plane { samples: &[77; 256], w: 16, h: 16 }, 32)?;
    /// let mut out = [0; 256];
    /// for (x, answer) in [(126, Ok(())), (-126, Ok(())), (130, Err(Refusal::Unserved))] {
    ///     let block = Block { x: 0, y: 0, w: 16, h: 16, mv: Mv { x, y: 0 } };
    ///     assert_eq!(buffers.planes().block(block, &mut out), answer);
    ///     assert_eq!(out, [77; 256]);
    /// }
    /// # Ok::<(), inter::Refusal>(())
    /// ```
    #[inline]
    pub fn block(self, block: Block, out: &mut [Sample]) -> Result<(), Refusal> {
        let Block { x, y, w, h, mv } = block;
        hpel_block(self, x, y, w, h, mv.x, mv.y, out)
    }

    /// The samples of a luma block at the full or a half phase, to be read in place: [`hpel_ref`].
    ///
    /// ```
    /// use inter::{Block, HpelBuffers, Mv, Plane};
    ///
    /// let row = Plane { samples: &[10, 20, 30, 40, 50, 60], w: 6, h: 1 };
    /// let buffers = HpelBuffers::build(row, 4)?;
    /// let block = Block { x: 2, y: 0, w: 1, h: 1, mv: Mv { x: 2, y: 0 } };
    /// assert_eq!(buffers.planes().reference(block)?.samples[0], 35);
    /// # Ok::<(), inter::Refusal>(())
    /// ```
    #[inline]
    pub fn reference(self, block: Block) -> Result<View<'a>, Refusal> {
        let Block { x, y, w, h, mv } = block;
        hpel_ref(self, x, y, w, h, mv.x, mv.y)
    }

    /// The samples of the two blocks whose average, a half rounded up, is a luma block at a quarter
    /// phase, in the order of the planes: [`hpel_qpel_refs`].
    ///
    /// ```
    /// use inter::{avg_row_into, Block, HpelBuffers, Mv, Plane};
    ///
    /// let row = Plane { samples: &[10, 20, 30, 40, 50, 60], w: 6, h: 1 };
    /// let buffers = HpelBuffers::build(row, 4)?;
    /// let block = Block { x: 2, y: 0, w: 1, h: 1, mv: Mv { x: 1, y: 0 } };
    /// // The third itself, and half a sample to its right.
    /// let [a, b] = buffers.planes().quarter_references(block)?;
    /// assert_eq!((a.samples[0], b.samples[0]), (30, 35));
    /// let mut out = [0];
    /// avg_row_into(a.samples, b.samples, 1, &mut out)?;
    /// assert_eq!(out, [33]);
    /// # Ok::<(), inter::Refusal>(())
    /// ```
    #[inline]
    pub fn quarter_references(self, block: Block) -> Result<[View<'a>; 2], Refusal> {
        let Block { x, y, w, h, mv } = block;
        hpel_qpel_refs(self, x, y, w, h, mv.x, mv.y)
    }

    /// Where [`reference`](HpelPlanes::reference) begins, as numbers: [`hpel_ref_at`].
    ///
    /// ```
    /// use inter::{Block, Geometry, HpelPlanes, HpelSpot, Mv};
    ///
    /// // Zeros do as well, because no sample is read.
    /// let zeros = vec![0; Geometry::tight(6, 1, 4).needed()];
    /// let planes = HpelPlanes::new([&zeros; 4], 6, 1, 4);
    /// let block = Block { x: 2, y: 0, w: 1, h: 1, mv: Mv { x: 2, y: 0 } };
    /// // In h, four rows and six columns on.
    /// assert_eq!(planes.spot(block)?, HpelSpot { plane: 1, offset: 4 * 14 + 6, stride: 14 });
    /// # Ok::<(), inter::Refusal>(())
    /// ```
    #[inline]
    pub fn spot(self, block: Block) -> Result<HpelSpot, Refusal> {
        let Block { x, y, w, h, mv } = block;
        hpel_ref_at(self, x, y, w, h, mv.x, mv.y)
    }

    /// Where [`quarter_references`](HpelPlanes::quarter_references) begin, as numbers:
    /// [`hpel_qpel_refs_at`].
    ///
    /// ```
    /// use inter::{Block, Geometry, HpelPlanes, HpelSpot, Mv};
    ///
    /// let zeros = vec![0; Geometry::tight(6, 1, 4).needed()];
    /// let planes = HpelPlanes::new([&zeros; 4], 6, 1, 4);
    /// // Between the full sample one to the right, in f, and the half sample, in h.
    /// let block = Block { x: 2, y: 0, w: 1, h: 1, mv: Mv { x: 3, y: 0 } };
    /// let [a, b] = planes.quarter_spots(block)?;
    /// assert_eq!(a, HpelSpot { plane: 0, offset: 4 * 14 + 7, stride: 14 });
    /// assert_eq!(b, HpelSpot { plane: 1, offset: 4 * 14 + 6, stride: 14 });
    /// # Ok::<(), inter::Refusal>(())
    /// ```
    #[inline]
    pub fn quarter_spots(self, block: Block) -> Result<[HpelSpot; 2], Refusal> {
        let Block { x, y, w, h, mv } = block;
        hpel_qpel_refs_at(self, x, y, w, h, mv.x, mv.y)
    }

    /// The tail of one of the planes.
    #[inline]
    pub(crate) fn view(self, spot: HpelSpot) -> View<'a> {
        let plane = match spot.plane {
            0 => self.f,
            1 => self.h,
            2 => self.v,
            _ => self.c,
        };
        View { samples: &plane[spot.offset..], stride: spot.stride }
    }
}

/// The half-sample planes of a picture with the memory they stand in, for a caller who has none to
/// lend.
#[derive(Clone, Debug)]
pub struct HpelBuffers {
    planes: [Vec<Sample>; 4],
    w: usize,
    h: usize,
    pad: usize,
}

impl HpelBuffers {
    /// Builds the planes of `plane` with margins of `pad`, as [`HpelPlanes::build`] does. What is
    /// refused allocates nothing.
    ///
    /// ```
    /// use inter::{HpelBuffers, Plane, Refusal};
    ///
    /// let dot = Plane { samples: &[77], w: 1, h: 1 };
    /// assert_eq!(HpelBuffers::build(dot, 1)?.planes().c, [77; 9]);
    /// assert_eq!(HpelBuffers::build(dot, usize::MAX).err(), Some(Refusal::Side));
    /// # Ok::<(), inter::Refusal>(())
    /// ```
    pub fn build(plane: Plane<'_>, pad: usize) -> Result<HpelBuffers, Refusal> {
        // With nothing lent, all that the library would build is refused for its outputs alone.
        match HpelPlanes::build(plane, pad, [&mut [], &mut [], &mut [], &mut []]) {
            Ok(_) | Err(Refusal::Output) => {}
            Err(refusal) => return Err(refusal),
        }
        let Plane { w, h, .. } = plane;
        let needed = Geometry::tight(w, h, pad).needed();
        let mut planes = [(); 4].map(|()| vec![0; needed]);
        HpelPlanes::build(plane, pad, planes.each_mut().map(Vec::as_mut_slice))?;
        Ok(HpelBuffers { planes, w, h, pad })
    }

    /// The planes, lent.
    #[inline]
    pub fn planes(&self) -> HpelPlanes<'_> {
        HpelPlanes::new(self.planes.each_ref().map(Vec::as_slice), self.w, self.h, self.pad)
    }
}
