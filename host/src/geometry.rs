//! How a picture with margins lies in its buffer.

use std::ops::Range;

/// How a picture of `pw` by `ph` samples lies in its buffer: the first sample stands `pad` columns
/// and `pad` rows on, in rows that start `stride` samples apart.
///
/// Sides are 1 to 8192, the pad 0 to 128, and the stride from `pw` + 2·`pad` up to 16384. The
/// buffer holds at least `stride` by `ph` + 2·`pad` samples (docs/ORDER.md, Limits). Any numbers may
/// stand here: the calls refuse what is outside, with [`Refusal::Side`](crate::Refusal::Side).
#[derive(Clone, Copy, Debug, PartialEq, Eq, Hash)]
pub struct Geometry {
    pub stride: usize,
    pub pad: usize,
    pub pw: usize,
    pub ph: usize,
}

impl Geometry {
    /// A picture of `w` by `h` samples inside margins of `pad` all around, with no gap after its
    /// rows: the stride is `w` + 2·`pad`.
    ///
    /// ```
    /// use inter::Geometry;
    ///
    /// let g = Geometry::tight(16, 16, 32);
    /// assert_eq!(g, Geometry { stride: 80, pad: 32, pw: 16, ph: 16 });
    /// // Without margins it lies as a plain plane does.
    /// assert_eq!(Geometry::tight(6, 1, 0).needed(), 6);
    /// ```
    #[inline]
    pub const fn tight(w: usize, h: usize, pad: usize) -> Geometry {
        Geometry { stride: between_margins(w, pad), pad, pw: w, ph: h }
    }

    /// The same picture and margins in rows that start `stride` samples apart.
    ///
    /// ```
    /// use inter::Geometry;
    ///
    /// // Each row of two and its margins of one has a gap of one after it.
    /// let g = Geometry::tight(2, 1, 1).with_stride(5);
    /// assert_eq!((g.stride, g.needed()), (5, 15));
    /// ```
    #[inline]
    pub const fn with_stride(self, stride: usize) -> Geometry {
        Geometry { stride, ..self }
    }

    /// The rows of picture and margins: `ph` + 2·`pad`.
    ///
    /// ```
    /// assert_eq!(inter::Geometry::tight(6, 1, 4).rows(), 9);
    /// ```
    #[inline]
    pub const fn rows(self) -> usize {
        between_margins(self.ph, self.pad)
    }

    /// The samples that the buffer must hold at least: `stride` by [`rows`](Geometry::rows).
    ///
    /// ```
    /// use inter::Geometry;
    ///
    /// assert_eq!(Geometry::tight(16, 16, 32).needed(), 80 * 80);
    /// ```
    #[inline]
    pub const fn needed(self) -> usize {
        self.stride.saturating_mul(self.rows())
    }

    /// Where the picture's row `y` lies in the buffer, without its margins, if the geometry is one
    /// that is served.
    ///
    /// ```
    /// use inter::Geometry;
    ///
    /// let g = Geometry::tight(2, 2, 1);
    /// let mut buffer = *b"................";
    /// for (y, row) in [b"12", b"34"].into_iter().enumerate() {
    ///     buffer[g.row(y)].copy_from_slice(row);
    /// }
    /// assert_eq!(&buffer, b".....12..34.....");
    /// ```
    #[inline]
    pub const fn row(self, y: usize) -> Range<usize> {
        let first = (self.pad + y) * self.stride + self.pad;
        first..first + self.pw
    }
}

/// A side with its margins; the most there can be where they do not add up, which is refused.
const fn between_margins(side: usize, pad: usize) -> usize {
    pad.saturating_mul(2).saturating_add(side)
}
