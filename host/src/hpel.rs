//! Blocks found in half-sample planes, and how the planes are built.

// The parameters are those of inter.rs, in its order, then the outputs.
#![allow(clippy::too_many_arguments)]

use crate::{ffi, HpelPlanes, Refusal};

/// Where the samples of a block lie: row y from `offset` + y·`stride` on in plane 0 (f), 1 (h),
/// 2 (v) or 3 (c).
#[derive(Clone, Copy, Debug, PartialEq, Eq, Hash)]
pub struct HpelSpot {
    pub plane: u32,
    pub offset: usize,
    pub stride: usize,
}

/// A plane from the first sample of a block on; the block's rows start `stride` bytes apart.
#[derive(Clone, Copy, Debug, PartialEq, Eq)]
pub struct View<'a> {
    pub samples: &'a [u8],
    pub stride: usize,
}

/// Puts a picture of `w` by `h` samples inside margins of `pad` that hold its nearest samples.
///
/// ```
/// use inter::{pad_plane, Refusal};
///
/// let mut out = [0; 12];
/// pad_plane(b"12", 2, 1, 1, &mut out)?;
/// assert_eq!(&out, b"112211221122");
/// assert_eq!(pad_plane(b"34", 2, 1, 1, &mut out[..11]), Err(Refusal::Output));
/// assert_eq!(&out, b"112211221122");
/// # Ok::<(), inter::Refusal>(())
/// ```
#[inline]
pub fn pad_plane(
    src: &[u8],
    w: usize,
    h: usize,
    pad: usize,
    out: &mut [u8],
) -> Result<(), Refusal> {
    // SAFETY: each pointer and its length are those of one borrowed slice.
    Refusal::check(unsafe {
        ffi::inter_pad_plane(src.as_ptr(), src.len(), w, h, pad, out.as_mut_ptr(), out.len())
    })
}

/// Builds the four planes of a picture of `cw` by `ch` samples, and gives them back as lent. Where
/// one output is too short none is written.
///
/// ```
/// let row = [10, 20, 30, 40, 50, 60];
/// let [mut f, mut h, mut v, mut c] = [[0; 14 * 9]; 4];
/// let planes = inter::build_hpel_planes(&row, 6, 1, 4, &mut f, &mut h, &mut v, &mut c)?;
/// // Half a sample to the right of each of the six, which stand in the fifth row.
/// assert_eq!(planes.h[4 * 14 + 4..][..6], [14, 25, 35, 45, 56, 61]);
/// // There is only one row, so half a sample down is the row again.
/// assert_eq!(planes.v[4 * 14 + 4..][..6], row);
/// # Ok::<(), inter::Refusal>(())
/// ```
#[inline]
pub fn build_hpel_planes<'a>(
    reference: &[u8],
    cw: usize,
    ch: usize,
    pad: usize,
    f: &'a mut [u8],
    h: &'a mut [u8],
    v: &'a mut [u8],
    c: &'a mut [u8],
) -> Result<HpelPlanes<'a>, Refusal> {
    // SAFETY: each pointer and its length are those of one borrowed slice.
    Refusal::check(unsafe {
        ffi::inter_build_hpel_planes(
            reference.as_ptr(),
            reference.len(),
            cw,
            ch,
            pad,
            f.as_mut_ptr(),
            f.len(),
            h.as_mut_ptr(),
            h.len(),
            v.as_mut_ptr(),
            v.len(),
            c.as_mut_ptr(),
            c.len(),
        )
    })?;
    Ok(HpelPlanes { f, h, v, c, cw, ch, pad })
}

/// Where the samples of a luma block lie at the full phase or a half phase, as numbers. The block
/// and its vector are those of [`mc_luma`](crate::mc_luma).
///
/// A block is served where it lies inside the planes with one more column and one more row after
/// it; else, and at a quarter phase, it is [`Refusal::Unserved`].
///
/// ```
/// use inter::{hpel_ref_at, HpelPlanes, HpelSpot, Refusal};
///
/// // Zeros do as well, because no sample is read.
/// let zeros = [0; 14 * 9];
/// let planes = HpelPlanes { f: &zeros, h: &zeros, v: &zeros, c: &zeros, cw: 6, ch: 1, pad: 4 };
/// // Half a sample to the right of the third: in h, four columns and four rows on.
/// let spot = hpel_ref_at(planes, 2, 0, 1, 1, 2, 0)?;
/// assert_eq!(spot, HpelSpot { plane: 1, offset: 4 * 14 + 6, stride: 14 });
/// // One byte less of a plane is refused, though it would not be read.
/// let short = HpelPlanes { c: &zeros[1..], ..planes };
/// assert_eq!(hpel_ref_at(short, 2, 0, 1, 1, 2, 0), Err(Refusal::Source));
/// # Ok::<(), inter::Refusal>(())
/// ```
#[inline]
pub fn hpel_ref_at(
    p: HpelPlanes<'_>,
    x0: usize,
    y0: usize,
    bw: usize,
    bh: usize,
    mvx: i32,
    mvy: i32,
) -> Result<HpelSpot, Refusal> {
    let HpelPlanes { f, h, v, c, cw, ch, pad } = p;
    // SAFETY: each pointer and its length are those of one borrowed slice.
    let at = unsafe {
        ffi::inter_hpel_ref(
            f.as_ptr(),
            f.len(),
            h.as_ptr(),
            h.len(),
            v.as_ptr(),
            v.len(),
            c.as_ptr(),
            c.len(),
            cw,
            ch,
            pad,
            x0,
            y0,
            bw,
            bh,
            mvx,
            mvy,
        )
    };
    Refusal::check(at.refusal)?;
    Ok(HpelSpot { plane: at.plane, offset: at.offset, stride: at.stride })
}

/// Where the two blocks lie whose average, a half rounded up, is a luma block at a quarter phase, as
/// numbers and in the order of the planes. Served as in [`hpel_ref_at`], but at the quarter phases.
///
/// ```
/// use inter::{hpel_qpel_refs_at, HpelPlanes, HpelSpot, Refusal};
///
/// let zeros = [0; 14 * 9];
/// let planes = HpelPlanes { f: &zeros, h: &zeros, v: &zeros, c: &zeros, cw: 6, ch: 1, pad: 4 };
/// // Three quarters of a sample to the right of the third: between the fourth, in f, and h.
/// let [a, b] = hpel_qpel_refs_at(planes, 2, 0, 1, 1, 3, 0)?;
/// assert_eq!(a, HpelSpot { plane: 0, offset: 4 * 14 + 7, stride: 14 });
/// assert_eq!(b, HpelSpot { plane: 1, offset: 4 * 14 + 6, stride: 14 });
/// assert_eq!(hpel_qpel_refs_at(planes, 2, 0, 1, 1, 2, 0), Err(Refusal::Unserved));
/// # Ok::<(), inter::Refusal>(())
/// ```
#[inline]
pub fn hpel_qpel_refs_at(
    p: HpelPlanes<'_>,
    x0: usize,
    y0: usize,
    bw: usize,
    bh: usize,
    mvx: i32,
    mvy: i32,
) -> Result<[HpelSpot; 2], Refusal> {
    let HpelPlanes { f, h, v, c, cw, ch, pad } = p;
    // SAFETY: each pointer and its length are those of one borrowed slice.
    let at = unsafe {
        ffi::inter_hpel_qpel_refs(
            f.as_ptr(),
            f.len(),
            h.as_ptr(),
            h.len(),
            v.as_ptr(),
            v.len(),
            c.as_ptr(),
            c.len(),
            cw,
            ch,
            pad,
            x0,
            y0,
            bw,
            bh,
            mvx,
            mvy,
        )
    };
    Refusal::check(at.refusal)?;
    let spot = |plane, offset| HpelSpot { plane, offset, stride: at.stride };
    Ok([spot(at.plane_a, at.offset_a), spot(at.plane_b, at.offset_b)])
}

/// The samples that [`hpel_ref_at`] finds, to be read in place.
///
/// ```
/// # let row = [10, 20, 30, 40, 50, 60];
/// # let [mut f, mut h, mut v, mut c] = [[0; 14 * 9]; 4];
/// # let planes = inter::build_hpel_planes(&row, 6, 1, 4, &mut f, &mut h, &mut v, &mut c)?;
/// // The planes of the row 10 20 30 40 50 60, half a sample to the right of the third and fourth.
/// let view = inter::hpel_ref(planes, 2, 0, 2, 1, 2, 0)?;
/// assert_eq!((view.stride, &view.samples[..2]), (14, &[35, 45][..]));
/// # Ok::<(), inter::Refusal>(())
/// ```
#[inline]
pub fn hpel_ref(
    p: HpelPlanes<'_>,
    x0: usize,
    y0: usize,
    bw: usize,
    bh: usize,
    mvx: i32,
    mvy: i32,
) -> Result<View<'_>, Refusal> {
    hpel_ref_at(p, x0, y0, bw, bh, mvx, mvy).map(|spot| p.view(spot))
}

/// The samples that [`hpel_qpel_refs_at`] finds, to be averaged by the caller.
///
/// ```
/// # let row = [10, 20, 30, 40, 50, 60];
/// # let [mut f, mut h, mut v, mut c] = [[0; 14 * 9]; 4];
/// # let planes = inter::build_hpel_planes(&row, 6, 1, 4, &mut f, &mut h, &mut v, &mut c)?;
/// // The planes of the row 10 20 30 40 50 60, three quarters to the right of the third and fourth.
/// let [a, b] = inter::hpel_qpel_refs(planes, 2, 0, 2, 1, 3, 0)?;
/// assert_eq!((&a.samples[..2], &b.samples[..2]), (&[40, 50][..], &[35, 45][..]));
/// let mut out = [0; 2];
/// inter::avg_row_into(a.samples, b.samples, 2, &mut out)?;
/// assert_eq!(out, [38, 48]);
/// # Ok::<(), inter::Refusal>(())
/// ```
#[inline]
pub fn hpel_qpel_refs(
    p: HpelPlanes<'_>,
    x0: usize,
    y0: usize,
    bw: usize,
    bh: usize,
    mvx: i32,
    mvy: i32,
) -> Result<[View<'_>; 2], Refusal> {
    let [a, b] = hpel_qpel_refs_at(p, x0, y0, bw, bh, mvx, mvy)?;
    Ok([p.view(a), p.view(b)])
}

/// Copies a luma block at a half phase, or averages it at a quarter phase, into `out`, packed by
/// rows. Served as in [`hpel_ref_at`], but not at the full phase, and at a quarter phase only where
/// `bw` is 4, 8 or 16.
///
/// ```
/// use inter::{build_hpel_planes, hpel_block, Refusal};
///
/// // A 16x16 picture with margins of 32, in which row y holds 16·y to 16·y + 15.
/// let picture: [u8; 256] = std::array::from_fn(|at| at as u8);
/// let [mut f, mut h, mut v, mut c] = [[0; 80 * 80]; 4];
/// let planes = build_hpel_planes(&picture, 16, 16, 32, &mut f, &mut h, &mut v, &mut c)?;
/// let mut out = [0; 256];
/// // As far to the right and left as the planes reach there is nothing but each row's end.
/// hpel_block(planes, 0, 0, 16, 16, 126, 0, &mut out)?;
/// assert_eq!((out[0], out[255]), (15, 255));
/// hpel_block(planes, 0, 0, 16, 16, -126, 0, &mut out)?;
/// assert_eq!((out[0], out[255]), (0, 240));
/// // A sample further they do not serve, and nothing is written.
/// for mvx in [130, -130] {
///     let further = hpel_block(planes, 0, 0, 16, 16, mvx, 0, &mut out);
///     assert_eq!((further, out[255]), (Err(Refusal::Unserved), 240));
/// }
/// # Ok::<(), inter::Refusal>(())
/// ```
#[inline]
pub fn hpel_block(
    p: HpelPlanes<'_>,
    x0: usize,
    y0: usize,
    bw: usize,
    bh: usize,
    mvx: i32,
    mvy: i32,
    out: &mut [u8],
) -> Result<(), Refusal> {
    let HpelPlanes { f, h, v, c, cw, ch, pad } = p;
    // SAFETY: each pointer and its length are those of one borrowed slice.
    Refusal::check(unsafe {
        ffi::inter_hpel_block(
            f.as_ptr(),
            f.len(),
            h.as_ptr(),
            h.len(),
            v.as_ptr(),
            v.len(),
            c.as_ptr(),
            c.len(),
            cw,
            ch,
            pad,
            x0,
            y0,
            bw,
            bh,
            mvx,
            mvy,
            out.as_mut_ptr(),
            out.len(),
        )
    })
}
