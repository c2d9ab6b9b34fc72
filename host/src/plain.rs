//! Blocks predicted from a picture without margins, and the count of samples over its edge.

// The parameters are those of inter.rs, in its order.
#![allow(clippy::too_many_arguments)]

use crate::{ffi, Refusal};

/// Predicts the luma block of `bw` by `bh` samples, 1 to 16 each, at (`x0`, `y0`) with the
/// vector (`mvx`, `mvy`) in quarter samples, from a picture of `cw` by `ch`, into `out`, packed
/// by rows.
///
/// ```
/// let row = [10, 20, 30, 40, 50, 60];
/// let mut out = [0; 2];
/// // Half a sample to the right of the third and fourth.
/// inter::mc_luma(&row, 6, 1, 2, 0, 2, 1, 2, 0, &mut out)?;
/// assert_eq!(out, [35, 45]);
/// // A picture that is too short is refused, and nothing is written.
/// let short = inter::mc_luma(&row, 6, 2, 2, 0, 2, 1, 0, 0, &mut out);
/// assert_eq!((short, out), (Err(inter::Refusal::Source), [35, 45]));
/// # Ok::<(), inter::Refusal>(())
/// ```
#[inline]
pub fn mc_luma(
    reference: &[u8],
    cw: usize,
    ch: usize,
    x0: usize,
    y0: usize,
    bw: usize,
    bh: usize,
    mvx: i32,
    mvy: i32,
    out: &mut [u8],
) -> Result<(), Refusal> {
    // SAFETY: each pointer and its length are those of one borrowed slice.
    Refusal::check(unsafe {
        ffi::inter_mc_luma(
            reference.as_ptr(),
            reference.len(),
            cw,
            ch,
            x0,
            y0,
            bw,
            bh,
            mvx,
            mvy,
            out.as_mut_ptr(),
            out.len(),
        )
    })
}

/// Predicts the chroma block of `bw` by `bh` samples, 1 to 8 each, at (`x0`, `y0`) with the
/// vector (`mvx`, `mvy`) in eighths of a chroma sample, as [`mc_luma`] does.
///
/// ```
/// let mut out = [0];
/// inter::mc_chroma(&[0, 64, 128, 192], 2, 2, 0, 0, 1, 1, 4, 4, &mut out)?;
/// assert_eq!(out, [96]);
/// # Ok::<(), inter::Refusal>(())
/// ```
#[inline]
pub fn mc_chroma(
    reference: &[u8],
    cw: usize,
    ch: usize,
    x0: usize,
    y0: usize,
    bw: usize,
    bh: usize,
    mvx: i32,
    mvy: i32,
    out: &mut [u8],
) -> Result<(), Refusal> {
    // SAFETY: each pointer and its length are those of one borrowed slice.
    Refusal::check(unsafe {
        ffi::inter_mc_chroma(
            reference.as_ptr(),
            reference.len(),
            cw,
            ch,
            x0,
            y0,
            bw,
            bh,
            mvx,
            mvy,
            out.as_mut_ptr(),
            out.len(),
        )
    })
}

/// Averages the first `w` samples of two rows, rounding up, into `out`.
///
/// ```
/// let mut out = [0; 3];
/// inter::avg_row_into(&[30, 40], &[35, 35], 2, &mut out)?;
/// assert_eq!(out, [33, 38, 0]);
/// # Ok::<(), inter::Refusal>(())
/// ```
#[inline]
pub fn avg_row_into(a: &[u8], b: &[u8], w: usize, out: &mut [u8]) -> Result<(), Refusal> {
    // SAFETY: each pointer and its length are those of one borrowed slice.
    Refusal::check(unsafe {
        ffi::inter_avg_row_into(
            a.as_ptr(),
            a.len(),
            b.as_ptr(),
            b.len(),
            w,
            out.as_mut_ptr(),
            out.len(),
        )
    })
}

/// Counts the samples of a luma block whose place lies outside the picture.
///
/// ```
/// // One column of a 16x16 block hangs over the left edge.
/// assert_eq!(inter::edge_count(16, 16, 0, 0, 16, 16, -4, 0), Ok(16));
/// ```
#[inline]
pub fn edge_count(
    cw: usize,
    ch: usize,
    x0: usize,
    y0: usize,
    bw: usize,
    bh: usize,
    mvx: i32,
    mvy: i32,
) -> Result<u32, Refusal> {
    let edges = ffi::inter_edge_count(cw, ch, x0, y0, bw, bh, mvx, mvy);
    Refusal::check(edges.refusal)?;
    Ok(edges.count)
}
