//! Blocks predicted from a picture with margins, and how the margins are filled.

// The parameters are those of inter.rs, in its order, with the geometry as one.
#![allow(clippy::too_many_arguments)]

use crate::{ffi, Geometry, Refusal};

pub use crate::ffi::McScratch;

/// Fills the margins from the picture: those at the left and right of each of its rows, then the
/// rows above and below, which are copies of its first and last with all their bytes.
///
/// ```
/// use inter::{expand_plane, Geometry, Refusal};
///
/// // Two samples with margins of one, and one more byte after each row.
/// let g = Geometry { stride: 5, pad: 1, pw: 2, ph: 1 };
/// let mut plane = *b"....x.12.y....z";
/// expand_plane(&mut plane, g)?;
/// assert_eq!(&plane, b"1122y1122y1122y");
/// // A plane that is too short is refused, and nothing is written.
/// let short = expand_plane(&mut plane[..14], g);
/// assert_eq!(short, Err(Refusal::Source));
/// # Ok::<(), inter::Refusal>(())
/// ```
#[inline]
pub fn expand_plane(buf: &mut [u8], g: Geometry) -> Result<(), Refusal> {
    let Geometry { stride, pad, pw, ph } = g;
    // SAFETY: the pointer and its length are those of one borrowed slice.
    Refusal::check(unsafe {
        ffi::inter_expand_plane(buf.as_mut_ptr(), buf.len(), stride, pad, pw, ph)
    })
}

/// Predicts a luma block as [`mc_luma`](crate::mc_luma) does, from a plane with margins.
///
/// The plane is read as it stands, margins and all, where the block with two samples before and
/// three after it lies inside of picture and margins. Else the picture's nearest row or column
/// stands in. Once [`expand_plane`] has filled the margins both give the same.
///
/// ```
/// use inter::{expand_plane, mc_luma_padded, Geometry};
///
/// let g = Geometry { stride: 12, pad: 3, pw: 6, ph: 1 };
/// let mut plane = [0; 12 * 7];
/// plane[3 * 12 + 3..][..6].copy_from_slice(&[10, 20, 30, 40, 50, 60]);
/// expand_plane(&mut plane, g)?;
/// let mut out = [0; 2];
/// // Half a sample to the right of the third and fourth.
/// mc_luma_padded(&plane, g, 2, 0, 2, 1, 2, 0, &mut out)?;
/// assert_eq!(out, [35, 45]);
/// # Ok::<(), inter::Refusal>(())
/// ```
#[inline]
pub fn mc_luma_padded(
    padded: &[u8],
    g: Geometry,
    x0: usize,
    y0: usize,
    bw: usize,
    bh: usize,
    mvx: i32,
    mvy: i32,
    out: &mut [u8],
) -> Result<(), Refusal> {
    let Geometry { stride, pad, pw, ph } = g;
    // SAFETY: each pointer and its length are those of one borrowed slice.
    Refusal::check(unsafe {
        ffi::inter_mc_luma_padded(
            padded.as_ptr(),
            padded.len(),
            stride,
            pad,
            pw,
            ph,
            x0,
            y0,
            bw,
            bh,
            mvx,
            mvy,
            out.as_mut_ptr(),
            out.len(),
        )
    })
}

/// [`mc_luma_padded`] with a scratch that the caller lends, one for any number of calls. What it
/// holds afterwards says nothing; a call that is refused leaves it as it was.
///
/// ```
/// use inter::{mc_luma_padded_pre, Geometry, McScratch};
///
/// let g = Geometry { stride: 6, pad: 0, pw: 6, ph: 1 };
/// let mut scratch = McScratch::new();
/// let mut out = [0; 2];
/// for (mvx, samples) in [(1, [33, 43]), (2, [35, 45]), (3, [38, 48])] {
///     let row = [10, 20, 30, 40, 50, 60];
///     mc_luma_padded_pre(&mut scratch, &row, g, 2, 0, 2, 1, mvx, 0, &mut out)?;
///     assert_eq!(out, samples);
/// }
/// # Ok::<(), inter::Refusal>(())
/// ```
#[inline]
pub fn mc_luma_padded_pre(
    scr: &mut McScratch,
    padded: &[u8],
    g: Geometry,
    x0: usize,
    y0: usize,
    bw: usize,
    bh: usize,
    mvx: i32,
    mvy: i32,
    out: &mut [u8],
) -> Result<(), Refusal> {
    let Geometry { stride, pad, pw, ph } = g;
    // SAFETY: each pointer and its length are those of one borrowed slice, and the scratch is one.
    Refusal::check(unsafe {
        ffi::inter_mc_luma_padded_pre(
            scr,
            padded.as_ptr(),
            padded.len(),
            stride,
            pad,
            pw,
            ph,
            x0,
            y0,
            bw,
            bh,
            mvx,
            mvy,
            out.as_mut_ptr(),
            out.len(),
        )
    })
}

/// Predicts a chroma block as [`mc_chroma`](crate::mc_chroma) does, from a plane with margins.
///
/// The plane is read as it stands where the block with one sample after it lies inside of picture
/// and margins, else as in [`mc_luma_padded`].
///
/// ```
/// use inter::{mc_chroma_padded, Geometry};
///
/// let g = Geometry { stride: 2, pad: 0, pw: 2, ph: 2 };
/// let mut out = [0];
/// mc_chroma_padded(&[0, 64, 128, 192], g, 0, 0, 1, 1, 4, 4, &mut out)?;
/// assert_eq!(out, [96]);
/// # Ok::<(), inter::Refusal>(())
/// ```
#[inline]
pub fn mc_chroma_padded(
    padded: &[u8],
    g: Geometry,
    x0: usize,
    y0: usize,
    bw: usize,
    bh: usize,
    mvx: i32,
    mvy: i32,
    out: &mut [u8],
) -> Result<(), Refusal> {
    let Geometry { stride, pad, pw, ph } = g;
    // SAFETY: each pointer and its length are those of one borrowed slice.
    Refusal::check(unsafe {
        ffi::inter_mc_chroma_padded(
            padded.as_ptr(),
            padded.len(),
            stride,
            pad,
            pw,
            ph,
            x0,
            y0,
            bw,
            bh,
            mvx,
            mvy,
            out.as_mut_ptr(),
            out.len(),
        )
    })
}

/// Predicts the same block from two chroma planes of one geometry, as two calls of
/// [`mc_chroma_padded`] do. Where either plane or output is too short neither output is written.
///
/// ```
/// use inter::{mc_chroma_padded_pair, Geometry, Refusal};
///
/// let g = Geometry { stride: 2, pad: 0, pw: 2, ph: 2 };
/// let (u, v) = ([0, 64, 128, 192], [192, 128, 64, 0]);
/// let (mut out_u, mut out_v) = ([0], [0]);
/// mc_chroma_padded_pair(&u, &v, g, 0, 0, 1, 1, 1, 0, &mut out_u, &mut out_v)?;
/// assert_eq!((out_u, out_v), ([8], [184]));
/// let short =
///     mc_chroma_padded_pair(&u, &v[..3], g, 0, 0, 1, 1, 0, 0, &mut out_u, &mut out_v);
/// assert_eq!((short, out_u, out_v), (Err(Refusal::Source), [8], [184]));
/// # Ok::<(), inter::Refusal>(())
/// ```
#[inline]
pub fn mc_chroma_padded_pair(
    pu: &[u8],
    pv: &[u8],
    g: Geometry,
    x0: usize,
    y0: usize,
    bw: usize,
    bh: usize,
    mvx: i32,
    mvy: i32,
    outu: &mut [u8],
    outv: &mut [u8],
) -> Result<(), Refusal> {
    let Geometry { stride, pad, pw, ph } = g;
    // SAFETY: each pointer and its length are those of one borrowed slice.
    Refusal::check(unsafe {
        ffi::inter_mc_chroma_padded_pair(
            pu.as_ptr(),
            pu.len(),
            pv.as_ptr(),
            pv.len(),
            stride,
            pad,
            pw,
            ph,
            x0,
            y0,
            bw,
            bh,
            mvx,
            mvy,
            outu.as_mut_ptr(),
            outu.len(),
            outv.as_mut_ptr(),
            outv.len(),
        )
    })
}
