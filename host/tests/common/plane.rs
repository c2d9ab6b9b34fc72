//! Planes with margins: drawn ones, and document 01's rules for filling and reading them.

use inter::Geometry;

use super::block::{Block, Kind};
use super::Rng;

/// The rows of picture and margins; the most there can be where they cannot be counted.
pub fn rows(g: Geometry) -> usize {
    g.pad.saturating_mul(2).saturating_add(g.ph)
}

/// A picture with margins, and `gap` more bytes after each row.
pub fn with_gap((pw, ph): (usize, usize), pad: usize, gap: usize) -> Geometry {
    Geometry { stride: pw + 2 * pad + gap, pad, pw, ph }
}

/// A picture of those sides at most; few have wide margins, and fewer the longest rows.
pub fn drawn_geometry(rng: &mut Rng, w: usize, h: usize) -> Geometry {
    let sides = rng.sides(w, h);
    let widest = rng.pick(&[4, 4, 20, 128]);
    let pad = rng.within(0, widest) as usize;
    let most = (16384 - sides.0 - 2 * pad) as i64;
    let gap = match rng.within(0, 127) {
        0 => most,
        1 => rng.within(0, most),
        2..=60 => rng.within(1, 40),
        _ => 0,
    };
    with_gap(sides, pad, gap as usize)
}

/// The plane once its margins are filled.
pub fn filled(plane: &[u8], g: Geometry) -> Vec<u8> {
    let mut filled = plane.to_vec();
    for (y, row) in filled.chunks_exact_mut(g.stride).take(rows(g)).enumerate() {
        let from = &plane[nearest(y as i64, g.pad, g.ph) * g.stride..][..g.stride];
        // Rows are copied with their gaps.
        row.copy_from_slice(from);
        for (x, sample) in row[..g.pw + 2 * g.pad].iter_mut().enumerate() {
            *sample = from[nearest(x as i64, g.pad, g.pw)];
        }
    }
    filled
}

/// Of the `count` rows or columns from `first` on, the one nearest to `at`.
fn nearest(at: i64, first: usize, count: usize) -> usize {
    at.clamp(first as i64, (first + count) as i64 - 1) as usize
}

/// How the samples of a block are read.
#[derive(Clone, Copy, Debug, PartialEq, Eq, PartialOrd, Ord)]
pub enum Reading {
    InPlace,
    Clamped,
}

impl Reading {
    pub const ALL: [Reading; 2] = [Reading::InPlace, Reading::Clamped];

    pub fn name(self) -> &'static str {
        match self {
            Reading::InPlace => "read in place",
            Reading::Clamped => "clamped",
        }
    }

    /// The reading of a block: one test for both axes and all phases.
    pub fn of(kind: &Kind, g: Geometry, block: &Block) -> Reading {
        let (before, after, pad) = (kind.before as i64, kind.after as i64, g.pad as i64);
        let inside = |place: i64, block: usize, side: usize| {
            place - before >= -pad && place + block as i64 + after <= side as i64 + pad
        };
        let (ix, iy) = block.place(kind);
        match inside(ix, block.bw, g.pw) && inside(iy, block.bh, g.ph) {
            true => Reading::InPlace,
            false => Reading::Clamped,
        }
    }

    /// The samples that a block is made of, read in this way.
    pub fn window(self, kind: &Kind, plane: &[u8], g: Geometry, block: &Block) -> Vec<u8> {
        let axis = |place: i64, block: usize, side: usize| {
            let from = place - kind.before as i64 + g.pad as i64;
            let places = from..from + (kind.before + block + kind.after) as i64;
            places.map(move |at| match self {
                Reading::InPlace => at as usize,
                Reading::Clamped => nearest(at, g.pad, side),
            })
        };
        let (ix, iy) = block.place(kind);
        let columns: Vec<usize> = axis(ix, block.bw, g.pw).collect();
        let rows = axis(iy, block.bh, g.ph).map(|y| &plane[y * g.stride..][..g.stride]);
        rows.flat_map(|row| columns.iter().map(|&x| row[x])).collect()
    }
}

/// The block that the Rust makes of a window alone.
pub fn made_of(kind: &Kind, window: &[u8], block: &Block) -> Vec<u8> {
    let around = kind.before + kind.after;
    let (fx, fy) = block.phase(kind);
    let Block { bw, bh, .. } = *block;
    let mut out = vec![0; block.area()];
    (kind.plain)(
        window,
        bw + around,
        bh + around,
        kind.before,
        kind.before,
        bw,
        bh,
        fx,
        fy,
        &mut out,
    );
    out
}
