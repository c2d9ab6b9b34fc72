//! Blocks and pictures to predict from.

use inter::Geometry;
use oracle::inter as rust;

use super::Rng;

type Plain = fn(&[u8], usize, usize, usize, usize, usize, usize, i32, i32, &mut [u8]);

/// What sets luma and chroma apart.
pub struct Kind {
    /// The bits of a vector component that give the phase.
    pub bits: u32,
    /// The longest side of a block.
    pub most: usize,
    /// The samples before and after a block that it is made of too, on each axis.
    pub before: usize,
    pub after: usize,
    /// The Rust's route on a picture without margins.
    pub plain: Plain,
}

pub const LUMA: Kind = Kind { bits: 2, most: 16, before: 2, after: 3, plain: rust::mc_luma };
pub const CHROMA: Kind = Kind { bits: 3, most: 8, before: 0, after: 1, plain: rust::mc_chroma };

impl Kind {
    /// The phases of one axis.
    pub fn steps(&self) -> i32 {
        1 << self.bits
    }
}

/// Where a block stands, how large it is, and its vector.
#[derive(Clone, Copy, Debug)]
pub struct Block {
    pub x0: usize,
    pub y0: usize,
    pub bw: usize,
    pub bh: usize,
    pub mvx: i32,
    pub mvy: i32,
}

impl Block {
    /// A block of that size in, across or outside a picture of `cw` by `ch`.
    pub fn drawn(
        rng: &mut Rng,
        kind: &Kind,
        (cw, ch): (usize, usize),
        (bw, bh): (usize, usize),
    ) -> Block {
        let (x0, mvx) = drawn_axis(rng, kind, cw, bw);
        let (y0, mvy) = drawn_axis(rng, kind, ch, bh);
        Block { x0, y0, bw, bh, mvx, mvy }
    }

    /// A block of that size in, across or outside a picture with margins. One in three is made of
    /// samples inside of them alone, if it is small enough.
    pub fn drawn_with_margins(
        rng: &mut Rng,
        kind: &Kind,
        g: Geometry,
        (bw, bh): (usize, usize),
    ) -> Block {
        let inside = rng.within(0, 2) == 0;
        let mut axis = |side: usize, block: usize| {
            let first = kind.before as i64 - g.pad as i64;
            let last = (side + g.pad) as i64 - (block + kind.after) as i64;
            if inside && first <= last {
                let (place, x0) = (rng.within(first, last), rng.within(0, 65535));
                return (x0 as usize, towards(rng, kind, x0, place));
            }
            // The edges are those of the picture, or those of its margins.
            let margin = rng.pick(&[0, g.pad]);
            let (x0, mv) = drawn_axis(rng, kind, side + 2 * margin, block);
            (x0, mv.wrapping_sub((margin as i32) << kind.bits))
        };
        let ((x0, mvx), (y0, mvy)) = (axis(g.pw, bw), axis(g.ph, bh));
        Block { x0, y0, bw, bh, mvx, mvy }
    }

    /// A block of that size whose first sample has the place (`ix`, `iy`).
    pub fn placed(
        rng: &mut Rng,
        kind: &Kind,
        (ix, iy): (i64, i64),
        (bw, bh): (usize, usize),
    ) -> Block {
        let [x0, y0] = [(); 2].map(|()| rng.within(0, 65535));
        let (mvx, mvy) = (towards(rng, kind, x0, ix), towards(rng, kind, y0, iy));
        Block { x0: x0 as usize, y0: y0 as usize, bw, bh, mvx, mvy }
    }

    /// The same block in the same place, at the phase (`fx`, `fy`).
    pub fn at_phase(self, kind: &Kind, fx: i32, fy: i32) -> Block {
        let whole = !(kind.steps() - 1);
        Block { mvx: self.mvx & whole | fx, mvy: self.mvy & whole | fy, ..self }
    }

    /// The phase of each component.
    pub fn phase(&self, kind: &Kind) -> (i32, i32) {
        (self.mvx.rem_euclid(kind.steps()), self.mvy.rem_euclid(kind.steps()))
    }

    /// The bytes of the block.
    pub fn area(&self) -> usize {
        self.bw * self.bh
    }

    /// The place of the block's first sample.
    pub fn place(&self, kind: &Kind) -> (i64, i64) {
        let steps = kind.steps() as i64;
        (
            self.x0 as i64 + (self.mvx as i64).div_euclid(steps),
            self.y0 as i64 + (self.mvy as i64).div_euclid(steps),
        )
    }
}

/// A position and a vector component. Most put the block near one of the picture's edges or
/// inside; the rest reach as far as positions and vectors can.
fn drawn_axis(rng: &mut Rng, kind: &Kind, side: usize, block: usize) -> (usize, i32) {
    let (side, block) = (side as i64, block as i64);
    match rng.within(0, 9) {
        0 => (rng.within(0, 65535) as usize, rng.any_i32()),
        1 => {
            let end = rng.pick(&[0, 1, side - 1, side, 65534, 65535]);
            let mv = match rng.within(0, 1) {
                0 => i32::MIN + rng.within(0, 9) as i32,
                _ => i32::MAX - rng.within(0, 9) as i32,
            };
            (end as usize, mv)
        }
        form => {
            let place = match form {
                2 => rng.within(-block - 300, side + 300),
                3 | 4 => rng.within(-block - 4, 4),
                5 | 6 => rng.within(side - block - 4, side + 4),
                _ => rng.within(-block - 4, side + 4),
            };
            let x0 = match rng.within(0, 3) {
                0 => rng.within(0, 65535),
                _ => rng.within(0, side + 3),
            };
            (x0 as usize, towards(rng, kind, x0, place))
        }
    }
}

/// A component that leads from `x0` to `place`, at a drawn phase.
fn towards(rng: &mut Rng, kind: &Kind, x0: i64, place: i64) -> i32 {
    let phase = rng.within(0, kind.steps() as i64 - 1);
    ((place - x0) << kind.bits | phase) as i32
}

/// The samples of a picture: noise, black and white, a slope, one grey, or one lit sample.
pub fn drawn_picture(rng: &mut Rng, cw: usize, ch: usize) -> Vec<u8> {
    let form = rng.within(0, 5);
    let grey = rng.next() as u8;
    let lit = rng.within(0, (cw * ch) as i64 - 1) as usize;
    (0..cw * ch)
        .map(|at| match form {
            0 | 1 => rng.next() as u8,
            2 => rng.pick(&[0, 255]),
            3 => (at % cw * 7 + at / cw * 3) as u8,
            4 => grey,
            _ => 255 * (at == lit) as u8,
        })
        .collect()
}
