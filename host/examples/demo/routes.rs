//! A whole picture moved by each of the three luma routes, block by block.

use inter::{
    build_hpel_planes, expand_plane, hpel_block, hpel_ref, mc_luma, mc_luma_padded, Geometry,
    HpelPlanes, Refusal,
};

use crate::exact::Phase;
use crate::field::Picture;

/// The margin that the Rust's decoder and encoder use.
const PAD: usize = 32;
const SIDE: usize = 16;

/// A block of a picture: its place and its sides.
#[derive(Clone, Copy)]
pub struct Block {
    pub x0: usize,
    pub y0: usize,
    pub bw: usize,
    pub bh: usize,
}

/// The blocks that make a picture of `w` by `h`; those at its right and lower edge may be smaller.
pub fn blocks(w: usize, h: usize) -> impl Iterator<Item = Block> {
    (0..h).step_by(SIDE).flat_map(move |y0| {
        (0..w).step_by(SIDE).map(move |x0| Block {
            x0,
            y0,
            bw: SIDE.min(w - x0),
            bh: SIDE.min(h - y0),
        })
    })
}

/// A picture of `w` by `h`, each block of which `draw` writes, packed by rows.
pub fn by_blocks(
    w: usize,
    h: usize,
    mut draw: impl FnMut(Block, &mut [u8]) -> Result<(), Refusal>,
) -> Result<Picture, Refusal> {
    let mut picture = Picture::black(w, h);
    for block in blocks(w, h) {
        let mut out = vec![0; block.bw * block.bh];
        draw(block, &mut out)?;
        for (dy, row) in out.chunks(block.bw).enumerate() {
            picture.samples[(block.y0 + dy) * w + block.x0..][..block.bw].copy_from_slice(row);
        }
    }
    Ok(picture)
}

/// A reference made ready for the three routes.
pub struct Routes<'a> {
    picture: &'a Picture,
    padded: Vec<u8>,
    geometry: Geometry,
    /// f, h, v and c.
    half_samples: [Vec<u8>; 4],
}

impl Routes<'_> {
    pub fn of(picture: &Picture) -> Result<Routes<'_>, Refusal> {
        let &Picture { w, h, ref samples } = picture;
        let geometry = Geometry { stride: w + 2 * PAD, pad: PAD, pw: w, ph: h };
        let area = geometry.stride * (h + 2 * PAD);
        let mut padded = vec![0; area];
        for (y, row) in samples.chunks(w).enumerate() {
            padded[(PAD + y) * geometry.stride + PAD..][..w].copy_from_slice(row);
        }
        expand_plane(&mut padded, geometry)?;
        let mut half_samples = [(); 4].map(|()| vec![0; area]);
        let [f, h_plane, v, c] = &mut half_samples;
        build_hpel_planes(samples, w, h, PAD, f, h_plane, v, c)?;
        Ok(Routes { picture, padded, geometry, half_samples })
    }

    /// The picture moved by each route: plain, padded, and from half-sample planes.
    pub fn moved(&self, phase: Phase) -> Result<[Picture; 3], Refusal> {
        let (mvx, mvy) = (phase.0 as i32, phase.1 as i32);
        let &Picture { w, h, ref samples } = self.picture;
        let plain = by_blocks(w, h, |Block { x0, y0, bw, bh }, out| {
            mc_luma(samples, w, h, x0, y0, bw, bh, mvx, mvy, out)
        })?;
        let padded = by_blocks(w, h, |Block { x0, y0, bw, bh }, out| {
            mc_luma_padded(&self.padded, self.geometry, x0, y0, bw, bh, mvx, mvy, out)
        })?;
        let planes = self.planes();
        let from_planes = by_blocks(w, h, |Block { x0, y0, bw, bh }, out| {
            if phase != (0, 0) {
                return hpel_block(planes, x0, y0, bw, bh, mvx, mvy, out);
            }
            // At the full phase a block is read in place.
            let view = hpel_ref(planes, x0, y0, bw, bh, mvx, mvy)?;
            for (row, samples) in out.chunks_mut(bw).zip(view.samples.chunks(view.stride)) {
                row.copy_from_slice(&samples[..bw]);
            }
            Ok(())
        })?;
        Ok([plain, padded, from_planes])
    }

    /// Whether `hpel_block` refuses the full phase with 6, and writes nothing.
    pub fn full_phase_is_unserved(&self) -> bool {
        let mut out = [0xa5; SIDE * SIDE];
        let said = hpel_block(self.planes(), 0, 0, SIDE, SIDE, 0, 0, &mut out);
        said == Err(Refusal::Unserved) && out == [0xa5; SIDE * SIDE]
    }

    fn planes(&self) -> HpelPlanes<'_> {
        let [f, h, v, c] = &self.half_samples;
        HpelPlanes { f, h, v, c, cw: self.picture.w, ch: self.picture.h, pad: PAD }
    }
}
