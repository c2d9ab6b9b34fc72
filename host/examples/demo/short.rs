//! A plane that lacks its last row: what today's Rust makes of it, and what this library answers.

use inter::{
    build_hpel_planes, expand_plane, hpel_block, mc_luma, mc_luma_padded, Geometry, HpelPlanes,
    Refusal,
};
use oracle::inter as rust;

use crate::exact::{phases, Phase};
use crate::field::Picture;
use crate::routes::{blocks, by_blocks, Block};

/// What stands in an output before a call, to see whether it was written.
const UNTOUCHED: u8 = 0xa5;

/// Without margins: the Rust does not read a margin row that is missing, but a picture row it does.
fn geometry(picture: &Picture) -> Geometry {
    Geometry { stride: picture.w, pad: 0, pw: picture.w, ph: picture.h }
}

/// All rows but the last.
fn cut(picture: &Picture) -> &[u8] {
    &picture.samples[..picture.w * (picture.h - 1)]
}

/// The moved picture that today's padded route answers, though the last row is missing.
pub fn todays(picture: &Picture, phase: Phase) -> Picture {
    let (mvx, mvy) = (phase.0 as i32, phase.1 as i32);
    let Geometry { stride, pad, pw, ph } = geometry(picture);
    by_blocks(pw, ph, |Block { x0, y0, bw, bh }, out| {
        rust::mc_luma_padded(cut(picture), stride, pad, pw, ph, x0, y0, bw, bh, mvx, mvy, out);
        Ok(())
    })
    .expect("the Rust has no refusal")
}

/// Calls of this library on the plane that is too short.
#[derive(Clone, Copy, Debug, Default, PartialEq, Eq)]
pub struct Refused {
    pub calls: usize,
    /// Those that were refused with 2 and changed no lent byte.
    pub as_promised: usize,
}

impl Refused {
    fn count(&mut self, said: Result<(), Refusal>, unchanged: bool) {
        self.calls += 1;
        self.as_promised += (said == Err(Refusal::Source) && unchanged) as usize;
    }
}

/// Each block at each phase by each route, and the two calls that make planes ready.
pub fn ours(picture: &Picture) -> Refused {
    let &Picture { w, h, ref samples } = picture;
    let whole = HpelPlanes { f: samples, h: samples, v: samples, c: samples, cw: w, ch: h, pad: 0 };
    let mut refused = Refused::default();
    for ((fx, fy), Block { x0, y0, bw, bh }) in
        phases().flat_map(|phase| blocks(w, h).map(move |block| (phase, block)))
    {
        let (mvx, mvy) = (fx as i32, fy as i32);
        let mut out = [UNTOUCHED; 256];
        let said = mc_luma(cut(picture), w, h, x0, y0, bw, bh, mvx, mvy, &mut out);
        refused.count(said, out == [UNTOUCHED; 256]);
        let g = geometry(picture);
        let said = mc_luma_padded(cut(picture), g, x0, y0, bw, bh, mvx, mvy, &mut out);
        refused.count(said, out == [UNTOUCHED; 256]);
        let short = HpelPlanes { f: cut(picture), ..whole };
        let said = hpel_block(short, x0, y0, bw, bh, mvx, mvy, &mut out);
        refused.count(said, out == [UNTOUCHED; 256]);
    }

    // With a margin, which a call that took the plane would fill.
    let framed = Geometry { stride: w, pad: 1, pw: w - 2, ph: h - 2 };
    let mut plane = cut(picture).to_vec();
    let said = expand_plane(&mut plane, framed);
    refused.count(said, plane == cut(picture));

    let mut planes = [(); 4].map(|()| vec![UNTOUCHED; w * h]);
    let [f, h_plane, v, c] = &mut planes;
    let said = build_hpel_planes(cut(picture), w, h, 0, f, h_plane, v, c).map(|_| ());
    refused.count(said, planes.concat() == vec![UNTOUCHED; 4 * w * h]);
    refused
}
