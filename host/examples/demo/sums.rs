//! Document 01's sums worked by hand: what the document says beside what the library says.

use std::collections::BTreeSet;
use std::fmt::Display;

use inter::{
    build_hpel_planes, edge_count, expand_plane, hpel_block, mc_chroma, mc_luma, mc_luma_padded,
    median3, predict_mv, Geometry, Mv, MvNeighbor, Refusal,
};

/// A picture of samples, and how many of them make a row.
struct Picture {
    name: &'static str,
    samples: &'static [u8],
    cw: usize,
}

const SLOPE: Picture =
    Picture { name: "10 20 30 40 50 60", samples: &[10, 20, 30, 40, 50, 60], cw: 6 };
const RIDGE: Picture = Picture { name: "0 0 255 255 0 0", samples: &[0, 0, 255, 255, 0, 0], cw: 6 };
const PEAKS: Picture = Picture { name: "0 255 0 0 255 0", samples: &[0, 255, 0, 0, 255, 0], cw: 6 };
const STEP: Picture = Picture { name: "0 0 0 1 1 1", samples: &[0, 0, 0, 1, 1, 1], cw: 6 };
const STAR: Picture =
    Picture { name: "6x6 zeros with 1 at (2,2)", samples: &one_lit(2 * 6 + 2), cw: 6 };
const SQUARE: Picture = Picture { name: "0 64 over 128 192", samples: &[0, 64, 128, 192], cw: 2 };
const DOT: Picture = Picture { name: "1x1 picture 77", samples: &[77], cw: 1 };

const fn one_lit(at: usize) -> [u8; 36] {
    let mut samples = [0; 36];
    samples[at] = 1;
    samples
}

type Predict =
    fn(&[u8], usize, usize, usize, usize, usize, usize, i32, i32, &mut [u8]) -> Result<(), Refusal>;

impl Picture {
    /// The 1x1 block that `predict` draws at (`x0`, `y0`), moved by (`mvx`, `mvy`).
    fn sample(
        &self,
        predict: Predict,
        (x0, y0): (usize, usize),
        (mvx, mvy): (i32, i32),
    ) -> Result<u8, Refusal> {
        let mut out = [0];
        let ch = self.samples.len() / self.cw;
        predict(self.samples, self.cw, ch, x0, y0, 1, 1, mvx, mvy, &mut out)?;
        Ok(out[0])
    }
}

/// The rows shown so far, of which `wrong` did not agree.
#[derive(Default)]
struct Table {
    wrong: usize,
}

impl Table {
    fn head(&self, title: &str) {
        println!("\n{title:58} {:>14} {:>14}", "document", "library");
        println!("{}", "-".repeat(95));
    }

    fn row<T: Display>(&mut self, case: &str, document: T, library: Result<T, Refusal>) {
        let document = document.to_string();
        let library = library.map_or_else(|refusal| refusal.to_string(), |said| said.to_string());
        let ok = document == library;
        self.wrong += !ok as usize;
        println!("{case:58} {document:>14} {library:>14}  {}", if ok { "ok" } else { "WRONG" });
    }
}

/// Shows the sums, and tells whether all agree.
pub fn shown() -> bool {
    let mut table = Table::default();
    luma(&mut table);
    chroma(&mut table);
    every_phase(&mut table);
    vectors(&mut table);
    edges(&mut table);
    margins(&mut table);
    half_samples(&mut table);
    match table.wrong {
        0 => println!("\nAll as the document says."),
        wrong => println!("\nNot as the document says: {wrong}"),
    }
    table.wrong == 0
}

fn luma(table: &mut Table) {
    table.head("luma sample, vector in quarters");
    for (picture, at, vector, says) in [
        (SLOPE, (2, 0), (2, 0), 35),
        (SLOPE, (2, 0), (1, 0), 33),
        (SLOPE, (2, 0), (3, 0), 38),
        (SLOPE, (2, 0), (-1, 0), 28),
        (SLOPE, (0, 0), (2, 0), 14),
        (SLOPE, (5, 0), (2, 0), 61),
        (RIDGE, (2, 0), (2, 0), 255),
        (PEAKS, (2, 0), (2, 0), 0),
        (STEP, (2, 0), (2, 0), 1),
        (STEP, (2, 0), (1, 0), 1),
        (STAR, (2, 2), (2, 0), 1),
        (STAR, (2, 2), (2, 2), 0),
        (STAR, (2, 2), (2, 1), 1),
    ] {
        let ((x0, y0), (mvx, mvy)) = (at, vector);
        let case = format!("{}, at ({x0},{y0}), vector ({mvx},{mvy})", picture.name);
        table.row(&case, says, picture.sample(mc_luma, at, vector));
    }
}

fn chroma(table: &mut Table) {
    table.head("chroma sample, vector in eighths");
    for (fx, fy, says) in [(4, 4, 96), (1, 0, 8)] {
        let case = format!("{}, phase ({fx},{fy})", SQUARE.name);
        table.row(&case, says, SQUARE.sample(mc_chroma, (0, 0), (fx, fy)));
    }
}

fn every_phase(table: &mut Table) {
    table.head("one sample, every phase");
    for (name, predict, steps) in [("luma", mc_luma as Predict, 4), ("chroma", mc_chroma, 8)] {
        let phases = (0..steps).flat_map(|fy| (0..steps).map(move |fx| (fx, fy)));
        let said: Result<BTreeSet<u8>, Refusal> =
            phases.map(|phase| DOT.sample(predict, (0, 0), phase)).collect();
        let case = format!("{}, {name}, each of {} phases", DOT.name, steps * steps);
        let said = said.map(|said| said.iter().map(u8::to_string).collect::<Vec<_>>().join(" "));
        table.row(&case, "77".to_string(), said);
    }
}

fn vectors(table: &mut Table) {
    table.head("vectors");
    let (most, next) = (i32::MAX, i32::MAX - 1);
    table.row(&format!("median of {most}, {most}, {next}"), most, Ok(median3(most, most, next)));
    let neighbor = |x, y, ref_idx| MvNeighbor { available: true, mv: Mv { x, y }, ref_idx };
    let (a, b, c) = (neighbor(4, 8, 0), neighbor(0, 0, 1), neighbor(12, -4, 1));
    for (current, says) in [(0, "(4,8)"), (1, "(4,0)")] {
        let case = format!("A (4,8) ref 0, B (0,0) ref 1, C (12,-4) ref 1, current {current}");
        let said = predict_mv(a, b, c, current).map(|mv| format!("({},{})", mv.x, mv.y));
        table.row(&case, says.to_string(), said);
    }
}

fn edges(table: &mut Table) {
    table.head("samples over the edge");
    let case = "16x16 picture, 16x16 block at 0,0, vector (-4,0)";
    table.row(case, 16, edge_count(16, 16, 0, 0, 16, 16, -4, 0));
}

/// A picture of 16x16 samples with margins of 32.
const FRAMED: Geometry = Geometry { stride: 80, pad: 32, pw: 16, ph: 16 };

/// The 16x16 block that padded luma draws at (0, 0), moved by (`mvx`, `mvy`).
fn framed_block(plane: &[u8], mvx: i32, mvy: i32) -> Result<[u8; 256], Refusal> {
    let mut out = [0; 256];
    mc_luma_padded(plane, FRAMED, 0, 0, 16, 16, mvx, mvy, &mut out)?;
    Ok(out)
}

/// A plane whose margins are 255, with that picture inside.
fn framed(picture: &[u8; 256]) -> Vec<u8> {
    let Geometry { stride, pad, pw, ph } = FRAMED;
    let mut plane = vec![255; stride * (ph + 2 * pad)];
    for (y, row) in picture.chunks(pw).enumerate() {
        plane[(pad + y) * stride + pad..][..pw].copy_from_slice(row);
    }
    plane
}

fn margins(table: &mut Table) {
    table.head("16x16 picture, pad 32, 16x16 block from (ix,0)");

    // No two samples of the picture are the same.
    let picture: [u8; 256] = std::array::from_fn(|at| at as u8);
    let agrees = |(mvx, mvy)| {
        let mut plane = framed(&picture);
        expand_plane(&mut plane, FRAMED)?;
        let mut out = [0; 256];
        mc_luma(&picture, 16, 16, 0, 0, 16, 16, mvx, mvy, &mut out)?;
        Ok(framed_block(&plane, mvx, mvy)? == out)
    };
    let vectors =
        (-31..=30).flat_map(|ix| (0..16).map(move |phase| (4 * ix + phase % 4, phase / 4)));
    let agreed: Result<Vec<bool>, Refusal> = vectors.map(agrees).collect();
    let agreed = agreed.map(|agreed| agreed.into_iter().filter(|&agrees| agrees).count());
    table.row("margins filled, ix -31..30, 16 phases: blocks as mc_luma's", 62 * 16, agreed);

    let black = framed(&[0; 256]);
    for (ix, name, at, says) in
        [(-31, "first", 0, 0), (-30, "first", 0, 255), (29, "last", 255, 255), (30, "last", 255, 0)]
    {
        let case = format!("black with margins left at 255, ix {ix}: {name} byte");
        table.row(&case, says, framed_block(&black, 4 * ix, 0).map(|block| block[at]));
    }
}

fn half_samples(table: &mut Table) {
    table.head("16x16 picture, pad 32, 16x16 block by half-sample planes");

    let picture: [u8; 256] = std::array::from_fn(|at| at as u8);
    let [mut f, mut h, mut v, mut c] = [[0; 80 * 80]; 4];
    let planes = match build_hpel_planes(&picture, 16, 16, 32, &mut f, &mut h, &mut v, &mut c) {
        Ok(planes) => planes,
        Err(refusal) => return table.row("the planes", "built", Err(refusal)),
    };
    let block = |mvx, mvy| {
        let mut out = [0; 256];
        hpel_block(planes, 0, 0, 16, 16, mvx, mvy, &mut out).map(|()| out)
    };
    for (mvx, says) in [(126, "done"), (-126, "done"), (130, "6"), (-130, "6")] {
        let said = block(mvx, 0).map_or_else(|no| no.number().to_string(), |_| "done".to_string());
        table.row(&format!("hpel_block, mvx {mvx}"), says.to_string(), Ok(said));
    }

    let agrees = |(mvx, mvy)| {
        let mut out = [0; 256];
        mc_luma(&picture, 16, 16, 0, 0, 16, 16, mvx, mvy, &mut out)?;
        Ok(block(mvx, mvy)? == out)
    };
    let vectors =
        (-32..=31).flat_map(|ix| (1..16).map(move |phase| (4 * ix + phase % 4, phase / 4)));
    let agreed: Result<Vec<bool>, Refusal> = vectors.map(agrees).collect();
    let agreed = agreed.map(|agreed| agreed.into_iter().filter(|&agrees| agrees).count());
    table.row("ix -32..31, 15 phases: blocks as mc_luma's", 64 * 15, agreed);
}

#[cfg(test)]
mod tests {
    #[test]
    fn all_sums_agree() {
        assert!(super::shown());
    }
}
