//! The table of refusals as a model: each test in words of the numbers alone.

use inter::{Geometry, Refusal};

use super::block::{Block, Kind};
use super::hpel::Frame;
use super::plane::rows;

/// Two numbers far outside every range; the first times itself is 0 in 64 bits.
pub const HUGE: [usize; 2] = [1 << 32, usize::MAX];

/// The ends of the range of positions, and what lies past it.
pub const POSITIONS: [usize; 4] = [0, 65535, 65536, usize::MAX];

/// Lengths around what is needed: none, one short, exact, longer.
pub fn around(needed: usize, more: usize) -> [usize; 4] {
    [0, needed.saturating_sub(1), needed, needed + more]
}

/// The lowest number that applies. A test is a refusal and whether it applies.
pub fn lowest(tests: &[(Refusal, bool)]) -> Result<(), Refusal> {
    let applying = tests.iter().filter(|test| test.1).map(|test| test.0);
    applying.min_by_key(|refusal| refusal.number()).map_or(Ok(()), Err)
}

/// Refusal 1, of the sides of a picture.
pub fn side(cw: usize, ch: usize) -> (Refusal, bool) {
    let off = |n| !(1..=8192).contains(&n);
    (Refusal::Side, off(cw) || off(ch))
}

/// Refusal 2, of a source that must hold `w` by `h` bytes.
pub fn source(len: usize, w: usize, h: usize) -> (Refusal, bool) {
    (Refusal::Source, short(len, w, h))
}

/// Refusal 1, of a picture with margins.
pub fn geometry(g: Geometry) -> (Refusal, bool) {
    // Wide enough that no three numbers add up past it.
    let width = g.pw as u128 + 2 * g.pad as u128;
    let stride = g.stride as u128;
    (Refusal::Side, side(g.pw, g.ph).1 || g.pad > 128 || stride < width || stride > 16384)
}

/// Refusal 2, of a source that must hold a picture with margins.
pub fn padded_source(len: usize, g: Geometry) -> (Refusal, bool) {
    source(len, g.stride, rows(g))
}

/// Refusal 1, of a picture and the margins that half-sample planes give it.
pub fn frame_side(frame: Frame) -> (Refusal, bool) {
    (Refusal::Side, side(frame.cw, frame.ch).1 || frame.pad > 128)
}

/// Refusal 2, of a half-sample plane.
pub fn plane_source(len: usize, frame: Frame) -> (Refusal, bool) {
    source(len, frame.wide(), frame.high())
}

/// Refusal 5, of an output that must hold such a plane.
pub fn plane_output(len: usize, frame: Frame) -> (Refusal, bool) {
    output(len, frame.wide(), frame.high())
}

/// Refusal 3.
pub fn block_side(kind: &Kind, block: &Block) -> (Refusal, bool) {
    let off = |n| !(1..=kind.most).contains(&n);
    (Refusal::BlockSide, off(block.bw) || off(block.bh))
}

/// Refusal 4.
pub fn position(block: &Block) -> (Refusal, bool) {
    (Refusal::Position, block.x0 > 65535 || block.y0 > 65535)
}

/// Refusal 5, of an output that must hold `w` by `h` bytes.
pub fn output(len: usize, w: usize, h: usize) -> (Refusal, bool) {
    (Refusal::Output, short(len, w, h))
}

fn short(len: usize, w: usize, h: usize) -> bool {
    // Wide enough that no two lengths multiply past it.
    (len as u128) < w as u128 * h as u128
}
