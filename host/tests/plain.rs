//! The plain routes against the oracle, and the edge count against a count one by one.

mod common;

use common::block::{drawn_picture, Block, Kind, CHROMA, LUMA};
use common::limits::{around, block_side, lowest, output, position, side, source, HUGE, POSITIONS};
use common::tally::Tally;
use common::twin::Twin;
use common::{drawn_calls, pairs, Rng};
use inter::ffi::{self, Edges};
use inter::{avg_row_into, edge_count, mc_chroma, mc_luma, Refusal};
use oracle::inter as rust;

use Refusal::{BlockSide, Output, Position, Side, Source};

type Ours =
    fn(&[u8], usize, usize, usize, usize, usize, usize, i32, i32, &mut [u8]) -> Result<(), Refusal>;

struct Route {
    kind: Kind,
    ours: Ours,
}

const LUMA_ROUTE: Route = Route { kind: LUMA, ours: mc_luma };

const CHROMA_ROUTE: Route = Route { kind: CHROMA, ours: mc_chroma };

/// One comparison: a route, its output, and what was counted.
struct Comparison {
    route: Route,
    out: Twin,
    tally: Tally,
    rng: Rng,
}

impl Comparison {
    fn new(name: &'static str, route: Route, seed: u64) -> Comparison {
        let mut rng = Rng::new(seed);
        Comparison {
            out: Twin::drawn(&mut rng, route.kind.most * route.kind.most + 40),
            tally: Tally::new(name),
            route,
            rng,
        }
    }

    /// A new picture of `cw` by `ch`, lent exactly or with more bytes after it.
    fn picture(&mut self, cw: usize, ch: usize) -> Twin {
        let bytes = drawn_picture(&mut self.rng, cw, ch);
        let more = self.rng.pick(&[0, 0, 1, 100]);
        Twin::holding(&mut self.rng, &bytes, more)
    }

    /// Lends an output that is exactly long enough, or longer.
    fn lend_output(&mut self, block: &Block) {
        let more = self.rng.pick(&[0, 0, 1, 40]);
        self.out.lend(block.area() + more);
    }

    /// Compares one call, with what is lent now.
    fn call(&mut self, picture: &Twin, (cw, ch): (usize, usize), block: Block) {
        let Block { x0, y0, bw, bh, mvx, mvy } = block;
        let Comparison { route, out, tally, rng } = self;
        out.fill(rng.next() as u8);
        let expected = lowest(&[
            side(cw, ch),
            source(picture.len(), cw, ch),
            block_side(&route.kind, &block),
            position(&block),
            output(out.len(), bw, bh),
        ]);
        // Outside the limits the oracle panics or fills in, so there nothing may change.
        if expected.is_ok() {
            let (kind, out) = (&route.kind, out.theirs_mut());
            (kind.plain)(picture.theirs(), cw, ch, x0, y0, bw, bh, mvx, mvy, out);
            tally.count_phase(kind, &block);
        }
        let answer = (route.ours)(picture.ours(), cw, ch, x0, y0, bw, bh, mvx, mvy, out.ours_mut());
        let told = |what| format!("{what}: picture {cw}x{ch}, {block:?}, output {}", out.len());
        assert_eq!(answer, expected, "{}", told("answer"));
        assert!(out.agree(), "{}", told("output"));
        assert!(picture.agree(), "{}", told("picture changed"));
        tally.count(answer);
    }

    /// Every size and phase, in each of a few pictures, in four places each.
    fn every_size_and_phase(mut self) {
        let sizes = [(1, 1), (1, 9), (12, 1), (2, 2), (3, 5), (6, 6), (9, 9), (16, 16)];
        let larger = [(21, 21), (22, 20), (37, 48), (70, 50)];
        let (most, steps) = (self.route.kind.most, self.route.kind.steps());
        for sides in sizes.into_iter().chain(larger) {
            for (bw, bh) in pairs(1..=most) {
                let picture = self.picture(sides.0, sides.1);
                for (fx, fy) in pairs(0..=steps - 1) {
                    for _ in 0..4 {
                        let block = Block::drawn(&mut self.rng, &self.route.kind, sides, (bw, bh));
                        self.lend_output(&block);
                        self.call(&picture, sides, block.at_phase(&self.route.kind, fx, fy));
                    }
                }
            }
        }
        self.tally.finish(&[]);
    }

    /// Drawn pictures, sizes, places and vectors.
    fn drawn(mut self) {
        let most = self.route.kind.most;
        let mut left = drawn_calls(600_000);
        while left > 0 {
            let sides = self.rng.sides(70, 50);
            let picture = self.picture(sides.0, sides.1);
            for _ in 0..left.min(100) {
                let size = self.rng.sides(most, most);
                let block = Block::drawn(&mut self.rng, &self.route.kind, sides, size);
                self.lend_output(&block);
                self.call(&picture, sides, block);
            }
            left = left.saturating_sub(100);
        }
        self.tally.finish(&[]);
    }

    /// Drawn calls, each with up to three arguments spoilt.
    fn faults(mut self) {
        let most = self.route.kind.most;
        let mut picture = Twin::drawn(&mut self.rng, 70 * 50 + 40);
        for _ in 0..drawn_calls(300_000) {
            let (mut cw, mut ch) = self.rng.sides(70, 50);
            let size = self.rng.sides(most, most);
            let mut block = Block::drawn(&mut self.rng, &self.route.kind, (cw, ch), size);
            picture.lend(cw * ch + self.rng.pick(&[0, 40]));
            self.lend_output(&block);
            let rng = &mut self.rng;
            for _ in 0..rng.within(1, 3) {
                match rng.within(0, 7) {
                    0 => cw = rng.outside(8192),
                    1 => ch = rng.outside(8192),
                    2 => picture.lend(rng.within(0, picture.len() as i64) as usize),
                    3 => block.bw = rng.outside(most),
                    4 => block.bh = rng.outside(most),
                    5 => block.x0 = rng.outside(65535),
                    6 => block.y0 = rng.outside(65535),
                    _ => self.out.lend(rng.within(0, self.out.len() as i64) as usize),
                }
            }
            self.call(&picture, (cw, ch), block);
        }
        self.tally.finish(&[Side, Source, BlockSide, Position, Output]);
    }

    /// Every combination of values on either side of each limit.
    fn limits(mut self) {
        let most = self.route.kind.most;
        let block_sides = [&[0, 1, most, most + 1], &HUGE[..]].concat();
        let widths = [&[0, 1, 5, 8192, 8193], &HUGE[..]].concat();
        let heights = [&[0, 1, 4, 8193], &HUGE[..]].concat();
        for cw in widths {
            for &ch in &heights {
                // Where the sides are refused any length will do.
                let needed = cw.checked_mul(ch).filter(|&n| n <= 8192 * 4).unwrap_or(64);
                let mut picture = Twin::drawn(&mut self.rng, needed + 3);
                for lent in around(needed, 3) {
                    picture.lend(lent);
                    self.blocks_around(&picture, (cw, ch), &block_sides);
                }
            }
        }
        self.tally.finish(&[Side, Source, BlockSide, Position, Output]);
    }

    fn blocks_around(&mut self, picture: &Twin, sides: (usize, usize), block_sides: &[usize]) {
        for (bw, bh) in pairs(block_sides.iter().copied()) {
            let area = bw.saturating_mul(bh);
            for (x0, y0) in pairs(POSITIONS) {
                for lent in around(area.min(self.out.room() - 2), 2) {
                    let (mvx, mvy) = (self.rng.any_i32(), self.rng.any_i32());
                    self.out.lend(lent);
                    self.call(picture, sides, Block { x0, y0, bw, bh, mvx, mvy });
                }
            }
        }
    }

    /// Pictures with the longest sides.
    fn longest_sides(mut self) {
        for sides in [(8192, 1), (1, 8192), (8192, 40), (40, 8192), (8192, 8192)] {
            let picture = self.picture(sides.0, sides.1);
            for (fx, fy) in pairs(0..=self.route.kind.steps() - 1) {
                let size = self.rng.sides(self.route.kind.most, self.route.kind.most);
                let block = Block::drawn(&mut self.rng, &self.route.kind, sides, size);
                self.lend_output(&block);
                self.call(&picture, sides, block.at_phase(&self.route.kind, fx, fy));
            }
        }
        self.tally.finish(&[]);
    }
}

#[test]
fn luma_at_every_size_and_phase() {
    Comparison::new("mc_luma, every size and phase", LUMA_ROUTE, 11).every_size_and_phase();
}

#[test]
fn chroma_at_every_size_and_phase() {
    Comparison::new("mc_chroma, every size and phase", CHROMA_ROUTE, 12).every_size_and_phase();
}

#[test]
fn luma_drawn() {
    Comparison::new("mc_luma, drawn", LUMA_ROUTE, 13).drawn();
}

#[test]
fn chroma_drawn() {
    Comparison::new("mc_chroma, drawn", CHROMA_ROUTE, 14).drawn();
}

#[test]
fn luma_faults() {
    Comparison::new("mc_luma, faults", LUMA_ROUTE, 23).faults();
}

#[test]
fn chroma_faults() {
    Comparison::new("mc_chroma, faults", CHROMA_ROUTE, 24).faults();
}

#[test]
fn luma_limits() {
    Comparison::new("mc_luma, limits", LUMA_ROUTE, 15).limits();
}

#[test]
fn chroma_limits() {
    Comparison::new("mc_chroma, limits", CHROMA_ROUTE, 16).limits();
}

#[test]
fn longest_sides() {
    Comparison::new("mc_luma, longest sides", LUMA_ROUTE, 17).longest_sides();
    Comparison::new("mc_chroma, longest sides", CHROMA_ROUTE, 18).longest_sides();
}

#[test]
fn slices_of_nothing() {
    assert_eq!(mc_luma(&[], 1, 1, 0, 0, 1, 1, 0, 0, &mut []), Err(Source));
    assert_eq!(mc_luma(&[9], 1, 1, 0, 0, 1, 1, 0, 0, &mut []), Err(Output));
    assert_eq!(mc_chroma(&[9], 1, 1, 0, 0, 1, 1, 0, 0, &mut []), Err(Output));
    assert_eq!(avg_row_into(&[], &[], 0, &mut []), Ok(()));
    assert_eq!(avg_row_into(&[], &[9], 1, &mut []), Err(Source));
}

/// Compares one average, with what is lent now.
fn compare_average(a: &Twin, b: &Twin, w: usize, out: &mut Twin, tally: &mut Tally) {
    let expected = lowest(&[source(a.len(), w, 1), source(b.len(), w, 1), output(out.len(), w, 1)]);
    if expected.is_ok() {
        rust::avg_row_into(a.theirs(), b.theirs(), w, out.theirs_mut());
    }
    let answer = avg_row_into(a.ours(), b.ours(), w, out.ours_mut());
    let told = || format!("width {w}, lengths {} {} {}", a.len(), b.len(), out.len());
    assert_eq!(answer, expected, "{}", told());
    assert!(out.agree() && a.agree() && b.agree(), "{}", told());
    tally.count(answer);
}

#[test]
fn average_of_every_pair_of_bytes() {
    let mut rng = Rng::new(19);
    let mut tally = Tally::new("avg_row_into, every pair");
    let (a, b): (Vec<u8>, Vec<u8>) = pairs(0..=255).unzip();
    let [a, b] = [a, b].map(|row| Twin::holding(&mut rng, &row, 0));
    let mut out = Twin::drawn(&mut rng, 65536);
    compare_average(&a, &b, 65536, &mut out, &mut tally);
    tally.finish(&[]);
}

#[test]
fn average_at_every_width_and_length() {
    let mut rng = Rng::new(20);
    let mut tally = Tally::new("avg_row_into, limits");
    let [mut a, mut b, mut out] = [(); 3].map(|()| Twin::drawn(&mut rng, 160));
    for w in (0..=150).chain(HUGE) {
        let lengths = around(w.min(150), 10);
        for (a_len, b_len) in pairs(lengths) {
            for out_len in lengths {
                a.lend(a_len);
                b.lend(b_len);
                out.lend(out_len);
                out.fill(rng.next() as u8);
                compare_average(&a, &b, w, &mut out, &mut tally);
            }
        }
    }
    tally.finish(&[Source, Output]);
}

/// The samples of the block outside the picture, counted one by one.
fn counted(cw: usize, ch: usize, block: &Block) -> Result<u32, Refusal> {
    lowest(&[side(cw, ch), block_side(&LUMA, block), position(block)])?;
    let (ix, iy) = block.place(&LUMA);
    let outside = |x: i64, y: i64| x < 0 || y < 0 || x >= cw as i64 || y >= ch as i64;
    let rows = iy..iy + block.bh as i64;
    Ok(rows.map(|y| (ix..ix + block.bw as i64).filter(|&x| outside(x, y)).count() as u32).sum())
}

fn compare_count(cw: usize, ch: usize, block: Block, tally: &mut Tally) {
    let Block { x0, y0, bw, bh, mvx, mvy } = block;
    let expected = counted(cw, ch, &block);
    let answer = edge_count(cw, ch, x0, y0, bw, bh, mvx, mvy);
    assert_eq!(answer, expected, "picture {cw}x{ch}, {block:?}");
    if let Err(refusal) = answer {
        let refused = Edges { refusal: refusal.number(), count: 0 };
        assert_eq!(ffi::inter_edge_count(cw, ch, x0, y0, bw, bh, mvx, mvy), refused);
    }
    tally.count(answer);
}

#[test]
fn edge_count_drawn() {
    let mut rng = Rng::new(21);
    let mut tally = Tally::new("edge_count, drawn");
    for _ in 0..drawn_calls(400_000) {
        let (cw, ch) = rng.sides(70, 50);
        let size = rng.sides(16, 16);
        compare_count(cw, ch, Block::drawn(&mut rng, &LUMA, (cw, ch), size), &mut tally);
    }
    tally.finish(&[]);
}

#[test]
fn edge_count_limits() {
    let mut rng = Rng::new(22);
    let mut tally = Tally::new("edge_count, limits");
    let sides = [&[0, 1, 9, 8192, 8193], &HUGE[..]].concat();
    let block_sides = [&[0, 1, 16, 17], &HUGE[..]].concat();
    for (cw, ch) in pairs(sides) {
        for (bw, bh) in pairs(block_sides.clone()) {
            for (x0, y0) in pairs(POSITIONS) {
                let (mvx, mvy) = (rng.any_i32(), rng.any_i32());
                let block = Block { x0, y0, bw, bh, mvx, mvy };
                compare_count(cw, ch, block, &mut tally);
            }
        }
    }
    tally.finish(&[Side, BlockSide, Position]);
}
