//! The routes on planes with margins, and how margins are filled, against the oracle and against
//! document 01's rules for both.

mod common;

use common::block::{drawn_picture, Block, Kind, CHROMA, LUMA};
use common::limits::{
    around, block_side, geometry, lowest, output, padded_source, position, HUGE, POSITIONS,
};
use common::plane::{drawn_geometry, filled, made_of, rows, with_gap, Reading};
use common::tally::Tally;
use common::twin::Twin;
use common::{drawn_calls, pairs, Rng};
use inter::{
    expand_plane, mc_chroma_padded, mc_chroma_padded_pair, mc_luma, mc_luma_padded,
    mc_luma_padded_pre, Geometry, McScratch, Refusal,
};
use oracle::inter as rust;

use Refusal::{BlockSide, Output, Position, Side, Source};

type Ours<const N: usize> =
    fn(&mut McScratch, [&[u8]; N], Geometry, Block, [&mut [u8]; N]) -> Result<(), Refusal>;
type Theirs<const N: usize> = fn([&[u8]; N], Geometry, Block, [&mut [u8]; N]);

/// A route from `N` planes to as many outputs.
struct Route<const N: usize> {
    kind: Kind,
    ours: Ours<N>,
    theirs: Theirs<N>,
}

const LUMA_ROUTE: Route<1> = Route {
    kind: LUMA,
    ours: |_, [padded], g, block, [out]| {
        let Block { x0, y0, bw, bh, mvx, mvy } = block;
        mc_luma_padded(padded, g, x0, y0, bw, bh, mvx, mvy, out)
    },
    theirs: |[padded], g, block, [out]| {
        let Geometry { stride, pad, pw, ph } = g;
        let Block { x0, y0, bw, bh, mvx, mvy } = block;
        rust::mc_luma_padded(padded, stride, pad, pw, ph, x0, y0, bw, bh, mvx, mvy, out)
    },
};

const PRE_ROUTE: Route<1> = Route {
    kind: LUMA,
    ours: |scr, [padded], g, block, [out]| {
        let Block { x0, y0, bw, bh, mvx, mvy } = block;
        mc_luma_padded_pre(scr, padded, g, x0, y0, bw, bh, mvx, mvy, out)
    },
    theirs: |[padded], g, block, [out]| {
        let Geometry { stride, pad, pw, ph } = g;
        let Block { x0, y0, bw, bh, mvx, mvy } = block;
        rust::with_mc_scratch(|scr| {
            rust::mc_luma_padded_pre(
                scr, padded, stride, pad, pw, ph, x0, y0, bw, bh, mvx, mvy, out,
            )
        })
    },
};

const CHROMA_ROUTE: Route<1> = Route {
    kind: CHROMA,
    ours: |_, [padded], g, block, [out]| {
        let Block { x0, y0, bw, bh, mvx, mvy } = block;
        mc_chroma_padded(padded, g, x0, y0, bw, bh, mvx, mvy, out)
    },
    theirs: |[padded], g, block, [out]| {
        let Geometry { stride, pad, pw, ph } = g;
        let Block { x0, y0, bw, bh, mvx, mvy } = block;
        rust::mc_chroma_padded(padded, stride, pad, pw, ph, x0, y0, bw, bh, mvx, mvy, out)
    },
};

const PAIR_ROUTE: Route<2> = Route {
    kind: CHROMA,
    ours: |_, [pu, pv], g, block, [outu, outv]| {
        let Block { x0, y0, bw, bh, mvx, mvy } = block;
        mc_chroma_padded_pair(pu, pv, g, x0, y0, bw, bh, mvx, mvy, outu, outv)
    },
    theirs: |[pu, pv], g, block, [outu, outv]| {
        let Geometry { stride, pad, pw, ph } = g;
        let Block { x0, y0, bw, bh, mvx, mvy } = block;
        rust::mc_chroma_padded_pair(
            pu, pv, stride, pad, pw, ph, x0, y0, bw, bh, mvx, mvy, outu, outv,
        )
    },
};

/// The planes of a call.
struct Planes<const N: usize> {
    bytes: [Twin; N],
    g: Geometry,
    /// Whether the margins were made from the picture.
    filled: bool,
}

impl<const N: usize> Planes<N> {
    fn told(&self, what: &str, block: &Block, outs: &[Twin; N]) -> String {
        let [planes, outs] = [&self.bytes, outs].map(|twins| twins.each_ref().map(Twin::len));
        format!("{what}: {:?}, {block:?}, planes of {planes:?}, outputs of {outs:?}", self.g)
    }
}

/// One comparison: a route, what it writes, and what was counted.
struct Comparison<const N: usize> {
    route: Route<N>,
    outs: [Twin; N],
    scratch: Twin,
    tally: Tally,
    rng: Rng,
}

/// Lent bytes as a scratch, because a record of its own would have no guards.
fn scratch_of(bytes: &mut [u8]) -> &mut McScratch {
    const { assert!(align_of::<McScratch>() == 1) };
    assert_eq!(bytes.len(), size_of::<McScratch>());
    // SAFETY: the scratch is nothing but bytes, exactly these, and any will do.
    unsafe { &mut *bytes.as_mut_ptr().cast() }
}

impl<const N: usize> Comparison<N> {
    fn new(name: &'static str, route: Route<N>, seed: u64) -> Comparison<N> {
        let mut rng = Rng::new(seed);
        let room = route.kind.most * route.kind.most + 40;
        Comparison {
            outs: [(); N].map(|()| Twin::drawn(&mut rng, room)),
            scratch: Twin::drawn(&mut rng, size_of::<McScratch>()),
            tally: Tally::new(name),
            route,
            rng,
        }
    }

    /// New planes, lent exactly or with more bytes after them. Unfilled margins have their own
    /// bytes, so that it shows which reading was taken.
    fn planes(&mut self, g: Geometry, filled: bool) -> Planes<N> {
        let bytes = [(); N].map(|()| {
            let bytes = drawn_picture(&mut self.rng, g.stride, rows(g));
            let more = self.rng.pick(&[0, 0, 1, 100]);
            let mut plane = Twin::holding(&mut self.rng, &bytes, more);
            if filled {
                compare_expanded(&mut plane, g).expect("the plane is long enough");
            }
            plane
        });
        Planes { bytes, g, filled }
    }

    /// Lends outputs that are exactly long enough, or longer.
    fn lend_outputs(&mut self, block: &Block) {
        for out in &mut self.outs {
            out.lend(block.area() + self.rng.pick(&[0, 0, 1, 40]));
        }
    }

    /// Compares one call, with what is lent now.
    fn call(&mut self, planes: &Planes<N>, block: Block) {
        for out in &mut self.outs {
            out.fill(self.rng.next() as u8);
        }
        let expected = self.expected(planes, &block);
        // Outside the limits the oracle panics or fills in, so there nothing may change.
        if expected.is_ok() {
            self.call_theirs(planes, block);
        }
        let Comparison { route, outs, scratch, tally, .. } = self;
        let sources = planes.bytes.each_ref().map(Twin::ours);
        let into = outs.each_mut().map(Twin::ours_mut);
        let answer = (route.ours)(scratch_of(scratch.ours_mut()), sources, planes.g, block, into);
        if answer.is_ok() {
            scratch.let_ours_hold();
        }
        let told = |what| planes.told(what, &block, outs);
        assert_eq!(answer, expected, "{}", told("answer"));
        assert!(outs.iter().all(Twin::agree), "{}", told("output"));
        assert!(planes.bytes.iter().all(Twin::agree), "{}", told("plane changed"));
        assert!(scratch.agree(), "{}", told("scratch"));
        tally.count(answer);
    }

    /// The answer by document 01's table.
    fn expected(&self, planes: &Planes<N>, block: &Block) -> Result<(), Refusal> {
        let kind = &self.route.kind;
        let mut tests = vec![geometry(planes.g), block_side(kind, block), position(block)];
        tests.extend(planes.bytes.iter().map(|plane| padded_source(plane.len(), planes.g)));
        tests.extend(self.outs.iter().map(|out| output(out.len(), block.bw, block.bh)));
        lowest(&tests)
    }

    /// The oracle's call, whose bytes must be those of document 01's rule of reading.
    fn call_theirs(&mut self, planes: &Planes<N>, block: Block) {
        let Comparison { route, outs, tally, .. } = self;
        let (kind, g) = (&route.kind, planes.g);
        let sources = planes.bytes.each_ref().map(Twin::theirs);
        (route.theirs)(sources, g, block, outs.each_mut().map(Twin::theirs_mut));
        let told = |what| planes.told(what, &block, outs);
        let reading = Reading::of(kind, g, &block);
        for (source, out) in sources.iter().zip(&*outs) {
            let window = reading.window(kind, source, g, &block);
            let ruled = made_of(kind, &window, &block);
            assert!(out.theirs().starts_with(&ruled), "{}", told("the Rust left the rule"));
            if planes.filled {
                let clamped = Reading::Clamped.window(kind, source, g, &block);
                assert!(window == clamped, "{}", told("the readings differ"));
            }
        }
        tally.count_reading(reading, kind, &block);
    }

    /// A call in each phase, on a drawn place each time.
    fn every_phase(&mut self, planes: &Planes<N>, size: (usize, usize)) {
        for (fx, fy) in pairs(0..self.route.kind.steps()) {
            let kind = &self.route.kind;
            let block = Block::drawn_with_margins(&mut self.rng, kind, planes.g, size);
            let block = block.at_phase(kind, fx, fy);
            self.lend_outputs(&block);
            self.call(planes, block);
        }
    }

    /// Every size and phase, in each of a few geometries, with margins of both kinds.
    fn every_size_and_phase(mut self) {
        let geometries = [
            with_gap((1, 1), 0, 0),
            with_gap((1, 1), 3, 0),
            with_gap((2, 7), 12, 1),
            with_gap((9, 5), 9, 11),
            with_gap((16, 16), 32, 0),
            with_gap((30, 21), 0, 3),
            with_gap((37, 40), 24, 5),
        ];
        for g in geometries {
            for size in pairs(1..=self.route.kind.most) {
                for filled in [false, true] {
                    let planes = self.planes(g, filled);
                    self.every_phase(&planes, size);
                }
            }
        }
        self.tally.finish(&[]);
    }

    /// Every pad and phase, with margins of both kinds.
    fn every_pad(mut self) {
        let most = self.route.kind.most;
        for pad in 0..=128 {
            for (gap, filled) in [(0, false), (0, true), (1, false), (17, true)] {
                let g = with_gap(self.rng.sides(40, 30), pad, gap);
                let planes = self.planes(g, filled);
                let size = self.rng.sides(most, most);
                self.every_phase(&planes, size);
            }
        }
        self.tally.finish(&[]);
    }

    /// On both axes each place next to where the reading changes, or the picture ends, in every
    /// phase. The margins are not filled, so that each reading has its own bytes.
    fn edges_of_reach(mut self) {
        let (most, steps) = (self.route.kind.most, self.route.kind.steps());
        let (before, after) = (self.route.kind.before as i64, self.route.kind.after as i64);
        for pad in [0, 1, 2, 3, 5, 32, 128] {
            for (size, gap) in [((1, 1), 0), ((most, most), 0), ((most / 2, 3), 9)] {
                let g = with_gap((21, 18), pad as usize, gap);
                let planes = self.planes(g, false);
                let places = |block: usize, side: usize| {
                    let last = side as i64 - block as i64;
                    let (first, end) = (before - pad, last + pad - after);
                    [first - 1, first, -1, 0, last, last + 1, end, end + 1]
                };
                for ix in places(size.0, g.pw) {
                    for iy in places(size.1, g.ph) {
                        for (fx, fy) in pairs(0..steps) {
                            let kind = &self.route.kind;
                            let block = Block::placed(&mut self.rng, kind, (ix, iy), size);
                            self.lend_outputs(&block);
                            self.call(&planes, block.at_phase(&self.route.kind, fx, fy));
                        }
                    }
                }
            }
        }
        self.tally.finish(&[]);
    }

    /// Drawn geometries, sizes, places and vectors.
    fn drawn(mut self) {
        let most = self.route.kind.most;
        let mut left = drawn_calls(300_000);
        while left > 0 {
            let g = drawn_geometry(&mut self.rng, 40, 30);
            let filled = self.rng.pick(&[false, true]);
            let planes = self.planes(g, filled);
            for _ in 0..left.min(100) {
                let size = self.rng.sides(most, most);
                let kind = &self.route.kind;
                let block = Block::drawn_with_margins(&mut self.rng, kind, g, size);
                self.lend_outputs(&block);
                self.call(&planes, block);
            }
            left = left.saturating_sub(100);
        }
        self.tally.finish(&[]);
    }

    /// Drawn calls, each with up to three arguments spoilt.
    fn faults(mut self) {
        let most = self.route.kind.most;
        let mut planes = self.planes(with_gap((60, 60), 10, 0), false);
        for _ in 0..drawn_calls(200_000) {
            let g = with_gap(self.rng.sides(30, 30), self.rng.within(0, 9) as usize, 0);
            planes.g = Geometry { stride: g.stride + self.rng.within(0, 9) as usize, ..g };
            let size = self.rng.sides(most, most);
            let kind = &self.route.kind;
            let mut block = Block::drawn_with_margins(&mut self.rng, kind, planes.g, size);
            for plane in &mut planes.bytes {
                plane.lend(planes.g.stride * rows(planes.g) + self.rng.pick(&[0, 40]));
            }
            self.lend_outputs(&block);
            for _ in 0..self.rng.within(1, 3) {
                self.spoil(&mut planes, &mut block);
            }
            self.call(&planes, block);
        }
        self.tally.finish(&[Side, Source, BlockSide, Position, Output]);
    }

    /// Spoils one argument. Some still serve, as a shorter stride in a plane for a longer one.
    fn spoil(&mut self, planes: &mut Planes<N>, block: &mut Block) {
        let Comparison { route, outs, rng, .. } = self;
        let (most, g) = (route.kind.most, &mut planes.g);
        let one = rng.within(0, N as i64 - 1) as usize;
        match rng.within(0, 12) {
            0 => g.pw = rng.outside(8192),
            1 => g.ph = rng.outside(8192),
            2 => g.pad = rng.outside(128),
            3 => g.stride = rng.outside(16384),
            4 => g.stride = rng.within(0, 60) as usize,
            5 => block.bw = rng.outside(most),
            6 => block.bh = rng.outside(most),
            7 => block.x0 = rng.outside(65535),
            8 => block.y0 = rng.outside(65535),
            9 | 10 => shorten(&mut planes.bytes[one], rng),
            _ => shorten(&mut outs[one], rng),
        }
    }

    /// Every geometry around the limits, with a few planes and blocks around their own. Where the
    /// geometry is served, every phase is.
    fn limits(mut self) {
        let most = self.route.kind.most;
        for g in geometries_around() {
            let refused = geometry(g).1;
            // Where the geometry is refused any length will do.
            let needed = if refused { 64 } else { g.stride * rows(g) };
            let mut planes = if refused {
                let bytes = [(); N].map(|()| Twin::drawn(&mut self.rng, needed + 3));
                Planes { bytes, g, filled: false }
            } else {
                let planes = self.planes(g, false);
                let size = self.rng.sides(most, most);
                self.every_phase(&planes, size);
                planes
            };
            for _ in 0..if refused { 8 } else { 300 } {
                for plane in &mut planes.bytes {
                    plane.lend(self.rng.pick(&around(needed, 0)));
                }
                let block = self.block_around();
                self.call(&planes, block);
            }
        }
        self.tally.finish(&[Side, Source, BlockSide, Position, Output]);
    }

    /// A block around the limits, and outputs around what it needs.
    fn block_around(&mut self) -> Block {
        let Comparison { route, outs, rng, .. } = self;
        let most = route.kind.most;
        let sides = [&[1, 1, most, most, 0, most + 1], &HUGE[..]].concat();
        let [bw, bh] = [(); 2].map(|()| rng.pick(&sides));
        let [x0, y0] = [(); 2].map(|()| rng.pick(&POSITIONS));
        let [mvx, mvy] = [(); 2].map(|()| rng.any_i32());
        for out in outs {
            let needed = bw.saturating_mul(bh).min(out.room() - 2);
            out.lend(rng.pick(&around(needed, 2)));
        }
        Block { x0, y0, bw, bh, mvx, mvy }
    }

    /// Pictures with the longest sides and rows.
    fn longest(mut self) {
        let most = self.route.kind.most;
        let geometries = [
            with_gap((8192, 1), 0, 0),
            with_gap((1, 8192), 128, 0),
            with_gap((30, 8192), 128, 14),
            Geometry { stride: 16384, pad: 128, pw: 8192, ph: 24 },
        ];
        for g in geometries {
            for filled in [false, true] {
                let planes = self.planes(g, filled);
                for _ in 0..4 {
                    let size = self.rng.sides(most, most);
                    self.every_phase(&planes, size);
                }
            }
        }
        self.tally.finish(&[]);
    }
}

/// Lends less of it, or all as before.
fn shorten(twin: &mut Twin, rng: &mut Rng) {
    twin.lend(rng.within(0, twin.len() as i64) as usize);
}

/// Every combination of values on either side of each limit.
fn geometries_around() -> Vec<Geometry> {
    let widths = [&[0, 1, 5, 8192, 8193], &HUGE[..]].concat();
    let heights = [&[0, 1, 4, 8193], &HUGE[..]].concat();
    // Twice the third is 0 in 64 bits.
    let pads = [&[0, 2, 1 << 63, 128, 129], &HUGE[..]].concat();
    let mut geometries = Vec::new();
    for &pw in &widths {
        for &pad in &pads {
            let width = pw.wrapping_add(pad.wrapping_mul(2));
            let least = [width.wrapping_sub(1), width, width.wrapping_add(3)];
            for stride in [&least, &[0, 16384, 16385], &HUGE[..]].concat() {
                geometries.extend(heights.iter().map(|&ph| Geometry { stride, pad, pw, ph }));
            }
        }
    }
    geometries
}

macro_rules! compare {
    ($module:ident, $call:literal, $route:expr, $seed:literal) => {
        mod $module {
            use super::*;

            #[test]
            fn every_size_and_phase() {
                let name = concat!($call, ", every size and phase");
                Comparison::new(name, $route, $seed).every_size_and_phase();
            }

            #[test]
            fn every_pad() {
                Comparison::new(concat!($call, ", every pad"), $route, $seed + 1).every_pad();
            }

            #[test]
            fn edges_of_reach() {
                let name = concat!($call, ", edges of reach");
                Comparison::new(name, $route, $seed + 2).edges_of_reach();
            }

            #[test]
            fn drawn() {
                Comparison::new(concat!($call, ", drawn"), $route, $seed + 3).drawn();
            }

            #[test]
            fn faults() {
                Comparison::new(concat!($call, ", faults"), $route, $seed + 4).faults();
            }

            #[test]
            fn limits() {
                Comparison::new(concat!($call, ", limits"), $route, $seed + 5).limits();
            }

            #[test]
            fn longest() {
                Comparison::new(concat!($call, ", longest"), $route, $seed + 6).longest();
            }
        }
    };
}

compare!(luma, "mc_luma_padded", LUMA_ROUTE, 100);
compare!(pre, "mc_luma_padded_pre", PRE_ROUTE, 110);
compare!(chroma, "mc_chroma_padded", CHROMA_ROUTE, 120);
compare!(pair, "mc_chroma_padded_pair", PAIR_ROUTE, 130);

fn lend_each([u, v]: &mut [Twin; 2], (u_len, v_len): (usize, usize)) {
    u.lend(u_len);
    v.lend(v_len);
}

/// Both planes and both outputs short or not, in every combination, phase and reading.
#[test]
fn either_of_the_pair_short() {
    let mut pair = Comparison::new("mc_chroma_padded_pair, either short", PAIR_ROUTE, 140);
    let g = with_gap((9, 7), 4, 2);
    let needed = g.stride * rows(g);
    let mut planes = pair.planes(g, false);
    for place in [-20, -4, 2, 7] {
        for (fx, fy) in pairs(0..8) {
            let block = Block::placed(&mut pair.rng, &CHROMA, (place, 1), (5, 3));
            for planes_lent in pairs([0, needed - 1, needed]) {
                for outs_lent in pairs([0, block.area() - 1, block.area()]) {
                    lend_each(&mut planes.bytes, planes_lent);
                    lend_each(&mut pair.outs, outs_lent);
                    pair.call(&planes, block.at_phase(&CHROMA, fx, fy));
                }
            }
        }
    }
    pair.tally.finish(&[Source, Output]);
}

/// The plane of the longest sides, the widest margins and the longest rows, filled and read.
#[test]
fn the_largest_plane() {
    let mut luma = Comparison::new("mc_luma_padded, largest", LUMA_ROUTE, 141);
    let g = Geometry { stride: 16384, pad: 128, pw: 8192, ph: 8192 };
    let planes = luma.planes(g, true);
    // The first and the last places that are read in place, and those beyond.
    for place in [-127, -126, 8301, 8302] {
        for (fx, fy) in pairs(0..4) {
            let block = Block::placed(&mut luma.rng, &LUMA, (place, place), (16, 16));
            luma.lend_outputs(&block);
            luma.call(&planes, block.at_phase(&LUMA, fx, fy));
        }
    }
    luma.tally.finish(&[]);
}

/// Document 01's case: a 16x16 picture with margins of 32, and a 16x16 block from (0,0).
#[test]
fn document_01_reads_from_minus_30_to_29() {
    let mut rng = Rng::new(142);
    let g = with_gap((16, 16), 32, 0);
    let picture: Vec<u8> = (0..256).map(|_| rng.next() as u8).collect();
    let mut unfilled: Vec<u8> = (0..80 * 80).map(|_| rng.next() as u8).collect();
    for (y, row) in picture.chunks(16).enumerate() {
        unfilled[(y + 32) * 80 + 32..][..16].copy_from_slice(row);
    }
    let mut plane = unfilled.clone();
    expand_plane(&mut plane, g).unwrap();
    let mut scratch = McScratch::new();
    for (place, phase) in (-60..=60).flat_map(|place| (0..4).map(move |phase| (place, phase))) {
        let reading = if (-30..=29).contains(&place) { Reading::InPlace } else { Reading::Clamped };
        let mv = place * 4 + phase;
        for (mvx, mvy) in [(mv, 0), (0, mv), (mv, 2), (mv, mv)] {
            let block = Block { x0: 0, y0: 0, bw: 16, bh: 16, mvx, mvy };
            let [mut out, mut plain] = [[0; 256]; 2];
            mc_luma_padded(&unfilled, g, 0, 0, 16, 16, mvx, mvy, &mut out).unwrap();
            let window = reading.window(&LUMA, &unfilled, g, &block);
            assert_eq!(out[..], made_of(&LUMA, &window, &block), "{block:?}");

            mc_luma(&picture, 16, 16, 0, 0, 16, 16, mvx, mvy, &mut plain).unwrap();
            mc_luma_padded(&plane, g, 0, 0, 16, 16, mvx, mvy, &mut out).unwrap();
            assert_eq!(out, plain, "{block:?}");
            mc_luma_padded_pre(&mut scratch, &plane, g, 0, 0, 16, 16, mvx, mvy, &mut out).unwrap();
            assert_eq!(out, plain, "{block:?}");
        }
    }
}

#[test]
fn slices_of_nothing() {
    let g = with_gap((1, 1), 0, 0);
    let scratch = &mut McScratch::default();
    assert_eq!(expand_plane(&mut [], g), Err(Source));
    assert_eq!(mc_luma_padded(&[], g, 0, 0, 1, 1, 0, 0, &mut []), Err(Source));
    assert_eq!(mc_luma_padded(&[9], g, 0, 0, 1, 1, 0, 0, &mut []), Err(Output));
    assert_eq!(mc_luma_padded_pre(scratch, &[], g, 0, 0, 1, 1, 0, 0, &mut []), Err(Source));
    assert_eq!(mc_chroma_padded(&[9], g, 0, 0, 1, 1, 0, 0, &mut []), Err(Output));
    let (out_u, out_v) = (&mut [5], &mut []);
    assert_eq!(mc_chroma_padded_pair(&[9], &[], g, 0, 0, 1, 1, 0, 0, out_u, out_v), Err(Source));
    assert_eq!(mc_chroma_padded_pair(&[9], &[9], g, 0, 0, 1, 1, 0, 0, out_u, out_v), Err(Output));
    assert_eq!(out_u, &[5]);
}

#[test]
fn one_plane_lent_twice() {
    let g = with_gap((2, 2), 0, 0);
    let (plane, mut out_u, mut out_v) = ([0, 64, 128, 192], [0], [0]);
    mc_chroma_padded_pair(&plane, &plane, g, 0, 0, 1, 1, 4, 4, &mut out_u, &mut out_v).unwrap();
    assert_eq!((out_u, out_v), ([96], [96]));
}

/// Compares one filling of margins, with what is lent now.
fn compare_expanded(plane: &mut Twin, g: Geometry) -> Result<(), Refusal> {
    let told = |plane: &Twin, what| format!("{what}: {g:?}, length {}", plane.len());
    let expected = lowest(&[geometry(g), padded_source(plane.len(), g)]);
    if expected.is_ok() {
        let ruled = filled(plane.theirs(), g);
        rust::expand_plane(plane.theirs_mut(), g.stride, g.pad, g.pw, g.ph);
        assert!(plane.theirs() == ruled, "{}", told(plane, "the Rust left the rule"));
    }
    let answer = expand_plane(plane.ours_mut(), g);
    assert_eq!(answer, expected, "{}", told(plane, "answer"));
    assert!(plane.agree(), "{}", told(plane, "plane"));
    answer
}

#[test]
fn margins_of_every_pad() {
    let mut rng = Rng::new(143);
    let mut tally = Tally::new("expand_plane, every pad");
    for pad in 0..=128 {
        for sides in [(1, 1), (1, 6), (5, 1), (2, 2), (16, 9), (33, 20)] {
            for gap in [0, 1, 30] {
                let g = with_gap(sides, pad, gap);
                let room = g.stride * rows(g) + rng.pick(&[0, 1, 100]);
                tally.count(compare_expanded(&mut Twin::drawn(&mut rng, room), g));
            }
        }
    }
    tally.finish(&[]);
}

#[test]
fn margins_drawn() {
    let mut rng = Rng::new(144);
    let mut tally = Tally::new("expand_plane, drawn");
    // A plane to fill takes as long as ten blocks.
    for _ in 0..drawn_calls(300_000) / 10 {
        let g = drawn_geometry(&mut rng, 12, 9);
        // One plane in four is lent too short, most of them by little.
        let needed = (g.stride * rows(g)) as i64;
        let less = rng.pick(&[1, 2, g.stride as i64, needed]).min(needed);
        let more = rng.pick(&[0, 0, 100]);
        let lent = needed + rng.pick(&[0, 0, more, -less]);
        tally.count(compare_expanded(&mut Twin::drawn(&mut rng, lent as usize), g));
    }
    tally.finish(&[Source]);
}

#[test]
fn margins_limits() {
    let mut rng = Rng::new(145);
    let mut tally = Tally::new("expand_plane, limits");
    for g in geometries_around() {
        let needed = if geometry(g).1 { 64 } else { g.stride * rows(g) };
        let mut plane = Twin::drawn(&mut rng, needed + 3);
        for lent in around(needed, 3) {
            plane.lend(lent);
            tally.count(compare_expanded(&mut plane, g));
        }
    }
    tally.finish(&[Side, Source]);
}

#[test]
fn margins_longest() {
    let mut rng = Rng::new(146);
    let mut tally = Tally::new("expand_plane, longest");
    for (pw, ph, stride) in [(8192, 1, 8448), (1, 8192, 257), (8192, 24, 16384)] {
        let g = Geometry { stride, pad: 128, pw, ph };
        let mut plane = Twin::drawn(&mut rng, stride * rows(g));
        tally.count(compare_expanded(&mut plane, g));
    }
    tally.finish(&[]);
}
