//! The typed calls against the flat ones: whatever is asked, the same answer and the same bytes.

mod common;

use std::fmt::Debug;

use common::block::{Block, Kind, CHROMA, LUMA};
use common::limits::HUGE;
use common::plane::{rows, with_gap};
use common::tally::Tally;
use common::twin::Twin;
use common::{drawn_calls, pairs, Rng};
use inter::{
    build_hpel_planes, edge_count, expand_plane, hpel_block, hpel_qpel_refs, hpel_qpel_refs_at,
    hpel_ref, hpel_ref_at, mc_chroma, mc_chroma_padded, mc_chroma_padded_pair, mc_luma,
    mc_luma_padded, mc_luma_padded_pre, pad_plane, predict_mv, predict_partition_mv, Geometry,
    HpelBuffers, HpelPlanes, McScratch, Mv, MvNeighbor, Neighbors, PaddedPair, PaddedPlane, Plane,
    Refusal,
};

use Refusal::{BlockSide, Output, Position, Reference, Side, Source, Unserved};

const CALLS: u64 = 50_000;

/// More than any plane or block here needs.
const ROOM: usize = 60 * 50;

/// Drawn arguments, one in a few of which is refused, and what is lent for them.
struct Drawn {
    rng: Rng,
    tally: Tally,
    g: Geometry,
    planes: [Twin; 4],
    outs: [Twin; 4],
}

impl Drawn {
    fn new(name: &'static str, seed: u64) -> Drawn {
        let mut rng = Rng::new(seed);
        let [planes, outs] = [(); 2].map(|()| [(); 4].map(|()| Twin::drawn(&mut rng, ROOM)));
        Drawn { planes, outs, g: with_gap((1, 1), 0, 0), tally: Tally::new(name), rng }
    }

    /// Draws another geometry, with a gap of at most that many samples after its rows.
    fn draw_geometry(&mut self, gap: i64) {
        let rng = &mut self.rng;
        let (mut pw, mut ph) = rng.sides(30, 20);
        let mut pad = rng.within(0, 8) as usize;
        match rng.within(0, 39) {
            0 => pw = rng.outside(8192),
            1 => ph = rng.outside(8192),
            2 => pad = rng.outside(128),
            _ => (),
        }
        let width = pad.saturating_mul(2).saturating_add(pw);
        let stride = width.saturating_add(rng.within(0, gap) as usize);
        self.g = Geometry { stride, pad, pw, ph };
    }

    /// A block in, across or outside of the picture or its margins.
    fn block(&mut self, kind: &Kind) -> Block {
        let rng = &mut self.rng;
        let size = rng.sides(kind.most, kind.most);
        // Near the picture, where there is one.
        let (w, h) = (self.g.pw.clamp(1, 30), self.g.ph.clamp(1, 20));
        let near = with_gap((w, h), self.g.pad.min(8), 0);
        let mut block = Block::drawn_with_margins(rng, kind, near, size);
        match rng.within(0, 39) {
            0 => block.bw = rng.outside(kind.most),
            1 => block.bh = rng.outside(kind.most),
            2 => block.x0 = rng.outside(65535),
            3 => block.y0 = rng.outside(65535),
            _ => (),
        }
        block
    }

    /// Lends the sources and outputs; one in thirty has a byte less than is needed.
    fn lend(&mut self, source: usize, output: usize) {
        let Drawn { rng, planes, outs, .. } = self;
        let twins = planes.iter_mut().map(|plane| (plane, source));
        for (twin, needed) in twins.chain(outs.iter_mut().map(|out| (out, output))) {
            let short = rng.within(0, 29) == 0;
            twin.lend(needed.saturating_sub(short as usize).min(ROOM));
        }
    }

    /// Counts a call once the typed one, on our side of what is lent, is found equal to the flat one.
    fn same<T: PartialEq + Debug>(
        &mut self,
        typed: Result<T, Refusal>,
        flat: Result<T, Refusal>,
        asked: &dyn Debug,
    ) {
        let g = self.g;
        assert_eq!(typed, flat, "{g:?}, {asked:?}");
        let agree = self.planes.iter().chain(&self.outs).all(Twin::agree);
        assert!(agree, "bytes differ: {g:?}, {asked:?}");
        self.tally.count(flat);
    }
}

fn typed(block: Block) -> inter::Block {
    let Block { x0, y0, bw, bh, mvx, mvy } = block;
    inter::Block { x: x0, y: y0, w: bw, h: bh, mv: Mv { x: mvx, y: mvy } }
}

/// The samples of a picture with its margins; the most there can be where they cannot be counted.
fn needed(g: Geometry) -> usize {
    g.stride.saturating_mul(rows(g))
}

type TypedCall = fn(Plane<'_>, inter::Block, &mut [u8]) -> Result<(), Refusal>;
type FlatCall =
    fn(&[u8], usize, usize, usize, usize, usize, usize, i32, i32, &mut [u8]) -> Result<(), Refusal>;

const PLAIN_CALLS: [(Kind, TypedCall, FlatCall); 2] = [
    (LUMA, |plane, block, out| plane.luma(block, out), mc_luma),
    (CHROMA, |plane, block, out| plane.chroma(block, out), mc_chroma),
];

#[test]
fn plain() {
    let mut d = Drawn::new("typed, plain", 300);
    for _ in 0..drawn_calls(CALLS) {
        d.draw_geometry(0);
        let Geometry { pad, pw: w, ph: h, .. } = d.g;
        for (kind, typed_call, flat_call) in PLAIN_CALLS {
            let block = d.block(&kind);
            let Block { x0, y0, bw, bh, mvx, mvy } = block;
            d.lend(w.saturating_mul(h), bw.saturating_mul(bh));
            let ([samples, ..], [out, ..]) = (&d.planes, &mut d.outs);
            let plane = Plane { samples: samples.ours(), w, h };
            let said = typed_call(plane, typed(block), out.ours_mut());
            let (samples, out) = (samples.theirs(), out.theirs_mut());
            let flat = flat_call(samples, w, h, x0, y0, bw, bh, mvx, mvy, out);
            let count = plane.edge_count(typed(block));
            d.same(said, flat, &block);
            d.same(count, edge_count(w, h, x0, y0, bw, bh, mvx, mvy), &block);
        }
        d.lend(w.saturating_mul(h), needed(d.g));
        let ([samples, ..], [out, ..], g) = (&d.planes, &mut d.outs, d.g);
        let plane = Plane { samples: samples.ours(), w, h };
        let said = plane.pad_into(pad, out.ours_mut()).map(|padded| {
            assert_eq!(padded.geometry, g);
            padded.samples.len()
        });
        let flat = pad_plane(samples.theirs(), w, h, pad, out.theirs_mut());
        let flat = flat.map(|()| out.len());
        d.same(said, flat, &"pad_into");
    }
    d.tally.finish(&[Side, Source, BlockSide, Position, Output]);
}

#[test]
fn padded() {
    let mut d = Drawn::new("typed, padded", 301);
    let [mut scratch, mut other] = [McScratch::new(), McScratch::new()];
    for _ in 0..drawn_calls(CALLS) {
        d.draw_geometry(5);
        let g = d.g;

        let block = d.block(&LUMA);
        let Block { x0, y0, bw, bh, mvx, mvy } = block;
        d.lend(needed(g), bw.saturating_mul(bh));
        let ([samples, ..], [out, pre, ..]) = (&d.planes, &mut d.outs);
        let plane = PaddedPlane { samples: samples.ours(), geometry: g };
        let luma = plane.luma(typed(block), out.ours_mut());
        let with = plane.luma_with(&mut scratch, typed(block), pre.ours_mut());
        let (samples, out, pre) = (samples.theirs(), out.theirs_mut(), pre.theirs_mut());
        let flat = mc_luma_padded(samples, g, x0, y0, bw, bh, mvx, mvy, out);
        let flat_pre = mc_luma_padded_pre(&mut other, samples, g, x0, y0, bw, bh, mvx, mvy, pre);
        d.same(luma, flat, &block);
        d.same(with, flat_pre, &block);

        let block = d.block(&CHROMA);
        let Block { x0, y0, bw, bh, mvx, mvy } = block;
        d.lend(needed(g), bw.saturating_mul(bh));
        let ([u, v, ..], [out, out_u, out_v, _]) = (&d.planes, &mut d.outs);
        let plane = PaddedPlane { samples: u.ours(), geometry: g };
        let chroma = plane.chroma(typed(block), out.ours_mut());
        let pair = PaddedPair { u: u.ours(), v: v.ours(), geometry: g };
        let both = pair.chroma(typed(block), out_u.ours_mut(), out_v.ours_mut());
        let (u, v, out) = (u.theirs(), v.theirs(), out.theirs_mut());
        let (out_u, out_v) = (out_u.theirs_mut(), out_v.theirs_mut());
        let flat = mc_chroma_padded(u, g, x0, y0, bw, bh, mvx, mvy, out);
        let flat_both = mc_chroma_padded_pair(u, v, g, x0, y0, bw, bh, mvx, mvy, out_u, out_v);
        d.same(chroma, flat, &block);
        d.same(both, flat_both, &block);

        let [buffer, ..] = &mut d.outs;
        buffer.lend(needed(g).saturating_sub((mvx & 15 == 0) as usize).min(ROOM));
        let len = buffer.len();
        let said = PaddedPlane::expand(buffer.ours_mut(), g).map(|padded| {
            assert_eq!(padded.geometry, g);
            padded.samples.len()
        });
        let flat = expand_plane(buffer.theirs_mut(), g).map(|()| len);
        d.same(said, flat, &"expand");
    }
    d.tally.finish(&[Side, Source, BlockSide, Position, Output]);
}

#[test]
fn half_sample_planes() {
    let mut d = Drawn::new("typed, half-sample planes", 302);
    for _ in 0..drawn_calls(CALLS) / 10 {
        d.draw_geometry(0);
        let Geometry { pad, pw: w, ph: h, .. } = d.g;
        d.lend(w.saturating_mul(h), needed(d.g));
        let ([samples, ..], outs) = (&d.planes, &mut d.outs);
        let plane = Plane { samples: samples.ours(), w, h };
        let told =
            |p: HpelPlanes<'_>| ([p.f, p.h, p.v, p.c].map(<[u8]>::to_vec), (p.cw, p.ch, p.pad));
        let said = HpelPlanes::build(plane, pad, outs.each_mut().map(Twin::ours_mut)).map(told);
        let [f, across, v, c] = outs.each_mut().map(Twin::theirs_mut);
        let flat = build_hpel_planes(samples.theirs(), w, h, pad, f, across, v, c).map(told);
        // Planes of its own are never too short, and hold what is needed.
        match HpelBuffers::build(plane, pad) {
            Err(refusal) => assert_eq!(Err(refusal), flat.clone().map(|_| ())),
            Ok(own) => {
                let own = told(own.planes());
                assert!(own.0.iter().all(|plane| plane.len() == needed(d.g)));
                if let Ok((planes, numbers)) = &flat {
                    assert!(own.0.iter().zip(planes).all(|(own, plane)| plane.starts_with(own)));
                    assert_eq!(own.1, *numbers);
                }
            }
        }
        d.same(said, flat, &"build");

        for _ in 0..10 {
            let block = d.block(&LUMA);
            d.lend(needed(d.g), block.bw.saturating_mul(block.bh));
            half_sample_block(&mut d, block);
        }
    }
    d.tally.finish(&[Side, Source, BlockSide, Position, Output, Unserved]);
}

fn half_sample_block(d: &mut Drawn, block: Block) {
    let Block { x0, y0, bw, bh, mvx, mvy } = block;
    let Geometry { pad, pw, ph, .. } = d.g;
    let (sources, [out, ..]) = (d.planes.each_ref().map(Twin::ours), &mut d.outs);
    let [f, h, v, c] = sources;
    let p = HpelPlanes { f, h, v, c, cw: pw, ch: ph, pad };
    let planes = HpelPlanes::new(sources, pw, ph, pad);
    assert_eq!((planes.geometry().pw, planes.geometry().ph, planes.geometry().pad), (pw, ph, pad));
    let asked = typed(block);

    let said = planes.block(asked, out.ours_mut());
    let flat = hpel_block(p, x0, y0, bw, bh, mvx, mvy, out.theirs_mut());
    let flat_view = hpel_ref(p, x0, y0, bw, bh, mvx, mvy);
    assert_eq!(planes.reference(asked), flat_view, "{block:?}");
    let flat_views = hpel_qpel_refs(p, x0, y0, bw, bh, mvx, mvy);
    assert_eq!(planes.quarter_references(asked), flat_views, "{block:?}");
    let spot = planes.spot(asked);
    let flat_spot = hpel_ref_at(p, x0, y0, bw, bh, mvx, mvy);
    let spots = planes.quarter_spots(asked);
    let flat_spots = hpel_qpel_refs_at(p, x0, y0, bw, bh, mvx, mvy);
    d.same(said, flat, &block);
    d.same(spot, flat_spot, &block);
    d.same(spots, flat_spots, &block);
}

#[test]
fn vectors() {
    let mut rng = Rng::new(303);
    let mut tally = Tally::new("typed, vectors");
    for _ in 0..drawn_calls(CALLS) {
        let [left, above, above_right] = std::array::from_fn(|_| MvNeighbor {
            available: rng.within(0, 2) != 0,
            mv: Mv { x: rng.any_i32(), y: rng.any_i32() },
            ref_idx: rng.within(-1, 2) as i32,
        });
        let neighbors = Neighbors { left, above, above_right };
        let cur_ref = rng.pick(&[0, 1, 2, 31, 32, -1]);
        let said = neighbors.predict(cur_ref);
        assert_eq!(said, predict_mv(left, above, above_right, cur_ref), "{neighbors:?}");
        tally.count(said);
        let (mode, part) = (rng.within(0, 4) as u8, rng.within(0, 3) as usize);
        let said = neighbors.predict_part(mode, part, cur_ref);
        let flat = predict_partition_mv(mode, part, left, above, above_right, cur_ref);
        assert_eq!(said, flat, "mode {mode} part {part} {neighbors:?}");
        tally.count(said);
    }
    tally.finish(&[Reference]);
}

/// Every geometry that is made is the one that is meant, and where the numbers are outside their
/// ranges it can be made and is refused.
#[test]
fn geometries() {
    for ((w, h), pad) in pairs(1..20).flat_map(|sides| (0..9).map(move |pad| (sides, pad))) {
        let g = Geometry::tight(w, h, pad);
        assert_eq!(g, Geometry { stride: w + 2 * pad, pad, pw: w, ph: h });
        let wider = g.with_stride(g.stride + 3);
        assert_eq!(wider, with_gap((w, h), pad, 3));
        for g in [g, wider] {
            assert_eq!((g.rows(), g.needed()), (h + 2 * pad, g.stride * (h + 2 * pad)));
            // The picture's rows are what filling the margins leaves as it was.
            let mut buffer = vec![7; g.needed()];
            for y in 0..h {
                buffer[g.row(y)].fill(9);
            }
            PaddedPlane::expand(&mut buffer, g).expect("the buffer is long enough");
            assert!((0..g.rows())
                .all(|y| buffer[y * g.stride..][..w + 2 * pad] == vec![9; w + 2 * pad]));
        }
    }
    let numbers = [&[0, 1, 8193, 1 << 63], &HUGE[..]].concat();
    for ((w, h), &pad) in pairs(numbers.clone()).flat_map(|at| numbers.iter().map(move |n| (at, n)))
    {
        let g = Geometry::tight(w, h, pad);
        let most = |side: usize| (side as u128 + 2 * pad as u128).min(usize::MAX as u128) as usize;
        assert_eq!((g.stride, g.rows()), (most(w), most(h)));
        if (w, h) != (1, 1) || pad > 128 {
            assert_eq!(expand_plane(&mut [0; 9], g), Err(Side), "{g:?}");
        }
    }
}
