//! Half-sample planes, how they are built and how blocks are found in them, against the oracle and
//! against document 01's rules for both.

mod common;

use common::block::{drawn_picture, Block, LUMA};
use common::hpel::{planes_of, spots, Frame, Phase, INSIDE};
use common::limits::{
    around, block_side, frame_side, lowest, output, plane_output, plane_source, position, source,
    HUGE, POSITIONS,
};
use common::tally::Tally;
use common::twin::Twin;
use common::{drawn_calls, pairs, say, Rng};
use inter::ffi::{self, HpelAt, HpelPair};
use inter::{
    avg_row_into, build_hpel_planes, expand_plane, hpel_block, hpel_qpel_refs, hpel_qpel_refs_at,
    hpel_ref, hpel_ref_at, mc_luma, mc_luma_padded, pad_plane, HpelPlanes, HpelSpot, Refusal, View,
};
use oracle::inter as rust;

use Refusal::{BlockSide, Output, Position, Side, Source, Unserved};

/// What a call found: nothing, one block or two, each with the plane from there on.
type Found<'a> = [Option<(HpelSpot, &'a [u8])>; 2];

type Ours = for<'a> fn(HpelPlanes<'a>, Block, &mut [u8]) -> Result<Found<'a>, Refusal>;
type Theirs = for<'a> fn(&'a rust::HpelPlanes, Block, &mut [u8]) -> Option<Found<'a>>;

/// One of the calls that read the planes.
struct Reader {
    ours: Ours,
    theirs: Theirs,
    /// Whether it serves a phase, for a block of that width inside the planes.
    serves: fn(Phase, usize) -> bool,
    /// How many blocks it finds; the one that finds none writes one.
    finds: usize,
    refusals: &'static [Refusal],
}

const REF: Reader = Reader {
    ours: |p, block, _| {
        let Block { x0, y0, bw, bh, mvx, mvy } = block;
        let spot = hpel_ref_at(p, x0, y0, bw, bh, mvx, mvy);
        let expected = match spot {
            Ok(HpelSpot { plane, offset, stride }) => HpelAt { refusal: 0, plane, offset, stride },
            Err(no) => HpelAt { refusal: no.number(), plane: 0, offset: 0, stride: 0 },
        };
        assert_eq!(record_of_ref(p, block), expected, "record: {block:?}");
        let view = hpel_ref(p, x0, y0, bw, bh, mvx, mvy);
        assert_eq!(spot.err(), view.err(), "view: {block:?}");
        Ok([Some(found(spot?, view?)), None])
    },
    theirs: |p, block, _| {
        let Block { x0, y0, bw, bh, mvx, mvy } = block;
        let (plane, offset, stride) = rust::hpel_ref(p, x0, y0, bw, bh, mvx, mvy)?;
        Some([Some(found_by_rust(p, plane, offset, stride)), None])
    },
    serves: |phase, _| phase != Phase::Quarter,
    finds: 1,
    refusals: &[Side, Source, BlockSide, Position, Unserved],
};

const QPEL_REFS: Reader = Reader {
    ours: |p, block, _| {
        let Block { x0, y0, bw, bh, mvx, mvy } = block;
        let spots = hpel_qpel_refs_at(p, x0, y0, bw, bh, mvx, mvy);
        let expected = match spots {
            Ok([a, b]) => {
                let (plane_a, plane_b) = (a.plane, b.plane);
                let (offset_a, offset_b, stride) = (a.offset, b.offset, a.stride);
                HpelPair { refusal: 0, plane_a, plane_b, offset_a, offset_b, stride }
            }
            Err(no) => HpelPair {
                refusal: no.number(),
                plane_a: 0,
                plane_b: 0,
                offset_a: 0,
                offset_b: 0,
                stride: 0,
            },
        };
        assert_eq!(record_of_qpel_refs(p, block), expected, "record: {block:?}");
        let views = hpel_qpel_refs(p, x0, y0, bw, bh, mvx, mvy);
        assert_eq!(spots.err(), views.err(), "views: {block:?}");
        let ([a, b], [view_a, view_b]) = (spots?, views?);
        Ok([Some(found(a, view_a)), Some(found(b, view_b))])
    },
    theirs: |p, block, _| {
        let Block { x0, y0, bw, bh, mvx, mvy } = block;
        let (a, at_a, b, at_b, stride) = rust::hpel_qpel_refs(p, x0, y0, bw, bh, mvx, mvy)?;
        let found = |plane, offset| Some(found_by_rust(p, plane, offset, stride));
        Some([found(a, at_a), found(b, at_b)])
    },
    serves: |phase, _| phase == Phase::Quarter,
    finds: 2,
    refusals: &[Side, Source, BlockSide, Position, Unserved],
};

const BLOCK: Reader = Reader {
    ours: |p, block, out| {
        let Block { x0, y0, bw, bh, mvx, mvy } = block;
        hpel_block(p, x0, y0, bw, bh, mvx, mvy, out).map(|()| [None; 2])
    },
    theirs: |p, block, out| {
        let Block { x0, y0, bw, bh, mvx, mvy } = block;
        rust::hpel_block(p, x0, y0, bw, bh, mvx, mvy, out).then_some([None; 2])
    },
    serves: |phase, bw| match phase {
        Phase::Full => false,
        Phase::Half => true,
        Phase::Quarter => [4, 8, 16].contains(&bw),
    },
    finds: 0,
    refusals: &[Side, Source, BlockSide, Position, Output, Unserved],
};

fn found(spot: HpelSpot, view: View<'_>) -> (HpelSpot, &[u8]) {
    assert_eq!(spot.stride, view.stride);
    (spot, view.samples)
}

/// The oracle names no plane, so it is known by where it lies.
fn found_by_rust<'a>(
    p: &rust::HpelPlanes,
    plane: &'a [u8],
    offset: usize,
    stride: usize,
) -> (HpelSpot, &'a [u8]) {
    let number = [&p.f, &p.h, &p.v, &p.c].iter().position(|known| known.as_ptr() == plane.as_ptr());
    let plane_number = number.expect("one of the four planes") as u32;
    (HpelSpot { plane: plane_number, offset, stride }, &plane[offset..])
}

/// The call of C with the planes and the block.
macro_rules! raw {
    ($call:ident, $planes:expr, $block:expr) => {{
        let HpelPlanes { f, h, v, c, cw, ch, pad } = $planes;
        let Block { x0, y0, bw, bh, mvx, mvy } = $block;
        let [fp, hp, vp, cp] = [f, h, v, c].map(<[u8]>::as_ptr);
        let [fl, hl, vl, cl] = [f, h, v, c].map(<[u8]>::len);
        // SAFETY: each pointer and its length are those of one borrowed slice.
        unsafe { ffi::$call(fp, fl, hp, hl, vp, vl, cp, cl, cw, ch, pad, x0, y0, bw, bh, mvx, mvy) }
    }};
}

fn record_of_ref(p: HpelPlanes, block: Block) -> HpelAt {
    raw!(inter_hpel_ref, p, block)
}

fn record_of_qpel_refs(p: HpelPlanes, block: Block) -> HpelPair {
    raw!(inter_hpel_qpel_refs, p, block)
}

/// The planes of a call: f, h, v and c.
struct Planes {
    bytes: [Twin; 4],
    frame: Frame,
    /// The same for the oracle, which owns its planes; as long as the longest that can be lent.
    theirs: rust::HpelPlanes,
}

impl Planes {
    fn new(bytes: [Twin; 4], frame: Frame) -> Planes {
        let [f, h, v, c] = bytes.each_ref().map(|plane| plane.theirs().to_vec());
        let theirs = rust::HpelPlanes { f, h, v, c, stride: 0, pad: 0, pw: 0, ph: 0, cw: 0, ch: 0 };
        let mut planes = Planes { bytes, frame, theirs };
        planes.set(frame);
        planes
    }

    /// From now on the same bytes are the planes of a picture of other sides.
    fn set(&mut self, frame: Frame) {
        self.frame = frame;
        let rust::HpelPlanes { stride, pad, pw, ph, cw, ch, .. } = &mut self.theirs;
        (*pw, *ph, *stride) = (frame.wide(), frame.high(), frame.wide());
        (*cw, *ch, *pad) = (frame.cw, frame.ch, frame.pad);
    }

    fn ours(&self) -> HpelPlanes<'_> {
        let [f, h, v, c] = self.bytes.each_ref().map(Twin::ours);
        let Frame { cw, ch, pad } = self.frame;
        HpelPlanes { f, h, v, c, cw, ch, pad }
    }

    fn told(&self, what: &str, block: &Block, out: &Twin) -> String {
        let lent = self.bytes.each_ref().map(Twin::len);
        format!("{what}: {:?}, {block:?}, planes of {lent:?}, output {}", self.frame, out.len())
    }
}

impl Drop for Planes {
    /// Whatever was called, no plane was written to.
    fn drop(&mut self) {
        let unchanged = self.bytes.iter().all(Twin::agree);
        assert!(std::thread::panicking() || unchanged, "a plane changed: {:?}", self.frame);
    }
}

/// One comparison: a call, its output, and what was counted.
struct Comparison {
    name: &'static str,
    reader: Reader,
    out: Twin,
    tally: Tally,
    /// How many blocks were served, by fy and then fx.
    served: [u64; 16],
    rng: Rng,
}

impl Comparison {
    fn new(name: &'static str, reader: Reader, seed: u64) -> Comparison {
        let mut rng = Rng::new(seed);
        Comparison {
            out: Twin::drawn(&mut rng, 16 * 16 + 40),
            tally: Tally::new(name),
            served: [0; 16],
            name,
            reader,
            rng,
        }
    }

    /// New planes, lent exactly or with more bytes after them: those of a picture, or any bytes.
    fn planes(&mut self, frame: Frame, built: bool) -> Planes {
        let rng = &mut self.rng;
        let mut bytes = [(); 4].map(|()| {
            let more = rng.pick(&[0, 0, 1, 100]);
            Twin::drawn(rng, frame.bytes() + more)
        });
        if built {
            let picture = drawn_picture(rng, frame.cw, frame.ch);
            let picture = Twin::holding(rng, &picture, 0);
            compare_built(&picture, frame, &mut bytes).expect("everything is long enough");
        }
        Planes::new(bytes, frame)
    }

    /// Lends an output that is exactly long enough, or longer.
    fn lend_output(&mut self, block: &Block) {
        let more = self.rng.pick(&[0, 0, 1, 40]);
        self.out.lend(block.area() + more);
    }

    /// The answer by document 01's table.
    fn expected(&self, planes: &Planes, block: &Block) -> Result<(), Refusal> {
        let (reader, frame) = (&self.reader, planes.frame);
        let [f, h, v, c] = planes.bytes.each_ref().map(|plane| plane_source(plane.len(), frame));
        let given = [frame_side(frame), f, h, v, c, block_side(&LUMA, block), position(block)];
        lowest(&given)?;
        if reader.finds == 0 {
            lowest(&[output(self.out.len(), block.bw, block.bh)])?;
        }
        let phase = Phase::of(block.phase(&LUMA));
        let served = frame.holds(block) && (reader.serves)(phase, block.bw);
        lowest(&[(Unserved, !served)])
    }

    /// Compares one call, with what is lent now.
    fn call(&mut self, planes: &Planes, block: Block) {
        self.out.fill(self.rng.next() as u8);
        let expected = self.expected(planes, &block);
        // Outside the limits the oracle panics or answers, so there nothing may change.
        let theirs = match expected {
            Ok(()) | Err(Unserved) => self.call_theirs(planes, block, expected),
            Err(_) => None,
        };
        let Comparison { reader, out, tally, served, .. } = self;
        let ours = (reader.ours)(planes.ours(), block, out.ours_mut());
        let told = |what| planes.told(what, &block, out);
        assert_eq!(ours.map(|_| ()), expected, "{}", told("answer"));
        assert!(out.agree(), "{}", told("output"));
        if let (Ok(ours), Some(theirs)) = (ours, theirs) {
            for (ours, theirs) in ours.iter().zip(theirs) {
                assert_eq!(
                    ours.map(|found| found.0),
                    theirs.map(|found| found.0),
                    "{}",
                    told("spot")
                );
                if let (Some((spot, ours)), Some((_, theirs))) = (ours, theirs) {
                    // The oracle's plane may be longer than what is lent here.
                    let left = planes.bytes[spot.plane as usize].len() - spot.offset;
                    assert!(*ours == &theirs[..left], "{}", told("view"));
                }
            }
            let (fx, fy) = block.phase(&LUMA);
            served[(fy * 4 + fx) as usize] += 1;
        }
        tally.count(ours);
    }

    /// The oracle's call, which must serve what document 01's rule says and find it there.
    fn call_theirs<'a>(
        &mut self,
        planes: &'a Planes,
        block: Block,
        expected: Result<(), Refusal>,
    ) -> Option<Found<'a>> {
        let Comparison { reader, out, tally, .. } = self;
        let theirs = (reader.theirs)(&planes.theirs, block, out.theirs_mut());
        let told = |what| planes.told(what, &block, out);
        assert_eq!(theirs.is_some(), expected.is_ok(), "{}", told("the Rust serves another"));
        if let Some(found) = theirs {
            let spots = spots(planes.frame, &block);
            let ruled = spots.into_iter().map(Some).take(reader.finds);
            let found = found.into_iter().map(|found| found.map(|found| found.0));
            assert!(found.take(reader.finds).eq(ruled), "{}", told("the Rust left the rule"));
            if reader.finds == 0 {
                let sample = |spot: HpelSpot, at: usize| {
                    let plane = planes.bytes[spot.plane as usize].ours();
                    plane[spot.offset + at / block.bw * spot.stride + at % block.bw] as u32
                };
                let mean = |at| (spots.map(|spot| sample(spot, at)).iter().sum::<u32>() + 1) >> 1;
                let ruled = (0..block.area()).map(|at| mean(at) as u8);
                let written = out.theirs()[..block.area()].iter().copied();
                assert!(written.eq(ruled), "{}", told("the Rust left the rule"));
            }
        }
        tally.count_phase(&LUMA, &block);
        theirs
    }

    /// A call in each phase, on a drawn place each time, and if it can be on one that is served.
    fn every_phase(&mut self, planes: &Planes, size: (usize, usize)) {
        let frame = planes.frame;
        for (fx, fy) in pairs(0..4) {
            let rng = &mut self.rng;
            let drawn = Block::drawn_with_margins(rng, &INSIDE, frame.geometry(), size);
            let inside = frame.block_inside(rng, size);
            for block in [Some(drawn), inside].into_iter().flatten() {
                self.lend_output(&block);
                self.call(planes, block.at_phase(&LUMA, fx, fy));
            }
        }
    }

    /// Every size and phase, in each of a few pictures, with planes of both kinds.
    fn every_size_and_phase(mut self) {
        let frames = [
            Frame { cw: 1, ch: 1, pad: 0 },
            Frame { cw: 1, ch: 1, pad: 3 },
            Frame { cw: 2, ch: 7, pad: 12 },
            Frame { cw: 9, ch: 5, pad: 9 },
            Frame { cw: 16, ch: 16, pad: 32 },
            Frame { cw: 30, ch: 21, pad: 0 },
            Frame { cw: 37, ch: 40, pad: 24 },
        ];
        for frame in frames {
            for built in [false, true] {
                let planes = self.planes(frame, built);
                for size in pairs(1..=16) {
                    self.every_phase(&planes, size);
                }
            }
        }
        self.finish(&[Unserved]);
    }

    /// Every pad and phase, with planes of both kinds.
    fn every_pad(mut self) {
        for pad in 0..=128 {
            for built in [false, true] {
                let (cw, ch) = self.rng.sides(40, 30);
                let planes = self.planes(Frame { cw, ch, pad }, built);
                for bw in [1, 4, 8, 16, 13] {
                    let bh = self.rng.within(1, 16) as usize;
                    self.every_phase(&planes, (bw, bh));
                }
            }
        }
        self.finish(&[Unserved]);
    }

    /// On both axes each place next to where the planes or the picture end, in every phase.
    fn edges_of_reach(mut self) {
        for pad in [0, 1, 2, 5, 32, 128] {
            for size in [(1, 1), (16, 16), (8, 3), (4, 16), (5, 7)] {
                let frame = Frame { cw: 21, ch: 18, pad };
                let planes = self.planes(frame, pad % 2 == 0);
                let places = |block: usize, side: usize| {
                    let (first, last) = frame.reach(side, block);
                    let end = side as i64 - block as i64;
                    [first - 1, first, first + 1, -1, 0, end, last - 1, last, last + 1, last + 2]
                };
                for ix in places(size.0, frame.cw) {
                    for iy in places(size.1, frame.ch) {
                        for (fx, fy) in pairs(0..4) {
                            let block = Block::placed(&mut self.rng, &LUMA, (ix, iy), size);
                            self.lend_output(&block);
                            self.call(&planes, block.at_phase(&LUMA, fx, fy));
                        }
                    }
                }
            }
        }
        self.finish(&[Unserved]);
    }

    /// Vectors and positions at their ends, in every combination.
    fn ends(mut self) {
        let planes = self.planes(Frame { cw: 40, ch: 40, pad: 128 }, false);
        let low = (0..5).map(|more| i32::MIN + more);
        let ends: Vec<i32> = low.chain((0..5).map(|less| i32::MAX - less)).chain(0..4).collect();
        for (mvx, mvy) in pairs(ends) {
            for (x0, y0) in pairs([0, 1, 65534, 65535]) {
                for (bw, bh) in [(1, 1), (4, 16), (16, 8)] {
                    let block = Block { x0, y0, bw, bh, mvx, mvy };
                    self.lend_output(&block);
                    self.call(&planes, block);
                }
            }
        }
        self.finish(&[Unserved]);
    }

    /// Drawn pictures, sizes, places and vectors.
    fn drawn(mut self) {
        let mut left = drawn_calls(600_000);
        while left > 0 {
            let frame = Frame::drawn(&mut self.rng, 40, 30);
            let built = self.rng.pick(&[false, true]);
            let planes = self.planes(frame, built);
            for _ in 0..left.min(200) {
                let (bw, bh) = self.rng.sides(16, 16);
                let size = (self.rng.pick(&[bw, 4, 8, 16]), bh);
                let rng = &mut self.rng;
                let drawn = Block::drawn_with_margins(rng, &INSIDE, frame.geometry(), size);
                let block = match rng.within(0, 1) {
                    0 => drawn,
                    _ => frame.block_inside(rng, size).unwrap_or(drawn),
                };
                self.lend_output(&block);
                self.call(&planes, block);
            }
            left = left.saturating_sub(200);
        }
        self.finish(&[Unserved]);
    }

    /// Drawn calls, each with up to three arguments spoilt.
    fn faults(mut self) {
        let mut planes = self.planes(Frame { cw: 60, ch: 60, pad: 10 }, false);
        for _ in 0..drawn_calls(300_000) {
            let (cw, ch) = self.rng.sides(30, 30);
            let frame = Frame { cw, ch, pad: self.rng.within(0, 9) as usize };
            planes.set(frame);
            for plane in &mut planes.bytes {
                plane.lend(frame.bytes() + self.rng.pick(&[0, 0, 40]));
            }
            let (bw, bh) = self.rng.sides(16, 16);
            let size = (self.rng.pick(&[bw, 4, 8, 16]), bh);
            let drawn = Block::drawn_with_margins(&mut self.rng, &INSIDE, frame.geometry(), size);
            let mut block = frame.block_inside(&mut self.rng, size).unwrap_or(drawn);
            self.lend_output(&block);
            for _ in 0..self.rng.within(1, 3) {
                self.spoil(&mut planes, &mut block);
            }
            self.call(&planes, block);
        }
        let refusals = self.reader.refusals;
        self.finish(refusals);
    }

    /// Spoils one argument. Some still serve, as a narrower picture in planes for a wider one.
    fn spoil(&mut self, planes: &mut Planes, block: &mut Block) {
        let Comparison { out, rng, .. } = self;
        let mut frame = planes.frame;
        match rng.within(0, 14) {
            0 => frame.cw = rng.outside(8192),
            1 => frame.ch = rng.outside(8192),
            2 => frame.pad = rng.outside(128),
            3 => frame.cw = rng.within(1, 30) as usize,
            4 => block.bw = rng.outside(16),
            5 => block.bh = rng.outside(16),
            6 => block.x0 = rng.outside(65535),
            7 => block.y0 = rng.outside(65535),
            8 => block.mvx = rng.any_i32(),
            9 => block.mvy = rng.any_i32(),
            10 | 11 => {
                let one = rng.within(0, 3) as usize;
                shorten(&mut planes.bytes[one], rng);
            }
            _ => shorten(out, rng),
        }
        planes.set(frame);
    }

    /// Every picture around the limits, with a few planes and blocks around their own. Where the
    /// picture is served, every phase is.
    fn limits(mut self) {
        for frame in frames_around() {
            let refused = frame_side(frame).1;
            // Where the picture is refused any length will do.
            let needed = if refused { 64 } else { frame.bytes() };
            let mut planes = if refused {
                Planes::new([(); 4].map(|()| Twin::drawn(&mut self.rng, needed)), frame)
            } else {
                let planes = self.planes(frame, false);
                let size = self.rng.sides(16, 16);
                self.every_phase(&planes, (4, 4));
                self.every_phase(&planes, size);
                planes
            };
            for _ in 0..if refused { 8 } else { 300 } {
                for plane in &mut planes.bytes {
                    let [none, less, exact, _] = around(needed, 0);
                    plane.lend(self.rng.pick(&[exact, exact, exact, exact, exact, less, none]));
                }
                let block = self.block_around();
                self.call(&planes, block);
            }
        }
        let refusals = self.reader.refusals;
        self.finish(refusals);
    }

    /// A block around the limits, and an output around what it needs.
    fn block_around(&mut self) -> Block {
        let Comparison { out, rng, .. } = self;
        let sides = [&[1, 1, 4, 16, 16, 0, 17], &HUGE[..]].concat();
        let [bw, bh] = [(); 2].map(|()| rng.pick(&sides));
        let [x0, y0] = [(); 2].map(|()| rng.pick(&POSITIONS));
        let [mvx, mvy] = [(); 2].map(|()| rng.any_i32());
        let needed = bw.saturating_mul(bh).min(out.room() - 2);
        out.lend(rng.pick(&around(needed, 2)));
        Block { x0, y0, bw, bh, mvx, mvy }
    }

    /// Pictures with the longest sides.
    fn longest(mut self) {
        let frames = [
            Frame { cw: 8192, ch: 2, pad: 0 },
            Frame { cw: 1, ch: 8192, pad: 128 },
            Frame { cw: 8192, ch: 24, pad: 128 },
        ];
        for frame in frames {
            let planes = self.planes(frame, false);
            for bw in [1, 4, 16, 16] {
                let bh = self.rng.within(1, 16) as usize;
                self.every_phase(&planes, (bw, bh));
            }
        }
        self.finish(&[Unserved]);
    }

    /// Every choice of planes that are one byte short, in every phase, inside and outside.
    fn short_planes(mut self) {
        let frame = Frame { cw: 9, ch: 7, pad: 3 };
        let mut planes = self.planes(frame, false);
        for short in 0..16 {
            for (number, plane) in planes.bytes.iter_mut().enumerate() {
                plane.lend(frame.bytes() - (short >> number & 1));
            }
            for size in [(4, 4), (1, 1), (8, 8), (16, 2)] {
                self.every_phase(&planes, size);
            }
        }
        self.finish(&[Source, Unserved]);
    }

    /// To be called once every answer was found equal: says the counts, and that no refusal and no
    /// phase that the call serves was left out.
    fn finish(self, refusals: &[Refusal]) {
        let Comparison { name, reader, tally, served, .. } = self;
        tally.finish(refusals);
        let calls: u64 = served.iter().sum();
        say(&format!("{name}: {calls} served by phase, fx within fy {served:?}"));
        for (fy, fx) in pairs(0..4) {
            let served = served[(fy * 4 + fx) as usize] > 0;
            let serves = (reader.serves)(Phase::of((fx, fy)), 16);
            assert_eq!(served, serves, "{name}: ({fx},{fy}) was left out");
        }
    }
}

/// Lends one byte less of it, or any number up to what was lent.
fn shorten(twin: &mut Twin, rng: &mut Rng) {
    let any = rng.within(0, twin.len() as i64) as usize;
    twin.lend(rng.pick(&[twin.len().saturating_sub(1), any]));
}

/// Every combination of values on either side of each limit.
fn frames_around() -> Vec<Frame> {
    let widths = [&[0, 1, 5, 8192, 8193], &HUGE[..]].concat();
    let heights = [&[0, 1, 4, 8193], &HUGE[..]].concat();
    // Twice the third is 0 in 64 bits.
    let pads = [&[0, 9, 1 << 63, 128, 129], &HUGE[..]].concat();
    let mut frames = Vec::new();
    for &cw in &widths {
        for &ch in &heights {
            frames.extend(pads.iter().map(|&pad| Frame { cw, ch, pad }));
        }
    }
    frames
}

macro_rules! compare {
    ($module:ident, $call:literal, $reader:expr, $seed:literal) => {
        mod $module {
            use super::*;

            #[test]
            fn every_size_and_phase() {
                let name = concat!($call, ", every size and phase");
                Comparison::new(name, $reader, $seed).every_size_and_phase();
            }

            #[test]
            fn every_pad() {
                Comparison::new(concat!($call, ", every pad"), $reader, $seed + 1).every_pad();
            }

            #[test]
            fn edges_of_reach() {
                let name = concat!($call, ", edges of reach");
                Comparison::new(name, $reader, $seed + 2).edges_of_reach();
            }

            #[test]
            fn ends() {
                Comparison::new(concat!($call, ", ends"), $reader, $seed + 3).ends();
            }

            #[test]
            fn drawn() {
                Comparison::new(concat!($call, ", drawn"), $reader, $seed + 4).drawn();
            }

            #[test]
            fn faults() {
                Comparison::new(concat!($call, ", faults"), $reader, $seed + 5).faults();
            }

            #[test]
            fn limits() {
                Comparison::new(concat!($call, ", limits"), $reader, $seed + 6).limits();
            }

            #[test]
            fn longest() {
                Comparison::new(concat!($call, ", longest"), $reader, $seed + 7).longest();
            }

            #[test]
            fn short_planes() {
                let name = concat!($call, ", short planes");
                Comparison::new(name, $reader, $seed + 8).short_planes();
            }
        }
    };
}

compare!(one, "hpel_ref", REF, 200);
compare!(two, "hpel_qpel_refs", QPEL_REFS, 210);
compare!(block, "hpel_block", BLOCK, 220);

/// A short output is refused before a block that is not served, for each reason there is.
#[test]
fn a_short_output_comes_before_an_unserved_block() {
    let mut block = Comparison::new("hpel_block, short outputs", BLOCK, 230);
    let planes = block.planes(Frame { cw: 20, ch: 20, pad: 2 }, false);
    for (place, bw) in [(3, 4), (3, 5), (-3, 4), (60, 4)] {
        for (fx, fy) in pairs(0..4) {
            for (ix, iy) in [(place, 3), (3, place), (place, place)] {
                let moved = Block::placed(&mut block.rng, &LUMA, (ix, iy), (bw, 6));
                for lent in around(moved.area(), 1) {
                    block.out.lend(lent);
                    block.call(&planes, moved.at_phase(&LUMA, fx, fy));
                }
            }
        }
    }
    block.finish(&[Output, Unserved]);
}

/// Document 01's case: a 16x16 picture with margins of 32, and a 16x16 block from (0,0).
#[test]
fn document_01_serves_126_and_not_130() {
    let mut block = Comparison::new("hpel_block, document 01", BLOCK, 231);
    let planes = block.planes(Frame { cw: 16, ch: 16, pad: 32 }, false);
    for (mvx, served) in
        [(126, Ok(())), (-126, Ok(())), (130, Err(Unserved)), (-130, Err(Unserved))]
    {
        for (mvx, mvy) in [(mvx, 0), (0, mvx), (mvx, mvx)] {
            let mut out = [0; 256];
            assert_eq!(hpel_block(planes.ours(), 0, 0, 16, 16, mvx, mvy, &mut out), served);
        }
    }
    // And so every vector between and a little beyond.
    for (mv, other) in (-140..=140).flat_map(|mv| (0..4).map(move |other| (mv, other))) {
        for (mvx, mvy) in [(mv, other), (other, mv), (mv, mv)] {
            let moved = Block { x0: 0, y0: 0, bw: 16, bh: 16, mvx, mvy };
            block.lend_output(&moved);
            block.call(&planes, moved);
        }
    }
    block.finish(&[Unserved]);
}

#[test]
fn slices_of_nothing() {
    let p = HpelPlanes { f: &[], h: &[], v: &[], c: &[], cw: 1, ch: 1, pad: 0 };
    assert_eq!(pad_plane(&[], 1, 1, 0, &mut []), Err(Source));
    assert_eq!(pad_plane(&[9], 1, 1, 0, &mut []), Err(Output));
    let (none, one) = (&mut [][..], [(); 3].map(|()| vec![7; 1]));
    let [mut h, mut v, mut c] = one;
    let answer = build_hpel_planes(&[9], 1, 1, 0, none, &mut h, &mut v, &mut c);
    assert_eq!(answer.err(), Some(Output));
    assert_eq!((h, v, c), (vec![7], vec![7], vec![7]));
    assert_eq!(hpel_ref_at(p, 0, 0, 1, 1, 0, 0), Err(Source));
    assert_eq!(hpel_ref(p, 0, 0, 1, 1, 0, 0), Err(Source));
    assert_eq!(hpel_qpel_refs_at(p, 0, 0, 1, 1, 1, 0), Err(Source));
    assert_eq!(hpel_qpel_refs(p, 0, 0, 1, 1, 1, 0), Err(Source));
    assert_eq!(hpel_block(p, 0, 0, 1, 1, 2, 0, &mut []), Err(Source));
    let nine = [9; 9];
    let p = HpelPlanes { f: &nine, h: &nine, v: &nine, c: &nine, cw: 1, ch: 1, pad: 1 };
    assert_eq!(hpel_block(p, 0, 0, 1, 1, 2, 0, &mut []), Err(Output));
}

/// The planes of the longest sides and the widest margins; one plane is lent four times.
#[test]
fn the_largest_planes() {
    let frame = Frame { cw: 8192, ch: 8192, pad: 128 };
    let one: Vec<u8> = (0..frame.bytes()).map(|at| (at % 251) as u8).collect();
    let mut p = HpelPlanes { f: &one, h: &one, v: &one, c: &one, cw: 8192, ch: 8192, pad: 128 };
    let mut rng = Rng::new(232);
    let last = frame.reach(8192, 16).1;
    for (fx, fy) in pairs(0..4) {
        for (ix, iy) in pairs([-128, last]) {
            let block = Block::placed(&mut rng, &LUMA, (ix, iy), (16, 16)).at_phase(&LUMA, fx, fy);
            let Block { x0, y0, mvx, mvy, .. } = block;
            let ruled = spots(frame, &block);
            let bytes = |spot: HpelSpot, at: usize| {
                ((spot.offset + at / 16 * spot.stride + at % 16) % 251) as u32
            };
            let mut out = [0; 256];
            let answer = hpel_block(p, x0, y0, 16, 16, mvx, mvy, &mut out);
            match Phase::of((fx, fy)) {
                Phase::Quarter => {
                    assert_eq!(hpel_qpel_refs_at(p, x0, y0, 16, 16, mvx, mvy), Ok(ruled));
                    assert_eq!(answer, Ok(()));
                }
                phase => {
                    assert_eq!(hpel_ref_at(p, x0, y0, 16, 16, mvx, mvy), Ok(ruled[0]));
                    let view = hpel_ref(p, x0, y0, 16, 16, mvx, mvy).unwrap();
                    assert_eq!(view.samples.len(), one.len() - ruled[0].offset);
                    assert_eq!(answer.is_ok(), phase == Phase::Half);
                }
            }
            for (at, byte) in out.into_iter().enumerate().filter(|_| answer.is_ok()) {
                assert_eq!(byte as u32, (bytes(ruled[0], at) + bytes(ruled[1], at) + 1) >> 1);
            }
        }
    }
    for mvx in [4 * last as i32 + 4, -4 * 129] {
        assert_eq!(hpel_ref_at(p, 0, 0, 16, 16, mvx, 0), Err(Unserved));
    }
    p.c = &one[1..];
    assert_eq!(hpel_ref_at(p, 0, 0, 16, 16, 0, 0), Err(Source));
}

/// The same block of the same picture by three routes: the plain one, the one on a plane with
/// filled margins, and half-sample planes, read as block and in place. Where all serve it, it is
/// the same.
#[test]
fn three_routes_agree() {
    let mut rng = Rng::new(233);
    let mut tally = Tally::new("three routes");
    let mut left = drawn_calls(200_000);
    while left > 0 {
        let frame = Frame::drawn(&mut rng, 40, 30);
        let Frame { cw, ch, pad } = frame;
        let picture = drawn_picture(&mut rng, cw, ch);
        let g = frame.geometry();
        let mut padded = vec![0; frame.bytes()];
        for (y, row) in picture.chunks(cw).enumerate() {
            padded[(y + pad) * g.stride + pad..][..cw].copy_from_slice(row);
        }
        expand_plane(&mut padded, g).unwrap();
        let [mut f, mut h, mut v, mut c] = [(); 4].map(|()| vec![0; frame.bytes()]);
        let p = build_hpel_planes(&picture, cw, ch, pad, &mut f, &mut h, &mut v, &mut c).unwrap();
        assert!(p.f == padded, "the picture padded: {frame:?}");
        for _ in 0..left.min(100) {
            let (bw, bh) = rng.sides(16, 16);
            let size = (rng.pick(&[bw, 4, 8, 16]), bh);
            let drawn = Block::drawn_with_margins(&mut rng, &INSIDE, g, size);
            let block = frame.block_inside(&mut rng, size).unwrap_or(drawn);
            let Block { x0, y0, bw, bh, mvx, mvy } = block;
            let [mut plain, mut with_margins, mut half] = [(); 3].map(|()| vec![0; block.area()]);
            mc_luma(&picture, cw, ch, x0, y0, bw, bh, mvx, mvy, &mut plain).unwrap();
            mc_luma_padded(&padded, g, x0, y0, bw, bh, mvx, mvy, &mut with_margins).unwrap();
            assert_eq!(with_margins, plain, "margins: {frame:?}, {block:?}");
            let answer = hpel_block(p, x0, y0, bw, bh, mvx, mvy, &mut half);
            if answer.is_ok() {
                assert_eq!(half, plain, "half-sample planes: {frame:?}, {block:?}");
            }
            if let Some(in_place) = read_in_place(p, &block) {
                assert_eq!(in_place, plain, "in place: {frame:?}, {block:?}");
                tally.count_phase(&LUMA, &block);
            }
            tally.count(answer);
        }
        left = left.saturating_sub(100);
    }
    tally.finish(&[Unserved]);
}

/// The block that a caller reads where the lookups say, if one of them serves it.
fn read_in_place(p: HpelPlanes, block: &Block) -> Option<Vec<u8>> {
    let Block { x0, y0, bw, bh, mvx, mvy } = *block;
    let views = match hpel_ref(p, x0, y0, bw, bh, mvx, mvy) {
        Ok(view) => [view, view],
        Err(_) => hpel_qpel_refs(p, x0, y0, bw, bh, mvx, mvy).ok()?,
    };
    let mut out = vec![0; block.area()];
    for (y, row) in out.chunks_mut(bw).enumerate() {
        let [a, b] = views.map(|view| &view.samples[y * view.stride..][..bw]);
        avg_row_into(a, b, bw, row).unwrap();
    }
    Some(out)
}

/// Compares one picture padded, with what is lent now.
fn compare_padded(picture: &Twin, frame: Frame, out: &mut Twin) -> Result<(), Refusal> {
    let Frame { cw, ch, pad } = frame;
    let expected =
        lowest(&[frame_side(frame), source(picture.len(), cw, ch), plane_output(out.len(), frame)]);
    if expected.is_ok() {
        let padded = rust::pad_plane(picture.theirs(), cw, ch, pad);
        out.theirs_mut()[..frame.bytes()].copy_from_slice(&padded);
    }
    let answer = pad_plane(picture.ours(), cw, ch, pad, out.ours_mut());
    let told = |what| format!("{what}: {frame:?}, {} to {}", picture.len(), out.len());
    assert_eq!(answer, expected, "{}", told("answer"));
    assert!(out.agree(), "{}", told("output"));
    assert!(picture.agree(), "{}", told("picture changed"));
    answer
}

/// Compares one building of the four planes, with what is lent now.
fn compare_built(picture: &Twin, frame: Frame, outs: &mut [Twin; 4]) -> Result<(), Refusal> {
    let Frame { cw, ch, pad } = frame;
    let lent = outs.each_ref().map(Twin::len);
    let expected = lowest(&[
        frame_side(frame),
        source(picture.len(), cw, ch),
        plane_output(*lent.iter().min().expect("four"), frame),
    ]);
    if expected.is_ok() {
        let planes = rust::build_hpel_planes(picture.theirs(), cw, ch, pad);
        for (out, plane) in outs.iter_mut().zip([planes.f, planes.h, planes.v, planes.c]) {
            out.theirs_mut()[..frame.bytes()].copy_from_slice(&plane);
        }
    }
    let told = |what| format!("{what}: {frame:?}, {} to {lent:?}", picture.len());
    let [f, h, v, c] = outs.each_mut().map(Twin::ours_mut);
    let answer = build_hpel_planes(picture.ours(), cw, ch, pad, f, h, v, c).map(|p| {
        assert_eq!((p.cw, p.ch, p.pad), (cw, ch, pad));
        assert_eq!([p.f, p.h, p.v, p.c].map(<[u8]>::len), lent);
    });
    assert_eq!(answer, expected, "{}", told("answer"));
    assert!(outs.iter().all(Twin::agree), "{}", told("planes"));
    assert!(picture.agree(), "{}", told("picture changed"));
    answer
}

/// A picture to build from, and room for four planes.
fn drawn_build(rng: &mut Rng, frame: Frame) -> (Twin, [Twin; 4]) {
    let picture = drawn_picture(rng, frame.cw, frame.ch);
    let more = rng.pick(&[0, 0, 1, 100]);
    let picture = Twin::holding(rng, &picture, more);
    let outs = [(); 4].map(|()| {
        let more = rng.pick(&[0, 0, 1, 100]);
        Twin::drawn(rng, frame.bytes() + more)
    });
    (picture, outs)
}

/// Both calls that build, counted as such.
struct Building {
    padded: Tally,
    built: Tally,
}

impl Building {
    /// Compares both, with what is lent now. Each finds other bytes, because a plane that is there
    /// already would hide that it was written.
    fn compare(&mut self, rng: &mut Rng, picture: &Twin, frame: Frame, outs: &mut [Twin; 4]) {
        outs[0].fill(rng.next() as u8);
        self.padded.count(compare_padded(picture, frame, &mut outs[0]));
        for out in &mut *outs {
            out.fill(rng.next() as u8);
        }
        self.built.count(compare_built(picture, frame, outs));
    }

    fn finish(self, refusals: &[Refusal]) {
        self.padded.finish(refusals);
        self.built.finish(refusals);
    }
}

macro_rules! building {
    ($what:literal) => {
        Building {
            padded: Tally::new(concat!("pad_plane, ", $what)),
            built: Tally::new(concat!("build_hpel_planes, ", $what)),
        }
    };
}

#[test]
fn planes_of_every_pad() {
    let mut rng = Rng::new(240);
    let mut building = building!("every pad");
    for pad in 0..=128 {
        for (cw, ch) in [(1, 1), (1, 6), (5, 1), (17, 9)] {
            let frame = Frame { cw, ch, pad };
            let (picture, mut outs) = drawn_build(&mut rng, frame);
            building.compare(&mut rng, &picture, frame, &mut outs);
        }
    }
    building.finish(&[]);
}

/// Small planes, which document 01's rule makes sample by sample.
#[test]
fn planes_by_the_rule() {
    let mut rng = Rng::new(241);
    let mut building = building!("by the rule");
    for _ in 0..drawn_calls(200_000) / 100 {
        let (cw, ch) = rng.sides(24, 9);
        let frame = Frame { cw, ch, pad: rng.within(0, 7) as usize };
        let (picture, mut outs) = drawn_build(&mut rng, frame);
        building.compare(&mut rng, &picture, frame, &mut outs);
        let ruled = planes_of(picture.ours(), frame);
        let left = outs.iter().zip(&ruled).find(|(out, ruled)| !out.ours().starts_with(ruled));
        assert!(left.is_none(), "the rule was left: {frame:?}");
    }
    building.finish(&[]);
}

/// Drawn pictures; one plane in four is lent too short, most of them by little.
#[test]
fn planes_drawn() {
    let mut rng = Rng::new(242);
    let mut building = building!("drawn");
    for _ in 0..drawn_calls(300_000) / 100 {
        let frame = Frame::drawn(&mut rng, 40, 30);
        let (mut picture, mut outs) = drawn_build(&mut rng, frame);
        let one = rng.pick(&[0, 1, 2, 3]);
        match rng.within(0, 15) {
            0 => shorten(&mut picture, &mut rng),
            1..=3 => shorten(&mut outs[one], &mut rng),
            _ => (),
        }
        building.compare(&mut rng, &picture, frame, &mut outs);
    }
    building.finish(&[Source, Output]);
}

/// Each output, and the picture, exact, one byte short or empty, in every combination.
#[test]
fn planes_each_short() {
    let mut rng = Rng::new(243);
    let mut building = building!("each short");
    let frame = Frame { cw: 7, ch: 5, pad: 3 };
    let (mut picture, mut outs) = drawn_build(&mut rng, frame);
    for lengths in 0..3usize.pow(5) {
        let length = |at: u32, needed: usize| [needed, needed - 1, 0][lengths / 3usize.pow(at) % 3];
        picture.lend(length(4, frame.cw * frame.ch));
        for (at, out) in outs.iter_mut().enumerate() {
            out.lend(length(at as u32, frame.bytes()));
        }
        building.compare(&mut rng, &picture, frame, &mut outs);
    }
    building.finish(&[Source, Output]);
}

#[test]
fn planes_limits() {
    let mut rng = Rng::new(244);
    let mut building = building!("limits");
    for frame in frames_around() {
        let refused = frame_side(frame).1;
        let (picture, planes) =
            if refused { (64, 64) } else { (frame.cw * frame.ch, frame.bytes()) };
        let mut source = Twin::drawn(&mut rng, picture + 3);
        let mut outs = [(); 4].map(|()| Twin::drawn(&mut rng, planes + 3));
        for lent in around(picture, 3) {
            source.lend(lent);
            for out in &mut outs {
                out.lend(rng.pick(&around(planes, 3)[2..]));
            }
            building.compare(&mut rng, &source, frame, &mut outs);
            outs[rng.pick(&[0, 1, 2, 3])].lend(planes - 1);
            building.compare(&mut rng, &source, frame, &mut outs);
        }
    }
    building.finish(&[Side, Source, Output]);
}

#[test]
fn planes_longest() {
    let mut rng = Rng::new(245);
    let mut building = building!("longest");
    for (cw, ch, pad) in [(8192, 1, 0), (1, 8192, 128), (8192, 3, 128)] {
        let frame = Frame { cw, ch, pad };
        let (picture, mut outs) = drawn_build(&mut rng, frame);
        building.compare(&mut rng, &picture, frame, &mut outs);
    }
    building.finish(&[]);
}
