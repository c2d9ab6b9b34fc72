//! Half-sample planes: document 01's rules for what they hold, which blocks lie inside, and where.

use inter::{Geometry, HpelSpot};

use super::block::{Block, Kind, LUMA};
use super::plane::with_gap;
use super::Rng;

/// Luma, made of the block and one more column and row after it, on which it depends whether the
/// planes serve it.
pub const INSIDE: Kind = Kind { before: 0, after: 1, ..LUMA };

/// The sides of a picture, and how wide its margins are.
#[derive(Clone, Copy, Debug)]
pub struct Frame {
    pub cw: usize,
    pub ch: usize,
    pub pad: usize,
}

impl Frame {
    /// A picture of those sides at most; few have wide margins.
    pub fn drawn(rng: &mut Rng, w: usize, h: usize) -> Frame {
        let (cw, ch) = rng.sides(w, h);
        let widest = rng.pick(&[4, 4, 20, 20, 20, 128]);
        Frame { cw, ch, pad: rng.within(0, widest) as usize }
    }

    /// The columns of a plane; the most there can be where they cannot be counted.
    pub fn wide(self) -> usize {
        self.pad.saturating_mul(2).saturating_add(self.cw)
    }

    /// The rows of a plane, likewise.
    pub fn high(self) -> usize {
        self.pad.saturating_mul(2).saturating_add(self.ch)
    }

    /// The bytes of a plane, of sides that are served.
    pub fn bytes(self) -> usize {
        self.wide() * self.high()
    }

    pub fn geometry(self) -> Geometry {
        with_gap((self.cw, self.ch), self.pad, 0)
    }

    /// The first and the last place of a block inside the planes, on an axis where the picture and
    /// the block have those sides. They stand the other way round where it is too large.
    pub fn reach(self, side: usize, block: usize) -> (i64, i64) {
        let pad = self.pad as i64;
        (-pad, (side as i64 + pad) - (block as i64 + 1))
    }

    /// Whether the block lies inside the planes with one more column and row.
    pub fn holds(self, block: &Block) -> bool {
        let within = |place: i64, (first, last)| first <= place && place <= last;
        let (ix, iy) = block.place(&LUMA);
        within(ix, self.reach(self.cw, block.bw)) && within(iy, self.reach(self.ch, block.bh))
    }

    /// A block of that size inside the planes, at one of their ends or between; none where it is too
    /// large.
    pub fn block_inside(self, rng: &mut Rng, (bw, bh): (usize, usize)) -> Option<Block> {
        let mut axis = |(first, last): (i64, i64)| {
            let between = (first <= last).then(|| rng.within(first, last))?;
            Some(rng.pick(&[first, between, between, last]))
        };
        let place = (axis(self.reach(self.cw, bw))?, axis(self.reach(self.ch, bh))?);
        Some(Block::placed(rng, &LUMA, place, (bw, bh)))
    }
}

/// What a phase is.
#[derive(Clone, Copy, Debug, PartialEq, Eq)]
pub enum Phase {
    Full,
    Half,
    Quarter,
}

impl Phase {
    pub fn of((fx, fy): (i32, i32)) -> Phase {
        match (fx, fy) {
            (0, 0) => Phase::Full,
            _ if fx % 2 == 0 && fy % 2 == 0 => Phase::Half,
            _ => Phase::Quarter,
        }
    }
}

/// A plane's number, and how many columns and rows on an anchor lies in it.
type Anchor = (u32, usize, usize);

/// The two anchors of a phase by document 01's list; a full or half phase has the same one twice.
fn anchors(phase: (i32, i32)) -> [Anchor; 2] {
    let [full, b, h, j] = [0, 1, 2, 3].map(|plane| (plane, 0, 0));
    let (right, below) = ((0, 1, 0), (0, 0, 1));
    let (m, s) = ((2, 1, 0), (1, 0, 1));
    match phase {
        (0, 0) => [full, full],
        (2, 0) => [b, b],
        (0, 2) => [h, h],
        (2, 2) => [j, j],
        (1, 0) => [full, b],
        (3, 0) => [right, b],
        (0, 1) => [full, h],
        (0, 3) => [below, h],
        (1, 1) => [b, h],
        (3, 1) => [b, m],
        (1, 3) => [h, s],
        (3, 3) => [m, s],
        (2, 1) => [b, j],
        (2, 3) => [j, s],
        (1, 2) => [h, j],
        (3, 2) => [j, m],
        _ => panic!("no phase: {phase:?}"),
    }
}

/// Where the anchors of a block inside the planes begin, in the order of the planes.
pub fn spots(frame: Frame, block: &Block) -> [HpelSpot; 2] {
    let (ix, iy) = block.place(&LUMA);
    let [px, py] = [ix, iy].map(|place| (place + frame.pad as i64) as usize);
    let stride = frame.wide();
    let mut anchors = anchors(block.phase(&LUMA));
    anchors.sort();
    anchors.map(|(plane, dx, dy)| HpelSpot { plane, offset: (py + dy) * stride + px + dx, stride })
}

/// The planes f, h, v and c of a picture, one sample after the other.
pub fn planes_of(picture: &[u8], frame: Frame) -> [Vec<u8>; 4] {
    let Frame { cw, ch, pad } = frame;
    let (wide, high) = (frame.wide() as i64, frame.high() as i64);
    let nearest = |at: i64, side: usize| at.clamp(0, side as i64 - 1) as usize;
    let full = |x: i64, y: i64| {
        picture[nearest(y - pad as i64, ch) * cw + nearest(x - pad as i64, cw)] as i32
    };
    let f = |x: i64, y: i64| full(x.clamp(0, wide - 1), y.clamp(0, high - 1));
    let across = |x: i64, y: i64| six_tap(|k| f(x + k, y));
    let down = |x: i64, y: i64| six_tap(|k| f(x, y + k));
    let centre = |x: i64, y: i64| six_tap(|k| six_tap(|l| f(x + l, y + k)));
    let plane = |sample: &dyn Fn(i64, i64) -> i32| {
        let places = (0..high).flat_map(|y| (0..wide).map(move |x| (x, y)));
        places.map(|(x, y)| sample(x, y).clamp(0, 255) as u8).collect::<Vec<u8>>()
    };
    [
        plane(&f),
        plane(&|x, y| (across(x, y) + 16) >> 5),
        plane(&|x, y| (down(x, y) + 16) >> 5),
        plane(&|x, y| (centre(x, y) + 512) >> 10),
    ]
}

fn six_tap(at: impl Fn(i64) -> i32) -> i32 {
    at(-2) - 5 * at(-1) + 20 * at(0) + 20 * at(1) - 5 * at(2) + at(3)
}
