//! Demand 3's number: what a byte has over the exact mean of its two anchors, worked out here from
//! the picture by the standard's formulas.

use crate::field::Picture;

/// A phase of the vector, in quarter samples: (fx, fy).
pub type Phase = (usize, usize);

/// Every phase, by rows.
pub fn phases() -> impl Iterator<Item = Phase> {
    (0..16).map(|at| (at % 4, at / 4))
}

/// Six by six samples, by row and column; the place itself is row 2, column 2.
type Window = [[i32; 6]; 6];

#[derive(Clone, Copy)]
enum Kind {
    Full,
    Across,
    Down,
    Centre,
}

/// A neighbour that the standard names: its kind, and the columns and rows it is away.
#[derive(Clone, Copy)]
struct Anchor(Kind, usize, usize);

const G: Anchor = Anchor(Kind::Full, 0, 0);
const G_RIGHT: Anchor = Anchor(Kind::Full, 1, 0);
const G_DOWN: Anchor = Anchor(Kind::Full, 0, 1);
const B: Anchor = Anchor(Kind::Across, 0, 0);
const S: Anchor = Anchor(Kind::Across, 0, 1);
const H: Anchor = Anchor(Kind::Down, 0, 0);
const M: Anchor = Anchor(Kind::Down, 1, 0);
const J: Anchor = Anchor(Kind::Centre, 0, 0);

/// The two anchors of each phase, by fy * 4 + fx.
const ANCHORS: [[Anchor; 2]; 16] = [
    [G, G],
    [G, B],
    [B, B],
    [G_RIGHT, B],
    [G, H],
    [B, H],
    [B, J],
    [B, M],
    [H, H],
    [H, J],
    [J, J],
    [J, M],
    [G_DOWN, H],
    [H, S],
    [J, S],
    [M, S],
];

/// The least and the most, both included.
#[derive(Clone, Copy, Debug, PartialEq, Eq)]
pub struct Ends {
    pub least: i32,
    pub most: i32,
}

impl Ends {
    /// The ends of d that are proved for a phase, and that some picture attains:
    /// crates/promises/proofs/Ends.antt. They lie inside of those that document 01 asks for.
    pub fn proved((fx, fy): Phase) -> Ends {
        use Kind::{Across, Centre, Down, Full};
        let [Anchor(p, ..), Anchor(q, ..)] = ANCHORS[fy * 4 + fx];
        let one_anchor = fx % 2 == 0 && fy % 2 == 0;
        let (least, most) = match (p, q) {
            (Full, Full) => (0, 0),
            (Centre, Centre) => (-1022, 1024),
            (Across | Down, Across | Down) if one_anchor => (-960, 1024),
            (Full, _) | (_, Full) => (-480, 1536),
            (Centre, _) | (_, Centre) => (-991, 2048),
            (Across | Down, Across | Down) => (-960, 2048),
        };
        Ends { least, most }
    }

    pub fn hold(self, inner: Ends) -> bool {
        self.least <= inner.least && inner.most <= self.most
    }
}

/// The least and the most d of all bytes of `moved`, which is `reference` moved by a phase.
pub fn extremes(reference: &Picture, moved: &Picture, phase: Phase) -> Ends {
    let mut seen = Ends { least: i32::MAX, most: i32::MIN };
    for (place, &byte) in moved.samples.iter().enumerate() {
        let d = over(&window(reference, place % moved.w, place / moved.w), phase, byte);
        seen = Ends { least: seen.least.min(d), most: seen.most.max(d) };
    }
    seen
}

fn window(picture: &Picture, x: usize, y: usize) -> Window {
    let at = |row: usize, column: usize| {
        i32::from(picture.at((x + column) as isize - 2, (y + row) as isize - 2))
    };
    std::array::from_fn(|row| std::array::from_fn(|column| at(row, column)))
}

/// d = 2048 P - A - B, of the byte P and the exact anchors A and B.
fn over(window: &Window, (fx, fy): Phase, byte: u8) -> i32 {
    let [a, b] = ANCHORS[fy * 4 + fx].map(|anchor| exact(window, anchor));
    2048 * i32::from(byte) - a - b
}

/// An anchor in 1024ths, unrounded but limited to what a sample can be.
fn exact(window: &Window, Anchor(kind, dx, dy): Anchor) -> i32 {
    let value = match kind {
        Kind::Full => 1024 * window[2 + dy][2 + dx],
        Kind::Across => 32 * six_tap(window[2 + dy]),
        Kind::Down => 32 * six_tap(window.map(|row| row[2 + dx])),
        Kind::Centre => six_tap(window.map(six_tap)),
    };
    value.clamp(0, 1024 * 255)
}

fn six_tap([a, b, c, d, e, f]: [i32; 6]) -> i32 {
    a - 5 * b + 20 * c + 20 * d - 5 * e + f
}

#[cfg(test)]
mod tests {
    use super::*;

    fn byte(picture: &Picture, (x, y): (usize, usize), (fx, fy): Phase) -> u8 {
        let Picture { w, h, samples } = picture;
        let mut out = [0];
        inter::mc_luma(samples, *w, *h, x, y, 1, 1, fx as i32, fy as i32, &mut out)
            .expect("the block is served");
        out[0]
    }

    fn d(rows: [[u8; 6]; 6], phase: Phase) -> i32 {
        let picture = Picture { w: 6, h: 6, samples: rows.concat() };
        over(&window(&picture, 2, 2), phase, byte(&picture, (2, 2), phase))
    }

    #[test]
    fn the_worked_case_is_1536_over() {
        let row = Picture { w: 6, h: 1, samples: vec![0, 0, 0, 1, 1, 1] };
        let moved = byte(&row, (2, 0), (1, 0));
        assert_eq!((moved, over(&window(&row, 2, 0), (1, 0), moved)), (1, 1536));
    }

    /// Windows with zeros around, from the proof that the ends are attained.
    #[test]
    fn windows_of_the_proof_attain_the_ends() {
        const NONE: [u8; 6] = [0; 6];
        const TIE: [u8; 6] = [0, 0, 0, 1, 1, 1];
        const UNDER: [u8; 6] = [0, 0, 0, 1, 1, 0];
        let first = |value| [value, 0, 0, 0, 0, 0];
        let third = |value| [0, 0, value, 0, 0, 0];
        let line = |row| [NONE, NONE, row, NONE, NONE, NONE];
        for (phase, least, most) in [
            ((0, 0), line(UNDER), line(TIE)),
            ((1, 0), line(UNDER), line(TIE)),
            ((2, 0), line(UNDER), line(TIE)),
            (
                (1, 1),
                [NONE, NONE, UNDER, third(1), third(1), NONE],
                [third(8), NONE, TIE, third(2), NONE, NONE],
            ),
            (
                (2, 1),
                [[11, 0, 10, 0, 0, 0], NONE, UNDER, NONE, NONE, NONE],
                [[16, 0, 60, 0, 0, 0], NONE, TIE, NONE, NONE, NONE],
            ),
            (
                (2, 2),
                [first(11), NONE, first(25), NONE, NONE, NONE],
                [first(12), NONE, first(25), NONE, NONE, NONE],
            ),
        ] {
            let seen = Ends { least: d(least, phase), most: d(most, phase) };
            assert_eq!(seen, Ends::proved(phase), "phase {phase:?}");
        }
    }

    #[test]
    fn the_ends_lie_inside_of_the_documents() {
        for (fx, fy) in phases() {
            let (below, most) = match (fx % 2, fy % 2) {
                (0, 0) if (fx, fy) == (0, 0) => (-1, 0),
                (0, 0) => (-1024, 1024),
                _ if fx == 0 || fy == 0 => (-512, 1536),
                _ => (-1024, 2048),
            };
            let asked = Ends { least: below + 1, most };
            assert!(asked.hold(Ends::proved((fx, fy))), "phase ({fx},{fy})");
        }
    }
}
