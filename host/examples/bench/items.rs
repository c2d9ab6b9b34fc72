//! What is measured: each call with its arguments, in each library.

use std::cell::RefCell;
use std::hint::black_box;

use inter as ours;
use inter::{Geometry, HpelPlanes};
use oracle::inter as scalar;
#[cfg(simd)]
use simd::inter as simd;

/// The libraries, in the order of an item's calls. The Rust with SIMD kernels is seldom at hand.
pub const LIBRARIES: &[&str] = &[
    "ours",
    "scalar",
    #[cfg(simd)]
    "SIMD",
];

/// One call, which writes to the bytes that it is lent.
pub type Call = Box<dyn Fn(&mut [u8])>;

pub struct Item {
    pub group: String,
    pub name: String,
    /// What a call is lent to write to.
    pub lent: Vec<u8>,
    pub calls: Calls,
}

pub struct Calls {
    pub by_library: Vec<Call>,
    /// Takes the same arguments: what it costs is the making of the call.
    pub nothing: Call,
}

impl Item {
    /// Ends the run where the libraries do not write the same bytes.
    pub fn check(&self) {
        let written = |call: &Call| {
            let mut out = self.lent.clone();
            call(&mut out);
            out
        };
        let by_library: Vec<Vec<u8>> = self.calls.by_library.iter().map(written).collect();
        let same = by_library.iter().all(|bytes| *bytes == by_library[0]);
        assert!(same, "{}: the bytes differ", self.name);
    }
}

/// The function, called as the body does with the bytes that are lent.
macro_rules! call {
    ($function:expr, |$call:ident, $lent:ident| $body:expr) => {{
        let $call = $function;
        let call: Call = Box::new(move |$lent| {
            let _ = $body;
        });
        call
    }};
}

/// The function of that name in each library. Ours may take its arguments in a way of its own.
macro_rules! calls {
    ($name:ident, $nothing:ident, |$call:ident, $lent:ident| $same:expr) => {
        calls!($name, $nothing, |$call, $lent| $same, $same)
    };
    ($name:ident, $nothing:ident, |$call:ident, $lent:ident| $ours:expr, $rust:expr) => {
        Calls {
            by_library: Vec::from([
                call!(ours::$name, |$call, $lent| $ours),
                call!(scalar::$name, |$call, $lent| $rust),
                #[cfg(simd)]
                call!(simd::$name, |$call, $lent| $rust),
            ]),
            // Hidden from the compiler, which would leave out arguments that nobody reads.
            nothing: call!(black_box($nothing), |$call, $lent| $rust),
        }
    };
}

fn noise(len: usize) -> Vec<u8> {
    let mut state = 1u32;
    let noise = std::iter::repeat_with(|| {
        state = state.wrapping_mul(1_664_525).wrapping_add(1_013_904_223);
        (state >> 24) as u8
    });
    noise.take(len).collect()
}

/// A plane of noise.
#[derive(Clone, Copy)]
struct Plane {
    samples: &'static [u8],
    w: usize,
    h: usize,
}

impl Plane {
    fn new(w: usize, h: usize) -> Plane {
        Plane { samples: noise(w * h).leak(), w, h }
    }
}

/// A plane of noise with margins, which are filled.
#[derive(Clone, Copy)]
struct Padded {
    samples: &'static [u8],
    g: Geometry,
}

impl Padded {
    fn new(pw: usize, ph: usize, pad: usize) -> Padded {
        let g = Geometry { stride: pw + 2 * pad, pad, pw, ph };
        let mut samples = noise(bytes(g));
        scalar::expand_plane(&mut samples, g.stride, pad, pw, ph);
        Padded { samples: samples.leak(), g }
    }
}

/// How many bytes such a plane has.
fn bytes(g: Geometry) -> usize {
    g.stride * (g.ph + 2 * g.pad)
}

/// A square block, and the vector that is its phase.
#[derive(Clone, Copy)]
struct Block {
    side: usize,
    x0: usize,
    y0: usize,
    phase: (i32, i32),
}

impl Block {
    fn inside(side: usize, phase: (i32, i32)) -> Block {
        Block { side, x0: 64, y0: 64, phase }
    }

    /// Over the lower right corner of what is `w` by `h`, by three columns and rows.
    fn over_edge(w: usize, h: usize, side: usize, phase: (i32, i32)) -> Block {
        Block { x0: w - side + 3, y0: h - side + 3, ..Block::inside(side, phase) }
    }

    /// The item of a call that predicts this block; `edge` is empty or says that it is over one.
    fn item(self, call: &str, edge: &str, calls: Calls) -> Item {
        let Block { side, phase: (fx, fy), .. } = self;
        let size = format!(" {side}x{side}");
        let group = format!("{call}{}", if edge.is_empty() { &size } else { edge });
        let name = format!("{call}{size}{edge} ({fx},{fy})");
        Item { group, name, lent: vec![0xa5; side * side], calls }
    }
}

type Plain = fn(&[u8], usize, usize, usize, usize, usize, usize, i32, i32, &mut [u8]);
const NO_PLAIN: Plain = |_, _, _, _, _, _, _, _, _, _| ();

/// A block predicted from a picture without margins.
macro_rules! plain {
    ($name:ident, $edge:expr, $plane:expr, $block:expr) => {{
        let Plane { samples, w, h } = $plane;
        let Block { side, x0, y0, phase: (mvx, mvy) } = $block;
        let calls = calls!($name, NO_PLAIN, |predict, out| predict(
            samples, w, h, x0, y0, side, side, mvx, mvy, out
        ));
        $block.item(stringify!($name), $edge, calls)
    }};
}

fn mc_luma(edge: &str, plane: Plane, block: Block) -> Item {
    plain!(mc_luma, edge, plane, block)
}

fn mc_chroma(edge: &str, plane: Plane, block: Block) -> Item {
    plain!(mc_chroma, edge, plane, block)
}

type WithMargins =
    fn(&[u8], usize, usize, usize, usize, usize, usize, usize, usize, i32, i32, &mut [u8]);
const NO_WITH_MARGINS: WithMargins = |_, _, _, _, _, _, _, _, _, _, _, _| ();

/// A block predicted from a picture with margins.
macro_rules! padded {
    ($name:ident, $edge:expr, $plane:expr, $block:expr) => {{
        let Padded { samples, g } = $plane;
        let Geometry { stride, pad, pw, ph } = g;
        let Block { side, x0, y0, phase: (mvx, mvy) } = $block;
        let calls = calls!(
            $name,
            NO_WITH_MARGINS,
            |predict, out| predict(samples, g, x0, y0, side, side, mvx, mvy, out),
            predict(samples, stride, pad, pw, ph, x0, y0, side, side, mvx, mvy, out)
        );
        $block.item(stringify!($name), $edge, calls)
    }};
}

fn mc_luma_padded(edge: &str, plane: Padded, block: Block) -> Item {
    padded!(mc_luma_padded, edge, plane, block)
}

fn mc_chroma_padded(edge: &str, plane: Padded, block: Block) -> Item {
    padded!(mc_chroma_padded, edge, plane, block)
}

#[rustfmt::skip]
type Pair = fn(
    &[u8], &[u8], usize, usize, usize, usize, usize, usize, usize, usize, i32, i32,
    &mut [u8], &mut [u8],
);
const NO_PAIR: Pair = |_, _, _, _, _, _, _, _, _, _, _, _, _, _| ();

/// A block predicted from two planes with margins, the second upside down.
fn mc_chroma_padded_pair(plane: Padded, block: Block) -> Item {
    let Padded { samples: u, g } = plane;
    let Geometry { stride, pad, pw, ph } = g;
    let v: &[u8] = u.iter().rev().copied().collect::<Vec<_>>().leak();
    let Block { side, x0, y0, phase: (mvx, mvy) } = block;
    let calls = calls!(
        mc_chroma_padded_pair,
        NO_PAIR,
        |predict, out| {
            let (a, b) = out.split_at_mut(side * side);
            predict(u, v, g, x0, y0, side, side, mvx, mvy, a, b)
        },
        {
            let (a, b) = out.split_at_mut(side * side);
            predict(u, v, stride, pad, pw, ph, x0, y0, side, side, mvx, mvy, a, b)
        }
    );
    let item = block.item("mc_chroma_padded_pair", "", calls);
    Item { lent: vec![0xa5; 2 * side * side], ..item }
}

type Expand = fn(&mut [u8], usize, usize, usize, usize);
const NO_EXPAND: Expand = |_, _, _, _, _| ();

/// The margins of a plane filled, which are noise before the first call.
fn expand_plane(g: Geometry) -> Item {
    let Geometry { stride, pad, pw, ph } = g;
    Item {
        group: "expand_plane".to_string(),
        name: format!("expand_plane {pw}x{ph} pad {pad}"),
        lent: noise(bytes(g)),
        calls: calls!(
            expand_plane,
            NO_EXPAND,
            |expand, plane| expand(plane, g),
            expand(plane, stride, pad, pw, ph)
        ),
    }
}

type Build = fn(&[u8], usize, usize, usize);
const NO_BUILD: Build = |_, _, _, _| ();

/// The half-sample planes of a plane built. The Rust returns planes of its own, so nothing is lent
/// and ours writes to its own too; that all are the same is tested here.
fn build_hpel_planes(plane: Plane, pad: usize) -> Item {
    let Plane { samples, w, h } = plane;
    let mut planes = [(); 4].map(|()| vec![0xa5; (w + 2 * pad) * (h + 2 * pad)]);
    build_ours(plane, pad, &mut planes);
    let built = scalar::build_hpel_planes(samples, w, h, pad);
    assert!(planes == [built.f, built.h, built.v, built.c], "the planes differ");
    #[cfg(simd)]
    {
        let built = simd::build_hpel_planes(samples, w, h, pad);
        assert!(planes == [built.f, built.h, built.v, built.c], "the planes differ");
    }
    let planes = RefCell::new(planes);
    Item {
        group: "build_hpel_planes".to_string(),
        name: format!("build_hpel_planes {w}x{h} pad {pad}"),
        lent: Vec::new(),
        calls: Calls {
            by_library: Vec::from([
                call!(build_ours, |build, _lent| build(plane, pad, &mut planes.borrow_mut())),
                call!(scalar::build_hpel_planes, |build, _lent| build(samples, w, h, pad)),
                #[cfg(simd)]
                call!(simd::build_hpel_planes, |build, _lent| build(samples, w, h, pad)),
            ]),
            nothing: call!(black_box(NO_BUILD), |build, _lent| build(samples, w, h, pad)),
        },
    }
}

fn build_ours(plane: Plane, pad: usize, [f, h, v, c]: &mut [Vec<u8>; 4]) {
    ours::build_hpel_planes(plane.samples, plane.w, plane.h, pad, f, h, v, c).expect("built");
}

/// The half-sample planes of a plane, as each library takes them.
#[derive(Clone, Copy)]
struct Half {
    ours: HpelPlanes<'static>,
    scalar: &'static scalar::HpelPlanes,
    #[cfg(simd)]
    simd: &'static simd::HpelPlanes,
}

impl Half {
    fn new(plane: Plane, pad: usize) -> Half {
        let Plane { samples, w, h } = plane;
        let built: &scalar::HpelPlanes =
            Box::leak(Box::new(scalar::build_hpel_planes(samples, w, h, pad)));
        let scalar::HpelPlanes { f, h: across, v, c, .. } = built;
        Half {
            ours: HpelPlanes { f, h: across, v, c, cw: w, ch: h, pad },
            scalar: built,
            #[cfg(simd)]
            simd: Box::leak(Box::new(simd::build_hpel_planes(samples, w, h, pad))),
        }
    }
}

/// The function, called with the planes that it takes.
macro_rules! on_planes {
    ($function:expr, $planes:expr, |$call:ident, $p:ident, $lent:ident| $body:expr) => {{
        let $p = $planes;
        call!($function, |$call, $lent| $body)
    }};
}

/// The function of that name in each library. Ours and the Rust's may answer in their own ways.
macro_rules! half {
    ($name:ident, $nothing:ident, $half:expr, |$call:ident, $p:ident, $lent:ident| $same:expr) => {
        half!($name, $nothing, $half, |$call, $p, $lent| $same, $same)
    };
    (
        $name:ident, $nothing:ident, $half:expr,
        |$call:ident, $p:ident, $lent:ident| $ours:expr, $rust:expr
    ) => {
        Calls {
            by_library: Vec::from([
                on_planes!(ours::$name, $half.ours, |$call, $p, $lent| $ours),
                on_planes!(scalar::$name, $half.scalar, |$call, $p, $lent| $rust),
                #[cfg(simd)]
                on_planes!(simd::$name, $half.simd, |$call, $p, $lent| $rust),
            ]),
            nothing: on_planes!(black_box($nothing), $half.scalar, |$call, $p, $lent| $rust),
        }
    };
}

type HalfBlock = fn(&scalar::HpelPlanes, usize, usize, usize, usize, i32, i32, &mut [u8]);
const NO_HALF_BLOCK: HalfBlock = |_, _, _, _, _, _, _, _| ();

/// A block copied or averaged from half-sample planes.
fn hpel_block(half: Half, block: Block) -> Item {
    let Block { side, x0, y0, phase: (mvx, mvy) } = block;
    let calls = half!(hpel_block, NO_HALF_BLOCK, half, |predict, p, out| predict(
        p, x0, y0, side, side, mvx, mvy, out
    ));
    block.item("hpel_block", "", calls)
}

type One = (&'static [u8], usize, usize);
type FindOne = fn(&'static scalar::HpelPlanes, usize, usize, usize, usize, i32, i32) -> Option<One>;
const NO_ONE: FindOne = |_, _, _, _, _, _, _| None;

/// A block found in half-sample planes, of which the first sample is read.
fn hpel_ref(half: Half, block: Block) -> Item {
    let Block { side, x0, y0, phase: (mvx, mvy) } = block;
    let calls = half!(
        hpel_ref,
        NO_ONE,
        half,
        |find, p, out| find(p, x0, y0, side, side, mvx, mvy).map(|view| out[0] = view.samples[0]),
        find(p, x0, y0, side, side, mvx, mvy).map(|(plane, base, _)| out[0] = plane[base])
    );
    Item { lent: vec![0xa5], ..block.item("hpel_ref", "", calls) }
}

type Two = (&'static [u8], usize, &'static [u8], usize, usize);
type FindTwo = fn(&'static scalar::HpelPlanes, usize, usize, usize, usize, i32, i32) -> Option<Two>;
const NO_TWO: FindTwo = |_, _, _, _, _, _, _| None;

/// The two blocks of a quarter phase found, of which the first samples are read.
fn hpel_qpel_refs(half: Half, block: Block) -> Item {
    let Block { side, x0, y0, phase: (mvx, mvy) } = block;
    let calls = half!(
        hpel_qpel_refs,
        NO_TWO,
        half,
        |find, p, out| find(p, x0, y0, side, side, mvx, mvy).map(|[a, b]| {
            (out[0], out[1]) = (a.samples[0], b.samples[0]);
        }),
        find(p, x0, y0, side, side, mvx, mvy).map(|(a, at_a, b, at_b, _)| {
            (out[0], out[1]) = (a[at_a], b[at_b]);
        })
    );
    Item { lent: vec![0xa5; 2], ..block.item("hpel_qpel_refs", "", calls) }
}

type Average = fn(&[u8], &[u8], usize, &mut [u8]);
const NO_AVERAGE: Average = |_, _, _, _| ();

/// The average of the first two rows of a plane.
fn avg_row_into(plane: Plane) -> Item {
    let w = plane.w;
    let (a, b) = plane.samples[..2 * w].split_at(w);
    Item {
        group: "avg_row_into".to_string(),
        name: format!("avg_row_into width {w}"),
        lent: vec![0xa5; w],
        calls: calls!(avg_row_into, NO_AVERAGE, |average, out| average(a, b, w, out)),
    }
}

fn luma_phases() -> impl Iterator<Item = (i32, i32)> {
    (0..4).flat_map(|fy| (0..4).map(move |fx| (fx, fy)))
}

const LUMA_EDGES: [(usize, (i32, i32)); 6] =
    [(16, (0, 0)), (16, (2, 2)), (8, (0, 0)), (8, (2, 2)), (4, (0, 0)), (4, (2, 2))];

/// Three that are copied, and five that are averaged.
const HALF_PHASES: [(i32, i32); 8] =
    [(2, 0), (0, 2), (2, 2), (1, 0), (1, 1), (2, 1), (3, 2), (3, 3)];

const CHROMA_PHASES: [(i32, i32); 4] = [(0, 0), (4, 0), (0, 4), (3, 5)];

pub fn all() -> Vec<Item> {
    let mut items = Vec::new();

    let (w, h, pad) = (352, 288, 32);
    let (plane, padded) = (Plane::new(w, h), Padded::new(w, h, pad));
    for side in [16, 8, 4] {
        let blocks = luma_phases().map(|phase| Block::inside(side, phase));
        items.extend(blocks.map(|block| mc_luma("", plane, block)));
    }
    for (side, phase) in LUMA_EDGES {
        items.push(mc_luma(" edge", plane, Block::over_edge(w, h, side, phase)));
    }
    for side in [16, 8, 4] {
        let blocks = luma_phases().map(|phase| Block::inside(side, phase));
        items.extend(blocks.map(|block| mc_luma_padded("", padded, block)));
    }
    for (side, phase) in LUMA_EDGES {
        let block = Block::over_edge(w + pad, h + pad, side, phase);
        items.push(mc_luma_padded(" edge", padded, block));
    }

    let (cw, ch, cpad) = (w / 2, h / 2, pad / 2);
    let (chroma, chroma_padded) = (Plane::new(cw, ch), Padded::new(cw, ch, cpad));
    for side in [8, 4, 2] {
        let blocks = CHROMA_PHASES.map(|phase| Block::inside(side, phase));
        items.extend(blocks.map(|block| mc_chroma("", chroma, block)));
    }
    items.push(mc_chroma(" edge", chroma, Block::over_edge(cw, ch, 8, (3, 5))));
    for side in [8, 4, 2] {
        let blocks = CHROMA_PHASES.map(|phase| Block::inside(side, phase));
        items.extend(blocks.map(|block| mc_chroma_padded("", chroma_padded, block)));
    }
    let block = Block::over_edge(cw + cpad, ch + cpad, 8, (3, 5));
    items.push(mc_chroma_padded(" edge", chroma_padded, block));

    for side in [8, 4, 2] {
        let blocks = CHROMA_PHASES.map(|phase| Block::inside(side, phase));
        items.extend(blocks.map(|block| mc_chroma_padded_pair(chroma_padded, block)));
    }

    let half = Half::new(plane, pad);
    for side in [16, 8, 4] {
        let blocks = HALF_PHASES.map(|phase| Block::inside(side, phase));
        items.extend(blocks.map(|block| hpel_block(half, block)));
    }
    items.push(hpel_ref(half, Block::inside(16, (2, 2))));
    items.push(hpel_qpel_refs(half, Block::inside(16, (3, 3))));
    items.push(build_hpel_planes(plane, pad));

    items.push(expand_plane(padded.g));
    items.push(avg_row_into(plane));
    items
}
