//! What a call answers, from its numbers as they stand in a line: the oracle inside the limits,
//! and document 01's table of refusals outside of them.

use oracle::inter as rust;

/// The calls, in the order of their numbers, with their arguments as the list's header says them.
pub const CALLS: [(&str, &str); 20] = [
    ("median3", "a b c = the median"),
    (
        "predict_mv",
        "A B C current = refusal x y; a neighbour is available (1 or 0) x y reference",
    ),
    (
        "predict_partition_mv",
        "A B C current mode part = refusal x y",
    ),
    ("inter_partitions", "mode = count, then x y w h of four"),
    ("edge_count", "w h x0 y0 bw bh mvx mvy = refusal count"),
    ("mc_luma", "P w h x0 y0 bw bh mvx mvy out = refusal"),
    ("mc_chroma", "P w h x0 y0 bw bh mvx mvy out = refusal"),
    ("avg_row_into", "P P w out = refusal"),
    ("expand_plane", "P stride pad pw ph = refusal"),
    (
        "mc_luma_padded",
        "P stride pad pw ph x0 y0 bw bh mvx mvy out = refusal",
    ),
    (
        "mc_luma_padded_pre",
        "P stride pad pw ph x0 y0 bw bh mvx mvy out = refusal",
    ),
    (
        "mc_chroma_padded",
        "P stride pad pw ph x0 y0 bw bh mvx mvy out = refusal",
    ),
    (
        "mc_chroma_padded_pair",
        "P stride pad pw ph x0 y0 bw bh mvx mvy out P out = refusal",
    ),
    ("pad_plane", "P w h pad out = refusal"),
    ("build_hpel_planes", "P w h pad out out out out = refusal"),
    (
        "hpel_ref_at",
        "P w h pad x0 y0 bw bh mvx mvy P P P out = refusal plane offset stride",
    ),
    (
        "hpel_qpel_refs_at",
        "P w h pad x0 y0 bw bh mvx mvy P P P out = refusal planes offsets stride",
    ),
    (
        "hpel_ref",
        "P w h pad x0 y0 bw bh mvx mvy P P P out = length, then the first four bytes",
    ),
    (
        "hpel_qpel_refs",
        "P w h pad x0 y0 bw bh mvx mvy P P P out = the same of each of two",
    ),
    (
        "hpel_block",
        "P w h pad x0 y0 bw bh mvx mvy P P P out = refusal",
    ),
];

pub const MEDIAN3: usize = 1;
pub const PREDICT_MV: usize = 2;
pub const PREDICT_PARTITION_MV: usize = 3;
pub const INTER_PARTITIONS: usize = 4;
pub const EDGE_COUNT: usize = 5;
pub const MC_LUMA: usize = 6;
pub const MC_CHROMA: usize = 7;
pub const AVG_ROW_INTO: usize = 8;
pub const EXPAND_PLANE: usize = 9;
pub const MC_LUMA_PADDED: usize = 10;
pub const MC_LUMA_PADDED_PRE: usize = 11;
pub const MC_CHROMA_PADDED: usize = 12;
pub const MC_CHROMA_PADDED_PAIR: usize = 13;
pub const PAD_PLANE: usize = 14;
pub const BUILD_HPEL_PLANES: usize = 15;
pub const HPEL_REF_AT: usize = 16;
pub const HPEL_QPEL_REFS_AT: usize = 17;
pub const HPEL_REF: usize = 18;
pub const HPEL_QPEL_REFS: usize = 19;
pub const HPEL_BLOCK: usize = 20;

/// Numbers and output bytes; an output that stays as it was is not among them.
#[derive(Default)]
pub struct Expected {
    pub numbers: Vec<i128>,
    pub outputs: Vec<Vec<u8>>,
}

/// The numbers of a call, by place.
struct Args<'a>(&'a [i128], &'a [u8]);

impl<'a> Args<'a> {
    fn size(&self, k: usize) -> usize {
        usize::try_from(self.0[k]).expect("a size is not below 0")
    }

    fn signed(&self, k: usize) -> i32 {
        i32::try_from(self.0[k]).expect("a component has 32 bits")
    }

    /// The bytes lent, named by their place among the pictures' and their number.
    fn lent(&self, k: usize) -> &'a [u8] {
        &self.1[self.size(k)..][..self.size(k + 1)]
    }

    fn neighbour(&self, k: usize) -> rust::MvNeighbor {
        rust::MvNeighbor {
            available: self.0[k] == 1,
            mv: (self.signed(k + 1), self.signed(k + 2)),
            ref_idx: self.signed(k + 3),
        }
    }

    /// x0, y0, bw and bh, from place `k` on.
    fn block(&self, k: usize) -> [usize; 4] {
        [0, 1, 2, 3].map(|i| self.size(k + i))
    }
}

/// The lowest number that applies, 0 if none does.
fn lowest(tests: &[(i128, bool)]) -> i128 {
    tests
        .iter()
        .filter(|test| test.1)
        .map(|test| test.0)
        .min()
        .unwrap_or(0)
}

fn bad_sides(w: usize, h: usize) -> (i128, bool) {
    (1, !(1..=8192).contains(&w) || !(1..=8192).contains(&h))
}

fn bad_pad(pad: usize) -> (i128, bool) {
    (1, pad > 128)
}

/// A run of `len` bytes that must hold `w` by `h`; lengths may multiply past 64 bits.
fn short(number: i128, len: usize, w: i128, h: i128) -> (i128, bool) {
    (number, (len as i128) < w.saturating_mul(h))
}

fn bad_block(most: usize, [x0, y0, bw, bh]: [usize; 4]) -> [(i128, bool); 2] {
    let off = |n| !(1..=most).contains(&n);
    [(3, off(bw) || off(bh)), (4, x0 > 65535 || y0 > 65535)]
}

fn wide(side: usize, pad: usize) -> i128 {
    side as i128 + 2 * pad as i128
}

fn plain_refusal(most: usize, a: &Args, k: usize, len: usize, out: usize) -> i128 {
    let (w, h, block) = (a.size(k), a.size(k + 1), a.block(k + 2));
    let [side, position] = bad_block(most, block);
    let needed = short(5, out, block[2] as i128, block[3] as i128);
    lowest(&[
        bad_sides(w, h),
        short(2, len, w as i128, h as i128),
        side,
        position,
        needed,
    ])
}

/// Refusals 1 and 2 of a plane with margins, whose stride, pad, pw and ph stand from place `k` on.
fn padded_tests(a: &Args, k: usize, len: usize) -> [(i128, bool); 4] {
    let [stride, pad, pw, ph] = a.block(k);
    let off = (stride as i128) < wide(pw, pad) || stride > 16384;
    [
        bad_sides(pw, ph),
        bad_pad(pad),
        (1, off),
        short(2, len, stride as i128, wide(ph, pad)),
    ]
}

fn padded_refusal(most: usize, a: &Args, k: usize, len: usize, out: usize) -> i128 {
    let block = a.block(k + 4);
    let needed = short(5, out, block[2] as i128, block[3] as i128);
    let tests = [
        &padded_tests(a, k, len)[..],
        &bad_block(most, block),
        &[needed],
    ]
    .concat();
    lowest(&tests)
}

/// A refusal alone, or 0 and the outputs that `done` makes.
fn unless(refusal: i128, done: impl FnOnce() -> Vec<Vec<u8>>) -> Expected {
    let outputs = if refusal == 0 { done() } else { Vec::new() };
    Expected {
        numbers: vec![refusal],
        outputs,
    }
}

fn numbers(numbers: impl IntoIterator<Item = i128>) -> Expected {
    Expected {
        numbers: numbers.into_iter().collect(),
        outputs: Vec::new(),
    }
}

/// Refusal 7, else the vector.
fn vector(a: &Args, predicted: impl FnOnce(i32) -> (i32, i32)) -> Expected {
    let current = a.signed(12);
    if !(0..=31).contains(&current) {
        return numbers([7, 0, 0]);
    }
    let (x, y) = predicted(current);
    numbers([0, x as i128, y as i128])
}

fn partitions(mode: u8) -> Expected {
    let parts = rust::inter_partitions(mode);
    let mut all = vec![parts.len() as i128];
    all.extend(
        parts
            .iter()
            .flat_map(|&(x, y, w, h)| [x, y, w, h].map(|n| n as i128)),
    );
    all.resize(17, 0);
    numbers(all)
}

/// The oracle has no such call: positions outside the picture, counted one by one.
fn edge_count(a: &Args) -> Expected {
    let (w, h, block) = (a.size(0), a.size(1), a.block(2));
    let [side, position] = bad_block(16, block);
    let refusal = lowest(&[bad_sides(w, h), side, position]);
    if refusal != 0 {
        return numbers([refusal, 0]);
    }
    let first = |at: usize, mv: i32| at as i64 + (mv as i64).div_euclid(4);
    let (ix, iy) = (first(block[0], a.signed(6)), first(block[1], a.signed(7)));
    let inside = |at: i64, side: usize| (0..side as i64).contains(&at);
    let places = (0..block[3] as i64).flat_map(|y| (0..block[2] as i64).map(move |x| (x, y)));
    let off = places
        .filter(|&(x, y)| !inside(ix + x, w) || !inside(iy + y, h))
        .count();
    numbers([0, off as i128])
}

type Plain = fn(&[u8], usize, usize, usize, usize, usize, usize, i32, i32, &mut [u8]);

fn plain(a: &Args, most: usize, route: Plain) -> Expected {
    let (source, [x0, y0, bw, bh]) = (a.lent(0), a.block(4));
    unless(plain_refusal(most, a, 2, source.len(), a.size(10)), || {
        let mut out = vec![0; bw * bh];
        let (w, h) = (a.size(2), a.size(3));
        route(
            source,
            w,
            h,
            x0,
            y0,
            bw,
            bh,
            a.signed(8),
            a.signed(9),
            &mut out,
        );
        vec![out]
    })
}

fn avg_row_into(a: &Args) -> Expected {
    let (p, q, w) = (a.lent(0), a.lent(2), a.size(4));
    let tests = [(2, p.len() < w), (2, q.len() < w), (5, a.size(5) < w)];
    unless(lowest(&tests), || {
        let mut out = vec![0; w];
        rust::avg_row_into(p, q, w, &mut out);
        vec![out]
    })
}

/// The buffer is listed whole, after a refusal too: it starts as the picture, not as an output.
fn expand_plane(a: &Args) -> Expected {
    let mut buf = a.lent(0).to_vec();
    let refusal = lowest(&padded_tests(a, 2, buf.len()));
    if refusal == 0 {
        let [stride, pad, pw, ph] = a.block(2);
        rust::expand_plane(&mut buf, stride, pad, pw, ph);
    }
    Expected {
        numbers: vec![refusal],
        outputs: vec![buf],
    }
}

type Padded =
    fn(&[u8], usize, usize, usize, usize, usize, usize, usize, usize, i32, i32, &mut [u8]);

fn padded(a: &Args, most: usize, route: Padded) -> Expected {
    let source = a.lent(0);
    unless(padded_refusal(most, a, 2, source.len(), a.size(12)), || {
        vec![padded_block(a, source, route)]
    })
}

fn padded_block(a: &Args, source: &[u8], route: Padded) -> Vec<u8> {
    let ([stride, pad, pw, ph], [x0, y0, bw, bh]) = (a.block(2), a.block(6));
    let mut out = vec![0; bw * bh];
    let (mvx, mvy) = (a.signed(10), a.signed(11));
    route(
        source, stride, pad, pw, ph, x0, y0, bw, bh, mvx, mvy, &mut out,
    );
    out
}

fn pre(
    source: &[u8],
    stride: usize,
    pad: usize,
    pw: usize,
    ph: usize,
    x0: usize,
    y0: usize,
    bw: usize,
    bh: usize,
    mvx: i32,
    mvy: i32,
    out: &mut [u8],
) {
    rust::with_mc_scratch(|scratch| {
        rust::mc_luma_padded_pre(
            scratch, source, stride, pad, pw, ph, x0, y0, bw, bh, mvx, mvy, out,
        )
    })
}

fn pair(a: &Args) -> Expected {
    let (u, v) = (a.lent(0), a.lent(13));
    let (source, out) = (u.len().min(v.len()), a.size(12).min(a.size(15)));
    unless(padded_refusal(8, a, 2, source, out), || {
        let ([stride, pad, pw, ph], [x0, y0, bw, bh]) = (a.block(2), a.block(6));
        let (mut outu, mut outv) = (vec![0; bw * bh], vec![0; bw * bh]);
        let (mvx, mvy) = (a.signed(10), a.signed(11));
        rust::mc_chroma_padded_pair(
            u, v, stride, pad, pw, ph, x0, y0, bw, bh, mvx, mvy, &mut outu, &mut outv,
        );
        vec![outu, outv]
    })
}

/// Refusals of the calls that make planes from a picture; their outputs stand from place 5 on.
fn planes_refusal(a: &Args, outputs: usize) -> i128 {
    let (len, w, h, pad) = (a.lent(0).len(), a.size(2), a.size(3), a.size(4));
    let mut tests = vec![
        bad_sides(w, h),
        bad_pad(pad),
        short(2, len, w as i128, h as i128),
    ];
    tests.extend((5..5 + outputs).map(|k| short(5, a.size(k), wide(w, pad), wide(h, pad))));
    lowest(&tests)
}

fn pad_plane(a: &Args) -> Expected {
    unless(planes_refusal(a, 1), || {
        vec![rust::pad_plane(a.lent(0), a.size(2), a.size(3), a.size(4))]
    })
}

fn build_hpel_planes(a: &Args) -> Expected {
    unless(planes_refusal(a, 4), || {
        let made = rust::build_hpel_planes(a.lent(0), a.size(2), a.size(3), a.size(4));
        vec![made.f, made.h, made.v, made.c]
    })
}

/// The four planes as lent, and refusals 1 to 4 of the calls that read them.
fn half_planes(a: &Args) -> (rust::HpelPlanes, Vec<(i128, bool)>) {
    let [f, h, v, c] = [0, 11, 13, 15].map(|k| a.lent(k).to_vec());
    let (cw, ch, pad) = (a.size(2), a.size(3), a.size(4));
    let mut tests = vec![bad_sides(cw, ch), bad_pad(pad)];
    tests.extend([&f, &h, &v, &c].map(|p| short(2, p.len(), wide(cw, pad), wide(ch, pad))));
    tests.extend(bad_block(16, a.block(5)));
    let [pw, ph] = [wide(cw, pad), wide(ch, pad)].map(|n| n as usize);
    (
        rust::HpelPlanes {
            f,
            h,
            v,
            c,
            stride: pw,
            pad,
            pw,
            ph,
            cw,
            ch,
        },
        tests,
    )
}

/// The number of a plane.
fn plane_of(planes: &rust::HpelPlanes, plane: &[u8]) -> i128 {
    let all = [&planes.f, &planes.h, &planes.v, &planes.c];
    all.iter()
        .position(|p| p.as_ptr() == plane.as_ptr())
        .expect("one of the four") as i128
}

/// A view's length and its first four bytes.
fn beginning(view: &[u8]) -> Vec<i128> {
    let bytes = (0..4).map(|i| view.get(i).map_or(0, |&b| b as i128));
    [view.len() as i128].into_iter().chain(bytes).collect()
}

/// The lookup of one plane: as numbers, or as a view.
fn hpel_ref(a: &Args, as_view: bool) -> Expected {
    let (planes, tests) = half_planes(a);
    let refusal = lowest(&tests);
    let ([x0, y0, bw, bh], mvx, mvy) = (a.block(5), a.signed(9), a.signed(10));
    let served = match refusal {
        0 => rust::hpel_ref(&planes, x0, y0, bw, bh, mvx, mvy),
        _ => None,
    };
    match (served, as_view) {
        (None, true) => numbers(beginning(&[])),
        (None, false) => numbers([if refusal == 0 { 6 } else { refusal }, 0, 0, 0]),
        (Some((plane, base, _)), true) => numbers(beginning(&plane[base..])),
        (Some((plane, base, stride)), false) => {
            numbers([0, plane_of(&planes, plane), base as i128, stride as i128])
        }
    }
}

/// The lookup of two planes: as numbers, or as views.
fn hpel_qpel_refs(a: &Args, as_view: bool) -> Expected {
    let (planes, tests) = half_planes(a);
    let refusal = lowest(&tests);
    let ([x0, y0, bw, bh], mvx, mvy) = (a.block(5), a.signed(9), a.signed(10));
    let served = match refusal {
        0 => rust::hpel_qpel_refs(&planes, x0, y0, bw, bh, mvx, mvy),
        _ => None,
    };
    match (served, as_view) {
        (None, true) => numbers([beginning(&[]), beginning(&[])].concat()),
        (None, false) => numbers([if refusal == 0 { 6 } else { refusal }, 0, 0, 0, 0, 0]),
        (Some((p, i, q, j, _)), true) => numbers([beginning(&p[i..]), beginning(&q[j..])].concat()),
        (Some((p, i, q, j, stride)), false) => {
            let [k, l] = [p, q].map(|plane| plane_of(&planes, plane));
            numbers([0, k, l, i as i128, j as i128, stride as i128])
        }
    }
}

fn hpel_block(a: &Args) -> Expected {
    let (planes, mut tests) = half_planes(a);
    let [x0, y0, bw, bh] = a.block(5);
    tests.push(short(5, a.size(17), bw as i128, bh as i128));
    let refusal = lowest(&tests);
    if refusal != 0 {
        return numbers([refusal]);
    }
    let mut out = vec![0; bw * bh];
    let (mvx, mvy) = (a.signed(9), a.signed(10));
    match rust::hpel_block(&planes, x0, y0, bw, bh, mvx, mvy, &mut out) {
        true => Expected {
            numbers: vec![0],
            outputs: vec![out],
        },
        false => numbers([6]),
    }
}

/// What the line of a call must answer.
pub fn expected(kind: usize, args: &[i128], pictures: &[u8]) -> Expected {
    let a = &Args(args, pictures);
    match kind {
        MEDIAN3 => numbers([rust::median3(a.signed(0), a.signed(1), a.signed(2)) as i128]),
        PREDICT_MV => vector(a, |current| {
            rust::predict_mv(a.neighbour(0), a.neighbour(4), a.neighbour(8), current)
        }),
        PREDICT_PARTITION_MV => vector(a, |current| {
            let (mode, part) = (a.size(13) as u8, a.size(14));
            let [p, q, r] = [0, 4, 8].map(|k| a.neighbour(k));
            rust::predict_partition_mv(mode, part, p, q, r, current)
        }),
        INTER_PARTITIONS => partitions(a.size(0) as u8),
        EDGE_COUNT => edge_count(a),
        MC_LUMA => plain(a, 16, rust::mc_luma),
        MC_CHROMA => plain(a, 8, rust::mc_chroma),
        AVG_ROW_INTO => avg_row_into(a),
        EXPAND_PLANE => expand_plane(a),
        MC_LUMA_PADDED => padded(a, 16, rust::mc_luma_padded),
        MC_LUMA_PADDED_PRE => padded(a, 16, pre),
        MC_CHROMA_PADDED => padded(a, 8, rust::mc_chroma_padded),
        MC_CHROMA_PADDED_PAIR => pair(a),
        PAD_PLANE => pad_plane(a),
        BUILD_HPEL_PLANES => build_hpel_planes(a),
        HPEL_REF_AT => hpel_ref(a, false),
        HPEL_QPEL_REFS_AT => hpel_qpel_refs(a, false),
        HPEL_REF => hpel_ref(a, true),
        HPEL_QPEL_REFS => hpel_qpel_refs(a, true),
        HPEL_BLOCK => hpel_block(a),
        _ => unreachable!("no call has the number {kind}"),
    }
}

/// The bytes lent of each output.
pub fn lent_outputs(kind: usize, args: &[i128]) -> Vec<i128> {
    let places: &[usize] = match kind {
        MC_LUMA | MC_CHROMA => &[10],
        AVG_ROW_INTO => &[5],
        EXPAND_PLANE => &[1],
        MC_LUMA_PADDED | MC_LUMA_PADDED_PRE | MC_CHROMA_PADDED => &[12],
        MC_CHROMA_PADDED_PAIR => &[12, 15],
        PAD_PLANE => &[5],
        BUILD_HPEL_PLANES => &[5, 6, 7, 8],
        HPEL_BLOCK => &[17],
        _ => &[],
    };
    places.iter().map(|&k| args[k]).collect()
}
