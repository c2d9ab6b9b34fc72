//! The vector calls against the oracle.

mod common;

use common::{drawn_calls, Progress, Rng};
use inter::ffi::{self, MvAnswer};
use inter::{
    inter_partitions, median3, predict_mv, predict_partition_mv, Mv, MvNeighbor, Rect, Refusal,
};
use oracle::inter as rust;

const STANDING: u64 = 1_000_000;

const MODES: [u8; 7] = [0, 1, 2, 3, 4, 5, 255];
// The last two would be parts 0 and 1 if only 32 bits were compared.
const PARTS: [usize; 7] = [0, 1, 2, 3, 4, 1 << 32, (1 << 32) + 1];

const BOUNDS: [i32; 25] = [
    i32::MIN,
    i32::MIN + 1,
    i32::MIN + 2,
    i32::MIN / 2 - 1,
    i32::MIN / 2,
    i32::MIN / 3,
    -65537,
    -65536,
    -32769,
    -32768,
    -2,
    -1,
    0,
    1,
    2,
    32767,
    32768,
    65535,
    65536,
    i32::MAX / 3,
    i32::MAX / 2,
    i32::MAX / 2 + 1,
    i32::MAX - 2,
    i32::MAX - 1,
    i32::MAX,
];

fn neighbor(available: bool, x: i32, y: i32, ref_idx: i32) -> MvNeighbor {
    MvNeighbor { available, mv: Mv { x, y }, ref_idx }
}

fn for_rust(n: MvNeighbor) -> rust::MvNeighbor {
    rust::MvNeighbor { available: n.available, mv: (n.mv.x, n.mv.y), ref_idx: n.ref_idx }
}

fn done((x, y): (i32, i32)) -> Result<Mv, Refusal> {
    Ok(Mv { x, y })
}

fn compare_mv([a, b, c]: [MvNeighbor; 3], cur_ref: i32) {
    let theirs = rust::predict_mv(for_rust(a), for_rust(b), for_rust(c), cur_ref);
    assert_eq!(predict_mv(a, b, c, cur_ref), done(theirs), "{a:?} {b:?} {c:?} current {cur_ref}");
}

fn compare_partition_mv(mode: u8, part: usize, [a, b, c]: [MvNeighbor; 3], cur_ref: i32) {
    let theirs =
        rust::predict_partition_mv(mode, part, for_rust(a), for_rust(b), for_rust(c), cur_ref);
    assert_eq!(
        predict_partition_mv(mode, part, a, b, c, cur_ref),
        done(theirs),
        "mode {mode} part {part} {a:?} {b:?} {c:?} current {cur_ref}"
    );
}

/// A neighbour of each availability, kind of reference and pair of signs, with the given sizes.
fn neighbors(cur_ref: i32, x: i32, y: i32) -> Vec<MvNeighbor> {
    let mut all = Vec::new();
    for available in [false, true] {
        for ref_idx in [cur_ref, cur_ref ^ 1, -1, i32::MIN + cur_ref] {
            for sign_x in [-1, 0, 1] {
                for sign_y in [-1, 0, 1] {
                    all.push(neighbor(available, sign_x * x, sign_y * y, ref_idx));
                }
            }
        }
    }
    all
}

/// Every combination of such neighbours, for the first, second and last reference.
fn every_case(mut case: impl FnMut([MvNeighbor; 3], i32)) {
    for cur_ref in [0, 1, 31] {
        for a in neighbors(cur_ref, 3, 40) {
            for b in neighbors(cur_ref, 5, 20) {
                for c in neighbors(cur_ref, 7, 30) {
                    case([a, b, c], cur_ref);
                }
            }
        }
    }
}

fn drawn_component(rng: &mut Rng) -> i32 {
    match rng.within(0, 3) {
        0 => rng.any_i32(),
        1 => rng.pick(&BOUNDS),
        2 => rng.within(-4, 4) as i32,
        _ => rng.within(-4096, 4095) as i32,
    }
}

fn drawn_neighbor(rng: &mut Rng, cur_ref: i32) -> MvNeighbor {
    let ref_idx = match rng.within(0, 7) {
        0 => -1,
        1 => rng.any_i32(),
        2 | 3 => rng.within(0, 31) as i32,
        _ => cur_ref,
    };
    let available = rng.within(0, 2) != 0;
    neighbor(available, drawn_component(rng), drawn_component(rng), ref_idx)
}

/// Three neighbours and a current reference inside the limits.
fn drawn_case(rng: &mut Rng) -> ([MvNeighbor; 3], i32) {
    let cur_ref = rng.within(0, 31) as i32;
    (std::array::from_fn(|_| drawn_neighbor(rng, cur_ref)), cur_ref)
}

#[test]
fn predict_mv_equals_the_oracle() {
    let mut progress = Progress::new("predict_mv");
    every_case(|neighbors, cur_ref| {
        compare_mv(neighbors, cur_ref);
        progress.step();
    });
    let mut rng = Rng::new(1);
    for _ in 0..drawn_calls(STANDING) {
        let (neighbors, cur_ref) = drawn_case(&mut rng);
        compare_mv(neighbors, cur_ref);
        progress.step();
    }
    progress.finish();
}

#[test]
fn predict_partition_mv_equals_the_oracle() {
    let mut progress = Progress::new("predict_partition_mv");
    every_case(|neighbors, cur_ref| {
        for mode in MODES {
            for part in PARTS {
                compare_partition_mv(mode, part, neighbors, cur_ref);
                progress.step();
            }
        }
    });
    let mut rng = Rng::new(2);
    for _ in 0..drawn_calls(STANDING) {
        let (neighbors, cur_ref) = drawn_case(&mut rng);
        let mode = match rng.within(0, 3) {
            0 => rng.within(0, 255) as u8,
            _ => rng.within(0, 3) as u8,
        };
        let part = match rng.within(0, 3) {
            0 => rng.next() as usize,
            1 => rng.pick(&PARTS),
            _ => rng.within(0, 1) as usize,
        };
        compare_partition_mv(mode, part, neighbors, cur_ref);
        progress.step();
    }
    progress.finish();
}

#[test]
fn an_intra_block_above_is_available() {
    let a = neighbor(true, 4, 8, 0);
    let intra = neighbor(true, 100, 100, -1);
    // Nothing is taken from A: the median is of (4,8), (0,0) and (0,0).
    assert_eq!(predict_mv(a, intra, MvNeighbor::NONE, 1), done((0, 0)));
    assert_eq!(predict_mv(a, MvNeighbor::NONE, MvNeighbor::NONE, 1), done((4, 8)));
    compare_mv([a, intra, MvNeighbor::NONE], 1);
}

#[test]
fn a_current_reference_outside_its_range_is_refused() {
    let refused = MvAnswer { refusal: 7, mv: Mv { x: 0, y: 0 } };
    let outside = [-1, -2, -31, -32, 32, 33, 63, 255, 256, 65536, 1 << 30, i32::MIN, i32::MAX];
    let mut progress = Progress::new("refusal 7");
    let mut rng = Rng::new(3);
    for cur_ref in outside {
        for _ in 0..1000 {
            let [a, b, c] = std::array::from_fn(|_| drawn_neighbor(&mut rng, cur_ref));
            assert_eq!(ffi::inter_predict_mv(a, b, c, cur_ref), refused, "{cur_ref}");
            assert_eq!(predict_mv(a, b, c, cur_ref), Err(Refusal::Reference));
            progress.step();
            for mode in MODES {
                for part in PARTS {
                    let raw = ffi::inter_predict_partition_mv(mode, part, a, b, c, cur_ref);
                    assert_eq!(raw, refused, "mode {mode} part {part} current {cur_ref}");
                    let safe = predict_partition_mv(mode, part, a, b, c, cur_ref);
                    assert_eq!(safe, Err(Refusal::Reference));
                    progress.step();
                }
            }
        }
    }
    progress.finish();
}

fn compare_median(a: i32, b: i32, c: i32) {
    let mut sorted = [a, b, c];
    sorted.sort();
    let answer = median3(a, b, c);
    assert_eq!(answer, rust::median3(a, b, c), "{a} {b} {c}");
    assert_eq!(answer, sorted[1], "{a} {b} {c}");
}

#[test]
fn median3_equals_the_oracle_and_the_middle() {
    let mut progress = Progress::new("median3");
    for a in BOUNDS {
        for b in BOUNDS {
            for c in BOUNDS {
                compare_median(a, b, c);
                progress.step();
            }
        }
    }
    let mut rng = Rng::new(4);
    for _ in 0..drawn_calls(STANDING) {
        let [a, b, c] = std::array::from_fn(|_| drawn_component(&mut rng));
        compare_median(a, b, c);
        progress.step();
    }
    progress.finish();
}

#[test]
fn inter_partitions_equals_the_oracle() {
    let mut progress = Progress::new("inter_partitions");
    for mode in 0..=255 {
        let ours = inter_partitions(mode);
        let theirs: Vec<Rect> =
            rust::inter_partitions(mode).iter().map(|&(x, y, w, h)| Rect { x, y, w, h }).collect();
        assert_eq!(ours.parts(), theirs, "mode {mode}");
        let past = &ours.parts[ours.count..];
        assert!(past.iter().all(|&part| part == Rect::default()), "mode {mode}: {past:?}");
        progress.step();
    }
    progress.finish();
}
