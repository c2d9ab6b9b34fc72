//! The list: pictures, and calls with what they must answer.

use std::fmt::Write;

use oracle::inter as rust;

use crate::calls::*;
use crate::rng::Rng;

pub const PATH: &str = concat!(env!("CARGO_MANIFEST_DIR"), "/../crates/replay/stdin");

const SEED: u64 = 264;

/// Past these many bytes after the lent ones of an output nothing is looked at.
const GUARD: i128 = 32;

/// The ends of 32 bits, and what lies around 0.
const ENDS: [i128; 5] = [i32::MIN as i128, -1, 0, 1, i32::MAX as i128];

/// Numbers that no range holds; the first is 0 in 32 bits.
const HUGE: [i128; 2] = [1 << 32, u64::MAX as i128];

/// A picture by its place among all pictures' bytes.
#[derive(Clone, Copy)]
struct Picture {
    at: i128,
    len: i128,
}

/// A picture inside a buffer.
#[derive(Clone, Copy)]
struct Plane {
    picture: Picture,
    stride: i128,
    pad: i128,
    pw: i128,
    ph: i128,
}

struct List {
    rng: Rng,
    pictures: Vec<u8>,
    text: String,
    answers: usize,
}

/// Bytes in hexadecimal; more than four equal ones as `byte*count.`.
fn hex(bytes: &[u8]) -> String {
    let mut text = String::new();
    for run in bytes.chunk_by(|a, b| a == b) {
        match run.len() {
            1..=4 => (0..run.len()).for_each(|_| write!(text, "{:02x}", run[0]).unwrap()),
            count => write!(text, "{:02x}*{count}.", run[0]).unwrap(),
        }
    }
    text
}

fn spaced(numbers: &[i128]) -> String {
    numbers
        .iter()
        .map(i128::to_string)
        .collect::<Vec<_>>()
        .join(" ")
}

/// As in zlib.
fn adler32(bytes: &[u8]) -> u32 {
    let (mut a, mut b) = (1, 0);
    for &byte in bytes {
        a = (a + byte as u32) % 65521;
        b = (b + a) % 65521;
    }
    b << 16 | a
}

impl List {
    fn picture(&mut self, bytes: &[u8]) -> Picture {
        let at = self.pictures.len() as i128;
        // Long noise in several lines; a run is never long.
        let lines = if hex(bytes).len() > 400 {
            128
        } else {
            bytes.len()
        };
        for part in bytes.chunks(lines) {
            writeln!(self.text, "P{}={}", self.pictures.len(), hex(part)).unwrap();
            self.pictures.extend(part);
        }
        Picture {
            at,
            len: bytes.len() as i128,
        }
    }

    /// Noise, which tells every place from every other.
    fn noise(&mut self, count: usize) -> Picture {
        let bytes: Vec<u8> = (0..count).map(|_| self.rng.next() as u8).collect();
        self.picture(&bytes)
    }

    /// Black and white, where clips and roundings show.
    fn extremes(&mut self, count: usize) -> Picture {
        let bytes: Vec<u8> = (0..count)
            .map(|_| self.rng.pick(&[0, 255, 255, 0, 1]))
            .collect();
        self.picture(&bytes)
    }

    fn call(&mut self, kind: usize, args: &[i128]) {
        let expected = expected(kind, args, &self.pictures);
        let room = lent_outputs(kind, args)
            .iter()
            .max()
            .map_or(0, |lent| lent + GUARD);
        let line = [&[kind as i128, room], args].concat();
        let mut numbers = expected.numbers;
        while numbers.len() > 1 && numbers.last() == Some(&0) {
            numbers.pop();
        }
        write!(self.text, "{}={}", spaced(&line), spaced(&numbers)).unwrap();
        for output in &expected.outputs {
            write!(self.text, "|{}", hex(output)).unwrap();
        }
        self.text.push('\n');
        self.answers += 1;
    }

    /// The call with each of the changes, a place and what stands there, and with each two of them.
    fn changed(&mut self, kind: usize, args: &[i128], changes: &[(usize, i128)]) {
        for (i, &(k, value)) in changes.iter().enumerate() {
            let mut once = args.to_vec();
            once[k] = value;
            self.call(kind, &once);
            // Of two refusals the lower number is given, whichever test comes first.
            let (other, value) = changes[(i * 7 + 3) % changes.len()];
            if other != k {
                once[other] = value;
                self.call(kind, &once);
            }
        }
    }

    /// A position and a component that put a block of `b` samples inside a side, across one of its
    /// ends or far away, at the phase `f` of `steps`.
    fn axis(&mut self, side: i128, b: i128, steps: i128, f: i128) -> (i128, i128) {
        let (side, b, steps, f) = (side as i64, b as i64, steps as i64, f as i64);
        let rng = &mut self.rng;
        let place = match rng.within(0, 7) {
            0 => return (rng.pick(&[0, 65535]), (i32::MIN as i64 + f) as i128),
            1 => {
                return (
                    rng.pick(&[0, 65535]),
                    (i32::MAX as i64 + 1 - steps + f) as i128,
                )
            }
            2 => rng.within(-b - 200, side + 200),
            3 => rng.within(-b - 4, 4),
            4 => rng.within(side - b - 4, side + 4),
            _ => rng.within(-2, side),
        };
        let x0 = if rng.within(0, 3) == 0 {
            rng.within(0, 65535)
        } else {
            rng.within(0, side + 3)
        };
        (x0 as i128, ((place - x0) * steps + f) as i128)
    }

    /// x0 y0 bw bh mvx mvy out, with room to spare behind the block.
    fn block(
        &mut self,
        (w, h): (i128, i128),
        [bw, bh]: [i128; 2],
        steps: i128,
        phase: i128,
    ) -> [i128; 7] {
        let (x0, mvx) = self.axis(w, bw, steps, phase % steps);
        let (y0, mvy) = self.axis(h, bh, steps, phase / steps);
        let spare = self.rng.pick(&[0, 0, 5]);
        [x0, y0, bw, bh, mvx, mvy, bw * bh + spare]
    }

    fn sides(&mut self, most: i64) -> [i128; 2] {
        [(); 2].map(|()| self.rng.within(1, most) as i128)
    }
}

// What each call is listed with.
impl List {
    fn vectors(&mut self) {
        for (a, b, c) in ENDS.iter().flat_map(|&a| {
            ENDS.iter()
                .flat_map(move |&b| ENDS.iter().map(move |&c| (a, b, c)))
        }) {
            self.call(MEDIAN3, &[a, b, c]);
        }
        for _ in 0..75 {
            let args = [(); 3].map(|()| self.rng.component() as i128);
            self.call(MEDIAN3, &args);
        }
        // Every way to be available and every way to match, with the current reference 0.
        for way in 0..216i128 {
            let mut args = self.neighbours();
            for (k, digit) in [way, way / 6, way / 36].into_iter().enumerate() {
                args[4 * k] = digit % 6 / 3;
                args[4 * k + 3] = digit % 3 - 1;
            }
            args.push(0);
            self.call(PREDICT_MV, &args);
        }
        for _ in 0..60 {
            let mut args = self.neighbours();
            args.push(self.rng.within(0, 3) as i128);
            self.call(PREDICT_MV, &args);
        }
        for mode in [0, 1, 2, 3, 255] {
            for part in [0, 1, 2, 1 << 32, u64::MAX as i128] {
                for _ in 0..10 {
                    let mut args = self.neighbours();
                    args.extend([self.rng.within(0, 1) as i128, mode, part]);
                    self.call(PREDICT_PARTITION_MV, &args);
                }
            }
        }
        for current in [-1, 31, 32, i32::MIN as i128, i32::MAX as i128] {
            // A vector that the Rust would give.
            let mut args = vec![
                1, 1, 2, current, 1, 3, 4, current, 1, 5, 6, current, current,
            ];
            self.call(PREDICT_MV, &args);
            args.extend([1, 0]);
            self.call(PREDICT_PARTITION_MV, &args);
        }
        for mode in [0, 1, 2, 3, 4, 5, 16, 127, 128, 129, 254, 255] {
            self.call(INTER_PARTITIONS, &[mode]);
        }
    }

    /// Three neighbours.
    fn neighbours(&mut self) -> Vec<i128> {
        let one = |rng: &mut Rng| {
            let (x, y) = (rng.component(), rng.component());
            [rng.within(0, 3).min(1), x, y, rng.within(-1, 2)].map(|n| n as i128)
        };
        (0..3).flat_map(|_| one(&mut self.rng)).collect()
    }

    fn edges(&mut self) {
        for (w, h) in [(1, 1), (6, 1), (16, 16), (24, 20), (8192, 8192)] {
            for phase in 0..16 {
                for most in [16, 4] {
                    let block = self.sides(most);
                    let block = self.block((w, h), block, 4, phase);
                    self.call(EDGE_COUNT, &[&[w, h], &block[..6]].concat());
                }
            }
        }
        let whole = [16, 16, 0, 0, 16, 16, -4, 0];
        self.call(EDGE_COUNT, &whole);
        let changes = [
            &around(&[0, 1], 8192)[..],
            &around(&[4, 5], 16),
            &positions(&[2, 3]),
        ]
        .concat();
        self.changed(EDGE_COUNT, &whole, &changes);
    }

    /// A route on pictures without margins, at every phase.
    fn plain(&mut self, kind: usize, most: i64, steps: i128, pictures: &[(Picture, i128, i128)]) {
        for phase in 0..steps * steps {
            for (i, &(picture, w, h)) in pictures.iter().enumerate() {
                // One block of the largest size a phase, the others small.
                let sides = match i {
                    0 => [most as i128; 2],
                    _ => self.sides(if i == 1 { most } else { most / 2 }),
                };
                let block = self.block((w, h), sides, steps, phase);
                self.call(
                    kind,
                    &[&[picture.at, picture.len, w, h], &block[..]].concat(),
                );
            }
        }
        let (picture, w, h) = pictures[1];
        let [bw, bh] = [3, 2];
        let good = [picture.at, picture.len, w, h, 1, 1, bw, bh, 5, -3, bw * bh];
        let changes = [
            &around(&[2, 3], 8192)[..],
            &around(&[6, 7], most as i128),
            &positions(&[4, 5]),
            &[
                (1, 0),
                (1, w * h - 1),
                (1, w * h),
                (10, 0),
                (10, bw * bh - 1),
                (10, bw * bh + 9),
            ],
        ]
        .concat();
        self.changed(kind, &good, &changes);
    }

    fn averages(&mut self, a: Picture, b: Picture) {
        for w in (0..20).chain([31, 32, 33, 63, 64, 65, 127, 128, 129]) {
            let spare = self.rng.pick(&[0, 3]);
            self.call(
                AVG_ROW_INTO,
                &[a.at + w % 7, w, b.at, w + spare, w, w + spare],
            );
        }
        let good = [a.at, 20, b.at, 20, 20, 20];
        let changes = [
            (1, 0),
            (1, 19),
            (3, 0),
            (3, 19),
            (5, 0),
            (5, 19),
            (4, 21),
            (4, HUGE[0]),
            (4, HUGE[1]),
        ];
        self.changed(AVG_ROW_INTO, &good, &changes);
    }

    /// A plane of noise, its margins unfilled, so that it shows which reading was taken.
    fn plane(&mut self, (pw, ph): (i128, i128), pad: i128, gap: i128) -> Plane {
        let stride = pw + 2 * pad + gap;
        let picture = self.noise((stride * (ph + 2 * pad)) as usize);
        Plane {
            picture,
            stride,
            pad,
            pw,
            ph,
        }
    }

    /// A plane of one byte in margins of another.
    fn flat_plane(&mut self, (pw, ph): (i128, i128), pad: i128, stride: i128) -> Plane {
        let mut bytes = vec![200; (stride * (ph + 2 * pad)) as usize];
        for y in pad..pad + ph {
            bytes[(y * stride + pad) as usize..][..pw as usize].fill(10);
        }
        Plane {
            picture: self.picture(&bytes),
            stride,
            pad,
            pw,
            ph,
        }
    }

    fn expanded(&mut self, plane: Plane) -> Plane {
        let Plane {
            picture,
            stride,
            pad,
            pw,
            ph,
        } = plane;
        let from = picture.at as usize;
        let mut bytes = self.pictures[from..from + picture.len as usize].to_vec();
        let [s, p, w, h] = [stride, pad, pw, ph].map(|n| n as usize);
        rust::expand_plane(&mut bytes, s, p, w, h);
        Plane {
            picture: self.picture(&bytes),
            ..plane
        }
    }

    fn expansions(&mut self, planes: &[Plane]) {
        for plane in planes {
            self.call(EXPAND_PLANE, &plane.args());
        }
        for (pw, ph) in [(1, 1), (2, 3), (5, 1), (1, 4)] {
            for (pad, gap) in [(0, 0), (1, 0), (2, 3), (3, 0), (0, 2)] {
                let plane = self.plane((pw, ph), pad, gap);
                self.call(EXPAND_PLANE, &plane.args());
            }
        }
        let plane = self.plane((3, 2), 1, 1);
        self.changed(EXPAND_PLANE, &plane.args(), &plane.changes());
    }

    /// A route on planes with margins, at every phase.
    fn padded(&mut self, kind: usize, most: i64, steps: i128, planes: &[Plane]) {
        for phase in 0..steps * steps {
            for (i, plane) in planes.iter().enumerate() {
                let sides = match i {
                    0 => [most as i128; 2],
                    _ => self.sides(most / 2),
                };
                let args = self.padded_args(kind, plane, sides, steps, phase);
                self.call(kind, &args);
            }
            let ends = if most == 16 { 4 } else { 1 };
            for k in 0..ends {
                let args = self.at_reach(kind, &planes[1], steps, phase, phase / 4 + phase + k);
                self.call(kind, &args);
            }
        }
        let plane = planes[1];
        let [bw, bh] = [3, 2];
        let mut good = [&plane.args()[..], &[1, 1, bw, bh, 5, -3, bw * bh]].concat();
        let mut changes = [
            &plane.changes()[..],
            &around(&[8, 9], most as i128),
            &positions(&[6, 7]),
            &[(12, 0), (12, bw * bh - 1), (12, bw * bh + 9)],
        ]
        .concat();
        if kind == MC_CHROMA_PADDED_PAIR {
            good.extend([plane.picture.at + 1, plane.picture.len, bw * bh]);
            changes.extend([
                (14, 0),
                (14, plane.needed() - 1),
                (15, 0),
                (15, bw * bh - 1),
            ]);
        }
        self.changed(kind, &good, &changes);
    }

    /// A block of two by two whose window ends with the margins on one axis, or one sample past
    /// them: the last places that are read from the buffer, and the first that are not.
    fn at_reach(
        &mut self,
        kind: usize,
        plane: &Plane,
        steps: i128,
        phase: i128,
        end: i128,
    ) -> Vec<i128> {
        let (before, behind) = if steps == 4 { (2, 3) } else { (0, 1) };
        let (first, last) = (before - plane.pad, plane.pw + plane.pad - 2 - behind);
        let at = [first - 1, first, last, last + 1][(end % 4) as usize];
        let places = if end / 4 % 2 == 0 { [at, 1] } else { [1, at] };
        let phases = [phase % steps, phase / steps];
        let [(x0, mvx), (y0, mvy)] = [0, 1].map(|axis| {
            let from = self.rng.within(0, 65535) as i128;
            (from, (places[axis] - from) * steps + phases[axis])
        });
        let mut args = [&plane.args()[..], &[x0, y0, 2, 2, mvx, mvy, 4]].concat();
        if kind == MC_CHROMA_PADDED_PAIR {
            args.extend([plane.picture.at + 1, plane.picture.len, 4]);
        }
        args
    }

    fn padded_args(
        &mut self,
        kind: usize,
        plane: &Plane,
        sides: [i128; 2],
        steps: i128,
        phase: i128,
    ) -> Vec<i128> {
        // One in two is placed by the ends of the margins, where the reading changes.
        let margin = self.rng.pick(&[0, plane.pad]);
        let (w, h) = (plane.pw + 2 * margin, plane.ph + 2 * margin);
        let mut block = self.block((w, h), sides, steps, phase);
        for k in [4, 5] {
            block[k] =
                (block[k] - margin * steps).max(i32::MIN as i128 + block[k].rem_euclid(steps));
        }
        let mut args = [&plane.args()[..], &block].concat();
        if kind == MC_CHROMA_PADDED_PAIR {
            // The same plane a byte on, which is another one.
            args.extend([plane.picture.at + 1, plane.picture.len, block[6]]);
        }
        args
    }

    fn planes_of(&mut self, pictures: &[(Picture, i128, i128)]) {
        for (kind, outputs) in [(PAD_PLANE, 1), (BUILD_HPEL_PLANES, 4)] {
            for &(picture, w, h) in pictures {
                for pad in [0, 1, 3] {
                    let spare = self.rng.pick(&[0, 4]);
                    let needed = (w + 2 * pad) * (h + 2 * pad) + spare;
                    let outs = vec![needed; outputs];
                    self.call(
                        kind,
                        &[&[picture.at, picture.len, w, h, pad], &outs[..]].concat(),
                    );
                }
            }
            let (picture, ..) = pictures[0];
            // The widest margins, around one sample.
            let outs = vec![257 * 257; outputs];
            self.call(kind, &[&[picture.at, 1, 1, 1, 128], &outs[..]].concat());
            let good = [&[picture.at, 6, 3, 2, 1][..], &vec![20; outputs]].concat();
            let mut changes = around(&[2, 3], 8192);
            changes.extend([129, HUGE[0], HUGE[1]].map(|pad| (4, pad)));
            changes.extend([(1, 0), (1, 5)]);
            changes.extend((5..5 + outputs).flat_map(|k| [(k, 0), (k, 19)]));
            self.changed(kind, &good, &changes);
        }
    }
}

// The half-sample planes in use.
impl List {
    /// Four planes built from a picture.
    fn built(&mut self, picture: Picture, (cw, ch): (i128, i128), pad: i128) -> Half {
        let source = &self.pictures[picture.at as usize..];
        let made = rust::build_hpel_planes(source, cw as usize, ch as usize, pad as usize);
        let planes = [made.f, made.h, made.v, made.c].map(|plane| self.picture(&plane));
        Half {
            planes,
            cw,
            ch,
            pad,
        }
    }

    /// Four planes of noise: what they hold is read as it is.
    fn unbuilt(&mut self, (cw, ch): (i128, i128), pad: i128) -> Half {
        let count = ((cw + 2 * pad) * (ch + 2 * pad)) as usize;
        Half {
            planes: [(); 4].map(|()| self.noise(count)),
            cw,
            ch,
            pad,
        }
    }

    /// A position and a component: the block lies inside the planes, touches an end, or is one off.
    fn served_axis(&mut self, side: i128, pad: i128, b: i128, f: i128) -> (i128, i128) {
        let (first, last) = (-pad, side + pad - b - 1);
        let place = match self.rng.within(0, 19) {
            0 => first - 1,
            1 => last + 1,
            2..=4 => first,
            5..=7 => last,
            _ => self.rng.within(first as i64, last.max(first) as i64) as i128,
        };
        let x0 = self.rng.within(0, 65535) as i128;
        (x0, (place - x0) * 4 + f)
    }

    fn half_args(&mut self, half: &Half, [bw, bh]: [i128; 2], phase: i128) -> Vec<i128> {
        let (x0, mvx) = self.served_axis(half.cw, half.pad, bw, phase % 4);
        let (y0, mvy) = self.served_axis(half.ch, half.pad, bh, phase / 4);
        half.args([x0, y0, bw, bh, mvx, mvy])
    }

    fn half_calls(&mut self, kind: usize, halves: &[Half]) {
        let odd = matches!(kind, HPEL_QPEL_REFS_AT | HPEL_QPEL_REFS);
        for phase in 0..16 {
            // More of the phases that the call serves.
            let rounds = match (kind, (phase % 4 | phase / 4) % 2 == 1) {
                (HPEL_BLOCK, _) => 2,
                (_, quarter) if quarter != odd => 1,
                _ => 3,
            };
            for (i, half) in (0..rounds).flat_map(|_| halves.iter().enumerate()) {
                let sides = match i {
                    0 => [16, 16],
                    1 | 4 => [self.rng.pick(&[4, 8]), self.rng.within(1, 8) as i128],
                    _ => self.sides(4),
                };
                let args = self.half_args(half, sides, phase);
                self.call(kind, &args);
            }
        }
        // A block in the middle, at a phase that this call serves.
        let half = halves[1];
        let good = half.args([1, 1, 4, 2, 2 + odd as i128, 4]);
        let needed = (half.cw + 2 * half.pad) * (half.ch + 2 * half.pad);
        let mut changes = [
            &around(&[2, 3], 8192)[..],
            &around(&[7, 8], 16),
            &positions(&[5, 6]),
        ]
        .concat();
        changes.extend([129, HUGE[0], HUGE[1]].map(|pad| (4, pad)));
        changes.extend(
            [1, 12, 14, 16]
                .into_iter()
                .flat_map(|k| [(k, 0), (k, needed - 1)]),
        );
        changes.extend(ENDS.into_iter().flat_map(|mv| [(9, mv), (10, mv)]));
        if kind == HPEL_BLOCK {
            changes.extend([(17, 0), (17, 7), (17, 8)]);
        }
        self.changed(kind, &good, &changes);
    }
}

/// Four planes and their geometry.
#[derive(Clone, Copy)]
struct Half {
    planes: [Picture; 4],
    cw: i128,
    ch: i128,
    pad: i128,
}

impl Half {
    /// The arguments of `hpel_block`; the other calls leave the last one aside.
    fn args(&self, block: [i128; 6]) -> Vec<i128> {
        let [f, h, v, c] = self.planes.map(|plane| [plane.at, plane.len]);
        let out = block[2] * block[3] + 3;
        [
            &f[..],
            &[self.cw, self.ch, self.pad],
            &block,
            &h,
            &v,
            &c,
            &[out],
        ]
        .concat()
    }
}

impl Plane {
    fn args(&self) -> [i128; 6] {
        [
            self.picture.at,
            self.picture.len,
            self.stride,
            self.pad,
            self.pw,
            self.ph,
        ]
    }

    fn needed(&self) -> i128 {
        self.stride * (self.ph + 2 * self.pad)
    }

    /// Changes of the plane's own numbers.
    fn changes(&self) -> Vec<(usize, i128)> {
        let width = self.pw + 2 * self.pad;
        let mut changes = around(&[4, 5], 8192);
        changes.extend([0, width - 1, 16385, HUGE[0], HUGE[1]].map(|stride| (2, stride)));
        changes.extend([129, 1 << 63, HUGE[0], HUGE[1]].map(|pad| (3, pad)));
        changes.extend([(1, 0), (1, self.needed() - 1)]);
        changes
    }
}

/// At each place what lies around a range from 1 to `most`.
fn around(places: &[usize], most: i128) -> Vec<(usize, i128)> {
    let values = [0, 1, most, most + 1, HUGE[0] + 1, HUGE[1]];
    places
        .iter()
        .flat_map(|&k| values.map(|value| (k, value)))
        .collect()
}

fn positions(places: &[usize]) -> Vec<(usize, i128)> {
    places
        .iter()
        .flat_map(|&k| [65535, 65536, HUGE[0], HUGE[1]].map(|x| (k, x)))
        .collect()
}

/// What a reader of the list must know.
fn header(answers: usize, body: &str) -> String {
    let mut text = String::from(
        "# Answers of the oracle, inter.rs of rusty_h264 at commit 3c73885dcf, for the Rattle program replay.\n\
         # Made by oracle/examples/replay_list: cargo run --manifest-path oracle/Cargo.toml --release --offline --example replay_list\n",
    );
    writeln!(
        text,
        "# Seed {SEED}. Refusals, and the bytes that stay then, are those of document 01's table."
    )
    .unwrap();
    text.push_str(
        "# P: bytes of a picture; a picture's number is its place among the bytes of all of them. Bytes are hexadecimal; aa*9. is aa nine times.\n\
         # Any other line is a call: its number, how many bytes of each output are looked at, its arguments, =, the answer's\n\
         # numbers (zeros at the end left out), and after each | the bytes of an output. Every other byte of an output stays\n\
         # as it was. A source P is a picture's number and how many bytes are lent; out is how many bytes of an output are lent.\n",
    );
    for (i, (name, args)) in CALLS.iter().enumerate() {
        writeln!(text, "# {:2} {name}: {args}", i + 1).unwrap();
    }
    text.push_str(
        "# The next line has the number of answers, and the Adler-32 of all bytes after it.\n",
    );
    writeln!(text, "{answers} {}", adler32(body.as_bytes())).unwrap();
    text + body
}

/// The whole list.
pub fn made() -> String {
    let mut list = List {
        rng: Rng::new(SEED),
        pictures: Vec::new(),
        text: String::new(),
        answers: 0,
    };
    list.vectors();
    list.edges();

    let row = list.picture(&[10, 20, 30, 40, 50, 60]);
    let dot = list.picture(&std::array::from_fn::<u8, 36, _>(|i| (i == 14) as u8));
    let [one, small, square, wide] = [1, 36, 256, 480].map(|count| list.noise(count));
    let sharp = list.extremes(256);
    let long = list.picture(&[&[7; 4096][..], &[250; 4096]].concat());
    let pictures = [
        (wide, 24, 20),
        (small, 6, 6),
        (sharp, 16, 16),
        (square, 16, 16),
        (row, 6, 1),
        (dot, 6, 6),
        (one, 1, 1),
        (long, 8192, 1),
        (long, 1, 8192),
    ];
    list.plain(MC_LUMA, 16, 4, &pictures);
    list.plain(MC_CHROMA, 8, 8, &pictures[..5]);
    list.averages(square, wide);

    let open = list.plane((24, 20), 8, 3);
    let small = list.plane((6, 6), 3, 0);
    let tight = list.plane((5, 7), 0, 0);
    let filled = list.expanded(small);
    let wide = list.flat_plane((1, 1), 128, 257);
    let long = list.flat_plane((1, 1), 0, 16384);
    let grey = list.picture(&[99; 6400]);
    list.expansions(&[small, tight, wide, long]);
    // The planes of a pair are two views a byte apart.
    list.noise(1);
    let planes = [open, small, tight, filled, wide, long];
    list.padded(MC_LUMA_PADDED, 16, 4, &planes);
    list.padded(MC_LUMA_PADDED_PRE, 16, 4, &planes);
    list.padded(MC_CHROMA_PADDED, 8, 8, &planes[..4]);
    list.padded(MC_CHROMA_PADDED_PAIR, 8, 8, &planes[..3]);
    list.planes_of(&pictures[4..7]);

    let halves = [
        list.built(square, (16, 16), 4),
        list.unbuilt((6, 6), 3),
        list.built(row, (6, 1), 2),
        list.built(dot, (6, 6), 0),
        // Margins of 32 and of 128, with one plane for all four.
        Half {
            planes: [grey; 4],
            cw: 16,
            ch: 16,
            pad: 32,
        },
        Half {
            planes: [wide.picture; 4],
            cw: 1,
            ch: 1,
            pad: 128,
        },
    ];
    for kind in [
        HPEL_REF_AT,
        HPEL_QPEL_REFS_AT,
        HPEL_REF,
        HPEL_QPEL_REFS,
        HPEL_BLOCK,
    ] {
        list.half_calls(kind, &halves);
    }

    header(list.answers, &list.text)
}
