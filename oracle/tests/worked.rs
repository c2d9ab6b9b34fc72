//! Each ordered function on sums worked by hand, so that a build of the wrong text is noticed.

use oracle::inter::*;

const ROW: [u8; 6] = [10, 20, 30, 40, 50, 60];

/// One luma sample of the picture `cw` wide at (x0, y0).
fn luma(reference: &[u8], cw: usize, x0: usize, y0: usize, mv: (i32, i32)) -> u8 {
    let mut out = [0];
    let ch = reference.len() / cw;
    mc_luma(reference, cw, ch, x0, y0, 1, 1, mv.0, mv.1, &mut out);
    out[0]
}

/// The half-sample planes of the row, with a margin of four.
fn row_planes() -> HpelPlanes {
    build_hpel_planes(&ROW, 6, 1, 4)
}

/// A 16x16 picture in which no two neighbouring samples agree.
fn picture() -> Vec<u8> {
    (0..256usize).map(|i| (i * 37 % 251) as u8).collect()
}

/// The picture inside a margin of 32 that holds `margin` throughout.
fn margined(margin: u8) -> Vec<u8> {
    let mut buf = vec![margin; 80 * 80];
    for (y, row) in picture().chunks(16).enumerate() {
        buf[(y + 32) * 80 + 32..][..16].copy_from_slice(row);
    }
    buf
}

fn neighbor(mv: (i32, i32), ref_idx: i32) -> MvNeighbor {
    MvNeighbor {
        available: true,
        mv,
        ref_idx,
    }
}

#[test]
fn median_wraps_and_comes_back() {
    assert_eq!(median3(i32::MAX, i32::MAX, i32::MAX - 1), i32::MAX);
}

#[test]
fn vectors() {
    let (a, b, c) = (
        neighbor((4, 8), 0),
        neighbor((0, 0), 1),
        neighbor((12, -4), 1),
    );
    assert_eq!(predict_mv(a, b, c, 0), (4, 8));
    assert_eq!(predict_mv(a, b, c, 1), (4, 0));
    assert_eq!(predict_partition_mv(1, 1, a, b, c, 0), (4, 8));
    assert_eq!(predict_partition_mv(2, 1, a, b, c, 1), (12, -4));
    assert_eq!(predict_partition_mv(2, 0, a, b, c, 1), (4, 0));
}

#[test]
fn partitions() {
    assert_eq!(inter_partitions(1), [(0, 0, 16, 8), (0, 8, 16, 8)]);
    assert_eq!(inter_partitions(2), [(0, 0, 8, 16), (8, 0, 8, 16)]);
    assert_eq!(inter_partitions(3)[1..3], [(8, 0, 8, 8), (0, 8, 8, 8)]);
    assert_eq!(inter_partitions(255), [(0, 0, 16, 16)]);
}

#[test]
fn luma_samples() {
    let at_two = [(2, 35), (1, 33), (3, 38), (-1, 28)];
    for (mvx, byte) in at_two {
        assert_eq!(luma(&ROW, 6, 2, 0, (mvx, 0)), byte, "mvx {mvx}");
    }
    assert_eq!(luma(&ROW, 6, 0, 0, (2, 0)), 14);
    assert_eq!(luma(&ROW, 6, 5, 0, (2, 0)), 61);
    assert_eq!(luma(&[0, 0, 255, 255, 0, 0], 6, 2, 0, (2, 0)), 255);
    assert_eq!(luma(&[0, 255, 0, 0, 255, 0], 6, 2, 0, (2, 0)), 0);
    assert_eq!(luma(&[0, 0, 0, 1, 1, 1], 6, 2, 0, (2, 0)), 1);
    assert_eq!(luma(&[0, 0, 0, 1, 1, 1], 6, 2, 0, (1, 0)), 1);

    let mut dot = [0; 36];
    dot[2 * 6 + 2] = 1;
    for (mv, byte) in [((2, 0), 1), ((2, 2), 0), ((2, 1), 1)] {
        assert_eq!(luma(&dot, 6, 2, 2, mv), byte, "vector {mv:?}");
    }
    for phase in 0..16 {
        assert_eq!(
            luma(&[77], 1, 0, 0, (phase % 4, phase / 4)),
            77,
            "phase {phase}"
        );
    }
}

#[test]
fn chroma_samples() {
    for (mv, byte) in [((4, 4), 96), ((1, 0), 8)] {
        let mut out = [0];
        mc_chroma(&[0, 64, 128, 192], 2, 2, 0, 0, 1, 1, mv.0, mv.1, &mut out);
        assert_eq!(out[0], byte, "vector {mv:?}");
    }
}

#[test]
fn average() {
    let mut out = [0; 3];
    avg_row_into(&[30, 40], &[35, 35], 2, &mut out);
    assert_eq!(out, [33, 38, 0]);
}

#[test]
fn half_sample_planes() {
    assert_eq!(pad_plane(&[77], 1, 1, 2), [77; 25]);
    let planes = row_planes();
    assert_eq!((planes.pad, planes.pw, planes.ph), (4, 14, 9));
    assert_eq!(planes.h[4 * 14 + 4..][..6], [14, 25, 35, 45, 56, 61]);

    let (plane, base, stride) = hpel_ref(&planes, 2, 0, 1, 1, 2, 0).expect("served");
    assert_eq!((plane[base], stride), (35, 14));

    let (a, at_a, b, at_b, stride) = hpel_qpel_refs(&planes, 2, 0, 1, 1, 3, 0).expect("served");
    assert_eq!((a[at_a], b[at_b], stride), (40, 35, 14));
}

#[test]
fn half_sample_block_is_served_to_the_margin() {
    let planes = build_hpel_planes(&picture(), 16, 16, 32);
    for (mvx, served) in [(126, true), (-126, true), (130, false), (-130, false)] {
        let mut out = [0; 256];
        assert_eq!(
            hpel_block(&planes, 0, 0, 16, 16, mvx, 0, &mut out),
            served,
            "mvx {mvx}"
        );
    }
}

#[test]
fn padded_luma_reads_the_buffer_inside_the_margin() {
    let mut filled = margined(0);
    expand_plane(&mut filled, 80, 32, 16, 16);
    assert_eq!(filled, pad_plane(&picture(), 16, 16, 32));
    let unfilled = margined(200);
    for (ix, direct) in [(-31, false), (-30, true), (29, true), (30, false)] {
        let mut plain = [0; 256];
        mc_luma(&picture(), 16, 16, 0, 0, 16, 16, 4 * ix, 0, &mut plain);
        let mut out = [0; 256];
        mc_luma_padded(&filled, 80, 32, 16, 16, 0, 0, 16, 16, 4 * ix, 0, &mut out);
        assert_eq!(out, plain, "ix {ix}");
        with_mc_scratch(|scratch| {
            mc_luma_padded_pre(
                scratch,
                &unfilled,
                80,
                32,
                16,
                16,
                0,
                0,
                16,
                16,
                4 * ix,
                0,
                &mut out,
            )
        });
        assert_eq!(out == [200; 256], direct, "ix {ix}");
    }
}

#[test]
fn padded_chroma() {
    let mut buf = vec![0; 16];
    buf[5..7].copy_from_slice(&[0, 64]);
    buf[9..11].copy_from_slice(&[128, 192]);
    expand_plane(&mut buf, 4, 1, 2, 2);
    assert_eq!(
        buf,
        [0, 0, 64, 64, 0, 0, 64, 64, 128, 128, 192, 192, 128, 128, 192, 192]
    );
    let (mut u, mut v) = ([0], [0]);
    mc_chroma_padded(&buf, 4, 1, 2, 2, 0, 0, 1, 1, 4, 4, &mut u);
    assert_eq!(u, [96]);
    let second = [8; 16];
    mc_chroma_padded_pair(&buf, &second, 4, 1, 2, 2, 0, 0, 1, 1, 1, 0, &mut u, &mut v);
    assert_eq!((u, v), ([8], [8]));
}
