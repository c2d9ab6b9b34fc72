/*
 * H.264 inter prediction (Rec. ITU-T H.264, clauses 8.4.1.3 and 8.4.2.2): the calls of the proved
 * archive libinter.a, for C99 and C++.
 *
 * Every call ends on all arguments and checks them itself. A call that refuses has written
 * nothing, and where it answers a record the rest of that record is zeros.
 *
 * Bytes are lent as a pointer and then their number. An output must not overlap a source or
 * another output. Done writes exactly the bytes that are named below, and none after them.
 *
 * Samples are bytes, by rows from the top. A side of a picture is 1..8192 and a position 0..65535;
 * a block may lie outside the picture, whose nearest row or column then stands in. Every vector
 * is served, except from half-sample planes.
 */
#ifndef INTER_H
#define INTER_H

#include <stdbool.h>
#include <stddef.h>
#include <stdint.h>

#ifdef __cplusplus
extern "C" {
#endif

/* The answer of a call: done, or why it was refused, by the lowest number that applies. */
enum inter_refusal {
    INTER_DONE = 0,               /* done */
    INTER_REFUSED_SIDE = 1,       /* a side, pad or stride is outside its range */
    INTER_REFUSED_SOURCE = 2,     /* a source plane or row is shorter than needed */
    INTER_REFUSED_BLOCK_SIDE = 3, /* a block side is outside its range */
    INTER_REFUSED_POSITION = 4,   /* a position exceeds 65535 */
    INTER_REFUSED_OUTPUT = 5,     /* an output is shorter than needed */
    INTER_REFUSED_UNSERVED = 6,   /* the half-sample planes do not serve this block */
    INTER_REFUSED_REFERENCE = 7   /* the current reference is outside 0..31 */
};

/* ---- Plain pictures: cw by ch samples, no gap between rows, cw * ch bytes ------------------ */

/*
 * Predicts the luma block of bw by bh samples, 1..16 each, at (x0, y0), moved by (mvx, mvy) in
 * quarter samples. Writes bw * bh bytes, packed by rows. Refuses with 1 to 5.
 */
uint32_t inter_mc_luma(
    const uint8_t *reference,
    size_t reference_len,
    size_t cw,
    size_t ch,
    size_t x0,
    size_t y0,
    size_t bw,
    size_t bh,
    int32_t mvx,
    int32_t mvy,
    uint8_t *out,
    size_t out_len);

/*
 * Predicts the chroma block of bw by bh samples, 1..8 each, at (x0, y0) of a chroma plane, moved
 * by (mvx, mvy) in eighths of its samples. Writes bw * bh bytes, packed by rows. Refuses with 1
 * to 5.
 */
uint32_t inter_mc_chroma(
    const uint8_t *reference,
    size_t reference_len,
    size_t cw,
    size_t ch,
    size_t x0,
    size_t y0,
    size_t bw,
    size_t bh,
    int32_t mvx,
    int32_t mvy,
    uint8_t *out,
    size_t out_len);

/* A count, and 0 where refused. */
typedef struct inter_edges {
    uint32_t refusal;
    uint32_t count;
} inter_edges;

/*
 * Counts the samples of a luma block, as inter_mc_luma takes it, whose place lies outside the
 * picture. Refuses with 1, 3 and 4.
 */
inter_edges inter_edge_count(
    size_t cw,
    size_t ch,
    size_t x0,
    size_t y0,
    size_t bw,
    size_t bh,
    int32_t mvx,
    int32_t mvy);

/* ---- Pictures with margins: pw by ph samples whose first stands pad columns and pad rows on, ---
 * in rows that start stride bytes apart: stride * (ph + 2 * pad) bytes. pad is 0..128, stride from
 * pw + 2 * pad up to 16384. A block is read in place where it lies inside picture plus margin with
 * its neighbours (luma two samples before and three after, chroma one after), whatever stands
 * there; otherwise from the picture, whose nearest row or column stands in. */

/*
 * Fills the margins: left and right of each picture row, then the whole first and last rows, all
 * stride bytes, into the rows above and below. Refuses with 1 and 2.
 */
uint32_t inter_expand_plane(
    uint8_t *buf,
    size_t buf_len,
    size_t stride,
    size_t pad,
    size_t pw,
    size_t ph);

/*
 * As inter_mc_luma, from a picture with margins. Refuses with 1 to 5.
 */
uint32_t inter_mc_luma_padded(
    const uint8_t *padded,
    size_t padded_len,
    size_t stride,
    size_t pad,
    size_t pw,
    size_t ph,
    size_t x0,
    size_t y0,
    size_t bw,
    size_t bh,
    int32_t mvx,
    int32_t mvy,
    uint8_t *out,
    size_t out_len);

/* What inter_mc_luma_padded_pre works in. A refusal leaves it as it was; done leaves anything. */
typedef struct inter_mc_scratch {
    uint8_t tile[441];
    uint8_t a[256];
    uint8_t b[256];
} inter_mc_scratch;

/*
 * As inter_mc_luma_padded, with the scratch lent instead of on the stack. Refuses with 1 to 5.
 */
uint32_t inter_mc_luma_padded_pre(
    inter_mc_scratch *scr,
    const uint8_t *padded,
    size_t padded_len,
    size_t stride,
    size_t pad,
    size_t pw,
    size_t ph,
    size_t x0,
    size_t y0,
    size_t bw,
    size_t bh,
    int32_t mvx,
    int32_t mvy,
    uint8_t *out,
    size_t out_len);

/*
 * As inter_mc_chroma, from a plane with margins. Refuses with 1 to 5.
 */
uint32_t inter_mc_chroma_padded(
    const uint8_t *padded,
    size_t padded_len,
    size_t stride,
    size_t pad,
    size_t pw,
    size_t ph,
    size_t x0,
    size_t y0,
    size_t bw,
    size_t bh,
    int32_t mvx,
    int32_t mvy,
    uint8_t *out,
    size_t out_len);

/*
 * Both chroma planes, of one geometry, at once: the shorter plane and the shorter output decide,
 * and a refusal writes neither. Refuses with 1 to 5.
 */
uint32_t inter_mc_chroma_padded_pair(
    const uint8_t *pu,
    size_t pu_len,
    const uint8_t *pv,
    size_t pv_len,
    size_t stride,
    size_t pad,
    size_t pw,
    size_t ph,
    size_t x0,
    size_t y0,
    size_t bw,
    size_t bh,
    int32_t mvx,
    int32_t mvy,
    uint8_t *outu,
    size_t outu_len,
    uint8_t *outv,
    size_t outv_len);

/* ---- Half-sample planes: f is a picture of cw by ch samples inside margins of pad, 0..128, ------
 * that hold its nearest samples. h, v and c hold the half samples of f at each of its places:
 * across, half way to the next column; down, half way to the next row; and at the centre. Beyond f
 * its own nearest row or column stands in. Each plane has (cw + 2 * pad) * (ch + 2 * pad) bytes, no
 * gap between rows, and all four are lent in that length, read or not.
 *
 * Three calls read the planes as lent, whatever they hold. They take a luma block and its vector as
 * inter_mc_luma does, and serve it where it lies inside the planes with one more column and row
 * after it: its first column is -pad..cw + pad - bw - 1, its first row -pad..ch + pad - bh - 1. The
 * phase is full where 4 divides mvx and mvy, quarter where one of them is odd, half otherwise; each
 * call says which it serves. A block that is not served is refused with 6. */

/*
 * Puts the picture of w by h samples inside its margins, as in f. Writes
 * (w + 2 * pad) * (h + 2 * pad) bytes. Refuses with 1, 2 and 5.
 */
uint32_t inter_pad_plane(
    const uint8_t *src,
    size_t src_len,
    size_t w,
    size_t h,
    size_t pad,
    uint8_t *out,
    size_t out_len);

/*
 * Builds the four planes of a plain picture. Writes the bytes of each; where one is short, none.
 * Refuses with 1, 2 and 5.
 */
uint32_t inter_build_hpel_planes(
    const uint8_t *reference,
    size_t reference_len,
    size_t cw,
    size_t ch,
    size_t pad,
    uint8_t *f,
    size_t f_len,
    uint8_t *h,
    size_t h_len,
    uint8_t *v,
    size_t v_len,
    uint8_t *c,
    size_t c_len);

/*
 * Where a block lies: its row y begins at offset + y * stride in plane 0 (f), 1 (h), 2 (v) or
 * 3 (c). Zeros where refused.
 */
typedef struct inter_hpel_at {
    uint32_t refusal;
    uint32_t plane;
    size_t offset;
    size_t stride;
} inter_hpel_at;

/*
 * Finds the block of a full phase, which lies in f, or of a half phase, in h, v or c. Refuses with
 * 1 to 4 and 6; a quarter phase is not served.
 */
inter_hpel_at inter_hpel_ref(
    const uint8_t *f,
    size_t f_len,
    const uint8_t *h,
    size_t h_len,
    const uint8_t *v,
    size_t v_len,
    const uint8_t *c,
    size_t c_len,
    size_t cw,
    size_t ch,
    size_t pad,
    size_t x0,
    size_t y0,
    size_t bw,
    size_t bh,
    int32_t mvx,
    int32_t mvy);

/* Where two blocks lie, as above; plane_a is the lower number. Zeros where refused. */
typedef struct inter_hpel_pair {
    uint32_t refusal;
    uint32_t plane_a;
    uint32_t plane_b;
    size_t offset_a;
    size_t offset_b;
    size_t stride;
} inter_hpel_pair;

/*
 * Finds the two blocks whose average, a half rounded up, is the block of a quarter phase. Refuses
 * with 1 to 4 and 6; a full or half phase is not served.
 */
inter_hpel_pair inter_hpel_qpel_refs(
    const uint8_t *f,
    size_t f_len,
    const uint8_t *h,
    size_t h_len,
    const uint8_t *v,
    size_t v_len,
    const uint8_t *c,
    size_t c_len,
    size_t cw,
    size_t ch,
    size_t pad,
    size_t x0,
    size_t y0,
    size_t bw,
    size_t bh,
    int32_t mvx,
    int32_t mvy);

/*
 * Copies the block of a half phase, or averages the two of a quarter phase. Writes bw * bh bytes,
 * packed by rows. Refuses with 1 to 6; a full phase is not served, nor a quarter phase where bw is
 * not 4, 8 or 16.
 */
uint32_t inter_hpel_block(
    const uint8_t *f,
    size_t f_len,
    const uint8_t *h,
    size_t h_len,
    const uint8_t *v,
    size_t v_len,
    const uint8_t *c,
    size_t c_len,
    size_t cw,
    size_t ch,
    size_t pad,
    size_t x0,
    size_t y0,
    size_t bw,
    size_t bh,
    int32_t mvx,
    int32_t mvy,
    uint8_t *out,
    size_t out_len);

/* ---- Rows --------------------------------------------------------------------------------- */

/*
 * Averages the first w samples of two rows, a half rounded up. Writes w bytes; any w is served,
 * and at 0 nothing is written. Refuses with 2 and 5.
 */
uint32_t inter_avg_row_into(
    const uint8_t *a,
    size_t a_len,
    const uint8_t *b,
    size_t b_len,
    size_t w,
    uint8_t *out,
    size_t out_len);

/* ---- Vectors and partitions ---------------------------------------------------------------- */

/* A vector, in quarter samples of luma. */
typedef struct inter_mv {
    int32_t x;
    int32_t y;
} inter_mv;

/* A neighbouring block; an intra block is available and has a negative reference. */
typedef struct inter_mv_neighbor {
    bool available;
    inter_mv mv;
    int32_t ref_idx;
} inter_mv_neighbor;

/* A predicted vector, and (0,0) where refused. */
typedef struct inter_mv_answer {
    uint32_t refusal;
    inter_mv mv;
} inter_mv_answer;

/* A part of a macroblock, in luma samples. */
typedef struct inter_rect {
    size_t x;
    size_t y;
    size_t w;
    size_t h;
} inter_rect;

/* The first count parts are those of the macroblock; zeros stand after them. */
typedef struct inter_partitions {
    size_t count;
    inter_rect parts[4];
} inter_partitions;

/* The middle one of three values. Never refuses. */
int32_t inter_median3(int32_t a, int32_t b, int32_t c);

/*
 * Predicts the vector of a block from the neighbours left (a), above (b) and above right (c), for
 * the reference cur_ref, 0..31. Refuses with 7.
 */
inter_mv_answer inter_predict_mv(
    inter_mv_neighbor a,
    inter_mv_neighbor b,
    inter_mv_neighbor c,
    int32_t cur_ref);

/*
 * The same for part number part of a macroblock of that mode: modes 1 (16x8) and 2 (8x16) take
 * the vector of one neighbour where it has the current reference. Refuses with 7.
 */
inter_mv_answer inter_predict_partition_mv(
    uint8_t mode,
    size_t part,
    inter_mv_neighbor a,
    inter_mv_neighbor b,
    inter_mv_neighbor c,
    int32_t cur_ref);

/*
 * Lists the parts of a macroblock: two 16x8 for mode 1, two 8x16 for mode 2, four 8x8 for mode 3,
 * one 16x16 for all others. Never refuses.
 */
inter_partitions inter_inter_partitions(uint8_t mode);

#ifdef __cplusplus
}
#endif

#endif
