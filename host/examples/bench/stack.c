/*
 * How many bytes of stack a call reaches down: the stack below is painted, the call is made, and
 * what is still paint is counted. Prints a row of a table for each call.
 */
#include <stdio.h>
#include <string.h>

#include "inter.h"

enum { DEEP = 65536, PAINT = 0xA5, SIDE = 64, PAD = 32, WIDE = SIDE + 2 * PAD };

static uint8_t picture[SIDE * SIDE], padded[WIDE * WIDE], out[256], second[256];
static uint8_t f[WIDE * WIDE], h[WIDE * WIDE], v[WIDE * WIDE], c[WIDE * WIDE];
static inter_mc_scratch scratch;

/* Painted through a volatile pointer, so that no compiler leaves it out. */
static __attribute__((noinline)) void paint(void) {
    uint8_t area[DEEP];
    volatile uint8_t *byte = area;
    for (size_t i = 0; i < DEEP; i++) byte[i] = PAINT;
}

/* The same place on the stack: from its far end on, the first byte that is paint no longer. */
static __attribute__((noinline)) size_t reached(void) {
    uint8_t area[DEEP];
    volatile uint8_t *byte = area;
    size_t i = 0;
    while (i < DEEP && byte[i] == PAINT) i++;
    return DEEP - i;
}

static void nothing(int mvx, int mvy) { (void)mvx, (void)mvy; }

static void luma(int mvx, int mvy) {
    inter_mc_luma(picture, sizeof picture, SIDE, SIDE, SIDE - 8, SIDE - 8, 16, 16, mvx, mvy, out, sizeof out);
}

static void luma_padded(int mvx, int mvy) {
    inter_mc_luma_padded(padded, sizeof padded, WIDE, PAD, SIDE, SIDE, SIDE + PAD, 0, 16, 16, mvx, mvy, out, sizeof out);
}

static void luma_padded_pre(int mvx, int mvy) {
    inter_mc_luma_padded_pre(&scratch, padded, sizeof padded, WIDE, PAD, SIDE, SIDE, SIDE + PAD, 0, 16, 16, mvx, mvy, out, sizeof out);
}

static void chroma(int mvx, int mvy) {
    inter_mc_chroma(picture, sizeof picture, SIDE, SIDE, SIDE - 4, SIDE - 4, 8, 8, mvx, mvy, out, sizeof out);
}

static void chroma_pair(int mvx, int mvy) {
    inter_mc_chroma_padded_pair(padded, sizeof padded, padded, sizeof padded, WIDE, PAD, SIDE, SIDE, SIDE + PAD, 0, 8, 8, mvx, mvy, out, sizeof out, second, sizeof second);
}

static void expand(int mvx, int mvy) {
    (void)mvx, (void)mvy;
    inter_expand_plane(padded, sizeof padded, WIDE, PAD, SIDE, SIDE);
}

static void build(int mvx, int mvy) {
    (void)mvx, (void)mvy;
    inter_build_hpel_planes(picture, sizeof picture, SIDE, SIDE, PAD, f, sizeof f, h, sizeof h, v, sizeof v, c, sizeof c);
}

static void half_sample_block(int mvx, int mvy) {
    inter_hpel_block(f, sizeof f, h, sizeof h, v, sizeof v, c, sizeof c, SIDE, SIDE, PAD, 0, 0, 16, 16, mvx, mvy, out, sizeof out);
}

static void average(int mvx, int mvy) {
    (void)mvx, (void)mvy;
    inter_avg_row_into(picture, sizeof picture, picture, sizeof picture, 255, out, sizeof out);
}

/* The most over the phases of a call, over what the measuring itself takes. */
static size_t deepest(void (*call)(int, int)) {
    size_t most = 0;
    for (int phase = 0; phase < 64; phase++) {
        /* Once unseen, because the loader binds memset and its like at their first call. */
        call(phase % 8, phase / 8);
        paint();
        call(phase % 8, phase / 8);
        size_t bytes = reached();
        if (bytes > most) most = bytes;
    }
    return most;
}

int main(void) {
    static const struct {
        const char *name;
        void (*call)(int, int);
    } calls[] = {
        {"mc_luma", luma},
        {"mc_luma_padded", luma_padded},
        {"mc_luma_padded_pre", luma_padded_pre},
        {"mc_chroma", chroma},
        {"mc_chroma_padded_pair", chroma_pair},
        {"expand_plane", expand},
        {"build_hpel_planes", build},
        {"hpel_block", half_sample_block},
        {"avg_row_into", average},
    };
    size_t own = deepest(nothing);
    for (size_t i = 0; i < sizeof calls / sizeof *calls; i++)
        printf("| %s | %zu |\n", calls[i].name, deepest(calls[i].call) - own);
    return 0;
}
