/*
 * Predicts one block from a small picture, then lends a picture that is too short.
 * Build: tools/archive && cc -std=c99 -Iinclude examples/predict.c target/staticlib/libinter.a
 */
#include <stdio.h>

#include "inter.h"

enum { WIDTH = 6, HEIGHT = 2, SIZE = WIDTH * HEIGHT };

static const uint8_t picture[SIZE] = {
    10, 20, 30, 40, 50, 60,
    60, 50, 40, 30, 20, 10,
};

static void print_rows(const char *title, const uint8_t *rows)
{
    puts(title);
    for (int y = 0; y < HEIGHT; y++) {
        for (int x = 0; x < WIDTH; x++)
            printf("%4d", rows[y * WIDTH + x]);
        putchar('\n');
    }
}

static const char *meaning(uint32_t refusal)
{
    switch (refusal) {
    case INTER_DONE: return "done";
    case INTER_REFUSED_SIDE: return "a side of the picture is not 1..8192";
    case INTER_REFUSED_SOURCE: return "the picture is shorter than its sides say";
    case INTER_REFUSED_BLOCK_SIDE: return "a side of the block is not 1..16";
    case INTER_REFUSED_POSITION: return "the position exceeds 65535";
    case INTER_REFUSED_OUTPUT: return "the output is shorter than the block";
    default: return "not an answer of this call";
    }
}

/* Predicts the whole picture, moved by half a sample to the right. */
static uint32_t predict(size_t lent, uint8_t *block)
{
    uint32_t answer = inter_mc_luma(
        picture, lent, WIDTH, HEIGHT, 0, 0, WIDTH, HEIGHT, 2, 0, block, SIZE);
    printf("%u of %d bytes lent: %u, %s\n", (unsigned)lent, SIZE, (unsigned)answer,
           meaning(answer));
    return answer;
}

int main(void)
{
    uint8_t block[SIZE] = {0};

    print_rows("picture:", picture);
    if (predict(SIZE, block) != INTER_DONE)
        return 1;
    print_rows("half a sample to the right:", block);
    predict(SIZE - 1, block);
    print_rows("still:", block);
    return 0;
}
