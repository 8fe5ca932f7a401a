/*
 * The library's epd_build_line beside two plain C versions of it (plain.c), in one run: random rows of the 2.7 inch
 * panel, every stage and every row. The versions take turns; the best round of each counts.
 *
 * Usage: line ROUNDS     prints nanoseconds a line
 */
#define _POSIX_C_SOURCE 199309L
#include <stdio.h>
#include <stdlib.h>
#include <string.h>
#include <time.h>

#include "plain.h"
#include "start_board.h"

enum { PANEL = EPD_PANEL_2_7, ROWS = 176, ROW_BYTES = EPD_ROW_BYTES_2_7, LINE_BYTES = EPD_LINE_BYTES_2_7 };
enum { PASSES = 20, LINES = PASSES * 4 * ROWS };

typedef uint8_t builder(uint32_t, uint32_t, uint32_t, const uint8_t *, size_t, uint8_t *, size_t);

static const struct {
    const char *name;
    builder *build;
} versions[3] = {
    {"line_library", epd_build_line},
    {"line_dots", plain_dots},
    {"line_bytes", plain_bytes},
};

static uint8_t picture[ROWS][ROW_BYTES];

static double now(void)
{
    struct timespec t;
    clock_gettime(CLOCK_MONOTONIC, &t);
    return 1e9 * (double)t.tv_sec + (double)t.tv_nsec;
}

/* Every version must build the same lines. */
static void check_same(void)
{
    for (uint32_t stage = 1; stage <= 4; stage++)
        for (uint32_t row = 0; row < ROWS; row++) {
            uint8_t line[3][LINE_BYTES];
            for (int v = 0; v < 3; v++) {
                memset(line[v], 0x55, LINE_BYTES);
                uint8_t answer =
                    versions[v].build(PANEL, stage, row, picture[row], ROW_BYTES, line[v], LINE_BYTES);
                if (answer != EPD_OK || memcmp(line[v], line[0], LINE_BYTES) != 0) {
                    printf("%s differs from the library in stage %u row %u\n", versions[v].name,
                           (unsigned)stage, (unsigned)row);
                    exit(1);
                }
            }
        }
}

/* Nanoseconds for one line, over all lines of one round. */
static double time_one(builder *build)
{
    uint8_t line[LINE_BYTES];
    unsigned refused = 0;
    double begin = now();
    for (int pass = 0; pass < PASSES; pass++)
        for (uint32_t stage = 1; stage <= 4; stage++)
            for (uint32_t row = 0; row < ROWS; row++)
                refused |= build(PANEL, stage, row, picture[row], ROW_BYTES, line, LINE_BYTES);
    double end = now();
    if (refused != 0) {
        printf("a line was refused\n");
        exit(1);
    }
    return (end - begin) / LINES;
}

int main(int argc, char **argv)
{
    int rounds = argc == 2 ? atoi(argv[1]) : 0;
    double best[3] = {1e99, 1e99, 1e99};

    srand(17);
    for (int row = 0; row < ROWS; row++)
        for (int i = 0; i < ROW_BYTES; i++)
            picture[row][i] = (uint8_t)(rand() >> 7);
    check_same();

    for (int round = 0; round < rounds; round++)
        for (int v = 0; v < 3; v++) {
            double ns = time_one(versions[v].build);
            if (ns < best[v])
                best[v] = ns;
        }

    for (int v = 0; v < 3; v++)
        printf("%s %.2f\n", versions[v].name, best[v]);
    return 0;
}
