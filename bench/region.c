/*
 * The writing of a region by whole bytes beside the loop over its dots and plain C (region.h), in one run on random dots. The
 * versions take turns; the best round of each counts. Before that they must agree on regions at every x and of every width.
 *
 * Usage: region ROUNDS     prints how many regions were painted and refused, and nanoseconds a region
 */
#define _POSIX_C_SOURCE 199309L
#include <stdio.h>
#include <stdlib.h>
#include <string.h>
#include <time.h>

#include "region.h"

enum { ROWS = 176, ROW_BYTES = 33, ROW_DOTS = 8 * ROW_BYTES, PICTURE = ROWS * ROW_BYTES };
enum { ANY_REGION = 3, VERSIONS = 4, REPEATS = 10 }; /* the first three paint any region, the last the whole panel alone */

static const struct {
    const char *name;
    painter *paint;
} versions[VERSIONS] = {{"bytes", region_by_bytes}, {"dots", region_by_dots}, {"plain", plain_rows}, {"bare", bare_rows}};

static uint8_t payload[PICTURE], picture[VERSIONS][PICTURE];

static double now(void)
{
    struct timespec t;
    clock_gettime(CLOCK_MONOTONIC, &t);
    return 1e9 * (double)t.tv_sec + (double)t.tv_nsec;
}

static uint32_t random_below(uint32_t n)
{
    return (uint32_t)(rand() >> 7) % n;
}

/* Random dots for the rows of a region, their unused low bits 0; answers the length. */
static size_t make_payload(uint32_t width, uint32_t height)
{
    size_t row = (width + 7) / 8;
    for (size_t i = 0; i < height * row; i++)
        payload[i] = (uint8_t)(rand() >> 7);
    for (size_t last = row - 1; last < height * row; last += row)
        payload[last] &= (uint8_t)(0xFF << (8 * row - width));
    return height * row;
}

static void must_agree(int v, uint32_t x, uint32_t y, uint32_t width, uint32_t height)
{
    if (memcmp(picture[v], picture[0], PICTURE) != 0) {
        printf("%s differs from by bytes: x %u y %u width %u height %u\n", versions[v].name, (unsigned)x, (unsigned)y,
               (unsigned)width, (unsigned)height);
        exit(1);
    }
}

/* Paints a region by each version: all must give the same number and leave the same picture. */
static uint8_t agreed(uint32_t x, uint32_t y, uint32_t width, uint32_t height, size_t payload_len)
{
    uint8_t number = versions[0].paint(x, y, width, height, payload, payload_len, picture[0], PICTURE);
    for (int v = 1; v < ANY_REGION; v++) {
        if (versions[v].paint(x, y, width, height, payload, payload_len, picture[v], PICTURE) != number) {
            printf("%s gives another number: x %u y %u width %u height %u\n", versions[v].name, (unsigned)x, (unsigned)y,
                   (unsigned)width, (unsigned)height);
            exit(1);
        }
        must_agree(v, x, y, width, height);
    }
    return number;
}

/* Every x and width, on the picture that the ones before left. Then with the lowest bit set, and past the right edge. */
static void compare(void)
{
    unsigned painted = 0, refused = 0;
    for (uint32_t x = 0; x < ROW_DOTS; x++)
        for (uint32_t width = 1; x + width <= ROW_DOTS; width++) {
            uint32_t height = 1 + random_below(3), y = random_below(ROWS + 1 - height);
            size_t payload_len = make_payload(width, height);
            painted += agreed(x, y, width, height, payload_len) == 0;
            payload[payload_len - 1] |= 1;
            refused += agreed(x, y, width, height, payload_len) == 6;
            refused += agreed(ROW_DOTS + 1 - width, y, width, height, payload_len) == 5;
        }
    printf("painted %u\nrefused %u\n", painted, refused);
}

/* Nanoseconds for one region. */
static double time_one(painter *paint, uint32_t x, uint32_t width, size_t payload_len, uint8_t *to)
{
    unsigned refused = 0;
    double begin = now();
    for (int i = 0; i < REPEATS; i++)
        refused |= paint(x, 0, width, ROWS, payload, payload_len, to, PICTURE);
    double end = now();
    if (refused != 0) {
        printf("a region was refused\n");
        exit(1);
    }
    return (end - begin) / REPEATS;
}

static void time_all(const char *work, uint32_t x, uint32_t width, int count, int rounds)
{
    double best[VERSIONS] = {0};
    for (int round = 0; round < rounds; round++) {
        size_t payload_len = make_payload(width, ROWS);
        for (int v = 0; v < count; v++) {
            double ns = time_one(versions[v].paint, x, width, payload_len, picture[v]);
            if (round == 0 || ns < best[v])
                best[v] = ns;
            must_agree(v, x, 0, width, ROWS);
        }
    }
    for (int v = 0; v < count; v++)
        printf("%s_%s %.1f\n", work, versions[v].name, best[v]);
}

int main(int argc, char **argv)
{
    int rounds = argc == 2 ? atoi(argv[1]) : 0;
    srand(17);
    compare();
    time_all("part", 3, 250, ANY_REGION, rounds);
    time_all("whole", 0, ROW_DOTS, VERSIONS, rounds);
    return 0;
}
