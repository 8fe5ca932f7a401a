/*
 * The library's epd_normal_update beside a plain C version (plain_finish.c), in one run: an update of the 7.41 inch
 * panel whose four stages repeat 127 times, so that it has 2,073 things. The versions take turns; the best round of
 * each counts.
 *
 * Usage: finish ROUNDS     prints nanoseconds a call
 */
#define _POSIX_C_SOURCE 199309L
#include <stdio.h>
#include <stdlib.h>
#include <string.h>
#include <time.h>

#include "plain_finish.h"
#include "start_board.h"

enum { BYTES = EPD_FINISH_BYTES_7_41, THINGS = 41 + 4 * 4 * 127, CALLS = 20000, VERSIONS = 2, WORKS = 4 };

typedef uint32_t updater(const uint8_t *, size_t, int32_t, const uint8_t *, size_t, uint32_t, uint8_t *, size_t);

static const struct {
    const char *name;
    updater *update;
} versions[VERSIONS] = {{"library", epd_normal_update}, {"plain", plain_normal_update}};

/* A short write at the beginning, in the last stage and at the end, and the picture's write. */
static const struct {
    const char *name;
    uint32_t count;
    int calls;
} works[WORKS] = {
    {"first", 0, CALLS},
    {"soft", 33 + 4 * 4 * 127 - 3, CALLS},
    {"last", THINGS - 1, CALLS},
    {"picture", 4, 200},
};

static uint8_t otp[EPD_FINISH_OTP_BYTES], picture[BYTES], out[VERSIONS][EPD_FINISH_OUT_BYTES];

static double now(void)
{
    struct timespec t;
    clock_gettime(CLOCK_MONOTONIC, &t);
    return 1e9 * (double)t.tv_sec + (double)t.tv_nsec;
}

static uint32_t call(int v, uint32_t given)
{
    return versions[v].update(otp, sizeof otp, 21, picture, BYTES, given, out[v], sizeof out[v]);
}

/* Both must give out the same, at every count and past the end. */
static void check_same(void)
{
    for (uint32_t k = 0; k < THINGS + 3; k++)
        if (call(0, k) != call(1, k) || memcmp(out[0], out[1], sizeof out[0]) != 0) {
            printf("plain C differs from the library at %u\n", (unsigned)k);
            exit(1);
        }
}

static double time_one(int v, int w)
{
    uint32_t kinds = 0;
    double begin = now();
    for (int i = 0; i < works[w].calls; i++)
        kinds |= EPD_KIND(call(v, works[w].count));
    double end = now();
    if (kinds != EPD_FINISH_WRITE) {
        printf("no write at %u\n", (unsigned)works[w].count);
        exit(1);
    }
    return (end - begin) / works[w].calls;
}

int main(int argc, char **argv)
{
    int rounds = argc == 2 ? atoi(argv[1]) : 0;
    double best[VERSIONS][WORKS];

    srand(17);
    for (size_t i = 0; i < sizeof otp; i++)
        otp[i] = (uint8_t)(rand() >> 7);
    for (int at = 0x28; at < 0x48; at += 8)
        otp[at] = 0xFF, otp[at + 7] |= 0x80;
    for (size_t i = 0; i < BYTES; i++)
        picture[i] = (uint8_t)(rand() >> 7);
    check_same();

    for (int round = 0; round < rounds; round++)
        for (int v = 0; v < VERSIONS; v++)
            for (int w = 0; w < WORKS; w++) {
                double ns = time_one(v, w);
                if (round == 0 || ns < best[v][w])
                    best[v][w] = ns;
            }
    for (int v = 0; rounds > 0 && v < VERSIONS; v++)
        for (int w = 0; w < WORKS; w++)
            printf("%s_%s %.2f\n", works[w].name, versions[v].name, best[v][w]);
    return 0;
}
