/*
 * The library's calls for the hall display beside plain C (plain_hall.c), in one run: commands early, in the
 * middle and late in an upload to the 13.3 inch panel, and both checksums over header and image. The versions
 * take turns; the best round of each counts.
 *
 * Usage: hall ROUNDS     prints nanoseconds a command, and a whole checksum
 */
#define _POSIX_C_SOURCE 199309L
#include <stdio.h>
#include <stdlib.h>
#include <string.h>
#include <time.h>

#include "plain_hall.h"
#include "start_board.h"

enum { BYTES = EPD_HALL_BYTES_13_3, COMMANDS = 957, CALLS = 20000, VERSIONS = 2, PLACES = 3, SUMS = 2 };

static const char *const versions[VERSIONS] = {"library", "plain"};
static const struct {
    const char *name;
    uint32_t number;
} places[PLACES] = {{"first", 0}, {"middle", COMMANDS / 2}, {"late", COMMANDS - 2}};
static const char *const sums[SUMS] = {"printed", "table"};

static uint8_t file[EPD_HALL_HEADER_BYTES + BYTES], out[VERSIONS][EPD_HALL_OUT_BYTES];
static const uint8_t *const image = file + EPD_HALL_HEADER_BYTES;

static double now(void)
{
    struct timespec t;
    clock_gettime(CLOCK_MONOTONIC, &t);
    return 1e9 * (double)t.tv_sec + (double)t.tv_nsec;
}

static uint32_t command(int v, uint32_t number)
{
    return (v ? plain_hall_command : epd_hall_command)(EPD_HALL_13_3, 1, image, BYTES, 2, number, out[v], sizeof out[v]);
}

static uint16_t sum(int v, int s)
{
    if (s)
        return (v ? plain_hall_checksum : epd_hall_checksum)(EPD_HALL_CHECKSUM_START, file, sizeof file);
    return (v ? plain_hall_checksum_printed : epd_hall_checksum_printed)(EPD_HALL_CHECKSUM_START, file, sizeof file);
}

/* All must give the same, at every number and past the last. */
static void check_same(void)
{
    for (uint32_t k = 0; k < COMMANDS + 3; k++)
        if (command(0, k) != command(1, k) || memcmp(out[0], out[1], sizeof out[0]) != 0) {
            printf("plain C differs from the library at %u\n", (unsigned)k);
            exit(1);
        }
    if (sum(0, 0) != sum(0, 1) || sum(0, 0) != sum(1, 0) || sum(0, 0) != sum(1, 1)) {
        printf("the checksums differ\n");
        exit(1);
    }
}

static double time_command(int v, uint32_t number)
{
    uint32_t kinds = 0;
    double begin = now();
    for (int i = 0; i < CALLS; i++)
        kinds |= EPD_KIND(command(v, number));
    double end = now();
    if (kinds != EPD_HALL_COMMAND) {
        printf("no command of number %u\n", (unsigned)number);
        exit(1);
    }
    return (end - begin) / CALLS;
}

static double time_sum(int v, int s)
{
    static volatile uint16_t kept;
    double begin = now();
    kept = sum(v, s);
    (void)kept;
    return now() - begin;
}

int main(int argc, char **argv)
{
    int rounds = argc == 2 ? atoi(argv[1]) : 0;
    double best[VERSIONS][PLACES + SUMS];

    srand(17);
    for (size_t i = EPD_HALL_HEADER_BYTES; i < sizeof file; i++)
        file[i] = (uint8_t)(rand() >> 7);
    plain_hall_begin();
    if (epd_hall_header(EPD_HALL_13_3, 1, file, sizeof file) != EPD_OK)
        return 1;
    check_same();

    for (int round = 0; round < rounds; round++)
        for (int v = 0; v < VERSIONS; v++)
            for (int w = 0; w < PLACES + SUMS; w++) {
                double ns = w < PLACES ? time_command(v, places[w].number) : time_sum(v, w - PLACES);
                if (round == 0 || ns < best[v][w])
                    best[v][w] = ns;
            }
    for (int v = 0; rounds > 0 && v < VERSIONS; v++)
        for (int w = 0; w < PLACES + SUMS; w++)
            printf("%s_%s %.2f\n", w < PLACES ? places[w].name : sums[w - PLACES], versions[v], best[v][w]);
    return 0;
}
