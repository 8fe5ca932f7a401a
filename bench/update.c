/*
 * A whole update, uploads of a bitmap with black first and with white first, whole and by chunks, the upload of the whole panel as
 * one region, and the copy and the count of an upload by themselves: the library (crates/update_loop) beside plain C
 * (plain_store.c), in one run. The versions take turns; the best round of each counts. They must put the same bytes out, leave
 * the same memory and count the same dots. Before that they must agree on files by chunks, good and damaged ones, and on each
 * dot alone.
 *
 * Usage: update SETTINGS ROUNDS     the settings file names the panel; prints how many fills were accepted and refused, how many
 *                                   dots were counted alone, and nanoseconds
 */
#define _POSIX_C_SOURCE 199309L
#include <stdio.h>
#include <stdlib.h>
#include <string.h>
#include <time.h>

#include "store.h"

enum { VERSIONS = 3, UPLOADS = 20, HEADER = 62, SETTINGS_MAX = 637 };
enum { PICTURE_MAX = 5808, BITMAP_MAX = 6398, BUS_MAX = 2000000 };

static const struct {
    unsigned row_bytes, rows, stride;
} panels[3] = {{16, 96, 16}, {25, 96, 28}, {33, 176, 36}};

static const char *const names[VERSIONS] = {"library", "plain", "trusting"};

static uint8_t settings[SETTINGS_MAX + 1], bitmap[BITMAP_MAX], negative[BITMAP_MAX], payload[PICTURE_MAX];
static uint8_t damaged[BITMAP_MAX + 1], uploaded[2 * PICTURE_MAX];
static uint8_t memory[VERSIONS][2 * PICTURE_MAX], bus[VERSIONS][BUS_MAX];
static size_t settings_len, bitmap_len, picture_len, memory_len, sent[VERSIONS];
static uint32_t counted[VERSIONS];
static unsigned width, height;

static double now(void)
{
    struct timespec t;
    clock_gettime(CLOCK_MONOTONIC, &t);
    return 1e9 * (double)t.tv_sec + (double)t.tv_nsec;
}

static void stop(const char *what)
{
    printf("%s\n", what);
    exit(1);
}

static void read_settings(const char *path)
{
    FILE *f = fopen(path, "rb");
    if (f == NULL)
        stop("cannot read the settings file");
    settings_len = fread(settings, 1, sizeof settings, f);
    fclose(f);
    if (settings_len < 2 || settings[1] > 2)
        stop("the settings file names no panel");
}

static void put_number(size_t at, uint32_t value)
{
    for (int i = 0; i < 4; i++)
        bitmap[at + i] = (uint8_t)(value >> 8 * i);
}

/* The memory after an upload of the bitmap to slot 1. */
static void make_uploaded(unsigned row_bytes, unsigned stride)
{
    memset(uploaded, 0xFF, picture_len);
    for (unsigned y = 0; y < height; y++)
        memcpy(uploaded + picture_len + y * row_bytes, bitmap + HEADER + (height - 1 - y) * stride, row_bytes);
}

/* Random dots, as a bitmap file, as one of the same picture with white first, and as the payload of a region. */
static void make_pictures(void)
{
    unsigned row_bytes = panels[settings[1]].row_bytes, stride = panels[settings[1]].stride;
    width = 8 * row_bytes;
    height = panels[settings[1]].rows;
    bitmap_len = HEADER + height * stride;
    picture_len = height * row_bytes;
    memory_len = 2 * picture_len;
    srand(17);
    for (size_t i = 0; i < picture_len; i++)
        payload[i] = (uint8_t)(rand() >> 7);
    for (size_t i = HEADER; i < bitmap_len; i++)
        bitmap[i] = (uint8_t)(rand() >> 7);
    memcpy(bitmap, "BM", 2);
    put_number(2, (uint32_t)bitmap_len);
    put_number(10, HEADER);
    put_number(14, 40);
    put_number(18, width);
    put_number(22, height);
    put_number(26, 0x00010001);
    put_number(58, 0x00FFFFFF);
    memcpy(negative, bitmap, 54);
    memcpy(negative + 54, bitmap + 58, 4);
    memcpy(negative + 58, bitmap + 54, 4);
    for (size_t i = HEADER; i < bitmap_len; i++)
        negative[i] = (uint8_t)~bitmap[i];
    make_uploaded(row_bytes, stride);
}

static void time_update(int v)
{
    static size_t (*const update[VERSIONS])(const uint8_t *, size_t, const uint8_t *, size_t, uint8_t *, size_t,
                                            uint8_t *, size_t) = {store_update, plain_update, trusting_update};
    sent[v] = update[v](settings, settings_len, bitmap, bitmap_len, memory[v], memory_len, bus[v], BUS_MAX);
}

static void upload(int v, const uint8_t *file)
{
    for (int i = 0; i < UPLOADS; i++)
        if ((v == 0 ? store_bitmap : plain_bitmap)(settings, settings_len, file, bitmap_len, memory[v], memory_len))
            stop("a bitmap was refused");
}

static void time_bitmap(int v)
{
    upload(v, bitmap);
}

static void time_negative(int v)
{
    upload(v, negative);
}

static void time_opening(int v)
{
    for (int i = 0; i < UPLOADS; i++)
        if ((v == 0 ? store_opening : plain_opening)(settings, settings_len, memory[v], memory_len))
            stop("an opening was refused");
}

static uint8_t fill(int v, const uint8_t *file, size_t len, size_t size)
{
    return (v == 0 ? store_fill : plain_fill)(settings, settings_len, file, len, size, memory[v], memory_len);
}

static void time_fill_whole(int v)
{
    for (int i = 0; i < UPLOADS; i++)
        if (fill(v, bitmap, bitmap_len, bitmap_len))
            stop("a fill was refused");
}

static void time_fill_64(int v)
{
    for (int i = 0; i < UPLOADS; i++)
        if (fill(v, bitmap, bitmap_len, 64))
            stop("a fill in chunks of 64 bytes was refused");
}

static void time_fill_bytes(int v)
{
    if (fill(v, bitmap, bitmap_len, 1))
        stop("a fill a byte at a time was refused");
}

static void time_copy(int v)
{
    for (int i = 0; i < UPLOADS; i++)
        if ((v == 0 ? picture_copy : plain_copy)(settings[1], bitmap, bitmap_len, memory[v] + picture_len, picture_len))
            stop("a copy was refused");
}

static uint32_t count(int v, const uint8_t *picture)
{
    return (v == 0 ? picture_count : plain_count)(settings[1], picture, picture_len);
}

/* Slot 0 of `uploaded` is white, slot 1 has the bitmap's picture. */
static void time_count(int v)
{
    for (int i = 0; i < UPLOADS; i++)
        counted[v] = count(v, uploaded + picture_len);
}

static void time_blank(int v)
{
    for (int i = 0; i < UPLOADS; i++)
        if (count(v, uploaded) != 0)
            stop("a blank picture has black dots");
}

static void time_region(int v)
{
    for (int i = 0; i < UPLOADS; i++)
        if ((v == 0 ? store_region : plain_region)(settings, settings_len, 0, 0, width, height, payload, picture_len,
                                                   memory[v], memory_len))
            stop("a region was refused");
}

/* One round of one kind of work: keeps the best time of each version, and compares what they leave. */
static void round_of(void (*work)(int), int versions, double *best)
{
    for (int v = 0; v < versions; v++) {
        double begin = now();
        work(v);
        double ns = now() - begin;
        if (best[v] == 0 || ns < best[v])
            best[v] = ns;
        if (memcmp(memory[v], memory[0], memory_len) != 0)
            stop("the library and plain C leave different memories");
        if (sent[v] != sent[0] || memcmp(bus[v], bus[0], sent[0]) != 0)
            stop("the library and plain C put different bytes out");
        if (v < 2 && counted[v] != counted[0])
            stop("the library and plain C count different dots");
    }
}

static unsigned fills_taken, fills_refused;

/* One fill by both versions: they must give the same number and leave the same memory. */
static void agreed(const uint8_t *file, size_t len, size_t size)
{
    uint8_t number = fill(0, file, len, size);
    if (fill(1, file, len, size) != number)
        stop("the library and plain C give different numbers for a fill");
    if (memcmp(memory[0], memory[1], memory_len) != 0)
        stop("the library and plain C leave different memories after a fill");
    *(number == 0 ? &fills_taken : &fills_refused) += 1;
}

/* In chunks of many lengths: both orders of the palette; each byte of the header changed; one byte too few and one too many. */
static void compare_fills(void)
{
    static const size_t sizes[] = {1, 2, 7, 27, 28, 29, 35, 36, 37, 61, 62, 63, 64, 65, 1000, BITMAP_MAX + 1};
    memcpy(damaged, bitmap, bitmap_len);
    for (size_t k = 0; k < sizeof sizes / sizeof sizes[0]; k++) {
        agreed(bitmap, bitmap_len, sizes[k]);
        agreed(negative, bitmap_len, sizes[k]);
        agreed(bitmap, bitmap_len - 1, sizes[k]);
        agreed(damaged, bitmap_len + 1, sizes[k]);
        for (size_t at = 0; at < HEADER; at++) {
            damaged[at] ^= (uint8_t)(1 + (at + k) % 255);
            agreed(damaged, bitmap_len, sizes[k]);
            damaged[at] = bitmap[at];
        }
    }
}

/* Each dot of a white picture alone black, and each of a black one alone white. Answers how many pictures that were. */
static unsigned compare_counts(void)
{
    static uint8_t picture[PICTURE_MAX];
    unsigned dots = 8 * (unsigned)picture_len;
    for (int around = 0xFF; around >= 0; around -= 0xFF) {
        memset(picture, around, picture_len);
        for (unsigned dot = 0; dot < dots; dot++) {
            uint8_t *byte = &picture[dot / 8], bit = (uint8_t)(0x80 >> dot % 8);
            *byte ^= bit;
            for (int v = 0; v < 2; v++)
                if (count(v, picture) != (around ? 1 : dots - 1))
                    stop("a single dot is counted wrong");
            *byte ^= bit;
        }
    }
    return 2 * dots;
}

static const struct {
    const char *name;
    void (*work)(int);
    int versions, repeats, uploads; /* the last: whether it leaves the bitmap in slot 1, and no more */
} works[] = {
    {"update", time_update, VERSIONS, 1, 0},        {"opening", time_opening, 2, UPLOADS, 0},
    {"bitmap", time_bitmap, 2, UPLOADS, 1},         {"negative", time_negative, 2, UPLOADS, 1},
    {"copy", time_copy, 2, UPLOADS, 1},             {"count", time_count, 2, UPLOADS, 1},
    {"blank", time_blank, 2, UPLOADS, 1},           {"fill_whole", time_fill_whole, 2, UPLOADS, 1},
    {"fill_64", time_fill_64, 2, UPLOADS, 1},       {"fill_bytes", time_fill_bytes, 2, 1, 1},
    {"region", time_region, 2, UPLOADS, 0},
};

enum { WORKS = sizeof works / sizeof works[0] };

int main(int argc, char **argv)
{
    static double best[WORKS][VERSIONS];
    if (argc != 3)
        stop("usage: update SETTINGS ROUNDS");
    read_settings(argv[1]);
    make_pictures();
    compare_fills();
    unsigned dots_counted = compare_counts();
    for (int round = 0; round < atoi(argv[2]); round++)
        for (int w = 0; w < WORKS; w++) {
            round_of(works[w].work, works[w].versions, best[w]);
            if (works[w].uploads && memcmp(memory[0], uploaded, memory_len) != 0)
                stop("an upload leaves another picture than that of the bitmap");
        }
    printf("bytes %zu\nfills_taken %u\nfills_refused %u\ndots_counted %u\n", sent[0], fills_taken, fills_refused, dots_counted);
    for (int w = 0; w < WORKS; w++)
        for (int v = 0; v < works[w].versions; v++)
            printf("%s_%s %.0f\n", works[w].name, names[v], best[w][v] / works[w].repeats);
    return 0;
}
