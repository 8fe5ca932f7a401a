/*
 * Compares the calls of the hall display with the plain implementation in reference.c, the checksums with the
 * guide's formula in printed.c too, and whole uploads with what they must come to. Usage: compare [seed]
 *
 * Every lent piece of memory ends where a page begins that can be neither read nor written, so that a
 * call which goes too far is caught. Outputs and slots are filled with random bytes and compared whole;
 * inputs must stay as they were.
 */
#define _GNU_SOURCE
#include <signal.h>
#include <stdbool.h>
#include <stdio.h>
#include <stdlib.h>
#include <string.h>
#include <sys/mman.h>
#include <unistd.h>

#include "reference.h"
#include "start_board.h"

enum { IMAGE = 1 << 20, SMALL = 4096, AROUND = 64, SLOT = IMAGE, DISPLAYS = 4, AT_LEAST = 100 };

static const struct display {
    uint32_t panel, depth;
    size_t bytes;
    uint32_t commands; /* bytes + 16 over 251, rounded up */
} displays[DISPLAYS] = {
    {EPD_HALL_13_3, 1, EPD_HALL_BYTES_13_3, 957},
    {EPD_HALL_13_3, 2, 2 * EPD_HALL_BYTES_13_3, 1913},
    {EPD_HALL_31_2, 1, EPD_HALL_BYTES_31_2, 1836},
    {EPD_HALL_31_2, 2, 2 * EPD_HALL_BYTES_31_2, 3672},
};
static const uint32_t far_numbers[] = {256, 257, 511, 512, 0x13E, 65535, 65536, 65537, 1u << 24, 1u << 31, UINT32_MAX};
enum { FAR_NUMBERS = sizeof far_numbers / sizeof *far_numbers };
static const uint32_t numbers[] = {0, 11, 24, 25, 26, 27, 28};
static const char *const kinds[4] = {"refused", "commands", "no more", "data"};

static uint64_t random_state;
static uint8_t *image_end, *out_end, *command_end, *slot_end; /* each is followed by a closed page */
static uint8_t image_copy[IMAGE], slot_copy[SLOT], before[SMALL], expected[SMALL], lent_command[SMALL];
static unsigned long passed, failed, given_kinds[4], given_numbers[256];
static const char *group;

/* ---- Random bytes (splitmix64), and lent memory ---- */

static uint64_t random64(void)
{
    uint64_t z = (random_state += 0x9E3779B97F4A7C15u);
    z = (z ^ (z >> 30)) * 0xBF58476D1CE4E5B9u;
    z = (z ^ (z >> 27)) * 0x94D049BB133111EBu;
    return z ^ (z >> 31);
}

/* A number from 0 to n - 1. */
static uint32_t below(uint32_t n)
{
    return (uint32_t)(random64() % n);
}

static void random_bytes(uint8_t *bytes, size_t n)
{
    for (size_t i = 0; i < n; i++)
        bytes[i] = (uint8_t)random64();
}

static uint8_t *map_with_closed_end(size_t size)
{
    size_t page = (size_t)sysconf(_SC_PAGESIZE);
    size = (size + page - 1) / page * page;
    uint8_t *base = mmap(NULL, size + page, PROT_READ | PROT_WRITE, MAP_PRIVATE | MAP_ANONYMOUS, -1, 0);
    if (base == MAP_FAILED || mprotect(base + size, page, PROT_NONE) != 0) {
        perror("mmap");
        exit(1);
    }
    return base + size;
}

/* A call that reads or writes outside its bytes, that stops or that does not come back ends here. */
static void stopped(int signal_number)
{
    printf("signal %d in group \"%s\"\n%lu passed, %lu failed\n", signal_number, group, passed, failed + 1);
    fflush(stdout);
    _exit(1);
}

static void judge(bool same, const char *what, unsigned long long detail)
{
    if (same)
        passed++;
    else if (failed++ == 0)
        printf("first difference, in group \"%s\": %s, %llu\n", group, what, detail);
}

/* A null pointer now and then where nothing is lent. */
static uint8_t *lent(uint8_t *end, size_t n)
{
    return n == 0 && below(2) ? NULL : end - n;
}

static void count(uint32_t word, int accepted_kind)
{
    given_kinds[EPD_KIND(word) == EPD_KIND_REFUSED ? 0 : accepted_kind]++;
    if (EPD_KIND(word) == EPD_KIND_REFUSED)
        given_numbers[EPD_VALUE(word) & 0xFF]++;
}

/* ---- One call ---- */

static void header(uint32_t panel, uint32_t depth, size_t out_len)
{
    size_t looked = out_len + AROUND;

    memcpy(expected, before, looked);
    memcpy(out_end - looked, expected, looked);
    uint8_t should = ref_header(panel, depth, expected + AROUND, out_len);
    uint8_t is = epd_hall_header(panel, depth, lent(out_end, out_len), out_len);
    given_numbers[should]++;
    judge(is == should && memcmp(out_end - looked, expected, looked) == 0, "header of panel", panel);
}

/* The command of one number, with every byte of the output and some before it. Gives back the reference's word. */
static uint32_t command(uint32_t panel, uint32_t depth, size_t len, uint32_t slot, uint32_t number, size_t out_len)
{
    size_t looked = out_len + AROUND;

    memcpy(expected, before, looked);
    memcpy(out_end - looked, expected, looked);
    uint32_t should = ref_command(panel, depth, image_end - len, len, slot, number, expected + AROUND, out_len);
    uint32_t is = epd_hall_command(panel, depth, lent(image_end, len), len, slot, number, lent(out_end, out_len), out_len);
    count(should, EPD_KIND(should) == EPD_HALL_NO_MORE ? 2 : 1);
    judge(is == should && memcmp(out_end - looked, expected, looked) == 0, "command of number", number);
    return should;
}

/* The call with room to spare, with just enough room, and with one byte less. */
static void around(const struct display *d, uint32_t slot, uint32_t number)
{
    uint32_t should = command(d->panel, d->depth, d->bytes, slot, number, EPD_HALL_OUT_BYTES + below(40));
    if (EPD_KIND(should) == EPD_HALL_COMMAND) {
        command(d->panel, d->depth, d->bytes, slot, number, EPD_VALUE(should));
        command(d->panel, d->depth, d->bytes, slot, number, EPD_VALUE(should) - 1);
    } else
        command(d->panel, d->depth, d->bytes, slot, number, 0);
}

/* A reading of `bytes` into a slot of `room` random bytes, all of it compared. */
static uint32_t reading(uint32_t slot, size_t at, const uint8_t *bytes, size_t n, size_t room)
{
    size_t looked = room + AROUND;

    memcpy(command_end - n, bytes, n);
    memcpy(expected, before, looked);
    memcpy(slot_end - looked, expected, looked);
    uint32_t should = ref_read(slot, at, bytes, n, expected + AROUND, room);
    uint32_t is = epd_hall_read(slot, at, lent(command_end, n), n, lent(slot_end, room), room);
    count(should, 3);
    judge(is == should && memcmp(slot_end - looked, expected, looked) == 0 && memcmp(command_end - n, bytes, n) == 0,
          "reading at", at);
    return should;
}

/* A good command with n bytes of random data. */
static const uint8_t *good_command(uint32_t slot, uint32_t n)
{
    random_bytes(lent_command, SMALL);
    lent_command[0] = 0x20;
    lent_command[1] = 0x01;
    lent_command[2] = (uint8_t)slot;
    lent_command[3] = (uint8_t)n;
    return lent_command;
}

/* ---- Headers and commands ---- */

static void headers(void)
{
    for (uint32_t panel = 0; panel < 300; panel++)
        for (uint32_t depth = 0; depth < 12; depth++)
            header(panel, depth, below(40));
    for (int i = 0; i < DISPLAYS; i++)
        for (size_t n = 0; n < 300; n++)
            header(displays[i].panel, displays[i].depth, n);
    for (int i = 0; i < FAR_NUMBERS; i++)
        for (int j = 0; j < FAR_NUMBERS; j++) {
            header(far_numbers[i], far_numbers[j], 16);
            header(EPD_HALL_31_2, far_numbers[j], 16);
            header(far_numbers[i] + EPD_HALL_13_3, 1 + below(2), 16);
        }
}

/* Every command of an upload, given and read back by the library into a slot of `room` bytes. */
static void whole_upload(const struct display *d, size_t room)
{
    size_t total = 16 + d->bytes, at = 0;
    uint8_t *slot = slot_end - room, *out = out_end - EPD_HALL_OUT_BYTES, *image = image_end - d->bytes, first[16];
    uint32_t number = below(256), k, word;
    uint16_t sum = EPD_HALL_CHECKSUM_START;

    random_bytes(slot, room);
    memcpy(slot_copy, slot, room);
    for (k = 0;; k++) {
        around(d, number, k);
        word = epd_hall_command(d->panel, d->depth, image, d->bytes, number, k, out, EPD_HALL_OUT_BYTES);
        if (EPD_KIND(word) != EPD_HALL_COMMAND)
            break;
        uint32_t read = epd_hall_read(number, at, out, EPD_VALUE(word), slot, room);
        judge(EPD_KIND(read) == EPD_HALL_DATA && EPD_VALUE(read) == EPD_VALUE(word) - 4, "data of command", k);
        judge(EPD_VALUE(read) == 251 || k + 1 == d->commands, "length of command", k);
        sum = epd_hall_checksum(sum, out + 4, EPD_VALUE(read));
        at += EPD_VALUE(read);
    }
    judge(k == d->commands, "commands in all", k);
    judge(word == EPD_HALL_NO_MORE << 24, "past the last", word);
    judge(at == total, "pointer after the upload", at);
    judge(ref_header(d->panel, d->depth, first, 16) == 0 && memcmp(slot, first, 16) == 0, "header in the slot", d->depth);
    judge(memcmp(slot + 16, image, d->bytes) == 0, "image in the slot", d->depth);
    judge(memcmp(slot + total, slot_copy + total, room - total) == 0, "bytes after the upload", room);
    judge(sum == printed_checksum(0x6363, slot, total), "checksum of the upload", sum);
}

static void whole_uploads(void)
{
    for (int i = 0; i < DISPLAYS; i++) {
        whole_upload(&displays[i], 16 + displays[i].bytes);
        whole_upload(&displays[i], 16 + displays[i].bytes + 1 + below(5000));
    }
}

/* Every slot, and numbers at the edges. */
static void slots_and_numbers(void)
{
    for (int i = 0; i < DISPLAYS; i++) {
        const struct display *d = &displays[i];
        const uint32_t edges[] = {0, 1, 2, d->commands - 2, d->commands - 1, d->commands, d->commands + 1, UINT32_MAX};

        for (uint32_t slot = 0; slot <= 300; slot++)
            for (size_t j = 0; j < sizeof edges / sizeof *edges; j++)
                around(d, slot, edges[j]);
        for (int j = 0; j < FAR_NUMBERS; j++)
            for (size_t e = 0; e < sizeof edges / sizeof *edges; e++)
                around(d, far_numbers[j], edges[e]);
        for (int bit = 0; bit < 32; bit++)
            for (int off = -2; off <= 2; off++)
                around(d, 1, ((uint32_t)1 << bit) + (uint32_t)off);
        for (uint64_t wrap = 1; wrap < 251; wrap++) /* where 251 x number passes a multiple of 2^32 */
            around(d, 1, (uint32_t)((wrap << 32) / 251)), around(d, 1, (uint32_t)((wrap << 32) / 251 + 1));
    }
}

static void lengths(void)
{
    for (int i = 0; i < DISPLAYS; i++) {
        const struct display *d = &displays[i];

        for (int off = -20; off <= 20; off++)
            command(d->panel, d->depth, d->bytes + (size_t)off, below(256), below(d->commands + 2), 255);
        for (int j = 0; j < DISPLAYS; j++)
            command(d->panel, d->depth, displays[j].bytes, 7, below(4000), 255);
        for (size_t len = 0; len < 300; len++)
            command(d->panel, d->depth, len, 7, below(3), 255);
        for (size_t n = 0; n < 300; n++) {
            command(d->panel, d->depth, d->bytes, 7, 0, n);
            command(d->panel, d->depth, d->bytes, 7, 1 + below(d->commands - 2), n);
            command(d->panel, d->depth, d->bytes, 7, d->commands - 1, n);
        }
    }
}

/* Several faults at once: the first number that applies is given. */
static void faults(void)
{
    for (int i = 0; i < 100000; i++) {
        const struct display *d = &displays[below(DISPLAYS)];
        uint32_t panel = below(4) ? d->panel : below(2) ? below(256) : far_numbers[below(FAR_NUMBERS)];
        uint32_t depth = below(4) ? d->depth : below(2) ? below(4) : far_numbers[below(FAR_NUMBERS)];
        size_t len = d->bytes - (below(4) == 0) * below(3);
        uint32_t slot = below(4) ? below(256) : 250 + below(20);

        command(panel, depth, len, slot, below(5) ? below(d->commands + 3) : (uint32_t)random64(), below(2) ? 255 : below(256));
    }
}

/* ---- Reading ---- */

/* Each byte of a command at every value, each length of it, and lengths in it that are not its own. */
static void spoiled(void)
{
    static const uint32_t sizes[] = {1, 2, 3, 100, 250, 251, 252, 255, 0};

    for (size_t i = 0; i < sizeof sizes / sizeof *sizes; i++) {
        uint32_t n = sizes[i], slot = below(256);

        for (uint32_t at = 0; at < 4; at++)
            for (uint32_t value = 0; value < 256; value++) {
                uint8_t *bytes = (uint8_t *)good_command(slot, n);
                bytes[at] = (uint8_t)value;
                reading(slot, below(40), bytes, 4 + n, 300);
            }
        for (uint32_t at = 4; at < 4 + n; at++) {
            uint8_t *bytes = (uint8_t *)good_command(slot, n);
            bytes[at] ^= (uint8_t)(1 + below(255));
            reading(slot, below(40), bytes, 4 + n, 300);
        }
        for (uint32_t len = 0; len < 600; len++)
            reading(slot, below(40), good_command(slot, n), len, 300);
    }
    for (uint32_t slot = 0; slot < 600; slot++)
        for (uint32_t other = 0; other < 256; other += 1 + below(3))
            reading(slot, 0, good_command(other, 5), 9, 20);
    for (uint32_t slot = 0; slot < 256; slot++) { /* the guide's command that resets the pointer */
        judge(reading(slot, 3, (const uint8_t *)"\x20\x0D\x00", 3, 300) == EPD_BAD_COMMAND, "reset command", slot);
        reading(slot, 3, (const uint8_t *)"\x20\x0D\x00\x01\x55", 5, 300);
    }
}

/* Data that just fits, that is one byte too long, and pointers at and past the slot's end. */
static void overruns(void)
{
    for (uint32_t n = 1; n <= 251; n++)
        for (size_t room = n < 3 ? 0 : n - 3; room < n + 40; room++) {
            const uint8_t *bytes = good_command(9, n);

            if (room >= n) {
                judge(reading(9, room - n, bytes, 4 + n, room) == (EPD_HALL_DATA << 24 | n), "data that just fits", n);
                judge(reading(9, room - n + 1, bytes, 4 + n, room) == EPD_OVERRUN, "one byte too far", n);
            } else
                judge(reading(9, 0, bytes, 4 + n, room) == EPD_OVERRUN, "slot too short", n);
        }
    for (int i = 0; i < 20000; i++) {
        uint32_t n = 1 + below(251);
        size_t room = below(400);
        const size_t made_up[] = {room, room + 1, room + below(300), (size_t)0 - n, (size_t)0 - 1 - below(300),
                                  (size_t)1 << 32, ((size_t)1 << 32) + below(300), (size_t)1 << 63, random64()};

        reading(9, made_up[below(9)], good_command(9, n), 4 + n, room);
    }
}

/* Several faults at once. */
static void read_faults(void)
{
    for (int i = 0; i < 100000; i++) {
        uint32_t n = below(256), slot = below(4) ? below(256) : 250 + below(20);
        uint8_t *bytes = (uint8_t *)good_command(slot, n);

        if (below(3) == 0)
            bytes[below(4)] = (uint8_t)random64();
        reading(slot, below(300), bytes, 4 + n - (below(4) == 0) * below(4), below(500));
    }
}

/* ---- Checksums ---- */

/* All four of them. */
static void checksum(uint16_t start, const uint8_t *bytes, size_t n)
{
    uint16_t should = printed_checksum(start, bytes, n);

    judge(ref_checksum(start, bytes, n) == should, "the reference's checksum of bytes", n);
    judge(epd_hall_checksum_printed(start, bytes, n) == should, "checksum as printed, of bytes", n);
    judge(epd_hall_checksum(start, bytes, n) == should, "checksum by the table, of bytes", n);
}

static void checksums(void)
{
    judge(epd_hall_checksum(0x6363, (const uint8_t *)"123456789", 9) == 0xBF05, "the digits, by the table", 9);
    judge(epd_hall_checksum_printed(0x6363, (const uint8_t *)"123456789", 9) == 0xBF05, "the digits, as printed", 9);
    for (uint32_t start = 0; start < 65536; start++)
        for (size_t n = 0; n < 3; n++)
            checksum((uint16_t)start, image_end - 300 + below(290), n);
    for (uint32_t pair = 0; pair < 65536; pair++) {
        const uint8_t bytes[2] = {(uint8_t)pair, (uint8_t)(pair >> 8)};
        checksum((uint16_t)random64(), bytes, 2);
    }
    for (int i = 0; i < DISPLAYS; i++)
        for (size_t n = displays[i].bytes - 3; n <= displays[i].bytes; n++)
            checksum(EPD_HALL_CHECKSUM_START, image_end - n, n);
    checksum(0x1234, NULL, 0);
}

/* A million random inputs. */
static void random_checksums(void)
{
    for (int i = 0; i < 1000000; i++) {
        size_t n = below(50);

        random_bytes(command_end - n, n);
        checksum((uint16_t)random64(), command_end - n, n);
    }
}

/* ---- */

static void run(const char *name, void (*tests)(void))
{
    unsigned long so_far = passed + failed;

    group = name;
    tests();
    judge(memcmp(image_copy, image_end - IMAGE, IMAGE) == 0, "the image was changed", 0);
    printf("%-40s %8lu comparisons\n", name, passed + failed - so_far);
}

/* Each kind and each number must have been given often. */
static void tell_counts(void)
{
    for (int i = 0; i < 4; i++) {
        printf("%s%s %lu", i ? ", " : "", kinds[i], given_kinds[i]);
        failed += given_kinds[i] < AT_LEAST;
    }
    printf("\nnumbers");
    for (size_t i = 0; i < sizeof numbers / sizeof *numbers; i++) {
        printf("  %u:%lu", (unsigned)numbers[i], given_numbers[numbers[i]]);
        failed += given_numbers[numbers[i]] < AT_LEAST;
    }
    printf("\n%lu passed, %lu failed\n", passed, failed);
}

int main(int argc, char **argv)
{
    random_state = argc > 1 ? strtoull(argv[1], NULL, 0) : 2612;
    signal(SIGSEGV, stopped);
    signal(SIGBUS, stopped);
    signal(SIGILL, stopped);
    signal(SIGALRM, stopped);
    alarm(300);
    image_end = map_with_closed_end(IMAGE);
    slot_end = map_with_closed_end(SLOT);
    out_end = map_with_closed_end(SMALL);
    command_end = map_with_closed_end(SMALL);
    random_bytes(image_end - IMAGE, IMAGE);
    memcpy(image_copy, image_end - IMAGE, IMAGE);
    random_bytes(before, SMALL);

    run("headers", headers);
    run("whole uploads, read back", whole_uploads);
    run("slots, and numbers at the edges", slots_and_numbers);
    run("lengths of image and output", lengths);
    run("several faults at once", faults);
    run("commands spoiled byte by byte", spoiled);
    run("overruns", overruns);
    run("several faults of a reading", read_faults);
    run("checksums", checksums);
    run("a million random checksums", random_checksums);
    tell_counts();
    return failed != 0;
}
