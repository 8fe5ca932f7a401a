/*
 * Compares the two calls of the finish arch panels with the plain implementation in reference.c, and both
 * with a whole update typed by hand. Usage: compare [seed]
 *
 * Every lent piece of memory ends where a page begins that can be neither read nor written, so that a
 * call which goes too far is caught. Outputs are filled with random bytes and compared whole; inputs must
 * stay as they were.
 */
#define _GNU_SOURCE
#include <signal.h>
#include <stdio.h>
#include <stdlib.h>
#include <string.h>
#include <sys/mman.h>
#include <unistd.h>

#include "reference.h"
#include "start_board.h"

enum { ROOM = 1 << 17, AROUND = 64, OTP = 128, STAGES = 0x28, LONGEST = 48001, AT_LEAST = 100 };

static const size_t picture_bytes[2] = {23040, 48000};
static const uint32_t numbers[] = {11, 18, 19, 20, 21};
static const char *const kinds[5] = {"refused", "writes", "delays", "busy", "done"};

static uint64_t random_state;
static uint8_t *otp_end, *picture_end, *shown_end, *out_end; /* each is followed by a closed page */
static uint8_t before[ROOM], expected[ROOM], otp_copy[ROOM], picture_copy[ROOM], shown_copy[ROOM];
static unsigned long passed, failed, given_kinds[5], given_numbers[256];
static const char *group;

/* ---- Random bytes (splitmix64), and lent memory ---- */

static uint64_t random64(void)
{
    uint64_t z = (random_state += 0x9E3779B97F4A7C15u);
    z = (z ^ (z >> 30)) * 0xBF58476D1CE4E5B9u;
    z = (z ^ (z >> 27)) * 0x94D049BB133111EBu;
    return z ^ (z >> 31);
}

/* A number from 0 to n - 1. */
static uint32_t below(uint32_t n)
{
    return (uint32_t)(random64() % n);
}

static void random_bytes(uint8_t *bytes, size_t n)
{
    for (size_t i = 0; i < n; i++)
        bytes[i] = (uint8_t)random64();
}

static uint8_t *map_with_closed_end(size_t size)
{
    size_t page = (size_t)sysconf(_SC_PAGESIZE);
    size = (size + page - 1) / page * page;
    uint8_t *base = mmap(NULL, size + page, PROT_READ | PROT_WRITE, MAP_PRIVATE | MAP_ANONYMOUS, -1, 0);
    if (base == MAP_FAILED || mprotect(base + size, page, PROT_NONE) != 0) {
        perror("mmap");
        exit(1);
    }
    return base + size;
}

/* A call that reads or writes outside its bytes, that stops or that does not come back ends here. */
static void stopped(int signal_number)
{
    printf("signal %d in group \"%s\"\n%lu passed, %lu failed\n", signal_number, group, passed, failed + 1);
    fflush(stdout);
    _exit(1);
}

/* ---- One call ---- */

static uint32_t library(const struct update *u, uint32_t given, uint8_t *out, size_t out_len)
{
    int32_t t = (int32_t)u->temperature;
    if (u->fast)
        return epd_fast_update(u->otp, u->otp_len, t, u->picture, u->picture_len, u->shown, u->shown_len, given,
                               out, out_len);
    return epd_normal_update(u->otp, u->otp_len, t, u->picture, u->picture_len, given, out, out_len);
}

/* Both answers to one call, with every byte of the output and some before it. Gives back the reference's. */
static uint32_t compared(const struct update *u, uint32_t given, size_t out_len)
{
    size_t looked = out_len + AROUND;
    uint8_t *lent = out_end - out_len;

    memcpy(expected, before, looked);
    memcpy(out_end - looked, expected, looked);
    uint32_t should = ref_update(u, given, expected + AROUND, out_len);
    uint32_t is = library(u, given, out_len == 0 && below(2) ? NULL : lent, out_len);

    given_kinds[EPD_KIND(should)]++;
    if (EPD_KIND(should) == EPD_KIND_REFUSED)
        given_numbers[EPD_VALUE(should) & 0xFF]++;
    if (is == should && memcmp(out_end - looked, expected, looked) == 0)
        passed++;
    else if (failed++ == 0)
        printf("first difference, in group \"%s\": %s, otp %zu bytes, temperature %ld, pictures %zu and %zu, "
               "given %u, out %zu: library %08X, reference %08X\n",
               group, u->fast ? "fast" : "normal", u->otp_len, (long)u->temperature, u->picture_len, u->shown_len,
               (unsigned)given, out_len, (unsigned)is, (unsigned)should);
    return should;
}

/* The call with room to spare, with just enough room, and with one byte less. */
static void around(const struct update *u, uint32_t given)
{
    uint32_t should = compared(u, given, LONGEST + below(40));
    if (EPD_KIND(should) == EPD_FINISH_WRITE) {
        compared(u, given, EPD_VALUE(should));
        compared(u, given, EPD_VALUE(should) - 1);
    } else
        compared(u, given, 0);
}

/* ---- What is lent to it ---- */

static uint8_t *lent_otp(void)
{
    return otp_end - OTP;
}

static void lend_pictures(struct update *u, size_t picture_len, size_t shown_len)
{
    u->picture_len = picture_len;
    u->picture = picture_end - picture_len;
    u->shown_len = shown_len;
    u->shown = shown_end - shown_len;
}

/* A good update with random OTP bytes, of at most `repeats` repeats a stage. */
static struct update good_update(bool fast, int size, uint32_t repeats)
{
    struct update u = {.fast = fast, .otp = lent_otp(), .otp_len = OTP};
    uint8_t *otp = lent_otp();

    random_bytes(otp, OTP);
    for (int i = STAGES; i < STAGES + 32; i += 8) {
        otp[i] = (uint8_t)(0x80 | below(repeats + 1));
        otp[i + 7] |= 0x80;
    }
    lend_pictures(&u, picture_bytes[size], picture_bytes[size]);
    u.temperature = fast ? (int64_t)below(51) : (int64_t)below(76) - 15;
    return u;
}

static void remember_inputs(void)
{
    memcpy(otp_copy, otp_end - 4096, 4096);
    memcpy(picture_copy, picture_end - ROOM, ROOM);
    memcpy(shown_copy, shown_end - ROOM, ROOM);
}

static void inputs_unchanged(void)
{
    if (memcmp(otp_copy, otp_end - 4096, 4096) || memcmp(picture_copy, picture_end - ROOM, ROOM) ||
        memcmp(shown_copy, shown_end - ROOM, ROOM)) {
        printf("an input was changed in group \"%s\"\n", group);
        failed++;
    } else
        passed++;
}

/* ---- A whole update, typed from the paper ---- */

/* A write is its bytes; NEW, SHOWN and ZEROS stand for a picture's; D is a delay, B is BUSY, E is done. */
#define BEGINNING(second)                                                                                          \
    "01 10 00", "13 15 16 17 18 19 1A", "90 0C 0D 0E 0F", "12 12 13 14", "10 NEW", "12 12 13 14", "11 " second,     \
        "05 7D", "D 50", "05 00", "D 1", "D8 1C", "D6 1D", "A7 10", "D 2", "A7 00", "D 10", "44 00", "45 80",       \
        "A7 10", "D 2", "A7 00", "D 10", "44 06"
#define END                                                                                                        \
    "A7 10", "D 2", "A7 00", "D 10", "60 0B", "61 1B", "02 11", "03 1F",                                            \
        "09 A1", "51 0B 10", "09 B1", "D 2", "09 A1", "51 06 30", "09 B1", "D 2",                                   \
        "09 A3", "51 FF 80", "09 B3", "D 0", "09 A4", "51 05 00", "09 B4", "D 10",                                  \
        "B", "15 3C", "B", "09 7B", "05 5D", "09 7A", "D 15", "09 00", "E", "E"

static const char *const typed[2][59] = {
    {BEGINNING("ZEROS"), "45 3D", END}, /* 0x28 + 21 */
    {BEGINNING("SHOWN"), "45 BD", END}, /* 0xA8 + 21 */
};

/* Each byte of this OTP memory is its own index, but for the stages: two repeats, none, one and one. */
static const uint8_t typed_stages[32] = {
    0x82, 0x10, 0xF0, 0xFB, 0x20, 0xA1, 0xB1, 0x82, 0x80, 0x11, 0x22, 0x33, 0x44, 0xA2, 0xB2, 0xFF,
    0x81, 0x00, 0x7F, 0xFF, 0x01, 0xA3, 0xB3, 0x80, 0x81, 0x05, 0x06, 0x00, 0xFA, 0xA4, 0xB4, 0x8A,
};

/* The name of the picture that n bytes are, or a null pointer. */
static const char *picture_name(const struct update *u, const uint8_t *bytes, size_t n)
{
    if (n == u->picture_len && memcmp(bytes, u->picture, n) == 0)
        return "NEW";
    if (n == u->shown_len && memcmp(bytes, u->shown, n) == 0)
        return "SHOWN";
    for (size_t i = 0; i < n; i++)
        if (bytes[i] != 0)
            return NULL;
    return n == u->picture_len ? "ZEROS" : NULL;
}

/* An answer of the library as the lists above have it. */
static void as_text(const struct update *u, uint32_t answer, const uint8_t *out, char *text)
{
    uint32_t n = EPD_VALUE(answer);

    *text = 0;
    if (EPD_KIND(answer) == EPD_FINISH_WRITE && n > 16)
        sprintf(text, "%02X %s", out[0], picture_name(u, out + 1, n - 1) ? picture_name(u, out + 1, n - 1) : "?");
    else if (EPD_KIND(answer) == EPD_FINISH_WRITE)
        for (uint32_t i = 0; i < n; i++)
            sprintf(text + strlen(text), "%s%02X", i ? " " : "", out[i]);
    else if (EPD_KIND(answer) == EPD_FINISH_DELAY)
        sprintf(text, "D %u", (unsigned)n);
    else
        strcpy(text, answer == EPD_FINISH_BUSY_HIGH << 24 ? "B" : answer == EPD_FINISH_DONE << 24 ? "E" : "?");
}

static void typed_by_hand(void)
{
    for (int fast = 0; fast < 2; fast++)
        for (int size = 0; size < 2; size++) {
            struct update u = good_update(fast, size, 0);

            for (int i = 0; i < OTP; i++)
                lent_otp()[i] = (uint8_t)i;
            memcpy(lent_otp() + STAGES, typed_stages, 32);
            u.temperature = 21;
            for (uint32_t k = 0; k < sizeof typed[0] / sizeof *typed[0]; k++) {
                char text[64];
                uint8_t *out = out_end - LONGEST;

                compared(&u, k, LONGEST);
                as_text(&u, library(&u, k, out, LONGEST), out, text);
                if (strcmp(text, typed[fast][k]) == 0)
                    passed++;
                else if (failed++ == 0)
                    printf("first difference, at %u: typed \"%s\", library \"%s\"\n", (unsigned)k, typed[fast][k], text);
            }
        }
}

/* ---- The other groups ---- */

/* At every count and past the end; the first four have the most repeats that there are. */
static void whole_updates(void)
{
    for (int i = 0; i < 60; i++) {
        struct update u = good_update(i & 1, i >> 1 & 1, i < 20 ? 127 : 5);

        if (i < 4)
            for (int at = STAGES; at < STAGES + 32; at += 8)
                lent_otp()[at] = 0xFF;
        remember_inputs();
        for (uint32_t k = 0; k < ref_count(&u) + 5; k++)
            around(&u, k);
        inputs_unchanged();
    }
}

static void far_counts(void)
{
    for (int i = 0; i < 4; i++) {
        struct update u = good_update(i & 1, i >> 1 & 1, 5);

        for (int bit = 0; bit < 32; bit++)
            for (int off = -2; off <= 2; off++)
                compared(&u, ((uint32_t)1 << bit) + (uint32_t)off, 32);
        for (int j = 0; j < 5000; j++)
            compared(&u, (uint32_t)random64(), below(64));
        around(&u, UINT32_MAX);
    }
}

/* The write of the index, and the first write, at each temperature of 16 bits and at some far off. */
static void temperatures(void)
{
    static const int64_t far_off[] = {INT32_MIN, INT32_MIN + 15, -65536 + 20, 65536, 65536 + 20, INT32_MAX};

    for (int i = 0; i < 4; i++) {
        struct update u = good_update(i & 1, i >> 1, 2);

        for (u.temperature = INT16_MIN; u.temperature <= INT16_MAX; u.temperature++)
            compared(&u, 24, 2 + below(9));
        for (u.temperature = -60; u.temperature <= 120; u.temperature++)
            around(&u, 24), around(&u, 0), around(&u, 2000);
        for (size_t j = 0; j < sizeof far_off / sizeof *far_off; j++) {
            u.temperature = far_off[j];
            around(&u, 24);
        }
    }
}

/* Every REPEAT byte of each stage, around the place where its last repeat ends. */
static void repeats(void)
{
    for (int i = 0; i < 2 * 4 * 256; i++) {
        struct update u = good_update(i & 1, 0, 3);
        int at = STAGES + 8 * (i >> 1 & 3);
        uint32_t end = 33;

        lent_otp()[at] = (uint8_t)(i >> 3);
        for (int j = STAGES; j <= at; j += 8)
            end += 4 * (uint32_t)(lent_otp()[j] & 0x7F);
        for (uint32_t k = end - 5; k < end + 5; k++)
            compared(&u, k, 32);
        for (int k = 0; k < 6; k++)
            compared(&u, 33 + below(end - 32), 3);
    }
}

/* Every pair of a REPEAT and a DELAY byte, at the delay of a repeat. */
static void delays(void)
{
    for (uint32_t i = 0; i < 65536; i++) {
        struct update u = good_update(i & 1, 0, 0);
        uint32_t most = i >> 8 & 0x7F;

        lent_otp()[STAGES + 8 * (i % 4)] = (uint8_t)(i >> 8);
        lent_otp()[STAGES + 8 * (i % 4) + 7] = (uint8_t)i;
        compared(&u, 33 + 4 * below(most + 1) + 3, 3);
    }
}

static void lengths(void)
{
    static const size_t pictures[] = {0, 1, 23039, 23040, 23041, 47999, 48000, 48001, 65536 + 23040};
    enum { LENGTHS = sizeof pictures / sizeof *pictures };

    for (size_t n = 0; n <= 300; n++)
        for (int i = 0; i < 20; i++) {
            struct update u = good_update(i & 1, i >> 1 & 1, 3);

            if (n > OTP)
                random_bytes(otp_end - n, n);
            u.otp_len = n;
            u.otp = n == 0 && below(2) ? NULL : otp_end - n;
            compared(&u, below(60), 32);
        }
    for (int i = 0; i < 2 * LENGTHS * LENGTHS; i++) {
        struct update u = good_update(i & 1, 0, 3);

        lend_pictures(&u, pictures[i / 2 % LENGTHS], pictures[i / 2 / LENGTHS]);
        for (uint32_t k = 0; k < 8; k++)
            around(&u, k);
        around(&u, 5000);
    }
}

/* Every length of output up to that of the longest short write, for each of the first things. */
static void outputs(void)
{
    for (int i = 0; i < 4; i++) {
        struct update u = good_update(i & 1, i >> 1, 3);

        for (uint32_t k = 0; k < 100; k++)
            for (size_t n = 0; n < 10; n++)
                compared(&u, k, n);
    }
}

/* Several faults at once, at any count: the first number that applies is given. */
static void faults(void)
{
    for (int i = 0; i < 40000; i++) {
        struct update u = good_update(i & 1, i >> 1 & 1, 4);
        size_t picture_len = u.picture_len - (below(3) == 0);

        if (below(3) == 0)
            lent_otp()[STAGES + 8 * below(4) + 7 * below(2)] &= 0x7F;
        if (below(3) == 0)
            u.otp_len = 127 + 2 * below(2), u.otp = otp_end - u.otp_len;
        if (below(3) == 0)
            u.temperature = below(2) ? 61 : -16;
        lend_pictures(&u, picture_len, u.shown_len - (below(3) == 0));
        compared(&u, below(130), below(4));
    }
}

static void run(const char *name, void (*tests)(void))
{
    unsigned long so_far = passed + failed;

    group = name;
    tests();
    printf("%-40s %8lu comparisons\n", name, passed + failed - so_far);
}

/* Each kind and each number must have been given often. */
static void tell_counts(void)
{
    for (int i = 0; i < 5; i++) {
        printf("%s%s %lu", i ? ", " : "", kinds[i], given_kinds[i]);
        failed += given_kinds[i] < AT_LEAST;
    }
    printf("\nnumbers");
    for (size_t i = 0; i < sizeof numbers / sizeof *numbers; i++) {
        printf("  %u:%lu", (unsigned)numbers[i], given_numbers[numbers[i]]);
        failed += given_numbers[numbers[i]] < AT_LEAST;
    }
    printf("\n%lu passed, %lu failed\n", passed, failed);
}

int main(int argc, char **argv)
{
    random_state = argc > 1 ? strtoull(argv[1], NULL, 0) : 2604;
    signal(SIGSEGV, stopped);
    signal(SIGBUS, stopped);
    signal(SIGILL, stopped);
    signal(SIGALRM, stopped);
    alarm(300);
    otp_end = map_with_closed_end(4096);
    picture_end = map_with_closed_end(ROOM);
    shown_end = map_with_closed_end(ROOM);
    out_end = map_with_closed_end(ROOM);
    random_bytes(before, ROOM);
    random_bytes(picture_end - ROOM, ROOM);
    random_bytes(shown_end - ROOM, ROOM);

    run("a whole update typed by hand", typed_by_hand);
    run("whole updates at every count", whole_updates);
    run("counts far past the end", far_counts);
    run("temperatures", temperatures);
    run("every REPEAT byte", repeats);
    run("every REPEAT and DELAY byte", delays);
    run("lengths of OTP memory and pictures", lengths);
    run("lengths of output", outputs);
    run("several faults at once", faults);
    tell_counts();
    return failed != 0;
}
