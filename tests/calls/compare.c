/*
 * Compares the library's three calls with the plain implementation in reference.c, and both with
 * answers typed by hand. Usage: compare [seed]
 *
 * Every lent piece of memory ends where a page begins that can be neither read nor written, so that a
 * call which goes too far is caught. Outputs are filled with random bytes and compared whole.
 */
#define _GNU_SOURCE
#include <signal.h>
#include <stdbool.h>
#include <stdio.h>
#include <stdlib.h>
#include <string.h>
#include <sys/mman.h>
#include <unistd.h>

#include "reference.h"
#include "start_board.h"

/* ---- Random numbers (splitmix64) ---- */

static uint64_t random_state;

static uint64_t random64(void)
{
    uint64_t z = (random_state += 0x9E3779B97F4A7C15u);
    z = (z ^ (z >> 30)) * 0xBF58476D1CE4E5B9u;
    z = (z ^ (z >> 27)) * 0x94D049BB133111EBu;
    return z ^ (z >> 31);
}

/* A number from 0 to n - 1. */
static uint32_t below(uint32_t n)
{
    return (uint32_t)(random64() % n);
}

static void random_bytes(uint8_t *bytes, size_t n)
{
    for (size_t i = 0; i < n; i++)
        bytes[i] = (uint8_t)random64();
}

/* ---- The panels, typed again ---- */

static const uint32_t width[3] = {128, 200, 264};
static const uint32_t height[3] = {96, 96, 176};
static const uint32_t row_bytes[3] = {16, 25, 33};
static const uint32_t line_bytes[3] = {56, 74, 110};
static const uint32_t stride[3] = {16, 28, 36};
static const uint32_t bitmap_bytes[3] = {1598, 2750, 6398};
static const uint8_t channel[3][8] = {
    {0x00, 0x00, 0x00, 0x00, 0x00, 0x0F, 0xFF, 0x00},
    {0x00, 0x00, 0x00, 0x00, 0x01, 0xFF, 0xE0, 0x00},
    {0x00, 0x00, 0x00, 0x7F, 0xFF, 0xFE, 0x00, 0x00},
};
static const uint8_t gate_source[3] = {0x03, 0x03, 0x00};

/* ---- Groups and counts ---- */

struct counts {
    unsigned long calls, failed;
    unsigned long given[256];
};

static const char *group = "none";
static struct counts in_group, in_all;
static bool difference_shown;

static void count(uint8_t given, bool same)
{
    in_group.calls++;
    in_group.given[given]++;
    if (!same)
        in_group.failed++;
}

static void print_counts(const char *name, const struct counts *c)
{
    printf("%-38s %7lu calls   0:%-6lu  2:%-6lu  4:%-6lu  11:%-6lu  14:%-6lu\n", name, c->calls,
           c->given[0], c->given[2], c->given[4], c->given[11], c->given[14]);
}

static void begin_group(const char *name)
{
    group = name;
    memset(&in_group, 0, sizeof in_group);
}

static void end_group(void)
{
    print_counts(group, &in_group);
    in_all.calls += in_group.calls;
    in_all.failed += in_group.failed;
    for (int i = 0; i < 256; i++)
        in_all.given[i] += in_group.given[i];
    memset(&in_group, 0, sizeof in_group);
}

/* ---- Lent memory ---- */

enum { INPUT_SIZE = 1 << 18, OUTPUT_SIZE = 4096, OUTPUT_SHOWN = 512 };

static uint8_t *input_end, *output_end; /* each is followed by a closed page */

static uint8_t *map_with_closed_end(size_t size)
{
    size_t page = (size_t)sysconf(_SC_PAGESIZE);
    size = (size + page - 1) / page * page;
    uint8_t *base = mmap(NULL, size + page, PROT_READ | PROT_WRITE, MAP_PRIVATE | MAP_ANONYMOUS, -1, 0);
    if (base == MAP_FAILED || mprotect(base + size, page, PROT_NONE) != 0) {
        perror("mmap");
        exit(1);
    }
    return base + size;
}

/* A call that reads or writes outside its bytes, that stops or that does not come back ends here. */
static void stopped(int signal_number)
{
    char text[200];
    unsigned long failed = in_all.failed + in_group.failed;
    int n = snprintf(text, sizeof text,
                     "signal %d (%s) in group \"%s\" after %lu calls\n%lu passed, %lu failed\n",
                     signal_number,
                     signal_number == SIGALRM ? "a call does not come back"
                                              : "bytes outside the lent ones, or a stop",
                     group, in_group.calls, in_all.calls + in_group.calls - failed, failed + 1);
    fflush(stdout);
    if (write(STDOUT_FILENO, text, (size_t)n) < 0)
        _exit(2);
    _exit(1);
}

/* ---- Showing the first difference ---- */

static void show_bytes(const char *name, const uint8_t *bytes, size_t n)
{
    size_t shown = n < 700 ? n : 700;
    printf("  %s, %zu bytes:", name, n);
    for (size_t i = 0; i < shown; i++)
        printf("%s%02X", i % 32 == 0 ? "\n    " : " ", bytes[i]);
    printf("%s\n", shown < n ? " ..." : "");
}

static bool first_difference(void)
{
    if (difference_shown)
        return false;
    difference_shown = true;
    printf("first difference, in group \"%s\":\n", group);
    return true;
}

/* ---- The compared calls ---- */

/*
 * One call of the line builder. known: the number typed by hand, or -1. known_line: the line typed by
 * hand, or NULL. A length of 0 goes with a null pointer every second time.
 */
static void line_known(uint32_t panel, uint32_t stage, uint32_t row, const uint8_t *dots,
                       size_t dots_len, size_t out_len, int known, const uint8_t *known_line)
{
    uint8_t *lent_dots = input_end - dots_len;
    uint8_t *lent_out = output_end - out_len;
    uint8_t *shown = output_end - OUTPUT_SHOWN; /* the output and what stands before it */
    uint8_t expected[OUTPUT_SHOWN], before[OUTPUT_SHOWN];

    if (dots_len > 0)
        memcpy(lent_dots, dots, dots_len);
    for (size_t i = 0; i < OUTPUT_SHOWN; i += 8) {
        uint64_t r = random64();
        memcpy(before + i, &r, 8);
    }
    memcpy(expected, before, OUTPUT_SHOWN);
    memcpy(shown, before, OUTPUT_SHOWN);

    uint8_t expected_number = ref_build_line(panel, stage, row, dots, dots_len,
                                             expected + OUTPUT_SHOWN - out_len, out_len);
    bool null_dots = dots_len == 0 && below(2) == 0;
    bool null_out = out_len == 0 && below(2) == 0;
    uint8_t number = epd_build_line(panel, stage, row, null_dots ? NULL : lent_dots, dots_len,
                                    null_out ? NULL : lent_out, out_len);

    bool same = number == expected_number && memcmp(shown, expected, OUTPUT_SHOWN) == 0;
    bool input_kept = dots_len == 0 || memcmp(lent_dots, dots, dots_len) == 0;
    bool typed = (known < 0 || expected_number == known) &&
                 (known_line == NULL ||
                  memcmp(expected + OUTPUT_SHOWN - out_len, known_line, line_bytes[panel]) == 0);

    count(number, same && input_kept && typed);
    if ((!same || !input_kept || !typed) && first_difference()) {
        printf("  epd_build_line panel %u stage %u row %u dots_len %zu out_len %zu\n"
               "  library answers %u, reference %u",
               panel, stage, row, dots_len, out_len, number, expected_number);
        if (known >= 0)
            printf(", typed by hand %d", known);
        printf("\n");
        if (!input_kept)
            printf("  the library changed the dots\n");
        for (size_t i = 0; i < OUTPUT_SHOWN; i++)
            if (shown[i] != expected[i]) {
                printf("  first different byte: %ld of the output, before the call %02X, library %02X, "
                       "reference %02X\n",
                       (long)i - (long)(OUTPUT_SHOWN - out_len), before[i], shown[i], expected[i]);
                break;
            }
        show_bytes("dots", dots, dots_len);
        show_bytes("output, library", lent_out, out_len);
        show_bytes("output, reference", expected + OUTPUT_SHOWN - out_len, out_len);
        if (known_line != NULL)
            show_bytes("line typed by hand", known_line, line_bytes[panel]);
    }
}

static void line(uint32_t panel, uint32_t stage, uint32_t row, const uint8_t *dots, size_t dots_len,
                 size_t out_len)
{
    line_known(panel, stage, row, dots, dots_len, out_len, -1, NULL);
}

static void settings_known(const uint8_t *file, size_t len, int known, const char *what)
{
    uint8_t *lent = input_end - len;
    if (len > 0)
        memcpy(lent, file, len);
    uint8_t expected = ref_check_settings(file, len);
    uint8_t number = epd_check_settings(len == 0 && below(2) == 0 ? NULL : lent, len);
    bool same = number == expected && (known < 0 || known == expected) &&
                (len == 0 || memcmp(lent, file, len) == 0);
    count(number, same);
    if (!same && first_difference()) {
        printf("  epd_check_settings%s%s\n  library answers %u, reference %u", *what ? ": " : "", what,
               number, expected);
        if (known >= 0)
            printf(", typed by hand %d", known);
        printf("\n");
        show_bytes("file", file, len);
    }
}

static void settings(const uint8_t *file, size_t len)
{
    settings_known(file, len, -1, "");
}

static void bitmap_known(uint32_t panel, const uint8_t *file, size_t len, int known)
{
    uint8_t *lent = input_end - len;
    if (len > 0)
        memcpy(lent, file, len);
    uint8_t expected = ref_check_bitmap(panel, file, len);
    uint8_t number = epd_check_bitmap(panel, len == 0 && below(2) == 0 ? NULL : lent, len);
    bool same = number == expected && (known < 0 || known == expected) &&
                (len == 0 || memcmp(lent, file, len) == 0);
    count(number, same);
    if (!same && first_difference()) {
        printf("  epd_check_bitmap panel %u\n  library answers %u, reference %u", panel, number, expected);
        if (known >= 0)
            printf(", typed by hand %d", known);
        printf("\n");
        show_bytes("file", file, len);
    }
}

static void bitmap(uint32_t panel, const uint8_t *file, size_t len)
{
    bitmap_known(panel, file, len, -1);
}

/* ---- Lines ---- */

/* Numbers in and out of the ranges of panel, stage and row. */
static const uint32_t edges[] = {
    0,      1,       2,       3,          4,          5,          6,          95,
    96,     97,      127,     128,        175,        176,        177,        255,
    256,    257,     258,     259,        260,        351,        432,        511,
    512,    65535,   65536,   65537,      65538,      65632,      16777216,   16777217,
    0x7FFFFFFF, 0x80000000, 0x80000001, 0xFFFFFF00, 0xFFFFFF01, 0xFFFFFFFE, 0xFFFFFFFF,
};
enum { EDGES = sizeof edges / sizeof edges[0] };

/* Every byte of the row is B4; its even and odd bytes in stages 1 to 4 are typed by hand. */
static void lines_by_hand(void)
{
    static const uint8_t even[4] = {0xFA, 0xA0, 0xF0, 0xAF};
    static const uint8_t odd[4] = {0xBE, 0x28, 0x3C, 0xEB};
    static const uint8_t scan[4] = {0xC0, 0x30, 0x0C, 0x03};
    uint8_t dots[33], expected[110];

    begin_group("lines, typed by hand");
    memset(dots, 0xB4, sizeof dots);
    for (uint32_t panel = 0; panel < 3; panel++)
        for (uint32_t stage = 1; stage <= 4; stage++)
            for (uint32_t row = 0; row < height[panel]; row++) {
                memset(expected, even[stage - 1], row_bytes[panel]);
                memset(expected + row_bytes[panel], 0, height[panel] / 4);
                expected[row_bytes[panel] + row / 4] = scan[row % 4];
                memset(expected + row_bytes[panel] + height[panel] / 4, odd[stage - 1], row_bytes[panel]);
                line_known(panel, stage, row, dots, row_bytes[panel], line_bytes[panel], 0, expected);
            }
    end_group();
}

static void lines_everywhere(void)
{
    uint8_t dots[33];

    begin_group("lines, every panel, stage and row");
    for (uint32_t panel = 0; panel < 3; panel++)
        for (uint32_t stage = 1; stage <= 4; stage++)
            for (uint32_t row = 0; row < height[panel]; row++)
                for (int i = 0; i < 24; i++) {
                    random_bytes(dots, row_bytes[panel]);
                    size_t longer = i % 2 == 0 ? 0 : below(300);
                    line(panel, stage, row, dots, row_bytes[panel], line_bytes[panel] + longer);
                }
    end_group();

    begin_group("lines, one dot apart from the rest");
    for (uint32_t panel = 0; panel < 3; panel++)
        for (uint32_t stage = 1; stage <= 4; stage++)
            for (uint32_t dot = 0; dot < width[panel]; dot++)
                for (int fill = 0; fill < 256; fill += 255) {
                    memset(dots, fill, sizeof dots);
                    dots[dot / 8] ^= (uint8_t)(0x80 >> dot % 8);
                    line(panel, stage, below(height[panel]), dots, row_bytes[panel], line_bytes[panel]);
                }
    end_group();
}

static void lines_refused(void)
{
    uint8_t dots[1024];

    begin_group("lines, arguments in and out of range");
    for (int p = 0; p < EDGES; p++)
        for (int s = 0; s < EDGES; s++)
            for (int r = 0; r < EDGES; r++) {
                /* Where all three are in range this is a good call for the panel. */
                uint32_t shape = edges[p] < 3 ? edges[p] : below(3);
                random_bytes(dots, row_bytes[shape]);
                size_t out_len = below(4) == 0 ? below(line_bytes[shape]) : line_bytes[shape];
                line(edges[p], edges[s], edges[r], dots, row_bytes[shape], out_len);
            }
    end_group();

    begin_group("lines, every length of row");
    for (uint32_t panel = 0; panel < 3; panel++)
        for (uint32_t stage = 1; stage <= 4; stage++)
            for (size_t dots_len = 0; dots_len <= 300; dots_len++) {
                random_bytes(dots, dots_len);
                line(panel, stage, below(height[panel]), dots, dots_len, line_bytes[panel]);
            }
    end_group();

    begin_group("lines, every length of output");
    for (uint32_t panel = 0; panel < 3; panel++)
        for (uint32_t stage = 1; stage <= 4; stage++)
            for (size_t out_len = 0; out_len <= 400; out_len++) {
                random_bytes(dots, row_bytes[panel]);
                line(panel, stage, below(height[panel]), dots, row_bytes[panel], out_len);
            }
    end_group();

    begin_group("lines, at random");
    for (int i = 0; i < 30000; i++) {
        uint32_t panel = below(8) == 0 ? edges[below(EDGES)] : below(3);
        uint32_t shape = panel < 3 ? panel : below(3);
        uint32_t stage = below(8) == 0 ? edges[below(EDGES)] : 1 + below(4);
        uint32_t row = below(8) == 0 ? edges[below(EDGES)] : below(height[shape]);
        size_t dots_len = row_bytes[shape];
        switch (below(16)) {
        case 0:
            dots_len = 0;
            break;
        case 1:
            dots_len -= 1;
            break;
        case 2:
            dots_len += 1;
            break;
        case 3:
            dots_len = row_bytes[below(3)];
            break;
        }
        size_t out_len = line_bytes[shape];
        switch (below(8)) {
        case 0:
            out_len = 0;
            break;
        case 1:
            out_len -= 1;
            break;
        case 2:
            out_len += 1 + below(300);
            break;
        case 3:
            out_len = below(OUTPUT_SHOWN + 1);
            break;
        }
        random_bytes(dots, dots_len);
        line(panel, stage, row, dots, dots_len, out_len);
    }
    end_group();
}

/* ---- Settings files ---- */

struct file {
    uint8_t bytes[8192];
    size_t len;
};

static void put(struct file *f, unsigned byte)
{
    if (f->len == sizeof f->bytes) {
        fprintf(stderr, "a test file grew too long\n");
        exit(1);
    }
    f->bytes[f->len++] = (uint8_t)byte;
}

/* A write with the panel's data, or random data where the register is free. */
static void put_write(struct file *f, uint32_t panel, unsigned reg)
{
    put(f, 0x57);
    put(f, reg);
    if (reg == 0x01) {
        for (int i = 0; i < 8; i++)
            put(f, channel[panel][i]);
    } else if (reg == 0x04) {
        put(f, gate_source[panel]);
    } else {
        put(f, (unsigned)below(256));
        if (reg == 0x09)
            put(f, (unsigned)below(256));
    }
}

static void put_wait(struct file *f, unsigned ms)
{
    put(f, 0x44);
    put(f, ms / 256);
    put(f, ms % 256);
}

static void put_step(struct file *f, uint32_t panel)
{
    if (below(3) == 0)
        put_wait(f, 1 + (unsigned)below(1000));
    else
        put_write(f, panel, 1 + (unsigned)below(9));
}

static void good_settings(struct file *f, uint32_t panel)
{
    f->len = 0;
    put(f, 1);
    put(f, panel);
    unsigned starts = below(4) == 0 ? 2 : 2 + (unsigned)below(31);
    unsigned place_01 = (unsigned)below(starts);
    unsigned place_04 = (place_01 + 1 + (unsigned)below(starts - 1)) % starts;
    put(f, starts);
    for (unsigned i = 0; i < starts; i++) {
        if (i == place_01)
            put_write(f, panel, 0x01);
        else if (i == place_04)
            put_write(f, panel, 0x04);
        else
            put_step(f, panel);
    }
    unsigned stops = below(4) == 0 ? 0 : (unsigned)below(33);
    put(f, stops);
    for (unsigned i = 0; i < stops; i++)
        put_step(f, panel);
}

/* 01 P 02 A G 00: the smallest file; the stop count is its last byte. */
static void smallest_settings(struct file *f, uint32_t panel)
{
    f->len = 0;
    put(f, 1);
    put(f, panel);
    put(f, 2);
    put_write(f, panel, 0x01);
    put_write(f, panel, 0x04);
    put(f, 0);
}

/* The smallest file up to its stop count, which is 1. */
static void with_one_stop_step(struct file *f, uint32_t panel)
{
    smallest_settings(f, panel);
    f->bytes[f->len - 1] = 1;
}

/* ---- The table of limits.inc ---- */

static const struct {
    int number;
    const char *tokens, *what;
} limits[] = {
#define LIMIT(number, tokens, what) {number, tokens, what},
#include "../limits.inc"
#undef LIMIT
};
enum { LIMITS = sizeof limits / sizeof limits[0] };

static int hex_digit(char c)
{
    if (c >= '0' && c <= '9')
        return c - '0';
    if (c >= 'A' && c <= 'F')
        return c - 'A' + 10;
    return -1;
}

static void from_tokens(struct file *f, const char *t, uint32_t panel)
{
    uint32_t other = (panel + 1) % 3;
    size_t piece = 0; /* where the token or bracket before a * begins */
    size_t bracket = 0;
    bool in_bracket = false;

    f->len = 0;
    while (*t != '\0') {
        if (*t == ' ') {
            t++;
        } else if (*t == '*') {
            long times = strtol(t + 1, (char **)&t, 10);
            size_t n = f->len - piece;
            for (long i = 1; i < times; i++)
                for (size_t k = 0; k < n; k++)
                    put(f, f->bytes[piece + k]);
        } else if (*t == '(') {
            in_bracket = true;
            bracket = f->len;
            t++;
        } else if (*t == ')') {
            in_bracket = false;
            piece = bracket;
            t++;
        } else {
            if (!in_bracket)
                piece = f->len;
            if (t[0] != '\0' && hex_digit(t[0]) >= 0 && hex_digit(t[1]) >= 0) {
                put(f, (unsigned)(16 * hex_digit(t[0]) + hex_digit(t[1])));
                t += 2;
                continue;
            }
            switch (*t++) {
            case 'P':
                put(f, panel);
                break;
            case 'Q':
                put(f, other);
                break;
            case 'A':
                put_write(f, panel, 0x01);
                break;
            case 'a':
                put_write(f, other, 0x01);
                break;
            case 'G':
                put_write(f, panel, 0x04);
                break;
            case 'g':
                put(f, 0x57);
                put(f, 0x04);
                put(f, gate_source[panel] == 0x03 ? 0x00 : 0x03);
                break;
            default:
                fprintf(stderr, "limits.inc: %s\n", t - 1);
                exit(1);
            }
        }
    }
}

static void settings_by_hand(void)
{
    struct file f;
    static const uint8_t example[] = {0x01, 0x00, 0x02, 0x57, 0x01, 0x00, 0x00, 0x00, 0x00, 0x00,
                                      0x0F, 0xFF, 0x00, 0x57, 0x04, 0x03, 0x01, 0x44, 0x00, 0x0F};

    begin_group("settings, each limit, typed by hand");
    settings_known(example, sizeof example, 0, "the example");
    for (int i = 0; i < LIMITS; i++)
        for (uint32_t panel = 0; panel < 3; panel++) {
            from_tokens(&f, limits[i].tokens, panel);
            if (i == 2 && f.len != 637) {
                fprintf(stderr, "the longest file has %zu bytes\n", f.len);
                exit(1);
            }
            settings_known(f.bytes, f.len, limits[i].number, limits[i].what);
        }
    end_group();
}

static void settings_every_value(void)
{
    struct file f;

    begin_group("settings, every wait");
    for (unsigned ms = 0; ms < 65536; ms++) {
        with_one_stop_step(&f, below(3));
        put(&f, 0x44);
        put(&f, ms / 256);
        put(&f, ms % 256);
        settings_known(f.bytes, f.len, ms >= 1 && ms <= 1000 ? 0 : 2, "wait");
    }
    end_group();

    begin_group("settings, every kind, register, data");
    for (uint32_t panel = 0; panel < 3; panel++) {
        for (unsigned kind = 0; kind < 256; kind++) {
            with_one_stop_step(&f, panel);
            put(&f, kind);
            put(&f, 2);
            put(&f, 44);
            settings(f.bytes, f.len);
        }
        for (unsigned reg = 0; reg < 256; reg++)
            for (int n = 0; n < 10; n++) {
                with_one_stop_step(&f, panel);
                put(&f, 0x57);
                put(&f, reg);
                for (int i = 0; i < n; i++)
                    put(&f, i < 8 ? channel[panel][i] : 0);
                settings(f.bytes, f.len);
            }
        for (unsigned data = 0; data < 256; data++) {
            with_one_stop_step(&f, panel);
            put(&f, 0x57);
            put(&f, 4);
            put(&f, data);
            settings(f.bytes, f.len);
        }
        /* Every other value of every byte of a small file. */
        smallest_settings(&f, panel);
        for (size_t at = 0; at < f.len; at++)
            for (unsigned change = 1; change < 256; change++) {
                f.bytes[at] ^= (uint8_t)change;
                settings(f.bytes, f.len);
                f.bytes[at] ^= (uint8_t)change;
            }
    }
    end_group();
}

static void settings_at_random(void)
{
    struct file f, longest;

    begin_group("settings, good ones");
    for (int i = 0; i < 6000; i++) {
        good_settings(&f, (uint32_t)i % 3);
        settings_known(f.bytes, f.len, 0, "made to be good");
    }
    end_group();

    begin_group("settings, one byte damaged");
    for (int i = 0; i < 40000; i++) {
        good_settings(&f, (uint32_t)i % 3);
        f.bytes[below((uint32_t)f.len)] ^= (uint8_t)(1 + below(255));
        settings(f.bytes, f.len);
    }
    for (uint32_t panel = 0; panel < 3; panel++) {
        from_tokens(&longest, limits[2].tokens, panel);
        for (size_t at = 0; at < longest.len; at++)
            for (int i = 0; i < 4; i++) {
                uint8_t change = (uint8_t)(1 + below(255));
                longest.bytes[at] ^= change;
                settings(longest.bytes, longest.len);
                longest.bytes[at] ^= change;
            }
    }
    end_group();

    begin_group("settings, cut at every length");
    for (int i = 0; i < 120; i++) {
        good_settings(&f, (uint32_t)i % 3);
        for (size_t len = 0; len <= f.len; len++)
            settings(f.bytes, len);
    }
    for (uint32_t panel = 0; panel < 3; panel++) {
        from_tokens(&longest, limits[2].tokens, panel);
        for (size_t len = 0; len <= longest.len; len++)
            settings(longest.bytes, len);
    }
    end_group();

    begin_group("settings, extended");
    for (int i = 0; i < 6000; i++) {
        uint32_t panel = (uint32_t)i % 3;
        good_settings(&f, panel);
        switch (below(3)) {
        case 0: /* a few bytes */
            for (uint32_t n = 1 + below(20); n > 0; n--)
                put(&f, below(2) == 0 ? 0 : (unsigned)below(256));
            break;
        case 1: /* a whole step that no count knows of */
            put_step(&f, panel);
            break;
        case 2: /* up to a length that is 256 or so away */
            for (uint32_t n = 255 + below(3); n > 0; n--)
                put(&f, 0);
            break;
        }
        settings(f.bytes, f.len);
    }
    end_group();

    /* Bytes that get further into a file than plain random ones do. */
    begin_group("settings, random bytes");
    for (int i = 0; i < 20000; i++) {
        static const uint8_t likely[] = {0, 1, 2, 3, 4, 5, 8, 9, 0x0F, 0xFF, 0x44, 0x57};
        f.len = 0;
        if (below(4) != 0) {
            uint32_t panel = below(3);
            smallest_settings(&f, panel);
            f.len -= below(6);
        }
        for (uint32_t n = below(40); n > 0; n--)
            put(&f, below(8) == 0 ? (unsigned)below(256) : likely[below(sizeof likely)]);
        settings(f.bytes, f.len);
    }
    end_group();
}

/* ---- Bitmaps ---- */

static void put_number(uint8_t *at, uint32_t value, int n)
{
    for (int i = 0; i < n; i++)
        at[i] = (uint8_t)(value >> 8 * i);
}

static uint32_t body_bytes(uint32_t panel)
{
    return height[panel] * stride[panel];
}

/* Black and white; the fourth byte of each entry stays. */
static void put_palette(struct file *f, int black_first)
{
    put_number(f->bytes + 54, black_first ? 0 : 0xFFFFFF, 3);
    put_number(f->bytes + 58, black_first ? 0xFFFFFF : 0, 3);
}

/* A good file: everything is random that may be, or as often what real tools put there. */
static void good_bitmap(struct file *f, uint32_t panel)
{
    static const uint32_t usual[2][5] = {{0, 0, 0, 0, 0}, {3780, 3780, 2, 0, 0xFF000000}};
    static const size_t places[5] = {38, 42, 50, 54, 58};

    f->len = bitmap_bytes[panel];
    random_bytes(f->bytes, f->len);
    f->bytes[0] = 0x42;
    f->bytes[1] = 0x4D;
    put_number(f->bytes + 2, bitmap_bytes[panel], 4);
    put_number(f->bytes + 6, 0, 4);
    put_number(f->bytes + 10, 62, 4);
    put_number(f->bytes + 14, 40, 4);
    put_number(f->bytes + 18, width[panel], 4);
    put_number(f->bytes + 22, height[panel], 4);
    put_number(f->bytes + 26, 1, 2);
    put_number(f->bytes + 28, 1, 2);
    put_number(f->bytes + 30, 0, 4);
    put_number(f->bytes + 34, below(2) == 0 ? 0 : body_bytes(panel), 4);
    put_number(f->bytes + 46, below(2) == 0 ? 0 : 2, 4);
    uint32_t tool = below(4);
    for (int i = 0; i < 5 && tool < 2; i++)
        put_number(f->bytes + places[i], usual[tool][i], 4);
    put_palette(f, below(2) == 0);
}

static void bitmaps_good(void)
{
    struct file f;

    begin_group("bitmaps, good ones");
    for (int i = 0; i < 1500; i++) {
        good_bitmap(&f, (uint32_t)i % 3);
        bitmap_known((uint32_t)i % 3, f.bytes, f.len, 0);
    }
    end_group();

    begin_group("bitmaps, every panel, huge ones too");
    for (uint32_t panel = 0; panel < 3; panel++)
        for (int e = 0; e < EDGES; e++)
            for (int i = 0; i < 10; i++) {
                good_bitmap(&f, panel);
                uint32_t named = edges[e];
                bitmap_known(named, f.bytes, f.len, named > 2 ? 14 : named == panel ? 0 : 4);
                bitmap_known(named, f.bytes, 0, named > 2 ? 14 : 4);
            }
    end_group();
}

static void bitmaps_damaged(void)
{
    struct file f;
    uint8_t kept[8];

    begin_group("bitmaps, every value of header bytes");
    for (uint32_t panel = 0; panel < 3; panel++)
        for (size_t at = 0; at < 62; at++)
            for (unsigned change = 1; change < 256; change++) {
                if (change % 16 == 1)
                    good_bitmap(&f, panel);
                f.bytes[at] ^= (uint8_t)change;
                bitmap(panel, f.bytes, f.len);
                f.bytes[at] ^= (uint8_t)change;
            }
    end_group();

    begin_group("bitmaps, every value of palette bytes, in both orders");
    for (uint32_t panel = 0; panel < 3; panel++)
        for (int black_first = 0; black_first < 2; black_first++)
            for (size_t at = 54; at < 62; at++) {
                good_bitmap(&f, panel);
                put_palette(&f, black_first);
                uint8_t old = f.bytes[at];
                for (unsigned value = 0; value < 256; value++) {
                    int free_byte = at == 57 || at == 61;
                    f.bytes[at] = (uint8_t)value;
                    bitmap_known(panel, f.bytes, f.len, free_byte || value == old ? 0 : 4);
                }
            }
    end_group();

    begin_group("bitmaps, pairs of colours");
    {
        static const uint32_t colours[] = {0x000000, 0xFFFFFF, 0x000001, 0x010000, 0xFEFFFF, 0xFFFFFE, 0xFF0000,
                                           0x0000FF, 0x00FF00, 0x808080, 0x00FFFF, 0xFFFF00};
        const size_t n = sizeof colours / sizeof colours[0];
        for (uint32_t panel = 0; panel < 3; panel++)
            for (size_t i = 0; i < n; i++)
                for (size_t k = 0; k < n; k++) {
                    good_bitmap(&f, panel);
                    put_number(f.bytes + 54, colours[i], 3);
                    put_number(f.bytes + 58, colours[k], 3);
                    bitmap_known(panel, f.bytes, f.len, i + k == 1 ? 0 : 4); /* the first two, in either order */
                }
    }
    end_group();

    begin_group("bitmaps, likely numbers in each field");
    {
        static const struct {
            size_t at;
            int n;
        } fields[] = {{0, 2},  {2, 4},  {6, 2},  {6, 4},  {8, 2},  {10, 4}, {14, 4},
                      {18, 4}, {22, 4}, {26, 2}, {28, 2}, {30, 4}, {34, 4}, {38, 4},
                      {42, 4}, {46, 4}, {50, 4}, {54, 4}, {58, 4}};
        for (uint32_t panel = 0; panel < 3; panel++)
            for (size_t i = 0; i < sizeof fields / sizeof fields[0]; i++) {
                const uint32_t likely[] = {
                    0, 1, 2, 3, 4, 12, 14, 24, 32, 40, 54, 56, 62, 64, 108, 124, 0x4D42, 0x424D,
                    width[panel], height[panel], 0u - width[panel], 0u - height[panel],
                    width[panel] + 1, height[panel] - 1, row_bytes[panel], stride[panel],
                    body_bytes(0), body_bytes(1), body_bytes(2), body_bytes(panel) + 1,
                    body_bytes(panel) - 1, body_bytes(panel) + 65536, body_bytes(panel) << 8,
                    body_bytes(panel) << 16, row_bytes[panel] * height[panel], bitmap_bytes[0],
                    bitmap_bytes[1], bitmap_bytes[2], bitmap_bytes[panel] + 65536,
                    bitmap_bytes[panel] - 14, 0x100, 0x102, 0x200, 0x10000, 0x10001, 0x10002, 0x20000,
                    0x1000000, 0x2000000, 0x80000000, 0x80000002, 0x00FFFFFF, 0xFFFFFFFF,
                    (uint32_t)random64(),
                };
                for (size_t k = 0; k < sizeof likely / sizeof likely[0]; k++) {
                    good_bitmap(&f, panel);
                    memcpy(kept, f.bytes + fields[i].at, 4);
                    put_number(f.bytes + fields[i].at, likely[k], fields[i].n);
                    bitmap(panel, f.bytes, f.len);
                    memcpy(f.bytes + fields[i].at, kept, 4);
                    bitmap_known(panel, f.bytes, f.len, 0);
                }
            }
    }
    end_group();

    begin_group("bitmaps, one byte changed anywhere");
    for (int i = 0; i < 3000; i++) {
        uint32_t panel = (uint32_t)i % 3;
        good_bitmap(&f, panel);
        f.bytes[below((uint32_t)f.len)] ^= (uint8_t)(1 + below(255));
        bitmap(panel, f.bytes, f.len);
    }
    end_group();

    begin_group("bitmaps, every length to 7000");
    for (uint32_t panel = 0; panel < 3; panel++) {
        good_bitmap(&f, panel);
        random_bytes(f.bytes + f.len, 7000 - f.len);
        for (uint32_t len = 0; len <= 7000; len++) {
            put_number(f.bytes + 2, bitmap_bytes[panel], 4);
            bitmap_known(panel, f.bytes, len, len == bitmap_bytes[panel] ? 0 : 4);
            put_number(f.bytes + 2, len, 4);
            bitmap_known(panel, f.bytes, len, len == bitmap_bytes[panel] ? 0 : 4);
        }
    }
    end_group();
}

/* ---- Lengths that do not fit 16 or 32 bits ---- */

/* 4 GiB of address space, of which only the first bytes are ever touched. */
static uint8_t *map_huge(size_t size)
{
    void *base = mmap(NULL, size, PROT_READ | PROT_WRITE, MAP_PRIVATE | MAP_ANONYMOUS | MAP_NORESERVE, -1, 0);
    return base == MAP_FAILED ? NULL : base;
}

static void huge_lengths(void)
{
    static uint8_t big[65536 + 8192];
    struct file f;

    begin_group("lengths of 65536 and more");
    for (uint32_t panel = 0; panel < 3; panel++) {
        memset(big, 0, sizeof big);
        good_bitmap(&f, panel);
        memcpy(big, f.bytes, f.len);
        bitmap_known(panel, big, 65536, 4);
        bitmap_known(panel, big, 65536 + f.len, 4);
        put_number(big + 2, 65536 + bitmap_bytes[panel], 4);
        bitmap_known(panel, big, 65536 + f.len, 4);
        memset(big, 0, sizeof big);
        good_settings(&f, panel);
        memcpy(big, f.bytes, f.len);
        settings_known(big, 65536, 2, "65536 bytes");
        settings_known(big, 65536 + f.len, 2, "65536 bytes more");
        random_bytes(big, sizeof big);
        line_known(panel, 1, 0, big, 65536 + row_bytes[panel], line_bytes[panel], 14, NULL);
        line_known(panel, 1, 0, big, 256 + row_bytes[panel], line_bytes[panel], 14, NULL);
    }
    end_group();

#if SIZE_MAX > 0xFFFFFFFF
    begin_group("lengths of 2^32 and more");
    size_t four_gib = (size_t)1 << 32;
    uint8_t *huge = map_huge(four_gib + 8192);
    if (huge == NULL) {
        printf("%-38s not run: no address space\n", group);
        return;
    }
    for (uint32_t panel = 0; panel < 3; panel++) {
        good_bitmap(&f, panel);
        memcpy(huge, f.bytes, f.len);
        uint8_t number = epd_check_bitmap(panel, huge, four_gib + f.len);
        count(number, number == 4);
        good_settings(&f, panel);
        memcpy(huge, f.bytes, f.len);
        number = epd_check_settings(huge, four_gib + f.len);
        count(number, number == 2);

        uint8_t dots[33], expected[4096], out[256];
        random_bytes(dots, sizeof dots);
        random_bytes(huge, sizeof expected);
        memcpy(expected, huge, sizeof expected);
        random_bytes(out, sizeof out);
        number = epd_build_line(panel, 2, 5, huge, four_gib + row_bytes[panel], out, line_bytes[panel]);
        count(number, number == 14);
        number = epd_build_line(panel, 2, 5, dots, row_bytes[panel], huge, four_gib + 3);
        ref_build_line(panel, 2, 5, dots, row_bytes[panel], expected, sizeof expected);
        count(number, number == 0 && memcmp(huge, expected, sizeof expected) == 0);
    }
    if (in_group.failed > 0 && first_difference())
        printf("  a length of 2^32 and more was not taken as it is\n");
    munmap(huge, four_gib + 8192);
    end_group();
#endif
}

/* ---- All calls mixed: none keeps anything from another ---- */

static void mixed(void)
{
    struct file f;
    uint8_t dots[33];

    begin_group("all three calls mixed");
    for (int i = 0; i < 10000; i++) {
        uint32_t panel = below(3);
        switch (below(3)) {
        case 0:
            random_bytes(dots, row_bytes[panel]);
            line(panel, 1 + below(4), below(height[panel]), dots, row_bytes[panel], line_bytes[panel]);
            break;
        case 1:
            good_settings(&f, panel);
            if (below(2) == 0)
                f.bytes[below((uint32_t)f.len)] ^= (uint8_t)(1 + below(255));
            settings(f.bytes, f.len);
            break;
        case 2:
            good_bitmap(&f, panel);
            if (below(2) == 0)
                f.bytes[below(62)] ^= (uint8_t)(1 + below(255));
            bitmap(panel, f.bytes, f.len);
            break;
        }
    }
    end_group();
}

int main(int argc, char **argv)
{
    random_state = argc > 1 ? strtoull(argv[1], NULL, 10) : 17;
    printf("seed %llu\n", (unsigned long long)random_state);

    input_end = map_with_closed_end(INPUT_SIZE);
    output_end = map_with_closed_end(OUTPUT_SIZE);
    struct sigaction action;
    memset(&action, 0, sizeof action);
    action.sa_handler = stopped;
    static const int signals[] = {SIGSEGV, SIGBUS, SIGILL, SIGABRT, SIGFPE, SIGTRAP, SIGALRM};
    for (size_t i = 0; i < sizeof signals / sizeof signals[0]; i++)
        sigaction(signals[i], &action, NULL);
    alarm(120);

    lines_by_hand();
    lines_everywhere();
    lines_refused();
    settings_by_hand();
    settings_every_value();
    settings_at_random();
    bitmaps_good();
    bitmaps_damaged();
    huge_lengths();
    mixed();

    print_counts("all", &in_all);
    unsigned long passed = in_all.calls - in_all.failed;
    static const int numbers[] = {0, 2, 4, 11, 14};
    for (int i = 0; i < 5; i++)
        if (in_all.given[numbers[i]] == 0) {
            printf("the number %d was never given\n", numbers[i]);
            in_all.failed++;
        }
    printf("%lu passed, %lu failed\n", passed, in_all.failed);
    return in_all.failed == 0 ? 0 : 1;
}
