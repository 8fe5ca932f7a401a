/*
 * Compares the call that mends bitmap files with the plain implementation in reference.c, and looks at what it
 * promises on every answer: undone it is the old file, it passes the check, and a second time changes nothing.
 * Usage: compare FILE.bmp .., files of real tools, which are cut and spoiled.
 *
 * Every lent piece of memory ends where a page begins that can be neither read nor written, so that a call which
 * goes too far is caught. Outputs are filled with random bytes and compared whole, with some bytes before them;
 * the file must stay as it was.
 */
#define _GNU_SOURCE
#include <signal.h>
#include <stdbool.h>
#include <stdio.h>
#include <stdlib.h>
#include <string.h>
#include <sys/mman.h>
#include <unistd.h>

#include "reference.h"
#include "start_board.h"

enum { LONG = 1 << 18, OUT = 8192, LIST = 4 * OUT, AROUND = 64, AT_LEAST = 100, LEAST_FILES = 20000 };

static const uint32_t far_panels[] = {3, 4, 127, 128, 129, 130, 255, 256, 257, 65536, 65538, 1u << 31, UINT32_MAX};
static const size_t list_most[3] = {EPD_MEND_LIST_BYTES_1_44, EPD_MEND_LIST_BYTES_2_0, EPD_MEND_LIST_BYTES_2_7};
static const unsigned numbers[] = {0, 4, 11, 14};

static uint64_t random_state = 2611;
static uint8_t *file_end, *out_end, *list_end; /* each is followed by a closed page */
static uint8_t before[AROUND + LIST], should_out[AROUND + OUT], should_list[AROUND + LIST], copy[LONG], old[OUT];
static unsigned long passed, failed, files, given[256], with_changes, with_added, longest_lists[3];
static const char *group;

/* ---- Random bytes (splitmix64), and lent memory ---- */

static uint64_t random64(void)
{
    uint64_t z = (random_state += 0x9E3779B97F4A7C15u);
    z = (z ^ (z >> 30)) * 0xBF58476D1CE4E5B9u;
    z = (z ^ (z >> 27)) * 0x94D049BB133111EBu;
    return z ^ (z >> 31);
}

/* A number from 0 to n - 1. */
static uint32_t below(uint32_t n)
{
    return (uint32_t)(random64() % n);
}

static void random_bytes(uint8_t *bytes, size_t n)
{
    for (size_t i = 0; i < n; i++)
        bytes[i] = (uint8_t)random64();
}

static uint8_t *map_with_closed_end(size_t size)
{
    size_t page = (size_t)sysconf(_SC_PAGESIZE);
    size = (size + page - 1) / page * page;
    uint8_t *base = mmap(NULL, size + page, PROT_READ | PROT_WRITE, MAP_PRIVATE | MAP_ANONYMOUS, -1, 0);
    if (base == MAP_FAILED || mprotect(base + size, page, PROT_NONE) != 0) {
        perror("mmap");
        exit(1);
    }
    return base + size;
}

/* A call that reads or writes outside its bytes, that stops or that does not come back ends here. */
static void stopped(int signal_number)
{
    printf("signal %d in group \"%s\"\n%lu passed, %lu failed\n", signal_number, group, passed, failed + 1);
    fflush(stdout);
    _exit(1);
}

static void judge(bool same, const char *what, size_t detail)
{
    if (same)
        passed++;
    else if (failed++ == 0)
        printf("first difference, in group \"%s\": %s, %zu\n", group, what, detail);
}

/* A null pointer now and then where nothing is lent. */
static uint8_t *lent(uint8_t *end, size_t n)
{
    return n == 0 && below(2) ? NULL : end - n;
}

/* ---- One call ---- */

/* The file of `len` bytes stands before file_end. Gives back the reference's answer. */
static struct answer call(uint32_t panel, size_t len, size_t out_len, size_t list_len)
{
    memcpy(should_out, before, AROUND + out_len);
    memcpy(out_end - out_len - AROUND, before, AROUND + out_len);
    memcpy(should_list, before, AROUND + list_len);
    memcpy(list_end - list_len - AROUND, before, AROUND + list_len);
    memcpy(copy, file_end - len, len);
    struct answer should = ref_mend(panel, file_end - len, len, should_out + AROUND, out_len, should_list + AROUND, list_len);
    uint64_t is = epd_mend_bitmap(panel, lent(file_end, len), len, lent(out_end, out_len), out_len, lent(list_end, list_len), list_len);

    given[should.number & 0xFF]++;
    judge(EPD_MEND_NUMBER(is) == should.number && EPD_MEND_CHANGES(is) == should.changes
              && EPD_MEND_ADDED_OFFSET(is) == should.offset && EPD_MEND_ADDED_COUNT(is) == should.added, "answer, for a file of bytes", len);
    judge(memcmp(should_out, out_end - out_len - AROUND, AROUND + out_len) == 0, "mended file, from one of bytes", len);
    judge(memcmp(should_list, list_end - list_len - AROUND, AROUND + list_len) == 0, "list, for a file of bytes", len);
    judge(memcmp(copy, file_end - len, len) == 0, "the file was changed, of bytes", len);
    return should;
}

/* The changes of the list undone and the added bytes cut off, from what the call put out alone. */
static void undo(size_t len, const uint8_t *out, size_t full, const uint8_t *list, struct answer answer)
{
    memcpy(old, out, full);
    for (size_t i = 0; i < answer.changes; i++)
        old[list[4 * i] * 256 + list[4 * i + 1]] = list[4 * i + 2];
    judge((answer.added ? answer.offset : full) == len && memcmp(old, file_end - len, len) == 0, "undone, a file of bytes", len);
}

/* What was put out passes the check, and a second time nothing is changed or added. */
static void again(uint32_t panel, const uint8_t *out, size_t full)
{
    judge(epd_check_bitmap(panel, out, full) == EPD_OK, "the check of a mended file, panel", panel);
    memcpy(file_end - full, out, full);
    struct answer second = call(panel, full, full, 0);
    judge(second.number == 0 && second.changes == 0 && second.added == 0, "mended twice, panel", panel);
}

/* A file: with room to spare, with just enough, with a byte less for either output; undone; and once more. */
static void mend_file(uint32_t panel, size_t len)
{
    struct answer answer = call(panel, len, EPD_BITMAP_BYTES_2_7 + below(40), LIST - below(40));

    files++;
    if (answer.number != 0)
        return;
    size_t full = ref_full_length(panel), list_len = 4 * answer.changes;
    with_changes += answer.changes != 0;
    with_added += answer.added != 0;
    if (list_len > longest_lists[panel])
        longest_lists[panel] = list_len;
    call(panel, len, full - 1, list_len);
    if (list_len != 0)
        call(panel, len, full, list_len - 1);
    call(panel, len, full, list_len);
    undo(len, out_end - full, full, list_end - list_len, answer);
    again(panel, out_end - full, full);
}

/* ---- Files ---- */

static void put(uint8_t *file, size_t at, uint32_t n)
{
    for (int i = 0; i < 4; i++, n >>= 8)
        file[at + i] = n & 0xFF;
}

static const struct panel {
    uint32_t width, height, stride;
} panels[3] = {{128, 96, 16}, {200, 96, 28}, {264, 176, 36}};

/* Puts a good file before file_end, with random dots and free fields; its padding is 0, or random. */
static size_t good_file(uint32_t panel, bool white_first, bool padded)
{
    const struct panel *p = &panels[panel];
    size_t full = ref_full_length(panel);
    uint8_t *file = file_end - full;

    random_bytes(file, full);
    memcpy(file, "BM", 2);
    put(file, 2, (uint32_t)full);
    put(file, 6, 0);
    put(file, 10, 62);
    put(file, 14, 40);
    put(file, 18, p->width);
    put(file, 22, p->height);
    put(file, 26, 0x00010001);
    put(file, 30, 0);
    put(file, 34, below(2) ? 0 : p->height * p->stride);
    put(file, 46, below(2) ? 0 : 2);
    memset(file + 54, white_first ? 0xFF : 0, 3);
    memset(file + 58, white_first ? 0 : 0xFF, 3);
    for (size_t i = 62; i < full; i++)
        if ((i - 62) % p->stride >= p->width / 8 && !padded)
            file[i] = 0;
    return full;
}

/* Moves the file so that it ends before file_end after its last bytes were cut. */
static size_t cut(size_t full, size_t len)
{
    memmove(file_end - len, file_end - full, len);
    return len;
}

static void for_each(void (*tests)(uint32_t panel, bool white_first))
{
    for (uint32_t panel = 0; panel < 3; panel++)
        for (int order = 0; order < 2; order++)
            tests(panel, order == 1);
}

/* ---- The tests ---- */

/* A 1.44" file by hand: a length of 1,599, a 7 in the zeros, a count of 3, and the last three bytes missing. */
static void typed(void)
{
    static const uint8_t list[12] = {0x00, 0x02, 0x3F, 0x3E, 0x00, 0x09, 0x07, 0x00, 0x00, 0x2E, 0x03, 0x00};
    size_t full = good_file(0, false, false);
    uint8_t *file = file_end - full;

    judge(full == 1598, "the file's length", full);
    put(file, 34, 0);
    put(file, 46, 3);
    file[2] = 0x3F;
    file[9] = 0x07;
    cut(full, 1595);
    uint64_t is = epd_mend_bitmap(EPD_PANEL_1_44, file_end - 1595, 1595, out_end - 1598, 1598, list_end - 12, 12);
    judge(is == (((uint64_t)3 << 32) | ((uint64_t)1595 << 16) | 3), "the typed answer", (size_t)is);
    judge(memcmp(list_end - 12, list, 12) == 0, "the typed list", 12);
    judge(memcmp(out_end - 3, "\xFF\xFF\xFF", 3) == 0, "white where black is first", 3);
    good_file(0, true, false);
    cut(full, 1595);
    epd_mend_bitmap(EPD_PANEL_1_44, file_end - 1595, 1595, out_end - 1598, 1598, NULL, 0);
    judge(memcmp(out_end - 3, "\0\0\0", 3) == 0, "white where white is first", 3);
}

/* Every length from 0 to the full one, and some past it. */
static void cut_anywhere(uint32_t panel, bool white_first)
{
    size_t full = ref_full_length(panel);

    for (size_t len = 0; len <= full + 40; len++) {
        good_file(panel, white_first, len % 7 == 0);
        if (len > full) {
            memmove(file_end - len, file_end - full, full);
            random_bytes(file_end - (len - full), len - full);
        } else {
            cut(full, len);
        }
        mend_file(panel, len);
    }
}

/* Each byte of the header at many values, alone; those of fields that are mended and of the palette at all. */
static void bytes_of_the_header(uint32_t panel, bool white_first)
{
    for (int at = 0; at < 62; at++) {
        bool all = (at >= 2 && at < 10) || (at >= 34 && at < 38) || (at >= 46 && at < 50) || at >= 54;
        for (int value = 0; value < 256; value += all ? 1 : 17) {
            size_t full = good_file(panel, white_first, false);
            file_end[at - (ptrdiff_t)full] = (uint8_t)value;
            mend_file(panel, full);
        }
    }
}

/* Good files, whose list is empty where the padding is 0; each byte of padding alone; all of it. */
static void padding(uint32_t panel, bool white_first)
{
    const struct panel *p = &panels[panel];

    for (int i = 0; i < 40; i++) {
        size_t full = good_file(panel, white_first, false);
        struct answer answer = call(panel, full, full, 0);
        judge(answer.number == 0 && answer.changes == 0 && answer.added == 0, "a good file of panel", panel);
    }
    for (size_t at = 62; at < ref_full_length(panel); at++)
        if ((at - 62) % p->stride >= p->width / 8) {
            size_t full = good_file(panel, white_first, false);
            file_end[(ptrdiff_t)at - (ptrdiff_t)full] = (uint8_t)(1 + below(255));
            mend_file(panel, full);
        }
    size_t full = good_file(panel, white_first, true);
    for (size_t at = 62; at < full; at++)
        if ((at - 62) % p->stride >= p->width / 8)
            file_end[(ptrdiff_t)at - (ptrdiff_t)full] = 0xA5;
    memset(file_end - full + 2, 0x77, 8);
    memset(file_end - full + 34, 0x77, 4);
    memset(file_end - full + 46, 0x77, 4);
    mend_file(panel, full);
}

/* Several damages at once: likely wrong numbers and random bytes, in fields and anywhere, often cut, or longer. */
static void spoil(uint8_t *file, size_t full)
{
    static const uint8_t fields[] = {2, 6, 34, 46, 2, 6, 34, 46, 10, 18, 22, 26, 30, 54, 58};
    static const uint32_t likely[] = {0, 1, 2, 3, 62, 96, 256, 1536, 1597, 1598, 2688, 2750, 6336, 6398, UINT32_MAX};

    for (uint32_t n = below(6); n > 0; n--) {
        uint32_t at = fields[below(below(8) ? 8 : sizeof fields)];
        switch (below(3)) {
        case 0: put(file, at, likely[below(sizeof likely / sizeof *likely)]); break;
        case 1: file[at + below(4)] = (uint8_t)random64(); break;
        default: file[62 + below((uint32_t)full - 62)] = (uint8_t)random64(); break;
        }
    }
}

static void several(uint32_t panel, bool white_first)
{
    for (int i = 0; i < 4000; i++) {
        size_t full = good_file(panel, white_first, below(3) == 0), len = full;
        spoil(file_end - full, full);
        if (below(2))
            len = cut(full, below(10) ? 62 + below((uint32_t)full - 61) : below(62));
        mend_file(below(50) ? panel : below(4), len);
    }
}

/* Panels that do not exist, with good files and with none; files that are far too long, and random bytes. */
static void others(uint32_t panel, bool white_first)
{
    for (size_t i = 0; i < sizeof far_panels / sizeof *far_panels; i++) {
        size_t full = good_file(panel, white_first, false);
        mend_file(far_panels[i], full);
        mend_file(far_panels[i], 0);
        call(far_panels[i], full, 0, 0);
    }
    for (size_t more = 1; more <= LONG / 2; more *= 2) {
        size_t full = good_file(panel, white_first, false), len = full + more;
        memmove(file_end - len, file_end - full, full);
        mend_file(panel, len);
        call(panel, len, 0, 0);
    }
    for (int i = 0; i < 50; i++) {
        size_t len = below(7000);
        random_bytes(file_end - len, len);
        mend_file(panel, len);
    }
}

/* Every short length of the two outputs. */
static void outputs(uint32_t panel, bool white_first)
{
    size_t full = good_file(panel, white_first, false);

    spoil(file_end - full, full);
    put(file_end - full, 2, 0x01020304);
    for (size_t out_len = 0; out_len < full; out_len += 1 + below(60))
        call(panel, full, out_len, LIST);
    for (size_t list_len = 0; list_len < 40; list_len++)
        call(panel, full, full, list_len);
}

/* A file of a real tool: as it is, cut at every length, and spoiled. */
static void of_a_tool(const char *path)
{
    static uint8_t bytes[OUT];
    FILE *stream = fopen(path, "rb");
    size_t full = stream ? fread(bytes, 1, OUT, stream) : 0;
    uint32_t panel = 0;

    if (stream)
        fclose(stream);
    while (panel < 3 && ref_full_length(panel) != full)
        panel++;
    judge(panel < 3 && epd_check_bitmap(panel, bytes, full) == EPD_OK, path, full);
    if (panel == 3)
        return;
    for (size_t len = 0; len <= full; len++) {
        memcpy(file_end - len, bytes, len);
        if (len > 62 && len % 3 == 0)
            spoil(file_end - len, len);
        mend_file(panel, len);
    }
}

/* ---- */

static void tell(const char *name, unsigned long so_far, unsigned long files_so_far)
{
    printf("%-44s %7lu files %9lu comparisons\n", name, files - files_so_far, passed + failed - so_far);
}

static void run(const char *name, void (*tests)(uint32_t panel, bool white_first))
{
    unsigned long so_far = passed + failed, files_so_far = files;

    group = name;
    for_each(tests);
    tell(name, so_far, files_so_far);
}

static void tools(int n, char **paths)
{
    unsigned long so_far = passed + failed, files_so_far = files;

    group = "files of real tools, cut and spoiled";
    for (int i = 0; i < n; i++)
        of_a_tool(paths[i]);
    judge(n > 0, "no file of a real tool was given", 0);
    tell(group, so_far, files_so_far);
}

/* Each number must have been given often, and the longest list that the header tells of. */
static void tell_counts(void)
{
    printf("numbers");
    for (size_t i = 0; i < sizeof numbers / sizeof *numbers; i++) {
        printf("  %u:%lu", numbers[i], given[numbers[i]]);
        failed += given[numbers[i]] < AT_LEAST;
    }
    printf("; %lu files, of which %lu had bytes changed and %lu had bytes added\n", files, with_changes, with_added);
    failed += files < LEAST_FILES;
    for (int panel = 0; panel < 3; panel++)
        failed += longest_lists[panel] != list_most[panel];
    printf("longest lists  %lu  %lu  %lu\n%lu passed, %lu failed\n", longest_lists[0], longest_lists[1], longest_lists[2], passed, failed);
}

int main(int argc, char **argv)
{
    signal(SIGSEGV, stopped);
    signal(SIGBUS, stopped);
    signal(SIGILL, stopped);
    signal(SIGALRM, stopped);
    alarm(300);
    file_end = map_with_closed_end(LONG);
    out_end = map_with_closed_end(AROUND + OUT);
    list_end = map_with_closed_end(AROUND + LIST);
    random_bytes(before, sizeof before);

    group = "typed by hand";
    typed();
    run("cut at every length", cut_anywhere);
    run("bytes of the header", bytes_of_the_header);
    run("good files, and padding", padding);
    run("several damages at once", several);
    run("other panels and lengths", others);
    run("short outputs", outputs);
    tools(argc - 1, argv + 1);
    tell_counts();
    return failed != 0;
}
