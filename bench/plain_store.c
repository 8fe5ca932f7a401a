/*
 * A store in plain C, as a careful engineer would write it: each call is given a pointer to the state and changes it in
 * place, and tests it first, file and all, as the rules ask (13). A region is written row by row, and so is a bitmap that
 * comes by chunks: a row that a chunk has whole goes into its slot at once, others by way of the bytes that the state keeps.
 * A call that writes a slot counts its black dots afresh, eight bytes at a time.
 */
#include "plain.h"
#include "store.h"

#include <stdbool.h>
#include <string.h>

enum { FILE_MAX = 637, OUT_MIN = 117, FRAME_MS = 30, HEADER = 62, SLOTS_MAX = 7 };

struct panel {
    uint32_t row_bytes, rows, frames, stride;
    uint8_t channels[8], level;
};

static const struct panel panels[3] = {
    {16, 96, 16, 16, {0x00, 0x00, 0x00, 0x00, 0x00, 0x0F, 0xFF, 0x00}, 0x03},
    {25, 96, 16, 28, {0x00, 0x00, 0x00, 0x00, 0x01, 0xFF, 0xE0, 0x00}, 0x03},
    {33, 176, 21, 36, {0x00, 0x00, 0x00, 0x7F, 0xFF, 0xFE, 0x00, 0x00}, 0x00},
};

static const uint8_t data_length[10] = {0, 8, 1, 1, 1, 1, 1, 1, 1, 2};

enum phase { IDLE, ABANDONED, RUNNING };
enum part { START, LINES, STOP };

struct run {
    uint32_t slot, last;
    uint64_t passed, handed, first;
    enum part part;
    uint32_t step, stage, frame, row;
};

enum palette { NEITHER, BLACK_FIRST, WHITE_FIRST };

/* A bitmap file on its way into a slot. With none begun all is 0. */
struct fill {
    uint32_t slot;
    size_t came;          /* bytes of the file so far */
    enum palette palette; /* once the header has come */
    uint8_t kept[HEADER]; /* of a header or row that has not come whole; 0 after that */
};

/* A slot's black dots, and the first and last row with one. Where there is none all is 0. */
struct summary {
    uint32_t black;
    bool rows; /* whether they are given */
    uint32_t first, last;
};

struct store {
    uint8_t file[FILE_MAX];
    size_t len;
    uint32_t slots;
    enum phase phase;
    struct run run;
    struct fill fill;
    struct summary summaries[SLOTS_MAX + 1];
    bool trusted; /* calls do not test the state */
};

/* ---- the settings file */

/* The bytes of the step at an index, or 0 where none stands there. */
static size_t step_size(const uint8_t *file, size_t len, size_t at, const struct panel *panel)
{
    if (len - at < 3)
        return 0;
    if (file[at] == 0x44) {
        unsigned ms = file[at + 1] * 256u + file[at + 2];
        return 1 <= ms && ms <= 1000 ? 3 : 0;
    }
    uint8_t reg = file[at + 1];
    if (file[at] != 0x57 || reg > 9 || data_length[reg] == 0 || len - at - 2 < data_length[reg])
        return 0;
    if (reg == 0x01 && memcmp(file + at + 2, panel->channels, 8) != 0)
        return 0;
    if (reg == 0x04 && file[at + 2] != panel->level)
        return 0;
    return 2u + data_length[reg];
}

/* Passes n steps; the index after them, or 0. The registers that they write are marked in `written`. */
static size_t pass_steps(const uint8_t *file, size_t len, size_t at, unsigned n, const struct panel *panel,
                         unsigned *written)
{
    for (; n > 0; n--) {
        size_t size = step_size(file, len, at, panel);
        if (size == 0)
            return 0;
        if (file[at] == 0x57)
            *written |= 1u << file[at + 1];
        at += size;
    }
    return at;
}

/* The index of the stop section of a good file, or 0 for a bad one. */
static size_t stop_of(const uint8_t *file, size_t len)
{
    unsigned written = 0, ignored = 0;
    if (len < 3 || file[0] != 1 || file[1] > 2 || file[2] < 2 || file[2] > 32)
        return 0;
    const struct panel *panel = &panels[file[1]];
    size_t stop = pass_steps(file, len, 3, file[2], panel, &written);
    if (stop == 0 || (written & 0x12) != 0x12 || len <= stop || file[stop] > 32)
        return 0;
    return pass_steps(file, len, stop + 1, file[stop], panel, &ignored) == len ? stop : 0;
}

/* The next write from step k on: the ms of the waits before it, and its index and step. */
struct next_write {
    uint32_t waits, step;
    size_t at;
};

static size_t size_of_good(const uint8_t *file, size_t at)
{
    return file[at] == 0x44 ? 3 : 2u + data_length[file[at + 1]];
}

static struct next_write next_write(const uint8_t *file, size_t section, uint32_t k)
{
    struct next_write next = {0, k, section + 1};
    for (uint32_t i = 0; i < k; i++)
        next.at += size_of_good(file, next.at);
    while (next.step < file[section] && file[next.at] == 0x44) {
        next.waits += file[next.at + 1] * 256u + file[next.at + 2];
        next.at += 3;
        next.step++;
    }
    return next;
}

/* ---- bitmap files */

static uint32_t number_at(const uint8_t *file, size_t at)
{
    return file[at] | (uint32_t)file[at + 1] << 8 | (uint32_t)file[at + 2] << 16 | (uint32_t)file[at + 3] << 24;
}

static enum palette palette_of(const uint8_t *file)
{
    uint32_t first = number_at(file, 54) & 0xFFFFFF, second = number_at(file, 58) & 0xFFFFFF;
    if (first == 0 && second == 0xFFFFFF)
        return BLACK_FIRST;
    return first == 0xFFFFFF && second == 0 ? WHITE_FIRST : NEITHER;
}

static size_t file_length(const struct panel *panel)
{
    return HEADER + (size_t)panel->rows * panel->stride;
}

static bool bitmap_good(const struct panel *panel, const uint8_t *file, size_t len)
{
    uint32_t rows_len = panel->rows * panel->stride;
    return len == HEADER + rows_len && file[0] == 'B' && file[1] == 'M' && number_at(file, 2) == len &&
           number_at(file, 6) == 0 && number_at(file, 10) == HEADER && number_at(file, 14) == 40 &&
           number_at(file, 18) == 8 * panel->row_bytes && number_at(file, 22) == panel->rows &&
           number_at(file, 26) == 0x00010001 && number_at(file, 30) == 0 &&
           (number_at(file, 34) == 0 || number_at(file, 34) == rows_len) &&
           (number_at(file, 46) == 0 || number_at(file, 46) == 2) && palette_of(file) != NEITHER;
}

/* Whether the first n bytes of a file, as far as they go, have this number at an index. */
static bool number_begins(const uint8_t *file, size_t n, size_t at, size_t size, uint32_t number)
{
    for (size_t i = at; i < n && i < at + size; i++, number >>= 8)
        if (file[i] != (uint8_t)number)
            return false;
    return true;
}

static bool colours_begin(const uint8_t *file, size_t n, uint32_t first, uint32_t second)
{
    return number_begins(file, n, 54, 3, first) && number_begins(file, n, 58, 3, second);
}

/* Whether a good header can begin with these n bytes. */
static bool header_begins(const struct panel *panel, const uint8_t *file, size_t n)
{
    const struct {
        size_t at;
        uint32_t number, other;
    } fields[] = {
        {2, (uint32_t)file_length(panel), (uint32_t)file_length(panel)}, {6, 0, 0}, {10, HEADER, HEADER}, {14, 40, 40},
        {18, 8 * panel->row_bytes, 8 * panel->row_bytes}, {22, panel->rows, panel->rows}, {26, 0x00010001, 0x00010001},
        {30, 0, 0}, {34, 0, panel->rows * panel->stride}, {46, 0, 2},
    };
    if (!number_begins(file, n, 0, 2, 'B' | 'M' << 8))
        return false;
    for (size_t i = 0; i < sizeof fields / sizeof fields[0]; i++)
        if (!number_begins(file, n, fields[i].at, 4, fields[i].number) &&
            !number_begins(file, n, fields[i].at, 4, fields[i].other))
            return false;
    return colours_begin(file, n, 0, 0xFFFFFF) || colours_begin(file, n, 0xFFFFFF, 0);
}

static void put_row(uint8_t *restrict row, const uint8_t *restrict bytes, uint32_t n, bool turned)
{
    if (turned)
        for (uint32_t i = 0; i < n; i++)
            row[i] = (uint8_t)~bytes[i];
    else
        memcpy(row, bytes, n);
}

/* Makes a picture that of a good file. */
static void read_bitmap(const struct panel *panel, const uint8_t *file, uint8_t *picture)
{
    bool turned = palette_of(file) == WHITE_FIRST;
    for (uint32_t y = 0; y < panel->rows; y++)
        put_row(picture + y * panel->row_bytes, file + HEADER + (panel->rows - 1 - y) * panel->stride,
                panel->row_bytes, turned);
}

/* ---- summaries */

static size_t picture_bytes(const struct panel *panel)
{
    return (size_t)panel->rows * panel->row_bytes;
}

static uint64_t word_at(const uint8_t *bytes)
{
    uint64_t word;
    memcpy(&word, bytes, sizeof word);
    return word;
}

/* The bits of a word that are 1. */
static uint32_t ones(uint64_t word)
{
    word -= word >> 1 & 0x5555555555555555u;
    word = (word & 0x3333333333333333u) + (word >> 2 & 0x3333333333333333u);
    word = (word + (word >> 4)) & 0x0F0F0F0F0F0F0F0Fu;
    return (uint32_t)(word * 0x0101010101010101u >> 56);
}

static uint32_t black_dots(const uint8_t *bytes, size_t n)
{
    uint32_t white = 0;
    size_t i = 0;
    for (; i + 8 <= n; i += 8)
        white += ones(word_at(bytes + i));
    for (; i < n; i++)
        white += ones(bytes[i]);
    return 8 * (uint32_t)n - white;
}

/* A fresh count. Only the bytes from the first with a black dot to the last are counted. */
static struct summary summary_of(const struct panel *panel, const uint8_t *picture)
{
    size_t first = 0, end = picture_bytes(panel);
    while (end >= 8 && word_at(picture + end - 8) == UINT64_MAX)
        end -= 8;
    while (end > 0 && picture[end - 1] == 0xFF)
        end--;
    if (end == 0)
        return (struct summary){0};
    while (first + 8 <= end && word_at(picture + first) == UINT64_MAX)
        first += 8;
    while (picture[first] == 0xFF)
        first++;
    return (struct summary){black_dots(picture + first, end - first), true, (uint32_t)first / panel->row_bytes,
                            (uint32_t)(end - 1) / panel->row_bytes};
}

/* ---- the state's conditions (13) and the memory's length (1) */

static bool after_write(const uint8_t *file, size_t section, uint32_t k)
{
    size_t at = section + 1;
    if (k == 0)
        return true;
    for (uint32_t i = 1; i < k; i++)
        at += size_of_good(file, at);
    return file[at] == 0x57;
}

static bool due_by(const struct run *run, uint32_t frame, uint64_t moment)
{
    return run->first <= moment && (uint64_t)FRAME_MS * frame <= moment - run->first;
}

static bool run_valid(const struct store *store, const struct panel *panel, size_t stop)
{
    const struct run *run = &store->run;
    if (run->slot < 1 || run->slot > store->slots || run->handed > run->passed)
        return false;
    if (run->part == START)
        return run->step <= store->file[2] && after_write(store->file, 2, run->step) && run->first == 0 &&
               (run->step != 0 || run->handed == 0);
    if (run->part == STOP)
        return run->step <= store->file[stop] && after_write(store->file, stop, run->step) &&
               due_by(run, 4 * panel->frames - (run->step == 0), run->handed);
    if (run->stage < 1 || run->stage > 4 || run->frame >= panel->frames || run->row >= panel->rows)
        return false;
    uint32_t frame = (run->stage - 1) * panel->frames + run->frame;
    return frame + run->row > 0 && due_by(run, frame - (run->row == 0), run->handed);
}

/* How many bytes of a header or row that has not come whole are kept. */
static size_t kept_count(const struct panel *panel, size_t came)
{
    return came < HEADER ? came : (came - HEADER) % panel->stride;
}

/* Whether all bytes are 0 from an index on. */
static bool zero_from(const uint8_t *kept, size_t at)
{
    uint8_t any = 0;
    for (; at < HEADER; at++)
        any |= kept[at];
    return any == 0;
}

static bool fill_valid(const struct store *store, const struct panel *panel)
{
    const struct fill *fill = &store->fill;
    if (fill->slot == 0)
        return fill->came == 0 && fill->palette == NEITHER && zero_from(fill->kept, 0);
    if (fill->slot > store->slots || (store->phase == RUNNING && store->run.slot == fill->slot))
        return false;
    if (fill->came > file_length(panel) || !zero_from(fill->kept, kept_count(panel, fill->came)))
        return false;
    if (fill->came >= HEADER)
        return fill->palette == BLACK_FIRST || fill->palette == WHITE_FIRST;
    return fill->palette == NEITHER && header_begins(panel, fill->kept, fill->came);
}

/* Whether the summaries of slots 0 to n can be those of pictures. */
static bool summaries_valid(const struct store *store, const struct panel *panel)
{
    for (uint32_t slot = 0; slot <= store->slots; slot++) {
        const struct summary *summary = &store->summaries[slot];
        if (summary->black > 8 * panel->row_bytes * panel->rows || summary->rows != (summary->black > 0))
            return false;
        if (summary->rows && (summary->first > summary->last || summary->last >= panel->rows))
            return false;
    }
    return true;
}

/* 13 or 1, or 0; and the panel and the stop section. */
static uint8_t refused(const struct store *store, size_t memory_len, const struct panel **panel, size_t *stop)
{
    *stop = store->len > FILE_MAX ? 0 : stop_of(store->file, store->len);
    if (*stop == 0 || store->slots < 1 || store->slots > SLOTS_MAX)
        return 13;
    *panel = &panels[store->file[1]];
    if ((store->phase == RUNNING && !run_valid(store, *panel, *stop)) || !fill_valid(store, *panel) ||
        !summaries_valid(store, *panel))
        return 13;
    return memory_len == (store->slots + 1) * picture_bytes(*panel) ? 0 : 1;
}

/* The same for a state that is trusted: the file is not read through. */
static uint8_t entered(const struct store *store, size_t memory_len, const struct panel **panel, size_t *stop)
{
    if (!store->trusted)
        return refused(store, memory_len, panel, stop);
    *panel = &panels[store->file[1]];
    *stop = 3;
    if (store->run.part == STOP)
        for (unsigned i = 0; i < store->file[2]; i++)
            *stop += size_of_good(store->file, *stop);
    return 0;
}

/* ---- the calls */

static uint8_t store_open(struct store *store, const uint8_t *file, size_t len, uint32_t n, uint8_t *memory,
                          size_t memory_len)
{
    if (stop_of(file, len) == 0)
        return 2;
    if (n < 1 || n > SLOTS_MAX || memory_len != (n + 1) * picture_bytes(&panels[file[1]]))
        return 1;
    memset(store, 0, sizeof *store);
    memcpy(store->file, file, len);
    store->len = len;
    store->slots = n;
    memset(memory, 0xFF, memory_len);
    return 0;
}

static uint8_t upload_refused(const struct store *store, size_t memory_len, uint32_t slot,
                              const struct panel **panel)
{
    size_t stop;
    uint8_t number = entered(store, memory_len, panel, &stop);
    if (number != 0)
        return number;
    if (slot < 1 || slot > store->slots)
        return 3;
    if (store->phase == RUNNING && store->run.slot == slot)
        return 7;
    return store->fill.slot == slot ? 15 : 0;
}

static void count_slot(struct store *store, const struct panel *panel, const uint8_t *memory, uint32_t slot)
{
    store->summaries[slot] = summary_of(panel, memory + slot * picture_bytes(panel));
}

static uint8_t store_upload_bitmap(struct store *store, uint8_t *memory, size_t memory_len, uint32_t slot,
                                   const uint8_t *file, size_t len)
{
    const struct panel *panel;
    uint8_t number = upload_refused(store, memory_len, slot, &panel);
    if (number != 0)
        return number;
    if (!bitmap_good(panel, file, len))
        return 4;
    read_bitmap(panel, file, memory + slot * picture_bytes(panel));
    count_slot(store, panel, memory, slot);
    return 0;
}

static uint8_t region_refused(const struct panel *panel, uint32_t x, uint32_t y, uint32_t width, uint32_t height,
                              const uint8_t *payload, size_t payload_len)
{
    if (width < 1 || height < 1 || (uint64_t)x + width > 8 * panel->row_bytes || (uint64_t)y + height > panel->rows)
        return 5;
    uint32_t bytes = (width + 7) / 8;
    if (payload_len != (size_t)height * bytes)
        return 6;
    for (uint32_t j = 0; j < height; j++)
        if (payload[j * bytes + bytes - 1] & (0xFFu >> (width - 8 * (bytes - 1))))
            return 6;
    return 0;
}

static uint8_t store_upload_region(struct store *store, uint8_t *memory, size_t memory_len, uint32_t slot, uint32_t x,
                                   uint32_t y, uint32_t width, uint32_t height, const uint8_t *payload,
                                   size_t payload_len)
{
    const struct panel *panel;
    uint8_t number = upload_refused(store, memory_len, slot, &panel);
    if (number != 0)
        return number;
    number = region_refused(panel, x, y, width, height, payload, payload_len);
    if (number != 0)
        return number;
    uint8_t *picture = memory + slot * picture_bytes(panel);
    uint32_t bytes = (width + 7) / 8;
    for (uint32_t j = 0; j < height; j++)
        plain_row(picture + (y + j) * panel->row_bytes + x / 8, x % 8, width, payload + j * bytes, bytes);
    count_slot(store, panel, memory, slot);
    return 0;
}

static uint8_t store_begin(struct store *store, size_t memory_len, uint32_t slot)
{
    const struct panel *panel;
    uint8_t number = upload_refused(store, memory_len, slot, &panel);
    if (number != 0)
        return number;
    if (store->fill.slot != 0)
        return 16;
    store->fill.slot = slot;
    return 0;
}

/* 13, 1 or 17, or 0; and the panel. */
static uint8_t fill_refused(const struct store *store, size_t memory_len, const struct panel **panel)
{
    size_t stop;
    uint8_t number = entered(store, memory_len, panel, &stop);
    if (number != 0)
        return number;
    return store->fill.slot == 0 ? 17 : 0;
}

/* A fill that comes to nothing leaves its slot white. */
static void drop_fill(struct store *store, const struct panel *panel, uint8_t *memory)
{
    memset(memory + store->fill.slot * picture_bytes(panel), 0xFF, picture_bytes(panel));
    store->summaries[store->fill.slot] = (struct summary){0};
    memset(&store->fill, 0, sizeof store->fill);
}

/* Whether a good file can begin with what came and this chunk. */
static bool goes_on(const struct fill *fill, const struct panel *panel, const uint8_t *chunk, size_t len)
{
    if (len > file_length(panel) - fill->came)
        return false;
    if (fill->came >= HEADER)
        return true;
    uint8_t header[HEADER];
    size_t n = len < HEADER - fill->came ? len : HEADER - fill->came;
    memcpy(header, fill->kept, fill->came);
    memcpy(header + fill->came, chunk, n);
    return header_begins(panel, header, fill->came + n);
}

/* How many rows have come whole. */
static size_t rows_come(const struct fill *fill, const struct panel *panel)
{
    return fill->came < HEADER ? 0 : (fill->came - HEADER) / panel->stride;
}

/* The row that comes next, from the bottom up. */
static void fill_row(struct fill *fill, const struct panel *panel, uint8_t *picture, const uint8_t *row)
{
    size_t y = panel->rows - 1 - rows_come(fill, panel);
    put_row(picture + y * panel->row_bytes, row, panel->row_bytes, fill->palette == WHITE_FIRST);
}

/* Takes the part of a chunk that a header or row still lacks, or all of it; answers its length. */
static size_t take_part(struct fill *fill, const struct panel *panel, uint8_t *picture, const uint8_t *chunk, size_t len)
{
    size_t kept = kept_count(panel, fill->came);
    size_t lacks = (fill->came < HEADER ? HEADER : panel->stride) - kept;
    size_t n = len < lacks ? len : lacks;
    memcpy(fill->kept + kept, chunk, n);
    if (n == lacks) {
        if (fill->came < HEADER)
            fill->palette = palette_of(fill->kept);
        else
            fill_row(fill, panel, picture, fill->kept);
        memset(fill->kept, 0, kept + n);
    }
    fill->came += n;
    return n;
}

static uint8_t store_feed(struct store *store, uint8_t *memory, size_t memory_len, const uint8_t *chunk, size_t len)
{
    const struct panel *panel;
    struct fill *fill = &store->fill;
    uint8_t number = fill_refused(store, memory_len, &panel);
    if (number != 0)
        return number;
    if (!goes_on(fill, panel, chunk, len)) {
        drop_fill(store, panel, memory);
        return 4;
    }
    uint8_t *picture = memory + fill->slot * picture_bytes(panel);
    size_t rows = rows_come(fill, panel);
    while (len > 0) {
        size_t n = panel->stride;
        if (fill->came >= HEADER && kept_count(panel, fill->came) == 0 && len >= n) {
            fill_row(fill, panel, picture, chunk);
            fill->came += n;
        } else {
            n = take_part(fill, panel, picture, chunk, len);
        }
        chunk += n;
        len -= n;
    }
    if (rows_come(fill, panel) > rows)
        count_slot(store, panel, memory, fill->slot);
    return 0;
}

static uint8_t store_finish(struct store *store, uint8_t *memory, size_t memory_len)
{
    const struct panel *panel;
    uint8_t number = fill_refused(store, memory_len, &panel);
    if (number != 0)
        return number;
    if (store->fill.came != file_length(panel)) {
        drop_fill(store, panel, memory);
        return 4;
    }
    memset(&store->fill, 0, sizeof store->fill);
    return 0;
}

static uint8_t store_start(struct store *store, size_t memory_len, uint32_t slot, uint32_t tick)
{
    const struct panel *panel;
    size_t stop;
    uint8_t number = entered(store, memory_len, &panel, &stop);
    if (number != 0)
        return number;
    if (store->phase == RUNNING)
        return 8;
    if (store->phase == ABANDONED)
        return 12;
    if (slot < 1 || slot > store->slots)
        return 3;
    if (store->fill.slot == slot)
        return 15;
    store->phase = RUNNING;
    store->run = (struct run){.slot = slot, .last = tick};
    return 0;
}

/* What a poll answers: a refusal's number, or one of these with bytes put out or ms to go. */
struct answer {
    enum { REFUSED, WRITE, LINE, WAIT, DONE } kind;
    size_t value;
};

static uint32_t to_go(uint64_t from, uint32_t ms, uint64_t moment)
{
    uint64_t gone = moment - from;
    return ms <= gone ? 0 : ms - (uint32_t)gone;
}

static struct answer put_step(struct store *store, const struct next_write *next, uint64_t moment, uint8_t *out)
{
    const uint8_t *step = store->file + next->at;
    size_t length = data_length[step[1]];
    out[0] = 0x70;
    out[1] = step[1];
    out[2] = 0x72;
    memcpy(out + 3, step + 2, length);
    store->run.handed = moment;
    store->run.step = next->step + 1;
    return (struct answer){WRITE, 3 + length};
}

static void next_line(struct run *run, const struct panel *panel)
{
    if (++run->row < panel->rows)
        return;
    run->row = 0;
    if (++run->frame < panel->frames)
        return;
    run->frame = 0;
    if (++run->stage <= 4)
        return;
    run->part = STOP;
    run->step = 0;
}

static struct answer put_line(struct store *store, const struct panel *panel, uint64_t moment, const uint8_t *memory,
                              uint8_t *out)
{
    struct run *run = &store->run;
    uint32_t slot = run->stage <= 2 ? 0 : run->slot;
    size_t length = 2 * panel->row_bytes + panel->rows / 4;
    out[0] = 0x70;
    out[1] = 0x0A;
    out[2] = 0x72;
    plain_bytes(store->file[1], run->stage, run->row,
                memory + slot * picture_bytes(panel) + run->row * panel->row_bytes, panel->row_bytes, out + 3, length);
    memcpy(out + 3 + length, (const uint8_t[]){0x70, 0x02, 0x72, 0x2F}, 4);
    run->handed = moment;
    next_line(run, panel);
    return (struct answer){LINE, 3 + length + 4};
}

static struct answer waiting(uint32_t ms)
{
    return (struct answer){WAIT, ms};
}

static struct answer poll_start(struct store *store, const struct panel *panel, uint64_t moment,
                                const uint8_t *memory, uint8_t *out)
{
    struct run *run = &store->run;
    struct next_write next = next_write(store->file, 2, run->step);
    uint32_t ms = to_go(run->handed, next.waits, moment);
    if (ms > 0)
        return waiting(ms);
    if (next.step < store->file[2])
        return put_step(store, &next, moment, out);
    run->part = LINES;
    run->stage = 1;
    run->frame = run->row = 0;
    run->first = moment;
    return put_line(store, panel, moment, memory, out);
}

static struct answer poll_stop(struct store *store, const struct panel *panel, size_t stop, uint64_t moment,
                               uint8_t *memory, uint8_t *out)
{
    struct run *run = &store->run;
    struct next_write next = next_write(store->file, stop, run->step);
    uint32_t ms = to_go(run->first, 4 * FRAME_MS * panel->frames + next.waits, moment);
    uint32_t other = to_go(run->handed, next.waits, moment);
    if (ms < other)
        ms = other;
    if (ms > 0)
        return waiting(ms);
    if (next.step < store->file[stop])
        return put_step(store, &next, moment, out);
    memcpy(memory, memory + run->slot * picture_bytes(panel), picture_bytes(panel));
    store->summaries[0] = store->summaries[run->slot];
    store->phase = IDLE;
    return (struct answer){DONE, 0};
}

static struct answer poll_line(struct store *store, const struct panel *panel, uint64_t moment,
                               const uint8_t *memory, uint8_t *out)
{
    struct run *run = &store->run;
    uint32_t ms = 0;
    if (run->row == 0)
        ms = to_go(run->first, FRAME_MS * ((run->stage - 1) * panel->frames + run->frame), moment);
    return ms > 0 ? waiting(ms) : put_line(store, panel, moment, memory, out);
}

static struct answer store_poll(struct store *store, uint32_t tick, uint8_t *memory, size_t memory_len, uint8_t *out,
                                size_t out_len)
{
    const struct panel *panel;
    size_t stop;
    struct run *run = &store->run;
    uint8_t number = entered(store, memory_len, &panel, &stop);
    if (number != 0)
        return (struct answer){REFUSED, number};
    if (store->phase != RUNNING)
        return (struct answer){REFUSED, 9};
    if (out_len < OUT_MIN)
        return (struct answer){REFUSED, 11};
    uint32_t step = tick - run->last;
    if (step >= 0x80000000u || UINT64_MAX - run->passed < step)
        return (struct answer){REFUSED, 10};
    run->last = tick;
    run->passed += step;
    switch (run->part) {
    case START:
        return poll_start(store, panel, run->passed, memory, out);
    case LINES:
        return poll_line(store, panel, run->passed, memory, out);
    default:
        return poll_stop(store, panel, stop, run->passed, memory, out);
    }
}

/* ---- what is timed */

static size_t update(bool trusted, const uint8_t *file, size_t file_len, const uint8_t *bitmap, size_t bitmap_len,
                     uint8_t *memory, size_t memory_len, uint8_t *out, size_t out_len)
{
    struct store store;
    size_t at = 0;
    uint32_t tick = 0;
    if (store_open(&store, file, file_len, 1, memory, memory_len) != 0)
        return 0;
    store.trusted = trusted;
    store_upload_bitmap(&store, memory, memory_len, 1, bitmap, bitmap_len);
    store_start(&store, memory_len, 1, tick);
    for (;;) {
        struct answer answer = store_poll(&store, tick, memory, memory_len, out + at, out_len - at);
        if (answer.kind == WAIT)
            tick += (uint32_t)answer.value;
        else if (answer.kind == WRITE || answer.kind == LINE)
            at += answer.value;
        else
            return at;
    }
}

size_t plain_update(const uint8_t *file, size_t file_len, const uint8_t *bitmap, size_t bitmap_len, uint8_t *memory,
                    size_t memory_len, uint8_t *out, size_t out_len)
{
    return update(false, file, file_len, bitmap, bitmap_len, memory, memory_len, out, out_len);
}

size_t trusting_update(const uint8_t *file, size_t file_len, const uint8_t *bitmap, size_t bitmap_len,
                       uint8_t *memory, size_t memory_len, uint8_t *out, size_t out_len)
{
    return update(true, file, file_len, bitmap, bitmap_len, memory, memory_len, out, out_len);
}

uint8_t plain_opening(const uint8_t *file, size_t file_len, uint8_t *memory, size_t memory_len)
{
    struct store store;
    return store_open(&store, file, file_len, 1, memory, memory_len);
}

uint8_t plain_fill(const uint8_t *file, size_t file_len, const uint8_t *bitmap, size_t bitmap_len, size_t size,
                   uint8_t *memory, size_t memory_len)
{
    struct store store;
    uint8_t number = store_open(&store, file, file_len, 1, memory, memory_len);
    if (number != 0)
        return number;
    store_begin(&store, memory_len, 1);
    for (size_t at = 0; at < bitmap_len; at += size)
        store_feed(&store, memory, memory_len, bitmap + at, size < bitmap_len - at ? size : bitmap_len - at);
    return store_finish(&store, memory, memory_len);
}

uint8_t plain_bitmap(const uint8_t *file, size_t file_len, const uint8_t *bitmap, size_t bitmap_len, uint8_t *memory,
                     size_t memory_len)
{
    struct store store;
    uint8_t number = store_open(&store, file, file_len, 1, memory, memory_len);
    if (number != 0)
        return number;
    return store_upload_bitmap(&store, memory, memory_len, 1, bitmap, bitmap_len);
}

static bool is_picture(uint32_t panel, size_t len)
{
    return panel < 3 && len == picture_bytes(&panels[panel]);
}

uint8_t plain_copy(uint32_t panel, const uint8_t *bitmap, size_t bitmap_len, uint8_t *picture, size_t picture_len)
{
    if (!is_picture(panel, picture_len))
        return 1;
    if (bitmap_len != file_length(&panels[panel]))
        return 4;
    read_bitmap(&panels[panel], bitmap, picture);
    return 0;
}

uint32_t plain_count(uint32_t panel, const uint8_t *picture, size_t picture_len)
{
    return is_picture(panel, picture_len) ? summary_of(&panels[panel], picture).black : 0;
}

uint8_t plain_region(const uint8_t *file, size_t file_len, uint32_t x, uint32_t y, uint32_t width, uint32_t height,
                     const uint8_t *payload, size_t payload_len, uint8_t *memory, size_t memory_len)
{
    struct store store;
    uint8_t number = store_open(&store, file, file_len, 1, memory, memory_len);
    if (number != 0)
        return number;
    return store_upload_region(&store, memory, memory_len, 1, x, y, width, height, payload, payload_len);
}
