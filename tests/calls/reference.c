/* The plain implementation: one dot, one byte, one rule at a time. Clarity first, speed never. */
#include "reference.h"

#include <stdbool.h>

/* ---- Panels ---- */

struct panel {
    uint32_t x, y;         /* dots across, rows */
    uint32_t stride;       /* bytes of one bitmap row */
    uint8_t channel[8];    /* data of register 0x01 */
    uint8_t gate_source;   /* data of register 0x04 */
};

static const struct panel panels[3] = {
    {128, 96, 16, {0x00, 0x00, 0x00, 0x00, 0x00, 0x0F, 0xFF, 0x00}, 0x03},
    {200, 96, 28, {0x00, 0x00, 0x00, 0x00, 0x01, 0xFF, 0xE0, 0x00}, 0x03},
    {264, 176, 36, {0x00, 0x00, 0x00, 0x7F, 0xFF, 0xFE, 0x00, 0x00}, 0x00},
};

/* ---- The line builder ---- */

enum { NOTHING = 0, WHITE = 2, BLACK = 3 }; /* dot codes 00, 10, 11 */

/* The code that a stage sends for a dot of the picture it looks at. */
static unsigned dot_code(uint32_t stage, bool is_white)
{
    switch (stage) {
    case 1:
        return is_white ? BLACK : WHITE;
    case 2:
        return is_white ? WHITE : NOTHING;
    case 3:
        return is_white ? BLACK : NOTHING;
    default:
        return is_white ? WHITE : BLACK;
    }
}

static bool white_at(const uint8_t *dots, uint32_t dot)
{
    uint32_t place = 7 - dot % 8; /* dot 0 is the highest bit */
    return (dots[dot / 8] >> place) % 2 == 1;
}

uint8_t ref_build_line(uint32_t panel, uint32_t stage, uint32_t row, const uint8_t *dots,
                       size_t dots_len, uint8_t *out, size_t out_len)
{
    if (panel > 2)
        return 14;
    const struct panel *p = &panels[panel];
    if (stage < 1 || stage > 4)
        return 14;
    if (row >= p->y)
        return 14;
    if (dots_len != p->x / 8)
        return 14;

    uint32_t even_bytes = p->x / 8;
    uint32_t scan_bytes = p->y / 4;
    uint32_t odd_bytes = p->x / 8;
    if (out_len < even_bytes + scan_bytes + odd_bytes)
        return 11;

    uint32_t at = 0;

    /* Even byte j: dots 8j, 8j+2, 8j+4, 8j+6. */
    for (uint32_t j = 0; j < even_bytes; j++) {
        unsigned byte = 0;
        for (uint32_t i = 0; i < 4; i++) {
            uint32_t dot = 8 * j + 2 * i;
            byte = byte * 4 + dot_code(stage, white_at(dots, dot));
        }
        out[at++] = (uint8_t)byte;
    }

    /* Scan bytes: two bits for each row, the first row in the high pair. */
    for (uint32_t s = 0; s < scan_bytes; s++) {
        unsigned byte = 0;
        for (uint32_t i = 0; i < 4; i++) {
            unsigned pair = 4 * s + i == row ? 3 : 0;
            byte = byte * 4 + pair;
        }
        out[at++] = (uint8_t)byte;
    }

    /* Odd byte k: dots X-1-8k, X-3-8k, X-5-8k, X-7-8k. */
    for (uint32_t k = 0; k < odd_bytes; k++) {
        unsigned byte = 0;
        for (uint32_t i = 0; i < 4; i++) {
            uint32_t dot = p->x - 1 - 8 * k - 2 * i;
            byte = byte * 4 + dot_code(stage, white_at(dots, dot));
        }
        out[at++] = (uint8_t)byte;
    }
    return 0;
}

/* ---- The settings check ---- */

struct reader {
    const uint8_t *file;
    size_t len;
    size_t at;
};

/* The next byte, or -1 at the end of the file. */
static int next(struct reader *r)
{
    if (r->at == r->len)
        return -1;
    return r->file[r->at++];
}

static int data_length(int reg)
{
    if (reg == 0x01)
        return 8;
    if (reg >= 0x02 && reg <= 0x08)
        return 1;
    if (reg == 0x09)
        return 2;
    return -1;
}

/* Reads one step. Answers false if it breaks a rule; notes a write of 0x01 or 0x04. */
static bool read_step(struct reader *r, const struct panel *p, bool *wrote_01, bool *wrote_04)
{
    int kind = next(r);

    if (kind == 0x44) {
        int high = next(r);
        int low = next(r);
        if (high < 0 || low < 0)
            return false;
        int wait = 256 * high + low;
        return wait >= 1 && wait <= 1000;
    }

    if (kind == 0x57) {
        int reg = next(r);
        int length = data_length(reg);
        if (length < 0)
            return false;
        for (int i = 0; i < length; i++) {
            int data = next(r);
            if (data < 0)
                return false;
            if (reg == 0x01 && data != p->channel[i])
                return false;
            if (reg == 0x04 && data != p->gate_source)
                return false;
        }
        if (reg == 0x01)
            *wrote_01 = true;
        if (reg == 0x04)
            *wrote_04 = true;
        return true;
    }

    return false;
}

static bool settings_good(struct reader *r)
{
    /* Panel. */
    if (next(r) != 1)
        return false;
    int code = next(r);
    if (code < 0 || code > 2)
        return false;
    const struct panel *p = &panels[code];

    /* Start steps. */
    bool start_01 = false, start_04 = false;
    int starts = next(r);
    if (starts < 2 || starts > 32)
        return false;
    for (int i = 0; i < starts; i++)
        if (!read_step(r, p, &start_01, &start_04))
            return false;
    if (!start_01 || !start_04)
        return false;

    /* Stop steps: what they write does not make up for a missing start write. */
    bool stop_01 = false, stop_04 = false;
    int stops = next(r);
    if (stops < 0 || stops > 32)
        return false;
    for (int i = 0; i < stops; i++)
        if (!read_step(r, p, &stop_01, &stop_04))
            return false;

    return r->at == r->len;
}

uint8_t ref_check_settings(const uint8_t *file, size_t len)
{
    struct reader r = {file, len, 0};
    return settings_good(&r) ? 0 : 2;
}

/* ---- The bitmap check ---- */

/* A number of n bytes, low byte first. */
static uint32_t number(const uint8_t *file, size_t at, int n)
{
    uint32_t value = 0;
    for (int i = n - 1; i >= 0; i--)
        value = 256 * value + file[at + (size_t)i];
    return value;
}

uint8_t ref_check_bitmap(uint32_t panel, const uint8_t *file, size_t len)
{
    if (panel > 2)
        return 14;
    const struct panel *p = &panels[panel];
    uint32_t body = p->y * p->stride;
    uint32_t length = 62 + body;

    if (len != length)
        return 4;
    if (file[0] != 'B' || file[1] != 'M')
        return 4;
    if (number(file, 2, 4) != length)
        return 4;
    if (number(file, 6, 4) != 0)
        return 4;
    if (number(file, 10, 4) != 62)
        return 4;
    if (number(file, 14, 4) != 40)
        return 4;
    if (number(file, 18, 4) != p->x)
        return 4;
    if (number(file, 22, 4) != p->y)
        return 4;
    if (number(file, 26, 2) != 1)
        return 4;
    if (number(file, 28, 2) != 1)
        return 4;
    if (number(file, 30, 4) != 0)
        return 4;
    uint32_t size = number(file, 34, 4);
    if (size != 0 && size != body)
        return 4;
    uint32_t colours = number(file, 46, 4);
    if (colours != 0 && colours != 2)
        return 4;
    const uint32_t black = 0x000000, white = 0xFFFFFF;
    uint32_t first = number(file, 54, 3), second = number(file, 58, 3); /* the fourth byte of an entry is free */
    if (!(first == black && second == white) && !(first == white && second == black))
        return 4;
    return 0;
}
