/* Regions in plain C, row by row. */
#include "plain.h"
#include "region.h"

#include <string.h>

enum { ROWS = 176, ROW_BYTES = 33 };

/* Joins the bytes by shifts. Masks keep the dots before the first and after the last. */
static void shifted_row(uint8_t *to, unsigned shift, uint32_t width, const uint8_t *from, size_t row)
{
    size_t last = (shift + width - 1) / 8;
    unsigned before = 0;
    for (size_t k = 0; k <= last; k++) {
        unsigned next = k < row ? from[k] : 0, mask = 0xFF;
        unsigned byte = (before << 8 | next) >> shift;
        if (k == 0)
            mask &= 0xFFu >> shift;
        if (k == last)
            mask &= 0xFFu << (7 - (shift + width - 1) % 8);
        to[k] = (uint8_t)((to[k] & ~mask) | (byte & mask));
        before = next;
    }
}

void plain_row(uint8_t *to, unsigned shift, uint32_t width, const uint8_t *from, size_t row)
{
    if (shift == 0 && width % 8 == 0)
        memcpy(to, from, row);
    else
        shifted_row(to, shift, width, from, row);
}

static int unused_bit_set(uint32_t width, uint32_t height, const uint8_t *payload, size_t row)
{
    unsigned unused = (1u << (8 * row - width)) - 1;
    for (size_t j = 0; j < height; j++)
        if (payload[j * row + row - 1] & unused)
            return 1;
    return 0;
}

uint8_t plain_rows(uint32_t x, uint32_t y, uint32_t width, uint32_t height, const uint8_t *payload, size_t payload_len,
                   uint8_t *picture, size_t picture_len)
{
    size_t row = ((size_t)width + 7) / 8;
    if (picture_len != ROWS * ROW_BYTES)
        return 1;
    if (width < 1 || height < 1 || (uint64_t)x + width > 8 * ROW_BYTES || (uint64_t)y + height > ROWS)
        return 5;
    if (payload_len != height * row || unused_bit_set(width, height, payload, row))
        return 6;
    for (uint32_t j = 0; j < height; j++)
        plain_row(picture + (y + j) * ROW_BYTES + x / 8, x % 8, width, payload + j * row, row);
    return 0;
}

uint8_t bare_rows(uint32_t x, uint32_t y, uint32_t width, uint32_t height, const uint8_t *payload, size_t payload_len,
                  uint8_t *picture, size_t picture_len)
{
    (void)x, (void)y, (void)width, (void)height, (void)payload_len, (void)picture_len;
    for (size_t j = 0; j < ROWS; j++)
        memcpy(picture + j * ROW_BYTES, payload + j * ROW_BYTES, ROW_BYTES);
    return 0;
}
