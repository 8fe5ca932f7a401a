/* A file of its own, so that the compiler does not see the calls it is timed by. */
#include "plain.h"

#include <string.h>

static const struct {
    uint32_t row_bytes, rows;
} panels[3] = {{16, 96}, {25, 96}, {33, 176}};

static const uint8_t scan_mark[4] = {0xC0, 0x30, 0x0C, 0x03};

/* 0 if the arguments are good, else 14 or 11. */
static inline uint8_t refusal(uint32_t panel, uint32_t stage, uint32_t row, size_t dots_len, size_t out_len)
{
    if (panel > 2 || stage - 1 > 3 || row >= panels[panel].rows || dots_len != panels[panel].row_bytes)
        return 14;
    if (out_len < 2 * panels[panel].row_bytes + panels[panel].rows / 4)
        return 11;
    return 0;
}

/* Dot by dot: each dot's code is looked up and shifted in. */
uint8_t plain_dots(uint32_t panel, uint32_t stage, uint32_t row, const uint8_t *restrict dots,
                   size_t dots_len, uint8_t *restrict out, size_t out_len)
{
    static const uint8_t codes[4][2] = {{2, 3}, {0, 2}, {0, 3}, {3, 2}}; /* black, white */
    uint8_t number = refusal(panel, stage, row, dots_len, out_len);
    if (number != 0)
        return number;

    const uint8_t *code = codes[stage - 1];
    size_t row_bytes = panels[panel].row_bytes, scan_bytes = panels[panel].rows / 4;
    uint8_t *scan = out + row_bytes, *odd = scan + scan_bytes;

    for (size_t j = 0; j < row_bytes; j++) {
        unsigned byte = 0;
        for (int bit = 7; bit > 0; bit -= 2)
            byte = byte << 2 | code[dots[j] >> bit & 1];
        out[j] = (uint8_t)byte;
    }
    for (size_t s = 0; s < scan_bytes; s++)
        scan[s] = s == row / 4 ? scan_mark[row % 4] : 0;
    for (size_t k = 0; k < row_bytes; k++) {
        unsigned byte = 0;
        for (int bit = 0; bit < 8; bit += 2)
            byte = byte << 2 | code[dots[row_bytes - 1 - k] >> bit & 1];
        odd[k] = (uint8_t)byte;
    }
    return 0;
}

/* Byte by byte: four dots at once. In white, a white dot is 10 in its pair and a black one 00. */
static inline uint8_t coded(unsigned white, uint32_t stage)
{
    switch (stage) {
    case 1:
        return (uint8_t)(0xAA | white >> 1); /* white 11, black 10 */
    case 2:
        return (uint8_t)white; /* white 10, black 00 */
    case 3:
        return (uint8_t)(white | white >> 1); /* white 11, black 00 */
    default:
        return (uint8_t)(0xFF ^ white >> 1); /* white 10, black 11 */
    }
}

uint8_t plain_bytes(uint32_t panel, uint32_t stage, uint32_t row, const uint8_t *restrict dots,
                    size_t dots_len, uint8_t *restrict out, size_t out_len)
{
    uint8_t number = refusal(panel, stage, row, dots_len, out_len);
    if (number != 0)
        return number;

    size_t row_bytes = panels[panel].row_bytes, scan_bytes = panels[panel].rows / 4;
    uint8_t *scan = out + row_bytes, *odd = scan + scan_bytes;

    for (size_t j = 0; j < row_bytes; j++) {
        unsigned byte = dots[j];
        unsigned back = dots[row_bytes - 1 - j];
        out[j] = coded(byte & 0xAA, stage);
        back = (back & 0x01) << 7 | (back & 0x04) << 3 | (back & 0x10) >> 1 | (back & 0x40) >> 5;
        odd[j] = coded(back, stage);
    }
    memset(scan, 0, scan_bytes);
    scan[row / 4] = scan_mark[row % 4];
    return 0;
}
