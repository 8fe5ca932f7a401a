#include "plain_hall.h"

#include <string.h>

enum { HEADER = 16, DATA = 251, HEAD = 4 };

static uint16_t table[256];

static void put_header(uint32_t panel, uint32_t depth, uint8_t *out)
{
    uint32_t x = panel == 0x3E ? 1600 : 1440, y = panel == 0x3E ? 1200 : 2560;

    memset(out, 0, HEADER);
    out[0] = (uint8_t)panel;
    out[1] = (uint8_t)(x >> 8);
    out[2] = (uint8_t)x;
    out[3] = (uint8_t)(y >> 8);
    out[4] = (uint8_t)y;
    out[5] = (uint8_t)depth;
    out[6] = panel == 0x3E ? 0 : 7;
}

uint32_t plain_hall_command(uint32_t panel, uint32_t depth, const uint8_t *image, size_t image_len, uint32_t slot,
                            uint32_t number, uint8_t *out, size_t out_len)
{
    if ((panel != 0x3E && panel != 0x3F) || (depth != 1 && depth != 2))
        return 24;
    if (image_len != (panel == 0x3E ? 240000u : 460800u) * depth)
        return 25;
    if (slot > 255)
        return 26;
    size_t total = HEADER + image_len, at = (size_t)number * DATA;
    if (at >= total)
        return (uint32_t)2 << 24;
    size_t n = total - at < DATA ? total - at : DATA;
    if (out_len < HEAD + n)
        return 11;
    out[0] = 0x20;
    out[1] = 0x01;
    out[2] = (uint8_t)slot;
    out[3] = (uint8_t)n;
    if (number == 0) {
        put_header(panel, depth, out + HEAD);
        memcpy(out + HEAD + HEADER, image, n - HEADER);
    } else
        memcpy(out + HEAD, image + at - HEADER, n);
    return (uint32_t)1 << 24 | (uint32_t)(HEAD + n);
}

uint16_t plain_hall_checksum_printed(uint16_t start, const uint8_t *bytes, size_t len)
{
    uint16_t sum = start;

    for (size_t i = 0; i < len; i++) {
        sum ^= bytes[i];
        sum = (uint16_t)(sum << 8 | sum >> 8);
        sum ^= (uint16_t)((sum & 0xFF00) << 4);
        sum ^= sum >> 12;
        sum ^= (sum & 0xFF00) >> 5;
    }
    return sum;
}

void plain_hall_begin(void)
{
    static const uint8_t none = 0;

    for (uint32_t x = 0; x < 256; x++)
        table[x] = plain_hall_checksum_printed((uint16_t)x, &none, 1);
}

uint16_t plain_hall_checksum(uint16_t start, const uint8_t *bytes, size_t len)
{
    uint16_t sum = start;

    for (size_t i = 0; i < len; i++)
        sum = (uint16_t)(sum >> 8 ^ table[(sum ^ bytes[i]) & 0xFF]);
    return sum;
}
