#include "reference.h"

#include <string.h>

/* The images and header lines of the guide's chapter 6, typed; the last with depth 02. */
static const struct display {
    uint32_t panel, depth;
    size_t image_bytes;
    uint8_t header[16];
} displays[4] = {
    {0x3E, 1, 240000, {0x3E, 0x06, 0x40, 0x04, 0xB0, 0x01, 0x00}},
    {0x3E, 2, 480000, {0x3E, 0x06, 0x40, 0x04, 0xB0, 0x02, 0x00}},
    {0x3F, 1, 460800, {0x3F, 0x05, 0xA0, 0x0A, 0x00, 0x01, 0x07}},
    {0x3F, 2, 921600, {0x3F, 0x05, 0xA0, 0x0A, 0x00, 0x02, 0x07}},
};

static const struct display *display_of(uint32_t panel, uint32_t depth)
{
    for (int i = 0; i < 4; i++)
        if (displays[i].panel == panel && displays[i].depth == depth)
            return &displays[i];
    return NULL;
}

uint8_t ref_header(uint32_t panel, uint32_t depth, uint8_t *out, size_t out_len)
{
    const struct display *d = display_of(panel, depth);

    if (d == NULL)
        return 24;
    if (out_len < 16)
        return 11;
    memcpy(out, d->header, 16);
    return 0;
}

uint32_t ref_command(uint32_t panel, uint32_t depth, const uint8_t *image, size_t image_len, uint32_t slot,
                     uint32_t number, uint8_t *out, size_t out_len)
{
    const struct display *d = display_of(panel, depth);
    uint8_t packet[251];
    uint8_t n = 0;

    if (d == NULL)
        return 24;
    if (image_len != d->image_bytes)
        return 25;
    if (slot > 255)
        return 26;
    /* Byte i of the file is the header's, then the image's. */
    for (uint64_t i = (uint64_t)number * 251; n < 251 && i < 16 + (uint64_t)image_len; i++)
        packet[n++] = i < 16 ? d->header[i] : image[i - 16];
    if (n == 0)
        return (uint32_t)2 << 24;
    if (out_len < 4u + n)
        return 11;
    out[0] = 0x20;
    out[1] = 0x01;
    out[2] = (uint8_t)slot;
    out[3] = n;
    memcpy(out + 4, packet, n);
    return (uint32_t)1 << 24 | (4u + n);
}

uint32_t ref_read(uint32_t slot, size_t at, const uint8_t *command, size_t command_len, uint8_t *memory,
                  size_t memory_len)
{
    if (slot > 255)
        return 26;
    if (command_len < 5 || command_len > 255)
        return 27;
    uint32_t n = (uint32_t)command_len - 4;
    if (command[0] != 0x20 || command[1] != 0x01 || command[2] != slot || command[3] != n)
        return 27;
    if (at > memory_len || n > memory_len - at)
        return 28;
    memcpy(memory + at, command + 4, n);
    return (uint32_t)1 << 24 | n;
}

/* The polynomial x^16 + x^12 + x^5 + 1, low bit first. */
uint16_t ref_checksum(uint16_t start, const uint8_t *bytes, size_t len)
{
    uint32_t rest = start;

    for (size_t i = 0; i < len; i++) {
        rest ^= bytes[i];
        for (int bit = 0; bit < 8; bit++)
            rest = rest & 1 ? rest >> 1 ^ 0x8408 : rest >> 1;
    }
    return (uint16_t)rest;
}
