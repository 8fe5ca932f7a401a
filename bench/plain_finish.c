/* See plain_finish.h. The place in the order is found as the driver finds it: by a table, or by four subtractions. */
#include "plain_finish.h"

#include <string.h>

enum { WRITE, DELAY, BUSY_HIGH, DONE, OTP, INDEX, NEW, ZEROS, DCTL };

struct step {
    uint8_t kind, reg, value, n;
};

#define PULSE {WRITE, 0xA7, 0x10, 1}, {DELAY, 0, 2, 0}, {WRITE, 0xA7, 0x00, 1}, {DELAY, 0, 10, 0}

static const struct step first[33] = {
    {DCTL, 0x01, 0x10, 2}, {OTP, 0x13, 0x15, 6}, {OTP, 0x90, 0x0C, 4}, {OTP, 0x12, 0x12, 3},
    {NEW, 0x10, 0, 0}, {OTP, 0x12, 0x12, 3}, {ZEROS, 0x11, 0, 0},
    {WRITE, 0x05, 0x7D, 1}, {DELAY, 0, 50, 0}, {WRITE, 0x05, 0x00, 1}, {DELAY, 0, 1, 0},
    {OTP, 0xD8, 0x1C, 1}, {OTP, 0xD6, 0x1D, 1}, PULSE,
    {WRITE, 0x44, 0x00, 1}, {WRITE, 0x45, 0x80, 1}, PULSE, {WRITE, 0x44, 0x06, 1}, {INDEX, 0x45, 0, 1}, PULSE,
    {OTP, 0x60, 0x0B, 1}, {OTP, 0x61, 0x1B, 1}, {OTP, 0x02, 0x11, 1}, {OTP, 0x03, 0x1F, 1},
};

static const struct step last[8] = {
    {BUSY_HIGH, 0, 0, 0}, {WRITE, 0x15, 0x3C, 1}, {BUSY_HIGH, 0, 0, 0}, {WRITE, 0x09, 0x7B, 1},
    {WRITE, 0x05, 0x5D, 1}, {WRITE, 0x09, 0x7A, 1}, {DELAY, 0, 15, 0}, {WRITE, 0x09, 0x00, 1},
};

static uint32_t word(uint32_t kind, uint32_t value)
{
    return kind << 24 | value;
}

static uint32_t put(uint8_t reg, const uint8_t *data, size_t n, uint8_t *out, size_t out_len)
{
    if (out_len < 1 + n)
        return word(0, 11);
    out[0] = reg;
    if (data == NULL)
        memset(out + 1, 0, n);
    else
        memcpy(out + 1, data, n);
    return word(1, (uint32_t)n + 1);
}

static uint32_t give(const struct step *s, const uint8_t *otp, int32_t t, const uint8_t *picture, size_t picture_len,
                     uint8_t *out, size_t out_len)
{
    uint8_t small[2] = {s->value, 0};

    switch (s->kind) {
    case DELAY: return word(2, s->value);
    case BUSY_HIGH: return word(3, 0);
    case OTP: return put(s->reg, otp + s->value, s->n, out, out_len);
    case NEW: return put(s->reg, picture, picture_len, out, out_len);
    case ZEROS: return put(s->reg, NULL, picture_len, out, out_len);
    case DCTL: small[0] = otp[s->value]; break;
    case INDEX: small[0] = (uint8_t)(0x28 + t < 0x25 ? 0x25 : 0x28 + t); break;
    default: break;
    }
    return put(s->reg, small, s->n, out, out_len);
}

static uint32_t soft_start(const uint8_t *stage, uint32_t k, uint8_t *out, size_t out_len)
{
    uint32_t turn = k / 4 + 1;
    uint8_t phases[2] = {(uint8_t)(stage[1] + turn * stage[3]), (uint8_t)(stage[2] + turn * stage[4])};

    switch (k % 4) {
    case 0: return put(0x09, stage + 5, 1, out, out_len);
    case 1: return put(0x51, phases, 2, out, out_len);
    case 2: return put(0x09, stage + 6, 1, out, out_len);
    default: return word(2, stage[7] & 0x7F);
    }
}

uint32_t plain_normal_update(const uint8_t *otp, size_t otp_len, int32_t temperature, const uint8_t *picture,
                             size_t picture_len, uint32_t given, uint8_t *out, size_t out_len)
{
    if (otp_len != 128)
        return word(0, 18);
    for (int at = 0x28; at < 0x48; at += 8)
        if ((otp[at] & otp[at + 7] & 0x80) == 0)
            return word(0, 19);
    if (temperature < -15 || temperature > 60)
        return word(0, 20);
    if (picture_len != 23040 && picture_len != 48000)
        return word(0, 21);
    if (given < 33)
        return give(first + given, otp, temperature, picture, picture_len, out, out_len);
    given -= 33;
    for (int at = 0x28; at < 0x48; at += 8) {
        uint32_t n = 4u * (otp[at] & 0x7F);
        if (given < n)
            return soft_start(otp + at, given, out, out_len);
        given -= n;
    }
    return given < 8 ? give(last + given, otp, temperature, picture, picture_len, out, out_len) : word(4, 0);
}
