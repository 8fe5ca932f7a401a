/*
 * See reference.h. An update is walked from its first thing on; the walk stops at the thing that was asked for.
 */
#include "reference.h"

#include <string.h>

enum kind { REFUSED, WRITE, DELAY, BUSY_HIGH, DONE };

struct walk {
    uint32_t wanted, passed;
    enum kind kind;
    uint8_t reg;
    const uint8_t *data; /* a null pointer stands for zeros */
    uint32_t value;      /* the data's length, or the ms */
    uint8_t small[8];
};

/* Whether the thing that comes now is the one that was asked for. */
static bool now(struct walk *w)
{
    return w->passed++ == w->wanted;
}

static void send(struct walk *w, uint8_t reg, const uint8_t *data, size_t n)
{
    if (!now(w))
        return;
    w->kind = WRITE;
    w->reg = reg;
    w->value = (uint32_t)n;
    if (data != NULL && n <= sizeof w->small) {
        memcpy(w->small, data, n);
        data = w->small;
    }
    w->data = data;
}

static void send_byte(struct walk *w, uint8_t reg, uint8_t byte)
{
    send(w, reg, &byte, 1);
}

static void wait_ms(struct walk *w, uint32_t ms)
{
    if (!now(w))
        return;
    w->kind = DELAY;
    w->value = ms;
}

static void busy_high(struct walk *w)
{
    if (now(w))
        w->kind = BUSY_HIGH;
}

static void pulse(struct walk *w)
{
    send_byte(w, 0xA7, 0x10);
    wait_ms(w, 2);
    send_byte(w, 0xA7, 0x00);
    wait_ms(w, 10);
}

static void soft_start_stage(struct walk *w, const uint8_t *stage)
{
    uint8_t phl = stage[1], phh = stage[2];

    for (int i = stage[0] & 0x7F; i > 0; i--) {
        send_byte(w, 0x09, stage[5]);
        phl = (uint8_t)(phl + stage[3]);
        phh = (uint8_t)(phh + stage[4]);
        uint8_t phases[2] = {phl, phh};
        send(w, 0x51, phases, 2);
        send_byte(w, 0x09, stage[6]);
        wait_ms(w, stage[7] & 0x7F);
    }
}

static void walk_update(struct walk *w, const struct update *u)
{
    const uint8_t *otp = u->otp;
    uint8_t dctl[2] = {otp[0x10], 0x00};
    int64_t index = u->temperature + 0x28 + (u->fast ? 0x80 : 0);

    if (index < (u->fast ? 0xA8 : 0x25))
        index = u->fast ? 0xA8 : 0x25;

    send(w, 0x01, dctl, 2);

    send(w, 0x13, otp + 0x15, 6);
    send(w, 0x90, otp + 0x0C, 4);
    send(w, 0x12, otp + 0x12, 3);
    send(w, 0x10, u->picture, u->picture_len);
    send(w, 0x12, otp + 0x12, 3);
    send(w, 0x11, u->fast ? u->shown : NULL, u->picture_len);

    send_byte(w, 0x05, 0x7D);
    wait_ms(w, 50);
    send_byte(w, 0x05, 0x00);
    wait_ms(w, 1);
    send_byte(w, 0xD8, otp[0x1C]);
    send_byte(w, 0xD6, otp[0x1D]);
    pulse(w);
    send_byte(w, 0x44, 0x00);
    send_byte(w, 0x45, 0x80);
    pulse(w);
    send_byte(w, 0x44, 0x06);
    send_byte(w, 0x45, (uint8_t)index);
    pulse(w);
    send_byte(w, 0x60, otp[0x0B]);
    send_byte(w, 0x61, otp[0x1B]);
    send_byte(w, 0x02, otp[0x11]);
    send_byte(w, 0x03, otp[0x1F]);

    for (int i = 0; i < 4; i++)
        soft_start_stage(w, otp + 0x28 + 8 * i);

    busy_high(w);
    send_byte(w, 0x15, 0x3C);

    busy_high(w);
    send_byte(w, 0x09, 0x7B);
    send_byte(w, 0x05, 0x5D);
    send_byte(w, 0x09, 0x7A);
    wait_ms(w, 15);
    send_byte(w, 0x09, 0x00);
}

static uint32_t answer(enum kind kind, uint32_t value)
{
    return (uint32_t)kind << 24 | value;
}

static bool is_picture(size_t n)
{
    return n == 23040 || n == 48000;
}

static uint32_t refusal(const struct update *u)
{
    if (u->otp_len != 128)
        return 18;
    for (int i = 0x28; i < 0x48; i += 8)
        if (!(u->otp[i] & 0x80) || !(u->otp[i + 7] & 0x80))
            return 19;
    if (u->temperature < (u->fast ? 0 : -15) || u->temperature > (u->fast ? 50 : 60))
        return 20;
    if (!is_picture(u->picture_len))
        return 21;
    if (u->fast && u->shown_len != u->picture_len)
        return 21;
    return 0;
}

uint32_t ref_count(const struct update *u)
{
    struct walk w = {.wanted = UINT32_MAX, .kind = DONE};

    walk_update(&w, u);
    return w.passed;
}

uint32_t ref_update(const struct update *u, uint32_t given, uint8_t *out, size_t out_len)
{
    struct walk w = {.wanted = given, .kind = DONE};
    uint32_t number = refusal(u);

    if (number != 0)
        return answer(REFUSED, number);
    walk_update(&w, u);
    if (w.kind != WRITE)
        return answer(w.kind, w.value);
    if (out_len < (size_t)w.value + 1)
        return answer(REFUSED, 11);
    out[0] = w.reg;
    if (w.data == NULL)
        memset(out + 1, 0, w.value);
    else
        memcpy(out + 1, w.data, w.value);
    return answer(WRITE, w.value + 1);
}
