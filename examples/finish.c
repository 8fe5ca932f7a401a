/*
 * How firmware updates a finish arch panel: it asks for one thing after the other, and sends, waits or looks
 * at BUSY as it is told. First a picture in normal mode, then another one in fast mode. The panel, its bus
 * and the clock are simulated here; OTP memory and temperature are made up.
 *
 *   gcc -std=c99 -Wall -Wextra -pedantic -Iinclude examples/finish.c \
 *       target/staticlib/libstart_board.a -o target/tests/finish_example
 */
#include <stdio.h>
#include <string.h>

#include "start_board.h"

enum { BYTES = EPD_FINISH_BYTES_5_81, BUSY_MS = 1200, DEGREES = 21 };

/* ---- The board: a panel on a bus, and a clock ---- */

static struct {
    uint8_t frame[2][BYTES]; /* what registers 0x10 and 0x11 were sent */
    uint8_t shown[BYTES];
    uint32_t busy_until_ms;
} panel;

static uint32_t clock_ms;
static unsigned long bytes_sent;

/* A firmware sends the register with D/C low, and the data with D/C high. */
static void send(uint8_t reg, const uint8_t *data, size_t n)
{
    bytes_sent += 1 + n;
    if ((reg == 0x10 || reg == 0x11) && n == BYTES)
        memcpy(panel.frame[reg - 0x10], data, n);
    if (reg == 0x15) { /* the panel shows the first frame, and is busy until then */
        memcpy(panel.shown, panel.frame[0], BYTES);
        panel.busy_until_ms = clock_ms + BUSY_MS;
    }
}

static int busy_is_high(void)
{
    return clock_ms >= panel.busy_until_ms;
}

static void sleep_ms(uint32_t ms)
{
    clock_ms += ms;
}

/* ---- An update ---- */

/* Each byte is its own index here, but for the four stages of the soft start. */
static uint8_t otp[EPD_FINISH_OTP_BYTES];
static const uint8_t stages[32] = {
    0x82, 0x10, 0xF0, 0xFB, 0x20, 0xA1, 0xB1, 0x82, /* two repeats, 2 ms each */
    0x80, 0x11, 0x22, 0x33, 0x44, 0xA2, 0xB2, 0xFF, /* none */
    0x81, 0x00, 0x7F, 0xFF, 0x01, 0xA3, 0xB3, 0x80, /* one, 0 ms */
    0x81, 0x05, 0x06, 0x00, 0xFA, 0xA4, 0xB4, 0x8A, /* one, 10 ms */
};

static uint8_t out[1 + BYTES];

/* The next thing: in fast mode where the picture that the panel shows is given. */
static uint32_t next(const uint8_t *picture, const uint8_t *shown, uint32_t given)
{
    if (shown == NULL)
        return epd_normal_update(otp, sizeof otp, DEGREES, picture, BYTES, given, out, sizeof out);
    return epd_fast_update(otp, sizeof otp, DEGREES, picture, BYTES, shown, BYTES, given, out, sizeof out);
}

static void print_write(uint32_t n)
{
    printf("write %02X:", out[0]);
    if (n > 16)
        printf(" %u bytes", (unsigned)n - 1);
    else
        for (uint32_t i = 1; i < n; i++)
            printf(" %02X", out[i]);
    printf("\n");
}

/* Does what an answer says. */
static void obey(uint32_t answer)
{
    uint32_t value = EPD_VALUE(answer);

    if (EPD_KIND(answer) == EPD_FINISH_WRITE) {
        print_write(value);
        send(out[0], out + 1, value - 1);
    } else if (EPD_KIND(answer) == EPD_FINISH_DELAY) {
        printf("delay %u ms\n", (unsigned)value);
        sleep_ms(value);
    } else {
        printf("BUSY\n");
        while (!busy_is_high())
            sleep_ms(1);
    }
}

/* Answers 0, or the number of a refusal. */
static uint32_t update(const uint8_t *picture, const uint8_t *shown)
{
    uint32_t given = 0;

    for (;;) {
        uint32_t answer = next(picture, shown, given);
        if (EPD_KIND(answer) == EPD_KIND_REFUSED)
            return EPD_VALUE(answer);
        if (EPD_KIND(answer) == EPD_FINISH_DONE)
            break;
        obey(answer);
        given++;
    }
    printf("done: %u things, %lu bytes, %u ms\n", (unsigned)given, bytes_sent, (unsigned)clock_ms);
    return 0;
}

/* Shows a picture, and says whether the panel shows it then. */
static int show(const char *mode, const uint8_t *picture, const uint8_t *shown)
{
    clock_ms = 0;
    bytes_sent = 0;
    panel.busy_until_ms = 0;
    printf("%s mode\n", mode);
    uint32_t number = update(picture, shown);
    int same = number == 0 && memcmp(panel.shown, picture, BYTES) == 0;
    printf("refusal %u, picture shown: %s\n", (unsigned)number, same ? "yes" : "no");
    return same;
}

int main(void)
{
    static uint8_t bars[BYTES], turned[BYTES];

    for (size_t i = 0; i < sizeof otp; i++)
        otp[i] = (uint8_t)i;
    memcpy(otp + 0x28, stages, sizeof stages);
    for (size_t i = 0; i < BYTES; i++) {
        bars[i] = i / 900 % 2 ? 0xFF : 0x00;
        turned[i] = (uint8_t)~bars[i];
    }
    return !(show("normal", bars, NULL) && show("fast", turned, bars));
}
