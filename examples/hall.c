/*
 * How firmware uploads an image to the hall display: it asks for one command after the other, sends each, and
 * compares checksums at the end. First to a display whose slot is a byte too short, which refuses the last
 * command; then to one that takes it all. The displays and their bus are simulated here.
 *
 *   gcc -std=c99 -Wall -Wextra -pedantic -Iinclude examples/hall.c \
 *       target/staticlib/libstart_board.a -o target/tests/hall_example
 */
#include <stdio.h>
#include <string.h>

#include "start_board.h"

enum { BYTES = EPD_HALL_BYTES_13_3, FILE_BYTES = EPD_HALL_HEADER_BYTES + BYTES, SLOT = 2, ROW = 1600 / 8 };

/* ---- The display: a slot and its data pointer ---- */

static struct {
    uint8_t slot[FILE_BYTES];
    size_t size;
    size_t pointer;
} display;

static unsigned long bytes_sent;

/* A display resets its data pointer when it is enabled. */
static void enable(size_t size)
{
    display.size = size;
    display.pointer = 0;
    bytes_sent = 0;
}

/* Answers 0, or the number of a refusal. */
static uint32_t send(const uint8_t *command, size_t n)
{
    uint32_t answer = epd_hall_read(SLOT, display.pointer, command, n, display.slot, display.size);

    bytes_sent += n;
    if (EPD_KIND(answer) == EPD_KIND_REFUSED)
        return EPD_VALUE(answer);
    display.pointer += EPD_VALUE(answer);
    return 0;
}

/* ---- An upload ---- */

static void print_bytes(const char *what, const uint8_t *bytes, size_t n)
{
    printf("%s", what);
    for (size_t i = 0; i < n; i++)
        printf(" %02X", bytes[i]);
    printf("\n");
}

/* Sends an image, command by command. Answers 0, or the number of a refusal. */
static uint32_t upload(const uint8_t *image)
{
    uint8_t out[EPD_HALL_OUT_BYTES];
    uint32_t number, refusal = 0;

    for (number = 0; refusal == 0; number++) {
        uint32_t answer = epd_hall_command(EPD_HALL_13_3, 1, image, BYTES, SLOT, number, out, sizeof out);
        if (EPD_KIND(answer) == EPD_KIND_REFUSED)
            return EPD_VALUE(answer);
        if (EPD_KIND(answer) == EPD_HALL_NO_MORE)
            break;
        if (number == 0 || EPD_VALUE(answer) < sizeof out) {
            printf("command %u, %u bytes:", (unsigned)number, (unsigned)EPD_VALUE(answer));
            print_bytes("", out, 12);
        }
        refusal = send(out, EPD_VALUE(answer));
    }
    printf("%u commands, %lu bytes, refusal %u, pointer at %lu\n", (unsigned)number, bytes_sent, (unsigned)refusal,
           (unsigned long)display.pointer);
    return refusal;
}

int main(void)
{
    static uint8_t image[BYTES]; /* bars of 100 rows, white first: a 1 is black */
    uint8_t header[EPD_HALL_HEADER_BYTES];

    for (size_t i = 0; i < BYTES; i++)
        image[i] = i / ROW / 100 % 2 ? 0xFF : 0x00;
    if (epd_hall_header(EPD_HALL_13_3, 1, header, sizeof header) != EPD_OK)
        return 1;
    print_bytes("header", header, sizeof header);

    enable(FILE_BYTES - 1);
    if (upload(image) != EPD_OVERRUN)
        return 1;
    enable(FILE_BYTES);
    if (upload(image) != 0)
        return 1;

    uint16_t sum = epd_hall_checksum(EPD_HALL_CHECKSUM_START, header, sizeof header);
    sum = epd_hall_checksum(sum, image, BYTES);
    uint16_t answered = epd_hall_checksum_printed(EPD_HALL_CHECKSUM_START, display.slot, FILE_BYTES);
    printf("checksum %04X, the display's %04X\n", sum, answered);
    return sum != answered || memcmp(display.slot + EPD_HALL_HEADER_BYTES, image, BYTES) != 0;
}
