/*
 * How a start clock's firmware uses the driver's three calls: it checks a settings file and a bitmap
 * that are kept as byte arrays, prints the four lines of one row of a 1.44 inch panel, then sends all
 * lines of an update, frame by frame. The clock and the bus are simulated here.
 *
 *   gcc -std=c99 -Wall -Wextra -pedantic -Iinclude examples/firmware.c \
 *       target/staticlib/libstart_board.a -o target/tests/firmware
 */
#include <stdio.h>

#include "start_board.h"

enum { PANEL = EPD_PANEL_1_44, ROWS = 96, SCAN_BYTES = ROWS / 4, ROW = 42 };
enum { STAGES = 4, FRAMES = 16, FRAME_MS = 30 };

static const uint8_t settings[] = {
    1, PANEL,                                           /* panel */
    2,                                                  /* start steps */
    0x57, 0x01, 0x00, 0x00, 0x00, 0x00, 0x00, 0x0F, 0xFF, 0x00,
    0x57, 0x04, 0x03,
    1,                                                  /* stop steps */
    0x44, 0x00, 0x0F,                                   /* wait 15 ms */
};

/* Where a row begins in a bitmap: the bottom row comes first. */
#define ROW_AT(row) (62 + (ROWS - 1 - (row)) * EPD_ROW_BYTES_1_44)

/* A black picture with some white dots in one row. */
static const uint8_t bib[EPD_BITMAP_BYTES_1_44] = {
    'B', 'M', 0x3E, 0x06, 0, 0,                         /* length 1598 */
    0, 0, 0, 0, 62, 0, 0, 0,                            /* where the rows begin */
    40, 0, 0, 0, 128, 0, 0, 0, ROWS, 0, 0, 0,           /* 128 x 96 */
    1, 0, 1, 0, 0, 0, 0, 0,                             /* one plane, one bit, plain */
    0x00, 0x06, 0, 0,                                   /* 1536 bytes of rows */
    0, 0, 0, 0, 0, 0, 0, 0, 0, 0, 0, 0, 0, 0, 0, 0,
    0, 0, 0, 0, 0xFF, 0xFF, 0xFF, 0,                    /* black first: a 1 is white */
    [ROW_AT(ROW)] = 0x00, 0xB4, 0xFF, 0x0F, 0x80, 0x01, 0xFF, 0xFF,
                    0xFF, 0xFF, 0xFF, 0xFF, 0xFF, 0xFF, 0xFF, 0xFF,
};

/* The row that the panel shows now: all white. */
static const uint8_t shown_row[EPD_ROW_BYTES_1_44] = {
    0xFF, 0xFF, 0xFF, 0xFF, 0xFF, 0xFF, 0xFF, 0xFF,
    0xFF, 0xFF, 0xFF, 0xFF, 0xFF, 0xFF, 0xFF, 0xFF,
};

static void print_bytes(const char *name, const uint8_t *bytes, size_t n)
{
    printf("  %s", name);
    for (size_t i = 0; i < n; i++)
        printf(" %02X", bytes[i]);
    printf("\n");
}

/* A row of the picture that a stage looks at: the shown one in stages 1 and 2, the new one after. */
static const uint8_t *row_of_stage(uint32_t stage, uint32_t row)
{
    return stage <= 2 ? shown_row : bib + ROW_AT(row);
}

static uint32_t clock_ms;
static unsigned long lines_sent, bytes_sent;

/* A firmware sleeps here. How late it wakes does not move the next frame: that counts from the first. */
static void sleep_until(uint32_t due_ms)
{
    if ((int32_t)(due_ms - clock_ms) > 0)
        clock_ms = due_ms;
}

/* A firmware sends the line to register 0x0A here, and 2F to register 0x02 after it. */
static void send_line(const uint8_t *line, size_t n)
{
    (void)line;
    lines_sent++;
    bytes_sent += 3 + n + 4;
}

/* Every frame of every stage, frame i from first + 30 i on. Answers EPD_OK or the number of a refusal. */
static uint8_t send_frames(uint32_t first_ms)
{
    for (uint32_t i = 0; i < STAGES * FRAMES; i++) {
        uint32_t stage = i / FRAMES + 1;
        sleep_until(first_ms + FRAME_MS * i);
        for (uint32_t row = 0; row < ROWS; row++) {
            uint8_t line[EPD_LINE_BYTES_1_44];
            uint8_t answer = epd_build_line(PANEL, stage, row, row_of_stage(stage, row), EPD_ROW_BYTES_1_44,
                                            line, sizeof line);
            if (answer != EPD_OK)
                return answer;
            send_line(line, sizeof line);
        }
    }
    return EPD_OK;
}

int main(void)
{
    uint8_t answer = epd_check_settings(settings, sizeof settings);
    printf("settings %u\n", answer);
    if (answer != EPD_OK)
        return 1;

    answer = epd_check_bitmap(PANEL, bib, sizeof bib);
    printf("bitmap %u\n", answer);
    if (answer != EPD_OK)
        return 1;

    for (uint32_t stage = 1; stage <= STAGES; stage++) {
        uint8_t line[EPD_LINE_BYTES_1_44];

        answer = epd_build_line(PANEL, stage, ROW, row_of_stage(stage, ROW), EPD_ROW_BYTES_1_44, line, sizeof line);
        printf("stage %u row %d: %u\n", (unsigned)stage, ROW, answer);
        if (answer != EPD_OK)
            return 1;
        print_bytes("even", line, EPD_ROW_BYTES_1_44);
        print_bytes("scan", line + EPD_ROW_BYTES_1_44, SCAN_BYTES);
        print_bytes("odd ", line + EPD_ROW_BYTES_1_44 + SCAN_BYTES, EPD_ROW_BYTES_1_44);
    }

    clock_ms = 4294967290u; /* the counter wraps on the way */
    answer = send_frames(clock_ms);
    printf("frames %u: %lu lines, %lu bytes, the last frame at tick %u\n", answer, lines_sent, bytes_sent,
           (unsigned)clock_ms);
    return answer;
}
