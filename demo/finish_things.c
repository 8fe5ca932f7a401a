/*
 * Prints what the driver gives out for one update of a finish panel: a line for each thing, `write` and its bytes,
 * `delay` and the ms, or `busy`; last `done`, or `refused` and the number.
 *
 * Usage: finish_things TEMPERATURE OTP NEW [SHOWN]     files; fast mode where there is a shown picture
 */
#include <stdio.h>
#include <stdlib.h>

#include "start_board.h"

struct bytes {
    uint8_t at[EPD_FINISH_OUT_BYTES];
    size_t n;
};

static struct bytes otp, new, shown, out;

/* Reads a file, or its beginning: one that is longer than any good input is refused all the same. */
static void read_file(const char *name, struct bytes *to)
{
    FILE *file = fopen(name, "rb");
    if (file == NULL) {
        perror(name);
        exit(1);
    }
    to->n = fread(to->at, 1, sizeof to->at, file);
    fclose(file);
}

static uint32_t next(int32_t temperature, int fast, uint32_t given)
{
    if (fast)
        return epd_fast_update(otp.at, otp.n, temperature, new.at, new.n, shown.at, shown.n, given, out.at,
                               sizeof out.at);
    return epd_normal_update(otp.at, otp.n, temperature, new.at, new.n, given, out.at, sizeof out.at);
}

static void print_thing(uint32_t answer)
{
    uint32_t value = EPD_VALUE(answer);

    if (EPD_KIND(answer) == EPD_FINISH_DELAY)
        printf("delay %u\n", (unsigned)value);
    else if (EPD_KIND(answer) == EPD_FINISH_BUSY_HIGH)
        printf("busy\n");
    else {
        printf("write ");
        for (uint32_t i = 0; i < value; i++)
            printf("%02X", out.at[i]);
        printf("\n");
    }
}

int main(int argc, char **argv)
{
    if (argc != 4 && argc != 5) {
        fprintf(stderr, "usage: finish_things TEMPERATURE OTP NEW [SHOWN]\n");
        return 2;
    }
    read_file(argv[2], &otp);
    read_file(argv[3], &new);
    if (argc == 5)
        read_file(argv[4], &shown);

    for (uint32_t given = 0;; given++) {
        uint32_t answer = next(atoi(argv[1]), argc == 5, given);
        if (EPD_KIND(answer) == EPD_KIND_REFUSED) {
            printf("refused %u\n", (unsigned)EPD_VALUE(answer));
            return 0;
        }
        if (EPD_KIND(answer) == EPD_FINISH_DONE) {
            printf("done\n");
            return 0;
        }
        print_thing(answer);
    }
}
