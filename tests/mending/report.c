/*
 * What the program `bitmap_mend` must write, by reference.c. Usage: report PANEL < FILE, with the panel as the
 * program takes it.
 */
#include <stdio.h>
#include <string.h>

#include "reference.h"

enum { MOST = 1 << 21 };

int main(int argc, char **argv)
{
    static uint8_t file[MOST], out[MOST], list[4 * MOST];
    uint32_t panel = argc > 1 && strlen(argv[1]) == 1 && argv[1][0] >= '0' && argv[1][0] <= '9' ? (uint32_t)(argv[1][0] - '0') : 10;
    size_t len = fread(file, 1, MOST, stdin);
    struct answer answer = ref_mend(panel, file, len, out, MOST, list, sizeof list);

    if (answer.number != 0) {
        fprintf(stderr, "refused %u\n", answer.number);
        return 0;
    }
    fwrite(out, 1, ref_full_length(panel), stdout);
    for (size_t i = 0; i < answer.changes; i++) {
        const uint8_t *change = list + 4 * i;
        fprintf(stderr, "%d %02X %02X\n", change[0] * 256 + change[1], change[2], change[3]);
    }
    if (answer.added != 0)
        fprintf(stderr, "added %zu %zu\n", answer.offset, answer.added);
    return 0;
}
