/*
 * How much stack a whole update takes: store_update of crates/update_loop runs on a stack that was filled with one byte, and what it
 * changed is counted. Of the 16 KiB of the smallest thread some 11,900 bytes are left for its function, so at most 11,500 may be changed.
 *
 * Usage: stack SETTINGS BITMAP ..     pairs of files; each run must put the bytes of a whole update out
 */
#define _XOPEN_SOURCE 700
#include <stdio.h>
#include <stdlib.h>
#include <string.h>
#include <ucontext.h>

#include "store.h"

enum { SETTINGS_MAX = 637, BITMAP_MAX = 6398, PICTURE_MAX = 5808, BUS_MAX = 2000000, UNTOUCHED = 0xA5 };
enum { ROOM = 65536, MOST = 11500 };

static uint8_t settings[SETTINGS_MAX], bitmap[BITMAP_MAX], memory[2 * PICTURE_MAX], bus[BUS_MAX], stack[ROOM];
static size_t settings_len, bitmap_len, memory_len, sent;

static size_t read_file(const char *path, uint8_t *bytes, size_t room)
{
    FILE *f = fopen(path, "rb");
    if (f == NULL) {
        printf("cannot read %s\n", path);
        exit(1);
    }
    size_t n = fread(bytes, 1, room, f);
    fclose(f);
    return n;
}

static void update(void)
{
    sent = store_update(settings, settings_len, bitmap, bitmap_len, memory, memory_len, bus, sizeof bus);
}

/* The second run is the one that counts: what the loader does at a first call is then done. */
static size_t stack_taken(void)
{
    static ucontext_t here, there;
    size_t untouched = 0;

    update();
    memset(stack, UNTOUCHED, sizeof stack);
    getcontext(&there);
    there.uc_stack.ss_sp = stack;
    there.uc_stack.ss_size = sizeof stack;
    there.uc_link = &here;
    makecontext(&there, update, 0);
    swapcontext(&here, &there);
    while (untouched < sizeof stack && stack[untouched] == UNTOUCHED)
        untouched++;
    return sizeof stack - untouched;
}

int main(int argc, char **argv)
{
    static const size_t pictures[3] = {96 * 16, 96 * 25, 176 * 33};
    /* 4 stages of N frames of 96 or 176 rows, a line of 2 x X / 8 + Y / 4 + 7 bytes each; the writes come on top */
    static const size_t lines[3] = {4 * 16 * 96 * 63, 4 * 16 * 96 * 81, 4 * 21 * 176 * 117};
    int passed = 0, failed = 0;

    for (int i = 1; i + 1 < argc; i += 2) {
        settings_len = read_file(argv[i], settings, sizeof settings);
        bitmap_len = read_file(argv[i + 1], bitmap, sizeof bitmap);
        memory_len = 2 * pictures[settings[1] % 3];
        size_t taken = stack_taken();
        printf("panel %u: %zu bytes for the panel, %zu of stack\n", settings[1], sent, taken);
        *(sent > lines[settings[1] % 3] && taken <= MOST ? &passed : &failed) += 1;
    }
    printf("%d passed, %d failed\n", passed, failed);
    return !(passed > 0 && failed == 0);
}
