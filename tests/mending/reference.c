#include "reference.h"

#include <string.h>

enum { LONGEST = 6398 };

/* X, Y and the stride of each panel, as the table and the chapter on bitmaps have them. */
static const struct panel {
    unsigned width, height, stride;
} panels[3] = {{128, 96, 16}, {200, 96, 28}, {264, 176, 36}};

static uint32_t number_at(const uint8_t *file, size_t at)
{
    return file[at] | (uint32_t)file[at + 1] << 8 | (uint32_t)file[at + 2] << 16 | (uint32_t)file[at + 3] << 24;
}

static void put_number(uint8_t *file, size_t at, uint32_t n)
{
    for (int i = 0; i < 4; i++, n >>= 8)
        file[at + i] = n & 0xFF;
}

size_t ref_full_length(uint32_t panel)
{
    return panel < 3 ? 62 + (size_t)panels[panel].height * panels[panel].stride : 0;
}

/* The fields that nobody mends: their bytes, but X and Y, are the same in every file. */
static int fixed_fields_good(const struct panel *p, const uint8_t *file)
{
    static const uint8_t offset_and_header[8] = {62, 0, 0, 0, 40, 0, 0, 0};
    static const uint8_t planes_to_compression[8] = {1, 0, 1, 0, 0, 0, 0, 0};

    return memcmp(file, "BM", 2) == 0 && memcmp(file + 10, offset_and_header, 8) == 0
        && number_at(file, 18) == p->width && number_at(file, 22) == p->height
        && memcmp(file + 26, planes_to_compression, 8) == 0;
}

/* Which of the two entries is white, 0 or 1; -1 where they are not black and white. */
static int white_entry(const uint8_t *file)
{
    static const uint8_t black[3] = {0, 0, 0}, white[3] = {0xFF, 0xFF, 0xFF};

    for (int i = 0; i < 2; i++)
        if (memcmp(file + 54 + 4 * i, white, 3) == 0 && memcmp(file + 58 - 4 * i, black, 3) == 0)
            return i;
    return -1;
}

/* The whole file as it should be; `mended` holds the old one. */
static void mend(const struct panel *p, uint8_t *mended, size_t len, int white)
{
    uint32_t rows = p->height * p->stride;

    put_number(mended, 2, 62 + rows);
    put_number(mended, 6, 0);
    if (number_at(mended, 34) != 0 && number_at(mended, 34) != rows)
        put_number(mended, 34, rows);
    if (number_at(mended, 46) != 0 && number_at(mended, 46) != 2)
        put_number(mended, 46, 0);
    /* an index of eight dots, all of them the white entry */
    memset(mended + len, white ? 0xFF : 0x00, 62 + rows - len);
    for (unsigned row = 0; row < p->height; row++)
        for (unsigned i = p->width / 8; i < p->stride; i++)
            mended[62 + row * p->stride + i] = 0;
}

struct answer ref_mend(uint32_t panel, const uint8_t *file, size_t len, uint8_t *out, size_t out_len, uint8_t *list,
                       size_t list_len)
{
    struct answer answer = {0, 0, 0, 0};
    uint8_t mended[LONGEST], changes[4 * LONGEST];
    size_t full = ref_full_length(panel), n = 0;

    if (full == 0) {
        answer.number = 14;
        return answer;
    }
    if (len < 62 || len > full || !fixed_fields_good(&panels[panel], file) || white_entry(file) < 0) {
        answer.number = 4;
        return answer;
    }
    memcpy(mended, file, len);
    mend(&panels[panel], mended, len, white_entry(file));
    for (size_t i = 0; i < len; i++)
        if (mended[i] != file[i]) {
            changes[n++] = (uint8_t)(i >> 8);
            changes[n++] = (uint8_t)i;
            changes[n++] = file[i];
            changes[n++] = mended[i];
        }
    if (out_len < full || list_len < n) {
        answer.number = 11;
        return answer;
    }
    memcpy(out, mended, full);
    memcpy(list, changes, n);
    answer.changes = n / 4;
    if (len < full) {
        answer.offset = len;
        answer.added = full - len;
    }
    return answer;
}
