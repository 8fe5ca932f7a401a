/* Mending a damaged bitmap file a second time, written from the requests' text (2026-01 and 2026-11). */
#ifndef MENDING_REFERENCE_H
#define MENDING_REFERENCE_H

#include <stddef.h>
#include <stdint.h>

struct answer {
    unsigned number;   /* 0, or that of the refusal; then the rest is 0 */
    size_t changes;    /* changed bytes, of which the list has four each */
    size_t offset;     /* of the bytes that were added, 0 where none were */
    size_t added;      /* how many they are */
};

/* The bytes of a panel's file, 0 where there is no such panel. */
size_t ref_full_length(uint32_t panel);

struct answer ref_mend(uint32_t panel, const uint8_t *file, size_t len, uint8_t *out, size_t out_len, uint8_t *list,
                       size_t list_len);

#endif
