/*
 * What is timed and compared: a region painted on a picture of the 2.7 inch panel that is lent by itself. By whole bytes as
 * uploads paint it, and dot by dot (both crates/by_dots); and in plain C (plain_rows.c). All answer 0; or 1, 5 or 6. The last,
 * for scale, tests nothing and copies the rows of the whole panel.
 */
#ifndef REGION_H
#define REGION_H

#include <stddef.h>
#include <stdint.h>

typedef uint8_t painter(uint32_t x, uint32_t y, uint32_t width, uint32_t height, const uint8_t *payload,
                        size_t payload_len, uint8_t *picture, size_t picture_len);

painter region_by_bytes, region_by_dots, plain_rows, bare_rows;

#endif
