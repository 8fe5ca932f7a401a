/* Plain C to compare with. */
#ifndef PLAIN_H
#define PLAIN_H

#include <stddef.h>
#include <stdint.h>

/* The line builder, twice, with the arguments and answers of epd_build_line. */
uint8_t plain_dots(uint32_t panel, uint32_t stage, uint32_t row, const uint8_t *dots, size_t dots_len,
                   uint8_t *out, size_t out_len);
uint8_t plain_bytes(uint32_t panel, uint32_t stage, uint32_t row, const uint8_t *dots, size_t dots_len,
                    uint8_t *out, size_t out_len);

/* One row of a region of `width` dots, which has `row` bytes: written from bit `shift` of the first byte on, no other dot changed. */
void plain_row(uint8_t *to, unsigned shift, uint32_t width, const uint8_t *from, size_t row);

#endif
