/* The hall display's upload commands and checksum in plain C, with the arguments and answers of the library's calls. */
#ifndef PLAIN_HALL_H
#define PLAIN_HALL_H

#include <stddef.h>
#include <stdint.h>

uint32_t plain_hall_command(uint32_t panel, uint32_t depth, const uint8_t *image, size_t image_len, uint32_t slot,
                            uint32_t number, uint8_t *out, size_t out_len);

/* By shifts, and by the usual table of 256 entries of 16 bits, a byte at a time. */
uint16_t plain_hall_checksum_printed(uint16_t start, const uint8_t *bytes, size_t len);
uint16_t plain_hall_checksum(uint16_t start, const uint8_t *bytes, size_t len);

/* Fills the table; to be called first. */
void plain_hall_begin(void);

#endif
