/* The hall display's calls a second time, written from the display's guide (003) and the request. */
#ifndef HALL_REFERENCE_H
#define HALL_REFERENCE_H

#include <stddef.h>
#include <stdint.h>

uint8_t ref_header(uint32_t panel, uint32_t depth, uint8_t *out, size_t out_len);
uint32_t ref_command(uint32_t panel, uint32_t depth, const uint8_t *image, size_t image_len, uint32_t slot,
                     uint32_t number, uint8_t *out, size_t out_len);
uint32_t ref_read(uint32_t slot, size_t at, const uint8_t *command, size_t command_len, uint8_t *memory,
                  size_t memory_len);

/* The checksum bit by bit, and by the guide's formula (printed.c). */
uint16_t ref_checksum(uint16_t start, const uint8_t *bytes, size_t len);
uint16_t printed_checksum(uint16_t start, const uint8_t *bytes, size_t len);

#endif
