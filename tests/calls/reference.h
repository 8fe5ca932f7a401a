/*
 * A second, plain implementation of the three calls of start_board.h, for comparison only.
 * It was written from the rules, without looking at the driver's code.
 */
#ifndef REFERENCE_H
#define REFERENCE_H

#include <stddef.h>
#include <stdint.h>

uint8_t ref_build_line(uint32_t panel, uint32_t stage, uint32_t row, const uint8_t *dots,
                       size_t dots_len, uint8_t *out, size_t out_len);
uint8_t ref_check_settings(const uint8_t *file, size_t len);
uint8_t ref_check_bitmap(uint32_t panel, const uint8_t *file, size_t len);

#endif
