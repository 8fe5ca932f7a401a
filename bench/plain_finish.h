/* An update of a finish panel in plain C, with the arguments and answers of epd_normal_update. */
#ifndef PLAIN_FINISH_H
#define PLAIN_FINISH_H

#include <stddef.h>
#include <stdint.h>

uint32_t plain_normal_update(const uint8_t *otp, size_t otp_len, int32_t temperature, const uint8_t *picture,
                             size_t picture_len, uint32_t given, uint8_t *out, size_t out_len);

#endif
