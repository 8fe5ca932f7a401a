/*
 * A second, plain implementation of the two calls for the finish arch panels, for comparison only.
 * It was written from paper 002 and the change request, without looking at the driver's code.
 */
#ifndef REFERENCE_H
#define REFERENCE_H

#include <stdbool.h>
#include <stddef.h>
#include <stdint.h>

struct update {
    bool fast;
    const uint8_t *otp;
    size_t otp_len;
    int64_t temperature;
    const uint8_t *picture;
    size_t picture_len;
    const uint8_t *shown; /* fast mode alone */
    size_t shown_len;
};

/* Answers as the calls do: the kind in the top byte, the value below. */
uint32_t ref_update(const struct update *u, uint32_t given, uint8_t *out, size_t out_len);

/* How many things the update gives out; it must be one that is not refused. */
uint32_t ref_count(const struct update *u);

#endif
