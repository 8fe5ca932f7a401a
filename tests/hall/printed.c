/* The checksum by the formula of the guide's 5.6.1.3: five assignments to 16 bits for each byte. */
#include "reference.h"

uint16_t printed_checksum(uint16_t start, const uint8_t *bytes, size_t len)
{
    uint16_t sum = start;

    while (len-- > 0) {
        sum ^= *bytes++;
        sum = sum << 8 | sum >> 8;
        sum ^= (sum & 0xFF00) << 4;
        sum ^= sum >> 8 >> 4;
        sum ^= (sum & 0xFF00) >> 5;
    }
    return sum;
}
