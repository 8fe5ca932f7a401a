/*
 * What is timed and compared, on a store of slots 0 and 1: the proved driver (crates/update_loop) and the same work in
 * plain C (plain_store.c).
 */
#ifndef STORE_H
#define STORE_H

#include <stddef.h>
#include <stdint.h>

/* Opens a store, uploads a bitmap to slot 1 and shows it. What goes to the panel stands in bus; answers its length. */
size_t store_update(const uint8_t *settings, size_t settings_len, const uint8_t *bitmap, size_t bitmap_len,
                    uint8_t *memory, size_t memory_len, uint8_t *bus, size_t bus_len);
size_t plain_update(const uint8_t *settings, size_t settings_len, const uint8_t *bitmap, size_t bitmap_len,
                    uint8_t *memory, size_t memory_len, uint8_t *bus, size_t bus_len);

/* The same in plain C that trusts its state: a call does not test it. */
size_t trusting_update(const uint8_t *settings, size_t settings_len, const uint8_t *bitmap, size_t bitmap_len,
                       uint8_t *memory, size_t memory_len, uint8_t *bus, size_t bus_len);

/* Opens a store: the opening's number. */
uint8_t store_opening(const uint8_t *settings, size_t settings_len, uint8_t *memory, size_t memory_len);
uint8_t plain_opening(const uint8_t *settings, size_t settings_len, uint8_t *memory, size_t memory_len);

/* Opens a store and uploads a bitmap to slot 1: the upload's number. */
uint8_t store_bitmap(const uint8_t *settings, size_t settings_len, const uint8_t *bitmap, size_t bitmap_len,
                     uint8_t *memory, size_t memory_len);
uint8_t plain_bitmap(const uint8_t *settings, size_t settings_len, const uint8_t *bitmap, size_t bitmap_len,
                     uint8_t *memory, size_t memory_len);

/*
 * Opens a store and fills slot 1: begin, the bitmap in chunks of `size` bytes, of which the last may be shorter, and finish. No call is
 * left out after a refusal; answers the number of the finish, which is 0 where every call was accepted.
 */
uint8_t store_fill(const uint8_t *settings, size_t settings_len, const uint8_t *bitmap, size_t bitmap_len, size_t size,
                   uint8_t *memory, size_t memory_len);
uint8_t plain_fill(const uint8_t *settings, size_t settings_len, const uint8_t *bitmap, size_t bitmap_len, size_t size,
                   uint8_t *memory, size_t memory_len);

/*
 * The two parts of a bitmap upload by themselves, on a picture that is lent by itself. The copy: the picture becomes that of the file,
 * whose header is not looked at but for its palette; 1 where it is no picture of the panel, 4 where the file has another length. The count
 * that an upload leaves of its slot: the black dots, or 0 where it is no picture of the panel.
 */
uint8_t picture_copy(uint32_t panel, const uint8_t *bitmap, size_t bitmap_len, uint8_t *picture, size_t picture_len);
uint8_t plain_copy(uint32_t panel, const uint8_t *bitmap, size_t bitmap_len, uint8_t *picture, size_t picture_len);
uint32_t picture_count(uint32_t panel, const uint8_t *picture, size_t picture_len);
uint32_t plain_count(uint32_t panel, const uint8_t *picture, size_t picture_len);

/* Opens a store and uploads a region of slot 1: the upload's number. */
uint8_t store_region(const uint8_t *settings, size_t settings_len, uint32_t x, uint32_t y, uint32_t width,
                     uint32_t height, const uint8_t *payload, size_t payload_len, uint8_t *memory,
                     size_t memory_len);
uint8_t plain_region(const uint8_t *settings, size_t settings_len, uint32_t x, uint32_t y, uint32_t width,
                     uint32_t height, const uint8_t *payload, size_t payload_len, uint8_t *memory,
                     size_t memory_len);

#endif
