/*
 * The start board driver's calls for C firmware: the line builder, the two file checks, the mending of bitmap
 * files, the updates of the finish arch panels, and the uploads to the hall display. docs/FORMATS.md shows a line,
 * a settings file, a bitmap, a list of changes and an upload command byte by byte.
 *
 * Link with libstart_board.a, which is built for x86-64 Linux. The calls keep no state, take memory
 * from nobody but the caller, never stop and never write outside the bytes they report. A refusal
 * changes no byte. Three things are asked of the caller: that a pointer with a length n may be read
 * (out, list, memory: written) for n bytes, that a null pointer has length 0, which is an empty slice, and that
 * what a call reads does not overlap what it writes.
 */
#ifndef START_BOARD_H
#define START_BOARD_H

#include <stddef.h>
#include <stdint.h>

#ifdef __cplusplus
extern "C" {
#endif

/* Panels, by code. */
#define EPD_PANEL_1_44 0u /* 1.44 inch, 128 x 96 */
#define EPD_PANEL_2_0 1u  /* 2 inch, 200 x 96 */
#define EPD_PANEL_2_7 2u  /* 2.7 inch, 264 x 176 */

/* The bytes of one picture row (X / 8), and of one line on the wire (X / 8 + Y / 4 + X / 8). */
#define EPD_ROW_BYTES_1_44 16u
#define EPD_ROW_BYTES_2_0 25u
#define EPD_ROW_BYTES_2_7 33u
#define EPD_LINE_BYTES_1_44 56u
#define EPD_LINE_BYTES_2_0 74u
#define EPD_LINE_BYTES_2_7 110u

/* The length of a bitmap file, and the longest settings file. */
#define EPD_BITMAP_BYTES_1_44 1598u
#define EPD_BITMAP_BYTES_2_0 2750u
#define EPD_BITMAP_BYTES_2_7 6398u
#define EPD_SETTINGS_BYTES_MAX 637u

/* The numbers given back by these calls. */
#define EPD_OK 0u
#define EPD_BAD_SETTINGS 2u     /* the settings file breaks a rule */
#define EPD_BAD_BITMAP 4u       /* the bitmap breaks a rule, or its palette is not black and white */
#define EPD_SHORT_OUTPUT 11u    /* an output is shorter than what the call puts there */
#define EPD_OUT_OF_RANGE 14u    /* panel, stage or row out of range, or dots not one row */
#define EPD_BAD_OTP_LENGTH 18u  /* the OTP memory is not 128 bytes */
#define EPD_BAD_SOFT_START 19u  /* a REPEAT or DELAY byte of the OTP memory has bit 7 clear */
#define EPD_BAD_TEMPERATURE 20u /* the temperature is out of the mode's range */
#define EPD_BAD_PICTURE 21u     /* a picture of neither size, or two of different size */
#define EPD_BAD_DISPLAY 24u     /* no such panel of the hall display, or a depth that is not 1 or 2 */
#define EPD_BAD_IMAGE 25u       /* the image is not as long as the panel and the depth ask */
#define EPD_BAD_SLOT 26u        /* the slot is over 255 */
#define EPD_BAD_COMMAND 27u     /* no upload command to the slot, or not as long as it says */
#define EPD_OVERRUN 28u         /* the data does not fit into the slot from the data pointer on */

/*
 * What a call answers that gives out one of several things: a word, with the answer's kind in the top byte
 * and its value in the low 24 bits. Kind 0 is a refusal, and its value one of the numbers above.
 */
#define EPD_KIND(word) ((uint32_t)(word) >> 24)
#define EPD_VALUE(word) ((uint32_t)(word) & 0x00FFFFFFu)
#define EPD_KIND_REFUSED 0u

/*
 * Builds the line of one picture row.
 *
 * panel     a panel's code
 * stage     1 to 4; stages 1 and 2 are given a row of the shown picture, 3 and 4 one of the new picture
 * row       the row's number, from 0 at the top
 * dots      the picture row; bit 7 of the first byte is dot 0, and a 1 is white
 * dots_len  X / 8, the bytes of a row of this panel
 * out       takes the even bytes, the scan bytes and the odd bytes, as data for register 0x0A; bytes
 *           after the line stay as they are. Must not overlap dots
 * out_len   at least the bytes of a line of this panel
 *
 * Answers EPD_OK, or the first of these that applies:
 *   EPD_OUT_OF_RANGE  no such panel, stage or row, or dots_len is not X / 8
 *   EPD_SHORT_OUTPUT  out_len is less than the line
 */
uint8_t epd_build_line(uint32_t panel, uint32_t stage, uint32_t row, const uint8_t *dots,
                       size_t dots_len, uint8_t *out, size_t out_len);

/*
 * Checks a settings file.
 *
 * file  the whole file
 * len   its length; a file longer than EPD_SETTINGS_BYTES_MAX is refused
 *
 * Answers EPD_OK, or EPD_BAD_SETTINGS where the file breaks a rule.
 */
uint8_t epd_check_settings(const uint8_t *file, size_t len);

/*
 * Checks a bitmap file for a panel.
 *
 * panel  a panel's code
 * file   the whole file
 * len    its length
 *
 * Answers EPD_OK, or the first of these that applies:
 *   EPD_OUT_OF_RANGE  no such panel
 *   EPD_BAD_BITMAP    the file breaks a rule, its length included, or its palette is neither
 *                     black, then white nor white, then black (the fourth byte of an entry is free)
 *
 * With white first (the byte at 54 is FF) a 1 in the file is a black dot. For epd_build_line a 1 is
 * white: turn each dot of the row over first.
 */
uint8_t epd_check_bitmap(uint32_t panel, const uint8_t *file, size_t len);

/*
 * Mends a damaged bitmap file for a panel. These are mended and no others: a wrong length at 2, zeros at 6, size
 * at 34 or count at 46, padding that is not 0, and bytes missing at the end, which become white dots and zero
 * padding. The mended file passes epd_check_bitmap.
 *
 * panel     a panel's code
 * file      the damaged file, from its first byte on
 * out       takes the mended file: the bytes of a bitmap file of this panel; those after it stay as they are
 * list      takes four bytes for each changed byte, in file order: its offset (two bytes, high byte first), the
 *           old byte and the new; bytes after the list stay as they are
 * list_len  EPD_MEND_LIST_BYTES of the panel is enough for every file
 *
 * Answers one number, which the macros below take apart. EPD_MEND_NUMBER is EPD_OK, or the first of these that
 * applies, and then the other parts are 0:
 *   EPD_OUT_OF_RANGE  no such panel
 *   EPD_BAD_BITMAP    another fixed field or the palette is wrong, or the file is shorter than 62 bytes or longer
 *                     than a bitmap file of this panel
 *   EPD_SHORT_OUTPUT  out is shorter than the mended file, or list than the list
 *
 * To get the old file back, put the old bytes of the list at their offsets and cut the file at the added bytes.
 */
uint64_t epd_mend_bitmap(uint32_t panel, const uint8_t *file, size_t file_len, uint8_t *out, size_t out_len,
                         uint8_t *list, size_t list_len);

/* The number; how many bytes were changed; where bytes were added, from which offset on and how many (else 0, 0). */
#define EPD_MEND_NUMBER(answer) ((uint32_t)((uint64_t)(answer) >> 48))
#define EPD_MEND_CHANGES(answer) ((uint32_t)((uint64_t)(answer) >> 32 & 0xFFFFu))
#define EPD_MEND_ADDED_OFFSET(answer) ((uint32_t)((uint64_t)(answer) >> 16 & 0xFFFFu))
#define EPD_MEND_ADDED_COUNT(answer) ((uint32_t)((uint64_t)(answer) & 0xFFFFu))

/* Room for the longest list: four bytes for each byte of the four fields and of the padding. */
#define EPD_MEND_LIST_BYTES_1_44 64u
#define EPD_MEND_LIST_BYTES_2_0 1216u
#define EPD_MEND_LIST_BYTES_2_7 2176u

/* ---- The finish arch panels ---- */

/* The bytes of a picture, of the OTP memory, and of an output that has room for every write. */
#define EPD_FINISH_BYTES_5_81 23040u
#define EPD_FINISH_BYTES_7_41 48000u
#define EPD_FINISH_OTP_BYTES 128u
#define EPD_FINISH_OUT_BYTES 48001u

/* The kinds of answers of the two calls below. */
#define EPD_FINISH_WRITE 1u     /* the value is the length put out: the register, then its data */
#define EPD_FINISH_DELAY 2u     /* the value is the ms to wait, 0 too */
#define EPD_FINISH_BUSY_HIGH 3u /* go on once BUSY is high */
#define EPD_FINISH_DONE 4u      /* nothing is left */

/*
 * The thing that an update gives out after `given` others, in normal mode and in fast mode. Call with 0, 1,
 * 2 and so on until the answer's kind is EPD_FINISH_DONE, each time with the same other arguments.
 *
 * otp          the 128 bytes of the panel's OTP memory
 * temperature  in degrees: normal mode takes -15 to 60, fast mode 0 to 50
 * picture      the new picture; its size tells the panel. A 1 is black
 * shown        fast mode: the picture that the panel shows, of the same size
 * given        how many things were given out so far
 * out          takes a write: the register's byte, then its data; bytes after it stay as they are
 *
 * Refused with EPD_BAD_OTP_LENGTH, EPD_BAD_SOFT_START, EPD_BAD_TEMPERATURE, EPD_BAD_PICTURE or, where a write
 * does not fit, EPD_SHORT_OUTPUT: the first that applies in that order, at any count.
 */
uint32_t epd_normal_update(const uint8_t *otp, size_t otp_len, int32_t temperature, const uint8_t *picture,
                           size_t picture_len, uint32_t given, uint8_t *out, size_t out_len);
uint32_t epd_fast_update(const uint8_t *otp, size_t otp_len, int32_t temperature, const uint8_t *picture,
                         size_t picture_len, const uint8_t *shown, size_t shown_len, uint32_t given,
                         uint8_t *out, size_t out_len);

/* ---- The hall display ---- */

/* Panels, by the code in their header. */
#define EPD_HALL_13_3 0x3Eu /* 13.3 inch, 1600 x 1200 */
#define EPD_HALL_31_2 0x3Fu /* 31.2 inch, 1440 x 2560 */

/* The bytes of an image of one bit a dot (of two bits, twice as many), of the header, and of an output that
 * has room for every command. */
#define EPD_HALL_BYTES_13_3 240000u
#define EPD_HALL_BYTES_31_2 460800u
#define EPD_HALL_HEADER_BYTES 16u
#define EPD_HALL_OUT_BYTES 255u

/*
 * Puts out the header of an image: 16 bytes. It goes out before the image; epd_hall_command does that by itself.
 *
 * panel  a panel's code
 * depth  bits of a dot, 1 or 2
 *
 * Answers EPD_OK, or EPD_BAD_DISPLAY or EPD_SHORT_OUTPUT, the first that applies in that order.
 */
uint8_t epd_hall_header(uint32_t panel, uint32_t depth, uint8_t *out, size_t out_len);

/* The kinds of answers of epd_hall_command. */
#define EPD_HALL_COMMAND 1u /* the value is the length of the command put out */
#define EPD_HALL_NO_MORE 2u /* there is no command of that number */

/*
 * The command of one number of an upload: 20 01, the slot, the length of its data, and the data. Header and
 * image are cut into 251 bytes for each command but the last. Call with 0, 1, 2 and so on until the answer's
 * kind is EPD_HALL_NO_MORE; commands can also be asked for in any other order, or again.
 *
 * panel   a panel's code
 * depth   bits of a dot, 1 or 2
 * image   its bytes in the panel's pixel data format, without the header
 * slot    the display's framebuffer slot, 0 to 255
 * number  the command's number
 * out     takes the command; bytes after it stay as they are
 *
 * Refused with EPD_BAD_DISPLAY, EPD_BAD_IMAGE, EPD_BAD_SLOT or, where there is a command that does not fit,
 * EPD_SHORT_OUTPUT: the first that applies in that order.
 */
uint32_t epd_hall_command(uint32_t panel, uint32_t depth, const uint8_t *image, size_t image_len, uint32_t slot,
                          uint32_t number, uint8_t *out, size_t out_len);

/* The kind of an accepted answer of epd_hall_read. */
#define EPD_HALL_DATA 1u /* the value is the length of the data: add it to the data pointer */

/*
 * Reads an upload command into a slot, as the display does.
 *
 * slot     the slot's number
 * at       its data pointer, which the caller keeps: 0 at first, and 0 again to reset it
 * command  the whole command
 * memory   the slot's bytes; takes the data from `at` on
 *
 * Refused with EPD_BAD_SLOT, EPD_BAD_COMMAND or EPD_OVERRUN, the first that applies in that order.
 */
uint32_t epd_hall_read(uint32_t slot, size_t at, const uint8_t *command, size_t command_len, uint8_t *memory,
                       size_t memory_len);

/*
 * The checksum of some bytes, from a start value on. Over header and image, from EPD_HALL_CHECKSUM_START, it is
 * the display's own for a slot that holds them; the answer for some bytes is the start value for those after
 * them. The first call looks a table up, which takes 1 KiB of stack; the second computes the checksum as the
 * display's guide prints it. They always answer the same, and the first is faster.
 */
#define EPD_HALL_CHECKSUM_START 0x6363u
uint16_t epd_hall_checksum(uint16_t start, const uint8_t *bytes, size_t len);
uint16_t epd_hall_checksum_printed(uint16_t start, const uint8_t *bytes, size_t len);

#ifdef __cplusplus
}
#endif

#endif
