#ifndef YOUTHGOAT_H
#define YOUTHGOAT_H

#include <stddef.h>
#include <stdint.h>

#ifdef __cplusplus
extern "C" {
#endif

/* The CRC_A of a run of bytes, as a number; its low byte is sent first. */
/* The empty run has 6363h. */
/* The caller owes: bytes is not null, even at length 0, and points to length readable bytes, which nobody writes during the call. */
uint16_t youthgoat_crc_a(const uint8_t *bytes, size_t length);

/* The numbers of the faults of a walk. */
enum {
    YOUTHGOAT_CALL_LENGTH = 6,      /* call: the buffer has not 256 bytes; its address is 0 */
    YOUTHGOAT_LAYOUT_HEADER = 9,    /* layout: the bytes at 12 to 14 describe no area inside the picture; its address is 12 */
    YOUTHGOAT_LAYOUT_CONTROL = 10,  /* layout: a lock or memory control whose length is not 3; the address of its type byte */
    YOUTHGOAT_LAYOUT_CUT = 11,      /* layout: the area ends inside a TLV; the address of its type byte */
    YOUTHGOAT_LAYOUT_LONG = 12,     /* layout: a length byte FFh; the address of the type byte */
    YOUTHGOAT_LAYOUT_NO_MESSAGE = 13 /* layout: no message; the address of the terminator, or the first address past the area */
};

/* Number 0: place and length are those of the message. */
/* Any other number: the fault's, with its address in place, and length 0. */
struct youthgoat_walk {
    uint16_t number;
    uint16_t place;
    uint16_t length;
};

/* Walks the TLVs of a picture of 256 bytes up to its first message. */
/* Skipped addresses may lie at the place and inside the message, so its bytes need not stand in one piece. */
/* The caller owes: picture is not null, even at length 0, and points to length readable bytes, which nobody writes during the call. */
struct youthgoat_walk youthgoat_layout_walk(const uint8_t *picture, size_t length);

#ifdef __cplusplus
}
#endif

#endif
