#ifndef REFERENCE_H
#define REFERENCE_H

#include "youthgoat.h"

/* The addresses from first up to, but not with, past. */
struct reference_area {
    uint32_t first;
    uint32_t past;
};

/* The same two functions as the library's, written apart from it. */
uint16_t reference_crc_a(const uint8_t *bytes, size_t length);
struct youthgoat_walk reference_layout_walk(const uint8_t *picture, size_t length);

/* The area that a control of type 01h or 02h names. */
struct reference_area reference_control_area(uint8_t type, uint8_t position, uint8_t size, uint8_t control);

#endif
