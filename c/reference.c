#include "reference.h"

#include <stdbool.h>

uint16_t reference_crc_a(const uint8_t *bytes, size_t length)
{
    unsigned crc = 0x6363;
    for (size_t i = 0; i < length; i++) {
        for (int bit = 0; bit < 8; bit++) {
            unsigned out = (crc ^ (bytes[i] >> bit)) & 1u;
            crc >>= 1;
            if (out)
                crc ^= 0x8408;
        }
    }
    return (uint16_t)crc;
}

struct reference_area reference_control_area(uint8_t type, uint8_t position, uint8_t size, uint8_t control)
{
    uint32_t start = (uint32_t)(position >> 4) * (UINT32_C(1) << (control & 15)) + (position & 15u);
    uint32_t count = size == 0 ? 256 : size;
    struct reference_area area = {start, start + count};
    if (type == 0x01) {
        /* The count is of bits; the area grows to whole blocks of four at both ends. */
        area.past = start + (count + 7) / 8;
        while (area.first % 4 != 0)
            area.first--;
        while (area.past % 4 != 0)
            area.past++;
    }
    return area;
}

static struct youthgoat_walk ended(unsigned number, unsigned place, unsigned length)
{
    struct youthgoat_walk walk = {(uint16_t)number, (uint16_t)place, (uint16_t)length};
    return walk;
}

/* The first address from at on that is not skipped; end if there is none. */
static unsigned next(const bool *skipped, unsigned at, unsigned end)
{
    while (at < end && skipped[at])
        at++;
    return at;
}

struct youthgoat_walk reference_layout_walk(const uint8_t *picture, size_t length)
{
    if (length != 256)
        return ended(6, 0, 0);
    unsigned end = 16 + 8u * picture[14];
    if (picture[12] != 0xE1 || picture[13] >> 4 != 1 || end > 256)
        return ended(9, 12, 0);

    bool skipped[256] = {false};
    unsigned at = 16;
    for (;;) {
        unsigned type_at = next(skipped, at, end);
        if (type_at == end)
            return ended(13, end, 0);
        uint8_t type = picture[type_at];
        if (type == 0xFE)
            return ended(13, type_at, 0);
        at = type_at + 1;
        if (type == 0x00)
            continue;

        unsigned length_at = next(skipped, at, end);
        if (length_at == end)
            return ended(11, type_at, 0);
        unsigned count = picture[length_at];
        if (count == 0xFF)
            return ended(12, type_at, 0);
        if ((type == 0x01 || type == 0x02) && count != 3)
            return ended(10, type_at, 0);

        /* The value's bytes, one at a time. */
        uint8_t value[255];
        at = length_at + 1;
        for (unsigned i = 0; i < count; i++) {
            unsigned value_at = next(skipped, at, end);
            if (value_at == end)
                return ended(11, type_at, 0);
            value[i] = picture[value_at];
            at = value_at + 1;
        }

        if (type == 0x03)
            return ended(0, length_at + 1, count);
        if (type == 0x01 || type == 0x02) {
            struct reference_area area = reference_control_area(type, value[0], value[1], value[2]);
            for (unsigned address = at; address < end; address++)
                if (address >= area.first && address < area.past)
                    skipped[address] = true;
        }
    }
}
