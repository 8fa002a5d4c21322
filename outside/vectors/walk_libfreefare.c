/* Reads lines `layout SIZE HEX` and writes the listing of each picture, with the TLVs read by libfreefare. */
/* From libfreefare: each TLV's type, size of its length field, size of its value, size of the whole, and a control's value. */
/* From here: the area's start and end, the faults 11 and 13, that the first 03h ends the walk, and the layout of the lines. */
#include <freefare.h>
#include <stdint.h>
#include <stdio.h>
#include <stdlib.h>
#include <string.h>

/* Room past the picture, since libfreefare does not know where the area ends. */
enum { PICTURE = 256, ROOM = 70000 };

static uint8_t picture[PICTURE + ROOM];
static unsigned pictures, messages, cut, without;

static void line(unsigned a, unsigned b, unsigned c)
{
    printf("%4u%4u%4u\n", a, b, c);
}

static void refuse(const char *why, const char *hex)
{
    fprintf(stderr, "walk_libfreefare: %s: %s\n", why, hex);
    exit(1);
}

/* The controls of these pictures must name areas past address 255, so that nothing is skipped. */
static void skips_nothing(const uint8_t *value, const char *hex)
{
    unsigned long start = (unsigned long)(value[0] >> 4) * (1ul << (value[2] & 15)) + (value[0] & 15u);
    if (start < PICTURE)
        refuse("a control names an area inside the picture", hex);
}

static void walk(unsigned end, const char *hex)
{
    unsigned at = 16;
    while (at < end) {
        size_t length_size, value_size;
        size_t whole = tlv_record_length(picture + at, &length_size, &value_size);
        if (length_size > 1 && at + 1 < end)
            refuse("a length byte is FFh", hex);
        uint8_t type;
        uint16_t size;
        uint8_t *value = tlv_decode(picture + at, &type, &size);
        if (value == NULL || size != value_size)
            refuse("tlv_decode and tlv_record_length differ", hex);
        int control = type == 0x01 || type == 0x02;
        if (control && value_size != 3 && at + 1 < end)
            refuse("a control has not three bytes", hex);
        if (type == 0xFE) {
            free(value);
            break;
        }
        if (at + whole > end) {
            free(value);
            cut++;
            line(11, at, 0);
            return;
        }
        if (control)
            skips_nothing(value, hex);
        free(value);
        line(at, type, size);
        if (type == 0x03) {
            messages++;
            line(0, at + 1 + (unsigned)length_size, size);
            return;
        }
        at += (unsigned)whole;
    }
    /* At the terminator, or at the area's end. */
    without++;
    line(13, at, 0);
}

int main(void)
{
    static char text[2048];
    while (fgets(text, sizeof text, stdin) != NULL) {
        unsigned area;
        int from;
        text[strcspn(text, "\n")] = '\0';
        if (sscanf(text, "layout %2x %n", &area, &from) != 1)
            refuse("not a layout line", text);
        const char *hex = text + from;
        size_t length = strlen(hex) / 2;
        if (area > 30 || length == 0 || length > PICTURE - 16)
            refuse("the area or the bytes do not fit", text);
        memset(picture, 0, sizeof picture);
        memcpy(picture + 12, (const uint8_t[]){0xE1, 0x10, (uint8_t)area, 0x00}, 4);
        for (size_t i = 0; i < length; i++) {
            unsigned value;
            if (sscanf(hex + 2 * i, "%2x", &value) != 1)
                refuse("not hexadecimal", text);
            picture[16 + i] = (uint8_t)value;
        }
        pictures++;
        walk(16 + 8 * area, text);
    }
    fprintf(stderr, "%u pictures walked with libfreefare: %u with a message (0), %u cut short (11), %u without a message (13)\n",
            pictures, messages, cut, without);
    return 0;
}
