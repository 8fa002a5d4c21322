/* Writes the lines of crates/vectors/stdin, from a fixed seed. */
#include <stdint.h>
#include <stdio.h>

enum { AREA = 240, SIZES = 31 };

static uint64_t state = UINT64_C(0xD1B54A32D192ED03);

/* A number from 0 up to, but not with, bound. */
static unsigned below(unsigned bound)
{
    state ^= state << 13;
    state ^= state >> 7;
    state ^= state << 17;
    return (unsigned)((state >> 32) % bound);
}

static void random_run(unsigned length)
{
    printf("crc ");
    for (unsigned i = 0; i < length; i++)
        printf("%02X", below(256));
    printf("\n");
}

static void crc_lines(void)
{
    static const uint8_t single[] = {0x00, 0x01, 0x02, 0x26, 0x30, 0x50, 0x52, 0x55, 0x80, 0xAA, 0xFE, 0xFF};
    static const unsigned longer[] = {200, 208, 223, 240, 254, 255, 256, 257, 258, 300};
    printf("crc -\n");
    for (unsigned i = 0; i < sizeof single; i++)
        printf("crc %02X\n", single[i]);
    printf("crc 0000\ncrc 1234\n");
    for (unsigned length = 1; length <= 64; length++)
        random_run(length);
    for (unsigned i = 0; i < 25; i++)
        random_run(1 + below(64));
    for (unsigned i = 0; i < sizeof longer / sizeof longer[0]; i++)
        random_run(longer[i]);
    for (unsigned i = 0; i < 6; i++)
        random_run(200 + below(101));
}

static uint8_t bytes[AREA];
static unsigned used;

/* Adds a byte; what no longer fits before address 256 is left out. */
static void put(unsigned value)
{
    if (used < AREA)
        bytes[used++] = (uint8_t)value;
}

/* A length byte is never FFh, since libfreefare reads three bytes there. */
static void put_tlv(unsigned type, unsigned length)
{
    put(type);
    put(length);
    for (unsigned i = 0; i < length; i++)
        put(below(256));
}

/* A control whose area starts at 256 or later: the high digit is 8 or more, and the low digit of the last byte 5 or more. */
static void put_control(void)
{
    put(1 + below(2));
    put(3);
    put(0x80 + below(0x80));
    put(below(256));
    unsigned high = below(16);
    put(high << 4 | (5 + below(11)));
}

/* One thing that does not end a walk, of at most most bytes; most is 5 or more. */
static void put_any(unsigned most)
{
    unsigned kind = below(10);
    if (kind < 3)
        put(0x00);
    else if (kind < 5)
        put_control();
    else {
        unsigned type = kind == 5 ? 0xFF : 0x04 + below(0xFE - 0x04);
        put_tlv(type, below(most - 1));
    }
}

/* Things that do not end a walk, up to exactly the given number of bytes. */
static void fill_to(unsigned wanted, unsigned most)
{
    while (used < wanted) {
        unsigned left = wanted - used;
        if (left == 1)
            put(0x00);
        else if (left < 5)
            put_tlv(0x04, left - 2);
        else
            put_any(left < most ? left : most);
    }
}

static void layout_line(unsigned size, unsigned kind)
{
    unsigned area = 8 * size;
    unsigned most = 5 + area / 6;
    /* The bytes from the last TLV's type to the area's end. */
    unsigned tail = 1 + size % 7;
    used = 0;
    switch (kind) {
    case 0: /* a message after a few others, mostly with a terminator behind it */
        for (unsigned n = below(5); n > 0; n--)
            put_any(most);
        put_tlv(0x03, below(most));
        if (below(4) != 0)
            put(0xFE);
        break;
    case 1: /* a terminator, and a message behind it that is never reached */
        for (unsigned n = below(6); n > 0; n--)
            put_any(most);
        put(0xFE);
        put_tlv(0x03, below(4));
        break;
    case 2: /* no terminator; the last TLV, at times a message, ends where the area does */
        if (area > tail)
            fill_to(area - tail, most);
        if (tail == 1)
            put(0x00);
        else
            put_tlv(size % 2 == 0 ? 0x03 : 0x04, tail - 2);
        break;
    case 3: /* the last TLV runs over the area's end */
        if (area > tail)
            fill_to(area - tail, most);
        if (tail < 5 && size % 3 == 0)
            put_control();
        else
            put_tlv(size % 2 == 0 ? 0x03 : 0x04, tail < 2 ? below(4) : tail - 1 + below(4));
        break;
    default: /* only 00h from the last written byte to the area's end */
        fill_to(area / 2, most);
        put_tlv(0x04, 0);
        break;
    }
    printf("layout %02X ", size);
    for (unsigned i = 0; i < used; i++)
        printf("%02X", bytes[i]);
    printf("\n");
}

int main(void)
{
    crc_lines();
    for (unsigned kind = 0; kind < 4; kind++)
        for (unsigned size = 0; size < SIZES; size++)
            layout_line(size, kind);
    for (unsigned size = 1; size < 5; size++)
        layout_line(size, 4);
    return 0;
}
