/* Compares the library's two functions with the reference, on inputs from a fixed seed. */
#include "reference.h"
#include "youthgoat.h"

#include <stdbool.h>
#include <stdio.h>
#include <stdlib.h>
#include <string.h>

enum { PICTURE = 256, LONGEST = 300, NUMBERS = 14 };

static uint64_t state = UINT64_C(0x9E3779B97F4A7C15);
static unsigned long crcs;
static unsigned long walks;
static unsigned long outcomes[NUMBERS];

static uint64_t draw(void)
{
    state ^= state << 13;
    state ^= state >> 7;
    state ^= state << 17;
    return state;
}

/* A number from 0 up to, but not with, bound. */
static unsigned below(unsigned bound)
{
    return (unsigned)((draw() >> 32) % bound);
}

static uint8_t any_byte(void)
{
    return (uint8_t)(draw() >> 56);
}

static void fill(uint8_t *bytes, size_t length)
{
    for (size_t i = 0; i < length; i++)
        bytes[i] = any_byte();
}

static uint8_t *block(size_t length)
{
    uint8_t *bytes = malloc(length);
    if (bytes == NULL) {
        fprintf(stderr, "check: no memory for %zu bytes\n", length);
        exit(2);
    }
    return bytes;
}

static void show(const uint8_t *bytes, size_t length)
{
    printf("input: %zu bytes\n", length);
    for (size_t i = 0; i < length; i++)
        printf("%s%02X%s", i % 16 == 0 ? "  " : " ", bytes[i], i % 16 == 15 || i + 1 == length ? "\n" : "");
}

static uint16_t same_crc(const uint8_t *bytes, size_t length)
{
    uint16_t wanted = reference_crc_a(bytes, length);
    uint16_t got = youthgoat_crc_a(bytes, length);
    crcs++;
    if (got != wanted) {
        printf("CRC differs: the library has %04Xh, the reference %04Xh\n", got, wanted);
        show(bytes, length);
        exit(1);
    }
    return got;
}

static void known_crc(const uint8_t *bytes, size_t length, uint8_t first_sent, uint8_t second_sent)
{
    uint16_t got = same_crc(bytes, length);
    if ((got & 0xFF) != first_sent || got >> 8 != second_sent) {
        printf("CRC differs: both have %04Xh, the known value is %02X %02X as sent\n", got, first_sent, second_sent);
        show(bytes, length);
        exit(1);
    }
}

/* One byte is changed: the CRC must change too. */
static void flipped_crc(uint8_t *bytes, size_t length, uint16_t before)
{
    size_t at = (size_t)(draw() % length);
    bytes[at] ^= (uint8_t)(1 + below(255));
    if (same_crc(bytes, length) == before) {
        printf("CRC %04Xh stays the same though the byte at %zu was changed\n", before, at);
        show(bytes, length);
        exit(1);
    }
}

static void crc_of_length(size_t length, unsigned rounds, unsigned constant_step)
{
    uint8_t *bytes = block(length);
    for (unsigned i = 0; i < rounds; i++) {
        fill(bytes, length);
        uint16_t before = same_crc(bytes, length);
        if (length > 0)
            flipped_crc(bytes, length, before);
    }
    for (unsigned value = 0; value < 256; value += constant_step) {
        if (length > 0)
            memset(bytes, (int)value, length);
        uint16_t before = same_crc(bytes, length);
        if (length > 0)
            flipped_crc(bytes, length, before);
    }
    free(bytes);
}

static void check_crcs(void)
{
    known_crc((const uint8_t[]){0x00, 0x00}, 2, 0xA0, 0x1E);
    known_crc((const uint8_t[]){0x12, 0x34}, 2, 0x26, 0xCF);
    known_crc((const uint8_t[]){0x00}, 0, 0x63, 0x63);

    /* Every run of one byte and of two bytes. */
    for (unsigned i = 0; i < 65536; i++) {
        uint8_t run[2] = {(uint8_t)(i >> 8), (uint8_t)i};
        same_crc(run, 2);
        if (i < 256)
            same_crc(run + 1, 1);
    }
    for (size_t length = 0; length <= LONGEST; length++)
        crc_of_length(length, 20, 1);
    crc_of_length(4096, 20, 51);
    crc_of_length(65537, 4, 85);
    crc_of_length(1048576, 2, 255);
}

static void same_walk(const uint8_t *picture, size_t length)
{
    struct youthgoat_walk wanted = reference_layout_walk(picture, length);
    struct youthgoat_walk got = youthgoat_layout_walk(picture, length);
    walks++;
    if (got.number != wanted.number || got.place != wanted.place || got.length != wanted.length) {
        printf("walk differs: the library has %u %u %u, the reference %u %u %u\n",
               (unsigned)got.number, (unsigned)got.place, (unsigned)got.length,
               (unsigned)wanted.number, (unsigned)wanted.place, (unsigned)wanted.length);
        show(picture, length);
        exit(1);
    }
    outcomes[wanted.number]++;
}

/* Where the next byte goes while a picture is built. */
struct builder {
    uint8_t *picture;
    bool skipped[PICTURE];
    unsigned at;
    unsigned end;
};

/* Writes a byte to the next address that is not skipped; false if the area is full. */
static bool put(struct builder *b, unsigned value)
{
    while (b->at < b->end && b->skipped[b->at])
        b->at++;
    if (b->at >= b->end)
        return false;
    b->picture[b->at++] = (uint8_t)value;
    return true;
}

static bool put_control(struct builder *b)
{
    uint8_t type = (uint8_t)(1 + below(2));
    /* Mostly an area near the addresses that come next, at times any. */
    unsigned shift = below(8) == 0 ? below(16) : 2 + below(5);
    unsigned target = b->at + below(below(2) ? 24 : 240);
    unsigned high = target >> shift;
    unsigned low = target - (high << shift);
    if (high > 15)
        high = below(16);
    if (low > 15 || below(4) == 0)
        low = below(16);
    uint8_t position = (uint8_t)(high << 4 | low);
    uint8_t control = (uint8_t)(below(16) << 4 | shift);
    uint8_t size = (uint8_t)(1 + below(type == 1 ? 80 : 20));
    if (below(8) == 0)
        size = below(2) ? 0 : any_byte();
    if (!put(b, type) || !put(b, 3) || !put(b, position) || !put(b, size) || !put(b, control))
        return false;
    struct reference_area area = reference_control_area(type, position, size, control);
    for (unsigned address = b->at; address < b->end; address++)
        if (address >= area.first && address < area.past)
            b->skipped[address] = true;
    return true;
}

static bool put_value(struct builder *b, unsigned type, unsigned count)
{
    if (!put(b, type) || !put(b, count))
        return false;
    for (unsigned i = 0; i < count; i++)
        if (!put(b, any_byte()))
            return false;
    return true;
}

/* How many addresses are left that are not skipped. */
static unsigned left(const struct builder *b)
{
    unsigned count = 0;
    for (unsigned address = b->at; address < b->end; address++)
        count += !b->skipped[address];
    return count;
}

static void put_message(struct builder *b)
{
    unsigned count = below(4) == 0 ? below(255) : below(40);
    /* At times it ends where the area does. */
    if (below(4) == 0) {
        count = below(4);
        if (left(b) >= count + 4)
            put_value(b, 4, left(b) - count - 4);
    }
    put_value(b, 3, count);
}

static void header(uint8_t *picture)
{
    picture[12] = 0xE1;
    picture[13] = (uint8_t)(0x10 | below(16));
    picture[14] = (uint8_t)(below(4) == 0 ? 30 : below(31));
}

/* Random TLVs one after another, with what is left of the picture random. */
static void build(uint8_t *picture)
{
    fill(picture, PICTURE);
    header(picture);
    struct builder b = {.picture = picture, .at = 16, .end = 16 + 8u * picture[14]};
    bool more = true;
    while (more) {
        unsigned kind = below(100);
        if (kind < 25)
            more = put(&b, 0);
        else if (kind < 50)
            more = put_control(&b);
        else if (kind < 82) {
            unsigned type = below(8) == 0 ? 0xFF : 4 + below(0xFE - 4);
            unsigned count = below(16) == 0 ? below(255) : below(12);
            more = put_value(&b, type, count);
        } else if (kind < 97) {
            put_message(&b);
            more = false;
        } else {
            put(&b, 0xFE);
            more = false;
        }
    }
}

/* Bytes that mean something to the walk stand close together. */
static void dense(uint8_t *picture)
{
    static const uint8_t meant[] = {0x00, 0x01, 0x02, 0x03, 0x03, 0x03, 0x04, 0xFE, 0xFF};
    fill(picture, PICTURE);
    for (unsigned i = 16; i < PICTURE; i++)
        if (below(3) != 0)
            picture[i] = meant[below(sizeof meant)];
    header(picture);
}

static void damage(uint8_t *picture)
{
    unsigned at = below(8) == 0 ? 12 + below(4) : below(PICTURE);
    picture[at] ^= (uint8_t)(1 + below(255));
}

static void check_walks(void)
{
    uint8_t *picture = block(PICTURE);
    for (unsigned i = 0; i < 100000; i++) {
        fill(picture, PICTURE);
        same_walk(picture, PICTURE);
        header(picture);
        same_walk(picture, PICTURE);
    }
    for (unsigned i = 0; i < 200000; i++) {
        dense(picture);
        same_walk(picture, PICTURE);
    }
    for (unsigned i = 0; i < 600000; i++) {
        build(picture);
        same_walk(picture, PICTURE);
        damage(picture);
        same_walk(picture, PICTURE);
    }
    /* A good picture's first bytes, in a block of exactly that size. */
    for (size_t length = 0; length <= LONGEST; length++) {
        if (length == PICTURE)
            continue;
        uint8_t *other = block(length);
        for (unsigned i = 0; i < 10; i++) {
            fill(other, length);
            build(picture);
            if (length > 0)
                memcpy(other, picture, length < PICTURE ? length : PICTURE);
            same_walk(other, length);
        }
        free(other);
    }
    free(picture);
}

int main(void)
{
    static const unsigned wanted[] = {0, 6, 9, 10, 11, 12, 13};
    check_crcs();
    check_walks();
    bool all = true;
    for (size_t i = 0; i < sizeof wanted / sizeof wanted[0]; i++) {
        printf("walks that ended in %2u: %7lu\n", wanted[i], outcomes[wanted[i]]);
        all = all && outcomes[wanted[i]] > 0;
    }
    if (!all) {
        printf("an outcome never came up\n");
        return 1;
    }
    printf("agree: %lu CRC values, %lu walks\n", crcs, walks);
    return 0;
}
