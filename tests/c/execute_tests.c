/*
 * sme_execute_word, with every answer, at every vector length b and every largest one, so that vectors start `apart` bytes
 * apart: the moves, and document 01's store; access_tests.c has loads and stores of every size. What is expected is worked
 * out here byte by byte.
 */
#include "check.h"
#include "machine.h"

#include <string.h>

/* Each kind of document 01 once: byte row 3, 4-byte column of tile 1, four and two vectors of the array, a store. */
static void done_tests(uint64_t b, uint64_t apart)
{
    machine own = machine_within(b, apart, 0);
    set_x(&own, 12, b + 3);
    memcpy(own.wanted_za + 3 * apart, own.z.bytes, b);
    expect(&own, 0xC0000000, SME_DONE);

    own = machine_within(b, apart, 0);
    set_x(&own, 12, 2);
    for (size_t e = 0; e < b / 4; e++) {
        uint8_t *element = own.wanted_za + (4 * e + 1) * apart + 2 * 4;
        memcpy(own.wanted_z + 7 * apart + 4 * e, element, 4);
        memset(element, 0, 4);
    }
    expect(&own, 0xC0828287, SME_DONE);

    own = machine_within(b, apart, 0);
    set_x(&own, 10, b - 6);
    for (size_t v = 0; v < 4; v++) {
        memcpy(own.wanted_z + (28 + v) * apart, own.za.bytes + (1 + v * (b / 4)) * apart, b);
    }
    expect(&own, 0xC0064CFC, SME_DONE);

    own = machine_within(b, apart, 0);
    set_x(&own, 8, b - 2);
    for (size_t v = 0; v < 2; v++) {
        memcpy(own.wanted_z + (10 + v) * apart, own.za.bytes + (1 + v * (b / 2)) * apart, b);
        memset(own.wanted_za + (1 + v * (b / 2)) * apart, 0, b);
    }
    expect(&own, 0xC0060A6A, SME_DONE);

    own = machine_within(b, apart, b + 5);
    set_x(&own, 1, 0xF00);
    set_x(&own, 2, 0x105);
    set_x(&own, 12, 4);
    memcpy(own.wanted_memory + 5, own.za.bytes + 4 * apart, b);
    expect(&own, 0xE0220020, SME_DONE);
}

/*
 * Moves from a tile, with some elements active: every third of byte row 6, every second of column 3 of 4-byte tile 2,
 * the first of row 0 of 16-byte tile 15, and none of a byte row. ZA stays.
 */
static void from_tile_tests(uint64_t b, uint64_t apart)
{
    machine own = machine_within(b, apart, 0);
    set_x(&own, 14, b - 5);
    set_active(&own, 5, 1, 3);
    for (size_t e = 0; e < b; e += 3) {
        own.wanted_z[9 * apart + e] = own.za.bytes[6 * apart + e];
    }
    expect(&own, 0xC0025569, SME_DONE);

    own = machine_within(b, apart, 0);
    own.settings.level = 1;
    set_x(&own, 13, b / 4 + 2);
    set_active(&own, 3, 4, 2);
    for (size_t e = 0; e < b / 4; e += 2) {
        memcpy(own.wanted_z + 5 * apart + 4 * e, own.za.bytes + (4 * e + 2) * apart + 3 * 4, 4);
    }
    expect(&own, 0xC082AD25, SME_DONE);

    own = machine_within(b, apart, 0);
    set_x(&own, 12, b / 16);
    set_active(&own, 1, 16, 16);
    memcpy(own.wanted_z + 2 * apart, own.za.bytes + 15 * apart, 16);
    expect(&own, 0xC0C305E2, SME_DONE);

    own = machine_within(b, apart, 0);
    memset(own.p.bytes, 0, b / 8);
    expect(&own, 0xC0020000, SME_DONE);
}

/* The array words that document 01 has not: two vectors that stay, and four that are then zero. W + offset is 2^32 + 6. */
static void array_tests(uint64_t b, uint64_t apart)
{
    machine own = machine_within(b, apart, 0);
    own.settings.level = 2;
    set_x(&own, 9, UINT32_MAX);
    for (size_t v = 0; v < 2; v++) {
        memcpy(own.wanted_z + (8 + v) * apart, own.za.bytes + (6 + v * (b / 2)) * apart, b);
    }
    expect(&own, 0xC00628E8, SME_DONE);

    own = machine_within(b, apart, 0);
    set_x(&own, 9, UINT32_MAX);
    for (size_t v = 0; v < 4; v++) {
        size_t vector = 6 % (b / 4) + v * (b / 4);
        memcpy(own.wanted_z + (8 + v) * apart, own.za.bytes + vector * apart, b);
        memset(own.wanted_za + vector * apart, 0, b);
    }
    expect(&own, 0xC0062EE8, SME_DONE);
}

/* Answers 3 to 5 to the moves that document 01 has not: one below their level, and with a switch off. */
static void added_refused_tests(uint64_t b, uint64_t apart)
{
    static const struct {
        uint32_t word;
        uint64_t level;
    } added[] = {{0xC0025569, 1}, {0xC0C305E2, 1}, {0xC00628E8, 2}, {0xC0062EE8, 3}};
    for (size_t i = 0; i < sizeof added / sizeof added[0]; i++) {
        machine own = machine_within(b, apart, 8);
        own.settings.level = added[i].level - 1;
        expect(&own, added[i].word, SME_UNDECODABLE);
        own = machine_within(b, apart, 8);
        own.settings.streaming = own.settings.za_on = false;
        expect(&own, added[i].word, SME_STREAMING_OFF);
        own = machine_within(b, apart, 8);
        own.settings.za_on = false;
        expect(&own, added[i].word, SME_ZA_OFF);
    }
}

/* Answers 1 and 3 to 6. */
static void refused_tests(uint64_t b, uint64_t apart)
{
    static const uint64_t levels[] = {4, 256, UINT64_C(1) << 32, UINT64_MAX};
    for (size_t i = 0; i < sizeof levels / sizeof levels[0]; i++) {
        machine high = machine_within(b, apart, 8);
        high.settings.level = levels[i];
        expect(&high, 0xC0000000, SME_BAD_SETTINGS);
    }
    static const uint64_t more[] = {1, UINT64_C(1) << 16, UINT64_C(1) << 32};
    for (size_t i = 0; i < sizeof more / sizeof more[0]; i++) {
        machine longer = machine_within(b, apart, 8);
        longer.settings.vector_bytes = b + more[i];
        expect(&longer, 0xC0000000, SME_BAD_SETTINGS);
        longer = machine_within(b, apart, 8);
        longer.settings.vector_bytes = longer.settings.largest_vector_bytes = b + more[i];
        expect(&longer, 0xC0000000, SME_BAD_SETTINGS);
    }
    machine own;

    own = machine_within(b, apart, 8);
    expect(&own, 0xC0000010, SME_UNDECODABLE);
    own = machine_within(b, apart, 8);
    own.settings.level = 2;
    expect(&own, 0xC0020200, SME_UNDECODABLE);

    own = machine_within(b, apart, 8);
    own.settings.streaming = own.settings.za_on = false;
    expect(&own, 0xC0000000, SME_STREAMING_OFF);
    own = machine_within(b, apart, 8);
    own.settings.za_on = false;
    expect(&own, 0xC0000000, SME_ZA_OFF);

    own = machine_within(b, apart, 8);
    set_x(&own, 31, 0x1008);
    expect(&own, 0xE03F03E0, SME_STACK_MISALIGNED);
}

/* Answer 7: the last element's byte is the one behind memory; and with no memory at all. */
static void outside_tests(uint64_t b, uint64_t apart)
{
    machine own = machine_within(b, apart, b - 1);
    set_x(&own, 1, 0x1000);
    set_x(&own, 2, 0);
    want_outside(&own, 0x1000 + b - 1, b - 1);
    expect(&own, 0xE0220020, SME_OUTSIDE_MEMORY);
    own = machine_within(b, apart, 0);
    set_x(&own, 1, UINT64_C(0) - 8);
    set_x(&own, 2, 4);
    want_outside(&own, UINT64_C(0xFFFFFFFFFFFFFFFC), 0);
    expect(&own, 0xE0220020, SME_OUTSIDE_MEMORY);
}

/* Answer 2: each length by one item too short and too long, and memory that ends above 2^64. */
static void length_tests(uint64_t b, uint64_t apart)
{
    for (int wrong = 0; wrong < 8; wrong++) {
        lengths bytes = right_lengths(apart, 16);
        size_t *each[] = {&bytes.x, &bytes.z, &bytes.p, &bytes.za};
        size_t item = wrong / 2 == 0 ? sizeof(uint64_t) : 1;
        *each[wrong / 2] += wrong % 2 == 0 ? item : (size_t)0 - item;
        machine own = machine_with(b, apart, bytes);
        expect(&own, 0xC0000000, SME_BAD_LENGTHS);
    }
    machine own = machine_within(b, apart, 16);
    own.settings.memory_address = UINT64_C(0) - 15;
    expect(&own, 0xC0000000, SME_BAD_LENGTHS);
    machine top = machine_within(b, apart, 16);
    top.settings.memory_address = UINT64_C(0) - 16;
    set_x(&top, 12, 0);
    memcpy(top.wanted_za, top.z.bytes, b);
    expect(&top, 0xC0000000, SME_DONE);
}

void execute_tests(void)
{
    for (uint64_t b = SME_MIN_VECTOR_BYTES; b <= SME_MAX_VECTOR_BYTES; b *= 2) {
        for (uint64_t apart = b; apart <= SME_MAX_VECTOR_BYTES; apart *= 2) {
            done_tests(b, apart);
            from_tile_tests(b, apart);
            array_tests(b, apart);
            refused_tests(b, apart);
            outside_tests(b, apart);
            added_refused_tests(b, apart);
            length_tests(b, apart);
        }
    }
}
