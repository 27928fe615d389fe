/* sme_decode and sme_encode, by words of document 01's worked examples and of the rows that requests added. */
#include "check.h"
#include "guarded.h"
#include "sme_move.h"

#include <string.h>

typedef struct known {
    uint32_t word;
    /* the lowest level that has it */
    uint64_t level;
    uint8_t fields[SME_FIELD_COUNT];
} known;

static const known known_words[] = {
    {0xC0000000, 1, {SME_KIND_MOVE_TO_TILE, 1, 0, 0, 0, 12, 0, 0, 0, 0, 1}},
    {0xC080ACA9, 1, {SME_KIND_MOVE_TO_TILE, 4, 1, 2, 1, 13, 3, 5, 0, 0, 1}},
    {0xC0C1000F, 1, {SME_KIND_MOVE_TO_TILE, 16, 0, 15, 0, 12, 0, 0, 0, 0, 1}},
    {0xC0020200, 3, {SME_KIND_MOVE_AND_ZERO_FROM_TILE, 1, 0, 0, 0, 12, 0, 0, 0, 0, 1}},
    {0xC0C2E3BF, 3, {SME_KIND_MOVE_AND_ZERO_FROM_TILE, 8, 1, 6, 1, 15, 0, 31, 0, 0, 1}},
    {0xC0064CFC, 2, {SME_KIND_MOVE_FROM_ARRAY, 0, 0, 0, 7, 10, 0, 28, 0, 0, 4}},
    {0xC0060A6A, 3, {SME_KIND_MOVE_AND_ZERO_FROM_ARRAY, 0, 0, 0, 3, 8, 0, 10, 0, 0, 2}},
    {0xE0220020, 1, {SME_KIND_STORE, 1, 0, 0, 0, 12, 0, 0, 1, 2, 0}},
    {0xE03F03E0, 1, {SME_KIND_STORE, 1, 0, 0, 0, 12, 0, 0, 31, 31, 0}},
    {0xC0020000, 1, {SME_KIND_MOVE_FROM_TILE, 1, 0, 0, 0, 12, 0, 0, 0, 0, 1}},
    {0xC0025569, 1, {SME_KIND_MOVE_FROM_TILE, 1, 0, 0, 11, 14, 5, 9, 0, 0, 1}},
    {0xC04299BE, 1, {SME_KIND_MOVE_FROM_TILE, 2, 1, 1, 5, 12, 6, 30, 0, 0, 1}},
    {0xC082AD25, 1, {SME_KIND_MOVE_FROM_TILE, 4, 1, 2, 1, 13, 3, 5, 0, 0, 1}},
    {0xC0C2FDBF, 1, {SME_KIND_MOVE_FROM_TILE, 8, 1, 6, 1, 15, 7, 31, 0, 0, 1}},
    {0xC0C305E2, 1, {SME_KIND_MOVE_FROM_TILE, 16, 0, 15, 0, 12, 1, 2, 0, 0, 1}},
    {0xC00668FE, 2, {SME_KIND_MOVE_FROM_ARRAY, 0, 0, 0, 7, 11, 0, 30, 0, 0, 2}},
    {0xC0064EFC, 3, {SME_KIND_MOVE_AND_ZERO_FROM_ARRAY, 0, 0, 0, 7, 10, 0, 28, 0, 0, 4}},
    {0xE071D52E, 1, {SME_KIND_STORE, 2, 1, 1, 6, 14, 5, 0, 9, 17, 0}},
    {0xE0BE386B, 1, {SME_KIND_STORE, 4, 0, 2, 3, 13, 6, 0, 3, 30, 0}},
    {0xE0E4EBEB, 1, {SME_KIND_STORE, 8, 1, 5, 1, 15, 2, 0, 31, 4, 0}},
    {0xE1F55D4B, 1, {SME_KIND_STORE, 16, 0, 11, 0, 14, 7, 0, 10, 21, 0}},
    {0xE006AF2E, 1, {SME_KIND_LOAD, 1, 1, 0, 14, 13, 3, 0, 25, 6, 0}},
    {0xE05F724D, 1, {SME_KIND_LOAD, 2, 0, 1, 5, 15, 4, 0, 18, 31, 0}},
    {0xE08CC7AE, 1, {SME_KIND_LOAD, 4, 1, 3, 2, 14, 1, 0, 29, 12, 0}},
    {0xE0DB37ED, 1, {SME_KIND_LOAD, 8, 0, 6, 1, 13, 5, 0, 31, 27, 0}},
    {0xE1C8FA6D, 1, {SME_KIND_LOAD, 16, 1, 13, 0, 15, 6, 0, 19, 8, 0}},
};

/*
 * The places among them of a byte, a 4-byte and a 16-byte move from a tile, of the added array words, and of the first
 * and the last of the added loads and stores.
 */
enum {
    FROM_BYTE_TILE = 9,
    FROM_TILE_4 = 12,
    FROM_TILE_16 = 14,
    TWO_OF_ARRAY = 15,
    ZERO_FOUR_OF_ARRAY = 16,
    FIRST_ACCESS = 17,
    LAST_ACCESS = 25
};

/*
 * Words that decode at no level: changed fixed bits, a move and zero with a predicate, first registers of no group, and
 * a load or store with bit 24 and a small size.
 */
static const uint32_t no_words[] = {
    0,          0xC0000010, 0xC0410000, 0xC0030000, 0xC0430000, 0xC0830000, 0xC0020600, 0xC0C31E00,
    0xC0060801, 0xC0060A01, 0xC0060C02, 0xC0060E01, 0xC0060E02, 0xC0061800, 0xC0068E00, 0xE0000010,
    0xE0200010, 0xE0E00010, 0xE1C00010, 0xE1FFFFFF, 0xE1000000, 0xE1200000, 0xE1600000, 0xE1800000,
    0xE2000000, 0xE3E00000, 0xA0000000, 0xF0200000,
};

static void decode_one(uint32_t word, uint64_t level, uint32_t wanted, const uint8_t *wanted_fields)
{
    guarded fields = guarded_new(SME_FIELD_COUNT, 3);
    uint8_t before[SME_FIELD_COUNT];
    memcpy(before, fields.bytes, sizeof before);
    uint32_t answer = sme_settings_decode(sme_settings_new(16, level), word, fields.bytes);
    CHECK_EQUAL(answer, wanted);
    CHECK(guarded_check(&fields));
    CHECK(memcmp(fields.bytes, wanted == SME_DONE ? wanted_fields : before, sizeof before) == 0);
    seen[DECODE][answer]++;
    guarded_free(&fields);
}

static void encode_one(const uint8_t *numbers, uint32_t wanted, uint32_t wanted_word)
{
    guarded fields = guarded_new(SME_FIELD_COUNT, 3);
    guarded word = guarded_new(sizeof(uint32_t), 5);
    memcpy(fields.bytes, numbers, SME_FIELD_COUNT);
    guarded_read_only(&fields);
    uint32_t answer = sme_encode(fields.bytes, (uint32_t *)(void *)word.bytes);
    uint32_t written;
    memcpy(&written, word.bytes, sizeof written);
    CHECK_EQUAL(answer, wanted);
    CHECK_EQUAL(written, wanted_word);
    CHECK(guarded_check(&word));
    seen[ENCODE][answer]++;
    guarded_free(&fields);
    guarded_free(&word);
}

/* A known word's numbers with one replaced. */
static void refuse_one(size_t number, enum sme_field field, uint8_t value)
{
    uint8_t fields[SME_FIELD_COUNT];
    memcpy(fields, known_words[number].fields, sizeof fields);
    fields[field] = value;
    encode_one(fields, SME_OUT_OF_RANGE, 0);
}

static void known_one(const known *one)
{
    for (uint64_t level = 0; level <= 3; level++) {
        decode_one(one->word, level, level < one->level ? SME_UNDECODABLE : SME_DONE, one->fields);
    }
    decode_one(one->word, 4, SME_BAD_SETTINGS, NULL);
    decode_one(one->word, 256, SME_BAD_SETTINGS, NULL);
    decode_one(one->word, (UINT64_C(1) << 32) + 3, SME_BAD_SETTINGS, NULL);
    decode_one(one->word, UINT64_MAX, SME_BAD_SETTINGS, NULL);
    encode_one(one->fields, SME_DONE, one->word);
}

/* Each number of a move from a tile just outside its range, and those that it has not. */
static void from_tile_ranges(void)
{
    refuse_one(FROM_BYTE_TILE, SME_FIELD_OFFSET, 16);
    refuse_one(FROM_BYTE_TILE, SME_FIELD_TILE, 1);
    refuse_one(FROM_TILE_4, SME_FIELD_OFFSET, 4);
    refuse_one(FROM_TILE_4, SME_FIELD_TILE, 4);
    refuse_one(FROM_TILE_16, SME_FIELD_OFFSET, 1);
    refuse_one(FROM_TILE_16, SME_FIELD_TILE, 16);
    for (size_t i = FROM_BYTE_TILE; i <= FROM_TILE_16; i++) {
        refuse_one(i, SME_FIELD_INDEX_REGISTER, 11);
        refuse_one(i, SME_FIELD_INDEX_REGISTER, 16);
        refuse_one(i, SME_FIELD_PREDICATE, 8);
        refuse_one(i, SME_FIELD_FIRST_VECTOR_REGISTER, 32);
        refuse_one(i, SME_FIELD_BASE_REGISTER, 1);
        refuse_one(i, SME_FIELD_OFFSET_REGISTER, 1);
        refuse_one(i, SME_FIELD_VECTOR_REGISTERS, 0);
        refuse_one(i, SME_FIELD_VECTOR_REGISTERS, 2);
    }
}

/* The same of the added array words: their first registers are multiples of 2 and of 4. */
static void array_ranges(void)
{
    for (uint8_t first = 0; first < 40; first++) {
        if (first % 2 != 0 || first > 30) {
            refuse_one(TWO_OF_ARRAY, SME_FIELD_FIRST_VECTOR_REGISTER, first);
        }
        if (first % 4 != 0 || first > 28) {
            refuse_one(ZERO_FOUR_OF_ARRAY, SME_FIELD_FIRST_VECTOR_REGISTER, first);
        }
    }
    for (size_t i = TWO_OF_ARRAY; i <= ZERO_FOUR_OF_ARRAY; i++) {
        refuse_one(i, SME_FIELD_OFFSET, 8);
        refuse_one(i, SME_FIELD_INDEX_REGISTER, 7);
        refuse_one(i, SME_FIELD_INDEX_REGISTER, 12);
        refuse_one(i, SME_FIELD_ELEMENT_BYTES, 1);
        refuse_one(i, SME_FIELD_DIRECTION, 1);
        refuse_one(i, SME_FIELD_TILE, 1);
        refuse_one(i, SME_FIELD_PREDICATE, 1);
        refuse_one(i, SME_FIELD_BASE_REGISTER, 1);
        refuse_one(i, SME_FIELD_OFFSET_REGISTER, 1);
        refuse_one(i, SME_FIELD_VECTOR_REGISTERS, 1);
    }
    refuse_one(TWO_OF_ARRAY, SME_FIELD_VECTOR_REGISTERS, 4);
}

/* The same of the added loads and stores: they have no vector register. */
static void access_ranges(void)
{
    for (size_t i = FIRST_ACCESS; i <= LAST_ACCESS; i++) {
        uint8_t m = known_words[i].fields[SME_FIELD_ELEMENT_BYTES];
        refuse_one(i, SME_FIELD_TILE, m);
        refuse_one(i, SME_FIELD_OFFSET, (uint8_t)(16 / m));
        refuse_one(i, SME_FIELD_INDEX_REGISTER, 11);
        refuse_one(i, SME_FIELD_INDEX_REGISTER, 16);
        refuse_one(i, SME_FIELD_PREDICATE, 8);
        refuse_one(i, SME_FIELD_FIRST_VECTOR_REGISTER, 1);
        refuse_one(i, SME_FIELD_BASE_REGISTER, 32);
        refuse_one(i, SME_FIELD_OFFSET_REGISTER, 32);
        refuse_one(i, SME_FIELD_VECTOR_REGISTERS, 1);
        refuse_one(i, SME_FIELD_VECTOR_REGISTERS, 2);
        refuse_one(i, SME_FIELD_ELEMENT_BYTES, 0);
        refuse_one(i, SME_FIELD_ELEMENT_BYTES, 32);
    }
}

void word_tests(void)
{
    for (size_t i = 0; i < sizeof known_words / sizeof known_words[0]; i++) {
        known_one(&known_words[i]);
        refuse_one(i, SME_FIELD_KIND, 0);
        refuse_one(i, SME_FIELD_KIND, 8);
        refuse_one(i, SME_FIELD_KIND, 255);
        refuse_one(i, SME_FIELD_DIRECTION, 2);
        refuse_one(i, SME_FIELD_ELEMENT_BYTES, 3);
        refuse_one(i, SME_FIELD_VECTOR_REGISTERS, 3);
    }
    for (uint64_t level = 0; level <= 3; level++) {
        for (size_t i = 0; i < sizeof no_words / sizeof no_words[0]; i++) {
            decode_one(no_words[i], level, SME_UNDECODABLE, NULL);
        }
    }
    /* a byte move with offset 16, a byte tile 1, four registers from 2; a field that the kind has not */
    refuse_one(0, SME_FIELD_OFFSET, 16);
    refuse_one(0, SME_FIELD_TILE, 1);
    refuse_one(5, SME_FIELD_FIRST_VECTOR_REGISTER, 2);
    refuse_one(0, SME_FIELD_BASE_REGISTER, 1);
    refuse_one(5, SME_FIELD_PREDICATE, 1);
    refuse_one(7, SME_FIELD_FIRST_VECTOR_REGISTER, 1);
    from_tile_ranges();
    array_ranges();
    access_ranges();
}
