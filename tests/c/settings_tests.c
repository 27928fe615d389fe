/*
 * sme_check and sme_measure through the wrappers, those of before version 0.5 among them, for every setting near the
 * limits; and new settings that are checked.
 */
#include "check.h"
#include "guarded.h"
#include "sme_move.h"

#include <string.h>

static bool allowed_length(uint64_t vector_bytes)
{
    return vector_bytes == 16 || vector_bytes == 32 || vector_bytes == 64 || vector_bytes == 128 ||
           vector_bytes == 256;
}

static bool allowed_lengths(uint64_t vector_bytes, uint64_t largest_vector_bytes)
{
    return allowed_length(vector_bytes) && allowed_length(largest_vector_bytes) &&
           vector_bytes <= largest_vector_bytes;
}

/* Settings with switches and numbers that no new ones have. */
static sme_settings other_settings(void)
{
    return sme_settings_with_stack_check(sme_settings_with_za(sme_settings_within(99, 98, 97), true), false);
}

static void expect_made(sme_settings made, uint64_t vector_bytes, uint64_t largest_vector_bytes, uint64_t level)
{
    CHECK_EQUAL(made.vector_bytes, vector_bytes);
    CHECK_EQUAL(made.largest_vector_bytes, largest_vector_bytes);
    CHECK_EQUAL(made.level, level);
    CHECK(!made.streaming && !made.za_on && made.memory_address == 0 && !made.stack_check_off);
}

static uint32_t check_within(uint64_t vector_bytes, uint64_t largest_vector_bytes, uint64_t level)
{
    uint32_t answer = sme_settings_check(sme_settings_within(vector_bytes, largest_vector_bytes, level));
    CHECK_EQUAL(answer, allowed_lengths(vector_bytes, largest_vector_bytes) && level <= 3 ? SME_DONE : SME_BAD_SETTINGS);
    sme_settings made = other_settings();
    CHECK_EQUAL(sme_settings_make_within(vector_bytes, largest_vector_bytes, level, &made), answer);
    if (answer == SME_DONE) {
        expect_made(made, vector_bytes, largest_vector_bytes, level);
    } else {
        expect_made(made, 16, 16, 0);
    }
    seen[CHECK_SETTINGS][answer]++;
    return answer;
}

static void check_one(uint64_t vector_bytes, uint64_t level)
{
    const uint32_t answer = check_within(vector_bytes, vector_bytes, level);
    CHECK_EQUAL(sme_check_settings(vector_bytes, level), answer);
    CHECK_EQUAL(sme_settings_check(sme_settings_new(vector_bytes, level)), answer);
    sme_settings made = other_settings();
    CHECK_EQUAL(sme_settings_make(vector_bytes, level, &made), answer);
    if (answer == SME_DONE) {
        expect_made(made, vector_bytes, vector_bytes, level);
    } else {
        expect_made(made, 16, 16, 0);
    }
}

/* By the largest vector length, whatever the level. */
static uint32_t measure_within(uint64_t vector_bytes, uint64_t largest_vector_bytes, uint64_t level)
{
    guarded lengths = guarded_new(4 * sizeof(uint64_t), 9);
    uint8_t before[4 * sizeof(uint64_t)];
    memcpy(before, lengths.bytes, sizeof before);
    uint32_t answer = sme_settings_lengths(sme_settings_within(vector_bytes, largest_vector_bytes, level),
                                           (uint64_t *)(void *)lengths.bytes);
    CHECK_EQUAL(answer, allowed_lengths(vector_bytes, largest_vector_bytes) ? SME_DONE : SME_BAD_SETTINGS);
    CHECK(guarded_check(&lengths));
    if (answer == SME_DONE) {
        uint64_t four[4];
        memcpy(four, lengths.bytes, sizeof four);
        CHECK_EQUAL(four[0], SME_X_COUNT);
        CHECK_EQUAL(four[1], SME_Z_BYTES(largest_vector_bytes));
        CHECK_EQUAL(four[2], SME_P_BYTES(largest_vector_bytes));
        CHECK_EQUAL(four[3], SME_ZA_BYTES(largest_vector_bytes));
    } else {
        CHECK(memcmp(before, lengths.bytes, sizeof before) == 0);
    }
    seen[MEASURE][answer]++;
    guarded_free(&lengths);
    return answer;
}

static void measure_one(uint64_t vector_bytes)
{
    const uint32_t answer = measure_within(vector_bytes, vector_bytes, 0);
    uint64_t old[4] = {5, 5, 5, 5};
    CHECK_EQUAL(sme_lengths(vector_bytes, old), answer);
    CHECK_EQUAL(old[3], answer == SME_DONE ? SME_ZA_BYTES(vector_bytes) : 5);
}

/* Each of these numbers as vector length with each as the largest one. */
static void pair_tests(void)
{
    static const uint64_t numbers[] = {0,   1,   8,   15,  16,  17,  31,  32,  33,  48,  64,
                                       65,  96,  127, 128, 129, 192, 255, 256, 257, 512, 1024,
                                       UINT64_C(1) << 32, UINT64_C(1) << 32 | 64, UINT64_C(1) << 32 | 256,
                                       UINT64_C(1) << 63, UINT64_MAX - 15, UINT64_MAX};
    for (size_t i = 0; i < sizeof numbers / sizeof numbers[0]; i++) {
        for (size_t j = 0; j < sizeof numbers / sizeof numbers[0]; j++) {
            for (uint64_t level = 0; level <= 4; level++) {
                check_within(numbers[i], numbers[j], level);
            }
            measure_within(numbers[i], numbers[j], 3);
            measure_within(numbers[i], numbers[j], UINT64_MAX);
        }
    }
}

void settings_tests(void)
{
    static const uint64_t large[] = {4, 255, 256, 259, UINT64_C(1) << 32, (UINT64_C(1) << 32) + 16, UINT64_MAX};
    for (uint64_t vector_bytes = 0; vector_bytes <= 520; vector_bytes++) {
        for (uint64_t level = 0; level <= 5; level++) {
            check_one(vector_bytes, level);
        }
        for (size_t i = 0; i < sizeof large / sizeof large[0]; i++) {
            check_one(vector_bytes, large[i]);
        }
        measure_one(vector_bytes);
    }
    for (size_t i = 0; i < sizeof large / sizeof large[0]; i++) {
        check_one(large[i], 3);
        measure_one(large[i]);
    }
    pair_tests();
    /* 01's literal numbers for 32-byte vectors, so that the macros are not their own judge */
    CHECK_EQUAL(SME_X_COUNT, 32);
    CHECK_EQUAL(SME_Z_BYTES(32), 1024);
    CHECK_EQUAL(SME_P_BYTES(32), 64);
    CHECK_EQUAL(SME_ZA_BYTES(32), 1024);
}
