/*
 * Settings and results as arrays of every count, of exact length beside pages that may not be touched: what is missing,
 * what is too much, and what stays.
 */
#include "check.h"
#include "guarded.h"
#include "machine.h"
#include "sme_move.h"

#include <string.h>

enum { MOST = 9, B = 32, LARGEST = 128, FIRST = 0x1001 };

/*
 * A load of memory's first bytes to row 0 of the array, by register 12 (the row) and register 0 or the stack pointer (the
 * base), which is no multiple of 16.
 */
static const uint32_t load = 0xE01F0000, load_by_stack = 0xE01F03E0;

/*
 * The answer of a load with so many numbers of these settings. Where they are missing streaming and the array are off,
 * memory is at 0 and the stack check is on; the sixth number switches it off.
 */
static uint32_t answer_with(uint32_t word, size_t count)
{
    switch (count) {
    case 2:
        return SME_STREAMING_OFF;
    case 3:
        return SME_ZA_OFF;
    case 4:
        return word == load ? SME_OUTSIDE_MEMORY : SME_STACK_MISALIGNED;
    case 5:
        return word == load ? SME_DONE : SME_STACK_MISALIGNED;
    case 6:
    case 7:
        return SME_DONE;
    default:
        return SME_BAD_SETTINGS;
    }
}

/* The largest vector length of settings of so many numbers: the seventh, and where it is missing the vector length. */
static uint64_t largest_with(size_t count)
{
    return count == 7 ? LARGEST : B;
}

/* So many numbers, read only: streaming and the array are on, and the stack check is off, each by any number but 0. */
static guarded given_new(size_t count)
{
    static const uint64_t numbers[MOST] = {B, 1, UINT64_MAX, UINT64_C(1) << 32, FIRST, UINT64_C(1) << 40, LARGEST};
    guarded given = guarded_new(count * sizeof numbers[0], 3);
    memcpy(given.bytes, numbers, given.length);
    guarded_read_only(&given);
    return given;
}

static const uint64_t *numbers_of(const guarded *array)
{
    return array->length == 0 ? NULL : (const uint64_t *)(const void *)array->bytes;
}

/* Hands over so many settings and places for results: with a word by itself, or as a listing of that word. */
static uint32_t execute(const guarded *given, size_t count, sme_buffers lent, uint64_t *results, size_t places,
                        uint32_t word, bool listed)
{
    const uint8_t listing[] = {(uint8_t)word, (uint8_t)(word >> 8), (uint8_t)(word >> 16), (uint8_t)(word >> 24)};
    if (listed) {
        return sme_run_listing(numbers_of(given), count, lent.x, lent.x_count, lent.z, lent.z_bytes, lent.p,
                               lent.p_bytes, lent.za, lent.za_bytes, lent.memory, lent.memory_bytes, results, places,
                               listing, sizeof listing, SME_ALLOWANCE_ALL);
    }
    return sme_execute_word(numbers_of(given), count, lent.x, lent.x_count, lent.z, lent.z_bytes, lent.p, lent.p_bytes,
                            lent.za, lent.za_bytes, lent.memory, lent.memory_bytes, results, places, word);
}

/*
 * Executes a load with so many settings and so many places for results. Element 0 is not active, so that element 1 is the
 * first that can be outside memory. Places behind the results that there are, three for a listing and two for a word, stay
 * as they are.
 */
static void execute_with(uint32_t word, size_t count, size_t places, bool listed)
{
    guarded given = given_new(count), results = guarded_new(places * sizeof(uint64_t), 60);
    uint8_t wanted[MOST * sizeof(uint64_t)];
    memcpy(wanted, results.bytes, results.length);
    machine own = machine_within(B, largest_with(count), 64);
    set_x(&own, 0, FIRST);
    set_x(&own, 31, FIRST);
    set_x(&own, 12, 0);
    own.p.bytes[0] = 0xFE;
    uint64_t *written = places == 0 ? NULL : (uint64_t *)(void *)results.bytes;
    uint32_t answer = execute(&given, count, lend(&own), written, places, word, listed);
    CHECK_EQUAL(answer, answer_with(word, count));
    const bool outside = answer == SME_OUTSIDE_MEMORY;
    const uint64_t known[] = {outside ? FIRST + 1 : 0, outside ? 1 : 0, answer == SME_DONE ? 1 : 0};
    const size_t has = listed ? 3 : 2;
    memcpy(wanted, known, (places < has ? places : has) * sizeof known[0]);
    CHECK(guarded_check(&results) && memcmp(results.bytes, wanted, results.length) == 0);
    const bool moved = own.za.bytes[0] == 0 && memcmp(own.za.bytes + 1, own.memory.bytes + 1, B - 1) == 0;
    CHECK_EQUAL(moved, answer == SME_DONE);
    CHECK(moved || memcmp(own.za.bytes, own.wanted_za, own.za.length) == 0);
    seen[listed ? RUN : EXECUTE][answer]++;
    machine_free(&own);
    guarded_free(&given);
    guarded_free(&results);
}

/* The vector length and the level are the same ones with any count that has both. */
static void check_with(size_t count)
{
    guarded given = given_new(count);
    const uint32_t wanted = count >= 2 && count <= 7 ? SME_DONE : SME_BAD_SETTINGS;
    uint64_t four[4] = {1, 2, 3, 4};
    CHECK_EQUAL(sme_check(numbers_of(&given), count), wanted);
    CHECK_EQUAL(sme_measure(numbers_of(&given), count, four), wanted);
    CHECK_EQUAL(four[0], wanted == SME_DONE ? SME_X_COUNT : 1);
    CHECK_EQUAL(four[1], wanted == SME_DONE ? SME_Z_BYTES(largest_with(count)) : 2);
    CHECK_EQUAL(four[2], wanted == SME_DONE ? SME_P_BYTES(largest_with(count)) : 3);
    CHECK_EQUAL(four[3], wanted == SME_DONE ? SME_ZA_BYTES(largest_with(count)) : 4);
    /* so many more are never those of the low bits of the count */
    for (int bit = 16; bit <= 32; bit += 16) {
        const size_t more = count + ((size_t)1 << bit);
        CHECK_EQUAL(sme_check(numbers_of(&given), more), SME_BAD_SETTINGS);
        CHECK_EQUAL(sme_measure(numbers_of(&given), more, four), SME_BAD_SETTINGS);
    }
    seen[CHECK_SETTINGS][wanted]++;
    seen[MEASURE][wanted]++;
    guarded_free(&given);
}

void count_tests(void)
{
    for (size_t count = 0; count <= MOST; count++) {
        check_with(count);
        for (size_t places = 0; places <= MOST; places++) {
            for (int listed = 0; listed < 2; listed++) {
                execute_with(load, count, places, listed == 1);
                execute_with(load_by_stack, count, places, listed == 1);
            }
        }
    }
}
