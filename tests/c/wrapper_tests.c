/*
 * What the header itself does: settings as a record, each item changed from every state of the others, and as an array;
 * as many results as are asked for, of a word and of a listing; its version beside the archive's; and the words of each
 * answer.
 */
#include "check.h"
#include "machine.h"
#include "sme_move.h"

#include <string.h>

static void expect_settings(sme_settings found, sme_settings wanted)
{
    CHECK_EQUAL(found.vector_bytes, wanted.vector_bytes);
    CHECK_EQUAL(found.level, wanted.level);
    CHECK_EQUAL(found.streaming, wanted.streaming);
    CHECK_EQUAL(found.za_on, wanted.za_on);
    CHECK_EQUAL(found.memory_address, wanted.memory_address);
    CHECK_EQUAL(found.stack_check_off, wanted.stack_check_off);
    CHECK_EQUAL(found.largest_vector_bytes, wanted.largest_vector_bytes);
}

static const uint64_t numbers[] = {0, 1, 2, 3, 77, 128, UINT64_C(1) << 32, UINT64_MAX};

enum { NUMBERS = sizeof numbers / sizeof numbers[0] };

/* Any numbers, allowed or not: they are only kept. */
static void new_tests(void)
{
    for (size_t i = 0; i < NUMBERS; i++) {
        for (size_t j = 0; j < NUMBERS; j++) {
            sme_settings wanted = {.vector_bytes = numbers[i], .level = numbers[j], .streaming = false, .za_on = false,
                                   .memory_address = 0, .stack_check_off = false, .largest_vector_bytes = numbers[i]};
            expect_settings(sme_settings_new(numbers[i], numbers[j]), wanted);
            for (size_t k = 0; k < NUMBERS; k++) {
                wanted.largest_vector_bytes = numbers[k];
                expect_settings(sme_settings_within(numbers[i], numbers[k], numbers[j]), wanted);
            }
        }
    }
}

/* Each item changed in these settings, to what it was and to what it was not; all others stay. */
static void with_one(const sme_settings from)
{
    for (int on = 0; on < 2; on++) {
        sme_settings wanted = from;
        wanted.streaming = on == 1;
        expect_settings(sme_settings_with_streaming(from, on == 1), wanted);
        wanted = from;
        wanted.za_on = on == 1;
        expect_settings(sme_settings_with_za(from, on == 1), wanted);
        wanted = from;
        wanted.stack_check_off = on == 0;
        expect_settings(sme_settings_with_stack_check(from, on == 1), wanted);
    }
    for (size_t i = 0; i < NUMBERS; i++) {
        sme_settings wanted = from;
        wanted.memory_address = numbers[i];
        expect_settings(sme_settings_with_memory_address(from, numbers[i]), wanted);
    }
}

/* From both states of each switch, with no other item as sme_settings_new makes it. */
static void with_tests(void)
{
    for (int switches = 0; switches < 8; switches++) {
        with_one((sme_settings){.vector_bytes = 64, .level = 2, .streaming = switches % 2 == 1,
                                .za_on = switches / 2 % 2 == 1, .memory_address = UINT64_C(0xFEDCBA9876543210),
                                .stack_check_off = switches / 4 == 1, .largest_vector_bytes = 128});
        with_one((sme_settings){.vector_bytes = UINT64_MAX, .level = 9, .streaming = switches % 2 == 1,
                                .za_on = switches / 2 % 2 == 1, .memory_address = 1,
                                .stack_check_off = switches / 4 == 1, .largest_vector_bytes = 5});
    }
}

/* Each setting in its place. */
static void give_tests(void)
{
    for (int switches = 0; switches < 8; switches++) {
        const sme_settings settings = {.vector_bytes = 64, .level = 2, .streaming = switches % 2 == 1,
                                       .za_on = switches / 2 % 2 == 1, .memory_address = UINT64_C(0xFEDCBA9876543210),
                                       .stack_check_off = switches / 4 == 1,
                                       .largest_vector_bytes = UINT64_C(0x123456789ABCDEF0)};
        const uint64_t wanted[] = {64, 2, (uint64_t)switches % 2, (uint64_t)switches / 2 % 2,
                                   UINT64_C(0xFEDCBA9876543210), (uint64_t)switches / 4,
                                   UINT64_C(0x123456789ABCDEF0)};
        uint64_t given[SME_SETTING_COUNT];
        CHECK_EQUAL(sizeof given, sizeof wanted);
        sme_settings_give(settings, given);
        CHECK(memcmp(given, wanted, sizeof wanted) == 0);
    }
}

/* What stands in places for results before a call. */
enum { UNWRITTEN = 77 };

/* Places for results, one more than there are. */
typedef struct places {
    uint64_t found[SME_RESULT_COUNT + 1];
} places;

static places places_new(void)
{
    places made;
    for (size_t i = 0; i <= SME_RESULT_COUNT; i++) {
        made.found[i] = UNWRITTEN;
    }
    return made;
}

/* The first `lent` places are written with these results, and the others stay. */
static void expect_results(const places *own, size_t lent, uint64_t address, uint64_t element, uint64_t words)
{
    CHECK_EQUAL(own->found[SME_RESULT_ADDRESS], lent > SME_RESULT_ADDRESS ? address : UNWRITTEN);
    CHECK_EQUAL(own->found[SME_RESULT_ELEMENT], lent > SME_RESULT_ELEMENT ? element : UNWRITTEN);
    CHECK_EQUAL(own->found[SME_RESULT_WORDS], lent > SME_RESULT_WORDS ? words : UNWRITTEN);
    CHECK_EQUAL(own->found[SME_RESULT_COUNT], UNWRITTEN);
}

/* Executes by the wrapper that lends so many places, and by the one that lends one; no word writes the words' place. */
static void execute_by_each(const machine *own, uint32_t word, uint32_t wanted, uint64_t address, uint64_t element)
{
    for (size_t lent = 0; lent <= SME_RESULT_COUNT + 1; lent++) {
        places all = places_new();
        CHECK_EQUAL(sme_settings_execute_results(own->settings, word, lend(own), all.found, lent), wanted);
        expect_results(&all, lent, address, element, UNWRITTEN);
    }
    places one = places_new();
    CHECK_EQUAL(sme_settings_execute(own->settings, word, lend(own), one.found), wanted);
    expect_results(&one, 1, address, element, UNWRITTEN);
}

/*
 * A load of 4-byte elements by registers 1 and 2 with memory for two and a half of them: refused for element 2 or, where
 * that is not active, for element 3; and with the array off for no element.
 */
static void results_tests(void)
{
    const uint32_t load = 0xE0820020;
    machine own = machine_new(16, 10);
    set_x(&own, 1, 0x1000);
    set_x(&own, 2, 0);
    execute_by_each(&own, load, SME_OUTSIDE_MEMORY, 0x100A, 2);
    own.p.bytes[1] = 0x10;
    execute_by_each(&own, load, SME_OUTSIDE_MEMORY, 0x100C, 3);
    own.settings.za_on = false;
    execute_by_each(&own, load, SME_ZA_OFF, 0, 0);
    machine_free(&own);
}

/* Runs so many bytes of a listing with every number of places. */
static void run_by_each(const machine *own, const uint8_t *listing, size_t bytes, uint64_t allowance, uint32_t wanted,
                        uint64_t address, uint64_t element, uint64_t words)
{
    for (size_t lent = 0; lent <= SME_RESULT_COUNT + 1; lent++) {
        places all = places_new();
        CHECK_EQUAL(sme_settings_run(own->settings, listing, bytes, allowance, lend(own), all.found, lent), wanted);
        expect_results(&all, lent, address, element, words);
    }
}

/* Two loads to rows by registers 1 and 2, the second of which is refused for element 2, then one that is done. */
static void run_tests(void)
{
    static const uint8_t listing[] = {0x20, 0x00, 0x03, 0xE0, 0x20, 0x00, 0x82, 0xE0, 0x21, 0x00, 0x03, 0xE0};
    machine own = machine_new(16, 26);
    set_x(&own, 1, 0x1000);
    set_x(&own, 2, 4);
    set_x(&own, 3, 1);
    set_x(&own, 12, 0);
    run_by_each(&own, listing, sizeof listing, SME_ALLOWANCE_ALL, SME_OUTSIDE_MEMORY, 0x101A, 2, 1);
    run_by_each(&own, listing, sizeof listing, 2, SME_OUTSIDE_MEMORY, 0x101A, 2, 1);
    run_by_each(&own, listing, sizeof listing, 1, SME_DONE, 0, 0, 1);
    run_by_each(&own, listing, sizeof listing, 0, SME_DONE, 0, 0, 0);
    run_by_each(&own, listing + 8, 4, SME_ALLOWANCE_ALL, SME_DONE, 0, 0, 1);
    run_by_each(&own, listing, sizeof listing - 1, SME_ALLOWANCE_ALL, SME_BAD_LISTING, 0, 0, 0);
    run_by_each(&own, NULL, 0, SME_ALLOWANCE_ALL, SME_DONE, 0, 0, 0);
    own.settings = sme_settings_with_za(own.settings, false);
    run_by_each(&own, listing, sizeof listing, SME_ALLOWANCE_ALL, SME_ZA_OFF, 0, 0, 0);
    own.settings.level = 4;
    run_by_each(&own, NULL, 0, 0, SME_BAD_SETTINGS, 0, 0, 0);
    machine_free(&own);
}

/* What the header shows: vector register 0 to a row, no instruction, register 1 to the next row. */
static void shown_tests(void)
{
    static const uint8_t listing[] = {0x00, 0x00, 0x00, 0xC0, 0x10, 0x00, 0x00, 0xC0, 0x21, 0x00, 0x00, 0xC0};
    machine own = machine_new(16, 0);
    set_x(&own, 12, 5);
    const sme_buffers buffers = lend(&own);
    uint64_t results[SME_RESULT_COUNT];
    memcpy(own.wanted_za + 5 * 16, own.z.bytes, 16);
    CHECK_EQUAL(sme_settings_run(own.settings, listing, sizeof listing, SME_ALLOWANCE_ALL, buffers, results,
                                 SME_RESULT_COUNT),
                SME_UNDECODABLE);
    CHECK_EQUAL(results[SME_RESULT_WORDS], 1);
    expect_buffers(&own);
    const size_t next = 4 * (size_t)results[SME_RESULT_WORDS] + 4;
    memcpy(own.wanted_za + 6 * 16, own.z.bytes + 16, 16);
    CHECK_EQUAL(sme_settings_run(own.settings, listing + next, sizeof listing - next, SME_ALLOWANCE_ALL, buffers, results,
                                 SME_RESULT_COUNT),
                SME_DONE);
    CHECK_EQUAL(results[SME_RESULT_WORDS], 1);
    expect_buffers(&own);
    CHECK_EQUAL(SME_ALLOWANCE_ALL, UINT64_MAX);
    machine_free(&own);
}

/* The archive's version is the header's. The one before does not serve it; the next, and the next major one, do. */
static void version_tests(void)
{
    CHECK_EQUAL(SME_MOVE_VERSION, 65536 * SME_MOVE_VERSION_MAJOR + SME_MOVE_VERSION_MINOR);
    CHECK_EQUAL(sme_version(), SME_MOVE_VERSION);
    CHECK(sme_version_serves(sme_version()));
    CHECK(!sme_version_serves(SME_MOVE_VERSION - 1));
    CHECK(sme_version_serves(SME_MOVE_VERSION + 1));
    CHECK(sme_version_serves(65536 * (SME_MOVE_VERSION_MAJOR + 1)));
}

/* By number, as hosts get it. */
static const char *const texts[ANSWERS] = {
    [0] = "done",
    [1] = "a vector length or the level is not allowed",
    [2] = "a buffer has the wrong length, or memory ends above 2^64",
    [3] = "the word is no instruction of this level",
    [4] = "streaming mode is off",
    [5] = "the array is off",
    [6] = "the stack pointer is no multiple of 16",
    [7] = "an address is not in memory",
    [8] = "no word encodes this operation, or no element has so many bytes",
    [9] = "the listing is not made of whole words",
    [13] = "no tile of this size is free",
    [16] = "a held tile does not exist, two share a byte, or the tile is not held",
};

static void expect_text(uint32_t answer, const char *wanted)
{
    const char *found = sme_answer_text(answer);
    if (strcmp(found, wanted) != 0) {
        fprintf(stderr, "%s:%d: answer %u is '%s', should be '%s'\n", __FILE__, __LINE__, (unsigned)answer, found,
                wanted);
        exit(1);
    }
}

static void text_tests(void)
{
    static const char none[] = "no answer of this version";
    for (uint32_t answer = 0; answer < ANSWERS; answer++) {
        expect_text(answer, texts[answer] != NULL ? texts[answer] : none);
    }
    for (uint32_t bit = 1 << 5; bit != 0; bit <<= 1) {
        expect_text(bit, none);
        expect_text(bit | SME_ZA_OFF, none);
    }
    expect_text(ANSWERS, none);
    expect_text(UINT32_MAX, none);
}

void wrapper_tests(void)
{
    new_tests();
    with_tests();
    give_tests();
    results_tests();
    run_tests();
    shown_tests();
    version_tests();
    text_tests();
}
