/*
 * sme_run_listing: every answer as the one that stops a run, with what was done before it; what is checked before any
 * word; every kind of allowance; and listings of every place and length. b and `apart` are as in execute_tests.c. What
 * single words do is held to the rules there.
 */
#include "check.h"
#include "listing.h"
#include "sparse.h"

#include <string.h>

#define TWO_TO_16 (UINT64_C(1) << 16)
#define TWO_TO_32 (UINT64_C(1) << 32)

/*
 * Words that are done, most of which move what one before them has written: a byte row from register 0; a column to
 * register 1; the row to memory; some elements of register 1 to the next row; memory to another row; the first row to
 * register 0, and then zero; two vectors of the array to registers, and then zero; register 0 to a row.
 */
static const uint32_t done[] = {0xC0000000, 0xC0028001, 0xE0220020, 0xC0000421,
                                0xE0020023, 0xC0020200, 0xC0060A6A, 0xC0000002};

enum { DONE_WORDS = sizeof done / sizeof done[0] };

/* No instruction, a store by the stack pointer, and one that memory has not all elements of. */
#define NO_WORD UINT32_C(0xC0000010)
#define BY_STACK UINT32_C(0xE03F03E0)
#define TOO_FAR UINT32_C(0xE0240020)

/* How many bytes memory has behind the vector that is stored, and how many of the other store's elements are outside. */
enum { BEHIND = 64, OUTSIDE = 3 };

static machine machine_for(uint64_t b, uint64_t apart)
{
    machine made = machine_within(b, apart, b + BEHIND);
    set_x(&made, 1, 0x1000);
    set_x(&made, 2, 5);
    set_x(&made, 4, BEHIND + OUTSIDE);
    set_x(&made, 8, b - 2);
    set_x(&made, 12, b + 2);
    set_x(&made, 31, 0x1008);
    set_active(&made, 1, 1, 3);
    return made;
}

/* The results that the store outside memory is wanted to give. */
static void want_stop(machine *own, uint32_t answer)
{
    const uint64_t b = own->settings.vector_bytes;
    if (answer == SME_OUTSIDE_MEMORY) {
        want_outside(own, 0x1000 + b + BEHIND, b - OUTSIDE);
    }
}

static uint64_t lower(uint64_t one, uint64_t other)
{
    return one < other ? one : other;
}

/* A listing whose words are done but for the one at this place, which gets this answer, with every allowance. */
static void stop_at(uint64_t b, uint64_t apart, size_t place, uint32_t word, uint32_t wanted)
{
    uint32_t words[DONE_WORDS + 1];
    memcpy(words, done, place * sizeof words[0]);
    words[place] = word;
    memcpy(words + place + 1, done + place, (DONE_WORDS - place) * sizeof words[0]);
    listing lent = listing_new(words, DONE_WORDS + 1);
    const uint64_t allowances[] = {0, 1, place, place + 1, place + 2, DONE_WORDS + 1, UINT64_MAX};
    for (size_t i = 0; i < sizeof allowances / sizeof allowances[0]; i++) {
        const bool stops = allowances[i] > place;
        machine own = machine_for(b, apart);
        want_stop(&own, stops ? wanted : SME_DONE);
        expect_run(&own, run_of(&lent, allowances[i]), stops ? wanted : SME_DONE, lower(allowances[i], place));
    }
    listing_free(&lent);
}

/* Answers 3, 6 and 7 as the one that stops a run: at the first word, in between and at the last. */
static void stop_tests(uint64_t b, uint64_t apart)
{
    for (size_t place = 0; place <= DONE_WORDS; place++) {
        stop_at(b, apart, place, NO_WORD, SME_UNDECODABLE);
        stop_at(b, apart, place, BY_STACK, SME_STACK_MISALIGNED);
        stop_at(b, apart, place, TOO_FAR, SME_OUTSIDE_MEMORY);
    }
}

/* With a switch off, answer 4 or 5 at the first word, if it is one. */
static void switch_tests(uint64_t b, uint64_t apart)
{
    static const uint32_t starts[] = {0xC0000000, 0xE0220020, NO_WORD};
    for (size_t i = 0; i < 2 * sizeof starts / sizeof starts[0]; i++) {
        const bool streaming = i % 2 == 1;
        const uint32_t words[] = {starts[i / 2], 0xC0000000}, off = streaming ? SME_ZA_OFF : SME_STREAMING_OFF;
        listing lent = listing_new(words, 2);
        for (uint64_t allowance = 0; allowance < 3; allowance++) {
            machine own = machine_for(b, apart);
            own.settings.streaming = streaming;
            own.settings.za_on = false;
            const uint32_t wanted = words[0] == NO_WORD ? SME_UNDECODABLE : off;
            expect_run(&own, run_of(&lent, allowance), allowance == 0 ? SME_DONE : wanted, 0);
        }
        listing_free(&lent);
    }
}

/* Words that are all done: to the end, and to every allowance, of which no bit is lost. */
static void allowance_tests(uint64_t b, uint64_t apart)
{
    static const uint64_t more[] = {TWO_TO_16,     TWO_TO_16 + 3,       TWO_TO_32,     TWO_TO_32 - 1,
                                    TWO_TO_32 + 1, TWO_TO_32 + 3,       UINT64_MAX,    UINT64_MAX - 1,
                                    UINT64_C(1) << 62, UINT64_C(1) << 63, INT64_MAX, (UINT64_C(1) << 63) + 3};
    listing lent = listing_new(done, DONE_WORDS);
    for (uint64_t allowance = 0; allowance <= 4 * DONE_WORDS; allowance++) {
        machine own = machine_for(b, apart);
        expect_run(&own, run_of(&lent, allowance), SME_DONE, lower(allowance, DONE_WORDS));
    }
    for (size_t i = 0; i < sizeof more / sizeof more[0]; i++) {
        machine own = machine_for(b, apart);
        expect_run(&own, run_of(&lent, more[i]), SME_DONE, DONE_WORDS);
    }
    listing_free(&lent);
}

/* The runs that are tried with settings or lengths that are not right: none, some or all words, whole and cut. */
static const struct {
    size_t bytes;
    uint64_t allowance;
} tried[] = {{0, 0}, {0, 1}, {0, UINT64_MAX}, {4, 0}, {8, 0}, {8, 1}, {8, UINT64_MAX}, {1, 0}, {7, 0}, {7, 1}, {7, 9}};

enum { TRIED = sizeof tried / sizeof tried[0] };

/* Answer 1, also where a buffer has the wrong length too or the listing is cut. */
static void settings_tests_of(uint64_t b, uint64_t apart, size_t bytes, uint64_t allowance)
{
    listing lent = listing_cut(done, bytes);
    const sme_settings wrong[] = {
        sme_settings_within(b, apart, 4), sme_settings_within(b + 1, apart, 3), sme_settings_within(b, apart + 1, 3),
        sme_settings_within(b, 0, 3), sme_settings_within(2 * apart, apart, 3), sme_settings_within(b, apart, UINT64_MAX)};
    for (size_t i = 0; i < sizeof wrong / sizeof wrong[0]; i++) {
        machine own = machine_for(b, apart);
        sme_buffers buffers = lend(&own);
        own.settings = wrong[i];
        buffers.x_count -= i % 2;
        expect_run_lent(&own, buffers, run_of(&lent, allowance), SME_BAD_SETTINGS, 0);
    }
    listing_free(&lent);
}

/* Answer 2, also where the listing is cut: each length by one item too short, and memory that ends above 2^64. */
static void length_tests_of(uint64_t b, uint64_t apart, size_t bytes, uint64_t allowance)
{
    listing lent = listing_cut(done, bytes);
    for (int wrong = 0; wrong < 5; wrong++) {
        machine own = machine_for(b, apart);
        sme_buffers buffers = lend(&own);
        size_t *each[] = {&buffers.x_count, &buffers.z_bytes, &buffers.p_bytes, &buffers.za_bytes};
        if (wrong < 4) {
            *each[wrong] -= 1;
        } else {
            own.settings.memory_address = UINT64_C(0) - buffers.memory_bytes + 1;
        }
        expect_run_lent(&own, buffers, run_of(&lent, allowance), SME_BAD_LENGTHS, 0);
    }
    listing_free(&lent);
}

/* Answer 9, whatever the allowance, and whatever the words before the cut one and the switches. */
static void cut_tests(uint64_t b, uint64_t apart)
{
    static const size_t cut[] = {1, 2, 3, 5, 6, 7, 4 * DONE_WORDS - 3, 4 * DONE_WORDS - 1};
    static const uint64_t allowances[] = {0, 1, 2, DONE_WORDS, TWO_TO_32, UINT64_MAX};
    static const uint32_t none[DONE_WORDS] = {NO_WORD};
    for (size_t i = 0; i < sizeof cut / sizeof cut[0]; i++) {
        for (size_t j = 0; j < sizeof allowances / sizeof allowances[0]; j++) {
            const size_t state = (i + j) % 3;
            listing lent = listing_cut(state == 0 ? none : done, cut[i]);
            machine own = machine_for(b, apart);
            own.settings.streaming = own.settings.za_on = state != 1;
            expect_run(&own, run_of(&lent, allowances[j]), SME_BAD_LISTING, 0);
            listing_free(&lent);
        }
    }
}

/* No words: done, whatever the switches, the level and the allowance; and where the bytes are not NULL. */
static void empty_tests(uint64_t b, uint64_t apart)
{
    listing none = listing_new(done, 0), some = listing_new(done, 1);
    const listing at_some = {some.pages, some.bytes, 0};
    for (uint64_t i = 0; i < 12; i++) {
        machine own = machine_for(b, apart);
        own.settings.streaming = i % 2 == 1;
        own.settings.za_on = i / 2 % 2 == 1;
        own.settings.level = i / 4;
        expect_run(&own, run_of(i % 3 == 0 ? &at_some : &none, i % 4 == 3 ? UINT64_MAX : i % 4), SME_DONE, 0);
    }
    listing_free(&none);
    listing_free(&some);
}

/* Three words that get this answer, with so many places for results; what is behind the places is not touched. */
static void results_of(uint64_t b, uint32_t wanted, size_t places)
{
    const bool last_refused = wanted == SME_UNDECODABLE || wanted == SME_STACK_MISALIGNED || wanted == SME_OUTSIDE_MEMORY;
    const uint32_t refused = wanted == SME_UNDECODABLE ? NO_WORD : wanted == SME_OUTSIDE_MEMORY ? TOO_FAR : BY_STACK;
    const uint32_t words[] = {done[0], done[4], last_refused ? refused : done[7]};
    listing lent = listing_cut(words, wanted == SME_BAD_LISTING ? 11 : 12);
    machine own = machine_for(b, b);
    own.settings.level = wanted == SME_BAD_SETTINGS ? 4 : 3;
    own.settings.memory_address = wanted == SME_BAD_LENGTHS ? UINT64_MAX : 0x1000;
    own.settings.streaming = wanted != SME_STREAMING_OFF;
    own.settings.za_on = wanted != SME_ZA_OFF;
    want_stop(&own, wanted);
    expect_run(&own, (run){&lent, SME_ALLOWANCE_ALL, places}, wanted, wanted == SME_DONE ? 3 : last_refused ? 2 : 0);
    listing_free(&lent);
}

/* Every answer with every number of places: none, too few, as many as there are results, and more. */
static void results_tests(uint64_t b)
{
    for (size_t places = 0; places <= SME_RESULT_COUNT + 2; places++) {
        for (uint32_t answer = SME_DONE; answer <= SME_OUTSIDE_MEMORY; answer++) {
            results_of(b, answer, places);
        }
        results_of(b, SME_BAD_LISTING, places);
    }
}

/* From bytes of every alignment. */
static void alignment_tests(uint64_t b, uint64_t apart)
{
    for (size_t i = 0; i < 4 * DONE_WORDS; i++) {
        const size_t count = i / 4 + 1;
        listing lent = listing_unaligned(done, count, i % 4);
        machine own = machine_for(b, apart);
        expect_run(&own, run_of(&lent, UINT64_MAX), SME_DONE, count);
        listing_free(&lent);
    }
}

/* More words than 16 bits count, of which the last is refused. */
static void long_tests(void)
{
    enum { WORDS = 70000 };
    static const uint64_t allowances[] = {0, 65535, 65536, 65537, WORDS - 1, WORDS, UINT64_MAX};
    static uint32_t words[WORDS];
    for (size_t i = 0; i < WORDS; i++) {
        words[i] = done[i % DONE_WORDS];
    }
    words[WORDS - 1] = TOO_FAR;
    listing lent = listing_new(words, WORDS), all_done = listing_new(words, WORDS - 1);
    for (size_t i = 0; i < sizeof allowances / sizeof allowances[0]; i++) {
        const bool stops = allowances[i] >= WORDS;
        machine own = machine_for(16, 32);
        want_stop(&own, stops ? SME_OUTSIDE_MEMORY : SME_DONE);
        expect_run(&own, run_of(&lent, allowances[i]), stops ? SME_OUTSIDE_MEMORY : SME_DONE,
                   lower(allowances[i], WORDS - 1));
    }
    machine own = machine_for(16, 16);
    expect_run(&own, run_of(&all_done, UINT64_MAX), SME_DONE, WORDS - 1);
    listing_free(&lent);
    listing_free(&all_done);
}

/* Three words that are done, then zeros, of which no word is made: so many bytes more than a power of two. */
static void far_tests(uint64_t power)
{
    static const size_t places[SPARSE_WINDOWS] = {0};
    for (size_t more = 0; more <= 8; more++) {
        sparse bytes = sparse_new(power + more, places);
        for (size_t i = 0; i < 16; i++) {
            bytes.bytes[i] = (uint8_t)(i < 12 ? done[i / 4] >> 8 * (i % 4) : 0);
        }
        const listing lent = {.bytes = bytes.bytes, .length = bytes.length};
        for (uint64_t allowance = 0; allowance <= 4; allowance++) {
            machine own = machine_for(16, 16);
            if (more % 4 != 0) {
                expect_run(&own, run_of(&lent, allowance), SME_BAD_LISTING, 0);
            } else {
                expect_run(&own, run_of(&lent, allowance), allowance == 4 ? SME_UNDECODABLE : SME_DONE,
                           lower(allowance, 3));
            }
        }
        sparse_free(&bytes);
    }
}

void listing_tests(void)
{
    for (uint64_t b = SME_MIN_VECTOR_BYTES; b <= SME_MAX_VECTOR_BYTES; b *= 2) {
        for (uint64_t apart = b; apart <= SME_MAX_VECTOR_BYTES; apart *= 2) {
            allowance_tests(b, apart);
            stop_tests(b, apart);
            switch_tests(b, apart);
            for (size_t i = 0; i < TRIED; i++) {
                settings_tests_of(b, apart, tried[i].bytes, tried[i].allowance);
                length_tests_of(b, apart, tried[i].bytes, tried[i].allowance);
            }
            cut_tests(b, apart);
            empty_tests(b, apart);
            alignment_tests(b, apart);
        }
        results_tests(b);
    }
    long_tests();
    far_tests(TWO_TO_16);
    far_tests(4 * TWO_TO_16);
    far_tests(TWO_TO_32);
    far_tests(4 * TWO_TO_32);
}
