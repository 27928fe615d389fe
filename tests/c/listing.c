#include "listing.h"
#include "check.h"

#include <string.h>

/* The most places for results that a run is given. */
enum { MOST_PLACES = SME_RESULT_COUNT + 2 };

static void write_words(uint8_t *to, const uint32_t *words, size_t bytes)
{
    for (size_t i = 0; i < bytes; i++) {
        to[i] = (uint8_t)(words[i / 4] >> 8 * (i % 4));
    }
}

/* The bytes from `from` on of a buffer that has some beside them. */
static listing listing_in(guarded pages, size_t from, const uint32_t *words, size_t bytes)
{
    listing made = {pages, bytes == 0 ? NULL : pages.bytes + from, bytes};
    write_words(pages.bytes + from, words, bytes);
    guarded_read_only(&made.pages);
    return made;
}

listing listing_cut(const uint32_t *words, size_t bytes)
{
    return listing_in(guarded_new(bytes, 77), 0, words, bytes);
}

listing listing_new(const uint32_t *words, size_t count)
{
    return listing_cut(words, 4 * count);
}

/* Pages begin and end at multiples of four: the spare bytes are between the listing and the page that it would touch. */
listing listing_unaligned(const uint32_t *words, size_t count, size_t past)
{
    const size_t spare = guarded_touch_front ? past : 4 - past;
    listing made =
        listing_in(guarded_new(4 * count + spare, 77), guarded_touch_front ? spare : 0, words, 4 * count);
    CHECK_EQUAL((uintptr_t)made.bytes % 4, past);
    return made;
}

void listing_free(listing *own)
{
    guarded_free(&own->pages);
}

run run_of(const listing *lent, uint64_t allowance)
{
    return (run){lent, allowance, SME_RESULT_COUNT};
}

static uint32_t word_at(const listing *lent, uint64_t number)
{
    const uint8_t *bytes = lent->bytes + 4 * number;
    return bytes[0] | (uint32_t)bytes[1] << 8 | (uint32_t)bytes[2] << 16 | (uint32_t)bytes[3] << 24;
}

/* Runs word by word on the copies that say what is wanted; results are address and element, and how many were done. */
static uint32_t run_singly(const machine *own, run how, uint64_t results[SME_RESULT_COUNT])
{
    sme_buffers copies = lend(own);
    uint32_t answer = SME_DONE;
    uint64_t words = 0;
    copies.z = own->wanted_z;
    copies.za = own->wanted_za;
    copies.memory = own->wanted_memory;
    while (answer == SME_DONE && words < how.lent->length / 4 && words < how.allowance) {
        answer = sme_settings_execute_results(own->settings, word_at(how.lent, words), copies, results,
                                              SME_RESULT_COUNT);
        words += answer == SME_DONE;
    }
    results[SME_RESULT_WORDS] = words;
    return answer;
}

/* Whether no word is run: all then stays as it was. */
static bool refuses_all(uint32_t answer)
{
    return answer == SME_BAD_SETTINGS || answer == SME_BAD_LENGTHS || answer == SME_BAD_LISTING;
}

/* What the single calls leave is wanted; what they give must be as the test says. */
static void want_run(machine *own, run how, uint32_t wanted, uint64_t words)
{
    uint64_t results[SME_RESULT_COUNT] = {0};
    own->wanted_results[SME_RESULT_WORDS] = words;
    if (!refuses_all(wanted)) {
        CHECK_EQUAL(run_singly(own, how, results), wanted);
    }
    for (size_t i = 0; i < SME_RESULT_COUNT; i++) {
        CHECK_EQUAL(results[i], own->wanted_results[i]);
    }
}

/* Runs with settings of exact length. */
static uint32_t run_guarded(const sme_settings *settings, sme_buffers lent, run how, uint64_t *results)
{
    uint64_t numbers[SME_SETTING_COUNT];
    guarded given = guarded_new(sizeof numbers, 3);
    sme_settings_give(*settings, numbers);
    memcpy(given.bytes, numbers, sizeof numbers);
    guarded_read_only(&given);
    uint32_t answer = sme_run_listing((const uint64_t *)(const void *)given.bytes, SME_SETTING_COUNT, lent.x,
                                      lent.x_count, lent.z, lent.z_bytes, lent.p, lent.p_bytes, lent.za, lent.za_bytes,
                                      lent.memory, lent.memory_bytes, results, how.places, how.lent->bytes,
                                      how.lent->length, how.allowance);
    guarded_free(&given);
    return answer;
}

/* As many results as there are places for are as wanted; numbers behind those that there are stay as they were. */
static void expect_results(const guarded *found, const uint8_t *before, const machine *own)
{
    const size_t known = sizeof own->wanted_results, written = found->length < known ? found->length : known;
    const uint64_t *results = (const uint64_t *)(const void *)found->bytes;
    for (size_t i = 0; i < written / sizeof(uint64_t); i++) {
        CHECK_EQUAL(results[i], own->wanted_results[i]);
    }
    CHECK(memcmp(found->bytes + written, before + written, found->length - written) == 0);
    CHECK(guarded_check(found));
}

void expect_run_lent(machine *own, sme_buffers lent, run how, uint32_t wanted, uint64_t words)
{
    guarded results = guarded_new(how.places * sizeof(uint64_t), 33);
    uint8_t before[MOST_PLACES * sizeof(uint64_t)];
    CHECK(how.places <= MOST_PLACES);
    memcpy(before, results.bytes, results.length);
    want_run(own, how, wanted, words);
    guarded_read_only(&own->x);
    guarded_read_only(&own->p);
    uint32_t answer =
        run_guarded(&own->settings, lent, how, how.places == 0 ? NULL : (uint64_t *)(void *)results.bytes);
    CHECK_EQUAL(answer, wanted);
    expect_results(&results, before, own);
    expect_buffers(own);
    seen[RUN][answer]++;
    guarded_free(&results);
    machine_free(own);
}

void expect_run(machine *own, run how, uint32_t wanted, uint64_t words)
{
    expect_run_lent(own, lend(own), how, wanted, words);
}
