#include "machine.h"
#include "check.h"

#include <string.h>

lengths right_lengths(uint64_t largest_vector_bytes, size_t memory_bytes)
{
    return (lengths){SME_X_COUNT * sizeof(uint64_t), SME_Z_BYTES(largest_vector_bytes),
                     SME_P_BYTES(largest_vector_bytes), SME_ZA_BYTES(largest_vector_bytes), memory_bytes};
}

static uint8_t *copy_of(const guarded *buffer)
{
    uint8_t *copy = malloc(buffer->length + 1);
    CHECK(copy != NULL);
    memcpy(copy, buffer->bytes, buffer->length);
    return copy;
}

machine machine_with(uint64_t vector_bytes, uint64_t largest_vector_bytes, lengths bytes)
{
    machine made;
    made.settings = sme_settings_within(vector_bytes, largest_vector_bytes, 3);
    made.settings = sme_settings_with_streaming(made.settings, true);
    made.settings = sme_settings_with_za(made.settings, true);
    made.settings = sme_settings_with_memory_address(made.settings, 0x1000);
    made.x = guarded_new(bytes.x, 50);
    made.z = guarded_new(bytes.z, 11);
    made.p = guarded_new(bytes.p, 0);
    memset(made.p.bytes, 0xFF, made.p.length);
    made.za = guarded_new(bytes.za, 97);
    made.memory = guarded_new(bytes.memory, 200);
    made.wanted_z = copy_of(&made.z);
    made.wanted_za = copy_of(&made.za);
    made.wanted_memory = copy_of(&made.memory);
    memset(made.wanted_results, 0, sizeof made.wanted_results);
    return made;
}

machine machine_within(uint64_t vector_bytes, uint64_t largest_vector_bytes, size_t memory_bytes)
{
    return machine_with(vector_bytes, largest_vector_bytes, right_lengths(largest_vector_bytes, memory_bytes));
}

machine machine_new(uint64_t vector_bytes, size_t memory_bytes)
{
    return machine_within(vector_bytes, vector_bytes, memory_bytes);
}

void set_x(machine *own, size_t number, uint64_t value)
{
    memcpy(own->x.bytes + number * sizeof value, &value, sizeof value);
}

void set_active(machine *own, size_t predicate, size_t element_bytes, size_t step)
{
    size_t b = own->settings.vector_bytes;
    uint8_t *bits = own->p.bytes + predicate * (own->settings.largest_vector_bytes / 8);
    for (size_t e = 0; e < b / element_bytes; e++) {
        size_t bit = e * element_bytes;
        if (e % step != 0) {
            bits[bit / 8] = (uint8_t)(bits[bit / 8] & ~(1u << bit % 8));
        }
    }
}

void want_outside(machine *own, uint64_t address, uint64_t element)
{
    own->wanted_results[SME_RESULT_ADDRESS] = address;
    own->wanted_results[SME_RESULT_ELEMENT] = element;
}

sme_buffers lend(const machine *own)
{
    sme_buffers buffers;
    buffers.x = (const uint64_t *)(const void *)own->x.bytes;
    buffers.x_count = own->x.length / sizeof(uint64_t);
    buffers.z = own->z.bytes;
    buffers.z_bytes = own->z.length;
    buffers.p = own->p.bytes;
    buffers.p_bytes = own->p.length;
    buffers.za = own->za.bytes;
    buffers.za_bytes = own->za.length;
    buffers.memory = own->memory.length == 0 ? NULL : own->memory.bytes;
    buffers.memory_bytes = own->memory.length;
    return buffers;
}

void machine_free(machine *own)
{
    guarded_free(&own->x);
    guarded_free(&own->z);
    guarded_free(&own->p);
    guarded_free(&own->za);
    guarded_free(&own->memory);
    free(own->wanted_z);
    free(own->wanted_za);
    free(own->wanted_memory);
}

void expect_buffers(const machine *own)
{
    CHECK(guarded_check(&own->z) && guarded_check(&own->za) && guarded_check(&own->memory));
    CHECK(memcmp(own->z.bytes, own->wanted_z, own->z.length) == 0);
    CHECK(memcmp(own->za.bytes, own->wanted_za, own->za.length) == 0);
    CHECK(memcmp(own->memory.bytes, own->wanted_memory, own->memory.length) == 0);
}

void expect(machine *own, uint32_t word, uint32_t wanted)
{
    expect_lent(own, lend(own), word, wanted);
}

/*
 * How many results are asked for: all or, in the run of the tests in which buffers touch the page behind them, one, as by
 * hosts of before version 0.5, which cannot switch the stack check off and have no longer buffers.
 */
static size_t places_for(const sme_settings *settings)
{
    const bool old = !guarded_touch_front && !settings->stack_check_off &&
                     settings->largest_vector_bytes == settings->vector_bytes;
    return old ? 1 : SME_RESULT_COUNT;
}

/* Executes by the wrapper that gives so many results. */
static uint32_t execute(const sme_settings *settings, sme_buffers lent, uint32_t word, uint64_t *results, size_t places)
{
    if (places > 1) {
        return sme_settings_execute_results(*settings, word, lent, results, places);
    }
    return sme_execute(settings->vector_bytes, settings->level, settings->streaming, settings->za_on,
                       settings->memory_address, word, lent.x, lent.x_count, lent.z, lent.z_bytes, lent.p, lent.p_bytes,
                       lent.za, lent.za_bytes, lent.memory, lent.memory_bytes, results);
}

void expect_lent(machine *own, sme_buffers lent, uint32_t word, uint32_t wanted)
{
    const size_t places = places_for(&own->settings);
    guarded given = guarded_new(places * sizeof(uint64_t), 33);
    uint64_t *results = (uint64_t *)(void *)given.bytes;
    guarded_read_only(&own->x);
    guarded_read_only(&own->p);
    if (places > SME_RESULT_WORDS) {
        /* which a word leaves as it was */
        own->wanted_results[SME_RESULT_WORDS] = results[SME_RESULT_WORDS];
    }
    uint32_t answer = execute(&own->settings, lent, word, results, places);
    CHECK_EQUAL(answer, wanted);
    for (size_t i = 0; i < places; i++) {
        CHECK_EQUAL(results[i], own->wanted_results[i]);
    }
    CHECK(guarded_check(&given));
    expect_buffers(own);
    seen[EXECUTE][answer]++;
    guarded_free(&given);
    machine_free(own);
}
