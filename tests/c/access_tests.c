/*
 * Loads and stores through sme_execute_word, of every element size at every vector length b and every largest one, so that
 * vectors start `apart` bytes apart. What must not be written stands on pages that can't be: all of it with a refusal,
 * memory with a load, ZA with a store, vector registers always.
 */
#include "access.h"
#include "check.h"

#include <string.h>

/* What makes base and offset register 31, which are the stack pointer and zero. */
enum { ON_STACK = 0x1F03E0 };

/* Element 0 is at this byte of memory, which may be one before it: then unsigned sums wrap to the bytes in it. */
static void expect_done(machine *own, const access *how, uint32_t word, size_t first)
{
    for (size_t e = 0; e < elements(own, how); e++) {
        uint8_t *element = own->wanted_za + place(own, how, e);
        size_t at = first + e * how->m;
        if (how->load && is_active(own, how, e)) {
            memcpy(element, own->memory.bytes + at, how->m);
        } else if (how->load) {
            memset(element, 0, how->m);
        } else if (is_active(own, how, e)) {
            memcpy(own->wanted_memory + at, element, how->m);
        }
    }
    guarded_read_only(&own->z);
    guarded_read_only(how->load ? &own->memory : &own->za);
    expect(own, word, SME_DONE);
}

static void expect_refused(machine *own, uint32_t word, uint32_t wanted)
{
    guarded_read_only(&own->z);
    guarded_read_only(&own->za);
    guarded_read_only(&own->memory);
    expect(own, word, wanted);
}

static void expect_outside(machine *own, uint32_t word, uint64_t address, uint64_t element)
{
    want_outside(own, address, element);
    expect_refused(own, word, SME_OUTSIDE_MEMORY);
}

/* All elements, every third and the first alone, from an odd address; the offset register is times m, and wraps. */
static void done_tests(uint64_t b, uint64_t apart, const access *how)
{
    size_t first = 3 + 5 * how->m;
    size_t steps[] = {1, 3, b};
    for (size_t i = 0; i < sizeof steps / sizeof steps[0]; i++) {
        machine own = machine_at(b, apart, first + b, 0x1003);
        set_x(&own, 2, 5);
        set_active(&own, 0, how->m, steps[i]);
        expect_done(&own, how, how->word, first);
    }
    machine own = machine_at(b, apart, first + b, 0x1003);
    set_x(&own, 2, UINT64_MAX / how->m + 6);
    expect_done(&own, how, how->word, first);
    own = machine_at(b, apart, b, 0);
    set_x(&own, 31, 0x1000);
    expect_done(&own, how, how->word | ON_STACK, 0);
}

/* No element is active: a load zeroes the slice, whatever the stack pointer, and without memory; a store does nothing. */
static void no_active_tests(uint64_t b, uint64_t apart, const access *how)
{
    machine own = machine_at(b, apart, 0, 0);
    set_x(&own, 31, 0x1008);
    for (size_t e = 0; e < elements(&own, how); e++) {
        set_inactive(&own, how, e);
    }
    expect_done(&own, how, how->word | ON_STACK, 0);
}

/* Answers 3 to 6; one active element is enough for 6, and also of settings whose stack check is switched on again. */
static void refused_tests(uint64_t b, uint64_t apart, const access *how)
{
    machine own = machine_at(b, apart, b, 0x1000);
    own.settings.level = 0;
    expect_refused(&own, how->word, SME_UNDECODABLE);
    own = machine_at(b, apart, b, 0x1000);
    own.settings.streaming = own.settings.za_on = false;
    expect_refused(&own, how->word, SME_STREAMING_OFF);
    own = machine_at(b, apart, b, 0x1000);
    own.settings.za_on = false;
    expect_refused(&own, how->word, SME_ZA_OFF);
    own = machine_at(b, apart, b, 0);
    set_x(&own, 31, 0x1008);
    set_active(&own, 0, how->m, b);
    own.settings = sme_settings_with_stack_check(sme_settings_with_stack_check(own.settings, false), true);
    expect_refused(&own, how->word | ON_STACK, SME_STACK_MISALIGNED);
}

/* With the stack check off a misaligned stack pointer is a base like any other: done, or 7 with address and element. */
static void unchecked_tests(uint64_t b, uint64_t apart, const access *how)
{
    machine own = machine_at(b, apart, 8 + b, 0);
    own.settings = sme_settings_with_stack_check(own.settings, false);
    set_x(&own, 31, 0x1008);
    expect_done(&own, how, how->word | ON_STACK, 8);
    own = machine_at(b, apart, b, 0);
    own.settings = sme_settings_with_stack_check(own.settings, false);
    set_x(&own, 31, 0x2001);
    expect_outside(&own, how->word | ON_STACK, 0x2001, 0);
}

/* Answer 7 at the end of memory: it ends after i bytes of the last element, and so carries the address of byte i. */
static void end_tests(uint64_t b, uint64_t apart, const access *how)
{
    for (size_t i = 0; i < how->m; i++) {
        size_t inside = b - how->m + i;
        machine own = machine_at(b, apart, inside, 0x1000);
        expect_outside(&own, how->word, 0x1000 + inside, b / how->m - 1);
        own = machine_at(b, apart, inside, 0x1000);
        set_inactive(&own, how, b / how->m - 1);
        expect_done(&own, how, how->word, 0);
    }
    machine own = machine_at(b, apart, b, 0xFFF);
    expect_outside(&own, how->word, 0xFFF, 0);
    own = machine_at(b, apart, b, 0xFFF);
    set_inactive(&own, how, 0);
    expect_done(&own, how, how->word, SIZE_MAX);
}

/*
 * Answer 7 tells of the lowest-numbered active element with a byte outside, for elements in the middle too. Memory ends
 * within element e, or before it where it is one byte, so that those behind it are outside as well; where e is not active,
 * the next one is told, from its first byte on, though elements before e are active.
 */
static void element_tests(uint64_t b, uint64_t apart, const access *how)
{
    for (size_t e = 0; e < b / how->m; e = 2 * e + 1) {
        size_t inside = e * how->m + how->m / 2;
        machine own = machine_at(b, apart, inside, 0x1000);
        expect_outside(&own, how->word, 0x1000 + inside, e);
        own = machine_at(b, apart, inside, 0x1000);
        set_inactive(&own, how, e);
        if (e + 1 < b / how->m) {
            expect_outside(&own, how->word, 0x1000 + (e + 1) * how->m, e + 1);
        } else {
            expect_done(&own, how, how->word, 0);
        }
    }
}

/*
 * An element that begins before 2^64 and ends after 0 (for bytes: one beside 2^64). With memory at address 0 it is the
 * first, and its first byte is outside; with memory up to 2^64 it is the last, and its byte at address 0 is outside.
 */
static void wrap_tests(uint64_t b, uint64_t apart, const access *how)
{
    uint64_t before = how->m == 1 ? 1 : how->m / 2;
    for (int active = 0; active < 2; active++) {
        machine low = machine_at(b, apart, b, 0 - before);
        low.settings.memory_address = 0;
        machine high = machine_at(b, apart, b, 0 - b + before);
        high.settings.memory_address = 0 - b;
        if (active) {
            expect_outside(&low, how->word, 0 - before, 0);
            expect_outside(&high, how->word, 0, b / how->m - 1);
        } else {
            set_inactive(&low, how, 0);
            expect_done(&low, how, how->word, (size_t)0 - before);
            set_inactive(&high, how, b / how->m - 1);
            expect_done(&high, how, how->word, before);
        }
    }
}

void access_tests(void)
{
    for (size_t i = 0; i < ACCESSES; i++) {
        access how = access_at(i);
        for (uint64_t b = SME_MIN_VECTOR_BYTES; b <= SME_MAX_VECTOR_BYTES; b *= 2) {
            for (uint64_t apart = b; apart <= SME_MAX_VECTOR_BYTES; apart *= 2) {
                done_tests(b, apart, &how);
                no_active_tests(b, apart, &how);
                refused_tests(b, apart, &how);
                unchecked_tests(b, apart, &how);
                end_tests(b, apart, &how);
                element_tests(b, apart, &how);
                wrap_tests(b, apart, &how);
            }
        }
    }
}
