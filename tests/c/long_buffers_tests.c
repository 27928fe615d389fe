/*
 * Vectors of every length in buffers that are laid out for each longer one. A word does there what it does in buffers of
 * its own length, which the other tests hold to the rules; what is beyond stays, and counts for nothing.
 */
#include "check.h"
#include "machine.h"

#include <string.h>

/* What words here go by: the predicate, and the registers of index (tiles and array), base, offset and stack pointer. */
enum { PREDICATE = 5, INDEX = 13, ARRAY_INDEX = 9, BASE = 1, OFFSET = 2, STACK = 31 };

/* Copies so many runs of bytes, which start so far apart. */
static void lay_out(uint8_t *to, size_t to_apart, const uint8_t *from, size_t from_apart, size_t bytes, size_t runs)
{
    for (size_t i = 0; i < runs; i++) {
        memcpy(to + i * to_apart, from + i * from_apart, bytes);
    }
}

/* A machine that has in short buffers what this one has within its vector length. */
static machine short_of(const machine *own)
{
    const size_t b = own->settings.vector_bytes, apart = own->settings.largest_vector_bytes;
    machine made = machine_new(b, own->memory.length);
    memcpy(made.x.bytes, own->x.bytes, own->x.length);
    lay_out(made.z.bytes, b, own->z.bytes, apart, b, 32);
    lay_out(made.p.bytes, b / 8, own->p.bytes, apart / 8, b / 8, 16);
    lay_out(made.za.bytes, b, own->za.bytes, apart, b, b);
    return made;
}

/* Executes in short buffers, which must give this answer, and holds the long ones to what came of it. */
static void expect_as_short(machine *own, uint32_t word, uint32_t wanted)
{
    const size_t b = own->settings.vector_bytes, apart = own->settings.largest_vector_bytes;
    machine other = short_of(own);
    uint32_t answer = sme_settings_execute_results(other.settings, word, lend(&other), own->wanted_results,
                                                   SME_RESULT_COUNT);
    CHECK_EQUAL(answer, wanted);
    lay_out(own->wanted_z, apart, other.z.bytes, b, b, 32);
    lay_out(own->wanted_za, apart, other.za.bytes, b, b, b);
    memcpy(own->wanted_memory, other.memory.bytes, other.memory.length);
    machine_free(&other);
    expect(own, word, wanted);
}

/*
 * The index has another remainder at every vector length. Element 0 of a load or store is five elements behind memory's
 * start, or eight bytes further by the stack pointer, which is no multiple of 16.
 */
static machine machine_for(uint64_t b, uint64_t apart, size_t memory_bytes)
{
    machine made = machine_within(b, apart, memory_bytes);
    set_x(&made, INDEX, 0x1F7);
    set_x(&made, ARRAY_INDEX, 0x1F7);
    set_x(&made, BASE, 0x1000);
    set_x(&made, OFFSET, 5);
    set_x(&made, STACK, 0x1008);
    return made;
}

/* Leaves the elements active whose numbers are multiples of step, with 0 none, and fills P beyond the vector length. */
static void set_predicates(machine *own, size_t element_bytes, size_t step, uint8_t beyond)
{
    const size_t used = own->settings.vector_bytes / 8, apart = own->settings.largest_vector_bytes / 8;
    for (size_t i = 0; i < 16; i++) {
        memset(own->p.bytes + i * apart + used, beyond, apart - used);
    }
    if (step == 0) {
        memset(own->p.bytes + PREDICATE * apart, 0, used);
    } else {
        set_active(own, PREDICATE, element_bytes, step);
    }
}

static uint32_t encoded(const uint8_t fields[SME_FIELD_COUNT])
{
    uint32_t word;
    CHECK_EQUAL(sme_encode(fields, &word), SME_DONE);
    return word;
}

static bool is_access(enum sme_kind kind)
{
    return kind == SME_KIND_LOAD || kind == SME_KIND_STORE;
}

/* A word for a slice of the last tile. */
static uint32_t tile_word(enum sme_kind kind, size_t m, enum sme_direction direction, uint8_t base)
{
    const uint8_t fields[SME_FIELD_COUNT] = {
        [SME_FIELD_KIND] = (uint8_t)kind,
        [SME_FIELD_ELEMENT_BYTES] = (uint8_t)m,
        [SME_FIELD_DIRECTION] = (uint8_t)direction,
        [SME_FIELD_TILE] = (uint8_t)(m - 1),
        [SME_FIELD_OFFSET] = (uint8_t)(16 / m - 1),
        [SME_FIELD_INDEX_REGISTER] = INDEX,
        [SME_FIELD_PREDICATE] = kind == SME_KIND_MOVE_AND_ZERO_FROM_TILE ? 0 : PREDICATE,
        [SME_FIELD_FIRST_VECTOR_REGISTER] = is_access(kind) ? 0 : 31,
        [SME_FIELD_BASE_REGISTER] = is_access(kind) ? base : 0,
        [SME_FIELD_OFFSET_REGISTER] = is_access(kind) ? OFFSET : 0,
        [SME_FIELD_VECTOR_REGISTERS] = is_access(kind) ? 0 : 1,
    };
    return encoded(fields);
}

/* All elements active, and predicates that have nothing beyond; some or none active, and all bits set beyond. */
static void tile_tests_of(uint64_t b, uint64_t apart, enum sme_kind kind, size_t m, enum sme_direction direction)
{
    static const struct {
        size_t step;
        uint8_t beyond;
    } active[] = {{1, 0}, {3, 0xFF}, {0, 0xFF}};
    const uint32_t word = tile_word(kind, m, direction, BASE);
    for (size_t i = 0; i < sizeof active / sizeof active[0]; i++) {
        machine own = machine_for(b, apart, 5 * m + b);
        set_predicates(&own, m, active[i].step, active[i].beyond);
        expect_as_short(&own, word, SME_DONE);
    }
}

/* Answers 6 and 7 of a load or store: by elements within the vector length only, of which the last is b / m - 1. */
static void access_tests_of(uint64_t b, uint64_t apart, enum sme_kind kind, size_t m, enum sme_direction direction)
{
    const uint32_t word = tile_word(kind, m, direction, BASE), by_stack = tile_word(kind, m, direction, STACK);
    machine own = machine_for(b, apart, 8 + 5 * m + b);
    set_predicates(&own, m, b, 0);
    expect_as_short(&own, by_stack, SME_STACK_MISALIGNED);
    own = machine_for(b, apart, 0);
    set_predicates(&own, m, 0, 0xFF);
    expect_as_short(&own, by_stack, SME_DONE);
    own = machine_for(b, apart, 5 * m + b - 1);
    set_predicates(&own, m, 1, 0);
    expect_as_short(&own, word, SME_OUTSIDE_MEMORY);
    own = machine_for(b, apart, 5 * m + 1);
    set_predicates(&own, m, b, 0xFF);
    expect_as_short(&own, word, m == 1 ? SME_DONE : SME_OUTSIDE_MEMORY);
}

static void array_tests_of(uint64_t b, uint64_t apart, enum sme_kind kind)
{
    for (uint8_t registers = 2; registers <= 4; registers = (uint8_t)(registers * 2)) {
        const uint8_t fields[SME_FIELD_COUNT] = {
            [SME_FIELD_KIND] = (uint8_t)kind,
            [SME_FIELD_OFFSET] = 7,
            [SME_FIELD_INDEX_REGISTER] = ARRAY_INDEX,
            [SME_FIELD_FIRST_VECTOR_REGISTER] = 28,
            [SME_FIELD_VECTOR_REGISTERS] = registers,
        };
        machine own = machine_for(b, apart, 0);
        expect_as_short(&own, encoded(fields), SME_DONE);
    }
}

/* Every kind, element size and direction. */
static void word_tests_of(uint64_t b, uint64_t apart)
{
    static const enum sme_kind kinds[] = {SME_KIND_MOVE_TO_TILE, SME_KIND_MOVE_AND_ZERO_FROM_TILE,
                                          SME_KIND_MOVE_FROM_TILE, SME_KIND_LOAD, SME_KIND_STORE};
    for (size_t i = 0; i < 2 * sizeof kinds / sizeof kinds[0]; i++) {
        const enum sme_direction direction = i % 2 == 0 ? SME_HORIZONTAL : SME_VERTICAL;
        for (size_t m = 1; m <= 16; m *= 2) {
            tile_tests_of(b, apart, kinds[i / 2], m, direction);
            if (is_access(kinds[i / 2])) {
                access_tests_of(b, apart, kinds[i / 2], m, direction);
            }
        }
    }
    array_tests_of(b, apart, SME_KIND_MOVE_FROM_ARRAY);
    array_tests_of(b, apart, SME_KIND_MOVE_AND_ZERO_FROM_ARRAY);
}

/* Answer 2 where Z, P or ZA has the length that b would fix, and in long buffers where b is the largest length itself. */
static void length_tests(uint64_t b, uint64_t apart)
{
    const lengths shorter = right_lengths(b, 16), longer = right_lengths(apart, 16);
    for (int which = 1; which < 8; which++) {
        lengths bytes = longer;
        bytes.z = which & 1 ? shorter.z : longer.z;
        bytes.p = which & 2 ? shorter.p : longer.p;
        bytes.za = which & 4 ? shorter.za : longer.za;
        machine own = machine_with(b, apart, bytes);
        expect(&own, 0xC0000000, SME_BAD_LENGTHS);
    }
    machine own = machine_with(b, b, longer);
    expect(&own, 0xC0000000, SME_BAD_LENGTHS);
}

/*
 * Answer 1, whatever the buffers are laid out for: a largest length that is 0, below b, none of the five, or one of them
 * in its low bits alone.
 */
static void refused_tests(uint64_t b)
{
    const uint64_t refused[] = {0, 1, b / 2, b - 1, b + 1, b + 8, 3 * b, 512, UINT64_C(1) << 16 | b,
                                UINT64_C(1) << 32 | b, UINT64_C(1) << 32 | 256, UINT64_MAX};
    for (size_t i = 0; i < sizeof refused / sizeof refused[0]; i++) {
        for (uint64_t apart = SME_MIN_VECTOR_BYTES; apart <= SME_MAX_VECTOR_BYTES; apart *= 2) {
            machine own = machine_within(b, apart, 16);
            own.settings.largest_vector_bytes = refused[i];
            expect(&own, 0xC0000000, SME_BAD_SETTINGS);
        }
    }
}

void long_buffers_tests(void)
{
    for (uint64_t b = SME_MIN_VECTOR_BYTES; b <= SME_MAX_VECTOR_BYTES; b *= 2) {
        for (uint64_t apart = 2 * b; apart <= SME_MAX_VECTOR_BYTES; apart *= 2) {
            word_tests_of(b, apart);
            length_tests(b, apart);
        }
        refused_tests(b);
    }
}
