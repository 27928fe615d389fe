/*
 * Sizes that do not fit 16 or 32 bits: buffers that are too long by a power of two, which are refused, memory of more
 * than 2^32 bytes, in which loads and stores go where they should, and long arrays of tiles. A host lends such buffers
 * here without having them: what is behind the real bytes is address space that may not be touched, and memory is
 * sparse.
 */
#include "access.h"
#include "check.h"
#include "sparse.h"

#define TWO_TO_16 (UINT64_C(1) << 16)
#define TWO_TO_32 (UINT64_C(1) << 32)

/* The address of memory, and how long it is: neither is a multiple of a page. */
#define START UINT64_C(0x1234567890)
#define FAR_BYTES (TWO_TO_32 + 3 * TWO_TO_16 + 0x4321)

/* A place beyond 2^32, which is another one modulo 2^32, and again another modulo 2^16. */
#define FAR_PLACE (TWO_TO_32 + TWO_TO_16 + 0x5003)

/*
 * Answer 2 where X, Z, P or ZA has so many items more than it should: those of 2^16 and 2^32, and for X as many as are
 * 2^16 and 2^32 bytes. Each word would be done.
 */
static void length_tests(uint64_t b)
{
    static const uint64_t more[] = {TWO_TO_16 / 8, TWO_TO_16, TWO_TO_32 / 8, TWO_TO_32};
    static const uint32_t words[] = {0xC0000000, 0xC0060A6A, 0xE0020020, 0xE0220020};
    guarded_behind = TWO_TO_32 * sizeof(uint64_t);
    for (size_t i = 0; i < 4 * 4 * 4; i++) {
        machine own = machine_at(b, b, b, 0x1000);
        sme_buffers lent = lend(&own);
        size_t *each[] = {&lent.x_count, &lent.z_bytes, &lent.p_bytes, &lent.za_bytes};
        *each[i / 16] += more[i / 4 % 4];
        expect_lent(&own, lent, words[i % 4], SME_BAD_LENGTHS);
    }
    guarded_behind = 0;
}

/* A load or store whose element 0 is at this place of memory, and windows at the places that it might be taken for. */
static sparse memory_at(size_t first)
{
    const size_t places[SPARSE_WINDOWS] = {first, first % TWO_TO_32, first % TWO_TO_16, 0};
    return sparse_new(FAR_BYTES, places);
}

static sme_buffers lend_far(const machine *own, const sparse *memory)
{
    sme_buffers lent = lend(own);
    lent.memory = memory->bytes;
    lent.memory_bytes = memory->length;
    return lent;
}

/* Executes, and holds the windows of memory to what is wanted. */
static void expect_far(machine *own, sparse *memory, uint32_t word, uint32_t wanted)
{
    expect_lent(own, lend_far(own, memory), word, wanted);
    CHECK(sparse_check(memory));
    sparse_free(memory);
}

/* Memory from this address on: so many of the elements go to their places or come from there, the others are inactive. */
static void expect_far_done(uint64_t b, const access *how, uint64_t address, size_t first, size_t active)
{
    machine own = machine_at(b, b, 0, address + first);
    own.settings.memory_address = address;
    sparse memory = memory_at(first);
    for (size_t e = 0; e < elements(&own, how); e++) {
        uint8_t *element = own.wanted_za + place(&own, how, e);
        if (e >= active) {
            set_inactive(&own, how, e);
        }
        for (size_t i = 0; i < how->m; i++) {
            size_t at = first + e * how->m + i;
            if (how->load) {
                element[i] = e < active ? memory.bytes[at] : 0;
            } else if (e < active) {
                sparse_want(&memory, at, element[i]);
            }
        }
    }
    expect_far(&own, &memory, how->word, SME_DONE);
}

/* An access that begins in memory and ends behind it changes nothing, and tells of the first byte behind and its element. */
static void expect_far_outside(uint64_t b, const access *how, size_t first)
{
    machine own = machine_at(b, b, 0, START + first);
    own.settings.memory_address = START;
    sparse memory = memory_at(first);
    want_outside(&own, START + FAR_BYTES, (FAR_BYTES - first) / how->m);
    expect_far(&own, &memory, how->word, SME_OUTSIDE_MEMORY);
}

/* Memory may end at 2^64, and not one byte above, of which the lowest 32 bits of its length know nothing. */
static void end_tests(uint64_t b, const access *how)
{
    expect_far_done(b, how, UINT64_C(0) - FAR_BYTES, FAR_BYTES - b, b / how->m);
    machine own = machine_at(b, b, 0, UINT64_C(0) - FAR_BYTES + 1);
    own.settings.memory_address = UINT64_C(0) - FAR_BYTES + 1;
    sparse memory = memory_at(0);
    expect_far(&own, &memory, how->word, SME_BAD_LENGTHS);
}

/*
 * Far in memory, over its byte 2^32, up to its last byte and over its end: with an inactive element that is behind the
 * end or over it, and with active ones.
 */
static void far_tests(uint64_t b)
{
    for (size_t i = 0; i < ACCESSES; i++) {
        access how = access_at(i);
        size_t all = b / how.m;
        expect_far_done(b, &how, START, FAR_PLACE, all);
        expect_far_done(b, &how, START, TWO_TO_32 - b / 2 - 1, all);
        expect_far_done(b, &how, START, FAR_BYTES - b, all);
        expect_far_done(b, &how, START, FAR_BYTES - b + how.m, all - 1);
        expect_far_done(b, &how, START, FAR_BYTES - b + 1, all - 1);
        expect_far_outside(b, &how, FAR_BYTES - b + 1);
        expect_far_outside(b, &how, FAR_BYTES - 1);
        end_tests(b, &how);
    }
}

/* An array of tiles may have more numbers than it need have. The first two are written, and no other. */
static void tile_tests_with(uint64_t numbers)
{
    const size_t places[SPARSE_WINDOWS] = {0};
    sparse room = sparse_new(numbers * sizeof(uint64_t), places);
    uint64_t *tiles = (uint64_t *)(void *)room.bytes, tile = 77;
    size_t count = 0;
    CHECK_EQUAL(sme_take_tile(tiles, numbers, &count, 4, &tile), SME_DONE);
    CHECK(tile == 0 && count == 1 && tiles[0] == 4 && tiles[1] == 0);
    for (size_t i = 0; i < 2 * sizeof(uint64_t); i++) {
        sparse_want(&room, i, room.bytes[i]);
    }
    CHECK(sparse_check(&room));
    CHECK_EQUAL(sme_give_up_tile(tiles, numbers, &count, 4, 0), SME_DONE);
    CHECK(count == 0 && sparse_check(&room));
    sparse_free(&room);
}

void size_tests(void)
{
    tile_tests_with(TWO_TO_16);
    tile_tests_with(TWO_TO_32);
    for (uint64_t b = SME_MIN_VECTOR_BYTES; b <= SME_MAX_VECTOR_BYTES; b *= 2) {
        length_tests(b);
        far_tests(b);
    }
}
