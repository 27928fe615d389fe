/* sme_take_tile and sme_give_up_tile, with every answer, and the record of held tiles with its wrappers. */
#include "check.h"
#include "held.h"
#include "sme_move.h"

#include <string.h>

static const uint64_t sizes[] = {1, 2, 4, 8, 16};

enum { SIZES = sizeof sizes / sizeof sizes[0] };

/* Numbers that are none of the five sizes, and look like one or like a tile's number where they are cut off. */
static const uint64_t impossible[] = {
    0, 3, 5, 6, 7, 9, 12, 15, 17, 32, 64, 255, 256, 257, 258, 260, 264, 272, UINT64_C(1) << 16 | 1,
    UINT64_C(1) << 32, (UINT64_C(1) << 32) + 1, (UINT64_C(1) << 32) + 4, UINT64_C(1) << 63,
    (UINT64_C(1) << 63) + 8, UINT64_MAX,
};

enum { IMPOSSIBLE = sizeof impossible / sizeof impossible[0] };

/* Literal cases, so that what is worked out is not its own judge. */
static void known_tests(void)
{
    list own = list_room(list_with(list_with(list_none(), 2, 0), 8, 3), 6);
    expect_take(&own, 4, SME_DONE, 1);
    expect_take(&own, 4, SME_NO_FREE_TILE, 0);
    expect_take(&own, 16, SME_DONE, 7);
    expect_take(&own, 1, SME_NO_FREE_TILE, 0);
    expect_take(&own, 3, SME_OUT_OF_RANGE, 0);
    give_up(&own, 8, 3);
    CHECK(own.count == 3 && own.numbers[2] == 4 && own.numbers[4] == 16 && own.numbers[5] == 7);
    expect_take(&own, 8, SME_DONE, 3);
    expect_take(&own, 16, SME_DONE, 15);
    expect_take(&own, 16, SME_NO_FREE_TILE, 0);
    list shared = list_room(list_with(list_with(list_none(), 8, 3), 4, 3), 2);
    expect_take(&shared, 1, SME_BAD_HELD, 0);
    expect_take(&shared, 0, SME_OUT_OF_RANGE, 0);
    list absent = list_room(list_with(list_none(), 4, 4), 2);
    expect_take(&absent, 8, SME_BAD_HELD, 0);
}

/* The element bytes of the tile at a place in the row of all 31, the tiles of the smallest first. */
static uint64_t size_at(uint64_t place)
{
    uint64_t m = 16;
    while (m > place + 1) {
        m /= 2;
    }
    return m;
}

/* Each two tiles, of which some share a byte, and each alone; room for none, for half a tile and for one more. */
static void pair_tests(void)
{
    for (uint64_t first = 0; first < 31; first++) {
        for (uint64_t second = 0; second < 31; second++) {
            uint64_t m = size_at(first), n = size_at(second);
            /* the tiles of m bytes begin at place m - 1 */
            uint64_t tile = first - (m - 1), other = second - (n - 1);
            list one = list_with(list_none(), m, tile);
            list two = list_with(one, n, other);
            for (size_t i = 0; i < SIZES; i++) {
                take_one(list_room(two, (first + second + i) % 3), sizes[i]);
            }
            give_up_one(list_room(one, second % 3), n, other);
            give_up_one(list_room(two, first % 3), n, other);
            give_up_one(two, m, tile);
        }
    }
}

/* Numbers that are none of the five sizes and no tile's, asked for, held and given up. */
static void impossible_tests(void)
{
    const list good = list_room(list_with(list_with(list_none(), 8, 0), 4, 1), 2);
    for (size_t i = 0; i < IMPOSSIBLE; i++) {
        uint64_t number = impossible[i];
        take_one(good, number);
        take_one(list_room(list_none(), i % 3), number);
        /* 8 goes before 16, whatever is wrong with the held tiles */
        take_one(list_with(good, 4, 1), number);
        take_one(list_with(good, number, 0), number);
        for (size_t s = 0; s < SIZES; s++) {
            take_one(list_room(list_with(list_none(), number, 0), 2), sizes[s]);
            take_one(list_room(list_with(good, number, 2), 2), sizes[s]);
            take_one(list_room(list_with(list_none(), sizes[s], number), 2), 16);
            give_up_one(list_with(list_none(), sizes[s], 0), sizes[s], number);
        }
        give_up_one(good, number, 0);
        give_up_one(good, number, 1);
        give_up_one(list_with(list_none(), number, 0), number, 0);
        give_up_one(list_with(good, number, 2), 8, 0);
    }
}

/* Counts that the array has not, or that are above sixteen, also where twice the count is a small number. */
static void shape_tests(void)
{
    static const size_t counts[] = {0, 1, 2, 3, 15, 16, 17, 18, 255, 257, 0x10000, 0x10001,
                                    (size_t)1 << 32, ((size_t)1 << 32) + 1, SIZE_MAX / 2, SIZE_MAX / 2 + 1,
                                    SIZE_MAX / 2 + 2, SIZE_MAX - 1, SIZE_MAX};
    list full = list_none();
    for (uint64_t tile = 0; tile < MOST_TILES; tile++) {
        full = list_with(full, 16, tile % 16);
    }
    for (size_t i = 0; i < sizeof counts / sizeof counts[0]; i++) {
        full.count = counts[i];
        for (full.length = 0; full.length <= 2 * MOST_TILES; full.length++) {
            take_one(full, 16);
            take_one(full, 2);
            take_one(full, 24);
            give_up_one(full, 16, 0);
            give_up_one(full, 16, 15);
        }
    }
}

/* Each size until it is full, on an array for just so many, then given up from both ends and taken again. */
static void full_tests(void)
{
    for (size_t i = 0; i < SIZES; i++) {
        uint64_t m = sizes[i];
        /* the number behind the last tile's */
        take_one(list_room(list_with(list_none(), m, m), 2), 16);
        list own = list_room(list_none(), 2 * (size_t)m);
        for (uint64_t tile = 0; tile < m; tile++) {
            expect_take(&own, m, SME_DONE, tile);
        }
        for (size_t other = 0; other < SIZES; other++) {
            expect_take(&own, sizes[other], SME_NO_FREE_TILE, 0);
        }
        give_up(&own, m, m - 1);
        expect_take(&own, m, SME_DONE, m - 1);
        give_up(&own, m, 0);
        give_up(&own, m, 0);
        expect_take(&own, m, SME_DONE, 0);
    }
}

/* No array at all is an array with no numbers: no place for a tile, and none held. */
static void empty_tests(void)
{
    for (size_t i = 0; i < SIZES; i++) {
        size_t count = 0;
        uint64_t tile = 77;
        CHECK_EQUAL(sme_take_tile(NULL, 0, &count, sizes[i], &tile), SME_BAD_HELD);
        CHECK(tile == 0 && count == 0);
        tile = 77;
        CHECK_EQUAL(sme_take_tile(NULL, 0, &count, 3 * sizes[i], &tile), SME_OUT_OF_RANGE);
        CHECK(tile == 0 && count == 0);
        CHECK_EQUAL(sme_give_up_tile(NULL, 0, &count, sizes[i], 0), SME_BAD_HELD);
        CHECK_EQUAL(count, 0);
        take_one(list_none(), sizes[i]);
        give_up_one(list_none(), sizes[i], 0);
    }
}

/* The record, through its wrappers, beside the list: any tiles taken and given up, in no order. */
static void record_tests(void)
{
    sme_held held = sme_held_none();
    list own = list_room(list_none(), 2 * SME_MAX_HELD);
    memset(own.numbers, 0, sizeof own.numbers);
    CHECK_EQUAL(held.count, 0);
    uint64_t chance = 1;
    for (int round = 0; round < 2000; round++) {
        chance = chance * UINT64_C(6364136223846793005) + UINT64_C(1442695040888963407);
        uint64_t m = sizes[(chance >> 33) % SIZES], number = (chance >> 40) % 17, tile = 77, wanted_tile;
        if ((chance >> 50) % 2 == 0) {
            uint32_t wanted = wanted_of(&own, m, &wanted_tile);
            CHECK_EQUAL(sme_held_take(&held, m, &tile), wanted);
            CHECK_EQUAL(tile, wanted_tile);
            expect_take(&own, m, wanted, wanted_tile);
        } else {
            uint32_t wanted = place_of(&own, m, number) < own.count ? SME_DONE : SME_BAD_HELD;
            CHECK_EQUAL(sme_held_give_up(&held, m, number), wanted);
            give_up(&own, m, number);
        }
        CHECK_EQUAL(held.count, own.count);
        CHECK(memcmp(held.tiles, own.numbers, sizeof held.tiles) == 0);
    }
}

void tile_tests(void)
{
    known_tests();
    pair_tests();
    impossible_tests();
    shape_tests();
    full_tests();
    empty_tests();
    record_tests();
}
