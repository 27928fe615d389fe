#include "held.h"

#include "check.h"
#include "guarded.h"
#include "sme_move.h"

#include <stdbool.h>
#include <string.h>

list list_none(void)
{
    list made;
    for (size_t i = 0; i < MOST_TILES; i++) {
        made.numbers[2 * i] = i % 2 == 0 ? 1 : UINT64_MAX - i;
        made.numbers[2 * i + 1] = i % 2 == 0 ? 0 : 257 + i;
    }
    made.length = made.count = 0;
    return made;
}

list list_with(list own, uint64_t m, uint64_t tile)
{
    own.numbers[2 * own.count] = m;
    own.numbers[2 * own.count + 1] = tile;
    own.count++;
    own.length = 2 * own.count;
    return own;
}

list list_room(list own, size_t numbers)
{
    own.length += numbers;
    return own;
}

static bool possible(uint64_t m)
{
    return m == 1 || m == 2 || m == 4 || m == 8 || m == 16;
}

/* Which of sixteen vectors belong to a tile, a bit for each; the vectors after them repeat this. */
static uint32_t vectors_of(uint64_t m, uint64_t tile)
{
    uint32_t vectors = 0;
    for (uint32_t v = 0; v < 16; v++) {
        vectors |= (uint32_t)(v % m == tile) << v;
    }
    return vectors;
}

/* Whether the held tiles are as they should be, and which vectors belong to them. */
static bool held_well(const list *own, uint32_t *vectors)
{
    *vectors = 0;
    if (own->count > SME_MAX_HELD || own->count > own->length / 2) {
        return false;
    }
    for (size_t i = 0; i < own->count; i++) {
        uint64_t m = own->numbers[2 * i], tile = own->numbers[2 * i + 1];
        if (!possible(m) || tile >= m || (vectors_of(m, tile) & *vectors) != 0) {
            return false;
        }
        *vectors |= vectors_of(m, tile);
    }
    return true;
}

uint32_t wanted_of(const list *own, uint64_t m, uint64_t *tile)
{
    uint32_t vectors;
    *tile = 0;
    if (!possible(m)) {
        return SME_OUT_OF_RANGE;
    }
    if (!held_well(own, &vectors)) {
        return SME_BAD_HELD;
    }
    uint64_t found = 0;
    while (found < m && (vectors_of(m, found) & vectors) != 0) {
        found++;
    }
    if (found == m) {
        return SME_NO_FREE_TILE;
    }
    if (own->length < 2 * own->count + 2) {
        return SME_BAD_HELD;
    }
    *tile = found;
    return SME_DONE;
}

/* An array of exactly its length, and its count, both between guards. */
typedef struct lent {
    guarded tiles, count;
} lent;

static lent lend(const list *own)
{
    lent made = {guarded_new(own->length * sizeof(uint64_t), 3), guarded_new(sizeof(size_t), 5)};
    memcpy(made.tiles.bytes, own->numbers, made.tiles.length);
    memcpy(made.count.bytes, &own->count, sizeof own->count);
    return made;
}

/* Holds every number and the count to what is wanted, and frees both. */
static void give_back(lent *own, const list *wanted)
{
    CHECK(memcmp(own->tiles.bytes, wanted->numbers, own->tiles.length) == 0);
    CHECK(memcmp(own->count.bytes, &wanted->count, sizeof wanted->count) == 0);
    CHECK(guarded_check(&own->tiles) && guarded_check(&own->count));
    guarded_free(&own->tiles);
    guarded_free(&own->count);
}

void expect_take(list *own, uint64_t m, uint32_t wanted, uint64_t wanted_tile)
{
    lent all = lend(own);
    guarded tile = guarded_new(sizeof(uint64_t), 7);
    uint64_t *number = (uint64_t *)(void *)tile.bytes;
    uint32_t answer = sme_take_tile((uint64_t *)(void *)all.tiles.bytes, own->length,
                                    (size_t *)(void *)all.count.bytes, m, number);
    CHECK_EQUAL(answer, wanted);
    CHECK_EQUAL(*number, wanted_tile);
    if (answer == SME_DONE) {
        own->numbers[2 * own->count] = m;
        own->numbers[2 * own->count + 1] = wanted_tile;
        own->count++;
    }
    give_back(&all, own);
    CHECK(guarded_check(&tile));
    guarded_free(&tile);
    seen[TAKE_TILE][answer]++;
}

void take_one(list own, uint64_t m)
{
    uint64_t tile;
    uint32_t wanted = wanted_of(&own, m, &tile);
    expect_take(&own, m, wanted, tile);
}

size_t place_of(const list *own, uint64_t m, uint64_t tile)
{
    size_t place = 0;
    while (place < own->count && (own->numbers[2 * place] != m || own->numbers[2 * place + 1] != tile)) {
        place++;
    }
    return place;
}

void give_up(list *own, uint64_t m, uint64_t tile)
{
    uint32_t vectors, wanted = SME_BAD_HELD;
    lent all = lend(own);
    uint32_t answer = sme_give_up_tile((uint64_t *)(void *)all.tiles.bytes, own->length,
                                       (size_t *)(void *)all.count.bytes, m, tile);
    if (held_well(own, &vectors) && place_of(own, m, tile) < own->count) {
        wanted = SME_DONE;
        /* the others move up; the last pair is still there behind them */
        size_t place = place_of(own, m, tile);
        own->count--;
        memmove(own->numbers + 2 * place, own->numbers + 2 * place + 2,
                2 * sizeof(uint64_t) * (own->count - place));
    }
    CHECK_EQUAL(answer, wanted);
    give_back(&all, own);
    seen[GIVE_UP_TILE][answer]++;
}

void give_up_one(list own, uint64_t m, uint64_t tile)
{
    give_up(&own, m, tile);
}
