/*
 * Lists of held tiles that are lent on arrays of exact length, with what taking and giving up should make of them. That
 * is worked out from the vectors of ZA that a tile has.
 */
#ifndef HELD_H
#define HELD_H

#include "sme_move.h"

enum { MOST_TILES = SME_MAX_HELD + 2 };

/* The numbers of an array, how many of them are lent, and how many tiles are said to be held. */
typedef struct list {
    uint64_t numbers[2 * MOST_TILES];
    size_t length, count;
} list;

/* No tiles. Behind them stand tiles that share a byte with every tile, and numbers that are none. */
list list_none(void);

/* One more tile, in an array that just has it. */
list list_with(list own, uint64_t m, uint64_t tile);

/* The same with room for so many more numbers. */
list list_room(list own, size_t numbers);

/* The answer to taking a tile of m bytes, with the tile. */
uint32_t wanted_of(const list *own, uint64_t m, uint64_t *tile);

/* The place of a held tile, or the count where it is not held. */
size_t place_of(const list *own, uint64_t m, uint64_t tile);

/* Takes a tile and holds answer, number and all that was lent to what is wanted, which is then in the list. */
void expect_take(list *own, uint64_t m, uint32_t wanted, uint64_t wanted_tile);

/* The same where what is wanted is worked out, and the list stays. */
void take_one(list own, uint64_t m);

/* Gives up a tile and holds answer and all that was lent to what is wanted, which is then in the list. */
void give_up(list *own, uint64_t m, uint64_t tile);

/* The same, and the list stays. */
void give_up_one(list own, uint64_t m, uint64_t tile);

#endif
