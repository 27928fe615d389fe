/*
 * A host of version 0.4 that calls only what is as it was then: words to numbers and back, and held tiles. Its object
 * file, made with the header of that time, must link with the archive of today and find the same.
 */
#include "sme_move.h"

#include <stdio.h>
#include <string.h>

int main(void)
{
    static const uint8_t wanted[SME_FIELD_COUNT] = {SME_KIND_MOVE_TO_TILE, 4, 1, 2, 1, 13, 3, 5, 0, 0, 1};
    uint8_t fields[SME_FIELD_COUNT];
    uint32_t word;
    uint64_t tile;
    sme_held held = sme_held_none();
    const int right =
        sme_decode(0xC080ACA9, 1, fields) == SME_DONE && memcmp(fields, wanted, sizeof wanted) == 0 &&
        sme_decode(0xC080ACA9, 0, fields) == SME_UNDECODABLE && sme_encode(wanted, &word) == SME_DONE &&
        word == 0xC080ACA9 && sme_held_take(&held, 2, &tile) == SME_DONE && tile == 0 &&
        sme_held_take(&held, 1, &tile) == SME_NO_FREE_TILE && sme_held_give_up(&held, 2, 0) == SME_DONE &&
        sme_take_tile(held.tiles, 2 * SME_MAX_HELD, &held.count, 1, &tile) == SME_DONE &&
        sme_give_up_tile(held.tiles, 2 * SME_MAX_HELD, &held.count, 2, 0) == SME_BAD_HELD;
    puts(right ? "words and tiles: right" : "words and tiles: wrong");
    return !right;
}
