/*
 * Room for one more tile: takes tiles of several element sizes until none is free, then gives one up.
 *
 *     bash archive.sh
 *     gcc -std=c11 -Iinclude examples/c/tiles.c target/staticlib/libsme_move.a -o tiles
 *     ./tiles
 */
#include "sme_move.h"

#include <stdio.h>

int main(void)
{
    static const uint64_t element_bytes[] = {2, 8, 4, 4};
    sme_held held = sme_held_none();
    uint64_t tile;
    for (int i = 0; i < 4; i++) {
        uint32_t answer = sme_held_take(&held, element_bytes[i], &tile);
        printf("%d-byte elements: answer %u, %s; tile %d\n", (int)element_bytes[i], answer,
               sme_answer_text(answer), (int)tile);
    }
    sme_held_give_up(&held, 8, 1);
    uint32_t answer = sme_held_take(&held, 4, &tile);
    printf("with one given up: answer %u, %s; tile %d\n", answer, sme_answer_text(answer), (int)tile);
    return answer != SME_DONE;
}
