/* Calls every exported function through the header, with every answer that it can give. */
#include "check.h"
#include "guarded.h"
#include "sme_move.h"

#include <string.h>

unsigned seen[FUNCTIONS][ANSWERS];

static const struct {
    const char *name;
    /* the answers that the function can give, a bit for each */
    unsigned can;
} functions[FUNCTIONS] = {
    {"sme_execute_word", 0xFF},
    {"sme_run_listing", 0xFF | 1 << SME_BAD_LISTING},
    {"sme_decode", 1 << SME_DONE | 1 << SME_BAD_SETTINGS | 1 << SME_UNDECODABLE},
    {"sme_encode", 1 << SME_DONE | 1 << SME_OUT_OF_RANGE},
    {"sme_check", 1 << SME_DONE | 1 << SME_BAD_SETTINGS},
    {"sme_measure", 1 << SME_DONE | 1 << SME_BAD_SETTINGS},
    {"sme_take_tile", 1 << SME_DONE | 1 << SME_OUT_OF_RANGE | 1 << SME_NO_FREE_TILE | 1 << SME_BAD_HELD},
    {"sme_give_up_tile", 1 << SME_DONE | 1 << SME_BAD_HELD},
};

/* Prints the counts; an answer that was never seen, or can't be given, fails. */
static void report(void)
{
    for (int f = 0; f < FUNCTIONS; f++) {
        printf("%s:", functions[f].name);
        for (unsigned answer = 0; answer < ANSWERS; answer++) {
            CHECK((seen[f][answer] != 0) == (functions[f].can >> answer & 1));
            if (seen[f][answer] != 0) {
                printf(" %u of answer %u", seen[f][answer], answer);
            }
        }
        printf("\n");
    }
}

/* Every answer that some function can give has words of its own, and no other number has. */
static void text_tests(void)
{
    const char *none = sme_answer_text(ANSWERS);
    unsigned can = 0;
    for (int f = 0; f < FUNCTIONS; f++) {
        can |= functions[f].can;
    }
    for (unsigned answer = 0; answer < ANSWERS; answer++) {
        CHECK((strcmp(sme_answer_text(answer), none) != 0) == (can >> answer & 1));
        for (unsigned other = 0; other < answer; other++) {
            CHECK((can >> answer & 1) == 0 || strcmp(sme_answer_text(answer), sme_answer_text(other)) != 0);
        }
    }
}

/* First those that deliberately wrong headers and units are run on, so that each of these ends soon. */
int main(void)
{
    wrapper_tests();
    for (int front = 0; front < 2; front++) {
        guarded_touch_front = front == 1;
        size_tests();
        long_buffers_tests();
        listing_tests();
        settings_tests();
        count_tests();
        word_tests();
        execute_tests();
        access_tests();
        tile_tests();
    }
    text_tests();
    report();
    return 0;
}
