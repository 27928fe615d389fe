/* Listings that are lent in exact length, and runs of them that are held to single calls of sme_execute_word. */
#ifndef LISTING_H
#define LISTING_H

#include "guarded.h"
#include "machine.h"

/* What is lent, and the pages that it stands on. */
typedef struct listing {
    guarded pages;
    const uint8_t *bytes;
    size_t length;
} listing;

/* So many bytes of these words, read only and beside a page that may not be touched; none are (NULL, 0). */
listing listing_cut(const uint32_t *words, size_t bytes);

listing listing_new(const uint32_t *words, size_t count);

/* The same, so many bytes past a multiple of four (below four). */
listing listing_unaligned(const uint32_t *words, size_t count, size_t past);

void listing_free(listing *own);

/* An array of exact length for so many results, and a run that is given it. */
typedef struct run {
    const listing *lent;
    uint64_t allowance;
    size_t places;
} run;

/* With a place for every result. */
run run_of(const listing *lent, uint64_t allowance);

/*
 * Runs, X, P and settings on pages that can't be written. Answer, how many words were done and the machine's wanted
 * address and element must be as said here, and as single calls on copies have them; every byte must be as these leave
 * it. The machine is freed.
 */
void expect_run(machine *own, run how, uint32_t wanted, uint64_t words);

/* The same, where the lengths are not the machine's. */
void expect_run_lent(machine *own, sme_buffers lent, run how, uint32_t wanted, uint64_t words);

#endif
