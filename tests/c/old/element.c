/*
 * A host of version 0.8 that lends as many places for results as its header knows, address and element, and has a number
 * behind them. Its object file, made with the header of that time, must find both and that number as it was: how many words
 * of a listing were done, which came later, has no place there. So must its source with the header of today, in which there
 * are more results.
 */
#include "sme_move.h"

#include <stdio.h>
#include <string.h>

enum { B = 16, MEMORY = 30, BEHIND = 77 };

static uint64_t x[SME_X_COUNT];
static uint8_t z[SME_Z_BYTES(B)], p[SME_P_BYTES(B)], za[SME_ZA_BYTES(B)], memory[MEMORY];

/* A load: whether it gets this answer, address and element, and writes nothing behind its results. */
static int loaded(sme_settings settings, uint32_t wanted, uint64_t address, uint64_t element)
{
    sme_buffers buffers = {.x = x, .x_count = SME_X_COUNT, .z = z, .z_bytes = sizeof z, .p = p, .p_bytes = sizeof p,
                           .za = za, .za_bytes = sizeof za, .memory = memory, .memory_bytes = sizeof memory};
    uint64_t results[SME_RESULT_COUNT + 1];
    results[SME_RESULT_ADDRESS] = results[SME_RESULT_ELEMENT] = 1;
    results[SME_RESULT_COUNT] = BEHIND;
    return sme_settings_execute_results(settings, 0xE01F0020, buffers, results, SME_RESULT_COUNT) == wanted &&
           results[SME_RESULT_ADDRESS] == address && results[SME_RESULT_ELEMENT] == element &&
           results[SME_RESULT_COUNT] == BEHIND;
}

/* Element 14 is the first outside memory, then none is. */
int main(void)
{
    sme_settings settings = sme_settings_new(B, 3);
    settings.streaming = settings.za_on = true;
    settings.memory_address = 0x1000;
    memset(p, 0xFF, sizeof p);
    x[1] = 0x1010;
    const int outside = loaded(settings, SME_OUTSIDE_MEMORY, 0x1000 + MEMORY, 14);
    x[1] = 0x1000;
    const int right = outside && loaded(settings, SME_DONE, 0, 0);
    puts(right ? "address and element: right" : "address and element: wrong");
    return !right;
}
