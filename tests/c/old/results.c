/*
 * A host of version 0.5 that lends as many places for results as its header knows, and has a number behind them. Its
 * object file, made with the header of that time or of one since then, must find the address and that number as it was: a
 * result that came later is not written where there is no place for it. So must its source with the header of today, in
 * which there are more results.
 */
#include "sme_move.h"

#include <stdio.h>
#include <string.h>

enum { B = 16, MEMORY = 30, BEHIND = 77 };

static uint64_t x[SME_X_COUNT];
static uint8_t z[SME_Z_BYTES(B)], p[SME_P_BYTES(B)], za[SME_ZA_BYTES(B)], memory[MEMORY];

/* A load by the array of settings: whether it gets this answer and address, and writes nothing behind its results. */
static int by_array(sme_settings settings, uint32_t wanted, uint64_t address)
{
    uint64_t given[SME_SETTING_COUNT], results[SME_RESULT_COUNT + 1];
    sme_settings_give(settings, given);
    results[SME_RESULT_ADDRESS] = 1;
    results[SME_RESULT_COUNT] = BEHIND;
    return sme_execute_word(given, SME_SETTING_COUNT, x, SME_X_COUNT, z, sizeof z, p, sizeof p, za, sizeof za, memory,
                            sizeof memory, results, SME_RESULT_COUNT, 0xE01F0020) == wanted &&
           results[SME_RESULT_ADDRESS] == address && results[SME_RESULT_COUNT] == BEHIND;
}

/* The same by the wrapper, which has a place for one result, whatever the header. */
static int by_wrapper(sme_settings settings, uint32_t wanted, uint64_t address)
{
    sme_buffers buffers = {.x = x, .x_count = SME_X_COUNT, .z = z, .z_bytes = sizeof z, .p = p, .p_bytes = sizeof p,
                           .za = za, .za_bytes = sizeof za, .memory = memory, .memory_bytes = sizeof memory};
    uint64_t found[2] = {1, BEHIND};
    return sme_settings_execute(settings, 0xE01F0020, buffers, found) == wanted && found[0] == address &&
           found[1] == BEHIND;
}

/* Element 14 is the first outside memory, then none is. */
int main(void)
{
    sme_settings settings = sme_settings_new(B, 3);
    settings.streaming = settings.za_on = true;
    settings.memory_address = 0x1000;
    memset(p, 0xFF, sizeof p);
    x[1] = 0x1010;
    const int outside = by_array(settings, SME_OUTSIDE_MEMORY, 0x1000 + MEMORY) &&
                        by_wrapper(settings, SME_OUTSIDE_MEMORY, 0x1000 + MEMORY);
    x[1] = 0x1000;
    const int loaded = by_array(settings, SME_DONE, 0) && by_wrapper(settings, SME_DONE, 0);
    puts(outside && loaded ? "as many results as there are places: right" : "as many results as there are places: wrong");
    return !(outside && loaded);
}
