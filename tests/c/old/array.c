/*
 * A host of version 0.5 that fills the array of settings itself, with as many places as its header has settings. Its
 * object file, made with the header of that time or of 0.6, must find the same as then: a setting that it does not give is
 * as new settings have it. Compiled with the header of 0.7 or of a later one it gives 0 as the largest vector length,
 * which must be answered 1.
 */
#include "sme_move.h"

#include <stdio.h>
#include <string.h>

enum { B = 16, MEMORY = 64 };

static uint64_t x[SME_X_COUNT];
static uint8_t z[SME_Z_BYTES(B)], p[SME_P_BYTES(B)], za[SME_ZA_BYTES(B)], memory[MEMORY];

static const uint64_t given[SME_SETTING_COUNT] = {
    [SME_SETTING_VECTOR_BYTES] = B, [SME_SETTING_LEVEL] = 3,
    [SME_SETTING_STREAMING] = 1,    [SME_SETTING_ZA_ON] = 1,
    [SME_SETTING_MEMORY_ADDRESS] = 0x1000,
};

static uint32_t execute(uint32_t word, uint64_t results[SME_RESULT_COUNT])
{
    return sme_execute_word(given, SME_SETTING_COUNT, x, SME_X_COUNT, z, sizeof z, p, sizeof p, za, sizeof za, memory,
                            sizeof memory, results, SME_RESULT_COUNT, word);
}

/* A store at memory's start by the stack pointer, then one where it is misaligned. */
int main(void)
{
    uint64_t results[SME_RESULT_COUNT];
    memset(p, 0xFF, sizeof p);
    memcpy(za, "sixteen letters!", B);
    x[12] = 0;
    x[31] = 0x1000;
    const int stored = sme_check(given, SME_SETTING_COUNT) == SME_DONE && execute(0xE03F03E0, results) == SME_DONE &&
                       memcmp(memory, za, B) == 0;
    x[31] = 0x1008;
    const int refused = execute(0xE03F03E0, results) == SME_STACK_MISALIGNED && results[SME_RESULT_ADDRESS] == 0;
    puts(stored && refused ? "an array of settings: right" : "an array of settings: wrong");
    return !(stored && refused);
}
