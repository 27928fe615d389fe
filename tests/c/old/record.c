/*
 * A host of version 0.4 that initialises the record of settings itself, with the members of its header. Its object file,
 * made with the header of 0.5 or 0.6, must find the same as then: it knows of no switch of the stack check, so the check
 * is on. Compiled with the header of 0.7 or of a later one it leaves the largest vector length 0, which must be
 * answered 1.
 */
#include "sme_move.h"

#include <stdio.h>
#include <string.h>

enum { B = 16, MEMORY = 64 };

static uint64_t x[SME_X_COUNT];
static uint8_t z[SME_Z_BYTES(B)], p[SME_P_BYTES(B)], za[SME_ZA_BYTES(B)], memory[MEMORY];

static const sme_settings settings = {.vector_bytes = B, .level = 3, .streaming = true, .za_on = true,
                                      .memory_address = 0x1000};

static uint32_t execute(uint32_t word, uint64_t *address)
{
    sme_buffers buffers = {.x = x, .x_count = SME_X_COUNT, .z = z, .z_bytes = sizeof z, .p = p, .p_bytes = sizeof p,
                           .za = za, .za_bytes = sizeof za, .memory = memory, .memory_bytes = sizeof memory};
    return sme_settings_execute(settings, word, buffers, address);
}

/* A store at memory's start by the stack pointer, then one where it is misaligned. */
int main(void)
{
    uint64_t address = 1;
    memset(p, 0xFF, sizeof p);
    memcpy(za, "sixteen letters!", B);
    x[12] = 0;
    x[31] = 0x1000;
    const int stored = execute(0xE03F03E0, &address) == SME_DONE && memcmp(memory, za, B) == 0;
    x[31] = 0x1008;
    const int refused = execute(0xE03F03E0, &address) == SME_STACK_MISALIGNED && address == 0;
    puts(stored && refused ? "a record of settings: right" : "a record of settings: wrong");
    return !(stored && refused);
}
