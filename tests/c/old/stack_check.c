/*
 * A host of version 0.6 that switches the stack check off, and asks whether the archive serves it. It must compile with the
 * header of today and find the same, and so must its object file, made with the header of that time or of a later one.
 */
#include "sme_move.h"

#include <stdio.h>
#include <string.h>

enum { B = 16, MEMORY = 64 };

static uint64_t x[SME_X_COUNT];
static uint8_t z[SME_Z_BYTES(B)], p[SME_P_BYTES(B)], za[SME_ZA_BYTES(B)], memory[MEMORY];

/* A store by a misaligned stack pointer, with the check on and then off. */
int main(void)
{
    sme_settings settings = sme_settings_new(B, 3);
    sme_buffers buffers = {.x = x, .x_count = SME_X_COUNT, .z = z, .z_bytes = sizeof z, .p = p, .p_bytes = sizeof p,
                           .za = za, .za_bytes = sizeof za, .memory = memory, .memory_bytes = sizeof memory};
    uint64_t address = 1;
    settings.streaming = settings.za_on = true;
    settings.memory_address = 0x1000;
    memset(p, 0xFF, sizeof p);
    memcpy(za, "sixteen letters!", B);
    x[12] = 0;
    x[31] = 0x1008;
    const int refused = sme_settings_execute(settings, 0xE03F03E0, buffers, &address) == SME_STACK_MISALIGNED;
    settings = sme_settings_with_stack_check(settings, false);
    const int stored = sme_settings_execute(settings, 0xE03F03E0, buffers, &address) == SME_DONE &&
                       memcmp(memory + 8, za, B) == 0 && settings.stack_check_off;
    const int right = refused && stored && sme_version_serves(sme_version());
    puts(right ? "the stack check off: right" : "the stack check off: wrong");
    return !right;
}
