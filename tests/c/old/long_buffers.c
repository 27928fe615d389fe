/*
 * A host of version 0.7 whose buffers are laid out for longer vectors than it runs at. It must compile with the header of
 * today and find the same, and so must its object file, made with the header of that time.
 */
#include "sme_move.h"

#include <stdio.h>
#include <string.h>

enum { B = 16, LARGEST = 32, ROW = 5 };

static uint64_t x[SME_X_COUNT];
static uint8_t z[SME_Z_BYTES(LARGEST)], p[SME_P_BYTES(LARGEST)], za[SME_ZA_BYTES(LARGEST)], wanted[sizeof za];

/* Vector register 1 to a row of the array: vectors start where the longer ones would. */
int main(void)
{
    sme_settings settings = sme_settings_within(B, LARGEST, 3);
    sme_buffers buffers = {.x = x, .x_count = SME_X_COUNT, .z = z, .z_bytes = sizeof z, .p = p, .p_bytes = sizeof p,
                           .za = za, .za_bytes = sizeof za, .memory = NULL, .memory_bytes = 0};
    uint64_t address = 1;
    settings.streaming = settings.za_on = true;
    memset(p, 0xFF, sizeof p);
    memcpy(z + LARGEST, "sixteen letters and more", B + 8);
    memcpy(wanted + ROW * LARGEST, "sixteen letters and more", B);
    x[12] = ROW;
    const int moved = sme_settings_execute(settings, 0xC0000020, buffers, &address) == SME_DONE && address == 0 &&
                      memcmp(za, wanted, sizeof za) == 0;
    const int right = moved && sme_settings_make_within(LARGEST, B, 3, &settings) == SME_BAD_SETTINGS;
    puts(right ? "long buffers: right" : "long buffers: wrong");
    return !right;
}
