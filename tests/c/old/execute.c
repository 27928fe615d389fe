/*
 * A host of version 0.4 that calls every function and wrapper over settings of its header. It must compile with the
 * header of today and find the same; its object file must not link if it was made with the header of that time, and if it
 * was made with one of a later version it must link and find the same.
 */
#include "sme_move.h"

#include <stdio.h>
#include <string.h>

enum { B = 16, MEMORY = 64 };

static uint64_t x[SME_X_COUNT];
static uint8_t z[SME_Z_BYTES(B)], p[SME_P_BYTES(B)], za[SME_ZA_BYTES(B)], memory[MEMORY];

/* Lengths and checks: by numbers and by settings. */
static int measured(sme_settings settings)
{
    uint64_t by_number[4] = {0}, by_settings[4] = {0};
    return sme_check_settings(B, 3) == SME_DONE && sme_check_settings(B, 4) == SME_BAD_SETTINGS &&
           sme_settings_check(settings) == SME_DONE && sme_lengths(B, by_number) == SME_DONE &&
           sme_settings_lengths(settings, by_settings) == SME_DONE &&
           memcmp(by_number, by_settings, sizeof by_number) == 0 && by_number[3] == sizeof za &&
           sme_lengths(B + 1, by_number) == SME_BAD_SETTINGS;
}

/* A row of the array from vector register 0, the address of an answer 7, and a refusal by a switch. */
static int executed(sme_settings settings)
{
    sme_buffers buffers = {.x = x, .x_count = SME_X_COUNT, .z = z, .z_bytes = sizeof z, .p = p, .p_bytes = sizeof p,
                           .za = za, .za_bytes = sizeof za, .memory = memory, .memory_bytes = sizeof memory};
    uint64_t address = 1;
    uint8_t fields[SME_FIELD_COUNT];
    x[1] = 0x1000 + MEMORY - 4;
    x[12] = 5;
    memset(p, 0xFF, sizeof p);
    memcpy(z, "sixteen letters!", B);
    if (sme_settings_decode(settings, 0xC0000000, fields) != SME_DONE || fields[SME_FIELD_DIRECTION] != 0 ||
        sme_settings_execute(settings, 0xC0000000, buffers, &address) != SME_DONE || address != 0 ||
        memcmp(za + 5 * B, z, B) != 0) {
        return 0;
    }
    if (sme_execute(settings.vector_bytes, settings.level, settings.streaming, settings.za_on,
                    settings.memory_address, 0xE03F0020, x, SME_X_COUNT, z, sizeof z, p, sizeof p, za, sizeof za,
                    memory, sizeof memory, &address) != SME_OUTSIDE_MEMORY ||
        address != 0x1000 + MEMORY) {
        return 0;
    }
    return sme_settings_execute(sme_settings_with_za(settings, false), 0xC0000000, buffers, &address) == SME_ZA_OFF &&
           address == 0;
}

int main(void)
{
    sme_settings settings = sme_settings_new(B, 3);
    settings = sme_settings_with_streaming(settings, true);
    settings.za_on = true;
    settings = sme_settings_with_memory_address(settings, 0x1000);
    const int right = measured(settings) && executed(settings) && SME_MOVE_VERSION_MAJOR == 0 &&
                      strcmp(sme_answer_text(SME_DONE), "done") == 0;
    puts(right ? "settings and executions: right" : "settings and executions: wrong");
    return !right;
}
