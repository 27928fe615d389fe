/*
 * Short vectors in long buffers: a host that keeps its buffers for vectors of 64 bytes runs a kernel at 16 bytes, and then
 * at 64 on the same buffers. Only the settings differ.
 *
 *     bash archive.sh
 *     gcc -std=c11 -Iinclude examples/c/long_buffers.c target/staticlib/libsme_move.a -o long_buffers
 *     ./long_buffers
 */
#include "sme_move.h"

#include <stdio.h>
#include <string.h>

enum { LARGEST = 64 }; /* the vector length in bytes that the buffers are laid out for */

static uint64_t x[SME_X_COUNT];
static uint8_t z[SME_Z_BYTES(LARGEST)], p[SME_P_BYTES(LARGEST)], za[SME_ZA_BYTES(LARGEST)];

/* Vector register 0 to a row of the tile of 1-byte elements, and a column of it to vector register 1. */
static const uint32_t kernel[] = {0xC0000000, 0xC0028001};

static void print(const char *name, const uint8_t *vector)
{
    printf("  %-9s %.*s\n", name, LARGEST, (const char *)vector);
}

/* Row and column are register 12 modulo the vector length: 5 of 16, and then 21 of 64. */
static uint32_t run(uint64_t vector_bytes)
{
    sme_settings settings = sme_settings_within(vector_bytes, LARGEST, 3);
    sme_buffers buffers = {.x = x, .x_count = SME_X_COUNT, .z = z, .z_bytes = sizeof z,
                           .p = p, .p_bytes = sizeof p, .za = za, .za_bytes = sizeof za};
    uint32_t answer = SME_DONE;
    settings.streaming = settings.za_on = true;
    for (int i = 0; i < 2 && answer == SME_DONE; i++) {
        uint64_t address;
        answer = sme_settings_execute(settings, kernel[i], buffers, &address);
    }
    printf("at %d bytes: %s\n", (int)vector_bytes, sme_answer_text(answer));
    print("row 5", za + 5 * LARGEST);
    print("row 21", za + 21 * LARGEST);
    print("vector 1", z + LARGEST);
    return answer;
}

int main(void)
{
    memset(p, 0xFF, sizeof p); /* every element is active */
    memset(za, '.', sizeof za);
    memset(z, '-', sizeof z);
    memcpy(z, "abcdefghijklmnopqrstuvwxyzABCDEFGHIJKLMNOPQRSTUVWXYZ0123456789+/", LARGEST);
    x[12] = 21;
    return run(16) != SME_DONE || run(64) != SME_DONE;
}
