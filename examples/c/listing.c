/*
 * Runs listings, many words by one call. The first transposes a matrix: four vector registers go to the rows of a tile, and
 * its columns to four others. The second stores the rows to memory, one of them where there is none; the host goes on with
 * the words behind that one.
 *
 *     bash archive.sh
 *     gcc -std=c11 -Iinclude examples/c/listing.c target/staticlib/libsme_move.a -o listing
 *     ./listing
 */
#include "sme_move.h"

#include <inttypes.h>
#include <stdio.h>
#include <stdlib.h>
#include <string.h>

enum {
    B = 16,         /* the vector length in bytes */
    M = 4,          /* the bytes of an element */
    N = B / M,      /* a tile has so many rows and columns, and so has the matrix */
    MEMORY = 0x1000 /* where the simulated machine has memory */
};

static uint64_t x[SME_X_COUNT];
static uint32_t z[32][N], memory[N][N];
static uint8_t p[SME_P_BYTES(B)], za[SME_ZA_BYTES(B)];

/* A word with these fields as the next of a listing. */
static uint8_t *put(uint8_t *next, const uint8_t fields[SME_FIELD_COUNT])
{
    uint32_t word;
    if (sme_encode(fields, &word) != SME_DONE) {
        abort();
    }
    for (int i = 0; i < 4; i++) { /* lowest byte first */
        *next++ = (uint8_t)(word >> 8 * i);
    }
    return next;
}

/* A slice of tile 0 to or from a vector register. */
static uint8_t *put_move(uint8_t *next, enum sme_kind kind, enum sme_direction direction, int slice, int vector)
{
    const uint8_t fields[SME_FIELD_COUNT] = {
        [SME_FIELD_KIND] = (uint8_t)kind,
        [SME_FIELD_ELEMENT_BYTES] = M,
        [SME_FIELD_DIRECTION] = (uint8_t)direction,
        [SME_FIELD_OFFSET] = (uint8_t)slice,
        [SME_FIELD_INDEX_REGISTER] = 12,
        [SME_FIELD_FIRST_VECTOR_REGISTER] = (uint8_t)vector,
        [SME_FIELD_VECTOR_REGISTERS] = 1,
    };
    return put(next, fields);
}

/* A row of tile 0 to the address in a register. */
static uint8_t *put_store(uint8_t *next, int row, int base)
{
    const uint8_t fields[SME_FIELD_COUNT] = {
        [SME_FIELD_KIND] = SME_KIND_STORE,
        [SME_FIELD_ELEMENT_BYTES] = M,
        [SME_FIELD_OFFSET] = (uint8_t)row,
        [SME_FIELD_INDEX_REGISTER] = 12,
        [SME_FIELD_BASE_REGISTER] = (uint8_t)base,
        [SME_FIELD_OFFSET_REGISTER] = 31, /* reads as zero */
    };
    return put(next, fields);
}

/* Runs a listing, and tells how far it came: the number of words that were done. */
static size_t run(const char *name, const uint8_t *listing, size_t bytes)
{
    sme_settings settings = sme_settings_new(B, 1);
    settings.streaming = settings.za_on = true;
    settings.memory_address = MEMORY;
    sme_buffers buffers = {.x = x, .x_count = SME_X_COUNT, .z = (uint8_t *)z, .z_bytes = sizeof z,
                           .p = p, .p_bytes = sizeof p, .za = za, .za_bytes = sizeof za,
                           .memory = (uint8_t *)memory, .memory_bytes = sizeof memory};
    uint64_t results[SME_RESULT_COUNT];
    uint32_t answer =
        sme_settings_run(settings, listing, bytes, SME_ALLOWANCE_ALL, buffers, results, SME_RESULT_COUNT);
    printf("%s: %" PRIu64 " of %zu words done; answer %" PRIu32 ", %s\n", name, results[SME_RESULT_WORDS], bytes / 4,
           answer, sme_answer_text(answer));
    if (answer == SME_OUTSIDE_MEMORY) {
        printf("  address %" PRIX64 " of element %" PRIu64 "\n", results[SME_RESULT_ADDRESS],
               results[SME_RESULT_ELEMENT]);
    }
    return (size_t)results[SME_RESULT_WORDS];
}

static void print(const char *title, uint32_t rows[N][N])
{
    printf("%s\n", title);
    for (int row = 0; row < N; row++) {
        for (int column = 0; column < N; column++) {
            printf("%5" PRIu32, rows[row][column]);
        }
        printf("\n");
    }
}

int main(void)
{
    uint8_t transpose[2 * N * 4], stores[N * 4], *next = transpose;
    memset(p, 0xFF, sizeof p); /* every element is active */
    for (int row = 0; row < N; row++) {
        for (int column = 0; column < N; column++) {
            z[row][column] = (uint32_t)(100 * row + column);
        }
    }
    for (int row = 0; row < N; row++) {
        next = put_move(next, SME_KIND_MOVE_TO_TILE, SME_HORIZONTAL, row, row);
    }
    for (int column = 0; column < N; column++) {
        next = put_move(next, SME_KIND_MOVE_FROM_TILE, SME_VERTICAL, column, N + column);
    }
    print("vector registers 0 to 3", z);
    const size_t moved = run("rows in and columns out", transpose, sizeof transpose);
    print("vector registers 4 to 7", z + N);

    next = stores;
    for (int row = 0; row < N; row++) {
        x[row] = (uint64_t)(MEMORY + row * B);
        next = put_store(next, row, row);
    }
    x[2] = MEMORY + sizeof memory - M; /* where there is room for one element */
    const size_t stored = run("rows to memory", stores, sizeof stores);
    const size_t behind = 4 * (stored + 1); /* passes over the word that was refused */
    const size_t rest = run("behind the refused word", stores + behind, sizeof stores - behind);
    print("memory", memory);
    return !(moved == 2 * N && stored + rest == N - 1);
}
