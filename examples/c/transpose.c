/*
 * Transposes a matrix in memory: each of its rows is loaded to a row of a tile, and each column of the tile is stored.
 *
 *     bash archive.sh
 *     gcc -std=c11 -Iinclude examples/c/transpose.c target/staticlib/libsme_move.a -o transpose
 *     ./transpose
 */
#include "sme_move.h"

#include <inttypes.h>
#include <stdio.h>
#include <stdlib.h>
#include <string.h>

enum {
    B = 64,   /* the vector length in bytes */
    M = 4,    /* the bytes of an element */
    N = B / M /* a tile has so many rows and columns, and so has the matrix */
};

/* Where the simulated machine has the matrix, and where the transpose is to be. */
#define MATRIX 0x10000
#define TRANSPOSE (MATRIX + N * B)

/* The registers that the two words go by. */
enum {
    MATRIX_BASE = 0,
    TRANSPOSE_BASE = 1,
    ELEMENTS = 2, /* the offset from the base, in elements */
    SLICE = 12    /* the row or column of the tile */
};

static void check(uint32_t answer, const char *what)
{
    if (answer != SME_DONE) {
        fprintf(stderr, "%s: answer %" PRIu32 ", %s\n", what, answer, sme_answer_text(answer));
        exit(1);
    }
}

/* A load or store of a slice of tile 0, all of whose numbers but these are the same for both. */
static uint32_t word_of(enum sme_kind kind, enum sme_direction direction, uint8_t base)
{
    const uint8_t fields[SME_FIELD_COUNT] = {
        [SME_FIELD_KIND] = (uint8_t)kind,
        [SME_FIELD_ELEMENT_BYTES] = M,
        [SME_FIELD_DIRECTION] = (uint8_t)direction,
        [SME_FIELD_INDEX_REGISTER] = SLICE,
        [SME_FIELD_BASE_REGISTER] = base,
        [SME_FIELD_OFFSET_REGISTER] = ELEMENTS,
    };
    uint32_t word;
    check(sme_encode(fields, &word), "encoding");
    return word;
}

static void print(const char *title, uint32_t matrix[N][N])
{
    printf("%s\n", title);
    for (int row = 0; row < N; row++) {
        for (int column = 0; column < N; column++) {
            printf("%5" PRIu32, matrix[row][column]);
        }
        printf("\n");
    }
}

static bool is_transpose(uint32_t one[N][N], uint32_t other[N][N])
{
    for (int row = 0; row < N; row++) {
        for (int column = 0; column < N; column++) {
            if (one[row][column] != other[column][row]) {
                return false;
            }
        }
    }
    return true;
}

int main(void)
{
    static uint64_t x[SME_X_COUNT];
    static uint8_t z[SME_Z_BYTES(B)], p[SME_P_BYTES(B)], za[SME_ZA_BYTES(B)];
    static uint32_t memory[2][N][N]; /* the matrix, and behind it room for the transpose */
    for (int row = 0; row < N; row++) {
        for (int column = 0; column < N; column++) {
            memory[0][row][column] = (uint32_t)(100 * row + column);
        }
    }
    print("before", memory[0]);

    sme_settings settings = sme_settings_new(B, 1);
    settings = sme_settings_with_streaming(settings, true);
    settings = sme_settings_with_za(settings, true);
    settings = sme_settings_with_memory_address(settings, MATRIX);
    sme_buffers buffers = {.x = x, .x_count = SME_X_COUNT, .z = z, .z_bytes = sizeof z,
                           .p = p, .p_bytes = sizeof p, .za = za, .za_bytes = sizeof za,
                           .memory = (uint8_t *)memory, .memory_bytes = sizeof memory};
    memset(p, 0xFF, sizeof p); /* every element is active */
    x[MATRIX_BASE] = MATRIX;
    x[TRANSPOSE_BASE] = TRANSPOSE;

    const uint32_t words[2] = {word_of(SME_KIND_LOAD, SME_HORIZONTAL, MATRIX_BASE),
                               word_of(SME_KIND_STORE, SME_VERTICAL, TRANSPOSE_BASE)};
    for (int i = 0; i < 2; i++) { /* all rows in, and then all columns out */
        for (uint64_t slice = 0; slice < N; slice++) {
            uint64_t address;
            x[SLICE] = slice;
            x[ELEMENTS] = slice * N;
            check(sme_settings_execute(settings, words[i], buffers, &address), "executing");
        }
    }
    print("after", memory[1]);
    return is_transpose(memory[0], memory[1]) ? 0 : 1;
}
