/*
 * Memory of more bytes than the machine may have to give. Only windows of it can be written, three pages around each of
 * some places. A write elsewhere ends the program, and so does touching the page behind; what is read outside of the
 * windows is zero.
 */
#ifndef SPARSE_H
#define SPARSE_H

#include <stdbool.h>
#include <stddef.h>
#include <stdint.h>

enum { SPARSE_WINDOWS = 4 };

typedef struct sparse {
    uint8_t *bytes;
    size_t length;
    struct window {
        size_t first, length;
        /* what it should hold after the call */
        uint8_t *wanted;
    } windows[SPARSE_WINDOWS];
} sparse;

/* The bytes in the windows are not zero, and differ from their neighbours and from those of other windows. */
sparse sparse_new(size_t length, const size_t places[SPARSE_WINDOWS]);

/* The byte at this place should be this one after the call. */
void sparse_want(sparse *memory, size_t place, uint8_t byte);

/* Whether every byte that can be written is as wanted. */
bool sparse_check(const sparse *memory);

void sparse_free(sparse *memory);

#endif
