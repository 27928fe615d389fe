/*
 * Buffers of exact length between guard bytes and pages that may not be touched at all: a write beside the
 * buffer is found by guarded_check or ends the program, a read beside it at the touching end ends the program.
 */
#ifndef GUARDED_H
#define GUARDED_H

#include <stdbool.h>
#include <stddef.h>
#include <stdint.h>

typedef struct guarded {
    uint8_t *pages;
    size_t page_bytes;
    /* of these, the bytes between the forbidden pages */
    size_t room;
    uint8_t *bytes;
    size_t length;
} guarded;

/* Whether buffers made from now on touch the forbidden page before them, and not the one behind. */
extern bool guarded_touch_front;

/*
 * How many bytes behind buffers made from now on may not be touched, beside one page: address space without memory. A
 * host can lend a buffer with that much more than it has.
 */
extern size_t guarded_behind;

/* A buffer whose bytes differ from their neighbours and from those of other seeds. */
guarded guarded_new(size_t length, uint8_t seed);

/* From now on a write to the buffer ends the program. */
void guarded_read_only(const guarded *buffer);

/* Whether the guard bytes are as they were made. */
bool guarded_check(const guarded *buffer);

void guarded_free(guarded *buffer);

#endif
