#include "guarded.h"
#include "pages.h"

#include <string.h>
#include <sys/mman.h>

enum { GUARD = 0xA5, GUARD_BYTES = 64 };

bool guarded_touch_front;
size_t guarded_behind;

/* A forbidden page, the buffer and guard bytes, and behind them forbidden pages again. */
guarded guarded_new(size_t length, uint8_t seed)
{
    size_t page = page_size();
    guarded made;
    made.room = whole_pages(length + GUARD_BYTES);
    made.page_bytes = page + made.room + whole_pages(guarded_behind) + page;
    made.pages = pages_new(made.page_bytes, PROT_NONE);
    pages_protect(made.pages + page, made.room, PROT_READ | PROT_WRITE);
    memset(made.pages + page, GUARD, made.room);
    made.bytes = made.pages + page + (guarded_touch_front ? 0 : made.room - length);
    made.length = length;
    for (size_t i = 0; i < length; i++) {
        made.bytes[i] = (uint8_t)((i * 7 + seed) % 251 + 1);
    }
    return made;
}

void guarded_read_only(const guarded *buffer)
{
    pages_protect(buffer->pages + page_size(), buffer->room, PROT_READ);
}

static bool all_guards(const uint8_t *from, const uint8_t *to)
{
    while (from < to && *from == GUARD) {
        from++;
    }
    return from == to;
}

bool guarded_check(const guarded *buffer)
{
    const uint8_t *first = buffer->pages + page_size();
    return all_guards(first, buffer->bytes) &&
           all_guards(buffer->bytes + buffer->length, first + buffer->room);
}

void guarded_free(guarded *buffer)
{
    munmap(buffer->pages, buffer->page_bytes);
}
