#include "sparse.h"
#include "check.h"
#include "pages.h"

#include <string.h>
#include <sys/mman.h>

/* Makes the pages of a window writable. Windows of places that are close to each other share pages. */
static struct window window_new(const sparse *memory, size_t place)
{
    size_t page = page_size(), end = whole_pages(memory->length);
    size_t in = place / page * page;
    size_t first = in < page ? 0 : in - page;
    size_t behind = end - first < 3 * page ? end : first + 3 * page;
    pages_protect(memory->bytes + first, behind - first, PROT_READ | PROT_WRITE);
    for (size_t i = first; i < behind && i < memory->length; i++) {
        memory->bytes[i] = (uint8_t)((i * 7 + 200) % 251 + 1);
    }
    struct window made = {first, behind - first, malloc(behind - first)};
    CHECK(made.wanted != NULL);
    memcpy(made.wanted, memory->bytes + first, made.length);
    return made;
}

sparse sparse_new(size_t length, const size_t places[SPARSE_WINDOWS])
{
    sparse made;
    made.length = length;
    made.bytes = pages_new(whole_pages(length) + page_size(), PROT_READ);
    pages_protect(made.bytes + whole_pages(length), page_size(), PROT_NONE);
    for (size_t i = 0; i < SPARSE_WINDOWS; i++) {
        made.windows[i] = window_new(&made, places[i]);
    }
    return made;
}

void sparse_want(sparse *memory, size_t place, uint8_t byte)
{
    bool found = false;
    for (size_t i = 0; i < SPARSE_WINDOWS; i++) {
        struct window *own = &memory->windows[i];
        if (place >= own->first && place - own->first < own->length) {
            own->wanted[place - own->first] = byte;
            found = true;
        }
    }
    CHECK(found);
}

bool sparse_check(const sparse *memory)
{
    for (size_t i = 0; i < SPARSE_WINDOWS; i++) {
        const struct window *own = &memory->windows[i];
        if (memcmp(memory->bytes + own->first, own->wanted, own->length) != 0) {
            return false;
        }
    }
    return true;
}

void sparse_free(sparse *memory)
{
    for (size_t i = 0; i < SPARSE_WINDOWS; i++) {
        free(memory->windows[i].wanted);
    }
    munmap(memory->bytes, whole_pages(memory->length) + page_size());
}
