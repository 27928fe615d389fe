#define _DEFAULT_SOURCE
#include "pages.h"

#include <stdio.h>
#include <stdlib.h>
#include <sys/mman.h>
#include <unistd.h>

size_t page_size(void)
{
    return (size_t)sysconf(_SC_PAGESIZE);
}

size_t whole_pages(size_t bytes)
{
    return (bytes + page_size() - 1) / page_size() * page_size();
}

uint8_t *pages_new(size_t bytes, int how)
{
    uint8_t *pages = mmap(NULL, bytes, how, MAP_PRIVATE | MAP_ANONYMOUS | MAP_NORESERVE, -1, 0);
    if (pages == MAP_FAILED) {
        perror("mmap");
        exit(2);
    }
    return pages;
}

void pages_protect(uint8_t *pages, size_t bytes, int how)
{
    if (mprotect(pages, bytes, how) != 0) {
        perror("mprotect");
        exit(2);
    }
}
