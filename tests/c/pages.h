/* Pages of address space. Where the system has none to give, the program ends: no test passes for want of room. */
#ifndef PAGES_H
#define PAGES_H

#include <stddef.h>
#include <stdint.h>

size_t page_size(void);

/* The bytes of the pages that so many bytes need. */
size_t whole_pages(size_t bytes);

/* Zeros that can be touched as `how` says (PROT_NONE and the like), without memory until they are written. */
uint8_t *pages_new(size_t bytes, int how);

/* From now on these pages can be touched as `how` says. */
void pages_protect(uint8_t *pages, size_t bytes, int how);

#endif
