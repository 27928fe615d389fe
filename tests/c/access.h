/* Loads and stores of every element size, by rows and by columns, and the machines that they run on. */
#ifndef ACCESS_H
#define ACCESS_H

#include "machine.h"

/* A load or store of a slice of tile m - 1: index register 12, predicate 0, base register 1, offset register 2. */
typedef struct access {
    size_t m;
    uint32_t word;
    bool load, vertical;
} access;

/* How many there are. */
enum { ACCESSES = 20 };

access access_at(size_t number);

/* A machine whose vectors start so far apart, and on which element 0 is at this address, by the base register. */
machine machine_at(uint64_t b, uint64_t apart, size_t memory_bytes, uint64_t address);

size_t elements(const machine *own, const access *how);

void set_inactive(machine *own, const access *how, size_t e);

bool is_active(const machine *own, const access *how, size_t e);

/* Where element e of the slice begins in ZA. */
size_t place(const machine *own, const access *how, size_t e);

#endif
