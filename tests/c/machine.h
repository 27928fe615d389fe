/* Buffers that a word or a listing is executed on, with what they should hold after it. */
#ifndef MACHINE_H
#define MACHINE_H

#include "guarded.h"
#include "sme_move.h"

/* A machine's buffers, and copies that say what they and the results should hold after the call. */
typedef struct machine {
    sme_settings settings;
    guarded x, z, p, za, memory;
    uint8_t *wanted_z, *wanted_za, *wanted_memory;
    uint64_t wanted_results[SME_RESULT_COUNT];
} machine;

/* The lengths of a machine's buffers, in bytes. */
typedef struct lengths {
    size_t x, z, p, za, memory;
} lengths;

lengths right_lengths(uint64_t largest_vector_bytes, size_t memory_bytes);

/*
 * Level 3, streaming, the array and the stack check on, memory at address 1000 hex. Every bit of P is set, also beyond
 * the vector length. Results are wanted to be 0, as they are with every answer but one.
 */
machine machine_with(uint64_t vector_bytes, uint64_t largest_vector_bytes, lengths bytes);

/* With buffers that are laid out for vectors of the largest length. */
machine machine_within(uint64_t vector_bytes, uint64_t largest_vector_bytes, size_t memory_bytes);

machine machine_new(uint64_t vector_bytes, size_t memory_bytes);

void set_x(machine *own, size_t number, uint64_t value);

/* Leaves only the elements active whose numbers are multiples of step; bits that are not looked at stay set. */
void set_active(machine *own, size_t predicate, size_t element_bytes, size_t step);

/* The results that are wanted with SME_OUTSIDE_MEMORY. */
void want_outside(machine *own, uint64_t address, uint64_t element);

/* The buffers with their lengths; an empty memory is (NULL, 0). */
sme_buffers lend(const machine *own);

void machine_free(machine *own);

/* Holds every byte of Z, ZA and memory, and what is beside them, to what is wanted. */
void expect_buffers(const machine *own);

/*
 * Executes, X and P on pages that can't be written, and holds answer, results and every byte to what is wanted. The
 * machine is freed.
 */
void expect(machine *own, uint32_t word, uint32_t wanted);

/* The same, with lengths or a memory that are not the machine's. */
void expect_lent(machine *own, sme_buffers lent, uint32_t word, uint32_t wanted);

#endif
