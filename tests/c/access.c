#include "access.h"

/* Each by rows. */
static const access rows[] = {
    {1, 0xE0020020, true, false},   {1, 0xE0220020, false, false},  {2, 0xE0420028, true, false},
    {2, 0xE0620028, false, false},  {4, 0xE082002C, true, false},   {4, 0xE0A2002C, false, false},
    {8, 0xE0C2002E, true, false},   {8, 0xE0E2002E, false, false},  {16, 0xE1C2002F, true, false},
    {16, 0xE1E2002F, false, false},
};

/* What makes a row a column. */
enum { COLUMN = 0x8000 };

/* The slice number before it is taken modulo the number of slices. */
enum { INDEX = 0x103 };

access access_at(size_t number)
{
    access how = rows[number / 2];
    how.vertical = number % 2 == 1;
    how.word |= how.vertical ? COLUMN : 0;
    return how;
}

machine machine_at(uint64_t b, uint64_t apart, size_t memory_bytes, uint64_t address)
{
    machine made = machine_within(b, apart, memory_bytes);
    set_x(&made, 12, INDEX);
    set_x(&made, 1, address);
    set_x(&made, 2, 0);
    return made;
}

size_t elements(const machine *own, const access *how)
{
    return own->settings.vector_bytes / how->m;
}

void set_inactive(machine *own, const access *how, size_t e)
{
    size_t bit = e * how->m;
    own->p.bytes[bit / 8] = (uint8_t)(own->p.bytes[bit / 8] & ~(1u << bit % 8));
}

bool is_active(const machine *own, const access *how, size_t e)
{
    size_t bit = e * how->m;
    return own->p.bytes[bit / 8] >> bit % 8 & 1;
}

size_t place(const machine *own, const access *how, size_t e)
{
    size_t slice = INDEX % elements(own, how);
    size_t row = how->vertical ? e : slice, column = how->vertical ? slice : e;
    return (row * how->m + how->m - 1) * own->settings.largest_vector_bytes + column * how->m;
}
