/*
 * No host: linked between a host and the archive (the linker's --wrap), this tells on standard error what each call that
 * takes settings is answered, a line for each.
 */
#include "sme_move.h"

#include <stdio.h>

uint32_t __wrap_sme_check(const uint64_t *settings, size_t settings_count);
uint32_t __real_sme_check(const uint64_t *settings, size_t settings_count);
uint32_t __wrap_sme_measure(const uint64_t *settings, size_t settings_count, uint64_t *lengths);
uint32_t __real_sme_measure(const uint64_t *settings, size_t settings_count, uint64_t *lengths);
uint32_t __wrap_sme_execute_word(const uint64_t *settings, size_t settings_count, const uint64_t *x, size_t x_count,
                                 uint8_t *z, size_t z_bytes, const uint8_t *p, size_t p_bytes, uint8_t *za,
                                 size_t za_bytes, uint8_t *memory, size_t memory_bytes, uint64_t *results,
                                 size_t results_count, uint32_t word);
uint32_t __real_sme_execute_word(const uint64_t *settings, size_t settings_count, const uint64_t *x, size_t x_count,
                                 uint8_t *z, size_t z_bytes, const uint8_t *p, size_t p_bytes, uint8_t *za,
                                 size_t za_bytes, uint8_t *memory, size_t memory_bytes, uint64_t *results,
                                 size_t results_count, uint32_t word);

static uint32_t tell(const char *call, uint32_t answer)
{
    fprintf(stderr, "%s %u\n", call, (unsigned)answer);
    return answer;
}

uint32_t __wrap_sme_check(const uint64_t *settings, size_t settings_count)
{
    return tell("check", __real_sme_check(settings, settings_count));
}

uint32_t __wrap_sme_measure(const uint64_t *settings, size_t settings_count, uint64_t *lengths)
{
    return tell("measure", __real_sme_measure(settings, settings_count, lengths));
}

uint32_t __wrap_sme_execute_word(const uint64_t *settings, size_t settings_count, const uint64_t *x, size_t x_count,
                                 uint8_t *z, size_t z_bytes, const uint8_t *p, size_t p_bytes, uint8_t *za,
                                 size_t za_bytes, uint8_t *memory, size_t memory_bytes, uint64_t *results,
                                 size_t results_count, uint32_t word)
{
    return tell("execute", __real_sme_execute_word(settings, settings_count, x, x_count, z, z_bytes, p, p_bytes, za,
                                                   za_bytes, memory, memory_bytes, results, results_count, word));
}
