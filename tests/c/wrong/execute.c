/*
 * Deliberately wrong units: linked between the tests and the archive (the linker's --wrap), this hands each call of
 * sme_execute_word on with one mistake about sizes, about buffers that are laid out for longer vectors or about results,
 * which the environment variable WRONG names. The tests must notice each.
 */
#include "sme_move.h"

#include <stdio.h>
#include <stdlib.h>
#include <string.h>

#define IN_16_BITS UINT64_C(0xFFFF)
#define IN_32_BITS UINT64_C(0xFFFFFFFF)

/* What loads and stores of columns, and stores of 16-byte elements, have in their words. */
#define COLUMN UINT64_C(0x8000)
#define STORE_OF_16_BYTES UINT64_C(0x1E00000)

/* The longest memory that the mistake about long memory lets pass. */
enum { LONGEST_ALLOWED = 4096 };

enum what {
    /* nothing is wrong: this file by itself makes no test fail */
    NONE,
    /* the length of one buffer is compared in its low bits alone, that of X also by its bytes */
    X,
    X_BYTES,
    Z,
    P,
    ZA,
    /* memory has so many bytes as the low bits of its length say */
    MEMORY_LENGTH,
    /* an element is looked for in memory where the low bits of element 0's place say */
    MEMORY_OFFSET,
    /* the same of accesses alone that are not wholly in memory, of stores, and of stores beside their right place */
    END_OFFSET,
    STORE_OFFSET,
    STORE_TWICE,
    /* whether memory ends above 2^64 is worked out with the low bits of its length */
    MEMORY_END,
    /* memory of more than 4,096 bytes is refused with 2 */
    LONG_MEMORY,
    /* the largest vector length is taken as missing, as missing where it is 0, or by its low bits alone */
    LARGEST_MISSING,
    LARGEST_MISSING_IF_0,
    LARGEST_LOW,
    /* one that is below the vector length passes for it */
    LARGEST_BELOW,
    /* predicates start an eighth of the vector length apart; one with a bit beyond that eighth has element 0 active */
    PREDICATES_CLOSE,
    PREDICATES_LONG,
    /* a done word clears vector registers or vectors of ZA beyond the vector length, or the vectors of ZA from it on */
    CLEARS_BEYOND_Z,
    CLEARS_BEYOND_ZA,
    CLEARS_ZA_FROM,
    /* the element is never written, or not with another answer than 7, or also where there is no place for it */
    ELEMENT_MISSING,
    ELEMENT_KEPT,
    ELEMENT_WITHOUT_PLACE,
    /* it is told by its first byte's number, counted from 1 by words with these bits, or in the place of the address */
    ELEMENT_AS_BYTE,
    ELEMENT_FROM_1,
    ELEMENT_AS_ADDRESS,
    /* the lowest-numbered active element is told, or the lowest-numbered one outside memory */
    FIRST_ACTIVE,
    FIRST_OUTSIDE
};

typedef struct mistake {
    const char *name;
    enum what what;
    uint64_t bits;
} mistake;

static const mistake mistakes[] = {
    {"None", NONE, 0},
    {"XIn16Bits", X, IN_16_BITS},
    {"XIn32Bits", X, IN_32_BITS},
    {"XBytesIn16Bits", X_BYTES, IN_16_BITS},
    {"XBytesIn32Bits", X_BYTES, IN_32_BITS},
    {"ZIn16Bits", Z, IN_16_BITS},
    {"ZIn32Bits", Z, IN_32_BITS},
    {"PIn16Bits", P, IN_16_BITS},
    {"PIn32Bits", P, IN_32_BITS},
    {"ZaIn16Bits", ZA, IN_16_BITS},
    {"ZaIn32Bits", ZA, IN_32_BITS},
    {"MemoryLengthIn16Bits", MEMORY_LENGTH, IN_16_BITS},
    {"MemoryLengthIn32Bits", MEMORY_LENGTH, IN_32_BITS},
    {"MemoryOffsetIn16Bits", MEMORY_OFFSET, IN_16_BITS},
    {"MemoryOffsetIn32Bits", MEMORY_OFFSET, IN_32_BITS},
    {"EndOffsetIn16Bits", END_OFFSET, IN_16_BITS},
    {"EndOffsetIn32Bits", END_OFFSET, IN_32_BITS},
    {"StoreOffsetIn16Bits", STORE_OFFSET, IN_16_BITS},
    {"StoreOffsetIn32Bits", STORE_OFFSET, IN_32_BITS},
    {"StoreTwiceIn16Bits", STORE_TWICE, IN_16_BITS},
    {"StoreTwiceIn32Bits", STORE_TWICE, IN_32_BITS},
    {"MemoryEndIn32Bits", MEMORY_END, IN_32_BITS},
    {"LongMemoryRefused", LONG_MEMORY, 0},
    {"LargestMissing", LARGEST_MISSING, 0},
    {"LargestMissingIfZero", LARGEST_MISSING_IF_0, 0},
    {"LargestIn16Bits", LARGEST_LOW, IN_16_BITS},
    {"LargestIn32Bits", LARGEST_LOW, IN_32_BITS},
    {"LargestBelowPasses", LARGEST_BELOW, 0},
    {"PredicatesClose", PREDICATES_CLOSE, 0},
    {"PredicatesLong", PREDICATES_LONG, 0},
    {"ClearsBeyondZ", CLEARS_BEYOND_Z, 0},
    {"ClearsBeyondZa", CLEARS_BEYOND_ZA, 0},
    {"ClearsZaFromB", CLEARS_ZA_FROM, 0},
    {"ElementMissing", ELEMENT_MISSING, 0},
    {"ElementKept", ELEMENT_KEPT, 0},
    {"ElementWithoutPlace", ELEMENT_WITHOUT_PLACE, 0},
    {"ElementAsByte", ELEMENT_AS_BYTE, 0},
    {"ElementFromOne", ELEMENT_FROM_1, 0},
    {"ElementFromOneInColumns", ELEMENT_FROM_1, COLUMN},
    {"ElementFromOneInLongStores", ELEMENT_FROM_1, STORE_OF_16_BYTES},
    {"ElementAsAddress", ELEMENT_AS_ADDRESS, 0},
    {"FirstActiveElement", FIRST_ACTIVE, 0},
    {"FirstElementOutside", FIRST_OUTSIDE, 0},
};

/* What a call hands over; the tests with mistakes give every setting, as the wrappers do. */
typedef struct call {
    sme_settings settings;
    size_t settings_count;
    uint32_t word;
    sme_buffers lent;
    uint64_t *results;
    size_t results_count;
} call;

static const mistake *chosen(void)
{
    const char *name = getenv("WRONG");
    for (size_t i = 0; name != NULL && i < sizeof mistakes / sizeof mistakes[0]; i++) {
        if (strcmp(name, mistakes[i].name) == 0) {
            return &mistakes[i];
        }
    }
    fprintf(stderr, "WRONG names no mistake\n");
    exit(2);
}

/* A length with the low bits of the right one passes for it. */
static void compare_low(size_t *length, size_t right, uint64_t bits)
{
    if ((*length & bits) == (right & bits)) {
        *length = right;
    }
}

static void compare_bytes_of_x(size_t *count, uint64_t bits)
{
    size_t bytes = *count * sizeof(uint64_t);
    compare_low(&bytes, SME_X_COUNT * sizeof(uint64_t), bits);
    *count = bytes / sizeof(uint64_t);
}

static bool is_access(uint32_t word)
{
    return word >> 25 == 0x70;
}

static bool is_store(uint32_t word)
{
    return is_access(word) && (word >> 21 & 1) == 1;
}

/* The bytes of an element of a load or store. */
static size_t element_bytes(uint32_t word)
{
    return (size_t)1 << ((word >> 22 & 3) + (word >> 24 & 1));
}

/*
 * The place of element 0 in memory, or one that memory has not. The tests that have long memory or look for an element
 * have zero in the offset register.
 */
static uint64_t place_of(const call *own)
{
    if (!is_access(own->word) || own->lent.x_count != SME_X_COUNT) {
        return UINT64_MAX;
    }
    return own->lent.x[own->word >> 5 & 31] - own->settings.memory_address;
}

static void misplace(call *own, uint64_t bits)
{
    uint64_t place = place_of(own);
    if (place < own->lent.memory_bytes) {
        own->settings.memory_address += place & ~bits;
        own->lent.memory_bytes -= place & ~bits;
    }
}

/* Memory that ends above 2^64, and would not with fewer bytes, is taken to end there. */
static void end_low(const sme_settings *settings, sme_buffers *lent, uint64_t bits)
{
    uint64_t room = UINT64_C(0) - settings->memory_address;
    if (room != 0 && lent->memory_bytes > room && (lent->memory_bytes & bits) <= room) {
        lent->memory_bytes = room;
    }
}

/* The largest vector length is one that is not given. */
static void drop_largest(call *own)
{
    if (own->settings_count == SME_SETTING_COUNT) {
        own->settings_count = SME_SETTING_LARGEST_VECTOR_BYTES;
    }
}

static bool any(const uint8_t *bytes, size_t count)
{
    size_t i = 0;
    while (i < count && bytes[i] == 0) {
        i++;
    }
    return i < count;
}

/* Predicates in a copy of P, each read with this mistake. */
static void spoil_predicates(enum what what, call *own)
{
    static uint8_t copy[SME_P_BYTES(SME_MAX_VECTOR_BYTES)];
    const size_t used = own->settings.vector_bytes / 8, apart = own->settings.largest_vector_bytes / 8;
    if (own->lent.p_bytes != 16 * apart || own->lent.p_bytes > sizeof copy || used > apart) {
        return;
    }
    memcpy(copy, own->lent.p, own->lent.p_bytes);
    for (size_t i = 0; i < 16; i++) {
        uint8_t *predicate = copy + i * apart;
        if (what == PREDICATES_CLOSE) {
            memcpy(predicate, own->lent.p + i * used, used);
        } else if (any(predicate + used, apart - used)) {
            predicate[0] |= 1;
        }
    }
    own->lent.p = copy;
}

/* What a done word has to leave, cleared. */
static void clear_beyond(enum what what, const call *own)
{
    const size_t b = own->settings.vector_bytes, apart = own->settings.largest_vector_bytes;
    if (what == CLEARS_ZA_FROM) {
        memset(own->lent.za + b * apart, 0, (apart - b) * apart);
    }
    for (size_t i = 0; i < 32 && what == CLEARS_BEYOND_Z; i++) {
        memset(own->lent.z + i * apart + b, 0, apart - b);
    }
    for (size_t i = 0; i < b && what == CLEARS_BEYOND_ZA; i++) {
        memset(own->lent.za + i * apart + b, 0, apart - b);
    }
}

/* The number of the lowest element of a load or store with a byte outside memory. There is one. */
static uint64_t first_outside(const call *own)
{
    const uint64_t m = element_bytes(own->word);
    uint64_t place = place_of(own), element = 0;
    while (place < own->lent.memory_bytes && m <= own->lent.memory_bytes - place) {
        place += m;
        element++;
    }
    return element;
}

/* The number of the lowest active one. There is one. */
static uint64_t first_active(const call *own)
{
    const uint8_t *bits = own->lent.p + (own->word >> 10 & 7) * (own->settings.largest_vector_bytes / 8);
    uint64_t bit = 0;
    while ((bits[bit / 8] >> bit % 8 & 1) == 0) {
        bit += element_bytes(own->word);
    }
    return bit / element_bytes(own->word);
}

/* The element that is told with answer 7 by this mistake, if it is one about that, and else the right one. */
static uint64_t wrong_element(const mistake *wrong, const call *own, uint64_t right)
{
    switch (wrong->what) {
    case ELEMENT_AS_BYTE:
        return right * element_bytes(own->word);
    case ELEMENT_FROM_1:
        return right + ((own->word & wrong->bits) == wrong->bits);
    case FIRST_ACTIVE:
        return first_active(own);
    case FIRST_OUTSIDE:
        return first_outside(own);
    default:
        return right;
    }
}

/* Spoils the results of a call with this answer, before which this was in the element's place. */
static void spoil_results(const mistake *wrong, const call *own, uint32_t answer, uint64_t before)
{
    const enum what what = wrong->what;
    uint64_t *results = own->results;
    if (what == ELEMENT_WITHOUT_PLACE && own->results_count == SME_RESULT_ELEMENT) {
        results[SME_RESULT_ELEMENT] = 0;
    }
    if (own->results_count <= SME_RESULT_ELEMENT) {
        return;
    }
    if (what == ELEMENT_MISSING || (what == ELEMENT_KEPT && answer != SME_OUTSIDE_MEMORY)) {
        results[SME_RESULT_ELEMENT] = before;
    } else if (what == ELEMENT_AS_ADDRESS) {
        const uint64_t address = results[SME_RESULT_ADDRESS];
        results[SME_RESULT_ADDRESS] = results[SME_RESULT_ELEMENT];
        results[SME_RESULT_ELEMENT] = address;
    } else if (answer == SME_OUTSIDE_MEMORY) {
        results[SME_RESULT_ELEMENT] = wrong_element(wrong, own, results[SME_RESULT_ELEMENT]);
    }
}

/* Mistakes about the lengths of buffers other than memory. */
static void spoil_lengths(const mistake *wrong, call *own)
{
    const uint64_t apart = own->settings.largest_vector_bytes, bits = wrong->bits;
    sme_buffers *lent = &own->lent;
    switch (wrong->what) {
    case X:
        compare_low(&lent->x_count, SME_X_COUNT, bits);
        break;
    case X_BYTES:
        compare_bytes_of_x(&lent->x_count, bits);
        break;
    case Z:
        compare_low(&lent->z_bytes, SME_Z_BYTES(apart), bits);
        break;
    case P:
        compare_low(&lent->p_bytes, SME_P_BYTES(apart), bits);
        break;
    case ZA:
        compare_low(&lent->za_bytes, SME_ZA_BYTES(apart), bits);
        break;
    default:
        break;
    }
}

/* Mistakes about memory's length, and places in it. */
static void spoil_memory(const mistake *wrong, call *own)
{
    sme_buffers *lent = &own->lent;
    switch (wrong->what) {
    case MEMORY_LENGTH:
        lent->memory_bytes &= wrong->bits;
        break;
    case MEMORY_OFFSET:
        misplace(own, wrong->bits);
        break;
    case END_OFFSET:
        if (place_of(own) + own->settings.vector_bytes > lent->memory_bytes) {
            misplace(own, wrong->bits);
        }
        break;
    case STORE_OFFSET:
    case STORE_TWICE:
        if (is_store(own->word)) {
            misplace(own, wrong->bits);
        }
        break;
    case MEMORY_END:
        end_low(&own->settings, lent, wrong->bits);
        break;
    case LONG_MEMORY:
        /* no vector length has an empty X */
        lent->x_count = lent->memory_bytes > LONGEST_ALLOWED ? 0 : lent->x_count;
        break;
    default:
        break;
    }
}

/* Mistakes about the largest vector length, and where it has predicates start. */
static void spoil_largest(const mistake *wrong, call *own)
{
    const uint64_t b = own->settings.vector_bytes, apart = own->settings.largest_vector_bytes;
    switch (wrong->what) {
    case LARGEST_MISSING:
        drop_largest(own);
        break;
    case LARGEST_MISSING_IF_0:
        if (apart == 0) {
            drop_largest(own);
        }
        break;
    case LARGEST_LOW:
        own->settings.largest_vector_bytes &= wrong->bits;
        break;
    case LARGEST_BELOW:
        own->settings.largest_vector_bytes = apart < b ? b : apart;
        break;
    case PREDICATES_CLOSE:
    case PREDICATES_LONG:
        spoil_predicates(wrong->what, own);
        break;
    default:
        break;
    }
}

/* Mistakes that are made before the call is handed on; those about what a call leaves and gives are made after it. */
static void spoil(const mistake *wrong, call *own)
{
    spoil_lengths(wrong, own);
    spoil_memory(wrong, own);
    spoil_largest(wrong, own);
}

/* What the linker makes of the tests' calls, and how it lets this file call the archive. */
uint32_t __wrap_sme_execute_word(const uint64_t *settings, size_t settings_count, const uint64_t *x, size_t x_count,
                                 uint8_t *z, size_t z_bytes, const uint8_t *p, size_t p_bytes, uint8_t *za,
                                 size_t za_bytes, uint8_t *memory, size_t memory_bytes, uint64_t *results,
                                 size_t results_count, uint32_t word);
uint32_t __real_sme_execute_word(const uint64_t *settings, size_t settings_count, const uint64_t *x, size_t x_count,
                                 uint8_t *z, size_t z_bytes, const uint8_t *p, size_t p_bytes, uint8_t *za,
                                 size_t za_bytes, uint8_t *memory, size_t memory_bytes, uint64_t *results,
                                 size_t results_count, uint32_t word);

static uint32_t hand_on(call own)
{
    const sme_buffers *lent = &own.lent;
    uint64_t given[SME_SETTING_COUNT];
    sme_settings_give(own.settings, given);
    /* A count that is too large is handed on as such; nothing behind the settings is then read. */
    return __real_sme_execute_word(given, own.settings_count, lent->x, lent->x_count, lent->z, lent->z_bytes, lent->p,
                                   lent->p_bytes, lent->za, lent->za_bytes, lent->memory, lent->memory_bytes,
                                   own.results, own.results_count, own.word);
}

uint32_t __wrap_sme_execute_word(const uint64_t *settings, size_t settings_count, const uint64_t *x, size_t x_count,
                                 uint8_t *z, size_t z_bytes, const uint8_t *p, size_t p_bytes, uint8_t *za,
                                 size_t za_bytes, uint8_t *memory, size_t memory_bytes, uint64_t *results,
                                 size_t results_count, uint32_t word)
{
    uint64_t all[SME_SETTING_COUNT] = {0};
    for (size_t i = 0; i < settings_count && i < SME_SETTING_COUNT; i++) {
        all[i] = settings[i];
    }
    const uint64_t largest = settings_count < SME_SETTING_COUNT ? all[0] : all[6];
    const mistake *wrong = chosen();
    const call right = {{all[0], all[1], all[2] != 0, all[3] != 0, all[4], all[5] != 0, largest},
                        settings_count,
                        word,
                        {x, x_count, z, z_bytes, p, p_bytes, za, za_bytes, memory, memory_bytes},
                        results,
                        results_count};
    call own = right;
    spoil(wrong, &own);
    const uint64_t before = results_count > SME_RESULT_ELEMENT ? results[SME_RESULT_ELEMENT] : 0;
    uint32_t answer = hand_on(own);
    spoil_results(wrong, &own, answer, before);
    if (answer == SME_DONE) {
        clear_beyond(wrong->what, &own);
    }
    return wrong->what == STORE_TWICE && is_store(word) ? hand_on(right) : answer;
}
