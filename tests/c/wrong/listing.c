/*
 * Deliberately wrong units: linked between the tests and the archive (the linker's --wrap), this runs each listing word by
 * word, by calls of sme_run_listing with a listing of one, and makes one mistake on the way, which the environment variable
 * WRONG names. The tests must notice each. With no mistake they notice nothing.
 */
#include "sme_move.h"

#include <stdbool.h>
#include <stdio.h>
#include <stdlib.h>
#include <string.h>

#define IN_16_BITS UINT64_C(0xFFFF)
#define IN_32_BITS UINT64_C(0xFFFFFFFF)

enum what {
    NONE,
    /* the highest byte of a word is taken to be first */
    HIGHEST_BYTE_FIRST,
    /* so many words more or less are allowed, or as many as these bits of the allowance say */
    ALLOWANCE_ONE_MORE,
    ALLOWANCE_ONE_LESS,
    ALLOWANCE_LOW,
    /* the allowance counts bytes */
    ALLOWANCE_IN_BYTES,
    /* one with the highest bit set is below 0 */
    ALLOWANCE_SIGNED,
    /* the listing has as many bytes, or as many words, as these bits say */
    LENGTH_LOW,
    WORDS_LOW,
    /* 9 comes before 1, or before 2, or is given when the cut word is reached, or not with allowance 0, or never */
    NINE_BEFORE_1,
    NINE_BEFORE_2,
    NINE_WHERE_REACHED,
    NINE_NOT_AT_0,
    NINE_NEVER,
    /* settings and lengths are not checked where no word is run, because there is none or because none is allowed */
    EMPTY_NOT_CHECKED,
    ALLOWANCE_0_NOT_CHECKED,
    /* words behind a refused one are run too; those before it are undone */
    GOES_ON,
    UNDOES,
    /* the refused word is counted; the count has these bits only */
    STOPPING_WORD_COUNTED,
    COUNT_LOW,
    /* the count is never written, or not with 1, 2 and 9, or also where there is no place for it, or in the first place */
    WORDS_MISSING,
    WORDS_KEPT,
    WORDS_WITHOUT_PLACE,
    WORDS_FIRST,
    /* address and element are 0, also with 7 */
    FAULT_MISSING
};

typedef struct mistake {
    const char *name;
    enum what what;
    uint64_t bits;
} mistake;

static const mistake mistakes[] = {
    {"None", NONE, 0},
    {"HighestByteFirst", HIGHEST_BYTE_FIRST, 0},
    {"AllowanceOneMore", ALLOWANCE_ONE_MORE, 0},
    {"AllowanceOneLess", ALLOWANCE_ONE_LESS, 0},
    {"AllowanceIn16Bits", ALLOWANCE_LOW, IN_16_BITS},
    {"AllowanceIn32Bits", ALLOWANCE_LOW, IN_32_BITS},
    {"AllowanceInBytes", ALLOWANCE_IN_BYTES, 0},
    {"AllowanceSigned", ALLOWANCE_SIGNED, 0},
    {"LengthIn16Bits", LENGTH_LOW, IN_16_BITS},
    {"LengthIn32Bits", LENGTH_LOW, IN_32_BITS},
    {"WordsIn16Bits", WORDS_LOW, IN_16_BITS},
    {"WordsIn32Bits", WORDS_LOW, IN_32_BITS},
    {"NineBeforeOne", NINE_BEFORE_1, 0},
    {"NineBeforeTwo", NINE_BEFORE_2, 0},
    {"NineOnlyWhereReached", NINE_WHERE_REACHED, 0},
    {"NineNotWithAllowance0", NINE_NOT_AT_0, 0},
    {"NineNever", NINE_NEVER, 0},
    {"EmptyNotChecked", EMPTY_NOT_CHECKED, 0},
    {"Allowance0NotChecked", ALLOWANCE_0_NOT_CHECKED, 0},
    {"GoesOnAfterRefusal", GOES_ON, 0},
    {"RefusalUndoesAll", UNDOES, 0},
    {"StoppingWordCounted", STOPPING_WORD_COUNTED, 0},
    {"CountIn16Bits", COUNT_LOW, IN_16_BITS},
    {"WordsMissing", WORDS_MISSING, 0},
    {"WordsKept", WORDS_KEPT, 0},
    {"WordsWithoutPlace", WORDS_WITHOUT_PLACE, 0},
    {"WordsFirst", WORDS_FIRST, 0},
    {"FaultMissing", FAULT_MISSING, 0},
};

/* What a call hands over. */
typedef struct call {
    const uint64_t *settings;
    size_t settings_count;
    sme_buffers lent;
    const uint8_t *listing;
    size_t listing_bytes;
    uint64_t allowance;
} call;

/* What it gives back. */
typedef struct outcome {
    uint32_t answer;
    uint64_t address, element, words;
} outcome;

static const mistake *chosen(void)
{
    const char *name = getenv("WRONG");
    for (size_t i = 0; name != NULL && i < sizeof mistakes / sizeof mistakes[0]; i++) {
        if (strcmp(name, mistakes[i].name) == 0) {
            return &mistakes[i];
        }
    }
    fprintf(stderr, "WRONG names no mistake\n");
    exit(2);
}

/* What the linker makes of the tests' calls, and how it lets this file call the archive. */
uint32_t __wrap_sme_run_listing(const uint64_t *settings, size_t settings_count, const uint64_t *x, size_t x_count,
                                uint8_t *z, size_t z_bytes, const uint8_t *p, size_t p_bytes, uint8_t *za,
                                size_t za_bytes, uint8_t *memory, size_t memory_bytes, uint64_t *results,
                                size_t results_count, const uint8_t *listing, size_t listing_bytes, uint64_t allowance);
uint32_t __real_sme_run_listing(const uint64_t *settings, size_t settings_count, const uint64_t *x, size_t x_count,
                                uint8_t *z, size_t z_bytes, const uint8_t *p, size_t p_bytes, uint8_t *za,
                                size_t za_bytes, uint8_t *memory, size_t memory_bytes, uint64_t *results,
                                size_t results_count, const uint8_t *listing, size_t listing_bytes, uint64_t allowance);

/* Runs these bytes, which are one word or none. */
static outcome hand_on(const call *own, const uint8_t *bytes, size_t count)
{
    const sme_buffers *lent = &own->lent;
    uint64_t results[SME_RESULT_COUNT];
    outcome made;
    made.answer = __real_sme_run_listing(own->settings, own->settings_count, lent->x, lent->x_count, lent->z,
                                         lent->z_bytes, lent->p, lent->p_bytes, lent->za, lent->za_bytes, lent->memory,
                                         lent->memory_bytes, results, SME_RESULT_COUNT, bytes, count,
                                         SME_ALLOWANCE_ALL);
    made.address = results[SME_RESULT_ADDRESS];
    made.element = results[SME_RESULT_ELEMENT];
    made.words = results[SME_RESULT_WORDS];
    return made;
}

static outcome run_word(const mistake *wrong, const call *own, uint64_t number)
{
    uint8_t word[4];
    for (size_t i = 0; i < 4; i++) {
        word[i] = own->listing[4 * number + (wrong->what == HIGHEST_BYTE_FIRST ? 3 - i : i)];
    }
    return hand_on(own, word, sizeof word);
}

/* Mistakes about numbers, made before anything is checked. */
static void spoil(const mistake *wrong, call *own)
{
    switch (wrong->what) {
    case ALLOWANCE_ONE_MORE:
        own->allowance += own->allowance != UINT64_MAX;
        break;
    case ALLOWANCE_ONE_LESS:
        own->allowance -= own->allowance != 0;
        break;
    case ALLOWANCE_LOW:
        own->allowance &= wrong->bits;
        break;
    case ALLOWANCE_IN_BYTES:
        own->allowance /= 4;
        break;
    case ALLOWANCE_SIGNED:
        own->allowance = own->allowance > INT64_MAX ? 0 : own->allowance;
        break;
    case LENGTH_LOW:
        own->listing_bytes &= wrong->bits;
        break;
    case WORDS_LOW:
        own->listing_bytes = own->listing_bytes % 4 + 4 * (own->listing_bytes / 4 & wrong->bits);
        break;
    default:
        break;
    }
}

/* Whether a cut word is refused with 9 before any word is run. */
static bool refuses_cut(const mistake *wrong, const call *own)
{
    return own->listing_bytes % 4 != 0 && wrong->what != NINE_WHERE_REACHED && wrong->what != NINE_NEVER &&
           !(wrong->what == NINE_NOT_AT_0 && own->allowance == 0);
}

/* The answer before any word: 1, 2, 9, or 0 where words are to be run. */
static uint32_t check(const mistake *wrong, const call *own)
{
    const bool cut = refuses_cut(wrong, own);
    const bool unchecked = (wrong->what == EMPTY_NOT_CHECKED && own->listing_bytes == 0) ||
                           (wrong->what == ALLOWANCE_0_NOT_CHECKED && own->allowance == 0);
    const uint32_t answer = unchecked ? SME_DONE : hand_on(own, NULL, 0).answer;
    if (cut && answer == SME_BAD_SETTINGS && wrong->what == NINE_BEFORE_1) {
        return SME_BAD_LISTING;
    }
    if (cut && answer == SME_BAD_LENGTHS && wrong->what == NINE_BEFORE_2) {
        return SME_BAD_LISTING;
    }
    return answer == SME_DONE && cut ? SME_BAD_LISTING : answer;
}

/* Runs the words; behind a refused one too where that is the mistake. What is told is then of the first refused one. */
static outcome run_words(const mistake *wrong, const call *own)
{
    const uint64_t count = own->listing_bytes / 4;
    outcome told = {SME_DONE, 0, 0, 0};
    for (uint64_t i = 0; i < count && i < own->allowance; i++) {
        const outcome one = run_word(wrong, own, i);
        if (told.answer == SME_DONE) {
            told = (outcome){one.answer, one.address, one.element, told.words + one.words};
        }
        if (one.answer != SME_DONE && wrong->what != GOES_ON) {
            break;
        }
    }
    if (wrong->what == NINE_WHERE_REACHED && own->listing_bytes % 4 != 0 && told.answer == SME_DONE &&
        own->allowance > count) {
        told.answer = SME_BAD_LISTING;
    }
    return told;
}

/* What a buffer held before the run. */
static uint8_t *copy_of(const uint8_t *bytes, size_t count)
{
    uint8_t *copy = malloc(count + 1);
    if (copy == NULL) {
        perror("malloc");
        exit(2);
    }
    if (count != 0) {
        memcpy(copy, bytes, count);
    }
    return copy;
}

static void put_back(uint8_t *bytes, size_t count, uint8_t *copy, bool undo)
{
    if (undo && count != 0) {
        memcpy(bytes, copy, count);
    }
    free(copy);
}

/* The same, and where it is refused all is as before where that is the mistake. */
static outcome run_checked(const mistake *wrong, const call *own)
{
    const sme_buffers *lent = &own->lent;
    if (wrong->what != UNDOES) {
        return run_words(wrong, own);
    }
    uint8_t *z = copy_of(lent->z, lent->z_bytes), *za = copy_of(lent->za, lent->za_bytes);
    uint8_t *memory = copy_of(lent->memory, lent->memory_bytes);
    const outcome told = run_words(wrong, own);
    put_back(lent->z, lent->z_bytes, z, told.answer != SME_DONE);
    put_back(lent->za, lent->za_bytes, za, told.answer != SME_DONE);
    put_back(lent->memory, lent->memory_bytes, memory, told.answer != SME_DONE);
    return told;
}

/* Writes the results, with the mistakes that are about them. */
static void put(const mistake *wrong, outcome told, uint64_t *results, size_t results_count)
{
    const bool refused = told.answer != SME_DONE, ran = told.answer >= SME_UNDECODABLE && told.answer <= SME_OUTSIDE_MEMORY;
    uint64_t words = told.words;
    if (wrong->what == STOPPING_WORD_COUNTED && ran) {
        words++;
    } else if (wrong->what == COUNT_LOW) {
        words &= wrong->bits;
    }
    const bool fault = wrong->what != FAULT_MISSING;
    uint64_t right[] = {fault ? told.address : 0, fault ? told.element : 0, words};
    if (wrong->what == WORDS_FIRST) {
        right[0] = words, right[1] = told.address, right[2] = told.element;
    }
    const bool leaves = wrong->what == WORDS_MISSING || (wrong->what == WORDS_KEPT && refused && !ran);
    for (size_t i = 0; i < results_count && i < (leaves ? 2 : 3); i++) {
        results[i] = right[i];
    }
    if (wrong->what == WORDS_WITHOUT_PLACE && results_count == 2) {
        results[2] = words;
    }
}

uint32_t __wrap_sme_run_listing(const uint64_t *settings, size_t settings_count, const uint64_t *x, size_t x_count,
                                uint8_t *z, size_t z_bytes, const uint8_t *p, size_t p_bytes, uint8_t *za,
                                size_t za_bytes, uint8_t *memory, size_t memory_bytes, uint64_t *results,
                                size_t results_count, const uint8_t *listing, size_t listing_bytes, uint64_t allowance)
{
    const mistake *wrong = chosen();
    call own = {settings,
                settings_count,
                {x, x_count, z, z_bytes, p, p_bytes, za, za_bytes, memory, memory_bytes},
                listing,
                listing_bytes,
                allowance};
    spoil(wrong, &own);
    outcome told = {check(wrong, &own), 0, 0, 0};
    if (told.answer == SME_DONE) {
        told = run_checked(wrong, &own);
    }
    put(wrong, told, results, results_count);
    return told.answer;
}
