/*
 * The move unit of a simulator for Arm's Scalable Matrix Extension (SME): libsme_move.a.
 *
 * A host owns every buffer and lends it for one call, as a pointer and a length. There is no handle, no
 * allocation, no global and no last error. Every word, listing, setting and buffer length has an answer. A refused word
 * changes no buffer, and neither does a call that is refused as a whole; the words of a listing that were done before
 * the refused one keep their effect. Calls on different buffers may run at once.
 *
 * No two of the arrays and buffers of one call may overlap; so a listing that stands in the machine's memory is lent as
 * a copy. An empty memory, an empty listing and an empty array of settings, results or tiles may be (NULL, 0); every
 * other pointer must point to as many items as its length says, aligned for its type. Bytes need no alignment.
 *
 * Hosts call the wrappers in the second half, which take settings as a record made by sme_settings_new (or
 * sme_settings_within), and held tiles as one made by sme_held_none. The archive's own functions take settings and
 * results as arrays with a count. So a later version that adds a setting or a result changes no function: the source of
 * a host that makes its records so stays as it is, and so does an object file, whose machine then has the added setting
 * as new settings have it. An object file made with this header does not link with an archive that is older than the
 * header.
 *
 * Five things that a host needs to know of the machine, where B is the vector length in bytes and m the bytes of an
 * element:
 *
 * When an element is active. Element e of a vector is its bytes e*m to e*m + m-1. It is active under a predicate
 * exactly if bit e*m of that predicate is 1; the other bits are not looked at. Bit i of a predicate is bit i modulo 8,
 * counted from the lowest, of its byte i/8. So a predicate whose bytes are all 0xFF makes every element of every size
 * active.
 *
 * Which slice is meant. A tile has n = B/m slices in each direction. A word names the slice (W + offset) modulo n,
 * where W is the low 32 bits of its index register. A word that moves r vectors of the array (2 or 4) begins with
 * vector (W + offset) modulo B/r, and the others are each B/r further.
 *
 * Where a tile's slices lie in the array. Row s of tile t, its horizontal slice s, is vector s*m + t, whole. Element e
 * of column s, its vertical slice s, is bytes s*m to s*m + m-1 of vector e*m + t. So the rows of a tile are m vectors
 * apart.
 *
 * Where vectors start in the buffers. Buffers are laid out for vectors of L bytes, the largest vector length of the
 * settings. It is B as a rule, and longer where a host keeps its buffers at one length and runs at a shorter one. The
 * lengths of buffers and the places in them go by L, all else by B: vector register n starts at byte n*L of Z,
 * predicate n at byte n*(L/8) of P, and vector n of the array at byte n*L of ZA. Of each vector the machine has the
 * first B bytes, of each predicate the first B/8, and of the array vectors 0 to B-1. No call writes a byte beyond
 * these, and neither an answer nor a byte that is written depends on one. So the same buffers serve every B up to L,
 * and nothing in them has to be moved when B changes.
 *
 * What a listing is. A listing is a string of bytes, four to an instruction word, lowest byte first. Its words are
 * executed one after another, each on what the one before left, as by single calls with the same settings, X and P,
 * which no word changes. A host that changes a register between two words runs the listing in parts.
 */
#ifndef SME_MOVE_H
#define SME_MOVE_H

#include <stdbool.h>
#include <stddef.h>
#include <stdint.h>

/* The version of this header; sme_version tells the archive's, and both as one number can be compared. */
#define SME_MOVE_VERSION_MAJOR 0
#define SME_MOVE_VERSION_MINOR 9
#define SME_MOVE_VERSION (65536 * SME_MOVE_VERSION_MAJOR + SME_MOVE_VERSION_MINOR)

#ifdef __cplusplus
extern "C" {
#endif

/*
 * Answers. Of several that apply the lowest is given, but for two functions: where a listing is run it is 1, 2, then 9,
 * before any word is looked at; where a tile is taken it is 8, then 16, then 13. Numbers that are missing here are no
 * answers of this version.
 */
enum sme_answer {
    /* done */
    SME_DONE = 0,
    /*
     * the vector length or the largest vector length is not 16, 32, 64, 128 or 256 bytes, the largest is below the
     * other, or the level is above 3; also where an array of settings has too few or too many numbers
     */
    SME_BAD_SETTINGS = 1,
    /* a buffer has not the length that the largest vector length fixes, or memory ends above 2^64 */
    SME_BAD_LENGTHS = 2,
    /* the word is no instruction of this level */
    SME_UNDECODABLE = 3,
    /* streaming mode is off */
    SME_STREAMING_OFF = 4,
    /* the array is off */
    SME_ZA_OFF = 5,
    /*
     * the stack pointer is the base of a load or store with an active element, and is no multiple of 16; only where the
     * stack check is on
     */
    SME_STACK_MISALIGNED = 6,
    /*
     * a byte of an active element is not in memory; comes with the number of the lowest-numbered such element, and the
     * address of its first such byte
     */
    SME_OUTSIDE_MEMORY = 7,
    /*
     * encoding: a field is outside its range, or no word has such an operation; taking a tile: the asked element
     * bytes are not 1, 2, 4, 8 or 16
     */
    SME_OUT_OF_RANGE = 8,
    /* the length of a listing in bytes is no multiple of 4 */
    SME_BAD_LISTING = 9,
    /* every tile of the asked element bytes shares a byte with a held one */
    SME_NO_FREE_TILE = 13,
    /*
     * a held tile does not exist, two of them share a byte, or the tile to give up is not held; also where the held
     * tiles are more than 16 or more than their array has, or it has no place for the tile that was found
     */
    SME_BAD_HELD = 16
};

/* The limits of both vector lengths in bytes, each of which is a power of two, and the highest feature level. */
#define SME_MIN_VECTOR_BYTES 16
#define SME_MAX_VECTOR_BYTES 256
#define SME_MAX_LEVEL 3

/* The allowance with which a listing is run to its end: no listing has more words. */
#define SME_ALLOWANCE_ALL UINT64_MAX

/* How many tiles can be held at once: of more than sixteen, two share a byte. */
#define SME_MAX_HELD 16

/* The lengths that the largest vector length fixes: X in numbers, the others in bytes. */
#define SME_X_COUNT 32
#define SME_Z_BYTES(largest_vector_bytes) (32 * (size_t)(largest_vector_bytes))
#define SME_P_BYTES(largest_vector_bytes) (16 * ((size_t)(largest_vector_bytes) / 8))
#define SME_ZA_BYTES(largest_vector_bytes) ((size_t)(largest_vector_bytes) * (size_t)(largest_vector_bytes))

/*
 * An operation is eleven numbers; these are their places. What a kind does not have is 0: an array kind has no
 * element bytes, direction, tile and predicate, and only loads and stores have a base and an offset register.
 */
enum sme_field {
    /* one of enum sme_kind */
    SME_FIELD_KIND,
    /* m: 1, 2, 4, 8 or 16 */
    SME_FIELD_ELEMENT_BYTES,
    /* one of enum sme_direction */
    SME_FIELD_DIRECTION,
    /* below m */
    SME_FIELD_TILE,
    /* below 16 / m; below 8 for an array kind */
    SME_FIELD_OFFSET,
    /* the number of the register that the slice or vector number is taken from: 12 to 15; 8 to 11 for an array kind */
    SME_FIELD_INDEX_REGISTER,
    /* 0 to 7; a move and zero has none */
    SME_FIELD_PREDICATE,
    /* 0 to 31, a multiple of the number of vector registers; a load or store has none */
    SME_FIELD_FIRST_VECTOR_REGISTER,
    /* 0 to 31; 31 is the stack pointer */
    SME_FIELD_BASE_REGISTER,
    /* 0 to 31; 31 reads as zero */
    SME_FIELD_OFFSET_REGISTER,
    /* 1 for a move of a tile's slice, 2 or 4 for an array kind; 0 for a load or store */
    SME_FIELD_VECTOR_REGISTERS,
    /* how many fields there are */
    SME_FIELD_COUNT
};

/* Which way a tile's slices go: rows or columns. */
enum sme_direction {
    SME_HORIZONTAL = 0,
    SME_VERTICAL = 1
};

/*
 * The kinds of nine instructions in twenty-nine encodings: an array kind is an instruction with two vector registers
 * and one with four, each other kind is one instruction in five element sizes.
 *
 * Byte i of element e of a load or store has the address base + (offset + e) * m + i modulo 2^64, base and offset being
 * the contents of their registers. It need not be aligned, and the lowest byte of an element is first.
 */
enum sme_kind {
    /* active elements of a vector register to a slice of a tile */
    SME_KIND_MOVE_TO_TILE = 1,
    /* a slice of a tile to a vector register, the slice then zero */
    SME_KIND_MOVE_AND_ZERO_FROM_TILE = 2,
    /* two or four vectors of the array to as many vector registers */
    SME_KIND_MOVE_FROM_ARRAY = 3,
    /* the same, the vectors of the array then zero */
    SME_KIND_MOVE_AND_ZERO_FROM_ARRAY = 4,
    /* active elements of a slice of a tile to memory */
    SME_KIND_STORE = 5,
    /* active elements of a slice of a tile to a vector register, whose other elements stay */
    SME_KIND_MOVE_FROM_TILE = 6,
    /* memory to the active elements of a slice of a tile, whose other elements are then zero */
    SME_KIND_LOAD = 7
};

/*
 * The settings of a machine as an array of numbers; these are their places. The first two must be given. Later ones
 * may be missing, from the end on, and then are as sme_settings_new has them: the largest vector length is B, each
 * other one is 0. So a place that a host leaves 0 is as if it were missing, but for the largest vector length: a 0 that
 * is given there is no vector length, and SME_BAD_SETTINGS is returned. Fewer than two numbers, or more than there are
 * settings, are settings that no machine has: every call then returns SME_BAD_SETTINGS.
 */
enum sme_setting {
    /* the streaming vector length in bytes, B: 16, 32, 64, 128 or 256 */
    SME_SETTING_VECTOR_BYTES,
    /* the feature level: 0 none, 1 SME, 2 SME2, 3 SME2.1 */
    SME_SETTING_LEVEL,
    /* whether streaming mode is on: 0 is off, any other number on */
    SME_SETTING_STREAMING,
    /* whether the array is on, likewise */
    SME_SETTING_ZA_ON,
    /* the address of memory's first byte */
    SME_SETTING_MEMORY_ADDRESS,
    /*
     * whether the stack check is off: 0 is on, any other number off. Where it is off, a stack pointer that is no
     * multiple of 16 is a base like any other, and no call returns SME_STACK_MISALIGNED
     */
    SME_SETTING_STACK_CHECK_OFF,
    /* the vector length in bytes that the buffers are laid out for: 16, 32, 64, 128 or 256, and not below B */
    SME_SETTING_LARGEST_VECTOR_BYTES,
    /* how many settings this header knows */
    SME_SETTING_COUNT
};

/*
 * The results of executing a word or a listing as an array of numbers; these are their places. As many are written as
 * the array has places for, so lend SME_RESULT_COUNT of them: an archive of a later version has more to write.
 */
enum sme_result {
    /* the address that SME_OUTSIDE_MEMORY carries, 0 with any other answer */
    SME_RESULT_ADDRESS,
    /*
     * the number of the element that the address is of, below B/m, 0 with any other answer: the lowest-numbered active
     * element that has a byte outside memory
     */
    SME_RESULT_ELEMENT,
    /*
     * how many words of the listing were done, which is the place, counted from 0, of the word that was refused if one
     * was; given by sme_run_listing alone, sme_execute_word leaves this place as it was
     */
    SME_RESULT_WORDS,
    /* how many results this header knows */
    SME_RESULT_COUNT
};

/*
 * The version of the archive, as one number like SME_MOVE_VERSION. An archive has such a function for its own version
 * and for each before it whose hosts it serves, and none for a later one.
 */
uint32_t sme_version_0_8(void);
uint32_t sme_version_0_9(void);

/*
 * Executes one instruction word.
 *
 * settings, settings_count
 *                 an array as of enum sme_setting
 * x, x_count      31 general-purpose registers and, as number 31, the stack pointer; read only
 * z, z_bytes      32 vector registers of B bytes, which start L bytes apart, L being the largest vector length
 * p, p_bytes      16 predicate registers of B/8 bytes, which start L/8 bytes apart, a bit for each byte of a
 *                 vector, lowest first; read only
 * za, za_bytes    the array: B vectors of B bytes, which start L bytes apart, vector 0 first, and room for L such
 * memory, memory_bytes
 *                 memory of any length, from the settings' memory address on
 * results, results_count
 *                 an array as of enum sme_result, in which address and element are written whatever the answer
 * word            the instruction word
 *
 * Returns an enum sme_answer from 0 to 7. Only answer 0 changes z, za or memory. Only a store writes memory, and it
 * writes nothing else; a load writes za only, also where no element is active. Bytes beyond B of a vector, and the
 * vectors of za from B on, stay with every answer.
 */
uint32_t sme_execute_word(const uint64_t *settings, size_t settings_count, const uint64_t *x, size_t x_count,
                          uint8_t *z, size_t z_bytes, const uint8_t *p, size_t p_bytes, uint8_t *za,
                          size_t za_bytes, uint8_t *memory, size_t memory_bytes, uint64_t *results,
                          size_t results_count, uint32_t word);

/*
 * Runs a listing: executes its words one after another, until one is not done or as many are as the caller allows.
 * Answer, address, element and every buffer are then as single calls of sme_execute_word leave them, up to the last
 * word that was run.
 *
 * settings, settings_count, x, x_count, z, z_bytes, p, p_bytes, za, za_bytes, memory, memory_bytes
 *                 as above
 * results, results_count
 *                 an array as of enum sme_result, all of it written whatever the answer
 * listing, listing_bytes
 *                 the words, four bytes to each, lowest byte first; read only
 * allowance       how many words are run at most: any number, also one above what the listing has
 *
 * Returns SME_BAD_SETTINGS, SME_BAD_LENGTHS or SME_BAD_LISTING, in this order, before any word is run, also where the
 * listing is empty or the allowance is 0; else the answer of the word that was not done, from 3 to 7; else SME_DONE, at
 * the end of the listing or at the allowance. With answers 1, 2 and 9 no word was done and no byte changes. A word that
 * was not done changes no byte; those before it keep their effect.
 */
uint32_t sme_run_listing(const uint64_t *settings, size_t settings_count, const uint64_t *x, size_t x_count,
                         uint8_t *z, size_t z_bytes, const uint8_t *p, size_t p_bytes, uint8_t *za, size_t za_bytes,
                         uint8_t *memory, size_t memory_bytes, uint64_t *results, size_t results_count,
                         const uint8_t *listing, size_t listing_bytes, uint64_t allowance);

/*
 * Decodes a word at a feature level.
 *
 * fields  eleven bytes, written with answer 0 only
 *
 * Returns SME_DONE, SME_BAD_SETTINGS for a level above 3, or SME_UNDECODABLE.
 */
uint32_t sme_decode(uint32_t word, uint64_t level, uint8_t *fields);

/*
 * Encodes an operation, whatever the level.
 *
 * fields  eleven bytes, read only
 * word    always written: the word, 0 with a refusal
 *
 * Returns SME_DONE, or SME_OUT_OF_RANGE also for an unknown kind, element size, direction or number of
 * registers, and for anything but 0 in a field that the kind does not have.
 */
uint32_t sme_encode(const uint8_t *fields, uint32_t *word);

/*
 * SME_DONE where a machine may have these settings, an array as of enum sme_setting, else SME_BAD_SETTINGS: by the
 * two vector lengths, the level and the count.
 */
uint32_t sme_check(const uint64_t *settings, size_t settings_count);

/*
 * The lengths that the largest vector length of these settings fixes. The two vector lengths and the count are checked,
 * and no other setting.
 *
 * settings, settings_count
 *          an array as of enum sme_setting
 * lengths  four numbers, written with answer 0 only: X in numbers, Z, P and ZA in bytes
 *
 * Returns SME_DONE, or SME_BAD_SETTINGS for a vector length that is not allowed, a largest one that is below the other,
 * or too few or too many settings.
 */
uint32_t sme_measure(const uint64_t *settings, size_t settings_count, uint64_t *lengths);

/*
 * Takes one more tile: the lowest-numbered one of the asked element size that shares no byte with a held one. It then
 * is the last of the held tiles.
 *
 * A tile is two numbers, its element bytes m (1, 2, 4, 8 or 16) and its number below m. Tile t of m bytes is tiles t
 * and t + m of 2m bytes, at every vector length; so tiles of different sizes may share bytes of ZA.
 *
 * tiles, tiles_count
 *                so many numbers, two for each tile, first its element bytes and then its number; room for
 *                SME_MAX_HELD tiles is always enough
 * count          how many tiles are held: those at the beginning of tiles; with answer 0 one more than before
 * element_bytes  m of the tile that is asked for
 * tile           always written: the number of the new tile, 0 with a refusal
 *
 * Returns SME_DONE; SME_OUT_OF_RANGE where m is none of the five; else SME_BAD_HELD where the held tiles are not as
 * they should be, or where a tile is free and tiles has no place for it; else SME_NO_FREE_TILE, exactly when no tile
 * of m bytes is free. A refusal changes neither tiles nor count. Answer 0 writes the two numbers behind the held
 * tiles; the others stay as they are, and what stands behind the held tiles does not count for the answer.
 */
uint32_t sme_take_tile(uint64_t *tiles, size_t tiles_count, size_t *count, uint64_t element_bytes,
                       uint64_t *tile);

/*
 * Gives up a held tile, and no other; those after it move up, in their order.
 *
 * tiles, tiles_count
 *                as above
 * count          how many tiles are held; with answer 0 one less than before
 * element_bytes  the element bytes of the tile to give up
 * tile           its number
 *
 * Returns SME_DONE, or SME_BAD_HELD where the held tiles are not as they should be or the tile is not one of them,
 * which one with impossible element bytes never is. A refusal changes neither tiles nor count. Numbers behind the
 * tiles that are then held stay as they are.
 */
uint32_t sme_give_up_tile(uint64_t *tiles, size_t tiles_count, size_t *count, uint64_t element_bytes,
                          uint64_t tile);

#ifdef __cplusplus
}
#endif

/*
 * The settings of a machine. Make it with sme_settings_new or sme_settings_within, which know every member, and change
 * switches and memory address after; for other vector lengths or another level make new settings.
 */
typedef struct sme_settings {
    uint64_t vector_bytes;
    uint64_t level;
    bool streaming;
    bool za_on;
    uint64_t memory_address;
    /* whether the stack check is off; an initialiser that does not name this, as of an earlier version, leaves it on */
    bool stack_check_off;
    /*
     * the vector length in bytes that the buffers are laid out for; an initialiser that does not name this, as of an
     * earlier version, leaves it 0, which is SME_BAD_SETTINGS
     */
    uint64_t largest_vector_bytes;
} sme_settings;

/* The buffers of one call. An empty memory may be (NULL, 0). */
typedef struct sme_buffers {
    const uint64_t *x;
    size_t x_count;
    uint8_t *z;
    size_t z_bytes;
    const uint8_t *p;
    size_t p_bytes;
    uint8_t *za;
    size_t za_bytes;
    uint8_t *memory;
    size_t memory_bytes;
} sme_buffers;

/*
 * The tiles that a kernel holds: the first count of them, each its element bytes and its number. Make it with
 * sme_held_none; numbers behind the held tiles mean nothing.
 */
typedef struct sme_held {
    uint64_t tiles[2 * SME_MAX_HELD];
    size_t count;
} sme_held;

/* The version of the archive that the host is linked with. */
static inline uint32_t sme_version(void)
{
    return sme_version_0_9();
}

/* Whether an archive of that version is no older than this header. One that a host is linked with always is. */
static inline bool sme_version_serves(uint32_t archive)
{
    return archive >= SME_MOVE_VERSION;
}

/*
 * For the linker: an archive that is older than this header has no such function, so the host does not link. A program
 * that includes this header and is linked with no archive defines SME_MOVE_WITHOUT_ARCHIVE.
 */
#if defined(__GNUC__) && !defined(SME_MOVE_WITHOUT_ARCHIVE)
#if defined(__has_attribute)
#if __has_attribute(retain)
__attribute__((retain))
#endif
#endif
__attribute__((used)) static uint32_t (*const sme_version_needed)(void) = sme_version_0_9;
#endif

/*
 * Settings of this vector length and level for a machine whose buffers are laid out for vectors of the largest length,
 * with streaming and the array off, memory at address 0 and the stack check on. They are not checked here:
 * sme_settings_check does, and so does execution.
 */
static inline sme_settings sme_settings_within(uint64_t vector_bytes, uint64_t largest_vector_bytes, uint64_t level)
{
    sme_settings settings;
    settings.vector_bytes = vector_bytes;
    settings.level = level;
    settings.streaming = false;
    settings.za_on = false;
    settings.memory_address = 0;
    settings.stack_check_off = false;
    settings.largest_vector_bytes = largest_vector_bytes;
    return settings;
}

/* The same for a machine whose buffers are laid out for vectors of this length. */
static inline sme_settings sme_settings_new(uint64_t vector_bytes, uint64_t level)
{
    return sme_settings_within(vector_bytes, vector_bytes, level);
}

/* The settings as the array that the archive's functions take. */
static inline void sme_settings_give(sme_settings settings, uint64_t given[SME_SETTING_COUNT])
{
    given[SME_SETTING_VECTOR_BYTES] = settings.vector_bytes;
    given[SME_SETTING_LEVEL] = settings.level;
    given[SME_SETTING_STREAMING] = settings.streaming;
    given[SME_SETTING_ZA_ON] = settings.za_on;
    given[SME_SETTING_MEMORY_ADDRESS] = settings.memory_address;
    given[SME_SETTING_STACK_CHECK_OFF] = settings.stack_check_off;
    given[SME_SETTING_LARGEST_VECTOR_BYTES] = settings.largest_vector_bytes;
}

/* The same settings with one changed. */
static inline sme_settings sme_settings_with_streaming(sme_settings settings, bool on)
{
    settings.streaming = on;
    return settings;
}

static inline sme_settings sme_settings_with_za(sme_settings settings, bool on)
{
    settings.za_on = on;
    return settings;
}

static inline sme_settings sme_settings_with_memory_address(sme_settings settings, uint64_t address)
{
    settings.memory_address = address;
    return settings;
}

/* With the check off, a stack pointer that is no multiple of 16 is a base like any other. */
static inline sme_settings sme_settings_with_stack_check(sme_settings settings, bool on)
{
    settings.stack_check_off = !on;
    return settings;
}

/* What an answer means, in a few words. */
static inline const char *sme_answer_text(uint32_t answer)
{
    switch (answer) {
    case SME_DONE:
        return "done";
    case SME_BAD_SETTINGS:
        return "a vector length or the level is not allowed";
    case SME_BAD_LENGTHS:
        return "a buffer has the wrong length, or memory ends above 2^64";
    case SME_UNDECODABLE:
        return "the word is no instruction of this level";
    case SME_STREAMING_OFF:
        return "streaming mode is off";
    case SME_ZA_OFF:
        return "the array is off";
    case SME_STACK_MISALIGNED:
        return "the stack pointer is no multiple of 16";
    case SME_OUTSIDE_MEMORY:
        return "an address is not in memory";
    case SME_OUT_OF_RANGE:
        return "no word encodes this operation, or no element has so many bytes";
    case SME_BAD_LISTING:
        return "the listing is not made of whole words";
    case SME_NO_FREE_TILE:
        return "no tile of this size is free";
    case SME_BAD_HELD:
        return "a held tile does not exist, two share a byte, or the tile is not held";
    default:
        return "no answer of this version";
    }
}

/* SME_DONE or SME_BAD_SETTINGS. */
static inline uint32_t sme_settings_check(sme_settings settings)
{
    uint64_t given[SME_SETTING_COUNT];
    sme_settings_give(settings, given);
    return sme_check(given, SME_SETTING_COUNT);
}

/*
 * New settings that are checked: SME_DONE with those of sme_settings_within in settings, or SME_BAD_SETTINGS with the
 * refused ones, which are the shortest vectors, buffers that are laid out for these, and level 0.
 */
static inline uint32_t sme_settings_make_within(uint64_t vector_bytes, uint64_t largest_vector_bytes, uint64_t level,
                                                sme_settings *settings)
{
    uint32_t answer;
    *settings = sme_settings_within(vector_bytes, largest_vector_bytes, level);
    answer = sme_settings_check(*settings);
    if (answer != SME_DONE) {
        *settings = sme_settings_new(SME_MIN_VECTOR_BYTES, 0);
    }
    return answer;
}

/* The same for a machine whose buffers are laid out for vectors of this length. */
static inline uint32_t sme_settings_make(uint64_t vector_bytes, uint64_t level, sme_settings *settings)
{
    return sme_settings_make_within(vector_bytes, vector_bytes, level, settings);
}

/* sme_measure for these settings, of which the two vector lengths alone are checked. */
static inline uint32_t sme_settings_lengths(sme_settings settings, uint64_t *lengths)
{
    uint64_t given[SME_SETTING_COUNT];
    sme_settings_give(settings, given);
    return sme_measure(given, SME_SETTING_COUNT, lengths);
}

/* sme_decode at the level of these settings, which alone is checked. */
static inline uint32_t sme_settings_decode(sme_settings settings, uint32_t word, uint8_t *fields)
{
    return sme_decode(word, settings.level, fields);
}

/*
 * sme_execute_word with these settings and buffers; in results, an array as of enum sme_result, address and element are
 * always written, as far as it has places. A host that wants every result lends SME_RESULT_COUNT places.
 */
static inline uint32_t sme_settings_execute_results(sme_settings settings, uint32_t word, sme_buffers buffers,
                                                    uint64_t *results, size_t results_count)
{
    uint64_t given[SME_SETTING_COUNT];
    sme_settings_give(settings, given);
    return sme_execute_word(given, SME_SETTING_COUNT, buffers.x, buffers.x_count, buffers.z, buffers.z_bytes,
                            buffers.p, buffers.p_bytes, buffers.za, buffers.za_bytes, buffers.memory,
                            buffers.memory_bytes, results, results_count, word);
}

/* The same with the first result alone; address is always written. */
static inline uint32_t sme_settings_execute(sme_settings settings, uint32_t word, sme_buffers buffers,
                                            uint64_t *address)
{
    return sme_settings_execute_results(settings, word, buffers, address, 1);
}

/*
 * sme_run_listing with these settings and buffers; results, as above, is always written, as far as it has places. An
 * allowance of SME_ALLOWANCE_ALL is no limit. Three words, of which the second is no instruction and is passed over:
 *
 *     static const uint8_t listing[] = {0x00, 0x00, 0x00, 0xC0, 0x10, 0x00, 0x00, 0xC0, 0x21, 0x00, 0x00, 0xC0};
 *     uint64_t results[SME_RESULT_COUNT];
 *     uint32_t answer = sme_settings_run(settings, listing, sizeof listing, SME_ALLOWANCE_ALL, buffers, results,
 *                                        SME_RESULT_COUNT);
 *
 * The answer is SME_UNDECODABLE and one word was done. To go on behind the refused one:
 *
 *     size_t next = 4 * (size_t)results[SME_RESULT_WORDS] + 4;
 *     answer = sme_settings_run(settings, listing + next, sizeof listing - next, SME_ALLOWANCE_ALL, buffers, results,
 *                               SME_RESULT_COUNT);
 *
 * The answer is SME_DONE, and again one word was done. After SME_BAD_SETTINGS, SME_BAD_LENGTHS and SME_BAD_LISTING
 * there is no refused word to go on behind.
 */
static inline uint32_t sme_settings_run(sme_settings settings, const uint8_t *listing, size_t listing_bytes,
                                        uint64_t allowance, sme_buffers buffers, uint64_t *results,
                                        size_t results_count)
{
    uint64_t given[SME_SETTING_COUNT];
    sme_settings_give(settings, given);
    return sme_run_listing(given, SME_SETTING_COUNT, buffers.x, buffers.x_count, buffers.z, buffers.z_bytes, buffers.p,
                           buffers.p_bytes, buffers.za, buffers.za_bytes, buffers.memory, buffers.memory_bytes,
                           results, results_count, listing, listing_bytes, allowance);
}

/* No held tiles. */
static inline sme_held sme_held_none(void)
{
    sme_held held;
    for (size_t i = 0; i < 2 * SME_MAX_HELD; i++) {
        held.tiles[i] = 0;
    }
    held.count = 0;
    return held;
}

/* sme_take_tile on this record. */
static inline uint32_t sme_held_take(sme_held *held, uint64_t element_bytes, uint64_t *tile)
{
    return sme_take_tile(held->tiles, 2 * SME_MAX_HELD, &held->count, element_bytes, tile);
}

/* sme_give_up_tile on this record. */
static inline uint32_t sme_held_give_up(sme_held *held, uint64_t element_bytes, uint64_t tile)
{
    return sme_give_up_tile(held->tiles, 2 * SME_MAX_HELD, &held->count, element_bytes, tile);
}

/*
 * What the archive had before version 0.5, for source that calls it: one parameter for each setting of that time, the
 * others being as sme_settings_new has them, and the address as a place of its own. An object file that was made with
 * the header of that time and calls one of these does not link with this archive.
 */
static inline uint32_t sme_execute(uint64_t vector_bytes, uint64_t level, bool streaming, bool za_on,
                                   uint64_t memory_address, uint32_t word, const uint64_t *x, size_t x_count,
                                   uint8_t *z, size_t z_bytes, const uint8_t *p, size_t p_bytes, uint8_t *za,
                                   size_t za_bytes, uint8_t *memory, size_t memory_bytes, uint64_t *address)
{
    sme_settings settings = sme_settings_new(vector_bytes, level);
    sme_buffers buffers = {x, x_count, z, z_bytes, p, p_bytes, za, za_bytes, memory, memory_bytes};
    settings.streaming = streaming;
    settings.za_on = za_on;
    settings.memory_address = memory_address;
    return sme_settings_execute(settings, word, buffers, address);
}

static inline uint32_t sme_check_settings(uint64_t vector_bytes, uint64_t level)
{
    return sme_settings_check(sme_settings_new(vector_bytes, level));
}

static inline uint32_t sme_lengths(uint64_t vector_bytes, uint64_t *lengths)
{
    return sme_settings_lengths(sme_settings_new(vector_bytes, 0), lengths);
}

#endif
