/*
 * Prints what LLVM makes of a range of words.
 *   disassembler LIBRARY FEATURES FIRST LAST     words in hexadecimal, both included
 *   disassembler LIBRARY                         the library's version only
 * A word that is an instruction is a line: its eight digits, a tab, and LLVM's text; the others have none. The line
 * "end" comes last, so that a reader knows that nothing is missing.
 *
 * The library is opened at run time and its few functions are declared here, so that it alone is needed, without
 * headers, and any version of it will do.
 */
#include <dlfcn.h>
#include <stdint.h>
#include <stdio.h>
#include <stdlib.h>
#include <string.h>

typedef void *context;
typedef void (*initialize_function)(void);
typedef void (*version_function)(unsigned *major, unsigned *minor, unsigned *patch);
typedef context (*create_function)(const char *triple, const char *cpu, const char *features, void *info, int tag,
                                   void *operand_callback, void *symbol_callback);
typedef size_t (*disassemble_function)(context own, uint8_t *bytes, uint64_t length, uint64_t address, char *text,
                                       size_t size);

static void fail(const char *message)
{
    fprintf(stderr, "disassembler: %s\n", message);
    exit(2);
}

/* The address of a function of the library, in a place of any function type. */
static void find(void *library, const char *name, void *place)
{
    void *found = dlsym(library, name);
    if (found == NULL) {
        fail(dlerror());
    }
    memcpy(place, &found, sizeof found);
}

static void print_version(void *library)
{
    version_function version;
    unsigned major, minor, patch;
    find(library, "LLVMGetVersion", &version);
    version(&major, &minor, &patch);
    printf("%u.%u.%u\n", major, minor, patch);
}

static context create(void *library, const char *features)
{
    const char *names[] = {"LLVMInitializeAArch64TargetInfo", "LLVMInitializeAArch64TargetMC",
                           "LLVMInitializeAArch64Disassembler"};
    for (size_t i = 0; i < sizeof names / sizeof names[0]; i++) {
        initialize_function initialize;
        find(library, names[i], &initialize);
        initialize();
    }
    create_function create_context;
    find(library, "LLVMCreateDisasmCPUFeatures", &create_context);
    context own = create_context("aarch64-linux-gnu", "generic", features, NULL, 0, NULL, NULL);
    if (own == NULL) {
        fail("the library has no disassembler for aarch64");
    }
    return own;
}

/* A word of the command line; anything but up to eight hexadecimal digits is a mistake. */
static uint32_t word_of(const char *digits)
{
    char *end;
    unsigned long word = strtoul(digits, &end, 16);
    if (*digits == 0 || *end != 0 || word > UINT32_MAX) {
        fail("a word is not hexadecimal");
    }
    return (uint32_t)word;
}

static void print_words(void *library, const char *features, uint32_t first, uint32_t last)
{
    context own = create(library, features);
    disassemble_function disassemble;
    find(library, "LLVMDisasmInstruction", &disassemble);
    for (uint64_t word = first; word <= last; word++) {
        uint8_t bytes[4] = {(uint8_t)word, (uint8_t)(word >> 8), (uint8_t)(word >> 16), (uint8_t)(word >> 24)};
        char text[256];
        if (disassemble(own, bytes, sizeof bytes, 0, text, sizeof text) != 0) {
            /* The text begins with a tab of its own. */
            printf("%08X%s\n", (unsigned)word, text);
        }
    }
    printf("end\n");
}

int main(int count, char **arguments)
{
    if (count != 2 && count != 5) {
        fail("usage: disassembler LIBRARY [FEATURES FIRST LAST]");
    }
    void *library = dlopen(arguments[1], RTLD_NOW);
    if (library == NULL) {
        fail(dlerror());
    }
    if (count == 2) {
        print_version(library);
    } else {
        print_words(library, arguments[2], word_of(arguments[3]), word_of(arguments[4]));
    }
    if (fflush(stdout) != 0) {
        fail("the output cannot be written");
    }
    return 0;
}
