/*
 * A machine with SME that executes single words, to be run by an emulator of aarch64 in user mode.
 *
 * It says hello on its output (struct hello), and then for each request on its input gives a reply. A request is struct
 * request, the registers (X, then Z, P and ZA without gaps, of the lengths that the vector length fixes) and the bytes
 * of memory; a reply is struct reply, the registers and memory as the word left them. Z, P and ZA are there in every
 * request, and in a reply that is done with both switches on. It ends with its input.
 *
 * There is no C library here: the system is called directly.
 */
#include "machine.h"

#include <stddef.h>
#include <stdint.h>

/* Two pages of memory at each of these addresses, with pages around them that are not mapped. */
#define MEMORY_BYTES 8192
#define LOW_MEMORY 0
#define MEMORY 0x40000000

#define HELLO 0x454E4948434D5301 /* a number that nothing else prints by chance */

struct hello {
    uint64_t mark;
    uint64_t hwcap2;
    /* 1 where memory could be mapped at LOW_MEMORY */
    uint64_t low_memory;
};

struct request {
    uint32_t word;
    uint32_t switches;
    uint64_t vector_bytes;
    uint64_t memory_address;
};

struct reply {
    /* 0 done, or the number of a signal */
    uint32_t signal;
    uint32_t code;
    uint64_t address;
};

struct state {
    uint64_t x[32];
    uint8_t z[32 * 256];
    uint8_t p[16 * 32];
    uint8_t za[256 * 256];
};

_Static_assert(offsetof(struct state, x) == STATE_X, "x");
_Static_assert(offsetof(struct state, z) == STATE_Z, "z");
_Static_assert(offsetof(struct state, p) == STATE_P, "p");
_Static_assert(offsetof(struct state, za) == STATE_ZA, "za");
_Static_assert(sizeof(struct state) == STATE_BYTES, "state");

/* What execute.S reads and writes. */
struct state state;
uint64_t vector_bytes;
uint64_t switches;
uint64_t fault_address;
int64_t fault_code;
extern uint32_t slot[2];
long execute_word(void);
void on_signal(int number);

/* The signal's frame holds all of Z and ZA. */
static uint8_t signal_stack[1 << 19];

enum {
    CALL_READ = 63,
    CALL_WRITE = 64,
    CALL_EXIT = 94,
    CALL_SIGALTSTACK = 132,
    CALL_SIGACTION = 134,
    CALL_PRCTL = 167,
    CALL_MMAP = 222
};

static long call(long number, uint64_t a, uint64_t b, uint64_t c, uint64_t d, uint64_t e, uint64_t f)
{
    register uint64_t x8 __asm__("x8") = (uint64_t)number;
    register uint64_t x0 __asm__("x0") = a;
    register uint64_t x1 __asm__("x1") = b;
    register uint64_t x2 __asm__("x2") = c;
    register uint64_t x3 __asm__("x3") = d;
    register uint64_t x4 __asm__("x4") = e;
    register uint64_t x5 __asm__("x5") = f;
    __asm__ volatile("svc 0" : "+r"(x0) : "r"(x8), "r"(x1), "r"(x2), "r"(x3), "r"(x4), "r"(x5) : "memory");
    return (long)x0;
}

/* Ends the machine; the number tells where. */
static _Noreturn void leave(int number)
{
    for (;;) {
        call(CALL_EXIT, (uint64_t)number, 0, 0, 0, 0, 0);
    }
}

/* Reads so many bytes to an address; the end of the input ends the machine. */
static void read_all(uint64_t address, uint64_t bytes)
{
    while (bytes > 0) {
        long got = call(CALL_READ, 0, address, bytes, 0, 0, 0);
        if (got <= 0) {
            leave(got == 0 ? 0 : 3);
        }
        address += (uint64_t)got;
        bytes -= (uint64_t)got;
    }
}

static void write_all(uint64_t address, uint64_t bytes)
{
    while (bytes > 0) {
        long put = call(CALL_WRITE, 1, address, bytes, 0, 0, 0);
        if (put <= 0) {
            leave(4);
        }
        address += (uint64_t)put;
        bytes -= (uint64_t)put;
    }
}

/* One part of the state after another: each has its length by the vector length. */
static void each_part(void (*move)(uint64_t address, uint64_t bytes))
{
    move((uint64_t)state.z, 32 * vector_bytes);
    move((uint64_t)state.p, 2 * vector_bytes);
    move((uint64_t)state.za, vector_bytes * vector_bytes);
}

/* Whether memory is now mapped at exactly this address, to be read and written. */
static int map(uint64_t address)
{
    const uint64_t read_write = 3, private_fixed_anonymous = 0x32;
    long mapped = call(CALL_MMAP, address, MEMORY_BYTES, read_write, private_fixed_anonymous, (uint64_t)-1, 0);
    return mapped == (long)address;
}

/* Signals that a word can raise go to on_signal, on a stack of their own and as often as they come. */
static void catch_signals(void)
{
    struct {
        void (*handler)(int number);
        uint64_t flags;
        uint64_t restorer;
        uint64_t mask;
    } action = {on_signal, 0x08000000 | 0x40000000 | 4, 0, 0}; /* ONSTACK, NODEFER, SIGINFO */
    struct {
        void *base;
        int flags;
        uint64_t bytes;
    } stack = {signal_stack, 0, sizeof signal_stack};
    const int numbers[] = {4, 7, 11}; /* ILL, BUS, SEGV */
    long failed = call(CALL_SIGALTSTACK, (uint64_t)&stack, 0, 0, 0, 0, 0);
    for (size_t i = 0; i < sizeof numbers / sizeof numbers[0]; i++) {
        failed |= call(CALL_SIGACTION, (uint64_t)numbers[i], (uint64_t)&action, 0, 8, 0, 0);
    }
    if (failed != 0) {
        leave(5);
    }
}

/* The second word of features in the vector of auxiliary values, which follows arguments and environment. */
static uint64_t hwcap2_of(const uint64_t *stack)
{
    const uint64_t at_hwcap2 = 26;
    const uint64_t *own = stack + 1 + stack[0] + 1;
    while (*own != 0) {
        own++;
    }
    for (own++; own[0] != 0; own += 2) {
        if (own[0] == at_hwcap2) {
            return own[1];
        }
    }
    return 0;
}

static void set_vector_bytes(uint64_t wanted)
{
    const uint64_t set_streaming_length = 63;
    if (wanted != vector_bytes) {
        long set = call(CALL_PRCTL, set_streaming_length, wanted, 0, 0, 0, 0);
        if (set < 0 || ((uint64_t)set & 0xffff) != wanted) {
            leave(6);
        }
        vector_bytes = wanted;
    }
}

static void set_word(uint32_t word)
{
    *(volatile uint32_t *)slot = word;
    __asm__ volatile("dc cvau, %0\n dsb ish\n ic ivau, %0\n dsb ish\n isb" ::"r"(slot) : "memory");
}

static void answer_one(void)
{
    struct request request;
    read_all((uint64_t)&request, sizeof request);
    set_vector_bytes(request.vector_bytes);
    switches = request.switches;
    read_all((uint64_t)state.x, sizeof state.x);
    each_part(read_all);
    read_all(request.memory_address, MEMORY_BYTES);
    set_word(request.word);
    fault_address = 0;
    fault_code = 0;
    struct reply reply;
    reply.signal = (uint32_t)execute_word();
    reply.code = (uint32_t)fault_code;
    reply.address = fault_address;
    write_all((uint64_t)&reply, sizeof reply);
    write_all((uint64_t)state.x, sizeof state.x);
    if (reply.signal == 0 && switches == SWITCHES) {
        each_part(write_all);
    }
    write_all(request.memory_address, MEMORY_BYTES);
}

void start(const uint64_t *stack)
{
    struct hello hello = {HELLO, hwcap2_of(stack), 0};
    catch_signals();
    if (!map(MEMORY)) {
        leave(7);
    }
    hello.low_memory = (uint64_t)map(LOW_MEMORY);
    write_all((uint64_t)&hello, sizeof hello);
    for (;;) {
        answer_one();
    }
}
