/*
 * Executes one word with every register as the state has it.
 *
 *   long execute_word(void)
 *
 * loads ZA, Z, P, X and the stack pointer from `state`, executes the word in `slot`, and stores them all back. It
 * returns 0, or the number of the signal that the word raised; then `state` is as it was, and `fault_address` and
 * `fault_code` say what the signal told. Z, P and ZA are left alone unless both switches are on.
 *
 * Instructions of SME are written as numbers, since the assembler may not know them.
 */
#include "machine.h"

#define SMSTOP .inst 0xd503467f
/* LDR and STR of the array's vector number W12, at the address in X1. */
#define LDR_ZA_W12_X1 .inst 0xe1000020
#define STR_ZA_W12_X1 .inst 0xe1200020

    .arch armv8.2-a+sve

    /* name of symbol to register */
    .macro address register, symbol
    adrp \register, \symbol
    add \register, \register, :lo12:\symbol
    .endm

    /* All registers P, then all registers Z, from or to the places of the state that X0 points to. */
    .macro all_vectors instruction
    mov x1, #STATE_P
    add x1, x0, x1
    .irp n, 0, 1, 2, 3, 4, 5, 6, 7, 8, 9, 10, 11, 12, 13, 14, 15
    \instruction p\n, [x1, #\n, mul vl]
    .endr
    add x1, x0, #STATE_Z
    .irp n, 0, 1, 2, 3, 4, 5, 6, 7, 8, 9, 10, 11, 12, 13, 14, 15, 16, 17, 18, 19, 20, 21, 22, 23, 24, 25, 26, 27, 28, 29, 30, 31
    \instruction z\n, [x1, #\n, mul vl]
    .endr
    .endm

    /* X1: where ZA is in the state that X0 points to; W12: the first vector; X2: bytes of a vector. */
    .macro begin_array
    mov x1, #(STATE_ZA & 0xffff)
    movk x1, #(STATE_ZA >> 16), lsl #16
    add x1, x0, x1
    mov w12, #0
    address x2, vector_bytes
    ldr x2, [x2]
    .endm

    .macro next_vector label
    add x1, x1, x2
    add w12, w12, #1
    cmp w12, w2
    b.lo \label
    .endm

    .text
    .globl execute_word
execute_word:
    address x9, saved
    stp x19, x20, [x9]
    stp x21, x22, [x9, #16]
    stp x23, x24, [x9, #32]
    stp x25, x26, [x9, #48]
    stp x27, x28, [x9, #64]
    stp x29, x30, [x9, #80]
    mov x10, sp
    str x10, [x9, #96]

    address x0, state
    address x9, switches
    ldr x9, [x9]
    msr S3_3_C4_C2_2, x9 /* SVCR */
    cmp x9, #SWITCHES
    b.ne load_x
    begin_array
load_vector:
    LDR_ZA_W12_X1
    next_vector load_vector
    all_vectors ldr

load_x:
    ldr x1, [x0, #248]
    mov sp, x1
    .irp n, 2, 4, 6, 8, 10, 12, 14, 16, 18, 20, 22, 24, 26, 28
    ldr x\n, [x0, #(8 * \n)]
    .endr
    .irp n, 3, 5, 7, 9, 11, 13, 15, 17, 19, 21, 23, 25, 27, 29, 30
    ldr x\n, [x0, #(8 * \n)]
    .endr
    ldp x0, x1, [x0]
    b slot

    /* The word is done. X0 waits in a register that nothing else here uses, since all others are the state's. */
done:
    msr tpidr_el0, x0
    address x0, state
    .irp n, 1, 2, 3, 4, 5, 6, 7, 8, 9, 10, 11, 12, 13, 14, 15, 16, 17, 18, 19, 20, 21, 22, 23, 24, 25, 26, 27, 28, 29, 30
    str x\n, [x0, #(8 * \n)]
    .endr
    mrs x1, tpidr_el0
    str x1, [x0]
    mov x1, sp
    str x1, [x0, #248]
    mrs x9, S3_3_C4_C2_2 /* SVCR */
    cmp x9, #SWITCHES
    b.ne finish
    all_vectors str
    begin_array
store_vector:
    STR_ZA_W12_X1
    next_vector store_vector
finish:
    mov x0, #0

    /* Returns X0 to the caller of execute_word. */
leave:
    SMSTOP
    address x9, saved
    ldp x19, x20, [x9]
    ldp x21, x22, [x9, #16]
    ldp x23, x24, [x9, #32]
    ldp x25, x26, [x9, #48]
    ldp x27, x28, [x9, #64]
    ldp x29, x30, [x9, #80]
    ldr x10, [x9, #96]
    mov sp, x10
    ret

    /* The handler of signals, on a stack of its own. It leaves execute_word instead of returning to the word. */
    .globl on_signal
on_signal:
    ldr x10, [x1, #16] /* si_addr */
    address x9, fault_address
    str x10, [x9]
    ldrsw x10, [x1, #8] /* si_code */
    address x9, fault_code
    str x10, [x9]
    b leave

    .globl _start
_start:
    mov x0, sp
    b start

    /* The word and the way back, on a page of their own that can be written. */
    .section .slot, "awx", @progbits
    .balign 4096
    .globl slot
slot:
    .inst 0
    b done
    .balign 4096

    .bss
    .balign 16
saved:
    .skip 112
