/*
 * What machine.c and execute.S share. It is read by the assembler too, so it has numbers only.
 */
#ifndef MACHINE_H
#define MACHINE_H

/* The places of the parts of struct state, in bytes; machine.c checks them. */
#define STATE_X 0
#define STATE_Z 256
#define STATE_P (STATE_Z + 32 * 256)
#define STATE_ZA (STATE_P + 16 * 32)
#define STATE_BYTES (STATE_ZA + 256 * 256)

/* The switches: bits of Arm's register SVCR. */
#define SWITCH_STREAMING 1
#define SWITCH_ZA 2
#define SWITCHES 3

#endif
