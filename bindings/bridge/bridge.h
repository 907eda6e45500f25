/* What the two sides of the bridge say to each other: calls.c, in a program of this machine, and serve.c, x86-64 code under the emulator.
 *
 * They share one piece of memory, in which the lists of a call lie with guards around them, and a line that carries whole messages: this
 * struct one way, and the number that the function returned the other. All of it is laid out the same for both processors. */
#ifndef BRIDGE_H
#define BRIDGE_H

#include <stdint.h>

enum { BRIDGE_LISTS = 5, BRIDGE_DOUBLES = 4, BRIDGE_NUMBERS = 2 };

enum bridge_function {
    BRIDGE_BLANK,
    BRIDGE_BLANK_AS,
    BRIDGE_CHECK,
    BRIDGE_CALL,
    BRIDGE_CALL_AS,
    BRIDGE_ROOM,
    BRIDGE_BOX,
    BRIDGE_POINT,
    BRIDGE_DISC,
    BRIDGE_WRITE,
    BRIDGE_READ,
    BRIDGE_READ_AS
};

struct bridge_call {
    uint64_t function;
    uint64_t memory;                  /* the size of the shared memory in bytes; it may have grown */
    uint64_t starts[BRIDGE_LISTS];    /* where each list starts in it */
    uint64_t counts[BRIDGE_LISTS];    /* how many items it has */
    uint64_t doubles[BRIDGE_DOUBLES]; /* bit by bit, so that nothing on the way can change one */
    int32_t numbers[BRIDGE_NUMBERS];  /* an owner; or an edition and a rule */
};

_Static_assert(sizeof(struct bridge_call) == 8 * (2 + 2 * BRIDGE_LISTS + BRIDGE_DOUBLES) + 4 * BRIDGE_NUMBERS, "no gaps");

#endif
