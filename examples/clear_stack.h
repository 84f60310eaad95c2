/*
 * clear_stack.h: clears the stack that a call of the library has taken, where the call leaves secrets (see kindi.h).
 */
#ifndef CLEAR_STACK_H
#define CLEAR_STACK_H

#include <stddef.h>
#include <stdint.h>

#include "kindi.h"

/* Inlined, the function would have its array within its caller's frame and not below it. */
#ifdef __GNUC__
#define CLEAR_STACK_APART __attribute__((noinline))
#else
#error "say here how this compiler is kept from inlining a function"
#endif

/*
 * The array lies below the frame of clear_stack's caller. Where that made the call too, the call began there as well,
 * and KINDI_STACK_LEN bytes would reach its end. But the call began lower by a frame that is gone by now where a small
 * function made it and has returned, or where clear_stack is the last that its caller does, and the compiler
 * gives up the caller's frame and jumps. The slack is for such a frame.
 */
#define CLEAR_STACK_SLACK 256u

/*
 * Is called right after a call of the library, by the function that made it. The stores are volatile, since the
 * compiler drops others that nobody reads. It takes a little more stack than it clears, so KINDI_STACK_LEN bytes, the
 * slack and about 64 more have to be free.
 *
 * It does not clear what lies between the array and the caller's frame: its own return address and what it saves,
 * where the call had its arguments and its return address. It does not clear registers: those for vectors can hold
 * bytes of secrets until something else is written there. And an interrupt or a signal during the call may have
 * copied registers to this stack, also below what the call takes, or to another one: that is a matter of its own.
 */
static CLEAR_STACK_APART void clear_stack(void)
{
    volatile uint32_t below[(KINDI_STACK_LEN + CLEAR_STACK_SLACK) / sizeof(uint32_t)];
    size_t i;

    for (i = 0; i < sizeof below / sizeof below[0]; i++)
        below[i] = 0;
}

#endif
