#define _XOPEN_SOURCE 700
#include "stack.h"

#include <stdint.h>
#include <string.h>
#include <ucontext.h>

enum { STACK_BYTES = 1 << 20, PAINT = 0x5C };

static uint8_t stack[STACK_BYTES];
static ucontext_t caller, callee;

static void rest(void)
{
}

/* Bytes from the top of the painted stack down to the lowest that was written. */
static size_t written_by(void (*job)(void))
{
    memset(stack, PAINT, sizeof stack);
    getcontext(&callee);
    callee.uc_stack.ss_sp = stack;
    callee.uc_stack.ss_size = sizeof stack;
    callee.uc_link = &caller;
    makecontext(&callee, job, 0);
    swapcontext(&caller, &callee);
    size_t lowest = 0;
    while (lowest < sizeof stack && stack[lowest] == PAINT)
        lowest++;
    return sizeof stack - lowest;
}

size_t stack_of(void (*job)(void))
{
    return written_by(job) - written_by(rest);
}
