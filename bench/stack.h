/* How much stack a job takes. */
#ifndef STACK_H
#define STACK_H

#include <stddef.h>

/* Bytes below the caller's frame that the job writes, on a stack painted before it. */
size_t stack_of(void (*job)(void));

#endif
