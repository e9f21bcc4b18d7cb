/* The calls that are measured, each on one input and on strings of the implementation's own. */
#ifndef CALLS_H
#define CALLS_H

#include "inputs.h"
#include "twins.h"

/* Desks lent in one batch: calls that alter a desk in place each get a fresh one. */
enum { DESKS = 16 };

/* Strings that an implementation writes. */
struct strings {
    uint8_t plan[FILMDISK_PLAN_BYTES];
    uint8_t positions[FILMDISK_PAIR_VISITS * FILMDISK_MAX_BLOCKS * FILMDISK_ENTRY_BYTES];
    uint8_t leads[FILMDISK_MAX_BLOCKS * FILMDISK_ENTRY_BYTES];
    uint8_t fetches[FILMDISK_MAX_STREAMS * FILMDISK_FETCH_BYTES];
    uint8_t desks[DESKS][FILMDISK_DESK_BYTES];
    uint8_t scratch[FILMDISK_SCRATCH_BYTES]; /* which no call writes */
    uint32_t window[3]; /* the time, first block and bytes that were answered */
};

/* A call of an implementation; one on a desk takes desk i. */
typedef filmdisk_answer call(const struct twin *t, const struct input *in, struct strings *s, size_t i);
call call_read, call_plan, call_plan_loop, call_plan_pairs, call_open, call_join, call_leave, call_begin, call_end, call_window;
call call_plan_scratch, call_plan_loop_scratch, call_plan_pairs_scratch, call_open_scratch, call_join_scratch, call_leave_scratch,
    call_begin_scratch, call_end_scratch;

/* The last of the used slots: join and leave are tried on it. */
static inline uint32_t last_slot(const struct input *in)
{
    return in->streams - 1;
}

/* The last of the films: joins are to it. */
static inline uint32_t last_film(const struct input *in)
{
    return in->films - 1;
}

#endif
