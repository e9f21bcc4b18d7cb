/* Inputs of the benchmark: cards of films of any size, alone or on a shelf, and desks with all slots occupied or some that ask. */
#ifndef INPUTS_H
#define INPUTS_H

#include "filmdisk.h"

/* What is lent to the calls. */
struct input {
    uint8_t card[FILMDISK_MAX_CARD_BYTES];
    size_t card_len;
    uint8_t plan[FILMDISK_PLAN_BYTES];
    uint8_t positions[FILMDISK_PAIR_VISITS * FILMDISK_MAX_BLOCKS * FILMDISK_ENTRY_BYTES];
    size_t positions_len;
    uint8_t leads[FILMDISK_MAX_BLOCKS * FILMDISK_ENTRY_BYTES];
    size_t list_len;
    uint8_t desk[FILMDISK_DESK_BYTES];
    uint8_t draws[FILMDISK_MAX_STREAMS * FILMDISK_ENTRY_BYTES];
    size_t draws_len;
    uint32_t window; /* blocks of a window */
    uint32_t films, streams; /* of the plan */
};

/* A film over all zones of a disk, its rate the greatest that feeds so many streams; its plan, lists and an open desk. */
void make_film(struct input *in, uint32_t blocks, uint32_t zones, uint32_t streams);

/* The same of a card of kind 2, with the table of the same overheads. */
void make_measured(struct input *in, uint32_t blocks, uint32_t zones, uint32_t streams);

/* The same as a loop. */
void make_loop(struct input *in, uint32_t blocks, uint32_t zones, uint32_t streams);

/* The same with each block as two halves; no more than FILMDISK_MAX_PAIR_STREAMS. */
void make_pairs(struct input *in, uint32_t blocks, uint32_t zones, uint32_t streams);

/* A shelf of so many films, all blocks together and over all zones; shown once, as loops or as pairs. */
void make_shelf(struct input *in, uint32_t showing, uint32_t films, uint32_t blocks, uint32_t zones, uint32_t streams);

/* The same in the form that a library before 0.12.0 has: a card and a plan of one film without its number. */
void make_old(struct input *old, const struct input *in);

/* A plan, or a desk that begins with one, of so many bytes in that form; and back, where a plan that is all zero stays so. */
enum { OLD_PLAN_BYTES = 1584, OLD_DESK_BYTES = 5684 };
void to_old(uint8_t *old, const uint8_t *bytes, size_t len);
void from_old(uint8_t *bytes, const uint8_t *old, size_t old_len);

/* A desk in a phase on which the slots from `first_free` on are free and the others play, each with room for a block. */
void make_players(struct input *in, uint32_t phase, uint32_t first_free);

/*
 * So many slots from `first` on ask, in no order of their slots: the last of them is the eldest, and asks for block 0 of the last film, which
 * has the greatest lead.
 */
void make_requests(struct input *in, uint32_t first, uint32_t count);

/* Slot 0, which plays, holds just the floor, so that no request is granted. */
void make_low(struct input *in);

/* The draws of a sweep: each slot draws a little. */
void make_draws(struct input *in, uint32_t draw);

#endif
