/*
 * Sweeps of a desk with the scope's promises checked from the outside: what begin and end do by the rules, a book of what each slot was
 * given and drew, and the line of those that wait; neither reads anything of the desk.
 */
#ifndef SWEEPS_H
#define SWEEPS_H

#include "host.h"

/* How the slots that may draw do so. */
enum draw { DRAW_NOTHING, DRAW_ALL, DRAW_SOME };

/* Opens a desk of a card, with an empty book; for one showing, for a loop, or for pairs. */
void start_story(const uint32_t *numbers, size_t count);
void start_loop_story(const uint32_t *numbers, size_t count);
void start_pairs_story(const uint32_t *numbers, size_t count);

/* A join, of the first film or of another, or a leave that is accepted; it changes its slot alone, and a leave of one that asks the places behind it. */
void join_slot(uint32_t slot, uint32_t block);
void join_film(uint32_t slot, uint32_t block, uint32_t its_film);
void leave_slot(uint32_t slot);

/* A begin and an end. Answers how many fetch entries there were. */
uint32_t sweep(enum draw draw);

/* Sweeps until all slots are free, at most `most`. Answers how many. */
unsigned sweep_to_the_end(enum draw draw, unsigned most);

/* Occupied slots. */
unsigned audience(void);

uint32_t streams(void);
uint32_t blocks(void); /* of the first film */

/* What the book has of a slot since it joined: blocks fetched, bytes drawn. */
uint32_t fetched(uint32_t slot);
uint64_t drawn(uint32_t slot);

/* Slots that wait now, and the most finished sweeps for which any has waited as the eldest. */
uint32_t waiting(void);
uint32_t longest_wait(void);

#endif
