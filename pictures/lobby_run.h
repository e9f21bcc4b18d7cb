/* A lobby: screens that play a loop, by real calls of the library, and what each held after each call. */
#ifndef PICTURES_LOBBY_RUN_H
#define PICTURES_LOBBY_RUN_H

#include "film.h"

enum { SCREENS = 3, LOBBY_ROUNDS = 3, MAX_LOBBY_SAMPLES = 40000 };

/* The desk after an accepted begin or end; `time` is the sum of the bounds so far, in microseconds. */
struct lobby_sample {
    uint64_t time;
    uint64_t floor; /* two-millionths of a byte */
    uint32_t held[SCREENS];
};

/* A screen: its start block, when it asks, when it has seen the film once, twice, three times, and what it was given and drew. */
struct screen {
    uint64_t asks;
    uint32_t start;
    uint64_t seen[LOBBY_ROUNDS];
    uint32_t rounds;
    uint32_t fetched;
    uint64_t drawn;
};

struct lobby_run {
    struct film film;
    struct screen screens[SCREENS];
    struct lobby_sample samples[MAX_LOBBY_SAMPLES];
    size_t sample_count;
    uint32_t sweeps;
    uint64_t time;
};

/* Each screen plays the film three times round and leaves; ends the program if a promise of the desk does not hold. */
void run_lobby(struct lobby_run *run);

#endif
