/* An evening of the desk: real calls of the library, or the rules of served.h in their place, and what the desk held after each. */
#ifndef PICTURES_DESK_RUN_H
#define PICTURES_DESK_RUN_H

#include "served.h"

enum { ROOMS = 8, MAX_SAMPLES = 40000, MAX_EVENTS = 256 };

/* Two rooms that skip through the film: in these microseconds one of them leaves and asks again between any two sweeps, in turn. */
enum { SKIPPERS = 2, SKIPS_FROM = 33000000, SKIPS_TO = 35500000 };

/* The desk after an accepted begin or end; `time` is the sum of the bounds so far, in microseconds. */
struct sample {
    uint64_t time;
    uint64_t floor; /* two-millionths of a byte */
    uint32_t held[ROOMS];
    uint8_t kinds[ROOMS];
};

/* To skip is to leave and ask again. */
enum happening { ASKS, SKIPS, GRANTED, PLAYS, LAST_BLOCK, ENDS, LEAVES };

struct event {
    uint64_t time;
    uint32_t sweeps; /* that were over */
    int room;
    enum happening what;
};

/* Who serves the rooms: the library, or the rules of served.h in one of the two orders. */
enum server { LIBRARY, RULES_BY_SLOT, RULES_BY_PLACE };

/* From a request to its grant. */
struct wait {
    uint64_t time;
    uint32_t sweeps;
};

struct desk_run {
    struct film film;
    struct sample samples[MAX_SAMPLES];
    struct event events[MAX_EVENTS];
    size_t sample_count, event_count;
    enum server server;
    uint32_t sweeps, skips;
    uint64_t time;
};

/* What a room draws of its limit at a time, in hundredths. */
uint32_t draw_share(int room, uint64_t time);

/* The least that a playing room holds; 0 if none plays. */
uint32_t least_playing(const struct sample *sample);

/* Is the room one that skips, and this its time? */
int is_skipping(int room, uint64_t time);

/* Is the event a request, and how long did it wait for its grant? */
int is_request(const struct event *event);
struct wait wait_of(const struct desk_run *run, size_t request);

/* The request that waited longest. */
size_t longest_wait(const struct desk_run *run);

/* Runs the whole evening; ends the program if a promise of the desk does not hold. */
void run_evening(struct desk_run *run, enum server server);

#endif
