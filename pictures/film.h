/* Cards of the pictures, the library's plan of a card, and the same formulas for other layings. */
#ifndef PICTURES_FILM_H
#define PICTURES_FILM_H

#include "filmdisk.h"

struct card {
    uint32_t zones;
    uint32_t positions[FILMDISK_MAX_ZONES];
    uint32_t times[FILMDISK_MAX_ZONES];
    uint32_t blocks, bytes, rate, hop, back; /* blocks of all films */
    uint32_t films, lengths[FILMDISK_MAX_FILMS]; /* of a shelf; one film has none of these */
};

/* What a plan promises: streams, buffer of a stream, worst2 and margin. */
struct promise {
    uint32_t streams, buffer, worst2, margin;
};

/* A card with the library's plan of it. */
struct film {
    struct card card;
    struct promise promise;
    uint8_t plan[FILMDISK_PLAN_BYTES];
    uint8_t positions[FILMDISK_PAIR_VISITS * FILMDISK_MAX_BLOCKS * FILMDISK_ENTRY_BYTES];
    uint8_t leads[FILMDISK_MAX_BLOCKS * FILMDISK_ENTRY_BYTES];
};

extern const struct card bench_card;      /* the bench film of the scope */
extern const struct card barracuda_card;  /* Seagate Barracuda 9 (001, Table 6.1), the film takes the whole disk */
extern const struct card deskstar_card;   /* IBM Deskstar 120GXP (003), one zone */
extern const struct card evening_card;    /* Barracuda 9 in small: 48 blocks over its seven zones, a film of 8 Mbit/s */

/* The six zones of example 1 of 001, 60 to 85 Mbit/s, with blocks of so many bytes. */
struct card example_card(uint32_t bytes);

/* The evening's zones with blocks of so many bytes and films of 4 Mbit/s; hop and return are the example's. */
struct card small_barracuda(uint32_t bytes);

/* The same disk with each block as two halves: twice the positions of half the bytes, so half the times, rounded up. */
struct card halved(const struct card *card);

/* Ends the program with a line on standard error if a fact of the pictures does not hold. */
void must(int holds, const char *fact);

/* The zone of a position. */
uint32_t zone_of(const struct card *card, uint32_t position);

/*
 * Plans by the library, for one showing, as a loop or as pairs, whose card has the times of halves; streams 0 if not one fits. Its figures
 * are compared with the formulas of promise_of.
 */
void plan_film(struct film *film, const struct card *card);
void plan_loop(struct film *film, const struct card *card);
void plan_pairs(struct film *film, const struct card *card);

/* The zone of an entry of the positions list, and its time; of a block, which pairs have two entries for, its time. */
uint32_t laid_zone(const struct film *film, uint32_t entry);
uint32_t entry_time(const struct film *film, uint32_t entry);
uint32_t laid_time(const struct film *film, uint32_t block);

/* The pairs of successive blocks, of which a loop has one more; is there one that starts at block b, and its time. */
uint32_t pair_count(const struct film *film);
int has_pair(const struct film *film, uint32_t block);
uint32_t pair_time(const struct film *film, uint32_t block);

/* Every block counted at the time of the disk's slowest zone. */
struct promise slowest_promise(const struct card *card);

/* The film's blocks laid in order of position. */
struct promise plain_promise(const struct card *card);

#endif
