/*
 * What the host programs share: the lent strings, the library's calls over them, and the count of tests.
 * After every call all strings are held against docs/LAYOUT.md's table of what a call leaves in each.
 */
#ifndef HOST_H
#define HOST_H

#include "filmdisk.h"

#include <stdint.h>

/* The strings that calls are lent. */
enum lent { CARD, PLAN, POSITIONS, LEADS, DESK, FETCHES, DRAWS, SCRATCH, STRINGS };

/* A test has a name by which it can be run alone. */
typedef struct test {
    const char *name;
    void (*run)(void);
} test;

#define TEST(name) {#name, name}
#define COUNT(array) (sizeof(array) / sizeof *(array))

/* Runs the tests named by the arguments, or all; the first argument may be 'heap'. Answers the exit status. */
int run_tests(const test *tests, size_t count, int argc, char **argv);

/* One demand of a test; if it is not met the words and the values are printed, and the test fails. */
void check(int met, const char *words, ...) __attribute__((format(printf, 2, 3)));

/* Contents of the strings, between calls. Noise is bytes of no meaning. */
void lend(enum lent which, const void *contents, size_t length);
void lend_noise(enum lent which, size_t length);
void lend_null(enum lent which);
void resize(enum lent which, size_t length);
size_t length_of(enum lent which);
uint8_t *bytes_of(enum lent which);
uint32_t word(enum lent which, size_t index);
void put(enum lent which, size_t index, uint32_t value);

/* A string as it is lent to a call: pointer and length. */
uint8_t *lent_bytes(enum lent which);
#define LENT(which) lent_bytes(which), length_of(which)

/* The words of a slot in the desk, and what it may draw in a sweep; an entry of the fetches. */
uint32_t kind(uint32_t slot);
uint32_t film(uint32_t slot);
uint32_t next(uint32_t slot);
uint32_t held(uint32_t slot);
uint32_t place(uint32_t slot);
uint64_t draw_limit(uint32_t slot, uint32_t bound);
filmdisk_fetch fetch(size_t entry);

/* The worst pair by a plan or a desk. */
filmdisk_pair worst_pair(enum lent which);

/* The card of these numbers; where a number of it begins. */
void lend_card(const uint32_t *numbers, size_t count);
size_t offset_of(const uint32_t *numbers, size_t index);

/* The library's calls over the strings. */
filmdisk_answer host_plan(void);
filmdisk_answer host_plan_loop(void);
filmdisk_answer host_plan_pairs(void);
filmdisk_answer host_open(void);
filmdisk_answer host_join(uint32_t slot, uint32_t block); /* of the first film */
filmdisk_answer host_join_film(uint32_t slot, uint32_t block, uint32_t film);
filmdisk_answer host_leave(uint32_t slot);
filmdisk_answer host_begin(void);
filmdisk_answer host_end(void);
filmdisk_window_answer host_window(uint32_t blocks);

/* The same with the scratch in place of the leads. No call may touch a byte of it. */
filmdisk_answer host_plan_scratch(void);
filmdisk_answer host_plan_loop_scratch(void);
filmdisk_answer host_plan_pairs_scratch(void);
filmdisk_answer host_open_scratch(void);
filmdisk_answer host_join_scratch(uint32_t slot, uint32_t block);
filmdisk_answer host_join_film_scratch(uint32_t slot, uint32_t block, uint32_t film);
filmdisk_answer host_leave_scratch(uint32_t slot);
filmdisk_answer host_begin_scratch(void);
filmdisk_answer host_end_scratch(void);

/* Number and place of an answer; the rest of a refused one is 0. */
void expect(filmdisk_answer answer, uint32_t number, size_t place);

/* An accepted window, and a refused one. */
void expect_window(filmdisk_window_answer answer, uint32_t time, uint32_t first, uint32_t bytes);
void expect_no_window(filmdisk_window_answer answer, uint32_t number);

/*
 * Words of a string from its word `first` on; the words of a slot of the first film or of another, and setting them. A slot has a place only
 * if it asks: it is put behind all that do.
 */
void expect_words(enum lent which, size_t first, const uint32_t *words, size_t count);
void expect_slot(uint32_t slot, uint32_t its_kind, uint32_t its_next, uint32_t its_held);
void expect_slot_film(uint32_t slot, uint32_t its_kind, uint32_t its_film, uint32_t its_next, uint32_t its_held);
void put_slot(uint32_t slot, uint32_t its_kind, uint32_t its_next, uint32_t its_held);
void put_slot_film(uint32_t slot, uint32_t its_kind, uint32_t its_film, uint32_t its_next, uint32_t its_held);

/* The places of these slots, in the order of the slots; no other slot has one. */
void expect_places(const uint32_t *slots, const uint32_t *places, size_t count);

/* An accepted begin, and an entry of its fetches. */
void expect_begun(filmdisk_answer answer, uint32_t count, uint32_t bound);
void expect_fetch(size_t entry, uint32_t position, uint32_t slot, uint32_t block);

/* A planner call: for one showing, for a loop, or for pairs. */
typedef filmdisk_answer planner(void);

/* Lends a card with noise in all that a plan call writes, plans it and opens a desk with room for its fetches and draws. */
void open_desk(planner *plan, const uint32_t *numbers, size_t count);

/* The same with a scratch of noise, and no list of leads. */
void open_desk_scratch(planner *plan_scratch, const uint32_t *numbers, size_t count);

/* The same of a film on positions with these times, innermost first, each a zone; all else as the bench film has it. */
void open_film(planner *plan, const uint32_t *times, uint32_t blocks);

/* Numbers that repeat in every run: below `end`. */
uint32_t below(uint32_t end);

/* The bench film of the scope. */
#define BENCH_NUMBERS 20
#define BENCH_KIND 0
#define BENCH_ZONES 1
#define BENCH_ZONE_POSITIONS(zone) (2 + 2 * (zone))
#define BENCH_ZONE_TIME(zone) (3 + 2 * (zone))
#define BENCH_FILMS 14
#define BENCH_BLOCKS 15
#define BENCH_BLOCK_BYTES 16
#define BENCH_HOP 18
extern const uint32_t bench_film[BENCH_NUMBERS];

/* The bench film with as many blocks as there are pairs of positions. */
#define PAIRS_BLOCKS 3
extern const uint32_t bench_pairs[BENCH_NUMBERS];

#endif
