/*
 * A shelf of films as the playout process uses it: its card, plans for each showing, a desk whose slots watch different films together, windows,
 * by list and by scratch, and what is refused of shelves alone. Written from filmdisk.h and docs/LAYOUT.md. Arguments: names of tests to run
 * alone, before them 'heap' under valgrind.
 */
#include "sweeps.h"

#include <string.h>

#define FILMS 3
#define STREAMS 15
#define BLOCKS 10 /* of all films */
#define BLOCK_BYTES 262144u
#define BUFFER 791907u
#define HOP 12670u
#define RETURN 15000u

/* The bench film's zones with two positions each, and three films of 3, 2 and 5 blocks. */
#define SHELF_NUMBERS 22
#define SHELF_FILMS 14
#define SHELF_BLOCKS(film) (15 + (film))
#define SHELF_BLOCK_BYTES 18
static const uint32_t shelf[SHELF_NUMBERS] = {
    1, 6, 2, 22270, 2, 20550, 2, 19090, 2, 17810, 2, 16700, 2, 15720, FILMS, 3, 2, 5, BLOCK_BYTES, 500000, HOP, RETURN,
};
static const uint32_t lengths[] = {3, 2, 5}, starts[] = {0, 3, 5};

/* The calls in one way: with the list, or with a scratch. */
struct way {
    planner *plans[3]; /* once, as loops, as pairs */
    void (*open_desk)(planner *plan, const uint32_t *numbers, size_t count);
    __typeof__(host_open) *open;
    __typeof__(host_join_film) *join;
    __typeof__(host_leave) *leave;
    __typeof__(host_begin) *begin;
    __typeof__(host_end) *end;
};

static const struct way ways[] = {
    {{host_plan, host_plan_loop, host_plan_pairs}, open_desk, host_open, host_join_film, host_leave, host_begin, host_end},
    {{host_plan_scratch, host_plan_loop_scratch, host_plan_pairs_scratch},
     open_desk_scratch,
     host_open_scratch,
     host_join_film_scratch,
     host_leave_scratch,
     host_begin_scratch,
     host_end_scratch},
};

static void open_shelf(const struct way *way, uint32_t showing)
{
    way->open_desk(way->plans[showing], shelf, SHELF_NUMBERS);
}

/* For both ways at once: a scratch beside the leads. */
static void open_both_ways(void)
{
    open_shelf(&ways[0], FILMDISK_ONCE);
    lend_noise(SCRATCH, FILMDISK_SCRATCH_BYTES);
}

/* Lends a card with room for the plan and the lists of so many blocks. */
static void lend_shelf(const uint32_t *numbers, size_t count, uint32_t blocks)
{
    lend_card(numbers, count);
    lend_noise(PLAN, FILMDISK_PLAN_BYTES);
    lend_noise(POSITIONS, FILMDISK_PAIR_VISITS * blocks * FILMDISK_ENTRY_BYTES);
    lend_noise(LEADS, blocks * FILMDISK_ENTRY_BYTES);
    lend_noise(SCRATCH, FILMDISK_SCRATCH_BYTES);
}

/* The card of some films on one zone of so many positions. Answers how many numbers it has. */
static size_t one_zone(uint32_t *numbers, uint32_t positions, const uint32_t *films, uint32_t count)
{
    const uint32_t disk[] = {1, 1, positions, 20000, count}, rest[] = {BLOCK_BYTES, 500000, HOP, RETURN};
    memcpy(numbers, disk, sizeof disk);
    memcpy(numbers + COUNT(disk), films, count * sizeof *films);
    memcpy(numbers + COUNT(disk) + count, rest, sizeof rest);
    return COUNT(disk) + count + COUNT(rest);
}
#define ONE_ZONE_FILMS 4
#define ONE_ZONE_BLOCKS(film) (5 + (film))
#define ONE_ZONE_MOST (5 + 32 + 4)

/* Each planner of either way answers this for the card that is lent, in place of 9 this for pairs. */
static void expect_planned(const uint32_t *numbers, size_t count, uint32_t number, uint32_t of_pairs, size_t place)
{
    for (size_t i = 0; i < COUNT(ways); i++) {
        for (uint32_t showing = FILMDISK_ONCE; showing <= FILMDISK_PAIRS; showing++) {
            uint32_t expected = showing == FILMDISK_PAIRS ? of_pairs : number;
            lend_shelf(numbers, count, FILMDISK_MAX_BLOCKS);
            expect(ways[i].plans[showing](), expected, expected == 0 ? 0 : place);
        }
    }
}

/* Plans. */

/* The films in list order, each on the highest positions still free. The last one lies innermost and sets worst2 for all. */
static void plan_of_the_shelf(void)
{
    static const uint32_t films[1 + FILMDISK_MAX_FILMS] = {FILMS, 3, 2, 5}, leads[] = {0, 0, 0, 0, 0, 1460, 0, 1460, 0, 0};
    static const uint32_t numbers[][6] = {{STREAMS, BUFFER, 39640, 1460, FILMDISK_ONCE, 7}, {STREAMS, BUFFER, 39640, 1460, FILMDISK_LOOP, 7}};
    static const uint32_t positions[][BLOCKS] = {{9, 11, 10, 7, 8, 2, 6, 3, 5, 4}, {9, 11, 10, 7, 8, 2, 6, 3, 4, 5}};
    for (size_t i = 0; i < COUNT(ways); i++) {
        for (uint32_t showing = FILMDISK_ONCE; showing <= FILMDISK_LOOP; showing++) {
            open_shelf(&ways[i], showing);
            expect_words(PLAN, FILMDISK_PLAN_FILMS, films, COUNT(films));
            expect_words(PLAN, FILMDISK_PLAN_STREAMS, numbers[showing], COUNT(numbers[showing]));
            expect_words(POSITIONS, 0, positions[showing], BLOCKS);
            if (i == 0)
                expect_words(LEADS, 0, leads, BLOCKS);
        }
    }
}

/* Six blocks of two films fill the disk in halves; a block more does not fit, and shown once it does. */
static void plan_of_pairs(void)
{
    static const uint32_t planned[] = {7, 3 * BLOCK_BYTES, 85640, 0, FILMDISK_PAIRS, 4}, leads[6] = {0};
    static const uint32_t positions[] = {8, 11, 9, 10, 4, 7, 5, 6, 0, 3, 1, 2};
    uint32_t numbers[SHELF_NUMBERS];
    memcpy(numbers, shelf, sizeof numbers);
    for (size_t film = 0; film < FILMS; film++)
        numbers[SHELF_BLOCKS(film)] = 2;
    for (size_t i = 0; i < COUNT(ways); i++) {
        ways[i].open_desk(ways[i].plans[FILMDISK_PAIRS], numbers, SHELF_NUMBERS);
        expect_words(PLAN, FILMDISK_PLAN_STREAMS, planned, COUNT(planned));
        expect_words(POSITIONS, 0, positions, COUNT(positions));
        if (i == 0)
            expect_words(LEADS, 0, leads, COUNT(leads));
    }
    for (size_t film = 0; film < FILMS; film++) {
        numbers[SHELF_BLOCKS(film)] = 3;
        expect_planned(numbers, SHELF_NUMBERS, 0, FILMDISK_REFUSED_HALVES_ABOVE_POSITIONS, offset_of(numbers, SHELF_BLOCKS(2)));
        numbers[SHELF_BLOCKS(film)] = 2;
    }
}

/* On one zone every pair takes the same time: the earliest is the first film's. */
static void earliest_film(void)
{
    static const uint32_t films[] = {4, 2, 3};
    uint32_t numbers[ONE_ZONE_MOST];
    size_t count = one_zone(numbers, 9, films, COUNT(films));
    for (uint32_t showing = FILMDISK_ONCE; showing <= FILMDISK_LOOP; showing++) {
        open_desk(ways[0].plans[showing], numbers, count);
        check(word(PLAN, FILMDISK_PLAN_WORST2) == 40000 && word(PLAN, FILMDISK_PLAN_WORSTAT) == 0, "worst2 %u at %u",
              word(PLAN, FILMDISK_PLAN_WORST2), word(PLAN, FILMDISK_PLAN_WORSTAT));
    }
}

/* A kind 2 table in place of hop and return: the same plan but for its kind. */
static void measured_shelf(void)
{
    uint32_t numbers[SHELF_NUMBERS - 2 + FILMDISK_OVERHEADS];
    uint8_t straight[FILMDISK_PLAN_BYTES];
    memcpy(numbers, shelf, (SHELF_NUMBERS - 2) * sizeof *numbers);
    numbers[0] = FILMDISK_MEASURED;
    for (uint32_t k = 0; k < FILMDISK_OVERHEADS; k++)
        numbers[SHELF_NUMBERS - 2 + k] = k * HOP + RETURN;
    for (uint32_t showing = FILMDISK_ONCE; showing <= FILMDISK_LOOP; showing++) {
        open_shelf(&ways[0], showing);
        put(PLAN, FILMDISK_PLAN_KIND, FILMDISK_MEASURED);
        memcpy(straight, bytes_of(PLAN), sizeof straight);
        open_desk(ways[0].plans[showing], numbers, COUNT(numbers));
        check(memcmp(straight, bytes_of(PLAN), sizeof straight) == 0, "the plan of a measured table is that of hop and return");
    }
}

/* What is refused of a card. */

/* 1 to 16 films; 0 and 17 are 30 at their number, whatever follows. */
static void counts_of_films(void)
{
    uint32_t numbers[ONE_ZONE_MOST], films[32];
    for (size_t i = 0; i < COUNT(films); i++)
        films[i] = 2;
    for (uint32_t count = 0; count <= 32; count++) {
        size_t length = one_zone(numbers, 64, films, count);
        uint32_t expected = count >= 1 && count <= FILMDISK_MAX_FILMS ? 0 : FILMDISK_REFUSED_FILMS;
        expect_planned(numbers, length, expected, expected, offset_of(numbers, ONE_ZONE_FILMS));
        numbers[ONE_ZONE_BLOCKS(0)] = 1;
        if (expected != 0)
            expect_planned(numbers, length, expected, expected, offset_of(numbers, ONE_ZONE_FILMS));
    }
    one_zone(numbers, 64, films, 1);
    numbers[ONE_ZONE_FILMS] = 0xFFFFFFFFu;
    expect_planned(numbers, 10, FILMDISK_REFUSED_FILMS, FILMDISK_REFUSED_FILMS, offset_of(numbers, ONE_ZONE_FILMS));
}

/* Films on one zone: what they are refused by, and which of them; the same as pairs. */
struct refused_shelf {
    uint32_t positions, films[FILMDISK_MAX_FILMS], count, number, film, of_pairs, film_of_pairs;
};

static const struct refused_shelf refused_shelves[] = {
    {40000, {16384}, 1, 0, 0, 0, 0},
    {40000, {8192, 8192}, 2, 0, 0, 0, 0},
    {40000, {16382, 2}, 2, 0, 0, 0, 0},
    {40000, {16384, 2}, 2, 30, 1, 30, 1},
    {40000, {16383, 2}, 2, 30, 1, 30, 1},
    {40000, {8000, 8000, 384}, 3, 0, 0, 0, 0},
    {40000, {8000, 8000, 385}, 3, 30, 2, 30, 2},
    {40000, {8000, 16384}, 2, 30, 1, 30, 1},
    {40000, {8000, 16385}, 2, 8, 1, 8, 1}, /* 8 before 30 */
    {40000, {16384, 1}, 2, 8, 1, 8, 1},
    {40000, {16384, 0}, 2, 8, 1, 8, 1},
    {24, {4, 8}, 2, 0, 0, 0, 0},
    {24, {4, 9}, 2, 0, 0, 28, 1},
    {24, {4, 20}, 2, 0, 0, 28, 1},
    {24, {4, 21}, 2, 9, 1, 28, 1}, /* above the free positions, not above all */
    {24, {4, 1}, 2, 8, 1, 8, 1},
    {24, {4, 16381}, 2, 30, 1, 30, 1}, /* 30 before 9 */
    {24, {4, 16380}, 2, 9, 1, 28, 1},
    {24, {25, 2}, 2, 9, 0, 28, 0},
    {24, {10, 2, 2}, 3, 0, 0, 28, 2},
    {24, {20, 2, 3}, 3, 9, 2, 28, 0},
    {64, {2, 2, 2, 2, 2, 2, 2, 2, 2, 2, 2, 2, 2, 2, 2, 2}, 16, 0, 0, 0, 0},
    {63, {2, 2, 2, 2, 2, 2, 2, 2, 2, 2, 2, 2, 2, 2, 2, 2}, 16, 0, 0, 28, 15},
    {31, {2, 2, 2, 2, 2, 2, 2, 2, 2, 2, 2, 2, 2, 2, 2, 2}, 16, 9, 15, 28, 7},
};

/* A number at this film's N; an accepted card with a B of 0 is refused there. */
static void expect_at_film(planner *plan, uint32_t *numbers, size_t count, uint32_t number, uint32_t film)
{
    const size_t at_bytes = count - 4, at = number == 0 ? at_bytes : ONE_ZONE_BLOCKS(film);
    lend_shelf(numbers, count, FILMDISK_MAX_BLOCKS);
    expect(plan(), number, number == 0 ? 0 : offset_of(numbers, at));
    numbers[at_bytes] = 0;
    lend_shelf(numbers, count, FILMDISK_MAX_BLOCKS);
    expect(plan(), number == 0 ? FILMDISK_REFUSED_MEASURE : number, offset_of(numbers, at));
    numbers[at_bytes] = BLOCK_BYTES;
}

/* 8, then 30, then 9 or 28, film by film, each at its N; a fault behind it does not count. */
static void refused_films(void)
{
    for (size_t i = 0; i < 2 * COUNT(refused_shelves); i++) {
        const struct refused_shelf *r = &refused_shelves[i / 2];
        uint32_t numbers[ONE_ZONE_MOST];
        size_t count = one_zone(numbers, r->positions, r->films, r->count);
        expect_at_film(ways[i % 2].plans[FILMDISK_ONCE], numbers, count, r->number, r->film);
        expect_at_film(ways[i % 2].plans[FILMDISK_LOOP], numbers, count, r->number, r->film);
        expect_at_film(ways[i % 2].plans[FILMDISK_PAIRS], numbers, count, r->of_pairs, r->film_of_pairs);
    }
}

/* The card cut off at any byte, and with a byte too many. */
static void cards_cut_off(void)
{
    lend_shelf(shelf, SHELF_NUMBERS, BLOCKS);
    size_t length = length_of(CARD);
    for (size_t cut = 0; cut < length; cut++) {
        lend_shelf(shelf, SHELF_NUMBERS, BLOCKS);
        resize(CARD, cut);
        expect(host_plan(), FILMDISK_REFUSED_CARD_ENDS, cut);
    }
    lend_shelf(shelf, SHELF_NUMBERS, BLOCKS);
    resize(CARD, length + 1);
    expect(host_plan_loop(), FILMDISK_REFUSED_CARD_GOES_ON, length);
}

/* Lists have an entry for each block of all films, of pairs two; a scratch has its own length. */
static void short_lists(void)
{
    for (size_t short_by = 0; short_by <= 4 * BLOCKS; short_by++) {
        for (size_t i = 0; i < 3; i++) {
            lend_shelf(shelf, SHELF_NUMBERS, BLOCKS);
            resize(POSITIONS, (i == 0 ? 4 * BLOCKS - short_by : 4 * BLOCKS));
            resize(i == 2 ? SCRATCH : LEADS, (i == 2 ? FILMDISK_SCRATCH_BYTES : 4 * BLOCKS) - (i > 0 ? short_by : 0));
            expect(i == 2 ? host_plan_scratch() : host_plan(), short_by == 0 ? 0 : FILMDISK_REFUSED_TOO_SHORT, 0);
        }
    }
}

/* The desk. */

static void opening(void)
{
    for (size_t i = 0; i < COUNT(ways); i++) {
        open_shelf(&ways[i], FILMDISK_ONCE);
        check(memcmp(bytes_of(DESK), bytes_of(PLAN), FILMDISK_PLAN_BYTES) == 0, "the desk begins with the plan");
        for (size_t word_at = FILMDISK_DESK_PHASE; word_at < FILMDISK_DESK_WORDS; word_at++)
            check(word(DESK, word_at) == 0, "word %zu: expected 0, got %u", word_at, word(DESK, word_at));
    }
}

/* Every start block of every film, and the first that it has not. */
static void joins_of_every_film(void)
{
    for (size_t i = 0; i < COUNT(ways); i++) {
        open_shelf(&ways[i], FILMDISK_ONCE);
        for (uint32_t film = 0; film < FILMS; film++) {
            for (uint32_t block = 0; block < lengths[film]; block++) {
                expect(ways[i].join(STREAMS - 1, block, film), 0, 0);
                expect_slot_film(STREAMS - 1, FILMDISK_ASKED, film, block, 0);
                expect(ways[i].leave(STREAMS - 1), 0, 0);
                expect_slot_film(STREAMS - 1, FILMDISK_FREE, 0, 0, 0);
            }
            expect(ways[i].join(3, lengths[film], film), FILMDISK_REFUSED_NO_SUCH_BLOCK, 3);
        }
    }
}

/* 31 for a film that the shelf has not, after 17 and before 18; a block of 65,536 or more is 18, whatever film it would reach into. */
static void refused_joins(void)
{
    static const uint32_t films[] = {FILMS, FILMS + 1, 15, 16, 255, 65536, 0x10000, 0xFFFFFFFFu};
    static const uint32_t blocks[] = {5, 10, 65535, 65536, 65537, 2 * 65536, 0x80000000u, 0xFFFFFFFFu};
    for (size_t i = 0; i < COUNT(ways); i++) {
        open_shelf(&ways[i], FILMDISK_LOOP);
        expect(ways[i].join(2, 1, 2), 0, 0);
        for (size_t k = 0; k < COUNT(films); k++) {
            expect(ways[i].join(4, 0, films[k]), FILMDISK_REFUSED_NO_SUCH_FILM, 4);
            expect(ways[i].join(4, 0xFFFFFFFFu, films[k]), FILMDISK_REFUSED_NO_SUCH_FILM, 4);
            expect(ways[i].join(2, 0, films[k]), FILMDISK_REFUSED_SLOT_STATE, 2);
            expect(ways[i].join(STREAMS, 0, films[k]), FILMDISK_REFUSED_NO_SUCH_SLOT, STREAMS);
        }
        for (size_t k = 0; k < COUNT(blocks) * FILMS; k++)
            expect(ways[i].join(4, blocks[k / FILMS], (uint32_t)(k % FILMS)), FILMDISK_REFUSED_NO_SUCH_BLOCK, 4);
        expect_begun(ways[i].begin(), 1, 17810 + HOP + RETURN);
        expect(ways[i].join(4, 0, FILMS), FILMDISK_REFUSED_WRONG_PHASE, 0);
    }
}

/* Three rooms on three films: entries by position, each with its block within the film; the floor has the leads of all. */
static void three_films(void)
{
    for (size_t i = 0; i < COUNT(ways); i++) {
        const struct way *way = &ways[i];
        open_shelf(way, FILMDISK_ONCE);
        expect(way->join(0, 0, 2), 0, 0);
        expect(way->join(1, 0, 1), 0, 0);
        expect(way->join(2, 1, 0), 0, 0);
        expect_begun(way->begin(), 3, 20550 + 17810 + 15720 + 3 * HOP + RETURN);
        expect_fetch(0, 2, 0, 0);
        expect_fetch(1, 7, 1, 0);
        expect_fetch(2, 11, 2, 1);
        expect(way->end(), 0, 0);
        expect_slot_film(0, FILMDISK_FILLING, 2, 1, BLOCK_BYTES);
        expect_slot_film(1, FILMDISK_FILLING, 1, 1, BLOCK_BYTES);
        expect_slot_film(2, FILMDISK_FILLING, 0, 2, BLOCK_BYTES);
        expect_begun(way->begin(), 3, 17810 + 16700 + 15720 + 3 * HOP + RETURN);
        expect_fetch(0, 6, 0, 1);
        expect_fetch(1, 8, 1, 1);
        expect_fetch(2, 10, 2, 2);
        check(kind(0) == FILMDISK_PLAYING && kind(1) == FILMDISK_PLAYING && kind(2) == FILMDISK_PLAYING, "all play: no lead is at their blocks");
        expect(way->end(), 0, 0);
        expect_slot_film(0, FILMDISK_PLAYING, 2, 2, 2 * BLOCK_BYTES);
        expect_slot_film(1, FILMDISK_TAIL, 1, 2, 2 * BLOCK_BYTES); /* each at its own film's end */
        expect_slot_film(2, FILMDISK_TAIL, 0, 3, 2 * BLOCK_BYTES);
        expect(way->leave(1), 0, 0);
        expect_slot_film(1, FILMDISK_FREE, 0, 0, 0);
    }
}

/* The floor is that of all films: a slot at a block of the last film with a lead makes those of the others wait. */
static void floor_of_all_films(void)
{
    /* 500000 x 1460 / 2000000 is 365: what a playing slot holds beside a block. */
    for (uint32_t more = 364; more <= 365; more++) {
        open_shelf(&ways[0], FILMDISK_ONCE);
        put_slot_film(0, FILMDISK_PLAYING, 0, 1, BLOCK_BYTES + more);
        put_slot_film(1, FILMDISK_ASKED, 2, 2, 0);
        expect(host_begin(), 0, 0);
        check(kind(1) == (more == 365 ? FILMDISK_FILLING : FILMDISK_ASKED), "held %u: kind %u", more, kind(1));
        /* At the same block of the first film there is no lead. */
        open_shelf(&ways[0], FILMDISK_ONCE);
        put_slot_film(0, FILMDISK_PLAYING, 0, 1, BLOCK_BYTES);
        put_slot_film(1, FILMDISK_ASKED, 0, 2, 0);
        expect(host_begin(), 0, 0);
        check(kind(1) == FILMDISK_FILLING, "kind %u", kind(1));
    }
}

/* A loop goes on at the first block of its own film. */
static void loops_stay_in_their_film(void)
{
    for (size_t i = 0; i < COUNT(ways); i++) {
        open_shelf(&ways[i], FILMDISK_LOOP);
        for (uint32_t film = 0; film < FILMS; film++)
            expect(ways[i].join(film, lengths[film] - 1, film), 0, 0);
        expect_begun(ways[i].begin(), 3, 15720 + 16700 + 19090 + 3 * HOP + RETURN);
        expect(ways[i].end(), 0, 0);
        for (uint32_t film = 0; film < FILMS; film++)
            expect_slot_film(film, FILMDISK_FILLING, film, 0, BLOCK_BYTES);
        expect_begun(ways[i].begin(), 3, 16700 + 17810 + 20550 + 3 * HOP + RETURN);
        expect_fetch(0, 2, 2, 0);
        expect_fetch(1, 7, 1, 0);
        expect_fetch(2, 9, 0, 0);
    }
}

/* All four calls of both ways refuse the desk with this number, whatever else is wrong. */
static void expect_calls_refused(uint32_t number)
{
    for (size_t i = 0; i < COUNT(ways); i++) {
        expect(ways[i].join(STREAMS, 16384, FILMS), number, 0);
        expect(ways[i].leave(STREAMS), number, 0);
        expect(ways[i].begin(), number, 0);
        expect(ways[i].end(), number, 0);
    }
}

/* A desk with a slot of each kind, each of another film. */
static void mixed_desk(uint32_t phase)
{
    open_both_ways();
    put(DESK, FILMDISK_DESK_PHASE, phase);
    put_slot_film(0, FILMDISK_ASKED, 1, 1, 0);
    put_slot_film(1, FILMDISK_FILLING, 2, 4, BUFFER);
    put_slot_film(2, FILMDISK_PLAYING, 0, 2, BLOCK_BYTES);
    put_slot_film(3, FILMDISK_TAIL, 1, 2, 1);
    put_slot_film(4, FILMDISK_TAIL, 2, 5, 1);
}

struct unsound {
    size_t word;
    uint32_t value;
};

#define NAME(film, block) (((uint32_t)(film) << FILMDISK_FILM_SHIFT) + (block))

static const struct unsound unsound[] = {
    {FILMDISK_PLAN_FILMS, 0},
    {FILMDISK_PLAN_FILMS, 2},
    {FILMDISK_PLAN_FILMS, 4},
    {FILMDISK_PLAN_FILMS, 17},
    {FILMDISK_PLAN_FILMS, 0x100 + FILMS},
    {FILMDISK_PLAN_BLOCKS + 0, 2},
    {FILMDISK_PLAN_BLOCKS + 1, 1},
    {FILMDISK_PLAN_BLOCKS + 2, 4},
    {FILMDISK_PLAN_BLOCKS + 3, 2},             /* an unused entry */
    {FILMDISK_PLAN_BLOCKS + 15, 1},            /* the same */
    {FILMDISK_PLAN_WORSTAT, 2},                /* within its film, and not through the lists */
    {FILMDISK_DESK_NEXT + 0, NAME(3, 0)},      /* no such film */
    {FILMDISK_DESK_NEXT + 1, NAME(3, 4)},      /* the same */
    {FILMDISK_DESK_NEXT + 2, NAME(16, 2)},     /* the same */
    {FILMDISK_DESK_NEXT + 2, NAME(0xFFFF, 2)}, /* the same */
    {FILMDISK_DESK_NEXT + 3, NAME(3, 0)},      /* the same, at the end of a film of no blocks */
    {FILMDISK_DESK_NEXT + 0, NAME(1, 2)},      /* next below its film's N, whatever others have */
    {FILMDISK_DESK_NEXT + 1, NAME(0, 4)},      /* the same */
    {FILMDISK_DESK_NEXT + 2, NAME(1, 2)},      /* the same */
    {FILMDISK_DESK_NEXT + 3, NAME(1, 3)},      /* its film's N for a tail, not another's */
    {FILMDISK_DESK_NEXT + 3, NAME(0, 2)},      /* the same */
    {FILMDISK_DESK_NEXT + 4, NAME(2, 3)},      /* the same */
    {FILMDISK_DESK_NEXT + 5, NAME(1, 0)},      /* a free slot is zero, its film too */
    {FILMDISK_DESK_NEXT + STREAMS, NAME(1, 0)}, /* slots from n on are zero */
    {FILMDISK_DESK_NEXT + 255, NAME(2, 0)},    /* the same */
};

static void refusal_14_of_desks(void)
{
    mixed_desk(FILMDISK_BETWEEN);
    expect(host_leave(5), FILMDISK_REFUSED_SLOT_STATE, 5);
    for (size_t i = 0; i < COUNT(unsound); i++) {
        mixed_desk((uint32_t)i % 2);
        put(DESK, unsound[i].word, unsound[i].value);
        expect_calls_refused(FILMDISK_REFUSED_NOT_SOUND);
    }
}

/* Films that change places, or give a block to another, are other films: the same positions are in use, and the lists are others. */
static void refusal_14_of_other_films(void)
{
    static const uint32_t others[][FILMS] = {{2, 3, 5}, {5, 2, 3}, {3, 5, 2}, {4, 2, 4}, {2, 2, 6}, {8, 2, 0}};
    for (size_t i = 0; i < COUNT(others); i++) {
        open_both_ways();
        for (size_t film = 0; film < FILMS; film++) {
            put(PLAN, FILMDISK_PLAN_BLOCKS + film, others[i][film]);
            put(DESK, FILMDISK_PLAN_BLOCKS + film, others[i][film]);
        }
        expect_calls_refused(FILMDISK_REFUSED_NOT_SOUND);
        for (size_t way = 0; way < COUNT(ways); way++)
            expect(ways[way].open(), FILMDISK_REFUSED_NOT_SOUND, 0);
    }
}

/* Each entry of both lists counts, of whatever film. */
static void refusal_14_of_lists(void)
{
    for (size_t at = 0; at < 4 * BLOCKS; at++) {
        open_both_ways();
        bytes_of(POSITIONS)[at] ^= 1;
        expect_calls_refused(FILMDISK_REFUSED_NOT_SOUND);
        bytes_of(POSITIONS)[at] ^= 1;
        bytes_of(LEADS)[at] ^= 1;
        expect(host_leave(0), FILMDISK_REFUSED_NOT_SOUND, 0);
        expect(host_leave_scratch(0), FILMDISK_REFUSED_SLOT_STATE, 0);
    }
}

/* Windows. */

static void windows_within_a_film(void)
{
    static const uint32_t once[][2] = {{20550, 5}, {39640, 7}, {58910, 5}, {78000, 5}, {97090, 5}};
    static const uint32_t loop[][2] = {{20550, 5}, {39640, 7}, {58910, 5}, {79280, 7}, {97090, 5}};
    for (uint32_t showing = FILMDISK_ONCE; showing <= FILMDISK_LOOP; showing++) {
        open_shelf(&ways[0], showing);
        for (uint32_t k = 1; k <= 5; k++) {
            const uint32_t *window = showing == FILMDISK_LOOP ? loop[k - 1] : once[k - 1];
            expect_window(host_window(k), window[0], window[1], k * BLOCK_BYTES);
        }
        /* By the longest film, not by all blocks. */
        expect_no_window(host_window(0), FILMDISK_REFUSED_WINDOW);
        for (uint32_t k = 6; k <= BLOCKS + 1; k++)
            expect_no_window(host_window(k), FILMDISK_REFUSED_WINDOW);
    }
}

/* Films shorter than the window have none, though their blocks be slower; their positions are read all the same. */
static void short_films_have_no_window(void)
{
    static const uint32_t numbers[] = {1, 3, 2, 30000, 2, 20000, 5, 10000, 3, 5, 2, 2, BLOCK_BYTES, 500000, HOP, RETURN};
    for (uint32_t showing = FILMDISK_ONCE; showing <= FILMDISK_LOOP; showing++) {
        open_desk(ways[0].plans[showing], numbers, COUNT(numbers));
        expect_window(host_window(2), 60000, 7, 2 * BLOCK_BYTES);
        for (uint32_t k = 3; k <= 5; k++)
            expect_window(host_window(k), k * 10000, 0, k * BLOCK_BYTES);
        expect_no_window(host_window(6), FILMDISK_REFUSED_WINDOW);
        put(POSITIONS, 8, word(POSITIONS, 8) + 1);
        for (uint32_t k = 0; k <= 6; k++)
            expect_no_window(host_window(k), FILMDISK_REFUSED_NOT_SOUND);
    }
}

/* The header. */

static void films_by_the_header(void)
{
    open_shelf(&ways[0], FILMDISK_ONCE);
    for (int i = 0; i < 2; i++) {
        const uint8_t *plan = bytes_of(i == 0 ? PLAN : DESK);
        check(filmdisk_blocks(plan) == BLOCKS, "%u blocks", filmdisk_blocks(plan));
        for (uint32_t film = 0; film < FILMDISK_MAX_FILMS; film++) {
            uint32_t blocks = film < FILMS ? lengths[film] : 0, start = film < FILMS ? starts[film] : BLOCKS;
            check(filmdisk_film_blocks(plan, film) == blocks, "film %u: %u blocks", film, filmdisk_film_blocks(plan, film));
            check(filmdisk_film_start(plan, film) == start, "film %u: starts at %u", film, filmdisk_film_start(plan, film));
            for (uint32_t block = 0; block < blocks; block++)
                check(filmdisk_film_at(plan, start + block) == film, "block %u is of film %u", start + block, filmdisk_film_at(plan, start + block));
        }
        check(filmdisk_film_start(plan, 0xFFFFFFFFu) == BLOCKS, "past the films all blocks");
    }
}

/* 16 films: the last one's blocks are found too. */
static void sixteen_films_by_the_header(void)
{
    uint32_t numbers[ONE_ZONE_MOST], films[FILMDISK_MAX_FILMS], start = 0;
    for (uint32_t film = 0; film < FILMDISK_MAX_FILMS; film++)
        films[film] = 2 + film;
    open_desk(host_plan, numbers, one_zone(numbers, 200, films, FILMDISK_MAX_FILMS));
    for (uint32_t film = 0; film < FILMDISK_MAX_FILMS; start += films[film++])
        for (uint32_t block = 0; block < films[film]; block++)
            check(filmdisk_film_at(bytes_of(PLAN), start + block) == film, "block %u of film %u", block, film);
    check(filmdisk_blocks(bytes_of(PLAN)) == start && start == 152, "%u blocks", start);
}

/* Both blocks are of one film; in a loop its first follows its last, not the next film's. */
static void worst_pairs_of_shelves(void)
{
    /* The second film's last block and its first are the worst pair as a loop. */
    static const uint32_t numbers[] = {1, 4, 1, 30000, 1, 29000, 1, 20000, 9, 10000, 3, 4, 3, 2, BLOCK_BYTES, 500000, HOP, RETURN};
    open_shelf(&ways[0], FILMDISK_ONCE);
    check(worst_pair(PLAN).first == 7 && worst_pair(DESK).second == 8, "blocks 7 and 8, not %u and %u", worst_pair(PLAN).first,
          worst_pair(DESK).second);
    open_desk(host_plan_loop, numbers, COUNT(numbers));
    for (uint32_t at = 0; at < 9; at++) {
        static const uint32_t next[] = {1, 2, 3, 0, 5, 6, 4, 8, 7};
        put(PLAN, FILMDISK_PLAN_WORSTAT, at);
        check(worst_pair(PLAN).first == at && worst_pair(PLAN).second == next[at], "after block %u comes %u", at, worst_pair(PLAN).second);
    }
}

/* All slots together. */

/* 256 screens on 16 films: whoever is free joins some film at some block, some leave; the book holds. Then all watch to the end. */
static void full_house(void (*start)(const uint32_t *numbers, size_t count))
{
    static const uint32_t house[] = {
        1, 2, 30, 3000, 40, 2000, 16, 2, 3, 4, 5, 6, 7, 2, 2, 3, 4, 5, 6, 7, 5, 4, 3, 1768000, 1000000, 500, 1000000,
    };
    uint32_t seen = 0;
    start(house, COUNT(house));
    check(streams() >= 128, "%u streams", streams());
    for (unsigned i = 0; i < 60; i++) {
        for (uint32_t slot = 0; slot < streams(); slot++) {
            if (kind(slot) == FILMDISK_FREE && below(3) == 0) {
                uint32_t its_film = below(16);
                join_film(slot, below(house[7 + its_film]), its_film);
                seen |= 1u << its_film;
            } else if (kind(slot) != FILMDISK_FREE && below(40) == 0) {
                leave_slot(slot);
            }
        }
        sweep(i % 3 == 0 ? DRAW_SOME : DRAW_ALL);
    }
    check(seen == 0xFFFF, "films %x were watched", seen);
    if (word(PLAN, FILMDISK_PLAN_SHOWING) != FILMDISK_LOOP)
        sweep_to_the_end(DRAW_ALL, 3000);
}

static void house_of_sixteen_films(void)
{
    full_house(start_story);
}

static void house_of_sixteen_loops(void)
{
    full_house(start_loop_story);
}

/* In halves 16 films of two blocks each. */
static void house_of_sixteen_films_of_pairs(void)
{
    static const uint32_t house[] = {
        1, 2, 30, 3000, 40, 2000, 16, 2, 2, 2, 2, 2, 2, 2, 2, 2, 2, 2, 2, 2, 2, 2, 2, 1768000, 1000000, 500, 1000000,
    };
    start_pairs_story(house, COUNT(house));
    check(streams() >= 100, "%u streams", streams());
    for (unsigned i = 0; i < 60; i++) {
        for (uint32_t slot = 0; slot < streams(); slot++)
            if (kind(slot) == FILMDISK_FREE && below(3) == 0)
                join_film(slot, below(2), below(16));
        sweep(DRAW_ALL);
    }
    sweep_to_the_end(DRAW_ALL, 3000);
}

static const test tests[] = {
    TEST(plan_of_the_shelf),
    TEST(plan_of_pairs),
    TEST(earliest_film),
    TEST(measured_shelf),
    TEST(counts_of_films),
    TEST(refused_films),
    TEST(cards_cut_off),
    TEST(short_lists),
    TEST(opening),
    TEST(joins_of_every_film),
    TEST(refused_joins),
    TEST(three_films),
    TEST(floor_of_all_films),
    TEST(loops_stay_in_their_film),
    TEST(refusal_14_of_desks),
    TEST(refusal_14_of_other_films),
    TEST(refusal_14_of_lists),
    TEST(windows_within_a_film),
    TEST(short_films_have_no_window),
    TEST(films_by_the_header),
    TEST(sixteen_films_by_the_header),
    TEST(worst_pairs_of_shelves),
    TEST(house_of_sixteen_films),
    TEST(house_of_sixteen_loops),
    TEST(house_of_sixteen_films_of_pairs),
};

int main(int argc, char **argv)
{
    return run_tests(tests, COUNT(tests), argc, argv);
}
