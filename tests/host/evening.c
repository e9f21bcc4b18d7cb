/*
 * The library as the playout process uses it: a plan, a desk, an evening of sweeps with joins and leaves, a film to its end, and each
 * refusal. Written from filmdisk.h and docs/LAYOUT.md. Arguments: names of tests to run alone, before them 'heap' under valgrind.
 */
#include "host.h"

#include <string.h>

#define STREAMS 16
#define BLOCKS 6
#define BLOCK_BYTES 262144u
#define BUFFER 812632u
#define RETURN 15000u
#define NOBODY 0xFFFFFFFFu

static void bench_desk(void)
{
    open_desk(host_plan, bench_film, BENCH_NUMBERS);
}

/* Both planner calls, which turn down the same cards and lengths. */
static planner *const planners[] = {host_plan, host_plan_loop};

/* All that a plan call is lent for the bench film, with noise where it writes. */
static void lend_bench(void)
{
    lend_card(bench_film, BENCH_NUMBERS);
    lend_noise(PLAN, FILMDISK_PLAN_BYTES);
    lend_noise(POSITIONS, (BLOCKS + 2) * FILMDISK_ENTRY_BYTES + 3);
    lend_noise(LEADS, BLOCKS * FILMDISK_ENTRY_BYTES + 1);
}

/* Plans. */

static void plan_of_the_bench_film(void)
{
    static const uint32_t films[2 + FILMDISK_MAX_FILMS + 1] = {1, 6, [1 + FILMDISK_MAX_FILMS] = 262144, 500000};
    static const uint32_t others[] = {16, 812632, 37990, 6550, FILMDISK_ONCE, 0};
    static const uint32_t positions[] = {0, 5, 1, 4, 2, 3};
    static const uint32_t leads[] = {6550, 0, 3110, 0, 190, 0};
    uint32_t zones[1 + 2 * FILMDISK_MAX_ZONES] = {6};
    for (size_t zone = 0; zone < 6; zone++) {
        zones[1 + zone] = 1;
        zones[1 + FILMDISK_MAX_ZONES + zone] = bench_film[BENCH_ZONE_TIME(zone)];
    }
    lend_bench();
    expect(host_plan(), 0, 0);
    check(word(PLAN, FILMDISK_PLAN_KIND) == 1, "kind: expected 1, got %u", word(PLAN, FILMDISK_PLAN_KIND));
    expect_words(PLAN, FILMDISK_PLAN_ZONES, zones, COUNT(zones));
    expect_words(PLAN, FILMDISK_PLAN_FILMS, films, COUNT(films));
    for (uint32_t count = 0; count < FILMDISK_OVERHEADS; count++)
        check(word(PLAN, FILMDISK_PLAN_TABLE + count) == 12670 * count + RETURN, "overhead of %u blocks: expected %u, got %u", count,
              12670 * count + RETURN, word(PLAN, FILMDISK_PLAN_TABLE + count));
    expect_words(PLAN, FILMDISK_PLAN_STREAMS, others, COUNT(others));
    expect_words(POSITIONS, 0, positions, COUNT(positions));
    expect_words(LEADS, 0, leads, COUNT(leads));
}

/* Plans the bench film with one number changed, which it accepts. */
static void plan_with(size_t index, uint32_t value, uint32_t streams, uint32_t buffer)
{
    uint32_t numbers[BENCH_NUMBERS];
    memcpy(numbers, bench_film, sizeof numbers);
    numbers[index] = value;
    lend_bench();
    lend_card(numbers, BENCH_NUMBERS);
    expect(host_plan(), 0, 0);
    check(word(PLAN, FILMDISK_PLAN_STREAMS) == streams && word(PLAN, FILMDISK_PLAN_BUFFER) == buffer,
          "expected %u streams, buffer %u; got %u, %u", streams, buffer, word(PLAN, FILMDISK_PLAN_STREAMS),
          word(PLAN, FILMDISK_PLAN_BUFFER));
}

static void plans_at_the_limit_of_a_stream(void)
{
    plan_with(BENCH_BLOCK_BYTES, 260820, 16, 808660);
    plan_with(BENCH_BLOCK_BYTES, 260819, 15, 807020);
}

/* Times of a film's positions, innermost first, and the first block of its worst pair: shown once, and as a loop. */
static const struct worst_film {
    uint32_t blocks, times[8], worstat[2];
} worst_films[] = {
    {2, {3, 1}, {0, 0}}, /* a loop of two blocks has two equal pairs */
    {3, {2, 2, 2}, {0, 0}},
    {3, {3, 2, 1}, {0, 2}}, /* the last block of a loop with the first */
    {4, {5, 4, 3, 2}, {0, 3}},
    {4, {3, 3, 2, 1}, {2, 2}}, /* before the last, and in a loop as bad as the last with the first */
    {6, {5, 5, 5, 5, 2, 2}, {4, 2}},
    {6, {6, 3, 3, 3, 3, 2}, {0, 5}},
    {6, {3, 1, 1, 1, 1, 1}, {0, 0}},
    {8, {12, 11, 10, 9, 8, 7, 6, 5}, {0, 2}}, /* every second pair is as bad */
    {8, {9, 9, 9, 5, 5, 3, 3, 3}, {0, 5}},
    {8, {9, 9, 9, 9, 9, 3, 3, 3}, {6, 4}}, /* half way round two side by side */
};

/* By the plan and by the desk; after the last block comes block 0. */
static void worst_pairs(void)
{
    static const enum lent records[] = {PLAN, DESK};
    for (size_t i = 0; i < 2 * COUNT(worst_films); i++) {
        const struct worst_film *film = &worst_films[i / 2];
        const uint32_t first = film->worstat[i % 2], second = (first + 1) % film->blocks;
        open_film(planners[i % 2], film->times, film->blocks);
        for (size_t k = 0; k < COUNT(records); k++) {
            const filmdisk_pair got = worst_pair(records[k]);
            check(got.first == first && got.second == second, "film %zu, showing %zu: expected blocks %u and %u, got %u and %u", i / 2, i % 2,
                  first, second, got.first, got.second);
        }
    }
}

/* The desk. */

static void opening(void)
{
    bench_desk();
    check(memcmp(bytes_of(DESK), bytes_of(PLAN), FILMDISK_PLAN_BYTES) == 0, "the desk begins with the plan");
    for (size_t i = FILMDISK_DESK_PHASE; i < FILMDISK_DESK_WORDS; i++)
        check(word(DESK, i) == 0, "word %zu is 0", i);
}

/* The scope's worked desk, with slot 1 served at the second begin: slot 0 does not hold the floor with its lead, and fills on. */
static void worked_desk(void)
{
    static const uint32_t slots[] = {0, 1}, first[] = {1, 0}, second[] = {0, 1}, none[] = {0, 0};
    bench_desk();
    expect(host_join(0, 0), 0, 0);
    expect_slot(0, FILMDISK_ASKED, 0, 0);
    expect_places(slots, first, 2);
    expect_begun(host_begin(), 1, 49940);
    expect_fetch(0, 0, 0, 0);
    expect_slot(0, FILMDISK_FILLING, 0, 0);
    expect_places(slots, none, 2);
    expect(host_end(), 0, 0);
    expect_slot(0, FILMDISK_FILLING, 1, 262144);
    expect(host_join(1, 0), 0, 0);
    expect_places(slots, second, 2);
    expect_begun(host_begin(), 2, 78330);
    expect_fetch(0, 0, 1, 0);
    expect_fetch(1, 5, 0, 1);
    expect_slot(0, FILMDISK_FILLING, 1, 262144);
    expect_slot(1, FILMDISK_FILLING, 0, 0);
    expect_places(slots, none, 2);
}

/* The scope's draws, of slot 0 alone: it plays from the second begin on. */
static void worked_draws(void)
{
    bench_desk();
    expect(host_join(0, 0), 0, 0);
    expect_begun(host_begin(), 1, 49940);
    expect(host_end(), 0, 0);
    expect_begun(host_begin(), 1, 43390);
    expect_fetch(0, 5, 0, 1);
    expect_slot(0, FILMDISK_PLAYING, 1, 262144);
    put(DRAWS, 0, 21696);
    expect(host_end(), FILMDISK_REFUSED_DRAW_ABOVE_LIMIT, 0);
    put(DRAWS, 0, 21695);
    expect(host_end(), 0, 0);
    expect_slot(0, FILMDISK_PLAYING, 2, 502593);
    expect(host_join(1, 0), 0, 0);
    expect_begun(host_begin(), 2, 20550 + 22270 + 2 * 12670 + RETURN);
    expect_fetch(0, 0, 1, 0);
    expect_fetch(1, 1, 0, 2);
    expect_slot(1, FILMDISK_FILLING, 0, 0);
}

/* lead(2) is 3110: it lifts the floor by 777.5 bytes, which are not rounded. */
static void floor_to_the_half_byte(void)
{
    bench_desk();
    put_slot(0, FILMDISK_PLAYING, 3, BLOCK_BYTES + 777);
    put_slot(1, FILMDISK_FILLING, 2, BLOCK_BYTES + 777);
    expect(host_begin(), FILMDISK_REFUSED_NOT_SOUND, 0);
    put_slot(0, FILMDISK_PLAYING, 3, BLOCK_BYTES + 778);
    expect(host_begin(), 0, 0);
    expect_slot(1, FILMDISK_FILLING, 2, BLOCK_BYTES + 777);
    put(DESK, FILMDISK_DESK_PHASE, FILMDISK_BETWEEN);
    put_slot(1, FILMDISK_FILLING, 2, BLOCK_BYTES + 778);
    expect(host_begin(), 0, 0);
    expect_slot(1, FILMDISK_PLAYING, 2, BLOCK_BYTES + 778);
}

/*
 * Slots 6, 4 and 5 asked in this order, the last without a lead; each of the others lifts the floor by 1637.5 bytes. They are served eldest
 * first, and slot 5 with the one before it, never ahead of it.
 */
static void grants_in_the_order_they_asked(void)
{
    static const uint32_t held[] = {BLOCK_BYTES + 1637, BLOCK_BYTES + 1638, BLOCK_BYTES + 3274, BLOCK_BYTES + 3275};
    static const uint32_t granted[] = {0, 1, 1, 3};
    static const uint32_t slots[] = {6, 4, 5};
    for (size_t i = 0; i < COUNT(held); i++) {
        uint32_t places[COUNT(slots)];
        bench_desk();
        put_slot(0, FILMDISK_PLAYING, 1, held[i]);
        put_slot(6, FILMDISK_ASKED, 0, 0);
        put_slot(4, FILMDISK_ASKED, 0, 0);
        put_slot(5, FILMDISK_ASKED, 3, 0);
        expect(host_begin(), 0, 0);
        for (uint32_t k = 0; k < COUNT(slots); k++) {
            expect_slot(slots[k], k < granted[i] ? FILMDISK_FILLING : FILMDISK_ASKED, k == 2 ? 3 : 0, 0);
            places[k] = k < granted[i] ? 0 : k + 1 - granted[i];
        }
        expect_places(slots, places, COUNT(slots));
    }
}

/* While one waits, slot 0 plays only with the eldest's lead added to the floor, whoever else asks: 1637.5 bytes of 6550, 777.5 of 3110. */
static void play_with_the_eldests_lead(void)
{
    static const uint32_t blocks[] = {0, 2, 4, 5}, lifted[] = {1638, 778, 48, 0};
    for (size_t i = 0; i < 2 * COUNT(blocks); i++) {
        const uint32_t its_held = BLOCK_BYTES + lifted[i / 2] - i % 2;
        bench_desk();
        put_slot(0, FILMDISK_FILLING, 1, its_held);
        put_slot(3, FILMDISK_ASKED, blocks[i / 2], 0);
        put_slot(1, FILMDISK_ASKED, 0, 0);
        put_slot(2, FILMDISK_ASKED, 1, 0);
        expect(host_begin(), 0, 0);
        expect_slot(0, i % 2 == 0 ? FILMDISK_PLAYING : FILMDISK_FILLING, 1, its_held);
        expect_slot(3, FILMDISK_FILLING, blocks[i / 2], 0);
    }
    /* So too where the eldest has to wait on, for slot 4 plays and holds too little. */
    bench_desk();
    put_slot(4, FILMDISK_PLAYING, 1, BLOCK_BYTES);
    put_slot(0, FILMDISK_FILLING, 3, BLOCK_BYTES);
    put_slot(3, FILMDISK_ASKED, 0, 0);
    expect(host_begin(), 0, 0);
    expect_slot(0, FILMDISK_FILLING, 3, BLOCK_BYTES);
    expect_slot(3, FILMDISK_ASKED, 0, 0);
}

/* A join is behind all that wait and changes its slot alone; a leave of one that waits moves up those behind it. */
static void places_of_joins_and_leaves(void)
{
    static const uint32_t slots[] = {2, 5, 9, 15};
    static const uint32_t joined[] = {4, 1, 3, 2}, left[4][4] = {{0, 1, 3, 2}, {3, 0, 2, 1}, {3, 1, 0, 2}, {3, 1, 2, 0}};
    static const uint32_t order[] = {5, 15, 9, 2};
    for (size_t i = 0; i < COUNT(slots); i++) {
        uint32_t back[COUNT(slots)];
        bench_desk();
        put_slot(1, FILMDISK_PLAYING, 1, BLOCK_BYTES);
        for (size_t k = 0; k < COUNT(order); k++)
            expect(host_join(order[k], 0), 0, 0);
        expect_places(slots, joined, COUNT(slots));
        check(filmdisk_waiting(bytes_of(DESK)) == 4, "four wait, not %u", filmdisk_waiting(bytes_of(DESK)));
        expect(host_leave(slots[i]), 0, 0);
        expect_places(slots, left[i], COUNT(slots));
        expect_slot(slots[i], FILMDISK_FREE, 0, 0);
        expect(host_leave(1), 0, 0);
        expect_places(slots, left[i], COUNT(slots));
        expect(host_join(slots[i], 3), 0, 0);
        memcpy(back, left[i], sizeof back);
        back[i] = 4;
        expect_places(slots, back, COUNT(slots));
    }
}

/* An end moves nobody in the line, though a slot becomes free in it. */
static void places_of_an_end(void)
{
    static const uint32_t slots[] = {3, 4}, places[] = {2, 1};
    bench_desk();
    put(DESK, FILMDISK_DESK_PHASE, FILMDISK_SWEEPING);
    put_slot(4, FILMDISK_ASKED, 0, 0);
    put_slot(3, FILMDISK_ASKED, 0, 0);
    put_slot(2, FILMDISK_TAIL, BLOCKS, 5);
    put(DRAWS, 2, 5);
    expect(host_end(), 0, 0);
    expect_slot(2, FILMDISK_FREE, 0, 0);
    expect_places(slots, places, COUNT(slots));
}

/* A block is fetched where held + B is at most the buffer. */
static void fetched_while_it_fits(void)
{
    bench_desk();
    put_slot(0, FILMDISK_FILLING, 1, BUFFER - BLOCK_BYTES);
    put_slot(1, FILMDISK_FILLING, 1, BUFFER - BLOCK_BYTES + 1);
    put_slot(2, FILMDISK_PLAYING, 3, BUFFER - BLOCK_BYTES);
    expect_begun(host_begin(), 2, 16700 + 15720 + 2 * 12670 + RETURN);
    expect_fetch(0, 4, 2, 3);
    expect_fetch(1, 5, 0, 1);
    expect(host_end(), 0, 0);
    expect_slot(0, FILMDISK_PLAYING, 2, BUFFER);
    expect_slot(1, FILMDISK_PLAYING, 1, BUFFER - BLOCK_BYTES + 1);
}

/* What happens before which sweep of the evening. */
struct event {
    unsigned sweep;
    uint32_t slot;
    uint32_t block; /* where a join starts; NOBODY: the slot leaves */
};

static const struct event events[] = {
    {0, 0, 0},  {0, 5, 0},      {1, 15, 3}, {2, 1, 0},       {4, 5, NOBODY}, {4, 7, 5},
    {6, 5, 2},  {9, 2, 0},      {9, 3, 0},  {10, 3, NOBODY}, {11, 3, 1},     {30, 0, 0},
    {31, 4, 4}, {40, 0, NOBODY}, {41, 0, 0},
};
#define LAST_EVENT 41

/* What the playout process knows of a screen: blocks it has left to get, bytes it has left to see. */
struct screen {
    uint32_t blocks;
    uint64_t bytes;
};

/* The joins and leaves before a sweep. A screen that has seen its film to the end is free by itself. */
static void make_events(unsigned sweep, struct screen *screens)
{
    for (size_t i = 0; i < COUNT(events); i++) {
        const struct event *e = &events[i];
        if (e->sweep != sweep)
            continue;
        if (e->block == NOBODY) {
            expect(host_leave(e->slot), 0, 0);
            screens[e->slot] = (struct screen){0, 0};
        } else if (kind(e->slot) == FILMDISK_FREE) {
            expect(host_join(e->slot, e->block), 0, 0);
            screens[e->slot].blocks = BLOCKS - e->block;
            screens[e->slot].bytes = (uint64_t)(BLOCKS - e->block) * BLOCK_BYTES;
        } else {
            expect(host_join(e->slot, e->block), FILMDISK_REFUSED_SLOT_STATE, e->slot);
        }
    }
}

/* Every screen that may draws all it may; the blocks and bytes that are left fall by what was fetched and drawn. */
static void sweep_screens(struct screen *screens)
{
    filmdisk_answer answer = host_begin();
    expect(answer, 0, 0);
    for (uint32_t i = 0; i < answer.count; i++)
        screens[fetch(i).slot].blocks--;
    for (uint32_t slot = 0; slot < STREAMS; slot++) {
        uint64_t limit = draw_limit(slot, answer.bound);
        put(DRAWS, slot, held(slot) < limit ? held(slot) : (uint32_t)limit);
        screens[slot].bytes -= word(DRAWS, slot);
        check(kind(slot) != FILMDISK_PLAYING || held(slot) >= limit, "screen %u does not freeze", slot);
    }
    expect(host_end(), 0, 0);
}

static int anybody(void)
{
    for (uint32_t slot = 0; slot < STREAMS; slot++)
        if (kind(slot) != FILMDISK_FREE)
            return 1;
    return 0;
}

static void an_evening(void)
{
    struct screen screens[STREAMS] = {{0, 0}};
    unsigned sweep = 0;
    bench_desk();
    do {
        make_events(sweep, screens);
        sweep_screens(screens);
        for (uint32_t slot = 0; slot < STREAMS; slot++)
            if (kind(slot) == FILMDISK_FREE)
                check(screens[slot].blocks == 0 && screens[slot].bytes == 0, "sweep %u: screen %u misses %u blocks and %llu bytes",
                      sweep, slot, screens[slot].blocks, (unsigned long long)screens[slot].bytes);
    } while (++sweep <= LAST_EVENT || (anybody() && sweep < 5000));
    check(!anybody(), "every film came to its end");
}

/* Refusals of a card. */

static void expect_card_refused(const uint8_t *card, size_t length, uint32_t number, size_t place)
{
    for (size_t i = 0; i < COUNT(planners); i++) {
        lend_bench();
        lend(CARD, card, length);
        expect(planners[i](), number, place);
        /* Another plan string and no lists: the card is judged before them. */
        lend_noise(PLAN, FILMDISK_PLAN_BYTES - 1);
        lend_null(POSITIONS);
        lend_null(LEADS);
        expect(planners[i](), number, place);
    }
}

/* The bench film with one number changed; the place is that number's. */
static void refuse_with(size_t index, uint32_t value, uint32_t number)
{
    uint32_t numbers[BENCH_NUMBERS];
    uint8_t card[FILMDISK_MAX_CARD_BYTES];
    memcpy(numbers, bench_film, sizeof numbers);
    numbers[index] = value;
    lend_card(numbers, BENCH_NUMBERS);
    size_t length = length_of(CARD);
    memcpy(card, bytes_of(CARD), length);
    expect_card_refused(card, length, number, offset_of(numbers, index));
}

static size_t bench_card(uint8_t *card)
{
    lend_card(bench_film, BENCH_NUMBERS);
    memcpy(card, bytes_of(CARD), length_of(CARD));
    return length_of(CARD);
}

static void refusal_1(void)
{
    uint8_t card[FILMDISK_MAX_CARD_BYTES];
    size_t length = bench_card(card);
    check(length == 37, "the bench card has 37 bytes, not %zu", length);
    for (size_t cut = 0; cut < length; cut++)
        expect_card_refused(card, cut, FILMDISK_REFUSED_CARD_ENDS, cut);
    lend_bench();
    lend_null(CARD);
    for (size_t i = 0; i < COUNT(planners); i++)
        expect(planners[i](), FILMDISK_REFUSED_CARD_ENDS, 0);
}

static void refusal_2(void)
{
    static const uint8_t longer[] = {0x81, 0x00};
    static const uint8_t six[] = {1, 0x80, 0x80, 0x80, 0x80, 0x80, 0x01};
    static const uint8_t five[] = {1, 0xFF, 0xFF, 0xFF, 0xFF, 0xFF};
    static const uint8_t above[] = {1, 0xFF, 0xFF, 0xFF, 0xFF, 0x10};
    static const uint8_t greatest[] = {1, 0xFF, 0xFF, 0xFF, 0xFF, 0x0F};
    expect_card_refused(longer, sizeof longer, FILMDISK_REFUSED_NUMBER_FORM, 0);
    expect_card_refused(six, sizeof six, FILMDISK_REFUSED_NUMBER_FORM, 1);
    expect_card_refused(five, sizeof five, FILMDISK_REFUSED_NUMBER_FORM, 1);
    expect_card_refused(above, sizeof above, FILMDISK_REFUSED_NUMBER_FORM, 1);
    expect_card_refused(greatest, sizeof greatest, FILMDISK_REFUSED_ZONES, 1);
}

static void refusal_3(void)
{
    refuse_with(BENCH_KIND, 0, FILMDISK_REFUSED_KIND);
    refuse_with(BENCH_KIND, 3, FILMDISK_REFUSED_KIND);
}

static void refusal_4(void)
{
    refuse_with(BENCH_ZONES, 0, FILMDISK_REFUSED_ZONES);
    refuse_with(BENCH_ZONES, FILMDISK_MAX_ZONES + 1, FILMDISK_REFUSED_ZONES);
}

static void refusal_5(void)
{
    refuse_with(BENCH_ZONE_POSITIONS(0), 0, FILMDISK_REFUSED_ZONE_POSITIONS);
    refuse_with(BENCH_ZONE_POSITIONS(0), 1048577, FILMDISK_REFUSED_ZONE_POSITIONS);
    refuse_with(BENCH_ZONE_POSITIONS(5), 1048572, FILMDISK_REFUSED_ZONE_POSITIONS);
}

static void refusal_6(void)
{
    refuse_with(BENCH_ZONE_TIME(0), 4000001, FILMDISK_REFUSED_ZONE_TIME);
    refuse_with(BENCH_ZONE_TIME(1), 0, FILMDISK_REFUSED_ZONE_TIME);
    check(offset_of(bench_film, BENCH_ZONE_TIME(1)) == 7, "the second zone's time is at 7");
}

static void refusal_7(void)
{
    refuse_with(BENCH_ZONE_TIME(1), 22271, FILMDISK_REFUSED_ZONE_TIME_RISES);
    refuse_with(BENCH_ZONE_TIME(5), 16701, FILMDISK_REFUSED_ZONE_TIME_RISES);
}

static void refusal_8(void)
{
    refuse_with(BENCH_BLOCKS, 1, FILMDISK_REFUSED_BLOCKS);
    refuse_with(BENCH_BLOCKS, FILMDISK_MAX_BLOCKS + 1, FILMDISK_REFUSED_BLOCKS);
    check(offset_of(bench_film, BENCH_BLOCKS) == 26, "N is at 26");
}

static void refusal_9(void)
{
    refuse_with(BENCH_BLOCKS, 7, FILMDISK_REFUSED_BLOCKS_ABOVE_POSITIONS);
    refuse_with(BENCH_BLOCKS, FILMDISK_MAX_BLOCKS, FILMDISK_REFUSED_BLOCKS_ABOVE_POSITIONS);
}

static void refusal_10(void)
{
    static const uint32_t above[] = {4194305, 10000001, 1000001, 1000001};
    for (size_t i = 0; i < COUNT(above); i++) {
        refuse_with(BENCH_BLOCK_BYTES + i, 0, FILMDISK_REFUSED_MEASURE);
        refuse_with(BENCH_BLOCK_BYTES + i, above[i], FILMDISK_REFUSED_MEASURE);
    }
}

static void refusal_11(void)
{
    uint8_t card[FILMDISK_MAX_CARD_BYTES];
    size_t length = bench_card(card);
    card[length] = '\n';
    card[length + 1] = 0x80;
    expect_card_refused(card, length + 1, FILMDISK_REFUSED_CARD_GOES_ON, length);
    expect_card_refused(card, length + 2, FILMDISK_REFUSED_CARD_GOES_ON, length);
}

static void refusal_12(void)
{
    for (size_t i = 0; i < COUNT(planners); i++) {
        uint32_t numbers[] = {1, 1, 2, 20000, 1, 2, 23834, 500000, 12670, 15000};
        lend_bench();
        lend_card(numbers, COUNT(numbers));
        expect(planners[i](), FILMDISK_REFUSED_NO_STREAM, 0);
        resize(LEADS, 7);
        expect(planners[i](), FILMDISK_REFUSED_TOO_SHORT, 0);
        numbers[6] = 23835;
        lend_bench();
        lend_card(numbers, COUNT(numbers));
        expect(planners[i](), 0, 0);
        check(word(PLAN, FILMDISK_PLAN_STREAMS) == 1, "one stream fits");
    }
}

/* Three times a zone's time against the first zone's, 22270. */
static void refusal_26(void)
{
    uint32_t numbers[BENCH_NUMBERS];
    refuse_with(BENCH_ZONE_TIME(1), 3, FILMDISK_REFUSED_ZONE_TIME_HALF_DEAD);
    refuse_with(BENCH_ZONE_TIME(5), 7423, FILMDISK_REFUSED_ZONE_TIME_HALF_DEAD);
    memcpy(numbers, bench_film, sizeof numbers);
    numbers[BENCH_ZONE_TIME(5)] = 7424;
    lend_bench();
    lend_card(numbers, BENCH_NUMBERS);
    expect(host_plan(), 0, 0);
}

/* Refusals of lengths. */

/* The bench film's plan, with one string of another length. */
static void plan_too_short(enum lent which, size_t length)
{
    for (size_t i = 0; i < COUNT(planners); i++) {
        lend_bench();
        resize(which, length);
        expect(planners[i](), FILMDISK_REFUSED_TOO_SHORT, 0);
    }
}

static void refusal_13_of_plan(void)
{
    const size_t list_bytes = BLOCKS * FILMDISK_ENTRY_BYTES;
    plan_too_short(POSITIONS, list_bytes - 1);
    plan_too_short(POSITIONS, 0);
    plan_too_short(LEADS, list_bytes - 1);
    plan_too_short(LEADS, 0);
    plan_too_short(PLAN, FILMDISK_PLAN_BYTES - 1);
    plan_too_short(PLAN, FILMDISK_PLAN_BYTES + 1);
    plan_too_short(PLAN, 0);
    for (size_t i = 0; i < COUNT(planners); i++) {
        lend_bench();
        lend_null(PLAN);
        expect(planners[i](), FILMDISK_REFUSED_TOO_SHORT, 0);
        lend_bench();
        resize(POSITIONS, list_bytes);
        expect(planners[i](), 0, 0);
    }
}

static void refusal_13_of_open(void)
{
    static const size_t lengths[] = {0, FILMDISK_PLAN_BYTES, FILMDISK_DESK_BYTES - 1, FILMDISK_DESK_BYTES + 1};
    bench_desk();
    for (size_t i = 0; i < COUNT(lengths); i++) {
        lend_noise(DESK, lengths[i]);
        expect(host_open(), FILMDISK_REFUSED_TOO_SHORT, 0);
    }
    lend_null(DESK);
    expect(host_open(), FILMDISK_REFUSED_TOO_SHORT, 0);
    put(PLAN, FILMDISK_PLAN_STREAMS, 15);
    expect(host_open(), FILMDISK_REFUSED_NOT_SOUND, 0);
}

static void refusal_13_of_begin(void)
{
    static const size_t lengths[] = {0, 12, STREAMS * FILMDISK_FETCH_BYTES - 1};
    bench_desk();
    expect(host_join(3, 1), 0, 0);
    for (size_t i = 0; i < COUNT(lengths); i++) {
        lend_noise(FETCHES, lengths[i]);
        expect(host_begin(), FILMDISK_REFUSED_TOO_SHORT, 0);
    }
    lend_null(FETCHES);
    expect(host_begin(), FILMDISK_REFUSED_TOO_SHORT, 0);
    lend_noise(FETCHES, STREAMS * FILMDISK_FETCH_BYTES + 11);
    expect_begun(host_begin(), 1, 15720 + 12670 + RETURN);
}

/* Records that are not sound. */

static void expect_opening_refused(void)
{
    lend_noise(DESK, FILMDISK_DESK_BYTES);
    expect(host_open(), FILMDISK_REFUSED_NOT_SOUND, 0);
    lend_noise(DESK, FILMDISK_DESK_BYTES + 4);
    expect(host_open(), FILMDISK_REFUSED_NOT_SOUND, 0);
}

/* With another kind or time the rest may still be the plan; with any other figure changed it is none. */
static int makes_other_plan(enum lent which, size_t at)
{
    size_t its_word = at / 4;
    int is_time = its_word >= FILMDISK_PLAN_TIMES && its_word < FILMDISK_PLAN_TIMES + 6;
    return which != PLAN || !(is_time || its_word == FILMDISK_PLAN_KIND);
}

/* Each byte of the plan and of both lists counts. */
static void refuse_each_byte(planner *plan, uint32_t block_bytes)
{
    static const enum lent read[] = {PLAN, POSITIONS, LEADS};
    uint32_t numbers[BENCH_NUMBERS];
    memcpy(numbers, bench_film, sizeof numbers);
    numbers[BENCH_BLOCK_BYTES] = block_bytes;
    open_desk(plan, numbers, BENCH_NUMBERS);
    for (size_t i = 0; i < COUNT(read); i++) {
        size_t length = length_of(read[i]);
        for (size_t at = 0; at < length; at++) {
            uint8_t old = bytes_of(read[i])[at];
            if (!makes_other_plan(read[i], at))
                continue;
            bytes_of(read[i])[at] = (uint8_t)(old ^ 1u << below(8));
            expect_opening_refused();
            bytes_of(read[i])[at] = old;
        }
    }
    lend_noise(DESK, FILMDISK_DESK_BYTES);
    expect(host_open(), 0, 0);
}

/* The loop has 16 streams too, so that c x n x margin / 2,000,000 is whole and another rate gives another buffer. */
static void refusal_14_of_open(void)
{
    refuse_each_byte(host_plan, BLOCK_BYTES);
    refuse_each_byte(host_plan_loop, 264740);
}

static void refusal_14_of_lengths(void)
{
    static const enum lent read[] = {PLAN, POSITIONS, LEADS};
    for (size_t i = 0; i < COUNT(read); i++) {
        bench_desk();
        resize(read[i], length_of(read[i]) - 1);
        expect_opening_refused();
        lend_null(read[i]);
        expect_opening_refused();
    }
    bench_desk();
    resize(PLAN, FILMDISK_PLAN_BYTES + 1);
    expect_opening_refused();
    /* Version 0.11.0 had one film. */
    bench_desk();
    resize(PLAN, 1584);
    expect_opening_refused();
}

/* A zone of which the film has no block counts too: a plan with a time that is 26 on a card is none. */
static void refusal_14_of_half_dead_zone(void)
{
    static const uint32_t numbers[] = {1, 2, 1, 47160, 2, 15720, 1, 2, 262144, 500000, 12670, 15000};
    lend_bench();
    lend_card(numbers, COUNT(numbers));
    expect(host_plan(), 0, 0);
    lend_noise(DESK, FILMDISK_DESK_BYTES);
    expect(host_open(), 0, 0);
    put(PLAN, FILMDISK_PLAN_TIMES, 47161);
    expect_opening_refused();
}

/* All four calls refuse the desk with this number, whatever else is wrong. */
static void expect_calls_refused(uint32_t number)
{
    expect(host_join(STREAMS, BLOCKS), number, 0);
    expect(host_leave(STREAMS), number, 0);
    expect(host_begin(), number, 0);
    expect(host_end(), number, 0);
}

/* A desk with a slot of each kind, in a sweep or not. */
static void mixed_desk(uint32_t phase)
{
    bench_desk();
    put(DESK, FILMDISK_DESK_PHASE, phase);
    put_slot(0, FILMDISK_ASKED, 5, 0);
    put_slot(1, FILMDISK_FILLING, 1, BUFFER);
    put_slot(2, FILMDISK_PLAYING, 3, BLOCK_BYTES);
    put_slot(3, FILMDISK_TAIL, BLOCKS, 1);
}

struct unsound {
    size_t word;
    uint32_t value;
};

static const struct unsound unsound[] = {
    {FILMDISK_PLAN_STREAMS, 15},
    {FILMDISK_PLAN_BUFFER, BUFFER + 1},
    {FILMDISK_PLAN_KIND, 0},
    {FILMDISK_PLAN_KIND, 3},
    {FILMDISK_PLAN_ZONES, 7},
    {FILMDISK_PLAN_POSITIONS + 63, 1},
    {FILMDISK_PLAN_RATE, 500001},
    {FILMDISK_PLAN_TABLE, RETURN + 1},
    {FILMDISK_PLAN_TABLE + 256, RETURN + 256 * 12670 - 1},
    {FILMDISK_PLAN_SHOWING, FILMDISK_LOOP},
    {FILMDISK_PLAN_SHOWING, 2},
    {FILMDISK_PLAN_WORSTAT, 1},
    {FILMDISK_PLAN_WORSTAT, 0x01000000},
    {FILMDISK_DESK_PHASE, 2},
    {FILMDISK_DESK_KINDS + 4, 5},
    {FILMDISK_DESK_KINDS + 0, 0x100},
    {FILMDISK_PLAN_FILMS, 0},
    {FILMDISK_PLAN_FILMS, 2},
    {FILMDISK_PLAN_BLOCKS + 1, 1},           /* an unused film is zero */
    {FILMDISK_PLAN_BLOCKS + 15, 0x01000000}, /* the same */
    {FILMDISK_DESK_NEXT + 4, 1},             /* a free slot is zero */
    {FILMDISK_DESK_NEXT + 4, 0x10000},       /* the same of its film */
    {FILMDISK_DESK_NEXT + 2, 0x10003},       /* no such film */
    {FILMDISK_DESK_NEXT + 3, 0x10006},       /* the same */
    {FILMDISK_DESK_HELD + 15, 1},            /* the same */
    {FILMDISK_DESK_KINDS + STREAMS, 1},      /* slots from n on are zero */
    {FILMDISK_DESK_HELD + 255, 1},           /* the same */
    {FILMDISK_DESK_HELD + 0, 1},             /* asked holds 0 */
    {FILMDISK_DESK_NEXT + 0, BLOCKS},        /* next below N */
    {FILMDISK_DESK_NEXT + 1, BLOCKS},        /* the same */
    {FILMDISK_DESK_NEXT + 2, BLOCKS},        /* the same */
    {FILMDISK_DESK_NEXT + 3, BLOCKS - 1},    /* N for a tail */
    {FILMDISK_DESK_HELD + 3, 0},             /* a tail holds 1 or more */
    {FILMDISK_DESK_HELD + 1, BUFFER + 1},    /* none above the buffer */
    {FILMDISK_DESK_HELD + 2, BLOCK_BYTES - 1}, /* playing holds the floor */
    {FILMDISK_DESK_NEXT + 1, 4},             /* a floor of 47.5 bytes more */
    {FILMDISK_DESK_PLACES + 0, 0},           /* asked has a place */
    {FILMDISK_DESK_PLACES + 0, 2},           /* 1 for the eldest */
    {FILMDISK_DESK_PLACES + 0, 0x101},       /* the same */
    {FILMDISK_DESK_PLACES + 0, 0xFFFFFFFFu}, /* the same */
    {FILMDISK_DESK_PLACES + 1, 1},           /* filling has none */
    {FILMDISK_DESK_PLACES + 2, 2},           /* playing has none */
    {FILMDISK_DESK_PLACES + 3, 1},           /* a tail has none */
    {FILMDISK_DESK_PLACES + 4, 2},           /* a free slot has none */
    {FILMDISK_DESK_PLACES + STREAMS, 2},     /* slots from n on have none */
    {FILMDISK_DESK_PLACES + 255, 1},         /* the same */
};

static void refusal_14_of_desks(void)
{
    mixed_desk(FILMDISK_BETWEEN);
    expect(host_leave(4), FILMDISK_REFUSED_SLOT_STATE, 4);
    for (size_t i = 0; i < COUNT(unsound); i++) {
        mixed_desk((uint32_t)i % 2);
        put(DESK, unsound[i].word, unsound[i].value);
        expect_calls_refused(FILMDISK_REFUSED_NOT_SOUND);
    }
}

/* Places of three that wait: 1, 2 and 3, each once, in whatever order. */
static void refusal_14_of_places(void)
{
    static const uint32_t values[] = {0, 1, 2, 3, 4, 0x102, 0xFFFFFFFFu};
    bench_desk();
    for (uint32_t slot = 0; slot < 3; slot++)
        put_slot(slot, FILMDISK_ASKED, 0, 0);
    for (size_t i = 0; i < COUNT(values) * COUNT(values) * COUNT(values); i++) {
        const uint32_t places[] = {values[i % 7], values[i / 7 % 7], values[i / 49]};
        unsigned met = 0;
        for (uint32_t slot = 0; slot < 3; slot++) {
            put(DESK, FILMDISK_DESK_PLACES + slot, places[slot]);
            met |= places[slot] <= 4 ? 1u << places[slot] : 0;
        }
        if (met == 0xE)
            expect(host_leave(3), FILMDISK_REFUSED_SLOT_STATE, 3);
        else
            expect_calls_refused(FILMDISK_REFUSED_NOT_SOUND);
    }
}

/* All slots of a house wait, the last one the eldest: a place twice, or one too high, is found. */
static void refusal_14_of_a_crowd(void)
{
    static const uint32_t house[] = {1, 2, 20, 3000, 20, 2000, 1, 40, 1768000, 1000000, 500, 1000000};
    open_desk(host_plan, house, COUNT(house));
    for (uint32_t slot = FILMDISK_MAX_STREAMS; slot > 0; slot--)
        put_slot(slot - 1, FILMDISK_ASKED, 0, 0);
    check(filmdisk_waiting(bytes_of(DESK)) == 256 && place(0) == 256 && place(255) == 1, "256 wait");
    for (uint32_t slot = 0; slot < FILMDISK_MAX_STREAMS; slot += 51) {
        const uint32_t right = place(slot), others[] = {0, right + 1, right - 1, 257, 128};
        for (size_t i = 0; i < COUNT(others); i++) {
            put(DESK, FILMDISK_DESK_PLACES + slot, others[i]);
            if (others[i] != right)
                expect_calls_refused(FILMDISK_REFUSED_NOT_SOUND);
        }
        put(DESK, FILMDISK_DESK_PLACES + slot, right);
    }
    expect(host_leave(255), 0, 0);
    check(place(254) == 1 && place(0) == 255, "those behind the eldest move up");
    expect(host_join(255, 0), 0, 0);
    check(place(255) == 256, "who comes back is the last");
    filmdisk_answer begun = host_begin();
    expect(begun, 0, 0);
    check(begun.count == 256 && filmdisk_waiting(bytes_of(DESK)) == 0, "all are granted where none plays");
}

/* A record names the earliest worst pair: neither another pair as bad nor any other block makes a plan. */
static void refusal_14_of_worst_pairs(void)
{
    for (size_t i = 0; i < 2 * COUNT(worst_films); i++) {
        const struct worst_film *film = &worst_films[i / 2];
        const uint32_t right = film->worstat[i % 2];
        open_film(planners[i % 2], film->times, film->blocks);
        for (uint32_t step = 1; step <= film->blocks; step++) {
            const uint32_t block = (right + step) % (film->blocks + 1);
            put(DESK, FILMDISK_PLAN_WORSTAT, block);
            expect_calls_refused(FILMDISK_REFUSED_NOT_SOUND);
            put(PLAN, FILMDISK_PLAN_WORSTAT, block);
            expect(host_open(), FILMDISK_REFUSED_NOT_SOUND, 0);
            put(PLAN, FILMDISK_PLAN_WORSTAT, right);
            expect(host_open(), 0, 0);
        }
        expect(host_join(0, right), 0, 0);
    }
}

static void refusal_14_of_desk_strings(void)
{
    static const enum lent read[] = {DESK, POSITIONS, LEADS};
    for (size_t i = 0; i < COUNT(read); i++) {
        mixed_desk(FILMDISK_BETWEEN);
        bytes_of(read[i])[4] ^= 1;
        expect_calls_refused(FILMDISK_REFUSED_NOT_SOUND);
        mixed_desk(FILMDISK_SWEEPING);
        resize(read[i], length_of(read[i]) - 1);
        expect_calls_refused(FILMDISK_REFUSED_NOT_SOUND);
        lend_null(read[i]);
        expect_calls_refused(FILMDISK_REFUSED_NOT_SOUND);
    }
    mixed_desk(FILMDISK_SWEEPING);
    resize(DESK, FILMDISK_DESK_BYTES + 1);
    expect_calls_refused(FILMDISK_REFUSED_NOT_SOUND);
    /* Versions 0.7.0 to 0.9.0 had no places. */
    bench_desk();
    resize(DESK, 4660);
    expect_calls_refused(FILMDISK_REFUSED_NOT_SOUND);
}

/* Refusals of a sound desk. */

static void refusal_15(void)
{
    mixed_desk(FILMDISK_SWEEPING);
    lend_null(FETCHES);
    expect(host_join(STREAMS, BLOCKS), FILMDISK_REFUSED_WRONG_PHASE, 0);
    expect(host_leave(STREAMS), FILMDISK_REFUSED_WRONG_PHASE, 0);
    expect(host_begin(), FILMDISK_REFUSED_WRONG_PHASE, 0);
    mixed_desk(FILMDISK_BETWEEN);
    lend_null(DRAWS);
    expect(host_end(), FILMDISK_REFUSED_WRONG_PHASE, 0);
}

static void refusal_16(void)
{
    static const uint32_t slots[] = {STREAMS, 255, 256, 0x80000000u, 0xFFFFFFFFu};
    mixed_desk(FILMDISK_BETWEEN);
    for (size_t i = 0; i < COUNT(slots); i++) {
        expect(host_join(slots[i], BLOCKS), FILMDISK_REFUSED_NO_SUCH_SLOT, slots[i]);
        expect(host_leave(slots[i]), FILMDISK_REFUSED_NO_SUCH_SLOT, slots[i]);
    }
}

static void refusal_17(void)
{
    mixed_desk(FILMDISK_BETWEEN);
    for (uint32_t slot = 0; slot < 4; slot++)
        expect(host_join(slot, BLOCKS), FILMDISK_REFUSED_SLOT_STATE, slot);
    expect(host_leave(4), FILMDISK_REFUSED_SLOT_STATE, 4);
    expect(host_leave(STREAMS - 1), FILMDISK_REFUSED_SLOT_STATE, STREAMS - 1);
}

static void refusal_18(void)
{
    mixed_desk(FILMDISK_BETWEEN);
    expect(host_join(4, BLOCKS), FILMDISK_REFUSED_NO_SUCH_BLOCK, 4);
    expect(host_join(STREAMS - 1, 0xFFFFFFFFu), FILMDISK_REFUSED_NO_SUCH_BLOCK, STREAMS - 1);
    expect(host_join(STREAMS - 1, BLOCKS - 1), 0, 0);
    expect_slot(STREAMS - 1, FILMDISK_ASKED, BLOCKS - 1, 0);
}

/* A whole entry more or less; spare bytes are no entry. */
static void refusal_19(void)
{
    static const size_t lengths[] = {0, 4, STREAMS * 4 - 1, STREAMS * 4 + 4, FILMDISK_MAX_STREAMS * 4};
    mixed_desk(FILMDISK_SWEEPING);
    for (size_t i = 0; i < COUNT(lengths); i++) {
        lend_noise(DRAWS, lengths[i]);
        expect(host_end(), FILMDISK_REFUSED_DRAW_COUNT, 0);
    }
    lend_null(DRAWS);
    expect(host_end(), FILMDISK_REFUSED_DRAW_COUNT, 0);
    lend_noise(DRAWS, STREAMS * 4 + 3);
    memset(bytes_of(DRAWS), 0, STREAMS * 4);
    expect(host_end(), 0, 0);
}

/* A sweep of the mixed desk: slot 2 alone is fetched for, block 3 in 16700. */
#define MIXED_LIMIT ((16700 + 12670 + RETURN) / 2)

static void refusal_20(void)
{
    static const uint32_t others[] = {0, 1, 4, 15};
    mixed_desk(FILMDISK_SWEEPING);
    for (size_t i = 0; i < COUNT(others); i++) {
        put(DRAWS, others[i], 1);
        expect(host_end(), FILMDISK_REFUSED_DRAW_ABOVE_LIMIT, others[i]);
        put(DRAWS, others[i], 0);
    }
    put(DRAWS, 2, MIXED_LIMIT + 1);
    put(DRAWS, 3, 0xFFFFFFFFu);
    expect(host_end(), FILMDISK_REFUSED_DRAW_ABOVE_LIMIT, 2);
    put(DRAWS, 2, MIXED_LIMIT);
    expect(host_end(), FILMDISK_REFUSED_DRAW_ABOVE_LIMIT, 3);
    put(DRAWS, 3, 1);
    expect(host_end(), 0, 0);
    expect_slot(2, FILMDISK_PLAYING, 4, 2 * BLOCK_BYTES - MIXED_LIMIT);
    expect_slot(3, FILMDISK_FREE, 0, 0);
}

/* 20 goes over all slots before 21. */
static void refusal_21(void)
{
    mixed_desk(FILMDISK_SWEEPING);
    put_slot(7, FILMDISK_TAIL, BLOCKS, 100);
    put(DRAWS, 7, 101);
    expect(host_end(), FILMDISK_REFUSED_DRAW_ABOVE_HELD, 7);
    put(DRAWS, 3, MIXED_LIMIT);
    expect(host_end(), FILMDISK_REFUSED_DRAW_ABOVE_HELD, 3);
    put(DRAWS, 15, 1);
    expect(host_end(), FILMDISK_REFUSED_DRAW_ABOVE_LIMIT, 15);
    put(DRAWS, 15, 0);
    put(DRAWS, 3, 1);
    put(DRAWS, 7, 99);
    expect(host_end(), 0, 0);
    expect_slot(7, FILMDISK_TAIL, BLOCKS, 1);
}

/* Longer lists than needed, with bytes that are no entry at their ends. */
static void spare_bytes(void)
{
    bench_desk();
    resize(POSITIONS, length_of(POSITIONS) + 3);
    resize(LEADS, length_of(LEADS) + 9);
    expect(host_join(0, 1), 0, 0);
    resize(FETCHES, length_of(FETCHES) + 17);
    expect_begun(host_begin(), 1, 15720 + 12670 + RETURN);
    expect_fetch(0, 5, 0, 1);
    resize(DRAWS, length_of(DRAWS) + 1);
    expect(host_end(), 0, 0);
    expect(host_leave(0), 0, 0);
    lend_noise(DESK, FILMDISK_DESK_BYTES);
    expect(host_open(), 0, 0);
}

/* The header. */

struct constant {
    size_t its, by_layout;
};

/* Each size and offset of docs/LAYOUT.md. */
static void sizes_and_offsets(void)
{
    static const struct constant constants[] = {
        {FILMDISK_PLAN_KIND, 0},     {FILMDISK_PLAN_ZONES, 1},         {FILMDISK_PLAN_POSITIONS, 2},
        {FILMDISK_PLAN_TIMES, 66},   {FILMDISK_PLAN_FILMS, 130},       {FILMDISK_PLAN_BLOCKS, 131},
        {FILMDISK_PLAN_BLOCK_BYTES, 147}, {FILMDISK_PLAN_RATE, 148},   {FILMDISK_PLAN_TABLE, 149},
        {FILMDISK_PLAN_STREAMS, 406}, {FILMDISK_PLAN_BUFFER, 407},     {FILMDISK_PLAN_WORST2, 408},
        {FILMDISK_PLAN_MARGIN, 409}, {FILMDISK_PLAN_SHOWING, 410},     {FILMDISK_PLAN_WORSTAT, 411},
        {FILMDISK_PLAN_WORDS, 412},  {FILMDISK_PLAN_BYTES, 1648},      {FILMDISK_DESK_PHASE, 412},
        {FILMDISK_DESK_KINDS, 413},  {FILMDISK_DESK_NEXT, 669},        {FILMDISK_DESK_HELD, 925},
        {FILMDISK_DESK_PLACES, 1181}, {FILMDISK_DESK_WORDS, 1437},     {FILMDISK_DESK_BYTES, 5748},
        {FILMDISK_MAX_CARD_BYTES, 1519}, {FILMDISK_MAX_FILMS, 16},     {FILMDISK_FILM_SHIFT, 16},
        {FILMDISK_FETCH_POSITION, 0}, {FILMDISK_FETCH_SLOT, 1},        {FILMDISK_FETCH_BLOCK, 2},
        {FILMDISK_FETCH_BYTES, 12},  {FILMDISK_ENTRY_BYTES, 4},        {FILMDISK_ONCE, 0},
        {FILMDISK_LOOP, 1},
    };
    for (size_t i = 0; i < COUNT(constants); i++)
        check(constants[i].its == constants[i].by_layout, "constant %zu: expected %zu, got %zu", i, constants[i].by_layout,
              constants[i].its);
}

/* A word of a string, byte by byte; its bytes all differ. */
static void put_bytes(enum lent which, size_t byte, uint8_t lowest)
{
    for (size_t i = 0; i < 4; i++)
        bytes_of(which)[byte + i] = (uint8_t)(lowest + i);
}

static void slots_and_fetches_by_the_header(void)
{
    static const uint32_t slots[] = {0, 1, 77, 255};
    lend_noise(DESK, FILMDISK_DESK_BYTES);
    lend_noise(FETCHES, 256 * FILMDISK_FETCH_BYTES);
    for (size_t i = 0; i < COUNT(slots); i++) {
        uint32_t slot = slots[i];
        put_bytes(DESK, 1652 + 4 * slot, 0x10);
        put_bytes(DESK, 2676 + 4 * slot, 0x20);
        put_bytes(DESK, 3700 + 4 * slot, 0x30);
        put_bytes(DESK, 4724 + 4 * slot, 0x70);
        check(filmdisk_slot_kind(bytes_of(DESK), slot) == 0x13121110, "kind of slot %u", slot);
        check(filmdisk_slot_film(bytes_of(DESK), slot) == 0x2322, "film of slot %u", slot);
        check(filmdisk_slot_next(bytes_of(DESK), slot) == 0x2120, "next of slot %u", slot);
        check(filmdisk_slot_held(bytes_of(DESK), slot) == 0x33323130, "held of slot %u", slot);
        check(filmdisk_slot_place(bytes_of(DESK), slot) == 0x73727170, "place of slot %u", slot);
        put_bytes(FETCHES, 12 * slot, 0x40);
        put_bytes(FETCHES, 12 * slot + 4, 0x50);
        put_bytes(FETCHES, 12 * slot + 8, 0x60);
        filmdisk_fetch got = filmdisk_fetch_at(bytes_of(FETCHES), slot);
        check(got.position == 0x43424140 && got.slot == 0x53525150 && got.block == 0x63626160, "fetch %u: %x, %x, %x", slot,
              got.position, got.slot, got.block);
    }
}

/* How many wait, of any desk: the slots of kind 1. */
static void waiting_by_the_header(void)
{
    static const uint32_t slots[] = {0, 77, 255};
    bench_desk();
    for (uint32_t i = 0; i < COUNT(slots); i++) {
        check(filmdisk_waiting(bytes_of(DESK)) == i, "expected %u, got %u", i, filmdisk_waiting(bytes_of(DESK)));
        put(DESK, FILMDISK_DESK_KINDS + slots[i], FILMDISK_ASKED);
        put(DESK, FILMDISK_DESK_NEXT + i, FILMDISK_ASKED);
        put(DESK, FILMDISK_DESK_PLACES + i, FILMDISK_ASKED);
    }
    for (uint32_t slot = 0; slot < FILMDISK_MAX_STREAMS; slot++)
        put(DESK, FILMDISK_DESK_KINDS + slot, FILMDISK_ASKED);
    check(filmdisk_waiting(bytes_of(DESK)) == 256, "expected 256, got %u", filmdisk_waiting(bytes_of(DESK)));
}

/* c x bound / 1,000,000 rounded down for playing and tail slots, 0 for the others and for other strings; the products go beyond 32 bits. */
static void draw_limits(void)
{
    static const uint32_t cases[][3] = {
        {500000, 43390, 21695}, {500000, 43391, 21695}, {500000, 1, 0}, {500000, 2, 1}, {10000000, 429496729, 4294967290u},
    };
    bench_desk();
    for (uint32_t its_kind = FILMDISK_FREE; its_kind <= FILMDISK_TAIL; its_kind++) {
        int draws = its_kind == FILMDISK_PLAYING || its_kind == FILMDISK_TAIL;
        put(DESK, FILMDISK_DESK_KINDS + its_kind, its_kind);
        for (size_t i = 0; i < COUNT(cases); i++) {
            put(DESK, FILMDISK_PLAN_RATE, cases[i][0]);
            check(draw_limit(its_kind, cases[i][1]) == (draws ? cases[i][2] : 0), "kind %u, case %zu: %llu", its_kind, i,
                  (unsigned long long)draw_limit(its_kind, cases[i][1]));
        }
    }
    check(draw_limit(FILMDISK_TAIL, 0xFFFFFFFFu) == 42949672950ull, "the limit has 64 bits");
    put(DESK, FILMDISK_DESK_KINDS + FILMDISK_MAX_STREAMS - 1, FILMDISK_PLAYING);
    put(DESK, FILMDISK_DESK_NEXT, FILMDISK_PLAYING);
    check(draw_limit(FILMDISK_MAX_STREAMS - 1, 1000000) == 10000000, "the last slot plays");
    check(draw_limit(FILMDISK_MAX_STREAMS, 1000000) == 0 && draw_limit(0xFFFFFFFFu, 1000000) == 0, "there are no more slots");
    static const size_t others[] = {0, 1, FILMDISK_PLAN_BYTES, FILMDISK_DESK_BYTES - 1, FILMDISK_DESK_BYTES + 1};
    for (size_t i = 0; i < COUNT(others); i++) {
        resize(DESK, others[i]);
        check(draw_limit(FILMDISK_TAIL, 1000000) == 0, "a string of %zu bytes is no desk", others[i]);
    }
}

/* A slot of each kind: what the limit lets it draw is accepted, one byte more is 20. */
static void draw_limits_of_a_sweep(void)
{
    mixed_desk(FILMDISK_BETWEEN);
    put_slot(3, FILMDISK_TAIL, BLOCKS, BUFFER);
    filmdisk_answer begun = host_begin();
    expect(begun, 0, 0);
    for (uint32_t slot = 0; slot < STREAMS; slot++) {
        uint32_t limit = (uint32_t)draw_limit(slot, begun.bound);
        check((limit > 0) == (slot >= 1 && slot <= 3), "slot %u may draw %u", slot, limit);
        put(DRAWS, slot, limit + 1);
        expect(host_end(), FILMDISK_REFUSED_DRAW_ABOVE_LIMIT, slot);
        put(DRAWS, slot, limit);
    }
    expect(host_end(), 0, 0);
}

/* Numbers that a call may answer: document 01's, and of document 02's some. */
static int is_number(uint32_t number)
{
    return number <= FILMDISK_REFUSED_DRAW_ABOVE_HELD || number == FILMDISK_REFUSED_FILMS || number == FILMDISK_REFUSED_NO_SUCH_FILM ||
           (number >= FILMDISK_REFUSED_TABLE && number <= FILMDISK_REFUSED_HALVES_ABOVE_POSITIONS);
}

static void a_meaning_for_each_number(void)
{
    for (uint32_t number = 0; number <= 40; number++) {
        const int has_meaning = strcmp(filmdisk_meaning(number), "no such number") != 0;
        check(has_meaning == is_number(number), "%u has a meaning: expected %d, got %d", number, is_number(number), has_meaning);
        for (uint32_t other = 0; other < number && is_number(number); other++)
            check(strcmp(filmdisk_meaning(number), filmdisk_meaning(other)) != 0, "%u and %u mean the same", other, number);
    }
    check(strcmp(filmdisk_meaning(FILMDISK_REFUSED_DRAW_ABOVE_HELD), "draw above held") == 0, "21 is the last of document 01");
    check(strcmp(filmdisk_meaning(FILMDISK_REFUSED_ZONE_TIME_HALF_DEAD), "zone time, times three, below the first zone's time") == 0,
          "26 is a zone time");
    check(FILMDISK_REFUSED_TABLE == 25, "25 is an overhead");
    check(FILMDISK_REFUSED_WINDOW == 27, "27 is a window");
    check(FILMDISK_REFUSED_HALVES_ABOVE_POSITIONS == 28, "28 is of pairs");
    check(FILMDISK_REFUSED_FILMS == 30 && FILMDISK_REFUSED_NO_SUCH_FILM == 31, "30 and 31 are of shelves");
}

static const test tests[] = {
    TEST(plan_of_the_bench_film),
    TEST(plans_at_the_limit_of_a_stream),
    TEST(worst_pairs),
    TEST(opening),
    TEST(worked_desk),
    TEST(worked_draws),
    TEST(floor_to_the_half_byte),
    TEST(grants_in_the_order_they_asked),
    TEST(play_with_the_eldests_lead),
    TEST(places_of_joins_and_leaves),
    TEST(places_of_an_end),
    TEST(fetched_while_it_fits),
    TEST(an_evening),
    TEST(refusal_1),
    TEST(refusal_2),
    TEST(refusal_3),
    TEST(refusal_4),
    TEST(refusal_5),
    TEST(refusal_6),
    TEST(refusal_7),
    TEST(refusal_8),
    TEST(refusal_9),
    TEST(refusal_10),
    TEST(refusal_11),
    TEST(refusal_12),
    TEST(refusal_26),
    TEST(refusal_13_of_plan),
    TEST(refusal_13_of_open),
    TEST(refusal_13_of_begin),
    TEST(refusal_14_of_open),
    TEST(refusal_14_of_lengths),
    TEST(refusal_14_of_half_dead_zone),
    TEST(refusal_14_of_desks),
    TEST(refusal_14_of_places),
    TEST(refusal_14_of_a_crowd),
    TEST(refusal_14_of_worst_pairs),
    TEST(refusal_14_of_desk_strings),
    TEST(refusal_15),
    TEST(refusal_16),
    TEST(refusal_17),
    TEST(refusal_18),
    TEST(refusal_19),
    TEST(refusal_20),
    TEST(refusal_21),
    TEST(spare_bytes),
    TEST(sizes_and_offsets),
    TEST(slots_and_fetches_by_the_header),
    TEST(waiting_by_the_header),
    TEST(draw_limits),
    TEST(draw_limits_of_a_sweep),
    TEST(a_meaning_for_each_number),
};

int main(int argc, char **argv)
{
    return run_tests(tests, COUNT(tests), argc, argv);
}
