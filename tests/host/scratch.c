/*
 * A scratch in place of the lead list, as the playout process of a board without room for leads uses it: plans and desks by scratch alone,
 * the same calls by list and by scratch side by side, and where the scratch's 13 stands. Written from filmdisk.h and docs/LAYOUT.md.
 * Arguments: names of tests to run alone, before them 'heap' under valgrind.
 */
#include "host.h"

#include <string.h>

#define STREAMS 16
#define BLOCKS 6
#define BLOCK_BYTES 262144u
#define BUFFER 812632u
#define HOP 12670u
#define RETURN 15000u

/* Each planner call by list, and by scratch. */
static planner *const planners[] = {host_plan, host_plan_loop};
static planner *const scratch_planners[] = {host_plan_scratch, host_plan_loop_scratch};

/* Lengths of a scratch: below 512 words, and of 512 words or more. */
static const size_t short_lengths[] = {0, 1, 3, 4, BLOCKS * 4, 2044, 2047};
static const size_t long_lengths[] = {2048, 2049, 2051, 2052, 4096, 65536, 80000};

static void bench_desk(void)
{
    open_desk_scratch(host_plan_scratch, bench_film, BENCH_NUMBERS);
}

/* All that a plan call by scratch is lent for the bench film, with noise where it writes. */
static void lend_bench(size_t scratch_bytes)
{
    lend_card(bench_film, BENCH_NUMBERS);
    lend_noise(PLAN, FILMDISK_PLAN_BYTES);
    lend_noise(POSITIONS, (BLOCKS + 2) * FILMDISK_ENTRY_BYTES + 3);
    lend_null(LEADS);
    lend_noise(SCRATCH, scratch_bytes);
}

/* A film of so many blocks on seven zones. */
static void lend_film(uint32_t blocks)
{
    uint32_t numbers[] = {1, 7, 0, 22270, 0, 20550, 0, 19090, 0, 17810, 0, 16700, 0, 15720, 0, 14850, 1, blocks, BLOCK_BYTES, 500000, HOP, RETURN};
    for (size_t zone = 0; zone < 7; zone++)
        numbers[2 + 2 * zone] = zone < 6 ? blocks / 7 : blocks - 6 * (blocks / 7);
    lend_card(numbers, COUNT(numbers));
}

/* Plans. */

static void plan_of_the_bench_film(void)
{
    static const uint32_t once[] = {16, 812632, 37990, 6550, FILMDISK_ONCE, 0};
    static const uint32_t looped[] = {15, 807320, 38970, 5570, FILMDISK_LOOP, BLOCKS - 1};
    static const uint32_t once_positions[] = {0, 5, 1, 4, 2, 3}, looped_positions[] = {0, 5, 1, 3, 2, 4};
    lend_bench(FILMDISK_SCRATCH_BYTES);
    expect(host_plan_scratch(), 0, 0);
    expect_words(PLAN, FILMDISK_PLAN_STREAMS, once, COUNT(once));
    expect_words(POSITIONS, 0, once_positions, BLOCKS);
    lend_bench(FILMDISK_SCRATCH_BYTES);
    expect(host_plan_loop_scratch(), 0, 0);
    expect_words(PLAN, FILMDISK_PLAN_STREAMS, looped, COUNT(looped));
    expect_words(POSITIONS, 0, looped_positions, BLOCKS);
}

/* The plan and the positions of a film are those of the list call, up to the longest film, with a scratch of 512 words. */
static void plans_as_with_the_list(void)
{
    static const uint32_t films[] = {7, 8, 511, 512, 513, 514, 2048, 16383, 16384};
    static uint8_t plan[FILMDISK_PLAN_BYTES], positions[FILMDISK_MAX_BLOCKS * FILMDISK_ENTRY_BYTES];
    for (size_t i = 0; i < 2 * COUNT(films); i++) {
        const size_t list_bytes = films[i / 2] * FILMDISK_ENTRY_BYTES;
        lend_film(films[i / 2]);
        lend_noise(PLAN, FILMDISK_PLAN_BYTES);
        lend_noise(POSITIONS, list_bytes);
        lend_noise(LEADS, list_bytes);
        expect(planners[i % 2](), 0, 0);
        memcpy(plan, bytes_of(PLAN), sizeof plan);
        memcpy(positions, bytes_of(POSITIONS), list_bytes);
        lend_noise(PLAN, FILMDISK_PLAN_BYTES);
        lend_noise(POSITIONS, list_bytes);
        lend_noise(SCRATCH, FILMDISK_SCRATCH_BYTES);
        expect(scratch_planners[i % 2](), 0, 0);
        check(memcmp(plan, bytes_of(PLAN), sizeof plan) == 0, "the plan of %u blocks is the same", films[i / 2]);
        check(memcmp(positions, bytes_of(POSITIONS), list_bytes) == 0, "the positions of %u blocks are the same", films[i / 2]);
    }
}

/* The desk by scratch alone. */

/* The scope's worked desk. */
static void worked_desk(void)
{
    bench_desk();
    expect(host_join_scratch(0, 0), 0, 0);
    expect_slot(0, FILMDISK_ASKED, 0, 0);
    expect_begun(host_begin_scratch(), 1, 49940);
    expect_fetch(0, 0, 0, 0);
    expect_slot(0, FILMDISK_FILLING, 0, 0);
    expect(host_end_scratch(), 0, 0);
    expect_slot(0, FILMDISK_FILLING, 1, 262144);
    expect(host_join_scratch(1, 0), 0, 0);
    expect_begun(host_begin_scratch(), 2, 78330);
    expect_fetch(0, 0, 1, 0);
    expect_fetch(1, 5, 0, 1);
    expect_slot(0, FILMDISK_FILLING, 1, 262144);
    expect_slot(1, FILMDISK_FILLING, 0, 0);
}

/* The scope's draws, of slot 0 alone. */
static void worked_draws(void)
{
    bench_desk();
    expect(host_join_scratch(0, 0), 0, 0);
    expect_begun(host_begin_scratch(), 1, 49940);
    expect(host_end_scratch(), 0, 0);
    expect_begun(host_begin_scratch(), 1, 43390);
    expect_slot(0, FILMDISK_PLAYING, 1, 262144);
    put(DRAWS, 0, 21696);
    expect(host_end_scratch(), FILMDISK_REFUSED_DRAW_ABOVE_LIMIT, 0);
    put(DRAWS, 0, 21695);
    expect(host_end_scratch(), 0, 0);
    expect_slot(0, FILMDISK_PLAYING, 2, 502593);
}

/* The leads count, though no list has them: lead(2) of 3110 lifts the floor by 777.5 bytes. */
static void floor_to_the_half_byte(void)
{
    bench_desk();
    put_slot(0, FILMDISK_PLAYING, 3, BLOCK_BYTES + 777);
    put_slot(1, FILMDISK_FILLING, 2, BLOCK_BYTES + 777);
    expect(host_begin_scratch(), FILMDISK_REFUSED_NOT_SOUND, 0);
    put_slot(0, FILMDISK_PLAYING, 3, BLOCK_BYTES + 778);
    expect(host_begin_scratch(), 0, 0);
    expect_slot(1, FILMDISK_FILLING, 2, BLOCK_BYTES + 777);
    put(DESK, FILMDISK_DESK_PHASE, FILMDISK_BETWEEN);
    put_slot(1, FILMDISK_FILLING, 2, BLOCK_BYTES + 778);
    expect(host_begin_scratch(), 0, 0);
    expect_slot(1, FILMDISK_PLAYING, 2, BLOCK_BYTES + 778);
}

/* Slots 6, 4 and 5 asked in this order: the first two lift the floor by 1637.5 bytes each, the third has no lead and is never ahead. */
static void grants_by_the_leads(void)
{
    static const uint32_t held[] = {BLOCK_BYTES + 1637, BLOCK_BYTES + 1638, BLOCK_BYTES + 3274, BLOCK_BYTES + 3275};
    static const uint32_t granted[] = {0, 1, 1, 3};
    static const uint32_t slots[] = {6, 4, 5};
    for (size_t i = 0; i < COUNT(held); i++) {
        uint32_t places[COUNT(slots)];
        bench_desk();
        put_slot(0, FILMDISK_PLAYING, 1, held[i]);
        for (uint32_t k = 0; k < COUNT(slots); k++) {
            expect(host_join_scratch(slots[k], k == 2 ? 3 : 0), 0, 0);
            places[k] = k < granted[i] ? 0 : k + 1 - granted[i];
        }
        expect(host_begin_scratch(), 0, 0);
        expect_places(slots, places, COUNT(slots));
    }
}

/* A slot plays only with the eldest's lead added to the floor: 777.5 bytes of lead(2), though no list has it. */
static void play_with_the_eldests_lead(void)
{
    for (uint32_t more = 777; more <= 778; more++) {
        bench_desk();
        put_slot(0, FILMDISK_FILLING, 1, BLOCK_BYTES + more);
        put_slot(2, FILMDISK_ASKED, 2, 0);
        put_slot(1, FILMDISK_ASKED, 0, 0);
        expect(host_begin_scratch(), 0, 0);
        expect_slot(0, more == 778 ? FILMDISK_PLAYING : FILMDISK_FILLING, 1, BLOCK_BYTES + more);
    }
}

/* A leave moves up those behind it, and who comes back is the last. */
static void places_of_joins_and_leaves(void)
{
    static const uint32_t slots[] = {1, 8, 12}, asked[] = {3, 1, 2}, left[] = {2, 0, 1}, back[] = {2, 3, 1};
    bench_desk();
    expect(host_join_scratch(8, 0), 0, 0);
    expect(host_join_scratch(12, 0), 0, 0);
    expect(host_join_scratch(1, 0), 0, 0);
    expect_places(slots, asked, COUNT(slots));
    expect(host_leave_scratch(8), 0, 0);
    expect_places(slots, left, COUNT(slots));
    expect(host_join_scratch(8, 5), 0, 0);
    expect_places(slots, back, COUNT(slots));
}

/* Every screen draws all it may in a sweep with this bound. */
static void put_draws(uint32_t bound)
{
    for (uint32_t slot = 0; slot < word(DESK, FILMDISK_PLAN_STREAMS); slot++) {
        uint64_t limit = draw_limit(slot, bound);
        put(DRAWS, slot, held(slot) < limit ? held(slot) : (uint32_t)limit);
        check(kind(slot) != FILMDISK_PLAYING || held(slot) >= limit, "screen %u does not freeze", slot);
    }
}

static void sweep(void)
{
    filmdisk_answer begun = host_begin_scratch();
    expect(begun, 0, 0);
    put_draws(begun.bound);
    expect(host_end_scratch(), 0, 0);
}

static int anybody(void)
{
    for (uint32_t slot = 0; slot < STREAMS; slot++)
        if (kind(slot) != FILMDISK_FREE)
            return 1;
    return 0;
}

/* Screens join one after another and see the film to its end. */
static void an_evening(void)
{
    bench_desk();
    for (uint32_t slot = 0; slot < STREAMS; slot++) {
        expect(host_join_scratch(slot, slot % BLOCKS), 0, 0);
        sweep();
    }
    if (kind(STREAMS - 1) != FILMDISK_FREE)
        expect(host_leave_scratch(STREAMS - 1), 0, 0);
    for (unsigned sweeps = 0; anybody() && sweeps < 5000; sweeps++)
        sweep();
    check(!anybody(), "every film came to its end");
}

/* Lobby screens go round and leave. */
static void a_lobby(void)
{
    unsigned rounds = 0;
    open_desk_scratch(host_plan_loop_scratch, bench_film, BENCH_NUMBERS);
    for (uint32_t slot = 0; slot < 4; slot++)
        expect(host_join_scratch(slot, slot), 0, 0);
    for (unsigned sweeps = 0; sweeps < 400; sweeps++) {
        const uint32_t before = next(0);
        sweep();
        rounds += next(0) < before;
    }
    check(rounds >= 3, "slot 0 went round %u times", rounds);
    for (uint32_t slot = 0; slot < 4; slot++) {
        check(kind(slot) == FILMDISK_PLAYING, "screen %u plays", slot);
        expect(host_leave_scratch(slot), 0, 0);
    }
}

/* By list and by scratch. */

/* A call on the desk, by its sort. */
static filmdisk_answer call_listed(unsigned sort, uint32_t slot, uint32_t block)
{
    switch (sort) {
    case 0:
        return host_join(slot, block);
    case 1:
        return host_leave(slot);
    case 2:
        return host_begin();
    default:
        return host_end();
    }
}

static filmdisk_answer call_scratch(unsigned sort, uint32_t slot, uint32_t block)
{
    switch (sort) {
    case 0:
        return host_join_scratch(slot, block);
    case 1:
        return host_leave_scratch(slot);
    case 2:
        return host_begin_scratch();
    default:
        return host_end_scratch();
    }
}

/* The call on the same desk in both ways: the same answer, desk and fetches. */
static filmdisk_answer call_twice(unsigned sort, uint32_t slot, uint32_t block)
{
    static uint8_t desk[FILMDISK_DESK_BYTES], fetches[FILMDISK_MAX_STREAMS * FILMDISK_FETCH_BYTES];
    static uint8_t listed[FILMDISK_DESK_BYTES], listed_fetches[sizeof fetches];
    const size_t fetch_bytes = length_of(FETCHES);
    memcpy(desk, bytes_of(DESK), sizeof desk);
    memcpy(fetches, bytes_of(FETCHES), fetch_bytes);
    const filmdisk_answer by_list = call_listed(sort, slot, block);
    memcpy(listed, bytes_of(DESK), sizeof listed);
    memcpy(listed_fetches, bytes_of(FETCHES), fetch_bytes);
    lend(DESK, desk, sizeof desk);
    lend(FETCHES, fetches, fetch_bytes);
    const filmdisk_answer by_scratch = call_scratch(sort, slot, block);
    expect(by_scratch, by_list.number, by_list.place);
    check(by_scratch.count == by_list.count && by_scratch.bound == by_list.bound, "expected count %u, bound %u; got %u, %u",
          by_list.count, by_list.bound, by_scratch.count, by_scratch.bound);
    check(memcmp(listed, bytes_of(DESK), sizeof listed) == 0, "the desk is the same");
    check(memcmp(listed_fetches, bytes_of(FETCHES), fetch_bytes) == 0, "the fetches are the same");
    return by_scratch;
}

/* A sort of call: mostly one of the desk's phase. */
static unsigned some_sort(void)
{
    if (below(8) == 0)
        return below(4);
    if (word(DESK, FILMDISK_DESK_PHASE) == FILMDISK_SWEEPING)
        return 3;
    return below(3) == 0 ? 2 : below(8) == 0;
}

/* Calls at random, many of them refused, on desks of both showings. */
static void calls_as_with_the_list(void)
{
    for (size_t i = 0; i < COUNT(planners); i++) {
        unsigned accepted = 0;
        uint32_t bound = 0;
        open_desk(planners[i], bench_film, BENCH_NUMBERS);
        lend_noise(SCRATCH, FILMDISK_SCRATCH_BYTES + below(9));
        for (unsigned calls = 0; calls < 600; calls++) {
            put_draws(bound);
            if (below(8) == 0)
                put(DRAWS, below(STREAMS - 1), below(30000));
            const filmdisk_answer answer = call_twice(some_sort(), below(STREAMS + 2), below(BLOCKS + 1));
            accepted += answer.number == 0;
            if (answer.number == 0)
                bound = answer.bound;
        }
        check(accepted > 200, "%u calls were accepted", accepted);
    }
}

/* A desk that is opened by scratch goes on by list, and back. */
static void both_ways_on_one_desk(void)
{
    static const uint32_t leads[] = {6550, 0, 3110, 0, 190, 0};
    bench_desk();
    lend_noise(LEADS, sizeof leads);
    for (size_t i = 0; i < COUNT(leads); i++)
        put(LEADS, i, leads[i]);
    expect(host_join(0, 0), 0, 0);
    expect_begun(host_begin_scratch(), 1, 49940);
    expect(host_end(), 0, 0);
    expect(host_join_scratch(1, 0), 0, 0);
    expect_begun(host_begin(), 2, 78330);
    expect(host_end_scratch(), 0, 0);
    expect_slot(0, FILMDISK_FILLING, 2, 2 * BLOCK_BYTES);
    expect_slot(1, FILMDISK_FILLING, 1, BLOCK_BYTES);
    /* Leads that are another film's are 14 by list, and not asked for by scratch. */
    put(LEADS, 2, 3111);
    expect(host_leave(1), FILMDISK_REFUSED_NOT_SOUND, 0);
    expect(host_leave_scratch(1), 0, 0);
}

/* Refusals of the planner. */

/* 13 after all that the card is refused by, and before 12. */
static void refusal_13_of_plan(void)
{
    uint32_t poor[BENCH_NUMBERS];
    memcpy(poor, bench_film, sizeof poor);
    poor[BENCH_BLOCK_BYTES] = 1000;
    for (size_t i = 0; i < 2 * COUNT(short_lengths); i++) {
        planner *const plan = scratch_planners[i % 2];
        lend_bench(short_lengths[i / 2]);
        expect(plan(), FILMDISK_REFUSED_TOO_SHORT, 0);
        lend_noise(PLAN, FILMDISK_PLAN_BYTES + 1);
        expect(plan(), FILMDISK_REFUSED_TOO_SHORT, 0);
        lend_null(POSITIONS);
        expect(plan(), FILMDISK_REFUSED_TOO_SHORT, 0);
        lend_bench(short_lengths[i / 2]);
        lend_card(poor, BENCH_NUMBERS);
        expect(plan(), FILMDISK_REFUSED_TOO_SHORT, 0);
        /* A card that is cut off, one that goes on. */
        lend_bench(short_lengths[i / 2]);
        resize(CARD, length_of(CARD) - 1);
        expect(plan(), FILMDISK_REFUSED_CARD_ENDS, length_of(CARD));
        lend_bench(short_lengths[i / 2]);
        resize(CARD, length_of(CARD) + 1);
        expect(plan(), FILMDISK_REFUSED_CARD_GOES_ON, length_of(CARD) - 1);
    }
    for (size_t i = 0; i < COUNT(scratch_planners); i++) {
        lend_bench(FILMDISK_SCRATCH_BYTES);
        lend_null(SCRATCH);
        expect(scratch_planners[i](), FILMDISK_REFUSED_TOO_SHORT, 0);
        lend_bench(FILMDISK_SCRATCH_BYTES);
        resize(POSITIONS, BLOCKS * FILMDISK_ENTRY_BYTES - 1);
        expect(scratch_planners[i](), FILMDISK_REFUSED_TOO_SHORT, 0);
        lend_bench(FILMDISK_SCRATCH_BYTES);
        resize(PLAN, FILMDISK_PLAN_BYTES - 1);
        expect(scratch_planners[i](), FILMDISK_REFUSED_TOO_SHORT, 0);
        lend_bench(FILMDISK_SCRATCH_BYTES);
        lend_card(poor, BENCH_NUMBERS);
        expect(scratch_planners[i](), FILMDISK_REFUSED_NO_STREAM, 0);
    }
}

/* A longer scratch is as good, and so is one with bytes that are no word at its end. */
static void longer_scratches(void)
{
    for (size_t i = 0; i < COUNT(long_lengths); i++) {
        for (size_t k = 0; k < COUNT(scratch_planners); k++) {
            lend_bench(long_lengths[i]);
            expect(scratch_planners[k](), 0, 0);
        }
        bench_desk();
        lend_noise(SCRATCH, long_lengths[i]);
        expect(host_open_scratch(), 0, 0);
        expect(host_join_scratch(3, 0), 0, 0);
        expect(host_begin_scratch(), 0, 0);
        expect(host_end_scratch(), 0, 0);
        expect(host_leave_scratch(3), 0, 0);
    }
}

/* Refusals of the desk. */

/* All five calls refuse the short scratch, whatever else is wrong. */
static void expect_13(void)
{
    expect(host_open_scratch(), FILMDISK_REFUSED_TOO_SHORT, 0);
    expect(host_join_scratch(STREAMS, BLOCKS), FILMDISK_REFUSED_TOO_SHORT, 0);
    expect(host_leave_scratch(STREAMS), FILMDISK_REFUSED_TOO_SHORT, 0);
    expect(host_begin_scratch(), FILMDISK_REFUSED_TOO_SHORT, 0);
    expect(host_end_scratch(), FILMDISK_REFUSED_TOO_SHORT, 0);
}

/* 13 for the scratch goes before 14 and all that follows; no string is written, the desk of an opening neither. */
static void refusal_13_of_desk_calls(void)
{
    static const enum lent read[] = {PLAN, DESK, POSITIONS};
    for (size_t i = 0; i <= COUNT(short_lengths); i++) {
        bench_desk();
        if (i < COUNT(short_lengths))
            lend_noise(SCRATCH, short_lengths[i]);
        else
            lend_null(SCRATCH);
        expect_13();
        put(DESK, FILMDISK_DESK_PHASE, FILMDISK_SWEEPING);
        lend_null(FETCHES);
        lend_null(DRAWS);
        expect_13();
        for (size_t k = 0; k < COUNT(read); k++) {
            bytes_of(read[k])[4] ^= 1;
            expect_13();
            resize(read[k], length_of(read[k]) - 1);
            expect_13();
            lend_null(read[k]);
            expect_13();
        }
    }
}

/* The opening: 13 for the scratch, 14, 13 for the desk string. */
static void order_of_an_opening(void)
{
    bench_desk();
    lend_noise(DESK, FILMDISK_DESK_BYTES - 1);
    expect(host_open_scratch(), FILMDISK_REFUSED_TOO_SHORT, 0);
    resize(PLAN, FILMDISK_PLAN_BYTES - 1);
    expect(host_open_scratch(), FILMDISK_REFUSED_NOT_SOUND, 0);
    lend_noise(DESK, FILMDISK_DESK_BYTES);
    expect(host_open_scratch(), FILMDISK_REFUSED_NOT_SOUND, 0);
    lend_noise(DESK, FILMDISK_DESK_BYTES);
    resize(SCRATCH, FILMDISK_SCRATCH_BYTES - 1);
    expect(host_open_scratch(), FILMDISK_REFUSED_TOO_SHORT, 0);
}

/* The begin: 13 for the scratch, 14, 15, 13 for the fetch list. */
static void order_of_a_begin(void)
{
    bench_desk();
    resize(FETCHES, STREAMS * FILMDISK_FETCH_BYTES - 1);
    expect(host_begin_scratch(), FILMDISK_REFUSED_TOO_SHORT, 0);
    put(DESK, FILMDISK_DESK_PHASE, FILMDISK_SWEEPING);
    expect(host_begin_scratch(), FILMDISK_REFUSED_WRONG_PHASE, 0);
    put(DESK, FILMDISK_DESK_PHASE, 2);
    expect(host_begin_scratch(), FILMDISK_REFUSED_NOT_SOUND, 0);
    resize(SCRATCH, FILMDISK_SCRATCH_BYTES - 1);
    expect(host_begin_scratch(), FILMDISK_REFUSED_TOO_SHORT, 0);
}

/* All four calls on the desk answer the number with a scratch that is long enough. */
static void expect_calls_refused(uint32_t number)
{
    for (unsigned sort = 0; sort < 4; sort++)
        expect(call_scratch(sort, STREAMS, BLOCKS), number, 0);
}

struct damage {
    size_t word;
    uint32_t value;
};

/* Desks and positions that are not the plan of their figures. */
static void refusal_14(void)
{
    static const struct damage unsound[] = {
        {FILMDISK_PLAN_STREAMS, STREAMS - 1}, {FILMDISK_PLAN_BUFFER, BUFFER + 1},  {FILMDISK_PLAN_KIND, 3},
        {FILMDISK_PLAN_ZONES, 7},             {FILMDISK_PLAN_TIMES, 22271},        {FILMDISK_PLAN_RATE, 500001},
        {FILMDISK_PLAN_WORST2, 37989},        {FILMDISK_PLAN_MARGIN, 6551},        {FILMDISK_PLAN_SHOWING, FILMDISK_LOOP},
        {FILMDISK_PLAN_SHOWING, 2},           {FILMDISK_PLAN_WORSTAT, 1},          {FILMDISK_DESK_PHASE, 2},
        {FILMDISK_DESK_KINDS, 5},             {FILMDISK_DESK_NEXT, 1},             {FILMDISK_DESK_HELD + 255, 1},
        {FILMDISK_DESK_KINDS, FILMDISK_ASKED}, {FILMDISK_DESK_PLACES, 1},          {FILMDISK_DESK_PLACES + 255, 1},
    };
    for (size_t i = 0; i < COUNT(unsound); i++) {
        bench_desk();
        put(DESK, unsound[i].word, unsound[i].value);
        expect_calls_refused(FILMDISK_REFUSED_NOT_SOUND);
        if (unsound[i].word >= FILMDISK_PLAN_WORDS)
            continue;
        put(PLAN, unsound[i].word, unsound[i].value);
        expect(host_open_scratch(), FILMDISK_REFUSED_NOT_SOUND, 0);
    }
    for (size_t i = 0; i < BLOCKS * FILMDISK_ENTRY_BYTES; i++) {
        bench_desk();
        bytes_of(POSITIONS)[i] ^= 0x20;
        expect_calls_refused(FILMDISK_REFUSED_NOT_SOUND);
        expect(host_open_scratch(), FILMDISK_REFUSED_NOT_SOUND, 0);
    }
    bench_desk();
    resize(POSITIONS, BLOCKS * FILMDISK_ENTRY_BYTES - 1);
    expect_calls_refused(FILMDISK_REFUSED_NOT_SOUND);
    resize(POSITIONS, BLOCKS * FILMDISK_ENTRY_BYTES + 7);
    expect_calls_refused(FILMDISK_REFUSED_NOT_SOUND);
    bench_desk();
    resize(DESK, FILMDISK_DESK_BYTES + 1);
    expect_calls_refused(FILMDISK_REFUSED_NOT_SOUND);
}

/* Refusals of a sound desk are those of the list calls. */
static void refusals_15_to_21(void)
{
    bench_desk();
    expect(host_end_scratch(), FILMDISK_REFUSED_WRONG_PHASE, 0);
    expect(host_join_scratch(STREAMS, 0), FILMDISK_REFUSED_NO_SUCH_SLOT, STREAMS);
    expect(host_leave_scratch(0xFFFFFFFFu), FILMDISK_REFUSED_NO_SUCH_SLOT, 0xFFFFFFFFu);
    expect(host_leave_scratch(7), FILMDISK_REFUSED_SLOT_STATE, 7);
    expect(host_join_scratch(7, BLOCKS), FILMDISK_REFUSED_NO_SUCH_BLOCK, 7);
    put_slot(7, FILMDISK_TAIL, BLOCKS, 5);
    expect(host_join_scratch(7, 0), FILMDISK_REFUSED_SLOT_STATE, 7);
    expect_begun(host_begin_scratch(), 0, RETURN);
    expect(host_join_scratch(6, 0), FILMDISK_REFUSED_WRONG_PHASE, 0);
    put(DRAWS, 6, 1);
    expect(host_end_scratch(), FILMDISK_REFUSED_DRAW_ABOVE_LIMIT, 6);
    put(DRAWS, 6, 0);
    put(DRAWS, 7, 6);
    expect(host_end_scratch(), FILMDISK_REFUSED_DRAW_ABOVE_HELD, 7);
    resize(DRAWS, STREAMS * FILMDISK_ENTRY_BYTES - 1);
    expect(host_end_scratch(), FILMDISK_REFUSED_DRAW_COUNT, 0);
    resize(DRAWS, STREAMS * FILMDISK_ENTRY_BYTES);
    put(DRAWS, STREAMS - 1, 0);
    put(DRAWS, 7, 5);
    expect(host_end_scratch(), 0, 0);
    expect_slot(7, FILMDISK_FREE, 0, 0);
}

static void sizes(void)
{
    check(FILMDISK_SCRATCH_WORDS == 512, "a scratch has 512 words, not %d", FILMDISK_SCRATCH_WORDS);
    check(FILMDISK_SCRATCH_BYTES == 2048, "a scratch has 2048 bytes, not %d", FILMDISK_SCRATCH_BYTES);
}

static const test tests[] = {
    TEST(plan_of_the_bench_film),
    TEST(plans_as_with_the_list),
    TEST(worked_desk),
    TEST(worked_draws),
    TEST(floor_to_the_half_byte),
    TEST(grants_by_the_leads),
    TEST(play_with_the_eldests_lead),
    TEST(places_of_joins_and_leaves),
    TEST(an_evening),
    TEST(a_lobby),
    TEST(calls_as_with_the_list),
    TEST(both_ways_on_one_desk),
    TEST(refusal_13_of_plan),
    TEST(longer_scratches),
    TEST(refusal_13_of_desk_calls),
    TEST(order_of_an_opening),
    TEST(order_of_a_begin),
    TEST(refusal_14),
    TEST(refusals_15_to_21),
    TEST(sizes),
};

int main(int argc, char **argv)
{
    return run_tests(tests, COUNT(tests), argc, argv);
}
