/*
 * Looped films as the playout process of a lobby uses them: plans, desks that go round, and what is refused of a loop alone. Written from
 * filmdisk.h and docs/LAYOUT.md. Arguments: names of tests to run alone, before them 'heap' under valgrind.
 */
#include "host.h"

#include <string.h>

#define STREAMS 15
#define BLOCKS 6
#define BLOCK_BYTES 262144u
#define BUFFER 807320u
#define HOP 12670u
#define RETURN 15000u

/* The bench film with another N. */
static void open_bench(planner *plan, uint32_t blocks)
{
    uint32_t numbers[BENCH_NUMBERS];
    memcpy(numbers, bench_film, sizeof numbers);
    numbers[BENCH_BLOCKS] = blocks;
    open_desk(plan, numbers, BENCH_NUMBERS);
}

static void bench_loop(void)
{
    open_bench(host_plan_loop, BLOCKS);
}

/* Plans. */

/* The numbers of a plan from its streams on: streams, buffer, worst2, margin, showing, worstat. */
static void expect_numbers(const uint32_t *numbers)
{
    expect_words(PLAN, FILMDISK_PLAN_STREAMS, numbers, 6);
}

static void plan_of_the_bench_loop(void)
{
    static const uint32_t numbers[] = {STREAMS, BUFFER, 38970, 5570, FILMDISK_LOOP, BLOCKS - 1};
    static const uint32_t positions[] = {0, 5, 1, 3, 2, 4};
    static const uint32_t leads[] = {5570, 0, 2130, 0, 0, 0};
    uint8_t figures[FILMDISK_PLAN_STREAMS * FILMDISK_WORD_BYTES];
    open_bench(host_plan, BLOCKS);
    memcpy(figures, bytes_of(PLAN), sizeof figures);
    bench_loop();
    check(memcmp(figures, bytes_of(PLAN), sizeof figures) == 0, "the figures are those of one showing");
    expect_numbers(numbers);
    expect_words(POSITIONS, 0, positions, COUNT(positions));
    expect_words(LEADS, 0, leads, COUNT(leads));
}

struct laid {
    uint32_t worst2, worstat, margin;
    uint32_t positions[7], leads[7];
};

/* Zones of 2, 3 and 2 positions, times 30, 20 and 10: films of 2 blocks and more, on the highest positions. */
static void loops_on_three_zones(void)
{
    static const struct laid films[] = {
        {20, 0, 0, {5, 6}, {0, 0}},
        {30, 0, 10, {4, 6, 5}, {10, 0, 0}},
        {30, 0, 10, {3, 6, 4, 5}, {10, 0, 10, 0}},
        {40, 2, 0, {2, 6, 3, 4, 5}, {0, 0, 0, 0, 0}},
        {40, 0, 20, {1, 6, 2, 4, 3, 5}, {20, 0, 0, 0, 0, 0}},
        {50, 2, 10, {0, 6, 1, 4, 3, 2, 5}, {10, 0, 10, 0, 0, 0, 0}},
    };
    for (uint32_t blocks = 2; blocks <= 7; blocks++) {
        const uint32_t numbers[] = {1, 3, 2, 30, 3, 20, 2, 10, 1, blocks, BLOCK_BYTES, 500000, HOP, RETURN};
        const struct laid *film = &films[blocks - 2];
        open_desk(host_plan_loop, numbers, COUNT(numbers));
        expect_words(PLAN, FILMDISK_PLAN_WORST2, &film->worst2, 1);
        expect_words(PLAN, FILMDISK_PLAN_WORSTAT, &film->worstat, 1);
        expect_words(PLAN, FILMDISK_PLAN_MARGIN, &film->margin, 1);
        expect_words(POSITIONS, 0, film->positions, blocks);
        expect_words(LEADS, 0, film->leads, blocks);
    }
}

/* The scope's one-zone case has the same worst2 and leads as a loop. */
static void one_zone(void)
{
    static const uint32_t numbers[] = {1, 1, 3, 20000, 1, 3, BLOCK_BYTES, 500000, HOP, RETURN};
    static const uint32_t positions[] = {0, 2, 1}, leads[] = {0, 0, 0}, worst2 = 40000;
    static planner *const planners[] = {host_plan, host_plan_loop};
    for (size_t i = 0; i < COUNT(planners); i++) {
        open_desk(planners[i], numbers, COUNT(numbers));
        expect_words(PLAN, FILMDISK_PLAN_WORST2, &worst2, 1);
        expect_words(POSITIONS, 0, positions, COUNT(positions));
        expect_words(LEADS, 0, leads, COUNT(leads));
    }
}

/* Plans the bench film with another B as a loop. */
static filmdisk_answer plan_with(planner *plan, uint32_t block_bytes)
{
    uint32_t numbers[BENCH_NUMBERS];
    memcpy(numbers, bench_film, sizeof numbers);
    numbers[BENCH_BLOCK_BYTES] = block_bytes;
    lend_card(numbers, BENCH_NUMBERS);
    lend_noise(PLAN, FILMDISK_PLAN_BYTES);
    lend_noise(POSITIONS, BLOCKS * FILMDISK_ENTRY_BYTES);
    lend_noise(LEADS, BLOCKS * FILMDISK_ENTRY_BYTES);
    return plan();
}

/* The last pair of a loop makes its worst2 greater: 12 may come for the loop alone. */
static void limits_of_a_stream(void)
{
    static const uint32_t sixteen[] = {16, 816500, 38970, 5570, FILMDISK_LOOP, BLOCKS - 1};
    static const uint32_t fifteen[] = {15, 815105, 38970, 5570, FILMDISK_LOOP, BLOCKS - 1};
    static const uint32_t one[] = {1, 72127, 38970, 5570, FILMDISK_LOOP, BLOCKS - 1};
    expect(plan_with(host_plan_loop, 264740), 0, 0);
    expect_numbers(sixteen);
    expect(plan_with(host_plan_loop, 264739), 0, 0);
    expect_numbers(fifteen);
    expect(plan_with(host_plan_loop, 23578), 0, 0);
    expect_numbers(one);
    expect(plan_with(host_plan_loop, 23577), FILMDISK_REFUSED_NO_STREAM, 0);
    expect(plan_with(host_plan, 23577), 0, 0);
}

/* The desk. */

static void opening(void)
{
    bench_loop();
    check(memcmp(bytes_of(DESK), bytes_of(PLAN), FILMDISK_PLAN_BYTES) == 0, "the desk begins with the plan");
    for (size_t i = FILMDISK_DESK_PHASE; i < FILMDISK_DESK_WORDS; i++)
        check(word(DESK, i) == 0, "word %zu: expected 0, got %u", i, word(DESK, i));
}

/* A screen that starts at block 4, two before the last. */
static void past_the_last_block(void)
{
    bench_loop();
    expect(host_join(0, 4), 0, 0);
    expect_begun(host_begin(), 1, 19090 + HOP + RETURN);
    expect_fetch(0, 2, 0, 4);
    expect(host_end(), 0, 0);
    expect_slot(0, FILMDISK_FILLING, 5, BLOCK_BYTES);
    expect_begun(host_begin(), 1, 16700 + HOP + RETURN);
    expect_fetch(0, 4, 0, 5);
    expect_slot(0, FILMDISK_PLAYING, 5, BLOCK_BYTES);
    put(DRAWS, 0, 22186);
    expect(host_end(), FILMDISK_REFUSED_DRAW_ABOVE_LIMIT, 0);
    put(DRAWS, 0, 22185);
    expect(host_end(), 0, 0);
    expect_slot(0, FILMDISK_PLAYING, 0, 2 * BLOCK_BYTES - 22185);
    expect_begun(host_begin(), 1, 22270 + HOP + RETURN);
    expect_fetch(0, 0, 0, 0);
    put(DRAWS, 0, 24970);
    expect(host_end(), 0, 0);
    expect_slot(0, FILMDISK_PLAYING, 1, 3 * BLOCK_BYTES - 22185 - 24970);
    expect(host_leave(0), 0, 0);
    expect_slot(0, FILMDISK_FREE, 0, 0);
}

/* Whatever a slot is when it gets the last block, it stays that, with next 0; a slot that is not fetched for stays at its block. */
static void every_kind_goes_round(void)
{
    bench_loop();
    put(DESK, FILMDISK_DESK_PHASE, FILMDISK_SWEEPING);
    put_slot(0, FILMDISK_PLAYING, 5, BLOCK_BYTES);
    put_slot(1, FILMDISK_FILLING, 5, 0);
    put_slot(2, FILMDISK_PLAYING, 4, BLOCK_BYTES + 9);
    put_slot(3, FILMDISK_PLAYING, 5, BUFFER);
    put_slot(4, FILMDISK_ASKED, 5, 0);
    put(DRAWS, 0, 7);
    put(DRAWS, 2, 9);
    put(DRAWS, 3, 11);
    expect(host_end(), 0, 0);
    expect_slot(0, FILMDISK_PLAYING, 0, 2 * BLOCK_BYTES - 7);
    expect_slot(1, FILMDISK_FILLING, 0, BLOCK_BYTES);
    expect_slot(2, FILMDISK_PLAYING, 5, 2 * BLOCK_BYTES);
    expect_slot(3, FILMDISK_PLAYING, 5, BUFFER - 11);
    expect_slot(4, FILMDISK_ASKED, 5, 0);
}

/* The lead of the first block counts for whoever gets it next: 5570 lift the floor by 1392.5 bytes. */
static void floor_of_the_first_block(void)
{
    bench_loop();
    put_slot(0, FILMDISK_PLAYING, 0, BLOCK_BYTES + 1392);
    expect(host_begin(), FILMDISK_REFUSED_NOT_SOUND, 0);
    put_slot(0, FILMDISK_PLAYING, 0, BLOCK_BYTES + 1393);
    expect_begun(host_begin(), 1, 22270 + HOP + RETURN);
}

/* Screens of a loop are served in the order they asked; lead(0) and lead(2), of 5570 and 2130, lift the floor by 1392.5 and 532.5 bytes. */
static void served_in_the_order_they_asked(void)
{
    static const uint32_t slots[] = {3, 7, 14};
    static const struct {
        uint32_t held, granted;
    } cases[] = {{532, 0}, {533, 1}, {1924, 1}, {1925, 2}, {3317, 2}, {3318, 3}};
    for (size_t i = 0; i < COUNT(cases); i++) {
        uint32_t places[COUNT(slots)];
        bench_loop();
        put_slot(0, FILMDISK_PLAYING, 5, BLOCK_BYTES + cases[i].held);
        expect(host_join(14, 2), 0, 0);
        expect(host_join(3, 0), 0, 0);
        expect(host_join(7, 0), 0, 0);
        for (size_t k = 0; k < COUNT(slots); k++) {
            const uint32_t asked = place(slots[k]);
            places[k] = asked > cases[i].granted ? asked - cases[i].granted : 0;
        }
        expect(host_begin(), 0, 0);
        expect_places(slots, places, COUNT(slots));
        for (size_t k = 0; k < COUNT(slots); k++)
            expect_slot(slots[k], places[k] == 0 ? FILMDISK_FILLING : FILMDISK_ASKED, slots[k] == 14 ? 2 : 0, 0);
    }
}

/* Begins a sweep with so many fetches; afterwards both screens draw what they may. */
static void begin_two(uint32_t count, uint32_t bound)
{
    expect_begun(host_begin(), count, bound);
    for (uint32_t slot = 0; slot < 2; slot++)
        put(DRAWS, slot, (uint32_t)draw_limit(slot, bound));
}

/* Two blocks in turn, and two screens: each gets the block that the other one got before. */
static void loop_of_two_blocks(void)
{
    static const uint32_t positions[] = {4, 5}, leads[] = {980, 0};
    open_bench(host_plan_loop, 2);
    expect_words(POSITIONS, 0, positions, 2);
    expect_words(LEADS, 0, leads, 2);
    check(word(PLAN, FILMDISK_PLAN_WORST2) == 32420, "worst2: expected 32420, got %u", word(PLAN, FILMDISK_PLAN_WORST2));
    expect(host_join(0, 0), 0, 0);
    expect(host_join(1, 1), 0, 0);
    for (uint32_t sweep = 0; sweep < 9; sweep++) {
        begin_two(2, 16700 + 15720 + 2 * HOP + RETURN);
        expect_fetch(0, 4, sweep % 2, 0);
        expect_fetch(1, 5, (sweep + 1) % 2, 1);
        expect(host_end(), 0, 0);
        check(next(0) == (sweep + 1) % 2 && next(1) == sweep % 2, "sweep %u: expected next %u and %u, got %u and %u", sweep,
              (sweep + 1) % 2, sweep % 2, next(0), next(1));
        /* Full buffers are drawn down in sweeps without a fetch. */
        while (held(0) + BLOCK_BYTES > word(PLAN, FILMDISK_PLAN_BUFFER)) {
            begin_two(0, RETURN);
            expect(host_end(), 0, 0);
        }
    }
}

/* Refusals. */

/* All four calls refuse the desk with 14, in a sweep and between sweeps. */
static void expect_unsound(const char *words)
{
    for (uint32_t phase = FILMDISK_BETWEEN; phase <= FILMDISK_SWEEPING; phase++) {
        put(DESK, FILMDISK_DESK_PHASE, phase);
        const filmdisk_answer answers[] = {host_join(STREAMS, BLOCKS), host_leave(STREAMS), host_begin(), host_end()};
        for (size_t i = 0; i < COUNT(answers); i++)
            check(answers[i].number == FILMDISK_REFUSED_NOT_SOUND && answers[i].place == 0, "%s, phase %u, call %zu: expected 14 at 0, got %u at %zu",
                  words, phase, i, answers[i].number, answers[i].place);
    }
    put(DESK, FILMDISK_DESK_PHASE, FILMDISK_BETWEEN);
}

static void expect_opening(uint32_t number)
{
    lend_noise(DESK, FILMDISK_DESK_BYTES);
    expect(host_open(), number, 0);
}

static void no_tail(void)
{
    static const uint32_t tails[][2] = {{BLOCKS, 1}, {BLOCKS, BLOCK_BYTES}, {BLOCKS - 1, BLOCK_BYTES}, {0, 1}, {0, 0}};
    for (size_t i = 0; i < COUNT(tails); i++) {
        bench_loop();
        put_slot(3, FILMDISK_TAIL, tails[i][0], tails[i][1]);
        expect_unsound("a tail");
    }
}

/* Next is below N for every kind. */
static void no_block_after_the_last(void)
{
    for (uint32_t its_kind = FILMDISK_ASKED; its_kind <= FILMDISK_PLAYING; its_kind++) {
        const uint32_t its_held = its_kind == FILMDISK_PLAYING ? BLOCK_BYTES : 0;
        bench_loop();
        put_slot(0, its_kind, BLOCKS, its_held);
        expect_unsound("next N");
        put_slot(0, its_kind, BLOCKS - 1, its_held);
        expect(host_leave(0), 0, 0);
    }
    expect(host_join(0, BLOCKS), FILMDISK_REFUSED_NO_SUCH_BLOCK, 0);
    expect(host_join(0, BLOCKS - 1), 0, 0);
}

/* 2 says pairs, which these records are not; the others say nothing. */
static void third_words(void)
{
    static const uint32_t words[] = {2, 3, 4, 256, 65536, 0x01000000, 0xFFFFFFFFu};
    static planner *const planners[] = {host_plan, host_plan_loop};
    for (size_t i = 0; i < COUNT(words); i++) {
        for (uint32_t blocks = 2; blocks <= BLOCKS; blocks += 4) {
            open_bench(planners[i % 2], blocks);
            put(DESK, FILMDISK_PLAN_SHOWING, words[i]);
            expect_unsound("a third word");
            put(PLAN, FILMDISK_PLAN_SHOWING, words[i]);
            expect_opening(FILMDISK_REFUSED_NOT_SOUND);
        }
    }
}

/* With the other word the record and its lists are no plan, but for films of 2, 3 or 4 blocks whose two plans are alike. */
static void turn_over(planner *plan, const uint32_t *times, uint32_t blocks, int both)
{
    open_film(plan, times, blocks);
    const uint32_t other = FILMDISK_LOOP - word(PLAN, FILMDISK_PLAN_SHOWING);
    put(DESK, FILMDISK_PLAN_SHOWING, other);
    put(PLAN, FILMDISK_PLAN_SHOWING, other);
    if (both)
        expect(host_join(0, 0), 0, 0);
    else
        expect_unsound("the other word");
    expect_opening(both ? 0 : FILMDISK_REFUSED_NOT_SOUND);
}

static void words_turned_over(void)
{
    static const struct {
        uint32_t blocks, times[7];
        int both;
    } films[] = {
        {2, {3, 1}, 1},       {3, {3, 2, 2}, 1},    {3, {3, 3, 2}, 0},       {4, {3, 3, 2, 1}, 1},          {4, {4, 3, 2, 2}, 1},
        {4, {5, 4, 3, 2}, 0}, {5, {2, 2, 2, 2, 2}, 0}, {6, {2, 2, 2, 2, 2, 2}, 0}, {7, {9, 8, 7, 6, 5, 4, 3}, 0},
    };
    for (size_t i = 0; i < COUNT(films); i++) {
        turn_over(host_plan, films[i].times, films[i].blocks, films[i].both);
        turn_over(host_plan_loop, films[i].times, films[i].blocks, films[i].both);
    }
}

/* Of two blocks both plans are alike but for the word: a tail is sound under one and not under the other. */
static void tail_under_either_word(void)
{
    open_bench(host_plan, 2);
    put_slot(0, FILMDISK_TAIL, 2, 1);
    expect(host_leave(1), FILMDISK_REFUSED_SLOT_STATE, 1);
    put(DESK, FILMDISK_PLAN_SHOWING, FILMDISK_LOOP);
    expect_unsound("a tail");
    put(DESK, FILMDISK_PLAN_SHOWING, FILMDISK_ONCE);
    expect(host_leave(0), 0, 0);
}

/* The plan of one showing with the lists of the other. */
static void lists_of_the_other_plan(void)
{
    static planner *const planners[] = {host_plan, host_plan_loop};
    uint8_t plan[FILMDISK_PLAN_BYTES];
    for (size_t i = 0; i < COUNT(planners); i++) {
        open_bench(planners[i], BLOCKS);
        memcpy(plan, bytes_of(PLAN), sizeof plan);
        open_bench(planners[1 - i], BLOCKS);
        lend(PLAN, plan, sizeof plan);
        expect_opening(FILMDISK_REFUSED_NOT_SOUND);
    }
}

static const test tests[] = {
    TEST(plan_of_the_bench_loop),
    TEST(loops_on_three_zones),
    TEST(one_zone),
    TEST(limits_of_a_stream),
    TEST(opening),
    TEST(past_the_last_block),
    TEST(every_kind_goes_round),
    TEST(floor_of_the_first_block),
    TEST(served_in_the_order_they_asked),
    TEST(loop_of_two_blocks),
    TEST(no_tail),
    TEST(no_block_after_the_last),
    TEST(third_words),
    TEST(words_turned_over),
    TEST(tail_under_either_word),
    TEST(lists_of_the_other_plan),
};

int main(int argc, char **argv)
{
    return run_tests(tests, COUNT(tests), argc, argv);
}
