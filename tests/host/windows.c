/*
 * Rates over windows of several blocks, as sales asks for them of a plan: times, places and bytes of one showing and of loops, and what is
 * refused. Written from filmdisk.h and docs/LAYOUT.md. Arguments: names of tests to run alone, before them 'heap' under valgrind.
 */
#include "host.h"

#include <string.h>

#define BLOCK_BYTES 262144u

static planner *const planners[] = {host_plan, host_plan_loop};

static void open_bench(planner *plan)
{
    open_desk(plan, bench_film, BENCH_NUMBERS);
}

/* A film of one zone with so many positions and blocks. */
static void open_even(planner *plan, uint32_t positions, uint32_t time, uint32_t blocks, uint32_t block_bytes)
{
    const uint32_t numbers[] = {1, 1, positions, time, 1, blocks, block_bytes, 1, 1, 1};
    open_desk(plan, numbers, COUNT(numbers));
}

/* Windows of so many blocks, from 1 on: time, then place. */
static void expect_windows(uint32_t block_bytes, const uint32_t (*windows)[2], uint32_t count)
{
    for (uint32_t k = 1; k <= count; k++)
        expect_window(host_window(k), windows[k - 1][0], windows[k - 1][1], k * block_bytes);
}

/* Once: 22270, 15720, 20550, 16700, 19090, 17810. As a loop: 22270, 15720, 20550, 17810, 19090, 16700, and round again. */
static void windows_of_the_bench_film(void)
{
    static const uint32_t once[][2] = {{22270, 0}, {37990, 0}, {58540, 0}, {75240, 0}, {94330, 0}, {112140, 0}};
    static const uint32_t loop[][2] = {{22270, 0}, {38970, 5}, {58540, 0}, {76350, 0}, {96420, 2}, {112140, 0}};
    open_bench(host_plan);
    expect_windows(BLOCK_BYTES, once, 6);
    open_bench(host_plan_loop);
    expect_windows(BLOCK_BYTES, loop, 6);
}

/* Slow blocks side by side: 9 3 9 3 9 3 9 9 once, 9 3 9 3 9 9 9 3 round and round. Of equal windows the earliest counts. */
static void slow_blocks_side_by_side(void)
{
    static const uint32_t times[] = {9, 9, 9, 9, 9, 3, 3, 3};
    static const uint32_t once[][2] = {{9, 0}, {18, 6}, {21, 0}, {30, 4}, {33, 0}, {42, 2}, {45, 0}, {54, 0}};
    static const uint32_t loop[][2] = {{9, 0}, {18, 4}, {27, 4}, {30, 2}, {39, 2}, {42, 0}, {51, 0}, {54, 0}};
    open_film(host_plan, times, COUNT(times));
    expect_windows(BLOCK_BYTES, once, COUNT(times));
    open_film(host_plan_loop, times, COUNT(times));
    expect_windows(BLOCK_BYTES, loop, COUNT(times));
}

/* 9 3 7 7 7 7 round and round: the worst windows start ever earlier before the first block and go on to it. */
static void round_past_the_last_block(void)
{
    static const uint32_t times[] = {9, 7, 7, 7, 7, 3};
    static const uint32_t loop[][2] = {{9, 0}, {16, 5}, {23, 4}, {30, 3}, {37, 2}, {40, 0}};
    open_film(host_plan_loop, times, COUNT(times));
    expect_windows(BLOCK_BYTES, loop, COUNT(times));
}

/* Time of block b as it is laid, by a walk over the zones of the plan. */
static uint32_t laid_time(uint32_t block)
{
    uint32_t position = word(POSITIONS, block), zone = 0;
    while (position >= word(PLAN, FILMDISK_PLAN_POSITIONS + zone))
        position -= word(PLAN, FILMDISK_PLAN_POSITIONS + zone++);
    return word(PLAN, FILMDISK_PLAN_TIMES + zone);
}

/* Each window of a film against all its places, one after the other. */
static void expect_all_windows(void)
{
    const uint32_t blocks = word(PLAN, FILMDISK_PLAN_BLOCKS), bytes = word(PLAN, FILMDISK_PLAN_BLOCK_BYTES);
    const int goes_round = word(PLAN, FILMDISK_PLAN_SHOWING) == FILMDISK_LOOP;
    for (uint32_t k = 1; k <= blocks && k <= FILMDISK_MAX_WINDOW; k++) {
        uint32_t worst = 0, first = 0;
        for (uint32_t b = 0; b < blocks && (goes_round || b + k <= blocks); b++) {
            uint32_t sum = 0;
            for (uint32_t i = 0; i < k; i++)
                sum += laid_time((b + i) % blocks);
            if (sum > worst) {
                worst = sum;
                first = b;
            }
        }
        expect_window(host_window(k), worst, first, k * bytes);
    }
}

/* The evening's film: 48 blocks over seven zones, once and as a loop; and films on zones of one position, with times that fall anyhow. */
static void every_window_of_some_films(void)
{
    static const uint32_t evening[] = {
        1, 7, 3, 135594, 4, 125000, 6, 114286, 7, 103897, 9, 96386, 6, 89888, 13, 86957, 1, 48, 1048576, 1048576, 8380, 10090,
    };
    uint32_t times[40];
    for (size_t i = 0; i < COUNT(planners); i++) {
        open_desk(planners[i], evening, COUNT(evening));
        expect_all_windows();
        for (uint32_t blocks = 2; blocks <= COUNT(times); blocks += 1 + below(4)) {
            times[0] = 30000 - below(99);
            for (uint32_t zone = 1; zone < blocks; zone++)
                times[zone] = times[zone - 1] - below(2) * below(400);
            open_film(planners[i], times, blocks);
            expect_all_windows();
        }
    }
}

/* The window of two blocks is worst2 at worstat. */
static void window_of_two_is_the_worst_pair(void)
{
    static const uint32_t films[][6] = {{3, 1}, {3, 2, 2}, {3, 3, 2, 1}, {5, 5, 5, 5, 2, 2}, {6, 3, 3, 3, 3, 2}, {9, 8, 7, 6, 5, 4}};
    static const uint32_t counts[] = {2, 3, 4, 6, 6, 6};
    for (size_t i = 0; i < COUNT(planners); i++) {
        for (size_t film = 0; film < COUNT(films); film++) {
            open_film(planners[i], films[film], counts[film]);
            expect_window(host_window(2), word(PLAN, FILMDISK_PLAN_WORST2), word(PLAN, FILMDISK_PLAN_WORSTAT), 2 * BLOCK_BYTES);
        }
    }
}

/* 64 blocks of 4,194,304 bytes in 256 seconds: every figure at its greatest. */
static void greatest_window(void)
{
    for (size_t i = 0; i < COUNT(planners); i++) {
        open_even(planners[i], 64, 4000000, 64, 4194304);
        expect_window(host_window(64), 256000000, 0, 268435456);
        expect_window(host_window(63), 252000000, 0, 264241152);
    }
}

/* Refusals. */

/* Both sides of each limit: no block, 64, N. */
static void limits_of_a_window(void)
{
    static const uint32_t films[] = {2, 3, 63, 64, 65, 66, 16384};
    for (size_t i = 0; i < COUNT(planners); i++) {
        for (size_t film = 0; film < COUNT(films); film++) {
            const uint32_t blocks = films[film], most = blocks < 64 ? blocks : 64;
            open_even(planners[i], 16384, 1000, blocks, 1000);
            expect_no_window(host_window(0), FILMDISK_REFUSED_WINDOW);
            expect_window(host_window(1), 1000, 0, 1000);
            expect_window(host_window(most), most * 1000, 0, most * 1000);
            expect_no_window(host_window(most + 1), FILMDISK_REFUSED_WINDOW);
            expect_no_window(host_window(65), FILMDISK_REFUSED_WINDOW);
            expect_no_window(host_window(blocks + 1), FILMDISK_REFUSED_WINDOW);
            expect_no_window(host_window(0x01000001), FILMDISK_REFUSED_WINDOW);
            expect_no_window(host_window(0xFFFFFFFFu), FILMDISK_REFUSED_WINDOW);
        }
    }
}

/* 14 goes before 27: no window of this plan and list, and no number of blocks changes it. */
static void expect_not_sound(void)
{
    static const uint32_t blocks[] = {0, 1, 2, 6, 7, 64, 65, 0xFFFFFFFFu};
    for (size_t i = 0; i < COUNT(blocks); i++)
        expect_no_window(host_window(blocks[i]), FILMDISK_REFUSED_NOT_SOUND);
}

static void plans_of_another_length(void)
{
    static const size_t lengths[] = {0, 1, FILMDISK_PLAN_BYTES - 4, FILMDISK_PLAN_BYTES - 1, FILMDISK_PLAN_BYTES + 1, FILMDISK_DESK_BYTES};
    for (size_t i = 0; i < COUNT(lengths); i++) {
        open_bench(host_plan);
        resize(PLAN, lengths[i]);
        expect_not_sound();
    }
    lend_null(PLAN);
    expect_not_sound();
}

/* Whole entries count; spare ones, and spare bytes, are not looked at. */
static void lists_of_another_length(void)
{
    for (size_t i = 0; i < COUNT(planners); i++) {
        open_bench(planners[i]);
        const filmdisk_window_answer right = host_window(5);
        for (size_t spare = 1; spare <= 9; spare += 2) {
            open_bench(planners[i]);
            resize(POSITIONS, length_of(POSITIONS) + spare);
            expect_window(host_window(5), right.time, right.first, right.bytes);
            expect_no_window(host_window(7), FILMDISK_REFUSED_WINDOW);
        }
        open_bench(planners[i]);
        resize(POSITIONS, length_of(POSITIONS) - 1);
        expect_not_sound();
        lend_null(POSITIONS);
        expect_not_sound();
    }
}

/* Every word of the plan and every entry of the list counts, one up and one down; the window of 1 is refused by each. */
static void other_words(void)
{
    for (size_t i = 0; i < COUNT(planners); i++) {
        open_bench(planners[i]);
        for (size_t entry = 0; entry < 6; entry++) {
            const uint32_t right = word(POSITIONS, entry);
            put(POSITIONS, entry, right + 1);
            expect_no_window(host_window(1), FILMDISK_REFUSED_NOT_SOUND);
            put(POSITIONS, entry, right - 1);
            expect_no_window(host_window(0), FILMDISK_REFUSED_NOT_SOUND);
            put(POSITIONS, entry, right);
        }
        for (size_t index = FILMDISK_PLAN_STREAMS; index < FILMDISK_PLAN_WORDS; index++) {
            const uint32_t right = word(PLAN, index);
            put(PLAN, index, right + 1);
            expect_no_window(host_window(1), FILMDISK_REFUSED_NOT_SOUND);
            put(PLAN, index, right - 1);
            expect_no_window(host_window(0), FILMDISK_REFUSED_NOT_SOUND);
            put(PLAN, index, right);
        }
        expect_window(host_window(1), 22270, 0, BLOCK_BYTES);
    }
}

/* The plan of one showing with the list of the other; and with the other word. */
static void plans_and_lists_of_the_other_showing(void)
{
    uint8_t plan[FILMDISK_PLAN_BYTES];
    for (size_t i = 0; i < COUNT(planners); i++) {
        open_bench(planners[i]);
        memcpy(plan, bytes_of(PLAN), sizeof plan);
        open_bench(planners[1 - i]);
        lend(PLAN, plan, sizeof plan);
        expect_not_sound();
        open_bench(planners[i]);
        put(PLAN, FILMDISK_PLAN_SHOWING, FILMDISK_LOOP - word(PLAN, FILMDISK_PLAN_SHOWING));
        expect_not_sound();
        put(PLAN, FILMDISK_PLAN_SHOWING, 2);
        expect_not_sound();
    }
}

/* The leads are no part of a window: whatever they are, it is the same. */
static void leads_do_not_matter(void)
{
    open_bench(host_plan);
    lend_null(LEADS);
    expect_window(host_window(2), 37990, 0, 2 * BLOCK_BYTES);
}

static const test tests[] = {
    TEST(windows_of_the_bench_film),
    TEST(slow_blocks_side_by_side),
    TEST(round_past_the_last_block),
    TEST(every_window_of_some_films),
    TEST(window_of_two_is_the_worst_pair),
    TEST(greatest_window),
    TEST(limits_of_a_window),
    TEST(plans_of_another_length),
    TEST(lists_of_another_length),
    TEST(other_words),
    TEST(plans_and_lists_of_the_other_showing),
    TEST(leads_do_not_matter),
};

int main(int argc, char **argv)
{
    return run_tests(tests, COUNT(tests), argc, argv);
}
