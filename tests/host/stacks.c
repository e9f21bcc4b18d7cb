/*
 * The stack that each call takes, against the numbers of filmdisk.h. Built without sanitizers, whose memcpy takes stack of its own.
 * Arguments: names of tests to run alone.
 */
#include "host.h"
#include "stack.h"

#include <stdbool.h>
#include <string.h>

static filmdisk_answer answer;

static void call_plan(void)
{
    answer = filmdisk_plan(LENT(CARD), LENT(PLAN), LENT(POSITIONS), LENT(LEADS));
}

static void call_plan_loop(void)
{
    answer = filmdisk_plan_loop(LENT(CARD), LENT(PLAN), LENT(POSITIONS), LENT(LEADS));
}

static void call_plan_pairs(void)
{
    answer = filmdisk_plan_pairs(LENT(CARD), LENT(PLAN), LENT(POSITIONS), LENT(LEADS));
}

static void call_open(void)
{
    answer = filmdisk_open(LENT(PLAN), LENT(POSITIONS), LENT(LEADS), LENT(DESK));
}

static void call_join(void)
{
    answer = filmdisk_join(LENT(DESK), LENT(POSITIONS), LENT(LEADS), 0, 0, 0);
}

static void call_leave(void)
{
    answer = filmdisk_leave(LENT(DESK), LENT(POSITIONS), LENT(LEADS), 0);
}

static void call_begin(void)
{
    answer = filmdisk_begin(LENT(DESK), LENT(POSITIONS), LENT(LEADS), LENT(FETCHES));
}

static void call_end(void)
{
    answer = filmdisk_end(LENT(DESK), LENT(POSITIONS), LENT(LEADS), LENT(DRAWS));
}

static void call_plan_scratch(void)
{
    answer = filmdisk_plan_scratch(LENT(CARD), LENT(PLAN), LENT(POSITIONS), LENT(SCRATCH));
}

static void call_plan_loop_scratch(void)
{
    answer = filmdisk_plan_loop_scratch(LENT(CARD), LENT(PLAN), LENT(POSITIONS), LENT(SCRATCH));
}

static void call_plan_pairs_scratch(void)
{
    answer = filmdisk_plan_pairs_scratch(LENT(CARD), LENT(PLAN), LENT(POSITIONS), LENT(SCRATCH));
}

static void call_open_scratch(void)
{
    answer = filmdisk_open_scratch(LENT(PLAN), LENT(POSITIONS), LENT(SCRATCH), LENT(DESK));
}

static void call_join_scratch(void)
{
    answer = filmdisk_join_scratch(LENT(DESK), LENT(POSITIONS), LENT(SCRATCH), 0, 0, 0);
}

static void call_leave_scratch(void)
{
    answer = filmdisk_leave_scratch(LENT(DESK), LENT(POSITIONS), LENT(SCRATCH), 0);
}

static void call_begin_scratch(void)
{
    answer = filmdisk_begin_scratch(LENT(DESK), LENT(POSITIONS), LENT(SCRATCH), LENT(FETCHES));
}

static void call_end_scratch(void)
{
    answer = filmdisk_end_scratch(LENT(DESK), LENT(POSITIONS), LENT(SCRATCH), LENT(DRAWS));
}

static void call_window(void)
{
    const filmdisk_window_answer window = filmdisk_window(LENT(PLAN), LENT(POSITIONS), 2);
    answer = (filmdisk_answer){.number = window.number, .place = window.place};
}

static void call_draw_limit(void)
{
    answer = (filmdisk_answer){.bound = (uint32_t)filmdisk_draw_limit(LENT(DESK), 0, 1000000)};
}

/* The accepted call takes no more than the header says, and not less than half of it. */
static void expect_stack(void (*call)(void), size_t most)
{
    size_t bytes = stack_of(call);
    expect(answer, 0, 0);
    check(bytes <= most && bytes >= most / 2, "%zu bytes of stack; the header says at most %zu", bytes, most);
}

/* The planners, each for a film alone and for a shelf of two. */
struct bench {
    planner *plan;
    uint32_t films;
};
static const struct bench benches[] = {
    {host_plan, 1}, {host_plan, 2}, {host_plan_loop, 1}, {host_plan_loop, 2}, {host_plan_pairs, 1}, {host_plan_pairs, 2},
};
static const struct bench scratch_benches[] = {
    {host_plan_scratch, 1},      {host_plan_scratch, 2},       {host_plan_loop_scratch, 1},
    {host_plan_loop_scratch, 2}, {host_plan_pairs_scratch, 1}, {host_plan_pairs_scratch, 2},
};

/* The bench film's numbers for a planner; two such films are on a disk of twice the blocks. Answers how many there are. */
static size_t numbers_of(struct bench bench, uint32_t numbers[BENCH_NUMBERS + 1])
{
    bool pairs = bench.plan == host_plan_pairs || bench.plan == host_plan_pairs_scratch;
    const uint32_t *one = pairs ? bench_pairs : bench_film;
    if (bench.films == 1) {
        memcpy(numbers, one, sizeof bench_film);
        return BENCH_NUMBERS;
    }
    memcpy(numbers, one, BENCH_FILMS * sizeof *one);
    for (size_t i = 2; i < BENCH_FILMS; i += 2)
        numbers[i] = 2 * one[i];
    numbers[BENCH_FILMS] = 2;
    memcpy(numbers + BENCH_FILMS + 2, one + BENCH_FILMS + 1, (BENCH_NUMBERS - BENCH_FILMS - 1) * sizeof *one);
    numbers[BENCH_FILMS + 1] = one[BENCH_FILMS + 1];
    return BENCH_NUMBERS + 1;
}

/* Each call is made once before it is measured, so that memcpy and its like have been found by the loader. */
static void open_bench(struct bench bench)
{
    uint32_t numbers[BENCH_NUMBERS + 1];
    size_t count = numbers_of(bench, numbers);
    open_desk(bench.plan, numbers, count);
}

static void open_bench_scratch(struct bench bench)
{
    uint32_t numbers[BENCH_NUMBERS + 1];
    size_t count = numbers_of(bench, numbers);
    open_desk_scratch(bench.plan, numbers, count);
}

/* A planner's call, for each number of films. */
static void expect_plan(planner *plan, void (*call)(void), size_t most)
{
    for (uint32_t films = 1; films <= 2; films++) {
        open_bench((struct bench){plan, films});
        expect_stack(call, most);
    }
}

static void expect_plan_scratch(planner *plan, void (*call)(void), size_t most)
{
    for (uint32_t films = 1; films <= 2; films++) {
        open_bench_scratch((struct bench){plan, films});
        expect_stack(call, most);
    }
}

static void stack_of_plan(void)
{
    expect_plan(host_plan, call_plan, FILMDISK_STACK_PLAN);
}

static void stack_of_plan_loop(void)
{
    expect_plan(host_plan_loop, call_plan_loop, FILMDISK_STACK_PLAN_LOOP);
}

static void stack_of_plan_pairs(void)
{
    expect_plan(host_plan_pairs, call_plan_pairs, FILMDISK_STACK_PLAN_PAIRS);
}

static void stack_of_open(void)
{
    for (size_t i = 0; i < COUNT(benches); i++) {
        open_bench(benches[i]);
        expect_stack(call_open, FILMDISK_STACK_OPEN);
    }
}

/* The slot that leaves has asked, and another is behind it. */
static void stack_of_join_and_leave(void)
{
    for (size_t i = 0; i < COUNT(benches); i++) {
        open_bench(benches[i]);
        expect(host_join(0, 0), 0, 0);
        expect(host_leave(0), 0, 0);
        expect_stack(call_join, FILMDISK_STACK_JOIN);
        expect(host_join(1, 0), 0, 0);
        expect_stack(call_leave, FILMDISK_STACK_LEAVE);
    }
}

/* A slot fills and another asks. */
static void stack_of_begin_and_end(void)
{
    for (size_t i = 0; i < COUNT(benches); i++) {
        open_bench(benches[i]);
        expect(host_join(0, 0), 0, 0);
        expect(host_begin(), 0, 0);
        expect(host_end(), 0, 0);
        expect(host_join(1, 0), 0, 0);
        expect_stack(call_begin, FILMDISK_STACK_BEGIN);
        expect_stack(call_end, FILMDISK_STACK_END);
    }
}

static void stack_of_plans_by_scratch(void)
{
    expect_plan_scratch(host_plan_scratch, call_plan_scratch, FILMDISK_STACK_PLAN_SCRATCH);
    expect_plan_scratch(host_plan_loop_scratch, call_plan_loop_scratch, FILMDISK_STACK_PLAN_LOOP_SCRATCH);
    expect_plan_scratch(host_plan_pairs_scratch, call_plan_pairs_scratch, FILMDISK_STACK_PLAN_PAIRS_SCRATCH);
}

static void stack_of_desk_calls_by_scratch(void)
{
    for (size_t i = 0; i < COUNT(scratch_benches); i++) {
        open_bench_scratch(scratch_benches[i]);
        expect_stack(call_open_scratch, FILMDISK_STACK_OPEN_SCRATCH);
        expect(host_join_scratch(0, 0), 0, 0);
        expect(host_leave_scratch(0), 0, 0);
        expect_stack(call_join_scratch, FILMDISK_STACK_JOIN_SCRATCH);
        expect(host_join_scratch(1, 0), 0, 0);
        expect_stack(call_leave_scratch, FILMDISK_STACK_LEAVE_SCRATCH);
        expect(host_begin_scratch(), 0, 0);
        expect(host_end_scratch(), 0, 0);
        expect(host_join_scratch(0, 0), 0, 0);
        expect_stack(call_begin_scratch, FILMDISK_STACK_BEGIN_SCRATCH);
        expect_stack(call_end_scratch, FILMDISK_STACK_END_SCRATCH);
    }
}

static void stack_of_window(void)
{
    for (size_t i = 0; i < COUNT(benches); i++) {
        open_bench(benches[i]);
        expect_stack(call_window, FILMDISK_STACK_WINDOW);
    }
}

static void stack_of_draw_limit(void)
{
    for (size_t i = 0; i < COUNT(benches); i++) {
        open_bench(benches[i]);
        put(DESK, FILMDISK_DESK_KINDS, FILMDISK_PLAYING);
        call_draw_limit();
        expect_stack(call_draw_limit, FILMDISK_STACK_DRAW_LIMIT);
    }
}

static const test tests[] = {
    TEST(stack_of_plan),
    TEST(stack_of_plan_loop),
    TEST(stack_of_plan_pairs),
    TEST(stack_of_open),
    TEST(stack_of_join_and_leave),
    TEST(stack_of_begin_and_end),
    TEST(stack_of_plans_by_scratch),
    TEST(stack_of_desk_calls_by_scratch),
    TEST(stack_of_window),
    TEST(stack_of_draw_limit),
};

int main(int argc, char **argv)
{
    return run_tests(tests, COUNT(tests), argc, argv);
}
