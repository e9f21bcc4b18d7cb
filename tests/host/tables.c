/*
 * Measured overheads of a sweep, cards of kind 2: plans, sweeps, and what is refused of a table. Written from filmdisk.h and docs/LAYOUT.md.
 * Arguments: names of tests to run alone, before them 'heap' under valgrind.
 */
#include "host.h"

#include <string.h>

#define BLOCKS 6
#define BLOCK_BYTES 262144u
#define HOP 12670u
#define RETURN 15000u
#define MOST 257000000u

/* The bench film up to its rate, then a table. */
#define MEASURED_NUMBERS (BENCH_HOP + FILMDISK_OVERHEADS)

static planner *const planners[] = {host_plan, host_plan_loop};

static uint32_t table[FILMDISK_OVERHEADS];

/* What hop and return give. */
static void set_straight(uint32_t hop, uint32_t back)
{
    for (uint32_t count = 0; count < FILMDISK_OVERHEADS; count++)
        table[count] = hop * count + back;
}

/* All entries from `first` on. */
static void set_from(uint32_t first, uint32_t overhead)
{
    for (uint32_t count = first; count < FILMDISK_OVERHEADS; count++)
        table[count] = overhead;
}

/* The numbers of the bench film as a card of kind 2 with the table. */
static void write_measured(uint32_t *numbers)
{
    memcpy(numbers, bench_film, BENCH_HOP * sizeof *numbers);
    numbers[BENCH_KIND] = 2;
    memcpy(numbers + BENCH_HOP, table, sizeof table);
}

static void open_measured(planner *plan)
{
    uint32_t numbers[MEASURED_NUMBERS];
    write_measured(numbers);
    open_desk(plan, numbers, MEASURED_NUMBERS);
}

static void open_bench(planner *plan)
{
    open_desk(plan, bench_film, BENCH_NUMBERS);
}

/* Lends these numbers as a card, and noise in all that a plan call writes. */
static void lend_numbers(const uint32_t *numbers, size_t count)
{
    lend_card(numbers, count);
    lend_noise(PLAN, FILMDISK_PLAN_BYTES);
    lend_noise(POSITIONS, BLOCKS * FILMDISK_ENTRY_BYTES);
    lend_noise(LEADS, BLOCKS * FILMDISK_ENTRY_BYTES);
}

/* Plans. */

/* A straight table of kind 2 has the plan of kind 1 but for the kind, and the same lists. */
static void straight_table(void)
{
    uint8_t plan[FILMDISK_PLAN_BYTES];
    uint8_t positions[BLOCKS * FILMDISK_ENTRY_BYTES], leads[BLOCKS * FILMDISK_ENTRY_BYTES];
    set_straight(HOP, RETURN);
    for (size_t i = 0; i < COUNT(planners); i++) {
        open_bench(planners[i]);
        memcpy(plan, bytes_of(PLAN), sizeof plan);
        memcpy(positions, bytes_of(POSITIONS), sizeof positions);
        memcpy(leads, bytes_of(LEADS), sizeof leads);
        open_measured(planners[i]);
        check(word(PLAN, FILMDISK_PLAN_KIND) == 2, "kind: expected 2, got %u", word(PLAN, FILMDISK_PLAN_KIND));
        put(PLAN, FILMDISK_PLAN_KIND, 1);
        check(memcmp(plan, bytes_of(PLAN), sizeof plan) == 0, "the plan is that of kind 1");
        check(memcmp(positions, bytes_of(POSITIONS), sizeof positions) == 0, "the positions are those of kind 1");
        check(memcmp(leads, bytes_of(LEADS), sizeof leads) == 0, "the leads are those of kind 1");
    }
}

/* Plans the bench film with the table; no stream is 12. */
static uint32_t streams_of(planner *plan)
{
    uint32_t numbers[MEASURED_NUMBERS];
    write_measured(numbers);
    lend_numbers(numbers, MEASURED_NUMBERS);
    filmdisk_answer answer = plan();
    if (answer.number == FILMDISK_REFUSED_NO_STREAM)
        return 0;
    expect(answer, 0, 0);
    expect_words(PLAN, FILMDISK_PLAN_TABLE, table, FILMDISK_OVERHEADS);
    return word(PLAN, FILMDISK_PLAN_STREAMS);
}

static void expect_streams(planner *plan, uint32_t expected)
{
    const uint32_t streams = streams_of(plan);
    check(streams == expected, "expected %u streams, got %u", expected, streams);
}

/* The bench film has room for 1,048,576 half microseconds: 16 streams take 37990 each, and twice the overhead for 16 blocks. */
static void late_risers(void)
{
    set_straight(HOP, RETURN);
    expect_streams(host_plan, 16);
    set_from(17, MOST);
    expect_streams(host_plan, 16);
    set_from(16, 220368);
    expect_streams(host_plan, 16);
    set_from(16, 220369);
    expect_streams(host_plan, 15);
    set_from(9, 1000000);
    expect_streams(host_plan, 8);
    set_from(2, 1000000);
    expect_streams(host_plan, 1);
    set_from(1, 505293);
    expect_streams(host_plan, 1);
    set_from(1, 505294);
    expect_streams(host_plan, 0);
}

/* A film of two blocks of 1000 microseconds, with room for 8,000,000 half microseconds. */
static void plan_even(planner *plan, uint32_t expected)
{
    uint32_t numbers[8 + FILMDISK_OVERHEADS] = {2, 1, 2, 1000, 1, 2, 4000000, 1000000};
    memcpy(numbers + 8, table, sizeof table);
    lend_numbers(numbers, COUNT(numbers));
    filmdisk_answer answer = plan();
    if (expected == 0) {
        expect(answer, FILMDISK_REFUSED_NO_STREAM, 0);
        return;
    }
    expect(answer, 0, 0);
    check(word(PLAN, FILMDISK_PLAN_STREAMS) == expected, "expected %u streams, got %u", expected, word(PLAN, FILMDISK_PLAN_STREAMS));
}

/* Each number of streams, from both sides of its limit. */
static void streams_by_the_table(void)
{
    static const uint32_t counts[] = {1, 2, 3, 100, 255, 256};
    for (size_t i = 0; i < 2 * COUNT(counts); i++) {
        const uint32_t n = counts[i / 2];
        set_from(0, 1);
        set_from(n, 4000000 - 1000 * n);
        plan_even(planners[i % 2], n);
        set_from(n, 4000001 - 1000 * n);
        plan_even(planners[i % 2], n - 1);
    }
    set_from(0, 1);
    plan_even(host_plan, 256);
}

/* Sweeps. */

/* An empty sweep has the overhead for no block; one with a fetch that for one, and so on. */
static void bounds_by_the_table(void)
{
    for (size_t i = 0; i < COUNT(planners); i++) {
        for (uint32_t count = 0; count < FILMDISK_OVERHEADS; count++)
            table[count] = 9000 + count * count;
        open_measured(planners[i]);
        expect_begun(host_begin(), 0, 9000);
        expect(host_end(), 0, 0);
        expect(host_join(0, 0), 0, 0);
        expect_begun(host_begin(), 1, 22270 + 9001);
        expect(host_end(), 0, 0);
        for (uint32_t slot = 1; slot < 4; slot++)
            expect(host_join(slot, 1), 0, 0);
        put_slot(0, FILMDISK_ASKED, 1, 0);
        expect_begun(host_begin(), 4, 4 * 15720 + 9016);
    }
}

/* Half a byte a microsecond: what may be drawn goes by the table too. */
static void draws_by_the_table(void)
{
    set_straight(HOP, RETURN);
    table[0] = 9000;
    table[1] = 20000;
    open_measured(host_plan);
    expect(host_join(0, 0), 0, 0);
    expect_begun(host_begin(), 1, 22270 + 20000);
    expect(host_end(), 0, 0);
    expect_begun(host_begin(), 1, 15720 + 20000);
    check(draw_limit(0, 35720) == 17860, "expected 17860, got %llu", (unsigned long long)draw_limit(0, 35720));
    put(DRAWS, 0, 17861);
    expect(host_end(), FILMDISK_REFUSED_DRAW_ABOVE_LIMIT, 0);
    put(DRAWS, 0, 17860);
    expect(host_end(), 0, 0);
    expect_slot(0, FILMDISK_PLAYING, 2, 2 * BLOCK_BYTES - 17860);
}

/* The same table in a desk that has entries above n changed is sound, and the sweep goes by what it holds. */
static void entries_above_the_streams(void)
{
    set_straight(HOP, RETURN);
    open_measured(host_plan);
    put(DESK, FILMDISK_PLAN_TABLE + 256, MOST);
    expect(host_join(0, 0), 0, 0);
    put(DESK, FILMDISK_PLAN_TABLE + 1, HOP + RETURN + 5);
    expect_begun(host_begin(), 1, 22270 + HOP + RETURN + 5);
}

/* A film of two blocks with three streams that just fit by its table: 3 x 50000 + 2 x 50000 half microseconds, at a byte in each. */
static void open_tight(planner *plan)
{
    uint32_t numbers[10 + FILMDISK_OVERHEADS] = {2, 2, 1, 30000, 1, 20000, 1, 2, 125000, 1000000};
    for (uint32_t count = 0; count < FILMDISK_OVERHEADS; count++)
        numbers[10 + count] = count < 3 ? 1000 * (count + 1) : 47000 + 1000 * count;
    open_desk(plan, numbers, COUNT(numbers));
    check(word(PLAN, FILMDISK_PLAN_STREAMS) == 3 && word(PLAN, FILMDISK_PLAN_MARGIN) == 10000, "three streams, not %u",
          word(PLAN, FILMDISK_PLAN_STREAMS));
}

/* A sweep of so many blocks in which all draw what they may. */
static void sweep_all(uint32_t count)
{
    filmdisk_answer begun = host_begin();
    expect(begun, 0, 0);
    check(begun.count == count, "expected %u blocks, got %u", count, begun.count);
    for (uint32_t slot = 0; slot < 3; slot++) {
        const uint64_t limit = draw_limit(slot, begun.bound);
        put(DRAWS, slot, held(slot) < limit ? held(slot) : (uint32_t)limit);
    }
    expect(host_end(), 0, 0);
}

/* A full house, looped: after a third sweep for all three slots each holds just a block, and who leaves and asks again waits for one sweep. */
static void waits_by_the_table(void)
{
    static const uint32_t slots[] = {0, 1, 2}, one[] = {1, 0, 0}, none[] = {0, 0, 0};
    open_tight(host_plan_loop);
    for (uint32_t slot = 0; slot < 3; slot++)
        expect(host_join(slot, 0), 0, 0);
    for (unsigned i = 0; i < 3; i++)
        sweep_all(3);
    expect_slot(1, FILMDISK_PLAYING, 1, 125000);
    expect(host_leave(0), 0, 0);
    expect(host_join(0, 0), 0, 0);
    expect_places(slots, one, COUNT(slots));
    sweep_all(2);
    expect_places(slots, one, COUNT(slots));
    sweep_all(3);
    expect_places(slots, none, COUNT(slots));
    expect_slot(0, FILMDISK_FILLING, 1, 125000);
}

/* Refusals of cards. */

/* Both planners refuse the bench film of kind 2 with the table, at an entry. */
static void refuse_table(uint32_t entry, uint32_t number)
{
    uint32_t numbers[MEASURED_NUMBERS];
    write_measured(numbers);
    for (size_t i = 0; i < COUNT(planners); i++) {
        lend_numbers(numbers, MEASURED_NUMBERS);
        expect(planners[i](), number, offset_of(numbers, BENCH_HOP + entry));
    }
}

/* The table is legal: both planners accept it, or find no stream. */
static void accept_table(void)
{
    for (size_t i = 0; i < COUNT(planners); i++)
        streams_of(planners[i]);
}

/* Each entry at both ends of its range and past them, and one below the entry before. */
static void refusal_25(void)
{
    static const uint32_t entries[] = {0, 1, 2, 128, 255, 256};
    for (size_t i = 0; i < COUNT(entries); i++) {
        const uint32_t entry = entries[i];
        set_from(0, 1);
        accept_table();
        table[entry] = 0;
        refuse_table(entry, FILMDISK_REFUSED_TABLE);
        set_from(entry, MOST);
        accept_table();
        table[entry] = MOST + 1;
        refuse_table(entry, FILMDISK_REFUSED_TABLE);
        table[entry] = 0xFFFFFFFFu;
        refuse_table(entry, FILMDISK_REFUSED_TABLE);
        set_straight(HOP, RETURN);
        if (entry == 0)
            continue;
        table[entry] = table[entry - 1];
        accept_table();
        table[entry]--;
        refuse_table(entry, FILMDISK_REFUSED_TABLE);
    }
}

/* The first fault counts: the rate is judged before the table, an entry before a later one. */
static void order_of_the_faults(void)
{
    uint32_t numbers[MEASURED_NUMBERS];
    set_straight(HOP, RETURN);
    table[7] = 0;
    table[8] = 0;
    refuse_table(7, FILMDISK_REFUSED_TABLE);
    write_measured(numbers);
    numbers[BENCH_HOP - 1] = 0;
    lend_numbers(numbers, MEASURED_NUMBERS);
    expect(host_plan(), FILMDISK_REFUSED_MEASURE, offset_of(numbers, BENCH_HOP - 1));
    numbers[BENCH_BLOCK_BYTES] = 4194305;
    lend_numbers(numbers, MEASURED_NUMBERS);
    expect(host_plan(), FILMDISK_REFUSED_MEASURE, offset_of(numbers, BENCH_BLOCK_BYTES));
    numbers[BENCH_KIND] = 3;
    lend_numbers(numbers, MEASURED_NUMBERS);
    expect(host_plan(), FILMDISK_REFUSED_KIND, 0);
    /* As a card of kind 1 it goes on after hop and return. */
    set_straight(HOP, RETURN);
    write_measured(numbers);
    numbers[BENCH_KIND] = 1;
    lend_numbers(numbers, MEASURED_NUMBERS);
    expect(host_plan(), FILMDISK_REFUSED_CARD_GOES_ON, offset_of(numbers, BENCH_NUMBERS));
}

/* A card cut off in its table, at an entry and in one; with a form that is not shortest; and with a number more. */
static void form_of_entries(void)
{
    uint32_t numbers[MEASURED_NUMBERS + 1];
    set_straight(HOP, RETURN);
    write_measured(numbers);
    numbers[MEASURED_NUMBERS] = 1;
    for (size_t count = BENCH_HOP; count < MEASURED_NUMBERS; count += 64) {
        lend_numbers(numbers, count);
        expect(host_plan(), FILMDISK_REFUSED_CARD_ENDS, length_of(CARD));
        resize(CARD, length_of(CARD) + 1);
        bytes_of(CARD)[length_of(CARD) - 1] = 0x80;
        expect(host_plan(), FILMDISK_REFUSED_CARD_ENDS, length_of(CARD));
        resize(CARD, length_of(CARD) + 1);
        bytes_of(CARD)[length_of(CARD) - 1] = 0;
        expect(host_plan(), FILMDISK_REFUSED_NUMBER_FORM, offset_of(numbers, count));
    }
    lend_numbers(numbers, MEASURED_NUMBERS);
    expect(host_plan(), 0, 0);
    lend_numbers(numbers, MEASURED_NUMBERS + 1);
    expect(host_plan(), FILMDISK_REFUSED_CARD_GOES_ON, offset_of(numbers, MEASURED_NUMBERS));
}

/* The longest card: 16 films, each of so many blocks that its number has two bytes. */
static void longest_card(void)
{
    uint32_t numbers[2 + 2 * FILMDISK_MAX_ZONES + 1 + FILMDISK_MAX_FILMS + 2 + FILMDISK_OVERHEADS] = {2, FILMDISK_MAX_ZONES};
    size_t count = 2;
    for (uint32_t zone = 0; zone < FILMDISK_MAX_ZONES; zone++) {
        numbers[count++] = 16384;
        numbers[count++] = 4000000;
    }
    numbers[count++] = FILMDISK_MAX_FILMS;
    for (uint32_t film = 0; film < FILMDISK_MAX_FILMS; film++)
        numbers[count++] = 1024;
    numbers[count++] = 4194304;
    numbers[count++] = 2097152;
    for (uint32_t entry = 0; entry < FILMDISK_OVERHEADS; entry++)
        numbers[count++] = MOST;
    lend_card(numbers, count);
    check(length_of(CARD) == FILMDISK_MAX_CARD_BYTES, "expected %d bytes, got %zu", FILMDISK_MAX_CARD_BYTES, length_of(CARD));
    lend_noise(PLAN, FILMDISK_PLAN_BYTES);
    lend_noise(POSITIONS, 16384 * FILMDISK_ENTRY_BYTES);
    lend_noise(LEADS, 16384 * FILMDISK_ENTRY_BYTES);
    expect(host_plan(), FILMDISK_REFUSED_NO_STREAM, 0);
}

/* Records. */

static void expect_opening(uint32_t number)
{
    lend_noise(DESK, FILMDISK_DESK_BYTES);
    expect(host_open(), number, 0);
}

/* A record of kind 1 has the table of a hop and a return, entry by entry; one of kind 2 need not. */
static void every_entry_of_a_record(void)
{
    for (size_t i = 0; i < COUNT(planners); i++) {
        open_bench(planners[i]);
        for (uint32_t entry = 0; entry < FILMDISK_OVERHEADS; entry++) {
            const size_t at = FILMDISK_PLAN_TABLE + entry;
            const uint32_t right = word(PLAN, at);
            put(PLAN, at, right + 1);
            expect_opening(FILMDISK_REFUSED_NOT_SOUND);
            put(PLAN, FILMDISK_PLAN_KIND, 2);
            expect_opening(0);
            put(PLAN, at, right - HOP - 1);
            expect_opening(entry == 0 ? 0 : FILMDISK_REFUSED_NOT_SOUND);
            put(PLAN, at, entry == 256 ? MOST : 0);
            expect_opening(entry == 256 ? 0 : FILMDISK_REFUSED_NOT_SOUND);
            put(PLAN, at, MOST + 1);
            expect_opening(FILMDISK_REFUSED_NOT_SOUND);
            put(PLAN, at, right);
            put(PLAN, FILMDISK_PLAN_KIND, 1);
        }
        expect_opening(0);
    }
}

/* A straight table under either kind is a plan; no other kind is. */
static void kinds_of_a_record(void)
{
    static const uint32_t others[] = {0, 3, 256, 0x01000000, 0xFFFFFFFFu};
    for (size_t i = 0; i < COUNT(planners); i++) {
        open_bench(planners[i]);
        put(PLAN, FILMDISK_PLAN_KIND, 2);
        expect_opening(0);
        put(DESK, FILMDISK_PLAN_KIND, 1);
        expect(host_join(0, 0), 0, 0);
        for (size_t k = 0; k < COUNT(others); k++) {
            put(DESK, FILMDISK_PLAN_KIND, others[k]);
            expect(host_join(1, 0), FILMDISK_REFUSED_NOT_SOUND, 0);
            expect(host_leave(0), FILMDISK_REFUSED_NOT_SOUND, 0);
            expect(host_begin(), FILMDISK_REFUSED_NOT_SOUND, 0);
            expect(host_end(), FILMDISK_REFUSED_NOT_SOUND, 0);
            put(PLAN, FILMDISK_PLAN_KIND, others[k]);
            expect_no_window(host_window(1), FILMDISK_REFUSED_NOT_SOUND);
            uint8_t desk[FILMDISK_DESK_BYTES];
            memcpy(desk, bytes_of(DESK), sizeof desk);
            expect_opening(FILMDISK_REFUSED_NOT_SOUND);
            lend(DESK, desk, sizeof desk);
        }
    }
}

/* Hop and return at both ends of their ranges and past them, as a table of kind 1. */
static void straight_records(void)
{
    static const struct {
        uint32_t hop, back, number;
    } cases[] = {
        {1, 1, 0},
        {1, 1000000, 0},
        {0, 1000, FILMDISK_REFUSED_NOT_SOUND},
        {1000, 0, FILMDISK_REFUSED_NOT_SOUND},
        {1, 1000001, FILMDISK_REFUSED_NOT_SOUND},
        {1000001, 1, FILMDISK_REFUSED_NOT_SOUND},
        {0xFFFFFFFFu, 1000000, FILMDISK_REFUSED_NOT_SOUND},
    };
    static const uint32_t numbers[] = {1, 1, 2, 1, 1, 2, 4194304, 1, 1, 1};
    for (size_t i = 0; i < COUNT(cases); i++) {
        open_desk(host_plan, numbers, COUNT(numbers));
        set_straight(cases[i].hop, cases[i].back);
        for (uint32_t entry = 0; entry < FILMDISK_OVERHEADS; entry++)
            put(PLAN, FILMDISK_PLAN_TABLE + entry, table[entry]);
        expect_opening(cases[i].number);
    }
}

static const test tests[] = {
    TEST(straight_table),
    TEST(late_risers),
    TEST(streams_by_the_table),
    TEST(bounds_by_the_table),
    TEST(draws_by_the_table),
    TEST(entries_above_the_streams),
    TEST(waits_by_the_table),
    TEST(refusal_25),
    TEST(order_of_the_faults),
    TEST(form_of_entries),
    TEST(longest_card),
    TEST(every_entry_of_a_record),
    TEST(kinds_of_a_record),
    TEST(straight_records),
};

int main(int argc, char **argv)
{
    return run_tests(tests, COUNT(tests), argc, argv);
}
