/*
 * Half blocks on paired tracks as the playout process uses them: plans, desks on which a block gives two fetch entries, windows, by list
 * and by scratch, and what is refused of pairs alone. Written from filmdisk.h and docs/LAYOUT.md. Arguments: names of tests to run alone,
 * before them 'heap' under valgrind.
 */
#include "host.h"

#include <string.h>

#define STREAMS 8
#define BLOCKS PAIRS_BLOCKS
#define BLOCK_BYTES 262144u
#define BUFFER (3 * BLOCK_BYTES)
#define HOP 12670u
#define RETURN 15000u

/* The calls in one way: with the list, or with a scratch. */
struct way {
    planner *plan;
    void (*open_desk)(planner *plan, const uint32_t *numbers, size_t count);
    __typeof__(host_open) *open;
    __typeof__(host_join) *join;
    __typeof__(host_leave) *leave;
    __typeof__(host_begin) *begin;
    __typeof__(host_end) *end;
};

static const struct way ways[] = {
    {host_plan_pairs, open_desk, host_open, host_join, host_leave, host_begin, host_end},
    {host_plan_pairs_scratch, open_desk_scratch, host_open_scratch, host_join_scratch, host_leave_scratch, host_begin_scratch,
     host_end_scratch},
};

static void open_bench(void)
{
    open_desk(host_plan_pairs, bench_pairs, BENCH_NUMBERS);
}

/* The bench film with another number. */
static void change_bench(uint32_t numbers[BENCH_NUMBERS], size_t index, uint32_t number)
{
    memcpy(numbers, bench_pairs, sizeof bench_pairs);
    numbers[index] = number;
}

/* Plans. */

/* The numbers of a plan from its streams on: streams, buffer, worst2, margin, showing, worstat. */
static void expect_numbers(const uint32_t *numbers)
{
    expect_words(PLAN, FILMDISK_PLAN_STREAMS, numbers, 6);
}

/* 22270 + 15720, 20550 + 16700, 19090 + 17810. */
static void plan_of_the_bench_film(void)
{
    static const uint32_t numbers[] = {STREAMS, BUFFER, 75980, 0, FILMDISK_PAIRS, 0};
    static const uint32_t positions[] = {0, 5, 1, 4, 2, 3};
    static const uint32_t leads[BLOCKS] = {0};
    uint8_t figures[FILMDISK_PLAN_STREAMS * FILMDISK_WORD_BYTES];
    open_desk(host_plan, bench_pairs, BENCH_NUMBERS);
    memcpy(figures, bytes_of(PLAN), sizeof figures);
    check(filmdisk_visits(bytes_of(PLAN)) == 1, "one visit for a block of one showing");
    open_bench();
    check(memcmp(figures, bytes_of(PLAN), sizeof figures) == 0, "the figures are those of one showing");
    check(filmdisk_visits(bytes_of(PLAN)) == 2 && filmdisk_visits(bytes_of(DESK)) == 2, "two visits for a block of pairs");
    expect_numbers(numbers);
    expect_words(POSITIONS, 0, positions, COUNT(positions));
    expect_words(LEADS, 0, leads, COUNT(leads));
}

struct matched {
    uint32_t times[8], count, blocks, p, worstat;
};

/* A film of so many pairs on positions with these times, each a zone; all else as the bench film has it. */
static void open_pairs(const struct way *way, const struct matched *film)
{
    uint32_t numbers[40] = {1, film->count};
    size_t count = 2;
    for (uint32_t zone = 0; zone < film->count; zone++) {
        numbers[count++] = 1;
        numbers[count++] = film->times[zone];
    }
    numbers[count++] = 1;
    numbers[count++] = film->blocks;
    for (size_t i = BENCH_BLOCK_BYTES; i < BENCH_NUMBERS; i++)
        numbers[count++] = bench_pairs[i];
    way->open_desk(way->plan, numbers, count);
}

static const struct matched films[] = {
    {{9, 9, 9, 9, 3, 3}, 6, 3, 18, 2},       {{9, 9, 9, 3, 3, 3}, 6, 3, 12, 0}, {{9, 8, 8, 7, 4, 3}, 6, 3, 15, 2},
    {{9, 8, 7, 6, 6, 3}, 6, 3, 14, 1},       {{7, 7, 7, 7, 7, 7}, 6, 3, 14, 0}, {{9, 9, 9, 8, 3, 3}, 6, 2, 12, 0},
    {{9, 9, 8, 8, 7, 5, 4, 3}, 8, 4, 15, 3}, {{30, 20, 10, 10}, 4, 2, 40, 0},   {{30, 20, 20, 20, 20, 10, 10}, 7, 3, 40, 2},
};

/* The slowest block may be any; the lower position of a block stands first, and both halves count. */
static void slowest_blocks(void)
{
    for (size_t i = 0; i < COUNT(films); i++) {
        const struct matched *film = &films[i];
        open_pairs(&ways[i % 2], film);
        check(word(PLAN, FILMDISK_PLAN_WORST2) == 2 * film->p && word(PLAN, FILMDISK_PLAN_WORSTAT) == film->worstat,
              "film %zu: expected worst2 %u at %u, got %u at %u", i, 2 * film->p, film->worstat, word(PLAN, FILMDISK_PLAN_WORST2),
              word(PLAN, FILMDISK_PLAN_WORSTAT));
        check(worst_pair(PLAN).first == film->worstat && worst_pair(DESK).first == film->worstat, "the worst pair begins at worstat");
        for (uint32_t b = 0; b < film->blocks; b++) {
            const uint32_t low = film->count - 2 * film->blocks + b, high = film->count - 1 - b;
            check(word(POSITIONS, 2 * b) == low && word(POSITIONS, 2 * b + 1) == high,
                  "film %zu, block %u: expected %u and %u, got %u and %u", i, b, low, high, word(POSITIONS, 2 * b),
                  word(POSITIONS, 2 * b + 1));
        }
    }
}

/* Lends a card with room for its plan and lists. */
static void lend_pairs(const uint32_t *numbers, size_t count, uint32_t blocks)
{
    lend_card(numbers, count);
    lend_noise(PLAN, FILMDISK_PLAN_BYTES);
    lend_noise(POSITIONS, 2 * blocks * FILMDISK_ENTRY_BYTES);
    lend_noise(LEADS, blocks * FILMDISK_ENTRY_BYTES);
    lend_noise(SCRATCH, FILMDISK_SCRATCH_BYTES);
}

/* Streams of the bench film with another B: 500000 x (8 x 37990 + 16 x 12670 + 15000) is 1000000 x 260820. */
static void limits_of_a_stream(void)
{
    static const uint32_t cases[][2] = {{260820, 8}, {260819, 7}, {39165, 1}, {39164, 0}};
    for (size_t i = 0; i < 2 * COUNT(cases); i++) {
        uint32_t numbers[BENCH_NUMBERS];
        const uint32_t *wanted = cases[i / 2];
        change_bench(numbers, BENCH_BLOCK_BYTES, wanted[0]);
        lend_pairs(numbers, BENCH_NUMBERS, BLOCKS);
        expect(ways[i % 2].plan(), wanted[1] > 0 ? 0 : FILMDISK_REFUSED_NO_STREAM, 0);
        if (wanted[1] == 0)
            continue;
        const uint32_t planned[] = {wanted[1], 3 * wanted[0], 75980, 0, FILMDISK_PAIRS, 0};
        expect_numbers(planned);
    }
}

/* A card of kind 1 with times, hop and return of 1 and c 1000000; n streams take 4 x n + 1. */
static void small_pairs(uint32_t block_bytes, uint32_t numbers[10])
{
    const uint32_t small[] = {1, 1, 4, 1, 1, 2, block_bytes, 1000000, 1, 1};
    memcpy(numbers, small, sizeof small);
}

static void most_streams(void)
{
    static const uint32_t cases[][2] = {{5, 1}, {8, 1}, {9, 2}, {512, 127}, {513, 128}, {516, 128}, {517, 128}, {4194304, 128}};
    for (size_t i = 0; i < 2 * COUNT(cases); i++) {
        uint32_t numbers[10];
        small_pairs(cases[i / 2][0], numbers);
        lend_pairs(numbers, COUNT(numbers), 2);
        expect(ways[i % 2].plan(), 0, 0);
        expect_words(PLAN, FILMDISK_PLAN_STREAMS, &cases[i / 2][1], 1);
    }
}

/* The bench film of kind 2, its table straight up to an entry from which on it is higher. */
static size_t measured_card(uint32_t *numbers, uint32_t from, uint32_t rise)
{
    memcpy(numbers, bench_pairs, BENCH_HOP * sizeof *numbers);
    numbers[BENCH_KIND] = FILMDISK_MEASURED;
    for (uint32_t k = 0; k < FILMDISK_OVERHEADS; k++)
        numbers[BENCH_HOP + k] = k * HOP + RETURN + (k < from ? 0 : rise);
    return BENCH_HOP + FILMDISK_OVERHEADS;
}

/* The overhead for 2 x n visits decides: 1000000 x 262144 / 500000 is 524288, and 8 streams take 521640 of it. */
static void even_entries_decide(void)
{
    static const uint32_t cases[][3] = {{257, 0, 8},   {17, 900000, 8}, {16, 2648, 8},  {16, 2649, 7},
                                        {15, 2649, 7}, {15, 900000, 7}, {3, 900000, 1}};
    uint32_t numbers[BENCH_HOP + FILMDISK_OVERHEADS];
    for (size_t i = 0; i < 2 * COUNT(cases); i++) {
        const uint32_t *wanted = cases[i / 2];
        lend_pairs(numbers, measured_card(numbers, wanted[0], wanted[1]), BLOCKS);
        expect(ways[i % 2].plan(), 0, 0);
        expect_words(PLAN, FILMDISK_PLAN_STREAMS, &wanted[2], 1);
    }
}

/* Twice N above the positions is 28 where 9 stood, at N; later faults do not matter, and without pairs such a film may be planned. */
static void more_halves_than_positions(void)
{
    static const uint32_t cases[][3] = {
        {0, 8, 8}, {1, 8, 8}, {2, 0, 0}, {3, 0, 0}, {4, 28, 0}, {5, 28, 0}, {6, 28, 0}, {7, 28, 9}, {16384, 28, 9}, {16385, 8, 8}};
    for (size_t i = 0; i < 2 * COUNT(cases); i++) {
        uint32_t numbers[BENCH_NUMBERS];
        const uint32_t *wanted = cases[i / 2];
        change_bench(numbers, BENCH_BLOCKS, wanted[0]);
        const size_t at = offset_of(numbers, BENCH_BLOCKS);
        lend_pairs(numbers, BENCH_NUMBERS, 6);
        expect(ways[i % 2].plan(), wanted[1], wanted[1] == 0 ? 0 : at);
        lend_pairs(numbers, BENCH_NUMBERS, 6);
        expect(host_plan(), wanted[2], wanted[2] == 0 ? 0 : at);
        numbers[BENCH_BLOCK_BYTES] = 0;
        lend_pairs(numbers, BENCH_NUMBERS, 6);
        expect(ways[i % 2].plan(), wanted[1] == 0 ? FILMDISK_REFUSED_MEASURE : wanted[1],
               wanted[1] == 0 ? offset_of(numbers, BENCH_BLOCK_BYTES) : at);
    }
    check(strcmp(filmdisk_meaning(FILMDISK_REFUSED_HALVES_ABOVE_POSITIONS), "no such number") != 0, "28 has a meaning");
}

/* 16,384 blocks on 32,768 positions, and on one less. */
static void longest_film(void)
{
    for (uint32_t positions = 32767; positions <= 32768; positions++) {
        const uint32_t numbers[] = {1, 2, positions - 100, 30000, 100, 10000, 1, FILMDISK_MAX_BLOCKS, BLOCK_BYTES, 500000, HOP, RETURN};
        lend_pairs(numbers, COUNT(numbers), FILMDISK_MAX_BLOCKS);
        if (positions == 32767) {
            expect(host_plan_pairs(), FILMDISK_REFUSED_HALVES_ABOVE_POSITIONS, offset_of(numbers, 7));
            continue;
        }
        expect(host_plan_pairs(), 0, 0);
        check(word(POSITIONS, 0) == 0 && word(POSITIONS, 1) == 32767, "the first block lies at both ends");
        check(word(POSITIONS, 32766) == 16383 && word(POSITIONS, 32767) == 16384, "the last one in the middle");
        check(word(PLAN, FILMDISK_PLAN_WORST2) == 120000 && word(PLAN, FILMDISK_PLAN_WORSTAT) == 100, "worst2 %u at %u",
              word(PLAN, FILMDISK_PLAN_WORST2), word(PLAN, FILMDISK_PLAN_WORSTAT));
        lend_noise(DESK, FILMDISK_DESK_BYTES);
        expect(host_open(), 0, 0);
        resize(POSITIONS, length_of(POSITIONS) - 1);
        expect(host_open(), FILMDISK_REFUSED_NOT_SOUND, 0);
    }
}

/* Positions below 2 x N or leads below N are 13, and that before 12. */
static void short_lists(void)
{
    uint32_t numbers[BENCH_NUMBERS];
    for (uint32_t stream = 0; stream <= 1; stream++) {
        const uint32_t fits = stream == 1 ? 0 : FILMDISK_REFUSED_NO_STREAM;
        change_bench(numbers, BENCH_BLOCK_BYTES, stream == 1 ? BLOCK_BYTES : 1);
        for (size_t short_by = 0; short_by <= 4 * BLOCKS; short_by++) {
            const uint32_t wanted = short_by == 0 ? fits : FILMDISK_REFUSED_TOO_SHORT;
            for (size_t i = 0; i < COUNT(ways); i++) {
                lend_pairs(numbers, BENCH_NUMBERS, BLOCKS);
                resize(POSITIONS, length_of(POSITIONS) - short_by);
                expect(ways[i].plan(), wanted, 0);
            }
            lend_pairs(numbers, BENCH_NUMBERS, BLOCKS);
            resize(LEADS, length_of(LEADS) - short_by);
            expect(host_plan_pairs(), wanted, 0);
            lend_pairs(numbers, BENCH_NUMBERS, BLOCKS);
            resize(SCRATCH, length_of(SCRATCH) - short_by);
            expect(host_plan_pairs_scratch(), wanted, 0);
        }
        lend_pairs(numbers, BENCH_NUMBERS, BLOCKS);
        resize(PLAN, FILMDISK_PLAN_BYTES + 1);
        expect(host_plan_pairs(), FILMDISK_REFUSED_TOO_SHORT, 0);
    }
}

/* The desk. */

static void opening(void)
{
    for (size_t i = 0; i < COUNT(ways); i++) {
        ways[i].open_desk(ways[i].plan, bench_pairs, BENCH_NUMBERS);
        check(memcmp(bytes_of(DESK), bytes_of(PLAN), FILMDISK_PLAN_BYTES) == 0, "the desk begins with the plan");
        for (size_t word_at = FILMDISK_DESK_PHASE; word_at < FILMDISK_DESK_WORDS; word_at++)
            check(word(DESK, word_at) == 0, "word %zu: expected 0, got %u", word_at, word(DESK, word_at));
    }
}

/* Two rooms: each block gives two entries, by position and then slot, and both visits count. */
static void two_rooms(void)
{
    for (size_t i = 0; i < COUNT(ways); i++) {
        const struct way *way = &ways[i];
        way->open_desk(way->plan, bench_pairs, BENCH_NUMBERS);
        expect(way->join(STREAMS, 0), FILMDISK_REFUSED_NO_SUCH_SLOT, STREAMS);
        expect(way->join(0, BLOCKS), FILMDISK_REFUSED_NO_SUCH_BLOCK, 0);
        expect(way->join(0, 0), 0, 0);
        expect_begun(way->begin(), 2, 37990 + 2 * HOP + RETURN);
        expect_fetch(0, 0, 0, 0);
        expect_fetch(1, 5, 0, 0);
        expect(way->end(), 0, 0);
        expect_slot(0, FILMDISK_FILLING, 1, BLOCK_BYTES);
        expect(way->join(1, 1), 0, 0);
        expect_begun(way->begin(), 4, 2 * 37250 + 4 * HOP + RETURN);
        expect_fetch(0, 1, 0, 1);
        expect_fetch(1, 1, 1, 1);
        expect_fetch(2, 4, 0, 1);
        expect_fetch(3, 4, 1, 1);
        expect_slot(0, FILMDISK_PLAYING, 1, BLOCK_BYTES);
        check(draw_limit(0, 140180) == 70090, "a playing slot may draw 70090");
        put(DRAWS, 0, 70091);
        expect(way->end(), FILMDISK_REFUSED_DRAW_ABOVE_LIMIT, 0);
        put(DRAWS, 0, 70090);
        expect(way->end(), 0, 0);
        expect_slot(0, FILMDISK_PLAYING, 2, 2 * BLOCK_BYTES - 70090);
        expect_slot(1, FILMDISK_FILLING, 2, BLOCK_BYTES);
        expect_begun(way->begin(), 4, 2 * 36900 + 4 * HOP + RETURN);
        put(DRAWS, 0, 0);
        expect(way->end(), 0, 0);
        expect_slot(0, FILMDISK_TAIL, BLOCKS, 3 * BLOCK_BYTES - 70090);
        expect_slot(1, FILMDISK_TAIL, BLOCKS, 2 * BLOCK_BYTES);
        expect_begun(way->begin(), 0, RETURN);
        expect(way->end(), 0, 0);
        expect(way->leave(1), 0, 0);
        expect_slot(1, FILMDISK_FREE, 0, 0);
    }
}

/* Calls of both ways in turn go on as those of either. */
static void ways_mixed(void)
{
    open_bench();
    lend_noise(SCRATCH, FILMDISK_SCRATCH_BYTES);
    expect(host_join_scratch(3, 2), 0, 0);
    expect(host_join(1, 2), 0, 0);
    expect_begun(host_begin_scratch(), 4, 2 * 36900 + 4 * HOP + RETURN);
    expect(host_end(), 0, 0);
    expect_slot(3, FILMDISK_TAIL, BLOCKS, BLOCK_BYTES);
    put(DRAWS, 3, 7500);
    expect_begun(host_begin(), 0, RETURN);
    expect(host_end_scratch(), 0, 0);
    expect_slot(3, FILMDISK_TAIL, BLOCKS, BLOCK_BYTES - 7500);
}

/* An empty tail is free. */
static void tails_end(void)
{
    open_bench();
    put_slot(0, FILMDISK_TAIL, BLOCKS, 1);
    put_slot(1, FILMDISK_TAIL, BLOCKS, 2);
    expect_begun(host_begin(), 0, RETURN);
    put(DRAWS, 0, 1);
    put(DRAWS, 1, 1);
    expect(host_end(), 0, 0);
    expect_slot(0, FILMDISK_FREE, 0, 0);
    expect_slot(1, FILMDISK_TAIL, BLOCKS, 1);
}

/* A fetch list below 2 x n is 13, after 14 and 15; nothing is written. */
static void short_fetch_list(void)
{
    for (size_t i = 0; i < COUNT(ways); i++) {
        const size_t lengths[] = {0, STREAMS * FILMDISK_FETCH_BYTES, 2 * STREAMS * FILMDISK_FETCH_BYTES - 1};
        for (size_t k = 0; k < COUNT(lengths); k++) {
            ways[i].open_desk(ways[i].plan, bench_pairs, BENCH_NUMBERS);
            expect(ways[i].join(0, 0), 0, 0);
            lend_noise(FETCHES, lengths[k]);
            expect(ways[i].begin(), FILMDISK_REFUSED_TOO_SHORT, 0);
            put(DESK, FILMDISK_DESK_PHASE, FILMDISK_SWEEPING);
            expect(ways[i].begin(), FILMDISK_REFUSED_WRONG_PHASE, 0);
            put(DESK, FILMDISK_DESK_PHASE, 2);
            expect(ways[i].begin(), FILMDISK_REFUSED_NOT_SOUND, 0);
        }
    }
}

/* A block is fetched where it fits the buffer of 3 x B, and requests are granted at once: all leads are 0. */
static void floor_is_one_block(void)
{
    open_bench();
    put_slot(0, FILMDISK_PLAYING, 0, BLOCK_BYTES - 1);
    expect(host_begin(), FILMDISK_REFUSED_NOT_SOUND, 0);
    put_slot(0, FILMDISK_PLAYING, 0, BLOCK_BYTES);
    put_slot(1, FILMDISK_PLAYING, 1, 2 * BLOCK_BYTES);
    put_slot(2, FILMDISK_PLAYING, 1, 2 * BLOCK_BYTES + 1);
    put_slot(3, FILMDISK_FILLING, 0, BLOCK_BYTES - 1);
    put_slot(4, FILMDISK_FILLING, 0, BLOCK_BYTES);
    expect(host_join(7, 0), 0, 0);
    expect(host_join(6, 2), 0, 0);
    expect_begun(host_begin(), 12, 4 * 37990 + 37250 + 36900 + 12 * HOP + RETURN);
    expect_slot(2, FILMDISK_PLAYING, 1, 2 * BLOCK_BYTES + 1);
    expect_slot(3, FILMDISK_FILLING, 0, BLOCK_BYTES - 1);
    expect_slot(4, FILMDISK_PLAYING, 0, BLOCK_BYTES);
    expect_slot(6, FILMDISK_FILLING, 2, 0);
    expect_slot(7, FILMDISK_FILLING, 0, 0);
}

/* 128 streams, all fetched for: 256 entries, the overhead of 256 visits; slots from 128 on are none. */
static void full_house(void)
{
    uint32_t numbers[10];
    small_pairs(513, numbers);
    for (size_t i = 0; i < COUNT(ways); i++) {
        ways[i].open_desk(ways[i].plan, numbers, COUNT(numbers));
        for (uint32_t slot = 0; slot < FILMDISK_MAX_PAIR_STREAMS; slot++)
            expect(ways[i].join(slot, slot % 2), 0, 0);
        expect(ways[i].join(128, 0), FILMDISK_REFUSED_NO_SUCH_SLOT, 128);
        expect(ways[i].leave(255), FILMDISK_REFUSED_NO_SUCH_SLOT, 255);
        resize(FETCHES, length_of(FETCHES) - 1);
        expect(ways[i].begin(), FILMDISK_REFUSED_TOO_SHORT, 0);
        lend_noise(FETCHES, 256 * FILMDISK_FETCH_BYTES + 5);
        expect_begun(ways[i].begin(), 256, 128 * 2 + 256 + 1);
        for (uint32_t entry = 0; entry < 256; entry++) {
            /* Position 0 and 3 have block 0, 1 and 2 block 1. */
            const uint32_t position = entry / 64, block = position == 1 || position == 2;
            expect_fetch(entry, position, 2 * (entry % 64) + block, block);
        }
        expect(ways[i].end(), 0, 0);
        put_slot(128, FILMDISK_FILLING, 0, 0);
        expect(ways[i].leave(0), FILMDISK_REFUSED_NOT_SOUND, 0);
    }
}

/* The greatest bound: 128 blocks of 8 seconds and 257 seconds of overhead. */
static void greatest_bound(void)
{
    const uint32_t numbers[] = {1, 1, 4, 4000000, 1, 2, 4194304, 3274, 1000000, 1000000};
    open_desk(host_plan_pairs, numbers, COUNT(numbers));
    check(word(PLAN, FILMDISK_PLAN_STREAMS) == 128, "expected 128 streams, got %u", word(PLAN, FILMDISK_PLAN_STREAMS));
    check(word(PLAN, FILMDISK_PLAN_WORST2) == 16000000, "worst2 is four times the greatest time");
    for (uint32_t slot = 0; slot < FILMDISK_MAX_PAIR_STREAMS; slot++)
        put_slot(slot, FILMDISK_PLAYING, 0, 4194304);
    expect_begun(host_begin(), 256, 1281000000);
    check(draw_limit(0, 1281000000) == 4193994, "what a slot may draw fits a block");
}

/* Windows. */

static void windows_of_the_bench_film(void)
{
    open_bench();
    expect_window(host_window(1), 37990, 0, BLOCK_BYTES);
    expect_window(host_window(2), 75240, 0, 2 * BLOCK_BYTES);
    expect_window(host_window(3), 112140, 0, 3 * BLOCK_BYTES);
    expect_no_window(host_window(0), FILMDISK_REFUSED_WINDOW);
    expect_no_window(host_window(4), FILMDISK_REFUSED_WINDOW);
    expect_no_window(host_window(0xFFFFFFFFu), FILMDISK_REFUSED_WINDOW);
    resize(POSITIONS, length_of(POSITIONS) + 5);
    expect_window(host_window(2), 75240, 0, 2 * BLOCK_BYTES);
    resize(POSITIONS, length_of(POSITIONS) - 6);
    expect_no_window(host_window(2), FILMDISK_REFUSED_NOT_SOUND);
    expect_no_window(host_window(0), FILMDISK_REFUSED_NOT_SOUND);
}

/* Time of block b as it is laid, both halves by a walk over the zones of the plan. */
static uint32_t laid_time(uint32_t block)
{
    uint32_t time = 0;
    for (uint32_t half = 2 * block; half < 2 * block + 2; half++) {
        uint32_t position = word(POSITIONS, half), zone = 0;
        while (position >= word(PLAN, FILMDISK_PLAN_POSITIONS + zone))
            position -= word(PLAN, FILMDISK_PLAN_POSITIONS + zone++);
        time += word(PLAN, FILMDISK_PLAN_TIMES + zone);
    }
    return time;
}

/* Each window of a film against all its places; that of one block is p at worstat. */
static void expect_all_windows(void)
{
    const uint32_t blocks = word(PLAN, FILMDISK_PLAN_BLOCKS), bytes = word(PLAN, FILMDISK_PLAN_BLOCK_BYTES);
    for (uint32_t k = 1; k <= blocks && k <= FILMDISK_MAX_WINDOW; k++) {
        uint32_t worst = 0, first = 0;
        for (uint32_t b = 0; b + k <= blocks; b++) {
            uint32_t sum = 0;
            for (uint32_t i = 0; i < k; i++)
                sum += laid_time(b + i);
            if (sum > worst) {
                worst = sum;
                first = b;
            }
        }
        expect_window(host_window(k), worst, first, k * bytes);
    }
    expect_window(host_window(1), word(PLAN, FILMDISK_PLAN_WORST2) / 2, word(PLAN, FILMDISK_PLAN_WORSTAT), bytes);
}

/* The films above, and 70 blocks over seven zones; 64 blocks of 4,194,304 bytes take 512 seconds at most. */
static void every_window_of_some_films(void)
{
    static const uint32_t seven[] = {
        1, 7, 13, 135594, 24, 125000, 16, 114286, 27, 103897, 19, 96386, 26, 89888, 33, 86957, 1, 70, 1048576, 1048576, 8380, 10090,
    };
    static const uint32_t greatest[] = {1, 1, 140, 4000000, 1, 66, 4194304, 1, 1, 1};
    for (size_t i = 0; i < COUNT(films); i++) {
        open_pairs(&ways[0], &films[i]);
        expect_all_windows();
    }
    open_desk(host_plan_pairs, seven, COUNT(seven));
    expect_all_windows();
    expect_no_window(host_window(65), FILMDISK_REFUSED_WINDOW);
    open_desk(host_plan_pairs, greatest, COUNT(greatest));
    expect_window(host_window(64), 512000000, 0, 268435456);
}

/* Refusals. */

/* All calls on the desk, and an opening and a window of its plan, refuse it with 14. */
static void expect_unsound(const char *words)
{
    uint8_t plan[FILMDISK_PLAN_BYTES];
    memcpy(plan, bytes_of(DESK), sizeof plan);
    for (size_t i = 0; i < COUNT(ways); i++) {
        const filmdisk_answer answers[] = {ways[i].join(STREAMS, BLOCKS), ways[i].leave(STREAMS), ways[i].begin(), ways[i].end()};
        for (size_t call = 0; call < COUNT(answers); call++)
            check(answers[call].number == FILMDISK_REFUSED_NOT_SOUND && answers[call].place == 0,
                  "%s, way %zu, call %zu: expected 14 at 0, got %u at %zu", words, i, call, answers[call].number, answers[call].place);
    }
    lend(PLAN, plan, sizeof plan);
    for (size_t i = 0; i < COUNT(ways); i++) {
        lend_noise(DESK, FILMDISK_DESK_BYTES);
        expect(ways[i].open(), FILMDISK_REFUSED_NOT_SOUND, 0);
    }
    expect_no_window(host_window(1), FILMDISK_REFUSED_NOT_SOUND);
}

/* The bench film's desk with a scratch beside its lists. */
static void open_both_ways(planner *plan)
{
    open_desk(plan, bench_pairs, BENCH_NUMBERS);
    lend_noise(SCRATCH, FILMDISK_SCRATCH_BYTES);
}

/* Word 2 in the record of one showing or a loop, each other word in that of pairs; with the lists of either. */
static void other_words(void)
{
    static const uint32_t words[] = {FILMDISK_ONCE, FILMDISK_LOOP, 3, 4, 258, 65538, 0x02000000, 0xFFFFFFFFu};
    static planner *const others[] = {host_plan, host_plan_loop};
    static planner *const all[] = {host_plan, host_plan_loop, host_plan_pairs};
    uint8_t record[FILMDISK_DESK_BYTES];
    for (size_t i = 0; i < COUNT(words); i++) {
        for (size_t lists = 0; lists < COUNT(all); lists++) {
            open_both_ways(host_plan_pairs);
            memcpy(record, bytes_of(DESK), sizeof record);
            open_both_ways(all[lists]);
            lend(DESK, record, sizeof record);
            put(DESK, FILMDISK_PLAN_SHOWING, words[i]);
            expect_unsound("a record of pairs with another word");
        }
    }
    for (size_t i = 0; i < COUNT(others); i++) {
        for (size_t lists = 0; lists < COUNT(all); lists++) {
            open_both_ways(others[i]);
            memcpy(record, bytes_of(DESK), sizeof record);
            open_both_ways(all[lists]);
            lend(DESK, record, sizeof record);
            put(DESK, FILMDISK_PLAN_SHOWING, FILMDISK_PAIRS);
            expect_unsound("another record with the word of pairs");
        }
    }
}

/* Every word of the plan after its figures counts, one up and one down. */
static void other_numbers(void)
{
    static const uint32_t steps[] = {1, -1u};
    for (size_t index = FILMDISK_PLAN_STREAMS; index < FILMDISK_PLAN_WORDS; index++) {
        for (size_t i = 0; i < COUNT(steps); i++) {
            open_both_ways(host_plan_pairs);
            put(DESK, index, word(DESK, index) + steps[i]);
            expect_unsound("another number");
        }
    }
}

/* 128 streams where the formula would feed more: neither 127 nor 129 are a record's. */
static void more_streams_than_there_are(void)
{
    static const uint32_t streams[] = {127, 129, 256, 257};
    uint32_t numbers[10];
    small_pairs(100000, numbers);
    for (size_t i = 0; i < COUNT(streams); i++) {
        open_desk(host_plan_pairs, numbers, COUNT(numbers));
        lend_noise(SCRATCH, FILMDISK_SCRATCH_BYTES);
        expect(host_join(127, 0), 0, 0);
        put(DESK, FILMDISK_PLAN_STREAMS, streams[i]);
        expect_unsound("another number of streams");
    }
}

/* N above half the positions, and at it with the same lists; figures that a card may not have. */
static void other_figures(void)
{
    static const uint32_t blocks[] = {0, 1, 2, 4, 6, 7, 0x80000003u, 0xFFFFFFFFu};
    for (size_t i = 0; i < COUNT(blocks); i++) {
        open_both_ways(host_plan_pairs);
        put(DESK, FILMDISK_PLAN_BLOCKS, blocks[i]);
        expect_unsound("another N");
    }
    open_both_ways(host_plan_pairs);
    put(DESK, FILMDISK_PLAN_TABLE + 256, word(DESK, FILMDISK_PLAN_TABLE + 256) + 1);
    expect_unsound("a table that is not straight");
}

/* Each of the 2 x N positions counts, and each lead by list; the halves of a block do not change places. */
static void other_lists(void)
{
    uint8_t desk[FILMDISK_DESK_BYTES];
    for (size_t entry = 0; entry < 2 * BLOCKS; entry++) {
        open_both_ways(host_plan_pairs);
        put(POSITIONS, entry, word(POSITIONS, entry) ^ 1);
        expect_unsound("another position");
    }
    for (size_t b = 0; b < BLOCKS; b++) {
        open_both_ways(host_plan_pairs);
        const uint32_t low = word(POSITIONS, 2 * b);
        put(POSITIONS, 2 * b, word(POSITIONS, 2 * b + 1));
        put(POSITIONS, 2 * b + 1, low);
        expect_unsound("the higher position first");
    }
    for (size_t b = 0; b < BLOCKS; b++) {
        open_both_ways(host_plan_pairs);
        memcpy(desk, bytes_of(DESK), sizeof desk);
        put(LEADS, b, 1);
        expect(host_leave(0), FILMDISK_REFUSED_NOT_SOUND, 0);
        expect(host_leave_scratch(0), FILMDISK_REFUSED_SLOT_STATE, 0);
        expect(host_open(), FILMDISK_REFUSED_NOT_SOUND, 0);
        expect(host_open_scratch(), 0, 0);
        check(memcmp(desk, bytes_of(DESK), sizeof desk) == 0, "by scratch the leads do not matter");
    }
}

/* Whole entries count: 2 x N positions and N leads; more are not looked at. */
static void lists_of_another_length(void)
{
    static const size_t short_by[] = {1, 4, 4 * BLOCKS, 8 * BLOCKS};
    for (size_t i = 0; i < COUNT(short_by); i++) {
        open_both_ways(host_plan_pairs);
        resize(POSITIONS, length_of(POSITIONS) - short_by[i]);
        expect_unsound("short positions");
    }
    for (size_t i = 1; i <= 4 * BLOCKS; i += 3) {
        open_both_ways(host_plan_pairs);
        resize(LEADS, length_of(LEADS) - i);
        expect(host_begin(), FILMDISK_REFUSED_NOT_SOUND, 0);
        expect_begun(host_begin_scratch(), 0, RETURN);
        open_both_ways(host_plan_pairs);
        resize(POSITIONS, length_of(POSITIONS) + i);
        resize(LEADS, length_of(LEADS) + i);
        expect_begun(host_begin(), 0, RETURN);
    }
}

static const test tests[] = {
    TEST(plan_of_the_bench_film),
    TEST(slowest_blocks),
    TEST(limits_of_a_stream),
    TEST(most_streams),
    TEST(even_entries_decide),
    TEST(more_halves_than_positions),
    TEST(longest_film),
    TEST(short_lists),
    TEST(opening),
    TEST(two_rooms),
    TEST(ways_mixed),
    TEST(tails_end),
    TEST(short_fetch_list),
    TEST(floor_is_one_block),
    TEST(full_house),
    TEST(greatest_bound),
    TEST(windows_of_the_bench_film),
    TEST(every_window_of_some_films),
    TEST(other_words),
    TEST(other_numbers),
    TEST(more_streams_than_there_are),
    TEST(other_figures),
    TEST(other_lists),
    TEST(lists_of_another_length),
};

int main(int argc, char **argv)
{
    return run_tests(tests, COUNT(tests), argc, argv);
}
