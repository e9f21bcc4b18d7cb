/*
 * The library against plain C doing the same checks, or against an earlier library in its place, which the argument then names: same
 * input, one run, both in turn. Calls by scratch are also measured against the same call by list. Prints times a call, ratios with their
 * quartiles, and stack use. Each repetition compares what the two answered and wrote, byte for byte.
 */
#define _XOPEN_SOURCE 700
#include "calls.h"
#include "stack.h"

#include <stdarg.h>
#include <stdbool.h>
#include <stdio.h>
#include <stdlib.h>
#include <string.h>
#include <time.h>

enum { REPETITIONS = 101, BATCH_NS = 30000, MAX_BATCH = 4096 };

/* The series of a case: a call of both twins, and after them the same call by scratch. */
enum { LIBRARY_SCRATCH = TWINS, PLAIN_C_SCRATCH, SERIES };

static struct input input, old_input;
static struct strings strings[SERIES];

/* Measured times of a case: nanoseconds a call in each repetition. */
static double times[SERIES][COPIES][REPETITIONS];

static int rows, missed;

/* What the library is compared with. */
static const char *other_name = "C";

struct range {
    double low, median, high; /* quartiles */
};

static double now(void)
{
    struct timespec t;
    clock_gettime(CLOCK_MONOTONIC, &t);
    return (double)t.tv_sec * 1e9 + (double)t.tv_nsec;
}

static int by_size(const void *a, const void *b)
{
    double x = *(const double *)a, y = *(const double *)b;
    return (x > y) - (x < y);
}

static struct range range_of(const double values[REPETITIONS])
{
    double sorted[REPETITIONS];
    memcpy(sorted, values, sizeof sorted);
    qsort(sorted, REPETITIONS, sizeof sorted[0], by_size);
    return (struct range){ sorted[REPETITIONS / 4], sorted[REPETITIONS / 2], sorted[REPETITIONS * 3 / 4] };
}

/* Ratios are taken within a repetition, in which all met the same load of the machine. */
static struct range ratio(int one, int one_copy, int other, int other_copy)
{
    double ratios[REPETITIONS];
    for (int r = 0; r < REPETITIONS; r++)
        ratios[r] = times[one][one_copy][r] / times[other][other_copy][r];
    return range_of(ratios);
}

/* The copy whose place in memory suits it best. */
static int best_copy(int series)
{
    int best = 0;
    for (int copy = 1; copy < COPIES; copy++)
        if (ratio(series, copy, series, best).median < 1)
            best = copy;
    return best;
}

/* Has the implementation plans of one film, without its number? So an earlier library from before 0.12.0. */
static bool is_old(int twin)
{
    return twins[twin][0].plan_len == OLD_PLAN_BYTES;
}

/* What is lent to the calls of a series. */
static const struct input *input_of(int series)
{
    return is_old(series % TWINS) ? &old_input : &input;
}

static void renew_old_input(void)
{
    if (is_old(PLAIN_C))
        make_old(&old_input, &input);
}

static void lend_desks(int series)
{
    for (size_t i = 0; i < DESKS; i++)
        memcpy(strings[series].desks[i], input_of(series)->desk, sizeof input.desk);
}

/* Nanoseconds a call over a batch; desks are made fresh before it and not within its time. */
static double time_batch(call *c, int series, int copy, size_t batch, filmdisk_answer *a)
{
    lend_desks(series);
    const struct input *in = input_of(series);
    double start = now();
    for (size_t i = 0; i < batch; i++)
        *a = c(&twins[series % TWINS][copy], in, &strings[series], i % DESKS);
    return (now() - start) / (double)batch;
}

static bool same_answer(filmdisk_answer a, filmdisk_answer b)
{
    return a.number == b.number && a.place == b.place && a.count == b.count && a.bound == b.bound;
}

/* What the two wrote, an old one's plan and desks in the new form; its plan counts where the call was accepted. */
static bool same_strings(int one, int other, bool accepted)
{
    static struct strings renewed;
    if (!is_old(PLAIN_C))
        return memcmp(&strings[one], &strings[other], sizeof strings[one]) == 0;
    renewed = strings[other];
    from_old(renewed.plan, strings[other].plan, OLD_PLAN_BYTES);
    for (size_t i = 0; i < DESKS; i++)
        from_old(renewed.desks[i], strings[other].desks[i], OLD_DESK_BYTES);
    if (!accepted || filmdisk_word(strings[one].plan, 0) == UINT32_C(0xA5A5A5A5))
        memcpy(renewed.plan, strings[one].plan, sizeof renewed.plan);
    return memcmp(&strings[one], &renewed, sizeof renewed) == 0;
}

/* Ends the run where the two differ, or do not answer as they should. An old card is a byte shorter, which the place of its end says. */
static void compare(const char *name, int library, const filmdisk_answer answers[SERIES], uint32_t expected)
{
    int other = library + PLAIN_C;
    filmdisk_answer others = answers[other];
    if (is_old(PLAIN_C) && others.number == FILMDISK_REFUSED_CARD_ENDS)
        others.place++;
    if (others.number == expected && same_answer(answers[library], others) && same_strings(library, other, expected == FILMDISK_ACCEPTED))
        return;
    fprintf(stderr, "bench: %s: the library answers %u, %s %u, expected %u; or they write other bytes\n", name,
            answers[library].number, other_name, others.number, expected);
    exit(1);
}

/* By scratch all is written as by list, but for the leads. */
static void compare_ways(const char *name, const filmdisk_answer answers[SERIES])
{
    static struct strings one, other;
    one = strings[LIBRARY];
    other = strings[LIBRARY_SCRATCH];
    memset(one.leads, 0, sizeof one.leads);
    memset(other.leads, 0, sizeof other.leads);
    if (same_answer(answers[LIBRARY], answers[LIBRARY_SCRATCH]) && memcmp(&one, &other, sizeof one) == 0)
        return;
    fprintf(stderr, "bench: %s: another answer or other bytes by scratch\n", name);
    exit(1);
}

/* Calls in a batch: short against the machine's other work; those in place have no more than there are desks. */
static size_t batch_size(call *c, bool in_place)
{
    filmdisk_answer a;
    size_t most = in_place ? DESKS : MAX_BATCH;
    size_t batch = (size_t)(BATCH_NS / time_batch(c, PLAIN_C, 0, DESKS, &a));
    return batch < 1 ? 1 : batch < most ? batch : most;
}

/* Times every copy in turn; the turns move on with each repetition. With a call by scratch its series are in the same turns. */
static void repeat(const char *name, call *c, call *by_scratch, bool in_place, uint32_t expected)
{
    call *const calls[] = { c, by_scratch };
    int series_count = by_scratch == NULL ? TWINS : SERIES;
    renew_old_input();
    size_t batch = batch_size(c, in_place);
    filmdisk_answer answers[SERIES];
    memset(strings, 0xA5, sizeof strings);
    for (int r = 0; r < REPETITIONS; r++) {
        for (int copy = 0; copy < COPIES; copy++) {
            for (int k = 0; k < series_count; k++) {
                int series = (k + r) % series_count;
                times[series][copy][r] = time_batch(calls[series / TWINS], series, copy, batch, &answers[series]);
            }
            compare(name, LIBRARY, answers, expected);
            if (by_scratch == NULL)
                continue;
            compare(name, LIBRARY_SCRATCH, answers, expected);
            compare_ways(name, answers);
        }
    }
}

/* The ratio of two series at their best places, and the least and greatest median over all places. Answers the first. */
static double print_ratio(int one, int other)
{
    struct range r = ratio(one, best_copy(one), other, best_copy(other));
    double least = r.median, greatest = r.median;
    for (int k = 0; k < COPIES * COPIES; k++) {
        double median = ratio(one, k / COPIES, other, k % COPIES).median;
        least = median < least ? median : least;
        greatest = median > greatest ? median : greatest;
    }
    printf(" %.2f (%.2f to %.2f) | %.2f to %.2f |", r.median, r.low, r.high, least, greatest);
    return r.median;
}

static void print_time(int series)
{
    printf(" %.0f |", range_of(times[series][best_copy(series)]).median);
}

/* The times of the library and of the other, by list or by scratch, and their ratio: the end of a row. */
static void print_twins(int library)
{
    print_time(library);
    print_time(library + PLAIN_C);
    missed += print_ratio(library, library + PLAIN_C) > 1.1;
    rows++;
    printf("\n");
    fflush(stdout);
}

/* Measures one call on the input and prints its row, named by the format and what follows. */
__attribute__((format(printf, 4, 5))) static void measure(call *c, bool in_place, uint32_t expected, const char *format, ...)
{
    char name[80];
    va_list values;
    va_start(values, format);
    vsnprintf(name, sizeof name, format, values);
    va_end(values);
    repeat(name, c, NULL, in_place, expected);
    printf("| %s |", name);
    print_twins(LIBRARY);
}

static void head(const char *title)
{
    printf("\n%s\n\n| Case | Library, ns | %s, ns | Library / %s | over places |\n|---|---|---|---|---|\n", title, other_name, other_name);
}

/* The measurements. */

static const uint32_t sizes[] = { 6, 1000, 16384 };
static const uint32_t zone_counts[] = { 1, 7, 64 };
static const uint32_t stream_counts[] = { 1, 16, 256 };

#define EACH(item, list) \
    for (const uint32_t *item = list; item < list + sizeof list / sizeof list[0]; item++)

static void measure_cards(void)
{
    head("Reading a card (plan call without lists: all of it read, then 13), and refusing a damaged one");
    EACH(zones, zone_counts) {
        make_film(&input, 1000, *zones, 16);
        measure(call_read, false, FILMDISK_REFUSED_TOO_SHORT, "%u zones, %zu bytes", *zones, input.card_len);
        input.card[input.card_len - 1] |= 128;
        measure(call_read, false, FILMDISK_REFUSED_CARD_ENDS, "%u zones, cut off in its last number", *zones);
    }
    make_film(&input, 1000, 7, 16);
    input.card[0] = 3;
    measure(call_read, false, FILMDISK_REFUSED_KIND, "7 zones, wrong kind");
    make_measured(&input, 1000, 7, 16);
    measure(call_read, false, FILMDISK_REFUSED_TOO_SHORT, "7 zones, kind 2, %zu bytes", input.card_len);
}

static void measure_plans(void)
{
    head("Planning (16 streams)");
    EACH(blocks, sizes) EACH(zones, zone_counts) {
        make_film(&input, *blocks, *zones, 16);
        measure(call_plan, false, FILMDISK_ACCEPTED, "N %u, %u zones", *blocks, *zones);
    }
    head("Planning, by streams (N 6, 7 zones)");
    EACH(streams, stream_counts) {
        make_film(&input, 6, 7, *streams);
        measure(call_plan, false, FILMDISK_ACCEPTED, "%u streams", *streams);
    }
}

static void measure_checks(void)
{
    head("The check behind 14 (16 streams): leave of a free slot, 17; open; a wrong last lead, 14");
    EACH(blocks, sizes) EACH(zones, zone_counts) {
        make_film(&input, *blocks, *zones, 16);
        make_players(&input, FILMDISK_BETWEEN, 15);
        measure(call_leave, true, FILMDISK_REFUSED_SLOT_STATE, "leave, N %u, %u zones", *blocks, *zones);
    }
    EACH(blocks, sizes) {
        make_film(&input, *blocks, 7, 16);
        measure(call_open, false, FILMDISK_ACCEPTED, "open, N %u, 7 zones", *blocks);
        input.leads[input.list_len - 1] ^= 1;
        measure(call_open, false, FILMDISK_REFUSED_NOT_SOUND, "open refused, N %u, 7 zones", *blocks);
    }
}

static void measure_joins(void)
{
    head("Join of a free slot, the others playing (7 zones)");
    EACH(blocks, sizes) EACH(streams, stream_counts) {
        make_film(&input, *blocks, 7, *streams);
        make_players(&input, FILMDISK_BETWEEN, *streams - 1);
        measure(call_join, true, FILMDISK_ACCEPTED, "N %u, %u streams", *blocks, *streams);
    }
}

/* Rows with requests are named by how many there are and by what becomes of them. */
static const uint32_t request_counts[] = { 1, 40, 255 };

/* A desk of 256 slots on which so many ask: the last ones, or with one free slot after them; the others play, or are free but for slot 0. */
static void make_line(uint32_t count, bool one_free, bool others_play)
{
    uint32_t first = FILMDISK_MAX_STREAMS - count - one_free;
    make_players(&input, FILMDISK_BETWEEN, others_play ? first : first > 0);
    make_requests(&input, first, count);
}

/* A join behind so many, a leave of the eldest of so many, a begin that grants all and one that grants none. */
static void measure_line(uint32_t blocks, uint32_t zones, uint32_t count, const char *way, call *join, call *leave, call *begin)
{
    make_film(&input, blocks, zones, FILMDISK_MAX_STREAMS);
    make_line(count, true, true);
    measure(join, true, FILMDISK_ACCEPTED, "join%s, N %u, %u zones, %u waiting", way, blocks, zones, count);
    make_film(&input, blocks, zones, FILMDISK_MAX_STREAMS);
    make_line(count, false, true);
    measure(leave, true, FILMDISK_ACCEPTED, "leave of the eldest%s, N %u, %u zones, %u waiting", way, blocks, zones, count);
    measure(begin, true, FILMDISK_ACCEPTED, "begin%s, N %u, %u zones, %u waiting, all granted", way, blocks, zones, count);
    make_low(&input);
    measure(begin, true, FILMDISK_ACCEPTED, "begin%s, N %u, %u zones, %u waiting, none granted", way, blocks, zones, count);
}

static void measure_requests(void)
{
    head("Slots that ask (256 streams), the others playing: join, leave, begin");
    EACH(count, request_counts) {
        measure_line(6, 7, *count, "", call_join, call_leave, call_begin);
        measure_line(1000, 7, *count, "", call_join, call_leave, call_begin);
        measure_line(1000, 64, *count, " by scratch", call_join_scratch, call_leave_scratch, call_begin_scratch);
    }
}

/* A begin or an end of the film that was made. */
static void measure_half(const char *text, call *c, uint32_t phase, uint32_t blocks, uint32_t zones, uint32_t streams)
{
    make_players(&input, phase, streams);
    make_draws(&input, 1000);
    measure(c, true, FILMDISK_ACCEPTED, "%s, N %u, %u zones, %u streams", text, blocks, zones, streams);
}

static void measure_sweep(const char *text, call *c, uint32_t phase, uint32_t blocks, uint32_t zones, uint32_t streams)
{
    make_film(&input, blocks, zones, streams);
    measure_half(text, c, phase, blocks, zones, streams);
}

static void measure_sweeps(void)
{
    head("Begin and end, all slots playing and fetched for");
    EACH(blocks, sizes) EACH(streams, stream_counts) {
        measure_sweep("begin", call_begin, FILMDISK_BETWEEN, *blocks, 7, *streams);
        measure_sweep("end", call_end, FILMDISK_SWEEPING, *blocks, 7, *streams);
    }
    EACH(zones, zone_counts) {
        measure_sweep("begin", call_begin, FILMDISK_BETWEEN, 1000, *zones, 256);
        measure_sweep("end", call_end, FILMDISK_SWEEPING, 1000, *zones, 256);
    }
}

/* The calls whose work depends on the showing: planning, the check behind 14, and ends, in which slots go round. */
static void measure_loops(void)
{
    head("Loops (16 streams): planning; leave of a free slot, 17; open; begin and end, all slots playing and fetched for");
    EACH(blocks, sizes) EACH(zones, zone_counts) {
        make_loop(&input, *blocks, *zones, 16);
        measure(call_plan_loop, false, FILMDISK_ACCEPTED, "plan, N %u, %u zones", *blocks, *zones);
        make_players(&input, FILMDISK_BETWEEN, 15);
        measure(call_leave, true, FILMDISK_REFUSED_SLOT_STATE, "leave, N %u, %u zones", *blocks, *zones);
    }
    EACH(blocks, sizes) {
        make_loop(&input, *blocks, 7, 16);
        measure(call_open, false, FILMDISK_ACCEPTED, "open, N %u, 7 zones", *blocks);
        measure_half("begin", call_begin, FILMDISK_BETWEEN, *blocks, 7, 16);
        measure_half("end", call_end, FILMDISK_SWEEPING, *blocks, 7, 16);
    }
}

/* The calls whose work depends on half blocks: planning, the check behind 14, begins with two fetches a slot, and windows. */
static void measure_pairs(void)
{
    static const uint32_t windows[] = { 2, 64 };
    head("Pairs (16 streams): planning; leave of a free slot, 17; open; begin and end, all slots playing and fetched for; windows");
    EACH(blocks, sizes) EACH(zones, zone_counts) {
        make_pairs(&input, *blocks, *zones, 16);
        measure(call_plan_pairs, false, FILMDISK_ACCEPTED, "plan, N %u, %u zones", *blocks, *zones);
        make_players(&input, FILMDISK_BETWEEN, 15);
        measure(call_leave, true, FILMDISK_REFUSED_SLOT_STATE, "leave, N %u, %u zones", *blocks, *zones);
    }
    EACH(blocks, sizes) {
        make_pairs(&input, *blocks, 7, 16);
        measure(call_open, false, FILMDISK_ACCEPTED, "open, N %u, 7 zones", *blocks);
        measure_half("begin", call_begin, FILMDISK_BETWEEN, *blocks, 7, 16);
        measure_half("end", call_end, FILMDISK_SWEEPING, *blocks, 7, 16);
        EACH(window, windows) {
            uint32_t expected = *window <= *blocks ? FILMDISK_ACCEPTED : FILMDISK_REFUSED_WINDOW;
            input.window = *window;
            measure(call_window, false, expected, "window, N %u, %u blocks", *blocks, *window);
        }
    }
    EACH(zones, zone_counts) {
        make_pairs(&input, 1000, *zones, FILMDISK_MAX_PAIR_STREAMS);
        measure_half("begin", call_begin, FILMDISK_BETWEEN, 1000, *zones, FILMDISK_MAX_PAIR_STREAMS);
        measure_half("end", call_end, FILMDISK_SWEEPING, 1000, *zones, FILMDISK_MAX_PAIR_STREAMS);
    }
}

/* A shelf's calls, or those of one film of as many blocks. */
static void measure_shelf(uint32_t films, uint32_t blocks)
{
    make_shelf(&input, FILMDISK_ONCE, films, blocks, 7, 16);
    measure(call_read, false, FILMDISK_REFUSED_TOO_SHORT, "read, %u films, %u blocks", films, blocks);
    measure(call_plan, false, FILMDISK_ACCEPTED, "plan, %u films, %u blocks", films, blocks);
    measure(call_open, false, FILMDISK_ACCEPTED, "open, %u films, %u blocks", films, blocks);
    input.window = 2;
    measure(call_window, false, FILMDISK_ACCEPTED, "window of 2, %u films, %u blocks", films, blocks);
    make_players(&input, FILMDISK_BETWEEN, 15);
    measure(call_join, true, FILMDISK_ACCEPTED, "join, %u films, %u blocks", films, blocks);
    measure(call_join_scratch, true, FILMDISK_ACCEPTED, "join by scratch, %u films, %u blocks", films, blocks);
    make_shelf(&input, FILMDISK_LOOP, films, blocks, 7, 16);
    measure(call_plan_loop, false, FILMDISK_ACCEPTED, "plan of loops, %u films, %u blocks", films, blocks);
    make_shelf(&input, FILMDISK_PAIRS, films, blocks, 7, 16);
    measure(call_plan_pairs, false, FILMDISK_ACCEPTED, "plan of pairs, %u films, %u blocks", films, blocks);
}

/* Sweeps of a full desk whose slots watch all its films. */
static void measure_shelf_sweeps(uint32_t films, uint32_t blocks, uint32_t streams)
{
    make_shelf(&input, FILMDISK_ONCE, films, blocks, 7, streams);
    make_players(&input, FILMDISK_BETWEEN, streams);
    measure(call_begin, true, FILMDISK_ACCEPTED, "begin, %u films, %u blocks, %u streams", films, blocks, streams);
    make_players(&input, FILMDISK_SWEEPING, streams);
    make_draws(&input, 1000);
    measure(call_end, true, FILMDISK_ACCEPTED, "end, %u films, %u blocks, %u streams", films, blocks, streams);
}

/* 16 films beside one of as many blocks, long ones and the shortest. */
static void measure_shelves(void)
{
    static const uint32_t shelf_blocks[] = { 32, 16384 }, film_counts[] = { 1, 16 };
    if (is_old(PLAIN_C))
        return;
    head("Shelves (7 zones, 16 streams or as they say): one film and 16 of as many blocks in all");
    EACH(blocks, shelf_blocks) EACH(films, film_counts)
        measure_shelf(*films, *blocks);
    EACH(blocks, shelf_blocks) EACH(films, film_counts) {
        measure_shelf_sweeps(*films, *blocks, 16);
        measure_shelf_sweeps(*films, *blocks, 256);
    }
}

/* Cards of kind 2: planning, the check behind 14, and sweeps. */
static void measure_measured(void)
{
    head("Kind 2 (7 zones, 16 streams): planning; leave of a free slot, 17; open; begin and end, all slots playing and fetched for");
    EACH(blocks, sizes) {
        make_measured(&input, *blocks, 7, 16);
        measure(call_plan, false, FILMDISK_ACCEPTED, "plan, N %u", *blocks);
        measure(call_open, false, FILMDISK_ACCEPTED, "open, N %u", *blocks);
        measure_half("begin", call_begin, FILMDISK_BETWEEN, *blocks, 7, 16);
        measure_half("end", call_end, FILMDISK_SWEEPING, *blocks, 7, 16);
        make_measured(&input, *blocks, 7, 16);
        make_players(&input, FILMDISK_BETWEEN, 15);
        measure(call_leave, true, FILMDISK_REFUSED_SLOT_STATE, "leave, N %u", *blocks);
    }
}

/* Windows of one showing and of a loop. */
static void measure_windows(void)
{
    static const uint32_t windows[] = { 2, 64 };
    head("Windows (7 zones, 16 streams)");
    EACH(blocks, sizes) EACH(window, windows) {
        uint32_t expected = *window <= *blocks ? FILMDISK_ACCEPTED : FILMDISK_REFUSED_WINDOW;
        input.window = *window;
        make_film(&input, *blocks, 7, 16);
        measure(call_window, false, expected, "once, N %u, %u blocks", *blocks, *window);
        make_loop(&input, *blocks, 7, 16);
        measure(call_window, false, expected, "loop, N %u, %u blocks", *blocks, *window);
    }
}

/* A film on which calls by scratch are measured against those by list, and what their ratio may be at most. */
struct scratch_film {
    uint32_t blocks, zones, streams;
    double bar;
};

/* A call in both ways on the input: the times of the library, scratch / list, and the call by scratch against plain C. Answers the ratio. */
static double measure_ways(const char *name, const struct scratch_film *film, call *c, call *by_scratch, bool in_place)
{
    repeat(name, c, by_scratch, in_place, FILMDISK_ACCEPTED);
    printf("| %s, N %u, %u zones, %u streams |", name, film->blocks, film->zones, film->streams);
    print_time(LIBRARY);
    double median = print_ratio(LIBRARY_SCRATCH, LIBRARY);
    print_twins(LIBRARY_SCRATCH);
    return median;
}

static double greater(double a, double b)
{
    return a > b ? a : b;
}

/* All calls of a film by scratch; answers the greatest ratio to the same call by list. */
static double measure_scratch_film(const struct scratch_film *film)
{
    uint32_t all = film->streams;
    make_film(&input, film->blocks, film->zones, all);
    double worst = measure_ways("plan", film, call_plan, call_plan_scratch, false);
    worst = greater(worst, measure_ways("open", film, call_open, call_open_scratch, false));
    make_players(&input, FILMDISK_BETWEEN, all);
    worst = greater(worst, measure_ways("leave", film, call_leave, call_leave_scratch, true));
    worst = greater(worst, measure_ways("begin", film, call_begin, call_begin_scratch, true));
    make_players(&input, FILMDISK_SWEEPING, all);
    make_draws(&input, 1000);
    worst = greater(worst, measure_ways("end", film, call_end, call_end_scratch, true));
    make_film(&input, film->blocks, film->zones, all);
    make_players(&input, FILMDISK_BETWEEN, all - 1);
    worst = greater(worst, measure_ways("join", film, call_join, call_join_scratch, true));
    make_loop(&input, film->blocks, film->zones, all);
    return greater(worst, measure_ways("plan_loop", film, call_plan_loop, call_plan_loop_scratch, false));
}

/* Those of the same film as pairs, of which there are fewer streams at most. */
static double measure_scratch_pairs(const struct scratch_film *film)
{
    struct scratch_film pairs = *film;
    if (pairs.streams > FILMDISK_MAX_PAIR_STREAMS)
        pairs.streams = FILMDISK_MAX_PAIR_STREAMS;
    make_pairs(&input, pairs.blocks, pairs.zones, pairs.streams);
    double worst = measure_ways("plan_pairs", &pairs, call_plan_pairs, call_plan_pairs_scratch, false);
    worst = greater(worst, measure_ways("open of pairs", &pairs, call_open, call_open_scratch, false));
    make_players(&input, FILMDISK_BETWEEN, pairs.streams);
    worst = greater(worst, measure_ways("begin of pairs", &pairs, call_begin, call_begin_scratch, true));
    make_players(&input, FILMDISK_SWEEPING, pairs.streams);
    make_draws(&input, 1000);
    return greater(worst, measure_ways("end of pairs", &pairs, call_end, call_end_scratch, true));
}

static void measure_scratch(void)
{
    static const struct scratch_film films[] = { { 16384, 7, 16, 1.0 }, { 16384, 64, 16, 1.0 }, { 6, 64, 256, 1.2 } };
    double worst[sizeof films / sizeof films[0]];
    printf("\nA scratch in the lead list's place, each call beside the same with the list; all slots playing and fetched for\n\n");
    printf("| Case | List, ns | Scratch / list | over places | Scratch, ns | %s by scratch, ns | Library / %s | over places |\n", other_name,
           other_name);
    printf("|---|---|---|---|---|---|---|---|\n");
    for (size_t i = 0; i < sizeof films / sizeof films[0]; i++) {
        worst[i] = measure_scratch_film(&films[i]);
        worst[i] = greater(worst[i], measure_scratch_pairs(&films[i]));
    }
    printf("\n");
    for (size_t i = 0; i < sizeof films / sizeof films[0]; i++)
        printf("Scratch / list, the greatest at N %u, %u zones, %u streams: %.3f, bar %.1f%s\n", films[i].blocks, films[i].zones,
               films[i].streams, worst[i], films[i].bar, worst[i] > films[i].bar ? ", above it" : "");
}

/* A begin at which so many wait on: one slot plays and holds the floor, the others are free. */
static void measure_growing_line(void)
{
    static const uint32_t growing_lines[] = { 1, 2, 4, 8, 16, 32, 64, 128, 255 };
    head("Growth with the slots that wait on (N 6, 7 zones, 256 streams), one slot playing");
    EACH(count, growing_lines) {
        make_film(&input, 6, 7, FILMDISK_MAX_STREAMS);
        make_line(*count, false, false);
        make_low(&input);
        measure(call_begin, true, FILMDISK_ACCEPTED, "begin, %u waiting", *count);
    }
}

/* How cost grows with one of N, zones and streams, the others fixed. */
static void measure_growth(void)
{
    static const uint32_t growing_sizes[] = { 512, 1024, 2048, 4096, 8192, 16384 };
    static const uint32_t growing_counts[] = { 2, 4, 8, 16, 32, 64 };
    head("Growth with N (7 zones, 16 streams), with zones (N 1000, 16 streams), with streams (N 1000, 7 zones)");
    EACH(blocks, growing_sizes) {
        make_film(&input, *blocks, 7, 16);
        measure(call_plan, false, FILMDISK_ACCEPTED, "plan, N %u", *blocks);
        measure_sweep("begin", call_begin, FILMDISK_BETWEEN, *blocks, 7, 16);
    }
    EACH(zones, growing_counts) {
        make_film(&input, 1000, *zones, 16);
        measure(call_plan, false, FILMDISK_ACCEPTED, "plan, %u zones", *zones);
        measure_sweep("begin", call_begin, FILMDISK_BETWEEN, 1000, *zones, 16);
    }
    EACH(streams, growing_counts) {
        measure_sweep("begin", call_begin, FILMDISK_BETWEEN, 1000, 7, *streams);
        measure_sweep("end", call_end, FILMDISK_SWEEPING, 1000, 7, *streams);
    }
    measure_growing_line();
}

/* What runs on the painted stack, which is given no words. */
static call *painted_call;
static int painted_twin;

static void run_painted(void)
{
    painted_call(&twins[painted_twin][0], input_of(painted_twin), &strings[painted_twin], 0);
}

/* Of the film that was made the slots from `first_free` on are free, so many before them ask, the others play. */
static void print_stack_on(const char *name, call *c, uint32_t phase, uint32_t first_free, uint32_t asked)
{
    make_players(&input, phase, first_free - asked);
    make_requests(&input, first_free - asked, asked);
    make_draws(&input, 1000);
    painted_call = c;
    renew_old_input();
    printf("| %s |", name);
    for (painted_twin = 0; painted_twin < TWINS; painted_twin++) {
        lend_desks(painted_twin);
        printf(" %zu |", stack_of(run_painted));
    }
    printf("\n");
}

static void print_stack_of(const char *name, call *c, uint32_t phase, uint32_t first_free, uint32_t asked)
{
    make_film(&input, 1000, 64, 256);
    print_stack_on(name, c, phase, first_free, asked);
}

static void print_stack_of_pairs(const char *name, call *c, uint32_t phase, uint32_t first_free)
{
    make_pairs(&input, 1000, 64, FILMDISK_MAX_PAIR_STREAMS);
    print_stack_on(name, c, phase, first_free, 0);
}

static void print_stack_of_shelf(const char *name, call *c, uint32_t phase, uint32_t first_free)
{
    make_shelf(&input, FILMDISK_ONCE, FILMDISK_MAX_FILMS, 1000, 64, 256);
    print_stack_on(name, c, phase, first_free, 0);
}

static void print_stack(const char *name, call *c, uint32_t phase, uint32_t first_free)
{
    print_stack_of(name, c, phase, first_free, 0);
}

static void print_scratch_stacks(void)
{
    print_stack("plan_scratch", call_plan_scratch, FILMDISK_BETWEEN, 0);
    print_stack("plan_loop_scratch", call_plan_loop_scratch, FILMDISK_BETWEEN, 0);
    print_stack("open_scratch", call_open_scratch, FILMDISK_BETWEEN, 0);
    print_stack("join_scratch", call_join_scratch, FILMDISK_BETWEEN, 255);
    print_stack("leave_scratch", call_leave_scratch, FILMDISK_BETWEEN, 256);
    print_stack("begin_scratch", call_begin_scratch, FILMDISK_BETWEEN, 256);
    print_stack("end_scratch", call_end_scratch, FILMDISK_SWEEPING, 256);
}

static void print_pairs_stacks(void)
{
    print_stack_of_pairs("plan_pairs", call_plan_pairs, FILMDISK_BETWEEN, 0);
    print_stack_of_pairs("plan_pairs_scratch", call_plan_pairs_scratch, FILMDISK_BETWEEN, 0);
    print_stack_of_pairs("open of pairs, 128 streams", call_open, FILMDISK_BETWEEN, 0);
    print_stack_of_pairs("begin of pairs, 128 streams", call_begin, FILMDISK_BETWEEN, FILMDISK_MAX_PAIR_STREAMS);
    print_stack_of_pairs("end of pairs, 128 streams", call_end, FILMDISK_SWEEPING, FILMDISK_MAX_PAIR_STREAMS);
    print_stack_of_pairs("window of pairs", call_window, FILMDISK_BETWEEN, 0);
}

static void print_shelf_stacks(void)
{
    print_stack_of_shelf("plan of 16 films", call_plan, FILMDISK_BETWEEN, 0);
    print_stack_of_shelf("join, 16 films", call_join, FILMDISK_BETWEEN, 255);
    print_stack_of_shelf("begin, 16 films", call_begin, FILMDISK_BETWEEN, 256);
    print_stack_of_shelf("end, 16 films", call_end, FILMDISK_SWEEPING, 256);
    print_stack_of_shelf("window, 16 films", call_window, FILMDISK_BETWEEN, 0);
}

static void print_stacks(void)
{
    printf("\nStack of an accepted call, in bytes (N 1000, 64 zones, 256 streams)\n\n");
    printf("| Call | Library | %s |\n|---|---|---|\n", other_name);
    print_stack("plan", call_plan, FILMDISK_BETWEEN, 0);
    print_stack("plan_loop", call_plan_loop, FILMDISK_BETWEEN, 0);
    print_stack("open", call_open, FILMDISK_BETWEEN, 0);
    print_stack("join", call_join, FILMDISK_BETWEEN, 255);
    print_stack("leave", call_leave, FILMDISK_BETWEEN, 256);
    print_stack("begin", call_begin, FILMDISK_BETWEEN, 256);
    print_stack("end", call_end, FILMDISK_SWEEPING, 256);
    print_stack("window", call_window, FILMDISK_BETWEEN, 0);
    print_stack_of("leave, 128 waiting", call_leave, FILMDISK_BETWEEN, 256, 128);
    print_stack_of("begin, 128 waiting", call_begin, FILMDISK_BETWEEN, 256, 128);
    print_scratch_stacks();
    print_pairs_stacks();
    if (!is_old(PLAIN_C))
        print_shelf_stacks();
}

/* An earlier library that opens no desk of a plan as it is now has the form of before 0.12.0. */
static void find_form(void)
{
    filmdisk_answer a;
    make_film(&input, 6, 7, 16);
    a = call_open(&twins[PLAIN_C][0], &input, &strings[PLAIN_C], 0);
    for (int copy = 0; copy < COPIES; copy++) {
        if (a.number == FILMDISK_ACCEPTED)
            continue;
        twins[PLAIN_C][copy].plan_len = OLD_PLAN_BYTES;
        twins[PLAIN_C][copy].desk_len = OLD_DESK_BYTES;
    }
}

int main(int argc, char **argv)
{
    if (argc > 1)
        other_name = argv[1];
    find_form();
    printf("Median nanoseconds a call, and ratios (median, quartiles) of %d repetitions, all in turn in each.\n", REPETITIONS);
    printf("Each implementation stands at three places in memory; times are of its best one.\n");
    printf("Strings are not cleared between calls; each in-place call gets a fresh desk, copied outside the time.\n");
    measure_cards();
    measure_plans();
    measure_checks();
    measure_joins();
    measure_requests();
    measure_sweeps();
    measure_loops();
    measure_pairs();
    measure_shelves();
    measure_measured();
    measure_windows();
    measure_scratch();
    measure_growth();
    print_stacks();
    printf("\n%d rows, %d above 1.1 x %s\n", rows, missed, other_name);
    return 0;
}
