#include "host.h"

#include "guarded.h"

#include <stdarg.h>
#include <stdio.h>
#include <stdlib.h>
#include <string.h>

/* The longest string is a list of 32,768 entries with some to spare. */
#define MOST_BYTES 140000
#define MOST_CARD_NUMBERS 420

const uint32_t bench_film[BENCH_NUMBERS] = {
    1, 6, 1, 22270, 1, 20550, 1, 19090, 1, 17810, 1, 16700, 1, 15720, 1, 6, 262144, 500000, 12670, 15000,
};

const uint32_t bench_pairs[BENCH_NUMBERS] = {
    1, 6, 1, 22270, 1, 20550, 1, 19090, 1, 17810, 1, 16700, 1, 15720, 1, PAIRS_BLOCKS, 262144, 500000, 12670, 15000,
};

static const char *const names[STRINGS] = {"card", "plan", "positions", "leads", "desk", "fetches", "draws", "scratch"};
static guarded strings[STRINGS];
static uint8_t before[STRINGS][MOST_BYTES];
static int is_null[STRINGS];
static unsigned calls;
static int test_failed;
static uint64_t state = 1;

/* Tests. */

void check(int met, const char *words, ...)
{
    va_list values;
    if (met)
        return;
    test_failed = 1;
    printf("  not so after call %u: ", calls);
    va_start(values, words);
    vprintf(words, values);
    va_end(values);
    printf("\n");
}

static int run_test(const test *one)
{
    test_failed = 0;
    state = 1;
    guarded_scene(one->name);
    for (int which = 0; which < STRINGS; which++)
        lend(which, NULL, 0);
    one->run();
    printf("%s: %s\n", one->name, test_failed ? "failed" : "passed");
    fflush(stdout);
    return !test_failed;
}

static int is_wanted(const test *one, int argc, char **argv)
{
    for (int i = 1; i < argc; i++)
        if (strcmp(argv[i], one->name) == 0)
            return 1;
    return argc < 2;
}

int run_tests(const test *tests, size_t count, int argc, char **argv)
{
    unsigned passed = 0, failed = 0;
    guarded_watch();
    if (argc > 1 && strcmp(argv[1], "heap") == 0) {
        guarded_use_heap();
        argc--;
        argv++;
    }
    for (int which = 0; which < STRINGS; which++)
        guarded_make(&strings[which], MOST_BYTES);
    for (size_t i = 0; i < count; i++) {
        if (!is_wanted(&tests[i], argc, argv))
            continue;
        if (run_test(&tests[i]))
            passed++;
        else
            failed++;
    }
    printf("%u passed, %u failed\n", passed, failed);
    return failed > 0 || passed == 0;
}

uint32_t below(uint32_t end)
{
    state = state * 6364136223846793005u + 1442695040888963407u;
    return (uint32_t)((state >> 33) % end);
}

/* Strings. */

void lend(enum lent which, const void *contents, size_t length)
{
    is_null[which] = 0;
    guarded_lend(&strings[which], contents, length, GUARDED_END);
}

void lend_noise(enum lent which, size_t length)
{
    for (size_t i = 0; i < length; i++)
        before[which][i] = (uint8_t)below(256);
    lend(which, before[which], length);
}

void lend_null(enum lent which)
{
    lend(which, NULL, 0);
    is_null[which] = 1;
}

/* The same bytes, cut off or with noise after them. */
void resize(enum lent which, size_t length)
{
    size_t old = length_of(which);
    memcpy(before[which], bytes_of(which), old);
    for (size_t i = old; i < length; i++)
        before[which][i] = (uint8_t)below(256);
    lend(which, before[which], length);
}

size_t length_of(enum lent which)
{
    return strings[which].length;
}

uint8_t *bytes_of(enum lent which)
{
    return strings[which].bytes;
}

uint8_t *lent_bytes(enum lent which)
{
    return is_null[which] ? NULL : strings[which].bytes;
}

uint32_t word(enum lent which, size_t index)
{
    return filmdisk_word(strings[which].bytes, index);
}

void put(enum lent which, size_t index, uint32_t value)
{
    filmdisk_put_word(strings[which].bytes, index, value);
}

uint32_t kind(uint32_t slot)
{
    return filmdisk_slot_kind(bytes_of(DESK), slot);
}

uint32_t film(uint32_t slot)
{
    return filmdisk_slot_film(bytes_of(DESK), slot);
}

uint32_t next(uint32_t slot)
{
    return filmdisk_slot_next(bytes_of(DESK), slot);
}

uint32_t held(uint32_t slot)
{
    return filmdisk_slot_held(bytes_of(DESK), slot);
}

uint32_t place(uint32_t slot)
{
    return filmdisk_slot_place(bytes_of(DESK), slot);
}

uint64_t draw_limit(uint32_t slot, uint32_t bound)
{
    return filmdisk_draw_limit(LENT(DESK), slot, bound);
}

filmdisk_fetch fetch(size_t entry)
{
    return filmdisk_fetch_at(bytes_of(FETCHES), entry);
}

filmdisk_pair worst_pair(enum lent which)
{
    return filmdisk_worst_pair(bytes_of(which));
}

/* A number's shortest form; answers its length. */
static size_t write_number(uint8_t *bytes, uint32_t value)
{
    size_t length = 0;
    while (value >= 128) {
        bytes[length++] = (uint8_t)(value | 128);
        value >>= 7;
    }
    bytes[length++] = (uint8_t)value;
    return length;
}

/* The numbers one after another; answers their length. */
static size_t write_numbers(uint8_t *bytes, const uint32_t *numbers, size_t count)
{
    size_t length = 0;
    for (size_t i = 0; i < count; i++)
        length += write_number(bytes + length, numbers[i]);
    return length;
}

size_t offset_of(const uint32_t *numbers, size_t index)
{
    uint8_t before_it[5 * MOST_CARD_NUMBERS];
    return write_numbers(before_it, numbers, index);
}

void lend_card(const uint32_t *numbers, size_t count)
{
    uint8_t card[5 * MOST_CARD_NUMBERS];
    lend(CARD, card, write_numbers(card, numbers, count));
}

/* What a call leaves. */

/* Are the bytes of the string from `from` on what they were before the call? */
static int kept(enum lent which, size_t from)
{
    size_t length = length_of(which);
    return from >= length || memcmp(bytes_of(which) + from, before[which] + from, length - from) == 0;
}

static int all_zero(enum lent which)
{
    for (size_t i = 0; i < length_of(which); i++)
        if (bytes_of(which)[i] != 0)
            return 0;
    return 1;
}

/* The call may have written only the first `written` bytes of this string. */
static void check_kept(enum lent which, size_t written)
{
    check(kept(which, written), "%s is kept from byte %zu on", names[which], written);
}

/* All strings but those of the set are kept. */
static void check_others_kept(unsigned but)
{
    for (int which = 0; which < STRINGS; which++)
        if ((but >> which & 1) == 0)
            check_kept(which, 0);
}

/* A string that a refusal clears if it has its right length. */
static void check_cleared(enum lent which, size_t right_length)
{
    if (length_of(which) == right_length)
        check(all_zero(which), "%s is all zero", names[which]);
    else
        check_kept(which, 0);
    check_others_kept(1u << which);
}

/*
 * Strings that the call may write are in the set; the others may not even be written with what they hold, and the scratch may not be
 * touched at all.
 */
static void before_call(unsigned written)
{
    /* Which edge is guarded goes on without a pattern that calls could fall in with. */
    int edge = (int)(++calls * 2654435761u >> 31);
    for (int which = 0; which < STRINGS; which++) {
        size_t length = length_of(which);
        if (length > 0)
            memcpy(before[which], bytes_of(which), length);
        guarded_lend(&strings[which], before[which], length, edge);
        if ((written >> which & 1) == 0)
            guarded_seal(&strings[which], which == SCRATCH ? GUARDED_CLOSED : GUARDED_READ);
    }
}

static void after_call(void)
{
    for (int which = 0; which < STRINGS; which++) {
        guarded_seal(&strings[which], GUARDED_OPEN);
        check(guarded_beside_kept(&strings[which]), "bytes beside %s are kept", names[which]);
    }
}

/* The calls. */

/* A plan call writes the plan and both lists; with a scratch the plan and the positions. */
#define PLANNED_SCRATCH (1u << PLAN | 1u << POSITIONS)
#define PLANNED (PLANNED_SCRATCH | 1u << LEADS)

/* The bytes of an entry for each block, by the plan. */
static size_t list_bytes(void)
{
    return (size_t)filmdisk_blocks(bytes_of(PLAN)) * FILMDISK_ENTRY_BYTES;
}

static filmdisk_answer plan_answer(filmdisk_answer answer, unsigned written)
{
    after_call();
    if (answer.number == 0) {
        check_kept(POSITIONS, filmdisk_visits(bytes_of(PLAN)) * list_bytes());
        check_kept(LEADS, list_bytes());
        check_others_kept(written);
    } else if (answer.number == FILMDISK_REFUSED_TOO_SHORT) {
        check_others_kept(0);
    } else {
        check_cleared(PLAN, FILMDISK_PLAN_BYTES);
    }
    return answer;
}

filmdisk_answer host_plan(void)
{
    before_call(PLANNED);
    return plan_answer(filmdisk_plan(LENT(CARD), LENT(PLAN), LENT(POSITIONS), LENT(LEADS)), PLANNED);
}

filmdisk_answer host_plan_scratch(void)
{
    before_call(PLANNED_SCRATCH);
    return plan_answer(filmdisk_plan_scratch(LENT(CARD), LENT(PLAN), LENT(POSITIONS), LENT(SCRATCH)), PLANNED_SCRATCH);
}

filmdisk_answer host_plan_loop(void)
{
    before_call(PLANNED);
    return plan_answer(filmdisk_plan_loop(LENT(CARD), LENT(PLAN), LENT(POSITIONS), LENT(LEADS)), PLANNED);
}

filmdisk_answer host_plan_loop_scratch(void)
{
    before_call(PLANNED_SCRATCH);
    return plan_answer(filmdisk_plan_loop_scratch(LENT(CARD), LENT(PLAN), LENT(POSITIONS), LENT(SCRATCH)), PLANNED_SCRATCH);
}

filmdisk_answer host_plan_pairs(void)
{
    before_call(PLANNED);
    return plan_answer(filmdisk_plan_pairs(LENT(CARD), LENT(PLAN), LENT(POSITIONS), LENT(LEADS)), PLANNED);
}

filmdisk_answer host_plan_pairs_scratch(void)
{
    before_call(PLANNED_SCRATCH);
    return plan_answer(filmdisk_plan_pairs_scratch(LENT(CARD), LENT(PLAN), LENT(POSITIONS), LENT(SCRATCH)), PLANNED_SCRATCH);
}

static filmdisk_answer open_answer(filmdisk_answer answer)
{
    after_call();
    if (answer.number == 0)
        check_others_kept(1u << DESK);
    else if (answer.number == FILMDISK_REFUSED_TOO_SHORT)
        check_others_kept(0);
    else
        check_cleared(DESK, FILMDISK_DESK_BYTES);
    return answer;
}

filmdisk_answer host_open(void)
{
    before_call(1u << DESK);
    return open_answer(filmdisk_open(LENT(PLAN), LENT(POSITIONS), LENT(LEADS), LENT(DESK)));
}

filmdisk_answer host_open_scratch(void)
{
    before_call(1u << DESK);
    return open_answer(filmdisk_open_scratch(LENT(PLAN), LENT(POSITIONS), LENT(SCRATCH), LENT(DESK)));
}

/* Join, leave and end write the desk alone, and only if accepted. */
static filmdisk_answer desk_answer(filmdisk_answer answer)
{
    after_call();
    check_others_kept(answer.number == 0 ? 1u << DESK : 0);
    check(answer.count == 0 && answer.bound == 0, "count and bound are 0, not %u and %u", answer.count, answer.bound);
    return answer;
}

filmdisk_answer host_join_film(uint32_t slot, uint32_t block, uint32_t film)
{
    before_call(1u << DESK);
    return desk_answer(filmdisk_join(LENT(DESK), LENT(POSITIONS), LENT(LEADS), slot, block, film));
}

filmdisk_answer host_join(uint32_t slot, uint32_t block)
{
    return host_join_film(slot, block, 0);
}

filmdisk_answer host_join_film_scratch(uint32_t slot, uint32_t block, uint32_t film)
{
    before_call(1u << DESK);
    return desk_answer(filmdisk_join_scratch(LENT(DESK), LENT(POSITIONS), LENT(SCRATCH), slot, block, film));
}

filmdisk_answer host_join_scratch(uint32_t slot, uint32_t block)
{
    return host_join_film_scratch(slot, block, 0);
}

filmdisk_answer host_leave(uint32_t slot)
{
    before_call(1u << DESK);
    return desk_answer(filmdisk_leave(LENT(DESK), LENT(POSITIONS), LENT(LEADS), slot));
}

filmdisk_answer host_leave_scratch(uint32_t slot)
{
    before_call(1u << DESK);
    return desk_answer(filmdisk_leave_scratch(LENT(DESK), LENT(POSITIONS), LENT(SCRATCH), slot));
}

filmdisk_answer host_end(void)
{
    before_call(1u << DESK);
    return desk_answer(filmdisk_end(LENT(DESK), LENT(POSITIONS), LENT(LEADS), LENT(DRAWS)));
}

filmdisk_answer host_end_scratch(void)
{
    before_call(1u << DESK);
    return desk_answer(filmdisk_end_scratch(LENT(DESK), LENT(POSITIONS), LENT(SCRATCH), LENT(DRAWS)));
}

static filmdisk_answer begin_answer(filmdisk_answer answer)
{
    after_call();
    if (answer.number == 0) {
        check_kept(FETCHES, (size_t)answer.count * FILMDISK_FETCH_BYTES);
        check_others_kept(1u << DESK | 1u << FETCHES);
    } else {
        check_others_kept(0);
    }
    return answer;
}

filmdisk_answer host_begin(void)
{
    before_call(1u << DESK | 1u << FETCHES);
    return begin_answer(filmdisk_begin(LENT(DESK), LENT(POSITIONS), LENT(LEADS), LENT(FETCHES)));
}

filmdisk_answer host_begin_scratch(void)
{
    before_call(1u << DESK | 1u << FETCHES);
    return begin_answer(filmdisk_begin_scratch(LENT(DESK), LENT(POSITIONS), LENT(SCRATCH), LENT(FETCHES)));
}

/* A window writes nothing. */
filmdisk_window_answer host_window(uint32_t blocks)
{
    before_call(0);
    filmdisk_window_answer answer = filmdisk_window(LENT(PLAN), LENT(POSITIONS), blocks);
    after_call();
    check_others_kept(0);
    return answer;
}

void expect(filmdisk_answer answer, uint32_t number, size_t place)
{
    check(answer.number == number && answer.place == place, "expected %u (%s) at %zu, got %u (%s) at %zu", number,
          filmdisk_meaning(number), place, answer.number, filmdisk_meaning(answer.number), answer.place);
    if (number != 0)
        check(answer.count == 0 && answer.bound == 0, "a refused answer has count %u, bound %u", answer.count, answer.bound);
}

/* All parts of a window's answer. */
static void expect_parts(filmdisk_window_answer got, uint32_t number, uint32_t time, uint32_t first, uint32_t bytes)
{
    check(got.number == number && got.place == 0 && got.time == time && got.first == first && got.bytes == bytes,
          "expected %u (%s) at 0, time %u, first %u, bytes %u; got %u (%s) at %zu, %u, %u, %u", number, filmdisk_meaning(number), time,
          first, bytes, got.number, filmdisk_meaning(got.number), got.place, got.time, got.first, got.bytes);
}

void expect_window(filmdisk_window_answer answer, uint32_t time, uint32_t first, uint32_t bytes)
{
    expect_parts(answer, 0, time, first, bytes);
}

void expect_no_window(filmdisk_window_answer answer, uint32_t number)
{
    expect_parts(answer, number, 0, 0, 0);
}

void expect_slot_film(uint32_t slot, uint32_t its_kind, uint32_t its_film, uint32_t its_next, uint32_t its_held)
{
    check(kind(slot) == its_kind && film(slot) == its_film && next(slot) == its_next && held(slot) == its_held,
          "slot %u: expected kind %u, film %u, next %u, held %u; got %u, %u, %u, %u", slot, its_kind, its_film, its_next, its_held,
          kind(slot), film(slot), next(slot), held(slot));
    check((place(slot) != 0) == (its_kind == FILMDISK_ASKED), "slot %u: kind %u, place %u", slot, its_kind, place(slot));
}

void expect_slot(uint32_t slot, uint32_t its_kind, uint32_t its_next, uint32_t its_held)
{
    expect_slot_film(slot, its_kind, 0, its_next, its_held);
}

void put_slot(uint32_t slot, uint32_t its_kind, uint32_t its_next, uint32_t its_held)
{
    put_slot_film(slot, its_kind, 0, its_next, its_held);
}

void put_slot_film(uint32_t slot, uint32_t its_kind, uint32_t its_film, uint32_t its_next, uint32_t its_held)
{
    put(DESK, FILMDISK_DESK_KINDS + slot, its_kind);
    put(DESK, FILMDISK_DESK_NEXT + slot, (its_film << FILMDISK_FILM_SHIFT) + its_next);
    put(DESK, FILMDISK_DESK_HELD + slot, its_held);
    put(DESK, FILMDISK_DESK_PLACES + slot, its_kind == FILMDISK_ASKED ? filmdisk_waiting(bytes_of(DESK)) : 0);
}

void expect_places(const uint32_t *slots, const uint32_t *places, size_t count)
{
    uint32_t with_place = 0;
    for (size_t i = 0; i < count; i++)
        check(place(slots[i]) == places[i], "slot %u: expected place %u, got %u", slots[i], places[i], place(slots[i]));
    for (uint32_t slot = 0; slot < FILMDISK_MAX_STREAMS; slot++)
        with_place += place(slot) != 0;
    for (size_t i = 0; i < count; i++)
        with_place -= places[i] != 0;
    check(with_place == 0, "%u other slots have a place", with_place);
}

void expect_begun(filmdisk_answer answer, uint32_t count, uint32_t bound)
{
    expect(answer, 0, 0);
    check(answer.count == count && answer.bound == bound, "expected count %u, bound %u; got %u, %u", count, bound, answer.count,
          answer.bound);
    check(word(DESK, FILMDISK_DESK_PHASE) == FILMDISK_SWEEPING, "the desk is in a sweep");
}

void expect_fetch(size_t entry, uint32_t position, uint32_t slot, uint32_t block)
{
    const filmdisk_fetch got = fetch(entry);
    check(got.position == position && got.slot == slot && got.block == block, "fetch %zu: expected %u, %u, %u; got %u, %u, %u", entry,
          position, slot, block, got.position, got.slot, got.block);
}

void expect_words(enum lent which, size_t first, const uint32_t *words, size_t count)
{
    for (size_t i = 0; i < count; i++)
        check(word(which, first + i) == words[i], "%s, word %zu: expected %u, got %u", names[which], first + i, words[i],
              word(which, first + i));
}

/* The card, and noise in what a plan call writes; the lists are cut to their entries. */
static void plan_card(planner *plan, const uint32_t *numbers, size_t count)
{
    lend_card(numbers, count);
    lend_noise(PLAN, FILMDISK_PLAN_BYTES);
    lend_noise(POSITIONS, FILMDISK_PAIR_VISITS * FILMDISK_MAX_BLOCKS * FILMDISK_ENTRY_BYTES);
    expect(plan(), 0, 0);
    resize(POSITIONS, filmdisk_visits(bytes_of(PLAN)) * list_bytes());
    if (length_of(LEADS) > list_bytes())
        resize(LEADS, list_bytes());
}

/* What either opening and the sweeps write and read. */
static void lend_sweep(void)
{
    size_t streams = word(PLAN, FILMDISK_PLAN_STREAMS);
    lend_noise(DESK, FILMDISK_DESK_BYTES);
    lend_noise(FETCHES, filmdisk_visits(bytes_of(PLAN)) * streams * FILMDISK_FETCH_BYTES);
    lend_noise(DRAWS, streams * FILMDISK_ENTRY_BYTES);
    memset(bytes_of(DRAWS), 0, length_of(DRAWS));
}

void open_desk(planner *plan, const uint32_t *numbers, size_t count)
{
    lend_noise(LEADS, FILMDISK_MAX_BLOCKS * FILMDISK_ENTRY_BYTES);
    plan_card(plan, numbers, count);
    lend_sweep();
    expect(host_open(), 0, 0);
}

void open_desk_scratch(planner *plan_scratch, const uint32_t *numbers, size_t count)
{
    lend_null(LEADS);
    lend_noise(SCRATCH, FILMDISK_SCRATCH_BYTES);
    plan_card(plan_scratch, numbers, count);
    lend_sweep();
    expect(host_open_scratch(), 0, 0);
}

void open_film(planner *plan, const uint32_t *times, uint32_t blocks)
{
    uint32_t numbers[MOST_CARD_NUMBERS] = {1, blocks};
    size_t count = 2;
    for (uint32_t zone = 0; zone < blocks; zone++) {
        numbers[count++] = 1;
        numbers[count++] = times[zone];
    }
    numbers[count++] = 1;
    numbers[count++] = blocks;
    for (size_t i = BENCH_BLOCK_BYTES; i < BENCH_NUMBERS; i++)
        numbers[count++] = bench_film[i];
    open_desk(plan, numbers, count);
}
