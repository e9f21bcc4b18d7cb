/*
 * Fuzz target: the bytes of an input are read as a card and then as calls on its desk, with damage to strings between them. The films are
 * shown once, are loops, or have each block as two halves; a few bytes may stand for the table of a card of kind 2. Each call is made of
 * the library and of its plain C twin (bench/plain.c); answers and strings must be the same. Each is made twice, with the lead list and
 * with a scratch of random bytes in its place, and what comes of the two must be the same where the list is the plan's own; the desk goes
 * on as either left it. The twin is built with coverage, which leads the fuzzer; the library's strings touch pages that may not be touched.
 */
#include "guarded.h"
#include "plain.h"

#include <stdio.h>
#include <stdlib.h>
#include <string.h>

#define MOST_BYTES (FILMDISK_PAIR_VISITS * FILMDISK_MAX_BLOCKS * FILMDISK_ENTRY_BYTES + 64)
#define COUNT(array) (sizeof(array) / sizeof *(array))
#define MOST_OVERHEAD 257000000u

int LLVMFuzzerTestOneInput(const uint8_t *data, size_t size);

enum lent { CARD, PLAN, POSITIONS, LEADS, DESK, FETCHES, DRAWS, SCRATCH, STRINGS };
enum way { BY_LIST, BY_SCRATCH, WAYS };
enum sort { CALL_PLAN, CALL_PLAN_LOOP, CALL_PLAN_PAIRS, CALL_OPEN, CALL_JOIN, CALL_LEAVE, CALL_BEGIN, CALL_END };

struct call {
    enum sort sort;
    uint32_t slot;
    uint32_t block;
    uint32_t film;
};

/* The calls that are lent leads, or a scratch in their place. */
struct calls {
    __typeof__(filmdisk_plan) *plan;
    __typeof__(filmdisk_plan_loop) *plan_loop;
    __typeof__(filmdisk_plan_pairs) *plan_pairs;
    __typeof__(filmdisk_open) *open;
    __typeof__(filmdisk_join) *join;
    __typeof__(filmdisk_leave) *leave;
    __typeof__(filmdisk_begin) *begin;
    __typeof__(filmdisk_end) *end;
};

/* What the library and its twin have alike. */
struct interface {
    struct calls by[WAYS];
    __typeof__(filmdisk_window) *window;
    __typeof__(filmdisk_draw_limit) *draw_limit;
};

#define CALLS(prefix, suffix) \
    {prefix##_plan##suffix, prefix##_plan_loop##suffix, prefix##_plan_pairs##suffix, prefix##_open##suffix, \
     prefix##_join##suffix, prefix##_leave##suffix,     prefix##_begin##suffix,      prefix##_end##suffix}
#define INTERFACE(prefix) {{CALLS(prefix, ), CALLS(prefix, _scratch)}, prefix##_window, prefix##_draw_limit}

static const struct interface library = INTERFACE(filmdisk);
static const struct interface twin = INTERFACE(plain);

static uint8_t contents[STRINGS][MOST_BYTES];
static uint8_t left[WAYS][STRINGS][MOST_BYTES]; /* the contents as the twin's call leaves them */
static size_t lengths[STRINGS];
static guarded lent[STRINGS];
static uint8_t own_leads[MOST_BYTES]; /* as the planner wrote them */
static size_t own_leads_len;
static uint32_t habit; /* how the desk goes on: as the list call left it, as the scratch call did, or in turn */
static uint32_t calls_made;
static uint32_t last_bound;
static int has_table; /* the card ends with a table that a few bytes stand for */

/* The input. Past its end all bytes are 0. */
static const uint8_t *input;
static size_t input_left;

static uint32_t take(void)
{
    if (input_left == 0)
        return 0;
    input_left--;
    return *input++;
}

/* A byte, or now and then a number of 32 bits. */
static uint32_t take_number(void)
{
    uint32_t value = take();
    return value < 250 ? value : value * 0x01010101u + take();
}

/* Calls. */

static filmdisk_answer make(const struct interface *interface, enum way way, const struct call *call, uint8_t *const *s)
{
    const struct calls *of = &interface->by[way];
    const enum lent by = way == BY_LIST ? LEADS : SCRATCH;
    const size_t *n = lengths;
    switch (call->sort) {
    case CALL_PLAN:
        return of->plan(s[CARD], n[CARD], s[PLAN], n[PLAN], s[POSITIONS], n[POSITIONS], s[by], n[by]);
    case CALL_PLAN_LOOP:
        return of->plan_loop(s[CARD], n[CARD], s[PLAN], n[PLAN], s[POSITIONS], n[POSITIONS], s[by], n[by]);
    case CALL_PLAN_PAIRS:
        return of->plan_pairs(s[CARD], n[CARD], s[PLAN], n[PLAN], s[POSITIONS], n[POSITIONS], s[by], n[by]);
    case CALL_OPEN:
        return of->open(s[PLAN], n[PLAN], s[POSITIONS], n[POSITIONS], s[by], n[by], s[DESK], n[DESK]);
    case CALL_JOIN:
        return of->join(s[DESK], n[DESK], s[POSITIONS], n[POSITIONS], s[by], n[by], call->slot, call->block, call->film);
    case CALL_LEAVE:
        return of->leave(s[DESK], n[DESK], s[POSITIONS], n[POSITIONS], s[by], n[by], call->slot);
    case CALL_BEGIN:
        return of->begin(s[DESK], n[DESK], s[POSITIONS], n[POSITIONS], s[by], n[by], s[FETCHES], n[FETCHES]);
    default:
        return of->end(s[DESK], n[DESK], s[POSITIONS], n[POSITIONS], s[by], n[by], s[DRAWS], n[DRAWS]);
    }
}

static void differ(const struct call *call, enum way way, const char *words, size_t which)
{
    fprintf(stderr, "call of sort %d by %s (slot %u, block %u, film %u): %s, string %zu\n", (int)call->sort,
            way == BY_LIST ? "list" : "scratch", call->slot, call->block, call->film, words, which);
    abort();
}

/* Lends all strings to the library. */
static void lend_all(uint8_t **strings, int edge)
{
    for (size_t i = 0; i < STRINGS; i++)
        strings[i] = guarded_lend(&lent[i], contents[i], lengths[i], edge);
}

/* Not a byte of the scratch may be touched. */
static filmdisk_answer call_library(enum way way, const struct call *call, int edge)
{
    uint8_t *strings[STRINGS];
    lend_all(strings, edge);
    guarded_seal(&lent[SCRATCH], GUARDED_CLOSED);
    filmdisk_answer answer = make(&library, way, call, strings);
    guarded_seal(&lent[SCRATCH], GUARDED_OPEN);
    for (size_t i = 0; i < STRINGS; i++)
        if (!guarded_beside_kept(&lent[i]))
            differ(call, way, "a byte beside the string was written", i);
    return answer;
}

/* The twin writes a copy of the contents. */
static filmdisk_answer call_twin(enum way way, const struct call *call)
{
    uint8_t *strings[STRINGS];
    for (size_t i = 0; i < STRINGS; i++) {
        memcpy(left[way][i], contents[i], lengths[i]);
        strings[i] = left[way][i];
    }
    return make(&twin, way, call, strings);
}

static int same_answer(filmdisk_answer one, filmdisk_answer other)
{
    if (one.number == other.number && one.place == other.place && one.count == other.count && one.bound == other.bound)
        return 1;
    fprintf(stderr, "%u at %zu, %u, %u; %u at %zu, %u, %u\n", one.number, one.place, one.count, one.bound, other.number, other.place,
            other.count, other.bound);
    return 0;
}

/* The call of the library and of its twin. */
static filmdisk_answer call_by(enum way way, const struct call *call)
{
    filmdisk_answer got = call_library(way, call, (int)(call->slot + call->sort + input_left) & 1);
    filmdisk_answer wanted = call_twin(way, call);
    if (!same_answer(got, wanted))
        differ(call, way, "other answers of library and twin", STRINGS);
    for (size_t i = 0; i < STRINGS; i++)
        if (lengths[i] > 0 && memcmp(lent[i].bytes, left[way][i], lengths[i]) != 0)
            differ(call, way, "other contents", i);
    return got;
}

/*
 * Is the lead list the full one? For a planner it has room for all blocks: those of the plan, or where none was made no more than the
 * positions have room for, were each block to take one. A desk's is what the planner wrote.
 */
static int is_full_list(const struct call *call, filmdisk_answer by_scratch)
{
    if (call->sort <= CALL_PLAN_PAIRS) {
        size_t blocks = by_scratch.number == 0 ? filmdisk_blocks(left[BY_SCRATCH][PLAN]) : lengths[POSITIONS] / FILMDISK_ENTRY_BYTES;
        return lengths[LEADS] / FILMDISK_ENTRY_BYTES >= blocks;
    }
    return own_leads_len > 0 && lengths[LEADS] >= own_leads_len && memcmp(contents[LEADS], own_leads, own_leads_len) == 0;
}

/* By a scratch that is not short the answer and all strings are those by the full list. */
static void compare_ways(const struct call *call, const filmdisk_answer answers[WAYS])
{
    if (lengths[SCRATCH] < FILMDISK_SCRATCH_BYTES || !is_full_list(call, answers[BY_SCRATCH]))
        return;
    if (!same_answer(answers[BY_SCRATCH], answers[BY_LIST]))
        differ(call, BY_SCRATCH, "other answers by list", STRINGS);
    for (size_t i = 0; i < STRINGS; i++)
        if (i != LEADS && memcmp(left[BY_SCRATCH][i], left[BY_LIST][i], lengths[i]) != 0)
            differ(call, BY_SCRATCH, "other contents by list", i);
}

/* The call twice; answers what came of the way by which the desk goes on. Leads are always the list call's. */
static filmdisk_answer make_both(struct call call)
{
    const enum way goes_on = habit < WAYS ? habit : calls_made++ % WAYS;
    filmdisk_answer answers[WAYS];
    for (int way = BY_LIST; way < WAYS; way++)
        answers[way] = call_by(way, &call);
    compare_ways(&call, answers);
    for (size_t i = 0; i < STRINGS; i++)
        memcpy(contents[i], left[i == LEADS ? BY_LIST : goes_on][i], lengths[i]);
    return answers[goes_on];
}

/* A call without block and film. */
static filmdisk_answer call_both(enum sort sort, uint32_t slot)
{
    return make_both((struct call){sort, slot, 0, 0});
}

/* The window of the plan and its positions, or of the plan that the desk begins with. Neither writes a byte. */
static void window_both(enum lent plan, uint32_t blocks)
{
    const size_t length = plan == DESK && lengths[DESK] > FILMDISK_PLAN_BYTES ? FILMDISK_PLAN_BYTES : lengths[plan];
    uint8_t *s[STRINGS];
    lend_all(s, (int)(blocks + input_left) & 1);
    guarded_seal(&lent[plan], 1);
    guarded_seal(&lent[POSITIONS], 1);
    filmdisk_window_answer got = library.window(s[plan], length, s[POSITIONS], lengths[POSITIONS], blocks);
    guarded_seal(&lent[plan], 0);
    guarded_seal(&lent[POSITIONS], 0);
    filmdisk_window_answer wanted = twin.window(contents[plan], length, contents[POSITIONS], lengths[POSITIONS], blocks);
    if (got.number == wanted.number && got.place == wanted.place && got.time == wanted.time && got.first == wanted.first &&
        got.bytes == wanted.bytes)
        return;
    fprintf(stderr, "window of %u blocks: library %u at %zu, %u, %u, %u; twin %u at %zu, %u, %u, %u\n", blocks, got.number, got.place,
            got.time, got.first, got.bytes, wanted.number, wanted.place, wanted.time, wanted.first, wanted.bytes);
    abort();
}

/* What a slot of the desk may draw. Neither writes a byte. */
static void limit_both(uint32_t slot, uint32_t bound)
{
    uint8_t *s[STRINGS];
    lend_all(s, (int)(slot + input_left) & 1);
    guarded_seal(&lent[DESK], 1);
    uint64_t got = library.draw_limit(s[DESK], lengths[DESK], slot, bound);
    guarded_seal(&lent[DESK], 0);
    uint64_t wanted = twin.draw_limit(contents[DESK], lengths[DESK], slot, bound);
    if (got == wanted)
        return;
    fprintf(stderr, "draw limit of slot %u, bound %u: library %llu; twin %llu\n", slot, bound, (unsigned long long)got,
            (unsigned long long)wanted);
    abort();
}

/* Inputs as calls. */

/* A string of bytes without meaning. */
static void set_noise(enum lent which, size_t length)
{
    lengths[which] = length;
    for (size_t i = 0; i < length; i++)
        contents[which][i] = (uint8_t)(i * 31 + 7);
}

/* A scratch of random bytes, with 512 words or more. */
static void set_scratch(uint32_t choice)
{
    static const size_t spare[] = {0, 0, 0, 0, 1, 3, 4, 5000};
    uint64_t state = input_left;
    lengths[SCRATCH] = FILMDISK_SCRATCH_BYTES + spare[choice % COUNT(spare)];
    for (size_t i = 0; i < lengths[SCRATCH]; i++) {
        state = state * 6364136223846793005u + 1442695040888963407u;
        contents[SCRATCH][i] = (uint8_t)(state >> 56);
    }
}

static void take_card(void)
{
    lengths[CARD] = take();
    if (lengths[CARD] == 255)
        lengths[CARD] += take();
    if (lengths[CARD] > input_left)
        lengths[CARD] = input_left;
    for (size_t i = 0; i < lengths[CARD]; i++)
        contents[CARD][i] = (uint8_t)take();
}

static void put_number(uint32_t value)
{
    for (; value >= 128; value >>= 7)
        contents[CARD][lengths[CARD]++] = (uint8_t)(value | 128);
    contents[CARD][lengths[CARD]++] = (uint8_t)value;
}

/* The card goes on with a table: straight, with another step from some count on, and at times an entry out of line. */
static void take_table(void)
{
    uint32_t overhead = take_number() * 64, step = take_number() * 64, after = take_number() * 4096, knee = take(), odd = take();
    const uint32_t others[] = {0, 1, MOST_OVERHEAD, MOST_OVERHEAD + 1, overhead - 1, take_number()};
    for (uint32_t n = 0; n < FILMDISK_OVERHEADS; n++, overhead += n < knee ? step : after)
        put_number(n == odd && odd % 4 == 0 ? others[odd / 4 % COUNT(others)] : overhead);
}

/* Which planner call the bytes ask for. */
static enum sort planner_of(uint32_t plan)
{
    if (plan / 64 == 2)
        return CALL_PLAN_PAIRS;
    return plan / 8 % 2 == 0 ? CALL_PLAN : CALL_PLAN_LOOP;
}

/* The lengths for a plan: mostly enough for short films, at times for any or none. Answers the planner call. */
static enum sort take_planner(void)
{
    static const size_t entries[] = {64, 64, 64, FILMDISK_MAX_BLOCKS, 6, 5, 1, 0};
    uint32_t choice = take(), plan = take(), desk = take();
    const enum sort planner = planner_of(plan);
    const size_t visits = planner == CALL_PLAN_PAIRS ? FILMDISK_PAIR_VISITS : 1;
    set_noise(POSITIONS, visits * entries[choice % 8] * FILMDISK_ENTRY_BYTES + choice / 64);
    set_noise(LEADS, entries[choice / 8 % 8] * FILMDISK_ENTRY_BYTES + choice / 64);
    set_noise(PLAN, FILMDISK_PLAN_BYTES - (plan % 8 == 1));
    set_noise(DESK, FILMDISK_DESK_BYTES - (desk % 8 == 1));
    set_scratch(desk / 32);
    habit = desk / 8 % 4;
    has_table = plan / 16 % 4 == 1;
    return planner;
}

static uint32_t word(enum lent which, size_t index)
{
    return filmdisk_word(contents[which], index);
}

/* A film of a record; of one that has none, or at times, any number. */
static uint32_t take_film(enum lent which)
{
    uint32_t choice = take(), films = word(which, FILMDISK_PLAN_FILMS);
    if (choice < 220 && films > 0)
        return choice % films;
    return choice < 240 ? choice % 20 : take_number();
}

/* The word of a film and a block of it. */
static uint32_t name_of(uint32_t film, uint32_t block)
{
    return (film << FILMDISK_FILM_SHIFT) + block;
}

/* The draw of a slot: nothing, its limit, what it holds, and one beside these. */
static uint32_t choose_draw(uint32_t slot, uint32_t choice)
{
    uint64_t limit = plain_draw_limit(contents[DESK], FILMDISK_DESK_BYTES, slot, last_bound);
    uint32_t kind = filmdisk_slot_kind(contents[DESK], slot), held = filmdisk_slot_held(contents[DESK], slot);
    if (kind != FILMDISK_PLAYING && kind != FILMDISK_TAIL)
        return choice % 16 == 15;
    uint32_t most = held < limit ? held : (uint32_t)limit;
    const uint32_t draws[] = {most, most, most, 0, most / 2, (uint32_t)limit, (uint32_t)limit + 1, held + 1};
    return draws[choice % COUNT(draws)];
}

static void begin_sweep(void)
{
    filmdisk_answer answer = call_both(CALL_BEGIN, 0);
    last_bound = answer.number == 0 ? answer.bound : last_bound;
}

/* One choice for all slots but one. */
static void end_sweep(uint32_t all, uint32_t one, uint32_t slot)
{
    limit_both(slot, last_bound);
    for (uint32_t i = 0; i < FILMDISK_MAX_STREAMS; i++)
        filmdisk_put_word(contents[DRAWS], i, choose_draw(i, i == slot ? one : all));
    call_both(CALL_END, 0);
}

/* Sweeps in a row, all slots drawing alike: short films end or go round. */
static void run_sweeps(void)
{
    uint32_t all = take() % 5;
    for (uint32_t sweeps = take() % 32; sweeps > 0; sweeps--) {
        begin_sweep();
        end_sweep(all, all, 0);
    }
}

/* Takes some bytes off a string's end or adds some. */
static void resize(enum lent which, size_t choice)
{
    static const size_t steps[] = {1, 4, 12, 3};
    size_t step = steps[choice % 4];
    if (choice / 4 % 2 == 0 && lengths[which] >= step) {
        lengths[which] -= step;
    } else if (lengths[which] + step <= MOST_BYTES) {
        memset(contents[which] + lengths[which], 0, step);
        lengths[which] += step;
    }
}

/* Damages one byte of what is lent, or gives it another length. */
static void damage(void)
{
    uint32_t choice = take();
    enum lent which = choice < 240 ? choice % SCRATCH : SCRATCH;
    size_t at = take() * 24 + take();
    uint8_t change = (uint8_t)take();
    if (change % 4 == 0)
        resize(which, at);
    else if (lengths[which] > 0)
        contents[which][at % lengths[which]] ^= change;
}

/* Sets the showing: another one, or any word. */
static void set_showing(enum lent which)
{
    uint32_t value = take_number(), its = word(which, FILMDISK_PLAN_SHOWING);
    filmdisk_put_word(contents[which], FILMDISK_PLAN_SHOWING, value % 4 == 0 ? (its + 1 + value / 4 % 2) % 3 : value);
}

/* Sets the kind or an overhead: beside its own value, at an end of its range, or any. */
static void set_overhead(enum lent which)
{
    uint32_t value = take_number(), entry = FILMDISK_PLAN_TABLE + take() + value % 2, its = word(which, entry);
    const uint32_t words[] = {its + 1, its - 1, 0, MOST_OVERHEAD, MOST_OVERHEAD + 1, value};
    if (value % 16 == 0)
        filmdisk_put_word(contents[which], FILMDISK_PLAN_KIND, value / 16 % 4);
    else
        filmdisk_put_word(contents[which], entry, words[value % COUNT(words)]);
}

/* Sets worstat: one block further or back, the last block, or any word. */
static void set_worstat(enum lent which)
{
    uint32_t value = take_number(), its = word(which, FILMDISK_PLAN_WORSTAT);
    const uint32_t words[] = {its + 1, its - 1, filmdisk_blocks(contents[which]) - 1, value};
    filmdisk_put_word(contents[which], FILMDISK_PLAN_WORSTAT, words[value % COUNT(words)]);
}

/* Alters the films: a block goes over to another one, two change places, one more or less is counted, an entry is set. */
static void set_films(enum lent which)
{
    uint32_t choice = take(), films = word(which, FILMDISK_PLAN_FILMS);
    size_t one = FILMDISK_PLAN_BLOCKS + take() % FILMDISK_MAX_FILMS, other = FILMDISK_PLAN_BLOCKS + take() % FILMDISK_MAX_FILMS;
    uint32_t its = word(which, one), others = word(which, other);
    if (choice % 4 == 0) {
        filmdisk_put_word(contents[which], FILMDISK_PLAN_FILMS, choice < 128 ? films + choice / 4 % 3 - 1 : take_number());
    } else if (choice % 4 == 1) {
        filmdisk_put_word(contents[which], one, take_number());
    } else {
        filmdisk_put_word(contents[which], one, choice % 4 == 2 ? others : its + 1);
        filmdisk_put_word(contents[which], other, choice % 4 == 2 ? its : others - 1);
    }
}

/* Makes a slot a tail, which no loop has; at times with the next block of one that has gone round, or of another film. */
static void set_tail(void)
{
    uint32_t slot = take(), held = take_number(), film = take_film(DESK), ended = film % FILMDISK_MAX_FILMS;
    if (held % 8 == 1)
        ended = (ended + 1) % FILMDISK_MAX_FILMS;
    uint32_t block = held % 8 == 0 ? 0 : filmdisk_film_blocks(contents[DESK], ended);
    filmdisk_put_word(contents[DESK], FILMDISK_DESK_KINDS + slot, FILMDISK_TAIL);
    filmdisk_put_word(contents[DESK], FILMDISK_DESK_NEXT + slot, name_of(film, block));
    filmdisk_put_word(contents[DESK], FILMDISK_DESK_HELD + slot, held);
}

/* Sets a word of a slot. */
static void set_slot(void)
{
    static const size_t fields[] = {FILMDISK_DESK_KINDS, FILMDISK_DESK_NEXT, FILMDISK_DESK_HELD, FILMDISK_DESK_PLACES};
    size_t field = fields[take() % 4], slot = take();
    uint32_t value = take_number();
    if (field == FILMDISK_DESK_HELD)
        value *= word(DESK, FILMDISK_PLAN_BLOCK_BYTES) / 16;
    if (field == FILMDISK_DESK_NEXT)
        value = name_of(take_film(DESK), value);
    filmdisk_put_word(contents[DESK], field + slot, value);
}

/* Makes free slots ask for the films in turn, in any order, behind those that ask already; at times one of them gets another place. */
static void set_crowd(void)
{
    uint32_t first = take(), count = take() + 1, step = 2 * take() + 1, odd = take(), block = take();
    uint32_t streams = word(DESK, FILMDISK_PLAN_STREAMS), films = word(DESK, FILMDISK_PLAN_FILMS) % (FILMDISK_MAX_FILMS + 1);
    uint32_t waiting = filmdisk_waiting(contents[DESK]), slot = first;
    for (uint32_t i = 0; i < count; i++) {
        slot = (first + i * step) % FILMDISK_MAX_STREAMS;
        if (slot >= streams || filmdisk_slot_kind(contents[DESK], slot) != FILMDISK_FREE)
            continue;
        filmdisk_put_word(contents[DESK], FILMDISK_DESK_KINDS + slot, FILMDISK_ASKED);
        uint32_t film = films == 0 ? 0 : i % films, blocks = filmdisk_film_blocks(contents[DESK], film);
        filmdisk_put_word(contents[DESK], FILMDISK_DESK_NEXT + slot, name_of(film, blocks == 0 ? 0 : (block + i) % blocks));
        filmdisk_put_word(contents[DESK], FILMDISK_DESK_PLACES + slot, ++waiting);
    }
    if (odd % 8 == 0)
        filmdisk_put_word(contents[DESK], FILMDISK_DESK_PLACES + slot, odd / 8);
}

/* Two slots change places, or one takes the other's. */
static void set_place(void)
{
    uint32_t one = take(), other = take(), its = word(DESK, FILMDISK_DESK_PLACES + one);
    filmdisk_put_word(contents[DESK], FILMDISK_DESK_PLACES + one, word(DESK, FILMDISK_DESK_PLACES + other));
    if (take() % 4 != 0)
        filmdisk_put_word(contents[DESK], FILMDISK_DESK_PLACES + other, its);
}

/* A join of a slot at a block of a film. */
static void join_film(void)
{
    uint32_t slot = take_number(), block = take_number();
    make_both((struct call){CALL_JOIN, slot, block, take_film(DESK)});
}

static void take_call(void)
{
    uint32_t all, one, choice = take();
    if (choice >= 240) {
        window_both(DESK, take_number());
        limit_both(choice, take_number());
        return;
    }
    if (choice >= 232) {
        set_overhead(DESK);
        return;
    }
    if (choice >= 224) {
        if (choice % 8 < 6)
            set_crowd();
        else
            set_place();
        return;
    }
    if (choice >= 216) {
        set_films(DESK);
        return;
    }
    switch (choice % 12) {
    case 0:
    case 1:
        join_film();
        break;
    case 2:
        call_both(CALL_LEAVE, take_number());
        break;
    case 3:
    case 4:
        begin_sweep();
        break;
    case 5:
        all = take() % 5;
        one = take();
        end_sweep(all, one, take());
        break;
    case 6:
        damage();
        break;
    case 7:
        set_slot();
        break;
    case 8:
        run_sweeps();
        break;
    case 9:
        set_showing(DESK);
        break;
    case 10:
        set_tail();
        break;
    default:
        set_worstat(DESK);
    }
}

/* Damages what an opening reads. */
static void damage_plan(uint32_t choice)
{
    if (choice < 232)
        damage();
    else if (lengths[PLAN] != FILMDISK_PLAN_BYTES)
        return;
    else if (choice < 236)
        set_films(PLAN);
    else if (choice < 240)
        set_overhead(PLAN);
    else if (choice < 248)
        set_showing(PLAN);
    else
        set_worstat(PLAN);
}

/* The calls on a desk that was opened. */
static void run_desk(void)
{
    size_t streams = word(DESK, FILMDISK_PLAN_STREAMS);
    set_noise(FETCHES, filmdisk_visits(contents[DESK]) * streams * FILMDISK_FETCH_BYTES);
    set_noise(DRAWS, streams * FILMDISK_ENTRY_BYTES);
    while (input_left > 0)
        take_call();
}

int LLVMFuzzerTestOneInput(const uint8_t *data, size_t size)
{
    if (lent[0].room == NULL)
        for (size_t i = 0; i < STRINGS; i++)
            guarded_make(&lent[i], MOST_BYTES);
    input = data;
    input_left = size;
    last_bound = 0;
    own_leads_len = 0;
    calls_made = 0;
    set_noise(FETCHES, 0);
    set_noise(DRAWS, 0);
    enum sort planner = take_planner();
    take_card();
    if (has_table)
        take_table();
    if (call_both(planner, 0).number != 0)
        return 0;
    size_t list_bytes = (size_t)filmdisk_blocks(contents[PLAN]) * FILMDISK_ENTRY_BYTES;
    if (lengths[LEADS] >= list_bytes) {
        own_leads_len = list_bytes;
        memcpy(own_leads, contents[LEADS], list_bytes);
    }
    lengths[POSITIONS] = filmdisk_visits(contents[PLAN]) * list_bytes;
    lengths[LEADS] = list_bytes;
    uint32_t more = take();
    for (; more >= 200; more = take())
        damage_plan(more);
    window_both(PLAN, more % 70);
    if (call_both(CALL_OPEN, 0).number == 0)
        run_desk();
    return 0;
}
