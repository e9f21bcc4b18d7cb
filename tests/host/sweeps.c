#include "sweeps.h"

#include <string.h>

#define SLOTS FILMDISK_MAX_STREAMS
#define SHARES 2000000ull /* the floor is compared in two-millionths of a byte */

struct row {
    int open;
    uint32_t fetched;
    uint64_t drawn;
};

static struct row book[SLOTS];

/* The slots that have asked, eldest first; sweeps finished since the eldest became so, and the most of them before a grant. */
static uint32_t line[SLOTS], line_length, finished, longest;

/* The desk before a call, changed to what the rules make of it. */
static uint8_t foreseen_desk[FILMDISK_DESK_BYTES];
/* What the rules give: each slot's kind in the sweep, and whether a block is fetched for it. */
static uint32_t kinds[SLOTS];
static int is_fetched[SLOTS];

static uint32_t figure(size_t index)
{
    return word(PLAN, index);
}

uint32_t streams(void)
{
    return figure(FILMDISK_PLAN_STREAMS);
}

uint32_t blocks(void)
{
    return figure(FILMDISK_PLAN_BLOCKS);
}

/* The slot's next block as the lists count. */
static uint32_t listed(uint32_t slot)
{
    return filmdisk_film_start(bytes_of(PLAN), film(slot)) + next(slot);
}

uint32_t fetched(uint32_t slot)
{
    return book[slot].fetched;
}

uint64_t drawn(uint32_t slot)
{
    return book[slot].drawn;
}

uint32_t waiting(void)
{
    return line_length;
}

uint32_t longest_wait(void)
{
    return longest;
}

unsigned audience(void)
{
    unsigned count = 0;
    for (uint32_t slot = 0; slot < SLOTS; slot++)
        count += kind(slot) != FILMDISK_FREE;
    return count;
}

static void start(planner *plan, const uint32_t *numbers, size_t count)
{
    memset(book, 0, sizeof book);
    line_length = finished = longest = 0;
    open_desk(plan, numbers, count);
}

void start_story(const uint32_t *numbers, size_t count)
{
    start(host_plan, numbers, count);
}

void start_loop_story(const uint32_t *numbers, size_t count)
{
    start(host_plan_loop, numbers, count);
}

void start_pairs_story(const uint32_t *numbers, size_t count)
{
    start(host_plan_pairs, numbers, count);
}

/* The line. */

static void stand_in_line(uint32_t slot)
{
    if (line_length == 0)
        finished = 0;
    line[line_length++] = slot;
}

/* The slots of the line from `first` on move up by one. */
static void move_up(uint32_t first)
{
    if (first == 0)
        finished = 0;
    line_length--;
    for (uint32_t i = first; i < line_length; i++)
        line[i] = line[i + 1];
}

static void leave_line(uint32_t slot)
{
    for (uint32_t i = 0; i < line_length; i++)
        if (line[i] == slot)
            move_up(i);
}

/* The most finished sweeps for which the eldest waits: the least number that, times what a sweep without it gains, covers the margin. */
static uint32_t most_sweeps(void)
{
    uint32_t step = figure(FILMDISK_PLAN_TABLE + streams()) - figure(FILMDISK_PLAN_TABLE + streams() - 1);
    uint64_t gain = figure(FILMDISK_PLAN_WORST2) + 2ull * step;
    uint32_t sweeps = 0;
    while (sweeps * gain < figure(FILMDISK_PLAN_MARGIN))
        sweeps++;
    return sweeps;
}

/* Joins and leaves. */

static void save_desk(void)
{
    memcpy(foreseen_desk, bytes_of(DESK), sizeof foreseen_desk);
}

static int is_foreseen(void)
{
    return memcmp(foreseen_desk, bytes_of(DESK), sizeof foreseen_desk) == 0;
}

/* The word of a film and a block of it. */
static uint32_t name_of(uint32_t its_film, uint32_t its_next)
{
    return (its_film << FILMDISK_FILM_SHIFT) + its_next;
}

static void foresee_slot(uint32_t slot, uint32_t its_kind, uint32_t its_name, uint32_t its_held)
{
    filmdisk_put_word(foreseen_desk, FILMDISK_DESK_KINDS + slot, its_kind);
    filmdisk_put_word(foreseen_desk, FILMDISK_DESK_NEXT + slot, its_name);
    filmdisk_put_word(foreseen_desk, FILMDISK_DESK_HELD + slot, its_held);
}

/* Places are those of the line. */
static void foresee_places(void)
{
    for (uint32_t slot = 0; slot < SLOTS; slot++)
        filmdisk_put_word(foreseen_desk, FILMDISK_DESK_PLACES + slot, 0);
    for (uint32_t i = 0; i < line_length; i++)
        filmdisk_put_word(foreseen_desk, FILMDISK_DESK_PLACES + line[i], i + 1);
}

/* The desk is the one before, but for the slot, which holds nothing and has these words, and for the places of the line. */
static void check_slot_alone(uint32_t slot, uint32_t its_kind, uint32_t its_name)
{
    foresee_slot(slot, its_kind, its_name, 0);
    foresee_places();
    check(is_foreseen(), "slot %u alone changes, to kind %u, next word %u", slot, its_kind, its_name);
}

void join_film(uint32_t slot, uint32_t block, uint32_t its_film)
{
    save_desk();
    expect(host_join_film(slot, block, its_film), 0, 0);
    stand_in_line(slot);
    check_slot_alone(slot, FILMDISK_ASKED, name_of(its_film, block));
    book[slot] = (struct row){.open = 1};
}

void join_slot(uint32_t slot, uint32_t block)
{
    join_film(slot, block, 0);
}

void leave_slot(uint32_t slot)
{
    save_desk();
    expect(host_leave(slot), 0, 0);
    leave_line(slot);
    check_slot_alone(slot, FILMDISK_FREE, 0);
    book[slot].open = 0;
}

/* Begin by the rules, worked out from the desk before it. */

static uint64_t lead(uint32_t slot)
{
    return word(LEADS, listed(slot));
}

static uint64_t floor_shares(void)
{
    uint64_t leads = 0;
    for (uint32_t slot = 0; slot < streams(); slot++)
        if (kinds[slot] == FILMDISK_FILLING || kinds[slot] == FILMDISK_PLAYING)
            leads += lead(slot);
    return SHARES * figure(FILMDISK_PLAN_BLOCK_BYTES) + figure(FILMDISK_PLAN_RATE) * leads;
}

static int all_playing_hold(uint64_t shares)
{
    for (uint32_t slot = 0; slot < streams(); slot++)
        if (kinds[slot] == FILMDISK_PLAYING && SHARES * held(slot) < shares)
            return 0;
    return 1;
}

/* The floor with the lead of the eldest, if one waits. */
static uint64_t floor_with_eldest(void)
{
    return floor_shares() + (line_length == 0 ? 0 : figure(FILMDISK_PLAN_RATE) * lead(line[0]));
}

/* Eldest first, none behind one that has to wait; who was the eldest for long enough does not. */
static void foresee_grants(void)
{
    int is_due = line_length > 0 && finished >= most_sweeps();
    uint32_t before = line_length;
    while (line_length > 0 && all_playing_hold(floor_with_eldest())) {
        kinds[line[0]] = FILMDISK_FILLING;
        longest = finished > longest ? finished : longest;
        move_up(0);
    }
    check(!is_due || line_length < before, "slot %u waits, the eldest for %u sweeps", line[0], finished);
}

static void foresee_kinds(void)
{
    for (uint32_t slot = 0; slot < streams(); slot++)
        kinds[slot] = kind(slot);
    uint64_t shares = floor_with_eldest();
    for (uint32_t slot = 0; slot < streams(); slot++)
        if (kinds[slot] == FILMDISK_FILLING && SHARES * held(slot) >= shares)
            kinds[slot] = FILMDISK_PLAYING;
    foresee_grants();
}

static uint32_t time_at(uint32_t position)
{
    size_t zone = 0;
    while (position >= figure(FILMDISK_PLAN_POSITIONS + zone))
        position -= figure(FILMDISK_PLAN_POSITIONS + zone++);
    return figure(FILMDISK_PLAN_TIMES + zone);
}

/* Visits of the disk for a block. */
static uint32_t visits(void)
{
    return filmdisk_visits(bytes_of(PLAN));
}

/* Marks the slots that a block is fetched for; answers how many entries they have and the bound. */
static filmdisk_answer foresee_fetches(void)
{
    filmdisk_answer foreseen = {.bound = 0};
    for (uint32_t slot = 0; slot < streams(); slot++) {
        int wants = kinds[slot] == FILMDISK_FILLING || kinds[slot] == FILMDISK_PLAYING;
        is_fetched[slot] = wants && held(slot) + figure(FILMDISK_PLAN_BLOCK_BYTES) <= figure(FILMDISK_PLAN_BUFFER);
        if (!is_fetched[slot])
            continue;
        for (uint32_t visit = 0; visit < visits(); visit++, foreseen.count++)
            foreseen.bound += time_at(word(POSITIONS, visits() * listed(slot) + visit));
    }
    foreseen.bound += figure(FILMDISK_PLAN_TABLE + foreseen.count);
    return foreseen;
}

/* Entries by rising position, then slot; each of a slot that is fetched for, and of its next block. */
static void check_entries(uint32_t count)
{
    uint64_t last = 0;
    for (uint32_t i = 0; i < count; i++) {
        const filmdisk_fetch got = fetch(i);
        uint64_t order = (uint64_t)got.position << 32 | got.slot;
        check(i == 0 || order > last, "entry %u rises", i);
        last = order;
        int is_its = got.slot < streams() && is_fetched[got.slot] && got.block == next(got.slot) &&
                     (got.position == word(POSITIONS, visits() * listed(got.slot)) ||
                      got.position == word(POSITIONS, visits() * listed(got.slot) + visits() - 1));
        check(is_its, "entry %u is a fetch by the rules: position %u, slot %u, block %u", i, got.position, got.slot, got.block);
    }
}

/* The phase rises, kinds and places go by the rules, all else of the desk stays. */
static void check_begun_desk(void)
{
    filmdisk_put_word(foreseen_desk, FILMDISK_DESK_PHASE, FILMDISK_SWEEPING);
    foresee_places();
    for (uint32_t slot = 0; slot < streams(); slot++)
        filmdisk_put_word(foreseen_desk, FILMDISK_DESK_KINDS + slot, kinds[slot]);
    check(is_foreseen(), "the desk of the begin is the one by the rules");
}

static filmdisk_answer begin_sweep(void)
{
    save_desk();
    foresee_kinds();
    filmdisk_answer foreseen = foresee_fetches();
    filmdisk_answer answer = host_begin();
    expect(answer, 0, 0);
    check(answer.count == foreseen.count && answer.bound == foreseen.bound, "count %u and bound %u by the rules, got %u and %u",
          foreseen.count, foreseen.bound, answer.count, answer.bound);
    check_entries(answer.count);
    check_begun_desk();
    for (uint32_t slot = 0; slot < streams(); slot++)
        check(kind(slot) != FILMDISK_PLAYING || held(slot) >= draw_limit(slot, answer.bound), "playing slot %u holds %u of %llu", slot,
              held(slot), (unsigned long long)draw_limit(slot, answer.bound));
    return answer;
}

/* End by the rules. */

static void choose_draws(enum draw draw, uint32_t bound)
{
    for (uint32_t slot = 0; slot < streams(); slot++) {
        uint64_t limit = draw_limit(slot, bound);
        uint32_t most = held(slot) < limit ? held(slot) : (uint32_t)limit;
        put(DRAWS, slot, draw == DRAW_NOTHING ? 0 : draw == DRAW_ALL ? most : below(most + 1));
    }
}

/* The slot after the end. */
static void foresee_end(uint32_t slot)
{
    uint32_t its_kind = kind(slot), its_film = film(slot), its_next = next(slot), its_held = held(slot) - word(DRAWS, slot);
    if (is_fetched[slot]) {
        its_held += figure(FILMDISK_PLAN_BLOCK_BYTES);
        its_next++;
    }
    if (is_fetched[slot] && its_next == filmdisk_film_blocks(bytes_of(PLAN), its_film)) {
        if (figure(FILMDISK_PLAN_SHOWING) == FILMDISK_LOOP)
            its_next = 0;
        else
            its_kind = FILMDISK_TAIL;
    }
    if (its_kind == FILMDISK_TAIL && its_held == 0)
        its_kind = its_film = its_next = 0;
    foresee_slot(slot, its_kind, name_of(its_film, its_next), its_held);
}

/* The book's own end: a slot that has drawn all it was given is closed. */
static void enter_end(void)
{
    for (uint32_t slot = 0; slot < streams(); slot++) {
        struct row *row = &book[slot];
        if (!row->open)
            continue;
        row->drawn += word(DRAWS, slot);
        row->fetched += (uint32_t)is_fetched[slot];
        if (row->fetched > 0 && (uint64_t)row->fetched * figure(FILMDISK_PLAN_BLOCK_BYTES) == row->drawn)
            row->open = 0;
    }
}

/* Occupied slots are the open ones; held + drawn = fetched x B; no buffer is overfull. */
static void check_book(void)
{
    for (uint32_t slot = 0; slot < SLOTS; slot++) {
        const struct row *row = &book[slot];
        check((kind(slot) != FILMDISK_FREE) == row->open, "slot %u: kind %u, %s in the book", slot, kind(slot),
              row->open ? "open" : "closed");
        if (!row->open)
            continue;
        check(held(slot) + row->drawn == (uint64_t)row->fetched * figure(FILMDISK_PLAN_BLOCK_BYTES),
              "slot %u: held %u, drawn %llu, fetched %u", slot, held(slot), (unsigned long long)row->drawn, row->fetched);
        check(held(slot) <= figure(FILMDISK_PLAN_BUFFER), "slot %u: held %u above the buffer", slot, held(slot));
    }
}

static void end_sweep(void)
{
    save_desk();
    filmdisk_put_word(foreseen_desk, FILMDISK_DESK_PHASE, FILMDISK_BETWEEN);
    for (uint32_t slot = 0; slot < streams(); slot++)
        foresee_end(slot);
    expect(host_end(), 0, 0);
    check(is_foreseen(), "the desk of the end is the one by the rules");
    finished++;
    enter_end();
    check_book();
}

uint32_t sweep(enum draw draw)
{
    filmdisk_answer answer = begin_sweep();
    choose_draws(draw, answer.bound);
    end_sweep();
    return answer.count;
}

unsigned sweep_to_the_end(enum draw draw, unsigned most)
{
    unsigned sweeps = 0;
    while (audience() > 0 && sweeps < most) {
        sweep(draw);
        sweeps++;
    }
    check(audience() == 0, "all films end within %u sweeps", most);
    return sweeps;
}
