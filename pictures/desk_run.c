#include "desk_run.h"

#include <string.h>

enum { SECOND = 1000000, LEAVE = -1 };

/* What the rooms ask for: a start block, or to leave. By time. */
static const struct action {
    uint64_t time;
    int room;
    int block;
} script[] = {
    {0, 0, 0}, {0, 1, 0}, {0, 2, 0}, {0, 3, 0}, {0, 4, 0},
    {1, 5, 0}, /* one sweep later than the others */
    {8 * SECOND, 6, 0},
    {28 * SECOND, 6, LEAVE},
    {67 * (SECOND / 2), 7, 12}, /* while the first two rooms skip */
    {38 * SECOND, 3, LEAVE},
    {44 * SECOND, 6, 20}
};

/* Where the rooms that skip ask again: in turn at each of these. None of these blocks has a lead. */
enum { FIRST_SKIP = 28, SKIP_BLOCKS = 12 };

uint32_t draw_share(int room, uint64_t time)
{
    if (room == 1)
        return 75;
    if (room == 2 && time >= 16 * (uint64_t)SECOND && time < 26 * (uint64_t)SECOND)
        return 0;
    return 100;
}

/* A desk string with the lists of its film, as the calls want them. */
static uint8_t desk[FILMDISK_DESK_BYTES];
#define LISTS(run) (run)->film.positions, sizeof (run)->film.positions, (run)->film.leads, sizeof (run)->film.leads

static uint32_t kind_of(int room)
{
    return filmdisk_slot_kind(desk, (uint32_t)room);
}

static uint32_t held_of(int room)
{
    return filmdisk_slot_held(desk, (uint32_t)room);
}

static uint64_t lead_of(const struct desk_run *run, int room)
{
    return filmdisk_word(run->film.leads, filmdisk_slot_next(desk, (uint32_t)room));
}

static void note(struct desk_run *run, int room, enum happening what)
{
    must(run->event_count < MAX_EVENTS, "room for the events");
    run->events[run->event_count++] = (struct event){run->time, run->sweeps, room, what};
}

int is_skipping(int room, uint64_t time)
{
    return room < SKIPPERS && time >= SKIPS_FROM && time < SKIPS_TO;
}

int is_request(const struct event *event)
{
    return event->what == ASKS || event->what == SKIPS;
}

struct wait wait_of(const struct desk_run *run, size_t request)
{
    const struct event *asked = &run->events[request];
    for (size_t i = request + 1; i < run->event_count; i++)
        if (run->events[i].room == asked->room && run->events[i].what == GRANTED)
            return (struct wait){run->events[i].time - asked->time, run->events[i].sweeps - asked->sweeps};
    must(0, "every request of the evening is granted");
    return (struct wait){0, 0};
}

size_t longest_wait(const struct desk_run *run)
{
    size_t longest = 0;
    for (size_t i = 0; i < run->event_count; i++)
        if (is_request(&run->events[i]) && wait_of(run, i).sweeps > wait_of(run, longest).sweeps)
            longest = i;
    return longest;
}

/* Notes what a call has made of the rooms' kinds. */
static void note_changes(struct desk_run *run, const uint8_t before[ROOMS])
{
    for (int room = 0; room < ROOMS; room++) {
        uint32_t kind = kind_of(room);
        if (kind == before[room])
            continue;
        if (kind == FILMDISK_FREE)
            note(run, room, ENDS);
        else
            note(run, room, kind == FILMDISK_FILLING ? GRANTED : kind == FILMDISK_PLAYING ? PLAYS : LAST_BLOCK);
    }
}

static uint64_t floor_of(const struct desk_run *run)
{
    uint64_t leads = 0;
    for (int room = 0; room < ROOMS; room++)
        if (kind_of(room) == FILMDISK_FILLING || kind_of(room) == FILMDISK_PLAYING)
            leads += lead_of(run, room);
    return (uint64_t)2000000 * run->film.card.bytes + run->film.card.rate * leads;
}

uint32_t least_playing(const struct sample *sample)
{
    uint32_t least = 0;
    for (int room = 0; room < ROOMS; room++)
        if (sample->kinds[room] == FILMDISK_PLAYING && (least == 0 || sample->held[room] < least))
            least = sample->held[room];
    return least;
}

static struct sample *take_sample(struct desk_run *run)
{
    must(run->sample_count < MAX_SAMPLES, "room for the samples");
    struct sample *sample = &run->samples[run->sample_count++];
    *sample = (struct sample){.time = run->time, .floor = floor_of(run)};
    for (int room = 0; room < ROOMS; room++) {
        sample->kinds[room] = (uint8_t)kind_of(room);
        sample->held[room] = held_of(room);
        must(held_of(room) <= run->film.promise.buffer, "no buffer is overfull");
    }
    uint32_t least = least_playing(sample);
    must(least == 0 || (uint64_t)2000000 * least >= sample->floor, "each playing room holds the floor");
    return sample;
}

/* The calls, of the library or by the rules. */

static void join(struct desk_run *run, int room, uint32_t block)
{
    filmdisk_answer answer = {.number = FILMDISK_ACCEPTED};
    if (run->server == LIBRARY)
        answer = filmdisk_join(desk, sizeof desk, LISTS(run), (uint32_t)room, block, 0);
    else
        served_join(desk, (uint32_t)room, block);
    must(answer.number == FILMDISK_ACCEPTED, "every join of the evening is accepted");
}

static void leave(struct desk_run *run, int room)
{
    filmdisk_answer answer = {.number = FILMDISK_ACCEPTED};
    if (run->server == LIBRARY)
        answer = filmdisk_leave(desk, sizeof desk, LISTS(run), (uint32_t)room);
    else
        served_leave(desk, (uint32_t)room);
    must(answer.number == FILMDISK_ACCEPTED, "every leave of the evening is accepted");
}

/* Answers the bound. */
static uint32_t begin(struct desk_run *run)
{
    uint8_t fetches[ROOMS * FILMDISK_FETCH_BYTES];
    if (run->server != LIBRARY)
        return served_begin(desk, &run->film, run->server == RULES_BY_SLOT ? BY_SLOT : BY_PLACE);
    filmdisk_answer begun = filmdisk_begin(desk, sizeof desk, LISTS(run), fetches, sizeof fetches);
    must(begun.number == FILMDISK_ACCEPTED, "every begin of the evening is accepted");
    return begun.bound;
}

static void end(struct desk_run *run, const uint8_t draws[ROOMS * FILMDISK_ENTRY_BYTES])
{
    filmdisk_answer answer = {.number = FILMDISK_ACCEPTED};
    if (run->server == LIBRARY)
        answer = filmdisk_end(desk, sizeof desk, LISTS(run), draws, ROOMS * FILMDISK_ENTRY_BYTES);
    else
        served_end(desk, &run->film, draws);
    must(answer.number == FILMDISK_ACCEPTED, "every end of the evening is accepted");
}

/* Joins and leaves whose time has come; answers how many of the script are done. */
static size_t act(struct desk_run *run, size_t done)
{
    const size_t actions = sizeof script / sizeof script[0];
    for (; done < actions && script[done].time <= run->time; done++) {
        const struct action *action = &script[done];
        note(run, action->room, action->block == LEAVE ? LEAVES : ASKS);
        if (action->block == LEAVE)
            leave(run, action->room);
        else
            join(run, action->room, (uint32_t)action->block);
    }
    return done;
}

/* One of the rooms that skip leaves and asks again. */
static void skip(struct desk_run *run)
{
    int room = (int)(run->skips % SKIPPERS);
    if (!is_skipping(room, run->time))
        return;
    note(run, room, SKIPS);
    leave(run, room);
    join(run, room, FIRST_SKIP + run->skips++ % SKIP_BLOCKS);
}

/* One sweep: begin, what each room draws, end. */
static void sweep(struct desk_run *run)
{
    uint8_t draws[ROOMS * FILMDISK_ENTRY_BYTES], before[ROOMS];
    for (int room = 0; room < ROOMS; room++)
        before[room] = (uint8_t)kind_of(room);
    uint32_t bound = begin(run);
    note_changes(run, before);
    const struct sample *sample = take_sample(run);
    for (int room = 0; room < ROOMS; room++) {
        uint64_t draw = filmdisk_draw_limit(desk, sizeof desk, (uint32_t)room, bound) * draw_share(room, run->time) / 100;
        if (sample->kinds[room] == FILMDISK_TAIL && draw > sample->held[room])
            draw = sample->held[room];
        filmdisk_put_word(draws, (size_t)room, (uint32_t)draw);
    }
    end(run, draws);
    run->time += bound;
    run->sweeps++;
    note_changes(run, sample->kinds);
    take_sample(run);
}

static int someone_is_here(void)
{
    for (int room = 0; room < ROOMS; room++)
        if (kind_of(room) != FILMDISK_FREE)
            return 1;
    return 0;
}

void run_evening(struct desk_run *run, enum server server)
{
    const size_t actions = sizeof script / sizeof script[0];
    memset(run, 0, sizeof *run);
    run->server = server;
    plan_film(&run->film, &evening_card);
    must(run->film.promise.streams == ROOMS, "the evening's disk feeds eight rooms");
    filmdisk_answer opened = filmdisk_open(run->film.plan, sizeof run->film.plan, LISTS(run), desk, sizeof desk);
    must(opened.number == FILMDISK_ACCEPTED, "the desk opens");
    size_t done = act(run, 0);
    while (done < actions || someone_is_here()) {
        sweep(run);
        done = act(run, done);
        skip(run);
    }
}
