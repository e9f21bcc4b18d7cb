#include "lobby_run.h"

enum { SECOND = 1000000 };

static uint8_t desk[FILMDISK_DESK_BYTES];
#define LISTS(run) (run)->film.positions, sizeof (run)->film.positions, (run)->film.leads, sizeof (run)->film.leads

static const struct screen script[SCREENS] = {
    {.asks = 0, .start = 0}, {.asks = 0, .start = 24}, {.asks = 20 * SECOND, .start = 0}
};

/* A call that the lobby makes is accepted. */
static filmdisk_answer accepted(filmdisk_answer answer)
{
    must(answer.number == FILMDISK_ACCEPTED, "every call of the lobby is accepted");
    return answer;
}

static uint64_t floor_of(const struct lobby_run *run)
{
    uint64_t leads = 0;
    for (uint32_t slot = 0; slot < SCREENS; slot++) {
        uint32_t kind = filmdisk_slot_kind(desk, slot);
        if (kind == FILMDISK_FILLING || kind == FILMDISK_PLAYING)
            leads += filmdisk_word(run->film.leads, filmdisk_slot_next(desk, slot));
    }
    return (uint64_t)2000000 * run->film.card.bytes + run->film.card.rate * leads;
}

static void take_sample(struct lobby_run *run)
{
    must(run->sample_count < MAX_LOBBY_SAMPLES, "room for the samples");
    struct lobby_sample *sample = &run->samples[run->sample_count++];
    *sample = (struct lobby_sample){.time = run->time, .floor = floor_of(run)};
    for (uint32_t slot = 0; slot < SCREENS; slot++) {
        uint32_t kind = filmdisk_slot_kind(desk, slot), held = filmdisk_slot_held(desk, slot);
        must(kind != FILMDISK_TAIL, "no screen of a loop is tail");
        must(held <= run->film.promise.buffer, "no buffer is overfull");
        must(kind != FILMDISK_PLAYING || (uint64_t)2000000 * held >= sample->floor, "each playing screen holds the floor");
        sample->held[slot] = held;
    }
}

/* The blocks of a screen come in order, the first after the last. */
static void count_fetches(struct lobby_run *run, const uint8_t *fetches, uint32_t count)
{
    for (uint32_t i = 0; i < count; i++) {
        filmdisk_fetch fetch = filmdisk_fetch_at(fetches, i);
        struct screen *screen = &run->screens[fetch.slot];
        must(fetch.block == (screen->start + screen->fetched++) % run->film.card.blocks, "blocks come in order, round and round");
    }
}

/* Notes the draw of a screen, and the time at which it has seen the film once more. */
static void count_draw(struct lobby_run *run, struct screen *screen, uint64_t draw)
{
    screen->drawn += draw;
    if (screen->drawn >= (uint64_t)(screen->rounds + 1) * run->film.card.blocks * run->film.card.bytes)
        screen->seen[screen->rounds++] = run->time;
}

static void sweep(struct lobby_run *run)
{
    uint8_t fetches[FILMDISK_MAX_STREAMS * FILMDISK_FETCH_BYTES], draws[FILMDISK_MAX_STREAMS * FILMDISK_ENTRY_BYTES] = {0};
    filmdisk_answer begun = accepted(filmdisk_begin(desk, sizeof desk, LISTS(run), fetches, sizeof fetches));
    count_fetches(run, fetches, begun.count);
    take_sample(run);
    run->time += begun.bound;
    run->sweeps++;
    for (uint32_t slot = 0; slot < SCREENS; slot++) {
        uint64_t draw = filmdisk_draw_limit(desk, sizeof desk, slot, begun.bound);
        filmdisk_put_word(draws, slot, (uint32_t)draw);
        count_draw(run, &run->screens[slot], draw);
    }
    accepted(filmdisk_end(desk, sizeof desk, LISTS(run), draws, run->film.promise.streams * FILMDISK_ENTRY_BYTES));
    take_sample(run);
}

/* Joins whose time has come, and leaves of screens that have seen enough; answers whether a screen is still to come or to leave. */
static int act(struct lobby_run *run)
{
    int left = 0;
    for (uint32_t slot = 0; slot < SCREENS; slot++) {
        const struct screen *screen = &run->screens[slot];
        int is_free = filmdisk_slot_kind(desk, slot) == FILMDISK_FREE, is_done = screen->rounds == LOBBY_ROUNDS;
        if (is_free && !is_done && screen->asks <= run->time)
            accepted(filmdisk_join(desk, sizeof desk, LISTS(run), slot, screen->start, 0));
        if (!is_free && is_done)
            accepted(filmdisk_leave(desk, sizeof desk, LISTS(run), slot));
        left |= !is_done;
    }
    return left;
}

void run_lobby(struct lobby_run *run)
{
    plan_loop(&run->film, &evening_card);
    for (int screen = 0; screen < SCREENS; screen++)
        run->screens[screen] = script[screen];
    accepted(filmdisk_open(run->film.plan, sizeof run->film.plan, LISTS(run), desk, sizeof desk));
    while (act(run))
        sweep(run);
    take_sample(run);
}
