#include "inputs.h"
#include "plain.h"

#include <stdio.h>
#include <stdlib.h>
#include <string.h>

enum { BLOCK_BYTES = 262144, HOP = 12670, RETURN = 15000, SLOWEST = 22270, FASTEST = 11135 };

static void put_number(struct input *in, uint32_t value)
{
    for (; value >= 128; value /= 128)
        in->card[in->card_len++] = (uint8_t)(value % 128 + 128);
    in->card[in->card_len++] = (uint8_t)value;
}

/* Zones of like size with evenly falling times; the last takes what is left over. */
static void put_zones(struct input *in, uint32_t zones, uint32_t total)
{
    put_number(in, zones);
    for (uint32_t i = 0; i < zones; i++) {
        put_number(in, i + 1 < zones ? total / zones : total - (zones - 1) * (total / zones));
        put_number(in, SLOWEST - i * (SLOWEST - FASTEST) / zones);
    }
}

/* A measured table has what hop and return give. */
static void put_overheads(struct input *in, uint32_t kind)
{
    if (kind == FILMDISK_STRAIGHT) {
        put_number(in, HOP);
        put_number(in, RETURN);
        return;
    }
    for (uint32_t n = 0; n <= FILMDISK_MAX_STREAMS; n++)
        put_number(in, n * HOP + RETURN);
}

/* Films of like length, the last with what is left over. */
static void put_films(struct input *in, uint32_t blocks)
{
    put_number(in, in->films);
    for (uint32_t film = 0; film < in->films; film++)
        put_number(in, film + 1 < in->films ? blocks / in->films : blocks - film * (blocks / in->films));
}

/* Films that take all positions, or where there are more zones one of each. */
static void put_card(struct input *in, uint32_t kind, uint32_t visits, uint32_t blocks, uint32_t zones, uint32_t rate)
{
    uint32_t taken = visits * blocks;
    in->card_len = 0;
    put_number(in, kind);
    put_zones(in, zones, taken > zones ? taken : zones);
    put_films(in, blocks);
    put_number(in, BLOCK_BYTES);
    put_number(in, rate);
    put_overheads(in, kind);
}

static void plan_input(struct input *in, uint32_t showing)
{
    static __typeof__(plain_plan) *const planners[] = { plain_plan, plain_plan_loop, plain_plan_pairs };
    filmdisk_answer a = planners[showing](in->card, in->card_len, in->plan, sizeof in->plan, in->positions, sizeof in->positions, in->leads,
                                          sizeof in->leads);
    if (a.number != FILMDISK_ACCEPTED) {
        fprintf(stderr, "bench: the film's card is refused: %s\n", filmdisk_meaning(a.number));
        exit(1);
    }
}

static void make(struct input *in, uint32_t kind, uint32_t showing, uint32_t films, uint32_t blocks, uint32_t zones, uint32_t streams)
{
    uint32_t visits = showing == FILMDISK_PAIRS ? FILMDISK_PAIR_VISITS : 1;
    in->films = films;
    in->streams = streams;
    put_card(in, kind, visits, blocks, zones, 1);
    plan_input(in, showing);
    uint32_t worst2 = filmdisk_word(in->plan, FILMDISK_PLAN_WORST2);
    uint64_t load = (uint64_t)streams * worst2 + 2 * ((uint64_t)visits * streams * HOP + RETURN);
    put_card(in, kind, visits, blocks, zones, (uint32_t)(UINT64_C(2000000) * BLOCK_BYTES / load));
    plan_input(in, showing);
    if (filmdisk_word(in->plan, FILMDISK_PLAN_STREAMS) != streams) {
        fprintf(stderr, "bench: %u films of %u blocks have not %u streams\n", films, blocks, streams);
        exit(1);
    }
    in->list_len = (size_t)blocks * FILMDISK_ENTRY_BYTES;
    in->positions_len = visits * in->list_len;
    memcpy(in->desk, in->plan, sizeof in->plan);
    memset(in->desk + sizeof in->plan, 0, sizeof in->desk - sizeof in->plan);
}

void make_film(struct input *in, uint32_t blocks, uint32_t zones, uint32_t streams)
{
    make(in, FILMDISK_STRAIGHT, FILMDISK_ONCE, 1, blocks, zones, streams);
}

void make_measured(struct input *in, uint32_t blocks, uint32_t zones, uint32_t streams)
{
    make(in, FILMDISK_MEASURED, FILMDISK_ONCE, 1, blocks, zones, streams);
}

void make_loop(struct input *in, uint32_t blocks, uint32_t zones, uint32_t streams)
{
    make(in, FILMDISK_STRAIGHT, FILMDISK_LOOP, 1, blocks, zones, streams);
}

void make_pairs(struct input *in, uint32_t blocks, uint32_t zones, uint32_t streams)
{
    make(in, FILMDISK_STRAIGHT, FILMDISK_PAIRS, 1, blocks, zones, streams);
}

void make_shelf(struct input *in, uint32_t showing, uint32_t films, uint32_t blocks, uint32_t zones, uint32_t streams)
{
    make(in, FILMDISK_STRAIGHT, showing, films, blocks, zones, streams);
}

/* The words of a plan of one film without its number: those before it, N, and those behind the other films. */
void to_old(uint8_t *old, const uint8_t *bytes, size_t len)
{
    const size_t before = FILMDISK_PLAN_FILMS * FILMDISK_WORD_BYTES, after = FILMDISK_PLAN_BLOCK_BYTES * FILMDISK_WORD_BYTES;
    memcpy(old, bytes, before);
    memcpy(old + before, bytes + before + FILMDISK_WORD_BYTES, FILMDISK_WORD_BYTES);
    memcpy(old + before + FILMDISK_WORD_BYTES, bytes + after, len - after);
}

void from_old(uint8_t *bytes, const uint8_t *old, size_t old_len)
{
    const size_t before = FILMDISK_PLAN_FILMS * FILMDISK_WORD_BYTES, after = FILMDISK_PLAN_BLOCK_BYTES * FILMDISK_WORD_BYTES;
    memcpy(bytes, old, before);
    memset(bytes + before, 0, after - before);
    memcpy(bytes + before + FILMDISK_WORD_BYTES, old + before, FILMDISK_WORD_BYTES);
    filmdisk_put_word(bytes, FILMDISK_PLAN_FILMS, filmdisk_word(bytes, FILMDISK_PLAN_BLOCKS) != 0);
    memcpy(bytes + after, old + before + FILMDISK_WORD_BYTES, old_len - before - FILMDISK_WORD_BYTES);
}

/* The card without the number of films, one byte. */
static void put_old_card(struct input *old, const struct input *in)
{
    size_t at = 0;
    for (uint32_t numbers = 2 + 2 * filmdisk_word(in->plan, FILMDISK_PLAN_ZONES); numbers > 0; numbers -= in->card[at++] < 128)
        ;
    memcpy(old->card, in->card, at);
    memcpy(old->card + at, in->card + at + 1, in->card_len - at - 1);
    old->card_len = in->card_len - 1;
}

void make_old(struct input *old, const struct input *in)
{
    *old = *in;
    put_old_card(old, in);
    to_old(old->plan, in->plan, sizeof in->plan);
    to_old(old->desk, in->desk, sizeof in->desk);
}

static void put_slot(struct input *in, uint32_t slot, uint32_t kind, uint32_t next, uint32_t held, uint32_t place)
{
    filmdisk_put_word(in->desk, FILMDISK_DESK_KINDS + slot, kind);
    filmdisk_put_word(in->desk, FILMDISK_DESK_NEXT + slot, next);
    filmdisk_put_word(in->desk, FILMDISK_DESK_HELD + slot, held);
    filmdisk_put_word(in->desk, FILMDISK_DESK_PLACES + slot, place);
}

/* The word of a block that is counted through the lists. */
static uint32_t name_of(const struct input *in, uint32_t listed)
{
    uint32_t film = filmdisk_film_at(in->plan, listed);
    return (film << FILMDISK_FILM_SHIFT) + listed - filmdisk_film_start(in->plan, film);
}

/* Some block of the films; the seed goes on. */
static uint32_t some_block(const struct input *in, uint32_t *seed)
{
    *seed = *seed * 1664525 + 1013904223;
    return name_of(in, (*seed >> 8) % filmdisk_blocks(in->plan));
}

/* What a slot holds is the most with which a block is fetched for it; that is never below the floor. */
void make_players(struct input *in, uint32_t phase, uint32_t first_free)
{
    uint32_t held = filmdisk_word(in->plan, FILMDISK_PLAN_BUFFER) - BLOCK_BYTES;
    uint32_t seed = 1;
    filmdisk_put_word(in->desk, FILMDISK_DESK_PHASE, phase);
    for (uint32_t i = 0; i < first_free; i++)
        put_slot(in, i, FILMDISK_PLAYING, some_block(in, &seed), held, 0);
}

/* Steps of seven go through all places, for no count here is a multiple of it. */
void make_requests(struct input *in, uint32_t first, uint32_t count)
{
    uint32_t seed = 2;
    for (uint32_t i = 0; i < count; i++) {
        uint32_t place = 7 * (count - 1 - i) % count + 1, block = some_block(in, &seed);
        put_slot(in, first + i, FILMDISK_ASKED, place == 1 ? (in->films - 1) << FILMDISK_FILM_SHIFT : block, 0, place);
    }
}

void make_low(struct input *in)
{
    uint64_t leads = 0;
    for (uint32_t i = 0; i < FILMDISK_MAX_STREAMS; i++)
        if (filmdisk_slot_kind(in->desk, i) == FILMDISK_PLAYING)
            leads += filmdisk_word(in->leads, filmdisk_film_start(in->plan, filmdisk_slot_film(in->desk, i)) +
                                                  filmdisk_slot_next(in->desk, i));
    uint64_t shares = filmdisk_word(in->plan, FILMDISK_PLAN_RATE) * leads;
    filmdisk_put_word(in->desk, FILMDISK_DESK_HELD, BLOCK_BYTES + (uint32_t)((shares + 1999999) / 2000000));
}

void make_draws(struct input *in, uint32_t draw)
{
    uint32_t streams = filmdisk_word(in->plan, FILMDISK_PLAN_STREAMS);
    in->draws_len = (size_t)streams * FILMDISK_ENTRY_BYTES;
    for (uint32_t i = 0; i < streams; i++)
        filmdisk_put_word(in->draws, i, draw);
}
