#include "film.h"

#include <stdio.h>
#include <stdlib.h>
#include <string.h>

const struct card bench_card = {
    6, {1, 1, 1, 1, 1, 1}, {22270, 20550, 19090, 17810, 16700, 15720}, 6, 262144, 500000, 12670, 15000, 0, {0}
};

const struct card barracuda_card = {
    7, {598, 776, 1163, 1363, 1606, 1080, 2285}, {135594, 125000, 114286, 103897, 96386, 89888, 86957},
    8871, 1048576, 524288, 8380, 10090, 0, {0}
};

const struct card deskstar_card = {1, {2}, {52258}, 2, 1829000, 187500, 12670, 15000, 0, {0}};

const struct card evening_card = {
    7, {3, 4, 6, 7, 9, 6, 13}, {135594, 125000, 114286, 103897, 96386, 89888, 86957},
    48, 1048576, 1048576, 8380, 10090, 0, {0}
};

/* Hop and return are those by which 001 has 109.45 ms for 12 blocks: for comparing with it only, as this hop is below a full turn. */
struct card example_card(uint32_t bytes)
{
    struct card card = {.zones = 6, .blocks = 6, .bytes = bytes, .rate = 524288, .hop = 8280, .back = 10090};
    for (uint32_t zone = 0; zone < 6; zone++) {
        uint64_t bytes_a_second = (uint64_t)(60 + 5 * zone) << 17;
        card.positions[zone] = 1;
        card.times[zone] = (uint32_t)(((uint64_t)bytes * 1000000 + bytes_a_second - 1) / bytes_a_second);
    }
    return card;
}

struct card small_barracuda(uint32_t bytes)
{
    static const uint32_t rates[] = {59, 64, 70, 77, 83, 89, 92};
    struct card card = evening_card;
    card.bytes = bytes;
    card.rate = 524288;
    card.hop = 8280;
    for (uint32_t zone = 0; zone < card.zones; zone++) {
        uint64_t bytes_a_second = (uint64_t)rates[zone] << 17;
        card.times[zone] = (uint32_t)(((uint64_t)bytes * 1000000 + bytes_a_second - 1) / bytes_a_second);
    }
    return card;
}

struct card halved(const struct card *card)
{
    struct card half = *card;
    for (uint32_t zone = 0; zone < card->zones; zone++) {
        half.positions[zone] = 2 * card->positions[zone];
        half.times[zone] = (card->times[zone] + 1) / 2;
    }
    return half;
}

void must(int holds, const char *fact)
{
    if (holds)
        return;
    fprintf(stderr, "pictures: does not hold: %s\n", fact);
    exit(1);
}

uint32_t zone_of(const struct card *card, uint32_t position)
{
    uint32_t zone = 0;
    while (position >= card->positions[zone])
        position -= card->positions[zone++];
    return zone;
}

/* Writes a number in the card's form and answers its length. */
static size_t put_number(uint8_t *to, uint32_t number)
{
    size_t length = 0;
    for (; number >= 128; number >>= 7)
        to[length++] = (uint8_t)(number | 128);
    to[length++] = (uint8_t)number;
    return length;
}

/* The number of films and the blocks of each. */
static size_t write_films(uint8_t *to, const struct card *card)
{
    size_t length = put_number(to, card->films > 0 ? card->films : 1);
    if (card->films == 0)
        length += put_number(to + length, card->blocks);
    for (uint32_t film = 0; film < card->films; film++)
        length += put_number(to + length, card->lengths[film]);
    return length;
}

static size_t write_card(uint8_t *to, const struct card *card)
{
    const uint32_t rest[] = {card->bytes, card->rate, card->hop, card->back};
    size_t length = put_number(to, 1);
    length += put_number(to + length, card->zones);
    for (uint32_t zone = 0; zone < card->zones; zone++) {
        length += put_number(to + length, card->positions[zone]);
        length += put_number(to + length, card->times[zone]);
    }
    length += write_films(to + length, card);
    for (size_t i = 0; i < sizeof rest / sizeof rest[0]; i++)
        length += put_number(to + length, rest[i]);
    return length;
}

/* Streams, margin and buffer of the scope, for a laying with this worst time and this greatest time, and so many visits for a block. */
static struct promise promise_of(const struct card *card, uint32_t visits, uint32_t worst2, uint32_t greatest)
{
    struct promise promise = {.streams = FILMDISK_MAX_STREAMS / visits, .worst2 = worst2, .margin = 2 * greatest - worst2};
    for (; promise.streams > 0; promise.streams--) {
        uint64_t n = promise.streams;
        uint64_t twice = n * worst2 + 2 * (visits * n * card->hop + card->back);
        if (card->rate * twice <= (uint64_t)2000000 * card->bytes)
            break;
    }
    uint64_t extra = (uint64_t)card->rate * promise.streams * promise.margin;
    promise.buffer = 3 * card->bytes + (uint32_t)((extra + 1999999) / 2000000);
    return promise;
}

struct promise slowest_promise(const struct card *card)
{
    return promise_of(card, 1, 2 * card->times[0], card->times[0]);
}

struct promise plain_promise(const struct card *card)
{
    uint32_t places = 0;
    for (uint32_t zone = 0; zone < card->zones; zone++)
        places += card->positions[zone];
    /* times never rise towards the outer zones, so the first two blocks are the worst pair */
    uint32_t first = card->times[zone_of(card, places - card->blocks)];
    uint32_t second = card->times[zone_of(card, places - card->blocks + 1)];
    return promise_of(card, 1, first + second, first);
}

uint32_t laid_zone(const struct film *film, uint32_t entry)
{
    return zone_of(&film->card, filmdisk_word(film->positions, entry));
}

uint32_t entry_time(const struct film *film, uint32_t entry)
{
    return film->card.times[laid_zone(film, entry)];
}

uint32_t laid_time(const struct film *film, uint32_t block)
{
    uint32_t visits = filmdisk_visits(film->plan), time = 0;
    for (uint32_t visit = 0; visit < visits; visit++)
        time += entry_time(film, visits * block + visit);
    return time;
}

int has_pair(const struct film *film, uint32_t block)
{
    uint32_t end = filmdisk_film_start(film->plan, filmdisk_film_at(film->plan, block) + 1);
    return filmdisk_word(film->plan, FILMDISK_PLAN_SHOWING) != FILMDISK_ONCE || block + 1 < end;
}

uint32_t pair_count(const struct film *film)
{
    uint32_t pairs = 0;
    for (uint32_t b = 0; b < film->card.blocks; b++)
        pairs += has_pair(film, b) != 0;
    return pairs;
}

/* The next block of the same film, in a loop after the last its first. */
static uint32_t next_block(const struct film *film, uint32_t block)
{
    uint32_t its = filmdisk_film_at(film->plan, block);
    return block + 1 < filmdisk_film_start(film->plan, its + 1) ? block + 1 : filmdisk_film_start(film->plan, its);
}

uint32_t pair_time(const struct film *film, uint32_t block)
{
    return laid_time(film, block) + laid_time(film, next_block(film, block));
}

/* What worst2 is the greatest of: two successive blocks, of pairs a block twice, each by its first block. */
static uint32_t measured_time(const struct film *film, uint32_t block)
{
    return filmdisk_visits(film->plan) > 1 ? 2 * laid_time(film, block) : pair_time(film, block);
}

/* The formulas over the library's own laying must give the library's figures: the other plans use the same formulas. */
static void compare_with_formulas(const struct film *film)
{
    uint32_t worst2 = 0, worstat = 0, greatest = 0;
    for (uint32_t b = 0; b < film->card.blocks; b++) {
        if (laid_time(film, b) > greatest)
            greatest = laid_time(film, b);
        if (has_pair(film, b) && measured_time(film, b) > worst2) {
            worst2 = measured_time(film, b);
            worstat = b;
        }
    }
    struct promise expected = promise_of(&film->card, filmdisk_visits(film->plan), worst2, greatest);
    must(memcmp(&expected, &film->promise, sizeof expected) == 0, "the library's figures are the formulas' over its laying");
    must(filmdisk_worst_pair(film->plan).first == worstat, "worstat is the first block of the earliest worst pair");
}

/* A planner call of the library. */
typedef filmdisk_answer planner(const uint8_t *, size_t, uint8_t *, size_t, uint8_t *, size_t, uint8_t *, size_t);

static void plan_by(planner *plan, struct film *film, const struct card *card)
{
    uint8_t bytes[FILMDISK_MAX_CARD_BYTES];
    filmdisk_answer answer = plan(bytes, write_card(bytes, card), film->plan, sizeof film->plan,
                                  film->positions, sizeof film->positions, film->leads, sizeof film->leads);
    film->card = *card;
    film->promise = (struct promise){0, 0, 0, 0};
    if (answer.number == FILMDISK_REFUSED_NO_STREAM)
        return;
    must(answer.number == FILMDISK_ACCEPTED, filmdisk_meaning(answer.number));
    film->promise.streams = filmdisk_word(film->plan, FILMDISK_PLAN_STREAMS);
    film->promise.buffer = filmdisk_word(film->plan, FILMDISK_PLAN_BUFFER);
    film->promise.worst2 = filmdisk_word(film->plan, FILMDISK_PLAN_WORST2);
    film->promise.margin = filmdisk_word(film->plan, FILMDISK_PLAN_MARGIN);
    compare_with_formulas(film);
}

void plan_film(struct film *film, const struct card *card)
{
    plan_by(filmdisk_plan, film, card);
}

void plan_loop(struct film *film, const struct card *card)
{
    plan_by(filmdisk_plan_loop, film, card);
}

void plan_pairs(struct film *film, const struct card *card)
{
    plan_by(filmdisk_plan_pairs, film, card);
}
