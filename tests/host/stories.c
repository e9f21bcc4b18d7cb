/*
 * Longer stories of a desk. Each sweep of a story is held against the scope's rules and promises (sweeps.c).
 * Arguments: names of stories to run alone, before them 'heap' under valgrind.
 */
#include "sweeps.h"

#include <string.h>

#define BENCH_BYTES 262144u

/* A drive that its film fills. */
static const uint32_t drive[] = {
    1,     7,    598,   135594, 776,   125000, 1163, 114286,  1363,   103897, 1606,
    96386, 1080, 89888, 2285,   86957, 1,      8871, 1048576, 524288, 8380,   10090,
};

/* The greatest house: 256 streams just fit. */
static const uint32_t house[] = {1, 2, 20, 3000, 20, 2000, 1, 40, 1768000, 1000000, 500, 1000000};

static void bench_story(void)
{
    start_story(bench_film, BENCH_NUMBERS);
}

static void expect_kind(uint32_t slot, uint32_t its_kind)
{
    check(kind(slot) == its_kind, "slot %u: expected kind %u, got %u", slot, its_kind, kind(slot));
}

/* One screen sees all blocks and all bytes, with what it may draw and with less. */
static void film_watched_to_its_end(void)
{
    for (enum draw draw = DRAW_ALL; draw <= DRAW_SOME; draw++) {
        bench_story();
        join_slot(9, 0);
        unsigned sweeps = sweep_to_the_end(draw, 2000);
        check(fetched(9) == 6 && drawn(9) == 6ull * BENCH_BYTES, "6 blocks were seen: %u, %llu bytes", fetched(9),
              (unsigned long long)drawn(9));
        check(sweeps > 6, "%u sweeps", sweeps);
    }
}

/* A whole drive, its film watched from a few blocks before the end by screens that come one after another. */
static void end_of_a_long_film(void)
{
    start_story(drive, COUNT(drive));
    check(blocks() == 8871, "the film fills the drive");
    for (uint32_t slot = 0; slot < streams(); slot++) {
        join_slot(slot, blocks() - 4 - slot % 7);
        sweep(DRAW_ALL);
    }
    sweep_to_the_end(DRAW_ALL, 3000);
}

/* Slots of every kind leave; each may join again at once, and the others see their films to the end. */
static void leaves_in_mid_film(void)
{
    bench_story();
    join_slot(0, 0);
    join_slot(3, 2);
    join_slot(4, 5);
    sweep(DRAW_ALL);
    sweep(DRAW_ALL);
    expect_kind(0, FILMDISK_PLAYING);
    expect_kind(4, FILMDISK_TAIL);
    join_slot(1, 0);
    join_slot(2, 0);
    expect_kind(1, FILMDISK_ASKED);
    leave_slot(1);
    leave_slot(0);
    leave_slot(4);
    sweep(DRAW_ALL);
    expect_kind(2, FILMDISK_FILLING);
    leave_slot(2);
    join_slot(0, 4);
    join_slot(2, 1);
    leave_slot(2);
    sweep_to_the_end(DRAW_ALL, 2000);
    check(fetched(0) == 2 && fetched(3) == 4, "slot 0 came back for 2 blocks, slot 3 saw 4: %u, %u", fetched(0), fetched(3));
}

/* Screens that do not draw: their buffers fill, then nothing is fetched and the bound is the return alone. */
static void full_buffers_without_fetch(void)
{
    bench_story();
    for (uint32_t slot = 0; slot < 3; slot++)
        join_slot(slot, 0);
    for (unsigned i = 0; i < 3; i++)
        check(sweep(DRAW_NOTHING) == 3, "sweep %u fetches for all", i);
    for (unsigned i = 0; i < 20; i++)
        check(sweep(DRAW_NOTHING) == 0, "full buffers, sweep %u", i);
    for (uint32_t slot = 0; slot < 3; slot++) {
        expect_kind(slot, FILMDISK_PLAYING);
        check(held(slot) == 3 * BENCH_BYTES, "slot %u holds three blocks", slot);
    }
    /* Room for a fourth block comes when 236,712 bytes are drawn: 7,500 in each empty sweep. */
    unsigned sweeps = 0;
    while (sweep(DRAW_ALL) == 0 && sweeps < 100)
        sweeps++;
    check(sweeps == 32, "the first fetch comes after %u empty sweeps", sweeps);
    sweep_to_the_end(DRAW_ALL, 2000);
}

/* Slot 0 gets its last block before it may play: from filling it goes to tail. So does slot 2 with its only block. */
static void film_ends_while_filling(void)
{
    bench_story();
    join_slot(0, 4);
    join_slot(1, 1);
    join_slot(2, 5);
    sweep(DRAW_ALL);
    expect_kind(0, FILMDISK_FILLING);
    expect_kind(2, FILMDISK_TAIL);
    /* Slot 1 is to get block 2, whose lead lifts the floor above one block. */
    sweep(DRAW_ALL);
    expect_kind(0, FILMDISK_TAIL);
    check(held(0) == 2 * BENCH_BYTES, "slot 0 holds both blocks");
    expect_kind(1, FILMDISK_FILLING);
    sweep_to_the_end(DRAW_SOME, 2000);
    check(drawn(0) == 2ull * BENCH_BYTES && drawn(2) == BENCH_BYTES, "both saw what they came for");
}

/* The greatest house. Whoever ends is followed by another for some hundred sweeps. */
static void house_of_256_streams(void)
{
    start_story(house, COUNT(house));
    check(streams() == 256, "%u streams", streams());
    expect(host_join(256, 0), FILMDISK_REFUSED_NO_SUCH_SLOT, 256);
    for (uint32_t slot = 0; slot < 256; slot++)
        join_slot(slot, 0);
    check(sweep(DRAW_ALL) == 256, "all fill");
    for (unsigned i = 0; i < 400; i++) {
        uint32_t slot = below(256);
        if (kind(slot) == FILMDISK_FREE)
            join_slot(slot, below(40));
        else if (below(4) == 0)
            leave_slot(slot);
        sweep(i % 100 < 80 ? DRAW_ALL : DRAW_SOME);
    }
    for (uint32_t slot = 0; slot < 256; slot++)
        if (kind(slot) == FILMDISK_FREE)
            join_slot(slot, slot % 40);
    sweep_to_the_end(DRAW_ALL, 1000);
}

/* Who waits. */

/* All slots of the greatest house in step: after the third sweep each holds a block and the first slow one is two ahead. */
static void fill_house(void)
{
    check(streams() == 256, "%u streams", streams());
    for (uint32_t slot = 0; slot < 256; slot++)
        join_slot(slot, 0);
    for (unsigned i = 0; i < 3; i++)
        check(sweep(DRAW_ALL) == 256, "sweep %u fetches for all", i);
    for (uint32_t slot = 0; slot < 256; slot++)
        expect_kind(slot, FILMDISK_PLAYING);
}

/* In a full house three leave and ask again in the same gap: the players have no room for the eldest, and none is served before it. */
static void a_request_waits_one_sweep(void)
{
    static const uint32_t slots[] = {7, 31, 200}, places[] = {3, 2, 1}, none[] = {0, 0, 0};
    for (unsigned looped = 0; looped < 2; looped++) {
        (looped ? start_loop_story : start_story)(house, COUNT(house));
        fill_house();
        for (size_t i = 0; i < COUNT(slots); i++)
            leave_slot(slots[i]);
        for (size_t i = COUNT(slots); i > 0; i--)
            join_slot(slots[i - 1], i == 2 ? 1 : 0);
        expect_places(slots, places, COUNT(slots));
        check(sweep(DRAW_ALL) == 253 && waiting() == 3, "three wait: %u", waiting());
        expect_places(slots, places, COUNT(slots));
        check(sweep(DRAW_ALL) == 256 && waiting() == 0, "all are granted: %u wait", waiting());
        expect_places(slots, none, COUNT(slots));
        check(longest_wait() == 1, "the eldest waited %u sweeps", longest_wait());
    }
}

/* The eldest leaves while it waits: who asked next is the eldest from then on, and last is who comes back. */
static void the_eldest_leaves(void)
{
    static const uint32_t slots[] = {0, 99, 255};
    static const uint32_t asked[] = {3, 2, 1}, after[] = {2, 1, 0}, back[] = {2, 1, 3};
    start_story(house, COUNT(house));
    fill_house();
    for (size_t i = COUNT(slots); i > 0; i--) {
        leave_slot(slots[i - 1]);
        join_slot(slots[i - 1], 0);
    }
    expect_places(slots, asked, COUNT(slots));
    sweep(DRAW_ALL);
    expect_places(slots, asked, COUNT(slots));
    leave_slot(255);
    expect_places(slots, after, COUNT(slots));
    join_slot(255, 0);
    expect_places(slots, back, COUNT(slots));
    sweep(DRAW_ALL);
    check(waiting() == 0, "%u wait", waiting());
}

/* A film whose first block alone is slow. */
static const uint32_t slow_start[] = {1, 2, 1, 30000, 5, 20000, 1, 6, BENCH_BYTES, 500000, 12670, 15000};

/* Two low slots come and go at the quick blocks, one of them in each gap; a guest in the highest slot does not wait for them. */
static void lower_slots_come_and_go(void)
{
    for (unsigned looped = 0; looped < 2; looped++) {
        (looped ? start_loop_story : start_story)(slow_start, COUNT(slow_start));
        uint32_t guest = streams() - 1;
        join_slot(0, 1);
        join_slot(1, 1);
        sweep(DRAW_ALL);
        join_slot(guest, 0);
        for (uint32_t i = 0; i < 6; i++) {
            leave_slot(i % 2);
            join_slot(i % 2, 1);
            sweep(DRAW_ALL);
            check(kind(guest) != FILMDISK_ASKED, "sweep %u: the guest waits", i);
        }
        check(longest_wait() == 0, "the eldest waited %u sweeps", longest_wait());
    }
}

/* Full houses in which many leave and ask again in each gap, once shown and looped. */
static void zapping(void)
{
    for (unsigned looped = 0; looped < 2; looped++) {
        (looped ? start_loop_story : start_story)(house, COUNT(house));
        fill_house();
        for (unsigned i = 0; i < 60; i++) {
            for (uint32_t some = below(12); some > 0; some--) {
                uint32_t slot = below(256);
                if (kind(slot) != FILMDISK_FREE)
                    leave_slot(slot);
            }
            for (uint32_t k = 0, first = below(256); k < 256; k++)
                if (kind((first + k) % 256) == FILMDISK_FREE)
                    join_slot((first + k) % 256, below(40));
            sweep(i % 8 == 7 ? DRAW_SOME : DRAW_ALL);
        }
        check(longest_wait() == 1, "the eldest waited %u sweeps", longest_wait());
    }
}

/* Loops. */

/* The bytes of so many rounds. */
static uint64_t rounds(uint32_t count)
{
    return (uint64_t)count * blocks() * word(PLAN, FILMDISK_PLAN_BLOCK_BYTES);
}

/* A sweep of a loop: no slot is tail, and the next block of a screen that began at `start` is as many on as were fetched. */
static void sweep_loop(enum draw draw, uint32_t slot, uint32_t start)
{
    sweep(draw);
    for (uint32_t any = 0; any < streams(); any++)
        check(kind(any) != FILMDISK_TAIL, "slot %u: expected no tail", any);
    check(next(slot) == (start + fetched(slot)) % blocks(), "slot %u: %u blocks from %u on, expected next %u, got %u", slot,
          fetched(slot), start, (start + fetched(slot)) % blocks(), next(slot));
}

/* A lobby screen plays the film three times round and leaves, with what it may draw and with less. Nothing else ends it. */
static void three_times_round(void)
{
    for (enum draw draw = DRAW_ALL; draw <= DRAW_SOME; draw++) {
        for (uint32_t start = 0; start < 6; start += 5) {
            unsigned sweeps = 0;
            start_loop_story(bench_film, BENCH_NUMBERS);
            join_slot(9, start);
            while (drawn(9) < rounds(3) && sweeps++ < 2000)
                sweep_loop(draw, 9, start);
            expect_kind(9, FILMDISK_PLAYING);
            check(drawn(9) >= rounds(3) && fetched(9) >= 18, "three rounds are %llu bytes of 18 blocks, got %llu of %u",
                  (unsigned long long)rounds(3), (unsigned long long)drawn(9), fetched(9));
            leave_slot(9);
            check(audience() == 0, "only the leave ends it");
        }
    }
}

/* Screens all over the film; one leaves and comes back, one stands still for a while and plays on. */
static void a_lobby(void)
{
    start_loop_story(bench_film, BENCH_NUMBERS);
    for (uint32_t slot = 0; slot < streams(); slot++) {
        join_slot(slot, slot % blocks());
        sweep_loop(DRAW_ALL, 0, 0);
    }
    for (unsigned i = 0; i < 20; i++)
        sweep_loop(DRAW_NOTHING, 0, 0);
    leave_slot(4);
    sweep_loop(DRAW_ALL, 0, 0);
    join_slot(4, 5);
    for (unsigned i = 0; i < 400; i++)
        sweep_loop(i % 4 == 0 ? DRAW_SOME : DRAW_ALL, 0, 0);
    for (uint32_t slot = 0; slot < streams(); slot++) {
        expect_kind(slot, FILMDISK_PLAYING);
        check(drawn(slot) >= rounds(3), "slot %u has drawn %llu bytes", slot, (unsigned long long)drawn(slot));
    }
}

/* The shortest loop, and loops over one zone: each block is followed by the other. */
static void short_loops(void)
{
    for (uint32_t count = 2; count <= 5; count++) {
        const uint32_t film[] = {1, 1, 5, 20000, 1, count, BENCH_BYTES, 500000, 12670, 15000};
        unsigned sweeps = 0;
        start_loop_story(film, COUNT(film));
        join_slot(0, count - 1);
        join_slot(1, 0);
        while (drawn(0) < rounds(4) && sweeps++ < 2000)
            sweep_loop(DRAW_ALL, 0, count - 1);
        check(fetched(0) >= 4 * count, "%u blocks: expected four rounds, got %u blocks", count, fetched(0));
    }
}

/* A whole drive as a loop: screens that begin near the end go on at its first block. */
static void round_a_long_film(void)
{
    start_loop_story(drive, COUNT(drive));
    for (uint32_t slot = 0; slot < streams(); slot++) {
        join_slot(slot, blocks() - 4 - slot % 7);
        sweep(DRAW_ALL);
    }
    for (unsigned i = 0; i < 200; i++)
        sweep_loop(DRAW_ALL, 0, blocks() - 4);
    for (uint32_t slot = 0; slot < streams(); slot++)
        check(next(slot) < 400, "slot %u: expected a block past the first, got %u", slot, next(slot));
}

/* The greatest house as a lobby, for some hundred sweeps with joins and leaves. */
static void lobby_of_256_streams(void)
{
    start_loop_story(house, COUNT(house));
    check(streams() == 256, "%u streams", streams());
    for (uint32_t slot = 0; slot < 256; slot++)
        join_slot(slot, slot % 40);
    for (unsigned i = 0; i < 400; i++) {
        uint32_t slot = 1 + below(255);
        if (kind(slot) == FILMDISK_FREE)
            join_slot(slot, below(40));
        else if (below(8) == 0)
            leave_slot(slot);
        sweep_loop(i % 100 < 80 ? DRAW_ALL : DRAW_SOME, 0, 0);
    }
    check(fetched(0) >= 80, "slot 0: expected two rounds, got %u blocks", fetched(0));
}

/* Pairs. */

/* One screen sees all half blocks of a film, from its first block on and from its last. */
static void pairs_watched_to_their_end(void)
{
    for (enum draw draw = DRAW_ALL; draw <= DRAW_SOME; draw++) {
        start_pairs_story(bench_pairs, BENCH_NUMBERS);
        join_slot(7, 0);
        join_slot(0, PAIRS_BLOCKS - 1);
        sweep_to_the_end(draw, 2000);
        check(fetched(7) == PAIRS_BLOCKS && drawn(7) == (uint64_t)PAIRS_BLOCKS * BENCH_BYTES, "3 blocks were seen: %u, %llu bytes",
              fetched(7), (unsigned long long)drawn(7));
        check(fetched(0) == 1, "the last block was seen: %u", fetched(0));
    }
}

/* Half a drive of half blocks: screens come one after another a few blocks before the end. */
static void end_of_a_long_film_of_pairs(void)
{
    uint32_t half[COUNT(drive)];
    memcpy(half, drive, sizeof half);
    half[COUNT(drive) - 5] /= 2;
    start_pairs_story(half, COUNT(half));
    check(blocks() == 4435, "the film fills the drive but for a position: %u blocks", blocks());
    for (uint32_t slot = 0; slot < streams(); slot++) {
        join_slot(slot, blocks() - 4 - slot % 7);
        sweep(DRAW_ALL);
    }
    sweep_to_the_end(DRAW_ALL, 3000);
}

/* The greatest house of pairs, always full, for some hundred sweeps: whoever asks is granted at the next begin. */
static void house_of_128_streams_of_pairs(void)
{
    static const uint32_t house_of_pairs[] = {1, 2, 20, 3000, 20, 2000, 1, 20, 1768000, 1000000, 500, 1000000};
    start_pairs_story(house_of_pairs, COUNT(house_of_pairs));
    check(streams() == 128, "%u streams", streams());
    for (unsigned i = 0; i < 300; i++) {
        for (uint32_t some = below(9); some > 0; some--) {
            uint32_t slot = below(128);
            if (kind(slot) != FILMDISK_FREE)
                leave_slot(slot);
        }
        for (uint32_t k = 0, first = below(128); k < 128; k++)
            if (kind((first + k) % 128) == FILMDISK_FREE)
                join_slot((first + k) % 128, below(20));
        sweep(i % 8 == 7 ? DRAW_SOME : DRAW_ALL);
        check(waiting() == 0, "%u slots wait on", waiting());
    }
}

static const test tests[] = {
    TEST(film_watched_to_its_end), TEST(end_of_a_long_film),      TEST(leaves_in_mid_film),
    TEST(full_buffers_without_fetch), TEST(film_ends_while_filling), TEST(house_of_256_streams),
    TEST(a_request_waits_one_sweep), TEST(the_eldest_leaves), TEST(lower_slots_come_and_go), TEST(zapping),
    TEST(three_times_round), TEST(a_lobby), TEST(short_loops), TEST(round_a_long_film), TEST(lobby_of_256_streams),
    TEST(pairs_watched_to_their_end), TEST(end_of_a_long_film_of_pairs), TEST(house_of_128_streams_of_pairs),
};

int main(int argc, char **argv)
{
    return run_tests(tests, COUNT(tests), argc, argv);
}
