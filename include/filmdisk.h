/*
 * The film-disk planner and its sweep desk: link libfilmdisk.a. docs/GUIDE.md leads through the calls, docs/LAYOUT.md gives every byte.
 *
 * Strings: plans, desks, lists and entries are byte strings, each lent as a pointer and a length. Words have 32 bits, lowest byte
 * first. Strings lent to one call share no byte: that is the caller's duty, and nothing tests it. NULL with length 0 is an empty string.
 *
 * Order: slots that have asked are served in the order they asked, eldest first and none behind one that has to wait. The eldest waits for
 * one finished sweep at most, where the margin is 0 for none: it is granted at the first begin after it.
 *
 * Films: a disk has a shelf of 1 to FILMDISK_MAX_FILMS films, numbered from 0 as the card lists them, each laid on the highest positions that
 * those before it left. Both lists hold the films one after the other; all films together have A blocks. Blocks are counted in two ways: joins,
 * slots and fetch entries count them within a film, of an entry that of its slot; worstat and a window's place count them through the lists,
 * where a film begins at filmdisk_film_start.
 *
 * Showings: a plan is for one showing of each film, for loops, or for pairs, by its planner call; a word of the plan says which, and all calls
 * on its desk go by it. Pairs are for a drive that stores each block as two halves, on a slow and a quick position: one showing, and the card's
 * zone times are for a half. Two things are longer there. The positions list has 2 x A entries, those of a block together, the lower first; and
 * a block gives two fetch entries, so that the fetch list has room for 2 x n. The lead list has A entries, all 0.
 *
 * Scratch: each call that takes the lead list has a second way in, by its name with _scratch, that takes a scratch in its place, for boards
 * without room for the leads of a long film. A scratch has FILMDISK_SCRATCH_WORDS whole words or more; fewer are 13, which a call on a desk,
 * an opening too, judges first of all. All else is as with the plan's own leads, the answer and the desk that is left. No call reads or
 * writes a byte of the scratch, and calls of both ways may be mixed on one desk.
 *
 * Refused calls leave all that they were lent as it was, but for two: a plan call that is refused by 1 to 12, 25, 26, 28 or 30 fills a
 * plan string of the right length with zeros, and an opening that is refused by 14 a desk string of the right length.
 *
 * Threads: the library has no globals and keeps nothing between calls, so calls on different strings may run at once. A string that is
 * only read, such as the lists of several desks, may be lent to several calls at a time.
 *
 * Cost: each call on a desk but a draw limit judges its plan and its lists anew, so its time grows with A; so does that of a window.
 * Microseconds by docs/BENCH.md: with 16 streams about 1 at A 1,000 and 10 at A 16,384, and 24 for a begin with 256 streams or a window there.
 *
 * Memory: the stack alone, for each call at most FILMDISK_STACK_ bytes below the caller's frame.
 */
#ifndef FILMDISK_H
#define FILMDISK_H

#include <stddef.h>
#include <stdint.h>

#ifdef __cplusplus
extern "C" {
#endif

#define FILMDISK_VERSION "0.12.0"
#define FILMDISK_VERSION_MAJOR 0
#define FILMDISK_VERSION_MINOR 12
#define FILMDISK_VERSION_PATCH 0

/* Limits. */
#define FILMDISK_MAX_CARD_BYTES 1519
#define FILMDISK_MAX_ZONES 64
#define FILMDISK_MAX_FILMS 16
#define FILMDISK_MAX_BLOCKS 16384 /* of all films together */
#define FILMDISK_MAX_STREAMS 256
#define FILMDISK_MAX_PAIR_STREAMS 128 /* of pairs; their desks have FILMDISK_MAX_STREAMS slots too */
#define FILMDISK_PAIR_VISITS 2 /* of pairs: positions of a block, and fetch entries that it gives */
#define FILMDISK_MAX_WINDOW 64 /* blocks of a window */
#define FILMDISK_OVERHEADS 257 /* of a sweep of 0 to 256 visits: blocks, of pairs half blocks */
#define FILMDISK_SCRATCH_WORDS 512 /* of a scratch in the lead list's place, at least */

/* The words of a plan, one after the other. */
enum filmdisk_plan_word {
    FILMDISK_PLAN_KIND, /* of the card: FILMDISK_STRAIGHT or FILMDISK_MEASURED */
    FILMDISK_PLAN_ZONES,
    FILMDISK_PLAN_POSITIONS, /* a word for each zone */
    FILMDISK_PLAN_TIMES = FILMDISK_PLAN_POSITIONS + FILMDISK_MAX_ZONES, /* a word for each zone */
    FILMDISK_PLAN_FILMS = FILMDISK_PLAN_TIMES + FILMDISK_MAX_ZONES, /* how many there are */
    FILMDISK_PLAN_BLOCKS, /* a word for each film: its blocks, 0 past the last film */
    FILMDISK_PLAN_BLOCK_BYTES = FILMDISK_PLAN_BLOCKS + FILMDISK_MAX_FILMS,
    FILMDISK_PLAN_RATE,
    FILMDISK_PLAN_TABLE, /* a word for each overhead: that of a sweep of k visits is word k */
    FILMDISK_PLAN_STREAMS = FILMDISK_PLAN_TABLE + FILMDISK_OVERHEADS,
    FILMDISK_PLAN_BUFFER,
    FILMDISK_PLAN_WORST2,
    FILMDISK_PLAN_MARGIN,
    FILMDISK_PLAN_SHOWING,
    FILMDISK_PLAN_WORSTAT, /* through the lists: the first block of the worst pair, the earliest of equal ones; of pairs the first slowest block */
    FILMDISK_PLAN_WORDS /* how many there are */
};

/* The words of a desk, which begins with its plan. */
enum filmdisk_desk_word {
    FILMDISK_DESK_PHASE = FILMDISK_PLAN_WORDS,
    FILMDISK_DESK_KINDS, /* a word for each slot */
    FILMDISK_DESK_NEXT = FILMDISK_DESK_KINDS + FILMDISK_MAX_STREAMS, /* a word for each slot: its film, and below FILMDISK_FILM_SHIFT its block */
    FILMDISK_DESK_HELD = FILMDISK_DESK_NEXT + FILMDISK_MAX_STREAMS, /* a word for each slot */
    FILMDISK_DESK_PLACES = FILMDISK_DESK_HELD + FILMDISK_MAX_STREAMS, /* a word for each slot: of those that have asked 1 for the eldest */
    FILMDISK_DESK_WORDS = FILMDISK_DESK_PLACES + FILMDISK_MAX_STREAMS
};

/* Of the word of a slot's next block: the film stands from this bit on, the block within it below. */
#define FILMDISK_FILM_SHIFT 16

/* The words of a fetch entry. */
enum filmdisk_fetch_word { FILMDISK_FETCH_POSITION, FILMDISK_FETCH_SLOT, FILMDISK_FETCH_BLOCK, FILMDISK_FETCH_WORDS };

/* Sizes in bytes. */
#define FILMDISK_WORD_BYTES 4
#define FILMDISK_PLAN_BYTES (FILMDISK_PLAN_WORDS * FILMDISK_WORD_BYTES)       /* 1,648 */
#define FILMDISK_DESK_BYTES (FILMDISK_DESK_WORDS * FILMDISK_WORD_BYTES)       /* 5,748 */
#define FILMDISK_ENTRY_BYTES FILMDISK_WORD_BYTES                              /* an entry of positions, leads or draws */
#define FILMDISK_FETCH_BYTES (FILMDISK_FETCH_WORDS * FILMDISK_WORD_BYTES)     /* an entry of the fetch list */
#define FILMDISK_SCRATCH_BYTES (FILMDISK_SCRATCH_WORDS * FILMDISK_WORD_BYTES) /* 2,048, a scratch */

/* Stack in bytes that a call takes below the caller's frame, at most. */
#define FILMDISK_STACK_PLAN 4300
#define FILMDISK_STACK_PLAN_LOOP 4300
#define FILMDISK_STACK_PLAN_PAIRS 4300
#define FILMDISK_STACK_WINDOW 3200
#define FILMDISK_STACK_OPEN 3200
#define FILMDISK_STACK_JOIN 3400
#define FILMDISK_STACK_LEAVE 3400
#define FILMDISK_STACK_BEGIN 28900
#define FILMDISK_STACK_DRAW_LIMIT 16
#define FILMDISK_STACK_END 9700
#define FILMDISK_STACK_PLAN_SCRATCH 4300
#define FILMDISK_STACK_PLAN_LOOP_SCRATCH 4300
#define FILMDISK_STACK_PLAN_PAIRS_SCRATCH 4300
#define FILMDISK_STACK_OPEN_SCRATCH 3200
#define FILMDISK_STACK_JOIN_SCRATCH 3400
#define FILMDISK_STACK_LEAVE_SCRATCH 3400
#define FILMDISK_STACK_BEGIN_SCRATCH 28900
#define FILMDISK_STACK_END_SCRATCH 9700

/* The kind of a card: overheads by hop and return, or measured for each number of visits. */
enum filmdisk_card_kind { FILMDISK_STRAIGHT = 1, FILMDISK_MEASURED = 2 };

/* The showing of a plan: each film once through; as a loop, whose last block is followed by its first; as pairs, once through by half blocks. */
enum filmdisk_showing { FILMDISK_ONCE = 0, FILMDISK_LOOP = 1, FILMDISK_PAIRS = 2 };

/* The kind of a slot. */
enum filmdisk_kind {
    FILMDISK_FREE = 0,
    FILMDISK_ASKED = 1,
    FILMDISK_FILLING = 2,
    FILMDISK_PLAYING = 3,
    FILMDISK_TAIL = 4 /* never on a loop's desk */
};

/* The phase of a desk. */
enum filmdisk_phase { FILMDISK_BETWEEN = 0, FILMDISK_SWEEPING = 1 };

/* Why a call is refused; `place` is 0 where nothing is said of it. */
enum filmdisk_number {
    FILMDISK_ACCEPTED = 0,
    FILMDISK_REFUSED_CARD_ENDS = 1,         /* place: card length */
    FILMDISK_REFUSED_NUMBER_FORM = 2,       /* 2 to 10, place: offset of the number in the card */
    FILMDISK_REFUSED_KIND = 3,
    FILMDISK_REFUSED_ZONES = 4,
    FILMDISK_REFUSED_ZONE_POSITIONS = 5,
    FILMDISK_REFUSED_ZONE_TIME = 6,
    FILMDISK_REFUSED_ZONE_TIME_RISES = 7,
    FILMDISK_REFUSED_BLOCKS = 8,
    FILMDISK_REFUSED_BLOCKS_ABOVE_POSITIONS = 9,
    FILMDISK_REFUSED_MEASURE = 10,
    FILMDISK_REFUSED_CARD_GOES_ON = 11,     /* place: first extra offset */
    FILMDISK_REFUSED_NO_STREAM = 12,
    FILMDISK_REFUSED_TOO_SHORT = 13,
    FILMDISK_REFUSED_NOT_SOUND = 14,
    FILMDISK_REFUSED_WRONG_PHASE = 15,
    FILMDISK_REFUSED_NO_SUCH_SLOT = 16,     /* 16 to 18, place: slot */
    FILMDISK_REFUSED_SLOT_STATE = 17,
    FILMDISK_REFUSED_NO_SUCH_BLOCK = 18,
    FILMDISK_REFUSED_DRAW_COUNT = 19,
    FILMDISK_REFUSED_DRAW_ABOVE_LIMIT = 20, /* 20 and 21, place: lowest such slot */
    FILMDISK_REFUSED_DRAW_ABOVE_HELD = 21,
    FILMDISK_REFUSED_TABLE = 25,               /* 25 and 26, place: offset of the number in the card */
    FILMDISK_REFUSED_ZONE_TIME_HALF_DEAD = 26,
    FILMDISK_REFUSED_WINDOW = 27,
    FILMDISK_REFUSED_HALVES_ABOVE_POSITIONS = 28, /* in the place of 9, of pairs; place: offset of the number in the card */
    FILMDISK_REFUSED_FILMS = 30,               /* place: offset of the number of films, or of the blocks that are too many, in the card */
    FILMDISK_REFUSED_NO_SUCH_FILM = 31         /* place: slot */
};

/* The answer of every call but that of windows and of draw limits. Refused: number and place, the rest 0. Accepted: number and place 0. */
typedef struct filmdisk_answer {
    uint32_t number; /* 0, or why the call is refused */
    size_t place;
    uint32_t count;  /* begin: fetch entries written */
    uint32_t bound;  /* begin: sweep bound in microseconds */
} filmdisk_answer;

/*
 * The answer of filmdisk_window: any window of so many blocks is read in at most `time`, so `bytes` in that time are guaranteed. Refused:
 * number and place, the rest 0.
 */
typedef struct filmdisk_window_answer {
    uint32_t number; /* 0, or why the call is refused */
    size_t place;
    uint32_t time;   /* the worst time of the window's blocks, in microseconds */
    uint32_t first;  /* through the lists: the first of the blocks that take it, the earliest where several windows do */
    uint32_t bytes;  /* the window's bytes: its blocks times B */
} filmdisk_window_answer;

/* A number's meaning in plain words. */
static inline const char *filmdisk_meaning(uint32_t number)
{
    static const char *const meanings[] = {
        "accepted",
        "card ends too early",
        "number not shortest, over five bytes, or above 4,294,967,295",
        "kind not 1 or 2",
        "zones out of range",
        "zone without positions, or total so far too great",
        "zone time out of range",
        "zone time above the one before",
        "film blocks out of range",
        "film blocks above the positions still free",
        "block bytes, rate, hop or return out of range",
        "bytes left over",
        "not even one stream fits",
        "lent list or scratch too short, or a plan or desk string of another length where it is only written",
        "record not sound with these lists, or a plan or desk string of another length where it is read",
        "wrong phase",
        "no such slot",
        "join on an occupied, leave on a free slot",
        "no such start block",
        "draw list not as long as there are streams",
        "draw above what the slot may draw",
        "draw above held"
    };
    if (number == FILMDISK_REFUSED_TABLE)
        return "overhead of a measured table out of range, or below the one before";
    if (number == FILMDISK_REFUSED_ZONE_TIME_HALF_DEAD)
        return "zone time, times three, below the first zone's time";
    if (number == FILMDISK_REFUSED_WINDOW)
        return "window of 0 blocks, above 64 or above the longest film's";
    if (number == FILMDISK_REFUSED_HALVES_ABOVE_POSITIONS)
        return "half blocks, two for each film block, above the positions still free";
    if (number == FILMDISK_REFUSED_FILMS)
        return "films out of range, or blocks of all films above 16,384";
    if (number == FILMDISK_REFUSED_NO_SUCH_FILM)
        return "no such film";
    return number < sizeof meanings / sizeof meanings[0] ? meanings[number] : "no such number";
}

/* The word `index` of a string. */
static inline uint32_t filmdisk_word(const uint8_t *bytes, size_t index)
{
    const uint8_t *b = bytes + FILMDISK_WORD_BYTES * index;
    return (uint32_t)b[0] | (uint32_t)b[1] << 8 | (uint32_t)b[2] << 16 | (uint32_t)b[3] << 24;
}

/* Writes the word `index` of a string. */
static inline void filmdisk_put_word(uint8_t *bytes, size_t index, uint32_t word)
{
    uint8_t *b = bytes + FILMDISK_WORD_BYTES * index;
    b[0] = (uint8_t)word;
    b[1] = (uint8_t)(word >> 8);
    b[2] = (uint8_t)(word >> 16);
    b[3] = (uint8_t)(word >> 24);
}

/*
 * The blocks of a film, by an accepted plan or by a desk, which begins with one; 0 past the last film. This function takes a film of 0 to
 * FILMDISK_MAX_FILMS - 1 and does not test it.
 */
static inline uint32_t filmdisk_film_blocks(const uint8_t *plan, uint32_t film)
{
    return filmdisk_word(plan, (size_t)FILMDISK_PLAN_BLOCKS + film);
}

/* Where a film starts in the lists: the blocks of all films before it. Of pairs its first entry of the positions is twice as far. */
static inline uint32_t filmdisk_film_start(const uint8_t *plan, uint32_t film)
{
    uint32_t start = 0;
    for (uint32_t i = 0; i < film && i < FILMDISK_MAX_FILMS; i++)
        start += filmdisk_film_blocks(plan, i);
    return start;
}

/* The blocks of all films: entries of the lead list, and of the positions of all but pairs. */
static inline uint32_t filmdisk_blocks(const uint8_t *plan)
{
    return filmdisk_film_start(plan, FILMDISK_MAX_FILMS);
}

/* The film of a block that is counted through the lists; less filmdisk_film_start of the film it is the block within it. */
static inline uint32_t filmdisk_film_at(const uint8_t *plan, uint32_t block)
{
    uint32_t film = 0;
    while (film + 1 < FILMDISK_MAX_FILMS && filmdisk_film_start(plan, film + 1) <= block)
        film++;
    return film;
}

/* Two successive blocks of a film, counted through the lists. */
typedef struct filmdisk_pair {
    uint32_t first;
    uint32_t second; /* the film's first block after the last of a loop */
} filmdisk_pair;

/* The visits of the disk for a block, by an accepted plan or by a desk, which begins with one: 2 of pairs, else 1. */
static inline uint32_t filmdisk_visits(const uint8_t *plan)
{
    return filmdisk_word(plan, FILMDISK_PLAN_SHOWING) == FILMDISK_PAIRS ? FILMDISK_PAIR_VISITS : 1;
}

/*
 * The blocks that take worst2, both of one film, by an accepted plan or by a desk, which begins with one. Not for pairs, where worst2 is twice
 * the time of one block: of these `first` is that block and `second` the one after it, after a film's last its first, of which nothing is said.
 */
static inline filmdisk_pair filmdisk_worst_pair(const uint8_t *plan)
{
    filmdisk_pair pair;
    pair.first = filmdisk_word(plan, FILMDISK_PLAN_WORSTAT);
    uint32_t film = filmdisk_film_at(plan, pair.first);
    pair.second = pair.first + 1 < filmdisk_film_start(plan, film + 1) ? pair.first + 1 : filmdisk_film_start(plan, film);
    return pair;
}

/*
 * The kind of a slot. This function and the next four take any slot of a desk, 0 to FILMDISK_MAX_STREAMS - 1, and do not test it: with a
 * greater one they read other bytes. Slots from the plan's streams on are free.
 */
static inline uint32_t filmdisk_slot_kind(const uint8_t *desk, uint32_t slot)
{
    return filmdisk_word(desk, (size_t)FILMDISK_DESK_KINDS + slot);
}

/* The film that the slot watches, from 0; 0 for a free slot. */
static inline uint32_t filmdisk_slot_film(const uint8_t *desk, uint32_t slot)
{
    return filmdisk_word(desk, (size_t)FILMDISK_DESK_NEXT + slot) >> FILMDISK_FILM_SHIFT;
}

/* The block within its film that the slot gets next; for a tail the number of the film's blocks, 0 for a free slot. */
static inline uint32_t filmdisk_slot_next(const uint8_t *desk, uint32_t slot)
{
    return filmdisk_word(desk, (size_t)FILMDISK_DESK_NEXT + slot) & ((1u << FILMDISK_FILM_SHIFT) - 1);
}

/* The bytes that the slot holds. */
static inline uint32_t filmdisk_slot_held(const uint8_t *desk, uint32_t slot)
{
    return filmdisk_word(desk, (size_t)FILMDISK_DESK_HELD + slot);
}

/* The place of an asked slot: 1 for the eldest, who is granted first; 0 for every other slot. */
static inline uint32_t filmdisk_slot_place(const uint8_t *desk, uint32_t slot)
{
    return filmdisk_word(desk, (size_t)FILMDISK_DESK_PLACES + slot);
}

/* How many slots have asked and wait: the place of the youngest. */
static inline uint32_t filmdisk_waiting(const uint8_t *desk)
{
    uint32_t waiting = 0;
    for (uint32_t slot = 0; slot < FILMDISK_MAX_STREAMS; slot++)
        waiting += filmdisk_slot_kind(desk, slot) == FILMDISK_ASKED;
    return waiting;
}

/* An entry of the fetch list: read the block of the slot's film, of pairs a half of it, at this position into the slot's buffer. */
typedef struct filmdisk_fetch {
    uint32_t position;
    uint32_t slot;
    uint32_t block;
} filmdisk_fetch;

/* The entry `index` of a fetch list. */
static inline filmdisk_fetch filmdisk_fetch_at(const uint8_t *fetches, size_t index)
{
    const uint8_t *entry = fetches + FILMDISK_FETCH_BYTES * index;
    filmdisk_fetch fetch;
    fetch.position = filmdisk_word(entry, FILMDISK_FETCH_POSITION);
    fetch.slot = filmdisk_word(entry, FILMDISK_FETCH_SLOT);
    fetch.block = filmdisk_word(entry, FILMDISK_FETCH_BLOCK);
    return fetch;
}

/* Plans a card for one showing: writes the plan and the first A entries of both lists. Refusals 1 to 11, 25, 26 and 30, then 13, then 12. */
filmdisk_answer filmdisk_plan(const uint8_t *card, size_t card_len,
                              uint8_t *plan, size_t plan_len,
                              uint8_t *positions, size_t positions_len,
                              uint8_t *leads, size_t leads_len);

/*
 * Plans a card as loops, for screens that play a film round and round; all else as above, the refusals too: 1 to 11, 25, 26 and 30, then
 * 13, then 12. Loops have a laying of their own.
 */
filmdisk_answer filmdisk_plan_loop(const uint8_t *card, size_t card_len,
                                   uint8_t *plan, size_t plan_len,
                                   uint8_t *positions, size_t positions_len,
                                   uint8_t *leads, size_t leads_len);

/*
 * Plans a card for pairs: one showing on a drive that stores each block as two halves; its zone times are for a half. No matching of halves
 * has a quicker slowest block. Writes the plan, the first 2 x A entries of the positions and A leads of 0. Refusals 1 to 8, 10, 11, 25, 26,
 * 30, and 28 in 9's place, where twice a film's blocks are above the positions still free; then 13, for positions below 2 x A too, then 12.
 */
filmdisk_answer filmdisk_plan_pairs(const uint8_t *card, size_t card_len,
                                    uint8_t *plan, size_t plan_len,
                                    uint8_t *positions, size_t positions_len,
                                    uint8_t *leads, size_t leads_len);

/*
 * The worst time that `blocks` successive blocks of one film take, and where; in a loop the first block follows the last, of pairs a block
 * takes the time of both halves. Films of fewer blocks have no such window, and nothing is said of them. Writes nothing. Of positions the first
 * A entries are read, of pairs 2 x A. Refusals 14, 27.
 */
filmdisk_window_answer filmdisk_window(const uint8_t *plan, size_t plan_len,
                                       const uint8_t *positions, size_t positions_len,
                                       uint32_t blocks);

/* Opens a desk of any plan and its lists, between sweeps, all slots free: writes the whole desk. Refusals 14, 13. */
filmdisk_answer filmdisk_open(const uint8_t *plan, size_t plan_len,
                              const uint8_t *positions, size_t positions_len,
                              const uint8_t *leads, size_t leads_len,
                              uint8_t *desk, size_t desk_len);

/*
 * A free slot asks to watch a film from a start block within it: alters the desk in place, its slot alone. Its place is behind all that wait.
 * Refusals 14 to 17, 31, 18.
 */
filmdisk_answer filmdisk_join(uint8_t *desk, size_t desk_len,
                              const uint8_t *positions, size_t positions_len,
                              const uint8_t *leads, size_t leads_len,
                              uint32_t slot, uint32_t block, uint32_t film);

/*
 * An occupied slot becomes free: alters the desk in place, its slot and, if it had asked, the places behind its own, which drop by one.
 * Refusals 14 to 17.
 */
filmdisk_answer filmdisk_leave(uint8_t *desk, size_t desk_len,
                               const uint8_t *positions, size_t positions_len,
                               const uint8_t *leads, size_t leads_len,
                               uint32_t slot);

/*
 * Begins a sweep: alters the phase, kinds and places of the desk in place, writes the answer's `count` fetches, and answers its `bound`.
 * Slots that hold enough start to play; requests are granted eldest first as long as all playing slots hold enough, and the places of those
 * that wait on drop by as many. The fetch list has room for an entry for each of the n slots, of pairs for two. Refusals 14, 15, 13.
 */
filmdisk_answer filmdisk_begin(uint8_t *desk, size_t desk_len,
                               const uint8_t *positions, size_t positions_len,
                               const uint8_t *leads, size_t leads_len,
                               uint8_t *fetches, size_t fetches_len);

/*
 * The most bytes that a slot may draw in the sweep, by the desk and the bound that the begin left: above it the end answers 20. Refuses
 * nothing and writes nothing: 0 for a slot that neither plays nor is tail, for one from FILMDISK_MAX_STREAMS on, and for a string of another
 * length than a desk's. Of an accepted begin it has 32 bits.
 */
uint64_t filmdisk_draw_limit(const uint8_t *desk, size_t desk_len, uint32_t slot, uint32_t bound);

/*
 * Ends a sweep, with the bytes that each of the n slots drew: alters the desk in place, no place. Refusals 14, 15, 19, 20, 21. After the last
 * block of its film shown once, of pairs too, a slot is tail, and free when it holds no more; in a loop its next block is 0, and it is free
 * only by a leave.
 */
filmdisk_answer filmdisk_end(uint8_t *desk, size_t desk_len,
                             const uint8_t *positions, size_t positions_len,
                             const uint8_t *leads, size_t leads_len,
                             const uint8_t *draws, size_t draws_len);

/*
 * The same calls with a scratch in the lead list's place.
 *
 * Plans a card for one showing: writes the plan and the first A entries of the positions. Refusals 1 to 11, 25, 26 and 30, then 13, for a
 * short scratch too, then 12.
 */
filmdisk_answer filmdisk_plan_scratch(const uint8_t *card, size_t card_len,
                                      uint8_t *plan, size_t plan_len,
                                      uint8_t *positions, size_t positions_len,
                                      uint8_t *scratch, size_t scratch_len);

/* Plans a card as loops; all else as above. */
filmdisk_answer filmdisk_plan_loop_scratch(const uint8_t *card, size_t card_len,
                                           uint8_t *plan, size_t plan_len,
                                           uint8_t *positions, size_t positions_len,
                                           uint8_t *scratch, size_t scratch_len);

/* Plans a card for pairs: writes the plan and the first 2 x A entries of the positions. Refusals as with the list, 13 for a short scratch too. */
filmdisk_answer filmdisk_plan_pairs_scratch(const uint8_t *card, size_t card_len,
                                            uint8_t *plan, size_t plan_len,
                                            uint8_t *positions, size_t positions_len,
                                            uint8_t *scratch, size_t scratch_len);

/*
 * Opens a desk of any plan and its positions: writes the whole desk. Refusals 13 for the scratch, after which the desk string stays as it
 * was, then 14, then 13 for the desk string.
 */
filmdisk_answer filmdisk_open_scratch(const uint8_t *plan, size_t plan_len,
                                      const uint8_t *positions, size_t positions_len,
                                      const uint8_t *scratch, size_t scratch_len,
                                      uint8_t *desk, size_t desk_len);

/* A free slot asks to watch a film from a start block within it: alters the desk in place. Refusals 13, 14 to 17, 31, 18. */
filmdisk_answer filmdisk_join_scratch(uint8_t *desk, size_t desk_len,
                                      const uint8_t *positions, size_t positions_len,
                                      const uint8_t *scratch, size_t scratch_len,
                                      uint32_t slot, uint32_t block, uint32_t film);

/* An occupied slot becomes free: alters the desk in place. Refusals 13, 14 to 17. */
filmdisk_answer filmdisk_leave_scratch(uint8_t *desk, size_t desk_len,
                                       const uint8_t *positions, size_t positions_len,
                                       const uint8_t *scratch, size_t scratch_len,
                                       uint32_t slot);

/*
 * Begins a sweep: alters the desk in place, writes the answer's `count` fetches, and answers its `bound`. Refusals 13 for the scratch, 14,
 * 15, then 13 for the fetch list.
 */
filmdisk_answer filmdisk_begin_scratch(uint8_t *desk, size_t desk_len,
                                       const uint8_t *positions, size_t positions_len,
                                       const uint8_t *scratch, size_t scratch_len,
                                       uint8_t *fetches, size_t fetches_len);

/* Ends a sweep, with the bytes that each of the n slots drew: alters the desk in place. Refusals 13, 14, 15, 19, 20, 21. */
filmdisk_answer filmdisk_end_scratch(uint8_t *desk, size_t desk_len,
                                     const uint8_t *positions, size_t positions_len,
                                     const uint8_t *scratch, size_t scratch_len,
                                     const uint8_t *draws, size_t draws_len);

#ifdef __cplusplus
}
#endif

#endif
