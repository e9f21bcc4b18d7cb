#include "served.h"

static void put_kind(uint8_t *desk, uint32_t slot, uint32_t kind)
{
    filmdisk_put_word(desk, FILMDISK_DESK_KINDS + slot, kind);
}

static void put_slot(uint8_t *desk, uint32_t slot, uint32_t kind, uint32_t next, uint32_t held)
{
    put_kind(desk, slot, kind);
    filmdisk_put_word(desk, FILMDISK_DESK_NEXT + slot, next);
    filmdisk_put_word(desk, FILMDISK_DESK_HELD + slot, held);
}

/* A request is granted or leaves: those behind it move up. */
static void give_up_place(uint8_t *desk, uint32_t slot)
{
    uint32_t given_up = filmdisk_slot_place(desk, slot);
    filmdisk_put_word(desk, FILMDISK_DESK_PLACES + slot, 0);
    for (uint32_t i = 0; i < FILMDISK_MAX_STREAMS; i++) {
        uint32_t place = filmdisk_slot_place(desk, i);
        filmdisk_put_word(desk, FILMDISK_DESK_PLACES + i, place > given_up ? place - 1 : place);
    }
}

void served_join(uint8_t *desk, uint32_t slot, uint32_t block)
{
    filmdisk_put_word(desk, FILMDISK_DESK_PLACES + slot, filmdisk_waiting(desk) + 1);
    put_slot(desk, slot, FILMDISK_ASKED, block, 0);
}

void served_leave(uint8_t *desk, uint32_t slot)
{
    if (filmdisk_slot_kind(desk, slot) == FILMDISK_ASKED)
        give_up_place(desk, slot);
    put_slot(desk, slot, FILMDISK_FREE, 0, 0);
}

/* What a slot lifts the floor by. */
static uint64_t lift_of(const uint8_t *desk, const struct film *film, uint32_t slot)
{
    return (uint64_t)film->card.rate * filmdisk_word(film->leads, filmdisk_slot_next(desk, slot));
}

static int is_active(const uint8_t *desk, uint32_t slot)
{
    uint32_t kind = filmdisk_slot_kind(desk, slot);
    return kind == FILMDISK_FILLING || kind == FILMDISK_PLAYING;
}

/* The floor in two-millionths of a byte. */
static uint64_t floor_of(const uint8_t *desk, const struct film *film)
{
    uint64_t floor = (uint64_t)2000000 * film->card.bytes;
    for (uint32_t slot = 0; slot < film->promise.streams; slot++)
        floor += is_active(desk, slot) ? lift_of(desk, film, slot) : 0;
    return floor;
}

static int holds(const uint8_t *desk, uint32_t slot, uint64_t shares)
{
    return (uint64_t)2000000 * filmdisk_slot_held(desk, slot) >= shares;
}

/* Fills the slot if every playing one holds the floor with its lead. */
static int grant(uint8_t *desk, const struct film *film, uint32_t slot)
{
    uint64_t shares = floor_of(desk, film) + lift_of(desk, film, slot);
    for (uint32_t i = 0; i < film->promise.streams; i++)
        if (filmdisk_slot_kind(desk, i) == FILMDISK_PLAYING && !holds(desk, i, shares))
            return 0;
    put_kind(desk, slot, FILMDISK_FILLING);
    give_up_place(desk, slot);
    return 1;
}

/* The slot with place 1, or one past the last. */
static uint32_t eldest(const uint8_t *desk)
{
    uint32_t slot = 0;
    while (slot < FILMDISK_MAX_STREAMS && filmdisk_slot_place(desk, slot) != 1)
        slot++;
    return slot;
}

/* Filling slots that hold so much play. */
static void start_playing(uint8_t *desk, const struct film *film, uint64_t shares)
{
    for (uint32_t slot = 0; slot < film->promise.streams; slot++)
        if (filmdisk_slot_kind(desk, slot) == FILMDISK_FILLING && holds(desk, slot, shares))
            put_kind(desk, slot, FILMDISK_PLAYING);
}

static int is_fetched(const uint8_t *desk, const struct film *film, uint32_t slot)
{
    return is_active(desk, slot) && filmdisk_slot_held(desk, slot) + film->card.bytes <= film->promise.buffer;
}

static uint32_t bound_of(const uint8_t *desk, const struct film *film)
{
    uint32_t bound = film->card.back;
    for (uint32_t slot = 0; slot < film->promise.streams; slot++)
        if (is_fetched(desk, film, slot))
            bound += laid_time(film, filmdisk_slot_next(desk, slot)) + film->card.hop;
    return bound;
}

uint32_t served_begin(uint8_t *desk, const struct film *film, enum order order)
{
    uint64_t shares = floor_of(desk, film);
    if (order == BY_PLACE && filmdisk_waiting(desk) > 0)
        shares += lift_of(desk, film, eldest(desk));
    start_playing(desk, film, shares);
    if (order == BY_PLACE)
        while (filmdisk_waiting(desk) > 0 && grant(desk, film, eldest(desk)))
            ;
    else
        for (uint32_t slot = 0; slot < film->promise.streams; slot++)
            if (filmdisk_slot_kind(desk, slot) == FILMDISK_ASKED)
                grant(desk, film, slot);
    return bound_of(desk, film);
}

void served_end(uint8_t *desk, const struct film *film, const uint8_t *draws)
{
    for (uint32_t slot = 0; slot < film->promise.streams; slot++) {
        uint32_t kind = filmdisk_slot_kind(desk, slot), next = filmdisk_slot_next(desk, slot);
        uint32_t held = filmdisk_slot_held(desk, slot) - filmdisk_word(draws, slot);
        if (is_fetched(desk, film, slot)) {
            held += film->card.bytes;
            kind = ++next == film->card.blocks ? FILMDISK_TAIL : kind;
        }
        if (kind == FILMDISK_TAIL && held == 0)
            put_slot(desk, slot, FILMDISK_FREE, 0, 0);
        else
            put_slot(desk, slot, kind, next, held);
    }
}
