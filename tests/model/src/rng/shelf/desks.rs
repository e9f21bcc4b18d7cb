//! Desks on shelves: lists of calls, sound desks that no list reaches, corrupted desks.

use super::alter_shelf;
use crate::desk::{FREE, PLAYING, SLOTS, SWEEPING, TAIL};
use crate::plan::TWO_MILLION;
use crate::rng::desks::{
    alter_places_of, draws_up_to, held_of, lent_lists, some_kinds, some_places, some_slot, temper,
    Draw, Temper,
};
use crate::rng::Rng;
use crate::shelf::desk::{draw_limit, floor, most_fetches, sweep_bound};
use crate::shelf::{answer, Call, Desk, Plan, Planned, Rule, Step};

// Draws.

/// Draws that a sound desk accepts.
pub fn fair_draws(rng: &mut Rng, desk: &Desk, draw: Draw) -> Vec<u32> {
    let bound = sweep_bound(desk);
    let most = |slot| draw_limit(desk, slot, bound).min(desk.held[slot] as u128) as u32;
    let most: Vec<u32> = desk.used_slots().map(most).collect();
    draws_up_to(rng, &most, draw)
}

/// Draws of which one or two are often at or above what the slot may draw or holds.
pub fn wild_draws(rng: &mut Rng, desk: &Desk) -> Vec<u32> {
    let bound = sweep_bound(desk);
    let mut draws = fair_draws(rng, desk, Draw::Mixed);
    for _ in 0..=rng.below(2) {
        let slot = wild_slot(rng, desk, |kind| kind == PLAYING || kind == TAIL) as usize;
        let any = rng.any();
        if let Some(draw) = draws.get_mut(slot) {
            let limit = draw_limit(desk, slot, bound) as u32;
            let held = desk.held[slot];
            *draw = rng.pick(&[limit, limit + 1, held, held + 1, held + 1, any]);
        }
    }
    if rng.once_in(5) {
        draws.resize(rng.below(SLOTS + 4), 0);
    }
    draws
}

// Calls.

/// The used slots of wanted kinds.
fn slots_where(desk: &Desk, wanted: impl Fn(u32) -> bool) -> Vec<u32> {
    desk.used_slots().filter(|&slot| wanted(desk.kinds[slot])).map(|slot| slot as u32).collect()
}

/// A block and its film, the film's first and last blocks often.
pub fn some_start(rng: &mut Rng, desk: &Desk) -> (u32, u32) {
    let film = rng.between(0, desk.plan.figures.films - 1);
    let last = desk.plan.figures.blocks[film as usize] - 1;
    let any = rng.between(0, last);
    (rng.pick(&[0, 0, last, any, any]), film)
}

/// A join of a free slot, if there is one.
pub(super) fn fair_join(rng: &mut Rng, desk: &Desk) -> Option<Call> {
    let free = slots_where(desk, |kind| kind == FREE);
    if free.is_empty() {
        return None;
    }
    let slot = rng.pick(&free);
    let (block, film) = some_start(rng, desk);
    Some(Call::Join { slot, block, film })
}

/// A leave of an occupied slot, if there is one.
pub(super) fn fair_leave(rng: &mut Rng, desk: &Desk) -> Option<Call> {
    let occupied = slots_where(desk, |kind| kind != FREE);
    if occupied.is_empty() {
        return None;
    }
    Some(Call::Leave { slot: rng.pick(&occupied) })
}

/// A fetch list long enough.
fn fair_begin(rng: &mut Rng, desk: &Desk) -> Call {
    Call::Begin { fetch_list: most_fetches(desk) + rng.pick(&[0, 0, 1, 300]) }
}

/// Between the sweeps of a full house: whoever is free asks, at times some leave before the begin.
fn full_house_call(rng: &mut Rng, desk: &Desk) -> Call {
    if let (Some(call), false) = (fair_join(rng, desk), rng.once_in(20)) {
        return call;
    }
    match fair_leave(rng, desk) {
        Some(call) if rng.once_in(3) => call,
        _ => fair_begin(rng, desk),
    }
}

/// A call that the desk accepts.
pub fn fair_call(rng: &mut Rng, desk: &Desk, temper: &Temper) -> Call {
    if desk.phase == SWEEPING {
        return Call::End { draws: fair_draws(rng, desk, temper.draw) };
    }
    if temper.full {
        return full_house_call(rng, desk);
    }
    let choice = rng.below(temper.joins + temper.leaves + temper.begins);
    let call = if choice < temper.joins {
        fair_join(rng, desk)
    } else if choice < temper.joins + temper.leaves {
        fair_leave(rng, desk)
    } else {
        None
    };
    call.unwrap_or_else(|| fair_begin(rng, desk))
}

/// A slot of a wanted kind, about n, or anything.
pub(super) fn wild_slot(rng: &mut Rng, desk: &Desk, wanted: impl Fn(u32) -> bool) -> u32 {
    let slots = slots_where(desk, wanted);
    if !slots.is_empty() && rng.once_in(2) {
        return rng.pick(&slots);
    }
    let n = desk.plan.streams;
    let (used, any) = (rng.between(0, n - 1), rng.any());
    rng.pick(&[used, used, used, n - 1, n, n + 1, 255, 256, any])
}

/// A block about the end of any film, of all films together, or whose number would reach into a later
/// film.
fn wild_block(rng: &mut Rng, desk: &Desk) -> u32 {
    let figures = &desk.plan.figures;
    let blocks = rng.pick(figures.lengths());
    let all = figures.all_blocks() as u32;
    let any = rng.any();
    rng.pick(&[0, 0, blocks - 1, blocks, blocks + 1, all - 1, all, 65_536, any])
}

pub(super) fn wild_join(rng: &mut Rng, desk: &Desk) -> Call {
    let films = desk.plan.figures.films;
    let any = rng.any();
    let film = rng.pick(&[0, films - 1, films - 1, films, films + 1, 15, 16, 256, 65_536, any]);
    let slot = wild_slot(rng, desk, |kind| kind == FREE);
    Call::Join { slot, block: wild_block(rng, desk), film }
}

/// A call of any sort with any arguments, on a sound desk; more often one of its phase.
pub fn wild_call(rng: &mut Rng, desk: &Desk) -> Call {
    let most = most_fetches(desk);
    let sort = match rng.below(4) {
        0 => rng.below(4),
        _ if desk.phase == SWEEPING => 3,
        _ => rng.below(3),
    };
    match sort {
        0 => wild_join(rng, desk),
        1 => Call::Leave { slot: wild_slot(rng, desk, |kind| kind != FREE) },
        2 => Call::Begin { fetch_list: rng.pick(&[0, most / 2, most - 1, most, most + 1, 1000]) },
        _ => Call::End { draws: wild_draws(rng, desk) },
    }
}

/// The next call of a list, with its lent lists, on the sound desk that the last call left.
pub fn next_step(rng: &mut Rng, planned: &Planned, desk: &Desk, temper: &Temper) -> Step {
    let call =
        if rng.once_in(temper.wild) { wild_call(rng, desk) } else { fair_call(rng, desk, temper) };
    let lists = (&planned.positions[..], &planned.leads[..]);
    let (positions, leads) = lent_lists(rng, lists, 4 * temper.wild);
    Step { positions, leads, call }
}

// Desks.

/// The desk that a random list of so many calls leaves.
pub fn reached_desk(rng: &mut Rng, planned: &Planned, calls: usize) -> Desk {
    let temper = temper(rng);
    let mut desk = Desk::all_free(&planned.plan);
    for _ in 0..calls {
        let call = fair_call(rng, &desk, &temper);
        desk = answer(&desk, &planned.positions, &planned.leads, &call).desk;
    }
    desk
}

/// A sound desk whether or not a list reaches it, its slots on any films.
pub fn sound_desk(rng: &mut Rng, planned: &Planned) -> Desk {
    let Planned { plan, leads, .. } = planned;
    let mut desk = Desk::all_free(plan);
    desk.phase = rng.between(0, 1);
    desk.kinds = some_kinds(rng, plan.streams as usize, desk.rule() == Rule::Loop);
    for slot in slots_where(&desk, |kind| kind != FREE) {
        let slot = slot as usize;
        let (block, film) = some_start(rng, &desk);
        desk.films[slot] = film;
        desk.next[slot] = match desk.kinds[slot] {
            TAIL => plan.figures.blocks[film as usize],
            _ => block,
        };
    }
    let low = floor(&desk, leads).div_ceil(TWO_MILLION) as u32;
    for slot in desk.used_slots() {
        let (kind, bytes) = (desk.kinds[slot], plan.figures.block_bytes);
        desk.held[slot] = held_of(rng, kind, plan.buffer, bytes, low);
    }
    set_places(rng, &mut desk);
    desk
}

/// Alters one figure of a plan record.
pub fn alter_plan(rng: &mut Rng, plan: &mut Plan) {
    let figure = match rng.below(9) {
        0 => &mut plan.streams,
        1 => &mut plan.buffer,
        2 => &mut plan.worst2,
        3 => &mut plan.margin,
        4 => &mut plan.showing,
        5 => &mut plan.worstat,
        _ => return alter_shelf(rng, &mut plan.figures),
    };
    *figure = rng.other_than(*figure);
}

/// Alters a slot's film: often another of the shelf, or the first one that it has not.
pub fn alter_film(rng: &mut Rng, desk: &mut Desk, slot: usize) {
    let films = desk.plan.figures.films;
    let any = rng.any();
    desk.films[slot] = rng.pick(&[0, films.wrapping_sub(1), films, films, 15, 16, any]);
}

/// Gives the asked slots their places, in any order, and all others 0.
pub fn set_places(rng: &mut Rng, desk: &mut Desk) {
    desk.places = some_places(rng, &desk.kinds);
}

/// Alters the places of the slots: two are alike, one is left out, one more is there, one is on
/// another slot, or two change places, which stays sound.
pub fn alter_places(rng: &mut Rng, desk: &mut Desk) {
    let any = some_slot(rng, desk.plan.streams);
    alter_places_of(rng, &desk.kinds, &mut desk.places, any);
}

/// Alters one number of the slots. The record may stay sound.
fn alter_slot(rng: &mut Rng, desk: &mut Desk) {
    let slot = some_slot(rng, desk.plan.streams);
    let number = match rng.below(6) {
        0 => &mut desk.kinds[slot],
        1 => &mut desk.next[slot],
        2 => &mut desk.held[slot],
        3 => &mut desk.places[slot],
        _ => return alter_film(rng, desk, slot),
    };
    *number = if rng.once_in(3) { rng.between(0, 5) } else { rng.other_than(*number) };
}

/// Alters one number of a desk. The record may stay sound.
pub fn alter_desk(rng: &mut Rng, desk: &mut Desk) {
    match rng.below(7) {
        0 => alter_plan(rng, &mut desk.plan),
        1 => desk.phase = rng.other_than(desk.phase),
        2 => alter_places(rng, desk),
        _ => alter_slot(rng, desk),
    }
}

/// A desk of anything on a plan or on none.
pub fn random_desk(rng: &mut Rng, plan: &Plan) -> Desk {
    let mut desk = Desk::all_free(plan);
    if rng.once_in(2) {
        alter_plan(rng, &mut desk.plan);
    }
    desk.phase = rng.any();
    let columns =
        [&mut desk.kinds, &mut desk.next, &mut desk.held, &mut desk.places, &mut desk.films];
    for column in columns {
        *column = std::array::from_fn(|_| rng.any());
    }
    desk
}

/// A desk that may be sound, corrupted or noise.
pub fn any_desk(rng: &mut Rng, planned: &Planned) -> Desk {
    let calls = rng.pick(&[0, 3, 10, 40]);
    let mut desk = match rng.below(8) {
        0 => return random_desk(rng, &planned.plan),
        1..=3 => reached_desk(rng, planned, calls),
        _ => sound_desk(rng, planned),
    };
    for _ in 0..rng.pick(&[0, 1, 1, 2]) {
        alter_desk(rng, &mut desk);
    }
    desk
}

/// Any call on any desk of the plan, with any lists. The call is one for a sound desk.
pub fn any_step(rng: &mut Rng, planned: &Planned) -> (Desk, Step) {
    let sound = sound_desk(rng, planned);
    let temper = Temper { wild: 2, ..temper(rng) };
    let step = next_step(rng, planned, &sound, &temper);
    let desk = if rng.once_in(3) { any_desk(rng, planned) } else { sound };
    (desk, step)
}
