//! Desks: lists of calls, the desks they reach, sound desks that no list reaches, corrupted
//! desks, bent lists and draws about the limit.

use super::figures::alter_figure;
use super::Rng;
use crate::book::{answer, Call, Step};
use crate::desk::{
    draw_limit, floor, sweep_bound, Desk, ASKED, FILLING, FREE, PLAYING, SLOTS, SWEEPING, TAIL,
};
use crate::plan::{Plan, Planned, TWO_MILLION};

/// How the draws of a list go, within what the slots may draw.
#[derive(Clone, Copy, Debug)]
pub enum Draw {
    None,
    Full,
    Any,
    Mixed,
}

/// The habits of one list of calls.
#[derive(Clone, Copy, Debug)]
pub struct Temper {
    /// Weights of join, leave and begin between sweeps.
    pub joins: usize,
    pub leaves: usize,
    pub begins: usize,
    /// A call in so many is anything at all.
    pub wild: usize,
    pub draw: Draw,
    /// A full house: free slots ask before each sweep, and some leave and ask again between two.
    pub full: bool,
}

pub fn temper(rng: &mut Rng) -> Temper {
    Temper {
        joins: rng.pick(&[1, 2, 4, 12]),
        leaves: rng.pick(&[0, 0, 1, 1, 3]),
        begins: rng.pick(&[1, 3, 6]),
        wild: rng.pick(&[3, 10, 40]),
        draw: rng.pick(&[Draw::None, Draw::Full, Draw::Full, Draw::Any, Draw::Mixed]),
        full: rng.once_in(4),
    }
}

/// A full house that draws all it may.
pub fn full_house(rng: &mut Rng) -> Temper {
    Temper { draw: Draw::Full, full: true, ..temper(rng) }
}

// Draws.

/// The most that a slot can draw in this sweep: what it may and what it holds.
fn most_drawn(desk: &Desk, slot: usize, bound: u32) -> u32 {
    draw_limit(desk, slot, bound).min(desk.held[slot] as u128) as u32
}

/// Draws up to the most that each slot can draw.
pub(super) fn draws_up_to(rng: &mut Rng, most: &[u32], draw: Draw) -> Vec<u32> {
    let mut one = |most: u32| match draw {
        Draw::None => 0,
        Draw::Full => most,
        Draw::Any => rng.between(0, most),
        Draw::Mixed => rng.pick(&[0, most, most / 2, most.saturating_sub(1)]),
    };
    most.iter().map(|&most| one(most)).collect()
}

/// Draws that a sound desk accepts.
pub fn fair_draws(rng: &mut Rng, desk: &Desk, draw: Draw) -> Vec<u32> {
    let bound = sweep_bound(desk);
    let most: Vec<u32> = desk.used_slots().map(|slot| most_drawn(desk, slot, bound)).collect();
    draws_up_to(rng, &most, draw)
}

/// Draws of which one or two are often at or above what the slot may draw or holds.
pub fn wild_draws(rng: &mut Rng, desk: &Desk) -> Vec<u32> {
    let bound = sweep_bound(desk);
    let mut draws = fair_draws(rng, desk, Draw::Mixed);
    let drawing = slots_where(desk, |kind| kind == PLAYING || kind == TAIL);
    for _ in 0..=rng.below(2) {
        let slot = if drawing.is_empty() || rng.once_in(4) {
            rng.below(draws.len())
        } else {
            rng.pick(&drawing) as usize
        };
        let limit = draw_limit(desk, slot, bound) as u32;
        let held = desk.held[slot];
        let any = rng.any();
        draws[slot] = rng.pick(&[limit, limit + 1, held, held + 1, held + 1, any]);
    }
    if rng.once_in(5) {
        let length = rng.below(SLOTS + 4);
        draws.resize(length, 0);
    }
    draws
}

// Calls.

/// The used slots of wanted kinds.
fn slots_where(desk: &Desk, wanted: impl Fn(u32) -> bool) -> Vec<u32> {
    desk.used_slots().filter(|&slot| wanted(desk.kinds[slot])).map(|slot| slot as u32).collect()
}

/// A join of a free slot, if there is one.
pub(super) fn fair_join(rng: &mut Rng, desk: &Desk) -> Option<Call> {
    let free = slots_where(desk, |kind| kind == FREE);
    if free.is_empty() {
        return None;
    }
    let slot = rng.pick(&free);
    let last = desk.plan.figures.blocks - 1;
    let block = if rng.once_in(3) { 0 } else { rng.between(0, last) };
    Some(Call::Join { slot, block })
}

/// A leave of an occupied slot, if there is one.
pub(super) fn fair_leave(rng: &mut Rng, desk: &Desk) -> Option<Call> {
    let occupied = slots_where(desk, |kind| kind != FREE);
    if occupied.is_empty() {
        return None;
    }
    Some(Call::Leave { slot: rng.pick(&occupied) })
}

/// The most fetches of a sweep.
pub fn most_fetches(desk: &Desk) -> usize {
    desk.visits() * desk.plan.streams as usize
}

/// A fetch list long enough.
fn fair_begin(rng: &mut Rng, desk: &Desk) -> Call {
    Call::Begin { fetch_list: most_fetches(desk) + rng.pick(&[0, 0, 1, 300]) }
}

/// Between the sweeps of a full house: whoever is free asks, at times some leave before the begin. So
/// slots that were fetched for leave and ask again in one gap.
fn full_house_call(rng: &mut Rng, desk: &Desk) -> Call {
    if let (Some(call), false) = (fair_join(rng, desk), rng.once_in(20)) {
        return call;
    }
    match fair_leave(rng, desk) {
        Some(call) if rng.once_in(3) => call,
        _ => fair_begin(rng, desk),
    }
}

/// A call that the desk accepts.
pub fn fair_call(rng: &mut Rng, desk: &Desk, temper: &Temper) -> Call {
    if desk.phase == SWEEPING {
        return Call::End { draws: fair_draws(rng, desk, temper.draw) };
    }
    if temper.full {
        return full_house_call(rng, desk);
    }
    let choice = rng.below(temper.joins + temper.leaves + temper.begins);
    let call = if choice < temper.joins {
        fair_join(rng, desk)
    } else if choice < temper.joins + temper.leaves {
        fair_leave(rng, desk)
    } else {
        None
    };
    call.unwrap_or_else(|| fair_begin(rng, desk))
}

/// A slot of a wanted kind, about n, or anything.
pub(super) fn wild_slot(rng: &mut Rng, desk: &Desk, wanted: impl Fn(u32) -> bool) -> u32 {
    let slots = slots_where(desk, wanted);
    if !slots.is_empty() && rng.once_in(2) {
        return rng.pick(&slots);
    }
    let n = desk.plan.streams;
    let (used, any) = (rng.between(0, n - 1), rng.any());
    rng.pick(&[used, used, used, n - 1, n, n + 1, 255, 256, any])
}

pub(super) fn wild_join(rng: &mut Rng, desk: &Desk) -> Call {
    let blocks = desk.plan.figures.blocks;
    let any = rng.any();
    let block = rng.pick(&[0, blocks - 1, blocks, blocks + 1, any]);
    Call::Join { slot: wild_slot(rng, desk, |kind| kind == FREE), block }
}

/// A call of any sort with any arguments, on a sound desk; more often one of its phase.
pub fn wild_call(rng: &mut Rng, desk: &Desk) -> Call {
    let most = most_fetches(desk);
    let sort = match rng.below(4) {
        0 => rng.below(4),
        _ if desk.phase == SWEEPING => 3,
        _ => rng.below(3),
    };
    match sort {
        0 => wild_join(rng, desk),
        1 => Call::Leave { slot: wild_slot(rng, desk, |kind| kind != FREE) },
        2 => Call::Begin { fetch_list: rng.pick(&[0, most - 1, most, most + 1, 1000]) },
        _ => Call::End { draws: wild_draws(rng, desk) },
    }
}

// Lists.

/// A list that no longer begins with the plan's entries.
pub fn spoiled_list(rng: &mut Rng, list: &[u32]) -> Vec<u32> {
    let mut spoiled = list.to_vec();
    let place = rng.below(list.len());
    match rng.below(3) {
        0 => spoiled.truncate(place),
        1 => spoiled.truncate(list.len() - 1),
        _ => spoiled[place] = rng.other_than(list[place]),
    }
    spoiled
}

/// A list with more entries than the plan's N.
pub fn longer_list(rng: &mut Rng, list: &[u32]) -> Vec<u32> {
    let mut longer = list.to_vec();
    for _ in 0..=rng.below(4) {
        longer.push(rng.any());
    }
    longer
}

/// A plan's positions and leads, longer lists, or once in `spoiled` times bad ones.
pub(super) fn lent_lists(
    rng: &mut Rng,
    lists: (&[u32], &[u32]),
    spoiled: usize,
) -> (Vec<u32>, Vec<u32>) {
    let mut positions = lists.0.to_vec();
    let mut leads = lists.1.to_vec();
    if rng.once_in(4) {
        positions = longer_list(rng, &positions);
        leads = longer_list(rng, &leads);
    }
    if rng.once_in(spoiled) {
        match rng.below(2) {
            0 => positions = spoiled_list(rng, lists.0),
            _ => leads = spoiled_list(rng, lists.1),
        }
    }
    (positions, leads)
}

/// The next call of a list, with its lent lists, on the sound desk that the last call left.
pub fn next_step(rng: &mut Rng, planned: &Planned, desk: &Desk, temper: &Temper) -> Step {
    let call =
        if rng.once_in(temper.wild) { wild_call(rng, desk) } else { fair_call(rng, desk, temper) };
    let lists = (&planned.positions[..], &planned.leads[..]);
    let (positions, leads) = lent_lists(rng, lists, 4 * temper.wild);
    Step { positions, leads, call }
}

// Desks.

/// The desk that a random list of so many calls leaves.
pub fn reached_desk(rng: &mut Rng, planned: &Planned, calls: usize) -> Desk {
    let temper = temper(rng);
    let mut desk = Desk::all_free(&planned.plan);
    for _ in 0..calls {
        let call = fair_call(rng, &desk, &temper);
        desk = answer(&desk, &planned.positions, &planned.leads, &call).desk;
    }
    desk
}

/// Held bytes from `least` to the buffer, the ends and the edge of fetching often.
fn some_held(rng: &mut Rng, buffer: u32, block_bytes: u32, least: u32) -> u32 {
    let edge = buffer - block_bytes;
    let held = match rng.below(6) {
        0 => least,
        1 => buffer,
        2 => edge,
        3 => edge + 1,
        _ => rng.between(least, buffer),
    };
    held.clamp(least, buffer)
}

/// Held bytes of a slot of this kind, where a playing one holds at least `low`.
pub(super) fn held_of(rng: &mut Rng, kind: u32, buffer: u32, block_bytes: u32, low: u32) -> u32 {
    match kind {
        FILLING => some_held(rng, buffer, block_bytes, 0),
        PLAYING => some_held(rng, buffer, block_bytes, low),
        TAIL => some_held(rng, buffer, block_bytes, 1),
        _ => 0,
    }
}

/// The slots that have asked.
fn asked_slots(kinds: &[u32; SLOTS]) -> Vec<usize> {
    (0..SLOTS).filter(|&slot| kinds[slot] == ASKED).collect()
}

/// Places of the asked slots, in any order, and 0 of all others.
pub(super) fn some_places(rng: &mut Rng, kinds: &[u32; SLOTS]) -> [u32; SLOTS] {
    let mut asked = asked_slots(kinds);
    let mut places = [0; SLOTS];
    for place in 1..=asked.len() as u32 {
        let slot = asked.swap_remove(rng.below(asked.len()));
        places[slot] = place;
    }
    places
}

/// Gives the asked slots their places, in any order, and all others 0.
pub fn set_places(rng: &mut Rng, desk: &mut Desk) {
    desk.places = some_places(rng, &desk.kinds);
}

/// Kinds of n slots: any, or mostly asked, or all asked but for one or none. A loop has no tail.
pub(super) fn some_kinds(rng: &mut Rng, n: usize, goes_round: bool) -> [u32; SLOTS] {
    let any: &[u32] = match goes_round {
        false => &[FREE, ASKED, FILLING, FILLING, PLAYING, PLAYING, TAIL],
        true => &[FREE, ASKED, FILLING, FILLING, PLAYING, PLAYING],
    };
    let crowd = rng.below(5);
    let mut kinds = [FREE; SLOTS];
    for kind in &mut kinds[..n] {
        let asks = crowd == 0 || (crowd == 1 && !rng.once_in(6));
        *kind = if asks { ASKED } else { rng.pick(any) };
    }
    if crowd == 0 && rng.once_in(2) {
        let slot = rng.below(n);
        kinds[slot] = rng.pick(any);
    }
    kinds
}

/// A sound desk whether or not a list reaches it. A loop's has no tail.
pub fn sound_desk(rng: &mut Rng, planned: &Planned) -> Desk {
    let mut desk = Desk::all_free(&planned.plan);
    let blocks = planned.plan.figures.blocks;
    desk.phase = rng.between(0, 1);
    desk.kinds = some_kinds(rng, planned.plan.streams as usize, desk.goes_round());
    for slot in desk.used_slots() {
        desk.next[slot] = match desk.kinds[slot] {
            FREE => 0,
            TAIL => blocks,
            _ => rng.between(0, blocks - 1),
        };
    }
    let low = floor(&desk, &planned.leads).div_ceil(TWO_MILLION) as u32;
    for slot in desk.used_slots() {
        let Plan { buffer, figures, .. } = &planned.plan;
        desk.held[slot] = held_of(rng, desk.kinds[slot], *buffer, figures.block_bytes, low);
    }
    set_places(rng, &mut desk);
    desk
}

/// Alters one figure of a plan record.
pub fn alter_plan(rng: &mut Rng, plan: &mut Plan) {
    let figure = match rng.below(9) {
        0 => &mut plan.streams,
        1 => &mut plan.buffer,
        2 => &mut plan.worst2,
        3 => &mut plan.margin,
        4 => &mut plan.showing,
        5 => &mut plan.worstat,
        _ => return alter_figure(rng, &mut plan.figures),
    };
    *figure = rng.other_than(*figure);
}

/// A slot of any desk of n streams, mostly a used one.
pub(super) fn some_slot(rng: &mut Rng, n: u32) -> usize {
    let used = (n as usize).clamp(1, SLOTS);
    if rng.once_in(4) {
        rng.below(SLOTS)
    } else {
        rng.below(used)
    }
}

/// Alters one number of the slots. The record may stay sound.
fn alter_slot(rng: &mut Rng, desk: &mut Desk) {
    let slot = some_slot(rng, desk.plan.streams);
    let number = match rng.below(4) {
        0 => &mut desk.kinds[slot],
        1 => &mut desk.next[slot],
        2 => &mut desk.held[slot],
        _ => &mut desk.places[slot],
    };
    *number = if rng.once_in(3) { rng.between(0, 5) } else { rng.other_than(*number) };
}

/// Alters the places of the slots: two are alike, one is left out, one more is there, one is on
/// another slot, or two change places, which stays sound.
pub fn alter_places(rng: &mut Rng, desk: &mut Desk) {
    let any = some_slot(rng, desk.plan.streams);
    alter_places_of(rng, &desk.kinds, &mut desk.places, any);
}

/// The same of the slots of these kinds and one more slot.
pub(super) fn alter_places_of(
    rng: &mut Rng,
    kinds: &[u32; SLOTS],
    places: &mut [u32; SLOTS],
    any: usize,
) {
    let asked = asked_slots(kinds);
    let count = asked.len() as u32;
    let mut pick = || if asked.is_empty() { any } else { rng.pick(&asked) };
    let (one, other) = (pick(), pick());
    match rng.below(7) {
        0 => places[one] = places[other],
        1 => places[one] = 0,
        2 => places[one] = rng.pick(&[count + 1, 256, 257, u32::MAX]),
        3 => places[any] = rng.pick(&[1, count, count + 1]),
        4 => places.swap(one, any),
        5 => places.swap(one, other),
        _ => places[one] = rng.other_than(places[one]),
    }
}

/// Alters one number of a desk. The record may stay sound.
pub fn alter_desk(rng: &mut Rng, desk: &mut Desk) {
    match rng.below(7) {
        0 => alter_plan(rng, &mut desk.plan),
        1 => desk.phase = rng.other_than(desk.phase),
        2 => alter_places(rng, desk),
        _ => alter_slot(rng, desk),
    }
}

/// A desk of anything on a plan or on none.
pub fn random_desk(rng: &mut Rng, plan: &Plan) -> Desk {
    let mut desk = Desk::all_free(plan);
    if rng.once_in(2) {
        alter_plan(rng, &mut desk.plan);
    }
    desk.phase = rng.any();
    for slot in 0..SLOTS {
        desk.kinds[slot] = rng.any();
        desk.next[slot] = rng.any();
        desk.held[slot] = rng.any();
        desk.places[slot] = rng.any();
    }
    desk
}

/// A desk that may be sound, corrupted or noise.
pub fn any_desk(rng: &mut Rng, planned: &Planned) -> Desk {
    let calls = rng.pick(&[0, 3, 10, 40]);
    let mut desk = match rng.below(8) {
        0 => return random_desk(rng, &planned.plan),
        1..=3 => reached_desk(rng, planned, calls),
        _ => sound_desk(rng, planned),
    };
    for _ in 0..rng.pick(&[0, 1, 1, 2]) {
        alter_desk(rng, &mut desk);
    }
    desk
}

/// Any call on any desk of the plan, with any lists. The call is one for a sound desk.
pub fn any_step(rng: &mut Rng, planned: &Planned) -> (Desk, Step) {
    let sound = sound_desk(rng, planned);
    let temper = Temper { wild: 2, ..temper(rng) };
    let step = next_step(rng, planned, &sound, &temper);
    let desk = if rng.once_in(3) { any_desk(rng, planned) } else { sound };
    (desk, step)
}
