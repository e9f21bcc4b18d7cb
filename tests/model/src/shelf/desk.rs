//! The sweep desk on a shelf: 256 slots fed from one plan. A slot names its film, from 0, and its
//! next block counts within that film.
//!
//! A call answers the new desk; a refused one leaves the desk that it was given.

use super::plan::{block_time, is_plan, Plan};
use super::Rule;
use crate::desk::{
    drawn_in, Entry, Slots, ASKED, BETWEEN, FILLING, FREE, PLAYING, SLOTS, SWEEPING, TAIL,
};
use crate::plan::{narrow, TWO_MILLION};
use crate::refusal::{cause, refuse, Refusal};

/// The desk record.
#[derive(Clone, Debug, PartialEq, Eq)]
pub struct Desk {
    pub plan: Plan,
    pub phase: u32,
    pub kinds: [u32; SLOTS],
    /// Next block of each slot, within its film.
    pub next: [u32; SLOTS],
    /// Held bytes of each slot.
    pub held: [u32; SLOTS],
    /// The place of each asked slot among all that wait, 1 for the eldest; of the others 0.
    pub places: [u32; SLOTS],
    /// The film of each slot; of a free one 0.
    pub films: [u32; SLOTS],
}

impl Desk {
    /// A desk on a plan, between sweeps, all slots free.
    pub fn all_free(plan: &Plan) -> Desk {
        Desk {
            plan: plan.clone(),
            phase: BETWEEN,
            kinds: [FREE; SLOTS],
            next: [0; SLOTS],
            held: [0; SLOTS],
            places: [0; SLOTS],
            films: [0; SLOTS],
        }
    }

    /// The rule that a sound desk's plan says.
    pub fn rule(&self) -> Rule {
        Rule::of(self.plan.showing).expect("the word of a sound record")
    }

    /// Slots below n, the ones in use.
    pub fn used_slots(&self) -> std::ops::Range<usize> {
        0..self.plan.streams as usize
    }

    /// How many slots have asked.
    pub fn waiting(&self) -> u32 {
        self.kinds.iter().filter(|&&kind| kind == ASKED).count() as u32
    }

    /// The asked slot whose place is 1.
    pub fn eldest(&self) -> Option<usize> {
        (0..SLOTS).find(|&slot| self.kinds[slot] == ASKED && self.places[slot] == 1)
    }

    /// N of a film; nothing where the shelf has no such film.
    pub fn blocks_of(&self, film: u32) -> Option<u32> {
        self.plan.figures.lengths().get(film as usize).copied()
    }

    /// The slot's next block as the lists count.
    fn listed(&self, slot: usize) -> usize {
        self.plan.figures.start(self.films[slot] as usize) as usize + self.next[slot] as usize
    }
}

impl Slots for Desk {
    fn kinds(&self) -> &[u32; SLOTS] {
        &self.kinds
    }

    fn held(&self) -> &[u32; SLOTS] {
        &self.held
    }

    fn places(&self) -> &[u32; SLOTS] {
        &self.places
    }

    fn buffer(&self) -> u32 {
        self.plan.buffer
    }

    fn rate(&self) -> u32 {
        self.plan.figures.rate
    }
}

/// The answer of an accepted begin.
#[derive(Clone, Debug, PartialEq, Eq)]
pub struct Begun {
    pub desk: Desk,
    pub count: u32,
    pub bound: u32,
    /// The fetches, `count` of them, by rising position, then slot; blocks within the slot's film.
    pub entries: Vec<Entry>,
}

// The floor, in two-millionths of a byte.

/// Does the slot's next block count in the floor?
fn in_floor(kind: u32) -> bool {
    kind == FILLING || kind == PLAYING
}

/// c / 2,000,000 times the lead at the slot's next block.
fn lead_bytes(desk: &Desk, leads: &[u32], slot: usize) -> u128 {
    desk.plan.figures.rate as u128 * leads[desk.listed(slot)] as u128
}

/// The floor: B plus c / 2,000,000 times the leads at the next blocks of all filling and playing
/// slots, of whatever films.
pub fn floor(desk: &Desk, leads: &[u32]) -> u128 {
    let counted = (0..SLOTS).filter(|&slot| in_floor(desk.kinds[slot]));
    let sum: u128 = counted.map(|slot| lead_bytes(desk, leads, slot)).sum();
    TWO_MILLION * desk.plan.figures.block_bytes as u128 + sum
}

/// Does the slot hold at least `level`?
fn holds(desk: &Desk, slot: usize, level: u128) -> bool {
    TWO_MILLION * desk.held[slot] as u128 >= level
}

/// Does every playing slot hold at least `level`?
fn players_hold(desk: &Desk, level: u128) -> bool {
    (0..SLOTS).all(|slot| desk.kinds[slot] != PLAYING || holds(desk, slot, level))
}

// Soundness.

fn slot_is_zero(desk: &Desk, slot: usize) -> bool {
    [desk.kinds, desk.next, desk.held, desk.films].iter().all(|column| column[slot] == 0)
}

/// A slot's own part of soundness, all but the floor and its place, on the plan of its figures. It
/// names a film of the shelf.
fn slot_is_sound(desk: &Desk, slot: usize) -> bool {
    let (kind, next, held) = (desk.kinds[slot], desk.next[slot], desk.held[slot]);
    if slot >= desk.plan.streams as usize || kind == FREE {
        return slot_is_zero(desk, slot);
    }
    let Some(blocks) = desk.blocks_of(desk.films[slot]) else {
        return false;
    };
    let next_is_sound = match kind {
        ASKED => held == 0 && next < blocks,
        FILLING | PLAYING => next < blocks,
        TAIL => desk.rule() != Rule::Loop && held >= 1 && next == blocks,
        _ => false,
    };
    next_is_sound && held <= desk.plan.buffer
}

/// Are the places of asked slots 1 up to their count, each once, and all others 0?
fn places_are_sound(desk: &Desk) -> bool {
    let is_asked = |slot: usize| desk.kinds[slot] == ASKED;
    let mut places: Vec<u32> =
        (0..SLOTS).filter(|&slot| is_asked(slot)).map(|slot| desk.places[slot]).collect();
    places.sort_unstable();
    places.into_iter().eq(1..=desk.waiting())
        && (0..SLOTS).all(|slot| is_asked(slot) || desk.places[slot] == 0)
}

/// Is the record sound? Any record and any lists may be asked about.
pub fn is_sound(desk: &Desk, positions: &[u32], leads: &[u32]) -> bool {
    is_plan(&desk.plan, positions, leads)
        && (desk.phase == BETWEEN || desk.phase == SWEEPING)
        && (0..SLOTS).all(|slot| slot_is_sound(desk, slot))
        && places_are_sound(desk)
        && players_hold(desk, floor(desk, leads))
}

// What the calls turn down.

pub(super) fn judge_sound(desk: &Desk, positions: &[u32], leads: &[u32]) -> Result<(), Refusal> {
    if !is_sound(desk, positions, leads) {
        return refuse(cause::NOT_SOUND, 0);
    }
    Ok(())
}

fn judge_phase(desk: &Desk, phase: u32) -> Result<(), Refusal> {
    if desk.phase != phase {
        return refuse(cause::WRONG_PHASE, 0);
    }
    Ok(())
}

fn judge_slot(desk: &Desk, slot: u32) -> Result<(), Refusal> {
    if slot >= desk.plan.streams {
        return refuse(cause::SLOT, slot as u64);
    }
    Ok(())
}

/// 31 for a film that the shelf has not, then 18.
fn judge_start(desk: &Desk, slot: u32, block: u32, film: u32) -> Result<(), Refusal> {
    match desk.blocks_of(film) {
        None => refuse(cause::NO_FILM, slot as u64),
        Some(blocks) if block >= blocks => refuse(cause::START_BLOCK, slot as u64),
        Some(_) => Ok(()),
    }
}

// The calls.

/// Opens a desk between sweeps from a plan and its lists; 14 if these are not the plan of its
/// figures.
pub fn open(plan: &Plan, positions: &[u32], leads: &[u32]) -> Result<Desk, Refusal> {
    if !is_plan(plan, positions, leads) {
        return refuse(cause::NOT_SOUND, 0);
    }
    Ok(Desk::all_free(plan))
}

/// Join: a free slot becomes asked, with its start block in a film. It is the last of all that wait.
pub fn join(
    desk: &Desk,
    positions: &[u32],
    leads: &[u32],
    slot: u32,
    block: u32,
    film: u32,
) -> Result<Desk, Refusal> {
    judge_sound(desk, positions, leads)?;
    join_sound(desk, slot, block, film)
}

/// Join on a sound desk.
pub(super) fn join_sound(desk: &Desk, slot: u32, block: u32, film: u32) -> Result<Desk, Refusal> {
    judge_phase(desk, BETWEEN)?;
    judge_slot(desk, slot)?;
    if desk.kinds[slot as usize] != FREE {
        return refuse(cause::OCCUPIED_OR_FREE, slot as u64);
    }
    judge_start(desk, slot, block, film)?;
    let mut after = desk.clone();
    after.kinds[slot as usize] = ASKED;
    after.next[slot as usize] = block;
    after.films[slot as usize] = film;
    after.places[slot as usize] = desk.waiting() + 1;
    Ok(after)
}

/// A request is granted or leaves: its slot has no place any more, and later places drop by one.
fn give_up_place(desk: &mut Desk, slot: usize) {
    let place = desk.places[slot];
    desk.places[slot] = 0;
    for other in &mut desk.places {
        if *other > place {
            *other -= 1;
        }
    }
}

/// The slot becomes free, all zero.
fn free_slot(desk: &mut Desk, slot: usize) {
    desk.kinds[slot] = FREE;
    desk.next[slot] = 0;
    desk.held[slot] = 0;
    desk.films[slot] = 0;
}

/// Leave: an occupied slot becomes free, all zero; if it had asked, later places drop by one.
pub fn leave(desk: &Desk, positions: &[u32], leads: &[u32], slot: u32) -> Result<Desk, Refusal> {
    judge_sound(desk, positions, leads)?;
    leave_sound(desk, slot)
}

/// Leave on a sound desk.
pub(super) fn leave_sound(desk: &Desk, slot: u32) -> Result<Desk, Refusal> {
    judge_phase(desk, BETWEEN)?;
    judge_slot(desk, slot)?;
    if desk.kinds[slot as usize] == FREE {
        return refuse(cause::OCCUPIED_OR_FREE, slot as u64);
    }
    let mut after = desk.clone();
    if desk.kinds[slot as usize] == ASKED {
        give_up_place(&mut after, slot as usize);
    }
    free_slot(&mut after, slot as usize);
    Ok(after)
}

/// The floor with a slot's lead added.
fn floor_with(desk: &Desk, leads: &[u32], slot: usize) -> u128 {
    floor(desk, leads) + lead_bytes(desk, leads, slot)
}

/// Each filling slot that holds at least the floor becomes playing; while a request waits, it has to
/// hold the floor with the eldest's lead added.
fn start_playing(desk: &mut Desk, leads: &[u32]) {
    let level = match desk.eldest() {
        Some(eldest) => floor_with(desk, leads, eldest),
        None => floor(desk, leads),
    };
    for slot in desk.used_slots() {
        if desk.kinds[slot] == FILLING && holds(desk, slot, level) {
            desk.kinds[slot] = PLAYING;
        }
    }
}

/// Eldest first, an asked slot becomes filling if every playing slot holds at least the floor with
/// the asked slot's lead added; none behind one that has to wait. The floor has the slots granted
/// before it.
fn grant_asked(desk: &mut Desk, leads: &[u32]) {
    while let Some(eldest) = desk.eldest() {
        if !players_hold(desk, floor_with(desk, leads, eldest)) {
            return;
        }
        desk.kinds[eldest] = FILLING;
        give_up_place(desk, eldest);
    }
}

/// Is a block fetched for the slot in this sweep? Filling or playing, held + B at most the buffer.
pub fn is_fetched(desk: &Desk, slot: usize) -> bool {
    let full = desk.held[slot] as u64 + desk.plan.figures.block_bytes as u64;
    in_floor(desk.kinds[slot]) && full <= desk.plan.buffer as u64
}

/// The slots that a block is fetched for.
fn fetched_slots(desk: &Desk) -> Vec<usize> {
    desk.used_slots().filter(|&slot| is_fetched(desk, slot)).collect()
}

/// The slot's fetches, one for each visit.
fn fetches_of(desk: &Desk, positions: &[u32], slot: usize) -> Vec<Entry> {
    let visits = desk.rule().visits();
    let visited = &positions[visits * desk.listed(slot)..][..visits];
    let of_visit = |&position| Entry { position, slot: slot as u32, block: desk.next[slot] };
    visited.iter().map(of_visit).collect()
}

/// The fetches by rising position, then slot.
fn fetches(desk: &Desk, positions: &[u32]) -> Vec<Entry> {
    let slots = fetched_slots(desk).into_iter();
    let mut entries: Vec<Entry> =
        slots.flat_map(|slot| fetches_of(desk, positions, slot)).collect();
    entries.sort_by_key(|entry| (entry.position, entry.slot));
    entries
}

/// The sweep bound: fetched times added up, plus the overhead for all visits.
pub fn sweep_bound(desk: &Desk) -> u32 {
    let figures = &desk.plan.figures;
    let slots = fetched_slots(desk);
    let time = |&slot: &usize| {
        block_time(figures, desk.rule(), desk.films[slot] as usize, desk.next[slot]) as u128
    };
    let times: u128 = slots.iter().map(time).sum();
    narrow(times + figures.table[desk.rule().visits() * slots.len()] as u128)
}

/// The least length of a fetch list: n entries, for pairs 2 × n.
pub fn most_fetches(desk: &Desk) -> usize {
    desk.rule().visits() * desk.plan.streams as usize
}

/// Begin a sweep, with the length of the lent fetch list.
pub fn begin(
    desk: &Desk,
    positions: &[u32],
    leads: &[u32],
    fetch_list: usize,
) -> Result<Begun, Refusal> {
    judge_sound(desk, positions, leads)?;
    judge_phase(desk, BETWEEN)?;
    if fetch_list < most_fetches(desk) {
        return refuse(cause::TOO_SHORT, 0);
    }
    let mut after = desk.clone();
    start_playing(&mut after, leads);
    grant_asked(&mut after, leads);
    after.phase = SWEEPING;
    let entries = fetches(&after, positions);
    let count = narrow(entries.len() as u128);
    let bound = sweep_bound(&after);
    Ok(Begun { desk: after, count, bound, entries })
}

/// What the slot may draw in a sweep of that bound: a playing or tail slot c × bound / 1,000,000
/// rounded down, other kinds 0.
pub fn draw_limit(desk: &Desk, slot: usize, bound: u32) -> u128 {
    match desk.kinds[slot] {
        PLAYING | TAIL => drawn_in(desk.plan.figures.rate, bound),
        _ => 0,
    }
}

/// 19, then 20 over all slots, then 21, each at the lowest such slot.
fn judge_draws(desk: &Desk, draws: &[u32]) -> Result<(), Refusal> {
    if draws.len() != desk.plan.streams as usize {
        return refuse(cause::DRAW_LIST, 0);
    }
    let bound = sweep_bound(desk);
    for slot in desk.used_slots() {
        if draws[slot] as u128 > draw_limit(desk, slot, bound) {
            return refuse(cause::DRAW_ABOVE_LIMIT, slot as u64);
        }
    }
    for slot in desk.used_slots() {
        if draws[slot] > desk.held[slot] {
            return refuse(cause::DRAW_ABOVE_HELD, slot as u64);
        }
    }
    Ok(())
}

/// The slot's next block rises by one. At its film's N it becomes tail, or in a loop goes on with
/// block 0.
fn go_on(desk: &mut Desk, slot: usize) {
    desk.next[slot] += 1;
    if Some(desk.next[slot]) == desk.blocks_of(desk.films[slot]) {
        match desk.rule() {
            Rule::Loop => desk.next[slot] = 0,
            _ => desk.kinds[slot] = TAIL,
        }
    }
}

/// One slot at the end of a sweep: loses its draw, gains its block; a tail that holds 0 becomes free.
fn end_slot(desk: &mut Desk, slot: usize, draw: u32, fetched: bool) {
    desk.held[slot] -= draw;
    if fetched {
        desk.held[slot] += desk.plan.figures.block_bytes;
        go_on(desk, slot);
    }
    if desk.kinds[slot] == TAIL && desk.held[slot] == 0 {
        free_slot(desk, slot);
    }
}

/// End the sweep, given a draw for each of the n slots.
pub fn end(desk: &Desk, positions: &[u32], leads: &[u32], draws: &[u32]) -> Result<Desk, Refusal> {
    judge_sound(desk, positions, leads)?;
    judge_phase(desk, SWEEPING)?;
    judge_draws(desk, draws)?;
    let mut after = desk.clone();
    for slot in desk.used_slots() {
        end_slot(&mut after, slot, draws[slot], is_fetched(desk, slot));
    }
    after.phase = BETWEEN;
    Ok(after)
}
