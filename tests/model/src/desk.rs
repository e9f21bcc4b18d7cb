//! The sweep desk: 256 slots fed from one plan, a call at a time.
//!
//! A call answers the new desk; a refused one leaves the desk that it was given.

use crate::pairs::{pair_time, PAIRS, VISITS};
use crate::plan::{is_plan, narrow, time, Plan, Showing, TWO_MILLION};
use crate::refusal::{cause, refuse, Refusal};

pub const SLOTS: usize = 256;

/// Kinds of a slot.
pub const FREE: u32 = 0;
pub const ASKED: u32 = 1;
pub const FILLING: u32 = 2;
pub const PLAYING: u32 = 3;
/// All its blocks fetched; never so in a loop.
pub const TAIL: u32 = 4;

/// Phases of a desk: between sweeps, in one.
pub const BETWEEN: u32 = 0;
pub const SWEEPING: u32 = 1;

/// The desk record.
#[derive(Clone, Debug, PartialEq, Eq)]
pub struct Desk {
    pub plan: Plan,
    pub phase: u32,
    pub kinds: [u32; SLOTS],
    /// Next block of each slot.
    pub next: [u32; SLOTS],
    /// Held bytes of each slot.
    pub held: [u32; SLOTS],
    /// The place of each asked slot among all that wait, 1 for the eldest (request 5 of 02); of the
    /// others 0.
    pub places: [u32; SLOTS],
}

impl Desk {
    /// A desk on a plan, between sweeps, all slots free.
    pub fn all_free(plan: &Plan) -> Desk {
        Desk {
            plan: plan.clone(),
            phase: BETWEEN,
            kinds: [FREE; SLOTS],
            next: [0; SLOTS],
            held: [0; SLOTS],
            places: [0; SLOTS],
        }
    }

    /// The showing that a sound desk's plan says.
    pub fn showing(&self) -> Showing {
        Showing::of(self.plan.showing).expect("the word of a sound record")
    }

    /// Is block 0 next after the last?
    pub fn goes_round(&self) -> bool {
        self.plan.showing == Showing::Loop.word()
    }

    /// Visits of the disk for one block: two where it is stored as two halves.
    pub fn visits(&self) -> usize {
        match self.plan.showing {
            PAIRS => VISITS,
            _ => 1,
        }
    }

    /// Slots below n, the ones in use.
    pub fn used_slots(&self) -> std::ops::Range<usize> {
        0..self.plan.streams as usize
    }

    /// How many slots have asked.
    pub fn waiting(&self) -> u32 {
        self.kinds.iter().filter(|&&kind| kind == ASKED).count() as u32
    }

    /// The asked slot whose place is 1.
    pub fn eldest(&self) -> Option<usize> {
        (0..SLOTS).find(|&slot| self.kinds[slot] == ASKED && self.places[slot] == 1)
    }
}

/// What the claims about lists of calls read of a desk.
pub trait Slots {
    fn kinds(&self) -> &[u32; SLOTS];
    fn held(&self) -> &[u32; SLOTS];
    fn places(&self) -> &[u32; SLOTS];
    /// Bytes of each slot's buffer.
    fn buffer(&self) -> u32;
    /// c.
    fn rate(&self) -> u32;
}

impl Slots for Desk {
    fn kinds(&self) -> &[u32; SLOTS] {
        &self.kinds
    }

    fn held(&self) -> &[u32; SLOTS] {
        &self.held
    }

    fn places(&self) -> &[u32; SLOTS] {
        &self.places
    }

    fn buffer(&self) -> u32 {
        self.plan.buffer
    }

    fn rate(&self) -> u32 {
        self.plan.figures.rate
    }
}

/// One fetch of a sweep.
#[derive(Clone, Copy, Debug, PartialEq, Eq, PartialOrd, Ord)]
pub struct Entry {
    pub position: u32,
    pub slot: u32,
    pub block: u32,
}

/// The answer of an accepted begin.
#[derive(Clone, Debug, PartialEq, Eq)]
pub struct Begun {
    pub desk: Desk,
    pub count: u32,
    pub bound: u32,
    /// The fetches, `count` of them, by rising position, then slot.
    pub entries: Vec<Entry>,
}

// The floor, in two-millionths of a byte.

/// Does the slot's next block count in the floor?
fn in_floor(kind: u32) -> bool {
    kind == FILLING || kind == PLAYING
}

/// The floor: B plus c / 2,000,000 times the leads at the next blocks of all filling and playing
/// slots, here times 2,000,000.
pub fn floor(desk: &Desk, leads: &[u32]) -> u128 {
    let mut sum = 0;
    for slot in 0..SLOTS {
        if in_floor(desk.kinds[slot]) {
            sum += leads[desk.next[slot] as usize] as u128;
        }
    }
    TWO_MILLION * desk.plan.figures.block_bytes as u128 + desk.plan.figures.rate as u128 * sum
}

/// Does the slot hold at least `level` two-millionths of a byte?
fn holds(desk: &Desk, slot: usize, level: u128) -> bool {
    TWO_MILLION * desk.held[slot] as u128 >= level
}

/// Does every playing slot hold at least `level`?
fn players_hold(desk: &Desk, level: u128) -> bool {
    (0..SLOTS).all(|slot| desk.kinds[slot] != PLAYING || holds(desk, slot, level))
}

// Soundness.

fn slot_is_zero(desk: &Desk, slot: usize) -> bool {
    desk.kinds[slot] == 0 && desk.next[slot] == 0 && desk.held[slot] == 0
}

/// A slot's own part of soundness, all but the floor, on the plan of its figures.
fn slot_is_sound(desk: &Desk, slot: usize) -> bool {
    let blocks = desk.plan.figures.blocks;
    let (next, held) = (desk.next[slot], desk.held[slot]);
    if slot >= desk.plan.streams as usize {
        return slot_is_zero(desk, slot);
    }
    if held > desk.plan.buffer {
        return false;
    }
    match desk.kinds[slot] {
        FREE => slot_is_zero(desk, slot),
        ASKED => held == 0 && next < blocks,
        FILLING | PLAYING => next < blocks,
        TAIL => !desk.goes_round() && held >= 1 && next == blocks,
        _ => false,
    }
}

/// Are the places of asked slots 1 up to their count, each once, and all others 0?
fn places_are_sound(desk: &Desk) -> bool {
    let (asked, others): (Vec<usize>, Vec<usize>) =
        (0..SLOTS).partition(|&slot| desk.kinds[slot] == ASKED);
    let mut places: Vec<u32> = asked.iter().map(|&slot| desk.places[slot]).collect();
    places.sort_unstable();
    places == (1..=desk.waiting()).collect::<Vec<u32>>()
        && others.iter().all(|&slot| desk.places[slot] == 0)
}

/// Is the record sound? Any record and any lists may be asked about.
pub fn is_sound(desk: &Desk, positions: &[u32], leads: &[u32]) -> bool {
    is_plan(&desk.plan, positions, leads) && is_sound_on_plan(desk, leads)
}

/// All that a sound record asks beside the plan and the lists, which are those of its figures.
pub(crate) fn is_sound_on_plan(desk: &Desk, leads: &[u32]) -> bool {
    (desk.phase == BETWEEN || desk.phase == SWEEPING)
        && (0..SLOTS).all(|slot| slot_is_sound(desk, slot))
        && places_are_sound(desk)
        && players_hold(desk, floor(desk, leads))
}

// What the calls turn down.

pub(crate) fn judge_sound(desk: &Desk, positions: &[u32], leads: &[u32]) -> Result<(), Refusal> {
    if !is_sound(desk, positions, leads) {
        return refuse(cause::NOT_SOUND, 0);
    }
    Ok(())
}

fn judge_phase(desk: &Desk, phase: u32) -> Result<(), Refusal> {
    if desk.phase != phase {
        return refuse(cause::WRONG_PHASE, 0);
    }
    Ok(())
}

fn judge_slot(desk: &Desk, slot: u32) -> Result<(), Refusal> {
    if slot >= desk.plan.streams {
        return refuse(cause::SLOT, slot as u64);
    }
    Ok(())
}

// The calls.

/// Opens a desk between sweeps from a plan and its lists; 14 if these are not the plan of its
/// figures.
pub fn open(plan: &Plan, positions: &[u32], leads: &[u32]) -> Result<Desk, Refusal> {
    if !is_plan(plan, positions, leads) {
        return refuse(cause::NOT_SOUND, 0);
    }
    Ok(Desk::all_free(plan))
}

/// Join: a free slot becomes asked, with its start block. It is the last of all that wait.
pub fn join(
    desk: &Desk,
    positions: &[u32],
    leads: &[u32],
    slot: u32,
    block: u32,
) -> Result<Desk, Refusal> {
    judge_sound(desk, positions, leads)?;
    join_sound(desk, slot, block)
}

/// Join on a sound desk.
pub(crate) fn join_sound(desk: &Desk, slot: u32, block: u32) -> Result<Desk, Refusal> {
    judge_phase(desk, BETWEEN)?;
    judge_slot(desk, slot)?;
    if desk.kinds[slot as usize] != FREE {
        return refuse(cause::OCCUPIED_OR_FREE, slot as u64);
    }
    if block >= desk.plan.figures.blocks {
        return refuse(cause::START_BLOCK, slot as u64);
    }
    let mut after = desk.clone();
    after.kinds[slot as usize] = ASKED;
    after.next[slot as usize] = block;
    after.places[slot as usize] = desk.waiting() + 1;
    Ok(after)
}

/// A request is granted or leaves: its slot has no place any more, and later places drop by one.
fn give_up_place(desk: &mut Desk, slot: usize) {
    let place = desk.places[slot];
    desk.places[slot] = 0;
    for other in &mut desk.places {
        if *other > place {
            *other -= 1;
        }
    }
}

/// The slot becomes free, all zero.
fn free_slot(desk: &mut Desk, slot: usize) {
    desk.kinds[slot] = FREE;
    desk.next[slot] = 0;
    desk.held[slot] = 0;
}

/// Leave: an occupied slot becomes free, all zero; if it had asked, later places drop by one.
pub fn leave(desk: &Desk, positions: &[u32], leads: &[u32], slot: u32) -> Result<Desk, Refusal> {
    judge_sound(desk, positions, leads)?;
    leave_sound(desk, slot)
}

/// Leave on a sound desk.
pub(crate) fn leave_sound(desk: &Desk, slot: u32) -> Result<Desk, Refusal> {
    judge_phase(desk, BETWEEN)?;
    judge_slot(desk, slot)?;
    if desk.kinds[slot as usize] == FREE {
        return refuse(cause::OCCUPIED_OR_FREE, slot as u64);
    }
    let mut after = desk.clone();
    if desk.kinds[slot as usize] == ASKED {
        give_up_place(&mut after, slot as usize);
    }
    free_slot(&mut after, slot as usize);
    Ok(after)
}

/// The floor with a slot's lead added.
fn floor_with(desk: &Desk, leads: &[u32], slot: usize) -> u128 {
    let lead = leads[desk.next[slot] as usize] as u128;
    floor(desk, leads) + desk.plan.figures.rate as u128 * lead
}

/// Each filling slot that holds at least the floor becomes playing; while a request waits, it has to
/// hold the floor with the eldest's lead added.
fn start_playing(desk: &mut Desk, leads: &[u32]) {
    let level = match desk.eldest() {
        Some(eldest) => floor_with(desk, leads, eldest),
        None => floor(desk, leads),
    };
    for slot in desk.used_slots() {
        if desk.kinds[slot] == FILLING && holds(desk, slot, level) {
            desk.kinds[slot] = PLAYING;
        }
    }
}

/// Eldest first, an asked slot becomes filling if every playing slot holds at least the floor with
/// the asked slot's lead added; none behind one that has to wait. The floor has the slots granted
/// before it.
fn grant_asked(desk: &mut Desk, leads: &[u32]) {
    while let Some(eldest) = desk.eldest() {
        if !players_hold(desk, floor_with(desk, leads, eldest)) {
            return;
        }
        desk.kinds[eldest] = FILLING;
        give_up_place(desk, eldest);
    }
}

/// Is a block fetched for the slot in this sweep? Filling or playing, held + B at most the buffer.
pub fn is_fetched(desk: &Desk, slot: usize) -> bool {
    let full = desk.held[slot] as u64 + desk.plan.figures.block_bytes as u64;
    in_floor(desk.kinds[slot]) && full <= desk.plan.buffer as u64
}

/// The fetches by rising position, then slot, one for each visit.
fn fetches(desk: &Desk, positions: &[u32]) -> Vec<Entry> {
    let mut entries = Vec::new();
    for slot in desk.used_slots() {
        if is_fetched(desk, slot) {
            let block = desk.next[slot];
            let visited = positions.chunks(desk.visits()).nth(block as usize).expect("its entries");
            let slot = slot as u32;
            entries.extend(visited.iter().map(|&position| Entry { position, slot, block }));
        }
    }
    entries.sort_by_key(|entry| (entry.position, entry.slot));
    entries
}

/// The time of a block: its pair's where it is stored as two halves.
fn block_time(desk: &Desk, block: u32) -> u32 {
    match desk.plan.showing {
        PAIRS => pair_time(&desk.plan.figures, block),
        _ => time(&desk.plan.figures, desk.showing(), block),
    }
}

/// The sweep bound: fetched times added up, plus the overhead for all visits.
pub fn sweep_bound(desk: &Desk) -> u32 {
    let figures = &desk.plan.figures;
    let mut times = 0;
    let mut count = 0;
    for slot in desk.used_slots() {
        if is_fetched(desk, slot) {
            times += block_time(desk, desk.next[slot]) as u128;
            count += desk.visits();
        }
    }
    narrow(times + figures.table[count] as u128)
}

/// Begin a sweep, with the length of the lent fetch list.
pub fn begin(
    desk: &Desk,
    positions: &[u32],
    leads: &[u32],
    fetch_list: usize,
) -> Result<Begun, Refusal> {
    judge_sound(desk, positions, leads)?;
    begin_sound(desk, positions, leads, fetch_list)
}

/// Begin on a sound desk.
pub(crate) fn begin_sound(
    desk: &Desk,
    positions: &[u32],
    leads: &[u32],
    fetch_list: usize,
) -> Result<Begun, Refusal> {
    judge_phase(desk, BETWEEN)?;
    if fetch_list < desk.visits() * desk.plan.streams as usize {
        return refuse(cause::TOO_SHORT, 0);
    }
    let mut after = desk.clone();
    start_playing(&mut after, leads);
    grant_asked(&mut after, leads);
    after.phase = SWEEPING;
    let entries = fetches(&after, positions);
    let count = narrow(entries.len() as u128);
    let bound = sweep_bound(&after);
    Ok(Begun { desk: after, count, bound, entries })
}

/// c × bound / 1,000,000 rounded down, in bytes.
pub fn drawn_in(rate: u32, bound: u32) -> u128 {
    rate as u128 * bound as u128 / 1_000_000
}

/// What the slot may draw in a sweep of that bound: a playing or tail slot c × bound / 1,000,000
/// rounded down, other kinds 0.
pub fn draw_limit(desk: &Desk, slot: usize, bound: u32) -> u128 {
    match desk.kinds[slot] {
        PLAYING | TAIL => drawn_in(desk.plan.figures.rate, bound),
        _ => 0,
    }
}

/// 19, then 20 over all slots, then 21, each at the lowest such slot.
fn judge_draws(desk: &Desk, draws: &[u32]) -> Result<(), Refusal> {
    if draws.len() != desk.plan.streams as usize {
        return refuse(cause::DRAW_LIST, 0);
    }
    let bound = sweep_bound(desk);
    for slot in desk.used_slots() {
        if draws[slot] as u128 > draw_limit(desk, slot, bound) {
            return refuse(cause::DRAW_ABOVE_LIMIT, slot as u64);
        }
    }
    for slot in desk.used_slots() {
        if draws[slot] > desk.held[slot] {
            return refuse(cause::DRAW_ABOVE_HELD, slot as u64);
        }
    }
    Ok(())
}

/// One slot at the end of a sweep: loses its draw, gains its block; at N it becomes tail, and a
/// tail that holds 0 becomes free. In a loop the next block after the last is 0.
fn end_slot(desk: &mut Desk, slot: usize, draw: u32, fetched: bool) {
    desk.held[slot] -= draw;
    if fetched {
        desk.held[slot] += desk.plan.figures.block_bytes;
        desk.next[slot] += 1;
        if desk.next[slot] == desk.plan.figures.blocks {
            match desk.goes_round() {
                false => desk.kinds[slot] = TAIL,
                true => desk.next[slot] = 0,
            }
        }
    }
    if desk.kinds[slot] == TAIL && desk.held[slot] == 0 {
        free_slot(desk, slot);
    }
}

/// End the sweep, given a draw for each of the n slots.
pub fn end(desk: &Desk, positions: &[u32], leads: &[u32], draws: &[u32]) -> Result<Desk, Refusal> {
    judge_sound(desk, positions, leads)?;
    end_sound(desk, draws)
}

/// End on a sound desk.
pub(crate) fn end_sound(desk: &Desk, draws: &[u32]) -> Result<Desk, Refusal> {
    judge_phase(desk, SWEEPING)?;
    judge_draws(desk, draws)?;
    let mut after = desk.clone();
    for slot in desk.used_slots() {
        end_slot(&mut after, slot, draws[slot], is_fetched(desk, slot));
    }
    after.phase = BETWEEN;
    Ok(after)
}
