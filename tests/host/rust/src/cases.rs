//! Random and damaged calls. Strings that a call writes hold noise before it, so that a byte that is left or written wrongly shows.

use crate::call::{Call, Strings, CARD, DESK, DRAWS, FETCHES, LEADS, PLAN, POSITIONS, SCRATCH};
use crate::layout::{
    bytes_of, desk_bytes, plan_bytes, DESK_BYTES, ENTRY_BYTES, FETCH_BYTES, PLAN_BYTES,
    SCRATCH_BYTES,
};
use film_disk_model::desk::{ASKED, BETWEEN, FILLING, FREE, PLAYING, SLOTS, TAIL};
use film_disk_model::plan::TWO_MILLION;
use film_disk_model::rng::desks::{longer_list, spoiled_list};
use film_disk_model::rng::shelf::cards::{any_shelf_card, edge_shelf_card};
use film_disk_model::rng::shelf::desks::{
    alter_film, alter_places, alter_plan, any_step, set_places, some_start, sound_desk,
};
use film_disk_model::rng::shelf::{
    border_shelf_plan, large_shelf_plan, shelf_plan, uneven_shelf_plan,
};
use film_disk_model::rng::tables::{alter_overheads, some_entry};
use film_disk_model::shelf::desk::{floor, most_fetches, sweep_bound};
use film_disk_model::shelf::{self, plan_record, read_card, Desk, Plan, Planned, Rule, Step};
use film_disk_model::Rng;

/// Bytes of no meaning.
pub fn noise(rng: &mut Rng, length: usize) -> Vec<u8> {
    let mut bytes: Vec<u8> = Vec::with_capacity(length + 8);
    while bytes.len() < length {
        bytes.extend(rng.bits().to_le_bytes());
    }
    bytes.truncate(length);
    bytes
}

/// Adds fewer bytes than an entry has.
fn add_spare(rng: &mut Rng, bytes: &mut Vec<u8>, entry: usize) {
    let spare = if rng.once_in(2) { 0 } else { rng.below(entry) };
    bytes.extend(noise(rng, spare));
}

/// Changes one byte.
fn change_byte(rng: &mut Rng, bytes: &mut [u8]) {
    if bytes.is_empty() {
        return;
    }
    let at = rng.below(bytes.len());
    bytes[at] = match rng.below(4) {
        0 => bytes[at].wrapping_add(1),
        1 => bytes[at].wrapping_sub(1),
        2 => bytes[at] ^ (1 << rng.below(8)),
        _ => bytes[at] ^ rng.between(1, 255) as u8,
    };
}

/// Another length than the right one.
fn other_length(rng: &mut Rng, right: usize) -> usize {
    rng.pick(&[0, 1, right - 1, right + 1, right - 4, right + 4, 2 * right])
}

/// A string that is only written: noise, rarely of another length.
fn written_string(rng: &mut Rng, right: usize) -> Vec<u8> {
    let length = if rng.once_in(8) { other_length(rng, right) } else { right };
    noise(rng, length)
}

/// A record that is read: rarely with a byte changed, or cut off, or with bytes after it.
pub fn read_string(rng: &mut Rng, mut bytes: Vec<u8>) -> Vec<u8> {
    match rng.below(16) {
        0..=2 => change_byte(rng, &mut bytes),
        3 => {
            let length = other_length(rng, bytes.len());
            let more = noise(rng, length.saturating_sub(bytes.len()));
            bytes.extend(more);
            bytes.truncate(length);
        }
        _ => {}
    }
    bytes
}

/// A list that is read: spare bytes; rarely a byte changed, or its last entry not whole.
pub fn read_list(rng: &mut Rng, words: &[u32], damaged: usize) -> Vec<u8> {
    let mut bytes = bytes_of(words);
    if rng.once_in(damaged) && !bytes.is_empty() {
        if rng.once_in(2) {
            change_byte(rng, &mut bytes);
        } else {
            let cut = 1 + rng.below(ENTRY_BYTES);
            bytes.truncate(bytes.len() - cut);
        }
        return bytes;
    }
    add_spare(rng, &mut bytes, ENTRY_BYTES);
    bytes
}

/// A list that is written: noise, with so many entries or more, or fewer.
fn written_list(rng: &mut Rng, blocks: usize) -> Vec<u8> {
    let entries = match rng.below(12) {
        0 => blocks - 1,
        1 => rng.below(blocks),
        2..=4 => blocks + rng.below(20),
        _ => blocks,
    };
    let mut bytes = noise(rng, entries * ENTRY_BYTES);
    add_spare(rng, &mut bytes, ENTRY_BYTES);
    bytes
}

/// A scratch of 512 words or more.
pub fn long_scratch(rng: &mut Rng) -> Vec<u8> {
    let more = rng.below(70_000);
    let spare = rng.pick(&[0, 0, 0, 1, 3, 4, 2048, more]);
    noise(rng, SCRATCH_BYTES + spare)
}

/// A scratch; at times it is short, often by a byte or a word.
fn some_scratch(rng: &mut Rng) -> Vec<u8> {
    if !rng.once_in(8) {
        return long_scratch(rng);
    }
    let length = rng.below(SCRATCH_BYTES);
    let short = rng.pick(&[0, 1, SCRATCH_BYTES - 1, SCRATCH_BYTES - 1, SCRATCH_BYTES - 4, length]);
    noise(rng, short)
}

/// Any card of a shelf, for one showing, as loops or as pairs. It is at times one that was made for another of these, which it may be.
pub fn plan_case(rng: &mut Rng) -> (Call, Strings) {
    let rule = rng.pick(&Rule::ALL);
    let made_for = if rng.once_in(12) { rng.pick(&Rule::ALL) } else { rule };
    let mut strings = Strings::default();
    strings[CARD] = match rng.below(3) {
        0 => edge_shelf_card(rng, made_for),
        _ => any_shelf_card(rng, made_for),
    };
    let blocks = match read_card(&strings[CARD], rule) {
        Ok(figures) => figures.all_blocks() as usize,
        Err(_) => 1 + rng.below(10),
    };
    strings[PLAN] = written_string(rng, PLAN_BYTES);
    strings[POSITIONS] = written_list(rng, rule.visits() * blocks);
    strings[LEADS] = written_list(rng, blocks);
    strings[SCRATCH] = some_scratch(rng);
    (Call::Plan(rule), strings)
}

/// A plan for a desk, of any number of films, for one showing, loops or pairs; rarely a great one, often one whose products are great or carry.
pub fn some_plan(rng: &mut Rng) -> Planned {
    let rule = rng.pick(&Rule::ALL);
    match rng.below(40) {
        0 => large_shelf_plan(rng, rule),
        1..=10 => border_shelf_plan(rng, rule),
        11..=19 => uneven_shelf_plan(rng, rule),
        _ => shelf_plan(rng, rule),
    }
}

/// One of the plan's lists, longer or spoiled at times.
pub fn some_list(rng: &mut Rng, list: &[u32]) -> Vec<u8> {
    let list = match rng.below(8) {
        0 => longer_list(rng, list),
        1 => spoiled_list(rng, list),
        _ => list.to_vec(),
    };
    read_list(rng, &list, 12)
}

/// An opening, of the plan of its figures or of another record.
pub fn open_case(rng: &mut Rng) -> (Call, Strings) {
    let planned = some_plan(rng);
    let mut plan = planned.plan.clone();
    if rng.once_in(5) {
        alter_plan(rng, &mut plan);
    }
    let mut strings = Strings::default();
    strings[PLAN] = read_string(rng, plan_bytes(&plan));
    strings[POSITIONS] = some_list(rng, &planned.positions);
    strings[LEADS] = some_list(rng, &planned.leads);
    strings[SCRATCH] = some_scratch(rng);
    strings[DESK] = written_string(rng, DESK_BYTES);
    (Call::Open, strings)
}

/// The strings of a step on the desk in `desk`. Once in `damaged` times a list is spoiled; where none is, the scratch is not short.
pub fn step_strings(rng: &mut Rng, desk: Vec<u8>, step: &Step, damaged: usize) -> (Call, Strings) {
    let mut strings = Strings::default();
    strings[DESK] = desk;
    strings[POSITIONS] = read_list(rng, &step.positions, damaged);
    strings[LEADS] = read_list(rng, &step.leads, damaged);
    strings[SCRATCH] = if damaged == usize::MAX { long_scratch(rng) } else { some_scratch(rng) };
    let call = match &step.call {
        shelf::Call::Join { slot, block, film } => {
            Call::Join { slot: *slot, block: *block, film: *film }
        }
        shelf::Call::Leave { slot } => Call::Leave { slot: *slot },
        shelf::Call::Begin { fetch_list } => {
            strings[FETCHES] = noise(rng, fetch_list * FETCH_BYTES);
            add_spare(rng, &mut strings[FETCHES], FETCH_BYTES);
            Call::Begin
        }
        shelf::Call::End { draws } => {
            strings[DRAWS] = bytes_of(draws);
            add_spare(rng, &mut strings[DRAWS], ENTRY_BYTES);
            Call::End
        }
    };
    (call, strings)
}

/// Any call on any desk: sound, reached or not, corrupted, noise.
pub fn desk_case(rng: &mut Rng) -> (Call, Strings) {
    let planned = some_plan(rng);
    let (desk, step) = any_step(rng, &planned);
    let desk = read_string(rng, desk_bytes(&desk));
    step_strings(rng, desk, &step, 20)
}

/// A slot of a desk, one about the borders, or any.
fn some_slot(rng: &mut Rng, desk: &Desk) -> u32 {
    let (used, slots, any) = (rng.between(0, desk.plan.streams - 1), SLOTS as u32, rng.any());
    rng.pick(&[used, used, used, used, desk.plan.streams, slots - 1, slots, slots + 1, any])
}

/// What a slot may draw, of any desk: sound, reached or not, corrupted, noise. The bound is a sweep's, at an end of its range, or any.
pub fn limit_case(rng: &mut Rng) -> (Call, Strings) {
    let planned = some_plan(rng);
    let mut desk = sound_desk(rng, &planned);
    let (slot, own, any) = (some_slot(rng, &desk), sweep_bound(&desk), rng.any());
    if (slot as usize) < SLOTS && !rng.once_in(3) {
        desk.kinds[slot as usize] =
            rng.pick(&[PLAYING, TAIL, PLAYING, TAIL, FILLING, TAIL + 1, any]);
    }
    if rng.once_in(2) {
        desk.plan.figures.rate = rng.pick(&[u32::MAX, u32::MAX, 0, 65_536, 10_000_000]);
    }
    let bound = rng.pick(&[own, own, own + 1, 0, 1, 65_535, 65_536, u32::MAX, u32::MAX, any, any]);
    let mut strings = Strings::default();
    strings[DESK] = read_string(rng, desk_bytes(&desk));
    (Call::DrawLimit { slot, bound }, strings)
}

/// A used slot becomes a tail, mostly as one showing has it; at times at the end of another film than its own.
fn set_tail(rng: &mut Rng, desk: &mut Desk) {
    let slot = rng.below(desk.plan.streams as usize);
    let films = desk.plan.figures.films;
    let film = rng.between(0, films - 1);
    let blocks = desk.plan.figures.blocks[film as usize];
    desk.kinds[slot] = TAIL;
    set_places(rng, desk);
    desk.films[slot] = if rng.once_in(4) { rng.between(0, films) } else { film };
    desk.next[slot] = rng.pick(&[blocks, blocks, blocks, 0, blocks - 1]);
    desk.held[slot] = rng.between(1, desk.plan.buffer);
}

/// The step on the desk, or at times an opening of its plan.
fn opening_or_step(rng: &mut Rng, desk: &Desk, step: &Step) -> (Call, Strings) {
    let (call, mut strings) = step_strings(rng, desk_bytes(desk), step, 100);
    if !rng.once_in(4) {
        return (call, strings);
    }
    strings[PLAN] = plan_bytes(&desk.plan);
    strings[DESK] = written_string(rng, DESK_BYTES);
    (Call::Open, strings)
}

/// The lists of a record's figures for the showing that its word says, if it has any.
fn lists_of(plan: &Plan) -> Option<(Vec<u32>, Vec<u32>)> {
    let rule = Rule::of(plan.showing)?;
    let planned = plan_record(&plan.figures, rule, usize::MAX, usize::MAX).ok()?;
    Some((planned.positions, planned.leads))
}

/// An opening or a call on a desk whose showing is another, or which has a word that is none. At times the lists are those of the film
/// as the word has it. Or there is a tail where a loop has none, with the word or without.
pub fn showing_case(rng: &mut Rng) -> (Call, Strings) {
    let planned = some_plan(rng);
    let (_, mut step) = any_step(rng, &planned);
    let mut desk = sound_desk(rng, &planned);
    let has_tail = rng.once_in(2);
    if has_tail {
        set_tail(rng, &mut desk);
    }
    if !has_tail || rng.once_in(2) {
        let turned = (planned.plan.showing + rng.between(1, 2)) % 3;
        desk.plan.showing = rng.pick(&[turned, turned, turned, turned, 3, 256, 65_536, u32::MAX]);
        if rng.once_in(2) {
            (step.positions, step.leads) =
                lists_of(&desk.plan).unwrap_or((step.positions, step.leads));
        }
    }
    opening_or_step(rng, &desk, &step)
}

/// Another block, one beside the right one, the last, or any word. It may be right after all.
fn other_worstat(rng: &mut Rng, plan: &Plan) -> u32 {
    let (right, blocks) = (plan.worstat, plan.figures.all_blocks() as u32);
    let (block, other) = (rng.between(0, blocks - 1), rng.other_than(right));
    rng.pick(&[block, block, right + 1, right.wrapping_sub(1), blocks - 1, blocks, 0, other])
}

/// An opening or a call on a desk whose worst pair is another: often one that is as bad, and not the earliest.
pub fn worst_pair_case(rng: &mut Rng) -> (Call, Strings) {
    let planned = some_plan(rng);
    let (_, step) = any_step(rng, &planned);
    let mut desk = sound_desk(rng, &planned);
    desk.plan.worstat = other_worstat(rng, &planned.plan);
    opening_or_step(rng, &desk, &step)
}

/// An opening or a call on a desk whose overheads are others: the kind turned over or a third one, an entry of the table changed. A table
/// that is still measured may leave the plan what it is, and then the sweep's bound goes by it.
pub fn overhead_case(rng: &mut Rng) -> (Call, Strings) {
    let planned = some_plan(rng);
    let (_, step) = any_step(rng, &planned);
    let mut desk = sound_desk(rng, &planned);
    let mut disk = desk.plan.figures.of_one(0);
    if rng.once_in(2) {
        disk.kind = rng.pick(&[1, 2, 2, 2, 0, 3]);
    }
    if rng.once_in(2) {
        let entry = some_entry(rng);
        let own = disk.table[entry];
        disk.table[entry] =
            rng.pick(&[own + 1, own + 1, own.wrapping_sub(1), 0, 257_000_000, 257_000_001]);
    } else if rng.once_in(2) {
        alter_overheads(rng, &mut disk);
    }
    desk.plan.figures = desk.plan.figures.on(&disk);
    opening_or_step(rng, &desk, &step)
}

/// The films of a record parted or ordered otherwise, as many blocks in all: an unused entry that is not zero, one film more or less
/// counted, two that change places, or a block that goes over to another film. All positions in use stay what they were.
fn alter_shelf(rng: &mut Rng, plan: &mut Plan) {
    let figures = &mut plan.figures;
    let films = figures.films as usize;
    let (one, other) = (rng.below(films), rng.below(films));
    match rng.below(6) {
        0 => {
            let unused = rng.below(16);
            figures.blocks[unused] = rng.pick(&[0, 1, 2, figures.blocks[unused] + 1]);
        }
        1 => figures.films = rng.pick(&[figures.films - 1, figures.films + 1, 0, 16, 17]),
        2 | 3 => figures.blocks.swap(one, other),
        4 if films > 1 => {
            figures.films -= 1;
            figures.blocks[films - 2] += figures.blocks[films - 1];
            figures.blocks[films - 1] = 0;
        }
        _ => {
            figures.blocks[one] += 1;
            figures.blocks[other] -= 1;
        }
    }
}

/// An opening or a call on a desk of other films than the plan was made of, at times with the lists of these.
pub fn shelf_case(rng: &mut Rng) -> (Call, Strings) {
    let planned = some_plan(rng);
    let (_, mut step) = any_step(rng, &planned);
    let mut desk = sound_desk(rng, &planned);
    alter_shelf(rng, &mut desk.plan);
    if rng.once_in(2) {
        (step.positions, step.leads) = lists_of(&desk.plan).unwrap_or((step.positions, step.leads));
    }
    opening_or_step(rng, &desk, &step)
}

/// A call on a desk one of whose slots names another film, of the shelf or not, with its next block as it was or at the end of a film;
/// free slots too. It may be sound.
pub fn slot_film_case(rng: &mut Rng) -> (Call, Strings) {
    let planned = some_plan(rng);
    let (_, step) = any_step(rng, &planned);
    let mut desk = sound_desk(rng, &planned);
    for _ in 0..rng.pick(&[1, 1, 2]) {
        let used = desk.plan.streams as usize;
        let slot = if rng.once_in(8) { rng.below(SLOTS) } else { rng.below(used) };
        if rng.once_in(4) {
            (desk.kinds[slot], desk.next[slot], desk.held[slot]) = (FREE, 0, 0);
            set_places(rng, &mut desk);
        } else if rng.once_in(3) {
            let blocks = rng.pick(planned.plan.figures.lengths());
            desk.next[slot] = rng.pick(&[0, blocks - 1, blocks, blocks]);
        }
        alter_film(rng, &mut desk, slot);
    }
    step_strings(rng, desk_bytes(&desk), &step, 100)
}

/// Joins of a free slot, one after the other: each film of the shelf, the first that it has not, 16, and more, with blocks about the
/// film's end, at 65,536 and 65,536 more than one that it has.
pub fn join_case(rng: &mut Rng) -> (Call, Strings) {
    let planned = some_plan(rng);
    let mut desk = Desk { phase: BETWEEN, ..sound_desk(rng, &planned) };
    let slot = rng.below(planned.plan.streams as usize);
    (desk.kinds[slot], desk.next[slot], desk.held[slot], desk.films[slot]) = (FREE, 0, 0, 0);
    set_places(rng, &mut desk);
    let figures = &planned.plan.figures;
    let (some, any) = (rng.between(0, figures.films - 1), rng.any());
    let film = rng.pick(&[some, some, some, figures.films, 15, 16, 65_536, any]);
    let blocks = figures.blocks[some as usize];
    let block = rng.pick(&[0, blocks - 1, blocks, 65_535, 65_536, 65_536 + blocks - 1, any]);
    let call = shelf::Call::Join { slot: slot as u32, block, film };
    let Planned { positions, leads, .. } = planned;
    step_strings(rng, desk_bytes(&desk), &Step { positions, leads, call }, 100)
}

/// The floor with the leads of the first few requests by place, in whole bytes, rounded up.
fn some_level(rng: &mut Rng, planned: &Planned, desk: &Desk) -> u32 {
    let mut asked: Vec<usize> =
        desk.used_slots().filter(|&slot| desk.kinds[slot] == ASKED).collect();
    asked.sort_by_key(|&slot| desk.places[slot]);
    let listed = |slot: usize| {
        desk.plan.figures.start(desk.films[slot] as usize) as usize + desk.next[slot] as usize
    };
    let leads = asked.iter().map(|&slot| planned.leads[listed(slot)] as u128);
    let (some, all) = (rng.below(asked.len() + 1), asked.len());
    let first = rng.pick(&[0, 0, 1, 1, 2, 3, some, all]);
    let granted: u128 = leads.take(first).sum();
    let shares = floor(desk, &planned.leads) + planned.plan.figures.rate as u128 * granted;
    shares.div_ceil(TWO_MILLION) as u32
}

/// Filling and playing slots, three in four, hold just what decides: the floor with and without requests, or a byte beside it; or the
/// greatest that a block is still fetched on.
fn set_to_edge(rng: &mut Rng, planned: &Planned, desk: &mut Desk) {
    let room = planned.plan.buffer - planned.plan.figures.block_bytes;
    let level = if rng.once_in(6) { room } else { some_level(rng, planned, desk) };
    let held = level + rng.pick(&[0, 0, 1]) - rng.once_in(3) as u32;
    for slot in desk.used_slots() {
        if matches!(desk.kinds[slot], FILLING | PLAYING) && !rng.once_in(4) {
            desk.held[slot] = held;
        }
    }
}

/// A call, mostly a begin, on a desk whose slots hold just what decides.
pub fn edge_case(rng: &mut Rng) -> (Call, Strings) {
    let planned = some_plan(rng);
    let (_, mut step) = any_step(rng, &planned);
    let mut desk = sound_desk(rng, &planned);
    if !rng.once_in(4) {
        desk.phase = BETWEEN;
        step.call = shelf::Call::Begin { fetch_list: most_fetches(&desk) };
    }
    set_to_edge(rng, &planned, &mut desk);
    step_strings(rng, desk_bytes(&desk), &step, 100)
}

/// A slot for a join or a leave: free, asked, or any.
fn slot_of_kind(rng: &mut Rng, desk: &Desk, kind: u32) -> u32 {
    let slots: Vec<usize> = desk.used_slots().filter(|&slot| desk.kinds[slot] == kind).collect();
    match slots.len() {
        0 => some_slot(rng, desk),
        _ => rng.pick(&slots) as u32,
    }
}

/// A desk between sweeps where requests wait, up to all slots but one that plays, if that; with players and fillers that hold just what
/// decides.
fn crowded_desk(rng: &mut Rng, planned: &Planned) -> Desk {
    let mut desk = Desk { phase: BETWEEN, ..sound_desk(rng, planned) };
    let one_in = rng.pick(&[2, 6, 40]);
    for slot in desk.used_slots() {
        if desk.kinds[slot] == TAIL || !rng.once_in(one_in) {
            (desk.kinds[slot], desk.held[slot]) = (ASKED, 0);
            (desk.next[slot], desk.films[slot]) = some_start(rng, &desk);
        }
    }
    if !rng.once_in(4) {
        let slot = rng.below(planned.plan.streams as usize);
        (desk.kinds[slot], desk.held[slot]) = (PLAYING, planned.plan.buffer);
        (desk.next[slot], desk.films[slot]) = some_start(rng, &desk);
    }
    set_places(rng, &mut desk);
    set_to_edge(rng, planned, &mut desk);
    desk
}

/// A call where requests wait: a join behind them, a leave of one of them, mostly a begin. A film without leads makes none wait, and is
/// rare here.
pub fn request_case(rng: &mut Rng) -> (Call, Strings) {
    let mut planned = some_plan(rng);
    while planned.plan.margin == 0 && !rng.once_in(20) {
        planned = some_plan(rng);
    }
    let desk = crowded_desk(rng, &planned);
    let call = match rng.below(6) {
        0 => {
            let film = rng.between(0, desk.plan.figures.films - 1);
            shelf::Call::Join { slot: slot_of_kind(rng, &desk, FREE), block: 0, film }
        }
        1 => shelf::Call::Leave { slot: slot_of_kind(rng, &desk, ASKED) },
        _ => shelf::Call::Begin { fetch_list: most_fetches(&desk) },
    };
    let Planned { positions, leads, .. } = planned;
    step_strings(rng, desk_bytes(&desk), &Step { positions, leads, call }, 100)
}

/// A call on a desk whose places are others: one twice, left out, one more, on another slot, or two that change places.
pub fn place_case(rng: &mut Rng) -> (Call, Strings) {
    let planned = some_plan(rng);
    let (_, step) = any_step(rng, &planned);
    let mut desk = sound_desk(rng, &planned);
    for _ in 0..rng.pick(&[1, 1, 1, 2]) {
        alter_places(rng, &mut desk);
    }
    step_strings(rng, desk_bytes(&desk), &step, 100)
}
