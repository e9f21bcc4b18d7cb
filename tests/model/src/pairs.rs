//! Half blocks on paired tracks (02, ticket 11): each block is stored as two halves, on a slow and
//! a quick position. The zone times are for a half; a block's time is its pair's.
//!
//! The definitions take figures that `judge_pairs_record` accepts. On the desk a block gives two fetch
//! entries, and the bound counts both visits; all else is as for one showing.

use crate::card::{judge_record_with, read_card_with, Figures, MAX_BLOCKS, MIN_BLOCKS};
use crate::plan::{self, narrow, time_at, Plan, Planned, Showing};
use crate::refusal::{cause, refuse, Refusal};
use crate::window::{worst_window, Window, MAX_WINDOW};

/// The word of a plan record.
pub const PAIRS: u32 = 2;
/// Visits of the disk for one block.
pub const VISITS: usize = 2;
/// Greatest number of streams.
pub const MAX_PAIRS_STREAMS: u32 = 128;

// What is turned down before a plan.

/// N, on a disk of `total` positions: 8, then 28 where 9 stood.
fn judge_blocks(blocks: u32, total: u64) -> Result<(), u32> {
    if !(MIN_BLOCKS..=MAX_BLOCKS).contains(&blocks) {
        return Err(cause::BLOCKS);
    }
    if 2 * blocks as u64 > total {
        return Err(cause::PAIRS_ABOVE_POSITIONS);
    }
    Ok(())
}

/// Judges figures given as a record: 3 to 8, 10, 25, 26 and 28 in the order of the card.
pub fn judge_pairs_record(figures: &Figures) -> Result<(), u32> {
    judge_record_with(figures, judge_blocks)
}

/// Reads a card number by number; the first fault ends it: 1 to 8, 10, 11, 25, 26 and 28.
pub fn read_pairs_card(card: &[u8]) -> Result<Figures, Refusal> {
    read_card_with(card, judge_blocks)
}

// Positions and times.

/// The disk with a film of 2 × N blocks, for the halves.
pub fn halves(figures: &Figures) -> Figures {
    Figures { blocks: 2 * figures.blocks, ..figures.clone() }
}

/// The positions list, 2 × N entries: that of 01's laying of a film of 2 × N blocks, on the 2 × N
/// highest positions. Block b has entries 2b and 2b + 1, the lower position first.
pub fn positions(figures: &Figures) -> Vec<u32> {
    plan::positions(&halves(figures), Showing::Once)
}

/// The two positions of a block.
pub fn pair(figures: &Figures, block: u32) -> [u32; VISITS] {
    let halves = halves(figures);
    [2 * block, 2 * block + 1].map(|half| plan::position(&halves, Showing::Once, half))
}

/// time(b): both halves of block b, each by the zone where it lies.
pub fn pair_time(figures: &Figures, block: u32) -> u32 {
    pair(figures, block).iter().map(|&position| time_at(figures, position)).sum()
}

/// The time of each block, by its two entries of a positions list.
pub fn pair_times(figures: &Figures, positions: &[u32]) -> Vec<u32> {
    let blocks = positions.chunks_exact(VISITS).take(figures.blocks as usize);
    blocks.map(|pair| pair.iter().map(|&position| time_at(figures, position)).sum()).collect()
}

/// p: the greatest pair time.
pub fn greatest_pair_time(times: &[u32]) -> u32 {
    times.iter().copied().max().expect("two blocks or more")
}

/// worstat: the first block taking p.
pub fn worstat(times: &[u32]) -> u32 {
    let greatest = greatest_pair_time(times);
    times.iter().position(|&time| time == greatest).expect("a block takes p") as u32
}

/// Does the list give each of the 2 × N halves a position of its own among the P?
pub fn is_matching(figures: &Figures, matching: &[u32]) -> bool {
    plan::is_laying(&halves(figures), matching)
}

// The plan.

/// The formula of streams: c × (n × p + the overhead for 2 × n visits) at most 1,000,000 × B.
pub fn fits(figures: &Figures, p: u32, n: u32) -> bool {
    let c = figures.rate as u128;
    let overhead = figures.table[VISITS * n as usize] as u128;
    c * (n as u128 * p as u128 + overhead) <= 1_000_000 * figures.block_bytes as u128
}

/// streams: the greatest n from 1 to 128 that fits. All are tried.
pub fn streams(figures: &Figures, p: u32) -> Option<u32> {
    (1..=MAX_PAIRS_STREAMS).filter(|&n| fits(figures, p, n)).max()
}

/// The plan of judged figures, or nothing where not even one stream fits: the buffer is 3 × B, leads
/// and margin are 0, worst2 is 2 × p.
pub fn plan_of(figures: &Figures) -> Option<Planned> {
    let positions = positions(figures);
    let times = pair_times(figures, &positions);
    let p = greatest_pair_time(&times);
    let plan = Plan {
        figures: figures.clone(),
        showing: PAIRS,
        streams: streams(figures, p)?,
        buffer: narrow(3 * figures.block_bytes as u128),
        worst2: narrow(2 * p as u128),
        margin: 0,
        worstat: worstat(&times),
    };
    Some(Planned { plan, positions, leads: vec![0; figures.blocks as usize] })
}

/// 13, for positions below 2 × N or leads below N, then 12, of judged figures.
fn plan_judged(figures: &Figures, positions: usize, leads: usize) -> Result<Planned, Refusal> {
    let blocks = figures.blocks as usize;
    if positions < VISITS * blocks || leads < blocks {
        return refuse(cause::TOO_SHORT, 0);
    }
    match plan_of(figures) {
        Some(planned) => Ok(planned),
        None => refuse(cause::NO_STREAM, 0),
    }
}

/// The plan of a record as pairs, with the lengths of the two lent lists: 3 to 8, 10, 25, 26 and
/// 28, 13, 12, each at 0.
pub fn plan_pairs_record(
    figures: &Figures,
    positions: usize,
    leads: usize,
) -> Result<Planned, Refusal> {
    if let Err(number) = judge_pairs_record(figures) {
        return refuse(number, 0);
    }
    plan_judged(figures, positions, leads)
}

/// The plan of a card as pairs, with the lengths of the two lent lists: 1 to 8, 10, 11, 25, 26 and
/// 28 with offset, 13, 12.
pub fn plan_pairs_card(card: &[u8], positions: usize, leads: usize) -> Result<Planned, Refusal> {
    plan_judged(&read_pairs_card(card)?, positions, leads)
}

/// Is this the plan of its figures as pairs, and does the positions list begin with its 2 × N
/// entries? There is no list of leads.
pub fn is_pairs_plan_with_positions(plan: &Plan, positions: &[u32]) -> bool {
    match plan_pairs_record(&plan.figures, positions.len(), usize::MAX) {
        Ok(planned) => planned.plan == *plan && positions.starts_with(&planned.positions),
        Err(_) => false,
    }
}

/// Is this the plan of its figures as pairs, and do both lists begin with its entries, 2 × N
/// positions and N leads?
pub fn is_pairs_plan(plan: &Plan, positions: &[u32], leads: &[u32]) -> bool {
    is_pairs_plan_with_positions(plan, positions)
        && leads.starts_with(&vec![0; plan.figures.blocks as usize])
}

/// The window of k blocks of a plan with its positions list: 14, then 27, each with place 0.
pub fn window_pairs(plan: &Plan, positions: &[u32], k: u32) -> Result<Window, Refusal> {
    if !is_pairs_plan_with_positions(plan, positions) {
        return refuse(cause::NOT_SOUND, 0);
    }
    if k == 0 || k > MAX_WINDOW || k > plan.figures.blocks {
        return refuse(cause::WINDOW, 0);
    }
    let times = pair_times(&plan.figures, positions);
    let (time, first) = worst_window(&times, Showing::Once, k as usize);
    Ok(Window { time, first: first as u32, bytes: k * plan.figures.block_bytes })
}
