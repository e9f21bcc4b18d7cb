//! The plan of a card for one showing or for a loop: the laying, the streams, the buffer and the
//! leads.
//!
//! The definitions take figures that `judge_record` accepts.

use crate::card::{judge_record, read_card, Figures};
use crate::pairs::{is_pairs_plan, PAIRS};
use crate::refusal::{cause, refuse, Refusal};

/// Greatest number of streams.
pub const MAX_STREAMS: u32 = 256;
/// A half microsecond at one byte a second, as a share of a byte: the unit of 01's formulas.
pub const TWO_MILLION: u128 = 2_000_000;
/// Up to this N the leads are worked out by the words alone.
pub const NAIVE_BLOCKS: usize = 256;

/// How a film is shown: once through, or round and round (request 7 of 02).
#[derive(Clone, Copy, Debug, PartialEq, Eq)]
pub enum Showing {
    Once,
    Loop,
}

impl Showing {
    pub const ALL: [Showing; 2] = [Showing::Once, Showing::Loop];

    /// The word of a plan record.
    pub fn word(self) -> u32 {
        match self {
            Showing::Once => 0,
            Showing::Loop => 1,
        }
    }

    /// The showing that a record's word says; any third word says none of these.
    pub fn of(word: u32) -> Option<Showing> {
        Showing::ALL.into_iter().find(|showing| showing.word() == word)
    }
}

/// The plan record.
#[derive(Clone, Debug, PartialEq, Eq)]
pub struct Plan {
    pub figures: Figures,
    /// The word of the showing.
    pub showing: u32,
    /// n, the screens that may be fed.
    pub streams: u32,
    /// Bytes of each screen's buffer.
    pub buffer: u32,
    /// Greatest time of two successive blocks.
    pub worst2: u32,
    /// Twice the greatest time, less worst2.
    pub margin: u32,
    /// First block of the worst pair (request 2 of 02).
    pub worstat: u32,
}

impl Plan {
    /// The plan in a refused answer.
    pub fn zero() -> Plan {
        Plan {
            figures: Figures::zero(),
            showing: 0,
            streams: 0,
            buffer: 0,
            worst2: 0,
            margin: 0,
            worstat: 0,
        }
    }
}

/// A plan and the N entries of each of its two lists.
#[derive(Clone, Debug, PartialEq, Eq)]
pub struct Planned {
    pub plan: Plan,
    pub positions: Vec<u32>,
    pub leads: Vec<u32>,
}

/// A result that 01's ranges keep within 32 bits.
pub(crate) fn narrow(value: u128) -> u32 {
    u32::try_from(value).expect("within 32 bits for judged figures")
}

/// Rank of a block's position among the film's N, for one showing: 2i has i, 2i + 1 has N - 1 - i.
fn rank_once(blocks: u32, block: u32) -> u32 {
    match block % 2 {
        0 => block / 2,
        _ => blocks - 1 - block / 2,
    }
}

/// Rank of a block's position among the film's N, for a loop: block 0 has 0. From there forward,
/// half way round, come N - 1, 1, N - 3, 3 and so on; backward N - 2, 2, N - 4, 4 and so on.
fn rank_in_loop(blocks: u32, block: u32) -> u32 {
    if block == 0 {
        0
    } else if block <= blocks / 2 {
        match block % 2 {
            0 => block - 1,
            _ => blocks - block,
        }
    } else {
        let back = blocks - block;
        match back % 2 {
            0 => back,
            _ => blocks - 1 - back,
        }
    }
}

/// Position of a block: P - N + its rank.
pub fn position(figures: &Figures, showing: Showing, block: u32) -> u32 {
    let rank = match showing {
        Showing::Once => rank_once(figures.blocks, block),
        Showing::Loop => rank_in_loop(figures.blocks, block),
    };
    let lowest = figures.total_positions() - figures.blocks as u64;
    narrow(lowest as u128 + rank as u128)
}

/// The zone of a position, found by walking the zones from the innermost.
pub fn zone_at(figures: &Figures, position: u32) -> usize {
    let mut zone = 0;
    let mut end = figures.positions[0] as u64;
    while position as u64 >= end {
        zone += 1;
        end += figures.positions[zone] as u64;
    }
    zone
}

/// Time to read the block at a position.
pub fn time_at(figures: &Figures, position: u32) -> u32 {
    figures.times[zone_at(figures, position)]
}

/// time(b): time of the zone where block b is laid.
pub fn time(figures: &Figures, showing: Showing, block: u32) -> u32 {
    time_at(figures, position(figures, showing, block))
}

/// The positions list.
pub fn positions(figures: &Figures, showing: Showing) -> Vec<u32> {
    (0..figures.blocks).map(|block| position(figures, showing, block)).collect()
}

/// time(b) for each block.
pub fn times(figures: &Figures, showing: Showing) -> Vec<u32> {
    (0..figures.blocks).map(|block| time(figures, showing, block)).collect()
}

/// Sums of the times of two successive blocks, each by its first block. One showing does not wrap;
/// in a loop the last block is followed by the first, and that pair's first block is N - 1.
fn pair_times(times: &[u32], showing: Showing) -> Vec<u32> {
    let mut pairs: Vec<u32> = times.windows(2).map(|pair| pair[0] + pair[1]).collect();
    if showing == Showing::Loop {
        pairs.push(times[times.len() - 1] + times[0]);
    }
    pairs
}

/// Greatest sum of the times of two successive blocks.
pub(crate) fn greatest_pair(times: &[u32], showing: Showing) -> u32 {
    pair_times(times, showing).into_iter().max().expect("two blocks or more")
}

/// worst2: the greatest time(b) + time(b+1) for b from 0 to N - 2; in a loop time(N-1) + time(0)
/// too.
pub fn worst2(figures: &Figures, showing: Showing) -> u32 {
    greatest_pair(&times(figures, showing), showing)
}

/// worstat: the first block of the worst pair, the earliest where several are equal.
pub fn worstat(times: &[u32], showing: Showing) -> u32 {
    let worst2 = greatest_pair(times, showing);
    let earliest = pair_times(times, showing).into_iter().position(|pair| pair == worst2);
    earliest.expect("a pair takes worst2") as u32
}

/// The formula of streams: c × (n × worst2 + 2 × the overhead for n blocks) at most 2,000,000 × B.
pub fn fits(figures: &Figures, worst2: u32, n: u32) -> bool {
    let c = figures.rate as u128;
    let overhead = figures.table[n as usize] as u128;
    let bytes = figures.block_bytes as u128;
    let worst2 = worst2 as u128;
    let n = n as u128;
    c * (n * worst2 + 2 * overhead) <= TWO_MILLION * bytes
}

/// streams: the greatest n from 1 to 256 that fits. All are tried.
pub fn streams(figures: &Figures, worst2: u32) -> Option<u32> {
    (1..=MAX_STREAMS).filter(|&n| fits(figures, worst2, n)).max()
}

/// margin: twice the greatest time(b), less worst2.
pub fn margin(times: &[u32], worst2: u32) -> u32 {
    let greatest = times.iter().copied().max().unwrap_or(0);
    2 * greatest - worst2
}

/// What a block adds to a run: 2 × time - worst2.
fn excess(time: u32, worst2: u32) -> i128 {
    2 * time as i128 - worst2 as i128
}

/// lead(b): the greatest sum of 2 × time - worst2 over a run of blocks starting at b, the empty
/// run (0) included. In a loop a run goes round at most once, N blocks.
pub fn lead(times: &[u32], showing: Showing, worst2: u32, b: usize) -> u32 {
    let round = match showing {
        Showing::Once => &[],
        Showing::Loop => &times[..b],
    };
    let mut greatest = 0;
    let mut sum = 0;
    for &time in times[b..].iter().chain(round) {
        sum += excess(time, worst2);
        greatest = greatest.max(sum);
    }
    narrow(greatest as u128)
}

/// The leads list by the words: every run of every block.
pub fn leads_by_runs(times: &[u32], showing: Showing, worst2: u32) -> Vec<u32> {
    (0..times.len()).map(|b| lead(times, showing, worst2, b)).collect()
}

/// The leads list in one pass from the last block: a run from b is empty, or it is b and then a
/// run from b + 1, so lead(b) is 0 or 2 × time(b) - worst2 + lead(b+1), whichever is greater. A
/// loop is passed twice. That also looks at runs of more than N blocks, and they are no greater:
/// once round adds up to 0 or less, for each pair round the circle is within worst2.
pub fn leads_backward(times: &[u32], showing: Showing, worst2: u32) -> Vec<u32> {
    let passes = match showing {
        Showing::Once => 1,
        Showing::Loop => 2,
    };
    let mut leads = vec![0; times.len()];
    let mut after = 0;
    for _ in 0..passes {
        for b in (0..times.len()).rev() {
            after = (excess(times[b], worst2) + after).max(0);
            leads[b] = narrow(after as u128);
        }
    }
    leads
}

/// The leads list.
pub fn leads(times: &[u32], showing: Showing, worst2: u32) -> Vec<u32> {
    if times.len() <= NAIVE_BLOCKS {
        leads_by_runs(times, showing, worst2)
    } else {
        leads_backward(times, showing, worst2)
    }
}

/// buffer: 3 × B plus c × n × margin / 2,000,000 rounded up.
pub fn buffer(figures: &Figures, streams: u32, margin: u32) -> u32 {
    let spare = figures.rate as u128 * streams as u128 * margin as u128;
    narrow(3 * figures.block_bytes as u128 + spare.div_ceil(TWO_MILLION))
}

/// The plan of judged figures, or nothing where not even one stream fits.
pub fn plan_of(figures: &Figures, showing: Showing) -> Option<Planned> {
    let times = times(figures, showing);
    let worst2 = greatest_pair(&times, showing);
    let streams = streams(figures, worst2)?;
    let margin = margin(&times, worst2);
    let buffer = buffer(figures, streams, margin);
    let worstat = worstat(&times, showing);
    let figures = figures.clone();
    Some(Planned {
        positions: positions(&figures, showing),
        leads: leads(&times, showing, worst2),
        plan: Plan { figures, showing: showing.word(), streams, buffer, worst2, margin, worstat },
    })
}

/// 13, then 12, of judged figures.
fn plan_judged(
    figures: &Figures,
    showing: Showing,
    positions: usize,
    leads: usize,
) -> Result<Planned, Refusal> {
    let blocks = figures.blocks as usize;
    if positions < blocks || leads < blocks {
        return refuse(cause::TOO_SHORT, 0);
    }
    match plan_of(figures, showing) {
        Some(planned) => Ok(planned),
        None => refuse(cause::NO_STREAM, 0),
    }
}

/// The plan of a record for a showing, with the lengths of the two lent lists: 3 to 10, 25 and 26, 13,
/// 12, each at 0.
pub fn plan_record_for(
    figures: &Figures,
    showing: Showing,
    positions: usize,
    leads: usize,
) -> Result<Planned, Refusal> {
    if let Err(number) = judge_record(figures) {
        return refuse(number, 0);
    }
    plan_judged(figures, showing, positions, leads)
}

/// The plan of a record for one showing.
pub fn plan_record(figures: &Figures, positions: usize, leads: usize) -> Result<Planned, Refusal> {
    plan_record_for(figures, Showing::Once, positions, leads)
}

/// The plan of a card for a showing, with the lengths of the two lent lists: 1 to 11, 25 and 26 with
/// offset, 13, 12.
pub fn plan_card_for(
    card: &[u8],
    showing: Showing,
    positions: usize,
    leads: usize,
) -> Result<Planned, Refusal> {
    plan_judged(&read_card(card)?, showing, positions, leads)
}

/// The plan of a card for one showing.
pub fn plan_card(card: &[u8], positions: usize, leads: usize) -> Result<Planned, Refusal> {
    plan_card_for(card, Showing::Once, positions, leads)
}

/// The plan of a record as a loop.
pub fn plan_loop_record(
    figures: &Figures,
    positions: usize,
    leads: usize,
) -> Result<Planned, Refusal> {
    plan_record_for(figures, Showing::Loop, positions, leads)
}

/// The plan of a card as a loop; turned down as for one showing.
pub fn plan_loop_card(card: &[u8], positions: usize, leads: usize) -> Result<Planned, Refusal> {
    plan_card_for(card, Showing::Loop, positions, leads)
}

/// Puts an answer at the start of a lent list; entries past it keep their contents.
pub fn fill_lent<T: Clone>(lent: &mut [T], answer: &[T]) {
    lent[..answer.len()].clone_from_slice(answer);
}

/// Is this the plan of its figures for the showing that it says, and do both lists begin with its
/// N entries? A plan of pairs has 2 × N positions.
pub fn is_plan(plan: &Plan, positions: &[u32], leads: &[u32]) -> bool {
    if plan.showing == PAIRS {
        return is_pairs_plan(plan, positions, leads);
    }
    let Some(showing) = Showing::of(plan.showing) else {
        return false;
    };
    let made = plan_record_for(&plan.figures, showing, positions.len(), leads.len());
    let Ok(planned) = made else {
        return false;
    };
    planned.plan == *plan
        && positions.starts_with(&planned.positions)
        && leads.starts_with(&planned.leads)
}

/// Does the list give each of the N blocks a position of its own among the P?
pub fn is_laying(figures: &Figures, laying: &[u32]) -> bool {
    let total = figures.total_positions();
    let mut seen = laying.to_vec();
    seen.sort_unstable();
    seen.dedup();
    laying.len() == figures.blocks as usize
        && seen.len() == laying.len()
        && laying.iter().all(|&position| (position as u64) < total)
}

/// A laying's worst time: the greatest sum of the times of two successive blocks, each where it
/// lies; for a loop over the circle.
pub fn worst_time(figures: &Figures, showing: Showing, laying: &[u32]) -> u32 {
    let times: Vec<u32> = laying.iter().map(|&position| time_at(figures, position)).collect();
    greatest_pair(&times, showing)
}
