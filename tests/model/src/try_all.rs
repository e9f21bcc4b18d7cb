//! The try-them-all engine (02, ticket 12) and all small cards (ticket 13).

use crate::card::{judge_record, read_card, Figures};
use crate::plan::{streams, worst_time, Showing};
use crate::refusal::{cause, refuse, Refusal};

/// Most blocks of a film whose layings are tried.
pub const MOST_BLOCKS: u32 = 8;

/// The smallest worst2 of all layings on the film's positions, and how many layings have it.
#[derive(Clone, Copy, Debug, PartialEq, Eq)]
pub struct Tried {
    pub worst2: u32,
    pub count: u32,
}

/// Visits every order of the positions from `first` on, each once, those before it as they are.
fn each_order(positions: &mut [u32], first: usize, visit: &mut impl FnMut(&[u32])) {
    if first == positions.len() {
        return visit(positions);
    }
    for other in first..positions.len() {
        positions.swap(first, other);
        each_order(positions, first + 1, visit);
        positions.swap(first, other);
    }
}

/// Visits every laying of the film on its N highest positions: entry b is the position of block b.
pub fn each_laying(figures: &Figures, visit: &mut impl FnMut(&[u32])) {
    let total = figures.total_positions() as u32;
    let mut film: Vec<u32> = (total - figures.blocks..total).collect();
    each_order(&mut film, 0, visit);
}

/// All layings of judged figures with at most 8 blocks.
pub fn try_layings(figures: &Figures, showing: Showing) -> Tried {
    let mut worst = Vec::new();
    each_laying(figures, &mut |laying| worst.push(worst_time(figures, showing, laying)));
    let worst2 = worst.iter().copied().min().expect("a laying");
    let count = worst.iter().filter(|&&time| time == worst2).count();
    Tried { worst2, count: count as u32 }
}

/// 29, then 12, of judged figures.
pub(crate) fn try_judged(figures: &Figures, showing: Showing) -> Result<Tried, Refusal> {
    if figures.blocks > MOST_BLOCKS {
        return refuse(cause::TOO_MANY_BLOCKS, 0);
    }
    let tried = try_layings(figures, showing);
    match streams(figures, tried.worst2) {
        Some(_) => Ok(tried),
        None => refuse(cause::NO_STREAM, 0),
    }
}

/// The second planner of a record: 3 to 10, 25 and 26, 29, 12, each at 0.
pub fn try_record(figures: &Figures, showing: Showing) -> Result<Tried, Refusal> {
    if let Err(number) = judge_record(figures) {
        return refuse(number, 0);
    }
    try_judged(figures, showing)
}

/// The second planner of a card: 1 to 11, 25 and 26 with offset, 29, 12.
pub fn try_card(card: &[u8], showing: Showing) -> Result<Tried, Refusal> {
    try_judged(&read_card(card)?, showing)
}

/// Every list of so many numbers from 1 to 3, lower first, the first number counting most.
fn triples(count: usize) -> Vec<Vec<u32>> {
    let mut lists = vec![Vec::new()];
    for _ in 0..count {
        lists = lists
            .iter()
            .flat_map(|list| [1, 2, 3].map(|last| [list.as_slice(), &[last]].concat()))
            .collect();
    }
    lists
}

/// Figures of a small card, legal or not.
fn small_figures(positions: &[u32], times: &[u32], blocks: u32) -> Figures {
    let mut figures = Figures::zero();
    figures.zones = positions.len() as u32;
    figures.positions[..positions.len()].copy_from_slice(positions);
    figures.times[..times.len()].copy_from_slice(times);
    figures.blocks = blocks;
    figures.block_bytes = 1000;
    figures.rate = 1000;
    figures.with_moves(1, 1)
}

/// Every legal card of kind 1 with 1 to 3 zones, at most 3 positions a zone, times of 1 to 3, every allowed N
/// up to 8, and B 1000, c 1000, hop 1 and return 1; by zones, then positions of all zones from the
/// innermost, then times likewise, then N, lower first.
pub fn small_cards() -> Vec<Figures> {
    let mut cards = Vec::new();
    for zones in 1..=3 {
        for positions in triples(zones) {
            for times in triples(zones) {
                let all = (0..=MOST_BLOCKS).map(|n| small_figures(&positions, &times, n));
                cards.extend(all.filter(|figures| judge_record(figures).is_ok()));
            }
        }
    }
    cards
}
