//! Rates over longer windows (02, ticket 9): the worst time of k successive blocks, its earliest
//! place and the bytes read in it; and the text of the windows program.

use crate::listing::refusal_text;
use crate::pairs::{pair_times, window_pairs, PAIRS};
use crate::plan::{plan_record_for, time_at, Plan, Showing};
use crate::refusal::{cause, refuse, Refusal};
use crate::shelf::window::window_of_plan;
use crate::shelf::{plan_card, Planned, Rule};
use std::fmt::Write;

/// Most blocks of a window.
pub const MAX_WINDOW: u32 = 64;

/// What the windows program says of any argument but `loop` and `pairs`.
pub const USAGE: &str = "usage: windows [loop|pairs]\n";

/// The worst of all windows of so many blocks; the guaranteed rate is `bytes` in `time`.
#[derive(Clone, Copy, Debug, PartialEq, Eq)]
pub struct Window {
    /// Microseconds.
    pub time: u32,
    /// The first block, the earliest where several windows take that time.
    pub first: u32,
    /// k × B.
    pub bytes: u32,
}

/// Is this the plan of its figures for the showing that it says, and does the positions list begin
/// with its N entries? There is no list of leads.
pub fn is_plan_with_positions(plan: &Plan, positions: &[u32]) -> bool {
    let Some(showing) = Showing::of(plan.showing) else {
        return false;
    };
    match plan_record_for(&plan.figures, showing, positions.len(), usize::MAX) {
        Ok(planned) => planned.plan == *plan && positions.starts_with(&planned.positions),
        Err(_) => false,
    }
}

/// The first blocks of all windows: of one showing those whose k blocks are in the film, of a loop
/// all blocks, for its windows go round.
fn places(blocks: usize, showing: Showing, k: usize) -> std::ops::Range<usize> {
    match showing {
        Showing::Once => 0..blocks - k + 1,
        Showing::Loop => 0..blocks,
    }
}

/// The times of k successive blocks added up, block 0 after the last.
fn time_of(times: &[u32], first: usize, k: usize) -> u32 {
    let round = times[first..].iter().chain(times);
    round.take(k).sum()
}

/// The greatest time of k successive blocks and the earliest place where it is taken; k is from 1
/// to N.
pub fn worst_window(times: &[u32], showing: Showing, k: usize) -> (u32, usize) {
    let places = places(times.len(), showing, k);
    let all: Vec<u32> = places.map(|first| time_of(times, first, k)).collect();
    let worst = all.iter().copied().max().expect("a window");
    let first = all.iter().position(|&time| time == worst).expect("one takes it");
    (worst, first)
}

/// time(b) for each block, by the positions list of a plan; of pairs that of both halves.
fn laid_times(plan: &Plan, positions: &[u32]) -> Vec<u32> {
    if plan.showing == PAIRS {
        return pair_times(&plan.figures, positions);
    }
    let film = &positions[..plan.figures.blocks as usize];
    film.iter().map(|&position| time_at(&plan.figures, position)).collect()
}

/// The window of a plan whose blocks take these times; k is from 1 to 64 and to N. Pairs are shown
/// once.
fn window_of(plan: &Plan, times: &[u32], k: u32) -> Window {
    let showing = match plan.showing {
        PAIRS => Showing::Once,
        word => Showing::of(word).expect("the word of a plan"),
    };
    let (time, first) = worst_window(times, showing, k as usize);
    Window { time, first: first as u32, bytes: k * plan.figures.block_bytes }
}

/// The window of k blocks of a plan with its positions list: 14, then 27, each with place 0.
pub fn window(plan: &Plan, positions: &[u32], k: u32) -> Result<Window, Refusal> {
    if plan.showing == PAIRS {
        return window_pairs(plan, positions, k);
    }
    if !is_plan_with_positions(plan, positions) {
        return refuse(cause::NOT_SOUND, 0);
    }
    if k == 0 || k > MAX_WINDOW || k > plan.figures.blocks {
        return refuse(cause::WINDOW, 0);
    }
    Ok(window_of(plan, &laid_times(plan, positions), k))
}

/// A header, then for each window its blocks, up to those of the longest film, worst time, first block
/// as the lists count, bytes, and bytes a second rounded down.
fn windows_text(planned: &Planned) -> String {
    let plan = &planned.plan;
    let mut text = "blocks time first bytes rate\n".to_string();
    for k in 1..=MAX_WINDOW.min(plan.figures.longest()) {
        let Window { time, first, bytes } = window_of_plan(plan, k);
        let rate = bytes as u64 * 1_000_000 / time as u64;
        writeln!(text, "{k} {time} {first} {bytes} {rate}").unwrap();
    }
    text
}

/// What the windows program prints for its input, its lists being long enough.
pub fn windows(card: &[u8], rule: Rule) -> String {
    match plan_card(card, rule, usize::MAX, usize::MAX) {
        Ok(planned) => windows_text(&planned),
        Err(refusal) => refusal_text(refusal),
    }
}

/// What the program prints with these arguments.
pub fn windows_with(arguments: &[String], card: &[u8]) -> String {
    match arguments {
        [] => windows(card, Rule::Once),
        [word] if word == "loop" => windows(card, Rule::Loop),
        [word] if word == "pairs" => windows(card, Rule::Pairs),
        _ => USAGE.to_string(),
    }
}
