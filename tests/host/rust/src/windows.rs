//! Windows of every number of blocks, on plans and lists that are good, damaged or another film's.

use crate::call::{Call, Strings, Way, PLAN, POSITIONS};
use crate::cases::{read_string, some_list, some_plan};
use crate::layout::{bytes_of, plan_bytes};
use crate::trial::Trial;
use film_disk_model::rng::shelf::desks::alter_plan;
use film_disk_model::shelf::{plan_record, Planned, Rule};
use film_disk_model::window::MAX_WINDOW;
use film_disk_model::Rng;

/// Up to so many blocks every window is tried.
const SHORT: u32 = 256;

/// Blocks of a window: a number that it may have, one about the borders of any film, or any.
fn some_blocks(rng: &mut Rng, planned: &Planned) -> u32 {
    let figures = &planned.plan.figures;
    let (longest, film) = (figures.longest(), rng.pick(figures.lengths()));
    let (good, any) = (rng.between(1, longest.min(MAX_WINDOW)), rng.any());
    let all = figures.all_blocks() as u32;
    let about = [film - 1, film, film + 1, longest, longest + 1, all];
    let borders = [&[0, 1, 2, MAX_WINDOW, MAX_WINDOW + 1, any][..], &about].concat();
    if rng.once_in(2) {
        good
    } else {
        rng.pick(&borders)
    }
}

/// The list of the films shown another way, or of other films.
fn foreign_positions(rng: &mut Rng, planned: &Planned) -> Vec<u32> {
    let figures = &planned.plan.figures;
    let others = Rule::ALL.into_iter().filter(|rule| rule.word() != planned.plan.showing);
    let turned: Vec<Planned> =
        others.flat_map(|rule| plan_record(figures, rule, usize::MAX, usize::MAX)).collect();
    match turned.len() {
        count if count > 0 && rng.once_in(2) => turned[rng.below(count)].positions.clone(),
        _ => some_plan(rng).positions,
    }
}

/// A window of the plan of its figures, or of another record.
pub fn window_case(rng: &mut Rng) -> (Call, Strings) {
    let planned = some_plan(rng);
    let blocks = some_blocks(rng, &planned);
    let mut plan = planned.plan.clone();
    if rng.once_in(6) {
        alter_plan(rng, &mut plan);
    }
    let mut positions = match rng.below(8) {
        0 => foreign_positions(rng, &planned),
        _ => planned.positions.clone(),
    };
    if rng.once_in(10) {
        let last = positions.len() - 1;
        positions[last] = rng.other_than(positions[last]);
    }
    let mut strings = Strings::default();
    strings[PLAN] = read_string(rng, plan_bytes(&plan));
    strings[POSITIONS] = some_list(rng, &positions);
    (Call::Window { blocks }, strings)
}

/// Every number of blocks of short films, and those about the borders of long ones, the longest of which has so many.
fn all_blocks(longest: u32) -> Vec<u32> {
    let middle = if longest <= SHORT { 3..=62 } else { 31..=32 };
    let borders = [63, 64, 65, 66, longest, longest + 1, u32::MAX];
    [0, 1, 2].into_iter().chain(middle).chain(borders).collect()
}

/// The windows of films with their own list, each accepted or 27.
pub fn film_windows(rng: &mut Rng, trial: &mut Trial, planned: &Planned) -> Result<(), String> {
    let film = planned.plan.figures.longest();
    let mut strings = Strings::default();
    strings[PLAN] = plan_bytes(&planned.plan);
    strings[POSITIONS] = bytes_of(&planned.positions);
    for blocks in all_blocks(film) {
        let (got, _) = trial.both(rng, Call::Window { blocks }, Way::List, &strings)?;
        let is_window = (1..=film.min(MAX_WINDOW)).contains(&blocks);
        let expected = if is_window { 0 } else { 27 };
        if got.answer.number != expected {
            let number = got.answer.number;
            return Err(format!("window of {blocks} blocks: expected {expected}, got {number}"));
        }
    }
    Ok(())
}
