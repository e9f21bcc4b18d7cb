//! Films at the borders of N and of the zones, for one showing, as loops and as pairs, alone and on shelves of up to 16. Each shelf is planned
//! and opened, its windows are tried, and some screens play its films past their last blocks; short loops they play several times round.

use crate::lists::List;
use crate::trial::Trial;
use crate::windows::film_windows;
use film_disk_model::bench::{bench_rising, figures_of};
use film_disk_model::rng::desks::Draw;
use film_disk_model::rng::shelf::desks::fair_draws;
use film_disk_model::rng::shelf::{some_lengths, sweep_need};
use film_disk_model::shelf::desk::most_fetches;
use film_disk_model::shelf::plan::{most_streams, plan_of};
use film_disk_model::shelf::{Call, Figures, Planned, Rule, Step};
use film_disk_model::Rng;

const BLOCKS: [u32; 14] = [2, 3, 4, 5, 6, 7, 8, 9, 63, 64, 65, 256, 16_383, 16_384];
const ZONES: [u32; 6] = [1, 2, 3, 6, 7, 64];
/// Films of a shelf and their blocks together: each least, short ones, and as many as there may be.
const SHELVES: [(usize, u32); 10] = [
    (2, 4),
    (2, 7),
    (2, 130),
    (2, 16_384),
    (3, 6),
    (3, 23),
    (3, 16_384),
    (16, 32),
    (16, 75),
    (16, 16_384),
];
/// A loop of up to so many blocks is played round so many times.
const SHORT: u32 = 9;
const ROUNDS: u128 = 3;
/// Screens of a shelf, where it feeds so many.
const SCREENS: u32 = 4;
const RATE: u32 = 100_000;

/// A shelf of films that is tried.
#[derive(Clone, Copy, Debug)]
pub struct Shelf {
    films: usize,
    /// Of all films together.
    blocks: u32,
    zones: u32,
    rule: Rule,
}

/// Films of the last positions, as many as their blocks take, over zones of any size about an even part of them, with blocks that just feed so
/// many streams, by hop and return or by a table that rises from there on. A short shelf feeds few, so that its screens get a block in most
/// sweeps.
fn planned(rng: &mut Rng, shelf: Shelf) -> Planned {
    let Shelf { films, blocks, zones, rule } = shelf;
    let visits = rule.visits() as u32;
    let each = (visits * blocks / zones).max(1);
    let mut sizes: Vec<u32> = (0..zones).map(|_| rng.between(1, 2 * each)).collect();
    let total: u32 = sizes.iter().sum();
    sizes[zones as usize / 2] += (visits * blocks).saturating_sub(total);
    // Evenly, or faster and faster, so that the worst pair is in mid film.
    let (fall, power) = rng.pick(&[(0, 1), (1, 1), (300, 1), (5, 2)]);
    let timed = |(zone, size): (usize, &u32)| (*size, 40_000 - fall * (zone as u32).pow(power));
    let zones: Vec<(u32, u32)> = sizes.iter().enumerate().map(timed).collect();
    let mut disk = figures_of(&zones, 0, 1, RATE);
    let streams =
        if blocks <= SHORT { rng.between(1, 3) } else { rng.pick(&[1, 16, most_streams(rule)]) };
    if rng.once_in(2) {
        disk = disk.with_table(bench_rising(streams as usize + 1, 1000).table);
    }
    let mut figures = Figures::of(&disk, &some_lengths(rng, films, blocks));
    let need = sweep_need(&figures, rule, streams);
    figures.block_bytes = (RATE as u64 * need).div_ceil(2_000_000) as u32;
    plan_of(&figures, rule).expect("so many streams fit")
}

/// A call with the plan's own lists.
fn step(planned: &Planned, call: Call) -> Step {
    Step { positions: planned.positions.clone(), leads: planned.leads.clone(), call }
}

/// A screen joins about the end of a film, one film after the other.
fn join_of(planned: &Planned, slot: u32) -> Call {
    let figures = &planned.plan.figures;
    let film = slot % figures.films;
    let blocks = figures.blocks[film as usize];
    Call::Join { slot, block: (blocks - 2 + slot) % blocks, film }
}

/// Screens join and draw what they may.
fn play(rng: &mut Rng, trial: &mut Trial, planned: &Planned) -> Result<(), String> {
    let blocks = planned.plan.figures.all_blocks() as u32;
    let mut list = List::open(rng, trial, planned)?;
    let mut call = |list: &mut List, rng: &mut Rng, call| {
        let got = list.call(rng, trial, &step(planned, call), usize::MAX)?;
        match got.answer.number {
            0 => Ok(()),
            number => Err(format!("refused {number}")),
        }
    };
    for slot in 0..SCREENS.min(planned.plan.streams) {
        call(&mut list, rng, join_of(planned, slot))?;
    }
    let sweeps = if blocks <= SHORT { 12 * blocks } else { 8 };
    for _ in 0..sweeps {
        let fetch_list = most_fetches(&list.rules);
        call(&mut list, rng, Call::Begin { fetch_list })?;
        let draws = fair_draws(rng, &list.rules, Draw::Full);
        call(&mut list, rng, Call::End { draws })?;
    }
    let goes_round = planned.plan.showing == Rule::Loop.word();
    if goes_round && blocks <= SHORT && list.rounds() < ROUNDS {
        return Err(format!("expected {ROUNDS} rounds, got {}", list.rounds()));
    }
    Ok(())
}

/// All shelves, each with a name for what is said of it.
pub fn all_films() -> impl Iterator<Item = (String, Shelf)> {
    let lone = BLOCKS.into_iter().map(|blocks| (1, blocks));
    let sizes = lone.chain(SHELVES).flat_map(|size| ZONES.map(|zones| (size, zones)));
    let shelves = sizes.flat_map(|((films, blocks), zones)| {
        Rule::ALL.map(|rule| Shelf { films, blocks, zones, rule })
    });
    shelves.map(|shelf| (format!("{shelf:?}"), shelf))
}

pub fn film_case(trial: &mut Trial, shelf: Shelf) -> Result<(), String> {
    let mut rng = Rng::new((shelf.blocks * 100 + shelf.zones) as u64);
    let planned = planned(&mut rng, shelf);
    film_windows(&mut rng, trial, &planned)?;
    play(&mut rng, trial, &planned)
}
