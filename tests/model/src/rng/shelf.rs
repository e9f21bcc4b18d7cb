//! Shelves of films: figures and plans of every size for each rule, and records with a fault.

pub mod batches;
pub mod cards;
pub mod desks;

use super::borders::{border_figures, fit, greatest_figures};
use super::figures::{
    alter_figure, large_figures, random_figures, set_great_return, set_to_limit, set_to_third,
    small_figures, tighten_to, uneven_figures,
};
use super::Rng;
use crate::card::{self, MAX_BLOCKS, MIN_BLOCKS};
use crate::shelf::card::MAX_SHELF_BLOCKS;
use crate::shelf::plan::{all_times, most_streams, plan_of, worst2};
use crate::shelf::{plan_record, Figures, Planned, Rule, MAX_FILMS};

// Films of a disk.

/// How many films: one, two, three and 16 often.
fn some_count(rng: &mut Rng) -> usize {
    let any = 1 + rng.below(MAX_FILMS);
    rng.pick(&[1, 2, 2, 3, 3, MAX_FILMS, any])
}

/// N of so many films, together `total` blocks and each two or more.
pub fn some_lengths(rng: &mut Rng, films: usize, total: u32) -> Vec<u32> {
    let mut lengths = vec![MIN_BLOCKS; films];
    let mut rest = total - MIN_BLOCKS * films as u32;
    while rest > 0 {
        let more = rng.spread(1, rest);
        lengths[rng.below(films)] += more;
        rest -= more;
    }
    lengths
}

/// Gives the disk's zones positions until `least` are there.
fn widen(rng: &mut Rng, disk: &mut card::Figures, least: u64) {
    while disk.total_positions() < least {
        let zone = rng.below(disk.zones as usize);
        disk.positions[zone] += rng.between(1, 4);
    }
}

/// So many films on a disk that is widened where it has too few positions: up to `limit` blocks more
/// than two each, often as many as there is room for.
fn shelf_on(
    rng: &mut Rng,
    mut disk: card::Figures,
    rule: Rule,
    films: usize,
    limit: u32,
) -> Figures {
    let visits = rule.visits() as u64;
    let least = MIN_BLOCKS * films as u32;
    widen(rng, &mut disk, visits * least as u64);
    let room = (disk.total_positions() / visits).min(MAX_SHELF_BLOCKS as u64) as u32;
    let most = room.min(least + limit);
    let total = if rng.once_in(2) { most } else { rng.spread(least, most) };
    Figures::of(&disk, &some_lengths(rng, films, total))
}

/// Few zones, few positions, so many films. Not all can feed a stream.
pub fn small_shelf_of(rng: &mut Rng, rule: Rule, films: usize, limit: u32) -> Figures {
    let disk = small_figures(rng, MAX_BLOCKS);
    shelf_on(rng, disk, rule, films, limit)
}

/// The same with any number of films.
pub fn small_shelf(rng: &mut Rng, rule: Rule, limit: u32) -> Figures {
    let films = some_count(rng);
    small_shelf_of(rng, rule, films, limit)
}

/// Any zones and positions, up to 16,384 blocks, so many films.
pub fn large_shelf_of(rng: &mut Rng, rule: Rule, films: usize) -> Figures {
    let disk = large_figures(rng);
    shelf_on(rng, disk, rule, films, MAX_SHELF_BLOCKS)
}

/// The same with any number of films.
pub fn large_shelf(rng: &mut Rng, rule: Rule) -> Figures {
    let films = some_count(rng);
    large_shelf_of(rng, rule, films)
}

// Streams.

/// n × worst2 + 2 × the overhead for the visits of n blocks.
pub fn sweep_need(figures: &Figures, rule: Rule, n: u32) -> u64 {
    let worst2 = worst2(&all_times(figures, rule), rule);
    let overhead = figures.table[rule.visits() * n as usize];
    n as u64 * worst2 as u64 + 2 * overhead as u64
}

/// Sets c and B so that n streams just fit.
pub fn tighten(rng: &mut Rng, figures: &mut Figures, rule: Rule, n: u32) {
    let need = sweep_need(figures, rule, n);
    let mut disk = figures.of_one(0);
    tighten_to(rng, &mut disk, need);
    *figures = figures.on(&disk);
}

/// A small shelf where 1, the greatest number of streams or another just fits or just does not.
pub fn tight_shelf(rng: &mut Rng, rule: Rule, limit: u32) -> Figures {
    let mut figures = small_shelf(rng, rule, limit);
    let most = most_streams(rule);
    let any = rng.between(1, most);
    let n = rng.pick(&[1, 1, 2, most - 1, most, any]);
    tighten(rng, &mut figures, rule, n);
    if rng.once_in(2) && figures.block_bytes > 1 {
        figures.block_bytes -= 1;
    }
    figures
}

/// A legal record of any sort for the rule. Not all can feed a stream.
pub fn legal_shelf(rng: &mut Rng, rule: Rule) -> Figures {
    match rng.below(16) {
        0 => large_shelf(rng, rule),
        1..=7 => small_shelf(rng, rule, MAX_BLOCKS),
        _ => tight_shelf(rng, rule, 40),
    }
}

/// A plan for desks: so many short films, few streams or very many.
pub fn shelf_plan_of(rng: &mut Rng, rule: Rule, films: usize) -> Planned {
    loop {
        let limit = rng.pick(&[0, 1, 3, 6, 10, 40]);
        let mut disk = small_figures(rng, MAX_BLOCKS);
        if rng.once_in(2) {
            set_great_return(rng, &mut disk);
        }
        let mut figures = shelf_on(rng, disk, rule, films, limit);
        let most = most_streams(rule);
        let n = rng.pick(&[1, 2, 2, 3, 3, 4, 5, 6, 8, 12, 16, 20, most - 1, most]);
        tighten(rng, &mut figures, rule, n);
        if let Some(planned) = plan_of(&figures, rule) {
            return planned;
        }
    }
}

/// The same with any number of films.
pub fn shelf_plan(rng: &mut Rng, rule: Rule) -> Planned {
    let films = some_count(rng);
    shelf_plan_of(rng, rule, films)
}

/// A plan for desks with films of any length and zones of any size.
pub fn large_shelf_plan(rng: &mut Rng, rule: Rule) -> Planned {
    let mut figures = large_shelf(rng, rule);
    let n = rng.pick(&[1, 3, 20, most_streams(rule)]);
    tighten(rng, &mut figures, rule, n);
    plan_of(&figures, rule).expect("n streams fit")
}

/// Films that take all positions of many small zones, but one at most: any pair of any film may be the
/// worst.
pub fn uneven_shelf(rng: &mut Rng, rule: Rule) -> Figures {
    let visits = rule.visits() as u32;
    let disk = uneven_figures(rng, MIN_BLOCKS * visits);
    let all = disk.total_positions() as u32 / visits;
    let most = (all / MIN_BLOCKS).min(MAX_FILMS as u32) as usize;
    let films = rng.pick(&[1, 2, 3, most]).min(most);
    let mut figures = Figures::of(&disk, &some_lengths(rng, films, all));
    let most = most_streams(rule);
    let n = rng.pick(&[1, 2, 5, 16, most]);
    tighten(rng, &mut figures, rule, n);
    figures
}

/// A plan of such films.
pub fn uneven_shelf_plan(rng: &mut Rng, rule: Rule) -> Planned {
    plan_of(&uneven_shelf(rng, rule), rule).expect("n streams fit")
}

/// Short films whose products are the greatest there are, or carry; one film often. Most feed a stream.
pub fn border_shelf(rng: &mut Rng, rule: Rule) -> Figures {
    let films = if rng.once_in(2) { 1 } else { some_count(rng) };
    let is_greatest = rng.once_in(4);
    let disk = if is_greatest { greatest_figures(rng) } else { border_figures(rng) };
    let mut figures = shelf_on(rng, disk, rule, films, 40);
    if !is_greatest && !rng.once_in(4) {
        let most = most_streams(rule);
        let n = rng.pick(&[1, 2, 3, 16, most - 1, most]);
        let need = sweep_need(&figures, rule, n);
        let mut disk = figures.of_one(0);
        fit(rng, &mut disk, need);
        figures = figures.on(&disk);
    }
    figures
}

/// A plan of such films.
pub fn border_shelf_plan(rng: &mut Rng, rule: Rule) -> Planned {
    loop {
        let figures = border_shelf(rng, rule);
        if let Ok(planned) = plan_record(&figures, rule, usize::MAX, usize::MAX) {
            return planned;
        }
    }
}

// Records with a fault.

/// Alters the film count or one film's N, used or not.
fn alter_films(rng: &mut Rng, figures: &mut Figures) {
    let used = figures.lengths().len().max(1);
    let film = if rng.once_in(3) { rng.below(MAX_FILMS) } else { rng.below(used) };
    match rng.below(4) {
        0 => figures.films = rng.other_than(figures.films),
        1 => figures.films = rng.pick(&[0, 1, 2, 15, 16, 17]),
        _ => figures.blocks[film] = rng.other_than(figures.blocks[film]),
    }
}

/// Puts one film's N at the end of its range, of the shelf's blocks or of the free positions for
/// either rule, or just past it.
fn set_film_to_limit(rng: &mut Rng, figures: &mut Figures) {
    let film = rng.below(figures.lengths().len().max(1));
    let before = figures.start(film) as u32;
    let total = figures.total_positions() as u32;
    let free = total.saturating_sub(before);
    let free_pairs = total.saturating_sub(2 * before) / 2;
    let left = MAX_SHELF_BLOCKS.saturating_sub(before);
    let limit = rng.pick(&[1, MAX_BLOCKS, left, left, free, free, free_pairs, free_pairs]);
    figures.blocks[film] = limit + rng.between(0, 1);
}

/// Alters one figure, used or not.
pub fn alter_shelf(rng: &mut Rng, figures: &mut Figures) {
    if rng.once_in(3) {
        return alter_films(rng, figures);
    }
    let mut disk = figures.of_one(0);
    alter_figure(rng, &mut disk);
    *figures = figures.on(&disk);
}

/// Sets one figure to the end of its range or just past it.
pub fn set_shelf_to_limit(rng: &mut Rng, figures: &mut Figures) {
    if rng.once_in(2) {
        return set_film_to_limit(rng, figures);
    }
    let mut disk = figures.of_one(0);
    set_to_limit(rng, &mut disk);
    *figures = figures.on(&disk);
}

/// A record of anything.
pub fn random_shelf(rng: &mut Rng) -> Figures {
    let mut figures = Figures::of(&random_figures(rng), &[]);
    figures.films = rng.any();
    figures.blocks = std::array::from_fn(|_| rng.any());
    figures
}

/// A legal record for the rule, one or two figures altered, or anything.
pub fn any_shelf(rng: &mut Rng, rule: Rule) -> Figures {
    let mut figures = legal_shelf(rng, rule);
    match rng.below(13) {
        0 => return random_shelf(rng),
        1..=3 => {}
        4..=7 => set_shelf_to_limit(rng, &mut figures),
        8..=10 => alter_shelf(rng, &mut figures),
        11 => {
            alter_shelf(rng, &mut figures);
            alter_shelf(rng, &mut figures);
        }
        _ => {
            let mut disk = figures.of_one(0);
            set_to_third(rng, &mut disk);
            figures = figures.on(&disk);
        }
    }
    figures
}
