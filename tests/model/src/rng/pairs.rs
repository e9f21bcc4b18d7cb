//! Figures and plans for half blocks on paired tracks.

use super::cards::cut_or_longer;
use super::figures::{
    alter_figure, large_figures, set_to_limit, small_figures, tighten_to, uneven_figures,
};
use super::tables::set_overheads_to_limit;
use super::Rng;
use crate::card::{card_bytes, Figures, MAX_BLOCKS, MIN_BLOCKS};
use crate::pairs::{greatest_pair_time, pair_times, plan_of, positions, VISITS};
use crate::plan::Planned;

/// N up to half the positions, often just that, and up to a limit; nothing on a disk of less than
/// four positions.
fn with_half_blocks(rng: &mut Rng, figures: Figures, limit: u32) -> Option<Figures> {
    let most = (figures.total_positions() / 2).min(limit as u64) as u32;
    if most < MIN_BLOCKS {
        return None;
    }
    let blocks = if rng.once_in(2) { most } else { rng.spread(MIN_BLOCKS, most) };
    Some(Figures { blocks, ..figures })
}

/// Few zones, few positions, N up to `limit`. Not all can feed a stream.
pub fn small_pairs(rng: &mut Rng, limit: u32) -> Figures {
    loop {
        let figures = small_figures(rng, limit);
        if let Some(figures) = with_half_blocks(rng, figures, limit) {
            return figures;
        }
    }
}

/// Any zones and positions, N up to 16,384.
pub fn large_pairs(rng: &mut Rng) -> Figures {
    loop {
        let figures = large_figures(rng);
        if let Some(figures) = with_half_blocks(rng, figures, MAX_BLOCKS) {
            return figures;
        }
    }
}

/// Twice n × p + the overhead for 2 × n visits.
pub fn pairs_need(figures: &Figures, n: u32) -> u64 {
    let p = greatest_pair_time(&pair_times(figures, &positions(figures)));
    let overhead = figures.table[VISITS * n as usize];
    2 * (n as u64 * p as u64 + overhead as u64)
}

/// Sets c and B so that n streams just fit.
pub fn tighten_pairs(rng: &mut Rng, figures: &mut Figures, n: u32) {
    let need = pairs_need(figures, n);
    tighten_to(rng, figures, need);
}

/// Small figures where 1, 127, 128 or another number of streams just fits or just does not.
pub fn tight_pairs(rng: &mut Rng, limit: u32) -> Figures {
    let mut figures = small_pairs(rng, limit);
    let any = rng.between(1, 128);
    let n = rng.pick(&[1, 1, 2, 127, 128, any]);
    tighten_pairs(rng, &mut figures, n);
    if rng.once_in(2) && figures.block_bytes > 1 {
        figures.block_bytes -= 1;
    }
    figures
}

/// A plan for desks: a short film, few streams or very many.
pub fn pairs_plan(rng: &mut Rng) -> Planned {
    loop {
        let limit = rng.pick(&[2, 3, 5, 8, 12, 40]);
        let mut figures = small_pairs(rng, limit);
        let n = rng.pick(&[1, 2, 2, 3, 4, 5, 8, 12, 20, 127, 128]);
        tighten_pairs(rng, &mut figures, n);
        if let Some(planned) = plan_of(&figures) {
            return planned;
        }
    }
}

/// A plan for desks with a film of any length and zones of any size.
pub fn large_pairs_plan(rng: &mut Rng) -> Planned {
    let mut figures = large_pairs(rng);
    let n = rng.pick(&[1, 3, 20, 128]);
    tighten_pairs(rng, &mut figures, n);
    plan_of(&figures).expect("n streams fit")
}

/// A plan for desks of a film that takes all positions of many small zones but one at most: any block
/// of it may be the slowest.
pub fn uneven_pairs_plan(rng: &mut Rng) -> Planned {
    let mut figures = uneven_figures(rng, 4);
    figures.blocks /= 2;
    let n = rng.pick(&[1, 2, 5, 16, 128]);
    tighten_pairs(rng, &mut figures, n);
    plan_of(&figures).expect("n streams fit")
}

/// N at half the positions, one more or less, or far from it.
fn about_half(rng: &mut Rng) -> Figures {
    let figures = tight_pairs(rng, 60);
    let half = (figures.total_positions() / 2) as u32;
    let blocks = rng.pick(&[half, half, half + 1, half + 1, half - 1, 2 * half, 2 * half + 1]);
    Figures { blocks, ..figures }
}

/// A figure at the end of its range or past it, or another table.
fn at_limit(rng: &mut Rng) -> Figures {
    let mut figures = tight_pairs(rng, 60);
    match rng.below(4) {
        0 => alter_figure(rng, &mut figures),
        1 => set_overheads_to_limit(rng, &mut figures),
        _ => set_to_limit(rng, &mut figures),
    }
    figures
}

/// A card for pairs: legal, cut off or with a byte more, with N about half the positions or with
/// another figure at a limit.
pub fn any_pairs_card(rng: &mut Rng) -> Vec<u8> {
    match rng.below(12) {
        0 => card_bytes(&large_pairs(rng)),
        1..=3 => card_bytes(&tight_pairs(rng, 60)),
        4 => card_bytes(&uneven_pairs_plan(rng).plan.figures),
        5 => {
            let card = card_bytes(&about_half(rng));
            cut_or_longer(rng, card)
        }
        6..=9 => card_bytes(&at_limit(rng)),
        _ => card_bytes(&about_half(rng)),
    }
}
