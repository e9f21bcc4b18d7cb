//! Figures whose products are the greatest there are, or carry between the 16-bit halves of their numbers in every way.

use super::figures::{small_figures, sweep_need};
use super::pairs::pairs_need;
use super::Rng;
use crate::bench::figures_of;
use crate::card::{
    card_bytes, straight, Figures, ENTRIES, MAX_BLOCK_BYTES, MAX_HOP, MAX_OVERHEAD, MAX_RATE,
    MAX_RETURN, MAX_TIME, MEASURED, MIN_BLOCKS, STRAIGHT,
};
use crate::pairs::plan_pairs_record;
use crate::plan::{plan_record_for, Planned, Showing};

/// One zone or two, N 2, the greatest B; rate, and hop and return alike.
fn two_blocks(zones: &[(u32, u32)], rate: u32, moves: u32) -> Figures {
    figures_of(zones, 2, MAX_BLOCK_BYTES, rate).with_moves(moves, moves)
}

/// The formula of streams is 25,620,000,000,000,000 at 256, and no stream fits.
pub fn greatest_load() -> Figures {
    two_blocks(&[(2, MAX_TIME)], MAX_RATE, MAX_HOP)
}

/// A sweep bound of 1,281,000,000.
pub fn greatest_bound() -> Figures {
    two_blocks(&[(2, MAX_TIME)], 3274, MAX_HOP)
}

/// The greatest buffer that 26 leaves, 14,680,064.
pub fn greatest_buffer() -> Figures {
    two_blocks(&[(1, 3_999_012), (1, 1_333_004)], 8692, 1)
}

/// The greatest lead that 26 leaves, 2,666,666, and 256 streams.
pub fn greatest_leads() -> Figures {
    two_blocks(&[(1, MAX_TIME), (1, 1_333_334)], 6143, 1)
}

/// The greatest rate, with 256 streams.
pub fn greatest_rate() -> Figures {
    two_blocks(&[(2, 1)], MAX_RATE, 1)
}

/// The greatest overhead for every number of blocks; the bound of 256 is 1,281,000,000 too.
pub fn greatest_table() -> Figures {
    greatest_bound().with_table([MAX_OVERHEAD; ENTRIES])
}

/// Figures that reach the greatest values of the formulas.
pub(super) fn greatest_figures(rng: &mut Rng) -> Figures {
    let all = [
        greatest_load,
        greatest_bound,
        greatest_buffer,
        greatest_leads,
        greatest_rate,
        greatest_table,
    ];
    rng.pick(&all)()
}

/// From 1 to `greatest`: an end, or a multiple of 65,536 or a number beside one.
fn border(rng: &mut Rng, greatest: u32) -> u32 {
    let multiple = rng.between(1, (greatest >> 16) + 1) << 16;
    let beside = multiple - 1 + rng.between(0, 2);
    let end = greatest.saturating_sub(rng.between(0, 1));
    rng.pick(&[1, end, beside, beside, beside]).clamp(1, greatest)
}

/// Overheads of such numbers, of either kind.
fn set_border_overheads(rng: &mut Rng, figures: &mut Figures) {
    if rng.once_in(2) {
        figures.kind = STRAIGHT;
        figures.table = straight(border(rng, MAX_HOP), border(rng, MAX_RETURN));
        return;
    }
    let most = rng.pick(&[MAX_OVERHEAD, MAX_RETURN]);
    figures.kind = MEASURED;
    figures.table = std::array::from_fn(|_| border(rng, most));
    figures.table.sort_unstable();
}

/// The same with each block as two halves: four positions or eight.
fn greatest_pairs(rng: &mut Rng) -> Figures {
    let mut figures = greatest_figures(rng);
    let times = rng.pick(&[2, 4]);
    for zone in 0..figures.zones as usize {
        figures.positions[zone] *= times;
    }
    if rng.once_in(4) {
        figures.rate = figures.rate.div_ceil(2);
    }
    figures
}

/// Figures of a short film with such times, rates and the like. Half of them keep all times above a
/// third of the greatest, and so are legal.
pub(super) fn border_figures(rng: &mut Rng) -> Figures {
    let limit = rng.pick(&[2, 3, 5, 8, 12, 40]);
    let mut figures = small_figures(rng, limit);
    let zones = figures.zones as usize;
    let most = border(rng, MAX_TIME);
    let least = if rng.once_in(2) { 1 } else { most.div_ceil(3) };
    for time in &mut figures.times[..zones] {
        *time = border(rng, most).max(least);
    }
    figures.times[..zones].sort_unstable_by(|one, other| other.cmp(one));
    figures.block_bytes = border(rng, MAX_BLOCK_BYTES);
    figures.rate = border(rng, MAX_RATE);
    set_border_overheads(rng, &mut figures);
    figures
}

/// Sets c and B so that c × need is within 2,000,000 × B, c at such a number and B often just enough.
pub(super) fn fit(rng: &mut Rng, figures: &mut Figures, need: u64) {
    let most = 2_000_000 * MAX_BLOCK_BYTES as u64 / need;
    figures.rate = border(rng, most.min(MAX_RATE as u64) as u32);
    let least = (figures.rate as u64 * need).div_ceil(2_000_000) as u32;
    figures.block_bytes = if rng.once_in(2) { least } else { figures.block_bytes.max(least) };
}

/// Any figures of these; most feed a stream.
fn any_figures(rng: &mut Rng, showing: Showing) -> Figures {
    if rng.once_in(4) {
        return greatest_figures(rng);
    }
    let mut figures = border_figures(rng);
    if !rng.once_in(4) {
        let n = rng.pick(&[1, 2, 3, 16, 255, 256]);
        let need = sweep_need(&figures, showing, n);
        fit(rng, &mut figures, need);
    }
    figures
}

/// The same for pairs, the film on all positions but one at most.
fn any_pairs(rng: &mut Rng) -> Figures {
    if rng.once_in(4) {
        return greatest_pairs(rng);
    }
    let mut figures = border_figures(rng);
    let total = figures.total_positions() as u32;
    if total < 2 * MIN_BLOCKS {
        figures.positions[0] += 2 * MIN_BLOCKS - total;
    }
    figures.blocks = figures.total_positions() as u32 / 2;
    if !rng.once_in(4) {
        let n = rng.pick(&[1, 2, 3, 16, 127, 128]);
        let need = pairs_need(&figures, n);
        fit(rng, &mut figures, need);
    }
    figures
}

/// A card of such figures.
pub fn border_card(rng: &mut Rng) -> Vec<u8> {
    card_bytes(&any_figures(rng, Showing::Once))
}

/// A card of such figures for pairs.
pub fn border_pairs_card(rng: &mut Rng) -> Vec<u8> {
    card_bytes(&any_pairs(rng))
}

/// A plan of such figures for pairs.
pub fn border_pairs_plan(rng: &mut Rng) -> Planned {
    loop {
        let figures = any_pairs(rng);
        let blocks = figures.blocks as usize;
        if let Ok(planned) = plan_pairs_record(&figures, 2 * blocks, blocks) {
            return planned;
        }
    }
}

/// A plan of such figures.
pub fn border_plan_for(rng: &mut Rng, showing: Showing) -> Planned {
    loop {
        let figures = any_figures(rng, showing);
        let blocks = figures.blocks as usize;
        if let Ok(planned) = plan_record_for(&figures, showing, blocks, blocks) {
            return planned;
        }
    }
}
