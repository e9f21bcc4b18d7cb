//! Overheads of a sweep: by hop and return, in tables of every shape, and with a fault.

use super::Rng;
use crate::card::{
    straight, Figures, ENTRIES, MAX_HOP, MAX_OVERHEAD, MAX_RETURN, MEASURED, STRAIGHT,
};

/// A table by steps from an entry to the next; those that would go above the greatest stay there.
fn by_steps(start: u32, mut step: impl FnMut(usize) -> u32) -> [u32; ENTRIES] {
    let mut table = [start; ENTRIES];
    for count in 1..ENTRIES {
        table[count] = (table[count - 1].saturating_add(step(count))).min(MAX_OVERHEAD);
    }
    table
}

/// Straight, but from some count on steeper, or flatter, or as high as may be.
fn bent(rng: &mut Rng) -> [u32; ENTRIES] {
    let (one, other) = (rng.spread(0, MAX_HOP), rng.spread(0, 4 * MAX_HOP));
    let (start, any) = (rng.spread(1, MAX_RETURN), rng.below(ENTRIES));
    let knee = rng.pick(&[1, 2, 3, 16, 255, 256, any]);
    let after = rng.pick(&[other, other, 0, MAX_OVERHEAD]);
    by_steps(start, |count| if count < knee { one } else { after })
}

/// A legal table.
pub fn any_table(rng: &mut Rng) -> [u32; ENTRIES] {
    match rng.below(6) {
        0 => straight(rng.spread(1, MAX_HOP), rng.spread(1, MAX_RETURN)),
        1 => [rng.spread(1, MAX_OVERHEAD); ENTRIES],
        2 | 3 => bent(rng),
        4 => {
            let most = rng.pick(&[1, 3, 1000, MAX_HOP]);
            let start = rng.spread(1, MAX_RETURN);
            by_steps(start, |_| rng.between(0, most))
        }
        _ => {
            let mut table = std::array::from_fn(|_| rng.spread(1, MAX_OVERHEAD));
            table.sort_unstable();
            table
        }
    }
}

/// Legal overheads of either kind.
pub fn set_overheads(rng: &mut Rng, figures: &mut Figures) {
    if rng.once_in(3) {
        (figures.kind, figures.table) = (MEASURED, any_table(rng));
    } else {
        let (hop, ret) = (rng.spread(1, MAX_HOP), rng.spread(1, MAX_RETURN));
        (figures.kind, figures.table) = (STRAIGHT, straight(hop, ret));
    }
}

/// An entry of the table, the first and the last ones often.
pub fn some_entry(rng: &mut Rng) -> usize {
    let any = rng.below(ENTRIES);
    rng.pick(&[0, 1, 2, 255, 256, any, any])
}

/// Alters the kind, hop, return or an entry.
pub fn alter_overheads(rng: &mut Rng, figures: &mut Figures) {
    let (hop, ret) = (figures.hop(), figures.ret());
    match rng.below(6) {
        0 => figures.kind = rng.pick(&[0, 1, 2, 3, 256]),
        1 => figures.table = straight(rng.other_than(hop), ret),
        2 => figures.table = straight(hop, rng.other_than(ret)),
        _ => {
            let entry = some_entry(rng);
            figures.table[entry] = rng.other_than(figures.table[entry]);
        }
    }
}

/// An entry at the end of its range or just past it, or about the one before it.
pub fn set_entry_to_limit(rng: &mut Rng, figures: &mut Figures) {
    let entry = some_entry(rng);
    let before = figures.table[entry.saturating_sub(1)];
    let limits = [0, 1, MAX_OVERHEAD, MAX_OVERHEAD + 1];
    let beside = [before, before.saturating_sub(1), before + 1];
    figures.table[entry] = if rng.once_in(2) { rng.pick(&limits) } else { rng.pick(&beside) };
}

/// Hop, return or an entry at or past the end of its range.
pub fn set_overheads_to_limit(rng: &mut Rng, figures: &mut Figures) {
    let (hop, ret) = (figures.hop(), figures.ret());
    if figures.kind == MEASURED || rng.once_in(4) {
        set_entry_to_limit(rng, figures);
    } else if rng.once_in(2) {
        figures.table = straight(rng.pick(&[0, 1, MAX_HOP, MAX_HOP + 1]), ret);
    } else {
        figures.table = straight(hop, rng.pick(&[0, 1, MAX_RETURN, MAX_RETURN + 1]));
    }
}
