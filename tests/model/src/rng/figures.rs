//! Figures: legal records of every size, tight ones, and records with a fault.

use super::tables::{alter_overheads, set_overheads, set_overheads_to_limit};
use super::Rng;
use crate::card::{
    straight, Figures, MAX_BLOCKS, MAX_BLOCK_BYTES, MAX_POSITIONS, MAX_RATE, MAX_RETURN, MAX_TIME,
    MAX_ZONES, MIN_BLOCKS, TIMES_AS_FAST,
};
use crate::plan::{plan_of, worst2, Planned, Showing};

/// Times of the zones, never rising; one below a third of the first is raised to it.
fn zone_times(rng: &mut Rng, zones: usize) -> Vec<u32> {
    let mut times: Vec<u32> = match rng.below(5) {
        0 => vec![rng.spread(1, MAX_TIME); zones],
        1 => (0..zones).map(|_| rng.pick(&[1, MAX_TIME])).collect(),
        2 => (0..zones).map(|_| rng.between(10_000, 40_000)).collect(),
        3 => (0..zones).map(|_| rng.between(1, 9)).collect(),
        _ => (0..zones).map(|_| rng.spread(1, MAX_TIME)).collect(),
    };
    times.sort_unstable_by(|one, other| other.cmp(one));
    let third = times[0].div_ceil(TIMES_AS_FAST);
    times.iter().map(|&time| time.max(third)).collect()
}

/// Puts zones with these positions into the figures, at least two positions together.
fn set_zones(rng: &mut Rng, figures: &mut Figures, counts: &[u32]) {
    figures.zones = counts.len() as u32;
    figures.positions[..counts.len()].copy_from_slice(counts);
    if counts == [1] {
        figures.positions[0] = MIN_BLOCKS;
    }
    let times = zone_times(rng, counts.len());
    figures.times[..counts.len()].copy_from_slice(&times);
}

/// N, up to the positions or 16,384 or a lower limit.
fn set_blocks(rng: &mut Rng, figures: &mut Figures, limit: u32) {
    let total = figures.total_positions().min(MAX_BLOCKS as u64) as u32;
    figures.blocks = rng.spread(MIN_BLOCKS, total.min(limit));
}

fn set_others(rng: &mut Rng, figures: &mut Figures) {
    figures.block_bytes = rng.spread(1, MAX_BLOCK_BYTES);
    figures.rate = rng.spread(1, MAX_RATE);
    set_overheads(rng, figures);
}

/// Few zones, few positions, N up to `limit`.
pub fn small_figures(rng: &mut Rng, limit: u32) -> Figures {
    let mut figures = Figures::zero();
    let most = rng.pick(&[1, 2, 3, 6, 6, 12, MAX_ZONES]);
    let zones = rng.between(1, most);
    let most = rng.pick(&[1, 2, 5, 20]);
    let counts: Vec<u32> = (0..zones).map(|_| rng.between(1, most)).collect();
    set_zones(rng, &mut figures, &counts);
    set_blocks(rng, &mut figures, limit);
    set_others(rng, &mut figures);
    figures
}

/// Positions of zones with a total of up to 1,048,576, often all of it.
fn large_counts(rng: &mut Rng, zones: u32) -> Vec<u32> {
    let mut counts: Vec<u32> = Vec::new();
    let mut rest = MAX_POSITIONS;
    for left in (1..=zones).rev() {
        let most = rest - (left - 1);
        let count = match left {
            1 if rng.once_in(2) => most,
            _ => rng.spread(1, (most / left).max(1)),
        };
        counts.push(count);
        rest -= count;
    }
    counts
}

/// Any zones and positions, N up to 16,384.
pub fn large_figures(rng: &mut Rng) -> Figures {
    let mut figures = Figures::zero();
    let zones = rng.spread(1, MAX_ZONES);
    let counts = large_counts(rng, zones);
    set_zones(rng, &mut figures, &counts);
    set_blocks(rng, &mut figures, MAX_BLOCKS);
    set_others(rng, &mut figures);
    figures
}

fn greatest_divisor(one: u64, other: u64) -> u64 {
    if other == 0 {
        one
    } else {
        greatest_divisor(other, one % other)
    }
}

/// A rate up to `most`; where it can, one that makes rate × need a multiple of 2,000,000.
fn tight_rate(rng: &mut Rng, need: u64, most: u32) -> u32 {
    let step = 2_000_000 / greatest_divisor(2_000_000, need);
    if rng.once_in(2) && step <= most as u64 {
        let step = step as u32;
        step * rng.between(1, most / step)
    } else {
        rng.spread(1, most)
    }
}

/// n × worst2 + 2 × the overhead for n blocks.
pub fn sweep_need(figures: &Figures, showing: Showing, n: u32) -> u64 {
    n as u64 * worst2(figures, showing) as u64 + 2 * figures.table[n as usize] as u64
}

/// Sets c and B so that n streams just fit.
pub fn tighten(rng: &mut Rng, figures: &mut Figures, showing: Showing, n: u32) {
    let need = sweep_need(figures, showing, n);
    tighten_to(rng, figures, need);
}

/// Sets c and B so that c × need is just within 2,000,000 × B.
pub(super) fn tighten_to(rng: &mut Rng, figures: &mut Figures, need: u64) {
    let most = 2_000_000 * MAX_BLOCK_BYTES as u64 / need;
    figures.rate = tight_rate(rng, need, most.min(MAX_RATE as u64) as u32);
    let bytes = (figures.rate as u64 * need).div_ceil(2_000_000);
    figures.block_bytes = bytes as u32;
}

/// Small figures where 1, 255, 256 or another number of streams just fits or just does not.
pub fn tight_figures(rng: &mut Rng, showing: Showing, limit: u32) -> Figures {
    let mut figures = small_figures(rng, limit);
    let any = rng.between(1, 256);
    let n = rng.pick(&[1, 1, 2, 255, 256, any]);
    tighten(rng, &mut figures, showing, n);
    if rng.once_in(2) && figures.block_bytes > 1 {
        figures.block_bytes -= 1;
    }
    figures
}

/// A legal record of any sort. Not all can feed a stream.
pub fn legal_figures(rng: &mut Rng) -> Figures {
    match rng.below(8) {
        0 => large_figures(rng),
        1..=3 => small_figures(rng, MAX_BLOCKS),
        _ => {
            let showing = rng.pick(&Showing::ALL);
            tight_figures(rng, showing, MAX_BLOCKS)
        }
    }
}

/// Small overheads and times against a great return, so that a sweep with few fetches still
/// draws much. The kind stays.
pub(super) fn set_great_return(rng: &mut Rng, figures: &mut Figures) {
    figures.table = straight(rng.between(1, 1000), MAX_RETURN);
    for zone in 0..figures.zones as usize {
        figures.times[zone] = figures.times[zone].div_ceil(400);
    }
}

/// A plan for desks: a short film, few streams or very many.
pub fn desk_plan_for(rng: &mut Rng, showing: Showing) -> Planned {
    loop {
        let limit = rng.pick(&[2, 3, 5, 8, 12, 40]);
        let mut figures = small_figures(rng, limit);
        if rng.once_in(2) {
            set_great_return(rng, &mut figures);
        }
        let n = rng.pick(&[1, 2, 2, 3, 3, 4, 5, 6, 8, 12, 16, 20, 255, 256]);
        tighten(rng, &mut figures, showing, n);
        if let Some(planned) = plan_of(&figures, showing) {
            return planned;
        }
    }
}

/// A plan for desks with a film of any length and zones of any size.
pub fn large_desk_plan_for(rng: &mut Rng, showing: Showing) -> Planned {
    let mut figures = large_figures(rng);
    let n = rng.pick(&[1, 3, 20, 256]);
    tighten(rng, &mut figures, showing, n);
    plan_of(&figures, showing).expect("n streams fit")
}

/// Times that fall faster and faster, so that pairs are worse in mid film.
fn sinking_times(rng: &mut Rng, zones: u32) -> Vec<u32> {
    let slowest = rng.between(10_000, MAX_TIME);
    let fall = rng.between(1, slowest / (MAX_ZONES * MAX_ZONES));
    (0..zones).map(|zone| slowest - fall * zone * zone).collect()
}

/// Many small zones, and a film on all their positions.
pub(super) fn uneven_figures(rng: &mut Rng, least: u32) -> Figures {
    let mut figures = Figures::zero();
    let zones = rng.between(least, 14);
    let counts: Vec<u32> = (0..zones).map(|_| rng.pick(&[1, 1, 1, 2])).collect();
    set_zones(rng, &mut figures, &counts);
    if rng.once_in(2) {
        figures.times[..counts.len()].copy_from_slice(&sinking_times(rng, zones));
    }
    figures.blocks = figures.total_positions() as u32;
    set_others(rng, &mut figures);
    figures
}

/// A plan for desks of a film that takes all positions of many small zones: any pair of it may be
/// the worst.
pub fn uneven_plan_for(rng: &mut Rng, showing: Showing) -> Planned {
    let mut figures = uneven_figures(rng, 2);
    let n = rng.pick(&[1, 2, 5, 16, 256]);
    tighten(rng, &mut figures, showing, n);
    plan_of(&figures, showing).expect("n streams fit")
}

/// Alters one figure, used or not.
pub fn alter_figure(rng: &mut Rng, figures: &mut Figures) {
    let used = figures.zones.clamp(1, MAX_ZONES) as usize;
    let zone = if rng.once_in(4) { rng.below(64) } else { rng.below(used) };
    let figure = match rng.below(11) {
        0 => &mut figures.zones,
        1 | 2 => &mut figures.positions[zone],
        3 | 4 => &mut figures.times[zone],
        5 => &mut figures.blocks,
        6 => &mut figures.block_bytes,
        7 => &mut figures.rate,
        _ => return alter_overheads(rng, figures),
    };
    *figure = rng.other_than(*figure);
}

/// Sets one figure to the end of its range or just past it.
pub fn set_to_limit(rng: &mut Rng, figures: &mut Figures) {
    let zone = rng.below(figures.zones.clamp(1, MAX_ZONES) as usize);
    let total = figures.total_positions();
    let room = (MAX_POSITIONS as u64 + figures.positions[zone] as u64).saturating_sub(total);
    let (figure, limit) = match rng.below(9) {
        0 => (&mut figures.zones, MAX_ZONES),
        1 => (&mut figures.positions[zone], room as u32),
        2 => (&mut figures.times[zone], MAX_TIME),
        3 => (&mut figures.blocks, rng.pick(&[1, MAX_BLOCKS, total.min(99_999) as u32])),
        4 => (&mut figures.block_bytes, MAX_BLOCK_BYTES),
        5 => (&mut figures.rate, MAX_RATE),
        6 => (&mut figures.kind, 2),
        _ => return set_overheads_to_limit(rng, figures),
    };
    *figure = rng.pick(&[0, 1, limit, limit + 1]);
}

/// Puts a zone's time to a third of the first or one below, three times it being one less, the same or
/// one more than the first; no time rises.
pub fn set_to_third(rng: &mut Rng, figures: &mut Figures) {
    let zones = figures.zones as usize;
    let third = figures.times[0].div_ceil(TIMES_AS_FAST).min(MAX_TIME / TIMES_AS_FAST);
    figures.times[0] = third * TIMES_AS_FAST - 1 + rng.between(0, 2);
    if zones > 1 {
        let zone = 1 + rng.below(zones - 1);
        figures.times[zone] = third - rng.below(third.min(2) as usize) as u32;
    }
    for zone in 1..zones {
        figures.times[zone] = figures.times[zone].min(figures.times[zone - 1]);
    }
}

/// A record of anything.
pub fn random_figures(rng: &mut Rng) -> Figures {
    let mut figures = Figures::zero();
    figures.kind = rng.any();
    figures.zones = rng.any();
    for zone in 0..64 {
        figures.positions[zone] = rng.any();
        figures.times[zone] = rng.any();
    }
    figures.blocks = rng.any();
    figures.block_bytes = rng.any();
    figures.rate = rng.any();
    figures.table = std::array::from_fn(|_| rng.any());
    figures
}

/// A legal record, one or two figures altered, or anything.
pub fn any_figures(rng: &mut Rng) -> Figures {
    let mut figures = legal_figures(rng);
    match rng.below(13) {
        0 => random_figures(rng),
        1..=3 => figures,
        12 => {
            set_to_third(rng, &mut figures);
            figures
        }
        4..=7 => {
            set_to_limit(rng, &mut figures);
            figures
        }
        8..=10 => {
            alter_figure(rng, &mut figures);
            figures
        }
        _ => {
            alter_figure(rng, &mut figures);
            alter_figure(rng, &mut figures);
            figures
        }
    }
}
