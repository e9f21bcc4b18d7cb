//! Cards of shelves: legal ones and damaged ones.

use super::{
    alter_shelf, any_shelf, border_shelf, legal_shelf, set_shelf_to_limit, small_shelf,
    some_lengths, tight_shelf, uneven_shelf,
};
use crate::card::{self, MAX_BLOCKS, MIN_BLOCKS};
use crate::rng::cards::{
    bad_form, cut_off, extra, flip, full_disk, half_dead_times, many_zones, noise, other_number,
    other_table, rising_times,
};
use crate::rng::Rng;
use crate::shelf::card::{card_bytes, card_numbers, MAX_SHELF_BLOCKS};
use crate::shelf::{Figures, Rule};

/// The card of a record that is legal for the rule.
pub fn legal_shelf_card(rng: &mut Rng, rule: Rule) -> Vec<u8> {
    card_bytes(&legal_shelf(rng, rule))
}

/// The film of a disk as a shelf of up to three, together as long; as it is where it cannot be parted.
fn parted(rng: &mut Rng, disk: card::Figures) -> Figures {
    let most = (disk.blocks / MIN_BLOCKS).min(3) as usize;
    if disk.blocks > MAX_BLOCKS || most < 2 {
        return Figures::of(&disk, &[disk.blocks]);
    }
    let films = 1 + rng.below(most);
    let lengths = some_lengths(rng, films, disk.blocks);
    Figures::of(&disk, &lengths)
}

/// A zone, a table or the disk at fault, on the card of one film or more.
fn bad_disk(rng: &mut Rng) -> Vec<u8> {
    let disk = match rng.below(5) {
        0 => rising_times(rng),
        1 => half_dead_times(rng),
        2 => full_disk(rng),
        _ => other_table(rng),
    };
    card_bytes(&parted(rng, disk))
}

/// Up to 16 films on a disk with room for them, their blocks together 16,384 or just above: the last of
/// them passes it.
fn full_shelf(rng: &mut Rng, rule: Rule) -> Vec<u8> {
    let mut figures = small_shelf(rng, rule, 60);
    figures.positions[0] = 3 * MAX_SHELF_BLOCKS;
    let films = figures.lengths().len();
    let mut lengths = some_lengths(rng, films, MAX_SHELF_BLOCKS);
    lengths[films - 1] += rng.pick(&[0, 0, 1, 1, 2, MAX_SHELF_BLOCKS]);
    figures.blocks[..films].copy_from_slice(&lengths);
    card_bytes(&figures)
}

/// Films that take all positions of the disk, and a block more of any but the first or none.
fn full_positions(rng: &mut Rng, rule: Rule) -> Vec<u8> {
    let mut figures = small_shelf(rng, rule, MAX_BLOCKS);
    let films = figures.lengths().len();
    let all = figures.total_positions() as u32 / rule.visits() as u32;
    let lengths = some_lengths(rng, films, all);
    figures.blocks[..films].copy_from_slice(&lengths);
    figures.blocks[rng.below(films)] += rng.pick(&[0, 1, 1]);
    card_bytes(&figures)
}

/// 0 films, 17 or another number, the same films behind it.
fn other_count(rng: &mut Rng, rule: Rule) -> Vec<u8> {
    let figures = small_shelf(rng, rule, 60);
    let mut numbers = card_numbers(&figures);
    let at = 2 + 2 * figures.zones as usize;
    let any = rng.any();
    numbers[at] = rng.pick(&[0, 0, 17, 17, 18, 16, numbers[at] + 1, numbers[at] - 1, any]);
    numbers.into_iter().flat_map(card::number_bytes).collect()
}

/// A card damaged in one way. Some come out legal, at the limit.
pub fn damaged_shelf_card(rng: &mut Rng, rule: Rule) -> Vec<u8> {
    let figures = tight_shelf(rng, rule, 60);
    let numbers = card_numbers(&figures);
    let card = card_bytes(&figures);
    match rng.below(22) {
        0 => cut_off(rng, &card),
        1 | 2 => flip(rng, card),
        3 => bad_form(rng, &numbers),
        4 => extra(rng, card),
        5 | 6 => other_number(rng, numbers),
        7..=9 => bad_disk(rng),
        10 | 11 => full_shelf(rng, rule),
        12 | 13 => full_positions(rng, rule),
        14 => other_count(rng, rule),
        15 => many_zones(rng, &[2, 30, 2]),
        16 => noise(rng),
        17 => {
            let mut figures = legal_shelf(rng, rule);
            set_shelf_to_limit(rng, &mut figures);
            card_bytes(&figures)
        }
        _ => card_bytes(&any_shelf(rng, rule)),
    }
}

/// A card with two faults: the first one counts.
pub fn twice_damaged_shelf_card(rng: &mut Rng, rule: Rule) -> Vec<u8> {
    let mut figures = small_shelf(rng, rule, 60);
    alter_shelf(rng, &mut figures);
    let card = card_bytes(&figures);
    match rng.below(4) {
        0 => cut_off(rng, &card),
        1 => flip(rng, card),
        2 => bad_form(rng, &card_numbers(&figures)),
        _ => extra(rng, card),
    }
}

/// Any card: legal for the rule, or damaged.
pub fn any_shelf_card(rng: &mut Rng, rule: Rule) -> Vec<u8> {
    match rng.below(5) {
        0 | 1 => legal_shelf_card(rng, rule),
        2 => twice_damaged_shelf_card(rng, rule),
        _ => damaged_shelf_card(rng, rule),
    }
}

/// A card whose products are great or carry, or with its worst pair anywhere in any film.
pub fn edge_shelf_card(rng: &mut Rng, rule: Rule) -> Vec<u8> {
    let figures = if rng.once_in(2) { border_shelf(rng, rule) } else { uneven_shelf(rng, rule) };
    card_bytes(&figures)
}
