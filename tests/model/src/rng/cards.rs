//! Cards: legal ones and damaged ones, so that each refusal is met often.

use super::figures::{
    alter_figure, legal_figures, set_to_limit, set_to_third, small_figures, tight_figures,
};
use super::tables::{any_table, set_entry_to_limit};
use super::Rng;
use crate::card::{card_bytes, card_numbers, number_bytes, Figures, MAX_POSITIONS, MAX_ZONES};
use crate::plan::Showing;

/// The card of a legal record.
pub fn legal_card(rng: &mut Rng) -> Vec<u8> {
    card_bytes(&legal_figures(rng))
}

/// A number in a form of `length` bytes, longer than its shortest.
fn longer_form(value: u32, length: usize) -> Vec<u8> {
    let mut bytes = number_bytes(value);
    while bytes.len() < length {
        let last = bytes.len() - 1;
        bytes[last] |= 0x80;
        bytes.push(0);
    }
    bytes
}

/// Bytes that all continue.
fn continuing(rng: &mut Rng, length: usize) -> Vec<u8> {
    let any = rng.bits() as u8 | 0x80;
    (0..length).map(|_| rng.pick(&[0x80, 0x81, 0xFF, any])).collect()
}

/// Five bytes of a number above 4,294,967,295, or of the greatest one.
fn near_greatest(rng: &mut Rng) -> Vec<u8> {
    let mut bytes = if rng.once_in(2) { vec![0xFF; 4] } else { continuing(rng, 4) };
    bytes.push(rng.pick(&[0x0F, 0x10, 0x1F, 0x7F]));
    bytes
}

/// The card's numbers as bytes, one string each.
fn pieces(numbers: &[u32]) -> Vec<Vec<u8>> {
    numbers.iter().map(|&number| number_bytes(number)).collect()
}

/// Puts a bad form in the place of one number.
pub(super) fn bad_form(rng: &mut Rng, numbers: &[u32]) -> Vec<u8> {
    let mut pieces = pieces(numbers);
    let place = rng.below(pieces.len());
    let shortest = pieces[place].len();
    pieces[place] = match rng.below(4) {
        0 => longer_form(numbers[place], shortest + 1 + rng.below(5)),
        1 => continuing(rng, 5),
        2 => near_greatest(rng),
        _ => [continuing(rng, 5), vec![rng.between(0, 127) as u8]].concat(),
    };
    if rng.once_in(3) {
        pieces.truncate(place + 1);
    }
    pieces.concat()
}

/// Cuts the card off, sometimes with continuing bytes at its end.
pub(super) fn cut_off(rng: &mut Rng, card: &[u8]) -> Vec<u8> {
    let mut cut = card[..rng.below(card.len())].to_vec();
    if rng.once_in(3) {
        let length = rng.below(6);
        cut.extend(continuing(rng, length));
    }
    cut
}

/// Changes up to three bytes.
pub(super) fn flip(rng: &mut Rng, mut card: Vec<u8>) -> Vec<u8> {
    for _ in 0..=rng.below(3) {
        let place = rng.below(card.len());
        card[place] = match rng.below(3) {
            0 => card[place] ^ (1 << rng.below(8)),
            1 => rng.pick(&[0, 1, 0x7F, 0x80, 0xFF]),
            _ => rng.bits() as u8,
        };
    }
    card
}

/// Adds bytes after the card, good numbers or not.
pub(super) fn extra(rng: &mut Rng, mut card: Vec<u8>) -> Vec<u8> {
    match rng.below(4) {
        0 => card.push(b'\n'),
        1 => card.extend(number_bytes(rng.any())),
        2 => card.extend(continuing(rng, 7)),
        _ => {
            for _ in 0..rng.pick(&[1, 3, 600, 70_000]) {
                card.push(rng.bits() as u8);
            }
        }
    }
    card
}

/// Sets one number of the card to another value.
pub(super) fn other_number(rng: &mut Rng, mut numbers: Vec<u32>) -> Vec<u8> {
    let place = if rng.once_in(3) { rng.below(2) } else { rng.below(numbers.len()) };
    numbers[place] = rng.other_than(numbers[place]);
    pieces(&numbers).concat()
}

/// A figure at or past the end of its range.
fn past_limit(rng: &mut Rng) -> Figures {
    let mut figures = legal_figures(rng);
    set_to_limit(rng, &mut figures);
    figures
}

/// A zone slower than the one before it.
pub(super) fn rising_times(rng: &mut Rng) -> Figures {
    let mut figures = small_figures(rng, 50);
    let zones = figures.zones as usize;
    if zones > 1 {
        let zone = 1 + rng.below(zones - 1);
        figures.times[zone] = figures.times[zone - 1] + rng.pick(&[0, 1, 1, 1000]);
    }
    figures
}

/// A zone about three times as fast as the first.
pub(super) fn half_dead_times(rng: &mut Rng) -> Figures {
    let mut figures = small_figures(rng, 50);
    set_to_third(rng, &mut figures);
    figures
}

/// A table with a number at or past its limit, or below the one before; once in two times with a
/// fault in another number too.
pub(super) fn other_table(rng: &mut Rng) -> Figures {
    let mut figures = small_figures(rng, 50);
    figures = figures.with_table(any_table(rng));
    if rng.once_in(4) {
        figures.table[0] = 0;
    } else {
        set_entry_to_limit(rng, &mut figures);
    }
    if rng.once_in(2) {
        set_to_limit(rng, &mut figures);
    }
    figures
}

/// As many blocks as positions, or one more.
fn full_film(rng: &mut Rng) -> Figures {
    let mut figures = small_figures(rng, 50);
    figures.blocks = figures.total_positions() as u32 + rng.pick(&[0, 1, 1, 16_385]);
    figures
}

/// A total of positions at or just past the greatest.
pub(super) fn full_disk(rng: &mut Rng) -> Figures {
    let mut figures = small_figures(rng, 50);
    let last = figures.zones as usize - 1;
    let room = MAX_POSITIONS - (figures.total_positions() as u32 - figures.positions[last]);
    figures.positions[last] = room + rng.pick(&[0, 1, 1, 2, 1_000_000_000]);
    figures
}

/// More zones than there may be, all of them on the card, with these numbers in the place of N.
pub(super) fn many_zones(rng: &mut Rng, films: &[u32]) -> Vec<u8> {
    let zones = MAX_ZONES + rng.between(0, 2);
    let mut numbers = vec![1, zones];
    for _ in 0..zones {
        numbers.extend([rng.between(1, 3), 7]);
    }
    numbers.extend(films);
    numbers.extend([262_144, 500_000, 12_670, 15_000]);
    pieces(&numbers).concat()
}

/// Bytes of no card.
pub(super) fn noise(rng: &mut Rng) -> Vec<u8> {
    let length = rng.pick(&[0, 1, 2, 5, 40]);
    let mut bytes = vec![rng.pick(&[1, 2]), rng.between(0, 70) as u8];
    for _ in 0..length {
        bytes.push(if rng.once_in(2) { rng.between(0, 127) as u8 } else { rng.bits() as u8 });
    }
    bytes.drain(..rng.pick(&[0, 0, 0, 1, 2]));
    bytes
}

/// A card cut off, or with a byte more.
pub(super) fn cut_or_longer(rng: &mut Rng, card: Vec<u8>) -> Vec<u8> {
    match rng.below(2) {
        0 => cut_off(rng, &card),
        _ => extra(rng, card),
    }
}

/// A card damaged in one way. Some come out legal, at the limit.
pub fn damaged_card(rng: &mut Rng) -> Vec<u8> {
    let showing = rng.pick(&Showing::ALL);
    let figures = tight_figures(rng, showing, 60);
    let numbers = card_numbers(&figures);
    let card = card_bytes(&figures);
    match rng.below(17) {
        0 => cut_off(rng, &card),
        1 | 2 => flip(rng, card),
        3 | 4 => bad_form(rng, &numbers),
        5 => extra(rng, card),
        6 | 7 => other_number(rng, numbers),
        8 => card_bytes(&past_limit(rng)),
        9 => card_bytes(&rising_times(rng)),
        10 => card_bytes(&full_film(rng)),
        11 => card_bytes(&full_disk(rng)),
        12 => {
            let blocks = rng.between(2, 60);
            many_zones(rng, &[blocks])
        }
        13 => card_bytes(&half_dead_times(rng)),
        14 | 15 => card_bytes(&other_table(rng)),
        _ => noise(rng),
    }
}

/// A card with two faults: the first one counts.
pub fn twice_damaged_card(rng: &mut Rng) -> Vec<u8> {
    let mut figures = small_figures(rng, 60);
    alter_figure(rng, &mut figures);
    let card = card_bytes(&figures);
    match rng.below(4) {
        0 => cut_off(rng, &card),
        1 => flip(rng, card),
        2 => bad_form(rng, &card_numbers(&figures)),
        _ => extra(rng, card),
    }
}

/// Any card: legal or damaged.
pub fn any_card(rng: &mut Rng) -> Vec<u8> {
    match rng.below(5) {
        0 | 1 => legal_card(rng),
        2 => twice_damaged_card(rng),
        _ => damaged_card(rng),
    }
}
