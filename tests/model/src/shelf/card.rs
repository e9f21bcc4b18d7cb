//! The card of one disk and a shelf of films: the number of films where N stood, then each film's N
//! in list order.

use super::Rule;
use crate::card::{
    self, card_numbers_with, judge_after_blocks, judge_disk, number_bytes, read_after_blocks,
    read_disk, Reader, ENTRIES, MAX_BLOCKS, MIN_BLOCKS,
};
use crate::refusal::{cause, refuse, Refusal};

/// Most films of a shelf.
pub const MAX_FILMS: usize = 16;
/// Most blocks of all films together.
pub const MAX_SHELF_BLOCKS: u32 = 16_384;

/// The figures of a card as a record.
#[derive(Clone, Debug, PartialEq, Eq)]
pub struct Figures {
    pub kind: u32,
    pub zones: u32,
    /// Positions of each zone, innermost first; zero past the zone count.
    pub positions: [u32; 64],
    /// Time to read one block in each zone; zero past the zone count.
    pub times: [u32; 64],
    /// How many films.
    pub films: u32,
    /// N of each film in list order; zero past the film count.
    pub blocks: [u32; MAX_FILMS],
    /// B, block bytes.
    pub block_bytes: u32,
    /// c, top rate in bytes a second.
    pub rate: u32,
    /// Overhead by the number of blocks in a sweep, of either kind.
    pub table: [u32; ENTRIES],
}

impl Figures {
    /// The record with every figure zero.
    pub fn zero() -> Figures {
        Figures::of(&card::Figures::zero(), &[])
    }

    /// Films of these N, at most 16, on the disk of a record of one film, whose N is not read.
    pub fn of(disk: &card::Figures, lengths: &[u32]) -> Figures {
        let mut blocks = [0; MAX_FILMS];
        blocks[..lengths.len()].copy_from_slice(lengths);
        Figures {
            kind: disk.kind,
            zones: disk.zones,
            positions: disk.positions,
            times: disk.times,
            films: lengths.len() as u32,
            blocks,
            block_bytes: disk.block_bytes,
            rate: disk.rate,
            table: disk.table,
        }
    }

    /// The record of one film of so many blocks on the same disk.
    pub fn of_one(&self, blocks: u32) -> card::Figures {
        card::Figures {
            kind: self.kind,
            zones: self.zones,
            positions: self.positions,
            times: self.times,
            blocks,
            block_bytes: self.block_bytes,
            rate: self.rate,
            table: self.table,
        }
    }

    /// The same films on the disk of another record.
    pub fn on(&self, disk: &card::Figures) -> Figures {
        Figures { films: self.films, blocks: self.blocks, ..Figures::of(disk, &[]) }
    }

    /// N of each counted film in list order.
    pub fn lengths(&self) -> &[u32] {
        &self.blocks[..MAX_FILMS.min(self.films as usize)]
    }

    /// A film's start in the lists: the blocks of all films before it.
    pub fn start(&self, film: usize) -> u64 {
        self.lengths()[..film].iter().map(|&blocks| blocks as u64).sum()
    }

    /// The blocks of all films.
    pub fn all_blocks(&self) -> u64 {
        self.start(self.lengths().len())
    }

    /// N of the longest film.
    pub fn longest(&self) -> u32 {
        self.lengths().iter().copied().max().unwrap_or(0)
    }

    /// P, the total of positions over the counted zones.
    pub fn total_positions(&self) -> u64 {
        self.of_one(0).total_positions()
    }
}

// What is turned down.

fn judge_film_count(films: u32) -> Result<(), u32> {
    if !(1..=MAX_FILMS as u32).contains(&films) {
        return Err(cause::SHELF);
    }
    Ok(())
}

/// A film's N, behind films of `before` blocks on a disk of `total` positions: its range, then the
/// blocks of all films so far, then the positions still free.
fn judge_film(blocks: u32, before: u64, total: u64, rule: Rule) -> Result<(), u32> {
    if !(MIN_BLOCKS..=MAX_BLOCKS).contains(&blocks) {
        return Err(cause::BLOCKS);
    }
    if before + blocks as u64 > MAX_SHELF_BLOCKS as u64 {
        return Err(cause::SHELF);
    }
    let visits = rule.visits() as u64;
    let free = total - visits * before;
    if visits * blocks as u64 > free {
        return Err(match rule {
            Rule::Pairs => cause::PAIRS_ABOVE_POSITIONS,
            _ => cause::BLOCKS_ABOVE_POSITIONS,
        });
    }
    Ok(())
}

/// The films of a record: their count, the unused entries, then each film's N.
fn judge_films(figures: &Figures, total: u64, rule: Rule) -> Result<(), u32> {
    judge_film_count(figures.films)?;
    let used = figures.films as usize;
    if figures.blocks[used..].iter().any(|&blocks| blocks != 0) {
        return Err(cause::SHELF);
    }
    (0..used)
        .try_for_each(|film| judge_film(figures.blocks[film], figures.start(film), total, rule))
}

/// Judges figures given as a record for a rule: 3 to 10, 25, 26 and 30 in the order of the card; for
/// pairs 28 in place of 9.
pub fn judge_record(figures: &Figures, rule: Rule) -> Result<(), u32> {
    let disk = figures.of_one(0);
    let total = judge_disk(&disk)?;
    judge_films(figures, total, rule)?;
    judge_after_blocks(&disk)
}

/// Reads the film count and each film's N.
fn read_films(reader: &mut Reader, total: u64, rule: Rule) -> Result<Vec<u32>, Refusal> {
    let films = reader.field(judge_film_count)?;
    let mut lengths = Vec::new();
    let mut before = 0;
    for _ in 0..films {
        let blocks = reader.field(|blocks| judge_film(blocks, before, total, rule))?;
        before += blocks as u64;
        lengths.push(blocks);
    }
    Ok(lengths)
}

/// Reads a card number by number for a rule; the first fault ends it: 1 to 11, 25, 26 and 30; for
/// pairs 28 in place of 9.
pub fn read_card(card: &[u8], rule: Rule) -> Result<Figures, Refusal> {
    let mut reader = Reader::new(card);
    let (disk, total) = read_disk(&mut reader)?;
    let lengths = read_films(&mut reader, total, rule)?;
    let disk = read_after_blocks(&mut reader, disk)?;
    Ok(Figures::of(&disk, &lengths))
}

// Writing.

/// The numbers of a card in order. Zones and films past those of a record are left out.
pub fn card_numbers(figures: &Figures) -> Vec<u32> {
    let films = [&[figures.films], figures.lengths()].concat();
    card_numbers_with(&figures.of_one(0), &films)
}

/// The bytes of a card with these figures, unjudged.
pub fn card_bytes(figures: &Figures) -> Vec<u8> {
    card_numbers(figures).into_iter().flat_map(number_bytes).collect()
}

/// The card of a record of one film: 1, then its N.
pub fn one_film_card(figures: &card::Figures) -> Vec<u8> {
    card_bytes(&Figures::of(figures, &[figures.blocks]))
}

/// Writes the card of a record and answers its length: 3 to 10, 25, 26 and 30, then 13, each with
/// place 0. Bytes past the card keep their contents; a refusal writes none.
pub fn write_card(figures: &Figures, lent: &mut [u8]) -> Result<usize, Refusal> {
    if let Err(number) = judge_record(figures, Rule::Once) {
        return refuse(number, 0);
    }
    let card = card_bytes(figures);
    if lent.len() < card.len() {
        return refuse(cause::TOO_SHORT, 0);
    }
    lent[..card.len()].copy_from_slice(&card);
    Ok(card.len())
}
