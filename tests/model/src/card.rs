//! The card of one disk and one film: reading, judging and writing it.

use crate::refusal::{cause, refuse, Refusal};

/// Kinds of a card (02, ticket 3): overheads by hop and return, or measured ones in a table.
pub const STRAIGHT: u32 = 1;
pub const MEASURED: u32 = 2;
pub const MAX_ZONES: u32 = 64;
/// Greatest total P of all zones' positions.
pub const MAX_POSITIONS: u32 = 1_048_576;
pub const MAX_TIME: u32 = 4_000_000;
/// A zone time, times this, is not below the first zone's (02, ticket 8).
pub const TIMES_AS_FAST: u32 = 3;
pub const MIN_BLOCKS: u32 = 2;
pub const MAX_BLOCKS: u32 = 16_384;
pub const MAX_BLOCK_BYTES: u32 = 4_194_304;
pub const MAX_RATE: u32 = 10_000_000;
pub const MAX_HOP: u32 = 1_000_000;
pub const MAX_RETURN: u32 = 1_000_000;
/// Entries of the table: overhead for 0 to 256 blocks.
pub const ENTRIES: usize = 257;
pub const MAX_OVERHEAD: u32 = 257_000_000;
/// A number has at most this many bytes.
pub const MAX_NUMBER_BYTES: usize = 5;

/// The figures of a card as a record.
#[derive(Clone, Debug, PartialEq, Eq)]
pub struct Figures {
    pub kind: u32,
    pub zones: u32,
    /// Positions of each zone, innermost first; zero past the zone count.
    pub positions: [u32; 64],
    /// Time to read one block in each zone; zero past the zone count.
    pub times: [u32; 64],
    /// N, film blocks.
    pub blocks: u32,
    /// B, block bytes.
    pub block_bytes: u32,
    /// c, top rate in bytes a second.
    pub rate: u32,
    /// Overhead by the number of blocks in a sweep, of either kind.
    pub table: [u32; ENTRIES],
}

/// The table that a card of kind 1 means: hop times the number plus return. What does not fit 32 bits
/// wraps round, so that hop and return can be had back.
pub fn straight(hop: u32, ret: u32) -> [u32; ENTRIES] {
    std::array::from_fn(|count| hop.wrapping_mul(count as u32).wrapping_add(ret))
}

impl Figures {
    /// The record with every figure zero.
    pub fn zero() -> Figures {
        Figures {
            kind: 0,
            zones: 0,
            positions: [0; 64],
            times: [0; 64],
            blocks: 0,
            block_bytes: 0,
            rate: 0,
            table: [0; ENTRIES],
        }
    }

    /// These figures as a card of kind 1 with this hop and return has them.
    pub fn with_moves(self, hop: u32, ret: u32) -> Figures {
        Figures { kind: STRAIGHT, table: straight(hop, ret), ..self }
    }

    /// These figures as a card of kind 2 with this table has them.
    pub fn with_table(self, table: [u32; ENTRIES]) -> Figures {
        Figures { kind: MEASURED, table, ..self }
    }

    /// Worst move to one block, of a straight table.
    pub fn hop(&self) -> u32 {
        self.table[1].wrapping_sub(self.table[0])
    }

    /// Arm back, once a sweep, of a straight table.
    pub fn ret(&self) -> u32 {
        self.table[0]
    }

    /// P, the total of positions over the counted zones.
    pub fn total_positions(&self) -> u64 {
        let zones = self.zones.min(MAX_ZONES) as usize;
        self.positions[..zones].iter().map(|&count| count as u64).sum()
    }
}

// Numbers of a card.

/// The shortest form of a number: groups of seven bits, lowest first, the top bit set on every
/// byte but the last.
pub fn number_bytes(value: u32) -> Vec<u8> {
    let mut bytes = Vec::new();
    let mut rest = value;
    while rest >= 128 {
        bytes.push((rest % 128) as u8 + 128);
        rest /= 128;
    }
    bytes.push(rest as u8);
    bytes
}

/// The bytes of the number that starts at `offset`: up to the first byte without top bit. Fewer
/// than five continuing bytes, cut off, are 1; five that all continue are 2.
fn take_number(card: &[u8], offset: usize) -> Result<&[u8], Refusal> {
    for length in 1..=MAX_NUMBER_BYTES {
        let Some(byte) = card.get(offset + length - 1) else {
            return refuse(cause::ENDS_EARLY, card.len() as u64);
        };
        if *byte < 128 {
            return Ok(&card[offset..offset + length]);
        }
    }
    refuse(cause::BAD_NUMBER, offset as u64)
}

/// The value of a number's bytes, whatever its form.
fn number_value(bytes: &[u8]) -> u128 {
    let mut value = 0;
    let mut weight = 1;
    for byte in bytes {
        value += (byte % 128) as u128 * weight;
        weight *= 128;
    }
    value
}

/// The number at `offset` and the offset after it. Not shortest or above 4,294,967,295 is 2.
pub fn read_number(card: &[u8], offset: usize) -> Result<(u32, usize), Refusal> {
    let bytes = take_number(card, offset)?;
    let Ok(value) = u32::try_from(number_value(bytes)) else {
        return refuse(cause::BAD_NUMBER, offset as u64);
    };
    if number_bytes(value) != bytes {
        return refuse(cause::BAD_NUMBER, offset as u64);
    }
    Ok((value, offset + bytes.len()))
}

// Ranges of the figures. Each judge answers the cause of its refusal.

fn judge_kind(kind: u32) -> Result<(), u32> {
    if kind != STRAIGHT && kind != MEASURED {
        return Err(cause::KIND);
    }
    Ok(())
}

fn judge_zone_count(zones: u32) -> Result<(), u32> {
    if !(1..=MAX_ZONES).contains(&zones) {
        return Err(cause::ZONES);
    }
    Ok(())
}

/// A zone's positions, after zones with `total` positions together.
fn judge_positions(count: u32, total: u64) -> Result<(), u32> {
    if count < 1 || total + count as u64 > MAX_POSITIONS as u64 {
        return Err(cause::POSITIONS);
    }
    Ok(())
}

/// A zone's time, after the times of the zones before it: its range, then the last of these, then
/// the first.
fn judge_time(time: u32, before: &[u32]) -> Result<(), u32> {
    if !(1..=MAX_TIME).contains(&time) {
        return Err(cause::TIME);
    }
    if before.last().is_some_and(|&last| time > last) {
        return Err(cause::TIME_RISES);
    }
    if before.first().is_some_and(|&first| time * TIMES_AS_FAST < first) {
        return Err(cause::HALF_DEAD);
    }
    Ok(())
}

/// The judge of N on a disk of so many positions.
pub(crate) type JudgeBlocks = fn(u32, u64) -> Result<(), u32>;

/// N, on a disk of `total` positions.
fn judge_blocks(blocks: u32, total: u64) -> Result<(), u32> {
    if !(MIN_BLOCKS..=MAX_BLOCKS).contains(&blocks) {
        return Err(cause::BLOCKS);
    }
    if blocks as u64 > total {
        return Err(cause::BLOCKS_ABOVE_POSITIONS);
    }
    Ok(())
}

/// B, c, hop or return, from 1 to its greatest.
fn judge_other(value: u32, greatest: u32) -> Result<(), u32> {
    if !(1..=greatest).contains(&value) {
        return Err(cause::OTHER_FIGURE);
    }
    Ok(())
}

/// An entry of a measured table, after the entries before it.
fn judge_entry(overhead: u32, before: &[u32]) -> Result<(), u32> {
    let is_below = before.last().is_some_and(|&last| overhead < last);
    if !(1..=MAX_OVERHEAD).contains(&overhead) || is_below {
        return Err(cause::OVERHEAD);
    }
    Ok(())
}

/// A record's table: of kind 1 it comes from a hop and a return in range, of kind 2 it is judged
/// entry by entry.
fn judge_table(figures: &Figures) -> Result<(), u32> {
    let table = &figures.table;
    if figures.kind == STRAIGHT {
        judge_other(figures.hop(), MAX_HOP)?;
        judge_other(figures.ret(), MAX_RETURN)?;
        if *table != straight(figures.hop(), figures.ret()) {
            return Err(cause::OTHER_FIGURE);
        }
        return Ok(());
    }
    (0..ENTRIES).try_for_each(|count| judge_entry(table[count], &table[..count]))
}

/// Is each zone entry past the zone count zero?
fn unused_zones_zero(figures: &Figures) -> bool {
    let used = figures.zones as usize;
    figures.positions[used..].iter().all(|&count| count == 0)
        && figures.times[used..].iter().all(|&time| time == 0)
}

/// The disk of a record, kind first, zone by zone: 3 to 7 and 26. Its total of positions.
pub(crate) fn judge_disk(figures: &Figures) -> Result<u64, u32> {
    judge_kind(figures.kind)?;
    judge_zone_count(figures.zones)?;
    if !unused_zones_zero(figures) {
        return Err(cause::ZONES);
    }
    let mut total = 0;
    for zone in 0..figures.zones as usize {
        judge_positions(figures.positions[zone], total)?;
        judge_time(figures.times[zone], &figures.times[..zone])?;
        total += figures.positions[zone] as u64;
    }
    Ok(total)
}

/// What follows N on a card: B, c and the overheads, 10 and 25.
pub(crate) fn judge_after_blocks(figures: &Figures) -> Result<(), u32> {
    judge_other(figures.block_bytes, MAX_BLOCK_BYTES)?;
    judge_other(figures.rate, MAX_RATE)?;
    judge_table(figures)
}

/// Judges figures given as a record: 3 to 10, 25 and 26 in the order of the card, zone by zone.
pub fn judge_record(figures: &Figures) -> Result<(), u32> {
    judge_record_with(figures, judge_blocks)
}

/// The same with another judge of N.
pub(crate) fn judge_record_with(figures: &Figures, judge_blocks: JudgeBlocks) -> Result<(), u32> {
    let total = judge_disk(figures)?;
    judge_blocks(figures.blocks, total)?;
    judge_after_blocks(figures)
}

/// A card and how far it has been read.
pub(crate) struct Reader<'a> {
    card: &'a [u8],
    offset: usize,
}

impl Reader<'_> {
    pub(crate) fn new(card: &[u8]) -> Reader<'_> {
        Reader { card, offset: 0 }
    }

    /// The next number, form before range; a range fault has the number's own offset.
    pub(crate) fn field(&mut self, judge: impl Fn(u32) -> Result<(), u32>) -> Result<u32, Refusal> {
        let start = self.offset;
        let (value, after) = read_number(self.card, start)?;
        if let Err(number) = judge(value) {
            return refuse(number, start as u64);
        }
        self.offset = after;
        Ok(value)
    }

    /// 11 if bytes are left over.
    pub(crate) fn finish(&self) -> Result<(), Refusal> {
        if self.offset < self.card.len() {
            return refuse(cause::LEFT_OVER, self.offset as u64);
        }
        Ok(())
    }
}

/// The overheads of a card: hop and return, or the table's entries.
fn read_table(reader: &mut Reader, kind: u32) -> Result<[u32; ENTRIES], Refusal> {
    if kind == STRAIGHT {
        let hop = reader.field(|hop| judge_other(hop, MAX_HOP))?;
        let ret = reader.field(|ret| judge_other(ret, MAX_RETURN))?;
        return Ok(straight(hop, ret));
    }
    let mut table = [0; ENTRIES];
    for count in 0..ENTRIES {
        table[count] = reader.field(|overhead| judge_entry(overhead, &table[..count]))?;
    }
    Ok(table)
}

/// Reads the disk of a card, up to the last zone: the figures so far and the total of positions.
pub(crate) fn read_disk(reader: &mut Reader) -> Result<(Figures, u64), Refusal> {
    let mut figures = Figures::zero();
    figures.kind = reader.field(judge_kind)?;
    figures.zones = reader.field(judge_zone_count)?;
    let mut total = 0;
    for zone in 0..figures.zones as usize {
        figures.positions[zone] = reader.field(|count| judge_positions(count, total))?;
        total += figures.positions[zone] as u64;
        figures.times[zone] = reader.field(|time| judge_time(time, &figures.times[..zone]))?;
    }
    Ok((figures, total))
}

/// Reads what follows N, to the card's end.
pub(crate) fn read_after_blocks(
    reader: &mut Reader,
    mut figures: Figures,
) -> Result<Figures, Refusal> {
    figures.block_bytes = reader.field(|bytes| judge_other(bytes, MAX_BLOCK_BYTES))?;
    figures.rate = reader.field(|rate| judge_other(rate, MAX_RATE))?;
    figures.table = read_table(reader, figures.kind)?;
    reader.finish()?;
    Ok(figures)
}

/// Reads a card number by number; the first fault ends it: 1 to 11, 25 and 26.
pub fn read_card(card: &[u8]) -> Result<Figures, Refusal> {
    read_card_with(card, judge_blocks)
}

/// The same with another judge of N.
pub(crate) fn read_card_with(card: &[u8], judge_blocks: JudgeBlocks) -> Result<Figures, Refusal> {
    let mut reader = Reader::new(card);
    let (mut figures, total) = read_disk(&mut reader)?;
    figures.blocks = reader.field(|blocks| judge_blocks(blocks, total))?;
    read_after_blocks(&mut reader, figures)
}

/// The numbers of a card in order, with these in the place of N. Zones past the 64 of a record are
/// left out.
pub(crate) fn card_numbers_with(figures: &Figures, blocks: &[u32]) -> Vec<u32> {
    let mut numbers = vec![figures.kind, figures.zones];
    for zone in 0..figures.zones.min(MAX_ZONES) as usize {
        numbers.push(figures.positions[zone]);
        numbers.push(figures.times[zone]);
    }
    numbers.extend(blocks);
    numbers.extend([figures.block_bytes, figures.rate]);
    match figures.kind {
        MEASURED => numbers.extend(figures.table),
        _ => numbers.extend([figures.hop(), figures.ret()]),
    }
    numbers
}

/// The numbers of a card in order.
pub fn card_numbers(figures: &Figures) -> Vec<u32> {
    card_numbers_with(figures, &[figures.blocks])
}

/// The bytes of a card with these figures, unjudged.
pub fn card_bytes(figures: &Figures) -> Vec<u8> {
    card_numbers(figures).into_iter().flat_map(number_bytes).collect()
}

/// Writes the card of a record and answers its length: 3 to 10, 25 and 26, then 13, each with place 0.
/// Bytes past the card keep their contents; a refusal writes none.
pub fn write_card(figures: &Figures, lent: &mut [u8]) -> Result<usize, Refusal> {
    if let Err(number) = judge_record(figures) {
        return refuse(number, 0);
    }
    let card = card_bytes(figures);
    if lent.len() < card.len() {
        return refuse(cause::TOO_SHORT, 0);
    }
    lent[..card.len()].copy_from_slice(&card);
    Ok(card.len())
}
