//! Makers' zone listings (02, ticket 1): the figures of a maker's text with N, c, hop and return
//! beside it, and what the makercard program writes: the card of one film.

use crate::card::{judge_record, Figures, MAX_ZONES};
use crate::refusal::cause;
use crate::shelf::one_film_card;
use crate::text::TextRefusal;

pub const MAX_TURNS: u64 = 30_000;
pub const MAX_SWITCH: u64 = 100_000;
pub const MAX_HEADS: u64 = 32;
pub const MAX_SECTORS: u64 = 8192;
pub const LAST_CYLINDER: u64 = 999_999;
pub const MAX_TRACK: u64 = 10_000;
pub const SECTOR_BYTES: u64 = 512;
/// Microseconds of a minute.
const MINUTE: u64 = 60_000_000;

/// What the program says of any other arguments.
pub const USAGE: &str = "usage: makercard N c hop return\n";

/// Line one.
struct Drive {
    /// Turns a minute.
    turns: u64,
    /// Track switch time.
    switch: u64,
    heads: u64,
    /// Sectors in a block.
    sectors: u64,
}

/// A further line.
struct Row {
    first: u64,
    last: u64,
    /// Sectors a track.
    track: u64,
}

/// N, c, hop and return.
#[derive(Clone, Copy, Debug, PartialEq, Eq)]
pub struct Beside {
    pub blocks: u32,
    pub rate: u32,
    pub hop: u32,
    pub ret: u32,
}

/// A decimal number without leading zeros. One too long for any range has the greatest value that
/// there is here, which is out of range too.
fn number(word: &[u8]) -> Option<u64> {
    let word = std::str::from_utf8(word).ok()?;
    let is_decimal = !word.is_empty() && word.bytes().all(|byte| byte.is_ascii_digit());
    let has_zeros = word.len() > 1 && word.starts_with('0');
    if !is_decimal || has_zeros {
        return None;
    }
    Some(word.parse().unwrap_or(u64::MAX))
}

/// The numbers of a line, one space between; 22 if it has another form.
fn numbers<const COUNT: usize>(line: &[u8]) -> Result<[u64; COUNT], u32> {
    let words: Option<Vec<u64>> = line.split(|&byte| byte == b' ').map(number).collect();
    words.and_then(|words| words.try_into().ok()).ok_or(cause::LINE_FORM)
}

fn in_range(value: u64, most: u64) -> bool {
    (1..=most).contains(&value)
}

fn read_drive(line: &[u8]) -> Result<Drive, u32> {
    let [turns, switch, heads, sectors] = numbers(line)?;
    let is_legal = in_range(turns, MAX_TURNS)
        && in_range(switch, MAX_SWITCH)
        && in_range(heads, MAX_HEADS)
        && in_range(sectors, MAX_SECTORS);
    if !is_legal {
        return Err(cause::LINE_ONE);
    }
    Ok(Drive { turns, switch, heads, sectors })
}

/// A row that follows on the rows before, of which the first starts at cylinder 0.
fn read_row(line: &[u8], before: &[Row]) -> Result<Row, u32> {
    let [first, last, track] = numbers(line)?;
    let next = before.last().map_or(0, |row| row.last + 1);
    let is_legal =
        last <= LAST_CYLINDER && in_range(track, MAX_TRACK) && last >= first && first == next;
    if !is_legal {
        return Err(cause::ROW);
    }
    Ok(Row { first, last, track })
}

/// The lines of a text, each with its line feed. What comes after the last line feed is a line of
/// another form, and so is the first line of an empty text.
fn lines(text: &[u8]) -> Vec<Option<&[u8]>> {
    let pieces: Vec<&[u8]> = text.split_inclusive(|&byte| byte == b'\n').collect();
    match pieces.is_empty() {
        true => vec![None],
        false => pieces.into_iter().map(|piece| piece.strip_suffix(b"\n")).collect(),
    }
}

/// The text line by line: 22, 23 and 24 with the line.
fn read_text(text: &[u8]) -> Result<(Drive, Vec<Row>), TextRefusal> {
    let mut drive = None;
    let mut rows = Vec::new();
    for (index, line) in lines(text).into_iter().enumerate() {
        let line_or = line.ok_or(cause::LINE_FORM);
        let read = match index {
            0 => line_or.and_then(read_drive).map(|one| drive = Some(one)),
            _ => line_or.and_then(|line| read_row(line, &rows)).map(|row| rows.push(row)),
        };
        read.map_err(|number| TextRefusal { number, line: index + 1 })?;
    }
    Ok((drive.expect("a first line"), rows))
}

/// heads × cylinders × sectors a track, divided by sectors in a block, rounded down.
fn positions(drive: &Drive, row: &Row) -> u64 {
    drive.heads * (row.last - row.first + 1) * row.track / drive.sectors
}

/// Sectors in a block × 60,000,000 divided by turns × sectors a track, rounded up, and the track
/// switch time × (sectors in a block less one, divided by sectors a track, rounded up).
fn time(drive: &Drive, row: &Row) -> u64 {
    let turning = (drive.sectors * MINUTE).div_ceil(drive.turns * row.track);
    turning + drive.switch * (drive.sectors - 1).div_ceil(row.track)
}

/// A figure for the judge, which finds all that do not fit 32 bits out of range.
fn figure(value: u64) -> u32 {
    u32::try_from(value).unwrap_or(u32::MAX)
}

/// The figures of a text, innermost zone first, and what comes beside it, unjudged. There are 64
/// rows at most.
fn figures(drive: &Drive, rows: &[Row], beside: Beside) -> Figures {
    let mut figures = Figures::zero();
    figures.zones = rows.len() as u32;
    for (zone, row) in rows.iter().rev().enumerate() {
        figures.positions[zone] = figure(positions(drive, row));
        figures.times[zone] = figure(time(drive, row));
    }
    figures.blocks = beside.blocks;
    figures.block_bytes = figure(SECTOR_BYTES * drive.sectors);
    figures.rate = beside.rate;
    figures.with_moves(beside.hop, beside.ret)
}

/// The figures that a card of a maker's text would give: 22 to 24 with their line, then 4 to 10 and
/// 26 with line 0. 12 is not judged.
pub fn figures_of_text(text: &[u8], beside: Beside) -> Result<Figures, TextRefusal> {
    let (drive, rows) = read_text(text)?;
    let later = |number| TextRefusal { number, line: 0 };
    if rows.len() > MAX_ZONES as usize {
        return Err(later(cause::ZONES));
    }
    let figures = figures(&drive, &rows, beside);
    judge_record(&figures).map_err(later)?;
    Ok(figures)
}

/// An argument of the program: a number of 32 bits in decimal without leading zeros.
fn argument(word: &str) -> Option<u32> {
    u32::try_from(number(word.as_bytes())?).ok()
}

/// What the program writes to standard output, and to standard error up to the words of the cause.
pub fn makercard(arguments: &[String], text: &[u8]) -> (Vec<u8>, String) {
    let numbers: Option<Vec<u32>> = arguments.iter().map(|word| argument(word)).collect();
    let Some(&[blocks, rate, hop, ret]) = numbers.as_deref() else {
        return (Vec::new(), USAGE.to_string());
    };
    match figures_of_text(text, Beside { blocks, rate, hop, ret }) {
        Ok(figures) => (one_film_card(&figures), String::new()),
        Err(TextRefusal { number, line: 0 }) => {
            (Vec::new(), format!("makercard: refused {number}: "))
        }
        Err(TextRefusal { number, line }) => {
            (Vec::new(), format!("makercard: refused {number} at line {line}: "))
        }
    }
}
