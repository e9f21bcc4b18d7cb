//! Makers' zone listings with the four numbers beside them: legal ones, ones at and past each
//! limit, and texts of another form.

use super::Rng;
use crate::card::{MAX_BLOCKS, MAX_HOP, MAX_POSITIONS, MAX_RATE, MAX_RETURN};
use crate::maker::{
    figures_of_text, Beside, LAST_CYLINDER, MAX_HEADS, MAX_SECTORS, MAX_SWITCH, MAX_TRACK,
    MAX_TURNS,
};

/// A listing as numbers.
#[derive(Clone, Debug)]
pub struct Listing {
    /// Turns, switch time, heads and sectors in a block.
    pub drive: [u64; 4],
    /// First cylinder, last cylinder and sectors a track.
    pub rows: Vec<[u64; 3]>,
    pub beside: Beside,
}

/// A listing's text as lines, and the arguments beside it.
#[derive(Clone, Debug)]
pub struct Words {
    pub lines: Vec<String>,
    pub arguments: [String; 4],
}

impl Listing {
    pub fn words(&self) -> Words {
        let line =
            |numbers: &[u64]| numbers.iter().map(u64::to_string).collect::<Vec<_>>().join(" ");
        let mut lines = vec![line(&self.drive)];
        lines.extend(self.rows.iter().map(|row| line(row)));
        let Beside { blocks, rate, hop, ret } = self.beside;
        Words { lines, arguments: [blocks, rate, hop, ret].map(|number| number.to_string()) }
    }

    fn is_legal(&self) -> bool {
        figures_of_text(&self.words().text(), self.beside).is_ok()
    }
}

impl Words {
    /// A line feed after each line.
    pub fn text(&self) -> Vec<u8> {
        self.lines.iter().flat_map(|line| format!("{line}\n").into_bytes()).collect()
    }
}

fn spread(rng: &mut Rng, least: u64, greatest: u64) -> u64 {
    rng.spread(least as u32, greatest as u32) as u64
}

/// Sectors a track of zones, outermost first, none below a third of the first.
fn tracks(rng: &mut Rng, zones: usize) -> Vec<u64> {
    let most = match rng.below(3) {
        0 => spread(rng, 1, MAX_TRACK),
        _ => spread(rng, 40, 1000),
    };
    let least = most.div_ceil(3);
    let mut tracks: Vec<u64> = match rng.below(4) {
        0 => vec![most; zones],
        1 => (0..zones).map(|_| rng.pick(&[least, most])).collect(),
        _ => (0..zones).map(|_| least + rng.bits() % (most - least + 1)).collect(),
    };
    tracks[0] = most;
    tracks.sort_unstable_by(|one, other| other.cmp(one));
    tracks
}

/// Rows of such tracks, each with so many cylinders that its zone has a position or more and all
/// together have not too many.
fn rows(rng: &mut Rng, heads: u64, sectors: u64, tracks: &[u64]) -> Vec<[u64; 3]> {
    let share = MAX_POSITIONS as u64 / tracks.len() as u64;
    let room = (LAST_CYLINDER + 1) / tracks.len() as u64;
    let mut rows: Vec<[u64; 3]> = Vec::new();
    for &track in tracks {
        let least = sectors.div_ceil(heads * track).min(room);
        let most = (share * sectors / (heads * track)).clamp(least, room);
        let cylinders = spread(rng, least, most);
        let first = rows.last().map_or(0, |row| row[1] + 1);
        rows.push([first, first + cylinders - 1, track]);
    }
    rows
}

fn any_beside(rng: &mut Rng, most_blocks: u32) -> Beside {
    Beside {
        blocks: rng.spread(2, most_blocks),
        rate: rng.spread(1, MAX_RATE),
        hop: rng.spread(1, MAX_HOP),
        ret: rng.spread(1, MAX_RETURN),
    }
}

/// A listing that is often legal.
fn some_listing(rng: &mut Rng) -> Listing {
    let any = rng.between(1, 64);
    let zones = rng.pick(&[1, 2, 3, 7, 12, 63, 64, any]) as usize;
    let (turns, sectors) = (spread(rng, 1, MAX_TURNS), spread(rng, 1, MAX_SECTORS));
    let turns = rng.pick(&[turns, 3600, 5400, 7200, 10_000, MAX_TURNS]);
    let heads = spread(rng, 1, MAX_HEADS);
    let sectors = rng.pick(&[sectors, 1, 128, 512, 2048, MAX_SECTORS]);
    let tracks = tracks(rng, zones);
    let drive = [turns, spread(rng, 1, MAX_SWITCH), heads, sectors];
    let rows = rows(rng, heads, sectors, &tracks);
    let most = rng.pick(&[2, 3, 10, 60, MAX_BLOCKS]);
    Listing { drive, rows, beside: any_beside(rng, most) }
}

/// A legal listing.
pub fn legal_listing(rng: &mut Rng) -> Listing {
    loop {
        let listing = some_listing(rng);
        if listing.is_legal() {
            return listing;
        }
    }
}

/// A maker's usual drive: Seagate's Barracuda 9, about.
pub fn bench_listing() -> Listing {
    let tracks = [256, 240, 220, 200, 182, 170, 154, 141];
    let rows = tracks.iter().enumerate();
    let rows = rows.map(|(zone, &track)| [zone as u64 * 600, zone as u64 * 600 + 599, track]);
    let beside = Beside { blocks: 3600, rate: 524_288, hop: 8380, ret: 10_090 };
    Listing { drive: [7200, 900, 20, 2048], rows: rows.collect(), beside }
}

// Figures at and past their limits.

/// The end of a range, one past it, no number of it, or one of many digits.
fn at_limit(rng: &mut Rng, limit: u64) -> u64 {
    rng.pick(&[0, 1, limit - 1, limit, limit, limit + 1, limit + 1, 10 * limit, u64::MAX])
}

/// A number of line one or of a row at a limit; the rows still follow on one another.
fn set_to_limit(rng: &mut Rng, listing: &mut Listing) {
    let row = rng.below(listing.rows.len());
    match rng.below(6) {
        0 => listing.drive[0] = at_limit(rng, MAX_TURNS),
        1 => listing.drive[1] = at_limit(rng, MAX_SWITCH),
        2 => listing.drive[2] = at_limit(rng, MAX_HEADS),
        3 => listing.drive[3] = at_limit(rng, MAX_SECTORS),
        4 => listing.rows[row][2] = at_limit(rng, MAX_TRACK),
        _ => {
            let last = listing.rows.len() - 1;
            let least = listing.rows[last][0].min(LAST_CYLINDER);
            listing.rows[last][1] = at_limit(rng, LAST_CYLINDER).max(least);
        }
    }
}

/// A row that starts too early or too late, or ends before it starts.
fn set_gap(rng: &mut Rng, listing: &mut Listing) {
    let row = rng.below(listing.rows.len());
    let [first, last, _] = listing.rows[row];
    let any = rng.any() as u64;
    match rng.below(3) {
        0 => {
            listing.rows[row][0] = rng.pick(&[first + 1, first.saturating_sub(1), 0, 1, last, any])
        }
        1 => listing.rows[row][1] = rng.pick(&[first.saturating_sub(1), first, last + 1, 0, any]),
        _ => listing.rows.swap(row, 0),
    }
}

/// Zones that the judge turns down, or just accepts: too many positions or none, slow times, times
/// that rise, the innermost over three times as slow as the outermost.
fn set_zones(rng: &mut Rng, listing: &mut Listing) {
    let row = rng.below(listing.rows.len());
    let track = listing.rows[row][2];
    let first = listing.rows[0][2];
    match rng.below(6) {
        0 => listing.drive[3] = rng.pick(&[MAX_SECTORS, MAX_SECTORS, 4096]),
        1 => listing.drive[0] = spread(rng, 1, 200),
        2 => listing.rows[row][2] = (track + rng.pick(&[0, 1, 1, 50])).min(MAX_TRACK),
        3 => listing.rows[row][2] = (first / 3 + rng.bits() % 3).clamp(1, MAX_TRACK),
        4 => {
            let last = listing.rows.len() - 1;
            let least = listing.rows[last][0];
            listing.rows[last][1] = rng.pick(&[LAST_CYLINDER, least, least + 1]);
        }
        _ => {
            (listing.drive[2], listing.drive[3]) = (rng.pick(&[1, MAX_HEADS]), 1);
            listing.rows[row][2] = rng.pick(&[1, 2, 3, MAX_TRACK]);
        }
    }
}

/// One of the four numbers at its limit, N at P too.
fn set_beside(rng: &mut Rng, listing: &mut Listing) {
    let legal = figures_of_text(&listing.words().text(), listing.beside);
    let total = legal.map_or(100, |figures| figures.total_positions() as u32);
    let Beside { blocks, rate, hop, ret } = &mut listing.beside;
    let any = rng.any();
    match rng.below(5) {
        0 => *blocks = rng.pick(&[0, 1, 2, MAX_BLOCKS, MAX_BLOCKS + 1, any]),
        1 => *blocks = rng.pick(&[total, total + 1]).min(MAX_BLOCKS),
        2 => *rate = rng.pick(&[0, 1, MAX_RATE, MAX_RATE + 1, any]),
        3 => *hop = rng.pick(&[0, 1, MAX_HOP, MAX_HOP + 1, any]),
        _ => *ret = rng.pick(&[0, 1, MAX_RETURN, MAX_RETURN + 1, any]),
    }
}

/// No row, 64, or more; each of one cylinder.
fn many_rows(rng: &mut Rng) -> Listing {
    let mut listing = legal_listing(rng);
    let count = rng.pick(&[0, 0, 63, 64, 65, 65, 66, 200, 5000]);
    let [track, sectors] = [listing.rows[0][2], listing.drive[3]];
    listing.drive[2] = sectors.div_ceil(track).clamp(1, MAX_HEADS);
    listing.rows = (0..count).map(|row| [row, row, track]).collect();
    listing
}

/// A listing of any sort in the right form.
fn any_listing(rng: &mut Rng) -> Listing {
    let mut listing = if rng.once_in(4) { some_listing(rng) } else { legal_listing(rng) };
    match rng.below(8) {
        0 | 1 => {}
        2 => set_to_limit(rng, &mut listing),
        3 => set_gap(rng, &mut listing),
        4 | 5 => set_zones(rng, &mut listing),
        6 => set_beside(rng, &mut listing),
        _ => listing = many_rows(rng),
    }
    listing
}

// Texts of another form.

/// A word that is no number, or a long one.
fn other_word(rng: &mut Rng, word: &str) -> String {
    let words = [
        format!("0{word}"),
        format!("00{word}"),
        "00".to_string(),
        "0".to_string(),
        String::new(),
        format!("+{word}"),
        format!("-{word}"),
        format!("{word}.0"),
        format!("{word}x"),
        format!("x{word}"),
        format!("{word}\r"),
        format!("{word}\u{0}"),
        "\u{b5}".to_string(),
        "1,000".to_string(),
        "4294967295".to_string(),
        "4294967296".to_string(),
        "18446744073709551615".to_string(),
        "18446744073709551616".to_string(),
        "18446744073709551617".to_string(),
        format!("1{}", "0".repeat(rng.pick(&[19, 30, 300, 70_000]))),
        "9".repeat(rng.pick(&[6, 7, 19, 20, 40])),
        format!("0{}", "9".repeat(40)),
    ];
    words[rng.below(words.len())].clone()
}

fn bend_word(rng: &mut Rng, words: &mut Words) {
    let line = rng.below(words.lines.len());
    let mut parts: Vec<String> = words.lines[line].split(' ').map(str::to_string).collect();
    let part = rng.below(parts.len());
    match rng.below(6) {
        0 => parts.insert(part, rng.between(0, 9).to_string()),
        1 => {
            parts.remove(part);
        }
        _ => parts[part] = other_word(rng, &parts[part]),
    }
    words.lines[line] = parts.join(" ");
}

/// Spaces where there are none, others than one space, other ends of a line.
fn bend_line(rng: &mut Rng, words: &mut Words) {
    let at = rng.below(words.lines.len());
    let line = words.lines[at].clone();
    words.lines[at] = match rng.below(9) {
        0 => format!("{line} "),
        1 => format!(" {line}"),
        2 => format!("{line}\r"),
        3 => line.replacen(' ', "  ", 1),
        4 => line.replacen(' ', "\t", 1),
        5 => line.replacen(' ', "\n", 1),
        6 => format!("{line}\n"),
        7 => format!("{line}# a comment"),
        _ => String::new(),
    };
}

/// Lines in another order, one twice, one left out.
fn bend_lines(rng: &mut Rng, words: &mut Words) {
    let (one, other) = (rng.below(words.lines.len()), rng.below(words.lines.len()));
    match rng.below(3) {
        0 => words.lines.swap(one, other),
        1 => words.lines.insert(one, words.lines[other].clone()),
        _ => {
            words.lines.remove(one);
        }
    }
}

/// An argument that is no number.
fn bend_argument(rng: &mut Rng, words: &mut Words) {
    let at = rng.below(4);
    words.arguments[at] =
        rng.pick(&["", "x", "-1", "+1", "1.5", " 1", "1 ", "0x10", "1e3", "N", "loop"]).to_string();
}

/// Bytes of any sort, the ones that mean something often.
fn noise(rng: &mut Rng) -> Vec<u8> {
    let any = rng.bits() as u8;
    let length = rng.pick(&[0, 1, 2, 3, 10, 100]);
    (0..length).map(|_| rng.pick(&[b' ', b'\n', b'\n', b'0', b'1', b'7', b'\r', any])).collect()
}

/// Cuts the text off: before its last line feed, in a line, after one.
fn cut_off(rng: &mut Rng, mut text: Vec<u8>) -> Vec<u8> {
    let ends: Vec<usize> = (0..text.len()).filter(|&at| text[at] == b'\n').collect();
    let end = if ends.is_empty() { 0 } else { ends[rng.below(ends.len())] };
    let length = match rng.below(4) {
        0 => text.len().saturating_sub(1),
        1 => end,
        2 => end + 1,
        _ => rng.below(text.len() + 1),
    };
    text.truncate(length);
    text
}

/// Any text with any arguments.
pub fn any_maker(rng: &mut Rng) -> (Vec<u8>, Vec<String>) {
    let mut words = any_listing(rng).words();
    let mut bends = rng.pick(&[0, 0, 1, 1, 2]);
    while bends > 0 && !words.lines.is_empty() {
        match rng.below(8) {
            0..=3 => bend_word(rng, &mut words),
            4 | 5 => bend_line(rng, &mut words),
            6 => bend_lines(rng, &mut words),
            _ if rng.once_in(3) => bend_argument(rng, &mut words),
            _ => {}
        }
        bends -= 1;
    }
    let mut text = words.text();
    match rng.below(16) {
        0 => text = cut_off(rng, text),
        1 => text.extend(noise(rng)),
        2 if rng.once_in(3) => text = noise(rng),
        _ => {}
    }
    (text, words.arguments.to_vec())
}
