//! The bench film and the other fixed cards.

use crate::card::{Figures, ENTRIES};
use crate::shelf::{self, card_bytes, one_film_card};

/// Figures with these zones, each of positions and time, innermost first.
pub fn figures_of(zones: &[(u32, u32)], blocks: u32, bytes: u32, rate: u32) -> Figures {
    let mut figures = Figures::zero();
    figures.zones = zones.len() as u32;
    for (zone, &(positions, time)) in zones.iter().enumerate() {
        figures.positions[zone] = positions;
        figures.times[zone] = time;
    }
    figures.blocks = blocks;
    figures.block_bytes = bytes;
    figures.rate = rate;
    figures.with_moves(12_670, 15_000)
}

/// A film on positions with these times, innermost first, each a zone.
pub fn film_of(times: &[u32]) -> Figures {
    let zones: Vec<(u32, u32)> = times.iter().map(|&time| (1, time)).collect();
    figures_of(&zones, times.len() as u32, 262_144, 500_000)
}

/// The bench film of 01.
pub fn bench_film() -> Figures {
    let zones = [(1, 22270), (1, 20550), (1, 19090), (1, 17810), (1, 16700), (1, 15720)];
    figures_of(&zones, 6, 262_144, 500_000)
}

/// The bench film with another N.
pub fn bench_blocks(blocks: u32) -> Figures {
    Figures { blocks, ..bench_film() }
}

/// The bench film with another B.
pub fn bench_bytes(block_bytes: u32) -> Figures {
    Figures { block_bytes, ..bench_film() }
}

/// The bench film with the second zone's time 0.
pub fn bench_zero_time() -> Figures {
    let mut figures = bench_film();
    figures.times[1] = 0;
    figures
}

/// The bench film with other times of the first and the last zone.
pub fn bench_times(first: u32, last: u32) -> Figures {
    let mut figures = bench_film();
    figures.times[0] = first;
    figures.times[5] = last;
    figures
}

/// The bench film with a measured table, straight up to this count; from it on each block costs so
/// much more.
pub fn bench_rising(count: usize, more: u32) -> Figures {
    let mut figures = bench_film().with_table(bench_film().table);
    for entry in count..ENTRIES {
        figures.table[entry] += (entry - count + 1) as u32 * more;
    }
    figures
}

/// The bench film with a measured table that has one entry of its own.
pub fn bench_entry(entry: usize, overhead: u32) -> Figures {
    let mut figures = bench_rising(ENTRIES, 0);
    figures.table[entry] = overhead;
    figures
}

/// One zone, 3 positions of 20000, N 3.
pub fn three_alike() -> Figures {
    figures_of(&[(3, 20_000)], 3, 262_144, 500_000)
}

/// One zone, 2 positions of 20000, N 2.
pub fn two_alike(block_bytes: u32) -> Figures {
    figures_of(&[(2, 20_000)], 2, block_bytes, 500_000)
}

/// The Barracuda 9 drive, with the hop of two switch times of paper 001: for comparing with that paper only, as it is below a full turn.
pub fn barracuda(blocks: u32) -> Figures {
    let zones = [
        (598, 135_594),
        (776, 125_000),
        (1163, 114_286),
        (1363, 103_897),
        (1606, 96_386),
        (1080, 89_888),
        (2285, 86_957),
    ];
    figures_of(&zones, blocks, 1_048_576, 524_288).with_moves(8280, 10_090)
}

/// The Deskstar 120GXP drive as one zone.
pub fn deskstar() -> Figures {
    figures_of(&[(1000, 52_258)], 1000, 1_829_000, 187_500)
}

/// A record with another N.
fn with_blocks(blocks: u32, figures: Figures) -> Figures {
    Figures { blocks, ..figures }
}

/// Cards of films that have two positions for each block, or just not.
pub fn fixed_pairs_cards() -> Vec<Vec<u8>> {
    let records = [
        bench_blocks(2),
        bench_blocks(3),
        bench_blocks(4),
        with_blocks(3, bench_bytes(260_820)),
        with_blocks(3, bench_bytes(260_819)),
        with_blocks(3, film_of(&[9, 9, 9, 9, 3, 3])),
        with_blocks(3, film_of(&[9, 8, 8, 7, 4, 3])),
        with_blocks(3, film_of(&[7, 7, 7, 7, 7, 7, 7])),
        with_blocks(3, bench_rising(16, 2649)),
        with_blocks(3, bench_rising(16, 2648)),
        with_blocks(500, deskstar()),
        with_blocks(501, deskstar()),
    ];
    records.iter().map(one_film_card).collect()
}

/// The disk of the bench film with so many positions a zone, and films of these N.
pub fn bench_shelf(positions: u32, lengths: &[u32]) -> shelf::Figures {
    let mut disk = bench_film();
    disk.positions[..6].fill(positions);
    shelf::Figures::of(&disk, lengths)
}

/// Cards of shelves, some of which are refused.
pub fn fixed_shelf_cards() -> Vec<Vec<u8>> {
    let records = [
        bench_shelf(1, &[2, 2, 2]),
        bench_shelf(1, &[4, 2]),
        bench_shelf(1, &[2, 4]),
        bench_shelf(1, &[3, 3]),
        bench_shelf(1, &[4, 3]),
        bench_shelf(1, &[6, 2]),
        bench_shelf(1, &[2, 1]),
        bench_shelf(1, &[]),
        bench_shelf(2, &[3, 2, 5]),
        bench_shelf(2, &[5, 4, 2]),
        bench_shelf(2, &[3, 3]),
        bench_shelf(2, &[3, 2, 2]),
        bench_shelf(20, &[70, 3, 40]),
        bench_shelf(20, &[3, 64, 50]),
        bench_shelf(6, &[2; 16]),
        bench_shelf(1, &[2, 2, 2]).on(&bench_rising(9, 900_000)),
        bench_shelf(4000, &[8192, 8192]),
        bench_shelf(4000, &[8192, 8193]),
        bench_shelf(4000, &[16_384, 2]),
        bench_shelf(3000, &[1024; 16]),
    ];
    let mut cards: Vec<Vec<u8>> = records.iter().map(card_bytes).collect();
    let seventeen = shelf::Figures { films: 17, ..bench_shelf(6, &[2; 16]) };
    cards.push(card_bytes(&seventeen));
    cards
}

/// Cards that every listing program is run on.
pub fn fixed_cards() -> Vec<Vec<u8>> {
    let records = [
        bench_film(),
        bench_zero_time(),
        bench_times(22_270, 3),
        bench_times(22_270, 7423),
        bench_times(22_269, 7423),
        bench_times(22_268, 7423),
        bench_bytes(260_820),
        bench_bytes(260_819),
        bench_blocks(5),
        bench_blocks(1),
        bench_blocks(7),
        three_alike(),
        two_alike(23_835),
        two_alike(23_834),
        barracuda(8871),
        barracuda(3600),
        deskstar(),
        figures_of(&[(2, 2), (1, 1)], 3, 262_144, 500_000),
        film_of(&[9, 9, 9, 5, 5, 3, 3, 3]),
        film_of(&[9, 9, 9, 9, 9, 3, 3, 3]),
        bench_rising(ENTRIES, 0),
        bench_rising(9, 900_000),
        bench_entry(256, 257_000_000),
        bench_entry(256, 257_000_001),
        bench_entry(200, 14_999),
        bench_entry(0, 0),
    ];
    let mut cards: Vec<Vec<u8>> = records.iter().map(one_film_card).collect();
    cards.push(Vec::new());
    cards.push(vec![0x81, 0x00]);
    cards.push([one_film_card(&bench_film()), vec![b'\n']].concat());
    cards
}
