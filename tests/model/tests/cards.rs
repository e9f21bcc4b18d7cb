//! Reading, judging and writing cards.

use film_disk_model::bench::{bench_film, figures_of};
use film_disk_model::card::{number_bytes, read_number, straight};
use film_disk_model::rng::cards::{any_card, damaged_card, legal_card};
use film_disk_model::rng::figures::{any_figures, legal_figures, random_figures};
use film_disk_model::*;

fn refusal(card: &[u8]) -> (u32, u64) {
    match read_card(card) {
        Ok(_) => (0, 0),
        Err(refusal) => (refusal.number, refusal.place),
    }
}

/// The card of these numbers, each in its shortest form.
fn card(numbers: &[u32]) -> Vec<u8> {
    numbers.iter().flat_map(|&number| number_bytes(number)).collect()
}

/// The least legal card.
const LEAST: [u32; 9] = [1, 1, 2, 1, 2, 1, 1, 1, 1];

/// The least card with one number set.
fn least_with(place: usize, number: u32) -> Vec<u8> {
    let mut numbers = LEAST;
    numbers[place] = number;
    card(&numbers)
}

#[test]
fn forms_of_a_number() {
    assert_eq!(read_number(&[0x00], 0), Ok((0, 1)));
    assert_eq!(read_number(&[0x7F], 0), Ok((127, 1)));
    assert_eq!(read_number(&[0x80, 0x01], 0), Ok((128, 2)));
    assert_eq!(read_number(&[0xFF, 0xFF, 0xFF, 0xFF, 0x0F], 0), Ok((u32::MAX, 5)));
    let bad = |bytes: &[u8]| read_number(bytes, 0).unwrap_err();
    for form in [
        &[0x80, 0x00][..],
        &[0x81, 0x00],
        &[0xAC, 0x82, 0x00],
        &[0xFF, 0xFF, 0xFF, 0xFF, 0x10],
        &[0xFF, 0xFF, 0xFF, 0xFF, 0x7F],
        &[0xFF, 0xFF, 0xFF, 0xFF, 0x00],
        &[0x80, 0x80, 0x80, 0x80, 0x80],
        &[0x81, 0x80, 0x80, 0x80, 0x80, 0x00],
    ] {
        assert_eq!(bad(form), Refusal { number: 2, place: 0 }, "{form:02X?}");
    }
    for length in 0..5 {
        let cut = vec![0xFF; length];
        assert_eq!(bad(&cut), Refusal { number: 1, place: length as u64 });
    }
}

#[test]
fn every_number_in_its_shortest_form() {
    let mut rng = Rng::new(1);
    for _ in 0..100_000 {
        let value = rng.any();
        let bytes = number_bytes(value);
        assert_eq!(read_number(&bytes, 0), Ok((value, bytes.len())));
        for cut in 0..bytes.len() {
            let place = cut as u64;
            assert_eq!(read_number(&bytes[..cut], 0), Err(Refusal { number: 1, place }));
        }
    }
}

/// Each range at its ends and one past them.
#[test]
fn ranges_of_the_numbers() {
    let refused = |place, number| refusal(&least_with(place, number)).0;
    assert_eq!(refusal(&card(&LEAST)), (0, 0));
    // The least card with kind 2 ends after two entries of its table.
    assert_eq!([0, 1, 2, 3].map(|kind| refused(0, kind)), [3, 0, 1, 3]);
    assert_eq!([0, 65].map(|zones| refused(1, zones)), [4, 4]);
    assert_eq!([0, 2, 1_048_576, 1_048_577].map(|count| refused(2, count)), [5, 0, 0, 5]);
    assert_eq!([0, 1, 4_000_000, 4_000_001].map(|time| refused(3, time)), [6, 0, 0, 6]);
    assert_eq!([0, 1, 2, 3, 16_384, 16_385].map(|n| refused(4, n)), [8, 8, 0, 9, 9, 8]);
    assert_eq!([0, 1, 4_194_304, 4_194_305].map(|bytes| refused(5, bytes)), [10, 0, 0, 10]);
    assert_eq!([0, 1, 10_000_000, 10_000_001].map(|rate| refused(6, rate)), [10, 0, 0, 10]);
    assert_eq!([0, 1, 1_000_000, 1_000_001].map(|hop| refused(7, hop)), [10, 0, 0, 10]);
    assert_eq!([0, 1, 1_000_000, 1_000_001].map(|ret| refused(8, ret)), [10, 0, 0, 10]);
}

/// Each number of the least card is one byte, so the offset is the number's place.
#[test]
fn offsets_of_the_numbers() {
    for (place, number) in
        [(0, 3), (1, 4), (2, 5), (3, 6), (4, 8), (5, 10), (6, 10), (7, 10), (8, 10)]
    {
        assert_eq!(refusal(&least_with(place, 0)), (number, place as u64));
    }
    for length in 0..9 {
        assert_eq!(refusal(&card(&LEAST)[..length]), (1, length as u64));
    }
    assert_eq!(refusal(&[card(&LEAST), vec![0x80; 9]].concat()), (11, 9));
    assert_eq!(refusal(&[card(&LEAST), b"\n".to_vec()].concat()), (11, 9));
}

/// Field by field, form before range, and the first fault ends it.
#[test]
fn order_of_the_faults() {
    assert_eq!(refusal(&[0x80, 0x00]), (2, 0));
    assert_eq!(refusal(&[0x03]), (3, 0));
    assert_eq!(refusal(&[0x03, 0x80]), (3, 0));
    assert_eq!(refusal(&[0x01, 0x80]), (1, 2));
    // A fault of the second zone's positions is found before its time is read.
    assert_eq!(refusal(&card(&[1, 2, 1, 9, 1_048_576])), (5, 4));
    assert_eq!(refusal(&card(&[1, 2, 1, 9, 1_048_575])), (1, 7));
    // Above the range and above the zone before: 6. In the range and above: 7. Equal is legal.
    assert_eq!(refusal(&card(&[1, 2, 1, 9, 1, 4_000_001])), (6, 5));
    assert_eq!(refusal(&card(&[1, 2, 1, 9, 1, 10])), (7, 5));
    assert_eq!(refusal(&card(&[1, 2, 1, 9, 1, 9, 2, 1, 1, 1, 1])), (0, 0));
    // 0, times three, is below any time, but out of range: 6. Too fast, then a zone that rises: 26 at
    // the first of them.
    assert_eq!(refusal(&card(&[1, 2, 1, 9, 1, 0])), (6, 5));
    assert_eq!(refusal(&card(&[1, 3, 1, 9, 1, 2, 1, 3])), (26, 5));
    assert_eq!(refusal(&card(&[1, 3, 1, 9, 1, 10, 1, 2])), (7, 5));
    // Out of range and above P: 8.
    assert_eq!(refusal(&card(&[1, 1, 2, 1, 16_385])), (8, 4));
}

/// Three times a zone's time against the first zone's, not against the one before: one below, the
/// same and one above, from the least times to the greatest.
#[test]
fn third_of_the_first_time() {
    for time in [1, 2, 3, 100, 1_333_333] {
        let last = |first, between| {
            let numbers = [1, 3, 1, first, 1, between, 1, time, 2, 1, 1, 1, 1];
            let offset = card(&numbers[..7]).len() as u64;
            let (number, place) = refusal(&card(&numbers));
            let figures = figures_of(&[(1, first), (1, between), (1, time)], 2, 1, 1);
            assert_eq!(judge_record(&figures).err().unwrap_or(0), number);
            assert!(number == 0 || place == offset);
            number
        };
        for between in [time, 2 * time] {
            assert_eq!(last(3 * time - 1, between), 0);
            assert_eq!(last(3 * time, between), 0);
            assert_eq!(last(3 * time + 1, 3 * time), 26);
        }
    }
    // No first zone is too fast, and a drive that fails is found at its zone.
    assert_eq!(refusal(&card(&[1, 1, 2, 1, 2, 1, 1, 1, 1])), (0, 0));
    assert_eq!(refusal(&card(&[1, 2, 1, 22_270, 1, 3])), (26, 7));
    assert_eq!(refusal(&card(&[1, 2, 1, 22_270, 1, 7423])), (26, 7));
    assert_eq!(refusal(&card(&[1, 2, 1, 22_270, 1, 7424])), (1, 9));
}

/// 11 goes before 13, and 13 before 12, each with place 0.
#[test]
fn planner_order() {
    let plan = |card: &[u8], positions, leads| {
        plan_card(card, positions, leads).map_err(|refusal| (refusal.number, refusal.place))
    };
    // The least card feeds nobody with B 1 and c 10,000,000.
    let starved = least_with(6, 10_000_000);
    assert_eq!(plan(&starved, 2, 2).unwrap_err(), (12, 0));
    assert_eq!(plan(&starved, 1, 2).unwrap_err(), (13, 0));
    assert_eq!(plan(&starved, 2, 1).unwrap_err(), (13, 0));
    let longer = [starved, vec![0]].concat();
    assert_eq!(plan(&longer, 0, 0).unwrap_err(), (11, 12));
    assert!(plan(&card(&LEAST), 2, 2).is_ok());
    assert!(plan(&card(&LEAST), 3, 9).is_ok());
}

/// The record's order: kind, zone count, unused zones, then zone by zone, then N, B, c, table.
#[test]
fn order_of_a_record() {
    let mut figures = figures_of(&[(1, 5), (1, 4), (1, 3)], 3, 1, 1);
    assert_eq!(judge_record(&figures), Ok(()));
    figures = figures.with_moves(1_000_001, 0);
    assert_eq!(judge_record(&figures), Err(10));
    figures.blocks = 4;
    assert_eq!(judge_record(&figures), Err(9));
    figures.blocks = 1;
    assert_eq!(judge_record(&figures), Err(8));
    figures.times[2] = 5;
    assert_eq!(judge_record(&figures), Err(7));
    figures.times[1] = 0;
    assert_eq!(judge_record(&figures), Err(6));
    figures.positions[1] = 0;
    assert_eq!(judge_record(&figures), Err(5));
    figures.times[0] = 0;
    assert_eq!(judge_record(&figures), Err(6));
    for unused in 3..64 {
        let mut other = figures.clone();
        other.times[unused] = 1;
        assert_eq!(judge_record(&other), Err(4));
        let mut other = figures.clone();
        other.positions[unused] = 1;
        assert_eq!(judge_record(&other), Err(4));
    }
    for zones in [0, 65, u32::MAX] {
        figures.zones = zones;
        assert_eq!(judge_record(&figures), Err(4));
    }
    for kind in [0, 3, 256, u32::MAX] {
        assert_eq!(judge_record(&Figures { kind, ..figures.clone() }), Err(3));
    }
}

#[test]
fn writer() {
    let figures = bench_film();
    let length = card_bytes(&figures).len();
    let mut lent = vec![0xEE; length + 3];
    assert_eq!(write_card(&figures, &mut lent), Ok(length));
    assert_eq!(lent[..length], card_bytes(&figures));
    assert_eq!(lent[length..], [0xEE; 3]);

    let mut short = vec![0xEE; length - 1];
    assert_eq!(write_card(&figures, &mut short), Err(Refusal { number: 13, place: 0 }));
    assert!(short.iter().all(|&byte| byte == 0xEE));
    let bad = Figures { rate: 0, ..figures.clone() };
    assert_eq!(write_card(&bad, &mut short), Err(Refusal { number: 10, place: 0 }));
    // The writer does not judge 12.
    let starved = Figures { block_bytes: 1, ..figures };
    assert!(write_card(&starved, &mut lent).is_ok());
    assert_eq!(plan_record(&starved, 6, 6), Err(Refusal { number: 12, place: 0 }));
}

/// Figures written as a card are read as the same figures.
#[test]
fn written_then_read() {
    let mut rng = Rng::new(2);
    for _ in 0..30_000 {
        let figures = any_figures(&mut rng);
        let mut lent = [0; 1489];
        match write_card(&figures, &mut lent) {
            Ok(length) => assert_eq!(read_card(&lent[..length]), Ok(figures)),
            Err(refusal) => assert_eq!(judge_record(&figures), Err(refusal.number)),
        }
    }
}

/// An accepted card is the one that the writer makes of its figures.
#[test]
fn read_then_written() {
    let mut rng = Rng::new(3);
    for _ in 0..30_000 {
        let card = any_card(&mut rng);
        if let Ok(figures) = read_card(&card) {
            let mut lent = vec![0; card.len()];
            assert_eq!(write_card(&figures, &mut lent), Ok(card.len()));
            assert_eq!(lent, card);
        }
    }
}

/// A record with its unused zones zero, and of kind 1 with a straight table, is refused as the card of
/// its numbers is, offset 0.
#[test]
fn record_and_card_agree() {
    let mut rng = Rng::new(4);
    for _ in 0..30_000 {
        let figures = any_figures(&mut rng);
        let number = judge_record(&figures).err().unwrap_or(0);
        let is_bent = figures.kind == 1 && figures.table != straight(figures.hop(), figures.ret());
        if number == 4 || is_bent && number == 10 {
            continue;
        }
        assert!(!is_bent || number != 0);
        assert_eq!(refusal(&card_bytes(&figures)).0, number, "{figures:?}");
    }
}

#[test]
fn legal_cards_are_accepted() {
    let mut rng = Rng::new(5);
    for _ in 0..5000 {
        let figures = legal_figures(&mut rng);
        assert_eq!(judge_record(&figures), Ok(()));
        assert_eq!(read_card(&card_bytes(&figures)), Ok(figures));
        assert!(read_card(&legal_card(&mut rng)).is_ok());
    }
}

/// How often each refusal is met in so many tries.
fn tally(tries: usize, mut number: impl FnMut() -> u32) -> [usize; 27] {
    let mut counts = [0; 27];
    for _ in 0..tries {
        counts[number() as usize] += 1;
    }
    counts
}

#[test]
fn damaged_cards_meet_each_refusal() {
    let mut rng = Rng::new(6);
    let counts = tally(50_000, || refusal(&damaged_card(&mut rng)).0);
    for number in (1..=11).chain([26]) {
        assert!(counts[number] > 500, "refusal {number}: {counts:?}");
    }
}

/// The cards of the listing comparison: accepted ones, each refusal up to 12, and 26.
#[test]
fn any_cards_meet_each_answer() {
    let mut rng = Rng::new(9);
    let planned = |card: &[u8]| plan_card(card, 16_384, 16_384);
    let counts =
        tally(5000, || planned(&any_card(&mut rng)).map_or_else(|refusal| refusal.number, |_| 0));
    for number in (0..=12).chain([26]) {
        assert!(counts[number] > 50, "refusal {number}: {counts:?}");
    }
    assert!(counts[0] > 1000, "{counts:?}");
}

#[test]
fn records_meet_each_refusal() {
    let mut rng = Rng::new(7);
    let counts = tally(50_000, || judge_record(&any_figures(&mut rng)).err().unwrap_or(0));
    for number in [0, 3, 4, 5, 6, 7, 8, 9, 10, 25, 26] {
        assert!(counts[number] > 300, "refusal {number}: {counts:?}");
    }
}

#[test]
fn any_bytes_and_any_record() {
    for first in 0..=255 {
        for second in 0..=255 {
            assert_ne!(refusal(&[first, second]).0, 0);
        }
    }
    let mut rng = Rng::new(8);
    for _ in 0..50_000 {
        let bytes: Vec<u8> = (0..rng.below(30)).map(|_| rng.bits() as u8).collect();
        assert!(refusal(&bytes).1 <= bytes.len() as u64);
        assert_ne!(judge_record(&random_figures(&mut rng)), Ok(()));
    }
}

/// The longest card of kind 1 has 467 bytes, that of kind 2 1,489; the least has 9.
#[test]
fn lengths_of_cards() {
    assert_eq!(card(&LEAST).len(), 9);
    let mut figures = figures_of(&[(16_384, 4_000_000); 64], 16_384, 4_194_304, 10_000_000);
    figures.positions[..63].fill(16_384);
    figures.positions[63] = 1_048_576 - 63 * 16_384;
    let figures = figures.with_moves(1_000_000, 1_000_000);
    assert_eq!(judge_record(&figures), Ok(()));
    assert_eq!(card_bytes(&figures).len(), 2 + 64 * 7 + 3 + 4 + 4 + 3 + 3);
    let figures = figures.with_table([257_000_000; 257]);
    assert_eq!(judge_record(&figures), Ok(()));
    assert_eq!(card_bytes(&figures).len(), 1489);
}
