//! Cards and records of a shelf of films: request 14 of 02.

use film_disk_model::bench::{bench_blocks, bench_film, bench_zero_time, figures_of};
use film_disk_model::card::{self, number_bytes, read_number, straight};
use film_disk_model::pairs::{judge_pairs_record, read_pairs_card};
use film_disk_model::rng::cards::any_card;
use film_disk_model::rng::figures::any_figures;
use film_disk_model::rng::shelf::cards::{any_shelf_card, damaged_shelf_card, legal_shelf_card};
use film_disk_model::rng::shelf::{any_shelf, legal_shelf, random_shelf};
use film_disk_model::shelf::{card_bytes, judge_record, read_card, write_card, Figures, Rule};
use film_disk_model::{Refusal, Rng};

/// The card of these numbers, each in its shortest form.
fn card(numbers: &[u32]) -> Vec<u8> {
    numbers.iter().flat_map(|&number| number_bytes(number)).collect()
}

/// Number and offset of a refusal; zeros for an accepted card.
fn refusal(card: &[u8], rule: Rule) -> (u32, u64) {
    read_card(card, rule).map_or_else(|refusal| (refusal.number, refusal.place), |_| (0, 0))
}

fn fault(figures: &Figures, rule: Rule) -> u32 {
    judge_record(figures, rule).err().unwrap_or(0)
}

/// One zone of so many positions with films of these N.
fn shelf(positions: u32, lengths: &[u32]) -> Figures {
    Figures::of(&figures_of(&[(positions, 9)], 0, 262_144, 500_000), lengths)
}

/// The bench film's card has 1, then N; what stands behind moves by one byte.
#[test]
fn bench_card() {
    let bench = card::card_bytes(&bench_film());
    let at = 26 - 1;
    let expected = [&bench[..at], &[1], &bench[at..]].concat();
    assert_eq!(card_bytes(&Figures::of(&bench_film(), &[6])), expected);
    for (blocks, number) in [(0, 8), (1, 8), (2, 0), (6, 0), (7, 9), (16_384, 9), (16_385, 8)] {
        let place = if number == 0 { 0 } else { 26 };
        let card = card_bytes(&Figures::of(&bench_blocks(0), &[blocks]));
        assert_eq!(refusal(&card, Rule::Once), (number, place), "N {blocks}");
    }
    let card = card_bytes(&Figures::of(&bench_zero_time(), &[6]));
    assert_eq!(refusal(&card, Rule::Loop), (6, 7));
}

/// The least card has ten numbers; the longest have 16 films of two bytes each.
#[test]
fn lengths_of_cards() {
    assert_eq!(refusal(&card(&[1, 1, 2, 1, 1, 2, 1, 1, 1, 1]), Rule::Once), (0, 0));
    let mut disk = figures_of(&[(16_384, 4_000_000); 64], 0, 4_194_304, 10_000_000);
    disk.positions[63] = 1_048_576 - 63 * 16_384;
    let disk = disk.with_moves(1_000_000, 1_000_000);
    let measured = disk.clone().with_table([257_000_000; 257]);
    for (lengths, length) in [(&[16_384][..], 467 + 1), (&[1024; 16], 467 - 3 + 1 + 32)] {
        let figures = Figures::of(&disk, lengths);
        assert_eq!(fault(&figures, Rule::Pairs), 0);
        assert_eq!(card_bytes(&figures).len(), length);
        assert_eq!(card_bytes(&Figures::of(&measured, lengths)).len(), length + 1489 - 467);
    }
}

/// 0 films and more than 16 are 30 at the count; form goes before it, and nothing behind it is read.
#[test]
fn film_counts() {
    for rule in Rule::ALL {
        for films in 1..=16 {
            let numbers = [&[1, 1, 64, 9, films][..], &vec![2; films as usize], &[9, 1, 1, 1]];
            assert_eq!(refusal(&card(&numbers.concat()), rule), (0, 0));
            let short = card(&numbers[..2].concat());
            assert_eq!(refusal(&short, rule), (1, short.len() as u64));
        }
        for films in [0, 17, 18, 255, 256, 65_537, u32::MAX] {
            let start = [card(&[1, 1, 64, 9, films]), vec![0x80, 0x00]].concat();
            assert_eq!(refusal(&start, rule), (30, 4), "{films} films");
            let mut figures = shelf(64, &[2; 16]);
            figures.films = films;
            assert_eq!(fault(&figures, rule), 30);
        }
        assert_eq!(refusal(&[1, 1, 64, 9, 0x81, 0x00], rule), (2, 4));
        assert_eq!(refusal(&[1, 1, 64, 9, 0x80], rule), (1, 5));
    }
}

/// Films that are judged one by one, with the film that is refused: its range, then all blocks so far,
/// then the positions still free.
#[test]
fn order_of_the_films() {
    let once: [(u32, &[u32], u32, usize); 15] = [
        (6, &[4, 2], 0, 0),
        (6, &[4, 3], 9, 1),
        (6, &[4, 2, 2], 9, 2),
        (6, &[7, 0], 9, 0),
        (6, &[4, 0], 8, 1),
        (6, &[4, 1], 8, 1),
        (6, &[4, 16_380], 9, 1),
        (6, &[4, 16_381], 30, 1),
        (6, &[4, 16_384], 30, 1),
        (6, &[4, 16_385], 8, 1),
        (20_000, &[16_384, 2], 30, 1),
        (20_000, &[16_382, 2], 0, 0),
        (20_000, &[8000, 8000, 384], 0, 0),
        (20_000, &[8000, 8000, 385, 1], 30, 2),
        (16_384, &[8192, 8192, 2], 30, 2),
    ];
    let pairs: [(u32, &[u32], u32, usize); 9] = [
        (12, &[4, 2], 0, 0),
        (13, &[4, 2], 0, 0),
        (11, &[4, 2], 28, 1),
        (13, &[4, 3], 28, 1),
        (13, &[7], 28, 0),
        (13, &[4, 1], 8, 1),
        (13, &[4, 16_381], 30, 1),
        (32_768, &[8192, 8192], 0, 0),
        (32_767, &[8192, 8192], 28, 1),
    ];
    let cases = [(Rule::Once, &once[..]), (Rule::Loop, &once), (Rule::Pairs, &pairs)];
    for (rule, cases) in cases {
        for &(positions, lengths, number, film) in cases {
            let figures = shelf(positions, lengths);
            assert_eq!(fault(&figures, rule), number, "{positions} {lengths:?}");
            let before = [&[1, 1, positions, 9, lengths.len() as u32], &lengths[..film]].concat();
            let place = if number == 0 { 0 } else { card(&before).len() as u64 };
            assert_eq!(refusal(&card_bytes(&figures), rule), (number, place));
        }
    }
}

/// The record's order: zones, film count, unused films, then film by film, then B.
#[test]
fn order_of_a_record() {
    for rule in Rule::ALL {
        let mut figures = shelf(64, &[2, 3, 4]);
        assert_eq!(fault(&figures, rule), 0);
        figures.block_bytes = 0;
        assert_eq!(fault(&figures, rule), 10);
        figures.blocks[2] = 60;
        assert_eq!(fault(&figures, rule), if rule == Rule::Pairs { 28 } else { 9 });
        figures.blocks[2] = 16_380;
        assert_eq!(fault(&figures, rule), 30);
        figures.blocks[2] = 16_385;
        assert_eq!(fault(&figures, rule), 8);
        figures.blocks[0] = 1;
        figures.blocks[1] = 16_384;
        assert_eq!(fault(&figures, rule), 8);
        for unused in 3..16 {
            let mut other = figures.clone();
            other.blocks[unused] = 2;
            assert_eq!(fault(&other, rule), 30);
        }
        figures.films = 0;
        assert_eq!(fault(&figures, rule), 30);
        figures.times[0] = 0;
        assert_eq!(fault(&figures, rule), 6);
        // An unused entry is no fault of the card, which has none.
        let mut other = shelf(64, &[2, 3, 4]);
        other.blocks[3] = 1;
        assert_eq!(read_card(&card_bytes(&other), rule), Ok(shelf(64, &[2, 3, 4])));
    }
}

// Round trips.

/// The writer judges as the plain reader does, then the length of the card.
#[test]
fn writer() {
    let figures = shelf(64, &[2, 3, 4]);
    let card = card_bytes(&figures);
    let mut lent = vec![0xEE; card.len() + 3];
    assert_eq!(write_card(&figures, &mut lent), Ok(card.len()));
    assert_eq!(lent, [&card[..], &[0xEE; 3]].concat());
    let mut short = vec![0xEE; card.len() - 1];
    assert_eq!(write_card(&figures, &mut short), Err(Refusal { number: 13, place: 0 }));
    for (lengths, number) in [(&[][..], 30), (&[2, 1], 8), (&[2, 63], 9), (&[2, 16_383], 30)] {
        let refused = write_card(&shelf(64, lengths), &mut short);
        assert_eq!(refused, Err(Refusal { number, place: 0 }));
    }
    assert!(short.iter().all(|&byte| byte == 0xEE));
    // Twice N above P is a planner's refusal only.
    assert!(write_card(&shelf(6, &[4, 2]), &mut lent).is_ok());
}

/// Figures written as a card are read as the same figures.
#[test]
fn written_then_read() {
    let mut rng = Rng::new(141);
    for case in 0..20_000 {
        let figures = any_shelf(&mut rng, Rule::ALL[case % 3]);
        let mut lent = [0; 1519];
        match write_card(&figures, &mut lent) {
            Ok(length) => assert_eq!(read_card(&lent[..length], Rule::Once), Ok(figures)),
            Err(refusal) => assert_eq!(fault(&figures, Rule::Once), refusal.number),
        }
    }
}

/// An accepted card is the one that the writer makes of its figures.
#[test]
fn read_then_written() {
    let mut rng = Rng::new(142);
    for case in 0..20_000 {
        let rule = Rule::ALL[case % 3];
        let card = any_shelf_card(&mut rng, rule);
        if let Ok(figures) = read_card(&card, rule) {
            let mut lent = vec![0; card.len()];
            assert_eq!(write_card(&figures, &mut lent), Ok(card.len()));
            assert_eq!(lent, card);
        }
    }
}

/// A record with its unused zones and films zero, and of kind 1 with a straight table, is refused as
/// the card of its numbers is, offset 0.
#[test]
fn record_and_card_agree() {
    let mut rng = Rng::new(143);
    for case in 0..20_000 {
        let rule = Rule::ALL[case % 3];
        let figures = any_shelf(&mut rng, rule);
        let number = fault(&figures, rule);
        let is_bent = {
            let disk = figures.of_one(0);
            figures.kind == 1 && figures.table != straight(disk.hop(), disk.ret())
        };
        let unused = figures.lengths().len();
        let has_unused = figures.blocks[unused..].iter().any(|&blocks| blocks != 0);
        if number == 4 || number == 30 && has_unused || is_bent && number == 10 {
            continue;
        }
        assert_eq!(refusal(&card_bytes(&figures), rule).0, number, "{figures:?}");
    }
}

// One film.

/// A record of one film is judged as before there were shelves, by either reader.
#[test]
fn records_of_one_film() {
    let mut rng = Rng::new(144);
    for _ in 0..20_000 {
        let figures = any_figures(&mut rng);
        let one = Figures::of(&figures, &[figures.blocks]);
        for rule in [Rule::Once, Rule::Loop] {
            assert_eq!(judge_record(&one, rule), card::judge_record(&figures));
        }
        assert_eq!(judge_record(&one, Rule::Pairs), judge_pairs_record(&figures));
    }
}

/// The offset of N on a card of one film, if its zones are all there.
fn offset_of_blocks(card: &[u8]) -> Option<usize> {
    let (_, at) = read_number(card, 0).ok()?;
    let (zones, mut at) = read_number(card, at).ok()?;
    for _ in 0..2 * zones.min(64) {
        (_, at) = read_number(card, at).ok()?;
    }
    Some(at)
}

/// A card with 1 put before N is read as the card without it before there were shelves: a refusal
/// from there on has an offset one higher.
#[test]
fn cards_of_one_film() {
    let mut rng = Rng::new(145);
    let mut met = [0; 2];
    for _ in 0..20_000 {
        let card = any_card(&mut rng);
        let at = offset_of_blocks(&card).unwrap_or(card.len());
        let one = [&card[..at], &[1], &card[at..]].concat();
        for rule in Rule::ALL {
            let before = match rule {
                Rule::Pairs => read_pairs_card(&card),
                _ => card::read_card(&card),
            };
            let expected = match before {
                Ok(figures) => Ok(Figures::of(&figures, &[figures.blocks])),
                Err(Refusal { number, place }) => {
                    let moved = if place >= at as u64 { 1 } else { 0 };
                    Err(Refusal { number, place: place + moved })
                }
            };
            if at < card.len() {
                assert_eq!(read_card(&one, rule), expected);
                met[expected.is_ok() as usize] += 1;
            } else {
                // It ends, or is refused, before N.
                assert!(read_card(&card, rule).is_err());
            }
        }
    }
    assert!(met.iter().all(|&count| count > 5000), "{met:?}");
}

// Random cards.

/// The pairs reader answers as the plain one, but for 28: where 9 stood, or ahead of what the plain
/// one finds later or does not find.
#[test]
fn both_readers() {
    let mut rng = Rng::new(146);
    let mut earlier = 0;
    for case in 0..20_000 {
        let card = any_shelf_card(&mut rng, Rule::ALL[case % 3]);
        let [once, looped, pairs] = Rule::ALL.map(|rule| read_card(&card, rule));
        assert_eq!(once, looped);
        match (&once, &pairs) {
            (Ok(figures), Ok(_)) => {
                assert!(2 * figures.all_blocks() <= figures.total_positions());
                assert_eq!(once, pairs);
            }
            (Ok(figures), Err(refusal)) => {
                assert!(2 * figures.all_blocks() > figures.total_positions());
                assert_eq!(refusal.number, 28);
                earlier += 1;
            }
            (Err(plain), Err(refusal)) if refusal.number == 28 => {
                let is_nine = plain.number == 9 && plain.place == refusal.place;
                assert!(is_nine || refusal.place < plain.place);
            }
            _ => assert_eq!(once, pairs),
        }
    }
    assert!(earlier > 500, "{earlier}");
}

#[test]
fn legal_cards_are_accepted() {
    let mut rng = Rng::new(147);
    let mut films = [0; 17];
    for case in 0..6000 {
        let rule = Rule::ALL[case % 3];
        let figures = legal_shelf(&mut rng, rule);
        assert_eq!(judge_record(&figures, rule), Ok(()));
        films[figures.films as usize] += 1;
        assert_eq!(read_card(&card_bytes(&figures), rule), Ok(figures));
        assert!(read_card(&legal_shelf_card(&mut rng, rule), rule).is_ok());
        assert_ne!(fault(&random_shelf(&mut rng), rule), 0);
    }
    assert!(films[1..].iter().all(|&count| count > 20), "{films:?}");
    assert!([1, 2, 3, 16].iter().all(|&count| films[count] > 300), "{films:?}");
}

/// How often each refusal is met in so many tries.
fn tally(tries: usize, mut number: impl FnMut() -> u32) -> [usize; 32] {
    let mut counts = [0; 32];
    for _ in 0..tries {
        counts[number() as usize] += 1;
    }
    counts
}

/// Damaged cards and records meet each refusal.
#[test]
fn each_refusal_is_met() {
    let mut rng = Rng::new(148);
    for rule in Rule::ALL {
        let free = if rule == Rule::Pairs { 28 } else { 9 };
        let cards = tally(20_000, || refusal(&damaged_shelf_card(&mut rng, rule), rule).0);
        for number in (1..=8).chain([free, 10, 11, 25, 26, 30]) {
            assert!(cards[number] > 40, "{rule:?}, refusal {number}: {cards:?}");
        }
        let records = tally(20_000, || fault(&any_shelf(&mut rng, rule), rule));
        for number in [0, 3, 4, 5, 6, 7, 8, free, 10, 25, 26, 30] {
            assert!(records[number] > 40, "{rule:?}, refusal {number}: {records:?}");
        }
    }
}
