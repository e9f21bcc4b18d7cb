//! Makers' zone listings: request 1 of 02.

use film_disk_model::card::straight;
use film_disk_model::maker::{figures_of_text, makercard, Beside};
use film_disk_model::rng::makers::{any_maker, bench_listing, legal_listing};
use film_disk_model::shelf::one_film_card;
use film_disk_model::*;

/// N, c, hop and return that go with small texts.
const BESIDE: Beside = Beside { blocks: 2, rate: 500_000, hop: 12_670, ret: 15_000 };

fn figures(text: &str) -> Figures {
    figures_of_text(text.as_bytes(), BESIDE).expect("an accepted text")
}

fn refused_with(text: &str, beside: Beside) -> (u32, usize) {
    let TextRefusal { number, line } = figures_of_text(text.as_bytes(), beside).unwrap_err();
    (number, line)
}

fn refused(text: &str) -> (u32, usize) {
    refused_with(text, BESIDE)
}

/// Positions and times of the zones, innermost first.
fn zones(figures: &Figures) -> Vec<(u32, u32)> {
    let zones = 0..figures.zones as usize;
    zones.map(|zone| (figures.positions[zone], figures.times[zone])).collect()
}

// Figures.

/// 20 heads, 600 cylinders of 256 sectors: 3,072,000 sectors, 1500 blocks of 2048. A block turns by
/// for 66,666.7 microseconds and is on 9 tracks: 8 switches of 900. The inner zone is the last line.
#[test]
fn figures_of_a_drive() {
    let text = "7200 900 20 2048\n0 599 256\n600 1199 141\n";
    let got = figures(text);
    assert_eq!(zones(&got), [(826, 121_041 + 13_500), (1500, 66_667 + 7200)]);
    assert_eq!((got.blocks, got.block_bytes), (2, 1_048_576));
    assert_eq!((got.kind, got.rate), (1, 500_000));
    assert_eq!(got.table, straight(12_670, 15_000));
    assert_eq!(got.positions[2..], [0; 62]);
    assert_eq!(got.times[2..], [0; 62]);
}

/// Positions are rounded down, the turning time up.
#[test]
fn roundings() {
    let rounded = |text: &str| zones(&figures(text))[0];
    // 1 head, 3 cylinders, 5 sectors a track, 2 in a block: 7.5 blocks, 12 million over 5 x 7.
    assert_eq!(rounded("7 1 1 2\n0 2 5\n"), (7, 3_428_572 + 1));
    assert_eq!(rounded("30000 1 1 1\n0 1 1\n"), (2, 2000));
    assert_eq!(rounded("29999 1 1 1\n0 1 1\n"), (2, 2001));
    assert_eq!(rounded("30000 1 1 1\n0 1 10000\n"), (20_000, 1));
}

/// Switches of a block: its sectors less one, divided by the track's, rounded up.
#[test]
fn track_switches() {
    for (sectors, switches) in [(1, 0), (2, 1), (5, 1), (6, 1), (7, 2), (11, 2), (12, 3)] {
        let text = format!("6000 1000 1 {sectors}\n0 99 5\n");
        let turning = (sectors * 60_000_000_u32).div_ceil(30_000);
        assert_eq!(zones(&figures(&text))[0].1, turning + 1000 * switches, "{sectors}");
    }
}

#[test]
fn bytes_of_a_block() {
    for (sectors, bytes) in [(1, 512), (2, 1024), (8192, 4_194_304)] {
        let text = format!("30000 1 32 {sectors}\n0 9 1000\n");
        assert_eq!(figures(&text).block_bytes, bytes);
    }
}

/// The figures are those that a card of them gives; 12 is not judged.
#[test]
fn legal_texts_are_legal_cards() {
    let mut rng = Rng::new(71);
    let (mut zone_counts, mut without_stream) = ([0; 65], 0);
    for _ in 0..2000 {
        let listing = legal_listing(&mut rng);
        let text = listing.words().text();
        let got = figures_of_text(&text, listing.beside).expect("a legal text");
        assert_eq!(read_card(&card_bytes(&got)), Ok(got.clone()));
        zone_counts[got.zones as usize] += 1;
        without_stream += plan_record(&got, 16_384, 16_384).is_err() as usize;
    }
    assert!(zone_counts[1] > 50 && zone_counts[64] > 50, "{zone_counts:?}");
    assert!(without_stream > 100, "{without_stream}");
}

// Form.

const GOOD: &str = "7200 900 20 2048\n0 599 256\n600 1199 240\n";

#[test]
fn lines_of_another_form() {
    assert!(figures_of_text(GOOD.as_bytes(), BESIDE).is_ok());
    assert_eq!(refused(""), (22, 1));
    assert_eq!(refused("\n"), (22, 1));
    assert_eq!(refused(&GOOD.replacen(' ', "  ", 1)), (22, 1));
    assert_eq!(refused(&GOOD.replacen(' ', "\t", 1)), (22, 1));
    assert_eq!(refused(&format!(" {GOOD}")), (22, 1));
    assert_eq!(refused(&GOOD.replacen('\n', " \n", 1)), (22, 1));
    assert_eq!(refused(&GOOD.replacen(" 2048", "", 1)), (22, 1));
    assert_eq!(refused(&GOOD.replacen("2048", "2048 1", 1)), (22, 1));
    assert_eq!(refused(&GOOD.replacen('\n', "\r\n", 1)), (22, 1));
    assert_eq!(refused(&GOOD.replacen('\n', "\n\n", 1)), (22, 2));
    assert_eq!(refused(&GOOD.replace("599 256", "599")), (22, 2));
    assert_eq!(refused(&GOOD.replace("240", "240 1")), (22, 3));
    assert_eq!(refused(&format!("{GOOD}\n")), (22, 4));
    assert_eq!(refused(&format!("{GOOD}# outer zones above\n")), (22, 4));
    for word in ["0256", "00", "+256", "-256", "256.", "2 56", "0x100", "", "\u{0}256", "\u{664}"] {
        assert_eq!(refused(&GOOD.replace("256", word)), (22, 2), "{word:?}");
    }
}

/// A line feed comes after each line, the last too.
#[test]
fn lines_without_their_end() {
    for (text, line) in [
        ("7200", 1),
        ("7200 900 20 2048", 1),
        ("7200 900 20 2048\n0 599 256", 2),
        ("7200 900 20 2048\n0 599 256\n6", 3),
        // A number out of range in it does not come to be judged.
        ("0 900 20 2048", 1),
        ("7200 900 20 2048\n1 599 256", 2),
    ] {
        assert_eq!(refused(text), (22, line), "{text:?}");
    }
}

/// Numbers too long for any range are out of range, but not with a leading zero.
#[test]
fn long_numbers() {
    for digits in [10, 19, 20, 39, 40, 1000] {
        let long = "9".repeat(digits);
        assert_eq!(refused(&GOOD.replace("7200", &long)), (23, 1));
        assert_eq!(refused(&GOOD.replace("2048", &long)), (23, 1));
        for word in ["0 599", "599", "256"] {
            let row = word.replace("599", &long).replace("256", &long);
            assert_eq!(refused(&GOOD.replace(word, &row)), (24, 2));
        }
        assert_eq!(refused(&GOOD.replace("600", &long)), (24, 3));
        assert_eq!(refused(&GOOD.replace("7200", &format!("0{long}"))), (22, 1));
        assert_eq!(refused(&GOOD.replace("240", &format!("0{long}"))), (22, 3));
    }
}

// Ranges of the lines.

/// Line one from both sides of each limit.
#[test]
fn ranges_of_line_one() {
    let text = |place: usize, value: u32| {
        let mut numbers = ["7200", "900", "20", "2048"].map(str::to_string);
        numbers[place] = value.to_string();
        format!("{}\n0 999 10000\n", numbers.join(" "))
    };
    for (place, limit) in [30_000, 100_000, 32, 8192].into_iter().enumerate() {
        assert_eq!(refused(&text(place, 0)), (23, 1));
        assert_eq!(refused(&text(place, limit + 1)), (23, 1));
        for value in [1, limit] {
            let answer = figures_of_text(text(place, value).as_bytes(), BESIDE);
            assert!(!matches!(answer, Err(TextRefusal { number: 23, .. })), "{place} {value}");
        }
    }
}

/// Rows from both sides of each limit, with gaps, and backwards.
#[test]
fn ranges_of_rows() {
    let rows = |rows: &str| format!("7200 1 1 2\n{rows}");
    for (text, line) in [
        ("1 599 256\n", 2),
        ("0 599 0\n", 2),
        ("0 599 10001\n", 2),
        ("0 1000000 1\n", 2),
        ("0 599 256\n599 900 256\n", 3),
        ("0 599 256\n601 900 256\n", 3),
        ("0 599 256\n600 599 256\n", 3),
        ("0 599 256\n600 0 256\n", 3),
        ("0 599 256\n0 599 256\n", 3),
        ("0 999999 1\n1000000 1000000 1\n", 3),
    ] {
        assert_eq!(refused(&rows(text)), (24, line), "{text:?}");
    }
    for text in ["0 0 10000\n", "0 999999 1\n", "0 599 256\n600 600 256\n"] {
        assert!(figures_of_text(rows(text).as_bytes(), BESIDE).is_ok(), "{text:?}");
    }
}

// Order.

/// Lines are judged one after the other, form before range, and all of them before the zones.
#[test]
fn first_fault_counts() {
    assert_eq!(refused("0 900 20 2048\nx\n"), (23, 1));
    assert_eq!(refused("0 900 20\nx\n"), (22, 1));
    assert_eq!(refused("7200 900 20 2048\n1 599 256\nx\n"), (24, 2));
    assert_eq!(refused("7200 900 20 2048\n1 599 0256\n"), (22, 2));
    // Line 2 would be a zone without positions.
    assert_eq!(refused("7200 900 1 2048\n0 0 1\n1 1 1\nx\n"), (22, 4));
    assert_eq!(refused("7200 900 1 2048\n0 0 1\n1 1 1\n3 4 1\n"), (24, 4));
    assert_eq!(refused("7200 900 1 2048\n0 0 1\n1 1 1\n"), (5, 0));
    let many: String = (0..65).map(|row| format!("{row} {row} 256\n")).collect();
    assert_eq!(refused(&format!("7200 900 20 1\n{many}")), (4, 0));
    assert_eq!(refused(&format!("7200 900 20 1\n{many}66 66 256\n")), (24, 67));
    let most: String = (0..64).map(|row| format!("{row} {row} 256\n")).collect();
    assert_eq!(figures(&format!("7200 900 20 1\n{most}")).zones, 64);
    assert_eq!(refused("7200 900 20 2048\n"), (4, 0));
}

/// 4 to 7 and 26 of the zones from the innermost on, the last line first.
#[test]
fn zones_that_the_judge_refuses() {
    // The innermost zone has no position, the outer one is slow.
    assert_eq!(refused("1 900 20 2048\n0 599 256\n600 600 1\n"), (5, 0));
    assert_eq!(refused("1 900 20 2048\n0 600 256\n"), (6, 0));
    assert_eq!(refused("7200 1 32 1\n0 32768 1\n"), (5, 0));
    assert_eq!(figures("7200 1 32 1\n0 32767 1\n").total_positions(), 1_048_576);
    // Inner tracks that hold more make the inner zone the faster one.
    assert_eq!(refused("7200 900 20 2048\n0 599 240\n600 1199 256\n"), (7, 0));
    // With a third of the outer track's sectors an inner block takes three times as long.
    assert_eq!(figures("6000 1 1 1\n0 0 9\n1 1 3\n").times[..2], [3334, 1112]);
    assert_eq!(refused("6000 1 1 1\n0 0 9\n1 1 2\n"), (26, 0));
}

#[test]
fn numbers_beside_the_text() {
    let with = |beside: Beside| {
        figures_of_text(GOOD.as_bytes(), beside).map_err(|refusal| {
            assert_eq!(refusal.line, 0);
            refusal.number
        })
    };
    let total = figures(GOOD).total_positions() as u32;
    for (blocks, expected) in
        [(0, Some(8)), (1, Some(8)), (2, None), (16_384, Some(9)), (16_385, Some(8))]
    {
        assert_eq!(with(Beside { blocks, ..BESIDE }).err(), expected);
    }
    assert_eq!(with(Beside { blocks: total, ..BESIDE }).err(), None);
    assert_eq!(with(Beside { blocks: total + 1, ..BESIDE }).err(), Some(9));
    for (value, expected) in [(0, Some(10)), (1, None), (u32::MAX, Some(10))] {
        assert_eq!(with(Beside { rate: value, ..BESIDE }).err(), expected);
        assert_eq!(with(Beside { hop: value, ..BESIDE }).err(), expected);
        assert_eq!(with(Beside { ret: value, ..BESIDE }).err(), expected);
    }
    assert_eq!(
        with(Beside { rate: 10_000_000, hop: 1_000_000, ret: 1_000_000, ..BESIDE }).err(),
        None
    );
    assert_eq!(with(Beside { rate: 10_000_001, ..BESIDE }).err(), Some(10));
    assert_eq!(with(Beside { hop: 1_000_001, ..BESIDE }).err(), Some(10));
    assert_eq!(with(Beside { ret: 1_000_001, ..BESIDE }).err(), Some(10));
    // The text goes first.
    assert_eq!(refused_with("7200\n", Beside { blocks: 0, ..BESIDE }), (22, 1));
    assert_eq!(refused_with("7200 900 20 2048\n", Beside { blocks: 0, ..BESIDE }), (4, 0));
}

// The program.

#[test]
fn what_the_program_writes() {
    let words = |words: [&str; 4]| words.map(str::to_string).to_vec();
    let right = words(["3600", "524288", "8380", "10090"]);
    let bench = bench_listing();
    let text = bench.words().text();
    let card = one_film_card(&figures_of_text(&text, bench.beside).unwrap());
    assert_eq!(makercard(&right, &text), (card, String::new()));
    let message = |arguments: &[String], text: &str| {
        let (card, message) = makercard(arguments, text.as_bytes());
        assert!(card.is_empty());
        message
    };
    assert_eq!(message(&right, "7200 900\n"), "makercard: refused 22 at line 1: ");
    assert_eq!(message(&right, "7200 900 20 2048\n"), "makercard: refused 4: ");
    for arguments in [&right[..3], &words(["", "1", "1", "1"]), &words(["2", "1", "1", "x"])] {
        assert_eq!(message(arguments, ""), "usage: makercard N c hop return\n");
    }
}

/// Every number is met often, and accepted texts are.
#[test]
fn random_texts_meet_every_number() {
    let mut rng = Rng::new(72);
    let mut met = [0; 27];
    for _ in 0..4000 {
        let (text, arguments) = any_maker(&mut rng);
        let numbers: Vec<u32> = arguments.iter().flat_map(|word| word.parse()).collect();
        if let [blocks, rate, hop, ret] = numbers[..] {
            let beside = Beside { blocks, rate, hop, ret };
            let number = figures_of_text(&text, beside).map_or_else(|one| one.number, |_| 0);
            met[number as usize] += 1;
        }
    }
    let expected = [0, 4, 5, 6, 7, 8, 9, 10, 22, 23, 24, 26];
    assert!(expected.iter().all(|&number: &usize| met[number] >= 8), "{met:?}");
    assert!(met[0] > 400, "{met:?}");
}
