//! The card of a text.

use film_disk_model::bench::{bench_film, bench_shelf};
use film_disk_model::shelf::{card_bytes, one_film_card};
use film_disk_model::{card_of_text, TextRefusal};

const BENCH: &str =
    "1 6\n1 22270\n1 20550\n1 19090\n1 17810\n1 16700\n1 15720\n1 6 262144 500000\n12670 15000\n";

fn refused(text: &str) -> (u32, usize) {
    let TextRefusal { number, line } = card_of_text(text.as_bytes()).unwrap_err();
    (number, line)
}

#[test]
fn bench_text_is_its_card() {
    assert_eq!(card_of_text(BENCH.as_bytes()), Ok(one_film_card(&bench_film())));
    let windows = BENCH.replace('\n', "\r\n").replace("1 6\r", "# bench\r\n0001\t6 # zones\r");
    assert_eq!(card_of_text(windows.as_bytes()), Ok(one_film_card(&bench_film())));
}

#[test]
fn first_fault_and_its_line() {
    assert_eq!(refused(""), (1, 1));
    assert_eq!(refused("1 6\n"), (1, 2));
    assert_eq!(refused("\nx"), (2, 2));
    assert_eq!(refused("3\nx"), (3, 1));
    assert_eq!(refused("2\nx"), (2, 2));
    assert_eq!(refused("1\n65 x"), (4, 2));
    assert_eq!(refused(&BENCH.replace("20550", "0")), (6, 3));
    assert_eq!(refused(&BENCH.replace("1 6 262144", "1\n7\n262144")), (9, 9));
    assert_eq!(refused(&BENCH.replace("262144", "4294967296")), (2, 8));
    assert_eq!(refused(&format!("{BENCH}\n#\n x")), (11, 12));
}

/// The number of films, then each N, with its line in a refusal.
#[test]
fn texts_of_shelves() {
    let text = |films: &str| BENCH.replace("1 6 262144", &format!("{films}\n262144"));
    let shelf = card_bytes(&bench_shelf(1, &[2, 4]));
    assert_eq!(card_of_text(text("2\n2\n4").as_bytes()), Ok(shelf));
    for (films, number, line) in [
        ("0", 30, 8),
        ("17", 30, 8),
        ("2\n2\n5", 9, 10),
        ("2\n2\n1", 8, 10),
        ("2\n2\n16383", 30, 10),
        ("2\n2\n16382", 9, 10),
        ("2\n2\n16385", 8, 10),
        ("2\n2\nx", 2, 10),
        ("1\n2\n4", 11, 12),
    ] {
        assert_eq!(refused(&text(films)), (number, line), "{films}");
    }
    let words = text("17");
    let (card, message) = film_disk_model::mkcard(words.as_bytes());
    assert!(card.is_empty());
    let expected =
        "mkcard: refused 30 at line 8: films out of range, or blocks of all films above 16,384\n";
    assert_eq!(message, expected);
}

/// The bench film of kind 2, an entry of its table a line.
fn measured_bench(change: impl Fn(usize) -> Option<&'static str>) -> String {
    let lines: Vec<&str> = BENCH.lines().collect();
    let mut text = lines[..8].join("\n").replacen('1', "2", 1);
    for (count, overhead) in bench_film().table.iter().enumerate() {
        let word = change(count).map_or_else(|| overhead.to_string(), str::to_string);
        text.push_str(&format!("\n{word}"));
    }
    text
}

#[test]
fn texts_of_kind_two() {
    let right = measured_bench(|_| None);
    let figures = bench_film().with_table(bench_film().table);
    assert_eq!(card_of_text(right.as_bytes()), Ok(one_film_card(&figures)));
    for count in [0, 1, 100, 256] {
        let changed = |word| refused(&measured_bench(|at| (at == count).then_some(word)));
        assert_eq!(changed("0"), (25, 9 + count));
        assert_eq!(changed("257000001"), (25, 9 + count));
        assert_eq!(changed("x"), (2, 9 + count));
        assert_eq!(changed("4294967296"), (2, 9 + count));
        // Below the one before, but for the first.
        let below = measured_bench(|at| (at == count).then_some("14999"));
        match count {
            0 => assert!(card_of_text(below.as_bytes()).is_ok()),
            _ => assert_eq!(refused(&below), (25, 9 + count)),
        }
    }
    assert_eq!(refused(&format!("{right} 1")), (11, 9 + 256));
    let lines: Vec<&str> = right.lines().collect();
    assert_eq!(refused(&lines[..lines.len() - 1].join("\n")), (1, 9 + 255));
}
