//! The comparisons of listing, windows, mkcard and makercard programs, tried on the model's own ones
//! and on others.

use film_disk_model::bench::{bench_film, bench_shelf};
use film_disk_model::listing::listing_with;
use film_disk_model::shelf::{card_bytes, one_film_card, Figures};
use film_disk_model::{listing, loop_listing, pairs_listing, windows_with};
use std::process::Command;

const LISTING: &str = env!("CARGO_BIN_EXE_listing");
const LISTING_CASES: &str = env!("CARGO_BIN_EXE_listing_cases");
const WINDOWS: &str = env!("CARGO_BIN_EXE_windows");
const WINDOWS_CASES: &str = env!("CARGO_BIN_EXE_windows_cases");
const MKCARD: &str = env!("CARGO_BIN_EXE_mkcard");
const MKCARD_CASES: &str = env!("CARGO_BIN_EXE_mkcard_cases");
const MAKERCARD: &str = env!("CARGO_BIN_EXE_makercard");
const MAKER_CASES: &str = env!("CARGO_BIN_EXE_maker_cases");
const TRY_ALL_CASES: &str = env!("CARGO_BIN_EXE_try_all_cases");

/// What a comparison prints, and its exit status.
fn run(comparison: &str, arguments: &[&str]) -> (String, Option<i32>) {
    let output = Command::new(comparison).args(arguments).output().expect("the comparison runs");
    (String::from_utf8(output.stdout).unwrap(), output.status.code())
}

#[test]
fn own_listing_passes() {
    let (text, status) = run(LISTING_CASES, &[LISTING, "5", "300"]);
    assert_eq!(text, "seed 5\n512 passed, 0 failed\n");
    assert_eq!(status, Some(0));
}

#[test]
fn own_windows_pass() {
    let (text, status) = run(WINDOWS_CASES, &[WINDOWS, "5", "300"]);
    assert_eq!(text, "seed 5\n512 passed, 0 failed\n");
    assert_eq!(status, Some(0));
}

/// The listing of a loop and of pairs by its argument, and one line for any other.
#[test]
fn arguments_of_listing() {
    let bench = one_film_card(&bench_film());
    let printed = |words: &[&str]| {
        let words: Vec<String> = words.iter().map(|word| word.to_string()).collect();
        listing_with(&words, &bench)
    };
    assert_eq!(printed(&[]), listing(&bench));
    assert_eq!(printed(&["loop"]), loop_listing(&bench));
    assert!(printed(&["loop"]).starts_with("streams 15\n"));
    assert_eq!(printed(&["pairs"]), pairs_listing(&bench));
    assert!(printed(&["pairs"]).starts_with("refused 28 at "));
    for words in [["once"].as_slice(), &[""], &["loops"], &["pair"], &["loop", "pairs"]] {
        assert_eq!(printed(words), "usage: listing [loop|pairs]\n");
    }
}

#[test]
fn own_mkcard_passes() {
    let (text, status) = run(MKCARD_CASES, &[MKCARD, "5", "300"]);
    assert_eq!(text, "seed 5\n408 passed, 0 failed\n");
    assert_eq!(status, Some(0));
}

#[test]
fn own_makercard_passes() {
    let (text, status) = run(MAKER_CASES, &[MAKERCARD, "5", "300"]);
    assert_eq!(text, "seed 5\n349 passed, 0 failed\n");
    assert_eq!(status, Some(0));
}

/// Mkcard takes no maker's text, and says so by another name.
#[test]
fn mkcard_is_no_makercard() {
    let (text, status) = run(MAKER_CASES, &[MKCARD, "5", "3"]);
    assert!(
        text.contains("got [] \"mkcard: refused 3 at line 1: kind not 1 or 2\\n\"\n"),
        "{text}"
    );
    assert!(text.ends_with("\n0 passed, 52 failed\n"), "{text}");
    assert_eq!(status, Some(1));
}

/// Without arguments the comparison itself prints nothing on standard output.
#[test]
fn silent_program_fails() {
    let (text, status) = run(LISTING_CASES, &[LISTING_CASES, "5", "3"]);
    assert!(text.starts_with("seed 5\narguments [], input 01 06 01 FE AD 01 "), "{text}");
    assert!(text.contains("line 1: expected \"streams 16\\n\", got nothing\n"), "{text}");
    assert!(text.contains("usage: listing_cases LISTING SEED COUNT\n"), "{text}");
    assert!(text.ends_with("\n0 passed, 215 failed\n"), "{text}");
    assert_eq!(status, Some(1));
}

/// The listing program is no mkcard.
#[test]
fn other_program_fails() {
    let (text, status) = run(MKCARD_CASES, &[LISTING, "5", "3"]);
    assert!(text.contains("input \"1 6 1 22270 "), "{text}");
    assert!(text.ends_with("\n0 passed, 111 failed\n"), "{text}");
    assert_eq!(status, Some(1));
}

/// The listing program prints no windows: only what it says of refused cards is the same.
#[test]
fn listing_is_no_windows() {
    let (text, status) = run(WINDOWS_CASES, &[LISTING, "5", "0"]);
    assert!(
        text.contains(
            "line 1: expected \"blocks time first bytes rate\\n\", got \"streams 16\\n\"\n"
        ),
        "{text}"
    );
    assert!(text.ends_with("\n88 passed, 124 failed\n"), "{text}");
    assert_eq!(status, Some(1));
}

/// The listing program takes the cases of a second planner for a bad card.
#[test]
fn listing_is_no_second_planner() {
    let (text, status) = run(TRY_ALL_CASES, &[LISTING, "5", "2"]);
    assert!(text.contains("input case 0: c 010102010102e807e8070101\n"), "{text}");
    assert!(text.contains("expected case 0: 2 2\ngot refused 3 at 0\n"), "{text}");
    assert!(text.ends_with("\n0 passed, 10 failed\n"), "{text}");
    assert_eq!(status, Some(1));
}

#[test]
fn bad_arguments() {
    for comparison in [LISTING_CASES, WINDOWS_CASES, MKCARD_CASES, MAKER_CASES, TRY_ALL_CASES] {
        assert_eq!(run(comparison, &[LISTING, "5"]).1, Some(2));
        assert_eq!(run(comparison, &[LISTING, "5", "1", "1"]).1, Some(2));
        assert_eq!(run(comparison, &["no such program", "5", "1"]).1, Some(2));
    }
}

/// What either program prints of a card with these words.
fn printed_both(figures: &Figures, words: &[&str]) -> [String; 2] {
    let words: Vec<String> = words.iter().map(|word| word.to_string()).collect();
    let card = card_bytes(figures);
    [listing_with(&words, &card), windows_with(&words, &card)]
}

/// Films of 3, 2 and 5 blocks: blocks, worstat and the windows' places are counted through the films.
/// A line before the header says where each begins.
#[test]
fn texts_of_a_shelf() {
    let shelf = bench_shelf(2, &[3, 2, 5]);
    let start = "streams 15\nbuffer 791907\nworst2 39640\nworstat 7\nmargin 1460\n\
        film 0 at 0\nfilm 1 at 3\nfilm 2 at 5\nblock position time lead\n0 9 16700 0\n1 11 15720 0\n2 10 15720 0\n3 7 17810 0\n\
        4 8 16700 0\n5 2 20550 1460\n6 6 17810 0\n7 3 20550 1460\n";
    let [once, windows] = printed_both(&shelf, &[]);
    assert_eq!(once, format!("{start}8 5 19090 0\n9 4 19090 0\n"));
    let longest = "5 97090 5 1310720 13500051\n";
    let first = "blocks time first bytes rate\n1 20550 5 262144 12756399\n\
        2 39640 7 524288 13226236\n3 58910 5 786432 13349719\n";
    assert_eq!(windows, format!("{first}4 78000 5 1048576 13443282\n{longest}"));
    let [looped, windows] = printed_both(&shelf, &["loop"]);
    assert_eq!(looped, format!("{start}8 4 19090 0\n9 5 19090 0\n"));
    assert_eq!(windows, format!("{first}4 79280 7 1048576 13226236\n{longest}"));
    // The third film is above the positions still free: 12 less 2 × 5.
    let refused = "refused 28 at 28\n".to_string();
    assert_eq!(printed_both(&shelf, &["pairs"]), [refused.clone(), refused]);
    let [halves, windows] = printed_both(&bench_shelf(2, &[2, 2, 2]), &["pairs"]);
    assert_eq!(
        halves,
        "streams 7\nbuffer 786432\nworst2 85640\nworstat 4\nmargin 0\n\
        film 0 at 0\nfilm 1 at 2\nfilm 2 at 4\nblock position position time lead\n0 8 11 32420 0\n1 9 10 32420 0\n2 4 7 36900 0\n\
        3 5 6 36900 0\n4 0 3 42820 0\n5 1 2 42820 0\n"
    );
    assert_eq!(
        windows,
        "blocks time first bytes rate\n1 42820 4 262144 6121999\n2 85640 4 524288 6121999\n"
    );
}
