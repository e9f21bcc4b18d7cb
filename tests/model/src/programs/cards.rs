//! What the comparisons of listing and windows share: programs that read a card, and take the
//! argument `loop` or `pairs` or none. The fixed cards of the bench are always run before the random ones, and
//! arguments that the program does not know.

use super::{Given, Written};
use crate::bench::{bench_film, fixed_cards, fixed_pairs_cards, fixed_shelf_cards};
use crate::rng::shelf::cards::any_shelf_card;
use crate::rng::Rng;
use crate::shelf::{one_film_card, Rule};

/// The arguments of one showing, of a loop and of pairs.
const SHOWINGS: [&[&str]; 3] = [&[], &["loop"], &["pairs"]];

/// Single arguments that the program does not know.
const OTHERS: [&str; 13] = [
    "", "once", "Loop", "loo", "loops", " loop", "loop\n", "-loop", "Pairs", "pair", "pairss",
    "pairs ", "pars",
];

/// The fixed cards for all showings; the bench film and an empty card with other arguments.
pub fn first_runs(_: &mut Rng) -> Vec<Given> {
    let mut runs = Vec::new();
    for card in [fixed_cards(), fixed_pairs_cards(), fixed_shelf_cards()].concat() {
        runs.extend(SHOWINGS.map(|words| Given::new(words, card.clone())));
    }
    for card in [one_film_card(&bench_film()), Vec::new()] {
        runs.extend(OTHERS.map(|word| Given::new(&[word], card.clone())));
    }
    runs
}

/// Any card of a shelf, at times one made for another showing.
pub fn random_run(rng: &mut Rng) -> Given {
    let words = rng.pick(&SHOWINGS);
    let rule = match words {
        _ if rng.once_in(8) => rng.pick(&Rule::ALL),
        ["loop"] => Rule::Loop,
        ["pairs"] => Rule::Pairs,
        _ => Rule::Once,
    };
    Given::new(words, any_shelf_card(rng, rule))
}

fn hex(bytes: &[u8]) -> String {
    bytes.iter().map(|byte| format!("{byte:02X}")).collect::<Vec<_>>().join(" ")
}

/// The first line that differs, counted from 1, with what each side has there.
fn first_difference(expected: &[u8], got: &[u8]) -> String {
    let expected: Vec<&[u8]> = expected.split_inclusive(|&byte| byte == b'\n').collect();
    let got: Vec<&[u8]> = got.split_inclusive(|&byte| byte == b'\n').collect();
    let mut line = 0;
    while line < expected.len() && line < got.len() && expected[line] == got[line] {
        line += 1;
    }
    let show = |lines: &[&[u8]]| match lines.get(line) {
        Some(bytes) => format!("{:?}", String::from_utf8_lossy(bytes)),
        None => "nothing".to_string(),
    };
    format!("line {}: expected {}, got {}", line + 1, show(&expected), show(&got))
}

pub fn report(given: &Given, expected: &Written, got: &Written) {
    println!("arguments {:?}, input {}", given.arguments, hex(&given.input));
    println!("{}", first_difference(&expected.0, &got.0));
    println!("expected:\n{}", String::from_utf8_lossy(&expected.0));
    println!("got:\n{}", String::from_utf8_lossy(&got.0));
    println!("got on standard error, where nothing is expected:\n{}", got.1);
}
