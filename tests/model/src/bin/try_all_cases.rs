//! Runs a program of the second planner on many cards, for one showing and as loops, and compares what
//! it prints with the model. The program reads a case from each line: a name, a colon, `c` or as a loop
//! `C`, and the card's bytes in hexadecimal. It prints the name, the refusal if there is one, worst2 and
//! how many layings have it.
//!
//! Arguments: path of the program, seed, count of random runs. All small cards are always run before the
//! random ones. Exit status 0 only if all passed.

use film_disk_model::programs::{is_equal, Comparison, Given, Written};
use film_disk_model::rng::figures::{small_figures, tight_figures};
use film_disk_model::rng::shelf::cards::any_shelf_card;
use film_disk_model::rng::shelf::small_shelf_of;
use film_disk_model::shelf::{card_bytes, one_film_card, try_card, Rule};
use film_disk_model::try_all::{small_cards, MOST_BLOCKS};
use film_disk_model::{Refusal, Rng, Showing};
use std::process::ExitCode;

/// Cases of a run, so that its text stays short.
const CASES: usize = 10;
const SMALL_CASES: usize = 400;
/// The longest card of a case.
const MOST_BYTES: usize = 500;

/// A card, and how its film is shown.
type Case = (Vec<u8>, Showing);

fn line(number: usize, (card, showing): &Case) -> String {
    let letter = if *showing == Showing::Once { 'c' } else { 'C' };
    let bytes: String = card.iter().map(|byte| format!("{byte:02x}")).collect();
    format!("case {number}: {letter} {bytes}\n")
}

fn run_of(cases: &[Case]) -> Given {
    let lines = cases.iter().enumerate().map(|(number, case)| line(number, case));
    Given::new(&[], lines.collect::<String>().into_bytes())
}

/// Every small card, once and as a loop.
fn first_runs(_: &mut Rng) -> Vec<Given> {
    let cards: Vec<Vec<u8>> = small_cards().iter().map(one_film_card).collect();
    let cases: Vec<Case> =
        cards.iter().flat_map(|card| Showing::ALL.map(|how| (card.clone(), how))).collect();
    cases.chunks(SMALL_CASES).map(run_of).collect()
}

/// Any card, or one of a film of up to 8 blocks, or of 9, or of two or three short films.
fn random_card(rng: &mut Rng, showing: Showing) -> Vec<u8> {
    loop {
        let card = match rng.below(7) {
            0 => any_shelf_card(rng, Rule::Once),
            1 => one_film_card(&tight_figures(rng, showing, MOST_BLOCKS + 1)),
            2 => {
                let films = rng.pick(&[2, 3]);
                card_bytes(&small_shelf_of(rng, Rule::Once, films, 2))
            }
            _ => one_film_card(&small_figures(rng, MOST_BLOCKS)),
        };
        if card.len() <= MOST_BYTES {
            return card;
        }
    }
}

fn random_run(rng: &mut Rng) -> Given {
    let mut cases = Vec::new();
    for _ in 0..CASES {
        let showing = rng.pick(&Showing::ALL);
        cases.push((random_card(rng, showing), showing));
    }
    run_of(&cases)
}

/// What the program prints for a line.
fn answer(line: &str) -> String {
    let (name, case) = line.split_once(": ").expect("a name and a case");
    let (letter, bytes) = case.split_once(' ').expect("a letter and a card");
    let digits = |at: usize| u8::from_str_radix(&bytes[at..at + 2], 16).expect("a byte");
    let card: Vec<u8> = (0..bytes.len()).step_by(2).map(digits).collect();
    let showing = if letter == "c" { Showing::Once } else { Showing::Loop };
    match try_card(&card, showing) {
        Ok(tried) => format!("{name}: {} {}\n", tried.worst2, tried.count),
        Err(Refusal { number, place }) => format!("{name}: refused {number} at {place} 0 0\n"),
    }
}

fn expected(given: &Given) -> Written {
    let text = String::from_utf8_lossy(&given.input);
    (text.lines().map(answer).collect::<String>().into_bytes(), String::new())
}

/// The first case that differs.
fn report(given: &Given, expected: &Written, got: &Written) {
    let text = String::from_utf8_lossy(&given.input);
    let (wanted, got_text) =
        (String::from_utf8_lossy(&expected.0), String::from_utf8_lossy(&got.0));
    let mut answers = got_text.lines();
    for (case, wanted) in text.lines().zip(wanted.lines()) {
        let answer = answers.next().unwrap_or("nothing");
        if answer != wanted {
            println!("input {case}\nexpected {wanted}\ngot {answer}");
            break;
        }
    }
    println!("got on standard error, where nothing is expected:\n{}", got.1);
}

fn main() -> ExitCode {
    let comparison = Comparison {
        program: "try_all",
        first: first_runs,
        random: random_run,
        expected,
        is_same: is_equal,
        report,
    };
    comparison.main()
}
