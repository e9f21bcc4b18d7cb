//! The listing program's text for the card of a shelf, for one showing, for loops and for pairs.

use crate::plan::time_at;
use crate::refusal::Refusal;
use crate::shelf::{plan_card, Figures, Planned, Rule};
use std::fmt::Write;

/// What the program says of any argument but `loop` and `pairs`.
pub const USAGE: &str = "usage: listing [loop|pairs]\n";

/// Where each film begins, a line for each; nothing for one film.
fn film_lines(figures: &Figures) -> String {
    let films = figures.lengths().len();
    let line = |film| format!("film {film} at {}\n", figures.start(film));
    match films {
        1 => String::new(),
        _ => (0..films).map(line).collect(),
    }
}

/// Five named figures, of several films where each begins, a header, then block, position, time and
/// lead of each block of all films, the blocks counted as the lists do. Of pairs a block has two
/// positions, and its time is that of both halves.
pub fn plan_text(planned: &Planned) -> String {
    let plan = &planned.plan;
    let mut text = String::new();
    for (name, figure) in [
        ("streams", plan.streams),
        ("buffer", plan.buffer),
        ("worst2", plan.worst2),
        ("worstat", plan.worstat),
        ("margin", plan.margin),
    ] {
        writeln!(text, "{name} {figure}").unwrap();
    }
    text.push_str(&film_lines(&plan.figures));
    let visits = Rule::of(plan.showing).expect("the word of a plan").visits();
    let disk = plan.figures.of_one(0);
    writeln!(text, "block{} time lead", " position".repeat(visits)).unwrap();
    let blocks = planned.positions.chunks(visits);
    for (block, (positions, lead)) in blocks.zip(&planned.leads).enumerate() {
        let time: u32 = positions.iter().map(|&at| time_at(&disk, at)).sum();
        let positions: String = positions.iter().map(|at| format!(" {at}")).collect();
        writeln!(text, "{block}{positions} {time} {lead}").unwrap();
    }
    text
}

/// One line, number then offset.
pub fn refusal_text(refusal: Refusal) -> String {
    format!("refused {} at {}\n", refusal.number, refusal.place)
}

/// What the listing program prints for its input, its lists being long enough.
fn listing_for(card: &[u8], rule: Rule) -> String {
    match plan_card(card, rule, usize::MAX, usize::MAX) {
        Ok(planned) => plan_text(&planned),
        Err(refusal) => refusal_text(refusal),
    }
}

/// What it prints of films shown once.
pub fn listing(card: &[u8]) -> String {
    listing_for(card, Rule::Once)
}

/// The same of loops.
pub fn loop_listing(card: &[u8]) -> String {
    listing_for(card, Rule::Loop)
}

/// The same of pairs.
pub fn pairs_listing(card: &[u8]) -> String {
    listing_for(card, Rule::Pairs)
}

/// What the program prints with these arguments.
pub fn listing_with(arguments: &[String], card: &[u8]) -> String {
    match arguments {
        [] => listing(card),
        [word] if word == "loop" => loop_listing(card),
        [word] if word == "pairs" => pairs_listing(card),
        _ => USAGE.to_string(),
    }
}
