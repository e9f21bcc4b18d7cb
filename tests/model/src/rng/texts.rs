//! Texts of figures: legal ones in every layout, and damaged ones.

use super::figures::set_to_third;
use super::shelf::{alter_shelf, legal_shelf, set_shelf_to_limit, small_shelf};
use super::Rng;
use crate::bench::bench_film;
use crate::card::MAX_ZONES;
use crate::shelf::card::card_numbers;
use crate::shelf::{Figures, Rule};

fn words_of(figures: &Figures) -> Vec<String> {
    card_numbers(figures).iter().map(u32::to_string).collect()
}

fn space(rng: &mut Rng) -> &'static str {
    rng.pick(&[
        " ",
        " ",
        "  ",
        "\t",
        " \t ",
        "\r",
        "\n",
        "\r\n",
        "\n\n",
        " # 7 comment # 8\n",
        "#\n",
    ])
}

/// The words with something between them, before and after.
fn laid_out(rng: &mut Rng, words: &[String]) -> Vec<u8> {
    let plain = rng.once_in(4);
    let mut text = String::new();
    if rng.once_in(3) {
        text.push_str(rng.pick(&["# a film\n", " ", "\n\n", "\t\r\n", "#1 2 3\n"]));
    }
    for (index, word) in words.iter().enumerate() {
        if index > 0 {
            text.push_str(if plain { "\n" } else { space(rng) });
        }
        text.push_str(word);
    }
    text.push_str(rng.pick(&["", "\n", "\n", "\r\n", " ", "\n\n\n", "#", "# the end", "#\n"]));
    text.into_bytes()
}

/// A word that is no number of 32 bits.
fn bad_word(rng: &mut Rng) -> String {
    rng.pick(&[
        "4294967296",
        "4294967297",
        "9999999999",
        "18446744073709551616",
        "42949672950",
        "x",
        "-1",
        "+1",
        "1.5",
        "1,000",
        "0x10",
        "1e3",
        "12a",
        "a12",
        "1_000",
        "\u{b5}s",
        "\u{0}",
        "1\u{b}2",
        "99999999999999999999999999999999999999999999999999",
    ])
    .to_string()
}

/// A number written with zeros in front, up to many of them.
fn with_zeros(rng: &mut Rng, word: &str) -> String {
    format!("{}{word}", "0".repeat(rng.pick(&[1, 2, 10, 30])))
}

fn damage(rng: &mut Rng, mut words: Vec<String>) -> Vec<String> {
    let place = rng.below(words.len());
    match rng.below(8) {
        0 => words.truncate(place),
        1 | 2 => words[place] = bad_word(rng),
        3 => words.push(if rng.once_in(2) { bad_word(rng) } else { rng.any().to_string() }),
        4 => words[place] = rng.any().to_string(),
        5 => words[place] = "0".to_string(),
        6 => words.insert(place, rng.any().to_string()),
        _ => words[place] = with_zeros(rng, &words[place].clone()),
    }
    words
}

/// Many words, more than any card has.
fn many_words(rng: &mut Rng) -> Vec<u8> {
    let mut words = vec!["1".to_string(), MAX_ZONES.to_string()];
    for _ in 0..MAX_ZONES {
        words.extend(["3".to_string(), "700".to_string()]);
    }
    words.extend(["2", "30", "40", "262144", "500000", "12670", "15000"].map(str::to_string));
    for _ in 0..rng.pick(&[0, 1, 2, 1000]) {
        words.push(if rng.once_in(5) { bad_word(rng) } else { rng.any().to_string() });
    }
    laid_out(rng, &words)
}

/// Bytes of any sort, the ones that mean something often.
fn noise(rng: &mut Rng) -> Vec<u8> {
    let any = rng.bits() as u8;
    let length = rng.pick(&[0, 1, 2, 3, 10, 100]);
    (0..length)
        .map(|_| rng.pick(&[b' ', b'\n', b'\r', b'\t', b'#', b'1', b'1', b'6', b'0', any]))
        .collect()
}

/// A text of more than a reader's piece, with the figures spread over its comments.
pub fn long_text(rng: &mut Rng, words: &[String]) -> Vec<u8> {
    let mut text = Vec::new();
    for word in words {
        let length = rng.pick(&[0, 1, 4096, 40_000, 65_535]);
        text.extend(" ".repeat(rng.below(4)).bytes());
        text.extend(format!("#{}\n", "x".repeat(length)).bytes());
        text.extend(word.bytes());
        text.push(rng.pick(b"\n \t"));
    }
    text
}

/// The bench film's words.
pub fn bench_words() -> Vec<String> {
    words_of(&Figures::of(&bench_film(), &[6]))
}

/// Any text: legal or damaged.
pub fn any_text(rng: &mut Rng) -> Vec<u8> {
    let rule = Rule::Once;
    let mut figures =
        if rng.once_in(2) { legal_shelf(rng, rule) } else { small_shelf(rng, rule, 60) };
    match rng.below(11) {
        0 | 1 => laid_out(rng, &words_of(&figures)),
        2 => {
            set_shelf_to_limit(rng, &mut figures);
            laid_out(rng, &words_of(&figures))
        }
        3 => {
            alter_shelf(rng, &mut figures);
            let words = damage(rng, words_of(&figures));
            laid_out(rng, &words)
        }
        4..=7 => {
            let words = damage(rng, words_of(&figures));
            laid_out(rng, &words)
        }
        8 => many_words(rng),
        9 => {
            let mut disk = figures.of_one(0);
            set_to_third(rng, &mut disk);
            laid_out(rng, &words_of(&figures.on(&disk)))
        }
        _ => noise(rng),
    }
}
