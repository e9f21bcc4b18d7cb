//! The card of a text of decimal figures, as the `mkcard` program makes it.

use crate::card::number_bytes;
use crate::refusal::cause;
use crate::shelf::{read_card, Rule};

/// A word of the text with its line; no value where it is no decimal number of 32 bits.
struct Word {
    value: Option<u32>,
    line: usize,
}

/// A text turned down: the refusal's number and the line.
#[derive(Clone, Copy, Debug, PartialEq, Eq)]
pub struct TextRefusal {
    pub number: u32,
    pub line: usize,
}

/// The value of a decimal number, leading zeros allowed.
fn decimal(word: &[u8]) -> Option<u32> {
    if !word.iter().all(u8::is_ascii_digit) {
        return None;
    }
    let digits = std::str::from_utf8(word).ok()?.trim_start_matches('0');
    if digits.is_empty() {
        return Some(0);
    }
    digits.parse().ok()
}

/// The words of all lines, each line up to its `#`.
fn words(text: &[u8]) -> Vec<Word> {
    let mut words = Vec::new();
    for (index, line) in text.split(|&byte| byte == b'\n').enumerate() {
        let figures = line.split(|&byte| byte == b'#').next().unwrap_or(&[]);
        for word in figures.split(|byte| matches!(byte, b' ' | b'\t' | b'\r')) {
            if !word.is_empty() {
                words.push(Word { value: decimal(word), line: index + 1 });
            }
        }
    }
    words
}

/// The line where the text ends.
fn last_line(text: &[u8]) -> usize {
    1 + text.iter().filter(|&&byte| byte == b'\n').count()
}

/// The card of a text. Its numbers are read up to the first word that is none: that word is 2 if
/// the card needs a number there, 11 if the card is complete.
pub fn card_of_text(text: &[u8]) -> Result<Vec<u8>, TextRefusal> {
    let words = words(text);
    let good = words.iter().position(|word| word.value.is_none()).unwrap_or(words.len());
    let mut card = Vec::new();
    let mut starts = Vec::new();
    for word in &words[..good] {
        starts.push(card.len() as u64);
        card.extend(number_bytes(word.value.unwrap_or(0)));
    }
    let bad = words.get(good).map(|word| word.line);
    match (read_card(&card, Rule::Once), bad) {
        (Ok(_), None) => Ok(card),
        (Ok(_), Some(line)) => Err(TextRefusal { number: cause::LEFT_OVER, line }),
        (Err(refusal), bad) if refusal.number == cause::ENDS_EARLY => Err(match bad {
            Some(line) => TextRefusal { number: cause::BAD_NUMBER, line },
            None => TextRefusal { number: cause::ENDS_EARLY, line: last_line(text) },
        }),
        (Err(refusal), _) => {
            let index = starts.iter().position(|&start| start == refusal.place);
            let line = words[index.expect("a refused number starts at a word")].line;
            Err(TextRefusal { number: refusal.number, line })
        }
    }
}

/// The meaning of a number, in the words of a text.
fn meaning(number: u32) -> &'static str {
    match number {
        1 => "text ends too early",
        2 => "not a decimal number, or above 4,294,967,295",
        3 => "kind not 1 or 2",
        4 => "zones out of range",
        5 => "zone without positions, or total so far too great",
        6 => "zone time out of range",
        7 => "zone time above the one before",
        8 => "film blocks out of range",
        9 => "film blocks above positions",
        10 => "block bytes, rate, hop or return out of range",
        cause::OVERHEAD => "overhead out of range, or below the one before",
        cause::HALF_DEAD => "zone time, times three, below the first zone's time",
        cause::SHELF => "films out of range, or blocks of all films above 16,384",
        _ => "numbers left over",
    }
}

/// What the program writes: to standard output, and to standard error.
pub fn mkcard(text: &[u8]) -> (Vec<u8>, String) {
    match card_of_text(text) {
        Ok(card) => (card, String::new()),
        Err(TextRefusal { number, line }) => {
            (Vec::new(), format!("mkcard: refused {number} at line {line}: {}\n", meaning(number)))
        }
    }
}
