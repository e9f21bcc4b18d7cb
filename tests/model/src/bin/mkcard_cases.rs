//! Runs an mkcard program on many texts and compares what it writes with the model, byte by byte.
//!
//! Arguments: path of the mkcard program, seed, count of random texts. The fixed texts and some
//! long ones are always run before the random ones. Exit status 0 only if all passed.

use film_disk_model::bench::{bench_film, bench_shelf};
use film_disk_model::mkcard;
use film_disk_model::programs::{is_equal, Comparison, Given, Written};
use film_disk_model::rng::texts::{any_text, bench_words, long_text};
use film_disk_model::shelf::card::card_numbers;
use film_disk_model::shelf::Figures;
use film_disk_model::Rng;
use std::process::ExitCode;

/// Short texts at the edges of the form.
const SHORT_TEXTS: [&str; 44] = [
    "",
    "\n",
    "#",
    "# 1 6\n",
    " \t\r",
    "1",
    "1\n",
    "01 6",
    "2",
    "3",
    "3 x",
    "2 1 2 9 1 2 1 1 0",
    "2 1 2 9 1 2 1 1 5\n4",
    "1 1 8 9 0\nx",
    "1 1 8 9\n17 x",
    "1 1 8 9\n16 x",
    "1 1 8 9 x",
    "1 1 8 9 2\n4\n5 x",
    "1 1 8 9 2\n4\n4\nx",
    "1 1 8 9 2\n4\n1\nx",
    "1 1 8 9 2\n9\n1\nx",
    "1 1 8 9 2\n4\n16381\nx",
    "1 1 8 9 2\n4\n16380\nx",
    "1 1 8 9 2 4 4 1 1 1 1",
    "1 1 8 9 2 4 4 1 1 1 1 1",
    "1 1 8 9 3 4 2 2 1 1 1 1",
    "1 1 8 9 1 4 4 1 1 1 1",
    "0",
    "x",
    "1 x",
    "2 x",
    "1 65 x",
    "1 6#1 22270",
    "1 6\n1 0",
    "1 6\n1\n0\n",
    "1 6 0\n1",
    "1 6 1 x",
    "1 6 1 22270 1\n3",
    "1 6 1 22270\n1 7423 x",
    "1 6 1 22269\n1 7423 x",
    "1 6 1 22268\n1 7423 x",
    "1 4294967295",
    "1 4294967296",
    "\u{feff}1 6",
];

/// A shelf of three films and one of 16, a number a line.
fn shelf_texts() -> Vec<String> {
    let shelves = [bench_shelf(2, &[3, 2, 5]), bench_shelf(3000, &[1024; 16])];
    let words = |figures: &Figures| card_numbers(figures).iter().map(u32::to_string).collect();
    shelves
        .iter()
        .map(|figures| words(figures))
        .map(|words: Vec<String>| words.join("\n"))
        .collect()
}

/// The bench film of kind 2, whole, with a word too many, and cut off.
fn measured_texts() -> Vec<String> {
    let figures = Figures::of(&bench_film().with_table(bench_film().table), &[6]);
    let words: Vec<String> = card_numbers(&figures).iter().map(u32::to_string).collect();
    let rows: Vec<String> = words.chunks(10).map(|row| row.join(" ")).collect();
    vec![
        words.join("\n"),
        rows.join("\n"),
        format!("{}\n1", rows.join("  # ten\n")),
        words[..words.len() - 1].join(" "),
    ]
}

/// The bench film in several layouts, and with a word too many.
fn bench_texts() -> Vec<String> {
    let bench = bench_words();
    vec![
        bench.join(" "),
        bench.join("\n"),
        bench.join("\r\n") + "\r\n",
        bench.join("\t# a comment\n"),
        format!("{}#", bench.join("\n#\n")),
        format!("{} 1", bench.join(" ")),
        format!("{}\nx\n", bench.join(" ")),
        bench.join(","),
    ]
}

/// Texts with spaces or a word of so many bytes.
fn texts_of_length(length: usize) -> [String; 5] {
    let bench = bench_words().join(" ");
    let spaces = " ".repeat(length);
    [
        format!("{spaces}{bench}"),
        format!("1 6{spaces}"),
        format!("{bench}{spaces}7"),
        "0".repeat(length),
        "7".repeat(length),
    ]
}

/// The texts that are always run.
fn first_texts(rng: &mut Rng) -> Vec<Given> {
    let mut texts = bench_texts();
    texts.extend(measured_texts());
    texts.extend(shelf_texts());
    texts.extend(SHORT_TEXTS.map(String::from));
    for length in [65_534, 65_535, 65_536, 65_537, 131_072, 1_000_000] {
        texts.extend(texts_of_length(length));
    }
    let mut texts: Vec<Vec<u8>> = texts.into_iter().map(String::into_bytes).collect();
    texts.extend((0..20).map(|_| long_text(rng, &bench_words())));
    texts.into_iter().map(|text| Given::new(&[], text)).collect()
}

fn report(given: &Given, expected: &Written, got: &Written) {
    let text = &given.input;
    println!("input {:?}", String::from_utf8_lossy(&text[..text.len().min(2000)]));
    println!("expected {:02X?} {:?}", expected.0, expected.1);
    println!("got {:02X?} {:?}", got.0, got.1);
}

fn main() -> ExitCode {
    let comparison = Comparison {
        program: "mkcard",
        first: first_texts,
        random: |rng| Given::new(&[], any_text(rng)),
        expected: |given| mkcard(&given.input),
        is_same: is_equal,
        report,
    };
    comparison.main()
}
