//! Runs a makercard program on many makers' texts and compares what it writes with the model: the
//! card byte by byte, a refusal's number and line. The words of the cause are the program's own.
//!
//! Arguments: path of the makercard program, seed, count of random texts. The fixed texts are always
//! run before the random ones. Exit status 0 only if all passed.

use film_disk_model::maker::makercard;
use film_disk_model::programs::{Comparison, Given, Written};
use film_disk_model::rng::makers::{any_maker, bench_listing, Listing};
use film_disk_model::Rng;
use std::process::ExitCode;

/// Arguments of the right form.
const BESIDE: [&str; 4] = ["3600", "524288", "8380", "10090"];

/// Arguments of another count or form.
const OTHERS: [&[&str]; 9] = [
    &[],
    &["3600"],
    &["3600", "524288", "8380"],
    &["3600", "524288", "8380", "10090", "1"],
    &["", "", "", ""],
    &["3600", "524288", "8380", "x"],
    &["-3600", "524288", "8380", "10090"],
    &["3600", "524288", "8380", "10090 "],
    &["3600 524288 8380 10090"],
];

/// Texts at the edges of the form.
const SHORT_TEXTS: [&str; 22] = [
    "",
    "\n",
    "\n\n",
    " \n",
    "7200",
    "7200 900 20 2048",
    "7200 900 20 2048\n",
    "7200 900 20 2048\n\n",
    "7200 900 20 2048\r\n",
    "7200 900 20 2048 \n",
    "7200 900 20\n",
    "7200 900 20 2048 1\n",
    "07200 900 20 2048\n",
    "0 900 20 2048\n",
    "30001 900 20 2048\n",
    "7200 900 20 2048\n0 599 256",
    "7200 900 20 2048\n0 599 256\n",
    "7200 900 20 2048\n1 599 256\n",
    "7200 900 20 2048\n0 599 256\n600 1199 240\n1201 1799 220\n",
    "7200 900 20 2048\n0 599 256\nx\n",
    "0 900 20 2048\nx\n",
    "7200 900 20 2048\n0 1000000 256\n",
];

fn given(text: &[u8]) -> Given {
    Given::new(&BESIDE, text.to_vec())
}

/// The bench listing with another number of rows, each of the same cylinders and tracks.
fn with_rows(count: u64) -> Listing {
    let rows = (0..count).map(|row| [row * 20, row * 20 + 19, 256]).collect();
    Listing { rows, ..bench_listing() }
}

/// The texts that are always run, with the right arguments and with others.
fn first_runs(_: &mut Rng) -> Vec<Given> {
    let bench = bench_listing().words().text();
    let mut runs = vec![given(&bench)];
    runs.extend(SHORT_TEXTS.map(|text| given(text.as_bytes())));
    runs.extend([1, 63, 64, 65, 30_000].map(|rows| given(&with_rows(rows).words().text())));
    // A bad line goes before 4, however far down it is.
    let mut long = with_rows(30_000).words();
    long.lines.push("x".to_string());
    runs.push(given(&long.text()));
    runs.push(given(format!("7200 900 20 {}\n", "9".repeat(1_000_000)).as_bytes()));
    runs.push(given(&[b' '; 200_000]));
    for arguments in OTHERS {
        runs.extend([&bench[..], b""].map(|text| Given::new(arguments, text.to_vec())));
    }
    runs
}

/// One line of words.
fn is_cause(words: &str) -> bool {
    words.len() > 1 && words.find('\n') == Some(words.len() - 1)
}

/// A refusal is expected up to the words of the cause, which there must be.
fn is_same(expected: &Written, got: &Written) -> bool {
    let is_message = match expected.1.ends_with(": ") {
        true => got.1.strip_prefix(&expected.1).is_some_and(is_cause),
        false => expected.1 == got.1,
    };
    expected.0 == got.0 && is_message
}

fn report(given: &Given, expected: &Written, got: &Written) {
    let text = &given.input;
    println!("arguments {:?}", given.arguments);
    println!("input {:?}", String::from_utf8_lossy(&text[..text.len().min(2000)]));
    println!("expected {:02X?} {:?}", expected.0, expected.1);
    println!("got {:02X?} {:?}", got.0, got.1);
}

fn main() -> ExitCode {
    let comparison = Comparison {
        program: "maker",
        first: first_runs,
        random: |rng| {
            let (input, arguments) = any_maker(rng);
            Given { arguments, input }
        },
        expected: |given| makercard(&given.arguments, &given.input),
        is_same,
        report,
    };
    comparison.main()
}
