//! Runs a listing program on many cards, for one showing, as loops and as pairs, and compares what it prints
//! with the model, byte by byte.
//!
//! Arguments: path of the listing program, seed, count of random cards. Exit status 0 only if all
//! passed.

use film_disk_model::listing::listing_with;
use film_disk_model::programs::cards::{first_runs, random_run, report};
use film_disk_model::programs::{is_equal, Comparison};
use std::process::ExitCode;

fn main() -> ExitCode {
    let comparison = Comparison {
        program: "listing",
        first: first_runs,
        random: random_run,
        expected: |given| {
            (listing_with(&given.arguments, &given.input).into_bytes(), String::new())
        },
        is_same: is_equal,
        report,
    };
    comparison.main()
}
