//! Runs a windows program on many cards, for one showing, as loops and as pairs, and compares what it prints
//! with the model, byte by byte.
//!
//! Arguments: path of the windows program, seed, count of random cards. Exit status 0 only if all
//! passed.

use film_disk_model::programs::cards::{first_runs, random_run, report};
use film_disk_model::programs::{is_equal, Comparison};
use film_disk_model::windows_with;
use std::process::ExitCode;

fn main() -> ExitCode {
    let comparison = Comparison {
        program: "windows",
        first: first_runs,
        random: random_run,
        expected: |given| {
            (windows_with(&given.arguments, &given.input).into_bytes(), String::new())
        },
        is_same: is_equal,
        report,
    };
    comparison.main()
}
