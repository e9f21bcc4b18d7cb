//! The model's own listing program: a card from standard input, its listing on standard output.
//! With the argument `loop` the film is a loop, with `pairs` its blocks are two halves each.

use film_disk_model::listing::listing_with;
use std::io::{Read, Result, Write};

fn main() -> Result<()> {
    let arguments: Vec<String> = std::env::args().skip(1).collect();
    let mut card = Vec::new();
    std::io::stdin().read_to_end(&mut card)?;
    std::io::stdout().write_all(listing_with(&arguments, &card).as_bytes())
}
