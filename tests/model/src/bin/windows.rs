//! The model's own windows program: a card from standard input, its windows on standard output.
//! With the argument `loop` the film is a loop, with `pairs` its blocks are two halves each.

use film_disk_model::windows_with;
use std::io::{Read, Result, Write};

fn main() -> Result<()> {
    let arguments: Vec<String> = std::env::args().skip(1).collect();
    let mut card = Vec::new();
    std::io::stdin().read_to_end(&mut card)?;
    std::io::stdout().write_all(windows_with(&arguments, &card).as_bytes())
}
