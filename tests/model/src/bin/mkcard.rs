//! The model's own mkcard program: a text from standard input, its card on standard output.

use std::io::{Read, Result, Write};

fn main() -> Result<()> {
    let mut text = Vec::new();
    std::io::stdin().read_to_end(&mut text)?;
    let (card, message) = film_disk_model::mkcard(&text);
    std::io::stdout().write_all(&card)?;
    std::io::stderr().write_all(message.as_bytes())
}
