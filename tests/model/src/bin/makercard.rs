//! The model's own makercard program: a maker's text from standard input and N, c, hop and return as
//! arguments, their card on standard output. Of a cause it says that there is one.

use std::io::{Read, Result, Write};

fn main() -> Result<()> {
    let arguments: Vec<String> = std::env::args().skip(1).collect();
    let mut text = Vec::new();
    std::io::stdin().read_to_end(&mut text)?;
    let (card, mut message) = film_disk_model::maker::makercard(&arguments, &text);
    if message.ends_with(' ') {
        message.push_str("a cause\n");
    }
    std::io::stdout().write_all(&card)?;
    std::io::stderr().write_all(message.as_bytes())
}
