//! Reads a study on standard input and writes its listing on standard output, as `emtrun` does.

use std::io::{self, Read, Write};

fn main() -> io::Result<()> {
    let mut text = Vec::new();
    io::stdin().lock().read_to_end(&mut text)?;
    io::stdout().lock().write_all(second::listing::listing_of(&text).as_bytes())
}
