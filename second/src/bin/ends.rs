//! Reads a study on standard input and writes where it ends, as the example scheduler does.

use std::io::{self, Read, Write};

fn main() -> io::Result<()> {
    let mut text = Vec::new();
    io::stdin().lock().read_to_end(&mut text)?;
    io::stdout().lock().write_all(second::ends::end_listing(&text).as_bytes())
}
