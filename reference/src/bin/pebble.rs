//! Pebble text from standard input; the flat text, or `refused N P`, to
//! standard output.

use std::io::{self, Read, Write};

fn main() -> io::Result<()> {
    let mut text = Vec::new();
    io::stdin().lock().read_to_end(&mut text)?;
    io::stdout().lock().write_all(&reference::flatten::pebble(&text))
}
