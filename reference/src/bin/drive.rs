//! Commands from standard input; their answers to standard output.

use std::io::{self, Read, Write};

fn main() -> io::Result<()> {
    let mut commands = Vec::new();
    io::stdin().lock().read_to_end(&mut commands)?;
    io::stdout().lock().write_all(&reference::drive::drive(&commands))
}
