//! `cases`: the fixed cases as `drive` commands to standard output; `cases few`:
//! every job once.

use reference::generate::cases;
use std::io::{self, Write};

fn main() -> io::Result<()> {
    let few = std::env::args().nth(1).is_some_and(|word| word == "few");
    io::stdout().lock().write_all(&if few { cases::few() } else { cases::all() })
}
