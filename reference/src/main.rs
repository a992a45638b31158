//! Reads a campus description on standard input and prints its run.

use std::io::{self, Read, Write};

/// One octet past the greatest description, so that a greater one is refused.
const LIMIT: u64 = 32_769;

fn main() -> io::Result<()> {
    let mut description = Vec::new();
    io::stdin()
        .lock()
        .take(LIMIT)
        .read_to_end(&mut description)?;
    io::stdout().write_all(&reference::text(&description))
}
