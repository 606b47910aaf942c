//! Document 01's log program: standard input to standard output.

use std::io::{Read, Write};

fn main() -> std::io::Result<()> {
    // One byte above the limit is enough to see that a text is too long.
    let limit = second::text::TEXT_LIMIT as u64 + 1;
    let mut bytes = Vec::new();
    std::io::stdin().lock().take(limit).read_to_end(&mut bytes)?;
    std::io::stdout().lock().write_all(&second::log(&bytes))
}
