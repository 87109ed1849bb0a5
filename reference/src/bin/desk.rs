//! Books standard input into an empty ledger and prints the answer's line.

use std::io::{self, Read, Write};

use reference::desk::{answer_line, MOST_INPUT};

fn main() -> io::Result<()> {
    let mut input = Vec::new();
    io::stdin().lock().take(MOST_INPUT as u64 + 1).read_to_end(&mut input)?;
    io::stdout().lock().write_all(answer_line(&input).as_bytes())
}
