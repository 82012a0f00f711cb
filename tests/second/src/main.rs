//! Program `share` on standard input and output.

use std::io::{self, Read, Write};

/// Reads at most one byte above the input limit and writes the answers.
fn main() -> io::Result<()> {
    let mut input = Vec::new();
    let limit = second::program::INPUT_LIMIT as u64 + 1;
    io::stdin().lock().take(limit).read_to_end(&mut input)?;
    let mut output = io::stdout().lock();
    output.write_all(&second::program::share(&input))?;
    output.flush()
}
