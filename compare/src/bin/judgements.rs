//! Reads conditions with their lines from standard input and writes the results: docs/LINES.md, "Judgements". With
//! `--six` it is kept at six fraction digits.

use std::io::{self, Read, Write};

fn main() -> io::Result<()> {
    compare::words::heed()?;
    let mut input = Vec::new();
    io::stdin().read_to_end(&mut input)?;
    io::stdout().write_all(compare::programs::judgements(&input).as_bytes())
}
