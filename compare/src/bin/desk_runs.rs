//! Runs the desk program over the pairs of files that its input names: docs/LINES.md, "Desk runs".

use std::io::{self, Read, Write};

fn main() -> io::Result<()> {
    let mut cases = Vec::new();
    io::stdin().read_to_end(&mut cases)?;
    io::stdout().write_all(&compare::programs::desk_runs(&cases, compare::files::start_of))
}
