//! The words after a program's name.

use crate::values::ticks::keep_six_digits;
use std::io;

/// `--six` keeps the program at six fraction digits. There is no other word.
pub fn heed() -> io::Result<()> {
    for word in std::env::args_os().skip(1) {
        if word != "--six" {
            return Err(io::Error::other("words: [--six]"));
        }
        keep_six_digits();
    }
    Ok(())
}
