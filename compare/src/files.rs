//! What the desk programs read and where they write.

use crate::desk::MOST_TIMETABLE_BYTES;
use std::ffi::OsStr;
use std::fs::File;
use std::io::{self, Read, Write};
use std::os::unix::ffi::OsStrExt;

/// Writes to standard output what a program answers for the timetable in the current folder and for standard input. Of a
/// timetable that is too long, it is given one byte more than the most.
pub fn answer_over_timetable(program: fn(&[u8], &[u8]) -> String) -> io::Result<()> {
    let timetable = start_of(b"timetable.tsv", MOST_TIMETABLE_BYTES + 1);
    let mut input = Vec::new();
    io::stdin().read_to_end(&mut input)?;
    io::stdout().write_all(program(&timetable, &input).as_bytes())
}

/// The first bytes of a file, at most so many. A file that cannot be opened, or can be opened and not read, counts as empty.
pub fn start_of(name: &[u8], most: usize) -> Vec<u8> {
    let mut bytes = Vec::new();
    let read = File::open(OsStr::from_bytes(name)).and_then(|file| file.take(most as u64).read_to_end(&mut bytes));
    match read {
        Ok(_) => bytes,
        Err(_) => Vec::new(),
    }
}
