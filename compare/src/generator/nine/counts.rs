//! How long the fractions of the generated texts are, and what comes of them.

use crate::generator::blanks::counts::{result_of, texts_of_call};
use crate::lines::lines;

/// The lengths of all runs of digits that stand directly after a point.
pub fn lengths(text: &[u8]) -> Vec<usize> {
    let after_points = text.iter().enumerate().filter(|(_, &byte)| byte == b'.').map(|(at, _)| &text[at + 1..]);
    let counts = after_points.map(|rest| rest.iter().take_while(|byte| byte.is_ascii_digit()).count());
    counts.filter(|&count| count > 0).collect()
}

fn named(count: usize) -> String {
    match count {
        1..=12 => format!("{count:>2} digits"),
        _ => "13 digits and more".to_string(),
    }
}

/// A name for each fraction of a calculator's call.
pub fn of_call(line: &[u8]) -> Vec<String> {
    let mut names = Vec::new();
    for (kind, text) in texts_of_call(line) {
        let result = result_of(kind, text);
        names.extend(lengths(text).into_iter().map(|count| format!("{}, {result}", named(count))));
    }
    names
}

/// A name for each fraction in the lines of a timetable and of a file of conditions, or of any input.
pub fn of_lines(sort: &str, text: &[u8]) -> Vec<String> {
    lines(text).into_iter().flat_map(lengths).map(|count| format!("{}, {sort}", named(count))).collect()
}
