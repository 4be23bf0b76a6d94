//! Where the proved program's instructions go, as valgrind's callgrind counts them.

use crate::measure::command;
use std::collections::HashMap;
use std::fs;
use std::io;
use std::path::Path;
use std::process::Stdio;

/// The parts of the work, by the crates whose functions do it. What the compiler placed within another function counts there.
#[derive(Clone, Copy, PartialEq, Eq)]
pub enum Part {
    ConditionText,
    Values,
    Computing,
    Calendar,
    Runs,
    Copying,
    Desk,
}

pub const PARTS: [(Part, &str); 7] = [
    (Part::ConditionText, "the condition's text, its symbols and grammar: `condition`, `condition_readers`, `condition_symbols`, `condition_depth`, `condition_words`"),
    (Part::Values, "values read, fields and literals: `text`, `text_blanks`, `text_fields`, `text_layouts`, `text_checks`, `text_scan`, `text_forms`, `text_durations`, `numerals`"),
    (
        Part::Computing,
        "comparing and computing: `operation`, `operation_arithmetic`, `operation_ordering`, `operation_adjusting`, `operation_casting`, `operation_shifting`, `operation_quantities`, `value_instants`, `value`, \
         `condition_parts`, `condition_givens`, `condition_sorts`, `condition_operators`",
    ),
    (Part::Calendar, "days and dates: `calendar`"),
    (Part::Runs, "what a line stands for: `run_cases`, `run_times`"),
    (Part::Copying, "bytes copied: `memcpy`, `memset`"),
    (Part::Desk, "all else: seats, lines found, output lines"),
];

/// The instructions of each part.
pub struct Profile {
    counts: HashMap<String, u64>,
}

impl Profile {
    pub fn of(&self, part: Part) -> u64 {
        self.counts.iter().filter(|(name, _)| part_of(name) == part).map(|(_, count)| count).sum()
    }

    fn total(&self) -> u64 {
        self.counts.values().sum()
    }

    pub fn share(&self, part: Part) -> f64 {
        self.of(part) as f64 / self.total() as f64
    }
}

/// Runs the program under callgrind; None where valgrind is not there.
pub fn profile(program: &Path, folder: &Path) -> io::Result<Option<Profile>> {
    let out = folder.join("callgrind.out");
    let mut command = command(Path::new("valgrind"), folder)?;
    command.args(["--tool=callgrind", "--dump-line=no"]).arg(format!("--callgrind-out-file={}", out.display())).arg(program);
    match command.stdout(Stdio::null()).stderr(Stdio::null()).status() {
        Err(error) if error.kind() == io::ErrorKind::NotFound => Ok(None),
        Err(error) => Err(error),
        Ok(status) if !status.success() => Err(io::Error::other(format!("valgrind ended with {status}"))),
        Ok(_) => Ok(Some(Profile { counts: own_counts(&fs::read_to_string(out)?) })),
    }
}

fn part_of(name: &str) -> Part {
    let krate = name.split("::").next().unwrap_or("");
    match krate {
        "calendar" => Part::Calendar,
        "condition" | "condition_readers" | "condition_symbols" | "condition_depth" | "condition_words" => Part::ConditionText,
        "numerals" if name.contains("decimal") => Part::Desk,
        "run_cases" | "run_times" => Part::Runs,
        "text" | "text_blanks" | "text_fields" | "text_layouts" | "text_checks" | "text_scan" | "text_forms"
        | "text_durations" | "numerals" => Part::Values,
        "operation"
        | "operation_arithmetic"
        | "operation_ordering"
        | "operation_adjusting"
        | "operation_casting"
        | "operation_shifting"
        | "operation_quantities" => Part::Computing,
        "value_instants" | "value" | "condition_parts" | "condition_givens" | "condition_sorts" | "condition_operators" => {
            Part::Computing
        }
        _ if name.contains("memcpy") || name.contains("memmove") || name.contains("memset") => Part::Copying,
        _ => Part::Desk,
    }
}

/// The instructions of each function by itself, from callgrind's file: after `fn=` stand lines of a place and a count; the
/// line after `calls=` counts what was called, and is left out. `(12) name` gives a name its number, `(12)` alone means it.
fn own_counts(file: &str) -> HashMap<String, u64> {
    let mut names: HashMap<&str, &str> = HashMap::new();
    let mut counts: HashMap<String, u64> = HashMap::new();
    let mut current = "";
    let mut called = false;
    for line in file.lines() {
        if let Some((key @ ("fn" | "cfn"), given)) = line.split_once('=') {
            let (number, name) = given.split_once(' ').unwrap_or((given, ""));
            if !name.is_empty() {
                names.insert(number, name);
            }
            if key == "fn" {
                current = number;
            }
        } else if line.starts_with("calls=") {
            called = true;
        } else if line.starts_with(|first: char| first.is_ascii_digit() || "+-*".contains(first)) {
            let count = line.split_whitespace().nth(1).and_then(|word| word.parse().ok()).unwrap_or(0);
            if !called {
                *counts.entry(names.get(current).unwrap_or(&"").to_string()).or_default() += count;
            }
            called = false;
        }
    }
    counts
}

#[cfg(test)]
mod tests {
    use super::*;

    #[test]
    fn what_is_called_does_not_count_for_its_caller() {
        let file = "summary: 37\n\nfn=(1) condition_readers::test\n0 5\ncfn=(2) calendar::day_number\ncalls=3 0\n0 30\n+1 1\n\n\
                    fn=(2)\n0 30\n\nfn=(3) memcpy\n* 1\n";
        let profile = Profile { counts: own_counts(file) };
        assert_eq!(profile.total(), 37);
        assert_eq!(profile.of(Part::ConditionText), 6);
        assert_eq!(profile.of(Part::Calendar), 30);
        assert_eq!(profile.of(Part::Copying), 1);
        assert_eq!(profile.share(Part::Copying), 1.0 / 37.0);
    }
}
