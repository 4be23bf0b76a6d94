//! Nine digits (document 02, letter e): fractions of every length, carries of one nanosecond, the greatest duration and its
//! neighbours, durations between zero and a second, and zones that are a nanosecond beside whole minutes. The tables are in
//! the files beside this one; random texts have nanoseconds by themselves.

pub mod calls;
pub mod counts;
pub mod desks;

use crate::values::calendar::{days_from_civil, month_length, Civil};

/// How many digits the fractions have: all lengths about six and nine, and some that are far too long.
pub const LENGTHS: &[usize] = &[1, 2, 3, 4, 5, 6, 7, 8, 9, 10, 11, 12, 13, 18, 19, 20, 40, 300];

/// Digits of a fraction, so many: zeros, nines, a single digit at either end or just before the last, and digits in turn.
pub fn fractions(length: usize) -> Vec<String> {
    let zeros = |count: usize| "0".repeat(count);
    let mut digits = vec![
        zeros(length),
        "9".repeat(length),
        format!("{}1", zeros(length - 1)),
        format!("1{}", zeros(length - 1)),
        "1234567890".chars().cycle().take(length).collect(),
    ];
    if length > 1 {
        digits.push(format!("{}10", zeros(length - 2)));
        digits.push(format!("{}90", "9".repeat(length - 2)));
    }
    digits
}

/// Days whose end is that of a month, of a leap February, of a year or of a century, or of no month at all.
pub fn days() -> Vec<i64> {
    let mut days = Vec::new();
    for year in [1, 4, 1900, 1999, 2000, 2023, 2024, 9998, 9999] {
        let ends = [1, 2, 4, 12].map(|month| (month, month_length(year, month)));
        let all = ends.into_iter().chain([(1, 1), (2, 28), (6, 15)]);
        days.extend(all.map(|(month, day)| days_from_civil(Civil { year, month, day })));
    }
    days.sort();
    days.dedup();
    days
}
