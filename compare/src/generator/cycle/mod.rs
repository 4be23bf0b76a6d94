//! The 400-year cycle of the calendar. A formula for a day's number, or for the day of a number, goes wrong first at an end
//! of the cycle, of one of its centuries or of a leap year: here are the years, the days and the counts of days there.

pub mod calls;
pub mod desks;

use super::random::Random;
use crate::values::calendar::{days_from_civil, month_length, Civil, DAYS_IN_400_YEARS};

/// Years at those ends and beside them, at both ends of the calendar, and such as timetables have.
pub const YEARS: &[i64] = &[
    1, 2, 3, 4, 5, 96, 97, 99, 100, 101, 104, 199, 200, 201, 300, 301, 396, 397, 398, 399, 400, 401, 404, 500, 799, 800, 801,
    1200, 1582, 1600, 1700, 1800, 1900, 1904, 1970, 1972, 1999, 2000, 2001, 2023, 2024, 2025, 2096, 2100, 2400, 9600, 9601, 9900,
    9996, 9997, 9998, 9999,
];

/// Days of a year, of four years, of a century, of three, and of one, two and twenty-four cycles.
pub const LENGTHS: &[i64] = &[365, 1_461, 36_524, 109_572, DAYS_IN_400_YEARS, 2 * DAYS_IN_400_YEARS, 24 * DAYS_IN_400_YEARS];

/// The days of a year at which a count of days can go wrong, as days from 1970-01-01.
pub fn days_of(year: i64) -> Vec<i64> {
    let days = [(1, 1), (2, 28), (2, 29), (3, 1), (12, 30), (12, 31)].into_iter();
    let there = days.filter(|&(month, day)| day <= month_length(year, month));
    there.map(|(month, day)| days_from_civil(Civil { year, month, day })).collect()
}

/// The days of all the years.
pub fn days() -> Vec<i64> {
    YEARS.iter().flat_map(|&year| days_of(year)).collect()
}

/// One day, and each of the lengths with the counts beside it.
pub fn counts() -> Vec<i64> {
    let beside = LENGTHS.iter().flat_map(|days| [days - 1, *days, days + 1]);
    [1].into_iter().chain(beside).collect()
}

/// One of the days.
pub fn day(random: &mut Random) -> i64 {
    let year = random.pick(YEARS);
    random.pick(&days_of(year))
}

/// One of the lengths or a count beside it, sometimes several times over.
pub fn count(random: &mut Random) -> i64 {
    (random.pick(LENGTHS) + random.pick(&[0, 0, 0, 1, -1])) * random.pick(&[1, 1, 1, 2, 3])
}
