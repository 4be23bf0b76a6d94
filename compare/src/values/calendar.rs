//! The proleptic Gregorian calendar without a walk over years. A year is taken to begin in March, so that the leap day
//! is its last day; 400 such years always have 146,097 days.

pub const DAYS_IN_400_YEARS: i64 = 146_097;
/// Days from 0000-03-01 to 1970-01-01.
const DAYS_TO_1970: i64 = 719_468;

#[derive(Clone, Copy, PartialEq, Eq, Debug)]
pub struct Civil {
    pub year: i64,
    pub month: i64,
    pub day: i64,
}

/// Days from 1970-01-01 to this day; below zero before it.
pub fn days_from_civil(date: Civil) -> i64 {
    let march_year = if date.month <= 2 { date.year - 1 } else { date.year };
    let era = march_year.div_euclid(400);
    let year_of_era = march_year.rem_euclid(400);
    let month_from_march = (date.month + 9) % 12;
    let day_of_year = (153 * month_from_march + 2) / 5 + date.day - 1;
    let day_of_era = year_of_era * 365 + year_of_era / 4 - year_of_era / 100 + day_of_year;
    era * DAYS_IN_400_YEARS + day_of_era - DAYS_TO_1970
}

/// The day that is so many days after 1970-01-01.
pub fn civil_from_days(days: i64) -> Civil {
    let from_march_0 = days + DAYS_TO_1970;
    let era = from_march_0.div_euclid(DAYS_IN_400_YEARS);
    let day_of_era = from_march_0.rem_euclid(DAYS_IN_400_YEARS);
    let year_of_era = (day_of_era - day_of_era / 1460 + day_of_era / 36524 - day_of_era / 146_096) / 365;
    let day_of_year = day_of_era - (365 * year_of_era + year_of_era / 4 - year_of_era / 100);
    let month_from_march = (5 * day_of_year + 2) / 153;
    let month = (month_from_march + 2) % 12 + 1;
    let march_year = era * 400 + year_of_era;
    Civil {
        year: if month <= 2 { march_year + 1 } else { march_year },
        month,
        day: day_of_year - (153 * month_from_march + 2) / 5 + 1,
    }
}

pub fn month_length(year: i64, month: i64) -> i64 {
    let (next_year, next_month) = if month == 12 { (year + 1, 1) } else { (year, month + 1) };
    days_from_civil(Civil { year: next_year, month: next_month, day: 1 }) - days_from_civil(Civil { year, month, day: 1 })
}

#[cfg(test)]
mod tests {
    use super::*;

    #[test]
    fn every_day_of_ten_thousand_years_goes_there_and_back() {
        let mut expected = days_from_civil(Civil { year: 0, month: 1, day: 1 });
        for year in 0..=10_000 {
            let leap = year % 4 == 0 && (year % 100 != 0 || year % 400 == 0);
            let lengths = [31, if leap { 29 } else { 28 }, 31, 30, 31, 30, 31, 31, 30, 31, 30, 31];
            for (month, length) in (1..).zip(lengths) {
                assert_eq!(month_length(year, month), length);
                for day in 1..=length {
                    let date = Civil { year, month, day };
                    assert_eq!(days_from_civil(date), expected);
                    assert_eq!(civil_from_days(expected), date);
                    expected += 1;
                }
            }
        }
    }

    #[test]
    fn known_days() {
        assert_eq!(days_from_civil(Civil { year: 1970, month: 1, day: 1 }), 0);
        assert_eq!(days_from_civil(Civil { year: 2000, month: 3, day: 1 }), 11_017);
        assert_eq!(days_from_civil(Civil { year: 1, month: 1, day: 1 }), -719_162);
    }
}
