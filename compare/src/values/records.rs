//! Records as a caller of the library may build them, within the bounds of their kind or not. They have nanoseconds: a
//! program that takes them is not kept at six digits.

use super::calendar::{days_from_civil, month_length, Civil};
use super::operations::REFERENCE_DAY;
use super::*;
use crate::{Refusal, ARGUMENT_BEYOND_BOUNDS};

const SECONDS_A_DAY: i128 = 86_400;
const NANOS_A_SECOND: i128 = 1_000_000_000;

#[derive(Clone, Copy, PartialEq, Eq, Debug)]
pub enum Record {
    /// A date, a time or a dateTime: a time is one on the reference day, a date one at 00:00:00.
    Moment { kind: Kind, date: Civil, clock: Clock, zone: Option<Signed> },
    /// A dayTimeDuration: seconds, and nanoseconds beside them under the same sign.
    DayTime { minus: bool, size: Clock },
    /// Months of a yearMonthDuration.
    YearMonth(Signed),
}

/// Whole seconds and the nanoseconds of the next one, neither of them below zero.
#[derive(Clone, Copy, PartialEq, Eq, Debug)]
pub struct Clock {
    pub second: i128,
    pub nano: i128,
}

impl Clock {
    /// The number of ticks, unless there is a whole second among the nanoseconds.
    fn ticks(self) -> Option<i128> {
        (self.nano < NANOS_A_SECOND).then_some(self.second * NANOS_A_SECOND + self.nano)
    }
}

/// A sign and a magnitude, which can be a zero with a minus.
#[derive(Clone, Copy, PartialEq, Eq, Debug)]
pub struct Signed {
    pub minus: bool,
    pub magnitude: i128,
}

impl Signed {
    /// The number, unless it is beyond the most or a zero with a minus.
    fn within(self, most: i128) -> Option<i128> {
        let good = self.magnitude <= most && !(self.minus && self.magnitude == 0);
        good.then_some(if self.minus { -self.magnitude } else { self.magnitude })
    }
}

impl Record {
    /// The value that the record stands for if it is within the bounds of its kind.
    pub fn value(&self) -> Result<Value, Refusal> {
        let value = match *self {
            Record::Moment { kind, date, clock, zone } => moment(kind, date, clock, zone),
            Record::DayTime { minus, size } => day_time(minus, size),
            Record::YearMonth(number) => number.within(MOST_DURATION_MONTHS).map(Value::YearMonth),
        };
        value.ok_or(ARGUMENT_BEYOND_BOUNDS)
    }
}

fn day_time(minus: bool, size: Clock) -> Option<Value> {
    Signed { minus, magnitude: size.ticks()? }.within(most_duration_ticks()).map(Value::DayTime)
}

fn moment(kind: Kind, date: Civil, clock: Clock, zone: Option<Signed>) -> Option<Value> {
    let zone = match zone {
        Some(minutes) => Some(minutes.within(MOST_ZONE_MINUTES as i128)? as i64),
        None => None,
    };
    let Civil { year, month, day } = date;
    if !(FIRST_YEAR..=LAST_YEAR).contains(&year) || !(1..=12).contains(&month) || clock.second >= SECONDS_A_DAY {
        return None;
    }
    if !(1..=month_length(year, month)).contains(&day) {
        return None;
    }
    let (day, tick) = (days_from_civil(date), clock.ticks()?);
    match kind {
        Kind::Date if tick == 0 => Some(Value::Date { day, zone }),
        Kind::Time if day as i128 == REFERENCE_DAY => Some(Value::Time { tick, zone }),
        Kind::DateTime => Some(Value::DateTime { tick: day as i128 * ticks_a_day() + tick, zone }),
        _ => None,
    }
}
