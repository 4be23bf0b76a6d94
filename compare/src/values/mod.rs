//! The five kinds of value. A date is a count of days and a dateTime a count of ticks, both local and both from 1970-01-01;
//! year, month and day are worked out when they are asked for. A tick is a nanosecond: `ticks.rs`.

pub mod calendar;
pub mod operations;
pub mod reading;
pub mod records;
pub mod ticks;
pub mod writing;

use calendar::{days_from_civil, Civil};
pub use ticks::{most_duration_ticks, ticks_a_day, ticks_a_minute, ticks_a_second, ticks_an_hour};

pub const FIRST_YEAR: i64 = 1;
pub const LAST_YEAR: i64 = 9999;
pub const MOST_ZONE_MINUTES: i64 = 840;
pub const MOST_DURATION_SECONDS: i128 = 1_000_000_000_000;
pub const MOST_DURATION_MONTHS: i128 = 1_000_000;
pub const MOST_FACTOR: i128 = 999_999;

#[derive(Clone, Copy, PartialEq, Eq, Debug, PartialOrd, Ord)]
pub enum Kind {
    Date,
    Time,
    DateTime,
    DayTime,
    YearMonth,
}

pub const KINDS: [Kind; 5] = [Kind::Date, Kind::Time, Kind::DateTime, Kind::DayTime, Kind::YearMonth];

impl Kind {
    pub fn name(self) -> &'static str {
        match self {
            Kind::Date => "xs:date",
            Kind::Time => "xs:time",
            Kind::DateTime => "xs:dateTime",
            Kind::DayTime => "xs:dayTimeDuration",
            Kind::YearMonth => "xs:yearMonthDuration",
        }
    }

    pub fn named(name: &[u8]) -> Option<Kind> {
        KINDS.into_iter().find(|kind| kind.name().as_bytes() == name)
    }

    pub fn is_duration(self) -> bool {
        matches!(self, Kind::DayTime | Kind::YearMonth)
    }
}

/// Minutes east of UTC, or no zone.
pub type Zone = Option<i64>;

#[derive(Clone, Copy, PartialEq, Eq, Debug)]
pub enum Value {
    /// Local days from 1970-01-01.
    Date { day: i64, zone: Zone },
    /// Tick of the local day.
    Time { tick: i128, zone: Zone },
    /// Local ticks from 1970-01-01T00:00:00.
    DateTime { tick: i128, zone: Zone },
    /// Ticks.
    DayTime(i128),
    /// Months.
    YearMonth(i128),
}

impl Value {
    pub fn kind(&self) -> Kind {
        match self {
            Value::Date { .. } => Kind::Date,
            Value::Time { .. } => Kind::Time,
            Value::DateTime { .. } => Kind::DateTime,
            Value::DayTime(_) => Kind::DayTime,
            Value::YearMonth(_) => Kind::YearMonth,
        }
    }

    pub fn date_within_bounds(day: i128, zone: Zone) -> Option<Value> {
        let good = (first_day() as i128..=last_day() as i128).contains(&day);
        good.then_some(Value::Date { day: day as i64, zone })
    }

    pub fn date_time_within_bounds(tick: i128, zone: Zone) -> Option<Value> {
        let day = tick.div_euclid(ticks_a_day());
        let good = (first_day() as i128..=last_day() as i128).contains(&day);
        good.then_some(Value::DateTime { tick, zone })
    }

    pub fn day_time_within_bounds(ticks: i128) -> Option<Value> {
        (ticks.abs() <= most_duration_ticks()).then_some(Value::DayTime(ticks))
    }

    pub fn year_month_within_bounds(months: i128) -> Option<Value> {
        (months.abs() <= MOST_DURATION_MONTHS).then_some(Value::YearMonth(months))
    }
}

pub fn first_day() -> i64 {
    days_from_civil(Civil { year: FIRST_YEAR, month: 1, day: 1 })
}

pub fn last_day() -> i64 {
    days_from_civil(Civil { year: LAST_YEAR, month: 12, day: 31 })
}
