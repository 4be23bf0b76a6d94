//! Document 01, "Operations". Each function refuses in the order 16, 9, 5, 4.

use super::calendar::{civil_from_days, days_from_civil, month_length, Civil};
use super::writing::fraction_text;
use super::*;
use crate::{Refusal, ARGUMENT_BEYOND_BOUNDS, BAD_ZONE, KINDS_DO_NOT_FIT, RESULT_BEYOND_BOUNDS};
use std::cmp::Ordering;

/// The reference day of times, 1972-12-31, as days from 1970-01-01.
pub const REFERENCE_DAY: i128 = 1095;

/// Local ticks from 1970-01-01, of a date at its 00:00:00 and of a time on the reference day.
fn local(value: &Value) -> Option<(i128, Zone)> {
    match *value {
        Value::Date { day, zone } => Some((day as i128 * ticks_a_day(), zone)),
        Value::Time { tick, zone } => Some((REFERENCE_DAY * ticks_a_day() + tick, zone)),
        Value::DateTime { tick, zone } => Some((tick, zone)),
        Value::DayTime(_) | Value::YearMonth(_) => None,
    }
}

/// The same in UTC. No zone counts as UTC.
fn instant(value: &Value) -> Option<i128> {
    let (tick, zone) = local(value)?;
    Some(tick - zone.unwrap_or(0) as i128 * ticks_a_minute())
}

/// The value of `kind` that local ticks stand for, cut to what the kind has.
fn from_local(kind: Kind, tick: i128, zone: Zone) -> Result<Value, Refusal> {
    let made = match kind {
        Kind::Date => Value::date_within_bounds(tick.div_euclid(ticks_a_day()), zone),
        Kind::Time => Some(Value::Time { tick: tick.rem_euclid(ticks_a_day()), zone }),
        Kind::DateTime => Value::date_time_within_bounds(tick, zone),
        Kind::DayTime | Kind::YearMonth => return Err(KINDS_DO_NOT_FIT),
    };
    made.ok_or(RESULT_BEYOND_BOUNDS)
}

pub fn compare(left: &Value, right: &Value) -> Result<Ordering, Refusal> {
    if left.kind() != right.kind() {
        return Err(KINDS_DO_NOT_FIT);
    }
    Ok(order_key(left).cmp(&order_key(right)))
}

fn order_key(value: &Value) -> i128 {
    match *value {
        Value::DayTime(number) | Value::YearMonth(number) => number,
        _ => instant(value).expect("a date, a time or a dateTime has an instant"),
    }
}

pub fn add(left: &Value, right: &Value) -> Result<Value, Refusal> {
    match (*left, *right) {
        (Value::DayTime(a), Value::DayTime(b)) => Value::day_time_within_bounds(a + b).ok_or(RESULT_BEYOND_BOUNDS),
        (Value::YearMonth(a), Value::YearMonth(b)) => Value::year_month_within_bounds(a + b).ok_or(RESULT_BEYOND_BOUNDS),
        (_, Value::DayTime(ticks)) => move_by_ticks(left, ticks),
        (_, Value::YearMonth(months)) => move_by_months(left, months),
        (Value::DayTime(ticks), _) => move_by_ticks(right, ticks),
        (Value::YearMonth(months), _) => move_by_months(right, months),
        _ => Err(KINDS_DO_NOT_FIT),
    }
}

pub fn subtract(left: &Value, right: &Value) -> Result<Value, Refusal> {
    match *right {
        Value::DayTime(ticks) => add(left, &Value::DayTime(-ticks)),
        Value::YearMonth(months) => add(left, &Value::YearMonth(-months)),
        _ if left.kind() != right.kind() => Err(KINDS_DO_NOT_FIT),
        _ => Value::day_time_within_bounds(order_key(left) - order_key(right)).ok_or(RESULT_BEYOND_BOUNDS),
    }
}

fn move_by_ticks(value: &Value, ticks: i128) -> Result<Value, Refusal> {
    let (tick, zone) = local(value).ok_or(KINDS_DO_NOT_FIT)?;
    from_local(value.kind(), tick + ticks, zone)
}

fn move_by_months(value: &Value, months: i128) -> Result<Value, Refusal> {
    if !matches!(value.kind(), Kind::Date | Kind::DateTime) {
        return Err(KINDS_DO_NOT_FIT);
    }
    let (tick, zone) = local(value).ok_or(KINDS_DO_NOT_FIT)?;
    let date = civil_from_days(tick.div_euclid(ticks_a_day()) as i64);
    let total = date.year * 12 + date.month - 1 + months as i64;
    let (year, month) = (total.div_euclid(12), total.rem_euclid(12) + 1);
    let day = date.day.min(month_length(year, month));
    let moved = days_from_civil(Civil { year, month, day }) as i128;
    from_local(value.kind(), moved * ticks_a_day() + tick.rem_euclid(ticks_a_day()), zone)
}

pub fn multiply(value: &Value, factor: i128) -> Result<Value, Refusal> {
    if factor.abs() > MOST_FACTOR {
        return Err(ARGUMENT_BEYOND_BOUNDS);
    }
    let product = match *value {
        Value::DayTime(ticks) => Value::day_time_within_bounds(ticks * factor),
        Value::YearMonth(months) => Value::year_month_within_bounds(months * factor),
        _ => return Err(KINDS_DO_NOT_FIT),
    };
    product.ok_or(RESULT_BEYOND_BOUNDS)
}

/// Whether values of the first kind may be cast to the second.
pub fn casts(from: Kind, to: Kind) -> bool {
    from == to || matches!((from, to), (Kind::DateTime, Kind::Date | Kind::Time) | (Kind::Date, Kind::DateTime))
}

pub fn cast(value: &Value, to: Kind) -> Result<Value, Refusal> {
    if !casts(value.kind(), to) {
        return Err(KINDS_DO_NOT_FIT);
    }
    match local(value) {
        None => Ok(*value),
        Some((tick, zone)) => from_local(to, tick, zone),
    }
}

/// Adjustment to a zone given as a value, which has to be a dayTimeDuration.
pub fn adjust(value: &Value, zone: &Value) -> Result<Value, Refusal> {
    let (tick, old) = local(value).ok_or(KINDS_DO_NOT_FIT)?;
    let Value::DayTime(offset) = *zone else {
        return Err(KINDS_DO_NOT_FIT);
    };
    if offset % ticks_a_minute() != 0 || offset.abs() > MOST_ZONE_MINUTES as i128 * ticks_a_minute() {
        return Err(BAD_ZONE);
    }
    let minutes = (offset / ticks_a_minute()) as i64;
    let moved = match old {
        None => tick,
        Some(old_minutes) => tick + (minutes - old_minutes) as i128 * ticks_a_minute(),
    };
    from_local(value.kind(), moved, Some(minutes))
}

/// Adjustment to no zone: local fields stay.
pub fn unzone(value: &Value) -> Result<Value, Refusal> {
    let (tick, _) = local(value).ok_or(KINDS_DO_NOT_FIT)?;
    from_local(value.kind(), tick, None)
}

/// The components as docs/LINES.md writes them.
pub fn components(value: &Value) -> String {
    match *value {
        Value::Date { day, zone } => format!("{} {}", date_components(day), zone_component(zone)),
        Value::Time { tick, zone } => format!("{} {}", clock_components(tick), zone_component(zone)),
        Value::DateTime { tick, zone } => {
            let date = date_components(tick.div_euclid(ticks_a_day()) as i64);
            let clock = clock_components(tick.rem_euclid(ticks_a_day()));
            format!("{date} {clock} {}", zone_component(zone))
        }
        Value::DayTime(ticks) => duration_components(0, ticks),
        Value::YearMonth(months) => duration_components(months, 0),
    }
}

fn date_components(days: i64) -> String {
    let Civil { year, month, day } = civil_from_days(days);
    format!("year={year} month={month} day={day}")
}

fn clock_components(tick: i128) -> String {
    let hours = tick / ticks_an_hour();
    let minutes = tick / ticks_a_minute() % 60;
    let seconds = tick / ticks_a_second() % 60;
    format!("hours={hours} minutes={minutes} seconds={seconds}{}", fraction_text(tick % ticks_a_second()))
}

fn zone_component(zone: Zone) -> String {
    match zone {
        None => "zone=none".to_string(),
        Some(minutes) => format!("zone={minutes}"),
    }
}

/// Division in Rust cuts towards zero, so that no part of a negative duration is above zero.
fn duration_components(months: i128, ticks: i128) -> String {
    let days = ticks / ticks_a_day();
    let hours = ticks / ticks_an_hour() % 24;
    let minutes = ticks / ticks_a_minute() % 60;
    let seconds = ticks % ticks_a_minute();
    let sign = if seconds < 0 { "-" } else { "" };
    let whole = seconds.abs() / ticks_a_second();
    let fraction = fraction_text(seconds.abs() % ticks_a_second());
    format!(
        "years={} months={} days={days} hours={hours} minutes={minutes} seconds={sign}{whole}{fraction}",
        months / 12,
        months % 12
    )
}
