//! From value to text: document 01, "Writing text".

use super::calendar::{civil_from_days, Civil};
use super::ticks::fraction_digits;
use super::*;

pub fn write(value: &Value) -> String {
    match *value {
        Value::Date { day, zone } => format!("{}{}", date_text(day), zone_text(zone)),
        Value::Time { tick, zone } => format!("{}{}", clock_text(tick), zone_text(zone)),
        Value::DateTime { tick, zone } => {
            let day = tick.div_euclid(ticks_a_day()) as i64;
            let clock = tick.rem_euclid(ticks_a_day());
            format!("{}T{}{}", date_text(day), clock_text(clock), zone_text(zone))
        }
        Value::DayTime(ticks) => day_time_text(ticks),
        Value::YearMonth(months) => year_month_text(months),
    }
}

pub fn date_text(days: i64) -> String {
    let Civil { year, month, day } = civil_from_days(days);
    format!("{year:04}-{month:02}-{day:02}")
}

fn clock_text(tick: i128) -> String {
    let hour = tick / ticks_an_hour();
    let minute = tick / ticks_a_minute() % 60;
    let second = tick / ticks_a_second() % 60;
    format!("{hour:02}:{minute:02}:{second:02}{}", fraction_text(tick % ticks_a_second()))
}

/// A point and the digits without final zeros, or nothing for zero.
pub fn fraction_text(ticks: i128) -> String {
    if ticks == 0 {
        return String::new();
    }
    format!(".{ticks:0digits$}", digits = fraction_digits()).trim_end_matches('0').to_string()
}

fn zone_text(zone: Zone) -> String {
    match zone {
        None => String::new(),
        Some(0) => "Z".to_string(),
        Some(minutes) => {
            let sign = if minutes < 0 { '-' } else { '+' };
            format!("{sign}{:02}:{:02}", minutes.abs() / 60, minutes.abs() % 60)
        }
    }
}

fn day_time_text(ticks: i128) -> String {
    if ticks == 0 {
        return "PT0S".to_string();
    }
    let magnitude = ticks.abs();
    let days = magnitude / ticks_a_day();
    let clock = magnitude % ticks_a_day();
    let mut text = String::from(if ticks < 0 { "-P" } else { "P" });
    if days > 0 {
        text += &format!("{days}D");
    }
    if clock > 0 {
        text.push('T');
    }
    if clock >= ticks_an_hour() {
        text += &format!("{}H", clock / ticks_an_hour());
    }
    if clock / ticks_a_minute() % 60 > 0 {
        text += &format!("{}M", clock / ticks_a_minute() % 60);
    }
    if clock % ticks_a_minute() > 0 {
        let second = clock % ticks_a_minute() / ticks_a_second();
        text += &format!("{second}{}S", fraction_text(clock % ticks_a_second()));
    }
    text
}

fn year_month_text(months: i128) -> String {
    if months == 0 {
        return "P0M".to_string();
    }
    let mut text = String::from(if months < 0 { "-P" } else { "P" });
    if months.abs() >= 12 {
        text += &format!("{}Y", months.abs() / 12);
    }
    if months.abs() % 12 > 0 {
        text += &format!("{}M", months.abs() % 12);
    }
    text
}
