//! A table of calculator calls at the cycle: every call that has to find a day's number, or the day of a number, at each of
//! the days.

use super::{counts, days, days_of, YEARS};
use crate::values::writing::{date_text, write};
use crate::values::{first_day, last_day, ticks_a_day, ticks_a_minute, Value, Zone, FIRST_YEAR, LAST_YEAR};

/// The last tick of a day.
fn last_tick() -> i128 {
    ticks_a_day() - 1
}

/// The parts of the table, written with `|` for a tab.
pub fn parts() -> Vec<(&'static str, Vec<String>)> {
    vec![
        ("cycle-years", (FIRST_YEAR..=LAST_YEAR).flat_map(of_year).collect()),
        ("cycle-sums", days().into_iter().flat_map(sums).collect()),
        ("cycle-months", days().into_iter().flat_map(months).collect()),
        ("cycle-differences", differences()),
        ("cycle-comparisons", days().into_iter().flat_map(comparisons).collect()),
        ("cycle-adjustments", days().into_iter().flat_map(adjustments).collect()),
        ("cycle-casts", days().into_iter().flat_map(casts).collect()),
    ]
}

fn call(word: &str, left: &Value, right: &Value) -> String {
    format!("{word}|{}|{}|{}|{}", left.kind().name(), write(left), right.kind().name(), write(right))
}

fn date(day: i64) -> Value {
    Value::Date { day, zone: None }
}

fn date_time(day: i64, tick: i128, zone: Zone) -> Value {
    Value::DateTime { tick: day as i128 * ticks_a_day() + tick, zone }
}

fn span(days: i64, ticks: i128) -> Value {
    Value::DayTime(days as i128 * ticks_a_day() + ticks)
}

/// How far a year's first day lies from the calendar's first day and its last day from the last, and sums that go so far
/// and land on the year's last day and on its first.
fn of_year(year: i64) -> [String; 4] {
    let days = days_of(year);
    let (first, last) = (days[0], days[days.len() - 1]);
    [
        call("subtract", &date(first), &date(first_day())),
        call("subtract", &date(last), &date(last_day())),
        call("add", &date(first_day()), &span(last - first_day(), 0)),
        call("subtract", &date(last_day()), &span(last_day() - first, 0)),
    ]
}

/// Each count of days forth and back, of dates; of dateTimes a tick more, into the next day or the one before.
fn sums(day: i64) -> Vec<String> {
    let both_ways = |days: i64| {
        let beyond = span(days, 1);
        [
            call("add", &date(day), &span(days, 0)),
            call("add", &date(day), &span(-days, 0)),
            call("subtract", &date(day), &span(days, 0)),
            call("subtract", &date(day), &span(-days, 0)),
            call("add", &date_time(day, last_tick(), None), &beyond),
            call("subtract", &date_time(day, 0, None), &beyond),
        ]
    };
    counts().into_iter().flat_map(both_ways).collect()
}

/// A month, a year, four, a hundred, a month less than four hundred, four hundred, and 9,600 years, forth and back.
fn months(day: i64) -> Vec<String> {
    let both_ways = |months: i128| {
        let months = Value::YearMonth(months);
        [call("add", &date(day), &months), call("subtract", &date(day), &months)]
    };
    [1, 12, 48, 1_200, 4_799, 4_800, 115_200].into_iter().flat_map(both_ways).collect()
}

/// From the last day of each of the years to the first of each, and from each of the days to both ends of the calendar,
/// the instants of which lie in the years before the first and after the last.
fn differences() -> Vec<String> {
    let last_of = |year: i64| *days_of(year).last().expect("a year has a last day");
    let mut calls = Vec::new();
    for &year in YEARS {
        calls.extend(YEARS.iter().map(|&other| call("subtract", &date(days_of(year)[0]), &date(last_of(other)))));
    }
    let (start, end) = (date_time(first_day(), 0, Some(840)), date_time(last_day(), last_tick(), Some(-840)));
    for day in days() {
        calls.push(call("subtract", &date_time(day, last_tick(), Some(-840)), &start));
        calls.push(call("subtract", &date_time(day, 0, Some(840)), &end));
        calls.push(call("subtract", &start, &date_time(day, 0, None)));
        calls.push(call("subtract", &end, &date_time(day, last_tick(), None)));
    }
    calls
}

/// A day and the next one, in zones in which they are one instant, and a minute or a tick either side.
fn comparisons(day: i64) -> Vec<String> {
    if day == last_day() {
        return Vec::new();
    }
    let dates = [-599, -600, -601].map(|zone| {
        let west = Value::Date { day, zone: Some(zone) };
        call("compare", &west, &Value::Date { day: day + 1, zone: Some(840) })
    });
    let east = date_time(day + 1, 840 * ticks_a_minute(), Some(840));
    let instants = [date_time(day, last_tick(), None), date_time(day + 1, 0, None), date_time(day + 1, 1, None)];
    dates.into_iter().chain(instants.iter().map(|instant| call("compare", instant, &east))).collect()
}

/// From the farthest zones and from UTC to them and to those beside it, at the first and last tick of the day.
fn adjustments(day: i64) -> Vec<String> {
    let mut calls = Vec::new();
    for zone in [0, 840, -840].map(Some) {
        for value in [Value::Date { day, zone }, date_time(day, 0, zone), date_time(day, last_tick(), zone)] {
            let zones = [-840, -1, 0, 1, 840].map(|minutes| Value::DayTime(minutes * ticks_a_minute()));
            calls.extend(zones.iter().map(|other| call("adjust", &value, other)));
        }
    }
    calls
}

/// Casts, and 24:00:00, which is the next day.
fn casts(day: i64) -> Vec<String> {
    let day = date_text(day);
    vec![
        format!("cast|xs:date|{day}-14:00|xs:dateTime"),
        format!("cast|xs:dateTime|{day}T23:59:59.999999999+14:00|xs:date"),
        format!("cast|xs:dateTime|{day}T24:00:00|xs:date"),
        format!("read|xs:dateTime|{day}T24:00:00Z"),
        format!("components|xs:dateTime|{day}T24:00:00-14:00"),
    ]
}
