//! The fields of calls: a value's record, its zone, its sign and number.

use super::bounds::{DAYS, DAY_TIMES, MINUTES, MONTHS, NANOS, SECONDS, YEARS, YEAR_MONTHS};
use crate::generator::random::Random;
use crate::generator::texts;
use crate::values::calendar::civil_from_days;
use crate::values::{ticks_a_day, ticks_a_second, Kind, Value, Zone};

/// The numbers of the value's record, without its kind.
pub fn numbers_of(value: &Value) -> Vec<String> {
    match *value {
        Value::Date { day, zone } => moment(day, 0, zone),
        Value::Time { tick, zone } => moment(crate::values::operations::REFERENCE_DAY as i64, tick, zone),
        Value::DateTime { tick, zone } => moment(tick.div_euclid(ticks_a_day()) as i64, tick.rem_euclid(ticks_a_day()), zone),
        Value::DayTime(number) => {
            let (sign, size) = (if number < 0 { '-' } else { '+' }, number.abs());
            vec![format!("{sign}{}", size / ticks_a_second()), (size % ticks_a_second()).to_string()]
        }
        Value::YearMonth(number) => vec![format!("{number:+}")],
    }
}

fn moment(days: i64, tick: i128, zone: Zone) -> Vec<String> {
    let date = civil_from_days(days);
    let zone = zone.map_or("none".to_string(), |minutes| format!("{minutes:+}"));
    let (second, nano) = (tick / ticks_a_second(), tick % ticks_a_second());
    let numbers = [date.year as i128, date.month as i128, date.day as i128, second, nano];
    numbers.iter().map(i128::to_string).chain([zone]).collect()
}

/// A kind and the numbers of a record of it, with a tab between.
pub fn record(kind: Kind, numbers: &[String]) -> String {
    format!("{}\t{}", kind.name(), numbers.join("\t"))
}

/// Numbers of a record of the kind, half of them with one or two that stand at or beyond a bound.
pub fn any_numbers(random: &mut Random, kind: Kind) -> Vec<String> {
    let (_, value) = texts::good_value(random, kind);
    let mut numbers = numbers_of(&value);
    if random.chance(50) {
        return numbers;
    }
    for _ in 0..random.pick(&[1, 1, 1, 2]) {
        at_a_bound(random, kind, &mut numbers);
    }
    numbers
}

/// Puts a number at or beyond its bound into the record.
pub fn at_a_bound(random: &mut Random, kind: Kind, numbers: &mut [String]) {
    let place = random.below(numbers.len());
    numbers[place] = match (kind, place) {
        (Kind::DayTime, 0) => signed(random, DAY_TIMES),
        (Kind::DayTime, _) => number(random, NANOS),
        (Kind::YearMonth, _) => signed(random, YEAR_MONTHS),
        (_, 0) => number(random, YEARS),
        (_, 1) => number(random, MONTHS),
        (_, 2) => number(random, DAYS),
        (_, 3) => number(random, SECONDS),
        (_, 4) => number(random, NANOS),
        _ => signed(random, MINUTES),
    };
}

fn number(random: &mut Random, choices: &[u64]) -> String {
    let number = random.pick(choices);
    digits(random, number)
}

fn signed(random: &mut Random, choices: &[u64]) -> String {
    let sign = random.pick(&['+', '-']);
    format!("{sign}{}", number(random, choices))
}

/// The number's digits, seldom after zeros, very seldom more than twenty.
pub fn digits(random: &mut Random, number: u64) -> String {
    match random.below(100) {
        0..=2 => format!("{number:020}"),
        3 => format!("{number:021}"),
        4 => format!("0{number}"),
        _ => number.to_string(),
    }
}
