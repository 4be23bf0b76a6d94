//! Calls for the calculator, most of them meaningful.

use super::blanks::IN_A_FIELD;
use super::cycle;
use super::damage::{damaged, noise};
use super::random::Random;
use super::texts;
use crate::conditions::kinds::{difference_kind, sum_kind};
use crate::values::operations::{add, adjust, casts, subtract};
use crate::values::writing::write;
use crate::values::{most_duration_ticks, ticks_a_day, ticks_a_minute, ticks_a_second};
use crate::values::{Kind, Value, KINDS, MOST_DURATION_MONTHS};

/// One call without its newline.
pub fn call(random: &mut Random) -> Vec<u8> {
    let mut line = match random.weighted(&[16, 15, 19, 19, 9, 7, 11, 4, 7]) {
        0 => one(random, "read"),
        1 => compare(random),
        2 => sum(random),
        3 => difference(random),
        4 => product(random),
        5 => cast(random),
        6 => adjustment(random),
        7 => one(random, "unzone"),
        _ => one(random, "components"),
    };
    if random.chance(15) {
        line = with_blanks(random, &line);
    }
    if random.chance(2) {
        return malformed(random, line);
    }
    line
}

fn joined(fields: &[&[u8]]) -> Vec<u8> {
    fields.join(&b'\t')
}

/// The call with blanks in one of its texts, or in each of them.
fn with_blanks(random: &mut Random, line: &[u8]) -> Vec<u8> {
    let mut fields: Vec<Vec<u8>> = line.split(|&byte| byte == b'\t').map(<[u8]>::to_vec).collect();
    let places: &[usize] = match (fields.len(), random.below(4)) {
        (5, 0) => &[2, 4],
        (5, 1) => &[4],
        _ => &[2],
    };
    for &place in places {
        fields[place] = IN_A_FIELD.any(random, &fields[place]);
    }
    fields.join(&b'\t')
}

/// A text of the kind: mostly good, else just beyond or damaged.
pub(super) fn any_text(random: &mut Random, kind: Kind, good_percent: usize) -> Vec<u8> {
    if random.chance(good_percent) {
        return texts::good(random, kind).into_bytes();
    }
    match random.below(5) {
        0 => {
            let other = random.pick(&KINDS);
            texts::good(random, other).into_bytes()
        }
        1 | 2 => texts::beyond(random, kind).into_bytes(),
        _ => {
            let text = texts::good(random, kind);
            damaged(random, text.as_bytes())
        }
    }
}

fn one(random: &mut Random, word: &str) -> Vec<u8> {
    let kind = match word {
        "unzone" if random.chance(90) => random.pick(&[Kind::Date, Kind::Time, Kind::DateTime]),
        _ => random.pick(&KINDS),
    };
    let good_percent = if word == "read" { 50 } else { 92 };
    let text = any_text(random, kind, good_percent);
    joined(&[word.as_bytes(), kind.name().as_bytes(), &text])
}

fn two(random: &mut Random, word: &str, first: (Kind, Vec<u8>), second: (Kind, Vec<u8>)) -> Vec<u8> {
    let mut fields = [first, second];
    if random.chance(4) {
        let place = random.below(2);
        fields[place].1 = any_text(random, fields[place].0, 0);
    }
    let [(left, left_text), (right, right_text)] = fields;
    joined(&[word.as_bytes(), left.name().as_bytes(), &left_text, right.name().as_bytes(), &right_text])
}

fn compare(random: &mut Random) -> Vec<u8> {
    let kind = random.pick(&KINDS);
    let (text, value) = texts::good_value(random, kind);
    let (other_kind, other) = match random.weighted(&[55, 39, 6]) {
        0 => (kind, near(random, &value)),
        1 => (kind, texts::good(random, kind)),
        _ => {
            let other_kind = random.pick(&KINDS);
            (other_kind, texts::good(random, other_kind))
        }
    };
    let (first, second) = ((kind, text.into_bytes()), (other_kind, other.into_bytes()));
    if random.chance(50) {
        return two(random, "compare", second, first);
    }
    two(random, "compare", first, second)
}

/// A text of an equal value, often written in another zone or form, or of one just beside it.
pub(super) fn near(random: &mut Random, value: &Value) -> String {
    let (second, minute, day) = (ticks_a_second(), ticks_a_minute(), ticks_a_day());
    let step = random.pick(&[0, 0, 0, 0, 0, 1, -1, 1, second / 1_000_000, second, minute, -minute, day, -day]);
    match *value {
        Value::DayTime(ticks) => texts::duration_text(random, Kind::DayTime, ticks + step),
        Value::YearMonth(months) => texts::duration_text(random, Kind::YearMonth, months + step.signum()),
        _ if random.chance(40) => same_instant(random, value),
        _ => {
            let moved = add(value, &Value::DayTime(step)).unwrap_or(*value);
            let zone = Value::DayTime(random.between(-840, 840) as i128 * ticks_a_minute());
            let Ok(at_utc) = adjust(&moved, &Value::DayTime(0)) else {
                return write(&moved);
            };
            let start = if random.chance(60) { at_utc } else { moved };
            write(&adjust(&start, &zone).unwrap_or(moved))
        }
    }
}

/// The value in another zone, its instant kept: a date a day before or after, a time on the same day, where there is
/// such a zone; else the value itself.
fn same_instant(random: &mut Random, value: &Value) -> String {
    let at = |zone: &Option<i64>| zone.unwrap_or(0);
    let moved = match value {
        Value::Date { day, zone } if at(zone) <= -600 => Value::Date { day: day + 1, zone: Some(at(zone) + 1440) },
        Value::Date { day, zone } if at(zone) >= 600 => Value::Date { day: day - 1, zone: Some(at(zone) - 1440) },
        Value::Time { tick, zone } => {
            let minutes = (tick / ticks_a_minute()) as i64;
            let least = (-840).max(at(zone) - minutes);
            let most = 840.min(at(zone) + 1439 - minutes);
            let other = random.between(least, most);
            Value::Time { tick: tick + (other - at(zone)) as i128 * ticks_a_minute(), zone: Some(other) }
        }
        Value::DateTime { .. } => {
            let zone = Value::DayTime(random.between(-840, 840) as i128 * ticks_a_minute());
            adjust(&adjust(value, &Value::DayTime(0)).unwrap_or(*value), &zone).unwrap_or(*value)
        }
        _ => *value,
    };
    write(&moved)
}

fn sum(random: &mut Random) -> Vec<u8> {
    let (left, right) = fitting_kinds(random, sum_kind);
    let (first, value) = texts::good_value(random, left);
    let second = match (left.is_duration(), right.is_duration()) {
        (_, true) => step_text(random, &value, right, 1),
        _ => texts::good(random, right),
    };
    let sides = ((left, first.into_bytes()), (right, second.into_bytes()));
    if random.chance(35) && !left.is_duration() {
        return two(random, "add", sides.1, sides.0);
    }
    two(random, "add", sides.0, sides.1)
}

fn difference(random: &mut Random) -> Vec<u8> {
    let (left, right) = fitting_kinds(random, difference_kind);
    let (first, value) = texts::good_value(random, left);
    let second = match right.is_duration() {
        true => step_text(random, &value, right, -1),
        false if left == right && random.chance(40) => near(random, &value),
        false => texts::good(random, right),
    };
    two(random, "subtract", (left, first.into_bytes()), (right, second.into_bytes()))
}

fn fitting_kinds(random: &mut Random, fit: fn(Kind, Kind) -> Option<Kind>) -> (Kind, Kind) {
    loop {
        let (left, right) = (random.pick(&KINDS), random.pick(&KINDS));
        if fit(left, right).is_some() || random.chance(8) {
            return (left, right);
        }
    }
}

/// A duration to be added to the value (`direction` 1) or taken from it (-1), often so that the result stands at the
/// kind's first or last value, at a day of the calendar's cycle, or beside one of these.
fn step_text(random: &mut Random, value: &Value, kind: Kind, direction: i128) -> String {
    if random.chance(55) {
        return texts::good(random, kind);
    }
    let second = ticks_a_second();
    let beside = random.pick(&[0, 0, 1, -1, 1, -1, 2, -2, second / 1_000_000, second, -second]);
    let last = random.chance(50);
    let number = match (value, kind) {
        (Value::DayTime(ticks), Kind::DayTime) => {
            (if last { most_duration_ticks() } else { -most_duration_ticks() }) - ticks + beside
        }
        (Value::YearMonth(months), Kind::YearMonth) => {
            (if last { MOST_DURATION_MONTHS } else { -MOST_DURATION_MONTHS }) - months + beside.signum()
        }
        (_, Kind::DayTime) => ticks_to_turn(random, value, last) + beside,
        (_, _) => months_to_end(value, last) + beside.signum(),
    };
    let bound = if kind == Kind::DayTime { most_duration_ticks() } else { MOST_DURATION_MONTHS };
    if number.abs() > bound {
        return texts::good(random, kind);
    }
    texts::duration_text(random, kind, direction * number)
}

/// Local ticks to a day of the cycle, or to an end; for a time, which has no day, always to an end.
fn ticks_to_turn(random: &mut Random, value: &Value, last: bool) -> i128 {
    let start = cycle::day(random) as i128 * ticks_a_day();
    match *value {
        Value::DateTime { tick, .. } if random.chance(50) => start - tick,
        Value::Date { day, .. } if random.chance(50) => start - day as i128 * ticks_a_day(),
        _ => ticks_to_end(value, last),
    }
}

/// Local ticks to the last or first dateTime; for a time to the end or start of its day.
fn ticks_to_end(value: &Value, last: bool) -> i128 {
    let day = ticks_a_day();
    match *value {
        Value::DateTime { tick, .. } if last => (crate::values::last_day() as i128 + 1) * day - 1 - tick,
        Value::DateTime { tick, .. } => crate::values::first_day() as i128 * day - tick,
        Value::Date { day: at, .. } if last => (crate::values::last_day() - at + 1) as i128 * day - 1,
        Value::Date { day: at, .. } => (crate::values::first_day() - at) as i128 * day,
        Value::Time { tick, .. } if last => day - 1 - tick,
        Value::Time { tick, .. } => -tick,
        _ => 0,
    }
}

/// Whole months to December 9999 or to January of year 1.
fn months_to_end(value: &Value, last: bool) -> i128 {
    let days = match *value {
        Value::Date { day, .. } => day,
        Value::DateTime { tick, .. } => tick.div_euclid(ticks_a_day()) as i64,
        _ => 0,
    };
    let date = crate::values::calendar::civil_from_days(days);
    let at = date.year * 12 + date.month - 1;
    let end = if last { 9999 * 12 + 11 } else { 12 };
    (end - at) as i128
}

fn product(random: &mut Random) -> Vec<u8> {
    let kind = if random.chance(94) { random.pick(&[Kind::DayTime, Kind::YearMonth]) } else { random.pick(&KINDS) };
    let factor = factor(random);
    let text = match kind {
        Kind::DayTime | Kind::YearMonth if factor != 0 && random.chance(40) => near_quotient(random, kind, factor),
        _ => texts::good(random, kind),
    };
    let text = if random.chance(3) { any_text(random, kind, 0) } else { text.into_bytes() };
    let zeros = if random.chance(5) { "0".repeat(random.below(30)) } else { String::new() };
    let minus = if factor < 0 || (factor == 0 && random.chance(40)) { "-" } else { "" };
    let digits = format!("{minus}{zeros}{}", factor.abs());
    joined(&[b"multiply", kind.name().as_bytes(), &text, digits.as_bytes()])
}

fn factor(random: &mut Random) -> i128 {
    let magnitude = match random.weighted(&[38, 10, 12, 8, 8, 24]) {
        0 => random.between(0, 30) as i128,
        1 => random.between(31, 99_999) as i128,
        2 => random.pick(&[999_999, 999_998, 100_000]),
        3 => random.pick(&[1_000_000, 1_000_001, 10_000_000_000_000_000_000_000, 4_294_967_296, 18_446_744_073_709_551_617]),
        // The bounds can be divided by these.
        4 => random.pick(&[2, 5, 8, 125, 1_000, 15_625, 62_500, 500_000]),
        _ => random.between(0, 999_999) as i128,
    };
    if random.chance(40) {
        -magnitude
    } else {
        magnitude
    }
}

/// A duration whose product with the factor stands near the kind's bound.
fn near_quotient(random: &mut Random, kind: Kind, factor: i128) -> String {
    let bound = if kind == Kind::DayTime { most_duration_ticks() } else { MOST_DURATION_MONTHS };
    let quotient = bound / factor.abs() + random.pick(&[0, 0, 1, -1, -2]);
    texts::duration_text(random, kind, quotient.clamp(0, bound))
}

fn cast(random: &mut Random) -> Vec<u8> {
    loop {
        let (from, to) = (random.pick(&KINDS), random.pick(&KINDS));
        if casts(from, to) || random.chance(12) {
            let text = any_text(random, from, 93);
            return joined(&[b"cast", from.name().as_bytes(), &text, to.name().as_bytes()]);
        }
    }
}

fn adjustment(random: &mut Random) -> Vec<u8> {
    let unfit = random.chance(6);
    let kind = if unfit { random.pick(&KINDS) } else { random.pick(&[Kind::Date, Kind::Time, Kind::DateTime]) };
    let (text, value) = texts::good_value(random, kind);
    let text = if random.chance(30) { near_end(random, &value) } else { text };
    let zone_kind = if unfit { random.pick(&KINDS) } else { Kind::DayTime };
    let zone = if zone_kind == Kind::DayTime { texts::adjustment(random) } else { texts::good(random, zone_kind) };
    two(random, "adjust", (kind, text.into_bytes()), (zone_kind, zone.into_bytes()))
}

/// The same value moved to within 28 hours of the first or last dateTime or of a day of the cycle, in some zone.
fn near_end(random: &mut Random, value: &Value) -> String {
    let last = random.chance(50);
    let hours = random.between(0, 28 * 60) as i128 * ticks_a_minute();
    let step = ticks_to_turn(random, value, last) + if last { -hours } else { hours };
    let moved = subtract(value, &Value::DayTime(-step)).unwrap_or(*value);
    let bare = crate::values::operations::unzone(&moved).unwrap_or(moved);
    format!("{}{}", write(&bare), if value.kind().is_duration() { String::new() } else { texts::zone(random) })
}

/// A line that is no call, mostly.
fn malformed(random: &mut Random, line: Vec<u8>) -> Vec<u8> {
    let mut fields: Vec<Vec<u8>> = line.split(|&byte| byte == b'\t').map(<[u8]>::to_vec).collect();
    let place = random.below(fields.len());
    match random.below(9) {
        0 => drop(fields.remove(place)),
        1 => fields.insert(place, Vec::new()),
        2 => fields.push(noise(random)),
        3 => {
            fields[0] =
                random.pick(&["Read", "", "reads", "compare ", " add", "\rread", "read\r", "divide", "\r"]).as_bytes().to_vec()
        }
        4 => {
            fields[1] = random
                .pick(&["date", "xs:Date", "", "xs:duration", "xs:date ", " xs:date", "xs:date\r", "XS:date"])
                .as_bytes()
                .to_vec()
        }
        5 => fields[place] = damaged(random, &fields[place].clone()),
        6 => return noise(random),
        7 => return Vec::new(),
        _ => return bad_factor(random),
    }
    fields.join(&b'\t')
}

fn bad_factor(random: &mut Random) -> Vec<u8> {
    let factor = random.pick(&["", "-", "+5", "--5", "5.0", " 5", "5 ", "1e3", "5-", "-0", "000", "0x10", "five", "5\r"]);
    joined(&[b"multiply", b"xs:dayTimeDuration", b"PT1H", factor.as_bytes()])
}
