//! Texts of values: most of them good, many near a bound.

use super::cycle;
use super::random::Random;
use crate::values::calendar::month_length;
use crate::values::reading::read;
use crate::values::ticks::fraction_digits;
use crate::values::writing::date_text;
use crate::values::{most_duration_ticks, ticks_a_day, ticks_a_minute, ticks_a_second, ticks_an_hour};
use crate::values::{Kind, Value, MOST_DURATION_MONTHS, MOST_DURATION_SECONDS};

/// A text that reads as a value of the kind, almost always.
pub fn good(random: &mut Random, kind: Kind) -> String {
    match kind {
        Kind::Date => format!("{}{}", date(random), zone(random)),
        Kind::Time => format!("{}{}", clock(random), zone(random)),
        Kind::DateTime => format!("{}T{}{}", date(random), clock(random), zone(random)),
        Kind::DayTime => day_time(random),
        Kind::YearMonth => year_month(random),
    }
}

/// A good text together with its value.
pub fn good_value(random: &mut Random, kind: Kind) -> (String, Value) {
    loop {
        let text = good(random, kind);
        if let Ok(value) = read(kind, text.as_bytes()) {
            return (text, value);
        }
    }
}

fn year(random: &mut Random) -> i64 {
    match random.weighted(&[25, 15, 15, 15, 10, 20]) {
        0 => random.between(1990, 2030),
        1 => random.pick(&[1, 1, 1, 2, 3, 4]),
        2 => random.pick(&[9999, 9999, 9999, 9998, 9997, 9996]),
        3 => random.pick(cycle::YEARS),
        4 => random.pick(&[100, 200, 400, 999, 1000, 1001, 1600, 1700, 1900, 2000, 2100, 2400]),
        _ => random.between(1, 9999),
    }
}

fn date(random: &mut Random) -> String {
    if random.chance(10) {
        return date_text(cycle::day(random));
    }
    let year = year(random);
    let month = if random.chance(50) { random.pick(&[1, 2, 2, 3, 12]) } else { random.between(1, 12) };
    let last = month_length(year, month);
    let day = match random.weighted(&[25, 35, 40]) {
        0 => 1,
        1 => last,
        _ => random.between(1, last),
    };
    format!("{year:04}-{month:02}-{day:02}")
}

fn clock(random: &mut Random) -> String {
    if random.chance(8) {
        return format!("24:00:00{}", random.pick(&["", "", ".0", ".000000", ".0000000", ".000000000"]));
    }
    if random.chance(25) {
        return random
            .pick(&[
                "00:00:00",
                "23:59:59",
                "23:59:59.999999",
                "00:00:00.000001",
                "23:59:59.999999999",
                "23:59:59.999999999",
                "00:00:00.000000001",
                "00:00:00.000000001",
                "12:00:00",
                "10:00:00",
                "14:00:00",
            ])
            .to_string();
    }
    let hour = if random.chance(30) { random.pick(&[0, 9, 10, 23]) } else { random.between(0, 23) };
    let minute = if random.chance(40) { random.pick(&[0, 1, 30, 59]) } else { random.between(0, 59) };
    let second = if random.chance(50) { random.pick(&[0, 0, 0, 1, 59]) } else { random.between(0, 59) };
    format!("{hour:02}:{minute:02}:{second:02}{}", fraction(random))
}

/// Nothing, or a point and digits, as many as a fraction has at most or fewer, among them final zeros.
fn fraction(random: &mut Random) -> String {
    match random.weighted(&[44, 15, 36, 5]) {
        0 => String::new(),
        1 => random.pick(FRACTIONS).to_string(),
        2 => {
            let most = fraction_digits();
            let least = if random.chance(50) { most - 2 } else { 1 };
            let count = random.between(least as i64, most as i64) as usize;
            format!(".{}", fraction_of(random, count))
        }
        _ => long_fraction(random),
    }
}

const FRACTIONS: &[&str] = &[
    ".0",
    ".000000",
    ".0000000",
    ".000000000",
    ".5",
    ".50",
    ".000001",
    ".0000001",
    ".000000001",
    ".999999",
    ".9999999",
    ".999999999",
    ".100000",
    ".100000000",
    ".000010",
    ".000000010",
    ".1",
];

/// So many digits, now and then all nines or all zeros.
fn fraction_of(random: &mut Random, count: usize) -> String {
    match random.below(12) {
        0 => "9".repeat(count),
        1 => "0".repeat(count),
        _ => (0..count).map(|_| random.pick(&['0', '1', '5', '9', '0', '7', '3'])).collect(),
    }
}

/// A fraction that is too long, most often by one digit.
fn long_fraction(random: &mut Random) -> String {
    let many = random.between(4, 30) as usize;
    let count = fraction_digits() + random.pick(&[1, 1, 1, 1, 2, 2, 3, many]);
    format!(".{}", fraction_of(random, count))
}

/// Ticks below a second, often at an end, and often whole microseconds or milliseconds.
pub fn part_of_a_second(random: &mut Random) -> i128 {
    let second = ticks_a_second();
    let any = random.between(0, second as i64 - 1) as i128;
    let micro = second / 1_000_000;
    match random.weighted(&[25, 10, 10, 10, 15, 30]) {
        0 => 0,
        1 => 1,
        2 => second - 1,
        3 => any - any % (micro * 1_000),
        4 => any - any % micro,
        _ => any,
    }
}

pub fn zone(random: &mut Random) -> String {
    match random.weighted(&[35, 12, 8, 15, 15, 15]) {
        0 => String::new(),
        1 => "Z".to_string(),
        2 => random.pick(&["+00:00", "-00:00"]).to_string(),
        3 => random.pick(&["+14:00", "-14:00", "+13:59", "-13:59", "+00:01", "-00:01", "+00:59", "-12:00"]).to_string(),
        4 => random.pick(&["+01:00", "+02:00", "-05:00", "+05:30", "-07:00", "-10:00", "+10:30"]).to_string(),
        _ => format!("{}{:02}:{:02}", random.pick(&['+', '-']), random.between(0, 13), random.between(0, 59)),
    }
}

fn sign(random: &mut Random) -> &'static str {
    if random.chance(30) {
        "-"
    } else {
        ""
    }
}

/// Digits of a number, sometimes after leading zeros, seldom after thousands of them.
fn digits(random: &mut Random, number: i128) -> String {
    match random.below(200) {
        0..=9 => format!("{}{number}", "0".repeat(random.below(12))),
        10 => format!("{}{number}", "0".repeat(random.below(2000))),
        _ => number.to_string(),
    }
}

fn day_time(random: &mut Random) -> String {
    if random.chance(12) {
        return random
            .pick(&[
                "PT0S",
                "-PT0S",
                "P0D",
                "PT0.000000S",
                "P1D",
                "PT24H",
                "PT1H",
                "PT60M",
                "PT3600S",
                "PT36H",
                "-P1D",
                "PT0.000001S",
                "-PT0.000001S",
                "PT1M",
                "-PT1M",
                "P0DT0H0M0S",
                "PT14H",
                "-PT14H",
                "P1DT12H",
                "PT1.5S",
                "PT0.000000000S",
                "-PT0.000000000S",
                "PT0.0000000S",
                "PT0.000000001S",
                "-PT0.000000001S",
                "PT0.999999999S",
                "-PT0.999999999S",
                "PT1.000000001S",
                "PT59.999999999S",
                "-PT0.5S",
            ])
            .to_string();
    }
    if random.chance(12) {
        let (second, day) = (ticks_a_second(), ticks_a_day());
        let near = most_duration_ticks() - random.pick(&[0, 0, 1, 2, second / 1_000_000, second - 1, second, day]);
        return format!("{}{}", sign(random), day_time_form(random, near));
    }
    if random.chance(12) {
        let days = cycle::count(random) as i128 * ticks_a_day();
        let clock = random.pick(&[0, 0, 0, 1, ticks_a_day() - 1]);
        return format!("{}{}", sign(random), day_time_form(random, days + clock));
    }
    if random.chance(3) {
        return format!("{}PT{}{}S", sign(random), random.between(0, 100_000), long_fraction(random));
    }
    let magnitude = match random.weighted(&[20, 20, 20, 25, 15]) {
        0 => random.between(0, 100) as i128 * ticks_a_minute(),
        1 => random.between(0, 200_000) as i128 * ticks_a_second(),
        2 => random.between(0, 40_000_000) as i128 * ticks_a_second() + part_of_a_second(random),
        3 => random.between(0, 400) as i128 * ticks_a_day() + random.pick(&[0, 0, 1, ticks_an_hour(), ticks_a_day() - 1]),
        _ => {
            let seconds = random.between(0, MOST_DURATION_SECONDS as i64 - 1) as i128;
            seconds * ticks_a_second() + part_of_a_second(random)
        }
    };
    format!("{}{}", sign(random), day_time_form(random, magnitude))
}

/// One of the many texts of so many ticks.
pub fn day_time_form(random: &mut Random, magnitude: i128) -> String {
    let days = if random.chance(60) { magnitude / ticks_a_day() } else { 0 };
    let mut rest = magnitude - days * ticks_a_day();
    let hours = if random.chance(60) { rest / ticks_an_hour() } else { 0 };
    rest -= hours * ticks_an_hour();
    let minutes = if random.chance(60) { rest / ticks_a_minute() } else { 0 };
    rest -= minutes * ticks_a_minute();
    let mut text = String::from("P");
    if days > 0 || random.chance(10) {
        text += &format!("{}D", digits(random, days));
    }
    let mut clock = String::new();
    if hours > 0 || random.chance(10) {
        clock += &format!("{}H", digits(random, hours));
    }
    if minutes > 0 || random.chance(10) {
        clock += &format!("{}M", digits(random, minutes));
    }
    if rest > 0 || random.chance(10) || (clock.is_empty() && text == "P") {
        let second = ticks_a_second();
        clock += &format!("{}{}S", digits(random, rest / second), duration_fraction(random, rest % second));
    }
    if !clock.is_empty() {
        text += &format!("T{clock}");
    }
    text
}

/// The fraction with all of its final zeros, with some of them, or without.
fn duration_fraction(random: &mut Random, ticks: i128) -> String {
    let full = format!(".{ticks:0most$}", most = fraction_digits());
    let least = full.trim_end_matches('0').len();
    match random.below(10) {
        0 => full,
        1 => full[..random.between(least.max(2) as i64, full.len() as i64) as usize].to_string(),
        _ => full[..least].trim_end_matches('.').to_string(),
    }
}

fn year_month(random: &mut Random) -> String {
    if random.chance(10) {
        return random.pick(&["P0M", "-P0M", "P0Y", "P1Y", "P12M", "P1M", "-P1M", "P0Y0M", "P83333Y4M", "P1000000M"]).to_string();
    }
    let months = match random.weighted(&[45, 20, 15, 20]) {
        0 => random.between(0, 30),
        1 => random.between(0, 1300),
        2 => 1_000_000 - random.between(0, 13),
        _ => random.between(0, 120_000),
    };
    format!("{}{}", sign(random), year_month_form(random, months as i128))
}

pub fn year_month_form(random: &mut Random, months: i128) -> String {
    let years = if random.chance(60) { months / 12 } else { 0 };
    let rest = months - years * 12;
    let mut text = String::from("P");
    if years > 0 || random.chance(10) {
        text += &format!("{}Y", digits(random, years));
    }
    if rest > 0 || random.chance(10) || text == "P" {
        text += &format!("{}M", digits(random, rest));
    }
    text
}

/// A text of a signed number of ticks or months, if it is within the kind's bounds or just beyond.
pub fn duration_text(random: &mut Random, kind: Kind, number: i128) -> String {
    let minus = if number < 0 || (number == 0 && random.chance(10)) { "-" } else { "" };
    match kind {
        Kind::YearMonth => format!("{minus}{}", year_month_form(random, number.abs())),
        _ => format!("{minus}{}", day_time_form(random, number.abs())),
    }
}

/// A zone to adjust to: mostly whole minutes within 14 hours, else near that.
pub fn adjustment(random: &mut Random) -> String {
    if random.chance(15) {
        return random
            .pick(&[
                "PT14H1M",
                "-PT14H1M",
                "PT14H0.000001S",
                "-PT14H0.000001S",
                "PT14H0.000000001S",
                "-PT14H0.000000001S",
                "PT13H59M59.999999999S",
                "PT30S",
                "PT1M0.5S",
                "-PT0.000001S",
                "-PT0.000000001S",
                "P1D",
                "-P1D",
                "PT841M",
                "PT13H59M60.000001S",
                "PT50401S",
                "-PT50401S",
                "P11574074D",
                "PT59.999999S",
                "PT59.999999999S",
                "PT15H",
            ])
            .to_string();
    }
    let minutes = match random.weighted(&[25, 35, 40]) {
        0 => random.pick(&[840, -840, 839, -839, 0, 0, 1, -1]),
        1 => random.between(-14, 14) * 60,
        _ => random.between(-840, 840),
    };
    let beside = if random.chance(4) { random.pick(&[1, -1]) } else { 0 };
    duration_text(random, Kind::DayTime, minutes as i128 * ticks_a_minute() + beside)
}

/// A text that is just beyond a bound, or in some other way good in all but one thing.
pub fn beyond(random: &mut Random, kind: Kind) -> String {
    match kind {
        Kind::Date => format!("{}{}", beyond_date(random), zone(random)),
        Kind::Time => match random.below(2) {
            0 => format!("{}{}", beyond_clock(random), zone(random)),
            _ => format!("{}{}", clock(random), beyond_zone(random)),
        },
        Kind::DateTime => match random.below(5) {
            0 | 1 => format!("{}T{}{}", beyond_date(random), clock(random), zone(random)),
            2 => format!("{}T{}{}", date(random), beyond_clock(random), zone(random)),
            3 => format!("{}T{}{}", date(random), clock(random), beyond_zone(random)),
            _ => beyond_twice(random),
        },
        Kind::DayTime => beyond_day_time(random),
        Kind::YearMonth => beyond_year_month(random),
    }
}

/// Two faults in one text, so that the order of the checks shows.
fn beyond_twice(random: &mut Random) -> String {
    if random.chance(40) {
        let zone = random.pick(&["+14:01", "-15:00", "+00:60", "-14:01", "+14:00", "-14:00", "Z", ""]);
        let fraction = random.pick(&["", "", ".000000", ".000000000", ".0000000000", ".000000001"]);
        return format!("9999-12-31T24:00:00{fraction}{zone}");
    }
    let day = random.pick(&["9999-12-31", "12000-13-45", "2000-02-30", "-0001-00-01", "10000-01-01", "2000-01-01", "9999-12-30"]);
    let clock =
        random.pick(&["24:00:00", "24:00:00.0000000000", "25:00:00", "24:00:01", "12:00:60", "23:59:59.1234567891", "00:00:00"]);
    let zone = random.pick(&["", "Z", "+14:00", "+14:01", "-15:00", "+00:60", "-14:00"]);
    format!("{day}T{clock}{zone}")
}

fn beyond_date(random: &mut Random) -> String {
    let long_year = format!("{}{}", random.between(1, 9), "0".repeat(4 + random.below(40)));
    match random.below(8) {
        0 => {
            random.pick(&["10000-01-01", "12000-13-45", "-0001-12-31", "-9999-01-01", "99999-99-99", "-10000-01-01"]).to_string()
        }
        1 => random
            .pick(&["0000-01-01", "-0000-01-01", "02000-01-01", "00001-01-01", "-00001-01-01", "200-01-01", "00000-01-01"])
            .to_string(),
        2 => random
            .pick(&["1900-02-29", "2100-02-29", "2001-02-29", "2000-02-30", "2023-04-31", "2024-06-31", "0001-02-29"])
            .to_string(),
        3 => random
            .pick(&["2000-13-01", "2000-00-01", "2000-01-00", "2000-01-32", "2000-99-99", "2000-11-31", "2000-09-31"])
            .to_string(),
        4 => random
            .pick(&["2000-1-01", "2000-01-1", "2000-001-01", "2000-01-001", "20000101", "2000-0101", "2000/01/01"])
            .to_string(),
        5 => {
            random.pick(&["9999-12-31T24:00:00", "2000-01-01T00:00:00", "+2000-01-01", "--2000-01-01", "2000-01-01-"]).to_string()
        }
        6 => format!("{long_year}-01-01"),
        _ => format!("-{long_year}-02-30"),
    }
}

fn beyond_clock(random: &mut Random) -> String {
    match random.below(5) {
        0 => random
            .pick(&[
                "24:00:01",
                "24:01:00",
                "24:00:00.000001",
                "24:00:00.000000001",
                "24:00:00.0000000000",
                "25:00:00",
                "24:59:59",
                "99:99:99",
                "25:00:00.0000000000",
            ])
            .to_string(),
        1 => random.pick(&["23:60:00", "23:59:60", "00:00:61", "00:99:00", "12:60:60", "23:59:60.5"]).to_string(),
        2 => random
            .pick(&["1:00:00", "01:0:00", "01:00:0", "01:00", "010:00:00", "01:00:000", "01:00:00.", "01:00:.5"])
            .to_string(),
        3 => format!("12:00:00.{}", "0".repeat(fraction_digits() + 1 + random.below(30))),
        _ => format!("{:02}:59:59{}", random.between(0, 24), long_fraction(random)),
    }
}

fn beyond_zone(random: &mut Random) -> String {
    random
        .pick(&[
            "+14:01",
            "-14:01",
            "+14:59",
            "+15:00",
            "-15:00",
            "+13:60",
            "-00:60",
            "+14:60",
            "+99:99",
            "z",
            "+1:00",
            "+01:0",
            "+0100",
            "ZZ",
            "+01",
            "-",
            "+",
            "Z+01:00",
            "+01:00Z",
            " Z",
            "Z\u{c}",
            "+01:00:00",
        ])
        .to_string()
}

fn beyond_day_time(random: &mut Random) -> String {
    let minus = sign(random);
    let body = match random.below(6) {
        0 => {
            let over =
                random.pick(&[1, 1, 2, ticks_a_second() / 1_000_000, ticks_a_second() - 1, ticks_a_second(), ticks_a_minute()]);
            day_time_form(random, most_duration_ticks() + over)
        }
        1 => {
            let great = random.pick(&["1", "9", "18446744073709551616", "340282366920938463463374607431768211456"]);
            let letter = random.pick(&["D", "H", "M", "S"]);
            let time = if letter == "D" { "" } else { "T" };
            format!("P{time}{great}{}{letter}", "0".repeat(random.pick(&[0, 12, 19, 38, 40, 700])))
        }
        2 => format!("PT{}{}S", random.pick(&["0", "1", "59", "1000000000000", "99999999999999"]), long_fraction(random)),
        3 => random
            .pick(&["P", "PT", "P1DT", "PT1", "P1", "P1H", "PT1D", "P1Y", "P1M", "P1Y2M3DT4H", "P1YT1H", "PT1Y"])
            .to_string(),
        4 => random
            .pick(&["PT1S1M", "PT1M1H", "PT1H1H", "PT1.S", "PT.5S", "PT1.5M", "PT1.5H", "P1.5D", "PT1.5S1S", "PTS", "PD"])
            .to_string(),
        _ => format!("PT1000000000000.{:0digits$}S", random.below(3), digits = fraction_digits() + random.below(2)),
    };
    format!("{minus}{body}")
}

fn beyond_year_month(random: &mut Random) -> String {
    let minus = sign(random);
    let body = match random.below(5) {
        0 => {
            let over = random.between(1, 13) as i128;
            year_month_form(random, MOST_DURATION_MONTHS + over)
        }
        1 => random.pick(&["P83333Y5M", "P1000001M", "P83334Y", "P83333Y5M", "P0Y1000001M", "P83332Y17M"]).to_string(),
        2 => {
            let great = random.pick(&["1", "4294967296", "18446744073709551616", "340282366920938463463374607431768211456"]);
            format!("P{great}{}{}", "0".repeat(random.pick(&[0, 7, 19, 38, 700])), random.pick(&["Y", "M"]))
        }
        3 => random
            .pick(&["P", "PY", "PM", "P1", "P1M1Y", "P1D", "P1Y1D", "PT1M", "P1YT", "P1Y1M1M", "P1Y1Y", "P1.5Y", "P1.5M"])
            .to_string(),
        _ => random.pick(&["P1Y1", "1Y", "--P1Y", "+P1Y", "P-1Y", "P1YM", "p1Y", "P1y", "P 1Y", "P1Y\u{b}"]).to_string(),
    };
    format!("{minus}{body}")
}
