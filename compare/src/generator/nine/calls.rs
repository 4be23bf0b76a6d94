//! A table of calculator calls with nanoseconds: every call that reads, writes, adds or carries them, at and either side of
//! each bound.

use super::{days, fractions, LENGTHS};
use crate::values::writing::{date_text, write};
use crate::values::{first_day, last_day, most_duration_ticks, ticks_a_day, ticks_a_minute, ticks_a_second, Value, Zone};
use crate::values::{MOST_DURATION_SECONDS, MOST_FACTOR};

/// The parts of the table, written with `|` for a tab.
pub fn parts() -> Vec<(&'static str, Vec<String>)> {
    vec![
        ("nine-fractions", read_fractions()),
        ("nine-order-of-checks", order_of_checks()),
        ("nine-carries", carries()),
        ("nine-dates", dates()),
        ("nine-times", times()),
        ("nine-spans", spans()),
        ("nine-bounds", bounds()),
        ("nine-products", products()),
        ("nine-zones", zones()),
        ("nine-moves", moves()),
    ]
}

fn call(word: &str, left: &Value, right: &Value) -> String {
    format!("{word}|{}|{}|{}|{}", left.kind().name(), write(left), right.kind().name(), write(right))
}

fn of_one(word: &str, value: &Value) -> String {
    format!("{word}|{}|{}", value.kind().name(), write(value))
}

/// A tick of a day.
fn date_time(day: i64, tick: i128, zone: Zone) -> Value {
    Value::DateTime { tick: day as i128 * ticks_a_day() + tick, zone }
}

/// Every fraction in texts of each kind that has one, read and taken apart: `FRACTION` stands for the digits.
const WITH_FRACTIONS: &[&str] = &[
    "read|xs:time|00:00:00.FRACTION",
    "read|xs:time|23:59:59.FRACTION+14:00",
    "read|xs:time|24:00:00.FRACTION",
    "read|xs:dateTime|2024-02-29T23:59:59.FRACTION",
    "read|xs:dateTime|9999-12-31T23:59:59.FRACTION-14:00",
    "read|xs:dateTime|1999-12-31T24:00:00.FRACTIONZ",
    "read|xs:dayTimeDuration|PT0.FRACTIONS",
    "read|xs:dayTimeDuration|-PT0.FRACTIONS",
    "read|xs:dayTimeDuration|-P1DT1H1M1.FRACTIONS",
    "read|xs:dayTimeDuration|PT59.FRACTIONS",
    "read|xs:dayTimeDuration|PT999999999999.FRACTIONS",
    "read|xs:dayTimeDuration|-PT1000000000000.FRACTIONS",
    "components|xs:time|12:34:56.FRACTIONZ",
    "components|xs:dateTime|2024-02-29T00:00:00.FRACTION-05:00",
    "components|xs:dayTimeDuration|-PT0.FRACTIONS",
    "components|xs:dayTimeDuration|P1DT59.FRACTIONS",
    "cast|xs:dateTime|2024-02-29T23:59:59.FRACTION|xs:time",
    "cast|xs:dateTime|2024-02-29T23:59:59.FRACTION|xs:date",
    "unzone|xs:time|23:59:59.FRACTION-14:00",
    "add|xs:time|23:59:59.FRACTION|xs:dayTimeDuration|PT0.FRACTIONS",
    "subtract|xs:dateTime|2024-03-01T00:00:00|xs:dayTimeDuration|PT0.FRACTIONS",
    "compare|xs:dayTimeDuration|PT1.FRACTIONS|xs:dayTimeDuration|PT1.000000000S",
    "multiply|xs:dayTimeDuration|-PT0.FRACTIONS|999999",
    "adjust|xs:date|2024-03-31|xs:dayTimeDuration|PT0.FRACTIONS",
];

fn read_fractions() -> Vec<String> {
    let mut calls = Vec::new();
    for digits in LENGTHS.iter().flat_map(|&length| fractions(length)) {
        calls.extend(WITH_FRACTIONS.iter().map(|call| call.replace("FRACTION", &digits)));
    }
    calls
}

/// Texts with a fraction of nine digits and of ten that also have a bad shape, year, clock, day or zone.
const FAULTS: &[&str] = &[
    "xs:time|25:00:00.FRACTION",
    "xs:time|24:00:00.FRACTION+14:01",
    "xs:time|23:60:00.FRACTION",
    "xs:time|23:59:60.FRACTION",
    "xs:time|23:59:00.FRACTION+14:01",
    "xs:time|23:59:00.FRACTIONx",
    "xs:time|23:59:00.FRACTION.1",
    "xs:time|23:59.FRACTION",
    "xs:time|23:59:00.FRACTIONZZ",
    "xs:time| 23:59:00.FRACTION ",
    "xs:time|23:59:00. FRACTION",
    "xs:time|23:59:00.FRACTION Z",
    "xs:date|2024-03-31.FRACTION",
    "xs:dateTime|12000-13-45T99:99:99.FRACTION+99:99",
    "xs:dateTime|10000-01-01T00:00:00.FRACTION",
    "xs:dateTime|-0001-01-01T00:00:00.FRACTION",
    "xs:dateTime|0000-01-01T00:00:00.FRACTION",
    "xs:dateTime|2023-02-29T00:00:00.FRACTION",
    "xs:dateTime|9999-12-31T24:00:00.FRACTION",
    "xs:dateTime|9999-12-31T24:00:00.FRACTION+14:01",
    "xs:dayTimeDuration|PT99999999999999999999.FRACTIONS",
    "xs:dayTimeDuration|P99999999999D",
    "xs:dayTimeDuration|P99999999999DT0.FRACTIONS",
    "xs:dayTimeDuration|PT0.FRACTIONM",
    "xs:dayTimeDuration|PT0.FRACTION",
    "xs:dayTimeDuration|PT.FRACTIONS",
    "xs:dayTimeDuration|P0.FRACTIOND",
    "xs:dayTimeDuration|PT1.FRACTIONS1S",
    "xs:dayTimeDuration|-PT0.FRACTIONS",
    "xs:dayTimeDuration|--PT0.FRACTIONS",
    "xs:yearMonthDuration|P1.FRACTIONM",
];

fn order_of_checks() -> Vec<String> {
    let mut calls = Vec::new();
    for digits in ["000000", "000000000", "000000001", "0000000000", "0000000001", "999999999", "9999999999"] {
        calls.extend(FAULTS.iter().map(|fault| format!("read|{}", fault.replace("FRACTION", digits))));
        let bad = format!("xs:time|00:00:00.{digits}");
        for other in ["xs:time|bad", "xs:date|12000-13-45", "xs:time|00:00:00"] {
            calls.push(format!("compare|{bad}|{other}"));
            calls.push(format!("compare|{other}|{bad}"));
        }
    }
    calls
}

/// Small numbers of ticks and such as are almost a second, a minute, an hour or a day.
fn small() -> Vec<i128> {
    let second = ticks_a_second();
    let spans = [second / 1_000_000, second, 60 * second, 3_600 * second, 86_400 * second];
    let mut small = vec![1, 2, second / 2, second / 1_000];
    small.extend(spans.iter().flat_map(|span| [span - 1, *span, span + 1]));
    small.retain(|&ticks| ticks > 0);
    small.sort();
    small.dedup();
    small
}

/// Over the end of a second, of a minute, of an hour and of each of the days, by one tick and by others, both ways.
fn carries() -> Vec<String> {
    let second = ticks_a_second();
    let ends = [second, 60 * second, 3_600 * second, 43_200 * second, 86_400 * second];
    let mut calls = Vec::new();
    for (day, zone) in days().into_iter().zip([None, Some(0), Some(840), Some(-840), Some(-1)].into_iter().cycle()) {
        for end in ends {
            let last = date_time(day, end - 1, zone);
            calls.push(call("add", &last, &Value::DayTime(1)));
            calls.push(call("subtract", &last, &Value::DayTime(-1)));
            if day < last_day() || end < ticks_a_day() {
                let next = date_time(day, end, zone);
                calls.push(call("subtract", &next, &Value::DayTime(1)));
                calls.push(call("add", &next, &Value::DayTime(-1)));
                calls.push(call("subtract", &next, &last));
                calls.push(call("subtract", &last, &next));
                calls.push(call("compare", &next, &last));
            }
        }
        let last = date_time(day, ticks_a_day() - 1, zone);
        for ticks in small().into_iter().flat_map(|ticks| [ticks, -ticks]).map(Value::DayTime) {
            calls.push(call("add", &last, &ticks));
            calls.push(call("add", &ticks, &date_time(day, 0, zone)));
            calls.push(call("subtract", &date_time(day, 1, zone), &ticks));
        }
        for months in [1, -1, 12, -12, 48].map(Value::YearMonth) {
            calls.push(call("add", &last, &months));
        }
    }
    calls
}

/// Dates drop the time: a tick before midnight is the day before.
fn dates() -> Vec<String> {
    let mut calls = Vec::new();
    for day in days() {
        let date = Value::Date { day, zone: None };
        for ticks in small().into_iter().flat_map(|ticks| [ticks, -ticks]).map(Value::DayTime) {
            calls.push(call("add", &date, &ticks));
            calls.push(call("subtract", &date, &ticks));
        }
    }
    calls
}

/// Times wrap, and are compared and subtracted without wrapping.
fn times() -> Vec<String> {
    let second = ticks_a_second();
    let (zero, last) = (0, ticks_a_day() - 1);
    let ticks = [zero, 1, second - 1, second, 60 * second - 1, 43_200 * second, 43_200 * second + 1, last - 1, last];
    let times: Vec<Value> = [None, Some(0), Some(840), Some(-840)]
        .into_iter()
        .flat_map(|zone| ticks.into_iter().map(move |tick| Value::Time { tick, zone }))
        .collect();
    let mut calls = Vec::new();
    for time in &times {
        for ticks in small().into_iter().flat_map(|ticks| [ticks, -ticks]).map(Value::DayTime) {
            calls.push(call("add", time, &ticks));
            calls.push(call("subtract", time, &ticks));
        }
        for other in &times {
            calls.push(call("compare", time, other));
            calls.push(call("subtract", time, other));
        }
        for most in [most_duration_ticks(), most_duration_ticks() - 1, 1 - most_duration_ticks()] {
            calls.push(call("add", time, &Value::DayTime(most)));
        }
        calls.push(of_one("components", time));
        calls.push(of_one("unzone", time));
    }
    calls
}

/// Durations between zero and a second and about it, of either sign: their order, sums, products and parts.
fn spans() -> Vec<String> {
    let second = ticks_a_second();
    let sizes = [0, 1, 2, second / 2, second - 1, second, second + 1, 60 * second - 1, 60 * second, 86_400 * second - 1];
    let spans: Vec<Value> = sizes.into_iter().flat_map(|size| [size, -size]).map(Value::DayTime).collect();
    let mut calls = vec![
        "read|xs:dayTimeDuration|-PT0.000000000S".to_string(),
        "components|xs:dayTimeDuration|-PT0.000000000S".to_string(),
        "compare|xs:dayTimeDuration|-PT0.000000000S|xs:dayTimeDuration|PT0S".to_string(),
        "multiply|xs:dayTimeDuration|-PT0.000000000S|-1".to_string(),
    ];
    for span in &spans {
        calls.extend(["read", "components"].map(|word| of_one(word, span)));
        for other in &spans {
            calls.extend(["compare", "add", "subtract"].map(|word| call(word, span, other)));
        }
        for factor in [0, 1, -1, 2, -2, 3, 10, -60, 1_000, 86_400, -500_000, 999_999, -999_999] {
            calls.push(format!("multiply|xs:dayTimeDuration|{}|{factor}", write(span)));
        }
    }
    calls
}

/// Ticks from the greatest duration, both ways.
const BESIDE: &[i128] = &[0, 1, 2, 999, 1_000, 1_001, 999_999, 1_000_000, 1_000_001];

/// The forms of a text of so many ticks: all in seconds, and with days, hours and minutes.
fn forms(ticks: i128) -> [String; 4] {
    let second = ticks_a_second();
    let digits = ticks_a_second().to_string().len() - 1;
    let (minus, size) = (if ticks < 0 { "-" } else { "" }, ticks.abs());
    let (seconds, part) = (size / second, format!("{:0digits$}", size % second));
    let (days, hours, minutes) = (seconds / 86_400, seconds / 3_600, seconds / 60);
    [
        format!("{minus}PT{seconds}.{part}S"),
        format!("{minus}P{days}DT{}.{part}S", seconds % 86_400),
        format!("{minus}PT{hours}H{}.{part}S", seconds % 3_600),
        format!("{minus}PT{minutes}M{}.{part}S", seconds % 60),
    ]
}

/// The greatest duration and its neighbours: as texts (2), as sums and differences (4).
fn bounds() -> Vec<String> {
    let kind = "xs:dayTimeDuration";
    let most = most_duration_ticks();
    let mut calls = Vec::new();
    for beside in BESIDE.iter().flat_map(|&beside| [beside, -beside]) {
        for ticks in [most + beside, -most - beside] {
            for text in forms(ticks) {
                calls.push(format!("read|{kind}|{text}"));
                calls.push(format!("components|{kind}|{text}"));
                calls.push(format!("add|xs:dateTime|2024-03-31T00:00:00|{kind}|{text}"));
            }
        }
    }
    for beside in BESIDE {
        let far = Value::DayTime(most - beside);
        let back = Value::DayTime(beside - most);
        for ticks in BESIDE.iter().flat_map(|&ticks| [ticks, -ticks]).map(Value::DayTime) {
            calls.extend(["add", "subtract", "compare"].map(|word| call(word, &far, &ticks)));
            calls.extend(["add", "subtract"].map(|word| call(word, &back, &ticks)));
            calls.push(call("add", &ticks, &far));
            calls.push(call("subtract", &ticks, &far));
            calls.push(call("subtract", &ticks, &back));
        }
        for other in BESIDE {
            calls.push(call("add", &far, &Value::DayTime(other - most)));
            calls.push(call("add", &far, &Value::DayTime(most - other)));
            calls.push(call("subtract", &back, &Value::DayTime(other - most)));
            calls.push(call("compare", &far, &Value::DayTime(most - other)));
            calls.push(call("compare", &back, &Value::DayTime(other - most)));
        }
    }
    let half = most / 2;
    for (left, right) in [(half, half), (half + 1, half), (half, half + 1), (half - 1, half + 1), (half + 1, half - 1)] {
        for (left, right) in [(left, right), (-left, -right)] {
            calls.push(call("add", &Value::DayTime(left), &Value::DayTime(right)));
            calls.push(call("subtract", &Value::DayTime(left), &Value::DayTime(-right)));
        }
    }
    let ends = [(first_day(), 0, Some(840)), (last_day(), ticks_a_day() - 1, Some(-840))];
    let [first, last] = ends.map(|(day, tick, zone)| date_time(day, tick, zone));
    calls.extend([call("subtract", &first, &last), call("subtract", &last, &first)]);
    for ticks in [1, -1, most, -most, most - 1, 1 - most].map(Value::DayTime) {
        calls.extend(["add", "subtract"].map(|word| call(word, &first, &ticks)));
        calls.extend(["add", "subtract"].map(|word| call(word, &last, &ticks)));
    }
    calls
}

/// Products at the bound: of each whole number that divides the greatest duration, or one that is a tick more or less,
/// exactly that and what is beside it; and the greatest duration times the greatest number.
fn products() -> Vec<String> {
    let most = most_duration_ticks();
    let numbers = [1, 2, 3, 5, 7, 9, 11, 13, 37, 77, 91, 101, 125, 143, 239, 999, 1_000, 1_001, 4_649, 9_091, 15_625, 62_500];
    let numbers = numbers.into_iter().chain([500_000, 909_091, 999_998, MOST_FACTOR]);
    let mut calls = Vec::new();
    let mut product = |ticks: i128, number: i128| {
        if ticks.abs() <= most {
            calls.push(format!("multiply|xs:dayTimeDuration|{}|{number}", write(&Value::DayTime(ticks))));
        }
    };
    for number in numbers {
        let nearest = most / number;
        let mut sizes = vec![nearest - 1, nearest, nearest + 1];
        sizes.extend([most - 1, most + 1].into_iter().filter(|bound| bound % number == 0).map(|bound| bound / number));
        for size in sizes {
            for (ticks, number) in [(size, number), (-size, number), (size, -number), (-size, -number)] {
                product(ticks, number);
            }
        }
    }
    for size in [most, most - 1, MOST_DURATION_SECONDS, ticks_a_second() - 1, ticks_a_second() + 1, 1] {
        for number in [MOST_FACTOR, MOST_FACTOR - 1, 2, 1, 0] {
            for (ticks, number) in [(size, number), (-size, number), (size, -number), (-size, -number)] {
                product(ticks, number);
            }
        }
    }
    calls
}

/// Zones of whole minutes, and a tick and other parts of a second beside them.
fn zones() -> Vec<String> {
    let values = [
        Value::Date { day: 19_813, zone: None },
        Value::Date { day: 19_813, zone: Some(60) },
        Value::Time { tick: 1, zone: None },
        Value::Time { tick: ticks_a_day() - 1, zone: Some(-840) },
        date_time(19_813, ticks_a_day() - 1, None),
        date_time(last_day(), ticks_a_day() - 1, Some(0)),
        date_time(first_day(), 0, Some(0)),
    ];
    let second = ticks_a_second();
    let mut calls = Vec::new();
    for minutes in [0, 1, -1, 2, 59, 60, -300, 839, -839, 840, -840, 841, -841, 1_440] {
        for beside in [0, 1, -1, 2, 1_000, -1_000, second / 2, second - 1, 1 - second, second, -second, 60 * second - 1] {
            let zone = Value::DayTime(minutes * ticks_a_minute() + beside);
            calls.extend(values.iter().map(|value| call("adjust", value, &zone)));
        }
    }
    for kind in ["xs:dayTimeDuration|PT0.000000001S", "xs:yearMonthDuration|P1M"] {
        calls.push(format!("adjust|{kind}|xs:dayTimeDuration|PT0.000000001S"));
    }
    for zone in ["-PT0.000000000S", "PT60.000000000S", "PT59.9999999999S", "PT1000000000000.000000001S", "PT50400.000000000S"] {
        calls.extend(values.iter().map(|value| format!("{}|xs:dayTimeDuration|{zone}", of_one("adjust", value))));
    }
    calls
}

/// Moves to other zones, casts and removals of the zone keep the nanoseconds; comparisons see them in every zone.
fn moves() -> Vec<String> {
    let second = ticks_a_second();
    let mut calls = Vec::new();
    for day in days() {
        for tick in [0, 1, second - 1, second + 1, 43_200 * second + 1, ticks_a_day() - 1] {
            for zone in [None, Some(0), Some(840), Some(-840)] {
                let moment = date_time(day, tick, zone);
                let zones = [-840, -1, 0, 1, 840].map(|minutes| Value::DayTime(minutes * ticks_a_minute()));
                calls.extend(zones.iter().map(|zone| call("adjust", &moment, zone)));
                calls.extend(["date", "time", "dateTime"].map(|kind| format!("{}|xs:{kind}", of_one("cast", &moment))));
            }
            let moment = date_time(day, tick, Some(-60));
            calls.extend(["read", "unzone", "components"].map(|word| of_one(word, &moment)));
            for beside in [-1, 0, 1] {
                let other = 3_600 * second + tick + beside;
                if (0..ticks_a_day()).contains(&other) {
                    calls.push(call("compare", &moment, &date_time(day, other, None)));
                    calls.push(call("compare", &date_time(day, other, Some(0)), &moment));
                    calls.push(call("subtract", &moment, &date_time(day, other, Some(0))));
                }
            }
        }
        let day = date_text(day);
        for zeros in ["0000000", "000000000", "0000000000"] {
            calls.push(format!("cast|xs:dateTime|{day}T24:00:00.{zeros}|xs:date"));
            calls.push(format!("compare|xs:dateTime|{day}T24:00:00.{zeros}|xs:dateTime|{day}T23:59:59.999999999"));
        }
    }
    calls
}
