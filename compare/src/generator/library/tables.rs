//! Tables of calls: every number at and either side of its bounds, every room round a text's length, every pair of
//! kinds, and the desk with all seats held. Calls are written with `|` for a tab.

use super::bounds::{CLOCKS, DAYS, DAY_TIMES, MINUTES, MONTHS, NANOS, ROOMS, SECONDS, YEARS, YEAR_MONTHS};
use crate::generator::hostile::conditions::{padded, BAD, BY_DATE, BY_TIME, NEIGHBOURS};
use crate::values::KINDS;

pub fn tables() -> Vec<(&'static str, Vec<String>)> {
    vec![
        ("dates", dates()),
        ("days", every_day()),
        ("clocks", clocks()),
        ("zones", zones()),
        ("spans", spans()),
        ("months", months()),
        ("reference-day", reference_day()),
        ("rooms", rooms()),
        ("kinds", kinds()),
        ("orders", orders()),
        ("late", late()),
        ("late-kinds", late_kinds()),
        ("seats", seats()),
        ("conditions", conditions()),
    ]
}

/// Makers and records with each year, month and day.
fn dates() -> Vec<String> {
    let mut calls = Vec::new();
    for year in YEARS {
        for month in MONTHS {
            for day in [0, 1, 28, 29, 30, 31, 32] {
                calls.push(format!("date|{year}|{month}|{day}|none"));
            }
        }
        for day in DAYS {
            calls.push(format!("dateTime|{year}|2|{day}|86399|999999999|-840"));
            calls.push(format!("record|35|xs:date|{year}|2|{day}|0|0|+840"));
            calls.push(format!("record|35|xs:dateTime|{year}|12|{day}|0|0|none"));
        }
    }
    calls
}

/// Every day of an ordinary year, of a leap year and of two hundredth years, and the days beside each month.
fn every_day() -> Vec<String> {
    let mut calls = Vec::new();
    for year in [1900, 2000, 2023, 2024] {
        for month in 0..=13 {
            calls.extend((0..=32).map(|day| format!("date|{year}|{month}|{day}|+0")));
        }
    }
    calls
}

/// Each second of the day with each nanosecond, and those at the ends of seconds and of days with zones, in makers and in
/// records of all three kinds.
fn clocks() -> Vec<String> {
    let mut calls = Vec::new();
    for second in SECONDS {
        for nano in NANOS {
            calls.push(format!("time|{second}|{nano}|none"));
            calls.push(format!("dateTime|9999|12|31|{second}|{nano}|-840"));
            calls.push(format!("record|35|xs:time|1972|12|31|{second}|{nano}|+840"));
        }
        calls.push(format!("time|{second:020}|{second:020}|none"));
        calls.push(format!("time|{second:021}|0|none"));
        calls.push(format!("time|0|{second:021}|none"));
    }
    for (second, nano) in CLOCKS {
        let clock = format!("{second}|{nano}");
        for zone in ["none", "+0", "-840", "+841", "-0"] {
            calls.push(format!("time|{clock}|{zone}"));
            calls.push(format!("dateTime|9999|12|31|{clock}|{zone}"));
            calls.push(format!("dateTime|1|1|1|{clock}|{zone}"));
            for kind in ["xs:date", "xs:time", "xs:dateTime"] {
                calls.push(format!("record|35|{kind}|1972|12|31|{clock}|{zone}"));
                calls.push(format!("compare|xs:time|12:00:00|{kind}|1972|12|31|{clock}|{zone}"));
            }
        }
    }
    calls
}

/// Each zone, by all three makers and in records.
fn zones() -> Vec<String> {
    let mut zones = vec!["none".to_string(), "+00".to_string(), "-00".to_string(), "+00840".to_string(), "-00841".to_string()];
    zones.extend(MINUTES.iter().flat_map(|minutes| [format!("+{minutes}"), format!("-{minutes}")]));
    let mut calls = Vec::new();
    for zone in zones {
        calls.push(format!("date|2024|2|29|{zone}"));
        calls.push(format!("time|3600|0|{zone}"));
        calls.push(format!("dateTime|1|1|1|0|0|{zone}"));
        calls.push(format!("dateTime|9999|12|31|86399|999999999|{zone}"));
        calls.push(format!("record|16|xs:date|1|1|1|0|0|{zone}"));
        calls.push(format!("record|14|xs:time|1972|12|31|0|0|{zone}"));
        calls.push(format!("compare|xs:date|2024-03-31|xs:date|2024|3|31|0|0|{zone}"));
        calls.push(format!("compare|xs:time|08:00:00+01:00|xs:time|1972|12|31|28800|0|{zone}"));
    }
    calls
}

/// Each number of seconds with each nanosecond beside it and either sign.
fn spans() -> Vec<String> {
    const KIND: &str = "xs:dayTimeDuration";
    let mut calls = Vec::new();
    for seconds in DAY_TIMES {
        for sign in ["+", "-"] {
            for nano in NANOS {
                calls.push(format!("dayTime|{sign}{seconds}|{nano}"));
                calls.push(format!("record|35|{KIND}|{sign}{seconds}|{nano}"));
            }
            calls.push(format!("dayTime|{sign}{seconds:020}|{:020}", 1));
            calls.push(format!("dayTime|{sign}{seconds:021}|0"));
            calls.push(format!("dayTime|{sign}{seconds}|{:021}", 0));
            for nano in [0, 1, 999_999_999, 1_000_000_000] {
                for text in COMPARED {
                    calls.push(format!("compare|{KIND}|{text}|{KIND}|{sign}{seconds}|{nano}"));
                }
            }
        }
    }
    calls
}

/// Durations at zero, at a second and at the greatest, and a nanosecond beside each.
const COMPARED: &[&str] = &[
    "PT0S",
    "PT0.000000001S",
    "-PT0.000000001S",
    "-PT0.999999999S",
    "-PT1S",
    "P11574074DT1H46M40S",
    "P11574074DT1H46M39.999999999S",
    "-P11574074DT1H46M40S",
    "-P11574074DT1H46M39.999999999S",
];

/// Each number of months with either sign.
fn months() -> Vec<String> {
    const KIND: &str = "xs:yearMonthDuration";
    let mut calls = Vec::new();
    for months in YEAR_MONTHS {
        for sign in ["+", "-"] {
            calls.push(format!("yearMonth|{sign}{months}"));
            calls.push(format!("yearMonth|{sign}{months:020}"));
            calls.push(format!("yearMonth|{sign}{months:021}"));
            calls.push(format!("record|35|{KIND}|{sign}{months}"));
            for text in ["P0M", "PT0S", "P83333Y4M", "-P83333Y4M"] {
                calls.push(format!("compare|{KIND}|{text}|{KIND}|{sign}{months}"));
            }
        }
    }
    calls
}

/// Records of times and dates on and beside 1972-12-31.
fn reference_day() -> Vec<String> {
    let mut calls = Vec::new();
    for day in
        ["1972|12|31", "1972|12|30", "1973|1|1", "1972|1|31", "1971|12|31", "1973|12|31", "1972|12|32", "1972|11|31", "0|0|0"]
    {
        for kind in ["xs:date", "xs:time", "xs:dateTime"] {
            for clock in ["0|0", "0|1", "1|0", "86399|999999999", "86399|1000000000", "86400|0"] {
                calls.push(format!("record|35|{kind}|{day}|{clock}|none"));
                calls.push(format!("record|0|{kind}|{day}|{clock}|none"));
                calls.push(format!("compare|{kind}|00:00:00|{kind}|{day}|{clock}|+0"));
                calls.push(format!("compare|{kind}|1972-12-31|{kind}|{day}|{clock}|+0"));
                calls.push(format!("compare|{kind}|1972-12-31T00:00:00|{kind}|{day}|{clock}|+0"));
            }
        }
    }
    calls
}

/// A record and a text of the same value, of many lengths from 3 to 35.
const WRITTEN: &[(&str, &str)] = &[
    ("xs:yearMonthDuration|+0", "P0M"),
    ("xs:dayTimeDuration|+0|0", "-PT0S"),
    ("xs:yearMonthDuration|-12", "-P12M"),
    ("xs:dayTimeDuration|+86460|0", "PT24H1M"),
    ("xs:time|1972|12|31|86399|0|none", "23:59:59"),
    ("xs:time|1972|12|31|0|0|+0", "24:00:00-00:00"),
    ("xs:date|2024|2|29|0|0|none", "2024-02-29"),
    ("xs:yearMonthDuration|-1000000", "-P1000000M"),
    ("xs:date|1|1|1|0|0|+0", "0001-01-01Z"),
    ("xs:dayTimeDuration|-0|1", "-PT0.000000001S"),
    ("xs:time|1972|12|31|0|1000|+1", "00:00:00.000001+00:01"),
    ("xs:time|1972|12|31|86399|999999999|-840", "23:59:59.999999999-14:00"),
    ("xs:date|9999|12|31|0|0|-840", "9999-12-31-14:00"),
    ("xs:dateTime|2024|2|29|0|500000000|none", "2024-02-29T00:00:00.50"),
    ("xs:dayTimeDuration|-999999999999|999999999", "-PT999999999999.999999999S"),
    ("xs:dateTime|9999|12|31|86399|999999000|+840", "9999-12-31T23:59:59.999999+14:00"),
    ("xs:dateTime|9999|12|31|86399|999999990|+840", "9999-12-31T23:59:59.99999999+14:00"),
    ("xs:dateTime|9999|12|31|86399|999999999|+840", "9999-12-31T23:59:59.999999999+14:00"),
];

/// Each of these into every room, and records and texts that are refused before the room is looked at.
fn rooms() -> Vec<String> {
    let mut calls = Vec::new();
    for room in ROOMS {
        for (record, text) in WRITTEN {
            let kind = record.split('|').next().unwrap_or(record);
            calls.push(format!("record|{room}|{record}"));
            calls.push(format!("write|{kind}|{room}|{text}"));
        }
        for record in ["xs:dayTimeDuration|-0|0", "xs:date|2023|2|29|0|0|none", "xs:time|1972|12|31|0|0|+841"] {
            calls.push(format!("record|{room}|{record}"));
        }
        for text in ["xs:date|{}|2023-02-29", "xs:date|{}|10000-01-01", "xs:time|{}|00:00:00.0000000000", "xs:date|{}|"] {
            calls.push(format!("write|{}", text.replace("{}", &room.to_string())));
        }
    }
    calls
}

/// For each kind readable texts, texts that are refused with 1, 2 or 3, and records within and beyond the bounds.
const OF_KINDS: [(&[&str], &[&str]); 5] = [
    (
        &["2024-03-31", "2024-03-31+14:00", "2023-02-29", "12000-13-45"],
        &["2024|3|31|0|0|none", "2024|3|31|0|1|none", "0|3|31|0|0|none"],
    ),
    (
        &["08:00:00", "24:00:00Z", "24:00:01", "00:00:00.0000000000"],
        &["1972|12|31|0|0|none", "1973|12|31|0|0|none", "1972|12|31|0|0|-0", "1972|12|31|86400|0|+0"],
    ),
    (
        &["2024-03-31T00:00:00", "9999-12-31T24:00:00", "bad", "2024-03-31T25:00:00.0000000000"],
        &["2024|3|31|0|0|none", "2024|2|30|0|0|none", "10000|1|1|0|0|+0"],
    ),
    (&["PT24H", "P11574074DT1H46M41S", "P", "PT0.0000000000S"], &["+86400|0", "-0|0", "+1000000000000|1"]),
    (&["P1Y", "P1000001M", "PT1M"], &["+12", "-0", "-1000001"]),
];

/// Comparisons of every pair of kinds, with every text and record of them.
fn kinds() -> Vec<String> {
    let mut calls = Vec::new();
    for (left, (texts, _)) in KINDS.into_iter().zip(OF_KINDS) {
        for (right, (_, records)) in KINDS.into_iter().zip(OF_KINDS) {
            for text in texts {
                let all = records.iter().map(|record| format!("compare|{}|{text}|{}|{record}", left.name(), right.name()));
                calls.extend(all);
            }
        }
    }
    calls
}

/// Records just before, at and just after a text's value, also where a zone moves it.
fn orders() -> Vec<String> {
    let mut calls = Vec::new();
    for clock in ["43199|999999999", "43200|0", "43200|1", "0|0", "86399|999999999"] {
        for zone in ["none", "+0", "+1", "-1", "+720", "-720", "+840", "-840"] {
            for text in ["12:00:00", "12:00:00Z", "24:00:00", "12:01:00+00:01", "11:59:00-00:01", "23:59:59.999999999-14:00"] {
                calls.push(format!("compare|xs:time|{text}|xs:time|1972|12|31|{clock}|{zone}"));
                calls.push(format!("compare|xs:dateTime|2024-02-29T{text}|xs:dateTime|2024|2|29|{clock}|{zone}"));
                calls.push(format!("compare|xs:dateTime|2024-02-29T{text}|xs:dateTime|2024|3|1|{clock}|{zone}"));
            }
        }
    }
    for zone in ["none", "+0", "+600", "+599", "-840", "-839", "+840"] {
        for text in ["2024-03-01", "2024-02-29-10:00", "2024-02-29-14:00", "2024-03-01+14:00", "2024-02-29", "2024-03-02+10:00"] {
            calls.push(format!("compare|xs:date|{text}|xs:date|2024|3|1|0|0|{zone}"));
        }
    }
    for text in ["0001-01-01+14:00", "9999-12-31-14:00", "0001-01-01-14:00", "9999-12-31+14:00"] {
        for record in ["1|1|1|0|0|+840", "9999|12|31|0|0|-840", "1|1|1|0|0|none", "9999|12|31|0|0|+840"] {
            calls.push(format!("compare|xs:date|{text}|xs:date|{record}"));
        }
    }
    calls
}

/// A kind, two texts of it, and the difference, second less first.
const APART: &[(&str, &str, &str, &str)] = &[
    ("xs:time", "08:00:00", "08:03:00", "PT3M"),
    ("xs:time", "08:03:00", "08:00:00", "-PT3M"),
    ("xs:time", "00:00:00", "23:59:59.999999999", "PT23H59M59.999999999S"),
    ("xs:time", "24:00:00", "00:00:00", "PT0S"),
    ("xs:time", "00:00:00+14:00", "23:59:59.999999999-14:00", "P2DT3H59M59.999999999S"),
    ("xs:time", "08:00:00+09:00", "17:00:00-06:00", "P1D"),
    ("xs:date", "2024-02-28", "2024-03-01", "P2D"),
    ("xs:date", "2024-03-31+14:00", "2024-03-31-14:00", "P1DT4H"),
    ("xs:date", "0001-01-01+14:00", "9999-12-31-14:00", "P3652059DT4H"),
    ("xs:dateTime", "1999-11-28T09:00:00Z", "2000-10-30T06:12:00-05:00", "P337DT2H12M"),
    ("xs:dateTime", "9999-12-31T23:59:59.999999999-14:00", "0001-01-01T00:00:00+14:00", "-P3652060DT3H59M59.999999999S"),
    ("xs:dateTime", "1999-12-31T24:00:00", "2000-01-01T00:00:00.000000001", "PT0.000000001S"),
    ("xs:dayTimeDuration", "-P1D", "PT24H", "P2D"),
    ("xs:dayTimeDuration", "PT0S", "P11574074DT1H46M40S", "PT1000000000000S"),
    ("xs:dayTimeDuration", "PT0.000000001S", "-P11574074DT1H46M39.999999999S", "-PT1000000000000S"),
    ("xs:dayTimeDuration", "PT0.000000001S", "-P11574074DT1H46M40S", "PT0S"),
    ("xs:dayTimeDuration", "-P11574074DT1H46M40S", "P11574074DT1H46M40S", "PT0S"),
    ("xs:yearMonthDuration", "P1M", "P2M", "P1M"),
    ("xs:yearMonthDuration", "-P1M", "P1000000M", "PT0S"),
    ("xs:yearMonthDuration", "P0M", "P1000000M", "PT0S"),
];

/// The difference itself and durations beside it, and both ways round.
fn late() -> Vec<String> {
    let beside = [
        "PT0S",
        "-PT0S",
        "PT0.000000001S",
        "-PT0.000000001S",
        "PT2M59.999999999S",
        "PT3M0.000000001S",
        "-PT3M0.000000001S",
        "P1DT4H",
    ];
    let ends = ["PT1000000000000S", "-PT1000000000000S", "PT1000000000000.000000001S", "P", "", "PT0.0000000000S", "P1M"];
    let mut calls = Vec::new();
    for (kind, first, second, apart) in APART {
        for most in [*apart].iter().chain(&beside).chain(&ends) {
            calls.push(format!("late|{kind}|{first}|{second}|{most}"));
            calls.push(format!("late|{kind}|{second}|{first}|{most}"));
        }
    }
    calls
}

/// Readable and unreadable texts in all three places.
fn late_kinds() -> Vec<String> {
    let mut calls = Vec::new();
    for (kind, (texts, _)) in KINDS.into_iter().zip(OF_KINDS) {
        for first in texts {
            for second in texts {
                for most in OF_KINDS[3].0 {
                    calls.push(format!("late|{}|{first}|{second}|{most}", kind.name()));
                }
            }
        }
    }
    calls
}

/// All sixteen seats held, then closes, opens and turns in any order.
fn seats() -> Vec<String> {
    let good = [format!("open|{BY_DATE}"), format!("open|{BY_TIME}")];
    let bad = |calls: &mut Vec<String>| calls.extend(BAD.iter().map(|(_, text)| format!("open|{}", text.replace('\t', "|"))));
    let mut calls = vec!["turn".to_string(), "close|0".to_string(), "close|1".to_string()];
    calls.extend((0..18).map(|place| good[place % 2].clone()));
    bad(&mut calls);
    calls.extend(vec!["turn".to_string(); 20]);
    for ticket in [3, 3, 16, 1, 17, 0, 4_294_967_295_u64, 4_294_967_296] {
        calls.push(format!("close|{ticket}"));
        calls.push("turn".to_string());
    }
    calls.extend((0..5).map(|place| good[place % 2].clone()));
    bad(&mut calls);
    for round in 0..40 {
        calls.extend(vec!["turn".to_string(); round % 7]);
        calls.push(good[round % 2].clone());
        calls.push(format!("close|{}", 5 + round));
    }
    calls.extend(vec!["turn".to_string(); 200]);
    calls.extend((50..70).map(|ticket| format!("close|{ticket:020}")));
    calls.extend(vec!["turn".to_string(); 3]);
    calls
}

/// Each condition opened, served to its end and closed.
fn conditions() -> Vec<String> {
    let mut calls = Vec::new();
    for (_, text) in BAD.iter().chain(NEIGHBOURS) {
        for length in [0, 239, 240, 241] {
            calls.push(format!("open|{}", padded(text, length).replace('\t', "|")));
            calls.extend(vec!["turn".to_string(); 7]);
        }
    }
    calls
}
