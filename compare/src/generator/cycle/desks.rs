//! Desk cases at the cycle: departures on each of the days, and runs that go over the ends of years or over many cycles.

use super::{days, YEARS};
use crate::generator::desks::Case;
use crate::values::calendar::DAYS_IN_400_YEARS;
use crate::values::operations::add;
use crate::values::reading::read;
use crate::values::writing::{date_text, write};
use crate::values::{first_day, last_day, ticks_a_day, ticks_a_minute, Kind, Value, LAST_YEAR};

pub fn cases() -> Vec<Case> {
    let counts = [(366, 1), (1_461, 4), (36_524, 100), (DAYS_IN_400_YEARS, 400)];
    let mut cases: Vec<Case> = counts.into_iter().map(|(days, years)| departures(days, years)).collect();
    cases.extend([year_ends(), long_runs()]);
    cases
}

/// Each of the days, the day that lies so many days after it (before it, where the calendar ends), that count, and the
/// day's last and first tick in zones in which they lie on the next day and on the day before, if there is one.
fn departures(count: i64, years: i64) -> Case {
    let line = |day: i64| {
        let count = if day + count > last_day() { -count } else { count };
        let last = (day + 1) as i128 * ticks_a_day() - 1;
        let last = in_zone(last, if day == last_day() { -840 } else { 840 });
        let first = in_zone(day as i128 * ticks_a_day(), if day == first_day() { 840 } else { -840 });
        let span = write(&Value::DayTime(count as i128 * ticks_a_day()));
        [date_text(day), date_text(day + count), span, last, first].join("\t")
    };
    let lines: Vec<String> = days().into_iter().map(line).collect();
    let (less, more) = (count - 1, count + 1);
    let mut conditions = vec![
        format!("xs:date($1) + xs:dayTimeDuration(\"P{count}D\") eq xs:date($2)"),
        format!("xs:date($1) + xs:dayTimeDuration(\"P{less}D\") lt xs:date($2)"),
        format!("xs:date($1) + xs:dayTimeDuration(\"P{more}D\") gt xs:date($2)"),
        format!("xs:date($1) + xs:dayTimeDuration(\"P{count}D\") * 2 - xs:dayTimeDuration(\"P{count}D\") eq xs:date($2)"),
        format!("xs:date($1) + xs:yearMonthDuration(\"P{years}Y\") eq xs:date($2)"),
    ];
    conditions.extend(at_departures());
    Case::of_lines(&lines, "\n", &conditions)
}

fn at_departures() -> [String; 7] {
    let (tick, last) = (write(&Value::DayTime(1)), write(&Value::DayTime(ticks_a_day() - 1)));
    [
        "xs:date($1) + xs:dayTimeDuration($3) eq xs:date($2)".to_string(),
        "xs:date($2) - xs:dayTimeDuration($3) eq xs:date($1)".to_string(),
        "xs:date($2) - xs:date($1) eq xs:dayTimeDuration($3)".to_string(),
        format!("xs:dateTime($4) + xs:dayTimeDuration(\"{tick}\") eq xs:dateTime(xs:date($1) + xs:dayTimeDuration(\"P1D\"))"),
        format!("xs:dateTime($4) - xs:dateTime($5) eq xs:dayTimeDuration(\"{last}\")"),
        "xs:dateTime($5) eq xs:dateTime(xs:date($1))".to_string(),
        "xs:date(xs:dateTime($4)) gt xs:date(xs:dateTime($5))".to_string(),
    ]
}

/// The text of an instant in a zone.
fn in_zone(instant: i128, zone: i64) -> String {
    write(&Value::DateTime { tick: instant + zone as i128 * ticks_a_minute(), zone: Some(zone) })
}

/// Every ten minutes over the end of each of the years, and every day over the end of its February. The sixth field is
/// the midnight after that end.
fn year_ends() -> Case {
    let mut lines = Vec::new();
    for (&year, zone) in YEARS.iter().zip(["", "+14:00", "-14:00", "Z", "-00:01"].into_iter().cycle()) {
        let next = year + 1;
        if year < LAST_YEAR {
            lines.push(format!(
                "n\tevery\t{year:04}-12-31T23:50:00{zone}\t{next:04}-01-01T00:10:00{zone}\tPT10M\t{year:04}-12-31T24:00:00{zone}"
            ));
        }
        lines.push(format!(
            "n\tevery\t{year:04}-02-27T00:00:00{zone}\t{year:04}-03-02T00:00:00{zone}\tP1D\t{year:04}-03-01T00:00:00{zone}"
        ));
    }
    let conditions = [
        "xs:dateTime($2) eq xs:dateTime($6)",
        "xs:dateTime($2) lt xs:dateTime($6)",
        "xs:dateTime($2) + xs:dayTimeDuration($5) eq xs:dateTime($6)",
        "xs:dateTime($2) - xs:dayTimeDuration($5) * 2 eq xs:dateTime($3)",
        "xs:dateTime($2) - xs:dateTime($3) eq xs:dayTimeDuration($5)",
        "xs:date(xs:dateTime($2)) eq xs:date(xs:dateTime($3))",
        "xs:dateTime($2) + xs:dayTimeDuration(\"P146097D\") - xs:yearMonthDuration(\"P400Y\") eq xs:dateTime($2)",
        "xs:dateTime($2) - xs:dayTimeDuration(\"P146097D\") + xs:yearMonthDuration(\"P400Y\") eq xs:dateTime($2)",
        "xs:time(xs:dateTime($2)) lt xs:time(\"12:00:00\")",
    ];
    Case::of_lines(&lines, "\n", &conditions)
}

/// Runs of so many occurrences with steps of so many days.
const LONG_RUNS: &[(&str, i128, i128)] = &[
    ("0001-01-01T00:00:00", 146_097, 25),
    ("0001-12-31T23:59:59.999999", 36_524, 100),
    ("0004-02-29T00:00:00Z", 36_525, 100),
    ("0001-01-01T00:00:00+14:00", 365, 1_440),
    ("1600-12-31T00:00:00-14:00", 366, 1_440),
    ("0004-12-31T12:00:00", 1_461, 1_440),
    ("2000-02-29T00:00:00", 1_461, 1_440),
];

/// The sixth field is the occurrence in the middle.
fn long_runs() -> Case {
    let line = |&(first, days, count): &(&str, i128, i128)| {
        let first_value = read(Kind::DateTime, first.as_bytes()).expect("a good text");
        let occurrence = |place: i128| {
            let span = Value::DayTime(place * days * ticks_a_day());
            write(&add(&first_value, &span).expect("within the calendar"))
        };
        format!("n\tevery\t{first}\t{}\tP{days}D\t{}", occurrence(count - 1), occurrence(count / 2))
    };
    let lines: Vec<String> = LONG_RUNS.iter().map(line).collect();
    let conditions = [
        "xs:dateTime($2) eq xs:dateTime($6) or xs:dateTime($2) eq xs:dateTime($4)",
        "xs:dateTime($2) - xs:dateTime($3) lt xs:dateTime($4) - xs:dateTime($2)",
        "xs:date(xs:dateTime($2)) - xs:date(xs:dateTime($3)) ge xs:dayTimeDuration(\"P146097D\")",
        "xs:dateTime($2) - xs:dayTimeDuration($5) ge xs:dateTime($3)",
    ];
    Case::of_lines(&lines, "", &conditions)
}
