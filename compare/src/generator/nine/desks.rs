//! Desk cases with nanoseconds: departures a tick before midnight, fields with fractions of every length, and runs that step
//! by ticks over the ends of seconds, days and years.

use super::{days, fractions, LENGTHS};
use crate::generator::desks::Case;
use crate::runs::MOST_OCCURRENCES;
use crate::values::writing::write;
use crate::values::{last_day, ticks_a_day, ticks_a_minute, ticks_a_second, Value, Zone};

pub fn cases() -> Vec<Case> {
    let mut cases = vec![departures(), long_fractions(), short_runs(), refused_runs(), at_the_ends()];
    cases.extend(long_runs());
    cases
}

/// The text of an instant in a zone.
fn moment(instant: i128, zone: Zone) -> String {
    let minutes = zone.unwrap_or(0) as i128;
    write(&Value::DateTime { tick: instant + minutes * ticks_a_minute(), zone })
}

fn span(ticks: i128) -> String {
    write(&Value::DayTime(ticks))
}

/// The last tick of each of the days, the midnight after it, one tick, the time of that last tick, and a tick below zero.
fn departures() -> Case {
    let line = |day: i64| {
        let midnight = (day + 1) as i128 * ticks_a_day();
        let last = write(&Value::Time { tick: ticks_a_day() - 1, zone: None });
        [moment(midnight - 1, None), moment(midnight, Some(0)), span(1), last, span(-1)].join("\t")
    };
    let lines: Vec<String> = days().into_iter().filter(|&day| day < last_day()).map(line).collect();
    let (almost, most) = (span(ticks_a_second() - 1), span(crate::values::most_duration_ticks()));
    let conditions = [
        "xs:dateTime($1) + xs:dayTimeDuration($3) eq xs:dateTime($2)".to_string(),
        "xs:dateTime($2) - xs:dayTimeDuration($3) eq xs:dateTime($1)".to_string(),
        "xs:dateTime($2) - xs:dateTime($1) eq xs:dayTimeDuration($3)".to_string(),
        "xs:dateTime($1) - xs:dateTime($2) eq xs:dayTimeDuration($5)".to_string(),
        "xs:date(xs:dateTime($1)) + xs:dayTimeDuration(\"P1D\") eq xs:date(xs:dateTime($2))".to_string(),
        "xs:date(xs:dateTime($2)) + xs:dayTimeDuration($5) eq xs:date(xs:dateTime($1))".to_string(),
        "xs:time($4) + xs:dayTimeDuration($3) eq xs:time(\"24:00:00.000000000\")".to_string(),
        "xs:time(xs:dateTime($1)) eq xs:time($4) and xs:time(xs:dateTime($2)) + xs:dayTimeDuration($5) eq xs:time($4)"
            .to_string(),
        "xs:dayTimeDuration($3) * -1 eq xs:dayTimeDuration($5)".to_string(),
        format!("xs:dayTimeDuration($5) + xs:dayTimeDuration(\"PT1S\") eq xs:dayTimeDuration(\"{almost}\")"),
        format!("xs:dayTimeDuration(\"{most}\") + xs:dayTimeDuration($5) lt xs:dayTimeDuration(\"{most}\")"),
        format!("xs:dayTimeDuration(\"{most}\") + xs:dayTimeDuration($3) gt xs:dayTimeDuration(\"{most}\")"),
        "xs:dateTime($1) lt xs:dateTime($2) and xs:dayTimeDuration($5) lt xs:dayTimeDuration(\"-PT0.000000000S\")".to_string(),
        "xs:dateTime($1) lt xs:dateTime($2) or xs:dayTimeDuration(\"PT0.0000000001S\") eq xs:dayTimeDuration($3)".to_string(),
        "xs:dayTimeDuration(\"PT1000000000000.000000001S\") gt xs:dayTimeDuration($3)".to_string(),
        "xs:dateTime($2) - xs:dayTimeDuration($3) * 999999 lt xs:dateTime($1)".to_string(),
    ];
    Case::of_lines(&lines, "\n", &conditions)
}

/// Every fraction in a time, in a dateTime and in a duration.
fn long_fractions() -> Case {
    let line = |digits: String| format!("23:59:59.{digits}Z\t2024-02-29T23:59:59.{digits}\tPT0.{digits}S\t-PT0.{digits}S");
    let lines: Vec<String> = LENGTHS.iter().flat_map(|&length| fractions(length)).map(line).collect();
    let conditions = [
        "xs:time($1) ge xs:time(\"23:59:59.5Z\")",
        "xs:dateTime($2) ge xs:dateTime(\"2024-02-29T23:59:59.000000001\")",
        "xs:dayTimeDuration($3) gt xs:dayTimeDuration(\"PT0.999999998S\")",
        "xs:dayTimeDuration($3) + xs:dayTimeDuration($4) eq xs:dayTimeDuration(\"PT0S\")",
        "xs:time(xs:dateTime($2)) eq xs:time($1)",
        "xs:time($1) - xs:dayTimeDuration($3) eq xs:time(\"23:59:59\")",
        "xs:dateTime($2) + xs:dayTimeDuration($4) eq xs:dateTime(\"2024-02-29T23:59:59\")",
        "xs:dayTimeDuration($3) * 10 ge xs:dayTimeDuration(\"PT1S\")",
    ];
    Case::of_lines(&lines, "", &conditions)
}

/// A run line: its first occurrence lies so many ticks before `end`, and its last instant so many ticks after the last of
/// `count` occurrences. The sixth field is `end`.
fn run(end: i128, before: i128, step: i128, count: i128, slack: i128, (zone, other): (Zone, Zone)) -> String {
    let first = end - before;
    let last = first + (count - 1) * step + slack;
    format!("n\tevery\t{}\t{}\t{}\t{}", moment(first, zone), moment(last, other), span(step), moment(end, Some(0)))
}

const ZONES: [(Zone, Zone); 5] = [(None, None), (Some(0), None), (Some(840), Some(-840)), (Some(-1), Some(1)), (None, Some(60))];

/// The end of a second, of a minute, of a day, of a leap February and of a year, as instants.
fn ends() -> [i128; 5] {
    let (second, day) = (ticks_a_second(), ticks_a_day());
    [19_812 * day + 43_201 * second, 19_812 * day + 43_260 * second, 19_813 * day, 19_783 * day, 19_723 * day]
}

const AT_RUNS: &[&str] = &[
    "xs:dateTime($2) ge xs:dateTime($6)",
    "xs:dateTime($2) eq xs:dateTime($6)",
    "xs:dateTime($2) - xs:dateTime($3) eq xs:dayTimeDuration($5) * 2",
    "xs:dateTime($2) + xs:dayTimeDuration($5) gt xs:dateTime($4)",
    "xs:date(xs:dateTime($2)) eq xs:date(xs:dateTime($3))",
    "xs:time(xs:dateTime($2)) lt xs:time(\"12:00:00\")",
    "xs:dateTime($2) + xs:dayTimeDuration(\"PT0.000000001S\") ge xs:dateTime($6)",
    "xs:dateTime($6) - xs:dateTime($2) lt xs:dayTimeDuration(\"PT0.000000002S\")",
];

/// Runs of few occurrences over each of the ends: the last instant at an occurrence, a tick after it and a tick before the
/// next.
fn short_runs() -> Case {
    let mut lines = Vec::new();
    let second = ticks_a_second();
    let steps = [1, 2, 3, 999, 1_000, second - 1, second, second + 1, 600 * second + 1, ticks_a_day() - 1];
    for (end, zones) in ends().into_iter().zip(ZONES) {
        for (step, count) in steps.into_iter().zip([1, 2, 3, 4, 5, 6].into_iter().cycle()) {
            lines.push(run(end, step, step, count, 0, zones));
            lines.push(run(end, 1, step, count, 0, zones));
            lines.push(run(end, 2 * step, step, count, (step - 1).min(1), zones));
            lines.push(run(end, 2 * step - 1, step, count, step - 1, zones));
            lines.push(run(end, step, step, count, -1, zones));
        }
    }
    Case::of_lines(&lines, "\n", AT_RUNS)
}

/// Runs that are refused by a tick: steps of zero and just below it, steps beyond the bound, steps and moments with ten
/// digits; and their neighbours.
fn refused_runs() -> Case {
    let first = "2024-03-31T23:59:59.999999999";
    let last = "2024-04-01T00:00:00.000000001";
    let steps = [
        "PT0.000000001S",
        "PT0.000000000S",
        "-PT0.000000000S",
        "-PT0.000000001S",
        "-PT0.999999999S",
        "PT0.0000000001S",
        "PT0.0000000000S",
        "-PT0.0000000001S",
        "PT1000000000000S",
        "PT1000000000000.000000001S",
        "-PT1000000000000.000000001S",
        "PT999999999999.999999999S",
        "PT0.00000000S",
        "PT0.000000001",
    ];
    let mut lines: Vec<String> = steps.iter().map(|step| format!("n\tevery\t{first}\t{last}\t{step}\t{last}")).collect();
    lines.extend(steps.iter().map(|step| format!("n\tevery\t{last}\t{first}\t{step}\t{last}")));
    lines.push(format!("n\tevery\t{first}0\t{last}\tPT0.000000001S\t{last}"));
    lines.push(format!("n\tevery\t{first}\t{last}0\tPT0.000000001S\t{last}"));
    lines.push(format!("n\tevery\t{first}0\tbad\tPT0.0000000001S\t{last}"));
    lines.push(format!("n\tevery\t{first}\t10000-01-01T00:00:00.0000000000\tPT0S\t{last}"));
    Case::of_lines(&lines, "\n", AT_RUNS)
}

/// Runs at both ends of the calendar: occurrences that pass year 9999 by a tick (4), and such as just do not.
fn at_the_ends() -> Case {
    let mut lines = Vec::new();
    let end = (last_day() + 1) as i128 * ticks_a_day();
    let second = ticks_a_second();
    for (before, step) in [(1, 1), (2, 1), (3, 2), (2, 2), (second, second - 1), (second, second), (second, second + 1)] {
        for count in [1, 2, 3] {
            let last_local = end - before + (count - 1) * step;
            let zones =
                [(Some(840), Some(-840)), (Some(1), Some(0)), (Some(0), Some(-1)), (None, Some(-1)), (Some(-839), Some(-840))];
            for (zone, other) in zones {
                let shift = (other.unwrap_or(0) - zone.unwrap_or(0)) as i128 * ticks_a_minute();
                let first = write(&Value::DateTime { tick: end - before, zone });
                let last = write(&Value::DateTime { tick: last_local + shift, zone: other });
                lines.push(format!("n\tevery\t{first}\t{last}\t{}\t{first}", span(step)));
            }
        }
    }
    let start = "0001-01-01T00:00:00";
    for step in [1, 2, 7] {
        lines.push(format!("n\tevery\t{start}+14:00\t{start}.000000006+14:00\t{}\t{start}", span(step)));
        lines.push(format!("n\tevery\t{start}-14:00\t{start}.000000006+14:00\t{}\t{start}", span(step)));
    }
    Case::of_lines(&lines, "", AT_RUNS)
}

/// Runs of 1,439 to 1,441 occurrences by ticks, and by a minute and a tick, over each of the ends.
fn long_runs() -> Vec<Case> {
    let most = MOST_OCCURRENCES as i128;
    let mut cases = Vec::new();
    let steps = [1, 2, ticks_a_second() - 1, ticks_a_minute() + 1, ticks_a_minute() - 1];
    for (place, ((end, zones), step)) in ends().into_iter().zip(ZONES).zip(steps).enumerate() {
        let line = |count: i128, slack: i128| run(end, 1_000 * step, step, count, slack, zones);
        let lines = [line(most, 0), line(most, -1), line(most, step - 1), line(most + 1, 0), line(most - 1, step - 1)];
        let conditions = [AT_RUNS[0], AT_RUNS[place % AT_RUNS.len()], AT_RUNS[(place + 3) % AT_RUNS.len()]];
        cases.push(Case::of_lines(&lines, "\n", &conditions));
    }
    cases
}
