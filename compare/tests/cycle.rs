//! The 400-year cycle: the independent calendar against a plain count over it, and what the generated cases have of it.

mod common;

use common::answer;
use compare::generator::cycle::{self, calls, LENGTHS, YEARS};
use compare::generator::histogram::line_sort;
use compare::generator::{inputs, random::Random, texts};
use compare::lines::lines;
use compare::programs::{desk, MOST_CALLS_BYTES};
use compare::values::calendar::civil_from_days;
use compare::values::reading::read;
use compare::values::{ticks_a_day, Kind, Value, LAST_YEAR};
use std::collections::BTreeSet;

fn part(name: &str) -> Vec<String> {
    let parts = calls::parts();
    parts.into_iter().find(|(other, _)| *other == name).expect("there is such a part").1
}

fn is_leap(year: i64) -> bool {
    year % 4 == 0 && (year % 100 != 0 || year % 400 == 0)
}

fn year_length(year: i64) -> i64 {
    if is_leap(year) {
        366
    } else {
        365
    }
}

fn days_text(days: i64) -> String {
    match days {
        0 => "PT0S".to_string(),
        1.. => format!("P{days}D"),
        _ => format!("-P{}D", -days),
    }
}

#[test]
fn every_year_begins_and_ends_where_a_plain_count_says() {
    let mut before = 0;
    let mut after: i64 = (1..=LAST_YEAR).map(year_length).sum();
    for (year, calls) in (1..).zip(part("cycle-years").chunks(4)) {
        after -= year_length(year);
        let expected = [days_text(before), days_text(-after), format!("{year:04}-12-31"), format!("{year:04}-01-01")];
        assert_eq!(calls.iter().map(|call| answer(call)).collect::<Vec<String>>(), expected, "{year}");
        before += year_length(year);
    }
    assert_eq!((before, after), (3_652_059, 0));
}

#[test]
fn a_sum_goes_as_far_as_its_difference_says() {
    let mut compared = 0;
    for call in part("cycle-sums").iter().filter(|call| call.starts_with("add|xs:date|")) {
        let fields: Vec<&str> = call.split('|').collect();
        let sum = answer(call);
        if !sum.starts_with("refused") {
            assert_eq!(answer(&format!("subtract|date|{sum}|date|{}", fields[2])), fields[4], "{call}");
            compared += 1;
        }
    }
    assert!(compared > 9_000, "{compared}");
}

/// Every call of the table is one, and only the calendar's ends refuse any.
#[test]
fn the_table_is_of_calls_within_inputs() {
    let mut names = BTreeSet::new();
    for (name, calls) in calls::parts() {
        for call in &calls {
            let answer = answer(call);
            let at_the_end = call.contains("9999-12-31T24:00:00") && answer == "refused 2";
            assert!(!answer.starts_with("refused") || answer == "refused 4" || at_the_end, "{call}: {answer}");
        }
        for (name, input) in inputs::named(name, &calls) {
            assert!(input.len() <= MOST_CALLS_BYTES && names.insert(name));
        }
    }
}

/// 1 January, 28 and 29 February, 1 March, 30 and 31 December.
#[test]
fn the_days_are_those_of_each_year() {
    for &year in YEARS {
        let days = cycle::days_of(year);
        assert_eq!(days.len(), if is_leap(year) { 6 } else { 5 }, "{year}");
        assert_eq!(days[days.len() - 1] - days[0] + 1, year_length(year), "{year}");
    }
}

/// The conditions whose answer the columns settle hold at every line, and the others at some.
#[test]
fn the_desk_cases_hit() {
    for case in cycle::desks::cases() {
        let timetable = case.timetable.bytes();
        let output = desk(timetable, &case.conditions);
        assert!(!output.contains("refused"));
        let done: Vec<Vec<usize>> = output
            .lines()
            .filter_map(|line| line.strip_prefix("done\t"))
            .map(|numbers| numbers.split('\t').map(|number| number.parse().unwrap()).collect())
            .collect();
        assert_eq!(done.len(), lines(&case.conditions).len());
        assert!(done.iter().all(|done| done[1] > 0));
        let sorts: Vec<String> = lines(timetable).into_iter().map(line_sort).collect();
        if sorts.iter().all(|sort| sort == "plain") {
            assert!([6, 7, 8, 10, 11, 12].iter().all(|ticket| done[ticket - 1][1..] == [sorts.len(), 0]));
        } else {
            assert!(sorts.iter().all(|sort| sort.starts_with("run of") && sort != "run of     0"));
        }
    }
}

/// Random texts come to each of the years and to each of the lengths.
#[test]
fn texts_choose_the_cycle() {
    let random = &mut Random::new(17);
    let (mut years, mut lengths) = (BTreeSet::new(), BTreeSet::new());
    for _ in 0..10_000 {
        if let (_, Value::Date { day, .. }) = texts::good_value(random, Kind::Date) {
            years.insert(civil_from_days(day).year);
        }
        let text = texts::good(random, Kind::DayTime);
        if let Ok(Value::DayTime(ticks)) = read(Kind::DayTime, text.as_bytes()) {
            lengths.extend((ticks % ticks_a_day() == 0).then_some((ticks / ticks_a_day()) as i64));
        }
    }
    assert!(YEARS.iter().all(|year| years.contains(year)));
    assert!(LENGTHS.iter().all(|days| lengths.contains(days) && lengths.contains(&-days)));
}
