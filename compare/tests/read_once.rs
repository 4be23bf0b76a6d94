//! The desk program that reads each condition's text once writes what the desk program writes.

use compare::generator::conditions::{self, Setting};
use compare::generator::{desks, random::Random};
use compare::lines::{fields, lines};
use compare::programs::{desk, desk_read_once};
use compare::runs::is_run_line;
use std::collections::BTreeSet;

/// What both write.
fn both(timetable: &[u8], conditions: &[u8]) -> String {
    let written = desk(timetable, conditions);
    assert!(desk_read_once(timetable, conditions) == written, "{}", String::from_utf8_lossy(conditions));
    written
}

#[test]
fn the_same_over_random_cases() {
    let mut with_runs = 0;
    for seed in 0..500 {
        let case = desks::case(seed);
        let timetable = case.timetable.bytes();
        both(timetable, &case.conditions);
        with_runs += usize::from(lines(timetable).into_iter().any(|line| is_run_line(&fields(line))));
    }
    assert!(with_runs > 150, "{with_runs}");
}

#[test]
fn the_same_over_the_cases_at_the_bounds() {
    for case in desks::edges(2) {
        both(case.timetable.bytes(), &case.conditions);
    }
}

/// Conditions of every sort, each with its own number, and others where all seats are held.
#[test]
fn the_same_refusals() {
    let random = &mut Random::new(5);
    let mut seen = BTreeSet::new();
    for _ in 0..400 {
        let setting = Setting::any(random);
        let mut conditions: Vec<Vec<u8>> = (0..6).map(|_| conditions::any(random, &setting)).collect();
        if random.chance(20) {
            conditions.splice(0..0, vec![b"xs:date($1) eq xs:date($1)".to_vec(); 16]);
        }
        let output = both(b"", &conditions.join(&b'\n'));
        seen.extend(output.lines().filter_map(|line| line.strip_prefix("refused\t")?.parse::<u8>().ok()));
    }
    assert_eq!(seen, BTreeSet::from([1, 2, 3, 7, 8, 9, 10]));
}
