//! What is generated is the same for the same seed, keeps within lines, and covers what it should.

use compare::generator::{calls, desks, random::Random};
use compare::programs;
use compare::values::{operations, reading, writing, KINDS};
use std::collections::BTreeSet;

#[test]
fn calls_cover_every_number() {
    let mut random = Random::new(7);
    let mut again = Random::new(7);
    let mut seen = BTreeSet::new();
    for _ in 0..20_000 {
        let line = calls::call(&mut random);
        assert_eq!(line, calls::call(&mut again));
        assert!(!line.contains(&b'\n') && line.len() < 20_000);
        let answer = programs::answer_line(&line);
        seen.insert(answer.strip_prefix("refused\t").map(|number| number.trim_end().to_string()));
    }
    let wanted = [None, Some("1"), Some("2"), Some("3"), Some("4"), Some("5"), Some("7"), Some("9"), Some("16")];
    let wanted: BTreeSet<Option<String>> = wanted.iter().map(|number| number.map(str::to_string)).collect();
    assert_eq!(seen, wanted);
}

#[test]
fn desk_cases_end_and_mostly_open() {
    let mut opened = 0;
    for seed in 0..200 {
        let case = desks::case(seed);
        let output = programs::desk(case.timetable.bytes(), &case.conditions);
        assert!(output.ends_with("idle\n") || output == "refused\t7\n" || output == "refused\t11\n");
        opened += usize::from(output.starts_with("open"));
    }
    assert!(opened > 100);
}

#[test]
fn a_written_text_reads_as_the_same_value() {
    let mut random = Random::new(11);
    for _ in 0..5_000 {
        for kind in KINDS {
            let (_, value) = compare::generator::texts::good_value(&mut random, kind);
            let text = writing::write(&value);
            assert!(text.len() <= 35);
            assert_eq!(reading::read(kind, text.as_bytes()), Ok(value));
        }
    }
}

/// The turn with all of its checks answers as the program does.
#[test]
fn checked_turns_answer_as_the_program_does() {
    for seed in 1000..1060 {
        let case = desks::case(seed);
        let timetable = case.timetable.bytes();
        if timetable.len() > 3_000 || case.conditions.len() > 4_096 {
            continue;
        }
        let mut desk = compare::desk::Desk::fresh(timetable.len()).unwrap();
        let mut output = String::new();
        for condition in compare::lines::lines(&case.conditions) {
            output += &desk.open(condition).map_or_else(programs::refused, |ticket| format!("open\t{ticket}\n"));
        }
        loop {
            let turn = desk.turn(timetable).expect("a sound desk");
            output += &programs::turn_line(turn);
            if turn == compare::desk::Turn::Idle {
                break;
            }
        }
        assert_eq!(output, programs::desk(timetable, &case.conditions));
    }
}

/// Taking a difference away again brings the first value back, whatever the zones.
#[test]
fn differences_are_undone() {
    let mut random = Random::new(13);
    for _ in 0..5_000 {
        let (_, first) = compare::generator::texts::good_value(&mut random, compare::values::Kind::DateTime);
        let (_, second) = compare::generator::texts::good_value(&mut random, compare::values::Kind::DateTime);
        let difference = operations::subtract(&first, &second).unwrap();
        if let Ok(back) = operations::add(&second, &difference) {
            assert_eq!(operations::compare(&back, &first), Ok(std::cmp::Ordering::Equal));
        }
    }
}
