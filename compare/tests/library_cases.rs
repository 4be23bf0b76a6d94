//! The generated cases of library_example: every call gives every answer that it can, and the bounds are met.

use compare::generator::histogram::library_words;
use compare::generator::library::{self, Case};
use compare::library::{library_example, Session};
use compare::lines::lines;
use std::collections::BTreeSet;

/// What every call can answer. The numbers 12 and 14 need a desk that this program cannot come to.
const ANSWERS: &[(&str, &[&str])] = &[
    ("date", &["answered", "refused  7", "refused 16"]),
    ("time", &["answered", "refused  7", "refused 16"]),
    ("dateTime", &["answered", "refused  7", "refused 16"]),
    ("dayTime", &["answered", "refused  7", "refused 16"]),
    ("yearMonth", &["answered", "refused  7", "refused 16"]),
    ("record", &["wrote", "refused  7", "refused 15", "refused 16"]),
    ("write", &["wrote", "refused  1", "refused  2", "refused  3", "refused  7", "refused 15"]),
    ("bytes", &["wrote", "refused  1", "refused  2", "refused  3", "refused  7", "refused 15"]),
    ("compare", &["lt", "eq", "gt", "refused  1", "refused  2", "refused  3", "refused  7", "refused  9", "refused 16"]),
    ("late", &["yes", "no", "refused  1", "refused  2", "refused  3", "refused  4", "refused  7", "refused  9"]),
    ("open", &["open", "refused  1", "refused  2", "refused  3", "refused  7", "refused  8", "refused  9", "refused 10"]),
    ("close", &["closed", "refused  7", "refused 13"]),
    ("turn", &["hit", "miss", "unreadable  1", "done", "idle", "refused  7"]),
    ("none", &["refused  7"]),
];

fn covered(cases: &[Case]) -> BTreeSet<String> {
    let mut seen = BTreeSet::new();
    for case in cases {
        let Ok(mut session) = Session::new(case.timetable.bytes()) else {
            continue;
        };
        seen.extend(lines(&case.calls).into_iter().map(|line| library_words(line, &session.answer(line))));
    }
    seen
}

#[test]
fn library_cases_cover_every_answer() {
    let random: Vec<Case> = (0..60).map(library::case).collect();
    let mut expected = BTreeSet::new();
    for (word, answers) in ANSWERS {
        expected.extend(answers.iter().map(|answer| format!("{word:<10} {answer}")));
    }
    for family in [library::made(), random] {
        let seen = covered(&family);
        assert_eq!(expected.difference(&seen).collect::<Vec<_>>(), Vec::<&String>::new());
        let more = seen.difference(&expected).filter(|words| !words.starts_with("turn       unreadable"));
        assert_eq!(more.collect::<Vec<_>>(), Vec::<&String>::new());
    }
}

#[test]
fn names_are_different_and_inputs_are_answered() {
    let cases = library::made();
    let names: BTreeSet<&str> = cases.iter().map(|case| case.name.as_str()).collect();
    assert_eq!(names.len(), cases.len());
    for case in &cases {
        let answers = library_example(case.timetable.bytes(), &case.calls).lines().count();
        let whole = case.timetable.bytes().len() <= 65_536 && case.calls.len() <= 65_536;
        assert_eq!(answers, if whole { lines(&case.calls).len() } else { 1 }, "{}", case.name);
    }
}

#[test]
fn random_sessions_are_long_and_within_the_input() {
    for seed in 0..30 {
        let case = library::case(seed);
        assert_eq!(case.calls, library::case(seed).calls);
        assert!(case.calls.len() <= 65_536 && lines(&case.calls).len() > 50);
    }
}

/// The rooms of the tables go from 0 to 64 for each length of text that they write.
#[test]
fn the_rooms_stand_either_side_of_the_text() {
    let mut seen = BTreeSet::new();
    for case in library::made().iter().filter(|case| case.name.starts_with("rooms")) {
        for answer in library_example(case.timetable.bytes(), &case.calls).lines() {
            let fields: Vec<&str> = answer.split('\t').collect();
            if let ["wrote", count, room] = fields[..] {
                seen.insert((count.parse::<usize>().unwrap(), room.len()));
                assert!(room[count.parse().unwrap()..].bytes().all(|byte| byte == b'.'));
            }
        }
    }
    let lengths: BTreeSet<usize> = seen.iter().map(|(count, _)| *count).collect();
    assert!(lengths.contains(&3) && lengths.contains(&35) && lengths.len() > 10);
    for length in lengths {
        assert!((length..=64).all(|room| seen.contains(&(length, room))), "{length}");
    }
}
