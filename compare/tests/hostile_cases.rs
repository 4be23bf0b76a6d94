//! The generated cases of hostile_desks: each way to build a desk is sound or not as its name says, and every answer is given.

use compare::generator::hostile;
use compare::hostile::{hostile_desks, Script};
use compare::lines::lines;
use std::collections::BTreeSet;

/// The words of an event and of its answer's first line, such as `open refused 12`.
fn words(line: &[u8], answer: &str) -> String {
    let word = line.split(|&byte| byte == b'\t').next().unwrap_or(line);
    let first = answer.split('\n').next().unwrap_or("");
    let fields: Vec<&str> = first.split('\t').collect();
    let last = match fields[0] {
        "refused" | "wrote" => format!(" {}", fields[fields.len() - 1]),
        _ => String::new(),
    };
    format!("{} {}{last}", String::from_utf8_lossy(word), fields[0])
}

fn covered(cases: &[hostile::Case]) -> BTreeSet<String> {
    let mut seen = BTreeSet::new();
    for case in cases {
        let mut script = Script::new(case.timetable.bytes());
        for line in lines(&case.events).into_iter().take(3_000) {
            let answer = script.answer(line);
            seen.insert(words(line, &answer));
        }
    }
    seen
}

/// What every call can answer.
const ANSWERS: &[&str] = &[
    "fresh made",
    "fresh refused 11",
    "part part",
    "open open",
    "open refused 1",
    "open refused 2",
    "open refused 3",
    "open refused 7",
    "open refused 8",
    "open refused 9",
    "open refused 10",
    "open refused 12",
    "open refused 14",
    "close closed",
    "close refused 12",
    "close refused 13",
    "turn hit",
    "turn miss",
    "turn unreadable",
    "turn done",
    "turn idle",
    "turn refused 11",
    "turn refused 12",
    "turns wrote idle",
    "turns wrote more",
    "turns refused 11",
    "turns refused 12",
    "turns refused 15",
    "sound sound",
    "sound unsound",
    "show desk",
    "set set",
    "seat set",
];

#[test]
fn hostile_cases_cover_every_answer() {
    let random: Vec<hostile::Case> = (0..30).map(hostile::case).collect();
    for family in [hostile::made(), random] {
        let seen = covered(&family);
        for wanted in ANSWERS {
            assert!(seen.contains(*wanted), "{wanted}");
        }
    }
}

#[test]
fn random_scripts_are_long_and_within_the_input() {
    for seed in 0..30 {
        let case = hostile::case(seed);
        assert_eq!(case.events, hostile::case(seed).events);
        assert!(case.events.len() <= 65_536 && lines(&case.events).len() > 50);
        assert!(hostile_desks(case.timetable.bytes(), &case.events).lines().count() >= lines(&case.events).len());
    }
}

#[test]
fn the_table_is_as_the_ways_take_it() {
    let bytes = hostile::TABLE.as_bytes();
    let starts: Vec<usize> = (0..bytes.len()).filter(|&at| at == 0 || bytes[at - 1] == b'\n').collect();
    assert_eq!((bytes.len(), starts), (66, vec![0, 20, 36, 55, 56]));
}

/// The ways on either side of each bound; each is sound or not at every place.
#[test]
fn the_ways_are_sound_or_not() {
    let cases = hostile::made();
    let names: BTreeSet<&str> = cases.iter().map(|case| case.name.as_str()).collect();
    assert_eq!(names.len(), cases.len());
    let mut sides: [BTreeSet<&str>; 2] = Default::default();
    for case in cases.iter().filter(|case| !case.name.starts_with("input-")) {
        let output = hostile_desks(case.timetable.bytes(), &case.events);
        let sound = output.lines().filter(|line| *line == "sound").count();
        let unsound = output.lines().filter(|line| *line == "unsound").count();
        assert!(matches!((sound, unsound), (6, 0) | (0, 6)), "{}", case.name);
        sides[usize::from(sound == 6)].insert(&case.name);
    }
    for (side, wanted) in [UNSOUND, SOUND].iter().enumerate() {
        for name in *wanted {
            assert!(sides[side].contains(name), "{name}");
        }
    }
}

const SOUND: &[&str] = &[
    "sound",
    "all-free",
    "sound-great",
    "last-served-15",
    "length-41",
    "length-65535",
    "length-65536",
    "ticket-1",
    "ticket-0-free",
    "ticket-4294967295-last-issued",
    "issued-10",
    "issued-8-highest-free",
    "same-p-q-one-free",
    "same-p-q-other-free",
    "same-as-zeroed",
    "condition-length-36-spaces",
    "condition-length-239-spaces",
    "condition-length-240-spaces",
    "condition-length-241-free",
    "bytes-after-noise",
    "bytes-after-and",
    "bytes-after-or",
    "condition-deep-16-p",
    "condition-deep-17-free",
    "condition-literal-leap-p",
    "condition-literal-last-year-p",
    "condition-literal-padded-p",
    "condition-literal-nine-digits-p",
    "condition-result-beyond-p",
    "offset-21",
    "offset-66",
    "offset-67-free",
    "offset-65536-of-65536",
    "counts-28800-0-at-20",
    "counts-14400-14400-at-20",
    "counts-95040-0-at-66",
    "counts-47185920-47185920-at-65536",
    "counts-94371840-0-at-65536",
    "counts-65536-1-at-65536",
    "counts-0-0-at-0-place-0",
    "counts-1-0-at-0-place-1",
    "counts-0-1439-at-0-place-1439",
    "counts-720-720-at-1-place-0",
    "counts-2879-0-at-1-place-1439",
    "place-1",
    "place-1439",
    "place-1439-second",
    "place-1440-freed",
    "place-4294967295-free",
    "place-4294967295-only-free",
    "place-0-at-run-3",
    "place-3-at-run-3",
    "place-1-at-run-2-padded",
    "place-1439-at-refused-17",
    "place-1439-at-run-1440",
    "place-1439-at-end",
    "place-1-in-run-3-3",
    "rubbish-f",
    "rubbish-all-free",
    "rubbish-round-held",
    "freed-all",
    "issued-4294967295",
    "all-held",
    "all-held-last-issued",
    "part-65",
    "fresh-65536",
    "fresh-65537-repaired",
];

const UNSOUND: &[&str] = &[
    "last-served-16",
    "last-served-17-all-free",
    "last-served-18446744073709551615",
    "length-40",
    "length-65537",
    "length-65537-all-free",
    "length-18446744073709551615",
    "ticket-0",
    "ticket-0-last-issued",
    "ticket-10",
    "ticket-4294967295",
    "issued-8",
    "same-p-q",
    "same-three",
    "same-zero",
    "condition-length-0",
    "condition-length-35",
    "condition-length-37",
    "condition-length-241-spaces",
    "condition-length-18446744073709551615",
    "condition-empty-p",
    "condition-spaces-p",
    "condition-deep-17-q",
    "condition-grammar-p",
    "condition-grammar-zero-byte-p",
    "condition-kinds-p",
    "condition-kinds-no-truth-p",
    "condition-literal-1-p",
    "condition-literal-2-q",
    "condition-literal-3-p",
    "condition-literal-blanks-p",
    "condition-literal-blank-inside-p",
    "condition-literal-form-feed-p",
    "condition-literal-not-evaluated-p",
    "offset-67",
    "offset-18446744073709551615",
    "offset-65536-of-65535",
    "offset-65537-of-65536",
    "counts-28801-0-at-20",
    "counts-14401-14400-at-20",
    "counts-1-0-at-0",
    "counts-94371840-1-at-65536",
    "counts-94371840-94371840-at-65536",
    "counts-1-0-at-0-place-0",
    "counts-2-0-at-0-place-1",
    "counts-0-1440-at-0-place-1439",
    "counts-721-720-at-1-place-0",
    "counts-2880-0-at-1-place-1439",
    "counts-18446744073709551615-2880-at-1-place-1439",
    "counts-1-0-at-12810238940076077-place-0",
    "place-1440",
    "place-1440-second",
    "place-66975",
    "place-4294967295",
    "place-1440-at-run-1440",
    "place-1440-at-refused-17",
    "place-1440-at-end",
    "place-1439-beyond-end",
    "counts-18446744073709551615-1-at-20",
    "counts-9223372036854775808-9223372036854775808-at-20",
    "counts-18446744073709551615-28801-at-20",
    "held-zeros",
    "held-zeros-only",
    "all-held-unsound",
    "all-held-same-ticket",
    "all-held-issued-15",
    "part-65-unsound",
    "fresh-65537",
    "fresh-18446744073709551615",
];
