//! Document 02, letter b: runs of departures, their places, and what is refused.

mod common;

use common::judged;
use compare::desk::{Desk, Seat, Turn};
use compare::generator::desks;
use compare::generator::histogram::line_sort;
use compare::generator::hostile::places;
use compare::generator::random::Random;
use compare::generator::runs::{noted, Noted, NOTED};
use compare::lines::{fields, lines};
use compare::programs;
use compare::runs::Run;
use std::collections::BTreeSet;

fn run_of(line: &str) -> Result<Option<Run>, u8> {
    Run::of(&fields(&noted(line)))
}

/// The desk program's output for lines and conditions, both written with `|` for a tab, without its opens and its end.
fn turns(table: &[&str], conditions: &[&str]) -> Vec<String> {
    let timetable = noted(&table.join("\n"));
    let output = programs::desk(&timetable, conditions.join("\n").as_bytes());
    let lines = output.strip_suffix("idle\n").expect("it ends with idle").replace('\t', " ");
    lines.lines().filter(|line| !line.starts_with("open")).map(str::to_string).collect()
}

#[test]
fn noted_lines_are_what_is_noted() {
    for (line, expected) in NOTED {
        let found = match run_of(line) {
            Ok(None) => Noted::Plain,
            Ok(Some(run)) => Noted::Occurrences(run.count),
            Err(number) => Noted::Refused(number),
        };
        assert_eq!(found, *expected, "{line:?}");
    }
}

#[test]
fn the_second_field_is_written_anew() {
    let cases: &[(&str, &[&str])] = &[
        ("n|every|2024-02-28T24:00:00|2024-02-29T00:10:00|PT10M", &["2024-02-29T00:00:00", "2024-02-29T00:10:00"]),
        ("n|every|2023-12-31T23:59:59.50-00:00|2024-01-01T00:00:00Z|PT0.5S", &["2023-12-31T23:59:59.5Z", "2024-01-01T00:00:00Z"]),
        (
            "n|every|2024-03-30T23:50:00+01:00|2024-03-30T23:00:00Z|PT10M",
            &["2024-03-30T23:50:00+01:00", "2024-03-31T00:00:00+01:00"],
        ),
        (
            "n|every|0001-01-01T00:00:00.000000+14:00|0001-01-01T00:00:00|PT14H",
            &["0001-01-01T00:00:00+14:00", "0001-01-01T14:00:00+14:00"],
        ),
        ("n|every|9999-12-31T23:59:59.999998|9999-12-31T23:59:59.999999-14:00|PT0.000001S", &[]),
        (
            "n|every|9999-12-31T23:59:59.999998|9999-12-31T23:59:59.999999|PT0.000001S",
            &["9999-12-31T23:59:59.999998", "9999-12-31T23:59:59.999999"],
        ),
    ];
    for (line, texts) in cases {
        let Ok(Some(run)) = run_of(line) else {
            assert!(texts.is_empty(), "{line}");
            continue;
        };
        assert_eq!((0..run.count).map(|place| run.text_at(place)).collect::<Vec<String>>(), *texts, "{line}");
    }
}

const NIGHT_BUS: &str = "n1|every|2024-03-30T23:50:00+01:00|2024-03-31T00:10:00+01:00|PT10M";
const MIDNIGHT: &str = "xs:dateTime($2) ge xs:dateTime(\"2024-03-31T00:00:00+01:00\")";
const ALWAYS: &str = "xs:time(\"00:00:00\") eq xs:time(\"24:00:00\")";
const REFUSED: &str = "xs:date($16) eq xs:date($16)";

#[test]
fn each_turn_judges_one_occurrence() {
    assert_eq!(
        turns(&[NIGHT_BUS, "1|2024-03-30T12:00:00Z"], &[MIDNIGHT]),
        ["miss 1 0 0", "hit 1 0 1", "hit 1 0 2", "miss 1 67 0", "done 1 2 0"]
    );
    let unreadable = "xs:dateTime($2) lt xs:dateTime(\"2024-03-31T00:00:00+01:00\") or xs:date($16) eq xs:date($16)";
    assert_eq!(
        turns(&[NIGHT_BUS], &[unreadable, ALWAYS]),
        ["hit 1 0 0", "hit 2 0 0", "unreadable 1 0 6", "hit 2 0 1", "unreadable 1 0 6", "hit 2 0 2", "done 1 1 2", "done 2 3 0"]
    );
}

#[test]
fn other_fields_stay() {
    let all = |condition: &str, word: &str| {
        let expected: Vec<String> = (0..3).map(|place| format!("{word} 1 0 {place}")).collect();
        assert_eq!(turns(&[NIGHT_BUS], &[condition])[..3], expected, "{condition}");
    };
    all("xs:dateTime($3) eq xs:dateTime(\"2024-03-30T23:50:00+01:00\")", "hit");
    all("xs:dateTime($4) eq xs:dateTime(\"2024-03-31T00:10:00+01:00\")", "hit");
    all("xs:dayTimeDuration($5) eq xs:dayTimeDuration(\"PT600S\")", "hit");
    all("xs:dateTime($2) - xs:dateTime($3) le xs:dayTimeDuration($5) * -1", "miss");
    assert_eq!(turns(&[NIGHT_BUS], &["xs:date($2) eq xs:date($2)"])[..3], vec!["unreadable 1 0 1"; 3]);
    assert_eq!(turns(&[NIGHT_BUS], &["xs:date($6) eq xs:date($6)"])[..3], vec!["unreadable 1 0 6"; 3]);
    let place = "xs:dateTime($2) - xs:dateTime($3) eq xs:dayTimeDuration($5) * 2";
    assert_eq!(turns(&[NIGHT_BUS], &[place])[..3], ["miss 1 0 0", "miss 1 0 1", "hit 1 0 2"]);
}

#[test]
fn an_empty_run_is_one_miss_and_a_bad_one_is_one_unreadable() {
    let empty = "n1|every|2024-03-31T00:00:00|2024-03-30T00:00:00|PT10M";
    let bad = "n1|every|2024-03-31T00:00:00|2024-03-30T00:00:00|PT0M";
    for condition in [MIDNIGHT, ALWAYS, REFUSED] {
        assert_eq!(turns(&[empty, bad, empty], &[condition]), ["miss 1 0 0", "unreadable 1 55 17", "miss 1 109 0", "done 1 0 1"]);
    }
}

#[test]
fn a_full_run_and_one_that_is_too_long() {
    let full = turns(&["n|every|2024-03-30T00:00:00|2024-03-30T23:59:00|PT1M"], &[ALWAYS]);
    assert_eq!(full.len(), 1_441);
    assert_eq!(full[1_439..], ["hit 1 0 1439", "done 1 1440 0"]);
    let long = turns(&["n|every|2024-03-30T00:00:00|2024-03-30T24:00:00|PT1M"], &[ALWAYS]);
    assert_eq!(long, ["unreadable 1 0 18", "done 1 0 1"]);
}

#[test]
fn the_counts_go_far_beyond_the_bytes() {
    let line = "|every|2024-03-30T00:00:00|2024-03-30T23:59:00|PT1M";
    let turns = turns(&[line; 20], &[ALWAYS, REFUSED]);
    assert_eq!(turns[turns.len() - 2..], ["done 1 28800 0", "done 2 0 28800"]);
}

#[test]
fn a_judgement_takes_the_line_as_it_stands() {
    let line = format!("{MIDNIGHT}|{NIGHT_BUS}\n{ALWAYS}|{NIGHT_BUS}\n{ALWAYS}|n|every\n").replace('|', "\t");
    assert_eq!(programs::judgements(line.as_bytes()), "unreadable\t1\nhit\nhit\n");
}

/// A desk of one seat over the table, at this offset and place.
fn seated(table: &[u8], condition: &str, offset: usize, place: u32) -> Desk {
    let mut desk = Desk::fresh(table.len()).unwrap();
    assert_eq!(desk.open(condition.as_bytes()), Ok(1));
    (desk.seats[0].offset, desk.seats[0].place) = (offset, place);
    desk
}

/// A place that a good line does not reach is one Miss with the seat's own place, then the next line.
#[test]
fn places_that_a_line_does_not_reach() {
    let empty = "n|every|2024-03-31T00:00:00|2024-03-30T00:00:00|PT10M";
    let bad = "n|every|2024-03-31T00:00:00|2024-03-30T00:00:00|PT0M";
    let text = noted(&[NIGHT_BUS, "late", empty, bad, NIGHT_BUS].join("\n"));
    let starts = [0, 67, 72, 126, 179];
    let cases: &[(usize, u32, Option<u8>, u32)] = &[
        (0, 1, None, 2),
        (0, 2, None, 0),
        (0, 3, None, 0),
        (0, 1_439, None, 0),
        (1, 1, None, 0),
        (1, 1_439, None, 0),
        (2, 0, None, 0),
        (2, 1_439, None, 0),
        (3, 0, Some(17), 0),
        (3, 1_439, Some(17), 0),
        (4, 3, None, 0),
    ];
    for &(line, place, number, next) in cases {
        let mut desk = seated(&text, REFUSED, starts[line], place);
        let reached = line == 0 && place < 3;
        let expected = match (number, reached) {
            (Some(number), _) => Turn::Unreadable { ticket: 1, offset: starts[line], number },
            (None, true) => Turn::Unreadable { ticket: 1, offset: starts[line], number: 6 },
            (None, false) => Turn::Miss { ticket: 1, offset: starts[line], place },
        };
        assert_eq!(desk.turn(&text), Ok(expected));
        let offset = if next > 0 { starts[line] } else { *starts.get(line + 1).unwrap_or(&text.len()) };
        assert_eq!((desk.seats[0].offset, desk.seats[0].place), (offset, next), "line {line} place {place}");
    }
    for place in [0, 1, 1_439] {
        let mut desk = seated(&text, REFUSED, text.len(), place);
        assert_eq!(desk.turn(&text), Ok(Turn::Done { ticket: 1, hits: 0, unreadable: 0 }));
        assert_eq!(desk.seats[0], Seat::default());
    }
    for place in [1_440, 1_441, u32::MAX] {
        let mut desk = seated(&text, REFUSED, 0, place);
        assert_eq!((desk.turn(&text), desk.open(b"x"), desk.close(1)), (Err(12), Err(12), Err(12)));
        desk.seats[0].held = false;
        assert!(desk.is_sound());
    }
}

/// Up to the tab before the word the rest of the line is a run line still; from the word on it is a plain one.
#[test]
fn an_offset_within_a_line_is_read_as_a_line() {
    let text = noted(NIGHT_BUS);
    for offset in 0..text.len() {
        let mut desk = seated(&text, ALWAYS, offset, 0);
        assert_eq!(desk.turn(&text), Ok(Turn::Hit { ticket: 1, offset, place: 0 }));
        let expected = if offset <= 2 { (offset, 1) } else { (text.len(), 0) };
        assert_eq!((desk.seats[0].offset, desk.seats[0].place), expected, "{offset}");
    }
}

#[test]
fn counts_may_reach_1440_times_the_offset_and_the_place() {
    let text = b"0123456789";
    for (offset, place) in [(0, 0), (0, 1), (0, 1_439), (1, 0), (7, 3), (10, 1_439)] {
        let most = 1_440 * offset + place as usize;
        let mut desk = seated(text, ALWAYS, offset, place);
        for hits in [0, most / 2, most] {
            (desk.seats[0].hits, desk.seats[0].unreadable) = (hits, most - hits);
            assert!(desk.is_sound());
            desk.seats[0].unreadable += 1;
            assert!(!desk.is_sound());
        }
        (desk.seats[0].hits, desk.seats[0].unreadable) = (usize::MAX, most + 1);
        assert!(!desk.is_sound());
    }
}

/// A seat that starts sound stays so, from any place of any line to its end.
#[test]
fn turns_keep_a_desk_sound() {
    let random = &mut Random::new(8);
    let table = places::table().into_bytes();
    for _ in 0..400 {
        let place = random.pick(&[0, 1, 2, 3, 1_437, 1_438, 1_439]);
        let condition = random.pick(&places::CONDITIONS);
        let mut desk = seated(&table, condition, random.below(table.len() + 1), place);
        let most = 1_440 * desk.seats[0].offset + place as usize;
        desk.seats[0].hits = random.below(most + 1);
        desk.seats[0].unreadable = most - desk.seats[0].hits;
        for _ in 0..random.below(60) {
            assert!(desk.is_sound());
            desk.turn(&table).unwrap();
        }
        assert!(desk.is_sound());
    }
}

/// The calculator's answer to fields that may be any bytes.
fn answered(call: &[&[u8]]) -> Result<String, u8> {
    let output = programs::calculator(&call.join(&b'\t'));
    let answer = output.strip_suffix('\n').expect("one line");
    match answer.strip_prefix("refused\t") {
        Some(number) => Err(number.parse().unwrap()),
        None => Ok(answer.to_string()),
    }
}

/// The second fields that a line stands for, found by the calculator alone, one after another; none for a plain line.
fn second_fields(line: &[u8]) -> Result<Option<Vec<String>>, u8> {
    const MOMENT: &[u8] = b"xs:dateTime";
    const SPAN: &[u8] = b"xs:dayTimeDuration";
    let fields = fields(line);
    if fields.len() < 2 || fields[1] != b"every" {
        return Ok(None);
    }
    let text = |place: usize, kind: &[u8]| answered(&[b"read", kind, fields.get(place).ok_or(6)?]);
    let (first, last, step) = (text(2, MOMENT)?, text(3, MOMENT)?, text(4, SPAN)?);
    if answered(&[b"compare", SPAN, step.as_bytes(), SPAN, b"PT0S"])? != "gt" {
        return Err(17);
    }
    let mut count = 0;
    let mut left = answered(&[b"subtract", MOMENT, last.as_bytes(), MOMENT, first.as_bytes()])?;
    while !left.starts_with('-') {
        count += 1;
        if count > 1_440 {
            return Err(18);
        }
        left = match answered(&[b"subtract", SPAN, left.as_bytes(), SPAN, step.as_bytes()]) {
            Ok(left) => left,
            Err(_) => "-".to_string(),
        };
    }
    let mut texts: Vec<String> = Vec::new();
    while texts.len() < count {
        texts.push(match texts.last() {
            None => first.clone(),
            Some(before) => answered(&[b"add", MOMENT, before.as_bytes(), SPAN, step.as_bytes()])?,
        });
    }
    Ok(Some(texts))
}

/// The turns of one condition over a timetable, line by line and text by text.
fn expected_turns(condition: &[u8], timetable: &[u8]) -> Vec<String> {
    let tree = compare::conditions::accept(condition).unwrap();
    let mut offset = 0;
    let mut turns = Vec::new();
    for line in timetable.split_inclusive(|&byte| byte == b'\n') {
        let text = line.strip_suffix(b"\n").unwrap_or(line);
        let seconds = second_fields(text);
        let judged = |fields: &[&[u8]], place: usize| match compare::conditions::evaluation::holds(&tree, fields) {
            Ok(true) => format!("hit {offset} {place}"),
            Ok(false) => format!("miss {offset} {place}"),
            Err(number) => format!("unreadable {offset} {number}"),
        };
        match seconds {
            Err(number) => turns.push(format!("unreadable {offset} {number}")),
            Ok(None) => turns.push(judged(&fields(text), 0)),
            Ok(Some(seconds)) if seconds.is_empty() => turns.push(format!("miss {offset} 0")),
            Ok(Some(seconds)) => {
                for (place, second) in seconds.iter().enumerate() {
                    let mut fields = fields(text);
                    fields[1] = second.as_bytes();
                    turns.push(judged(&fields, place));
                }
            }
        }
        offset += line.len();
    }
    let counted = |word: &str| turns.iter().filter(|turn| turn.starts_with(word)).count();
    turns.push(format!("done {} {}", counted("hit"), counted("unreadable")));
    turns
}

/// A desk over runs answers as one over the occurrences themselves.
#[test]
fn runs_are_their_occurrences() {
    let mut compared = 0;
    for seed in 0..260 {
        let case = desks::case(seed);
        let timetable = case.timetable.bytes();
        if !lines(timetable).into_iter().any(|line| line_sort(line).starts_with("run")) || timetable.len() > 20_000 {
            continue;
        }
        let output = programs::desk(timetable, &case.conditions).replace('\t', " ");
        let good: Vec<&[u8]> =
            lines(&case.conditions).into_iter().filter(|text| compare::conditions::accept(text).is_ok()).take(16).collect();
        for (ticket, condition) in (1..).zip(good) {
            let told: Vec<String> = output
                .lines()
                .filter_map(|line| {
                    let (word, rest) = line.split_once(' ')?;
                    let (number, rest) = rest.split_once(' ')?;
                    (number == ticket.to_string()).then(|| format!("{word} {rest}"))
                })
                .collect();
            assert_eq!(told, expected_turns(condition, timetable), "seed {seed} ticket {ticket}");
            compared += told.len();
        }
    }
    assert!(compared > 20_000, "{compared}");
}

#[test]
fn the_noted_lines_are_their_occurrences() {
    let timetable = NOTED.iter().map(|(line, _)| noted(line)).collect::<Vec<_>>().join(&b'\n');
    for condition in compare::generator::runs::AT_NOTED {
        let output = programs::desk(&timetable, condition.as_bytes()).replace('\t', " ");
        let told: Vec<String> =
            output.lines().filter(|line| line.contains(" 1 ")).map(|line| line.replacen(" 1 ", " ", 1)).collect();
        assert_eq!(told, expected_turns(condition.as_bytes(), &timetable), "{condition}");
    }
}

/// What the generated timetables have to hold.
const SORTS: &[&str] = &[
    "plain",
    "plain, almost the word",
    "run of     0",
    "run of     1",
    "run of     2",
    "run of     3 to 15",
    "run of    16 to 100",
    "run of   101 to 1,438",
    "run of  1439",
    "run of  1440",
    "run refused  1",
    "run refused  2",
    "run refused  3",
    "run refused  4",
    "run refused  6",
    "run refused 17",
    "run refused 18",
];

#[test]
fn a_third_of_the_cases_and_more_have_runs_of_every_sort() {
    let mut seen = BTreeSet::new();
    let mut with_runs = 0;
    for seed in 0..600 {
        let case = desks::case(seed);
        let sorts: BTreeSet<String> = lines(case.timetable.bytes()).into_iter().map(line_sort).collect();
        with_runs += usize::from(sorts.iter().any(|sort| sort.starts_with("run")));
        seen.extend(sorts);
    }
    assert!(with_runs >= 200, "{with_runs}");
    assert_eq!(seen.iter().map(String::as_str).collect::<Vec<&str>>(), SORTS);
}

#[test]
fn the_lines_of_the_places_are_what_they_are_called() {
    for (name, count, line) in places::LINES {
        let expected = match Run::of(&fields(line.as_bytes())) {
            Ok(Some(run)) => {
                assert!(name.starts_with(&format!("run-{}", run.count)), "{name}");
                run.count as u64
            }
            Ok(None) => 1,
            Err(number) => {
                assert_eq!(*name, format!("refused-{number}"));
                0
            }
        };
        assert_eq!(expected, *count, "{name}");
    }
    assert_eq!(judged(places::CONDITIONS[1], ""), Ok(true));
}
