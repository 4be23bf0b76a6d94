//! Document 02, letter a: blanks round a value are no part of it, wherever a value's text is read and nowhere else.

mod common;

use common::{all, answer, judged, opened};
use compare::conditions::accept;
use compare::generator::blanks::{self, counts, in_gaps, in_literals, IN_A_FIELD, IN_A_LITERAL, IN_DIGITS, TEXTS};
use compare::generator::calls::call;
use compare::generator::conditions::{any, Setting};
use compare::generator::damage::damaged;
use compare::generator::{desks, inputs, random::Random, texts};
use compare::lines::{fields, lines};
use compare::programs::{self, answer_line, desk, judgements, MOST_CALLS_BYTES};
use compare::runs::is_run_line;
use compare::values::reading::{read, stripped};
use compare::values::{Kind, KINDS};
use std::collections::BTreeSet;

const BLANKS: [u8; 4] = [9, 10, 13, 32];
const DAY: &str = "xs:date($1)";

/// Every good text of the table, with its kind.
fn good_texts() -> Vec<(Kind, &'static [u8])> {
    TEXTS.iter().flat_map(|(kind, good, _)| good.iter().map(|text| (*kind, text.as_bytes()))).collect()
}

#[test]
fn the_bytes_are_9_10_13_and_32_and_no_others() {
    for (kind, text) in good_texts() {
        let value = read(kind, text);
        assert!(value.is_ok());
        for byte in 0..=u8::MAX {
            let both = [read(kind, &[[byte].as_slice(), text].concat()), read(kind, &[text, &[byte]].concat())];
            if BLANKS.contains(&byte) {
                assert_eq!(both, [value, value], "byte {byte}");
            } else if !b"0123456789-+:.TZPDHMSY".contains(&byte) {
                assert_eq!(both, [Err(1), Err(1)], "byte {byte}");
            }
        }
    }
}

#[test]
fn stripping_twice_is_once() {
    let random = &mut Random::new(21);
    for _ in 0..20_000 {
        let count = random.below(8);
        let text: Vec<u8> = (0..count).map(|_| random.pick(b"\t\n\r \x0b\x0cx0")).collect();
        let mut left = text.clone();
        while left.last().is_some_and(|byte| BLANKS.contains(byte)) {
            left.pop();
        }
        while left.first().is_some_and(|byte| BLANKS.contains(byte)) {
            left.remove(0);
        }
        assert_eq!(stripped(&text), left);
        assert_eq!(stripped(stripped(&text)), left);
    }
    assert_eq!(stripped(b" \ta b\r\n"), b"a b");
    assert_eq!(stripped(b"\n \r\t"), b"");
    assert_eq!(stripped(b"\x0c a \x0b"), b"\x0c a \x0b");
}

/// Whatever the text is, good, beyond or damaged.
#[test]
fn a_padded_text_reads_as_the_unpadded_one() {
    let random = &mut Random::new(22);
    let mut read_well = 0;
    for _ in 0..4_000 {
        for kind in KINDS {
            let text = match random.below(4) {
                0 => texts::beyond(random, kind).into_bytes(),
                1 => {
                    let text = texts::good(random, kind);
                    damaged(random, text.as_bytes())
                }
                _ => texts::good(random, kind).into_bytes(),
            };
            let padded = IN_DIGITS.round(random, &text);
            assert!(padded.len() > text.len());
            assert_eq!(read(kind, &padded), read(kind, &text), "{}", String::from_utf8_lossy(&padded));
            read_well += usize::from(read(kind, &padded).is_ok());
        }
    }
    assert!(read_well > 9_000, "{read_well}");
}

#[test]
fn a_blank_inside_is_refused_with_1() {
    for (kind, text) in good_texts() {
        for blank in BLANKS {
            for broken in in_gaps(text, &[blank]) {
                assert_eq!(read(kind, &broken), Err(1), "{}", String::from_utf8_lossy(&broken));
                assert_eq!(read(kind, &[b" \n".as_slice(), &broken, b"\t"].concat()), Err(1));
            }
        }
    }
}

#[test]
fn blanks_alone_are_refused_with_1() {
    for kind in KINDS {
        for count in [0, 1, 2, 3, 100, 65_536] {
            for blank in BLANKS {
                assert_eq!(read(kind, &vec![blank; count]), Err(1));
            }
        }
        assert_eq!(read(kind, b" \t\r\n"), Err(1));
    }
}

#[test]
fn the_order_of_checks_begins_after_the_stripping() {
    all(&[
        ("read|date| 2024-03-31", "2024-03-31"),
        ("read|date|2024-03-31\r", "2024-03-31"),
        ("read|date|  \r2024-03-31Z \r", "2024-03-31Z"),
        ("read|date| 12000-13-45 ", "refused 2"),
        ("read|date| 02000-01-01", "refused 1"),
        ("read|date|\r-0001-13-45", "refused 2"),
        ("read|date|\r0000-01-01", "refused 1"),
        ("read|time|  25:00:00.0000000000\r", "refused 3"),
        ("read|time|\r24:00:00 ", "00:00:00"),
        ("read|dateTime| 12000-13-45T99:99:99.0000000000+99:99 ", "refused 3"),
        ("read|dateTime| 12000-13-45T99:99:99+99:99 ", "refused 2"),
        ("read|dateTime|9999-12-31T24:00:00+14:01 ", "refused 1"),
        ("read|dateTime|9999-12-31T24:00:00 ", "refused 2"),
        ("read|dt| -PT0S ", "PT0S"),
        ("read|dt|- PT0S", "refused 1"),
        ("read|dt| PT0.0000000000S", "refused 3"),
        ("read|ym|P83333Y4M ", "P83333Y4M"),
        ("read|ym|P83333Y5M ", "refused 2"),
        ("read|ym| ", "refused 1"),
    ]);
}

#[test]
fn every_text_of_every_call_is_stripped() {
    all(&[
        ("unzone|time|\r08:15:00+01:00 ", "08:15:00"),
        ("components|ym| P20Y18M ", "years=21 months=6 days=0 hours=0 minutes=0 seconds=0"),
        ("compare|date| 2024-03-31|date|2024-03-31Z\r", "eq"),
        ("compare|date|  12000-01-01|date|\r", "refused 2"),
        ("compare|date|\r|date|  12000-01-01", "refused 1"),
        ("add|date| 2000-01-31 |ym| P1M ", "2000-02-29"),
        ("subtract|date|2005-03-01\r|dt|\rPT1H", "2005-02-28"),
        ("multiply|dt| PT1H |2", "PT2H"),
        ("cast|date| 2024-03-31 |dateTime", "2024-03-31T00:00:00"),
        ("adjust|time| 08:15:00|dt|PT14H ", "08:15:00+14:00"),
        ("adjust|date|2024-03-31|dt| PT30S", "refused 5"),
        ("compare|date| 2024-03-31|time|08:15:00 ", "refused 9"),
        ("multiply|date| 2024-03-31|1000000", "refused 16"),
    ]);
}

#[test]
fn words_kinds_and_numbers_of_calls_are_not_stripped() {
    for call in [
        " read|date|2024-03-31",
        "read |date|2024-03-31",
        "\rread|date|2024-03-31",
        "read|xs:date |2024-03-31",
        "read| xs:date|2024-03-31",
        "read|xs:date\r|2024-03-31",
        "read|date||2024-03-31",
        "read|date|2024-03-31|",
        "multiply|dt|PT1H| 2",
        "multiply|dt|PT1H|2 ",
        "multiply|dt|PT1H|2\r",
        "multiply|dt|PT1H|- 2",
        "cast|date|2024-03-31|xs:date ",
        "cast|date|2024-03-31|xs:date\r",
        "compare|date|2024-03-31| xs:date|2024-03-31",
    ] {
        assert_eq!(answer(call), "refused 7", "{call:?}");
    }
    assert_eq!(programs::calculator(b"read\txs:date\t2024-03-31\r\n\r\n"), "2024-03-31\nrefused\t7\n");
}

#[test]
fn literals_are_stripped_and_conditions_are_not() {
    for literal in [" 2024-03-31", "2024-03-31 ", "\t2024-03-31", "2024-03-31\r", "\n2024-03-31\n", " \t\r\n2024-03-31\n\r\t "] {
        assert_eq!(opened(&format!("xs:date(\"{literal}\") eq {DAY}")), 0, "{literal:?}");
        assert_eq!(judged(&format!("xs:date(\"{literal}\") eq {DAY}"), "2024-03-31"), Ok(true), "{literal:?}");
    }
    for literal in ["", " ", "\t", "\r\n", "2024-03 -31", "2024-03-\t31", "\u{c}2024-03-31", "2024-03-31\u{a0}", "2024-03-31\0 "]
    {
        assert_eq!(opened(&format!("xs:date(\"{literal}\") eq {DAY}")), 1, "{literal:?}");
    }
    assert_eq!(opened(&format!("xs:date(\" 12000-13-45\") eq {DAY}")), 2);
    assert_eq!(opened("xs:time(\"\t12:00:00.0000000000\") eq xs:time($1)"), 3);
    assert_eq!(opened("xs:date(\" \") eq xs:time($1)"), 9);
    for condition in [
        "xs:date($1) eq xs:date($1)\r",
        "\rxs:date($1) eq xs:date($1)",
        "\txs:date($1) eq xs:date($1)",
        "xs:date($1)\teq xs:date($1)",
        "xs:date(\t\"2024-03-31\") eq xs:date($1)",
        "xs:date(\"2024-03-31\"\r) eq xs:date($1)",
        "xs:date( $ 1) eq xs:date($1)",
        " \r ",
    ] {
        assert_eq!(opened(condition), 7, "{condition:?}");
    }
    assert_eq!(opened("  xs:date( \" 2024-03-31 \" )  eq  xs:date( $1 )  "), 0);
}

#[test]
fn a_condition_of_blanks_but_for_its_value() {
    let with = |count: usize, blank: &str| format!("xs:date(\"{}2024-03-31\") eq {DAY}", blank.repeat(count));
    let room = 240 - with(0, "").len();
    for blank in ["\t", "\n", "\r", " "] {
        assert_eq!(judged(&with(room, blank), "2024-03-31"), Ok(true));
        assert_eq!(opened(&with(room + 1, blank)), 7);
    }
}

#[test]
fn fields_are_stripped() {
    let date = "xs:date($2) eq xs:date(\"2024-03-31\")";
    for (line, expected) in [
        ("x\t 2024-03-31", Ok(true)),
        ("x\t2024-03-31\r", Ok(true)),
        ("x\t \r 2024-04-01 \r ", Ok(false)),
        ("x\t", Err(1)),
        ("x\t \r", Err(1)),
        ("x\t2024-03- 31", Err(1)),
        ("x\t\u{b}2024-03-31", Err(1)),
        ("x\t 12000-13-45", Err(2)),
        ("x ", Err(6)),
        ("x\t\t2024-03-31", Err(1)),
    ] {
        assert_eq!(judged(date, line), expected, "{line:?}");
    }
    let lines = format!("{date}\tx\t 2024-03-31\r\n{date}\tx\t\r\n{date}\r\n{date} \t\t2024-03-31 \n");
    assert_eq!(judgements(lines.as_bytes()), "hit\nunreadable\t1\nrefused\t7\nhit\n");
}

/// A CR at a line's end is a blank after the last field, and no part of the word that makes a run.
#[test]
fn a_timetable_with_carriage_returns() {
    let table = "12\t2024-03-30T23:40:00+01:00\r\n\r\nN\tevery\t2024-03-31T00:00:00\t2024-03-31T00:10:00\tPT10M\r\nN\tevery\r\n";
    let by_moment = "xs:dateTime($2) lt xs:dateTime(\"2024-03-31T00:00:00Z\")";
    assert_eq!(
        desk(table.as_bytes(), by_moment.as_bytes()),
        "open\t1\nhit\t1\t0\t0\nunreadable\t1\t30\t6\nmiss\t1\t32\t0\nmiss\t1\t32\t1\nunreadable\t1\t87\t1\ndone\t1\t1\t2\nidle\n"
    );
    assert_eq!(desk(table.as_bytes(), format!("{by_moment}\r\n").as_bytes()), "refused\t7\nidle\n");
}

/// The timetable with blanks round every field but the word that makes a run.
fn padded_timetable(random: &mut Random, timetable: &[u8]) -> Vec<u8> {
    let mut padded = Vec::new();
    for line in timetable.split_inclusive(|&byte| byte == b'\n') {
        let text = line.strip_suffix(b"\n").unwrap_or(line);
        let fields = fields(text);
        let run = is_run_line(&fields);
        let round = fields.iter().enumerate().map(|(place, field)| match (run, place) {
            (true, 1) => field.to_vec(),
            _ => IN_A_FIELD.round(random, field),
        });
        padded.extend(round.collect::<Vec<Vec<u8>>>().join(&b'\t'));
        padded.extend(&line[text.len()..]);
    }
    padded
}

/// Where each line starts, and the end.
fn starts(timetable: &[u8]) -> Vec<usize> {
    let mut starts = vec![0];
    for line in timetable.split_inclusive(|&byte| byte == b'\n') {
        starts.push(starts[starts.len() - 1] + line.len());
    }
    starts
}

/// The output with the number of each line in the place of its offset.
fn by_lines(output: &str, timetable: &[u8]) -> Vec<String> {
    let starts = starts(timetable);
    let told = output.lines().map(|line| {
        let mut words: Vec<String> = line.split('\t').map(str::to_string).collect();
        if ["hit", "miss", "unreadable"].contains(&words[0].as_str()) {
            let offset: usize = words[2].parse().unwrap();
            words[2] = starts.iter().position(|&start| start == offset).expect("a line's start").to_string();
        }
        words.join(" ")
    });
    told.collect()
}

#[test]
fn a_padded_timetable_is_answered_as_the_unpadded_one() {
    let random = &mut Random::new(23);
    let (mut compared, mut runs) = (0, 0);
    for seed in 2_000..2_400 {
        let case = desks::case(seed);
        let timetable = case.timetable.bytes();
        let padded = padded_timetable(random, timetable);
        if padded.len() > 65_536 || timetable.len() > 10_000 {
            continue;
        }
        let (before, after) = (desk(timetable, &case.conditions), desk(&padded, &case.conditions));
        assert_eq!(by_lines(&before, timetable), by_lines(&after, &padded), "seed {seed}");
        compared += before.lines().count();
        runs += usize::from(lines(timetable).into_iter().any(|line| is_run_line(&fields(line))));
    }
    assert!(compared > 20_000 && runs > 100, "{compared} {runs}");
}

/// Conditions of every sort, with blanks round their literals, as far as the length allows.
#[test]
fn padded_literals_are_answered_as_the_unpadded_ones() {
    let random = &mut Random::new(24);
    let (mut accepted, mut refused) = (0, BTreeSet::new());
    for _ in 0..6_000 {
        let setting = Setting::any(random);
        let condition = any(random, &setting);
        let padded = in_literals(&condition, |literal| IN_A_LITERAL.round(random, literal));
        if padded.len() > 240 || condition.len() > 240 {
            continue;
        }
        let (before, after) = (accept(&condition).err(), accept(&padded).err());
        assert_eq!(before, after, "{}", String::from_utf8_lossy(&padded));
        refused.extend(before);
        if before.is_none() && padded != condition {
            let timetable = b"2000-01-01\t00:00:00\tPT1H\n\n";
            assert_eq!(desk(timetable, &condition), desk(timetable, &padded));
            accepted += 1;
        }
    }
    assert!(accepted > 1_000, "{accepted}");
    assert_eq!(refused, BTreeSet::from([1, 2, 3, 7, 8, 9]));
}

fn part(name: &str) -> Vec<Vec<u8>> {
    let parts = blanks::calls::parts();
    parts.into_iter().find(|(other, _)| *other == name).expect("there is such a part").1
}

/// The call with its texts stripped.
fn unpadded(line: &[u8]) -> Vec<u8> {
    let fields = fields(line).into_iter().enumerate();
    let texts = fields.map(|(place, field)| if [2, 4].contains(&place) { stripped(field) } else { field });
    texts.collect::<Vec<&[u8]>>().join(&b'\t')
}

/// A call of the table is answered as the same without blanks, which most of them are not.
#[test]
fn the_table_is_answered_as_without_blanks() {
    for name in ["blanks-round", "blanks-calls", "blanks-many"] {
        let calls = part(name);
        let padded = calls.iter().filter(|call| unpadded(call) != **call).count();
        assert!(padded * 5 > calls.len() * 4, "{name}");
        for call in &calls {
            assert_eq!(answer_line(call), answer_line(&unpadded(call)));
        }
    }
    let refused = |name: &str, number: u8| part(name).iter().all(|call| answer_line(call) == programs::refused(number));
    assert!(refused("blanks-alone", 1) && refused("blanks-fields", 7));
}

/// All bytes are tried beside all kinds; the four blanks, and what makes another good text, are the only ones that read.
#[test]
fn the_table_has_every_byte() {
    let calls: BTreeSet<Vec<u8>> = part("blanks-others").into_iter().collect();
    for byte in (0..=u8::MAX).filter(|byte| ![9, 10].contains(byte)) {
        let call = [b"read\txs:date\t".as_slice(), &[byte], b"2024-03-31"].concat();
        assert!(calls.contains(&call));
        let good = matches!(byte, 13 | 32);
        assert_eq!(answer_line(&call).starts_with("2024-03-31"), good, "byte {byte}");
    }
    let read = calls.iter().filter(|call| !answer_line(call).starts_with("refused"));
    assert!(read.count() < 5 * 6 * 5);
}

#[test]
fn the_table_is_within_inputs_and_reaches_their_bound() {
    let mut names = BTreeSet::new();
    let mut longest = 0;
    for (name, calls) in blanks::calls::parts() {
        for (name, input) in inputs::of_lines(name, &calls) {
            assert!(!input.is_empty() && input.len() <= MOST_CALLS_BYTES && names.insert(name));
            longest = longest.max(lines(&input).iter().map(|line| line.len()).max().unwrap_or(0));
        }
    }
    assert_eq!(longest, MOST_CALLS_BYTES - 1);
}

/// What the random calls have to hold.
#[test]
fn random_calls_have_blanks_of_every_sort() {
    let random = &mut Random::new(25);
    let mut seen = BTreeSet::new();
    let mut padded = 0;
    for _ in 0..20_000 {
        let line = call(random);
        let found = counts::of_call(&line);
        padded += usize::from(!found.is_empty());
        seen.extend(found);
    }
    assert!((2_000..4_000).contains(&padded), "{padded}");
    for place in ["before", "after", "before and after"] {
        for result in ["read", "refused  1", "refused  2", "refused  3"] {
            assert!(seen.contains(&format!("text {place}, {result}")), "{place} {result}");
        }
    }
    for name in ["text alone, refused  1", "text inside only, refused  1"] {
        assert!(seen.contains(name), "{name}");
    }
}

/// The desk cases have padded fields in plain lines and in runs, and padded literals; those of the table hit and miss.
#[test]
fn desk_cases_have_blanks_of_every_sort() {
    let mut seen = BTreeSet::new();
    for seed in 0..300 {
        let case = desks::case(seed);
        seen.extend(counts::of_desk(case.timetable.bytes(), &case.conditions));
    }
    for place in ["before", "after", "before and after", "alone", "inside only"] {
        for name in [format!("field {place}, plain line"), format!("field {place}, run line"), format!("literal {place}")] {
            assert!(seen.contains(&name), "{name}");
        }
    }
    let mut words = BTreeSet::new();
    for case in blanks::desks::cases() {
        assert!(case.timetable.bytes().len() <= 65_536 && case.conditions.len() <= 4_096);
        let output = desk(case.timetable.bytes(), &case.conditions);
        assert!(!output.contains("refused\t10"));
        words.extend(output.lines().map(|line| line.split('\t').next().unwrap_or("").to_string()));
    }
    let expected = ["done", "hit", "idle", "miss", "open", "refused", "unreadable"];
    assert_eq!(words.iter().map(String::as_str).collect::<Vec<&str>>(), expected);
}

/// Every way to pad the columns of a feed hits, with either ending of its lines.
#[test]
fn a_padded_feed_hits_at_every_line() {
    for case in blanks::desks::cases().iter().take(2) {
        let output = desk(case.timetable.bytes(), &case.conditions);
        for ticket in 1..=7 {
            let hits = output.lines().filter(|line| line.starts_with(&format!("hit\t{ticket}\t"))).count();
            assert!(hits >= 64, "{ticket}: {hits}");
        }
    }
}
