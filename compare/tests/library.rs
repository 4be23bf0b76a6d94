//! docs/LINES.md, "Library example": each call's answers, the forms, the rooms and the desk that is kept.

use compare::library::library_example;

const TABLE: &str = "2000-01-01\n2000-01-02\nbad\n";
const GOOD: &str = "xs:date($1) eq xs:date(\"2000-01-01\")";

/// The answers to calls, both with `|` for a tab.
fn answers(timetable: &str, calls: &[&str]) -> Vec<String> {
    let input = calls.join("\n").replace('|', "\t");
    let output = library_example(timetable.as_bytes(), input.as_bytes());
    output.strip_suffix('\n').unwrap_or("").replace('\t', "|").split('\n').map(str::to_string).collect()
}

/// Each call with its answer.
fn all(timetable: &str, cases: &[(&str, &str)]) {
    let calls: Vec<&str> = cases.iter().map(|case| case.0).collect();
    for (given, (call, expected)) in answers(timetable, &calls).iter().zip(cases) {
        assert_eq!(given, expected, "{call}");
    }
    assert_eq!(answers(timetable, &calls).len(), cases.len());
}

#[test]
fn the_published_examples() {
    all(
        "",
        &[
            ("date|2024|2|29|+120", "2024-02-29+02:00"),
            ("date|2023|2|29|none", "refused|16"),
            ("time|86399|999999999|none", "23:59:59.999999999"),
            ("time|86400|0|none", "refused|16"),
            ("dayTime|-129600|0", "-P1DT12H"),
            ("record|12|xs:date|2024|3|31|0|0|none", "wrote|10|2024-03-31.."),
            ("record|4|xs:date|2024|3|31|0|0|none", "refused|15|...."),
            ("record|4|xs:date|2024|3|31|0|1|none", "refused|16|...."),
            ("write|xs:time|9|24:00:00Z", "wrote|9|00:00:00Z"),
            ("write|xs:time|9|25:00:00Z", "refused|1"),
            ("bytes|xs:time|9|0a30353a30303a30300d", "wrote|8|05:00:00."),
            ("compare|xs:dayTimeDuration|PT24H|xs:dayTimeDuration|+86400|0", "eq"),
            ("late|xs:time|08:00:00|08:04:00|PT3M", "yes"),
        ],
    );
}

#[test]
fn makers_of_dates_and_times() {
    all(
        "",
        &[
            ("date|1|1|1|none", "0001-01-01"),
            ("date|9999|12|31|-840", "9999-12-31-14:00"),
            ("date|0|1|1|none", "refused|16"),
            ("date|10000|1|1|none", "refused|16"),
            ("date|65535|1|1|none", "refused|16"),
            ("date|1900|2|29|none", "refused|16"),
            ("date|00000000000000002000|02|029|+00840", "2000-02-29+14:00"),
            ("date|2000|0|1|none", "refused|16"),
            ("date|2000|13|1|none", "refused|16"),
            ("date|2000|4|31|none", "refused|16"),
            ("date|2000|12|0|none", "refused|16"),
            ("date|2000|255|255|none", "refused|16"),
            ("date|2000|1|1|+0", "2000-01-01Z"),
            ("date|2000|1|1|-0", "refused|16"),
            ("date|2000|1|1|-00", "refused|16"),
            ("date|2000|1|1|+841", "refused|16"),
            ("date|2000|1|1|-65535", "refused|16"),
            ("time|0|0|none", "00:00:00"),
            ("time|0|1|none", "00:00:00.000000001"),
            ("time|0|1000|none", "00:00:00.000001"),
            ("time|0|123456780|none", "00:00:00.12345678"),
            ("time|0|999999999|none", "00:00:00.999999999"),
            ("time|0|1000000000|none", "refused|16"),
            ("time|0|4294967295|none", "refused|16"),
            ("time|86399|999999999|+1", "23:59:59.999999999+00:01"),
            ("time|86398|1000000000|+1", "refused|16"),
            ("time|86400|0|+1", "refused|16"),
            ("time|86400|1000000000|+1", "refused|16"),
            ("time|4294967295|0|none", "refused|16"),
            ("time|4294967295|4294967295|none", "refused|16"),
            ("time|00000000000000000059|00000000000000000009|none", "00:00:59.000000009"),
            ("time|100|0|-0", "refused|16"),
            ("dateTime|2000|2|29|43200|500000000|-1", "2000-02-29T12:00:00.5-00:01"),
            ("dateTime|9999|12|31|86399|999999999|none", "9999-12-31T23:59:59.999999999"),
            ("dateTime|9999|12|31|86399|1000000000|none", "refused|16"),
            ("dateTime|9999|12|31|86400|0|none", "refused|16"),
        ],
    );
}

#[test]
fn makers_of_durations() {
    all(
        "",
        &[
            ("dayTime|+0|0", "PT0S"),
            ("dayTime|-0|0", "refused|16"),
            ("dayTime|-00000000000000000000|00000000000000000000", "refused|16"),
            ("dayTime|+0|1", "PT0.000000001S"),
            ("dayTime|-0|1", "-PT0.000000001S"),
            ("dayTime|-0|999999999", "-PT0.999999999S"),
            ("dayTime|-0|1000000000", "refused|16"),
            ("dayTime|-1|0", "-PT1S"),
            ("dayTime|-1|1", "-PT1.000000001S"),
            ("dayTime|+999999999999|999999999", "P11574074DT1H46M39.999999999S"),
            ("dayTime|+999999999999|1000000000", "refused|16"),
            ("dayTime|+1000000000000|0", "P11574074DT1H46M40S"),
            ("dayTime|-1000000000000|0", "-P11574074DT1H46M40S"),
            ("dayTime|+1000000000000|1", "refused|16"),
            ("dayTime|-1000000000000|1", "refused|16"),
            ("dayTime|+1000000000001|0", "refused|16"),
            ("dayTime|-18446744073709551615|0", "refused|16"),
            ("dayTime|+18446744073709551615|4294967295", "refused|16"),
            ("yearMonth|+0", "P0M"),
            ("yearMonth|-0", "refused|16"),
            ("yearMonth|-1000000", "-P83333Y4M"),
            ("yearMonth|+1000001", "refused|16"),
            ("yearMonth|-4294967295", "refused|16"),
        ],
    );
}

#[test]
fn records_and_their_rooms() {
    all(
        "",
        &[
            ("record|0|xs:yearMonthDuration|+0", "refused|15|"),
            ("record|2|xs:yearMonthDuration|+0", "refused|15|.."),
            ("record|3|xs:yearMonthDuration|+0", "wrote|3|P0M"),
            ("record|4|xs:yearMonthDuration|+0", "wrote|3|P0M."),
            ("record|00000000000000000001|xs:yearMonthDuration|-0", "refused|16|."),
            ("record|0|xs:yearMonthDuration|+1000001", "refused|16|"),
            ("record|8|xs:time|1972|12|31|0|0|none", "wrote|8|00:00:00"),
            ("record|8|xs:time|1972|12|30|0|0|none", "refused|16|........"),
            ("record|8|xs:time|1973|1|1|0|0|none", "refused|16|........"),
            ("record|8|xs:time|1972|12|31|86400|0|none", "refused|16|........"),
            ("record|8|xs:time|1972|12|31|86399|1000000000|none", "refused|16|........"),
            ("record|11|xs:date|1972|12|31|0|0|-0", "refused|16|..........."),
            ("record|11|xs:date|1972|12|31|0|0|+0", "wrote|11|1972-12-31Z"),
            ("record|11|xs:date|1972|12|31|0|1|+0", "refused|16|..........."),
            ("record|11|xs:date|1972|12|31|1|0|+0", "refused|16|..........."),
            ("record|34|xs:dateTime|9999|12|31|86399|999999999|-840", "refused|15|.................................."),
            ("record|35|xs:dateTime|9999|12|31|86399|999999999|-840", "wrote|35|9999-12-31T23:59:59.999999999-14:00"),
            ("record|36|xs:dateTime|9999|12|31|86399|999999999|-840", "wrote|35|9999-12-31T23:59:59.999999999-14:00."),
            ("record|15|xs:dayTimeDuration|-0|1", "wrote|15|-PT0.000000001S"),
            ("record|14|xs:dayTimeDuration|-0|1", "refused|15|.............."),
            ("record|14|xs:dayTimeDuration|-0|0", "refused|16|.............."),
            ("record|0|xs:dayTimeDuration|+1000000000000|1", "refused|16|"),
            ("record|0|xs:dayTimeDuration|+1000000000000|0", "refused|15|"),
            ("record|65|xs:yearMonthDuration|+0", "refused|7"),
            ("write|xs:dayTimeDuration|4|-PT0S", "wrote|4|PT0S"),
            ("write|xs:dayTimeDuration|0|PT1S", "refused|15|"),
            ("write|xs:dayTimeDuration|4|PT1.0000000S", "wrote|4|PT1S"),
            ("write|xs:dayTimeDuration|0|PT1.0000000000S", "refused|3"),
            ("write|xs:date|0|10000-01-01", "refused|2"),
            ("write|xs:date|10|2000-01-01|", "wrote|10|2000-01-01"),
            ("write|xs:date|10|2000-01-01|x", "refused|1"),
            ("write|xs:date|10|", "refused|1"),
            ("write|xs:date|10", "refused|7"),
            ("write|xs:date|65|x", "refused|7"),
        ],
    );
}

#[test]
fn bytes_by_their_digits() {
    let spaces = |count: usize| format!("bytes|xs:date|10|{}{}", "20".repeat(count), "323030302d30312d3031");
    all(
        "",
        &[
            ("bytes|xs:date|10|323030302d30312d3031", "wrote|10|2000-01-01"),
            ("bytes|xs:date|12|090a0d20323030302d30312d3031200d0a09", "wrote|10|2000-01-01.."),
            ("bytes|xs:date|9|20323030302d30312d3031", "refused|15|........."),
            ("bytes|xs:date|10|323030302d300a312d3031", "refused|1"),
            ("bytes|xs:date|10|0c323030302d30312d3031", "refused|1"),
            ("bytes|xs:date|10|323030302d30312d3031a0", "refused|1"),
            ("bytes|xs:date|10|0a31323030302d31332d3435", "refused|2"),
            ("bytes|xs:dayTimeDuration|0|0a5054302e30303030303030303030530a", "refused|3"),
            ("bytes|xs:date|0|", "refused|1"),
            ("bytes|xs:date|0|0a", "refused|1"),
            (&spaces(246), "wrote|10|2000-01-01"),
            (&spaces(247), "refused|7"),
            (&format!("bytes|xs:date|0|{}", "00".repeat(256)), "refused|1"),
            (&format!("bytes|xs:date|0|{}", "00".repeat(257)), "refused|7"),
        ],
    );
}

#[test]
fn comparisons_with_records() {
    all(
        "",
        &[
            ("compare|xs:date|2000-01-01+12:00|xs:date|1999|12|31|0|0|-720", "eq"),
            ("compare|xs:date|2000-01-01+12:01|xs:date|1999|12|31|0|0|-720", "lt"),
            ("compare|xs:time|00:00:00|xs:time|1972|12|31|0|0|+1", "gt"),
            ("compare|xs:time|08:00:00+09:00|xs:time|1972|12|31|61200|0|-360", "lt"),
            ("compare|xs:yearMonthDuration|P1Y|xs:yearMonthDuration|+12", "eq"),
            ("compare|xs:yearMonthDuration|P1Y|xs:yearMonthDuration|-0", "refused|16"),
            ("compare|xs:date|2000-01-01|xs:dateTime|2000|1|1|0|0|none", "refused|9"),
            ("compare|xs:date|2000-01-01|xs:dateTime|0|1|1|0|0|none", "refused|16"),
            ("compare|xs:date|bad|xs:dateTime|0|1|1|0|0|none", "refused|1"),
            ("compare|xs:dayTimeDuration|PT1S|xs:dayTimeDuration|+0|999999999", "gt"),
            ("compare|xs:dayTimeDuration|-PT1S|xs:dayTimeDuration|-1|1", "gt"),
            ("compare|xs:dayTimeDuration|-PT0.5S|xs:dayTimeDuration|-0|500000000", "eq"),
            ("compare|xs:time|23:59:59.999999999|xs:time|1972|12|31|86399|999999998|none", "gt"),
            ("compare|xs:dayTimeDuration|PT0S|xs:yearMonthDuration|+0", "refused|9"),
            ("compare|xs:date|bad|xs:dateTime|0|1|1|0|0", "refused|7"),
            ("compare|xs:date|bad|xs:dateTime|0|1|1|0|none", "refused|7"),
            ("compare|xs:date|bad|xs:dateTime|0|1|1|0|0|none|", "refused|7"),
        ],
    );
}

#[test]
fn what_is_late() {
    all(
        "",
        &[
            ("late|xs:time|08:00:00|08:03:00|PT3M", "no"),
            ("late|xs:time|08:00:00|08:03:00.000000001|PT3M", "yes"),
            ("late|xs:time|08:04:00|08:00:00|-PT3M", "no"),
            ("late|xs:time|08:00:00+01:00|07:00:00Z|-PT0.000000001S", "yes"),
            ("late|xs:date|2000-02-28|2000-03-01|P2D", "no"),
            ("late|xs:dateTime|0001-01-01T00:00:00|9999-12-31T24:00:00|PT0S", "refused|2"),
            ("late|xs:dayTimeDuration|-P11574074DT1H46M40S|P11574074DT1H46M40S|PT0S", "refused|4"),
            ("late|xs:dayTimeDuration|PT0S|P11574074DT1H46M40S|P11574074DT1H46M40S", "no"),
            ("late|xs:yearMonthDuration|P1M|P2M|PT0S", "refused|9"),
            ("late|xs:yearMonthDuration|-P1M|P83333Y4M|PT0S", "refused|4"),
            ("late|xs:yearMonthDuration|P1M|P2M|P1M", "refused|1"),
            ("late|xs:date|bad|10000-01-01|PT0.0000000000S", "refused|1"),
            ("late|xs:date|2000-01-01|10000-01-01|PT0.0000000000S", "refused|2"),
            ("late|xs:date|2000-01-01|2000-01-01|PT0.0000000000S", "refused|3"),
            ("late|xs:date|||", "refused|1"),
            ("late|xs:date||", "refused|7"),
            ("late|xs:date||||", "refused|7"),
        ],
    );
}

#[test]
fn the_desk_is_kept() {
    let open = format!("open|{GOOD}");
    let mut cases: Vec<(&str, String)> = vec![("turn", "idle".into()), ("close|0", "refused|13".into())];
    cases.extend((1..=16).map(|ticket| (open.as_str(), format!("open|{ticket}"))));
    cases.extend([
        (open.as_str(), "refused|10".to_string()),
        ("open|", "refused|7".to_string()),
        ("open|xs:date($1)|eq xs:date($1)", "refused|7".to_string()),
        ("open|xs:date(\"bad\") eq xs:date($1)", "refused|1".to_string()),
        ("turn", "hit|1|0|0".to_string()),
        ("date|2000|1|1|none", "2000-01-01".to_string()),
        ("close|00002", "closed".to_string()),
        ("turn", "hit|3|0|0".to_string()),
        ("close|4294967295", "refused|13".to_string()),
        ("close|4294967296", "refused|7".to_string()),
        (open.as_str(), "open|17".to_string()),
    ]);
    cases.extend((4..=16).map(|ticket| (("turn"), format!("hit|{ticket}|0|0"))));
    cases.extend((2..=16).map(|ticket| ("close|17", if ticket == 2 { "closed" } else { "refused|13" }.to_string())));
    cases.extend(["miss|1|11|0", "miss|3|11|0"].map(|answer| ("turn", answer.to_string())));
    let cases: Vec<(&str, &str)> = cases.iter().map(|(call, answer)| (*call, answer.as_str())).collect();
    all(TABLE, &cases);
}

#[test]
fn one_query_to_its_end() {
    let open = format!("open|{GOOD}");
    let turns = ["hit|1|0|0", "miss|1|11|0", "unreadable|1|22|1", "done|1|1|1", "idle", "idle"];
    let mut cases = vec![(open.as_str(), "open|1")];
    cases.extend(turns.map(|answer| ("turn", answer)));
    all(TABLE, &cases);
    all("", &[(&open, "open|1"), ("turn", "done|1|0|0"), ("turn", "idle")]);
}

#[test]
fn lines_that_are_no_calls() {
    let wrong = [
        "",
        " ",
        "|",
        "turn|",
        "turn ",
        "Turn",
        "turn\r",
        "open",
        "close",
        "close|",
        "close|1|",
        "close|+1",
        "close|000000000000000000001",
        "date|2000|1|1",
        "date|2000|1|1|none|",
        "date|2000|1|1|none ",
        "date|2000|1|1|",
        "date|2000|1|1|0",
        "date|2000|1|1|Z",
        "date|2000|1|1|+",
        "date|2000|1|1|+-1",
        "date|2000|1|1|+65536",
        "date|65536|1|1|none",
        "date|2000|256|1|none",
        "date|2000|1|256|none",
        "date|-1|1|1|none",
        "date||1|1|none",
        "time|4294967296|0|none",
        "time|0|4294967296|none",
        "time|99999999999999999999|0|none",
        "time|0",
        "time|0|none",
        "time|0|0",
        "time|0|0|none|",
        "time|+0|0|none",
        "time|0|-0|none",
        "time|0||none",
        "time|0|000000000000000000001|none",
        "dateTime|2000|1|1|none",
        "dateTime|2000|1|1|0|none",
        "dayTime|0",
        "dayTime|+0",
        "dayTime|0|0",
        "dayTime|+|0",
        "dayTime|+0|",
        "dayTime|+0|+0",
        "dayTime|+0|-1",
        "dayTime|+0|0|",
        "dayTime|+0|4294967296",
        "dayTime|+18446744073709551616|0",
        "dayTime|+000000000000000000001|0",
        "yearMonth|-4294967296",
        "yearMonth|+1|",
        "record|0",
        "record|0|xs:date",
        "record|0|xs:date|+1",
        "record|0|xs:date|2000|1|1|0|none",
        "record|0|xs:dayTimeDuration|2000|1|1|0|0|none",
        "record|0|xs:dayTimeDuration|+1",
        "record|0|xs:dayTimeDuration|+1|",
        "record||xs:dayTimeDuration|+1|0",
        "record|0|xs:duration|+1",
        "write|date|0|2000-01-01",
        "bytes|xs:date|0",
        "bytes|date|0|",
        "bytes|xs:date|65|",
        "bytes|xs:date||20",
        "bytes|xs:date|0|2",
        "bytes|xs:date|0|202",
        "bytes|xs:date|0|0A",
        "bytes|xs:date|0|0g",
        "bytes|xs:date|0| 20",
        "bytes|xs:date|0|20 ",
        "bytes|xs:date|0|20|",
        "bytes|xs:date|0||",
        "compare|xs:date|2000-01-01|2000-01-01",
        "compare|xs:date|2000-01-01|xs:date|2000-01-01",
        "compare|date|2000-01-01|xs:date|2000|1|1|0|0|none",
        "late|xs:days|PT1S|PT1S|PT1S",
        "late|xs:date|bad|bad",
        "read|xs:date|2000-01-01",
    ];
    for (call, answer) in wrong.iter().zip(answers("", &wrong)) {
        assert_eq!(answer, "refused|7", "{call:?}");
    }
}

#[test]
fn the_whole_input() {
    assert_eq!(library_example(b"", b""), "");
    assert_eq!(library_example(b"", b"\n"), "refused\t7\n");
    assert_eq!(library_example(b"", b"turn"), "idle\n");
    let most = "turn\n".repeat(13_108);
    assert_eq!(library_example(b"", &most.as_bytes()[..65_536]), format!("{}refused\t7\n", "idle\n".repeat(13_107)));
    assert_eq!(library_example(b"", &most.as_bytes()[..65_537]), "refused\t7\n");
    assert_eq!(library_example(&[b'x'; 65_536], b"turn\n"), "idle\n");
    assert_eq!(library_example(&[b'x'; 65_537], b"turn\n"), "refused\t11\n");
    assert_eq!(library_example(&[b'x'; 65_537], b""), "refused\t11\n");
    assert_eq!(library_example(&[b'x'; 65_537], &most.as_bytes()[..65_537]), "refused\t11\n");
}
