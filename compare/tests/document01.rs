//! Document 01's own cases: "Either side of the line", the sample, the slips, and the order of refusals.

mod common;
use common::{all, answer, judged, opened};
use compare::desk::{Desk, Turn};
use compare::programs;

#[test]
fn case_1_hour_24() {
    all(&[("read|dateTime|1999-12-31T24:00:00Z", "2000-01-01T00:00:00Z")]);
}

#[test]
fn case_2_hour_24_of_the_last_day() {
    all(&[("read|dateTime|9999-12-31T24:00:00", "refused 2")]);
}

#[test]
fn case_3_leap_days() {
    all(&[("read|date|2000-02-29", "2000-02-29"), ("read|date|1900-02-29", "refused 1")]);
}

#[test]
fn case_4_year_before_calendar() {
    all(&[("read|date|12000-13-45", "refused 2"), ("read|date|02000-01-01", "refused 1")]);
}

#[test]
fn case_5_day_is_cut() {
    all(&[("add|date|2000-01-31|ym|P1M", "2000-02-29")]);
}

#[test]
fn case_6_date_less_an_hour() {
    all(&[("subtract|date|2005-03-01|dt|PT1H", "2005-02-28")]);
}

#[test]
fn case_7_difference_of_date_times() {
    all(&[("subtract|dateTime|2000-10-30T06:12:00-05:00|dateTime|1999-11-28T09:00:00Z", "P337DT2H12M")]);
}

#[test]
fn case_8_times_do_not_wrap() {
    all(&[("compare|time|21:30:00+10:30|time|06:00:00-05:00", "eq"), ("compare|time|08:00:00+09:00|time|17:00:00-06:00", "lt")]);
}

#[test]
fn case_9_adjustment() {
    all(&[("adjust|dateTime|2002-03-07T10:00:00-07:00|dt|-PT10H", "2002-03-07T07:00:00-10:00")]);
}

#[test]
fn case_10_normalised() {
    all(&[("read|dt|PT36H", "P1DT12H"), ("read|dt|-PT0S", "PT0S")]);
}

#[test]
fn case_11_bound_of_months() {
    all(&[("read|ym|P83333Y4M", "P83333Y4M"), ("read|ym|P83333Y5M", "refused 2"), ("read|ym|-P83333Y4M", "-P83333Y4M")]);
}

#[test]
fn case_12_time_wraps() {
    all(&[("add|time|23:30:00|dt|PT45M", "00:15:00")]);
}

#[test]
fn case_13_zone_and_fraction() {
    all(&[
        ("read|time|10:00:00+14:00", "10:00:00+14:00"),
        ("read|time|10:00:00+14:01", "refused 1"),
        ("read|time|10:00:00.0000000", "10:00:00"),
        ("read|time|10:00:00.000000000", "10:00:00"),
        ("read|time|10:00:00.0000000000", "refused 3"),
    ]);
}

#[test]
fn case_14_empty_timetable() {
    let mut desk = Desk::fresh(0).unwrap();
    assert_eq!(desk.open(b"xs:date($1) eq xs:date($1)"), Ok(1));
    assert_eq!(desk.turn(b""), Ok(Turn::Done { ticket: 1, hits: 0, unreadable: 0 }));
    assert_eq!(desk.turn(b""), Ok(Turn::Idle));
    assert_eq!(programs::desk(b"", b"xs:date($1) eq xs:date($1)"), "open\t1\ndone\t1\t0\t0\nidle\n");
}

const TIMETABLE: &str = "12\t2024-03-30T23:40:00+01:00\n14\t2024-03-31T06:00:00+02:00\n";
const INPUT: &str = "xs:dateTime($2) lt xs:dateTime(\"2024-03-31T00:00:00Z\")\n\
    xs:dateTime($2) - xs:dateTime(\"2024-03-30T22:40:00Z\") eq xs:dayTimeDuration(\"PT5H20M\")\n";
const OUTPUT: &str =
    "open\t1\nopen\t2\nhit\t1\t0\t0\nmiss\t2\t0\t0\nmiss\t1\t29\t0\nhit\t2\t29\t0\ndone\t1\t1\t0\ndone\t2\t1\t0\nidle\n";

#[test]
fn the_sample() {
    assert_eq!(programs::desk(TIMETABLE.as_bytes(), INPUT.as_bytes()), OUTPUT);
    let (timetable, input) = (TIMETABLE.trim_end(), INPUT.trim_end());
    assert_eq!(programs::desk(timetable.as_bytes(), input.as_bytes()), OUTPUT);
}

#[test]
fn a_bad_field_after_a_true_left_spoils_no_hit() {
    let good = "xs:date($1) eq xs:date($1)";
    assert_eq!(judged(&format!("{good} or xs:date($2) eq xs:date($2)"), "2000-01-01"), Ok(true));
    assert_eq!(judged(&format!("xs:date($2) eq xs:date($2) or {good}"), "2000-01-01"), Err(6));
    assert_eq!(judged("xs:date($1) ne xs:date($1) and xs:date($2) eq xs:date($2)", "2000-01-01"), Ok(false));
    assert_eq!(judged(&format!("{good} and xs:date($2) eq xs:date($2)"), "2000-01-01\tbad"), Err(1));
}

#[test]
fn the_longest_text_has_35_bytes() {
    let text = "2000-01-01T00:00:00.123456789+14:00";
    assert_eq!(answer(&format!("read|dateTime|{text}")), text);
    assert_eq!(text.len(), 35);
}

#[test]
fn duration_bounds_and_long_runs() {
    let zeros = "0".repeat(5000);
    let nines = "9".repeat(5000);
    all(&[
        ("read|dt|PT1000000000000S", "P11574074DT1H46M40S"),
        ("read|dt|-PT1000000000000S", "-P11574074DT1H46M40S"),
        ("read|dt|PT1000000000000.000001S", "refused 2"),
        ("read|dt|PT1000000000000.000000001S", "refused 2"),
        ("read|dt|PT999999999999.999999999S", "P11574074DT1H46M39.999999999S"),
        ("read|dt|PT1000000000000.000000000S", "P11574074DT1H46M40S"),
        ("read|dt|PT1000000000000.0000000000S", "refused 3"),
        (&format!("read|dt|P{zeros}1D"), "P1D"),
        (&format!("read|dt|P{nines}D"), "refused 2"),
        (&format!("read|dt|PT{zeros}0.5S"), "PT0.5S"),
        (&format!("read|ym|P{zeros}83333Y{zeros}4M"), "P83333Y4M"),
        (&format!("read|ym|-P0Y{nines}M"), "refused 2"),
        (&format!("read|date|{nines}-01-01"), "refused 2"),
        (&format!("read|date|{zeros}-01-01"), "refused 1"),
        (&format!("multiply|dt|PT1S|{zeros}7"), "PT7S"),
        (&format!("multiply|dt|PT1S|-{nines}"), "refused 16"),
    ]);
}

#[test]
fn shapes() {
    for text in [
        "", "P", "PT", "P1DT", "P1Y", "P1M", "PT1D", "PT1.S", "PT.5S", "PT1.5M", "PT1S1M", "PT1H1H", "p1D", "P1 D", "+P1D",
        "P-1D",
    ] {
        assert_eq!(answer(&format!("read|dt|{text}")), "refused 1", "{text}");
    }
    for text in ["", "P", "PY", "P1", "P1M1Y", "P1D", "PT1M", "P1Y1", "P1YT", "P1Y1M1D", "P1.5Y"] {
        assert_eq!(answer(&format!("read|ym|{text}")), "refused 1", "{text}");
    }
    for text in [
        "",
        "2000-01-1",
        "2000-1-01",
        "200-01-01",
        "0000-01-01",
        "-0000-01-01",
        "00001-01-01",
        "2000-01-01z",
        "2000-01-01+1:00",
        "2000-01- 01",
    ] {
        assert_eq!(answer(&format!("read|date|{text}")), "refused 1", "{text}");
    }
    for text in [
        "",
        "1:00:00",
        "01:00",
        "01:00:00.",
        "01:00:.5",
        "24:00:01",
        "24:00:00.000001",
        "23:60:00",
        "23:59:60",
        "25:00:00",
        "00:00:00+00:60",
    ] {
        assert_eq!(answer(&format!("read|time|{text}")), "refused 1", "{text}");
    }
    for text in ["2000-01-01", "2000-01-01t00:00:00", "2000-01-01 00:00:00", "2000-01-01T00:00:00 Z", "2000-01-01T24:00:00.5"] {
        assert_eq!(answer(&format!("read|dateTime|{text}")), "refused 1", "{text}");
    }
}

#[test]
fn arithmetic_at_the_bounds() {
    all(&[
        ("add|dateTime|9999-12-31T23:59:59.999999|dt|PT0.000001S", "refused 4"),
        ("add|dateTime|9999-12-31T23:59:59.999998-14:00|dt|PT0.000001S", "9999-12-31T23:59:59.999999-14:00"),
        ("subtract|dateTime|0001-01-01T00:00:00+14:00|dt|PT0.000001S", "refused 4"),
        ("add|date|9999-12-31|dt|PT23H59M59.999999S", "9999-12-31"),
        ("add|date|9999-12-31|dt|P1D", "refused 4"),
        ("subtract|date|0001-01-01|dt|PT0.000001S", "refused 4"),
        ("add|date|9999-11-30|ym|P1M", "9999-12-30"),
        ("add|date|9999-12-01|ym|P1M", "refused 4"),
        ("subtract|date|0001-01-31|ym|P1M", "refused 4"),
        ("subtract|date|2001-03-31|ym|P1Y1M", "2000-02-29"),
        ("add|dt|PT1000000000000S|dt|PT0.000001S", "refused 4"),
        ("add|ym|P83333Y4M|ym|P1M", "refused 4"),
        ("subtract|ym|-P83333Y4M|ym|P1M", "refused 4"),
        ("multiply|ym|P1M|999999", "P83333Y3M"),
        ("multiply|ym|P2M|999999", "refused 4"),
        ("multiply|dt|PT1000000000000S|-1", "-P11574074DT1H46M40S"),
        ("multiply|dt|PT1000000000000S|-999999", "refused 4"),
        ("adjust|dateTime|9999-12-31T23:30:00Z|dt|PT1H", "refused 4"),
        ("adjust|date|0001-01-01Z|dt|-PT1M", "refused 4"),
        ("adjust|time|00:00:00Z|dt|-PT1M", "23:59:00-00:01"),
        ("adjust|date|0001-01-01|dt|-PT14H", "0001-01-01-14:00"),
    ]);
}

#[test]
fn kinds_that_do_not_fit() {
    all(&[
        ("compare|date|2000-01-01|dateTime|2000-01-01T00:00:00", "refused 9"),
        ("compare|dt|PT0S|ym|P0M", "refused 9"),
        ("add|date|2000-01-01|date|2000-01-01", "refused 9"),
        ("add|time|00:00:00|ym|P1M", "refused 9"),
        ("add|ym|P1M|time|00:00:00", "refused 9"),
        ("add|dt|P1D|ym|P1M", "refused 9"),
        ("add|dt|PT1H|time|23:30:00", "00:30:00"),
        ("subtract|dt|P1D|date|2000-01-01", "refused 9"),
        ("subtract|date|2000-01-01|time|00:00:00", "refused 9"),
        ("multiply|date|2000-01-01|2", "refused 9"),
        ("cast|date|2000-01-01|time", "refused 9"),
        ("cast|time|00:00:00|dateTime", "refused 9"),
        ("cast|dt|P1D|ym", "refused 9"),
        ("cast|dateTime|2000-01-01T10:00:00.5+01:00|time", "10:00:00.5+01:00"),
        ("cast|dateTime|2000-01-01T10:00:00.5+01:00|date", "2000-01-01+01:00"),
        ("cast|date|2000-01-01-14:00|dateTime", "2000-01-01T00:00:00-14:00"),
        ("adjust|dt|P1D|dt|PT1H", "refused 9"),
        ("adjust|date|2000-01-01|ym|P1M", "refused 9"),
        ("unzone|ym|P1M", "refused 9"),
    ]);
}

#[test]
fn numbers_in_their_order() {
    all(&[
        ("multiply|date|2000-01-01|1000000", "refused 16"),
        ("multiply|date|bad|1000000", "refused 1"),
        ("multiply|date|bad|x", "refused 7"),
        ("adjust|dateTime|9999-12-31T23:30:00Z|dt|PT14H1M", "refused 5"),
        ("adjust|date|2000-01-01|dt|PT30S", "refused 5"),
        ("compare|date|bad|nokind|x", "refused 7"),
        ("compare|date|12000-01-01|date|bad", "refused 2"),
        ("compare|date|2000-01-01|date|bad", "refused 1"),
    ]);
    assert_eq!(opened(""), 7);
    assert_eq!(opened(&" ".repeat(241)), 7);
    assert_eq!(opened(&"(".repeat(241)), 7);
    assert_eq!(opened(&"(".repeat(17)), 8);
    assert_eq!(opened(&"(".repeat(16)), 7);
    let good = "xs:date($1) eq xs:date($1)";
    assert_eq!(opened(&format!("{good}{}", " ".repeat(240 - good.len()))), 0);
    assert_eq!(opened(&format!("{good}{}", " ".repeat(241 - good.len()))), 7);
}

#[test]
fn the_program_at_its_bounds() {
    let condition = "xs:date($1) eq xs:date($1)\n";
    let seventeen = condition.repeat(17);
    let output = programs::desk(b"", seventeen.as_bytes());
    assert!(output.starts_with("open\t1\n") && output.contains("open\t16\nrefused\t10\ndone\t1\t0\t0\n"));
    assert_eq!(programs::desk(&[b'x'; 65_537], b""), "refused\t11\n");
    assert_eq!(programs::desk(&[b'x'; 65_537], &[b' '; 4_097]), "refused\t11\n");
    assert_eq!(programs::desk(&[b'x'; 65_536], &[b' '; 4_097]), "refused\t7\n");
    assert_eq!(programs::desk(&[b'x'; 65_536], &[b' '; 4_096]), "refused\t7\nidle\n");
    let lines = programs::desk(b"\n\n2000-01-01", condition.as_bytes());
    assert_eq!(lines, "open\t1\nunreadable\t1\t0\t1\nunreadable\t1\t1\t1\nhit\t1\t2\t0\ndone\t1\t1\t2\nidle\n");
}

#[test]
fn runs_of_the_program() {
    let start_of = |name: &[u8], most: usize| match name {
        b"day" => b"2000-01-01".to_vec(),
        b"any" => b"xs:date($1) eq xs:date($1)\n".to_vec(),
        b"long" => vec![b' '; most],
        _ => Vec::new(),
    };
    let cases = [
        ("day\tany", "open\t1\nhit\t1\t0\t0\ndone\t1\t1\t0\nidle\n"),
        ("day", "idle\n"),
        ("", "idle\n"),
        ("none\tany\tmore", "open\t1\ndone\t1\t0\t0\nidle\n"),
        ("long\tlong", "refused\t11\n"),
        ("day\tlong", "refused\t7\n"),
    ];
    let list: String = cases.iter().map(|(line, _)| format!("{line}\n")).collect();
    let expected: String = cases.iter().map(|(line, output)| format!("case\t{line}\n{output}")).collect();
    assert_eq!(String::from_utf8(programs::desk_runs(list.as_bytes(), start_of)).unwrap(), expected);
}
