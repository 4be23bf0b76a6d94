//! The examples of docs/DECISIONS.md, one test a reading, and those of docs/LINES.md.

mod common;
use common::{all, answer, judged, opened};
use compare::programs;

const HOUR: &str = "xs:dayTimeDuration(\"PT1H\")";
const DAY: &str = "xs:date($1)";

/// `HOUR` with what is given after it, compared with itself.
fn product(rest: &str) -> u8 {
    opened(&format!("{HOUR}{rest} ge {HOUR}"))
}

#[test]
fn reading_1_a_factors_minus() {
    assert_eq!(product("*-5"), 0);
    assert_eq!(product("* -5"), 0);
    assert_eq!(product("* - 5"), 7);
    assert_eq!(product("*-0"), 0);
    assert_eq!(product("*000005"), 0);
    assert_eq!(product("*0000001"), 7);
    assert_eq!(product("*999999"), 0);
    assert_eq!(product("*1000000"), 7);
    assert_eq!(product("*--5"), 7);
    assert_eq!(product("*+5"), 7);
}

#[test]
fn reading_2_the_depth() {
    assert_eq!(opened(&format!("){}", "(".repeat(17))), 7);
    assert_eq!(opened(&format!("){}", "(".repeat(18))), 8);
    assert_eq!(opened(&format!("\"{}", "(".repeat(18))), 7);
    assert_eq!(opened(&format!("\"\"{}", "(".repeat(17))), 8);
    assert_eq!(opened(&format!("% error {}", "(".repeat(17))), 8);
    let nested = |count: usize| format!("{}$1{} eq {DAY}", "xs:date(".repeat(count), ")".repeat(count));
    assert_eq!(opened(&nested(16)), 0);
    assert_eq!(opened(&nested(17)), 8);
}

#[test]
fn reading_3_fields() {
    for field in ["$ 1", "$01", "$0", "$17", "$", "$1 6", "$99999999999999999999"] {
        assert_eq!(opened(&format!("xs:date({field}) eq {DAY}")), 7, "{field}");
    }
    assert_eq!(opened("xs:date($16) eq xs:date( $1 )"), 0);
    assert_eq!(judged("xs:date($16) eq xs:date($1)", "2000-01-01"), Err(6));
}

#[test]
fn reading_4_words() {
    let same = format!("{DAY} eq {DAY}");
    assert_eq!(opened(&format!("{same} andxs:date($1) eq {DAY}")), 7);
    assert_eq!(opened(&format!("xs:date:($1) eq {DAY}")), 7);
    assert_eq!(opened(&format!("XS:date($1) eq {DAY}")), 7);
    assert_eq!(opened(&format!("{HOUR} lt {HOUR}*5and {same}")), 0);
    assert_eq!(opened("xs:time($1)eq xs:time($1)"), 0);
    assert_eq!(opened(&format!("{same} AND {same}")), 7);
}

#[test]
fn reading_5_spaces() {
    assert_eq!(opened(&format!("  {DAY}  eq  xs:date  (  $1  )  ")), 0);
    assert_eq!(opened("   "), 7);
    assert_eq!(opened(&format!("{DAY}\teq {DAY}")), 7);
    assert_eq!(opened(&format!("{DAY} eq {DAY}\r")), 7);
}

#[test]
fn reading_6_inside_quotes() {
    assert_eq!(opened(&format!("xs:date(\"(((\u{e9}\t\") eq {DAY}")), 1);
    assert_eq!(opened(&format!("xs:date(\"a\"\"b\") eq {DAY}")), 7);
    assert_eq!(opened(&format!("xs:date(\"\") eq {DAY}")), 1);
    assert_eq!(opened(&format!("xs:date(\" 2000-01-01\") eq {DAY}")), 0);
    assert_eq!(opened(&format!("{DAY} eq xs:date(\"2000-01-01")), 7);
}

#[test]
fn reading_7_constructors() {
    assert_eq!(opened(&format!("xs:date({DAY} eq {DAY})")), 7);
    assert_eq!(opened(&format!("xs:date(({DAY} eq {DAY}))")), 9);
    assert_eq!(opened(&format!("xs:date(($1)) eq {DAY}")), 7);
    assert_eq!(opened(&format!("xs:date((\"2000-01-01\")) eq {DAY}")), 7);
    assert_eq!(opened(&format!("{DAY} eq {DAY} eq {DAY}")), 7);
    assert_eq!(opened(&format!("xs:date({DAY} + {HOUR}) eq {DAY}")), 0);
}

#[test]
fn reading_8_kinds() {
    let same = format!("({DAY} eq {DAY})");
    assert_eq!(opened(&format!("(({DAY})) eq {DAY}")), 0);
    assert_eq!(opened(DAY), 9);
    assert_eq!(opened(&format!("({HOUR})")), 9);
    assert_eq!(opened(&format!("{same} eq {same}")), 9);
    assert_eq!(opened(&format!("{same} + {HOUR}")), 9);
    assert_eq!(opened(&format!("{same} * 2")), 9);
    assert_eq!(opened(&format!("{same} and {DAY}")), 9);
    assert_eq!(opened(&same), 0);
    assert_eq!(opened(&format!("xs:dayTimeDuration({HOUR}) eq {HOUR}")), 0);
    assert_eq!(opened(&format!("xs:yearMonthDuration({HOUR}) eq xs:yearMonthDuration($1)")), 9);
    assert_eq!(opened(&format!("{DAY} * 2 eq {DAY}")), 9);
    assert_eq!(opened(&format!("{DAY} eq xs:time($1)")), 9);
}

#[test]
fn reading_9_kinds_before_literals() {
    assert_eq!(opened("xs:date(\"bad\") eq xs:time($1)"), 9);
    assert_eq!(opened(&format!("{DAY} eq {DAY} or xs:date(\"bad\") eq {DAY}")), 1);
    assert_eq!(opened("xs:date(\"12000-01-01\") eq xs:date(\"bad\")"), 2);
    let beyond = "xs:date(\"9999-12-31\") + xs:dayTimeDuration(\"P1D\") eq xs:date(\"2000-01-01\")";
    assert_eq!(opened(beyond), 0);
    assert_eq!(judged(beyond, ""), Err(4));
}

#[test]
fn reading_10_the_first_refusal() {
    let beyond = "xs:date(\"9999-12-31\") + xs:dayTimeDuration(\"P1D\")";
    assert_eq!(judged(&format!("{beyond} + xs:dayTimeDuration($2) eq {DAY}"), "x"), Err(4));
    assert_eq!(judged(&format!("{DAY} + xs:dayTimeDuration($2) eq {DAY}"), "x"), Err(1));
    assert_eq!(judged("xs:date($2) eq xs:date($1)", "x"), Err(6));
    assert_eq!(judged("xs:yearMonthDuration(\"P1000000M\") * 2 * 0 eq xs:yearMonthDuration(\"P0M\")", ""), Err(4));
    assert_eq!(judged("xs:yearMonthDuration(\"P1000000M\") * 0 * 2 eq xs:yearMonthDuration(\"P0M\")", ""), Ok(true));
}

#[test]
fn reading_11_hour_24_of_a_time() {
    all(&[
        ("read|time|24:00:00", "00:00:00"),
        ("compare|time|24:00:00|time|00:00:00", "eq"),
        ("read|time|24:00:00.000000+05:00", "00:00:00+05:00"),
    ]);
}

#[test]
fn reading_12_the_order_of_checks() {
    all(&[
        ("read|dateTime|12000-13-45T99:99:99.0000000000+99:99", "refused 3"),
        ("read|time|25:00:00.0000000000", "refused 3"),
        ("read|dateTime|12000-13-45T99:99:99+99:99", "refused 2"),
        ("read|date|-2000-13-01", "refused 2"),
        ("read|dateTime|9999-12-31T24:00:00+14:01", "refused 1"),
        ("read|dateTime|9999-12-31T24:00:00+14:00", "refused 2"),
        ("read|date|2000-01-01-00:00", "2000-01-01Z"),
        ("components|date|2000-01-01-00:00", "year=2000 month=1 day=1 zone=0"),
    ]);
}

#[test]
fn reading_13_local_years_alone() {
    all(&[
        ("add|dateTime|9999-12-31T22:00:00-14:00|dt|PT1H", "9999-12-31T23:00:00-14:00"),
        ("subtract|dateTime|0001-01-01T01:00:00+14:00|dt|PT1H", "0001-01-01T00:00:00+14:00"),
        ("subtract|dateTime|9999-12-31T23:59:59.999999-14:00|dateTime|0001-01-01T00:00:00+14:00", "P3652060DT3H59M59.999999S"),
        ("compare|date|0001-01-01+14:00|date|0001-01-01", "lt"),
    ]);
}

#[test]
fn reading_14_adjustment() {
    all(&[
        ("adjust|date|2000-01-01|dt|PT14H1M", "refused 5"),
        ("adjust|time|10:00:00|dt|PT0.000001S", "refused 5"),
        ("adjust|time|10:00:00|ym|P1M", "refused 9"),
        ("adjust|time|23:00:00-14:00|dt|PT14H", "03:00:00+14:00"),
        ("adjust|date|9999-12-31-14:00|dt|PT14H", "refused 4"),
    ]);
}

#[test]
fn reading_15_components() {
    all(&[
        ("components|dateTime|2000-01-31T06:12:00.5-05:00", "year=2000 month=1 day=31 hours=6 minutes=12 seconds=0.5 zone=-300"),
        ("components|dt|-P1DT2H0.5S", "years=0 months=0 days=-1 hours=-2 minutes=0 seconds=-0.5"),
        ("components|ym|-P20Y18M", "years=-21 months=-6 days=0 hours=0 minutes=0 seconds=0"),
        ("components|time|24:00:00", "hours=0 minutes=0 seconds=0 zone=none"),
        ("components|date|0001-02-03+14:00", "year=1 month=2 day=3 zone=840"),
        ("components|dt|-PT0S", "years=0 months=0 days=0 hours=0 minutes=0 seconds=0"),
    ]);
}

#[test]
fn reading_16_a_factor_beyond_before_kinds() {
    all(&[
        ("multiply|date|2000-01-01|1000000", "refused 16"),
        ("multiply|date|2000-01-01|999999", "refused 9"),
        ("multiply|dt|PT0S|-1000000", "refused 16"),
        ("multiply|dt|PT0S|-999999", "PT0S"),
    ]);
}

#[test]
fn reading_21_lines_of_the_program() {
    let good = "xs:date($1) eq xs:date($1)";
    assert_eq!(programs::desk(b"", b""), "idle\n");
    assert_eq!(programs::desk(b"", b"\n"), "refused\t7\nidle\n");
    assert_eq!(
        programs::desk(b"", format!("{good}\r\n\n{good}").as_bytes()),
        "refused\t7\nrefused\t7\nopen\t1\ndone\t1\t0\t0\nidle\n"
    );
}

#[test]
fn lines_of_the_calculator() {
    assert_eq!(programs::calculator(b""), "");
    assert_eq!(programs::calculator(b"\n"), "refused\t7\n");
    assert_eq!(programs::calculator(b"read\txs:date\t2000-01-01\n\nread\txs:date\t"), "2000-01-01\nrefused\t7\nrefused\t1\n");
    assert_eq!(programs::calculator(&vec![b'\n'; 65_537]), "refused\t7\n");
    assert_eq!(programs::calculator(&vec![b'\n'; 65_536]), "refused\t7\n".repeat(65_536));
    for call in [
        "read|date",
        "read|date|x|y",
        "reads|date|x",
        "read|xs:Date|x",
        "multiply|dt|PT1S|",
        "multiply|dt|PT1S|-",
        "multiply|dt|PT1S|+1",
        "multiply|dt|PT1S|1.0",
        "cast|date|2000-01-01|xs:string",
        "unzone|date",
        "adjust|date|2000-01-01",
    ] {
        assert_eq!(answer(call), "refused 7", "{call}");
    }
    all(&[("multiply|dt|PT1S|-0", "PT0S"), ("multiply|dt|PT1S|-0007", "-PT7S")]);
}
