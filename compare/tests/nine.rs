//! Nine digits (document 02, letter e): examples worked out by hand from the documents, what is written reads back, and what
//! the generated cases have of nanoseconds.

mod common;

use common::{all, answer, judged, opened};
use compare::generator::nine::{self, calls, counts};
use compare::generator::{calls as random_calls, desks, inputs, judgements, random::Random, six, texts};
use compare::lines::lines;
use compare::programs::{self, desk, MOST_CALLS_BYTES};
use compare::values::reading::read;
use compare::values::writing::write;
use compare::values::{first_day, last_day, most_duration_ticks, ticks_a_day, Kind, Value, KINDS};
use std::collections::BTreeSet;

#[test]
fn three_starts_at_the_tenth_digit() {
    all(&[
        ("read|time|10:00:00.1", "10:00:00.1"),
        ("read|time|10:00:00.1234567", "10:00:00.1234567"),
        ("read|time|10:00:00.12345678", "10:00:00.12345678"),
        ("read|time|10:00:00.123456789", "10:00:00.123456789"),
        ("read|time|10:00:00.1234567890", "refused 3"),
        ("read|time|10:00:00.000000001Z", "10:00:00.000000001Z"),
        ("read|time|10:00:00.0000000001Z", "refused 3"),
        ("read|time|10:00:00.100000000", "10:00:00.1"),
        ("read|time|10:00:00.1000000000", "refused 3"),
        ("read|dateTime|2024-02-29T23:59:59.999999999-14:00", "2024-02-29T23:59:59.999999999-14:00"),
        ("read|dateTime|2024-02-29T23:59:59.9999999999-14:00", "refused 3"),
        ("read|dt|PT0.000000001S", "PT0.000000001S"),
        ("read|dt|PT0.0000000001S", "refused 3"),
        ("read|dt|P1DT0.000000000S", "P1D"),
        ("read|dt|P1DT0.0000000000S", "refused 3"),
    ]);
}

/// 3 comes after the shape and before years, bounds, calendar and clock.
#[test]
fn the_order_of_the_checks_stays() {
    all(&[
        ("read|time|25:00:00.0000000000", "refused 3"),
        ("read|time|25:00:00.000000000", "refused 1"),
        ("read|time|10:00:00.0000000000x", "refused 1"),
        ("read|time|10:00.0000000000", "refused 1"),
        ("read|dateTime|10000-01-01T00:00:00.0000000000", "refused 3"),
        ("read|dateTime|10000-01-01T00:00:00.000000000", "refused 2"),
        ("read|dateTime|2023-02-29T00:00:00.0000000000", "refused 3"),
        ("read|dateTime|2023-02-29T00:00:00.000000000", "refused 1"),
        ("read|dt|PT1000000000001.0000000000S", "refused 3"),
        ("read|dt|PT1000000000001.000000000S", "refused 2"),
        ("read|dt|PT1.0000000000M", "refused 1"),
    ]);
}

/// Hour 24 is good only with zero minutes, seconds and fraction.
#[test]
fn hour_24_with_a_fraction() {
    all(&[
        ("read|time|24:00:00.0000000", "00:00:00"),
        ("read|time|24:00:00.000000000", "00:00:00"),
        ("read|time|24:00:00.000000001", "refused 1"),
        ("read|time|24:00:00.0000000000", "refused 3"),
        ("read|dateTime|1999-12-31T24:00:00.000000000Z", "2000-01-01T00:00:00Z"),
        ("read|dateTime|9999-12-31T24:00:00.000000000", "refused 2"),
        ("read|dateTime|9999-12-31T24:00:00.000000001", "refused 1"),
    ]);
}

/// 10^12 seconds are 11,574,074 days, 1 hour, 46 minutes and 40 seconds.
#[test]
fn the_greatest_duration_and_its_neighbours() {
    let most = "P11574074DT1H46M40S";
    all(&[
        ("read|dt|PT1000000000000S", most),
        ("read|dt|PT1000000000000.000000000S", most),
        ("read|dt|PT999999999999.999999999S", "P11574074DT1H46M39.999999999S"),
        ("read|dt|PT1000000000000.000000001S", "refused 2"),
        ("read|dt|-PT1000000000000.000000001S", "refused 2"),
        ("read|dt|-P11574074DT1H46M40S", "-P11574074DT1H46M40S"),
        ("read|dt|-P11574074DT1H46M40.000000001S", "refused 2"),
        ("read|dt|P11574074DT1H45M100.000000000S", most),
        ("add|dt|P11574074DT1H46M39.999999999S|dt|PT0.000000001S", most),
        ("add|dt|P11574074DT1H46M40S|dt|PT0.000000001S", "refused 4"),
        ("add|dt|P11574074DT1H46M40S|dt|-PT0.000000001S", "P11574074DT1H46M39.999999999S"),
        ("subtract|dt|-P11574074DT1H46M40S|dt|PT0.000000001S", "refused 4"),
        ("subtract|dt|-P11574074DT1H46M40S|dt|-PT0.000000001S", "-P11574074DT1H46M39.999999999S"),
        ("subtract|dt|PT0.000000001S|dt|-P11574074DT1H46M40S", "refused 4"),
        ("subtract|dt|-PT0.000000001S|dt|-P11574074DT1H46M40S", "P11574074DT1H46M39.999999999S"),
        ("add|dt|PT500000000000.000000001S|dt|PT499999999999.999999999S", most),
        ("add|dt|PT500000000000.000000001S|dt|PT500000000000S", "refused 4"),
        ("compare|dt|P11574074DT1H46M40S|dt|P11574074DT1H46M39.999999999S", "gt"),
        ("compare|dt|-P11574074DT1H46M40S|dt|-P11574074DT1H46M39.999999999S", "lt"),
    ]);
}

/// 16,000 times 62,500,000 seconds are 10^12 seconds, 11 times 90,909,090,909.090909091 a nanosecond more, and 3 times
/// 333,333,333,333.333333333 a nanosecond less.
#[test]
fn products_at_the_bound() {
    all(&[
        ("multiply|dt|PT62500000S|16000", "P11574074DT1H46M40S"),
        ("multiply|dt|PT62500000S|-16000", "-P11574074DT1H46M40S"),
        ("multiply|dt|PT62500000.000000001S|16000", "refused 4"),
        ("multiply|dt|PT90909090909.090909091S|11", "refused 4"),
        ("multiply|dt|-PT90909090909.090909091S|11", "refused 4"),
        ("multiply|dt|PT90909090909.09090909S|11", "P11574074DT1H46M39.99999999S"),
        ("multiply|dt|PT333333333333.333333333S|-3", "-P11574074DT1H46M39.999999999S"),
        ("multiply|dt|PT333333333333.333333334S|3", "refused 4"),
        ("multiply|dt|PT1000000000000S|999999", "refused 4"),
        ("multiply|dt|PT1000000000000S|-999999", "refused 4"),
        ("multiply|dt|-PT1000000000000S|999999", "refused 4"),
        ("multiply|dt|-PT1000000000000S|-999999", "refused 4"),
        ("multiply|dt|-PT1000000000000S|-1", "P11574074DT1H46M40S"),
        ("multiply|dt|-PT999999999999.999999999S|0", "PT0S"),
        ("multiply|dt|PT0.000000001S|999999", "PT0.000999999S"),
        ("multiply|dt|PT7.000000007S|-999999", "-P81DT26M33.006999993S"),
    ]);
}

#[test]
fn one_nanosecond_over_every_end() {
    all(&[
        ("add|dateTime|2024-03-31T12:00:00.999999999|dt|PT0.000000001S", "2024-03-31T12:00:01"),
        ("add|dateTime|2024-03-31T12:59:59.999999999|dt|PT0.000000001S", "2024-03-31T13:00:00"),
        ("add|dateTime|2024-03-31T23:59:59.999999999Z|dt|PT0.000000001S", "2024-04-01T00:00:00Z"),
        ("add|dateTime|2024-02-28T23:59:59.999999999|dt|PT0.000000001S", "2024-02-29T00:00:00"),
        ("add|dateTime|2023-02-28T23:59:59.999999999|dt|PT0.000000001S", "2023-03-01T00:00:00"),
        ("add|dt|PT0.000000001S|dateTime|2023-12-31T23:59:59.999999999-14:00", "2024-01-01T00:00:00-14:00"),
        ("subtract|dateTime|2024-01-01T00:00:00|dt|PT0.000000001S", "2023-12-31T23:59:59.999999999"),
        ("subtract|dateTime|2024-03-01T00:00:00|dt|PT0.000000001S", "2024-02-29T23:59:59.999999999"),
        ("subtract|dateTime|2024-03-31T12:00:00|dt|PT0.000000001S", "2024-03-31T11:59:59.999999999"),
        ("add|dateTime|2024-03-31T12:00:00|dt|-PT0.000000001S", "2024-03-31T11:59:59.999999999"),
        ("add|dateTime|9999-12-31T23:59:59.999999999|dt|PT0.000000001S", "refused 4"),
        ("add|dateTime|9999-12-31T23:59:59.999999998|dt|PT0.000000001S", "9999-12-31T23:59:59.999999999"),
        ("subtract|dateTime|0001-01-01T00:00:00+14:00|dt|PT0.000000001S", "refused 4"),
        ("subtract|dateTime|0001-01-01T00:00:00.000000001|dt|PT0.000000001S", "0001-01-01T00:00:00"),
        ("add|time|23:59:59.999999999|dt|PT0.000000001S", "00:00:00"),
        ("subtract|time|00:00:00+05:30|dt|PT0.000000001S", "23:59:59.999999999+05:30"),
        ("add|date|2024-01-01|dt|-PT0.000000001S", "2023-12-31"),
        ("add|date|2024-01-01|dt|PT23H59M59.999999999S", "2024-01-01"),
        ("subtract|date|0001-01-01|dt|PT0.000000001S", "refused 4"),
        ("add|date|9999-12-31|dt|PT23H59M59.999999999S", "9999-12-31"),
        ("add|date|9999-12-31|dt|P1D", "refused 4"),
        ("subtract|dateTime|2024-01-01T00:00:00Z|dateTime|2023-12-31T23:59:59.999999999Z", "PT0.000000001S"),
        ("subtract|dateTime|2023-12-31T23:59:59.999999999|dateTime|2024-01-01T00:00:00", "-PT0.000000001S"),
        ("subtract|dateTime|2024-01-01T14:00:00.5+14:00|dateTime|2024-01-01T00:00:00.000000001Z", "PT0.499999999S"),
        ("subtract|time|00:00:00|time|23:59:59.999999999", "-PT23H59M59.999999999S"),
        (
            "subtract|dateTime|9999-12-31T23:59:59.999999999-14:00|dateTime|0001-01-01T00:00:00+14:00",
            "P3652060DT3H59M59.999999999S",
        ),
    ]);
}

/// One sign for seconds and nanoseconds; zero has none.
#[test]
fn durations_about_zero() {
    all(&[
        ("read|dt|-PT0.000000000S", "PT0S"),
        ("read|dt|-PT0.000000001S", "-PT0.000000001S"),
        ("read|dt|-P0DT0H0M0.5S", "-PT0.5S"),
        ("subtract|dt|PT1S|dt|PT0.000000001S", "PT0.999999999S"),
        ("subtract|dt|PT0.000000001S|dt|PT1S", "-PT0.999999999S"),
        ("add|dt|-PT1.000000001S|dt|PT2S", "PT0.999999999S"),
        ("add|dt|-PT0.999999999S|dt|-PT0.000000001S", "-PT1S"),
        ("add|dt|-PT0.5S|dt|PT0.500000000S", "PT0S"),
        ("add|dt|P1D|dt|-PT0.000000001S", "PT23H59M59.999999999S"),
        ("multiply|dt|-PT0.000000001S|-1", "PT0.000000001S"),
        ("multiply|dt|-PT0.000000001S|0", "PT0S"),
        ("multiply|dt|-PT0.5S|3", "-PT1.5S"),
        ("compare|dt|-PT0.000000000S|dt|PT0S", "eq"),
        ("compare|dt|-PT0.000000001S|dt|PT0S", "lt"),
        ("compare|dt|-PT0.999999999S|dt|-PT1S", "gt"),
        ("compare|dt|-PT1.000000001S|dt|-PT1S", "lt"),
        ("compare|dt|PT1.000000001S|dt|PT1S", "gt"),
        ("compare|dt|-PT0.000000001S|dt|PT0.000000001S", "lt"),
    ]);
}

#[test]
fn a_zone_with_nanoseconds_is_5() {
    all(&[
        ("adjust|dateTime|2024-03-31T00:00:00.000000001Z|dt|-PT10H", "2024-03-30T14:00:00.000000001-10:00"),
        ("adjust|dateTime|2024-03-31T00:00:00Z|dt|-PT10H0.000000001S", "refused 5"),
        ("adjust|dateTime|2024-03-31T00:00:00Z|dt|PT9H59M59.999999999S", "refused 5"),
        ("adjust|date|2024-03-31|dt|PT0.000000001S", "refused 5"),
        ("adjust|date|2024-03-31|dt|-PT0.000000001S", "refused 5"),
        ("adjust|time|10:00:00|dt|PT14H0.000000001S", "refused 5"),
        ("adjust|time|10:00:00|dt|PT13H59M59.999999999S", "refused 5"),
        ("adjust|time|10:00:00|dt|PT13H59M60.000000000S", "10:00:00+14:00"),
        ("adjust|time|10:00:00|dt|-PT0.000000000S", "10:00:00Z"),
        ("adjust|time|10:00:00|dt|PT0.0000000000S", "refused 3"),
        ("adjust|ym|P1M|dt|PT0.000000001S", "refused 9"),
    ]);
}

#[test]
fn components_casts_and_comparisons_have_nine_digits() {
    all(&[
        ("components|time|12:34:56.789000001", "hours=12 minutes=34 seconds=56.789000001 zone=none"),
        ("components|time|12:34:56.789000000Z", "hours=12 minutes=34 seconds=56.789 zone=0"),
        ("components|dt|-PT0.000000001S", "years=0 months=0 days=0 hours=0 minutes=0 seconds=-0.000000001"),
        ("components|dt|-P1DT0.000000001S", "years=0 months=0 days=-1 hours=0 minutes=0 seconds=-0.000000001"),
        ("components|dt|PT59.999999999S", "years=0 months=0 days=0 hours=0 minutes=0 seconds=59.999999999"),
        ("cast|dateTime|2024-03-31T23:59:59.999999999+01:00|time", "23:59:59.999999999+01:00"),
        ("cast|dateTime|2024-03-31T23:59:59.999999999+01:00|date", "2024-03-31+01:00"),
        ("unzone|dateTime|2024-03-31T23:59:59.999999999+01:00", "2024-03-31T23:59:59.999999999"),
        ("compare|time|10:00:00.000000001+01:00|time|09:00:00Z", "gt"),
        ("compare|time|09:59:59.999999999+01:00|time|09:00:00Z", "lt"),
        ("compare|dateTime|2024-03-31T24:00:00|dateTime|2024-03-31T23:59:59.999999999", "gt"),
        ("compare|date|2024-03-31|dateTime|2024-03-31T00:00:00.000000001", "refused 9"),
    ]);
    assert_eq!(judged("xs:dateTime($1) lt xs:dateTime($2)", "2024-03-31T08:00:00\t2024-03-31T08:00:00.000000001"), Ok(true));
    assert_eq!(judged("xs:time($1) eq xs:time(\"08:00:00.0000000\")", "08:00:00"), Ok(true));
    assert_eq!(judged("xs:time($1) eq xs:time(\"08:00:00\")", "08:00:00.0000000000"), Err(3));
    assert_eq!(opened("xs:time($1) eq xs:time(\"08:00:00.000000000\")"), 0);
    assert_eq!(opened("xs:time($1) eq xs:time(\"08:00:00.0000000000\")"), 3);
}

/// Over the end of a year by nanoseconds; 1,440 of them and 1,441.
#[test]
fn runs_step_by_nanoseconds() {
    let condition = b"xs:dateTime($2) ge xs:dateTime(\"2024-01-01T00:00:00\")";
    let run = |last: &str| {
        let line = format!("n\tevery\t2023-12-31T23:59:59.999999999\t{last}\tPT0.000000001S");
        desk(line.as_bytes(), condition)
    };
    let three = "open\t1\nmiss\t1\t0\t0\nhit\t1\t0\t1\nhit\t1\t0\t2\ndone\t1\t2\t0\nidle\n";
    assert_eq!(run("2024-01-01T00:00:00.000000001"), three);
    assert_eq!(run("2024-01-01T00:00:00.0000000010"), "open\t1\nunreadable\t1\t0\t3\ndone\t1\t0\t1\nidle\n");
    assert_eq!(run("2023-12-31T23:59:59.999999998"), "open\t1\nmiss\t1\t0\t0\ndone\t1\t0\t0\nidle\n");
    assert!(run("2024-01-01T00:00:00.000001438").ends_with("hit\t1\t0\t1439\ndone\t1\t1439\t0\nidle\n"));
    assert_eq!(run("2024-01-01T00:00:00.000001439"), "open\t1\nunreadable\t1\t0\t18\ndone\t1\t0\t1\nidle\n");
}

/// A value of the kind, of any size within its bounds.
fn any_value(random: &mut Random, kind: Kind) -> Value {
    let zone = random.chance(70).then(|| random.between(-840, 840));
    let day = random.between(first_day(), last_day());
    let tick = random.between(0, ticks_a_day() as i64 - 1) as i128;
    match kind {
        Kind::Date => Value::Date { day, zone },
        Kind::Time => Value::Time { tick, zone },
        Kind::DateTime => Value::DateTime { tick: day as i128 * ticks_a_day() + tick, zone },
        Kind::DayTime => {
            let shift = random.pick(&[1, 1_000, 1_000_000_000, 1_000_000_000_000_000]);
            let size = random.between(-1_000_000_000_000, 1_000_000_000_000) as i128 * 1_000_000_000;
            let part = random.between(-999_999_999, 999_999_999) as i128;
            Value::DayTime(((size + part) / shift).clamp(-most_duration_ticks(), most_duration_ticks()))
        }
        Kind::YearMonth => Value::YearMonth(random.between(-1_000_000, 1_000_000) as i128),
    }
}

/// What is written reads back, and no text has over 35 bytes.
#[test]
fn the_round_trip() {
    let random = &mut Random::new(29);
    let mut longest = 0;
    for _ in 0..40_000 {
        for kind in KINDS {
            for value in [any_value(random, kind), texts::good_value(random, kind).1] {
                let text = write(&value);
                assert_eq!(read(kind, text.as_bytes()), Ok(value), "{text}");
                assert_eq!(answer(&format!("read|{}|{text}", kind.name())), text);
                longest = longest.max(text.len());
            }
        }
    }
    assert_eq!(longest, 35);
    let far = [-most_duration_ticks(), 1 - most_duration_ticks(), most_duration_ticks()].map(Value::DayTime);
    assert!(far.iter().all(|span| write(span).len() <= 30));
}

/// Every call of the table is one, and the table has all that letter e speaks of.
#[test]
fn the_table_is_of_calls_within_inputs() {
    let mut names = BTreeSet::new();
    let mut seen = BTreeSet::new();
    for (part, calls) in calls::parts() {
        for call in &calls {
            let answer = answer(call);
            assert_ne!(answer, "refused 7", "{call}");
            let word = call.split('|').next().unwrap_or("").to_string();
            let result = if answer.starts_with("refused") { answer } else { "answered".to_string() };
            seen.insert((part, format!("{word} {result}")));
        }
        for (name, input) in inputs::named(part, &calls) {
            assert!(input.len() <= MOST_CALLS_BYTES && names.insert(name));
        }
    }
    let wanted = [
        ("nine-fractions", "read answered"),
        ("nine-fractions", "read refused 1"),
        ("nine-fractions", "read refused 2"),
        ("nine-fractions", "read refused 3"),
        ("nine-fractions", "adjust refused 5"),
        ("nine-order-of-checks", "read refused 3"),
        ("nine-order-of-checks", "compare refused 3"),
        ("nine-carries", "add refused 4"),
        ("nine-carries", "subtract refused 4"),
        ("nine-dates", "subtract refused 4"),
        ("nine-bounds", "read refused 2"),
        ("nine-bounds", "add refused 4"),
        ("nine-bounds", "subtract refused 4"),
        ("nine-products", "multiply answered"),
        ("nine-products", "multiply refused 4"),
        ("nine-zones", "adjust answered"),
        ("nine-zones", "adjust refused 4"),
        ("nine-zones", "adjust refused 5"),
        ("nine-zones", "adjust refused 9"),
        ("nine-moves", "adjust refused 4"),
    ];
    for (part, result) in wanted {
        assert!(seen.contains(&(part, result.to_string())), "{part}: {result}");
    }
}

/// The products of the table come to the bound, to a nanosecond below it and, refused, to one beyond it.
#[test]
fn the_products_reach_the_bound() {
    let (_, calls) = calls::parts().into_iter().find(|(name, _)| *name == "nine-products").expect("there is such a part");
    let most = most_duration_ticks();
    let mut reached = BTreeSet::new();
    for call in calls {
        let fields: Vec<&str> = call.split('|').collect();
        let Ok(Value::DayTime(ticks)) = read(Kind::DayTime, fields[2].as_bytes()) else {
            panic!("{call}");
        };
        let product = ticks * fields[3].parse::<i128>().expect("a whole number");
        assert_eq!(answer(&call) == "refused 4", product.abs() > most, "{call}");
        reached.insert(product);
    }
    assert!([most - 1, most, most + 1, 1 - most, -most, -most - 1].iter().all(|product| reached.contains(product)));
    assert!(reached.contains(&(most * 999_999)) && reached.contains(&(-most * 999_999)));
}

/// The conditions over departures whose answer the columns settle hold at every line; runs of every outcome are there.
#[test]
fn the_desk_cases_hit() {
    let cases = nine::desks::cases();
    let departures = &cases[0];
    let output = desk(departures.timetable.bytes(), &departures.conditions);
    let count = lines(departures.timetable.bytes()).len();
    for ticket in 1..=11 {
        assert!(output.contains(&format!("done\t{ticket}\t{count}\t0\n")), "{ticket}");
    }
    assert!(output.contains(&format!("done\t12\t0\t{count}\n")) && output.contains(&format!("done\t13\t{count}\t0\n")));
    assert!(output.contains("open\t13\nrefused\t3\nrefused\t2\nopen\t14\n"));
    let mut seen = BTreeSet::new();
    for case in &cases {
        let sorts = lines(case.timetable.bytes()).into_iter().map(compare::generator::histogram::line_sort);
        seen.extend(sorts);
        assert!(!desk(case.timetable.bytes(), &case.conditions).contains("refused\t7"));
    }
    for sort in ["run of     0", "run of     1", "run of  1439", "run of  1440", "run refused  2", "run refused  3"] {
        assert!(seen.contains(sort), "{sort}");
    }
    for sort in ["run refused  1", "run refused  4", "run refused 17", "run refused 18"] {
        assert!(seen.contains(sort), "{sort}");
    }
}

/// Random texts, calls, conditions and timetables have fractions of every length from 1 to 12, many of them of 7 to 10 digits.
#[test]
fn random_cases_have_nanoseconds() {
    let random = &mut Random::new(31);
    let mut found = [0; 13];
    let mut count = |text: &[u8]| counts::lengths(text).into_iter().for_each(|length| found[length.min(12)] += 1);
    (0..20_000).for_each(|_| count(&random_calls::call(random)));
    judgements::lines(31, 5_000).for_each(|line| count(&line));
    (0..200).for_each(|seed| {
        let case = desks::case(seed);
        count(case.timetable.bytes());
        count(&case.conditions);
    });
    assert!(found[1..].iter().all(|&count| count > 50), "{found:?}");
    assert!(found[7..=10].iter().sum::<usize>() * 3 > found.iter().sum::<usize>(), "{found:?}");
}

#[test]
fn judgement_lines_have_every_result() {
    let mut seen = BTreeSet::new();
    let mut again = judgements::lines(3, 4_000);
    for line in judgements::lines(3, 4_000) {
        assert_eq!(again.next(), Some(line.clone()));
        assert!(!line.contains(&b'\n'));
        seen.insert(programs::judgements(&[line, b"\n".to_vec()].concat()));
    }
    for result in ["hit", "miss", "unreadable\t1", "unreadable\t3", "unreadable\t4", "unreadable\t6", "refused\t3", "refused\t7"]
    {
        assert!(seen.contains(&format!("{result}\n")), "{result}");
    }
}

#[test]
fn fractions_are_cut_to_six_digits() {
    for (text, expected) in [
        ("", ""),
        ("12:00:00.123456", "12:00:00.123456"),
        ("12:00:00.1234567Z", "12:00:00.123456Z"),
        ("a\t1.0000000000\t2.5\n123456789.123456789.123456789", "a\t1.000000\t2.5\n123456789.123456.123456"),
        ("1. 123456789", "1. 123456789"),
        ("..1234567", "..123456"),
        ("PT123456789S", "PT123456789S"),
    ] {
        assert_eq!(String::from_utf8(six::cut(text.as_bytes())).unwrap(), expected);
    }
}
