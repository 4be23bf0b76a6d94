//! The timetables and conditions that are measured. The same on every machine: nothing here is drawn by chance.

pub const YEAR: &str = "2024";
pub const FIRST_YEAR: &str = "0001";
pub const MOST_TIMETABLE_BYTES: usize = 65_536;
pub const MOST_CONDITION_BYTES: usize = 240;
pub const SEATS: usize = 16;

const NUMBERS: [&str; 9] = ["550", "14", "18N", "65", "104", "231N", "21", "69", "7"];
const DELAYS: [&str; 11] = ["PT0S", "PT1M", "PT2M30S", "PT0S", "-PT30S", "PT4M", "PT20S", "PT6M10S", "PT1M15S", "PT12M", "PT3M"];
const STOPS: [&str; 7] = ["Kamppi", "Rautatientori", "Westendinasema", "Pasila", "Otaniemi", "Munkkiniemi", "Arabia"];

const MINUTES_OF_DAY: usize = 24 * 60;
/// The departures of the timetables of runs, and the most that one run may have.
pub const RUN_DEPARTURES: usize = MINUTES_OF_DAY;
/// The first departure is at 04:30 on 30 March, the last one at noon on the next day.
const FIRST_MINUTE: usize = 4 * 60 + 30;
const LAST_MINUTE: usize = MINUTES_OF_DAY + 12 * 60;
/// Clocks go forward at 03:00 on 31 March.
const CLOCK_CHANGE: usize = MINUTES_OF_DAY + 3 * 60;

/// Departures of a day and a half, in exactly so many bytes: line number, departure, delay and stop. However many bytes
/// there are, the departures are spread over the same hours, so that a shorter timetable has the same mix.
pub fn departures(bytes: usize, year: &str) -> Vec<u8> {
    let about = bytes / 47;
    let mut text = String::new();
    let mut place = 0;
    loop {
        let line = departure(place, FIRST_MINUTE + place * (LAST_MINUTE - FIRST_MINUTE) / about, year);
        if text.len() + line.len() > bytes {
            break;
        }
        text += &line;
        place += 1;
    }
    text.pop();
    while text.len() + 1 < bytes {
        text.push('.');
    }
    text.push('\n');
    text.into_bytes()
}

fn departure(place: usize, minute: usize, year: &str) -> String {
    let (minute, zone) = if minute < CLOCK_CHANGE { (minute, "+02:00") } else { (minute + 60, "+03:00") };
    let (day, hour, minute) = (30 + minute / MINUTES_OF_DAY, minute / 60 % 24, minute % 60);
    let (number, delay, stop) = (NUMBERS[place % 9], DELAYS[place % 11], STOPS[place % 7]);
    format!("{number}\t{year}-03-{day}T{hour:02}:{minute:02}:00{zone}\t{delay}\t{stop}\n")
}

/// So many departures of a day, one each minute, as runs of so many occurrences each: line number, `every`, first, last, step
/// and stop.
pub fn runs(occurrences: usize) -> Vec<u8> {
    let firsts = (0..RUN_DEPARTURES).step_by(occurrences);
    let line = |(place, first): (usize, usize)| {
        let (from, to) = (minute_of_day(first), minute_of_day(first + occurrences - 1));
        format!("{}\tevery\t{from}\t{to}\tPT1M\t{}\n", NUMBERS[place % 9], STOPS[place % 7])
    };
    firsts.enumerate().map(line).collect::<String>().into_bytes()
}

/// The same departures, a line each: line number, departure and stop.
pub fn each_departure() -> Vec<u8> {
    let line = |place| format!("{}\t{}\t{}\n", NUMBERS[place % 9], minute_of_day(place), STOPS[place % 7]);
    (0..RUN_DEPARTURES).map(line).collect::<String>().into_bytes()
}

fn minute_of_day(minute: usize) -> String {
    format!("{YEAR}-03-30T{:02}:{:02}:00+02:00", minute / 60, minute % 60)
}

/// Of what travellers ask, what looks at the second field alone: of a run the third one is its first departure.
pub fn asked_of_second() -> Vec<String> {
    asked(SEATS, YEAR).into_iter().filter(|condition| !condition.contains("$3")).collect()
}

/// One delay a line and nothing else: short lines, so that many turns fit, and no dates. As many as fit into so many bytes.
pub fn delays(bytes: usize) -> Vec<u8> {
    format!("{DELAY}\n").repeat(bytes / DELAY_LINE_BYTES).into_bytes()
}

const DELAY: &str = "PT5M";
/// With the newline.
pub const DELAY_LINE_BYTES: usize = DELAY.len() + 1;

/// The most lines of a timetable in which a line can be very long.
pub const FEW_LINES: usize = 200;

/// The same delay in few lines, or as many as fit, with this before it and after it in each.
pub fn delays_within(before: &str, after: &str) -> Vec<u8> {
    let line = format!("{before}{DELAY}{after}\n");
    line.repeat(FEW_LINES.min(MOST_TIMETABLE_BYTES / line.len())).into_bytes()
}

/// A field after the first, so many bytes with the tab before it.
pub fn second_field(bytes: usize) -> String {
    match bytes {
        0 => String::new(),
        _ => format!("\t{}", ".".repeat(bytes - 1)),
    }
}

/// So many bytes of departures, and of delays, fit into a timetable with padded columns too.
pub const DEPARTURES_TO_PAD: usize = 38_080;
pub const DELAYS_TO_PAD: usize = 14_890;
/// The spaces before a value and after it in a padded column.
pub const PADDING: usize = 8;

/// The same lines with so many spaces before and after the fields with these numbers, ended by CR LF.
pub fn padded(timetable: &[u8], numbers: &[usize], spaces: usize) -> Vec<u8> {
    let blanks = " ".repeat(spaces);
    let field = |(place, text): (usize, &str)| {
        let beside = if numbers.contains(&(place + 1)) { &blanks } else { "" };
        format!("{beside}{text}{beside}")
    };
    lines_changed(timetable, |line| line.split('\t').enumerate().map(field).collect::<Vec<String>>().join("\t") + "\r")
}

/// How many bytes longer padding makes a line, the CR among them.
pub fn padding_bytes(numbers: &[usize]) -> usize {
    2 * PADDING * numbers.len() + 1
}

/// The same lines, the last field of each so many bytes longer.
pub fn lengthened(timetable: &[u8], bytes: usize) -> Vec<u8> {
    lines_changed(timetable, |line| line.to_string() + &".".repeat(bytes))
}

fn lines_changed(timetable: &[u8], change: impl Fn(&str) -> String) -> Vec<u8> {
    String::from_utf8_lossy(timetable).lines().map(|line| change(line) + "\n").collect::<String>().into_bytes()
}

pub fn empty_lines() -> Vec<u8> {
    vec![b'\n'; MOST_TIMETABLE_BYTES]
}

/// What travellers ask: before, within the hour, a window of the day, with the delay, by date and month, and mixtures.
pub fn asked(count: usize, year: &str) -> Vec<String> {
    ASKED[..count].iter().map(|condition| condition.replace(YEAR, year)).collect()
}

const ASKED: [&str; SEATS] = [
    r#"xs:dateTime($2) lt xs:dateTime("2024-03-30T12:00:00+02:00")"#,
    r#"xs:dateTime($2) ge xs:dateTime("2024-03-30T15:00:00Z") and xs:dateTime($2) - xs:dateTime("2024-03-30T15:00:00Z") le xs:dayTimeDuration("PT1H")"#,
    r#"xs:time(xs:dateTime($2)) ge xs:time("06:30:00+02:00") and xs:time(xs:dateTime($2)) lt xs:time("09:00:00+02:00")"#,
    r#"xs:dateTime($2) + xs:dayTimeDuration($3) gt xs:dateTime("2024-03-30T17:00:00+02:00")"#,
    r#"xs:dayTimeDuration($3) gt xs:dayTimeDuration("PT5M")"#,
    r#"xs:date(xs:dateTime($2)) + xs:yearMonthDuration("P1M") eq xs:date("2024-04-30+02:00")"#,
    r#"xs:dateTime($2) ge xs:dateTime("2024-03-31T00:00:00+02:00")"#,
    r#"xs:dayTimeDuration($3) ge xs:dayTimeDuration("PT10M") or xs:dayTimeDuration($3) lt xs:dayTimeDuration("PT0S")"#,
    r#"xs:dateTime($2) lt xs:dateTime("2024-01-31T09:30:00+02:00") + xs:yearMonthDuration("P2M")"#,
    r#"(xs:time(xs:dateTime($2)) lt xs:time("05:30:00+02:00") or xs:time(xs:dateTime($2)) ge xs:time("22:30:00+02:00")) and xs:dayTimeDuration($3) le xs:dayTimeDuration("PT3M")"#,
    r#"xs:date(xs:dateTime($2)) eq xs:date("2024-03-31+03:00")"#,
    r#"xs:dateTime($2) + xs:dayTimeDuration($3) + xs:dayTimeDuration("PT4M") le xs:dateTime("2024-03-30T18:30:00+02:00") and xs:dateTime($2) gt xs:dateTime("2024-03-30T17:30:00+02:00")"#,
    r#"xs:dayTimeDuration($3) * 2 gt xs:dayTimeDuration("PT8M")"#,
    r#"xs:dateTime($2) lt xs:dateTime("2024-03-30T06:00:00+02:00") or (xs:dateTime($2) gt xs:dateTime("2024-03-30T21:00:00+02:00") and xs:dateTime($2) lt xs:dateTime("2024-03-31T02:00:00+02:00"))"#,
    r#"xs:dateTime($2) - xs:dayTimeDuration("P1D") ge xs:dateTime("2024-03-30T05:00:00+03:00")"#,
    r#"xs:date(xs:dateTime($2)) - xs:yearMonthDuration("P1M") ge xs:date("2024-02-27+02:00") and xs:dayTimeDuration($3) eq xs:dayTimeDuration("PT0S")"#,
];

/// Conditions of 240 bytes: tests that hold at almost every line, so that all of them are evaluated.
pub fn long_conditions() -> Vec<String> {
    let tests = [
        r#"xs:dateTime($2) gt xs:dateTime("2024-03-30T00:00:00+02:00")"#,
        r#"xs:dateTime($2) lt xs:dateTime("2024-04-01T00:00:00+03:00")"#,
        r#"xs:dayTimeDuration($3) lt xs:dayTimeDuration("PT20M")"#,
        r#"xs:date(xs:dateTime($2)) ne xs:date("2024-04-01")"#,
    ];
    vec![filled(tests.join(" and ")); SEATS]
}

/// Conditions of 240 bytes whose parentheses go sixteen deep, on both sides of a comparison.
pub fn deep_conditions() -> Vec<String> {
    let (open, close) = ("(".repeat(15), ")".repeat(15));
    let left = format!("{open}xs:dateTime($2){close}");
    let right = format!(r#"{open}xs:dateTime("2024-03-30T12:00:00+02:00"){close}"#);
    vec![filled(format!("{left} lt {right} and {open}xs:dayTimeDuration($3) le xs:dayTimeDuration($3){close}")); SEATS]
}

/// A condition with spaces after it up to the greatest length.
fn filled(condition: String) -> String {
    assert!(condition.len() <= MOST_CONDITION_BYTES, "a condition has {} bytes", condition.len());
    format!("{condition:MOST_CONDITION_BYTES$}")
}

/// A test that holds at every line of `delays`.
const DELAY_TEST: [&str; 2] = ["xs:dayTimeDuration($1) ", "ge xs:dayTimeDuration($1)"];

/// A test that holds there too and reads the field once.
pub const ONE_FIELD_TEST: &str = r#"xs:dayTimeDuration($1) ge xs:dayTimeDuration("PT5M")"#;

/// The same test with so many more spaces within it.
pub fn with_spaces(spaces: usize) -> String {
    let [left, right] = DELAY_TEST;
    format!("{left}{}{right}", " ".repeat(spaces))
}

/// The same test and, joined to it by `or`, tests that are read over and not evaluated: what is left of them holds.
pub fn with_tests_read_over(count: usize) -> String {
    let read_over = r#" or xs:dateTime($2) lt xs:dateTime("2024-03-30T12:00:00+02:00")"#;
    DELAY_TEST.concat() + &read_over.repeat(count)
}

/// The same test so many times, all evaluated.
pub fn with_tests_evaluated(count: usize) -> String {
    vec![DELAY_TEST.concat(); count].join(" and ")
}

#[cfg(test)]
mod tests {
    use super::*;

    #[test]
    fn timetables_have_the_bytes_that_are_asked_for() {
        for bytes in [8_192, 16_384, 32_768, MOST_TIMETABLE_BYTES] {
            let (late, early) = (departures(bytes, YEAR), departures(bytes, FIRST_YEAR));
            assert_eq!((late.len(), early.len()), (bytes, bytes));
            assert!(late.ends_with(b"\n"));
            assert!(late
                .split(|&byte| byte == b'\n')
                .all(|line| line.is_empty() || line.split(|&byte| byte == b'\t').count() == 4));
        }
        assert_eq!(empty_lines().len(), MOST_TIMETABLE_BYTES);
    }

    #[test]
    fn runs_stand_for_a_day_of_departures() {
        assert!(each_departure().len() <= MOST_TIMETABLE_BYTES);
        for occurrences in [2, 8, RUN_DEPARTURES] {
            let runs = runs(occurrences);
            assert!(runs.len() <= MOST_TIMETABLE_BYTES);
            assert_eq!(runs.split(|&byte| byte == b'\n').count() - 1, RUN_DEPARTURES / occurrences);
        }
        let one = "550\tevery\t2024-03-30T00:00:00+02:00\t2024-03-30T23:59:00+02:00\tPT1M\tKamppi\n";
        assert_eq!(runs(RUN_DEPARTURES), one.as_bytes());
        assert_eq!(asked_of_second().len(), 9);
    }

    #[test]
    fn padded_lines_are_the_same_lines_and_fit() {
        let departures = departures(DEPARTURES_TO_PAD, YEAR);
        for (plain, numbers) in [(departures, &[2, 3][..]), (delays(DELAYS_TO_PAD), &[1])] {
            let (padded, longer) = (padded(&plain, numbers, PADDING), lengthened(&plain, padding_bytes(numbers)));
            assert!(padded.len() <= MOST_TIMETABLE_BYTES && padded.len() + 100 > MOST_TIMETABLE_BYTES);
            assert_eq!(padded.len(), longer.len());
            let bare = String::from_utf8(padded).unwrap().replace([' ', '\r'], "");
            assert_eq!(bare.as_bytes(), plain);
        }
        assert_eq!(padded(b"7\tPT1M\tArabia\n\n", &[2], 2), b"7\t  PT1M  \tArabia\r\n\r\n");
        assert_eq!(lengthened(b"7\tArabia\n\n", 3), b"7\tArabia...\n...\n");
        assert_eq!(delays_within("", ""), delays(FEW_LINES * DELAY_LINE_BYTES));
        let few = 6 * (10_000 + DELAY_LINE_BYTES);
        assert_eq!(
            [delays_within(&" ".repeat(10_000), ""), delays_within("", &second_field(10_000))].map(|lines| lines.len()),
            [few; 2]
        );
    }

    #[test]
    fn conditions_are_within_their_bounds() {
        for conditions in [asked(SEATS, YEAR), asked(SEATS, FIRST_YEAR), long_conditions(), deep_conditions()] {
            assert_eq!(conditions.len(), SEATS);
            assert!(conditions.iter().all(|condition| condition.len() <= MOST_CONDITION_BYTES));
            assert!(conditions.iter().map(|condition| condition.len() + 1).sum::<usize>() <= 4_096);
        }
        assert!([long_conditions(), deep_conditions()].concat().iter().all(|condition| condition.len() == MOST_CONDITION_BYTES));
        assert_eq!(with_spaces(192).len(), MOST_CONDITION_BYTES);
        assert!(with_tests_read_over(3).len() <= MOST_CONDITION_BYTES);
        assert!(with_tests_evaluated(4).len() <= MOST_CONDITION_BYTES);
    }
}
