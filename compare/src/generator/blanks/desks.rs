//! Desk cases: padded fields and literals, timetables whose lines end with bytes 13 and 10, lines and conditions that are
//! mostly blanks, and blanks where the grammar has none.

use super::calls::SIDES;
use super::{in_gaps, OTHERS, TEXTS};
use crate::conditions::MOST_BYTES;
use crate::desk::MOST_TIMETABLE_BYTES;
use crate::generator::desks::Case;
use crate::programs::MOST_CONDITIONS_BYTES;

pub fn cases() -> Vec<Case> {
    let mut cases: Vec<Case> = ["\n", "\r\n", "\r", ""].into_iter().map(feed).collect();
    cases.extend(["\n", "\r\n"].map(sample));
    cases.extend([beside(b""), beside(b" "), inside(), alone()]);
    for list in [literals(), full_literals(), outside_literals()] {
        cases.extend(under(&list));
    }
    cases.extend(long_lines());
    cases.extend(nothing_else());
    cases
}

type Lines = Vec<Vec<u8>>;

/// One column for each kind, with its first good text.
fn columns() -> [&'static [u8]; 5] {
    TEXTS.map(|(_, good, _)| good[0].as_bytes())
}

/// A line of the five columns, each as `made` makes it.
fn line(made: impl Fn(&'static [u8]) -> Vec<u8>) -> Vec<u8> {
    columns().map(made).join(&b'\t')
}

/// Conditions over each of the columns.
const OVER_COLUMNS: &[&str] = &[
    "xs:date($1) eq xs:date(\"2024-03-31\")",
    "xs:time($2) eq xs:time(\"\t08:15:00 \r\")",
    "xs:dateTime($3) eq xs:dateTime(\" 2024-03-31T08:15:00\")",
    "xs:dayTimeDuration($4) eq xs:dayTimeDuration(\"P1DT12H\r\")",
    "xs:yearMonthDuration($5) eq xs:yearMonthDuration(\"P14M\")",
    "xs:dateTime($3) + xs:dayTimeDuration($4) lt xs:dateTime(xs:date($1) + xs:yearMonthDuration($5))",
    "xs:date(xs:dateTime($3)) eq xs:date($1) and xs:time(xs:dateTime($3)) eq xs:time($2)",
    "xs:yearMonthDuration($5) * 2 ne xs:yearMonthDuration(\" P28M \") or xs:date($1) lt xs:date($6)",
];

/// A feed that pads its columns: all pairs of sides round every column. Its lines have this ending; one without byte 10 has
/// it after the last line alone.
fn feed(ending: &str) -> Case {
    let mut lines = Lines::new();
    for before in SIDES {
        lines.extend(SIDES.iter().map(|after| line(|text| [before.as_bytes(), text, after.as_bytes()].concat())));
    }
    lines.extend(columns().map(|text| format!("{:>24}\t{:24}", lossy(text), lossy(text)).into_bytes()));
    ended(&lines, ending, OVER_COLUMNS)
}

fn lossy(text: &[u8]) -> String {
    String::from_utf8_lossy(text).into_owned()
}

/// The lines with this ending, the last one with no byte 10 where the ending has none.
fn ended(lines: &[Vec<u8>], ending: &str, conditions: &[&str]) -> Case {
    match ending.strip_suffix('\n') {
        Some(before) => {
            let lines: Lines = lines.iter().map(|line| [line, before.as_bytes()].concat()).collect();
            Case::of_lines(&lines, "\n", conditions)
        }
        None => Case::of_lines(lines, ending, conditions),
    }
}

/// Document 01's sample and a run, with these line ends.
fn sample(ending: &str) -> Case {
    let lines: Lines = [
        "12\t2024-03-30T23:40:00+01:00",
        "14\t2024-03-31T06:00:00+02:00",
        "",
        "N1\tevery\t2024-03-30T23:50:00+01:00\t2024-03-31T00:10:00+01:00\tPT10M",
        "N2\tevery\t2024-03-30T23:50:00+01:00\t2024-03-31T00:10:00+01:00",
        "N3\tevery",
        "every",
        "2024-03-31T00:00:00",
    ]
    .map(|line| line.as_bytes().to_vec())
    .to_vec();
    let conditions = [
        "xs:dateTime($2) lt xs:dateTime(\"2024-03-31T00:00:00Z\")",
        "xs:dateTime($2) - xs:dateTime(\"2024-03-30T22:40:00Z\") eq xs:dayTimeDuration(\"PT5H20M\")",
        "xs:dateTime($2) + xs:dayTimeDuration($5) le xs:dateTime($4)",
        "xs:dateTime($1) eq xs:dateTime($1)",
        "xs:dateTime($2) eq xs:dateTime($2)\r",
    ];
    ended(&lines, ending, &conditions)
}

/// Every byte before and after the columns, this blank between it and them.
fn beside(blank: &[u8]) -> Case {
    let mut lines = Lines::new();
    for byte in (0..=u8::MAX).filter(|byte| !b"\t\n".contains(byte)) {
        lines.push(line(|text| [[byte].as_slice(), blank, text].concat()));
        lines.push(line(|text| [text, blank, &[byte]].concat()));
    }
    Case::of_lines(&lines, "\n", &OVER_COLUMNS[..5])
}

/// A blank in each gap of the columns; a column that has fewer gaps than the others stands as it is after its last one.
fn inside() -> Case {
    let longest = columns().map(<[u8]>::len).into_iter().max().unwrap_or(0);
    let mut lines = Lines::new();
    for blank in ["\r", " ", "  "] {
        let broken = |text: &[u8], gap: usize| in_gaps(text, blank.as_bytes()).get(gap).map_or(text.to_vec(), Vec::clone);
        lines.extend((0..longest).map(|gap| line(|text| broken(text, gap))));
        lines.extend((0..longest).map(|gap| line(|text| [b" ".as_slice(), &broken(text, gap), b"\r"].concat())));
    }
    Case::of_lines(&lines, "\n", &OVER_COLUMNS[..5])
}

/// Columns of blanks alone, of other bytes, and of both.
fn alone() -> Case {
    let mut lines: Lines = SIDES.iter().map(|blanks| line(|_| blanks.as_bytes().to_vec())).collect();
    lines.extend((1..300).step_by(7).map(|count| line(|_| vec![b' '; count])));
    for &other in OTHERS {
        lines.extend([vec![other], vec![b' ', other, b' ']].map(|text| line(|_| text.clone())));
    }
    Case::of_lines(&lines, "\n", OVER_COLUMNS)
}

/// Conditions in as many cases as the seats and the input need, over two lines that some of them hit.
fn under(conditions: &[Vec<u8>]) -> Vec<Case> {
    let lines = [line(<[u8]>::to_vec), line(|text| [b" \r".as_slice(), text, b" "].concat())];
    let most = (MOST_CONDITIONS_BYTES / (MOST_BYTES + 2)).min(16);
    conditions.chunks(most).map(|part| Case::of_lines(&lines, "\n", part)).collect()
}

/// A literal of the kind compared with its column.
fn with_literal(place: usize, text: &[u8]) -> Vec<u8> {
    let name = TEXTS[place].0.name();
    [format!("{name}(\"").as_bytes(), text, format!("\") eq {name}(${})", place + 1).as_bytes()].concat()
}

/// Padded literals of every kind, with tabs too; other bytes beside them; blanks inside them and alone.
fn literals() -> Lines {
    let mut conditions = Lines::new();
    for (place, (_, good, bad)) in TEXTS.into_iter().enumerate() {
        let text = good[0].as_bytes();
        for blanks in ["\t", "\r", " ", "\t\r ", "\t\t\t\t", "    "] {
            conditions.push(with_literal(place, &[blanks.as_bytes(), text].concat()));
            conditions.push(with_literal(place, &[text, blanks.as_bytes()].concat()));
            conditions.push(with_literal(place, &[blanks.as_bytes(), text, blanks.as_bytes()].concat()));
            conditions.push(with_literal(place, blanks.as_bytes()));
        }
        conditions.extend(bad.iter().map(|text| with_literal(place, format!("\t {text}\r").as_bytes())));
        conditions.extend(OTHERS.iter().map(|&other| with_literal(place, &[b" ".as_slice(), text, &[other], b"\t"].concat())));
        conditions.extend(OTHERS.iter().map(|&other| with_literal(place, &[[other].as_slice(), text].concat())));
        conditions.extend(["\t", "\r", " "].into_iter().flat_map(|blank| {
            let gaps = in_gaps(text, blank.as_bytes()).into_iter();
            gaps.step_by(3).map(move |broken| with_literal(place, &broken))
        }));
    }
    conditions
}

/// Conditions of 239 to 241 bytes that are mostly blanks in a literal, or in two.
fn full_literals() -> Lines {
    let mut conditions = Lines::new();
    for place in 0..TEXTS.len() {
        let text = columns()[place];
        for length in [MOST_BYTES - 1, MOST_BYTES, MOST_BYTES + 1] {
            for blanks in ["\t", "\r", " ", " \t\r"] {
                let alone: Vec<u8> = blanks.bytes().cycle().take(length - with_literal(place, b"").len()).collect();
                let blanks = &alone[text.len()..];
                let (before, after) = blanks.split_at(blanks.len() / 2);
                conditions.push(with_literal(place, &[blanks, text].concat()));
                conditions.push(with_literal(place, &[text, blanks].concat()));
                conditions.push(with_literal(place, &[before, text, after].concat()));
                conditions.push(with_literal(place, &[before, &text[..2], after, &text[2..]].concat()));
                conditions.push(with_literal(place, &alone));
            }
        }
    }
    conditions
}

/// Spaces, which may stand round any symbol, and tabs and returns, which may not, at every place between two bytes of a
/// condition and at both ends. Its literal has them in it at some.
fn outside_literals() -> Lines {
    let condition = b"xs:date( \"2024-03-31\" )ge xs:date($1)-xs:dayTimeDuration(\"PT1H\")*2";
    let mut conditions = Lines::new();
    for blank in [" ", "\t", "\r"].map(str::as_bytes) {
        conditions.extend((0..=condition.len()).map(|at| [&condition[..at], blank, &condition[at..]].concat()));
    }
    conditions
}

/// Lines as long as a timetable may be, with thousands of blanks in a field: in a plain line, in each field of a run, in
/// all three, before and after the word that makes one, and in a field that nobody reads.
fn long_lines() -> Vec<Case> {
    let plain = ["2024-03-31", "x"];
    let run = ["n", "every", "2024-03-30T23:50:00+01:00", "2024-03-31T00:10:00+01:00", "PT10M"];
    let by_date = ["xs:date($1) eq xs:date(\" 2024-03-31\")", "xs:date($2) eq xs:date($1)"];
    let by_moment = [
        "xs:dateTime($2) ge xs:dateTime(\"2024-03-31T00:00:00+01:00\")",
        "xs:dateTime($2) + xs:dayTimeDuration($5) le xs:dateTime($4)",
    ];
    let mut cases = Vec::new();
    for side in [Side::Before, Side::After, Side::Both] {
        cases.extend([&[0][..], &[1], &[0, 1]].map(|places| filled(&plain, places, side, &by_date)));
        cases.extend([&[2][..], &[3], &[4], &[2, 3, 4], &[0], &[1]].map(|places| filled(&run, places, side, &by_moment)));
    }
    cases
}

#[derive(Clone, Copy)]
enum Side {
    Before,
    After,
    Both,
}

/// A timetable of one line with so many blanks in some of its fields that it has as many bytes as there may be.
fn filled(fields: &[&str], places: &[usize], side: Side, conditions: &[&str]) -> Case {
    let missing = MOST_TIMETABLE_BYTES - fields.join("\t").len();
    let mut fields: Vec<String> = fields.iter().map(|field| field.to_string()).collect();
    for (at, &place) in places.iter().enumerate() {
        let count = (missing + at) / places.len();
        let (before, after) = match side {
            Side::Before => (count, 0),
            Side::After => (0, count),
            Side::Both => (count / 2, count - count / 2),
        };
        fields[place] = [" ".repeat(before), fields[place].clone(), "\r".repeat(after)].concat();
    }
    Case::of_lines(&[fields.join("\t")], "", conditions)
}

/// Timetables of one blank again and again, of line ends, and of fields of one blank.
fn nothing_else() -> Vec<Case> {
    let conditions = ["xs:date($1) eq xs:date(\"2024-03-31\")", "xs:time($16) eq xs:time(\" 08:15:00\")"];
    let repeated = |bytes: &str, length: usize| {
        let line: Vec<u8> = bytes.bytes().cycle().take(length).collect();
        Case::of_lines(&[line], "", &conditions)
    };
    let most = MOST_TIMETABLE_BYTES;
    vec![repeated(" ", most), repeated("\r", most), repeated("\t", most), repeated(" \t", most), repeated("\r\n", 3_000)]
}
