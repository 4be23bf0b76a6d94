//! A table of calculator calls: texts of every kind with blanks round them, inside them and alone, in thousands, beside bytes
//! that are no blanks, and blanks in fields that are no texts.

use super::{in_gaps, TEXTS};
use crate::programs::MOST_CALLS_BYTES;
use crate::values::Kind;

/// What stands on a side of a text. Byte 9 parts the fields of a call and byte 10 ends it, so that neither can.
pub const SIDES: &[&str] = &["", " ", "\r", "  ", "\r\r", " \r", "\r ", "           "];

/// White space that has more than one byte, the marks that stand for it, and quotes.
const LONG_OTHERS: &[&str] = &[
    "\u{85}", "\u{a0}", "\u{1680}", "\u{2003}", "\u{2028}", "\u{202f}", "\u{3000}", "\u{feff}", "\\r", "\\t", "&#32;", "%20",
    "\"", "'",
];

/// The parts of the table.
pub fn parts() -> Vec<(&'static str, Vec<Vec<u8>>)> {
    vec![
        ("blanks-round", round()),
        ("blanks-others", others()),
        ("blanks-inside", inside()),
        ("blanks-alone", alone()),
        ("blanks-calls", in_calls()),
        ("blanks-fields", in_fields()),
        ("blanks-many", many()),
    ]
}

fn call(fields: &[&[u8]]) -> Vec<u8> {
    fields.join(&b'\t')
}

fn read(kind: Kind, text: &[&[u8]]) -> Vec<u8> {
    call(&[b"read", kind.name().as_bytes(), &text.concat()])
}

/// Every text between all pairs of sides.
fn round() -> Vec<Vec<u8>> {
    let mut calls = Vec::new();
    for (kind, good, bad) in TEXTS {
        for text in good.iter().chain(bad) {
            for before in SIDES {
                calls.extend(SIDES.iter().map(|after| read(kind, &[before.as_bytes(), text.as_bytes(), after.as_bytes()])));
            }
        }
    }
    calls
}

/// Every byte, and longer white space, before and after a text, and among the blanks there.
fn others() -> Vec<Vec<u8>> {
    let bytes = (0..=u8::MAX).filter(|byte| !b"\t\n".contains(byte)).map(|byte| vec![byte]);
    let all: Vec<Vec<u8>> = bytes.chain(LONG_OTHERS.iter().map(|other| other.as_bytes().to_vec())).collect();
    let mut calls = Vec::new();
    for (kind, good, _) in TEXTS {
        let text = good[0].as_bytes();
        for other in &all {
            calls.push(read(kind, &[other, text]));
            calls.push(read(kind, &[text, other]));
            calls.push(read(kind, &[b" \r", other, text]));
            calls.push(read(kind, &[other, b"\r ", text]));
            calls.push(read(kind, &[text, other, b" \r"]));
            calls.push(read(kind, &[b" ", text, b" ", other, b" "]));
        }
    }
    calls
}

/// Blanks in every gap of every good text, with none and with some round it, and in the place of every byte.
fn inside() -> Vec<Vec<u8>> {
    let mut calls = Vec::new();
    for (kind, good, _) in TEXTS {
        for text in good.iter().map(|text| text.as_bytes()) {
            for blanks in [" ", "\r", "  ", "\r \r"] {
                for broken in in_gaps(text, blanks.as_bytes()) {
                    calls.push(read(kind, &[&broken]));
                    calls.push(read(kind, &[b"\r ", &broken, b" "]));
                }
            }
            for at in 0..text.len() {
                calls.extend(["\r", " "].map(|blank| read(kind, &[&text[..at], blank.as_bytes(), &text[at + 1..]])));
            }
        }
    }
    calls
}

/// Blanks and nothing else, none to thousands, as each kind and by each call that takes one text.
fn alone() -> Vec<Vec<u8>> {
    let mut calls = Vec::new();
    for (kind, ..) in TEXTS {
        let name = kind.name().as_bytes();
        for count in (0..=40).chain([63, 64, 65, 239, 240, 241, 255, 256, 257, 1_000, 3_000]) {
            for blanks in [" ", "\r", " \r", "\r  "] {
                let text: Vec<u8> = blanks.bytes().cycle().take(count).collect();
                calls.push(call(&[b"read", name, &text]));
            }
        }
        for word in ["unzone", "components"] {
            calls.extend([" ", "\r", "\r \r "].map(|text| call(&[word.as_bytes(), name, text.as_bytes()])));
        }
    }
    calls
}

/// Calls of every word: with values, and with each refusal that can come after both texts are read, or of either text.
const CALLS: &[&str] = &[
    "read|xs:date|2024-03-31",
    "read|xs:dayTimeDuration|-PT36H",
    "unzone|xs:date|2024-03-31+01:00",
    "unzone|xs:time|24:00:00Z",
    "unzone|xs:yearMonthDuration|P1M",
    "components|xs:dateTime|2024-03-31T08:15:00.5-05:00",
    "components|xs:dayTimeDuration|-P1DT2H0.5S",
    "components|xs:yearMonthDuration|P20Y18M",
    "components|xs:time|08:15:00.0000000000",
    "compare|xs:date|2024-03-31|xs:date|2024-03-31Z",
    "compare|xs:time|08:15:00+01:00|xs:time|07:15:00Z",
    "compare|xs:dateTime|2024-03-31T00:00:00|xs:dateTime|2024-03-30T24:00:00.000000001",
    "compare|xs:dayTimeDuration|PT24H|xs:dayTimeDuration|P1D",
    "compare|xs:yearMonthDuration|P1Y|xs:yearMonthDuration|P11M",
    "compare|xs:date|2024-03-31|xs:time|08:15:00",
    "compare|xs:date|12000-01-01|xs:date|bad",
    "compare|xs:date|bad|xs:date|12000-01-01",
    "compare|xs:time|00:00:00.0000000000|xs:time|bad",
    "add|xs:date|2000-01-31|xs:yearMonthDuration|P1M",
    "add|xs:dayTimeDuration|PT45M|xs:time|23:30:00",
    "add|xs:dateTime|9999-12-31T23:59:59|xs:dayTimeDuration|PT1S",
    "add|xs:dayTimeDuration|PT1S|xs:yearMonthDuration|P1M",
    "subtract|xs:date|2005-03-01|xs:dayTimeDuration|PT1H",
    "subtract|xs:dateTime|2000-10-30T06:12:00-05:00|xs:dateTime|1999-11-28T09:00:00Z",
    "subtract|xs:time|08:15:00|xs:time|24:00:00",
    "subtract|xs:date|0001-01-01|xs:yearMonthDuration|P1M",
    "subtract|xs:dayTimeDuration|PT1S|xs:date|2024-03-31",
    "multiply|xs:dayTimeDuration|PT1H|-5",
    "multiply|xs:yearMonthDuration|P1M|007",
    "multiply|xs:yearMonthDuration|P83333Y4M|2",
    "multiply|xs:date|2024-03-31|2",
    "multiply|xs:date|2024-03-31|1000000",
    "multiply|xs:date|bad|1000000",
    "cast|xs:dateTime|2024-03-31T08:15:00Z|xs:date",
    "cast|xs:date|2024-03-31+14:00|xs:dateTime",
    "cast|xs:time|08:15:00|xs:date",
    "cast|xs:dayTimeDuration|P1D|xs:dayTimeDuration",
    "adjust|xs:dateTime|2002-03-07T10:00:00-07:00|xs:dayTimeDuration|-PT10H",
    "adjust|xs:time|08:15:00|xs:dayTimeDuration|PT14H",
    "adjust|xs:date|9999-12-31-14:00|xs:dayTimeDuration|PT14H",
    "adjust|xs:date|2024-03-31|xs:dayTimeDuration|PT30S",
    "adjust|xs:date|2024-03-31|xs:yearMonthDuration|P1M",
];

/// The calls by their fields, and which of these are texts.
fn fields_of(call: &'static str) -> (Vec<&'static str>, Vec<usize>) {
    let fields: Vec<&str> = call.split('|').collect();
    let texts = if fields.len() == 5 { vec![2, 4] } else { vec![2] };
    (fields, texts)
}

fn with(fields: &[&str], place: usize, field: &str) -> Vec<u8> {
    let mut fields = fields.to_vec();
    fields[place] = field;
    fields.join("\t").into_bytes()
}

/// Each of the calls with blanks round its texts, both together in all ways and each alone.
fn in_calls() -> Vec<Vec<u8>> {
    const ROUND: [(&str, &str); 5] = [("", ""), (" ", ""), ("", "\r"), ("\r", " "), ("  \r ", "\r\r ")];
    let padded = |text: &str, (before, after): (&str, &str)| format!("{before}{text}{after}");
    let mut calls = Vec::new();
    for (fields, texts) in CALLS.iter().map(|call| fields_of(call)) {
        for first in ROUND {
            let mut both: Vec<String> = fields.iter().map(|field| field.to_string()).collect();
            both[texts[0]] = padded(fields[texts[0]], first);
            if texts.len() == 1 {
                calls.push(both.join("\t").into_bytes());
                continue;
            }
            for second in ROUND {
                both[texts[1]] = padded(fields[texts[1]], second);
                calls.push(both.join("\t").into_bytes());
            }
        }
        for &place in &texts {
            calls.extend([" ", "\r", "  \r", "\u{b}", "\u{c} "].map(|blanks| with(&fields, place, blanks)));
        }
    }
    calls
}

/// Blanks round the words, the kinds and the whole number of the calls, which are not stripped, and tabs, which make fields.
fn in_fields() -> Vec<Vec<u8>> {
    let mut calls = Vec::new();
    for (fields, texts) in CALLS.iter().map(|call| fields_of(call)) {
        for (place, field) in fields.iter().enumerate() {
            calls.extend([format!("\t{field}"), format!("{field}\t")].map(|tabbed| with(&fields, place, &tabbed)));
            if texts.contains(&place) {
                continue;
            }
            for blank in [" ", "\r", "  ", "\u{c}", "\0"] {
                calls.push(with(&fields, place, &format!("{blank}{field}")));
                calls.push(with(&fields, place, &format!("{field}{blank}")));
                calls.push(with(&fields, place, &format!("{blank}{field}{blank}")));
            }
            calls.extend(["", " ", "\r"].map(|blanks| with(&fields, place, blanks)));
        }
    }
    calls
}

/// Thousands of blanks before a text, after it and on both sides, up to the longest input that there is; inside it too, and
/// round both texts of a call.
fn many() -> Vec<Vec<u8>> {
    let mut calls = Vec::new();
    for (kind, good, bad) in TEXTS {
        let most = MOST_CALLS_BYTES - 1 - read(kind, &[good[1].as_bytes()]).len();
        for (count, blanks) in [(1_000, " "), (1_001, "\r"), (4_096, " \r"), (most, " "), (most - 1, "\r\r ")] {
            let blanks: Vec<u8> = blanks.bytes().cycle().take(count).collect();
            let (before, after) = blanks.split_at(count / 3);
            calls.push(read(kind, &[&blanks, good[1].as_bytes()]));
            calls.push(read(kind, &[good[1].as_bytes(), &blanks]));
            calls.push(read(kind, &[before, good[1].as_bytes(), after]));
        }
        let blanks = [b' '; 5_000];
        calls.push(read(kind, &[&good[0].as_bytes()[..3], &blanks, &good[0].as_bytes()[3..]]));
        calls.extend(bad.iter().map(|text| read(kind, &[&blanks, text.as_bytes(), &blanks])));
        calls.push(read(kind, &[&blanks]));
    }
    let far = |text: &str| [" ".repeat(15_000), text.to_string(), "\r".repeat(15_000)].concat();
    for (fields, texts) in CALLS.iter().map(|call| fields_of(call)).filter(|(_, texts)| texts.len() == 2).take(6) {
        let mut both = fields.iter().map(|field| field.to_string()).collect::<Vec<String>>();
        texts.iter().for_each(|&place| both[place] = far(fields[place]));
        calls.push(both.join("\t").into_bytes());
    }
    calls
}
