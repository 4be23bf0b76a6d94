//! Tables of library calls: texts of any bytes, which `bytes` names and `write` has with tabs; blanks round the texts of
//! `compare` and `late`, round literals of conditions, and where they are not stripped.

use super::{in_gaps, OTHERS, TEXTS};
use crate::generator::hostile::conditions::BY_DATE;
use crate::library::MOST_HEX_DIGITS;
use crate::programs::MOST_CALLS_BYTES;
use crate::values::Kind;

pub fn tables() -> Vec<(&'static str, Vec<Vec<u8>>)> {
    vec![
        ("blanks-bytes", round()),
        ("blanks-others", others()),
        ("blanks-inside", inside()),
        ("blanks-alone", alone()),
        ("blanks-digits", digits()),
        ("blanks-rooms", rooms()),
        ("blanks-writes", writes()),
        ("blanks-texts", texts()),
        ("blanks-conditions", conditions()),
    ]
}

/// All four blanks, none, and several of them.
const SIDES: &[&str] = &["", "\t", "\n", "\r", " ", "\r\n", "\t\t", " \n\t\r ", "\n\n\n\n"];

pub fn hex(bytes: &[u8]) -> String {
    bytes.iter().map(|byte| format!("{byte:02x}")).collect()
}

fn bytes_call(kind: Kind, text: &[&[u8]]) -> Vec<u8> {
    format!("bytes\t{}\t32\t{}", kind.name(), hex(&text.concat())).into_bytes()
}

/// Every text between all pairs of sides.
fn round() -> Vec<Vec<u8>> {
    let mut calls = Vec::new();
    for (kind, good, bad) in TEXTS {
        for text in good.iter().chain(bad) {
            for before in SIDES {
                calls.extend(SIDES.iter().map(|after| bytes_call(kind, &[before.as_bytes(), text.as_bytes(), after.as_bytes()])));
            }
        }
    }
    calls
}

/// Every byte there is before a text and after it, and with a blank on either side of the byte.
fn others() -> Vec<Vec<u8>> {
    let mut calls = Vec::new();
    for (kind, good, _) in TEXTS {
        let text = good[0].as_bytes();
        for byte in 0..=u8::MAX {
            calls.push(bytes_call(kind, &[&[byte], text]));
            calls.push(bytes_call(kind, &[text, &[byte]]));
            calls.push(bytes_call(kind, &[b"\n", &[byte], text]));
            calls.push(bytes_call(kind, &[&[byte], b"\n", text]));
            calls.push(bytes_call(kind, &[text, b"\n", &[byte]]));
            calls.push(bytes_call(kind, &[text, &[byte], b"\n"]));
        }
    }
    calls
}

/// Each blank, and two, in every gap of every good text.
fn inside() -> Vec<Vec<u8>> {
    let mut calls = Vec::new();
    for (kind, good, _) in TEXTS {
        for text in good {
            for blanks in ["\t", "\n", "\r", " ", "\r\n"] {
                let gaps = in_gaps(text.as_bytes(), blanks.as_bytes());
                calls.extend(gaps.iter().map(|broken| bytes_call(kind, &[broken])));
            }
        }
    }
    calls
}

/// All texts of one byte, all of two of the blanks and other bytes, and blanks as many as the digits can name.
fn alone() -> Vec<Vec<u8>> {
    let pair: Vec<u8> = b"\t\n\r ".iter().chain(OTHERS).copied().collect();
    let mut calls = Vec::new();
    for (kind, ..) in TEXTS {
        calls.push(bytes_call(kind, &[]));
        calls.extend((0..=u8::MAX).map(|byte| bytes_call(kind, &[&[byte]])));
        calls.extend(pair.iter().flat_map(|first| pair.iter().map(|second| bytes_call(kind, &[&[*first, *second]]))));
        for blanks in ["\t", "\n", "\r", " ", " \r\n\t"] {
            let most: Vec<u8> = blanks.bytes().cycle().take(MOST_HEX_DIGITS / 2).collect();
            calls.extend([most.len() - 1, most.len()].map(|count| bytes_call(kind, &[&most[..count]])));
        }
    }
    calls
}

/// A value with blanks round it up to the most bytes that the digits name and one more; digits of every other form; further
/// fields, and blanks in the fields before.
fn digits() -> Vec<Vec<u8>> {
    let mut calls = Vec::new();
    for (kind, good, _) in TEXTS {
        let text = good[1].as_bytes();
        for count in [MOST_HEX_DIGITS / 2 - 1, MOST_HEX_DIGITS / 2, MOST_HEX_DIGITS / 2 + 1] {
            for blanks in ["\t", "\n", "\r", " "] {
                let blanks = blanks.repeat(count - text.len());
                let (before, after) = blanks.as_bytes().split_at(blanks.len() / 2);
                calls.push(bytes_call(kind, &[blanks.as_bytes(), text]));
                calls.push(bytes_call(kind, &[text, blanks.as_bytes()]));
                calls.push(bytes_call(kind, &[before, text, after]));
            }
        }
    }
    let good = hex(b" 08:15:00\n");
    for at in 0..good.len() {
        for other in ["", " ", "g", "A", "F", "-", "+", ":", "/", "@", "`", "0x", "\0", "\u{e9}", "\r", "\t"] {
            calls.push(format!("bytes\txs:time\t9\t{}{other}{}", &good[..at], &good[at + 1..]).into_bytes());
        }
    }
    for hex in [good.to_uppercase(), format!("{good}0"), format!("0{good}"), format!("{good}\t"), format!("{good} "), " ".into()]
    {
        calls.push(format!("bytes\txs:time\t9\t{hex}").into_bytes());
    }
    for start in ["bytes", "bytes\t", "bytes\txs:time", "bytes\txs:time\t9", " bytes\txs:time\t9\t", "bytes \txs:time\t9\t"] {
        calls.extend([start.to_string(), format!("{start}{good}"), format!("{start}\t{good}")].map(String::into_bytes));
    }
    for (kind, room) in
        [("xs:time ", "9"), ("\rxs:time", "9"), ("time", "9"), ("xs:time", " 9"), ("xs:time", "9\r"), ("xs:time", "65")]
    {
        calls.push(format!("bytes\t{kind}\t{room}\t{good}").into_bytes());
    }
    for length in [0, 1, 2, 3, 510, 511, 512, 513, 514, 1_024] {
        calls.extend(["0", "9", "20"].map(|digit| format!("bytes\txs:time\t9\t{}", digit.repeat(length)).into_bytes()));
    }
    calls
}

/// Padded texts into every room: the room is measured by what is written, not by what was read.
fn rooms() -> Vec<Vec<u8>> {
    let mut calls = Vec::new();
    for room in 0..=64 {
        for (kind, good, bad) in TEXTS {
            for text in [good[0], good[1], bad[0]] {
                let digits = hex(format!("\n\t{text} \r").as_bytes());
                calls.push(format!("bytes\t{}\t{room}\t{digits}", kind.name()).into_bytes());
                calls.push(format!("write\t{}\t{room}\t\t {text}\r \t", kind.name()).into_bytes());
            }
        }
    }
    calls
}

/// The text of `write` with tabs, returns and spaces round it and inside it, and thousands of them.
fn writes() -> Vec<Vec<u8>> {
    let write = |kind: Kind, text: &[&[u8]]| [format!("write\t{}\t35\t", kind.name()).as_bytes(), &text.concat()].concat();
    let sides = SIDES.iter().filter(|side| !side.contains('\n')).chain(&["\t\r \t"]);
    let sides: Vec<&[u8]> = sides.map(|side| side.as_bytes()).collect();
    let mut calls = Vec::new();
    for (kind, good, bad) in TEXTS {
        for text in good.iter().chain(bad).map(|text| text.as_bytes()) {
            for before in &sides {
                calls.extend(sides.iter().map(|after| write(kind, &[before, text, after])));
            }
        }
        calls.extend(in_gaps(good[0].as_bytes(), b"\t").iter().map(|broken| write(kind, &[broken])));
        calls.extend(OTHERS.iter().map(|other| write(kind, &[b"\t", &[*other], good[0].as_bytes()])));
        let most = MOST_CALLS_BYTES - 1 - write(kind, &[good[1].as_bytes()]).len();
        for (count, blanks) in [(2_000, "\t"), (most, "\t"), (most, " \r\t")] {
            let blanks: Vec<u8> = blanks.bytes().cycle().take(count).collect();
            let (before, after) = blanks.split_at(count / 2);
            calls.push(write(kind, &[&blanks, good[1].as_bytes()]));
            calls.push(write(kind, &[good[1].as_bytes(), &blanks]));
            calls.push(write(kind, &[before, good[1].as_bytes(), after]));
        }
    }
    calls
}

/// Good calls whose texts stand in the places that are named.
const CALLS: &[(&str, &[usize])] = &[
    ("compare|xs:date|2024-03-31|xs:date|2024|3|31|0|0|+0", &[2]),
    ("compare|xs:dayTimeDuration|PT24H|xs:dayTimeDuration|+86400|0", &[2]),
    ("compare|xs:time|08:15:00|xs:date|2024|3|31|0|0|none", &[2]),
    ("compare|xs:time|24:00:01|xs:time|1972|12|31|0|0|-0", &[2]),
    ("late|xs:time|08:00:00|08:04:00|PT3M", &[2, 3, 4]),
    ("late|xs:dateTime|2024-03-31T00:00:00|2024-03-31T00:00:00Z|-PT0S", &[2, 3, 4]),
    ("late|xs:yearMonthDuration|P1M|P2M|PT0S", &[2, 3, 4]),
    ("late|xs:date|12000-13-45|bad|PT0.0000000000S", &[2, 3, 4]),
    ("date|2024|2|29|+120", &[]),
    ("time|28800|0|none", &[]),
    ("dayTime|-129600|0", &[]),
    ("record|12|xs:date|2024|3|31|0|0|none", &[]),
    ("close|1", &[]),
    ("turn", &[]),
];

/// Blanks and other bytes round each field of the calls; those round a text alone are stripped.
fn texts() -> Vec<Vec<u8>> {
    let mut calls = Vec::new();
    for (call, texts) in CALLS {
        let fields: Vec<&[u8]> = call.split('|').map(str::as_bytes).collect();
        let with = |place: usize, field: &[u8]| [&fields[..place], &[field], &fields[place + 1..]].concat().join(&b'\t');
        for (place, &field) in fields.iter().enumerate() {
            for side in ["\r", " ", " \r ", "\u{b}", "\u{c}", "\u{a0}", "\0", "\t"].map(str::as_bytes) {
                calls.push(with(place, &[side, field].concat()));
                calls.push(with(place, &[field, side].concat()));
                calls.push(with(place, &[side, field, side].concat()));
                calls.push(with(place, side));
            }
            if texts.contains(&place) {
                calls.extend(in_gaps(field, b" ").iter().map(|broken| with(place, broken)));
                let long = [b' '; 4_000];
                calls.push(with(place, &[long.as_slice(), field, &long].concat()));
            }
        }
    }
    calls
}

/// Padded literals opened, served over the whole timetable and closed; and blanks beside the call's own word.
fn conditions() -> Vec<Vec<u8>> {
    let mut calls = Vec::new();
    let literals = [
        " 2024-03-31",
        "2024-03-31\t",
        "\t\r 2024-03-31 \r\t",
        " ",
        "\t",
        "",
        "2024 -03-31",
        "\u{b}2024-03-31",
        " 2023-02-29",
        "\r10000-01-01\r",
    ];
    for literal in literals {
        calls.push(format!("open\txs:date($1) ge xs:date(\"{literal}\")").into_bytes());
        calls.extend(vec![b"turn".to_vec(); 7]);
    }
    for (before, after) in [(" ", ""), ("", " "), ("\t", ""), ("", "\t"), ("\r", ""), ("", "\r"), ("  ", "  ")] {
        calls.push(format!("open\t{before}{BY_DATE}{after}").into_bytes());
        calls.push(format!("{before}open{after}\t{BY_DATE}").into_bytes());
        calls.extend(vec![b"turn".to_vec(); 7]);
    }
    calls
}
