//! Cases of the program `library_example`: tables of calls at and either side of every bound and with blanks, all wrong forms
//! of each call, and long random sessions with one desk.

mod bounds;
mod fields;
mod forms;
mod play;
mod tables;

use super::blanks;
use super::desks::Timetable;
use super::hostile::{great_file, places, TABLE};
use super::inputs;
pub use play::case;

pub struct Case {
    pub name: String,
    pub timetable: Timetable,
    pub calls: Vec<u8>,
}

/// The tables, the wrong forms, and cases at the bounds of the timetable and of the input.
pub fn made() -> Vec<Case> {
    let mut cases = Vec::new();
    for (name, calls) in tables::tables() {
        cases.extend(parts(name, &calls));
    }
    for (name, calls) in blanks::library::tables() {
        cases.extend(over_table(inputs::of_lines(name, &calls)));
    }
    cases.extend(parts("forms", &forms::forms()));
    cases.extend(over_runs());
    cases.extend(whole_inputs());
    cases
}

/// The calls, written with `|` for a tab, in as many inputs as they need.
fn parts(name: &str, calls: &[String]) -> Vec<Case> {
    over_table(inputs::named(name, calls))
}

fn over_table(inputs: Vec<(String, Vec<u8>)>) -> Vec<Case> {
    inputs.into_iter().map(|(name, calls)| Case { name, timetable: table(), calls }).collect()
}

/// The desk over a timetable with run lines: served to the end, opened and closed while runs go on, and served with byte 13
/// at every line's end.
fn over_runs() -> Vec<Case> {
    let open = |condition: &str| format!("open\t{condition}\n");
    let to_the_end: String = places::CONDITIONS.iter().map(|condition| open(condition)).collect();
    let mut between = to_the_end.clone();
    for round in 0..200 {
        between += &"turn\n".repeat(round % 9 + 1);
        between += &open(places::CONDITIONS[round % places::CONDITIONS.len()]);
        between += &format!("close\t{}\n", round / 2);
    }
    let made = |name: &str, timetable: String, calls: String| Case {
        name: format!("runs-{name}"),
        timetable: Timetable::Bytes(timetable.into_bytes()),
        calls: calls.into_bytes(),
    };
    let to_the_end = format!("{to_the_end}{}", "turn\n".repeat(9_000));
    let returns = format!("{}\nn\tevery\n", places::table()).replace('\n', "\r\n");
    vec![
        made("to-the-end", places::table(), to_the_end.clone()),
        made("opened-between", places::table(), between),
        made("returns", returns, to_the_end),
    ]
}

fn table() -> Timetable {
    Timetable::Bytes(TABLE.into())
}

/// Beginnings of calls whose last field is as long as the input lets it be.
const LONG: [(&str, &str); 8] = [
    ("open", "open\t"),
    ("write-date", "write\txs:date\t9\t"),
    ("write-duration", "write\txs:dayTimeDuration\t9\tP"),
    ("bytes", "bytes\txs:date\t9\t"),
    ("day-time", "dayTime\t+"),
    ("day-time-nano", "dayTime\t+1\t"),
    ("late", "late\txs:time\t"),
    ("late-duration", "late\txs:dayTimeDuration\tPT1S\tPT2S\tPT"),
];

fn whole_inputs() -> Vec<Case> {
    let own = |name: &str, timetable, calls: &[u8]| Case { name: format!("input-{name}"), timetable, calls: calls.to_vec() };
    let bytes = |bytes: &[u8]| Timetable::Bytes(bytes.to_vec());
    let calls = b"date\t2024\t2\t29\tnone\nturn\nopen\txs:date($1) eq xs:date($1)\nturn\nturn\nclose\t1\nturn\n";
    let great = great_file();
    let mut cases = vec![
        own("empty", table(), b""),
        own("newline", table(), b"\n"),
        own("newlines", table(), b"\n\nturn\n\n"),
        own("unended", table(), b"turn\nyearMonth\t+1"),
        own("return", table(), b"turn\r\nyearMonth\t+1\r\n\r\n"),
        own("timetable-missing", Timetable::Missing, calls),
        own("timetable-folder", Timetable::Folder, calls),
        own("timetable-empty", bytes(b""), calls),
        own("timetable-70000", bytes(&[great.as_slice(), &[b'x'; 4_463]].concat()), calls),
        own("timetable-65537-no-input", bytes(&great), b""),
    ];
    for length in [65_535, 65_536, 65_537] {
        cases.push(own(&format!("timetable-{length}"), bytes(&great[..length]), calls));
        cases.push(own(&format!("both-{length}"), bytes(&great[..length]), &repeated(b"turn\n", length)));
        cases.push(own(&format!("newlines-timetable-{length}"), bytes(&vec![b'\n'; length]), calls));
    }
    for length in [65_535, 65_536, 65_537, 131_072] {
        cases.push(own(&format!("turns-{length}"), table(), &repeated(b"turn\n", length)));
        cases.push(own(&format!("dates-{length}"), table(), &repeated(b"date\t2024\t2\t29\t+120\n", length)));
        cases.push(own(&format!("newlines-{length}"), table(), &vec![b'\n'; length]));
        for (name, start) in LONG {
            let text = repeated(b"0", length - start.len());
            cases.push(own(&format!("{name}-{length}"), table(), &[start.as_bytes(), &text].concat()));
        }
    }
    cases
}

/// So many bytes of the line again and again.
fn repeated(line: &[u8], length: usize) -> Vec<u8> {
    line.iter().copied().cycle().take(length).collect()
}
