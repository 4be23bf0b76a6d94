//! Cases of the test program `hostile_desks`: desks built in every way there is, with every call tried on each, and long
//! random scripts.

pub(super) mod conditions;
mod harm;
pub mod places;
mod play;
mod ways;

use super::desks::Timetable;
use conditions::{padded, BAD, BY_DATE, BY_TIME};
pub use play::case;
use ways::{held, File, Way};

pub struct Case {
    pub name: String,
    pub timetable: Timetable,
    pub events: Vec<u8>,
}

/// The beginning of the file, 66 bytes. Its lines start at 0, 20, 36, 55 and 56; the last one has no byte 10.
pub const TABLE: &str = "2024-03-30\t08:15:00\n2024-03-31\tlate\nbad\t23:30:00+01:00\n\n2024-04-01";

/// The places at which the seat that is altered stands.
const PLACES: [usize; 3] = [0, 9, 15];

/// A case for each way, and cases at the bounds of the file and of the input.
pub fn made() -> Vec<Case> {
    let mut cases: Vec<Case> = ways::ways().into_iter().map(tried).collect();
    cases.extend(whole_inputs());
    cases
}

/// The way at each place, with every call.
fn tried(way: Way) -> Case {
    let mut events = Vec::new();
    for place in PLACES {
        for calls in [all_calls(), turns_first()] {
            for text in built().iter().chain(&way.events).chain(&calls) {
                events.extend(event(place, text));
                events.push(b'\n');
            }
        }
    }
    let file = match way.file {
        File::Table => TABLE.into(),
        File::Great => great_file(),
        File::Runs => places::table().into_bytes(),
    };
    Case { name: way.name, timetable: Timetable::Bytes(file), events }
}

/// 65,537 bytes: the table, long lines, and short ones at the end.
pub(super) fn great_file() -> Vec<u8> {
    let mut bytes = format!("{TABLE}\n").into_bytes();
    while bytes.len() < 65_000 {
        bytes.extend(format!("2024-03-31\t{}\n", "x".repeat(3_000)).bytes());
    }
    bytes.truncate(65_000);
    while bytes.len() < 65_537 {
        bytes.extend(b"\n2024-04-02");
    }
    bytes.truncate(65_537);
    bytes
}

/// The event's bytes, where `p` is this place.
fn event(place: usize, text: &str) -> Vec<u8> {
    let count = if text.starts_with("open ") { 2 } else { 4 };
    let words = text.splitn(count, ' ').enumerate().map(|(at, word)| match (at, word) {
        (1 | 2, "p") => place.to_string(),
        (1 | 2, "q") => ((place + 1) % 16).to_string(),
        (1 | 2, "r") => ((place + 6) % 16).to_string(),
        (1 | 2, "f") => ((place + 3) % 16).to_string(),
        (1 | 2, "o") => ((place + 15) % 16).to_string(),
        _ => word.to_string(),
    });
    words.collect::<Vec<String>>().join("\t").into_bytes()
}

/// A sound desk with three held seats, `p` the next to be served, before anything is altered.
fn built() -> Vec<String> {
    let mut events: Vec<String> = ["fresh 66", "part 66", "set last_served o", "set issued 9"].map(str::to_string).to_vec();
    events.extend(held("p", 3, 20, 1, BY_DATE));
    events.extend(held("q", 9, 0, 0, BY_TIME));
    events.extend(held("r", 5, 41, 2, BY_DATE));
    events
}

/// Every call: Open, Close, then turns.
fn all_calls() -> Vec<String> {
    let mut events = vec!["show".to_string(), "sound".to_string(), format!("open {BY_TIME}")];
    events.extend(BAD.iter().map(|(_, condition)| format!("open {condition}")));
    events.push(format!("open {}", padded(BY_DATE, 241)));
    events.extend(["show", "close 3", "close 4", "close 0", "close 4294967295", "show", "turn", "show"].map(str::to_string));
    events.extend([0, 1, 4, 5, 10, 31, 32, 100, 4096].map(|room| format!("turns {room}")));
    events.push("show".to_string());
    events
}

/// Turns while nothing else has altered the desk, then Open and Close.
fn turns_first() -> Vec<String> {
    let mut events = ["sound", "turn", "turn", "show"].map(str::to_string).to_vec();
    events.extend([0, 5, 9, 10, 11, 12, 18, 20, 29, 30, 64].map(|room| format!("turns {room}")));
    events.extend(["turn", "show", "turns 4096", "show", "turns 4", "turns 5"].map(str::to_string));
    events.extend(["close 9", "show", &format!("open {}", padded(BY_TIME, 240)), "close 10", "turn", "show"].map(str::to_string));
    events
}

/// Cases at the bounds of the file and of the whole input.
fn whole_inputs() -> Vec<Case> {
    let bytes = |text: &[u8]| Timetable::Bytes(text.to_vec());
    let own = |name: &str, timetable, events: &[u8]| Case { name: format!("input-{name}"), timetable, events: events.to_vec() };
    let calls = b"show\nsound\nopen\txs:date($1) eq xs:date($1)\nturn\nturns\t64\nclose\t1\n\
        part\t65536\npart\t65537\npart\t65538\nturn\nshow\n";
    let great = great_file();
    let mut cases = vec![
        own("empty", bytes(TABLE.as_bytes()), b""),
        own("newline", bytes(TABLE.as_bytes()), b"\n"),
        own("newlines", bytes(TABLE.as_bytes()), b"\n\nturn\n\n"),
        own("unended", bytes(TABLE.as_bytes()), b"turn\nturn"),
        own("return", bytes(TABLE.as_bytes()), b"turn\r\nsound\n\r\n"),
        own("file-missing", Timetable::Missing, calls),
        own("file-folder", Timetable::Folder, calls),
        own("file-empty", bytes(b""), calls),
        own("file-65535", bytes(&great[..65_535]), calls),
        own("file-65536", bytes(&great[..65_536]), calls),
        own("file-65537", bytes(&great), calls),
        own("file-70000", bytes(&[great.as_slice(), &[b'x'; 4_463]].concat()), calls),
    ];
    for length in [65_535, 65_536, 65_537, 131_072] {
        let turns: Vec<u8> = b"turn\n".iter().copied().cycle().take(length).collect();
        cases.push(own(&format!("turns-{length}"), bytes(TABLE.as_bytes()), &turns));
        cases.push(own(&format!("newlines-{length}"), bytes(TABLE.as_bytes()), &vec![b'\n'; length]));
        let open = [b"open\t".as_slice(), &vec![b'('; length - 5]].concat();
        cases.push(own(&format!("open-{length}"), bytes(TABLE.as_bytes()), &open));
    }
    cases
}
