//! How many of the generated texts have blanks, where, and what comes of them.

use crate::library::named_bytes;
use crate::lines::{fields, lines};
use crate::runs::is_run_line;
use crate::values::reading::{read, stripped};
use crate::values::Kind;

/// Where the blanks of a text stand; none if it has none.
pub fn standing(text: &[u8]) -> Option<&'static str> {
    let value = stripped(text);
    let start = text.iter().position(|byte| Some(byte) == value.first()).unwrap_or(text.len());
    match (start > 0, start + value.len() < text.len()) {
        _ if value.is_empty() => (!text.is_empty()).then_some("alone"),
        (true, true) => Some("before and after"),
        (true, false) => Some("before"),
        (false, true) => Some("after"),
        (false, false) => value.iter().any(|byte| b"\t\n\r ".contains(byte)).then_some("inside only"),
    }
}

/// The texts of a calculator's call, each with its kind.
pub fn texts_of_call(line: &[u8]) -> Vec<(Kind, &[u8])> {
    let fields = fields(line);
    let places: &[usize] = if [b"cast".as_slice(), b"multiply"].contains(&fields[0]) { &[2] } else { &[2, 4] };
    let text = |&place: &usize| Some((Kind::named(fields.get(place - 1)?)?, *fields.get(place)?));
    places.iter().filter_map(text).collect()
}

/// A name for each text of a calculator's call that has blanks.
pub fn of_call(line: &[u8]) -> Vec<String> {
    texts_of_call(line).into_iter().filter_map(|(kind, text)| of_text(kind, text)).collect()
}

/// A name for each text of a library's call that has blanks.
pub fn of_library(line: &[u8]) -> Vec<String> {
    let fields = fields(line);
    let Some(kind) = fields.get(1).and_then(|name| Kind::named(name)) else {
        return Vec::new();
    };
    let rest = |from: usize| fields.get(from..).unwrap_or(&[]).join(&b'\t');
    let texts: Vec<(Kind, Vec<u8>)> = match fields[0] {
        b"write" => vec![(kind, rest(3))],
        b"bytes" => named_bytes(&rest(3)).map_or(Vec::new(), |text| vec![(kind, text)]),
        b"compare" if fields.len() > 3 => vec![(kind, fields[2].to_vec())],
        b"late" if fields.len() == 5 => {
            let kinds = [kind, kind, Kind::DayTime];
            kinds.into_iter().zip(&fields[2..]).map(|(kind, text)| (kind, text.to_vec())).collect()
        }
        _ => Vec::new(),
    };
    texts.iter().filter_map(|(kind, text)| of_text(*kind, text)).collect()
}

fn of_text(kind: Kind, text: &[u8]) -> Option<String> {
    standing(text).map(|place| format!("text {place}, {}", result_of(kind, text)))
}

/// What comes of a text.
pub fn result_of(kind: Kind, text: &[u8]) -> String {
    match read(kind, text) {
        Ok(_) => "read".to_string(),
        Err(number) => format!("refused {number:>2}"),
    }
}

/// A name for each field of a timetable, and for each literal of conditions, that has blanks.
pub fn of_desk(timetable: &[u8], conditions: &[u8]) -> Vec<String> {
    let mut names = Vec::new();
    for line in lines(timetable) {
        let fields = fields(line);
        let sort = if is_run_line(&fields) { "run line" } else { "plain line" };
        let standings = fields.iter().filter_map(|field| standing(field));
        names.extend(standings.map(|place| format!("field {place}, {sort}")));
    }
    for condition in lines(conditions) {
        let parts: Vec<&[u8]> = condition.split(|&byte| byte == b'"').collect();
        let literals = parts[..parts.len() - 1].iter().skip(1).step_by(2);
        names.extend(literals.filter_map(|literal| standing(literal)).map(|place| format!("literal {place}")));
    }
    names
}
