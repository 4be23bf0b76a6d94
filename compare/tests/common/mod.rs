//! The calculator as a function from one call to one answer, and the desk as one from texts to text.
#![allow(dead_code)]

use compare::conditions::{accept, evaluation::holds};
use compare::programs;

/// The answer to a call whose fields are parted by `|`, with short names for the kinds.
pub fn answer(call: &str) -> String {
    let fields: Vec<&str> = call.split('|').map(full_name).collect();
    let output = programs::calculator(fields.join("\t").as_bytes());
    output.strip_suffix('\n').expect("one line").replace('\t', " ")
}

fn full_name(field: &str) -> &str {
    match field {
        "date" => "xs:date",
        "time" => "xs:time",
        "dateTime" => "xs:dateTime",
        "dt" => "xs:dayTimeDuration",
        "ym" => "xs:yearMonthDuration",
        _ => field,
    }
}

/// Each call with its answer.
pub fn all(cases: &[(&str, &str)]) {
    for (call, expected) in cases {
        assert_eq!(answer(call), *expected, "{call}");
    }
}

/// 0 for an accepted condition, else Open's number.
pub fn opened(condition: &str) -> u8 {
    accept(condition.as_bytes()).err().unwrap_or(0)
}

/// A condition at a line.
pub fn judged(condition: &str, line: &str) -> Result<bool, u8> {
    let fields: Vec<&[u8]> = line.split('\t').map(str::as_bytes).collect();
    holds(&accept(condition.as_bytes())?, &fields)
}
