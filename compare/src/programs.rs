//! The programs as functions from bytes to bytes.

use crate::conditions::accept;
use crate::conditions::evaluation::holds;
use crate::desk::{Desk, Turn, MOST_TIMETABLE_BYTES};
use crate::lines::{fields, lines};
use crate::read_once::ReadOnce;
use crate::values::operations::{add, adjust, cast, compare, components, multiply, subtract, unzone};
use crate::values::reading::{number, read};
use crate::values::writing::write;
use crate::values::{Kind, Value};
use crate::{Refusal, NO_GRAMMAR};
use std::cmp::Ordering;

pub const MOST_CALLS_BYTES: usize = 65_536;
pub const MOST_CONDITIONS_BYTES: usize = 4_096;
pub const MOST_CASES_BYTES: usize = 4_096;

/// The calculator: an answer for each line of calls.
pub fn calculator(input: &[u8]) -> String {
    if input.len() > MOST_CALLS_BYTES {
        return refused(NO_GRAMMAR);
    }
    lines(input).into_iter().map(answer_line).collect()
}

pub fn answer_line(line: &[u8]) -> String {
    match answer(line) {
        Ok(text) => format!("{text}\n"),
        Err(refusal) => refused(refusal),
    }
}

pub fn refused(number: Refusal) -> String {
    format!("refused\t{number}\n")
}

fn answer(line: &[u8]) -> Result<String, Refusal> {
    match fields(line).as_slice() {
        [b"read", kind, text] => Ok(write(&read(named(kind)?, text)?)),
        [b"unzone", kind, text] => Ok(write(&unzone(&read(named(kind)?, text)?)?)),
        [b"components", kind, text] => Ok(components(&read(named(kind)?, text)?)),
        [b"compare", rest @ ..] => {
            let (first, second) = two_values(rest)?;
            Ok(order_word(compare(&first, &second)?).to_string())
        }
        [b"add", rest @ ..] => {
            let (first, second) = two_values(rest)?;
            Ok(write(&add(&first, &second)?))
        }
        [b"subtract", rest @ ..] => {
            let (first, second) = two_values(rest)?;
            Ok(write(&subtract(&first, &second)?))
        }
        [b"adjust", rest @ ..] => {
            let (first, second) = two_values(rest)?;
            Ok(write(&adjust(&first, &second)?))
        }
        [b"multiply", kind, text, factor] => {
            let (kind, factor) = (named(kind)?, whole_number(factor)?);
            Ok(write(&multiply(&read(kind, text)?, factor)?))
        }
        [b"cast", kind, text, to] => {
            let (kind, to) = (named(kind)?, named(to)?);
            Ok(write(&cast(&read(kind, text)?, to)?))
        }
        _ => Err(NO_GRAMMAR),
    }
}

pub(crate) fn named(name: &[u8]) -> Result<Kind, Refusal> {
    Kind::named(name).ok_or(NO_GRAMMAR)
}

/// Both kinds are named before either text is read.
fn two_values(rest: &[&[u8]]) -> Result<(Value, Value), Refusal> {
    let [first_kind, first, second_kind, second] = rest else {
        return Err(NO_GRAMMAR);
    };
    let (first_kind, second_kind) = (named(first_kind)?, named(second_kind)?);
    Ok((read(first_kind, first)?, read(second_kind, second)?))
}

/// An optional minus and at least one digit. However many digits there are, a number beyond the bounds stays beyond them.
fn whole_number(text: &[u8]) -> Result<i128, Refusal> {
    let (negative, digits) = match text.strip_prefix(b"-") {
        Some(digits) => (true, digits),
        None => (false, text),
    };
    if digits.is_empty() || !digits.iter().all(u8::is_ascii_digit) {
        return Err(NO_GRAMMAR);
    }
    Ok(if negative { -number(digits) } else { number(digits) })
}

pub(crate) fn order_word(order: Ordering) -> &'static str {
    match order {
        Ordering::Less => "lt",
        Ordering::Equal => "eq",
        Ordering::Greater => "gt",
    }
}

/// Judgements: the first field of each line is a condition, what follows its tab is the line that it is judged at, as
/// it stands: the second field of a run line is the word itself.
pub fn judgements(input: &[u8]) -> String {
    lines(&input[..input.len().min(MOST_CALLS_BYTES)]).into_iter().map(judged).collect()
}

fn judged(line: &[u8]) -> String {
    let (condition, at) = match line.iter().position(|&byte| byte == b'\t') {
        Some(tab) => (&line[..tab], &line[tab + 1..]),
        None => (line, &line[line.len()..]),
    };
    match accept(condition) {
        Err(number) => refused(number),
        Ok(tree) => match holds(&tree, &fields(at)) {
            Ok(true) => "hit\n".to_string(),
            Ok(false) => "miss\n".to_string(),
            Err(number) => format!("unreadable\t{number}\n"),
        },
    }
}

/// The desk program.
pub fn desk(timetable: &[u8], input: &[u8]) -> String {
    desk_by(Desk::fresh, Desk::open, Desk::serve, timetable, input)
}

/// The same with a desk that reads each condition's text once.
pub fn desk_read_once(timetable: &[u8], input: &[u8]) -> String {
    desk_by(ReadOnce::fresh, ReadOnce::open, ReadOnce::serve, timetable, input)
}

/// Opens the conditions in order, then takes turns until Idle, on a desk of any sort by its calls.
fn desk_by<D>(
    fresh: fn(usize) -> Result<D, Refusal>,
    open: fn(&mut D, &[u8]) -> Result<u32, Refusal>,
    serve: fn(&mut D, &[u8]) -> Turn,
    timetable: &[u8],
    input: &[u8],
) -> String {
    let mut desk = match fresh(timetable.len()) {
        Ok(desk) => desk,
        Err(number) => return refused(number),
    };
    if input.len() > MOST_CONDITIONS_BYTES {
        return refused(NO_GRAMMAR);
    }
    let mut output = String::new();
    for condition in lines(input) {
        output += &match open(&mut desk, condition) {
            Ok(ticket) => format!("open\t{ticket}\n"),
            Err(number) => refused(number),
        };
    }
    loop {
        let turn = serve(&mut desk, timetable);
        output += &turn_line(turn);
        if turn == Turn::Idle {
            return output;
        }
    }
}

/// Runs of the desk program: each line names a timetable and a file of conditions, and `start_of` hands out the first bytes of
/// the file of a name.
pub fn desk_runs(cases: &[u8], start_of: impl Fn(&[u8], usize) -> Vec<u8>) -> Vec<u8> {
    let mut output = Vec::new();
    for line in lines(&cases[..cases.len().min(MOST_CASES_BYTES)]) {
        let names = fields(line);
        let timetable = start_of(names[0], MOST_TIMETABLE_BYTES + 1);
        let conditions = start_of(names.get(1).unwrap_or(&b"".as_slice()), MOST_CONDITIONS_BYTES + 1);
        output.extend([b"case\t".as_slice(), line, b"\n", desk(&timetable, &conditions).as_bytes()].concat());
    }
    output
}

/// The line that tells a turn's answer.
pub fn turn_line(turn: Turn) -> String {
    match turn {
        Turn::Hit { ticket, offset, place } => format!("hit\t{ticket}\t{offset}\t{place}\n"),
        Turn::Miss { ticket, offset, place } => format!("miss\t{ticket}\t{offset}\t{place}\n"),
        Turn::Unreadable { ticket, offset, number } => format!("unreadable\t{ticket}\t{offset}\t{number}\n"),
        Turn::Done { ticket, hits, unreadable } => format!("done\t{ticket}\t{hits}\t{unreadable}\n"),
        Turn::Idle => "idle\n".to_string(),
    }
}
