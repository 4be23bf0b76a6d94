//! docs/LINES.md, "Library example": makers, records that no maker has seen, lent rooms and one desk, a call a line.

use crate::desk::{Desk, LAST_TICKET};
use crate::hostile::UNWRITTEN;
use crate::lines::{fields, lines, number, parted};
use crate::programs::{named, order_word, refused, turn_line, MOST_CALLS_BYTES};
use crate::values::calendar::{civil_from_days, Civil};
use crate::values::operations::{compare, subtract, REFERENCE_DAY};
use crate::values::reading::read;
use crate::values::records::{Clock, Record, Signed};
use crate::values::writing::write;
use crate::values::{Kind, Value};
use crate::{Refusal, NO_GRAMMAR, NO_ROOM};
use std::cmp::Ordering;

pub const MOST_ROOM: usize = 64;
pub const MOST_HEX_DIGITS: usize = 512;
const MOST_YEAR: usize = 65_535;
const MOST_MONTH_OR_DAY: usize = 255;
/// Of a time of day.
const MOST_SECOND: usize = 4_294_967_295;
const MOST_NANO: usize = 4_294_967_295;
/// Of a dayTimeDuration.
const MOST_SECONDS: usize = 18_446_744_073_709_551_615;
const MOST_MONTHS: usize = 4_294_967_295;
const MOST_MINUTES: usize = 65_535;

/// The program: an answer for each call.
pub fn library_example(timetable: &[u8], input: &[u8]) -> String {
    let mut session = match Session::new(timetable) {
        Ok(session) => session,
        Err(number) => return refused(number),
    };
    if input.len() > MOST_CALLS_BYTES {
        return refused(NO_GRAMMAR);
    }
    lines(input).into_iter().map(|line| session.answer(line)).collect()
}

/// What is kept from call to call.
#[derive(Clone)]
pub struct Session<'a> {
    pub timetable: &'a [u8],
    pub desk: Desk,
}

impl<'a> Session<'a> {
    pub fn new(timetable: &'a [u8]) -> Result<Session<'a>, Refusal> {
        Ok(Session { timetable, desk: Desk::fresh(timetable.len())? })
    }

    pub fn answer(&mut self, line: &[u8]) -> String {
        self.call(line).unwrap_or_else(refused)
    }

    fn call(&mut self, line: &[u8]) -> Result<String, Refusal> {
        match parted(line) {
            (b"turn", None) => Ok(turn_line(self.desk.turn(self.timetable)?)),
            (b"open", Some(text)) => Ok(format!("open\t{}\n", self.desk.open(text)?)),
            (b"close", Some(text)) => {
                self.desk.close(number(text, LAST_TICKET as usize)? as u32)?;
                Ok("closed\n".to_string())
            }
            (b"write", Some(rest)) => write_call(rest),
            (word, Some(rest)) => call_over_values(word, &fields(rest)),
            _ => Err(NO_GRAMMAR),
        }
    }
}

/// The calls that the desk has no part in and whose fields hold no tabs.
fn call_over_values(word: &[u8], rest: &[&[u8]]) -> Result<String, Refusal> {
    match (word, rest) {
        (b"date", [year, month, day, zone]) => made(moment(Kind::Date, [year, month, day, b"0", b"0", zone])?),
        (b"time", [second, nano, zone]) => made(time(second, nano, zone)?),
        (b"dateTime", &[year, month, day, second, nano, zone]) => {
            made(moment(Kind::DateTime, [year, month, day, second, nano, zone])?)
        }
        (b"dayTime", [span, nano]) => made(day_time(span, nano)?),
        (b"yearMonth", [span]) => made(Record::YearMonth(signed(span, MOST_MONTHS)?)),
        (b"record", [room, rest @ ..]) => {
            let (size, record) = (number(room, MOST_ROOM)?, record(rest)?);
            Ok(room_line(record.value(), size))
        }
        (b"bytes", [kind, room, hex]) => written(kind, room, &named_bytes(hex)?),
        (b"compare", [kind, text, rest @ ..]) => {
            let (kind, record) = (named(kind)?, record(rest)?);
            let left = read(kind, text)?;
            Ok(format!("{}\n", order_word(compare(&left, &record.value()?)?)))
        }
        (b"late", [kind, first, second, most]) => late(named(kind)?, first, second, most),
        _ => Err(NO_GRAMMAR),
    }
}

/// What a maker answers for these numbers.
fn made(record: Record) -> Result<String, Refusal> {
    Ok(format!("{}\n", write(&record.value()?)))
}

fn late(kind: Kind, first: &[u8], second: &[u8], most: &[u8]) -> Result<String, Refusal> {
    let (first, second, most) = (read(kind, first)?, read(kind, second)?, read(Kind::DayTime, most)?);
    let order = compare(&subtract(&second, &first)?, &most)?;
    Ok(if order == Ordering::Greater { "yes\n" } else { "no\n" }.to_string())
}

/// The fields of `write`: the last one may hold tabs.
fn write_call(rest: &[u8]) -> Result<String, Refusal> {
    let (kind, rest) = parted(rest);
    let (room, text) = parted(rest.ok_or(NO_GRAMMAR)?);
    written(kind, room, text.ok_or(NO_GRAMMAR)?)
}

/// What the text reads as, written into a room.
fn written(kind: &[u8], room: &[u8], text: &[u8]) -> Result<String, Refusal> {
    let (kind, size) = (named(kind)?, number(room, MOST_ROOM)?);
    Ok(room_line(Ok(read(kind, text)?), size))
}

/// The bytes that the digits name, two digits a byte.
pub fn named_bytes(hex: &[u8]) -> Result<Vec<u8>, Refusal> {
    let pairs = hex.chunks_exact(2);
    if hex.len() > MOST_HEX_DIGITS || !pairs.remainder().is_empty() {
        return Err(NO_GRAMMAR);
    }
    pairs.map(|pair| Ok(hex_digit(pair[0])? * 16 + hex_digit(pair[1])?)).collect()
}

fn hex_digit(digit: u8) -> Result<u8, Refusal> {
    match digit {
        b'0'..=b'9' => Ok(digit - b'0'),
        b'a'..=b'f' => Ok(digit - b'a' + 10),
        _ => Err(NO_GRAMMAR),
    }
}

/// The answer and, refused or not, the room as it then is.
fn room_line(value: Result<Value, Refusal>, size: usize) -> String {
    let mut room = vec![UNWRITTEN; size];
    let answer = match value.and_then(|value| write_into(&value, &mut room)) {
        Ok(count) => format!("wrote\t{count}"),
        Err(number) => format!("refused\t{number}"),
    };
    format!("{answer}\t{}\n", String::from_utf8_lossy(&room))
}

/// Writes the value's text at the room's start and gives the count of its bytes.
fn write_into(value: &Value, room: &mut [u8]) -> Result<usize, Refusal> {
    let text = write(value);
    room.get_mut(..text.len()).ok_or(NO_ROOM)?.copy_from_slice(text.as_bytes());
    Ok(text.len())
}

/// A kind's name and the numbers of its record.
fn record(rest: &[&[u8]]) -> Result<Record, Refusal> {
    let (kind, numbers) = rest.split_first().ok_or(NO_GRAMMAR)?;
    match (named(kind)?, numbers) {
        (Kind::DayTime, [span, nano]) => day_time(span, nano),
        (Kind::YearMonth, [span]) => Ok(Record::YearMonth(signed(span, MOST_MONTHS)?)),
        (kind @ (Kind::Date | Kind::Time | Kind::DateTime), &[year, month, day, second, nano, zone]) => {
            moment(kind, [year, month, day, second, nano, zone])
        }
        _ => Err(NO_GRAMMAR),
    }
}

fn moment(kind: Kind, [year, month, day, second, nano, offset]: [&[u8]; 6]) -> Result<Record, Refusal> {
    let date = Civil {
        year: number(year, MOST_YEAR)? as i64,
        month: number(month, MOST_MONTH_OR_DAY)? as i64,
        day: number(day, MOST_MONTH_OR_DAY)? as i64,
    };
    Ok(Record::Moment { kind, date, clock: clock(second, nano)?, zone: zone(offset)? })
}

fn time(second: &[u8], nano: &[u8], offset: &[u8]) -> Result<Record, Refusal> {
    let date = civil_from_days(REFERENCE_DAY as i64);
    Ok(Record::Moment { kind: Kind::Time, date, clock: clock(second, nano)?, zone: zone(offset)? })
}

fn clock(second: &[u8], nano: &[u8]) -> Result<Clock, Refusal> {
    Ok(Clock { second: number(second, MOST_SECOND)? as i128, nano: number(nano, MOST_NANO)? as i128 })
}

/// The sign before the seconds is that of the nanoseconds too.
fn day_time(span: &[u8], nano: &[u8]) -> Result<Record, Refusal> {
    let Signed { minus, magnitude } = signed(span, MOST_SECONDS)?;
    Ok(Record::DayTime { minus, size: Clock { second: magnitude, nano: number(nano, MOST_NANO)? as i128 } })
}

fn zone(text: &[u8]) -> Result<Option<Signed>, Refusal> {
    if text == b"none" {
        return Ok(None);
    }
    Ok(Some(signed(text, MOST_MINUTES)?))
}

/// A plus or a minus and directly after it the digits.
fn signed(text: &[u8], most: usize) -> Result<Signed, Refusal> {
    let (minus, digits) = match text.split_first() {
        Some((b'+', digits)) => (false, digits),
        Some((b'-', digits)) => (true, digits),
        _ => return Err(NO_GRAMMAR),
    };
    Ok(Signed { minus, magnitude: number(digits, most)? as i128 })
}
