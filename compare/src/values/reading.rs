//! From text to value: the blanks round it go first, then comes the shape of what is left, then the checks of document 01,
//! "Reading text", in its order.

use super::calendar::{days_from_civil, month_length, Civil};
use super::ticks::fraction_digits;
use super::*;
use crate::{Refusal, LONG_FRACTION, NO_SHAPE, READ_BEYOND_BOUNDS};

pub fn read(kind: Kind, text: &[u8]) -> Result<Value, Refusal> {
    let text = stripped(text);
    match kind {
        Kind::Date => read_date(text),
        Kind::Time => read_time(text),
        Kind::DateTime => read_date_time(text),
        Kind::DayTime => read_day_time(text),
        Kind::YearMonth => read_year_month(text),
    }
}

/// The text without the blanks before and after it (document 02, letter a); of blanks only, nothing.
pub fn stripped(text: &[u8]) -> &[u8] {
    let first = text.iter().position(|&byte| !is_blank(byte)).unwrap_or(text.len());
    let end = text.iter().rposition(|&byte| !is_blank(byte)).map_or(first, |last| last + 1);
    &text[first..end]
}

/// The bytes 9, 10, 13 and 32. Rust's own white space has byte 12 too.
fn is_blank(byte: u8) -> bool {
    matches!(byte, b'\t' | b'\n' | b'\r' | b' ')
}

fn read_date(text: &[u8]) -> Result<Value, Refusal> {
    let mut cursor = Cursor { rest: text };
    let (date, zone) = (|| Some((cursor.date()?, cursor.zone_to_end()?)))().ok_or(NO_SHAPE)?;
    date.check_year()?;
    let day = date.day_number()?;
    Ok(Value::Date { day, zone: zone.check()? })
}

fn read_time(text: &[u8]) -> Result<Value, Refusal> {
    let mut cursor = Cursor { rest: text };
    let (clock, zone) = (|| Some((cursor.clock()?, cursor.zone_to_end()?)))().ok_or(NO_SHAPE)?;
    check_fraction(clock.fraction)?;
    let tick = clock.ticks()? % ticks_a_day();
    Ok(Value::Time { tick, zone: zone.check()? })
}

fn read_date_time(text: &[u8]) -> Result<Value, Refusal> {
    let mut cursor = Cursor { rest: text };
    let shape = (|| {
        let date = cursor.date()?;
        cursor.expect(b'T')?;
        Some((date, cursor.clock()?, cursor.zone_to_end()?))
    })();
    let (date, clock, zone) = shape.ok_or(NO_SHAPE)?;
    check_fraction(clock.fraction)?;
    date.check_year()?;
    let tick = date.day_number()? as i128 * ticks_a_day() + clock.ticks()?;
    let zone = zone.check()?;
    Value::date_time_within_bounds(tick, zone).ok_or(READ_BEYOND_BOUNDS)
}

fn read_day_time(text: &[u8]) -> Result<Value, Refusal> {
    let shape = day_time_shape(text).ok_or(NO_SHAPE)?;
    check_fraction(shape.fraction)?;
    let magnitude = number(shape.days) * ticks_a_day()
        + number(shape.hours) * ticks_an_hour()
        + number(shape.minutes) * ticks_a_minute()
        + number(shape.seconds) * ticks_a_second()
        + fraction_ticks(shape.fraction);
    Value::day_time_within_bounds(signed(shape.negative, magnitude)).ok_or(READ_BEYOND_BOUNDS)
}

fn read_year_month(text: &[u8]) -> Result<Value, Refusal> {
    let (negative, years, months) = year_month_shape(text).ok_or(NO_SHAPE)?;
    let magnitude = number(years) * 12 + number(months);
    Value::year_month_within_bounds(signed(negative, magnitude)).ok_or(READ_BEYOND_BOUNDS)
}

fn check_fraction(digits: &[u8]) -> Result<(), Refusal> {
    if digits.len() > fraction_digits() {
        return Err(LONG_FRACTION);
    }
    Ok(())
}

fn signed(negative: bool, magnitude: i128) -> i128 {
    if negative {
        -magnitude
    } else {
        magnitude
    }
}

/// The number that a run of digits writes. A run may have any length; a number of more than 20 digits is far beyond
/// every bound, and 10^20 stands for all of them: days so many are still no more ticks than an i128 holds.
pub fn number(digits: &[u8]) -> i128 {
    const GREAT: usize = 20;
    let zeros = digits.iter().take_while(|&&digit| digit == b'0').count();
    let significant = &digits[zeros..];
    if significant.len() > GREAT {
        return 10_i128.pow(GREAT as u32);
    }
    significant.iter().fold(0, |sum, &digit| sum * 10 + (digit - b'0') as i128)
}

fn fraction_ticks(digits: &[u8]) -> i128 {
    let missing = fraction_digits() - digits.len();
    number(digits) * 10_i128.pow(missing as u32)
}

struct DateShape<'a> {
    negative: bool,
    year: &'a [u8],
    month: i64,
    day: i64,
}

impl DateShape<'_> {
    fn check_year(&self) -> Result<(), Refusal> {
        if self.negative || number(self.year) > LAST_YEAR as i128 {
            return Err(READ_BEYOND_BOUNDS);
        }
        Ok(())
    }

    /// After `check_year`.
    fn day_number(&self) -> Result<i64, Refusal> {
        let year = number(self.year) as i64;
        if !(1..=12).contains(&self.month) || !(1..=month_length(year, self.month)).contains(&self.day) {
            return Err(NO_SHAPE);
        }
        Ok(days_from_civil(Civil { year, month: self.month, day: self.day }))
    }
}

struct ClockShape<'a> {
    hour: i64,
    minute: i64,
    second: i64,
    fraction: &'a [u8],
}

impl ClockShape<'_> {
    /// Ticks from 00:00:00, a whole day for 24:00:00. After `check_fraction`.
    fn ticks(&self) -> Result<i128, Refusal> {
        let fraction = fraction_ticks(self.fraction);
        let rest = self.minute as i128 * ticks_a_minute() + self.second as i128 * ticks_a_second() + fraction;
        if self.minute > 59 || self.second > 59 || self.hour > 24 || (self.hour == 24 && rest > 0) {
            return Err(NO_SHAPE);
        }
        Ok(self.hour as i128 * ticks_an_hour() + rest)
    }
}

enum ZoneShape {
    Absent,
    Utc,
    Offset { west: bool, hours: i64, minutes: i64 },
}

impl ZoneShape {
    fn check(&self) -> Result<Zone, Refusal> {
        match *self {
            ZoneShape::Absent => Ok(None),
            ZoneShape::Utc => Ok(Some(0)),
            ZoneShape::Offset { west, hours, minutes } => {
                let total = hours * 60 + minutes;
                if minutes > 59 || total > MOST_ZONE_MINUTES {
                    return Err(NO_SHAPE);
                }
                Ok(Some(if west { -total } else { total }))
            }
        }
    }
}

/// Components that a text does not have are empty runs of digits.
#[derive(Default)]
struct DayTimeShape<'a> {
    negative: bool,
    days: &'a [u8],
    hours: &'a [u8],
    minutes: &'a [u8],
    seconds: &'a [u8],
    fraction: &'a [u8],
}

fn day_time_shape(text: &[u8]) -> Option<DayTimeShape<'_>> {
    let mut cursor = Cursor { rest: text };
    let mut shape = DayTimeShape { negative: cursor.accept(b'-'), ..Default::default() };
    cursor.expect(b'P')?;
    if !cursor.at_end() && !cursor.stands_at(b'T') {
        shape.days = cursor.component(b'D')?;
    }
    if cursor.accept(b'T') {
        shape.clock_components(&mut cursor)?;
    }
    let any = !shape.days.is_empty() || !shape.hours.is_empty() || !shape.minutes.is_empty() || !shape.seconds.is_empty();
    (any && cursor.at_end()).then_some(shape)
}

impl<'a> DayTimeShape<'a> {
    /// What stands after T: at least one of H, M and S, in this order.
    fn clock_components(&mut self, cursor: &mut Cursor<'a>) -> Option<()> {
        let mut left: &[u8] = b"HMS";
        loop {
            let digits = cursor.some_digits()?;
            if cursor.accept(b'.') {
                self.fraction = cursor.some_digits()?;
                if !cursor.stands_at(b'S') {
                    return None;
                }
            }
            let letter = cursor.byte()?;
            let place = left.iter().position(|&other| other == letter)?;
            match letter {
                b'H' => self.hours = digits,
                b'M' => self.minutes = digits,
                _ => self.seconds = digits,
            }
            left = &left[place + 1..];
            if cursor.at_end() {
                return Some(());
            }
        }
    }
}

fn year_month_shape(text: &[u8]) -> Option<(bool, &[u8], &[u8])> {
    let mut cursor = Cursor { rest: text };
    let negative = cursor.accept(b'-');
    cursor.expect(b'P')?;
    let first = cursor.some_digits()?;
    match cursor.byte()? {
        b'M' => cursor.at_end().then_some((negative, b"", first)),
        b'Y' if cursor.at_end() => Some((negative, first, b"")),
        b'Y' => {
            let months = cursor.component(b'M')?;
            cursor.at_end().then_some((negative, first, months))
        }
        _ => None,
    }
}

struct Cursor<'a> {
    rest: &'a [u8],
}

impl<'a> Cursor<'a> {
    fn at_end(&self) -> bool {
        self.rest.is_empty()
    }

    fn stands_at(&self, byte: u8) -> bool {
        self.rest.first() == Some(&byte)
    }

    fn byte(&mut self) -> Option<u8> {
        let (&first, rest) = self.rest.split_first()?;
        self.rest = rest;
        Some(first)
    }

    fn accept(&mut self, byte: u8) -> bool {
        let found = self.stands_at(byte);
        if found {
            self.rest = &self.rest[1..];
        }
        found
    }

    fn expect(&mut self, byte: u8) -> Option<()> {
        self.accept(byte).then_some(())
    }

    /// The longest run of digits here, which may be empty.
    fn digits(&mut self) -> &'a [u8] {
        let count = self.rest.iter().take_while(|byte| byte.is_ascii_digit()).count();
        let (run, rest) = self.rest.split_at(count);
        self.rest = rest;
        run
    }

    fn some_digits(&mut self) -> Option<&'a [u8]> {
        let run = self.digits();
        (!run.is_empty()).then_some(run)
    }

    fn component(&mut self, letter: u8) -> Option<&'a [u8]> {
        let run = self.some_digits()?;
        self.expect(letter)?;
        Some(run)
    }

    fn two_digits(&mut self) -> Option<i64> {
        let run = self.digits();
        (run.len() == 2).then(|| number(run) as i64)
    }

    fn year(&mut self) -> Option<&'a [u8]> {
        let run = self.digits();
        let shaped = run.len() >= 4 && (run.len() == 4 || run[0] != b'0') && run != b"0000";
        shaped.then_some(run)
    }

    fn date(&mut self) -> Option<DateShape<'a>> {
        let negative = self.accept(b'-');
        let year = self.year()?;
        self.expect(b'-')?;
        let month = self.two_digits()?;
        self.expect(b'-')?;
        let day = self.two_digits()?;
        Some(DateShape { negative, year, month, day })
    }

    fn clock(&mut self) -> Option<ClockShape<'a>> {
        let hour = self.two_digits()?;
        self.expect(b':')?;
        let minute = self.two_digits()?;
        self.expect(b':')?;
        let second = self.two_digits()?;
        let fraction = if self.accept(b'.') { self.some_digits()? } else { b"" };
        Some(ClockShape { hour, minute, second, fraction })
    }

    /// The zone, if there is one, with which the text has to end.
    fn zone_to_end(&mut self) -> Option<ZoneShape> {
        if self.at_end() {
            return Some(ZoneShape::Absent);
        }
        let zone = match self.byte()? {
            b'Z' => ZoneShape::Utc,
            sign @ (b'+' | b'-') => {
                let hours = self.two_digits()?;
                self.expect(b':')?;
                let minutes = self.two_digits()?;
                ZoneShape::Offset { west: sign == b'-', hours, minutes }
            }
            _ => return None,
        };
        self.at_end().then_some(zone)
    }
}
