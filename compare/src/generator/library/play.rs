//! Long random sessions: calls over values, most of them near a bound, and between them queries opened, served and
//! closed at one desk. Each session is played while it is written, so that its calls are about the desk as it then is.

use super::fields::{any_numbers, at_a_bound, digits, numbers_of, record};
use super::Case;
use crate::desk::LAST_TICKET;
use crate::generator::blanks::library::hex;
use crate::generator::blanks::{IN_A_FIELD, IN_DIGITS, IN_THE_REST};
use crate::generator::calls::{any_text, near};
use crate::generator::conditions::{any, fitting, Setting};
use crate::generator::damage::{damaged, noise};
use crate::generator::desks::{great_timetable, timetable, Timetable};
use crate::generator::random::Random;
use crate::generator::texts;
use crate::library::Session;
use crate::programs::MOST_CALLS_BYTES;
use crate::values::operations::subtract;
use crate::values::reading::read;
use crate::values::writing::write;
use crate::values::{most_duration_ticks, ticks_a_minute, ticks_a_second, Kind, Value, KINDS, MOST_DURATION_MONTHS};

pub fn case(seed: u64) -> Case {
    let random = &mut Random::new(seed);
    let setting = &Setting::any(random);
    let timetable = match random.below(100) {
        0 => Timetable::Missing,
        1 => Timetable::Folder,
        2..=5 => {
            let length = random.pick(&[65_535, 65_536]);
            Timetable::Bytes(great_timetable(random, setting, length))
        }
        _ => Timetable::Bytes(timetable(random, setting)),
    };
    let most = random.pick(&[5_000, 20_000, 40_000, MOST_CALLS_BYTES]);
    let calls = Player::new(random, setting, timetable.bytes()).play(most);
    Case { name: seed.to_string(), timetable, calls }
}

struct Player<'a> {
    random: &'a mut Random,
    setting: &'a Setting,
    session: Session<'a>,
    calls: Vec<u8>,
    /// A few good conditions, opened again and again.
    usual: Vec<String>,
}

impl<'a> Player<'a> {
    fn new(random: &'a mut Random, setting: &'a Setting, timetable: &'a [u8]) -> Player<'a> {
        let usual = (0..4).map(|_| fitting(random, setting, 0, 0)).collect();
        let session = Session::new(timetable).expect("a timetable within the most bytes");
        Player { random, setting, session, calls: Vec::new(), usual }
    }

    /// A session of at most so many bytes.
    fn play(mut self, most: usize) -> Vec<u8> {
        loop {
            let before = self.calls.len();
            self.step();
            if self.calls.len() > most {
                self.calls.truncate(before);
                return self.calls;
            }
        }
    }

    fn tell(&mut self, call: &[u8]) {
        self.session.answer(call);
        self.calls.extend(call);
        self.calls.push(b'\n');
    }

    fn step(&mut self) {
        if self.random.below(150) == 0 {
            return self.fill();
        }
        let call = match self.random.weighted(&[18, 12, 12, 7, 15, 13, 4, 3, 10]) {
            0 => maker(self.random),
            1 => record_call(self.random),
            2 => write_call(self.random),
            3 => bytes_call(self.random),
            4 => compare_call(self.random),
            5 => late_call(self.random),
            6 => self.open(),
            7 => self.close(),
            _ => b"turn".to_vec(),
        };
        let call = if self.random.chance(4) { malformed(self.random, &call) } else { call };
        self.tell(&call);
    }

    fn open(&mut self) -> Vec<u8> {
        let condition = match self.random.below(10) {
            0..=2 => any(self.random, self.setting),
            3 => fitting(self.random, self.setting, 0, 0).into_bytes(),
            _ => self.usual[self.random.below(self.usual.len())].clone().into_bytes(),
        };
        [b"open\t".as_slice(), &condition].concat()
    }

    /// Opens until all seats are held, or a little longer.
    fn fill(&mut self) {
        for _ in 0..self.random.between(12, 18) {
            let call = self.open();
            self.tell(&call);
        }
    }

    fn close(&mut self) -> Vec<u8> {
        let held: Vec<u32> = self.session.desk.seats.iter().filter(|seat| seat.held).map(|seat| seat.ticket).collect();
        let issued = self.session.desk.last_issued;
        let ticket = match self.random.below(8) {
            0 => self.random.pick(&[0, issued, issued + 1, LAST_TICKET, LAST_TICKET - 1, 1 << 31]),
            1 => self.random.below(issued as usize + 1) as u32,
            _ if held.is_empty() => issued,
            _ => self.random.pick(&held),
        };
        format!("close\t{}", digits(self.random, ticket as u64)).into_bytes()
    }
}

fn maker(random: &mut Random) -> Vec<u8> {
    let kind = random.pick(&KINDS);
    let numbers = any_numbers(random, kind);
    let (word, taken): (&str, &[usize]) = match kind {
        Kind::Date => ("date", &[0, 1, 2, 5]),
        Kind::Time => ("time", &[3, 4, 5]),
        Kind::DateTime => ("dateTime", &[0, 1, 2, 3, 4, 5]),
        Kind::DayTime => ("dayTime", &[0, 1]),
        Kind::YearMonth => ("yearMonth", &[0]),
    };
    let numbers: Vec<&str> = taken.iter().map(|&place| numbers[place].as_str()).collect();
    format!("{word}\t{}", numbers.join("\t")).into_bytes()
}

/// A room about as long as the text.
fn room(random: &mut Random, length: usize) -> String {
    let size = match random.below(10) {
        0..=2 => length,
        3 | 4 => length.saturating_sub(1),
        5 | 6 => length + 1,
        7 => random.pick(&[0, 1, 32, 34, 35, 36, 63, 64, 64, 65]),
        _ => random.below(65),
    };
    digits(random, size as u64)
}

fn record_call(random: &mut Random) -> Vec<u8> {
    let kind = random.pick(&KINDS);
    if random.chance(55) {
        let (_, value) = texts::good_value(random, kind);
        let room = room(random, write(&value).len());
        return format!("record\t{room}\t{}", record(kind, &numbers_of(&value))).into_bytes();
    }
    let numbers = any_numbers(random, kind);
    let room = room(random, 10);
    format!("record\t{room}\t{}", record(kind, &numbers)).into_bytes()
}

fn write_call(random: &mut Random) -> Vec<u8> {
    let kind = random.pick(&KINDS);
    let mut text = any_text(random, kind, 75);
    if random.chance(25) {
        text = IN_THE_REST.any(random, &text);
    }
    let length = read(kind, &text).map_or(10, |value| write(&value).len());
    let start = format!("write\t{}\t{}\t", kind.name(), room(random, length));
    [start.as_bytes(), &text].concat()
}

fn bytes_call(random: &mut Random) -> Vec<u8> {
    let kind = random.pick(&KINDS);
    let mut text = any_text(random, kind, 85);
    if random.chance(70) {
        text = IN_DIGITS.any(random, &text);
    }
    let length = read(kind, &text).map_or(10, |value| write(&value).len());
    let mut digits = hex(&text);
    match random.below(40) {
        0 => digits = digits.to_uppercase(),
        1 => drop(digits.pop()),
        2 => digits = "20".repeat(random.pick(&[255, 256, 257])),
        _ => {}
    }
    format!("bytes\t{}\t{}\t{digits}", kind.name(), room(random, length)).into_bytes()
}

/// The text with blanks, one time in eight.
fn perhaps_padded(random: &mut Random, text: Vec<u8>) -> Vec<u8> {
    if random.below(8) == 0 {
        return IN_A_FIELD.any(random, &text);
    }
    text
}

fn compare_call(random: &mut Random) -> Vec<u8> {
    let kind = random.pick(&KINDS);
    let (text, value) = texts::good_value(random, kind);
    let (other, mut numbers) = match random.weighted(&[60, 25, 15]) {
        0 => {
            let beside = near(random, &value);
            (kind, numbers_of(&read(kind, beside.as_bytes()).unwrap_or(value)))
        }
        1 => (kind, any_numbers(random, kind)),
        _ => {
            let other = random.pick(&KINDS);
            (other, any_numbers(random, other))
        }
    };
    if random.chance(8) {
        at_a_bound(random, other, &mut numbers);
    }
    let text = if random.chance(6) { any_text(random, kind, 0) } else { text.into_bytes() };
    let text = perhaps_padded(random, text);
    let record = record(other, &numbers);
    [b"compare", kind.name().as_bytes(), &text, record.as_bytes()].join(&b'\t')
}

/// Two values of a kind, and a duration that is often just their difference.
fn late_call(random: &mut Random) -> Vec<u8> {
    let kind = random.pick(&[Kind::Date, Kind::Time, Kind::DateTime, Kind::DayTime, Kind::DayTime, Kind::YearMonth]);
    let (first, value) = texts::good_value(random, kind);
    let second = match random.below(10) {
        0..=4 => near(random, &value),
        5 => far(random, &value),
        _ => texts::good(random, kind),
    };
    let apart = read(kind, second.as_bytes()).and_then(|later| subtract(&later, &value));
    let most = match apart {
        Ok(Value::DayTime(ticks)) if random.chance(75) => {
            let beside = random.pick(&[0, 0, 0, 1, -1, ticks_a_second(), -ticks_a_minute()]);
            texts::duration_text(random, Kind::DayTime, ticks + beside)
        }
        _ => texts::good(random, Kind::DayTime),
    };
    let mut fields = [first, second, most].map(String::into_bytes);
    if random.chance(8) {
        let place = random.below(3);
        fields[place] = any_text(random, if place == 2 { Kind::DayTime } else { kind }, 0);
    }
    let [first, second, most] = fields.map(|text| perhaps_padded(random, text));
    [b"late", kind.name().as_bytes(), &first, &second, &most].join(&b'\t')
}

/// A duration whose difference to the value stands at the kind's bound or just beside it.
fn far(random: &mut Random, value: &Value) -> String {
    let sign = random.pick(&[1, -1]);
    let beside = random.pick(&[0, 0, 1, -1]);
    let (number, bound) = match *value {
        Value::DayTime(ticks) => (ticks, most_duration_ticks()),
        Value::YearMonth(months) => (months, MOST_DURATION_MONTHS),
        _ => return texts::good(random, value.kind()),
    };
    texts::duration_text(random, value.kind(), (number + sign * bound + beside).clamp(-bound, bound))
}

/// A line that is no call, mostly.
fn malformed(random: &mut Random, call: &[u8]) -> Vec<u8> {
    let mut fields: Vec<Vec<u8>> = call.split(|&byte| byte == b'\t').map(<[u8]>::to_vec).collect();
    let place = random.below(fields.len());
    match random.below(8) {
        0 => drop(fields.remove(place)),
        1 => fields.insert(place, Vec::new()),
        2 => fields.push(noise(random)),
        3 => fields[0] = random.pick(&["Date", "", "dates", "open ", " turn", "bytes ", "read", "\r"]).as_bytes().to_vec(),
        4 => fields[place] = damaged(random, &fields[place].clone()),
        5 => fields[place] = random.pick(&["", "-", "+", "none", "65536", "-0", "xs:date", "1 "]).as_bytes().to_vec(),
        6 => return noise(random),
        _ => return Vec::new(),
    }
    fields.join(&b'\t')
}
