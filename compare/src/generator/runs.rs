//! Lines that stand for runs of departures, good ones of every length and all that can be wrong with them, and
//! conditions that look at their occurrences.

use super::blanks::IN_A_FIELD;
use super::calls::{any_text, near};
use super::conditions::Setting;
use super::cycle;
use super::damage::noise;
use super::random::Random;
use super::texts;
use crate::runs::Run;
pub use crate::runs::MOST_OCCURRENCES as MOST;
use crate::values::calendar::DAYS_IN_400_YEARS;
use crate::values::operations::{add, cast};
use crate::values::reading::read;
use crate::values::ticks::fraction_digits;
use crate::values::writing::write;
use crate::values::{first_day, last_day, most_duration_ticks, ticks_a_day, ticks_a_minute, ticks_a_second};
use crate::values::{Kind, Value, Zone, KINDS, MOST_DURATION_SECONDS};

/// Steps in seconds with ticks more or less, from the smallest to the greatest that a text can have.
const STEPS: &[(i128, i128)] = &[
    (0, 1),
    (0, 1),
    (0, 2),
    (0, 999),
    (0, 1_000),
    (0, 250_000),
    (1, -1),
    (1, 0),
    (1, 1),
    (60, 0),
    (60, 0),
    (60, 1),
    (70, 100_000),
    (600, 0),
    (600, 0),
    (600, 0),
    (900, 0),
    (3_600, 0),
    (3_600, 0),
    (50_400, 0),
    (86_400, -1),
    (86_400, 0),
    (86_400, 0),
    (86_400, 1),
    (90_061, 1),
    (604_800, 0),
    (365 * 86_400, 0),
    (366 * 86_400, 0),
    (1_461 * 86_400, 0),
    (2_537 * 86_400, 0),
    (36_524 * 86_400, 0),
    (DAYS_IN_400_YEARS as i128 * 86_400, 0),
    (MOST_DURATION_SECONDS / 10, 0),
    (MOST_DURATION_SECONDS, -1),
    (MOST_DURATION_SECONDS, 0),
];

/// So many seconds and ticks.
fn span((seconds, ticks): (i128, i128)) -> i128 {
    seconds * ticks_a_second() + ticks
}

fn any_step(random: &mut Random) -> i128 {
    span(random.pick(STEPS))
}

/// Second fields that are not the word, and so make the line a plain one.
const OTHER_WORDS: &[&str] = &[
    " every",
    "every ",
    " every ",
    "\revery",
    "Every",
    "EVERY",
    "every\r",
    "ever",
    "everyy",
    "e very",
    "\"every\"",
    "every\0",
    "",
    "\u{feff}every",
];

/// A dateTime that the runs of a case lie about: often near the first or the last of the calendar or a day of its cycle.
pub(super) fn middle(random: &mut Random) -> Value {
    let (_, value) = texts::good_value(random, Kind::DateTime);
    let Value::DateTime { tick, zone } = value else {
        return value;
    };
    let minutes = random.between(0, 40 * 60) as i128 * ticks_a_minute();
    match random.below(10) {
        0 => Value::DateTime { tick: calendar_start() + minutes, zone },
        1 | 2 => Value::DateTime { tick: calendar_end() - ticks_a_minute() - minutes, zone },
        3 | 4 => {
            let next_day = (cycle::day(random) + 1) as i128 * ticks_a_day();
            Value::DateTime { tick: calendar_start().max(next_day - ticks_a_minute() - minutes), zone }
        }
        5..=7 => Value::DateTime { tick: tick - tick.rem_euclid(ticks_a_minute()), zone },
        _ => value,
    }
}

pub(super) fn step_text(random: &mut Random) -> String {
    loop {
        let step = any_step(random);
        let text = texts::duration_text(random, Kind::DayTime, step);
        if text.len() <= 35 {
            return text;
        }
    }
}

/// The first tick that a local dateTime has.
fn calendar_start() -> i128 {
    first_day() as i128 * ticks_a_day()
}

/// The first tick of year 10000.
fn calendar_end() -> i128 {
    (last_day() as i128 + 1) * ticks_a_day()
}

/// A line of at most so many occurrences as the setting allows, without its newline.
pub fn line(random: &mut Random, setting: &Setting) -> Vec<u8> {
    loop {
        let line = any_line(random, setting);
        let fields: Vec<&[u8]> = line.split(|&byte| byte == b'\t').collect();
        let run = Run::of(&fields);
        if !matches!(run, Ok(Some(run)) if run.count > setting.most_occurrences) {
            return line;
        }
    }
}

fn any_line(random: &mut Random, setting: &Setting) -> Vec<u8> {
    if random.chance(6) {
        return noted(random.pick(NOTED).0);
    }
    let texts = match random.weighted(&[46, 11, 8, 8, 13, 8, 6]) {
        0 => good(random, setting),
        1 => empty(random, setting),
        2 => step_not_above_zero(random, setting),
        3 => too_many(random, setting),
        4 => at_the_end(random),
        5 => bad_text(random, setting),
        _ => at_the_start(random),
    };
    let [first, last, step] = if random.chance(20) { with_blanks(random, texts) } else { texts };
    let word = if random.chance(6) { random.pick(OTHER_WORDS) } else { "every" };
    let mut fields = vec![texts::good(random, setting.columns[0]).into_bytes(), word.into(), first, last, step];
    if random.chance(4) {
        fields[0] = b"every".to_vec();
    }
    if random.chance(7) {
        fields.truncate(random.between(2, 4) as usize);
        fields.extend(random.chance(25).then(Vec::new));
        return fields.join(&b'\t');
    }
    if random.chance(60) {
        fields.extend(setting.columns[5..].iter().map(|&kind| any_text(random, kind, 85)));
    }
    if random.chance(8) {
        fields.push(noise(random));
    }
    let mut line = fields.join(&b'\t');
    if random.chance(3) {
        line.push(b'\r');
    }
    line
}

type Texts = [Vec<u8>; 3];

/// The three texts with blanks round one of them or more; now and then they spoil it.
fn with_blanks(random: &mut Random, mut texts: Texts) -> Texts {
    let always = random.below(3);
    for (place, text) in texts.iter_mut().enumerate() {
        if place == always || random.chance(40) {
            *text = if random.chance(30) { IN_A_FIELD.any(random, text) } else { IN_A_FIELD.round(random, text) };
        }
    }
    texts
}

/// The first occurrence as local ticks with its zone, and a step.
fn beginning(random: &mut Random, setting: &Setting) -> (i128, Zone, i128) {
    let text = if random.chance(75) { setting.pooled(random, Kind::DateTime) } else { texts::good(random, Kind::DateTime) };
    let (tick, zone) = match read(Kind::DateTime, text.as_bytes()) {
        Ok(Value::DateTime { tick, zone }) => (tick, zone),
        _ => (0, None),
    };
    let pooled = setting.pooled(random, Kind::DayTime);
    let step = match read(Kind::DayTime, pooled.as_bytes()) {
        Ok(Value::DayTime(step)) if step > 0 && random.chance(60) => step,
        _ => any_step(random),
    };
    (tick, zone, step)
}

/// The three texts of a run whose last instant is so far after its first; none where a year has no text.
fn texts_of(random: &mut Random, tick: i128, zone: Zone, apart: i128, step: i128) -> Option<Texts> {
    let instant = tick - minutes(zone) + apart;
    let last = (0..8).find_map(|_| {
        let other = match random.below(10) {
            0..=3 => zone,
            4 | 5 => None,
            6 => Some(random.pick(&[-840, 840, 0, 60, -1, 1])),
            _ => Some(random.between(-840, 840)),
        };
        form(random, instant + minutes(other), other)
    })?;
    let first = form(random, tick, zone)?;
    Some([first, last, texts::duration_text(random, Kind::DayTime, step)].map(String::into_bytes))
}

fn minutes(zone: Zone) -> i128 {
    zone.unwrap_or(0) as i128 * ticks_a_minute()
}

/// One of the many texts of a dateTime: midnight as 24:00:00 of the day before, fractions with final zeros, and zone 0
/// in each of its forms.
fn form(random: &mut Random, tick: i128, zone: Zone) -> Option<String> {
    let value = Value::date_time_within_bounds(tick, None)?;
    let mut text = write(&value);
    let day = tick.div_euclid(ticks_a_day());
    if tick.rem_euclid(ticks_a_day()) == 0 && random.chance(50) {
        if let Some(before) = Value::date_within_bounds(day - 1, None) {
            text = format!("{}T24:00:00", write(&before));
        }
    }
    if random.chance(10) {
        let most = fraction_digits();
        let there = if text.contains('.') { text.rsplit('.').next().map_or(0, str::len) } else { 0 };
        let missing = if random.chance(50) { most - there } else { random.below(most - there + 1) };
        let point = if text.contains('.') || missing == 0 { "" } else { "." };
        text += &format!("{point}{}", "0".repeat(missing));
    }
    match zone {
        None => {}
        Some(0) => text += random.pick(&["Z", "Z", "+00:00", "-00:00"]),
        Some(minutes) => {
            let sign = if minutes < 0 { '-' } else { '+' };
            text += &format!("{sign}{:02}:{:02}", minutes.abs() / 60, minutes.abs() % 60);
        }
    }
    Some(text)
}

/// Tries until a run has its texts.
fn tried(random: &mut Random, mut attempt: impl FnMut(&mut Random) -> Option<Texts>) -> Texts {
    loop {
        if let Some(texts) = attempt(random) {
            return texts;
        }
    }
}

/// A run of a wanted number of occurrences, its last instant at the last occurrence or somewhere before the next.
fn good(random: &mut Random, setting: &Setting) -> Texts {
    let most = setting.most_occurrences as i64;
    let long = if most > 100 { 60 } else { 20 };
    let count = match random.weighted(&[12, 12, 40, long, long]) {
        0 => 1,
        1 => 2,
        2 => random.between(2, most.min(8)),
        3 => random.between(2, most),
        _ => random.pick(&[most, most - 1]),
    };
    tried(random, |random| {
        let (tick, zone, step) = beginning(random, setting);
        let slack = random.pick(&[0, 0, 0, 1, step / 2, step - 1]).min(step - 1);
        texts_of(random, tick, zone, (count - 1) as i128 * step + slack, step)
    })
}

fn empty(random: &mut Random, setting: &Setting) -> Texts {
    tried(random, |random| {
        let (tick, zone, step) = beginning(random, setting);
        let before = random.pick(&[1, 1, ticks_a_second(), ticks_a_minute(), span((28 * 3_600, 0)), 365 * ticks_a_day(), step]);
        texts_of(random, tick, zone, -before, step)
    })
}

/// A step of zero or below, last before first as often as not.
fn step_not_above_zero(random: &mut Random, setting: &Setting) -> Texts {
    tried(random, |random| {
        let (tick, zone, step) = beginning(random, setting);
        let apart = random.pick(&[0, 1, -1, ticks_a_minute(), -ticks_a_minute(), 10 * step, -10 * step, -365 * ticks_a_day()]);
        let step = random.pick(&[0, 0, -1, -1, 1 - ticks_a_second(), -step, -ticks_a_minute(), -most_duration_ticks()]);
        texts_of(random, tick, zone, apart, step)
    })
}

/// 1,441 occurrences, the one that is too many just there, or many more; and just not so many.
fn too_many(random: &mut Random, setting: &Setting) -> Texts {
    tried(random, |random| {
        let (tick, zone, step) = beginning(random, setting);
        let full = MOST as i128 * step;
        let apart = match random.below(8) {
            0..=2 => full,
            3 => full + 1,
            4 => full - 1,
            5 => full + step,
            6 => full * random.between(2, 1_000) as i128,
            _ => {
                let small = random.between(1, 1_000) as i128;
                return texts_of(random, tick, zone, 366 * ticks_a_day(), small);
            }
        };
        texts_of(random, tick, zone, apart, step)
    })
}

/// Zones far apart, the first as often as not the one more to the east.
fn two_zones(random: &mut Random) -> (Zone, Zone) {
    let east = random.pick(&[Some(840), Some(840), Some(839), Some(60), Some(0), None, Some(1)]);
    let west = random.pick(&[Some(-840), Some(-840), Some(-839), Some(-60), Some(0), None, Some(-1)]);
    if random.chance(85) {
        (east, west)
    } else {
        (west, east)
    }
}

/// First and last just before year 10000, each in its own zone, so that occurrences may pass it or come near.
fn at_the_end(random: &mut Random) -> Texts {
    const BEFORE: &[(i128, i128)] =
        &[(0, 1), (0, 1), (0, 2), (0, 1_000), (1, 0), (60, 0), (600, 0), (1_800, 0), (3_600, 0), (36_000, 0), (86_400, 0)];
    tried(random, |random| {
        let (zone, other) = two_zones(random);
        let (first, last) = (span(random.pick(BEFORE)), span(random.pick(BEFORE)));
        let apart = first - last + minutes(zone) - minutes(other);
        let step = match random.below(10) {
            0 => first,
            1 => first + 1,
            2 => first - 1,
            3 => first / 2,
            4 => first / 3 + 1,
            5 => apart,
            6 => apart + 1,
            7 => apart / 2,
            8 => apart / random.between(1_430, 1_450) as i128,
            _ => any_step(random),
        };
        let (first, last) = (form(random, calendar_end() - first, zone)?, form(random, calendar_end() - last, other)?);
        Some([first, last, texts::duration_text(random, Kind::DayTime, step)].map(String::into_bytes))
    })
}

/// First and last just after the start of year 1, whose instants may lie in the year before it.
fn at_the_start(random: &mut Random) -> Texts {
    const AFTER: &[(i128, i128)] = &[(0, 0), (0, 0), (0, 0), (0, 1), (1, 0), (60, 0), (3_600, 0), (86_400, 0)];
    tried(random, |random| {
        let (zone, other) = two_zones(random);
        let (first, last) = (span(random.pick(AFTER)), span(random.pick(AFTER)));
        let apart = last - first + minutes(zone) - minutes(other);
        let step = match random.below(4) {
            0 => apart,
            1 => apart / random.between(1, 6) as i128,
            2 => apart / random.between(1_438, 1_441) as i128,
            _ => any_step(random),
        };
        let (first, last) = (form(random, calendar_start() + first, zone)?, form(random, calendar_start() + last, other)?);
        Some([first, last, texts::duration_text(random, Kind::DayTime, step)].map(String::into_bytes))
    })
}

/// One or two of the three texts do not read, or read as another kind.
fn bad_text(random: &mut Random, setting: &Setting) -> Texts {
    const KINDS_IN_TURN: [Kind; 3] = [Kind::DateTime, Kind::DateTime, Kind::DayTime];
    let mut texts = match random.below(4) {
        0 => empty(random, setting),
        1 => step_not_above_zero(random, setting),
        _ => good(random, setting),
    };
    for _ in 0..random.pick(&[1, 1, 1, 2, 3]) {
        let place = random.below(3);
        texts[place] = match random.below(8) {
            0 => Vec::new(),
            1 => texts::good(random, look_alike(KINDS_IN_TURN[place])).into_bytes(),
            2 => [b"\x0c".as_slice(), &texts[place]].concat(),
            3 => [&texts[place], b"\xa0".as_slice()].concat(),
            4 if place == 2 => texts::good(random, Kind::YearMonth).into_bytes(),
            4 => texts::good(random, Kind::Date).into_bytes(),
            _ => any_text(random, KINDS_IN_TURN[place], 0),
        };
    }
    texts
}

/// The kind that looks most like this one.
fn look_alike(kind: Kind) -> Kind {
    match kind {
        Kind::DateTime => Kind::Date,
        Kind::DayTime => Kind::YearMonth,
        other => other,
    }
}

/// A text of a dateTime at or just beside an occurrence of a run as the setting makes them, in some zone.
fn moment(random: &mut Random, setting: &Setting) -> (String, Value) {
    let (tick, zone, step) = beginning(random, setting);
    let first = Value::DateTime { tick, zone };
    let place = random.between(0, setting.most_occurrences.clamp(1, 12) as i64);
    let value = add(&first, &Value::DayTime(step * place as i128)).unwrap_or(first);
    let text = near(random, &value);
    (text, value)
}

/// A condition over the fields of a run line: over the second, which is new at each occurrence, over others, or none.
pub fn condition(random: &mut Random, setting: &Setting) -> String {
    let word = random.pick(&["eq", "ne", "lt", "le", "gt", "ge", "ge", "lt"]);
    let (text, value) = moment(random, setting);
    let factor = random.between(-2, 12);
    let cast_text = |kind: Kind| cast(&value, kind).map_or_else(|_| "2000-01-01".to_string(), |value| write(&value));
    let pooled = setting.pooled(random, Kind::DayTime);
    let months = setting.pooled(random, Kind::YearMonth);
    let missing = random.between(6, 16);
    match random.below(24) {
        0..=2 => format!("xs:dateTime($2) {word} xs:dateTime(\"{text}\")"),
        3 => format!("xs:dateTime($2) + xs:dayTimeDuration($5) {word} xs:dateTime($4)"),
        4 => format!("xs:dateTime($2) - xs:dateTime($3) {word} xs:dayTimeDuration($5) * {factor}"),
        5 => format!("xs:time(xs:dateTime($2)) {word} xs:time(\"{}\")", cast_text(Kind::Time)),
        6 => format!("xs:date(xs:dateTime($2)) {word} xs:date(\"{}\")", cast_text(Kind::Date)),
        7 => format!("xs:dateTime($3) {word} xs:dateTime($2)"),
        8 => format!("xs:dateTime($2) + xs:dayTimeDuration(\"{pooled}\") * {factor} {word} xs:dateTime(\"{text}\")"),
        9 => format!("xs:yearMonthDuration(\"{months}\") + xs:dateTime($2) {word} xs:dateTime(\"{text}\")"),
        10 => format!("xs:dateTime($2) - xs:dayTimeDuration($5) * {factor} {word} xs:dateTime($3)"),
        11 => {
            let kind = random.pick(&KINDS).name();
            format!("{kind}($2) {word} {kind}($2)")
        }
        12 => format!("xs:dayTimeDuration($5) {word} xs:dayTimeDuration(\"{pooled}\")"),
        13 => format!("xs:dateTime($3) {word} xs:dateTime(\"{text}\")"),
        14 => format!("xs:dateTime($4) {word} xs:dateTime($3)"),
        15 => random.pick(NO_FIELD).to_string(),
        16 => format!("xs:dateTime($2) lt xs:dateTime(\"{text}\") or xs:date(${missing}) eq xs:date(${missing})"),
        17 => format!("xs:dateTime($2) ge xs:dateTime(\"{text}\") and xs:dayTimeDuration($2) eq xs:dayTimeDuration($5)"),
        18 => {
            let (other, _) = moment(random, setting);
            format!("xs:dateTime($2) ge xs:dateTime(\"{text}\") and xs:dateTime($2) {word} xs:dateTime(\"{other}\")")
        }
        19 => format!("(xs:dateTime($2) - xs:dateTime(\"{text}\")) * {factor} {word} xs:dayTimeDuration(\"{pooled}\")"),
        20 => format!("xs:dateTime(xs:date(xs:dateTime($2))) {word} xs:dateTime($2)"),
        21 => format!("xs:time(xs:dateTime($2)) - xs:time(xs:dateTime($3)) {word} xs:dayTimeDuration($5) * {factor}"),
        22 => {
            let kind = random.pick(&KINDS).name();
            format!("{kind}($1) {word} {kind}(${missing}) or xs:dateTime($2) {word} xs:dateTime(\"{text}\")")
        }
        _ => format!("xs:dateTime($2) {word} xs:dateTime($2)"),
    }
}

/// Conditions that read no field: one that always holds, one that never does, one that is always refused.
const NO_FIELD: &[&str] = &[
    "xs:time(\"00:00:00\") eq xs:time(\"24:00:00\")",
    "xs:time(\"00:00:00\") ne xs:time(\"24:00:00\")",
    "xs:date(\"9999-12-31\") + xs:dayTimeDuration(\"P1D\") gt xs:date(\"2000-01-01\")",
];

/// What the desk makes of a noted line.
#[derive(Clone, Copy, PartialEq, Eq, Debug)]
pub enum Noted {
    Plain,
    Occurrences(usize),
    Refused(u8),
}

/// The line with tabs.
pub fn noted(line: &str) -> Vec<u8> {
    line.replace('|', "\t").into_bytes()
}

use Noted::{Occurrences, Plain, Refused};

/// Lines either side of everything that document 02 says of runs and of blanks round their fields, with `|` for a tab.
pub const NOTED: &[(&str, Noted)] = &[
    // As long as the instant is not past the last.
    ("n|every|2024-03-30T23:50:00+01:00|2024-03-31T00:10:00+01:00|PT10M", Occurrences(3)),
    ("n|every|2024-03-30T23:50:00+01:00|2024-03-31T00:09:59.999999999+01:00|PT10M", Occurrences(2)),
    ("n|every|2024-03-30T23:50:00+01:00|2024-03-31T00:19:59.999999999+01:00|PT10M", Occurrences(3)),
    ("|every|2024-03-30T23:50:00|2024-03-30T23:50:00|PT10M", Occurrences(1)),
    ("every|every|2024-03-30T23:50:00|2024-03-30T23:50:00|PT10M", Occurrences(1)),
    ("n|every|2024-03-30T23:50:00|2024-03-31T23:50:00|P1D", Occurrences(2)),
    ("n|every|2024-03-30T23:50:00|2024-03-30T23:50:00|PT1000000000000S", Occurrences(1)),
    ("n|every|2024-02-28T12:00:00|2024-03-01T12:00:00|P1D", Occurrences(3)),
    ("n|every|2023-02-28T12:00:00|2023-03-01T12:00:00|P1D", Occurrences(2)),
    // No occurrence at all.
    ("n|every|2024-03-30T23:50:00|2024-03-30T23:49:59.999999999|PT10M", Occurrences(0)),
    ("n|every|9999-12-31T23:59:59|0001-01-01T00:00:00|PT0.000000001S", Occurrences(0)),
    ("n|every|9999-12-31T23:59:59-14:00|0001-01-01T00:00:00+14:00|PT1000000000000S", Occurrences(0)),
    // Instants, not local fields; no zone counts as UTC.
    ("n|every|2024-03-31T00:00:00+14:00|2024-03-30T10:00:00Z|PT1S", Occurrences(1)),
    ("n|every|2024-03-31T00:00:00+14:00|2024-03-30T10:00:00|PT1S", Occurrences(1)),
    ("n|every|2024-03-30T10:00:00|2024-03-31T00:00:00+14:00|PT1S", Occurrences(1)),
    ("n|every|2024-03-30T10:00:00|2024-03-30T10:00:00-00:00|PT1S", Occurrences(1)),
    ("n|every|2024-03-30T10:00:00|2024-03-30T10:00:00+00:01|PT1S", Occurrences(0)),
    ("n|every|2024-03-30T10:00:00+00:01|2024-03-30T10:00:00|PT1M", Occurrences(2)),
    ("n|every|2024-03-31T12:00:00+14:00|2024-03-30T12:00:00-14:00|PT1H", Occurrences(5)),
    ("n|every|2024-03-30T12:00:00-14:00|2024-03-31T12:00:00+14:00|PT1H", Occurrences(0)),
    // 24:00:00.
    ("n|every|2024-02-28T24:00:00|2024-02-29T00:20:00|PT10M", Occurrences(3)),
    ("n|every|2024-02-29T23:50:00|2024-02-29T24:00:00|PT10M", Occurrences(2)),
    ("n|every|2023-12-31T24:00:00Z|2023-12-31T24:00:00.000000000Z|PT1S", Occurrences(1)),
    ("n|every|2023-12-31T24:00:00|2023-12-31T23:59:59|PT1S", Occurrences(0)),
    ("n|every|9999-12-31T23:50:00|9999-12-31T24:00:00|PT10M", Refused(2)),
    ("n|every|9999-12-31T24:00:00|bad|PT10M", Refused(2)),
    // Fractions of seconds.
    ("n|every|2024-03-30T00:00:00.000001|2024-03-30T00:00:00.000003|PT0.000001S", Occurrences(3)),
    ("n|every|2024-03-30T23:59:59.5|2024-03-31T00:00:00.500000|PT0.25S", Occurrences(5)),
    ("n|every|2024-03-30T00:00:00|2024-03-30T00:00:00.999999|PT0.333333S", Occurrences(4)),
    ("n|every|2024-03-30T00:00:00|2024-03-30T00:00:00.999998|PT0.333333S", Occurrences(3)),
    ("n|every|2024-03-30T00:00:00|2024-03-30T00:00:00.999999999|PT0.333333333S", Occurrences(4)),
    ("n|every|2024-03-30T00:00:00|2024-03-30T00:00:00.999999998|PT0.333333333S", Occurrences(3)),
    // Nanoseconds: over a second, a day, a month and a year, and a last that is one before an occurrence or at it.
    ("n|every|2024-03-30T00:00:00.000000001|2024-03-30T00:00:00.000000003|PT0.000000001S", Occurrences(3)),
    ("n|every|2024-03-30T11:59:59.999999998|2024-03-30T12:00:00.000000001|PT0.000000001S", Occurrences(4)),
    ("n|every|2024-03-30T11:59:59.9999995|2024-03-30T12:00:00.0000005|PT0.00000025S", Occurrences(5)),
    ("n|every|2024-03-30T23:59:59.999999998Z|2024-03-31T00:00:00.000000001Z|PT0.000000001S", Occurrences(4)),
    ("n|every|2024-02-29T23:59:59.999999999|2024-03-01T00:00:00.000000001|PT0.000000002S", Occurrences(2)),
    ("n|every|2023-12-31T23:59:59.999999997|2024-01-01T00:00:00|PT0.000000001S", Occurrences(4)),
    ("n|every|2023-12-31T23:59:59.999999999+14:00|2023-12-31T10:00:00.000000001Z|PT0.000000001S", Occurrences(3)),
    ("n|every|2024-03-30T00:00:00|2024-03-30T00:20:00.000000001|PT10M0.000000001S", Occurrences(2)),
    ("n|every|2024-03-30T00:00:00|2024-03-30T00:20:00.000000002|PT10M0.000000001S", Occurrences(3)),
    ("n|every|2024-03-30T00:00:00|2024-03-30T00:20:00|PT9M59.999999999S", Occurrences(3)),
    ("n|every|2024-03-30T00:00:00|2024-03-30T00:00:00.000001438|PT0.000000001S", Occurrences(1_439)),
    ("n|every|2024-03-30T00:00:00|2024-03-30T00:00:00.000001439|PT0.000000001S", Occurrences(1_440)),
    ("n|every|2024-03-30T00:00:00|2024-03-30T00:00:00.00000144|PT0.000000001S", Refused(18)),
    ("n|every|2024-03-30T23:59:59.999999|2024-03-31T00:00:00.000000439|PT0.000000001S", Occurrences(1_440)),
    ("n|every|2023-12-31T23:59:59.999999|2024-01-01T00:00:00.00000044|PT0.000000001S", Refused(18)),
    ("n|every|2024-03-30T00:00:00|2024-03-30T23:59:00.000001438|PT1M0.000000001S", Occurrences(1_439)),
    ("n|every|2024-03-30T00:00:00|2024-03-30T23:59:00.000001439|PT1M0.000000001S", Occurrences(1_440)),
    ("n|every|2024-03-30T00:00:00|2024-03-31T00:00:00.000001439|PT1M0.000000001S", Occurrences(1_440)),
    ("n|every|2024-03-30T00:00:00|2024-03-31T00:00:00.00000144|PT1M0.000000001S", Refused(18)),
    ("n|every|2024-03-30T00:00:00|2024-03-30T23:59:59.999998559|PT59.999999999S", Occurrences(1_440)),
    ("n|every|2024-03-30T00:00:00|2024-03-30T23:59:59.99999856|PT59.999999999S", Refused(18)),
    // The step.
    ("n|every|2024-03-30T00:00:00|2024-03-31T00:00:00|PT0S", Refused(17)),
    ("n|every|2024-03-30T00:00:00|2024-03-31T00:00:00|-PT0S", Refused(17)),
    ("n|every|2024-03-30T00:00:00|2024-03-31T00:00:00|-PT0.000001S", Refused(17)),
    ("n|every|2024-03-30T00:00:00|2024-03-31T00:00:00|-PT0.000000001S", Refused(17)),
    ("n|every|2024-03-30T00:00:00|2024-03-31T00:00:00|-PT0.999999999S", Refused(17)),
    ("n|every|2024-03-30T00:00:00|2024-03-31T00:00:00|-PT0.000000000S", Refused(17)),
    ("n|every|2024-03-30T00:00:00|2024-03-30T00:00:00|-P1D", Refused(17)),
    ("n|every|2024-03-31T00:00:00|2024-03-30T00:00:00|PT0S", Refused(17)),
    ("n|every|2024-03-31T00:00:00|2024-03-30T00:00:00|-P1D", Refused(17)),
    ("n|every|9999-12-31T23:00:00+14:00|9999-12-31T23:59:59-14:00|PT0S", Refused(17)),
    ("n|every|2024-03-30T00:00:00|2024-03-31T00:00:00|PT1000000000000.000000001S", Refused(2)),
    ("n|every|2024-03-30T00:00:00|2024-03-31T00:00:00|PT0.1234567890S", Refused(3)),
    ("n|every|2024-03-30T00:00:00|2024-03-31T00:00:00|P1M", Refused(1)),
    ("n|every|2024-03-30T00:00:00|2024-03-31T00:00:00|P0M", Refused(1)),
    ("n|every|2024-03-30T00:00:00|2024-03-31T00:00:00|P1Y1M", Refused(1)),
    ("n|every|2024-03-30T00:00:00|2024-03-31T00:00:00|", Refused(1)),
    ("n|every|2024-03-30T00:00:00|2024-03-30T01:00:00|PT1H\r", Occurrences(2)),
    ("n|every|2024-03-30T00:00:00|2024-03-30T01:00:00|PT1H|\r", Occurrences(2)),
    // Over 1,440 occurrences.
    ("n|every|2024-03-30T00:00:00|2024-03-30T23:58:59.999999999|PT1M", Occurrences(1_439)),
    ("n|every|2024-03-30T00:00:00|2024-03-30T23:59:00|PT1M", Occurrences(1_440)),
    ("n|every|2024-03-30T00:00:00|2024-03-30T23:59:59.999999999|PT1M", Occurrences(1_440)),
    ("n|every|2024-03-30T00:00:00|2024-03-30T24:00:00|PT1M", Refused(18)),
    ("n|every|2024-03-30T00:00:00+14:00|2024-03-30T10:00:00Z|PT1M", Refused(18)),
    ("n|every|2024-03-30T00:00:00+14:00|2024-03-30T09:59:00|PT1M", Occurrences(1_440)),
    ("n|every|2024-03-30T00:00:00|2024-03-31T00:00:01|PT1M", Refused(18)),
    ("n|every|0001-01-01T00:00:00|9999-12-31T23:59:59.999999999|PT0.000000001S", Refused(18)),
    ("n|every|0001-01-01T00:00:00|9999-12-31T23:59:59.999999999|P2536D", Refused(18)),
    ("n|every|0001-01-01T00:00:00|9999-12-31T23:59:59.999999999|P2537D", Occurrences(1_440)),
    ("n|every|0001-01-01T00:00:00+14:00|9999-12-31T23:59:59.999999999-14:00|P2538D", Occurrences(1_439)),
    // An occurrence whose local year passes 9999.
    ("n|every|9999-12-31T23:00:00+14:00|9999-12-31T09:59:59.999999999Z|PT30M", Occurrences(2)),
    ("n|every|9999-12-31T23:00:00+14:00|9999-12-31T10:00:00Z|PT30M", Refused(4)),
    ("n|every|9999-12-31T23:00:00+14:00|9999-12-31T23:59:59Z|PT30M", Refused(4)),
    ("n|every|9999-12-31T23:59:59.999999+14:00|9999-12-31T10:00:00Z|PT0.000001S", Refused(4)),
    ("n|every|9999-12-31T23:59:59.999998+14:00|9999-12-31T09:59:59.999999Z|PT0.000001S", Occurrences(2)),
    ("n|every|9999-12-31T23:59:59.999999999+14:00|9999-12-31T10:00:00Z|PT0.000000001S", Refused(4)),
    ("n|every|9999-12-31T23:59:59.999999998+14:00|9999-12-31T09:59:59.999999999Z|PT0.000000001S", Occurrences(2)),
    ("n|every|9999-12-31T23:30:00|9999-12-31T23:30:00-01:00|PT1H", Refused(4)),
    ("n|every|9999-12-31T22:30:00|9999-12-31T22:30:00-01:00|PT1H", Occurrences(2)),
    ("n|every|9999-12-31T23:59:59+14:00|9999-12-31T23:59:59-14:00|PT1M", Refused(18)),
    ("n|every|9999-12-31T23:59:59+14:00|9999-12-31T23:59:59-14:00|PT1M10S", Refused(18)),
    ("n|every|9999-12-31T23:59:59+14:00|9999-12-31T23:59:59-14:00|PT1M10.1S", Refused(4)),
    // The last is past 9999 in first's zone, or as an instant, and no occurrence is.
    ("n|every|9999-12-31T23:00:00+14:00|9999-12-31T23:59:59-14:00|P2D", Occurrences(1)),
    ("n|every|9999-12-31T23:00:00Z|9999-12-31T23:00:00-14:00|PT14H0.000000001S", Occurrences(1)),
    ("n|every|9999-12-31T23:00:00Z|9999-12-31T23:00:00-14:00|PT14H", Refused(4)),
    ("n|every|9999-12-31T09:00:00-14:00|9999-12-31T23:00:00-14:00|PT7H", Occurrences(3)),
    ("n|every|9999-12-31T23:59:59.999999999-14:00|9999-12-31T23:59:59.999999999-14:00|PT0.000000001S", Occurrences(1)),
    // Year 1.
    ("n|every|0001-01-01T00:00:00|0001-01-01T00:00:00|PT1H", Occurrences(1)),
    ("n|every|0001-01-01T00:00:00+14:00|0001-01-01T00:00:00-14:00|PT7H", Occurrences(5)),
    ("n|every|0001-01-01T00:00:00|0001-01-01T00:00:00+14:00|PT1H", Occurrences(0)),
    ("n|every|0001-01-01T00:00:00+14:00|0001-01-01T00:00:00+13:59|PT1M", Occurrences(2)),
    ("n|every|0000-12-31T00:00:00|0001-01-01T00:00:00|PT1H", Refused(1)),
    ("n|every|-0001-12-31T00:00:00|0001-01-01T00:00:00|PT1H", Refused(2)),
    // The word.
    ("n| every|2024-03-30T00:00:00|2024-03-30T01:00:00|PT10M", Plain),
    ("n|every |2024-03-30T00:00:00|2024-03-30T01:00:00|PT10M", Plain),
    ("n|Every|2024-03-30T00:00:00|2024-03-30T01:00:00|PT10M", Plain),
    ("n|EVERY|2024-03-30T00:00:00|2024-03-30T01:00:00|PT10M", Plain),
    ("n|ever|2024-03-30T00:00:00|2024-03-30T01:00:00|PT10M", Plain),
    ("n|everyy|2024-03-30T00:00:00|2024-03-30T01:00:00|PT10M", Plain),
    ("n|every\r|2024-03-30T00:00:00|2024-03-30T01:00:00|PT10M", Plain),
    ("n|every\0|2024-03-30T00:00:00|2024-03-30T01:00:00|PT10M", Plain),
    ("n| every | 2024-03-30T00:00:00 | 2024-03-30T01:00:00 | PT10M ", Plain),
    ("n|\revery|2024-03-30T00:00:00|2024-03-30T01:00:00|PT10M\r", Plain),
    ("every|2024-03-30T00:00:00|2024-03-30T01:00:00|PT10M", Plain),
    ("n|x|every|2024-03-30T00:00:00|2024-03-30T01:00:00|PT10M", Plain),
    ("every", Plain),
    ("n|every\r", Plain),
    // Fields 3, 4 and 5 in turn.
    ("n|every", Refused(6)),
    ("|every", Refused(6)),
    ("n|every|2024-03-30T00:00:00", Refused(6)),
    ("n|every|2024-03-30T00:00:00|2024-03-30T00:00:00", Refused(6)),
    ("n|every|", Refused(1)),
    ("n|every|2024-03-30T00:00:00|", Refused(1)),
    ("n|every|bad", Refused(1)),
    ("n|every|10000-01-01T00:00:00", Refused(2)),
    ("n|every|2024-03-30T00:00:00|2024-03-30T00:00:00.0000000000", Refused(3)),
    ("n|every|bad|10000-01-01T00:00:00|PT0.0000000000S", Refused(1)),
    ("n|every|10000-01-01T00:00:00|bad|PT0S", Refused(2)),
    ("n|every|2024-03-30T00:00:00.0000000000|10000-01-01T00:00:00|bad", Refused(3)),
    ("n|every|2024-03-30T00:00:00.000000000|10000-01-01T00:00:00|bad", Refused(2)),
    ("n|every|2024-03-30T00:00:00|10000-01-01T00:00:00|bad", Refused(2)),
    ("n|every|2024-03-31T00:00:00|2024-03-30T00:00:00|bad", Refused(1)),
    ("n|every|2024-03-30|2024-03-31T00:00:00|PT1H", Refused(1)),
    ("n|every|2024-03-30T00:00:00|2024-03-31|PT1H", Refused(1)),
    ("n|every|23:50:00|2024-03-31T00:00:00|PT1H", Refused(1)),
    ("n|every|every|every|every", Refused(1)),
    // Blanks round fields 3 to 5.
    ("n|every| 2024-03-30T00:00:00|2024-03-30T01:00:00|PT1H", Occurrences(2)),
    ("n|every|2024-03-30T00:00:00\r|2024-03-30T01:00:00|PT1H", Occurrences(2)),
    ("n|every|2024-03-30T00:00:00|  2024-03-30T01:00:00\r \r|PT1H", Occurrences(2)),
    ("n|every|2024-03-30T00:00:00|2024-03-30T01:00:00|\rPT1H ", Occurrences(2)),
    ("n|every|\r2024-03-30T00:00:00 | 2024-03-30T01:00:00 |  PT1H   ", Occurrences(2)),
    (" n |every|   2024-03-30T00:00:00Z|   2024-03-30T01:00:00Z|   PT1H| x \r", Occurrences(2)),
    ("\r|every|2024-03-30T24:00:00 |2024-03-31T00:00:00 |PT1H\r", Occurrences(1)),
    ("n|every| 2024-03-31T00:00:00 |\r2024-03-30T00:00:00\r| PT1H ", Occurrences(0)),
    // The numbers and their order are those of what is left.
    ("n|every| 9999-12-31T24:00:00 |bad|PT1H", Refused(2)),
    ("n|every|2024-03-30T00:00:00|2024-03-30T01:00:00.0000000000\r|PT1H", Refused(3)),
    ("n|every|2024-03-30T00:00:00|2024-03-30T01:00:00.000000000\r|PT1H", Occurrences(2)),
    ("n|every| 2024-03-30T00:00:00 | 2024-03-30T01:00:00 | PT0S ", Refused(17)),
    ("n|every| 2024-03-30T00:00:00 |2024-03-30T24:00:00\r|PT1M\r", Refused(18)),
    ("n|every| 9999-12-31T23:30:00|9999-12-31T23:30:00-01:00 |PT1H\r", Refused(4)),
    ("n|every| 2024-03-30T00:00:00 | 2024-03-30T01:00:00 ", Refused(6)),
    ("n|every|2024-03-30T00:00:00|2024-03-30T01:00:00\r", Refused(6)),
    ("n|every|2024-03-30T00:00:00\r", Refused(6)),
    // Blanks alone, inside, and bytes that are none.
    ("n|every| |2024-03-30T01:00:00|PT1H", Refused(1)),
    ("n|every|2024-03-30T00:00:00|\r|PT1H", Refused(1)),
    ("n|every|2024-03-30T00:00:00|2024-03-30T01:00:00| \r ", Refused(1)),
    ("n|every|\r", Refused(1)),
    ("n|every|2024-03-30 T00:00:00|2024-03-30T01:00:00|PT1H", Refused(1)),
    ("n|every|2024-03-30T00:00:00|2024-03-30T01:00:00 Z|PT1H", Refused(1)),
    ("n|every|2024-03-30T00:00:00|2024-03-30T01:00:00|PT 1H", Refused(1)),
    ("n|every|\u{b}2024-03-30T00:00:00|2024-03-30T01:00:00|PT1H", Refused(1)),
    ("n|every|2024-03-30T00:00:00| \u{c} 2024-03-30T01:00:00|PT1H", Refused(1)),
    ("n|every|2024-03-30T00:00:00|2024-03-30T01:00:00|PT1H\0", Refused(1)),
    ("n|every|2024-03-30T00:00:00|2024-03-30T01:00:00|PT1H\u{a0}", Refused(1)),
    // Other fields stay.
    ("n|every|2024-03-30T00:00:00Z|2024-03-30T02:00:00Z|PT1H|2024-03-30|bad", Occurrences(3)),
    ("n|every|2024-03-30T00:00:00Z|2024-03-30T02:00:00Z|PT1H||||||||||||", Occurrences(3)),
];

/// Conditions that are tried at the noted lines: over the second field, over others and over none, hits, misses and
/// refusals.
pub const AT_NOTED: &[&str] = &[
    "xs:dateTime($2) ge xs:dateTime(\"2024-03-31T00:00:00+01:00\")",
    "xs:dateTime($2) eq xs:dateTime($3)",
    "xs:dateTime($2) + xs:dayTimeDuration($5) le xs:dateTime($4)",
    "xs:dateTime($2) - xs:dateTime($3) eq xs:dayTimeDuration($5) * 2",
    "xs:date(xs:dateTime($2)) eq xs:date(xs:dateTime($3))",
    "xs:time(xs:dateTime($2)) lt xs:time(\"12:00:00\")",
    "xs:dateTime($2) + xs:dayTimeDuration(\"PT1H\") gt xs:dateTime($2)",
    "xs:dateTime($2) - xs:yearMonthDuration(\"P1M\") lt xs:dateTime($2)",
    "xs:dayTimeDuration($5) ge xs:dayTimeDuration(\"PT10M\")",
    "xs:dateTime($3) le xs:dateTime($4)",
    "xs:date($2) eq xs:date($2)",
    "xs:date($6) eq xs:date(xs:dateTime($2))",
    "xs:date($16) eq xs:date($1)",
    "xs:dateTime($2) lt xs:dateTime(\"2024-03-31T00:00:00\") or xs:date($16) eq xs:date($1)",
    NO_FIELD[0],
    NO_FIELD[2],
];
