//! Conditions whose kinds fit, written by the grammar's own rules, and then all that can go wrong with them.

use super::blanks::{in_literals, IN_A_LITERAL};
use super::calls::near;
use super::damage::damaged;
use super::random::Random;
use super::runs;
use super::texts;
use crate::conditions::kinds::{difference_kind, sum_kind};
use crate::conditions::MOST_BYTES;
use crate::values::operations::casts;
use crate::values::reading::read;
use crate::values::writing::write;
use crate::values::{ticks_a_minute, Kind, KINDS};

/// What the conditions of one case speak about: the kinds of the timetable's columns, and a few texts of each kind,
/// which the timetable uses too, so that equal values are common.
pub struct Setting {
    pub columns: Vec<Kind>,
    pub pools: [Vec<String>; 5],
    /// How many occurrences a run line of the timetable has at most; 0 where it has no such lines.
    pub most_occurrences: usize,
}

impl Setting {
    pub fn new(random: &mut Random) -> Setting {
        let count = random.pick(&[1, 2, 2, 3, 3, 4, 5, 8, 15, 16, 17]);
        let columns = (0..count).map(|_| random.pick(&KINDS)).collect();
        let mut pools: [Vec<String>; 5] = Default::default();
        for kind in KINDS {
            pools[kind as usize] = (0..3).map(|_| pool_text(random, kind)).collect();
        }
        Setting { columns, pools, most_occurrences: 0 }
    }

    /// One whose timetable has run lines: the second to fifth columns are theirs, and the dateTimes lie close together.
    pub fn with_runs(random: &mut Random, most_occurrences: usize) -> Setting {
        let mut setting = Setting { most_occurrences, ..Setting::new(random) };
        let mut columns = vec![random.pick(&KINDS), Kind::DateTime, Kind::DateTime, Kind::DateTime, Kind::DayTime];
        columns.extend((0..random.below(4)).map(|_| random.pick(&KINDS)));
        setting.columns = columns;
        let middle = runs::middle(random);
        setting.pools[Kind::DateTime as usize] = vec![write(&middle), near(random, &middle), near(random, &middle)];
        setting.pools[Kind::DayTime as usize][..2].fill_with(|| runs::step_text(random));
        setting
    }

    /// Any of the two sorts.
    pub fn any(random: &mut Random) -> Setting {
        match random.below(10) {
            0..=4 => Setting::new(random),
            5..=8 => Setting::with_runs(random, 12),
            _ => Setting::with_runs(random, runs::MOST),
        }
    }

    pub fn pooled(&self, random: &mut Random, kind: Kind) -> String {
        let pool = &self.pools[kind as usize];
        pool[random.below(pool.len())].clone()
    }
}

/// A short text; of a duration mostly a small one, so that sums seldom leave the bounds.
fn pool_text(random: &mut Random, kind: Kind) -> String {
    if random.chance(25) {
        return short_text(random, kind);
    }
    match kind {
        Kind::DayTime => {
            let minutes = random.pick(&[1, 30, 60, 60, 1440, 1440, 100]) * random.between(-20, 40) as i128;
            let part = if random.chance(20) { texts::part_of_a_second(random) } else { 0 };
            texts::duration_text(random, kind, minutes * ticks_a_minute() + part)
        }
        Kind::YearMonth => {
            let months = random.between(-20, 40) as i128;
            texts::duration_text(random, kind, months)
        }
        _ => short_text(random, kind),
    }
}

/// A text of no more than 35 bytes that reads, with few exceptions.
fn short_text(random: &mut Random, kind: Kind) -> String {
    loop {
        let text = texts::good(random, kind);
        if text.len() <= 35 && (read(kind, text.as_bytes()).is_ok() || random.chance(25)) {
            return text;
        }
    }
}

pub struct Writer<'a> {
    pub random: &'a mut Random,
    pub setting: &'a Setting,
    /// How often in a hundred an operand has a kind that need not fit.
    pub wrong_kinds: usize,
    /// How often in a hundred a literal does not read.
    pub bad_literals: usize,
    /// How often in a hundred a factor has parentheses round it.
    pub parentheses: usize,
}

impl Writer<'_> {
    /// A condition of about so many constructors.
    pub fn condition(&mut self, size: usize) -> String {
        let mut text = String::new();
        for (place, part) in self.parts(size).into_iter().enumerate() {
            let clause = self.clause(part);
            self.append(&mut text, place, "or", &clause);
        }
        text
    }

    fn clause(&mut self, size: usize) -> String {
        let mut text = String::new();
        for (place, part) in self.parts(size).into_iter().enumerate() {
            let test = self.test(part);
            self.append(&mut text, place, "and", &test);
        }
        text
    }

    /// The size as one part or as two of at least two constructors.
    fn parts(&mut self, size: usize) -> Vec<usize> {
        if size < 4 || self.random.chance(50) {
            return vec![size];
        }
        let first = 2 + self.random.below(size - 3);
        vec![first, size - first]
    }

    fn append(&mut self, text: &mut String, place: usize, word: &str, part: &str) {
        if place > 0 {
            let (before, after) = self.spaces_round_word(part);
            *text += &format!("{before}{word}{after}");
        }
        *text += part;
    }

    fn test(&mut self, size: usize) -> String {
        if size >= 4 && self.random.chance(40) || self.random.chance(self.parentheses / 3) {
            let inner = self.condition(size);
            let (left, right) = (self.gap(), self.gap());
            return format!("({left}{inner}{right})");
        }
        let kind = self.random.pick(&KINDS);
        let other = self.perhaps_wrong(kind);
        let first = 1 + self.random.below(size.max(2) - 1);
        let left = self.sum(kind, first);
        let right = self.sum(other, size.saturating_sub(first).max(1));
        let word = self.random.pick(&["eq", "ne", "lt", "le", "gt", "ge", "eq"]);
        let (before, after) = self.spaces_round_word(&right);
        format!("{left}{before}{word}{after}{right}")
    }

    fn perhaps_wrong(&mut self, kind: Kind) -> Kind {
        if self.random.chance(self.wrong_kinds) {
            return self.random.pick(&KINDS);
        }
        kind
    }

    fn sum(&mut self, kind: Kind, size: usize) -> String {
        if size < 2 || self.random.chance(20) {
            return self.term(kind, size);
        }
        let (left, minus, right) = self.operands(kind);
        let right = self.perhaps_wrong(right);
        let first = 1 + self.random.below(size - 1);
        let left_text = self.sum(left, first);
        let right_text = self.term(right, size - first);
        let (before, after) = (self.gap(), self.gap());
        let sign = if minus { '-' } else { '+' };
        format!("{left_text}{before}{sign}{after}{right_text}")
    }

    /// Two kinds and a sign that make the kind.
    fn operands(&mut self, kind: Kind) -> (Kind, bool, Kind) {
        loop {
            let (left, right, minus) = (self.random.pick(&KINDS), self.random.pick(&KINDS), self.random.chance(50));
            let made = if minus { difference_kind(left, right) } else { sum_kind(left, right) };
            if made == Some(kind) {
                return (left, minus, right);
            }
        }
    }

    fn term(&mut self, kind: Kind, size: usize) -> String {
        let mut text = self.factor(kind, size);
        let multiplied = if kind.is_duration() { 30 } else { self.wrong_kinds / 3 };
        while self.random.chance(multiplied) {
            let (before, after) = (self.gap(), self.gap());
            text += &format!("{before}*{after}{}", self.whole_number());
        }
        text
    }

    fn whole_number(&mut self) -> String {
        if self.random.below(60) == 0 {
            return self
                .random
                .pick(&["- 5", "0000001", "1000000", "+5", "--5", "-", "", "5 5", "-000000", "-0000000"])
                .to_string();
        }
        let digits = match self.random.below(12) {
            0 => self.random.pick(&["0", "000005", "999999", "100000", "00", "1"]).to_string(),
            1 => self.random.between(0, 999_999).to_string(),
            _ => self.random.between(0, 12).to_string(),
        };
        let sign = if self.random.chance(30) { "-" } else { "" };
        format!("{sign}{digits}")
    }

    fn factor(&mut self, kind: Kind, size: usize) -> String {
        if size > 1 || self.random.chance(self.parentheses) {
            if self.random.chance(45) {
                return self.casting(kind, size);
            }
            let (left, inner, right) = (self.gap(), self.sum(kind, size), self.gap());
            return format!("({left}{inner}{right})");
        }
        let inner = if self.random.chance(55) { self.field(kind) } else { self.literal(kind) };
        let (before, left, right) = (self.gap(), self.gap(), self.gap());
        format!("{}{before}({left}{inner}{right})", kind.name())
    }

    fn casting(&mut self, kind: Kind, size: usize) -> String {
        let from = loop {
            let from = self.random.pick(&KINDS);
            if casts(from, kind) {
                break self.perhaps_wrong(from);
            }
        };
        format!("{}({})", kind.name(), self.sum(from, size))
    }

    fn field(&mut self, kind: Kind) -> String {
        let fitting: Vec<usize> = (0..self.setting.columns.len()).filter(|&at| self.setting.columns[at] == kind).collect();
        let number = match self.random.below(100) {
            0 => self.random.pick(&[0, 17, 18, 99]),
            1..=6 => 1 + self.random.below(16),
            _ if fitting.is_empty() => return self.literal(kind),
            _ => fitting[self.random.below(fitting.len())] + 1,
        };
        format!("${number}")
    }

    fn literal(&mut self, kind: Kind) -> String {
        let text = if self.random.chance(self.bad_literals) {
            texts::beyond(self.random, kind)
        } else if self.random.chance(75) {
            self.setting.pooled(self.random, kind)
        } else {
            short_text(self.random, kind)
        };
        format!("\"{text}\"")
    }

    fn gap(&mut self) -> &'static str {
        self.random.pick(&["", "", "", "", "", " ", " ", "  "])
    }

    /// Before a word stands a symbol that parts it; after it a space has to stand if a word follows.
    fn spaces_round_word(&mut self, next: &str) -> (&'static str, &'static str) {
        let before = self.random.pick(&[" ", " ", " ", ""]);
        let after = if next.starts_with('(') && self.random.chance(30) { "" } else { " " };
        if self.random.chance(1) {
            return (before, "");
        }
        (before, after)
    }
}

/// A condition of any sort, good or bad.
pub fn any(random: &mut Random, setting: &Setting) -> Vec<u8> {
    match random.weighted(&[50, 6, 7, 6, 5, 7, 6, 3, 4, 3, 7]) {
        0 => fitting(random, setting, 0, 0).into_bytes(),
        1 => fitting(random, setting, 25, 0).into_bytes(),
        2 => fitting(random, setting, 0, 40).into_bytes(),
        3 => deep(random, setting).into_bytes(),
        4 => long(random, setting).into_bytes(),
        5 => {
            let text = fitting(random, setting, 0, 0);
            damaged(random, text.as_bytes())
        }
        6 => random.pick(NOTED).as_bytes().to_vec(),
        7 => fitting(random, setting, 30, 50).into_bytes(),
        8 => one_operation(random, setting).into_bytes(),
        9 => shuffled(random),
        _ => {
            let text = fitting(random, setting, 0, 0);
            in_literals(text.as_bytes(), |literal| IN_A_LITERAL.any(random, literal))
        }
    }
}

/// A condition within the length, written with these chances of wrong kinds and bad literals; one in ten has blanks round
/// its literals.
pub fn fitting(random: &mut Random, setting: &Setting, wrong_kinds: usize, bad_literals: usize) -> String {
    let text = unpadded(random, setting, wrong_kinds, bad_literals);
    if !random.chance(10) {
        return text;
    }
    let padded = in_literals(text.as_bytes(), |literal| IN_A_LITERAL.round(random, literal));
    String::from_utf8(padded).ok().filter(|padded| padded.len() <= MOST_BYTES).unwrap_or(text)
}

fn unpadded(random: &mut Random, setting: &Setting, wrong_kinds: usize, bad_literals: usize) -> String {
    if setting.most_occurrences > 0 && (wrong_kinds, bad_literals) == (0, 0) && random.chance(45) {
        return runs::condition(random, setting);
    }
    loop {
        let size = random.pick(&[2, 2, 2, 3, 3, 4, 4, 5, 6, 7]);
        let parentheses = random.pick(&[0, 10, 10, 30]);
        let text = Writer { random, setting, wrong_kinds, bad_literals, parentheses }.condition(size);
        if text.len() <= MOST_BYTES {
            return text;
        }
    }
}

/// One sum, difference or cast of any kinds, compared with a value that mostly is of the kind that it makes.
fn one_operation(random: &mut Random, setting: &Setting) -> String {
    let (left, right, form) = (random.pick(&KINDS), random.pick(&KINDS), random.below(3));
    let made = match form {
        0 => sum_kind(left, right),
        1 => difference_kind(left, right),
        _ => casts(left, right).then_some(right),
    };
    let last = if random.chance(70) { made.unwrap_or(left) } else { random.pick(&KINDS) };
    let mut writer = Writer { random, setting, wrong_kinds: 0, bad_literals: 3, parentheses: 0 };
    let (first, second, third) = (writer.factor(left, 1), writer.factor(right, 1), writer.factor(last, 1));
    match form {
        0 => format!("{first} + {second} ge {third}"),
        1 => format!("{first} - {second} le {third}"),
        _ => format!("{}({first}) ne {third}", right.name()),
    }
}

/// Fourteen to eighteen parentheses deep, sometimes after closings that stand too early.
fn deep(random: &mut Random, setting: &Setting) -> String {
    let inner = loop {
        let text = fitting(random, setting, 0, 0);
        if text.len() <= 150 {
            break text;
        }
    };
    let count = random.pick(&[12, 13, 14, 15, 15, 16, 16, 17]);
    match random.below(6) {
        0 => format!("){}{inner}{}", "(".repeat(count + 1), ")".repeat(count)),
        1 => format!("{}{inner}{}", "(".repeat(count), ")".repeat(count - 1)),
        2 => format!("{inner} and \"{}", "(".repeat(count + 3)),
        _ => format!("{}{inner}{}", "(".repeat(count), ")".repeat(count)),
    }
}

/// A condition brought to about 240 bytes by spaces, or by blanks in its first literal.
fn long(random: &mut Random, setting: &Setting) -> String {
    let text = fitting(random, setting, 0, 0);
    let length = random.pick(&[239, 240, 240, 241, 241, 242, 300]);
    let missing = length - text.len().min(length);
    let spaces = " ".repeat(missing);
    match random.below(4) {
        0 => format!("{spaces}{text}"),
        1 => format!("{text}{spaces}"),
        2 => text.replacen('(', &format!("({spaces}"), 1),
        _ => text.replacen('"', &format!("\"{}", random.pick(&[" ", "\t", "\r"]).repeat(missing)), 1),
    }
}

/// Symbols in no order.
fn shuffled(random: &mut Random) -> Vec<u8> {
    const SYMBOLS: &[&str] = &[
        "xs:date",
        "xs:time",
        "xs:dateTime",
        "xs:dayTimeDuration",
        "xs:yearMonthDuration",
        "(",
        ")",
        "(",
        ")",
        "+",
        "-",
        "*",
        "and",
        "or",
        "eq",
        "lt",
        "$1",
        "$2",
        "$16",
        "$17",
        "\"2000-01-01\"",
        "\"PT1H\"",
        "\"",
        "5",
        "-5",
        "1000000",
        " ",
        " ",
        "  ",
    ];
    let count = random.below(25);
    (0..count).map(|_| random.pick(SYMBOLS)).collect::<String>().into_bytes()
}

/// Conditions for the readings of docs/DECISIONS.md, 1 to 10, and of blanks, each either side of the line.
const NOTED: &[&str] = &[
    "xs:dayTimeDuration(\"PT1H\")*-5 lt xs:dayTimeDuration(\"PT1H\")",
    "xs:dayTimeDuration(\"PT1H\") * -5 lt xs:dayTimeDuration(\"PT1H\")",
    "xs:dayTimeDuration(\"PT1H\") * - 5 lt xs:dayTimeDuration(\"PT1H\")",
    "xs:dayTimeDuration(\"PT1H\")*-0 eq xs:dayTimeDuration(\"-PT0S\")",
    "xs:dayTimeDuration(\"PT1H\")*000005 eq xs:dayTimeDuration(\"PT5H\")",
    "xs:dayTimeDuration(\"PT1H\")*0000001 eq xs:dayTimeDuration(\"PT1H\")",
    "xs:dayTimeDuration(\"PT1H\")*999999 gt xs:dayTimeDuration(\"PT1H\")",
    "xs:dayTimeDuration(\"PT1H\")*1000000 gt xs:dayTimeDuration(\"PT1H\")",
    "xs:dayTimeDuration(\"PT1H\")*+5 gt xs:dayTimeDuration(\"PT1H\")",
    "xs:dayTimeDuration(\"PT1H\")*--5 gt xs:dayTimeDuration(\"PT1H\")",
    "xs:dayTimeDuration(\"PT1H\")*5-5 gt xs:dayTimeDuration(\"PT1H\")",
    "xs:dayTimeDuration(\"PT1H\")*5*-6and xs:time(\"00:00:00\")eq xs:time(\"24:00:00\")",
    "xs:dayTimeDuration(\"PT1H\")*5and(xs:date(\"2000-01-01\")eq xs:date(\"2000-01-01\"))",
    "xs:time(\"00:00:00\")eq xs:time(\"24:00:00\")",
    "xs:time(\"00:00:00\")eqxs:time(\"24:00:00\")",
    "xs:time(\"00:00:00\") eq xs:time:(\"24:00:00\")",
    "XS:time(\"00:00:00\") eq xs:time(\"24:00:00\")",
    "xs:time(\"00:00:00\") EQ xs:time(\"24:00:00\")",
    "xs :time(\"00:00:00\") eq xs:time(\"24:00:00\")",
    ")(((((((((((((((((",
    ")((((((((((((((((((",
    "))((((((((((((((((((",
    "((((((((((((((((",
    "(((((((((((((((((",
    "\"(((((((((((((((((\"",
    "\"\"(((((((((((((((((",
    "x \"((((((((((((((((((((((",
    "xs:date(xs:date(xs:date(xs:date(xs:date(xs:date(xs:date(xs:date(xs:date(xs:date(xs:date(xs:date(xs:date(xs:date(xs:date(xs:date($1))))))))))))))))eq xs:date($1)",
    "xs:date(xs:date(xs:date(xs:date(xs:date(xs:date(xs:date(xs:date(xs:date(xs:date(xs:date(xs:date(xs:date(xs:date(xs:date(xs:date(xs:date($1)))))))))))))))))eq xs:date($1)",
    "xs:date($1) eq xs:date($ 1)",
    "xs:date($1) eq xs:date($01)",
    "xs:date($1) eq xs:date($0)",
    "xs:date($1) eq xs:date($17)",
    "xs:date($1) eq xs:date($)",
    "xs:date($16) eq xs:date( $16 )",
    "xs:date($160) eq xs:date($1)",
    "xs:date($18446744073709551617) eq xs:date($1)",
    "xs:date($1and) eq xs:date($1)",
    "",
    " ",
    "      ",
    "\txs:date($1) eq xs:date($1)",
    "xs:date($1)\teq\txs:date($1)",
    "xs:date($1) eq xs:date($1)\r",
    "xs:date(\"a\"\"b\") eq xs:date($1)",
    "xs:date(\"\") eq xs:date($1)",
    "xs:date(\" 2000-01-01\") eq xs:date($1)",
    "xs:date(\"\t2000-01-01\r \") eq xs:date($1)",
    "xs:date(\"2000-01 -01\") eq xs:date($1)",
    "xs:date(\" \t\r\") eq xs:date($1)",
    "xs:date(\"2000-01-01\u{c}\") eq xs:date($1)",
    "xs:date(\"\u{a0}2000-01-01\") eq xs:date($1)",
    "xs:date(\" 12000-13-45 \") eq xs:date($1)",
    "xs:date(\t\"2000-01-01\") eq xs:date($1)",
    "xs:date(\"2000-01-01\"\r) eq xs:date($1)",
    "xs:date(\"2000-01-01\") eq xs:date($1) eq xs:date($1)",
    "xs:date(xs:date($1) eq xs:date($1))",
    "xs:date((xs:date($1) eq xs:date($1))) eq xs:date($1)",
    "xs:date(($1)) eq xs:date($1)",
    "xs:date((\"2000-01-01\")) eq xs:date($1)",
    "xs:date((xs:date($1))) eq xs:date($1)",
    "xs:date()",
    "xs:date",
    "xs:date($1)",
    "(xs:date($1))",
    "((xs:date($1))) eq ((xs:date($1)))",
    "(xs:date($1) eq xs:date($1)) eq (xs:date($1) eq xs:date($1))",
    "(xs:date($1) eq xs:date($1)) + xs:dayTimeDuration(\"PT1H\") eq xs:date($1)",
    "(xs:date($1) eq xs:date($1)) * 5",
    "xs:date($1) * 5 eq xs:date($1)",
    "xs:date($1) and xs:date($1) eq xs:date($1)",
    "xs:dayTimeDuration(xs:yearMonthDuration(\"P1M\")) eq xs:dayTimeDuration(\"PT1H\")",
    "xs:dayTimeDuration(xs:dayTimeDuration(\"PT1H\")) eq xs:dayTimeDuration(\"PT60M\")",
    "xs:time(xs:date($1)) eq xs:time(\"00:00:00\")",
    "xs:date(xs:time($1)) eq xs:date($1)",
    "xs:dateTime(xs:date(\"2000-01-01+14:00\")) eq xs:dateTime(\"1999-12-31T10:00:00Z\")",
    "xs:time(xs:dateTime(\"2000-01-01T12:00:00Z\")) eq xs:time(\"12:00:00\")",
    "xs:date(\"bad\") eq xs:time(\"00:00:00\")",
    "xs:date(\"bad\") eq xs:date(\"12000-01-01\")",
    "xs:time(\"00:00:00.0000000000\") eq xs:time(\"bad\")",
    "xs:time(\"00:00:00.000000000\") eq xs:time(\"24:00:00.0000000\")",
    "xs:time(\"00:00:00.000000001\") gt xs:time(\"00:00:00\")",
    "xs:time(\"25:00:00.0000000000\") eq xs:time($1)",
    "xs:dayTimeDuration(\"-PT0.000000000S\") eq xs:dayTimeDuration(\"PT0S\")",
    "xs:dayTimeDuration(\"PT1000000000000.000000001S\") eq xs:dayTimeDuration($1)",
    "xs:dayTimeDuration(\"PT1000000000000S\") + xs:dayTimeDuration(\"PT0.000000001S\") eq xs:dayTimeDuration($1)",
    "xs:dayTimeDuration(\"PT1000000000000S\") * 999999 * 0 eq xs:dayTimeDuration(\"PT0S\")",
    "xs:date(\"12000-01-01\") eq xs:date(\"bad\")",
    "xs:time(\"00:00:00\") eq xs:time(\"00:00:00\") or xs:date(\"bad\") eq xs:date($1)",
    "xs:time(\"00:00:00\") eq xs:time(\"00:00:00\") or xs:date($16) eq xs:date($1)",
    "xs:time(\"00:00:00\") ne xs:time(\"00:00:00\") and xs:date($16) eq xs:date($1)",
    "xs:time(\"00:00:00\") ne xs:time(\"00:00:00\") or xs:date($16) eq xs:date($1)",
    "xs:date($16) eq xs:date($1) or xs:time(\"00:00:00\") eq xs:time(\"00:00:00\")",
    "xs:date(\"9999-12-31\") + xs:dayTimeDuration(\"P1D\") eq xs:date($1)",
    "xs:date(\"9999-12-31\") + xs:dayTimeDuration(\"P1D\") + xs:dayTimeDuration($16) eq xs:date($1)",
    "xs:date(\"9999-12-31\") + xs:dayTimeDuration(\"P1D\") - xs:dayTimeDuration(\"P1D\") eq xs:date(\"9999-12-31\")",
    "xs:yearMonthDuration(\"P1000000M\") * 2 * 0 eq xs:yearMonthDuration(\"P0M\")",
    "xs:yearMonthDuration(\"P1000000M\") * 0 * 2 eq xs:yearMonthDuration(\"P0M\")",
    "xs:dayTimeDuration($1) - xs:date($2) eq xs:date($2)",
    "xs:dayTimeDuration(\"PT1H\") + xs:date(\"2000-01-01\") eq xs:date(\"2000-01-01\")",
    "xs:time(\"08:00:00+09:00\") eq xs:time(\"17:00:00-06:00\")",
    "xs:time(\"21:30:00+10:30\") eq xs:time(\"06:00:00-05:00\")",
    "xs:time($1) + xs:yearMonthDuration(\"P1M\") eq xs:time($1)",
    "and",
    "xs:time($1) eq xs:time($1) and",
    "or xs:time($1) eq xs:time($1)",
    "xs:time($1) eq xs:time($1) or or xs:time($1) eq xs:time($1)",
    "xs:time($1) eq xs:time($1))",
    "(xs:time($1) eq xs:time($1)",
    "not(xs:time($1) eq xs:time($1))",
    "xs:time($1) = xs:time($1)",
    "-xs:dayTimeDuration(\"PT1H\") eq xs:dayTimeDuration(\"-PT1H\")",
    "5 * xs:dayTimeDuration(\"PT1H\") eq xs:dayTimeDuration(\"PT5H\")",
    "xs:time($1) eq xs:time(\"00:00:00",
];
