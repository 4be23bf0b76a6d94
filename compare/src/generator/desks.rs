//! Whole cases of the desk program: a timetable and a file of conditions.

use super::blanks::{self, IN_A_FIELD};
use super::conditions::{self, Setting};
use super::cycle;
use super::damage::{damaged, noise};
use super::nine;
use super::random::Random;
use super::runs::{self, AT_NOTED, MOST, NOTED};
use super::texts;
use crate::desk::MOST_TIMETABLE_BYTES;

pub enum Timetable {
    /// No file of that name.
    Missing,
    /// A folder of that name: it can be opened and not read.
    Folder,
    Bytes(Vec<u8>),
}

impl Timetable {
    /// What the programs read of it.
    pub fn bytes(&self) -> &[u8] {
        match self {
            Timetable::Bytes(bytes) => &bytes[..bytes.len().min(MOST_TIMETABLE_BYTES + 1)],
            _ => b"",
        }
    }
}

pub struct Case {
    pub timetable: Timetable,
    pub conditions: Vec<u8>,
}

impl Case {
    /// A timetable of these lines, with an ending after the last, and a file of these conditions.
    pub fn of_lines(lines: &[impl AsRef<[u8]>], ending: &str, conditions: &[impl AsRef<[u8]>]) -> Case {
        let timetable = [joined(lines).as_slice(), ending.as_bytes()].concat();
        Case { timetable: Timetable::Bytes(timetable), conditions: [joined(conditions).as_slice(), b"\n"].concat() }
    }
}

fn joined(lines: &[impl AsRef<[u8]>]) -> Vec<u8> {
    lines.iter().map(AsRef::as_ref).collect::<Vec<&[u8]>>().join(&b'\n')
}

pub fn case(seed: u64) -> Case {
    let random = &mut Random::new(seed);
    if random.chance(45) {
        return with_runs(random);
    }
    let setting = Setting::new(random);
    match random.below(1000) {
        0..=5 => Case { timetable: Timetable::Missing, conditions: input(random, &setting) },
        6..=7 => Case { timetable: Timetable::Folder, conditions: input(random, &setting) },
        8..=13 => {
            let length = random.pick(&[65_535, 65_536, 65_536, 65_536, 65_537, 70_000]);
            let bytes = great_timetable(random, &setting, length);
            Case { timetable: Timetable::Bytes(bytes), conditions: few(random, &setting) }
        }
        14 => Case { timetable: Timetable::Bytes(newlines(random)), conditions: one(random, &setting) },
        15..=24 => {
            let length = random.pick(&[4_095, 4_096, 4_096, 4_097, 4_097, 5_000]);
            let conditions = great_input(random, &setting, length);
            Case { timetable: Timetable::Bytes(timetable(random, &setting)), conditions }
        }
        _ => Case { timetable: Timetable::Bytes(timetable(random, &setting)), conditions: input(random, &setting) },
    }
}

/// A timetable with run lines: many short runs, or a few that are as long as a run may be.
fn with_runs(random: &mut Random) -> Case {
    match random.weighted(&[62, 12, 24, 2]) {
        0 => {
            let setting = Setting::with_runs(random, 15);
            Case { timetable: Timetable::Bytes(timetable(random, &setting)), conditions: input(random, &setting) }
        }
        1 => {
            let setting = Setting::with_runs(random, 100);
            let bytes = lines(random, &setting, 1, 8);
            Case { timetable: Timetable::Bytes(bytes), conditions: input(random, &setting) }
        }
        2 => {
            let setting = Setting::with_runs(random, MOST);
            let bytes = lines(random, &setting, 1, 3);
            Case { timetable: Timetable::Bytes(bytes), conditions: few(random, &setting) }
        }
        _ => {
            let setting = Setting::with_runs(random, 10);
            let length = random.pick(&[10_000, 65_535, 65_536]);
            let bytes = great_timetable(random, &setting, length);
            Case { timetable: Timetable::Bytes(bytes), conditions: few(random, &setting) }
        }
    }
}

/// Cases at the bounds of the whole timetable, of the whole input and of runs, at the calendar's cycle, with blanks and with
/// nanoseconds, which chance alone would seldom make.
pub fn edges(seed: u64) -> Vec<Case> {
    let random = &mut Random::new(seed);
    let setting = &Setting::new(random);
    let mut cases = Vec::new();
    for (timetable, input) in [(65_535, 4_095), (65_536, 4_096), (65_537, 4_096), (65_536, 4_097), (65_537, 4_097)] {
        let bytes = great_timetable(random, setting, timetable);
        cases.push(Case { timetable: Timetable::Bytes(bytes), conditions: few(random, setting) });
        let bytes = self::timetable(random, setting);
        cases.push(Case { timetable: Timetable::Bytes(bytes), conditions: great_input(random, setting, input) });
        let bytes = vec![b'x'; timetable];
        cases.push(Case { timetable: Timetable::Bytes(bytes), conditions: great_input(random, setting, input) });
    }
    for timetable in ["", "\n", "\n\n", "\t", "\r\n", "x"] {
        let conditions = input(random, setting);
        cases.push(Case { timetable: Timetable::Bytes(timetable.as_bytes().to_vec()), conditions });
    }
    for input in ["", "\n", "\n\n", " ", "\r\n", "x"] {
        let timetable = Timetable::Bytes(self::timetable(random, setting));
        cases.push(Case { timetable, conditions: input.as_bytes().to_vec() });
    }
    cases.push(Case { timetable: Timetable::Missing, conditions: few(random, setting) });
    cases.push(Case { timetable: Timetable::Folder, conditions: few(random, setting) });
    cases.extend(run_edges());
    cases.extend(cycle::desks::cases());
    cases.extend(blanks::desks::cases());
    cases.extend(nine::desks::cases());
    cases
}

/// The noted run lines, and runs at the bounds of a line, of a run and of the counts.
fn run_edges() -> Vec<Case> {
    let (long, short): (Vec<_>, Vec<_>) =
        NOTED.iter().partition(|(_, outcome)| matches!(outcome, runs::Noted::Occurrences(count) if *count > 100));
    let tabbed = |noted: &[&(&str, runs::Noted)]| noted.iter().map(|(line, _)| runs::noted(line)).collect::<Vec<_>>();
    let mut cases = vec![Case::of_lines(&tabbed(&short), "\n", AT_NOTED)];
    for part in tabbed(&short).chunks(8) {
        cases.push(Case::of_lines(part, "", &AT_NOTED[..8]));
    }
    for (place, line) in tabbed(&long).iter().enumerate() {
        let conditions = [AT_NOTED[place % AT_NOTED.len()], AT_NOTED[0]];
        cases.push(Case::of_lines(std::slice::from_ref(line), ["", "\n"][place % 2], &conditions));
        cases.push(Case::of_lines(&[b"1\t2".to_vec(), line.clone(), b"1\t2".to_vec()], "", &[AT_NOTED[2]]));
    }
    let whole = runs::noted("n|every|2024-03-30T00:00:00|2024-03-30T23:59:00|PT1M");
    let half = "xs:time(xs:dateTime($2)) lt xs:time(\"12:00:00\")";
    // All sixteen seats at runs of the full length.
    cases.push(Case::of_lines(&[whole.clone(), whole.clone()], "\n", AT_NOTED));
    // A line that is as long as a timetable may be.
    let filled = [whole.as_slice(), b"\t", &vec![b'x'; 65_535 - whole.len()]].concat();
    cases.push(Case::of_lines(&[filled], "", &[half]));
    // Counts of hundreds of thousands.
    cases.push(Case::of_lines(&vec![whole.clone(); 150], "\n", &["xs:time(\"00:00:00\") eq xs:time(\"24:00:00\")"]));
    cases.push(Case::of_lines(&vec![whole; 40], "\n", &[half, "xs:date($16) eq xs:date($1)"]));
    // As many bad and empty runs as there is room for.
    cases.push(Case::of_lines(&vec![b"\tevery".to_vec(); 9_362], "\n", &[half]));
    let empty = runs::noted("|every|2024-03-31T00:00:00|2024-03-30T00:00:00|PT1M");
    cases.push(Case::of_lines(&vec![empty; 1_000], "\n", &["xs:date($16) eq xs:date($1)", half]));
    cases
}

pub(super) fn timetable(random: &mut Random, setting: &Setting) -> Vec<u8> {
    let rows = match random.weighted(&[5, 70, 20, 5]) {
        _ if setting.most_occurrences > 100 => random.below(5),
        0 => 0,
        1 => random.below(12),
        2 => random.below(40),
        _ => random.below(200),
    };
    lines(random, setting, rows, rows)
}

/// A timetable of so many lines, which end with bytes 13 and 10 in one of ten.
fn lines(random: &mut Random, setting: &Setting, least: usize, most: usize) -> Vec<u8> {
    let ending = if random.chance(10) { "\r\n" } else { "\n" };
    let mut bytes: Vec<u8> = Vec::new();
    for _ in 0..random.between(least as i64, most as i64) {
        bytes.extend(row(random, setting));
        bytes.extend(ending.as_bytes());
    }
    if random.chance(25) {
        bytes.pop();
    }
    if random.chance(4) {
        bytes.extend(random.pick(&["\n", "\n\n", "\t", "\r\n", "\t\n", "\n\t"]).as_bytes());
    }
    bytes
}

pub(super) fn row(random: &mut Random, setting: &Setting) -> Vec<u8> {
    if setting.most_occurrences > 0 && random.chance(75) {
        return runs::line(random, setting);
    }
    if random.chance(5) {
        return random.pick(&["", "", "\t", "\t\t", "\r", " "]).as_bytes().to_vec();
    }
    let mut fields: Vec<Vec<u8>> = setting.columns.iter().map(|&kind| field(random, setting, kind)).collect();
    if random.chance(8) {
        fields.truncate(random.below(fields.len()) + 1);
    }
    if random.chance(5) {
        fields.push(noise(random));
    }
    let mut line = fields.join(&b'\t');
    if random.chance(3) {
        line.push(b'\r');
    }
    line
}

fn field(random: &mut Random, setting: &Setting, kind: crate::values::Kind) -> Vec<u8> {
    let text = unpadded(random, setting, kind);
    if random.chance(12) {
        return IN_A_FIELD.any(random, &text);
    }
    text
}

fn unpadded(random: &mut Random, setting: &Setting, kind: crate::values::Kind) -> Vec<u8> {
    match random.weighted(&[55, 32, 5, 5, 3]) {
        0 => setting.pooled(random, kind).into_bytes(),
        1 => texts::good(random, kind).into_bytes(),
        2 => texts::beyond(random, kind).into_bytes(),
        3 => {
            let text = texts::good(random, kind);
            damaged(random, text.as_bytes())
        }
        _ => Vec::new(),
    }
}

/// A timetable of so many bytes, with long lines: a further field, or many blanks after the last one.
pub(super) fn great_timetable(random: &mut Random, setting: &Setting, length: usize) -> Vec<u8> {
    let mut bytes: Vec<u8> = Vec::new();
    while bytes.len() < length {
        bytes.extend(row(random, setting));
        let (first, then) = random.pick(&[(b'\t', b'x'), (b'\t', b'x'), (b' ', b' '), (b' ', b'\r')]);
        bytes.push(first);
        bytes.extend(vec![then; random.below(1200)]);
        bytes.push(b'\n');
    }
    bytes.truncate(length);
    bytes
}

/// Almost nothing but empty lines.
fn newlines(random: &mut Random) -> Vec<u8> {
    let mut bytes = vec![b'\n'; random.pick(&[9_999, 10_000, 20_000])];
    let place = random.below(bytes.len());
    bytes[place] = b'\t';
    bytes
}

fn one(random: &mut Random, setting: &Setting) -> Vec<u8> {
    format!("{}\n", conditions::fitting(random, setting, 0, 0)).into_bytes()
}

fn few(random: &mut Random, setting: &Setting) -> Vec<u8> {
    (0..random.between(1, 3)).flat_map(|_| one(random, setting)).collect()
}

fn input(random: &mut Random, setting: &Setting) -> Vec<u8> {
    let count = match random.weighted(&[3, 65, 17, 15]) {
        0 => 0,
        1 => random.between(1, 6),
        2 => random.between(7, 14),
        _ => random.between(15, 20),
    };
    let mut bytes: Vec<u8> = Vec::new();
    for _ in 0..count {
        let condition = condition(random, setting, count);
        if bytes.len() + condition.len() + 1 > 4_096 {
            break;
        }
        bytes.extend(condition);
        bytes.push(b'\n');
    }
    if random.chance(25) {
        bytes.pop();
    }
    bytes
}

/// Where there are many conditions most are good, so that all seats are taken.
fn condition(random: &mut Random, setting: &Setting, count: i64) -> Vec<u8> {
    if random.chance(3) {
        return random.pick(&["", " ", "\r", "\t"]).as_bytes().to_vec();
    }
    if count >= 15 && random.chance(90) {
        return conditions::fitting(random, setting, 0, 0).into_bytes();
    }
    conditions::any(random, setting)
}

/// Input of so many bytes.
fn great_input(random: &mut Random, setting: &Setting, length: usize) -> Vec<u8> {
    let mut bytes: Vec<u8> = Vec::new();
    while bytes.len() < length {
        bytes.extend(one(random, setting));
        let blanks = random.below(6);
        if random.chance(20) {
            bytes.extend(vec![b'\n'; blanks]);
        }
    }
    bytes.truncate(length);
    bytes
}
