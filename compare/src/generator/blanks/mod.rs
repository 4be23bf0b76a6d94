//! Blanks round a value (document 02, letter a): before it, after it, inside it, alone and in thousands, and beside them
//! bytes that others take for blanks. Here is how they come into random cases; the tables are in the files beside this one.

pub mod calls;
pub mod counts;
pub mod desks;
pub mod library;

use super::random::Random;
use crate::values::Kind;

/// Bytes that are never stripped: those that other programs strip, those whose numbers stand beside a blank's, and first and
/// last bytes of white space in UTF-8.
pub const OTHERS: &[u8] = &[0, 8, 11, 12, 14, 28, 31, 33, 95, 127, 128, 131, 133, 160, 191, 194, 226, 239, 255];

/// Of each kind, texts that read and texts that are refused, all three numbers among them.
pub const TEXTS: [(Kind, &[&str], &[&str]); 5] = [
    (
        Kind::Date,
        &["2024-03-31", "0001-01-01Z", "9999-12-31-14:00", "2024-02-29+05:30"],
        &["2023-02-29", "12000-13-45", "0000-01-01", "-0001-01-01", "2024-03-31T", "2024-03-31+14:01"],
    ),
    (
        Kind::Time,
        &["08:15:00", "24:00:00", "00:00:00.50Z", "23:59:59.999999999+14:00"],
        &["24:00:01", "08:15", "08:15:00.0000000000", "25:00:00.0000000000", "08:15:00ZZ"],
    ),
    (
        Kind::DateTime,
        &["2024-03-31T08:15:00", "1999-12-31T24:00:00Z", "9999-12-31T23:59:59.999999999-14:00"],
        &["9999-12-31T24:00:00", "10000-01-01T00:00:00", "2024-03-31T08:15:00.0000000000Z", "2024-03-31", "2024-02-30T24:00:00"],
    ),
    (
        Kind::DayTime,
        &["PT36H", "-P1DT2H3M4.5S", "-PT0S", "P0D", "PT1000000000000S"],
        &["PT1000000000000.000000001S", "PT0.0000000000S", "P", "PT", "P1Y", "P1DT"],
    ),
    (Kind::YearMonth, &["P1Y2M", "-P13M", "P0M", "P83333Y4M"], &["P83333Y5M", "PT1M", "P", "-P1"]),
];

/// What may stand round a value in a place.
pub struct Padding {
    /// The blanks that come to the value there.
    pub blanks: &'static [u8],
    /// Bytes beside them that are none.
    pub others: &'static [u8],
    /// How many blanks there are at most on a side.
    pub most: usize,
}

/// Tabs part fields, and newlines end lines.
pub const IN_A_FIELD: Padding = Padding { blanks: b"\r ", others: OTHERS, most: 2_000 };
/// A literal may hold tabs. There is little room in a condition.
pub const IN_A_LITERAL: Padding = Padding { blanks: b"\t\r ", others: OTHERS, most: 30 };
/// The text of the library's call `write`, which may hold tabs.
pub const IN_THE_REST: Padding = Padding { blanks: b"\t\r ", others: OTHERS, most: 2_000 };
/// The bytes that digits name in the library's call `bytes`.
pub const IN_DIGITS: Padding = Padding { blanks: b"\t\n\r ", others: OTHERS, most: 120 };

impl Padding {
    /// The text with blanks before it, after it, or on both sides.
    pub fn round(&self, random: &mut Random, text: &[u8]) -> Vec<u8> {
        let side = random.below(10);
        let before = if side < 6 { self.some(random) } else { Vec::new() };
        let after = if side > 2 { self.some(random) } else { Vec::new() };
        [before.as_slice(), text, &after].concat()
    }

    /// The same, but now and then blanks alone, with a blank inside the text, or with another byte at an end of the text or
    /// of the blanks.
    pub fn any(&self, random: &mut Random, text: &[u8]) -> Vec<u8> {
        match random.below(20) {
            0 => self.round(random, b""),
            1 => put(random, text, self.blanks, 1..text.len()),
            2 => {
                let inside = put(random, text, self.blanks, 1..text.len());
                self.round(random, &inside)
            }
            3 => {
                let beside = put(random, text, self.others, [0, text.len()]);
                self.round(random, &beside)
            }
            4 => {
                let padded = self.round(random, text);
                put(random, &padded, self.others, [0, padded.len()])
            }
            _ => self.round(random, text),
        }
    }

    /// One blank or more, seldom many.
    fn some(&self, random: &mut Random) -> Vec<u8> {
        let most = match random.weighted(&[60, 30, 9, 1]) {
            0 => 1,
            1 => 6,
            2 => 60,
            _ => self.most,
        };
        let count = 1 + random.below(most.min(self.most));
        let first = random.pick(self.blanks);
        let alike = random.chance(60);
        (0..count).map(|_| if alike { first } else { random.pick(self.blanks) }).collect()
    }
}

/// The text with one of the bytes put in at one of the places, if there is any place.
fn put(random: &mut Random, text: &[u8], bytes: &[u8], places: impl IntoIterator<Item = usize>) -> Vec<u8> {
    let places: Vec<usize> = places.into_iter().collect();
    let mut text = text.to_vec();
    if !places.is_empty() {
        text.insert(random.pick(&places), random.pick(bytes));
    }
    text
}

/// The condition with each of its literals as `pad` makes it.
pub fn in_literals(condition: &[u8], mut pad: impl FnMut(&[u8]) -> Vec<u8>) -> Vec<u8> {
    let parts: Vec<&[u8]> = condition.split(|&byte| byte == b'"').collect();
    let closed = |place: usize| place % 2 == 1 && place + 1 < parts.len();
    let padded = parts.iter().enumerate().map(|(place, part)| if closed(place) { pad(part) } else { part.to_vec() });
    padded.collect::<Vec<Vec<u8>>>().join(&b'"')
}

/// The text with these bytes put into it, once for each place where two of its bytes meet.
pub fn in_gaps(text: &[u8], bytes: &[u8]) -> Vec<Vec<u8>> {
    (1..text.len()).map(|at| [&text[..at], bytes, &text[at..]].concat()).collect()
}
