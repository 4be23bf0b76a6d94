//! Ways to build a desk, by what document 01's sentence on soundness speaks of, on either side of each bound.

use super::built;
use super::conditions::{padded, BAD, BY_DATE, NEIGHBOURS};
use super::places;

pub(super) const GREATEST: u64 = u64::MAX;
pub(super) const HALF: u64 = 1 << 63;
pub(super) const WORD: u64 = 1 << 32;
const LAST_TICKET: u64 = WORD - 1;

/// Events that alter the desk of `built`. In events, as here throughout, one space stands for a tab, and a letter for a
/// place: `p` is the seat that is altered, `q` the one after it and `r` another, all three held; `f` is a free one, `o` the
/// one before `p`.
pub struct Way {
    pub name: String,
    pub file: File,
    pub events: Vec<String>,
}

/// The file that the timetable is a part of.
#[derive(Clone, Copy, PartialEq, Eq, Debug)]
pub enum File {
    /// The 66 bytes of the table.
    Table,
    /// The table and more, 65,537 bytes.
    Great,
    /// The lines of `places`, among them runs.
    Runs,
}

pub(super) fn way(name: impl Into<String>, events: &[&str]) -> Way {
    Way { name: name.into(), file: File::Table, events: events.iter().map(|event| event.to_string()).collect() }
}

fn great(name: impl Into<String>, events: &[&str]) -> Way {
    Way { file: File::Great, ..way(name, events) }
}

/// A held seat.
pub fn held(letter: &str, ticket: u64, offset: u64, hits: u64, condition: &str) -> Vec<String> {
    let mut events: Vec<String> = [("held", 1), ("ticket", ticket), ("offset", offset), ("hits", hits)]
        .iter()
        .map(|(name, number)| format!("seat {letter} {name} {number}"))
        .collect();
    events.extend(stored(letter, condition));
    events
}

/// A condition with its own length.
pub(super) fn stored(letter: &str, condition: &str) -> [String; 2] {
    [format!("seat {letter} condition_length {}", condition.len()), format!("seat {letter} condition {condition}")]
}

pub fn ways() -> Vec<Way> {
    let mut ways = vec![way("sound", &[]), way("all-free", &["fresh 66"]), great("sound-great", &[])];
    ways.extend(last_served());
    ways.extend(lengths());
    ways.extend(tickets());
    ways.extend(same_tickets());
    ways.extend(condition_lengths());
    ways.extend(conditions());
    ways.extend(offsets());
    ways.extend(counts());
    ways.extend(places::ways());
    ways.extend(free_seats());
    ways.extend(last_tickets());
    ways.extend(all_held());
    ways.extend(timetables());
    ways.extend(fresh_desks());
    ways
}

fn last_served() -> Vec<Way> {
    let mut ways = Vec::new();
    for number in [0, 14, 15, 16, 17, 31, 255, 256, WORD, WORD + 15, HALF, GREATEST - 15, GREATEST - 1, GREATEST] {
        let set = format!("set last_served {number}");
        ways.push(way(format!("last-served-{number}"), &[&set]));
        ways.push(way(format!("last-served-{number}-all-free"), &["fresh 66", &set]));
    }
    ways
}

fn lengths() -> Vec<Way> {
    let mut ways = Vec::new();
    for number in [0, 1, 40, 41, 65, 67, 65_535, 65_536, 65_537, 131_072, WORD, WORD + 66, HALF, GREATEST] {
        let (set, part) = (format!("set length {number}"), format!("part {}", number.min(65_537)));
        ways.push(great(format!("length-{number}"), &[&set, &part]));
        ways.push(great(format!("length-{number}-all-free"), &["fresh 66", &set, &part]));
    }
    ways
}

fn tickets() -> Vec<Way> {
    let mut ways = Vec::new();
    for number in [0, 1, 4, 8, 10, 11, LAST_TICKET] {
        let set = format!("seat p ticket {number}");
        ways.push(way(format!("ticket-{number}"), &[&set]));
        ways.push(way(format!("ticket-{number}-free"), &[&set, "seat p held 0"]));
        ways.push(way(format!("ticket-{number}-last-issued"), &[&set, "set issued 4294967295"]));
    }
    for number in [0, 1, 3, 8, 10] {
        ways.push(way(format!("issued-{number}"), &[&format!("set issued {number}")]));
    }
    ways.push(way("issued-8-highest-free", &["set issued 8", "seat q held 0"]));
    ways
}

fn same_tickets() -> Vec<Way> {
    let mut ways = vec![
        way("same-three", &["seat q ticket 3", "seat r ticket 3"]),
        way("same-zero", &["seat p ticket 0", "seat q ticket 0"]),
        way("same-as-zeroed", &["seat f ticket 3"]),
    ];
    for (one, other, ticket) in [("p", "q", 9), ("p", "r", 5), ("q", "p", 3), ("q", "r", 5), ("r", "p", 3), ("r", "q", 9)] {
        let same = format!("seat {one} ticket {ticket}");
        let (free_one, free_other) = (format!("seat {one} held 0"), format!("seat {other} held 0"));
        ways.push(way(format!("same-{one}-{other}"), &[&same]));
        ways.push(way(format!("same-{one}-{other}-one-free"), &[&same, &free_one]));
        ways.push(way(format!("same-{one}-{other}-other-free"), &[&same, &free_other]));
        ways.push(way(format!("same-{one}-{other}-both-free"), &[&same, &free_one, &free_other]));
    }
    ways
}

fn condition_lengths() -> Vec<Way> {
    let own = BY_DATE.len() as u64;
    let mut ways = Vec::new();
    for number in
        [0, 1, own - 1, own, own + 1, 239, 240, 241, 255, 256, 256 + own, 65_536 + own, WORD, WORD + own, HALF + own, GREATEST]
    {
        let set = format!("seat p condition_length {number}");
        ways.push(way(format!("condition-length-{number}"), &[&set]));
        let spaces = format!("seat p condition {}", padded(BY_DATE, 240));
        ways.push(way(format!("condition-length-{number}-spaces"), &[&spaces, &set]));
        ways.push(way(format!("condition-length-{number}-free"), &[&set, "seat p held 0"]));
    }
    let rests =
        [("noise", "((((\"bad"), ("and", " and xs:date($1) eq xs:date(\"bad\")"), ("or", " or xs:time($9) eq xs:time($9)")];
    for (name, rest) in rests {
        let filled = format!("seat p condition {}", padded(&format!("{BY_DATE}{rest}"), 240).replace("  ", "~~"));
        ways.push(way(format!("bytes-after-{name}"), &[&filled]));
    }
    ways
}

fn conditions() -> Vec<Way> {
    let mut ways = Vec::new();
    for (name, condition) in BAD.iter().chain(NEIGHBOURS) {
        for letter in ["p", "q"] {
            let [length, bytes] = stored(letter, condition);
            ways.push(way(format!("condition-{name}-{letter}"), &[&length, &bytes]));
        }
        let [length, bytes] = stored("p", condition);
        ways.push(way(format!("condition-{name}-free"), &[&length, &bytes, "seat p held 0"]));
    }
    ways
}

fn offsets() -> Vec<Way> {
    let mut ways = Vec::new();
    for number in [0, 1, 19, 21, 35, 36, 54, 55, 56, 65, 66, 67, 65_536, WORD + 20, HALF + 20, GREATEST] {
        let set = format!("seat p offset {number}");
        ways.push(way(format!("offset-{number}"), &[&set, "seat p hits 0"]));
        ways.push(way(format!("offset-{number}-free"), &[&set, "seat p hits 0", "seat p held 0"]));
    }
    for length in [65_535, 65_536] {
        for offset in [65_526, 65_533, 65_534, 65_535, 65_536, 65_537] {
            let (set, part) = (format!("set length {length}"), format!("part {length}"));
            let at = format!("seat p offset {offset}");
            ways.push(great(format!("offset-{offset}-of-{length}"), &[&set, &part, &at]));
        }
    }
    ways
}

fn counts() -> Vec<Way> {
    let mut ways = Vec::new();
    for offset in [0, 20, 66] {
        for (hits, unreadable) in near_sums(1_440 * offset) {
            let at = format!("seat p offset {offset}");
            let (hit, unread) = (format!("seat p hits {hits}"), format!("seat p unreadable {unreadable}"));
            ways.push(way(format!("counts-{hits}-{unreadable}-at-{offset}"), &[&at, &hit, &unread]));
        }
    }
    const MOST: u64 = 1_440 * 65_536;
    for (hits, unreadable) in [(MOST, 0), (0, MOST), (MOST / 2, MOST / 2), (MOST - 1, 0), (MOST, 1), (65_536, 1), (MOST, MOST)] {
        let (hit, unread) = (format!("seat p hits {hits}"), format!("seat p unreadable {unreadable}"));
        let events = ["set length 65536", "part 65536", "seat p offset 65536", &hit, &unread];
        ways.push(great(format!("counts-{hits}-{unreadable}-at-65536"), &events));
    }
    ways
}

/// Two counts whose sum is the most that there may be or one more, or has no room in 64 bits.
fn near_sums(most: u64) -> Vec<(u64, u64)> {
    let half = most / 2;
    let mut sums = vec![(most, 0), (0, most), (half, most - half)];
    sums.extend([(most + 1, 0), (0, most + 1), (half + 1, most - half), (half, most - half + 1), (most + 1, most + 1)]);
    sums.extend([(GREATEST, 0), (0, GREATEST), (GREATEST, 1), (1, GREATEST), (GREATEST, most + 1), (GREATEST, GREATEST)]);
    sums.extend([(HALF, HALF), (HALF, HALF + most), (HALF, HALF - 1), (WORD, 0), (WORD, GREATEST - WORD + 1)]);
    sums.sort();
    sums.dedup();
    sums
}

/// Rubbish in a free seat: everything that would break a held one.
fn rubbish(letter: &str) -> Vec<String> {
    let mut events = vec![format!("seat {letter} held 0"), format!("seat {letter} ticket 3")];
    for name in ["offset", "hits", "unreadable", "condition_length"] {
        events.push(format!("seat {letter} {name} {GREATEST}"));
    }
    events.push(format!("seat {letter} place {}", WORD - 1));
    events.push(format!("seat {letter} condition {}", "((\"\u{1}".repeat(60)));
    events
}

fn free_seats() -> Vec<Way> {
    let every: Vec<String> = (0..16).flat_map(|place| rubbish(&place.to_string())).collect();
    let mut all = every.clone();
    all.extend(built().into_iter().skip(2));
    all.extend(["p", "q", "r"].map(|letter| format!("seat {letter} unreadable 0")));
    all.extend(["p", "q", "r"].map(|letter| format!("seat {letter} place 0")));
    let named = |name: &str, events: Vec<String>| Way { name: name.to_string(), file: File::Table, events };
    vec![
        named("rubbish-p", rubbish("p")),
        named("rubbish-f", rubbish("f")),
        named("rubbish-all-free", every),
        named("rubbish-round-held", all),
        way("freed-p", &["seat p held 0"]),
        way("freed-all", &["seat p held 0", "seat q held 0", "seat r held 0"]),
        way("held-zeros", &["seat f held 1"]),
        way("held-zeros-only", &["fresh 66", "seat f held 1"]),
        way("held-zeros-ticket", &["seat f held 1", "seat f ticket 7"]),
    ]
}

fn last_tickets() -> Vec<Way> {
    let mut ways = Vec::new();
    for number in [LAST_TICKET - 2, LAST_TICKET - 1, LAST_TICKET] {
        let set = format!("set issued {number}");
        ways.push(way(format!("issued-{number}"), &[&set]));
        ways.push(way(format!("issued-{number}-all-free"), &["fresh 66", &set]));
        ways.push(way(format!("issued-{number}-unsound"), &[&set, "seat p ticket 0"]));
    }
    ways
}

/// Sixteen held seats with the tickets 1 to 16.
fn full(issued: u64) -> Vec<String> {
    let mut events: Vec<String> = (0..16).flat_map(|place| held(&place.to_string(), place + 1, 0, 0, BY_DATE)).collect();
    events.push(format!("set issued {issued}"));
    events
}

fn all_held() -> Vec<Way> {
    let with = |name: &str, issued: u64, more: &str| {
        let mut events = full(issued);
        events.extend((!more.is_empty()).then(|| more.to_string()));
        Way { name: format!("all-held{name}"), file: File::Table, events }
    };
    vec![
        with("", 16, ""),
        with("-last-issued", LAST_TICKET, ""),
        with("-unsound", 16, "seat p offset 67"),
        with("-same-ticket", 16, "seat p ticket 7"),
        with("-but-p", 16, "seat p held 0"),
        with("-but-p-last-issued", LAST_TICKET, "seat p held 0"),
        with("-but-p-one-below", LAST_TICKET - 1, "seat p held 0"),
        with("-issued-15", 15, ""),
    ]
}

fn timetables() -> Vec<Way> {
    let mut ways = Vec::new();
    for number in [0, 1, 65, 67, 65_536, 65_537] {
        let part = format!("part {number}");
        ways.push(great(format!("part-{number}"), &[&part]));
        ways.push(great(format!("part-{number}-all-free"), &["fresh 66", &part]));
        ways.push(great(format!("part-{number}-unsound"), &["seat p ticket 0", &part]));
        ways.push(great(format!("part-{number}-unsound-all-free"), &["fresh 66", "set last_served 16", &part]));
    }
    ways
}

fn fresh_desks() -> Vec<Way> {
    let mut ways = Vec::new();
    for number in [0, 65_535, 65_536, 65_537, 65_538, 131_072, WORD, WORD + 66, HALF, GREATEST] {
        let fresh = format!("fresh {number}");
        let part = format!("part {}", number.min(65_537));
        ways.push(great(format!("fresh-{number}"), &[&fresh, &part]));
        ways.push(great(format!("fresh-{number}-repaired"), &[&fresh, "set last_served 15", "part 0"]));
        ways.push(great(format!("fresh-{number}-part-0"), &[&fresh, "part 0"]));
    }
    ways
}
