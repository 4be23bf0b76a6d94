//! Ways to build a desk over a timetable with run lines: every place, at lines of every sort and within them, and
//! counts at the bound that a place moves.

use super::ways::{held, way, File, Way, GREATEST, HALF, WORD};

/// The timetable's lines, each with its name and how many places it has; the last one has no byte 10.
pub const LINES: &[(&str, u64, &str)] = &[
    ("run-3", 3, "n1\tevery\t2024-03-30T23:50:00+01:00\t2024-03-31T00:10:00+01:00\tPT10M\tx"),
    ("plain", 1, "7\t2024-03-31T00:00:00Z\tx"),
    ("run-1", 1, "n2\tevery\t2024-03-30T24:00:00\t2024-03-31T00:00:00Z\tP1D"),
    ("run-0", 0, "n3\tevery\t2024-03-31T00:00:00+01:00\t2024-03-30T22:59:59.999999999\tPT1S"),
    ("refused-1", 0, "n4\tevery\tlate\t2024-03-31T00:00:00\tPT1S"),
    ("refused-2", 0, "n5\tevery\t2024-03-31T00:00:00\t9999-12-31T24:00:00\tPT1S"),
    ("refused-3", 0, "n6\tevery\t2024-03-31T00:00:00\t2024-03-31T00:00:00\tPT0.0000000001S"),
    ("refused-6", 0, "n7\tevery\t2024-03-31T00:00:00\t2024-03-31T00:00:00"),
    ("refused-17", 0, "n8\tevery\t2024-03-31T00:00:00\t2024-03-30T00:00:00\tPT0S"),
    ("refused-18", 0, "n9\tevery\t2024-03-30T00:00:00\t2024-03-31T00:00:00\tPT1M"),
    ("refused-4", 0, "na\tevery\t9999-12-31T23:59:00Z\t9999-12-31T23:00:00-01:00\tPT1M"),
    ("empty-line", 1, ""),
    ("unreadable", 1, "8\tlate"),
    ("run-2-padded", 2, "nf\tevery\t 2024-03-30T23:50:00Z\t2024-03-31T00:00:00Z   \t\rPT10M \r"),
    ("almost", 1, "nb\tevery \t2024-03-30T23:50:00\t2024-03-31T00:10:00\tPT10M"),
    ("run-1439", 1_439, "nc\tevery\t2024-03-30T00:00:00Z\t2024-03-30T23:58:00Z\tPT1M"),
    ("run-1440", 1_440, "nd\tevery\t2024-03-30T12:00:00\t2024-03-31T11:59:59.999999999\tPT1M"),
    ("run-2-unended", 2, "ne\tevery\t2024-03-30T23:59:59.999999999Z\t2024-03-31T00:00:00Z\tPT0.000000001S"),
];

/// A condition that misses before midnight, hits after it, and is refused where the second field is no dateTime.
const BY_MOMENT: &str = "xs:dateTime($2) ge xs:dateTime(\"2024-03-31T00:00:00\")";
const ALWAYS: &str = "xs:time(\"00:00:00\") eq xs:time(\"24:00:00\")";
const REFUSED: &str = "xs:dateTime($3) le xs:dateTime($2) and xs:date($16) eq xs:date($1)";

pub const CONDITIONS: [&str; 3] = [BY_MOMENT, ALWAYS, REFUSED];

pub fn table() -> String {
    LINES.iter().map(|(_, _, line)| *line).collect::<Vec<&str>>().join("\n")
}

/// Where the line of a name starts.
fn start(name: &str) -> u64 {
    let before = LINES.iter().take_while(|line| line.0 != name);
    before.map(|(_, _, line)| line.len() as u64 + 1).sum()
}

/// A sound desk over the whole table with `p`, `q` and `r` held, `p` at this offset and place and next to be served.
fn at(offset: u64, place: u64) -> Vec<String> {
    let length = table().len();
    let mut events = vec![format!("fresh {length}"), format!("part {length}"), "set last_served o".to_string()];
    events.push("set issued 9".to_string());
    events.extend(held("p", 3, offset, 0, BY_MOMENT));
    events.push(format!("seat p place {place}"));
    events.extend(held("q", 9, 0, 0, ALWAYS));
    events.extend(held("r", 5, start("run-1440"), 7, REFUSED));
    events.push("seat r place 1438".to_string());
    events
}

fn over_runs(name: String, events: Vec<String>) -> Way {
    Way { name, file: File::Runs, events }
}

pub fn ways() -> Vec<Way> {
    let mut ways = Vec::new();
    ways.extend(at_lines());
    ways.extend(within_lines());
    ways.extend(at_the_end());
    ways.extend(bounds());
    ways.extend(counts());
    ways.extend(other_conditions());
    ways
}

/// Each place that matters at each line.
fn at_lines() -> Vec<Way> {
    let mut ways = Vec::new();
    for &(name, count, _) in LINES {
        let mut places = vec![0, 1, 2, 700, 1_439, 1_440, WORD - 1];
        places.extend([count.saturating_sub(1), count, count + 1]);
        places.sort();
        places.dedup();
        for place in places {
            ways.push(over_runs(format!("place-{place}-at-{name}"), at(start(name), place)));
        }
    }
    ways
}

/// Offsets that are no line's start: before the word, at it, within it, after it and at the line's own byte 10.
fn within_lines() -> Vec<Way> {
    let mut ways = Vec::new();
    for name in ["run-3", "run-0", "refused-17", "run-1440", "run-2-unended"] {
        let line = LINES.iter().find(|line| line.0 == name).map_or("", |line| line.2);
        let tabs: Vec<u64> = line.match_indices('\t').map(|(at, _)| at as u64).collect();
        let mut inside = vec![1, tabs[0], tabs[0] + 1, tabs[0] + 2, tabs[1], tabs[1] + 1, tabs[3], line.len() as u64 - 1];
        if name != "run-2-unended" {
            inside.push(line.len() as u64);
        }
        for within in inside {
            for place in [0, 1] {
                let events = at(start(name) + within, place);
                ways.push(over_runs(format!("place-{place}-in-{name}-{within}"), events));
            }
        }
    }
    ways
}

/// Done whatever the place, if the desk is sound.
fn at_the_end() -> Vec<Way> {
    let mut ways = Vec::new();
    for place in [0, 1, 700, 1_439, 1_440, WORD - 1] {
        ways.push(over_runs(format!("place-{place}-at-end"), at(table().len() as u64, place)));
        let beyond = at(table().len() as u64 + 1, place);
        ways.push(over_runs(format!("place-{place}-beyond-end"), beyond));
    }
    ways
}

/// Places at the bound and far beyond it, in held seats and in free ones, over plain lines.
fn bounds() -> Vec<Way> {
    let mut ways = Vec::new();
    for place in [1, 2, 255, 256, 1_438, 1_439, 1_440, 1_441, 65_535, 65_536, 65_536 + 1_439, WORD / 2, WORD - 1_440, WORD - 1] {
        let set = format!("seat p place {place}");
        ways.push(way(format!("place-{place}"), &[&set]));
        ways.push(way(format!("place-{place}-second"), &[&format!("seat q place {place}")]));
        ways.push(way(format!("place-{place}-freed"), &[&set, "seat p held 0"]));
        ways.push(way(format!("place-{place}-free"), &[&format!("seat f place {place}")]));
        ways.push(way(format!("place-{place}-only-free"), &["fresh 66", &format!("seat f place {place}")]));
    }
    ways
}

/// Counts at 1,440 times the offset and the place, one more, and numbers that 64 bits have no room for.
fn counts() -> Vec<Way> {
    let mut ways = Vec::new();
    let length = table().len() as u64;
    for (offset, place) in [(0, 0), (0, 1), (0, 1_439), (1, 0), (1, 1_439), (start("run-1"), 3), (length, 0), (length, 1_439)] {
        let most = 1_440 * offset + place;
        let mut sums = vec![(most, 0), (0, most), (most / 2, most - most / 2)];
        sums.extend([(most + 1, 0), (0, most + 1), (most / 2 + 1, most - most / 2), (most + 1, most + 1)]);
        sums.extend([
            (GREATEST, 0),
            (GREATEST, 1),
            (GREATEST, most + 1),
            (GREATEST, GREATEST),
            (HALF, HALF),
            (HALF, HALF + most),
        ]);
        sums.sort();
        sums.dedup();
        for (hits, unreadable) in sums {
            let mut events = at(offset, place);
            events.extend([format!("seat p hits {hits}"), format!("seat p unreadable {unreadable}")]);
            ways.push(over_runs(format!("counts-{hits}-{unreadable}-at-{offset}-place-{place}"), events));
        }
    }
    // Offsets whose 1,440th multiple has no room in 64 bits, or comes round to a small number.
    for offset in [GREATEST / 1_440, GREATEST / 1_440 + 1, 1 << 59, (1 << 59) + 20, HALF, GREATEST] {
        for place in [0, 1_439] {
            let mut events = at(offset, place);
            events.extend(["seat p hits 1".to_string(), format!("set length {offset}")]);
            ways.push(over_runs(format!("counts-1-0-at-{offset}-place-{place}"), events));
        }
    }
    ways
}

/// A run under a condition that always hits, one that is always refused, and one that is not sound.
fn other_conditions() -> Vec<Way> {
    let mut ways = Vec::new();
    let conditions = [("always", ALWAYS), ("refused", REFUSED), ("no-condition", "xs:dateTime($2)")];
    for (name, condition) in conditions {
        for line in ["run-3", "run-0", "run-1440", "refused-17"] {
            for place in [0, 2, 3, 1_439] {
                let mut events = at(start(line), place);
                events.extend(super::ways::stored("p", condition));
                ways.push(over_runs(format!("{name}-{place}-at-{line}"), events));
            }
        }
    }
    ways
}
