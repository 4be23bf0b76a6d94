//! Counts that show how well the generated cases cover what can be answered.

use super::blanks::counts;
use super::nine::counts as fractions;
use crate::conditions::accept;
use crate::hostile::{Script, MOST_EVENTS_BYTES};
use crate::library::Session;
use crate::lines::{fields, lines};
use crate::programs::{answer_line, desk, judgements, MOST_CALLS_BYTES};
use crate::runs::{is_run_line, Run};
use std::collections::BTreeMap;

#[derive(Default)]
pub struct Histogram {
    /// Whether anything is counted at all: that takes as long as to answer the cases.
    counting: bool,
    counts: BTreeMap<String, usize>,
}

impl Histogram {
    pub fn shown() -> Histogram {
        Histogram { counting: true, counts: BTreeMap::new() }
    }

    fn count(&mut self, name: String) {
        *self.counts.entry(name).or_insert(0) += 1;
    }

    fn count_blanks(&mut self, names: Vec<String>) {
        names.into_iter().for_each(|name| self.count(format!("blanks     {name}")));
    }

    fn count_fractions(&mut self, names: Vec<String>) {
        names.into_iter().for_each(|name| self.count(format!("fraction   {name}")));
    }

    /// A call by its word, by its kinds, by its answer, and by the blanks and fractions in its texts.
    pub fn count_call(&mut self, line: &[u8]) {
        if !self.counting {
            return;
        }
        let answer = answer_line(line);
        let result = match answer.trim_end().strip_prefix("refused\t") {
            Some(number) => format!("refused {number:>2}"),
            None => "answered".to_string(),
        };
        self.count(format!("answer     {result}"));
        let fields: Vec<String> =
            line.split(|&byte| byte == b'\t').map(|field| String::from_utf8_lossy(field).into_owned()).collect();
        if result == "refused  7" {
            return;
        }
        self.count_blanks(counts::of_call(line));
        self.count_fractions(fractions::of_call(line));
        self.count(format!("call       {} {result}", fields[0]));
        if fields[0] == "compare" && result == "answered" {
            self.count(format!("compare    {}", answer.trim_end()));
        }
        let kinds: Vec<&str> = fields[1..].iter().filter(|field| field.starts_with("xs:")).map(|field| &field[3..]).collect();
        self.count(format!("kinds      {} {}", fields[0], kinds.join(" ")));
    }

    /// The desk program's output by the words of its lines and by its numbers, the timetable's lines by what they stand
    /// for, where it has runs the good conditions by the fields that they read, and fields and literals by their blanks and
    /// fractions.
    pub fn count_desk(&mut self, timetable: &[u8], conditions: &[u8]) {
        if !self.counting {
            return;
        }
        let sorts: Vec<String> = lines(timetable).into_iter().map(line_sort).collect();
        let runs = sorts.iter().any(|sort| sort.starts_with("run"));
        self.count(format!("case       {}", if runs { "with runs" } else { "without runs" }));
        if runs {
            sorts.into_iter().for_each(|sort| self.count(format!("line       {sort}")));
            let good = lines(conditions).into_iter().filter(|condition| accept(condition).is_ok());
            good.for_each(|condition| self.count(format!("condition  {}", fields_read(condition))));
        }
        self.count_blanks(counts::of_desk(timetable, conditions));
        self.count_fractions(fractions::of_lines("timetable", timetable));
        self.count_fractions(fractions::of_lines("conditions", conditions));
        for line in desk(timetable, conditions).lines() {
            let fields: Vec<&str> = line.split('\t').collect();
            let name = match fields[0] {
                "refused" => format!("refused {:>2}", fields[1]),
                "unreadable" => format!("unreadable {:>2}", fields[3]),
                word @ ("hit" | "miss") => format!("{word} at place {}", if fields[3] == "0" { "0" } else { "above 0" }),
                word => word.to_string(),
            };
            self.count(name);
        }
    }

    /// A line of `judgements` by its answer, and by its fractions.
    pub fn count_judgement(&mut self, line: &[u8]) {
        if !self.counting {
            return;
        }
        let answer = judgements(line);
        let name = match answer.trim_end().split_once('\t') {
            Some((word, number)) => format!("{word} {number:>2}"),
            None => answer.trim_end().to_string(),
        };
        self.count(format!("judged     {name}"));
        self.count_fractions(fractions::of_lines("line", line));
    }

    /// Each event by its word and by the words of its answer's first line.
    pub fn count_hostile(&mut self, file: &[u8], input: &[u8]) {
        if !self.counting {
            return;
        }
        if input.len() > MOST_EVENTS_BYTES {
            return self.count("whole input refused  7".to_string());
        }
        let mut script = Script::new(file);
        for line in lines(input) {
            let answer = script.answer(line);
            let fields: Vec<&str> = answer.lines().next().unwrap_or("").split('\t').collect();
            let result = match fields[..] {
                ["refused", number] => format!("refused {number:>2}"),
                ["unreadable", .., number] => format!("unreadable {number}"),
                ["wrote", _, last] => format!("wrote {last}"),
                _ => fields[0].to_string(),
            };
            let word = line.split(|&byte| byte == b'\t').next().unwrap_or(line);
            let known: &[&[u8]] = &[b"fresh", b"part", b"open", b"close", b"turn", b"turns", b"sound", b"show", b"set", b"seat"];
            let word = if known.contains(&word) { String::from_utf8_lossy(word).into_owned() } else { "none".to_string() };
            self.count(format!("{word:<10} {result}"));
        }
    }

    /// Each call of the library by its word and by its answer, and by the blanks and fractions in its texts.
    pub fn count_library(&mut self, timetable: &[u8], input: &[u8]) {
        if !self.counting {
            return;
        }
        let mut session = match Session::new(timetable) {
            Ok(session) if input.len() <= MOST_CALLS_BYTES => session,
            _ => return self.count("whole input refused".to_string()),
        };
        for line in lines(input) {
            let name = library_words(line, &session.answer(line));
            self.count(name);
            self.count_blanks(counts::of_library(line));
            self.count_fractions(fractions::of_lines("line", line));
        }
    }

    pub fn print(&self) {
        for (name, count) in &self.counts {
            eprintln!("{count:>9}  {name}");
        }
    }
}

/// What a line of the timetable stands for.
pub fn line_sort(line: &[u8]) -> String {
    let fields = fields(line);
    match Run::of(&fields) {
        Ok(None) if fields.get(1).is_some_and(|field| field.to_ascii_lowercase().windows(4).any(|part| part == b"ever")) => {
            "plain, almost the word".to_string()
        }
        Ok(None) => "plain".to_string(),
        Ok(Some(run)) => match run.count {
            0..=2 | 1_439 | 1_440 => format!("run of {:>5}", run.count),
            3..=15 => "run of     3 to 15".to_string(),
            16..=100 => "run of    16 to 100".to_string(),
            _ => "run of   101 to 1,438".to_string(),
        },
        Err(number) => {
            assert!(is_run_line(&fields));
            format!("run refused {number:>2}")
        }
    }
}

/// Which of the fields that make a run a condition reads.
fn fields_read(condition: &[u8]) -> String {
    let text = String::from_utf8_lossy(condition);
    let reads =
        |name: &str| text.match_indices(name).any(|(at, _)| !text[at + 2..].starts_with(|next: char| next.is_ascii_digit()));
    let read: Vec<&str> = ["$2", "$3", "$4", "$5"].into_iter().filter(|name| reads(name)).collect();
    match (read.is_empty(), text.contains('$')) {
        (true, true) => "reads other fields".to_string(),
        (true, false) => "reads no field".to_string(),
        _ => format!("reads {}", read.join(" ")),
    }
}

/// The word of a library call and what its answer is, such as `record refused 15`.
pub fn library_words(line: &[u8], answer: &str) -> String {
    let fields: Vec<&str> = answer.trim_end_matches('\n').split('\t').collect();
    let result = match fields[..] {
        ["refused", number, ..] => format!("refused {number:>2}"),
        ["unreadable", .., number] => format!("unreadable {number:>2}"),
        [word @ ("wrote" | "open" | "hit" | "miss" | "done"), ..] => word.to_string(),
        [word @ ("lt" | "eq" | "gt" | "yes" | "no" | "closed" | "idle")] => word.to_string(),
        _ => "answered".to_string(),
    };
    let known: &[&[u8]] = &[
        b"date",
        b"time",
        b"dateTime",
        b"dayTime",
        b"yearMonth",
        b"record",
        b"write",
        b"bytes",
        b"compare",
        b"late",
        b"open",
        b"close",
        b"turn",
    ];
    let word = line.split(|&byte| byte == b'\t').next().unwrap_or(line);
    let word = if known.contains(&word) { String::from_utf8_lossy(word) } else { "none".into() };
    format!("{word:<10} {result}")
}
