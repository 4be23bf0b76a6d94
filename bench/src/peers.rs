//! The same conditions over the same lines in XQuery processors that nobody here wrote, where they are installed.

use crate::measure::Case;
use std::fs;
use std::io;
use std::path::Path;
use std::process::Command;

/// So many runs within one start, the fastest of which counts: by then the machine code is warm. Saxon tells the time of each run
/// only where there are fewer than 100.
pub const RUNS: usize = 99;

/// Where Debian's package libsaxonhe-java has it.
const SAXON: &str = "/usr/share/java/Saxon-HE.jar";

struct Peer {
    name: &'static str,
    /// Tells the name and the version.
    version: fn() -> Command,
    /// Runs the query in a file so many times and tells the time of each run.
    query: fn(&Path) -> Command,
    /// What stands before the milliseconds of a run.
    time: &'static str,
}

const PEERS: [Peer; 2] = [
    Peer { name: "BaseX", version: basex_version, query: basex_query, time: "executed in " },
    Peer { name: "Saxon-HE", version: saxon_version, query: saxon_query, time: "Execution time: " },
];

/// What was measured of a peer.
pub struct Figures {
    /// With the version where it is installed.
    pub name: String,
    /// Nanoseconds for a turn of each case; None where it is not installed.
    pub costs: Option<Vec<f64>>,
}

pub fn measure(cases: &[&Case]) -> io::Result<Vec<Figures>> {
    PEERS.iter().map(|peer| peer.figures(cases)).collect()
}

impl Peer {
    fn figures(&self, cases: &[&Case]) -> io::Result<Figures> {
        let Some(version) = self.version()? else {
            return Ok(Figures { name: self.name.to_string(), costs: None });
        };
        eprintln!("{}", self.name);
        let costs: io::Result<Vec<f64>> = cases.iter().map(|case| self.cost(case)).collect();
        Ok(Figures { name: format!("{} {version}", self.name), costs: Some(costs?) })
    }

    /// None where it is not installed: there is no such command, or java finds no Saxon.
    fn version(&self) -> io::Result<Option<String>> {
        let output = match (self.version)().output() {
            Err(error) if error.kind() == io::ErrorKind::NotFound => return Ok(None),
            other => other?,
        };
        let version = |line: &str| {
            let mut words = line.split(' ');
            let is_named = words.next()?.eq_ignore_ascii_case(self.name);
            words.next().filter(|_| is_named).map(str::to_string)
        };
        Ok(said(&output.stderr).lines().find_map(version))
    }

    /// The time over the timetable less that over an empty one, over the turns.
    fn cost(&self, case: &Case) -> io::Result<f64> {
        let whole = self.least_time(&case.folder, case, &hits_of(case))?;
        let start = self.least_time(&case.start_folder, case, &vec!["0"; case.conditions.len()])?;
        Ok((whole - start) * 1e6 / case.turns as f64)
    }

    /// The milliseconds of the fastest run over a folder's timetable. The hits of each condition have to be those that are given.
    fn least_time(&self, folder: &Path, case: &Case, hits: &[&str]) -> io::Result<f64> {
        let file = folder.join("query.xq");
        fs::write(&file, query(&case.conditions))?;
        // A value without zone counts as UTC.
        let output = (self.query)(&file).env("TZ", "UTC").output()?;
        let told = said(&[output.stdout, output.stderr].concat());
        let counts = told.lines().filter(|line| line.starts_with(|first: char| first.is_ascii_digit()));
        if !counts.eq([hits.join(" ").as_str(); RUNS]) {
            return Err(io::Error::other(format!("{} counts other hits: {}", self.name, file.display())));
        }
        let times = told.lines().filter_map(|line| milliseconds(line.split_once(self.time)?.1));
        times.min_by(f64::total_cmp).ok_or_else(|| io::Error::other(format!("{} tells no time", self.name)))
    }
}

fn basex_version() -> Command {
    let mut command = Command::new("basex");
    command.arg("-h");
    command
}

fn basex_query(file: &Path) -> Command {
    let mut command = Command::new("basex");
    command.arg("-v").args([file; RUNS]);
    command
}

fn saxon_version() -> Command {
    let mut command = Command::new("java");
    command.args(["-cp", SAXON, "net.sf.saxon.Version"]);
    command
}

fn saxon_query(file: &Path) -> Command {
    let mut command = Command::new("java");
    command.args(["-cp", SAXON, "net.sf.saxon.Query", "-t", "!method=text"]);
    command.arg(format!("-repeat:{RUNS}")).arg(format!("-q:{}", file.display()));
    command
}

fn said(bytes: &[u8]) -> String {
    String::from_utf8_lossy(bytes).into_owned()
}

/// As in `31.04ms` and `31.04 ms.`; None for a slow run that is told in seconds.
fn milliseconds(told: &str) -> Option<f64> {
    told.split_once("ms")?.0.trim().parse().ok()
}

/// A query that counts the hits of each condition in the timetable beside it, and writes the counts as one line.
fn query(conditions: &[String]) -> String {
    let counts: Vec<String> = conditions.iter().map(|condition| count_of(condition)).collect();
    let lines = r#"tokenize(unparsed-text("timetable.tsv"), "\n")[. != ""]"#;
    format!("let $lines := {lines} return string-join((\n{}\n), \" \") || \"&#10;\"\n", counts.join(",\n"))
}

/// `$2` is the second field of a line.
fn count_of(condition: &str) -> String {
    let mut text = condition.to_string();
    for field in 1..=4 {
        text = text.replace(&format!("${field}"), &format!("$f[{field}]"));
    }
    format!("count($lines[let $f := tokenize(., \"\\t\") return {text}])")
}

fn hits_of(case: &Case) -> Vec<&str> {
    case.answers.lines().filter(|line| line.starts_with("done\t")).filter_map(|line| line.split('\t').nth(2)).collect()
}

#[cfg(test)]
mod tests {
    use super::*;

    #[test]
    fn times_are_read_as_both_peers_tell_them() {
        let [basex, saxon] = [&PEERS[0], &PEERS[1]].map(|peer| peer.time);
        let time = |line: &str, word| milliseconds(line.split_once(word).unwrap().1);
        assert_eq!(time("Query \"query.xq\" executed in 748.3 ms.", basex), Some(748.3));
        assert_eq!(time("Execution time: 31.016939ms", saxon), Some(31.016939));
        assert_eq!(time("Execution time: 1.2s", saxon), None);
    }
}
