//! The programs run over the same cases, in turn; the least time of each is kept.

use std::fs::{self, File};
use std::io::{self, Read};
use std::path::{Path, PathBuf};
use std::process::{Child, Command, Stdio};
use std::time::{Duration, Instant};

/// Every case is run in every round, so that a slow moment of the machine meets all of them.
pub const ROUNDS: usize = 7;
/// A case shorter than this is run so many times in a round.
const SHORT: Duration = Duration::from_millis(40);
pub const SHORT_RUNS: usize = 5;

pub struct Programs {
    pub proved: PathBuf,
    pub independent: PathBuf,
    /// The independent program with each condition's text read once, when it is opened.
    pub read_once: PathBuf,
    /// The proved program as it was, where one is given.
    pub before: Option<PathBuf>,
}

/// The least times of the programs.
#[derive(Clone, Copy)]
pub struct Times {
    pub proved: Duration,
    pub independent: Duration,
    read_once: Duration,
    before: Duration,
}

/// Nanoseconds for a turn of each program.
#[derive(Clone, Copy)]
pub struct Costs {
    pub proved: f64,
    pub independent: f64,
    pub read_once: f64,
}

/// A timetable and conditions in a folder of their own, and the same conditions with an empty timetable in another.
pub struct Case {
    pub folder: PathBuf,
    pub timetable_bytes: usize,
    pub timetable_lines: usize,
    pub conditions: Vec<String>,
    /// How many turns are at a line.
    pub turns: usize,
    pub answers: String,
    /// The program before, where it is asked too.
    before: Option<PathBuf>,
    pub start_folder: PathBuf,
    times: Times,
    starts: Times,
}

impl Costs {
    /// In the order of the tables' columns.
    pub fn each(&self) -> [f64; 3] {
        [self.proved, self.independent, self.read_once]
    }

    /// How many times the independent program's time the proved one takes.
    pub fn to_independent(&self) -> f64 {
        self.proved / self.independent
    }

    /// The same of the variant that reads the text once.
    pub fn to_read_once(&self) -> f64 {
        self.proved / self.read_once
    }
}

impl Times {
    const NONE: Times =
        Times { proved: Duration::MAX, independent: Duration::MAX, read_once: Duration::MAX, before: Duration::MAX };

    fn measure(&mut self, programs: &Programs, before: Option<&Path>, folder: &Path) -> io::Result<()> {
        self.proved = self.proved.min(timed(&programs.proved, folder)?);
        if let Some(before) = before {
            self.before = self.before.min(timed(before, folder)?);
        }
        self.independent = self.independent.min(timed(&programs.independent, folder)?);
        self.read_once = self.read_once.min(timed(&programs.read_once, folder)?);
        Ok(())
    }
}

impl Case {
    /// Writes the case and has the programs answer it, the one before among them where it is asked too: what they write has to be the
    /// same, and every condition accepted.
    pub fn new(
        programs: &Programs,
        before: Option<&Path>,
        folder: PathBuf,
        timetable: &[u8],
        conditions: &[String],
    ) -> io::Result<Case> {
        let start_folder = folder.join("start");
        write(&start_folder, b"", conditions)?;
        write(&folder, timetable, conditions)?;
        same_answers(programs, before, &start_folder)?;
        let answers = same_answers(programs, before, &folder)?;
        let opened = answers.lines().filter(|line| line.starts_with("open\t")).count();
        if opened != conditions.len() || !answers.ends_with("idle\n") {
            return Err(io::Error::other(format!("a condition is refused: {}", folder.display())));
        }
        // Each condition has one line when it is opened and one when it is done, and the last line is Idle's.
        let turns = answers.lines().count() - 2 * opened - 1;
        let (timetable_bytes, conditions) = (timetable.len(), conditions.to_vec());
        let timetable_lines = timetable.iter().filter(|&&byte| byte == b'\n').count();
        let (times, starts) = (Times::NONE, Times::NONE);
        let before = before.map(Path::to_path_buf);
        Ok(Case { folder, timetable_bytes, timetable_lines, conditions, turns, answers, before, start_folder, times, starts })
    }

    fn measure(&mut self, programs: &Programs) -> io::Result<()> {
        self.times.measure(programs, self.before.as_deref(), &self.folder)?;
        self.starts.measure(programs, self.before.as_deref(), &self.start_folder)
    }

    /// Whether it is run several times in each round: a short one, and one that the program before is asked too.
    fn is_repeated(&self) -> bool {
        self.times.proved < SHORT || self.before.is_some()
    }

    /// The start of each program: what it takes with an empty timetable.
    pub fn starts(&self) -> Times {
        self.starts
    }

    /// Nanoseconds for a turn at a line: the time of the whole run less that of the start, over the turns.
    pub fn costs(&self) -> Costs {
        Costs {
            proved: self.cost(|times| times.proved),
            independent: self.cost(|times| times.independent),
            read_once: self.cost(|times| times.read_once),
        }
    }

    /// The same of the program before, where it was asked.
    pub fn cost_before(&self) -> Option<f64> {
        self.before.as_ref().map(|_| self.cost(|times| times.before))
    }

    fn cost(&self, of: impl Fn(&Times) -> Duration) -> f64 {
        let [whole, start] = [&self.times, &self.starts].map(|times| of(times).as_secs_f64());
        (whole - start) * 1e9 / self.turns as f64
    }
}

/// Measures all cases, the programs in turn.
pub fn measure_all<'a>(programs: &Programs, cases: impl Iterator<Item = &'a mut Case>) -> io::Result<()> {
    let mut cases: Vec<&mut Case> = cases.collect();
    for round in 1..=ROUNDS {
        eprintln!("round {round} of {ROUNDS}");
        for case in &mut cases {
            case.measure(programs)?;
            let more = if case.is_repeated() { SHORT_RUNS - 1 } else { 0 };
            for _ in 0..more {
                case.measure(programs)?;
            }
        }
    }
    Ok(())
}

fn write(folder: &Path, timetable: &[u8], conditions: &[String]) -> io::Result<()> {
    fs::create_dir_all(folder)?;
    fs::write(folder.join("timetable.tsv"), timetable)?;
    fs::write(folder.join("conditions"), conditions.iter().map(|line| format!("{line}\n")).collect::<String>())
}

/// The program as it is run on a case.
pub fn command(program: &Path, folder: &Path) -> io::Result<Command> {
    let mut command = Command::new(program);
    command.current_dir(folder).stdin(File::open(folder.join("conditions"))?);
    Ok(command)
}

/// What the programs write, which is the same byte for byte.
fn same_answers(programs: &Programs, before: Option<&Path>, folder: &Path) -> io::Result<String> {
    let answers = answered(&programs.proved, folder)?;
    let others = [Some(programs.independent.as_path()), Some(programs.read_once.as_path()), before];
    for program in others.into_iter().flatten() {
        if answered(program, folder)? != answers {
            let (proved, program) = (programs.proved.display(), program.display());
            return Err(io::Error::other(format!("{proved} and {program} differ: {}", folder.display())));
        }
    }
    Ok(answers)
}

fn answered(program: &Path, folder: &Path) -> io::Result<String> {
    let output = command(program, folder)?.output()?;
    if !output.status.success() {
        return Err(io::Error::other(format!("{} ended with {}", program.display(), output.status)));
    }
    String::from_utf8(output.stdout).map_err(io::Error::other)
}

/// Whether the kernel tells the time that a program had the processor. Where it does not, elapsed time is measured.
pub fn has_processor_time() -> bool {
    Path::new("/proc/self/schedstat").exists()
}

fn timed(program: &Path, folder: &Path) -> io::Result<Duration> {
    let mut command = command(program, folder)?;
    command.stdout(Stdio::null()).stderr(Stdio::piped());
    let start = Instant::now();
    let mut child = command.spawn()?;
    // The pipe is closed when the program ends; until it is waited for, the kernel keeps its figures.
    child.stderr.take().map(|mut said| said.read_to_end(&mut Vec::new())).transpose()?;
    let elapsed = start.elapsed();
    let time = if has_processor_time() { processor_time(&child)? } else { elapsed };
    let status = child.wait()?;
    if !status.success() {
        return Err(io::Error::other(format!("{} ended with {status}", program.display())));
    }
    Ok(time)
}

/// The time that an ended program had the processor.
fn processor_time(child: &Child) -> io::Result<Duration> {
    let place = format!("/proc/{}", child.id());
    while !fs::read_to_string(format!("{place}/stat"))?.contains(") Z ") {
        std::thread::yield_now();
    }
    let figures = fs::read_to_string(format!("{place}/schedstat"))?;
    let nanoseconds = figures.split_whitespace().next().and_then(|word| word.parse().ok());
    Ok(Duration::from_nanos(nanoseconds.ok_or_else(|| io::Error::other("schedstat holds no number"))?))
}

/// The most memory that a program had, in KiB, as the kernel tells it while the program waits for its output to be read.
/// The output has to be longer than a pipe holds.
pub fn peak_memory(program: &Path, folder: &Path) -> io::Result<u64> {
    let mut child = command(program, folder)?.stdout(Stdio::piped()).spawn()?;
    let mut peak = 0;
    let mut buffer = vec![0; 65_536];
    while let Some(output) = child.stdout.as_mut() {
        if output.read(&mut buffer)? == 0 {
            break;
        }
        peak = peak.max(high_water(&child));
    }
    child.wait()?;
    Ok(peak)
}

/// 0 where the program has ended.
fn high_water(child: &Child) -> u64 {
    let status = fs::read_to_string(format!("/proc/{}/status", child.id())).unwrap_or_default();
    let line = status.lines().find_map(|line| line.strip_prefix("VmHWM:"));
    line.and_then(|rest| rest.split_whitespace().next()).and_then(|word| word.parse().ok()).unwrap_or(0)
}
