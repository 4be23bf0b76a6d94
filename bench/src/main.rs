//! Measures the proved desk program against the independent one and prints tables.
//!
//!     bench PROVED INDEPENDENT READ_ONCE FOLDER [BEFORE]      the cases are written into FOLDER
//!
//! READ_ONCE is the independent program with each condition's text read once, when it is opened. BEFORE is the proved
//! program as it was: a turn at a plain line is then measured of both.

mod goals;
mod inputs;
mod markdown;
mod measure;
mod peers;
mod plan;
mod profile;
mod report;
mod shares;

use measure::{measure_all, peak_memory, Case, Programs};
use plan::{Named, Plan, Series, ALL_ASKED, ASKED_OF_PEERS, OVER_EMPTY_LINES};
use shares::Shares;
use std::io;
use std::path::Path;
use std::process::ExitCode;

fn main() -> ExitCode {
    let words: Vec<String> = std::env::args().skip(1).collect();
    let [proved, independent, read_once, work, before @ ..] = &words[..] else {
        eprintln!("words: PROVED INDEPENDENT READ_ONCE FOLDER [BEFORE]");
        return ExitCode::from(2);
    };
    let before = before.first().map(Into::into);
    let programs = Programs { proved: proved.into(), independent: independent.into(), read_once: read_once.into(), before };
    match run(&programs, Path::new(work)) {
        Ok(()) => ExitCode::SUCCESS,
        Err(error) => {
            eprintln!("bench: {error}");
            ExitCode::FAILURE
        }
    }
}

fn run(programs: &Programs, work: &Path) -> io::Result<()> {
    let mut plan = Plan::new(programs, work)?;
    measure_all(programs, plan.cases.iter_mut().map(|(_, case)| case))?;
    let profile = profile::profile(&programs.proved, &plan.last(Series::Profiled).folder)?;
    let peers = peers::measure(&ASKED_OF_PEERS.map(|named| plan.case(named)));
    report::method(&plan);
    goals::goals(&plan, profile.as_ref());
    report::turns_a_second(&plan);
    report::seats(&plan);
    report::timetable(&plan);
    report::condition(&plan);
    report::runs(&plan);
    report::padded_columns(&plan);
    report::blanks(&plan);
    report::before(&plan);
    report::shares(&Shares::new(&plan));
    report::instructions(&plan, profile.as_ref());
    let memory = |named: Named| Ok((named.name, peaks(programs, plan.case(named))?));
    let rows: io::Result<Vec<_>> = [ALL_ASKED, OVER_EMPTY_LINES].into_iter().map(memory).collect();
    report::memory(&rows?);
    report::peers(&plan, &peers?);
    Ok(())
}

fn peaks(programs: &Programs, case: &Case) -> io::Result<[u64; 2]> {
    Ok([peak_memory(&programs.proved, &case.folder)?, peak_memory(&programs.independent, &case.folder)?])
}
