//! Writes generated cases; the same seed always gives the same.
//!
//!     generate calls SEED COUNT          prints so many calculator lines
//!     generate judgements SEED COUNT     prints so many lines of judgements
//!     generate desk SEED DIR             writes one desk case into DIR: timetable.tsv and conditions
//!     generate desks SEED COUNT DIR      writes desk cases into DIR/1, DIR/2, .. and those at the bounds into DIR/edge-1, ..
//!     generate hostile SEED COUNT DIR    writes random scripts of hostile_desks into DIR/1, DIR/2, .., each with its
//!                                        timetable.tsv and events, and those of the desks built in every way into DIR/NAME
//!     generate library SEED COUNT DIR    writes random sessions of library_example into DIR/1, DIR/2, .., each with its
//!                                        timetable.tsv and calls, and the tables of calls into DIR/NAME
//!     generate edges DIR                 writes calculator inputs at the bounds of a whole input, and the tables of calls at
//!                                        the calendar's cycle, with blanks and with nanoseconds
//!
//! With --histogram after these, what the cases cover is printed to standard error. With --six the cases are made for
//! programs that are kept at six digits, and no fraction in them has more; library and hostile have no such cases.

use compare::generator::desks::{self, Case, Timetable};
use compare::generator::{blanks, calls, cycle, histogram::Histogram, hostile, inputs, judgements, library, nine};
use compare::generator::{random::Random, six};
use compare::lines::lines;
use compare::values::ticks::{keep_six_digits, kept_at_six};
use std::fs;
use std::io::{self, BufWriter, Write};
use std::path::Path;
use std::process::ExitCode;

const WORDS: &str = "words: calls SEED COUNT | judgements SEED COUNT | desk SEED DIR | desks SEED COUNT DIR | \
    hostile SEED COUNT DIR | library SEED COUNT DIR | edges DIR";

fn main() -> ExitCode {
    let mut words: Vec<String> = std::env::args().skip(1).collect();
    let shown = words.iter().any(|word| word == "--histogram");
    if words.iter().any(|word| word == "--six") {
        keep_six_digits();
    }
    words.retain(|word| word != "--histogram" && word != "--six");
    let words: Vec<&str> = words.iter().map(String::as_str).collect();
    let mut histogram = if shown { Histogram::shown() } else { Histogram::default() };
    let done = match words[..] {
        ["calls", seed, count] => generate_calls(number(seed), number(count), &mut histogram),
        ["desk", seed, dir] => write_desk(&desks::case(number(seed)), Path::new(dir), &mut histogram),
        ["desks", seed, count, dir] => generate_desks(number(seed), number(count), Path::new(dir), &mut histogram),
        ["judgements", seed, count] => generate_judgements(number(seed), number(count), &mut histogram),
        ["hostile" | "library", ..] if kept_at_six() => Err(io::Error::other("--six is for calls, judgements, desks and edges")),
        ["hostile", seed, count, dir] => generate_hostile(number(seed), number(count), Path::new(dir), &mut histogram),
        ["library", seed, count, dir] => generate_library(number(seed), number(count), Path::new(dir), &mut histogram),
        ["edges", dir] => generate_edges(Path::new(dir), &mut histogram),
        _ => Err(io::Error::other(WORDS)),
    };
    if let Err(error) = done {
        eprintln!("generate: {error}");
        return ExitCode::from(2);
    }
    histogram.print();
    ExitCode::SUCCESS
}

fn number(word: &str) -> u64 {
    word.parse().unwrap_or_else(|_| panic!("a whole number is wanted, not {word}"))
}

fn generate_calls(seed: u64, count: u64, histogram: &mut Histogram) -> io::Result<()> {
    let mut random = Random::new(seed);
    let mut output = BufWriter::new(io::stdout());
    for _ in 0..count {
        let line = kept(calls::call(&mut random));
        histogram.count_call(&line);
        output.write_all(&line)?;
        output.write_all(b"\n")?;
    }
    output.flush()
}

fn generate_judgements(seed: u64, count: u64, histogram: &mut Histogram) -> io::Result<()> {
    let mut output = BufWriter::new(io::stdout());
    for line in judgements::lines(seed, count as usize).map(kept) {
        histogram.count_judgement(&line);
        output.write_all(&line)?;
        output.write_all(b"\n")?;
    }
    output.flush()
}

/// What is written of a text: all of it, or the fractions cut to six digits.
fn kept(text: Vec<u8>) -> Vec<u8> {
    if kept_at_six() {
        six::cut(&text)
    } else {
        text
    }
}

fn write_timetable(timetable: &Timetable, dir: &Path) -> io::Result<()> {
    fs::create_dir_all(dir)?;
    match timetable {
        Timetable::Missing => Ok(()),
        Timetable::Folder => fs::create_dir_all(dir.join("timetable.tsv")),
        Timetable::Bytes(bytes) => fs::write(dir.join("timetable.tsv"), kept(bytes.clone())),
    }
}

fn write_desk(case: &Case, dir: &Path, histogram: &mut Histogram) -> io::Result<()> {
    write_timetable(&case.timetable, dir)?;
    let conditions = kept(case.conditions.clone());
    fs::write(dir.join("conditions"), &conditions)?;
    histogram.count_desk(&kept(case.timetable.bytes().to_vec()), &conditions);
    Ok(())
}

fn write_hostile(case: &hostile::Case, dir: &Path, histogram: &mut Histogram) -> io::Result<()> {
    write_timetable(&case.timetable, dir)?;
    fs::write(dir.join("events"), &case.events)?;
    histogram.count_hostile(case.timetable.bytes(), &case.events);
    Ok(())
}

fn write_library(case: &library::Case, dir: &Path, histogram: &mut Histogram) -> io::Result<()> {
    write_timetable(&case.timetable, dir)?;
    fs::write(dir.join("calls"), &case.calls)?;
    histogram.count_library(case.timetable.bytes(), &case.calls);
    Ok(())
}

/// Each case's own seed.
fn seed_at(seed: u64, place: u64) -> u64 {
    seed.wrapping_mul(1_000_003).wrapping_add(place)
}

fn generate_hostile(seed: u64, count: u64, dir: &Path, histogram: &mut Histogram) -> io::Result<()> {
    for place in 1..=count {
        write_hostile(&hostile::case(seed_at(seed, place)), &dir.join(place.to_string()), histogram)?;
    }
    for case in hostile::made() {
        write_hostile(&case, &dir.join(&case.name), histogram)?;
    }
    Ok(())
}

fn generate_library(seed: u64, count: u64, dir: &Path, histogram: &mut Histogram) -> io::Result<()> {
    for place in 1..=count {
        write_library(&library::case(seed_at(seed, place)), &dir.join(place.to_string()), histogram)?;
    }
    for case in library::made() {
        write_library(&case, &dir.join(&case.name), histogram)?;
    }
    Ok(())
}

fn generate_desks(seed: u64, count: u64, dir: &Path, histogram: &mut Histogram) -> io::Result<()> {
    for place in 1..=count {
        write_desk(&desks::case(seed_at(seed, place)), &dir.join(place.to_string()), histogram)?;
    }
    for (place, case) in (1..).zip(desks::edges(seed)) {
        write_desk(&case, &dir.join(format!("edge-{place}")), histogram)?;
    }
    Ok(())
}

fn generate_edges(dir: &Path, histogram: &mut Histogram) -> io::Result<()> {
    fs::create_dir_all(dir)?;
    write_bounds(dir)?;
    let cycle = cycle::calls::parts().into_iter().flat_map(|(name, calls)| inputs::named(name, &calls));
    let blanks = blanks::calls::parts().into_iter().flat_map(|(name, calls)| inputs::of_lines(name, &calls));
    let nine = nine::calls::parts().into_iter().flat_map(|(name, calls)| inputs::named(name, &calls));
    for (name, input) in cycle.chain(blanks).chain(nine) {
        let input = kept(input);
        for line in lines(&input) {
            histogram.count_call(line);
        }
        fs::write(dir.join(name), input)?;
    }
    Ok(())
}

/// Empty input, input without a final newline, and inputs of 65,536 bytes and beside it, some of one line.
fn write_bounds(dir: &Path) -> io::Result<()> {
    let call = b"add\txs:date\t2000-01-31\txs:yearMonthDuration\tP1M";
    fs::write(dir.join("empty"), b"")?;
    fs::write(dir.join("newline"), b"\n")?;
    fs::write(dir.join("newlines"), b"\n\n\n")?;
    fs::write(dir.join("unended"), call)?;
    fs::write(dir.join("ended"), [call.as_slice(), b"\n"].concat())?;
    fs::write(dir.join("blank-end"), [call.as_slice(), b"\n\n"].concat())?;
    fs::write(dir.join("return-end"), [call.as_slice(), b"\r\n"].concat())?;
    for length in [65_535, 65_536, 65_537, 131_072] {
        let line = [call.as_slice(), b"\n"].concat();
        let calls: Vec<u8> = line.iter().copied().cycle().take(length).collect();
        fs::write(dir.join(format!("calls-{length}")), calls)?;
        let zeros = [b"read\txs:dayTimeDuration\tP".as_slice(), &vec![b'0'; length - 30], b"7D\n"].concat();
        fs::write(dir.join(format!("zeros-{length}")), [zeros.as_slice(), &vec![b'\n'; length - zeros.len()]].concat())?;
        let nines = [b"read\txs:dayTimeDuration\tP".as_slice(), &vec![b'9'; length - 27], b"D"].concat();
        fs::write(dir.join(format!("nines-{length}")), nines)?;
        fs::write(dir.join(format!("newlines-{length}")), vec![b'\n'; length])?;
        let spaces = vec![b' '; length - 23];
        fs::write(dir.join(format!("padded-{length}")), [b"read\txs:date\t2000-01-01".as_slice(), &spaces].concat())?;
        fs::write(dir.join(format!("padding-{length}")), [b"read\txs:date\t".as_slice(), &spaces, b"2000-01-01"].concat())?;
    }
    Ok(())
}
