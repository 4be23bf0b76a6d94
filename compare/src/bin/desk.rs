//! Document 01, "The desk program". With `--six` it is kept at six fraction digits.

fn main() -> std::io::Result<()> {
    compare::words::heed()?;
    compare::files::answer_over_timetable(compare::programs::desk)
}
