//! Answers the calls of its input over values and one desk: docs/LINES.md, "Library example".

fn main() -> std::io::Result<()> {
    compare::files::answer_over_timetable(compare::library::library_example)
}
