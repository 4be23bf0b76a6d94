//! The desk program with each condition's text read once, when it is opened.

fn main() -> std::io::Result<()> {
    compare::files::answer_over_timetable(compare::programs::desk_read_once)
}
