//! Drives the desk's calls over desks that its input builds: docs/LINES.md, "Hostile desks".

fn main() -> std::io::Result<()> {
    compare::files::answer_over_timetable(compare::hostile::hostile_desks)
}
